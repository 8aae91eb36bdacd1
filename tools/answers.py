#!/usr/bin/env python3
"""What the program answers to a command line before it opens a file: help, a usage fault, and a file that isn't there.

    answers.py --check    fails if mls_commands/src or mls_program/src is another than these answers were compared with, or
                          has another version than the file VERSION

The launcher prints these answers before the program is built. Help is in tools/help, one file for each command. The texts
of usage faults are those of the crate clap, and of crates/mls_commands/src; those of a file that isn't there are those of
crates/mls_program/src. Any other command line, also one of a kind that is not foreseen here, has no answer
here: then the program is built, and answers. So it does if one of these sources has changed. tests/launcher.py compares
these answers with those of the proved program.
"""
import errno
import hashlib
import os
import re
import stat
import sys

import version

TOP = os.path.dirname(os.path.dirname(os.path.realpath(__file__)))
HELP = os.path.join(TOP, "tools", "help")
SOURCES = [os.path.join(TOP, "crates", name, "src") for name in ("mls_commands", "mls_program")]
PROGRAM = "mlscheck"

# The file with the sum of the sources that the answers were compared with.
COMPARED = os.path.join(HELP, "compared")

# The file that has the version which the program prints.
VERSIONED = os.path.join("crates", "mls_commands", "src", "clap_command.rt")

RULES = {"strict": None, "allow": "NUMBERS"}
GROUP = {"info": "FILE", "tree": "FILE", "state": "FILE", "profile": "PROFILE", **RULES}
CHECKER = {"trust": None, "receipts": "FILE"}
TIME = {"now": "SECONDS"}

# Of each command: its positional words, its options with what each takes, and the options that have to be given.
COMMANDS = {
    "show": (["KIND", "FILE"], {"profile": "PROFILE"}, []),
    "validate-tree": ([], {"context": "FILE", "tree": "FILE", **RULES, **CHECKER}, ["context", "tree"]),
    "validate": ([], {**GROUP, **CHECKER}, []),
    "validate-key-package": (["FILE"], {**RULES, **CHECKER}, []),
    "replay": ([], {**GROUP, "log": "FILE", "save": "FILE", **TIME, **CHECKER}, ["log"]),
    "signatures": ([], {**GROUP, "log": "FILE", "key-package": "FILE", "receipts": "FILE"}, []),
    "gate": ([], {**GROUP, **TIME, **CHECKER}, []),
    "check": (["KIND", "FILE"], {}, []),
}
# The arguments that take one value or more.
SEVERAL = {("validate-key-package", "FILE"), ("signatures", "key-package")}

KINDS = {
    "show": (["tree", "info", "message", "key-package", "members", "state", "log"],
             "usage: KIND is tree, info, message, key-package, members, state or log\n"),
    "check": (["tree-math", "tree-validation", "tree-operations", "transcript"],
              "usage: KIND is tree-math, tree-validation, tree-operations or transcript\n"),
}

# The numbers of strict rules, with commas between.
NUMBERS = re.compile(r"(?:4[0-9]|5[0-2])(?:,(?:4[0-9]|5[0-2]))*")

# A number in decimal digits. It has to fit in 64 bits.
SECONDS = re.compile(r"0*([0-9]{1,20})")

NO_COMMAND = f"Usage: {PROGRAM} <COMMAND>"

# The files that a command reads, in the order in which it opens them. One of them may be standard input.
INPUTS = ["receipts", "FILE", "key-package", "context", "info", "tree", "state", "log"]
RECEIPTS = re.compile(rb"(?:[0-9a-fA-F]{64}(?:\n|\Z))*")
MOST_RECEIPTS = 2**28


class Unforeseen(Exception):
    """The program has to answer."""


class Answer(Exception):
    def __init__(self, status, text):
        super().__init__()
        self.status = status
        self.text = text


def help_text(name):
    with open(os.path.join(HELP, name + ".txt"), encoding="utf-8") as file:
        return file.read()


def help_of(name):
    return Answer(0, help_text(name))


def refusal(text, usage=""):
    return Answer(2, f"error: {text}\n\n{usage}{usage and chr(10) * 2}For more information, try '--help'.\n")


def jaro(a, b):
    """The Jaro similarity of two words, by which clap looks for what was meant."""
    reach = max(max(len(a), len(b)) // 2 - 1, 0)
    taken, mine = [False] * len(b), []
    for i, letter in enumerate(a):
        for j in range(max(0, i - reach), min(len(b), i + reach + 1)):
            if b[j] == letter and not taken[j]:
                taken[j] = True
                mine.append(letter)
                break
    if not mine:
        return 1.0 if a == b else 0.0
    others = [letter for j, letter in enumerate(b) if taken[j]]
    swapped = sum(x != y for x, y in zip(mine, others)) // 2
    count = len(mine)
    return (count / len(a) + count / len(b) + (count - swapped) / count) / 3


def similar(word, names):
    """The names that are like a word, the best one last."""
    found = sorted(((jaro(word, name), i) for i, name in enumerate(names)))
    return [names[i] for likeness, i in found if likeness > 0.7]


# ---- a command's words


class Parser:
    """Goes over the words of a command as clap does. It refuses the first fault."""

    def __init__(self, name):
        self.name = name
        self.positionals, self.options, self.required = COMMANDS[name]
        self.given = {}
        self.pending = None

    def is_several(self, name):
        return (self.name, name) in SEVERAL

    def shown(self, name):
        more = "..." if self.is_several(name) else ""
        if name in self.positionals:
            return f"<{name}>{more}"
        value = self.options.get(name)
        return f"--{name} <{value}>{more}" if value else f"--{name}"

    def usage(self, used):
        """The usage in a refusal: that of help, or if that is clap's own, the options that were used or are required."""
        whole = re.search(r"^Usage: .*?(?=\n\n)", help_text(self.name), re.MULTILINE | re.DOTALL)[0]
        if "[OPTIONS]" not in whole:
            return whole
        options = self.required + [name for name in used if name not in self.positionals]
        words = [PROGRAM, self.name] + ([] if used or not self.options else ["[OPTIONS]"])
        words += [self.shown(name) for name in dict.fromkeys(options)]
        return " ".join(["Usage:", *words, *map(self.shown, self.positionals)])

    def resolve(self):
        """Takes the option or positional that was read last, or refuses it."""
        if self.pending is None:
            return
        (name, value), self.pending = self.pending, None
        if not value and (value is None or self.is_several(name)):
            raise refusal(f"a value is required for '{self.shown(name)}' but none was supplied")
        if name in self.positionals and self.is_several(name):
            value = self.given.pop(name, []) + value
        if self.given.pop(name, None) is not None:
            raise refusal(f"the argument '{self.shown(name)}' cannot be used multiple times", self.usage([]))
        self.given[name] = value

    def resolve_unknown(self):
        """The same before an unknown word, which is refused whatever is wrong with the option before it."""
        try:
            self.resolve()
        except Answer:
            pass

    def unknown(self, word, used=(), tip=""):
        raise refusal(f"unexpected argument '{word}' found{tip and chr(10) * 2}{tip}", self.usage(list(used)))

    def unknown_option(self, word):
        self.resolve_unknown()
        is_long = word.startswith("--")
        shown = word.partition("=")[0] if is_long else word[:2]
        tip = f"  tip: to pass '{shown}' as a value, use '-- {shown}'" if self.positionals else ""
        if not is_long:
            self.unknown(shown, (), tip)
        meant = similar(shown[2:], [*self.options, "help"])[-1:]
        if meant == ["help"]:
            raise Unforeseen
        if meant:
            tip = f"  tip: a similar argument exists: '--{meant[0]}'"
        self.unknown(shown, dict.fromkeys([*self.given, *meant]), tip)

    def option(self, word):
        name, equals, value = word[2:].partition("=")
        if name == "help" and not equals:
            self.resolve()
            raise help_of(self.name)
        if name not in self.options:
            self.unknown_option(word)
        takes_value = self.options[name] is not None
        if equals and not takes_value:
            raise Unforeseen
        self.resolve()
        if self.is_several(name):
            self.pending = (name, [value] if equals else [])
        else:
            self.pending = (name, value if equals else None if takes_value else "true")
        if equals or not takes_value:
            self.resolve()

    def word(self, word):
        if word == "--":
            raise Unforeseen
        if word.startswith("--"):
            self.option(word)
        elif word.startswith("-h"):
            self.resolve()
            raise help_of(self.name)
        elif word.startswith("-") and word != "-":
            self.unknown_option(word)
        elif self.pending and self.pending[1] is None:
            self.pending = (self.pending[0], word)
        elif self.pending and self.is_several(self.pending[0]):
            self.pending[1].append(word)
        else:
            self.positional(word)

    def positional(self, word):
        waiting = self.pending[0] if self.pending else None
        free = [name for name in self.positionals
                if self.is_several(name) or name not in self.given and name != waiting]
        if not free:
            self.resolve_unknown()
            self.unknown(word)
        self.resolve()
        self.pending = (free[0], [word] if self.is_several(free[0]) else word)

    def parse(self, words):
        for word in words:
            self.word(word)
        self.resolve()
        missing = [name for name in self.required + self.positionals if name not in self.given]
        if missing:
            names = "".join(f"\n  {self.shown(name)}" for name in missing)
            used = dict.fromkeys([*self.given, *missing])
            raise refusal("the following required arguments were not provided:" + names, self.usage(list(used)))
        return self.given


# ---- what the program says of the words of a command


def rules_fault(given):
    """The text of the fault of the options of the strict rules, if there is one."""
    if "allow" not in given:
        return None
    if "strict" not in given:
        return "usage: --allow is for --strict\n"
    numbers = given["allow"].split(",")
    if not NUMBERS.fullmatch(given["allow"]) or len(set(numbers)) < len(numbers):
        return "usage: NUMBERS are rules from 40 to 52, with commas between, none twice\n"
    return None


def time_fault(given):
    """The text of the fault of the time, if there is one."""
    seconds = SECONDS.fullmatch(given.get("now", "0"))
    if seconds is None or int(seconds[1]) >= 2**64:
        return "usage: SECONDS is a number from 0 to 18446744073709551615\n"
    return None


def files_of(given, name):
    """The files that an argument names."""
    files = given.get(name, [])
    return files if isinstance(files, list) else [files]


def usage_fault(name, given):
    """The text of the first rule for a command's words that clap does not know, if one is broken."""
    inputs = [file for argument in INPUTS for file in files_of(given, argument) if file == "-"]
    if len(inputs) > 1:
        return "usage: standard input can be given for one file\n"
    if name in KINDS:
        kinds, text = KINDS[name]
        if given["KIND"] not in kinds:
            return text
        if "profile" in given and given["KIND"] not in ("message", "log"):
            return "usage: --profile is for show message and show log\n"
        if given.get("profile", "full") not in ("members", "full"):
            return "usage: PROFILE is members or full\n"
        return None
    if name == "gate" and inputs:
        return "usage: standard input has the records of the gate\n"
    chosen = len({"trust", "receipts"} & set(given))
    if name != "signatures" and (chosen == 2 or chosen == 0 and name != "gate"):
        return "usage: give one of --trust and --receipts\n"
    if "key-package" in given and {"info", "tree", "state", "profile", "log"} & set(given):
        return "usage: with --key-package give --strict, --allow and --receipts alone\n"
    fault = rules_fault(given)
    if fault or name in ("validate-tree", "validate-key-package") or "key-package" in given:
        return fault
    if ("info" in given) == ("state" in given) or "tree" in given and "state" in given:
        return "usage: give --info, with --tree or without it, or --state\n"
    if "state" in given and "profile" in given:
        return "usage: a state names its profile: give no --profile with --state\n"
    if given.get("profile", "full") not in ("members", "full"):
        return "usage: PROFILE is members or full\n"
    if given.get("save") == "-":
        return "usage: a state is stored in a file with a name\n"
    return time_fault(given)


def why_missing(file):
    """Why there is no file of this name; nothing, if there is a plain file that can be opened."""
    try:
        with open(file.encode(), "rb") as opened:
            if not stat.S_ISREG(os.fstat(opened.fileno()).st_mode):
                raise Unforeseen
            return None
    except FileNotFoundError:
        return "no such file" if file else "the name is empty"
    except NotADirectoryError:
        return "a part of the path is no folder"
    except OSError as error:
        raise Unforeseen from error


def has_good_receipts(file):
    """Whether a file of receipts has no bad line: a bad one is reported before a missing file."""
    if os.path.getsize(file.encode()) > MOST_RECEIPTS:
        return False
    with open(file.encode(), "rb") as receipts:
        return RECEIPTS.fullmatch(receipts.read()) is not None


def named_file(words, name):
    """The first word that is or has this name, and the option that it belongs to, as a fault names a file."""
    for before, word in zip(words, words[1:]):
        option, equals, value = word.partition("=")
        if word.startswith("--") and equals:
            if value == name:
                return f"{option} {name}"
        elif word == name:
            return f"{before} {name}" if before.startswith("--") and "=" not in before else name
    raise Unforeseen


def check_files(words, given):
    for name in INPUTS:
        # Of several files the first one is opened before anything is printed.
        file = (files_of(given, name) or ["-"])[0]
        if file == "-":
            if name in given and (name == "receipts" or (words[0], name) in SEVERAL):
                raise Unforeseen
            continue
        why = why_missing(file)
        if why:
            raise Answer(3, f"fault: read\n{named_file(words, file)}: {why}\n")
        if name == "receipts" and not has_good_receipts(file):
            raise Unforeseen
    raise Unforeseen


def unknown_option_of_none(word, rest):
    """The refusal of an option before the command, if one of the later words is a command that has such an option."""
    name = word.partition("=")[0][2:] if word.startswith("--") else ""
    if similar(name, ["help", "version"]) or word == "--":
        raise Unforeseen
    shown = f"--{name}" if name else word[:2]
    meant = {command: similar(name, [*COMMANDS[command][1], "help"])[-1:] for command in COMMANDS if command in rest}
    first = min((rest.index(command) for command in meant if meant[command]), default=None)
    tip = f"\n\n  tip: '{rest[first]} --{meant[rest[first]][0]}' exists" if first is not None else ""
    return refusal(f"unexpected argument '{shown}' found{tip}", NO_COMMAND)


def answer_without_command(words):
    if not words:
        names = ", ".join([*COMMANDS, "help"])
        return refusal(f"'{PROGRAM}' requires a subcommand but one was not provided\n  [subcommands: {names}]", NO_COMMAND)
    word, rest = words[0], words[1:]
    if word.startswith("-h") or word == "--help" or words == ["help"]:
        return help_of(PROGRAM)
    if word == "help":
        if len(rest) != 1 or rest == ["help"]:
            raise Unforeseen
        return help_of(rest[0]) if rest[0] in COMMANDS else refusal(f"unrecognized subcommand '{rest[0]}'", NO_COMMAND)
    if word.startswith("-V"):
        raise Unforeseen
    if word.startswith("-") and word != "-":
        return unknown_option_of_none(word, rest)
    meant = similar(word, [*COMMANDS, "help"])
    exist = "a similar subcommand exists" if len(meant) == 1 else "some similar subcommands exist"
    tip = f"\n\n  tip: {exist}: " + ", ".join(f"'{name}'" for name in meant) if meant else ""
    return refusal(f"unrecognized subcommand '{word}'{tip}", NO_COMMAND)


def answer_of(words):
    try:
        words = [os.fsencode(word).decode() for word in words]
    except UnicodeDecodeError as error:
        raise Answer(2, "usage: a word is not UTF-8 text\n") from error
    if not words or words[0] not in COMMANDS:
        raise answer_without_command(words)
    given = Parser(words[0]).parse(words[1:])
    fault = usage_fault(words[0], given)
    if fault:
        raise Answer(2, fault)
    check_files(words, given)


def sum_of_sources():
    total = hashlib.sha256()
    for path in sorted(os.path.join(folder, name) for folder in SOURCES for name in os.listdir(folder)):
        with open(path, "rb") as file:
            total.update(f"{os.path.basename(path)}\0{hashlib.sha256(file.read()).hexdigest()}\n".encode())
    return total.hexdigest()


def are_compared():
    """Whether the answers were compared with the program as its sources are now."""
    if not os.path.exists(COMPARED):
        return False
    with open(COMPARED, encoding="utf-8") as file:
        return file.read().strip() == sum_of_sources()


def has_version():
    """Whether the program's version is that of the release."""
    with open(os.path.join(TOP, VERSIONED), encoding="utf-8") as file:
        return f'VERSION: &str = "{version.number()}"' in file.read()


def find_answer(words):
    """Returns the exit status and the text that the program answers to these words; none if the program has to say it."""
    try:
        if are_compared():
            answer_of(words)
    except Answer as answer:
        return answer.status, answer.text
    except (Unforeseen, OSError):
        return None
    return None


def end_if_answered(words):
    """Prints the answer to these words as the program does, and ends, if there is one here."""
    answer = find_answer(words)
    if answer is None:
        return
    status, text = answer
    data = text.encode()
    try:
        while data:
            data = data[os.write(2 if status else 1, data):]
    except OSError as error:
        if status == 0:
            sys.exit(end_unwritten(error))
    sys.exit(status)


def end_unwritten(error):
    texts = {errno.ENOSPC: "no space is left", errno.EPIPE: "nobody reads it"}
    why = texts.get(error.errno, f"{error.strerror} (os error {error.errno})")
    try:
        os.write(2, f"fault: write\nstandard output: {why}\n".encode())
    except OSError:
        pass
    return 3


if __name__ == "__main__":
    if sys.argv[1:] != ["--check"]:
        print(__doc__.strip(), file=sys.stderr)
        sys.exit(2)
    if not has_version():
        sys.exit(f"answers: the version of {VERSIONED} is not that of the file VERSION, {version.number()}")
    if not are_compared():
        sys.exit("answers: crates/mls_commands/src or mls_program/src has changed: compare the answers with the program that "
                 "was built of it, by tests/launcher.py --write")
