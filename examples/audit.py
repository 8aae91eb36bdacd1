#!/usr/bin/env python3
"""Audits a group: judges a log of its handshakes, and writes one HTML file with the verdict and the reasons.

    audit.py [--profile PROFILE] [--plain | --allow NUMBERS] [--output FILE] [--receipts FILE] INFO [TREE] LOG

INFO is a GroupInfo in its MLSMessage, TREE the ratchet tree if the GroupInfo has none, LOG the handshakes, each behind its
length (log.py packs one). The strict rules are asked too, unless `--plain` is there.

The verdict is that of `mlscheck validate` and `mlscheck replay`. The signatures are those that `mlscheck gate` lists for each
message (gate.py), so none is left out after a bad one. The Python package `cryptography` verifies them (receipts.py). Who came,
left and committed is read from the accepted messages (members.py). The members of the last epoch have to be those of the state
that mlscheck prints. The reasons in words are those of docs/FORMATS.md (audit_page.py). Nothing here is proved.

The same files give the same report: it has no date.

Exit status: 0 if everything is accepted, 1 if not, 2 for a wrong command line, 3 for a fault of a file or a program.
"""

import argparse
import collections
import contextlib
import dataclasses
import os
import pathlib
import shlex
import subprocess
import sys
import tempfile
import time
import traceback

import audit_page
import log
from log import Fault
from members import Changes, Group, content_words, described, read_content, read_state

try:
    import cryptography
    from gate import PROGRAM, Gate
except (ImportError, SystemExit):
    print("fault: the Python package cryptography is not here: install it (Debian's python3-cryptography)", file=sys.stderr)
    sys.exit(3)

# How many members are listed in all under the epochs. Above that they are listed of the last epoch alone.
MOST_LISTED = 100_000

# How many signatures are verified at once.
LEARNT = 500

# ---- the run

@dataclasses.dataclass
class Epoch:
    """An epoch: the message whose commit begins it, and what was accepted in it."""

    number: int
    tree_hash: str
    confirmed: str
    message: int
    changes: Changes
    count: int
    members: list
    proposals: list = dataclasses.field(default_factory=list)


# A refused message: its number, its offset in the log, what it is in words, and the words of the gate after `refused`.
RefusedMessage = collections.namedtuple("RefusedMessage", "number at what words")

Input = collections.namedtuple("Input", "role path data")


@dataclasses.dataclass
class Audit:
    """What came of the run. `start` is the line of `validate`, `notes` what it said on standard error, `counts` the last line
    of `replay`. `bad` has the number of each message with bad signatures, 0 for the start, and how many. `trees` are the lines
    of `show tree` by epoch."""

    words: argparse.Namespace
    inputs: list
    version: str
    commands: list
    library: str = f"cryptography {cryptography.__version__}"
    start: str = ""
    notes: str = ""
    counts: str = ""
    info: dict = dataclasses.field(default_factory=dict)
    epochs: list = dataclasses.field(default_factory=list)
    refused: list = dataclasses.field(default_factory=list)
    answers: list = dataclasses.field(default_factory=list)
    broken: log.Broken = None
    trees: dict = dataclasses.field(default_factory=dict)
    leaves: dict = dataclasses.field(default_factory=dict)
    verified: int = 0
    bad: list = dataclasses.field(default_factory=list)
    listed: int = 0

    def is_started(self):
        return self.start.startswith("valid ")

    def is_accepted(self):
        return self.is_started() and not self.refused and not self.broken


class Progress:
    """Says on a terminal how far the work is, if it takes more than two seconds."""

    def __init__(self):
        self.is_shown, self.next, self.width = sys.stderr.isatty(), time.monotonic() + 2, 0

    def step(self, text, *values):
        if self.is_shown and time.monotonic() >= self.next:
            self.next = time.monotonic() + 0.25
            self.put(text.format(*values))

    def put(self, text):
        sys.stderr.write("\r" + text.ljust(self.width))
        sys.stderr.flush()
        self.width = len(text)

    def end(self):
        if self.width:
            self.put("")
            sys.stderr.write("\r")
            self.width = 0


class CountingGate(Gate):
    """A gate that knows how many signatures were verified for the last message, and how many of them were not good."""

    def __init__(self, progress, *words):
        super().__init__(*words)
        self.progress, self.verified, self.failed = progress, 0, 0

    def learn(self, wanted):
        before = len(self.receipts)
        for at in range(0, len(wanted), LEARNT):
            super().learn(wanted[at:at + LEARNT])
            self.progress.step("verified: {} of {} signatures", min(at + LEARNT, len(wanted)), len(wanted))
        self.verified, self.failed = len(wanted), len(wanted) - (len(self.receipts) - before)


def named(path):
    """A path as a word that is no option, nor standard input."""
    return path if not path.startswith("-") else "./" + path


def group_words(words):
    """The options of mlscheck that name the group and the rules."""
    found = ["--info", named(words.info)]
    if words.tree:
        found += ["--tree", named(words.tree)]
    if words.profile != "members":
        found += ["--profile", words.profile]
    if not words.plain:
        found.append("--strict")
    return found + (["--allow", words.allow] if words.allow else [])


def commands(words):
    """The commands that repeat the verdict by the receipts."""
    options = [*group_words(words), "--receipts", named(words.receipts or "receipts.txt")]
    return [shlex.join(["mlscheck", "validate", *options]),
            shlex.join(["mlscheck", "replay", *options, "--log", named(words.log)])]


def run(*words, data=None):
    """What mlscheck prints, and what it says on standard error, if its status is 0 or 1."""
    try:
        done = subprocess.run([PROGRAM, *words], input=data, stdout=subprocess.PIPE, stderr=subprocess.PIPE, check=False)
    except OSError as error:
        raise Fault(f"{PROGRAM}: {error.strerror}: build mlscheck, or name the program by the variable PROGRAM") from error
    notes = done.stderr.decode(errors="replace")
    if done.returncode not in (0, 1):
        raise Fault(f"mlscheck {words[0]} ended with status {done.returncode}\n{notes}".rstrip())
    return done.stdout.decode(), notes


def version():
    """The line of `mlscheck --version`, and what a packed release says that it was made from."""
    printed, _ = run("--version")
    release = pathlib.Path(PROGRAM).resolve().parent / "RELEASE"
    return printed + (release.read_text(encoding="utf-8", errors="replace") if release.is_file() else "")


def info_of(path):
    """The lines of `show info` by their first words; none if the file is no GroupInfo."""
    printed, _ = run("show", "info", named(path))
    lines = [line.partition(" ") for line in printed.splitlines()]
    return {} if printed.startswith("unreadable") else {name: rest for name, _, rest in lines}


def follow(audit, gate, progress):
    """Follows the group through the log, by a gate: learns which signatures are good, and judges each message."""
    line = gate.begin()
    audit.info = info_of(audit.words.info)
    count_signatures(audit, gate, 0)
    if not line.startswith("ready "):
        return
    _, _, epoch, _, _, _, tree_hash = line.split()
    group = Group(state_of(audit, gate, int(epoch)))
    add_epoch(audit, group, int(epoch), tree_hash, audit.info["confirmed"], 0, None)
    data = audit.inputs[-1].data
    try:
        for number, (at, body) in enumerate(log.messages(data), 1):
            answer = gate.judge(body)
            count_signatures(audit, gate, number)
            take(audit, group, number, at, body, answer)
            progress.step("verified and judged: {} messages, {:.1f} of {:.1f} MB", number, at / 1e6, len(data) / 1e6)
    except log.Broken as broken:
        audit.broken = broken
    if group.members != state_of(audit, gate, audit.epochs[-1].number):
        raise Fault("the members that audit.py read from the messages are not those of the state of mlscheck: report this")


def state_of(audit, gate, epoch):
    """The leaf nodes of the state of the gate, by leaf index. Its tree is drawn."""
    state = read_state(gate.state())
    audit.trees[epoch] = run("show", "tree", "-", data=state.tree)[0].splitlines()
    audit.leaves = state.leaves
    return state.leaves


def count_signatures(audit, gate, number):
    audit.verified += gate.verified
    if gate.failed:
        audit.bad.append((number, gate.failed))


def add_epoch(audit, group, number, tree_hash, confirmed, message, changes):
    count = len(group.members)
    audit.listed += count
    members = sorted(group.members.items()) if audit.listed <= MOST_LISTED else None
    audit.epochs.append(Epoch(number, tree_hash, confirmed, message, changes, count, members))


def take(audit, group, number, at, body, answer):
    """Enters the answer to a message."""
    audit.answers.append(answer)
    kind, *words = answer.split()
    if kind == "refused":
        audit.refused.append(RefusedMessage(number, at, described(body, group), words))
    elif answer.startswith("accepted proposal "):
        content = read_content(body)
        group.pending[bytes.fromhex(words[1])] = content.index, content.body
        audit.epochs[-1].proposals.append((number, content_words(content, group)))
    elif answer.startswith("accepted commit "):
        changes = group.commit(read_content(body))
        add_epoch(audit, group, int(words[1]), words[2], words[3], number, changes)
    else:
        raise Fault(f"mlscheck gate answers message {number}: {answer}")


def line_of(number, answer):
    """The line of `replay` for an answer of the gate."""
    words = answer.split()
    if words[0] == "refused":
        words = words[:2] + (words[3:4] if words[1] == "25" else [])
    return " ".join([str(number), *words])


def judge_by_files(audit, receipts, progress):
    """Asks `validate` and `replay`, which have the files alone. What they print has to be what the gate answered."""
    words = [*group_words(audit.words), "--receipts", receipts]
    printed, audit.notes = run("validate", *words)
    audit.start = printed.rstrip("\n")
    if audit.is_started() != bool(audit.epochs):
        raise Fault(f"mlscheck validate and mlscheck gate answer differently: {audit.start}: report this")
    if not audit.is_started():
        return
    expected = [line_of(number, answer) for number, answer in enumerate(audit.answers, 1)]
    if audit.broken:
        expected.append(f"{audit.broken.number} broken")
    counts = len(audit.answers) - len(audit.refused), len(audit.refused), int(bool(audit.broken)), audit.epochs[-1].number
    expected.append("accepted {} refused {} broken {} epoch {}".format(*counts))
    replay([*words, "--log", named(audit.words.log)], expected, progress)
    audit.counts = expected[-1]


def replay(words, expected, progress):
    """Compares the lines of `replay` with those that are expected, as they come."""
    with tempfile.TemporaryFile() as notes, subprocess.Popen([PROGRAM, "replay", *words], stdout=subprocess.PIPE,
                                                             stderr=notes) as process:
        number = 0
        for number, line in enumerate(process.stdout, 1):
            if [line.decode().rstrip("\n")] != expected[number - 1:number]:
                process.kill()
                raise Fault(f"mlscheck replay and mlscheck gate answer message {number} differently: {line}: report this")
            progress.step("replayed: {} of {} messages", number, len(expected) - 1)
        if process.wait() not in (0, 1) or number < len(expected):
            notes.seek(0)
            raise Fault(f"mlscheck replay ended with status {process.returncode}\n{notes.read().decode(errors='replace')}")


def unchanged(inputs):
    for each in inputs:
        if read_file(each.role, each.path) != each.data:
            raise Fault(f"{each.path} was changed during the audit: run it again on files that stay as they are")


def store_receipts(path, gate):
    try:
        with open(path, "w", encoding="ascii") as file:
            file.writelines(receipt + "\n" for receipt in dict.fromkeys(gate.receipts))
    except OSError as error:
        raise Fault(f"{path}: {error.strerror}") from error


def audited(words):
    """The Audit of a group."""
    roles = [("GroupInfo", words.info), ("ratchet tree", words.tree), ("log", words.log)]
    inputs = [Input(role, path, read_file(role, path)) for role, path in roles if path]
    audit, progress = Audit(words, inputs, version(), commands(words)), Progress()
    with tempfile.TemporaryDirectory() as folder:
        receipts = words.receipts or os.path.join(folder, "receipts.txt")
        gate = CountingGate(progress, *group_words(words))
        try:
            follow(audit, gate, progress)
            gate.end()
            store_receipts(receipts, gate)
            judge_by_files(audit, receipts, progress)
        except RuntimeError as error:
            raise Fault(f"mlscheck gate: {error}: what it says of that stands above") from error
        finally:
            progress.end()
            if gate.process.poll() is None:
                gate.process.kill()
    unchanged(inputs)
    return audit


# ---- files and words

def read_file(role, path):
    """The bytes of a file that can be read more than once."""
    if os.path.exists(path) and not os.path.isfile(path):
        raise Fault(f"the {role} {path} is no regular file, and is read more than once: store it in one first")
    try:
        with open(path, "rb") as file:
            return file.read()
    except OSError as error:
        raise Fault(f"the {role} {path}: {error.strerror}") from error


def check_output(words):
    """Checks that what is written is no input, and nothing but a regular file."""
    inputs = [path for path in (words.info, words.tree, words.log) if path]
    for path in filter(None, (words.output, words.receipts)):
        if os.path.exists(path) and not os.path.isfile(path):
            raise Fault(f"{path} is no regular file: name another one")
        if any(os.path.exists(path) and os.path.exists(each) and os.path.samefile(path, each) for each in inputs):
            raise Fault(f"{path} is one of the inputs, and would be overwritten: name another file")


@contextlib.contextmanager
def replacing(path):
    """A file to write, which takes the place of that name once it is whole; `-` is standard output."""
    if path == "-":
        sys.stdout.reconfigure(encoding="utf-8")
        yield sys.stdout
        return
    new = path + ".new"
    try:
        file = open(new, "w", encoding="utf-8")
    except OSError as error:
        raise Fault(f"the report {path}: {error.strerror}") from error
    try:
        with file:
            yield file
        os.replace(new, path)
    except BaseException:
        os.unlink(new)
        raise


def numbers(text):
    """The NUMBERS of `--allow`."""
    found = text.split(",")
    if len(set(found)) < len(found) or not set(found) <= {str(number) for number in audit_page.STRICT}:
        raise argparse.ArgumentTypeError("NUMBERS are rules from 40 to 52, with commas between, none twice")
    return text


def words_of_main():
    parser = argparse.ArgumentParser(description="Judges a log of a group's handshakes, and writes a report as one HTML file.",
                                     epilog="Exit status: 0 if everything is accepted, 1 if not, 2 for a wrong command line, 3 "
                                            "for a fault. The program is ../mlscheck, or what the variable PROGRAM names.")
    parser.add_argument("info", metavar="INFO", help="the GroupInfo, in its MLSMessage")
    parser.add_argument("tree", metavar="TREE", nargs="?", help="the ratchet tree, if the GroupInfo has none")
    parser.add_argument("log", metavar="LOG", help="the handshakes, each behind its length (log.py packs one)")
    parser.add_argument("-o", "--output", metavar="FILE", default="audit.html", help="the report, which "
                        "replaces a file of that name: audit.html without this option, standard output for -")
    parser.add_argument("--receipts", metavar="FILE", help="also store the receipts of the good signatures")
    parser.add_argument("--profile", choices=["members", "full"], default="members",
                        help="the profile: members, which is the default, or full")
    strict = parser.add_mutually_exclusive_group()
    strict.add_argument("--plain", action="store_true", help="do not ask the strict rules")
    strict.add_argument("--allow", metavar="NUMBERS", type=numbers, help="the strict rules that may be broken, as 47 or 46,47")
    return parser.parse_intermixed_args()


def main():
    words = words_of_main()
    check_output(words)
    known, blocks = audit_page.rules(), audit_page.meaning()
    with replacing(words.output) as file:
        audit = audited(words)
        file.writelines(line + "\n" for line in audit_page.page(audit, known, blocks))
    print(audit_page.verdict(audit), file=sys.stderr if words.output == "-" else sys.stdout)
    return 0 if audit.is_accepted() else 1


if __name__ == "__main__":
    try:
        sys.exit(main())
    except (Fault, OSError) as fault:
        print(f"fault: {fault}", file=sys.stderr)
        sys.exit(3)
    except KeyboardInterrupt:
        sys.exit(130)
    except Exception:  # The status 1 is for a verdict alone.
        traceback.print_exc()
        print("fault: audit.py has failed, and there is no verdict: report this", file=sys.stderr)
        sys.exit(3)
