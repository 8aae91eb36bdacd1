#!/usr/bin/env python3
"""Writes the manual page of mlscheck and its completions for bash, zsh and fish, out of what its --help prints.

    tools/manual.py PROGRAM FOLDER

The folder gets mlscheck.1, mlscheck.bash, _mlscheck and mlscheck.fish. Commands and options have one source, the table that
the program's own parser is made from: its help is read here, and a form that isn't known is a fault (status 3).
"""

import re
import subprocess
import sys
from pathlib import Path

# The values of arguments that are no file, by the command and the name that stands for the value. The help names each of them.
VALUES = {
    ("show", "KIND"): ["tree", "info", "key-package", "members", "state", "message", "log"],
    ("check", "KIND"): ["tree-math", "tree-validation", "tree-operations", "transcript"],
    (None, "PROFILE"): ["members", "full"],
}


class Option:
    """An option or an argument: its forms (-h, --help; none of an argument), its value's name, its words."""

    def __init__(self, forms, value, many, text):
        self.forms, self.value, self.many, self.text = forms, value, many, text


class Help:
    """What the program says of a command, or of itself."""

    def __init__(self, command, text):
        self.command = command
        self.summary, rest = text.split("\n\n", 1)
        self.usage, self.lists, self.paragraphs, self.commands = [], [], [], []
        for block in rest.rstrip("\n").split("\n\n"):
            self.add(block.split("\n"))

    def add(self, lines):
        head = lines[0]
        if head.startswith("Usage: "):
            self.usage = [line[len("Usage: "):] for line in lines]
        elif head == "Commands:":
            self.commands = [re.fullmatch(r"  (\S+) +(.+)", line).groups() for line in lines[1:]]
        elif re.fullmatch(r"[A-Z].*:", head) and re.match(r" +(-|<)", lines[1] if len(lines) > 1 else ""):
            self.lists.append((head[:-1], [self.option(line) for line in lines[1:]]))
        else:
            self.paragraphs.append(lines)

    def option(self, line):
        found = re.fullmatch(r" +(?:(-\w), )?(--[\w-]+)?(?: ?<(\w+)>(\.\.\.)?)? {2,}(\S.*)", line)
        if not found or not (found[2] or found[3]):
            raise ValueError(f"mlscheck {self.command or ''} --help: unknown form: {line}")
        forms = [form for form in (found[1], found[2]) if form]
        return Option(forms, found[3], bool(found[4]), found[5])

    def options(self):
        return [option for _, entries in self.lists for option in entries if option.forms]

    def arguments(self):
        return [option for _, entries in self.lists for option in entries if not option.forms]

    def values(self, name):
        """The words that may stand for a value; none if it is a file, a number or a list of numbers."""
        words = VALUES.get((self.command, name)) or VALUES.get((None, name)) or []
        said = " ".join(self.usage + [option.text for _, entries in self.lists for option in entries])
        for word in words:
            if word not in said:
                raise ValueError(f"mlscheck {self.command} --help does not name the {name} {word}")
        return words


def read(program):
    """The help of the program, and that of each command but help."""

    def said(*words):
        return subprocess.run([program, *words, "--help"], check=True, capture_output=True, text=True).stdout

    own = Help(None, said())
    commands = [Help(name, said(name)) for name, _ in own.commands if name != "help"]
    version = subprocess.run([program, "--version"], check=True, capture_output=True, text=True).stdout.split("\n")[0]
    return own, commands, version


# ---- the manual page


def roff(text):
    text = text.replace("\\", "\\e").replace("-", "\\-")
    return "\\&" + text if text[:1] in ".'" else text


def roff_paragraphs(paragraphs):
    """Lines that are indented stand as they are, the others flow."""
    out = []
    for lines in paragraphs:
        out.append(".PP")
        fixed = False
        for line in lines:
            if line.startswith(" ") != fixed:
                fixed = not fixed
                out += [".RS 2", ".nf"] if fixed else [".fi", ".RE"]
            out.append(roff(line.strip()) if not fixed else roff(line[2:]))
        if fixed:
            out += [".fi", ".RE"]
    return out


def roff_options(help):
    out = []
    for title, entries in help.lists:
        out += [".PP", roff(title) + ":"]
        for option in entries:
            value = f"<{option.value}>" + ("..." if option.many else "") if option.value else ""
            head = ", ".join(f"\\fB{roff(form)}\\fR" for form in option.forms)
            out += [".TP", f"{head} \\fI{roff(value)}\\fR".strip() if value else head, roff(option.text)]
    return out


def manual(own, commands, version):
    out = [
        '.\\" Made by tools/manual.py out of what mlscheck --help prints.',
        f'.TH MLSCHECK 1 "" "{roff(version)}" "User Commands"',
        ".SH NAME",
        "mlscheck \\- " + roff(own.summary[0].lower() + own.summary[1:]),
        ".SH SYNOPSIS",
        ".nf",
    ]
    for help in commands:
        out += [roff(line) for line in help.usage]
    out += ["mlscheck \\-\\-help | \\-\\-version", ".fi", ".SH DESCRIPTION", roff(own.summary) + ".", ".SH COMMANDS"]
    for help in commands:
        out += [f".SS mlscheck {roff(help.command)}", roff(help.summary) + "."]
        out += roff_options(help) + roff_paragraphs(help.paragraphs)
    out += [".SH OPTIONS"]
    for option in own.options():
        out += [".TP", ", ".join(f"\\fB{roff(form)}\\fR" for form in option.forms), roff(option.text)]
    out += [".SH FILES AND EXIT STATUS"] + roff_paragraphs(own.paragraphs)
    return "\n".join(out) + "\n"


# ---- completions


def forms_of(options):
    return " ".join(form for option in options for form in option.forms)


def bash_values(commands):
    """The lines of the case on the word before: what may be the value of an option."""
    offers = {}
    for help in commands:
        for option in help.options():
            words = help.values(option.value)
            offer = f"-W '{' '.join(words)}'" if words else "-f" if option.value == "FILE" else ""
            if option.value:
                offers.setdefault(offer, set()).update(option.forms)
    for offer, forms in sorted(offers.items()):
        answer = f'COMPREPLY=($(compgen {offer} -- "$current")); ' if offer else ""
        yield f"        {'|'.join(sorted(forms))}) {answer}return ;;"


def bash_commands(commands):
    """The lines of the case on the command: its options, and the words that its first argument may be."""
    for help in commands:
        words = [word for option in help.arguments() for word in help.values(option.value)]
        yield f"        {help.command}) options='{forms_of(help.options())}' words='{' '.join(words)}' ;;"


def bash(own, commands):
    names = " ".join([help.command for help in commands] + ["help"])
    return f"""# Completes the command line of mlscheck in bash. Made by tools/manual.py out of what mlscheck --help prints.
_mlscheck() {{
    local current=${{COMP_WORDS[COMP_CWORD]}} previous=${{COMP_WORDS[COMP_CWORD - 1]}} options= words=
    COMPREPLY=()
    if [ "$COMP_CWORD" -eq 1 ]; then
        COMPREPLY=($(compgen -W '{names} {forms_of(own.options())}' -- "$current"))
        return
    fi
    case $previous in
{chr(10).join(bash_values(commands))}
    esac
    case ${{COMP_WORDS[1]}} in
{chr(10).join(bash_commands(commands))}
        help) words='{names}' ;;
    esac
    case $current in
        -*) COMPREPLY=($(compgen -W "$options" -- "$current")) ;;
        *)
            if [ -n "$words" ] && [ "$COMP_CWORD" -eq 2 ]; then
                COMPREPLY=($(compgen -W "$words" -- "$current"))
            else
                COMPREPLY=($(compgen -f -- "$current"))
            fi
            ;;
    esac
}}
complete -o filenames -F _mlscheck mlscheck
"""


def quoted(text):
    return text.replace("'", "'\\''")


def bracketed(text):
    return quoted(text).replace("[", "\\[").replace("]", "\\]").replace(":", "\\:")


def zsh_action(help, option):
    words = help.values(option.value)
    return f"({' '.join(words)})" if words else "_files" if option.value == "FILE" else " "


def zsh_arguments(help):
    """What `_arguments` is told of a command, one a line."""
    for option in help.options():
        value = f":{option.value}:{zsh_action(help, option)}" if option.value else ""
        for form in option.forms:
            yield f"            '{'*' if option.many else ''}{form}[{bracketed(option.text)}]{value}'"
    for place, option in enumerate(help.arguments(), 1):
        yield f"            '{'*' if option.many else place}:{option.value}:{zsh_action(help, option)}'"


def zsh(own, commands):
    described = "\n".join(f"        '{help.command}:{quoted(help.summary)}'" for help in commands)
    cases = "\n".join(
        f"        {help.command})\n        _arguments \\\n" + " \\\n".join(zsh_arguments(help)) + "\n        ;;"
        for help in commands
    )
    return f"""#compdef mlscheck
# Completes the command line of mlscheck in zsh. Made by tools/manual.py out of what mlscheck --help prints.
_mlscheck() {{
    local -a commands
    commands=(
{described}
        'help:Print the help of a command'
    )
    if (( CURRENT == 2 )); then
        _describe command commands
        return
    fi
    shift words
    (( CURRENT-- ))
    case $words[1] in
{cases}
        help) _describe command commands ;;
    esac
}}
_mlscheck "$@"
"""


def fish_forms(option):
    return " ".join(f"-l {form[2:]}" if form.startswith("--") else f"-s {form[1:]}" for form in option.forms)


def fish_value(help, option):
    words = help.values(option.value)
    return f" -x -a '{' '.join(words)}'" if words else " -r -F" if option.value == "FILE" else " -x" if option.value else ""


def fish(own, commands):
    out = [
        "# Completes the command line of mlscheck in fish. Made by tools/manual.py out of what mlscheck --help prints.",
        "complete -c mlscheck -f -n __fish_use_subcommand -s V -l version -d 'Print version'",
        "complete -c mlscheck -f -n __fish_use_subcommand -s h -l help -d 'Print help'",
        "complete -c mlscheck -f -n __fish_use_subcommand -a help -d 'Print the help of a command'",
    ]
    for help in commands:
        out.append(f"complete -c mlscheck -f -n __fish_use_subcommand -a {help.command} -d '{quoted(help.summary)}'")
    for help in commands:
        seen = f"complete -c mlscheck -n '__fish_seen_subcommand_from {help.command}'"
        for option in help.options():
            out.append(f"{seen} {fish_forms(option)}{fish_value(help, option)} -d '{quoted(option.text)}'")
        for option in help.arguments():
            if help.values(option.value):
                out.append(f"{seen} -a '{' '.join(help.values(option.value))}'")
    return "\n".join(out) + "\n"


def main():
    if len(sys.argv) != 3:
        print(__doc__.strip(), file=sys.stderr)
        return 2
    try:
        own, commands, version = read(sys.argv[1])
        folder = Path(sys.argv[2])
        for name, text in [
            ("mlscheck.1", manual(own, commands, version)),
            ("mlscheck.bash", bash(own, commands)),
            ("_mlscheck", zsh(own, commands)),
            ("mlscheck.fish", fish(own, commands)),
        ]:
            (folder / name).write_text(text)
    except (OSError, ValueError, subprocess.CalledProcessError) as fault:
        print(f"fault: tools/manual.py: {fault}", file=sys.stderr)
        return 3
    return 0


if __name__ == "__main__":
    sys.exit(main())
