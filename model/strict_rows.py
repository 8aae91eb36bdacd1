#!/usr/bin/env python3
"""Compares follower.py and strict.py with the examples of the strict rules.

    strict_rows.py

It reads the rows of keys, of commands and of state files in crates/mls_rows/data: keys.rows, points.rows, certificates.rows and
strict.rows.
From the files strict_trees.rt and added_rules.rt of crates/mls_library_tests it reads the tables of examples and of their
results, and does with a table what its test does. It prints each example that has another result, and how many have the
one that is written there.
"""
import os
import re
import sys

import run_rows
import strict
import tree as trees
from layouts import BYTES, EXTENSIONS, first_of, GroupContext, Message, whole
from follower import Follower, StrictRefused
from rows import DATA, entries, tree_of, value_of
from stored_states import bits_of, rules_of

TESTS = os.path.join(os.path.dirname(os.path.abspath(__file__)), "..", "crates", "mls_library_tests", "src")
TRUST = lambda *_: True


# ---- tables, and the notation of notation.rt

class Constants(dict):
    """The constants of a file of tests, by their names."""

    def __init__(self, name):
        super().__init__()
        text = re.sub(r"\\\n\s*", "", re.sub(r"^\s*//.*\n", "", text_of(name), flags=re.M))
        text = text.replace("&[", "[")
        found = re.findall(r"^(?:pub\(crate\) )?const (\w+)(?:: .*?)? =\s+([\[\"\d].*?);\n", text, re.S | re.M)
        self.values_of = dict(found)

    def __missing__(self, name):
        self[name] = self.value(self.values_of[name])
        return self[name]

    def value(self, text):
        """The value of an expression in Rust: lists, tuples, numbers, texts and constants."""
        return eval(text, {}, self)


def text_of(name):
    with open(os.path.join(TESTS, name + ".rt"), encoding="utf-8") as file:
        return file.read()


GROUP = Constants("strict_group")


def bytes_of(notation):
    found = [b""]
    for word in re.findall(r"[<>]|[^<> ]+", notation):
        if word == "<":
            found.append(b"")
        elif word == ">":
            body = found.pop()
            found[-1] += BYTES.write(body)
        else:
            digits, _, count = word.partition("*")
            found[-1] += bytes.fromhex(digits) * int(count or 1)
    assert len(found) == 1, notation
    return found[0]


def changed(notation, *changes):
    for old, new in changes:
        assert old in notation, (old, notation)
        notation = notation.replace(old, new, 1)
    return notation


def hash_of(suite, notation):
    return trees.digest(suite, bytes_of(notation)).hex()


# ---- what the model makes of an example

class Examples:
    """Counts the examples, and prints those that differ."""

    def __init__(self):
        self.same = 0
        self.other = 0

    def compare(self, what, wanted, found):
        if wanted == found:
            self.same += 1
        else:
            self.other += 1
            print(f"{what}: wanted {wanted}, found {found}")


# ---- groups of the tests

def info_of(notation):
    info = whole(Message, bytes_of(notation)).body[1]
    return info, tree_of(first_of(2, info.extensions))


def state_after(info, messages, rules):
    """The follower, and its state after messages, each of which it accepts."""
    follower = Follower(TRUST, False, rules)
    state = follower.start_from(*info_of(info))
    for message in messages:
        state = follower.take(state, bytes_of(message))
    return follower, state


def fault_text(fault):
    return str(fault.rule) if fault.place is None else f"{fault.rule} at {fault.place}"


def start_with(leaf, *changes):
    """The GroupInfo of the group of one leaf, with changes."""
    tree_hash = hash_of(1, "010000000001 " + leaf)
    return changed(GROUP["INFO"], (GROUP["LEAF_0"], leaf), (GROUP["HASH_0"], tree_hash), *changes)


# ---- rows

def keys(examples):
    """The rows of keys: `hpke_key`, `signature_key`, `suite_point` and `certificate_key` (docs/TESTING.md)."""
    for name in ("keys", "points", "certificates"):
        for where, line, names in rows_of(name):
            what, result = line.split("=", 1)
            kind, *suite, key = (field.strip() for field in what.split("|"))
            found = key_result(kind, suite, value_of(key, names))
            examples.compare(where, run_rows.words_of(result, names), [found] if found else [])


def rows_of(name):
    """The rows of a file, each with its place and the names that are defined before it."""
    names = {}
    for file in ("group", name):
        for number, line in entries(os.path.join(DATA, file + ".rows")):
            if re.match(r"[A-Z][A-Z0-9_]* *=", line):
                defined, formula = line.split("=", 1)
                assert defined.strip() not in names, line
                names[defined.strip()] = value_of(formula, names)
            else:
                yield f"{file}.rows:{number}", line, names


def key_result(kind, suite, key):
    if kind == "certificate_key":
        found = strict.certificate_key(key)
        return "none" if found is None else found.hex()
    return "yes" if getattr(strict, "is_" + kind)(int(suite[0]), key) else "no"


def program(examples):
    """The rows of strict.rows: commands and state files."""
    for where, line, names in rows_of("strict"):
        examples.compare(where, *run_rows.agree(line, names))


# ---- tables of tests

def single_trees(examples):
    for listed, tree, wanted in Constants("strict_trees")["CASES"]:
        context = GroupContext(1, 1, b"G", 0, b"", b"", whole(EXTENSIONS, bytes.fromhex(listed)))
        tree = tree_of(bytes.fromhex(tree))
        found = [fault_text(StrictRefused(*fault)) for fault in strict.group_faults(strict.ALL, context, tree)]
        examples.compare((listed, wanted), wanted, found[0] if found else "")


def added_rules(examples):
    defaults = Constants("added_rules")["DEFAULTS"]
    add, commit = changed(GROUP["ADD"], *defaults), changed(GROUP["ADDING_COMMIT"], *defaults)
    empty = changed(GROUP["ADD"], ("<f1*32>", "<>"))
    unlisted = start_with(changed(GROUP["LEAF_0"], ("<0001> <> <>", "<> <> <>")))
    info = GROUP["INFO"]
    every = 0x1FFF
    for from_info, bits, messages, sets in [
            (info, 0x1F7F, [add], [(0x1F7F, "1f7f"), (every, "known 0"), (0x0080, "known 0"), (0x00C0, "known 0")]),
            (info, 0x1F7F, [commit], [(0x1F7F, "1f7f"), (every, "group 47 at 2"), (0x0080, "group 47 at 2"),
                                      (0x00C0, "group 47 at 2")]),
            (info, 0, [commit], [(0x1010, "1010"), (0x0011, "1011")]),
            (info, 0, [empty, GROUP["ADD"]], [(every, "known 0")]),
            (info, 0, [GROUP["ADD"], empty], [(every, "known 1")]),
            (unlisted, 0, [], [(every, "group 46 at 0")])]:
        follower, state = state_after(from_info, messages, rules_of(bits))
        for more, wanted in sets:
            try:
                follower = follower.made_strict(state, rules_of(more))
                found = f"{bits_of(follower.rules):x}"
            except StrictRefused as fault:
                found = f"group {fault_text(fault)}" if fault.rule else f"known {fault.place}"
            examples.compare((bits, more), wanted, found)


def main():
    examples = Examples()
    for each in (keys, program, single_trees, added_rules):
        before = examples.same + examples.other
        each(examples)
        print(f"{each.__name__}: {examples.same + examples.other - before} examples")
    print(f"{examples.same} examples have the result that is written, {examples.other} another one")
    return 1 if examples.other else 0


if __name__ == "__main__":
    sys.exit(main())
