#!/usr/bin/env python3
"""Compares follower.py with the stories in crates/mls_rows/data, whose results were worked out by hand.

    rows.py [FILE ...]

Without a FILE it reads all of them, by docs/TESTING.md. It prints each story that has another result, and how many have
the one that is written there.
"""
import glob
import hashlib
import os
import re
import sys

import tree as trees
from layouts import BYTES, first_of, GroupContext, Message, TREE, whole
from follower import MEMBER_NAMES, Follower, Refused, name_of

DATA = os.path.join(os.path.dirname(os.path.abspath(__file__)), "..", "crates", "mls_rows", "data")
WORDS = re.compile(r'\s*("[^"]*"|\'[^\']*\'|\$[A-Z0-9_]+|H384\(|H512\(|H\(|hex\(|x[0-9]+\(|[<>()]|[0-9a-f]{2})')


def value_of(text, names):
    """The bytes that a formula of a row gives."""
    open_words, parts, at = [], [[]], 0
    text = text.strip()
    while at < len(text):
        found = WORDS.match(text, at)
        if not found:
            raise ValueError(text[at:at + 40])
        at, word = found.end(), found.group(1)
        if word[0] in "\"'":
            parts[-1].append(word[1:-1].encode())
        elif word[0] == "$":
            parts[-1].append(names[word[1:]])
        elif word == "<" or word[-1] == "(":
            open_words.append(word)
            parts.append([])
        elif word in ">)":
            body = b"".join(parts.pop())
            parts[-1].append(closed(open_words.pop(), body))
        else:
            parts[-1].append(bytes.fromhex(word))
    assert not open_words, text
    return b"".join(parts[0])


def first_word(text):
    """The first item of a result, such as a hash, with all that is in it."""
    at = depth = 0
    while True:
        found = WORDS.match(text, at)
        at, word = found.end(), found.group(1)
        depth += (word == "<" or word[-1] == "(") - (word in ">)")
        if depth == 0 and (at == len(text) or text[at] == " "):
            return text[:at]


def closed(word, body):
    if word == "<":
        return BYTES.write(body)
    if word[0] == "H":
        return hashlib.new({"H(": "sha256", "H384(": "sha384", "H512(": "sha512"}[word], body).digest()
    if word == "hex(":
        return body.hex().encode()
    return body * int(word[1:-1]) if word[0] == "x" else body


def entries(path):
    """The definitions and rows of a file, each in one line, with the number of the line on which it begins."""
    found = []
    with open(path, encoding="ascii") as file:
        for number, line in enumerate(file, 1):
            if line.startswith("#") or not line.strip():
                continue
            if line[0] == " ":
                found[-1][1] += " " + line.strip()
            else:
                found.append([number, line.strip()])
    return found


def tree_of(data):
    """A ratchet_tree, extended with blank nodes."""
    nodes = [entry and entry[1] for entry in whole(TREE, data)]
    size = 1
    while size < len(nodes):
        size = 2 * size + 1
    return tuple(nodes) + (None,) * (size - len(nodes))


def checker(field, names):
    if field.strip() == "trust":
        return lambda key, content, signature: True
    data = value_of(field, names)
    receipts = {data[at:at + 32] for at in range(0, len(data), 32)}

    def good(key, content, signature):
        parts = b"".join(BYTES.write(part) for part in (key, content, signature))
        return hashlib.sha256(b"\x00\x01" + parts).digest() in receipts
    return good


def message_of(field, names):
    """The bytes of a message, and the time before them or None."""
    timed = re.match(r"\s*at (\d+)(?: |$)", field)
    return value_of(field[timed.end():] if timed else field, names), timed and int(timed[1])


def told(fields, names):
    """What the model makes of each message of a story, and the state at the end."""
    kind, info, good, *messages = fields
    _, info = whole(Message, value_of(info, names)).body
    follower = Follower(checker(good, names), kind.strip().startswith("full"))
    state = follower.start(info.context, tree_of(first_of(2, info.extensions)), info.confirmation_tag)
    answers = []
    for message in messages:
        try:
            former, state = state, follower.take(state, *message_of(message, names))
            accepted = state.pending[len(former.pending):] if state.context == former.context else None
            answers.append(f"proposal {accepted[0].reference.hex()}" if accepted else f"commit {state.context.epoch}")
        except Refused as refused:
            member = f" {MEMBER_NAMES[refused.member - 1]} {refused.leaf}" if refused.member else ""
            answers.append(f"{refused.rule} {name_of(refused.rule)}{member}")
    return answers, state


def wanted_answer(text, names):
    words = text.split()
    if words[0] == "proposal":
        return "proposal " + value_of(" ".join(words[1:]), names).hex()
    return " ".join(words)


def added_text(state):
    """The KeyPackageRefs of those that the last commit added."""
    return "none" if state.added is None else " ".join(reference.hex() for reference in state.added)


def added_words(text, names):
    """The same, as a row has it."""
    found, text = [], text.strip()
    while text and text != "none":
        word = first_word(text)
        found.append(value_of(word, names).hex())
        text = text[len(word):].strip()
    return text or " ".join(found)


def agrees(line, names):
    """Whether the model gives the result of a story."""
    row, result = line.split("=", 1)
    answers, state = told(row.split("|"), names)
    result, _, at_end = result.partition("/ state")
    result, _, nodes = result.partition("/ tree")
    result, is_added, references = result.partition("/ added")
    wanted = [wanted_answer(part, names) for part in result.split("/") if part.strip()]
    ends = True
    if at_end.strip():
        known = GroupContext.write(state.context) + trees.encode(state.tree) + state.interim
        ends = value_of(re.split(" of | ended", at_end)[0], names)[:len(known)] == known
    if nodes.strip():
        ends = value_of(first_word(nodes), names) == state.context.tree_hash
    if is_added:
        ends = added_words(references, names) == added_text(state)
    return ends and answers[len(answers) - len(wanted):] == wanted


def main():
    files = sys.argv[1:] or sorted(glob.glob(os.path.join(DATA, "*.rows")))
    shared, same, other = {}, 0, 0
    first = os.path.join(DATA, "group.rows")
    for path in [first] + [file for file in files if file != first]:
        names = dict(shared)
        for number, line in entries(path):
            if re.match(r"[A-Z][A-Z0-9_]* *=", line):
                name, formula = line.split("=", 1)
                names[name.strip()] = value_of(formula, names)
            elif re.match(r"(full_)?story", line):
                if agrees(line, names):
                    same += 1
                else:
                    other += 1
                    found, _ = told(line.split("=", 1)[0].split("|"), names)
                    print(f"{os.path.basename(path)}:{number}: another result: {' / '.join(found)}")
        shared = shared or names
    print(f"{same} stories have the result that is written, {other} another one")
    return 1 if other else 0


if __name__ == "__main__":
    sys.exit(main())
