"""What the model makes of the rows `run`, `run_in_pieces`, `first_words` and of those of state files (docs/TESTING.md), for
strict_rows.py and state_rows.py.

It has the commands `validate-tree`, `validate`, `replay`, `signatures` and `gate`, as far as these rows use them.
"""
import re

import random_groups
import signatures
import strict
import tree as trees
from layouts import (BYTES, EXTERNAL, first_of, GROUP_INFO, GroupContext, KeyPackage, MEMBER, Message, NEW_PROPOSER, Reader,
                     Unreadable, whole)
from follower import (MEMBER_NAMES, Follower, Refused, StrictRefused, check_members, info_content, package_reference, short)
from random_cases import answer
from rows import added_text, first_word, tree_of, value_of
from stored_states import NotResumed, file_of, read, resumed, strengthened

NO, FAULT = 1, 3


class Ended(Exception):
    """The report ends with this line, and its verdict is no."""


class Missing(Exception):
    """A file is not there."""


class Files(dict):
    def __missing__(self, name):
        raise Missing


class Known:
    """The signatures that are known to be good: those with these receipts, or, if there is no set, all."""

    def __init__(self, receipts=None):
        self.receipts = receipts
        self.suite = 1

    def __call__(self, *signature):
        return self.receipts is None or random_groups.receipt(self.suite, signature) in self.receipts


def words_of(text, names):
    """The words of a result, where bytes are given by their digits."""
    found, text = [], text.strip()
    while text:
        word = text.split()[0]
        if re.match(r"[$<(\"]|(H|H384|H512|hex|x\d+)\(", word):
            word = first_word(text)
            found.append(value_of(word.removeprefix("(").removesuffix(")") if word[0] == "(" else word, names).hex())
        else:
            found.append(word)
        text = text[len(word):].strip()
    return found


# ---- a command

class Command:
    """The words of a command line, after the program's name, and the files."""

    def __init__(self, words, files):
        self.name, *words = words
        self.files = files
        self.given = {}
        while words:
            option = words.pop(0).removeprefix("--")
            self.given[option] = None if option in ("trust", "strict") else words.pop(0)
        self.rules = strict.ALL if "strict" in self.given else frozenset()
        if self.given.get("allow"):
            self.rules -= {int(number) for number in self.given["allow"].split(",")}
        self.time = int(self.given["now"]) if "now" in self.given else None
        self.known = Known(None if "trust" in self.given else self.receipts())

    def receipts(self):
        if "receipts" not in self.given:
            return set()
        lines = self.file("receipts").decode().split("\n")
        for number, line in enumerate(lines, 1):
            if not re.fullmatch("[0-9a-fA-F]{64}" if number < len(lines) else "([0-9a-fA-F]{64})?", line):
                raise Ended(f"receipts unreadable {number}")
        return {line.lower() for line in lines}

    def file(self, option):
        return self.files[self.given[option]]

    def is_full(self):
        return self.given.get("profile") == "full"


def fault_words(fault):
    place = "" if fault.place is None else f" {fault.place}"
    return f"{fault.rule} {strict.NAMES[fault.rule]}{place}"


def member_words(context, tree, good):
    """The rule for members that is not met, and the leaf, or None."""
    try:
        check_members(context, tree, good)
    except Refused as refused:
        return f"{refused.member} {MEMBER_NAMES[refused.member - 1]} {refused.leaf}"
    return None


def from_state(command, good):
    data = command.file("state")
    try:
        good.suite = read(data)[0].context.suite
        follower, state = resumed(good, data)
        return strengthened(follower, state, command.rules), state
    except NotResumed as words:
        raise Ended(f"state {words}") from words


def info_and_tree(command):
    try:
        message = whole(Message, command.file("info"))
    except Unreadable as fault:
        raise Ended(f"info unreadable {fault.words}") from fault
    if message.body[0] != GROUP_INFO:
        raise Ended("info unreadable NotGroupInfo")
    info = message.body[1]
    data = command.file("tree") if "tree" in command.given else first_of(2, info.extensions)
    if data == BYTES.write(b""):
        raise Ended("tree unreadable EmptyTree")
    return info, tree_of(data)


def from_info(command, good):
    info, tree = info_and_tree(command)
    context = info.context
    good.suite = context.suite
    if trees.tree_hash(context.suite, tree) != context.tree_hash:
        raise Ended("start refused 5 Tree 1 HashDiffers")
    found = member_words(context, tree, good)
    if found:
        raise Ended(f"start refused 6 Member {found}")
    if not good(trees.leaf(tree, info.signer).signature_key, info_content(info), info.signature):
        raise Ended("start refused 8 InfoSignature")
    follower = Follower(good, command.is_full(), command.rules)
    try:
        return follower, follower.start_from(info, tree)
    except StrictRefused as fault:
        raise Ended(f"start refused 9 Strict {fault_words(fault)}") from fault


def started(command, good):
    """The follower and the state that a command starts from."""
    return from_state(command, good) if "state" in command.given else from_info(command, good)


def asked(command):
    """The state that a command starts from if each signature is good, its follower, and the signatures of both."""
    follower, state = started(command, Known())
    command.known.suite = state.context.suite
    if "state" in command.given:
        return follower, state, signatures.of_state(state, follower.full)
    return follower, state, signatures.of_start(info_and_tree(command)[0], state.tree)


def records_of(log):
    """The bodies of the records, then None if the log is broken."""
    reader, found = Reader(log), []
    while reader.at < reader.end:
        try:
            found.append(BYTES.read(reader))
        except Unreadable:
            return found + [None]
    return found


def valid_words(state):
    context, members = state.context, len(trees.members(state.tree))
    return f"epoch {context.epoch} members {members} tree {context.tree_hash.hex()}"


# ---- the reports: each answers its lines, its status, and what is behind them

def validate(command):
    _, state = started(command, command.known)
    return [f"valid {valid_words(state)}"], 0, []


def validate_tree(command):
    context = whole(GroupContext, command.file("context"))
    tree = tree_of(command.file("tree"))
    assert trees.is_valid(context.suite, tree) and trees.tree_hash(context.suite, tree) == context.tree_hash
    found = member_words(context, tree, command.known)
    if found:
        raise Ended(f"members refused {found}")
    for fault in strict.group_faults(command.rules, context, tree):
        raise Ended(f"strict refused {fault_words(StrictRefused(*fault))}")
    return [f"valid {context.tree_hash.hex()}"], 0, []


def replay(command):
    follower, state = started(command, command.known)
    lines = []
    for number, message in enumerate(records_of(command.file("log")), 1):
        line = "broken"
        if message is not None:
            state, line = answer(follower, state, message, command.time)
            line = short(line)
        lines.append(f"{number} {line}")
    counts = {word: sum(line.split()[1] == word for line in lines) for word in ("accepted", "refused", "broken")}
    lines.append(" ".join(f"{word} {count}" for word, count in counts.items()) + f" epoch {state.context.epoch}")
    status = NO if counts["refused"] + counts["broken"] else 0
    if "save" not in command.given:
        return lines, status, []
    name = command.given["save"]
    if name.startswith("full"):
        return lines, FAULT, ["| fault: write"]
    return lines, status, [f"+ {name} {file_of(follower, state).hex()}"]


def signature_lines(command):
    follower, state, found = asked(command)
    known, lines, status = command.known, [], 0

    def listed(signatures_of_one):
        return [random_groups.signature_line(known.suite, each) for each in signatures_of_one if not known(*each)]

    lines += listed(found)
    for number, message in enumerate(records_of(command.file("log")) if "log" in command.given else [], 1):
        of_message = None if message is None else random_groups.signatures_of(state, follower.full, message)
        if of_message is None:
            status = NO
            lines.append(f"{number} broken" if message is None else f"{number} refused 1")
            continue
        lines += listed(of_message)
        state, _ = answer(follower, state, message)
    return lines, status, []


def gate(command):
    """The answers to records, by what is known to be good then."""
    known = command.known
    _, _, found = asked(command)
    lines, follower, state, time = queried(known, found), None, None, command.time
    for record in records_of(command.files["-"]):
        kind, body = record and record[:1], record and record[1:]
        if kind == b"r" and len(body) % 32 == 0:
            if known.receipts is not None:
                known.receipts |= {body[at:at + 32].hex() for at in range(0, len(body), 32)}
        elif record == b"b" and not follower:
            try:
                follower, state = started(command, known)
            except Ended as ended:
                return lines + [str(ended)], NO, []
            lines.append(f"ready {valid_words(state)}")
        elif record == b"s" and follower:
            lines.append(f"state {file_of(follower, state).hex()}")
        elif kind == b"t" and len(body) == 8:
            time = int.from_bytes(body, "big")
        elif kind == b"m" and follower:
            state, line = answer(follower, state, body, time)
            lines.append(line)
        elif kind == b"q" and follower:
            lines += queried(known, random_groups.signatures_of(state, follower.full, body) or [])
        else:
            return lines + ["broken"], NO, []
    return lines, 0 if follower else NO, []


def queried(known, found):
    lines = [f"verify {random_groups.signature_line(known.suite, each)}" for each in found if not known(*each)]
    return lines + [f"queried {len(lines)}"]


REPORTS = {"validate": validate, "validate-tree": validate_tree, "replay": replay, "signatures": signature_lines,
           "gate": gate}


def result(kind, words, files):
    """The words of the result of a row of a command."""
    try:
        command = Command(words, files)
        lines, status, others = REPORTS[command.name](command)
    except Ended as ended:
        lines, status, others = [str(ended)], NO, []
    except Missing:
        lines, status, others = [], FAULT, ["| fault: read"]
    if kind == "first_words":
        return [str(status)] + [line.split()[0] for line in lines]
    return " ".join([str(status), *(f"/ {line}" for line in lines), *others]).split()


# ---- state files

def checker(field, names):
    if field == "trust":
        return Known()
    data = value_of(field, names)
    return Known({data[at:at + 32].hex() for at in range(0, len(data), 32)})


def sender_words(sender):
    kind, index = sender
    return {MEMBER: f"{index}", EXTERNAL: f"external {index}", NEW_PROPOSER: "new_member_proposal"}[kind]


def state_words(state):
    tree = trees.encode(state.tree).hex()
    pending = [f"{each.reference.hex()} of {sender_words(each.sender)}" for each in state.pending]
    return " ".join(["state", GroupContext.write(state.context).hex(), tree, state.interim.hex(), *pending,
                     *["ended"] * state.ended, "/ added", added_text(state)])


def resume_result(data, good):
    """What is resumed, whose file is that one; or the fault by its name."""
    try:
        follower, state = resumed(good, data)
    except NotResumed as fault:
        return str(fault).split()[1:] if str(fault).startswith("unreadable") else str(fault).split()[2:]
    if file_of(follower, state) != data:
        return ["another", "file"]
    return state_words(state).split()


def is_read(data):
    try:
        resumed(Known(), data)
    except NotResumed as fault:
        return not str(fault).startswith("unreadable Truncated ")
    return True


def cut_result(data):
    """How many bytes a file has, or the first of its shorter fronts that is not truncated."""
    fronts = [size for size in range(len(data)) if is_read(data[:size])]
    return [str(len(data))] if not fronts else ["read", str(fronts[0])]


def bits_result(data):
    """How many bits a file has, or the first one that can be changed."""
    found = [at for at in range(8 * len(data)) if resume_result(flipped(data, at), Known())[0] == "state"]
    return [str(8 * len(data))] if not found else ["changed", str(found[0])]


def flipped(data, at):
    return data[:at // 8] + bytes([data[at // 8] ^ 1 << at % 8]) + data[at // 8 + 1:]


def reference_result(package):
    return package_reference(package).hex() if 1 <= package.suite <= 7 else "UnsupportedSuite"


def found_of(line, names):
    """The words that the model makes of a row; None of a kind that it does not have."""
    kind, *fields = (field.strip() for field in line.split("=", 1)[0].split("|"))
    if kind in ("run", "run_in_pieces", "first_words") and fields[0].split()[0] in REPORTS:
        files = Files()
        for file in fields[1:]:
            name, data = file.split(":", 1)
            files[name] = value_of(data, names)
        return result(kind, fields[0].split(), files)
    if kind == "resume":
        return resume_result(value_of(fields[0], names), checker(fields[1], names))
    if kind == "cut" and fields[0] == "state":
        return cut_result(value_of(fields[1], names))
    if kind == "state_bits":
        return bits_result(value_of(fields[0], names))
    if kind == "package_ref":
        return [reference_result(whole(KeyPackage, value_of(fields[0], names)))]
    return None


def agree(line, names):
    """The result of a row, and the model's."""
    return words_of(line.split("=", 1)[1], names), found_of(line, names)
