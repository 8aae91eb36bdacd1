"""State files by the text of docs/FORMATS.md: the file of a state, and the state that a follower resumes from a file."""
import hashlib

import strict
import tree as trees
from layouts import BYTES, FollowerState, IS_PROPOSAL, Mode, PUBLIC, StateFile, Unreadable, whole
from follower import (MEMBER_NAMES, Follower, Refused, State, StrictRefused, check_members, content_of, message_of,
                      requirements_of)
from rows import tree_of

VERSION = 2


class NotResumed(Exception):
    """Why no follower resumes, in the words of a report."""


def checked(holds, words):
    if not holds:
        raise NotResumed(words)


def bits_of(rules):
    return sum(1 << rule - 40 for rule in rules)


def rules_of(bits):
    return frozenset(rule for rule in strict.ALL if bits >> (rule - 40) & 1)


# ---- the file of a state

def file_with(content):
    """The file with this content, which has its checksum."""
    body = FollowerState.write(content)
    return StateFile.write(StateFile(VERSION, hashlib.sha256(body).digest(), content))


def content_of_state(follower, state):
    tree = whole(BYTES, trees.encode(state.tree))
    known = tuple(content_of(state.context, pending) for pending in state.pending)
    mode = Mode(follower.full, state.ended)
    return FollowerState(mode, bits_of(follower.rules), state.context, state.interim, tree, known, state.added)


def file_of(follower, state):
    return file_with(content_of_state(follower, state))


# ---- resuming

def read(data):
    """The content of a file and its tree."""
    try:
        file = whole(StateFile, data)
        checked(file.state.tree, "unreadable EmptyTree")
        tree = tree_of(BYTES.write(file.state.tree))
    except Unreadable as fault:
        raise NotResumed(f"unreadable {fault.words}") from fault
    body = FollowerState.write(file.state)
    checked(hashlib.sha256(body).digest() == file.checksum, "refused 2 ChecksumDiffers")
    return file.state, tree


def check_tree(good, context, tree):
    checked(context.version == 1, "refused 3 UnsupportedVersion")
    checked(1 <= context.suite <= 7, "refused 4 UnsupportedSuite")
    try:
        requirements_of(context.extensions)
    except Unreadable as fault:
        raise NotResumed("refused 5 RequirementsUnreadable") from fault
    checked(trees.tree_hash(context.suite, tree) == context.tree_hash, "refused 6 Tree 1 HashDiffers")
    # The other faults of a tree are not told apart here.
    checked(trees.is_valid(context.suite, tree), "refused 6 Tree")
    try:
        check_members(context, tree, good)
    except Refused as refused:
        words = f"{refused.member} {MEMBER_NAMES[refused.member - 1]} {refused.leaf}"
        raise NotResumed(f"refused 7 Member {words}") from refused


def held(follower, state, content):
    """The state after an entry, as the follower takes the message that it was."""
    if content.wire_format != PUBLIC or content.framed.content[0] != IS_PROPOSAL:
        return None
    try:
        return follower.take(state, message_of(content))
    except Refused:
        return None


def resumed(good, data):
    """The follower and the state of a file. Raises NotResumed."""
    content, tree = read(data)
    check_tree(good, content.context, tree)
    length = trees.digest_length(content.context.suite)
    checked(len(content.interim) == length, "refused 8 InterimLength")
    follower = Follower(good, content.mode.full)
    state = State(content.context, tree, content.interim, (), content.mode.ended, content.added)
    for position, entry in enumerate(content.known):
        state = held(follower, state, entry)
        checked(state, f"refused 9 KnownInvalid {position}")
    for position, reference in enumerate(content.added or ()):
        fits = len(reference) == length and position < len(trees.members(tree))
        checked(fits, f"refused 12 AddedInvalid {position}")
    return strengthened(follower, state, rules_of(content.rules)), state


def strengthened(follower, state, rules):
    """The follower with more strict rules. Raises NotResumed if the state does not meet them."""
    try:
        return follower.made_strict(state, rules)
    except StrictRefused as fault:
        if not fault.rule:
            raise NotResumed(f"refused 11 KnownStrict {fault.place}") from fault
        place = "" if fault.place is None else f" {fault.place}"
        raise NotResumed(f"refused 10 Strict {fault.rule} {strict.NAMES[fault.rule]}{place}") from fault
