"""Random groups and logs of messages of all senders for random_groups.py, with what the model makes of each message."""
import collections
import random

# These two put their faults into FAULTS.
import commit_faults
import message_faults
import signatures
import strict
import tree as trees
from faults import FAULTS
from layouts import (ADD, BY_VALUE, EXTENSIONS_CHANGE, EXTERNAL, EXTERNAL_INIT, GroupContext, IS_COMMIT, IS_PROPOSAL,
                     MEMBER, Message, NEW_COMMITTER, NEW_PROPOSER, PSK, PUBLIC, REINIT, REMOVE, REPLACE, Unreadable,
                     whole)
from follower import Follower, Item, Refused, StrictRefused, content_of, line_of, message_of, reference_of, refusal_line
from random_messages import Maker
from stored_states import NotResumed, content_of_state, file_of, file_with, resumed
from strict_messages import StrictMaker

SENDERS = {MEMBER: "member", EXTERNAL: "external sender", NEW_PROPOSER: "new member", NEW_COMMITTER: "joining client"}
KINDS = {ADD: "Add", REPLACE: "Update", REMOVE: "Remove", PSK: "PreSharedKey", REINIT: "ReInit",
         EXTERNAL_INIT: "ExternalInit", EXTENSIONS_CHANGE: "GroupContextExtensions"}

# The first rules of the faults that any message may have.
COMMON = {1, 2, 3, 4, 5, 6, 7, 29}

# The answer to what the rules without a time accept, and a lifetime does not.
LIFETIME_REFUSED = "refused 53 LifetimeOutside"

# What a fault may raise if it does not fit a draft that has another fault already.
UNFIT = (AssertionError, AttributeError, IndexError, KeyError, StopIteration)

# A message of a log, the state before and after it, and the answer of `gate`.
Step = collections.namedtuple("Step", "message before after answer")

# A group: its maker and follower, the state at the start, the message of its GroupInfo, its ratchet_tree if that is a file of
# its own, and its log. `rules` are strict rules, of which the follower has those that the start meets. `time` is that at which
# the messages of the log are taken, or None.
Case = collections.namedtuple("Case", "maker follower state info tree steps rules time")


class Mismatch(Exception):
    pass


def cut_of(case):
    """Where the log is cut in two, and the state there."""
    cut = len(case.steps) // 2
    return cut, case.steps[cut].before


def new_group(chosen, full, make):
    """A group whose members have joined and committed by the rules."""
    suite = chosen.choice([1, 1, 1, 2, 3, 4, 5, 6, 7])
    maker = make(chosen, suite, chosen.random() < 0.5)
    follower = Follower(maker.good, full)
    tree = (maker.leaf(),)
    state = follower.start(context_of(maker, tree, 1, ()), tree, b"")
    wanted = chosen.choice([1, 2, 3, 5, 9, 17, chosen.randrange(1, 41), chosen.randrange(10, 41)])
    for _ in range(chosen.choice([0, 3, 8, 16])):
        state = grown(maker, follower, state, wanted)
    if chosen.random() < 0.6:
        added = [maker.add() for _ in range(chosen.randrange(1, 4))]
        state = follower.take(state, maker.message(state, listed_commit(maker, state, added, False)))
    return maker, follower, state


def grown(maker, follower, state, wanted):
    """The state after one more commit, with a path or of Adds or Removes, towards the wanted number of members."""
    chosen, present = maker.chosen, len(trees.members(state.tree))
    if present < wanted and chosen.random() < 0.5:
        most = max(1, wanted - present if present < wanted // 2 else 3)
        added = [maker.add() for _ in range(chosen.randrange(1, most + 1))]
        draft = listed_commit(maker, state, added, chosen.random() < 0.3)
    elif chosen.random() < 0.2 and follower.full:
        draft = maker.external_commit(state)
    elif present > 3 and chosen.random() < 0.3:
        index = maker.member(state)
        removed = {maker.remove(state, {index}) for _ in range(chosen.randrange(1, 3))}
        draft = listed_commit(maker, state, list(removed), True, index)
    else:
        draft = listed_commit(maker, state, [], True)
    try:
        return follower.take(state, maker.message(state, draft))
    except Refused:
        return state


def listed_commit(maker, state, proposals, with_path, index=None):
    index = maker.member(state) if index is None else index
    items = [Item((MEMBER, index), proposal, True) for proposal in proposals]
    return maker.committed(state, index, [(BY_VALUE, proposal) for proposal in proposals], items, with_path)


def context_of(maker, tree, epoch, extensions):
    return GroupContext(1, maker.suite, maker.group_id, epoch, trees.tree_hash(maker.suite, tree),
                        maker.chosen.randbytes(maker.chosen.choice([0, 32])), extensions)


def started(maker, follower, state):
    """The state that a follower starts in, from a GroupInfo, and the files of the start."""
    chosen = maker.chosen
    epoch = chosen.choice([0, 0, 1, 300, 2**40])
    if chosen.random() < 0.1:
        epoch = 2**64 - 1 - chosen.randrange(4)
    extensions = state.context.extensions
    if not extensions and chosen.random() < 0.7:
        extensions = maker.context_extensions(state)[1]
    context = context_of(maker, state.tree, epoch, extensions)
    own_tree = chosen.random() < 0.5
    info, message = maker.signed_info(context, state.tree, own_tree)
    tree = None if own_tree else trees.encode(state.tree)
    return follower.start(context, state.tree, info.confirmation_tag), message, tree


# ---- messages

def next_draft(maker, state):
    make = maker.chosen.choice([
        maker.member_proposal, maker.member_proposal, maker.member_proposal, maker.external_proposal,
        maker.external_proposal, maker.newcomer_proposal, maker.member_commit, maker.member_commit, maker.member_commit,
        maker.external_commit, maker.external_commit,
    ])
    return make(state) or maker.member_commit(state)


def answer(follower, state, message, time=None):
    """The next state and the line, without its number."""
    try:
        after = follower.take(state, message, time)
        return after, line_of(state, after)
    except Refused as refused:
        return state, refusal_line(refused)


def faulty(maker, follower, state, draft):
    """A message of the draft with a fault, or with two. A message with one fault must break one of the fault's rules."""
    for name, rules, make, _ in faults_by_chance(maker):
        message = make(maker, state, draft)
        if message is None:
            continue
        _, line = answer(follower, state, message)
        words = line.split()
        if words[0] != "refused" or int(words[1]) not in rules:
            if follower.full or words[1] not in ("1", "5"):
                raise Mismatch(f"a message with the fault {name} is {line} by the model")
        return twice_faulty(maker, state, draft, message) if maker.chosen.random() < 0.25 else message
    return None


def faults_by_chance(maker):
    faults = [fault for fault in FAULTS if not (maker.trusting and fault[3])]
    common = maker.chosen.random() < 0.3
    return sorted(faults, key=lambda fault: maker.chosen.random() + ((fault[1][0] in COMMON) != common))


def twice_faulty(maker, state, draft, message):
    """The message with one more fault, if it can still be read and one fits."""
    try:
        kind, public = whole(Message, message).body
    except Unreadable:
        return message
    if kind != PUBLIC or public.framed.sender != draft.sender or public.framed.content[0] != draft.content[0]:
        return message
    draft = draft._replace(content=public.framed.content)
    for _, _, make, _ in faults_by_chance(maker):
        try:
            found = make(maker, state, draft)
        except UNFIT:
            continue
        if found:
            return found
    return message


def flipped(maker, message):
    at = maker.chosen.randrange(len(message))
    return message[:at] + bytes([message[at] ^ 1 << maker.chosen.randrange(8)]) + message[at + 1:]


def kind_of(message):
    """A message's sender and kind, for the summary."""
    try:
        public = whole(Message, message).body[1]
        sender, _ = public.framed.sender
    except (Unreadable, AttributeError):
        return "other bytes"
    kind, body = public.framed.content
    if kind == IS_PROPOSAL:
        return f"{SENDERS[sender]}: {KINDS[body[0]]}"
    if kind != IS_COMMIT:
        return f"{SENDERS[sender]}: application data"
    if sender == NEW_COMMITTER:
        removes = any(entry[0] == REMOVE for tag, entry in body.proposals if tag == 1)
        return f"{SENDERS[sender]}: commit that {'comes back' if removes else 'joins'}"
    return f"{SENDERS[sender]}: commit {'with' if body.path else 'without'} a path"


def next_messages(maker, follower, state, former):
    """The next messages of a log: a faulty one, then perhaps that which it was meant to be."""
    chosen = maker.chosen
    draft = next_draft(maker, state)
    right = maker.message(state, draft)
    after, _ = answer(follower, state, right)
    if after is state or chosen.random() < 0.55:
        return [right]
    if former and chosen.random() < 0.05:
        return [chosen.choice(former).message, right]
    if chosen.random() < 0.15:
        return [flipped(maker, right), right]
    found = faulty(maker, follower, state, draft)
    return [right] if found is None else [found] + [right] * (chosen.random() < 0.6)


def make_case(seed, number, count, is_strict=False):
    """A group, its log, and what the model makes of it."""
    chosen = random.Random(f"{seed} {number}")
    maker, plain, state = new_group(chosen, chosen.random() < 7 / 8, StrictMaker if is_strict else Maker)
    if is_strict:
        maker.odds = 0.02
    first, info, tree = started(maker, plain, state)
    rules, follower = plain.rules, plain
    if is_strict:
        rules, follower = strictly(maker, plain, whole(Message, info).body[1], first.tree)
    state, steps = first, []
    time = random_time(maker) if chosen.random() < 0.7 else None
    while len(steps) < count:
        for message in next_messages(maker, follower, state, steps):
            after, line = answer(follower, state, message, time)
            steps.append(Step(message, state, after, line))
            if line.startswith("accepted proposal"):
                maker.sent[reference_of(maker.suite, whole(Message, message).body[1])] = message
            elif after is not state and not trees.is_valid(maker.suite, after.tree):
                raise Mismatch("the model's tree is not valid")
            check_step(plain, follower, steps[-1], time)
            state = after
    return Case(maker, follower, first, info, tree, steps, rules, time)


def check_step(plain, follower, step, time):
    """A follower with strict rules answers as followers with fewer do, and at a time as without one, except for 53."""
    untimed = (step.after, step.answer) if time is None else answer(follower, step.before, step.message)
    if follower.rules:
        check_strict_answer(plain, follower, step, untimed)
    check_time(step, time, untimed)


# ---- times

def random_time(maker):
    return maker.chosen.choice([0, 2**64 - 1, *(maker.time + away for away in range(-3, 4))])


def check_time(step, time, untimed):
    """At a time a message is answered as without one, or it is accepted without one and refused by 53."""
    is_late = untimed[0] is not step.before and step.answer == LIFETIME_REFUSED and step.after is step.before
    if not is_late and (step.after, step.answer) != untimed:
        raise Mismatch(f"a message is {untimed[1]}, and at {time} it is {step.answer}")


# ---- strict rules

def strictly(maker, plain, info, tree):
    """Strict rules by chance, and a follower with those of them that the start meets."""
    share = maker.chosen.choice([0.3, 0.6, 1])
    rules = frozenset(rule for rule in sorted(strict.ALL) if maker.chosen.random() < share)
    unmet = {rule for rule, _ in strict.start_faults(rules, info, tree)}
    return rules, Follower(plain.good, plain.full, rules - unmet)


def check_strict_answer(plain, follower, step, found_by_all):
    """What the plain rules refuse is refused by the same rule. What they accept is refused by the first rule of the set
    by which a follower with this rule alone refuses it. If there is none, it leads to the plain state, and that meets
    the rules. All this is without a time."""
    after, line = wanted = answer(plain, step.before, step.message)
    if line.startswith("accepted"):
        for rule in sorted(follower.rules):
            found = answer(Follower(plain.good, plain.full, frozenset([rule])), step.before, step.message)
            if found != (after, line):
                wanted = step.before, f"refused {rule} {strict.NAMES[rule]}"
                if found != wanted:
                    raise Mismatch(f"a follower with {rule} alone answers {found[1]}, a plain one {line}")
                break
    state, told = found_by_all
    if wanted != found_by_all:
        raise Mismatch(f"a strict follower answers {told}, by the plain one and single rules it is {wanted[1]}")
    try:
        plain.made_strict(state, follower.rules)
    except StrictRefused as fault:
        raise Mismatch(f"after {told} the state does not meet {fault.rule} at {fault.place}") from fault


# ---- resumptions

def check_resumption(case):
    """The state where the log is cut is resumed from its file as the same state, by the signatures that are listed and by no
    fewer. Without that of a pending proposal's content it is refused as 9 at this proposal, and so it is if the content is
    changed."""
    follower, (_, state) = case.follower, cut_of(case)
    listed, file = signatures.of_state(state, follower.full), file_of(follower, state)
    again, found = resumed_by(listed, file)
    if found != state or again.rules != follower.rules or again.full != follower.full:
        raise Mismatch(f"resumed is {found} by {again and again.rules}, not {state} by {follower.rules}")
    for left_out in case.maker.chosen.sample(listed, min(3, len(listed))):
        if resumed_by([each for each in listed if each != left_out], file)[0]:
            raise Mismatch("the state is resumed without a signature that is listed")
    for position, pending in enumerate(state.pending):
        own = signatures.of_message(state, follower.full, message_of(content_of(state.context, pending)))[0]
        words = f"refused 9 KnownInvalid {position}"
        without = resumed_by([each for each in listed if each != own], file)
        changed = resumed_by(listed, with_other_data(follower, state, position))
        if without != (None, words) or changed != (None, words):
            raise Mismatch(f"wanted {words}, found {without} without the signature, and {changed} with other data")


def resumed_by(good, file):
    """The follower and the state, or None and why there is none."""
    good = set(good)
    try:
        return resumed(lambda *signature: signature in good, file)
    except NotResumed as fault:
        return None, str(fault)


def with_other_data(follower, state, position):
    """The file with other authenticated data of a pending proposal."""
    content = content_of_state(follower, state)
    entry = content.known[position]
    framed = entry.framed._replace(authenticated_data=entry.framed.authenticated_data + b"x")
    known = content.known[:position] + (entry._replace(framed=framed),) + content.known[position + 1:]
    return file_with(content._replace(known=known))
