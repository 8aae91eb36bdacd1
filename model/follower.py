"""A follower of a group's public state by the rules of RFC 9420 and of docs/FORMATS.md, for random_groups.py.

It takes the bytes of a message, and perhaps a time, and answers the next state, or raises Refused with the number of the first
rule that fails. It shares no code with the crates: it reads a message whole, keeps a tree as a tuple, and makes every hash
again.
"""
import collections

import strict
import tree as trees
from layouts import (ADD, APPLICATION_USE, AuthenticatedContent, BY_REFERENCE, BYTES, COMMIT, CREDENTIAL, EXTENSIONS_CHANGE,
                     EXTERNAL, EXTERNAL_INIT, EXTERNAL_SENDERS, first_of, FramedContent, GroupContext, GroupInfo,
                     IS_APPLICATION, IS_COMMIT, IS_PROPOSAL, KEY_PACKAGE, KeyPackage, LeafNode, MEMBER, Message,
                     NEW_COMMITTER, NEW_PROPOSER, PSK, PUBLIC, PublicMessage, REINIT, REMOVE, REPLACE, Requirements,
                     RESUMPTION_PSK, U16, U32, Unreadable, UPDATE, whole)

NAMES = dict(enumerate("""Malformed NotPublic WrongGroup WrongEpoch SenderNotMember NotHandshake BadSignature KnownProposal
    AddInvalid UpdateInvalid RemoveInvalid LastEpoch UnknownReference UpdateByCommitter RemovesCommitter SameLeafTwice
    PathMissing TooManyLeaves PathLength PathSource PathKeyUsed CiphertextCount PathParentHash KeyRepeated Member
    TwoContextExtensions ContextExtensionsInvalid GroupOver UnknownExternal SenderContent PskInvalid ReInitInvalid
    ExternalInitMisplaced PskTwice ReInitNotAlone JoinList ResyncInvalid""".split(), 1))
TIMED_NAMES = {53: "LifetimeOutside"}
MEMBER_NAMES = "ExtensionUnlisted RequirementUnmet CredentialUnsupported SignatureKeyRepeated LeafSignature".split()

LAST_EPOCH = 2**64 - 1
MOST_LEAVES = 2**20

# What a follower knows. A pending proposal is its reference, its sender, itself, and what else of its message the signature
# needs. `added` are the KeyPackageRefs of the Adds of the last commit, None before the first one.
State = collections.namedtuple("State", "context tree interim pending ended added")
Pending = collections.namedtuple("Pending", "reference sender proposal authenticated_data signature")

# A proposal of a list, with who sent it and whether the commit includes it by value.
Item = collections.namedtuple("Item", "sender proposal by_value")


class Refused(Exception):
    """A message is refused: by the number of a rule, and for 25 by that of the rule for leaf nodes and the first leaf that
    breaks it."""

    def __init__(self, rule, member=None, leaf=None):
        super().__init__(rule)
        self.rule = rule
        self.member = member
        self.leaf = leaf


class StrictRefused(Exception):
    """A start is refused, or rules that are added: by the number of a strict rule, and the node index or None. If a
    pending proposal does not meet the rules, by None and its position."""

    def __init__(self, rule, place):
        super().__init__(rule, place)
        self.rule = rule
        self.place = place


def check(rule, holds):
    if not holds:
        raise Refused(rule)


# ---- what is signed and what is hashed (5.1.2, 5.2, 6.1, 7.2, 8.2, 10)

def sign_content(label, body):
    return BYTES.write(b"MLS 1.0 " + label) + BYTES.write(body)


def without_signature(layout, value):
    """The bytes of a structure whose last field is its signature, without it."""
    return layout.write(value)[:-len(BYTES.write(value.signature))]


def leaf_content(leaf, group_id, index):
    body = without_signature(LeafNode, leaf)
    if leaf.source[0] != KEY_PACKAGE:
        body += BYTES.write(group_id) + U32.write(index)
    return sign_content(b"LeafNodeTBS", body)


def package_content(package):
    return sign_content(b"KeyPackageTBS", without_signature(KeyPackage, package))


def info_content(info):
    return sign_content(b"GroupInfoTBS", without_signature(GroupInfo, info))


def framed_content(framed, context):
    """A member, and a client that joins by its commit, sign the GroupContext too."""
    body = U16.write(1) + U16.write(PUBLIC) + FramedContent.write(framed)
    if framed.sender[0] in (MEMBER, NEW_COMMITTER):
        body += GroupContext.write(context)
    return sign_content(b"FramedContentTBS", body)


def ref_hash(suite, label, body):
    return trees.digest(suite, BYTES.write(b"MLS 1.0 " + label) + BYTES.write(body))


def reference_of(suite, message):
    content = AuthenticatedContent(PUBLIC, message.framed, message.signature, None)
    return ref_hash(suite, b"Proposal Reference", AuthenticatedContent.write(content))


def package_reference(package):
    return ref_hash(package.suite, b"KeyPackage Reference", KeyPackage.write(package))


def content_of(context, pending):
    """The AuthenticatedContent of a pending proposal, which was sent in the group and the epoch of the context."""
    framed = FramedContent(context.group_id, context.epoch, pending.sender, pending.authenticated_data,
                           (IS_PROPOSAL, pending.proposal))
    return AuthenticatedContent(PUBLIC, framed, pending.signature, None)


def interim_hash(suite, confirmed, confirmation_tag):
    return trees.digest(suite, confirmed + BYTES.write(confirmation_tag))


def confirmed_hash(suite, interim, message):
    body = U16.write(PUBLIC) + FramedContent.write(message.framed) + BYTES.write(message.signature)
    return trees.digest(suite, interim + body)


# ---- extensions of the GroupContext (11.1, 12.1.8.1)

def requirements_of(extensions):
    data = first_of(3, extensions)
    return Requirements((), (), ()) if data is None else whole(Requirements, data)


def external_senders(extensions):
    """The external senders. A list that cannot be read counts as none."""
    try:
        return whole(EXTERNAL_SENDERS, first_of(5, extensions) or b"\x00")
    except Unreadable:
        return ()


def replaced_extensions(extensions, items):
    return next((item.proposal[1] for item in items if item.proposal[0] == EXTENSIONS_CHANGE), extensions)


# ---- leaf nodes (7.3)

def check_members(context, tree, good):
    """The rules for all leaf nodes, each for all leaves before the next one."""
    leaves = [(index, trees.leaf(tree, index)) for index in trees.members(tree)]
    required = requirements_of(context.extensions)
    types = {leaf.credential[0] for _, leaf in leaves}
    signature_keys = [leaf.signature_key for _, leaf in leaves]

    def unlisted(kinds, most, listed):
        return any((kind > most or kind == 0) and kind not in listed for kind in kinds)

    for index, leaf in leaves:
        if unlisted([extension.kind for extension in leaf.extensions], 5, leaf.capabilities.extensions):
            raise Refused(25, 1, index)
    for index, leaf in leaves:
        able = leaf.capabilities
        if (unlisted(required.extensions, 5, able.extensions) or unlisted(required.proposals, 7, able.proposals)
                or not set(required.credentials) <= set(able.credentials)):
            raise Refused(25, 2, index)
    for index, leaf in leaves:
        if not types <= set(leaf.capabilities.credentials):
            raise Refused(25, 3, index)
    for index, leaf in leaves:
        if signature_keys.count(leaf.signature_key) > 1:
            raise Refused(25, 4, index)
    for index, leaf in leaves:
        if not good(leaf.signature_key, leaf_content(leaf, context.group_id, index), leaf.signature):
            raise Refused(25, 5, index)


def applied(tree, items):
    """The tree after a list (12.3), and the leaves that it adds; None if it replaces or removes a blank leaf."""
    added = []
    for item in items:
        if item.proposal[0] == REPLACE:
            if not trees.leaf(tree, item.sender[1]):
                return None
            tree = trees.update(tree, item.sender[1], item.proposal[1])
    for item in items:
        if item.proposal[0] == REMOVE:
            if not trees.leaf(tree, item.proposal[1]):
                return None
            tree = trees.remove(tree, item.proposal[1])
    for item in items:
        if item.proposal[0] == ADD:
            tree, index = trees.add(tree, item.proposal[1].leaf_node)
            added.append(index)
    return tree, added


def is_join_list(entries):
    """Whether the list may be that of an external commit (12.2, 12.4.3.2)."""
    kinds = [None if tag == BY_REFERENCE else proposal[0] for tag, proposal in entries]
    return set(kinds) <= {EXTERNAL_INIT, REMOVE, PSK} and kinds.count(EXTERNAL_INIT) == 1 and kinds.count(REMOVE) <= 1


def own_proposals(message):
    """The proposals that a message has itself: that of a proposal, and those by value of a commit."""
    kind, body = message.framed.content
    if kind == IS_COMMIT:
        return [proposal for tag, proposal in body.proposals if tag != BY_REFERENCE]
    return [body] if kind == IS_PROPOSAL else []


def is_valid_at(time, leaf):
    """Whether a time is in the lifetime of the leaf of a KeyPackage (7.2, 7.3)."""
    lifetime = leaf.source[1]
    return lifetime.not_before <= time <= lifetime.not_after


def message_of(content):
    """The bytes of a PublicMessage of an AuthenticatedContent. Which membership tag it has makes no difference here."""
    tag = b"" if content.framed.sender[0] == MEMBER else None
    public = PublicMessage(content.framed, content.signature, content.confirmation_tag, tag)
    return Message.write(Message(1, (PUBLIC, public)))


class Follower:
    """The rules. `good` says whether a signature over a content is good under a key. `rules` are the strict rules."""

    def __init__(self, good, full=True, rules=frozenset()):
        self.good = good
        self.full = full
        self.rules = rules

    def start_from(self, info, tree):
        """The state that a GroupInfo leads to. Of the conditions of a start only the ninth is checked: the strict
        rules."""
        for fault in strict.start_faults(self.rules, info, tree):
            raise StrictRefused(*fault)
        return self.start(info.context, tree, info.confirmation_tag)

    def made_strict(self, state, rules):
        """The follower with more strict rules, which the state has to meet."""
        new = rules - self.rules
        for fault in strict.group_faults(new, state.context, state.tree):
            raise StrictRefused(*fault)
        for position, pending in enumerate(state.pending):
            if new & strict.unmet_by_proposals(state.context, [pending.proposal]):
                raise StrictRefused(None, position)
        return Follower(self.good, self.full, self.rules | rules)

    def start(self, context, tree, confirmation_tag):
        interim = interim_hash(context.suite, context.confirmed, confirmation_tag)
        return State(context, tree, interim, (), False, None)

    def take(self, state, data, time=None):
        """The state after a message. If there is a time, in seconds since 1970, lifetimes are checked, after all else."""
        message = self.read(data)
        after = self.taken(state, message)
        if self.rules:
            self.check_strictly(state.context, message, after)
        if time is not None:
            check(53, all(is_valid_at(time, package.leaf_node) for kind, package in own_proposals(message) if kind == ADD))
        return after

    def check_strictly(self, context, message, after):
        """The strict rules, of a message that the rules of the profile accept."""
        for rule in sorted(self.rules & strict.unmet(context, message)):
            raise Refused(rule)
        if message.framed.content[0] == IS_COMMIT and 51 in self.rules:
            check(51, strict.are_supported(after.context, after.tree))

    def taken(self, state, message):
        """The state after a message, by the rules of the profile."""
        self.check_sender(state, message)
        kind, body = message.framed.content
        if kind == IS_PROPOSAL:
            return self.propose(state, message, body)
        check(12, state.context.epoch != LAST_EPOCH)
        if message.framed.sender[0] == MEMBER:
            return self.commit(state, message, body)
        return self.join(state, message, body)

    # ---- all messages

    def read(self, data):
        try:
            message = whole(Message, data)
        except Unreadable:
            raise Refused(1) from None
        kind, public = message.body
        if kind == PUBLIC and not self.full:
            check(1, not any(proposal[0] in (PSK, REINIT, EXTERNAL_INIT) for proposal in own_proposals(public)))
        check(2, kind == PUBLIC)
        return public

    def check_sender(self, state, message):
        framed = message.framed
        context = state.context
        check(3, framed.group_id == context.group_id)
        check(4, framed.epoch == context.epoch)
        check(28, not state.ended)
        sender, index = framed.sender
        kind, body = framed.content
        if sender == MEMBER:
            sending = trees.leaf(state.tree, index)
            check(5, sending)
            check(6, kind != IS_APPLICATION)
            key = sending.signature_key
        elif not self.full:
            raise Refused(5)
        elif sender == EXTERNAL:
            listed = external_senders(context.extensions)
            check(29, index < len(listed))
            check(6, kind != IS_APPLICATION)
            check(30, kind == IS_PROPOSAL and body[0] in (ADD, REMOVE, PSK, REINIT, EXTENSIONS_CHANGE))
            key = listed[index].signature_key
        elif sender == NEW_PROPOSER:
            check(6, kind != IS_APPLICATION)
            check(30, kind == IS_PROPOSAL and body[0] == ADD)
            key = body[1].leaf_node.signature_key
        else:
            check(6, kind != IS_APPLICATION)
            check(30, kind == IS_COMMIT)
            check(17, body.path)
            key = body.path.leaf_node.signature_key
        check(7, self.good(key, framed_content(framed, context), message.signature))

    # ---- proposals (12.1)

    def propose(self, state, message, proposal):
        reference = reference_of(state.context.suite, message)
        check(8, all(pending.reference != reference for pending in state.pending))
        sender = message.framed.sender
        for rule in (9, 10, 11, 27, 31, 32, 33):
            self.check_proposal(rule, state, sender, proposal)
        accepted = Pending(reference, sender, proposal, message.framed.authenticated_data, message.signature)
        return state._replace(pending=state.pending + (accepted,))

    def check_proposal(self, rule, state, sender, proposal):
        """The rule for a type of proposal, which holds for the other types."""
        kind, body = proposal
        context = state.context
        if (rule, kind) == (9, ADD):
            leaf = body.leaf_node
            check(9, (body.version, body.suite) == (context.version, context.suite))
            check(9, leaf.source[0] == KEY_PACKAGE and body.init_key != leaf.encryption_key)
            check(9, self.good(leaf.signature_key, leaf_content(leaf, context.group_id, 0), leaf.signature))
            check(9, self.good(leaf.signature_key, package_content(body), body.signature))
        if (rule, kind) == (10, REPLACE):
            check(10, sender[0] == MEMBER and body.source[0] == UPDATE)
            check(10, body.encryption_key != trees.leaf(state.tree, sender[1]).encryption_key)
            check(10, self.good(body.signature_key, leaf_content(body, context.group_id, sender[1]), body.signature))
        if (rule, kind) == (11, REMOVE):
            check(11, trees.leaf(state.tree, body))
        if (rule, kind) == (27, EXTENSIONS_CHANGE):
            try:
                requirements_of(body)
            except Unreadable:
                raise Refused(27) from None
        if (rule, kind) == (31, PSK):
            check(31, len(body[1].nonce) == trees.digest_length(context.suite))
            if body[0] == RESUMPTION_PSK and body[1].usage != APPLICATION_USE:
                check(31, context.epoch == 0 and sender[0] == MEMBER)
        if (rule, kind) == (32, REINIT):
            check(32, body.version >= context.version)
        if (rule, kind) == (33, EXTERNAL_INIT):
            raise Refused(33)

    # ---- commits (12.2, 12.3, 12.4)

    def resolved(self, state, sender, commit):
        items = []
        for tag, entry in commit.proposals:
            if tag == BY_REFERENCE:
                found = [pending for pending in state.pending if pending.reference == entry]
                check(13, found)
                items.append(Item(found[0].sender, found[0].proposal, False))
            else:
                items.append(Item(sender, entry, True))
        return items

    def commit(self, state, message, commit):
        sender = message.framed.sender
        items = self.resolved(state, sender, commit)
        for rule in (9, 10, 11, 27, 31, 32, 33):
            for item in items:
                if item.by_value:
                    self.check_proposal(rule, state, sender, item.proposal)
        self.check_list(sender, items, commit.path)
        tree, added = applied(state.tree, items)
        check(18, len(trees.members(tree)) <= MOST_LEAVES)
        context = state.context._replace(extensions=replaced_extensions(state.context.extensions, items))
        if commit.path:
            tree = self.path_merged(context, tree, sender[1], added, commit.path)
        return self.next_state(state, message, context, tree, items)

    def check_list(self, sender, items, path):
        kinds = [item.proposal[0] for item in items]
        check(14, not any(item.proposal[0] == REPLACE and item.sender == sender for item in items))
        check(15, not any(item.proposal == (REMOVE, sender[1]) for item in items))
        targets = [item.proposal[1] for item in items if item.proposal[0] == REMOVE]
        targets += [item.sender[1] for item in items if item.proposal[0] == REPLACE]
        check(16, len(targets) == len(set(targets)))
        check(26, kinds.count(EXTENSIONS_CHANGE) < 2)
        self.check_psks(items)
        check(35, REINIT not in kinds or len(kinds) == 1)
        check(17, path or (kinds and not {REPLACE, REMOVE, EXTENSIONS_CHANGE} & set(kinds)))

    def check_psks(self, items):
        psks = [item.proposal[1] for item in items if item.proposal[0] == PSK]
        check(34, len(psks) == len(set(psks)))

    def join(self, state, message, commit):
        """An external commit (12.4.3.2): the new member takes the leaf that an Add would give it."""
        sender = message.framed.sender
        check(36, is_join_list(commit.proposals))
        by_value = [entry for _, entry in commit.proposals]
        for rule in (11, 31):
            for proposal in by_value:
                self.check_proposal(rule, state, sender, proposal)
        items = [Item(sender, proposal, True) for proposal in by_value]
        self.check_psks(items)
        for kind, index in by_value:
            if kind == REMOVE:
                self.check_same_client(trees.leaf(state.tree, index), commit.path.leaf_node)
        tree, _ = applied(state.tree, items)
        check(18, len(trees.members(tree)) < MOST_LEAVES)
        tree, index = trees.seat(tree)
        tree = self.path_merged(state.context, tree, index, [], commit.path)
        return self.next_state(state, message, state.context, tree, items)

    def check_same_client(self, old, new):
        check(37, old.encryption_key != new.encryption_key)
        same_credential = CREDENTIAL.write(old.credential) == CREDENTIAL.write(new.credential)
        check(37, same_credential or old.signature_key == new.signature_key)

    def path_merged(self, context, tree, index, added, path):
        """The tree with the path of a leaf, which may be blank until then (7.5)."""
        ways = trees.filtered(tree, index)
        check(19, len(path.nodes) == len(ways))
        check(20, path.leaf_node.source[0] == COMMIT)
        keys = [node.encryption_key for node in path.nodes]
        every = [path.leaf_node.encryption_key, *keys]
        check(21, len(set(every)) == len(every) and not set(every) & set(trees.keys(tree)))
        new = {2 * index for index in added}
        for node, (_, other) in zip(path.nodes, ways):
            check(22, len(node.ciphertexts) == len(set(trees.resolution(tree, other)) - new))
        tree, expected = trees.merged(context.suite, tree, index, keys)
        check(23, path.leaf_node.source[1] == expected)
        return trees.put(tree, 2 * index, path.leaf_node)

    def next_state(self, state, message, context, tree, items):
        keys = trees.keys(tree)
        check(24, len(set(keys)) == len(keys))
        check_members(context, tree, self.good)
        confirmed = confirmed_hash(context.suite, state.interim, message)
        context = context._replace(epoch=context.epoch + 1, tree_hash=trees.tree_hash(context.suite, tree),
                                   confirmed=confirmed)
        ended = any(item.proposal[0] == REINIT for item in items)
        added = tuple(package_reference(item.proposal[1]) for item in items if item.proposal[0] == ADD)
        interim = interim_hash(context.suite, confirmed, message.confirmation_tag)
        return State(context, tree, interim, (), ended, added)


def line_of(former, state):
    """What `replay` prints of an accepted message, after its number."""
    if len(state.pending) > len(former.pending) and state.context == former.context:
        return f"accepted proposal {state.pending[-1].reference.hex()}"
    context = state.context
    told = f"accepted commit {context.epoch} {context.tree_hash.hex()} {context.confirmed.hex()}"
    return told + (" ended" if state.ended else "")


def name_of(rule):
    return (NAMES | strict.NAMES | TIMED_NAMES)[rule]


def refusal_line(refused):
    """What `gate` answers to a message that is refused."""
    words = f"refused {refused.rule} {name_of(refused.rule)}"
    if refused.member is None:
        return words
    return f"{words} {refused.member} {MEMBER_NAMES[refused.member - 1]} {refused.leaf}"


def short(line):
    """The line of `replay` for an answer of `gate`: a refusal by its number, and for 25 by that of the rule for leaves."""
    words = line.split()
    if words[0] == "accepted":
        return line
    return " ".join(words[:2] + words[3:4]) if words[1] == "25" else " ".join(words[:2])
