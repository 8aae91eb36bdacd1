"""Faults of a commit's proposal list and of its path, for faults.py."""
import tree as trees
from layouts import (BY_REFERENCE, BY_VALUE, Ciphertext, COMMIT, Extension, EXTENSIONS_CHANGE, EXTERNAL_INIT,
                     IS_COMMIT, KEY_PACKAGE, Lifetime, MEMBER, NEW_COMMITTER, NO_BODY, PathNode, REINIT, REMOVE,
                     REPLACE, UPDATE)
from faults import fault, has_remove, inserted, with_entries


# ---- lists of members' commits (12.2)

def of_member(make):
    def limited(maker, state, draft):
        if draft.sender[0] != MEMBER or draft.content[0] != IS_COMMIT:
            return None
        return make(maker, state, draft)
    limited.__name__ = make.__name__
    return limited


@fault(13)
@of_member
def unknown_reference(maker, state, draft):
    reference = maker.chosen.choice([b"", bytes(trees.digest_length(maker.suite))])
    return with_entries(maker, state, draft, inserted(maker, draft.content[1].proposals, (BY_REFERENCE, reference)))


@fault(14)
@of_member
def own_update(maker, state, draft):
    entry = BY_VALUE, maker.update(state, draft.index)
    pending = [known.reference for known in state.pending
               if known.sender == draft.sender and known.proposal[0] == REPLACE]
    if pending and maker.chosen.random() < 0.5:
        entry = BY_REFERENCE, pending[0]
    return with_entries(maker, state, draft, inserted(maker, draft.content[1].proposals, entry))


@fault(15)
@of_member
def own_remove(maker, state, draft):
    entry = BY_VALUE, (REMOVE, draft.index)
    pending = [known.reference for known in state.pending if known.proposal == (REMOVE, draft.index)]
    if pending and maker.chosen.random() < 0.7:
        entry = BY_REFERENCE, pending[0]
    return with_entries(maker, state, draft, inserted(maker, draft.content[1].proposals, entry))


@fault(16)
@of_member
def same_leaf_twice(maker, state, draft):
    index = maker.member(state, {draft.index})
    if index is None:
        return None
    entries = [(BY_VALUE, (REMOVE, index))] * 2
    updates = [known for known in state.pending if known.proposal[0] == REPLACE and known.sender != draft.sender]
    if updates:
        entries = [(BY_REFERENCE, updates[0].reference)] * 2
        if maker.chosen.random() < 0.5:
            entries[1] = BY_VALUE, (REMOVE, updates[0].sender[1])
    return with_entries(maker, state, draft, inserted(maker, draft.content[1].proposals, *entries))


@fault(26)
@of_member
def two_extensions(maker, state, draft):
    entries = [(BY_VALUE, maker.context_extensions(state)), (BY_VALUE, (EXTENSIONS_CHANGE, ()))]
    return with_entries(maker, state, draft, inserted(maker, draft.content[1].proposals, *entries))


@fault(34)
def psk_twice(maker, state, draft):
    if draft.content[0] != IS_COMMIT:
        return None
    entry = BY_VALUE, maker.psk(state, draft.sender[0] == MEMBER)
    return with_entries(maker, state, draft, inserted(maker, draft.content[1].proposals, entry, entry))


@fault(35)
@of_member
def reinit_not_alone(maker, state, draft):
    entries = [(BY_VALUE, maker.reinit())]
    if not draft.content[1].proposals:
        entries.append((BY_VALUE, maker.chosen.choice([maker.reinit(), maker.add(), maker.psk(state, True)])))
    return with_entries(maker, state, draft, inserted(maker, draft.content[1].proposals, *entries))


@fault(17)
@of_member
def path_left_out(maker, state, draft):
    if has_reinit(state, draft):
        return None
    kind, commit = draft.content
    entries = commit.proposals
    if not commit.path:
        removed = maker.remove(state, targets_of(state, draft) | {draft.index})
        entry = maker.chosen.choice([removed or (EXTENSIONS_CHANGE, ()), (EXTENSIONS_CHANGE, ())])
        entries = inserted(maker, entries, (BY_VALUE, entry))
    elif not needs_path(state, draft):
        return None
    return maker.message(state, draft._replace(content=(kind, commit._replace(path=None, proposals=tuple(entries)))))


def proposals_of(state, draft):
    """The proposals of a commit, each after its sender."""
    pending = {known.reference: (known.sender, known.proposal) for known in state.pending}
    return [pending[entry] if tag == BY_REFERENCE else (draft.sender, entry) for tag, entry in draft.content[1].proposals]


def has_reinit(state, draft):
    return any(proposal[0] == REINIT for _, proposal in proposals_of(state, draft))


def targets_of(state, draft):
    items = proposals_of(state, draft)
    return ({body for _, (kind, body) in items if kind == REMOVE}
            | {sender[1] for sender, (kind, _) in items if kind == REPLACE})


def needs_path(state, draft):
    kinds = {proposal[0] for _, proposal in proposals_of(state, draft)}
    return not kinds or kinds & {REPLACE, REMOVE, EXTENSIONS_CHANGE}


@fault(24, 25)
@of_member
def member_added_twice(maker, state, draft):
    """An Add whose leaf has a key of another member, or is not valid in this group."""
    if draft.content[1].path or has_reinit(state, draft):
        return None
    old = trees.leaf(draft.tree, maker.chosen.choice(trees.members(draft.tree)))
    leaf = maker.chosen.choice([{"encryption_key": old.encryption_key}, {"signature_key": old.signature_key},
                                bad_leaf(maker, maker.leaf())])
    entries = inserted(maker, draft.content[1].proposals, (BY_VALUE, maker.add(**leaf)))
    return with_entries(maker, state, draft, entries)


def bad_leaf(maker, leaf):
    """What makes a leaf break one of the rules 1 and 3 of 7.3."""
    return maker.chosen.choice([
        {"extensions": leaf.extensions + (Extension(maker.chosen.choice([0, 6, 0xF003]), b""),)},
        {"capabilities": leaf.capabilities._replace(credentials=())},
    ])


# ---- lists of external commits (12.2, 12.4.3.2)

def of_newcomer(make):
    def limited(maker, state, draft):
        return make(maker, state, draft) if draft.sender[0] == NEW_COMMITTER else None
    limited.__name__ = make.__name__
    return limited


@fault(36)
@of_newcomer
def not_a_join_list(maker, state, draft):
    entries = list(draft.content[1].proposals)
    init = next(at for at, (_, proposal) in enumerate(entries) if proposal[0] == EXTERNAL_INIT)
    index = maker.member(state)
    extra = [maker.add(), maker.update(state, index), (EXTENSIONS_CHANGE, ()), maker.reinit(), (EXTERNAL_INIT, b"kem"),
             entries[init][1]]
    kinds = [inserted(maker, entries, (BY_VALUE, proposal)) for proposal in extra]
    kinds.append(entries[:init] + entries[init + 1:])
    references = [known.reference for known in state.pending]
    kinds += [inserted(maker, entries, (BY_REFERENCE, reference)) for reference in references[:2] + [b"unknown"]]
    remove = BY_VALUE, (REMOVE, index)
    kinds.append(inserted(maker, entries, remove) if has_remove(draft) else inserted(maker, entries, remove, remove))
    return with_entries(maker, state, draft, maker.chosen.choice(kinds))


@fault(37)
@of_newcomer
def another_client(maker, state, draft):
    """The Remove is of a leaf with neither the credential nor the signature key of the path's leaf, or with its key."""
    index = maker.member(state)
    old = trees.leaf(state.tree, index)
    changes = maker.chosen.choice([
        {},
        {"encryption_key": old.encryption_key, "signature_key": old.signature_key, "credential": old.credential},
        {"encryption_key": old.encryption_key, "credential": old.credential},
    ])
    return maker.message(state, maker.joined(state, [(REMOVE, index), (EXTERNAL_INIT, b"kem")], changes))


@fault(19, 21, 22, 23, 25)
@of_newcomer
def another_seat(maker, state, draft):
    """The path is that of another leaf: a blank one, the first of a tree that is extended, or that before the Remove."""
    tree, index = maker.chosen.choice([trees.seat(state.tree), trees.seat(draft.tree), extended_seat(draft.tree)])
    blank = [at for at in range(trees.width(tree)) if not trees.leaf(tree, at)]
    index = maker.chosen.choice([index, *blank])
    if (tree, index) == (draft.tree, draft.index):
        return None
    path = maker.path(tree, index, [], maker.signed_leaf(draft.content[1].path.leaf_node, index))
    if maker.trusting or index == draft.index:
        keys = [node.encryption_key for node in path.nodes]
        if len(keys) == len(trees.filtered(draft.tree, draft.index)):
            _, expected = trees.merged(maker.suite, draft.tree, draft.index, keys)
            if path.leaf_node.source[1] == expected:
                return None
    return with_path(maker, state, draft, path)


def extended_seat(tree):
    return tree + (None,) * (len(tree) + 1), trees.width(tree)


# ---- paths (7.5, 7.6, 7.9, 12.4.2)

def of_path(make):
    def limited(maker, state, draft):
        if draft.content[0] != IS_COMMIT or not draft.content[1].path:
            return None
        path = make(maker, state, draft, draft.content[1].path)
        return path and with_path(maker, state, draft, path)
    limited.__name__ = make.__name__
    return limited


def with_path(maker, state, draft, path):
    kind, commit = draft.content
    key = path.leaf_node.signature_key if draft.sender[0] == NEW_COMMITTER else draft.key
    return maker.message(state, draft._replace(content=(kind, commit._replace(path=path)), key=key))


def with_leaf(maker, draft, path, **changes):
    return path._replace(leaf_node=maker.signed_leaf(path.leaf_node._replace(**changes), draft.index))


def with_node(path, at, **changes):
    nodes = list(path.nodes)
    nodes[at] = nodes[at]._replace(**changes)
    return path._replace(nodes=tuple(nodes))


@fault(19)
@of_path
def path_length(maker, state, draft, path):
    if path.nodes and maker.chosen.random() < 0.5:
        return path._replace(nodes=path.nodes[:-1])
    return path._replace(nodes=path.nodes + (PathNode(maker.name("path"), ()),))


@fault(20)
@of_path
def path_source(maker, state, draft, path):
    source = maker.chosen.choice([(UPDATE, NO_BODY), (KEY_PACKAGE, Lifetime(0, 2**64 - 1))])
    return with_leaf(maker, draft, path, source=source)


@fault(21)
@of_path
def path_key_used(maker, state, draft, path):
    used = maker.chosen.choice(trees.keys(draft.tree) or [None])
    own = path.leaf_node.encryption_key
    kinds = [with_leaf(maker, draft, path, encryption_key=used)] if used else []
    if path.nodes:
        at = maker.chosen.randrange(len(path.nodes))
        other = path.nodes[at - 1].encryption_key
        changed = [with_node(path, at, encryption_key=key) for key in (own, used) if key]
        changed += [with_node(path, at, encryption_key=other)] if len(path.nodes) > 1 else []
        kinds += [maker.leaf_on(draft.tree, draft.index, each) for each in changed]
    return maker.chosen.choice(kinds) if kinds else None


@fault(22)
@of_path
def ciphertext_count(maker, state, draft, path):
    if not path.nodes:
        return None
    at = maker.chosen.randrange(len(path.nodes))
    sent = path.nodes[at].ciphertexts
    kinds = [sent + (Ciphertext(b"", b""),)]
    kinds += [sent[1:]] if sent else []
    return with_node(path, at, ciphertexts=maker.chosen.choice(kinds))


@fault(22)
@of_path
def ciphertexts_for_added(maker, state, draft, path):
    """A ciphertext for each node of the resolutions, the leaves that the commit adds among them."""
    counts = [len(trees.resolution(draft.tree, other)) for _, other in trees.filtered(draft.tree, draft.index)]
    if counts == [len(node.ciphertexts) for node in path.nodes]:
        return None
    for at, count in enumerate(counts):
        path = with_node(path, at, ciphertexts=(Ciphertext(b"", b""),) * count)
    return path


@fault(22)
@of_path
def no_ciphertexts_for_unmerged(maker, state, draft, path):
    """None for unmerged leaves."""
    def merged(other):
        top = trees.resolution(draft.tree, other)
        unmerged = {2 * index for place in top if trees.level(place) for index in draft.tree[place].unmerged}
        return len(set(top) - unmerged - {2 * index for index in draft.added})
    counts = [merged(other) for _, other in trees.filtered(draft.tree, draft.index)]
    if counts == [len(node.ciphertexts) for node in path.nodes]:
        return None
    for at, count in enumerate(counts):
        path = with_node(path, at, ciphertexts=(Ciphertext(b"", b""),) * count)
    return path


@fault(23)
@of_path
def parent_hash_bit(maker, state, draft, path):
    source, right = path.leaf_node.source
    if source != COMMIT:
        return None
    kinds = [right + b"\x00", b"\x01", b"" if right else b"\x00"]
    if right:
        at = maker.chosen.randrange(len(right))
        kinds += [right[:at] + bytes([right[at] ^ 1 << maker.chosen.randrange(8)]) + right[at + 1:]] * 3
    return with_leaf(maker, draft, path, source=(COMMIT, maker.chosen.choice(kinds)))


@fault(23)
@of_path
def parent_hash_of_former_tree(maker, state, draft, path):
    """The parent hash in the tree before the commit's list."""
    if len(state.tree) != len(draft.tree) or state.tree == draft.tree:
        return None
    if trees.filtered(state.tree, draft.index) != trees.filtered(draft.tree, draft.index):
        return None
    _, former = trees.merged(maker.suite, state.tree, draft.index, [node.encryption_key for node in path.nodes])
    if former == path.leaf_node.source[1]:
        return None
    return with_leaf(maker, draft, path, source=(COMMIT, former))


@fault(25, 37)
@of_path
def path_signature_key(maker, state, draft, path):
    others = [index for index in trees.members(draft.tree) if index != draft.index]
    if not others:
        return None
    key = trees.leaf(draft.tree, maker.chosen.choice(others)).signature_key
    return with_leaf(maker, draft, path, signature_key=key)


@fault(25)
@of_path
def path_leaf_invalid(maker, state, draft, path):
    return with_leaf(maker, draft, path, **bad_leaf(maker, path.leaf_node))


@fault(25, signed=True)
@of_path
def path_leaf_badly_signed(maker, state, draft, path):
    bad = path.leaf_node._replace(signature=b"bad")
    elsewhere = maker.signed_leaf(path.leaf_node, draft.index + 1)
    return path._replace(leaf_node=maker.chosen.choice([bad, elsewhere]))
