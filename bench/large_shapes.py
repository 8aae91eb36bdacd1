"""Shapes for cost.py: messages to large groups."""
from group import EXTERNAL_INIT, KEY_PACKAGE, Group, Plan, leaf_bytes, new_leaf, number, vector
from messages import (EXTENSION, Sparse, add, commit, commit_with_path, extensions_of, external_commit, false_path,
                      far_members, frozen, inline, inline_adds, psk, remove)
from shape import SHAPES, shape, shape_of_queries

# ---- messages that are sent again and again to a large group


def halved(put, joining):
    """Two members under 262,144 leaves, and commits that are refused by 19, of which each second one removes the right
    one, so that the tree is halved, and adds others."""
    last = 262_143
    group = Sparse(last + 1, [0])
    group.set_leaf(last, new_leaf("right"))
    path = false_path(b"", b"\x00\x00" * 40)
    items = [inline(remove(last))] + [inline(add(leaf)) for leaf in joining]
    return put.replay(group, [commit(group, items, path), commit(group, [], path)] * put.size(12), share=0.05)


@shape
def halving_taken_back(put):
    return halved(put, [])


@shape
def halved_and_filled(put):
    return halved(put, [new_leaf("joined")])


def joining_with_fault(group, fault):
    leaf = new_leaf("joined")
    if fault == 24:
        leaf = leaf._replace(encryption=group.leaves[1].encryption)
    if fault == 25:
        leaf = leaf._replace(signature=group.leaves[1].signature)
    return leaf


def path_with_fault(group, added, fault):
    path = group.renew(0, group.renewed(0))
    if fault == 19:
        path = path[:-1]
    if fault == 20:
        group.levels[0][0] = leaf_bytes(group.leaves[0], KEY_PACKAGE)
    if fault == 21:
        path[0] = (group.leaves[1].encryption, *path[0][1:])
    if fault == 23:
        group.levels[0][0] = leaf_bytes(group.leaves[0], b"\x03" + vector(bytes(32)))
    return group.path_bytes(0, path, set() if fault == 22 else added)


def refused_by(put, group, rule, **touched):
    """A commit with a path that adds one, again and again, and is refused by a rule."""
    leaf = joining_with_fault(frozen(group), rule)
    added = {group.join(leaf)}
    sent = commit(group, [inline(add(leaf))], path_with_fault(group, added, rule))
    return put.replay(group, [sent] * put.size(25), **touched)


def full_group(put, rule):
    """The tree is full, and is extended for the commit. From rule 21 on its new nodes are among those that are checked, from
    rule 23 on the hashes of its new right subtree are needed, most of which the first commit leaves behind."""
    if rule < 21:
        return refused_by(put, Group(put.full(8_192), put.full(1_024)), rule, touches_all=True)
    return refused_by(put, Group(16_384, 2_048), rule, touches_all=True, share=0.05)


def other_group(put, rule):
    return refused_by(put, Group(put.full(8_192) * 3 // 4, put.full(1_024)), rule)


for at in range(19, 26):
    SHAPES[f"refused-{at}"] = lambda put, rule=at: other_group(put, rule)
    SHAPES[f"full-group-refused-{at}"] = lambda put, rule=at: full_group(put, rule)


def join_refused_by(put, group, rule, **touched):
    """An external commit for which a full tree is extended, again and again, and restored, since it is refused: by rule 22,
    before the hashes of the new right subtree are needed, or by 25, after that."""
    leaf, index = joining_with_fault(frozen(group), rule), group.seat()
    path = group.path_bytes(index, group.renew(index, leaf), {0} if rule == 22 else set())
    sent = external_commit(group, [inline(EXTERNAL_INIT)], path)
    return put.replay(group, [sent] * put.size(25), profile="full", **touched)


@shape
def full_group_join_refused_22(put):
    return join_refused_by(put, Group(put.full(8_192), put.full(1_024)), 22, touches_all=True)


@shape
def full_group_join_refused_25(put):
    return join_refused_by(put, Group(16_384, 2_048), 25, touches_all=True, share=0.05)


def one_on_the_right():
    """A full left half of 32,768 members, one of whom has renewed its path, and one member in the right half."""
    group = Group(32_769)
    group.renew(0, group.renewed(0))
    return frozen(group), 32_768


def resync(group, index, extensions=b""):
    """An external commit by which the owner of this leaf joins again, at the same one."""
    leaf = new_leaf("again", group.epoch)._replace(credential=group.leaves[index].credential, extensions=extensions)
    group.remove(index)
    path = group.path_bytes(index, group.renew(index, leaf), set())
    return external_commit(group, [inline(EXTERNAL_INIT), inline(remove(index))], path)


@shape
def resyncs_of_the_right_half(put):
    """External commits by which the only member in the right half joins again. The tree is truncated and extended for each,
    and its nodes are moved, but the blank ones of the right half may not be hashed for each."""
    group, last = one_on_the_right()
    messages = []
    for _ in range(put.size(25)):
        messages.append(resync(group, last))
        group.epoch += 1
    return put.replay(group, messages, touches_all=True, share=0.1, profile="full")


@shape
def resyncs_of_the_right_half_refused_25(put):
    group, last = one_on_the_right()
    sent = resync(group, last, EXTENSION)
    return put.replay(group, [sent] * put.size(25), touches_all=True, share=0.1, profile="full")


@shape_of_queries
def queries_of_a_resync_of_the_right_half(put):
    group, last = one_on_the_right()
    return put.gate(group, [(b"q", resync(group, last))] * put.size(25), share=0.1, profile="full")


@shape
def join_list_refused(put):
    """An external commit with a long list of PSKs, and two Removes at its end, by which 36 refuses it."""
    group = Group(2)
    items = [inline(EXTERNAL_INIT)] + [inline(psk(at)) for at in range(put.size(20_000))] + [inline(remove(0))] * 2
    return put.replay(group, [external_commit(group, items, false_path(b"", b""))], profile="full")


@shape
def join_psks(put):
    """An external commit with a long list of PSKs whose nonces have equal first bytes, refused by 19."""
    group = Group(2)
    items = [inline(EXTERNAL_INIT)] + [inline(psk(at)) for at in range(put.size(20_000))]
    return put.replay(group, [external_commit(group, items, false_path(b"", b""))], profile="full")


def adds_one(put, make_leaf):
    """A commit without a path, again and again, that adds one who may not join."""
    group = Group(put.size(24_000))
    return put.replay(group, [commit(group, [inline(add(make_leaf(group)))])] * put.size(25))


@shape
def key_repeated(put):
    return adds_one(put, lambda group: joining_with_fault(group, 24))


@shape
def signature_key_repeated(put):
    return adds_one(put, lambda group: joining_with_fault(group, 25))


@shape
def extension_unlisted(put):
    return adds_one(put, lambda group: new_leaf("joined")._replace(extensions=number(0xF000, 2) + b"\x00"))


@shape
def credential_unlisted(put):
    return adds_one(put, lambda group: new_leaf("joined")._replace(credential=b"\x00\x02" + vector(b"")))


@shape
def required_unmet(put):
    """Commits that require an extension that no member lists."""
    group = frozen(Group(put.full(8_192), put.full(1_024)))
    body = extensions_of([(3, vector(number(0xF000, 2)) + vector(b"") * 2)])
    return put.replay(group, [commit_with_path(group, [inline(body)])] * put.size(25))


@shape
def required_changed(put):
    """Commits that change what is required in a group of 20,000."""
    group = frozen(Group(20_000, 2_000))
    bodies = [extensions_of([(3, vector(b"") * 2 + vector(credentials))]) for credentials in (b"", number(1, 2))]
    messages = [commit_with_path(group, [inline(bodies[at % 2])]) for at in range(put.size(25))]
    return put.replay(group, messages, share=0.05)


@shape
def grows_and_shrinks(put):
    """Commits that add one to a full group of 16,384, for whom the tree is extended, and commits that remove this one."""
    group = frozen(Group(16_384, 2_048))
    full, messages = len(group.leaves), []
    for _ in range(put.size(8)):
        messages.append(group.commit(Plan(0, [], [new_leaf("joined", group.epoch)], group.renewed(0), {})))
        messages.append(group.commit(Plan(0, [full], [], group.renewed(0), {})))
    return put.replay(group, messages, touches_all=True, share=0.5)


# ---- one message that touches much of a group


def below_set_parents(put, last):
    leaves = put.size(32_768)
    group = Sparse(leaves, far_members(leaves))
    group.renew(0, group.renewed(0))
    items = inline_adds(put.size(20_000)) + [inline(add(leaf)) for leaf in last(group)]
    return put.replay(group, [commit(group, items)])


@shape
def adds_below_set_parents(put):
    return below_set_parents(put, lambda group: [])


@shape
def adds_below_set_parents_refused(put):
    return below_set_parents(put, lambda group: [new_leaf("last")._replace(encryption=group.leaves[1].encryption)])


@shape
def removes_of_all_others(put):
    count = put.size(40_000)
    items = [inline(remove(index)) for index in range(1, count)]
    group = Group(count)
    return put.replay(group, [commit(group, items, false_path(b"", b""))], touches_all=True)


@shape
def removes_of_all_others_refused(put):
    count = put.size(40_000)
    items = [inline(remove(index)) for index in range(1, count)]
    group = Group(count)
    return put.replay(group, [commit(group, items, false_path(b"", b"\x00\x00"))], touches_all=True)
