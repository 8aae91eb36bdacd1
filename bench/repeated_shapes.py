"""Shapes for cost.py: many small messages or items that each touch something large."""
import copy

from group import EXTERNAL_INIT, Group, leaf_bytes, new_leaf, number, vector
from large_shapes import refused_by
from messages import (EXTENSION, Sparse, add, bare_add, bare_leaf, bare_update, commit, commit_with_path,
                      extensions_of, external_commit, false_path, far_members, frozen, inline, inline_adds,
                      many_extensions, proposal, psk, put_leaves, reinit, remove, renew_paths, small_leaf, state_file,
                      update, updated_group, with_capabilities)
from shape import shape, shape_of_queries

# Capabilities that list both types of credentials, and those that list the type of EXTENSION.
BOTH = bytes.fromhex("020001 020001 00 00 0400010002")
LISTING = bytes.fromhex("020001 020001 02f000 00 020001")

# A path without nodes, and one that is too long in any tree. Rule 19 refuses the first one if there are two members.
NO_NODES = false_path(b"", b"")
MANY_NODES = false_path(b"", b"\x00\x00" * 40)


class Extended(Group):
    """A group of two members whose context has these extensions."""

    def __init__(self, extensions):
        super().__init__(2)
        self.extensions = extensions

    def context(self, tree_hash):
        return super().context(tree_hash)[:-1] + vector(self.extensions)


def external_senders(count):
    """The extension of many external senders without keys and identities."""
    return number(5, 2) + vector(vector((vector(b"") + b"\x00\x01" + vector(b"")) * count))


def large_leaf(size):
    return new_leaf("large")._replace(credential=b"\x00\x01" + vector(bytes(size)))


# ---- a large context


# The index of an external sender whom no context lists.
NOT_LISTED = 2**32 - 1


def external_proposal(group, sender):
    """A proposal of the external sender with this index in the list of the context."""
    head = vector(group.NAME) + number(group.epoch, 8) + b"\x02" + number(sender, 4) + vector(b"")
    return number(1, 2) * 2 + head + b"\x02" + remove(1) + vector(b"")


def external_proposals(put, extensions, least, command="replay"):
    """Proposals of an external sender whom the context does not list, in a group with these extensions."""
    group = Extended(extensions)
    return put.replay(group, [external_proposal(group, NOT_LISTED)] * put.size(least), command, profile="full")


@shape
def external_proposals_and_many_senders(put):
    """Proposals of an external sender whom the context does not list, though it lists many. The list may not be decoded
    for each proposal."""
    return external_proposals(put, external_senders(put.size(40_000)), 100)


@shape
def signatures_of_external_proposals_and_many_senders(put):
    """The signatures of such proposals. The list may not be decoded for each proposal either."""
    return external_proposals(put, external_senders(put.size(40_000)), 100, "signatures")


@shape_of_queries
def queries_of_external_proposals_and_many_senders(put):
    """Queries of such proposals, in turn with those of the last sender that the context lists. The list may not be decoded for
    a query."""
    count = put.size(40_000)
    group = Extended(external_senders(count))
    pair = [external_proposal(group, NOT_LISTED), external_proposal(group, count - 1)]
    return put.queries(group, pair * put.size(200), profile="full")


@shape
def external_proposals_and_many_extensions(put):
    """Proposals of an external sender to a group whose context has many extensions, but no external senders. The
    extensions may not be searched for each proposal."""
    return external_proposals(put, EXTENSION * put.size(100_000), 200)


@shape
def state_of_external_proposals(put):
    """A state of many external senders, and of many pending proposals of one of them. The senders may not be decoded
    for each proposal."""
    group = Extended(external_senders(put.size(15_000)))
    head = number(1, 2) + vector(group.NAME) + number(group.epoch, 8) + b"\x02" + number(0, 4)
    rest = b"\x02" + remove(1) + vector(b"")
    entries = [head + vector(b"%d" % at) + rest for at in range(put.size(300))]
    return put.files(["validate", "--state", "STATE", "--trust"], {"STATE": state_file(group, entries)})


@shape
def commits_below_a_long_context(put):
    """A few commits that are refused by 19, in a group whose context has many extensions, which may not be copied."""
    group = Extended(EXTENSION * put.size(100_000))
    return put.replay(group, [commit(group, [], NO_NODES)] * 4)


# ---- many required types


def required(kinds):
    """The body of an extension that requires these types of extensions of each member (RFC 9420, 11.1)."""
    return vector(b"".join(number(kind, 2) for kind in kinds)) + vector(b"") * 2


def requiring(put):
    """A group that requires a type of its members, which they list, and many more that need not be listed."""
    kinds = [1 + at * 3 % 5 for at in range(put.size(50_000))] + [0xF000]
    return with_capabilities(Extended(number(3, 2) + vector(required(kinds))), LISTING)


def joins_without_a_required_type(group):
    """An external commit of a client that lacks what the group requires. The group stays as it is."""
    return frozen(group).external_commit(new_leaf("stranger"))


@shape
def joins_below_many_required_types_refused_25(put):
    """External commits of a client that lacks one of many types that the group requires. A stranger can send them, and what
    is required may neither be sorted nor be compared for each."""
    group = requiring(put)
    return put.replay(group, [joins_without_a_required_type(group)] * put.size(2_000), profile="full")


@shape_of_queries
def queries_of_joins_below_many_required_types(put):
    """A few queries of the commits of the shape above. Each signs the whole GroupContext (RFC 9420, 6.1), which is read for its
    signature. What is required may not be read besides."""
    group = requiring(put)
    return put.queries(group, [joins_without_a_required_type(group)] * 200, profile="full")


@shape
def psks_below_many_required_types(put):
    """Commits of a PSK each, which are accepted, in a group that requires many types. What is required may neither be sorted
    nor be compared for each."""
    group = frozen(requiring(put))
    messages = []
    for at in range(put.size(2_000)):
        messages.append(commit(group, [inline(psk(at))]))
        group.epoch += 1
    return put.replay(group, messages, profile="full")


@shape
def commits_below_many_extensions(put):
    """Commits of a PSK each, which are accepted, in a group whose context has many extensions of a type that each member
    lists. With strict rule 51 their types may neither be read nor be sorted for each commit."""
    group = frozen(with_capabilities(Extended(EXTENSION * put.size(50_000)), LISTING))
    messages = []
    for at in range(put.size(1_000)):
        messages.append(commit(group, [inline(psk(at))]))
        group.epoch += 1
    only_51 = put.asking("--strict", "--allow", "40,41,42,43,44,45,46,47,48,49,50,52")
    return only_51.replay(group, messages, profile="full")


# ---- a long key


@shape
def long_key_above_adds(put):
    """Adds below one parent, whose encryption key is long. The key may not be hashed for each of them."""
    leaves = put.full(8_192)
    group = Sparse(leaves, [0, leaves - 1])
    group.renew(0, group.renewed(0), {0: bytes(put.size(16_000))})
    return put.replay(group, [commit(group, inline_adds(put.size(1_500)))])


@shape
def adds_with_a_path_of_a_long_key(put):
    """Adds, and a path with a long key for the root. The key may not be hashed for each Add."""
    leaves = put.full(2_048)
    group = Sparse(leaves, far_members(leaves))
    renew_paths(group, [0])
    frozen(group)
    blanks = [index for index, leaf in enumerate(group.leaves) if not leaf][:put.size(1_000)]
    put_leaves(group, {index: small_leaf(at) for at, index in enumerate(blanks)})
    path = group.renew(0, group.renewed(0), {group.depth - 1: bytes(put.size(16_000))})
    return put.replay(group, [commit(group, inline_adds(len(blanks)), group.path_bytes(0, path, set(blanks)))])


def below_a_root():
    """A group of three in a wide tree, two of them in its left half."""
    return Sparse(16_384, [0, 1, 8_192])


def path_with_a_long_key(group, length):
    """A commit whose path gives the root a long key, and the group after it."""
    path = group.renew(0, group.renewed(0), {1: number(group.epoch, length)})
    sent = commit(group, [], group.path_bytes(0, path, set()))
    group.epoch += 1
    return sent


def add_refused_24(group):
    """A commit that adds one with a member's encryption key."""
    return commit(group, [inline(add(new_leaf("joined")._replace(encryption=group.leaves[1].encryption)))])


@shape
def adds_below_a_long_key(put):
    """A group whose root has a long key, a path with another one, and commits that add one each and are accepted. Each tree
    hash has the key, but the key may not be hashed for the index too."""
    group = below_a_root()
    path_with_a_long_key(group, 800_000)
    messages = [path_with_a_long_key(frozen(group), 800_000)]
    for item in inline_adds(put.size(50)):
        messages.append(commit(group, [item]))
        group.epoch += 1
    return put.replay(group, messages, share=0.7)


@shape
def adds_below_a_long_key_refused_24(put):
    """Such a path, and commits of an Add each that are refused. The key may not be hashed for each of them."""
    group = frozen(below_a_root())
    sent = path_with_a_long_key(group, put.size(16_000))
    return put.replay(group, [sent] + [add_refused_24(group)] * put.size(1_500))


@shape_of_queries
def queries_of_adds_below_a_long_key(put):
    """Queries of such commits, after such a path. The key may not be hashed for them either."""
    group = frozen(below_a_root())
    sent = path_with_a_long_key(group, put.size(16_000))
    return put.queries(group, [add_refused_24(group)] * put.size(1_500), [sent])


@shape
def paths_and_adds_below_a_long_key_refused(put):
    """A group whose root has a long key, and two commits in turn. One has a path, and 25 refuses it for an extension of its
    new leaf; the other is such an Add. Once the path is undone, the key may not be hashed again."""
    group = below_a_root()
    path_with_a_long_key(group, put.size(16_000))
    path = frozen(group).renew(0, group.renewed(0)._replace(extensions=EXTENSION))
    pair = [commit(group, [], group.path_bytes(0, path, set())), add_refused_24(group)]
    return put.replay(group, pair * put.size(1_000))


@shape
def known_add_of_long_keys_named_again_refused_19(put):
    """A pending Add with long keys, and a commit with a path that names it many times. The keys may not be hashed for
    each copy."""
    group = Group(2)
    length = put.size(16_000)
    leaf = new_leaf("large")._replace(encryption=b"e" * length, signature=b"s" * length)
    sent, item = proposal(group, 0, add(leaf))
    return put.replay(group, [sent, commit(group, [item] * put.size(480), NO_NODES)])


@shape
def known_add_of_a_long_key_named_by_many_refused_25(put):
    """A pending Add with a long encryption key and a member's signature key, and small commits that each name it once.
    The key may not be hashed for each commit."""
    group = Group(2)
    leaf = new_leaf("large")._replace(encryption=b"e" * put.size(32_000), signature=group.leaves[1].signature)
    sent, item = proposal(group, 0, add(leaf))
    return put.replay(group, [sent] + [commit(group, [item])] * put.size(300))


# ---- a large pending proposal, or a large leaf


@shape
def known_extensions_named_by_many_refused_19(put):
    """A pending proposal of many extensions of the context, and small commits that each name it once. The extensions
    may not be copied for each commit."""
    group = Group(2)
    sent, item = proposal(group, 0, many_extensions(put.size(12_000)))
    return put.replay(group, [sent] + [commit(group, [item], NO_NODES)] * put.size(400))


@shape
def known_large_add_named_by_many_refused_19(put):
    """A large pending Add, and small commits that each name it once. The Add may be neither copied nor hashed for each
    commit."""
    group = Group(2)
    sent, item = proposal(group, 1, add(large_leaf(put.size(64_000))))
    return put.replay(group, [sent] + [commit(group, [item], NO_NODES)] * put.size(1_000))


@shape
def known_psks_named_by_many_refused_35(put):
    """Eight pending PSKs of one long id, and small commits that each name all of them, and a ReInit. The ids may not be
    compared for each commit."""
    group = Group(2)
    name = bytes(put.size(40_000))
    pairs = [proposal(group, 0, psk(at, name)) for at in range(8)]
    refused = commit(group, [item for _, item in pairs] + [inline(reinit())])
    return put.replay(group, [sent for sent, _ in pairs] + [refused] * put.size(600), profile="full")


def queries_that_name(put, body, beside=()):
    """Queries of commits that each name a large pending proposal once, after that proposal."""
    group = with_capabilities(Group(2), BOTH)
    sent, item = proposal(group, 1, body)
    return put.queries(group, [commit(group, [item, *beside], NO_NODES)] * put.size(1_000), [sent])


@shape_of_queries
def queries_of_commits_that_name_a_large_add(put):
    """A large pending Add, and queries of small commits that each name it. A stranger can send them. The signatures of the Add
    were good when it came, so they may be neither copied nor hashed for a query."""
    return queries_that_name(put, add(large_leaf(put.size(64_000))))


@shape_of_queries
def queries_of_commits_that_name_a_large_update(put):
    """The same with an Update. Its signature was good too."""
    return queries_that_name(put, update(large_leaf(put.size(64_000))))


@shape_of_queries
def queries_of_commits_that_name_an_add_of_a_long_chain(put):
    """The same with an Add that has a long chain of certificates. The chain may not be read for a query."""
    credential = b"\x00\x02" + vector(vector(b"") * put.size(200_000))
    return queries_that_name(put, add(new_leaf("chain", capabilities=BOTH)._replace(credential=credential)))


@shape_of_queries
def queries_of_commits_that_name_a_large_add_beside_another(put):
    """A large pending Add, and queries of commits that each name it, beside a small Add whose leaf node is not from a KeyPackage
    and is listed at its leaf index. The large one may not be read for that."""
    other = inline(bare_add(bare_leaf(name=b"other")))
    return queries_that_name(put, add(large_leaf(put.size(64_000))), [other])


@shape
def large_leaf_hashed_again_refused_25(put):
    """A committer whose leaf is large, and its commits with a path, whose new leaf has an extension that it does not
    list. After each refusal the large leaf may not be hashed again."""
    group = Group(2)
    group.set_leaf(0, large_leaf(put.size(64_000)))
    path = frozen(group).renew(0, new_leaf("again")._replace(extensions=EXTENSION))
    return put.replay(group, [commit(group, [], group.path_bytes(0, path, set()))] * put.size(400))


def large_leaf_removed_or_not(put):
    """A group of four in which one leaf is large, a commit that removes it, and one that does not. Both are refused by 25,
    for the new leaf of their path has an extension that it does not list. The parent hashes of the second path take the
    hash of the large leaf."""
    group, leaf = Group(4), new_leaf("again")._replace(extensions=EXTENSION)
    group.set_leaf(2, large_leaf(put.size(64_000)))
    first, second = copy.deepcopy(group), copy.deepcopy(group)
    first.remove(2)
    removing = commit(group, [inline(remove(2))], first.path_bytes(0, first.renew(0, leaf), set()))
    return group, removing, commit(group, [], second.path_bytes(0, second.renew(0, leaf), set()))


@shape
def large_leaf_removed_in_turn_refused_25(put):
    """Both commits in turn. Once the removal is undone, the large leaf may not be hashed again."""
    group, removing, other = large_leaf_removed_or_not(put)
    return put.replay(group, [removing, other] * put.size(400))


@shape_of_queries
def large_leaf_removed_by_queries(put):
    """The second commit, each time after a query of the first one, which may leave no trace."""
    group, removing, other = large_leaf_removed_or_not(put)
    return put.gate(group, [(b"q", removing), (b"m", other)] * put.size(400))


def large_leaf_resynced_or_not(put):
    """A group of three in which one leaf is large, an external commit by which its owner joins again, and one of another
    client. A stranger can send both, and they are refused by 25 as those above."""
    group = Group(3)
    group.set_leaf(1, new_leaf("large")._replace(extensions=number(1, 2) + vector(bytes(put.size(64_000)))))
    first, second = copy.deepcopy(group), copy.deepcopy(group)
    first.remove(1)
    leaf = new_leaf("again")._replace(credential=group.leaves[1].credential, extensions=EXTENSION)
    path = first.path_bytes(1, first.renew(1, leaf), set())
    resync = external_commit(group, [inline(EXTERNAL_INIT), inline(remove(1))], path)
    path = second.path_bytes(3, second.renew(3, new_leaf("other")._replace(extensions=EXTENSION)), set())
    return group, resync, external_commit(group, [inline(EXTERNAL_INIT)], path)


@shape
def large_leaf_resynced_in_turn_refused_25(put):
    """Both external commits in turn. Once the first one is undone, the large leaf may not be hashed again."""
    group, resync, other = large_leaf_resynced_or_not(put)
    return put.replay(group, [resync, other] * put.size(400), profile="full")


@shape_of_queries
def large_leaf_resynced_by_queries(put):
    """The second external commit, each time after a query of the first one, which may leave no trace."""
    group, resync, other = large_leaf_resynced_or_not(put)
    return put.gate(group, [(b"q", resync), (b"m", other)] * put.size(400), profile="full")


def resync_of_a_long_chain(put):
    """A group of three in which one leaf has a long chain of certificates, and an external commit that removes it, whose new
    leaf has another credential and another signature key. A stranger can send it, and it is refused by 37."""
    group = with_capabilities(Group(3), BOTH)
    group.set_leaf(1, group.leaves[1]._replace(credential=b"\x00\x02" + vector(vector(b"") * put.size(200_000))))
    return group, external_commit(group, [inline(EXTERNAL_INIT), inline(remove(1))], NO_NODES)


@shape
def resyncs_of_a_long_chain_refused_37(put):
    """Such commits. The chain may not be read for each."""
    group, sent = resync_of_a_long_chain(put)
    return put.replay(group, [sent] * put.size(500), profile="full")


@shape_of_queries
def queries_of_resyncs_of_a_long_chain(put):
    """Queries of such commits. The chain may not be read for them either."""
    group, sent = resync_of_a_long_chain(put)
    return put.queries(group, [sent] * put.size(500), profile="full")


# ---- unmerged leaves


def before_unmerged(put, last):
    """A valid tree whose root has three quarters of the leaves as unmerged, those on the right, and Adds that fill
    blank leaves on the left."""
    leaves = put.full(65_536)
    quarter = leaves // 4
    group = Sparse(leaves, [0, quarter, 2 * quarter])
    renew_paths(group, [0])
    put_leaves(group, {at: new_leaf("made", at) for at in range(quarter + 1, leaves) if at != 2 * quarter})
    items = inline_adds(put.size(16_000)) + [inline(add(leaf)) for leaf in last(group)]
    return put.replay(group, [commit(group, items)])


@shape
def adds_before_unmerged(put):
    """Adds whose leaves come before many unmerged leaves. These may not be moved for each Add."""
    return before_unmerged(put, lambda group: [])


@shape
def adds_before_unmerged_refused(put):
    """Adds whose leaves come before many unmerged leaves. These may not be moved again for each Add that is undone."""
    return before_unmerged(put, lambda group: [new_leaf("last")._replace(encryption=group.leaves[0].encryption)])


# ---- a large tree that is truncated or extended


@shape
def halved_to_a_half(put):
    """Three members of a wide tree, and commits that are refused by 19, which remove the only one in the right half.
    The left half remains, and may not be copied."""
    last = 262_143
    group = Sparse(last + 1, [0, last // 2, last])
    return put.replay(group, [commit(group, [inline(remove(last))], MANY_NODES)] * put.size(12), share=0.05)


@shape
def halving_taken_back_in_a_growing_tree(put):
    """Two members of a wide tree, and commits that are refused by 19, of which each second one removes the right
    member. The blank nodes of the right half may not be listed for each commit."""
    last = put.full(262_144) - 1
    group = Sparse(last + 1, [0, last])
    pair = [commit(group, [inline(remove(last))], MANY_NODES), commit(group, [], MANY_NODES)]
    return put.replay(group, pair * put.size(6))


@shape
def halving_by_a_stranger(put):
    """External commits of a client that takes the place of the last member of a nearly blank tree, refused by 19. A
    stranger can send them, and the tree's blank nodes may not be listed for each."""
    last = put.full(131_072) - 1
    group = Sparse(last + 1, [0, last])
    leaf = new_leaf("stranger")._replace(credential=group.leaves[last].credential)
    path = leaf_bytes(leaf, b"\x03" + vector(b"")) + vector(b"\x00\x00" * 40)
    sent = external_commit(group, [inline(EXTERNAL_INIT), inline(remove(last))], path)
    return put.replay(group, [sent] * put.size(20), profile="full")


@shape
def shrinking_refused_19(put):
    """A full left half and one member in the right one, and commits that remove this one and are refused by 19. The nodes
    of the left half are moved for each commit, but nothing else of them may be."""
    last = 65_536
    group = Group(last + 1)
    return put.replay(group, [commit(group, [inline(remove(last))], NO_NODES)] * put.size(25), share=0.05)


@shape
def full_group_of_many_refused_19(put):
    """The messages of `full-group-refused-19` in a far larger group. The tree, which is extended for each, may not be
    copied."""
    return refused_by(put, Group(131_072, 4_096), 19, touches_all=True, share=0.02)


# ---- members of whom only the last one breaks a rule


@shape
def credential_lacked_by_the_last(put):
    """Commits that add one with a type of credential that only the last member of a nearly blank tree does not list.
    What the leaves list may be searched for it, but not be read again."""
    last = 262_143
    group = Sparse(last + 1, [0, last])
    group.set_leaf(0, new_leaf("made", 0, capabilities=BOTH))
    leaf = new_leaf("joined", capabilities=BOTH)._replace(credential=b"\x00\x02" + vector(b""))
    return put.replay(group, [commit(group, [inline(add(leaf))])] * put.size(250), share=0.01)


@shape
def required_unmet_by_the_last(put):
    """Commits that require an extension that all members list except the last one. Each member's lists have to be
    searched, but nothing else may be checked again."""
    count = 16_384
    group = with_capabilities(Group(count), LISTING)
    group.set_leaf(count - 1, new_leaf("made", count - 1))
    group.renewed = lambda index: new_leaf("renewed", index, group.epoch, capabilities=LISTING)
    renew_paths(group, range(0, count, 16))
    body = extensions_of([(3, vector(number(0xF000, 2)) + vector(b"") * 2)])
    return put.replay(group, [commit_with_path(frozen(group), [inline(body)])] * put.size(60), share=0.05)


def members_with_long_lists(kinds):
    """Members who each list these types of extensions, but for the last one, who lists all but the last type."""
    count = 512
    capabilities, shorter = (
        bytes.fromhex("020001 020001") + vector(b"".join(number(kind, 2) for kind in listed)) + bytes.fromhex("00 020001")
        for listed in (kinds, kinds[:-1]))
    group = with_capabilities(Group(count), capabilities)
    group.set_leaf(count - 1, new_leaf("made", count - 1, capabilities=shorter))
    group.renewed = lambda index: new_leaf("renewed", index, group.epoch, capabilities=capabilities)
    renew_paths(group, range(0, count, 16))
    return group


def commits_requiring(group, kinds):
    """A commit that requires these types of extensions. The group stays as it is."""
    return commit_with_path(frozen(group), [inline(extensions_of([(3, required(kinds))]))])


@shape
def one_required_of_long_lists_unmet_by_the_last(put):
    """Commits that require a type that each member lists but the last, who has a long list too. Each list has to be read
    once for each commit, but may be neither copied nor sorted."""
    kinds = range(0x1000, 0x1000 + 2_000)
    group = members_with_long_lists(kinds)
    return put.replay(group, [commits_requiring(group, kinds[-1:])] * put.size(12), share=0.5)


@shape
def many_required_of_long_lists_unmet_by_the_last(put):
    """Commits that require many types that each member lists, but for one that the last lacks. Each list has to be read once
    for each commit, and each type looked up, but no list may be copied or sorted."""
    kinds = range(0x1000, 0x1000 + 2_000)
    group = members_with_long_lists(kinds)
    return put.replay(group, [commits_requiring(group, kinds)] * put.size(12), share=1.0)


@shape_of_queries
def queries_of_many_required_of_long_lists(put):
    """Queries of the commits of the shape above. No member's list may be read for them."""
    kinds = range(0x1000, 0x1000 + 2_000)
    group = members_with_long_lists(kinds)
    return put.queries(group, [commits_requiring(group, kinds)] * put.size(12), share=0.5)


# ---- signatures: the output repeats what is large, so it is a product, and the memory may not be


@shape
def signatures_of_updates_and_a_long_group_id(put):
    """Updates in one commit, each of which signs the group's long id. Their contents may not be held at once."""
    group = Sparse(2, range(2), bytes(96_000))
    updates = [bare_update(bare_leaf(name=number(at, 3))) for at in range(put.size(250))]
    return put.replay(group, [commit(group, [inline(body) for body in updates])], "signatures")


@shape
def signatures_of_a_state_of_a_long_group_id(put):
    """A state of members whose leaves each sign the group's long id. Their contents may not be held at once."""
    group = updated_group(put.size(250), bytes(96_000))
    return put.files(["signatures", "--state", "STATE"], {"STATE": state_file(group, [])})


@shape
def signatures_of_commits_that_name_a_large_add(put):
    """A large pending Add, and small commits that each name it once. The leaf's signature is printed for each."""
    group = Group(2)
    sent, item = proposal(group, 0, add(large_leaf(48_000)))
    return put.replay(group, [sent] + [commit(group, [item], NO_NODES)] * put.size(400), "signatures")


@shape
def signatures_under_a_long_key(put):
    """Small proposals of a member with a long signature key, which is printed with each."""
    group = Group(2)
    group.set_leaf(0, new_leaf("made", 0)._replace(signature=bytes(48_000)))
    sent = [proposal(group, 0, remove(1), b"%d" % at)[0] for at in range(put.size(400))]
    return put.replay(group, sent, "signatures")
