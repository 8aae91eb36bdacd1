"""Shapes for cost.py: a message, or a few, in a small group, and inputs of other commands than `replay`."""
import hashlib
import json
import os

from group import Group, new_leaf, number, vector
from messages import (Sparse, add, bare_add, bare_leaf, bare_update, commit, commit_with_path, extensions_of,
                      false_path, false_path_above, far_members, framed, frozen, inline, inline_adds, many_extensions,
                      message, proposal, put_leaves, reinit, remove, small_leaf, update, updated_group,
                      with_capabilities)
from shape import shape

# ---- one message, or a few


@shape
def known_add_named_again(put):
    """A large pending Add, and a commit that names it many times."""
    group = Group(2)
    leaf = new_leaf("large")._replace(credential=b"\x00\x01" + vector(bytes(put.size(32_000))))
    sent, item = proposal(group, 0, add(leaf))
    return put.replay(group, [sent, commit(group, [item] * put.size(960))])


@shape
def known_add_named_again_with_a_path(put):
    """A pending Add of one size, and a commit with a path that names it many times. Each copy of the leaf is hashed under
    its own leaf index, so the time is the product of both. The memory may not be."""
    group = Group(2)
    leaf = new_leaf("large")._replace(credential=b"\x00\x01" + vector(bytes(32_000)))
    sent, item = proposal(group, 0, add(leaf))
    count = put.size(960)
    return put.replay(group, [sent, commit(group, [item] * count, false_path_above(group, count))])


@shape
def signatures_of_a_known_add_named_again(put):
    """The messages of the shape above, for `signatures`: the leaf has one signature, and takes memory once."""
    group = Group(2)
    leaf = new_leaf("large")._replace(credential=b"\x00\x01" + vector(bytes(put.size(32_000))))
    sent, item = proposal(group, 0, add(leaf))
    return put.replay(group, [sent, commit(group, [item] * put.size(960))], "signatures")


@shape
def signatures_of_a_known_update_named_again(put):
    """A large pending Update, and a commit that names it many times, for `signatures`: the leaf is replaced once."""
    group = Group(2)
    leaf = new_leaf("large")._replace(credential=b"\x00\x01" + vector(bytes(put.size(32_000))))
    sent, item = proposal(group, 1, update(leaf))
    return put.replay(group, [sent, commit(group, [item] * put.size(960))], "signatures")


@shape
def adds_alike(put):
    """Adds whose keys have equal first eight bytes."""
    group = Group(2)
    leaves = [new_leaf(at) for at in range(put.size(10_000))]
    leaves = [leaf._replace(encryption=bytes(8) + leaf.encryption[8:], signature=bytes(8) + leaf.signature[8:])
              for leaf in leaves]
    return put.replay(group, [commit(group, [inline(add(leaf)) for leaf in leaves])])


@shape
def adds(put):
    group = Group(2)
    return put.replay(group, [commit(group, inline_adds(put.size(20_000)))])


@shape
def adds_of_one_key(put):
    """Adds of which the last two have one signature key."""
    group = Group(2)
    leaves = [small_leaf(at) for at in range(put.size(20_000))]
    leaves[-1] = leaves[-1]._replace(signature=leaves[-2].signature)
    return put.replay(group, [commit(group, [inline(add(leaf)) for leaf in leaves])])


@shape
def known_proposals(put):
    """Proposals that remain pending, and no commit."""
    group = Group(2)
    return put.replay(group, [proposal(group, 0, remove(1), b"%d" % at)[0] for at in range(put.size(20_000))])


@shape
def known_proposals_named(put):
    """Proposals of one member, and a commit that names them all."""
    group = Group(2)
    pairs = [proposal(group, 0, remove(1), b"%d" % at) for at in range(put.size(10_000))]
    return put.replay(group, [sent for sent, _ in pairs] + [commit(group, [item for _, item in pairs])])


@shape
def known_adds_named(put):
    group = Group(2)
    pairs = [proposal(group, 0, add(small_leaf(at))) for at in range(put.size(10_000))]
    return put.replay(group, [sent for sent, _ in pairs] + [commit(group, [item for _, item in pairs])])


@shape
def known_proposals_again(put):
    """Proposals, and each of them once more."""
    group = Group(2)
    return put.replay(group, [proposal(group, 0, remove(1), b"%d" % at)[0] for at in range(put.size(10_000))] * 2)


@shape
def removes_of_one_leaf(put):
    group = Group(2)
    return put.replay(group, [commit(group, [inline(remove(1))] * put.size(250_000), false_path(b"", b""))])


@shape
def removes_of_no_leaf(put):
    """Removes of which only the last is of no member."""
    group = Group(2)
    items = [inline(remove(1))] * put.size(250_000) + [inline(remove(9))]
    return put.replay(group, [commit(group, items)])


@shape
def unknown_references(put):
    group = Group(2)
    return put.replay(group, [commit(group, [b"\x02\x00"] * put.size(250_000))])


@shape
def path_too_long(put):
    """A path with far more nodes than the tree."""
    group = Group(2)
    return put.replay(group, [commit(group, [], false_path(b"", b"\x00\x00" * put.size(250_000)))])


@shape
def ciphertexts(put):
    """A path whose one node has far more ciphertexts than its resolution has nodes."""
    group = Group(2)
    node = vector(b"key") + vector(b"\x00\x00" * put.size(250_000))
    return put.replay(group, [commit(group, [], false_path(bytes(32), node))])


def numbers_list(count):
    return vector(b"".join(number(256 + at, 2) for at in range(count)))


@shape
def leaf_of_many_extensions(put):
    """An add whose leaf has many extensions, and lists as many in its capabilities."""
    group = Group(2)
    count = put.size(12_000)
    capabilities = bytes.fromhex("020001 020001") + numbers_list(count) + bytes.fromhex("00 020001")
    extensions = b"".join(number(256 + at, 2) + b"\x00" for at in reversed(range(count)))
    leaf = new_leaf("many", capabilities=capabilities)._replace(extensions=extensions)
    return put.replay(group, [commit(group, [inline(add(leaf))])])


@shape
def many_required(put):
    """Extensions of the context that require much, of members who list as much."""
    lists = numbers_list(put.size(12_000)) * 2
    capabilities = bytes.fromhex("020001 020001") + lists + bytes.fromhex("020001")
    group = frozen(with_capabilities(Group(2), capabilities))
    body = extensions_of([(3, lists + b"\x00")])
    group.renewed = lambda index: new_leaf("again", capabilities=capabilities)
    return put.replay(group, [proposal(group, 0, body)[0], commit_with_path(group, [inline(body)])])


@shape
def many_context_extensions(put):
    group = frozen(Group(2))
    body = many_extensions(put.size(100_000))
    return put.replay(group, [proposal(group, 0, body)[0], commit_with_path(group, [inline(body)])])


@shape
def leaf_of_equal_extensions(put):
    """An add whose leaf has many empty extensions of a type that need not be listed, in a commit with a path."""
    group = Group(2)
    leaf = new_leaf("many")._replace(extensions=b"\x00\x01\x00" * put.size(200_000))
    return put.replay(group, [commit(group, [inline(add(leaf))], false_path_above(group, 1))])


@shape
def certificates(put):
    """An add whose credential has many empty certificates, in a commit with a path."""
    group = Group(2)
    leaf = new_leaf("many")._replace(credential=b"\x00\x02" + vector(bytes(put.size(500_000))))
    return put.replay(group, [commit(group, [inline(add(leaf))], false_path_above(group, 1))])


@shape
def psks_without_nonces(put):
    group = Group(2)
    items = [inline(b"\x00\x04\x01\x00\x00")] * put.size(100_000)
    return put.replay(group, [commit(group, items)], profile="full")


@shape
def psks_of_one_byte(put):
    """A list of PSKs whose id and nonce have one byte each."""
    group = Group(2)
    items = [inline(b"\x00\x04\x01\x01a\x01b")] * put.size(100_000)
    return put.replay(group, [commit(group, items)], profile="full")


@shape
def updates_without_content(put):
    """A list of Updates whose leaf nodes have no content."""
    group = Group(2)
    return put.replay(group, [commit(group, [inline(bare_update(bare_leaf()))] * put.size(60_000))])


@shape
def adds_without_content(put):
    """A list of Adds whose key packages and leaf nodes have no content."""
    group = Group(2)
    return put.replay(group, [commit(group, [inline(bare_add(bare_leaf()))] * put.size(40_000))])


@shape
def external_inits(put):
    group = Group(2)
    return put.replay(group, [commit(group, [inline(b"\x00\x06\x00")] * put.size(150_000))], profile="full")


@shape
def reinits(put):
    group = Group(2)
    return put.replay(group, [commit(group, [inline(reinit())] * put.size(80_000))], profile="full")


@shape
def context_extensions_again(put):
    """A list with many empty proposals of extensions of the context."""
    group = Group(2)
    return put.replay(group, [commit(group, [inline(extensions_of([]))] * put.size(150_000))])


@shape
def malformed_messages(put):
    return put.replay(Group(2), [b"\x00"] * put.size(100_000))


@shape
def application_messages(put):
    group = Group(2)
    return put.replay(group, [message(framed(group, 0, b"\x01" + vector(b"")), vector(b""))] * put.size(20_000))


# ---- other commands


@shape
def signatures_of_a_long_group_id(put):
    """Each leaf's signature is over the group's id, so the output is their product, and the memory may not be."""
    group = updated_group(put.size(1_000), bytes(96_000))
    return put.files(["signatures", "--info", "INFO", "--tree", "TREE"], {"INFO": group.info(), "TREE": group.tree()})


@shape
def signatures_of_adds(put):
    group = Group(2)
    return put.replay(group, [commit(group, inline_adds(put.size(20_000)))], "signatures")


@shape
def show_of_adds(put):
    sent = commit(Group(2), inline_adds(put.size(40_000)))
    return put.files(["show", "message", "MESSAGE"], {"MESSAGE": sent})


@shape
def validate_unmerged(put):
    """A valid tree with a path of non-blank parents, below which most leaves are unmerged."""
    leaves = put.full(16_384)
    group = Sparse(leaves, far_members(leaves))
    group.renew(0, group.renewed(0))
    put_leaves(group, {index: new_leaf("made", index) for index in range(leaves) if not group.leaves[index]})
    return put.validate_tree(group.context(group.tree_hash()), group.tree())


@shape
def receipts(put):
    """A file of receipts that lists many, from the last one to the first."""
    group = Group(2)
    lines = sorted((hashlib.sha256(b"%d" % at).hexdigest() for at in range(put.size(40_000))), reverse=True)
    files = {"INFO": group.info(), "TREE": group.tree(), "RECEIPTS": "".join(line + "\n" for line in lines).encode()}
    return put.files(["validate", "--info", "INFO", "--tree", "TREE", "--receipts", "RECEIPTS"], files)


@shape
def vectors(put):
    """A file of many test vectors."""
    path = os.path.join(os.path.dirname(os.path.abspath(__file__)), "..", "examples", "tree-math.json")
    with open(path, encoding="utf-8") as file:
        cases = json.load(file)
    return put.files(["check", "tree-math", "VECTORS"], {"VECTORS": json.dumps(cases * put.size(400)).encode()})


@shape
def nested_vectors(put):
    """A file that nests lists deeply."""
    deep = put.size(250_000)
    return put.files(["check", "tree-math", "VECTORS"], {"VECTORS": b"[" * deep + b"]" * deep})
