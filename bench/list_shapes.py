"""Shapes for cost.py: lists of many small items, and trees of many blank nodes, so that memory per byte is measured."""
import json
import os

from group import KEY_PACKAGE, Group, leaf_bytes, new_leaf, number, vector
from messages import (EXTENSION, Sparse, add, bare_add, bare_leaf, bare_update, commit, content_of, false_path,
                      false_path_above, inline, many_extensions, proposal, psk, reinit, remove, renew_paths, state_file)
from shape import shape

# A credential of one certificate without content.
ONE_CERTIFICATE = b"\x00\x02" + vector(vector(b""))


def again(put, body, least, **how):
    """A commit whose list has one proposal again and again."""
    group = Group(2)
    return put.replay(group, [commit(group, [inline(body)] * put.size(least))], **how)


def path_of(put, node, least, **how):
    """A commit whose path has one node again and again, and is too long."""
    group = Group(2)
    return put.replay(group, [commit(group, [], false_path(b"", node * put.size(least)))], **how)


def proposed(put, body, **how):
    """A proposal that remains pending, and no commit."""
    group = Group(2)
    return put.replay(group, [proposal(group, 0, body)[0]], **how)


def certified(count, certificate):
    return new_leaf("many")._replace(credential=b"\x00\x02" + vector(certificate * count))


def bare_adds(count):
    """Adds of few bytes, whose keys are different, and whose leaves do not list the type of their credential."""
    names = [number(at, 3) for at in range(count)]
    return [inline(bare_add(bare_leaf(source=KEY_PACKAGE, name=name))) for name in names]


# ---- items of a path, a credential or a commit


@shape
def paths_of_one_ciphertext(put):
    """A path too long, whose nodes have no key and one ciphertext without content. A list of one item may not take the
    memory of several."""
    return path_of(put, vector(b"") + vector(vector(b"") * 2), 150_000)


@shape
def paths_of_five_ciphertexts(put):
    """A path too long, whose nodes have no key and five ciphertexts without content. A list may not have capacity for
    many more items than it has."""
    return path_of(put, vector(b"") + vector(vector(b"") * 10), 60_000)


@shape
def path_keys_of_one_byte(put):
    """A path too long, whose nodes have a key of one byte. Such a key may not take memory of its own."""
    return path_of(put, vector(b"a") + vector(b""), 160_000)


@shape
def ciphertexts_of_one_byte(put):
    """A path whose one node has far more ciphertexts than its resolution has nodes, each of one byte and one byte."""
    group = Group(2)
    node = vector(b"key") + vector((vector(b"a") + vector(b"b")) * put.size(125_000))
    return put.replay(group, [commit(group, [], false_path(bytes(32), node))])


@shape
def certificates_of_one_byte(put):
    """An add whose credential has many certificates of one byte, in a commit with a path."""
    group = Group(2)
    leaf = certified(put.size(250_000), vector(b"a"))
    return put.replay(group, [commit(group, [inline(add(leaf))], false_path_above(group, 1))])


@shape
def show_of_certificates_of_one_byte(put):
    """An add whose credential has many certificates of one byte, for `show`, which prints only their number."""
    leaf = certified(put.size(250_000), vector(b"a"))
    return put.files(["show", "message", "MESSAGE"], {"MESSAGE": commit(Group(2), [inline(add(leaf))])})


@shape
def references_of_one_byte(put):
    """A list of references of one byte to proposals that are not pending."""
    group = Group(2)
    return put.replay(group, [commit(group, [b"\x02" + vector(b"a")] * put.size(160_000))])


# ---- proposals of few bytes


@shape
def context_extensions_of_one(put):
    """A list of proposals that each have one extension of the context."""
    return again(put, many_extensions(1), 100_000)


@shape
def updates_of_one_extension(put):
    """A list of Updates whose leaf nodes have one extension and nothing else."""
    return again(put, bare_update(bare_leaf(extensions=EXTENSION)), 50_000)


@shape
def updates_of_one_certificate(put):
    """A list of Updates whose leaf nodes have one certificate and nothing else."""
    return again(put, bare_update(bare_leaf(ONE_CERTIFICATE)), 50_000)


@shape
def updates_of_one_each(put):
    """A list of Updates whose leaf nodes have one certificate, one extension, and a parent hash of one byte."""
    return again(put, bare_update(bare_leaf(ONE_CERTIFICATE, b"\x03" + vector(b"a"), EXTENSION)), 50_000)


@shape
def adds_of_one_extension(put):
    """A list of Adds whose key packages and leaf nodes have one extension each."""
    return again(put, bare_add(bare_leaf(extensions=EXTENSION), EXTENSION), 40_000)


@shape
def reinits_of_one_extension(put):
    """A list of ReInits that have one extension each."""
    return again(put, reinit(EXTENSION), 80_000, profile="full")


@shape
def small_adds_below_all_parents(put):
    """Adds of few bytes, each of which becomes unmerged at all parents above it except the lowest. What a refusal needs
    to undo them may not be much more than they are."""
    leaves = put.full(32_768)
    group = Sparse(leaves, range(0, leaves, 2))
    renew_paths(group, range(0, leaves, 4))
    return put.replay(group, [commit(group, bare_adds(leaves // 2))])


@shape
def adds_of_few_bytes_refused_25(put):
    """Adds of few bytes, for which the tree is extended again and again. Its last extension is mostly blank."""
    group = Group(2)
    return put.replay(group, [commit(group, bare_adds(put.size(33_000)))])


# ---- lists that are held more than once


@shape
def context_extensions_proposed(put):
    """A proposal of many extensions of the context, and no commit. The message's list and the pending one may not take
    the memory of two large ones."""
    return proposed(put, many_extensions(put.size(100_000)))


@shape
def context_extensions_committed(put):
    """Many extensions of the context in a commit, refused by 19. The message's list and the next context's may not take
    the memory of two large ones."""
    group = Group(2)
    return put.replay(group, [commit(group, [inline(many_extensions(put.size(100_000)))], false_path(b"", b""))])


@shape
def package_extensions_proposed(put):
    """A pending Add whose key package has many extensions."""
    return proposed(put, bare_add(leaf_bytes(new_leaf("many"), KEY_PACKAGE), EXTENSION * put.size(100_000)))


@shape
def reinit_extensions_proposed(put):
    """A pending ReInit that has many extensions."""
    return proposed(put, reinit(EXTENSION * put.size(100_000)), profile="full")


@shape
def certificates_before_a_psk(put):
    """An Add with many empty certificates, and then a proposal outside the members' profile. The list is read again to
    tell how it is malformed, and both readings may not be held at once."""
    group = Group(2)
    leaf = certified(put.size(500_000), vector(b""))
    return put.replay(group, [commit(group, [inline(add(leaf)), inline(psk(0))])])


@shape
def extensions_before_a_psk(put):
    """An Add with many extensions, and then a proposal outside the members' profile. The list is read again to tell how
    it is malformed, and both readings may not be held at once."""
    group = Group(2)
    leaf = new_leaf("many")._replace(extensions=EXTENSION * put.size(150_000))
    return put.replay(group, [commit(group, [inline(add(leaf)), inline(psk(0))])])


# ---- states


def validated_state(put, group, entries, added=None):
    """A state from which `validate` resumes."""
    return put.files(["validate", "--state", "STATE", "--trust"], {"STATE": state_file(group, entries, added)})


@shape
def state_of_small_proposals(put):
    """A state whose pending proposals have few bytes each, of which the second is refused, since it is pending already."""
    group = Group(2)
    return validated_state(put, group, [content_of(group, 0, remove(1))] * put.size(40_000))


@shape
def state_of_small_contents(put):
    """A state whose entries have few bytes each, and are no proposals: the first is refused. A list of what is read may not
    take much more memory than the items."""
    content = number(1, 2) + vector(b"") + number(0, 8) + b"\x03" + vector(b"") + b"\x01" + vector(b"") * 2
    return validated_state(put, Group(2), [content] * put.size(100_000))


@shape
def state_of_known_proposals(put):
    """A state of many pending proposals of few bytes, all of them accepted."""
    group = Group(2)
    entries = [content_of(group, 0, remove(1), b"%d" % at) for at in range(put.size(20_000))]
    return validated_state(put, group, entries)


@shape
def saved_known_proposals(put):
    """What `--save` takes in addition to the replay of many pending proposals of few bytes."""
    group = Group(2)
    log = [proposal(group, 0, remove(1), b"%d" % at)[0] for at in range(put.size(20_000))]
    return saved(put, group, log)


@shape
def state_of_many_extensions(put):
    """A state whose pending proposal has many extensions of the context. The list of the file and that of the group may
    not take the memory of two large ones."""
    group = Group(2)
    return validated_state(put, group, [content_of(group, 0, many_extensions(put.size(100_000)))])


# ---- large authenticated data, and a large signature


def data_and_signature(put):
    """The authenticated data and the signature of a proposal, both large."""
    return bytes(put.size(1_000_000)), bytes(put.size(1_000_000))


def saved(put, group, messages):
    """What `--save` takes in addition to the replay of a log."""
    log = b"".join(vector(body) for body in messages)
    words = ["replay", "--info", put.write("info", group.info()), "--tree", put.write("tree", group.tree())]
    words += ["--trust", "--log", put.write("log", log)]
    put.lists([*words, "--save", os.path.join(put.folder, "saved")], words)
    return [len(log)]


@shape
def data_and_signature_proposed(put):
    """A pending proposal with large authenticated data and a large signature, and no commit. The message's bytes and the
    pending ones may not be held more often."""
    group = Group(2)
    return put.replay(group, [proposal(group, 0, remove(1), *data_and_signature(put))[0]])


@shape
def saved_data_and_signature(put):
    """What `--save` takes in addition to the replay of such a proposal."""
    group = Group(2)
    return saved(put, group, [proposal(group, 0, remove(1), *data_and_signature(put))[0]])


@shape
def state_of_data_and_signature(put):
    """A state whose pending proposal has large authenticated data and a large signature. The bytes of the file, those of
    the message and the pending ones may not take much memory together."""
    group = Group(2)
    return validated_state(put, group, [content_of(group, 0, remove(1), *data_and_signature(put))])


@shape
def signatures_of_a_state_of_data_and_signature(put):
    """The same state for `signatures`, which prints the content and the signature."""
    group = Group(2)
    entry = content_of(group, 0, remove(1), *data_and_signature(put))
    return put.files(["signatures", "--state", "STATE"], {"STATE": state_file(group, [entry])})


# ---- trees of blank nodes, and of nodes without content


def nearly_blank(put):
    """A group of two members, the second of whom is just right of the middle. The tree's file ends there, and has a
    byte for each blank node, but the tree is twice as wide."""
    middle = put.full(65_536)
    return Sparse(2 * middle, [0, middle])


def node_count(group):
    return 2 * len(group.leaves) - 1


@shape
def show_of_blanks(put):
    """A nearly blank tree, which has a line for each node. The lines may not be held at once."""
    group = nearly_blank(put)
    return put.files(["show", "tree", "TREE"], {"TREE": group.tree()}, node_count(group))


@shape
def validate_blanks(put):
    """A nearly blank tree, with another tree hash, and a cipher suite whose hashes are long. The hashes of blank
    subtrees may not take much more memory than the tree's bytes."""
    context = Group(2).context(bytes(32))
    context = context[:2] + number(5, 2) + context[4:]
    group = nearly_blank(put)
    return put.validate_tree(context, group.tree(), node_count(group))


@shape
def saved_blanks(put):
    """What `--save` takes in addition to the replay: a nearly blank tree may not be decoded again to be stored."""
    group = nearly_blank(put)
    words = ["replay", "--info", put.write("info", group.info()), "--tree", put.write("tree", group.tree())]
    words += ["--trust", "--log", put.write("empty", b"")]
    put.lists([*words, "--save", os.path.join(put.folder, "saved")], words)
    return [len(group.tree()), 0, 0, node_count(group)]


@shape
def operations_on_blanks(put):
    """A test vector that removes a member from a nearly blank tree. The tree before that and the one after it may not
    take the memory of two large ones."""
    group = nearly_blank(put)
    case = {"cipher_suite": 1, "tree_before": group.tree().hex(), "proposal": remove(0).hex(), "proposal_sender": 0,
            "tree_hash_before": group.tree_hash().hex()}
    return put.files(["check", "tree-operations", "VECTORS"], {"VECTORS": json.dumps([case]).encode()}, node_count(group))


@shape
def validate_nodes_without_content(put):
    """A full tree of leaf and parent nodes without content, with another tree hash."""
    leaf, parent = b"\x01\x01" + bare_leaf(), b"\x01\x02" + vector(b"") * 3
    return put.validate_tree(Group(1).context(bytes(32)), vector((leaf + parent) * (put.full(32_768) - 1) + leaf))


# ---- test vectors of many small values


def vectors_of(put, kind, item, least):
    """A file of one test vector again and again, with as many spaces as it must have (docs/VECTORS.md)."""
    vectors = b"[" + b",".join([item] * put.size(least)) + b"]"
    weight = 40 * vectors.count(b"{") + 7 * vectors.count(b"[") + 4 * vectors.count(b",")
    return put.files(["check", kind, "VECTORS"], {"VECTORS": vectors.ljust(weight - 262144)})


@shape
def vectors_of_nested_objects(put):
    """Objects of one member each, in one another. An object may not have capacity for many members."""
    return vectors_of(put, "tree-math", b'{"":{"":{"":{"":0}}}}', 10_000)


@shape
def vectors_of_objects_of_one_member(put):
    """Objects of one member, which is a number. An object may not have capacity for many members."""
    return vectors_of(put, "transcript", b'{"":0}', 20_000)


@shape
def vectors_of_objects_without_members(put):
    """Empty objects. The vectors, their results and the report may not take much memory together."""
    return vectors_of(put, "transcript", b"{}", 100_000)


@shape
def vectors_of_lists_of_one_number(put):
    """Lists of one number each. A list may not have capacity for many values."""
    return vectors_of(put, "tree-validation", b"[0]", 60_000)


@shape
def vectors_of_nested_lists(put):
    """Lists of one list each, not too deep to be read. A list may not have capacity for many values."""
    return vectors_of(put, "tree-math", b"[" * 100 + b"]" * 100, 1_000)


# ---- signatures of many small items


@shape
def signatures_of_updates_without_content(put):
    """A list of Updates whose leaf nodes have no content, for `signatures`."""
    return again(put, bare_update(bare_leaf()), 60_000, command="signatures")


@shape
def signatures_of_adds_without_content(put):
    """A list of Adds whose key packages and leaf nodes have no content, for `signatures`. Equal signatures may not be
    held until all are there."""
    return again(put, bare_add(bare_leaf()), 40_000, command="signatures")


@shape
def signatures_of_adds_of_few_bytes(put):
    """Adds of few bytes, whose signatures are all different, for `signatures`."""
    group = Group(2)
    return put.replay(group, [commit(group, bare_adds(put.size(33_000)))], "signatures")


@shape
def signatures_of_equal_extensions(put):
    """An Add whose leaf has many empty extensions, for `signatures`. The signed content and the leaf may not take
    much memory together."""
    group = Group(2)
    leaf = new_leaf("many")._replace(extensions=(number(1, 2) + vector(b"")) * put.size(200_000))
    return put.replay(group, [commit(group, [inline(add(leaf))])], "signatures")


@shape
def signatures_of_context_extensions_proposed(put):
    """A proposal of many extensions of the context, and no commit, for `signatures`. The signed content, the message's
    list and the pending one may not take much memory together."""
    return proposed(put, many_extensions(put.size(100_000)), command="signatures")


@shape
def signatures_of_external_inits(put):
    """A list of empty ExternalInits, for `signatures`."""
    return again(put, number(6, 2) + vector(b""), 150_000, command="signatures", profile="full")


@shape
def signatures_of_a_path_too_long(put):
    """A path with far more nodes than the tree, for `signatures`."""
    return path_of(put, vector(b"") * 2, 250_000, command="signatures")
