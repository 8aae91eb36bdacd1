"""Messages, and files of states, of groups that group.py makes, for cost.py: signatures and tags are empty, and any
rule may be broken."""
from group import KEY_PACKAGE, Group, digest, key, key_package, leaf_bytes, new_leaf, number, optional, vector

# An extension without data, of a type that no leaf lists.
EXTENSION = number(0xF000, 2) + vector(b"")


class Sparse(Group):
    """A group with few members, whose tree has the given number of leaves, rounded up to a power of two."""

    def __init__(self, leaves, present, name=b"group"):
        super().__init__(1)
        self.NAME = name
        self.depth = (leaves - 1).bit_length()
        lengths = [1 << (self.depth - level) for level in range(self.depth + 1)]
        self.levels = [[None] * length for length in lengths]
        self.hashes = [[None] * length for length in lengths]
        self.sizes = [[0] * length for length in lengths]
        self.leaves = [None] * lengths[0]
        for index in present:
            self.leaves[index] = new_leaf("made", index)
            self.levels[0][index] = leaf_bytes(self.leaves[index], KEY_PACKAGE)
        self.hash_again(range(lengths[0]))


def with_capabilities(group, capabilities):
    """The group with new members who have these capabilities."""
    for index in group.present():
        group.leaves[index] = new_leaf("made", index, capabilities=capabilities)
        group.levels[0][index] = leaf_bytes(group.leaves[index], KEY_PACKAGE)
    group.hash_again(range(len(group.leaves)))
    return group


def put_leaves(group, leaves):
    """Puts leaves, by their indices in increasing order, into the group. They become the last unmerged leaves of the
    non-blank parents above them."""
    for index, leaf in leaves.items():
        group.leaves[index] = leaf
        group.levels[0][index] = leaf_bytes(leaf, KEY_PACKAGE)
        for level in range(1, group.depth + 1):
            node = group.levels[level][index >> level]
            if node:
                node[2].append(index)
    group.hash_again(leaves)


def renew_paths(group, indices):
    """Each of these members renews its path, in an epoch of its own."""
    for index in indices:
        group.renew(index, group.renewed(index))
        group.epoch += 1


def updated_group(members, name):
    """A group whose leaf nodes have the source `update`, so that their signatures are over the group's id."""
    group = Sparse(members, range(members), name)
    for index in range(members):
        group.levels[0][index] = leaf_bytes(group.leaves[index], b"\x02")
    group.hash_again(range(members))
    return group


def frozen(group):
    """The group, whose `info` and `tree` are those of now, whatever commits change later."""
    info, tree = group.info(), group.tree()
    group.info, group.tree = lambda: info, lambda: tree
    return group


def far_members(leaves):
    """The members of a tree in which the first one has a member below each node of its copath."""
    return [0] + [1 << level for level in range((leaves - 1).bit_length())]


def framed(group, sender, content, data=b""):
    head = vector(group.NAME) + number(group.epoch, 8) + b"\x01" + number(sender, 4) + vector(data)
    return number(1, 2) + head + content


def message(frame, auth):
    return number(1, 2) + frame + auth + vector(b"")


def content_of(group, sender, body, data=b"", signature=b""):
    """The AuthenticatedContent of a proposal: an entry of the file of a state."""
    return framed(group, sender, b"\x02" + body, data) + vector(signature)


def proposal(group, sender, body, data=b"", signature=b""):
    """A proposal's message, and the item of a commit that names it."""
    content = content_of(group, sender, body, data, signature)
    reference = digest(vector(b"MLS 1.0 Proposal Reference") + vector(content))
    return message(content, b""), b"\x02" + vector(reference)


def commit(group, items, path=None, committer=0):
    content = b"\x03" + vector(b"".join(items)) + optional(path)
    return message(framed(group, committer, content), vector(b"") + vector(b""))


def external_commit(group, items, path):
    """A commit of a client that joins with it."""
    head = vector(group.NAME) + number(group.epoch, 8) + b"\x04\x00\x03"
    return number(1, 2) * 2 + head + vector(b"".join(items)) + optional(path) + vector(b"") * 2


def commit_with_path(group, items):
    """A commit of member 0 that changes no members, and the group after it."""
    path = group.renew(0, group.renewed(0))
    sent = commit(group, items, group.path_bytes(0, path, set()))
    group.epoch += 1
    return sent


def false_path(parent_hash, nodes):
    return leaf_bytes(new_leaf("path"), b"\x03" + vector(parent_hash)) + vector(nodes)


def false_path_above(group, added):
    """A path of member 0 of a group of two members after a commit adds some, with a false parent hash. It has a node below
    the root for each power of two of leaves, and a ciphertext for member 1 alone."""
    depth = (len(group.present()) + added - 1).bit_length()
    counts = [1] + [0] * (depth - 1)
    nodes = [vector(key("path", at)) + vector(b"\x00\x00" * count) for at, count in enumerate(counts)]
    return false_path(bytes(32), b"".join(nodes))


def add(leaf):
    return number(1, 2) + key_package(leaf, key("init", leaf.encryption, leaf.signature))


def update(leaf):
    return number(2, 2) + leaf_bytes(leaf, b"\x02")


def remove(index):
    return number(3, 2) + number(index, 4)


def psk(at, name=b"psk"):
    """A proposal of an external PSK, of its own nonce."""
    return number(4, 2) + b"\x01" + vector(name) + vector(number(at, 32))


def reinit(extensions=b""):
    return number(5, 2) + vector(b"") + number(1, 2) * 2 + vector(extensions)


def extensions_of(items):
    """A proposal of extensions of the context, by their types and data."""
    return number(7, 2) + vector(b"".join(number(kind, 2) + vector(data) for kind, data in items))


def many_extensions(count):
    """A proposal of that many extensions of the context, without data."""
    return number(7, 2) + vector(EXTENSION * count)


def inline(body):
    return b"\x01" + body


def small_leaf(at):
    """A leaf of few bytes, whose keys no other leaf has."""
    name = b"%d" % at
    return new_leaf(at)._replace(encryption=b"e" + name, signature=b"s" + name, credential=b"\x00\x01" + vector(b""))


def inline_adds(count):
    return [inline(add(small_leaf(at))) for at in range(count)]


def bare_leaf(credential=b"\x00\x01\x00", source=b"\x02", extensions=b"", name=b""):
    """A leaf node without content, except what is given. The name is that of both keys."""
    return vector(name) * 2 + credential + vector(b"") * 5 + source + vector(extensions) + vector(b"")


def bare_update(leaf):
    return number(2, 2) + leaf


def bare_add(leaf, extensions=b""):
    """An Add without content, except the leaf node and the extensions of its key package."""
    return number(1, 2) * 3 + vector(b"") + leaf + vector(extensions) + vector(b"")


def state_file(group, entries, added=None):
    """The file of a state in the full profile. An entry is a pending proposal, as `content_of` has it. Those that the last
    commit added are given by their references; there are none if no commit was accepted."""
    context = group.context(group.tree_hash())
    references = None if added is None else vector(b"".join(vector(reference) for reference in added))
    state = b"\x02\x00" + number(0, 2) + context + vector(bytes(32)) + group.tree()
    state += vector(b"".join(entries)) + optional(references)
    return number(2, 2) + vector(digest(state)) + state
