"""Ratchet trees by the text of RFC 9420, for follower.py.

A tree is a tuple of nodes by their node indices (Appendix C). A node is a LeafNode, a ParentNode, or None for a blank
one. Each function answers a new tree, and makes every hash again: these trees are small.
"""
import hashlib

from layouts import BYTES, Maybe, COMMIT, LeafNode, ParentNode, TREE, U8, U32

LEAF, PARENT = 1, 2


def digest(suite, body):
    """The hash function of a cipher suite (17.1)."""
    name = "sha256" if suite <= 3 else "sha384" if suite == 7 else "sha512"
    return hashlib.new(name, body).digest()


def digest_length(suite):
    return len(digest(suite, b""))


# ---- node indices (Appendix C)

def width(tree):
    """How many leaves a tree has."""
    return (len(tree) + 1) // 2


def level(place):
    return (place ^ (place + 1)).bit_length() - 1


def root(tree):
    return width(tree) - 1


def children(place):
    below = level(place) - 1
    return place ^ (1 << below), place ^ (3 << below)


def ways(tree, index):
    """The parents above a leaf from the lowest one on, each with the child on the leaf's side and the other child."""
    child, found = 2 * index, []
    while child != root(tree):
        at = level(child)
        parent = (child | (1 << at)) & ~(1 << (at + 1))
        left, right = children(parent)
        found.append((parent, child, right if child == left else left))
        child = parent
    return found


def leaf(tree, index):
    """The leaf node with this leaf index, or None if it is blank or there is none."""
    return tree[2 * index] if 2 * index < len(tree) else None


def members(tree):
    return [index for index in range(width(tree)) if leaf(tree, index)]


def resolution(tree, place):
    """The resolution of a node: node indices (4.1.1)."""
    node = tree[place]
    if node and level(place):
        return [place] + [2 * index for index in node.unmerged]
    if node:
        return [place]
    if level(place) == 0:
        return []
    left, right = children(place)
    return resolution(tree, left) + resolution(tree, right)


def filtered(tree, index):
    """The filtered direct path of a leaf (4.1.2): each parent with its copath child."""
    return [(parent, other) for parent, _, other in ways(tree, index) if resolution(tree, other)]


# ---- hashes (7.8, 7.9)

def tree_hash(suite, tree, place=None):
    place = root(tree) if place is None else place
    node = tree[place]
    if level(place) == 0:
        return digest(suite, U8.write(LEAF) + U32.write(place // 2) + Maybe(LeafNode).write(node))
    parts = [BYTES.write(tree_hash(suite, tree, child)) for child in children(place)]
    return digest(suite, U8.write(PARENT) + Maybe(ParentNode).write(node) + b"".join(parts))


def parent_hash(suite, encryption_key, hash_above, sibling_hash):
    return digest(suite, BYTES.write(encryption_key) + BYTES.write(hash_above) + BYTES.write(sibling_hash))


# ---- changes (7.7, 12.1)

def put(tree, place, node):
    return tree[:place] + (node,) + tree[place + 1:]


def clear_path(tree, index):
    for parent, _, _ in ways(tree, index):
        tree = put(tree, parent, None)
    return tree


def update(tree, index, new):
    return clear_path(put(tree, 2 * index, new), index)


def shrink(tree):
    """The tree, truncated while its right subtree has no members (7.7)."""
    while len(tree) > 1 and not any(tree[len(tree) // 2 + 1::2]):
        tree = tree[:len(tree) // 2]
    return tree


def remove(tree, index):
    return shrink(update(tree, index, None))


def seat(tree):
    """The leftmost blank leaf, for which the tree is extended if there is none."""
    for index in range(width(tree)):
        if not leaf(tree, index):
            return tree, index
    return tree + (None,) * (len(tree) + 1), width(tree)


def add(tree, new):
    tree, index = seat(tree)
    for parent, _, _ in ways(tree, index):
        node = tree[parent]
        if node:
            unmerged = tuple(sorted({*node.unmerged, index}))
            tree = put(tree, parent, node._replace(unmerged=unmerged))
    return put(tree, 2 * index, new), index


def merged(suite, tree, index, keys):
    """The tree with new keys in the filtered direct path of a leaf, from the root down, and the parent hash that the leaf
    must have then (7.5, 7.9.2)."""
    path = filtered(tree, index)
    assert len(keys) == len(path)
    new = {parent: (key, other) for key, (parent, other) in zip(keys, path)}
    above, changed = b"", tree
    for parent, _, _ in reversed(ways(tree, index)):
        if parent not in new:
            changed = put(changed, parent, None)
            continue
        key, other = new[parent]
        changed = put(changed, parent, ParentNode(key, above, ()))
        above = parent_hash(suite, key, above, tree_hash(suite, tree, other))
    return changed, above


def encode(tree):
    """The tree as a ratchet_tree (12.4.3.3), without the blank nodes at its end."""
    last = max(place for place, node in enumerate(tree) if node)
    entries = [node and ((PARENT if place % 2 else LEAF), node) for place, node in enumerate(tree[:last + 1])]
    return TREE.write(entries)


def keys(tree):
    return [node.encryption_key for node in tree if node]


def is_parent_hash_valid(suite, tree, place):
    """Whether a chain of parent hashes leads from a leaf up to this parent (7.9.2)."""
    node, halves = tree[place], children(place)
    for child, other in (halves, halves[::-1]):
        sibling = stripped(tree, other, set(node.unmerged))
        wanted = parent_hash(suite, node.encryption_key, node.parent_hash, tree_hash(suite, sibling, other))
        below = {2 * index for index in node.unmerged if is_below(2 * index, child)}
        for found in resolution(tree, child):
            rest = set(resolution(tree, child)) - {found}
            if hash_above(tree[found]) == wanted and rest == below:
                if level(found) == 0 or is_parent_hash_valid(suite, tree, found):
                    return True
    return False


def is_below(place, top):
    reach = (1 << level(top)) - 1
    return top - reach <= place <= top + reach


def hash_above(node):
    if hasattr(node, "parent_hash"):
        return node.parent_hash
    return node.source[1] if node.source[0] == COMMIT else None


def stripped(tree, top, indices):
    """The tree without these leaves under a node: blank, and in no unmerged list."""
    nodes = list(tree)
    for place in range(len(tree)):
        if is_below(place, top) and nodes[place]:
            if level(place):
                rest = tuple(index for index in nodes[place].unmerged if index not in indices)
                nodes[place] = nodes[place]._replace(unmerged=rest)
            elif place // 2 in indices:
                nodes[place] = None
    return tuple(nodes)


def is_valid(suite, tree):
    """Whether unmerged lists are sorted and consistent, encryption keys distinct, and all parents parent-hash valid."""
    for place, node in enumerate(tree):
        if not node or level(place) == 0:
            continue
        if list(node.unmerged) != sorted(set(node.unmerged)):
            return False
        for index in node.unmerged:
            between = [parent for parent, _, _ in ways(tree, index) if tree[parent] and is_below(parent, place)]
            if not is_below(2 * index, place) or not leaf(tree, index):
                return False
            if any(index not in tree[parent].unmerged for parent in between):
                return False
        if not is_parent_hash_valid(suite, tree, place):
            return False
    return len(keys(tree)) == len(set(keys(tree)))
