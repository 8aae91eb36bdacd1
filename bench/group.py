#!/usr/bin/env python3
"""Makes a valid group to measure with, and a log of commits.

    group.py FOLDER --members N [--commits C] [--unmerged U] [--log L] [--kind paths|mixed|adds|joins] [--suite 1|2]

writes `tree`, `valid.context`, `other-hash.context` (the same with another tree hash), `info` (a
GroupInfo without the tree) and `log` into the folder. The tree is made by C commits of members that are
spread evenly over it, and U members who were added since, who are unmerged. The log has L commits, each
with a path. Those of the kind `paths` have no proposals; those of the kind `mixed` add up to two members
and remove up to two beside their path. In those of the kind `adds` the newest member adds one, and those of
the kind `joins` are external commits, by each of which a client joins. Keys and signatures are bytes that
mean nothing, but in cipher suite 2 the keys are points of P-256.
"""
import argparse
import collections
import hashlib
import random

# The fields of a leaf node, except its source.
Leaf = collections.namedtuple("Leaf", "encryption signature credential capabilities extensions")

# What a commit does: who sends it, whom it removes, the leaves that it adds, the sender's new leaf, and the
# keys that replace those of its path, by their positions in the path.
Plan = collections.namedtuple("Plan", "committer removed joining renewed keys")

BASIC = bytes.fromhex("020001 020001 00 00 020001")
# The u-coordinate 9, which is a point of X25519's group.
BASE_25519 = bytes([9]) + bytes(31)
EXTERNAL_INIT = bytes.fromhex("0006 20") + BASE_25519

# The cipher suite, 1 or 2, and the curve of the latter: its prime, and the number b of its equation.
SUITE = 1
PRIME = 2**256 - 2**224 + 2**192 + 2**96 - 1
COEFFICIENT = 0x5AC635D8AA3A93E7B3EBBD55769886BC651D06B0CC53B0F63BCE3C3E27D2604B


def number(value, size):
    return value.to_bytes(size, "big")


KEY_PACKAGE = b"\x01" + number(0, 8) + number(2**64 - 1, 8)


def vector(body):
    size = len(body)
    if size < 64:
        return bytes([size]) + body
    if size < 16_384:
        return number(0x4000 | size, 2) + body
    return number(0x8000_0000 | size, 4) + body


def digest(body):
    return hashlib.sha256(body).digest()


def point(x):
    """The uncompressed point of P-256 with the least coordinate x from this one on."""
    while True:
        square = (x * x * x - 3 * x + COEFFICIENT) % PRIME
        y = pow(square, (PRIME + 1) // 4, PRIME)
        if y * y % PRIME == square:
            return b"\x04" + number(x, 32) + number(y, 32)
        x += 1


def key(*name):
    body = digest(repr(name).encode())
    return body if SUITE == 1 else point(int.from_bytes(body, "big") % 2**255)


def kem_output():
    return BASE_25519 if SUITE == 1 else KEM_OUTPUT


KEM_OUTPUT = point(1)


def optional(body):
    return b"\x00" if body is None else b"\x01" + body


def new_leaf(*name, capabilities=None):
    credential = b"\x00\x01" + vector(repr(name).encode())
    capabilities = capabilities or BASIC[:4] + number(SUITE, 2) + BASIC[6:]
    return Leaf(key("encryption", *name), key("signature", *name), credential, capabilities, b"")


def leaf_bytes(leaf, source):
    keys = vector(leaf.encryption) + vector(leaf.signature)
    return keys + leaf.credential + leaf.capabilities + source + vector(leaf.extensions) + vector(bytes(64))


def key_package(leaf, init_key):
    package = number(1, 2) + number(SUITE, 2) + vector(init_key) + leaf_bytes(leaf, KEY_PACKAGE)
    return package + b"\x00" + vector(bytes(64))


def parent(node):
    encryption_key, parent_hash, unmerged = node
    numbers = b"".join(number(index, 4) for index in unmerged)
    return vector(encryption_key) + vector(parent_hash) + vector(numbers)


class Group:
    """A level lists its nodes from left to right; leaves are level 0. A leaf is its bytes, a parent its
    key, its parent hash and its unmerged leaves; a blank is None. `leaves` has what each leaf says. The tree
    hash of each subtree, and the size of its resolution, are kept as the group changes."""

    NAME = b"group"

    def __init__(self, members, commits=0, unmerged=0):
        self.depth = (members - 1).bit_length()
        lengths = [1 << (self.depth - level) for level in range(self.depth + 1)]
        self.levels = [[None] * length for length in lengths]
        self.hashes = [[None] * length for length in lengths]
        self.sizes = [[0] * length for length in lengths]
        self.leaves = [None] * lengths[0]
        self.epoch = 0
        step = members // unmerged if unmerged else 0
        added = range(step // 2 | 1, members, step) if unmerged else range(0)
        for index in range(members):
            if index not in added:
                self.leaves[index] = new_leaf("made", index)
                self.levels[0][index] = leaf_bytes(self.leaves[index], KEY_PACKAGE)
        self.hash_again(range(lengths[0]))
        for count in range(commits):
            index = count * members // commits
            if index not in added:
                self.renew(index, self.renewed(index))
            self.epoch += 1
        for index in added:
            self.set_leaf(index, new_leaf("made", index))

    def present(self):
        return [index for index, leaf in enumerate(self.leaves) if leaf]

    def renewed(self, index):
        """The fields of the member's leaf after its next commit."""
        leaf = new_leaf("renewed", index, self.epoch)
        return leaf._replace(signature=self.leaves[index].signature)

    # ---- changes of the tree

    def hash_one(self, level, at):
        node = self.levels[level][at]
        if level == 0:
            self.hashes[0][at] = digest(b"\x01" + number(at, 4) + optional(node))
            self.sizes[0][at] = 1 if node else 0
            return
        left, right = self.hashes[level - 1][2 * at:2 * at + 2]
        body = b"\x02" + optional(parent(node) if node else None) + vector(left) + vector(right)
        self.hashes[level][at] = digest(body)
        below = sum(self.sizes[level - 1][2 * at:2 * at + 2])
        self.sizes[level][at] = 1 + len(node[2]) if node else below

    def hash_again(self, indices):
        """Computes the hashes of these leaves and of the nodes above them again."""
        places = sorted(set(indices))
        for level in range(self.depth + 1):
            for at in places:
                self.hash_one(level, at)
            places = sorted({at // 2 for at in places})

    def set_leaf(self, index, leaf):
        """A member joins: a new leaf, unmerged at every non-blank parent above it."""
        self.leaves[index] = leaf
        self.levels[0][index] = leaf_bytes(leaf, KEY_PACKAGE)
        for level in range(1, self.depth + 1):
            node = self.levels[level][index >> level]
            if node:
                node[2].append(index)
                node[2].sort()
        self.hash_again([index])

    def seat(self):
        """The leaf of the next new member: the leftmost blank one, or the first by which the tree is extended."""
        if None not in self.leaves:
            self.double()
        return self.leaves.index(None)

    def join(self, leaf):
        index = self.seat()
        self.set_leaf(index, leaf)
        return index

    def remove(self, index):
        self.leaves[index] = None
        for level in range(self.depth + 1):
            self.levels[level][index >> level] = None
        self.hash_again([index])

    def double(self):
        count = len(self.leaves)
        self.depth += 1
        self.leaves += [None] * count
        for rows, blank in ((self.levels, None), (self.hashes, None), (self.sizes, 0)):
            for row in rows:
                row += [blank] * len(row)
            rows.append([blank])
        self.hash_again(range(count, 2 * count))

    def halve(self):
        """Truncates the tree as long as its right subtree is blank."""
        while self.depth and self.sizes[self.depth - 1][1] == 0:
            self.depth -= 1
            del self.leaves[1 << self.depth:]
            for rows in (self.levels, self.hashes, self.sizes):
                rows.pop()
                for row in rows:
                    del row[len(row) // 2:]

    # ---- commits

    def renew(self, index, leaf, keys=None):
        """The member renews its leaf and the parents of its filtered direct path, from the root down. It
        answers the path from the lowest parent on: its keys, with the levels and places of their other halves."""
        others = [(level, (index >> (level - 1)) ^ 1) for level in range(self.depth, 0, -1)]
        filtered = [level for level, other in others if self.sizes[level - 1][other]]
        parent_hash, path = b"", []
        for level, other in others:
            if level not in filtered:
                self.levels[level][index >> level] = None
                continue
            at = len(filtered) - 1 - filtered.index(level)
            node = ((keys or {}).get(at, key("path", level, self.epoch)), parent_hash, [])
            self.levels[level][index >> level] = node
            path.append((node[0], level - 1, other))
            parent_hash = digest(vector(node[0]) + vector(node[1]) + vector(self.hashes[level - 1][other]))
        self.leaves[index] = leaf
        self.levels[0][index] = leaf_bytes(leaf, b"\x03" + vector(parent_hash))
        self.hash_again([index])
        return path[::-1]

    def path_bytes(self, index, path, added):
        """A path, in which each node has a ciphertext for each node that stands for its other half, but for
        the leaves that were just added."""
        ciphertext = vector(kem_output()) + vector(bytes(48))
        nodes = []
        for encryption_key, level, at in path:
            count = self.sizes[level][at] - sum(other >> level == at for other in added)
            nodes.append(vector(encryption_key) + vector(ciphertext * count))
        return self.levels[0][index] + vector(b"".join(nodes))

    def commit(self, plan):
        """Commits, and answers the message."""
        for index in plan.removed:
            self.remove(index)
        self.halve()
        added = {self.join(leaf) for leaf in plan.joining}
        path = self.renew(plan.committer, plan.renewed, plan.keys)
        path = self.path_bytes(plan.committer, path, added)
        proposals = [number(3, 2) + number(index, 4) for index in plan.removed]
        proposals += [number(1, 2) + key_package(leaf, key("init", leaf)) for leaf in plan.joining]
        content = vector(self.NAME) + number(self.epoch, 8) + b"\x01" + number(plan.committer, 4) + b"\x00"
        content += b"\x03" + vector(b"".join(b"\x01" + proposal for proposal in proposals)) + optional(path)
        self.epoch += 1
        return number(1, 2) + number(1, 2) + content + vector(bytes(64)) + vector(bytes(32)) + vector(bytes(32))

    def external_commit(self, leaf):
        """A client joins with a commit of its own, and answers the message."""
        index = self.seat()
        path = self.path_bytes(index, self.renew(index, leaf), set())
        content = vector(self.NAME) + number(self.epoch, 8) + b"\x04\x00\x03" + vector(b"\x01" + EXTERNAL_INIT)
        self.epoch += 1
        return number(1, 2) + number(1, 2) + content + optional(path) + vector(bytes(64)) + vector(bytes(32))

    # ---- what is written

    def tree(self):
        entries = []
        for place in range(2 * len(self.leaves) - 1):
            level = (~place & (place + 1)).bit_length() - 1
            node = self.levels[level][place >> (level + 1)]
            if node and level:
                entries.append(b"\x01\x02" + parent(node))
            else:
                entries.append(optional(b"\x01" + node if node else None))
        while entries[-1] == b"\x00":
            entries.pop()
        return vector(b"".join(entries))

    def tree_hash(self):
        return self.hashes[self.depth][0]

    def context(self, tree_hash):
        numbers = number(1, 2) + number(SUITE, 2) + vector(self.NAME) + number(self.epoch, 8)
        return numbers + vector(tree_hash) + b"\x00\x00"

    def info(self):
        """The GroupInfo, without the tree, signed by member 0."""
        context = self.context(self.tree_hash())
        info = number(1, 2) + number(4, 2) + context + b"\x00" + vector(bytes(32)) + number(0, 4)
        return info + vector(bytes(64))

    def set_parents(self):
        return sum(node is not None for level in self.levels[1:] for node in level)


def any_member(group, chosen):
    while True:
        index = chosen.randrange(len(group.leaves))
        if group.leaves[index]:
            return index


def next_plan(group, kind, chosen):
    """What a commit of a kind of log does. In a mixed one as many members are added as are removed, over time,
    so that the group stays about as large as it is."""
    committer = max(group.present()) if kind == "adds" else any_member(group, chosen)
    removed, joining = [], [new_leaf("joined", group.epoch)] if kind == "adds" else []
    if kind == "mixed":
        others = {any_member(group, chosen) for _ in range(chosen.randrange(3))}
        removed = sorted(others - {committer})
        joining = [new_leaf("joined", group.epoch, at) for at in range(chosen.randrange(3))]
    return Plan(committer, removed, joining, group.renewed(committer), {})


def next_message(group, kind, chosen):
    if kind == "joins":
        return group.external_commit(new_leaf("joined", group.epoch))
    return group.commit(next_plan(group, kind, chosen))


def main():
    parser = argparse.ArgumentParser()
    parser.add_argument("folder")
    parser.add_argument("--members", type=int, required=True)
    parser.add_argument("--commits", type=int, default=0)
    parser.add_argument("--unmerged", type=int, default=0)
    parser.add_argument("--log", type=int, default=0)
    parser.add_argument("--kind", choices=["paths", "mixed", "adds", "joins"], default="paths")
    parser.add_argument("--suite", type=int, choices=[1, 2], default=1)
    args = parser.parse_args()
    global SUITE
    SUITE = args.suite
    group = Group(args.members, args.commits, args.unmerged)
    files = {
        "tree": group.tree(),
        "valid.context": group.context(group.tree_hash()),
        "other-hash.context": group.context(digest(group.tree_hash())),
        "info": group.info(),
    }
    print(f"{args.members} members, {group.set_parents()} set parents, {args.unmerged} unmerged leaves")
    chosen = random.Random(1)
    messages = [next_message(group, args.kind, chosen) for _ in range(args.log)]
    files["log"] = b"".join(vector(message) for message in messages)
    if messages:
        print(f"{len(messages)} commits ({args.kind}), {len(files['log']) // len(messages)} bytes each")
    for name, body in files.items():
        with open(f"{args.folder}/{name}", "wb") as file:
            file.write(body)


if __name__ == "__main__":
    main()
