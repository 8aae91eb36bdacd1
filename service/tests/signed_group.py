#!/usr/bin/env python3
"""Makes a group and a log of commits as bench/group.py does, with true signatures, in a cipher suite from 1 to 7.

    service/tests/signed_group.py FOLDER --members N [--commits C] [--log L] [--kind paths|mixed|adds] [--suite S]

writes `info`, `tree` and `log` into the folder. Keys of HPKE, ciphertexts and tags mean nothing. Groups of the suites 1, 2 and 3
satisfy the strict rules. It needs the Python package `cryptography`.
"""
import argparse
import functools
import hashlib
import os
import random
import sys

from cryptography.hazmat.primitives import hashes, serialization
from cryptography.hazmat.primitives.asymmetric import ec, ed448, ed25519

TOP = os.path.dirname(os.path.dirname(os.path.dirname(os.path.realpath(__file__))))
sys.path.insert(0, os.path.join(TOP, "bench"))
import group as model  # noqa: E402
from group import number, vector  # noqa: E402

HASHES = {1: "sha256", 2: "sha256", 3: "sha256", 4: "sha512", 5: "sha512", 6: "sha512", 7: "sha384"}
CURVES = {2: (ec.SECP256R1(), hashes.SHA256()), 5: (ec.SECP521R1(), hashes.SHA512()), 7: (ec.SECP384R1(), hashes.SHA384())}

SUITE = 1

# The private keys, by the public ones.
KEYS = {}

# The group id and the leaf index, which a leaf node from a commit signs too (RFC 9420, 7.2).
PLACE = [b"", 0]


def signing_key(*name):
    """Makes the signature key of a name, and returns the public one."""
    seed = hashlib.sha512(repr(name).encode()).digest()
    if SUITE in CURVES:
        private = ec.derive_private_key(int.from_bytes(seed[:31], "big"), CURVES[SUITE][0])
        form = serialization.Encoding.X962, serialization.PublicFormat.UncompressedPoint
    elif SUITE in (4, 6):
        private = ed448.Ed448PrivateKey.from_private_bytes(seed[:57])
        form = serialization.Encoding.Raw, serialization.PublicFormat.Raw
    else:
        private = ed25519.Ed25519PrivateKey.from_private_bytes(seed[:32])
        form = serialization.Encoding.Raw, serialization.PublicFormat.Raw
    public = private.public_key().public_bytes(*form)
    KEYS[public] = private
    return public


@functools.lru_cache(None)  # ECDSA signs differently each time
def signature(public, label, content):
    """Signs with a label (5.1.2)."""
    content = vector(b"MLS 1.0 " + label) + vector(content)
    return KEYS[public].sign(content, *([ec.ECDSA(CURVES[SUITE][1])] if SUITE in CURVES else []))


def digest(body):
    return hashlib.new(HASHES[SUITE], body).digest()


def new_leaf(*name, capabilities=None):
    credential = b"\x00\x01" + vector(repr(name).encode())
    capabilities = capabilities or model.BASIC[:4] + number(SUITE, 2) + model.BASIC[6:]
    return model.Leaf(model.key("encryption", *name), signing_key(*name), credential, capabilities, b"")


def leaf_bytes(leaf, source):
    body = vector(leaf.encryption) + vector(leaf.signature) + leaf.credential + leaf.capabilities + source + vector(leaf.extensions)
    end = vector(PLACE[0]) + number(PLACE[1], 4) if source[0] == 3 else b""
    return body + vector(signature(leaf.signature, b"LeafNodeTBS", body + end))


def key_package(leaf, init_key):
    package = number(1, 2) + number(SUITE, 2) + vector(init_key) + leaf_bytes(leaf, model.KEY_PACKAGE) + b"\x00"
    return package + vector(signature(leaf.signature, b"KeyPackageTBS", package))


def sign_the_model(suite=1):
    """Has bench/group.py sign what it makes, in this cipher suite."""
    global SUITE
    SUITE = suite
    model.SUITE = 2 if suite == 2 else 1
    model.digest, model.new_leaf, model.leaf_bytes, model.key_package = digest, new_leaf, leaf_bytes, key_package


class Group(model.Group):
    """A group whose messages, leaf nodes and GroupInfo are signed."""

    def __init__(self, *words):
        self.tag = bytes(len(digest(b"")))
        self.confirmed = digest(b"made")
        super().__init__(*words)
        self.interim = digest(self.confirmed + vector(self.tag))

    def renewed(self, index):
        return model.new_leaf("renewed", index, self.epoch)._replace(signature=self.leaves[index].signature)

    def renew(self, index, leaf, keys=None):
        PLACE[:] = [self.NAME, index]
        return super().renew(index, leaf, keys)

    def context(self, tree_hash):
        front = number(1, 2) + number(SUITE, 2) + vector(self.NAME) + number(self.epoch, 8)
        return front + vector(tree_hash) + vector(self.confirmed) + b"\x00"

    def commit(self, plan):
        context, key = self.context(self.tree_hash()), self.leaves[plan.committer].signature
        # Without the version and the wire format before it, and the signature and the two tags after it.
        content = super().commit(plan)[4:-132]
        own = vector(signature(key, b"FramedContentTBS", number(1, 2) + number(1, 2) + content + context))
        self.confirmed = digest(self.interim + number(1, 2) + content + own)
        self.interim = digest(self.confirmed + vector(self.tag))
        return number(1, 2) + number(1, 2) + content + own + vector(self.tag) + vector(self.tag)

    def info(self):
        info = self.context(self.tree_hash()) + b"\x00" + vector(self.tag) + number(0, 4)
        return number(1, 2) + number(4, 2) + info + vector(signature(self.leaves[0].signature, b"GroupInfoTBS", info))


def main():
    parser = argparse.ArgumentParser()
    parser.add_argument("folder")
    parser.add_argument("--members", type=int, required=True)
    parser.add_argument("--commits", type=int, default=0)
    parser.add_argument("--log", type=int, default=0)
    parser.add_argument("--kind", choices=["paths", "mixed", "adds"], default="paths")
    parser.add_argument("--suite", type=int, choices=range(1, 8), default=1)
    args = parser.parse_args()
    sign_the_model(args.suite)
    os.makedirs(args.folder, exist_ok=True)
    group, chosen = Group(args.members, args.commits), random.Random(1)
    files = {"info": group.info(), "tree": group.tree()}
    files["log"] = b"".join(vector(model.next_message(group, args.kind, chosen)) for _ in range(args.log))
    for name, body in files.items():
        with open(os.path.join(args.folder, name), "wb") as file:
            file.write(body)


if __name__ == "__main__":
    main()
