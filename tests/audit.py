#!/usr/bin/env python3
"""Tries examples/audit.py and examples/log.py: on the real group of examples/real, with a forged message and a broken log,
and on a group that is made here, whose names would be elements of HTML. Run it by hand, from anywhere: neither `rt ci` nor any
test runs it. It needs Debian's python3-cryptography. PROGRAM names another program than ./mlscheck.
"""
import hashlib
import html.parser
import os
import re
import subprocess
import sys
import tempfile
import unittest

TOP = os.path.dirname(os.path.dirname(os.path.realpath(__file__)))
sys.path[:0] = [os.path.join(TOP, "examples"), os.path.join(TOP, "model")]

from cryptography.hazmat.primitives.asymmetric import ed25519  # noqa: E402
from cryptography.hazmat.primitives.serialization import Encoding, PublicFormat  # noqa: E402

import log  # noqa: E402
import tree as trees  # noqa: E402
from follower import framed_content, info_content, leaf_content, package_content  # noqa: E402
from layouts import (ADD, BY_VALUE, Capabilities, Commit, Extension, FramedContent, GROUP_INFO, GroupContext,  # noqa: E402
                     GroupInfo, IS_COMMIT, KEY_PACKAGE, KeyPackage, LeafNode, Lifetime, MEMBER, Message, PUBLIC, PublicMessage)

INFO = os.path.join(TOP, "examples/real/epoch-1.info")
TREE = os.path.join(TOP, "examples/real/epoch-1.tree")
LOG = os.path.join(TOP, "examples/real/handshakes.log")

# Elements without an end.
VOID = {"meta", "rect", "line", "br"}


def read(path):
    with open(path, "rb") as file:
        return file.read()


class Parser(html.parser.HTMLParser):
    """The elements, the text and the attributes of a page. Elements have to be closed in order."""

    def __init__(self, text):
        super().__init__()
        self.open, self.elements, self.texts, self.addresses = [], set(), [], []
        self.feed(text)
        assert not self.open, self.open

    def handle_starttag(self, tag, attrs):
        self.elements.add(tag)
        self.addresses += [value for name, value in attrs if name in ("src", "href")]
        if tag not in VOID:
            self.open.append(tag)

    def handle_startendtag(self, tag, attrs):
        self.elements.add(tag)

    def handle_endtag(self, tag):
        assert self.open.pop() == tag, tag

    def handle_data(self, data):
        self.texts.append(data)

    def text(self):
        return " ".join(" ".join(self.texts).split())


class Maker:
    """A group in cipher suite 1, with true signatures."""

    group_id = b"<b>group</b>"

    def __init__(self, identity):
        self.key = self.secret(b"first")
        tree = (self.leaf(b"first", identity),)
        self.context = GroupContext(1, 1, self.group_id, 0, trees.tree_hash(1, tree), b"", ())
        info = GroupInfo(self.context, (Extension(2, trees.encode(tree)),), bytes(32), 0, b"")
        info = info._replace(signature=self.key.sign(info_content(info)))
        self.info = Message.write(Message(1, (GROUP_INFO, info)))

    def secret(self, name):
        return ed25519.Ed25519PrivateKey.from_private_bytes(hashlib.sha256(name).digest())

    def leaf(self, name, identity):
        """A leaf of a KeyPackage; the keys come from the name."""
        key = self.secret(name)
        public = key.public_key().public_bytes(Encoding.Raw, PublicFormat.Raw)
        leaf = LeafNode(hashlib.sha256(b"encryption" + name).digest(), public, (1, identity),
                        Capabilities((1,), (1,), (), (), (1,)), (KEY_PACKAGE, Lifetime(0, 2**40)), (), b"")
        return leaf._replace(signature=key.sign(leaf_content(leaf, self.group_id, 0)))

    def package(self, name, identity):
        package = KeyPackage(1, 1, hashlib.sha256(b"init" + name).digest(), self.leaf(name, identity), (), b"")
        return package._replace(signature=self.secret(name).sign(package_content(package)))

    def addition(self, name, identity):
        """A commit of the first member that adds another one."""
        commit = Commit(((BY_VALUE, (ADD, self.package(name, identity))),), None)
        framed = FramedContent(self.group_id, 0, (MEMBER, 0), b"", (IS_COMMIT, commit))
        signature = self.key.sign(framed_content(framed, self.context))
        return Message.write(Message(1, (PUBLIC, PublicMessage(framed, signature, bytes(32), bytes(32)))))


class InFolder(unittest.TestCase):
    """A test with a folder of its own."""

    def setUp(self):
        folder = tempfile.TemporaryDirectory()
        self.addCleanup(folder.cleanup)
        self.folder = folder.name

    def path(self, name, body=None):
        path = os.path.join(self.folder, name)
        if body is not None:
            with open(path, "wb") as file:
                file.write(body)
        return path

    def run_script(self, script, *words):
        command = [sys.executable, os.path.join(TOP, "examples", script), *words]
        return subprocess.run(command, stdout=subprocess.PIPE, stderr=subprocess.PIPE, check=False)


class Logs(InFolder):
    def run_log(self, status, *words):
        done = self.run_script("log.py", *words)
        self.assertEqual(done.returncode, status, done.stderr)
        return done

    def unpacked(self):
        self.run_log(0, "unpack", "--into", self.path("out"), LOG)
        return sorted(os.path.join(self.path("out"), name) for name in os.listdir(self.path("out")))

    def test_log_comes_back(self):
        names = self.unpacked()
        self.assertEqual([os.path.basename(name) for name in names], [f"{number:04}.message" for number in range(1, 11)])
        self.assertEqual(read(names[4]), read(os.path.join(TOP, "examples/real/commit.message")))
        self.assertEqual(self.run_log(0, "pack", *names).stdout, read(LOG))

    def test_nothing_is_overwritten_without_force(self):
        names = self.unpacked()
        self.path(names[0], b"mine")
        self.assertIn(b"0001.message is there already", self.run_log(3, "unpack", "--into", self.path("out"), LOG).stderr)
        self.assertIn(b"is there already", self.run_log(3, "pack", "--output", names[0], names[1]).stderr)
        self.assertEqual(read(names[0]), b"mine")
        self.run_log(0, "unpack", "--force", "--into", self.path("out"), LOG)
        self.assertNotEqual(read(names[0]), b"mine")

    def test_broken_log_names_its_offset(self):
        cut = self.path("cut", read(LOG)[:1000])
        said = self.run_log(1, "unpack", "--into", self.path("none"), cut).stderr
        self.assertIn(b"message 3 at byte 971: it has 466 bytes, and only 27 are there", said)
        self.assertFalse(os.path.exists(self.path("none")))

    def test_lengths(self):
        for count in (0, 63, 64, 16_383, 16_384):
            body = bytes(count)
            self.assertEqual(list(log.messages(log.length_of(body) + body)), [(0, body)])
        for wrong in ("c0", "40", "403f", "80003fff", "02 00"):
            data = b"\x01\x00" + bytes.fromhex(wrong)
            with self.assertRaises(log.Broken) as broken:
                list(log.messages(data))
            self.assertEqual((broken.exception.at, broken.exception.number), (2, 2), wrong)

    def test_faults(self):
        self.run_log(2, "pack")
        self.run_log(2)
        self.assertIn(b"missing: No such file", self.run_log(3, "pack", self.path("missing")).stderr)


class Audits(InFolder):
    def audit(self, status, *words):
        """The report, and what its text is."""
        output = self.path("audit.html")
        done = self.run_script("audit.py", "--output", output, *words)
        self.assertEqual(done.returncode, status, done.stderr.decode())
        if not os.path.exists(output):
            return "", done.stderr.decode()
        text = read(output).decode()
        page = Parser(text)
        self.assertFalse(page.elements & {"script", "link", "img", "iframe"})
        self.assertEqual(page.addresses, [])
        return text, page.text()

    def test_real_group(self):
        text, words = self.audit(0, INFO, LOG)
        self.assertIn("Accepted: the start is valid, and each of the 10 messages", words)
        self.assertIn("accepted 10 refused 0 broken 0 epoch 8", words)
        self.assertIn(hashlib.sha256(read(LOG)).hexdigest(), words)
        self.assertIn("Came: leaf 2, “g3-2”", words)
        self.assertIn("Left: leaf 1, “g3-1”", words)
        self.assertIn("message 4: a proposal to remove leaf 2, “g3-2”, by leaf 1, “g3-3”", words)
        self.assertIn("that a leaf node is within its lifetime", words)
        self.assertEqual(text.count("<svg"), 2)
        self.assertEqual(text, self.audit(0, INFO, LOG)[0])

    def test_tree_of_its_own_and_plain_rules(self):
        _, words = self.audit(0, INFO, "--plain", TREE, LOG)
        self.assertIn("without strict rules", words)
        self.assertIn("with the strict rules, but for 47", self.audit(0, "--allow", "47", INFO, LOG)[1])

    def test_receipts_are_those_of_the_verdict(self):
        receipts = self.path("receipts")
        self.audit(0, INFO, LOG, "--receipts", receipts)
        good = set(read(receipts).split())
        self.assertTrue(good and good <= set(read(os.path.join(TOP, "examples/real/receipts.txt")).split()))

    def test_refused_and_broken(self):
        bodies = [body for _, body in log.messages(read(LOG))]
        forged = bodies[0][:-80] + bytes([bodies[0][-80] ^ 1]) + bodies[0][-79:]
        bodies[0:0] = [forged, b"\x07", b"\x00\x01\x00\x02\x00"]
        data = b"".join(log.length_of(body) + body for body in bodies) + b"\xc0"
        _, words = self.audit(1, INFO, self.path("log", data))
        self.assertIn("3 of 13 messages are refused and the log is broken at message 14", words)
        self.assertIn("Rule 7, BadSignature : its signature is not good. A member's is under the key of its leaf", words)
        self.assertIn("a commit, by leaf 1, “g3-1”, for epoch 1", words)
        self.assertIn("Rule 1, Malformed : the bytes encode no message", words)
        self.assertIn("Rule 2, NotPublic : its wire format is not 1", words)
        self.assertIn("Not good: 1 of message 1.", words)
        self.assertIn(f"Message 14 begins at byte {len(data) - 1} of the log", words)
        self.assertIn("accepted 10 refused 3 broken 1 epoch 8", words)

    def test_no_start(self):
        other = os.path.join(TOP, "examples/real/epoch-4.tree")
        _, words = self.audit(1, INFO, other, LOG)
        self.assertIn("the group cannot be followed from this GroupInfo. The tree is not valid: hash differs.", words)
        self.assertIn("start refused 5 Tree 1 HashDiffers", words)

    def test_names_are_escaped(self):
        maker = Maker(b"<script>alert(1)</script>")
        message = maker.addition(b"second", b"\xff&\x00")
        info = self.path("<i>&.info", maker.info)
        text, words = self.audit(0, info, self.path("log", log.length_of(message) + message))
        self.assertIn("“<script>alert(1)</script>”", words)
        self.assertIn("“<b>group</b>”", words)
        self.assertIn("Came: leaf 1, hexadecimal ff2600", words)
        self.assertIn("/<i>&.info", words)
        self.assertIn("&lt;script&gt;", text)

    def test_faults(self):
        self.assertIn("the log", self.audit(3, INFO, self.path("missing"))[1])
        self.audit(2, INFO)
        self.audit(2, "--allow", "39", INFO, LOG)
        self.audit(2, "--plain", "--allow", "47", INFO, LOG)
        self.assertIn("is one of the inputs", self.audit(3, "--receipts", INFO, INFO, LOG)[1])

    def test_failed_audit_leaves_the_report(self):
        self.path("audit.html", b"<p>old</p>")
        self.audit(3, INFO, self.path("missing"))
        self.assertEqual(os.listdir(self.folder), ["audit.html"])
        self.assertEqual(read(self.path("audit.html")), b"<p>old</p>")


if __name__ == "__main__":
    unittest.main()
