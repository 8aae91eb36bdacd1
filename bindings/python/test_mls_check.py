"""Follows the group in examples/real, with signatures that the package `cryptography` verifies, or by its file of receipts.

    cd bindings/python && python3 -m unittest
"""

import hashlib
import os
import sys
import unittest

import mls_check

EXAMPLES = os.path.join(os.path.dirname(os.path.abspath(__file__)), "..", "..", "examples")

try:
    sys.path.insert(0, EXAMPLES)
    from receipts import is_good
except ImportError:
    is_good = None


def file(name):
    with open(os.path.join(EXAMPLES, name), "rb") as opened:
        return opened.read()


INFO = file("real/epoch-1.info")
MESSAGES = list(mls_check.vectors(file("real/handshakes.log")))
RECEIPTS = [bytes.fromhex(line) for line in file("real/receipts.txt").decode().split()]
EXPECTED = file("c/expected.txt").decode().splitlines()


def listed(wanted):
    return [w.receipt for w in wanted if w.receipt in RECEIPTS]


def verified(wanted):
    return [w.receipt for w in wanted if is_good(w.suite, w.key, w.content, w.signature)]


def judged(group, message, good):
    group.learn(good(group.query(message)))
    answer = group.judge(message)
    if isinstance(answer, mls_check.Refusal):
        return f"refused {answer.number} {answer.name}"
    if answer.epoch is None:
        return f"accepted proposal {answer.reference.hex()}"
    return f"accepted commit {answer.epoch} {group.tree_hash.hex()} {group.confirmed_hash.hex()}"


def forged(group, message):
    own = group.query(message)[0].signature
    return message.replace(own, own[:-1] + bytes([own[-1] ^ 1]))


GROUP_ID = bytes.fromhex("2465531c40cda7923c62292d3a824c84d15fae2af10cb7a5015875f18a1d2a1a")

# The epoch, the content type and the leaf index of the sender of each message, and its numbers of Adds, Removes and references.
MESSAGE_FACTS = [
    (1, 3, 1, 1, 0, 0),
    (2, 3, 2, 0, 1, 0),
    (3, 3, 0, 1, 0, 0),
    (4, 2, 1, 0, 1, 0),
    (4, 3, 0, 1, 0, 1),
    (5, 2, 2, 0, 1, 0),
    (5, 3, 1, 0, 0, 1),
    (6, 2, 0, 0, 1, 0),
    (6, 3, 1, 0, 0, 0),
    (7, 3, 1, 1, 0, 0),
]

# The members in epoch 8: the leaf index, the encoded credential, and the first bytes of the signature key.
MEMBERS = [(0, "00010467332d30", "6634f895"), (1, "00010467332d33", "4420bff9"), (2, "00010467332d35", "5ca4aa35")]

# The keys and capabilities of a leaf node, without its encryption key.
LEAF = "01b1 0001 0141 020001 020001 00 00 020001"

# Other messages, and their facts: a new_member_commit with an ExternalInit, a KeyPackage, two PrivateMessages, one whose body
# cannot be read, and a Welcome.
NO_PROPOSALS = mls_check.Counts(0, 0, 0, 0, 0, 0, 0, 0)
OTHER_FACTS = [
    (
        "0001 0001 0147 0000000000000000 04 00 03 05 01 0006 01aa "
        f"01 0181 {LEAF} 03 00 00 01c1 07 01d1 04 01aa 01bb 01c6 01e1",
        mls_check.Facts(1, b"\x47", 0, 3, (4, None), NO_PROPOSALS._replace(external_inits=1), b"\xb1"),
    ),
    (
        f"0001 0005 0001 0001 01f1 01a1 {LEAF} 01 0000000000000000 ffffffffffffffff 00 01c1 00 01c9",
        mls_check.Facts(5, None, None, None, None, NO_PROPOSALS, b"\xb1"),
    ),
    ("0001 0002 0147 0000000000000005 03 00 01da 01db", mls_check.Facts(2, b"\x47", 5, 3, None, NO_PROPOSALS, None)),
    ("0001 0002 00 ffffffffffffffff 01 00 00 00", mls_check.Facts(2, b"", 2**64 - 1, 1, None, NO_PROPOSALS, None)),
    ("0001 0002", mls_check.Facts(2, None, None, None, None, NO_PROPOSALS, None)),
    ("0001 0003 0001 00 00", mls_check.Facts(3, None, None, None, None, NO_PROPOSALS, None)),
]

# An extensions list with a type twice, which no leaf node of the group supports.
REPEATED = bytes.fromhex("06f00000f00000")
NO_NODE = 2**64 - 1


def repeated(data, at):
    """The list of extensions at `at`, which is empty, replaced by REPEATED."""
    assert data[at] == 0
    return data[:at] + REPEATED + data[at + 1 :]


def with_short_tag(message):
    """The message with a byte less in its membership tag, which is at its end."""
    assert message[-33] == 32
    return message[:-33] + bytes([31]) + message[-31:]


def with_repeated_extensions(message):
    """Its Remove proposal replaced by a GroupContextExtensions proposal with a type twice. The signature and the tag
    follow, which are 99 bytes."""
    assert message[-105:-103] == b"\0\3"
    return message[:-105] + b"\0\7" + REPEATED + message[-99:]


# The capabilities of the group's leaf nodes, and the source key_package. The lifetime follows (7.2).
KEY_PACKAGE = bytes.fromhex("020001 06000200010003 00 00 020001 01")


def lifetime(message):
    """The first and the last second of the lifetime of the leaf node that a message adds, or of all time if it adds none."""
    _, found, after = message.partition(KEY_PACKAGE)
    if not found:
        return 0, 2**64 - 1
    return int.from_bytes(after[:8], "big"), int.from_bytes(after[8:16], "big")


def every(wanted):
    return [w.receipt for w in wanted]


def changed(state, rules=None, added=None):
    """A state with other strict rules, or other KeyPackageRefs of the last commit, and the right checksum. The state has one
    KeyPackageRef of 32 bytes."""
    body = state[35:]
    if rules is not None:
        body = body[:2] + rules.to_bytes(2, "big") + body[4:]
    if added is not None:
        assert body[-35:-32] == b"\1\x21\x20"
        body = body[:-35] + added
    return state[:3] + hashlib.sha256(body).digest() + body


class RealGroup(unittest.TestCase):
    def follow(self, good):
        with mls_check.Follower(INFO, receipts=good(mls_check.start_query(INFO))) as group:
            lines = [f"ready epoch {group.epoch} members {group.members} tree {group.tree_hash.hex()}"]
            for message in MESSAGES:
                self.assertEqual(judged(group, forged(group, message), good), "refused 7 BadSignature")
                lines.append(judged(group, message, good))
        self.assertEqual(lines, EXPECTED)

    def test_receipts(self):
        self.follow(listed)

    @unittest.skipIf(is_good is None, "the package cryptography is not here")
    def test_signatures(self):
        self.follow(verified)

    def test_states(self):
        group = mls_check.Follower(INFO, receipts=RECEIPTS)
        for message in MESSAGES:
            other = mls_check.Follower.resume(group.state, RECEIPTS)
            self.assertEqual(other.judge(message), group.judge(message))
            self.assertEqual(other.state, group.state)
            other.close()
        self.assertEqual((group.epoch, group.members), (8, 3))

    def test_signatures_of_a_state(self):
        group = mls_check.Follower(INFO, receipts=RECEIPTS)
        for message in MESSAGES[:4]:
            self.assertIsInstance(group.judge(message), mls_check.Accepted)
        state = group.state
        wanted = mls_check.resume_query(state)
        # Three leaf nodes, and a pending Remove proposal.
        fronts = [w.receipt[:4].hex() for w in wanted]
        self.assertEqual(fronts, ["b40a5210", "8239c971", "311cfcb5", "efd6a6ad"])
        good = every(wanted) if is_good is None else verified(wanted)
        self.assertEqual(good, listed(wanted))
        self.assertEqual(mls_check.resume_query(state, good), [])
        with mls_check.Follower.resume(state, good) as other:
            self.assertEqual(other.state, state)
        refusals = [(7, 5, 0), (7, 5, 1), (7, 5, 2), (9, 0, 0)]
        for at, refusal in enumerate(refusals):
            others = good[:at] + good[at + 1 :]
            self.assertEqual(mls_check.resume_query(state, others), [wanted[at]])
            self.refused(*refusal, mls_check.Follower.resume, state, others)

    def test_changed_states(self):
        group = mls_check.Follower(INFO, receipts=RECEIPTS)
        for message in MESSAGES[:4]:
            group.judge(message)
        state = group.state
        self.assertEqual(changed(state), state)
        # Strict rules that the group meets, a number that is no set of them, and KeyPackageRefs of other numbers and lengths.
        for rules in (mls_check.RULES_STRICT, mls_check.rule(47)):
            with mls_check.Follower.resume(changed(state, rules), RECEIPTS) as other:
                self.assertEqual(other.rules, rules)
        for added in (b"\0", b"\1\0", b"\1\x40\x63" + 3 * (b"\x20" + bytes(32))):
            self.assertEqual(mls_check.resume_query(changed(state, added=added), RECEIPTS), [])
        refusals = [
            ((1, 5, 37), changed(state, 0x2000)),
            ((1, 4, len(state) - 35), changed(state, added=b"\2\0")),
            ((2, 0, 0), state[:-1] + bytes([state[-1] ^ 1])),
            ((12, 0, 3), changed(state, added=b"\1\x40\x84" + 4 * (b"\x20" + bytes(32)))),
            ((12, 0, 0), changed(state, added=b"\1\x20\x1f" + bytes(31))),
            ((12, 0, 0), changed(state, mls_check.RULES_STRICT, b"\1\1\0")),
        ]
        for refusal, other in refusals:
            self.refused(*refusal, mls_check.resume_query, other)
            self.refused(*refusal, mls_check.Follower.resume, other, RECEIPTS)

    def test_refusals(self):
        with self.assertRaises(mls_check.Refused) as refused:
            mls_check.Follower(INFO)
        self.assertEqual((refused.exception.number, refused.exception.inner, refused.exception.place), (6, 5, 0))
        group = mls_check.Follower(INFO, receipts=RECEIPTS)
        self.assertEqual(group.judge(b"").name, "Malformed")
        self.assertEqual(group.query(b""), [])
        group.close()
        with self.assertRaises(mls_check.Fault):
            group.judge(b"")

    def test_tree(self):
        context, tree = file("real/epoch-8.context"), file("real/epoch-8.tree")
        self.assertEqual(mls_check.validate_tree(context, tree, RECEIPTS).hex()[:8], "72763a49")
        with self.assertRaises(mls_check.Refused):
            mls_check.validate_tree(context, tree)

    def test_facts_of_messages(self):
        for message, expected in zip(MESSAGES, MESSAGE_FACTS):
            epoch, content_type, leaf, adds, removes, references = expected
            proposals = NO_PROPOSALS._replace(adds=adds, removes=removes, references=references)
            facts = mls_check.Facts(1, GROUP_ID, epoch, content_type, (1, leaf), proposals, None)
            self.assertEqual(mls_check.message_facts(message), facts)
        self.assertEqual(mls_check.message_facts(INFO), (4, GROUP_ID, 1, None, None, NO_PROPOSALS, None))
        for message, facts in OTHER_FACTS:
            self.assertEqual(mls_check.message_facts(bytes.fromhex(message)), facts)
        for message in (b"", MESSAGES[0][:-1], MESSAGES[0] + b"\0"):
            self.assertIsNone(mls_check.message_facts(message))
        # A group ID that is longer than the first buffer.
        long = bytes.fromhex("00010002 412c") + bytes(300) + bytes.fromhex("0000000000000005 03 00 00 00")
        self.assertEqual(mls_check.message_facts(long).group_id, bytes(300))

    def test_parts_of_a_group(self):
        group = mls_check.Follower(INFO, receipts=RECEIPTS)
        pending = []
        for message, line in zip([None, *MESSAGES], EXPECTED):
            if message is not None:
                group.judge(message)
                pending = [bytes.fromhex(line.split()[2])] if line.startswith("accepted proposal") else []
            self.assertEqual((group.group_id, group.pending), (GROUP_ID, pending))
            if group.epoch in (1, 8) or (group.epoch == 4 and not pending):
                self.assertEqual(group.context, file(f"real/epoch-{group.epoch}.context"))
                self.assertEqual(group.tree, file(f"real/epoch-{group.epoch}.tree"))
        members = list(group.each_member())
        self.assertEqual([(m.leaf, m.credential.hex(), m.signature_key[:4].hex()) for m in members], MEMBERS)
        self.assertEqual([len(m.signature_key) for m in members], [32, 32, 32])
        self.assertEqual([group.member(leaf) for leaf in (3, 4, 2**32 - 1)], [None, None, None])
        group.close()
        for part in ("group_id", "context", "tree", "pending"):
            with self.assertRaises(mls_check.Fault):
                getattr(group, part)
        with self.assertRaises(mls_check.Fault):
            group.member(0)

    def test_sets_of_rules(self):
        self.assertEqual(mls_check.RULES_STRICT & ~mls_check.rule(47), 0x1F7F)
        self.assertEqual(mls_check.rule(40) | mls_check.rule(52), 0x1001)
        for number in (39, 53):
            with self.assertRaises(ValueError):
                mls_check.rule(number)
        for rules in (0x2000, 0x10000, -1):
            with self.assertRaises(ValueError):
                mls_check.Follower.start_by(rules, INFO, receipts=RECEIPTS)

    def refused(self, number, inner, place, call, *words, **more):
        with self.assertRaises(mls_check.Refused) as refused:
            call(*words, **more)
        found = refused.exception
        self.assertEqual((found.number, found.inner, found.place), (number, inner, place))

    def test_strict_rules(self):
        plain = mls_check.Follower(INFO, receipts=RECEIPTS)
        group = mls_check.Follower.start_by(mls_check.RULES_STRICT, INFO, receipts=RECEIPTS)
        self.assertEqual((plain.rules, group.rules), (mls_check.RULES_PLAIN, mls_check.RULES_STRICT))
        for message in MESSAGES:
            self.assertEqual(judged(group, with_short_tag(message), every), "refused 40 TagLength")
            self.assertEqual(judged(group, message, every), judged(plain, message, every))
        self.assertEqual(group.rules, mls_check.RULES_STRICT)
        self.assertEqual(group.state, changed(plain.state, mls_check.RULES_STRICT))
        self.assertEqual(mls_check.resume_query(group.state), mls_check.resume_query(plain.state))
        with mls_check.Follower.resume(group.state, RECEIPTS) as other:
            self.assertEqual((other.rules, other.state), (mls_check.RULES_STRICT, group.state))
        plain.make_strict()
        self.assertEqual(plain.rules, mls_check.RULES_STRICT)

    def test_added_rules(self):
        no_tags, repeats = mls_check.RULES_STRICT & ~mls_check.rule(40), mls_check.rule(41)
        group = mls_check.Follower(INFO, receipts=RECEIPTS)
        for message in (*MESSAGES[:4], with_repeated_extensions(MESSAGES[3])):
            self.assertEqual(judged(group, message, every)[:8], "accepted")
        # The second pending proposal has a type twice.
        self.refused(11, 0, 1, group.make_strict, no_tags)
        self.assertEqual(group.rules, mls_check.RULES_PLAIN)
        group.make_strict(no_tags & ~repeats)
        self.refused(11, 0, 1, group.make_strict, repeats)
        # Its state has the rules, and three leaf nodes. With the rule 41 no follower resumes from it.
        good = every(mls_check.resume_query(group.state))
        self.assertEqual(len(good), 5)
        with mls_check.Follower.resume(group.state, good) as other:
            self.assertEqual(other.rules, no_tags & ~repeats)
        self.refused(11, 0, 1, mls_check.resume_query, changed(group.state, no_tags))
        self.refused(11, 0, 1, mls_check.Follower.resume, changed(group.state, repeats), good)
        self.assertEqual(judged(group, MESSAGES[4], every)[:8], "accepted")
        group.make_strict(repeats)
        self.assertEqual(group.rules, no_tags)

    def test_times(self):
        plain = mls_check.Follower(INFO, receipts=RECEIPTS)
        group = mls_check.Follower(INFO, receipts=RECEIPTS)
        adds = 0
        for message in MESSAGES:
            first, last = lifetime(message)
            if first > 0:
                adds += 1
                for now in (0, first - 1, first - 0.5, last + 1, 2**64 - 1):
                    self.assertEqual(group.judge(message, now), (53, "LifetimeOutside", 0, 0))
            with mls_check.Follower.resume(group.state, RECEIPTS) as other:
                self.assertEqual(other.state, plain.state)
                answer = plain.judge(message)
                self.assertIsInstance(answer, mls_check.Accepted)
                self.assertEqual(other.judge(message, first + 0.5), answer)
            self.assertEqual(group.judge(message, last), answer)
        self.assertEqual((adds, group.state), (4, plain.state))
        for now in (-1, 2**64):
            with self.assertRaises(ValueError):
                group.judge(message, now)
        # It is the last rule.
        group = mls_check.Follower.start_by(mls_check.RULES_STRICT, INFO, receipts=listed(mls_check.start_query(INFO)))
        short = with_short_tag(MESSAGES[0])
        self.assertEqual(group.judge(short, 0).number, 7)
        group.learn(every(group.query(short)) + RECEIPTS)
        self.assertEqual([group.judge(data, 0).number for data in (short, MESSAGES[0])], [40, 53])

    def test_groups_that_are_not_strict(self):
        info = repeated(INFO, 4 + len(file("real/epoch-1.context")) - 1)
        good = every(mls_check.start_query(info))
        group = mls_check.Follower(info, receipts=good)
        for rules, inner, place in ((mls_check.RULES_STRICT, 41, NO_NODE), (mls_check.rule(51), 51, 0)):
            self.refused(9, inner, place, mls_check.Follower.start_by, rules, info, receipts=good)
            self.refused(10, inner, place, group.make_strict, rules)
            self.refused(10, inner, place, mls_check.resume_query, changed(group.state, rules))
        group.make_strict(mls_check.RULES_STRICT & ~mls_check.rule(41) & ~mls_check.rule(51))

    def test_strict_tree(self):
        context, tree = file("real/epoch-8.context"), file("real/epoch-8.tree")
        hash_of = mls_check.validate_tree_strict
        self.assertEqual(hash_of(context, tree, RECEIPTS), mls_check.validate_tree(context, tree, RECEIPTS))
        context = repeated(context, len(context) - 1)
        self.refused(9, 41, NO_NODE, hash_of, context, tree, RECEIPTS)
        self.refused(9, 51, 0, hash_of, context, tree, RECEIPTS, mls_check.rule(51))
        self.assertEqual(hash_of(context, tree, RECEIPTS, mls_check.rule(44)).hex()[:8], "72763a49")


if __name__ == "__main__":
    unittest.main()
