"""Messages of all senders for random_groups.py: as the rules require them, for the state of a group.

A draft is a message that is not yet signed. Signatures are digests of their key and content, so whether one is good
can be computed, and receipts of all that are made are kept.
"""
import collections
import hashlib

import tree as trees
from layouts import (ADD, APPLICATION_USE, BRANCH_USE, BY_REFERENCE, BY_VALUE, BYTES, Capabilities, Ciphertext,
                     COMMIT, Commit, Extension, EXTENSIONS_CHANGE, EXTERNAL, EXTERNAL_INIT, EXTERNAL_PSK,
                     EXTERNAL_SENDERS, ExternalPsk, ExternalSender, FramedContent, GROUP_INFO, GroupInfo, IS_COMMIT,
                     IS_PROPOSAL, KEY_PACKAGE, KeyPackage, LeafNode, Lifetime, MEMBER, Message, NEW_COMMITTER,
                     NEW_PROPOSER, NO_BODY, PathNode, PSK, PUBLIC, PublicMessage, REINIT, ReInit, REINIT_USE, REMOVE,
                     REPLACE, Requirements, RESUMPTION_PSK, ResumptionPsk, U16, UPDATE, UpdatePath)
from follower import Item, applied, external_senders, framed_content, info_content, leaf_content, package_content

# A message that is not signed: who sends it, what, and the key that signs. Of a commit also the tree after its list, the
# leaf of its path, and the leaves that it adds.
Draft = collections.namedtuple("Draft", "sender content key tree index added")

LISTED = (0xF001, 0xF002)

# The lifetime of most KeyPackages.
ALWAYS = Lifetime(0, 2**64 - 1)


def pretended(key, content):
    return hashlib.sha256(b"signature" + BYTES.write(key) + content).digest()[:20]


class Maker:
    """Makes the messages of one group, by chance."""

    def __init__(self, chosen, suite, trusting):
        self.chosen = chosen
        self.suite = suite
        self.trusting = trusting
        self.group_id = chosen.randbytes(chosen.choice([0, 1, 16, 70]))
        self.receipts = set()
        self.sent = {}
        self.made = 0
        # Some KeyPackages begin or end near this time, in seconds since 1970.
        self.time = chosen.choice([5, 1_800_000_000, 2**63, 2**64 - 6])
        self.credentials = chosen.choice([(1,), (1, 2)])
        self.senders = [(self.name("external"), self.credential()) for _ in range(3)]

    def name(self, what):
        """Bytes that differ from all that were made before."""
        self.made += 1
        return b"%s %d" % (what.encode(), self.made) + bytes(self.chosen.choice([0, 0, 24, 60]))

    # ---- what a follower without strict rules does not look at

    def info_extensions(self):
        return [Extension(4, self.name("external_pub"))]

    def tag(self):
        return self.chosen.randbytes(8)

    def kem_output(self):
        return self.chosen.randbytes(4)

    def ciphertext(self):
        return Ciphertext(b"kem", self.chosen.randbytes(2))

    # ---- signatures

    def sign(self, key, content):
        signature = pretended(key, content)
        parts = b"".join(BYTES.write(part) for part in (key, content, signature))
        self.receipts.add(hashlib.sha256(U16.write(self.suite) + parts).hexdigest())
        return signature

    def good(self, key, content, signature):
        return self.trusting or signature == pretended(key, content)

    def signed_leaf(self, leaf, index=0):
        leaf = leaf._replace(signature=b"")
        return leaf._replace(signature=self.sign(leaf.signature_key, leaf_content(leaf, self.group_id, index)))

    def signed_package(self, package):
        package = package._replace(signature=b"")
        return package._replace(signature=self.sign(package.leaf_node.signature_key, package_content(package)))

    def signed_info(self, context, tree, own_tree):
        """A GroupInfo in its message, perhaps without the tree."""
        extensions = self.info_extensions()
        if own_tree:
            extensions.append(Extension(2, trees.encode(tree)))
        signer = self.chosen.choice(trees.members(tree))
        info = GroupInfo(context, tuple(extensions), self.tag(), signer, b"")
        info = info._replace(signature=self.sign(trees.leaf(tree, signer).signature_key, info_content(info)))
        return info, Message.write(Message(1, (GROUP_INFO, info)))

    def message(self, state, draft, framed=None, context=None):
        """The message of a draft: a PublicMessage, signed."""
        framed = framed or FramedContent(state.context.group_id, state.context.epoch, draft.sender,
                                         self.chosen.randbytes(self.chosen.choice([0, 3])), draft.content)
        signature = self.sign(draft.key, framed_content(framed, context or state.context))
        return self.enclosed(framed, signature)

    def enclosed(self, framed, signature):
        confirmation_tag = self.tag() if framed.content[0] == IS_COMMIT else None
        membership_tag = self.tag() if framed.sender[0] == MEMBER else None
        public = PublicMessage(framed, signature, confirmation_tag, membership_tag)
        return Message.write(Message(1, (PUBLIC, public)))

    # ---- leaves

    def credential(self):
        kind = self.chosen.choice(self.credentials)
        return kind, self.name("identity") if kind == 1 else (self.name("certificate"), b"issuer")

    def lifetime(self):
        """One that includes the time, or not by some seconds."""
        if self.chosen.random() < 0.7:
            return ALWAYS
        first, last = (self.time + self.chosen.randrange(-4, 5) for _ in range(2))
        return self.chosen.choice([Lifetime(first, 2**64 - 1), Lifetime(0, last), Lifetime(min(first, last), max(first, last))])

    def leaf(self, source=None, index=0, **changes):
        """A leaf, of a KeyPackage unless its source is given."""
        source = source or (KEY_PACKAGE, self.lifetime())
        able = Capabilities((1,), (self.suite,), LISTED, (), self.credentials)
        extensions = (Extension(self.chosen.choice(LISTED), b"data"),) if self.chosen.random() < 0.2 else ()
        leaf = LeafNode(self.name("encryption"), self.name("signature"), self.credential(), able, source, extensions, b"")
        return self.signed_leaf(leaf._replace(**changes), index)

    def renewed(self, state, index, source):
        """A member's leaf with another encryption key, and perhaps another signature key."""
        leaf = trees.leaf(state.tree, index)._replace(encryption_key=self.name("encryption"), source=source)
        if self.chosen.random() < 0.2:
            leaf = leaf._replace(signature_key=self.name("signature"))
        return self.signed_leaf(leaf, index)

    def member(self, state, other_than=()):
        rest = [index for index in trees.members(state.tree) if index not in other_than]
        return self.chosen.choice(rest) if rest else None

    # ---- proposals (12.1)

    def add(self, **changes):
        package = KeyPackage(1, self.suite, self.name("init"), self.leaf(**changes), (), b"")
        return ADD, self.signed_package(package)

    def update(self, state, index):
        return REPLACE, self.renewed(state, index, (UPDATE, NO_BODY))

    def remove(self, state, other_than=()):
        index = self.member(state, other_than)
        return None if index is None else (REMOVE, index)

    def nonce(self):
        return self.name("nonce").ljust(trees.digest_length(self.suite), b"\x00")[:trees.digest_length(self.suite)]

    def psk(self, state, by_member):
        if self.chosen.random() < 0.5:
            return PSK, (EXTERNAL_PSK, ExternalPsk(self.chosen.choice([b"", b"psk"]), self.nonce()))
        usages = [APPLICATION_USE]
        if state.context.epoch == 0 and by_member:
            usages += [REINIT_USE, BRANCH_USE]
        return PSK, (RESUMPTION_PSK, ResumptionPsk(self.chosen.choice(usages), self.group_id, 7, self.nonce()))

    def reinit(self):
        return REINIT, ReInit(self.name("group"), self.chosen.choice([1, 1, 2]), self.chosen.choice([1, 9]), ())

    def context_extensions(self, state):
        """What may be required of the members, external senders, and others."""
        able = [trees.leaf(state.tree, index).capabilities for index in trees.members(state.tree)]
        common = [kind for kind in LISTED if all(kind in each.extensions for each in able)]
        types = [kind for kind in self.credentials if all(kind in each.credentials for each in able)]
        extensions = []
        if self.chosen.random() < 0.5:
            required = Requirements(tuple(common[:1]) + (3,), (1, 7), tuple(types))
            extensions.append(Extension(3, Requirements.write(required)))
        if self.chosen.random() < 0.8:
            senders = [ExternalSender(*sender) for sender in self.senders[:self.chosen.choice([1, 2, 3])]]
            listed = EXTERNAL_SENDERS.write(senders)
            extensions.append(Extension(5, self.chosen.choice([listed, listed, listed, listed + b"\x00", listed[:-1]])))
        self.chosen.shuffle(extensions)
        if self.chosen.random() < 0.3:
            kinds = [extension.kind for extension in extensions]
            extensions.append(Extension(self.chosen.choice([*kinds, 0xF00D]), b"not read"))
        return EXTENSIONS_CHANGE, tuple(extensions)

    def proposal(self, state, index):
        """A member's proposal of any type that it may send."""
        kind = self.chosen.choice([ADD, ADD, REPLACE, REPLACE, REMOVE, PSK, EXTENSIONS_CHANGE])
        if self.chosen.random() < 0.03:
            kind = REINIT
        return self.of_kind(kind, state, index)

    def of_kind(self, kind, state, index=None):
        made = {
            ADD: self.add,
            REPLACE: lambda: self.update(state, index),
            REMOVE: lambda: self.remove(state),
            PSK: lambda: self.psk(state, index is not None),
            REINIT: self.reinit,
            EXTENSIONS_CHANGE: lambda: self.context_extensions(state),
        }
        return made[kind]()

    def member_proposal(self, state):
        index = self.member(state)
        content = IS_PROPOSAL, self.proposal(state, index)
        return Draft((MEMBER, index), content, trees.leaf(state.tree, index).signature_key, None, None, None)

    def external_proposal(self, state):
        listed = external_senders(state.context.extensions)
        if not listed:
            return None
        at = self.chosen.randrange(len(listed))
        kinds = [ADD, ADD, REMOVE, REMOVE, PSK, EXTENSIONS_CHANGE]
        kind = REINIT if self.chosen.random() < 0.05 else self.chosen.choice(kinds)
        content = IS_PROPOSAL, self.of_kind(kind, state)
        return Draft((EXTERNAL, at), content, listed[at].signature_key, None, None, None)

    def newcomer_proposal(self, _):
        proposal = self.add()
        return Draft((NEW_PROPOSER, NO_BODY), (IS_PROPOSAL, proposal), proposal[1].leaf_node.signature_key, None, None, None)

    # ---- commits (12.4)

    def pending_items(self, state, index):
        """Pending proposals that a member may commit together."""
        targets, psks, kinds, items = set(), set(), set(), []
        for pending in self.chosen.sample(state.pending, len(state.pending)):
            kind, body = pending.proposal
            target = pending.sender[1] if kind == REPLACE else body if kind == REMOVE else None
            twice = target in targets or kind == PSK and body in psks
            if self.chosen.random() < 0.2 or target == index or twice or {kind} & kinds & {EXTENSIONS_CHANGE}:
                continue
            if kind == REINIT:
                if self.chosen.random() < 0.3:
                    return [pending]
                continue
            targets |= {target} - {None}
            psks |= {body} if kind == PSK else set()
            kinds.add(kind)
            items.append(pending)
        return items

    def member_commit(self, state):
        index = self.member(state)
        taken = self.pending_items(state, index)
        entries = [(BY_REFERENCE, pending.reference) for pending in taken]
        items = [Item(pending.sender, pending.proposal, False) for pending in taken]
        if not any(item.proposal[0] == REINIT for item in items):
            for proposal in self.by_value(state, index, items):
                entries.append((BY_VALUE, proposal))
                items.append(Item((MEMBER, index), proposal, True))
            order = self.chosen.sample(range(len(items)), len(items))
            entries, items = [entries[at] for at in order], [items[at] for at in order]
        kinds = {item.proposal[0] for item in items}
        with_path = not kinds or kinds & {REPLACE, REMOVE, EXTENSIONS_CHANGE} or self.chosen.random() < 0.5
        return self.committed(state, index, entries, items, with_path)

    def by_value(self, state, index, items):
        """Proposals that a member may include by value, next to others."""
        gone = {item.proposal[1] for item in items if item.proposal[0] == REMOVE} | {index}
        gone |= {item.sender[1] for item in items if item.proposal[0] == REPLACE}
        proposals = [self.add() for _ in range(self.chosen.choice([0, 0, 1, 1, 2, 4]))]
        for _ in range(self.chosen.choice([0, 0, 1, 3]) if len(trees.members(state.tree)) > 3 else 0):
            proposal = self.remove(state, gone)
            if proposal:
                proposals.append(proposal)
                gone.add(proposal[1])
        if self.chosen.random() < 0.2:
            proposals.append(self.psk(state, True))
        if self.chosen.random() < 0.1 and not any(item.proposal[0] == EXTENSIONS_CHANGE for item in items):
            proposals.append(self.context_extensions(state))
        if not proposals and not items and self.chosen.random() < 0.02:
            proposals.append(self.reinit())
        return proposals

    def committed(self, state, index, entries, items, with_path):
        """A member's commit of these proposals."""
        tree, added = applied(state.tree, items)
        path = None
        if with_path:
            path = self.path(tree, index, added, self.renewed(state, index, (COMMIT, b"")))
        content = IS_COMMIT, Commit(tuple(entries), path)
        return Draft((MEMBER, index), content, trees.leaf(state.tree, index).signature_key, tree, index, added)

    def path(self, tree, index, added, leaf):
        """An UpdatePath from a leaf (7.5, 7.6), with a ciphertext for each node of a copath child's resolution."""
        nodes = []
        for _, other in trees.filtered(tree, index):
            count = len(set(trees.resolution(tree, other)) - {2 * new for new in added})
            ciphertexts = tuple(self.ciphertext() for _ in range(count))
            nodes.append(PathNode(self.name("path"), ciphertexts))
        return self.leaf_on(tree, index, UpdatePath(leaf, tuple(nodes)))

    def leaf_on(self, tree, index, path):
        """The path with the parent hash that its leaf must have, and its signature."""
        _, expected = trees.merged(self.suite, tree, index, [node.encryption_key for node in path.nodes])
        leaf = path.leaf_node._replace(source=(COMMIT, expected))
        return path._replace(leaf_node=self.signed_leaf(leaf, index))

    def external_commit(self, state):
        """A client joins, or rejoins: then it has the credential or the signature key of the leaf that it removes."""
        proposals = [(EXTERNAL_INIT, self.kem_output())]
        changes = {}
        if self.chosen.random() < 0.45:
            proposals.append((REMOVE, self.member(state)))
            old = trees.leaf(state.tree, proposals[-1][1])
            changes = self.chosen.choice([
                {"credential": old.credential, "signature_key": old.signature_key},
                {"credential": old.credential},
                {"signature_key": old.signature_key},
            ])
        proposals += [self.psk(state, False) for _ in range(self.chosen.choice([0, 0, 0, 1, 2]))]
        self.chosen.shuffle(proposals)
        return self.joined(state, proposals, changes)

    def joined(self, state, proposals, changes):
        sender = NEW_COMMITTER, NO_BODY
        tree, _ = applied(state.tree, [Item(sender, proposal, True) for proposal in proposals])
        tree, index = trees.seat(tree)
        path = self.path(tree, index, [], self.leaf((COMMIT, b""), index, **changes))
        content = IS_COMMIT, Commit(tuple((BY_VALUE, proposal) for proposal in proposals), path)
        return Draft(sender, content, path.leaf_node.signature_key, tree, index, [])
