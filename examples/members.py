"""Reads who the members of a group are, from a state file and from accepted messages, and says in words what they are and did.

It reads the layouts in docs/FORMATS.md, and checks nothing: give it messages that mlscheck accepted. Nothing here is proved.
"""

import collections
import heapq

import log
from log import Fault

# How many characters of a name are shown.
NAME_LENGTH = 200

# ---- reading

BASIC = 1
MEMBER, EXTERNAL, NEW_PROPOSER, NEW_COMMITTER = 1, 2, 3, 4
ADD, UPDATE, REMOVE, PSK, REINIT, EXTERNAL_INIT, CONTEXT_EXTENSIONS = 1, 2, 3, 4, 5, 6, 7
OTHER_PROPOSALS = {PSK: "PreSharedKey", REINIT: "ReInit", EXTERNAL_INIT: "ExternalInit",
                   CONTEXT_EXTENSIONS: "GroupContextExtensions"}
FORMATS = {2: "PrivateMessage", 3: "Welcome", 4: "GroupInfo", 5: "KeyPackage"}
STATE_VERSION = 2

Leaf = collections.namedtuple("Leaf", "credential signature_key encryption_key lifetime")
Proposal = collections.namedtuple("Proposal", "kind value")
Commit = collections.namedtuple("Commit", "entries path")
Content = collections.namedtuple("Content", "sender index epoch body")
State = collections.namedtuple("State", "suite group_id tree leaves")

# What reading raises if the bytes are not what they should be.
UNREADABLE = (log.Broken, IndexError, ValueError)


class Reader:
    """Reads values from bytes, one after the other."""

    def __init__(self, data):
        self.data, self.at = data, 0

    def more(self):
        return self.at < len(self.data)

    def number(self, size):
        self.at += size
        if self.at > len(self.data):
            raise IndexError("the bytes end inside a number")
        return int.from_bytes(self.data[self.at - size:self.at], "big")

    def vector(self):
        begin, self.at = log.vector(self.data, self.at)
        return self.data[begin:self.at]

    def skip(self, vectors):
        for _ in range(vectors):
            _, self.at = log.vector(self.data, self.at)

    def each(self, read):
        """The items of a list in a vector."""
        inner = Reader(self.vector())
        while inner.more():
            yield read(inner)


def read_credential(reader):
    """The type of a credential, and its identity or its certificates."""
    kind = reader.number(2)
    if kind not in (BASIC, 2):
        raise ValueError("another type of credential")
    return kind, reader.vector() if kind == BASIC else tuple(reader.each(Reader.vector))


def read_leaf(reader):
    encryption_key, signature_key, credential = reader.vector(), reader.vector(), read_credential(reader)
    reader.skip(5)
    source = reader.number(1)
    lifetime = (reader.number(8), reader.number(8)) if source == 1 else None
    reader.skip(3 if source == 3 else 2)
    return Leaf(credential, signature_key, encryption_key, lifetime)


def read_key_package(reader):
    reader.number(4)
    reader.skip(1)
    leaf = read_leaf(reader)
    reader.skip(2)
    return leaf


def read_psk(reader):
    if reader.number(1) == 1:
        reader.skip(1)
    else:
        reader.number(1)
        reader.skip(1)
        reader.number(8)
    reader.skip(1)


def read_reinit(reader):
    reader.skip(1)
    reader.number(4)
    reader.skip(1)


def read_vector(reader):
    reader.skip(1)


PROPOSALS = {ADD: read_key_package, UPDATE: read_leaf, REMOVE: lambda reader: reader.number(4), PSK: read_psk,
             REINIT: read_reinit, EXTERNAL_INIT: read_vector, CONTEXT_EXTENSIONS: read_vector}


def read_proposal(reader):
    kind = reader.number(2)
    if kind not in PROPOSALS:
        raise ValueError("another type of proposal")
    return Proposal(kind, PROPOSALS[kind](reader))


def read_entry(reader):
    """A proposal of a commit, or the reference of one."""
    return read_proposal(reader) if reader.number(1) == 1 else reader.vector()


def read_commit(reader):
    entries = list(reader.each(read_entry))
    return Commit(entries, read_leaf(reader) if reader.number(1) else None)


def read_content(message):
    """What a PublicMessage says: a Proposal, a Commit, or None for an application message."""
    reader = Reader(message)
    if reader.number(4) != 0x00010001:
        raise ValueError("no PublicMessage")
    reader.skip(1)
    epoch, sender = reader.number(8), reader.number(1)
    index = reader.number(4) if sender in (MEMBER, EXTERNAL) else None
    reader.skip(1)
    kind = reader.number(1)
    body = read_proposal(reader) if kind == 2 else read_commit(reader) if kind == 3 else None
    return Content(sender, index, epoch, body)


def read_node(reader):
    """A Leaf, or None for a parent or a blank node."""
    if not reader.number(1):
        return None
    if reader.number(1) == 1:
        return read_leaf(reader)
    return reader.skip(3)


def read_state(data):
    """The parts of a state file that the report has: the tree is its encoding, the leaves are by leaf index."""
    reader = Reader(data)
    version = reader.number(2)
    if version != STATE_VERSION:
        raise Fault(f"mlscheck prints states of version {version}, and version {STATE_VERSION} is read here: take both from "
                    "one release")
    reader.skip(1)
    reader.number(6)
    suite, group_id = reader.number(2), reader.vector()
    reader.number(8)
    reader.skip(4)
    start = reader.at
    nodes = list(reader.each(read_node))
    leaves = {place // 2: node for place, node in enumerate(nodes) if node}
    return State(suite, group_id, data[start:reader.at], leaves)


# ---- from epoch to epoch

# What a commit does. `committer` is the leaf index and the leaf node, `came` and `left` are lists of these, `updated` has the
# leaf node before and after, and `others` are the types of other proposals.
Changes = collections.namedtuple("Changes", "committer is_external came left updated others")


class Group:
    """The members by leaf index, and the pending proposals by reference. It takes accepted messages alone."""

    def __init__(self, leaves):
        self.members = dict(leaves)
        self.width = max(self.members) + 1
        self.blanks = [index for index in range(self.width) if index not in self.members]
        self.pending = {}

    def place(self, leaf):
        """Puts a leaf at the leftmost blank place (12.1.1), and returns its index and itself."""
        if self.blanks:
            index = heapq.heappop(self.blanks)
        else:
            index, self.width = self.width, self.width + 1
        self.members[index] = leaf
        return index, leaf

    def remove(self, index):
        heapq.heappush(self.blanks, index)
        return index, self.members.pop(index)

    def replace(self, index, leaf):
        before, self.members[index] = self.members[index], leaf
        return index, before, leaf

    def commit(self, content):
        """Applies a commit in the order of the standard (12.3), and returns the Changes."""
        own = [self.pending[entry] if isinstance(entry, bytes) else (content.index, entry) for entry in content.body.entries]
        self.pending = {}
        updated = [self.replace(index, proposal.value) for index, proposal in own if proposal.kind == UPDATE]
        left = [self.remove(proposal.value) for _, proposal in own if proposal.kind == REMOVE]
        came = [self.place(proposal.value) for _, proposal in own if proposal.kind == ADD]
        others = [OTHER_PROPOSALS[proposal.kind] for _, proposal in own if proposal.kind in OTHER_PROPOSALS]
        is_external = content.sender == NEW_COMMITTER
        if is_external:
            committer = self.place(content.body.path)
            came.append(committer)
        else:
            committer = content.index, self.members[content.index]
            if content.body.path:
                updated.append(self.replace(content.index, content.body.path))
        return Changes(committer, is_external, came, left, updated, others)


# ---- words

def shown(data):
    """Bytes as text in quotes if they are printable UTF-8 without such quotes, else in hexadecimal."""
    try:
        text = data.decode()
    except UnicodeDecodeError:
        text = None
    is_text = text is not None and text.isprintable() and not set(text) & set("“”")
    text = text if is_text else data.hex()
    rest = f"… ({len(data)} bytes)" if len(text) > NAME_LENGTH else ""
    return f"“{text[:NAME_LENGTH]}”{rest}" if is_text else f"hexadecimal {text[:NAME_LENGTH]}{rest}"


def name_of(leaf):
    """The credential of a leaf node in words."""
    kind, value = leaf.credential
    if kind == BASIC:
        return shown(value)
    return f"x509, {len(value)} certificate{'s' * (len(value) != 1)}"


def leaf_words(index, leaf):
    return f"leaf {index}, {name_of(leaf)}" if leaf else f"leaf {index}, which is blank"


def sender_words(content, group):
    if content.sender == MEMBER:
        return leaf_words(content.index, group.members.get(content.index))
    if content.sender == EXTERNAL:
        return f"the external sender {content.index}"
    return "a client that is no member"


def proposal_words(proposal, group):
    if proposal.kind == ADD:
        return f"to add {name_of(proposal.value)}"
    if proposal.kind == UPDATE:
        return "to update its own leaf"
    if proposal.kind == REMOVE:
        return f"to remove {leaf_words(proposal.value, group.members.get(proposal.value))}"
    return f"of type {OTHER_PROPOSALS[proposal.kind]}"


def content_words(content, group):
    if content.body is None:
        what = "an application message"
    elif isinstance(content.body, Commit):
        what = "a commit"
    else:
        what = f"a proposal {proposal_words(content.body, group)}"
    return f"{what}, by {sender_words(content, group)}"


def described(message, group):
    """What a message is that was refused, as far as it can be read here."""
    if message[:2] == b"\x00\x01" and int.from_bytes(message[2:4], "big") in FORMATS:
        return f"a {FORMATS[int.from_bytes(message[2:4], 'big')]}, {len(message)} bytes"
    try:
        content = read_content(message)
    except UNREADABLE:
        return f"{len(message)} bytes that are no message that can be read"
    return f"{content_words(content, group)}, for epoch {content.epoch}"
