"""The layouts of RFC 9420 that a follower reads, for follower.py, and that of a state file (docs/FORMATS.md): each reads and
writes its values.

A structure is a named tuple. A choice is a pair of its tag and the value after the tag. A vector `<V>` is bytes, a
list in a vector a tuple. What cannot be read raises Unreadable, with the words for the first fault.
"""
import collections

LIMIT = 2**30


class Unreadable(Exception):
    """The kind of the fault, the tag if it is one, and the number of bytes before what is wrong."""

    def __init__(self, *words):
        super().__init__(*words)
        self.words = " ".join(str(word) for word in words)


class Reader:
    """Reads from a part of the bytes."""

    def __init__(self, data, at=0, end=None):
        self.data = data
        self.at = at
        self.end = len(data) if end is None else end

    def take(self, count):
        if self.end - self.at < count:
            raise Unreadable("Truncated", self.at)
        self.at += count
        return self.data[self.at - count:self.at]

    def part(self):
        """A reader of the body of a vector, whose length must be in its shortest form (2.1.2)."""
        at, first = self.at, self.take(1)[0]
        width = 1 << (first >> 6)
        if width == 8:
            raise Unreadable("BadPrefix", at)
        if self.end - at < width:
            raise Unreadable("Truncated", at)
        size = int.from_bytes(bytes([first & 63]) + self.take(width - 1), "big")
        if size < {1: 0, 2: 64, 4: 16_384}[width]:
            raise Unreadable("NotShortest", at)
        if self.end - self.at < size:
            raise Unreadable("Truncated", at)
        start = self.at
        self.take(size)
        return Reader(self.data, start, self.at)

    def done(self):
        if self.at != self.end:
            raise Unreadable("Trailing", self.at)


class Number:
    """An unsigned integer of the given number of bytes, perhaps one of a few."""

    def __init__(self, size, among=None):
        self.size = size
        self.among = among

    def read(self, reader):
        at, value = reader.at, int.from_bytes(reader.take(self.size), "big")
        if self.among and value not in self.among:
            raise Unreadable("BadTag", value, at)
        return value

    def write(self, value):
        return value.to_bytes(self.size, "big")


class Vector:
    """Bytes with their length."""

    def read(self, reader):
        part = reader.part()
        return part.take(part.end - part.at)

    def write(self, value):
        size = len(value)
        assert size < LIMIT
        if size < 64:
            return bytes([size]) + value
        if size < 16_384:
            return (0x4000 | size).to_bytes(2, "big") + value
        return (0x8000_0000 | size).to_bytes(4, "big") + value


class Many:
    """Items one after the other, in a vector."""

    def __init__(self, item):
        self.item = item

    def read(self, reader):
        part, items = reader.part(), []
        while part.at < part.end:
            items.append(self.item.read(part))
        return tuple(items)

    def write(self, value):
        return BYTES.write(b"".join(self.item.write(item) for item in value))


class Maybe:
    """One item or none."""

    def __init__(self, item):
        self.item = item

    def read(self, reader):
        at, present = reader.at, U8.read(reader)
        if present > 1:
            raise Unreadable("BadOptional", at)
        return self.item.read(reader) if present else None

    def write(self, value):
        return b"\x00" if value is None else b"\x01" + self.item.write(value)


class Record:
    """A structure. Called with its fields, it makes a value."""

    def __init__(self, name, **fields):
        self.fields = fields
        self.make = collections.namedtuple(name, fields)

    def __call__(self, *values, **named):
        return self.make(*values, **named)

    def read(self, reader):
        return self.make(*[field.read(reader) for field in self.fields.values()])

    def write(self, value):
        return b"".join(field.write(part) for field, part in zip(self.fields.values(), value))


class Choice:
    """A tag, and what it says that comes next."""

    def __init__(self, size, **kinds):
        self.size = size
        self.kinds = {int(name[1:]): kind for name, kind in kinds.items()}

    def read(self, reader):
        tag = Number(self.size, self.kinds).read(reader)
        return tag, self.kinds[tag].read(reader)

    def write(self, value):
        return value[0].to_bytes(self.size, "big") + self.kinds[value[0]].write(value[1])


U8, U16, U32, U64 = Number(1), Number(2), Number(4), Number(8)
BYTES = Vector()
NOTHING = Record("Nothing")
NO_BODY = NOTHING()

CREDENTIAL = Choice(2, _1=BYTES, _2=Many(BYTES))
Capabilities = Record("Capabilities", versions=Many(U16), suites=Many(U16), extensions=Many(U16), proposals=Many(U16),
                      credentials=Many(U16))
Extension = Record("Extension", kind=U16, data=BYTES)
EXTENSIONS = Many(Extension)
Lifetime = Record("Lifetime", not_before=U64, not_after=U64)
KEY_PACKAGE, UPDATE, COMMIT = 1, 2, 3
SOURCE = Choice(1, _1=Lifetime, _2=NOTHING, _3=BYTES)
LeafNode = Record("LeafNode", encryption_key=BYTES, signature_key=BYTES, credential=CREDENTIAL, capabilities=Capabilities,
                  source=SOURCE, extensions=EXTENSIONS, signature=BYTES)
ParentNode = Record("ParentNode", encryption_key=BYTES, parent_hash=BYTES, unmerged=Many(U32))
NODE = Choice(1, _1=LeafNode, _2=ParentNode)
TREE = Many(Maybe(NODE))
Requirements = Record("Requirements", extensions=Many(U16), proposals=Many(U16), credentials=Many(U16))
ExternalSender = Record("ExternalSender", signature_key=BYTES, credential=CREDENTIAL)
EXTERNAL_SENDERS = Many(ExternalSender)
GroupContext = Record("GroupContext", version=U16, suite=U16, group_id=BYTES, epoch=U64, tree_hash=BYTES, confirmed=BYTES,
                      extensions=EXTENSIONS)
GroupInfo = Record("GroupInfo", context=GroupContext, extensions=EXTENSIONS, confirmation_tag=BYTES, signer=U32,
                   signature=BYTES)
KeyPackage = Record("KeyPackage", version=U16, suite=U16, init_key=BYTES, leaf_node=LeafNode, extensions=EXTENSIONS,
                    signature=BYTES)

EXTERNAL_PSK, RESUMPTION_PSK = 1, 2
APPLICATION_USE, REINIT_USE, BRANCH_USE = 1, 2, 3
ExternalPsk = Record("ExternalPsk", psk_id=BYTES, nonce=BYTES)
ResumptionPsk = Record("ResumptionPsk", usage=Number(1, (1, 2, 3)), group_id=BYTES, epoch=U64, nonce=BYTES)
PSK_ID = Choice(1, _1=ExternalPsk, _2=ResumptionPsk)
ReInit = Record("ReInit", group_id=BYTES, version=U16, suite=U16, extensions=EXTENSIONS)

ADD, REPLACE, REMOVE, PSK, REINIT, EXTERNAL_INIT, EXTENSIONS_CHANGE = 1, 2, 3, 4, 5, 6, 7
PROPOSAL = Choice(2, _1=KeyPackage, _2=LeafNode, _3=U32, _4=PSK_ID, _5=ReInit, _6=BYTES, _7=EXTENSIONS)
BY_VALUE, BY_REFERENCE = 1, 2
PROPOSAL_OR_REF = Choice(1, _1=PROPOSAL, _2=BYTES)
Ciphertext = Record("Ciphertext", kem_output=BYTES, ciphertext=BYTES)
PathNode = Record("PathNode", encryption_key=BYTES, ciphertexts=Many(Ciphertext))
UpdatePath = Record("UpdatePath", leaf_node=LeafNode, nodes=Many(PathNode))
Commit = Record("Commit", proposals=Many(PROPOSAL_OR_REF), path=Maybe(UpdatePath))

MEMBER, EXTERNAL, NEW_PROPOSER, NEW_COMMITTER = 1, 2, 3, 4
SENDER = Choice(1, _1=U32, _2=U32, _3=NOTHING, _4=NOTHING)
IS_APPLICATION, IS_PROPOSAL, IS_COMMIT = 1, 2, 3
CONTENT = Choice(1, _1=BYTES, _2=PROPOSAL, _3=Commit)
FramedContent = Record("FramedContent", group_id=BYTES, epoch=U64, sender=SENDER, authenticated_data=BYTES, content=CONTENT)


class PublicMessages:
    """A PublicMessage: its tags depend on its content and its sender (6.1, 6.2). A tag that is not there is None."""

    make = collections.namedtuple("PublicMessage", "framed signature confirmation_tag membership_tag")

    def __call__(self, *values):
        return self.make(*values)

    def read(self, reader):
        framed, signature = FramedContent.read(reader), BYTES.read(reader)
        confirmation_tag = BYTES.read(reader) if framed.content[0] == IS_COMMIT else None
        membership_tag = BYTES.read(reader) if framed.sender[0] == MEMBER else None
        return self.make(framed, signature, confirmation_tag, membership_tag)

    def write(self, value):
        tags = [BYTES.write(tag) for tag in value[2:] if tag is not None]
        return FramedContent.write(value.framed) + BYTES.write(value.signature) + b"".join(tags)


class AuthenticatedContents:
    """An AuthenticatedContent (6). A confirmation tag that is not there is None."""

    make = collections.namedtuple("AuthenticatedContent", "wire_format framed signature confirmation_tag")

    def __call__(self, *values):
        return self.make(*values)

    def read(self, reader):
        wire_format, framed, signature = WIRE_FORMAT.read(reader), FramedContent.read(reader), BYTES.read(reader)
        return self.make(wire_format, framed, signature, BYTES.read(reader) if framed.content[0] == IS_COMMIT else None)

    def write(self, value):
        tag = b"" if value.confirmation_tag is None else BYTES.write(value.confirmation_tag)
        return WIRE_FORMAT.write(value.wire_format) + FramedContent.write(value.framed) + BYTES.write(value.signature) + tag


class Modes:
    """A profile, and whether the group is over, which no group of the members' profile is."""

    make = collections.namedtuple("Mode", "full ended")

    def __call__(self, *values):
        return self.make(*values)

    def read(self, reader):
        full = Number(1, (1, 2)).read(reader) == 2
        return self.make(full, Number(1, (0, 1) if full else (0,)).read(reader) == 1)

    def write(self, value):
        return U8.write(2 if value.full else 1) + U8.write(value.ended)


class Rest:
    """All the bytes that are left: a body that is not read."""

    def read(self, reader):
        return reader.take(reader.end - reader.at)

    def write(self, value):
        return value


PublicMessage = PublicMessages()
PUBLIC, PRIVATE, WELCOME, GROUP_INFO, PACKAGE = 1, 2, 3, 4, 5
BODIES = Choice(2, _1=PublicMessage, _2=Rest(), _3=Rest(), _4=GroupInfo, _5=KeyPackage)
Message = Record("Message", version=Number(2, (1,)), body=BODIES)

WIRE_FORMAT = Number(2, (1, 2))
AuthenticatedContent = AuthenticatedContents()
Mode = Modes()
FollowerState = Record("FollowerState", mode=Mode, rules=Number(2, range(2**13)), context=GroupContext, interim=BYTES,
                       tree=BYTES, known=Many(AuthenticatedContent), added=Maybe(Many(BYTES)))
StateFile = Record("StateFile", version=Number(2, (2,)), checksum=BYTES, state=FollowerState)


def first_of(kind, extensions):
    """The data of the first extension of a type, or None."""
    return next((extension.data for extension in extensions if extension.kind == kind), None)


def whole(layout, data):
    """The value whose encoding the bytes are."""
    reader = Reader(data)
    value = layout.read(reader)
    reader.done()
    return value
