"""Follows MLS groups (RFC 9420) from outside, by the proved library libmls_check.

A service starts a Follower from a GroupInfo. For each message it calls `query`, verifies the signatures that are listed, calls
`learn` with the receipts of the good ones, and then `judge`, perhaps with a time. A service should start with the strict rules,
RULES_STRICT. MLS_CHECK_LIB names libmls_check.so, which tools/library makes.

The library is proved; this module is not. It meets the conditions of include/mls_check.h as long as a Follower is
used by one thread at a time.
"""

import ctypes
import os
from collections import namedtuple

RECEIPT_SIZE = 32
REFERENCE_SIZE = 64
BUFFER_TOO_SMALL = 101
PROFILE_MEMBERS = 1
PROFILE_FULL = 2
NO_MEMBER = 115
MALFORMED = 1

# Sets of strict rules (docs/FORMATS.md): rule n, from 40 to 52, is bit n - 40. RULES_STRICT & ~rule(47) is all but 47.
RULES_PLAIN = 0
RULES_STRICT = 0x1FFF

NAMES = (
    "", "Malformed", "NotPublic", "WrongGroup", "WrongEpoch", "SenderNotMember", "NotHandshake", "BadSignature",
    "KnownProposal", "AddInvalid", "UpdateInvalid", "RemoveInvalid", "LastEpoch", "UnknownReference", "UpdateByCommitter",
    "RemovesCommitter", "SameLeafTwice", "PathMissing", "TooManyLeaves", "PathLength", "PathSource", "PathKeyUsed",
    "CiphertextCount", "PathParentHash", "KeyRepeated", "Member", "TwoContextExtensions", "ContextExtensionsInvalid",
    "GroupOver", "UnknownExternal", "SenderContent", "PskInvalid", "ReInitInvalid", "ExternalInitMisplaced", "PskTwice",
    "ReInitNotAlone", "JoinList", "ResyncInvalid", "", "", "TagLength", "ExtensionRepeated", "ExtensionMisplaced",
    "ExtensionUnreadable", "KeyForm", "CiphertextForm", "GroupUnlisted", "DefaultListed", "LifetimeEmpty",
    "CertificateKey", "PskAhead", "GroupExtensionUnsupported", "PointOffCurve", "LifetimeOutside",
)

# A signature that has to be verified: whether it is good for `content` under `key` in the cipher suite `suite` (5.1.2).
Signature = namedtuple("Signature", "receipt suite key content signature")

# What an accepted message is: `reference` of a proposal or `epoch` that a commit begins; the other is None.
Accepted = namedtuple("Accepted", "reference epoch")

# Why a message is refused. `inner` and `leaf` are those of 25, otherwise 0.
Refusal = namedtuple("Refusal", "number name inner leaf")

# How many proposals of each type a message has, and how many references to proposals (12.1, 12.4).
Counts = namedtuple("Counts", "adds updates removes psks reinits external_inits group_context_extensions references")

# What a message says of itself, without a group. A fact that it does not have is None.
#
# `wire_format` is 1 of a PublicMessage, 2 of a PrivateMessage, 3 of a Welcome, 4 of a GroupInfo, 5 of a KeyPackage (6).
# `content_type` is 1 of application data, 2 of a proposal, 3 of a commit. `sender` is a pair: 1 and the leaf index of a member,
# 2 and the index of an external sender, 3 and None of a new_member_proposal, 4 and None of a new_member_commit.
# `signature_key` is that of a KeyPackage, and of a sender that joins (6.1).
Facts = namedtuple("Facts", "wire_format group_id epoch content_type sender proposals signature_key")

# A member: its leaf index, its encoded credential (5.3) and its signature key (7.2).
Member = namedtuple("Member", "leaf credential signature_key")


def rule(number):
    """The set of the strict rule with this number alone, which is from 40 to 52."""
    if not 40 <= number <= 52:
        raise ValueError(f"{number} is no strict rule")
    return 1 << number - 40


def _bits(rules):
    """The number of a set of strict rules. It fits a uint16, which ctypes does not check."""
    if not 0 <= rules <= RULES_STRICT:
        raise ValueError(f"{rules} is no set of strict rules")
    return rules


def _seconds(now):
    """A time as whole seconds since 1970. It fits a uint64, which ctypes does not check."""
    if not 0 <= now < 2**64:
        raise ValueError(f"{now} is no time")
    return int(now)


class Refused(Exception):
    """Why a call on a group's inputs has no result: number, inner and place.

    If the number is 9 of a start or a tree, or 10 of make_strict or a resumption, a strict rule is not met: `inner` is its
    number, and `place` the node index, or 2**64 - 1 if it is no node that does not meet it. If it is 11 of make_strict or
    a resumption, `place` is the number of the pending proposal that does not meet one, from 0 on. If it is 9 of a
    resumption, `place` is the number of the pending proposal that is not valid or has no receipt, and if it is 12, that of
    the KeyPackageRef of the last commit that is not valid.
    """

    def __init__(self, number, inner, place):
        super().__init__(f"{number} {inner} {place}")
        self.number, self.inner, self.place = number, inner, place


class Fault(Exception):
    """The library could not do what it was to do, as when memory runs out."""


class _Handle(ctypes.Structure):
    _fields_ = [("at", ctypes.c_void_p)]


class _Verdict(ctypes.Structure):
    _fields_ = [("number", ctypes.c_uint32), ("inner", ctypes.c_uint32), ("place", ctypes.c_uint64)]


class _Judgement(ctypes.Structure):
    _fields_ = [
        ("number", ctypes.c_uint32),
        ("kind", ctypes.c_uint32),
        ("inner", ctypes.c_uint32),
        ("leaf", ctypes.c_uint32),
        ("epoch", ctypes.c_uint64),
    ]


class _Facts(ctypes.Structure):
    _fields_ = [
        ("wire_format", ctypes.c_uint32),
        ("content_type", ctypes.c_uint32),
        ("sender_type", ctypes.c_uint32),
        ("sender_index", ctypes.c_uint32),
        ("has_group", ctypes.c_uint32),
        ("has_signature_key", ctypes.c_uint32),
        ("epoch", ctypes.c_uint64),
    ] + [(name, ctypes.c_uint64) for name in Counts._fields]


def _load():
    here = os.path.dirname(os.path.abspath(__file__))
    library = ctypes.CDLL(os.environ.get("MLS_CHECK_LIB", os.path.join(here, "../../build/libmls_check.so")))
    sized = [ctypes.c_char_p, ctypes.c_size_t]
    handle, size = ctypes.POINTER(_Handle), ctypes.POINTER(ctypes.c_size_t)
    number, rules, time = ctypes.c_uint32, ctypes.c_uint16, ctypes.c_uint64
    for name, result, words in (
        ("mls_validate_tree", _Verdict, sized * 4 + [size]),
        ("mls_validate_tree_strict", _Verdict, sized * 3 + [rules] + sized + [size]),
        ("mls_message_facts", number, sized + [ctypes.POINTER(_Facts)] + (sized + [size]) * 2),
        ("mls_start_query", _Verdict, sized * 4 + [size]),
        ("mls_resume_query", _Verdict, sized * 3 + [size]),
        ("mls_follower_start", _Verdict, sized * 3 + [number, handle]),
        ("mls_follower_start_by", _Verdict, sized * 3 + [number, rules, handle]),
        ("mls_follower_resume", _Verdict, sized * 2 + [number, handle]),
        ("mls_follower_free", None, [handle]),
        ("mls_follower_epoch", number, [handle, ctypes.POINTER(ctypes.c_uint64)]),
        ("mls_follower_members", number, [handle, ctypes.POINTER(ctypes.c_uint32)]),
        ("mls_follower_ended", number, [handle, ctypes.POINTER(ctypes.c_uint32)]),
        ("mls_follower_rules", number, [handle, ctypes.POINTER(rules)]),
        ("mls_follower_make_strict", _Verdict, [handle, rules]),
        ("mls_follower_tree_hash", number, [handle] + sized + [size]),
        ("mls_follower_confirmed_hash", number, [handle] + sized + [size]),
        ("mls_follower_group_id", number, [handle] + sized + [size]),
        ("mls_follower_context", number, [handle] + sized + [size]),
        ("mls_follower_tree", number, [handle] + sized + [size]),
        ("mls_follower_member", number, [handle, number] + (sized + [size]) * 2),
        ("mls_follower_pending", number, [handle, size]),
        ("mls_follower_pending_at", number, [handle, ctypes.c_size_t] + sized + [size]),
        ("mls_follower_query", number, [handle] + sized * 2 + [size]),
        ("mls_follower_learn", number, [handle] + sized),
        ("mls_follower_judge", _Judgement, [handle] + sized * 2),
        ("mls_follower_judge_at", _Judgement, [handle, time] + sized * 2),
        ("mls_follower_state", number, [handle] + sized + [size]),
    ):
        call = getattr(library, name)
        call.restype, call.argtypes = result, words
    return library


_library = _load()


def _filled(call):
    """What `call` writes into a buffer. It is called again with a longer one if the first is too small."""
    length, needed = 256, ctypes.c_size_t()
    while True:
        buffer = ctypes.create_string_buffer(length)
        number = call(buffer, length, ctypes.byref(needed))
        if number == 0:
            return buffer.raw[: needed.value]
        if number != BUFFER_TOO_SMALL:
            raise Fault(number)
        length = needed.value


def _filled_pair(call):
    """The number of `call`, and what it writes into two buffers. It is called again with longer ones if one is too small."""
    lengths = [256, 256]
    while True:
        buffers = [ctypes.create_string_buffer(length) for length in lengths]
        needed = [ctypes.c_size_t(), ctypes.c_size_t()]
        number = call(buffers[0], lengths[0], ctypes.byref(needed[0]), buffers[1], lengths[1], ctypes.byref(needed[1]))
        if number != BUFFER_TOO_SMALL:
            return number, [buffer.raw[: n.value] for buffer, n in zip(buffers, needed)]
        lengths = [max(length, n.value) for length, n in zip(lengths, needed)]


def _check(verdict, *others):
    if verdict.number not in (0, *others):
        raise Refused(verdict.number, verdict.inner, verdict.place)
    return verdict.number


def _filled_or_refused(call, *words):
    def by(*buffer):
        return _check(call(*words, *buffer), BUFFER_TOO_SMALL)

    return _filled(by)


def take_vector(data):
    """The body of the vector (RFC 9420, 2.1.2) at the front, and what follows it."""
    size = 1 << (data[0] >> 6)
    count = int.from_bytes(data[:size], "big") & ((1 << (8 * size - 2)) - 1)
    return data[size : size + count], data[size + count :]


def vectors(data):
    """The bodies of vectors, one after the other."""
    while data:
        body, data = take_vector(data)
        yield body


def _signatures(records):
    return [Signature(r[:32], int.from_bytes(r[32:34], "big"), *vectors(r[34:])) for r in vectors(records)]


def validate_tree(context, tree, receipts=()):
    """Checks a ratchet tree against a GroupContext (7.3, 7.9.2, 12.4.3.1). Returns its tree hash, or raises Refused."""
    good = b"".join(receipts)
    words = (context, len(context), tree, len(tree), good, len(good))
    return _filled_or_refused(_library.mls_validate_tree, *words)


def validate_tree_strict(context, tree, receipts=(), rules=RULES_STRICT):
    """Checks a tree as validate_tree does, and that the GroupContext and the tree meet these strict rules."""
    good = b"".join(receipts)
    words = (context, len(context), tree, len(tree), good, len(good), _bits(rules))
    return _filled_or_refused(_library.mls_validate_tree_strict, *words)


def message_facts(message):
    """The facts of a message that do not depend on a group (6, 6.1, 12.1, 12.4): Facts. None if the bytes are no message.

    Nothing is checked: each fact is what the message says of itself.
    """
    found = _Facts()
    words = (message, len(message), ctypes.byref(found))
    number, (group_id, key) = _filled_pair(lambda *buffers: _library.mls_message_facts(*words, *buffers))
    if number == MALFORMED:
        return None
    if number:
        raise Fault(number)
    index = found.sender_index if found.sender_type in (1, 2) else None
    return Facts(
        found.wire_format,
        group_id if found.has_group else None,
        found.epoch if found.has_group else None,
        found.content_type or None,
        (found.sender_type, index) if found.sender_type else None,
        Counts(*(getattr(found, name) for name in Counts._fields)),
        key if found.has_signature_key else None,
    )


def start_query(info, tree=b"", receipts=()):
    """The signatures of a start that have no receipt. Raises Refused if no follower starts though each were good.

    Strict rules are not checked here.
    """
    good = b"".join(receipts)
    return _signatures(_filled_or_refused(_library.mls_start_query, info, len(info), tree, len(tree), good, len(good)))


def resume_query(state, receipts=()):
    """The signatures of a resumption from a state that have no receipt: those of the leaf nodes and pending proposals.

    Raises Refused if no follower resumes though each were good. The state names the profile and the strict rules.
    """
    good = b"".join(receipts)
    return _signatures(_filled_or_refused(_library.mls_resume_query, state, len(state), good, len(good)))


class Follower:
    """A follower of a group, in a profile and with a set of strict rules."""

    def __init__(self, info, tree=b"", receipts=(), profile=PROFILE_MEMBERS):
        """Starts from a GroupInfo (12.4.3), by these receipts and without strict rules. Raises Refused."""
        good = b"".join(receipts)
        self._begin(_library.mls_follower_start, info, len(info), tree, len(tree), good, len(good), profile)

    @classmethod
    def start_by(cls, rules, info, tree=b"", receipts=(), profile=PROFILE_MEMBERS):
        """Starts with these strict rules, which a service should have: RULES_STRICT. Raises Refused."""
        follower, good, bits = cls.__new__(cls), b"".join(receipts), _bits(rules)
        words = (info, len(info), tree, len(tree), good, len(good), profile, bits)
        follower._begin(_library.mls_follower_start_by, *words)
        return follower

    @classmethod
    def resume(cls, state, receipts=(), profile=PROFILE_MEMBERS):
        """Resumes from a state of this profile, by these receipts and its strict rules. Raises Refused."""
        follower, good = cls.__new__(cls), b"".join(receipts)
        follower._begin(_library.mls_follower_resume, state, len(state), good, len(good), profile)
        return follower

    def _begin(self, call, *words):
        self._handle = _Handle()
        _check(call(*words, ctypes.byref(self._handle)))

    def close(self):
        """Frees the follower."""
        _library.mls_follower_free(ctypes.byref(self._handle))

    def __enter__(self):
        return self

    def __exit__(self, *_):
        self.close()

    def __del__(self):
        if hasattr(self, "_handle"):
            self.close()

    def _number(self, call, kind):
        value = kind()
        number = call(ctypes.byref(self._handle), ctypes.byref(value))
        if number:
            raise Fault(number)
        return value.value

    def _bytes(self, call, *words):
        return _filled(lambda *buffer: call(ctypes.byref(self._handle), *words, *buffer))

    @property
    def epoch(self):
        return self._number(_library.mls_follower_epoch, ctypes.c_uint64)

    @property
    def members(self):
        return self._number(_library.mls_follower_members, ctypes.c_uint32)

    @property
    def ended(self):
        """Whether the group is over: a commit with a ReInit was accepted (11.2)."""
        return self._number(_library.mls_follower_ended, ctypes.c_uint32) == 1

    @property
    def rules(self):
        """The set of strict rules. No message changes it."""
        return self._number(_library.mls_follower_rules, ctypes.c_uint16)

    def make_strict(self, rules=RULES_STRICT):
        """Adds strict rules to those of the follower. Only those that it lacks are checked.

        Raises Refused if they cannot be added; then nothing has changed.
        """
        _check(_library.mls_follower_make_strict(ctypes.byref(self._handle), _bits(rules)))

    @property
    def tree_hash(self):
        return self._bytes(_library.mls_follower_tree_hash)

    @property
    def confirmed_hash(self):
        return self._bytes(_library.mls_follower_confirmed_hash)

    @property
    def group_id(self):
        return self._bytes(_library.mls_follower_group_id)

    @property
    def context(self):
        """The encoded GroupContext (8.1)."""
        return self._bytes(_library.mls_follower_context)

    @property
    def tree(self):
        """The encoded ratchet tree (12.4.3.3)."""
        return self._bytes(_library.mls_follower_tree)

    def member(self, leaf):
        """The Member at a leaf index. None if the leaf is blank, or the tree has no such leaf."""
        words = (ctypes.byref(self._handle), leaf)
        number, (credential, key) = _filled_pair(lambda *buffers: _library.mls_follower_member(*words, *buffers))
        if number == NO_MEMBER:
            return None
        if number:
            raise Fault(number)
        return Member(leaf, credential, key)

    def each_member(self):
        """Each Member, by its leaf index. Process no message before the last one."""
        leaf, left = 0, self.members
        while left:
            member = self.member(leaf)
            leaf += 1
            if member is not None:
                left -= 1
                yield member

    @property
    def pending(self):
        """The references of the pending proposals (5.2, 12.4), in the order in which they were accepted."""
        count = self._number(_library.mls_follower_pending, ctypes.c_size_t)
        return [self._bytes(_library.mls_follower_pending_at, k) for k in range(count)]

    @property
    def state(self):
        """The state as a file, from which `resume` resumes. It has the strict rules, and no receipts."""
        return self._bytes(_library.mls_follower_state)

    def query(self, message):
        """The signatures of a message that have no receipt yet. Bytes that are no message have none."""
        try:
            return _signatures(self._bytes(_library.mls_follower_query, message, len(message)))
        except Fault as fault:
            if fault.args == (MALFORMED,):
                return []
            raise

    def learn(self, receipts):
        """Learns that the signatures with these receipts are good."""
        good = b"".join(receipts)
        number = _library.mls_follower_learn(ctypes.byref(self._handle), good, len(good))
        if number:
            raise Fault(number)

    def judge(self, message, now=None):
        """Processes a message (6): Accepted if it satisfies every rule, otherwise Refusal, and nothing has changed.

        `now` is a time in seconds since 1970, as that of time.time. The lifetime of the leaf node of each Add that the message
        has by value must include it (7.2, 7.3, 10.1), otherwise the number of Refusal is 53. No other lifetime is checked, and
        the state has no time. Messages that were accepted before are processed again without a time: at a later one of them
        might be refused.
        """
        buffer = ctypes.create_string_buffer(REFERENCE_SIZE)
        words = (message, len(message), buffer, REFERENCE_SIZE)
        if now is None:
            answer = _library.mls_follower_judge(ctypes.byref(self._handle), *words)
        else:
            answer = _library.mls_follower_judge_at(ctypes.byref(self._handle), _seconds(now), *words)
        if answer.number >= 100:
            raise Fault(answer.number)
        if answer.number:
            return Refusal(answer.number, NAMES[answer.number], answer.inner, answer.leaf)
        if answer.kind == 1:
            return Accepted(buffer.raw[: len(self.tree_hash)], None)
        return Accepted(None, answer.epoch)
