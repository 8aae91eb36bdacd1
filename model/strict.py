"""The strict rules of docs/FORMATS.md by the texts of RFC 9420, 9180, 7748, 8032 and 5280, for follower.py.

A set of rules is a set of their numbers.
"""
import collections

import tree as trees
from layouts import (ADD, APPLICATION_USE, BY_VALUE, BYTES, CREDENTIAL, EXTENSIONS_CHANGE, EXTERNAL_INIT, first_of,
                     IS_COMMIT, IS_PROPOSAL, KEY_PACKAGE, PSK, Reader, REINIT, REPLACE, RESUMPTION_PSK, U16,
                     Unreadable, whole)

NAMES = dict(enumerate("""TagLength ExtensionRepeated ExtensionMisplaced ExtensionUnreadable KeyForm CiphertextForm
    GroupUnlisted DefaultListed LifetimeEmpty CertificateKey PskAhead GroupExtensionUnsupported
    PointOffCurve""".split(), 40))
ALL = frozenset(NAMES)

# The types of extensions and of proposals that this version of MLS defines (17.3, 17.4), and the type of extension
# that belongs in a leaf node: the application_id.
DEFAULT_EXTENSIONS, DEFAULT_PROPOSALS = range(1, 6), range(1, 8)
APPLICATION_ID, SENDERS = 1, 5

# Curve25519 and Curve448: the bits of a coordinate, the prime, the constant of the ladder, and the cofactor (RFC 7748,
# 4 and 5).
Curve = collections.namedtuple("Curve", "bits prime a24 cofactor")
CURVE25519 = Curve(255, 2**255 - 19, 121_665, 8)
CURVE448 = Curve(448, 2**448 - 2**224 - 1, 39_081, 4)
CURVES = {1: CURVE25519, 3: CURVE25519, 4: CURVE448, 6: CURVE448}

# P-256, P-521 and P-384 (FIPS 186-4, D.1.2): the prime p and the b of y^2 = x^3 - 3x + b.
Weierstrass = collections.namedtuple("Weierstrass", "prime b")
P256 = Weierstrass(2**256 - 2**224 + 2**192 + 2**96 - 1,
                   0x5ac635d8aa3a93e7b3ebbd55769886bc651d06b0cc53b0f63bce3c3e27d2604b)
P384 = Weierstrass(2**384 - 2**128 - 2**96 + 2**32 - 1,
                   0xb3312fa7e23ee7e4988e056be3f82d19181d9c6efe8141120314088f5013875ac656398d8a2ed19d2a85c8edd3ec2aef)
P521 = Weierstrass(2**521 - 1, int("51953eb9618e1c9a1f929a21a0b68540eea2da725b99b315f3b8b489918ef109e1"
                                   "56193951ec7e937b1652c0bd3bb1bf073573df883d2c34f1ef451fd46b503f00", 16))
POINT_CURVES = {2: P256, 5: P521, 7: P384}

# The length of an uncompressed point of P-256, P-521 and P-384 (RFC 9180, 7.1), which both keys are (RFC 9420, 5.1.1).
POINTS = {2: 65, 5: 133, 7: 97}

# The tags of DER that lead to the key of a certificate (X.690, 8.3, 8.6 and 8.9): INTEGER, BIT STRING and SEQUENCE, and
# that of a certificate's version (RFC 5280, 4.1).
DER_INTEGER, DER_BITS, DER_SEQUENCE, DER_VERSION = 0x02, 0x03, 0x30, 0xA0
X509 = 2

# How much longer a ciphertext is than what it encrypts, with the AEAD of each cipher suite (RFC 9180, 7.3).
AEAD_TAG = 16


# ---- keys (5.1.1)

def is_point(suite, key):
    return len(key) == POINTS[suite] and key[0] == 4


def curve_sum(curve, x):
    """x^3 - 3x + b."""
    return (x**3 - 3 * x + curve.b) % curve.prime


def point(suite, x, y):
    """An uncompressed point: 4, and its coordinates (SEC 1, 2.3.3)."""
    size = POINTS[suite] // 2
    return b"\x04" + x.to_bytes(size, "big") + y.to_bytes(size, "big")


def next_point(suite, x):
    """The point with even y of the least x from this one on that has points. Each prime is 3 modulo 4, so a square's root
    is its power by a quarter of the prime's successor."""
    curve = POINT_CURVES[suite]
    while True:
        square = curve_sum(curve, x)
        y = pow(square, (curve.prime + 1) // 4, curve.prime)
        if y * y % curve.prime == square:
            return point(suite, x, y if y % 2 == 0 else curve.prime - y)
        x = (x + 1) % curve.prime


def is_suite_point(suite, key):
    """Whether a public key, or a KEM's output, is a point of the curve of the cipher suite's KEM (RFC 9180, 7.1.4)."""
    if suite not in POINTS:
        return True
    curve, size = POINT_CURVES[suite], POINTS[suite] // 2
    if not is_point(suite, key):
        return False
    x, y = int.from_bytes(key[1:1 + size], "big"), int.from_bytes(key[1 + size:], "big")
    return max(x, y) < curve.prime and y * y % curve.prime == curve_sum(curve, x)


def is_low_order(curve, key):
    """Whether the cofactor times the point of this u-coordinate has u = 0, by the ladder of RFC 7748, 5. Then the
    shared secret is zero for each private key, and HPKE fails (RFC 9180, 7.1.4)."""
    prime = curve.prime
    own = (int.from_bytes(key, "little") & ((1 << curve.bits) - 1)) % prime
    pair, other = (1, 0), (own, 1)
    for bit in f"{curve.cofactor:b}":
        if bit == "1":
            pair, other = other, pair
        (x2, z2), (x3, z3) = pair, other
        total, across = (x3 - z3) * (x2 + z2), (x3 + z3) * (x2 - z2)
        more, less = (x2 + z2) ** 2, (x2 - z2) ** 2
        other = (total + across) ** 2 % prime, own * (total - across) ** 2 % prime
        pair = more * less % prime, (more - less) * (more + curve.a24 * (more - less)) % prime
        if bit == "1":
            pair, other = other, pair
    return pair[0] * pair[1] % prime == 0


def is_canonical(curve, key):
    """Whether decoding by RFC 8032, 5.1.3 and 5.2.3 goes on to a square root: y is less than the prime, and the sign is
    0 if x is, which is where y * y is 1."""
    number = int.from_bytes(key, "little")
    sign, y = number >> (8 * len(key) - 1), number & ((1 << (8 * len(key) - 1)) - 1)
    return y < curve.prime and not (sign and y * y % curve.prime == 1)


def is_hpke_key(suite, key):
    """Whether a public key, or a KEM's output, has the form of the cipher suite's KEM (RFC 9180, 7.1)."""
    if suite in POINTS:
        return is_point(suite, key)
    curve = CURVES[suite]
    return len(key) == (curve.bits + 7) // 8 and not is_low_order(curve, key)


def is_signature_key(suite, key):
    if suite in POINTS:
        return is_point(suite, key)
    curve = CURVES[suite]
    return len(key) == curve.bits // 8 + 1 and is_canonical(curve, key)


# ---- certificates (RFC 5280, 4.1)

class Element(collections.namedtuple("Element", "tag body")):
    """An element of DER (X.690, 8.1.1)."""

    def parts(self):
        return Elements(self.body)


class Elements:
    """The elements of DER that stand one after the other."""

    def __init__(self, data):
        self.reader = Reader(data)

    def next_tag(self):
        reader = self.reader
        return reader.data[reader.at] if reader.at < reader.end else None

    def one(self, tag):
        """The next element, which must have this tag, and its length the definite form of fewest bytes (X.690, 8.1.3
        and 10.1), which has at most four bytes after the first."""
        if self.reader.take(1)[0] != tag:
            raise Unreadable
        size = self.reader.take(1)[0]
        if size >= 0x80:
            digits = self.reader.take(size - 0x80)
            if not 1 <= len(digits) <= 4 or digits[0] == 0:
                raise Unreadable
            size = int.from_bytes(digits, "big")
            if size < 0x80:
                raise Unreadable
        return Element(tag, self.reader.take(size))

    def last(self, tag):
        found = self.one(tag)
        self.reader.done()
        return found


def read_certificate_key(certificate):
    fields = Elements(certificate).last(DER_SEQUENCE).parts().one(DER_SEQUENCE).parts()
    if fields.next_tag() == DER_VERSION:
        fields.one(DER_VERSION)
    # The serial number, the algorithm, the issuer, the validity and the subject.
    for tag in (DER_INTEGER, DER_SEQUENCE, DER_SEQUENCE, DER_SEQUENCE, DER_SEQUENCE):
        fields.one(tag)
    info = fields.one(DER_SEQUENCE).parts()
    info.one(DER_SEQUENCE)
    bits = info.last(DER_BITS).body
    # How many bits of the last byte are unused (X.690, 8.6.2.2).
    if bits[:1] != b"\x00":
        raise Unreadable
    return bits[1:]


def certificate_key(certificate):
    """The bits of the subjectPublicKey, or None."""
    try:
        return read_certificate_key(certificate)
    except Unreadable:
        return None


def is_certified(leaf):
    """The first certificate of an x509 credential has the signature key (RFC 9420, 5.3)."""
    kind, body = leaf.credential
    return kind != X509 or len(body) > 0 and certificate_key(body[0]) == leaf.signature_key


# ---- extensions (13.4)

def each_once(extensions):
    return len({extension.kind for extension in extensions}) == len(extensions)


def has_readable_id(extensions):
    """The application_id of a leaf node is a vector (5.3.3)."""
    data = first_of(APPLICATION_ID, extensions)
    try:
        whole(BYTES, b"\x00" if data is None else data)
    except Unreadable:
        return False
    return True


def has_readable_senders(extensions):
    """The external_senders are a list of keys with credentials (12.1.8.1). After a credential that is neither basic nor
    x509 nothing can be read."""
    data = first_of(SENDERS, extensions)
    try:
        reader = Reader(b"\x00" if data is None else data)
        senders = reader.part()
        reader.done()
        while senders.at < senders.end:
            BYTES.read(senders)
            kind = U16.read(senders)
            if kind not in CREDENTIAL.kinds:
                break
            CREDENTIAL.kinds[kind].read(senders)
    except Unreadable:
        return False
    return True


def supports(leaf, extensions):
    """A member supports the default types, and those that it lists (7.2, 12.1.7, 13.4)."""
    supported = {*DEFAULT_EXTENSIONS, *leaf.capabilities.extensions}
    return all(extension.kind in supported for extension in extensions)


# ---- what a part does not meet: a set of rules

def failing(**met):
    """The rules that are not met, of those named r40 to r52."""
    return {int(name[1:]) for name, holds in met.items() if not holds}


def unmet_by_leaf(context, leaf):
    """By a leaf node (7.2, 7.3)."""
    able = leaf.capabilities
    lifetime = leaf.source[1] if leaf.source[0] == KEY_PACKAGE else None
    return failing(
        r41=each_once(leaf.extensions),
        r42=not any(extension.kind in DEFAULT_EXTENSIONS and extension.kind != APPLICATION_ID
                    for extension in leaf.extensions),
        r43=has_readable_id(leaf.extensions),
        r44=is_hpke_key(context.suite, leaf.encryption_key) and is_signature_key(context.suite, leaf.signature_key),
        r46=context.version in able.versions and context.suite in able.suites,
        r47=not {*DEFAULT_EXTENSIONS} & {*able.extensions} and not {*DEFAULT_PROPOSALS} & {*able.proposals},
        r48=lifetime is None or lifetime.not_before <= lifetime.not_after,
        r49=is_certified(leaf),
        r52=is_suite_point(context.suite, leaf.encryption_key))


def is_ahead(context, psk):
    """Whether a resumption PSK for an application is of an epoch that the group has not reached (8.6)."""
    kind, body = psk
    return (kind == RESUMPTION_PSK and body.usage == APPLICATION_USE and body.group_id == context.group_id
            and body.epoch > context.epoch)


def unmet_by_proposals(context, proposals):
    bodies = collections.defaultdict(list)
    for kind, body in proposals:
        bodies[kind].append(body)
    lists = [body.extensions for body in bodies[ADD] + bodies[REINIT]] + bodies[EXTENSIONS_CHANGE]
    leaves = [package.leaf_node for package in bodies[ADD]] + bodies[REPLACE]
    return failing(
        r41=all(map(each_once, lists)),
        r43=all(map(has_readable_senders, bodies[EXTENSIONS_CHANGE])),
        r44=all(is_hpke_key(context.suite, package.init_key) for package in bodies[ADD]),
        r45=all(is_hpke_key(context.suite, kem_output) for kem_output in bodies[EXTERNAL_INIT]),
        r50=not any(is_ahead(context, psk) for psk in bodies[PSK]),
        r52=all(is_suite_point(context.suite, key)
                for key in [package.init_key for package in bodies[ADD]] + bodies[EXTERNAL_INIT])).union(
                    *[unmet_by_leaf(context, leaf) for leaf in leaves])


def unmet_by_path(context, path):
    """By a path (7.6). A path secret, which a ciphertext encrypts, is as long as a hash (7.4)."""
    suite, length = context.suite, trees.digest_length(context.suite) + AEAD_TAG
    sent = [ciphertext for node in path.nodes for ciphertext in node.ciphertexts]
    return failing(
        r44=all(is_hpke_key(suite, node.encryption_key) for node in path.nodes),
        r45=all(is_hpke_key(suite, each.kem_output) and len(each.ciphertext) == length for each in sent),
        r52=all(is_suite_point(suite, key)
                for key in [node.encryption_key for node in path.nodes] + [each.kem_output for each in sent])
    ) | unmet_by_leaf(context, path.leaf_node)


def unmet(context, message):
    """By a message in an epoch: of 40 to 50 and 52. A tag is a MAC, and so as long as a hash (5.1, 6.1, 6.2)."""
    kind, body = message.framed.content
    proposals, path = [body] if kind == IS_PROPOSAL else [], None
    if kind == IS_COMMIT:
        proposals, path = [entry for tag, entry in body.proposals if tag == BY_VALUE], body.path
    length = trees.digest_length(context.suite)
    tags = [tag for tag in (message.confirmation_tag, message.membership_tag) if tag is not None]
    found = failing(r40=all(len(tag) == length for tag in tags)) | unmet_by_proposals(context, proposals)
    return found | unmet_by_path(context, path) if path else found


# ---- groups

def are_supported(context, tree):
    """51: each leaf of the tree supports the extensions of the GroupContext."""
    return all(supports(trees.leaf(tree, index), context.extensions) for index in trees.members(tree))


def unmet_by_node(context, tree, place):
    node = tree[place]
    if node is None:
        return set()
    if trees.level(place):
        return failing(r44=is_hpke_key(context.suite, node.encryption_key),
                       r52=is_suite_point(context.suite, node.encryption_key))
    return unmet_by_leaf(context, node) | failing(r51=supports(node, context.extensions))


def group_faults(rules, context, tree):
    """The rules of a set that a GroupContext and a tree do not meet, by number. After each comes None for the
    GroupContext, or a node index."""
    of_context = failing(r41=each_once(context.extensions), r43=has_readable_senders(context.extensions))
    found = [(rule, None) for rule in of_context]
    found += [(rule, place) for place in range(len(tree)) for rule in unmet_by_node(context, tree, place)]
    return sorted((fault for fault in found if fault[0] in rules), key=lambda fault: fault[0])


def start_faults(rules, info, tree):
    """Those of a start from a GroupInfo (12.4.3): first of the GroupInfo itself."""
    length = trees.digest_length(info.context.suite)
    of_info = failing(r40=len(info.confirmation_tag) == length, r41=each_once(info.extensions))
    return [(rule, None) for rule in sorted(of_info & rules)] + group_faults(rules, info.context, tree)
