"""Messages for random_groups.py that meet the strict rules (strict.py), except for parts that fail one by chance."""
import hashlib

import strict
import tree as trees
from layouts import BYTES, Ciphertext, Extension, EXTENSIONS_CHANGE, KEY_PACKAGE, Lifetime, REINIT, RESUMPTION_PSK
from random_messages import LISTED, Maker
from strict import DER_BITS, DER_INTEGER, DER_SEQUENCE, DER_VERSION, X509

HPKE_KEYS = ("encryption", "init", "path", "kem_output")

# Types of extensions that leaves may list by chance: the default ones, which they must not, and one more.
OTHERS = (1, 2, 3, 4, 5, 0xF00E)


def bad_numbers(curve, is_signature, top):
    """Keys as numbers that are not canonical or of low order, and one that is right. `top` is the top bit of a key."""
    prime = curve.prime
    if is_signature:
        return [2, prime, prime + 1, prime + 2, top + 1, top + prime - 1]
    low_order = [0, 1, prime - 1, prime, prime + 1]
    return [2] + low_order + [top + number for number in low_order if curve.bits == 255]


def other_points(suite, key):
    """What has the form of a point, made from one: three are not on the curve, and the last one is, with y negated."""
    size = strict.POINTS[suite] // 2
    x, y = int.from_bytes(key[1:1 + size], "big"), int.from_bytes(key[1 + size:], "big")
    negated = strict.point(suite, x, -y % strict.POINT_CURVES[suite].prime)
    return [key[:-1] + bytes([key[-1] ^ 1]), strict.point(suite, y, x), strict.point(suite, 0, 0), negated]


class StrictMaker(Maker):
    """A maker whose keys, tags and ciphertexts have the forms of the suite, and certificates the signature key. `odds` is
    the chance of another form."""

    def __init__(self, chosen, suite, trusting):
        self.odds = chosen.choice([0, 0, 0, 0.003])
        self.keys = set()
        super().__init__(chosen, suite, trusting)

    def odd(self, rarer=1):
        return self.chosen.random() * rarer < self.odds

    # ---- forms

    def name(self, what):
        return self.key(what) if what == "signature" or what in HPKE_KEYS else super().name(what)

    def key(self, what, rarer=1):
        self.made += 1
        key = right_key(self.suite, what == "signature", b"%s %d" % (what.encode(), self.made))
        if self.odd(rarer):
            found = self.chosen.choice([key[:-1], key + b"\x00", self.bad_key(key, what == "signature")])
            key = key if found in self.keys else found
        self.keys.add(key)
        return key

    def bad_key(self, key, is_signature):
        """A key of the right length."""
        if self.suite in strict.POINTS:
            others = [] if is_signature else other_points(self.suite, key)
            return self.chosen.choice([bytes([form]) + key[1:] for form in (0, 2, 3)] + others)
        number = self.chosen.choice(bad_numbers(strict.CURVES[self.suite], is_signature, 1 << 8 * len(key) - 1))
        return number.to_bytes(len(key), "little")

    def info_extensions(self):
        return super().info_extensions() + [Extension(self.chosen.choice([4, 9]), b"")] * self.odd(0.2)

    def tag(self):
        length = trees.digest_length(self.suite)
        if self.odd():
            length = self.chosen.choice([0, length - 1, length + 1])
        return self.chosen.randbytes(length)

    def kem_output(self):
        return self.key("kem_output")

    def ciphertext(self):
        length = trees.digest_length(self.suite) + strict.AEAD_TAG
        if self.odd(8):
            length += self.chosen.choice([-1, 1])
        return Ciphertext(self.key("kem_output", 8), self.chosen.randbytes(length))

    # ---- leaves, packages and proposals

    def credential(self):
        """Certificates of a key that `signed_leaf` replaces."""
        kind, body = super().credential()
        return kind, (self.certificate(b""), *body[1:]) if kind == X509 else body

    def certificate(self, key):
        self.made += 1
        return certificate_of(key, b"%d" % self.made)

    def leaf(self, *source, **changes):
        """A client that comes back with its certificate has its signature key too."""
        kind, body = changes.get("credential", (None, None))
        if kind == X509 and body and "signature_key" not in changes:
            changes["signature_key"] = strict.certificate_key(body[0]) or b""
        return super().leaf(*source, **changes)

    def signed_leaf(self, leaf, index=0):
        kind, body = leaf.credential
        if kind == X509 and body and strict.certificate_key(body[0]) != leaf.signature_key:
            leaf = leaf._replace(credential=(kind, (self.certificate(leaf.signature_key), *body[1:])))
        if self.odd():
            changes = self.chosen.choice(self.leaf_faults(leaf))
            leaf = leaf._replace(**changes)
        return super().signed_leaf(leaf, index)

    def leaf_faults(self, leaf):
        """Changes by which a leaf fails a strict rule, or nearly does. All meet the plain rules."""
        able, listed = leaf.capabilities, leaf.extensions
        used = [LISTED[0], *(extension.kind for extension in listed)]
        fewer = tuple(kind for kind in able.extensions if kind in used)
        kinds = [{"extensions": listed + (Extension(LISTED[0], b""),) * 2},
                 {"extensions": listed + (Extension(self.chosen.choice([2, 3, 4, 5]), b""),)},
                 {"extensions": listed + (Extension(1, self.chosen.choice([b"", b"\x02a", b"\x00\x00"])),)},
                 {"extensions": listed + (Extension(1, BYTES.write(b"application")),)},
                 {"capabilities": able._replace(versions=self.chosen.choice([(), (2,)]))},
                 {"capabilities": able._replace(suites=(self.suite % 7 + 1, 99))},
                 {"capabilities": able._replace(extensions=able.extensions + (self.chosen.choice(OTHERS),))},
                 {"capabilities": able._replace(proposals=(self.chosen.randrange(9),))}]
        kinds += [{"capabilities": able._replace(extensions=fewer)}] * 5
        if leaf.credential[0] == X509:
            kinds += [{"credential": (X509, body)} for body in self.bad_certificates(leaf)] * 3
        if leaf.source[0] == KEY_PACKAGE:
            kinds += [{"source": (KEY_PACKAGE, Lifetime(5, self.chosen.choice([4, 4, 5])))}] * 3
        return kinds

    def bad_certificates(self, leaf):
        """Lists of certificates, the first of which has not the leaf's signature key, and one whose first has it."""
        right = self.certificate(leaf.signature_key)
        cut = self.chosen.randrange(len(right))
        first = [self.certificate(self.chosen.randbytes(32)), right + b"\x00", right[:cut], b"issuer",
                 certificate_of(leaf.signature_key, b"short", unused=1), certificate_of(b"", leaf.signature_key), right]
        return [()] + [(each, b"issuer") for each in first]

    def signed_package(self, package):
        if self.odd():
            package = package._replace(extensions=(Extension(9, b""), Extension(10, b""), Extension(9, b"again")))
        return super().signed_package(package)

    def psk(self, state, by_member):
        """Of a resumption PSK, an epoch near the group's."""
        tag, (kind, body) = super().psk(state, by_member)
        if kind == RESUMPTION_PSK:
            epoch = state.context.epoch + self.chosen.choice([-1, 0, 0, 1, 2**40] if self.odd(0.1) else [-1, 0])
            group_id = b"another group" if self.chosen.random() < 0.1 else body.group_id
            body = body._replace(epoch=min(max(epoch, 0), 2**64 - 1), group_id=group_id)
        return tag, (kind, body)

    def reinit(self):
        _, body = super().reinit()
        extensions = (Extension(9, b""),) * self.chosen.choice([0, 1, 1, 2])
        return REINIT, body._replace(extensions=extensions)

    def context_extensions(self, state):
        """Also of a type that most leaves list."""
        _, extensions = super().context_extensions(state)
        if self.chosen.random() < 0.3:
            extensions += (Extension(LISTED[1], b""),)
        return EXTENSIONS_CHANGE, extensions


def element(tag, *parts):
    """An element of DER (X.690, 8.1)."""
    body = b"".join(parts)
    if len(body) < 0x80:
        return bytes([tag, len(body)]) + body
    digits = len(body).to_bytes((len(body).bit_length() + 7) // 8, "big")
    return bytes([tag, 0x80 + len(digits)]) + digits + body


def certificate_of(key, name, unused=0):
    """A certificate of a key (RFC 5280, 4.1), perhaps without the version, of an issuer with this name."""
    algorithm = element(DER_SEQUENCE, element(0x06, b"\x2b\x65\x70"))
    version = [element(DER_VERSION, element(DER_INTEGER, b"\x02"))] * (len(name) % 2)
    info = element(DER_SEQUENCE, algorithm, element(DER_BITS, bytes([unused]), key))
    fields = [*version, element(DER_INTEGER, b"\x01"), algorithm, element(DER_SEQUENCE, element(0x04, name)),
              element(DER_SEQUENCE), element(DER_SEQUENCE), info]
    return element(DER_SEQUENCE, element(DER_SEQUENCE, *fields), algorithm, element(DER_BITS, b"\x00", b"signature"))


def right_key(suite, is_signature, seed):
    """A key of the form of the suite. One of its KEM is a point."""
    if suite in strict.POINTS:
        digits = hashlib.shake_256(seed).digest(strict.POINTS[suite] - 1)
        if is_signature:
            return b"\x04" + digits
        return strict.next_point(suite, int.from_bytes(digits, "big") % strict.POINT_CURVES[suite].prime)
    curve = strict.CURVES[suite]
    key = hashlib.shake_256(seed).digest((curve.bits + 7) // 8)
    return key + bytes([key[0] & 0x80]) if is_signature and curve.bits % 8 == 0 else key
