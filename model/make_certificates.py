#!/usr/bin/env python3
"""Makes crates/mls_rows/data/certificates.rows: certificates that openssl makes, and others of authorities, each with the
key that openssl finds in it; cut at the end of each element; and a small one with each bit changed.

    make_certificates.py [FILE]

Each run makes other keys. `openssl asn1parse` says where an element begins and ends, and `openssl x509 -pubkey` has the key.
What the small certificate is with a bit changed is what strict.py reads, by X.690 and RFC 5280.
"""
import glob
import os
import re
import subprocess
import sys
import tempfile

import strict
from make_points import OWN, openssl

OWN = os.path.join(os.path.dirname(OWN), "certificates.rows")

HEAD = """\
# The public keys of certificates (RFC 9420, 5.3; RFC 5280, 4.1), which are DER (X.690, 8.1 and 10.1).
# model/make_certificates.py makes this file.
"""

# Keys, as `openssl genpkey` makes them.
KEYS = {
    "ED25519": ["-algorithm", "ed25519"],
    "ED448": ["-algorithm", "ed448"],
    "P256": ["-algorithm", "EC", "-pkeyopt", "ec_paramgen_curve:P-256"],
    "P384": ["-algorithm", "EC", "-pkeyopt", "ec_paramgen_curve:P-384"],
    "P521": ["-algorithm", "EC", "-pkeyopt", "ec_paramgen_curve:P-521"],
    "RSA": ["-algorithm", "RSA", "-pkeyopt", "rsa_keygen_bits:2048"],
}

# Names and extensions of several lengths: fewer than 128 bytes, fewer than 256, fewer than 65,536, and more.
MANY = "subjectAltName=" + ",".join(f"DNS:{number}.example.org" for number in range(12))
SHAPES = [
    ("short", "/CN=a", []),
    ("a long subject", "/O=" + "o" * 60 + "/OU=" + "u" * 60 + "/CN=" + "c" * 60, ["basicConstraints=critical,CA:TRUE"]),
    ("many extensions", "/C=AQ/O=Example/CN=member", [MANY, "basicConstraints=CA:FALSE", "keyUsage=digitalSignature",
                                                     "extendedKeyUsage=clientAuth", "subjectKeyIdentifier=hash"]),
]
HUGE = "1.2.3.4=ASN1:UTF8:" + "a" * 70_000

# The certificates of authorities.
AUTHORITIES = "/etc/ssl/certs/*.pem"


def write(folder, name, text):
    path = os.path.join(folder, name)
    with open(path, "w", encoding="ascii") as file:
        file.write(text)
    return path


def made(folder, key, subject, extensions, is_v1=False):
    """A certificate in DER, of version 3 if it has extensions."""
    path = os.path.join(folder, "key")
    openssl("genpkey", *KEYS[key], "-out", path)
    config = write(folder, "config", "[req]\ndistinguished_name=dn\n[dn]\n")
    signing = write(folder, "extensions", "[v3]\n" + "".join(line + "\n" for line in extensions))
    request = openssl("req", "-new", "-key", path, "-subj", subject, "-config", config)
    words = [] if is_v1 else ["-extfile", signing, "-extensions", "v3"]
    return openssl("x509", "-req", "-signkey", path, "-days", "36500", "-outform", "DER", *words, sent=request)


def elements(der):
    """The offset, the depth, the length of the header and of the body, and the name of each element, as openssl says."""
    told = openssl("asn1parse", "-inform", "DER", sent=der).decode("ascii", "replace")
    pattern = r"^ *(\d+):d=(\d+) +hl=(\d+) +l= *(\d+) +(?:cons|prim): +([^:\n]*?) *(?::|$)"
    return [(int(at), int(depth), int(header), int(body), name)
            for at, depth, header, body, name in re.findall(pattern, told, re.M)]


def key_of(der):
    """The bits of the public key, by openssl."""
    info = openssl("x509", "-inform", "DER", "-pubkey", "-noout", sent=der)
    info = openssl("pkey", "-pubin", "-outform", "DER", sent=info)
    at, _, header, body, _ = next(each for each in elements(info) if each[1] == 1 and each[4] == "BIT STRING")
    # The first byte says how many bits the last one lacks.
    assert info[at + header] == 0
    return info[at + header + 1:at + header + body]


def cuts_of(der):
    """Where each element on the way to the key begins, has its length, and ends."""
    found = set()
    for at, depth, header, body, _ in elements(der):
        if depth <= 2:
            found |= {at, at + 1, at + header - 1, at + header, at + header + body - 1, at + header + body}
    key = key_of(der)
    at = der.index(key)
    info = next(each for each in reversed(elements(der)) if each[1] == 2 and each[0] < at)
    for offset, depth, header, body, _ in elements(der):
        if depth == 3 and info[0] < offset < info[0] + info[2] + info[3]:
            found |= {offset, offset + 1, offset + header, offset + header + body}
    found |= {at + 1, at + len(key) // 2, at + len(key) - 1}
    return sorted(cut for cut in found if 0 <= cut < len(der))


def digits_of(data):
    """Bytes, of which many equal ones are written once."""
    words, at = [], 0
    for run in re.finditer(rb"(.)\1{19,}", data, re.S):
        words += [data[at:run.start()].hex(), f"x{len(run.group())}({run.group(1).hex()})"]
        at = run.end()
    return [word for word in words + [data[at:].hex()] if word]


def result_of(data):
    """Bytes as the one word of a result: in brackets if they have several, or may be broken."""
    words = digits_of(data)
    return words if len(words) == 1 and len(words[0]) < 80 else ["(", *words, ")"]


def broken(front, words, end=""):
    """Lines of at most 125 characters. Digits may be broken."""
    lines, line = [], front
    for word in words:
        line += "" if line.endswith(" ") else " "
        while len(line) + len(word) > 125:
            room = (125 - len(line)) // 2 * 2
            if not re.fullmatch("[0-9a-f]*", word) or room < 20:
                room = 0
            lines.append((line + word[:room]).rstrip())
            line, word = "      ", word[room:]
        line += word
    if len(line) + len(end) > 125:
        lines.append(line)
        line = "     "
    return lines + [line + end]


def rows_of(name, der, about):
    """The rows of a certificate: whole, cut, and with a byte behind it. Each name is a front of it."""
    lines, front = ["", f"# {about}: {len(der):,} bytes."], ""
    cuts = cuts_of(der)
    for number, (start, end) in enumerate(zip([0] + cuts[1:], cuts[1:] + [len(der)])):
        lines += broken(f"{name}_{number} =", [front] * bool(front) + digits_of(der[start:end]))
        front = f"${name}_{number}"
        if end < len(der):
            lines.append(f"certificate_key | {front} = none")
    key = broken(f"certificate_key | {front} =", result_of(key_of(der)))
    return lines + key + [f"certificate_key | {front} 00 = none"]


def made_rows(folder):
    lines = ["# ---- certificates that openssl makes, cut at the ends of their elements, and with a byte behind them"]
    for key in KEYS:
        lines += rows_of(f"{key}_V1", made(folder, key, "/CN=a", [], True), f"A key of {key}, without a version")
    for number, (key, (about, subject, extensions)) in enumerate(zip(list(KEYS) + ["ED25519"] * 3, SHAPES * 3)):
        der = made(folder, key, subject, extensions)
        lines += rows_of(f"{key}_V3_{number}", der, f"A key of {key}, {about}")
    der = made(folder, "ED448", "/CN=a", [HUGE])
    return lines + rows_of("HUGE", der, "A key of ED448, and 70,000 bytes in an extension")


def authority_rows():
    lines = ["", "# ---- certificates of authorities, which are public"]
    found = []
    for path in sorted(glob.glob(AUTHORITIES)):
        der = openssl("x509", "-in", path, "-outform", "DER")
        found.append((len(der), os.path.basename(path)[:-4], der, len(key_of(der))))
    rsa = [each for each in sorted(found) if each[3] > 200]
    curve = [each for each in sorted(found) if each[3] < 200]
    for number, (_, name, der, _) in enumerate(curve[:3] + curve[-1:] + rsa[:2]):
        lines += rows_of(f"AUTHORITY_{number}", der, name.encode("ascii", "replace").decode())
    return lines


# ---- a small certificate

# What is read of a certificate and what is not, on one of 79 bytes without names.
SMALL = """
# ---- a certificate of 79 bytes, without names; and without a version, which has the tag a0

ALGORITHM = 3005 06032b6570
NAMES = 3000 3000 3000
FIELDS = 020105 $ALGORITHM $NAMES
KEY = x32(b1)
KEY_INFO = 302a $ALGORITHM 0321 00 $KEY
BEHIND = $ALGORITHM 030100
WHOLE = 304d 3041 a003020102 $FIELDS $KEY_INFO $BEHIND

certificate_key | $WHOLE = $KEY
certificate_key | 3048 303c $FIELDS $KEY_INFO $BEHIND = $KEY

# A byte behind it; another number of unused bits of the key; nothing; and each length of the certificate that is not its
# own, not in its shortest form, not given, or of five bytes.
certificate_key | $WHOLE 00 = none
certificate_key | 304d 3041 a003020102 $FIELDS 302a $ALGORITHM 0321 01 $KEY $BEHIND = none
certificate_key | = none
certificate_key | 304c 3041 a003020102 $FIELDS $KEY_INFO $BEHIND = none
certificate_key | 304e 3041 a003020102 $FIELDS $KEY_INFO $BEHIND = none
certificate_key | 30814d 3041 a003020102 $FIELDS $KEY_INFO $BEHIND = none
certificate_key | 3082004d 3041 a003020102 $FIELDS $KEY_INFO $BEHIND = none
certificate_key | 308300004d 3041 a003020102 $FIELDS $KEY_INFO $BEHIND = none
certificate_key | 30840000004d 3041 a003020102 $FIELDS $KEY_INFO $BEHIND = none
certificate_key | 3085000000004d 3041 a003020102 $FIELDS $KEY_INFO $BEHIND = none
certificate_key | 3080 3041 a003020102 $FIELDS $KEY_INFO $BEHIND = none
certificate_key | 3080 3041 a003020102 $FIELDS $KEY_INFO $BEHIND 0000 = none
certificate_key | 30ff 3041 a003020102 $FIELDS $KEY_INFO $BEHIND = none

# ---- what is not read: the issuer, with another key in it; the bodies of the version, the serial number and the algorithm;
# what is behind the SubjectPublicKeyInfo; and what is behind the TBSCertificate

certificate_key | 306f 3063 a003020102 020105 $ALGORITHM 3022 0420 $KEY 3000 3000 302a $ALGORITHM 0321 00 x32(b2) $BEHIND
      = x32(b2)
certificate_key | 304d 3041 a003ffffff 0201ff 3005 ffffffffff $NAMES $KEY_INFO $BEHIND = $KEY
certificate_key | 304d 3041 a003020102 $FIELDS 302a 3005 ffffffffff 0321 00 $KEY $BEHIND = $KEY
certificate_key | 304f 3043 a003020102 $FIELDS $KEY_INFO a300 $BEHIND = $KEY
certificate_key | 304e 3042 a003020102 $FIELDS $KEY_INFO ff $BEHIND = $KEY
certificate_key | 304d 3041 a003020102 $FIELDS $KEY_INFO x10(ff) = $KEY
certificate_key | 3043 3041 a003020102 $FIELDS $KEY_INFO = $KEY

# ---- what is read: a version twice; no serial number, no algorithm; other tags; a byte behind the key; and no byte of the
# key, and not even that of its unused bits

certificate_key | 3052 3046 a003020102 a003020102 $FIELDS $KEY_INFO $BEHIND = none
certificate_key | 304a 303e a003020102 $ALGORITHM $NAMES $KEY_INFO $BEHIND = none
certificate_key | 3046 303a a003020102 020105 $NAMES $KEY_INFO $BEHIND = none
certificate_key | 314d 3041 a003020102 $FIELDS $KEY_INFO $BEHIND = none
certificate_key | 304d 3141 a003020102 $FIELDS $KEY_INFO $BEHIND = none
certificate_key | 304d 3041 a103020102 $FIELDS $KEY_INFO $BEHIND = none
certificate_key | 304d 3041 8003020102 $FIELDS $KEY_INFO $BEHIND = none
certificate_key | 304d 3041 a003020102 030105 $ALGORITHM $NAMES $KEY_INFO $BEHIND = none
certificate_key | 304d 3041 a003020102 $FIELDS 312a $ALGORITHM 0321 00 $KEY $BEHIND = none
certificate_key | 304d 3041 a003020102 $FIELDS 302a $ALGORITHM 0421 00 $KEY $BEHIND = none
certificate_key | 304e 3042 a003020102 $FIELDS 302b $ALGORITHM 0321 00 $KEY 00 $BEHIND = none
certificate_key | 302d 3021 a003020102 $FIELDS 300a $ALGORITHM 0301 00 $BEHIND =
certificate_key | 302c 3020 a003020102 $FIELDS 3009 $ALGORITHM 0300 $BEHIND = none
certificate_key | 302a 301e a003020102 $FIELDS 3007 $ALGORITHM $BEHIND = none

# ---- lengths of two to four bytes, of issuers of 128, 256 and 65,536 bytes; and each with a byte too many

TO_ISSUER = a003020102 020105 $ALGORITHM
FROM_ISSUER = 3000 3000 $KEY_INFO

certificate_key | 3081cf 3081c2 $TO_ISSUER 308180 x128(00) $FROM_ISSUER $BEHIND = $KEY
certificate_key | 3081d0 3081c3 $TO_ISSUER 30820080 x128(00) $FROM_ISSUER $BEHIND = none
certificate_key | 30820151 30820143 $TO_ISSUER 30820100 x256(00) $FROM_ISSUER $BEHIND = $KEY
certificate_key | 30820152 30820144 $TO_ISSUER 3083000100 x256(00) $FROM_ISSUER $BEHIND = none
certificate_key | 3083010053 3083010044 $TO_ISSUER 3083010000 x65536(00) $FROM_ISSUER $BEHIND = $KEY
certificate_key | 3083010054 3083010045 $TO_ISSUER 308400010000 x65536(00) $FROM_ISSUER $BEHIND = none
"""

CHANGED = """
# ---- this certificate with each bit changed of the tags and lengths that are read, of the byte before the key, and of the
# key. What is before a byte is named FRONT, and what is behind it REST. Four changes of lengths leave the key: a
# TBSCertificate that is longer by 2, 4 or 8 bytes, and a version that is shorter by one, after which the serial number has
# two bytes

FRONT_0 =
"""

# The certificate of SMALL.
CERTIFICATE = bytes.fromhex("304d3041a003020102020105300506032b6570300030003000302a300506032b6570032100" + "b1" * 32
                            + "300506032b6570030100")


def read_bytes(der):
    """The tags and lengths of the elements that are read, the byte before the key, and the key."""
    found = elements(der)
    info = [each for each in found if each[1] == 2 and each[4] == "SEQUENCE"][4]
    end = info[0] + info[2] + info[3]
    places = set()
    for at, depth, header, body, name in found:
        if at < end and depth <= 2 or info[0] < at < end and depth == 3:
            places |= set(range(at, at + header))
        if info[0] < at < end and name == "BIT STRING":
            places |= set(range(at, at + header + body))
    return sorted(places)


def changed_rows(der):
    """Each bit of these bytes changed."""
    lines = CHANGED.rstrip("\n").split("\n")
    lines += [f"FRONT_{at + 1} = " + f"$FRONT_{at} " * (at > 0) + f"{byte:02x}" for at, byte in enumerate(der)]
    lines += [f"REST_{len(der) - 1} ="]
    lines += [f"REST_{at} = {der[at + 1]:02x} $REST_{at + 1}" for at in range(len(der) - 2, -1, -1)]
    for at in read_bytes(der):
        lines.append("")
        for bit in range(8):
            changed = der[:at] + bytes([der[at] ^ 1 << bit]) + der[at + 1:]
            key = strict.certificate_key(changed)
            lines += broken(f"certificate_key | $FRONT_{at} {changed[at]:02x} $REST_{at} =",
                            ["none"] if key is None else result_of(key))
    return lines


def main():
    lines = [HEAD]
    with tempfile.TemporaryDirectory() as folder:
        lines += made_rows(folder)
    lines += authority_rows() + SMALL.rstrip("\n").split("\n") + changed_rows(CERTIFICATE)
    with open(sys.argv[1] if len(sys.argv) > 1 else OWN, "w", encoding="ascii") as file:
        file.write("\n".join(lines).rstrip("\n") + "\n")


if __name__ == "__main__":
    main()
