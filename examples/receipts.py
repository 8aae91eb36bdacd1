#!/usr/bin/env python3
"""Checks the signatures that `mlscheck signatures` prints, and writes the receipt of each good one.

    mlscheck signatures --info FILE [--tree FILE] [--log FILE] [--receipts FILE] | receipts.py
    receipts.py LINES

A line that holds a signature has five words: its receipt, the cipher suite, and in hexadecimal the public key, the signed
content and the signature (docs/FORMATS.md). The first word of each whose signature is good is written, a line for each:
that is a file of receipts. Other lines, and how many were good and bad, go to standard error.

The arithmetic is that of the Python package `cryptography` (Debian's python3-cryptography). Nothing here is proved.
"""

import argparse
import re
import sys

try:
    from cryptography.exceptions import InvalidSignature, UnsupportedAlgorithm
    from cryptography.hazmat.primitives import hashes
    from cryptography.hazmat.primitives.asymmetric import ec, ed25519, ed448
except ImportError:
    sys.exit("fault: the Python package cryptography is not here (Debian's python3-cryptography)")

HEX = "(?:-|(?:[0-9a-f]{2})+)"
LINE = re.compile(f"([0-9a-f]{{64}}) ([0-9]+) ({HEX}) ({HEX}) ({HEX})\n?")


def check_ed25519(key, content, signature):
    ed25519.Ed25519PublicKey.from_public_bytes(key).verify(signature, content)


def check_ed448(key, content, signature):
    ed448.Ed448PublicKey.from_public_bytes(key).verify(signature, content)


def ecdsa_check(curve, digest):
    def check(key, content, signature):
        if key[:1] != b"\x04":
            raise ValueError("the point is not in its uncompressed form")
        point = ec.EllipticCurvePublicKey.from_encoded_point(curve, key)
        point.verify(signature, content, ec.ECDSA(digest))

    return check


# The signature schemes of the cipher suites (RFC 9420, 17.1).
CHECKS = {
    1: check_ed25519,
    2: ecdsa_check(ec.SECP256R1(), hashes.SHA256()),
    3: check_ed25519,
    4: check_ed448,
    5: ecdsa_check(ec.SECP521R1(), hashes.SHA512()),
    6: check_ed448,
    7: ecdsa_check(ec.SECP384R1(), hashes.SHA384()),
}


def bytes_of(word):
    return b"" if word == "-" else bytes.fromhex(word)


def is_good(suite, key, content, signature):
    if suite not in CHECKS:
        return False
    try:
        CHECKS[suite](key, content, signature)
    except (InvalidSignature, UnsupportedAlgorithm, ValueError):
        return False
    return True


def lines_of(files):
    for name in files or ["-"]:
        try:
            with open(0 if name == "-" else name, encoding="ascii", errors="replace") as file:
                yield from file
        except OSError as error:
            print(f"fault: {name}: {error.strerror}", file=sys.stderr)
            sys.exit(3)


def main():
    parser = argparse.ArgumentParser(
        description="Checks the signatures that `mlscheck signatures` prints, and writes the receipt of each good one.")
    parser.add_argument("LINES", nargs="*", help="a file with these lines; standard input, if none is named")
    good = 0
    bad = 0
    for line in lines_of(parser.parse_args().LINES):
        words = LINE.fullmatch(line)
        if words is None:
            print(line.rstrip("\n"), file=sys.stderr)
            continue
        receipt, suite, key, content, signature = words.groups()
        if is_good(int(suite), bytes_of(key), bytes_of(content), bytes_of(signature)):
            good += 1
            print(receipt)
        else:
            bad += 1
    print(f"good {good} bad {bad}", file=sys.stderr)


if __name__ == "__main__":
    main()
