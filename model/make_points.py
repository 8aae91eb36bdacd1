#!/usr/bin/env python3
"""Makes crates/mls_rows/data/points.rows: points of P-256, P-384 and P-521 that openssl makes, and changes of them.

    make_points.py [FILE]

Each run makes other points. The expected results follow from how a point was made, not from a call of this repository:
openssl's own points are on their curves. So is each with y negated. With another y for this x a point is not, nor is one of
another curve with this length, nor one whose coordinates are the prime or more.
"""
import os
import subprocess
import sys

import strict

OWN = os.path.join(os.path.dirname(os.path.abspath(__file__)), "..", "crates", "mls_rows", "data", "points.rows")
POINTS = 50

# A suite, its curve, and other curves with as long points.
CURVES = [(2, "P-256", ("secp256k1", "brainpoolP256r1")), (7, "P-384", ("brainpoolP384r1",)), (5, "P-521", ())]

HEAD = """\
# Points of P-256, P-384 and P-521 (FIPS 186-4, D.1.2), which are the keys of the KEMs of the cipher suites 2, 7 and 5 (RFC
# 9180, 7.1.4). model/make_points.py makes this file, and openssl the points.
#
# Of each point: as it is, with one bit of y changed, with y negated, with the prime in place of x, with the prime added to a
# coordinate where that has as many bytes, and with a y of the curve whose b is greater by one or more.
"""


def openssl(*words, sent=None):
    told = subprocess.run(["openssl", *words], input=sent, capture_output=True, check=False)
    if told.returncode:
        raise SystemExit(f"openssl {' '.join(words)}: {told.stderr.decode()}")
    return told.stdout


def made_point(curve, length):
    """The coordinates of a new point: the last bytes of a SubjectPublicKeyInfo."""
    made = openssl("genpkey", "-algorithm", "EC", "-pkeyopt", f"ec_paramgen_curve:{curve}", "-outform", "DER")
    found = openssl("ec", "-inform", "DER", "-pubout", "-conv_form", "uncompressed", "-outform", "DER", sent=made)[-length:]
    assert found[0] == 4
    size = length // 2
    return int.from_bytes(found[1:1 + size], "big"), int.from_bytes(found[1 + size:], "big")


def root(curve, number):
    """A square root, or None."""
    found = pow(number, (curve.prime + 1) // 4, curve.prime)
    return found if found * found % curve.prime == number else None


def other_root(curve, x):
    """The y of a point with this x on a curve with another b."""
    total = strict.curve_sum(curve, x)
    return next(filter(None, (root(curve, (total + more) % curve.prime) for more in range(1, 99))))


class Rows:
    """The rows of one suite."""

    def __init__(self, suite):
        self.suite = suite
        self.curve = strict.POINT_CURVES[suite]
        self.size = strict.POINTS[suite] // 2
        self.lines = []

    def hex(self, number):
        return number.to_bytes(self.size, "big").hex()

    def define(self, name, number):
        self.lines += broken(f"{name} = ", self.hex(number), "")

    def row(self, x, y, wanted):
        """A row of coordinates, each a name or a number."""
        words = [word if isinstance(word, str) else self.hex(word) for word in (x, y)]
        self.lines += broken(f"suite_point | {self.suite} | 04 ", " ".join(words), f" = {wanted}")

    def point(self, number, x, y):
        """The rows of a point."""
        prime, fits = self.curve.prime, 256**self.size
        names = f"X_{self.suite}_{number}", f"Y_{self.suite}_{number}"
        self.define(names[0], x)
        self.define(names[1], y)
        one, other = (f"${name}" for name in names)
        self.row(one, other, "yes")
        self.row(one, y ^ 1 << number * 7 % prime.bit_length(), "no")
        self.row(one, prime - y, "yes")
        self.row(f"$P_{self.suite}", other, "no")
        if x + prime < fits:
            self.row(x + prime, other, "no")
        if y + prime < fits:
            self.row(one, y + prime, "no")
        self.row(one, other_root(self.curve, x), "no")


def broken(front, digits, end):
    """Lines of at most 125 characters: what is in front, digits and names, of which the digits may be broken, and an end."""
    lines, line = [], front
    for word in digits.split():
        if line and not line.endswith(" "):
            line += " "
        while len(line) + len(word) + len(end) > 125:
            room = (125 - len(line)) // 2 * 2
            if word.startswith("$") or room < 20:
                room = 0
            lines.append((line + word[:room]).rstrip())
            line, word = "      ", word[room:]
        line += word
    return lines + [line + end]


def main():
    lines = [HEAD]
    for suite, name, others in CURVES:
        rows = Rows(suite)
        rows.lines.append(f"# ---- {name}\n")
        rows.define(f"P_{suite}", rows.curve.prime)
        for number in range(POINTS):
            rows.lines.append("")
            rows.point(number, *made_point(name, strict.POINTS[suite]))
        for other in others:
            rows.lines.append(f"\n# Points of {other}.")
            for _ in range(5):
                rows.row(*made_point(other, strict.POINTS[suite]), "no")
        lines += rows.lines + [""]
    with open(sys.argv[1] if len(sys.argv) > 1 else OWN, "w", encoding="ascii") as file:
        file.write("\n".join(lines).rstrip("\n") + "\n")


if __name__ == "__main__":
    main()
