#!/bin/sh
# Times `mlscheck show tree` on a tree of 100,000 leaves, whose input has about 15 million bytes: every
# leaf is non-blank, and so is every second parent of the lowest level, with one unmerged leaf each. Of
# the report only the last line is printed.
set -e
here=$(dirname -- "$(readlink -f -- "$0")")
folder=$(mktemp -d)
trap 'rm -rf -- "$folder"' EXIT

python3 - "$folder/large.tree" <<'PYTHON'
import hashlib
import sys

LEAVES = 100_000


def vector(body):
    size = len(body)
    if size < 64:
        return bytes([size]) + body
    if size < 16_384:
        return (0x4000 | size).to_bytes(2, "big") + body
    return (0x8000_0000 | size).to_bytes(4, "big") + body


def key(name):
    return hashlib.sha256(name.encode()).digest()


def leaf(index):
    capabilities = bytes.fromhex("020001 020001 00 00 020001")
    lifetime = b"\x01" + (0).to_bytes(8, "big") + (2**64 - 1).to_bytes(8, "big")
    credential = b"\x00\x01" + vector(b"member %d" % index)
    keys = vector(key(f"encryption {index}")) + vector(key(f"signature {index}"))
    return b"\x01\x01" + keys + credential + capabilities + lifetime + b"\x00" + vector(bytes(16))


def parent(place):
    unmerged = (place // 2 + 1).to_bytes(4, "big")
    return b"\x01\x02" + vector(key(f"parent {place}")) + vector(key(f"hash {place}")) + vector(unmerged)


entries = []
for place in range(2 * LEAVES - 1):
    if place % 2 == 0:
        entries.append(leaf(place // 2))
    elif place % 8 == 1:
        entries.append(parent(place))
    else:
        entries.append(b"\x00")
with open(sys.argv[1], "wb") as file:
    file.write(vector(b"".join(entries)))
PYTHON

"$here/../mlscheck" --build
ls -l "$folder/large.tree"
time "$here/../mlscheck" show tree "$folder/large.tree" >"$folder/report"
tail -n 1 "$folder/report"
wc -l "$folder/report"
