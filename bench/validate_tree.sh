#!/bin/sh
# Times `mlscheck validate-tree --trust` on a valid tree of 100,000 members under 131,072 leaves. Also timed is
# how long reading and hashing the tree alone take: with a context of another tree hash the check ends after the
# hash. The tree is made by commits (the first argument is their number, or 1,000) of members that are spread
# evenly over it. Members who were added since (the second argument is their number, or 100) are unmerged. With
# 50,000 commits nearly every parent is non-blank.
set -e
here=$(dirname -- "$(readlink -f -- "$0")")
folder=$(mktemp -d)
trap 'rm -rf -- "$folder"' EXIT

python3 "$here/group.py" "$folder" --members 100000 --commits "${1:-1000}" --unmerged "${2:-100}"
"$here/../mlscheck" --build
ls -l "$folder/tree"
python3 - "$here/../mlscheck" "$folder" <<'PYTHON'
import os
import subprocess
import sys
import time

program, folder = sys.argv[1:]


def seconds(name):
    """How long the program works on the tree and this context, in seconds of the processor."""
    files = ["--context", f"{folder}/{name}.context", "--tree", f"{folder}/tree"]
    before = os.times()
    start = time.monotonic()
    subprocess.run([program, "validate-tree", *files, "--trust"])
    after = os.times()
    used = after.children_user + after.children_system - before.children_user - before.children_system
    print(f"{name}: {used:.2f} s of the processor, {time.monotonic() - start:.2f} s in all", flush=True)
    return used


alone = seconds("other-hash")
print(f"{seconds('valid') / alone:.1f} times as long as reading and hashing alone")
PYTHON
