#!/bin/sh
# Refuses each allocation, one in each run, of the program crates/mls_hostile, which makes calls of the libraries and says
# whether all is unchanged after an allocation failed. It is run by `rt try`, which proves nothing, and checks each access. Run it by
# hand, from anywhere: neither `rt ci` nor any test runs it. It ends with 1 if any run is not as it has to be.
set -eu

cd -- "$(dirname -- "$0")/../crates/mls_hostile"
made=$(mktemp -d)
trap 'rm -r -- "$made"' EXIT
mkdir "$made/none" "$made/each"

# How many allocations the calls make: a run of which none is refused.
echo '0 0 0' >"$made/none/0"
rt try --steps 100000000 --fail-alloc 1000000 --cases "$made/none" >"$made/out" 2>"$made/notes" || {
    cat "$made/out" "$made/notes" >&2
    exit 1
}
count=$(sed -n 's/^allocations: \([0-9][0-9]*\)$/\1/p' "$made/notes")

# The allocation after the last one is refused in each run, and each run allocates more before the calls. So the refused
# allocation moves from after the last one of the calls to the first.
pieces=0
while [ "$pieces" -le "$count" ]; do
    echo "$pieces 0 0" >"$made/each/$(printf '%06d' "$pieces")"
    pieces=$((pieces + 1))
done
rt try --steps 1 --fail-alloc "$((count + 1))" --cases "$made/each" >"$made/out" 2>"$made/notes" || {
    cat "$made/out" "$made/notes" >&2
    exit 1
}

# How many runs ended with a status.
runs() {
    grep -c "^case=[0-9]* run=ended status=$1 " "$made/notes" || true
}

# A run in which no call fails ends with 0: the first one, and those in which a list that was read can't be made smaller.
if [ "$(runs 0)" -lt 1 ] || [ "$(($(runs 0) + $(runs 2) + $(runs 3)))" -ne "$((count + 1))" ]; then
    grep -v ' status=[023] ' "$made/notes" >&2
    grep wrong "$made/out" >&2 || true
    echo "of $((count + 1)) runs not all are as they have to be" >&2
    exit 1
fi
echo "$count allocations refused: $(runs 3) in the calls, $(runs 2) around them, and $(($(runs 0) - 1)) without effect"
