#!/bin/sh
# Cuts the log of the real group of this folder in two at each message: the first part is replayed with --save, the second
# one with --state. This is done in each profile, without strict rules and with all of them. The lines have to be those of the
# whole log, except for their numbers, and the last state that of the whole log. The signatures to verify of each state and
# second part have to be among those of the whole log.
#
# The receipts of the signatures of a state have to suffice to resume from it, and none may be left out. Without that of the
# content of a pending proposal the state is refused as number 9, at this proposal. This is tried at each cut, and with a state
# of three pending proposals of a made group.
#
# Then a state is stored where no more bytes can be written: neither the old state nor the report may be lost. Last the program
# is killed at each call of the system that it makes while it stores a state: the file has to be the old one or the new one, and
# the next run has to store the new one. This needs strace (`apt-get install strace`), which has to be allowed to trace: if not,
# the script says so and ends with 1.
#
# Run it by hand, from anywhere: neither `rt ci` nor any test runs it. It ends with 1 at the first difference. PROGRAM in the
# environment names another program.
set -eu

cd -- "$(dirname -- "$0")/.."
made=$(mktemp -d)
trap 'rm -rf -- "$made"' EXIT
trap 'exit 130' INT TERM
program=${PROGRAM:-./mlscheck}
[ -n "${PROGRAM:-}" ] || ./mlscheck --build

# Writes the messages of the log FROM on, as many as COUNT, to a file.
cut_log() {
    python3 - "$@" <<'EOF_PYTHON'
import sys

log, first, count, out = sys.argv[1], int(sys.argv[2]), int(sys.argv[3]), sys.argv[4]
data = open(log, "rb").read()
records = []
at = 0
while at < len(data):
    size = {0: 1, 1: 2, 2: 4}[data[at] >> 6]
    length = int.from_bytes(data[at:at + size], "big") & ((1 << (8 * size - 2)) - 1)
    records.append(data[at:at + size + length])
    at += size + length
open(out, "wb").write(b"".join(records[first:first + count]))
print(len(records))
EOF_PYTHON
}

# The lines of messages in a report, without their numbers.
answers() {
    sed -e '$d' -e 's/^[0-9]* //' "$1"
}

fail() {
    echo "$1" >&2
    exit 1
}

# The line of `validate` for a state, by the receipts of a file.
validity() {
    "$program" validate --state "$1" --receipts "$2" || true
}

# The beginning of what a FramedContent is signed in: the label, and the text of it.
framed=184d4c5320312e30204672616d6564436f6e74656e74544253

# Checks that a follower resumes from a state by the receipts of its signatures, and not if one is left out. Without that of
# the content of a pending proposal the state has to be refused for this proposal. Prints how many are pending.
check_receipts() {
    "$program" signatures --state "$1" >"$made/listed"
    cut -d ' ' -f 1 "$made/listed" >"$made/receipts"
    validity "$1" "$made/receipts" | grep -q '^valid epoch ' || fail "$2: the receipts of a state do not suffice"
    number=0 pending=0
    while read -r receipt suite key content signature; do
        number=$((number + 1))
        sed "${number}d" "$made/receipts" >"$made/fewer"
        line=$(validity "$1" "$made/fewer")
        case $content in
        "$framed"*)
            [ "$line" = "state refused 9 KnownInvalid $pending" ] \
                || fail "$2: without the receipt of the pending proposal $pending: $line"
            pending=$((pending + 1))
            ;;
        *)
            case $line in
            'state refused 7 Member 5 LeafSignature '* | 'state refused 9 KnownInvalid '*) ;;
            *) fail "$2: without the receipt $number: $line" ;;
            esac
            ;;
        esac
    done <"$made/listed"
    echo "$pending"
}

info=examples/real/epoch-1.info
log=examples/real/handshakes.log
receipts=examples/real/receipts.txt
count=$(cut_log "$log" 0 0 "$made/none")

# Cuts the log in two at each message, in a profile, and with the strict rules that the second word asks.
cut_everywhere() {
    name="$1 profile${2:+, $2}"
    start="--info $info --profile $1 $2"
    "$program" replay $start --log "$log" --receipts "$receipts" --save "$made/whole.state" >"$made/whole"
    answers "$made/whole" >"$made/wanted"
    "$program" signatures $start --log "$log" | sort -u >"$made/signatures"
    at=0 held=0
    while [ "$at" -le "$count" ]; do
        cut="$name, cut after $at messages"
        cut_log "$log" 0 "$at" "$made/front.log" >/dev/null
        cut_log "$log" "$at" "$count" "$made/back.log" >/dev/null
        "$program" replay $start --log "$made/front.log" --receipts "$receipts" --save "$made/group.state" >"$made/front"
        validity "$made/group.state" "$receipts" | grep -q '^valid epoch ' || fail "$cut: the state is not valid"
        pending=$(check_receipts "$made/group.state" "$cut")
        held=$((held + pending))
        "$program" signatures --state "$made/group.state" --log "$made/back.log" | sort -u >"$made/found"
        [ -s "$made/found" ] && [ -z "$(comm -23 "$made/found" "$made/signatures")" ] || fail "$cut: other signatures"
        "$program" replay --state "$made/group.state" --log "$made/back.log" --receipts "$receipts" \
            --save "$made/group.state" >"$made/back"
        { answers "$made/front"; answers "$made/back"; } >"$made/found"
        cmp -s "$made/wanted" "$made/found" || fail "$cut: other lines"
        [ "$(sed -n 's/.* epoch //p' "$made/whole" | tail -n 1)" = "$(sed -n 's/.* epoch //p' "$made/back" | tail -n 1)" ] \
            || fail "$cut: another epoch"
        cmp -s "$made/whole.state" "$made/group.state" || fail "$cut: another state"
        at=$((at + 1))
    done
    # In the log three proposals are pending before the commits that name them.
    [ "$held" -eq 3 ] || fail "$name: $held pending proposals"
    echo "$name: cut at each of $count messages, the same lines and the same state, by the receipts of the states"
}

for profile in members full; do
    cut_everywhere $profile ''
    cut_everywhere $profile --strict
done

# A group with three pending proposals, of which one has authenticated data, one has two signatures more and one has one.
python3 - "$made" <<'EOF_PYTHON'
import sys

sys.path.insert(0, "bench")
from group import Group, new_leaf, vector
from messages import add, proposal, remove, update

folder = sys.argv[1]
group = Group(3)
proposals = [(0, remove(2), b"data"), (1, add(new_leaf("added"))), (2, update(new_leaf("updated")))]
log = [proposal(group, *each, signature=b"%d" % number)[0] for number, each in enumerate(proposals)]
for name, body in (("info", group.info()), ("tree", group.tree()), ("log", b"".join(map(vector, log)))):
    with open(f"{folder}/pending.{name}", "wb") as file:
        file.write(body)
EOF_PYTHON
for profile in members full; do
    "$program" replay --info "$made/pending.info" --tree "$made/pending.tree" --profile $profile --log "$made/pending.log" \
        --trust --save "$made/pending.state" >"$made/found" || fail "$profile profile: a proposal is refused"
    pending=$(check_receipts "$made/pending.state" "$profile profile, three pending proposals")
    [ "$pending" -eq 3 ] || fail "$profile profile: $pending pending proposals"
    echo "$profile profile: three pending proposals, each refused at its place without its receipt"
done

# No file may be longer than 512 bytes, which the state is. The report goes through a pipe, which has no such limit.
cut_log "$log" 0 3 "$made/front.log" >/dev/null
"$program" replay --info "$info" --log "$made/front.log" --receipts "$receipts" --save "$made/group.state" >"$made/front"
cp "$made/group.state" "$made/old.state"
cut_log "$log" 3 "$count" "$made/back.log" >/dev/null
"$program" replay --state "$made/group.state" --log "$made/back.log" --receipts "$receipts" >"$made/back"
(
    ulimit -f 1
    trap '' XFSZ
    got=0
    "$program" replay --state "$made/group.state" --log "$made/back.log" --receipts "$receipts" \
        --save "$made/group.state" 2>/dev/null || got=$?
    echo "status $got"
) | cat >"$made/full"
sed '$d' "$made/full" >"$made/full.report"
cmp -s "$made/back" "$made/full.report" || fail "no more bytes: the report is not whole"
[ "$(tail -n 1 "$made/full")" = 'status 3' ] || fail "no more bytes: $(tail -n 1 "$made/full"), wanted status 3"
cmp -s "$made/group.state" "$made/old.state" || fail "no more bytes: the old state is lost"
[ ! -e "$made/group.state.new" ] || fail "no more bytes: a file is left"
echo "no more bytes: status 3, the report is whole, the old state is as it was"

# A folder in which no file can be made.
mkdir "$made/missing"
rmdir "$made/missing"
got=0
"$program" replay --state "$made/group.state" --log "$made/back.log" --receipts "$receipts" \
    --save "$made/missing/group.state" >"$made/found" 2>"$made/notes" || got=$?
cmp -s "$made/back" "$made/found" || fail "no folder: the report is not whole"
[ "$got" -eq 3 ] && [ "$(head -1 "$made/notes")" = 'fault: write' ] || fail "no folder: status $got"
echo "no folder: status 3, the report is whole"

# The program itself, since the launcher makes calls of its own.
binary=${PROGRAM:-crates/mlscheck/out/mlscheck}
mkdir "$made/stored"
saved=$made/stored/group.state

# Stores the state after the log in the file, with the words of strace before it.
store() {
    "$@" "$binary" replay --state "$made/old.state" --log "$made/back.log" --receipts "$receipts" --save "$saved"
}

command -v strace >/dev/null || fail "not tried: a program that is killed while it stores a state, since strace is not here"
store strace -o "$made/calls" >"$made/found" 2>"$made/notes" \
    || fail "not tried: a program that is killed while it stores a state, since strace may not trace it: $(cat "$made/notes")"
cp "$saved" "$made/new.state"
cmp -s "$made/back" "$made/found" && ! cmp -s "$made/old.state" "$made/new.state" || fail "traced: another report or state"

# Each call by its name, and the how many-th of this name it is.
sed -n 's/^\([a-z0-9_]*\)(.*/\1/p' "$made/calls" | grep -v '^exit' | awk '{ print $1, ++seen[$1] }' >"$made/each"

# Kills the program at each call, where the file is the old one or, if the first word is `none`, is not there.
kill_everywhere() {
    old=0 new=0
    while read -r call nth; do
        rm -f -- "$saved" "$saved.new"
        [ "$1" = none ] || cp "$made/old.state" "$saved"
        got=0
        store strace -o "$made/trace" -e "inject=$call:signal=KILL:when=$nth" >"$made/found" 2>"$made/notes" </dev/null \
            || got=$?
        # At its first call the program may not have begun, and strace then says so.
        [ "$got" -eq 137 ] || [ "$call" = execve ] || fail "killed at $call $nth: status $got"
        if cmp -s "$saved" "$made/new.state"; then
            new=$((new + 1))
        elif [ "$1" = none ] && [ ! -e "$saved" ] || cmp -s "$saved" "$made/old.state"; then
            old=$((old + 1))
        else
            fail "killed at $call $nth: the file is neither the old one nor the new one"
        fi
        store >"$made/found" </dev/null || fail "killed at $call $nth: nothing is stored then"
        cmp -s "$saved" "$made/new.state" && [ ! -e "$saved.new" ] || fail "killed at $call $nth: another state, or a file is left"
    done <"$made/each"
    [ "$old" -gt 0 ] && [ "$new" -gt 0 ] || fail "killed: $old times the old file, $new times the new one"
    echo "killed at each of $((old + new)) calls of the system, $2: $old times the former file, $new times the new one"
}

kill_everywhere old 'with a file before'
kill_everywhere none 'without one before'
