#!/bin/sh
# Tries each exit status on the real program, with the files of this folder, and what it prints. Run it by hand,
# from anywhere: neither `rt ci` nor any test runs it. It ends with 1 at the first status or text that is another one.
set -eu

cd -- "$(dirname -- "$0")/.."
made=$(mktemp -d)
trap 'rm -r -- "$made"' EXIT

# Runs the program on the arguments after STATUS, STREAM and TEXT. Expects this status, and this text on a stream.
expect() {
    status=$1 stream=$2 text=$3
    shift 3
    got=0
    ./mlscheck "$@" >"$made/out" 2>"$made/notes" || got=$?
    if [ "$got" -ne "$status" ] || ! grep -qF -e "$text" "$made/$stream"; then
        echo "mlscheck $*: status $got, wanted $status with '$text' in its $stream" >&2
        exit 1
    fi
    echo "$status mlscheck $*"
}

context=examples/one-leaf.context
tree=examples/one-leaf.tree
printf 'no digest\n' >"$made/bad"

expect 0 out 'leaves 1 members 1' show tree "$tree"
expect 0 out 'leaves 1 members 1' show tree - <"$tree"
expect 0 out 'leaves 1 members 1' show members "$tree"
expect 0 out 'leaves 2 members 2' show members examples/real/epoch-1.info
expect 0 out 'records 10' show log examples/real/handshakes.log
expect 0 out 'valid ' validate-tree --context "$context" --tree "$tree" --trust
expect 0 out 'valid ' validate-tree --context "$context" --tree "$tree" \
    --receipts examples/one-leaf.receipts
expect 0 out 'valid epoch 1 members 2 ' validate --info examples/real/epoch-1.info \
    --receipts examples/real/receipts.txt
expect 0 out 'accepted 10 refused 0 broken 0 epoch 8' replay --info examples/real/epoch-1.info \
    --log examples/real/handshakes.log --receipts examples/real/receipts.txt
expect 0 out ' 1 b0 134d4c5320312e30204c6561664e6f6465544253' signatures \
    --info examples/one-leaf.info
package=examples/key-package.mls
expect 0 out '1 good 2ecb8b18295924eead626e0aeaf767ebefa71136bd7e54db65cb6132a1b4968a 1 0 18446744073709551615' \
    validate-key-package "$package" --trust
expect 0 out 'good 2 of 2' validate-key-package "$package" - --trust <"$package"
expect 0 out '47c350198b187b8db3ec7885f5f8de0799a2ebdd4d7c97610b7b94d2af36410e 1 b1 ' signatures --key-package "$package"
for kind in tree-math tree-validation tree-operations transcript; do
    expect 0 out ' failed 0 ' check "$kind" "examples/$kind.json"
done
expect 0 out 'Usage: mlscheck' --help
expect 0 out "mlscheck $(cat VERSION) (" --version

expect 1 out 'unreadable ' show tree "$context"
expect 1 out 'unreadable ' show state "$tree"
expect 1 out 'tree refused 1 HashDiffers' validate-tree --context "$context" \
    --tree examples/six-members.tree --trust
expect 1 out 'receipts unreadable 1' validate-tree --context "$context" --tree "$tree" \
    --receipts "$made/bad"

expect 1 out 'start refused 8 InfoSignature' validate --info examples/one-leaf.info \
    --receipts examples/one-leaf.receipts
expect 1 out 'accepted 0 refused 1 broken 0 epoch 0' replay --info examples/one-leaf.info \
    --log examples/six-members.tree --trust

expect 1 out '1 unfit 89 Strict 44 KeyForm' validate-key-package "$package" --trust --strict
expect 1 out '1 unfit 87 Unsigned 2' validate-key-package "$package" --receipts /dev/null
expect 1 out 'good 1 of 2' validate-key-package "$package" examples/add.message --trust
expect 1 out '1 unreadable NotKeyPackage' signatures --key-package examples/add.message

expect 1 out '1 fail n_leaves' check tree-math examples/transcript.json
expect 1 out 'vectors unreadable' check transcript "$tree"

expect 2 notes 'requires a subcommand'
expect 2 notes 'unrecognized subcommand' nope
expect 2 notes 'usage: give one of --trust and --receipts' validate-tree --context "$context" \
    --tree "$tree"
expect 2 notes 'usage: give one of --trust and --receipts' validate-tree --context "$context" \
    --tree "$tree" --trust --receipts examples/one-leaf.receipts
expect 2 notes 'usage: standard input can be given for one file' validate-tree --context - \
    --tree - --trust

expect 2 notes '<FILE>...' validate-key-package --trust
expect 2 notes 'usage: give one of --trust and --receipts' validate-key-package "$package"
expect 2 notes 'usage: standard input can be given for one file' validate-key-package - - --trust
expect 2 notes 'usage: with --key-package give --strict, --allow and --receipts alone' signatures \
    --key-package "$package" --info examples/one-leaf.info

expect 2 notes 'usage: KIND is ' check nope examples/tree-math.json

log=examples/six-members.tree
for seconds in '' x -1 +1 1.5 18446744073709551616; do
    expect 2 notes 'usage: SECONDS is a number from 0 to 18446744073709551615' replay \
        --info examples/one-leaf.info --log "$log" --trust "--now=$seconds"
    expect 2 notes 'usage: SECONDS is a number from 0 to 18446744073709551615' gate \
        --info examples/one-leaf.info --trust "--now=$seconds"
done
expect 2 notes "'-1'" replay --info examples/one-leaf.info --log "$log" --trust --now -1
expect 2 notes '--now <SECONDS>' gate --info examples/one-leaf.info --trust --now 1 --now 1
expect 2 notes '--now' validate --info examples/one-leaf.info --trust --now 1

expect 3 notes 'fault: read' show tree "$made/missing"
expect 3 notes 'fault: read' validate-key-package "$package" "$made/missing" --trust
expect 3 out '1 good ' validate-key-package "$package" "$made/missing" --trust
expect 3 notes 'fault: read' signatures --key-package "$package" "$made/missing"
expect 3 notes 'fault: read' check tree-math "$made/missing"
expect 3 notes 'fault: read' validate-tree --context "$context" --tree "$tree" \
    --receipts "$made/missing"

got=0
./mlscheck show tree "$tree" >/dev/full 2>"$made/notes" || got=$?
if [ "$got" -ne 3 ] || [ "$(head -1 "$made/notes")" != 'fault: write' ]; then
    echo "mlscheck show tree $tree >/dev/full: status $got, wanted 3 with 'fault: write'" >&2
    exit 1
fi
echo "3 mlscheck show tree $tree >/dev/full"
