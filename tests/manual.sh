#!/bin/sh
# Makes the manual page and the completions of the built program by tools/manual.py, and tries them: the page by groff, what
# bash completes, and the syntax of the others by their shells. What is not installed is named and left out. Run it by hand.
# It ends with 1 at the first fault.
set -eu

cd -- "$(dirname -- "$0")/.."
made=$(mktemp -d)
trap 'rm -r -- "$made"' EXIT
tools/manual.py "${1:-./mlscheck}" "$made"

# Runs the command after NAME, if it is installed.
try() {
    name=$1
    shift
    if command -v "$1" >/dev/null; then
        "$@" || exit 1
        echo "tried: $name"
    else
        echo "left out: $name, since $1 is not installed"
    fi
}

groff_says() {
    said=$(groff -man -Tutf8 -ww -z "$made/mlscheck.1" 2>&1)
    [ -z "$said" ] || { echo "$said" >&2; exit 1; }
}
command -v groff >/dev/null && groff_says && echo 'tried: the page'

cat >"$made/words.bash" <<'END'
. "$1/mlscheck.bash"
cd "$1" && touch some.info
expect() {
    wanted=$1
    shift
    COMP_WORDS=("$@") COMP_CWORD=$(($# - 1)) COMPREPLY=()
    _mlscheck
    [ "${COMPREPLY[*]}" = "$wanted" ] || { echo "$*: '${COMPREPLY[*]}', wanted '$wanted'" >&2; exit 1; }
}
expect 'validate-tree validate validate-key-package' mlscheck val
expect '--profile' mlscheck replay --pro
expect 'full' mlscheck replay --profile f
expect 'some.info' mlscheck replay --info some
expect 'members message' mlscheck show me
expect 'some.info' mlscheck show info so
expect '' mlscheck gate --now 1
expect 'tree-math tree-validation tree-operations transcript' mlscheck check tr
expect 'signatures' mlscheck help sig
END
try 'what bash completes' bash "$made/words.bash" "$made"
try 'the syntax of the file for zsh' zsh -n "$made/_mlscheck"
try 'the syntax of the file for fish' fish -n "$made/mlscheck.fish"
