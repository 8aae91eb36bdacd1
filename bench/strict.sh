#!/bin/sh
# Times starts and commits with strict rules and without, by `mlscheck replay --trust`, in a group of MEMBERS members (100,000)
# of cipher suite 1 and of suite 2, whose keys are points of P-256. A line has the seconds of the processor, the fastest of
# RUNS runs (7).
#
# - start: a log of no messages, in a group that was made by 1,000 commits
# - paths: 1,000 commits with a path in that group
# - ciphertexts: a commit in a group of blank parents, whose path has a ciphertext for each other member
#
# The first argument is MEMBERS. PROGRAM in the environment names another program that takes the same arguments. The script
# needs GNU time. Making the groups takes a minute or two.
set -e
here=$(dirname -- "$(readlink -f -- "$0")")
folder=$(mktemp -d)
trap 'rm -rf -- "$folder"' EXIT
trap 'exit 130' INT TERM
program=${PROGRAM:-$here/../mlscheck}
[ -n "$PROGRAM" ] || "$program" --build
members=${1:-100000}

# Prints the least seconds of a log in the group of a folder.
seconds() {
    count=${RUNS:-7}
    while [ "$count" -gt 0 ]; do
        env time -q -o "$folder/usage" -f '%U %S' "$program" replay --info "$1/info" --tree "$1/tree" --trust \
            --log "$2" $3 >"$folder/report" || [ $? = 1 ]
        tail -n 1 "$folder/usage"
        count=$((count - 1))
    done | awk 'NR == 1 || $1 + $2 < least { least = $1 + $2 } END { printf "%.3f", least }'
}

tell() {
    plain=$(seconds "$2" "$3")
    strict=$(seconds "$2" "$3" --strict)
    last=$(tail -n 1 "$folder/report")
    awk -v name="$1" -v plain="$plain" -v strict="$strict" -v last="$last" \
        'BEGIN { printf "%-26s %7.3f s, strictly %7.3f s, ratio %.2f: %s\n", name, plain, strict, strict / plain, last }'
}

for suite in 1 2; do
    for group in made blank; do
        mkdir "$folder/$group-$suite"
        commits=$([ $group = made ] && echo 1000 || echo 0)
        log=$([ $group = made ] && echo 1000 || echo 1)
        python3 "$here/group.py" "$folder/$group-$suite" --members "$members" --commits "$commits" --log "$log" \
            --suite $suite >/dev/null
        : >"$folder/$group-$suite/empty"
    done
    tell "suite $suite, start" "$folder/made-$suite" "$folder/made-$suite/empty"
    tell "suite $suite, paths" "$folder/made-$suite" "$folder/made-$suite/log"
    tell "suite $suite, blank, start" "$folder/blank-$suite" "$folder/blank-$suite/empty"
    tell "suite $suite, ciphertexts" "$folder/blank-$suite" "$folder/blank-$suite/log"
done
