#!/bin/sh
# Times `mlscheck replay --trust` on logs of commits (the first argument is their number, or 1,000), each with a
# path. In one log the commits have no proposals, in the second they add and remove members too. In the third the
# newest member adds one with each, and in the last a client joins by each, an external commit. The group has 1,000
# members, and then 100,000. Also printed is how long the start alone takes, by a log of no messages, and the most
# memory that was held. PROGRAM in the environment names another program that takes the same arguments. PEER names
# one that is run too, except on external commits, and has to print the same reports. KINDS names the logs (paths
# mixed adds joins). It needs GNU time.
set -e
here=$(dirname -- "$(readlink -f -- "$0")")
folder=$(mktemp -d)
trap 'rm -rf -- "$folder"' EXIT

# Prints the seconds of the processor that a program takes for a log, and stores its report.
run() {
    env time -o "$folder/usage" -f '%U %S %e %M' "$1" replay --info "$folder/info" \
        --tree "$folder/tree" --log "$folder/$2" --trust $profile >"$folder/report"
    awk -v name="$2" -v last="$(tail -n 1 "$folder/report")" \
        '{ printf "  %s: %.2f s of the processor, %.2f s in all, %.0f MB: %s\n", name, $1 + $2, $3, $4 / 1024, last }' \
        "$folder/usage"
    used=$(awk '{ print $1 + $2 }' "$folder/usage")
}

# Measures a log of no messages and then the log, and prints what the messages take.
compare() {
    echo "$(basename -- "$1"), $2:"
    run "$1" empty
    alone=$used
    run "$1" log
    awk -v used="$used" -v alone="$alone" 'BEGIN { printf "  %.2f s for the messages\n", used - alone }'
}

program=${PROGRAM:-$here/../mlscheck}
[ -n "$PROGRAM" ] || "$program" --build
for members in 1000 100000; do
    for kind in ${KINDS:-paths mixed adds joins}; do
        profile=
        [ $kind != joins ] || profile="--profile full"
        python3 "$here/group.py" "$folder" --members $members --commits 1000 --log "${1:-1000}" --kind $kind
        : >"$folder/empty"
        compare "$program" $kind
        if [ -n "$PEER" ] && [ $kind != joins ]; then
            mv "$folder/report" "$folder/own"
            compare "$PEER" $kind
            cmp "$folder/own" "$folder/report"
        fi
    done
done
