#!/bin/sh
# Passes inputs that are changed by chance to the libraries, by the program crates/mls_hostile: 100,000 of them, or the
# first argument in thousands, from the input whose number is the second argument on. It is run by `rt try`,
# which proves nothing, and checks each access. Run it by hand, from anywhere: neither `rt ci` nor any test tries so
# many. Each thousand is a run. At the first one in which something is wrong it ends with 1, and keeps what was printed
# till then: a run that crashes, finds something wrong, takes over a minute, or has a call that takes over a second.
set -eu

cd -- "$(dirname -- "$0")/../crates/mls_hostile"
thousands=${1:-100} first=${2:-0}
made=$(mktemp -d)
mkdir "$made/each"
for thousand in $(seq 0 "$((thousands - 1))"); do
    echo "0 $((first + 1000 * thousand)) 1000" >"$made/each/$(printf '%06d' "$thousand")"
done

# Reads what the runs print, one after the other: how many inputs were accepted and how long the slowest took, and then
# how the run ended. Where it reads no further, no further run is made.
judge() {
    accepted=0 slowest=0 ended=0
    while read -r line; do
        printf '%s\n' "$line" >>"$made/notes"
        case $line in
        'accepted '*)
            words=${line#accepted }
            accepted=$((accepted + ${words%% *}))
            words=${line#* slowest }
            [ "${words%% *}" -le "$slowest" ] || slowest=${words%% *}
            ;;
        case=*' run=ended status=0 '*)
            [ "$slowest" -lt 1000 ] || break
            ended=$((ended + 1))
            ;;
        case=*) break ;;
        esac
    done
    if [ "$ended" -lt "$thousands" ]; then
        echo "something is wrong in the thousand from $((first + 1000 * ended)) on;" \
            "the slowest call took $slowest ms" >&2
        return 1
    fi
    echo "$((1000 * ended)) changed inputs from $first on: $accepted accepted, the others refused;" \
        "the slowest took $slowest ms"
}

if rt try --cases "$made/each" 2>&1 >"$made/out" | judge; then
    rm -r -- "$made"
else
    echo "what was printed is in $made" >&2
    exit 1
fi
