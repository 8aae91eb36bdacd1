#!/bin/sh
# Runs the program on inputs that may cost more than their size, each at n, 2n and 4n, as cost.py makes them. A line for
# each shape has, for 4n, the bytes that came, and the seconds of the processor and the megabytes that they took beyond
# what the start alone takes. Then it has the power of n by which the time grew, the bytes of memory for each byte that
# came, and the last line of the report. If a hundred messages came or more, it also has the microseconds that each takes. If
# a message touches much of the group, it has how much of the time of a start each takes; if a tree came, the bytes of memory
# for each of its nodes. A shape whose name ends with `-in-c` runs queries.c, which calls the library for C, on the records
# that the shape without `-in-c` has for the gate. The script fails
#
# - at a growth beyond n^1.35, and if a message takes a greater part of a start than cost.py allows
# - beyond 25 bytes a byte; if a message touches much of the group, only if that is also more than half of the memory of the
#   start; if a tree came, which is the group, only if that is also more than 120 bytes a node
# - at a fault, and if a run takes 100 seconds.
#
# A time below 0.25 seconds and a memory below 8 MB are too small to be compared. Records for the gate are its input.
#
#   cost.sh [SHAPE...]    runs the named shapes, or all
#
# PROGRAM in the environment names another program that takes the same arguments, N scales all sizes (1), and RUNS says how
# often each run is made, of which the fastest counts (3). LIBRARY names a folder in which tools/library has built the library
# for C; without, it is built if a shape needs it. The script needs GNU time, and for such a shape a C compiler ($CC, or cc).
here=$(dirname -- "$(readlink -f -- "$0")")
folder=$(mktemp -d)
trap 'rm -rf -- "$folder"' EXIT
trap 'exit 130' INT TERM
program=${PROGRAM:-$here/../mlscheck}
[ -n "$PROGRAM" ] || "$program" --build || exit

# Builds queries.c, if that has not been done.
build_queries() {
    [ ! -x "$folder/queries" ] || return 0
    library=${LIBRARY:-$folder/library}
    [ -n "$LIBRARY" ] || "$here/../tools/library" "$library" >"$folder/built" || return
    "${CC:-cc}" -O2 -o "$folder/queries" "$here/queries.c" "$library/libmls_check.a"
}

# Prints the least seconds of the processor and the most kilobytes of the runs of a program with these arguments, and whether
# one ended with a fault.
measure() {
    count=${RUNS:-3}
    while [ "$count" -gt 0 ]; do
        (
            ulimit -t 100
            ulimit -v 4000000
            xargs -a "$folder/$2" -d '\n' env time -q -o "$folder/usage" -f '%U %S %M %x' "$1" \
                <"$folder/$2.piped" 2>&1
        ) | tail -n 1 | cut -c 1-60 >"$folder/report"
        tail -n 1 "$folder/usage"
        count=$((count - 1))
    done | awk '
        NR == 1 || $1 + $2 < seconds { seconds = $1 + $2 }
        $3 > kilobytes { kilobytes = $3 }
        $4 > 2 { fault = 1 }
        END { print seconds, kilobytes, fault + 0 }'
}

# Prints the line of a shape from its three measures: of each, the numbers of the run and of the start, and what cost.py
# printed.
tell() {
    awk -v name="$1" -v last="$(cat -- "$folder/report")" '
        {
            seconds[NR] = $1 > $4 ? $1 - $4 : 0
            memory = $2 > $5 ? ($2 - $5) * 1024 : 0
            group = $5 * 1024
            fault = fault || $3 || $1 >= 99
            bytes = $7
            messages = $8 + 0
            part = messages && $4 > 0 ? seconds[NR] / messages / $4 : 0
            share = $9 + 0
            nodes = $10 + 0
        }
        END {
            least = seconds[1] > 0.03 ? seconds[1] : 0.03
            growth = seconds[NR] > least ? log(seconds[NR] / least) / log(2 ^ (NR - 1)) : 0
            each = memory / bytes
            slow = seconds[NR] >= 0.25 && (growth > 1.35 || share && part > share)
            last = (share ? sprintf("%.1f %% of a start  ", 100 * part) : "") last
            last = (messages >= 100 ? sprintf("%.1f us a message  ", 1000000 * seconds[NR] / messages) : "") last
            last = (nodes ? sprintf("%.0f bytes a node  ", memory / nodes) : "") last
            large = memory > 8000000 && each > 25 && !(share && memory < group / 2) && memory > 120 * nodes
            failed = fault || slow || large
            printf "%-31s %9d B %7.2f s  n^%.2f %7.1f MB %6.1f  %s%s\n", name, bytes, seconds[NR], growth,
                memory / 1000000, each, last, failed ? "  FAILED" : ""
            exit failed
        }' "$folder/measures"
}

status=0
for shape in ${*:-$(python3 "$here/cost.py" --list)}; do
    run=$program
    case $shape in
        *-in-c)
            build_queries || exit 2
            run=$folder/queries
            ;;
    esac
    for times in 1 2 4; do
        size=$(awk -v n="${N:-1}" -v k=$times 'BEGIN { print n * k }')
        told=$(python3 "$here/cost.py" "$folder" "$shape" "$size") || exit 2
        start=$(measure "$run" before)
        echo "$(measure "$run" words) $start $told"
    done >"$folder/measures"
    tell "$shape" || status=1
done
exit $status
