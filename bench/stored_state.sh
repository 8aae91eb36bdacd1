#!/bin/sh
# Times what it takes to store a follower's state (`mlscheck replay --save`) and to resume from it (`--state`), in a group of
# 1,000 members and in one of 100,000, with a log of commits that have a path each (the first argument is their number, or
# 1,000). Prints the size of the file for each member, and the seconds of the processor and the memory of a start, of a
# resumption of the same group and of one after the log, and of storing the state after the log. The log is also replayed in
# two parts, the second from the stored state: the reports have to be equal, except for the numbers of the lines.
#
# Then it times the same for 10,000 pending proposals in the group of 1,000 members, once of Removes and once of Adds, and
# how long a follower takes for their messages. A Remove has authenticated data of its own.
#
# The script fails if reports differ, and beyond these parts:
#
# - a resumption of 100,000 members takes 1.3 times as long as the start, whose input has no checksum, and 1.2 times its memory
# - the pending proposals are stored and resumed in twice the time that their messages take
#
# PROGRAM in the environment names another program, and RUNS says how often each run is made, of which the fastest counts
# (5). It needs GNU time.
set -e
here=$(dirname -- "$(readlink -f -- "$0")")
folder=$(mktemp -d)
trap 'rm -rf -- "$folder"' EXIT
trap 'exit 130' INT TERM
program=${PROGRAM:-$here/../mlscheck}
[ -n "$PROGRAM" ] || "$program" --build
: >"$folder/empty"
status=0

cat >"$folder/measure.py" <<'PY'
import os
import sys

folder, runs, *words = sys.argv[1:]
seconds, megabytes = [], []
for _ in range(int(runs)):
    child = os.fork()
    if child == 0:
        os.dup2(os.open(f"{folder}/report", os.O_WRONLY | os.O_CREAT | os.O_TRUNC), 1)
        os.execvp("env", ["env", "time", "-o", f"{folder}/usage", "-f", "%M", *words])
    used = os.wait4(child, 0)[2]
    seconds.append(used.ru_utime + used.ru_stime)
    with open(f"{folder}/usage") as usage:
        megabytes.append(int(usage.read().split()[-1]) / 1024)
print(f"{min(seconds):.4f} {max(megabytes):.1f}")
PY

# Runs the program with these arguments, as often as RUNS says, and keeps its last report. Prints the least seconds of the
# processor, and the most megabytes that it held.
measure() {
    python3 "$folder/measure.py" "$folder" "${RUNS:-5}" "$program" "$@" --trust
}

seconds() {
    echo "${1% *}"
}

memory() {
    echo "${1#* }"
}

# Prints an expression of numbers.
number() {
    awk "BEGIN { printf \"%.3f\", $1 }"
}

# Prints how many times the second number the first one is, which may be as many as the third.
compare() {
    awk -v what="$1" -v a="$2" -v b="$3" -v most="$4" 'BEGIN {
        part = b > 0 ? a / b : 0
        failed = part > most + 0
        printf "  %s: %.2f, at most %s%s\n", what, part, most, failed ? "  FAILED" : ""
        exit failed
    }' || status=1
}

# The lines of accepted commits in a report, without their numbers.
commits() {
    grep ' accepted commit' | cut -d ' ' -f 2-
}

for members in 1000 100000; do
    python3 "$here/group.py" "$folder" --members $members --commits 1000 --log "${1:-1000}" --kind paths
    group="--info $folder/info --tree $folder/tree"
    start=$(measure replay $group --log "$folder/empty")
    "$program" replay $group --log "$folder/empty" --trust --save "$folder/begun" >"$folder/none"
    again=$(measure replay --state "$folder/begun" --log "$folder/empty")
    plain=$(measure replay $group --log "$folder/log")
    commits <"$folder/report" >"$folder/whole"
    saved=$(measure replay $group --log "$folder/log" --save "$folder/state")
    resumed=$(measure replay --state "$folder/state" --log "$folder/empty")
    size=$(wc -c <"$folder/state")
    echo "$members members: $size bytes, $((size / members)) a member"
    echo "  start $(seconds "$start") s, $(memory "$start") MB; resume $(seconds "$again") s, $(memory "$again") MB"
    echo "  log $(seconds "$plain") s, $(memory "$plain") MB; log and store $(seconds "$saved") s, $(memory "$saved") MB"
    echo "  resume after the log $(seconds "$resumed") s, $(memory "$resumed") MB"
    if [ $members -eq 100000 ]; then
        compare 'time of a resumption to that of a start' "$(seconds "$again")" "$(seconds "$start")" 1.3
        compare 'memory of a resumption to that of a start' "$(memory "$again")" "$(memory "$start")" 1.2
    fi
    python3 - "$folder" <<'PY'
import sys
folder = sys.argv[1]
data = open(f"{folder}/log", "rb").read()
at, ends = 0, []
while at < len(data):
    form = data[at] >> 6
    width = 1 << form
    size = int.from_bytes(data[at:at + width], "big") & ((1 << (8 * width - 2)) - 1)
    at += width + size
    ends.append(at)
cut = ends[len(ends) // 2 - 1]
open(f"{folder}/first", "wb").write(data[:cut])
open(f"{folder}/second", "wb").write(data[cut:])
PY
    "$program" replay $group --log "$folder/first" --trust --save "$folder/half" | commits >"$folder/parts"
    "$program" replay --state "$folder/half" --log "$folder/second" --trust | commits >>"$folder/parts"
    cmp "$folder/whole" "$folder/parts"
done

for kind in removes adds; do
    python3 - "$here" "$folder" $kind <<'PY'
import sys
here, folder, kind = sys.argv[1:]
sys.path.insert(0, here)
from group import Group, new_leaf, vector
from messages import add, proposal, remove
group = Group(1000)
bodies = {"removes": lambda at: (remove(1 + at % 999), b"%d" % at), "adds": lambda at: (add(new_leaf("added", at)),)}
log = [proposal(group, 0, *bodies[kind](at))[0] for at in range(10_000)]
files = {"info": group.info(), "tree": group.tree(), "log": b"".join(map(vector, log))}
for name, body in files.items():
    open(f"{folder}/{name}", "wb").write(body)
PY
    group="--info $folder/info --tree $folder/tree"
    start=$(seconds "$(measure replay $group --log "$folder/empty")")
    taken=$(measure replay $group --log "$folder/log")
    [ "$(tail -n 1 "$folder/report")" = 'accepted 10000 refused 0 broken 0 epoch 0' ]
    saved=$(measure replay $group --log "$folder/log" --save "$folder/state")
    resumed=$(measure replay --state "$folder/state" --log "$folder/empty")
    "$program" replay --state "$folder/state" --log "$folder/empty" --trust --save "$folder/again" >"$folder/none"
    cmp "$folder/state" "$folder/again"
    take=$(number "$(seconds "$taken") - $start")
    store=$(number "$(seconds "$saved") - $(seconds "$taken")")
    resume=$(number "$(seconds "$resumed") - $start")
    echo "10000 pending $kind: $(wc -c <"$folder/state") bytes, of $(wc -c <"$folder/log") of the log"
    echo "  take $take s, $(memory "$taken") MB; store $store s, $(memory "$saved") MB;" \
        "resume $resume s, $(memory "$resumed") MB"
    compare 'time of storing and resuming to that of the messages' "$(number "$store + $resume")" "$take" 2
done
exit $status
