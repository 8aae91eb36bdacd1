#!/bin/sh
# Drives the live gate over the real group of this folder, with true signatures: each message is first sent forged, and has to
# be refused, and then as it is. The answers to these have to be those of `replay`. Then the same is done in two parts, the
# second from the state that the first stores, and at a time that is in the lifetime of each KeyPackage. Run it by hand, from
# anywhere: neither `rt ci` nor any test runs it. It needs Debian's python3-cryptography. PROGRAM in the environment names
# another program.
set -eu

cd -- "$(dirname -- "$0")/.."
made=$(mktemp -d)
trap 'rm -r -- "$made"' EXIT
program=${PROGRAM:-./mlscheck}
info=examples/real/epoch-1.info
log=examples/real/handshakes.log

examples/gate.py --forge --info "$info" --log "$log" >"$made/gate"
examples/gate.py --info "$info" --log "$log" >"$made/plain"
"$program" replay --info "$info" --log "$log" --receipts examples/real/receipts.txt >"$made/replay"

# The first line of the gate is that of the start, the last one of `replay` has the counts.
sed 1d "$made/gate" >"$made/answers"
sed '$d; s/^[0-9]* //' "$made/replay" >"$made/wanted"
cmp "$made/answers" "$made/wanted"
cmp "$made/gate" "$made/plain"
grep -q '^ready epoch 1 members 2 tree ' "$made/gate"
echo "the gate answers $(wc -l <"$made/answers") messages as replay does, and refuses each of them forged"

# The same from the state after the first four messages, the last of which is a proposal that is pending then.
python3 - "$made" "$log" <<'EOF_PYTHON'
import sys

sys.path.insert(0, "examples")
from gate import record, records

folder, log = sys.argv[1:]
messages = [record(body) for body in records(open(log, "rb").read())]
for name, part in (("front", messages[:4]), ("back", messages[4:])):
    with open(f"{folder}/{name}.log", "wb") as file:
        file.write(b"".join(part))
EOF_PYTHON
examples/gate.py --info "$info" --log "$made/front.log" --save "$made/group.state" >"$made/front"
examples/gate.py --forge --state "$made/group.state" --log "$made/back.log" >"$made/back"
{ sed 1d "$made/front"; sed 1d "$made/back"; } >"$made/answers"
cmp "$made/answers" "$made/wanted"
echo "the gate answers them so too if its state is stored and resumed with a pending proposal"

# The same at a time that is in the lifetime of each KeyPackage. The gate gets another time before each message, which is in none.
# It refuses the four messages that have an Add, and accepts them at the first time.
now=1800000000
"$program" replay --info "$info" --log "$log" --receipts examples/real/receipts.txt --now "$now" >"$made/timed"
cmp "$made/timed" "$made/replay"
python3 - "$info" "$log" "$now" >"$made/answers" <<'EOF_PYTHON'
import sys

sys.path.insert(0, "examples")
from gate import Gate, records

info, log, now = sys.argv[1:]
gate, late = Gate("--info", info, "--now", now), 0
print(gate.begin())
for message in records(open(log, "rb").read()):
    gate.send(b"t", bytes(8))
    answer = gate.judge(message)
    if answer == "refused 53 LifetimeOutside":
        late += 1
        gate.send(b"t", int(now).to_bytes(8, "big"))
        answer = gate.judge(message)
    print(answer)
if gate.end() != 0 or late != 4:
    sys.exit(f"the gate refused {late} messages because of a time")
EOF_PYTHON
cmp "$made/answers" "$made/gate"
echo "replay and the gate answer them so too at a time that is in the lifetime of each KeyPackage"
