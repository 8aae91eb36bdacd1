#!/usr/bin/env python3
"""Measures the service on this machine: handshakes a second, how long they take, memory, and how the time is spent.

    service/tests/measure.py [--store sqlite|postgres] [--only NAME] [--large]

The load runs on the same machine, so the numbers are of both. Groups of 50 members commit with a path, with true signatures of the
cipher suite 1; those of `many` are of 3 members. --large adds a group of 100,000 members, which takes minutes to make.
"""
import argparse
import os
import re
import subprocess
import tempfile

import common

# Name, members, groups, clients, messages of each group.
RUNS = [("one-1", 50, 1, 1, 1000), ("one-4", 50, 1, 4, 1000), ("hundred-1", 50, 100, 1, 20), ("hundred-4", 50, 100, 4, 40),
        ("hundred-64", 50, 100, 64, 60), ("many-1", 3, 10000, 1, 1), ("many-4", 3, 10000, 4, 2), ("many-64", 3, 10000, 64, 3)]
LARGE = [("large-1", 100000, 1, 1, 100)]

PHASES = ("verify", "judge", "store", "total")


def made(folder, members, messages):
    """Makes a group with this many members and messages, if it is not there, and returns its folder."""
    to = os.path.join(folder, f"{members}-{messages}")
    if not os.path.exists(to):
        subprocess.run([os.path.join(common.TOP, "service", "tests", "signed_group.py"), to, "--members", str(members), "--commits",
                        str(min(members, 100)), "--log", str(messages)], check=True)
    return to


def memory(pid):
    with open(f"/proc/{pid}/status", encoding="ascii") as file:
        return int(re.search(r"VmRSS:\s+(\d+)", file.read())[1]) / 1024


def processor(pid):
    with open(f"/proc/{pid}/stat", encoding="ascii") as file:
        fields = file.read().rsplit(")", 1)[1].split()
    return (int(fields[11]) + int(fields[12])) / os.sysconf("SC_CLK_TCK")


def metrics(url):
    """Returns the sums and the counts of the phases."""
    text = common.insist(url, "GET", "/metrics").decode()
    found = {}
    for phase in PHASES:
        for what in ("sum", "count"):
            line = re.search(rf'phase_seconds_{what}{{phase="{phase}"}} (\S+)', text)
            found[phase, what] = float(line[1]) if line else 0.0
    return found


def measure(args, folder, name, members, groups, clients, messages):
    postgres = common.Postgres() if args.store == "postgres" else None
    service = common.Service(postgres.url if postgres else os.path.join(tempfile.mkdtemp(), "db"), "--requests", "4096")
    service.start()
    files = made(folder, members, messages)
    before = memory(service.process.pid), processor(service.process.pid)
    done = subprocess.run([os.path.join(common.TOP, "build", "load"), "-url", service.url, "-info", f"{files}/info", "-tree", f"{files}/tree",
                           "-log", f"{files}/log", "-groups", str(groups), "-clients", str(clients)], stdout=subprocess.PIPE, text=True,
                          check=True)
    after = memory(service.process.pid), processor(service.process.pid)
    found = metrics(service.url)
    count = found["total", "count"]
    parts = ", ".join(f"{phase} {1000 * found[phase, 'sum'] / max(1, found[phase, 'count']):.2f}" for phase in PHASES)
    work = sum(found[phase, "sum"] for phase in ("verify", "judge", "store"))
    print(f"{args.store} {name}: {done.stdout.strip().splitlines()[-1]}; ms each: {parts}; judging is "
          f"{100 * found['judge', 'sum'] / work:.0f} % of verifying, judging and storing; processor {1000 * (after[1] - before[1]) / count:.2f} ms "
          f"a message, starts included; memory {before[0]:.0f} to {after[0]:.0f} MB, {1024 * (after[0] - before[0]) / groups:.1f} KB a group; "
          f"load average {os.getloadavg()[0]:.1f}", flush=True)
    service.kill()
    print(f"    ready {1000 * service.start():.0f} ms after it was killed", flush=True)
    service.stop()


def main():
    parser = argparse.ArgumentParser()
    parser.add_argument("--store", choices=["sqlite", "postgres"], default="sqlite")
    parser.add_argument("--only")
    parser.add_argument("--large", action="store_true")
    parser.add_argument("--folder", default=os.path.join(tempfile.gettempdir(), "mlscheckd-groups"), help="where made groups are kept")
    args = parser.parse_args()
    for run in RUNS + (LARGE if args.large else []):
        if args.only in (None, run[0]):
            measure(args, args.folder, *run)


if __name__ == "__main__":
    main()
