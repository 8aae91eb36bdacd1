"""The crates that the programs are built of, by crates.txt, and the machine that they are built on."""
import os
import re

TOP = os.path.dirname(os.path.dirname(os.path.realpath(__file__)))
CRATES = os.path.join(TOP, "crates")
PROGRAM = "mlscheck"
OUT = os.path.join(CRATES, PROGRAM, "out")

# The program that has the command `show` alone, and is built first for it.
SHOW_PROGRAM = "mlscheck_show"

# About how many minutes the build of a program takes from nothing on four cores, fast and slow ones, and what it keeps, in
# bytes.
MINUTES = {PROGRAM: "20 to 40", SHOW_PROGRAM: "9 to 18"}
DISK = {PROGRAM: 3 * 10**9, SHOW_PROGRAM: 10**9}

# About how long each crate takes to prove and build on four cores, in seconds, and what is taken for another one. Crates
# beside the longest chain have a lower priority, and take longer than alone. A build from nothing writes what it
# measured into the file `measured` beside the program.
SECONDS = {
    "mls_wire": 77,
    "mls_nodes": 75,
    "mls_tree": 145,
    "mls_msgs": 311,
    "mls_show": 200,
    "mls_state": 147,
    "mls_hash": 53,
    "mls_check": 83,
    "mls_index": 48,
    "mls_apply": 145,
    "mls_signatures": 72,
    "mls_follow": 155,
    "mls_start": 45,
    "mls_report": 110,
    "mls_vectors": 246,
    "mls_gate": 84,
    "mls_commands": 258,
    "mls_program": 29,
    "mls_cli": 66,
    "mlscheck": 115,
    "mlscheck_show": 44,
}
OTHER_SECONDS = 120


# ---- the crates


def read_crates(top=PROGRAM):
    """Returns the lines of crates.txt of a crate and all that it stands on, and for each of them the crates of the
    repository that it uses."""
    lines, uses = {}, {}
    with open(os.path.join(TOP, "crates.txt"), encoding="utf-8") as file:
        for line in file.read().splitlines():
            found = re.match(r"([a-z]\w*)[^:]*(?::(.*))?$", line)
            if found:
                lines[found[1]] = line
                uses[found[1]] = (found[2] or "").split()
    needed, wanted = set(), [top]
    while wanted:
        name = wanted.pop()
        if name in uses and name not in needed:
            needed.add(name)
            wanted += uses[name]
    below = {name: [other for other in uses[name] if other in uses] for name in uses if name in needed}
    return [line for name, line in lines.items() if name in needed], below


def seconds_of(name):
    return SECONDS.get(name, OTHER_SECONDS)


def chain(below, name):
    """Returns how long the crate and the longest chain of crates above it take."""
    above = [chain(below, other) for other in below if name in below[other]]
    return seconds_of(name) + max(above, default=0)


# ---- the machine


def number_in(path, pattern=r"(\d+)"):
    try:
        with open(path, encoding="utf-8") as file:
            return int(re.search(pattern, file.read(), re.MULTILINE)[1])
    except (OSError, TypeError):
        return None


def processors():
    """Returns how many cores there are to use: two processors that are threads of one core count once."""
    siblings = "/sys/devices/system/cpu/cpu{}/topology/thread_siblings_list"
    mine = os.sched_getaffinity(0)
    cores = {number_in(siblings.format(at)) for at in mine}
    count = len(mine) if None in cores else len(cores)
    quota = number_in("/sys/fs/cgroup/cpu.max", r"^(\d+) ")
    period = number_in("/sys/fs/cgroup/cpu.max", r"^\d+ (\d+)")
    return min(count, max(quota // period, 1)) if quota and period else count


def free_memory():
    free = 1024 * (number_in("/proc/meminfo", r"^MemAvailable:\s+(\d+)") or 0)
    limit = number_in("/sys/fs/cgroup/memory.max")
    held = number_in("/sys/fs/cgroup/memory.stat", r"^anon (\d+)")
    return min(free, limit - held) if limit and held is not None else free
