#!/usr/bin/env python3
"""Proves and builds the program mlscheck, crate by crate, and then runs it with the words that it was given:

    build.py WORDS
    build.py --build   runs nothing
    build.py --drop    removes what earlier builds kept and the program doesn't need

Words that are answered before a file is opened are answered without the program (answers.py). Where standard input is a
terminal, it asks before a long build.

For the command `show` the program is mlscheck_show, which has this command alone and stands on fewer crates, unless all
libraries of mlscheck are built. The crates and what each stands on are those of crates.txt. Crates that don't rest on each
other are built side by side, if there are processors and memory for it. A build that was interrupted goes on from what is
kept in crates/*/out.
"""
import fcntl
import os
import re
import shutil
import signal
import subprocess
import sys
import tempfile
import time

from answers import end_if_answered
from crates import (CRATES, DISK, MINUTES, OUT, PROGRAM, SHOW_PROGRAM, TOP, chain, free_memory, processors, read_crates,
                    seconds_of)
from version import LOGIC

PROGRAMS = (PROGRAM, SHOW_PROGRAM)

# Beside a program: the crates.txt lines that it was built by, a file whose time is when that build began; and what the
# build took by crate, and in memory and disk.
BUILT = "built"
MEASURED = "measured"

# Crates that are built beside another one are built in a folder of their own, below this one.
BESIDE = os.path.join(OUT, "beside")

# The kit's command rt, which sums up the sources of each crate once.
RT = os.path.join(TOP, "tools", "rt_once.py")

# The memory that a build from nothing needs, in bytes.
MEMORY = 4 * 10**9

# What a check holds without its jobs, and each of its jobs, in bytes.
CHECK_MEMORY = 10**9
JOB_MEMORY = 14 * 10**8

# How long a build may take without being asked for, in seconds by crates.SECONDS, and how often it says how far it is.
SHORT_BUILD = 300
TELL_AFTER = 60


def say(text):
    print(f"mlscheck: {text}", file=sys.stderr, flush=True)


def fail(why):
    print(f"fault: {why}", file=sys.stderr, flush=True)
    sys.exit(3)


# ---- one crate


class Step:
    """The build of one crate. Beside another one it is done in a folder of its own, since `rt` works on the crates
    below a crate for one command at a time; what it kept is moved there, and back when it is done. It has a lower
    priority then: it takes what the other one leaves of the processors."""

    def __init__(self, name, jobs, is_beside):
        self.name = name
        self.jobs = jobs
        self.begun = time.time()
        self.top = os.path.join(BESIDE, name) if is_beside else TOP
        self.is_beside = is_beside
        if is_beside:
            self.go_beside()
        self.said = tempfile.TemporaryFile("w+", errors="replace")
        command = [sys.executable, RT, "run" if name in PROGRAMS else "lib", "--jobs", str(jobs)]
        command += ["--", "--help"] if name in PROGRAMS else []
        if is_beside:
            command = ["nice", "-n", "10", *command]
        folder = os.path.join(self.top, "crates", name)
        self.process = subprocess.Popen(
            command, cwd=folder, stdin=subprocess.DEVNULL, stdout=self.said, stderr=subprocess.STDOUT)

    def go_beside(self):
        shutil.rmtree(self.top, ignore_errors=True)
        lines, needed = read_crates(self.name)
        for name in needed:
            for part in ("src", "specs", "proofs", "out/rlib"):
                if name != self.name or part != "out/rlib":
                    link_tree(name, part, self.top)
        with open(os.path.join(self.top, "crates.txt"), "w", encoding="utf-8") as file:
            file.write("\n".join(lines) + "\n")
        if os.path.exists(os.path.join(TOP, "HANDLES")):
            shutil.copy2(os.path.join(TOP, "HANDLES"), self.top)
        move_out(TOP, self.top, self.name)

    def memory(self):
        return CHECK_MEMORY + self.jobs * JOB_MEMORY

    def end(self):
        """Takes back what was kept, and returns whether the crate is built."""
        status = self.process.wait()
        if self.is_beside:
            take_back(self.name)
        return status == 0

    def output(self):
        self.said.seek(0)
        return self.said.read().rstrip("\n")


def link_tree(crate, part, top):
    """Makes hard links below another folder to what is in a part of a crate's folder."""
    source = os.path.join(CRATES, crate, part)
    if os.path.isdir(source):
        shutil.copytree(source, os.path.join(top, "crates", crate, part), copy_function=os.link)


def move_out(source, target, crate):
    kept = os.path.join(source, "crates", crate, "out")
    if os.path.isdir(kept):
        shutil.rmtree(os.path.join(target, "crates", crate, "out"), ignore_errors=True)
        os.rename(kept, os.path.join(target, "crates", crate, "out"))


def take_back(crate):
    move_out(os.path.join(BESIDE, crate), TOP, crate)
    shutil.rmtree(os.path.join(BESIDE, crate), ignore_errors=True)


def can_link():
    """Returns whether hard links can be made here: crates can be built side by side only then."""
    with tempfile.NamedTemporaryFile(dir=OUT) as file:
        try:
            os.link(file.name, file.name + ".link")
            os.remove(file.name + ".link")
            return True
        except OSError:
            return False


# ---- all crates


class Build:
    def __init__(self, program, below):
        self.program = program
        self.below = below
        self.done = []
        self.running = []
        self.memory = 0
        self.seconds = {}
        self.least_free = self.first_free = free_memory()
        self.cores = processors()
        self.can_link = can_link()
        self.begun = self.told = time.time()

    def ready(self):
        """Returns the crates that can begin, the one with the longest chain above it first."""
        begun = self.done + [step.name for step in self.running]
        names = [name for name in self.below if name not in begun and set(self.below[name]) <= set(self.done)]
        return sorted(names, key=lambda name: chain(self.below, name), reverse=True)

    def room(self):
        """Returns how much memory one more step has for its jobs. Those that run may not hold all of theirs yet."""
        free = free_memory()
        if not self.running:
            self.memory = free
        return min(free, self.memory - sum(step.memory() for step in self.running)) - CHECK_MEMORY

    def begin(self):
        """Begins the crates that there is room for, with a job for each core: one in its place, others beside it."""
        for name in self.ready():
            is_beside = any(not step.is_beside for step in self.running)
            if is_beside and (len(self.running) >= self.cores or not self.can_link):
                return
            room = self.room()
            if is_beside and room < JOB_MEMORY:
                return
            jobs = max(min(self.cores, 8, room // JOB_MEMORY), 1)
            self.tell(name)
            self.running.append(Step(name, jobs, is_beside))

    def tell(self, what):
        share = sum(map(seconds_of, self.done)) * 100 // sum(map(seconds_of, self.below))
        say(f"{share} % {what}")
        self.told = time.time()

    def tell_running(self):
        """Says how far it is, if nothing was said for a while."""
        now = time.time()
        if now - self.told >= TELL_AFTER:
            names = ", ".join(f"{step.name} for {minutes(now - step.begun)}" for step in self.running)
            self.tell(f"after {minutes(now - self.begun)}: {names}")

    def run(self):
        """Builds all crates, and returns the first step that failed, if any."""
        while len(self.done) < len(self.below):
            self.begin()
            ended = next((step for step in self.running if step.process.poll() is not None), None)
            if ended is None:
                time.sleep(0.2)
                self.least_free = min(self.least_free, free_memory())
                self.tell_running()
                continue
            self.running.remove(ended)
            if not ended.end():
                return ended
            self.done.append(ended.name)
            self.seconds[ended.name] = time.time() - ended.begun
            self.tell(f"{ended.name} is done, in {minutes(self.seconds[ended.name])}")
        return None

    def write_measured(self):
        """Writes what the build took. The memory is right on a machine that does nothing else meanwhile."""
        disk = sum(size_of(os.path.join(CRATES, name, "out")) for name in self.below)
        with open(out_path(self.program, MEASURED), "w", encoding="utf-8") as file:
            for name, seconds in self.seconds.items():
                print(f"{name} {seconds:.0f} s", file=file)
            print(f"memory {(self.first_free - self.least_free) / 10**9:.1f} GB", file=file)
            print(f"disk {disk / 10**9:.1f} GB", file=file)

    def stop(self):
        """Ends the steps that run, and takes back what they kept."""
        for step in self.running:
            step.process.terminate()
        for step in self.running:
            step.end()


# ---- the commands


def out_path(name, file):
    return os.path.join(CRATES, name, "out", file)


def is_kept(name):
    """Returns whether a library is built, and no source of it is newer."""
    stamp = out_path(name, os.path.join("rlib", "stamp"))
    if not os.path.exists(stamp):
        return False
    parts = [os.path.join(CRATES, name, part) for part in ("src", "specs", "proofs")]
    files = [os.path.join(folder, file) for part in parts for folder, _, found in os.walk(part) for file in found]
    return all(os.path.getmtime(file) <= os.path.getmtime(stamp) for file in files)


def program_for(words):
    """Returns the program to build for these words."""
    libraries = [name for name in read_crates(PROGRAM)[1] if name != PROGRAM]
    return SHOW_PROGRAM if words[:1] == ["show"] and not all(map(is_kept, libraries)) else PROGRAM


def check_kit():
    if shutil.which("rt") is None:
        fail("mlscheck is not built, and the Rattle kit's command rt is not on the path to build it")
    told = subprocess.run(["rt", "version"], stdout=subprocess.PIPE, stdin=subprocess.DEVNULL, check=False).stdout
    found = re.search(r"\blogic (\w+)", told.decode(errors="replace"))
    logic = found[1] if found else "that it does not tell"
    if logic != LOGIC and os.environ.get("MLSCHECK_KIT") != "any":
        fail(f"the kit on the path has the logic {logic}, and the sources are proved in {LOGIC}: "
             "nothing was built; with MLSCHECK_KIT=any in the environment it is tried")


def lock():
    """Returns the file whose lock keeps other launchers out, and whether another one held it."""
    os.makedirs(OUT, exist_ok=True)
    file = open(os.path.join(OUT, "launcher.lock"), "w")
    try:
        fcntl.flock(file, fcntl.LOCK_EX | fcntl.LOCK_NB)
        return file, False
    except BlockingIOError:
        say("waiting for another launcher that builds")
        fcntl.flock(file, fcntl.LOCK_EX)
        return file, True


def minutes(seconds):
    return f"{seconds / 60:.1f} minutes"


def gigabytes(count):
    return f"{count / 10**9:.0f} GB" if count % 10**9 == 0 or count > 10**10 else f"{count / 10**9:.1f} GB"


def announce(program, below):
    if os.path.exists(out_path(program, program)):
        say("a source has changed since the program was built: proving and building what rests on it")
        return
    part = "what show needs" if program == SHOW_PROGRAM else "it"
    kept = [name for name in below if os.path.exists(out_path(name, os.path.join("rlib", "stamp")))]
    if kept:
        say(f"not built yet: going on from what is kept of {len(kept)} of {len(below)} crates")
    say(f"{'all of it' if kept else f'not built yet: proving and building {part}'} takes some {MINUTES[program]} minutes "
        f"on four cores, {gigabytes(DISK[program])} of disk ({gigabytes(shutil.disk_usage(TOP).free)} are free) "
        f"and at least {gigabytes(MEMORY)} of memory ({gigabytes(free_memory())} are free)")


def left_of(below):
    """Returns the crates that have to be built."""
    left = []
    for name in sorted(below, key=lambda name: chain(below, name), reverse=True):
        if name in PROGRAMS or not is_kept(name) or set(below[name]) & set(left):
            left.append(name)
    return left


def ask(program):
    """Asks before a long build, where standard input is a terminal, and ends if the answer isn't yes. Returns whether it
    asked."""
    below = read_crates(program)[1]
    if not os.isatty(0) or sum(map(seconds_of, left_of(below))) < SHORT_BUILD:
        return False
    announce(program, below)
    print("mlscheck: build it now? (y/N) ", end="", file=sys.stderr, flush=True)
    if os.read(0, 1000).strip().lower() not in (b"y", b"yes"):
        fail("nothing was built")
    return True


def link_as_program(program):
    """Gives the program the name mlscheck too: it prints the name by which it was called."""
    link = out_path(program, PROGRAM)
    if os.path.exists(link):
        os.remove(link)
    try:
        os.link(out_path(program, program), link)
    except OSError:
        shutil.copy2(out_path(program, program), link)


def build_all(program):
    lines, below = read_crates(program)
    begun = time.time()
    for name in os.listdir(BESIDE) if os.path.isdir(BESIDE) else []:
        take_back(name)
    build = Build(program, below)
    try:
        failed = build.run()
    except BaseException:
        build.stop()
        raise
    if failed:
        build.stop()
        print(failed.output(), file=sys.stderr)
        fail(f"{program} could not be built: {failed.name} failed")
    shutil.rmtree(BESIDE, ignore_errors=True)
    if program != PROGRAM:
        link_as_program(program)
    build.write_measured()
    built = out_path(program, BUILT)
    with open(built, "w", encoding="utf-8") as file:
        file.write("\n".join(lines) + "\n")
    os.utime(built, (begun, begun))
    say(f"100 % built in {minutes(time.time() - begun)}")


def size_of(path):
    if not os.path.isdir(path) or os.path.islink(path):
        return os.lstat(path).st_blocks * 512
    return sum(size_of(os.path.join(path, name)) for name in os.listdir(path))


def drop():
    """Removes what is kept of the crates, but the programs and what tells how they were built."""
    stays = [*PROGRAMS, *[program + ".stamp" for program in PROGRAMS], BUILT, MEASURED, "launcher.lock"]
    freed = 0
    for name in {name for program in PROGRAMS for name in read_crates(program)[1]}:
        out = os.path.join(CRATES, name, "out")
        for file in os.listdir(out) if os.path.isdir(out) else []:
            path = os.path.join(out, file)
            if name in PROGRAMS and file in stays:
                continue
            freed += size_of(path)
            if os.path.isdir(path):
                shutil.rmtree(path)
            else:
                os.remove(path)
    say(f"dropped {freed / 10**9:.1f} GB; once a source changes, all is proved and built again")


def interrupted(number, _):
    raise SystemExit(128 + number)


def main():
    for number in (signal.SIGINT, signal.SIGTERM, signal.SIGHUP):
        signal.signal(number, interrupted)
    words = sys.argv[1:]
    if words == ["--drop"]:
        _held = lock()
        return drop()
    runs = words != ["--build"]
    if runs:
        end_if_answered(words)
    check_kit()
    is_announced = runs and ask(program_for(words))
    held, was_held = lock()
    name = program_for(words)
    if not was_held:
        if not is_announced:
            announce(name, read_crates(name)[1])
        build_all(name)
    held.close()
    program = os.path.join(TOP, "mlscheck") if was_held else out_path(name, PROGRAM)
    if runs or was_held:
        os.execv(program, [program, *words])


if __name__ == "__main__":
    main()
