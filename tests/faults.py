#!/usr/bin/env python3
"""Uses the program badly: with files that are missing, are no files or are of another kind, and with outputs that take nothing.

    tests/faults.py [PROGRAM]

Each use has to end with its status, and to write exactly these bytes to standard output and standard error. PROGRAM is the
launcher of this repository if none is named. Run it by hand, from anywhere: neither `rt ci` nor any test runs it. It ends
with 1 if a use ends otherwise. Needs Linux: /dev/full is a device that takes nothing.
"""

import os
import stat
import subprocess
import sys
import tempfile

TOP = os.path.dirname(os.path.dirname(os.path.abspath(__file__)))
PROGRAM = os.path.abspath(sys.argv[1]) if len(sys.argv) > 1 else os.path.join(TOP, "mlscheck")
EXAMPLES = os.path.join(TOP, "examples")
CONTEXT = os.path.join(EXAMPLES, "one-leaf.context")
TREE = os.path.join(EXAMPLES, "one-leaf.tree")
INFO = os.path.join(EXAMPLES, "one-leaf.info")
MESSAGE = os.path.join(EXAMPLES, "add.message")
RECEIPTS = os.path.join(EXAMPLES, "one-leaf.receipts")
REAL_INFO = os.path.join(EXAMPLES, "real", "epoch-1.info")
LOG = os.path.join(EXAMPLES, "real", "handshakes.log")
LONG = "n" * 300

failed = 0


def expect(status, out, notes, *words, **streams):
    """Runs the program on these words. `out` and `notes` are what it has to write; None is for anything."""
    global failed
    streams = {"stdin": subprocess.DEVNULL, "stdout": subprocess.PIPE, **streams}
    run = subprocess.run([PROGRAM, *words], stderr=subprocess.PIPE, timeout=60, **streams)
    found = (run.returncode, (run.stdout or b"").decode(), run.stderr.decode())
    wanted = (status, out, notes)
    shown = ["mlscheck", *(word[-40:] if len(word) > 40 else word for word in words)]
    if all(want is None or got == want for got, want in zip(found, wanted)):
        print(status, *shown)
        return
    failed += 1
    print(*shown, "\n  wanted", wanted, "\n  found ", found, file=sys.stderr)


def first_line(*words):
    """What the program writes to standard output, as the line of another use."""
    return subprocess.run([PROGRAM, *words], stdout=subprocess.PIPE, stderr=subprocess.DEVNULL).stdout.decode()


def read_faults():
    missing, folder, fifo, closed = "missing", "folder", "fifo", "closed"
    os.mkdir(folder)
    loop = "loop"
    os.symlink(loop, loop)
    within = os.path.join(TREE, "x")
    trees = ["validate-tree", "--context", CONTEXT, "--trust", "--tree"]
    for name, cause in [
        (missing, "no such file"),
        (folder, "is a folder"),
        (loop, "too many symbolic links"),
        (LONG, "the name is too long"),
        (within, "a part of the path is no folder"),
        ("", "the name is empty"),
    ]:
        expect(3, "", f"fault: read\n--tree {name}: {cause}\n", *trees, name)
        expect(3, "", f"fault: read\n{name}: {cause}\n", "show", "tree", name)
    expect(3, "", "fault: read\n--tree missing: no such file\n", *trees[:-1], "--tree=missing")
    expect(3, "", "fault: read\n--context missing: no such file\n",
        "validate-tree", "--context", missing, "--tree", TREE, "--trust")
    expect(3, "", "fault: read\n--receipts missing: no such file\n",
        "validate-tree", "--context", CONTEXT, "--tree", TREE, "--receipts", missing)
    expect(3, "", "fault: read\n--info missing: no such file\n", "validate", "--info", missing, "--trust")
    expect(3, "", "fault: read\n--state missing: no such file\n", "validate", "--state", missing, "--trust")
    expect(3, "", "fault: read\n--log missing: no such file\n",
        "replay", "--info", INFO, "--log", missing, "--trust")
    expect(3, "", "fault: read\n--log folder: is a folder\n",
        "replay", "--info", INFO, "--log", folder, "--trust")
    # the lines of the start come before the log is read
    expect(3, first_line("signatures", "--info", INFO), "fault: read\n--log folder: is a folder\n",
        "signatures", "--info", INFO, "--log", folder)
    if os.getuid() != 0:
        open(closed, "wb").close()
        os.chmod(closed, 0)
        expect(3, "", f"fault: read\n{closed}: no permission\n", "show", "tree", closed)
    # a pipe is read like a file
    os.mkfifo(fifo)
    writer = subprocess.Popen(["cp", TREE, fifo])
    expect(0, first_line("show", "tree", TREE), "", "show", "tree", fifo)
    writer.wait()


def write_faults():
    with open("/dev/full", "wb") as full:
        expect(3, "", "fault: write\nstandard output: no space is left\n", "show", "tree", TREE, stdout=full)
        expect(3, "", "fault: write\nstandard output: no space is left\n", "--help", stdout=full)
    read, write = os.pipe()
    os.close(read)
    expect(3, "", "fault: write\nstandard output: nobody reads it\n", "show", "tree", TREE, stdout=write)
    os.close(write)
    expect(3, "", None, "show", "tree", TREE, stdout=None, preexec_fn=lambda: os.close(1))


def save_faults():
    replay = ["replay", "--info", REAL_INFO, "--log", LOG, "--trust", "--save"]
    report = first_line(*replay[:-1])

    def refused(name, cause):
        expect(3, report, f"fault: write\n--save {name}: {cause}\n", *replay, name)

    refused("/dev/full", "is no regular file")
    assert stat.S_ISCHR(os.lstat("/dev/full").st_mode), "/dev/full is no device any more"
    os.mkfifo("pipe")
    refused("pipe", "is no regular file")
    assert stat.S_ISFIFO(os.lstat("pipe").st_mode)
    os.mkdir("states")
    refused("states", "is a folder")
    with open("old", "wb") as old:
        old.write(b"old")
    os.symlink("old", "link")
    refused("link", "is a symbolic link")
    assert os.readlink("link") == "old" and open("old", "rb").read() == b"old"
    os.symlink("nowhere", "dangling")
    refused("dangling", "is a symbolic link")
    assert os.readlink("dangling") == "nowhere"
    refused("nowhere/state", "no such file")
    refused("old/state", "a part of the path is no folder")
    refused(LONG, "the name is too long")
    refused("", "the name is empty")
    os.mkdir("beside.new")
    refused("beside", "no file can be written as this name with .new")
    assert not os.path.exists("beside")
    # what is a regular file is replaced, whole, and nothing is left beside it
    expect(0, report, "", *replay, "old")
    expect(0, report, "", *replay, "states/new")
    assert open("old", "rb").read() == open("states/new", "rb").read() != b"old"
    assert not [name for name in os.listdir(".") + os.listdir("states") if name in ("old.new", "new.new")]


def wrong_kinds():
    with open("empty", "wb"):
        pass
    with open(RECEIPTS, "rb") as receipts, open("dos", "wb") as dos:
        dos.write(receipts.read().replace(b"\n", b"\r\n"))
    subprocess.run([PROGRAM, "replay", "--info", REAL_INFO, "--log", LOG, "--trust", "--save", "state"],
        stdout=subprocess.DEVNULL, check=True)
    message = "begins as an MLSMessage"

    def unreadable(line, note, *words):
        expect(1, line + "\n" if line else None, note + "\n", *words)

    trees = ["validate-tree", "--trust"]
    unreadable(None, f"--tree {INFO}: {message}", *trees, "--context", CONTEXT, "--tree", INFO)
    unreadable(None, f"--context {INFO}: {message} with a GroupInfo", *trees, "--context", INFO, "--tree", TREE)
    unreadable(None, f"--context {TREE}: begins as a ratchet tree", *trees, "--context", TREE, "--tree", TREE)
    unreadable(None, "--tree empty: is empty", *trees, "--context", CONTEXT, "--tree", "empty")
    unreadable("receipts unreadable 1", "--receipts dos: its lines end in CR LF, not in LF",
        "validate-tree", "--context", CONTEXT, "--tree", TREE, "--receipts", "dos")
    unreadable("info unreadable NotGroupInfo", f"--info {MESSAGE}: {message} without a GroupInfo",
        "validate", "--trust", "--info", MESSAGE)
    unreadable(None, f"--info {TREE}: begins as a ratchet tree", "validate", "--trust", "--info", TREE)
    unreadable(None, "--info state: begins as the file of a state", "validate", "--trust", "--info", "state")
    unreadable(None, f"--state {INFO}: {message}", "validate", "--trust", "--state", INFO)
    unreadable(None, f"--log {MESSAGE}: {message}, not with the length of one",
        "replay", "--trust", "--info", INFO, "--log", MESSAGE)
    unreadable(None, f"{TREE}: begins as a ratchet tree", "show", "message", TREE)
    unreadable(None, f"{MESSAGE}: {message}", "show", "tree", MESSAGE)
    unreadable(None, "empty: is empty", "show", "info", "empty")
    # of a refused tree nothing is said
    expect(1, "tree refused 1 HashDiffers\n", "", *trees, "--context", CONTEXT,
        "--tree", os.path.join(EXAMPLES, "six-members.tree"))


with tempfile.TemporaryDirectory() as made:
    os.chdir(made)
    read_faults()
    write_faults()
    save_faults()
    wrong_kinds()
sys.exit(1 if failed else 0)
