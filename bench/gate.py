#!/usr/bin/env python3
"""Times records of `mlscheck gate --trust` over a pipe, in addition to `replay`.

    gate.py [--members N ..] [--log L]

For each number of members it makes a group and a log of L commits with a path each. `replay` processes them from the file,
and so does the gate, which is sent a message only once the answer to the one before it has come. The script prints the
seconds from the first message to the last answer, and what a record takes beyond a message of `replay`.
"""

import argparse
import os
import subprocess
import sys
import tempfile
import time

HERE = os.path.dirname(os.path.abspath(__file__))
sys.path.insert(0, os.path.join(HERE, "..", "examples"))
import gate as client  # noqa: E402


def seconds_of(words):
    start = time.monotonic()
    subprocess.run([client.PROGRAM, *words], stdout=subprocess.DEVNULL, check=True)
    return time.monotonic() - start


def judged(files, messages):
    gate = client.Gate(*files, "--trust")
    gate.begin()
    start = time.monotonic()
    for message in messages:
        gate.send(b"m", message)
        if not gate.line().startswith("accepted "):
            sys.exit("a message is not accepted")
    seconds = time.monotonic() - start
    gate.end()
    return seconds


def main():
    parser = argparse.ArgumentParser()
    parser.add_argument("--members", type=int, nargs="+", default=[1_000, 100_000])
    parser.add_argument("--log", type=int, default=1_000)
    words = parser.parse_args()
    for members in words.members:
        with tempfile.TemporaryDirectory() as folder:
            made = [sys.executable, os.path.join(HERE, "group.py"), folder, "--members", str(members)]
            subprocess.run([*made, "--commits", "1000", "--log", str(words.log), "--kind", "paths"], check=True)
            files = ["--info", f"{folder}/info", "--tree", f"{folder}/tree"]
            with open(f"{folder}/log", "rb") as log:
                messages = list(client.records(log.read()))
            open(f"{folder}/empty", "wb").close()
            start = seconds_of(["replay", *files, "--log", f"{folder}/empty", "--trust"])
            replay = seconds_of(["replay", *files, "--log", f"{folder}/log", "--trust"]) - start
            gate = judged(files, messages)
            beyond = 1000 * (gate - replay) / len(messages)
            print(f"{members} members, {len(messages)} commits: replay {replay:.2f} s, gate {gate:.2f} s, {beyond:.3f} ms more each")


if __name__ == "__main__":
    main()
