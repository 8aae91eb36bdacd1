#!/usr/bin/env python3
"""Prints which mlscheck this is: its version, the commit or a sum of the sources, and the logic of the proofs."""
import hashlib
import os
import subprocess

TOP = os.path.dirname(os.path.dirname(os.path.realpath(__file__)))

# The logic that the sources are proved in: the second part of what `rt version` prints.
LOGIC = "dac8208d650f15bf"


def number():
    with open(os.path.join(TOP, "VERSION"), encoding="utf-8") as file:
        return file.read().strip()


def git(*words):
    try:
        said = subprocess.run(["git", "-C", TOP, *words], stdout=subprocess.PIPE, stderr=subprocess.DEVNULL, check=False)
    except OSError:
        return None
    return said.stdout.decode().strip() if said.returncode == 0 else None


def sources():
    """Returns a sum of the sources: of the name and the bytes of each file that is proved."""
    names = ["HANDLES", "VERSION", "crates.txt"]
    for part in ("src", "specs", "proofs"):
        for crate in os.listdir(os.path.join(TOP, "crates")):
            for folder, _, files in os.walk(os.path.join(TOP, "crates", crate, part)):
                names += [os.path.relpath(os.path.join(folder, file), TOP) for file in files]
    total = hashlib.sha256()
    for name in sorted(names):
        with open(os.path.join(TOP, name), "rb") as file:
            total.update(f"{name}\0{hashlib.sha256(file.read()).hexdigest()}\n".encode())
    return total.hexdigest()[:12]


def origin():
    """Returns the commit, if the sources are those of one, else their sum."""
    is_checkout = os.path.exists(os.path.join(TOP, ".git"))
    commit = git("rev-parse", "--short=12", "HEAD") if is_checkout else None
    if commit and git("status", "--porcelain", "--", "crates", "crates.txt", "HANDLES", "VERSION") == "":
        return f"commit {commit}"
    return f"sources {sources()}"


def text():
    return f"mlscheck {number()} ({origin()}, logic {LOGIC})"


if __name__ == "__main__":
    print(text())
