#!/usr/bin/env python3
"""Compares the reports of two programs on made groups: `replay` of logs whose commits add and remove members. Each log
ends with a changed copy of a commit, in which one rule may be broken or one bit is changed by chance, and that commit.

    same_answers.py FORMER [PROGRAM] [--messages N] [--seed S]

PROGRAM is `./mlscheck` where it isn't named, and N 10,000. It ends with 1 at the first log on which they differ, and
keeps that log's folder.
"""
import argparse
import collections
import copy
import os
import random
import shutil
import subprocess
import sys
import tempfile

from group import BASIC, Group, Plan, key, new_leaf, number, vector

BOTH = bytes.fromhex("020001 020001 00 00 0400010002")
LISTING = bytes.fromhex("020001 020001 02ff00 00 020001")
X509_ALONE = bytes.fromhex("020001 020001 00 00 020002")


def known_key(group, chosen):
    """A key that some node of the tree has."""
    keys = [leaf.encryption for leaf in group.leaves if leaf]
    return chosen.choice(keys + [node[0] for level in group.levels[1:] for node in level if node])


def spoilt(group, leaf, chosen):
    """The leaf with one thing changed that some rule may forbid."""
    return chosen.choice([
        leaf._replace(encryption=known_key(group, chosen)),
        leaf._replace(encryption=b""),
        leaf._replace(signature=group.leaves[chosen.choice(group.present())].signature),
        leaf._replace(credential=b"\x00\x02" + vector(vector(b"certificate"))),
        leaf._replace(capabilities=X509_ALONE),
        leaf._replace(extensions=number(0xFF00, 2) + vector(b"")),
    ])


def plan_of(group, chosen):
    """What a commit that satisfies every rule does."""
    committer = chosen.choice(group.present())
    others = [index for index in group.present() if index != committer]
    removed = chosen.sample(others, min(len(others), chosen.choice([0, 0, 1, 2])))
    count = chosen.choice([0, 0, 1, 2])
    kinds = [BASIC, BOTH, LISTING]
    joining = [new_leaf("joined", group.epoch, at, capabilities=chosen.choice(kinds)) for at in range(count)]
    if removed and joining and chosen.random() < 0.5:
        gone = group.leaves[removed[0]]
        joining[0] = joining[0]._replace(encryption=gone.encryption, signature=gone.signature)
    return Plan(committer, removed, joining, group.renewed(committer), {})


def changed_plans(group, plan, chosen):
    """A commit with one thing changed, of which some are refused."""
    yield plan._replace(keys={0: known_key(group, chosen)})
    yield plan._replace(keys={1: known_key(group, chosen)})
    yield plan._replace(keys={0: key("twice"), 1: key("twice")})
    for _ in range(3):
        yield plan._replace(renewed=spoilt(group, plan.renewed, chosen))
    for at, leaf in enumerate(plan.joining):
        for _ in range(3):
            joining = plan.joining[:at] + [spoilt(group, leaf, chosen)] + plan.joining[at + 1:]
            yield plan._replace(joining=joining)
    if plan.joining:
        yield plan._replace(joining=plan.joining + plan.joining[:1])


def flipped(message, chosen):
    at = chosen.randrange(len(message))
    return message[:at] + bytes([message[at] ^ (1 << chosen.randrange(8))]) + message[at + 1:]


def step(group, chosen):
    """The next commit of a group, and changed copies of it."""
    plan = plan_of(group, chosen)
    changed = [copy.deepcopy(group).commit(other) for other in changed_plans(group, plan, chosen)]
    truth = group.commit(plan)
    return truth, changed + [flipped(truth, chosen) for _ in range(2)]


def make(folder, chosen):
    """Writes a group's info and tree, and answers its logs, as lists of messages."""
    group = Group(chosen.choice([1, 2, 3, 5, 7, 8, 20, 33]), chosen.choice([0, 3, 10]))
    write(folder, "info", group.info())
    write(folder, "tree", group.tree())
    former, logs = [], []
    for _ in range(chosen.randrange(1, 6)):
        truth, changed = step(group, chosen)
        logs += [former + [message, truth] for message in changed]
        former = former + [truth]
    return logs


def write(folder, name, body):
    with open(os.path.join(folder, name), "wb") as file:
        file.write(body)


def report(program, folder):
    names = [os.path.join(folder, name) for name in ("info", "tree", "log")]
    words = ["replay", "--info", names[0], "--tree", names[1], "--log", names[2], "--trust"]
    told = subprocess.run([program] + words, stdout=subprocess.PIPE, stderr=subprocess.PIPE, check=False)
    return told.returncode, told.stdout


def main():
    own = os.path.join(os.path.dirname(os.path.abspath(__file__)), "..", "mlscheck")
    parser = argparse.ArgumentParser()
    parser.add_argument("former")
    parser.add_argument("program", nargs="?", default=own)
    parser.add_argument("--messages", type=int, default=10_000)
    parser.add_argument("--seed", type=int, default=1)
    args = parser.parse_args()
    seen, groups, answers = 0, 0, collections.Counter()
    while seen < args.messages:
        folder = tempfile.mkdtemp()
        logs = make(folder, random.Random(args.seed * 1_000_000 + groups))
        groups += 1
        for log in logs:
            seen += len(log)
            write(folder, "log", b"".join(vector(message) for message in log))
            former, now = report(args.former, folder), report(args.program, folder)
            if former != now:
                print(f"they differ on the log in {folder}", file=sys.stderr)
                return 1
            for line in now[1].decode().splitlines()[:-1]:
                words = line.split()
                answers["accepted" if words[1] == "accepted" else " ".join(words[1:3])] += 1
        shutil.rmtree(folder)
    told = ", ".join(f"{count} {answer}" for answer, count in sorted(answers.items()))
    print(f"the same on {seen} messages of {groups} groups: {told}")
    return 0


if __name__ == "__main__":
    sys.exit(main())
