#!/usr/bin/env python3
"""Kills the service, or its database, at random moments under load, and checks that nothing was lost or accepted twice.

    service/tests/kill.py [--store sqlite|postgres] [--what service|database] [--kills N] [--info FILE [--tree FILE] --log FILE]

Each answer of an accepted message that a client got is in the store once, with the sequence that was answered. The sequences have
no gap. `mlscheck replay` over what is stored reaches the state that the service has. Without --info the group of examples/real is
sent, as that of many groups.
"""
import argparse
import collections
import os
import random
import subprocess
import tempfile

import common


def parse():
    real = os.path.join(common.TOP, "examples", "real")
    parser = argparse.ArgumentParser()
    parser.add_argument("--store", choices=["sqlite", "postgres"], default="sqlite")
    parser.add_argument("--what", choices=["service", "database"], default="service")
    parser.add_argument("--kills", type=int, default=200)
    parser.add_argument("--groups", type=int, default=100)
    parser.add_argument("--clients", type=int, default=16)
    parser.add_argument("--longest", type=float, default=0.5, help="seconds between two kills")
    parser.add_argument("--replayed", type=int, default=50, help="groups that are replayed")
    parser.add_argument("--info", default=os.path.join(real, "epoch-1.info"))
    parser.add_argument("--tree", default="")
    parser.add_argument("--log", default=os.path.join(real, "handshakes.log"))
    parser.add_argument("--options", default="lifetimes=ignored", help="the lifetimes of the real group have passed")
    parser.add_argument("--seed", type=int, default=1)
    parser.add_argument("--program", default=common.PROGRAM)
    args = parser.parse_args()
    if args.what == "database" and args.store == "sqlite":
        parser.error("SQLite is a part of the service")
    return args


def load(args, url, name, answers):
    return subprocess.Popen([os.path.join(common.TOP, "build", "load"), "-url", url, "-info", args.info, "-tree", args.tree, "-log", args.log,
                             "-groups", str(args.groups), "-clients", str(args.clients), "-name", name, "-answers", answers,
                             "-options", args.options, "-retry"], stdout=subprocess.PIPE, text=True)


def main():
    args = parse()
    chosen = random.Random(args.seed)
    folder = tempfile.mkdtemp()
    postgres = common.Postgres() if args.store == "postgres" else None
    service = common.Service(postgres.url if postgres else os.path.join(folder, "groups.db"), program=args.program,
                             log=os.path.join(folder, "log"))
    starts, kills, rounds, last = [service.start()], 0, 0, ""
    answers = os.path.join(folder, "answers")
    while kills < args.kills:
        sending = load(args, service.url, f"round-{rounds}", answers)
        while sending.poll() is None and kills < args.kills:
            try:
                sending.wait(chosen.uniform(0.01, args.longest))
            except subprocess.TimeoutExpired:
                kills += 1
                if args.what == "database":
                    postgres.kill()
                else:
                    service.kill()
                    starts.append(service.start())
        last = sending.communicate()[0].strip().splitlines()[-1]
        assert sending.returncode == 0, last
        rounds += 1
    print(f"{kills} kills in {rounds} rounds; the last: {last}")
    starts.sort()
    print(f"ready after, ms: p50 {1000 * starts[len(starts) // 2]:.0f}, most {1000 * starts[-1]:.0f}")
    check(args, service, answers, chosen)
    service.stop()


def check(args, service, answers, chosen):
    messages = list(common.records(common.read(args.log)))
    answered = collections.defaultdict(list)
    with open(answers, encoding="ascii") as file:
        for line in file:
            name, number, sequence = line.split()
            answered[name].append((int(number), int(sequence)))
    count = 0
    for name, pairs in answered.items():
        digests = common.check_rows(common.stored(service.url, name))
        for number, sequence in pairs:
            assert digests[sequence] == common.digest(messages[number]), (name, number, sequence)
            count += 1
    print(f"{count} answers of {len(answered)} groups: each message is stored once, with its sequence")
    if common.can_replay():
        names = chosen.sample(sorted(answered), min(args.replayed, len(answered)))
        for name in names:
            line = common.check_replay(service.url, name)
        print(f"{len(names)} groups replayed to the same state; the last: {line}")


if __name__ == "__main__":
    main()
