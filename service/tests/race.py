#!/usr/bin/env python3
"""Sends two commits of each epoch of a group to two services over one PostgreSQL at the same time.

    service/tests/race.py [--epochs N] [--kill]

Exactly one commit of each epoch is accepted, by either service. The other one is refused as 4. Whoever sends the accepted one
again is answered with its sequence. With --kill one of the services is killed now and then.
"""
import argparse
import collections
import copy
import json
import os
import random
import tempfile
import threading
import time

import common
import signed_group as made
from signed_group import model


def rivals_of(group, epoch, chosen):
    """Returns two commits of an epoch by two members, each with the group after it."""
    rivals = []
    for committer in chosen.sample(group.present(), 2):
        after = copy.deepcopy(group)
        joining = [model.new_leaf("joined", epoch, committer)] if epoch % 7 == 0 else []
        leaf = after.renewed(committer)._replace(encryption=model.key("rival leaf", epoch, committer))
        plan = model.Plan(committer, [], joining, leaf, {at: model.key("rival", epoch, committer, at) for at in range(20)})
        rivals.append((after.commit(plan), after))
    return rivals


def ask_all(urls, rivals, chosen):
    """Sends each commit to each service at the same time, and returns the answers."""
    jobs = [(url, number) for url in urls for number in (0, 1)]
    chosen.shuffle(jobs)
    gate, answers = threading.Barrier(len(jobs)), []

    def ask(url, number):
        gate.wait()
        begun = time.monotonic()
        answer = json.loads(common.insist(url, "POST", "/v1/groups/race/handshakes", rivals[number][0]))
        answers.append((number, answer, time.monotonic() - begun))

    threads = [threading.Thread(target=ask, args=job) for job in jobs]
    for thread in threads:
        thread.start()
    for thread in threads:
        thread.join()
    assert len(answers) == len(jobs), answers
    return answers


def winner_of(answers, sequence):
    """Checks the answers of an epoch, and returns the number of the commit that was accepted."""
    won = {number for number, answer, _ in answers if answer["verdict"] == "accepted"}
    assert len(won) == 1, answers
    winner = won.pop()
    assert {answer["sequence"] for number, answer, _ in answers if number == winner} == {sequence}, answers
    assert sum(not answer.get("repeated") for number, answer, _ in answers if number == winner) <= 1, answers
    assert all(answer.get("rule") == 4 for number, answer, _ in answers if number != winner), answers
    return winner


def main():
    parser = argparse.ArgumentParser()
    parser.add_argument("--epochs", type=int, default=1000)
    parser.add_argument("--members", type=int, default=8)
    parser.add_argument("--kill", action="store_true")
    parser.add_argument("--program", default=common.PROGRAM)
    args = parser.parse_args()
    postgres = common.Postgres()
    folder = tempfile.mkdtemp()
    services = [common.Service(postgres.url, program=args.program, log=os.path.join(folder, str(i))) for i in range(2)]
    for service in services:
        service.start()
    urls = [service.url for service in services]
    made.sign_the_model()
    group, chosen = made.Group(args.members, 2), random.Random(2)
    tree = group.tree()
    common.insist(urls[0], "PUT", f"/v1/groups/race?tree={len(tree)}", group.info() + tree)
    kinds, times, kills = collections.Counter(), [], 0
    for epoch in range(args.epochs):
        rivals = rivals_of(group, epoch, chosen)
        killer = None
        if args.kill and epoch % 20 == 10:
            killed = chosen.choice(services)
            killer = threading.Timer(chosen.uniform(0, 0.01), lambda killed=killed: (killed.kill(), killed.start()))
            killer.start()
            kills += 1
        answers = ask_all(urls, rivals, chosen)
        if killer:
            killer.join()
        group = rivals[winner_of(answers, epoch + 1)][1]
        for _, answer, seconds in answers:
            kinds[" ".join([answer["verdict"], *(["again"] if answer.get("repeated") else []), str(answer.get("rule", ""))]).strip()] += 1
            times.append(1000 * seconds)
    times.sort()
    print(f"{args.epochs} epochs, {kills} kills: {dict(kinds)}; ms p50 {times[len(times) // 2]:.1f} p99 {times[len(times) * 99 // 100]:.1f}")
    for url in urls:
        common.check_rows(common.stored(url, "race"))
    assert len({common.insist(url, "GET", "/v1/groups/race/state") for url in urls}) == 1, "the services have other states"
    print("both services have one log and one state")
    if common.can_replay():
        print("replayed to the same state:", common.check_replay(urls[0], "race"))
    for service in services:
        service.stop()


if __name__ == "__main__":
    main()
