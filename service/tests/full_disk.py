#!/usr/bin/env python3
"""Fills the disk of the service's SQLite file, and checks that what was answered is stored, and that the service goes on.

    service/tests/full_disk.py [--megabytes N]

It mounts a small file system in memory, for which it has to run as root. Messages are sent until the store has no room: from then
on each has the status 503. Then room is made, and the message that had no answer is sent again.
"""
import argparse
import json
import os
import subprocess
import tempfile

import common
import signed_group as made
from signed_group import model


def main():
    parser = argparse.ArgumentParser()
    parser.add_argument("--megabytes", type=int, default=4)
    parser.add_argument("--program", default=common.PROGRAM)
    args = parser.parse_args()
    disk, logs = tempfile.mkdtemp(), tempfile.mkdtemp()
    subprocess.run(["mount", "-t", "tmpfs", "-o", f"size={args.megabytes}m", "tmpfs", disk], check=True)
    try:
        fill(args, disk, os.path.join(logs, "log"))
    finally:
        subprocess.run(["umount", "-l", disk], check=True)


def fill(args, disk, log):
    ballast = os.path.join(disk, "ballast")
    with open(ballast, "wb") as file:
        file.write(bytes(1 << 20))
    service = common.Service(os.path.join(disk, "groups.db"), program=args.program, log=log)
    service.start()
    made.sign_the_model()
    group = made.Group(50, 2)
    tree, chosen = group.tree(), made.random.Random(3)
    common.insist(service.url, "PUT", f"/v1/groups/full?tree={len(tree)}", group.info() + tree)
    answers, held = [], None
    while held is None:
        message = model.next_message(group, "paths", chosen)
        status, body = common.request(service.url, "POST", "/v1/groups/full/handshakes", message)
        answer = json.loads(body)
        if status == 503:
            held = message
        else:
            assert status == 200 and answer["verdict"] == "accepted" and answer["sequence"] == len(answers) + 1, answer
            answers.append(common.digest(message))
    print(f"{len(answers)} messages until the disk of {args.megabytes} MB was full; then {answer}")
    for _ in range(20):  # it stays so, and no answer is another one
        status, body = common.request(service.url, "POST", "/v1/groups/full/handshakes", held)
        assert status == 503, (status, body)
    digests = common.check_rows(common.stored(service.url, "full"))
    assert [digests[n] for n in sorted(digests)] == answers, "what was answered is not what is stored"
    os.remove(ballast)
    common.insist(service.url, "POST", "/v1/groups/full/handshakes", held)
    answers.append(common.digest(held))
    service.kill()
    service.start()
    digests = common.check_rows(common.stored(service.url, "full"))
    assert [digests[n] for n in sorted(digests)] == answers, "what was answered is not what is stored"
    print("with room again it went on, also after it was killed")
    if common.can_replay():
        print("replayed to the same state:", common.check_replay(service.url, "full"))
    assert service.stop() == 0


if __name__ == "__main__":
    main()
