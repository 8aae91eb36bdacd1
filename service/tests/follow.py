#!/usr/bin/env python3
"""Follows the group of examples/real by the built service, as README.md shows it, and checks each answer.

    service/tests/follow.py [--store sqlite|postgres]

Each message is sent forged, as it is, and once more. The service is killed after the fourth message, and goes on. At the end the
stored files are replayed by mlscheck, if it is built.
"""
import argparse
import json
import os
import tempfile

import common

REAL = os.path.join(common.TOP, "examples", "real")


def line_of(answer):
    """Returns an answer as `mlscheck replay` prints it."""
    if answer["verdict"] == "refused":
        return f"refused {answer['rule']} {answer['name']}"
    if answer["kind"] == "proposal":
        return f"accepted proposal {answer['reference']}"
    return f"accepted commit {answer['epoch']} {answer['tree_hash']} {answer['confirmed_transcript_hash']}"


def forged(message):
    """Returns the message with another signature, which stands before the two tags of a commit or the one of a proposal."""
    at = message.rindex(b"\x40\x40") + 2
    return message[:at] + bytes([message[at] ^ 1]) + message[at + 1:]


def main():
    parser = argparse.ArgumentParser()
    parser.add_argument("--store", choices=["sqlite", "postgres"], default="sqlite")
    parser.add_argument("--program", default=common.PROGRAM)
    args = parser.parse_args()
    folder = tempfile.mkdtemp()
    db = common.Postgres().url if args.store == "postgres" else os.path.join(folder, "groups.db")
    service = common.Service(db, program=args.program, log=os.path.join(folder, "log"))
    service.start()

    def ask(method, path, body=b"", status=200):
        answer = common.request(service.url, method, path, body)
        assert answer and answer[0] == status, (path, answer)
        return json.loads(answer[1])

    group = "/v1/groups/real"
    info = common.read(os.path.join(REAL, "epoch-1.info"))
    # The lifetimes of its KeyPackages end in November 2027.
    start = ask("PUT", group + "?lifetimes=ignored", info, 201)
    assert (start["epoch"], start["members"], len(start["rules"])) == (1, 2, 13), start
    assert ask("PUT", group + "?lifetimes=ignored", info) == start
    assert ask("PUT", group, info, 409)["error"] == "other_start"
    want = common.read(os.path.join(common.TOP, "examples", "c", "expected.txt")).decode().splitlines()[1:]
    messages = list(common.records(common.read(os.path.join(REAL, "handshakes.log"))))
    for number, message in enumerate(messages, 1):
        refused = ask("POST", group + "/handshakes", forged(message))
        assert line_of(refused) == "refused 7 BadSignature", refused
        answer = ask("POST", group + "/handshakes", message)
        assert line_of(answer) == want[number - 1] and answer["sequence"] == number, (answer, want[number - 1])
        assert ask("POST", group + "/handshakes", message) == {**answer, "repeated": True}
        if number == 4:
            service.kill()
            service.start()
    now = ask("GET", group)
    assert (now["epoch"], now["members"], now["sequence"]) == (8, 3, 10), now
    tree = common.request(service.url, "GET", group + "/tree")
    assert tree[1] == common.read(os.path.join(REAL, "epoch-8.tree")), "another tree"
    assert len(ask("GET", group + "/members")["members"]) == 3
    common.check_rows(common.stored(service.url, "real"))
    page = common.request(service.url, "GET", "/group/real")
    assert page[0] == 200 and b"7 BadSignature" in page[1] and b"<svg" in page[1], page
    print(f"{len(messages)} messages, each forged, as it is and once more: the answers are those of examples/c/expected.txt")
    if common.can_replay():
        print("replayed to the same state:", common.check_replay(service.url, "real"))
    # The last commit is undone, and accepted no more.
    assert ask("POST", group + "/undo?sequence=10")["epoch"] == 7
    assert ask("POST", group + "/handshakes", messages[9])["verdict"] == "undone"
    assert ask("POST", group + "/confirm?epoch=7")["confirmed"] > 0
    assert service.stop() == 0, "the service has not ended well"


if __name__ == "__main__":
    main()
