#!/usr/bin/env python3
"""Sends the logs of real groups to a service, each message twice, and compares the answers with the report of a reference.

    service/tests/rooms.py [--profile members|full] FOLDER..

A folder has info.mls, log.bin, and oracle.txt: what `mlscheck replay` prints with the receipts of the good signatures. A message
that was accepted has to be answered the second time as repeated, with its sequence, and one that was refused as before.
"""
import argparse
import collections
import json
import os
import tempfile

import common


def said(answer):
    if answer["verdict"] != "accepted":
        return f"refused {answer['rule']}"
    if answer["kind"] == "proposal":
        return "accepted proposal " + answer["reference"]
    return f"accepted commit {answer['epoch']} {answer['tree_hash']} {answer['confirmed_transcript_hash']}"


def main():
    parser = argparse.ArgumentParser()
    parser.add_argument("folders", nargs="+")
    parser.add_argument("--profile", choices=["members", "full"], default="members")
    parser.add_argument("--program", default=common.PROGRAM)
    args = parser.parse_args()
    folder = tempfile.mkdtemp()
    service = common.Service(os.path.join(folder, "groups.db"), program=args.program, log=os.path.join(folder, "log"))
    service.start()
    counts, differences = collections.Counter(), []
    for number, room in enumerate(args.folders):
        for difference in follow(service.url, f"room-{number}", room, args.profile, counts):
            differences.append((room, *difference))
    print(dict(counts), "differences", len(differences))
    for difference in differences[:20]:
        print(*difference)
    raise SystemExit(1 if differences else 0)


def follow(url, name, folder, profile, counts):
    """Yields what is not as in the report."""
    lines = common.read(os.path.join(folder, "oracle.txt")).decode().splitlines()
    path = f"/v1/groups/{name}"
    # The reports are of the rules of the profile alone, without a time.
    status, body = common.request(url, "PUT", f"{path}?profile={profile}&rules=plain&lifetimes=ignored",
                                  common.read(os.path.join(folder, "info.mls")))
    if status != 201:
        counts["not started"] += 1
        if not lines[0].startswith(("start ", "info ", "tree ")):
            yield 0, lines[0], status, body
        return
    counts["groups"] += 1
    accepted = {}
    for number, message in enumerate(common.records(common.read(os.path.join(folder, "log.bin"))), 1):
        want = lines[number - 1].split(" ", 1)[1]
        answers = []
        for _ in range(2):
            status, body = common.request(url, "POST", path + "/handshakes", message, headers={"Mls-Allow": "outside"})
            assert status == 200, (folder, number, status, body)
            answers.append(json.loads(body))
        first, again = answers
        counts["messages"] += 1
        counts[first["verdict"]] += 1
        if first.get("repeated"):
            if accepted.get(message) != first["sequence"] or want.split()[1] not in ("4", "8", "28"):
                yield number, want, first
        elif said(first).split()[:6] != want.removesuffix(" ended").split()[:len(said(first).split())]:
            yield number, want, first
        if first["verdict"] == "accepted":
            accepted[message] = first["sequence"]
            if again != {**first, "repeated": True}:
                yield number, "sent again", first, again
        elif again != first:
            yield number, "sent again", first, again


if __name__ == "__main__":
    main()
