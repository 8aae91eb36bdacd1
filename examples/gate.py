#!/usr/bin/env python3
"""Drives the live gate: `mlscheck gate` processes each message of a log, and the signatures are verified here.

    gate.py [--strict [--allow NUMBERS]] [--forge] --info FILE [--tree FILE] [--profile PROFILE] --log FILE [--save FILE]
            [--receipts FILE]
    gate.py [--strict [--allow NUMBERS]] [--forge] --state FILE --log FILE [--save FILE] [--receipts FILE]

The class `Gate` is all that a service needs. It queries the gate for the signatures of a message, verifies them, sends the
receipts of the good ones, and sends the message. The gate's answer to each message is printed.

With `--strict` the gate asks the strict rules too, as a service should, but for those that `--allow` names.

With `--save` the state after the log is stored in a file, from which a later run begins with `--state`. With `--receipts`
the receipts of the good signatures are written into a file, for `mlscheck replay`.

With `--forge` each message is first sent with another signature, one bit of it changed; the gate has to refuse it by rule 7
and to go on. The arithmetic is that of the Python package `cryptography` (see receipts.py). Nothing here is proved.
"""

import argparse
import os
import subprocess
import sys

from receipts import bytes_of, is_good

PROGRAM = os.environ.get("PROGRAM") or os.path.join(os.path.dirname(os.path.abspath(__file__)), "..", "mlscheck")


def record(body):
    """A vector of RFC 9420, 2.1.2."""
    count = len(body)
    if count < 64:
        return bytes([count]) + body
    if count < 16384:
        return (count | 0x4000).to_bytes(2, "big") + body
    return (count | 0x80000000).to_bytes(4, "big") + body


def records(data):
    """The bodies of a log's records."""
    while data:
        size = 1 << (data[0] >> 6)
        count = int.from_bytes(data[:size], "big") & ((1 << (8 * size - 2)) - 1)
        yield data[size : size + count]
        data = data[size + count :]


class Unlisted(RuntimeError):
    """A line in place of a list of signatures: why the group cannot be followed, or `broken`."""


class Gate:
    """One group, followed by a process of its own."""

    def __init__(self, *words):
        self.process = subprocess.Popen([PROGRAM, "gate", *words], stdin=subprocess.PIPE, stdout=subprocess.PIPE)
        self.receipts = []

    def send(self, letter, rest=b""):
        try:
            self.process.stdin.write(record(letter + rest))
            self.process.stdin.flush()
        except BrokenPipeError as error:
            raise RuntimeError("the gate has ended") from error

    def line(self):
        """The next line of the answer. That there is none is no answer: the gate has ended, with a fault or by a signal."""
        line = self.process.stdout.readline()
        if not line.endswith(b"\n"):
            raise RuntimeError("the gate has ended")
        return line.decode().rstrip("\n")

    def asked(self):
        """The signatures that an answer lists, up to the line `queried`."""
        wanted = []
        while (line := self.line()).startswith("verify "):
            wanted.append(line.split()[1:])
        if not line.startswith("queried "):
            raise Unlisted(line)
        return wanted

    def learn(self, wanted):
        """Verifies signatures, and sends the gate the receipts of the good ones."""
        good = [r for r, s, k, c, g in wanted if is_good(int(s), bytes_of(k), bytes_of(c), bytes_of(g))]
        self.receipts += good
        self.send(b"r", b"".join(bytes.fromhex(receipt) for receipt in good))

    def begin(self):
        """Starts by the good signatures. Returns the line `ready ..`, or the one that says why the group is not followed."""
        try:
            self.learn(self.asked())
        except Unlisted as refusal:
            return str(refusal)
        self.send(b"b")
        return self.line()

    def query(self, message):
        self.send(b"q", message)
        return self.asked()

    def judge(self, message):
        self.learn(self.query(message))
        self.send(b"m", message)
        return self.line()

    def state(self):
        """The file of the state, from which a gate can be started with `--state`."""
        self.send(b"s")
        line = self.line()
        if not line.startswith("state ") or line == "state TooLong":
            raise RuntimeError(line)
        return bytes.fromhex(line.removeprefix("state "))

    def end(self):
        self.process.stdin.close()
        return self.process.wait()


def forged(gate, message):
    """The message with one bit of its own signature changed: the first signature that it needs."""
    signature = bytes_of(gate.query(message)[0][4])
    return message.replace(signature, signature[:-1] + bytes([signature[-1] ^ 1]))


def save(state, path):
    """Stores a state: a reader finds the file as it was, or the new one."""
    with open(path + ".new", "wb") as new:
        new.write(state)
        new.flush()
        os.fsync(new.fileno())
    os.replace(path + ".new", path)


def words_of_main():
    parser = argparse.ArgumentParser(description="Drives the live gate over a log, and verifies the signatures.")
    parser.add_argument("--forge", action="store_true", help="send each message forged first")
    parser.add_argument("--strict", action="store_true", help="ask the strict rules too")
    parser.add_argument("--allow", metavar="NUMBERS", help="strict rules that are not asked, as 46,47")
    for name in ("info", "tree", "state", "save", "receipts"):
        parser.add_argument("--" + name, metavar="FILE")
    parser.add_argument("--profile", choices=["members", "full"])
    parser.add_argument("--log", metavar="FILE", required=True)
    return parser.parse_args()


def main():
    words = words_of_main()
    given = [(name, getattr(words, name)) for name in ("info", "tree", "state", "profile", "allow")]
    options = [word for name, value in given if value for word in ("--" + name, value)]
    with open(words.log, "rb") as log:
        messages = list(records(log.read()))
    gate = Gate(*options, *(["--strict"] if words.strict else []))
    first = gate.begin()
    print(first)
    if not first.startswith("ready "):
        sys.exit(gate.end())
    for message in messages:
        if words.forge:
            answer = gate.judge(forged(gate, message))
            if answer != "refused 7 BadSignature":
                sys.exit(f"a forged message is answered: {answer}")
        print(gate.judge(message))
    if words.save:
        save(gate.state(), words.save)
    if words.receipts:
        with open(words.receipts, "w", encoding="ascii") as receipts:
            receipts.writelines(receipt + "\n" for receipt in gate.receipts)
    sys.exit(gate.end())


if __name__ == "__main__":
    try:
        main()
    except (OSError, RuntimeError) as error:
        print(f"fault: {error}", file=sys.stderr)
        sys.exit(3)
