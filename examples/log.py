#!/usr/bin/env python3
"""Packs messages into a log, and unpacks a log into messages.

    log.py pack [--output LOG] [--force] MESSAGE ...
    log.py unpack [--into FOLDER] [--force] LOG

A log is what `mlscheck replay` reads: the messages in order, each as a vector, behind its length (RFC 9420, 2.1.2). `pack`
writes the named files in the order in which they are named, to standard output if no LOG is named. `unpack` writes the files
0001.message, 0002.message and so on into the folder. Nothing is overwritten without `--force`, and of a broken log nothing is
written.

Exit status: 0 if all is written, 1 if the log is broken, 2 for a wrong command line, 3 for a fault of a file.
"""

import argparse
import os
import re
import sys

# The limits of a log (docs/FORMATS.md).
MOST_BYTES = 268_435_456
MOST_MESSAGES = 1_000_000

# The least length that is written with as many bytes (RFC 9420, 2.1.2).
LEAST = {1: 0, 2: 64, 4: 16_384}


class Fault(Exception):
    """What cannot be done: which file, what is wrong, and what to do."""


class Broken(Exception):
    """Where a log ends that cannot be read further: the offset of the message, its number from 1 on, and why."""

    def __init__(self, at, why, number=0):
        super().__init__(f"message {number} at byte {at}: {why}")
        self.at, self.why, self.number = at, why, number


def vector(data, at):
    """Returns where the body of the vector at an offset begins, and where it ends. Raises Broken."""
    size = 1 << (data[at] >> 6)
    if size == 8:
        raise Broken(at, f"its length begins with the byte {data[at]:02x}, as none does")
    if at + size > len(data):
        raise Broken(at, f"the end comes inside its length, which has {size} bytes")
    count = int.from_bytes(data[at:at + size], "big") & ((1 << (8 * size - 2)) - 1)
    if count < LEAST[size]:
        raise Broken(at, f"its length {count} is not in its shortest form")
    if count > MOST_BYTES:
        raise Broken(at, f"it has {count} bytes, and at most {MOST_BYTES} are read")
    if at + size + count > len(data):
        raise Broken(at, f"it has {count} bytes, and only {len(data) - at - size} are there")
    return at + size, at + size + count


def messages(data):
    """Yields the offset and the body of each message of a log. Raises Broken at one that is not whole."""
    at, number = 0, 0
    while at < len(data):
        number += 1
        if number > MOST_MESSAGES:
            raise Broken(at, f"a log has at most {MOST_MESSAGES} messages", number)
        try:
            begin, end = vector(data, at)
        except Broken as broken:
            raise Broken(at, broken.why, number) from None
        yield at, data[begin:end]
        at = end


def length_of(body):
    """Returns the length before a message, in its shortest form (RFC 9420, 2.1.2)."""
    count = len(body)
    size = max(size for size, least in LEAST.items() if count >= least)
    return (count | {1: 0, 2: 0x4000, 4: 0x8000_0000}[size]).to_bytes(size, "big")


def read(name):
    """Returns the bytes of a file."""
    try:
        with open(name, "rb") as file:
            return file.read()
    except OSError as error:
        raise Fault(f"{name}: {error.strerror}") from error


def write(name, data, is_forced):
    """Writes a file, which may be there already only if `is_forced`."""
    try:
        with open(name, "wb" if is_forced else "xb") as file:
            file.write(data)
    except FileExistsError:
        raise Fault(f"{name} is there already: it is overwritten with --force alone") from None
    except OSError as error:
        raise Fault(f"{name}: {error.strerror}") from error


def note(text):
    print(f"note: {text}", file=sys.stderr)


def record(name):
    """Returns a message of a file behind its length."""
    body = read(name)
    if len(body) > MOST_BYTES:
        raise Fault(f"{name} has {len(body)} bytes, and a message of a log has at most {MOST_BYTES}")
    if body[:2] != b"\x00\x01":
        note(f"{name} does not begin with 0001, as an MLSMessage does: it is packed all the same")
    return length_of(body) + body


def pack(words):
    if len(words.MESSAGE) > MOST_MESSAGES:
        raise Fault(f"these are {len(words.MESSAGE)} messages, and a log has at most {MOST_MESSAGES}")
    if words.output is None and sys.stdout.isatty():
        raise Fault("a log is not for a terminal: name a file with --output")
    log = b"".join(record(name) for name in words.MESSAGE)
    if words.output is None:
        sys.stdout.buffer.write(log)
        sys.stdout.buffer.flush()
    else:
        write(words.output, log, words.force)


def names_for(folder, count):
    """Returns the paths of that many messages: in the order of the log they are also in the order of their names."""
    digits = max(4, len(str(count)))
    return [os.path.join(folder, f"{number:0{digits}}.message") for number in range(1, count + 1)]


def check_folder(folder, names, is_forced):
    """Checks that no file is overwritten, and notes the messages of another log in the folder."""
    there = {os.path.join(folder, name) for name in os.listdir(folder) if re.fullmatch(r"\d+\.message", name)}
    if not is_forced and there & set(names):
        raise Fault(f"{min(there & set(names))} is there already: name another folder with --into, or overwrite with --force")
    if there - set(names):
        note(f"{min(there - set(names))} is there too, and is not of this log")


def unpack(words):
    bodies = [body for _, body in messages(read(words.LOG))]
    names = names_for(words.into, len(bodies))
    try:
        os.makedirs(words.into, exist_ok=True)
        check_folder(words.into, names, words.force)
    except OSError as error:
        raise Fault(f"{words.into}: {error.strerror}") from error
    for name, body in zip(names, bodies):
        write(name, body, words.force)
    print(f"{len(bodies)} messages in {words.into}", file=sys.stderr)


def words_of_main():
    parser = argparse.ArgumentParser(description="Packs messages into a log, and unpacks a log into messages.")
    commands = parser.add_subparsers(dest="command", required=True)
    packing = commands.add_parser("pack", help="write a log of messages")
    packing.add_argument("MESSAGE", nargs="+", help="a file with one MLSMessage")
    packing.add_argument("-o", "--output", metavar="LOG", help="the log; standard output, if none is named")
    packing.set_defaults(run=pack)
    unpacking = commands.add_parser("unpack", help="write the messages of a log")
    unpacking.add_argument("LOG", help="a file of messages, each behind its length")
    unpacking.add_argument("--into", metavar="FOLDER", default=".", help="where the files are written; made, if it isn't there")
    unpacking.set_defaults(run=unpack)
    for command in (packing, unpacking):
        command.add_argument("--force", action="store_true", help="overwrite files that are there")
    return parser.parse_args()


def main():
    words = words_of_main()
    try:
        words.run(words)
    except Broken as broken:
        print(f"broken: {words.LOG}: {broken}. Nothing is written", file=sys.stderr)
        sys.exit(1)
    except (Fault, OSError) as fault:
        print(f"fault: {fault}", file=sys.stderr)
        sys.exit(3)


if __name__ == "__main__":
    main()
