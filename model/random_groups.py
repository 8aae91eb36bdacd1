#!/usr/bin/env python3
"""Follows random groups by the program and by a model of the rules, and compares them line by line.

    random_groups.py [PROGRAM] [--groups N] [--seed S] [--first K] [--messages M] [--jobs J] [--model-only] [--strict]

PROGRAM is `./mlscheck` if it isn't named, N is 1,000, S 1, M 12. The groups have the numbers K (0) to K + N - 1. S and
its number determine a group. `--model-only` runs no program: it compares the model with the rules that the faults are
meant to break, as every run does.

A group has 1 to some 40 members, in a tree with blank nodes and unmerged leaves, that was made by commits of its own. Of
eight groups one is followed in the members' profile, the others in the full one. Half of the groups trust each
signature, the others have receipts of the good ones. A log has messages of members, external senders, clients that
propose to join, and clients that join, or come back, with a commit. Many of the messages are made wrong in one
way or in two (faults.py), or in one bit.

`--strict` makes other groups, whose keys, tags and lists mostly meet the strict rules. Each is followed with a set of
these rules, by chance, without those that its start does not meet. The model's follower with the set must give what
follows from its followers without strict rules and with each rule alone.

Some KeyPackages have a lifetime of some seconds. Most logs are followed at a time, by chance, which may lie outside of it. Each
message must then be answered as without a time, except that 53 may refuse what is accepted without one.

For each group the program must print what follower.py and signatures.py give:

- `replay`, also of the log in two parts, the second from the file that the first stores, which has to be the model's
- `gate`, which is sent the receipts of the good signatures that it lists, message by message, and of some groups other times
  between the messages
- `signatures`
- `gate`, `signatures` and `validate` from that file, also without the receipt of a signature of each pending proposal
- `validate`, on the model's GroupInfo and tree of each epoch that a commit begins, and on a start that does not meet
  the strict rules
- `replay` and `validate` from the file of the plain state at the start, to which the strict rules are added

Of each group the model's state in the middle of the log is stored and resumed: as the same state, by the signatures that are
listed, and by no fewer.

The script ends with 1 if a group differs, and keeps the folder of that group.
"""
import argparse
import collections
import concurrent.futures
import hashlib
import os
import shutil
import subprocess
import sys
import tempfile

import signatures
import strict
import tree as trees
from layouts import BYTES, Message, U16, U64, whole
from follower import Follower, Refused, content_of, message_of, short
from random_cases import Mismatch, answer, check_resumption, cut_of, kind_of, make_case, random_time
from stored_states import file_of


def write(folder, name, body):
    path = os.path.join(folder, name)
    with open(path, "wb") as file:
        file.write(body)
    return path


def log_of(steps):
    return b"".join(BYTES.write(step.message) for step in steps)


def receipts_file(maker):
    return "".join(line + "\n" for line in sorted(maker.receipts)).encode()


class Runs:
    """The runs of the program on a group's files."""

    def __init__(self, program, folder, case):
        self.program = program
        self.folder = folder
        self.case = case
        self.profile = ["--profile", "full" if case.follower.full else "members"]
        self.files = ["--info", write(folder, "info", case.info), *self.profile]
        if case.tree:
            self.files += ["--tree", write(folder, "tree", case.tree)]
        self.start = self.files + strict_words(case.follower.rules)
        self.time = [] if case.time is None else ["--now", str(case.time)]

    def trust(self):
        if self.case.maker.trusting:
            return ["--trust"]
        return ["--receipts", write(self.folder, "receipts", receipts_file(self.case.maker))]

    def compare(self, wanted, *words, sent=None):
        """Raises what differs from the lines that the program must print."""
        told = subprocess.run([self.program, *words], input=sent, stdout=subprocess.PIPE, stderr=subprocess.STDOUT,
                              check=False)
        found = told.stdout.decode().splitlines()
        if found != wanted:
            pairs = [pair for pair in zip(wanted, found) if pair[0] != pair[1]]
            wanted, found = pairs[0] if pairs else (f"{len(wanted)} lines", f"{len(found)} lines, {found[-1:]}")
            raise Mismatch(f"{words[0]}: wanted {wanted[:300]}, found {found[:300]} (in {self.folder})")

    def starts(self):
        """The start with all the strict rules of the case, if it does not meet them."""
        case = self.case
        if case.rules != case.follower.rules:
            line = start_line(case.rules, whole(Message, case.info).body[1], case.state.tree)
            self.compare([line], "validate", *self.files, *strict_words(case.rules), *self.trust())

    def replays(self):
        """The whole log, then its two parts, the second from the file that the first stores. Of a follower with strict rules
        also from the file of the plain state at the start, to which the rules are added."""
        steps, trust = self.case.steps, self.trust() + self.time
        log = write(self.folder, "log", log_of(steps))
        self.compare(replay_lines(steps), "replay", *self.start, "--log", log, *trust)
        cut, stored = cut_of(self.case)
        first = write(self.folder, "first", log_of(steps[:cut]))
        second = write(self.folder, "second", log_of(steps[cut:]))
        state = self.state_file()
        if cut:
            self.compare(replay_lines(steps[:cut]), "replay", *self.start, "--log", first, "--save", state, *trust)
            self.compare_file(state, file_of(self.case.follower, stored))
        self.compare(replay_lines(steps[cut:]), "replay", "--state", state, "--log", second, *trust)
        if self.case.follower.rules:
            self.additions(log)

    def state_file(self):
        """The model's file of the state in the middle of the log."""
        return write(self.folder, "state", file_of(self.case.follower, cut_of(self.case)[1]))

    def compare_file(self, path, wanted):
        with open(path, "rb") as file:
            found = file.read()
        if found != wanted:
            raise Mismatch(f"wanted the file {wanted.hex()}, found {found.hex()} (in {self.folder})")

    def resumptions(self):
        """From the file of the state in the middle of the log: its signatures, the gate with them, and, without that of a
        pending proposal's content, the refusal."""
        case, suite, state = self.case, self.case.maker.suite, self.state_file()
        _, stored = cut_of(case)
        listed = signatures.of_state(stored, case.follower.full)
        lines = [signature_line(suite, each) for each in listed]
        self.compare(lines, "signatures", "--state", state)
        context, members = stored.context, len(trees.members(stored.tree))
        receipts = [receipt(suite, each) for each in listed]
        sent = [b"r" + bytes.fromhex("".join(receipts)), b"b", b"s"]
        wanted = [f"verify {line}" for line in lines] + [f"queried {len(lines)}"]
        wanted.append(f"ready epoch {context.epoch} members {members} tree {context.tree_hash.hex()}")
        wanted.append(f"state {file_of(case.follower, stored).hex()}")
        self.compare(wanted, "gate", "--state", state, sent=b"".join(BYTES.write(record) for record in sent))
        for position, pending in enumerate(stored.pending):
            own = signatures.of_message(stored, case.follower.full, message_of(content_of(context, pending)))[0]
            others = [each for each in receipts if each != receipt(suite, own)]
            file = write(self.folder, "others", "".join(line + "\n" for line in others).encode())
            line = f"state refused 9 KnownInvalid {position}"
            self.compare([line], "validate", "--state", state, "--receipts", file)

    def additions(self, log):
        """From the file of the plain state at the start: the log by the rules that it meets, and the start by all."""
        case, trust, state = self.case, self.trust(), os.path.join(self.folder, "plain")
        context = case.state.context
        none = [f"accepted 0 refused 0 broken 0 epoch {context.epoch}"]
        self.compare(none, "replay", *self.files, "--log", write(self.folder, "none", b""), "--save", state, *trust)
        added = ["--state", state, *strict_words(case.follower.rules)]
        self.compare(replay_lines(case.steps), "replay", *added, "--log", log, *trust, *self.time)
        tree = case.state.tree
        line = group_line("state refused 10", strict.group_faults(case.rules, context, tree), context, tree)
        self.compare([line], "validate", "--state", state, *strict_words(case.rules), *trust)

    def gate(self):
        """A gate that learns the receipts of the good signatures that it lists. For half of the groups other times come between
        the records."""
        case, known, sent, lines = self.case, set(), [], []
        chosen, state, time = case.maker.chosen, case.state, case.time
        is_timed = chosen.random() < 0.5

        def timed():
            if not is_timed or chosen.random() < 0.8:
                return time
            found = random_time(case.maker)
            sent.append(b"t" + U64.write(found))
            return found

        def queried(signatures):
            new = [each for each in signatures if receipt(case.maker.suite, each) not in known]
            lines.extend("verify " + signature_line(case.maker.suite, each) for each in new)
            lines.append(f"queried {len(new)}")
            receipts = [receipt(case.maker.suite, each) for each in new]
            learnt = [each for each in receipts if case.maker.trusting or each in case.maker.receipts]
            known.update(learnt)
            sent.append(b"r" + bytes.fromhex("".join(learnt)))

        queried(signatures.of_start(whole(Message, case.info).body[1], state.tree))
        context, members = state.context, len(trees.members(state.tree))
        time = timed()
        sent.append(b"b")
        lines.append(f"ready epoch {context.epoch} members {members} tree {context.tree_hash.hex()}")
        for step in case.steps:
            sent.append(b"q" + step.message)
            queried(signatures_of(state, case.follower.full, step.message) or [])
            time = timed()
            sent.append(b"m" + step.message)
            state, line = answer(case.follower, state, step.message, time)
            lines.append(line)
        records = b"".join(BYTES.write(record) for record in sent)
        self.compare(lines, "gate", *self.start, *self.time, sent=records)

    def signatures(self):
        """Those of the start and of the log, in the states to which the messages lead if each signature is good."""
        case, suite = self.case, self.case.maker.suite
        start = signatures.of_start(whole(Message, case.info).body[1], case.state.tree)
        lines = [signature_line(suite, each) for each in start]
        follower, state = Follower(lambda *_: True, case.follower.full, case.follower.rules), case.state
        for number, step in enumerate(case.steps, 1):
            listed = signatures_of(state, follower.full, step.message)
            lines += [f"{number} refused 1"] if listed is None else [signature_line(suite, each) for each in listed]
            state, _ = answer(follower, state, step.message)
        self.compare(lines, "signatures", *self.start, "--log", os.path.join(self.folder, "log"))

    def epochs(self):
        """The GroupInfo and the tree of each epoch that a commit begins."""
        maker, rules = self.case.maker, self.case.follower.rules
        for step in self.case.steps:
            context, tree = step.after.context, step.after.tree
            if context == step.before.context:
                continue
            info, message = maker.signed_info(context, tree, False)
            files = ["--info", write(self.folder, "epoch-info", message),
                     "--tree", write(self.folder, "epoch-tree", trees.encode(tree))]
            line = start_line(rules, info, tree)
            self.compare([line], "validate", *files, *self.profile, *strict_words(rules), *self.trust())


def strict_words(rules):
    """The options of a command that checks these strict rules."""
    allowed = ",".join(str(rule) for rule in sorted(strict.ALL - rules))
    return (["--strict"] + (["--allow", allowed] if allowed else [])) if rules else []


def start_line(rules, info, tree):
    """What `validate` prints of a start that meets all other conditions."""
    return group_line("start refused 9", strict.start_faults(rules, info, tree), info.context, tree)


def group_line(refused, faults, context, tree):
    """What `validate` prints of a group: the first fault, or that it is valid."""
    for rule, place in faults:
        return f"{refused} Strict {rule} {strict.NAMES[rule]}" + ("" if place is None else f" {place}")
    members = len(trees.members(tree))
    return f"valid epoch {context.epoch} members {members} tree {context.tree_hash.hex()}"


def replay_lines(steps):
    lines = [f"{number} {short(step.answer)}" for number, step in enumerate(steps, 1)]
    accepted = sum(step.answer.startswith("accepted") for step in steps)
    epoch = steps[-1].after.context.epoch
    return lines + [f"accepted {accepted} refused {len(steps) - accepted} broken 0 epoch {epoch}"]


def signatures_of(state, full, message):
    """Those of a message; None if it cannot be read."""
    try:
        return signatures.of_message(state, full, message)
    except Refused as refused:
        return None if refused.rule == 1 else []


def receipt(suite, signature):
    return hashlib.sha256(U16.write(suite) + b"".join(BYTES.write(part) for part in signature)).hexdigest()


def signature_line(suite, signature):
    columns = [part.hex() or "-" for part in signature]
    return " ".join([receipt(suite, signature), str(suite), *columns])


def run(program, seed, number, count, is_strict):
    """Makes a group and compares the program with the model. It answers what differs, or None, and the counts."""
    folder = tempfile.mkdtemp(prefix=f"group-{seed}-{number}-")
    answers = collections.Counter()
    try:
        case = make_case(seed, number, count, is_strict)
        for step in case.steps:
            words = step.answer.split()
            answers[kind_of(step.message), "accepted" if words[0] == "accepted" else int(words[1])] += 1
            answers["epochs"] += step.answer.startswith("accepted commit")
        check_resumption(case)
        if program:
            runs = Runs(program, folder, case)
            for each in (runs.starts, runs.replays, runs.gate, runs.signatures, runs.resumptions, runs.epochs):
                each()
    except Mismatch as differs:
        return f"group {number}: {differs}", answers
    shutil.rmtree(folder)
    return None, answers


def summary(answers):
    """A line for each sender and kind, with how many were accepted, and refused by which rules."""
    for kind in sorted({key[0] for key in answers if key != "epochs"}):
        refused = {key[1]: count for key, count in answers.items() if key[0] == kind and key[1] != "accepted"}
        told = ", ".join(f"{refused[rule]} by {rule}" for rule in sorted(refused))
        print(f"{kind}: {answers[kind, 'accepted']} accepted" + (f"; refused {told}" if told else ""))


def main():
    own = os.path.join(os.path.dirname(os.path.abspath(__file__)), "..", "mlscheck")
    parser = argparse.ArgumentParser()
    parser.add_argument("program", nargs="?", default=own)
    parser.add_argument("--groups", type=int, default=1_000)
    parser.add_argument("--first", type=int, default=0)
    parser.add_argument("--seed", type=int, default=1)
    parser.add_argument("--messages", type=int, default=12)
    parser.add_argument("--jobs", type=int, default=2)
    parser.add_argument("--model-only", action="store_true")
    parser.add_argument("--strict", action="store_true")
    args = parser.parse_args()
    program = None if args.model_only else args.program
    answers, differing = collections.Counter(), 0
    with concurrent.futures.ProcessPoolExecutor(args.jobs) as pool:
        numbers = range(args.first, args.first + args.groups)
        runs = [pool.submit(run, program, args.seed, number, args.messages, args.strict) for number in numbers]
        for differs, counted in (each.result() for each in runs):
            answers.update(counted)
            differing += differs is not None
            if differs:
                print(differs, file=sys.stderr)
    summary(answers)
    epochs = answers.pop("epochs")
    total, accepted = sum(answers.values()), sum(count for key, count in answers.items() if key[1] == "accepted")
    print(f"{args.groups} groups, {total} messages, {accepted} accepted and {total - accepted} refused, "
          f"{epochs} epochs: {differing} groups differ")
    return 1 if differing else 0


if __name__ == "__main__":
    sys.exit(main())
