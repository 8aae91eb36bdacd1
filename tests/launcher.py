#!/usr/bin/env python3
"""Compares what the launcher answers without the program (tools/answers.py) with what the proved program answers.

    tests/launcher.py            compares, with the program crates/mlscheck/out/mlscheck
    tests/launcher.py --write    writes the texts of help into tools/help first, and if all is equal, that it was compared

It is run by hand, since `rt ci` leaves no program: by whoever changes crates/mls_commands or mls_program. Some 4,000 command lines are
tried: those that are written out here, and others by chance. Where the launcher has an answer, the program's status and
both its outputs have to be the same.
"""
import os
import random
import subprocess
import sys
import tempfile

TOP = os.path.dirname(os.path.dirname(os.path.realpath(__file__)))
sys.path.insert(0, os.path.join(TOP, "tools"))
import answers  # noqa: E402

BINARY = os.path.join(TOP, "crates", "mlscheck", "out", "mlscheck")
BY_CHANCE = 4000

LINES = """
--help
-h
help
help show
help nope
--nope
nope
validat
shwo
helpp
show
show tree
show tree a b
show nope there
show tree missing
show info missing --profile full
show message missing --profile full
show message missing --profile other
show key-package missing
show members missing
show state missing --profile full
show log missing --profile full
show log missing --profile other
show --foo
show --fil x
show -x tree there
show tree there --profile
show tree --profile=full
check
check tree-math missing
check tree missing
check transcript missing --profile full
validate --info missing --trust
validate --info missing --receipts there
validate --info missing --receipts good
validate --info there --receipts missing
validate --info there
validate --trust
validate --trust --trust
validate --infoo there
validate --info there --state there --trust
validate --state there --trust --profile full
validate-tree --tree there --trust
validate-tree --tree there --context missing --trust
validate-tree --tree there --context missing
validate-tree --tree - --context - --trust
validate-tree --tree there --context missing --trust --strict
validate-tree --tree there --context missing --trust --strict --allow 47
validate-tree --tree there --context missing --trust --strict --allow 40,41,42,43,44,45,46,47,48,49,50,51,52
validate-tree --tree there --context there --trust --strict --strict
validate-tree --tree there --context there --trust --allow 47
validate-tree --tree there --context there --trust --strict --allow
validate-tree --tree there --context there --trust --strict --allow  --trust
validate-tree --tree there --context there --strict --allow  --trust
validate-tree --tree there --context there --strict --allow= --trust
validate-tree --tree there --context there --trust --strict --allow 39
validate-tree --tree there --context there --trust --strict --allow 53
validate-tree --tree there --context there --trust --strict --allow 47,47
show tree there --strict
show message there --strict --allow 47
check transcript there --strict
validate --info missing --trust --strict
validate --state missing --trust --strict --allow 46,47
validate --info there --trust --strict --allow 047
validate --info there --trust --strict --allow 4x
validate --info there --trust --strict --allow x4
validate --info there --trust --strict --allow 4
validate --info there --trust --strict --allow 47,
validate --info there --trust --strict --allow ,47
validate --info there --trust --strict --allow 47,,46
validate --info there --trust --strict --allow 47;46
validate --info there --trust --strict --allow -
validate --info there --trust --strict=47
validate --info there --trust --stric
validate --info there --state there --trust --allow 47
validate --state there --trust --profile full --strict --allow 60
replay
replay --log
replay --log --info there
replay --log=missing --info=there --trust
replay --log missing --log missing
replay --log there --info missing --trust --save -
replay --log there --info there --trust --now x
replay --log there --info there --trust --now= --save -
replay --log there --info there --trust --now=
replay --log there --info there --trust --now=-1
replay --log there --info there --trust --now -1
replay --log there --info there --trust --now +1
replay --log there --info there --trust --now 1.5
replay --log there --info there --trust --now 18446744073709551616
replay --log missing --info there --trust --now 18446744073709551615
replay --log missing --info there --trust --now 00018446744073709551615
replay --log missing --info there --trust --now 0
replay --log there --info there --trust --now 1 --now 2
replay --log there --info there --trust --now
replay --log there --info there --trust --nov 1
gate --info missing --now 1
gate --info there --now 100000000000000000000
gate --info there --trust --receipts there --now x
gate --state there --now --trust
signatures --info there --now 1
validate --info there --trust --now 1
validate-tree --tree there --context there --trust --now 1
show tree there --now 1
check tree-math there --now=1
validate-key-package
validate-key-package missing
validate-key-package missing --trust
validate-key-package there missing --trust
validate-key-package --trust --receipts good missing
validate-key-package missing --receipts missing
validate-key-package - missing - --trust
validate-key-package missing --trust there -
validate-key-package --strict --allow 53 missing --trust
validate-key-package --info there missing --trust
validate-key-package missing --trust --strict --nope
signatures --key-package
signatures --key-package missing there
signatures --key-package there missing
signatures --key-package=missing there
signatures --key-package missing --key-package there
signatures --key-package - -
signatures --key-package - --receipts -
signatures --key-package missing --log there
signatures --key-package missing --profile full
signatures --key-package missing --strict --receipts good
signatures --key-package missing --trust
signatures --info missing --log there
signatures --info missing --receipts -
gate --info - --trust
gate --info missing
gate --log missing
gate --info there --strict --allow 47 --allow 48
gate --state there --allow 47
replay --log there --info there --trust --save - --strict --allow 40,41,40
signatures --info there --strict --allow 50,
gate -h
gate --info there --help
gate --info --help
""".strip("\n").split("\n")

WORDS = ["show", "check", "validate", "validate-tree", "validate-key-package", "--key-package", "--key-package=there",
         "replay", "signatures", "gate", "help", "tree", "info", "message", "log", "tree-math", "transcript", "members",
         "full", "--info", "--tree", "--state", "--profile", "--log", "--save", "--trust", "--receipts", "--context",
         "--help", "-h", "-V", "--version", "--inf", "--stat", "--trust=1", "--info=x", "--log=missing",
         "--profile=full", "-", "--", "-x", "--nope", "there", "missing", "good", "", "sohw", "é", "--strict",
         "--allow", "--allow=47", "--strict=1", "--stricter", "47", "47,48", "47,47", "39", "53", "4x", "--now",
         "--now=1", "--now=x"]


def by_chance(number):
    chance = random.Random(number)
    words = [chance.choice(list(answers.COMMANDS))] if chance.random() < 0.85 else []
    for _ in range(chance.randrange(8)):
        words += chance.choice([[chance.choice(WORDS)], ["--info", chance.choice(["there", "missing", "-"])], ["--trust"],
                                ["--log", chance.choice(["there", "missing"])], ["--receipts", "good"], ["--strict"],
                                ["--allow", chance.choice(["47", "46,52", "47,47", "39", "53", "047", "4x", "47,", ""])],
                                ["--now", chance.choice(["0", "18446744073709551615", "18446744073709551616", "x", ""])]])
    return words


def run(words, folder):
    # A gate and `-` read standard input, which is empty.
    return subprocess.run([BINARY, *words], cwd=folder, stdin=subprocess.DEVNULL, capture_output=True, check=False)


def write_help():
    for name in ["mlscheck", *answers.COMMANDS]:
        words = ["--help"] if name == "mlscheck" else [name, "--help"]
        with open(os.path.join(answers.HELP, name + ".txt"), "wb") as file:
            file.write(run(words, TOP).stdout)


def main():
    if sys.argv[1:] not in ([], ["--write"]):
        print(__doc__.strip(), file=sys.stderr)
        return 2
    writes = bool(sys.argv[1:])
    if writes:
        write_help()
        answers.are_compared = lambda: True
    elif not answers.are_compared():
        sys.exit("a source has changed since the answers were compared: give --write")
    answered = 0
    lines = [[], *(line.split(" ") for line in LINES), *map(by_chance, range(BY_CHANCE))]
    with tempfile.TemporaryDirectory() as folder:
        os.chdir(folder)
        for name, text in (("there", ""), ("good", "a" * 64 + "\n")):
            with open(name, "w", encoding="utf-8") as file:
                file.write(text)
        for words in lines:
            answer = answers.find_answer(words)
            if answer is None:
                continue
            answered += 1
            ran = run(words, folder)
            wanted = (answer[0], b"" if answer[0] else answer[1].encode(), answer[1].encode() if answer[0] else b"")
            if (ran.returncode, ran.stdout, ran.stderr) != wanted:
                sys.exit(f"{words}: the program answers {ran.returncode}\n{(ran.stdout + ran.stderr).decode()}\n"
                         f"and the launcher {answer[0]}\n{answer[1]}")
    if writes:
        with open(answers.COMPARED, "w", encoding="utf-8") as file:
            print(answers.sum_of_sources(), file=file)
    print(f"{answered} of {len(lines)} command lines have an answer, which is the program's")
    return 0


if __name__ == "__main__":
    sys.exit(main())
