#!/usr/bin/env python3
"""Compares the model with the rows of state files, and of the reports that read and write them.

    state_rows.py

It reads the rows in crates/mls_rows/data that run_rows.py has a result for, in the files that are about states, and prints
each one that has another result, and how many have the one that is written there.
"""
import sys

import run_rows
from strict_rows import Examples, rows_of

FILES = "states added gate lifetimes signatures outside full_rules external suite_groups".split()


def main():
    examples = Examples()
    for name in FILES:
        before = examples.same + examples.other
        for where, line, names in rows_of(name):
            wanted, found = run_rows.agree(line, names)
            if found is not None:
                examples.compare(where, wanted, found)
        print(f"{name}: {examples.same + examples.other - before} rows")
    print(f"{examples.same} rows have the result that is written, {examples.other} another one")
    return 1 if examples.other else 0


if __name__ == "__main__":
    sys.exit(main())
