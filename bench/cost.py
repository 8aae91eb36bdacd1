#!/usr/bin/env python3
"""Makes inputs that may cost more than their size, for cost.sh.

    cost.py --list            prints the names of the shapes
    cost.py FOLDER SHAPE K    writes a shape's input, K times its least size, into the folder: `words`, the program's
                              arguments, one a line; `before`, those of a run that is subtracted, as of the start alone;
                              `words.piped` and `before.piped`, which the program reads from a pipe in each run; and the
                              files that the arguments name. It prints how many bytes came after that start. If they are
                              messages, it also prints how many, and which share of the time of a start each may take if
                              it touches much of the group, otherwise 0. If a tree came, it prints how many nodes it has.

A shape whose name ends with `-in-c` is for queries.c, which calls the library for C. The same without `-in-c` is for the gate.

Where a message is sent again and again to a large group, the group and the number of messages grow with K together, so
that a cost of the group's size for each message grows with the square of K. Where a message touches much of the group,
the group is the same for each K.
"""
import sys

# These put their shapes into SHAPES.
import large_shapes
import list_shapes
import repeated_shapes
import small_shapes
import strict_shapes
from shape import SHAPES, Input


def main():
    if sys.argv[1:] == ["--list"]:
        print("\n".join(SHAPES))
        return
    folder, name, times = sys.argv[1:]
    print(*SHAPES[name](Input(folder, float(times))))


if __name__ == "__main__":
    main()
