#!/usr/bin/env python3
"""Runs the kit's command rt, with less work for the same proofs:

    rt_once.py WORDS

To see what has changed, rt compares a sum of the sources of a crate and of all crates below it with that of the last
build. It computes the sum of a crate below once for each way that leads down to it: for mls_cli it reads 300,000 files.
Here each sum below is computed once for each sum that rt asks for. So the sums are equal, and as new.

`rt lib` stores what a later check of a changed crate begins with, and the proofs in a library, which the crates above load.
Here a library is built as `rt ci` builds it: proved whole, without stored work, and with the statements of what was proved
in place of the proofs. With a kit whose rt has none of this, this is rt as it is.
"""
import functools
import importlib.machinery
import os
import runpy
import shutil
import sys
import threading


def once(stamp):
    """Returns the method `stamp`, which computes each sum below a crate once in a call."""
    calls = threading.local()

    @functools.wraps(stamp)
    def stamp_once(crate):
        sums = getattr(calls, "sums", None)
        if sums is not None:
            if crate.folder not in sums:
                sums[crate.folder] = stamp(crate)
            return sums[crate.folder]
        calls.sums = {}
        try:
            return stamp(crate)
        finally:
            calls.sums = None

    return stamp_once


def build_statements(rtlib, made):
    """Returns the method `build_rlib`, which builds a library with its statements alone, as a run of `rt ci` does."""

    @functools.wraps(made)
    def build_rlib(crate, flags, anew):
        if anew or crate.is_built():
            return made(crate, flags, anew)
        stamp, folder = crate.stamp(), os.path.dirname(crate.rlib)
        shutil.rmtree(folder, ignore_errors=True)
        os.makedirs(folder)
        words = crate.words(flags, keeps=False)
        status = crate.call(rtlib.RATTLE, "build", *words, "--statements", "-o", crate.rlib)
        if status == 0 and stamp == crate.stamp():
            with open(os.path.join(folder, "stamp"), "w", encoding="utf-8") as file:
                file.write(stamp)
        return status

    return build_rlib


class Loader(importlib.machinery.SourceFileLoader):
    """Loads the library of rt, whose crates then compute each sum once."""

    def exec_module(self, module):
        super().exec_module(module)
        for made in list(vars(module).values()):
            stamp = vars(made).get("stamp") if isinstance(made, type) else None
            if callable(stamp) and made.__module__ == module.__name__:
                made.stamp = once(stamp)
                if hasattr(made, "cuts_libraries") and "--statements" in module.help_of("build"):
                    made.build_rlib = build_statements(module, made.build_rlib)


def main():
    rt = shutil.which("rt")
    if rt is None:
        sys.exit("rt is not on the path")
    importlib.machinery.SourceFileLoader = Loader
    sys.argv[0] = rt
    runpy.run_path(os.path.realpath(rt), run_name="__main__")


if __name__ == "__main__":
    main()
