"""Runs a command of `rt` for one crate of the repository with a number of jobs: prove.py lib|check|run CRATE JOBS [WORD..]

It does what `rt` does, but without the lock that `rt` holds on a crate and all below it: tools/build.py holds that lock for everything
that it starts. Where `rt` sums up the files of a crate and of all below it, to see whether something has changed, this sums up each
crate once, and not once for each of the thousands of paths that lead down to it.
"""
import importlib.machinery
import importlib.util
import os
import shutil
import sys

from crates import folder


def loaded():
    """The program rt, as a module."""
    loader = importlib.machinery.SourceFileLoader("rt", os.path.realpath(shutil.which("rt")))
    rt = importlib.util.module_from_spec(importlib.util.spec_from_loader("rt", loader))
    loader.exec_module(rt)
    return rt


def made_once(stamp):
    """What sums up a crate as `stamp` does, and each below it once."""
    made = {}

    def stamp_of(crate):
        is_first = not made
        if crate.name not in made:
            made[crate.name] = ""
            made[crate.name] = stamp(crate)
        found = made[crate.name]
        if is_first:
            made.clear()
        return found

    return stamp_of


def main():
    verb, crate, jobs, *words = sys.argv[1:]
    rt = loaded()
    rt.rtlib.lock = lambda crates: []
    rt.rtlib.Crate.stamp = made_once(rt.rtlib.Crate.stamp)
    os.chdir(folder(crate))
    return rt.main([verb, "--jobs", jobs, *words])


if __name__ == "__main__":
    sys.exit(main())
