"""Finds functions that are slow to prove because of what they drop: slow_drops.py [CRATE..]

The proof of a function that owns several droppable values, of which each way out drops others, takes 4 to 28 times as long as one
that calls `drop` for each before it returns early. The checks that stand in out/incremental show how many such values a function has.
For each function with three or more, in these crates or in all, a line has the function, that number, and the seconds that its check took.
The seconds are those of the last check that proved the function; they are exact where that check had one job. What earlier checks left
counts too, so that a function which was mended goes once the crate is checked with an empty out/incremental.
"""
import os
import re
import sys

from crates import all_crates, folder

FEWEST = 3
OF_FUNCTION = re.compile(r"Rattle-\w+-proofs\.(?P<function>.+?)\.(?P<part>Kinds-(?P<count>\d+)-\d+-\d+-1|[A-Z]\w*)(-[-\d]+)?\.oantt")


def checked_files(crate):
    """The files that the last checks of a crate kept, in the order in which they were written, each with the seconds since the one before."""
    found = [
        (os.stat(f"{at}/{name}").st_mtime, name)
        for at, _, names in os.walk(f"{folder(crate)}/out/incremental")
        if not at.endswith("/records")
        for name in names
        if name.endswith(".oantt")
    ]
    found.sort()
    return [(name, time - before) for (before, _), (time, name) in zip(found[:1] + found, found)]


def slow_drops(crate):
    """The functions of a crate with several values that each way out drops differently: each with their number, and its seconds."""
    counts, seconds = {}, {}
    for name, took in checked_files(crate):
        part = OF_FUNCTION.fullmatch(name)
        if part:
            function = part["function"]
            seconds[function] = seconds.get(function, 0) + took
            counts[function] = max(counts.get(function, 0), int(part["count"] or 0))
    return sorted(((it, counts[it], seconds[it]) for it in counts if counts[it] >= FEWEST), key=lambda row: -row[2])


def main(names):
    crates = all_crates()
    unknown = [it for it in names if it not in crates]
    if unknown:
        print(f"slow_drops: there is no crate {unknown[0]}", file=sys.stderr)
        return 2
    for crate in names or crates:
        for function, count, seconds in slow_drops(crate):
            print(f"{crate}::{function.replace('.', '::')} {count} {seconds:.1f}")
    return 0


if __name__ == "__main__":
    sys.exit(main(sys.argv[1:]))
