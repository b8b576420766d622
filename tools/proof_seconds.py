"""The seconds by the clock that the proof of each crate takes, by the number of its jobs: what tools/build.py orders proofs by.

    proof_seconds.py           writes into tools/proof_seconds.txt what the last build measured (out/build.log);
                               rows of other crates, and of other numbers of jobs, stay

Only a build from nothing, with nothing beside it, measures what a first run takes.
"""
import collections
import contextlib
import os
import re
import sys

from crates import TOP, all_crates

TABLE = f"{TOP}/tools/proof_seconds.txt"
LOG = f"{TOP}/out/build.log"
HEAD = "# crate, jobs, seconds by the clock"
OF_CRATE = re.compile(r"== (\w+): (\d+):(\d\d) with (\d+) jobs, ")
UNMEASURED = {1: 60}
SHORTEST = 8  # no proof from nothing takes less than these seconds


def read_table():
    """The seconds of each crate with each number of jobs that was measured; of a crate that was not, a guess. They only order proofs, so
    that a missing table, or a line of it that is none, is passed over."""
    found = collections.defaultdict(lambda: UNMEASURED)
    with contextlib.suppress(OSError), open(TABLE, encoding="utf-8") as file:
        for row in re.finditer(r"(?m)^(\w+) (\d+) (\d+)$", file.read()):
            found[row[1]] = found.get(row[1], {}) | {int(row[2]): int(row[3])}
    return found


def quickest(rows):
    """The number of jobs with which a proof takes least time."""
    return min(rows, key=rows.get)


def read_log():
    """The crates of the last build, each with its number of jobs and its seconds."""
    with open(LOG, encoding="utf-8") as file:
        for line in file:
            row = OF_CRATE.match(line)
            if row:
                minutes, seconds, jobs = map(int, row.groups()[1:])
                if 60 * minutes + seconds >= SHORTEST:
                    yield row[1], jobs, 60 * minutes + seconds


def main():
    if not os.path.exists(LOG):
        print(f"proof_seconds: there is no {LOG}: build the program from nothing first", file=sys.stderr)
        return 1
    table = read_table()
    for crate, jobs, seconds in read_log():
        table[crate] = table.get(crate, {}) | {jobs: seconds}
    rows = [f"{crate} {jobs} {seconds}" for crate in all_crates() for jobs, seconds in sorted(table.get(crate, {}).items())]
    with open(TABLE, "w", encoding="utf-8") as file:
        file.write("\n".join([HEAD, *rows]) + "\n")
    return 0


if __name__ == "__main__":
    sys.exit(main())
