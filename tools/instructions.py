"""Counts instructions: instructions.py runs workloads of tools/workloads.py by callgrind, of valgrind, and prints how many instructions each thing
takes that a workload does, with the most that it may take. instructions.py NAME.. counts those alone. What the work is done on isn't counted, since
a run that does all but the work is taken off. The counts are the same on each run, whatever else the machine does; the C library of another machine
may take a few more or fewer to move memory.

It ends with the status 1 where something takes more than it may, and with 2 where there is no valgrind.
"""
import concurrent.futures
import os
import re
import shutil
import subprocess
import sys
from typing import Callable, NamedTuple

from workloads import (
    added_and_more, cells, counted_calls, dead_between, lines_of_64_sites, lines_of_statuses, live, members, of_frames, paused,
    paused_everywhere, penalized, removed, reports_of_totals, runs, statuses, taken, totals,
)


class Counted(NamedTuple):
    """What is counted: its name, how many of it a run does, the most instructions that each may take, and what makes the workload."""

    name: str
    times: int
    bound: int
    made: Callable


def commands(count, bound):
    """Commands of each kind at a site of `count` members of its own, by lines of a script whose replies are written."""
    kinds = [("add", []), ("pause", [paused]), ("penalty", [paused, penalized]), ("removal", [paused, penalized, removed])]
    made = lambda lines: lambda: added_and_more(count, members(count, 1), 0, 100, lines)
    return [Counted(f"{kind}_at_{count}", 100, bound, made(lines)) for kind, lines in kinds]


def frames(name, times, bound, word, *given):
    """A workload of `bench`, run once on frames that hold `times` things."""
    return Counted(name, times, bound, lambda: of_frames(word, b"".join(given), 1))


def apart(site, first):
    """A frame of 8,192 live dots of a site. Their members are every second one, from the first."""
    return live(site, [(it + 1, 2 * it + first) for it in range(8_192)])


# Sets that are copied and joined have 16,384 cells together, or as many each; what a join takes has its copies in it.
ROWS = commands(256, 25_000) + commands(15_000, 75_000) + [
    Counted("take_at_256", 1_000, 3_300, lambda: taken(256, 1)),
    Counted("take_at_15000", 1_000, 25_000, lambda: taken(15_000, 1)),
    Counted("call_beside_16384_totals", 1_000, 5_500, lambda: counted_calls(1_000)),
    Counted("queue_of_report_of_16384_totals", 2_560, 3_300, lambda: reports_of_totals(10)),
    Counted("member_of_report_of_16384", 16_384, 1_850, lambda: statuses(1, 16_384)),
    Counted("dot_of_pause_of_256", 256, 9_500, lambda: paused_everywhere(64, 4)),
    Counted("dot_of_pause_of_16384", 16_384, 9_500, lambda: paused_everywhere(64, 256)),
    Counted("line_of_64_sites", 20_000, 9_500, lines_of_64_sites),
    Counted("line_of_status_of_10", 10_000, 30_500, lambda: lines_of_statuses(10_000, 10)),
    frames("encode_cell", 16_384, 250, "encode", cells(0, 16_384)),
    frames("decode_cell", 16_384, 970, "decode", cells(0, 16_384)),
    frames("encode_run", 65_536, 40, "encode", runs(1, 65_536)),
    frames("decode_run", 65_536, 500, "decode", runs(1, 65_536)),
    frames("copy_cell", 32_768, 720, "copy", 2 * cells(0, 16_384)),
    frames("join_equal_cell", 16_384, 2_150, "join", 2 * cells(0, 16_384)),
    frames("join_cell_half_known", 16_384, 2_150, "join", cells(0, 8_192), cells(0, 16_384)),
    frames("join_cell_behind", 16_384, 1_300, "join", cells(0, 8_192), cells(1, 8_192)),
    frames("join_cell_before", 16_384, 1_300, "join", cells(1, 8_192), cells(0, 8_192)),
    frames("join_cell_behind_between_members", 16_384, 1_300, "join", apart(0, 0), apart(1, 1)),
    frames("join_cell_before_between_members", 16_384, 1_300, "join", apart(1, 0), apart(0, 1)),
    frames("join_run", 131_072, 230, "join", runs(1, 65_536), runs(2, 65_536)),
    frames("join_total", 16_384, 200, "join", totals(0, 16_384), totals(1, 16_384)),
    frames("row", 16_384, 200, "rows", cells(0, 16_384)),
    frames("dead_dot_beside_live", 16_384, 550, "dead", dead_between(16_384)),
]

# How many times as many instructions a command may take beside 15,000 members as beside 256.
MOST_GROWTH = 3
GROWING = ["add", "pause", "penalty", "removal"]


def counted(command, given):
    """How many instructions a run of a program on these bytes takes."""
    words = [shutil.which("valgrind"), "--tool=callgrind", "--callgrind-out-file=/dev/null", *command]
    said = subprocess.run(words, input=given, stdout=subprocess.DEVNULL, stderr=subprocess.PIPE, check=True, env={}).stderr
    return int(re.search(rb"Collected : (\d+)", said).group(1))


def counts_of(rows):
    """How many instructions each thing takes that the rows count, in their order. A run that several need is done once."""
    with concurrent.futures.ThreadPoolExecutor(len(os.sched_getaffinity(0))) as pool:
        begun = {}

        def begin(run):
            key = tuple(run.command), run.given
            if key not in begun:
                begun[key] = pool.submit(counted, *key)
            return begun[key]

        made = [row.made() for row in rows]
        pairs = [(begin(it.run), begin(it.without)) for it in made]
        for row, (whole, without) in zip(rows, pairs):
            yield round((whole.result() - without.result()) / row.times)


def past(value, bound):
    """What is said of a value past its bound."""
    return "" if value <= bound else "  past its bound"


def main():
    if not shutil.which("valgrind"):
        print("bench: no instructions are counted: they want the program valgrind, of the package of that name", file=sys.stderr)
        return 2
    names = sys.argv[1:] or [row.name for row in ROWS]
    unknown = set(names) - {row.name for row in ROWS}
    if unknown:
        print("bench: no such count:", *sorted(unknown), file=sys.stderr)
        return 2
    rows = [row for row in ROWS if row.name in names]
    print(f"{'each':<34} {'times':>8} {'instructions':>14} {'bound':>10}")
    counts = {}
    for row, count in zip(rows, counts_of(rows)):
        counts[row.name] = count
        print(f"{row.name:<34} {row.times:>8} {count:>14,} {row.bound:>10,}{past(count, row.bound)}", flush=True)
    is_past = any(counts[row.name] > row.bound for row in rows)
    for kind in GROWING:
        few, many = counts.get(f"{kind}_at_256"), counts.get(f"{kind}_at_15000")
        if few and many:
            growth = many / few
            is_past |= growth > MOST_GROWTH
            print(f"{kind + ' at 15,000 members to one at 256':<43} {growth:>14.1f} {MOST_GROWTH:>10}{past(growth, MOST_GROWTH)}")
    return 1 if is_past else 0


if __name__ == "__main__":
    sys.exit(main())
