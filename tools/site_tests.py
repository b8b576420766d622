"""Runs test_program on random workloads of sites: what it prints of a few sites, in one thread and as threads, of wrong words,
and where one of its allocations is refused."""
import sys
import tempfile

from crates import folder
from program_tests import NO_COMPILER, Failed, check, expect, refusing

PROGRAM = f"{folder('test_program')}/out/test_program"
JOURNALS = ["journals", "3", "40"]
AUDIT = ["audit", "3", "40"]
WORLD = ["world", "3", "40"]
EVENTS = b"120 events\n"
THREADS = ["threads", "3", "3", "20"]
USAGE = (
    b"usage: test_program frames | session [--greeting=TEXT] [--tries=N] [--take=FRAME] PIECE USER SECRET QUEUE.. | "
    b"journal|desk SITE LIMIT QUEUE.. | journals|audit|world SITES STEPS | threads RUNS SITES ASKS\n"
)


def wrong_words():
    """Errors for wrong command lines."""
    for words in ("", "audit", "audit 3", "audit 0 40", "audit 9 40", "audit 3 0", "audit 3 many", "audit 3 1000001", "audit 3 40 1",
                  "dance 3 40", "journals 0 40", "world 3", "threads 3 3", "threads 0 3 20", "threads 3 9 20", "threads 3 3 0",
                  "threads 3 3 20 1"):
        check(PROGRAM, words.split(), 2, errors=USAGE)


def refused_allocations(room):
    """Refuses each allocation of a run in turn. Returns what was done."""
    run_refusing = refusing(room)
    if not run_refusing:
        return NO_COMPILER
    whole, allocations = run_refusing(0, PROGRAM, WORLD)
    expect(whole.stdout == EVENTS, f"it did not write {EVENTS!r}", whole)
    for number in range(1, allocations + 1):
        ran, _ = run_refusing(number, PROGRAM, WORLD)
        expect(ran.returncode == 1, f"the status is not 1 where allocation {number} is refused", ran)
        expect(ran.stderr == b"test_program: out of memory\n", f"standard error has another text where allocation {number} is refused", ran)
        expect(not ran.stdout, f"it wrote something where allocation {number} is refused", ran)
    return f"each of the {allocations} allocations of three sites, their audit and its world refused in turn"


def run_all():
    """Runs all tests. Returns lines that report what was run."""
    with tempfile.TemporaryDirectory() as room:
        wrong_words()
        check(PROGRAM, JOURNALS, 0, printed=b"120 steps\n")
        check(PROGRAM, AUDIT, 0, printed=EVENTS)
        check(PROGRAM, THREADS, 0, printed=b"3 runs\n")
        for sites in ("1", "8"):
            check(PROGRAM, ["threads", "1", sites, "5"], 0, printed=b"1 runs\n")
        return ["its words and texts", "three runs of three sites as threads, one of one site, and one of eight", refused_allocations(room)]


if __name__ == "__main__":
    try:
        print("\n".join(run_all()))
    except Failed as why:
        sys.exit(f"test: {why}")
