"""Refuses each allocation of a test in turn, the first, the second and so on, until a run makes no more. The test prints `ready` once it
is prepared, asserts itself what was kept or written, and prints a word for how it ended. This module checks that no refusal is passed
over. A test that starts threads doesn't make the same number of allocations each time.

The same for programs on cases. Such a program compares the state after a refusal with a copy from before (of a desk and of a raise
nothing), writes `memory`, and does the line again: so it must write what the case expects, and that one line more. Or it ends with
status 1, or 2 while it reads its words, if the refused allocation was its own."""
import itertools
import os
import sys
import tempfile
from typing import NamedTuple

import cases
from crates import folder
from program_tests import NO_COMPILER, Failed, expect, refusing


class MemoryTest(NamedTuple):
    """A test of a crate, and the word that it prints at its end."""

    crate: str
    name: str
    what: str  # each allocation of this is refused
    whole: str  # there was memory for all
    refused: dict  # an allocation of it was refused, and what that led to


TESTS = [
    MemoryTest(
        crate="tests_of_servers",
        name="feeds::a_feed_gives_the_same_messages_when_memory_comes_later",
        what="a feed",
        whole="at once",
        refused={"again": "only delayed its messages"},
    ),
    MemoryTest(
        crate="tests_of_parts",
        name="frames::a_frame_is_read_and_spelled_again_or_memory_is_wanted",
        what="a frame that is read and spelled",
        whole="spelled",
        refused={"refused": "refused one of the two with Memory"},
    ),
    MemoryTest(
        crate="tests_of_parts",
        name="member_sets::a_first_join_without_memory_leaves_both_sets",
        what="a join into an empty set",
        whole="joined",
        refused={"refused": "refused it with Memory, and left both sets as they were"},
    ),
    MemoryTest(
        crate="tests_of_parts",
        name="member_sets::a_join_without_memory_leaves_both_sets",
        what="a join",
        whole="joined",
        refused={"refused": "refused it with Memory, and left both sets as they were"},
    ),
    MemoryTest(
        crate="tests_of_servers",
        name="worlds::events_that_lack_memory_change_nothing_and_happen_again",
        what="two worlds",
        whole="at once",
        refused={"again": "changed nothing, and had the outcome NoMemory"},
    ),
    MemoryTest(
        crate="tests_of_servers",
        name="served::a_session_that_lacks_memory_ends_or_replies_so",
        what="a served session",
        whole="whole",
        refused={"fault": "ended it with Memory", "reply": "were replied to as Out of memory"},
    ),
    MemoryTest(
        crate="tests_of_servers",
        name="workers::runs::memory_of_a_run",
        what="a run of three sites as threads",
        whole="whole",
        refused={
            "no thread": "kept a thread from being started",
            "no run": "ended the run with Memory",
            "stopped": "stopped a site's thread with Memory",
            "unread": "kept an audit or a report from being made",
        },
    ),
]


# The cases of programs that do a line again, by their kinds, and their names and folders.
CASES = {
    "frames": [
        "deltas/a_conflict_changes_nothing",
        "deltas/a_newer_dot_of_a_site_replaces_its_older_one",
        "deltas/a_total_is_raised_up_to_its_limit",
        "deltas/dots_are_asserted_and_killed",
        "deltas/room_is_made_for_a_set",
        "deltas/sets_are_joined_without_totals",
        "deltas/totals_are_the_greater_of_both",
    ],
    "steps": [
        "journals",
        "desks/a_full_journal_goes_on_after_a_checkpoint",
        "desks/frames_that_are_not_taken_change_nothing",
    ],
}


def is_ready(ran):
    """Whether what is to be done was prepared."""
    return ran.stdout.startswith(b"ready\n")


def end_of(ran):
    """How it ended, as the test prints it."""
    expect(ran.returncode == 0, "the test failed", ran)
    return ran.stdout.decode().splitlines()[1]


def ends_of(test, run_refusing, tests):
    """How a test ends with each of its allocations refused in turn, in their order, but for those that it makes before it is ready."""
    ends = []
    for number in itertools.count(1):
        ran, allocations = run_refusing(number, tests, [test.name])
        if ran.returncode >= 0 and allocations < number:
            return ends
        if ends or is_ready(ran):
            ends.append(end_of(ran))
            expect(ends[-1] in test.refused, f"allocation {len(ends)} of {test.what} was refused, and the test does not report it", ran)


def run_one(test, run_refusing):
    """Runs a test with each of its allocations refused. Returns a line that reports what was run."""
    tests = f"{folder(test.crate)}/out/{test.crate}_tests"
    if not os.path.exists(tests):
        raise Failed(f"the tests of {test.crate} are not built")
    whole, _ = run_refusing(0, tests, [test.name])
    expect(end_of(whole) == test.whole, f"with all its memory the test does not print {test.whole!r}", whole)
    ends = ends_of(test, run_refusing, tests)
    for end, led_to in test.refused.items():
        expect(end in ends, f"no refused allocation of {test.what} {led_to}", whole)
    led = ", ".join(f"{ends.count(end)} {led_to}" for end, led_to in test.refused.items())
    return f"each of the {len(ends)} allocations of {test.what} refused in turn: {led}"


def has_refusal(ran, wanted):
    """Whether a case was run again at the line whose allocation was refused. False where the program has ended, and has written a front
    of the output."""
    lines = ran.stdout.splitlines(keepends=True)
    is_again = b"memory\n" in lines
    if is_again:
        lines.remove(b"memory\n")
    written = b"".join(lines)
    if ran.returncode == 0:
        expect(is_again and written == wanted, "no refusal is reported, or more has changed", ran)
    else:
        expect(ran.returncode in (1, 2) and wanted.startswith(written), "it ends in another way", ran)
    return ran.returncode == 0


def run_case(case, program, run_refusing):
    """Runs a program on a case with each of its allocations refused. Returns after how many refusals it did a line again, and after how
    many it ended."""
    whole, allocations = run_refusing(0, program, case.words(), case.part(case.kind))
    wanted = case.part("expected")
    expect(whole.returncode == 0 and whole.stdout == wanted, "with all its memory it writes something else", whole)
    again = 0
    for number in range(1, allocations + 1):
        ran, _ = run_refusing(number, program, case.words(), case.part(case.kind))
        again += has_refusal(ran, wanted)
    return again, allocations - again


def crates_of_cases():
    """The programs that the cases are run by."""
    return sorted({cases.KINDS[kind].program for kind in CASES})


def run_cases(kind, run_refusing):
    """Runs the cases of a kind. Returns a line that reports what was run."""
    found = [it for it in cases.all_cases() if it.kind == kind and cases.is_named(it, CASES[kind])]
    for name in CASES[kind]:
        if not any(cases.is_named(it, [name]) for it in found):
            raise Failed(f"there is no case {name}")
    path = cases.built(kind)
    again, ended = (sum(it) for it in zip(*(run_case(it, path, run_refusing) for it in found)))
    if not again:
        raise Failed(f"no refused allocation of cases of {kind} led to a line that was done again")
    return (
        f"each of the {again + ended} allocations of {len(found)} cases of {kind} refused in turn: {again} changed nothing, and the "
        f"line was done again, {ended} ended it"
    )


def run_all(crates):
    """Runs the tests of these crates, and the cases of these programs. Returns lines that report what was run."""
    with tempfile.TemporaryDirectory() as room:
        run_refusing = refusing(room)
        if not run_refusing:
            return [NO_COMPILER]
        report = [run_one(test, run_refusing) for test in TESTS if test.crate in crates]
        return report + [run_cases(kind, run_refusing) for kind in CASES if cases.KINDS[kind].program in crates]


if __name__ == "__main__":
    try:
        print("\n".join(run_all(sys.argv[1:] or [*(test.crate for test in TESTS), *crates_of_cases()])))
    except Failed as why:
        sys.exit(f"test: {why}")
