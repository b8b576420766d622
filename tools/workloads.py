"""Times workloads: workloads.py RUNS NAME.. runs all that are named in turn, RUNS times. For each it prints its name, a checksum, how
often a run does the work, and in how many seconds of a processor, by the least time of the runs. The preparation isn't timed, since
the time of a run that does everything but the work is subtracted. workloads.py memory NAME prints the most megabytes that a run of a
workload has, with its preparation, if it has no input.

The workloads of frames are run by `bench` (docs/frames.md has their bytes): frames of live dots, each of a member of its own with a
penalty, of dead dots, and of totals. Those of commands and of frames at sites are scripts of `queue_sites` (docs/script.md), and some
are sessions of `test_program`; their checksum is the number of bytes written. Two have sites of `test_program`: the audit of their
journals, and the world in which its events happen; their checksum is the number of events.
"""
import sys
from typing import Callable, NamedTuple

from cpu_time import least, most_memory
from crates import folder

# The step between the members of two successive dots whose members lie between many others.
STRIDE = 9_271


class Run(NamedTuple):
    """A program with its words, and the bytes that it is given."""

    command: list
    given: bytes


class Workload(NamedTuple):
    """What is timed: how often the work is done by a run, the run that does all but the work, and the checksum of what is written."""

    times: int
    run: Run
    without: Run
    checksum: Callable


def number(value, size):
    return value.to_bytes(size, "big")


def interface(of):
    """The interface of a number: five digits."""
    return b"%05d" % of


def run_of(site, first, last):
    """Counts of a site that are known."""
    return number(site, 1) + number(first, 8) + number(last, 8)


def cell(site, count, of):
    """A live dot of the member of a number, with a penalty."""
    member = number(0, 2) + number(5, 1) + interface(of)
    return number(site, 1) + number(count, 8) + member + number(1, 1) + number(count, 8) + number(site, 1) + number(count % 1000, 4)


def total(site, queue, completed):
    return number(site, 1) + number(queue, 2) + number(completed, 8) + number(0, 8)


def frame(site, runs=(), cells=(), totals=()):
    """The first frame of a site."""
    parts = b"".join(number(len(part), 4) + b"".join(part) for part in (runs, cells, totals))
    content = b"QD\x02" + number(site, 1) + number(1, 8) + parts
    return number(len(content), 4) + content


def live(site, dots):
    """A frame of live dots of a site, each a count and the number of its member, whose counts are all from the first to the last."""
    return frame(site, [run_of(site, dots[0][0], dots[-1][0])], [cell(site, count, of) for count, of in dots])


def cells(site, count):
    """A frame of the first dots of a site, all of them live."""
    return live(site, [(it, it) for it in range(1, count + 1)])


def runs(first, count):
    """A frame of every second dot of site 0, all of them dead."""
    return frame(0, [run_of(0, it, it) for it in range(first, first + 2 * count, 2)])


def dead_between(count):
    """A frame of dots of site 0 that are live and dead in turn."""
    return frame(0, [run_of(0, 1, 2 * count)], [cell(0, it, it) for it in range(1, 2 * count, 2)])


def totals(first, count):
    """A frame of every second one of `count` totals."""
    return frame(0, totals=[total(it // 256, it % 256, it + 1) for it in range(first, count, 2)])


def member_between(turn, count):
    """The number of the member for a turn, before, between or after the members of `count` odd numbers: evenly spread over them."""
    return 2 * (turn * STRIDE % (count + 1))


def odd_members(count):
    """A frame of the first dots of site 1, each live with the member of an odd number."""
    return live(1, [(it + 1, 2 * it + 1) for it in range(count)])


def behind(count):
    """`count` live dots of site 1, and 1,000 frames of one live dot each: the next dots of the site, with members that are evenly spread
    over the existing ones."""
    return odd_members(count) + b"".join(live(1, [(count + 1 + it, member_between(it, count))]) for it in range(1_000))


def before(count):
    """`count` live dots of site 1, and 1,000 frames of one live dot each: dots of site 0, each before the earlier ones, with a member
    before all others."""
    return odd_members(count) + b"".join(live(0, [(1_000 - it, 0)]) for it in range(1_000))


def last_word(answer):
    return answer.split()[-1].decode()


def of_frames(word, given, times=100):
    """A workload of `bench`: runs the workload of a word on frames, `times` times."""
    program = f"{folder('bench')}/out/bench"
    return Workload(times, Run([program, str(times), word], given), Run([program, "0", word], given), last_word)


def of_joins(given):
    """A workload of `bench`: 1,000 frames are joined into the one before them, ten times; what makes the copies is not timed."""
    program = f"{folder('bench')}/out/bench"
    return Workload(10_000, Run([program, "10", "join"], given), Run([program, "10", "copy"], given), last_word)


def of_script(sites, times, start, lines, queues=("sales",)):
    """A workload of `queue_sites`: lines of a script behind its start."""
    command = [f"{folder('queue_sites')}/out/queue_sites", "script", str(sites), *queues]
    whole, without = ("".join(f"{it}\n" for it in them).encode() for them in (start + lines, start))
    return Workload(times, Run(command, whole), Run(command, without), len)


def added(site, of):
    """The line that adds the interface of a number."""
    return f"{site} ami Action: QueueAdd|Queue: sales|Interface: {of:05}|Penalty: {of % 1000}"


def paused(site, of):
    """The line that pauses it."""
    return f"{site} ami Action: QueuePause|Interface: {of:05}|Paused: yes"


def penalized(site, of):
    """The line that gives it a penalty."""
    return f"{site} ami Action: QueuePenalty|Interface: {of:05}|Penalty: 7"


def removed(site, of):
    """The line that removes it."""
    return f"{site} ami Action: QueueRemove|Queue: sales|Interface: {of:05}"


def members(count, makers):
    """The lines by which `makers` sites add and cut `count` members of odd numbers."""
    return [added(makers * it // count, 2 * it + 1) for it in range(count)] + [f"{site} cut" for site in range(makers)]


def takes(sites, entries):
    """The lines by which each of these sites takes these entries."""
    return [f"{site} take {entry}" for site in sites for entry in entries]


def added_and_more(count, start, site, often, lines):
    """At a site that knows `count` members, `often` others are added, and each of these lines is run for all of them in turn. The work
    is that of the last of the lines."""
    them = [member_between(turn, count) for turn in range(often)]
    *before, last = ([line(site, of) for of in them] for line in (added, *lines))
    return of_script(11, often, start + sum(before, []), last)


def commands(count, start, site):
    """At a site that knows `count` members another is added, paused, gets a penalty and is removed, 2,500 times."""
    turns = (member_between(turn, count) for turn in range(2_500))
    lines = [line(site, of) for of in turns for line in (added, paused, penalized, removed)]
    return of_script(11, 10_000, start, lines)


def own_commands(count):
    """Such commands at a site that has added the members."""
    return commands(count, members(count, 1), 0)


def other_commands(count):
    """Such commands at a site that has taken the members from ten others."""
    return commands(count, members(count, 10) + takes([10], range(10)), 10)


def taken(count, takers=20):
    """Each of `takers` sites that have taken `count` members from ten others takes 1,000 frames of one live dot each of one more site."""
    sites = range(11, 11 + takers)
    start = members(count, 10) + takes(sites, range(10))
    for turn in range(1_000):
        start += [added(10, member_between(turn, count)), "10 cut"]
    return of_script(11 + takers, 1_000 * takers, start, takes(sites, range(10, 1_010)))


def lines_of_64_sites():
    """Each site in turn adds a member, counts a call and cuts, and the next site takes the frame."""
    lines = []
    for turn in range(5_000):
        site = turn % 64
        lines += [added(site, turn), f"{site} completed sales", f"{site} cut", f"{(site + 1) % 64} take {turn}"]
    return of_script(64, 1, [], lines)


QUEUES = [f"q{it}" for it in range(256)]


def counted_everywhere():
    """Each of 64 sites counts a call of each of 256 queues, and the first site takes all that the others counted."""
    lines = [f"{site} completed {queue}" for site in range(64) for queue in QUEUES]
    return lines + [f"{site} cut" for site in range(1, 64)] + takes([0], range(63))


def counted_calls(often):
    """A site that knows these 16,384 totals counts `often` more calls."""
    return of_script(64, often, counted_everywhere(), [f"0 completed {QUEUES[it % 256]}" for it in range(often)], QUEUES)


def reports_of_totals(often):
    """A site that knows these 16,384 totals is asked `often` times for the status of all queues, which have no members."""
    return of_script(64, 256 * often, counted_everywhere(), often * ["0 ami Action: QueueStatus"], QUEUES)


def paused_everywhere(sites, queues):
    """The first of `sites` sites, each of which has added one interface to `queues` queues, pauses it in all queues."""
    start = [f"{site} ami Action: QueueAdd|Queue: {queue}|Interface: {0:05}" for site in range(sites) for queue in QUEUES[:queues]]
    start += [f"{site} cut" for site in range(1, sites)] + takes([0], range(sites - 1))
    return of_script(sites, sites * queues, start, [paused(0, 0)], QUEUES)


def lines_of_statuses(often, count):
    """A site of `count` members is asked for its status `often` times."""
    return of_script(1, often, [added(0, it) for it in range(count)], often * ["0 ami Action: QueueStatus"])


def statuses(times, count):
    """A session of a site of `count` members asks for the status `times` times."""
    command = [f"{folder('test_program')}/out/test_program", "session", "1024", "", "", "sales"]
    start = b"".join(b"Action: QueueAdd\r\nQueue: sales\r\nInterface: %b\r\n\r\n" % interface(it) for it in range(count))
    asked = times * b"Action: QueueStatus\r\n\r\n"
    return Workload(times, Run(command, start + asked), Run(command, start), len)


def of_sites(word, part, sites, steps):
    """A workload of `test_program`: a word of `sites` sites that do `steps` steps each, less another word that does a part of it."""
    program = f"{folder('test_program')}/out/test_program"
    runs = (Run([program, it, str(sites), str(steps)], b"") for it in (word, part))
    return Workload(1, *runs, lambda answer: answer.split()[0].decode())


# What makes each workload.
WORKLOADS = {
    "join_32768_runs": lambda: of_frames("join", runs(1, 32_768) + runs(2, 32_768)),
    "join_65536_runs": lambda: of_frames("join", runs(1, 65_536) + runs(2, 65_536)),
    "copy_16384_cells_twice": lambda: of_frames("copy", 2 * cells(0, 16_384)),
    "join_16384_cells": lambda: of_frames("join", 2 * cells(0, 16_384)),
    "join_8192_and_8192_cells": lambda: of_frames("join", cells(0, 8_192) + cells(1, 8_192)),
    "join_8192_before_8192_cells": lambda: of_frames("join", cells(1, 8_192) + cells(0, 8_192)),
    "join_16384_totals": lambda: of_frames("join", totals(0, 16_384) + totals(1, 16_384)),
    "rows_of_16384_members": lambda: of_frames("rows", cells(0, 16_384)),
    "dead_beside_16384_live_dots": lambda: of_frames("dead", dead_between(16_384)),
    "encode_16384_cells": lambda: of_frames("encode", cells(0, 16_384)),
    "decode_16384_cells": lambda: of_frames("decode", cells(0, 16_384)),
    "encode_65536_runs": lambda: of_frames("encode", runs(1, 65_536)),
    "decode_65536_runs": lambda: of_frames("decode", runs(1, 65_536)),
    "join_1000_dots_behind_256": lambda: of_joins(behind(256)),
    "join_1000_dots_behind_15000": lambda: of_joins(behind(15_000)),
    "join_1000_dots_before_256": lambda: of_joins(before(256)),
    "join_1000_dots_before_15000": lambda: of_joins(before(15_000)),
    "commands_at_256": lambda: own_commands(256),
    "commands_at_4096": lambda: own_commands(4_096),
    "commands_at_15000": lambda: own_commands(15_000),
    "commands_at_15000_of_others": lambda: other_commands(15_000),
    "frames_at_256": lambda: taken(256),
    "frames_at_4096": lambda: taken(4_096),
    "frames_at_15000": lambda: taken(15_000),
    "serve_10000_statuses_of_100": lambda: statuses(10_000, 100),
    "serve_100_statuses_of_16384": lambda: statuses(100, 16_384),
    "script_of_20000_lines": lines_of_64_sites,
    "script_of_100000_statuses": lambda: lines_of_statuses(100_000, 10),
    "audit_of_800000_steps": lambda: of_sites("audit", "journals", 8, 100_000),
    "world_of_800000_events": lambda: of_sites("world", "audit", 8, 100_000),
}


def main():
    if sys.argv[1] == "memory":
        print(most_memory(WORKLOADS[sys.argv[2]]().run.command) // 1_000_000)
        return
    often, names = int(sys.argv[1]), sys.argv[2:]
    them = [WORKLOADS[name]() for name in names]
    answers = iter(least(often, [run for it in them for run in (it.run, it.without)]))
    for name, it, (seconds, answer), (without, _) in zip(names, them, answers, answers):
        print(name, it.checksum(answer), it.times, f"{seconds - without:.6f}")


if __name__ == "__main__":
    main()
