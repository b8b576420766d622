"""Runs the programs on as much as they may hold: scripts of sites with as many members, runs and totals as there may be, frames with
as many parts, a session with as many members, and a long script with little memory."""
import resource
import subprocess
import sys

from crates import TOP, folder
from program_tests import BUILT, Failed, first_difference, run
from workloads import cells, frame, live, number, run_of, total

MOST_MEMBERS = 16_384
MOST_RUNS = 65_536
MOST_TOTALS = 16_384
MOST_FRAME_BYTES = 7_618_588
CHANGES, ROOM_OF_CHANGES = 20_000, 48 << 20  # twice what they take
TEST_PROGRAM = f"{folder('test_program')}/out/test_program"


def reply(response, message):
    return f"Response: {response}\r\nMessage: {message}\r\n\r\n"


ADDED = reply("Success", "Added interface to queue")
REMOVED = reply("Success", "Removed interface from queue")
FULL = reply("Error", "Unable to change members: Full")


def member(interface):
    return (
        f"Event: QueueMember\r\nQueue: sales\r\nName: {interface}\r\nLocation: {interface}\r\nStateInterface: {interface}\r\n"
        "Membership: dynamic\r\nPenalty: 0\r\nPaused: 0\r\nPausedReason: \r\nRingInUse: 1\r\n\r\n"
    )


def report(interfaces):
    """The report of a queue with these members, which stand in the order of their bytes."""
    return (
        "Response: Success\r\nEventList: start\r\nMessage: Queue status will follow\r\n\r\n"
        "Event: QueueParams\r\nQueue: sales\r\nCompleted: 0\r\nAbandoned: 0\r\n\r\n"
        + "".join(map(member, sorted(interfaces)))
        + f"Event: QueueStatusComplete\r\nEventList: Complete\r\nListItems: {len(interfaces) + 1}\r\n\r\n"
    )


def check_script(what, sites, exchanges, queues=("sales",)):
    """Runs a script of `sites` sites with these queues: pairs of a line, and what the line must write."""
    script, wanted = ("".join(it).encode() for it in zip(*((f"{line}\n", printed) for line, printed in exchanges)))
    ran = run(BUILT, ["script", str(sites), *queues], script)
    if ran.stdout != wanted or ran.returncode:
        why = first_difference(wanted, ran.stdout) if ran.stdout != wanted else f"the status is {ran.returncode}"
        raise Failed(f"in the script of {what} {why}")


def add(site, interface):
    return f"{site} ami Action: QueueAdd|Queue: sales|Interface: {interface}"


def remove(site, interface):
    return f"{site} ami Action: QueueRemove|Queue: sales|Interface: {interface}"


def members_past_the_limit():
    """A site with as many members as it may have refuses one more. After a remove it adds that one,
    and is as full again. It shows all members, and takes its own frame of them all while its buffer is
    as full. A site with one of its own refuses that frame, and takes it once that one is removed."""
    interfaces = [f"SIP/{it}" for it in range(MOST_MEMBERS)]
    one_more = f"SIP/{MOST_MEMBERS}"
    exchanges = [(add(0, it), ADDED) for it in interfaces]
    exchanges += [
        (add(0, one_more), FULL),
        (remove(0, "SIP/0"), REMOVED),
        (add(0, one_more), ADDED),
        (add(0, "SIP/0"), FULL),
        (remove(0, one_more), REMOVED),
        (add(0, "SIP/0"), ADDED),
        ("0 ami Action: QueueStatus", report(interfaces)),
        ("0 whole", "entry 0\n"),
        ("0 take 0", "taken\n"),
        (add(1, "SIP/1"), ADDED),
        ("0 cut", "entry 1\n"),
        ("1 take 1", "refused CellsFull\n"),
        ("1 ami Action: QueueStatus", report(["SIP/1"])),
        ("0 take 1", "taken\n"),
        (remove(1, "SIP/1"), REMOVED),
        ("1 take 1", "taken\n"),
        ("1 offer sales", "offer 0 SIP/0\n"),
        ("1 ami Action: QueueStatus", report(interfaces)),
    ]
    check_script("a member past the limit", 2, exchanges)
    return f"a script of {MOST_MEMBERS:,} members and one more"


def halves_of_all_members():
    """Two sites take every second add of a third, which adds as many members as there may be; then each takes what the other knows, and
    all three show them all."""
    interfaces = [f"SIP/{it}" for it in range(MOST_MEMBERS)]
    exchanges = []
    for number, interface in enumerate(interfaces):
        exchanges += [(add(0, interface), ADDED), ("0 cut", f"entry {number}\n"), (f"{1 + number % 2} take {number}", "taken\n")]
    exchanges += [(f"{site} whole", f"entry {MOST_MEMBERS + site}\n") for site in range(3)]
    exchanges += [(f"{taker} take {MOST_MEMBERS + maker}", "taken\n") for taker, maker in [(1, 2), (2, 1), (1, 0), (2, 0)]]
    exchanges += [(f"{site} ami Action: QueueStatus", report(interfaces)) for site in range(3)]
    check_script("two halves of all members", 3, exchanges)
    return f"a script of two halves of {MOST_MEMBERS:,} members"


def runs_past_the_limit():
    """A site takes every second of another's removes, until it has as many runs of dots as it may have. It then refuses one more, of
    another or of its own, and still counts calls; and what takes all that it knows has as many. Another that has one run fewer adds."""
    exchanges = []
    for taken in range(MOST_RUNS + 1):
        exchanges += [(add(0, "a"), ADDED), ("0 cut", f"entry {2 * taken}\n"), (remove(0, "a"), REMOVED), ("0 cut", f"entry {2 * taken + 1}\n")]
        exchanges.append((f"1 take {2 * taken + 1}", "taken\n" if taken < MOST_RUNS else "refused RunsFull\n"))
        exchanges += [(add(0, "a"), ADDED), (remove(0, "a"), REMOVED)]
    whole, last = 2 * MOST_RUNS + 2, 2 * MOST_RUNS + 3
    exchanges += [(add(1, "b"), FULL), ("1 completed sales", "done\n"), ("1 ami Action: QueueStatus|Member: b", report([]).replace("Completed: 0", "Completed: 1"))]
    exchanges += [("1 whole", f"entry {whole}\n"), (f"3 take {whole}", "taken\n"), (add(3, "b"), FULL)]
    exchanges += [(f"2 take {2 * taken + 1}", "taken\n") for taken in range(MOST_RUNS - 1)]
    exchanges += [(add(2, "b"), ADDED), ("2 cut", f"entry {last}\n"), (f"1 take {last}", "refused RunsFull\n")]
    check_script("a run past the limit", 4, exchanges)
    return f"a script of {MOST_RUNS:,} runs and one more"


def totals_of_all_sites():
    """Each of 64 sites counts a call in each of 256 queues. One takes what all others know and then knows as many totals as there may
    be, and one takes all of these at once; both show the sums."""
    queues = [f"q{it}" for it in range(256)]
    exchanges = [(f"{site} completed {queue}", "done\n") for site in range(64) for queue in queues]
    exchanges += [(f"{site} whole", f"entry {site}\n") for site in range(63)]
    exchanges += [(f"63 take {site}", "taken\n") for site in range(63)]
    exchanges += [("63 whole", "entry 63\n"), ("0 take 63", "taken\n")]
    sums = "".join(f"Event: QueueParams\r\nQueue: {it}\r\nCompleted: 64\r\nAbandoned: 0\r\n\r\n" for it in queues)
    shown = (
        "Response: Success\r\nEventList: start\r\nMessage: Queue status will follow\r\n\r\n"
        f"{sums}Event: QueueStatusComplete\r\nEventList: Complete\r\nListItems: {len(queues)}\r\n\r\n"
    )
    exchanges += [(f"{site} ami Action: QueueStatus", shown) for site in (63, 0)]
    check_script("the totals of all sites", 64, exchanges, queues)
    return f"a script of {MOST_TOTALS:,} totals"


def check_frame(what, given, lines):
    """Reads a frame: it must give `lines` lines, of which the last spells it again; or have a fault, if `lines` is one."""
    ran = run(TEST_PROGRAM, ["frames"], given.hex().encode() + b"\n")
    written = ran.stdout.decode().split("\n")[:-1]
    wanted = [given.hex()] if isinstance(lines, int) else [lines]
    if written[-1:] != wanted or len(written) != (lines if isinstance(lines, int) else 1) or ran.returncode:
        raise Failed(f"a frame of {what} is written as {len(written)} lines, of which the last is {''.join(written[-1:])[:80]!r}; status {ran.returncode}")


def full_cell(count):
    """A live dot of site 0 with all its fields, whose texts are as long as they may be."""
    stamp, text = number(count, 8) + number(0, 1), number(80, 1) + 80 * b"a"
    fields = stamp + number(0, 4) + stamp + number(1, 1) + text + stamp + 2 * text + stamp + number(1, 1)
    return number(0, 1) + number(count, 8) + number(0, 2) + text + number(15, 1) + fields


def frames_past_the_limits():
    """A frame is read and spelled again with as many cells, runs and totals as it may have, also with all of these and as many bytes as it may
    have, and refused with one more."""
    runs = lambda count: [run_of(it % 2, it // 2 * 2 + 1, it // 2 * 2 + 1) for it in sorted(range(count), key=lambda it: it % 2)]
    totals = [total(it // 256, it % 256, it + 1) for it in range(MOST_TOTALS)]
    greatest = frame(0, runs(MOST_RUNS), [full_cell(2 * it + 1) for it in range(MOST_MEMBERS)], totals)
    if len(greatest) != MOST_FRAME_BYTES:
        raise Failed(f"the greatest frame has {len(greatest):,} bytes")
    check_frame("as many cells as there may be", cells(0, MOST_MEMBERS), 3 + 2 * MOST_MEMBERS)
    check_frame("as many runs as there may be", frame(0, runs(MOST_RUNS)), 2 + MOST_RUNS)
    check_frame("as many totals as there may be", frame(0, totals=totals), 2 + MOST_TOTALS)
    check_frame("as many bytes as there may be", greatest, 2 + MOST_RUNS + 5 * MOST_MEMBERS + MOST_TOTALS)
    check_frame("a cell more", cells(0, MOST_MEMBERS + 1), "fault TooLarge")
    check_frame("a run more", frame(0, runs(MOST_RUNS + 1)), "fault TooLarge")
    check_frame("a total more", frame(0, totals=[*totals, number(0, 19)]), "fault TooLarge")
    return f"frames of {MOST_MEMBERS:,} cells, {MOST_RUNS:,} runs and {MOST_TOTALS:,} totals, of {MOST_FRAME_BYTES:,} bytes, and of one more each"


def session_of_all_members():
    """A session adds as many members as there may be, and gets the report of them whole."""
    interfaces = [f"SIP/{it}" for it in range(MOST_MEMBERS)]
    asked = [f"Action: QueueAdd\r\nQueue: sales\r\nInterface: {it}\r\n\r\n" for it in interfaces]
    asked += ["Action: QueueStatus\r\n\r\n", "Action: Logoff\r\n\r\n"]
    replies = [ADDED] * MOST_MEMBERS + [report(interfaces), reply("Goodbye", "Thanks for all the fish.")]
    wanted = "".join(["Queue Sites Call Manager/1.0.0\r\n", *replies]).encode()
    ran = run(TEST_PROGRAM, ["session", "1024", "", "", "sales"], "".join(asked).encode())
    if ran.stdout != wanted or ran.returncode:
        why = first_difference(wanted, ran.stdout) if ran.stdout != wanted else f"the status is {ran.returncode}"
        raise Failed(f"in the session of all members {why}")
    return f"a session that shows {MOST_MEMBERS:,} members"


def frames_that_a_site_has_no_room_for():
    """A site that has taken as many members, or as many runs, as it may have refuses a frame with one more, at its journal and at a
    desk over it. With as many runs it refuses an add too."""
    full = frame(1, [run_of(1, it, it) for it in range(1, 2 * MOST_RUNS, 2)])
    cells_alone = [
        (cells(1, MOST_MEMBERS), "taken"),
        (live(2, [(1, MOST_MEMBERS + 1)]), "Take(CellsFull)"),
        (cells(1, 1), "taken"),
    ]
    runs = [(full, "taken"), (frame(2, [run_of(2, 1, 1)]), "Take(RunsFull)")]
    for where in ("journal", "desk"):
        for pairs, more, answers in ((cells_alone, "cut", "nothing"), (runs, "add sales SIP/1 0", "refused MembersFull")):
            script = [*(f"take {given.hex()}" for given, _ in pairs), more]
            lines, steps = [], 0
            for word in (*(answer for _, answer in pairs), answers):
                is_step = not word.startswith("Take(")
                lines.append(f"step {steps}: {word}" if is_step else f"refused {word}")
                steps += is_step
            wanted = "\n".join([*lines, "settled", f"{steps} steps, 0 of them dropped", ""]).encode()
            ran = run(TEST_PROGRAM, [where, "0", "5", "sales"], "\n".join(script).encode())
            if ran.stdout != wanted or ran.returncode:
                raise Failed(f"a {where} that is full writes {ran.stdout!r}, with status {ran.returncode}")
    return f"a journal and a desk of {MOST_MEMBERS:,} members or {MOST_RUNS:,} runs, and a frame with one more"


def changes_with_little_memory():
    """Thousands of changes, each sent to another site, fit in little room: neither a step nor a frame that is kept takes more than it needs."""
    lines = [
        line for it in range(CHANGES) for line in ((remove if it % 2 else add)(0, "SIP/1"), "0 cut", f"1 take {it}", f"1 ami Action: QueueStatus")
    ]
    limit = lambda: resource.setrlimit(resource.RLIMIT_AS, (ROOM_OF_CHANGES, ROOM_OF_CHANGES))
    ran = run(BUILT, ["script", "2", "sales"], "".join(f"{it}\n" for it in lines).encode(), before=limit)
    if ran.returncode or ran.stdout.count(b"taken\n") != CHANGES:
        raise Failed(f"a script of {CHANGES:,} changes in {ROOM_OF_CHANGES >> 20} mebibytes ends with status {ran.returncode} and {ran.stderr!r} on standard error")
    return f"a script of {CHANGES:,} changes in {ROOM_OF_CHANGES >> 20} mebibytes of addresses"


TESTS = {
    "queue_sites": [
        members_past_the_limit,
        halves_of_all_members,
        runs_past_the_limit,
        totals_of_all_sites,
        changes_with_little_memory,
    ],
    "test_program": [frames_past_the_limits, session_of_all_members, frames_that_a_site_has_no_room_for],
}


def run_all(programs=tuple(TESTS)):
    """Builds these programs where needed, and runs the checks that there are of them. Returns lines that report what was run."""
    for program in programs:
        if subprocess.run([f"{TOP}/tools/built", program], check=False).returncode:
            raise Failed(f"{program} could not be built")
    return [test() for program in programs for test in TESTS[program]]


if __name__ == "__main__":
    try:
        print("\n".join(run_all()))
    except Failed as why:
        sys.exit(f"test: {why}")
