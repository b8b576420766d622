"""Runs the whole gate, `rt ci`, and reports how much processor time each part of it took, crate by crate.

The time of each process that `rt ci` starts is read five times a second. Processes that end between two looks, and `rt` itself, are
reported as the rest.
"""
import os
import subprocess
import textwrap
import threading
import time

import prove
from crates import TOP
from watch import Watch

MEMORY_OF_A_PROOF = 4_500_000_000
PARTS = ("proof", "tests", "wrong bodies", "runs")
LEAST_SHOWN = 8  # minutes: what takes less shares a line


def lines_of(table, all_seconds):
    """The table of seconds by crate and part, in minutes of one processor: a line for each crate that takes long, the longest first, and one
    for the others, whose minutes stand below it."""
    minutes = {crate: [table.get((crate, part), 0) / 60 for part in PARTS] for crate, _ in table}
    summed = lambda many: [sum(it) for it in zip(*many)] or [0] * len(PARTS)
    sums, short = summed(minutes.values()), [it for it in minutes.values() if sum(it) < LEAST_SHOWN]
    long = sorted((it for it in minutes.items() if sum(it[1]) >= LEAST_SHOWN), key=lambda row: -sum(row[1]))
    rows = [[f"`{crate}`", *it, sum(it)] for crate, it in long] + [[f"{len(short)} others", *summed(short), sum(summed(short))]]
    rows += [["rest", *[None] * len(PARTS), all_seconds / 60 - sum(sums)], ["all", *sums, all_seconds / 60]]
    shown = lambda it: it if isinstance(it, str) else "" if it is None else f"{it:.1f}"
    lines = [["crate", *PARTS, "all"], ["---", *["--:"] * (len(PARTS) + 1)], *[[shown(it) for it in row] for row in rows]]
    others = [f"`{it}` {sum(minutes[it]):.1f}" for it in sorted(minutes) if sum(minutes[it]) < LEAST_SHOWN]
    return ["| " + " | ".join(line) + " |" for line in lines] + ["", *textwrap.wrap(f"The others: {', '.join(others)}.", 120)]


def one_job_each():
    """What has `rt ci` give each proof one job, where memory is ample for a proof a processor: more jobs take more of the processors."""
    rt = prove.loaded()
    is_ample = rt.free() >= rt.processors() * MEMORY_OF_A_PROOF
    return {"RT_JOBS": str(rt.processors())} if is_ample and "RT_JOBS" not in os.environ else {}


def run():
    """Runs the gate. Returns its status, its last line, a line with its times, the table of its seconds by crate and part, and its
    seconds in all."""
    started = time.monotonic()
    pipe = {"stdin": subprocess.DEVNULL, "stdout": subprocess.PIPE, "text": True, "errors": "replace"}
    gate = subprocess.Popen(["rt", "ci"], cwd=TOP, env=os.environ | one_job_each(), **pipe)
    watch, ended = Watch(gate.pid), threading.Event()
    looks = threading.Thread(target=lambda: [watch.look() for _ in iter(lambda: ended.wait(0.2), True)])
    looks.start()
    last = ""
    for line in gate.stdout:
        print(last, end="", flush=True)
        last = line
    _, status, used = os.wait4(gate.pid, 0)
    ended.set()
    looks.join()
    gate.returncode = os.waitstatus_to_exitcode(status)
    minutes, seconds = (time.monotonic() - started) / 60, used.ru_utime + used.ru_stime
    processors = len(os.sched_getaffinity(0))
    said = f"{minutes:.1f} minutes on {processors} processors, {seconds / 60:.1f} minutes of one processor"
    return gate.returncode, last.strip(), f"    {said}", watch.table(), seconds
