"""Builds the program of a crate: proves the crates that it stands on, several at once where none of them stands on another, and reports
on standard error which proofs run and for how long. An interrupted build keeps what it has proved. The file out/build.log has the
output, and the time that each crate took.
"""
import contextlib
import fcntl
import os
import signal
import subprocess
import sys
import tempfile
import time

from crates import TOP, all_crates, below, folder, is_program, stored_words
from proof_seconds import LOG, quickest, read_table

MEMORY_OF_A_JOB = 3_000_000_000
NICENESS = 10  # for each run that goes before: a run behind one takes a tenth of a processor that both want
MOST_NICENESS = 19
SPARE_RUNS = 2  # so that a crate with a long way to the top waits for none with a shorter way


def at_once():
    """How many jobs there are at once, one a processor, and how many runs at most: as many as the free memory holds."""
    with open("/proc/meminfo", encoding="ascii") as file:
        lines = dict(line.split(":") for line in file)
    held = 1024 * int(lines["MemAvailable"].split()[0]) // MEMORY_OF_A_JOB
    processors = len(os.sched_getaffinity(0))
    return max(min(processors, held), 1), max(min(processors + SPARE_RUNS, held), 1)


def ways(crates, names, seconds):
    """For each of these crates the seconds of the longest way from it to the top: its own, and those of the longest way above it."""
    longest = {}
    for crate in reversed(names):
        longest[crate] = seconds[crate] + max((longest[it] for it in longest if crate in crates[it]), default=0)
    return longest


def proving(verb, crate, jobs, *words):
    """The words of a command of `rt` for a crate, with this number of jobs."""
    return [sys.executable, "-B", f"{TOP}/tools/prove.py", verb, crate, str(jobs), *words]


def clock(seconds):
    return f"{int(seconds) // 60}:{int(seconds) % 60:02}"


class Progress:
    """Shows how far a build is: on a terminal by one line that is overwritten, elsewhere by a line for each crate."""

    def __init__(self, name, count):
        self.name, self.count, self.begun, self.done = name, count, 0, 0
        self.started, self.is_terminal = time.monotonic(), sys.stderr.isatty()

    def begin(self, crate):
        self.begun += 1
        if not self.is_terminal:
            self.say(f"proving {crate}, {self.begun} of {self.count}")

    def show(self, now):
        """Shows which proofs run now."""
        if self.is_terminal:
            self.say(f"{self.done} of {self.count} crates proved: proving {', '.join(now)}")

    def say(self, text):
        begin, end = ("\r\033[K", "") if self.is_terminal else ("", "\n")
        print(f"{begin}{self.name}: {text} ({clock(time.monotonic() - self.started)})", end=end, file=sys.stderr, flush=True)

    def end(self):
        if self.is_terminal:
            print("\r\033[K", end="", file=sys.stderr, flush=True)


class Run:
    """A command that works for a crate with this number of jobs. Its output goes to a file of its own until it has ended. The more runs
    go before it, the lower its priority."""

    def __init__(self, crate, jobs, words, behind=0):
        self.crate, self.jobs, self.started, self.said = crate, jobs, time.monotonic(), tempfile.TemporaryFile()
        self.behind, self.status, self.used = behind, None, None
        pipe = {"stdin": subprocess.DEVNULL, "stdout": self.said, "stderr": subprocess.STDOUT}
        begin = lambda: (os.setpgid(0, 0), os.nice(min(NICENESS * behind, MOST_NICENESS)))
        self.process = subprocess.Popen(words, cwd=folder(crate), preexec_fn=begin, **pipe)

    def has_ended(self):
        pid, status, self.used = os.wait4(self.process.pid, os.WNOHANG)
        if pid:
            self.status = self.process.returncode = os.waitstatus_to_exitcode(status)
        return pid != 0

    def go_behind(self, others):
        """Takes less of the processors, or more, where another number of runs goes before it. Only root may take more."""
        self.behind = others
        with contextlib.suppress(OSError):
            os.setpriority(os.PRIO_PGRP, self.process.pid, min(NICENESS * others, MOST_NICENESS))

    def stop(self):
        with contextlib.suppress(ProcessLookupError):
            os.killpg(self.process.pid, signal.SIGTERM)

    def write_to(self, log):
        """Writes what it printed, and what it took."""
        seconds = time.monotonic() - self.started
        self.said.seek(0)
        log.write(self.said.read().decode(errors="replace"))
        used = self.used.ru_utime + self.used.ru_stime
        log.write(f"== {self.crate}: {clock(seconds)} with {self.jobs} jobs, {clock(used)} of one processor\n")
        log.flush()


class Build:
    """The proofs of crates and of all that they stand on: those that are still to be proved, and those that are being proved."""

    def __init__(self, wanted, log, progress):
        crates, measured = all_crates(), read_table()
        names = [it for it in crates if it in wanted or any(it in below(crates, other) for other in wanted)]
        self.log, self.progress, self.below = log, progress, {it: below(crates, it) for it in names}
        self.longest = ways(crates, names, {it: min(measured[it].values()) for it in names})
        self.quickest = {it: quickest(measured[it]) for it in names}
        (self.jobs, self.most_runs), self.proved, self.running = at_once(), set(), []
        self.left = sorted(names, key=lambda it: -self.longest[it])
        progress.count += len(names)

    def way_left(self, run):
        """The seconds of the longest way to the top that a run still has before it."""
        return self.longest[run.crate] - (time.monotonic() - run.started)

    def start(self):
        """Starts crates of which all below are proved, those with the longest way to the top first, while fewer runs than processors go
        before them. A crate behind at most one run has the number of jobs that was measured to be quickest, each other crate has one job. Each
        run goes behind those with longer ways."""
        for crate in [it for it in self.left if self.below[it] <= self.proved]:
            behind = sum(self.way_left(it) > self.longest[crate] for it in self.running)
            if behind >= self.jobs or len(self.running) >= self.most_runs:
                break
            jobs = min(self.quickest[crate], self.jobs) if behind < 2 else 1
            self.begin(Run(crate, jobs, proving("check" if is_program(crate) else "lib", crate, jobs), behind))
            self.left.remove(crate)
        for run in self.running:
            run.go_behind(sum(self.way_left(it) > self.way_left(run) for it in self.running))

    def begin(self, run):
        self.running.append(run)
        self.progress.begin(run.crate)

    def wait(self):
        """Waits until one of the runs has ended, and returns whether it succeeded."""
        while True:
            self.progress.show([it.crate for it in self.running])
            for run in self.running:
                if run.has_ended():
                    self.running.remove(run)
                    self.progress.done += 1
                    self.proved.add(run.crate)
                    run.write_to(self.log)
                    return run.status == 0
            time.sleep(0.1)

    def prove(self):
        """Proves all crates, and returns whether that succeeded. Starts nothing more once a proof has failed."""
        try:
            with locked(self.below):
                while self.left or self.running:
                    self.start()
                    if not self.wait():
                        return False
            return True
        finally:
            self.stop()

    def make(self, name):
        """Builds a program whose crates below are all proved, and returns whether that succeeded."""
        try:
            with locked([*self.below, name]):
                self.begin(Run(name, self.jobs, proving("run", name, self.jobs, "--", *stored_words(name))))
                return self.wait()
        finally:
            self.stop()

    def stop(self):
        for run in self.running:
            run.stop()
        self.progress.end()


@contextlib.contextmanager
def locked(names):
    """Keeps other commands of rt out of these crates, as each of them keeps out others: by a lock on the folders. All lock them in the
    same order, so no two wait for each other."""
    held = [os.open(folder(it), os.O_RDONLY) for it in sorted(names)]
    try:
        for it in held:
            fcntl.flock(it, fcntl.LOCK_EX)
        yield
    finally:
        for it in held:
            os.close(it)


@contextlib.contextmanager
def new_log():
    """The log of a build."""
    os.makedirs(os.path.dirname(LOG), exist_ok=True)
    with open(LOG, "w+", encoding="utf-8") as log:
        yield log


def output_of(log):
    log.seek(0)
    return log.read()


def prove(wanted):
    """Proves crates and what they stand on. Returns whether that succeeded, and lines that report the time of each."""
    with new_log() as log:
        is_proved = Build(wanted, log, Progress("test", 0)).prove()
        text = output_of(log)
    if not is_proved:
        print(text, end="")
    return is_proved, [f"    {line[3:]}" for line in text.splitlines() if line.startswith("== ")]


def main():
    name = sys.argv[1]
    for it in (signal.SIGINT, signal.SIGTERM, signal.SIGHUP):
        signal.signal(it, lambda *_: sys.exit(130))
    hint = "; ./queue_sites preview .. runs it unproved in one to three" if name in ("queue_sites", "queue_script") else ""
    print(f"{name}: proving and building the program; this takes some minutes, once{hint}", file=sys.stderr)
    with new_log() as log:
        build = Build(below(all_crates(), name), log, Progress(name, 1))
        is_built = build.prove() and build.make(name)
        if not is_built:
            sys.stderr.write(output_of(log))
            print(f"{name}: the program could not be built", file=sys.stderr)
            return 1
    print(f"{name}: built ({clock(time.monotonic() - build.progress.started)})", file=sys.stderr)
    return 0


if __name__ == "__main__":
    sys.exit(main())
