"""What the processes that a command starts work for, and how much processor time they use, as /proc reports it."""
import os
import re

TICKS = os.sysconf("SC_CLK_TCK")


def processes():
    """For each process: its parent, and the seconds that it and those of its children that have ended have used."""
    found = {}
    for name in os.listdir("/proc"):
        if name.isdigit():
            try:
                with open(f"/proc/{name}/stat", "rb") as file:
                    fields = file.read().rpartition(b")")[2].split()
            except OSError:
                continue
            found[int(name)] = int(fields[1]), sum(int(it) for it in fields[11:15]) / TICKS
    return found


def work_of(words):
    """The crate and the part that a process works for, by its words."""
    named = re.search(r"--crate-name (\w+)", words)
    if named and " --only " in words:
        return None  # a quick pass over the sources, before any proof
    if named:
        if "--crate-checked" in words:
            return named[1], "runs"
        return named[1], "tests" if " --test " in words else "proof"
    run = re.search(r"/rt-run-\w+/bin/(\w+)", words) or re.search(r"rattle-link .* -o out/(\w+)", words)
    if run:
        return run[1].removesuffix("_tests"), "runs"
    laid_out = re.search(r"rattle fmt .*?/crates/(\w+)/", words)
    return (laid_out[1], "proof") if laid_out else None


def work(pid):
    """What a process works for, once its own program runs."""
    try:
        with open(f"/proc/{pid}/cmdline", "rb") as file:
            words = file.read().replace(b"\0", b" ").decode(errors="replace")
        return work_of(words)
    except OSError:
        return None


class Watch:
    """The processes that a command has started: what each works for, and its seconds as they were last seen."""

    def __init__(self, command):
        self.command, self.works, self.seconds = command, {}, {}

    def look(self):
        """Looks once, and returns what the processes that run now work for."""
        found, below = processes(), {}
        for pid, (parent, _) in found.items():
            below.setdefault(parent, []).append(pid)
        started = below.get(self.command, [])
        for pid in started:
            self.works[pid] = self.works.get(pid) or work(pid)
            inside, seconds = [pid], 0
            while inside:
                one = inside.pop()
                seconds += found[one][1]
                inside += below.get(one, [])
            self.seconds[pid] = max(seconds, self.seconds.get(pid, 0))
        return [self.works[pid] for pid in started if self.works[pid]]

    def table(self):
        """The seconds by crate and part."""
        table = {}
        for pid, it in self.works.items():
            if it:
                table[it] = table.get(it, 0) + self.seconds[pid]
        return table
