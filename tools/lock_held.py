"""Counts how many instructions a site's lock is held for: lock_held.py [OBJECT]. The steps are done by one pass of a desk, by the program
`test_program`, and counted by callgrind, of valgrind. Counted are the methods of the journal that a desk calls under its lock; what the
site did before is taken off. OBJECT is the object file of another build of the program, such as one of an older commit.

The program has no symbols, so its object file is linked with them first, by the C compiler. The status is 2 where valgrind or the
compiler is missing.
"""
import functools
import os
import re
import shutil
import subprocess
import sys
import tempfile

from crates import folder
from workloads import live, member_between, odd_members

# What a desk calls under its lock, now and before `answer` and `take_decoded` replaced `call` and `take`.
UNDER_THE_LOCK = ("answer", "call", "checkpoint", "cut", "take", "take_decoded", "whole")
JOURNAL = "site_journal::journaled::Journaled"


def take(given):
    """The line by which a desk takes a frame."""
    return f"take {given.hex()}"


def adds(count):
    """Adds of 100 members that lie between the `count` members of odd numbers."""
    return [f"add sales {member_between(turn, count):05} 7" for turn in range(100)]


def takes(count):
    """100 frames of one live dot each: the next dots of site 1 after the first `count`, with other members."""
    return [take(live(1, [(count + 1 + turn, member_between(turn, count))])) for turn in range(100)]


# What is counted: its name, how many members the site has taken before, in one frame of site 1, and the lines of the steps.
ROWS = [
    ("add_at_1000", 1_000, adds(1_000)),
    ("add_at_15000", 15_000, adds(15_000)),
    ("take_of_1_at_15000", 15_000, takes(15_000)),
    ("take_of_16384", 0, [take(odd_members(16_384))]),
    ("status_of_1000", 1_000, ["status"]),
    ("status_of_16384", 16_384, ["status"]),
    ("cut_of_100_adds", 1_000, None),
    ("whole_of_16384", 16_384, ["whole"]),
    ("checkpoint_of_16384", 16_384, ["checkpoint"]),
]


def linked(room, made):
    """The program of an object file, with its symbols, and the functions of the journal that it has."""
    program = f"{room}/test_program"
    of_c = f"{os.path.dirname(os.path.dirname(os.path.realpath(shutil.which('rt'))))}/c"
    subprocess.run(["cc", "-o", program, made, f"{of_c}/libos_c.a", f"{of_c}/liblibc_c.a", "-lpthread"], check=True)
    names = subprocess.run(["nm", program], stdout=subprocess.PIPE, check=True, text=True).stdout
    return program, tuple(it for it in UNDER_THE_LOCK if f" {JOURNAL}::{it}\n" in names)


@functools.cache
def counted(program, functions, lines):
    """How many instructions these functions and what they call take where a desk does these lines."""
    words = [shutil.which("valgrind"), "--tool=callgrind", "--callgrind-out-file=/dev/null"]
    words += [f"--toggle-collect={JOURNAL}::{it}" for it in functions]
    given = "".join(f"{line}\n" for line in lines).encode()
    said = subprocess.run([*words, program, "desk", "0", "1000000", "sales"], input=given, stdout=subprocess.DEVNULL,
                          stderr=subprocess.PIPE, check=True, env={}).stderr
    return int(re.search(rb"Collected : (\d+)", said).group(1))


def main():
    for name in ("valgrind", "cc", "nm"):
        if not shutil.which(name):
            print(f"lock_held.py: nothing is counted: the program {name} is missing", file=sys.stderr)
            return 2
    made = sys.argv[1] if len(sys.argv) > 1 else f"{folder('test_program')}/out/test_program.o"
    with tempfile.TemporaryDirectory() as room:
        program, functions = linked(room, made)
        if len(functions) < 5:
            print("lock_held.py: in the program stand of the journal only", *functions, file=sys.stderr)
            return 1
        print(f"{'under the lock':<24} {'times':>6} {'instructions, each':>20}")
        for name, members, lines in ROWS:
            start = [take(odd_members(members))] if members else []
            if lines is None:
                start, lines = start + adds(members), ["cut"]
            taken = counted(program, functions, (*start, *lines)) - counted(program, functions, tuple(start))
            print(f"{name:<24} {len(lines):>6} {round(taken / len(lines)):>20,}", flush=True)
    return 0


if __name__ == "__main__":
    sys.exit(main())
