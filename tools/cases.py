"""Runs the cases: programs on what stands in files below cases/, with what each must write.

    ./test cases [NAME..]      all cases, or those of these folders and names, as two_sites or one_site/calls_are_counted;
                               with --program KIND=PATH those of one kind by another program, as --program script=FILE
    ./test preview [NAME..]    those of scripts by the unproved program, compiled once

A case is files of one stem. Its kind is the ending of the first, and decides which program runs it:

    STEM.script                standard input of queue_script
    STEM.session               standard input of test_program session
    STEM.frames                standard input of test_program frames
    STEM.steps                 standard input of test_program journal, or desk
    STEM.expected              what the program must write to standard output, byte for byte
    STEM.words                 the words of the command line, one a line, where they are not those of the kind
    STEM.status                the exit status that it must end with, where that is not 0

The text at the head of a program's main file says which lines it reads and what it writes.
"""
import concurrent.futures
import os
import re
import subprocess
import sys
import tempfile
import time
from typing import NamedTuple

from crates import TOP, folder
from program_tests import Failed, first_difference, read

CASES = f"{TOP}/cases"
SECONDS_OF_A_CASE = 60


class Kind(NamedTuple):
    """A kind of cases: the program that runs them, its first words, and the others where a case has none of its own."""

    program: str
    first: list
    words: list


KINDS = {
    "script": Kind("queue_script", [], ["script", "1", "sales"]),
    "session": Kind("test_program", ["session"], ["1024", "", "", "sales"]),
    "frames": Kind("test_program", ["frames"], []),
    "steps": Kind("test_program", [], ["journal", "0", "20", "sales"]),
}
PARTS = ("expected", "words", "status")


class Case(NamedTuple):
    """A case: its name, which is its stem below cases/, its kind, and which parts it has besides its input."""

    name: str
    kind: str
    parts: set

    def part(self, part):
        """What a file of the case has; nothing where there is no such file."""
        return read(f"{CASES}/{self.name}.{part}") if part in self.parts | {self.kind} else b""

    def words(self):
        """The words of the command line."""
        kind = KINDS[self.kind]
        return kind.first + (self.part("words").decode().split("\n")[:-1] if "words" in self.parts else kind.words)


def is_named(case, names):
    """Whether a case has one of these names, or stands in a folder of one of them; each case does where there is none."""
    return not names or any(f"{case.name}/".startswith(f"{it}/") for it in names)


def all_cases():
    """All cases in the order of their names."""
    found = {}
    for at, _, files in os.walk(CASES):
        for file in files:
            stem, _, part = os.path.relpath(f"{at}/{file}", CASES).rpartition(".")
            found.setdefault(stem, set()).add(part)
    for stem, parts in found.items():
        kinds, others = parts & set(KINDS), parts - set(KINDS) - set(PARTS)
        if others or len(kinds) != 1 or "expected" not in parts:
            files = ", ".join(f"{stem}.{it}" for it in sorted(parts))
            raise Failed(f"cases: of one stem there is no whole case, or more: {files}")
    return [Case(stem, *parts & set(KINDS), parts & set(PARTS)) for stem, parts in sorted(found.items())]


def failure_of(case, program):
    """Runs a case. Returns what differs; nothing if it passes."""
    wanted, status = case.part("expected"), int(case.part("status") or 0)
    try:
        how = {"input": case.part(case.kind), "capture_output": True, "timeout": SECONDS_OF_A_CASE, "check": False}
        ran = subprocess.run([program, *case.words()], **how)
    except subprocess.TimeoutExpired:
        return f"{case.name}: it does not end within {SECONDS_OF_A_CASE} seconds"
    if (ran.stdout, ran.returncode) == (wanted, status):
        return ""
    difference = first_difference(wanted, ran.stdout) if ran.stdout != wanted else "it writes what it should"
    return f"{case.name}: {difference}; the status should be {status} and is {ran.returncode}, and its standard error is {ran.stderr!r}"


def built(kind):
    """The program of a kind, which is built where that is needed."""
    program = KINDS[kind].program
    if subprocess.run([f"{TOP}/tools/built", program], check=False).returncode:
        raise Failed(f"cases: {program} could not be built")
    return f"{folder(program)}/out/{program}"


def run_all(kinds=tuple(KINDS), names=(), programs=None):
    """Runs the cases of these kinds and names, with other programs for the kinds that have one. Returns lines that report
    what was run."""
    cases = [it for it in all_cases() if it.kind in kinds and is_named(it, names)]
    if not cases:
        raise Failed("cases: there is none of these names")
    by = programs or {kind: built(kind) for kind in {it.kind for it in cases}}
    started = time.monotonic()
    with concurrent.futures.ThreadPoolExecutor(len(os.sched_getaffinity(0))) as threads:
        failures = [it for it in threads.map(lambda it: failure_of(it, by[it.kind]), cases) if it]
    if failures:
        raise Failed("\n    ".join([f"{len(failures)} of {len(cases)} cases failed", *failures]))
    return [f"{len(cases)} cases in {time.monotonic() - started:.1f} seconds"]


def unproved_failure(case, said):
    """What differs in a case that `rt try` ran; nothing where it passes. `said` is what rt said of
    the case."""
    ended = re.search(r"^case=.* run=ended status=(\d+) .*output=(\w+)", said, re.M)
    if not ended:
        return f"{case.name}: the program does not end by itself: {said.strip()!r}"
    status, wanted, is_same = int(ended[1]), int(case.part("status") or 0), ended[2] == "expected"
    if is_same and status == wanted:
        return ""
    differs = re.search(r"^the output differs from `.*?`: (.*)$", said, re.M)
    why = "it writes what it should" if is_same else differs[1] if differs else "the output differs"
    return f"{case.name}: {why}; the status should be {wanted} and is {status}"


def try_cases(cases):
    """Compiles the unproved program once and runs it on each case. Returns what rt says of each, by
    its number."""
    with tempfile.TemporaryDirectory() as room:
        for number, case in enumerate(cases):
            words = "".join(f"{it}\n" for it in case.words()).encode()
            files = {"": case.part(case.kind), ".stdout": case.part("expected"), ".args": words}
            for ending, content in files.items():
                with open(f"{room}/{number}{ending}", "wb") as file:
                    file.write(content)
        words = ["rt", "try", "--seconds", str(SECONDS_OF_A_CASE), "--cases", room]
        how = {"stdin": subprocess.DEVNULL, "capture_output": True, "check": False}
        ran = subprocess.run(words, cwd=folder("queue_script"), **how)
    text = ran.stderr.decode(errors="replace")
    # What rt says of a case ends in a line that names it.
    found = re.finditer(r"((?:(?!case=).*\n)*)case=(\d+) .*\n", text)
    said = {int(it[2]): it[0] for it in found}
    if not said:
        raise Failed(f"cases: the unproved program could not be run:\n{text}")
    return said


def run_unproved(names=()):
    """Runs the cases of kind script and of these names by the unproved program. Returns lines that
    say what was run."""
    cases = [it for it in all_cases() if it.kind == "script" and is_named(it, names)]
    if not cases:
        raise Failed("cases: there is none of these names")
    started = time.monotonic()
    said = try_cases(cases)
    tried = (unproved_failure(case, said.get(number, "")) for number, case in enumerate(cases))
    failures = [it for it in tried if it]
    if failures:
        raise Failed("\n    ".join([f"{len(failures)} of {len(cases)} cases failed", *failures]))
    seconds = time.monotonic() - started
    return [f"{len(cases)} cases of scripts passed in {seconds:.0f} seconds; nothing was proved"]


def passes(run_these):
    """Whether cases pass. Prints what was run, or what failed on standard error."""
    try:
        print("\n".join(run_these()))
    except Failed as why:
        print(f"test: {why}", file=sys.stderr)
        return False
    return True


def named(words):
    """The names of cases that these words are."""
    return [it.removeprefix("cases/").rstrip("/") for it in words]


def preview(words):
    """Runs the cases of scripts that these words name by the unproved program. Returns the exit
    status."""
    print("test: cases by the unproved program, which is compiled first, for a minute", flush=True)
    return 0 if passes(lambda: run_unproved(named(words))) else 1


def main(words):
    """Runs the cases that these words name. Returns the exit status."""
    programs = {}
    if words[:1] == ["--program"]:
        kind, _, path = "".join(words[1:2]).partition("=")
        programs, words = {kind: os.path.abspath(path)}, words[2:]
    return 0 if passes(lambda: run_all(tuple(programs or KINDS), named(words), programs)) else 1
