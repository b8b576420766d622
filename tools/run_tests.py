"""Runs the tests, and reports at the end what was run and how long each part took.

    ./test                     the whole gate, the wrong bodies after their self-test, the program from the command
                               line, the cases, the programs at their limits, sites under random workloads, the server,
                               with stores too, linked sites, audits, and tests with each allocation refused
    ./test CRATE..             what a change of these crates can break: layout, proofs, tests and stored runs of these and
                               of the crates that stand on them, over the work that earlier checks kept, and the
                               wrong bodies of these
    ./test changed [COMMIT]    the same for the crates that differ from the commit; with none named from the last that the
                               whole gate has passed here, or else from HEAD
    ./test cases [NAME..]      the cases, which are files below cases/: all, or those of these folders and names;
                               tools/cases.py says what a case is
    ./test preview [NAME..]    the cases of scripts by the unproved program, within 3 minutes of a
                               fresh clone; it proves nothing
"""
import os
import shutil
import subprocess
import sys
import time
import traceback

import audit_tests
import build
import cases
import gate
import limit_tests
import memory_tests
import program_tests
import server_tests
import site_link_tests
import site_tests
import store_tests
import wrong_bodies
from crates import TOP, all_crates, folder, is_program, read, stored_words, with_those_above

PASSED = f"{TOP}/out/passed"
PROGRAM = "queue_sites"


class Parts:
    """The parts that were run, each with its time."""

    def __init__(self):
        self.lines, self.has_failed = [], False

    def run(self, name, part):
        """Runs a part, which returns whether it passed and lines to report."""
        print(f"test: {name}", flush=True)
        started = time.monotonic()
        try:
            passed, report = part()
        except Exception:  # of the part alone: the others run, and all is reported
            passed, report = False, [f"    {it}" for it in traceback.format_exc().splitlines()]
        seconds = time.monotonic() - started
        self.has_failed = self.has_failed or not passed
        said = "passed" if passed else "FAILED"
        self.lines += [f"test: {said} after {seconds // 60:.0f}:{seconds % 60:02.0f}: {name}", *report]


def passes(words, place=TOP, **how):
    """Whether a command ends with status 0."""
    return subprocess.run(words, cwd=place, check=False, **{"stdin": subprocess.DEVNULL, **how}).returncode == 0


def git(*words):
    """What git prints, or nothing where it fails."""
    ran = subprocess.run(["git", *words], cwd=TOP, capture_output=True, text=True, check=False)
    return ran.stdout if ran.returncode == 0 else ""


def part_of(run_all):
    """A part that runs tests, which return what they have run."""

    def part():
        try:
            return True, [f"    {it}" for it in run_all()]
        except program_tests.Failed as why:
            return False, [f"    {why}"]

    return part


def run_program(parts, is_gate_passed=False):
    parts.run("the program from the command line", part_of(lambda: program_tests.run_all(is_gate_passed)))


def run_at_limits(parts, programs=tuple(limit_tests.TESTS)):
    parts.run("the programs at their limits", part_of(lambda: limit_tests.run_all(programs)))


def run_cases(parts, kinds=tuple(cases.KINDS)):
    parts.run("the cases", part_of(lambda: cases.run_all(kinds)))


def run_sites(parts):
    parts.run("sites under random workloads", part_of(site_tests.run_all))


def run_server(parts):
    parts.run("the server, and clients of it", part_of(server_tests.run_all))
    parts.run("servers with stores", part_of(store_tests.run_all))
    parts.run("sites that are linked", part_of(site_link_tests.run_all))
    parts.run("audits of stores", part_of(audit_tests.run_all))


def run_without_memory(parts, crates):
    if any(it in crates for it in (*(test.crate for test in memory_tests.TESTS), *memory_tests.crates_of_cases())):
        parts.run("tests with each allocation refused", part_of(lambda: memory_tests.run_all(crates)))


def run_wrong_bodies(parts, names, is_gate_passed=False):
    """Tries the wrong bodies of these crates. Returns the seconds of each."""
    spent = {}

    def part():
        passed, report, seconds = wrong_bodies.run(names, is_gate_passed)
        spent.update(seconds)
        return passed, report

    parts.run(f"wrong bodies of {'all crates' if is_gate_passed else ' '.join(names)}", part)
    return spent


def whole():
    """Runs the whole gate, the wrong bodies, and then the program that the gate has built."""
    clean, head = not git("status", "--porcelain"), git("rev-parse", "HEAD")
    parts, last, times = Parts(), [], []

    def gate_part():
        status, line, line_of_times, *spent = gate.run()
        last.append(line)
        times.extend(spent)
        return status == 0, [line_of_times]

    parts.run("the gate", gate_part)
    table, seconds = times or ({}, 0)
    if not parts.has_failed:
        parts.run("self-test of the wrong bodies", lambda: wrong_bodies.self_test(is_gate_passed=True))
        for crate, more in run_wrong_bodies(parts, all_crates(), is_gate_passed=True).items():
            table[crate, "wrong bodies"] = more
            seconds += more
        run_program(parts, is_gate_passed=True)
        run_cases(parts)
        run_at_limits(parts)
        run_sites(parts)
        run_server(parts)
        run_without_memory(parts, all_crates())
    print("\n".join([*parts.lines, *gate.lines_of(table, seconds)]))
    if not parts.has_failed and clean and head:
        os.makedirs(os.path.dirname(PASSED), exist_ok=True)
        with open(PASSED, "w", encoding="utf-8") as file:
            file.write(head)
    print("test: FAILED" if parts.has_failed else last[0], flush=True)
    return 1 if parts.has_failed else 0


def laid_out(names):
    """Whether the files of the crates are in the layout of rt fmt."""
    rattle = os.path.join(os.path.dirname(os.path.realpath(shutil.which("rt"))), "rattle")
    found = [
        f"{at}/{file}"
        for name in names
        for part in ("src", "specs", "proofs")
        for at, _, files in os.walk(f"{folder(name)}/{part}")
        for file in files
        if file.endswith((".rt", ".antt"))
    ]
    return passes([rattle, "fmt", "--check", *sorted(found)])


def stored_run(name):
    """Whether a program, run as its files say, writes what its file stdout has and ends with the status of its file status."""
    content = lambda file: program_tests.read(f"{folder(name)}/{file}") if os.path.exists(f"{folder(name)}/{file}") else b""
    words = [f"{folder(name)}/out/{name}", *stored_words(name)]
    ran = subprocess.run(words, input=content("stdin"), capture_output=True, check=False)
    return ran.stdout == content("stdout") and ran.returncode == int(content("status") or 0)


def tested(name):
    """Whether the tests of a crate pass, and the stored run of a program."""
    if not passes(["rt", "test"], folder(name)):
        return False
    if not is_program(name):
        return True
    return passes(["rt", "run", "--", *stored_words(name)], folder(name), stdout=subprocess.DEVNULL) and stored_run(name)


def of_crates(names, is_program_changed=False, are_cases_changed=False):
    """Runs what a change of these crates can break, and of what runs the program and the cases."""
    crates = all_crates()
    unknown = [it for it in names if it not in crates]
    if unknown:
        sys.exit(f"test: no such crate: {' '.join(unknown)}")
    changed, parts = with_those_above(crates, names), Parts()
    if names:
        parts.run(f"layout of {' '.join(changed)}", lambda: (laid_out(changed), []))
        parts.run(f"proof of {' '.join(changed)} and what they stand on", lambda: build.prove(changed))
    for name in changed if not parts.has_failed else []:
        parts.run(f"tests of {name}", lambda it=name: (tested(it), []))
    if names and not parts.has_failed:
        run_wrong_bodies(parts, names)
    if not parts.has_failed and (is_program_changed or {PROGRAM, "queue_script"} & {*changed}):
        run_program(parts)
    kinds = [it for it, kind in cases.KINDS.items() if are_cases_changed or kind.program in changed]
    if not parts.has_failed and kinds:
        run_cases(parts, kinds)
    programs = [it for it in limit_tests.TESTS if it in changed or (it == PROGRAM and is_program_changed)]
    if not parts.has_failed and programs:
        run_at_limits(parts, programs)
    if not parts.has_failed and "test_program" in changed:
        run_sites(parts)
    if not parts.has_failed and (is_program_changed or PROGRAM in changed):
        run_server(parts)
    if not parts.has_failed:
        run_without_memory(parts, changed)
    print("\n".join(parts.lines))
    return 1 if parts.has_failed else 0


def of_changes(commit):
    """Runs what the changes since a commit can break."""
    if not commit and os.path.exists(PASSED):
        commit = program_tests.read(PASSED).decode().strip()
    commit = commit or "HEAD"
    if not git("rev-parse", "--verify", f"{commit}^{{commit}}"):
        sys.exit(f"test: no such commit: {commit}")
    files = [*git("diff", "--name-only", commit).split("\n"), *git("ls-files", "-o", "--exclude-standard").split("\n")]
    crates, before = all_crates(), read(git("show", f"{commit}:crates.txt"))
    folders = {it.split("/")[1] for it in files if it.startswith("crates/")}
    names = [it for it in crates if it in folders or crates[it] != before.get(it)]
    print(f"test: crates that differ from {commit[:12]}: {' '.join(names) or 'none'}", flush=True)
    of_tools = any(it.startswith("tools/") for it in files)
    return of_crates(names, of_tools or PROGRAM in files, of_tools or any(it.startswith("cases/") for it in files))


def main(words):
    if not words:
        return whole()
    if words[0] in ("-h", "--help") or (words[0] == "changed" and len(words) > 2):
        print(__doc__.strip(), file=sys.stderr)
        return 2
    if words[0] == "cases":
        return cases.main(words[1:])
    if words[0] == "preview":
        return cases.preview(words[1:])
    return of_changes(words[1] if len(words) > 1 else None) if words[0] == "changed" else of_crates(words)


if __name__ == "__main__":
    sys.exit(main(sys.argv[1:]))
