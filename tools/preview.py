"""Runs the program queue_sites without any proof, a script about one minute after the start, sites two to three:

    ./queue_sites preview [--seconds N] WORDS..

WORDS are those of the program. `rt try` compiles it with checks, anew each time, and for a script the
program that runs scripts alone; then it runs it for at most N seconds: 600 of `serve` and `site`,
else 60, where N is not given. Nothing below an out/ of a crate is read or written. The program runs in a
new folder, which is gone at its end: name files and folders by their whole paths.

Standard output is the program's. Standard error is one line that says what this run is, and then
the program's. The exit status is the program's, unless the run does not reach the program's end.
Then a line on standard error says why, and the status is

    1   the run could not be made (what `rt` says stands above that line), or a read of standard
        input or a write failed
    2   the words of preview are wrong
    4   the program stopped at a fault that the checks found
    6   the program was stopped: it had not ended after N seconds, or wrote too much (1 MiB)
    130, 143, 129   SIGINT, SIGTERM or SIGHUP ended it
"""
import contextlib
import glob
import os
import re
import signal
import subprocess
import sys
import tempfile
import time

from crates import folder

USAGE = """Usage: queue_sites preview [--seconds N] WORDS..

Runs `queue_sites WORDS..` without any proof, for at most N seconds: a script about one minute after
the start, `serve` and `site` two to three. N is 1 to 86400; where it is not given 600 of `serve` and
`site`, else 60. Name files by their whole paths.
Example: queue_sites preview serve 2 5038 admin s3 sales"""
NOTE = (
    "queue_sites: preview: nothing is proved in this run; its output comes once it is compiled,"
    " in about {}; then it runs for at most {} seconds"
)
MOST_SECONDS = 86_400
LONGEST_INPUT = 16_777_217  # a byte more than a script may have
SIGNALS = (signal.SIGINT, signal.SIGTERM, signal.SIGHUP)
FAILED, WRONG_WORDS, FAULT, STOPPED = 1, 2, 4, 6
# What rt says where it has stopped the program.
TIME_IS_OUT = "the program did not end within the time limit"
TOO_MUCH = "the program wrote more than "


class Ended(Exception):
    """The preview ends with a status, without the program's own end. The line says why."""

    def __init__(self, status, line):
        super().__init__(line)
        self.status = status


class Stream:
    """A stream of the program, and where it is shown. What the program writes is shown at once
    where the file that it writes to is found, else once the run has ended."""

    def __init__(self, room, name, to):
        self.pattern, self.to = f"{glob.escape(room)}/*/*/{name}", to
        self.file, self.shown = None, 0

    def show(self):
        """Shows what the program has written since the last call."""
        for path in [] if self.file else glob.glob(self.pattern):
            with contextlib.suppress(FileNotFoundError):
                self.file = open(path, "rb", buffering=0)
        if self.file:
            self.write(self.file.read())

    def show_rest(self, whole):
        """Shows what is not shown yet of all that the program wrote."""
        self.write(whole[self.shown :])

    def write(self, given):
        self.shown += len(given)
        while given:
            try:
                given = given[os.write(self.to, given) :]
            except OSError as why:
                raise Ended(FAILED, f"write failed: {why.strerror}") from why


def split_words(words):
    """The seconds that the program may run, and its words."""
    seconds = None
    if words and words[0].partition("=")[0] == "--seconds":
        _, is_joined, given = words[0].partition("=")
        words = words[1:]
        if not is_joined:
            given, words = "".join(words[:1]), words[1:]
        if not re.fullmatch("[0-9]{1,5}", given) or not 1 <= int(given) <= MOST_SECONDS:
            why = f"invalid value {given!r} for '--seconds N': N is 1 to {MOST_SECONDS}"
            raise Ended(WRONG_WORDS, why)
        seconds = int(given)
    if not words:
        raise Ended(WRONG_WORDS, f"the words of the program are missing\n\n{USAGE}")
    return seconds or (600 if words[0] in ("serve", "site") else 60), words


def given_input():
    """What stands on standard input, up to more than a script may have."""
    try:
        with open(0, "rb", closefd=False) as file:
            return file.read(LONGEST_INPUT)
    except OSError as why:
        raise Ended(FAILED, f"read failed: {why.strerror}") from why


def run(room, program, seconds, words, given):
    """Runs the program of a folder by `rt try`, and shows what it writes. Returns its streams, and
    what rt wrote to standard output and to standard error."""
    streams, signals = [Stream(room, "stdout", 1), Stream(room, "stderr", 2)], []
    for it in SIGNALS:
        signal.signal(it, lambda number, _: signals.append(number))
    with contextlib.ExitStack() as files:
        new_file = lambda: files.enter_context(tempfile.TemporaryFile())
        to_read, output, messages = new_file(), new_file(), new_file()
        to_read.write(given)
        to_read.seek(0)
        # In a session of its own, so that Ctrl-C comes to this process alone.
        how = {"cwd": program, "start_new_session": True}
        how |= {"stdin": to_read, "stdout": output, "stderr": messages}
        command = ["rt", "try", "--seconds", str(seconds), "--", *words]
        try:
            process = subprocess.Popen(command, env={**os.environ, "TMPDIR": room}, **how)
        except OSError as why:
            raise Ended(FAILED, f"the run could not be made: rt: {why.strerror}") from why
        try:
            while process.poll() is None and not signals:
                for it in streams:
                    it.show()
                time.sleep(0.02)
        finally:
            # rt ends all that it has started.
            process.terminate()
            process.wait()
        for it in streams:
            it.show()
        if signals:
            sys.exit(128 + signals[0])
        output.seek(0)
        messages.seek(0)
        return streams, output.read(), messages.read()


def status_of(seconds, streams, output, messages):
    """Shows the rest of what the program wrote. Returns its status."""
    last = re.search(rb"^run=(\S+)(?: status=(\d+))?.* proved=no\n\Z", messages, re.M)
    checked = [*re.finditer(rb"checked: (?:no-answer: |fault )?(.*)\n", messages)][-1:]
    how = last[1].decode() if last else "none"
    why = checked[0][1].decode(errors="replace") if checked else ""
    streams[0].show_rest(output)
    if how == "ended":
        streams[1].show_rest(messages[: checked[0].start()] if checked else b"")
        return int(last[2])
    if how == "fault":
        raise Ended(FAULT, f"the program stopped at a fault: {why}")
    if how == "no-answer" and why == TIME_IS_OUT:
        raise Ended(STOPPED, f"stopped after its {seconds} seconds; --seconds N gives it more")
    if how == "no-answer" and why.startswith(TOO_MUCH):
        raise Ended(STOPPED, f"stopped: {why}")
    sys.stderr.buffer.write(messages)
    raise Ended(FAILED, "the run could not be made: rt says why above")


def preview(words):
    """Runs the program with these words. Returns its status."""
    seconds, words = split_words(words)
    is_script = words[0] == "script"
    print(NOTE.format("a minute" if is_script else "three minutes", seconds), file=sys.stderr, flush=True)
    given = given_input() if is_script else b""
    with tempfile.TemporaryDirectory(prefix="queue_sites-") as room:
        result = run(room, folder("queue_script" if is_script else "queue_sites"), seconds, words, given)
    return status_of(seconds, *result)


def main(words):
    for it in SIGNALS:
        signal.signal(it, lambda number, _: sys.exit(128 + number))
    if words[:1] in (["-h"], ["--help"]):
        print(USAGE)
        return 0
    if None in (sys.stdout, sys.stderr):
        return FAILED  # closed: another file could get its number
    try:
        return preview(words)
    except Ended as why:
        print(f"queue_sites: preview: {why}", file=sys.stderr)
        return why.status


if __name__ == "__main__":
    sys.exit(main(sys.argv[1:]))
