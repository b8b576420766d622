"""Runs the program from the command line: its words, its texts and its statuses, and each of its allocations refused."""
import contextlib
import os
import random
import shutil
import signal
import socket
import subprocess
import sys
import tempfile

from crates import TOP, folder, stored_words

STORED = folder("queue_sites")
BUILT = f"{STORED}/out/queue_sites"
LONGEST_SCRIPT = 16_777_216
SCRIPT = ["script", "1", "sales"]


class Failed(Exception):
    """What a run of the program did and should not have done."""


def read(path):
    with open(path, "rb") as file:
        return file.read()


def run(program, words, given=b"", out=subprocess.PIPE, place=TOP, more=None, before=None, limit=None):
    """Runs a program on these bytes, or on an open file, and returns its status, its output and its standard error. `before`
    runs in its process before the program starts. It may have a limit, in seconds."""
    how = {"input": given} if isinstance(given, bytes) else {"stdin": given}
    how |= {"env": {**os.environ, **(more or {})}, "preexec_fn": before, "check": False, "timeout": limit}
    try:
        return subprocess.run([program, *words], cwd=place, stdout=out, stderr=subprocess.PIPE, **how)
    except subprocess.TimeoutExpired as why:
        raise Failed(f"{program!r} {' '.join(map(repr, words))}: no end within {limit} seconds; it got {more}") from why


def expect(is_so, what, ran):
    if not is_so:
        words = " ".join(map(repr, ran.args))
        raise Failed(f"{words}: {what}; status {ran.returncode}, it wrote {ran.stdout!r}, and {ran.stderr!r} to standard error")


def first_difference(wanted, given):
    """Returns the first line in which the given text differs from the expected one."""
    lines = [it.splitlines(keepends=True) + [b""] for it in (wanted, given)]
    number, pair = next((at, it) for at, it in enumerate(zip(*lines), 1) if it[0] != it[1])
    return f"line {number} should be {pair[0]!r} and is {pair[1]!r}"


def check(program, words, status, printed=b"", errors=b"", **how):
    """Runs a program: it must end with this status, with these bytes in its output and in its standard error. Where there are to be none, it
    must write none."""
    ran = run(program, words, **{"limit": 60, **how})
    written = ran.stdout or b""
    expect(ran.returncode == status, f"the status is not {status}", ran)
    expect(printed in written and bool(printed) == bool(written), f"{printed!r} is not what it wrote", ran)
    expect(errors in ran.stderr and bool(errors) == bool(ran.stderr), f"{errors!r} is not in its standard error", ran)


def statuses(program):
    """The statuses of what is done, and of a line that isn't understood."""
    check(program, SCRIPT, 0, printed=b"Event: QueueStatusComplete\r\n", given=b"0 ami Action: QueueStatus\n")
    check(program, SCRIPT, 3, printed=b"line 1: not understood\n", given=b"0 dance")
    check(program, ["script", "64", "sales"], 0, printed=b"entry 0\ntaken\n", given=b"0 completed sales\n0 cut\n63 take 0\n")
    check(program, ["--help"], 0, printed=b"Usage: queue_sites")
    check(program, ["--version"], 0, printed=b"queue_sites 0.1.0")


def wrong_words(program):
    """Errors for wrong command lines."""
    bad_list = b"queue_sites: bad queue list\n"
    check(program, [], 2, errors=b"Usage: queue_sites")
    check(program, ["dance"], 2, errors=b"unrecognized subcommand 'dance'")
    for sites in (b"0", b"65", b"two"):
        check(program, ["script", sites, "sales"], 2, errors=b"invalid value '%b' for '<SITES>'" % sites)
    check(program, ["script", "1"], 2, errors=b"required arguments were not provided")
    for queues in (["sales", "sales"], [""], ["a\nb"], ["a" * 81], [*map(str, range(257))]):
        check(program, ["script", "1", *queues], 2, errors=bad_list)
    check(program, ["script", "1", b"\xff"], 2, errors=b"queue_sites: the arguments are no text\n")


def check_order(program, words, wrong, rows):
    """Needs the errors of a command line in their order, where all is wrong at first. A row has the status and the text of an
    error, and what puts it right."""
    for status, text, right in rows:
        check(program, words(**wrong), status, errors=text, limit=60)
        wrong |= right


def write_secrets(room):
    """Writes files of secrets. Returns the path of a secret, and of a file that is missing."""
    for name, text in (("secret", "s3\n"), ("short", "15 characters..\n"), ("shared", "16 characters...\n")):
        with open(f"{room}/{name}", "w", encoding="ascii") as file:
            file.write(text)
    return f"{room}/secret", f"{room}/none"


NO_FILE = b"No such file or directory (os error 2)\n"
TAKEN = "Address already in use (os error 98)\n"


def errors_of_serve(program, room):
    """The errors of `serve` in their order: of its words, of its secret's file, of a store and of a port."""
    secret, missing = write_secrets(room)
    with socket.create_server(("127.0.0.1", 0)) as taken:
        port = str(taken.getsockname()[1])

        def words(sites, store, bind, queues, file, user):
            return ["serve", "--bind", bind, "--secret-file", file, *store, sites, port, user, *queues]

        wrong = {"sites": "9", "store": ["--keep"], "bind": "nowhere", "queues": ["a", "a"], "file": missing, "user": "a" * 81}
        check_order(program, words, wrong, [
            (2, b"error: invalid value '9' for '<SITES>'", {"sites": "1"}),
            (2, b"queue_sites: --keep without --store\n", {"store": ["--keep", "--store", missing]}),
            (2, b"queue_sites: bad address\n", {"bind": "127.0.0.1"}),
            (2, b"queue_sites: bad queue list\n", {"queues": ["a"]}),
            (1, b"queue_sites: cannot read the secret's file: " + NO_FILE, {"file": secret}),
            (2, b"queue_sites: bad user\n", {"user": "admin"}),
            (1, f"queue_sites: store {missing}/site-0.db: cannot open\n".encode(), {"store": ["--keep", "--store", room]}),
            (1, f"queue_sites: cannot listen on {port}: {TAKEN}".encode(), {}),
        ])


def errors_of_site(program, room):
    """The errors of `site` in their order: of its words, of the files of its secrets, of its ports, of its store and of its output."""
    secret, missing = write_secrets(room)
    store, blank = f"{room}/none/store", f"{room}/blank"
    with open(blank, "w", encoding="ascii") as file:
        file.write("s3 \n")
    with socket.create_server(("127.0.0.1", 0)) as taken:
        port = f"127.0.0.1:{taken.getsockname()[1]}"

        def words(number, store, clients, links, peers, queues, file, user, greeting, shared):
            found = [word for peer in peers for word in ("--peer", peer)]
            files = ["--secret-file", file, "--link-secret-file", shared]
            return ["site", number, user, *queues, *files, *store, "--clients", clients, "--links", links, "--greeting", greeting, *found]

        wrong = {"number": "64", "store": ["--volatile", "--keep"], "clients": "nowhere", "links": "nowhere",
                 "peers": ["127.0.0.1:9"] * 64 + ["nowhere"], "queues": ["a", "a"], "file": missing, "user": "a" * 81, "greeting": "a" * 81,
                 "shared": missing}
        check_order(program, words, wrong, [
            (2, b"error: invalid value '64' for '<NUMBER>'", {"number": "63"}),
            (2, b"queue_sites: --keep without --store\n", {"store": ["--keep", "--store", store]}),
            (2, b"queue_sites: bad address of clients\n", {"clients": port}),
            (2, b"queue_sites: bad address of links\n", {"links": port}),
            (2, b"queue_sites: bad address of peer 65\n", {"peers": ["127.0.0.1:9"] * 65}),
            (2, b"queue_sites: more than 64 peers\n", {"peers": ["127.0.0.1:9"] * 64}),
            (2, b"queue_sites: bad queue list\n", {"queues": ["a"]}),
            (1, b"queue_sites: cannot read the secret's file: " + NO_FILE, {"file": blank}),
            (2, b"queue_sites: bad secret\n", {"file": secret}),
            (2, b"queue_sites: bad user\n", {"user": "admin"}),
            (2, b"queue_sites: bad greeting\n", {"greeting": "a" * 80}),
            (1, b"queue_sites: cannot read the link secret's file: " + NO_FILE, {"shared": f"{room}/short"}),
            (2, b"queue_sites: bad link secret\n", {"shared": f"{room}/shared"}),
            # A name is an address too.
            (1, f"queue_sites: cannot listen on {port}: {TAKEN}".encode(), {"clients": "localhost:0"}),
            (1, f"queue_sites: cannot listen on {port}: {TAKEN}".encode(), {"links": "localhost:0"}),
            (1, f"queue_sites: store {store}: cannot open\n".encode(), {"store": ["--keep", "--store", f"{room}/store"]}),
        ])
        with open("/dev/full", "wb") as full:
            check(program, words(**wrong), 1, errors=b"queue_sites: write failed\n", out=full, limit=60)


def wrong_words_of_site(program):
    """Errors for words of `site` that are missing, out of range or no addresses."""
    right = ["site", "3", "admin", "a", "--secret-file", "none", "--link-secret-file", "none", "--volatile"]
    missing, no_secret = b"required arguments were not provided", b"queue_sites: cannot read the secret's file: " + NO_FILE
    for at in (3, 4, 6, 8):
        check(program, right[:at] + right[at + (2 if at in (4, 6) else 1):], 2, errors=missing)
    check(program, [*right, "--store", "none"], 2, errors=b"cannot be used with")
    for option, value, name in (("sessions", "0", "N"), ("sessions", "65", "N"), ("idle", "-1", "SECONDS"), ("idle", "soon", "SECONDS")):
        check(program, [*right, f"--{option}={value}"], 2, errors=f"invalid value '{value}' for '--{option} <{name}>'".encode())
    for word in ("", "127.0.0.1", ":5038", "127.0.0.1:", "127.0.0.1:65536", "::1:5038", "[::1]", "host:http"):
        for option, what in (("clients", "clients"), ("links", "links"), ("peer", "peer 1")):
            check(program, [*right, f"--{option}={word}"], 2, errors=f"queue_sites: bad address of {what}\n".encode())
    for word in ("127.0.0.1:65535", "[::1]:5038", "host.example:5038", "localhost:0"):
        for option in ("clients", "links", "peer"):
            check(program, [*right, f"--{option}={word}"], 1, errors=no_secret)
    for option in ("--sessions=1", "--sessions=64", "--idle=0"):
        check(program, [*right, option], 1, errors=no_secret)


def wrong_words_of_reports(program):
    """Errors for words of `audit` and `steps` that are missing, or too many."""
    missing = b"required arguments were not provided"
    check(program, ["audit"], 2, errors=missing)
    check(program, ["audit", "--frames", "none"], 2, errors=b"unexpected argument '--frames'")
    check(program, ["audit", *["none"] * 65], 2, errors=b"queue_sites: more than 64 files\n")
    check(program, ["audit", *["none"] * 64], 1, errors=b"queue_sites: store none: cannot read: " + NO_FILE)
    check(program, ["steps"], 2, errors=missing)
    check(program, ["steps", "--frames"], 2, errors=missing)
    check(program, ["steps", "none", "more"], 2, errors=b"unexpected argument 'more'")
    for words in (["steps", "none"], ["steps", "none", "--frames"], ["steps", "--frames", "none"], ["audit", "none", "more"]):
        check(program, words, 1, errors=b"queue_sites: store none: cannot read: " + NO_FILE)
    check(program, ["audit", "--help"], 0, printed=b"Usage: queue_sites audit <FILE>...")
    check(program, ["steps", "--help"], 0, printed=b"--frames")


def failures(program, room):
    """Errors for a script that can't be read, is too long, or whose output can't be written."""
    directory = os.open(room, os.O_RDONLY)
    try:
        check(program, SCRIPT, 1, errors=b"queue_sites: read failed\n", given=directory)
    finally:
        os.close(directory)
    comment = b"#" * LONGEST_SCRIPT
    check(program, SCRIPT, 0, given=comment)
    check(program, SCRIPT, 1, errors=b"queue_sites: script too long\n", given=comment + b"#")
    with open("/dev/full", "wb") as full:
        check(program, SCRIPT, 1, errors=b"queue_sites: write failed\n", given=b"0 dance", out=full)


def from_another_folder(room):
    """The program is found on the path, and runs from each folder."""
    path = f"{TOP}:{os.environ['PATH']}"
    given = {"given": read(f"{STORED}/stdin"), "place": room, "more": {"PATH": path}}
    ran = run(shutil.which("queue_sites", path=path), stored_words("queue_sites"), **given)
    expect(ran.stdout == read(f"{STORED}/stdout"), "it did not write what its file stdout has", ran)


def scripts_alone():
    """The program of scripts says in its help what `queue_sites` says, and does nothing else."""
    program, words = f"{folder('queue_script')}/out/queue_script", ["script", "--help"]
    ran = run(program, words)
    expect(ran.stdout == run(BUILT, words).stdout != b"", "its help is not that of queue_sites", ran)
    check(program, ["audit", "none"], 2, errors=b"queue_sites: this program runs scripts alone\n")


def built_files():
    """The path, size and time of each file below an `out` of a crate."""
    places = [at for at, _, _ in os.walk(folder("")) if "/out/" in f"{at}/"]
    files = [it for at in places for it in os.scandir(at)]
    return {(it.path, it.stat().st_size, it.stat().st_mtime_ns) for it in files}


def first_example():
    """The first example of README: its command, run by a shell, writes the lines that stand behind
    it, with or without a CR. It is a preview, which changes nothing that is built. Without the word
    `preview` its command writes the same."""
    lines = read(f"{TOP}/README.md").decode().split("```\n")[1].splitlines()
    command = [lines.pop(0).removeprefix("$ ")]
    while command[-1].endswith(("|", "\\")):
        command.append(lines.pop(0))
    text, before = "\n".join(command), built_files()
    for it in (text, text.replace("queue_sites preview ", "queue_sites ")):
        ran = run("sh", ["-c", it])
        expect(ran.returncode == 0, "the status is not 0", ran)
        expect(ran.stdout.decode().splitlines() == lines, "it did not write what README shows", ran)
        is_preview = ran.stderr.startswith(b"queue_sites: preview: nothing is proved in this run; ")
        expect(is_preview == (it == text), "it does not say whether it is a preview", ran)
        expect(ran.stderr.count(b"\n") == is_preview, "it says more on standard error", ran)
        expect(built_files() == before, "it changed what is built", ran)


def wrong_words_of_preview():
    """The texts and statuses of wrong words of a preview, and of input that can't be read. Nothing
    is compiled for them."""
    check("./queue_sites", ["preview"], 2, errors=b"Usage: queue_sites preview")
    check("./queue_sites", ["preview", "--help"], 0, printed=b"Usage: queue_sites preview")
    for seconds in ([], ["0"], ["86401"], ["two"], ["-1"], [""]):
        words = ["preview", "--seconds", *seconds, *(SCRIPT if seconds else [])]
        check("./queue_sites", words, 2, errors=b"for '--seconds N': N is 1 to 86400\n")
    missing = b"preview: the words of the program are missing\n"
    check("./queue_sites", ["preview", "--seconds=5"], 2, errors=missing)
    closed = {"before": lambda: os.close(0)}
    check("./queue_sites", ["preview", *SCRIPT], 1, errors=b"preview: read failed: ", **closed)


def free_port():
    """A port below those that the system gives to clients, which stays free while a preview is compiled."""
    while True:
        port = random.randrange(20_000, 32_000)
        with socket.socket() as it, contextlib.suppress(OSError):
            it.bind(("127.0.0.1", port))
            return port


def preview_of_a_server():
    """A preview of `serve` says where it listens as soon as it does, greets a client, and ends at
    Ctrl-C, with all that it has started."""
    port = free_port()
    words = ["preview", "--seconds", "120", "serve", "1", str(port), "admin", "s3", "sales"]
    pipes = {"stdin": subprocess.DEVNULL, "stdout": subprocess.PIPE, "stderr": subprocess.PIPE}
    with subprocess.Popen(["./queue_sites", *words], cwd=TOP, **pipes) as server:
        line = server.stdout.readline()
        greeting = b""
        if line:
            with socket.create_connection(("127.0.0.1", port), 30) as client:
                greeting = client.makefile("rb").readline()
        server.send_signal(signal.SIGINT)
        rest, errors = server.communicate()
    ran = subprocess.CompletedProcess(server.args, server.returncode, line + rest, errors)
    listening = f"listening 127.0.0.1:{port}\n".encode()
    expect(ran.stdout == listening, "it does not say where it listens", ran)
    expect(greeting == b"Queue Sites Call Manager/1.0.0\r\n", f"it greets by {greeting!r}", ran)
    expect(ran.returncode == 130, "the status is not 130", ran)
    with socket.create_server(("127.0.0.1", port)):
        pass


def compiled_refusal(room, name="refuse_allocation"):
    """The library that refuses an allocation of a program that it is loaded before, or another of tools/. Nothing where there is no C
    compiler."""
    compiler = next(filter(None, map(shutil.which, ["cc", "gcc", "clang"])), None)
    if not compiler:
        return None
    library = f"{room}/{name}.so"
    source = f"{TOP}/tools/{name}.c"
    subprocess.run([compiler, "-shared", "-fPIC", "-O1", "-o", library, source, "-ldl"], check=True)
    return library


def refusing(room):
    """Returns a function that runs a program with its allocation of a number refused, none if that is 0, and returns the run and
    how many allocations it made. Returns nothing if there is no C compiler."""
    library, counted = compiled_refusal(room), f"{room}/allocations"
    if not library:
        return None

    def run_refusing(number, program, words, given=b""):
        more = {"LD_PRELOAD": library, "REFUSED_ALLOCATION": str(number), "ALLOCATIONS_FILE": counted}
        ran = run(program, words, given, more=more, limit=60)
        return ran, int(read(counted)) if ran.returncode >= 0 else 0

    return run_refusing


NO_COMPILER = "nothing was refused: there is no C compiler here"


def refused_allocations(room):
    """Refuses each allocation of the stored run in turn. Returns what was done."""
    run_refusing = refusing(room)
    if not run_refusing:
        return NO_COMPILER
    stored = BUILT, stored_words("queue_sites"), read(f"{STORED}/stdin")
    whole, allocations = run_refusing(0, *stored)
    expect(whole.stdout == read(f"{STORED}/stdout"), "it did not write what its file stdout has", whole)
    for number in range(1, allocations + 1):
        ran, _ = run_refusing(number, *stored)
        expect(ran.returncode == 1, f"the status is not 1 where allocation {number} is refused", ran)
        expect(ran.stderr == b"queue_sites: out of memory\n", f"standard error has another text where allocation {number} is refused", ran)
        expect(whole.stdout.startswith(ran.stdout), f"it wrote no front of the output where allocation {number} is refused", ran)
    return f"each of the {allocations} allocations of the stored run refused in turn"


def run_all(is_gate_passed=False):
    """Runs all tests. Returns lines that report what was run. Once the gate has passed, they include the program as Rattle's own
    compiler builds it."""
    for words in (["--version"], SCRIPT):  # standard error reports what they build
        run("./queue_sites", words)
    programs = [BUILT, f"{BUILT}.by-rattle"] if is_gate_passed else [BUILT]
    with tempfile.TemporaryDirectory() as room:
        for program in ("./queue_sites", *programs):
            statuses(program)
            wrong_words(program)
            failures(program, room)
        for program in programs:
            wrong_words_of_site(program)
            wrong_words_of_reports(program)
            for errors in (errors_of_serve, errors_of_site):
                with tempfile.TemporaryDirectory() as files:
                    errors(program, files)
        scripts_alone()
        from_another_folder(room)
        first_example()
        wrong_words_of_preview()
        preview_of_a_server()
        runs = f"its words, texts and statuses ({' and '.join(map(os.path.basename, programs))})"
        previews = "the first example of README, as a preview and proved; a preview of a server"
        return [runs, previews, refused_allocations(room)]


if __name__ == "__main__":
    try:
        print("\n".join(run_all()))
    except Failed as why:
        sys.exit(f"test: {why}")
