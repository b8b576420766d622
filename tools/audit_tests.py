"""Runs `queue_sites audit` and `queue_sites steps` over the stores of sites that were killed and cut off under load. The script of an audit must
give what the stores say, byte for byte, and lead to what the sites showed last; stores that no run explains must be named; no file is changed.

    python3 -B tools/audit_tests.py [all] [NAME..]

`all`: more runs, every changed byte and every allocation, where `./test` has some. NAME: these tests alone. `figures`, which runs by its name alone,
measures an audit of eight stores of 100,000 steps; it takes several minutes."""
import concurrent.futures
import contextlib
import itertools
import os
import random
import re
import shutil
import signal
import sqlite3
import subprocess
import sys
import tempfile
import time

from program_tests import Failed, expect, first_difference, read, refusing, run
from server_load import compiled_clients, measured as load
from server_tests import BUILT, PATIENCE, Server, fill, need, shown
from site_link_tests import QUEUES, Mesh
from store_tests import (
    BASE, COLUMNS, COMMAND, CUT, MOST_ROWS, START, TAKEN, WHOLE, Working, copied, main, opened, put, rows_of, some_of, tables_of,
)

# How long an audit may take in a test, in seconds.
LONG = 120
# The kinds of rows that are steps.
STEPS = (COMMAND, TAKEN, CUT, WHOLE)
# The actions of commands by their numbers (docs/store.md), and the messages of their replies (docs/protocol.md).
ACTIONS = {1: b"QueueAdd", 2: b"QueueRemove", 3: b"QueuePause", 4: b"QueuePenalty", 5: b"QueueMemberRingInUse"}
MESSAGES = {
    1: b"Added interface to queue",
    2: b"Removed interface from queue",
    4: b"Interface penalty set successfully",
    5: b"Interface ring in use set successfully",
}
# How many allocations of a run `./test` refuses, and how many bytes of each step it changes.
SOME_ALLOCATIONS, SOME_BYTES = 60, 2
# What an audit of many steps may take.
MANY_STEPS, MOST_SECONDS, MOST_MEMORY = 100_000, 20, 2_000_000_000


class Body:
    """The body of a row, read from its front (docs/store.md)."""

    def __init__(self, content):
        self.content = content

    def byte(self):
        found, self.content = self.content[0], self.content[1:]
        return found

    def text(self):
        size = self.byte()
        found, self.content = self.content[:size], self.content[size:]
        return found

    def text_if_any(self):
        return self.text() if self.byte() else None

    def number(self):
        found, self.content = self.content[:4], self.content[4:]
        return b"%d" % int.from_bytes(found, "big")


def yes_or_no(bit):
    return b"yes" if bit else b"no"


def command_of(content):
    """The fields of the message that a command's body says, and the reply to it once it is done."""
    body = Body(content)
    kind = body.byte()
    fields = {b"Action": ACTIONS[kind], b"Queue": body.text() if kind in (1, 2) else body.text_if_any(), b"Interface": body.text()}
    message = MESSAGES.get(kind)
    if kind == 1:
        fields |= {b"Penalty": body.number(), b"Paused": yes_or_no(body.byte()), b"MemberName": body.text(), b"StateInterface": body.text()}
    elif kind == 3:
        reason = body.text_if_any()
        fields |= {b"Paused": yes_or_no(reason is not None), b"Reason": reason}
        message = b"Interface %b successfully" % (b"unpaused" if reason is None else b"paused")
    elif kind == 4:
        fields |= {b"Penalty": body.number()}
    elif kind == 5:
        fields |= {b"RingInUse": yes_or_no(body.byte())}
    need(body.content == b"\x00", f"a command ends with {body.content!r} and not with the answer that it is done")
    return {name: value for name, value in fields.items() if value}, b"Response: Success\r\nMessage: %b\r\n\r\n" % message


def fields_of(words):
    """The fields that a script's line of a message says."""
    need(words.startswith(b"ami "), f"a line says {words!r} where a message is due")
    return dict(it.split(b": ", 1) for it in words.removeprefix(b"ami ").split(b"|"))


def all_rows(folder, site):
    """All rows of a site's store, the kept ones first."""
    kept = rows_of(folder, site, "kept") if "kept" in tables_of(folder, site) else []
    return kept + rows_of(folder, site)


def steps_of(folder, site):
    """The kind and the body of each step of a site."""
    return [(kind, body) for _, _, kind, body, _ in all_rows(folder, site) if kind in STEPS]


class Replayed:
    """What the lines of a script must give by the steps that stores have: each line is the next step of its site."""

    def __init__(self, folder, sites):
        self.left = [iter(steps_of(folder, site)) for site in range(sites)]
        self.entries, self.text, self.count = [], b"", 0

    def run(self, line):
        site, _, words = line.partition(b" ")
        step = next(self.left[int(site)], None)
        need(step is not None, f"site {int(site)} has no step for {line!r}")
        kind, body = step
        if kind == COMMAND:
            fields, reply = command_of(body)
            need(fields_of(words) == fields, f"the line {line!r} isn't the command {fields!r}")
            self.text += reply
        elif kind == TAKEN:
            place = int(words.removeprefix(b"take "))
            need(place < len(self.entries) and self.entries[place] == body, f"{line!r} takes another frame than site {int(site)} did")
            self.text += b"taken\n"
        else:
            need(words == (b"cut" if kind == CUT else b"whole"), f"the line {line!r} isn't a step of kind {kind}")
            self.text += b"entry %d\n" % len(self.entries)
            self.entries.append(body)
        self.count += 1

    def end(self):
        """Needs that no step is left."""
        need(all(next(it, None) is None for it in self.left), "the script ends before the last step")


def expected_output(folder, sites, script):
    """What the script of an audit must give by the stores, and how many steps they have."""
    replayed = Replayed(folder, sites)
    for line in script.splitlines():
        if not line.startswith(b"#"):
            replayed.run(line)
    replayed.end()
    return replayed.text, replayed.count


def paths_of(folder, sites):
    return [f"{folder}/site-{site}.db" for site in range(sites)]


def state_of(paths):
    """The bytes and the time of the last change of files and their logs, and the names beside them."""
    files = [it for path in paths for it in (path, f"{path}-wal") if os.path.isfile(it)]
    folders = {os.path.dirname(it) for it in files}
    return [(it, read(it), os.stat(it).st_mtime_ns) for it in files], [sorted(os.listdir(it)) for it in folders]


def reported(words, paths, **how):
    """Runs the program over files, which it must leave as they are. Returns the run."""
    before = state_of(paths)
    ran = run(BUILT, words, limit=LONG, **how)
    expect(state_of(paths) == before, "it has changed files", ran)
    return ran


def audited(paths, **how):
    return reported(["audit", *paths], paths, **how)


def refuses(words, paths, cause):
    """The program must refuse these files with status 1 and this line, and write nothing else."""
    ran = reported(words, paths)
    wanted = f"queue_sites: {cause}\n".encode()
    expect((ran.returncode, ran.stdout, ran.stderr) == (1, b"", wanted), f"it doesn't end with status 1 and {wanted!r} alone", ran)


def names(ran, pattern):
    """Needs that a run names what is wrong: a step that no event gives, with status 4, or a row or file that is damaged, with status 1."""
    expect(ran.returncode in (1, 4) and re.fullmatch(pattern, ran.stderr), f"it doesn't end with {pattern!r}", ran)
    return ran.returncode


STUCK = rb"queue_sites: site \d+, step \d+: no event gives this step: [^\n]+\n"
DAMAGED = rb"queue_sites: store [^\n]+: row \d+[^\n]*\n"
OF_ROW = re.compile(rb"queue_sites: store [^\n]+/site-(\d+)\.db: row (\d+)(?:: | is )")
NAMED = STUCK + b"|" + DAMAGED + rb"|queue_sites: store [^\n]+: damaged file\n"


class Asker:
    """A client of a site that asks for random changes of members that clients of all sites change. `texts` are member names and reasons."""

    def __init__(self, number, site, texts=("", "Ann", "night shift"), members=8):
        self.number, self.site, self.texts, self.members, self.done = number, site, texts, members, 0

    def ask(self, client, lot):
        action = lot.choice(["QueueAdd", "QueueAdd", "QueueRemove", "QueuePenalty", "QueuePause", "QueueMemberRingInUse"])
        fields = {"Queue": lot.choice(QUEUES), "Interface": f"SIP/{lot.randrange(self.members)}"}
        if action in ("QueuePenalty", "QueuePause", "QueueMemberRingInUse") and lot.random() < 0.3:
            del fields["Queue"]
        if action in ("QueueAdd", "QueuePenalty"):
            fields["Penalty"] = lot.randrange(1_000)
        if action in ("QueueAdd", "QueuePause"):
            fields["Paused"] = lot.choice(["yes", "no"])
        if action == "QueueMemberRingInUse":
            fields["RingInUse"] = lot.choice(["yes", "no"])
        if text := lot.choice(self.texts):
            fields["MemberName" if action == "QueueAdd" else "Reason"] = text
        client.ask(action, **fields)
        self.done += 1

    def work(self, server, site, seed, working):
        lot = random.Random(seed)
        try:
            with server.logged_in(site) as client:
                while not working.is_done.is_set():
                    self.ask(client, lot)
        except (OSError, Failed):
            if not working.is_over.is_set():
                raise


def until_same(ways):
    """Waits until all sites show the same, and returns it."""
    ends = time.monotonic() + PATIENCE
    while True:
        reports = {shown(*way) for way in ways}
        if len(reports) == 1:
            return reports.pop()
        need(time.monotonic() < ends, f"the sites don't show the same: {reports!r}")
        time.sleep(0.05)


def keeping(folder, sites, places=8):
    """A server whose sites have stores that keep rows."""
    return Server(sites, QUEUES, options=["--store", folder, "--keep", "--sessions", str(places)])


def kill_under_load(server, askers, seed, seconds):
    working = Working(askers, lambda it: (server, it.site), seed)
    time.sleep(seconds)
    working.is_over.set()
    server.stop(signal.SIGKILL)
    working.wait()


def run_of_serve(folder, sites, seed, kills=2, **how):
    """Stores of sites of one process that was killed under load, and started again each time. Returns what all sites showed last."""
    lot = random.Random(seed)
    askers = [Asker(number, number % sites, **how) for number in range(2 * sites)]
    for turn in range(kills):
        with keeping(folder, sites) as server:
            kill_under_load(server, askers, 1_000 * seed + 100 * turn, lot.uniform(0.1, 0.4))
    with keeping(folder, sites) as server:
        report = until_same([(server, site) for site in range(sites)])
        server.stop()
    return report


def meddle(mesh, lot):
    """Cuts a link of a mesh, at once or in the middle of a frame, or lets it up again."""
    link = lot.choice([*mesh.proxies.values()])
    how = lot.randrange(3)
    if how == 0:
        link.stop()
    elif how == 1:
        link.start()
    else:
        link.left = lot.randrange(1, 400)


def run_of_links(room, seed, sites=3, turns=4):
    """Stores of linked sites, each a process of its own, whose links are cut and that are killed under load. Returns what all showed last."""
    lot = random.Random(seed)
    askers = [Asker(number, number % sites) for number in range(2 * sites)]
    with Mesh(room, sites, stores=True, options=["--keep"]) as mesh:
        place_of = lambda it: (mesh.sites[it.site], 0)
        for turn in range(turns):
            killed = lot.randrange(sites)
            dying = Working([it for it in askers if it.site == killed], place_of, 1_000 * seed + 100 * turn)
            others = Working([it for it in askers if it.site != killed], place_of, 1_000 * seed + 100 * turn + 50)
            for _ in range(4):
                meddle(mesh, lot)
                time.sleep(lot.uniform(0.02, 0.1))
            dying.is_over.set()
            mesh.sites[killed].stop(signal.SIGKILL)
            dying.wait()
            mesh.start(killed)
            others.is_done.set()
            others.wait()
        mesh.heal()
        return until_same([(mesh.sites[site], 0) for site in range(sites)])


def check_explained(folder, sites, report=None):
    """Needs that an audit of the stores in a folder gives one list of events, and that its script gives what the stores say, and then the report
    that each site showed. Returns how many steps there are."""
    paths = paths_of(folder, sites)
    random.Random(sites).shuffle(paths)
    ran = audited(paths)
    expect((ran.returncode, ran.stderr) == (0, b""), "no list of events explains a run", ran)
    output, count = expected_output(folder, sites, ran.stdout)
    script = ran.stdout + b"".join(b"%d ami Action: QueueStatus\n" % site for site in range(sites))
    whole = output + (report or b"") * sites
    given = run(BUILT, ["script", str(sites), *QUEUES], script, limit=LONG)
    expect(given.returncode == 0, "the script of an audit isn't understood", given)
    shown_last = given.stdout if report else given.stdout[:len(output)]
    if shown_last != whole:
        raise Failed(f"the script of an audit: {first_difference(whole, shown_last)}")
    return count


def serve_runs(seeds=range(4)):
    """One list of events explains the stores of sites of one process that was killed under load."""
    counts = []
    for seed in seeds:
        sites = (2, 3, 5, 8)[seed % 4]
        with tempfile.TemporaryDirectory() as folder:
            counts.append(check_explained(folder, sites, run_of_serve(folder, sites, seed)))
    return f"{len(counts)} runs of 2 to 8 sites in one process, {min(counts):,} to {max(counts):,} steps"


def linked_runs(numbers=(2, 3, 8)):
    """One list of events explains the stores of linked sites whose links were cut, and that were killed under load."""
    counts = []
    for seed, sites in enumerate(numbers):
        with tempfile.TemporaryDirectory() as room:
            counts.append(check_explained(room, sites, run_of_links(room, seed, sites)))
    return f"{len(counts)} runs of {min(numbers)} to {max(numbers)} linked sites, {min(counts):,} to {max(counts):,} steps"


def replaced_bases(asks=3 * MOST_ROWS):
    """A store whose base was replaced is explained, since it keeps rows. Without them it is refused: it doesn't begin with its first step."""
    askers = [Asker(number, 0) for number in range(16)]
    with tempfile.TemporaryDirectory() as folder, tempfile.TemporaryDirectory() as other:
        with keeping(folder, 2, 20) as server:
            working = Working(askers, lambda it: (server, 0), 0)
            ends = time.monotonic() + 240
            while (done := sum(it.done for it in askers)) < asks:
                need(time.monotonic() < ends and not working.faults, f"{done} asks are answered; {working.faults[:1]}")
                time.sleep(0.1)
            working.is_done.set()
            working.wait()
            report = until_same([(server, 0), (server, 1)])
            server.stop()
        need(rows_of(folder, 0)[0][0] > 0, f"there is no new base after {asks} asks")
        need(rows_of(folder, 0, "kept")[0][0] == 0, "the kept rows don't begin at position 0")
        count = check_explained(folder, 2, report)
        path = write_store(other, 0, rows_of(folder, 0))
        refuses(["audit", path], [path], f"store {path}: {NOT_FROM_START}")
        first = rows_of(other, 0)[0][0]
        listed = reported(["steps", path], [path])
        expect(listed.returncode == 0 and listed.stdout.startswith(b"%d base: " % first), "the steps of a store without its first rows aren't listed", listed)
    return f"a store with a new base and kept rows, {count:,} steps; and without them"


def write_store(folder, site, rows, kept=()):
    """Writes a site's store with these rows by sqlite3, and returns its path."""
    path = f"{folder}/site-{site}.db"
    with contextlib.suppress(FileNotFoundError):
        os.remove(path)
    with contextlib.closing(sqlite3.connect(path)) as store:
        for name, them in (("step", rows), *([("kept", kept)] if kept else [])):
            store.execute(f"CREATE TABLE {name} {COLUMNS}")
            store.executemany(f"INSERT INTO {name} VALUES (?, ?, ?, ?, ?)", them)
        store.commit()
    return path


def with_body(rows, place, body):
    position, passed, kind, _, words = rows[place]
    return [*rows[:place], (position, passed, kind, body, words), *rows[place + 1:]]


def short_run(folder, prefix, adds=4):
    """Stores of two sites of a run of some 110 steps. Each change is shown at both sites before the next is asked for, so a frame says what it has
    changed. The last step of each is a frame that the other has taken."""
    with keeping(folder, 2) as server:
        both = [(server, 0), (server, 1)]
        for turn, site in itertools.product(range(adds), range(2)):
            name = {"Interface": f"SIP/{prefix}-{site}-{turn}"}
            asks = [
                ("QueueAdd", {"Queue": QUEUES[turn % 2], "Penalty": turn, "MemberName": "Ann"}),
                ("QueuePause", {"Paused": "yes", "Reason": "lunch"}),
                ("QueuePenalty", {"Penalty": turn + 10}),
                ("QueueMemberRingInUse", {"RingInUse": "no"}),
            ]
            if turn % 2:
                asks.append(("QueueRemove", {"Queue": QUEUES[1]}))
            with server.logged_in(site) as client:
                for action, fields in asks:
                    client.succeed(action, **fields, **name)
                    report = until_same(both)
        server.stop()
    return report


def rewritten(folder, room):
    """The stores of two sites as sqlite3 writes them, without checksums: their rows, and the folder."""
    os.makedirs(room, exist_ok=True)
    rows = [all_rows(folder, site) for site in range(2)]
    for site in range(2):
        write_store(room, site, rows[site])
    return rows, room


def audit_changed(room, rows, site, place, body, number):
    """An audit of stores in which the body of one row is another. Returns the run."""
    changed = f"{room}/changed-{number}"
    os.mkdir(changed)
    for it in range(2):
        write_store(changed, it, with_body(rows[it], place, body) if it == site else rows[it])
    ran = audited(paths_of(changed, 2))
    shutil.rmtree(changed)
    return ran


def places_of(rows, kinds):
    """The site and place of each row of these kinds."""
    return [(site, place) for site in range(2) for place, it in enumerate(rows[site]) if it[2] in kinds]


def changed_bytes(number=SOME_BYTES):
    """An audit names what is wrong where one byte of a step differs: the step that no event gives, or the row that isn't what the site did."""
    lot, ends = random.Random(7), []
    with tempfile.TemporaryDirectory() as folder, tempfile.TemporaryDirectory() as room, concurrent.futures.ThreadPoolExecutor(4) as threads:
        report = short_run(folder, "a")
        rows, plain = rewritten(folder, f"{room}/plain")
        count = check_explained(plain, 2, report)
        jobs = []
        for site, place in places_of(rows, STEPS):
            position, body = rows[site][place][0], rows[site][place][3]
            for at in sorted(lot.sample(range(len(body)), min(number or len(body), len(body)))):
                other = body[:at] + bytes([body[at] ^ 1 << lot.randrange(8)]) + body[at + 1:]
                jobs.append((site, position, threads.submit(audit_changed, room, rows, site, place, other, len(jobs))))
        for site, position, job in jobs:
            ends.append(names(job.result(), NAMED))
            named = OF_ROW.match(job.result().stderr)
            need(not named or (int(named[1]) == site and int(named[2]) >= position), f"site {site}, row {position}: {job.result().stderr!r}")
    return f"{len(ends)} changed bytes of {count} steps: {ends.count(4)} steps that no event gives, {ends.count(1)} rows that are damaged"


def changed_answers():
    """An audit names the row of a command whose stored answer is another."""
    with tempfile.TemporaryDirectory() as folder, tempfile.TemporaryDirectory() as room:
        short_run(folder, "a", 2)
        rows, _ = rewritten(folder, f"{room}/plain")
        changes = [(site, place, answer) for site, place in places_of(rows, [COMMAND]) for answer in (1, 2, 3)]
        for number, (site, place, answer) in enumerate(changes):
            position, body = rows[site][place][0], rows[site][place][3]
            ran = audit_changed(room, rows, site, place, body[:-1] + bytes([answer]), number)
            names(ran, b"queue_sites: store [^\n]+/site-%d.db: row %d(?:: | is )[^\n]*\n" % (site, position))
    return f"{len(changes)} changed answers, each of which is named"


def mixed_runs():
    """The stores of two runs are no run: an audit names a step of one that takes a frame that nobody made in the other."""
    with tempfile.TemporaryDirectory() as room:
        folders = []
        for name in ("a", "b"):
            folders.append(f"{room}/{name}")
            os.mkdir(folders[-1])
            short_run(folders[-1], name, 2)
        for first, second in ((0, 1), (1, 0)):
            paths = [f"{folders[first]}/site-0.db", f"{folders[second]}/site-1.db"]
            ran = audited(paths)
            expect(names(ran, STUCK) == 4, "the stores of two runs are no run", ran)
            site, step = map(int, re.match(rb"queue_sites: site (\d+), step (\d+): ", ran.stderr).groups())
            row = next(it for it in all_rows(folders[first if site == 0 else second], site) if it[0] == step)
            expect(row[2] == TAKEN, f"the step that is named is {row!r}", ran)
            need(all(it.startswith(b"#") or it[:1].isdigit() for it in ran.stdout.splitlines()), "the events of a stuck list are no script")
    return "the stores of two runs, mixed"


# What is said of stores and of sites, and of a store that lacks its first rows.
NOT_FROM_START = "the store doesn't begin with the site's first step"
TWICE, MISSING, OTHER_QUEUES = "two stores of site {}", "no store of site {}", "site {} has other queues than site 0"


def refused_stores():
    """Files that are no stores, stores that are damaged or lack rows, and stores that aren't those of all sites are refused, each with its own
    text: first what is wrong with a file, in the order of the words, then what is wrong with the sites."""
    with tempfile.TemporaryDirectory() as room:
        folder = f"{room}/stores"
        os.mkdir(folder)
        short_run(folder, "a", 2)
        paths, rows = paths_of(folder, 2), all_rows(folder, 0)
        base = rows[0]
        write = lambda name, *what, **how: write_store(os.makedirs(f"{room}/{name}") or f"{room}/{name}", 0, *what, **how)
        file = lambda name, content: f"{put(f'{room}/{name}', 'site-0.db', content)}/site-0.db"
        missing = f"{room}/none"
        whole = read(write("whole", rows))
        bad = {
            missing: "cannot read: No such file or directory (os error 2)",
            room: "cannot read: Is a directory (os error 21)",
            file("empty", b""): "no store",
            file("short", b"S"): "no store",
            file("text", b"This is no store.\n" * 1_000): "no store",
            file("cut", whole[:len(whole) // 2]): "damaged file",
            write("gap", [rows[0], rows[2]]): "a row is missing",
            write("later", [(it[0] + 7, *it[1:]) for it in rows]): NOT_FROM_START,
            write("behind", rows[1:]): "base: no base",
        }
        for path, cause in bad.items():
            refuses(["audit", path], [path], f"store {path}: {cause}")
            refuses(["audit", paths[1], path, missing], [paths[1], path], f"store {path}: {cause}")
            if cause not in (NOT_FROM_START, "base: no base"):
                refuses(["steps", path], [path], f"store {path}: {cause}")
        refuses(["audit", paths[0], paths[1], paths[0]], paths, TWICE.format(0))
        refuses(["audit", paths[1]], paths, MISSING.format(0))
        with tempfile.TemporaryDirectory() as other:
            with Server(3, ["sales"], options=["--store", other, "--keep"]) as server:
                server.stop()
            refuses(["audit", *paths, f"{other}/site-2.db"], paths, OTHER_QUEUES.format(2))
            refuses(["audit", f"{other}/site-0.db", f"{other}/site-2.db"], paths_of(other, 3), MISSING.format(1))
        with contextlib.closing(sqlite3.connect(f"{room}/notes.db")) as notes:
            notes.execute("CREATE TABLE note (id INTEGER PRIMARY KEY, title TEXT)")
        refuses(["audit", f"{room}/notes.db"], [], f"store {room}/notes.db: no store")
        # A flipped bit of a page of a store with checksums, in the file of which are pages after this many changes.
        os.mkdir(f"{room}/many")
        with keeping(f"{room}/many", 1) as server:
            fill(server, 0, 1_200)
            server.stop()
        whole = read(f"{room}/many/site-0.db")
        need(len(whole) > 8_192, f"the file of a store has {len(whole)} bytes")
        flipped = file("flipped", whole[:5_000] + bytes([whole[5_000] ^ 1]) + whole[5_001:])
        refuses(["audit", flipped], [flipped], f"store {flipped}: damaged file")
        need(base[2] == BASE, "a store doesn't begin with a base")
    return f"{len(bad)} files that are no stores, and stores that aren't those of all sites"


def rests(folder):
    """Waits until the site of a folder has cut its last change, and its files stay as they are."""
    ends, before = time.monotonic() + PATIENCE, None
    while (now := state_of(paths_of(folder, 1))) != before:
        need(time.monotonic() < ends, "a site that nobody asks writes on")
        before = now
        time.sleep(1)


def copies_in_use():
    """A store is read while its site has it open, and is left as it is; a copy of both files is read as the files are, also where a link leads to
    them."""
    with tempfile.TemporaryDirectory() as folder, tempfile.TemporaryDirectory() as room:
        with keeping(folder, 1) as server:
            with server.logged_in() as client:
                for number in range(5):
                    client.succeed("QueueAdd", Queue="sales", Interface=f"SIP/{number}")
            rests(folder)
            copy = copied(folder, room, "copy")
            report = shown(server)
            used, copies = audited(paths_of(folder, 1)), audited(paths_of(copy, 1))
            expect(used.returncode == 0 and used.stdout == copies.stdout, f"a copy of a store gives {copies.stdout!r}", used)
            with server.logged_in() as client:
                client.succeed("QueueAdd", Queue="sales", Interface="SIP/after")
            server.stop()
        check_explained(copy, 1, report)
        before = audited(paths_of(copy, 1))
        for name in os.listdir(copy):
            os.chmod(f"{copy}/{name}", 0o444)
        after = audited(paths_of(copy, 1))
        expect(after.stdout == before.stdout, "files that may not be written are read otherwise", after)
        os.symlink(paths_of(copy, 1)[0], f"{room}/link.db")
        linked = audited([f"{room}/link.db"])
        expect(linked.stdout == before.stdout, "files to which a link leads are read otherwise", linked)
    return "a store that its site has open, its copy, and a link to it"


def unsaid_events():
    """An event that no line can say is a comment, and the run says how many there are."""
    with tempfile.TemporaryDirectory() as folder:
        with keeping(folder, 1) as server:
            with server.logged_in() as client:
                for number, name in enumerate(("Ann", "A|B", "C|D")):
                    client.succeed("QueueAdd", Queue="sales", Interface=f"SIP/{number}", MemberName=name)
            server.stop()
        ran = audited(paths_of(folder, 1))
        line = b"queue_sites: 2 events are comments: no line of a script says them\n"
        expect((ran.returncode, ran.stderr) == (0, line), f"standard error isn't {line!r}", ran)
        found = [it for it in ran.stdout.splitlines() if re.match(rb"# 0 ami Action: QueueAdd\|", it)]
        expect(len(found) == 2 and all(b"A|B" in it or b"C|D" in it for it in found), f"the comments are {found!r}", ran)
        listed = reported(["steps", *paths_of(folder, 1)], paths_of(folder, 1))
        expect(listed.returncode == 0 and listed.stdout.count(b"QueueAdd") == 3, "the steps aren't listed", listed)
    return "events that no line says"


# What a line of the steps begins with, by the kind of its row.
LISTED = {
    BASE: rb"base: site %d, ",
    COMMAND: rb"pass %d: (?:Queue\w+) ",
    TAKEN: rb"pass %d: take: frame \d+ of site \d+, ",
    CUT: rb"pass %d: cut: frame \d+ of site \d+, ",
    WHOLE: rb"pass %d: whole: frame \d+ of site \d+, ",
    START: rb"start",
}


def check_listed(rows, site, lines):
    """Needs a line for each row, with its position, its kind and its pass."""
    need(len(lines) == len(rows), f"{len(rows)} rows have {len(lines)} lines")
    for (position, passed, kind, body, _), line in zip(rows, lines):
        start = LISTED[kind].replace(b"%d", b"%d" % (site if kind == BASE else passed))
        need(re.match(b"%d " % position + start, line), f"the row at {position}, of kind {kind}, is listed as {line!r}")
        if kind == COMMAND:
            fields, _ = command_of(body)
            need(all(it in line for it in (fields[b"Action"], fields[b"Interface"])), f"{fields!r} is listed as {line!r}")


def listed_steps():
    """The steps of a store are listed in words, and with `--frames` each frame in hexadecimal."""
    with tempfile.TemporaryDirectory() as folder:
        short_run(folder, "a", 2)
        for site in range(2):
            path, rows = f"{folder}/site-{site}.db", all_rows(folder, site)
            plain, framed = reported(["steps", path], [path]), reported(["steps", path, "--frames"], [path])
            for it in (plain, framed):
                expect((it.returncode, it.stderr) == (0, b""), "the steps of a store aren't listed", it)
            check_listed(rows, site, plain.stdout.splitlines())
            frames = [it[3].hex().encode() for it in rows if it[2] in (TAKEN, CUT, WHOLE)]
            lines = framed.stdout.splitlines()
            need([it for it in lines if it in frames] == frames, "the frames aren't listed in their order")
            need(len(lines) == len(rows) + len(frames), "with frames other lines are listed")
    return "the steps of two stores, with and without frames"


def output_that_fails():
    """An audit and a list of steps whose output can't be written end with status 1."""
    with tempfile.TemporaryDirectory() as folder:
        short_run(folder, "a", 1)
        paths = paths_of(folder, 2)
        for words in (["audit", *paths], ["steps", paths[0]]):
            with open("/dev/full", "wb") as full:
                ran = reported(words, paths, out=full)
            expect((ran.returncode, ran.stderr) == (1, b"queue_sites: write failed\n"), "it doesn't say that a write failed", ran)
    return "output that can't be written"


def refused_allocations(number=SOME_ALLOCATIONS):
    """With each allocation refused in turn, or some, an audit and a list of steps end with status 1, say why, and have written a prefix of what they
    write else; or they do without that memory, and write it all."""
    with tempfile.TemporaryDirectory() as room:
        run_refusing = refusing(room)
        if not run_refusing:
            return "nothing was refused: there is no C compiler here"
        folder, lines = f"{room}/stores", []
        os.mkdir(folder)
        short_run(folder, "a", 1)
        paths = paths_of(folder, 2)
        for words in (["audit", *paths], ["steps", "--frames", paths[0]]):
            whole, allocations = run_refusing(0, BUILT, words)
            expect(whole.returncode == 0 and allocations > 100, f"with all its memory it makes {allocations} allocations", whole)
            tried, ended = some_of(allocations, number), 0
            for it in tried:
                ran, _ = run_refusing(it, BUILT, words)
                if (ran.returncode, ran.stderr, ran.stdout) == (0, b"", whole.stdout):
                    continue
                ended += 1
                wanted = (1, b"queue_sites: out of memory\n")
                expect((ran.returncode, ran.stderr) == wanted, f"it doesn't say that it is out of memory where allocation {it} is refused", ran)
                expect(whole.stdout.startswith(ran.stdout), f"it wrote no prefix of the output where allocation {it} is refused", ran)
            need(ended >= 9 * len(tried) / 10, f"only {ended} of {len(tried)} refused allocations end {words[0]}")
            lines.append(f"{len(tried)} of the {allocations} allocations of {words[0]}, of which {ended} ended it")
    return f"refused: {', and '.join(lines)}"


def steps_at_the_limit(most=1_000_000):
    """An audit takes as many steps of a site as a journal may have, and refuses one more."""
    with tempfile.TemporaryDirectory() as room, tempfile.TemporaryDirectory() as folder:
        with keeping(folder, 1) as server:
            with server.logged_in() as client:
                client.succeed("QueueAdd", Queue="sales", Interface="SIP/a")
                client.succeed("QueuePenalty", Interface="SIP/a", Penalty=7)
            server.stop()
        first = [it for it in rows_of(folder, 0) if it[2] in (BASE, START, COMMAND)]
        for steps in (most, most + 1):
            path = f"{room}/{steps}.db"
            with contextlib.closing(sqlite3.connect(path)) as store, store:
                store.execute(f"CREATE TABLE step {COLUMNS}")
                rows = first + [first[-1]] * (steps - sum(it[2] == COMMAND for it in first))
                store.executemany("INSERT INTO step VALUES (?, ?, ?, ?, ?)", ((at, *row[1:]) for at, row in enumerate(rows)))
            if steps == most:
                ran = audited([path])
                expect((ran.returncode, ran.stderr, ran.stdout.count(b"0 ami ")) == (0, b"", steps), "an audit doesn't take all steps", ran)
            else:
                refuses(["audit", path], [path], f"store {path}: more than {most:,} steps")
    return f"a store of {most:,} steps, and one of a step more"


def count_rows(folder, site):
    """How many rows a site's store has in both tables."""
    with opened(folder, site) as store:
        return sum(store.execute(f"SELECT count(*) FROM {it}").fetchone()[0] for it in ("step", "kept"))


def load_until(folder, sites, steps, room):
    """Runs a server whose sites have stores until each store has this number of rows. Clients of tools/load.c add and remove members, and then
    set penalties."""
    program = compiled_clients(room)
    with keeping(folder, sites, 64) as server:
        fill(server, 0, 1)
        ends = time.monotonic() + 3_600
        for asks in itertools.chain(["add"], itertools.repeat("penalty")):
            load(program, "manager", server.port, sites, 32, 10, asks, server.user, server.secret)
            time.sleep(2)  # the last frames are taken
            counts = [count_rows(folder, site) for site in range(sites)]
            print(f"         {min(counts):,} to {max(counts):,} rows", flush=True)
            need(time.monotonic() < ends, f"the stores have {counts} rows")
            if min(counts) >= steps:
                break
        server.stop()


def measured(words, out):
    """Runs the program with its output in a file. Returns its status, its standard error, its seconds and the most memory that it had."""
    with open(out, "wb") as written, tempfile.TemporaryFile() as errors:
        started = time.monotonic()
        process = subprocess.Popen([BUILT, *words], stdin=subprocess.DEVNULL, stdout=written, stderr=errors)
        _, status, used = os.wait4(process.pid, 0)
        process.returncode = os.waitstatus_to_exitcode(status)
        seconds = time.monotonic() - started
        errors.seek(0)
        return process.returncode, errors.read(), seconds, used.ru_maxrss * 1024


def figures(sites=8, steps=MANY_STEPS):
    """Measures an audit of stores of many steps: seconds, and the most memory."""
    with tempfile.TemporaryDirectory() as folder, tempfile.TemporaryDirectory() as room:
        load_until(folder, sites, steps, room)
        counts = [len(steps_of(folder, site)) for site in range(sites)]
        status, errors, seconds, most = measured(["audit", *paths_of(folder, sites)], f"{room}/events")
        need((status, errors) == (0, b""), f"an audit of many steps ends with status {status}, and says {errors!r}")
        events = sum(not it.startswith(b"#") for it in read(f"{room}/events").splitlines())
        need(events == sum(counts), f"{sum(counts):,} steps have {events:,} events")
        size = os.path.getsize(f"{room}/events")
        line = f"{sites} stores of {min(counts):,} to {max(counts):,} steps: {seconds:.1f} s, at most {most / 1e6:,.0f} MB, a script of {size / 1e6:,.0f} MB"
        need(seconds <= MOST_SECONDS and most <= MOST_MEMORY, line)
    return line


TESTS = [serve_runs, linked_runs, replaced_bases, changed_bytes, changed_answers, mixed_runs, refused_stores, copies_in_use, unsaid_events, listed_steps,
         output_that_fails, steps_at_the_limit, refused_allocations]
# What `all` changes.
LONGER = {
    serve_runs: lambda: serve_runs(range(20)),
    linked_runs: lambda: linked_runs(range(2, 9)),
    changed_bytes: lambda: changed_bytes(None),
    refused_allocations: lambda: refused_allocations(None),
}


def run_all(tests=None, longer=False):
    """Runs all tests, or these. Returns lines that report what was run."""
    return [(LONGER.get(it, it) if longer else it)() for it in tests or TESTS]


if __name__ == "__main__":
    # The measurement runs only by its name.
    main(sys.argv[1:], [*TESTS, figures] if "figures" in sys.argv[1:] else TESTS, run_all)
