"""Runs `queue_sites serve --store`: kills it under load and starts it again, reads its files by Python's sqlite3, gives it files that
are no stores of its sites, fills its disk, and refuses its allocations and its writes.

    python3 -B tools/store_tests.py [all] [NAME..]

`all`: 100 kills, 200 of a first start, every allocation and every write, where `./test` has 20 kills and some of the others. NAME: these
tests alone."""
import concurrent.futures
import contextlib
import os
import random
import re
import resource
import shutil
import signal
import sqlite3
import struct
import subprocess
import sys
import tempfile
import threading
import time

from program_tests import NO_COMPILER, Failed, check, compiled_refusal, read
from server_tests import (
    BUILT, CAUGHT_UP, GREETING, OF_PEER, PATIENCE, SECRET, SETTLED, LOGGED_OUT_OF_MEMORY, USER, Client, Server, free_ports, need, shown, until_shown,
)

# How many members each owner has at most.
MEMBERS = 6
# The columns of a store's tables, as docs/store.md has them.
COLUMNS = ("(position INTEGER PRIMARY KEY, pass INTEGER NOT NULL, kind INTEGER NOT NULL, "
           "body BLOB NOT NULL, words TEXT NOT NULL) STRICT")
ROW = "position, pass, kind, body, words"
# The kinds of rows, and what the words of a row of each may be.
BASE, COMMAND, TAKEN, CUT, WHOLE, START = range(1, 7)
WORDS = {
    BASE: re.compile(r"base of site \d+, started \d+ times"),
    COMMAND: re.compile(r"Queue(Add|Remove|Penalty|Pause|MemberRingInUse) (sales|\*) SIP/\S+"),
    TAKEN: re.compile(r"take, \d+ bytes"),
    CUT: re.compile(r"cut, \d+ bytes"),
    WHOLE: re.compile(r"whole, \d+ bytes"),
    START: re.compile(r"start"),
}
# The bytes of a page of a store.
PAGE = 4_096
# The files of two sites.
FILES = ["site-0.db", "site-0.db-wal", "site-1.db", "site-1.db-wal"]
# The user and group that may write nothing.
NOBODY = 65_534
# Past how many rows since its base a store gets a new one.
MOST_ROWS = 10_000
# How many of the allocations of a run `./test` refuses.
SOME_ALLOCATIONS = 30
# The bytes that a file may have at most where its disk is to be full.
MOST_BYTES = 1 << 20
# The bytes of a log's header, and of a frame of it, and how many frames make it long: it is copied into the file before the next change.
LOG_HEADER, FRAME, LONG_LOG = 32, 24 + PAGE, 1_000
# What a client asks for while a write fails, the last behind a pause in which a new base is put where one is due.
CHANGES = [
    ("QueueAdd", {"Interface": "SIP/a"}),
    ("QueueAdd", {"Interface": "SIP/b", "Penalty": 3, "MemberName": "Ann"}),
    ("QueuePause", {"Interface": "SIP/a", "Paused": "yes", "Reason": "lunch"}),
    ("QueueRemove", {"Interface": "SIP/b"}),
    ("QueuePenalty", {"Interface": "SIP/a", "Penalty": 5}),
    ("QueueAdd", {"Interface": "SIP/c"}),
]
# How long that pause is, in seconds: a base is put within 50 ms of the row that makes it due.
PAUSE = 0.3


def members(report):
    """The penalty of each member that a report shows."""
    found = re.findall(rb"Location: (\S+)\r\nStateInterface: .*\r\nMembership: dynamic\r\nPenalty: (\d+)\r\n", report)
    return {interface.decode(): int(penalty) for interface, penalty in found}


class Owner:
    """A client of a site, and the members that it alone changes: those that are there by the replies that it got, and the change that
    it asked for without a reply."""

    def __init__(self, number, site):
        self.number, self.site, self.known, self.asked, self.done = number, site, {}, None, 0

    def owns(self, interface):
        return interface.startswith(f"SIP/{self.number}-")

    def ask(self, client, lot):
        """Asks for a random change, and notes it as done once it is answered."""
        interface, penalty = f"SIP/{self.number}-{lot.randrange(MEMBERS)}", lot.randrange(1_000)
        if interface not in self.known:
            action, fields = "QueueAdd", {"Penalty": penalty}
        elif lot.random() < 0.5:
            action, fields, penalty = "QueueRemove", {}, None
        else:
            action, fields = "QueuePenalty", {"Penalty": penalty}
        self.asked = interface, penalty
        reply = client.ask(action, Queue="sales", Interface=interface, **fields)
        # A wrong reply counts also where the server may end.
        assert reply.startswith(b"Response: Success\r\n"), f"{action} is answered {reply!r}"
        self.known, self.asked, self.done = self.after(), None, self.done + 1

    def after(self):
        """The members once the change that it asked for is done."""
        interface, penalty = self.asked
        others = {it: own for it, own in self.known.items() if it != interface}
        return others if penalty is None else {**others, interface: penalty}

    def work(self, server, site, seed, working):
        """Asks until it is to end, or the server is killed, which is said before it is done."""
        lot = random.Random(seed)
        try:
            with server.logged_in(site) as client:
                while not working.is_done.is_set():
                    self.ask(client, lot)
        except (OSError, Failed):
            if not working.is_over.is_set():
                raise

    def check(self, found):
        """Needs the members that were there by the replies, or those after the change that got none. Then these are there."""
        own = {interface: penalty for interface, penalty in found.items() if self.owns(interface)}
        right = [self.known] if self.asked is None else [self.known, self.after()]
        need(own in right, f"client {self.number} has {own!r}, by its replies {self.known!r}, and asked for {self.asked!r}")
        self.known, self.asked = own, None


class Working:
    """Threads of owners at work, whose faults are not lost: at the server and its site that `place_of` names. `is_done` ends them, and behind
    `is_over` the server may be killed, or from the beginning if it `may_end`."""

    def __init__(self, owners, place_of, seed, may_end=False):
        self.is_done, self.is_over, self.faults = threading.Event(), threading.Event(), []
        if may_end:
            self.is_over.set()
        self.threads = [threading.Thread(target=self.run, args=(it, *place_of(it), seed + it.number)) for it in owners]
        for it in self.threads:
            it.start()

    def run(self, owner, server, site, seed):
        try:
            owner.work(server, site, seed, self)
        except Exception as why:  # reported by the thread that waits
            self.faults.append(why)

    def wait(self):
        for it in self.threads:
            it.join()
        if self.faults:
            raise self.faults[0]


def check_shown(server, owners):
    """Needs that each site shows what its own clients did, and that soon all sites show the same: what is there is what was answered, or
    asked for last, and nothing else."""
    for site in range(server.sites):
        found = members(shown(server, site))
        for it in owners:
            if it.site == site:
                it.check(found)
    wanted = {interface: penalty for it in owners for interface, penalty in it.known.items()}
    ends = time.monotonic() + SETTLED
    while any(members(shown(server, site)) != wanted for site in range(server.sites)):
        need(time.monotonic() < ends, f"the sites don't show the same: {[members(shown(server, it)) for it in range(server.sites)]!r}, not {wanted!r}")
    need(len({shown(server, site) for site in range(server.sites)}) == 1, "the sites show the same members otherwise")


def stored(folder, sites=2, places=4, keeps=False, **how):
    """A server whose sites have stores."""
    return Server(sites, options=["--store", folder, "--sessions", str(places), *(["--keep"] if keeps else [])], **how)


def names_in(folder):
    """The names of the files in a folder, but those of stores that a first start has not made whole."""
    return sorted(it for it in os.listdir(folder) if "-new-" not in it)


def files_of(folder, site):
    """The files of a site's store, with what they have; a link that leads nowhere isn't one."""
    names = [it for it in os.listdir(folder) if it.startswith(f"site-{site}.db") and os.path.exists(f"{folder}/{it}")]
    return {it: read(f"{folder}/{it}") for it in names}


@contextlib.contextmanager
def opened(folder, site):
    """A site's store as Python's sqlite3 opens it, of a copy of its files. It must be sound."""
    with tempfile.TemporaryDirectory() as room:
        for name, content in files_of(folder, site).items():
            with open(f"{room}/{name}", "wb") as file:
                file.write(content)
        with contextlib.closing(sqlite3.connect(f"{room}/site-{site}.db")) as store:
            sound = store.execute("PRAGMA integrity_check").fetchall()
            need(sound == [("ok",)], f"sqlite3 says of a store: {sound!r}")
            yield store


def rows_of(folder, site, table="step"):
    """The rows of a table of a site's store."""
    with opened(folder, site) as store:
        return store.execute(f"SELECT {ROW} FROM {table} ORDER BY position").fetchall()


def tables_of(folder, site):
    """The tables of a site's store."""
    with opened(folder, site) as store:
        return {name: text for name, text in store.execute("SELECT name, sql FROM sqlite_master")}


def check_rows(rows):
    """Needs rows at positions one after the other, each with words of its kind."""
    need([it[0] for it in rows] == [*range(rows[0][0], rows[0][0] + len(rows))], "the rows don't stand one after the other")
    for _, _, kind, _, words in rows:
        need(WORDS[kind].fullmatch(words), f"the words of a row of kind {kind} are {words!r}")


def check_frames(rows, site):
    """Needs that the frames that a site has made have its number, and their own numbers grow: none is used again behind a crash."""
    frames = [body for _, _, kind, body, _ in rows if kind in (CUT, WHOLE)]
    need(all(it[7] == site for it in frames), "a store has a frame of another maker")
    numbers = [int.from_bytes(it[8:16], "big") for it in frames]
    need(all(one < other for one, other in zip(numbers, numbers[1:])), f"the numbers of a site's frames are {numbers!r}")


def check_words(folder, sites, starts):
    """Needs that a base stands first in each store, that the words of all rows read as they should, that the numbers of frames go on, and that
    the starts are counted."""
    for site in range(sites):
        rows = rows_of(folder, site)
        check_rows(rows)
        check_frames(rows, site)
        need([it[2] == BASE for it in rows] == [True, *[False] * (len(rows) - 1)], "a store doesn't have one base, in front")
        counted = int(re.fullmatch(rf"base of site {site}, started (\d+) times", rows[0][4])[1]) + sum(it[2] == START for it in rows)
        need(counted == starts, f"a site was started {starts} times, and its store counts {counted}")


def new_lines(folder, sites):
    """What a server logs that makes the stores of its sites."""
    return "".join(f"queue_sites: site {site}: new store {folder}/site-{site}.db\n" for site in range(sites)).encode()


def stop_new(server, folder):
    """Ends a server that has made the stores of its sites, and has logged nothing else."""
    wanted = new_lines(folder, server.sites)
    server.read_log(lambda logged: len(logged) >= len(wanted))
    found = server.stop()
    need(found == wanted, f"a server whose stores are new logs {found!r}")


def greets_with_stores():
    """With stores a server greets, and answers as without, and what it has answered is there when it starts again."""
    with tempfile.TemporaryDirectory() as folder:
        with stored(folder, 8) as server:
            for site in range(8):
                with server.client(site) as it:
                    need(it.greeting == f"{GREETING}\r\n".encode(), f"the greeting is {it.greeting!r}")
            with server.logged_in(7) as it:
                it.succeed("QueueAdd", Queue="sales", Interface="SIP/1")
                it.leave()
            until_shown(server, 0, b"Location: SIP/1\r\n")
            server.rests()
            stop_new(server, folder)
        with stored(folder, 8) as server:
            for site in range(8):
                until_shown(server, site, b"Location: SIP/1\r\n")
            server.stop_silent()
        check_words(folder, 8, 2)
    return "eight sites with stores"


def kills(times=20, clients=32, sites=2):
    """A server is killed at random moments while clients change members, and starts again each time: what was answered is there, nothing
    else is but what was asked for, and all sites show the same. Where a number of a change was used again a site would refuse what another
    site has of it."""
    lot, owners = random.Random(1), [Owner(number, number % sites) for number in range(clients)]
    with tempfile.TemporaryDirectory() as folder:
        for turn in range(times):
            # Some places more, since that of a client that has left is free a little later.
            with stored(folder, sites, clients // sites + 4) as server:
                check_shown(server, owners)
                working = Working(owners, lambda it: (server, it.site), turn * clients)
                time.sleep(lot.uniform(0.05, 0.5))
                working.is_over.set()
                log = b"".join(it for it in server.stop(signal.SIGKILL).splitlines(keepends=True) if not OF_PEER.fullmatch(it.rstrip(b"\n")))
                working.wait()
                need(log == (b"" if turn else new_lines(folder, sites)), f"a server with stores logged {log!r}")
        with stored(folder, sites) as server:
            check_shown(server, owners)
            server.stop(signal.SIGKILL)
        check_words(folder, sites, times + 1)
    done = sum(it.done for it in owners)
    need(done > times * clients // 2, f"only {done} changes were answered")
    return f"{times} kills among {done:,} changes by {clients} clients"


def seconds_of_a_first_start(folder):
    """How long a server takes until it listens, whose stores are new, in a folder that is missing."""
    os.mkdir(folder)
    server, started = stored(folder), time.monotonic()
    with server:
        return time.monotonic() - started


def killed_first_starts(times=20):
    """A server that is killed at a random moment of its first start starts again."""
    lot, cut_off = random.Random(6), 0
    with tempfile.TemporaryDirectory() as room:
        # By the shortest of some, since another program may make one long. Kills come later too, so that the end of a longer start is met.
        seconds = 1.5 * min(seconds_of_a_first_start(f"{room}/whole-{it}") for it in range(5))
        for turn in range(times):
            os.mkdir(folder := f"{room}/stores-{turn}")
            server = stored(folder)
            time.sleep(lot.uniform(0, seconds))
            server.process.kill()
            cut_off += not server.wait_until_it_listens()
            server.stop()
            starts_again(folder)
    need(cut_off > times // 4, f"of {times} servers that are killed {cut_off} haven't listened")
    return f"{times} first starts killed, {cut_off} before the server listened"


def first_starts_at_once(times=10, servers=3):
    """Of servers that make the same stores at once at most one serves, the others say why they don't, and later one goes on. No file of another
    name is touched, and none is left."""
    served, mine = 0, "site-1.db-new-1"
    with tempfile.TemporaryDirectory() as room:
        for turn in range(times):
            os.mkdir(folder := f"{room}/stores-{turn}")
            put(folder, mine, b"This is no store.\n")
            with contextlib.ExitStack() as ends:
                begun = [stored(folder) for _ in range(servers)]
                serving = [it for it in begun if ends.enter_context(it).printed == it.lines()]
                need(len(serving) <= 1, f"{len(serving)} servers serve the same stores")
                is_added = any([add_one(it)[0] for it in serving])
                need(is_added == bool(serving), "a server that serves adds no member")
                for it in begun:
                    log, texts = it.stop(), [text for site in range(2) for text in refusals_of(folder, site, "in use")]
                    lines = [line for line in log.splitlines(keepends=True) if line not in new_lines(folder, 2).splitlines(keepends=True)]
                    need(lines == [] if it in serving else len(lines) == 1 and lines[0] in texts, f"of {servers} first starts at once one says {log!r}")
            served += is_added
            need(read(f"{folder}/{mine}") == b"This is no store.\n", "a file of another name was changed")
            need(sorted(os.listdir(folder)) == sorted([*FILES, mine]), f"the files are {os.listdir(folder)!r}")
            starts_again(folder, is_added)
    need(served > times // 2, f"of {times} times {servers} servers one has served {served} times")
    return f"{times} times {servers} first starts at once"


def until_whole(folder, starts):
    """Waits until a site has stored a whole of each start, and no further one."""
    ends = time.monotonic() + PATIENCE
    while (wholes := sum(it[2] == WHOLE for it in rows_of(folder, 0))) != starts:
        need(time.monotonic() < ends, f"a site that starts {starts} times stores {wholes} wholes")


def opened_again(times=30):
    """A store that is opened again and again keeps its members, counts its starts, and has a whole of each."""
    with tempfile.TemporaryDirectory() as folder:
        for turn in range(times):
            with stored(folder, 1) as server:
                with server.logged_in() as client:
                    client.succeed("QueueAdd", Queue="sales", Interface=f"SIP/{turn}")
                    need(members(client.ask("QueueStatus")) == {f"SIP/{it}": 0 for it in range(turn + 1)}, "a store that is opened again has other members")
                until_whole(folder, turn + 1)
                server.stop()
        check_words(folder, 1, times)
    return f"a store that is opened {times} times"


def members_of(rows):
    """The members to which rows lead in which one site was asked for adds and removals, and no more."""
    found = set()
    for words in (it[4].split() for it in rows if it[2] == COMMAND):
        if words[0] == "QueueAdd":
            need(words[2] not in found, f"{words[2]} was added twice")
            found.add(words[2])
        if words[0] == "QueueRemove":
            need(words[2] in found, f"{words[2]} was removed and wasn't there")
            found.remove(words[2])
    return found


def change_until(server, owners, changes):
    """Clients of site 0 change members until this number of changes is answered. Then the server is killed."""
    working, started = Working(owners, lambda it: (server, 0), 0), time.monotonic()
    while sum(it.done for it in owners) < changes:
        need(time.monotonic() - started < 240 and not working.faults, f"{sum(it.done for it in owners)} changes are answered; {working.faults[:1]}")
        time.sleep(0.02)
    # The base is put within 50 ms of the row that makes it due.
    time.sleep(0.3)
    working.is_over.set()
    server.stop(signal.SIGKILL)
    working.wait()


def new_bases(keeps=False, clients=32, more=1_000):
    """Past 10,000 rows a site's store has a new base, and starts from it. A store that keeps rows has all of them then, in a second table: they
    stand one after the other, and lead to the members that are shown."""
    owners, options = [Owner(number, 0) for number in range(clients)], {"keeps": keeps}
    with tempfile.TemporaryDirectory() as folder:
        with stored(folder, 1, clients, **options) as server:
            change_until(server, owners, MOST_ROWS + more)
        done, rows, tables = sum(it.done for it in owners), rows_of(folder, 0), tables_of(folder, 0)
        need(len(rows) < MOST_ROWS, f"after {done} changes the store has {len(rows)} rows")
        need(rows[0][0] > MOST_ROWS and rows[0][4] == "base of site 0, started 1 times", f"the new base is {rows[0]!r}")
        wanted = {name: f"CREATE TABLE {name} {COLUMNS}" for name in ("step", *["kept"] * keeps)}
        need(tables == wanted, f"the store has the tables {tables!r}")
        kept = rows_of(folder, 0, "kept") if keeps else []
        if keeps:
            check_rows(kept + rows)
            need(kept[0][0] == 0 and kept[0][2] == BASE, f"the first kept row is {kept[0]!r}")
            commands = sum(it[2] == COMMAND for it in kept + rows)
            need(done <= commands <= done + clients, f"{done} changes were answered, and {commands} are kept")
        else:
            check_rows(rows)
        # A store that has begun to keep rows goes on, also where the word is left out.
        with stored(folder, 1) as server:
            check_shown(server, owners)
            server.stop()
        if keeps:
            all_rows = rows_of(folder, 0, "kept") + rows_of(folder, 0)
            need(all_rows[:len(kept)] == kept, "kept rows have changed")
            need(members_of(all_rows) == {interface for it in owners for interface in it.known}, "the rows lead to other members")
    return f"a new base: {len(rows):,} rows after {done:,} changes" + (f", {len(kept):,} rows kept" if keeps else "")


def kept_rows():
    """A store that keeps rows."""
    return new_bases(True)


def refusals_of(folder, site, *faults):
    """What a server says that can't use the store of a site."""
    return [f"queue_sites: store {folder}/site-{site}.db: {it}\n".encode() for it in faults]


def refuses(folder, site, *faults, sites=1, queues=("sales",), program=BUILT, options=(), **how):
    """A server doesn't start with the files in this folder, since the store of this site is refused. It says why, and changes nothing in the files
    of any of its sites; it may make a log without a page. Why may be one of these."""
    content_of = lambda: {name: it for number in range(sites) for name, it in files_of(folder, number).items()} if os.path.isdir(folder) else {}
    before = content_of()
    words = ["serve", "--store", folder, *options, str(sites), str(free_ports(sites)), USER, SECRET, *queues]
    how = {"preexec_fn": how.get("before"), "capture_output": True, "timeout": PATIENCE, "check": False}
    ran = subprocess.run([program, *words], **how)
    need(ran.returncode == 1 and ran.stdout == b"" and ran.stderr in refusals_of(folder, site, *faults),
         f"where a server should say {faults!r} of a store its status is {ran.returncode}, and it says {ran.stdout + ran.stderr!r}")
    after = content_of()
    content = lambda files, name: b"" if len(files.get(name, b"")) < PAGE and name.endswith("-wal") else files.get(name, b"")
    changed = [it for it in {*before, *after} if content(after, it) != content(before, it)]
    need(not changed, f"a server that says {ran.stderr!r} has changed {changed!r}")
    return ran.stderr


def made(room, members_of=3):
    """A folder with the stores of two sites, each of which has added some members. The first is site 0's alone."""
    folder = f"{room}/stores"
    os.mkdir(folder)
    with stored(folder) as server:
        for site in range(2):
            with server.logged_in(site) as client:
                for number in range(members_of):
                    client.succeed("QueueAdd", Queue="sales", Interface=f"SIP/{site}-{number}")
        until_shown(server, 0, b"ListItems: %d\r\n" % (2 * members_of + 1))
        until_shown(server, 1, b"ListItems: %d\r\n" % (2 * members_of + 1))
        stop_new(server, folder)
    return folder


def written(folder, rows):
    """A file of site 0 with these rows, which sqlite3 has written."""
    os.mkdir(folder)
    with contextlib.closing(sqlite3.connect(f"{folder}/site-0.db")) as store:
        store.execute(f"CREATE TABLE step {COLUMNS}")
        store.executemany("INSERT INTO step VALUES (?, ?, ?, ?, ?)", rows)
        store.commit()
    return folder


def put(folder, name, content):
    """A folder with one file."""
    os.makedirs(folder, exist_ok=True)
    with open(f"{folder}/{name}", "wb") as file:
        file.write(content)
    return folder


def copied(folder, room, name):
    """A copy of the stores in a folder."""
    return shutil.copytree(folder, f"{room}/{name}")


def other_files():
    """Files that aren't those of the server's sites, or aren't whole, are refused, each with its own text, and nothing is changed."""
    with tempfile.TemporaryDirectory() as room:
        folder = made(room)
        before = [rows_of(folder, site) for site in range(2)]
        refuses(f"{room}/none", 0, "cannot open")
        refuses(folder, 0, "base: another list of queues", queues=("sales", "support"))
        refuses(folder, 0, "base: another list of queues", queues=("Sales",))
        need([rows_of(folder, site) for site in range(2)] == before, "a store that was refused has other rows")
        swapped = f"{room}/swapped"
        for name, content in files_of(folder, 1).items():
            put(swapped, name.replace("site-1", "site-0"), content)
        refuses(swapped, 0, "base: another site")
        refuses(put(f"{room}/text", "site-0.db", b"This is no store.\n" * 1_000), 0, "no store")
        refuses(put(f"{room}/empty", "site-0.db", b""), 0, "no store")
        # A log without its file is no store, and a link that leads nowhere is none either: neither is made anew.
        half = put(f"{room}/log", "site-0.db-wal", files_of(folder, 0)["site-0.db-wal"])
        refuses(half, 0, "no store")
        need([*files_of(half, 0)] == ["site-0.db-wal"], "a store of which the log alone is left was made anew")
        os.mkdir(linked := f"{room}/linked")
        os.symlink(f"{room}/missing.db", f"{linked}/site-0.db")
        refuses(linked, 0, "no store")
        need(os.listdir(linked) == ["site-0.db"], f"a server that finds a link that leads nowhere leaves {os.listdir(linked)!r}")
        table = f"{room}/table"
        os.mkdir(table)
        with contextlib.closing(sqlite3.connect(f"{table}/site-0.db")) as notes:
            notes.execute("CREATE TABLE note (id INTEGER PRIMARY KEY, title TEXT)")
        refuses(table, 0, "no store")
        base = before[0][0]
        refuses(written(f"{room}/version", [(*base[:3], b"\x02" + base[3][1:], base[4])]), 0, "base: another version")
        # A row says that SIP/1 was removed, which isn't there.
        removed = bytes.fromhex("02 05 73616c6573 05 5349502f31 00")
        refuses(written(f"{room}/differs", [base, (base[0] + 1, 1, COMMAND, removed, "")]), 0, f"row {base[0] + 1} is damaged")
        refuses(written(f"{room}/gap", [base, (base[0] + 2, 0, START, b"", "start")]), 0, "a row is missing")
        # Of a file that sqlite3 has written the server goes on.
        with stored(written(f"{room}/foreign", before[0]), 1) as server:
            need(b"ListItems: 7\r\n" in shown(server), "a store that sqlite3 has written shows other members")
            server.stop_silent()
    return "files of other sites, queues and programs, of another version, with other rows"


def refused_beside_others():
    """A store that is refused leaves those before it as they were, also where they were to keep rows. One that is missing is made, and not started:
    it is new when it first starts."""
    with tempfile.TemporaryDirectory() as room:
        folder = made(room)
        mixed, half = copied(folder, room, "mixed"), f"{room}/half"
        for name, content in files_of(folder, 0).items():
            for place in mixed, half:
                put(place, name.replace("site-0", "site-1"), content)
        refuses(mixed, 1, "base: another site", sites=2)
        refuses(mixed, 1, "base: another site", sites=2, options=["--keep"])
        words = ["serve", "--store", half, "2", str(free_ports(2)), USER, SECRET, "sales"]
        check(BUILT, words, 1, errors=refusals_of(half, 1, "base: another site")[0])
        need([it[2] for it in rows_of(half, 0)] == [BASE], "a store that was made before another was refused has more than its base")
        for name in files_of(half, 1):
            os.remove(f"{half}/{name}")
        with stored(half) as server:
            stop_new(server, half)
        check_words(half, 2, 1)
    return "a store that is refused beside others"


def files_in_use():
    """A store that another process has open is refused, a server or sqlite3; and sqlite3 can't write to one that a server has open."""
    with tempfile.TemporaryDirectory() as room:
        folder = made(room)
        with stored(folder) as server:
            need(b"ListItems: 7\r\n" in shown(server, 1), "a store shows other members than before")
            words = ["serve", "--store", folder, "1", str(free_ports(1)), USER, SECRET, "sales"]
            check(BUILT, words, 1, errors=refusals_of(folder, 0, "in use")[0])
            with contextlib.closing(sqlite3.connect(f"{folder}/site-0.db", timeout=0)) as other:
                try:
                    other.execute("DELETE FROM step")
                    need(False, "sqlite3 writes to a store that a server has open")
                except sqlite3.OperationalError as why:
                    need("locked" in str(why), f"of a store that a server has open sqlite3 says {why}")
            with server.logged_in() as client:
                client.succeed("QueueAdd", Queue="sales", Interface="SIP/more")
            server.stop_silent()
        holder = "import sqlite3, sys; it = sqlite3.connect(sys.argv[1]); it.execute('BEGIN IMMEDIATE'); print(flush=True); input()"
        with subprocess.Popen([sys.executable, "-c", holder, f"{folder}/site-0.db"], stdin=subprocess.PIPE, stdout=subprocess.PIPE) as process:
            process.stdout.readline()
            check(BUILT, words, 1, errors=refusals_of(folder, 0, "in use")[0])
            process.communicate(b"\n")
        with stored(folder) as server:
            need(b"ListItems: 8\r\n" in shown(server, 1), "a store shows other members behind refused starts")
            server.stop_silent()
    return "files in use"


def damaged_files(flips=200):
    """A store whose file was cut, or in which a bit was flipped, is refused, and isn't changed."""
    lot, said = random.Random(3), {}
    with tempfile.TemporaryDirectory() as room:
        # Many changes, so that the log was copied into the file.
        path = f"{made(room, 500)}/site-0.db"
        whole = read(path)
        need(len(whole) > 4_096, f"the file of a store has {len(whole)} bytes")
        for number in range(flips):
            # The first page has the header: each tenth flip is there.
            at = lot.randrange(len(whole) if number % 10 else 100)
            damaged = whole[:at] + bytes([whole[at] ^ 1 << lot.randrange(8)]) + whole[at + 1:]
            line = refuses(put(f"{room}/flipped-{number}", "site-0.db", damaged), 0, "damaged file", "no store")
            said[line.rpartition(b": ")[2].strip().decode()] = said.get(line.rpartition(b": ")[2].strip().decode(), 0) + 1
        # SQLite takes a file of one byte for an empty one.
        for length in (len(whole) - PAGE, len(whole) - 100, PAGE, 4_000, 100, 16, 2, 1):
            refuses(put(f"{room}/cut-{length}", "site-0.db", whole[:length]), 0, "damaged file", "no store")
    return f"{flips} flipped bits ({', '.join(f'{count} {text}' for text, count in sorted(said.items()))}), and files that are cut"


def readable_members(folder):
    """The members to which the rows of a site's store lead that SQLite reads; nothing where it reads none."""
    try:
        return members_of(rows_of(folder, 0))
    except (Failed, sqlite3.DatabaseError):
        return None


def damaged_logs(flips=10, adds=30):
    """Of a log in which a bit was flipped, or that was cut, a site has the changes before that, as SQLite has them, or it is refused."""
    lot = random.Random(4)
    with tempfile.TemporaryDirectory() as room:
        folder = f"{room}/stores"
        os.mkdir(folder)
        with stored(folder, 1) as server:
            with server.logged_in() as client:
                for number in range(adds):
                    client.succeed("QueueAdd", Queue="sales", Interface=f"SIP/{number}")
            stop_new(server, folder)
        log, counts = read(f"{folder}/site-0.db-wal"), []
        for number in range(flips):
            damaged, at = copied(folder, room, f"log-{number}"), lot.randrange(len(log))
            put(damaged, "site-0.db-wal", log[:at] + bytes([log[at] ^ 1 << lot.randrange(8)]) + log[at + 1:] if number % 2 else log[:at])
            wanted = readable_members(damaged)
            server = stored(damaged, 1)
            if server.wait_until_it_listens():
                found = members(shown(server))
                # A log that is cut before the row of the first start leaves a new store.
                need(server.stop() in (b"", b"" if found else new_lines(damaged, 1)), "a server with a damaged log logs more")
                need(found == {f"SIP/{it}": 0 for it in range(len(found))}, f"of a damaged log a site has {found!r}")
                need(found.keys() == wanted, f"of a damaged log a site has {found!r}, and SQLite {wanted!r}")
                counts.append(len(found))
            else:
                errors = server.stop()
                need(server.process.returncode == 1 and errors in refusals_of(damaged, 0, "damaged file", "no store"), f"a damaged log: {errors!r}")
    return f"{flips} damaged logs, of which {len(counts)} start with {min(counts, default=0)} to {max(counts, default=0)} of {adds} changes"


def rolled_back(members_of=3):
    """A site whose store was lost, or is an older copy, answers no client: all sites end, with status 1 and a line that says why."""
    with tempfile.TemporaryDirectory() as room:
        folder = made(room, members_of)
        older, lost = copied(folder, room, "older"), copied(folder, room, "lost")
        with stored(folder) as server:
            with server.logged_in() as client:
                client.succeed("QueueAdd", Queue="sales", Interface="SIP/later")
            until_shown(server, 1, b"Location: SIP/later\r\n")
            server.stop_silent()
        for it in (older, lost):
            for site in range(2):
                if site == 1 or it == lost:
                    for name in files_of(it, site):
                        os.remove(f"{it}/{name}")
            for name, content in files_of(folder, 1).items():
                put(it, name, content)
        login = f"Action: Login\r\nUsername: {USER}\r\nSecret: {SECRET}\r\n\r\n"
        asked = f"{login}Action: QueueAdd\r\nQueue: sales\r\nInterface: SIP/new\r\n\r\n".encode()
        for it in (older, lost):
            with stored(it) as server:
                answers = b""
                with contextlib.suppress(OSError), Client(server.port) as client:
                    client.send(asked)
                    answers = client.rest()
                need(b"Added interface" not in answers, f"a site that was rolled back answers {answers!r}")
                need(server.process.wait(PATIENCE) == 1, f"a server with a site that was rolled back ends with status {server.process.returncode}")
                log = server.stop()
                line = b"queue_sites: site 0: ends: rolled back: a frame of site 1: not this site's own\n"
                need(log.count(line) == 1, f"a server with a site that was rolled back logs {log!r}")
    return "sites that were rolled back: an older copy, and a store that is lost"


def files_that_may_not_be_written():
    """A store that the server's user may only read is refused."""
    with tempfile.TemporaryDirectory() as room:
        folder, program = made(room), f"{room}/queue_sites"
        shutil.copy(BUILT, program)
        os.chmod(room, 0o755)
        os.chmod(program, 0o755)
        for it in os.listdir(folder):
            os.chmod(f"{folder}/{it}", 0o444)
        os.chmod(folder, 0o555)
        how = {"before": lambda: os.setuid(NOBODY)} if os.getuid() == 0 else {}
        refuses(folder, 0, "cannot open", program=program, **how)
        os.chmod(folder, 0o755)
    return "files that may not be written"


@contextlib.contextmanager
def small_disk(room, size):
    """A file system in memory of this size. Nothing if this process can't have one."""
    disk = f"{room}/disk-{size}"
    os.mkdir(disk)
    mount = ["mount", "-t", "tmpfs", "-o", f"size={size}", "tmpfs", disk]
    try:
        can = subprocess.run(mount, capture_output=True, check=False).returncode == 0
    except FileNotFoundError:
        can = False
    try:
        yield disk if can else None
    finally:
        if can:
            subprocess.run(["umount", disk], check=True)


def limited(size):
    """A function that a process calls before it starts a program: no file may grow past this size then, as on a full disk."""

    def limit():
        signal.signal(signal.SIGXFSZ, signal.SIG_IGN)
        resource.setrlimit(resource.RLIMIT_FSIZE, (size, size))

    return limit


def fill(server, folder, room, fault, clients=4):
    """Clients change members of a server that has begun with no store, until its disk is full: then it ends with status 1, and says why. What it
    has answered is in its files, of which there is a copy on a larger disk. Returns how many changes that were."""
    owners = [Owner(number, 0) for number in range(clients)]
    with server:
        working = Working(owners, lambda it: (server, 0), 0, may_end=True)
        working.wait()
        need(server.process.wait(PATIENCE) == 1, f"a server whose disk is full ends with status {server.process.returncode}")
        log = server.stop()
        lines = [it for it in log.splitlines(keepends=True) if b": session ended: desk down; " not in it]
        wanted = new_lines(folder, 1) + f"queue_sites: site 0: store failed: {fault}\n".encode()
        need(b"".join(lines) == wanted, f"a server whose disk is full logs {log!r}")
    need(sum(it.done for it in owners) > 20, "the disk was full at once")
    with stored(copied(folder, room, f"larger-{os.path.basename(folder)}"), 1) as larger:
        check_shown(larger, owners)
    return sum(it.done for it in owners)


def refuses_new(folder, fault, **how):
    """A server that can't write a new store doesn't start, says why, and leaves no file, also where it is started again."""
    for _ in range(2):
        refuses(folder, 0, fault, **how)
        need(os.listdir(folder) == [], f"a store that could not be made leaves {os.listdir(folder)!r}")


def full_disks():
    """A server whose disk is full says so and ends, with status 1: when it starts, or while clients change members. What it has answered is
    in its files. The same holds where its files may not grow past a size."""
    with tempfile.TemporaryDirectory() as room:
        os.mkdir(folder := f"{room}/limited")
        for size in (0, 1, 100, PAGE, PAGE + 100):
            refuses_new(folder, "disk I/O error", before=limited(size))
        done = fill(stored(folder, 1, prepare=limited(MOST_BYTES)), folder, room, "input or output failed")
        which = f"files that may not grow after {done} changes"
        with small_disk(room, "4k") as disk:
            if not disk:
                return f"{which}; no full disk, since this process can't mount a tmpfs"
            refuses_new(disk, "database or disk is full")
        with small_disk(room, "1m") as disk:
            done = fill(stored(disk, 1), disk, room, "disk full")
    return f"{which}, and a disk that was full after {done}"


def rest(server, seconds=PAUSE):
    """Waits until a server has ended, or has saved what nobody waits for and put a base that is due."""
    with contextlib.suppress(subprocess.TimeoutExpired):
        server.process.wait(seconds)


def ask_for_changes(server):
    """A client of a site asks for all changes, one after another, until the server ends. Returns when it has asked for each, in nanoseconds, and
    how many were answered."""
    asked, answered = [], 0
    with contextlib.suppress(OSError, Failed), server.logged_in() as client:
        for number, (action, fields) in enumerate(CHANGES, 1):
            if number == len(CHANGES):
                rest(server)
            asked.append(time.monotonic_ns())
            reply = client.ask(action, Queue="sales", **fields)
            # A wrong reply counts also where the server may end.
            assert reply.startswith(b"Response: Success\r\n"), f"{action} is answered {reply!r}"
            answered += 1
    return asked, answered


def reports_of(folder):
    """The reports of a site that goes on over a store, before all changes and after each."""
    with stored(folder, 1) as server, server.logged_in() as client:
        reports = [client.ask("QueueStatus")]
        for action, fields in CHANGES:
            client.succeed(action, Queue="sales", **fields)
            reports.append(client.ask("QueueStatus"))
        rest(server, 1)
    return reports


def goes_on(folder, reports):
    """A server starts with the files that one has left whose write went wrong, shows one of these reports, and takes another change."""
    with stored(folder, 1) as server:
        need(server.printed == server.lines(), "a server doesn't start again")
        found = shown(server)
        need(found in reports, f"a server that starts again shows {found!r}, and not {reports!r}")
        with server.logged_in() as client:
            client.succeed("QueueAdd", Queue="sales", Interface="SIP/later")
    need(names_in(folder) == FILES[:2], f"the files are {os.listdir(folder)!r}")
    rows = rows_of(folder, 0)
    check_rows(rows)
    check_frames(rows, 0)
    need([it[2] == BASE for it in rows] == [True, *[False] * (len(rows) - 1)], "a store doesn't have one base, in front")


class WritesOfStore:
    """Runs of a server of one site over copies of a store, or without one, in each of which a write to the store's files goes wrong: by a library
    of tools/ that is loaded before the server. The copies lie in `room`."""

    def __init__(self, room, library, name, folder):
        self.room, self.library, self.name, self.folder = room, library, name, folder
        self.is_new, self.right = os.listdir(folder) == [], copied(folder, room, f"{name}-right")
        self.reports = reports_of(self.right)
        self.calls, how = self.run("REFUSED_WRITE", 0)
        need(how == "served", f"{name}: a server has {how}")

    def run(self, what, number, lost=0):
        """Runs the server until all changes are asked for, or it has ended at the write of this number, and starts it again. Returns how many
        writes there were, and how the server has ended: `served` if it hasn't, `ended` if that was before it listened, else `failed`."""
        ran = f"{self.name}-{what}-{number}-{lost}"
        folder, counted = copied(self.folder, self.room, ran), f"{self.room}/{ran}.writes"
        server = stored(folder, 1, more={"LD_PRELOAD": self.library, what: str(number), "LOST_WRITES": str(lost), "WRITES_FILE": counted})
        try:
            has_listened = server.wait_until_it_listens()
            asked, answered = ask_for_changes(server) if has_listened else ([], 0)
            rest(server)
            calls, failed = struct.unpack("QQ", read(counted))
            if failed:
                rest(server, PATIENCE)
        finally:
            log = server.stop()
        # A save may come as late as the signal that ends the server.
        is_late = struct.unpack("QQ", read(counted))[1] != failed
        how = "served" if not failed else "failed" if has_listened else "ended"
        is_killed, status = what == "KILLED_WRITE", server.process.returncode
        try:
            if not is_late:
                self.check_end(folder, how, is_killed, status, log)
            need(how != "served" or answered == len(CHANGES), f"{answered} changes are answered")
            later = [it for it in asked[:answered] if it > failed > 0]
            need(not later, f"{len(later)} changes are answered that were asked for later")
            goes_on(folder, [self.reports[answered], self.reports[len(asked)]])
        except Failed as why:
            raise Failed(f"{ran} of {calls}, where the server has {how}: {why}") from None
        shutil.rmtree(folder)
        return calls, how

    def check_end(self, folder, how, is_killed, status, log):
        """Needs the status and the log of the server, and that it leaves no file of a store that it could not make: none, or a store that is whole."""
        new = new_lines(folder, 1) if self.is_new else b""
        fault = b"queue_sites: site 0: store failed: input or output failed\n"
        logs = {"served": [new], "failed": [new + fault], "ended": refusals_of(folder, 0, "cannot open", "disk I/O error")}[how]
        if is_killed and how != "served":
            logs = [b"", new]
        lines = b"".join(it for it in log.splitlines(keepends=True) if b": session ended: desk down; " not in it)
        need(lines in logs, f"it logs {log!r}")
        wanted = -signal.SIGTERM if how == "served" else -signal.SIGKILL if is_killed else 1
        need(status == wanted, f"its status is {status}")
        left = sorted(os.listdir(folder)) if how == "ended" and self.is_new and not is_killed else []
        need(left in ([], FILES[:1], FILES[:2]), f"it leaves {left!r} of a store that it could not make")
        need(not left or tables_of(folder, 0), "it leaves a store without a table")

    def run_each(self, threads, what, tried):
        """Runs the server for each of these writes and its value of LOST_WRITES. Returns how often it has ended before it listened, and how often
        later."""
        ends = [how for _, how in threads.map(lambda it: self.run(what, *it), tried)]
        # What nobody waits for is saved in one commit or in two, so that a run may have some writes less.
        need(ends.count("served") * 2 < len(ends), f"{self.name}, {what}: {ends.count('served')} of {len(ends)} runs have served")
        return ends.count("ended"), ends.count("failed")


def rows_beside_base(folder):
    """How many rows the store of a site has beside its base; none where there is no store."""
    return len(rows_of(folder, 0)) - 1 if os.listdir(folder) else 0


def frames_of_log(folder):
    """How many frames the log of a site's store has, which are those with the salts of the log's header; none where there is no store."""
    log = read(f"{folder}/site-0.db-wal") if os.listdir(folder) else b""
    return next((it for it in range(len(log)) if log[LOG_HEADER + it * FRAME + 8:][:8] != log[16:24]), 0)


def grown(folder, size, wanted, share, clients, at_once):
    """Lets the store of a site in a new folder grow until its size is the one that is wanted, or a little more. At each start clients ask for this
    share of what is missing as changes, each for no more at once than `at_once`."""
    os.mkdir(folder)
    while (missing := wanted - size(folder)) > 0:
        with stored(folder, 1, clients) as server, contextlib.ExitStack() as sessions:
            them = [sessions.enter_context(server.logged_in()) for _ in range(clients)]
            them[0].ask("QueueAdd", Queue="sales", Interface="SIP/0")
            changes = max(1, int(missing * share))
            while changes > 0:
                asked = []
                for it in them:
                    asked.append(min(changes, at_once))
                    it.send(asked[-1] * b"Action: QueuePause\nInterface: SIP/0\nPaused: 1\n\n")
                    changes -= asked[-1]
                replies = [it.until(b"\r\n\r\n") for it, number in zip(them, asked) for _ in range(number)]
                need(all(it.startswith(b"Response: Success\r\n") for it in replies), "a change is refused")
    return folder


@contextlib.contextmanager
def writes_of_stores():
    """What runs a server whose writes go wrong: without a store, with one that gets a new base, and with one whose log is copied into its file.
    Nothing where there is no C compiler."""
    with tempfile.TemporaryDirectory() as room:
        library = compiled_refusal(room, "refuse_write")
        if library is None:
            yield []
            return
        os.mkdir(empty := f"{room}/empty")
        # A start adds up to two rows, and a base is due behind the changes.
        many = grown(f"{room}/rows", rows_beside_base, MOST_ROWS - 6, 0.9, 16, 50)
        long = grown(f"{room}/frames", frames_of_log, LONG_LOG - 10, 0.2, 1, 1)
        runs = [WritesOfStore(room, library, name, folder) for name, folder in (("new-store", empty), ("new-base", many), ("long-log", long))]
        need(rows_of(runs[1].right, 0)[0][0] > MOST_ROWS, "a store that should get a new base doesn't")
        need(read(f"{long}/site-0.db") != read(f"{runs[2].right}/site-0.db"), "a log that should be copied isn't")
        yield runs


def writes_that_fail(step=3):
    """With each write to a store's files failing in turn, or each `step`-th, the server ends with status 1 and a line that says why, and answers no
    change that was asked for later. It is also killed at each, or at others, and its files may lose what they haven't synced then. It starts again,
    and shows what was answered, and maybe the one change that got no reply."""
    with writes_of_stores() as runs, concurrent.futures.ThreadPoolExecutor(4) as threads:
        if not runs:
            return NO_COMPILER
        parts = []
        for it in runs:
            writes = range(1, it.calls + 2)
            ended, failed = it.run_each(threads, "REFUSED_WRITE", [(number, 0) for number in writes[::step]])
            losses = lambda number: range(4) if step == 1 else [number // step % 4]
            killed = sum(it.run_each(threads, "KILLED_WRITE", [(number, lost) for number in writes[1 % step::step] for lost in losses(number)]))
            parts.append(f"{it.name}: of {it.calls} {ended} ended a start, {failed} the server, and it was killed {killed} times")
    return f"writes that fail: {'; '.join(parts)}"


def some_of(allocations, number):
    """Some of the numbers of a run's allocations, the first and the last among them. All, where `number` is nothing."""
    if number is None or allocations <= number:
        return [*range(1, allocations + 1)]
    return sorted({1 + place * (allocations - 1) // (number - 1) for place in range(number)})


def add_one(server):
    """Adds SIP/1 in a session. Returns whether a reply says that it is there, and why the session doesn't come to its end; nothing where it does."""
    is_there = False
    try:
        with server.logged_in() as it:
            reply = it.ask("QueueAdd", Queue="sales", Interface="SIP/1")
            is_there = reply.startswith(b"Response: Success\r\n") or b": Already there\r\n" in reply
            it.ask("QueueStatus")
            it.leave()
    except (OSError, Failed) as why:
        return is_there, repr(why)
    return is_there, ""


def run_adding(more, folder):
    """Runs a server of two sites with stores, with this environment, until a session or the server has ended. Returns the server, its status,
    none if it hasn't ended, and whether a reply has said that SIP/1 is there."""
    server, is_added = stored(folder, more=more), False
    try:
        if not server.wait_until_it_listens():
            server.process.wait(PATIENCE)
        ends = time.monotonic() + PATIENCE
        while True:
            is_there, why = add_one(server)
            is_added = is_added or is_there
            # A client that connects at the moment in which the server ends may never learn that, so whether the server has ended is checked
            # after it.
            if not why or server.process.poll() is not None:
                return server, server.process.poll(), is_added
            need(time.monotonic() < ends, f"a server with {more} neither ends nor serves a client: {why}")
            time.sleep(0.02)
    except BaseException:
        server.stop()
        raise


def starts_again(folder, is_added=False):
    """A server of two sites that has ended starts again with the files that it leaves, and has SIP/1 if a reply has said so."""
    with stored(folder) as server:
        need(server.printed == server.lines(), "a server doesn't start again")
        for site in range(2) if is_added else []:
            until_shown(server, site, b"Location: SIP/1\r\n", CAUGHT_UP)
        shown(server)
        need(names_in(folder) == FILES, f"the files are {os.listdir(folder)!r}")
        server.stop()


def end_refused(room, library, number):
    """Runs a server of two sites with stores, with an allocation refused, and starts it again. Returns how many allocations it has made, and how
    it has ended: `served` if it hasn't."""
    os.mkdir(folder := f"{room}/stores-{number}")
    counted = f"{room}/allocations-{number}"
    more = {"LD_PRELOAD": library, "REFUSED_ALLOCATION": str(number), "ALLOCATIONS_FILE": counted}
    server, status, is_added = run_adding(more, folder)
    log = server.stop()
    texts = [b"queue_sites: out of memory\n", b"queue_sites: no thread\n", *refusals_of(folder, 0, "out of memory"), *refusals_of(folder, 1, "out of memory")]
    lines = [it for it in log.splitlines(keepends=True) if it not in new_lines(folder, 2).splitlines(keepends=True)]
    others = [it for it in lines if not LOGGED_OUT_OF_MEMORY.fullmatch(it.strip())]
    how = "served" if status is None else "failed" if any(b": store failed: " in it for it in lines) else "ended"
    is_right = {
        "served": not others,
        "failed": status == 1 and len(others) == 1 and b": store failed: " in others[0],
        "ended": status == 1 and len(others) == 1 and others[0] in texts,
    }
    need(is_right[how], f"where allocation {number} is refused a server has {how}, its status is {status}, and it logs {log!r}")
    need(is_added or how != "served", f"where allocation {number} is refused a server that serves on doesn't add a member")
    try:
        starts_again(folder, is_added)
    except Failed as why:
        raise Failed(f"where allocation {number} was refused, and the server has {how}: {why}") from None
    shutil.rmtree(folder)
    return int(read(counted)), how


def refused_allocations(number=SOME_ALLOCATIONS):
    """With each allocation of a run with stores refused in turn, or some, the server ends with status 1 and a text before it serves a client, or
    with a line that says that its store has failed, or serves on. It starts again with the files that it leaves, and has what it has
    answered."""
    with tempfile.TemporaryDirectory() as room, concurrent.futures.ThreadPoolExecutor(4) as threads:
        library = compiled_refusal(room)
        if library is None:
            return NO_COMPILER
        allocations, _ = end_refused(room, library, 0)
        # Most are made while stores are opened; the last ones while clients are served.
        last = range(max(1, allocations - 200), allocations + 1, 5)
        tried = sorted({*some_of(allocations, number), *last}) if number else some_of(allocations, None)
        ends = [how for _, how in threads.map(lambda it: end_refused(room, library, it), tried)]
    which = "each" if len(tried) == allocations else f"{len(tried)}"
    return (f"{which} of the {allocations} allocations of a run with stores refused: {ends.count('ended')} ended it, {ends.count('failed')} failed its "
            f"store, the others let it serve on")


TESTS = [greets_with_stores, kills, killed_first_starts, first_starts_at_once, opened_again, new_bases, kept_rows, other_files,
         refused_beside_others, files_in_use, damaged_files, damaged_logs, rolled_back, files_that_may_not_be_written, full_disks, writes_that_fail,
         refused_allocations]
# What `all` changes.
LONGER = {kills: lambda: kills(100), killed_first_starts: lambda: killed_first_starts(200), writes_that_fail: lambda: writes_that_fail(1),
          refused_allocations: lambda: refused_allocations(None)}


def run_all(tests=None, longer=False):
    """Runs all tests, or these. Returns lines that report what was run."""
    return [(LONGER.get(it, it) if longer else it)() for it in tests or TESTS]


def main(words, tests, run):
    """Runs the tests that words name, each with its time."""
    named = {it.__name__: it for it in tests}
    names = [it for it in words if it != "all"]
    if any(it not in named for it in names):
        sys.exit(f"test: the tests are {' '.join(named)}")
    for it in names or named:
        started = time.monotonic()
        try:
            line = run([named[it]], "all" in words)[0]
        except Failed as why:
            sys.exit(f"test: {it}: {why}")
        print(f"{time.monotonic() - started:6.1f} s  {it}: {line}", flush=True)


if __name__ == "__main__":
    main(sys.argv[1:], TESTS, run_all)
