"""Runs `queue_sites site`: sites in processes of their own, over links that a proxy stops, delays, throttles, alters and cuts, and other
programs that connect to a site's links, one of which speaks the protocol of docs/links.md.

    python3 -B tools/site_link_tests.py [all] [NAME..]

`all`: every allocation of a run is refused, where `./test` refuses some, and an item is waited for that is never whole. NAME: these tests
alone."""
import concurrent.futures
import contextlib
import hashlib
import hmac
import os
import random
import re
import select
import signal
import socket
import struct
import subprocess
import sys
import tempfile
import threading
import time

from program_tests import NO_COMPILER, Failed, check, compiled_refusal, read
from server_tests import (
    BUILT, GREETING, LITTLE, PATIENCE, SECRET, TRIES, USER, Client, Server, free_ports, has_ipv6, need, shown,
)
from store_tests import (
    MOST_BYTES, SOME_ALLOCATIONS, Owner, Working, check_words, limited, main, members, small_disk, some_of, tables_of,
)

# The secret that all sites share, and how long sites may take: to show the same, after links are healed, by way of another site, and
# after a start; and to refuse.
SHARED = "correct horse battery staple 123"
EQUAL, HEALED, RELAYED, RESTARTED, REFUSED = 2, 5, 5, 3, 1
# How long a site waits before it dials again where nobody listens, at most; how long a peer may be silent; and within what time one that
# acknowledges nothing is given up by a site that looks for that about once a second.
PAUSE, SILENT, GIVEN_UP = 2.25, 4, 6
# How many bytes a second a slow line carries; how many are under way at most, and wait for a peer; and how many seconds news may take beside
# those that carry them.
SLOW, WINDOW, BOX, NEWS = 30_000, 262_144, 1_048_576, 6
QUEUES = ("sales", "support")
# Why a site ends of whose number others have frames that it hasn't made.
NOT_MINE = "rolled back: another site has frames under this site's number that this site has not made"
COPIED = "the store was copied: another process has this start of it"
CONFLICT = "other sites have other values under numbers of changes that this site knows"
# How a connection is ended with a reset.
RESET = struct.pack("ii", 1, 0)
# The bytes of a beat with its tag.
BEAT = 20
# The file that leaves little room on a disk.
BALLAST = "ballast"
# How many clients `site` answers at once, where it isn't said.
PLACES = 16
# What a site may log where an allocation is refused.
LACKS = re.compile(rb"queue_sites: (\d+ log lines dropped|site \d+: (no (connection|link): .+|no link from .+|link (to|from) .+|"
                   rb"behind site \d+ at .+|caught up with site \d+ at .+|client \S+: (connection not prepared: .+|waits for a place|"
                   rb"session ended: (out of memory|desk down); its last command may have been done)))")


class Site(Server):
    """A running site. `peers` are the ports, or the addresses and ports, at which it finds other sites. `host` is where it listens. `prepare`
    runs in its process before the program."""

    def __init__(self, room, number, links, peers=(), store=None, queues=QUEUES, shared=SHARED, options=(), more=None, host="127.0.0.1", port=None,
                 prepare=None):
        self.sites, self.address, self.user, self.secret, self.host = 1, host.strip("[]"), USER, SECRET, host
        self.number, self.links, self.port = number, links, port or free_ports(1)
        for name, text in ((f"secret-{number}", SECRET), (f"shared-{number}", shared)):
            with open(f"{room}/{name}", "w", encoding="ascii") as file:
                file.write(f"{text}\n")
        kept = ["--store", store] if store else ["--volatile"]
        words = [*self.before(), BUILT, "site", str(number), USER, *queues, "--secret-file", f"{room}/secret-{number}", "--link-secret-file",
                 f"{room}/shared-{number}", *kept, "--clients", f"{host}:{self.port}", "--links", f"{host}:{links}", *options]
        for peer in peers:
            words += ["--peer", f"127.0.0.1:{peer}" if isinstance(peer, int) else peer]
        how = {"stdin": subprocess.DEVNULL, "stdout": subprocess.PIPE, "stderr": subprocess.PIPE}
        self.process = subprocess.Popen(words, env={**os.environ, **(more or {})}, preexec_fn=prepare, **how)
        self.printed, self.logged, self.listens = b"", b"", None

    def before(self):
        """Words before those of the program."""
        return []

    def lines(self):
        host = self.host.encode()
        return b"listening clients %b:%d\nlistening links %b:%d\n" % (host, self.port, host, self.links)

    def wait_until_it_listens(self):
        listens = super().wait_until_it_listens()
        self.listens = self.listens or time.monotonic()
        return listens

    def add(self, *interfaces, queue="sales"):
        with self.logged_in() as client:
            for it in interfaces:
                client.succeed("QueueAdd", Queue=queue, Interface=it)

    def shows(self, interface, seconds, since=None):
        """Needs that its status has this member within some seconds since this time or since the call. Returns how long that took."""
        since = since or time.monotonic()
        while True:
            found = members(shown(self))
            taken = time.monotonic() - since
            need(taken < seconds, f"after {taken:.1f} of {seconds:.1f} s site {self.number} shows {interface}: {interface in found}")
            if interface in found:
                return taken
            # Long reports, asked for without a pause, slow the proxies down, which share this process.
            time.sleep(0.02)

    def line_of(self, text):
        """A line of the log: `queue_sites: site N: ` and this text, in which `ADDRESS` is any address and port, and `REASON` any text."""
        escaped = re.escape(f"queue_sites: site {self.number}: {text}\n")
        return re.compile(escaped.replace("ADDRESS", r"\S+").replace("REASON", r"[^\n]+").encode())

    def read_some(self):
        """Reads of the log what is there, or comes soon."""
        if select.select([self.process.stderr], [], [], 0.02)[0]:
            self.logged += os.read(self.process.stderr.fileno(), 65_536)

    def logs(self, text, seconds=PATIENCE, since=None):
        """Needs a line in the log (`line_of`), once, and within some seconds since this time or since the call. Returns how long that took."""
        since, line = since or time.monotonic(), self.line_of(text)
        while not line.search(self.logged):
            need(time.monotonic() < since + seconds, f"site {self.number} doesn't log {text!r} within {seconds:.1f} s, but {self.logged!r}")
            self.read_some()
        taken = time.monotonic() - since
        need(taken < seconds, f"site {self.number} logs {text!r} only after {taken:.2f} s")
        need(len(line.findall(self.logged)) == 1, f"site {self.number} logs {text!r} more than once: {self.logged!r}")
        return taken

    def logs_only(self, *texts, seconds=PATIENCE, since=None):
        """Needs just these lines in the log behind those that were forgotten (`line_of`), in any order, all within some seconds since this time or
        since the call. Then it forgets them: a line that comes late is found by the next call. Returns how long that took."""
        since = since or time.monotonic()
        while self.logged.count(b"\n") < len(texts):
            need(time.monotonic() < since + seconds, f"site {self.number} doesn't log {texts!r} within {seconds:.1f} s, but {self.logged!r}")
            self.read_some()
        taken, lines = time.monotonic() - since, self.log_so_far().splitlines(keepends=True)
        need(taken < seconds, f"site {self.number} logs {texts!r} only after {taken:.2f} s")
        for text in texts:
            found = next(filter(self.line_of(text).fullmatch, lines), None)
            need(found, f"site {self.number} doesn't log {text!r}, but {self.logged!r}")
            lines.remove(found)
        need(not lines, f"site {self.number} logs {lines!r} beside {texts!r}")
        self.logged = b""
        return taken

    def logs_nothing(self, seconds=0.3):
        """Needs no line in the log for a while, behind those that were forgotten."""
        time.sleep(seconds)
        self.logs_only()

    def log_so_far(self):
        """What was logged so far."""
        while select.select([self.process.stderr], [], [], 0)[0] and (piece := os.read(self.process.stderr.fileno(), 65_536)):
            self.logged += piece
        return self.logged

    def forget_log(self):
        """Forgets what was logged so far."""
        self.log_so_far()
        self.logged = b""


class Proxy:
    """A port that leads to another one. Its connections can be cut, at once or after some bytes more (`left`); be silent, so that all bytes are
    dropped, and no end is passed on; delay each piece; or be so slow that not more than `rate` bytes a second go forth. `meddle` and
    `meddle_back` may alter the next item that goes forth, or the next acknowledgement: a function of it with its tag, which returns what goes in
    its place, or nothing if it waits for another one. Then both go whole (`goes_whole`). `done` is when that was done, and `meddled` when it could
    be seen first: where bytes are left out, or missing behind a length that is altered, at the next item that goes this way (`waits_forth`)."""

    def __init__(self, target):
        self.target, self.is_up, self.is_silent, self.delay, self.rate, self.left = target, True, False, 0, None, None
        self.meddle = self.meddle_back = self.done = self.meddled = self.waits_forth = None
        self.carried, self.goes_whole = 0, False
        self.listener = socket.create_server(("127.0.0.1", 0))
        self.port, self.pairs, self.lock = self.listener.getsockname()[1], [], threading.Lock()
        threading.Thread(target=self.accept, daemon=True).start()

    def accept(self):
        while True:
            try:
                came, _ = self.listener.accept()
            except OSError:
                return
            if not self.is_up:
                reset(came)
                continue
            try:
                goes = socket.create_connection(("127.0.0.1", self.target), 5)
            except OSError:
                reset(came)
                continue
            for it in (came, goes):
                it.setsockopt(socket.IPPROTO_TCP, socket.TCP_NODELAY, 1)
            with self.lock:
                self.pairs.append((came, goes))
            for one, other in ((came, goes), (goes, came)):
                threading.Thread(target=self.carry, args=(one, other, one is came), daemon=True).start()

    def altered(self, item, is_forth):
        """What goes in the place of an item or an acknowledgement."""
        name = "meddle" if is_forth else "meddle_back"
        function = getattr(self, name)
        changed = function(item) if function else None
        if self.waits_forth == is_forth:
            self.meddled, self.waits_forth = time.monotonic(), None
        if changed is None:
            return item
        self.done = self.done or time.monotonic()
        if not getattr(function, "goes_on", False):
            setattr(self, name, None)
            if changed and (not is_forth or changed[:4] <= item[:4]):
                self.meddled = time.monotonic()
            else:
                self.waits_forth = is_forth
        return changed

    def whole(self, held, is_forth):
        """What goes now of these bytes, and those that wait until they are whole."""
        goes = b""
        while True:
            # After both hellos: 37 and 106 bytes forth, 142 and 33 back.
            size = 4 + int.from_bytes(held[:4], "big") + 16 if is_forth else 24
            if len(held) < 4 or len(held) < size:
                return goes, held
            goes, held = goes + self.altered(held[:size], is_forth), held[size:]

    def carry(self, one, other, is_forth):
        """Copies bytes from one connection to the other."""
        hello, held, due = 143 if is_forth else 175, b"", 0
        with contextlib.suppress(OSError):
            while True:
                piece = one.recv(1_024 if self.rate else 65_536)
                if not piece:
                    break
                if self.delay:
                    time.sleep(self.delay)
                if self.rate and is_forth:
                    # A late wake is made up for, so that the line is no slower than it says.
                    due = max(due, time.monotonic() - 0.2) + len(piece) / self.rate
                    time.sleep(max(0, due - time.monotonic()))
                self.carried += len(piece) if is_forth else 0
                if self.goes_whole and not hello:
                    piece, held = self.whole(held + piece, is_forth)
                elif self.goes_whole:
                    count = min(hello, len(piece))
                    hello -= count
                    rest, held = self.whole(piece[count:], is_forth) if not hello else (b"", b"")
                    piece = piece[:count] + rest
                if self.left is not None and is_forth:
                    # Only some more bytes go, and then the connection is cut.
                    piece, self.left = piece[:self.left], max(0, self.left - len(piece))
                    other.sendall(piece)
                    if not self.left:
                        self.left = None
                        break
                    continue
                if not self.is_silent:
                    other.sendall(piece)
        while self.is_silent and self.is_up:
            time.sleep(0.01)
        reset(one)
        reset(other)

    def stop(self):
        """No connection goes through until it is started again."""
        self.is_up = False
        self.cut()

    def start(self):
        self.is_up = True

    def cut(self):
        """Ends all connections."""
        with self.lock:
            pairs, self.pairs = self.pairs, []
        for it in (it for pair in pairs for it in pair):
            reset(it)

    def close(self):
        self.listener.close()
        self.stop()


def reset(connection):
    """Breaks a connection off, and wakes who reads from it."""
    with contextlib.suppress(OSError):
        connection.setsockopt(socket.SOL_SOCKET, socket.SO_LINGER, RESET)
        connection.shutdown(socket.SHUT_RDWR)
    connection.close()


class Mesh:
    """Sites that are linked by proxies: `pairs` are those of sites that know of each other. `others` are ports of further peers of each site."""

    def __init__(self, room, sites=3, pairs=None, stores=False, others=(), **how):
        self.room, self.others, self.how = room, others, how
        self.pairs = pairs or [(one, other) for one in range(sites) for other in range(sites) if one < other]
        self.links, self.sites = [free_ports(1) for _ in range(sites)], {}
        self.proxies = {way: Proxy(self.links[way[1]]) for one, other in self.pairs for way in ((one, other), (other, one))}
        self.stores = {site: f"{room}/site-{site}.db" if stores else None for site in range(sites)}

    def __enter__(self):
        for site in range(len(self.links)):
            self.start(site)
        return self

    def __exit__(self, *_):
        for it in self.proxies.values():
            it.close()
        for it in self.sites.values():
            it.stop()

    def start(self, site, **more):
        peers = [proxy.port for (one, _), proxy in self.proxies.items() if one == site]
        self.sites[site] = Site(self.room, site, self.links[site], [*peers, *self.others], self.stores[site], **self.how, **more)
        self.sites[site].wait_until_it_listens()
        return self.sites[site]

    def restart(self, site, number, seconds=RESTARTED):
        """Starts a site. Needs that all show this number of members, and the same, within some seconds since the start has begun."""
        started = time.monotonic()
        self.start(site)
        return self.until_equal(number, seconds, started)

    def stop(self):
        for it in self.proxies.values():
            it.stop()

    def heal(self):
        for it in self.proxies.values():
            it.start()

    def until_linked(self):
        """Needs that each site logs, once and soon, that its links are up, to and from those that it knows of. Then it forgets the logs."""
        for one, other in self.proxies:
            self.sites[one].logs(f"link to site {other} at ADDRESS: up", HEALED)
            self.sites[other].logs(f"link from site {one} at ADDRESS: up", HEALED)
        for it in self.sites.values():
            it.forget_log()

    def until_equal(self, number, seconds, started=None):
        """Needs that each site shows this number of members, and all show the same, within some seconds since this time or since the call.
        Returns how long that took."""
        started = started or time.monotonic()
        while True:
            reports = {shown(it) for it in self.sites.values()}
            taken, counts = time.monotonic() - started, [len(members(it)) for it in reports]
            need(taken < seconds, f"after {taken:.1f} of {seconds:.1f} seconds sites show {counts} members; all should show the same {number}")
            if counts == [number]:
                return taken
            time.sleep(0.02)


def own_members(site, number):
    return [f"SIP/{site}-{member}" for member in range(number)]


def until_it_rests(site):
    """Waits until a site needs little processor time in a second."""
    ends = time.monotonic() + PATIENCE
    while True:
        before = site.seconds()
        time.sleep(1)
        taken = site.seconds() - before
        if taken < LITTLE / 2:
            return
        need(time.monotonic() < ends, f"site {site.number} takes {taken:.2f} seconds of processor time in one in which nobody asks")


def three_sites():
    """Three sites show the same soon after an add at each, each logs its links, and idle sites rest."""
    with tempfile.TemporaryDirectory() as room, Mesh(room) as mesh:
        for number, it in mesh.sites.items():
            it.add(f"SIP/{number}")
        seconds = mesh.until_equal(3, EQUAL)
        for it in mesh.sites.values():
            # Sites that are equal send wholes until they have seen that.
            until_it_rests(it)
        for number, it in mesh.sites.items():
            for peer in set(mesh.sites) - {number}:
                it.logs(f"link to site {peer} at 127.0.0.1:{mesh.proxies[number, peer].port}: up")
                it.logs(f"link from site {peer} at ADDRESS: up")
    return f"three sites, equal after {seconds:.1f} s"


def links_that_are_down(adds=20):
    """Sites whose links are all down answer their clients, and show the same soon after the links are healed: if connections are refused,
    and if they are silent."""
    times = []
    with tempfile.TemporaryDirectory() as room, Mesh(room) as mesh:
        mesh.sites[0].add("SIP/first")
        mesh.until_equal(1, EQUAL)
        mesh.until_linked()
        mesh.stop()
        for number, it in mesh.sites.items():
            it.add(*own_members(number, adds))
            need(len(members(shown(it))) == adds + 1, "a site whose links are down shows other members than its own")
        mesh.heal()
        times.append(mesh.until_equal(3 * adds + 1, HEALED))
        mesh.until_linked()
        for it in mesh.proxies.values():
            it.is_silent = True
        silent = time.monotonic()
        mesh.sites[1].add("SIP/silent")
        for peer in (0, 2):
            mesh.sites[1].logs(f"link to 127.0.0.1:{mesh.proxies[1, peer].port}: down: no reply for 4 s", GIVEN_UP, silent)
        for it in mesh.proxies.values():
            it.is_silent = False
            it.cut()
        times.append(mesh.until_equal(3 * adds + 2, HEALED))
    return f"links that are down: equal {times[0]:.1f} and {times[1]:.1f} s after they are healed"


def sites_without_room(counts=(9_000, 8_000), removed=2_000):
    """Two linked sites, neither of which has room for all members of the other, log once that they are behind, take the member that is added once
    they are linked, and show the same soon after room was made. Their wholes have more bytes than may be under way."""
    with tempfile.TemporaryDirectory() as room, Mesh(room, 2) as mesh:
        mesh.until_linked()
        mesh.stop()
        for number, it in mesh.sites.items():
            it.add(*own_members(number, counts[number]))
            it.forget_log()
        mesh.heal()
        for number, it in mesh.sites.items():
            it.logs(f"behind site {1 - number} at ADDRESS: REASON", HEALED)
        for number, it in mesh.sites.items():
            it.add(f"SIP/linked-{number}")
        for number, it in mesh.sites.items():
            it.shows(f"SIP/linked-{1 - number}", EQUAL)
            found = len(members(shown(it)))
            need(found == counts[number] + 2, f"a site that is behind shows {found} members")
        with mesh.sites[0].logged_in() as client:
            for it in own_members(0, removed):
                client.succeed("QueueRemove", Queue="sales", Interface=it)
        # A site that is behind asks for a whole each 5 seconds, and has caught up 5 seconds later.
        seconds = mesh.until_equal(sum(counts) - removed + 2, PATIENCE)
        for number, it in mesh.sites.items():
            it.logs(f"caught up with site {1 - number} at ADDRESS", PATIENCE)
    return f"linked sites of {counts[0]:,} and {counts[1]:,} members, equal {seconds:.1f} s after room was made"


def only_by_another():
    """If two sites are linked only by a third one, each shows what the other adds."""
    with tempfile.TemporaryDirectory() as room, Mesh(room, pairs=[(0, 1), (1, 2)]) as mesh:
        mesh.sites[0].add("SIP/0")
        seconds = mesh.until_equal(1, RELAYED)
        mesh.sites[2].add("SIP/2")
        mesh.until_equal(2, RELAYED)
    return f"sites that are linked by another: equal after {seconds:.1f} s"


def slow_lines(adds=400):
    """Over lines that delay each piece, carry 30,000 bytes a second, and are cut in the middle of frames, sites come to show the same."""
    lot = random.Random(5)
    with tempfile.TemporaryDirectory() as room, Mesh(room) as mesh:
        for number, it in enumerate(mesh.proxies.values()):
            it.delay, it.rate = (0.05, None) if number % 2 else (0, SLOW)
        for number, it in mesh.sites.items():
            it.add(*own_members(number, adds // 4))
        for turn in range(8):
            it = lot.choice([*mesh.proxies.values()])
            it.left = lot.randrange(1, 400)
            mesh.sites[0].add(f"SIP/cut-{turn}")
        started = time.monotonic()
        shown(mesh.sites[0])
        need(time.monotonic() - started < 2, "a site whose lines are slow answers late")
        seconds = mesh.until_equal(3 * (adds // 4) + 8, PATIENCE, started)
    return f"slow lines that are cut within frames: equal after {seconds:.1f} s"


class Pauses:
    """Pauses of members of a site, each in all queues and for another reason of 80 bytes: how long the slowest reply took, and how many took more
    than 50 ms; and the bytes of a frame that says one, and of one that says all that the site knows (docs/frames.md)."""

    def __init__(self, site, queues, number):
        self.site, self.names, self.done, self.slowest, self.late = site, own_members(site.number, number), 0, 0, 0
        # A dot, a queue, an interface and the flags; behind them a pause, and in a whole a penalty and a label without texts too.
        cells = [13 + len(it) + 11 + 80 for it in self.names]
        self.frame, self.whole = 45 + queues * max(cells), 45 + queues * sum(it + 13 + 11 for it in cells)

    def add_members(self, queues):
        for it in queues:
            self.site.add(*self.names, queue=it)

    def reason(self):
        """The reason of the last pause."""
        return f"{self.done:080}"

    def ask(self, client):
        self.done += 1
        started = time.monotonic()
        client.succeed("QueuePause", Interface=self.names[self.done % len(self.names)], Paused="yes", Reason=self.reason())
        taken = time.monotonic() - started
        self.slowest, self.late = max(self.slowest, taken), self.late + (taken > 0.05)


def news_over_a_slow_line(number=12, queues=16, behind=10, wholes=1):
    """A line that carries 30,000 bytes a second shows news soon, and stays up, though a site has changed far more than the line can carry: what
    is under way is at most the window, and what the site knows takes the place of what waits. News comes behind both, and `behind` frames; where
    `wholes` are 2, all that the site knows is longer than the window, and may fill it too, to its end."""
    names = [f"queue-{it}" for it in range(queues)]
    with tempfile.TemporaryDirectory() as room, Mesh(room, 2, queues=names) as mesh:
        (first, second), line, pauses = mesh.sites.values(), mesh.proxies[0, 1], Pauses(mesh.sites[0], queues, number)
        need((pauses.whole > WINDOW) == (wholes > 1), f"all that a site knows are {pauses.whole:,} bytes")
        pauses.add_members(names)
        mesh.until_equal(number, EQUAL)
        mesh.until_linked()
        for it in mesh.proxies.values():
            it.rate = SLOW
        carried = line.carried
        with first.logged_in() as client:
            # Until what was carried, the window and the box don't hold all frames, which have tags behind them but in the box.
            while pauses.done < (line.carried - carried + WINDOW) / (pauses.frame + 16) + BOX / pauses.frame + behind:
                pauses.ask(client)
        first.add("SIP/news", queue=names[0])
        started, within = time.monotonic(), (WINDOW + wholes * pauses.whole) / SLOW + NEWS
        seconds, carried = second.shows("SIP/news", within, started), line.carried - carried
        need(pauses.slowest < 2, f"beside a slow line an ask takes {pauses.slowest:.3f} s")
        for it in mesh.proxies.values():
            it.rate = None
        mesh.until_equal(number + 1, HEALED)
        for it in mesh.sites.values():
            it.logs_only()
    return (f"news over a line of {SLOW:,} bytes a second after {pauses.done:,} changes of {pauses.frame:,} bytes, and a whole of {pauses.whole:,}: "
            f"shown {seconds:.1f} s after the reply, of {within:.1f}; {carried:,} bytes")


def news_behind_a_long_whole():
    """News comes over such a line also behind wholes that are longer than the window."""
    return news_over_a_slow_line(160, wholes=2)


def restarts(times=4, clients=12):
    """A site with a store is killed while clients change members at all sites, and starts again: what was answered is there, soon at all
    sites."""
    lot, owners, slowest = random.Random(2), [Owner(number, number % 3) for number in range(clients)], 0
    with tempfile.TemporaryDirectory() as room, Mesh(room, stores=True) as mesh:
        place_of = lambda it: (mesh.sites[it.site], 0)
        for turn in range(times):
            killed = turn % 3
            dying = Working([it for it in owners if it.site == killed], place_of, turn * clients)
            others = Working([it for it in owners if it.site != killed], place_of, turn * clients)
            time.sleep(lot.uniform(0.1, 0.5))
            dying.is_over.set()
            mesh.sites[killed].stop(signal.SIGKILL)
            started = time.monotonic()
            mesh.start(killed)
            dying.wait()
            others.is_done.set()
            others.wait()
            for it in owners:
                it.check(members(shown(mesh.sites[it.site])))
            wanted = {interface: penalty for it in owners for interface, penalty in it.known.items()}
            slowest = max(slowest, mesh.until_equal(len(wanted), RESTARTED, started))
            need(members(shown(mesh.sites[0])) == wanted, "sites show the same members otherwise")
    return f"{times} kills of linked sites among {sum(it.done for it in owners):,} changes: equal {slowest:.1f} s after a start has begun, at most"


class Peer:
    """An end of a link that this program speaks itself, as the site of this number. What it is refused for is `verdict`, 0 for nothing. `began` is
    when the site was dialed."""

    began = None

    def __init__(self, connection, number, is_dialer=True, shared=SHARED, queues=QUEUES, store=None, starts=1, process=None, version=2):
        self.socket, self.number, self.counter, self.is_dialer = connection, number, 0, is_dialer
        self.socket.settimeout(PATIENCE)
        self.key = hashlib.sha256(shared.encode()).digest()
        digest = hashlib.sha256(b"".join(bytes([len(it)]) + it.encode() for it in queues)).digest()
        store = store or os.urandom(16)
        card = bytes([number]) + store + starts.to_bytes(8, "big") + (process or store) + digest
        nonce = os.urandom(32)
        self.send(b"QSLK" + bytes([version]) + nonce)
        self.meet_acceptor(nonce, card) if is_dialer else self.meet_dialer(nonce, card)

    def code(self, label, *parts):
        return hmac.new(self.key, b"queue sites link 2, " + label + b"".join(parts), hashlib.sha256).digest()

    def send(self, given):
        self.socket.sendall(given)

    def read(self, number):
        """The next bytes. Fewer if the connection ends."""
        read = b""
        with contextlib.suppress(ConnectionError):
            while len(read) < number and (piece := self.socket.recv(number - len(read))):
                read += piece
        return read

    def meet_acceptor(self, nonce, card):
        came = self.read(5 + 32 + 73 + 32)
        their_nonce, their_card, code = came[5:37], came[37:110], came[110:]
        if self.code(b"accepts", nonce, their_nonce, their_card) != code:
            # It has another secret, and would refuse this one.
            their_card = their_card or bytes(73)
        both = nonce + their_nonce + their_card + card
        self.send(b"\0" + card + self.code(b"dials", both, b"\0"))
        answer = self.read(33)
        self.verdict = answer[0] if answer else None
        self.items, self.acks = self.code(b"items", both), self.code(b"acknowledgements", both)
        if self.verdict == 0:
            need(answer[1:] == self.code(b"verdict", both, b"\0"), "a site that accepts gives a wrong code for its verdict")

    def meet_dialer(self, nonce, card):
        their_nonce = self.read(37)[5:]
        self.send(card + self.code(b"accepts", their_nonce, nonce, card))
        came = self.read(1 + 73 + 32)
        self.verdict, both = came[0] if came else None, their_nonce + nonce + card + came[1:74]
        if self.verdict == 0:
            need(came[74:] == self.code(b"dials", both, b"\0"), "a site that dials gives a wrong code")
            self.send(b"\0" + self.code(b"verdict", both, b"\0"))
        self.items, self.acks = self.code(b"items", both), self.code(b"acknowledgements", both)

    def item(self):
        """The next item, with its tag, of a peer that was dialed."""
        length = self.read(4)
        return length + self.read(int.from_bytes(length, "big") + 16)

    def tagged(self, item):
        """An item with its tag."""
        tag = hmac.new(self.items, self.counter.to_bytes(8, "big") + item, hashlib.sha256).digest()[:16]
        self.counter += 1
        return item + tag

    def acknowledgement(self, number):
        """An acknowledgement with its tag, of a peer that was dialed."""
        item = number.to_bytes(8, "big")
        tag = hmac.new(self.acks, self.counter.to_bytes(8, "big") + item, hashlib.sha256).digest()[:16]
        self.counter += 1
        return item + tag

    def is_closed(self):
        """Whether the site ends the connection within a second, whatever it writes before."""
        ends = time.monotonic() + REFUSED
        try:
            while (left := ends - time.monotonic()) > 0:
                self.socket.settimeout(left)
                if not self.socket.recv(65_536):
                    return True
        except ConnectionError:
            return True
        except TimeoutError:
            pass
        return False


def dialed(site, number, within=REFUSED, **how):
    """A peer that has dialed a site, and has its verdict soon."""
    began = time.monotonic()
    connection = socket.create_connection(("127.0.0.1", site.links), PATIENCE)
    connection.setsockopt(socket.IPPROTO_TCP, socket.TCP_NODELAY, 1)
    peer = Peer(connection, number, **how)
    peer.began, taken = began, time.monotonic() - began
    need(taken < within, f"a verdict comes {taken:.2f} s after a site was dialed")
    return peer


def frame_of(maker, number, interface, dot_site=None, count=1):
    """A frame of a site in which it has added a member to the first queue, as docs/frames.md has it: the dot is of this site, or of another."""
    site = maker if dot_site is None else dot_site
    dot, stamp = struct.pack(">BQ", site, count), struct.pack(">QB", count, site)
    name = interface.encode()
    cell = dot + struct.pack(">HB", 0, len(name)) + name + b"\x07" + stamp + bytes(4) + stamp + bytes(2) + stamp + bytes(2)
    runs, cells = struct.pack(">I", 1) + dot + struct.pack(">Q", count), struct.pack(">I", 1) + cell
    body = b"QD\x02" + struct.pack(">BQ", maker, number) + runs + cells + bytes(4)
    return struct.pack(">I", len(body)) + body


def alone(room, **how):
    """A site that knows of no other."""
    site = Site(room, 0, free_ports(1), **how)
    site.wait_until_it_listens()
    return site


def a_peer_of_another_program():
    """A site takes the frames of another program that speaks its protocol, and says how many bytes it has taken."""
    with tempfile.TemporaryDirectory() as room, alone(room) as site:
        peer = dialed(site, 7)
        need(peer.verdict == 0, f"a site refuses a peer by {peer.verdict}")
        item = peer.tagged(frame_of(7, 1, "SIP/7"))
        peer.send(item)
        site.shows("SIP/7", 1)
        sizes = [len(item)]
        while not select.select([peer.socket], [], [], 0.3)[0]:
            peer.send(peer.tagged(bytes(4)))
            sizes.append(sizes[-1] + 20)
            need(len(sizes) < 20, "a site acknowledges nothing")
        ack = peer.read(24)
        need(int.from_bytes(ack[:8], "big") in sizes, f"{sizes} bytes are acknowledged by {ack!r}")
        need(ack[8:] == hmac.new(peer.acks, bytes(8) + ack[:8], hashlib.sha256).digest()[:16], "an acknowledgement has a wrong tag")
        byte_by_byte = peer.tagged(frame_of(7, 2, "SIP/8", count=2))
        for at in range(len(byte_by_byte)):
            peer.send(byte_by_byte[at:at + 1])
        site.shows("SIP/8", 1)
        site.logs_only("link from site 7 at ADDRESS: up")
        site.logs_nothing()
    return "a peer of another program"


def hellos_that_are_refused():
    """Whoever isn't one of the sites is refused soon after it has dialed, with one line that says why, which isn't repeated where it dials again.
    The others go on."""
    with tempfile.TemporaryDirectory() as room, Mesh(room, 2) as mesh:
        site = mesh.sites[0]
        mesh.sites[1].add("SIP/1")
        mesh.until_equal(1, EQUAL)
        mesh.until_linked()
        refused = lambda why, since: site.logs_only(f"no link from ADDRESS: hello: {why}", seconds=REFUSED, since=since)
        for given, why in ((b"GET / HTTP/1.1\r\nHost: a\r\n\r\n", "another protocol"), (b"QSLK\x01" + bytes(32), "version 1 of the protocol"),
                           (os.urandom(4_000), "another protocol")):
            began = time.monotonic()
            with socket.create_connection(("127.0.0.1", site.links), PATIENCE) as other:
                other.sendall(given)
                refused(why, began)
        for number, how, verdict, why in (
            (9, {"shared": f"{SHARED}4"}, 6, "wrong secret"),
            (9, {"queues": QUEUES[::-1]}, 2, "other queues"),
            (64, {}, 1, "no such site number"),
            (9, {"queues": ("sales",)}, 2, "other queues"),
            (0, {}, 4, "another site has this site's number"),
            (1, {}, 5, "its site number belongs to another store"),
        ):
            peers = [dialed(site, number, **how) for _ in range(2)]
            for peer in peers:
                need(peer.verdict == verdict, f"a peer is refused by {peer.verdict}, and not by {verdict}: {why}")
                need(peer.is_closed(), f"a connection goes on behind a refusal: {why}")
            refused(why, peers[0].began)
        store = os.urandom(16)
        first = dialed(site, 12, store=store, starts=3)
        need(first.verdict == 0, "a peer with a store is refused")
        site.logs_only("link from site 12 at ADDRESS: up", seconds=REFUSED, since=first.began)
        for starts, verdict, why in ((2, 7, "its store is an older copy"), (3, 8, "its store was copied: another process has this start of it")):
            peer = dialed(site, 12, store=store, starts=starts, process=os.urandom(16))
            need(peer.verdict == verdict, f"a peer is refused by {peer.verdict}, and not by {verdict}: {why}")
            refused(why, peer.began)
            first.send(first.tagged(bytes(4)))
        mesh.sites[1].add("SIP/2")
        mesh.until_equal(2, EQUAL)
        need(all(it.process.poll() is None for it in mesh.sites.values()), "a site has ended")
        for it in mesh.sites.values():
            it.logs_nothing()
    return "hellos that are refused"


def refuse_site(room, cause, **how):
    """A site that differs from the others is refused by them, and refuses them, with a line at each end for each way: soon where it dials, and once
    they dial it too. They exchange nothing, and the others go on. Returns how long that took where it dials, and where it is dialed."""
    port = free_ports(1)
    with Mesh(room, 2, others=[port]) as mesh:
        for number, it in mesh.sites.items():
            it.add(f"SIP/{number}")
        mesh.until_equal(2, EQUAL)
        for it in mesh.sites.values():
            it.logs(f"link to 127.0.0.1:{port}: down: cannot connect: connection refused")
        mesh.until_linked()
        started = time.monotonic()
        with Site(room, 2, port, mesh.links, **how) as other:
            there = f"no link from ADDRESS: hello: refused there: {cause}"
            dials = [other.logs(f"link to 127.0.0.1:{it}: down: hello: {cause}", REFUSED, started) for it in mesh.links]
            dials += [it.logs(there, REFUSED, started) for it in mesh.sites.values()]
            other.add("SIP/2")
            own = [f"link to 127.0.0.1:{port}: down: hello: {cause}", there]
            is_dialed = [it.logs_only(*own, seconds=PAUSE + REFUSED, since=started) for it in mesh.sites.values()]
            other.logs_only(*(f"link to 127.0.0.1:{it}: down: hello: {cause}" for it in mesh.links), there, seconds=PAUSE + REFUSED, since=started)
            mesh.sites[0].add("SIP/3")
            mesh.until_equal(3, EQUAL)
            found = members(shown(mesh.sites[0])).keys(), members(shown(other)).keys()
            need(found == ({"SIP/0", "SIP/1", "SIP/3"}, {"SIP/2"}), f"sites that refuse each other show {found!r}")
            need(all(it.process.poll() is None for it in (other, *mesh.sites.values())), "a site has ended")
            for it in (other, *mesh.sites.values()):
                it.logs_nothing(0.1)
    return max(dials), max(is_dialed)


def sites_that_are_refused():
    """Sites with other queues, or in another order, or with another secret of links."""
    cases = [("other queues", {"queues": QUEUES[:1]}), ("other queues", {"queues": QUEUES[::-1]}), ("wrong secret", {"shared": f"{SHARED}4"})]
    with tempfile.TemporaryDirectory() as room, concurrent.futures.ThreadPoolExecutor(3) as threads:
        for number in range(len(cases)):
            os.mkdir(f"{room}/{number}")
        took = [*threads.map(lambda it: refuse_site(f"{room}/{it}", cases[it][0], **cases[it][1]), range(len(cases)))]
    dials, is_dialed = (max(times) for times in zip(*took))
    return f"{len(cases)} sites that are refused: {dials:.2f} s after their start where they dial, and {is_dialed:.1f} s where they are dialed"


def items_that_are_refused():
    """A link ends, with a line that says why, at an item that was altered, repeated, left out or put in, or is no frame, and the site goes on."""
    with tempfile.TemporaryDirectory() as room, alone(room) as site:
        def lost(peer, why):
            lines = (f"link from site {peer.number} at ADDRESS: {it}" for it in ("up", f"down: {why}"))
            site.logs_only(*lines, seconds=REFUSED, since=peer.began)

        def refused(why, deed, number):
            peer = dialed(site, number)
            deed(peer)
            need(peer.is_closed(), f"a link isn't ended: {why}")
            lost(peer, why)

        def altered(peer):
            item = bytearray(peer.tagged(frame_of(peer.number, 1, "SIP/bad")))
            item[40] ^= 1
            peer.send(bytes(item))

        def repeated(peer):
            item = peer.tagged(bytes(4))
            peer.send(item + item)

        def left_out(peer):
            peer.tagged(bytes(4))
            peer.send(peer.tagged(bytes(4)))

        def put_in(peer):
            peer.send(frame_of(peer.number, 1, "SIP/bad") + bytes(16))

        for number, deed in enumerate((altered, repeated, left_out, put_in), 20):
            refused("wrong tag", deed, number)
        for number, length in enumerate((1, 23, 8_388_609, 2 ** 32 - 1), 30):
            refused("bad length", lambda peer: peer.send(peer.tagged(struct.pack(">I", length) + bytes(24))), number)
        frame = frame_of(40, 1, "SIP/bad")
        refused("frame refused: no frame", lambda peer: peer.send(peer.tagged(frame[:4] + b"XX" + frame[6:])), 40)
        peer = dialed(site, 41)
        peer.socket.close()
        lost(peer, "the connection ended")
        peer = dialed(site, 42)
        peer.send(peer.tagged(frame_of(42, 1, "SIP/bad"))[:40])
        peer.socket.close()
        lost(peer, "the connection ended in the middle of an item")
        need(members(shown(site)) == {}, "a site has taken what it has refused")
        # A good peer is heard behind all of them.
        peer = dialed(site, 43)
        peer.send(peer.tagged(frame_of(43, 1, "SIP/good")))
        site.shows("SIP/good", REFUSED)
        site.logs_only("link from site 43 at ADDRESS: up")
        site.logs_nothing()
        need(site.process.poll() is None, "a site has ended")
    return "items that are refused"


def of_frames(deed):
    """What does this to the next frame."""
    return lambda item: deed(item) if len(item) > BEAT else None


def alter(at, mask=1):
    """What alters a bit of an item."""
    def altered(item):
        place = at % len(item)
        return item[:place] + bytes([item[place] ^ mask]) + item[place + 1:]
    return altered


class Exchange:
    """Sends the next frame behind the item that follows it."""

    def __init__(self):
        self.held, self.goes_on = None, False

    def __call__(self, piece):
        if self.held is None and len(piece) == BEAT:
            return None
        self.goes_on = self.held is None
        if self.goes_on:
            self.held = piece
            return b""
        return piece + self.held


def meddle_with(deeds):
    """Does each of these to the line between two sites: what is done, whether forth, and what is logged then. The link is down and up once at each
    end. Returns how long it took at most until a deed was found, since it could be seen and since it was done."""
    took = [(0, 0)]
    with tempfile.TemporaryDirectory() as room, Mesh(room, 2) as mesh:
        line, dialer, acceptor = mesh.proxies[0, 1], mesh.sites[0], mesh.sites[1]
        line.goes_whole = True
        mesh.until_linked()
        line.cut()
        ends = {dialer: ("link to ADDRESS: down: REASON", "link to site 1 at ADDRESS: up"),
                acceptor: ("link from site 0 at ADDRESS: down: REASON", "link from site 0 at ADDRESS: up")}
        for it, lines in ends.items():
            it.logs_only(*lines, seconds=HEALED)
        for added, (deed, is_forth, why) in enumerate(deeds, 1):
            site, other = (acceptor, dialer) if is_forth else (dialer, acceptor)
            line.done = line.meddled = line.waits_forth = None
            setattr(line, "meddle" if is_forth else "meddle_back", deed)
            dialer.add(f"SIP/{added}")
            # What is left out can be seen at the next item, which comes within a second.
            site.logs(why, 4)
            found = time.monotonic()
            # A length that no item has is found before the next item.
            took.append((found - (line.meddled or line.done), found - line.done))
            need(took[-1][0] < REFUSED + 0.5, f"what is done to a line is found {took[-1][0]:.2f} s after it could be seen: {why}")
            need(took[-1][1] < 2 * REFUSED + 0.5, f"what is done to a line is found after {took[-1][1]:.2f} s: {why}")
            mesh.until_equal(added, HEALED, found)
            site.logs_only(why, ends[site][1], seconds=HEALED, since=found)
            other.logs_only(*ends[other], seconds=HEALED, since=found)
        for it in ends:
            it.logs_nothing(0.1)
    return [max(times) for times in zip(*took)]


def who_sits_on_the_line():
    """What a line alters, repeats, leaves out, puts in or exchanges, forth and back, ends the link, with one line that says why. The link is up
    again soon, and the sites show the same: nothing that was altered was taken."""
    wrong, bad = "link from site 0 at ADDRESS: down: wrong tag", "link from site 0 at ADDRESS: down: bad length"
    at_dialer = "link to ADDRESS: down: wrong tag"
    deeds = [
        (alter(0, 0x80), bad), (alter(3), wrong), (alter(5), wrong), (alter(40), wrong), (alter(-16), wrong), (alter(-1), wrong),
        (lambda item: item + item, wrong), (lambda item: bytes(4) + item[-16:] + item, wrong), (lambda item: item[:-16] + bytes(16), wrong),
        (lambda item: item[:9] + b"\0" + item[9:], wrong), (lambda item: b"", wrong),
    ]
    all_deeds = [(of_frames(deed), True, why) for deed, why in deeds]
    all_deeds += [(lambda item: alter(-1)(item) if len(item) == BEAT else None, True, wrong), (Exchange(), True, wrong)]
    all_deeds += [(deed, False, at_dialer) for deed in (alter(1), alter(-1), lambda item: item + item, lambda item: b"")]
    with concurrent.futures.ThreadPoolExecutor(6) as threads:
        seen, done = (max(times) for times in zip(*threads.map(meddle_with, (all_deeds[at::6] for at in range(6)))))
    return f"{len(all_deeds)} deeds of who sits on a line: found at most {seen:.2f} s after they could be seen, {done:.2f} s after they were done"


def a_late_item(seconds=60):
    """An item that comes byte by byte and isn't whole within 60 seconds ends its link, though bytes come all the time."""
    with tempfile.TemporaryDirectory() as room, alone(room) as site:
        peer = dialed(site, 3)
        item, started = peer.tagged(frame_of(3, 1, "SIP/late")), time.monotonic()
        with contextlib.suppress(OSError):
            for at in range(len(item)):
                peer.send(item[at:at + 1])
                time.sleep(1)
                need(time.monotonic() - started < seconds + 10, "an item may take longer than 60 seconds")
        taken = time.monotonic() - started
        site.logs("link from site 3 at ADDRESS: down: an item takes more than 60 s", REFUSED)
        need(taken > seconds - 1, f"an item may take only {taken:.0f} seconds")
    return f"an item that isn't whole after {taken:.0f} seconds"


def a_long_whole(number=16_000, seconds=60):
    """A whole that a slow line carries in more than 60 seconds is taken, and its link stays up."""
    names = [f"SIP/{it:070}" for it in range(number)]
    with tempfile.TemporaryDirectory() as room, Mesh(room, 2) as mesh:
        mesh.until_linked()
        mesh.stop()
        mesh.sites[0].add(*names)
        for it in mesh.proxies.values():
            it.rate = SLOW
        started, carried = time.monotonic(), mesh.proxies[0, 1].carried
        mesh.heal()
        mesh.sites[1].logs("link from site 0 at ADDRESS: up", HEALED)
        mesh.sites[1].forget_log()
        while mesh.proxies[0, 1].carried - carried < 100 * number:
            need(time.monotonic() - started < 2 * seconds, "a long whole isn't carried")
            time.sleep(0.1)
        taken = mesh.until_equal(number, 2 * seconds, started)
        need(taken > seconds, f"a whole of {mesh.proxies[0, 1].carried - carried:,} bytes is there after {taken:.0f} s")
        mesh.sites[1].logs_only()
    return f"a whole that a line of {SLOW:,} bytes a second carries in {taken:.0f} s"


def ends_by_itself(site, reason, within=REFUSED, seconds=5, asks=True):
    """A site says in time why it ends, and ends with status 1. If it `asks`, a client asks for a change at once, and is not answered: the
    site makes no change under a number that it must not use. Returns how long it took to say why and to end, since it listened, or since it was
    dialed by a peer."""
    with site, contextlib.ExitStack() as clients:
        client, login = None, f"Action: Login\r\nUsername: {USER}\r\nSecret: {SECRET}\r\n\r\n"
        # A site that ends may be gone before a client has connected.
        with contextlib.suppress(OSError):
            client = clients.enter_context(Client(site.port)) if asks else None
        with contextlib.suppress(OSError):
            client and client.send(f"{login}Action: QueueAdd\r\nQueue: sales\r\nInterface: SIP/no\r\n\r\n".encode())
        said = site.logs(f"ends: {reason}", within, site.listens)
        try:
            status = site.process.wait(seconds)
        except subprocess.TimeoutExpired:
            raise Failed(f"site {site.number} doesn't end: {reason}") from None
        ended = time.monotonic() - site.listens
        need(status == 1, f"a site that ends by itself has status {status}")
        log = site.stop()
        need(log.count(b": ends: ") == 1, f"a site that ends logs {log!r}")
        need(client is None or b"Added interface" not in client.rest(), f"a site that ends answers a change before: {reason}")
        return said, ended


def files_of(room, site):
    return [it for it in os.listdir(room) if it.startswith(f"site-{site}.db")]


def copies(room, site):
    """The files of a site's store, with what they have."""
    return {it: read(f"{room}/{it}") for it in files_of(room, site)}


def copied_back(room, site, files):
    """Puts a copy in the place of a site's store."""
    for it in files_of(room, site):
        os.remove(f"{room}/{it}")
    for it, content in files.items():
        with open(f"{room}/{it}", "wb") as file:
            file.write(content)


def sites_that_end():
    """A site ends if its number was used by another store, if its store is a copy, also one that was started as often, and if another site has
    frames of it that it hasn't made; the others go on."""
    with tempfile.TemporaryDirectory() as room, Mesh(room, stores=True) as mesh:
        for number, it in mesh.sites.items():
            it.add(f"SIP/{number}")
        mesh.until_equal(3, EQUAL)
        # Another process with the number of site 2.
        peers = [mesh.links[0], mesh.links[1]]
        took = [ends_by_itself(Site(room, 2, free_ports(1), peers, f"{room}/other.db"), "the site number belongs to another store")]
        # A copy of the files of site 2 starts as often as site 2, which runs.
        mesh.sites[2].stop()
        first, other = copies(room, 2), f"{room}/other"
        os.mkdir(other)
        copied_back(other, 2, first)
        mesh.restart(2, 3)
        took.append(ends_by_itself(Site(room, 2, free_ports(1), peers, f"{other}/site-2.db"), COPIED))
        need(mesh.sites[2].process.poll() is None, "a site ends by a copy of its store")
        mesh.sites[2].add("SIP/later")
        mesh.until_equal(4, EQUAL)
        mesh.sites[2].stop()
        # The copy in its place: it starts as often as the others have seen.
        later, peers = copies(room, 2), [mesh.proxies[2, 0].port, mesh.proxies[2, 1].port]
        copied_back(room, 2, first)
        took.append(ends_by_itself(Site(room, 2, mesh.links[2], peers, mesh.stores[2]), COPIED))
        copied_back(room, 2, later)
        # A site that was refused is dialed again after 5 seconds, and the start waits for it for 4.
        mesh.restart(2, 4, HEALED)
        mesh.sites[2].stop()
        # It starts less often.
        copied_back(room, 2, first)
        took.append(ends_by_itself(Site(room, 2, mesh.links[2], peers, mesh.stores[2]), "rolled back: the store is an older copy"))
        # The copy again, among sites that have started since: they know none of its starts, but its changes.
        for number in (0, 1):
            mesh.sites[number].stop()
            mesh.start(number)
        copied_back(room, 2, first)
        took.append(ends_by_itself(Site(room, 2, mesh.links[2], peers, mesh.stores[2]), NOT_MINE))
        del mesh.sites[2]
        # A start that waits for a frame of site 2 answers clients after 4 seconds.
        mesh.sites[0].add("SIP/more")
        mesh.until_equal(5, HEALED)
    with tempfile.TemporaryDirectory() as room, alone(room) as site:
        peer = dialed(site, 7)
        site.listens = peer.began
        peer.send(peer.tagged(frame_of(7, 1, "SIP/none", dot_site=0, count=4)))
        took.append(ends_by_itself(site, NOT_MINE, asks=False))
    said, ended = (max(times) for times in zip(*took))
    return f"sites that end, which say why after {said:.1f} s and end after {ended:.1f} s: another store, copies, another's frames"


def copies_that_meet():
    """Two copies of one store, started as often, that know only each other: each says that the other one has its number, and neither ends."""
    with tempfile.TemporaryDirectory() as room:
        ports = [free_ports(1) for _ in range(2)]
        with alone(room, store=f"{room}/site-0.db") as site:
            site.add("SIP/1")
        other = f"{room}/other"
        os.mkdir(other)
        copied_back(other, 0, copies(room, 0))
        sites = [Site(at, 0, ports[it], [ports[1 - it]], f"{at}/site-0.db") for it, at in enumerate((room, other))]
        with sites[0], sites[1]:
            taken = max(it.logs("link to ADDRESS: down: hello: another site has this site's number", HEALED) for it in sites)
            for it in sites:
                need("SIP/1" in members(shown(it)), "a site that meets a copy of its store shows no members")
                need(b": ends: " not in it.log_so_far(), "a site ends by a copy of its store that it meets")
    return f"two copies of a store that meet, which say so after {taken:.1f} s"


def fill(room, disk, fault, clients=4, **how):
    """Clients change members of the last of three sites, whose store is on this disk, until it can't be written: then the site ends, with status 1,
    and says why. The others go on. Once it starts with room all show the same soon, and what it has answered is there. Returns how many changes
    that were, how long the site took to end, and how long its start."""
    owners, mesh = [Owner(number, 2) for number in range(clients)], Mesh(room, stores=True)
    mesh.stores[2] = f"{disk}/site-2.db"
    with mesh:
        # The store is made before, so that no line says that it's new.
        mesh.sites[2].add("SIP/first")
        mesh.until_equal(1, EQUAL)
        mesh.sites[2].stop()
        site = mesh.start(2, **how)
        working = Working(owners, lambda it: (site, 0), 0, may_end=True)
        working.wait()
        started, reasons = time.monotonic(), (f"store failed: {fault}", "ends: the store has failed")
        for it in reasons:
            site.logs(it, REFUSED, started)
        need(site.process.wait(PATIENCE) == 1, f"a site whose store fails ends with status {site.process.returncode}")
        ended, log, number = time.monotonic() - started, site.stop(), sum(it.done for it in owners)
        need(number > 0, "a store fails before a change was answered")
        need(ended < 2 * REFUSED, f"a site whose store fails ends {ended:.1f} s after it has cut off its clients")
        lines = [it for it in log.splitlines() if not re.fullmatch(rb"queue_sites: site 2: (link|client) .+", it)]
        need(lines == [f"queue_sites: site 2: {it}".encode() for it in reasons], f"a site whose store fails logs {log!r}")
        del mesh.sites[2]
        for place, it in mesh.sites.items():
            it.add(f"SIP/{place}")
        for it in mesh.sites.values():
            for place in mesh.sites:
                it.shows(f"SIP/{place}", EQUAL)
        if os.path.exists(f"{disk}/{BALLAST}"):
            os.remove(f"{disk}/{BALLAST}")
        started = time.monotonic()
        mesh.start(2)
        for it in owners:
            it.check(members(shown(mesh.sites[2])))
        wanted = {f"SIP/{it}": 0 for it in ("first", 0, 1)}
        wanted |= {interface: penalty for it in owners for interface, penalty in it.known.items()}
        equal = mesh.until_equal(len(wanted), RESTARTED, started)
        found = members(shown(mesh.sites[0]))
        need(found == wanted, f"behind a start with room sites show {found!r}, and not {wanted!r}")
    return number, ended, equal


def stores_that_fail():
    """Sites whose stores can't be written any more: a file that may not grow, and a full disk where this process can have one."""
    with tempfile.TemporaryDirectory() as room, small_disk(room, "4m") as disk, concurrent.futures.ThreadPoolExecutor(2) as threads:
        for it in ("mesh-0", "mesh-1", "files"):
            os.mkdir(f"{room}/{it}")
        runs = [threads.submit(fill, f"{room}/mesh-0", f"{room}/files", "input or output failed", prepare=limited(MOST_BYTES))]
        if disk:
            with open(f"{disk}/{BALLAST}", "wb") as file:
                file.write(bytes(3 << 20))
            runs.append(threads.submit(fill, f"{room}/mesh-1", disk, "disk full"))
        numbers, ended, equal = zip(*(it.result() for it in runs))
    which = "a file that may not grow" if len(numbers) == 1 else "a file that may not grow, a full disk"
    return (f"stores that fail ({which}) after {' and '.join(map(str, numbers))} changes: their sites end after {max(ended):.2f} s, and all are "
            f"equal {max(equal):.1f} s after their starts have begun")


def frames_that_conflict():
    """A site refuses a frame that gives a change of a third site another value, and goes on. It ends once it has refused frames of most of its
    peers so."""
    ports = [free_ports(1) for _ in range(2)]
    with tempfile.TemporaryDirectory() as room, Site(room, 0, free_ports(1), ports) as site:
        def hands(number, interface):
            peer = dialed(site, number)
            peer.send(peer.tagged(frame_of(number, 1, interface, dot_site=5)))
            return peer

        site.logs_only(*(f"link to 127.0.0.1:{it}: down: cannot connect: connection refused" for it in ports))
        first = hands(7, "SIP/first")
        site.shows("SIP/first", REFUSED)
        site.logs_only("link from site 7 at ADDRESS: up", seconds=REFUSED, since=first.began)
        other = hands(8, "SIP/other")
        need(other.is_closed(), "a link goes on behind a frame that is refused")
        lines = (f"link from site 8 at ADDRESS: {it}" for it in ("up", "down: frame refused: conflict"))
        site.logs_only(*lines, seconds=REFUSED, since=other.began)
        site.add("SIP/own")
        found = members(shown(site))
        need(found.keys() == {"SIP/first", "SIP/own"}, f"a site that refuses a frame shows {found!r}")
        first.socket.close()
        site.logs_only("link from site 7 at ADDRESS: down: REASON", seconds=REFUSED)
        site.listens = hands(9, "SIP/last").began
        ends_by_itself(site, CONFLICT, asks=False)
    return "frames that conflict"


def wakes_that_fail():
    """A site ends also if the first connections to its own ports fail, by which it wakes its threads."""
    with tempfile.TemporaryDirectory() as room:
        library = compiled_refusal(room, "refuse_option")
        if not library:
            return NO_COMPILER
        with alone(room, more={"LD_PRELOAD": library, "REFUSED_OPTION": "connect"}) as site:
            peer = dialed(site, 7)
            site.listens = peer.began
            peer.send(peer.tagged(frame_of(7, 1, "SIP/none", dot_site=0, count=4)))
            ends_by_itself(site, NOT_MINE, asks=False)
    return "a site whose first wakes fail"


def a_start_that_waits():
    """A site with a store answers no client before it has a frame of the peer that it dials; a frame of another site isn't enough."""
    with tempfile.TemporaryDirectory() as room, socket.create_server(("127.0.0.1", 0)) as listener:
        listener.settimeout(PATIENCE)
        with Site(room, 0, free_ports(1), [listener.getsockname()[1]], f"{room}/site-0.db") as site:
            store = os.urandom(16)
            accepts = Peer(listener.accept()[0], 1, is_dialer=False, store=store)
            peer, other = dialed(site, 1, store=store), dialed(site, 7)
            need(accepts.verdict == peer.verdict == other.verdict == 0, "a site refuses a peer")
            other.send(other.tagged(frame_of(7, 1, "SIP/7")))
            with socket.create_connection(("127.0.0.1", site.port), PATIENCE) as client:
                need(not select.select([client], [], [], 1)[0], "a client is answered before the site has a frame of its peer")
                peer.send(peer.tagged(frame_of(1, 1, "SIP/1")))
                need(select.select([client], [], [], 1)[0], "a client waits though the site has a frame of its peer")
    return "a start that waits for a frame of the peer that is dialed"


def silent_connections(number=20):
    """Connections that send nothing don't keep out a site."""
    with tempfile.TemporaryDirectory() as room, alone(room) as site:
        silent = [socket.create_connection(("127.0.0.1", site.links), PATIENCE) for _ in range(number)]
        peer = dialed(site, 3, within=3)
        need(peer.verdict == 0, "a peer behind silent connections is refused")
        seconds = site.logs_only("link from site 3 at ADDRESS: up", seconds=3, since=peer.began)
        for it in silent:
            it.close()
    return f"{number} silent connections, behind which a peer waits {seconds:.1f} s"


def silent_peers():
    """A site ends a link over which nothing comes for four seconds, behind nothing, a beat or a part of an item. A link with beats goes on."""
    with tempfile.TemporaryDirectory() as room, alone(room) as site:
        peers = [dialed(site, number) for number in (3, 4, 5)]
        good, beat = dialed(site, 6), bytes(4)
        site.logs_only(*(f"link from site {it} at ADDRESS: up" for it in (3, 4, 5, 6)))
        began, ended = time.monotonic(), {}
        for it, given in zip(peers, (b"", peers[1].tagged(beat), peers[2].tagged(frame_of(5, 1, "SIP/5"))[:40])):
            it.send(given)
        while len(ended) < len(peers):
            need(time.monotonic() < began + SILENT + REFUSED, f"{len(ended)} of {len(peers)} silent peers are given up after {SILENT + REFUSED} s")
            good.send(good.tagged(beat))
            time.sleep(0.1)
            for it in select.select([it.socket for it in peers if it not in ended], [], [], 0)[0]:
                with contextlib.suppress(ConnectionError):
                    if it.recv(65_536):
                        continue
                ended[next(peer for peer in peers if peer.socket is it)] = time.monotonic() - began
        need(min(ended.values()) > SILENT - 0.5, f"a silent peer is given up after {min(ended.values()):.1f} s")
        site.logs_only(*(f"link from site {it} at ADDRESS: down: no bytes came" for it in (3, 4, 5)), seconds=SILENT + REFUSED, since=began)
        good.send(good.tagged(frame_of(6, 1, "SIP/6")))
        site.shows("SIP/6", REFUSED)
        site.logs_nothing()
    return f"silent peers, which are given up after {min(ended.values()):.1f} to {max(ended.values()):.1f} s"


class Unread:
    """A peer that was dialed and reads nothing behind the first beat. It acknowledges that again and again, so that it isn't given up."""

    def __init__(self, peer):
        self.peer, self.count, self.counted, self.said = peer, len(peer.read(BEAT)), 0, 0

    def say(self):
        """Acknowledges what it has read, if it last did half a second ago, or 65,536 bytes before."""
        if time.monotonic() > self.said + 0.5 or self.count >= self.counted + 65_536:
            self.peer.send(self.peer.acknowledgement(self.count))
            self.counted, self.said = self.count, time.monotonic()

    def read_until(self, text):
        """Reads until this text comes."""
        ends, held = time.monotonic() + PATIENCE, b""
        while text not in held:
            need(time.monotonic() < ends, f"{text!r} doesn't come in {self.count:,} bytes")
            piece = self.peer.socket.recv(65_536)
            need(piece, f"a link ends behind {self.count:,} bytes")
            held, self.count = held[-len(text):] + piece, self.count + len(piece)
            self.say()


def a_peer_that_reads_nothing(asks=30_000, number=200):
    """A site whose peer reads nothing, but lives, answers its clients at once, as one without peers does, and keeps little for it: what is under
    way, what may wait, and what its journal may have. Once the peer reads it gets little more than these, and the last change. It is given up
    four seconds after its last word."""
    with tempfile.TemporaryDirectory() as room, socket.create_server(("127.0.0.1", 0)) as listener, Site(room, 1, free_ports(1)) as other:
        with Site(room, 0, free_ports(1), [listener.getsockname()[1]]) as site:
            listener.settimeout(PATIENCE)
            peer = Peer(listener.accept()[0], 1, is_dialer=False)
            need(peer.verdict == 0, "a site refuses a peer that accepts")
            other.wait_until_it_listens()
            unread, pauses, others = Unread(peer), *(Pauses(it, len(QUEUES), number) for it in (site, other))
            with site.logged_in() as client, other.logged_in() as client_of_other:
                for it in (pauses, others):
                    it.add_members(QUEUES)
                for times in (asks // 5, asks):
                    # The first ones fill what may be filled.
                    before = site.memory()
                    for it in (pauses, others):
                        it.slowest, it.late = 0, 0
                    for _ in range(times):
                        pauses.ask(client)
                        others.ask(client_of_other)
                        unread.say()
            grown, frames = site.memory() - before, asks * pauses.frame
            # A busy machine holds up some asks, at both sites.
            need(pauses.late <= 2 * others.late + 5 and pauses.slowest < 0.5,
                 f"beside a peer that reads nothing {pauses.late} asks take more than 50 ms, one {pauses.slowest:.3f} s; without peers {others.late}")
            need(grown < frames // 2, f"for a peer that reads nothing a site keeps {grown:,} bytes of {frames:,}")
            unread.read_until(pauses.reason().encode())
            # Frames have tags behind them but in the box, and a whole may be under way and another one wait.
            most = WINDOW + BOX * (1 + 16 / pauses.frame) + 2 * pauses.whole + 10 * BEAT
            need(unread.count < most, f"a peer that reads again gets {unread.count:,} bytes, and not at most {most:,.0f}")
            site.logs_only("link to site 1 at ADDRESS: up")
            seconds = site.logs_only("link to ADDRESS: down: no reply for 4 s", seconds=GIVEN_UP, since=unread.said)
            need(seconds > SILENT - 0.3, f"a silent peer is given up after {seconds:.1f} s")
            for it in (site, other):
                it.logs_nothing()
            peer.socket.close()
    return (f"a peer that reads nothing: of {asks:,} asks the slowest takes {1_000 * pauses.slowest:.0f} ms, {pauses.late} take more than 50 ({others.late} "
            f"without peers); {grown >> 10:,} KiB more memory, and {unread.count:,} bytes once it reads, where frames have {frames:,}; given up after "
            f"{seconds:.1f} s")


def acknowledgements_that_are_refused():
    """A site that sends ends a link, with a line that says why, whose peer acknowledges more bytes than were sent, or fewer than before, also if
    more follow in the same piece, or under a wrong tag, or that says that it refuses a frame; and it sends a whole to one that is behind."""
    with tempfile.TemporaryDirectory() as room, socket.create_server(("127.0.0.1", 0)) as listener:
        listener.settimeout(PATIENCE)
        with Site(room, 0, free_ports(1), [listener.getsockname()[1]]) as site:
            store = os.urandom(16)
            site.add("SIP/0")
            up = "link to site 1 at ADDRESS: up"
            # The first beat and the whole have more bytes than are acknowledged here.
            for numbers, why in (
                ([1 << 40], "bytes were acknowledged that were not sent"),
                ([40, 20], "an acknowledgement went back"),
                ([20, 60, 59, 64], "an acknowledgement went back"),
                (None, "wrong tag"),
                ([(1 << 64) - 1], "a frame was refused there"),
            ):
                connection, _ = listener.accept()
                peer = Peer(connection, 1, is_dialer=False, store=store)
                need(peer.verdict == 0 and len(peer.read(64)) == 64, "a site doesn't send a beat and a whole to a peer that accepts")
                site.logs_only(up, seconds=REFUSED)
                sent = time.monotonic()
                peer.send(bytes(24) if numbers is None else b"".join(map(peer.acknowledgement, numbers)))
                # A site looks for acknowledgements once a second.
                site.logs_only(f"link to ADDRESS: down: {why}", seconds=REFUSED + 0.5, since=sent)
                connection.close()
            connection, _ = listener.accept()
            peer = Peer(connection, 1, is_dialer=False, store=store)
            beat, whole = peer.read(BEAT), peer.item()
            need(b"SIP/0" in whole and beat[:4] == bytes(4), "a site doesn't send a beat and a whole to a peer that accepts")
            peer.send(peer.acknowledgement((1 << 64) - 2))
            ends = time.monotonic() + REFUSED + 1
            while len(again := peer.item()) == BEAT:
                need(time.monotonic() < ends, "a site sends no whole to a peer that is behind")
            need(again[16:-16] == whole[16:-16], "a site sends another whole to a peer that is behind")
            site.logs_only(up)
            connection.close()
    return "acknowledgements that are refused"


def linked_at(room, host):
    """Two sites, the first at this address, which find each other by that address and by name."""
    ports = [free_ports(1) for _ in range(2)]
    peers = [f"{host}:{ports[0]}", f"localhost:{ports[1]}"]
    with Site(room, 0, ports[0], peers, host=host) as first, Site(room, 1, ports[1], peers) as second:
        first.add("SIP/0")
        second.add("SIP/1")
        for it in (first, second):
            for number in range(2):
                it.shows(f"SIP/{number}", EQUAL)
        first.logs(f"link to site 1 at localhost:{ports[1]}: up")
        second.logs(f"link to site 0 at {host}:{ports[0]}: up")
        second.logs("link from site 0 at ADDRESS: up")
        with first.client() as it:
            it.ask("Login")
            first.logs(f"client {it.name}: login failed")


def chosen_ports(room, clients, links):
    """A site listens at these hosts, at ports that the system chooses, and says at which ones."""
    words = [BUILT, "site", "3", USER, "sales", "--secret-file", f"{room}/secret-0", "--link-secret-file", f"{room}/shared-0", "--volatile"]
    pipes = {"stdout": subprocess.PIPE, "stderr": subprocess.PIPE}
    with subprocess.Popen([*words, "--clients", f"{clients}:0", "--links", f"{links}:0"], **pipes) as process:
        try:
            for what, host in (("clients", clients), ("links", links)):
                line, named = process.stdout.readline(), r"127\.0\.0\.1|\[::1\]" if host == "localhost" else re.escape(host)
                found = re.fullmatch(rf"listening {what} ({named}):(\d+)\n", line.decode())
                need(found, f"a site at {host}:0 prints {line!r}")
                address = found[1].strip("[]"), int(found[2])
                if what == "clients":
                    with Client(address[1], address=address[0]) as client:
                        need(client.line() == f"{GREETING}\r\n".encode(), "a site doesn't greet at the port that it names")
                else:
                    socket.create_connection(address, PATIENCE).close()
        finally:
            process.kill()


def addresses():
    """Sites listen at addresses of IPv4 and IPv6 and at a name, find others there and by name, and say which port the system has chosen."""
    hosts = ["127.0.0.1", *(["[::1]"] if has_ipv6() else [])]
    with tempfile.TemporaryDirectory() as room:
        for it in hosts:
            linked_at(room, it)
        for one, other in zip([*hosts, "localhost"], ["localhost", *hosts]):
            chosen_ports(room, one, other)
    which = "IPv4 and IPv6" if len(hosts) == 2 else "IPv4 alone, since this machine has no IPv6"
    return f"addresses of {which}, a name, and ports that the system chooses"


def clients_of_a_site():
    """A site greets, has 16 places, closes after five failed logins, and gives up clients that don't log in or are silent, each with its line.
    Where nobody reads its log it serves on."""
    greeting = "Asterisk Call Manager/5.0.1"
    options = ["--greeting", greeting, "--patience", "4", "--idle", "5"]
    with tempfile.TemporaryDirectory() as room, alone(room, options=options) as site:
        with site.client() as it:
            need(it.greeting == f"{greeting}\r\n".encode(), f"the greeting is {it.greeting!r}")
            it.send(TRIES * b"Action: Login\r\n\r\n")
            need(it.rest().count(b"Authentication failed") == TRIES, "a failed login isn't answered")
            site.logs(f"client {it.name}: closed after too many failed logins")
            need(site.logged.count(f": client {it.name}: login failed\n".encode()) == TRIES, f"of failed logins a site logs {site.logged!r}")
        them = [site.client() for _ in range(PLACES - 1)]
        quiet = site.logged_in()
        last, started = Client(site.port), time.monotonic()
        need(not select.select([last.socket], [], [], 0.3)[0], f"a client is greeted that is not one of {PLACES}")
        site.logs(f"client {last.name}: waits for a place")
        last.line()
        need(0.5 < time.monotonic() - started < 8, f"a client waits {time.monotonic() - started:.1f} seconds for a place")
        for it in them:
            site.logs(f"client {it.name}: given up: no login within 4 s", 6)
            it.socket.close()
        site.logs(f"client {quiet.name}: given up: silent for 5 s", 8)
    with tempfile.TemporaryDirectory() as room, alone(room) as site, concurrent.futures.ThreadPoolExecutor(PLACES) as threads:
        def fail(_):
            with site.client() as it:
                it.send(TRIES * b"Action: Login\r\n\r\n")
                it.rest()

        # More than a pipe holds.
        list(threads.map(fail, range(500)))
        started = time.monotonic()
        site.add("SIP/1")
        need(time.monotonic() - started < 8, "a site whose log nobody reads serves slowly")
        dropped = b" log lines dropped\n"
        need(dropped in site.read_log(lambda logged: dropped in logged), "no line is logged as dropped")
    return f"clients of a site: {PLACES} places, failed logins, deadlines, a log that nobody reads"


def run_refused(room, library, number, stores):
    """Runs two sites, one with an allocation refused, until both show what was added at each, or the one has ended. Returns how many allocations
    that has made, and whether it has ended."""
    os.mkdir(place := f"{room}/run-{number}")
    ports, counted = [free_ports(1) for _ in range(2)], f"{place}/allocations"
    more = {"LD_PRELOAD": library, "REFUSED_ALLOCATION": str(number), "ALLOCATIONS_FILE": counted}
    how = lambda site: {"store": f"{place}/site-{site}.db" if stores else None}
    with Site(place, 1, ports[1], ports, **how(1)) as other:
        site = Site(place, 0, ports[0], ports, more=more, **how(0))
        has_ended = not site.wait_until_it_listens()
        ends = time.monotonic() + PATIENCE
        reports = []
        while not has_ended:
            with contextlib.suppress(OSError, Failed):
                for it in (site, other):
                    with it.logged_in() as client:
                        client.ask("QueueAdd", Queue="sales", Interface=f"SIP/{it.number}")
                reports = [shown(it) for it in (site, other)]
                if reports[0] == reports[1] and members(reports[0]) == {"SIP/0": 0, "SIP/1": 0}:
                    break
            has_ended = site.process.poll() is not None
            need(time.monotonic() < ends or has_ended, f"where allocation {number} is refused sites show {[members(it) for it in reports]!r}")
            time.sleep(0.05)
        if has_ended:
            site.process.wait(PATIENCE)
        log, status = site.stop(), site.process.returncode
        lines = [it for it in log.splitlines() if it != f"queue_sites: site 0: new store {place}/site-0.db".encode()]
        if has_ended:
            texts = (rb"queue_sites: (out of memory|no thread|no random bytes|store \S+: out of memory|"
                     rb"site 0: (store failed: .+|ends: the store has failed))")
            need(status == 1, f"where allocation {number} is refused the status is {status}")
            reasons = [it for it in lines if not LACKS.fullmatch(it)]
            # That the store has failed has a second line, which says that the site ends.
            causes = [it for it in reasons if b"store failed: " not in it]
            is_one = len(causes) == 1 and len(reasons) - 1 == causes[0].endswith(b"ends: the store has failed")
            need(is_one and all(re.fullmatch(texts, it) for it in reasons), f"where allocation {number} is refused a site logs {log!r}")
        else:
            need(all(LACKS.fullmatch(it) for it in lines), f"where allocation {number} is refused a site logs {log!r}")
        return int(read(counted)), has_ended


def refused_with(stores, number):
    """With each allocation of a run of two sites refused in turn, or this number of them, both show the same in the end, or the one ends for one
    reason, which it logs."""
    with tempfile.TemporaryDirectory() as room, concurrent.futures.ThreadPoolExecutor(4) as threads:
        library = compiled_refusal(room)
        if library is None:
            return NO_COMPILER
        allocations, _ = run_refused(room, library, 0, stores)
        tried = some_of(allocations, number)
        ended = sum(has_ended for _, has_ended in threads.map(lambda it: run_refused(room, library, it, stores), tried))
    which = "each" if len(tried) == allocations else f"{len(tried)}"
    kind = "a linked site with a store" if stores else "a linked site"
    return f"{which} of the {allocations} allocations of {kind} refused: {ended} ended it, the others let both sites show the same"


def refused_allocations(number=SOME_ALLOCATIONS):
    """Allocations of a linked site that are refused, without stores and with them."""
    return "; ".join(refused_with(stores, number) for stores in (False, True))


def words_of_a_site():
    """The defaults of a site's options, and secrets in files; tools/program_tests.py has the errors of its words in their order."""
    for text in (b"queue_sites site", b"[default: 600]", b"[default: 16]", b"[default: 127.0.0.1:5038]", b"[default: 127.0.0.1:7038]"):
        check(BUILT, ["site", "--help"], 0, printed=text)
    with tempfile.TemporaryDirectory() as room:
        def file_of(name, text):
            with open(f"{room}/{name}", "w", encoding="ascii") as file:
                file.write(text)
            return f"{room}/{name}"

        secret, shared = file_of("secret", "s3\n"), file_of("shared", f"{SHARED}\n")
        words = lambda one, other: ["site", "3", USER, "sales", "--secret-file", one, "--link-secret-file", other, "--volatile"]
        for content in ("", "\n", "15 characters..\n", "a" * 81):
            check(BUILT, words(secret, file_of("bad", content)), 2, errors=b"queue_sites: bad link secret\n")
        check(BUILT, words(file_of("empty", "\n"), shared), 2, errors=b"queue_sites: bad secret\n")
        with Site(room, 3, free_ports(1), shared="a" * 80 + "\r\nmore") as site, socket.create_connection(("127.0.0.1", site.links)) as connection:
            need(Peer(connection, 4, shared="a" * 80).verdict == 0, "a secret of 80 bytes that ends in CR LF is refused")
    return "the words and secrets of a site"


def stores_of_sites():
    """A site's store counts its starts, keeps rows where it is asked to, and can be read."""
    with tempfile.TemporaryDirectory() as room:
        for start in range(3):
            with alone(room, store=f"{room}/site-0.db", options=["--keep"] if start == 1 else []) as site:
                site.add(f"SIP/{start}")
                need(len(members(shown(site))) == start + 1, "a site that starts again shows other members")
                if start == 0:
                    site.logs(f"new store {room}/site-0.db")
                log = site.stop()
                need((b": new store " in log) == (start == 0), f"a site logs {log!r}")
            need([*tables_of(room, 0)] == ["step", *["kept"] * (start > 0)], f"a store has the tables {tables_of(room, 0)!r}")
        check_words(room, 1, 3)
    return "a site's store"


TESTS = [words_of_a_site, stores_of_sites, clients_of_a_site, addresses, three_sites, links_that_are_down, sites_without_room, only_by_another,
         slow_lines, news_over_a_slow_line, restarts, a_peer_of_another_program, hellos_that_are_refused, sites_that_are_refused, items_that_are_refused,
         who_sits_on_the_line, acknowledgements_that_are_refused, sites_that_end, copies_that_meet, stores_that_fail, frames_that_conflict,
         wakes_that_fail, a_start_that_waits, silent_connections, silent_peers, a_peer_that_reads_nothing, refused_allocations]
# What `all` changes, and what it does besides.
LONGER = {refused_allocations: lambda: refused_allocations(None)}
MORE = [a_late_item, a_long_whole, news_behind_a_long_whole]


def run_all(tests=None, longer=False):
    """Runs all tests, or these. Returns lines that report what was run."""
    return [(LONGER.get(it, it) if longer else it)() for it in tests or TESTS]


if __name__ == "__main__":
    main(sys.argv[1:], [*TESTS, *MORE] if sys.argv[1:] else TESTS, run_all)
