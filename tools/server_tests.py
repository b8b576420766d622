"""Runs the server of queue_sites: its words and texts, the sessions of the cases over loopback, many clients at once, clients that idle, flood,
lie, linger and break off, its log, and each allocation of a short run refused."""
import collections
import concurrent.futures
import contextlib
import os
import random
import re
import resource
import select
import signal
import socket
import struct
import subprocess
import sys
import tempfile
import threading
import time

import cases
from crates import folder
from limit_tests import MOST_MEMBERS
from program_tests import NO_COMPILER, Failed, check, compiled_refusal, expect, first_difference, run

BUILT = f"{folder('queue_sites')}/out/queue_sites"
USER, SECRET = "admin", "s3"
GREETING = "Queue Sites Call Manager/1.0.0"
# How long anything may take that isn't a matter of time limits, in seconds.
PATIENCE = 20
# The hidden option that shortens the times in which a client must log in and read; these, and how much longer a client may keep its place.
SLOT_SECONDS, MORE_SECONDS = 4, 5
SHORTER = ["--patience", str(SLOT_SECONDS)]
SLOTS = 4
# With how many failed logins a session ends.
TRIES = 5
# How long sites may take until they show the same, in seconds; and if one of them is behind.
SETTLED, CAUGHT_UP = 5, 10
# How much processor time a server may take while nobody asks, in seconds.
LITTLE = 0.2
# What is logged where memory runs out.
LOGGED_OUT_OF_MEMORY = re.compile(rb"queue_sites: (\d+ log lines dropped|site \d+: (no connection: .+|client \S+: (connection not prepared: .+|"
                  rb"waits for a place|session ended: (out of memory; its last command may have been done|"
                  rb"desk down; its last command may have been done))|behind site \d+: .+|caught up with site \d+))")
# A line of the log by which a site falls behind a peer, or catches up with it.
OF_PEER = re.compile(rb"queue_sites: site (\d+): (behind|caught up with) site (\d+)(?:: .+)?")
# A line of the log about a client.
OF_CLIENT = re.compile(rb"queue_sites: site (\d+): client (\S+): (.+)")


def need(is_so, what):
    if not is_so:
        raise Failed(what)


def is_free(port, address="127.0.0.1"):
    """Whether nobody listens on a port."""
    with socket.socket() as it:
        it.setsockopt(socket.SOL_SOCKET, socket.SO_REUSEADDR, 1)
        try:
            it.bind((address, port))
        except OSError:
            return False
    return True


# The ports that were given last: tests that run at once don't get the same.
GIVEN = collections.deque(maxlen=400)


def free_ports(sites):
    """The first of `sites` ports in a row that nobody listens on, and that weren't given lately. They lie below those that the system hands to
    clients."""
    for _ in range(100):
        first = random.randrange(20_000, 32_000)
        ports = range(first, first + sites)
        if not set(ports) & set(GIVEN) and all(map(is_free, ports)):
            GIVEN.extend(ports)
            return first
    raise Failed("there are no free ports")


class Server:
    """A running server of `sites` sites. It is ended when the context is left. If its options name a file of the secret, the command
    line has no secret. `prepare` runs in its process before the program."""

    def __init__(self, sites, queues=("sales",), user=USER, secret=SECRET, options=(), more=None, out=None, address="127.0.0.1", prepare=None):
        self.sites, self.port, self.user, self.secret, self.address = sites, free_ports(sites), user, secret, address
        login = [user] if "--secret-file" in options else [user, secret]
        words = [BUILT, "serve", *options, str(sites), str(self.port), *login, *queues]
        how = {"stdin": subprocess.DEVNULL, "stdout": out or subprocess.PIPE, "stderr": subprocess.PIPE}
        self.process = subprocess.Popen(words, env={**os.environ, **(more or {})}, preexec_fn=prepare, **how)
        self.printed, self.logged = b"", b""

    def __enter__(self):
        try:
            self.wait_until_it_listens()
        except BaseException:
            self.stop()
            raise
        return self

    def __exit__(self, *_):
        self.stop()

    def lines(self):
        """What it prints once all sites listen."""
        address = f"[{self.address}]" if ":" in self.address else self.address
        return b"".join(b"listening %b:%d\n" % (address.encode(), self.port + site) for site in range(self.sites))

    def wait_until_it_listens(self):
        """Waits until it has reported that all sites listen. Returns whether it has; it hasn't if it has ended."""
        ends = time.monotonic() + PATIENCE
        while self.printed != self.lines():
            need(time.monotonic() < ends and self.lines().startswith(self.printed), f"the server printed {self.printed!r}")
            if select.select([self.process.stdout], [], [], 0.1)[0]:
                piece = os.read(self.process.stdout.fileno(), 65_536)
                if not piece:
                    return False
                self.printed += piece
        return True

    def stop(self, by=signal.SIGTERM):
        """Ends it by a signal, at once, and returns its standard error."""
        self.process.send_signal(by)
        try:
            _, rest = self.process.communicate(timeout=PATIENCE)
        except subprocess.TimeoutExpired:
            self.process.kill()
            self.process.communicate()
            raise Failed("a signal doesn't end the server") from None
        return self.logged + rest

    def read_log(self, is_enough):
        """Reads standard error until this holds of what was logged, or for a while. Who logs waits for nobody, so a line may come late."""
        ends = time.monotonic() + SETTLED
        while not is_enough(self.logged) and time.monotonic() < ends:
            if select.select([self.process.stderr], [], [], 0.1)[0]:
                self.logged += os.read(self.process.stderr.fileno(), 65_536)
        return self.logged

    def waits(self, client, site=0):
        """Waits until it has logged that a client waits for a place."""
        line = f"queue_sites: site {site}: client {client.name}: waits for a place\n".encode()
        need(line in self.read_log(lambda logged: line in logged), "a client isn't logged as waiting")

    def stop_caught_up(self):
        """Ends it where it has logged only that sites fell behind and have caught up. Returns how often one fell behind."""
        # The line of the last site that has caught up may come late.
        self.read_log(lambda logged: logged.count(b": behind ") == logged.count(b": caught up "))
        return catches_up(self.stop())

    def stop_silent(self):
        """Ends it where it has logged nothing."""
        log = self.stop()
        need(log == b"", f"the server logged {log!r}")

    def stop_logged(self, *events):
        """Ends it. Its log must have exactly these events of clients, in any order: the site, the client, and the text."""
        self.read_log(lambda logged: logged.count(b"\n") >= len(events))
        log = self.stop()
        found = [OF_CLIENT.fullmatch(line) for line in log.splitlines()]
        need(all(found), f"the server logged {log!r}")
        found = collections.Counter((int(it[1]), it[2].decode(), it[3].decode()) for it in found)
        need(found == collections.Counter(events), f"the server logged {log!r}, and not {events!r}")

    def memory(self):
        """How many bytes of memory it has."""
        with open(f"/proc/{self.process.pid}/status", encoding="ascii") as file:
            return next(int(line.split()[1]) * 1024 for line in file if line.startswith("VmRSS"))

    def seconds(self):
        """How much processor time it has taken, in seconds."""
        with open(f"/proc/{self.process.pid}/stat", encoding="ascii") as file:
            fields = file.read().rpartition(")")[2].split()
        return (int(fields[11]) + int(fields[12])) / os.sysconf("SC_CLK_TCK")

    def rests(self):
        """Needs little processor time while nobody asks."""
        before = self.seconds()
        time.sleep(2)
        taken = self.seconds() - before
        need(taken < LITTLE, f"the server takes {taken:.1f} seconds of processor time in two in which nobody asks")

    def client(self, site=0, patience=PATIENCE):
        """A client of a site that is greeted."""
        it = Client(self.port + site, patience, self.address)
        it.greeting = it.line()
        return it

    def logged_in(self, site=0):
        it = self.client(site)
        it.succeed("Login", Username=self.user, Secret=self.secret)
        return it


class Client:
    """A connection of a client, with what came on it and wasn't read yet."""

    def __init__(self, port, patience=PATIENCE, address="127.0.0.1"):
        self.socket, self.held, self.greeting = socket.create_connection((address, port), patience), b"", b""
        self.socket.setsockopt(socket.IPPROTO_TCP, socket.TCP_NODELAY, 1)
        host, own, *_ = self.socket.getsockname()
        self.name = f"[{host}]:{own}" if ":" in host else f"{host}:{own}"

    def __enter__(self):
        return self

    def __exit__(self, *_):
        self.socket.close()

    def more(self):
        """Reads once. Returns whether there were any bytes; there are none at the end."""
        piece = self.socket.recv(65_536)
        self.held += piece
        return piece != b""

    def until(self, end):
        """The bytes up to an end, and the end."""
        while end not in self.held:
            need(self.more(), f"the server closed a connection behind {self.held!r}")
        taken, _, self.held = self.held.partition(end)
        return taken + end

    def line(self):
        return self.until(b"\r\n")

    def rest(self):
        """All that comes up to the end, or to a reset."""
        with contextlib.suppress(ConnectionResetError):
            while self.more():
                pass
        return self.held

    def send(self, given):
        self.socket.sendall(given)

    def ask(self, action, **fields):
        """Sends a request, and returns the reply; of a status all its blocks."""
        lines = [f"Action: {action}", *(f"{name}: {value}" for name, value in fields.items())]
        self.send("".join(f"{it}\r\n" for it in lines).encode() + b"\r\n")
        return self.until(b"Event: QueueStatusComplete\r\n") + self.until(b"\r\n\r\n") if action == "QueueStatus" else self.until(b"\r\n\r\n")

    def succeed(self, action, **fields):
        reply = self.ask(action, **fields)
        need(reply.startswith(b"Response: Success\r\n"), f"{action} is answered {reply!r}")
        return reply

    def leave(self):
        reply = self.ask("Logoff")
        need(reply == b"Response: Goodbye\r\nMessage: Thanks for all the fish.\r\n\r\n", f"a Logoff is answered {reply!r}")
        need(self.rest() == b"", "something comes behind the last reply")
        self.socket.close()

    def reset(self):
        """Breaks the connection off."""
        self.socket.setsockopt(socket.SOL_SOCKET, socket.SO_LINGER, struct.pack("ii", 1, 0))
        self.socket.close()


def shown(server, site=0):
    """The status that a site shows to a new client."""
    with server.logged_in(site) as it:
        report = it.ask("QueueStatus")
        it.leave()
    return report


def until_shown(server, site, text, seconds=SETTLED):
    """Waits until a site's status has a text."""
    ends = time.monotonic() + seconds
    while text not in shown(server, site):
        need(time.monotonic() < ends, f"site {site} doesn't show {text!r}")


def wrong_words():
    """Errors for wrong command lines, in their order, and for a port that is taken."""
    right = ["1", "24000", USER, SECRET, "sales"]
    changed = lambda at, word: ["serve", *right[:at], word, *right[at + 1:]]
    for text in (b"queue_sites serve", b"[default: 3600]", b"[default: 127.0.0.1]"):
        check(BUILT, ["serve", "--help"], 0, printed=text)
    for sites in ("0", "9", "two"):
        check(BUILT, changed(0, sites), 2, errors=b"invalid value '%b' for '<SITES>'" % sites.encode())
    for port in ("0", "65529", "http"):
        check(BUILT, changed(1, port), 2, errors=b"invalid value '%b' for '<PORT>'" % port.encode())
    check(BUILT, ["serve", *right[:-1]], 2, errors=b"required arguments were not provided")
    check(BUILT, ["serve", "--idle", "soon", *right], 2, errors=b"invalid value 'soon'")
    check(BUILT, ["serve", "--bind", "nowhere", *right], 2, errors=b"queue_sites: bad address\n")
    for places in ("0", "65", "few"):
        check(BUILT, ["serve", "--sessions", places, *right], 2, errors=b"invalid value '%b' for '--sessions <N>'" % places.encode())
    check(BUILT, ["serve", *right, "sales"], 2, errors=b"queue_sites: bad queue list\n")
    check(BUILT, ["serve", "1", "24000", "", "", "a", "a"], 2, errors=b"queue_sites: bad queue list\n")
    for word in ("a" * 81, "a\nb"):
        check(BUILT, ["serve", f"--greeting={word}", *right], 2, errors=b"queue_sites: bad greeting\n")
    for word in ("", "a" * 81, "a\nb", " a", "a\t"):
        for at, what in ((2, b"user"), (3, b"secret")):
            check(BUILT, changed(at, word), 2, errors=b"queue_sites: bad %b\n" % what)
    with socket.socket() as taken:
        taken.bind(("127.0.0.1", 0))
        taken.listen()
        port = taken.getsockname()[1]
        if port <= 65_528:
            taken_error = b"queue_sites: cannot listen on %d: Address already in use (os error 98)\n" % port
            check(BUILT, changed(1, str(port)), 1, errors=taken_error)
            elsewhere = b"queue_sites: cannot listen on %d: Cannot assign requested address (os error 99)\n" % port
            check(BUILT, ["serve", "--bind", "192.0.2.1", *changed(1, str(port))[1:]], 1, errors=elsewhere)
    with open("/dev/full", "wb") as full:
        check(BUILT, changed(1, str(free_ports(1))), 1, errors=b"queue_sites: write failed\n", out=full)
    return "its words and texts"


def ports_that_are_taken():
    """Where two of three ports are taken, the server names the first of them, also if its standard output fails. It prints nothing, and no longer
    listens at the port before."""
    port = free_ports(3)
    words, errors = ["serve", "3", str(port), USER, SECRET, "sales"], b"queue_sites: cannot listen on %d: Address already in use (os error 98)\n" % (port + 1)
    with socket.socket() as one, socket.socket() as other:
        for place, taken in enumerate((one, other), 1):
            taken.bind(("127.0.0.1", port + place))
            taken.listen()
        ran = run(BUILT, words, limit=60)
        expect((ran.returncode, ran.stdout, ran.stderr) == (1, b"", errors), f"the status is not 1, or something else is written than {errors!r}", ran)
        with open("/dev/full", "wb") as full:
            check(BUILT, words, 1, errors=errors, out=full)
    need(is_free(port), "the port before one that is taken isn't free")
    return "two ports of three that are taken"


def output_that_ends():
    """A server whose standard output takes its first line and not its second ends."""
    port = free_ports(2)
    line = b"listening 127.0.0.1:%d\n" % port

    def limit_files():
        signal.signal(signal.SIGXFSZ, signal.SIG_IGN)
        resource.setrlimit(resource.RLIMIT_FSIZE, (len(line), len(line)))

    with tempfile.TemporaryFile() as out:
        check(BUILT, ["serve", "2", str(port), USER, SECRET, "sales"], 1, errors=b"queue_sites: write failed\n", out=out, before=limit_files)
        out.seek(0)
        need(out.read() == line, f"a server whose output takes {len(line)} bytes writes other bytes than {line!r}")
    return "a standard output that takes one line of two"


def two_clients():
    """A client sees what another client of its site adds, which came after it."""
    with Server(1) as server, server.logged_in() as first, server.logged_in() as second:
        second.succeed("QueueAdd", Queue="sales", Interface="SIP/1")
        second.leave()
        need(b"Location: SIP/1\r\n" in first.ask("QueueStatus"), "a client doesn't see what another one has added")
        first.leave()
    return "two clients of a site at once"


def secrets_of_files():
    """The secret may stand in a file: in its first line, whose end is LF, CR LF or that of the file. Then there is no word for it."""
    with tempfile.TemporaryDirectory() as room:
        name = f"{room}/secret"
        words = ["serve", "--secret-file", name, "1", "24000", USER, "sales"]
        check(BUILT, words, 1, errors=b"queue_sites: cannot read the secret's file: No such file or directory (os error 2)\n")
        check(BUILT, ["serve", f"--secret-file={room}", *words[3:]], 1, errors=b"queue_sites: cannot read the secret's file: Is a directory (os error 21)\n")
        for content in (b"", b"\n", b"a" * 81, b" s3\n", b"s3 \n", b"s\0003\n"):
            with open(name, "wb") as file:
                file.write(content)
            check(BUILT, words, 2, errors=b"queue_sites: bad secret\n")
        for content, secret in ((b"s3", "s3"), (b"s3\n", "s3"), (b"s3\r\nmore\n", "s3"), (b"a" * 80 + b"\r\n" + b"b" * 9_999, "a" * 80), (b"@s3\n", "@s3")):
            with open(name, "wb") as file:
                file.write(content)
            with Server(1, secret=secret, options=["--secret-file", name]) as server:
                server.logged_in().leave()
                server.stop_silent()
        # A word that begins with @ is a secret like others, also if it names a file.
        with Server(1, secret=f"@{name}") as server:
            server.logged_in().leave()
            with server.client() as it:
                reply = it.ask("Login", Username=USER, Secret="@s3")
                need(reply == b"Response: Error\r\nMessage: Authentication failed\r\n\r\n", f"the content of a file is taken for @FILE: {reply!r}")
    return "secrets in files"


def greeting_of_the_words():
    """At each site the greeting is the server's own, or that of its command line; an ask before the login is refused, and so is a login with
    another secret."""
    for greeting, options in ((GREETING, []), ("Asterisk Call Manager/5.0.1", ["--greeting", "Asterisk Call Manager/5.0.1"])):
        with Server(8, options=options) as server:
            for site in range(8):
                with server.client(site) as it:
                    need(it.greeting == f"{greeting}\r\n".encode(), f"the greeting is {it.greeting!r}")
                    reply = it.ask("QueueAdd", Queue="sales", Interface="SIP/1")
                    need(reply == b"Response: Error\r\nMessage: Permission denied\r\n\r\n", f"an ask before the login is answered {reply!r}")
                    reply = it.ask("Login", Username=USER, Secret=f"{SECRET}3")
                    need(reply == b"Response: Error\r\nMessage: Authentication failed\r\n\r\n", f"another secret is answered {reply!r}")
            need(b"ListItems: 1\r\n" in shown(server), "a client that isn't logged in has added a member")
    return "its greetings and logins at each site"


def has_ipv6():
    """Whether this machine has a loopback address of IPv6."""
    try:
        with socket.socket(socket.AF_INET6) as it:
            it.bind(("::1", 0))
    except OSError:
        return False
    return True


def refuses_at(port, address):
    """Whether no server listens at an address and port."""
    try:
        Client(port, address=address).socket.close()
    except ConnectionRefusedError:
        return True
    return False


def addresses_of_the_words():
    """A server listens at the address of its command line alone, and else at 127.0.0.1 alone."""
    for address, other, options in (("127.0.0.1", "127.0.0.2", []), ("127.0.0.2", "127.0.0.1", ["--bind", "127.0.0.2"])):
        with Server(2, options=options, address=address) as server:
            for site in range(2):
                server.client(site).socket.close()
                need(refuses_at(server.port + site, other), f"a server of {address} answers at {other}")
    if has_ipv6():
        with Server(2, options=["--bind", "::1"], address="::1") as server:
            server.logged_in(1).leave()
            need(refuses_at(server.port, "127.0.0.1"), "a server of ::1 answers at 127.0.0.1")
            it = server.client()
            it.ask("Login", Username=USER)
            it.socket.close()
            server.stop_logged((0, it.name, "login failed"))
    return f"the addresses that it listens on, {'of IPv6 too' if has_ipv6() else 'of IPv4 alone, since this machine has no IPv6'}"


def sessions():
    """The cases of sessions that a server can be asked: what the client sends, with a Login before it where the session needed none, and what
    must be written. Each with user and secret, greeting and queues."""
    found = {}
    for it in cases.all_cases():
        if it.kind != "session":
            continue
        words = it.words()[len(cases.KINDS[it.kind].first):]
        if any(word.startswith("--take=") for word in words):  # of a site that has taken a frame, which no server can be given
            continue
        greeting = words.pop(0).removeprefix("--greeting=") if words[0].startswith("--greeting=") else None
        if words[0].startswith("--tries="):
            need(words.pop(0) == f"--tries={TRIES}", f"{it.name}: a server has {TRIES} tries")
        _, user, secret, *queues = words
        given, wanted = it.part("session"), it.part("expected")
        if not user:
            if b"login" in given.lower():
                continue
            line, _, rest = wanted.partition(b"\r\n")
            given = f"Action: Login\r\nUsername: {USER}\r\nSecret: {SECRET}\r\n\r\n".encode() + given
            wanted = line + b"\r\nResponse: Success\r\nMessage: Authentication accepted\r\n\r\n" + rest
        key = given, user or USER, secret or SECRET, greeting, tuple(queues)
        found.setdefault(key, (it.name, wanted))
    return [(name, key, wanted) for key, (name, wanted) in found.items()]


def sessions_of_files():
    """Sessions of the cases are written over a connection byte for byte, where the client's bytes come at once and where they come one by one."""
    them = sessions()
    need(them, "no case is a session of a server")
    for name, (given, user, secret, greeting, queues), wanted in them:
        options = [] if greeting is None else [f"--greeting={greeting}"]
        for size in (len(given) or 1, 1):
            with Server(1, queues, user, secret, options) as server, Client(server.port) as client:
                with contextlib.suppress(ConnectionError):
                    for at in range(0, len(given), size):
                        client.send(given[at:at + size])
                    client.socket.shutdown(socket.SHUT_WR)
                written = client.rest()
            need(written == wanted, f"{name}: in pieces of {size} bytes {first_difference(wanted, written) if written != wanted else ''}")
    return f"{len(them)} sessions of the cases, at once and byte by byte"


QUEUES = ("sales", "support")
REFUSALS = (b"Unable to add interface: Already there", b"Unable to remove interface: Not there", b"Interface not found")


def ask_by_lot(client, lot, asks):
    """Asks this often, at random. Each reply has the ID of its ask."""
    for number in range(asks):
        queue, interface, fields = lot.choice(QUEUES), f"SIP/{lot.randrange(20)}", {"ActionID": number}
        action = lot.choice(["QueueAdd", "QueueAdd", "QueueRemove", "QueuePause", "QueuePenalty", "QueueMemberRingInUse", "QueueStatus"])
        if action != "QueueStatus":
            fields |= {"Interface": interface, "Queue": queue}
        if action == "QueuePause":
            fields |= {"Paused": lot.choice(["yes", "no"]), "Reason": "lunch"}
        if action == "QueuePenalty":
            fields |= {"Penalty": lot.randrange(100)}
        if action == "QueueMemberRingInUse":
            fields |= {"RingInUse": lot.choice(["yes", "no"])}
        reply = client.ask(action, **fields)
        head, _, rest = reply.partition(b"\r\n")
        need(rest.startswith(b"ActionID: %d\r\n" % number), f"ask {number}, {action}, is answered {reply!r}")
        is_refused = any(rest.endswith(b"Message: %b\r\n\r\n" % it) for it in REFUSALS)
        need(head == b"Response: Success" or (head == b"Response: Error" and is_refused), f"{action} is answered {reply!r}")


def work(server, site, seed, asks):
    """A client of a site that asks at random."""
    with server.logged_in(site) as client:
        ask_by_lot(client, random.Random(seed), asks)
        client.leave()


def clients_at_once(sites=8, asks=1_000):
    """Four clients of each of eight sites ask at random, all at once; soon after the last, all sites show the same."""
    with Server(sites, QUEUES) as server, concurrent.futures.ThreadPoolExecutor(SLOTS * sites) as threads:
        jobs = [threads.submit(work, server, it % sites, it, asks) for it in range(SLOTS * sites)]
        for it in jobs:
            it.result()
        asked, reports = time.monotonic(), set()
        while len(reports) != 1:
            seconds = time.monotonic() - asked
            need(seconds < CAUGHT_UP, f"{seconds:.1f} seconds after the last ask there are {len(reports)} different reports")
            reports = {shown(server, site) for site in range(sites)}
        seconds = time.monotonic() - asked
        server.rests()
        server.stop_caught_up()
    return f"{SLOTS * sites} clients of {sites} sites, with {asks:,} asks each; all sites showed the same {seconds:.1f} seconds after the last"


def add_own(server, site, number, members):
    """A client of a site adds a number of members that no other client has."""
    with server.logged_in(site) as it:
        for member in range(members):
            it.succeed("QueueAdd", Queue="sales", Interface=f"SIP/{number}-{member}")
        it.leave()


def members_of_their_own(sites=8, members=100):
    """Four clients of each of eight sites add members that no other client adds: each site has them all soon after, also where a site's
    journal was full or frames were dropped."""
    with Server(sites) as server, concurrent.futures.ThreadPoolExecutor(SLOTS * sites) as threads:
        jobs = [threads.submit(add_own, server, it % sites, it, members) for it in range(SLOTS * sites)]
        for it in jobs:
            it.result()
        for site in range(sites):
            until_shown(server, site, b"ListItems: %d\r\n" % (SLOTS * sites * members + 1), CAUGHT_UP)
        server.stop_caught_up()
    return f"{SLOTS * sites * members:,} members of {sites} sites, each of which shows all"


def change_own(server, site, action, members):
    """A client of a site adds or removes members that no other site adds. Returns for how many of them that was done."""
    with server.logged_in(site) as it:
        done = sum(it.ask(action, Queue="sales", Interface=f"SIP/{site}-{number}").startswith(b"Response: Success\r\n") for number in range(members))
        it.leave()
    return done


def catches_up(log):
    """Whether each site of a log that fell behind a peer has caught up with it; and how often one fell behind. It may be behind for two causes at
    once: it has refused the peer's frames, and its link was full."""
    found = [OF_PEER.fullmatch(line) for line in log.splitlines()]
    need(all(found), f"the server logged {log!r}")
    behind, falls = collections.Counter(), 0
    for it in found:
        pair, falls_behind = (it[1], it[3]), it[2] == b"behind"
        behind[pair] += 1 if falls_behind else -1
        need(0 <= behind[pair] <= 2, f"{it[0]!r} is logged out of turn")
        falls += falls_behind
    need(not +behind, f"{+behind} have not caught up")
    return falls


def full_sites(sites, members=9_500, removed=5_000):
    """Two clients add more members at two of the sites, at once, than a site can know, and then remove some: soon after, all sites show the
    same."""
    with Server(sites) as server, concurrent.futures.ThreadPoolExecutor(2) as threads:
        change = lambda action, number: [it.result() for it in [threads.submit(change_own, server, site, action, number) for site in range(2)]]
        for site in range(2, sites):
            change_own(server, site, "QueueAdd", 500)
        added = change("QueueAdd", members)
        need(change("QueueRemove", removed) == [removed, removed], "a member that was added isn't removed")
        left, asked = sum(added) - 2 * removed + 500 * (sites - 2), time.monotonic()
        for site in range(sites):
            until_shown(server, site, b"ListItems: %d\r\n" % (left + 1), CAUGHT_UP)
        seconds = time.monotonic() - asked
        need(len({shown(server, site) for site in range(sites)}) == 1, "the sites don't show the same")
        falls = server.stop_caught_up()
        need(falls or sum(added) + 500 * (sites - 2) <= MOST_MEMBERS, "a site knows more members than it may")
    return f"{sum(added):,} members added at two of {sites} sites, which fell behind {falls} times: the same {seconds:.1f} seconds after room was made"


def sites_that_are_full():
    """Sites that could not take each other's frames take a whole once they have room."""
    return "; ".join(full_sites(sites) for sites in (2, 3))


def fifth_client():
    """A fifth client of a site waits, and is served when one leaves."""
    with Server(1) as server:
        first = [server.logged_in() for _ in range(SLOTS)]
        fifth = Client(server.port)
        need(not select.select([fifth.socket], [], [], 0.3)[0], "a fifth client is greeted")
        server.waits(fifth)
        first.pop().leave()
        need(fifth.line() == f"{GREETING}\r\n".encode(), "a fifth client isn't greeted")
        fifth.succeed("Login", Username=USER, Secret=SECRET)
        fifth.leave()
        for it in first:
            it.leave()
        server.stop_logged((0, fifth.name, "waits for a place"))
    return "a fifth client"


def places():
    """A site has as many places as it is given."""
    with Server(2, options=["--sessions", "1"]) as server:
        first, second = server.logged_in(1), Client(server.port + 1)
        need(not select.select([second.socket], [], [], 0.3)[0], "a second client is greeted where there is one place")
        server.waits(second, 1)
        first.leave()
        second.line()
        second.leave()
        server.stop_logged((1, second.name, "waits for a place"))
    with Server(1, options=["--sessions", "64"]) as server:
        for it in [server.logged_in() for _ in range(64)]:
            it.leave()
        server.stop_silent()
    return "one place, and 64"


def clients_in_line(times=10):
    """Of a site with one place, a client that waits is served before one that came later, which is not served before the place is free."""
    with Server(1, options=["--sessions", "1"]) as server:
        holder, waited = server.logged_in(), []
        for _ in range(times):
            second = Client(server.port)
            need(not select.select([second.socket], [], [], 0.2)[0], "a second client is greeted where there is one place")
            server.waits(second)
            third = Client(server.port)
            holder.leave()
            need(second.line() == f"{GREETING}\r\n".encode(), "a client that waits isn't greeted")
            need(not select.select([third.socket], [], [], 0.1)[0], "a client is greeted while another has the one place")
            server.waits(third)
            waited += [(0, it.name, "waits for a place") for it in (second, third)]
            second.leave()
            third.line()
            holder = third
        holder.leave()
        server.stop_logged(*waited)
    return f"{times} times two clients that wait for one place, in line"


def verbose_log():
    """Where it is asked for, clients that log in are logged, and when they leave, in whichever way; others aren't."""
    with Server(1, options=["--verbose"]) as server:
        one, other = server.logged_in(), server.logged_in()
        one.leave()
        other.reset()
        with server.client() as it:
            it.leave()
        third = server.logged_in()
        third.socket.shutdown(socket.SHUT_WR)
        need(third.rest() == b"", "something comes behind the last reply")
        third.socket.close()
        server.stop_logged(*((0, it.name, what) for it in (one, other, third) for what in ("logged in", "left")))
    return "a log of logins"


def failed_logins():
    """Each failed login is logged, with the client's address and without what it sent. After the fifth the session ends; a login that is accepted
    between them gives none back."""
    refusal = b"Response: Error\r\nMessage: Authentication failed\r\n\r\n"
    with Server(1) as server:
        one, other = server.client(), server.logged_in()
        for it in (one, other):
            for turn in range(TRIES):
                reply = it.ask("Login", Username=USER, Secret=f"{SECRET}{turn}")
                need(reply == refusal, f"a failed login is answered {reply!r}")
            need(it.rest() == b"", "something comes behind the reply to the last login")
            it.socket.close()
        many = server.client()
        many.send(9 * b"Action: Login\r\n\r\n")
        need(many.rest() == TRIES * refusal, "there are other replies to failed logins than five")
        many.socket.close()
        events = [(0, it.name, "login failed") for it in (one, other, many) for _ in range(TRIES)]
        server.stop_logged(*events, *((0, it.name, "closed after too many failed logins") for it in (one, other, many)))
    return "failed logins"


def replies_before_the_end():
    """A client gets the reply to its Logoff also where it has sent more behind it, and one that ends its own half gets all replies."""
    status = b"Action: QueueStatus\r\n\r\n"
    with Server(1) as server:
        for _ in range(20):
            with Client(server.port) as it:
                it.send(b"Action: Logoff\r\n\r\n" + 100 * status)
                need(it.rest().endswith(b"Thanks for all the fish.\r\n\r\n"), "the reply to a Logoff is lost")
        with server.logged_in() as it:
            it.send(200 * status)
            it.socket.shutdown(socket.SHUT_WR)
            need(it.rest().count(b"Event: QueueStatusComplete\r\n") == 200, "replies are lost where the client ends its half")
    return "replies before the end of a connection"


def drip(it, given, every, seconds):
    """A client sends `given` again and again, every `every` seconds, until its place is lost or for `seconds` seconds."""
    ends = time.monotonic() + seconds
    with contextlib.suppress(OSError):
        while time.monotonic() < ends:
            it.send(given)
            time.sleep(every)


def clients_that_linger():
    """Clients that don't close their connections behind their Logoffs, two of which send on, lose their places soon: a fifth is served."""
    with Server(1) as server, concurrent.futures.ThreadPoolExecutor(SLOTS) as threads:
        them = [server.client() for _ in range(SLOTS)]
        fifth, started = Client(server.port), time.monotonic()
        for it in them:
            it.ask("Logoff")
        jobs = [threads.submit(drip, it, b"a", 0.1, 8) for it in them[:2]]
        served = [fifth, *(Client(server.port) for _ in range(SLOTS - 1))]
        for it in served:
            it.line()
        waited = time.monotonic() - started
        need(waited < 6, f"places are held {waited:.1f} seconds behind a Logoff")
        for it in jobs:
            it.result()
        for it in [*them, *served]:
            it.socket.close()
        # Of the others that wait, those are logged whose turn comes before a place is left.
        log = server.stop()
        waiting = b"queue_sites: site 0: client %b: waits for a place\n" % fifth.name.encode()
        need(waiting in log and all(it.endswith(b": waits for a place") for it in log.splitlines()), f"the server logged {log!r}")
    return "clients that linger behind their Logoffs"


class Model:
    """The replies of a site with the queue sales to some messages, by rules of its own."""

    def __init__(self):
        self.members = set()

    def reply(self, message, is_logged_in):
        """The reply to a message, given as pairs of names and values."""
        fields = {name.lower(): value for name, value in reversed(message)}
        answer = lambda response, text: f"Response: {response}\r\nMessage: {text}\r\n\r\n".encode()
        if not fields.get("action"):
            return answer("Error", "Missing action in request")
        if not is_logged_in:
            return answer("Error", "Permission denied")
        if fields["action"] not in ("QueueAdd", "QueueRemove"):
            return answer("Error", "Invalid/unknown command")
        for name in ("Queue", "Interface"):
            if not fields.get(name.lower()):
                return answer("Error", f"'{name}' not specified.")
        if fields["queue"] != "sales":
            return answer("Error", "No such queue")
        interface, is_there = fields["interface"], fields["interface"] in self.members
        if fields["action"] == "QueueAdd":
            self.members.add(interface)
            return answer("Error", "Unable to add interface: Already there") if is_there else answer("Success", "Added interface to queue")
        self.members.discard(interface)
        return answer("Success", "Removed interface from queue") if is_there else answer("Error", "Unable to remove interface: Not there")


def message_by_lot(lot, prefix):
    """A message at random, as pairs of names and values."""
    message = [("Action", lot.choice(["QueueAdd", "QueueAdd", "QueueRemove", "Ping", "Dance", ""]))]
    if lot.random() < 0.9:
        message.append((lot.choice(["Queue", "queue"]), lot.choice(["sales", "sales", "sales", "nowhere", ""])))
    if lot.random() < 0.9:
        message.append(("Interface", f"SIP/{prefix}-{lot.randrange(9)}"))
    message += [(f"X{number}", "a" * lot.randrange(30)) for number in range(lot.randrange(4))]
    lot.shuffle(message)
    return message


def spelled(message, lot):
    """The bytes of a message, whose lines end in LF or CR LF."""
    end = lambda: lot.choice([b"\n", b"\r\n"])
    return b"".join(f"{name}: {value}".encode() + end() for name, value in message) + end()


def hostile_stream(seed):
    """A stream at random: messages, a fault, and up to 300 KB of messages behind it. The messages before the fault, the bytes of all, and the fault's
    words with how many whole messages stand behind the last of those before it."""
    lot = random.Random(seed)
    before = [message_by_lot(lot, seed) for _ in range(lot.randrange(1, 200))]
    after = [message_by_lot(lot, seed) for _ in range(lot.randrange(5_000))]
    text, fault = lot.choice([
        ("line too long", b"Action: QueueAdd\r\nQueue: " + b"a" * lot.randrange(1_018, 9_000)),
        ("line too long", b"\0" * 1_025),
        ("too many fields", b"Action: Ping\r\n" + 128 * b"X: a\r\n"),
    ])
    given = [spelled(it, lot) for it in before]
    rest = fault + b"\r\n\r\n" + b"".join(spelled(it, lot) for it in after)
    return before, b"".join(given), rest, (text, len(after) + 1)


def send_all(it, given, took):
    """Sends bytes, as far as the server takes them, and adds the seconds that this takes to a list."""
    begun = time.monotonic()
    with contextlib.suppress(OSError):
        it.send(given)
    took.append(time.monotonic() - begun)


def hostile_session(server, seed, stream, model):
    """A client that sends a hostile stream at once gets the replies to all messages before the fault. Returns its name, the words of its fault,
    how many commands stand behind, and whether it was fast: a server reads no more from a client that pauses for 0.2 seconds."""
    before, given, rest, fault = stream
    login = f"Action: Login\r\nUsername: {USER}\r\nSecret: {SECRET}\r\n\r\n".encode()
    wanted = f"{GREETING}\r\nResponse: Success\r\nMessage: Authentication accepted\r\n\r\n".encode()
    wanted += b"".join(model.reply(it, True) for it in before)
    took = []
    with Client(server.port) as it:
        sender = threading.Thread(target=send_all, args=(it, login + given + rest, took))
        sender.start()
        written = it.rest()
        sender.join()
        need(written == wanted, f"hostile stream {seed}: {first_difference(wanted, written) if written != wanted else ''}")
        return it.name, *fault, took[0] < 0.2


def hostile_streams(streams=40, times=20):
    """Random streams that have a fault, with many bytes after it, get the right replies byte for byte up to the fault, again and again."""
    them = [hostile_stream(seed) for seed in range(streams)]
    with Server(1) as server, concurrent.futures.ThreadPoolExecutor(SLOTS) as threads:
        models = [Model() for _ in range(streams)]
        events = []
        for _ in range(times):
            events += threads.map(lambda seed: hostile_session(server, seed, them[seed], models[seed]), range(streams))
        server.read_log(lambda logged: logged.count(b": session ended: ") >= len(events))
        ended = re.compile(r"queue_sites: site 0: client (\S+): session ended: (.+); (\d+) commands behind it were not done")
        logged = collections.defaultdict(list)
        for line in server.stop().decode().splitlines():
            if not line.endswith(": waits for a place"):
                need(it := ended.fullmatch(line), f"of hostile streams the server logged {line!r}")
                logged[it[1]].append((it[2], int(it[3])))
        for name, fault, count, is_fast in events:
            need(logged[name], f"of the hostile client {name} the server logged nothing")
            said, number = logged[name].pop(0)
            is_right = number == count or (number < count and not is_fast)
            need(said == fault and is_right, f"of the hostile client {name} with {fault} and {count} commands the server logged {said} and {number}")
        need(not any(logged.values()), f"of hostile streams the server logged {dict(logged)!r} too")
        fast = sum(is_fast for *_, is_fast in events)
        need(2 * fast > len(events), f"only {fast} of {len(events)} hostile clients were fast enough to show what a server counts")
    return f"{streams} hostile streams, {times} times over"


def hostile_clients():
    """Clients of one site send garbage, break off at each moment, and come by the hundreds; a client of the other site is served meanwhile, and
    then one of the first too. The server needs no more memory afterwards."""
    lot = random.Random(7)
    with Server(2) as server:
        shown(server), shown(server, 1)
        before = server.memory()
        login = f"Action: Login\r\nUsername: {USER}\r\nSecret: {SECRET}\r\n\r\n".encode()
        asked = login + b"Action: QueueAdd\r\nQueue: sales\r\nInterface: SIP/1\r\n\r\n" + 50 * b"Action: QueueStatus\r\n\r\n"
        for turn in range(100):
            with Client(server.port) as it, contextlib.suppress(ConnectionError):
                it.send(lot.randbytes(lot.randrange(5_000)))
                if turn % 2:
                    it.socket.shutdown(socket.SHUT_WR)
                    it.rest()
        for length in [*range(0, len(login) + 60, 3), len(asked)]:
            with Client(server.port) as it, contextlib.suppress(ConnectionError):
                if length % 2:
                    it.line()
                it.send(asked[:length])
                it.reset()
        many = []
        for _ in range(200):
            it = socket.socket()
            it.setblocking(False)
            it.connect_ex(("127.0.0.1", server.port))
            many.append(it)
        need(b"ListItems: " in shown(server, 1), "a client of the other site isn't served")
        for it in many:
            it.close()
        need(b"ListItems: " in shown(server), "no client is served behind many")
        need(server.memory() - before < 64 << 20, f"the server had {before:,} bytes of memory and has {server.memory():,}")
        need(server.process.poll() is None, "the server has ended")
        known = re.compile(rb"queue_sites: site 0: client \S+: (waits for a place|session ended: (line too long|too many fields); \d+ commands behind it were not done)")
        log = server.stop()
        need(all(map(known.fullmatch, log.splitlines())), f"the server logged {log!r}")
    return "garbage, resets, and 200 connections"


def no_connections():
    """If the system has no connection to give, each thread that waits for one logs that once, and waits; the server serves a client when
    there is a connection again."""
    with Server(1) as server:
        time.sleep(0.3)
        files = max(map(int, os.listdir(f"/proc/{server.process.pid}/fd"))) + 1
        resource.prlimit(server.process.pid, resource.RLIMIT_NOFILE, (files + 2, files + 2))
        # Each thread that waits has a file already, which it gives up behind its next client.
        for _ in range(4 * SLOTS):
            server.logged_in().leave()
        first = [server.logged_in() for _ in range(2)]
        more = [Client(server.port) for _ in range(2)]
        server.rests()
        need(not select.select([it.socket for it in more], [], [], 0)[0], "a client is greeted for which there is no file")
        for it in first:
            it.leave()
        for it in more:
            it.line()
            it.leave()
        log = server.stop()
        need(re.fullmatch(rb"(queue_sites: site 0: no connection: .+\n){1,12}", log), f"no connections are logged as {log!r}")
    return "a system that has no connections to give"


def connections_not_prepared():
    """If a system call fails that prepares a connection, it is closed without a greeting, and one line says which call and why. The next client
    is served."""
    with tempfile.TemporaryDirectory() as room:
        library = compiled_refusal(room, "refuse_option")
        if library is None:
            return NO_COMPILER
        for option in ("nodelay", "write_timeout"):
            with Server(1, more={"LD_PRELOAD": library, "REFUSED_OPTION": option}) as server:
                first = Client(server.port)
                need(first.rest() == b"", "a client is greeted whose connection could not be prepared")
                first.socket.close()
                server.logged_in().leave()
                server.stop_logged((0, first.name, f"connection not prepared: set_{option}: No buffer space available (os error 105)"))
    return "connections that can't be prepared"


def too_many_reads():
    """A client that makes its site read 1,000,000 times, at most 1,024 bytes each, loses its session then. All replies to what was read before
    arrive, and what came behind is counted."""
    # Few replies, and many bytes.
    message = b"Action: Dance\r\n" + 120 * (b"X: " + 1_000 * b"a" + b"\r\n") + b"\r\n"
    with Server(1) as server:
        it, sent, ended = server.logged_in(), 0, threading.Event()

        def read():
            it.rest()
            ended.set()

        reader = threading.Thread(target=read)
        it.socket.settimeout(3 * PATIENCE)
        reader.start()
        while not ended.is_set():
            it.send(message)
            sent += 1
        reader.join()
        reply = b"Response: Error\r\nMessage: Invalid/unknown command\r\n\r\n"
        answered = it.held.count(reply)
        need(it.held == answered * reply, "a client that makes its site read too often gets other bytes than whole replies")
        need(sent * len(message) >= 1_000_000 and answered * len(message) <= 1_024 * 1_000_000, f"{answered} of {sent} commands are answered")
        server.stop_logged((0, it.name, f"session ended: too many reads; {sent - answered} commands behind it were not done"))
        it.socket.close()
    return f"1,000,000 reads, behind {answered:,} commands of {sent:,}"


def fill(server, site, members):
    """Adds a number of members at a site."""
    with server.logged_in(site) as it:
        for number in range(members):
            it.succeed("QueueAdd", Queue="sales", Interface=f"SIP/{number}")
        it.leave()


def deaf_client(server, site):
    """A client that asks for far more than the system holds for it, and reads nothing."""
    it = server.logged_in(site)
    it.socket.setblocking(False)
    for _ in range(1_000):
        with contextlib.suppress(BlockingIOError):
            it.socket.send(b"Action: QueueStatus\r\n\r\n")
    return it


def next_clients(server, site, number, started):
    """`number` clients of a site whose places are held are greeted once these are given up, and no earlier."""
    most = SLOT_SECONDS + MORE_SECONDS
    them = [Client(server.port + site, most) for _ in range(number)]
    for it in them:
        with contextlib.suppress(TimeoutError):
            it.line()
        waited = time.monotonic() - started
        need(SLOT_SECONDS - 1 < waited < most, f"a client of site {site} waits {waited:.1f} seconds for its greeting")
    for it in them:
        it.leave()


def read_slowly(it):
    """A client that is logged in gets one report that is longer than what the system holds for it, though it reads a little now and then alone, so
    that the server waits to write for longer than a client may read nothing."""
    it.socket.setsockopt(socket.SOL_SOCKET, socket.SO_RCVBUF, 65_536)
    it.send(b"Action: QueueStatus\r\nActionID: " + 1_000 * b"a" + b"\r\n\r\nAction: Logoff\r\n\r\n")
    ends, read = time.monotonic() + SLOT_SECONDS + MORE_SECONDS, []
    while time.monotonic() < ends:
        read.append(it.socket.recv(32_768))
        time.sleep(0.5)
    slowly = sum(map(len, read))
    written = b"".join(read) + it.rest()
    need(len(written) - slowly > 4 << 20, f"a report of {len(written):,} bytes is too short for a client that reads {slowly:,}")
    need(written.endswith(b"all the fish.\r\n\r\n"), f"a client that reads slowly gets {len(written):,} bytes of its report")


def read_too_slowly(it, seconds):
    """A client that is logged in reads fewer bytes than it must, though it reads some, for `seconds` seconds."""
    it.socket.setsockopt(socket.SOL_SOCKET, socket.SO_RCVBUF, 65_536)
    it.send(20 * b"Action: QueueStatus\r\n\r\n")
    ends = time.monotonic() + seconds
    with contextlib.suppress(OSError):
        while time.monotonic() < ends:
            it.socket.recv(100)
            time.sleep(0.2)


def clients_that_hold_on():
    """Clients that send nothing, or empty lines alone, or a message that never ends, or messages but no login, and those that never read what they
    ask for, or read very little, lose their places; others are served then, and no earlier. One that reads slowly keeps its place."""
    most = SLOT_SECONDS + MORE_SECONDS
    with Server(2, options=SHORTER) as server, concurrent.futures.ThreadPoolExecutor(2 * SLOTS) as threads:
        fill(server, 1, 5_000)
        until_shown(server, 0, b"ListItems: 5001\r\n")
        slow, started = server.logged_in(), time.monotonic()
        held = [server.client() for _ in range(SLOTS - 1)]
        deaf = [deaf_client(server, 1) for _ in range(SLOTS - 1)]
        sleepy = server.logged_in(1)
        jobs = [threads.submit(next_clients, server, 0, len(held), started), threads.submit(next_clients, server, 1, len(deaf), started)]
        drips = (b"\r\n", b"A: b\r\n", b"Action: Ping\r\n\r\n")
        jobs += [threads.submit(drip, it, given, 0.5, most) for it, given in zip(held, drips)]
        jobs += [threads.submit(read_slowly, slow), threads.submit(read_too_slowly, sleepy, most)]
        for it in jobs:
            it.result()
        for it in [slow, *held, *deaf, sleepy]:
            it.socket.close()
        server.read_log(lambda logged: logged.count(b": given up: ") >= len(held) + len(deaf) + 1)
        log = server.stop()
        logged = [(0, it.name, f"given up: no login within {SLOT_SECONDS} s") for it in held]
        logged += [(1, it.name, f"given up: less than 4096 bytes read in {SLOT_SECONDS} s") for it in (*deaf, sleepy)]
        lines = [it for it in log.decode().splitlines() if not it.endswith(": waits for a place")]
        need(sorted(lines) == sorted(f"queue_sites: site {site}: client {name}: {text}" for site, name, text in logged), f"the server logged {log!r}")
    return "clients that send nothing, no end or no login, that read nothing or too little, and that read slowly"


def four_silent_clients():
    """Four clients of a site that send one message each, and are silent then, don't keep a fifth out for more than the time for a login."""
    with Server(1, options=SHORTER) as server:
        started = time.monotonic()
        four = [server.client() for _ in range(SLOTS)]
        for it in four:
            it.ask("Ping")
        fifth = Client(server.port)
        fifth.line()
        waited = time.monotonic() - started
        need(SLOT_SECONDS - 1 < waited < SLOT_SECONDS + 4, f"a fifth client waits {waited:.1f} seconds")
        for it in four:
            need(it.rest() == b"", "a client that is disconnected gets bytes")
            it.socket.close()
        fifth.succeed("Login", Username=USER, Secret=SECRET)
        fifth.leave()
        logged = [(0, it.name, f"given up: no login within {SLOT_SECONDS} s") for it in four]
        server.stop_logged((0, fifth.name, "waits for a place"), *logged)
    return "four clients that are silent behind one message"


def fail_to_log_in(server, clients):
    """`clients` clients fail to log in, one after another, five times each."""
    for _ in range(clients):
        with server.client() as it:
            it.send(TRIES * b"Action: Login\r\n\r\n")
            need(it.rest().count(b"Authentication failed") == TRIES, "a failed login isn't answered")


def deaf_standard_error(clients=300):
    """Where nobody reads standard error, which is full then, clients are served on. What was logged meanwhile, and isn't written, is counted."""
    with Server(2, options=["--sessions", "64"]) as server, concurrent.futures.ThreadPoolExecutor(SLOTS) as threads:
        for it in [threads.submit(fail_to_log_in, server, clients) for _ in range(SLOTS)]:
            it.result()
        started = time.monotonic()
        it = server.logged_in()
        it.succeed("QueueAdd", Queue="sales", Interface="SIP/1")
        it.leave()
        until_shown(server, 1, b"Location: SIP/1\r\n")
        need(time.monotonic() - started < 8, "a server whose log nobody reads serves slowly")
        all_events = clients * SLOTS * (TRIES + 1)
        dropped = lambda logged: sum(map(int, re.findall(rb"queue_sites: (\d+) log lines dropped\n", logged)))
        counted = lambda logged: dropped(logged) + sum(b": login failed" in it or b": closed after" in it for it in logged.splitlines())
        logged = server.read_log(lambda logged: counted(logged) >= all_events)
        need(dropped(logged) > 0, f"of {all_events} lines none is logged as dropped")
        need(counted(logged) == all_events, f"{counted(logged)} lines are logged or dropped of {all_events}")
    return f"a standard error that nobody reads: {dropped(logged):,} lines dropped"


def idle_clients():
    """A client that has logged in and is silent for the idle time loses its place then, and no earlier; one that asks in time doesn't, nor does one
    that sends some of a message in time. Where the idle time is 0 a silent client keeps its place."""
    with Server(1, options=["--idle", "3"]) as server, concurrent.futures.ThreadPoolExecutor(1) as threads:
        began = time.monotonic()
        quiet, busy, slow = server.logged_in(), server.logged_in(), server.logged_in()
        started = time.monotonic()
        job = threads.submit(drip, slow, b"A", 0.4, 7)
        while time.monotonic() < started + 7.2:
            is_over = select.select([quiet.socket], [], [], 0)[0] != []
            need(time.monotonic() - began > 2.9 or not is_over, "a silent client loses its place too early")
            need(time.monotonic() - started < 7 or is_over, "a silent client keeps its place")
            busy.ask("QueueStatus")
            time.sleep(0.2)
        need(quiet.rest() == b"", "a silent client gets bytes")
        job.result()
        slow.send(b": b\r\n\r\n")
        need(b"Message: Missing action in request\r\n" in slow.until(b"\r\n\r\n"), "a client that sends slowly isn't answered")
        slow.leave()
        busy.leave()
        server.stop_logged((0, quiet.name, "given up: silent for 3 s"))
    with Server(1, options=["--idle", "0"]) as server, server.logged_in() as it:
        time.sleep(2)
        it.leave()
    return "clients that are silent for the idle time"


def long_reports():
    """A site whose reports are long keeps no more of them than its journal may: here 250 are asked for, which have 204 megabytes."""
    with Server(1) as server:
        fill(server, 0, 5_000)
        with server.logged_in() as it:
            it.ask("QueueStatus")
            before, bytes_read = server.memory(), 0
            for _ in range(250):
                bytes_read += len(it.ask("QueueStatus"))
            need(bytes_read > 160 << 20, f"250 reports have {bytes_read:,} bytes")
            grown = server.memory() - before
            need(grown < 128 << 20, f"{grown:,} bytes of memory are kept of reports of {bytes_read:,}")
            it.leave()
    return f"250 reports of {bytes_read >> 20} megabytes in all"


def signals():
    """SIGTERM and SIGINT end the server, and its ports are free again at once."""
    signal.signal(signal.SIGINT, signal.default_int_handler)
    for by in (signal.SIGTERM, signal.SIGINT):
        with Server(2) as server:
            it = server.logged_in()
            server.stop(by)
            need(server.process.returncode == -by, f"{by.name} ends the server with status {server.process.returncode}")
            need(it.rest() == b"", "a connection of a server that has ended isn't closed")
            need(is_free(server.port) and is_free(server.port + 1), "the ports of a server that has ended aren't free")
    return "SIGTERM and SIGINT"


def serves_on(server):
    """A server of two sites, one of whose allocations was refused, serves four clients of each site at once, and a change at the first
    site reaches the second."""
    for _ in range(3):
        for site in range(2):
            with contextlib.suppress(OSError, Failed):
                shown(server, site)
    try:
        for site in range(2):
            for it in [server.logged_in(site) for _ in range(SLOTS)]:
                it.leave()
        with server.logged_in() as it:
            it.succeed("QueueAdd", Queue="sales", Interface="SIP/2")
            it.leave()
        # SIP/1 was added at the first site before, in a session that came to its end.
        for text in (b"Location: SIP/2\r\n", b"Location: SIP/1\r\n"):
            until_shown(server, 1, text, CAUGHT_UP)
    except OSError as why:
        raise Failed(f"a server one of whose allocations was refused serves no client: {why}") from None


def why_it_ends(server):
    """Why a session doesn't come to its end; nothing where it does."""
    try:
        with server.logged_in() as it:
            it.ask("QueueAdd", Queue="sales", Interface="SIP/1")
            it.ask("QueueStatus")
            it.leave()
    except (OSError, Failed) as why:
        return repr(why)
    return ""


def run_refused(more, options=()):
    """Runs a server of two sites with one session, with this environment, until the session or the server has ended. Returns the server,
    and its status, none if it hasn't ended."""
    server = Server(2, options=options, more=more)
    try:
        if not server.wait_until_it_listens():
            server.process.wait(PATIENCE)
        ends = time.monotonic() + PATIENCE
        # A client that connects at the moment in which the server ends may never learn that, so whether the server has ended is checked
        # after it.
        while (why := why_it_ends(server)) and server.process.poll() is None:
            need(time.monotonic() < ends, f"a server with {more} neither ends nor serves a client: {why}")
            time.sleep(0.02)
        return server, server.process.poll()
    except BaseException:
        server.stop()
        raise


def refused_allocations(room):
    """With each allocation refused in turn the server ends with status 1 and a text before it serves a client, or serves on, and logs
    that a session has ended."""
    library = compiled_refusal(room)
    if library is None:
        return NO_COMPILER
    counted = f"{room}/allocations"
    environment = lambda number: {"LD_PRELOAD": library, "REFUSED_ALLOCATION": str(number), "ALLOCATIONS_FILE": counted}
    run_refused(environment(0))[0].stop()
    with open(counted, encoding="ascii") as file:
        allocations = int(file.read())
    ended, lines = 0, []
    for number in range(1, allocations + 1):
        server, status = run_refused(environment(number))
        try:
            if status is None:
                serves_on(server)
        finally:
            log = server.stop()
        if status is None:
            lines += log.splitlines()
            continue
        ended += 1
        texts = (b"queue_sites: out of memory\n", b"queue_sites: no thread\n")
        need(status == 1 and log in texts, f"where allocation {number} is refused the status is {status}, and the server logs {log!r}")
        need(server.lines().startswith(server.printed), f"where allocation {number} is refused {server.printed!r} is printed")
    for it in lines:
        need(LOGGED_OUT_OF_MEMORY.fullmatch(it), f"where an allocation is refused the server logs {it!r}")
    need(any(b"session ended" in it for it in lines), "no session is logged as ended when out of memory")
    return f"each of the {allocations} allocations of a short run refused in turn: {ended} ended it, the others let it serve on"


def run_all():
    """Runs all tests. Returns lines that report what was run."""
    tests = [wrong_words, ports_that_are_taken, output_that_ends, two_clients, secrets_of_files, greeting_of_the_words, addresses_of_the_words,
             sessions_of_files, clients_at_once, members_of_their_own,
             sites_that_are_full, fifth_client, places, clients_in_line, verbose_log, failed_logins, replies_before_the_end, clients_that_linger,
             hostile_streams, hostile_clients, no_connections, connections_not_prepared, too_many_reads, idle_clients, long_reports, clients_that_hold_on, four_silent_clients, deaf_standard_error, signals]
    with tempfile.TemporaryDirectory() as room:
        return [*(test() for test in tests), refused_allocations(room)]


if __name__ == "__main__":
    try:
        print("\n".join(run_all()))
    except Failed as why:
        sys.exit(f"test: {why}")
