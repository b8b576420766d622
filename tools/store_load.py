"""Measures a server with stores, with the clients of tools/load.c on the disk of the system's temporary folder, and prints a table:

- durable adds and removals a second, by 1, 4 and 32 clients of one site; beside it commits of one such row a second by Python's sqlite3 on
  the same disk, and by Redis with `appendfsync always`, where Debian's redis-server is installed; then all of these with syncs that take
  longer, as on slower disks
- how long a status waits while 32 clients add, and while nobody does
- how long a site takes to listen that has 16,384 members and 10,000 steps, and how long a change waits for its next base

Each load runs until the host takes little from it, as tools/server_load.py says. TMPDIR names another folder. It takes one to twelve
minutes."""
import concurrent.futures
import contextlib
import os
import shutil
import socket
import sqlite3
import subprocess
import sys
import tempfile
import time

from program_tests import Failed, compiled_refusal
from server_load import compiled_clients, least_stolen, measured
from server_tests import BUILT, PATIENCE, free_ports, need
from store_tests import COLUMNS, MOST_ROWS, rows_of, stored

SECONDS = 3
# How many microseconds longer a sync takes, beside those of a timer, some 55.
SYNC_DELAYS = [50, 1_000]
CLIENTS = [1, 4, 32]
MEMBERS = 16_384
# The body of a row that adds a member, as long as one of the load.
BODY = bytes(40)


def show(what, clients, load):
    share, (count, _, half, most, longest) = least_stolen(load)
    times = " ".join(f"{it / 1e3:>9,.0f} us" for it in (half, most, longest))
    print(f"{what:<38} {clients:>7} {count / SECONDS:>9,.0f} {times} {share:>7.1%}", flush=True)


def commits():
    """Commits one row after another by Python's sqlite3, as a site's store has them: with a log, each of which is on the disk. Returns what
    `measured` does."""
    times = []
    with tempfile.TemporaryDirectory() as folder, contextlib.closing(sqlite3.connect(f"{folder}/rows.db", isolation_level=None)) as store:
        for it in ("PRAGMA locking_mode = EXCLUSIVE", "PRAGMA journal_mode = WAL", "PRAGMA synchronous = FULL", f"CREATE TABLE step {COLUMNS}"):
            store.execute(it)
        ends = time.monotonic() + SECONDS
        while (started := time.monotonic_ns()) < ends * 1e9:
            store.execute("INSERT INTO step VALUES (?, ?, ?, ?, ?)", (len(times), 1, 2, BODY, "QueueAdd sales SIP/own-0"))
            times.append(time.monotonic_ns() - started)
    times.sort()
    return len(times), 0, times[len(times) // 2], times[len(times) * 99 // 100], times[-1]


def commits_apart(more):
    """What `commits` measures in a process of its own, with more words in its environment."""
    words = [sys.executable, "-B", __file__, "commits"]
    ran = subprocess.run(words, env={**os.environ, **more}, stdout=subprocess.PIPE, text=True, check=True)
    return [int(it) for it in ran.stdout.split()]


def durable_adds(program, clients, more):
    """How many adds and removals a site with a store answers."""
    with tempfile.TemporaryDirectory() as folder, stored(folder, 1, 64, more=more) as server:
        return measured(program, "manager", server.port, 1, clients, SECONDS, "add", server.user, server.secret)


def statuses(program, adding):
    """How long a client waits for a status while others add."""
    with tempfile.TemporaryDirectory() as folder, stored(folder, 1, 64) as server, concurrent.futures.ThreadPoolExecutor(1) as threads:
        load = lambda clients, kind: measured(program, "manager", server.port, 1, clients, SECONDS, kind, server.user, server.secret)
        job = threads.submit(load, adding, "add") if adding else None
        figures = load(1, "status")
        if job:
            job.result()
        return figures


def add_all(server, first, number, clients=32):
    """Adds members, by many clients at once, or changes them where they are there. Returns the seconds that the slowest reply took."""
    def work(client_number):
        slowest = 0
        with server.logged_in() as it:
            for member in range(first + client_number, first + number, clients):
                started = time.monotonic()
                it.ask("QueueAdd" if member < MEMBERS else "QueuePenalty", Queue="sales", Interface=f"SIP/{member % MEMBERS}", Penalty=member % 1_000)
                slowest = max(slowest, time.monotonic() - started)
        return slowest

    with concurrent.futures.ThreadPoolExecutor(clients) as threads:
        return max(threads.map(work, range(clients)))


def start_of_a_full_site():
    """How many rows a site has with 16,384 members and nearly 10,000 steps, how long it takes to listen and to answer, and how long a change
    takes at most beside 32 clients, first without a base and then with one."""
    with tempfile.TemporaryDirectory() as folder:
        with stored(folder, 1, 64) as server:
            add_all(server, 0, MEMBERS)
            # A base is put behind 10,000 rows.
            rows = len(rows_of(folder, 0))
            add_all(server, MEMBERS, MOST_ROWS - 200 - rows)
            rows = len(rows_of(folder, 0))
            server.stop()
        started = time.monotonic()
        with stored(folder, 1, 64) as server:
            listens = time.monotonic() - started
            with server.logged_in() as it:
                answers = time.monotonic() - started
                need(b"ListItems: %d\r\n" % (MEMBERS + 1) in it.ask("QueueStatus"), "a full site that starts again lacks members")
            without = add_all(server, MEMBERS, 100)
            need(len(rows_of(folder, 0)) > rows, "a base is put too early")
            beside = add_all(server, MEMBERS, 2_000)
            need(len(rows_of(folder, 0)) < rows, "no base is put")
    return rows, listens, answers, without, beside


@contextlib.contextmanager
def durable_redis(room, more):
    """A Redis that has each change on the disk before it answers, at a port of its own."""
    port = free_ports(1)
    words = ["redis-server", "--port", str(port), "--bind", "127.0.0.1", "--save", "", "--appendonly", "yes", "--appendfsync", "always", "--dir", room]
    environment = {**os.environ, **more}
    with subprocess.Popen(words, env=environment, stdout=subprocess.DEVNULL, stderr=subprocess.DEVNULL) as process:
        try:
            ends = time.monotonic() + PATIENCE
            while True:
                with contextlib.suppress(OSError), socket.create_connection(("127.0.0.1", port), 1):
                    break
                need(time.monotonic() < ends, "redis-server doesn't listen")
                time.sleep(0.02)
            yield port
        finally:
            process.terminate()


def redis_load(program, clients, more):
    """How many durable changes Redis answers."""
    with tempfile.TemporaryDirectory() as folder, durable_redis(folder, more) as port:
        return measured(program, "redis", port, 1, clients, SECONDS, "hset")


def has_redis():
    return shutil.which("redis-server", path=f"{os.environ['PATH']}:/usr/sbin") is not None


def changes(program, more):
    """Shows how many changes are done a second, with more words in the environment of each program that does them."""
    show("commit by Python's sqlite3", 1, lambda: commits_apart(more))
    for clients in CLIENTS:
        show("add, durable", clients, lambda it=clients: durable_adds(program, it, more))
    for clients in CLIENTS if has_redis() else []:
        show("Redis HSET, appendfsync always", clients, lambda it=clients: redis_load(program, it, more))


def main():
    need(os.path.exists(BUILT), f"{BUILT} isn't built")
    print(f"{'request':<38} {'clients':>7} {'a second':>9} {'50%':>12} {'99%':>12} {'all':>12} {'stolen':>7}")
    with tempfile.TemporaryDirectory() as room:
        program = compiled_clients(room)
        changes(program, {})
        slow_disk = compiled_refusal(room, "slow_disk")
        for delay in SYNC_DELAYS:
            print(f"each sync takes {delay} us more")
            changes(program, {"LD_PRELOAD": slow_disk, "SYNC_DELAY": str(delay)})
        show("status, nobody adds", 1, lambda: statuses(program, 0))
        show("status, while 32 clients add", 1, lambda: statuses(program, 32))
    rows, listens, answers, without, beside = start_of_a_full_site()
    print(f"start of a site with {MEMBERS:,} members and {rows:,} rows: it listens after {listens:.2f} s and answers after {answers:.2f} s")
    print(f"32 clients change its members: the slowest reply takes {1_000 * without:.0f} ms, and {1_000 * beside:.0f} while it puts a base")
    if not has_redis():
        print("store_load: redis-server isn't installed: its rows are left out")


if __name__ == "__main__":
    try:
        if sys.argv[1:] == ["commits"]:
            print(*commits())
        else:
            main()
    except Failed as why:
        sys.exit(f"store_load: {why}")
