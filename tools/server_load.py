"""Measures how fast the server of queue_sites answers over loopback, with the clients of tools/load.c: each sends one request, waits for
the whole reply, and only then sends the next. Prints, for each load, the requests answered in a second, the megabytes of replies in a
second, and within how many microseconds half of the replies arrive, and 99 of 100. Where Debian's redis-server is installed, the same
clients measure it in the same run, by `HSET`. Clients and servers share the processors.

A machine may be one of several on a host, which runs the others on its processors, too. So each load runs again until the host takes less
than 1 % of the processors' time from it, at most 12 times. A row shows the run from which it took the least, and its share."""
import contextlib
import functools
import os
import shutil
import socket
import subprocess
import sys
import tempfile
import time

from crates import TOP
from program_tests import Failed
from server_tests import PATIENCE, Server, fill, free_ports

SECONDS = 3
MOST_RUNS = 12  # of each load
QUIET = 0.01  # the share of the processors' time that the host may take
# How many clients there are, at how many sites, and how many members a queue has whose status each request asks for; None: each request sets
# a penalty.
LOADS = [(1, 1, None), (4, 1, None), (32, 1, None), (1, 8, None), (4, 8, None), (32, 8, None), (1, 1, 1_000), (4, 1, 1_000)]
REDIS_CLIENTS = [1, 4]


def compiled_clients(room):
    """The program of tools/load.c."""
    compiler = next(filter(None, map(shutil.which, ["cc", "gcc", "clang"])), None)
    if not compiler:
        raise Failed("tools/load.c needs a C compiler")
    program = f"{room}/load"
    subprocess.run([compiler, "-O2", "-pthread", "-o", program, f"{TOP}/tools/load.c"], check=True)
    return program


def measured(program, *words):
    """What the clients print: requests, bytes of replies, and the nanoseconds within which half of the replies came, 99 of 100, and all."""
    ran = subprocess.run([program, *map(str, words)], capture_output=True, text=True, check=False)
    if ran.returncode:
        raise Failed(ran.stderr.strip())
    return [int(it) for it in ran.stdout.split()]


def manager_load(program, clients, sites, members):
    """A load of the server. Where more clients come to a site than it serves at once, the others wait until those leave, and then find that the
    time is up."""
    with Server(sites) as server:
        fill(server, 0, members or 1)
        if members is None:
            time.sleep(0.1)  # the other sites take the member
        ask = "penalty" if members is None else "status"
        return measured(program, "manager", server.port, sites, clients, SECONDS, ask, server.user, server.secret)


@contextlib.contextmanager
def redis(room):
    """A Redis that keeps nothing on disk, at a port of its own."""
    port = free_ports(1)
    words = ["redis-server", "--port", str(port), "--bind", "127.0.0.1", "--save", "", "--appendonly", "no", "--dir", room]
    with subprocess.Popen(words, stdout=subprocess.DEVNULL, stderr=subprocess.DEVNULL) as process:
        try:
            ends = time.monotonic() + PATIENCE
            while True:
                with contextlib.suppress(OSError), socket.create_connection(("127.0.0.1", port), 1):
                    break
                if time.monotonic() > ends:
                    raise Failed("redis-server doesn't listen")
                time.sleep(0.02)
            yield port
        finally:
            process.terminate()


def redis_load(program, clients, room):
    """A load of Redis."""
    with redis(room) as port:
        return measured(program, "redis", port, 1, clients, SECONDS, "hset")


def processor_ticks():
    """How long the host has run something else on this machine's processors, and how long they have been there, in ticks."""
    with open("/proc/stat", encoding="ascii") as file:
        ticks = [int(it) for it in file.readline().split()[1:9]]
    return ticks[-1], sum(ticks)


def watched(load):
    """The share of the processors' time that the host takes while a load runs, and what the load measures."""
    stolen, ticks = processor_ticks()
    figures = load()
    stolen_now, ticks_now = processor_ticks()
    return (stolen_now - stolen) / max(ticks_now - ticks, 1), figures


def least_stolen(load):
    """What `watched` returns of the run of a load from which the host took the least, as the head of this file says."""
    best = watched(load)
    for _ in range(1, MOST_RUNS):
        if best[0] < QUIET:
            break
        best = min(best, watched(load), key=lambda it: it[0])
    return best


def show(what, clients, sites, members, load):
    share, (count, bytes_read, half, most, _) = least_stolen(load)
    members = f"{members:,}" if members else "-"
    print(f"{what:<10} {clients:>8} {sites:>6} {members:>8} {count / SECONDS:>11,.0f} {bytes_read / SECONDS / 1e6:>7,.0f} "
          f"{half / 1e3:>8,.0f} us {most / 1e3:>8,.0f} us {share:>7.1%}", flush=True)


def main():
    print(f"{'request':<10} {'clients':>8} {'sites':>6} {'members':>8} {'requests/s':>11} {'MB/s':>7} {'50%':>11} {'99%':>11} {'stolen':>7}")
    with tempfile.TemporaryDirectory() as room:
        program = compiled_clients(room)
        for clients, sites, members in LOADS:
            load = functools.partial(manager_load, program, clients, sites, members)
            show("penalty" if members is None else "status", clients, sites, members, load)
        if not shutil.which("redis-server", path=f"{os.environ['PATH']}:/usr/sbin"):
            print("bench: redis-server isn't installed: its rows are left out")
            return
        for clients in REDIS_CLIENTS:
            show("Redis HSET", clients, 1, None, functools.partial(redis_load, program, clients, room))


if __name__ == "__main__":
    try:
        main()
    except Failed as why:
        sys.exit(f"bench: {why}")
