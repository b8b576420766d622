"""Runs 64 linked sites on one machine, each of which dials all others: 4,032 links. It adds a member at each site and waits until all show the
same, and then measures the memory and the processor of a site whose 63 peers are idle. It isn't part of `./test`: it starts some 10,000
threads, and takes about a minute.

    python3 -B tools/fleet.py [SITES]"""
import contextlib
import os
import re
import resource
import sys
import tempfile
import time

from program_tests import Failed
from server_tests import BUILT, free_ports, need, shown
from site_link_tests import Site
from store_tests import members

# How long all sites may take to show the same, and how long an idle site is looked at, in seconds.
EQUAL, IDLE = 60, 20


def links_up(sites, number):
    """Waits until each site has logged a link to each other one. Returns how many there are."""
    found = {it.number: set() for it in sites}
    ends = time.monotonic() + EQUAL
    while sum(map(len, found.values())) < number * (number - 1):
        for it in sites:
            found[it.number] |= set(re.findall(rb"link to site (\d+) at \S+: up", it.log_so_far()))
        need(time.monotonic() < ends, f"{sum(map(len, found.values())):,} links are up")
        time.sleep(0.1)
    return sum(map(len, found.values()))


def until_equal(sites, number):
    """Waits until all sites show this number of members, and the same. Returns how long that took."""
    started = time.monotonic()
    while True:
        reports = {shown(it) for it in sites}
        if len(reports) == 1 and len(members(next(iter(reports)))) == number:
            return time.monotonic() - started
        need(time.monotonic() < started + EQUAL, f"sites show {sorted(len(members(it)) for it in reports)} members, not all the same {number}")


def run(number):
    files, most = resource.getrlimit(resource.RLIMIT_NOFILE)
    resource.setrlimit(resource.RLIMIT_NOFILE, (min(65_536, most), most))
    with tempfile.TemporaryDirectory() as room, contextlib.ExitStack() as stack:
        started = time.monotonic()
        first = free_ports(2 * number)
        ports = [first + site for site in range(number)]
        sites = []
        for site in range(number):
            sites.append(Site(room, site, ports[site], ports, port=first + number + site))
            stack.callback(sites[-1].stop)
        for it in sites:
            if not it.wait_until_it_listens():
                raise Failed(f"site {it.number} doesn't listen: {it.stop()!r}")
        print(f"{number} sites listen after {time.monotonic() - started:.1f} s")
        print(f"{links_up(sites, number):,} links are up after {time.monotonic() - started:.1f} s", flush=True)
        for it in sites:
            it.add(f"SIP/{it.number}")
        print(f"an add at each: all show the same {until_equal(sites, number):.2f} s after the last", flush=True)
        sites[0].add("SIP/one")
        print(f"one more add: all show the same after {until_equal(sites, number + 1):.2f} s", flush=True)
        # The wholes of the last adds are sent within 1.5 seconds a link.
        time.sleep(1.5 * number + 5)
        before, begun = [it.seconds() for it in sites], time.monotonic()
        time.sleep(IDLE)
        passed = time.monotonic() - begun
        shares = sorted((it.seconds() - old) / passed for it, old in zip(sites, before))
        memory = sorted(it.memory() for it in sites)
        threads = len(os.listdir(f"/proc/{sites[0].process.pid}/task"))
        print(f"a site with {number - 1} idle peers: {threads} threads, {memory[len(memory) // 2] / 1e6:.1f} MB (most {memory[-1] / 1e6:.1f}), "
              f"{100 * shares[len(shares) // 2]:.2f} % of a processor (most {100 * shares[-1]:.2f})")


if __name__ == "__main__":
    need(os.path.exists(BUILT), f"{BUILT} isn't built")
    try:
        run(int(sys.argv[1]) if len(sys.argv) > 1 else 64)
    except Failed as why:
        sys.exit(f"fleet: {why}")
