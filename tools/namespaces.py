"""Runs three linked sites in network namespaces of their own, as on three machines, and cuts all links by `ip link set down` for some seconds,
while members are added at each site: the sites show the same soon after the links are up again. Then it cuts one site off alone. It needs
root, and `ip` of iproute2; it isn't part of `./test`.

    python3 -B tools/namespaces.py [SECONDS..]       how long the links are down, by default 2, 10 and 40"""
import contextlib
import ctypes
import os
import subprocess
import sys
import tempfile
import time

from program_tests import Failed
from server_tests import BUILT, need, shown
from site_link_tests import HEALED, Site
from store_tests import members

SITES, ADDS, LINKS = 3, 20, 7_038
CLONE_NEWNET = 0x40000000
BRIDGE = "queue-sites"
libc = ctypes.CDLL(None, use_errno=True)


def ip(*words):
    subprocess.run(["ip", *words], check=True, capture_output=True)


def name_of(site):
    return f"queue-site-{site}"


def address_of(site):
    return f"10.77.0.{site + 1}"


@contextlib.contextmanager
def inside(site):
    """Within the namespace of a site: sockets that are made there stay there."""
    own = os.open("/proc/self/ns/net", os.O_RDONLY)
    other = os.open(f"/var/run/netns/{name_of(site)}", os.O_RDONLY)
    try:
        need(libc.setns(other, CLONE_NEWNET) == 0, "a namespace can't be entered")
        yield
    finally:
        need(libc.setns(own, CLONE_NEWNET) == 0, "a namespace can't be left")
        os.close(own)
        os.close(other)


class FarSite(Site):
    """A site in a namespace. Its clients are there too."""

    def __init__(self, room, number):
        self.space = number
        peers = [f"{address_of(site)}:{LINKS}" for site in range(SITES)]
        super().__init__(room, number, LINKS, peers, f"{room}/site-{number}.db", host=address_of(number))

    def before(self):
        return ["ip", "netns", "exec", name_of(self.space)]

    def client(self, *words, **more):
        with inside(self.number):
            return super().client(*words, **more)


@contextlib.contextmanager
def namespaces():
    """A namespace for each site, all at one bridge."""
    made = contextlib.ExitStack()
    with made:
        ip("link", "add", BRIDGE, "type", "bridge")
        made.callback(ip, "link", "del", BRIDGE)
        ip("link", "set", BRIDGE, "up")
        for site in range(SITES):
            name, end = name_of(site), f"{BRIDGE}-{site}"
            ip("netns", "add", name)
            made.callback(ip, "netns", "del", name)
            ip("link", "add", end, "type", "veth", "peer", "name", "eth0", "netns", name)
            ip("link", "set", end, "master", BRIDGE, "up")
            ip("-n", name, "addr", "add", f"{address_of(site)}/24", "dev", "eth0")
            for it in ("lo", "eth0"):
                ip("-n", name, "link", "set", it, "up")
        yield


def set_links(which, way):
    for site in which:
        ip("-n", name_of(site), "link", "set", "eth0", way)


def until_equal(sites, number, seconds):
    """Waits until all sites show this number of members, and the same. Returns how long that took."""
    started = time.monotonic()
    while True:
        reports = {shown(it) for it in sites}
        if len(reports) == 1 and len(members(next(iter(reports)))) == number:
            return time.monotonic() - started
        need(time.monotonic() < started + seconds, f"after {seconds} s sites show {[len(members(it)) for it in reports]} members, not all the same {number}")
        time.sleep(0.01)


def run(cuts):
    with tempfile.TemporaryDirectory() as room, namespaces(), contextlib.ExitStack() as stack:
        sites = [stack.enter_context(FarSite(room, site)) for site in range(SITES)]
        for it in sites:
            it.add(f"SIP/{it.number}")
        number = SITES
        print(f"three sites in namespaces: equal {until_equal(sites, number, HEALED):.2f} s after an add at each", flush=True)
        for seconds in cuts:
            set_links(range(SITES), "down")
            begun = time.monotonic()
            for it in sites:
                it.add(*(f"SIP/{it.number}-{seconds}-{member}" for member in range(ADDS)))
            answered, number = time.monotonic() - begun, number + SITES * ADDS
            time.sleep(max(0, begun + seconds - time.monotonic()))
            set_links(range(SITES), "up")
            print(f"links down for {seconds} s, {SITES * ADDS} adds meanwhile, answered within {answered:.2f} s: "
                  f"equal {until_equal(sites, number, HEALED):.2f} s after they are up", flush=True)
        set_links([2], "down")
        sites[0].add("SIP/alone")
        others = until_equal(sites[:2], number + 1, HEALED)
        set_links([2], "up")
        print(f"one site cut off: the others equal after {others:.2f} s, all {until_equal(sites, number + 1, HEALED):.2f} s after its link is up")


if __name__ == "__main__":
    need(os.path.exists(BUILT), f"{BUILT} isn't built")
    try:
        run([int(it) for it in sys.argv[1:]] or [2, 10, 40])
    except (Failed, subprocess.CalledProcessError) as why:
        sys.exit(f"namespaces: {why}")
