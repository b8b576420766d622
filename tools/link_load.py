"""Measures linked sites on one machine, with the clients of tools/load.c, and prints a table:

- how long after the reply to an add at one site another one shows it, without stores and with them
- how many penalties a second a site sets for 1 and 4 clients, alone and with two peers

It takes about half a minute. tools/fleet.py measures 64 sites."""
import contextlib
import os
import sys
import tempfile

from program_tests import Failed
from server_load import compiled_clients, measured
from server_tests import BUILT, SECRET, USER, free_ports, need
from site_link_tests import Site

SECONDS = 5


def show(what, figures, seconds):
    count, _, half, most, longest = figures
    print(f"{what:<44} {count / seconds:>9,.0f} {half / 1e3:>9,.0f} us {most / 1e3:>9,.0f} us {longest / 1e3:>9,.0f} us", flush=True)


@contextlib.contextmanager
def linked(sites, stores=False):
    """Sites that are linked directly, whose links are all up."""
    with tempfile.TemporaryDirectory() as room, contextlib.ExitStack() as stack:
        ports = [free_ports(1) for _ in range(sites)]
        store_of = lambda site: f"{room}/site-{site}.db" if stores else None
        them = [stack.enter_context(Site(room, site, ports[site], ports, store_of(site))) for site in range(sites)]
        for it in them:
            for peer in range(sites):
                if peer != it.number:
                    it.logs(f"link to site {peer} at 127.0.0.1:{ports[peer]}: up")
        yield them


def main():
    need(os.path.exists(BUILT), f"{BUILT} isn't built")
    print(f"{'what':<44} {'a second':>9} {'50%':>12} {'99%':>12} {'all':>12}")
    with tempfile.TemporaryDirectory() as room:
        program = compiled_clients(room)
        for stores in (False, True):
            with linked(2, stores) as (one, other):
                figures = measured(program, "shown", one.port, other.port, SECONDS, USER, SECRET)
                show(f"an add shown at the other site{', with stores' if stores else ''}", figures, SECONDS)
        for sites in (1, 3):
            for clients in (1, 4):
                with linked(sites) as (first, *_):
                    first.add("SIP/0")
                    figures = measured(program, "manager", first.port, 1, clients, SECONDS, "penalty", USER, SECRET)
                    show(f"penalty, {clients} client{'s' if clients > 1 else ''}, {sites - 1 or 'no'} peers", figures, SECONDS)


if __name__ == "__main__":
    try:
        main()
    except Failed as why:
        sys.exit(f"link_load: {why}")
