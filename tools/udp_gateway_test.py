#!/usr/bin/env python3
"""Sends packets to examples/udp_gateway.c and looks at what comes back, and at how it ends.

usage: tools/udp_gateway_test.py PROGRAM LINKS

LINKS is what tools/link_lines.py writes of examples/worked/links-1.toml. The packets are those of the worked examples.
"""

import signal
import socket
import subprocess
import sys
from collections.abc import Sequence

# More than the program receives by one call.
BURST = 40
SHOWN = f"link 1 CID 0: profile 0x0000, Full Context\nrefused Segment: {BURST}\n"


def local_socket() -> socket.socket:
    """A socket at a free port of 127.0.0.1."""
    found = socket.socket(socket.AF_INET, socket.SOCK_DGRAM)
    found.bind(("127.0.0.1", 0))
    found.settimeout(10)
    return found


def free_ports(count: int) -> int:
    """The first of this many consecutive ports at which nothing listens."""
    for first in range(20000, 60000, count):
        sockets = [socket.socket(socket.AF_INET, socket.SOCK_DGRAM) for _ in range(count)]
        try:
            for place, found in enumerate(sockets):
                found.bind(("127.0.0.1", first + place))
            return first
        except OSError:
            continue
        finally:
            for found in sockets:
                found.close()
    sys.exit("udp_gateway: no free ports")


def demand_end(words: Sequence[str], status: int, text: str) -> None:
    """The program must end with this status, and say this, before it receives anything."""
    ended = subprocess.run(words, capture_output=True, text=True, timeout=10)
    if (ended.returncode, ended.stdout) != (status, "") or text not in ended.stderr:
        sys.exit(f"udp_gateway: NOT as wanted with {words[2:]}: {ended.returncode} {ended.stdout}{ended.stderr}")


def count_of(links: str) -> int:
    """The number of links of a file."""
    with open(links) as lines:
        return sum(line.startswith("link ") for line in lines)


def try_wrong_words(program: str, links: str) -> None:
    """Words that are wrong, links that aren't there, and a port that is taken."""
    greatest = 65_536 - count_of(links)
    for port in ("abc", "0", "-1", "+7", "7000x", "", str(greatest + 1), "70000", "99999999999999999999"):
        text = f'udp_gateway: PORT is "{port}": it must be a number from 1 to {greatest}\n'
        demand_end([program, links, port, "7001", "7002"], 2, text)
    demand_end([program, links, "7000", "7001", "65536"], 2, 'RELAY is "65536"')
    demand_end([program, links, "7000", "x", "7002"], 2, 'DELIVER is "x"')
    demand_end([program, links, "7000", "7001", "7002", "0"], 2, 'COUNT is "0"')
    demand_end([program, links], 2, "usage: udp_gateway LINKS PORT DELIVER RELAY [COUNT]")
    demand_end([program, f"{links}.absent", "7000", "7001", "7002"], 3, "No such file")
    demand_end([program, "/dev/null", "7000", "7001", "7002"], 3, "no links")
    taken = local_socket()
    port = taken.getsockname()[1]
    demand_end([program, links, str(port), "7001", "7002"], 4, "Address already in use")
    taken.close()


def try_packets(program: str, links: str, end: signal.Signals) -> None:
    """A burst of packets that are refused, a packet that is delivered, and a signal."""
    deliver, relay, peer = local_socket(), local_socket(), local_socket()
    port = free_ports(count_of(links))
    ports = [str(found) for found in (port, deliver.getsockname()[1], relay.getsockname()[1])]
    with subprocess.Popen([program, links, *ports], stdout=subprocess.PIPE, text=True) as gateway:
        assert gateway.stdout
        try:
            ready = gateway.stdout.readline()
            for _ in range(BURST):
                peer.sendto(b"\xff", ("127.0.0.1", port))
            peer.sendto(bytes.fromhex("e0e0f22007fc00b745aa"), ("127.0.0.1", port))
            came = [relay.recv(99).hex(), deliver.recv(99).hex(), peer.recv(99).hex()]
        finally:
            gateway.send_signal(end)
            status = gateway.wait(10)
        shown = gateway.stdout.read()
    for found in (deliver, relay, peer):
        found.close()
    if (ready, came, shown, status) != ("ready\n", ["2007", "45aa", "f100"], SHOWN, 0):
        sys.exit(f"udp_gateway: NOT as wanted at {end.name}: {ready} {came} {shown} {status}")


def main() -> None:
    """Runs all of it."""
    if sys.argv[1:] == ["--help"]:
        print(__doc__.strip() if __doc__ else "")
        return
    if len(sys.argv) != 3:
        sys.exit(__doc__)
    try_wrong_words(*sys.argv[1:])
    for end in (signal.SIGTERM, signal.SIGHUP, signal.SIGINT):
        try_packets(*sys.argv[1:], end)
    print("udp_gateway: packets, feedback, what it relayed, what stands, refusals by name, wrong words: as wanted")


if __name__ == "__main__":
    main()
