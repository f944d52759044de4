"""Eight links over four gateways, each datagram brought to the process of its link by what `rohctl spread` writes.

By nftables and by nginx on one host, in a network of its own, so that the rules touch nothing else; and over four hosts, which
are networks behind a fifth. There each gateway listens on 127.0.0.1 alone: the fifth sends each datagram to its host, whose own
rules turn its address. What each process sends must be what one replay of all arrivals answers to its links, octet for octet
and in order.
"""

import contextlib
import multiprocessing
import os
import re
import shutil
import socket
import struct
import subprocess
import time
from collections.abc import Callable, Iterator, Sequence
from multiprocessing.connection import Connection
from pathlib import Path

import networks
from cluster import Arrival, made_arrivals
from gateway_run import BATCH, KINDS, LOOPBACK, Gateway, Receivers, replayed, sends_of
from networks import Network
from trial import Trial

ROHCTL = "crates/rohctl/out/rohctl"
PORT = 7000
NAMES = "abcd"
LINKS = 8
NOBODYS = 3


def own(link: int) -> int:
    """The place of the process that takes a link."""
    return link % len(NAMES)


def address(place: int, side: int) -> str:
    """An address on the line from the fifth host to this one: its side 1 is there, 2 here."""
    return f"10.77.{1 + place}.{side}"


def hosts(addresses: Sequence[str], ports: Sequence[int]) -> str:
    """The hosts file: each process has every fourth link. Without addresses all are on this host."""
    text = f"port = {PORT}\n"
    for place, name in enumerate(NAMES):
        links = [link for link in range(1, LINKS + 1) if own(link) == place]
        given = f'address = "{addresses[place]}"\n' if addresses else ""
        text += f'[[process]]\nname = "{name}"\n{given}port = {ports[place]}\nlinks = {links}\n'
    return text


def rules(trial: Trial, folder: Path, text: str, *words: str | Path) -> Path:
    """What `rohctl spread` writes for a hosts file."""
    (folder / "hosts.toml").write_text(text)
    told = trial.ran(trial.top / ROHCTL, "spread", folder / "links.toml", "--hosts", folder / "hosts.toml", *words)
    trial.demand(told.is_good, f"rohctl spread: {told.end()}", told.call)
    (folder / "rules").write_bytes(told.output)
    return folder / "rules"


def links_of(receivers: Sequence[Receivers]) -> str:
    """The links file of all links, whose ports are those of their own process."""
    parts = [receivers[own(link)].links([link]).split("\n", 1)[1] for link in range(1, LINKS + 1)]
    return "version = 1\n" + "".join(parts)


def some_arrivals() -> list[Arrival]:
    """Whole calls of eight links, with damage, losses and feedback."""
    return [one for one in made_arrivals(16_000, 21) if one.octets is not None and one.link <= LINKS]


def sent(arrivals: Sequence[Arrival], wanted: Sequence[Sequence[str]], receivers: Sequence[Receivers], there: str) -> bool:
    """Sends arrivals to the one port. Whether each process sends exactly what must be sent for its own."""
    due: list[dict[str, list[bytes]]] = [{kind: [] for kind in KINDS} for _ in receivers]
    with socket.socket(socket.AF_INET, socket.SOCK_DGRAM) as sender:
        for at in range(0, len(arrivals), BATCH):
            for arrival, lines in zip(arrivals[at : at + BATCH], wanted[at : at + BATCH], strict=True):
                head = struct.pack(">HQ", arrival.link, arrival.moment)
                sender.sendto(head + (arrival.octets or b""), (there, PORT))
                for kind, octets in sends_of(lines):
                    due[own(arrival.link)][kind].append(octets)
            for one, its in zip(receivers, due, strict=True):
                if not one.wait({kind: len(octets) for kind, octets in its.items()}):
                    return False
    return all(one.found == its for one, its in zip(receivers, due, strict=True))


@contextlib.contextmanager
def nginx(trial: Trial, folder: Path) -> Iterator[subprocess.Popen[bytes]]:
    """Nginx with the configuration in a folder."""
    shutil.copy(trial.top / "deploy/link.js", folder)
    process = subprocess.Popen(["nginx", "-p", folder, "-c", folder / "rules"], stderr=subprocess.DEVNULL)
    try:
        time.sleep(1)
        yield process
    finally:
        process.terminate()
        process.wait(30)


def on_one_host(trial: Trial, folder: Path, way: str) -> str:
    """Four processes in this network. Says what was tried."""
    subprocess.run(["ip", "link", "set", "lo", "up"], check=True)
    arrivals = some_arrivals()
    with contextlib.ExitStack() as stack:
        receivers = [stack.enter_context(Receivers()) for _ in NAMES]
        (folder / "links.toml").write_text(links_of(receivers))
        ports = range(PORT + 1, PORT + 1 + len(NAMES))
        if way == "nftables":
            # Rules that were set before, which the new ones replace.
            subprocess.run(["nft", "-f", rules(trial, folder, hosts((), ports[::-1]))], check=True)
        text = hosts((), ports)
        file = rules(trial, folder, text, "--out", folder, *(["--nginx"] if way == "nginx" else []))
        if way == "nginx":
            stack.enter_context(nginx(trial, folder))
        else:
            subprocess.run(["nft", "-f", file], check=True)
        for place, name in enumerate(NAMES):
            links = (folder / f"{name}.toml").read_text()
            stack.enter_context(Gateway(trial, folder / name, links, timed_port=PORT + 1 + place))
        wanted = replayed(trial, folder / "links.toml", arrivals)
        trial.demand(sent(arrivals, wanted, receivers, LOOPBACK), f"spread by {way}: not what one replay answers")
    return f"{len(arrivals)} arrivals over {len(NAMES)} processes as one replay answers"


def join(before: Network, places: Sequence[Network]) -> None:
    """Lays the lines: from this network to the one before the hosts, and from there to each host."""
    Network.here().join("polorowan", address(-1, 2) + "/24", before, address(-1, 1) + "/24")
    before.set("ipv4/ip_forward", 1)
    for place, host in enumerate(places):
        before.join(f"host{place}", address(place, 1) + "/24", host, address(place, 2) + "/24")
        # What comes for 127.0.0.1 is taken from this line too.
        host.set("ipv4/conf/eth/route_localnet", 1)


def set_rules(trial: Trial, folder: Path, before: Network, places: Sequence[Network]) -> None:
    """Sets the rules of all hosts: one hosts file, in which each host has its own address as 127.0.0.1."""
    addresses = [address(place, 2) for place in range(len(places))]
    before.run(f"nft -f {rules(trial, folder, hosts(addresses, [PORT] * len(NAMES)), '--out', folder)}")
    for place, host in enumerate(places):
        its = [LOOPBACK if other == place else one for other, one in enumerate(addresses)]
        host.run(f"nft -f {trial.top / 'deploy/loopback.nft'}")
        host.run(f"nft -f {rules(trial, folder, hosts(its, [PORT] * len(NAMES)))}")


def checksum(octets: bytes) -> bytes:
    """The Internet checksum."""
    octets += b"\0" * (len(octets) % 2)
    total = sum(struct.unpack(f">{len(octets) // 2}H", octets))
    while total > 0xFFFF:
        total = (total & 0xFFFF) + (total >> 16)
    return struct.pack(">H", total ^ 0xFFFF)


def frame(arrival: Arrival, hardware: bytes) -> bytes:
    """A frame with an arrival for 127.0.0.1, as a neighbour may send it. Its UDP checksum must be there: the rules change it."""
    octets = struct.pack(">HQ", arrival.link, arrival.moment) + (arrival.octets or b"")
    ends = socket.inet_aton(address(-1, 2)) + socket.inet_aton(LOOPBACK)
    udp = struct.pack(">HHHH", PORT, PORT, 8 + len(octets), 0) + octets
    udp = udp[:6] + checksum(ends + struct.pack(">HH", 17, len(udp)) + udp) + udp[8:]
    ip = struct.pack(">BBHHHBBH", 0x45, 0, 20 + len(udp), 0, 0, 64, 17, 0) + ends
    ip = ip[:10] + checksum(ip) + ip[12:]
    return hardware + bytes(6) + b"\x08\x00" + ip + udp


def comes_in(before: Network, host: Network, gateway: Gateway, arrival: Arrival, seconds: float) -> bool:
    """Whether a host's loopback takes what its neighbour sends for it, in so many seconds."""
    with host.inside():
        count = gateway.datagrams()
        told = subprocess.run(["ip", "link", "show", "eth"], check=True, capture_output=True, text=True).stdout
    hardware = bytes.fromhex(told.partition("link/ether ")[2].split(" ")[0].replace(":", ""))
    with before.inside(), socket.socket(socket.AF_PACKET, socket.SOCK_RAW) as line:
        line.bind(("host0", 0))
        line.send(frame(arrival, hardware))
    end = time.monotonic() + seconds
    with host.inside():
        while gateway.datagrams() <= count:
            if time.monotonic() > end:
                return False
            time.sleep(0.05)
    return True


def check_loopback(trial: Trial, before: Network, host: Network, gateway: Gateway, arrivals: Sequence[Arrival]) -> None:
    """The loopback of a host takes nothing from outside; without the rules against it, it would."""
    arrival = next(one for one in arrivals if own(one.link) == 0)
    trial.demand(not comes_in(before, host, gateway, arrival, 1), "a neighbour reaches the loopback of a host")
    host.run("nft delete table ip polorowan_loopback")
    trial.demand(comes_in(before, host, gateway, arrival, 20), "deploy/loopback.nft isn't what keeps the loopback closed")


def dropped(before: Network) -> int:
    """How many datagrams of unknown links the rules counted."""
    with before.inside():
        told = subprocess.run(["nft", "list", "counters"], check=True, capture_output=True, text=True).stdout
    found = re.search(r"packets (\d+)", told)
    return int(found[1]) if found else -1


def over_hosts(trial: Trial, folder: Path, way: str) -> str:
    """Four hosts behind a fifth, with one process each. Says what was tried."""
    arrivals = some_arrivals()
    with contextlib.ExitStack() as stack:
        before, *places = stack.enter_context(networks.made(1 + len(NAMES)))
        join(before, places)
        receivers = []
        for host in places:
            with host.inside():
                receivers.append(stack.enter_context(Receivers()))
        (folder / "links.toml").write_text(links_of(receivers))
        set_rules(trial, folder, before, places)
        gateways = []
        for name, host in zip(NAMES, places, strict=True):
            with host.inside():
                links = (folder / f"{name}.toml").read_text()
                gateways.append(stack.enter_context(Gateway(trial, folder / name, links, timed_port=PORT)))
        wanted = replayed(trial, folder / "links.toml", arrivals)
        trial.demand(sent(arrivals, wanted, receivers, address(-1, 1)), f"spread by {way}: not what one replay answers")
        with socket.socket(socket.AF_INET, socket.SOCK_DGRAM) as sender:
            for _ in range(NOBODYS):
                sender.sendto(struct.pack(">HQ", LINKS + 1, 0), (address(-1, 1), PORT))
        found = dropped(before)
        trial.demand(found == NOBODYS, f"spread by {way}: {found} datagrams of unknown links, {NOBODYS} wanted")
        check_loopback(trial, before, places[0], gateways[0], arrivals)
    return f"{len(arrivals)} arrivals over {len(NAMES)} processes as one replay answers"


def feedback_elsewhere(trial: Trial, folder: Path, way: str) -> str:
    """The numbered feedback of all links reaches one port of another host. Says what was tried."""
    subprocess.run(["ip", "link", "set", "lo", "up"], check=True)
    arrivals = some_arrivals()
    with contextlib.ExitStack() as stack:
        other = stack.enter_context(networks.made(1))[0]
        Network.here().join("line", address(0, 1) + "/24", other, address(0, 2) + "/24")
        Network.here().set("ipv4/conf/line/route_localnet", 1)
        receivers = stack.enter_context(Receivers())
        links = receivers.links(range(1, LINKS + 1))
        (folder / "links.toml").write_text(links)
        text = f'[[process]]\nname = "a"\nport = {PORT + 1}\nlinks = ["1-{LINKS}"]\n'
        subprocess.run(["nft", "-f", rules(trial, folder, text, "--feedback", f"{address(0, 2)}:{PORT}")], check=True)
        receivers.sockets["feedback"].close()
        with other.inside():
            receivers.sockets["feedback"] = socket.socket(socket.AF_INET, socket.SOCK_DGRAM)
        receivers.sockets["feedback"].setblocking(False)
        receivers.sockets["feedback"].bind((address(0, 2), PORT))
        gateway = stack.enter_context(Gateway(trial, folder / "a", links, timed_port=PORT + 1, is_numbered=True))
        fits = gateway.takes(receivers, arrivals, replayed(trial, folder / "links.toml", arrivals))
        trial.demand(fits and bool(receivers.found["feedback"]), f"spread by {way}: not what one replay answers")
    return f"{len(receivers.found['feedback'])} elements of {LINKS} links, each behind its link's number, at one port"


WAYS: dict[str, tuple[str, Callable[[Trial, Path, str], str]]] = {
    "nftables": ("nft", on_one_host),
    "nginx": ("nginx", on_one_host),
    "nftables on four hosts": ("nft", over_hosts),
    "nftables, feedback": ("nft", feedback_elsewhere),
}


def in_own_network(trial: Trial, way: str, pipe: Connection) -> None:
    """Runs it in a new network, and sends what was found."""
    with networks.made(1) as own_network:
        if not own_network:
            trial.leave_out(f"no network of its own can be made here, links were not spread by {way}")
        else:
            own_network[0].enter()
            folder = trial.scratch / way.replace(",", "").replace(" ", "-")
            folder.mkdir(parents=True)
            trial.say(f"spread by {way}: {WAYS[way][1](trial, folder, way)}")
    pipe.send((trial.lines, trial.rights, trial.wrongs))


def check(trial: Trial) -> None:
    """Each way, in a process of its own."""
    for way, (tool, _) in WAYS.items():
        if not shutil.which(tool) or not shutil.which("ip") or os.geteuid() != 0:
            trial.leave_out(f"{tool} or ip is not installed, or root isn't, links were not spread by {way}")
            continue
        here, there = multiprocessing.Pipe()
        child = multiprocessing.get_context("fork").Process(target=in_own_network, args=(trial, way, there))
        before = trial.rights, trial.wrongs
        child.start()
        told = here.recv() if here.poll(240) else None
        child.join(10)
        if told is None:
            child.kill()
            trial.wrong(f"spread by {way}: no end")
            continue
        trial.lines, trial.rights, trial.wrongs = list(told[0]), told[1], told[2]
        trial.demand((trial.rights, trial.wrongs) != before or "left out" in trial.lines[-1], f"spread by {way}: nothing was tried")
