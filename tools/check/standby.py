"""A standby gateway takes over from the active one, ten times, while 40 calls send 1,000 packets per second.

Each gateway is in a network of its own. A third network gives both the same datagrams by deploy/both.nft, and deploy/standby
holds back what the standby sends until the active gateway is killed. The killed one then starts as the standby, from contexts
that the active one saved. Every delivered packet must be one that was sent, and be delivered once; only packets sent during
a takeover may be missing. The silence of a takeover is the time between two deliveries.
"""

import contextlib
import multiprocessing
import os
import select
import shutil
import socket
import struct
import subprocess
import threading
import time
from collections import Counter
from collections.abc import Callable, Iterator
from dataclasses import dataclass, field
from functools import partial
from multiprocessing.connection import Connection
from pathlib import Path

import evidence
import networks
from gateway_run import LOOPBACK, Gateway, samples
from networks import Network
from spreading import checksum
from trial import Trial

TOOLS = ("ip", "nft", "curl")
KILLS, RATE, CALLS = 10, 1000, 40
PORT, METRICS, DELIVER, FEEDBACK, RELAY = 7000, 9464, 6001, 6002, 6003
# How long an active gateway sends before it is killed, and what may take how long at most.
STEADY, PATIENCE, LONGEST = 0.7, 10.0, 55.0
# Packets sent shortly before a kill or a takeover may still be on their way.
ON_THE_WAY = 0.05
LINKS = f"""version = 1
[[link]]
number = 1
cid = "large"
max_cid = 255
mode = "O"
k1 = 3
n1 = 5
k2 = 3
n2 = 5
packet_ms = 40
static_nack_ms = 500
deliver_port = {DELIVER}
feedback_port = {FEEDBACK}
relay_port = {RELAY}
"""


def packet(number: int) -> bytes:
    """The RTP packet of this number: the calls take turns."""
    call, turn = number % CALLS, number // CALLS
    rtp = struct.pack(">BBHII", 0x80, 0, turn % 0x10000, 1000 + turn * 320, 0x5000 + call) + struct.pack(">Q", number) * 4
    udp = struct.pack(">HHHH", 20_000 + call, 30_000 + call, 8 + len(rtp), 0) + rtp
    ends = socket.inet_aton("10.8.0.1") + socket.inet_aton("10.8.0.2")
    head = struct.pack(">BBHHHBB", 0x45, 0, 20 + len(udp), turn % 0x10000, 0, 64, 17)
    return head + checksum(head + b"\0\0" + ends) + ends + udp


def at(network: Network, port: int) -> socket.socket:
    """A socket at this port of a network's loopback."""
    with network.inside():
        one = socket.socket(socket.AF_INET, socket.SOCK_DGRAM)
        one.setsockopt(socket.SOL_SOCKET, socket.SO_RCVBUF, 1 << 22)
        one.bind((LOOPBACK, port))
        one.setblocking(False)
    return one


@dataclass
class Host:
    """The network of a gateway, with the sockets that get what it sends."""

    network: Network
    address: str
    gateway: Gateway
    deliver: socket.socket
    feedback: socket.socket
    watch: subprocess.Popen[str] | None = None

    @property
    def url(self) -> str:
        """Where its gateway says that it is ready."""
        return f"http://{self.address}:{METRICS}/ready"

    def hold(self, trial: Trial, active: "Host") -> None:
        """Holds back what its gateway sends, as long as the active one answers."""
        with self.network.inside():
            words = [str(trial.top / "deploy/standby"), active.url, f"{DELIVER},{FEEDBACK},{RELAY}"]
            self.watch = subprocess.Popen(words, stdout=subprocess.PIPE, text=True)
        assert self.watch.stdout
        said = self.watch.stdout.readline()
        trial.demand(said.endswith("this gateway sends nothing\n"), f"standby: it said {said!r}")

    def start(self) -> None:
        """Starts its gateway."""
        with self.network.inside():
            self.gateway.start()

    def end(self) -> None:
        """Ends all that it runs."""
        self.gateway.__exit__()
        if self.watch and self.watch.poll() is None:
            self.watch.kill()
            self.watch.wait(PATIENCE)
        self.deliver.close()
        self.feedback.close()


@dataclass
class Traffic:
    """What is sent, and what the gateways deliver, each with its time."""

    hosts: list[Host]
    sent: list[tuple[float, bytes]] = field(default_factory=list)
    delivered: list[tuple[float, int, bytes]] = field(default_factory=list)
    is_ended: bool = False

    def send(self, out: socket.socket, compressor: tuple[str, int]) -> None:
        """Sends packets at their rate to the compressor."""
        begin = time.monotonic()
        while not self.is_ended:
            now = time.monotonic()
            while len(self.sent) < (now - begin) * RATE:
                octets = packet(len(self.sent))
                self.sent.append((time.monotonic(), octets))
                out.sendto(octets, compressor)
            time.sleep(0.0005)

    def take(self, back: socket.socket, compressor: tuple[str, int]) -> None:
        """Takes what is delivered, and brings feedback to the compressor."""
        places = {host.deliver: place for place, host in enumerate(self.hosts)}
        feedback = [host.feedback for host in self.hosts]
        while not self.is_ended:
            for one in select.select([*places, *feedback], [], [], 0.05)[0]:
                with contextlib.suppress(BlockingIOError):
                    while True:
                        octets = one.recv(65_536)
                        if one in places:
                            self.delivered.append((time.monotonic(), places[one], octets))
                        else:
                            back.sendto(octets, compressor)

    def wait_for(self, place: int, count: int) -> bool:
        """Whether the gateway at this place delivers so many packets more in time."""
        end, before = time.monotonic() + PATIENCE, len(self.delivered)
        while sum(one == place for _, one, _ in self.delivered[before:]) < count:
            if time.monotonic() > end:
                return False
            time.sleep(0.005)
        return True


def join(front: Network, hosts: list[Network]) -> None:
    """Lays the lines from this network to the one before the gateways, and from there to each gateway's."""
    Network.here().join("line", "10.78.0.2/24", front, "10.78.0.1/24")
    front.set("ipv4/ip_forward", 1)
    Network.here().run("ip route add 10.78.0.0/16 via 10.78.0.1")
    for place, host in enumerate(hosts, 1):
        front.join(f"host{place}", f"10.78.{place}.1/24", host, f"10.78.{place}.2/24")
        host.run(f"ip route add 10.78.0.0/16 via 10.78.{place}.1")
        host.set("ipv4/conf/eth/route_localnet", 1)


def set_rules(trial: Trial, front: Network, hosts: list[Network]) -> None:
    """Sets the rules before both gateways, and those of each gateway's host."""
    deploy = trial.top / "deploy"
    front.run(f"nft -D active=10.78.1.2 -D standby=10.78.2.2 -D port={PORT} -f {deploy}/both.nft")
    for place, host in enumerate(hosts):
        host.run(f"nft -f {deploy}/loopback.nft")
        peer = f"10.78.{2 - place}.2"
        host.run(f"nft -D line=eth -D port={PORT} -D peer={peer} -D metrics_port={METRICS} -f {deploy}/reached.nft")


def made_host(trial: Trial, network: Network, place: int) -> Host:
    """A gateway of this network, that doesn't run yet."""
    folder = trial.scratch / f"gateway-{place}"
    with network.inside():
        gateway = Gateway(trial, folder, LINKS, port=PORT, metrics_port=METRICS)
    return Host(network, f"10.78.{place}.2", gateway, at(network, DELIVER), at(network, FEEDBACK))


@contextlib.contextmanager
def compressing(compressor: Path) -> Iterator[tuple[str, int]]:
    """A compressor that sends to the host before both gateways: where it takes packets; feedback comes one port higher."""
    words = [str(compressor), "serve", "--listen", f"{LOOPBACK}:5000", "--hear", f"{LOOPBACK}:5001", "--send", f"10.78.0.1:{PORT}"]
    # It reckons with up to 31 packets of a call lost in a row; a takeover loses fewer.
    words += ["--cid", "large", "--max-cid", "255", "--w", "32", "--optimistic", "16"]
    process = subprocess.Popen(words, stderr=subprocess.DEVNULL)
    try:
        yield LOOPBACK, 5000
    finally:
        process.kill()
        process.wait(PATIENCE)


def take_over(trial: Trial, traffic: Traffic, killed: int) -> tuple[float, float]:
    """Kills the gateway at this place, and waits until the other delivers. The times of the last and the first delivery."""
    active, standby = traffic.hosts[killed], traffic.hosts[1 - killed]
    assert standby.watch and standby.watch.stdout
    active.gateway.kill()
    trial.demand(traffic.wait_for(1 - killed, 1), "standby: it doesn't send after the active gateway was killed")
    said, status = standby.watch.stdout.read(), standby.watch.wait(PATIENCE)
    trial.demand(status == 0 and said.endswith("this gateway sends now\n"), f"standby: status {status}, it said {said!r}")
    last = max(moment for moment, place, _ in traffic.delivered if place == killed)
    first = next(moment for moment, place, _ in traffic.delivered if place != killed and moment > last)
    return last, first


def begin_standby(trial: Trial, active: Host, standby: Host) -> None:
    """Starts the gateway that was killed as the standby, with the contexts of the active one."""
    standby.hold(trial, active)
    trial.demand(active.gateway.ask("POST", "/save").status == 200, "standby: the active gateway doesn't save")
    shutil.copy(active.gateway.folder / "calls.latest", standby.gateway.folder / "calls")
    standby.start()


def failed_sends(host: Host) -> int:
    """How many sends of its gateway failed."""
    with host.network.inside():
        return sum(count for name, _, count in samples(host.gateway.metrics()) if name == "polorowan_failed_sends_total")


def compare(trial: Trial, traffic: Traffic, silences: list[tuple[float, float]]) -> None:
    """What was delivered was sent, once; what is missing was sent during a takeover."""
    found = Counter(octets for _, _, octets in traffic.delivered)
    sent = {octets for _, octets in traffic.sent}
    wrong = sum(count for octets, count in found.items() if octets not in sent)
    twice = sum(count - 1 for count in found.values())
    trial.demand(wrong == 0, f"standby: {wrong} packets were delivered that weren't sent")
    trial.demand(twice == 0, f"standby: {twice} packets were delivered twice")
    end = max((moment for moment, _, _ in traffic.delivered), default=0.0) - ON_THE_WAY
    missing = [moment for moment, octets in traffic.sent if octets not in found and moment < end]
    outside = [one for one in missing if not any(last - ON_THE_WAY <= one <= first + ON_THE_WAY for last, first in silences)]
    trial.demand(not outside, f"standby: {len(outside)} packets are missing that were sent outside of takeovers")
    spans = sorted(1000 * (first - last) for last, first in silences)
    trial.say(
        f"standby: {len(traffic.sent)} packets, {len(silences)} takeovers, silence {spans[len(spans) // 2]:.0f} ms in the "
        f"middle and at most {spans[-1]:.0f} ms, {len(missing)} packets missing, {wrong} wrong"
    )


def take_over_often(trial: Trial, traffic: Traffic) -> None:
    """All takeovers, one after the other."""
    begin, silences = time.monotonic(), []
    if not trial.demand(traffic.wait_for(0, RATE // 2), "standby: the active gateway delivers nothing"):
        return
    begin_standby(trial, *traffic.hosts)
    for place in range(KILLS):
        time.sleep(STEADY)
        failed = failed_sends(traffic.hosts[1 - place % 2])
        trial.demand(failed == 0, f"standby: {failed} sends of the standby failed")
        silences.append(take_over(trial, traffic, place % 2))
        begin_standby(trial, traffic.hosts[1 - place % 2], traffic.hosts[place % 2])
        if time.monotonic() - begin > LONGEST:
            trial.wrong(f"standby: {place + 1} of {KILLS} takeovers in {LONGEST} seconds")
            break
    compare(trial, traffic, silences)


@contextlib.contextmanager
def traffic_to(hosts: list[Host], compressor: Path) -> Iterator[Traffic]:
    """Sends packets to these gateways and receives what they send, both in threads of their own."""
    traffic = Traffic(hosts)
    with compressing(compressor) as (listen, port), socket.socket(socket.AF_INET, socket.SOCK_DGRAM) as out:
        threads = [
            threading.Thread(target=traffic.take, args=(out, (listen, port + 1)), daemon=True),
            threading.Thread(target=traffic.send, args=(out, (listen, port)), daemon=True),
        ]
        time.sleep(0.2)
        for thread in threads:
            thread.start()
        try:
            yield traffic
        finally:
            traffic.is_ended = True
            for thread in threads:
                thread.join(PATIENCE)


def run_traffic(trial: Trial, compressor: Path) -> None:
    """Both gateways under traffic, in networks of their own."""
    with contextlib.ExitStack() as stack:
        front, *places = stack.enter_context(networks.made(3))
        join(front, places)
        set_rules(trial, front, places)
        hosts = [made_host(trial, network, place) for place, network in enumerate(places, 1)]
        for host in hosts:
            stack.callback(host.end)
        hosts[0].start()
        take_over_often(trial, stack.enter_context(traffic_to(hosts, compressor)))


def run_first() -> None:
    """Lets this process and its children run before others, which could make an active gateway look silent."""
    with contextlib.suppress(OSError):
        os.sched_setscheduler(0, os.SCHED_RR, os.sched_param(1))


def in_own_network(trial: Trial, left: str, run: Callable[[], None], pipe: Connection) -> None:
    """Runs something in a new network, and sends what was found."""
    run_first()
    with networks.made(1) as own_network:
        if not own_network:
            trial.leave_out(f"no network of its own can be made here, so {left}")
        else:
            own_network[0].enter()
            run()
    pipe.send((trial.lines, trial.rights, trial.wrongs))


def run_apart(trial: Trial, name: str, left: str, run: Callable[[Trial, Path], None]) -> None:
    """Runs something with a compressor in a process of its own, with which its networks end.

    Where that can't be done, `left` says what wasn't tried.
    """
    missing = [tool for tool in TOOLS if not shutil.which(tool)]
    if missing or os.geteuid() != 0:
        trial.leave_out(f"{', '.join(missing) or 'root'} isn't there, so {left}")
        return
    compressor = evidence.build_compressor(trial)
    if not compressor:
        trial.leave_out(f"cargo isn't installed, so {left}")
        return
    here, there = multiprocessing.Pipe()
    words = (trial, left, partial(run, trial, compressor), there)
    child = multiprocessing.get_context("fork").Process(target=in_own_network, args=words)
    child.start()
    told = here.recv() if here.poll(LONGEST + 30) else None
    child.join(PATIENCE)
    if told is None:
        child.kill()
        trial.wrong(f"{name}: no end")
        return
    trial.lines, trial.rights, trial.wrongs = list(told[0]), told[1], told[2]


def check(trial: Trial) -> None:
    """Runs it in a process of its own."""
    run_apart(trial, "standby", "no standby took over", run_traffic)
