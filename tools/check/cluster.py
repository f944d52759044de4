"""Calls that outlive a process: the programs of cluster/ over a Redis of the test's own.

Every answer must be there once, in order, and equal to one replay of the log: with workers that are killed and stopped, with
a Redis that is killed, from a base and a cut log. Programs that break a promise must be found out.
"""

import contextlib
import os
import random
import re
import select
import shutil
import signal
import socket
import struct
import subprocess
import sys
import threading
import time
from collections.abc import Callable, Iterator, Sequence
from dataclasses import dataclass, field
from pathlib import Path
from typing import TypeVar

import networks
import redis_server
from networks import Network
from redis_server import Client, Server
from refusals import refusal_names
from trial import Trial

sys.path.insert(0, str(Path(__file__).resolve().parent.parent))
from random_script import line_of, made_calls

# A thousand calls: as many on a link of small CIDs as it can have, and the others on those of large ones.
SHARDS, LINKS = 4, 20
SMALL_CALLS, LARGE_CALLS = 16, 84
KILLS, STOPS = 20, 10
ARRIVAL, ANSWER = struct.Struct("<BHQH"), struct.Struct("<HBBHBHBH")
WAIT_SECONDS = 60.0
ALIVE_MS = 600
PARTS = ("twins", "redis", "whole", "burst", "hosts", "up", "controls")
# The kinds of ports of a link, in their order there, and the words of what goes to them.
WORDS = {"deliver": "ip", "feedback": "feedback", "relay": "relay"}
# The relayed elements of an answer that has thousands, and how many of them an outlet sends: at once, and later.
ELEMENTS, AT_ONCE, LATER = 21_000, 4, 4096


Item = TypeVar("Item")


@dataclass(frozen=True)
class Arrival:
    """A packet of a link at a moment, or a reset of the link."""

    link: int
    moment: int = 0
    octets: bytes | None = None

    def packed(self) -> bytes:
        """Its octets in a block."""
        kind, octets = (1, b"") if self.octets is None else (0, self.octets)
        return ARRIVAL.pack(kind, self.link, self.moment, len(octets)) + octets

    def line(self) -> str:
        """Its line in a script."""
        if self.octets is None:
            return f"reset {self.link}"
        return f"arrive {self.link} {self.moment} {self.octets.hex() or '-'}"


def arrivals_in(block: bytes) -> Iterator[Arrival]:
    """The arrivals of a block."""
    at = 0
    while at < len(block):
        kind, link, moment, count = ARRIVAL.unpack_from(block, at)
        at += ARRIVAL.size + count
        yield Arrival(link) if kind == 1 else Arrival(link, moment, block[at - count : at])


def lines_in(answers: bytes, names: dict[int, str]) -> Iterator[str]:
    """The lines that a replay writes for the answers of a block."""
    at = 0
    while at < len(answers):
        link, kind, outcome, cid, flags, packet, feedback, relayed = ANSWER.unpack_from(answers, at)
        at += ANSWER.size
        parts = []
        for count in (relayed, packet, feedback):
            parts.append(answers[at : at + count])
            at += count
        elements = parts[0]
        while elements:
            yield f"{link} - relay {elements[1 : 1 + elements[0]].hex() or '-'}"
            elements = elements[1 + elements[0] :]
        if flags & 1:
            yield f"{link} {cid} ip {parts[1].hex() or '-'}"
        if kind == 0 and outcome == 31:
            yield f"{link} {cid} stored"
        if flags & 2:
            yield f"{link} {cid} feedback {parts[2].hex()}"
        if outcome in names:
            yield f"{link} {cid if kind == 0 else '-'} refused {names[outcome]}"


@dataclass
class Cluster:
    """Programs that were built, a Redis, and workers that are started again when they end."""

    trial: Trial
    built: Path
    folder: Path
    lines: Path
    server: Server = field(init=False)
    processes: dict[str, subprocess.Popen[bytes]] = field(default_factory=dict)
    calls: dict[str, list[str | Path]] = field(default_factory=dict)
    places: dict[str, Network] = field(default_factory=dict)

    def __post_init__(self) -> None:
        self.folder.mkdir(parents=True)
        self.server = Server(self.folder)

    def __enter__(self) -> "Cluster":
        self.server.start()
        return self

    def __exit__(self, *_: object) -> None:
        for name in list(self.processes):
            self.kill(name)
        self.server.kill()

    def start(self, name: str, program: str, *words: str | Path) -> None:
        """Starts a program under a name of its own."""
        self.calls[name] = [self.built / program, *words, "--redis", self.server.socket, "--shards", str(SHARDS)]
        self.start_again(name)

    def start_in(self, host: Network, name: str, *words: str | Path) -> None:
        """Starts a program on a host, which is a network."""
        self.calls[name], self.places[name] = list(words), host
        self.start_again(name)

    def worker(self, name: str, base: int, program: str = "rohc-worker") -> None:
        """Starts a worker."""
        words = (name, "--links", self.lines, "--base", str(base), "--alive", str(ALIVE_MS))
        self.start(name, program, *words)

    def start_again(self, name: str) -> None:
        """Starts a program once more."""
        with (self.folder / f"{name}.log").open("ab") as log, contextlib.ExitStack() as stack:
            if name in self.places:
                stack.enter_context(self.places[name].inside())
            self.processes[name] = subprocess.Popen(self.calls[name], stderr=log)

    def kill(self, name: str, number: int = signal.SIGKILL) -> None:
        """Ends a program."""
        process = self.processes.pop(name)
        process.send_signal(signal.SIGCONT)
        process.send_signal(number)
        process.wait(WAIT_SECONDS)

    def keep(self) -> None:
        """Starts those again that have ended."""
        for name, process in list(self.processes.items()):
            if process.poll() is not None:
                self.start_again(name)

    def said(self, name: str) -> str:
        """What a program wrote to standard error."""
        return (self.folder / f"{name}.log").read_text()

    def last(self, client: Client, stream: str) -> int:
        """The number of a stream's last entry."""
        with contextlib.suppress(redis_server.RedisError):
            found = client.ask("XINFO", "STREAM", stream)
            assert isinstance(found, list)
            fields = dict(zip(found[::2], found[1::2], strict=True))  # type: ignore[type-var]
            return int(fields[b"last-generated-id"].split(b"-")[0])  # type: ignore[union-attr]
        return 0

    def is_answered(self) -> bool:
        """Whether each block has its answers."""
        with self.server.client() as client:
            return all(self.last(client, f"in:{i}") == self.last(client, f"out:{i}") for i in range(SHARDS))

    def wait(self, seconds: float = WAIT_SECONDS, until: Callable[[], bool] | None = None) -> bool:
        """Waits until each block has its answers. What ends is started again."""
        end = time.monotonic() + seconds
        while time.monotonic() < end:
            with contextlib.suppress(OSError, redis_server.RedisError):
                if (until or self.is_answered)():
                    return True
            self.keep()
            time.sleep(0.02)
        return False


def made_arrivals(count: int, seed: int) -> list[Arrival]:
    """Arrivals of a thousand calls on twenty links, with damage, feedback and resets."""
    dice = random.Random(seed)
    pairs = [(link, cid) for link in range(1, LINKS + 1) for cid in range(SMALL_CALLS if link % 2 else LARGE_CALLS)]
    calls = made_calls(dice, pairs)
    found = []
    for number in range(count):
        line = f"reset {dice.randrange(1, LINKS + 2)}" if dice.random() < 0.002 else line_of(dice, *dice.choice(calls), number)
        words = (line or "").split(" ")
        if words[0] == "reset" and words[1] != "01":
            found.append(Arrival(int(words[1])))
        if words[0] == "arrive" and len(words) == 4 and words[3].islower() | (words[3] == "-"):
            octets = b"" if words[3] == "-" else bytes.fromhex(words[3])
            found.append(Arrival(int(words[1]), int(words[2]), octets))
    return found


def blocks_of(arrivals: Sequence[Arrival], count: int = 8) -> list[tuple[int, bytes]]:
    """Blocks of so many arrivals, each with its shard, in the order in which they are full."""
    filled: list[list[Arrival]] = [[] for _ in range(SHARDS)]
    blocks = []
    for arrival in arrivals:
        own = filled[arrival.link % SHARDS]
        own.append(arrival)
        if len(own) == count:
            blocks.append((arrival.link % SHARDS, b"".join(one.packed() for one in own)))
            own.clear()
    return blocks


def wanted(trial: Trial, links: Path, blocks: Sequence[bytes]) -> str:
    """What one replay of a shard's blocks writes."""
    script = "".join(arrival.line() + "\n" for block in blocks for arrival in arrivals_in(block))
    ended = trial.program.replay(links, script.encode())
    trial.demand(ended.status == 0, f"the replay of the log: {ended.end()}", ended.call)
    return ended.text


def compare(cluster: Cluster, links: Path, logs: dict[int, list[bytes]]) -> bool:
    """Whether each shard has each block's answers once, in order, and equal to one replay."""
    names = refusal_names(cluster.trial.top)
    is_same = True
    with cluster.server.client() as client:
        for shard, blocks in logs.items():
            entries = client.entries(f"out:{shard}")
            numbers = [number for number, _ in entries]
            found = "".join(line + "\n" for _, answers in entries for line in lines_in(answers, names))
            is_same &= numbers == list(range(1, len(blocks) + 1)) and found == wanted(cluster.trial, links, blocks)
    return is_same


def logs_of(blocks: Sequence[tuple[int, bytes]]) -> dict[int, list[bytes]]:
    """The blocks of each shard."""
    return {shard: [block for own, block in blocks if own == shard] for shard in range(SHARDS)}


def append(client: Client, blocks: Sequence[tuple[int, bytes]], counts: list[int]) -> None:
    """Appends blocks under the ids that follow."""
    for shard, block in blocks:
        counts[shard] += 1
        client.send("XADD", f"in:{shard}", f"{counts[shard]}-0", "b", block)
    for _ in blocks:
        client.reply()


def parts_of(all_of_it: Sequence[Item], count: int) -> list[Sequence[Item]]:
    """So many parts, one behind the other."""
    size = -(-len(all_of_it) // count)
    return [all_of_it[at * size : (at + 1) * size] for at in range(count)]


def other(name: str) -> str:
    """The other of two workers."""
    return "b" if name == "a" else "a"


def disturbed(cluster: Cluster, feed: Callable[[Sequence[Item]], None], all_of_it: Sequence[Item]) -> None:
    """Feeds in parts. Behind each the worker that is awake is killed, or stopped, and then the other goes on."""
    dice = random.Random(7)
    steps = ["kill"] * KILLS + ["stop"] * STOPS
    dice.shuffle(steps)
    *parts, last = parts_of(all_of_it, len(steps) + 1)
    asleep, awake = "", "a"
    for number, (part, step) in enumerate(zip(parts, steps, strict=True)):
        feed(part)
        time.sleep(dice.random() * 0.15)
        if step == "kill":
            cluster.kill(awake)
            cluster.start_again(awake)
            awake = awake if asleep else other(awake)
            continue
        if asleep:
            cluster.processes[asleep].send_signal(signal.SIGCONT)
        cluster.processes[awake].send_signal(signal.SIGSTOP)
        asleep, awake = awake, other(awake)
        time.sleep(2 * ALIVE_MS / 1000 if number % 3 == 0 else 0.1)
    feed(last)
    if asleep:
        cluster.processes[asleep].send_signal(signal.SIGCONT)


def check_twins(trial: Trial, made: "Made") -> None:
    """Two workers, killed twenty times and stopped ten times; bases, and a cut log; a third that begins at a base."""
    blocks = blocks_of(made_arrivals(20_000, 1))
    with Cluster(trial, made.built, trial.scratch / "twins", made.lines) as cluster:
        cluster.worker("a", 40)
        cluster.worker("b", 40)
        counts = [0] * SHARDS
        with cluster.server.client() as client:
            disturbed(cluster, lambda part: append(client, part, counts), blocks)
        trial.demand(cluster.wait(), "twins: not every block has its answers")
        cluster.worker("late", 40)
        trial.demand(compare(cluster, made.links, logs_of(blocks)), "twins: the answers aren't those of one replay")
        with cluster.server.client() as client:
            lengths = [client.ask("XLEN", f"in:{i}") for i in range(SHARDS)]
            logs = logs_of(blocks)
            is_cut = all(int(length or 0) < len(logs[i]) for i, length in enumerate(lengths))  # type: ignore[arg-type]
            trial.demand(is_cut, f"twins: the log wasn't cut: {lengths}")
        told = "".join(cluster.said(name) for name in ("a", "b"))
        slept = told.count("slept; it begins again")
        trial.say(f"twins: {len(blocks)} blocks, {KILLS} kills, {STOPS} stops, {slept} times a log was cut behind a stopped worker")
        ended = trial.ran(made.built / "rohc-metrics", "--redis", cluster.server.socket, "--shards", str(SHARDS))
        trial.demand("polorowan_cluster_blocks_unanswered" in ended.text, f"rohc-metrics: {ended.end()}", ended.call)


def free_port() -> int:
    """A port of 127.0.0.1 that no one listens at."""
    with socket.socket(socket.AF_INET, socket.SOCK_DGRAM) as one:
        one.bind(("127.0.0.1", 0))
        return int(one.getsockname()[1])


def send_all(port: int, arrivals: Sequence[Arrival], at: Sequence[tuple[int, Callable[[], None]]] = ()) -> None:
    """Sends the packets at a pace that the front keeps up with. Behind the n-th something is done."""
    due = dict(at)
    with socket.socket(socket.AF_INET, socket.SOCK_DGRAM) as sender:
        for number, arrival in enumerate(arrivals):
            if arrival.octets is not None:
                sender.sendto(struct.pack(">H", arrival.link) + arrival.octets, ("127.0.0.1", port))
            if number % 16 == 15:
                time.sleep(0.001)
            if number in due:
                due[number]()


def logged(cluster: Cluster) -> dict[int, list[bytes]]:
    """The blocks that the front appended."""
    with cluster.server.client() as client:
        return {shard: [block for _, block in client.entries(f"in:{shard}")] for shard in range(SHARDS)}


def check_redis(trial: Trial, made: "Made") -> None:
    """A front, two workers, and a Redis that is killed three times and then has no memory for a while."""
    arrivals = made_arrivals(6_000, 2)
    with Cluster(trial, made.built, trial.scratch / "redis", made.lines) as cluster:
        port = free_port()
        cluster.start("front", "rohc-front", "--port", str(port))
        cluster.worker("a", 1_000_000)
        cluster.worker("b", 1_000_000)
        time.sleep(0.3)

        def fall() -> None:
            cluster.server.kill()
            time.sleep(0.2)
            cluster.server.start()
            cluster.keep()

        def allow(memory: int) -> None:
            with cluster.server.client() as client:
                client.ask("CONFIG", "SET", "maxmemory", str(memory))

        def recover() -> None:
            time.sleep(0.5)
            allow(0)
            cluster.keep()

        def goes_on() -> bool:
            told = [line.partition(": ")[2] for line in cluster.said("front").splitlines()]
            last = {line[:4]: line for line in told if line.startswith("in:")}
            return all("takes blocks again" in line for line in last.values()) and cluster.is_answered()

        send_all(port, arrivals, [(1_500, fall), (3_000, fall), (4_500, fall), (5_000, lambda: allow(1)), (5_400, recover)])
        time.sleep(0.3)
        trial.demand(cluster.wait(until=goes_on), "redis: a shard still refuses blocks, or not every block has its answers")
        told = cluster.said("front")
        refused, begun = told.count(": OOM "), told.count("takes datagrams")
        trial.demand(0 < refused <= SHARDS, f"redis: the front tells {refused} times that a block was refused")
        trial.demand(begun == 1, f"redis: the front began {begun} times")
        logs = logged(cluster)
        trial.demand(compare(cluster, made.links, logs), "redis: the answers aren't those of one replay")
        count = sum(1 for blocks in logs.values() for block in blocks for _ in arrivals_in(block))
        trial.demand(count > 4_000, f"redis: only {count} arrivals are in the log")
        trial.say(f"redis: {count} arrivals in the log, Redis killed three times and once without memory")


class Sink:
    """Takes the datagrams of each kind from each shard, in their order, until it is closed."""

    def __init__(self) -> None:
        self.found: dict[tuple[str, int], list[str]] = {(kind, shard): [] for kind in WORDS for shard in range(SHARDS)}
        self.sockets = {key: socket.socket(socket.AF_INET, socket.SOCK_DGRAM) for key in self.found}
        for one in self.sockets.values():
            one.setsockopt(socket.SOL_SOCKET, socket.SO_RCVBUF, 1 << 23)
            one.bind(("127.0.0.1", 0))
        self.keys = {one: key for key, one in self.sockets.items()}
        self.latest = time.monotonic()
        self.is_open = True
        self.thread = threading.Thread(target=self.take)

    def __enter__(self) -> "Sink":
        self.thread.start()
        return self

    def __exit__(self, *_: object) -> None:
        self.is_open = False
        self.thread.join()
        for one in self.sockets.values():
            one.close()

    def take(self) -> None:
        """Takes what comes."""
        while self.is_open:
            for one in select.select(list(self.keys), [], [], 0.05)[0]:
                self.found[self.keys[one]].append(one.recv(65_535).hex() or "-")
                self.latest = time.monotonic()

    def ports(self) -> str:
        """The lines that tell an outlet the ports of all links."""
        numbers = {key: one.getsockname()[1] for key, one in self.sockets.items()}
        links = range(1, LINKS + 1)
        return "".join(f"ports {link} {' '.join(str(numbers[kind, link % SHARDS]) for kind in WORDS)}\n" for link in links)

    def wait(self) -> None:
        """Waits until nothing has come for a while."""
        while time.monotonic() < self.latest + 0.5:
            time.sleep(0.05)


def check_whole(trial: Trial, made: "Made") -> None:
    """A front, two workers that are killed twenty times and stopped ten times, and an outlet: datagrams in, datagrams out."""
    arrivals = made_arrivals(20_000, 3)
    names = refusal_names(trial.top)
    with Cluster(trial, made.built, trial.scratch / "whole", made.lines) as cluster, Sink() as sink:
        ports, port = trial.write("whole/ports", sink.ports()), free_port()
        cluster.start("front", "rohc-front", "--port", str(port))
        cluster.worker("a", 1_000_000)
        cluster.worker("b", 1_000_000)
        cluster.start("outlet", "rohc-outlet", "--ports", ports)
        time.sleep(0.3)
        disturbed(cluster, lambda part: send_all(port, part), arrivals)
        time.sleep(0.3)
        trial.demand(cluster.wait(), "whole: not every block has its answers")
        sink.wait()
        logs = logged(cluster)
        trial.demand(compare(cluster, made.links, logs), "whole: the answers aren't those of one replay")
        with cluster.server.client() as client:
            for shard in range(SHARDS):
                answers = b"".join(octets for _, octets in client.entries(f"out:{shard}"))
                lines = [line.split(" ") for line in lines_in(answers, names)]
                for kind, word in WORDS.items():
                    sent, found = [words[3] for words in lines if words[2] == word], sink.found[kind, shard]
                    text = f"whole: {len(found)} datagrams of shard {shard} at the {kind} port, {len(sent)} wanted, in order"
                    trial.demand(found == sent and (bool(sent) or kind == "relay"), text)
        count = sum(1 for blocks in logs.values() for block in blocks for _ in arrivals_in(block))
        trial.demand(count > 0.9 * len(arrivals), f"whole: only {count} arrivals are in the log")
        trial.say(f"whole: {count} arrivals from the front to the outlet, {KILLS} kills, {STOPS} stops")
        for name in ("front", "a", "b", "outlet"):
            process = cluster.processes[name]
            process.terminate()
            trial.demand(process.wait(WAIT_SECONDS) == 0, f"whole: {name} ends with {process.returncode} at SIGTERM")


def counted(cluster: Cluster) -> dict[str, int]:
    """What an outlet says that it sent, and what failed."""
    with cluster.server.client() as client:
        return {name: int(client.ask("HGET", "outlet:counts", name) or 0) for name in ("sent", "failed")}  # type: ignore[arg-type]


def check_burst(trial: Trial, made: "Made") -> None:
    """An answer with thousands of relayed elements, and right after it one of another link, which goes out first."""
    elements = [place.to_bytes(2, "big") for place in range(ELEMENTS)]
    relayed = b"".join(b"\x02" + one for one in elements)
    answers = ANSWER.pack(1, 0, 0, 0, 0, 0, 0, len(relayed)) + relayed + ANSWER.pack(2, 0, 0, 0, 1, 1, 0, 0) + b"x"
    wanted = {"sent": AT_ONCE + LATER + 1, "failed": ELEMENTS - AT_ONCE - LATER}
    with Cluster(trial, made.built, trial.scratch / "burst", made.lines) as cluster, contextlib.ExitStack() as stack:
        sockets = [stack.enter_context(socket.socket(socket.AF_INET, socket.SOCK_DGRAM)) for _ in range(2)]
        for one in sockets:
            one.bind(("127.0.0.1", 0))
        relay, deliver = sockets
        lines = f"ports 1 0 0 {relay.getsockname()[1]}\nports 2 {deliver.getsockname()[1]} 0 0\n"
        cluster.start("outlet", "rohc-outlet", "--ports", trial.write("burst/ports", lines))
        with cluster.server.client() as client:
            client.ask("XADD", "out:0", "1-0", "a", answers)
        found = []
        while deliver not in (ready := select.select(sockets, [], [], WAIT_SECONDS)[0]) and ready:
            found.append(relay.recv(65_535))
        before = len(found)
        while select.select([relay], [], [], 0.5)[0]:
            found.append(relay.recv(65_535))
        trial.demand(before < 100, f"burst: {before} elements before the packet of another link")
        trial.demand(found == sorted(found) and set(found) <= set(elements[: AT_ONCE + LATER]), "burst: elements out of order")
        cluster.wait(until=lambda: counted(cluster) == wanted)
        trial.demand(counted(cluster) == wanted, f"burst: {counted(cluster)}, {wanted} wanted")
    trial.say(f"burst: {before} of {len(found)} elements before a packet of another link, {wanted['failed']} counted")


SERVICE = """
foreground = yes
pid =
sslVersionMin = TLSv1.3
cert = {folder}/{own}.pem
CAfile = {folder}/{other}.crt
verifyPeer = yes
[redis]
{lines}
"""


def certificates(trial: Trial, folder: Path) -> None:
    """A certificate of each host."""
    for name in ("near", "far"):
        words = "req -x509 -newkey ec -pkeyopt ec_paramgen_curve:P-256 -nodes -days 2 -subj".split()
        files = ("-keyout", folder / f"{name}.pem", "-out", folder / f"{name}.crt")
        trial.must_run("openssl", *words, f"/CN={name}", *files)
        with (folder / f"{name}.pem").open("ab") as pem:
            pem.write((folder / f"{name}.crt").read_bytes())


def check_hosts(trial: Trial, made: "Made") -> None:
    """Two hosts with stunnel between them. The other host is taken away, and no call stops."""
    if not all(shutil.which(tool) for tool in ("stunnel4", "ip", "openssl")) or os.geteuid() != 0:
        trial.leave_out("stunnel4, ip or openssl is not there, or root isn't, the cluster was not run over hosts")
        return
    blocks = blocks_of(made_arrivals(3_000, 8))
    half = len(blocks) // 2
    with networks.made(2) as places:
        if not places:
            trial.leave_out("networks can't be made here, the cluster was not run over hosts")
            return
        near, far = places
        near.join("far", "10.77.0.1/24", far, "10.77.0.2/24")
        with Cluster(trial, made.built, trial.scratch / "hosts", made.lines) as cluster:
            certificates(trial, cluster.folder)
            for host, own, other, lines in (
                (near, "near", "far", f"accept = 10.77.0.1:7443\nconnect = {cluster.server.socket}"),
                (far, "far", "near", "client = yes\naccept = 127.0.0.1:6390\nconnect = 10.77.0.1:7443"),
            ):
                text = SERVICE.format(folder=cluster.folder, own=own, other=other, lines=lines)
                cluster.start_in(host, f"tunnel-{own}", "stunnel4", trial.write(f"hosts/{own}.conf", text))
            time.sleep(0.5)
            worker = (made.built / "rohc-worker", "b", "--links", made.lines, "--shards", str(SHARDS))
            cluster.start_in(far, "b", *worker, "--redis", "6390")
            counts = [0] * SHARDS
            with cluster.server.client() as client:
                append(client, blocks[:half], counts)
                trial.demand(cluster.wait(20.0), "hosts: the far worker alone doesn't answer")
                cluster.worker("a", 40)
                far.run("ip link set eth down")
                append(client, blocks[half:], counts)
            trial.demand(cluster.wait(20.0), "hosts: without the far host not every block has its answers")
            trial.demand(compare(cluster, made.links, logs_of(blocks)), "hosts: the answers aren't those of one replay")
            trial.say(f"hosts: {len(blocks)} blocks over two hosts with stunnel between, one of them taken away")


def children(pid: int) -> list[int]:
    """The processes that a process started."""
    with contextlib.suppress(OSError):
        return [int(word) for word in Path(f"/proc/{pid}/task/{pid}/children").read_text().split()]
    return []


def delivers(port: int, octets: bytes, sink: socket.socket) -> bytes:
    """What comes for a packet of link 1."""
    with socket.socket(socket.AF_INET, socket.SOCK_DGRAM) as sender, contextlib.suppress(TimeoutError):
        sender.sendto(b"\0\1" + octets, ("127.0.0.1", port))
        return sink.recv(65_535)
    return b""


def check_up(trial: Trial, made: "Made") -> None:
    """cluster/up and cluster/down: a call goes on when a worker is killed, which comes back, and nothing runs in the end."""
    folder, port, up = trial.scratch / "up", free_port(), trial.top / "cluster/up"
    with contextlib.ExitStack() as stack:
        sink = stack.enter_context(socket.socket(socket.AF_INET, socket.SOCK_DGRAM))
        sink.bind(("127.0.0.1", 0))
        sink.settimeout(WAIT_SECONDS)
        text = (trial.top / "examples/links.toml").read_text()
        text = re.sub(r"deliver_port = \d+", f"deliver_port = {sink.getsockname()[1]}", text)
        stack.callback(trial.ran, trial.top / "cluster/down", folder)
        words = (up, folder, trial.write("up.toml", text), str(port))
        started = trial.ran(*words, environment={"CLUSTER_BIN": str(made.built)})
        if not trial.demand(started.text.startswith("ready"), f"cluster/up: {started.end()}", started.call):
            return
        pids = [int(word) for word in (folder / "pids").read_text().split()]
        found = [delivers(port, bytes.fromhex("fc00b745aa"), sink)]
        for worker in children(pids[2]):
            os.kill(worker, signal.SIGKILL)
        found.append(delivers(port, bytes.fromhex("45ab"), sink))
        trial.demand(found == [b"\x45\xaa", b"\x45\xab"], f"cluster/up: {[one.hex() for one in found]} came")
        end = time.monotonic() + WAIT_SECONDS
        while (folder / "a.log").read_text().count("reads") < 2 and time.monotonic() < end:
            time.sleep(0.05)
        is_back = (folder / "a.log").read_text().count("reads") >= 2
        trial.demand(is_back, "cluster/up: a worker that was killed isn't started again")
        every = [*pids, *(child for pid in pids for child in children(pid))]
        ended = [trial.ran(trial.top / "cluster/down", folder).status for _ in range(2)]
        left = [pid for pid in every if Path(f"/proc/{pid}").exists()]
        trial.demand(ended == [0, 1] and not left, f"cluster/down: statuses {ended}, 0 and 1 wanted; {left} still run")
        again = trial.ran(*words, environment={"CLUSTER_BIN": str(made.built)})
        trial.demand(again.text.startswith("ready"), f"cluster/up once more: {again.end()}", again.call)
        late = delivers(port, bytes.fromhex("45ac"), sink)
        trial.demand(late == b"\x45\xac", f"cluster/up once more: {late.hex()} came")


def check_controls(trial: Trial, made: "Made") -> None:
    """Programs that break a promise are found out."""
    blocks = blocks_of(made_arrivals(3_000, 4))
    half = len(blocks) // 2
    with Cluster(trial, made.control(1), trial.scratch / "skips", made.lines) as cluster:
        counts = [0] * SHARDS
        cluster.worker("a", 1_000_000)
        with cluster.server.client() as client:
            append(client, blocks[:half], counts)
            cluster.wait()
            cluster.kill("a")
            cluster.start_again("a")
            append(client, blocks[half:], counts)
        cluster.wait()
        is_same = compare(cluster, made.links, logs_of(blocks))
        trial.demand(not is_same, "control: a worker that doesn't rebuild was NOT found out")
    with Cluster(trial, made.control(2), trial.scratch / "before", made.lines) as cluster:
        counts = [0] * SHARDS
        cluster.worker("a", 20)
        with cluster.server.client() as client:
            append(client, blocks, counts)
        trial.demand(not cluster.wait(5.0), "control: a base before its answers was NOT found out")
        trial.demand("ahead of the answers" in cluster.said("a"), "control: no word of a base that is ahead")
    with Cluster(trial, made.control(1), trial.scratch / "ids", made.lines) as cluster:
        port = free_port()
        cluster.start("front", "rohc-front", "--port", str(port))
        time.sleep(0.2)
        send_all(port, made_arrivals(200, 5))
        time.sleep(0.2)
        cluster.kill("front", signal.SIGTERM)
        cluster.start_again("front")
        time.sleep(0.2)
        send_all(port, made_arrivals(200, 6))
        time.sleep(0.2)
        trial.demand("another front writes" in cluster.said("front"), "control: a front that reuses ids was NOT found out")


@dataclass(frozen=True)
class Made:
    """The programs that were built, and the links."""

    trial: Trial
    prefix: Path
    built: Path
    links: Path
    lines: Path

    def control(self, number: int) -> Path:
        """The programs with one promise broken."""
        folder = self.trial.scratch / f"control-{number}"
        folder.mkdir(exist_ok=True)
        build(self.trial, self.prefix, folder, f"CONTROL={number}")
        return folder


def build(trial: Trial, prefix: Path, folder: Path, *words: str) -> None:
    """Builds the programs of the cluster over an installed library."""
    trial.must_run("make", "-s", "-C", trial.top / "cluster", f"PREFIX={prefix}", f"OUT={folder}", *words)


def make(trial: Trial) -> Made:
    """Builds the programs, and writes the links."""
    given = os.environ.get("POLOROWAN_PREFIX")
    prefix = Path(given) if given else trial.scratch / "prefix"
    if not given:
        environment = {"POLOROWAN_OVER_GATE": "1" if trial.over_gate else ""}
        trial.must_run(trial.top / "bin/install", "--library", prefix, environment=environment, seconds=3600)
    built = trial.scratch / "built"
    built.mkdir()
    build(trial, prefix, built)
    links = trial.made("links.toml", "python3", trial.top / "tools/limit_scripts.py", "links", str(LINKS))
    text = links.read_text()
    links.write_text(text.replace('mode = "U"', 'mode = "O"'))
    lines = trial.made("links", trial.top / "tools/link_lines.py", links)
    return Made(trial, prefix, built, links, lines)


def is_part(top: Path, word: str) -> bool:
    """Whether this is a part of the check."""
    return word in PARTS


def check(trial: Trial) -> None:
    """Runs all of it."""
    for tool in ("redis-server", "make", "pkg-config"):
        if not shutil.which(tool):
            trial.leave_out(f"{tool} is not installed, cluster/ was not run")
            return
    if trial.ran("pkg-config", "--exists", "hiredis", "libcrypto").status != 0:
        trial.leave_out("hiredis or libcrypto is not installed, cluster/ was not run")
        return
    made = make(trial)
    parts = dict(zip(PARTS, (check_twins, check_redis, check_whole, check_burst, check_hosts, check_up, check_controls), strict=True))
    for name in trial.chosen(PARTS):
        parts[name](trial, made)
