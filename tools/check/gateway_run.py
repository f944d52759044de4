"""A rohc-gateway of a test's own: its files, its sockets, and what it must send."""

import contextlib
import json
import os
import re
import resource
import select
import signal
import socket
import struct
import subprocess
import time
from collections.abc import Iterable, Iterator, Sequence
from dataclasses import dataclass, field
from pathlib import Path

from cluster import Arrival
from trial import Trial

PROGRAM = "crates/rohc_gateway/out/rohc_gateway"
LOOPBACK = "127.0.0.1"
WAIT_SECONDS = 30.0
# So many datagrams are under way at most: they fit into any socket's buffer.
BATCH = 64
KINDS = ("deliver", "feedback", "relay")
KIND_OF_WORD = {"ip": "deliver", "feedback": "feedback", "relay": "relay"}


def bound(kind: int = socket.SOCK_DGRAM) -> socket.socket:
    """A socket at a free port of 127.0.0.1."""
    one = socket.socket(socket.AF_INET, kind)
    one.bind((LOOPBACK, 0))
    return one


def free_port(kind: int = socket.SOCK_DGRAM) -> int:
    """A port of 127.0.0.1 that no one listens at."""
    with bound(kind) as one:
        return int(one.getsockname()[1])


class Receivers:
    """A socket for each kind of what is sent, the same for all links."""

    def __init__(self) -> None:
        self.sockets = {kind: bound() for kind in KINDS}
        self.found: dict[str, list[bytes]] = {kind: [] for kind in KINDS}
        for one in self.sockets.values():
            one.setsockopt(socket.SOL_SOCKET, socket.SO_RCVBUF, 1 << 22)
            one.setblocking(False)

    def __enter__(self) -> "Receivers":
        return self

    def __exit__(self, *_: object) -> None:
        for one in self.sockets.values():
            one.close()

    def links(self, numbers: Iterable[int]) -> str:
        """A links file: odd links have small CIDs, the others large ones."""
        ports = "".join(f"{kind}_port = {one.getsockname()[1]}\n" for kind, one in self.sockets.items())
        text = "version = 1\n"
        for number in numbers:
            cid, greatest = ("small", 15) if number % 2 else ("large", 255)
            text += f'[[link]]\nnumber = {number}\ncid = "{cid}"\nmax_cid = {greatest}\nmode = "O"\nk1 = 2\nn1 = 3\n'
            text += f"k2 = 2\nn2 = 3\npacket_ms = 20\nstatic_nack_ms = 1000\n{ports}"
        return text

    def take(self) -> None:
        """Takes what has come."""
        for kind, one in self.sockets.items():
            with contextlib.suppress(BlockingIOError):
                while True:
                    self.found[kind].append(one.recv(65_536))

    def wait(self, wanted: dict[str, int], seconds: float = WAIT_SECONDS) -> bool:
        """Waits until so many of each kind have come."""
        end = time.monotonic() + seconds
        while True:
            self.take()
            if all(len(self.found[kind]) >= count for kind, count in wanted.items()):
                return True
            if time.monotonic() > end:
                return False
            select.select(list(self.sockets.values()), [], [], 0.2)

    def forget(self) -> None:
        """Forgets all that has come, after a while in which nothing comes."""
        while select.select(list(self.sockets.values()), [], [], 0.2)[0]:
            self.take()
        self.found = {kind: [] for kind in KINDS}


def sends_of(lines: Iterable[str]) -> Iterator[tuple[str, bytes]]:
    """What must be sent for answer lines: the kind and the octets of each datagram."""
    for words in (line.split(" ") for line in lines):
        if words[2] in KIND_OF_WORD:
            yield KIND_OF_WORD[words[2]], bytes.fromhex(words[3].strip("-"))


def numbered(link: int, octets: bytes) -> bytes:
    """Octets behind the number of a link."""
    return struct.pack(">H", link) + octets


def replayed(trial: Trial, links: Path, arrivals: Sequence[Arrival]) -> list[list[str]]:
    """The answer lines of each arrival, by one replay. A bad line behind each marks where its answers end."""
    script = "".join(f"{arrival.line()}\n-\n" for arrival in arrivals)
    ended = trial.program.replay(links, script.encode())
    trial.demand(ended.status == 0, f"the replay: {ended.end()}", ended.call)
    return [part.splitlines() for part in ended.text.split("- - refused BadLine\n")[:-1]]


@dataclass(frozen=True)
class Answered:
    """An answer on the control socket or at the metrics port."""

    status: int
    body: bytes
    head: str = ""

    @property
    def json(self) -> dict[str, object]:
        """The body as an object."""
        found = json.loads(self.body)
        assert isinstance(found, dict)
        return found

    @property
    def rows(self) -> list[dict[str, object]]:
        """The body as objects, one a line."""
        return [json.loads(line) for line in self.body.splitlines()]


def samples(text: str) -> Iterator[tuple[str, dict[str, str], int]]:
    """The samples of a text of metrics: name, labels and number."""
    for line in text.splitlines():
        found = re.fullmatch(r"(\w+)(?:\{(.*)\})? (\S+)", line)
        if found and not line.startswith("#"):
            yield found[1], dict(re.findall(r'(\w+)="([^"]*)"', found[2] or "")), int(float(found[3]))


def dated(text: str) -> str:
    """A text with the word DATE in place of the date and time with which a line begins."""
    return re.sub(r"^\d{4}-\d\d-\d\dT\d\d:\d\d:\d\dZ ", "DATE ", text, flags=re.MULTILINE)


def told_room(wanted: int = 4 << 20) -> tuple[str, str]:
    """What a start logs of the receive buffers that it asked for: the level, and the text."""
    most = int(Path("/proc/sys/net/core/rmem_max").read_text())
    if wanted <= most:
        return "info", f"receive buffers: {wanted} octets"
    return "warning", f"receive buffers: {most} octets; expected {wanted} (sysctl -w net.core.rmem_max={wanted}, then start again)"


def read_answer(one: socket.socket) -> Answered:
    """Reads an answer to the end of the connection. Without one the status is 0."""
    octets = b""
    with contextlib.suppress(ConnectionError):
        while part := one.recv(65_536):
            octets += part
    head, _, body = octets.partition(b"\r\n\r\n")
    words = head.split(b" ", 2)
    status = int(words[1]) if len(words) > 1 and words[1].isdigit() else 0
    return Answered(status, body, f"{head.decode(errors='replace')}\r\n")


@dataclass
class Gateway:
    """A running rohc-gateway, with a folder of its own."""

    trial: Trial
    folder: Path
    links: str
    port: int = field(default_factory=free_port)
    timed_port: int = field(default_factory=free_port)
    metrics_port: int = field(default_factory=lambda: free_port(socket.SOCK_STREAM))
    save_seconds: int = 86_400
    limits: dict[int, int] = field(default_factory=dict)
    environment: dict[str, str] = field(default_factory=dict)
    # The ports of links that have one of their own.
    link_ports: dict[int, int] = field(default_factory=dict)
    # How many octets the payloads of links have, where that is known.
    payloads: dict[int, int] = field(default_factory=dict)
    # Whether feedback and relayed feedback have the link's number first.
    is_numbered: bool = False
    # Whether the journal of systemd reads its log.
    is_journal: bool = True
    process: subprocess.Popen[bytes] | None = None
    count: int = 0

    def __post_init__(self) -> None:
        self.folder.mkdir(parents=True, exist_ok=True)
        self.write_links(self.links)
        text = f'links = "links.toml"\nport = {self.port}\ntimed_port = {self.timed_port}\nstate = "calls"\n'
        text += f'save_seconds = {self.save_seconds}\ncontrol = "control"\nmetrics_port = {self.metrics_port}\n'
        text += "numbered_feedback = true\n" if self.is_numbered else ""
        for link in sorted({*self.link_ports, *self.payloads}):
            text += f"[[link]]\nnumber = {link}\n"
            text += f"port = {self.link_ports[link]}\n" if link in self.link_ports else ""
            text += f"payload = {self.payloads[link]}\n" if link in self.payloads else ""
        self.file.write_text(text)
        self.sender = socket.socket(socket.AF_INET, socket.SOCK_DGRAM)

    @property
    def file(self) -> Path:
        """The gateway file."""
        return self.folder / "gateway.toml"

    @property
    def control(self) -> Path:
        """The control socket."""
        return self.folder / "control"

    @property
    def said(self) -> str:
        """What it wrote to standard error."""
        return (self.folder / "log").read_text()

    def write_links(self, text: str) -> None:
        """Writes the links file."""
        self.links = text
        (self.folder / "links.toml").write_text(text)

    def __enter__(self) -> "Gateway":
        self.start()
        return self

    def __exit__(self, *_: object) -> None:
        self.kill()
        self.sender.close()

    def start(self, *words: str) -> None:
        """Starts it, and waits until it is ready."""
        self.count = 0
        with (self.folder / "log").open("ab") as log:
            call = [self.trial.top / PROGRAM, "run", self.file, *words]
            environment = os.environ | self.environment
            if self.is_journal:
                file = os.fstat(log.fileno())
                environment |= {"JOURNAL_STREAM": f"{file.st_dev}:{file.st_ino}"}
            self.process = subprocess.Popen(call, stderr=log, preexec_fn=self.set_limits, env=environment)
        end = time.monotonic() + WAIT_SECONDS
        while time.monotonic() < end:
            with contextlib.suppress(OSError):
                if self.ask("GET", "/ready").status == 200:
                    return
            if self.process.poll() is not None:
                break
            time.sleep(0.01)
        raise RuntimeError(f"rohc-gateway isn't ready: {self.said}")

    def set_limits(self) -> None:
        """Sets the limits of the process that is to run. A write above the greatest size fails, and ends nothing."""
        signal.signal(signal.SIGXFSZ, signal.SIG_IGN)
        for kind, limit in self.limits.items():
            resource.setrlimit(kind, (limit, limit))

    def kill(self) -> None:
        """Ends it by SIGKILL, if it runs."""
        if self.process and self.process.poll() is None:
            self.process.send_signal(signal.SIGKILL)
            self.process.wait(WAIT_SECONDS)

    def stop(self) -> int:
        """Asks it to stop, and returns the status with which it ends."""
        assert self.process
        answer = self.ask("POST", "/stop")
        return self.process.wait(WAIT_SECONDS) if answer.status == 200 else -1

    def sent(self, octets: bytes) -> Answered:
        """What octets on the control socket are answered by."""
        with socket.socket(socket.AF_UNIX) as one:
            one.settimeout(WAIT_SECONDS)
            # The path may be longer than a socket's name may be.
            folder = os.open(self.folder, os.O_RDONLY | os.O_DIRECTORY)
            try:
                one.connect(f"/proc/self/fd/{folder}/control")
            finally:
                os.close(folder)
            with contextlib.suppress(ConnectionError):
                one.sendall(octets)
                one.shutdown(socket.SHUT_WR)
            return read_answer(one)

    def ask(self, method: str, path: str) -> Answered:
        """A request on the control socket."""
        return self.sent(f"{method} {path} HTTP/1.1\r\nHost: gateway\r\n\r\n".encode())

    def at_metrics(self, method: str, path: str) -> Answered:
        """A request at the metrics port."""
        with socket.create_connection((LOOPBACK, self.metrics_port), WAIT_SECONDS) as one:
            one.sendall(f"{method} {path} HTTP/1.1\r\nHost: gateway\r\n\r\n".encode())
            return read_answer(one)

    def metrics(self) -> str:
        """What the metrics port shows."""
        return self.at_metrics("GET", "/metrics").body.decode()

    def datagrams(self) -> int:
        """How many datagrams it has taken since it started."""
        return next((count for name, _, count in samples(self.metrics()) if name == "polorowan_datagrams_total"), 0)

    def wait_taken(self) -> None:
        """Waits until it has taken all that was sent."""
        end = time.monotonic() + WAIT_SECONDS
        while self.datagrams() < self.count and time.monotonic() < end:
            time.sleep(0.002)

    def send(self, arrival: Arrival) -> None:
        """Sends a packet to the timed port; a reset is a request."""
        if arrival.octets is None:
            self.ask("POST", f"/reset?link={arrival.link}")
        else:
            head = struct.pack(">HQ", arrival.link, arrival.moment)
            self.sender.sendto(head + arrival.octets, (LOOPBACK, self.timed_port))
            self.count += 1

    def takes(self, receivers: Receivers, arrivals: Sequence[Arrival], wanted: Sequence[Sequence[str]]) -> bool:
        """Sends arrivals, as many at once as fit, and waits for what must be sent for each. Whether exactly that comes."""
        due = {kind: len(found) for kind, found in receivers.found.items()}
        before = dict(due)
        all_sends: dict[str, list[bytes]] = {kind: [] for kind in KINDS}
        for at in range(0, len(arrivals), BATCH):
            for arrival, lines in zip(arrivals[at : at + BATCH], wanted[at : at + BATCH], strict=True):
                if arrival.octets is None:
                    self.wait_taken()
                self.send(arrival)
                for kind, octets in sends_of(lines):
                    due[kind] += 1
                    all_sends[kind].append(numbered(arrival.link, octets) if self.is_numbered and kind != "deliver" else octets)
            if not receivers.wait(due):
                return False
        return all(receivers.found[kind][before[kind] :] == all_sends[kind] for kind in KINDS)
