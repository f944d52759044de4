"""A gateway among other programs: its service manager, the reader of its log, the system's sockets, and files that aren't its own."""

import contextlib
import json
import os
import select
import signal
import socket
import struct
import subprocess
import time
from collections.abc import Callable, Iterable, Iterator
from dataclasses import dataclass
from pathlib import Path

from cluster import Arrival
from gateway_limits import first_ir
from gateway_run import LOOPBACK, PROGRAM, WAIT_SECONDS, Gateway, Receivers, replayed, samples, sends_of
from program import Ended
from trial import Trial

LINK, OTHER = 1, 2
# How often the service manager wants to be told, in microseconds, and for how long it listens, in seconds.
WATCHED, LISTENED = 400_000, 2.0
# More datagrams than fit into a socket's buffer.
BURST = 60_000
# How often a gateway looks for drops, in seconds.
LOOK = 10.0
# The piggybacked elements of the greatest datagram, how many of them are sent at once, and how many wait at most.
ELEMENTS, AT_ONCE, MOST = 32_748, 4, 4096
# How long it may take until expired contexts are removed, in seconds.
EXPIRY = 70.0
# More log lines than fit into a pipe.
RELOADS = 1_500
# How many keys, or tables, a gateway file has.
MANY = (1_000, 4_000)


@contextlib.contextmanager
def made(trial: Trial, name: str, more: str = "") -> Iterator[Gateway]:
    """A gateway that isn't started, with these lines more in its file."""
    with Receivers() as receivers:
        gateway = Gateway(trial, trial.scratch / name, receivers.links([LINK]))
        gateway.file.write_text(gateway.file.read_text() + more)
        try:
            yield gateway
        finally:
            gateway.kill()
            gateway.sender.close()


def count_of(gateway: Gateway, name: str) -> int:
    """A metric of one sample."""
    return next((count for found, _, count in samples(gateway.metrics()) if found == name), -1)


def waits(holds: Callable[[], bool], seconds: float = WAIT_SECONDS) -> bool:
    """Waits until something holds. Whether it does."""
    end = time.monotonic() + seconds
    while not holds():
        if time.monotonic() > end:
            return False
        time.sleep(0.02)
    return True


@dataclass(frozen=True)
class Manager:
    """A service manager's socket, and the name that a service gets."""

    socket: socket.socket
    name: str

    @classmethod
    @contextlib.contextmanager
    def bound(cls, address: str, name: str) -> Iterator["Manager"]:
        """One at this address."""
        with socket.socket(socket.AF_UNIX, socket.SOCK_DGRAM) as one:
            one.bind(address)
            one.settimeout(WAIT_SECONDS)
            yield cls(one, name)

    def next(self) -> str:
        """What it is told next, but that the service goes on; nothing if it isn't told anything in time."""
        with contextlib.suppress(TimeoutError):
            while True:
                told = self.socket.recv(4096).decode()
                if told != "WATCHDOG=1\n":
                    return told
        return ""

    def alive(self, seconds: float) -> int:
        """How often it is told in this time that the service goes on."""
        count, end = 0, time.monotonic() + seconds
        while (left := end - time.monotonic()) > 0:
            if select.select([self.socket], [], [], left)[0]:
                count += self.socket.recv(4096) == b"WATCHDOG=1\n"
        return count


def check_managed(trial: Trial, gateway: Gateway, manager: Manager) -> None:
    """It is told when the gateway is ready, reloads, is ready again and stops, and that it goes on, unless it hangs."""
    gateway.environment = {"NOTIFY_SOCKET": manager.name, "WATCHDOG_USEC": str(WATCHED)}
    gateway.start()
    assert gateway.process
    told = [manager.next()]
    # It is due each half of that time.
    wanted = LISTENED * 1e6 / WATCHED
    found = manager.alive(LISTENED)
    trial.demand(wanted <= found <= 3 * wanted, f"managed: it goes on {found} times; wanted about {2 * wanted:.0f}")
    gateway.ask("POST", "/reload")
    told += [manager.next(), manager.next()]
    os.kill(gateway.process.pid, signal.SIGSTOP)
    manager.alive(0.2)
    hung = manager.alive(LISTENED)
    os.kill(gateway.process.pid, signal.SIGCONT)
    trial.demand(hung == 0, f"managed: a gateway that hangs goes on {hung} times")
    trial.demand(gateway.stop() == 0, "managed: it doesn't stop")
    told.append(manager.next())
    trial.demand(told == ["READY=1\n", "RELOADING=1\n", "READY=1\n", "STOPPING=1\n"], f"managed: {manager.name}: {told}")


def check_managers(trial: Trial) -> None:
    """A service manager at a path and one at a name alone; none that listens; and one that watches another process."""
    abstract = f"rohc-{os.getpid()}"
    path = Path(f"/tmp/{abstract}")
    for address, name in ((str(path), str(path)), (f"\0{abstract}", f"@{abstract}")):
        with made(trial, f"managed{name[0]}".replace("/", "_")) as gateway, Manager.bound(address, name) as manager:
            check_managed(trial, gateway, manager)
    path.unlink(missing_ok=True)
    for name in (str(path), "", "x" * 200):
        with made(trial, "unmanaged") as gateway:
            gateway.environment = {"NOTIFY_SOCKET": name, "WATCHDOG_USEC": "no number"}
            gateway.start()
            trial.demand(gateway.stop() == 0, f"managed: a socket {name!r} that isn't there")
    with made(trial, "other") as gateway, Manager.bound(f"\0{abstract}", f"@{abstract}") as manager:
        gateway.environment = {"NOTIFY_SOCKET": manager.name, "WATCHDOG_USEC": str(WATCHED), "WATCHDOG_PID": "1"}
        gateway.start()
        trial.demand(manager.next() == "READY=1\n" and manager.alive(1.0) == 0, "managed: it answers for another process")
    trial.say("managed: ready, reloading, ready again and stopping, and that it goes on, at a path and at a name alone")


def start_piped(gateway: Gateway) -> int:
    """Starts a gateway whose log is a pipe that nobody reads. Returns the end for a reader."""
    reading, writing = os.pipe()
    call = [gateway.trial.top / PROGRAM, "run", gateway.file]
    gateway.process = subprocess.Popen(call, stderr=writing)
    os.close(writing)
    ready = waits(lambda: (gateway.folder / "control").exists())
    gateway.trial.demand(ready, "unread: the gateway isn't ready")
    return reading


def read_all(descriptor: int) -> str:
    """What waits in a pipe."""
    octets = b""
    while select.select([descriptor], [], [], 0.2)[0] and (part := os.read(descriptor, 65_536)):
        octets += part
    return octets.decode()


def check_unread(trial: Trial) -> None:
    """A log that nobody reads stops no call: its lines are lost and counted, and told once it is read again."""
    with made(trial, "unread") as gateway:
        reading = start_piped(gateway)
        with os.fdopen(reading, "rb", buffering=0):
            for _ in range(RELOADS):
                trial.demand(gateway.ask("POST", "/reload").status == 200, "unread: a reload isn't answered")
            gateway.sender.sendto(struct.pack(">H", LINK) + first_ir(1), (LOOPBACK, gateway.port))
            gateway.count = 1
            gateway.wait_taken()
            lost = count_of(gateway, "polorowan_lost_log_lines_total")
            trial.demand(lost > 0 and gateway.datagrams() == 1, f"unread: {lost} lines lost, {gateway.datagrams()} datagrams")
            read = read_all(reading)
            kept = read.count(": reloaded: ")
            trial.demand(kept + lost == RELOADS and read.endswith("\n"), f"unread: {kept} lines, {lost} lost; wanted {RELOADS}")
            gateway.ask("POST", "/reload")
            told = read_all(reading).splitlines()
            good = len(told) == 2 and told[0].endswith(f": {lost} log lines are lost, since nothing read them")
            trial.demand(good and ": reloaded: " in told[1], f"unread: {told}")
            trial.demand(count_of(gateway, "polorowan_lost_log_lines_total") == lost, "unread: lines that were told are lost")
    trial.say(f"unread: {lost} of {RELOADS} lines of a log that nobody reads, and no call waits")


def check_dropped(trial: Trial) -> None:
    """What the system drops is counted, to the last datagram, and told when it begins and when it is over."""
    with made(trial, "dropped", "receive_buffer = 65536\n") as gateway:
        gateway.start()
        assert gateway.process
        trial.demand(count_of(gateway, "polorowan_dropped_datagrams_total") == 0, "dropped: not there from the start")
        packet = struct.pack(">H", LINK) + first_ir(1)
        os.kill(gateway.process.pid, signal.SIGSTOP)
        for _ in range(BURST):
            gateway.sender.sendto(packet, (LOOPBACK, gateway.port))
        os.kill(gateway.process.pid, signal.SIGCONT)
        seen = waits(lambda: count_of(gateway, "polorowan_dropped_datagrams_total") > 0, 2 * LOOK)
        dropped, taken = count_of(gateway, "polorowan_dropped_datagrams_total"), gateway.datagrams()
        trial.demand(seen and dropped + taken == BURST, f"dropped: {dropped} dropped, {taken} taken; wanted {BURST} in all")
        begins = f"the system dropped {dropped} datagrams that came faster than they are taken; "
        trial.demand(begins in gateway.said, f"dropped: the log: {gateway.said}")
        ends = f"the system drops no more datagrams; {dropped} since the start"
        trial.demand(waits(lambda: ends in gateway.said, 2 * LOOK), f"dropped: the log: {gateway.said}")
    trial.say(f"dropped: {dropped} of {BURST} datagrams, all of them counted")


def check_foreign(trial: Trial) -> None:
    """What stands at the path of a lock and is none is left as it is, and the gateway doesn't start."""
    makes: dict[str, Callable[[Path], object]] = {
        "file": lambda path: path.write_bytes(b"my notes\n"),
        "octets": lambda path: path.write_bytes(b"\xff" * 9000),
        "fifo": os.mkfifo,
        "folder": Path.mkdir,
    }
    for name, make in makes.items():
        for key, beside in (("state", "calls"), ("control", "control")):
            with made(trial, f"foreign-{name}-{key}") as gateway:
                path = gateway.folder / f"{beside}.lock"
                make(path)
                before = path.read_bytes() if path.is_file() else b""
                told = trial.ran(trial.top / PROGRAM, "run", gateway.file, seconds=20)
                wanted = f"{key}: {path}: not the lock of a gateway; expected no other file there"
                trial.demand(told.status == 3 and wanted in told.said, f"foreign: {name}: {told.end()}", told.call)
                after = path.read_bytes() if path.is_file() else b""
                trial.demand(path.exists() and after == before, f"foreign: {name}: it was changed")


def checked(gateway: Gateway) -> Ended:
    """What `check` says of a gateway's file, within a time in which nothing waits."""
    return gateway.trial.ran(gateway.trial.top / PROGRAM, "check", gateway.file, seconds=20)


def sparse(path: Path) -> None:
    """A file of 10 GB of nothing."""
    with path.open("wb") as file:
        file.truncate(10 << 30)


def check_irregular(trial: Trial) -> None:
    """A FIFO, a device and 10 GB of nothing are refused at once where a file is read, and at a reload no call waits."""
    device = "it is a device; expected a regular file"
    fifo = "it is a FIFO; expected a regular file"
    cases: tuple[tuple[str, Callable[[Path], object], str], ...] = (
        ("links.toml", os.mkfifo, fifo),
        ("links.toml", lambda path: path.symlink_to("/dev/zero"), device),
        ("links.toml", sparse, "it is longer than 1048576 octets; "),
        ("calls", os.mkfifo, fifo),
        ("calls", sparse, "it is longer than 1073741824 octets; "),
        ("calls.latest", os.mkfifo, fifo),
        ("calls.kept", os.mkfifo, fifo),
    )
    for at, (name, make, wanted) in enumerate(cases):
        with made(trial, f"irregular-{at}") as gateway:
            path = gateway.folder / name
            path.unlink(missing_ok=True)
            make(path)
            told = checked(gateway)
            good = told.status == 1 and told.text.startswith(f"{path}: {wanted}")
            trial.demand(good, f"irregular: {name}: {told.end()}, {told.text}", told.call)
    with made(trial, "irregular-reload") as gateway:
        gateway.start()
        for file in (gateway.folder / "links.toml", gateway.file):
            text = file.read_bytes()
            file.unlink()
            os.mkfifo(file)
            answer = gateway.ask("POST", "/reload")
            trial.demand(answer.status == 409 and fifo.encode() in answer.body, f"irregular: a reload: {answer.body!r}")
            file.unlink()
            file.write_bytes(text)
        trial.demand(gateway.ask("POST", "/reload").status == 200, "irregular: a reload after it")


def check_linked(trial: Trial) -> None:
    """A save writes through no symbolic link, and no lock is made through one."""
    with made(trial, "linked") as gateway:
        victim = gateway.folder / "victim"
        victim.write_text("not yours\n")
        for name in ("calls.new", "calls.latest.new"):
            (gateway.folder / name).symlink_to(victim)
        gateway.start()
        trial.demand(gateway.ask("POST", "/save").status == 200 and gateway.stop() == 0, "linked: a save fails")
        trial.demand(victim.read_bytes() == b"not yours\n", "linked: a save wrote over another file")
        saves = [gateway.folder / name for name in ("calls", "calls.latest")]
        trial.demand(all(path.is_file() and not path.is_symlink() for path in saves), "linked: a save is a link")
        saves[0].rename(gateway.folder / "moved")
        saves[0].symlink_to("moved")
        told = checked(gateway)
        wanted = f"state {saves[0]} is a symbolic link, which a save would replace; expected a regular file, or none\n"
        trial.demand(told.status == 1 and told.text.endswith(wanted), f"linked: {told.end()}, {told.text}", told.call)
    for key, name in (("state", "calls.lock"), ("control", "control.lock")):
        with made(trial, f"linked-{key}") as gateway:
            (gateway.folder / name).symlink_to("nowhere")
            told = trial.ran(trial.top / PROGRAM, "run", gateway.file, seconds=20)
            wanted = f"{key}: {gateway.folder / name}: not the lock of a gateway; expected no other file there"
            trial.demand(told.status == 3 and wanted in told.said, f"linked: {key}: {told.end()}", told.call)
            trial.demand(not (gateway.folder / "nowhere").exists(), f"linked: {key}: a lock was made elsewhere")


def check_many(trial: Trial) -> None:
    """The time of `check` grows as the gateway file does: with its keys, and with its tables."""
    for name, line in (("keys", "key_{} = 1\n"), ("tables", "[[link]]\nnumber = {}\n")):
        with made(trial, f"many-{name}") as gateway:
            front, seconds = gateway.file.read_text(), []
            for count in MANY:
                gateway.file.write_text(front + "".join(line.format(at) for at in range(count)))
                start = time.monotonic()
                told = checked(gateway)
                seconds.append(time.monotonic() - start)
                wanted = count if name == "keys" else count - 1
                trial.demand(told.text.count("\n") >= wanted, f"many: {count} {name}: {told.end()}", told.call)
            trial.demand(seconds[1] < 10 * seconds[0] + 1, f"many: {MANY} {name} take {seconds} seconds")


def check_long(trial: Trial) -> None:
    """No log line is longer than what a pipe accepts at once, be it text or JSON, and one that is cut says so."""
    with made(trial, "long") as gateway:
        folder = gateway.folder.resolve()
        while len(os.fsencode(folder)) < 3800:
            folder /= "é" * 100
            folder.mkdir()
        (folder / "gateway.toml").write_text(f'links = "{"n" * 150}"\nport = {gateway.port}\n')
        for kind in ("text", "json"):
            call = (trial.top / PROGRAM, "run", "--log-format", kind, folder / "gateway.toml")
            told = trial.ran(*call, seconds=20)
            octets = told.error
            good = told.status == 3 and 3900 < len(octets) <= 4096 and octets.endswith(b"\n")
            trial.demand(good, f"long: {kind}: {told.status}, {len(octets)} octets", told.call)
            text = json.loads(octets)["text"] if kind == "json" else told.said
            trial.demand(text.endswith("…"), f"long: {kind}: ends in {text[-20:]!r}", told.call)


def failed_sends(gateway: Gateway) -> int:
    """How many sends of the link failed."""
    found = (count for name, of, count in samples(gateway.metrics()) if name == "polorowan_failed_sends_total" and of["link"] == str(LINK))
    return next(found)


def relayed(receivers: Receivers) -> int:
    """How many elements have come."""
    receivers.take()
    return len(receivers.found["relay"])


def is_among(some: Iterable[bytes], all_of: Iterable[bytes]) -> bool:
    """Whether some are among all in this order."""
    left = iter(all_of)
    return all(one in left for one in some)


def check_relayed(trial: Trial) -> None:
    """Of a datagram with thousands of elements the first go out, in order, the rest is counted, and nothing else is lost."""
    with Receivers() as receivers:
        gateway = Gateway(trial, trial.scratch / "relayed", receivers.links([LINK, OTHER]))
        many = b"".join(b"\xf1" + bytes([at % 251]) for at in range(ELEMENTS))
        arrivals = [Arrival(LINK, 0, many), Arrival(LINK, 1, b"\xf1\xff" * 2), Arrival(OTHER, 2, first_ir(1))]
        answers = replayed(trial, gateway.folder / "links.toml", arrivals)
        sends = [send for lines in answers for send in sends_of(lines)]
        relays = [octets for kind, octets in sends if kind == "relay"]
        packets = [octets for kind, octets in sends if kind == "deliver"]
        with gateway:
            for arrival in arrivals:
                gateway.send(arrival)
            gateway.wait_taken()
            trial.demand(receivers.wait({"deliver": len(packets)}), "relayed: the call of another link is lost")
            waits(lambda: relayed(receivers) + failed_sends(gateway) >= len(relays))
            got, failed = receivers.found["relay"], failed_sends(gateway)
            good = got[: AT_ONCE + MOST] == relays[: AT_ONCE + MOST] and is_among(got, relays)
            trial.demand(good and len(got) + failed == len(relays), f"relayed: {len(got)} sent, {failed} failed of {len(relays)}")
            trial.demand(receivers.found["deliver"] == packets, "relayed: another packet is delivered")
            receivers.forget()
            gateway.send(arrivals[0])
            trial.demand(gateway.stop() == 0 and receivers.wait({"relay": AT_ONCE + MOST}), "relayed: a stop drops what waits")
    trial.say(f"relayed: {len(got)} of {len(relays)} elements in order, {failed} counted, and a call beside them")


def states(gateway: Gateway) -> dict[str, int]:
    """How many contexts of the link are in each state, those in none left out."""
    found = ((of, count) for name, of, count in samples(gateway.metrics()) if name == "polorowan_contexts" and count)
    return {of["state"]: count for of, count in found if of["link"] == str(LINK)}


@contextlib.contextmanager
def expiring(trial: Trial) -> Iterator[None]:
    """Calls that expire are shown as expired at once, answered as before, and removed within a minute, while other checks run."""
    with Receivers() as receivers:
        links = receivers.links([LINK]).replace("version = 1", "version = 2")
        gateway = Gateway(trial, trial.scratch / "expiring", links.replace("static_nack_ms = 1000\n", "static_nack_ms = 1000\nidle_ms = 1000\n"))
        gateway.file.write_text(gateway.file.read_text().replace(f"timed_port = {gateway.timed_port}\n", ""))
        with gateway:
            for cid in (1, 2):
                gateway.sender.sendto(struct.pack(">H", LINK) + first_ir(cid), (LOOPBACK, gateway.port))
            trial.demand(waits(lambda: states(gateway) == {"full": 2}), f"expiring: {states(gateway)}; wanted two in Full Context")
            trial.demand(waits(lambda: states(gateway) == {"expired": 2}), f"expiring: {states(gateway)}; wanted two expired")
            named = {row["state"] for row in gateway.ask("GET", "/calls").rows}
            trial.demand(named == {"expired"}, f"expiring: the calls are {named}")
            yield
            trial.demand(waits(lambda: not states(gateway), EXPIRY), f"expiring: {states(gateway)}; wanted none")
            gone = count_of(gateway, "polorowan_expired_total")
            trial.demand(gone == 2 and not gateway.ask("GET", "/calls").rows, f"expiring: {gone} removed; wanted 2")
    trial.say("expiring: contexts past idle_ms are shown as expired, and then removed")


def check(trial: Trial) -> None:
    """All of it."""
    with expiring(trial):
        check_others(trial)


def check_others(trial: Trial) -> None:
    """What doesn't take a minute."""
    check_relayed(trial)
    check_managers(trial)
    check_unread(trial)
    check_dropped(trial)
    check_foreign(trial)
    check_irregular(trial)
    check_linked(trial)
    check_many(trial)
    check_long(trial)
