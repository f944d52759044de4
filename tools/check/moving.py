"""A link is moved between two gateways, again and again, while 40 calls send 1,000 packets per second.

Each gateway is in a network of its own, and deploy/move-link sets the rule that chooses one in a third network, before both.
Each packet must be delivered exactly once, and in order, by one of the two. Then each step of a move is made to fail: the link
stays at the old gateway, or the script says where it is. Packets that were held may be missing then, as many as it told.
"""

import contextlib
import multiprocessing
import os
import re
import struct
import subprocess
import time
from collections.abc import Iterator
from dataclasses import dataclass, field
from pathlib import Path

import networks
from gateway_run import LOOPBACK, Answered, Gateway, Receivers, numbered
from networks import Network
from standby import METRICS, PATIENCE, PORT, RATE, Traffic, join, made_host, packet, run_apart, traffic_to
from trial import Trial

ROHCTL = "crates/rohctl/out/rohctl"
MOVES, STEADY = 6, 0.3
# Where the datagrams of the two gateways go.
PLACES = tuple(f"10.78.{place}.2:{PORT}" for place in (1, 2))
# How many datagrams a link that is held may keep, and how many more are sent.
MOST_HELD, MORE = 16_384, 16
# An IR of profile 0x0000 and CID 0, as a datagram of link 1.
IR = bytes.fromhex("0001fc00b745aa")
# Sends what comes for the gateways to the first of them.
FIRST = f"""table ip polorowan {{
    chain to_first {{
        type filter hook prerouting priority raw;
        udp dport {PORT} notrack ip daddr set 10.78.1.2
    }}
}}
"""


@dataclass
class Mover:
    """What moves the link between the gateways."""

    trial: Trial
    front: Network
    traffic: Traffic
    # The gateway at which the link is.
    place: int = 0
    # How many held datagrams the script told as dropped.
    dropped: int = 0
    # Words of commands that fail, for each gateway, and whether they are run before that.
    environment: dict[str, str] = field(default_factory=dict)

    def rohctl(self, place: int, fails: str = "", *, is_run: bool = False) -> str:
        """The command that runs rohctl for a gateway. The subcommand of this name fails, once it was run or before."""
        control = self.traffic.hosts[place].gateway.control
        file = self.trial.scratch / f"rohctl-{place}-{fails or 'good'}-{is_run}"
        run = f'ROHC_CONTROL="{control}" "{self.trial.top / ROHCTL}" "$@"'
        text = f'[ "$1" = "{fails}" ] || exec env {run}\n'
        text += f"env {run} >/dev/null\n" if is_run else ""
        file.write_text(f"#!/bin/sh\n{text}exit 9\n")
        file.chmod(0o755)
        return str(file)

    def run(self, old_rohctl: str, new_rohctl: str) -> tuple[int, str]:
        """Runs the script: its status, and all that it said."""
        old, new = PLACES[self.place], PLACES[1 - self.place]
        with self.front.inside():
            words = [str(self.trial.top / "deploy/move-link"), "1", old, new, old_rohctl, new_rohctl]
            ended = subprocess.run(words, capture_output=True, text=True, timeout=PATIENCE * 3, env=os.environ | self.environment, check=False)
        self.dropped += sum(int(count) for count in re.findall(r'"dropped":(\d+)', ended.stdout))
        return ended.returncode, ended.stdout + ended.stderr

    def steady(self) -> None:
        """Waits until the gateway that has the link has delivered for a while."""
        delivers = self.traffic.wait_for(self.place, int(RATE * STEADY))
        self.trial.demand(delivers, f"moving: the gateway at {PLACES[self.place]} delivers nothing")

    def move(self) -> None:
        """Moves the link to the other gateway."""
        self.steady()
        status, said = self.run(self.rohctl(self.place), self.rohctl(1 - self.place))
        good = status == 0 and said.endswith(f"move-link: link 1 is at {PLACES[1 - self.place]}\n")
        if self.trial.demand(good, f"moving: status {status}, it said {said!r}"):
            self.place = 1 - self.place

    def fail(self, what: str, old: str, new: str, status: int, end: str) -> None:
        """A move with a step that fails."""
        self.steady()
        found, said = self.run(old, new)
        self.trial.demand(found == status and end in said, f"moving, {what}: status {found}, it said {said!r}")
        if found == 0:
            self.place = 1 - self.place

    def fail_steps(self) -> None:
        """Each step fails in turn."""
        stays = lambda: f"; link 1 stays at {PLACES[self.place]}\n"
        old, new = self.rohctl, lambda *words, **how: self.rohctl(1 - self.place, *words, **how)
        self.fail("no hold", old(self.place), new("hold"), 1, "does not hold it" + stays())
        self.fail("a second hold", old(self.place), old(self.place), 1, "does not hold it" + stays())
        with self.without_nft():
            self.fail("no rule", old(self.place), new(), 1, "refused the rule" + stays())
        self.fail("no export", old(self.place, "export"), new(), 1, "did not export it" + stays())
        self.fail("no import", old(self.place), new("import"), 1, "did not import it" + stays())
        at_new = f"link 1 is at {PLACES[1 - self.place]}\n"
        self.fail("an import whose answer is lost", old(self.place), new("import", is_run=True), 0, at_new)
        at_new = f"link 1 is at {PLACES[1 - self.place]}\n"
        self.fail("no reset", old(self.place, "reset"), new(), 0, "still has its contexts")
        # The contexts that weren't removed refuse the next move back.
        self.fail("contexts at the new gateway", old(self.place), new(), 1, '"HasContexts"')
        self.trial.demand(subprocess.run([new(), "reset", "--link", "1"], capture_output=True, check=False).returncode == 0, "moving: no reset")

    @contextlib.contextmanager
    def without_nft(self) -> Iterator[None]:
        """The script finds a program nft that fails."""
        folder = self.trial.scratch / "broken"
        folder.mkdir(exist_ok=True)
        (folder / "nft").write_text("#!/bin/sh\nexit 1\n")
        (folder / "nft").chmod(0o755)
        self.environment = {"PATH": f"{folder}:{os.environ['PATH']}"}
        try:
            yield
        finally:
            self.environment = {}


def number_of(octets: bytes) -> int | None:
    """The number of a packet, if it is one of those that were sent."""
    number = int(struct.unpack(">Q", octets[-8:])[0]) if len(octets) >= 8 else -1
    return number if 0 <= number < 1 << 32 and octets == packet(number) else None


def compare(trial: Trial, traffic: Traffic, dropped: int, first: int) -> None:
    """Each packet from this one on was delivered exactly once and in order, but for as many as were told as dropped."""
    numbers = [number_of(octets) for _, _, octets in traffic.delivered]
    trial.demand(None not in numbers, f"moving: {numbers.count(None)} packets were delivered that weren't sent")
    found = [number for number in numbers if number is not None]
    trial.demand(len(found) == len(set(found)), f"moving: {len(found) - len(set(found))} packets were delivered twice")
    for place in (0, 1):
        own = [number for number, (_, at, _) in zip(numbers, traffic.delivered, strict=True) if at == place and number is not None]
        wrong = sum(b < a for a, b in zip(own, own[1:], strict=False))
        trial.demand(wrong == 0, f"moving: {wrong} packets came out of order from the gateway at {PLACES[place]}")
    missing = set(range(first, len(traffic.sent))) - set(found)
    trial.demand(len(missing) <= dropped, f"moving: {len(missing)} packets are missing, and {dropped} were told as dropped")
    trial.say(f"moving: {len(traffic.sent) - first} packets, {len(missing)} missing, {dropped} held ones told as dropped")


def move_often(trial: Trial, mover: Mover) -> None:
    """All moves, then all steps that fail."""
    traffic = mover.traffic
    if not trial.demand(traffic.wait_for(0, RATE // 2), "moving: the first gateway delivers nothing"):
        return
    first = len(traffic.sent)
    for _ in range(MOVES):
        mover.move()
    mover.steady()
    compare_now(trial, traffic, 0, first)
    mover.fail_steps()
    mover.steady()
    compare_now(trial, traffic, mover.dropped, first)
    for host in traffic.hosts:
        told = host.gateway.ask("GET", "/status").json
        trial.demand(told["held"] is None, f"moving: the status {told}")


def compare_now(trial: Trial, traffic: Traffic, dropped: int, first: int) -> None:
    """Compares what came, once all that was sent so far has come."""
    count = len(traffic.sent)
    time.sleep(0.5)
    part = Traffic(traffic.hosts, traffic.sent[:count], [one for one in list(traffic.delivered) if (number_of(one[2]) or 0) < count])
    compare(trial, part, dropped, first)


def hold_too_many(trial: Trial, gateway: Gateway) -> None:
    """A gateway holds as many datagrams as it may, counts the others, and drops all if they aren't wanted."""
    trial.demand(gateway.ask("POST", "/hold?link=1").status == 200, "hold: it is refused")
    for count in range(MOST_HELD + MORE):
        gateway.sender.sendto(IR, (LOOPBACK, gateway.port))
        if count % 64 == 63:
            wait_held(gateway, count)
    told = wait_held(gateway, MOST_HELD + MORE)
    wanted = {"link": 1, "datagrams": MOST_HELD, "octets": MOST_HELD * len(IR), "dropped": MORE}
    trial.demand(told == wanted, f"hold: the status {told}; wanted {wanted}")
    for path, status, text in (
        ("/hold?link=2", 409, "Held"),
        ("/hold?link=9", 404, "NoLink"),
        ("/hold?link=1&on", 400, "BadRequest"),
        ("/hold?link=2&off", 409, "NotHeld"),
        ("/export?link=1", 409, "Held"),
        ("/export?link=9", 404, "NoLink"),
        ("/export?link=2&off", 409, "NotExported"),
        ("/import?link=1", 400, "BadRequest"),
    ):
        answer = gateway.ask("POST", path)
        trial.demand((answer.status, answer.json["fault"]) == (status, text), f"{path}: {answer}")
    answer = imported(gateway, 2, b"")
    trial.demand((answer.status, answer.json["fault"]) == (409, "NotHeld"), f"import of another link: {answer}")
    answer = imported(gateway, 1, b"no link")
    trial.demand((answer.status, answer.json["fault"]) == (409, "Import"), f"import of no link: {answer}")
    answer = gateway.ask("POST", "/hold?link=1&off")
    trial.demand(answer.json == {"link": 1, "held": False, "dropped": MOST_HELD + MORE}, f"hold off: {answer}")


def wait_held(gateway: Gateway, count: int) -> object:
    """Waits until a gateway has held or dropped so many datagrams. What its status says of them."""
    end = time.monotonic() + PATIENCE
    while True:
        told = gateway.ask("GET", "/status").json["held"]
        assert isinstance(told, dict)
        if told["datagrams"] + told["dropped"] >= count or time.monotonic() > end:
            return told
        time.sleep(0.002)


def imported(gateway: Gateway, link: int, octets: bytes) -> Answered:
    """The answer to an import of these octets."""
    head = f"POST /import?link={link} HTTP/1.1\r\nHost: gateway\r\nContent-Length: {len(octets)}\r\n\r\n"
    return gateway.sent(head.encode() + octets)


def go_back(trial: Trial, receivers: Receivers, gateway: Gateway) -> None:
    """An exported link gets nothing until it is given back. Its contexts continue where they are imported."""
    gateway.sender.sendto(IR, (LOOPBACK, gateway.port))
    saved = [gateway.ask("POST", "/export?link=1") for _ in range(2)]
    trial.demand([one.status for one in saved] == [200, 200] and saved[0].body.startswith(b"Polorowan"), f"export: {saved}")
    gateway.sender.sendto(IR, (LOOPBACK, gateway.port))
    gateway.ask("POST", "/export?link=2")
    status = gateway.ask("GET", "/status").json
    trial.demand((status["exported"], status["exported_dropped"]) == ([1, 2], 1), f"exported: {status}")
    for link in (1, 2):
        off = gateway.ask("POST", f"/export?link={link}&off")
        trial.demand(off.json == {"link": link, "exported": False}, f"export off: {off}")
    refused = gateway.ask("POST", "/hold?link=1")
    trial.demand((refused.status, refused.json["fault"]) == (409, "HasContexts"), f"hold of a link with contexts: {refused}")
    receivers.forget()
    ready = gateway.ask("POST", "/reset?link=1").status == 200 and gateway.ask("POST", "/hold?link=1").status == 200
    packets = [IR[2:4] + bytes([crc]) + payload for crc, payload in ((0xB7, b"\x45\xaa"), (0xB7, b"\x45\xbb"), (0xB7, b"\x45\xcc"))]
    for one in packets:
        gateway.sender.sendto(numbered(1, one), (LOOPBACK, gateway.port))
    trial.demand(ready and isinstance(wait_held(gateway, len(packets)), dict), "hold: it is refused")
    answer = imported(gateway, 1, saved[0].body)
    trial.demand(answer.json == {"link": 1, "contexts": 1, "answered": len(packets), "dropped": 0}, f"import: {answer}")
    receivers.wait({"deliver": len(packets)})
    trial.demand(receivers.found["deliver"] == [one[3:] for one in packets], f"import: it delivers {receivers.found}")


def check_one(trial: Trial) -> None:
    """The requests, at one gateway."""
    with Receivers() as receivers, Gateway(trial, trial.scratch / "one", receivers.links([1, 2])) as gateway:
        hold_too_many(trial, gateway)
        go_back(trial, receivers, gateway)


def run_traffic(trial: Trial, compressor: Path) -> None:
    """Both gateways under traffic, in networks of their own."""
    with contextlib.ExitStack() as stack:
        front, *places = stack.enter_context(networks.made(3))
        join(front, places)
        with front.inside():
            subprocess.run(["nft", "-f", "-"], input=FIRST, text=True, check=True)
        for place, network in enumerate(places):
            network.run(f"nft -f {trial.top}/deploy/loopback.nft")
            network.run(f"nft -D line=eth -D port={PORT} -D peer=10.78.{2 - place}.2 -D metrics_port={METRICS} -f {trial.top}/deploy/reached.nft")
        hosts = [made_host(trial, network, place) for place, network in enumerate(places, 1)]
        for host in hosts:
            stack.callback(host.end)
            host.start()
        move_often(trial, Mover(trial, front, stack.enter_context(traffic_to(hosts, compressor))))


def check(trial: Trial) -> None:
    """The requests at one gateway, and then moves in a process of their own."""
    check_one(trial)
    run_apart(trial, "moving", "no link was moved", run_traffic)
