"""Long answers of a gateway: each is made in many wakes, and is whole whatever happens meanwhile."""

import socket
import struct
from collections.abc import Iterator

from gateway_run import LOOPBACK, Answered, Gateway, Receivers, numbered, read_answer, samples
from random_script import check8
from trial import Trial

# Links with large CIDs, and how many calls each has: more than one piece looks at.
LINKS, CALLS = (2, 4), 1_500
# How many CIDs one piece looks at, and how many calls one piece lists.
LOOKED, LISTED = 1_024, 256
# How many datagrams are sent before the gateway is waited for.
BATCH = 200


def first_ir(cid: int) -> bytes:
    """An IR of profile 0x0000 for a large CID, with a payload of one octet."""
    front = b"\xfc" + (bytes([cid]) if cid < 128 else struct.pack(">H", 0x8000 | cid)) + b"\0"
    return front + bytes([check8(front)]) + b"p"


def filled(trial: Trial, receivers: Receivers) -> Gateway:
    """A gateway with all these calls."""
    text = receivers.links(LINKS).replace("max_cid = 255", f"max_cid = {CALLS}")
    gateway = Gateway(trial, trial.scratch / "long", text)
    gateway.start()
    for link in LINKS:
        for cid in range(CALLS):
            gateway.sender.sendto(numbered(link, first_ir(cid)), (LOOPBACK, gateway.port))
            gateway.count += 1
            if gateway.count % BATCH == 0:
                gateway.wait_taken()
    gateway.wait_taken()
    return gateway


def wakes(gateway: Gateway) -> int:
    """How often the gateway woke."""
    return next(count for name, _, count in samples(gateway.metrics()) if name == "polorowan_wakes_total")


def asked(gateway: Gateway, path: str) -> socket.socket:
    """A connection to the control socket that asks for something, of which nothing is read."""
    one = socket.socket(socket.AF_UNIX)
    one.connect(str(gateway.folder / "control"))
    one.sendall(f"GET {path} HTTP/1.1\r\nHost: gateway\r\n\r\n".encode())
    return one


def check_pieces(trial: Trial, gateway: Gateway) -> None:
    """Each long answer takes as many wakes as it has pieces, and lists each call once, in its order."""
    looks = len(LINKS) * -(-(CALLS + 1) // LOOKED)
    for path, pieces in (
        ("/metrics", looks),
        ("/", looks),
        ("/top", looks),
        ("/status", looks),
        ("/contexts?link=2", 2 + CALLS // LISTED),
        ("/calls", looks + len(LINKS) * CALLS // LISTED),
        ("/calls?as=text", looks + len(LINKS) * CALLS // LISTED),
    ):
        before = wakes(gateway)
        answer = gateway.ask("GET", path)
        took = wakes(gateway) - before
        trial.demand(answer.status == 200 and took >= pieces, f"long: GET {path}: status {answer.status}, {took} wakes; wanted {pieces}")
        is_whole = f"Content-Length: {len(answer.body)}\r\n" in answer.head
        trial.demand(is_whole, f"long: GET {path}: {len(answer.body)} octets behind {answer.head!r}")
    rows = gateway.ask("GET", "/contexts?link=2").rows
    trial.demand([row["cid"] for row in rows] == list(range(CALLS)), "long: the contexts of a link aren't those of its CIDs, in order")
    rows = gateway.ask("GET", "/calls").rows
    found = [(row["link"], row["cid"]) for row in rows]
    trial.demand(sorted(found) == sorted((link, cid) for link in LINKS for cid in range(CALLS)), f"long: {len(found)} calls are listed")
    times = [row["accepted"] for row in rows]
    trial.demand(times == sorted(times, key=int), "long: the calls that are silent longest aren't first")


def answers(connections: list[socket.socket]) -> Iterator[Answered]:
    """What comes at connections, and closes them."""
    for one in connections:
        yield read_answer(one)
        one.close()


def check_changes(trial: Trial, gateway: Gateway) -> None:
    """Lists are asked for at once; a link is reset, another goes, and one reader is gone before its list is made."""
    connections = [asked(gateway, "/calls") for _ in range(3)]
    gateway.ask("POST", "/reset?link=2")
    asked(gateway, "/calls").close()
    late = [asked(gateway, "/calls?link=4"), asked(gateway, "/status")]
    links = (gateway.folder / "links.toml").read_text()
    gateway.write_links(links[: links.rindex("[[link]]")])
    reload = gateway.ask("POST", "/reload")
    trial.demand(reload.json.get("contexts_gone") == CALLS, f"long: the reload answers {reload}")
    for answer in answers([*connections, *late]):
        whole = f"Content-Length: {len(answer.body)}\r\n" in answer.head
        trial.demand(answer.status in (200, 404) and whole, f"long: while links change: {answer.status}, {len(answer.body)} octets, {answer.head!r}")
    status = gateway.ask("GET", "/status").json
    trial.demand((status["links"], status["contexts"], status["expired"]) == (1, 0, 0), f"long: at the end: {status}")


def check(trial: Trial) -> None:
    """The long answers of a gateway with many calls."""
    with Receivers() as receivers:
        gateway = filled(trial, receivers)
        try:
            check_pieces(trial, gateway)
            check_changes(trial, gateway)
            trial.demand(gateway.stop() == 0, "long: it doesn't stop")
        finally:
            gateway.kill()
            gateway.sender.close()
    trial.say(f"long: the lists of {len(LINKS) * CALLS} calls in pieces, whole while links change")
