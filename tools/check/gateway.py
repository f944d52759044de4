"""The gateway as a service: whole calls, restarts, reloads, its metrics, and requests that mean no good.

What it sends must be what one replay of the same arrivals answers, octet for octet and in order. It is killed at random and
goes on from its last save. Its links change under load. Requests that are no requests change nothing and hold up no call.
"""

import json
import random
import re
import resource
import shutil
import socket
import struct
import sys
import time
from collections import Counter
from collections.abc import Iterable, Iterator
from concurrent.futures import ThreadPoolExecutor
from dataclasses import dataclass, field
from datetime import UTC, datetime
from pathlib import Path

import browser
import completion
import gateway_calls
import gateway_clock
import gateway_container
import gateway_edges
import gateway_limits
import gateway_long
import gateway_owner
import gateway_recipe
import gateway_saves
import gateway_streams
import gateway_wrong
from cluster import Arrival, made_arrivals
from gateway_limits import first_ir
from gateway_run import BATCH, LOOPBACK, PROGRAM, WAIT_SECONDS, Gateway, Receivers, bound, dated, free_port, numbered, replayed, samples, sends_of, told_room
from program import Ended
from rohctl_survey import WHOLE_IR
from trial import Trial

ROHCTL = "crates/rohctl/out/rohctl"
PARTS = ("words", "wrong", "heads", "whole", "numbered", "ported", "padded", "killed", "stopped", "reloaded", "asked", "calls", "streamed", "logged", "named", "limited", "hostile", "flood", "poor", "files", "contained", "recipe", "clock", "saved", "owned", "edges", "long")
LINKS = range(1, 21)
# The octets of the shortest Ethernet frame, without its check, and those of its head.
SHORTEST_FRAME, ETHERNET_HEAD = 60, 14
KILLS = 20
STOPS = 20
SLOW = 40
# A link that no links file has.
NO_LINK = 999
# How many CIDs of a link that only got NoContext are kept.
UNKNOWN = 64
FLOOD = 200_000

# What is no good request, and the status of its answer; 0 if the connection ends without one.
REQUESTS = (
    (b"", 0),
    (b"\0" * 100, 400),
    (b"\xff\xfe\r\n\r\n", 400),
    (b"GET /ready HTTP/1.1", 0),
    (b"GET /page HTTP/1.1\r\n\r\n", 404),
    (b"POST / HTTP/1.1\r\n\r\n", 405),
    (b"GET /?link=1 HTTP/1.1\r\n\r\n", 400),
    (b"GET /../ready HTTP/1.1\r\n\r\n", 404),
    (b"DELETE /ready HTTP/1.1\r\n\r\n", 405),
    (b"GET /stop HTTP/1.1\r\n\r\n", 405),
    (b"POST /ready HTTP/1.1\r\n\r\n", 405),
    (b"POST /reset HTTP/1.1\r\n\r\n", 400),
    (b"POST /reset?link=x HTTP/1.1\r\n\r\n", 400),
    (b"POST /reset?link=70000 HTTP/1.1\r\n\r\n", 400),
    (b"POST /reset?link=1&link=2 HTTP/1.1\r\n\r\n", 400),
    (b"POST /reset?link=999 HTTP/1.1\r\n\r\n", 404),
    (b"POST /watch?link=1&cid=0 HTTP/1.1\r\n\r\n", 405),
    (b"POST /record?seconds=1 HTTP/1.1\r\n\r\n", 405),
    (b"GET /contexts?link=999 HTTP/1.1\r\n\r\n", 404),
    (b"POST /hold HTTP/1.1\r\n\r\n", 400),
    (b"POST /hold?link=999 HTTP/1.1\r\n\r\n", 404),
    (b"GET /export?link=1 HTTP/1.1\r\n\r\n", 405),
    (b"POST /export?link=1&of HTTP/1.1\r\n\r\n", 400),
    (b"POST /import?link=1 HTTP/1.1\r\n\r\n", 400),
    (b"POST /import?link=1 HTTP/1.1\r\nContent-Length: 2097153\r\n\r\n", 413),
    (b"POST /save HTTP/1.1\r\nContent-Length: 1\r\n\r\n1", 400),
    (b"GET /ready HTTP/1.1\r\nA: " + b"a" * 9_000 + b"\r\n\r\n", 413),
)
# What the answer of each status says.
TEXTS = {
    400: "not a request that a gateway knows; expected HTTP/1.1 with the query of its path, and a body only for import",
    404: "nothing is at this path; man rohctl names each request",
    405: "the path has another method; expected GET or HEAD to show something, POST to change something",
    413: "the request is too long; expected a head of at most 8192 octets, and a body of at most 2 MiB",
}


def check_words(trial: Trial) -> None:
    """Words, statuses, and what is wrong with a gateway file."""
    program = trial.top / PROGRAM
    completion.check_made(trial, program)
    version = (trial.top / "VERSION").read_text().strip()
    for words, status, text in (
        (("--version",), 0, version),
        (("--help",), 0, "run"),
        (("run", "--help"), 0, "--timed-port"),
        (("check", "--help"), 0, "FILE"),
        ((), 2, ""),
        (("run",), 2, ""),
        (("stop",), 2, ""),
    ):
        ended = trial.ran(program, *words)
        trial.demand(ended.status == status and text in ended.all, f"{words}: {ended.end()}", ended.call)
    with Receivers() as receivers:
        trial.write("words/links.toml", receivers.links([1]))
        file = trial.write("words/gateway.toml", 'links = "links.toml"\nport = 4000\nstate = "calls"\n')
        ended = trial.ran(program, "check", file)
        trial.demand((ended.status, ended.text) == (0, "good\n"), f"check of a good file: {ended.end()}", ended.call)
        trial.write("words/calls", b"no calls")
        ended = trial.ran(program, "run", file, seconds=20)
        trial.demand(ended.status == 3 and "words/calls: " in ended.said, f"a bad state: {ended.end()}", ended.call)
        trial.demand((trial.scratch / "words/calls").read_bytes() == b"no calls", "a refused state was overwritten")


def check_wrong(trial: Trial) -> None:
    """Wrong calls, wrong files and taken ports."""
    gateway_wrong.check(trial)


def check_limited(trial: Trial) -> None:
    """Limits of new contexts and of feedback."""
    gateway_limits.check(trial)


def check_calls(trial: Trial) -> None:
    """What is shown of calls."""
    gateway_calls.check(trial)


def check_streamed(trial: Trial) -> None:
    """What is streamed, and what a reload would do."""
    gateway_streams.check(trial)


def check_recipe(trial: Trial) -> None:
    """The recipe of docs/GATEWAY.md."""
    gateway_recipe.check(trial)


def check_clock(trial: Trial) -> None:
    """The system's clock is set."""
    gateway_clock.check(trial)


def check_saved(trial: Trial) -> None:
    """The saves of a gateway, and a slow disk."""
    gateway_saves.check(trial)


def check_edges(trial: Trial) -> None:
    """Its service manager, a log that nobody reads, what the system drops, and locks that are none."""
    gateway_edges.check(trial)


def check_long(trial: Trial) -> None:
    """Answers that are made in many pieces."""
    gateway_long.check(trial)


def check_owned(trial: Trial) -> None:
    """The control socket lets in its owner alone."""
    gateway_owner.check_owner(trial)


def check_contained(trial: Trial) -> None:
    """deploy/entrypoint, which makes a stop of a signal."""
    gateway_container.check(trial)


# What is shown at both sockets, and only at the control socket.
SHOWN, KEPT = ("/ready", "/metrics"), ("/status", "/keep", "/contexts?link=1", "/calls", "/calls?link=1", "/calls?as=text", "/state", "/top", "/contexts?link=999", "/nothing", "/stop")


def check_heads(trial: Trial) -> None:
    """`HEAD` is answered as `GET` is, without the body, and the metrics port shows only the metrics and `/ready`."""
    with Receivers() as receivers, Gateway(trial, trial.scratch / "heads", receivers.links([1])) as gateway:
        gateway.send(Arrival(1, 5, bytes.fromhex("fc00b745aa")))
        gateway.wait_taken()
        for draining in (False, True):
            told = gateway.at_metrics("GET", "/ready")
            trial.demand((told.status, told.body) == (200, b'{"ready":true}\n'), f"/ready at the metrics port: {told}")
            trial.demand(told == gateway.ask("GET", "/ready"), f"draining {draining}: /ready differs at the two sockets")
            gateway.ask("POST", "/drain")
        for path in SHOWN + KEPT:
            asks = (gateway.ask, gateway.at_metrics) if path in SHOWN else (gateway.ask,)
            for ask in asks:
                whole, head = ask("GET", path), ask("HEAD", path)
                # The metrics count the wakes, so a length may change from one answer to the next.
                heads = [re.sub(r"\d+", "#", one.head) if path == "/metrics" else one.head for one in (whole, head)]
                fits = heads[0] == heads[1] and head.status == whole.status and not head.body
                trial.demand(fits and f"Content-Length: {len(whole.body)}\r\n" in whole.head, f"HEAD {path}: {head}; GET: {whole}")
        told = gateway.sent(b"\r\n\nHEAD /ready HTTP/1.1\r\n\r\n")
        trial.demand((told.status, told.body) == (200, b""), f"HEAD behind empty lines: {told}")
        told = gateway.sent(b"HEAD /ready HTTP/1.1\r\nA: " + b"a" * 9_000 + b"\r\n\r\n")
        trial.demand((told.status, told.body) == (413, b""), f"a long HEAD: {told}")
        for method in ("GET", "POST"):
            for path in (*KEPT, "/save", "/reload", "/drain", "/reset?link=1", "/watch?link=1&cid=0"):
                told = gateway.at_metrics(method, path)
                trial.demand(told.status in (404, 405), f"{method} {path} at the metrics port: {told}")
        told = gateway.ask("GET", "/status")
        never = (told.json["contexts"], told.json["saved"], told.json["saved_text"])
        trial.demand(never == (1, 0, None), f"asked at the metrics port: {told}")


def counted(lines: list[list[str]], arrivals: list[Arrival]) -> Counter[tuple[str, str]]:
    """How many answers of each outcome a link has, by one replay."""
    found: Counter[tuple[str, str]] = Counter()
    for arrival, answers in zip(arrivals, lines, strict=True):
        if arrival.octets is None:
            continue
        words = [line.split(" ") for line in answers]
        outcomes = [word[3] if word[2] == "refused" else word[2] for word in words if word[2] in ("ip", "stored", "refused")]
        outcome = {"ip": "delivered"}.get(outcomes[0], outcomes[0]) if outcomes else "front"
        found[str(arrival.link), outcome] += 1
    return found


def check_counts(trial: Trial, gateway: Gateway, wanted: Counter[tuple[str, str]]) -> None:
    """The metrics are the counts of the answers."""
    text = gateway.metrics()
    found: Counter[tuple[str, str]] = Counter()
    for name, labels, count in samples(text):
        if name == "polorowan_packets_total" and labels["outcome"] != "refused":
            found[labels["link"], labels["outcome"]] += count
        if name == "polorowan_refused_total":
            found[labels["link"], labels["refusal"]] += count
    trial.demand(+found == +wanted, f"metrics: {(found - wanted) + (wanted - found)} differ")
    file = trial.write("metrics", text)
    if shutil.which("promtool"):
        ended = trial.ran("promtool", "check", "metrics", given=file)
        trial.demand(ended.status == 0, f"promtool: {ended.all}", ended.call)
    else:
        trial.leave_out("promtool is not installed, the text of the metrics was not checked by it")


def check_octets(trial: Trial, gateway: Gateway, lines: list[list[str]], arrivals: list[Arrival]) -> None:
    """The octets of each link are those of the arrivals, and of the packets that one replay delivers."""
    wanted: Counter[tuple[str, str]] = Counter()
    for arrival, answers in zip(arrivals, lines, strict=True):
        if arrival.octets is None:
            continue
        link = str(arrival.link)
        wanted["received", link] += len(arrival.octets)
        for packet in (line.split(" ")[3] for line in answers if line.split(" ")[2] == "ip"):
            wanted["compressed", link] += len(arrival.octets)
            wanted["delivered", link] += len(packet) // 2
    found = Counter(
        {
            (name.split("_")[1], labels["link"]): count
            for name, labels, count in samples(gateway.metrics())
            if name.endswith("_bytes_total")
        }
    )
    trial.demand(+found == +wanted, f"octets: {(found - wanted) + (wanted - found)} differ")


@dataclass
class Counted:
    """What is counted of a call, as RFC 3550 A.1 reads its sequence numbers."""

    since: int
    delivered: int = 0
    repaired: int = 0
    lost: int = 0
    late: int = 0
    newest: int | None = None
    refused: Counter[str] = field(default_factory=Counter)

    def see(self, packet: bytes, is_repaired: bool) -> None:
        """A delivered packet. One of profile 0x0001 has an SN behind the headers of IPv4 and UDP."""
        self.delivered += 1
        self.repaired += is_repaired
        if len(packet) < 40:
            return
        sn = int.from_bytes(packet[30:32], "big")
        ahead = 0x8000 if self.newest is None else (sn - self.newest) % 0x10000
        if 1 <= ahead < 3000:
            self.lost += ahead - 1
        if ahead > 0x10000 - 100:
            self.late += 1
            self.lost -= self.lost > 0
        elif ahead:
            self.newest = sn

    def row(self) -> dict[str, object]:
        """As GET /calls shows it."""
        counts = {name: getattr(self, name) for name in ("since", "delivered", "repaired", "lost", "late")}
        return {**counts, "refused": dict(self.refused)}


def repaired_in(trial: Trial, links: Path, arrivals: list[Arrival]) -> set[int]:
    """The numbers of the arrivals that are delivered by the second or the third try, by the model."""
    script = "".join(f"{arrival.line()}\n" for arrival in arrivals)
    ended = trial.ran(sys.executable, "-B", trial.top / "tools/model", "repaired", "--links", links, given=trial.write("repaired.script", script))
    trial.demand(ended.is_good, f"model: {ended.all}", ended.call)
    return {int(number) for number in ended.text.split()}


def by_call(lines: list[list[str]], arrivals: list[Arrival], repaired: set[int]) -> dict[tuple[int, int], Counted]:
    """The counts of each call whose context stands at the end, by one replay: a reset removes those of its link."""
    found: dict[tuple[int, int], Counted] = {}
    for number, (arrival, answers) in enumerate(zip(arrivals, lines, strict=True), 1):
        if arrival.octets is None:
            found = {key: counts for key, counts in found.items() if key[0] != arrival.link}
            continue
        for words in (line.split(" ") for line in answers):
            key = (arrival.link, int(words[1]) if words[1].isdigit() else -1)
            if words[2] in ("ip", "stored"):
                found.setdefault(key, Counted(arrival.moment))
            if words[2] == "ip":
                found[key].see(bytes.fromhex(words[3]), number in repaired)
            if words[2] == "refused" and key in found:
                found[key].refused[words[3]] += 1
    return found


def check_by_call(trial: Trial, gateway: Gateway, wanted: dict[tuple[int, int], Counted]) -> None:
    """GET /calls shows the counts of each call."""
    rows = [row for link in LINKS for row in gateway.ask("GET", f"/calls?link={link}").rows if row["state"]]
    found = {(row["link"], row["cid"]): {key: row.get(key) for key in wanted[1, 0].row()} for row in rows}
    differ = {key: (found.get(key), counts.row()) for key, counts in wanted.items() if found.get(key) != counts.row()}
    trial.demand(not differ and len(found) == len(wanted), f"calls: counts differ: {list(differ.items())[:3]}")
    repaired, lost, late = (sum(getattr(counts, name) for counts in wanted.values()) for name in ("repaired", "lost", "late"))
    told = f"{repaired} packets are repaired, {lost} lost and {late} late"
    trial.demand(repaired > 0, f"calls: {told}")
    trial.say(f"calls: the counts of {len(wanted)} calls, of which {told}, as by one replay and the model")


def unknown_cids(lines: list[list[str]], arrivals: list[Arrival]) -> dict[int, list[tuple[int, int]]]:
    """The CIDs of each link that only got NoContext, the newest last, with their packets, by one replay."""
    found: dict[int, dict[int, int]] = {link: {} for link in LINKS}
    for arrival, answers in zip(arrivals, lines, strict=True):
        for words in (line.split(" ") for line in answers if arrival.octets is not None and arrival.link in found):
            own = found[arrival.link]
            if words[2] in ("ip", "stored"):
                own.pop(int(words[1]), None)
            if words[2:] == ["refused", "NoContext"]:
                own[int(words[1])] = own.pop(int(words[1]), 0) + 1
                if len(own) > UNKNOWN:
                    del own[next(iter(own))]
    return {link: list(own.items()) for link, own in found.items()}


def check_unknown(trial: Trial, gateway: Gateway, wanted: dict[int, list[tuple[int, int]]]) -> None:
    """GET /calls shows the CIDs that only got NoContext, behind the calls."""
    for link in LINKS:
        rows = gateway.ask("GET", f"/calls?link={link}").rows
        found = [(row["cid"], row["refused"]["NoContext"]) for row in rows if not row["state"]]
        trial.demand(found == wanted[link], f"calls: link {link}: without a context {found}; wanted {wanted[link]}")
        trial.demand(not any(row["state"] for row in rows[len(rows) - len(found) :]), "calls: CIDs without a context between calls")
    trial.say(f"calls: {sum(map(len, wanted.values()))} CIDs that only got NoContext, as by one replay")


def check_page(trial: Trial, gateway: Gateway, wanted: Counter[tuple[str, str]]) -> None:
    """The page has a row for each link and for each refusal, with the counts, and nothing from elsewhere."""
    told = gateway.ask("GET", "/")
    page = told.body.decode()
    table = page.partition('<section id="links"')[2].partition("</section>")[0]
    rows = {row[0]: row[1:] for row in re.findall(r'<tr><th scope="row">(\d+)</th>((?:<td>[^<]*</td>)+)</tr>', table)}
    for link in map(str, LINKS):
        cells = re.findall(r"<td>([^<]*)</td>", rows.get(link, ("",))[0])
        refused = sum(count for (of, name), count in wanted.items() if of == link and name not in ("delivered", "stored", "front"))
        counts = [int(cell.replace(",", "")) for cell in cells[4:6]]
        trial.demand(counts == [wanted[link, "delivered"], refused], f"page: link {link}: {cells}")
    shown = {
        (link, name): int(count.replace(",", ""))
        for link, name, count in re.findall(
            r'<th scope="row">(\d+)</th><td class="text">(\w+)</td><td class="text">[^<]+</td><td>([\d,]+)</td>', page
        )
    }
    refusals = {key: count for key, count in wanted.items() if key[1] not in ("delivered", "stored", "front")}
    trial.demand(shown == refusals, f"page: the refusals {shown}; wanted {refusals}")
    bad = re.findall(r"<script|(?:src|href)=\"(?!#)|url\(|@import", page)
    trial.demand(told.status == 200 and not bad, f"page: {told.status}, parts from elsewhere: {bad}")
    if shutil.which("tidy"):
        ended = trial.ran("tidy", "-q", "-e", given=trial.write("page.html", page))
        trial.demand(ended.status == 0, f"page: tidy: {ended.all}", ended.call)
    else:
        trial.leave_out("tidy is not installed, the page of the gateway was not checked by it")
    browser.check(trial, page, "the page of the gateway")


def check_unknown_link(trial: Trial, gateway: Gateway) -> None:
    """The status and the page show a link that datagrams name and that isn't there."""
    for _ in range(3):
        gateway.sender.sendto(numbered(NO_LINK, b"\xfd"), (LOOPBACK, gateway.port))
        gateway.count += 1
    gateway.wait_taken()
    found = gateway.ask("GET", "/status").json["unknown_links"]
    trial.demand(found == [{"link": NO_LINK, "datagrams": 3}], f"status: unknown links: {found}")
    page = gateway.ask("GET", "/").body.decode()
    trial.demand(f'<tr><th scope="row">{NO_LINK}</th><td>3</td></tr>' in page, f"page: link {NO_LINK} isn't shown")


def check_times(trial: Trial, gateway: Gateway) -> None:
    """The status has the times of the start and of the last save, which the run before made, as numbers and as texts."""
    told = gateway.ask("GET", "/status").json
    for name in ("started", "saved"):
        seconds = int(str(told[name])) // 1000
        text = datetime.fromtimestamp(seconds, UTC).strftime("%Y-%m-%dT%H:%M:%SZ")
        is_now = abs(time.time() - seconds) < WAIT_SECONDS
        trial.demand(is_now and told[f"{name}_text"] == text, f"status: {name} {told[name]}, {told[f'{name}_text']}")


def check_whole(trial: Trial) -> None:
    """Whole calls at the timed port, their counts, and a stop after which all contexts are there again."""
    arrivals = made_arrivals(20_000, 11)
    with Receivers() as receivers, Gateway(trial, trial.scratch / "calls", receivers.links(LINKS)) as gateway:
        wanted = replayed(trial, gateway.folder / "links.toml", arrivals)
        trial.demand(gateway.takes(receivers, arrivals, wanted), "calls: what is sent isn't what a replay answers")
        gateway.wait_taken()
        check_counts(trial, gateway, counted(wanted, arrivals))
        check_octets(trial, gateway, wanted, arrivals)
        check_unknown_link(trial, gateway)
        check_page(trial, gateway, counted(wanted, arrivals))
        repaired = repaired_in(trial, gateway.folder / "links.toml", arrivals)
        check_by_call(trial, gateway, by_call(wanted, arrivals, repaired))
        check_unknown(trial, gateway, unknown_cids(wanted, arrivals))
        contexts = [gateway.ask("GET", f"/contexts?link={link}").body for link in LINKS]
        trial.demand(any(contexts), "calls: no context is shown")
        trial.demand(gateway.stop() == 0, f"calls: the stop: {gateway.said}")
        gateway.start()
        check_times(trial, gateway)
        again = [gateway.ask("GET", f"/contexts?link={link}").body for link in LINKS]
        trial.demand(again == contexts, "calls: other contexts after a restart")
        trial.say(f"calls: {len(arrivals)} arrivals as one replay answers, {sum(map(len, contexts))} octets of contexts")


def check_numbered(trial: Trial) -> None:
    """With numbered_feedback all feedback has its link's number first, and packets have none."""
    arrivals = [one for one in made_arrivals(4_000, 8) if one.octets is not None and one.link in LINKS]
    folder = trial.scratch / "numbered"
    with Receivers() as receivers, Gateway(trial, folder, receivers.links(LINKS), is_numbered=True) as gateway:
        fits = gateway.takes(receivers, arrivals, replayed(trial, folder / "links.toml", arrivals))
        trial.demand(fits and all(receivers.found.values()), "numbered: the gateway doesn't send what one replay answers")


def told_at_ports(trial: Trial, arrivals: list[Arrival], ports: dict[int, int]) -> tuple[object, ...]:
    """What a gateway sends and counts for arrivals at the ports of their links; without any, at the port of all links."""
    folder = trial.scratch / f"ported-{len(ports)}"
    with Receivers() as receivers, Gateway(trial, folder, receivers.links(LINKS), link_ports=ports, is_numbered=True) as gateway:
        for at in range(0, len(arrivals), BATCH):
            for arrival in arrivals[at : at + BATCH]:
                octets = arrival.octets or b""
                datagram, port = (octets, ports[arrival.link]) if ports else (numbered(arrival.link, octets), gateway.port)
                gateway.sender.sendto(datagram, (LOOPBACK, port))
                gateway.count += 1
            gateway.wait_taken()
            receivers.take()
        counts = [one for one in samples(gateway.metrics()) if re.search("_packets_|_refused_|_bytes_|_relayed_|_datagrams_", one[0])]
        return Counter(receivers.found["deliver"]), Counter(receivers.found["relay"]), counts


def timeless_arrivals() -> list[Arrival]:
    """Packets of profile 0x0000, whose answers don't depend on the time: good ones, refused ones, one behind feedback."""
    good, damaged, next_one = (bytes.fromhex(octets) for octets in ("fc00b745aa", "fc00b845aa", "45ab"))
    first, unknown, behind_feedback = first_ir(1), b"\xe5" + next_one, bytes.fromhex("f2e100") + good
    packets = (b"", good, next_one, first, b"\xe1" + next_one, damaged, unknown, behind_feedback)
    return [Arrival(link, 0, octets) for _ in range(20) for link in LINKS for octets in packets]


def check_ported(trial: Trial) -> None:
    """A packet at its link's own port is answered and counted as behind its link's number at the port of all links."""
    arrivals = timeless_arrivals()
    one, all_alike = (told_at_ports(trial, arrivals, ports) for ports in ({link: free_port() for link in LINKS}, {}))
    trial.demand(one == all_alike and all(one), f"ported: {one[2]} at the links' own ports, {all_alike[2]} at one port")
    check_followed(trial)


def taken_at(gateway: Gateway, port: int, packet: bytes) -> dict[str, int]:
    """The packets that each link delivered, once one more was sent to a port."""
    gateway.sender.sendto(packet, (LOOPBACK, port))
    gateway.count += 1
    gateway.wait_taken()
    found = samples(gateway.metrics())
    return {labels["link"]: count for name, labels, count in found if name == "polorowan_packets_total" and labels["outcome"] == "delivered" and count}


def check_followed(trial: Trial) -> None:
    """A reload opens and closes the links' own ports. One that is in use is logged, and opened by the next reload."""
    first, second = free_port(), free_port()
    with Receivers() as receivers, Gateway(trial, trial.scratch / "followed", receivers.links((1, 3)), link_ports={1: first}) as gateway:
        trial.demand(taken_at(gateway, first, first_ir(1)) == {"1": 1}, "followed: the first port")
        text = gateway.file.read_text().replace(f"number = 1\nport = {first}\n", f"number = 3\nport = {first}\n")
        with bound() as other:
            used = other.getsockname()[1]
            gateway.file.write_text(f"{text}[[link]]\nnumber = 1\nport = {used}\n")
            trial.demand(gateway.ask("POST", "/reload").status == 200, "followed: the reload is refused")
            trial.demand(taken_at(gateway, first, first_ir(1)) == {"1": 1, "3": 1}, "followed: the port of another link")
            fault = f"link port: UDP 127.0.0.1:{used}: address already in use; expected a free port (ss -anp shows who uses it)"
            trial.demand(fault in gateway.said, f"followed: a port in use: {gateway.said}")
        trial.demand(gateway.ask("POST", "/reload").status == 200, "followed: the second reload is refused")
        trial.demand(taken_at(gateway, used, first_ir(2)) == {"1": 2, "3": 1}, "followed: a port that is free again")
        gateway.file.write_text(text.replace(f"port = {first}\n", f"port = {second}\n"))
        trial.demand(gateway.ask("POST", "/reload").status == 200, "followed: the third reload is refused")
        trial.demand(taken_at(gateway, second, first_ir(2)) == {"1": 2, "3": 2}, "followed: a new port")
        # The first port is free again.
        with socket.socket(socket.AF_INET, socket.SOCK_DGRAM) as again:
            again.bind((LOOPBACK, first))


def delivered(trial: Trial, packets: Iterable[bytes], payloads: dict[int, int]) -> list[bytes]:
    """The packets that a gateway delivers for these, which come on link 1 in turns at both of its ports."""
    folder = trial.scratch / f"padded-{len(payloads)}"
    with Receivers() as receivers, Gateway(trial, folder, receivers.links(LINKS), payloads=payloads) as gateway:
        for place, octets in enumerate(packets):
            datagram, port = (struct.pack("!HQ", 1, 1_000) + octets, gateway.timed_port) if place % 2 else (numbered(1, octets), gateway.port)
            gateway.sender.sendto(datagram, (LOOPBACK, port))
            gateway.count += 1
            gateway.wait_taken()
        receivers.take()
        return receivers.found["deliver"]


def check_padded(trial: Trial) -> None:
    """Packets of the worked examples come out of frames that Ethernet padded to 60 octets as they would without padding."""
    short = [bytes.fromhex(octets) for octets in (WHOLE_IR, "10ac", "d4c33ead", WHOLE_IR)]
    padded = [octets.ljust(SHORTEST_FRAME - ETHERNET_HEAD, b"\0") for octets in short]
    wanted = delivered(trial, short, {})
    trial.demand(len(wanted) == len(short), f"padded: {len(wanted)} of {len(short)} packets without padding are delivered")
    trial.demand(delivered(trial, padded, {1: 1}) == wanted, "padded: what Ethernet pads isn't cut behind one octet of payload")
    trial.demand(delivered(trial, padded, {2: 1}) != wanted, "padded: a link without a payload is cut")


def check_killed(trial: Trial) -> None:
    """Killed at random: what came after the last save is forgotten, and all else goes on."""
    dice = random.Random(5)
    arrivals = [arrival for arrival in made_arrivals(12_000, 12) if arrival.octets is not None]
    lost = [arrival for arrival in made_arrivals(6_000, 13) if arrival.octets is not None]
    part, more = len(arrivals) // (KILLS + 1), len(lost) // KILLS
    with Receivers() as receivers, Gateway(trial, trial.scratch / "killed", receivers.links(LINKS)) as gateway:
        wanted = replayed(trial, gateway.folder / "links.toml", arrivals)
        for turn in range(KILLS + 1):
            own = slice(turn * part, (turn + 1) * part)
            if not trial.demand(gateway.takes(receivers, arrivals[own], wanted[own]), f"killed {turn} times: other answers"):
                return
            if turn == KILLS:
                break
            gateway.wait_taken()
            trial.demand(gateway.ask("POST", "/save").status == 200, f"killed {turn} times: no save")
            for arrival in lost[turn * more : turn * more + dice.randrange(1, more)]:
                gateway.send(arrival)
            time.sleep(dice.random() * 0.02)
            gateway.kill()
            receivers.forget()
            gateway.start()
        trial.say(f"killed: {KILLS} times, and {len(arrivals)} arrivals as one replay of what was saved answers")


def check_stopped(trial: Trial) -> None:
    """Stopped while datagrams wait: all of them are answered and saved, and nothing is answered after the save."""
    arrivals = [arrival for arrival in made_arrivals(12_000, 21) if arrival.octets is not None]
    part = len(arrivals) // STOPS
    with Receivers() as receivers, Gateway(trial, trial.scratch / "stopped", receivers.links(LINKS)) as gateway:
        wanted = replayed(trial, gateway.folder / "links.toml", arrivals)
        for turn in range(STOPS):
            own = slice(turn * part, (turn + 1) * part)
            sends: dict[str, list[bytes]] = {kind: [] for kind in receivers.found}
            for arrival, lines in zip(arrivals[own], wanted[own], strict=True):
                gateway.send(arrival)
                for kind, octets in sends_of(lines):
                    sends[kind].append(octets)
            trial.demand(gateway.stop() == 0, f"stopped {turn} times: {gateway.said}")
            receivers.wait({kind: len(each) for kind, each in sends.items()}, 2.0)
            if not trial.demand(receivers.found == sends, f"stopped {turn} times: other answers"):
                return
            receivers.forget()
            gateway.start()
        trial.say(f"stopped: {STOPS} times with {part} datagrams on their way, and all as one replay answers")


def check_reloaded(trial: Trial) -> None:
    """Links come, go and change under load, and those that stay answer as if nothing happened."""
    steady = [arrival for arrival in made_arrivals(12_000, 14) if arrival.link <= 10]
    part = len(steady) // 10
    with Receivers() as receivers, Gateway(trial, trial.scratch / "reloaded", receivers.links(LINKS)) as gateway:
        wanted = replayed(trial, gateway.folder / "links.toml", steady)
        stays = receivers.links(range(1, 11))
        steps = (
            (stays, (0, 0, 10)),
            (stays + receivers.links([30, 31]).split("\n", 1)[1], (2, 0, 0)),
            (stays + receivers.links([30, 31]).split("\n", 1)[1].replace("packet_ms = 20", "packet_ms = 40"), (0, 2, 0)),
            (receivers.links(range(1, 11)), (0, 0, 2)),
        )
        for turn in range(10):
            own = slice(turn * part, (turn + 1) * part)
            trial.demand(gateway.takes(receivers, steady[own], wanted[own]), f"reloaded, part {turn}: other answers")
            if turn < len(steps):
                text, (added, changed, removed) = steps[turn]
                gateway.write_links(text)
                told = gateway.ask("POST", "/reload")
                fits = told.status == 200 and [told.json[key] for key in ("added", "changed", "removed")] == [added, changed, removed]
                trial.demand(fits, f"reload {turn}: {told}")
            else:
                before = gateway.links
                gateway.write_links(before.replace("max_cid = 15", "max_cid = 16", 1))
                told = gateway.ask("POST", "/reload")
                trial.demand(told.status == 409 and told.json["fault"] == "BadSetting", f"a bad links file: {told}")
                gateway.write_links(before)
        trial.say(f"reloaded: {len(steps)} times, and six times refused, {len(steady)} arrivals as one replay answers")


def asked(trial: Trial, gateway: Gateway, *words: str) -> Ended:
    """How `rohctl` ends with these words and the control socket."""
    return trial.ran(trial.top / ROHCTL, *words, "--control", gateway.control)


def check_asked(trial: Trial) -> None:
    """What rohctl asks is done. The IRs of profile 0x0000 are those of docs/EXAMPLES.md, for the CIDs 0 and 1."""
    first, second = bytes.fromhex("fc00b745aa"), bytes.fromhex("e1fc003045aa")
    with Receivers() as receivers, Gateway(trial, trial.scratch / "asked", receivers.links(LINKS)) as gateway:
        gateway.send(Arrival(1, 5, first))
        trial.demand(receivers.wait({"deliver": 1, "feedback": 1}), "asked: the first packet isn't delivered")
        row = {"link": 1, "cid": 0, "profile": "0x0000", "state": "full", "accepted": 5}
        told = asked(trial, gateway, "contexts", "--link", "1")
        trial.demand(told.is_good and json.loads(told.text) == row, f"rohctl contexts: {told.all}", told.call)
        for words, status, wanted in (
            (("reload",), 0, {"added": 0, "changed": 0, "removed": 0, "contexts_gone": 0}),
            (("drain",), 0, {"draining": True}),
            (("reset", "--link", "999"), 1, {"fault": "NoLink", "text": "link 999 is not in the links file"}),
            (("reset", "--link", "1", "--cid", "1"), 0, {"gone": 0}),
        ):
            told = asked(trial, gateway, *words)
            fits = told.status == status and json.loads(told.text) == wanted
            trial.demand(fits, f"rohctl {words}: {told.status} {told.all}, wanted {wanted}", told.call)
        # While it drains, a call that stands goes on, and no other begins.
        gateway.send(Arrival(1, 6, second))
        gateway.send(Arrival(1, 7, first))
        gateway.wait_taken()
        receivers.wait({"deliver": 2})
        found = receivers.found["deliver"]
        trial.demand(found == [b"\x45\xaa"] * 2, f"drained: {found}")
        status = json.loads(asked(trial, gateway, "status").text)
        trial.demand((status["links"], status["contexts"], status["draining"]) == (len(LINKS), 1, True), f"status: {status}")
        # Only a package says what it was built from.
        trial.demand((status["sources"], status["logic"]) == ("unknown", "unknown"), f"status: {status}")
        told = asked(trial, gateway, "save")
        trial.demand(told.is_good and json.loads(told.text)["saved"] == (gateway.folder / "calls.latest").stat().st_size, f"save: {told.all}")
        told = asked(trial, gateway, "reset", "--link", "1")
        trial.demand(json.loads(told.text) == {"gone": 1}, f"reset: {told.all}", told.call)
        told = asked(trial, gateway, "stop")
        trial.demand(told.is_good and json.loads(told.text)["stopped"] is True, f"stop: {told.all}", told.call)
        assert gateway.process
        trial.demand(gateway.process.wait(30) == 0, f"stop: {gateway.said}")


def log_objects(trial: Trial, begun: datetime) -> None:
    """With log_format = "json" each line is an object, whoever reads it."""
    with Receivers() as receivers:
        gateway = Gateway(trial, trial.scratch / "log-objects", receivers.links([1]))
        gateway.file.write_text(gateway.file.read_text() + 'log_format = "json"\n')
        with gateway:
            gateway.ask("POST", "/hold?link=1")
            gateway.write_links(gateway.links.replace("k1 =", '"k\\u001b" ='))
            gateway.ask("POST", "/reload")
            gateway.stop()
            rows = [json.loads(line) for line in gateway.said.splitlines()]
    found = [(row["level"], row["text"]) for row in rows]
    wanted = [
        ("info", "started: 1 links, 0 contexts restored"),
        told_room(),
        ("info", "link 1 is held: its datagrams wait for an import"),
        ("warning", f'{gateway.folder}/links.toml:2: link 1: unknown key "k\\u001b"; did you mean k1?'),
        ("warning", f"{gateway.folder}/links.toml:2: link 1: k1 is missing; expected a number from 1 to n1"),
        ("warning", f"reload refused: UnknownKey; {gateway_wrong.CONTINUES}"),
        ("info", "stopped"),
    ]
    trial.demand(found == wanted, f"objects: {rows}; wanted {wanted}")
    for row in rows:
        trial.demand(begun <= datetime.fromisoformat(row["time"]) <= datetime.now(UTC), f"objects: {row} is not of this time")


def check_logged(trial: Trial) -> None:
    """Where no journal reads the log, each line begins with the date and time in UTC; log_format makes it an object."""
    begun = datetime.now(UTC).replace(microsecond=0)
    log_objects(trial, begun)
    with Receivers() as receivers:
        gateway = Gateway(trial, trial.scratch / "logged", receivers.links([1]), is_journal=False)
        # Another stream is the journal's, as in a terminal that a service started.
        gateway.environment["JOURNAL_STREAM"] = "1:1"
        with gateway:
            gateway.ask("POST", "/drain")
            gateway.stop()
            lines = gateway.said.splitlines()
    texts = ["started: 1 links, 0 contexts restored", told_room()[1], "draining: no new call is accepted", "stopped"]
    trial.demand([dated(line) for line in lines] == [f"DATE rohc-gateway: {text}" for text in texts], f"logged: {lines}")
    for line in lines:
        moment = datetime.fromisoformat(line.split(" ")[0])
        trial.demand(begun <= moment <= datetime.now(UTC), f"logged: {line} is not of this time")


def check_named(trial: Trial) -> None:
    """Links have names in the log, the metrics and the status, and a reload reads them again, or refuses the gateway file."""
    name = 'B\u00fcro "2" \\ 3'
    tables = f"[[link]]\nnumber = 1\nname = {json.dumps(name)}\n[[link]]\nname = 'gone'\nnumber = 9\n[[link]]\nnumber = 3\n"
    with Receivers() as receivers:
        gateway = Gateway(trial, trial.scratch / "named", receivers.links([1, 3]))
        plain = gateway.file.read_text()
        gateway.file.write_text(plain + tables)
        line = plain.count("\n")
        stranger = f"{gateway.file}:{line + 6}: link table 2: link 9 is not in the links file"
        told = trial.ran(trial.top / PROGRAM, "check", gateway.file)
        trial.demand(told.is_good and told.text == f"warning: {stranger}\ngood\n", f"check: {told.end()} {told.text}", told.call)
        with gateway:
            trial.demand(f"<4>rohc-gateway: {stranger}\n" in gateway.said, f"named: {gateway.said}")
            gateway.ask("POST", "/hold?link=1")
            wanted = f"<6>rohc-gateway: link 1 ({name}) is held: its datagrams wait for an import\n"
            trial.demand(wanted in gateway.said, f"named: {gateway.said}; wanted {wanted}")
            gateway.ask("POST", "/hold?link=1&off")
            # Prometheus has a quote and a backslash behind a backslash.
            shown = name.replace("\\", "\\\\").replace('"', '\\"')
            infos = [row for row in gateway.metrics().splitlines() if row.startswith("polorowan_link_info")]
            trial.demand(infos == [f'polorowan_link_info{{link="1",name="{shown}"}} 1'], f"named: {infos}")
            trial.demand(gateway.ask("GET", "/status").json["names"] == {"1": name, "9": "gone"}, "named: other names in the status")
            check_names_again(trial, gateway, plain)


def check_names_again(trial: Trial, gateway: Gateway, plain: str) -> None:
    """A gateway file that a reload refuses changes nothing, not even the links, and a good one changes the names."""
    links, names = gateway.links, gateway.ask("GET", "/status").json["names"]
    gateway.write_links(links.replace("k1 = 2", "k1 = 3"))
    gateway.file.write_text(plain + "[[link]]\nnumber = 1\nnam = 'x'\n")
    told = gateway.ask("POST", "/reload")
    line = f'{gateway.file}:{plain.count(chr(10)) + 3}: link table 1: unknown key "nam"; did you mean name?'
    wanted = {"fault": "GatewayFile", "file": str(gateway.file), "text": [line], "more": 0, "note": gateway_wrong.CONTINUES}
    trial.demand((told.status, told.json) == (409, wanted), f"named: {told}")
    log = f"<4>rohc-gateway: {line}\n<4>rohc-gateway: reload refused: GatewayFile; {gateway_wrong.CONTINUES}\n"
    trial.demand(gateway.said.endswith(log), f"named: {gateway.said}")
    gateway.file.unlink()
    told = gateway.ask("POST", "/reload")
    missing = f"{gateway.file}: {gateway_wrong.MISSING}; {gateway_wrong.A_GATEWAY_FILE}"
    trial.demand((told.status, told.json["text"]) == (409, [missing]), f"named: {told}")
    trial.demand(gateway.ask("GET", "/status").json["names"] == names, "named: a refused gateway file changed the names")
    gateway.file.write_text(plain + "[[link]]\nnumber = 3\nname = 'three'\n")
    told = gateway.ask("POST", "/reload")
    trial.demand(told.status == 200 and told.json["changed"] == 2, f"named: {told}; wanted both links changed only now")
    trial.demand(gateway.ask("GET", "/status").json["names"] == {"3": "three"}, "named: a reload reads no names")
    gateway.file.write_text(plain + "".join(f"[[link]]\nname = {number}\n" for number in range(11)))
    told = gateway.ask("POST", "/reload")
    trial.demand(told.status == 409 and told.json["more"] == 2, f"named: {told}")
    trial.demand(f"<4>rohc-gateway: rohc-gateway check {gateway.file} shows more\n" in gateway.said, f"named: {gateway.said[-400:]}")


def slow_ones(gateway: Gateway) -> Iterator[socket.socket]:
    """Connections to the metrics port that say nothing, or not all."""
    for number in range(SLOW):
        one = socket.create_connection((LOOPBACK, gateway.metrics_port), 10)
        if number % 2:
            one.sendall(b"G")
        yield one


def check_hostile(trial: Trial) -> None:
    """Requests that mean no good change nothing, and hold up no datagram."""
    arrivals = [arrival for arrival in made_arrivals(6_000, 15) if arrival.octets is not None]
    with Receivers() as receivers, Gateway(trial, trial.scratch / "hostile", receivers.links(LINKS)) as gateway:
        wanted = replayed(trial, gateway.folder / "links.toml", arrivals)
        half = len(arrivals) // 2
        trial.demand(gateway.takes(receivers, arrivals[:half], wanted[:half]), "hostile: other answers before")
        for octets, status in REQUESTS:
            told = gateway.sent(octets)
            trial.demand(told.status == status, f"hostile: {octets[:60]!r}: {told}, wanted {status}")
            text = gateway_wrong.NO_LINK if b"link=999" in octets and status == 404 else TEXTS.get(status)
            trial.demand(not text or told.json["text"] == text, f"hostile: {octets[:60]!r}: {told}, wanted {text}")
        slow = list(slow_ones(gateway))
        start = time.monotonic()
        trial.demand(gateway.takes(receivers, arrivals[half:], wanted[half:]), "hostile: other answers among slow ones")
        trial.say(f"hostile: {len(arrivals) - half} arrivals in {time.monotonic() - start:.2f} s, beside {SLOW} slow connections")
        trial.demand(gateway.ask("GET", "/ready").status in (0, 200), "hostile: no answer beside slow connections")
        for one in slow:
            one.close()
        for octets in (b"", b"\0", b"\xff\xff" + b"\0" * 9):
            gateway.sender.sendto(octets, (LOOPBACK, gateway.timed_port))
            gateway.sender.sendto(octets, (LOOPBACK, gateway.port))
        end = time.monotonic() + 15
        while (told := gateway.ask("GET", "/status")).status != 200 and time.monotonic() < end:
            time.sleep(0.1)
        trial.demand(told.status == 200, f"hostile: status afterwards: {told}")
        trial.demand(gateway.stop() == 0, "hostile: it doesn't stop")


def flood(port: int) -> None:
    """Sends packets of link 20 that are refused, as fast as it can."""
    with socket.socket(socket.AF_INET, socket.SOCK_DGRAM) as sender:
        for number in range(FLOOD):
            sender.sendto(struct.pack(">HQ", 20, number) + b"\xfd\x00", (LOOPBACK, port))


def check_flood(trial: Trial) -> None:
    """A call at the one port, while another link floods the other port: each packet of the call is answered."""
    packets = [b"\x45" + number.to_bytes(4, "big") for number in range(6_000)]
    with Receivers() as receivers, Gateway(trial, trial.scratch / "flood", receivers.links(LINKS)) as gateway:
        with ThreadPoolExecutor(1) as pool:
            done = pool.submit(flood, gateway.timed_port)
            head = struct.pack(">H", 1)
            gateway.sender.sendto(head + bytes.fromhex("fc00b745aa"), (LOOPBACK, gateway.port))
            answered = receivers.wait({"deliver": 1})
            for at in range(0, len(packets), BATCH):
                for packet in packets[at : at + BATCH]:
                    gateway.sender.sendto(head + packet, (LOOPBACK, gateway.port))
                answered = answered and receivers.wait({"deliver": 1 + min(at + BATCH, len(packets))})
            running = not done.done()
            done.result()
        trial.demand(answered, "flood: a packet of the call has no answer")
        trial.demand(receivers.found["deliver"] == [b"\x45\xaa", *packets], "flood: the call is answered otherwise")
        beside = "all the while" if running else "for a part of it"
        trial.say(f"flood: {len(packets)} packets of a call answered, {FLOOD} of another link beside them {beside}")


def check_full(trial: Trial) -> None:
    """No room for a state file: the last good one stays, and nothing stops. 213 octets for 20 links, 11 for each context."""
    limits = {resource.RLIMIT_FSIZE: 300}
    with Receivers() as receivers, Gateway(trial, trial.scratch / "full", receivers.links(LINKS), limits=limits) as gateway:
        gateway.send(Arrival(1, 0, first_ir(1)))
        trial.demand(receivers.wait({"deliver": 1}), "full: no first packet")
        trial.demand(gateway.ask("POST", "/save").status == 200, "full: a file that has room isn't saved")
        saved = (gateway.folder / "calls.latest").read_bytes()
        for cid in range(2, 16):
            gateway.send(Arrival(1, 0, first_ir(cid)))
        trial.demand(receivers.wait({"deliver": 15}), "full: no packets")
        for path, file in (("/save", "calls.latest.new"), ("/stop", "calls.new")):
            told = gateway.ask("POST", path)
            wanted = {"fault": "Save", "text": f"{gateway.folder}/{file}: File too large (os error 27); {gateway_wrong.UNSAVED}"}
            trial.demand((told.status, told.json) == (500, wanted), f"full: {path}: {told}")
            # The log may not grow above that size either.
            is_logged = f"<3>rohc-gateway: save failed: {wanted['text']}" in gateway.said
            trial.demand(is_logged or path == "/stop", f"full: {path}: {gateway.said}")
        trial.demand((gateway.folder / "calls.latest").read_bytes() == saved, "full: the last good file is gone")
        trial.demand(gateway.ask("GET", "/ready").status == 200, "full: it stopped")
        failed = [count for name, _, count in samples(gateway.metrics()) if name == "polorowan_failed_saves_total"]
        trial.demand(failed == [2], f"full: failed saves {failed}")


def check_poor(trial: Trial) -> None:
    """Descriptors and the disk run out: datagrams are answered all the same."""
    check_full(trial)
    limits = {resource.RLIMIT_NOFILE: 16}
    with Receivers() as receivers, Gateway(trial, trial.scratch / "poor", receivers.links(LINKS), limits=limits) as gateway:
        slow = list(slow_ones(gateway))
        for cid in range(1, 16):
            gateway.send(Arrival(1, 0, first_ir(cid)))
        trial.demand(receivers.wait({"deliver": 15}), "poor: no answers without descriptors")
        for one in slow:
            one.close()
        end = time.monotonic() + 15
        while (told := gateway.ask("GET", "/ready")).status != 200 and time.monotonic() < end:
            time.sleep(0.1)
        trial.demand(told.status == 200, f"poor: not ready afterwards: {told}")
        trial.demand(gateway.stop() == 0, "poor: it doesn't stop")


# How long ago the last save was, by the dashboard, 1000 seconds after the beginning: of a gateway that has saved, of one
# that hasn't yet, and of one without a state file.
SINCE = """
rule_files: []
tests:
  - interval: 10s
    input_series:
      - {series: 'polorowan_start_timestamp_seconds{instance="saved"}', values: '100x200'}
      - {series: 'polorowan_last_save_timestamp_seconds{instance="saved"}', values: '970x200'}
      - {series: 'polorowan_start_timestamp_seconds{instance="new"}', values: '600x200'}
      - {series: 'polorowan_last_save_timestamp_seconds{instance="new"}', values: '0x200'}
      - {series: 'polorowan_start_timestamp_seconds{instance="stateless"}', values: '600x200'}
    promql_expr_test:
      - expr: EXPRESSION
        eval_time: 1000s
        exp_samples:
          - {labels: '{instance="saved"}', value: 30}
          - {labels: '{instance="new"}', value: 400}
"""


def check_since(trial: Trial) -> None:
    """The dashboard shows the time since the last save, or since the start before the first one."""
    panels = json.loads((trial.top / "deploy/rohc-gateway.dashboard.json").read_text())["panels"]
    expression = next(panel["targets"][0]["expr"] for panel in panels if panel["title"].startswith("Since the last save"))
    text = SINCE.replace("EXPRESSION", json.dumps(expression.replace("$instance", ".*")))
    trial.must_run("promtool", "test", "rules", trial.write("since.yml", text))


def check_files(trial: Trial) -> None:
    """The units, the alerts and the dashboard name what there is."""
    deploy = trial.top / "deploy"
    with Receivers() as receivers, Gateway(trial, trial.scratch / "files", receivers.links([1])) as gateway:
        names = set(re.findall(r"^# TYPE (\w+)", gateway.metrics(), re.M))
    for file in (deploy / "rohc-gateway.rules.yml", deploy / "rohc-gateway.dashboard.json"):
        unknown = set(re.findall(r"polorowan_\w+", file.read_text())) - names
        trial.demand(not unknown, f"{file.name}: no such metrics: {sorted(unknown)}")
    json.loads((deploy / "rohc-gateway.dashboard.json").read_text())
    if shutil.which("promtool"):
        trial.must_run("promtool", "check", "rules", deploy / "rohc-gateway.rules.yml")
        trial.must_run("promtool", "test", "rules", "tests/alerts.yml")
        check_since(trial)
    else:
        trial.leave_out("promtool is not installed, deploy/rohc-gateway.rules.yml and the dashboard were not checked by it")
    if shutil.which("systemd-analyze"):
        unit = trial.write("rohc-gateway@.service", (deploy / "rohc-gateway@.service").read_text())
        unit.write_text(re.sub(r"/usr/local/bin/rohc\S+", "/bin/true", unit.read_text()))
        tun = trial.write("rohc-tun@.service", (deploy / "rohc-tun@.service").read_text().replace("/usr/bin/socat", "/bin/true"))
        trial.must_run("systemd-analyze", "verify", "--man=no", unit, tun)
    else:
        trial.leave_out("systemd-analyze is not installed, the units of deploy/ were not verified")


def is_part(top: Path, word: str) -> bool:
    """Whether this is the name of a part."""
    return word in PARTS


def check(trial: Trial) -> None:
    """Runs the parts that are asked for, or all."""
    if not (trial.top / PROGRAM).exists():
        trial.wrong(f"gateway: no {PROGRAM}: the gate leaves it")
        return
    for part in trial.chosen(PARTS):
        globals()[f"check_{part}"](trial)
