"""Replays scripts: their lines, the contexts of all links, and the answer lines."""

import re
from collections.abc import Iterable, Iterator

import feedback
import framing
from links import Setting
from octets import Refused, word_of
from record import Record
from step import Arrival, Step, step

LONGEST_LINE = 131_200
# The greatest time has twenty digits.
NUMBER = b"(0|[1-9][0-9]{0,19})"
ARRIVE = re.compile(b"arrive %s %s (-|(?:[0-9a-f]{2}){1,65535})" % (NUMBER, NUMBER))
RESET = re.compile(b"reset %s" % NUMBER)


def lines_of(text: bytes) -> list[bytes]:
    """The lines of a text. A last one without a newline is a line if it isn't empty."""
    *lines, last = text.split(b"\n")
    return lines + [last] * (last != b"")


class Concentrator:
    """The contexts of all links, and how many packets were repaired."""

    def __init__(self, links: dict[int, Setting]) -> None:
        """There is no context at first."""
        self.links = links
        self.records: dict[tuple[int, int], Record] = {}
        self.repaired = 0

    def reset(self, link: int) -> Iterator[str]:
        """Forgets the contexts of a link."""
        if link not in self.links:
            yield f"{link} - refused NoLink"
        self.records = {pair: record for pair, record in self.records.items() if pair[0] != link}

    def arrive(self, link: int, now: int, octets: bytes) -> Iterator[str]:
        """A packet arrives."""
        setting = self.links.get(link)
        if setting is None:
            yield f"{link} - refused NoLink"
            return
        try:
            packet = framing.read(octets, setting.is_small, setting.max_cid)
        except Refused as refusal:
            yield f"{link} - refused {refusal.name}"
            return
        yield from (f"{link} - relay {word_of(data)}" for data in packet.elements)
        if packet.header is not None:
            pair = (link, packet.header.cid)
            made = step(self.records.get(pair), Arrival(packet.header, now, setting))
            self.repaired += made.is_repaired
            if made.record is not None:
                self.records[pair] = made.record
            yield from answer(setting, packet.header.cid, made)


def answer(setting: Setting, cid: int, made: Step) -> Iterator[str]:
    """The answer lines of a context."""
    pair = f"{setting.number} {cid}"
    if made.packet is not None:
        yield f"{pair} ip {word_of(made.packet)}"
    elif made.refused is None:
        yield f"{pair} stored"
    if made.due is not None and setting.sends_for(cid):
        element = feedback.element(setting.is_small, cid, made.due.word, made.due.sn)
        yield f"{pair} feedback {word_of(element)}"
    if made.refused is not None:
        yield f"{pair} refused {made.refused}"


def run_line(concentrator: Concentrator, line: bytes) -> Iterable[str]:
    """The answer lines of a line."""
    if len(line) > LONGEST_LINE:
        return ["- - refused LongLine"]
    arrives, resets = ARRIVE.fullmatch(line), RESET.fullmatch(line)
    if arrives and int(arrives[1]) < 2**16 and int(arrives[2]) < 2**64:
        octets = b"" if arrives[3] == b"-" else bytes.fromhex(arrives[3].decode())
        return concentrator.arrive(int(arrives[1]), int(arrives[2]), octets)
    if resets and int(resets[1]) < 2**16:
        return concentrator.reset(int(resets[1]))
    return ["- - refused BadLine"]


def replay_by_line(links: dict[int, Setting], script: bytes) -> Iterator[tuple[bytes, list[str]]]:
    """Each line of a script with its answer lines."""
    concentrator = Concentrator(links)
    for line in lines_of(script):
        yield line, list(run_line(concentrator, line))


def repaired_lines(links: dict[int, Setting], script: bytes) -> Iterator[int]:
    """The numbers of the lines whose packets are repaired, from 1."""
    concentrator = Concentrator(links)
    for number, line in enumerate(lines_of(script), 1):
        before = concentrator.repaired
        for _ in run_line(concentrator, line):
            pass
        if concentrator.repaired > before:
            yield number


def replay(links: dict[int, Setting], script: bytes) -> Iterator[str]:
    """The answer lines of a script."""
    for _, answers in replay_by_line(links, script):
        yield from answers
