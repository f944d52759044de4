"""Packets as items and a header (RFC 5795 5.2)."""

from dataclasses import dataclass

import values
from octets import Refused, refuse_if

KINDS = {0xFC: "Ir", 0xFD: "Ir", 0xF8: "IrDyn"}


@dataclass(frozen=True)
class Header:
    """The header of a packet: the CID that it bears, its first octet, its CID octets, and what follows both."""

    cid: int
    first: int
    cid_octets: bytes
    rest: bytes
    is_small: bool

    @property
    def kind(self) -> str:
        """Ir, IrDyn or Other."""
        return KINDS.get(self.first, "Other")

    @property
    def front(self) -> bytes:
        """The first octet with the CID octets before or after it."""
        first = bytes([self.first])
        return self.cid_octets + first if self.is_small else first + self.cid_octets

    @property
    def content(self) -> bytes:
        """The header without its CID octets."""
        return bytes([self.first]) + self.rest


@dataclass(frozen=True)
class Packet:
    """The feedback elements of a packet, each one's data, and its header, if there is one."""

    elements: list[bytes]
    header: Header | None


def item_length(octets: bytes) -> int:
    """How many octets the whole item at the start has: 0 if there is none."""
    first = octets[0] if octets else 0
    length = 0
    if first == 0xE0:
        length = 1
    elif 0xF1 <= first <= 0xF7:
        length = 1 + first - 0xF0
    elif first == 0xF0 and len(octets) > 1:
        length = 2 + octets[1]
    return length if length <= len(octets) else 0


def data_of(item: bytes) -> bytes:
    """The data of a feedback element."""
    return item[2:] if item[0] == 0xF0 else item[1:]


def judge_first(first: int, is_small: bool) -> None:
    """The table of the octet after the items."""
    refuse_if(0xE1 <= first <= 0xEF and not is_small, "AddCidOnLarge")
    refuse_if(0xF0 <= first <= 0xF7, "FeedbackShort")
    refuse_if(0xF9 <= first <= 0xFB, "ReservedType")
    refuse_if(first >= 0xFE, "Segment")


def small_header(octets: bytes, greatest: int) -> Header:
    """A header on a link of small CIDs."""
    if not 0xE1 <= octets[0] <= 0xEF:
        judge_first(octets[0], True)
        return Header(0, octets[0], b"", octets[1:], True)
    cid = octets[0] - 0xE0
    refuse_if(cid > greatest, "CidRange")
    refuse_if(len(octets) == 1, "NoHeader")
    first = octets[1]
    refuse_if(0xF0 <= first <= 0xF7, "AfterAddCid")
    refuse_if(0xE0 <= first <= 0xEF, "ReservedType")
    judge_first(first, True)
    return Header(cid, first, octets[:1], octets[2:], True)


def large_header(octets: bytes, greatest: int) -> Header:
    """A header on a link of large CIDs."""
    judge_first(octets[0], False)
    behind = octets[1:]
    refuse_if(not behind, "NoHeader")
    refuse_if(behind[0] >= 0xC0, "LargeCid")
    found = values.front_value(behind)
    if found is None:
        raise Refused("NoHeader")
    cid, count = found
    refuse_if(cid > greatest, "CidRange")
    return Header(cid, octets[0], behind[:count], behind[count:], False)


def read_header(octets: bytes, is_small: bool, greatest: int) -> Header:
    """The header that octets are."""
    return small_header(octets, greatest) if is_small else large_header(octets, greatest)


def read(octets: bytes, is_small: bool, greatest: int) -> Packet:
    """The items of a packet, and its header."""
    refuse_if(not octets, "Empty")
    elements = []
    while length := item_length(octets):
        if octets[0] != 0xE0:
            elements.append(data_of(octets[:length]))
        octets = octets[length:]
    return Packet(elements, read_header(octets, is_small, greatest) if octets else None)
