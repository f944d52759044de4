"""Feedback elements (RFC 3095 5.7.6)."""

from checks import from_ones
from octets import octets_of
from values import front_value, written

ACKTYPES = {"Ack": 0, "Nack": 1, "StaticNack": 2}
# Words that may have a number, and words that may have none.
NUMBERED, UNNUMBERED = ("Ack", "Nack"), ("Nack", "StaticNack", "Plain")


def cid_octets(is_small: bool, cid: int) -> bytes:
    """A CID as an element has it."""
    if is_small:
        return bytes([0xE0 + cid]) if cid else b""
    octets = written(cid)
    assert octets is not None
    return octets


def element(is_small: bool, cid: int, word: str, sn: int | None) -> bytes:
    """The element that says a word, with a sequence number or none."""
    data = cid_octets(is_small, cid)
    if word == "Plain":
        data += bytes([0])
    else:
        number = 0 if sn is None else sn % 2**12
        data += octets_of(ACKTYPES[word] * 2**14 + 2 * 2**12 + number, 2)
        data += (b"" if sn is not None else bytes([0x30])) + bytes([0x11])
        data += bytes([from_ones(8, data + bytes([0]))])
    return bytes([0xF0 + len(data)]) + data


def cid_in(is_small: bool, data: bytes) -> int | None:
    """The CID with which data may start."""
    if is_small:
        return data[0] - 0xE0 if data and 0xE1 <= data[0] <= 0xEF else 0
    found = front_value(data)
    return found[0] if found and found[0] < 2**14 else None


def meaning(is_small: bool, octets: bytes) -> tuple[int, str, int | None] | None:
    """The one CID, word and number whose element the octets are, if there is one: each is written and compared."""
    cid = cid_in(is_small, octets[1:])
    if cid is None:
        return None
    behind = octets[1 + len(cid_octets(is_small, cid)) :]
    number = int.from_bytes(behind[:2], "big") % 2**12
    said = [(word, number) for word in NUMBERED] + [(word, None) for word in UNNUMBERED]
    found = [(cid, word, sn) for word, sn in said if element(is_small, cid, word, sn) == octets]
    assert len(found) <= 1
    return found[0] if found else None
