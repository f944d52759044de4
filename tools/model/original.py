"""The original header, and its checks (RFC 791, 768, 3550; RFC 3095 5.9.2)."""

from dataclasses import dataclass

from checks import check, from_ones, header_sum
from octets import octets_of

LONGEST_PAYLOAD = 65_495


@dataclass(frozen=True)
class Static:
    """What stays during a call."""

    source: bytes
    destination: bytes
    source_port: int
    destination_port: int
    ssrc: int


@dataclass(frozen=True)
class Fields:
    """The other fields of a header, and how packets say them."""

    tos: int
    ttl: int
    identification: int
    df: int
    rnd: int
    nbo: int
    udp_checksum: int
    p: int
    x: int
    marker: int
    payload_type: int
    sn: int
    ts: int
    stride: int | None


def ipv4(static: Static, fields: Fields, length: int, checksum: int) -> bytes:
    """The IPv4 header, with this checksum."""
    return b"".join(
        [
            bytes([0x45, fields.tos]),
            octets_of(40 + length, 2),
            octets_of(fields.identification, 2),
            bytes([0x40 * fields.df, 0, fields.ttl, 0x11]),
            octets_of(checksum, 2),
            static.source,
            static.destination,
        ]
    )


def udp(static: Static, fields: Fields, length: int) -> bytes:
    """The UDP header."""
    numbers = (static.source_port, static.destination_port, 20 + length, fields.udp_checksum)
    return b"".join(octets_of(number, 2) for number in numbers)


def rtp(static: Static, fields: Fields) -> bytes:
    """The RTP header."""
    first = 0x80 + 0x20 * fields.p + 0x10 * fields.x
    second = 0x80 * fields.marker + fields.payload_type
    return bytes([first, second]) + octets_of(fields.sn, 2) + octets_of(fields.ts, 4) + octets_of(static.ssrc, 4)


def original(static: Static, fields: Fields, length: int) -> bytes | None:
    """The original header for a payload of this length, if there may be one."""
    if length > LONGEST_PAYLOAD:
        return None
    checksum = header_sum(ipv4(static, fields, length, 0))
    return ipv4(static, fields, length, checksum) + udp(static, fields, length) + rtp(static, fields)


# The static octets of each part, counted from 1, and the octets before that part.
STATIC_OCTETS = [
    *(0 + place for place in (1, 2, 7, 8, 9, 10, *range(13, 21))),
    *(20 + place for place in (1, 2, 3, 4)),
    *(28 + place for place in (1, 9, 10, 11, 12)),
]


def split(header: bytes) -> tuple[bytes, bytes]:
    """The static octets of a header, and the dynamic ones."""
    static = bytes(header[place - 1] for place in STATIC_OCTETS)
    return static, bytes(header[place - 1] for place in range(1, 41) if place not in STATIC_OCTETS)


def register_after_static(width: int, header: bytes) -> int:
    """The check of a header's static octets."""
    return from_ones(width, split(header)[0])


def header_check(width: int, header: bytes) -> int:
    """A header's check: of its static octets, and then of its dynamic ones."""
    return check(width, register_after_static(width, header), split(header)[1])
