"""What an IR and an IR-DYN say (RFC 3095 5.7.7)."""

from dataclasses import dataclass
from typing import NamedTuple

from checks import from_ones
from framing import Header
from layout import next_octet
from octets import Reader, refuse_if
from original import LONGEST_PAYLOAD, Fields, Static
from values import read_value

FLAGS = "DF RND NBO ignored:5"
FIRST_OF_RTP = "V:2 P RX CC:4"
SECOND_OF_RTP = "M PT:7"
RX_OCTET = "ignored:3 X Mode:2 TIS TSS"


class Kept(NamedTuple):
    """X and the stride that stay if a dynamic chain doesn't give them."""

    x: int = 0
    stride: int | None = None


@dataclass(frozen=True)
class Said:
    """What an IR or an IR-DYN says: its chains, and what follows them. An IR of profile 0x0000 has no chains."""

    static: Static | None
    fields: Fields | None
    payload: bytes


def static_chain(reader: Reader) -> Static:
    """The static chains of IPv4, UDP and RTP."""
    refuse_if(reader.octet() // 16 != 4, "IpVersion")
    refuse_if(reader.octet() != 0x11, "Protocol")
    source, destination = reader.take(4), reader.take(4)
    return Static(source, destination, reader.number(2), reader.number(2), reader.number(4))


def strides(reader: Reader, has_stride: int, has_time_stride: int) -> int | None:
    """TS_STRIDE if it is there. A TIME_STRIDE is dropped."""
    stride = read_value(reader) if has_stride else None
    refuse_if(stride == 0, "ZeroStride")
    if has_time_stride:
        read_value(reader)
    return stride


def dynamic_chain(reader: Reader, kept: Kept) -> Fields:
    """The dynamic chains of IPv4, UDP and RTP."""
    tos, ttl, identification = reader.octet(), reader.octet(), reader.number(2)
    of_ip = next_octet(reader, FLAGS)
    refuse_if(reader.octet() != 0, "ExtensionList")
    udp_checksum = reader.number(2)
    first = next_octet(reader, FIRST_OF_RTP)
    refuse_if(first["V"] != 2, "RtpVersion")
    refuse_if(first["CC"] != 0, "Csrc")
    second = next_octet(reader, SECOND_OF_RTP)
    sn, ts = reader.number(2), reader.number(4)
    refuse_if(reader.octet() != 0, "Csrc")
    x, stride = kept
    if first["RX"]:
        more = next_octet(reader, RX_OCTET)
        refuse_if(more["Mode"] == 3, "ReliableMode")
        given = strides(reader, more["TSS"], more["TIS"])
        x, stride = more["X"], kept.stride if given is None else given
    return Fields(
        tos, ttl, identification, of_ip["DF"], of_ip["RND"], of_ip["NBO"], udp_checksum,
        first["P"], x, second["M"], second["PT"], sn, ts, stride,
    )  # fmt: skip


def judge_end(header: Header, reader: Reader, check: int) -> bytes:
    """The payload. Its length and the check are judged last."""
    payload = reader.rest()
    refuse_if(len(payload) > LONGEST_PAYLOAD, "TooLong")
    chains = header.rest[: reader.place]
    # The Profile octet, the check octet as 00, and the chains.
    covered = header.front + chains[:1] + bytes([0]) + chains[2:]
    refuse_if(from_ones(8, covered) != check, "Check")
    return payload


def read_ir(header: Header) -> Said:
    """What an IR says."""
    reader = Reader(header.rest)
    profile = reader.octet()
    refuse_if(profile not in (0, 1) or (profile == 0 and header.first == 0xFD), "Profile")
    check = reader.octet()
    if profile == 0:
        refuse_if(from_ones(8, header.front + bytes([0])) != check, "Check")
        return Said(None, None, reader.rest())
    static = static_chain(reader)
    if header.first == 0xFC:
        refuse_if(reader.rest() != b"", "Trailing")
        return Said(static, None, judge_end(header, reader, check))
    dynamic = dynamic_chain(reader, Kept())
    return Said(static, dynamic, judge_end(header, reader, check))


def read_ir_dyn(header: Header, context_profile: int, kept: Kept) -> Said:
    """What an IR-DYN says for a context of this profile."""
    reader = Reader(header.rest)
    profile = reader.octet()
    refuse_if(profile != 1, "Profile")
    refuse_if(context_profile == 0, "ProfileChange")
    check = reader.octet()
    dynamic = dynamic_chain(reader, kept)
    return Said(None, dynamic, judge_end(header, reader, check))
