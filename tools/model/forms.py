"""What packets of kind Other of profile 0x0001 say (RFC 3095 5.7.1 to 5.7.5)."""

from dataclasses import dataclass

from layout import fields, in_order, next_octet, width
from octets import Bits, Reader, bits_of, number_of, refuse_if
from values import read_bits, read_value

# Each format, the RND under which it stands, and its picture.
FORMATS = (
    ("Uo0", (0, 1), "0 SN:4 CRC:3"),
    ("Uo1", (1,), "10 TS:6 M SN:4 CRC:3"),
    ("Uo1Id", (0,), "10 0 IPID:5 X SN:4 CRC:3"),
    ("Uo1Ts", (0,), "10 1 TS:5 M SN:4 CRC:3"),
    ("Uor2", (1,), "110 TS:5 TS:1 M SN:6 X CRC:7"),
    ("Uor2Id", (0,), "110 IPID:5 0 M SN:6 X CRC:7"),
    ("Uor2Ts", (0,), "110 TS:5 1 M SN:6 X CRC:7"),
)
EXTENSIONS = ("00 SN:3 +T:3", "01 SN:3 +T:3 -T:8", "10 SN:3 +T:3 +T:8 -T:8")
# What +T and -T are.
MEANT = {
    "Uo1Id": {"+T": "IPID", "-T": "TS"},
    "Uor2": {"+T": "TS", "-T": "TS"},
    "Uor2Id": {"+T": "IPID", "-T": "TS"},
    "Uor2Ts": {"+T": "TS", "-T": "IPID"},
}
EXTENSION_3 = "11 S R-TS Tsc I ip rtp"
IP_OCTET = "TOS TTL DF PR IPX NBO RND ip2"
RTP_OCTET = "Mode:2 R-PT M R-X CSRC TSS TIS"
PT_OCTET = "R-P PT:7"


@dataclass
class Given:
    """What an extension 3 gives: a number for each field that it has."""

    tos: int | None = None
    ttl: int | None = None
    payload_type: int | None = None
    stride: int | None = None
    p: int | None = None
    df: int | None = None
    nbo: int | None = None
    rnd: int | None = None
    x: int | None = None


@dataclass
class Content:
    """What a packet says. Bits that it doesn't have are an empty list; the Identification is whole if RND is 1."""

    form: str
    sn: Bits
    ts: Bits
    offset: Bits
    marker: int
    check: int
    tsc: int | None = None
    given: Given | None = None
    whole: int | None = None
    udp_checksum: int | None = None
    payload: bytes = b""


def base_length(first: int) -> int:
    """How many octets a packet with this first octet has before its extension."""
    return 1 if first < 0x80 else 2 if first < 0xC0 else 3


def announced_rnd(octets: bytes) -> int | None:
    """The RND in the ip octet of an extension 3 of a UOR-2, if there is one."""
    is_extended = octets[0] >= 0xC0 and len(octets) >= 5 and octets[2] & 0x80
    if is_extended and octets[3] >= 0xC0 and octets[3] & 0x02:
        return octets[4] >> 1 & 1
    return None


def base(octets: bytes, rnd: int) -> tuple[str, dict[str, Bits]]:
    """The one format that fits these octets, and its fields."""
    found = []
    for name, under, picture in FORMATS:
        named = fields(picture, bits_of(octets))
        if rnd in under and width(picture) == 8 * len(octets) and named is not None:
            found.append((name, named))
    assert len(found) == 1
    return found[0]


def short_extension(reader: Reader, content: Content) -> None:
    """Adds what an extension 0, 1 or 2 says: its bits follow those of the base."""
    picture = EXTENSIONS[reader.rest()[0] // 64]
    listed = in_order(picture, bits_of(reader.take(width(picture) // 8)))
    assert listed is not None
    for name, bits in listed:
        meant = MEANT[content.form].get(name, name)
        if meant == "SN":
            content.sn = content.sn + bits
        elif meant == "TS":
            content.ts = content.ts + bits
        else:
            content.offset = content.offset + bits


def ip_octet(reader: Reader, content: Content, given: Given) -> dict[str, int]:
    """The flags of the ip octet."""
    ip = next_octet(reader, IP_OCTET)
    refuse_if(ip["IPX"], "ExtensionList")
    refuse_if(ip["RND"] and content.form == "Uo1Id", "RndInUo1")
    refuse_if(ip["ip2"], "OuterHeader")
    given.df, given.nbo, given.rnd = ip["DF"], ip["NBO"], ip["RND"]
    return ip


def rtp_octet(reader: Reader, content: Content, given: Given) -> None:
    """The rtp octet, and the octets that it announces."""
    rtp = next_octet(reader, RTP_OCTET)
    refuse_if(rtp["Mode"] == 3, "ReliableMode")
    refuse_if(rtp["CSRC"], "Csrc")
    content.marker, given.x = rtp["M"], rtp["R-X"]
    if rtp["R-PT"]:
        of_pt = next_octet(reader, PT_OCTET)
        given.p, given.payload_type = of_pt["R-P"], of_pt["PT"]
    if rtp["TSS"]:
        given.stride = read_value(reader)
        refuse_if(given.stride == 0, "ZeroStride")
    if rtp["TIS"]:
        read_value(reader)


def extension_3(reader: Reader, content: Content, rnd: int, stride: int | None) -> None:
    """Adds what an extension 3 says. RND is the one in force, the stride that of the context."""
    front = next_octet(reader, EXTENSION_3)
    content.tsc = front["Tsc"]
    content.given = given = Given()
    ip = ip_octet(reader, content, given) if front["ip"] else {}
    refuse_if(front["I"] and rnd, "IpIdTwice")
    if front["S"]:
        content.sn = content.sn + bits_of(reader.take(1))
    if front["R-TS"]:
        content.ts = content.ts + read_bits(reader)
    if ip.get("TOS"):
        given.tos = reader.octet()
    if ip.get("TTL"):
        given.ttl = reader.octet()
    if ip.get("PR"):
        refuse_if(reader.octet() != 0x11, "Protocol")
    if front["I"]:
        content.offset = bits_of(reader.take(2))
    if front["rtp"]:
        rtp_octet(reader, content, given)
    refuse_if(front["Tsc"] and given.stride is None and stride is None, "NoStride")


def read(octets: bytes, context_rnd: int, has_checksum: int, stride: int | None) -> Content:
    """What a packet without its CID octets says, by the RND, the UDP checksum and the stride of the context."""
    reader = Reader(octets)
    announced = announced_rnd(octets)
    rnd = context_rnd if announced is None else announced
    form, named = base(reader.take(base_length(octets[0])), rnd)
    marker, check = number_of(named.get("M", [])), number_of(named["CRC"])
    content = Content(form, named["SN"], named.get("TS", []), named.get("IPID", []), marker, check)
    if named.get("X") == [1]:
        refuse_if(not reader.rest(), "Truncated")
        if reader.rest()[0] >= 0xC0:
            extension_3(reader, content, rnd, stride)
        else:
            short_extension(reader, content)
    content.ts = content.ts[-32:]
    if rnd:
        content.whole = reader.number(2)
    if has_checksum:
        content.udp_checksum = reader.number(2)
    content.payload = reader.rest()
    return content
