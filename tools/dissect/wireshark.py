"""What Wireshark's dissectors say of the packets of a capture, by tshark."""

import re
import subprocess
from collections.abc import Iterator
from pathlib import Path
from xml.etree.ElementTree import Element, iterparse

# What is said of a packet: numbers and addresses as text, by their names.
View = dict[str, str]

TSHARK = ("tshark", "-n", "-T", "pdml", "--enable-heuristic", "pdcp_lte_udp", "-o", "pdcp-lte.dissect_rohc:TRUE")
CHECKED = ("-o", "ip.check_checksum:TRUE", "-o", "udp.check_checksum:TRUE")
PACKET = re.compile(r"(\S+) packet$")
# The names here, by the dissector's.
NAMES = {
    "rohc.ipv4_src": "source",
    "rohc.ipv4_dst": "destination",
    "rohc.udp_src_port": "source port",
    "rohc.udp_dst_port": "destination port",
    "rohc.rtp.ssrc": "SSRC",
    "rohc.rtp.tos": "TOS",
    "rohc.rtp.ttl": "TTL",
    "rohc.rtp.id": "Identification",
    "rohc.ip-id": "Identification",
    "rohc.rtp.df": "DF",
    "rohc.rtp.rnd": "RND",
    "rohc.rtp.nbo": "NBO",
    "rohc.dynamic.udp.checksum": "UDP checksum",
    "rohc.udp_checksum": "UDP checksum",
    "rohc.rtp.p": "P",
    "rohc.rtp.m": "M",
    "rohc.rtp.pt": "PT",
    "rohc.rtp.sn": "SN",
    "rohc.rtp.timestamp": "TS",
    "rohc.rtp.x": "X",
    "rohc.rtp.ts_stride": "TS_STRIDE",
    "rohc.rtp.mode": "Mode",
    "rohc.profile": "profile",
    "rohc.crc": "check",
    "rohc.r_0_crc": "check",
    "rohc.ext3.tsc": "Tsc",
    "rohc.ext3.r_p": "P",
    "rohc.ext3.df": "DF",
    "rohc.ext3.nbo": "NBO",
    "rohc.ext3.rnd": "RND",
    "rohc.ext3.m": "M",
    "rohc.ext3.r_x": "X",
    "rohc.ext3.mode": "Mode",
    "rohc.small_cid": "CID",
    "rohc.large_cid": "CID",
    "rohc.acktype": "Acktype",
    "rohc.mode": "Mode",
    "rohc.sn": "SN",
    "rohc.opt_type": "option",
    "rohc.profile_spec_octet": "octet",
}
FORMATS = {"rohc.ir_packet": "IR", "rohc.ir_dyn_packet": "IR-DYN", "rohc.feedback": "feedback"}
# Fields whose bits count, since those of an extension follow those before it.
BITS = {"rohc.comp.sn": "SN bits", "rohc.tp": "TS bits", "rohc.comp_ip_id": "IP-ID bits"}
DELIVERED = {
    "ip.src": "source",
    "ip.dst": "destination",
    "udp.srcport": "source port",
    "udp.dstport": "destination port",
    "udp.checksum": "UDP checksum",
    "ip.dsfield": "TOS",
    "ip.ttl": "TTL",
    "ip.id": "Identification",
    "ip.flags.df": "DF",
    "ip.checksum.status": "checksum status",
    "rtp.ssrc": "SSRC",
    "rtp.padding": "P",
    "rtp.marker": "M",
    "rtp.p_type": "PT",
    "rtp.seq": "SN",
    "rtp.timestamp": "TS",
    "rtp.ext": "X",
}


def number(field: Element) -> str:
    """A field's number or address as text."""
    shown = field.get("show", "")
    return str(int(shown, 0)) if re.fullmatch(r"0x[0-9a-f]+|\d+", shown) else shown


def bits(field: Element) -> str:
    """A field's bits. What the dissector masks it shows as a picture, such as `..11 1000 = `."""
    picture, is_there, _ = field.get("showname", "").rpartition(" = ")
    if is_there:
        return re.sub("[^01]", "", picture)
    return f"{int(number(field)):0{8 * int(field.get('size', '0'))}b}"


def add(view: View, field: Element) -> None:
    """Adds what a field of the dissector of ROHC says."""
    name = field.get("name", "")
    if name in BITS:
        view[BITS[name]] = view.get(BITS[name], "") + bits(field)
    elif name == "rohc.opt_type":
        view["options"] = f"{view.get('options', '')} {number(field)}".strip()
    elif name in NAMES:
        view[NAMES[name]] = number(field)
    elif name in FORMATS:
        view["format"] = FORMATS[name]
    elif packet := PACKET.match(field.get("show", "")):
        view["format"] = packet[1]


def rohc_view(packet: Element) -> View:
    """What is said of a ROHC packet. Of profile 0x0000, what follows the header is shown as an IP packet."""
    view: View = {}
    protos = [proto.get("name") for proto in packet.iter("proto")]
    for field in packet.iterfind(".//proto[@name='rohc']//field"):
        add(view, field)
    is_plain = "rohc" in protos and not {"ip", "ipv6"}.isdisjoint(protos[protos.index("rohc") :])
    if is_plain and view.get("format") != "IR":
        view["format"] = "Normal"
    for length in packet.iterfind(".//field[@name='data.len']"):
        if not is_plain:
            view["payload"] = number(length)
    # What isn't shown is CID 0 of small CIDs.
    return {"CID": "0", **view} if "format" in view else view


def delivered_view(packet: Element) -> View:
    """What is said of a delivered packet."""
    fields = (field for field in packet.iter("field") if field.get("name") in DELIVERED)
    return {DELIVERED[field.get("name", "")]: number(field) for field in fields}


def packets(file: Path, *options: str) -> Iterator[Element]:
    """The packets of a capture, as they are dissected."""
    words = [*TSHARK, *options, "-r", str(file)]
    with subprocess.Popen(words, stdout=subprocess.PIPE, stderr=subprocess.DEVNULL) as process:
        assert process.stdout
        for _, element in iterparse(process.stdout):
            if element.tag == "packet":
                yield element
                element.clear()


def rohc_views(file: Path) -> list[View]:
    """What is said of each ROHC packet."""
    return [rohc_view(packet) for packet in packets(file)]


def delivered_views(file: Path, ports: set[int]) -> list[View]:
    """What is said of each delivered packet. RTP goes to these ports."""
    decoded = [word for port in sorted(ports) for word in ("-d", f"udp.port=={port},rtp")]
    return [delivered_view(packet) for packet in packets(file, *CHECKED, *decoded)]
