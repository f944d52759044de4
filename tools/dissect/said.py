"""What tools/model says of the packets of a script, of the feedback to them and of what is delivered."""

import sys
from collections.abc import Iterator
from dataclasses import dataclass
from pathlib import Path

sys.path.append(str(Path(__file__).resolve().parent.parent / "model"))

import chains  # noqa: E402
import feedback  # noqa: E402
import forms  # noqa: E402
import framing  # noqa: E402
from links import Setting  # noqa: E402
from octets import Bits, Reader  # noqa: E402
from original import Fields, Static  # noqa: E402
from record import FullContext, Plain, Record, StaticContext  # noqa: E402
from replay import ARRIVE, Concentrator, run_line  # noqa: E402
from wireshark import View  # noqa: E402

FORMATS = {"Uo0": "UO-0", "Uo1": "UO-1", "Uo1Id": "UO-1-ID", "Uo1Ts": "UO-1-TS"}
FORMATS |= {"Uor2": "UOR-2", "Uor2Id": "UOR-2-ID", "Uor2Ts": "UOR-2-TS"}
WITHOUT_MARKER = ("Uo0", "Uo1Id")
STATIC_OCTETS = 18
# Where the octets of the RTP dynamic chain stand in the dynamic chain: the first, and the one that RX announces.
FIRST_OF_RTP, RX_OCTET = 8, 17
ACKTYPES = {"Ack": "0", "Nack": "1", "StaticNack": "2"}


@dataclass(frozen=True)
class Said:
    """A packet of a script, or an element of feedback to one, and what is said of it.

    With a packet of kind Other comes the RND of its context before it, and with one that is delivered the IP packet.
    """

    octets: bytes
    view: View
    held_rnd: str = ""
    delivered: bytes = b""


def text(bits: Bits) -> str:
    """Bits as text."""
    return "".join(map(str, bits))


def known(view: dict[str, object]) -> View:
    """A view of what is there."""
    return {name: str(number) for name, number in view.items() if number is not None}


def of_static(static: Static) -> View:
    """What a static chain says."""
    ports = {"source port": str(static.source_port), "destination port": str(static.destination_port)}
    addresses = {"source": ".".join(map(str, static.source)), "destination": ".".join(map(str, static.destination))}
    return {**ports, **addresses, "SSRC": str(static.ssrc)}


def of_dynamic(fields: Fields, chain: bytes) -> View:
    """What a dynamic chain says. X and TS_STRIDE are said if they are there."""
    view: dict[str, object] = {"TOS": fields.tos, "TTL": fields.ttl, "Identification": fields.identification}
    view |= {"DF": fields.df, "RND": fields.rnd, "NBO": fields.nbo, "UDP checksum": fields.udp_checksum, "P": fields.p}
    view |= {"M": fields.marker, "PT": fields.payload_type, "SN": fields.sn, "TS": fields.ts}
    if chains.next_octet(Reader(chain[FIRST_OF_RTP:]), chains.FIRST_OF_RTP)["RX"]:
        view["X"] = fields.x
        if chains.next_octet(Reader(chain[RX_OCTET:]), chains.RX_OCTET)["TSS"]:
            view["TS_STRIDE"] = fields.stride
    return known(view)


def of_chains(header: framing.Header) -> View:
    """What an IR or an IR-DYN says."""
    view = {"profile": str(header.rest[0]), "check": str(header.rest[1])}
    if header.kind == "Ir":
        view["format"], at, said = "IR", 2 + STATIC_OCTETS, chains.read_ir(header)
    else:
        view["format"], at, said = "IR-DYN", 2, chains.read_ir_dyn(header, 1, chains.Kept())
    if said.static is None and said.fields is None:
        return view
    view |= of_static(said.static) if said.static else {}
    return view | (of_dynamic(said.fields, header.rest[at:]) if said.fields else {}) | payload(said.payload)


def payload(octets: bytes) -> View:
    """The length of a payload, if there is one."""
    return {"payload": str(len(octets))} if octets else {}


def of_other(header: framing.Header, record: Record) -> tuple[View, str]:
    """What a packet of kind Other says, and the RND of its context."""
    if isinstance(record.state, Plain):
        return {"format": "Normal"}, ""
    assert isinstance(record.state, (StaticContext, FullContext)) and record.state.reference
    held = record.state.reference
    content = forms.read(header.content, held.fields.rnd, held.has_checksum, held.fields.stride)
    given = content.given or forms.Given()
    view: dict[str, object] = {"check": content.check, "Tsc": content.tsc, "TOS": given.tos, "TTL": given.ttl}
    view |= {"PT": given.payload_type, "P": given.p, "X": given.x, "DF": given.df, "NBO": given.nbo, "RND": given.rnd}
    view |= {"TS_STRIDE": given.stride, "Identification": content.whole, "UDP checksum": content.udp_checksum}
    if content.form not in WITHOUT_MARKER or given.x is not None:
        view["M"] = content.marker
    bits = {"SN bits": content.sn, "TS bits": content.ts, "IP-ID bits": content.offset}
    view |= {name: text(some) for name, some in bits.items() if some}
    return {**known(view), "format": FORMATS[content.form], **payload(content.payload)}, str(held.fields.rnd)


def of_feedback(setting: Setting, element: bytes) -> Said:
    """What an element of feedback says."""
    meaning = feedback.meaning(setting.is_small, element)
    assert meaning
    cid, word, sn = meaning
    view = {"format": "feedback", "CID": str(cid)}
    if word == "Plain":
        return Said(element, {**view, "octet": "0"})
    options = "3 1" if sn is None else "1"
    view |= {"Acktype": ACKTYPES[word], "Mode": "2", "SN": str(sn or 0), "options": options, "check": str(element[-1])}
    return Said(element, view)


def of_packet(setting: Setting, octets: bytes, told: list[str], record: Record | None) -> Said:
    """What is said of a packet that was answered so. A packet that is refused has no view."""
    words = [answer.split(" ") for answer in told]
    header = framing.read(octets, setting.is_small, setting.max_cid).header
    if header is None or any(answer[2] == "refused" for answer in words):
        return Said(octets, {})
    view, held_rnd = (of_chains(header), "") if header.kind != "Other" or not record else of_other(header, record)
    delivered = [bytes.fromhex(answer[3]) for answer in words if answer[2] == "ip"]
    is_rtp = view["format"] != "Normal" and view.get("profile") != "0"
    return Said(octets, {"CID": str(header.cid), **view}, held_rnd, delivered[0] if delivered and is_rtp else b"")


def all_said(setting: Setting, script: bytes) -> Iterator[tuple[Said, list[str]]]:
    """What is said of each packet of a script, with the lines that answer it, and of each element of feedback."""
    concentrator = Concentrator({setting.number: setting})
    for line in script.splitlines():
        arrives = ARRIVE.fullmatch(line)
        if not arrives:
            raise ValueError(f"no arrival: {line.decode()}")
        octets = bytes.fromhex(arrives[3].decode())
        header = framing.read(octets, setting.is_small, setting.max_cid).header
        record = concentrator.records.get((setting.number, header.cid)) if header else None
        told = list(run_line(concentrator, line))
        yield of_packet(setting, octets, told, record), told
        words = [answer.split(" ") for answer in told]
        yield from ((of_feedback(setting, bytes.fromhex(answer[3])), []) for answer in words if answer[2] == "feedback")
