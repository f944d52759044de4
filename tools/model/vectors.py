"""Answers the questions of crates/vectors."""

from collections.abc import Callable, Iterable, Iterator
from dataclasses import astuple

import chains
import checks
import feedback
import forms
import framing
import lsb
import original
import values
from octets import Bits, Refused, bits_of, number_of, octets_of, word_of

WORDS = {"ack": "Ack", "nack": "Nack", "static_nack": "StaticNack", "plain_ack": "Plain"}


def octets_in(word: str) -> bytes:
    """The octets of a word."""
    return b"" if word == "-" else bytes.fromhex(word)


def number_in(word: str) -> int | None:
    """The number of a word, if it is one."""
    return None if word == "-" else int(word)


def text(number: int | None) -> str:
    """A number as a word, or none."""
    return "-" if number is None else str(number)


def bits_in(count: str, number: str) -> Bits | None:
    """The bits of two words, if they are there."""
    if count == "-":
        return None
    return bits_of(octets_of(int(number), 4))[32 - int(count) :]


def answer_checks(question: str) -> str:
    """A check of octets from a register, or a header sum."""
    width, register, octets = question.split("\t")
    if width == "sum":
        return f"{checks.header_sum(octets_in(octets)):04x}"
    return f"{checks.check(int(width), int(register, 16), octets_in(octets)):02x}"


def answer_values(question: str) -> str:
    """A value that is read or written."""
    if question.startswith("write "):
        octets = values.written(int(question.split()[1]))
        return "none" if octets is None else octets.hex()
    found = values.front_value(octets_in(question))
    return "-\t-" if found is None else f"{found[0]}\t{found[1]}"


def answer_framing(question: str) -> str:
    """A packet's elements and header."""
    kind, greatest, octets = question.split("\t")
    try:
        packet = framing.read(octets_in(octets), kind == "small", int(greatest))
    except Refused as refusal:
        return refusal.name
    told = ",".join(data.hex() or "empty" for data in packet.elements) or "no elements"
    header = packet.header
    if header is None:
        return f"{told}|none"
    cid_octets, rest = word_of(header.cid_octets), word_of(header.rest)
    return f"{told}|{header.cid}|{header.kind}|{header.first:02x}|{cid_octets}|{rest}"


def answer_fields(question: str) -> str:
    """What bits mean."""
    name, words = question.split("\t")
    given = dict(zip(words.split()[::2], words.split()[1::2]))
    bits = bits_in(given.get("count", "-"), given.get("bits", "-"))
    whole = {key: int(word) for key, word in given.items() if word != "-"}
    reference, stride = whole.get("reference", 0), whole.get("stride")
    answers: dict[str, Callable[[], object]] = {
        "interval_value": lambda: lsb.interval_value(reference, whole["count"], whole["bits"], whole["p"])
        % 2 ** whole["width"],
        "sn_shift": lambda: lsb.sn_p(whole["k"]),
        "ts_shift": lambda: lsb.ts_p(whole["k"]),
        "sn_value": lambda: " ".join(map(str, lsb.sequence_number(reference, whole["shift"], bits or []))),
        "scaled": lambda: lsb.scaled(reference, whole["stride"], bits or []),
        "unscaled": lambda: lsb.unscaled(reference, bits or []),
        "inferred_ts": lambda: lsb.inferred(reference, stride, whole["steps"]),
        "ip_id": lambda: lsb.identification(
            whole["sn"], whole["reference_sn"], whole["reference_id"], whole["nbo"], bits
        ),
    }
    return str(answers[name]())


def answer_feedback(question: str) -> str:
    """An element that is written or read."""
    kind, order = question.split("\t")
    word, *rest = order.split()
    if word == "read":
        found = feedback.meaning(kind == "small", octets_in(rest[0]))
        return "none" if found is None else f"{found[0]} {found[1]} {text(found[2])}"
    sn = number_in(rest[1]) if len(rest) > 1 else None
    return feedback.element(kind == "small", int(rest[0]), WORDS[word], sn).hex()


def static_in(words: str) -> original.Static:
    """The static part of words."""
    source, destination, *numbers = words.split()
    return original.Static(octets_in(source), octets_in(destination), *map(int, numbers))


def fields_in(words: str) -> original.Fields:
    """The fields of words."""
    *numbers, stride = words.split()
    return original.Fields(*map(int, numbers), number_in(stride))


def answer_headers(question: str) -> str:
    """The original header, its two checks, and the registers after its static octets."""
    static, fields, length = question.split("\t")
    header = original.original(static_in(static), fields_in(fields), int(length))
    if header is None:
        return "none"
    found = [original.header_check(3, header), original.header_check(7, header)]
    found += [original.register_after_static(3, header), original.register_after_static(7, header)]
    return "{}\t{:x}\t{:02x}\t{:x}\t{:02x}".format(header.hex(), *found)


def fields_text(fields: original.Fields) -> str:
    """Fields as words."""
    return " ".join(map(text, astuple(fields)))


def static_text(static: original.Static) -> str:
    """A static part as words."""
    source, destination, *numbers = astuple(static)
    return " ".join([source.hex(), destination.hex(), *map(str, numbers)])


def said_text(said: chains.Said) -> str:
    """What an IR or an IR-DYN says, as words."""
    payload = word_of(said.payload)
    if said.static and said.fields:
        return f"whole {static_text(said.static)}/{fields_text(said.fields)}/{payload}"
    if said.static:
        return f"static {static_text(said.static)}"
    return f"dyn {fields_text(said.fields)}/{payload}" if said.fields else f"plain {payload}"


def answer_chains(question: str) -> str:
    """What an IR or an IR-DYN says."""
    kind, octets, order = question.split("\t")
    is_small = kind == "small"
    header = framing.read_header(octets_in(octets), is_small, 15 if is_small else 16_383)
    words = order.split()
    try:
        if words[0] == "read_ir":
            return said_text(chains.read_ir(header))
        kept = chains.Kept(int(words[4]), number_in(words[6]))
        return said_text(chains.read_ir_dyn(header, int(words[2]), kept))
    except Refused as refusal:
        return refusal.name


def bits_text(bits: Bits) -> str:
    """Bits as their count and their number."""
    return f"{len(bits)}:{number_of(bits)}" if bits else "-"


def answer_forms(question: str) -> str:
    """What a packet of kind Other says."""
    octets, words = question.split("\t")
    rnd, has_checksum, has_stride = map(int, words.split())
    try:
        said = forms.read(octets_in(octets), rnd, has_checksum, 1 if has_stride else None)
    except Refused as refusal:
        return refusal.name
    identification = f"offset {bits_text(said.offset)}" if said.offset else "same"
    if said.whole is not None:
        identification = f"whole {said.whole}"
    given = "-" if said.given is None else " ".join(map(text, astuple(said.given)))
    parts = [said.form, bits_text(said.sn), bits_text(said.ts), text(said.tsc), identification]
    parts += [text(said.udp_checksum), str(said.marker), given, str(said.check), word_of(said.payload)]
    return "|".join(parts)


ANSWERS = {
    "checks": answer_checks,
    "values": answer_values,
    "framing": answer_framing,
    "fields": answer_fields,
    "feedback": answer_feedback,
    "headers": answer_headers,
    "chains": answer_chains,
    "forms": answer_forms,
}


def answers(lines: Iterable[str]) -> Iterator[str]:
    """The answer of each line. A line with # and a table's name begins the questions of that table."""
    table = ""
    for line in lines:
        if line.startswith("# "):
            table = line[2:]
            yield line
        else:
            yield ANSWERS[table](line)
