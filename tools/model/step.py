"""The lone step: one arrival at one context (RFC 3095 4.3.2, 5.3.2.2)."""

from dataclasses import dataclass, replace

import chains
import decoding
import forms
from chains import Kept
from framing import Header
from links import Setting
from octets import Refused, refuse_if
from original import Fields, Static, original
from record import (
    FAILURE,
    SUCCESS,
    FullContext,
    NoContext,
    Plain,
    Record,
    Reference,
    State,
    StaticContext,
    is_filled,
    passed,
    with_outcome,
)


@dataclass(frozen=True)
class Due:
    """Feedback that is due to the compressor: a word, with a sequence number or none."""

    word: str
    sn: int | None = None


@dataclass(frozen=True)
class Arrival:
    """A header that arrives at a context."""

    header: Header
    now: int
    setting: Setting


@dataclass(frozen=True)
class Step:
    """What an arrival leads to: the record after it, and a packet, none (stored), or the name of a refusal.

    A packet may be repaired: delivered by the second or the third try.
    """

    record: Record | None
    packet: bytes | None = None
    due: Due | None = None
    refused: str | None = None
    is_repaired: bool = False


@dataclass(frozen=True)
class Taken:
    """What an accepted packet leads to."""

    state: State
    packet: bytes | None
    due: Due | None = None
    is_repaired: bool = False


def number_of(reference: Reference | None) -> int | None:
    """The sequence number that a NACK has: that of the held reference."""
    return reference.fields.sn if reference else None


def counts(record: Record, arrival: Arrival) -> bool:
    """Whether a record still counts."""
    idle = arrival.setting.idle_ms
    return idle == 0 or passed(arrival.now, record.last) < idle


def refreshed(state: State | None, static: Static, said: Fields, payload: bytes) -> Taken:
    """Full Context after an IR with D=1 or an IR-DYN."""
    octets = original(static, said, len(payload))
    assert octets is not None
    window = with_outcome(state.window, SUCCESS) if isinstance(state, FullContext) else ()
    reference = Reference(replace(said, marker=0), said.udp_checksum != 0)
    return Taken(FullContext(static, reference, None, window), octets + payload, Due("Ack", said.sn))


def renewal(state: State | None, header: Header) -> Taken:
    """What an IR leads to."""
    said = chains.read_ir(header)
    if said.static is None:
        return Taken(Plain(), said.payload or None, Due("Plain"))
    if said.fields is not None:
        return refreshed(state, said.static, said.fields, said.payload)
    first, second = (), ()
    if isinstance(state, StaticContext):
        first, second = with_outcome(state.first, SUCCESS), with_outcome(state.second, SUCCESS)
    return Taken(StaticContext(said.static, None, first, second), None)


def refresh(state: State, header: Header) -> Taken:
    """What an IR-DYN leads to."""
    refuse_if(isinstance(state, NoContext), "StateTooLow")
    if isinstance(state, Plain):
        # This refuses it.
        chains.read_ir_dyn(header, 0, Kept())
    assert isinstance(state, (StaticContext, FullContext))
    held = state.reference
    said = chains.read_ir_dyn(header, 1, Kept(held.fields.x, held.fields.stride) if held else Kept())
    assert said.fields is not None
    return refreshed(state, state.static, said.fields, said.payload)


def update(state: State, arrival: Arrival, last: int) -> Taken:
    """What a packet of kind Other leads to."""
    header = arrival.header
    if isinstance(state, Plain):
        return Taken(state, header.content)
    is_low = isinstance(state, StaticContext) and header.first < 0xC0
    if isinstance(state, NoContext) or state.reference is None or is_low:
        raise Refused("StateTooLow")
    held = state.reference
    content = forms.read(header.content, held.fields.rnd, held.has_checksum, held.fields.stride)
    found = decoding.verdict(state, content, arrival.setting.packet_ms, arrival.now, last)
    reference = decoding.next_reference(content, found)
    packet = found.octets + content.payload
    if isinstance(state, StaticContext):
        return Taken(FullContext(state.static, reference), packet, Due("Ack", found.fields.sn))
    window = with_outcome(state.window, SUCCESS)
    previous = decoding.next_previous(found, reference)
    return Taken(FullContext(state.static, reference, previous, window), packet, is_repaired=found.is_repaired)


def taken(record: Record | None, arrival: Arrival) -> Taken:
    """What a packet leads to if it is accepted."""
    state = record.state if record else None
    if arrival.header.kind == "Ir":
        return renewal(state, arrival.header)
    if record is None:
        raise Refused("NoContext")
    if arrival.header.kind == "IrDyn":
        return refresh(record.state, arrival.header)
    return update(record.state, arrival, record.last)


def failed_in_full(state: FullContext, setting: Setting) -> tuple[State, Due | None]:
    """What a failed check in Full Context leads to."""
    window = with_outcome(state.window, FAILURE)
    if is_filled(window, setting.k1, setting.n1):
        return StaticContext(state.static, state.reference), Due("Nack", number_of(state.reference))
    return replace(state, window=window), None


def failed_in_static(state: StaticContext, arrival: Arrival, is_check: bool) -> tuple[State, Due | None]:
    """What a failed check, or a packet that isn't taken, leads to in Static Context."""
    setting = arrival.setting
    first = with_outcome(state.first, FAILURE)
    second = with_outcome(state.second, FAILURE) if is_check else state.second
    if is_check and is_filled(second, setting.k2, setting.n2):
        return NoContext(arrival.now), Due("StaticNack")
    if is_filled(first, setting.k1, setting.n1):
        return replace(state, first=(), second=second), Due("Nack", number_of(state.reference))
    return replace(state, first=first, second=second), None


def failed(state: State, arrival: Arrival, refusal: str) -> tuple[State, Due | None]:
    """What a refused packet leads to."""
    is_check, is_low = refusal == "Check", refusal == "StateTooLow"
    if isinstance(state, FullContext) and is_check:
        return failed_in_full(state, arrival.setting)
    if isinstance(state, StaticContext) and (is_check or is_low):
        return failed_in_static(state, arrival, is_check)
    if isinstance(state, NoContext) and is_low:
        if passed(arrival.now, state.last_nack) >= arrival.setting.static_nack_ms:
            return NoContext(arrival.now), Due("StaticNack")
    return state, None


def step(record: Record | None, arrival: Arrival) -> Step:
    """One arrival at one context. A record that no longer counts is answered as none is."""
    counting = record if record and counts(record, arrival) else None
    try:
        found = taken(counting, arrival)
    except Refused as refusal:
        if counting is None:
            return Step(record, refused=refusal.name)
        state, due = failed(counting.state, arrival, refusal.name)
        return Step(Record(counting.last, state), due=due, refused=refusal.name)
    return Step(Record(arrival.now, found.state), found.packet, found.due, is_repaired=found.is_repaired)
