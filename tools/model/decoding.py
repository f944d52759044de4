"""What a packet of kind Other means against a reference, and the tries (RFC 3095 4.5)."""

from dataclasses import dataclass, replace

import lsb
from forms import Content
from octets import Refused, refuse_if
from original import LONGEST_PAYLOAD, Fields, Static, header_check, original
from record import FullContext, Reference, StaticContext, passed

HAS_TRIES = ("Uo0", "Uo1", "Uo1Id", "Uo1Ts")


@dataclass(frozen=True)
class Decoded:
    """A header, its octets, the reference against which the packet was decoded, and whether an earlier try missed."""

    fields: Fields
    octets: bytes
    against: Reference
    is_repaired: bool = False


def in_force(fields: Fields, content: Content) -> Fields:
    """The reference's fields, with those that the packet's extension 3 gives in their place."""
    given = vars(content.given) if content.given else {}
    return replace(fields, **{name: number for name, number in given.items() if number is not None})


def timestamp(content: Content, fields: Fields, steps: int) -> int:
    """The timestamp against a reference's, with the stride in force. Bits without Tsc are scaled if there is one."""
    stride = fields.stride
    if not content.ts:
        return lsb.inferred(fields.ts, stride, steps)
    is_scaled = stride is not None if content.tsc is None else content.tsc == 1
    if is_scaled and stride is not None:
        return lsb.scaled(fields.ts, stride, content.ts)
    return lsb.unscaled(fields.ts, content.ts)


def header_of(content: Content, reference: Reference, shift: int) -> Fields:
    """The one header that a packet means against a reference whose SN is moved on by a shift."""
    fields = in_force(reference.fields, content)
    sn, steps = lsb.sequence_number(fields.sn, shift, content.sn)
    identification = content.whole
    if identification is None:
        identification = lsb.identification(
            sn, fields.sn, fields.identification, fields.nbo, content.offset or None
        )
    return replace(
        fields,
        sn=sn,
        ts=timestamp(content, fields, steps),
        identification=identification,
        udp_checksum=content.udp_checksum or 0,
        marker=content.marker,
    )


def decoded(static: Static, content: Content, reference: Reference, shift: int) -> Decoded | None:
    """The header of one try, if its check is the packet's."""
    fields = header_of(content, reference, shift)
    octets = original(static, fields, len(content.payload))
    assert octets is not None
    width = 3 if content.form in HAS_TRIES else 7
    fits = header_check(width, octets) == content.check
    return Decoded(fields, octets, reference) if fits else None


def tries(
    state: StaticContext | FullContext, content: Content, packet_ms: int, waited: int
) -> list[tuple[Reference, int]]:
    """The references against which a packet is decoded, in their order, each with the shift of its SN."""
    assert state.reference is not None
    found = [(state.reference, 0)]
    if isinstance(state, FullContext) and content.form in HAS_TRIES:
        shift = 2 ** len(content.sn)
        if waited >= packet_ms * shift:
            found.append((state.reference, shift))
        if state.previous is not None:
            found.append((state.previous, 0))
    return found


def verdict(
    state: StaticContext | FullContext, content: Content, packet_ms: int, now: int, last: int
) -> Decoded:
    """The header of the first try that fits."""
    refuse_if(len(content.payload) > LONGEST_PAYLOAD, "TooLong")
    for place, (reference, shift) in enumerate(tries(state, content, packet_ms, passed(now, last))):
        found = decoded(state.static, content, reference, shift)
        if found:
            return replace(found, is_repaired=place > 0)
    raise Refused("Check")


def next_reference(content: Content, found: Decoded) -> Reference:
    """The reference after a packet. Of an extension 3 in a UO-1-ID it takes four fields alone."""
    fields = found.fields
    if content.form == "Uo1Id" and content.given:
        fields = replace(
            found.against.fields,
            sn=fields.sn,
            ts=fields.ts,
            identification=fields.identification,
            udp_checksum=fields.udp_checksum,
        )
    return Reference(replace(fields, marker=0), found.against.has_checksum)


def next_previous(found: Decoded, reference: Reference) -> Reference | None:
    """The previous reference after a packet: the one of its try, if RND, NBO and the stride stay."""
    before, after = found.against.fields, reference.fields
    stays = (before.rnd, before.nbo, before.stride) == (after.rnd, after.nbo, after.stride)
    return found.against if stays else None
