"""What is kept of a context."""

from dataclasses import dataclass

from original import Fields, Static

# The outcomes of arrivals, the newest first: 1 is a failure.
Window = tuple[int, ...]
SUCCESS, FAILURE = 0, 1


@dataclass(frozen=True)
class Reference:
    """The fields of the last accepted header without its marker, and whether packets carry a UDP checksum."""

    fields: Fields
    has_checksum: bool


@dataclass(frozen=True)
class Plain:
    """Profile 0x0000."""


@dataclass(frozen=True)
class NoContext:
    """No Context, with the arrival time of the last STATIC-NACK."""

    last_nack: int


@dataclass(frozen=True)
class StaticContext:
    """Static Context: the window of (k1, n1) and that of (k2, n2)."""

    static: Static
    reference: Reference | None
    first: Window = ()
    second: Window = ()


@dataclass(frozen=True)
class FullContext:
    """Full Context."""

    static: Static
    reference: Reference
    previous: Reference | None = None
    window: Window = ()


State = Plain | NoContext | StaticContext | FullContext


@dataclass(frozen=True)
class Record:
    """A context: the time of its last accepted arrival, and its state."""

    last: int
    state: State


def with_outcome(window: Window, outcome: int) -> Window:
    """A window with one more outcome. It holds the last 64."""
    return ((outcome, *window))[:64]


def is_filled(window: Window, k: int, n: int) -> bool:
    """Whether at least k of the last n outcomes are failures."""
    return window[:n].count(FAILURE) >= k


def passed(now: int, then: int) -> int:
    """How many milliseconds passed. A time that goes back counts as none."""
    return max(0, now - then)
