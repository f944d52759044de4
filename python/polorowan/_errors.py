"""The errors of this package."""

from __future__ import annotations

MADE = {
    1: "there are no links",
    2: "there are more than 256 links",
    3: "more than eight ranges",
    4: "settings outside their limits",
    5: "the number of an earlier link",
    6: "there is no memory",
}
NOT_RESTORED = {
    7: "no saved concentrator",
    8: "an unknown version",
    9: "the octets end too soon",
    10: "a bad value of a link",
    11: "a bad value of a context",
    12: "a link or a CID out of order",
    13: "another digest",
    14: "octets behind the end",
}
NOT_RESTORED_LINK = {
    3: "the link holds a context",
    4: "the octets of another link, or of several",
    5: "saved with the other CID kind",
}


class Error(Exception):
    """Any error of this package."""


class SetupError(Error, ValueError):
    """No concentrator is made. `status` is one of enum polorowan_made; `place` is the place of the link at fault from 1, or 0."""

    def __init__(self, status: int, place: int) -> None:
        where = f" at link {place}" if place else ""
        super().__init__(f"{MADE.get(status, status)}{where}")
        self.status = status
        self.place = place


class SavedError(Error, ValueError):
    """Octets are refused. `status` is one of enum polorowan_not_restored; `place` is that of the octet at fault, from 0."""

    def __init__(self, status: int, place: int) -> None:
        super().__init__(f"{NOT_RESTORED.get(status, status)}, at octet {place}")
        self.status = status
        self.place = place


class RestoreError(Error, ValueError):
    """One link isn't restored. `status` is one of enum polorowan_restored_link."""

    def __init__(self, status: int) -> None:
        super().__init__(f"{NOT_RESTORED_LINK.get(status, status)}")
        self.status = status


class NoLink(Error, KeyError):
    """There is no such link."""


class Closed(Error, ValueError):
    """The concentrator is closed."""
