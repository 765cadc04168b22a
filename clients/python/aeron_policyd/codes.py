"""The codes of refusals and of ends. ``docs/codes.txt`` of the repository is the list."""

from __future__ import annotations

import enum


class Code(enum.IntEnum):
    """What `Refused.code` and `Ended.code` are compared with: ``refused.code == Code.FULL``."""

    NO_SUBSCRIBER = -1
    BACK_PRESSURE = -2
    OFFER_AGAIN = -3
    CLOSED = -4
    MAX_POSITION = -5
    SKIPPED = -6
    INVALID_CHANNEL = 1
    UNKNOWN_SUBSCRIPTION = 2
    UNKNOWN_PUBLICATION = 3
    UNKNOWN_COUNTER = 5
    UNKNOWN_REQUEST = 6
    MALFORMED_REQUEST = 7
    TOO_LONG = 8
    DENIED = 1001
    NO_MEMORY = 1002
    FULL = 1003
    CLIENT_GONE = 1004
    CONFLICT = 1005
    NO_ROOM = 1006
    NO_LOOK = 1007
    QUEUE_FULL = 1008
    NOT_OPERATOR = 1009
    STOPPED = 1010
    BOUND_PUBLICATIONS = 1011
    BOUND_PAGES = 1012
    BOUND_SUBSCRIPTIONS = 1013
    BOUND_COUNTERS = 1014
    USED_CORRELATION = 1015
    POLLS_NOTHING = 1016

    @property
    def text(self) -> str:
        """The reason in words, as the driver gives it; of a denial its verdict is the text."""
        return TEXTS[self]


TEXTS = {
    Code.NO_SUBSCRIBER: "no subscriber",
    Code.BACK_PRESSURE: "back pressure",
    Code.OFFER_AGAIN: "offer again",
    Code.CLOSED: "closed",
    Code.MAX_POSITION: "greatest position reached",
    Code.SKIPPED: "skipped after a refusal",
    Code.INVALID_CHANNEL: "invalid channel",
    Code.UNKNOWN_SUBSCRIPTION: "unknown subscription",
    Code.UNKNOWN_PUBLICATION: "unknown publication",
    Code.UNKNOWN_COUNTER: "unknown counter",
    Code.UNKNOWN_REQUEST: "unknown request",
    Code.MALFORMED_REQUEST: "malformed request",
    Code.TOO_LONG: "too long",
    Code.DENIED: "denied",
    Code.NO_MEMORY: "no memory",
    Code.FULL: "full",
    Code.CLIENT_GONE: "client gone",
    Code.CONFLICT: "conflict",
    Code.NO_ROOM: "no room",
    Code.NO_LOOK: "no look",
    Code.QUEUE_FULL: "queue full",
    Code.NOT_OPERATOR: "only for operators",
    Code.STOPPED: "stopped",
    Code.BOUND_PUBLICATIONS: "bound on publications",
    Code.BOUND_PAGES: "bound on pages",
    Code.BOUND_SUBSCRIPTIONS: "bound on subscriptions",
    Code.BOUND_COUNTERS: "bound on counters",
    Code.USED_CORRELATION: "correlation id was used",
    Code.POLLS_NOTHING: "polls nothing",
}

_NAMED = {int(code): code for code in Code}


def named(code: int) -> int:
    """The `Code` of that number, or the number where there is none."""
    return _NAMED.get(code, code)
