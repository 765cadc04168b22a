"""What calls raise."""

from __future__ import annotations

import re
from typing import Any, Optional

from aeron_policyd.codes import Code, named


class ServiceError(Exception):
    """Whatever this package raises, but for the `OSError` of a socket that can't be opened, and `ValueError` and `TypeError` of
    arguments. It can be pickled."""


class Refused(ServiceError):
    """The driver refused a request, and the connection goes on.

    `code` is the reason as a `Code`, or its number where there is none, and `text` the reason in the driver's words.
    """

    def __init__(self, code: int, text: str) -> None:
        super().__init__(text)
        self.code = code
        self.text = text

    def __reduce__(self) -> tuple[Any, ...]:
        return type(self), (self.code, self.text)

    @property
    def may_pass(self) -> bool:
        """Whether the same request may be granted later without anything being changed."""
        return self.code in MAY_PASS


class Denied(Refused):
    """The policy denies it. The text is as ``denied by rule 3 in policy 1``.

    `rule` is the number of the rule, `None` for the policy's default; `policy` is the number of the policy.
    """

    def __init__(self, code: int, text: str) -> None:
        super().__init__(code, text)
        found = re.match(r"denied by (?:rule ([0-9]+)|default) in policy ([0-9]+)", text)
        self.rule: Optional[int] = int(found[1]) if found and found[1] else None
        self.policy: Optional[int] = int(found[2]) if found else None


class NoSubscriber(Refused):
    """Nobody reads the log."""


class BackPressure(Refused):
    """The slowest reader has too much left to read."""


class OfferAgain(Refused):
    """The rest of a term was too short for the message, and is filled."""


class Closed(Refused):
    """There is no such registration of this client, or its log is closed."""


class MaxPosition(Refused):
    """The log is full for good."""


class Skipped(Refused):
    """A message before this one was refused."""


class InvalidChannel(Refused):
    """The text is no channel, or none that serves for this."""


class Unknown(Refused):
    """There is no such subscription, publication or counter of this client."""


class Malformed(Refused):
    """The driver does not know the request."""


class TooLong(Refused):
    """The message is longer than an eighth of a term."""


class NoMemory(Refused):
    """The driver is out of memory."""


class Full(Refused):
    """The driver has no place for one more."""


class ClientGone(Refused):
    """The driver let this client go."""


class Conflict(Refused):
    """The channel contradicts the publication that it would join."""


class NoRoom(Refused):
    """The driver's memory for logs has no place for one more."""


class NoLook(Refused):
    """The driver could not look right now."""


class QueueFull(Refused):
    """Too many commands wait in the driver."""


class NotOperator(Refused):
    """Only an operator may ask for that."""


class Bound(Refused):
    """The principal's clients have as many publications, pages for their logs, subscriptions or counters as they may."""


class UsedCorrelation(Refused):
    """The command has the number of an earlier one."""


class Ended(ServiceError):
    """The connection is over, and nothing of this client is left in the driver.

    `code` is that of the driver's last record, such as 1003 where all places are taken; `None` where the driver said nothing,
    as where it was killed. `text` is the reason in words.
    """

    def __init__(self, text: str, code: Optional[int] = None) -> None:
        super().__init__(text)
        self.code = code
        self.text = text

    def __reduce__(self) -> tuple[Any, ...]:
        return type(self), (self.text, self.code)


class ProtocolError(Ended):
    """What came is not what this version of the protocol has; the connection was closed."""


class NoReply(ServiceError, TimeoutError):
    """A command was not answered in time. What it adds is taken back where it is granted all the same."""


_KINDS: dict[int, type[Refused]] = {
    Code.NO_SUBSCRIBER: NoSubscriber,
    Code.BACK_PRESSURE: BackPressure,
    Code.OFFER_AGAIN: OfferAgain,
    Code.CLOSED: Closed,
    Code.MAX_POSITION: MaxPosition,
    Code.SKIPPED: Skipped,
    Code.INVALID_CHANNEL: InvalidChannel,
    Code.UNKNOWN_SUBSCRIPTION: Unknown,
    Code.UNKNOWN_PUBLICATION: Unknown,
    Code.UNKNOWN_COUNTER: Unknown,
    Code.UNKNOWN_REQUEST: Malformed,
    Code.MALFORMED_REQUEST: Malformed,
    Code.TOO_LONG: TooLong,
    Code.DENIED: Denied,
    Code.NO_MEMORY: NoMemory,
    Code.FULL: Full,
    Code.CLIENT_GONE: ClientGone,
    Code.CONFLICT: Conflict,
    Code.NO_ROOM: NoRoom,
    Code.NO_LOOK: NoLook,
    Code.QUEUE_FULL: QueueFull,
    Code.NOT_OPERATOR: NotOperator,
    Code.BOUND_PUBLICATIONS: Bound,
    Code.BOUND_PAGES: Bound,
    Code.BOUND_SUBSCRIPTIONS: Bound,
    Code.BOUND_COUNTERS: Bound,
    Code.USED_CORRELATION: UsedCorrelation,
}

MAY_PASS = frozenset((Code.NO_SUBSCRIBER, Code.BACK_PRESSURE, Code.OFFER_AGAIN, Code.NO_LOOK, Code.QUEUE_FULL))


def refusal(code: int, text: str) -> Refused:
    """The exception for a code, with the reason in words."""
    return _KINDS.get(code, Refused)(named(code), text)
