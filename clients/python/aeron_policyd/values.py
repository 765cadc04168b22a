"""What calls take and give."""

from __future__ import annotations

import array
import math
from collections.abc import Iterable, Sequence
from typing import Any, NamedTuple, Optional, Union, cast

from aeron_policyd import records
from aeron_policyd.codes import Code
from aeron_policyd.errors import Refused, refusal

#: What may be a message: whatever has its bytes in one piece; it is counted in bytes.
Buffer = Union[bytes, bytearray, memoryview, "array.array[Any]"]


class Image(NamedTuple):
    """A source that a subscription reads: the log of a publication, or of a remote one."""

    source: int
    subscription: int
    session: int
    stream: int
    position: int  # from which on it is read
    origin: str  # ``aeron:ipc``, ``aeron:spy``, or the address from which it is received


class Message(NamedTuple):
    """A message that was read."""

    data: bytes
    position: int  # of its source, after the message
    source: int


class Gap(NamedTuple):
    """Something was lost between the message before and the one that follows. A message that had begun is left out."""

    source: Optional[int]  # `None` where it may be any that the subscription reads
    position: Optional[int]  # of the source, from which on it goes on; `None` where that is not known
    why: str


#: What a subscription gives.
Event = Union[Message, Gap]


class Offered(NamedTuple):
    """What came of several offers: so many of them, from the first on, are in the log."""

    taken: int
    position: Optional[int]  # after the last one that was taken; `None` where none was
    refusal: Optional[Refused]  # of the first one that was not taken; `None` where all were


class PublicationPositions(NamedTuple):
    """How far a publication has come. Each position is in bytes of its stream."""

    position: int  # after its last frame
    limit: int  # from which on no offer is taken
    sent: int  # up to which frames were sent in datagrams
    consumed: Optional[int]  # up to which every receiver that is heard has taken the stream; `None` where none is
    connected: bool  # whether anybody takes what is offered


class ImagePositions(NamedTuple):
    """How far a subscription has come with a source. Each position is in bytes of its stream."""

    joined: int  # where the stream is joined: what was before it is not there
    position: int  # up to which the subscription has read
    received: int  # up to which the stream is there without a gap


class Row(NamedTuple):
    """A counter, a publication (type id 10001) or an image (10002) that the policy shows."""

    number: int
    type_id: int
    value: int
    label: str


# ---- arguments


def whole(what: str, number: int, bits: int) -> int:
    """A whole number of so many bits, with its sign."""
    if not isinstance(number, int):
        raise TypeError("%s: wanted a whole number, got %r" % (what, number))
    if not -(1 << (bits - 1)) <= number < 1 << (bits - 1):
        raise ValueError("%s: %d does not fit in %d bits" % (what, number, bits))
    return number


def at_least(what: str, number: int, least: int, bits: int = 32) -> int:
    """A whole number of so many bits, without a sign, that is no less."""
    if not isinstance(number, int):
        raise TypeError("%s: wanted a whole number, got %r" % (what, number))
    if not least <= number < 1 << bits:
        raise ValueError("%s: wanted %d or more, of %d bits, got %d" % (what, least, bits, number))
    return number


def words(what: str, text: str) -> str:
    """A text of ASCII characters."""
    if not isinstance(text, str):
        raise TypeError("%s: wanted a text, got %r" % (what, text))
    if not text.isascii():
        raise ValueError("%s: %r has a character that is not ASCII" % (what, text))
    return text


def seconds(wait: Optional[float]) -> float:
    """How long a call may wait; `None` is without end."""
    if wait is None:
        return math.inf
    if isinstance(wait, bool) or not isinstance(wait, (int, float)):
        raise TypeError("a wait is in seconds, or None: got %r" % (wait,))
    if not wait >= 0:
        raise ValueError("a wait is not negative: got %r" % (wait,))
    return float(wait)


def in_bytes(message: Buffer) -> Union[bytes, memoryview]:
    """A message, counted in bytes. It raises `TypeError` where it is none, and `TooLong`."""
    if isinstance(message, bytes):
        one: Union[bytes, memoryview] = message
    else:
        view = memoryview(message)
        if not view.c_contiguous:
            raise TypeError("the bytes of a message lie in one piece")
        one = view.cast("B") if view.nbytes else b""
    if len(one) > records.LONGEST_MESSAGE:
        raise refusal(Code.TOO_LONG, Code.TOO_LONG.text)
    return one


def all_in_bytes(messages: Iterable[Buffer]) -> Sequence[Union[bytes, memoryview]]:
    """Messages, each counted in bytes. It raises as `in_bytes` does."""
    given = list(messages)
    if {*map(type, given)} == {bytes}:
        # as a rule all are bytes, and short
        plain = cast("list[bytes]", given)
        if max(map(len, plain)) <= records.LONGEST_MESSAGE:
            return plain
    return [in_bytes(one) for one in given]
