"""Records as bytes: a length (4 bytes, the lowest first), a kind (4), fields, and a tail."""

from __future__ import annotations

import functools
import math
import struct
from typing import Sequence

VERSION = 1

# How long a record is at most, without its length; and the message of an OFFER.
LONGEST = 16_777_280
LONGEST_MESSAGE = LONGEST - 20

# Requests.
COMMAND, OFFER, POLL, MAIL, LIST, VALUE, STOP, RELOAD, STATUS, POLL_ALL = range(1, 11)
PUBLICATION_POSITIONS, IMAGE_POSITIONS, DECISIONS = 11, 12, 13

# Answers. Those that end in IS have the name of their request in the protocol.
WELCOME, REPLY, TAKEN, REFUSED, FRAGMENT, DONE, ROW, VALUE_IS, BYE, LINE, PART, PART_REFUSED = range(0x101, 0x10D)
PUBLICATION_IS, IMAGE_IS = 0x10D, 0x10E

# How many sources one POLL_ALL names at most.
PAIRS = 64

# Flags of the first and of the last fragment of a message.
BEGIN, END = 0x80, 0x40
WHOLE = BEGIN | END

# Every term is as long as that, or a multiple of it: where a stretch that is filled ends.
LEAST_TERM = 65_536

# Flags of the positions of a publication: whether anybody takes what is offered, and whether a receiver is heard.
CONNECTED, HEARD = 1, 2

_HEAD = struct.Struct("<II")
_OFFER = struct.Struct("<IIIIQ")
_POLL_ALL = struct.Struct("<IIII")
_PAIR = struct.Struct("<QQ")
_MAIL = struct.Struct("<III")
_VALUE = struct.Struct("<IIQ")
_IMAGE = struct.Struct("<IIQQ")
_DECISIONS = struct.Struct("<IIQI")

SIZE = struct.Struct("<I")
WELCOME_FIELDS = struct.Struct("<IIQQ")
POSITION = struct.Struct("<Q")
CODE = struct.Struct("<i")
PLACE = struct.Struct("<I")
FRAGMENT_FIELDS = struct.Struct("<QI")
FRAGMENT_RECORD = struct.Struct("<IIQI")
# The length and the kind of TAKEN, as one number.
TAKEN_HEAD = TAKEN << 32 | 12
ROW_FIELDS = struct.Struct("<Qiq")
SIGNED = struct.Struct("<q")
PUBLICATION_FIELDS = struct.Struct("<QQQQI")
IMAGE_FIELDS = struct.Struct("<QQQ")


def bare(kind: int) -> bytes:
    """A request without fields."""
    return _HEAD.pack(4, kind)


def decisions(number: int, choice: int) -> bytes:
    """DECISIONS from that number on. 1 in `choice` wants denials alone, and 2 lines as JSON."""
    return _DECISIONS.pack(16, DECISIONS, number, choice)


def command(tail: bytes) -> bytes:
    """COMMAND with the bytes of a command."""
    return _HEAD.pack(4 + len(tail), COMMAND) + tail


def offer_head(size: int, seen: int, wait: int, registration: int) -> bytes:
    """OFFER of a message of that size, which follows it."""
    return _OFFER.pack(20 + size, OFFER, seen, wait, registration)


def poll_all(limit: int, wait: int, subscription: int, sources: Sequence[int]) -> bytes:
    """POLL_ALL of these sources, 64 at most, by one subscription."""
    pairs = b"".join(_PAIR.pack(subscription, source) for source in sources)
    return _POLL_ALL.pack(12 + len(pairs), POLL_ALL, limit, wait) + pairs


def mail(wait: int) -> bytes:
    """MAIL that waits for so many milliseconds."""
    return _MAIL.pack(8, MAIL, wait)


def value(number: int) -> bytes:
    """VALUE of the counter of that number."""
    return _VALUE.pack(12, VALUE, number)


def publication_positions(registration: int) -> bytes:
    """PUBLICATION_POSITIONS of the publication of that registration."""
    return _VALUE.pack(12, PUBLICATION_POSITIONS, registration)


def image_positions(subscription: int, source: int) -> bytes:
    """IMAGE_POSITIONS of that source, by the subscription of that registration."""
    return _IMAGE.pack(20, IMAGE_POSITIONS, subscription, source)


@functools.lru_cache(maxsize=64)
def fragments(size: int) -> struct.Struct:
    """FRAGMENT with a payload of so many bytes: its length, kind, position, flags and payload."""
    return struct.Struct("<IIQI%ds" % size)


def places(size: int) -> int:
    """How many positions a fragment of so many bytes takes."""
    return (32 + size + 31) & ~31


def milliseconds(seconds: float) -> int:
    """A wait as requests have it: whole milliseconds, a second at most."""
    return 1000 if seconds >= 1.0 else math.ceil(seconds * 1000)
