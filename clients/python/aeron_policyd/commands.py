"""Commands as bytes, and replies from bytes."""

from __future__ import annotations

import struct
from typing import NamedTuple, Union

ADD_PUBLICATION, REMOVE_PUBLICATION, ADD_EXCLUSIVE_PUBLICATION = 1, 2, 3
ADD_SUBSCRIPTION, REMOVE_SUBSCRIPTION, CLIENT_KEEPALIVE = 4, 5, 6
ADD_DESTINATION, REMOVE_DESTINATION = 7, 8
ADD_COUNTER, REMOVE_COUNTER, CLIENT_CLOSE, TERMINATE_DRIVER, SET_COUNTER = 9, 10, 11, 14, 0x1001

_NO_REGISTRATION = 2**64 - 1


class Granted(NamedTuple):
    """A command was granted. The numbers are 0 where its reply has none."""

    correlation: int
    registration: int = 0
    session: int = 0
    removal: int = 0  # the type of the command that takes back what was added


class Rejected(NamedTuple):
    """A command was refused."""

    correlation: int
    code: int
    text: str


class Came(NamedTuple):
    """A subscription reads a source from now on."""

    source: int
    subscription: int
    session: int
    stream: int
    position: int
    origin: str


class Went(NamedTuple):
    """A subscription does not read a source any more."""

    source: int
    subscription: int


class Other(NamedTuple):
    """A reply that changes nothing for this package: a counter that went, or a type that it does not know."""

    type: int


class TimedOut(NamedTuple):
    """The driver let the client go."""

    client: int


Reply = Union[Granted, Rejected, Came, Went, TimedOut, Other]


def head(type_id: int, client: int, correlation: int) -> bytes:
    """What each command begins with."""
    return struct.pack("<IQQ", type_id, client, correlation)


def text(words: Union[str, bytes]) -> bytes:
    """A text or a byte string, after its length."""
    if isinstance(words, str):
        words = words.encode("ascii")
    return struct.pack("<I", len(words)) + words


def on_channel(stream: int, channel: str) -> bytes:
    """The fields of a publication."""
    return struct.pack("<i", stream) + text(channel)


def to_subscribe(stream: int, channel: str) -> bytes:
    """The fields of a subscription."""
    return struct.pack("<Q", _NO_REGISTRATION) + on_channel(stream, channel)


def number(registration: int) -> bytes:
    """The field of whatever is taken back."""
    return struct.pack("<Q", registration)


def with_destination(registration: int, channel: str) -> bytes:
    """The fields of a destination."""
    return number(registration) + text(channel)


def to_count(type_id: int, key: bytes, label: str) -> bytes:
    """The fields of a counter."""
    return struct.pack("<i", type_id) + text(key) + text(label)


def to_set(registration: int, value: int) -> bytes:
    """The fields of a counter's new value."""
    return struct.pack("<Qq", registration, value)


def _text_at(reply: bytes, at: int) -> str:
    (size,) = struct.unpack_from("<I", reply, at)
    if at + 4 + size != len(reply):
        raise ValueError("a text does not end where its reply ends")
    return reply[at + 4 :].decode("ascii")


def read_reply(reply: bytes) -> Reply:
    """What a reply says. It raises `ValueError` or `struct.error` where it does not fit its type."""
    (type_id,) = struct.unpack_from("<I", reply)
    if type_id == 0x0F01:
        correlation, code = struct.unpack_from("<Qi", reply, 4)
        return Rejected(correlation, code, _text_at(reply, 16))
    if type_id == 0x0F02:
        source, subscription, session, stream, position = struct.unpack_from("<QQiiQ", reply, 4)
        return Came(source, subscription, session, stream, position, _text_at(reply, 36))
    if type_id in (0x0F03, 0x0F06):
        correlation, registration, session, _stream = struct.unpack("<QQii", reply[4:])
        return Granted(correlation, registration, session, REMOVE_PUBLICATION)
    if type_id == 0x0F04:
        return Granted(*struct.unpack("<Q", reply[4:]))
    if type_id == 0x0F05:
        source, subscription, _stream = struct.unpack("<QQi", reply[4:])
        return Went(source, subscription)
    if type_id in (0x0F07, 0x0F08):
        correlation, registration = struct.unpack("<QQ", reply[4:])
        return Granted(correlation, registration, 0, REMOVE_SUBSCRIPTION if type_id == 0x0F07 else REMOVE_COUNTER)
    if type_id == 0x0F0A:
        return TimedOut(*struct.unpack("<Q", reply[4:]))
    return Other(type_id)
