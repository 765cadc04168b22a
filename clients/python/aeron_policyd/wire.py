"""Records over a socket."""

from __future__ import annotations

import os
import select
import socket
import struct
import time
from itertools import repeat
from typing import Callable, Optional, Union

from aeron_policyd import records
from aeron_policyd.codes import named
from aeron_policyd.errors import Ended, ProtocolError
from aeron_policyd.values import Event, Message

_CHUNK = 1 << 18

# How many fragments of one length are taken at once: where that is tried again, and at most.
_FEW, _MANY = 16, 4096


class Wire:
    """A connection that carries records. After any failure it is closed, and each further call raises `Ended`."""

    def __init__(self, path: Union[str, "os.PathLike[str]"], timeout: Optional[float]) -> None:
        """Opens the socket. It raises the `OSError` of the system where that can't be done."""
        self._input = b""
        self._at = 0
        self._many = _FEW
        # what the system writes to, so that no call takes as much memory
        self._room = memoryview(bytearray(_CHUNK))
        self._process = os.getpid()
        self.end: Optional[Ended] = None
        self._received = 0
        #: reads the answer to what was sent ahead
        self.ahead: Optional[Callable[[], None]] = None
        #: when something was sent last
        self.spoke = time.monotonic()
        self._socket = socket.socket(socket.AF_UNIX, socket.SOCK_STREAM)
        try:
            if timeout is not None:
                self._limit(timeout + 1.0)
            self._socket.connect(os.fspath(path))
        except BaseException:
            self._socket.close()
            raise

    def _limit(self, timeout: float) -> None:
        """Has the system give up a call after so long: a request may wait in the driver for a second less."""
        # a timeout of Python's own would take a call of the system more for each
        whole, part = divmod(timeout, 1.0)
        limit = struct.pack("@ll", int(whole), int(part * 1e6))
        self._socket.setsockopt(socket.SOL_SOCKET, socket.SO_RCVTIMEO, limit)
        self._socket.setsockopt(socket.SOL_SOCKET, socket.SO_SNDTIMEO, limit)

    def fileno(self) -> int:
        """The descriptor of the socket; -1 once it is closed."""
        return self._socket.fileno()

    def close(self, end: Optional[Ended] = None) -> None:
        """Closes the socket; further calls raise that end."""
        if self.end is None:
            self.end = end or Ended("closed by this client")
            self._shut_down()
        self._socket.close()

    def _shut_down(self) -> None:
        """Wakes a thread that reads right now. A process that came by a fork leaves the connection as it is."""
        if self._process == os.getpid():
            try:
                self._socket.shutdown(socket.SHUT_RDWR)
            except OSError:
                # it is over already
                pass

    def _fail(self, end: Ended) -> Ended:
        self.close(end)
        return end

    def check(self) -> None:
        """Raises `Ended` where the connection is over, or is of another process, from which this one came by a fork."""
        if self.end is not None:
            raise type(self.end)(self.end.text, self.end.code)
        if self._process != os.getpid():
            raise Ended("the connection is of another process")

    def look(self) -> None:
        """Notices an end that came while nothing was asked: the driver sends nothing else then."""
        if self.end is None and self.ahead is None:
            asks = select.poll()
            asks.register(self._socket, select.POLLIN)
            if asks.poll(0):
                self._last_word()

    def read(self) -> int:
        """How many bytes were read so far."""
        return self._received - len(self._input) + self._at

    def settle(self) -> None:
        """Reads the answer to what was sent ahead."""
        if self.ahead is not None:
            read, self.ahead = self.ahead, None
            read()

    def send_ahead(self, data: bytes, read: Callable[[], None]) -> None:
        """Sends whole records whose answer is read before anything else is sent, by that call if by nothing before."""
        self.check()
        try:
            self._socket.sendall(data)
        except OSError:
            # whoever reads next is told
            return
        self.spoke = time.monotonic()
        self.ahead = read

    def send(self, data: Union[bytes, bytearray]) -> None:
        """Sends whole records."""
        self.settle()
        self.check()
        self.spoke = time.monotonic()
        try:
            self._socket.sendall(data)
        except BlockingIOError:
            raise self._fail(Ended("the driver takes nothing")) from None
        except OSError as error:
            # the driver may have said why before it closed its end
            raise self._fail(self.end or self._last_word() or Ended(str(error))) from None

    def _last_word(self) -> Optional[Ended]:
        """Reads up to the end; why the driver ended the connection, if it said so."""
        try:
            while True:
                self.receive()
        except Ended as end:
            return end if end.code is not None else None

    def receive(self) -> tuple[int, bytes]:
        """The next record: its kind and the bytes after that. BYE and the end of the connection raise `Ended`."""
        while True:
            have = len(self._input) - self._at
            if have >= 4:
                (size,) = records.SIZE.unpack_from(self._input, self._at)
                if not 4 <= size <= records.LONGEST:
                    raise self._fail(ProtocolError("a record of %d bytes" % size))
                if have >= 4 + size:
                    return self._take(size)
            self._fill()

    def taken(self, most: int) -> tuple[int, int]:
        """How many TAKEN, so many at most, are there one after another, and the position of the last of them."""
        count = min((len(self._input) - self._at) // 16, most)
        fields = struct.unpack_from("<%dQ" % (2 * count), self._input, self._at)
        if fields[::2].count(records.TAKEN_HEAD) != count:
            count = next(place for place in range(count) if fields[2 * place] != records.TAKEN_HEAD)
        self._at += 16 * count
        return count, fields[2 * count - 1] if count else 0

    def messages(self, wanted: int, source: int, ready: list[Event]) -> int:
        """Takes the FRAGMENTs that are there one after another, each a whole message of that source, and in its place, from the
        position `wanted` on: where the next one is to be."""
        before = -1
        while before != self._at:
            before = self._at
            wanted = self._alike(wanted, source, ready)
            wanted = self._one_by_one(wanted, source, ready)
        return wanted

    def _alike(self, wanted: int, source: int, ready: list[Event]) -> int:
        """Takes such FRAGMENTs as long as they are of one length, many at once."""
        data, start = self._input, self._at
        while len(data) - self._at >= _FEW * 20:
            (size,) = records.SIZE.unpack_from(data, self._at)
            step = size + 47 & ~31
            count = min((len(data) - self._at) // (4 + size), self._many)
            if size < 16 or count < _FEW:
                break
            stretch = memoryview(data)[self._at : self._at + count * (4 + size)]
            sizes, kinds, positions, flags, payloads = zip(*records.fragments(size - 16).iter_unpack(stretch))
            places = range(wanted + step, wanted + (count + 1) * step, step)
            if (
                sizes.count(size) + kinds.count(records.FRAGMENT) + flags.count(records.WHOLE) != 3 * count
                or positions != tuple(places)
            ):
                self._many = _FEW
                break
            ready.extend(map(tuple.__new__, repeat(Message), zip(payloads, positions, repeat(source))))
            wanted = places[-1]
            self._at += len(stretch)
            self._many = min(2 * self._many, _MANY)
        return wanted

    def _one_by_one(self, wanted: int, source: int, ready: list[Event]) -> int:
        """Takes some such FRAGMENTs of any length."""
        data, at, have = self._input, self._at, len(self._input)
        take, whole, kind_of = records.FRAGMENT_RECORD.unpack_from, records.WHOLE, records.FRAGMENT
        make, append = tuple.__new__, ready.append
        for _ in range(2 * _FEW):
            if have - at < 20:
                break
            size, kind, position, flags = take(data, at)
            end = at + 4 + size
            # the length of the payload is 16 less
            if kind != kind_of or flags != whole or end > have or wanted != position - (size + 47 & ~31):
                break
            append(make(Message, (data[at + 20 : end], position, source)))
            wanted, at = position, end
        self._at = at
        return wanted

    def _take(self, size: int) -> tuple[int, bytes]:
        start = self._at + 4
        self._at = start + size
        (kind,) = records.SIZE.unpack_from(self._input, start)
        body = self._input[start + 4 : self._at]
        if kind == records.BYE:
            if len(body) < 4:
                raise self._fail(ProtocolError("a last record without a code"))
            (code,) = records.CODE.unpack_from(body)
            raise self._fail(Ended(body[4:].decode("ascii", "replace"), named(code)))
        return kind, body

    def _fill(self) -> None:
        self.check()
        try:
            count = self._socket.recv_into(self._room)
        except BlockingIOError:
            raise self._fail(Ended("the driver does not answer")) from None
        except OSError as error:
            # another thread may have closed it
            raise self._fail(self.end or Ended(str(error))) from None
        if not count:
            raise self._fail(self.end or Ended("the driver closed the connection"))
        self._received += count
        more = bytes(self._room[:count])
        self._input = self._input[self._at :] + more if self._at < len(self._input) else more
        self._at = 0
