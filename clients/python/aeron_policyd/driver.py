"""A connection to a driver, and what a client can do by it."""

from __future__ import annotations

import logging
import math
import os
import struct
import threading
import time
import warnings
import weakref
from types import TracebackType
from typing import TYPE_CHECKING, Callable, Optional, Union

from aeron_policyd import commands, records
from aeron_policyd.codes import Code
from aeron_policyd.errors import Ended, NoReply, ProtocolError, Refused, refusal
from aeron_policyd.sources import Source, Sources
from aeron_policyd.values import Image, Row, at_least, seconds, whole, words
from aeron_policyd.wire import Wire

if TYPE_CHECKING:
    from aeron_policyd.kept import Counter, Kept, Publication, Subscription

log = logging.getLogger("aeron_policyd")

# How long one wait in the driver is at most where the client waits for messages and for mail: at first, and after a while in
# which neither came; and where other threads speak by the same connection. In seconds.
_GLANCE, _LONG_GLANCE, CROWDED = 0.05, 1.0, 0.02

# For how long a connection is thought to be shared after two threads met, in seconds.
_CROWDED_FOR = 5.0

# How long it is until a request that was refused for want of room is sent again, in seconds.
_PAUSE = 0.002

# How long it is until a driver that does not serve is looked for again: at first, and at most. In seconds.
_ANEW, _LONG_ANEW = 0.1, 2.0

# What ends the answer to a request, where it is not refused.
_LAST = frozenset((records.DONE, records.TAKEN, records.VALUE_IS, records.PUBLICATION_IS, records.IMAGE_IS))

# What may come before that.
_BEFORE = frozenset((records.REPLY, records.ROW))

OnImage = Callable[[Image], None]
OnImageGone = Callable[[Image, str], None]


def connect(
    path: Union[str, "os.PathLike[str]"],
    *,
    timeout: Optional[float] = 30.0,
    keepalive: bool = True,
    reconnect: bool = False,
) -> Driver:
    """Connects to a driver by a socket, and acts for the principal of that socket.

    The `OSError` of the system tells that this user may not connect (`PermissionError`) or that nobody serves there
    (`FileNotFoundError`, `ConnectionRefusedError`). `Ended` with the code 1003 tells that all places are taken.

    `timeout` is how long the driver may take for an answer, beyond the wait of a request, before the connection is given up;
    `None` is without end. With `keepalive` a thread tells the driver that the client is there while nothing else is asked. With
    `reconnect` a connection that is over is made anew by the next call, and has all publications, subscriptions and counters
    again; each subscription gives a `Gap` then.
    """
    return Driver(path, timeout, keepalive=keepalive, reconnect=reconnect)


class Turns:
    """A lock, which notes when somebody had to wait for it."""

    def __init__(self) -> None:
        self._lock = threading.RLock()
        self._crowded = -math.inf

    def __enter__(self) -> None:
        if not self._lock.acquire(blocking=False):
            self._crowded = time.monotonic()
            self._lock.acquire()

    def __exit__(self, *_: object) -> None:
        self._lock.release()

    def at_once(self) -> bool:
        """Takes the lock if it is free."""
        return self._lock.acquire(blocking=False)

    def is_crowded(self) -> bool:
        """Whether somebody had to wait a while ago."""
        return time.monotonic() - self._crowded < _CROWDED_FOR


def _keep_alive(reference: weakref.ReferenceType[Driver], stopped: threading.Event) -> None:
    """Gives signs of life until the driver is closed or forgotten."""
    pause = 0.0
    while not stopped.wait(pause):
        driver = reference()
        if driver is None:
            return
        pause = driver._sign_of_life()
        del driver


class Driver:
    """A client of a driver. Leaving it, as a context manager, closes the connection and all that the client has.

    It may be used by several threads at once, with all that was added by it: one lock lets one request after another go. A wait
    holds up the others for some hundredths of a second; a thread that sends much has a connection of its own.
    """

    principal: int  #: the number of the principal for whom the client acts
    client: int  #: the client's id, which is never given again
    liveness: float  #: for how many seconds the client may send nothing
    lost: int  #: how many replies found no room in the driver so far; see `Driver.take_mail`

    def __init__(
        self,
        path: Union[str, "os.PathLike[str]"],
        timeout: Optional[float] = 30.0,
        *,
        keepalive: bool = True,
        reconnect: bool = False,
    ) -> None:
        self._is_closed = True
        if timeout is not None:
            seconds(timeout)
        self.path = os.fspath(path)
        self._timeout = timeout
        self._reconnect = reconnect
        self._lock = Turns()
        self._kept: dict[int, Kept] = {}
        self._begin()
        self._is_closed = False
        self._stopped = threading.Event()
        if keepalive:
            words_of = (weakref.ref(self), self._stopped)
            threading.Thread(target=_keep_alive, args=words_of, name="aeron_policyd keepalive", daemon=True).start()

    def _begin(self) -> None:
        """Connects, as a new client."""
        wire = Wire(self.path, self._timeout)
        try:
            kind, body = wire.receive()
            if kind != records.WELCOME or len(body) != records.WELCOME_FIELDS.size:
                raise ProtocolError("no driver that serves")
            version, self.principal, self.client, liveness = records.WELCOME_FIELDS.unpack(body)
            if version != records.VERSION:
                raise ProtocolError("the driver speaks version %d" % version)
        except BaseException:
            wire.close()
            raise
        self._wire = wire
        self.liveness = liveness / 1e9
        self.lost = 0
        self._correlation = 0
        self._refusals = 0
        self._glance = _GLANCE
        self._answers: dict[int, Union[commands.Granted, commands.Rejected, None]] = {}
        self._sources: dict[int, Sources] = {}
        # what was granted after its call had given up waiting
        self._unclaimed: list[commands.Granted] = []
        log.debug("client %d of principal %d at %s", self.client, self.principal, self.path)

    def __repr__(self) -> str:
        state = "closed" if self._is_closed else "open" if self._wire.end is None else "over: %s" % self._wire.end
        return "<Driver %s client %d principal %d %s>" % (self.path, self.client, self.principal, state)

    def __enter__(self) -> Driver:
        return self

    def __exit__(
        self, kind: Optional[type[BaseException]], error: Optional[BaseException], trace: Optional[TracebackType]
    ) -> None:
        self.close()

    def __del__(self) -> None:
        if not self._is_closed:
            warnings.warn("unclosed %r" % self, ResourceWarning, stacklevel=2, source=self)
            self.close()

    def close(self) -> None:
        """Closes the connection. The driver takes back all that the client has. It may be called again."""
        self._is_closed = True
        self._stopped.set()
        self._wire.close()

    def fileno(self) -> int:
        """The descriptor of the connection, -1 once it is over.

        The driver sends nothing unasked but its last record. Where many messages come, more may have been asked for already.
        """
        return self._wire.fileno()

    # ---- the life of a connection

    def _sign_of_life(self) -> float:
        """Gives one where it is time for it. How long it is until the next one, in seconds."""
        pause = self.liveness / 5
        if not self._lock.at_once():
            # somebody speaks right now
            return pause
        try:
            due = self._wire.spoke + pause - time.monotonic()
            if self._wire.end is not None or due > 0:
                return max(due, pause / 5)
            self.take_mail()
        except (Refused, Ended) as error:
            log.info("no sign of life of client %d: %s", self.client, error)
        finally:
            self._lock.__exit__()
        return pause

    def _revive(self, deadline: float) -> None:
        """Where the connection is over, and it shall be made anew, tries to up to that moment; else it raises `Ended`."""
        pause = _ANEW
        while True:
            with self._lock:
                if self._reconnect:
                    self._wire.look()
                if self._wire.end is None:
                    return
                if self._is_closed or not self._reconnect:
                    self._wire.check()
                failed = self._try_anew(self._wire.end)
            if failed is None:
                return
            if time.monotonic() + pause > deadline:
                raise Ended("not connected: %s" % failed) from failed
            time.sleep(pause)
            pause = min(2 * pause, _LONG_ANEW)

    def _try_anew(self, end: Ended) -> Optional[Exception]:
        """Connects, and adds again all that there was. What went wrong."""
        try:
            self._begin()
            if self._is_closed:
                # by another thread meanwhile
                self._wire.close()
                self._wire.check()
            for kept in list(self._kept.values()):
                kept._renew(end)
            log.info("client %d of principal %d connected anew: %s", self.client, self.principal, end)
            return None
        except (OSError, Ended) as error:
            return error

    # ---- requests

    def _ask(self, request: bytes) -> list[tuple[int, bytes]]:
        """Sends a request, and gives the records that answer it."""
        with self._lock:
            try:
                self._wire.send(request)
                return self._answer()
            except Refused:
                raise
            except BaseException:
                # half of an answer may be left, so no further one can be read
                self._wire.close()
                raise

    def _answer(self) -> list[tuple[int, bytes]]:
        """The records that answer one request, up to and with the one that ends it."""
        answer = []
        while True:
            kind, body = self._wire.receive()
            if kind == records.REFUSED:
                raise refused_by(body)
            answer.append((kind, body))
            if kind in _LAST:
                return answer
            if kind not in _BEFORE:
                raise self._give_up("a record of kind %d" % kind)

    def _command(self, type_id: int, fields: bytes, wait: Optional[float]) -> commands.Granted:
        """Gives a command, and waits for its reply."""
        end = time.monotonic() + seconds(wait)
        correlation = self._hand_on(type_id, fields, end)
        try:
            answer = self._reply_to(correlation, end)
        finally:
            self._answers.pop(correlation, None)
        if answer is None:
            raise NoReply("no reply within %s s" % wait)
        if isinstance(answer, commands.Rejected):
            raise refusal(answer.code, answer.text)
        return answer

    def _hand_on(self, type_id: int, fields: bytes, end: float) -> int:
        """Gives a COMMAND, again for as long as the driver's queue is full: its correlation id."""
        while True:
            with self._lock:
                correlation = self._correlation = self._correlation + 1
                self._answers[correlation] = None
                try:
                    self._ask(records.command(commands.head(type_id, self.client, correlation) + fields))
                    return correlation
                except Refused as refused:
                    del self._answers[correlation]
                    if not refused.may_pass or time.monotonic() >= end:
                        raise
            time.sleep(_PAUSE)

    def _reply_to(self, correlation: int, end: float) -> Union[commands.Granted, commands.Rejected, None]:
        """Takes mail until the command of that id is answered: what by, or `None` where the time is over."""
        while True:
            left = max(end - time.monotonic(), 0.0)
            with self._lock:
                # another thread may have taken it
                answer = self._answers.get(correlation)
                if answer is None:
                    try:
                        self.take_mail(CROWDED if self._lock.is_crowded() and left > CROWDED else left)
                    except Refused:
                        # mail can be asked for again
                        time.sleep(_PAUSE)
                    answer = self._answers.get(correlation)
            if answer is not None or left == 0.0:
                return answer

    def take_mail(self, wait: float = 0.0) -> int:
        """Takes the replies that the driver has for this client, or waits for one, a second at most. How many there were.

        The calls of this package take mail by themselves. It is a sign of life too. Where `lost` has grown, images may have
        come or gone without the subscriptions having heard of it: each of them gives a `Gap`. Connect anew, as a driver with
        `reconnect` does by itself, or subscribe anew.
        """
        with self._lock:
            try:
                answer = self._ask(records.mail(records.milliseconds(wait)))
            except Refused as refused:
                self._mail_refused(refused)
                raise
            count = self._take_mail(answer)
            self._take_back()
            return count

    def _mail_refused(self, refused: Refused) -> None:
        """It can be asked for again, but what there was no memory for is lost."""
        if refused.code == Code.NO_MEMORY:
            self._lose("replies were lost: " + refused.text)

    def _take_mail(self, answer: list[tuple[int, bytes]]) -> int:
        for kind, body in answer[:-1]:
            if kind != records.REPLY or len(body) < 8:
                raise self._give_up("no mail")
            (lost,) = records.POSITION.unpack_from(body)
            try:
                self._note(commands.read_reply(body[8:]))
            except (struct.error, ValueError):
                raise self._give_up("a reply of another form") from None
            if lost > self.lost:
                more, self.lost = lost - self.lost, lost
                self._lose("replies were lost: %d" % more)
            # images may have come or gone: the next waits are short again
            self._glance = _GLANCE
        return len(answer) - 1

    def _lose(self, why: str) -> None:
        """Replies were lost: images may have come or gone unnoticed."""
        log.warning("client %d of principal %d: %s", self.client, self.principal, why)
        for sources in self._sources.values():
            sources.lose(why)
        if self._reconnect:
            end = Ended(why)
            self._wire.close(end)
            raise end

    def _note(self, reply: commands.Reply) -> None:
        if isinstance(reply, (commands.Granted, commands.Rejected)):
            if reply.correlation in self._answers:
                self._answers[reply.correlation] = reply
            elif isinstance(reply, commands.Granted) and reply.removal:
                self._unclaimed.append(reply)
        elif isinstance(reply, commands.Came):
            self._sources_of(reply.subscription).come(Source(Image(*reply)))
        elif isinstance(reply, commands.Went):
            self._sources_of(reply.subscription).go(reply.source, "gone")
        elif isinstance(reply, commands.TimedOut):
            end = Ended(Code.CLIENT_GONE.text, Code.CLIENT_GONE)
            self._wire.close(end)
            raise end

    def _sources_of(self, subscription: int) -> Sources:
        return self._sources.setdefault(subscription, Sources())

    def _take_back(self) -> None:
        """Takes back what was granted too late for the call that asked for it."""
        while self._unclaimed:
            granted = self._unclaimed[-1]
            self._correlation += 1
            head = commands.head(granted.removal, self.client, self._correlation)
            try:
                self._ask(records.command(head + commands.number(granted.registration)))
            except Refused as refused:
                if refused.may_pass:
                    # with the next mail
                    return
            self._sources.pop(granted.registration, None)
            self._unclaimed.pop()

    def _give_up(self, why: str) -> ProtocolError:
        end = ProtocolError(why)
        self._wire.close(end)
        return end

    def _next_glance(self) -> float:
        """How long the next wait in the driver is at most: longer each time, for as long as nothing comes."""
        if self._lock.is_crowded():
            return CROWDED
        now = self._glance
        self._glance = min(2 * now, _LONG_GLANCE)
        return now

    def _has_come(self) -> None:
        """Messages came: the next waits are short again."""
        self._glance = _GLANCE

    # ---- what a client can do

    def publication(
        self, channel: str, stream: int, *, exclusive: bool = False, wait: Optional[float] = 10.0
    ) -> Publication:
        """Adds a publication, or joins the one that is there; `exclusive` makes a log of its own.

        `wait` is for how long the driver may take. It raises `Denied` and other refusals.
        """
        from aeron_policyd.kept import Publication

        kind = commands.ADD_EXCLUSIVE_PUBLICATION if exclusive else commands.ADD_PUBLICATION
        fields = commands.on_channel(whole("stream", stream, 32), words("channel", channel))
        return Publication(self, kind, fields, channel, stream, wait)

    def subscription(
        self,
        channel: str,
        stream: int,
        *,
        on_image: Optional[OnImage] = None,
        on_image_gone: Optional[OnImageGone] = None,
        wait: Optional[float] = 10.0,
    ) -> Subscription:
        """Adds a subscription. It raises `Denied` and other refusals.

        `on_image` is called with each source that comes, and `on_image_gone` with each that goes and why, as far as the driver
        says so. It is the thread that polls which calls them, between two requests.
        """
        from aeron_policyd.kept import Subscription

        fields = commands.to_subscribe(whole("stream", stream, 32), words("channel", channel))
        return Subscription(self, fields, channel, stream, wait, on_image, on_image_gone)

    def counter(self, type_id: int, label: str, *, key: bytes = b"", wait: Optional[float] = 10.0) -> Counter:
        """Adds a counter with the value 0. It raises `Denied` and other refusals."""
        from aeron_policyd.kept import Counter

        if len(key) > 112:
            raise ValueError("key: of %d bytes, where 112 may be" % len(key))
        if len(words("label", label)) > 380:
            raise ValueError("label: of %d characters, where 380 may be" % len(label))
        return Counter(self, commands.to_count(whole("type_id", type_id, 32), key, label), label, wait)

    def counters(self) -> list[Row]:
        """The counters, publications and images that the policy shows this principal."""
        self._revive(time.monotonic())
        rows: list[Row] = []
        for kind, body in self._ask(records.bare(records.LIST))[:-1]:
            if kind != records.ROW or len(body) < records.ROW_FIELDS.size:
                raise self._give_up("no row")
            number, type_id, value = records.ROW_FIELDS.unpack_from(body)
            rows.append(Row(number, type_id, value, body[records.ROW_FIELDS.size :].decode("ascii", "replace")))
        return rows

    def value(self, number: int) -> int:
        """The value of the counter, publication or image of that number. It raises `Denied` and other refusals."""
        at_least("number", number, 0, 64)
        self._revive(time.monotonic())
        answer = self._ask(records.value(number))
        kind, body = answer[0]
        if len(answer) != 1 or kind != records.VALUE_IS or len(body) != 8:
            raise self._give_up("no value")
        return int(records.SIGNED.unpack(body)[0])

    def _positions(self, request: bytes, kind: int, fields: struct.Struct) -> tuple[int, ...]:
        """The fields of the one record of that kind that answers a request."""
        answer = self._ask(request)
        if len(answer) != 1 or answer[0][0] != kind or len(answer[0][1]) != fields.size:
            raise self._give_up("no positions")
        return fields.unpack(answer[0][1])

    def keepalive(self) -> None:
        """Tells the driver that the client is there, as every request does. A thread does it, unless it was not wanted."""
        self._revive(time.monotonic())
        self.take_mail()

    def terminate(self, *, wait: Optional[float] = 10.0) -> None:
        """Ends the driver for all its clients, where the policy allows `terminate`."""
        try:
            self._command(commands.TERMINATE_DRIVER, commands.text(b""), wait)
        except Ended:
            # the end may come before its reply does
            pass
        self.close()


def refused_by(body: bytes) -> Refused:
    """What a REFUSED or a PART_REFUSED says."""
    if len(body) < 4:
        return refusal(0, "refused")
    (code,) = records.CODE.unpack_from(body)
    return refusal(code, body[4:].decode("ascii", "replace"))
