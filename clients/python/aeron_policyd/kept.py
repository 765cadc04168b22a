"""What a client has in a driver: publications, subscriptions and counters."""

from __future__ import annotations

import time
from bisect import bisect_left
from collections import deque
from collections.abc import Iterable, Iterator, Sequence
from itertools import accumulate, chain
from types import TracebackType
from typing import Optional, TypeVar, Union

from aeron_policyd import commands, records
from aeron_policyd.codes import Code
from aeron_policyd.driver import CROWDED, Driver, OnImage, OnImageGone, log, refused_by
from aeron_policyd.errors import Ended, NoReply, Refused, refusal
from aeron_policyd.sources import Source, Sources
from aeron_policyd.values import (
    Buffer,
    Event,
    Image,
    ImagePositions,
    Offered,
    PublicationPositions,
    all_in_bytes,
    at_least,
    seconds,
    whole,
    words,
)

_Self = TypeVar("_Self", bound="Kept")

# How many offers, and how many bytes of them, are sent at once; as many more are sent while their answers come.
_AT_ONCE = 512
_BYTES_AT_ONCE = 1 << 18

# How many bytes of answers are many, so that more are asked for ahead.
_BUSY = 1 << 15


class Kept:
    """What a client has by a registration. Leaving it, as a context manager, takes it back."""

    _remove = 0

    def __init__(self, driver: Driver, kind: int, fields: bytes, wait: Optional[float]) -> None:
        self._driver = driver
        self._kind = kind
        self._fields = fields
        self._open = True
        # whether it was not added again by a connection that was made anew
        self._is_stale = True
        self.registration = 0
        driver._revive(time.monotonic() + seconds(wait))
        self._add(wait)

    def _add(self, wait: Optional[float]) -> None:
        """Has the driver add it."""
        with self._driver._lock:
            self._granted(self._driver._command(self._kind, self._fields, wait))
            self._is_stale = False
            self._driver._kept[id(self)] = self

    def _granted(self, granted: commands.Granted) -> None:
        self.registration = granted.registration

    def _renew(self, end: Ended) -> None:
        """Adds it again, by a connection that was made anew after that end. Where it is refused, the next call tries again."""
        self._is_stale = True
        try:
            self._add(10.0)
        except (Refused, NoReply) as error:
            log.warning("%r was not added again: %s", self, error)

    def _use(self, deadline: float) -> None:
        """Sees to it that it is there. It raises `Closed`, `Ended`, or why it was refused."""
        if not self._open:
            raise refusal(Code.CLOSED, Code.CLOSED.text)
        self._driver._revive(deadline)
        if self._is_stale:
            self._add(10.0)

    def __enter__(self: _Self) -> _Self:
        return self

    def __exit__(
        self, kind: Optional[type[BaseException]], error: Optional[BaseException], trace: Optional[TracebackType]
    ) -> None:
        try:
            self.close()
        except (Ended, NoReply):
            # where the connection is over, the driver has taken it back; an error of the block is of more interest
            if kind is None:
                raise

    def close(self, *, wait: Optional[float] = 10.0) -> None:
        """Takes it back. It may be called again."""
        if not self._open:
            return
        self._open = False
        driver = self._driver
        driver._kept.pop(id(self), None)
        if self._is_stale or (driver._reconnect and driver._wire.end is not None):
            # it is not there
            return
        driver._command(self._remove, commands.number(self.registration), wait)


class Counter(Kept):
    """A counter of this client."""

    _remove = commands.REMOVE_COUNTER

    def __init__(self, driver: Driver, fields: bytes, label: str, wait: Optional[float]) -> None:
        self.label = label
        self._value: Optional[int] = None
        super().__init__(driver, commands.ADD_COUNTER, fields, wait)

    def __repr__(self) -> str:
        return "<Counter %r%s>" % (self.label, "" if self._open else " closed")

    def _renew(self, end: Ended) -> None:
        super()._renew(end)
        if self._value is not None and not self._is_stale:
            self._set(self._value, 10.0)

    def _set(self, value: int, wait: Optional[float]) -> None:
        self._driver._command(commands.SET_COUNTER, commands.to_set(self.registration, value), wait)

    def set(self, value: int, *, wait: Optional[float] = 10.0) -> None:
        """Gives it a value, of 64 bits with a sign."""
        whole("value", value, 64)
        self._use(time.monotonic() + seconds(wait))
        self._set(value, wait)
        self._value = value


class Publication(Kept):
    """A publication of this client."""

    _remove = commands.REMOVE_PUBLICATION

    session: int  #: of its log

    def __init__(
        self, driver: Driver, kind: int, fields: bytes, channel: str, stream: int, wait: Optional[float]
    ) -> None:
        self.channel = channel
        self.stream = stream
        self._destinations: list[str] = []
        super().__init__(driver, kind, fields, wait)

    def __repr__(self) -> str:
        return "<Publication %s stream %d%s>" % (self.channel, self.stream, "" if self._open else " closed")

    def _granted(self, granted: commands.Granted) -> None:
        super()._granted(granted)
        self.session = granted.session

    def _renew(self, end: Ended) -> None:
        super()._renew(end)
        if self._is_stale:
            return
        for channel in self._destinations:
            self._destination(commands.ADD_DESTINATION, channel, 10.0)

    def send(self, message: Buffer, timeout: Optional[float] = 10.0) -> int:
        """Sends a message, and waits for `timeout` seconds at most until it is in the log. The position of the stream after it.

        It raises what `offer` raises; where the time is over, why the message was not taken. `None` waits without end.
        """
        return self.offer(message, timeout)

    def offer(self, message: Buffer, wait: Optional[float] = 0.0) -> int:
        """Offers a message, for `wait` seconds at most. The position of the stream after it.

        A message is all bytes of a buffer that lie in one piece, of whatever items; `TypeError` says that it is none.

        It raises `NoSubscriber` or `BackPressure` where the wait is over, `Denied`, `Closed`, `TooLong`, or another `Refused`.
        Where it raises `Ended`, the message may have been taken or not.
        """
        offered = self.offer_all((message,), wait)
        if offered.position is None:
            assert offered.refusal is not None
            raise offered.refusal
        return offered.position

    def offer_all(self, messages: Iterable[Buffer], wait: Optional[float] = 0.0) -> Offered:
        """Offers messages in their order, many of them sent before the first is answered.

        It goes on until all are taken, until one is refused for good, or until none was taken for `wait` seconds. None is
        taken after one that was not. A refusal is handed back and not raised, so that the caller knows how many were taken;
        `TypeError`, and `TooLong` where one is longer than any log takes, are raised before anything is sent.
        """
        limit = seconds(wait)
        whole_ones = all_in_bytes(messages)
        end = time.monotonic() + limit
        self._use(end)
        taken = 0
        position = None
        while taken < len(whole_ones):
            step = self._offer_some(whole_ones, taken, max(end - time.monotonic(), 0.0))
            if step.taken:
                taken += step.taken
                position = step.position
                end = time.monotonic() + limit
            if step.refusal is not None and (not step.refusal.may_pass or time.monotonic() >= end):
                return Offered(taken, position, step.refusal)
        return Offered(taken, position, None)

    def _offer_some(self, messages: Sequence[Union[bytes, memoryview]], first: int, wait: float) -> Offered:
        """Sends offers, and reads the answers of earlier ones meanwhile, until all are answered or one is not taken."""
        driver = self._driver
        taken = 0
        position: Optional[int] = None
        refused: Optional[Refused] = None
        under_way: deque[int] = deque()
        with driver._lock:
            # others have their turn between two waits
            wait = records.milliseconds(CROWDED if driver._lock.is_crowded() and wait > 0 else wait)
            try:
                while under_way or (first < len(messages) and refused is None):
                    if first < len(messages) and refused is None and len(under_way) < 2:
                        under_way.append(self._send_some(messages, first, wait))
                        first += under_way[-1]
                        continue
                    more, last, refused = self._read_some(under_way.popleft(), refused)
                    taken += more
                    position = last if more else position
            except BaseException:
                driver._wire.close()
                raise
        return Offered(taken, position, refused)

    def _send_some(self, messages: Sequence[Union[bytes, memoryview]], first: int, wait: int) -> int:
        """Sends so many offers as are sent at once: how many."""
        driver = self._driver
        some = messages[first : first + _AT_ONCE]
        sizes = list(map(len, some))
        if sum(sizes) > _BYTES_AT_ONCE:
            # the one that goes past it is sent with them
            sizes = sizes[: 1 + bisect_left(list(accumulate(sizes)), _BYTES_AT_ONCE)]
        heads = {size: records.offer_head(size, driver._refusals, wait, self.registration) for size in set(sizes)}
        driver._wire.send(b"".join(chain.from_iterable(zip(map(heads.__getitem__, sizes), some))))
        return len(sizes)

    def _read_some(self, count: int, refused: Optional[Refused]) -> tuple[int, int, Optional[Refused]]:
        """Reads the answers to so many offers: how many were taken, the position after the last, and what was refused first."""
        wire = self._driver._wire
        taken = position = 0
        while count > 0:
            if refused is None:
                more, last = wire.taken(count)
                if more:
                    taken, position, count = taken + more, last, count - more
                    continue
            kind, body = wire.receive()
            count -= 1
            if kind == records.TAKEN and len(body) == 8 and refused is None:
                taken += 1
                (position,) = records.POSITION.unpack(body)
            elif kind == records.REFUSED:
                refused = self._refused(refused_by(body), refused)
            else:
                raise self._driver._give_up("no answer to an offer")
        return taken, position, refused

    def _refused(self, answer: Refused, refused: Optional[Refused]) -> Refused:
        """Notes that an offer was refused: after the first one each other is skipped."""
        if (answer.code == Code.SKIPPED) != (refused is not None):
            raise self._driver._give_up("no answer to an offer")
        if refused is not None:
            return refused
        self._driver._refusals = (self._driver._refusals + 1) % 2**32
        return answer

    def positions(self) -> PublicationPositions:
        """How far it has come. It raises `Closed` where it is not there any more, or another `Refused`."""
        self._use(time.monotonic())
        request = records.publication_positions(self.registration)
        fields = self._driver._positions(request, records.PUBLICATION_IS, records.PUBLICATION_FIELDS)
        position, limit, sent, consumed, flags = fields
        heard, connected = bool(flags & records.HEARD), bool(flags & records.CONNECTED)
        return PublicationPositions(position, limit, sent, consumed if heard else None, connected)

    def _destination(self, kind: int, channel: str, wait: Optional[float]) -> None:
        fields = commands.with_destination(self.registration, words("channel", channel))
        self._driver._command(kind, fields, wait)

    def add_destination(self, channel: str, *, wait: Optional[float] = 10.0) -> None:
        """Adds a destination to a publication with ``control-mode=manual``."""
        self._use(time.monotonic() + seconds(wait))
        self._destination(commands.ADD_DESTINATION, channel, wait)
        self._destinations.append(channel)

    def remove_destination(self, channel: str, *, wait: Optional[float] = 10.0) -> None:
        """Takes a destination back."""
        self._use(time.monotonic() + seconds(wait))
        self._destination(commands.REMOVE_DESTINATION, channel, wait)
        if channel in self._destinations:
            self._destinations.remove(channel)


class Messages(Iterator[Event]):
    """The messages of a subscription, one after another; over once none came for a while. What it did not give stays there."""

    def __init__(self, subscription: Subscription, timeout: Optional[float], limit: int) -> None:
        self._subscription = subscription
        self._ready = subscription._own.ready
        self._timeout = timeout
        self._limit = limit

    def __next__(self) -> Event:
        try:
            return self._ready.popleft()
        except IndexError:
            event = self._subscription._next(self._limit, self._timeout)
        if event is None:
            raise StopIteration
        return event


class Subscription(Kept):
    """A subscription of this client. Iterating it gives its messages, and waits for them without end."""

    _remove = commands.REMOVE_SUBSCRIPTION

    def __init__(
        self,
        driver: Driver,
        fields: bytes,
        channel: str,
        stream: int,
        wait: Optional[float],
        on_image: Optional[OnImage],
        on_image_gone: Optional[OnImageGone],
    ) -> None:
        self.channel = channel
        self.stream = stream
        self.on_image = on_image
        self.on_image_gone = on_image_gone
        self._own = Sources()
        self._turn = 0
        # whether answers are long; and the sources of which messages were asked for ahead
        self._is_busy = False
        self._asked: list[Source] = []
        super().__init__(driver, commands.ADD_SUBSCRIPTION, fields, wait)

    def __repr__(self) -> str:
        return "<Subscription %s stream %d%s>" % (self.channel, self.stream, "" if self._open else " closed")

    def __iter__(self) -> Messages:
        return self.messages()

    def _granted(self, granted: commands.Granted) -> None:
        super()._granted(granted)
        before = self._own
        # its sources may have come with the same mail
        self._own = self._driver._sources_of(granted.registration)
        self._own.follow(before)

    def _renew(self, end: Ended) -> None:
        for number in list(self._own.known):
            self._own.go(number, end.text)
        self._own.lose("connected anew: %s" % end.text)
        super()._renew(end)

    @property
    def images(self) -> list[Image]:
        """The sources that it reads, as far as the mail that was taken says."""
        return [source.image for source in list(self._own.known.values())]

    def close(self, *, wait: Optional[float] = 10.0) -> None:
        """Takes it back. Messages that were not read are lost to it."""
        super().close(wait=wait)
        self._driver._sources.pop(self.registration, None)
        self._own.known.clear()
        self._own.ready.clear()

    def poll(self, limit: int = 256, wait: Optional[float] = 0.0) -> list[Event]:
        """Messages that came, of `limit` fragments at most from each source; or none after `wait` seconds.

        Messages of one source are in their order, and where something was lost a `Gap` stands among them. It raises `Denied`
        where the policy denies reading; the subscription keeps its place then. `None` waits without end. After a poll that gave
        much, more was asked for already with its limit.
        """
        end = time.monotonic() + seconds(wait)
        while not self._step(at_least("limit", limit, 1), end):
            pass
        return self._take_ready()

    def _step(self, limit: int, end: float) -> bool:
        """Polls, and tells of images. Whether something is ready, or the wait is over."""
        self._fill(limit, end)
        self._tell()
        return bool(self._own.ready) or time.monotonic() >= end

    def _take_ready(self) -> list[Event]:
        return self._own.take_all()

    def messages(self, timeout: Optional[float] = None, *, limit: int = 256) -> Messages:
        """Messages, one after another, until none came for `timeout` seconds; `None` waits without end.

        Each request takes `limit` fragments at most from each source. It raises as `poll` does, and may be asked for more then.
        """
        seconds(timeout)
        return Messages(self, timeout, at_least("limit", limit, 1))

    def _next(self, limit: int, timeout: Optional[float]) -> Optional[Event]:
        """The next message, or `None` where the time is over."""
        if not self._own.ready:
            end = time.monotonic() + seconds(timeout)
            while not self._step(limit, end):
                pass
        try:
            return self._own.ready.popleft()
        except IndexError:
            return None

    def _fill(self, limit: int, end: float) -> None:
        """Polls until something is ready, an image came or went, or that moment is there."""
        while True:
            left = max(end - time.monotonic(), 0.0)
            try:
                self._use(end)
                if not self._own.ready:
                    self._poll_once(limit, left)
            except Ended:
                # it connects anew with the next turn
                if not self._driver._reconnect or self._driver._is_closed:
                    raise
            if self._own.ready or left <= 0 or self._own.untold:
                return

    def _tell(self) -> None:
        """Calls the callbacks with the images that came and went."""
        while self._own.untold:
            image, why = self._own.untold.popleft()
            if why is None:
                if self.on_image is not None:
                    self.on_image(image)
            elif self.on_image_gone is not None:
                self.on_image_gone(image, why)

    def positions(self, source: int) -> ImagePositions:
        """How far it has come with a source. It raises `Closed` where it does not read that source, or another `Refused`."""
        self._use(time.monotonic())
        request = records.image_positions(self.registration, source)
        joined, position, received = self._driver._positions(request, records.IMAGE_IS, records.IMAGE_FIELDS)
        return ImagePositions(joined, position, received)

    def _poll_once(self, limit: int, wait: float) -> None:
        """Polls each source once, and takes the mail; it waits in the driver for one of the two."""
        driver = self._driver
        with driver._lock:
            if self._own.ready:
                # another thread read what was asked for ahead
                return
            sources = list(self._own.known.values())
            if not sources:
                driver.take_mail(CROWDED if driver._lock.is_crowded() and wait > 0 else wait)
                return
            # another one is the first each time, so that none is always the last
            self._turn = (self._turn + 1) % len(sources)
            sources = (sources[self._turn :] + sources[: self._turn])[: records.PAIRS]
            refusals = self._poll_all(sources, limit, records.milliseconds(min(wait, driver._next_glance())))
        for refused in refusals:
            if refused.code not in (Code.CLOSED, Code.NO_LOOK, Code.NO_MEMORY):
                raise refused
        if refusals and not self._own.ready and wait > 0:
            driver.take_mail(min(wait, 0.001))

    def _poll_all(self, sources: list[Source], limit: int, wait: int) -> list[Refused]:
        """Sends one poll for all of these and one request for mail, and reads the answers; why polls were refused.

        For as long as answers are long, the next one is made while this one is read.
        """
        driver = self._driver
        wire = driver._wire
        refusals: list[Refused] = []
        try:
            if wire.ahead == self._read_ahead:
                wire.ahead = None
                asked = self._asked
                if self._is_busy:
                    self._ask_ahead(sources, limit)
                refusals = self._read_round(asked)
                if not refusals and not self._own.ready:
                    # more may have come since that was asked
                    wire.settle()
            if not refusals and not self._own.ready:
                wire.send(self._request(sources, limit, wait))
                refusals = self._read_round(sources)
            if self._is_busy and wire.ahead is None and not driver._lock.is_crowded():
                self._ask_ahead(sources, limit)
        except BaseException:
            wire.close()
            raise
        driver._take_back()
        return refusals

    def _request(self, sources: list[Source], limit: int, wait: int) -> bytes:
        numbers = [source.image.source for source in sources]
        return records.poll_all(limit, wait, self.registration, numbers) + records.mail(0)

    def _ask_ahead(self, sources: list[Source], limit: int) -> None:
        self._asked = sources
        self._driver._wire.send_ahead(self._request(sources, limit, 0), self._read_ahead)

    def _read_ahead(self) -> None:
        """Reads the answer to what was asked for ahead, since something else is to be asked now."""
        try:
            self._read_round(self._asked)
        except BaseException:
            self._driver._wire.close()
            raise

    def _read_round(self, asked: list[Source]) -> list[Refused]:
        """Reads the answers to a poll of these sources and to a request for mail; why polls were refused."""
        driver = self._driver
        before = driver._wire.read()
        # one may have come again since that was asked
        known = self._own.known
        refusals = self._read_answer([known.get(source.image.source, source) for source in asked])
        try:
            driver._take_mail(driver._answer())
        except Refused as refused:
            driver._mail_refused(refused)
        self._is_busy = driver._wire.read() - before >= _BUSY
        if self._own.ready:
            driver._has_come()
        return refusals

    def _read_answer(self, sources: list[Source]) -> list[Refused]:
        """Reads what the sources gave, which is ready then also where the connection ends meanwhile."""
        ready: list[Event] = []
        try:
            return self._read_parts(sources, ready)
        finally:
            if ready:
                self._own.give(ready)

    def _read_parts(self, sources: list[Source], ready: list[Event]) -> list[Refused]:
        """The place of each source stands before what it gave. A source that is closed goes."""
        wire = self._driver._wire
        refusals: list[Refused] = []
        source: Optional[Source] = None
        while True:
            kind, body = wire.receive()
            if kind == records.PART and len(body) == records.PLACE.size:
                (place,) = records.PLACE.unpack(body)
                source = sources[place] if place < len(sources) else None
                if source is not None:
                    source.take(wire, ready)
            elif kind == records.DONE:
                return refusals
            elif kind == records.REFUSED:
                refused = refused_by(body)
                return [*refusals, *(self._lose(one, refused, ready) for one in sources)]
            elif source is None:
                raise self._driver._give_up("no answer to a poll")
            elif kind == records.FRAGMENT and len(body) >= records.FRAGMENT_FIELDS.size:
                position, flags = records.FRAGMENT_FIELDS.unpack_from(body)
                source.take_one(position, flags, body[records.FRAGMENT_FIELDS.size :], ready)
                source.take(wire, ready)
            elif kind == records.PART_REFUSED:
                refusals.append(self._lose(source, refused_by(body), ready))
            else:
                raise self._driver._give_up("no answer to a poll")

    def _lose(self, source: Source, refused: Refused, ready: list[Event]) -> Refused:
        """Notes that the poll of a source was refused: one that is closed is not polled again, and of one there was no memory."""
        number = source.image.source
        if refused.code == Code.NO_MEMORY:
            ready.append(source.lose(refused.text))
        elif refused.code == Code.CLOSED and self._own.known.get(number) is source:
            self._own.go(number, refused.text)
        elif not refused.may_pass:
            source.refusal = refused.text
        return refused
