"""The same client for asyncio, with the same names::

    import aeron_policyd.aio

    async with aeron_policyd.aio.connect("/run/aeron_policyd/p2.sock") as driver:
        async with driver.subscription("aeron:ipc", 10) as prices:
            async for message in prices:
                print(message)

What `connect`, `Driver.publication`, `Driver.subscription` and `Driver.counter` give can be awaited, too. Calls are made by a few
threads of the connection, while the loop of events goes on. A call that is cancelled ends within a second by itself, and no
message is lost by that; what it was to add is taken back. Callbacks are called by the loop.
"""

from __future__ import annotations

import asyncio
import concurrent.futures
import os
import time
from collections.abc import AsyncIterator, Generator, Iterable
from functools import partial
from types import TracebackType
from typing import Any, Callable, Generic, Optional, TypeVar, Union

from aeron_policyd import driver as drivers, kept, operators
from aeron_policyd.driver import OnImage, OnImageGone
from aeron_policyd.errors import Ended, NoReply
from aeron_policyd.values import (
    Buffer,
    Event,
    Image,
    ImagePositions,
    Offered,
    PublicationPositions,
    Row,
    at_least,
    seconds,
)

_T = TypeVar("_T")
_Self = TypeVar("_Self", bound="_Closing")

# How many calls of one connection are under way at once at most; others wait for their turn.
_THREADS = 8

# How long a call waits at once, so that one that was cancelled ends soon. In seconds.
_STEP = 1.0


class _Calls:
    """The threads by which the calls of one connection are made."""

    def __init__(self) -> None:
        self._pool = concurrent.futures.ThreadPoolExecutor(_THREADS, "aeron_policyd")

    async def make(self, call: Callable[[], _T], undo: Optional[Callable[[_T], None]] = None) -> _T:
        """Makes a call by a thread. Where the caller is cancelled meanwhile, `undo` gets what the call gave."""
        future = self._pool.submit(call)
        try:
            return await asyncio.wrap_future(future)
        except asyncio.CancelledError:
            if undo is not None:
                future.add_done_callback(partial(_undo, undo))
            raise

    def end(self) -> None:
        """Makes no more calls."""
        self._pool.shutdown(wait=False)


def _undo(undo: Callable[[_T], None], future: concurrent.futures.Future[_T]) -> None:
    if not future.cancelled() and future.exception() is None:
        undo(future.result())


class _Closing:
    """What can be closed. Leaving it, as a context manager, does so."""

    async def close(self) -> None:
        """Closes it."""
        raise NotImplementedError

    async def __aenter__(self: _Self) -> _Self:
        return self

    async def __aexit__(
        self, kind: Optional[type[BaseException]], error: Optional[BaseException], trace: Optional[TracebackType]
    ) -> None:
        try:
            await self.close()
        except (Ended, NoReply):
            if kind is None:
                raise


_Opened = TypeVar("_Opened", bound=_Closing)


class Opening(Generic[_Opened]):
    """What is awaited, or entered as a context manager, to have what it opens."""

    def __init__(self, make: Callable[[], Any]) -> None:
        self._make = make
        self._made: Optional[_Opened] = None

    def __await__(self) -> Generator[Any, None, _Opened]:
        return self._open().__await__()

    async def _open(self) -> _Opened:
        made: _Opened = await self._make()
        self._made = made
        return made

    async def __aenter__(self) -> _Opened:
        return await self._open()

    async def __aexit__(
        self, kind: Optional[type[BaseException]], error: Optional[BaseException], trace: Optional[TracebackType]
    ) -> None:
        if self._made is not None:
            await self._made.__aexit__(kind, error, trace)


def connect(
    path: Union[str, "os.PathLike[str]"],
    *,
    timeout: Optional[float] = 30.0,
    keepalive: bool = True,
    reconnect: bool = False,
) -> Opening[Driver]:
    """Connects to a driver, as `aeron_policyd.connect` does."""

    async def make() -> Driver:
        calls = _Calls()
        call = partial(drivers.connect, path, timeout=timeout, keepalive=keepalive, reconnect=reconnect)
        try:
            return Driver(await calls.make(call, drivers.Driver.close), calls)
        except BaseException:
            calls.end()
            raise

    return Opening(make)


class Driver(_Closing):
    """A client of a driver, as `aeron_policyd.Driver` is."""

    def __init__(self, driver: drivers.Driver, calls: _Calls) -> None:
        self.sync = driver  #: the connection as other threads use it
        self._calls = calls

    def __repr__(self) -> str:
        return repr(self.sync)

    @property
    def principal(self) -> int:
        """The number of the principal for whom the client acts."""
        return self.sync.principal

    @property
    def client(self) -> int:
        """The client's id, which is never given again."""
        return self.sync.client

    @property
    def liveness(self) -> float:
        """For how many seconds the client may send nothing."""
        return self.sync.liveness

    @property
    def path(self) -> str:
        """The path of its socket."""
        return self.sync.path

    @property
    def lost(self) -> int:
        """How many replies found no room in the driver so far."""
        return self.sync.lost

    async def close(self) -> None:
        """Closes the connection. The driver takes back all that the client has. It may be called again."""
        self.sync.close()
        self._calls.end()

    def fileno(self) -> int:
        """The descriptor of the connection, -1 once it is over."""
        return self.sync.fileno()

    def publication(
        self, channel: str, stream: int, *, exclusive: bool = False, wait: Optional[float] = 10.0
    ) -> Opening[Publication]:
        """Adds a publication."""
        call = partial(self.sync.publication, channel, stream, exclusive=exclusive, wait=wait)

        async def make() -> Publication:
            return Publication(await self._calls.make(call, kept.Publication.close), self._calls)

        return Opening(make)

    def subscription(
        self,
        channel: str,
        stream: int,
        *,
        on_image: Optional[OnImage] = None,
        on_image_gone: Optional[OnImageGone] = None,
        wait: Optional[float] = 10.0,
    ) -> Opening[Subscription]:
        """Adds a subscription."""
        call = partial(
            self.sync.subscription, channel, stream, on_image=on_image, on_image_gone=on_image_gone, wait=wait
        )

        async def make() -> Subscription:
            return Subscription(await self._calls.make(call, kept.Subscription.close), self._calls)

        return Opening(make)

    def counter(
        self, type_id: int, label: str, *, key: bytes = b"", wait: Optional[float] = 10.0
    ) -> Opening[Counter]:
        """Adds a counter with the value 0."""
        call = partial(self.sync.counter, type_id, label, key=key, wait=wait)

        async def make() -> Counter:
            return Counter(await self._calls.make(call, kept.Counter.close), self._calls)

        return Opening(make)

    async def counters(self) -> list[Row]:
        """The counters, publications and images that the policy shows this principal."""
        return await self._calls.make(self.sync.counters)

    async def value(self, number: int) -> int:
        """The value of the counter, publication or image of that number."""
        return await self._calls.make(partial(self.sync.value, number))

    async def keepalive(self) -> None:
        """Tells the driver that the client is there."""
        await self._calls.make(self.sync.keepalive)

    async def take_mail(self, wait: float = 0.0) -> int:
        """Takes the replies that the driver has for this client, or waits for one, a second at most. How many there were."""
        return await self._calls.make(partial(self.sync.take_mail, wait))

    async def terminate(self, *, wait: Optional[float] = 10.0) -> None:
        """Ends the driver for all its clients, where the policy allows `terminate`."""
        await self._calls.make(partial(self.sync.terminate, wait=wait))


class Counter(_Closing):
    """A counter of this client."""

    def __init__(self, counter: kept.Counter, calls: _Calls) -> None:
        self.sync = counter
        self._calls = calls

    def __repr__(self) -> str:
        return repr(self.sync)

    @property
    def registration(self) -> int:
        """The number of the counter."""
        return self.sync.registration

    @property
    def label(self) -> str:
        """What it is called."""
        return self.sync.label

    async def set(self, value: int, *, wait: Optional[float] = 10.0) -> None:
        """Gives it a value, of 64 bits with a sign."""
        await self._calls.make(partial(self.sync.set, value, wait=wait))

    async def close(self) -> None:
        """Takes it back. It may be called again."""
        await self._calls.make(self.sync.close)


class Publication(_Closing):
    """A publication of this client."""

    def __init__(self, publication: kept.Publication, calls: _Calls) -> None:
        self.sync = publication
        self._calls = calls

    def __repr__(self) -> str:
        return repr(self.sync)

    @property
    def registration(self) -> int:
        """The number of the publication."""
        return self.sync.registration

    @property
    def channel(self) -> str:
        """Its channel."""
        return self.sync.channel

    @property
    def stream(self) -> int:
        """Its stream."""
        return self.sync.stream

    @property
    def session(self) -> int:
        """The session of its log."""
        return self.sync.session

    async def send(self, message: Buffer, timeout: Optional[float] = 10.0) -> int:
        """Sends a message, and waits for `timeout` seconds at most until it is in the log."""
        return await self.offer(message, timeout)

    async def offer(self, message: Buffer, wait: Optional[float] = 0.0) -> int:
        """Offers a message, for `wait` seconds at most. One that is cancelled may have been taken or not."""
        offered = await self.offer_all((message,), wait)
        if offered.position is None:
            assert offered.refusal is not None
            raise offered.refusal
        return offered.position

    async def offer_all(self, messages: Iterable[Buffer], wait: Optional[float] = 0.0) -> Offered:
        """Offers messages in their order, many of them sent before the first is answered."""
        left = list(messages)
        limit = seconds(wait)
        end = time.monotonic() + limit
        taken = 0
        position: Optional[int] = None
        while True:
            step = max(min(end - time.monotonic(), _STEP), 0.0)
            offered = await self._calls.make(partial(self.sync.offer_all, left[taken:], step))
            if offered.taken:
                taken += offered.taken
                position = offered.position
                end = time.monotonic() + limit
            refusal = offered.refusal
            if refusal is None or not refusal.may_pass or time.monotonic() >= end:
                return Offered(taken, position, refusal)

    async def positions(self) -> PublicationPositions:
        """How far it has come."""
        return await self._calls.make(self.sync.positions)

    async def add_destination(self, channel: str, *, wait: Optional[float] = 10.0) -> None:
        """Adds a destination to a publication with ``control-mode=manual``."""
        await self._calls.make(partial(self.sync.add_destination, channel, wait=wait))

    async def remove_destination(self, channel: str, *, wait: Optional[float] = 10.0) -> None:
        """Takes a destination back."""
        await self._calls.make(partial(self.sync.remove_destination, channel, wait=wait))

    async def close(self) -> None:
        """Takes it back. It may be called again."""
        await self._calls.make(self.sync.close)


class Subscription(_Closing):
    """A subscription of this client. Iterating it gives its messages, and waits for them without end."""

    def __init__(self, subscription: kept.Subscription, calls: _Calls) -> None:
        self.sync = subscription
        self._calls = calls

    def __repr__(self) -> str:
        return repr(self.sync)

    @property
    def registration(self) -> int:
        """The number of the subscription."""
        return self.sync.registration

    @property
    def channel(self) -> str:
        """Its channel."""
        return self.sync.channel

    @property
    def stream(self) -> int:
        """Its stream."""
        return self.sync.stream

    @property
    def images(self) -> list[Image]:
        """The sources that it reads, as far as the mail that was taken says."""
        return self.sync.images

    @property
    def on_image(self) -> Optional[OnImage]:
        """What is called with each source that comes."""
        return self.sync.on_image

    @property
    def on_image_gone(self) -> Optional[OnImageGone]:
        """What is called with each source that goes, and why."""
        return self.sync.on_image_gone

    async def _fill(self, limit: int, end: float) -> bool:
        """Waits for a second at most until something is ready: whether to end the wait."""
        # a message that comes when the caller has gone stays there for the next one
        step = min(end, time.monotonic() + _STEP)
        await self._calls.make(partial(self.sync._fill, limit, step))
        self.sync._tell()
        return bool(self.sync._own.ready) or time.monotonic() >= end

    async def poll(self, limit: int = 256, wait: Optional[float] = 0.0) -> list[Event]:
        """Messages that came, or none after `wait` seconds."""
        end = time.monotonic() + seconds(wait)
        while not await self._fill(at_least("limit", limit, 1), end):
            pass
        return self.sync._take_ready()

    def __aiter__(self) -> AsyncIterator[Event]:
        return self.messages()

    async def messages(self, timeout: Optional[float] = None, *, limit: int = 256) -> AsyncIterator[Event]:
        """Messages, one after another, until none came for `timeout` seconds; `None` waits without end."""
        ready = self.sync._own.ready
        while True:
            end = time.monotonic() + seconds(timeout)
            while not ready and not await self._fill(at_least("limit", limit, 1), end):
                pass
            if not ready:
                return
            yield ready.popleft()

    async def positions(self, source: int) -> ImagePositions:
        """How far it has come with a source."""
        return await self._calls.make(partial(self.sync.positions, source))

    async def close(self) -> None:
        """Takes it back. Messages that were not read are lost to it."""
        await self._calls.make(self.sync.close)


async def _ask(call: Callable[[], _T]) -> _T:
    """What an operator asks, by a thread of the loop."""
    return await asyncio.get_running_loop().run_in_executor(None, call)


async def stop(path: Union[str, "os.PathLike[str]"], *, timeout: float = 30.0) -> None:
    """Tells the driver to stop."""
    await _ask(partial(operators.stop, path, timeout=timeout))


async def reload(path: Union[str, "os.PathLike[str]"], *, timeout: float = 30.0) -> str:
    """Has the policy's file read again. It raises `Refused` with the fault of a policy that has one."""
    return await _ask(partial(operators.reload, path, timeout=timeout))


async def clients(path: Union[str, "os.PathLike[str]"], *, timeout: float = 30.0) -> list[str]:
    """A line for each client."""
    return await _ask(partial(operators.clients, path, timeout=timeout))


async def decisions(
    path: Union[str, "os.PathLike[str]"], start: int = 0, *, denied: bool = False, timeout: float = 30.0
) -> tuple[list[dict[str, Any]], int]:
    """What the driver decided from a number on, and from which one on to ask again."""
    return await _ask(partial(operators.decisions, path, start, denied=denied, timeout=timeout))
