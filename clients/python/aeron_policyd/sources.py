"""The sources that a subscription reads, and the messages that come from them."""

from __future__ import annotations

import threading
from collections import deque
from typing import Optional

from aeron_policyd import records
from aeron_policyd.values import Event, Gap, Image, Message
from aeron_policyd.wire import Wire

# Of how many sources that went it is remembered how far they were read.
_WENT = 1024


class Source:
    """A source that a subscription reads, and the message of it that has begun."""

    def __init__(self, image: Image) -> None:
        self.image = image
        self.parts: Optional[list[bytes]] = None
        # where the next fragment begins; `None` where something was lost, and that was said
        self.next: Optional[int] = image.position
        # why its last poll was refused
        self.refusal: Optional[str] = None

    def take(self, wire: Wire, ready: list[Event]) -> None:
        """Takes the whole messages that are there, as long as each follows the last one; as a rule all are of that kind."""
        if self.parts is None and self.next is not None:
            self.next = wire.messages(self.next, self.image.source, ready)

    def take_one(self, position: int, flags: int, payload: bytes, ready: list[Event]) -> None:
        """Takes the next fragment, of any kind; the message that it ends is ready."""
        gap = self._follows(position, len(payload))
        if gap is not None:
            ready.append(gap)
        message = self._join(flags, payload)
        if message is not None:
            ready.append(Message(message, position, self.image.source))

    def _follows(self, position: int, size: int) -> Optional[Gap]:
        """What was lost before a fragment that ends there. Between messages the rest of a term may be filled."""
        begins = position - records.places(size)
        wanted, self.next = self.next, position
        if wanted is None or begins == wanted:
            return None
        if self.parts is None and begins > wanted and begins % records.LEAST_TERM == 0:
            return None
        self.parts = None
        return Gap(self.image.source, begins, "lost from %d to %d" % (wanted, begins))

    def lose(self, why: str) -> Gap:
        """Something that was not sent is lost."""
        self.parts = None
        self.next = None
        return Gap(self.image.source, None, why)

    def _join(self, flags: int, payload: bytes) -> Optional[bytes]:
        """Takes the next fragment; the message that it ends. What has no beginning is left out."""
        if flags & records.BEGIN:
            self.parts = []
        if self.parts is None:
            return None
        self.parts.append(payload)
        if not flags & records.END:
            return None
        message = b"".join(self.parts)
        self.parts = None
        return message


class Sources:
    """Those of a subscription, what came from them and was not read yet, and what its callbacks were not told yet."""

    def __init__(self) -> None:
        self.known: dict[int, Source] = {}
        self.ready: deque[Event] = deque()
        # how far those that went were read, and whether no message had begun
        self._went: dict[int, tuple[Optional[int], bool]] = {}
        #: images that came, with `None`, and that went, with why
        self.untold: deque[tuple[Image, Optional[str]]] = deque()
        # held for no longer than a copy takes, unlike the lock of the connection
        self._copying = threading.Lock()

    def follow(self, before: Sources) -> None:
        """What was not read yet, and not told, of those before is of these now."""
        before.give(list(self.ready))
        before.untold.extend(self.untold)
        self.ready, self.untold, self._copying = before.ready, before.untold, before._copying

    def give(self, events: list[Event]) -> None:
        """What came."""
        with self._copying:
            self.ready.extend(events)

    def take_all(self) -> list[Event]:
        """All that came and was not read yet."""
        with self._copying:
            events = list(self.ready)
            self.ready.clear()
            return events

    def come(self, source: Source) -> None:
        """A source came, or came again with a later position: what was between is lost."""
        number, position = source.image.source, source.image.position
        self.go(number, "it came again")
        wanted, is_whole = self._went.pop(number, (None, True))
        if wanted is not None and (wanted != position or not is_whole):
            self.give([Gap(number, position, "it was away from %d to %d" % (wanted, position))])
        self.known[number] = source
        self.untold.append((source.image, None))

    def go(self, number: int, why: str) -> None:
        """A source went, if it was there."""
        source = self.known.pop(number, None)
        if source is not None:
            self._went[number] = source.next, source.parts is None
            if len(self._went) > _WENT:
                del self._went[next(iter(self._went))]
            self.untold.append((source.image, source.refusal or why))

    def lose(self, why: str) -> None:
        """Something may be lost of any source."""
        self.give([Gap(None, None, why)])
