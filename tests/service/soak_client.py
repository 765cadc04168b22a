"""A sender and a reader in Python, which connect again whenever their connection is over:

    soak_client.py send|read SOCKET CHANNEL STREAM

The sender sends messages with the numbers from 0 on until SIGTERM, and then the last one again and again until another SIGTERM. What
the driver refuses is sent again. What was under way when the connection ended is not, as it may have been taken:
`doubt FIRST NEXT` names it. The reader ends once the last one came some times. It says `run FIRST NEXT WHY` for numbers that came
one after another from one source, where WHY is `gap` if the client had said that something is lost before them, and `source` if
they are the first of their source; and `wrong` where a number comes from a source that is not the next one, though nothing was
said. `sent N` and `at N` are how far either has come. SIGUSR1 cuts the connection, whatever goes on.
"""

import itertools
import os
import signal
import socket
import struct
import sys
import time

sys.path.insert(0, os.path.join(os.path.dirname(os.path.abspath(__file__)), "..", "..", "clients", "python"))

import aeron_policyd

BATCH, SHORT, LONG, ONE_OF = 2000, 64, 3000, 100

# The number of the message that ends a reader, and how often it has to come.
LAST, LASTS = 2**64 - 1, 20

_SHORT = [bytes([rest]) * (SHORT - 8) for rest in range(251)]
_LONG = [bytes([rest]) * (LONG - 8) for rest in range(251)]


def message(number):
    return struct.pack("<Q", number) + (_SHORT if number % ONE_OF else _LONG)[number % 251]


class Soak:
    """What both have: how far they say that they are, and a connection that can be cut."""

    def __init__(self, path, channel, stream):
        self.channel = channel
        self.stream = stream
        self._next = 0.0
        self.driver = aeron_policyd.connect(path, reconnect=True, timeout=60.0)
        #: how often the program was told to end
        self.told = 0
        signal.signal(signal.SIGUSR1, self._cut)
        signal.signal(signal.SIGTERM, self._tell)

    def _tell(self, *_):
        self.told += 1

    def _cut(self, *_):
        descriptor = self.driver.fileno()
        if descriptor >= 0:
            with socket.socket(fileno=os.dup(descriptor)) as connection:
                try:
                    connection.shutdown(socket.SHUT_RDWR)
                except OSError:
                    # it is over already
                    pass

    def at(self, number):
        if time.monotonic() > self._next:
            print("at", number, flush=True)
            self._next = time.monotonic() + 0.2


def send_all(soak, publication, messages, first):
    """Sends these messages, of which the first one has that number."""
    done = 0
    while done < len(messages) and soak.told < 2:
        try:
            offered = publication.offer_all(messages[done:], wait=1.0)
        except aeron_policyd.Ended:
            if first == LAST:
                return
            print("doubt", first + done, first + len(messages), flush=True)
            return
        except aeron_policyd.Refused as refused:
            # it was not added again
            refusal = refused
        else:
            done += offered.taken
            refusal = offered.refusal
        if refusal is not None and not refusal.may_pass and not isinstance(refusal, aeron_policyd.Denied):
            raise refusal
        if refusal is not None:
            time.sleep(0.01)


def send(soak):
    publication = soak.driver.publication(soak.channel, soak.stream, wait=60.0)
    for first in itertools.count(0, BATCH):
        if soak.told:
            print("sent", first, flush=True)
            break
        send_all(soak, publication, [message(number) for number in range(first, first + BATCH)], first)
        soak.at(first)
    while soak.told < 2:
        send_all(soak, publication, [message(LAST)], LAST)
        time.sleep(0.02)


class Run:
    """Numbers that came one after another from a source."""

    def __init__(self, first, why):
        self.first = self.next = first
        self.why = why

    def say(self):
        print("run", self.first, self.next, self.why, flush=True)


class Reader:
    """Looks at what comes."""

    def __init__(self, soak):
        self.soak = soak
        self.runs = {}
        # sources of which something is lost, and whether that is so of any source, since the last message
        self.gaps_of, self.gap = set(), False
        self.read = self.gaps = self.last = 0

    def take(self, event):
        if isinstance(event, aeron_policyd.Gap):
            self.gaps += 1
            self.lose(event.source)
            return
        (number,) = struct.unpack_from("<Q", event.data)
        if event.data != message(number):
            sys.exit("wrong: a message of %d bytes" % len(event.data))
        run = self.runs.get(event.source)
        if run is None:
            why = "gap" if self.gap or event.source in self.gaps_of else "source"
            run = self.runs[event.source] = Run(number, why)
        self.gap = False
        self.gaps_of.discard(event.source)
        if number == LAST:
            self.last += 1
            return
        if number != run.next:
            sys.exit("wrong: %d comes where %d is to come" % (number, run.next))
        run.next += 1
        self.read += 1
        self.soak.at(number)

    def lose(self, source):
        """Something is lost of that source, or of any."""
        if source is None:
            self.gap = True
        else:
            self.gaps_of.add(source)
        for one in list(self.runs) if source is None else [source]:
            run = self.runs.pop(one, None)
            if run is not None:
                run.say()
                self.gaps_of.add(one)


def read(soak):
    reader = Reader(soak)
    subscription = soak.driver.subscription(soak.channel, soak.stream, wait=60.0)
    while reader.last < LASTS and not soak.told:
        try:
            for event in subscription.poll(limit=4096, wait=1.0):
                reader.take(event)
        except aeron_policyd.Denied:
            time.sleep(0.01)
    reader.lose(None)
    print("read", reader.read, "gaps", reader.gaps, flush=True)


if __name__ == "__main__":
    word, path, channel, stream = sys.argv[1:]
    soak = Soak(path, channel, int(stream))
    {"send": send, "read": read}[word](soak)
    soak.driver.close()
