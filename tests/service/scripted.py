"""A server that answers as a case says, and notes what it is asked: for what no driver can be made to do."""

import os
import random
import socket
import struct
import threading

from raw import COMMAND, DONE, FRAGMENT, MAIL, PART, PART_REFUSED, POLL_ALL, REFUSED, REPLY, TAKEN, VALUE, WELCOME, record


def welcome(client=1):
    return record(WELCOME, struct.pack("<IIQQ", 1, 2, client, 10**10))


def done(count=0):
    return record(DONE, struct.pack("<I", count))


def refused(code, words, kind=REFUSED):
    return record(kind, struct.pack("<i", code) + words.encode())


def taken(position):
    return record(TAKEN, struct.pack("<Q", position))


def mail(*replies):
    """The answer to MAIL that has these replies."""
    return b"".join(record(REPLY, struct.pack("<Q", 0) + reply) for reply in replies) + done(len(replies))


def subscribed(correlation, registration):
    return struct.pack("<IQQ", 0x0F07, correlation, registration)


def published(correlation, registration):
    return struct.pack("<IQQii", 0x0F03, correlation, registration, 7, 10)


def came(source, subscription, position=0):
    return struct.pack("<IQQiiQI", 0x0F02, source, subscription, 7, 10, position, 9) + b"aeron:ipc"


def went(source, subscription):
    return struct.pack("<IQQi", 0x0F05, source, subscription, 10)


def counted(correlation, registration):
    return struct.pack("<IQQ", 0x0F08, correlation, registration)


def fragment(position, flags, payload):
    return record(FRAGMENT, struct.pack("<QI", position, flags) + payload)


class Scripted:
    """Serves at a path, until it is closed. `answer` gets the kind and the fields of each request, and gives what is sent.

    `greeting` is sent first, a welcome if it is not given: an operator gets none. `asked` has the requests so far, and `commands`
    the type, the correlation id and the fields of each COMMAND.
    """

    def __init__(self, path, answer, greeting=None):
        self._path = path
        self._answer = answer
        self._greeting = welcome() if greeting is None else greeting
        self.asked = []
        self.commands = []
        self._listener = socket.socket(socket.AF_UNIX, socket.SOCK_STREAM)
        self._listener.bind(path)
        self._listener.listen(16)
        threading.Thread(target=self._serve, daemon=True).start()

    def __enter__(self):
        return self

    def __exit__(self, *_):
        self._listener.close()
        os.unlink(self._path)

    def _serve(self):
        while True:
            try:
                stream, _ = self._listener.accept()
            except OSError:
                return
            threading.Thread(target=self._talk, args=(stream,), daemon=True).start()

    def _talk(self, stream):
        given = b""
        try:
            stream.sendall(self._greeting)
            while True:
                while len(given) < 8 or len(given) < 4 + struct.unpack_from("<I", given)[0]:
                    more = stream.recv(1 << 16)
                    if not more:
                        return
                    given += more
                size, kind = struct.unpack_from("<II", given)
                fields, given = given[8 : 4 + size], given[4 + size :]
                if kind == COMMAND:
                    type_id, _, correlation = struct.unpack_from("<IQQ", fields)
                    self.commands.append((type_id, correlation, fields[20:]))
                self.asked.append((kind, fields))
                answer = self._answer(kind, fields)
                if answer is None:
                    return
                stream.sendall(answer)
        except OSError:
            pass
        finally:
            stream.close()


class Reader:
    """What a server answers to a client that subscribes, reads one source (number 5 of registration 9), and polls.

    Each POLL_ALL is answered by the next of `polls`, which stand between PART and DONE as they are; then by none. The MAIL after
    the n-th poll is answered by `mails[n]`: replies, or a record as it is.
    """

    def __init__(self, *polls, mails=None):
        self._polls = list(polls)
        self._mails = mails or {}
        self._polled = 0
        self._mail = []

    def __call__(self, kind, fields):
        if kind == COMMAND:
            type_id, _, correlation = struct.unpack_from("<IQQ", fields)
            if type_id == 4:
                self._mail = [subscribed(correlation, 9), came(5, 9)]
            return done()
        if kind == MAIL:
            replies, self._mail = self._mail, []
            return replies if isinstance(replies, bytes) else mail(*replies)
        if kind == POLL_ALL:
            self._mail = self._mails.get(self._polled, [])
            self._polled += 1
            return self._polls.pop(0) if self._polls else done()
        return refused(6, "unknown request")


class Late:
    """What a server answers that grants the first command once `late` is set, and all others at once."""

    def __init__(self, reply):
        self.late = threading.Event()
        self._reply = reply
        self._first = None
        self._mail = []

    def __call__(self, kind, fields):
        if kind == COMMAND:
            _, _, correlation = struct.unpack_from("<IQQ", fields)
            if self._first is None:
                self._first = correlation
            else:
                self._mail.append(struct.pack("<IQ", 0x0F04, correlation))
            return done()
        if kind == MAIL:
            replies, self._mail = self._mail, []
            if self.late.is_set():
                self.late.clear()
                replies.insert(0, self._reply(self._first, 77))
            return mail(*replies)
        return refused(6, "unknown request")


class Refusing:
    """What a server answers to a client that publishes: it refuses some offers, and skips those sent before it was heard.

    `numbers` are those that the messages taken begin with; `refusals` and `skipped` are how many were answered so.
    """

    def __init__(self, seed, one_of):
        self._chance = random.Random(seed)
        self._one_of = one_of
        self._mail = []
        self.numbers = []
        self.refusals = self.skipped = 0

    def __call__(self, kind, fields):
        if kind == COMMAND:
            type_id, _, correlation = struct.unpack_from("<IQQ", fields)
            adds = type_id in (1, 3)
            self._mail.append(published(correlation, 9) if adds else struct.pack("<IQ", 0x0F04, correlation))
            return done()
        if kind == MAIL:
            replies, self._mail = self._mail, []
            return mail(*replies)
        seen, _, _, number = struct.unpack_from("<IIQQ", fields)
        if seen != self.refusals:
            self.skipped += 1
            return refused(-6, "skipped after a refusal")
        if self._chance.randrange(self._one_of) == 0:
            self.refusals += 1
            return refused(-2, "back pressure")
        self.numbers.append(number)
        return taken(64 * len(self.numbers))


class Codes:
    """What a server answers that refuses VALUE of the number n, and the n-th OFFER, with the n-th of these codes; then it grants."""

    def __init__(self, *codes):
        self._codes = codes
        self._refused = 0
        self._mail = []

    def __call__(self, kind, fields):
        if kind == COMMAND:
            type_id, _, correlation = struct.unpack_from("<IQQ", fields)
            self._mail.append(published(correlation, 9) if type_id in (1, 3) else struct.pack("<IQ", 0x0F04, correlation))
            return done()
        if kind == MAIL:
            replies, self._mail = self._mail, []
            return mail(*replies)
        if kind == VALUE:
            (number,) = struct.unpack("<Q", fields)
            return refused(self._codes[number], "in the driver's words")
        if self._refused < len(self._codes):
            self._refused += 1
            return refused(self._codes[self._refused - 1], "in the driver's words")
        return taken(64)


PART_0 = record(PART, struct.pack("<I", 0))

# Answers to polls of one source, of which some was lost on the way.
HOLES = (
    PART_0 + fragment(64, 0x80, b"AA") + done(1),
    PART_0 + refused(1002, "no memory", PART_REFUSED) + done(1),
    PART_0 + fragment(192, 0x40, b"CC") + fragment(256, 0xC0, b"whole") + done(1),
    # a fragment is missing
    PART_0 + fragment(320, 0x80, b"AA") + fragment(448, 0x40, b"CC") + done(1),
    PART_0 + fragment(512, 0xC0, b"more") + done(1),
    # a message is missing, and then the rest of a term is filled
    PART_0 + fragment(640, 0xC0, b"later") + fragment(65_536 + 64, 0xC0, b"of the next term") + done(1),
    PART_0 + fragment(65_536 + 128, 0x80, b"AA") + done(1),
    refused(1002, "no memory"),
    PART_0 + fragment(65_536 + 256, 0x40, b"CC") + fragment(65_536 + 320, 0xC0, b"last") + done(1),
)

# Polls of one source, and the mail after them: where it comes again, what was between is lost, though a term might end there. So
# is what there was no memory for.
AGAIN = (
    PART_0 + fragment(64, 0xC0, b"one") + done(1),
    PART_0 + fragment(65_536 + 64, 0xC0, b"two") + fragment(65_536 + 128, 0x80, b"AA") + done(1),
    PART_0 + fragment(65_536 + 192, 0x40, b"CC") + fragment(65_536 + 256, 0xC0, b"three") + done(1),
    PART_0 + refused(1002, "no memory", PART_REFUSED) + done(1),
    PART_0 + fragment(131_072 + 64, 0xC0, b"four") + done(1),
)
AGAIN_MAILS = {0: [went(5, 9), came(5, 9, 65_536)], 1: [went(5, 9), came(5, 9, 65_536 + 128)]}
