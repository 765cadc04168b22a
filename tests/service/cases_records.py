"""Bytes that are not quite records, beside a client whose answers stay as they are."""

import os
import random
import signal
import socket
import struct
import time

from harness import NOTHING_ASKED, TOP, TRIES, need, same, until
from raw import (
    BYE,
    DECISIONS,
    DONE,
    FRAGMENT,
    IMAGE_POSITIONS,
    LAST,
    LIST,
    OFFER,
    POLL,
    POLL_ALL,
    PUBLICATION_POSITIONS,
    REFUSED,
    STATUS,
    STOP,
    TAKEN,
    VALUE,
    Over,
    Peer,
    code_of,
    mail,
    offer,
    poll,
    publish,
    record,
    session,
    subscribe,
    words_of,
)

# All streams but the one of the pair that is watched.
AROUND = """version = 1
default = "deny"

[[rule]]
name = "the watched pair has stream 500"
principal = "p3"
act = "*"
channel = "aeron:ipc"
stream = [500, 500]
allow = true

[[rule]]
name = "others have stream 10"
principal = "p1"
act = ["publish", "offer", "subscribe", "image", "receive", "list"]
channel = "aeron:ipc"
stream = [10, 10]
allow = true
"""


class Watched:
    """A client that reads what it sends, and compares each answer to what it has to be."""

    def __init__(self, room):
        self.peer = Peer(room.at("p3")).enter()
        self.subscription = self.peer.registered(subscribe, 500)
        self.publication = self.peer.registered(publish, 500)
        self.source = self.peer.image()
        self.position = 0

    def look(self, what):
        message = struct.pack("<Q", self.position)
        self.position += 64
        answer = self.peer.ask(offer(self.publication, message))
        same("an offer beside " + what, [(TAKEN, struct.pack("<Q", self.position))], answer)
        wanted = [(FRAGMENT, struct.pack("<QI", self.position, 0xC0) + message), (DONE, struct.pack("<I", 1))]
        same("a poll beside " + what, wanted, self.peer.ask(poll(self.subscription, self.source)))
        same("mail beside " + what, [], self.peer.replies())

    def close(self):
        self.peer.close()


def requests_of_a_session():
    """The requests that the session has for one client, with the client id left open."""
    records = session(os.path.join(TOP, "tests", "service", "session.txt"))
    kept = {}
    for _who, sent, words, data in records:
        if sent:
            # one of each kind, and none waits
            kept.setdefault(words.split(",")[0], data.replace(b"\xe8\x03\0\0", b"\0\0\0\0"))
    return list(kept.values())


def talk(room, make):
    """Sends the bytes that `make` gives for a client id, and reads up to the end: the answers."""
    with Peer(room.at("p1")) as peer:
        # those before it may still be leaving
        peer.enter(60)
        try:
            peer.send(make(peer.client))
            peer.socket.shutdown(socket.SHUT_WR)
        except OSError:
            # the driver may have ended it before all was sent
            pass
        return peer.rest()


def with_client(data, client):
    """A record of the session, as this client sends it: a command names its own id."""
    if data[4:8] == b"\1\0\0\0":
        return data[:12] + struct.pack("<Q", client) + data[20:]
    return data


def check_answers(what, answers):
    """Answers that are records of the protocol; BYE is the last one."""
    for kind, body in answers:
        need(0x101 <= kind <= 0x10E, "after", what, "an answer of kind", kind)
        if kind in (REFUSED, BYE):
            need(len(body) > 4 and all(32 <= byte < 127 for byte in body[4:]), "after", what, "a reason", body)
    need(BYE not in [kind for kind, _ in answers[:-1]], "after", what, "something after BYE")


def check_calm(room, driver, what):
    """The driver is there, with the watched client alone."""
    need(driver.poll() is None, "the driver ended after", what)
    until("the client is gone after " + what, lambda: len(room.clients()) == 1)


def case_each_byte_of_each_record_is_changed(room):
    driver = room.serve(policy=AROUND, doors=("p1", "p3"))
    watched = Watched(room)
    requests = requests_of_a_session()
    need(len(requests) >= 8, "there are", len(requests), "requests")
    changes = 0
    for number, data in enumerate(requests):
        for place in range(len(data)):
            what = "byte %d of request %d" % (place, number)

            def make(client, number=number, place=place):
                sent = [bytearray(with_client(each, client)) for each in requests]
                sent[number][place] ^= (0xFF, 0x01, 0x80)[changes % 3]
                return b"".join(sent)

            check_answers(what, talk(room, make))
            changes += 1
            if changes % 5 == 0:
                watched.look(what)
    need(changes > 200, changes, "changes")
    check_calm(room, driver, "all changes")
    watched.close()


def case_each_record_is_cut_short(room):
    driver = room.serve(policy=AROUND, doors=("p1", "p3"))
    watched = Watched(room)
    cuts = 0
    for number, data in enumerate(requests_of_a_session()):
        for size in range(len(data)):
            what = "request %d cut to %d bytes" % (number, size)
            # cut off at the end of the stream: no record, so no answer
            same("answers to " + what, [], talk(room, lambda client: with_client(data, client)[:size]))
            if size >= 8:
                # and with a length that fits: a record of fewer fields, after which the next one is answered
                def shorter(client, size=size):
                    return struct.pack("<I", size - 4) + with_client(data, client)[4:size] + mail()

                answers = talk(room, shorter)
                check_answers(what, answers)
                need(answers and answers[-1][0] == DONE, "after", what, "the next request is answered by", answers[-1:])
            cuts += 1
            if cuts % 5 == 0:
                watched.look(what)
    need(cuts > 200, cuts, "cuts")
    check_calm(room, driver, "all cuts")
    watched.close()


def case_each_record_is_repeated(room):
    driver = room.serve(policy=AROUND, doors=("p1", "p3"))
    watched = Watched(room)
    requests = requests_of_a_session()
    for number in range(len(requests)):

        def make(client, number=number):
            sent = [with_client(data, client) for data in requests]
            return b"".join(sent[:number] + [sent[number]] * 50 + sent[number + 1 :])

        answers = talk(room, make)
        check_answers("request %d fifty times" % number, answers)
        same("how many answers end a request", len(requests) + 49, sum(kind in LAST for kind, _ in answers))
        watched.look("request %d fifty times" % number)
    check_calm(room, driver, "all repetitions")
    watched.close()


def case_what_is_no_request_is_refused_by_its_fault(room):
    room.serve()
    with Peer(room.at("p1")) as peer:
        peer.enter()

        def refused(what, request, code, words):
            ((kind, body),) = peer.ask(request)
            same(what, (REFUSED, code, words), (kind, code_of(body), words_of(body)))

        for kind in (0, 14, 99, 0x101, 0x104, 0x109, 0x7FFFFFFF, 0xFFFFFFFF):
            refused("kind %d" % kind, record(kind, b"fields of any length"), 6, "unknown request")
        malformed = [struct.pack("<I", size) + b"\2\0\0"[:size] for size in range(4)]
        malformed += [record(OFFER, b"\0" * size) for size in (0, 4, 15)]
        malformed += [record(POLL, b"\0" * size) for size in (0, 23, 25)]
        malformed += [record(4, b"\0" * size) for size in (0, 3, 5)]
        malformed += [record(POLL_ALL, b"\0" * size) for size in (0, 7, 9, 23, 25, 8 + 65 * 16)]
        malformed += [record(LIST, b"\0"), record(VALUE, b"\0" * 7), record(VALUE, b"\0" * 9)]
        malformed += [record(STOP, b"\0"), record(STATUS, b"\0")]
        malformed += [record(PUBLICATION_POSITIONS, b"\0" * size) for size in (0, 7, 9)]
        malformed += [record(IMAGE_POSITIONS, b"\0" * size) for size in (0, 15, 17)]
        malformed += [record(DECISIONS, b"\0" * size) for size in (0, 11, 13)]
        for request in malformed:
            refused("the record %s" % request.hex(), request, 7, "malformed request")
        for kind, fields in ((7, b""), (8, b""), (9, b""), (DECISIONS, b"\0" * 12)):
            refused("kind %d" % kind, record(kind, fields), 1009, "only for operators")
        # neither of these counts as a refused offer
        refused("an offer", offer(1), -4, "closed")
        refused("an offer sent too soon", offer(1), -6, "skipped after a refusal")
        refused("an offer that has seen it", offer(1, seen=1), -4, "closed")
        same("the driver goes on", DONE, peer.ask(mail())[-1][0])


def case_a_record_is_too_long(room):
    driver = room.serve()
    longest = 16_777_280
    for size in (longest + 1, 0x7FFFFFFF, 0xFFFFFFFF):
        answers = talk(room, lambda client: struct.pack("<II", size, OFFER))
        same("a length of %d" % size, [(BYE, 8, "too long")], [(kind, code_of(body), words_of(body)) for kind, body in answers])
    # the longest is a record
    with Peer(room.at("p1")) as peer:
        peer.enter()
        ((kind, body),) = peer.ask(offer(1, b"x" * (longest - 20)))
        same("the longest record", (REFUSED, -4), (kind, code_of(body)))
        same("the driver goes on", DONE, peer.ask(mail())[-1][0])
    need(driver.poll() is None, "the driver ended")


def asked_in_pieces(room, request):
    """What answers an operator who sends a request a byte at a time."""
    with Peer(room.at("operator")) as operator:
        try:
            for byte in request:
                operator.send(bytes((byte,)))
                time.sleep(0.001)
        except OSError:
            # the driver may have ended it before all was sent
            pass
        return [(kind, code_of(body), words_of(body)) for kind, body in operator.rest()]


def case_records_come_in_pieces(room):
    """A byte at a time, and many records at once."""
    room.serve()
    with Peer(room.at("p1")) as peer:
        peer.enter()
        for byte in mail() + record(LIST):
            peer.send(bytes((byte,)))
        same("a byte at a time", [DONE, DONE], [peer.answer()[-1][0] for _ in range(2)])
        peer.send((mail() + record(LIST)) * 2000)
        for _ in range(4000):
            same("many at once", [DONE], [kind for kind, _ in peer.answer()])
    # STATUS has a line for each client that is there, and the one above may still be leaving
    until("no client", lambda: room.clients() == [])
    for _ in range(TRIES):
        answers = asked_in_pieces(room, record(STATUS))
        # an operator who is held up for 200 ms before a byte is told that it asks for nothing
        if answers != [(BYE, *NOTHING_ASKED)]:
            break
    same("an operator's request in pieces", [(DONE, 0, "")], answers)


def case_a_driver_that_was_stopped_goes_on(room):
    """A driver that is stopped and continued while it reads an operator's request answers it."""
    driver = room.serve()
    for _ in range(TRIES):
        with Peer(room.at("operator")) as operator:
            # it reads by now
            time.sleep(0.02)
            os.kill(driver.pid, signal.SIGSTOP)
            os.kill(driver.pid, signal.SIGCONT)
            try:
                operator.send(record(STATUS))
            except OSError:
                # it gave up already
                pass
            answers = [(kind, code_of(body), words_of(body)) for kind, body in operator.rest()]
        # one that is held up for 200 ms is told that it asks for nothing
        if answers != [(BYE, *NOTHING_ASKED)]:
            break
    same("an operator's request", [(DONE, 0, "")], answers)


def case_forged_bytes(room):
    """Random bytes, random lengths, and commands that name other clients, beside a client that goes on."""
    driver = room.serve(policy=AROUND, doors=("p1", "p3"))
    watched = Watched(room)
    chance = random.Random(7)
    requests = requests_of_a_session()

    def forged(client):
        data = bytearray(b"".join(with_client(chance.choice(requests), chance.choice((client, 1, 0))) for _ in range(8)))
        for _ in range(chance.choice((1, 4, 40))):
            data[chance.randrange(len(data))] = chance.randrange(256)
        return bytes(data) if chance.random() < 0.8 else chance.randbytes(chance.randrange(300))

    for number in range(400):
        check_answers("forged bytes", talk(room, forged))
        if number % 10 == 0:
            watched.look("forged bytes")
    check_calm(room, driver, "forged bytes")
    for number in range(50):
        with Peer(room.at("operator")) as operator:
            data = chance.randbytes(chance.randrange(1, 80))
            if data[:4] != b"\4\0\0\0":
                try:
                    operator.send(data)
                    operator.socket.shutdown(socket.SHUT_WR)
                    check_answers("forged bytes of an operator", operator.rest())
                except (OSError, Over):
                    pass
    watched.look("forged bytes of an operator")
    check_calm(room, driver, "forged bytes of an operator")
    watched.close()
