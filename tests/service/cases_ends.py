"""How connections and drivers end, and clients that do not behave beside one that does."""

import os
import signal
import socket
import stat
import struct
import sys
import threading
import time

from contextlib import contextmanager

import aeron_policyd
from harness import ALLOW, HERE, PATIENT, Failed, need, said, same, soon, until
from raw import (
    BYE,
    DONE,
    FRAGMENT,
    LIST,
    REFUSED,
    REPLY,
    TAKEN,
    Over,
    Peer,
    close,
    code_of,
    command,
    mail,
    offer,
    poll,
    publish,
    record,
    subscribe,
    terminate,
    words_of,
)

# How long clients may be silent where that is waited for, in seconds: longer than a busy machine holds one up.
LIVENESS = 4.0
SHORT = ("--setting", "client-liveness=%d" % (LIVENESS * 1e9))


@contextmanager
def in_time():
    """Where clients may be silent for a short while alone, one that the machine holds up for longer is let go."""
    try:
        yield
    except Over as over:
        soon("told 1004" not in str(over), "the machine held a client up:", over)
        raise


WAITING = """
import sys
sys.path.insert(0, sys.argv[2])
from raw import Peer, poll, mail, subscribe
peer = Peer(sys.argv[1]).enter()
registration = peer.registered(subscribe)
source = peer.image()
word, count = sys.argv[3], int(sys.argv[4])
print(peer.client, flush=True)
while True:
    peer.send(poll(registration, source, wait=1000) if word == "poll" else mail(1000) * count)
    for _ in range(count):
        peer.answer()
"""


def waiting(room, request, ahead=1):
    """A process that waits in the driver, and sent so many requests ahead for mail."""
    process = room.start(sys.executable, "-c", WAITING, room.at("p2"), HERE, request, str(ahead))
    until("a process that waits", lambda: said(process.out).strip() or process.poll() is not None)
    need(process.poll() is None, said(process.err))
    time.sleep(0.1)
    return process


def case_a_client_is_killed_in_a_wait(room):
    """Its place is free within a tenth of a second. A busy machine may take longer now and then, so four of five have to be."""
    room.serve("--each", "1", *PATIENT)
    times = []
    with Peer(room.at("p1")) as one:
        one.enter()
        one.registered(publish)
        for request in ("poll", "mail", "poll", "mail", "poll"):
            process = waiting(room, request)
            same("another client of p2", [(BYE, 1003, "full")], told(room.at("p2")))
            process.send_signal(signal.SIGKILL)
            process.wait()
            begun = time.monotonic()
            until("a place for another client", lambda: told(room.at("p2")) == [])
            times.append(int((time.monotonic() - begun) * 1000))
            until("no client of p2", lambda: len(room.clients()) == 1)
    soon(sorted(times)[3] < 100 and max(times) < 700, "a place is free after so many ms:", times)
    until("no client", lambda: room.clients() == [])


def case_a_client_is_killed_with_waits_ahead(room):
    """Its place is free as soon, however many requests it sent ahead that wait."""
    room.serve("--each", "1", *PATIENT)
    times = []
    publisher = Peer(room.at("p1")).enter()
    publisher.registered(publish)
    for number in (1, 100, 600):
        process = waiting(room, "mail", number)
        process.send_signal(signal.SIGKILL)
        process.wait()
        begun = time.monotonic()
        until("a place for another client", lambda: told(room.at("p2")) == [])
        times.append(int((time.monotonic() - begun) * 1000))
        until("no client of p2", lambda: len(room.clients()) == 1)
    publisher.close()
    soon(max(times) < 300, "a place is free after so many ms:", times)


def case_a_slow_operator_keeps_nobody_out(room):
    """An operator has 200 ms in all, however it asks."""
    room.serve(*PATIENT)
    times = []
    for _ in range(3):
        with socket.socket(socket.AF_UNIX, socket.SOCK_STREAM) as operator:
            operator.connect(room.at("operator"))
            ends = threading.Event()

            def dribble():
                for byte in struct.pack("<II", 4, 9):
                    try:
                        operator.send(bytes([byte]))
                    except OSError:
                        return
                    if ends.wait(0.15):
                        return

            thread = threading.Thread(target=dribble)
            thread.start()
            time.sleep(0.05)
            begun = time.monotonic()
            with Peer(room.at("p1")) as one:
                one.enter()
                times.append(time.monotonic() - begun)
            ends.set()
            thread.join()
    soon(sorted(times)[1] < 0.4, "who comes in waits", times)


def told(path):
    """What comes in place of WELCOME."""
    with Peer(path) as peer:
        kind, body = peer.receive()
        return [(kind, code_of(body), words_of(body))] if kind == BYE else []


def case_a_driver_is_killed(room):
    """Its clients end with a word, and a new driver takes the sockets over."""
    first = room.serve()
    reader = room.start(room.program, "subscribe", "--driver", room.at("p2"), "aeron:ipc", "10")
    os.mkfifo(room.path + "/lines")
    # a reader's end is kept, so that this end can be opened
    held = os.open(room.path + "/lines", os.O_RDWR)
    writer = room.start(room.program, "publish", "--driver", room.at("p1"), "aeron:ipc", "10", stdin=held)
    os.write(held, b"one\n")
    until("a line", lambda: said(reader.out) == "one\n")
    with aeron_policyd.connect(room.at("p1")) as driver:
        subscription = driver.subscription("aeron:ipc", 10)
        ends = []

        def wait():
            try:
                while True:
                    subscription.poll(wait=1.0)
            except aeron_policyd.Ended as end:
                ends.append(end)

        thread = threading.Thread(target=wait)
        thread.start()
        time.sleep(0.2)
        first.kill()
        first.wait()
        thread.join(60)
        need(len(ends) == 1 and ends[0].code is None and str(ends[0]), "the client in Python ends with", ends)
    for process in (reader, writer):
        same("status", 1, room.ended(process))
        need(said(process.err).strip().splitlines()[-1].startswith("aeron_policyd: "), "no word in", said(process.err))
    os.close(held)
    need(os.path.exists(room.at("p1")), "the sockets of a killed driver are left behind")
    room.serve()
    with aeron_policyd.connect(room.at("p1")) as one, aeron_policyd.connect(room.at("p2")) as two:
        reads = two.subscription("aeron:ipc", 10)
        one.publication("aeron:ipc", 10).offer(b"again", wait=10.0)
        same("what the next driver carries", [b"again"], [message.data for message in reads.poll(wait=10.0)])


def case_a_driver_stops(room):
    driver = room.serve(*PATIENT)
    reader = room.start(room.program, "subscribe", "--driver", room.at("p2"), "aeron:ipc", "10")
    until("a client", lambda: len(room.clients()) == 1)
    with Peer(room.at("p1")) as one, Peer(room.at("p1")) as other:
        one.enter(), other.enter()
        other.send(mail(1000))
        status, _, err = room.order("stop")
        same("status of stop", (0, ""), (status, err))
        for peer in (one, other):
            last = peer.rest()[-1:]
            # a connection has half a second to say it
            soon(BYE in [kind for kind, _ in last], "no last word but", last)
            same("the last word", [(BYE, 1010, "stopped")], [(kind, code_of(body), words_of(body)) for kind, body in last])
    same("status of the driver", 0, room.ended(driver))
    same("status of the subscriber", 1, room.ended(reader))
    same("what is left in the folder", [], os.listdir(room.folder))
    status, _, err = room.order("stop")
    same("another stop", (1, "aeron_policyd: no driver serves there\n"), (status, err))


TERMINATE = """version = 1
default = "allow"

[[rule]]
name = "p1 alone ends the driver"
principal = "p2"
act = "terminate"
channel = "*"
allow = false
"""


def case_a_client_ends_the_driver(room):
    driver = room.serve(*PATIENT, policy=TERMINATE)
    with aeron_policyd.connect(room.at("p1")) as one, aeron_policyd.connect(room.at("p2")) as two:
        try:
            two.terminate()
            raise Failed("p2 ends the driver")
        except aeron_policyd.Denied as denied:
            same("the denial", "denied by rule 1 in policy 1", denied.text)
        two.keepalive()
        one.terminate()
        same("status of the driver", 0, room.ended(driver))
        try:
            while True:
                two.keepalive()
                time.sleep(0.01)
        except aeron_policyd.Ended as end:
            # its connection has half a second to say it
            soon(end.code is not None, "no last word:", end)
            same("what the other client is told", (1010, "stopped"), (end.code, end.text))
    need(not os.path.exists(room.at("p1")), "a socket is left")


# The only right that p1 has.
READS = """version = 1
default = "deny"

[[rule]]
name = "p1 reads"
principal = "p1"
act = ["subscribe", "image", "receive"]
channel = "aeron:ipc"
allow = true
"""

DENIED = b"denied by default in policy 1"


def answered(peer, count):
    """The replies to so many commands: each as its type and correlation id, and the text of an error."""
    replies, end = [], time.monotonic() + 60
    while len(replies) < count and time.monotonic() < end:
        replies += peer.replies(200)
    return [(struct.unpack_from("<IQ", reply), reply[20:] if reply[:2] == b"\x01\x0f" else b"") for reply in replies]


def case_a_denied_end_is_no_end(room):
    """Whoever is denied the driver's end does not get it by another command of the same correlation id."""
    driver = room.serve(*PATIENT, policy=READS)
    denied, done = ((0x0F01, 5), DENIED), ((0x0F04, 5), b"")
    with Peer(room.at("p2")) as other:
        other.enter()
        for requests, wanted in (
            ((terminate,), [denied]),
            ((close,), [done]),
            ((terminate, close), [denied, done]),
        ):
            with Peer(room.at("p1")) as one:
                one.enter()
                for request, reply in zip(requests, wanted):
                    same("the answer", [DONE], [kind for kind, _ in one.ask(request(one.client, 5))])
                    same("the reply", [reply], answered(one, 1))
                same("what it is told then", [DONE], [kind for kind, _ in one.ask(mail())])
        # both before the first of them is answered, in both orders; a client that has gone is none
        gone = ((0x0F01, 5), b"wrong client")
        for first, second, wanted in ((terminate, close, [denied, done]), (close, terminate, [done, gone])):
            with Peer(room.at("p1")) as one:
                one.enter()
                one.send(first(one.client, 5) + second(one.client, 5))
                same("the answers", [DONE, DONE], [one.answer()[0][0], one.answer()[0][0]])
                same("the replies", wanted, answered(one, 2))
                same("what it is told then", [DONE], [kind for kind, _ in one.ask(mail())])
        same("what another is told", [DONE], [kind for kind, _ in other.ask(mail())])
        with Peer(room.at("p1")) as one:
            need(one.enter().registered(subscribe), "who comes then subscribes")
    need(driver.poll() is None, "the driver ended")


def case_one_that_ends_the_driver_and_hangs_up(room):
    """No dead driver is left behind where nobody reads that it was ended."""
    driver = room.serve(*PATIENT, policy=TERMINATE)
    with Peer(room.at("p2")) as other:
        other.enter()
        with Peer(room.at("p1")) as one:
            one.enter()
            one.send(terminate(one.client, 1))
        same("status of the driver", 0, room.ended(driver))
        told = [(code_of(body), words_of(body)) for kind, body in other.rest() if kind == BYE]
        soon(told, "no last word")
        same("what another client is told", [(1010, "stopped")], told)


def case_a_silent_client_is_let_go(room):
    room.serve(*SHORT)
    with in_time(), Peer(room.at("p1")) as silent, Peer(room.at("p2")) as alive, Peer(room.at("p2")) as heard:
        silent.enter(), alive.enter(), heard.enter()
        same("the liveness", LIVENESS * 1e9, silent.liveness)
        silent.registered(subscribe)
        publication = alive.registered(publish)
        same("an offer", TAKEN, alive.ask(offer(publication, b"x", wait=1000))[0][0])
        begun = time.monotonic()
        while time.monotonic() - begun < LIVENESS + 1:
            # any request is a sign of life
            alive.ask(mail())
            heard.ask(record(LIST))
            time.sleep(0.3)
        last = silent.rest()
        same("what it is told", [(BYE, 1004, "client gone")], [(kind, code_of(body), words_of(body)) for kind, body in last])
        # its connection ends before it is put away, with its subscription
        until("two clients are left", lambda: alive.ask(mail()) and heard.ask(mail()) and len(room.clients()) == 2)
        until("no offer is taken", lambda: alive.ask(offer(publication, b"x"))[0][0] == REFUSED)
        ((kind, body),) = alive.ask(offer(publication, b"x", seen=1))
        same("an offer, as its subscription is gone", (REFUSED, -1), (kind, code_of(body)))


def case_one_that_sends_and_never_reads(room):
    room.serve(*SHORT)
    with in_time(), Peer(room.at("p1")) as deaf, Peer(room.at("p2")) as other:
        deaf.enter()
        deaf.socket.settimeout(0.5)
        sent = 0
        try:
            while True:
                sent += deaf.socket.send(record(LIST) * 1000)
        except socket.timeout:
            pass
        need(sent > 100_000, "it sent", sent, "bytes")
        other.enter()
        subscription, publication = other.registered(subscribe, 20), other.registered(publish, 20)
        source = other.image()
        begun, count, slowest = time.monotonic(), 0, 0.0
        while time.monotonic() - begun < LIVENESS + 1 or count < 100:
            at = time.monotonic()
            same("an offer beside it", TAKEN, other.ask(offer(publication, b"x"))[0][0])
            same("a poll beside it", [FRAGMENT, DONE], [kind for kind, _ in other.ask(poll(subscription, source))])
            slowest = max(slowest, time.monotonic() - at)
            count += 1
            soon(time.monotonic() - begun < 30, "only", count, "rounds")
        soon(slowest < 1, "a round beside it took", slowest)
        until("it is gone", lambda: other.ask(mail()) and len(room.clients()) == 1)
        deaf.socket.settimeout(60)
        answers = []
        try:
            answers = deaf.rest()
        except Over:
            # what the driver could not write may be half a record
            pass
        need(BYE not in [kind for kind, _ in answers[:-1]], "something after BYE")


def images_of(peer, count):
    """The sources of its subscriptions, by registration, once there are so many."""
    sources = {}

    def look(replies):
        for reply in replies:
            if reply[:2] == b"\x02\x0f":
                source, of = struct.unpack_from("<QQ", reply, 4)
                sources[of] = source
        return len(sources) == count

    look(peer.others)
    until("the images", lambda: look(peer.replies(100)))
    return sources


def case_one_that_subscribes_and_never_polls(room):
    """It holds up the publishers of its stream, and nobody else; they go on when it is gone."""
    room.serve(*PATIENT)
    with Peer(room.at("p1")) as lazy, Peer(room.at("p2")) as other, Peer(room.at("p2")) as publisher:
        lazy.enter(), other.enter(), publisher.enter()
        lazy.registered(subscribe, 10)
        held, free = publisher.registered(publish, 10), publisher.registered(publish, 20)
        reads, subscription = other.registered(subscribe, 10), other.registered(subscribe, 20)
        sources = images_of(other, 2)
        refusals = 0
        for _ in range(60):
            ((kind, body),) = publisher.ask(offer(held, b"x" * 1000, seen=refusals))
            other.ask(poll(reads, sources[reads]))
            if kind == REFUSED:
                same("the refusal", -2, code_of(body))
                refusals += 1
        need(refusals > 5, "no back pressure by one that never polls")
        for _ in range(200):
            same("another stream", TAKEN, publisher.ask(offer(free, b"x" * 1000, seen=refusals))[0][0])
            same("its reader", [FRAGMENT, DONE], [kind for kind, _ in other.ask(poll(subscription, sources[subscription]))])
        same("the lazy one is there", DONE, lazy.ask(mail())[-1][0])
        ((kind, body),) = publisher.ask(offer(held, b"x", seen=refusals, wait=300))
        same("still held up", (REFUSED, -2), (kind, code_of(body)))
        lazy.close()
        ((kind, body),) = publisher.ask(offer(held, b"x", seen=refusals + 1, wait=1000))
        soon((kind, code_of(body)) != (REFUSED, -2), "it is held up for a second more")
        same("its stream goes on", TAKEN, kind)


def case_what_was_sent_before_the_end_is_done(room):
    """A client may send and close: its offers are in the log all the same."""
    room.serve(*PATIENT, "--setting", "linger=5000000000")
    with Peer(room.at("p2")) as two:
        two.enter()
        subscription = two.registered(subscribe)
        with Peer(room.at("p1")) as one:
            one.enter()
            publication = one.registered(publish)
            source = two.image()
            one.send(b"".join(offer(publication, b"%d" % number) for number in range(100)))
            one.socket.shutdown(socket.SHUT_WR)
            same("the answers", [TAKEN] * 100, [kind for kind, _ in one.rest()])
        got = []

        def read():
            answer = two.ask(poll(subscription, source, wait=100))
            got.extend(body[12:] for kind, body in answer if kind == FRAGMENT)
            soon(answer[-1][0] == DONE or len(got) == 100, "the log went before it was read:", len(got))
            return len(got) == 100

        until("what it sent", read)
        same("what is read", [b"%d" % number for number in range(100)], got)
        until("the log goes with its client", lambda: any(reply[:2] == b"\x05\x0f" for reply in two.replies(200)))


def ask_for_errors(peer, count):
    """Gives so many commands that are answered by an error each, and takes no mail."""
    done = 0
    while done < count:
        ((kind, body),) = peer.ask(command(2, peer.client, 1 + done, struct.pack("<Q", 1)))
        if kind == DONE:
            done += 1
        else:
            same("the refusal", (1008, "queue full"), (code_of(body), words_of(body)))
            time.sleep(0.001)


def case_mail_that_nobody_took(room):
    """What a client left in its ring of replies takes no reply from the next one."""
    room.serve(*PATIENT)
    for _ in range(3):
        leaving = [Peer(room.at("p1")).enter() for _ in range(4)]
        for peer in leaving:
            ask_for_errors(peer, 300)
            peer.close()
        until("no client", lambda: room.clients() == [])
        coming = [Peer(room.at("p2")).enter() for _ in range(6)]
        for peer in coming:
            same("a command", DONE, peer.ask(subscribe(peer.client, 1))[0][0])
        # the replies come before they are asked for
        time.sleep(0.2)
        for peer in coming:
            same("a reply, and how many were lost", [(REPLY, 0), (DONE, 1)],
                 [(kind, struct.unpack_from("<I", body)[0]) for kind, body in peer.first_mail()])
            peer.close()
        until("no client", lambda: room.clients() == [])


def case_replies_that_find_no_room_are_counted(room):
    room.serve(*PATIENT)
    with Peer(room.at("p1")) as one, Peer(room.at("p2")) as two:
        one.enter(), two.enter()
        ask_for_errors(one, 300)
        # once the driver has taken all of them
        two.registered(subscribe)
        first = one.first_mail()
        same("how many are kept, and lost before them", (256, 0), (len(first) - 1, struct.unpack_from("<Q", first[0][1])[0]))
        same("a command", [DONE], [kind for kind, _ in one.ask(subscribe(one.client, 301))])
        kind, body = one.first_mail()[0]
        same("how many were lost", (REPLY, 44), (kind, struct.unpack_from("<Q", body)[0]))
