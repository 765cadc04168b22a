"""What a client has not read, and is told of: in Python and in C."""

import logging
import os
import struct
import time

import aeron_policyd
from cases_c import compilers, sanitized
from harness import ALLOW, PATIENT, TOP, need, same, soon, until
from raw import REPLY, record
from scripted import AGAIN, AGAIN_MAILS, PART_0, Reader, Scripted, done, fragment, refused

DENY = '\n[[rule]]\nname = "p2 may not"\nprincipal = "p2"\nact = "%s"\nchannel = "*"\nallow = false\n'


def case_a_source_comes_again_in_python(room):
    """What was between is lost, and that is said; and why a source went is."""
    room.serve(*PATIENT)
    told = []
    with aeron_policyd.connect(room.at("p1")) as one, aeron_policyd.connect(room.at("p2")) as two:
        other = one.subscription("aeron:ipc", 10)
        reads = two.subscription("aeron:ipc", 10, on_image=lambda image: told.append(image.position),
                                 on_image_gone=lambda image, why: told.append(why))
        publication = one.publication("aeron:ipc", 10)
        publication.send(b"one")
        same("before", [b"one"], [message.data for message in reads.poll(wait=60.0)])
        room.policy(ALLOW + DENY % "image")
        room.asked("reload")
        until("it went", lambda: reads.poll() == [] and reads.images == [])
        publication.send(b"two", timeout=60.0)
        got = []
        while len(got) < 2:
            got += [message.data for message in other.poll(wait=60.0)]
        same("who may", [b"one", b"two"], got)
        room.policy(ALLOW)
        room.asked("reload")
        got = []
        until("it came", lambda: got.extend(reads.poll()) or reads.images)
        publication.send(b"three", timeout=60.0)
        while len(got) < 2:
            got += reads.poll(wait=60.0)
        source = publication.registration
        gap = aeron_policyd.Gap(source, 128, "it was away from 64 to 128")
        same("after", [gap, aeron_policyd.Message(b"three", 192, source)], got)
        need(told in ([0, "gone", 128], [0, "closed", 128]), "what was told", told)


def case_what_came_again_is_a_gap_in_python(room):
    """Though a term might end there; and so it is where a message had begun, or where there was no memory."""
    wanted = [b"one", "it was away from 64 to 65536", b"two", "it was away from 65664 to 65664", b"three", "no memory", b"four"]
    with Scripted(room.path + "/again.sock", Reader(*AGAIN, mails=AGAIN_MAILS)):
        with aeron_policyd.connect(room.path + "/again.sock") as driver:
            reads = driver.subscription("aeron:ipc", 10)
            got = []
            for _ in AGAIN:
                got += [event.data if isinstance(event, aeron_policyd.Message) else event.why for event in reads.poll()]
    same("what comes", wanted, got)


def case_what_came_again_is_a_gap_in_c(room):
    """The same; a message that had begun goes on where nothing was lost between."""
    program = sanitized(room, compilers()[0], TOP + "/tests/service/check.c")
    wanted = "one\ngap\ntwo\nAACC\nthree\nno memory\ngap\nfour\n"
    with Scripted(room.path + "/again.sock", Reader(*AGAIN, mails=AGAIN_MAILS)):
        same("what comes", (0, wanted, ""), room.run(program, room.path + "/again.sock", "holes", str(len(AGAIN))))


def case_what_was_lost_in_a_long_answer_in_python(room):
    """Many messages of one length are read at once: one that is missing among them, in parts, or longer is seen all the same."""
    size = 40
    for odd in (0, 1, 15, 16, 17, 47, 63, 98, 99):
        whole = [b"%02d" % number + bytes(size - 2) for number in range(100)]
        records = [fragment(96 * (number + 1), 0xC0, message) for number, message in enumerate(whole)]
        parts = fragment(96 * odd + 96, 0x80, whole[odd]), fragment(96 * odd + 192, 0x40, b"end" + bytes(size - 3))
        shifted = [fragment(96 * (number + 2), 0xC0, whole[number]) for number in range(odd + 1, 100)]
        longer = whole[odd] + bytes(96)
        gap = aeron_policyd.Gap(5, 96 * odd + 96, "lost from %d to %d" % (96 * odd, 96 * odd + 96))
        answers = (
            (records[:odd] + records[odd + 1 :], whole[:odd] + [gap] * (odd < 99) + whole[odd + 1 :]),
            (records[:odd] + [*parts] + shifted, whole[:odd] + [whole[odd] + b"end" + bytes(size - 3)] + whole[odd + 1 :]),
            (records[:odd] + [fragment(96 * odd + 192, 0xC0, longer)] + shifted, whole[:odd] + [longer] + whole[odd + 1 :]),
        )
        for given, wanted in answers:
            answer = PART_0 + b"".join(given) + done(1)
            with Scripted(room.path + "/long.sock", Reader(answer)), aeron_policyd.connect(room.path + "/long.sock") as driver:
                got = driver.subscription("aeron:ipc", 10).poll(wait=60.0)
            same("what comes, %d" % odd, wanted, [one.data if isinstance(one, aeron_policyd.Message) else one for one in got])


def case_lost_replies_in_python(room):
    """Each subscription says so; and one that connects anew does that."""
    lost = {0: record(REPLY, struct.pack("<Q", 3) + struct.pack("<IQ", 0x0F04, 99)) + done(1), 1: refused(1002, "no memory")}
    whole = (PART_0 + fragment(64, 0xC0, b"one") + done(1),
             PART_0 + fragment(128, 0xC0, b"two") + done(1))
    wanted = [b"one", "replies were lost: 3", b"two", "replies were lost: no memory"]
    lines = []
    handler = logging.Handler()
    handler.emit = lambda line: lines.append(line.getMessage())
    logger = logging.getLogger("aeron_policyd")
    logger.addHandler(handler)
    try:
        with Scripted(room.path + "/lost.sock", Reader(*whole, mails=lost)):
            with aeron_policyd.connect(room.path + "/lost.sock") as driver:
                reads = driver.subscription("aeron:ipc", 10)
                got = [event for _ in range(2) for event in reads.poll()]
        same("what comes", wanted, [event.data if isinstance(event, aeron_policyd.Message) else event.why for event in got])
        same("how many", 3, driver.lost)
        same("what is logged", ["client 1 of principal 2: " + why for why in wanted[1::2]], lines)
        # what is read by the next connection is not what was read by this one
        with Scripted(room.path + "/lost.sock", Reader(*whole, mails=lost)) as server:
            with aeron_policyd.connect(room.path + "/lost.sock", reconnect=True) as driver:
                reads = driver.subscription("aeron:ipc", 10)
                first = reads.poll()
                until("another connection", lambda: reads.poll(wait=0.01) is not None and len(server.commands) == 2)
        same("what came before", b"one", first[0].data)
    finally:
        logger.removeHandler(handler)


def case_what_is_logged_in_python(room):
    """Replies that were lost, and a connection that is made anew."""
    lines = []
    handler = logging.Handler()
    handler.emit = lambda line: lines.append((line.levelname, line.getMessage()))
    logger = logging.getLogger("aeron_policyd")
    level = logger.level
    logger.addHandler(handler)
    logger.setLevel(logging.INFO)
    try:
        first = room.serve(*PATIENT)
        with aeron_policyd.connect(room.at("p1"), reconnect=True) as driver:
            first.kill()
            first.wait()
            room.serve(*PATIENT)
            until("a connection", lambda: _alive(driver))
        need(("INFO", "client 1 of principal 1 connected anew: ") == (lines[-1][0], lines[-1][1][:40]), lines)
    finally:
        logger.removeHandler(handler)
        logger.setLevel(level)


def _alive(driver):
    try:
        driver.keepalive()
        return True
    except aeron_policyd.Ended:
        return False


def case_what_is_asked_for_ahead_in_python(room):
    """Nothing of it is lost by other calls, and it is read where the driver ends meanwhile."""
    room.serve(*PATIENT, "--setting", "arena-pages=16384")
    channel = "aeron:ipc?term-length=1m"
    messages = [b"%06d" % number + bytes(58) for number in range(4000)]
    with aeron_policyd.connect(room.at("p1")) as one, aeron_policyd.connect(room.at("p2"), keepalive=False) as two:
        reads, publication = two.subscription(channel, 10), one.publication(channel, 10)
        for between in (two.counters, two.keepalive, lambda: two.subscription("aeron:ipc", 99).close(),
                        lambda: reads.positions(reads.images[0].source)):
            same("taken", 4000, publication.offer_all(messages, wait=60.0).taken)
            got, ahead = [], 0
            while len(got) < 4000:
                got += [message.data for message in reads.poll(limit=4096, wait=60.0)]
                ahead += two._wire.ahead is not None
                if len(got) < 3000:
                    between()
            need(got == messages and ahead > 0, "what comes", len(got), ahead)
            # what comes once that was asked is not missed
            publication.send(b"late", timeout=60.0)
            same("at once", [b"late"], [message.data for message in reads.poll(limit=4096)])
        # by another subscription of the connection
        others = two.subscription(channel, 11)
        second = one.publication(channel, 11)
        for each in (publication, second):
            same("taken", 4000, each.offer_all(messages, wait=60.0).taken)
        got = {reads: [], others: []}
        while sum(map(len, got.values())) < 8000:
            for each in got:
                got[each] += [message.data for message in each.poll(limit=4096, wait=0.01)]
        need(got[reads] == messages and got[others] == messages, "of two", [len(some) for some in got.values()])
        # what came is given, though the connection is over
        same("taken", 4000, publication.offer_all(messages, wait=60.0).taken)
        got = [message.data for message in reads.poll(limit=4096, wait=60.0)]
        while two._wire.ahead is None:
            got += [message.data for message in reads.poll(limit=4096, wait=60.0)]
        # the answer has come before the end does
        time.sleep(0.5)
        room.driver.kill()
        room.driver.wait()
        before = len(got)
        try:
            while True:
                got += [message.data for message in reads.poll(limit=4096, wait=1.0)]
        except aeron_policyd.Ended:
            pass
        same("in their order", messages[: len(got)], got)
        soon(len(got) > before, "nothing came before the end")


def case_a_connection_does_not_follow_a_fork(room):
    room.serve(*PATIENT)
    with aeron_policyd.connect(room.at("p1")) as driver:
        counter = driver.counter(1, "label")
        child = os.fork()
        if child == 0:
            status = 1
            try:
                counter.set(7)
            except aeron_policyd.Ended as end:
                driver.close()
                status = 0 if "another process" in end.text else 2
            finally:
                os._exit(status)
        same("the child", 0, os.waitpid(child, 0)[1])
        counter.set(8)
        same("the parent goes on", 8, driver.value(counter.registration))
