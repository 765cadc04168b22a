"""Waits: who waits sleeps, and is woken by what it waits for."""

import socket
import time

from harness import PATIENT, need, same, seconds_of, soon
from raw import DONE, FRAGMENT, TAKEN, Peer, mail, offer, poll, publish, subscribe


def read(answer):
    """The bytes of the fragments that answer a poll."""
    return [body[12:] for kind, body in answer if kind == FRAGMENT]


def free_port():
    with socket.socket(socket.AF_INET, socket.SOCK_DGRAM) as other:
        other.bind(("127.0.0.1", 0))
        return other.getsockname()[1]


def median(times):
    return sorted(times)[len(times) // 2]


def case_who_waits_takes_little_of_a_processor(room):
    driver = room.serve("--each", "33", *PATIENT)
    publisher = Peer(room.at("p1")).enter()
    readers = []
    for stream in range(32):
        reader = Peer(room.at("p2")).enter()
        subscription = reader.registered(subscribe, 100 + stream)
        publisher.registered(publish, 100 + stream)
        readers.append((reader, poll(subscription, reader.image(), wait=1000)))
    before = seconds_of(driver.pid)
    for _ in range(2):
        for reader, request in readers:
            reader.send(request)
        for reader, _ in readers:
            same("what came", [], read(reader.answer()))
    took = seconds_of(driver.pid) - before
    # where each looks every five milliseconds it is 0.25
    soon(took < 0.2, "32 clients that waited for two seconds took", took, "seconds of processor time")


def woken(publisher, registration, reader, request):
    """How long messages took, at the median, of which each came to a wait that had gone on for a while."""
    times = []
    for number in range(9):
        message = b"message %d" % number
        reader.send(request)
        time.sleep(0.15)
        begun = time.monotonic()
        same("an offer", TAKEN, publisher.ask(offer(registration, message, wait=1000))[0][0])
        same("what is read", [message], read(reader.answer()))
        times.append(time.monotonic() - begun)
    return median(times)


def case_a_message_wakes_who_waits_for_it(room):
    room.serve(*PATIENT)
    with Peer(room.at("p1")) as publisher, Peer(room.at("p2")) as reader:
        publisher.enter()
        reader.enter()
        for stream, channel in ((10, "aeron:ipc"), (11, "aeron:udp?endpoint=127.0.0.1:%d" % free_port())):
            subscription = reader.registered(subscribe, stream, channel=channel)
            registration = publisher.registered(publish, stream, channel=channel)
            request = poll(subscription, reader.image(), wait=1000)
            took = woken(publisher, registration, reader, request)
            # a wait that nobody wakes looks again after 50 milliseconds
            soon(took < 0.01, channel, "is read after", took)


def case_a_reply_wakes_who_waits_for_it(room):
    room.serve(*PATIENT)
    times = []
    with Peer(room.at("p1")) as publisher, Peer(room.at("p2")) as reader:
        publisher.enter()
        reader.enter()
        for stream in range(100, 109):
            reader.registered(subscribe, stream)
            reader.send(mail(wait=1000))
            time.sleep(0.15)
            begun = time.monotonic()
            publisher.registered(publish, stream)
            answer = reader.answer()
            times.append(time.monotonic() - begun)
            need(len(answer) == 2 and answer[-1][0] == DONE, "no word of an image but", answer)
    soon(median(times) < 0.01, "word of an image comes after", median(times))
