"""Many clients: at once, and one after another."""

import os
import signal
import sys
import time

from harness import HERE, PATIENT, descriptors, kilobytes, need, same, soon, threads, until
from raw import BYE, DONE, FRAGMENT, TAKEN, Peer, code_of, mail, offer, poll, publish, subscribe, words_of


def told(path):
    """What a client is told first."""
    with Peer(path) as peer:
        kind, body = peer.receive()
        return (kind, code_of(body), words_of(body)) if kind == BYE else (kind,)


def case_sixty_four_clients_and_one_more(room):
    driver = room.serve("--each", "64", *PATIENT)
    # once a client came and went, all that the driver opens for itself is open
    told(room.at("p1"))
    until("no client", lambda: room.clients() == [])
    before = descriptors(driver.pid)
    peers = [Peer(room.at("p%d" % (1 + number % 2))).enter() for number in range(64)]
    need(len({peer.client for peer in peers}) == 64, "two clients of one id")
    for _ in range(3):
        for door in ("p1", "p2"):
            same("one more", (BYE, 1003, "full"), told(room.at(door)))
    same("how many clients there are", 64, len(room.clients()))
    # all of them are served
    publications = [peer.registered(publish, 100 + number) for number, peer in enumerate(peers[:32])]
    for number, peer in enumerate(peers[32:]):
        subscription, source = peer.registered(subscribe, 100 + number), None
        source = peer.image()
        message = b"to %d" % number
        same("an offer", TAKEN, peers[number].ask(offer(publications[number], message, wait=1000))[0][0])
        answer = peer.ask(poll(subscription, source, wait=1000))
        same("what is read", [message], [body[12:] for kind, body in answer if kind == FRAGMENT])
    # one goes, and the next one comes in
    peers.pop().close()
    _, took = until("a place", lambda: told(room.at("p1"))[0] != BYE)
    soon(took < 2, "a place is free after", took)
    until("63 clients", lambda: len(room.clients()) == 63)
    last = Peer(room.at("p1")).enter()
    same("one more again", (BYE, 1003, "full"), told(room.at("p2")))
    for peer in peers + [last]:
        peer.close()
    until("no client", lambda: room.clients() == [])
    until("no descriptor is left", lambda: descriptors(driver.pid) <= before)


def case_no_principal_takes_the_places_of_another(room):
    room.serve("--each", "3")
    ones = [Peer(room.at("p1")).enter() for _ in range(3)]
    same("one more of p1", (BYE, 1003, "full"), told(room.at("p1")))
    twos = [Peer(room.at("p2")).enter() for _ in range(3)]
    same("one more of p2", (BYE, 1003, "full"), told(room.at("p2")))
    for peer in ones + twos:
        same("a client that is there", DONE, peer.ask(mail())[-1][0])
        peer.close()
    _, took = until("a place", lambda: told(room.at("p1"))[0] != BYE)
    soon(took < 2, "a place is free after", took)


def case_a_crowd_at_a_door_is_answered_at_once(room):
    """However many wait: those whom the driver does not come to in one go are not left for later."""
    driver = room.serve("--each", "1")
    with Peer(room.at("p1")) as one:
        one.enter()
        # all of them wait before the first one is answered
        os.kill(driver.pid, signal.SIGSTOP)
        try:
            crowd = [Peer(room.at("p1")) for _ in range(65)]
        finally:
            os.kill(driver.pid, signal.SIGCONT)
        begun = time.monotonic()
        for peer in crowd:
            kind, body = peer.receive()
            same("one of the crowd", (BYE, 1003, "full"), (kind, code_of(body), words_of(body)))
            peer.close()
        took = time.monotonic() - begun
        soon(took < 0.3, "all of them are answered after", took)
        same("the client that is there", DONE, one.ask(mail())[-1][0])


def case_ten_thousand_connections_one_after_another(room):
    """Neither memory nor descriptors nor threads grow, and a client that stays is served all the while."""
    driver = room.serve("--each", "32")
    with Peer(room.at("p2")) as stays:
        stays.enter()
        subscription, publication = stays.registered(subscribe), stays.registered(publish)
        source = stays.image()

        def connect(count, upto):
            """So many connections, the next ones on their way while the last ones end; how many there were until then."""
            for number in range(0, count, 5):
                peers = [Peer(room.at("p1")) for _ in range(5)]
                for peer in peers:
                    # those before them may still be leaving
                    peer.enter(60)
                if number % 50 == 0:
                    peers[0].registered(subscribe, 20 + number % 7)
                for peer in peers:
                    peer.close()
                if number % 20 == 0:
                    same("an offer beside them", TAKEN, stays.ask(offer(publication, b"x"))[0][0])
                    same("a poll beside them", [FRAGMENT, DONE], [kind for kind, _ in stays.ask(poll(subscription, source))])
                if time.monotonic() > upto:
                    return number + 5
            return count

        begun = time.monotonic()
        connect(1000, begun + 40)
        until("one client", lambda: len(room.clients()) == 1)
        memory, files, tasks = kilobytes(driver.pid), descriptors(driver.pid), threads(driver.pid)
        done = connect(9000, begun + 50)
        until("one client", lambda: len(room.clients()) == 1)
        until("no descriptor more", lambda: descriptors(driver.pid) <= files)
        until("no thread more", lambda: threads(driver.pid) <= tasks)
        grown = kilobytes(driver.pid) - memory
        # a leak of one page a connection would be 36,000 KB
        need(grown < 2000, "memory grew by", grown, "KB")
        if done < 9000:
            room.leave_out("%d of 10,000 connections, since the machine is slow" % (9000 - done))


FLOOD = """
import sys
sys.path.insert(0, sys.argv[2])
from raw import Over, Peer, command

def connections():
    while True:
        try:
            with Peer(sys.argv[1]) as peer:
                peer.receive()
        except (OSError, Over):
            pass

def commands():
    peer = Peer(sys.argv[1]).enter()
    while True:
        peer.send(b"".join(command(6, peer.client, 0) for _ in range(200)))
        for _ in range(200):
            peer.answer()

globals()[sys.argv[3]]()
"""


def of(principal, lines):
    """How many clients a principal has, by the lines that operators see."""
    return sum(" of p%d " % principal in line for line in lines)


def flooded(room, what):
    """How long another owner and the operator are kept waiting at most, while four processes send that without end."""
    floods = [room.start(sys.executable, "-c", FLOOD, room.at("p1"), HERE, what) for _ in range(4)]
    time.sleep(0.5)
    longest = 0
    for number in range(6):
        begun = time.monotonic()
        with Peer(room.at("p2")) as two:
            two.enter()
            two.registered(subscribe, 100 + number)
            lines = room.clients()
        need(of(1, lines) <= 4 and of(2, lines) == 1, "clients", lines)
        longest = max(longest, time.monotonic() - begun)
        until("no client of p2", lambda: of(2, room.clients()) == 0)
    for flood in floods:
        need(flood.poll() is None, "the flood ended")
        flood.kill()
        flood.wait()
    return longest


def case_connections_of_one_owner_keep_nobody_out(room):
    room.serve("--each", "4")
    longest = flooded(room, "connections")
    soon(longest < 5, "p2 waited for", longest)
    until("no client", lambda: room.clients() == [])


def case_commands_of_one_owner_keep_nobody_out(room):
    room.serve("--each", "4")
    longest = flooded(room, "commands")
    soon(longest < 5, "p2 waited for", longest)
    until("no client", lambda: room.clients() == [])
