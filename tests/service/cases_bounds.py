"""What the clients of one principal may have together, and clients that do not read."""

import re
import struct
import time

import aeron_policyd
from cases_waits import free_port
from harness import PATIENT, highest, need, own_port, same, soon, until
from raw import (
    BYE,
    DONE,
    FRAGMENT,
    PART,
    REFUSED,
    REPLY,
    TAKEN,
    Over,
    Peer,
    code_of,
    command,
    mail,
    offer,
    poll,
    poll_all,
    publish,
    set_counter,
    subscribe,
    text,
    unpublish,
    unsubscribe,
    words_of,
)


def count(client, correlation, type_id=2000):
    return command(9, client, correlation, struct.pack("<iI", type_id, 0) + text("a counter"))


def refused(peer, make, *words):
    """How a command is refused before it is handed on."""
    peer.correlation += 1
    ((kind, body),) = peer.ask(make(peer.client, peer.correlation, *words))
    return (kind, code_of(body), words_of(body)) if kind == REFUSED else (kind,)


def case_bounds_hold_for_all_clients_of_a_principal(room):
    room.serve("--publications", "3", "--subscriptions", "2", "--counters", "1", "--setting", "linger=200000000")
    with Peer(room.at("p1")) as one, Peer(room.at("p1")) as again, Peer(room.at("p2")) as two:
        for peer in (one, again, two):
            peer.enter()
        first = one.registered(publish, 10)
        one.registered(publish, 11), again.registered(publish, 12)
        one.registered(subscribe, 10), again.registered(subscribe, 10)
        again.registered(count)
        for peer in (one, again):
            same("a publication more", (REFUSED, 1011, "bound on publications"), refused(peer, publish, 13))
            same("a subscription more", (REFUSED, 1013, "bound on subscriptions"), refused(peer, subscribe, 13))
            same("a counter more", (REFUSED, 1014, "bound on counters"), refused(peer, count))
            # an image of a subscription may be reported after the subscription's own reply
            replies = [reply for reply in peer.replies(50) if reply[:2] != b"\x02\x0f"]
            same("a reply of those", [], replies)
        # the other principal has all of its own
        for stream in (20, 21, 22):
            two.registered(publish, stream)
        two.registered(subscribe, 10), two.registered(subscribe, 20), two.registered(count)
        same("one more of the other", (REFUSED, 1011, "bound on publications"), refused(two, publish, 23))
        # what is taken back can be had again, once its log is gone
        one.commanded(lambda client, correlation: command(2, client, correlation, struct.pack("<Q", first)))
        until("room for one more", lambda: refused(one, publish, 14)[0] != REFUSED)
        # and so can what a client had that went
        again.close()
        until("a counter", lambda: refused(one, count)[0] != REFUSED)


def case_what_counts_is_what_the_driver_has(room):
    """However often a subscription is removed, it counts for as long as it is there, and no longer."""
    room.serve("--subscriptions", "2")
    bound = (REFUSED, 1013, "bound on subscriptions")
    with Peer(room.at("p1")) as one:
        one.enter()
        first, second = one.registered(subscribe, 10), one.registered(subscribe, 10)
        same("a third one", bound, refused(one, subscribe, 10))
        # twice, the second time before the first is answered
        one.send(unsubscribe(one.client, 11, first) + unsubscribe(one.client, 12, first))
        same("the answers", [DONE, DONE], [one.answer()[0][0], one.answer()[0][0]])
        replies = []
        until("the replies", lambda: replies.extend(one.replies(200)) or len(replies) >= 2)
        one.correlation = 12
        third = one.registered(subscribe, 10)
        same("a third one again", bound, refused(one, subscribe, 10))
        # what is removed frees nothing else of its client
        one.correlation = 20
        one.commanded(unsubscribe, third)
        one.registered(subscribe, 10)
        same("a third one then", bound, refused(one, subscribe, 10))
        # the number of a subscription as that of a publication: it is none, and the subscription counts
        one.correlation = 30
        one.commanded(unpublish, second)
        same("a third one still", bound, refused(one, subscribe, 10))


def let_in(peer, seconds=0.5):
    """Whether a command that is answered is handed on within that time; it is tried again while the driver's queue is full."""
    end = time.monotonic() + seconds
    while time.monotonic() < end:
        peer.correlation += 1
        ((kind, body),) = peer.ask(set_counter(peer.client, peer.correlation, 1))
        if kind == DONE:
            return True
        same("why not", (1008, "queue full"), (code_of(body), words_of(body)))
        time.sleep(0.002)
    return False


def case_commands_without_an_answer_are_bounded(room):
    """A door has an equal part of the driver's queue, and what is in it is given free by replies."""
    room.serve("--each", "2", *PATIENT, doors=("p1", "p2", "p3", "p4"))
    with Peer(room.at("p1")) as one, Peer(room.at("p1")) as again, Peer(room.at("p2")) as two:
        for peer in (one, again, two):
            peer.enter()
        for number in range(256):
            need(let_in(one if number % 2 else again, 60), "the command", number)
        need(not let_in(one) and not let_in(again), "one more than a quarter of 1,024")
        # the other door has its own
        need(let_in(two, 60), "a command of the other")
        replies = []
        until("the replies", lambda: replies.extend(one.replies(200)) or len(replies) >= 128)
        for number in range(128):
            need(let_in(one, 60), "the command", number, "again")
        need(not let_in(again), "one more again")
        # what a client had goes with it
        again.close()
        until("the other client is gone", lambda: len(room.clients()) == 2)
        for number in range(128):
            need(let_in(one, 60), "the command", number, "of the last")
        need(not let_in(one), "one more at last")


def case_bounds_on_the_pages_of_logs(room):
    # a log of 64 KiB terms takes 48 pages, one of 1 MiB terms 768
    room.serve("--pages", "100")
    with Peer(room.at("p1")) as one, Peer(room.at("p2")) as two:
        one.enter(), two.enter()
        bound = (REFUSED, 1012, "bound on pages")
        same("a log of long terms", bound, refused(one, publish, 10, "aeron:ipc?term-length=1m"))
        one.registered(publish, 10), one.registered(publish, 11)
        same("a third log", bound, refused(one, publish, 12))
        two.registered(publish, 20), two.registered(publish, 21)
        same("a third log of the other", bound, refused(two, publish, 22))
        same("a client that was refused goes on", DONE, one.ask(mail())[-1][0])


def handed_on(peer, make, *words):
    """The answer to a command, which is given again for as long as the driver's queue is full."""
    peer.correlation += 1
    while True:
        ((kind, body),) = peer.ask(make(peer.client, peer.correlation, *words))
        if kind != REFUSED or code_of(body) != 1008:
            return kind, body
        time.sleep(0.002)


def case_each_door_has_an_equal_part(room):
    """Where no bound is given, no principal can take what another one needs."""
    room.serve("--each", "2", *PATIENT, doors=("p1", "p2", "p3", "p4"))
    with Peer(room.at("p1")) as greedy, Peer(room.at("p4")) as modest:
        greedy.enter(), modest.enter()
        got = {}
        for make, most in ((publish, 300), (subscribe, 600), (count, 1100)):
            for number in range(most):
                # a reply is an error where the driver itself has no room
                words = (1000 + number,) if make is not count else ()
                kind, body = handed_on(greedy, make, *words)
                if kind == REFUSED and code_of(body) in (1011, 1012, 1013, 1014):
                    got[make.__name__] = number
                    break
                if number % 50 == 0:
                    greedy.replies()
        same("what has a bound", {"publish", "subscribe", "count"}, set(got))
        same("subscriptions and counters", (128, 256), (got["subscribe"], got["count"]))
        need(10 <= got["publish"] <= 64, "publications:", got["publish"])
        need(modest.registered(publish, 10) and modest.registered(subscribe, 10) and modest.registered(count), "the other one")


def case_correlation_ids_rise(room):
    room.serve()
    with Peer(room.at("p1")) as one:
        one.enter()
        one.correlation = 6
        one.registered(publish, 10)
        used = (REFUSED, 1015, "correlation id was used")
        for correlation in (0, 1, 7):
            one.correlation = correlation - 1
            same("the id %d after 7" % correlation, used, refused(one, publish, 11))
        one.correlation = 7
        one.registered(publish, 11)
        # a command that adds nothing may have any
        same("a keepalive", [DONE], [kind for kind, _ in one.ask(command(6, one.client, 1))])
        one.correlation = 2**64 - 2
        one.registered(publish, 12)
        one.correlation = 2**64 - 2
        same("the greatest id again", used, refused(one, publish, 13))


# The length of a term, of which half is the window of a stream: 31 messages of 1,000 bytes fill it.
TERM = "|term-length=65536"


def silently(reader, subscription, source, other):
    reader.ask(mail())


def by_a_limit_of_nothing(reader, subscription, source, other):
    reader.ask(poll(subscription, source, 0))


def by_a_pair_that_is_none(reader, subscription, source, other):
    reader.ask(poll(777777, 777777))


def by_another_stream(reader, subscription, source, other):
    reader.ask(poll(*other))


def by_two_fragments_a_second(reader, subscription, source, other):
    if time.monotonic() - getattr(reader, "read", 0) > 0.5:
        reader.read = time.monotonic()
        reader.ask(poll(subscription, source, 1))


def without_its_mail(reader, subscription, source, other):
    """It reads a stream of its own all the time, and never hears of the other one."""
    reader.offered = getattr(reader, "offered", 0)
    if reader.ask(offer(reader.own, b"to itself", reader.offered))[-1][0] == REFUSED:
        reader.offered += 1
    reader.ask(poll(*other))


def slowly(reader, subscription, source, other):
    """An eighth of the window in a tenth of a second."""
    reader.ask(poll(subscription, source, 4))


def all_of_it_now_and_then(reader, subscription, source, other):
    if time.monotonic() - getattr(reader, "read", 0) > 1:
        reader.read = time.monotonic()
        reader.ask(poll(subscription, source))


LAZY = (silently, by_a_limit_of_nothing, by_a_pair_that_is_none, by_another_stream, by_two_fragments_a_second, without_its_mail)
HONEST = (slowly, all_of_it_now_and_then)


def reads_by(room, publisher, stream, way, channel):
    """A reader of p1 that reads so, with what is blocked where it does not read: reader, its words, publication."""
    reader = Peer(room.at("p1")).enter(10)
    reader.own = reader.registered(publish, stream + 100)
    own = reader.registered(subscribe, stream + 100)
    other = (own, reader.image())
    subscription = reader.registered(subscribe, stream, channel=channel)
    publication = publisher.registered(publish, stream, channel=channel)
    source = None if way is without_its_mail else reader.image()
    return [way, reader, (subscription, source, other), publication, None]


def rest_of(reader):
    """All records that are still to be read."""
    try:
        return reader.rest()
    except OSError:
        return []


def let_go_after(publisher, readers, seconds):
    """Offers to all of them as fast as they take it, for so long; when each was let go, and what it was told."""
    refusals = 0
    begun = time.monotonic()
    while time.monotonic() - begun < seconds:
        for row in readers:
            way, reader, words, publication, end = row
            if end is None:
                try:
                    way(reader, *words)
                except (OSError, Over):
                    row[4] = time.monotonic() - begun
                    reader.last = [record for record in reader.last + rest_of(reader) if record[0] == BYE]
            for _ in range(64):
                kind, _ = publisher.ask(offer(publication, b"m" * 1000, refusals))[-1]
                if kind == REFUSED:
                    refusals += 1
                    break
        time.sleep(0.1)
    return [(way, end, [(code_of(body), words_of(body)) for kind, body in reader.last]) for way, reader, _, _, end in readers]


def case_one_that_does_not_go_on_is_let_go(room):
    """With a bound on that; those that read what is there stay, and so do those who have nothing to read."""
    # longer than a busy machine holds a reader up
    within = 2
    send = "send-address=127.0.0.1:%d" % free_port()
    room.serve("--poll-within", str(within), "--setting", "client-liveness=300000000000", "--setting", send)
    with Peer(room.at("p2")) as publisher, Peer(room.at("p2")) as idle, Peer(room.at("p1")) as bare:
        for peer in (publisher, idle, bare):
            peer.enter()
        idle.registered(subscribe, 99)
        readers = [reads_by(room, publisher, 10 + number, way, "aeron:ipc?" + TERM[1:]) for number, way in enumerate(LAZY + HONEST)]
        remote = "aeron:udp?endpoint=127.0.0.1:%d" % free_port()
        readers.append(reads_by(room, publisher, 30, by_a_limit_of_nothing, remote + TERM))
        for way, end, told in let_go_after(publisher, readers, within + 3):
            if way in HONEST:
                same(way.__name__, (None, []), (end, told))
            else:
                same(way.__name__, [(1016, "polls nothing")], told)
                need(end > within, way.__name__, "goes after", end)
                soon(end < within * 2, way.__name__, "goes after", end)
        bare.ask(mail()), idle.ask(mail())
        for row in readers:
            row[1].close()


def case_nobody_has_to_read_where_that_is_chosen(room):
    room.serve("--poll-within", "0")
    with Peer(room.at("p2")) as publisher:
        publisher.enter()
        readers = [reads_by(room, publisher, 10, silently, "aeron:ipc?" + TERM[1:])]
        same("how it went", [(silently, None, [])], let_go_after(publisher, readers, 1))
        readers[0][1].close()


def case_who_waits_for_a_publisher_stays(room):
    within = 1
    room.serve("--poll-within", str(within))
    with aeron_policyd.connect(room.at("p1")) as one, aeron_policyd.connect(room.at("p2")) as two:
        reads = one.subscription("aeron:ipc", 30)
        same("nothing for so long and more", [], reads.poll(wait=within + 1.5))
        two.publication("aeron:ipc", 30).offer(b"late", wait=10.0)
        same("what comes then", [b"late"], [message.data for message in reads.poll(wait=10.0)])
        same("nothing again", [], reads.poll(wait=within + 0.5))
        # and it may do other things for a while
        time.sleep(within + 1.5)
        two.publication("aeron:ipc", 30).offer(b"later", wait=10.0)
        same("what comes last", [b"later"], [message.data for message in reads.poll(wait=10.0)])


def case_each_door_has_an_equal_part_of_the_clients(room):
    """Where no other number is chosen: of 64 places each of five doors has twelve."""
    room.serve(*PATIENT, doors=("p1", "p2", "p3", "p4", "p5"))
    inside = [Peer(room.at("p1")).enter() for _ in range(12)]
    with Peer(room.at("p1")) as more:
        kind, body = more.receive()
        same("one more", (BYE, 1003, "full"), (kind, code_of(body), words_of(body)))
    inside += [Peer(room.at(name)).enter() for name in ("p2", "p3", "p4", "p5") for _ in range(12)]
    same("clients", 60, len(room.clients()))
    for peer in inside:
        peer.close()


def case_operators_see_what_clients_have(room):
    room.serve()
    with Peer(room.at("p1")) as one, Peer(room.at("p2")) as two:
        one.enter(), two.enter()
        one.registered(publish, 10), one.registered(publish, 11), one.registered(count)
        two.registered(subscribe, 10)
        lines = sorted(re.sub(" for [0-9]+ s", "", line) for line in room.clients())
        wanted = [(one.client, 1, 2, 0, 1), (two.client, 2, 0, 1, 0)]
        words = "client %d of p%d: %d publications, %d subscriptions, %d counters"
        same("the lines", sorted(words % line for line in wanted), lines)
        status, out, _ = room.order("clients")
        same("what the program prints", (0, 2), (status, len(out.splitlines())))
    until("no client", lambda: room.clients() == [])


def filled(peer, registration, message):
    """Offers a message until the log takes no more: how many it took."""
    seen = taken = 0
    while True:
        ((kind, body),) = peer.ask(offer(registration, message, seen))
        if kind == TAKEN:
            taken += 1
            continue
        seen += 1
        if code_of(body) != -3:
            return taken


def case_an_answer_is_made_a_little_at_a_time(room):
    driver = room.serve("--setting", "arena-pages=16384", *PATIENT, doors=("p1",))
    with Peer(room.at("p1")) as one:
        one.enter()
        publication = one.registered(publish, 10, "aeron:ipc?term-length=16m|mtu=65504")
        subscriptions = [one.registered(subscribe, 10) for _ in range(64)]
        source = one.image()
        taken = filled(one, publication, b"m" * 65000)
        need(taken > 100, "a log of so little:", taken)
        before = highest(driver.pid)
        answer = one.ask(poll_all([(number, source) for number in subscriptions], 4096))
        grown = highest(driver.pid) - before
        need(grown < 16 * 1024, "one request took", grown, "KiB")
        parts = [struct.unpack("<I", body)[0] for kind, body in answer if kind == PART]
        same("the pairs that gave something", ([0], 1), (parts, struct.unpack("<I", answer[-1][1])[0]))
        # the rest is read by the next ones
        read = sum(kind == FRAGMENT for kind, _ in answer)
        while True:
            answer = one.ask(poll(subscriptions[0], source, 4096))
            need(len(answer) <= 17, "so many at once:", len(answer))
            if len(answer) == 1:
                break
            read += len(answer) - 1
        same("what the first subscription read", taken, read)
        answer = one.ask(poll_all([(number, source) for number in subscriptions[:3]], 1))
        parts = [struct.unpack("<I", body)[0] for kind, body in answer if kind == PART]
        same("a little of two", [1, 2], parts)


def case_a_poll_of_many_short_messages(room):
    room.serve(*PATIENT)
    with Peer(room.at("p1")) as one:
        one.enter()
        publication = one.registered(publish, 10, "aeron:ipc?term-length=1m")
        subscription = one.registered(subscribe, 10)
        source = one.image()
        messages = [b"%064d" % number for number in range(3000)]
        for message in messages:
            same("an offer", TAKEN, one.ask(offer(publication, message))[0][0])
        read = []
        for limit, wanted in ((7, 7), (16, 16), (33, 33), (500, 500), (4096, 784), (4096, 784), (4096, 784), (4096, 92), (4096, 0)):
            answer = one.ask(poll(subscription, source, limit))
            same("how many of %d" % limit, (DONE, wanted), (answer[-1][0], struct.unpack("<I", answer[-1][1])[0]))
            read += [body[12:] for kind, body in answer if kind == FRAGMENT]
        same("what was read", messages, read)


def case_descriptors_are_parted_by_door(room):
    # a client takes four
    room.policy("version = 1\ndefault = \"allow\"\n")
    words = ("--policy", room.policy_path, "--folder", room.folder, "--door", "p1", "--door", "p2", *PATIENT, *own_port())
    driver = room.start("prlimit", "--nofile=48:48", room.program, "serve", *words)
    room.served(driver)
    peers = []
    while True:
        peer = Peer(room.at("p1"))
        kind, body = peer.receive()
        if kind == BYE:
            same("one more of p1", (1003, "full"), (code_of(body), words_of(body)))
            peer.close()
            break
        peers.append(peer)
    need(1 <= len(peers) <= 7, "clients of p1:", len(peers))
    with Peer(room.at("p2")) as two:
        two.enter()
        same("p2 has a client", 1, len([line for line in room.clients() if " of p2 " in line]))
    for peer in peers:
        peer.close()
