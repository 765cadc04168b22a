"""Processes that talk, and what the policy says of it."""

import os
import shutil
import signal
import socket
import struct
import threading
import time

import scripted
from harness import ALLOW, PATIENT, TOP, Failed, free_ports, need, said, same, soon, until
from raw import (
    COMMAND,
    DONE,
    FRAGMENT,
    IMAGE_IS,
    LINE,
    PART,
    PART_REFUSED,
    PUBLICATION_IS,
    REFUSED,
    TAKEN,
    Peer,
    code_of,
    command,
    image_positions,
    mail,
    offer,
    poll,
    poll_all,
    publication_positions,
    publish,
    publish_alone,
    record,
    session,
    subscribe,
    text,
    unpublish,
    words_of,
)

PRICES = "examples/serving/policy.toml"


def case_a_start_in_ten_lines(room):
    os.mkdir(room.path + "/bin")
    os.symlink(room.program, room.path + "/bin/aeron_policyd")
    os.mkdir(room.path + "/tmp")
    paths = dict(os.environ, PATH=room.path + "/bin:" + os.environ["PATH"], TMPDIR=room.path + "/tmp")
    where = os.path.join(TOP, "examples", "serving")
    status, out, err = room.run("sh", "start.sh", cwd=where, env=paths)
    same("status", 0, status)
    same("what the desk prints", ["bid 99", "ask 101"], [line for line in out.splitlines() if line[:3] in ("bid", "ask")])
    need("aeron_policyd: denied by default in policy 1" in err.splitlines(), "no denial in", err)


def case_the_tutorial(room):
    """The steps of docs/TUTORIAL.md that need a driver, with another folder in place of /tmp/driver."""
    os.mkdir(room.path + "/bin")
    os.symlink(room.program, room.path + "/bin/aeron_policyd")
    paths = dict(os.environ, PATH=room.path + "/bin:" + os.environ["PATH"])
    where = room.path + "/tutorial"
    shutil.copytree(os.path.join(TOP, "examples", "tutorial"), where)
    for name in os.listdir(where):
        with open(os.path.join(where, name), encoding="ascii") as file:
            words = file.read()
        with open(os.path.join(where, name), "w", encoding="ascii") as file:
            file.write(words.replace("/tmp/driver", room.folder))
    driver = room.start("sh", "start.sh", cwd=where, env=paths)
    room.served(driver)
    desk = room.start("sh", "desk.sh", cwd=where, env=paths)
    same("status of the gateway", 0, room.run("sh", "gateway.sh", cwd=where, env=paths)[0])
    same("status of the desk", 0, room.ended(desk))
    same("what the desk reads", "bid 99\nask 101\n", said(desk.out))
    status, out, err = room.run("sh", "monitor.sh", cwd=where, env=paths)
    same("status of the monitor", 1, status)
    same("what the monitor reads", "", out)
    need("aeron_policyd: denied by default in policy 1" in err.splitlines(), "no denial in", err)
    same("status of the reload", 0, room.run("sh", "reload.sh", cwd=where, env=paths)[0])
    # the desk may still be leaving, and what is published meanwhile would be its
    until("no client", lambda: room.clients() == [])
    monitor = room.start("sh", "monitor.sh", cwd=where, env=paths)
    same("status of the gateway", 0, room.run("sh", "gateway.sh", cwd=where, env=paths)[0])
    same("status of the monitor", 0, room.ended(monitor))
    same("what the monitor reads", "bid 99\nask 101\n", said(monitor.out))
    same("status of the stop", 0, room.run("sh", "stop.sh", cwd=where, env=paths)[0])
    same("status of the driver", 0, room.ended(driver))


def case_two_processes(room):
    room.serve(policy=PRICES)
    reader = room.start(room.program, "subscribe", "--driver", room.at("p2"), "--count", "3", "aeron:ipc", "10")
    status, _, err = room.call("publish", "--driver", room.at("p1"), "aeron:ipc", "10", given=b"hello\n\nworld\n")
    same("status of the publisher", 0, status)
    need("sent 3 messages 10 bytes position 160" in err, err)
    same("status of the subscriber", 0, room.ended(reader))
    same("what is read", "hello\n\nworld\n", said(reader.out))


def case_many_lines(room):
    room.serve()
    lines = b"".join(b"line %d %s\n" % (line, b"x" * (line * 7919 % 3000)) for line in range(5000))
    reader = room.start(room.program, "subscribe", "--driver", room.at("p2"), "--count", "5000", "aeron:ipc", "10")
    status, _, err = room.call("publish", "--driver", room.at("p1"), "aeron:ipc", "10", given=lines)
    same("status of the publisher", 0, status)
    same("status of the subscriber", 0, room.ended(reader))
    need(said(reader.out).encode() == lines, "the lines differ")


DENIALS = """version = 1
default = "deny"

[[rule]]
name = "stream 11 is closed to all"
principal = "*"
act = "*"
channel = "aeron:ipc"
stream = [11, 11]
allow = false

[[rule]]
name = "p1 adds a publication, and sends nothing on it"
principal = "p1"
act = "publish"
channel = "aeron:ipc"
stream = [10, 12]
allow = true

[[rule]]
name = "p1 does not send on stream 12"
principal = "p1"
act = "offer"
channel = "aeron:ipc"
stream = [12, 12]
allow = false

[[rule]]
name = "p2 is paired with what it subscribes to, and may not read"
principal = "p2"
act = ["subscribe", "image"]
channel = "aeron:ipc"
allow = true
"""


def case_each_denial_names_its_rule(room):
    room.serve(policy=DENIALS)
    default, by_one, by_three = ("denied by %s in policy 1" % rule for rule in ("default", "rule 1", "rule 3"))
    with Peer(room.at("p1")) as one, Peer(room.at("p2")) as two:
        one.enter(), two.enter()

        def denied(what, wanted, reply):
            same(what, (b"\x01\x0f\0\0", 1001, wanted), (reply[:4], code_of(reply[12:]), reply[20:].decode()))

        denied("publish on stream 11", by_one, one.commanded(publish, 11))
        denied("publish on stream 13", default, one.commanded(publish, 13))
        denied("subscribe to stream 10", default, one.commanded(subscribe, 10))
        denied("publish by p2", default, two.commanded(publish, 10))
        ten, twelve = one.registered(publish, 10), one.registered(publish, 12)
        ((kind, body),) = one.ask(offer(ten, b"x"))
        same("an offer on stream 10", (REFUSED, 1001, default), (kind, code_of(body), words_of(body)))
        ((kind, body),) = one.ask(offer(twelve, b"x", seen=1))
        same("an offer on stream 12", (REFUSED, 1001, by_three), (kind, code_of(body), words_of(body)))
        subscription = two.registered(subscribe, 10)
        ((kind, body),) = two.ask(poll(subscription, two.image()))
        same("a poll", (REFUSED, 1001, default), (kind, code_of(body), words_of(body)))
    status, _, err = room.call("publish", "--driver", room.at("p2"), "aeron:ipc", "11", given=b"x\n")
    same("status of the program", 1, status)
    need("aeron_policyd: denied by rule 1 in policy 1" in err.splitlines(), err)


def case_session_byte_by_byte(room):
    room.serve("--setting", "first-session=7", policy=PRICES)
    records = session(os.path.join(TOP, "tests", "service", "session.txt"))
    need(len(records) > 30, "there are", len(records), "records")
    peers, asked = {}, {}
    for who, sent, words, data in records:
        if who not in peers:
            peers[who] = Peer(room.at(who))
        if sent:
            peers[who].send(data)
            asked[who] = data
            continue
        got = peers[who].receive()
        for _ in range(60):
            # a busy driver may have nothing within the wait of a POLL or of MAIL, so that is asked again
            if got != (DONE, b"\0\0\0\0") or not words.startswith(("FRAGMENT", "REPLY")):
                break
            peers[who].send(asked[who])
            got = peers[who].receive()
        need(got is not None, "the end in place of", who, words)
        same("%s %s" % (who, words), data.hex(), struct.pack("<II", 4 + len(got[1]), got[0]).hex() + got[1].hex())
    for peer in peers.values():
        peer.socket.shutdown(1)
        same("what comes after the session", [], peer.rest())
        peer.close()


WITHOUT = 'version = 1\ndefault = "deny"\n' + """
[[rule]]
name = "p1 publishes"
principal = "p1"
act = ["publish", "offer"]
channel = "*"
allow = true
"""


def case_a_reload_cuts_a_reader_off(room):
    room.serve()
    with Peer(room.at("p1")) as one, Peer(room.at("p2")) as two:
        one.enter(), two.enter()
        subscription = two.registered(subscribe)
        publication = one.registered(publish)
        source = two.image()
        same("an offer", TAKEN, one.ask(offer(publication, b"before", wait=1000))[0][0])
        room.policy(WITHOUT)
        status, out, _ = room.order("reload")
        same("the reload", (0, "policy 2 in force"), (status, out.split("\n")[0]))
        gone = struct.pack("<IQQi", 0x0F05, source, subscription, 10)
        until("ON_UNAVAILABLE_IMAGE", lambda: gone in two.replies(100))
        ((kind, body),) = two.ask(poll(subscription, source))
        same("a poll after it", (REFUSED, -4, "closed"), (kind, code_of(body), words_of(body)))
        reply = two.commanded(subscribe, 12)
        same("a subscription after it", "denied by default in policy 2", reply[20:].decode())
        ((kind, body),) = one.ask(offer(publication, b"nobody reads this"))
        same("an offer after it", (REFUSED, -1, "no subscriber"), (kind, code_of(body), words_of(body)))
        # a policy with a fault changes nothing
        room.policy("version = 9\n")
        status, out, err = room.order("reload")
        same("the fault", (1, ""), (status, out))
        need(":1:1: version = 9: wanted 1 or 2; see: aeron_policyd lint " in err, err)
        same("a subscription after the fault", "denied by default in policy 2", two.commanded(subscribe, 12)[20:].decode())
        room.policy(ALLOW)
        room.order("reload")
        same("the image again", source, two.image())
        same("an offer again", TAKEN, one.ask(offer(publication, b"after", seen=1, wait=1000))[0][0])
        answer = two.ask(poll(subscription, source, wait=1000))
        same("what is read", [b"after"], [body[12:] for kind, body in answer if kind == FRAGMENT])


def differs(room, old, new):
    """What `diff` says of two policies."""
    paths = room.path + "/old.toml", room.path + "/new.toml"
    for path, words in zip(paths, (old, new)):
        with open(path, "w", encoding="ascii") as file:
            file.write(words)
    _, out, err = room.call("diff", *paths)
    same("a fault of diff", "", err)
    return out


def case_a_reload_says_what_it_changes(room):
    room.serve(policy=ALLOW)
    need("differ" in differs(room, ALLOW, WITHOUT), "no difference")

    def reload(policy):
        room.policy(policy)
        return room.order("reload")

    same("a reload", (0, "policy 2 in force\n" + differs(room, ALLOW, WITHOUT), ""), reload(WITHOUT))
    same("the same text", (0, "policy 3 in force\nno difference\n", ""), reload(WITHOUT))
    same("a fault", 1, reload("version = 9\n")[0])
    # what is in force is compared, and not the text with the fault
    same("another", (0, "policy 4 in force\n" + differs(room, WITHOUT, ALLOW), ""), reload(ALLOW))


def case_a_policy_that_changes_on_disk(room):
    driver = room.serve("--reload-every", "1")
    with Peer(room.at("p1")) as one, Peer(room.at("p2")) as two:
        one.enter(), two.enter()
        subscription, _ = two.registered(subscribe), one.registered(publish)
        source = two.image()
        room.policy(WITHOUT)
        gone = struct.pack("<IQQi", 0x0F05, source, subscription, 10)
        _, first = until("ON_UNAVAILABLE_IMAGE", lambda: gone in two.replies(100))
        until("the line", lambda: "policy 2 in force" in said(driver.err).splitlines())
        room.policy("version = 9\n")
        _, second = until("the fault", lambda: ":1:1: version = 9: wanted 1 or 2; see: aeron_policyd lint " in said(driver.err))
        soon(first < 5 and second < 5, "a file is read again after", first, second)
        same("a subscription after it", "denied by default in policy 2", two.commanded(subscribe, 12)[20:].decode())


def case_no_message_overtakes_a_refused_one(room):
    """Offers are sent ahead, past what the slowest reader allows; then again from the refused one on."""
    room.serve()
    with Peer(room.at("p1")) as one, Peer(room.at("p2")) as two:
        one.enter(), two.enter()
        subscription, publication = two.registered(subscribe), one.registered(publish)
        source = two.image()
        messages = [b"%06d" % number + b"." * 994 for number in range(600)]
        read, refusals, first, skipped = [], 0, 0, 0
        while first < len(messages):
            ahead = messages[first : first + 100]
            one.send(b"".join(offer(publication, message, seen=refusals) for message in ahead))
            answers = [one.receive() for _ in ahead]
            kinds = [kind if kind == TAKEN else code_of(body) for kind, body in answers]
            taken = kinds.count(TAKEN)
            same("the answers", [TAKEN] * taken, kinds[:taken])
            if taken < len(ahead):
                same("the first refusal", -2, kinds[taken])
                same("the others", [-6] * (len(ahead) - taken - 1), kinds[taken + 1 :])
                skipped += len(ahead) - taken - 1
                refusals += 1
            first += taken
            for _ in range(2):
                answer = two.ask(poll(subscription, source, limit=40))
                read += [body[12:] for kind, body in answer if kind == FRAGMENT]
        while len(read) < len(messages):
            answer = two.ask(poll(subscription, source, wait=1000))
            need(len(answer) > 1, "after", len(read), "messages nothing comes")
            read += [body[12:] for kind, body in answer if kind == FRAGMENT]
        need(refusals > 2 and skipped > 20, refusals, "refusals,", skipped, "skipped: too few to show anything")
        need(read == messages, "the messages differ")


def case_positions_of_a_log(room):
    """Each to its owner alone, as exact bytes: a term has 65,536, and a log takes half a term past its slowest reader."""
    room.serve()
    with Peer(room.at("p1")) as one, Peer(room.at("p2")) as two:
        one.enter(), two.enter()
        publication = one.registered(publish)
        nobody = struct.pack("<QQQQI", 0, 0, 0, 0, 0)
        same("nobody reads", [(PUBLICATION_IS, nobody)], one.ask(publication_positions(publication)))
        subscription = two.registered(subscribe)
        source = two.image()
        for words in (b"bid 99", b"ask 101", b"ask 102"):
            same("an offer", TAKEN, one.ask(offer(publication, words, wait=1000))[0][0])
        for read in (0, 64, 128, 192):
            written = struct.pack("<QQQQI", 192, read + 32_768, 0, 0, 1)
            same("the publication", [(PUBLICATION_IS, written)], one.ask(publication_positions(publication)))
            seen = struct.pack("<QQQ", 0, read, 192)
            same("the image", [(IMAGE_IS, seen)], two.ask(image_positions(subscription, source)))
            two.ask(poll(subscription, source, limit=1))

        def refused(what, peer, request):
            ((kind, body),) = peer.ask(request)
            same(what, (REFUSED, -4, "closed"), (kind, code_of(body), words_of(body)))

        refused("a publication of another client", two, publication_positions(publication))
        refused("a subscription of another client", one, image_positions(subscription, source))
        refused("a subscription as a publication", two, publication_positions(subscription))
        refused("a source that it does not read", two, image_positions(subscription, 99))
        one.commanded(unpublish, publication)
        refused("a publication that is gone", one, publication_positions(publication))


def case_positions_over_datagrams(room):
    """What the receiver that is heard has taken, and what the subscription has of it."""
    send, receive = free_ports(2)
    room.serve("--setting", "send-address=127.0.0.1:%d" % send)
    channel = "aeron:udp?endpoint=127.0.0.1:%d" % receive
    with Peer(room.at("p1")) as one, Peer(room.at("p2")) as two:
        one.enter(), two.enter()
        subscription, publication = two.registered(subscribe, 10, channel), one.registered(publish, 10, channel)
        source = two.image()
        until("the receiver is heard", lambda: one.ask(publication_positions(publication))[0][1][32:] == b"\3\0\0\0")
        for words in (b"bid 99", b"ask 101"):
            same("an offer", TAKEN, one.ask(offer(publication, words, wait=1000))[0][0])
        seen = struct.pack("<QQQ", 0, 0, 128)
        until("all is received", lambda: two.ask(image_positions(subscription, source)) == [(IMAGE_IS, seen)])
        same("the fragments", 3, len(two.ask(poll(subscription, source))))
        taken = struct.pack("<QQQQI", 128, 128 + 32_768, 128, 128, 3)
        until("all is taken", lambda: one.ask(publication_positions(publication)) == [(PUBLICATION_IS, taken)])


def parts_of(answer):
    """The parts of an answer to POLL_ALL: of each its place, its payloads, and why it was refused; then the count of DONE."""
    parts = []
    for kind, body in answer:
        if kind == PART:
            parts.append([struct.unpack("<I", body)[0], []])
        elif kind == FRAGMENT:
            parts[-1][1].append(body[12:])
        elif kind == PART_REFUSED:
            parts[-1].append((code_of(body), words_of(body)))
        else:
            parts.append((kind, struct.unpack("<I", body)[0]))
    return parts


def case_several_sources_by_one_poll(room):
    """Each pair once, in the order in which they stand, each with its place; a refused one beside the others."""
    room.serve()
    with Peer(room.at("p1")) as one, Peer(room.at("p2")) as two:
        one.enter(), two.enter()
        pairs, publications = [], []
        for stream in (10, 11, 12):
            subscription = two.registered(subscribe, stream)
            publications.append(one.registered(publish, stream))
            pairs.append((subscription, two.image()))
        same("nothing there", [(DONE, 0)], parts_of(two.ask(poll_all(pairs))))
        same("no pairs", [(DONE, 0)], parts_of(two.ask(poll_all([]))))
        for words in (b"a1", b"a2", b"a3"):
            same("an offer", TAKEN, one.ask(offer(publications[0], words))[0][0])
        same("an offer", TAKEN, one.ask(offer(publications[2], b"c1"))[0][0])
        same("what is there", [[0, [b"a1", b"a2"]], [2, [b"c1"]], (DONE, 2)], parts_of(two.ask(poll_all(pairs, limit=2))))
        one.ask(offer(publications[0], b"a4"))
        same("a pair twice", [[1, [b"a3"]], [2, [b"a4"]], (DONE, 2)],
             parts_of(two.ask(poll_all([pairs[1], pairs[0], pairs[0]], limit=1))))
        one.ask(offer(publications[1], b"b1"))
        closed = (-4, "closed")
        another = (pairs[0][0], pairs[1][1])
        same("a source that it does not read", [[0, [], closed], [1, [b"b1"]], [2, [], closed], (DONE, 3)],
             parts_of(two.ask(poll_all([another, pairs[1], (99, 99)], wait=1000))))
        same("of another client", [[0, [], closed], (DONE, 1)], parts_of(one.ask(poll_all(pairs[:1]))))
        # 64 pairs at most
        same("64 pairs", [(DONE, 0)], parts_of(two.ask(poll_all([pairs[0]] * 64))))
        ((kind, body),) = two.ask(poll_all([pairs[0]] * 65))
        same("65 pairs", (REFUSED, 7, "malformed request"), (kind, code_of(body), words_of(body)))
        # without rights
        room.policy(WITHOUT)
        room.order("reload")
        until("the reload", lambda: parts_of(two.ask(poll_all(pairs[:1]))) == [[0, [], closed], (DONE, 1)])


def case_one_wait_for_several_sources(room):
    """It ends as soon as one of them has something, wherever that stands."""
    room.serve()
    with Peer(room.at("p1")) as one, Peer(room.at("p2")) as two:
        one.enter(), two.enter()
        pairs, publications = [], []
        for stream in range(10, 15):
            subscription = two.registered(subscribe, stream)
            publications.append(one.registered(publish, stream))
            pairs.append((subscription, two.image()))
        begun = time.monotonic()
        same("nothing comes", [(DONE, 0)], parts_of(two.ask(poll_all(pairs, wait=300))))
        took = time.monotonic() - begun
        need(took > 0.25, "a wait of 0.3 s took", took)
        soon(took < 2, "a wait of 0.3 s took", took)
        for place in (4, 0, 2):
            asked = time.monotonic()
            two.send(poll_all(pairs, wait=1000))
            time.sleep(0.05)
            begun = time.monotonic()
            words = b"for %d" % place
            same("an offer", TAKEN, one.ask(offer(publications[place], words))[0][0])
            soon(time.monotonic() - asked < 0.9, "it is offered after", time.monotonic() - asked)
            same("what comes", [[place, [words]], (DONE, 1)], parts_of(two.answer()))
            soon(time.monotonic() - begun < 0.5, "it came after", time.monotonic() - begun)


def case_one_subscriber_of_many_sources(room):
    """Of more than one request names, and of no more messages than are wanted."""
    room.serve("--publications", "80", "--pages", "8000", "--setting", "arena-pages=8192", *PATIENT)
    with Peer(room.at("p1")) as one:
        one.enter()
        publications = [one.registered(publish_alone) for _ in range(70)]
        for count in (210, 100, 5):
            until("the last subscriber is gone", lambda: len(room.clients()) == 1)
            words = ("subscribe", "--driver", room.at("p2"), "--count", str(count), "aeron:ipc", "10")
            reader = room.start(room.program, *words)
            until("a subscription", lambda: any(" 1 subscriptions" in line for line in room.clients()))
            # all of them wait before it reads one more
            os.kill(reader.pid, signal.SIGSTOP)
            try:
                for at in range(3):
                    for number, publication in enumerate(publications):
                        same("an offer", TAKEN, one.ask(offer(publication, b"%d %d" % (number, at), wait=1000))[0][0])
            finally:
                os.kill(reader.pid, signal.SIGCONT)
            same("status of the subscriber", 0, room.ended(reader))
            lines = said(reader.out).splitlines()
            same("how many lines", count, len(lines))
            need("received %d messages" % count in said(reader.err), said(reader.err))
            for number in range(70):
                got = [line for line in lines if line.split()[0] == str(number)]
                same("what is read of one source", ["%d %d" % (number, at) for at in range(len(got))], got)


def case_a_wait_is_a_second_at_most(room):
    room.serve()
    with Peer(room.at("p2")) as two:
        two.enter()
        subscription = two.registered(subscribe)
        for request, wanted in ((mail(5000), DONE), (mail(0xFFFFFFFF), DONE), (poll(subscription, 77, wait=300), REFUSED)):
            begun = time.monotonic()
            answer = two.ask(request)
            took = time.monotonic() - begun
            same("the answer", wanted, answer[-1][0])
            need(wanted == REFUSED or took > 0.9, "it waited for", took)
            soon(took < 3, "it waited for", took)
        begun = time.monotonic()
        two.send(mail(400) + mail(400))
        two.answer(), two.answer()
        took = time.monotonic() - begun
        need(took > 0.7, "two waits of 0.4 s took", took)
        soon(took < 3, "two waits of 0.4 s took", took)


def case_a_publisher_waits_in_the_driver(room):
    """An offer that waits is taken as soon as the reader has polled."""
    room.serve()
    with Peer(room.at("p1")) as one, Peer(room.at("p2")) as two:
        one.enter(), two.enter()
        subscription, publication = two.registered(subscribe), one.registered(publish)
        source = two.image()
        taken = 0
        while one.ask(offer(publication, b"x" * 1000))[0][0] == TAKEN:
            taken += 1
            need(taken < 1000, "no back pressure")
        need(taken >= 25, "back pressure after", taken)
        answers = []
        begun = time.monotonic()
        thread = threading.Thread(target=lambda: answers.extend(one.ask(offer(publication, b"last", seen=1, wait=1000))))
        thread.start()
        count = 0
        while count < taken:
            count += len(two.ask(poll(subscription, source, limit=10))) - 1
        took = time.monotonic() - begun
        thread.join(60)
        soon(took < 0.9, "all is read after", took)
        same("the offer that waited", [TAKEN], [kind for kind, _ in answers])


def case_long_messages_come_in_fragments(room):
    room.serve()
    with Peer(room.at("p1")) as one, Peer(room.at("p2")) as two:
        one.enter(), two.enter()
        subscription, publication = two.registered(subscribe), one.registered(publish)
        source = two.image()
        for size in (0, 1, 1376, 1377, 2752, 8192):
            message = bytes(number % 251 for number in range(size))
            same("an offer of %d" % size, TAKEN, one.ask(offer(publication, message, wait=1000))[0][0])
            answer = [body for kind, body in two.ask(poll(subscription, source, wait=1000)) if kind == FRAGMENT]
            flags = [struct.unpack_from("<I", body, 8)[0] for body in answer]
            count = max(1, -(-size // 1376))
            whole = [0xC0] if count == 1 else [0x80] + [0] * (count - 2) + [0x40]
            same("the flags for %d" % size, whole, flags)
            need(b"".join(body[12:] for body in answer) == message, "the bytes of", size)
        ((kind, body),) = one.ask(offer(publication, b"x" * 8193))
        same("one that is longer", (REFUSED, 8, "too long"), (kind, code_of(body), words_of(body)))


def case_counters_are_seen_as_the_policy_says(room):
    room.serve(policy=PRICES)
    import aeron_policyd

    with aeron_policyd.connect(room.at("p1")) as one, aeron_policyd.connect(room.at("p2")) as two:
        counter = one.counter(2000, "orders")
        counter.set(-5)
        same("what p1 sees", [(counter.registration, 2000, -5, "orders")], [tuple(row) for row in one.counters()])
        same("its value", -5, one.value(counter.registration))
        same("what p2 sees", [], two.counters())
        try:
            two.value(counter.registration)
            raise Failed("p2 gets the value")
        except aeron_policyd.Denied as denied:
            same("the denial", ("denied by default in policy 1", None, 1), (denied.text, denied.rule, denied.policy))
        status, out, _ = room.call("stat", "--driver", room.at("p1"))
        same("status of stat", 0, status)
        need(any("2000" in line and "-5" in line and "orders" in line for line in out.splitlines()), out)


def case_what_another_one_wrote_is_printed_plain(room):
    room.serve()
    label = "a\x1b[2J\n    999       9999                     1  forged\r\x7f\t"
    with Peer(room.at("p1")) as one:
        one.enter()
        one.registered(lambda client, correlation: command(9, client, correlation, struct.pack("<iI", 2000, 0) + text(label)))
        status, out, err = room.call("stat", "--driver", room.at("p2"))
        same("status of stat", (0, ""), (status, err))
        (line,) = [line for line in out.split("\n") if "2000" in line]
        need(line.endswith("  a<27>[2J<10>    999       9999                     1  forged<13><127><9>"), line)
        need(not [letter for letter in out if not (" " <= letter <= "~" or letter == "\n")], repr(out))


def case_what_a_driver_says_is_printed_plain(room):
    words = "no\x1b[2J\r\n\u009bforged"
    plain = "no<27>[2J<13><10><155>forged"
    path = room.path + "/scripted.sock"
    denied = []

    def by_a_reply(kind, fields):
        if kind == COMMAND:
            _, _, correlation = struct.unpack_from("<IQQ", fields)
            denied.append(struct.pack("<IQiI", 0x0F01, correlation, 1001, 5) + b"\x1b[2J\n")
            return scripted.done()
        return scripted.mail(*denied)

    def refused(kind, fields):
        return scripted.refused(1, words)

    def lines(kind, fields):
        return record(LINE, words.encode()) + scripted.done(1)

    head = "    NUMBER       TYPE                 VALUE  LABEL\n"
    said_so = "aeron_policyd: %s\n" % plain
    for greeting, answer, order, wanted in (
        (None, refused, ("stat",), (1, head, said_so)),
        (b"", refused, ("reload",), (1, "", said_so)),
        (b"", lines, ("clients",), (0, plain + "\n", "")),
        (None, by_a_reply, ("publish", "aeron:udp?endpoint=127.0.0.1:40123", "10"), (1, "", "aeron_policyd: <27>[2J<10>\n")),
    ):
        with scripted.Scripted(path, answer, greeting):
            same(order[0], wanted, room.call(*order, "--driver", path))
