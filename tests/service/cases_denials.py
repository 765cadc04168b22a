"""What a driver that serves says of denials: whose act, by which rule, once, and how often it came again."""

import os
import subprocess
import threading
import time

import aeron_policyd
from cases_files import Pipe
from harness import ALLOW, DENY, free_ports, need, own_port, said, same, soon, until

# How long a driver counts what it said, in seconds.
PERIOD = 10.0

RULE = '\n[[rule]]\nname = "%s"\nprincipal = "%s"\nact = %s\nchannel = "*"\nstream = [%d, %d]\nallow = false\n'


def rule(name, principal, act, stream):
    """A rule that denies acts on one stream."""
    acts = "[%s]" % ", ".join('"%s"' % one for one in act.split())
    return RULE % (name, principal, acts, stream, stream)


def denials(driver):
    """The lines of denials that a driver said so far."""
    return [line for line in said(driver.err).splitlines() if " denied by " in line or "other denials" in line]


def denied(call, *words, **more):
    """The denial that a call raises."""
    try:
        call(*words, **more)
    except aeron_policyd.Denied as denial:
        return denial
    need(False, call.__name__, "is not denied")


def case_denials_are_said_once_with_their_rule(room):
    """Of the conductor, by commands and by pairs that a reload takes away, and of clients, by offers and polls."""
    policy = (ALLOW + rule("no orders", "p1", "publish", 101) + rule("silent", "p1", "offer", 102)
              + rule("deaf", "p2", "receive", 103))
    driver = room.serve(policy=policy)
    with aeron_policyd.connect(room.at("p1")) as one, aeron_policyd.connect(room.at("p2")) as two:
        for _ in range(3):
            denied(one.publication, "aeron:ipc", 101)
        mute = one.publication("aeron:ipc", 102)
        two.subscription("aeron:ipc", 102)
        for _ in range(3):
            denied(mute.offer, b"x")
        deaf, heard = two.subscription("aeron:ipc", 103), one.publication("aeron:ipc", 103)
        heard.offer(b"x", wait=10.0)
        for _ in range(3):
            denied(deaf.poll, wait=1.0)
        wanted = {
            'p1: publish on stream 101 denied by rule 1 "no orders" in policy 1',
            'p1: offer on stream 102 denied by rule 2 "silent" in policy 1',
            'p2: receive on stream 103 denied by rule 3 "deaf" in policy 1',
        }
        until("each denial", lambda: set(denials(driver)) == wanted)
        # a pair that goes, and the names of a later policy
        blind, seen = two.subscription("aeron:ipc", 104), one.publication("aeron:ipc", 104)
        seen.offer(b"x", wait=10.0)
        same("what is read", [b"x"], [message.data for message in blind.poll(wait=10.0)])
        room.policy(ALLOW + rule("nothing", "p1", "publish", 101) + rule("blind", "p2", "image", 104))
        same("a reload", 0, room.order("reload")[0])
        denied(one.publication, "aeron:ipc", 101)
        later = {
            'p1: publish on stream 101 denied by rule 1 "nothing" in policy 2',
            'p2: image on stream 104 denied by rule 2 "blind" in policy 2',
        }
        until("those of the second policy", lambda: later <= set(denials(driver)))
    lines = denials(driver)
    same("how often each is said", 1, max(lines.count(line) for line in lines))


def times_of(line):
    """How often a denial came again, as that line says."""
    return 1 if line.endswith(", once more") else int(line.split()[-3])


def case_a_thousand_denials_are_two_lines(room):
    driver = room.serve(policy=ALLOW + rule("silent", "p1", "offer", 102))
    line = 'p1: offer on stream 102 denied by rule 1 "silent" in policy 1'
    with aeron_policyd.connect(room.at("p1")) as one:
        mute = one.publication("aeron:ipc", 102)
        for _ in range(1000):
            denied(mute.offer, b"x")
        # the client says now and then that it is there
        until("the others", lambda: one.keepalive() or sum(times_of(text) for text in denials(driver)[1:]) == 999)
        lines = denials(driver)
        same("the first", [line], lines[:1])
        same("those after it", {line}, {text.rpartition(",")[0] for text in lines[1:]})
        soon(len(lines) == 2, lines)
        # it did not come again
        end = time.monotonic() + PERIOD + 2
        while time.monotonic() < end:
            one.keepalive()
            time.sleep(0.5)
        same("what is said then", lines, denials(driver))


def case_more_denials_than_are_told_apart(room):
    """Sixteen of a principal are said in ten seconds, the others are counted; another principal's are said beside them."""
    driver = room.serve(policy=DENY)
    with aeron_policyd.connect(room.at("p1")) as one, aeron_policyd.connect(room.at("p2")) as two:
        for stream in range(100):
            denied(one.publication, "aeron:ipc", stream)
        denied(two.subscription, "aeron:ipc", 7)
        until("that of p2", lambda: "p2: subscribe on stream 7 denied by default in policy 1" in denials(driver))

        def said_and_not():
            firsts = [line for line in denials(driver) if line.startswith("p1: publish on stream ")]
            return len(firsts), sum(int(line.split()[1]) for line in denials(driver) if line.endswith(" other denials"))

        until("all of p1", lambda: two.keepalive() or sum(said_and_not()) == 100)
    firsts, others = said_and_not()
    need(16 <= firsts <= 48 and others > 0, firsts, "are said, and", others, "are not")


def case_denials_on_the_wire_are_said(room):
    """What is withheld, by its act and principal and by its address; and a SETUP whose image is denied."""
    send, receive, withheld = free_ports(3)
    policy = ALLOW + rule("stays here", "p1", "send", 103) + rule("not to p2", "p2", "image", 104)
    driver = room.serve("--setting", "send-address=127.0.0.1:%d" % send, policy=policy)
    with aeron_policyd.connect(room.at("p1")) as one, aeron_policyd.connect(room.at("p2")) as two:
        one.publication("aeron:udp?endpoint=127.0.0.1:%d" % withheld, 103)
        two.subscription("aeron:udp?endpoint=127.0.0.1:%d" % receive, 104)
        one.publication("aeron:udp?endpoint=127.0.0.1:%d" % receive, 104)
        wanted = {
            'p1: send on stream 103 denied by rule 1 "stays here" in policy 1',
            "withheld from 127.0.0.1:%d: denied by rule 1 in policy 1" % withheld,
            "SETUP from 127.0.0.1:%d: denied by rule 2 in policy 1" % send,
        }
        until("each denial", lambda: wanted <= set(denials(driver)))
    lines = [line for line in denials(driver) if not line.endswith(" more")]
    same("how often each is said", 1, max(lines.count(line) for line in wanted))


def case_denials_that_nobody_reads(room):
    """A log that nobody drains holds up neither who is denied nor who is not."""
    pipe = Pipe()
    policy = ALLOW + rule("silent", "p1", "offer", 102) + RULE % ("none", "p1", '"publish"', 1000, 99999)
    room.policy(policy)
    words = (room.program, "serve", "--policy", room.policy_path, "--folder", room.folder, "--door", "p1", "--door", "p2", *own_port())
    driver = subprocess.Popen(words, stdin=subprocess.DEVNULL, stdout=subprocess.DEVNULL, stderr=pipe.writes, start_new_session=True)
    room.processes.append(driver)
    until("a driver", lambda: os.path.exists(room.at("p2")))
    with aeron_policyd.connect(room.at("p1")) as one, aeron_policyd.connect(room.at("p2")) as two:
        mute = one.publication("aeron:ipc", 102)
        reads, writes = two.subscription("aeron:ipc", 10), two.publication("aeron:ipc", 10)
        over = threading.Event()

        def deny():
            stream = 1000
            while not over.is_set():
                denied(mute.offer, b"x")
                denied(one.publication, "aeron:ipc", stream)
                stream += 1

        thread = threading.Thread(target=deny)
        thread.start()
        try:
            for number in range(300):
                writes.offer(b"%d" % number, wait=10.0)
                same("a message", [b"%d" % number], [message.data for message in reads.poll(wait=10.0)])
            room.policy(policy + rule("one more", "p2", "spy", 7))
            need(room.asked("reload").startswith("policy 2 in force"), "a reload")
        finally:
            over.set()
            thread.join()
    room.asked("stop")
    same("status of the driver", 0, driver.wait(60))
    pipe.drain()
