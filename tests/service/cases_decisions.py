"""What a driver that serves decided, as an operator sees it: `decisions`."""

import json
import re

import aeron_policyd
from cases_denials import denied, rule
from harness import ALLOW, DENY, need, said, same, until

# How a line begins: with the moment of the decision.
LINE = re.compile(r"^\d{4}-\d\d-\d\dT\d\d:\d\d:\d\d(?:\.\d{1,9})?Z ")


def told(room, *words):
    """The lines of `decisions`, without their moments."""
    status, out, err = room.call("decisions", "--driver", room.at("operator"), *words)
    same("decisions", (0, ""), (status, err))
    for line in out.splitlines():
        need(LINE.match(line) or line.endswith(" decisions were passed over"), "no decision:", line)
    return [LINE.sub("", line) for line in out.splitlines()]


def case_decisions_are_told_with_their_rules(room):
    room.serve(policy=ALLOW + rule("no orders", "p1", "publish", 101) + rule("silent", "p1", "offer", 102))
    same("before anybody asks", [], told(room))
    with aeron_policyd.connect(room.at("p1")) as one, aeron_policyd.connect(room.at("p2")) as two:
        denied(one.publication, "aeron:ipc", 101)
        mute = one.publication("aeron:ipc", 102)
        two.subscription("aeron:ipc", 102)
        denied(mute.offer, b"x")
        wanted = [
            'p1: publish on stream 101 denied by rule 1 "no orders" in policy 1',
            "p1: publish on stream 102 allowed by default in policy 1",
            "p2: subscribe on stream 102 allowed by default in policy 1",
            "p2: image on stream 102 allowed by default in policy 1",
            'p1: offer on stream 102 denied by rule 2 "silent" in policy 1',
        ]
        until("all of them", lambda: set(wanted) <= set(told(room)))
        need([line for line in told(room) if line in wanted[:4]] == wanted[:4], "their order:", told(room))
        denials = [line for line in wanted if " denied " in line]
        same("the denials", sorted(denials), sorted(told(room, "--denied")))
        # each as JSON, with the same words
        status, out, err = room.call("decisions", "--driver", room.at("operator"), "--denied", "--json")
        same("as JSON", (0, ""), (status, err))
        objects = sorted((json.loads(line) for line in out.splitlines()), key=lambda found: found["rule"])
        need(all(LINE.match(found.pop("moment") + " ") for found in objects), out)
        subjects = [found.pop("subject") for found in objects]
        same("what they are about", (0, True), (subjects[0], subjects[1] > 0))
        same("objects", [
            {"act": "publish", "allow": False, "name": "no orders", "policy": 1, "principal": "p1", "rule": 1, "stream": 101},
            {"act": "offer", "allow": False, "name": "silent", "policy": 1, "principal": "p1", "rule": 2, "stream": 102},
        ], objects)


def case_decisions_are_followed(room):
    driver = room.serve(policy=DENY)
    follower = room.start(room.program, "decisions", "--driver", room.at("operator"), "--follow", "--denied")
    with aeron_policyd.connect(room.at("p2")) as two:
        for stream in range(5):
            denied(two.subscription, "aeron:ipc", stream)
            line = "p2: subscribe on stream %d denied by default in policy 1\n" % stream
            until("stream %d" % stream, lambda: said(follower.out).endswith(line))
    same("each once", 5, len(said(follower.out).splitlines()))
    room.asked("stop")
    same("status of the driver", 0, room.ended(driver))
    same("status of who followed", 1, room.ended(follower))
    need(said(follower.err).startswith("aeron_policyd: "), said(follower.err))


def case_decisions_that_are_not_kept_are_counted(room):
    room.serve(policy=DENY)
    count = 4096 + 300
    with aeron_policyd.connect(room.at("p2")) as two:
        for stream in range(count):
            denied(two.subscription, "aeron:ipc", stream)
            if stream % 1000 == 0:
                until("a look", lambda: told(room, "--denied")[-1:] == ["p2: subscribe on stream %d denied by default in policy 1" % stream])
        last = "p2: subscribe on stream %d denied by default in policy 1" % (count - 1)
        until("the last", lambda: told(room, "--denied")[-1:] == [last])
    lines = told(room, "--denied")
    same("those that are not kept", "300 decisions were passed over", lines[0])
    same("those that are", 4096, len(lines) - 1)
    same("the first of them", "p2: subscribe on stream 300 denied by default in policy 1", lines[1])
