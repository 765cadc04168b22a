"""What the program says at a socket, where it can't go on: whose the socket is, how its driver ended, and what is wrong with words."""

import os
import shutil
import subprocess

import aeron_policyd
from cases_doors import acting_as, refused
from harness import LeftOut, need, said, same, until


def case_a_socket_of_another_user(room):
    if os.getuid() != 0 or not shutil.which("setpriv"):
        raise LeftOut("only root can act as other users, by setpriv")
    os.chmod(room.path, 0o755)
    room.serve(doors=("p1=61001",))
    program = room.path + "/program"
    shutil.copy(room.program, program)
    os.chmod(program, 0o755)
    for socket, user in (("p1", 61001), ("operator", 0)):
        at = ("--driver", room.at(socket))
        for words in (("stat", *at), ("clients", *at), ("publish", *at, "aeron:ipc", "10"), ("subscribe", *at, "aeron:ipc", "10")):
            wanted = (1, "aeron_policyd: permission denied: socket of user %d\n" % user)
            same(" ".join(words), wanted, room.run(*acting_as(61002, 61002), program, *words)[::2])
    # where not even that may be seen
    os.chmod(room.folder, 0o700)
    words = ("stat", "--driver", room.at("p1"))
    same("a folder of another user", (1, "aeron_policyd: permission denied\n"), room.run(*acting_as(61002, 61002), program, *words)[::2])
    same("no socket", (1, "aeron_policyd: no driver serves there\n"), room.call("stat", "--driver", room.at("p9"))[::2])


def talking(room):
    """A publisher that has nothing to send yet, a subscriber, and one that looks at counters, each of them in."""
    driver = room.serve()
    publisher = room.start(room.program, "publish", "--driver", room.at("p1"), "aeron:ipc", "10", stdin=subprocess.PIPE)
    subscriber = room.start(room.program, "subscribe", "--driver", room.at("p2"), "aeron:ipc", "10")
    looks = room.start(room.program, "stat", "--driver", room.at("p1"), "--every", "1")
    until("a message", lambda: publisher.stdin.write(b"x\n") and publisher.stdin.flush() or said(subscriber.out).startswith("x\n"))
    until("all clients", lambda: len(room.clients()) == 3)
    return driver, (publisher, subscriber, looks)


def last_line(process):
    return said(process.err).splitlines()[-1]


def case_a_driver_that_stopped(room):
    driver, clients = talking(room)
    same("stop", 0, room.order("stop")[0])
    same("status of the driver", 0, room.ended(driver))
    for client in clients:
        words = (room.ended(client), last_line(client))
        same(client.args[1], (1, "aeron_policyd: the driver stopped"), words)


def case_a_driver_that_was_killed(room):
    driver, clients = talking(room)
    driver.kill()
    driver.wait()
    for client in clients:
        words = (room.ended(client), last_line(client))
        same(client.args[1], (1, "aeron_policyd: the driver ended"), words)


def case_two_doors_at_one_socket(room):
    same("a name twice", "aeron_policyd: p1 has two doors", refused(room, room.folder, "p1", "p2", "p1"))
    same("with a user", "aeron_policyd: p1 has two doors", refused(room, room.folder, "p1", "p1=61001"))
    os.mkdir(room.path + "/bus", 0o755)
    path = room.path + "/bus/a"
    same("a path twice", "aeron_policyd: two doors at " + path, refused(room, room.folder, "p1=" + path, "p2=" + path))
    names = room.path + "/names"
    with open(names, "w", encoding="ascii") as file:
        file.write("principal operator 1\n")
    words = refused(room, room.folder, "operator", more=("--names", names))
    same("that of operators", "aeron_policyd: operator has two doors", words)
    # two sockets of one principal are two doors at two places
    room.serve(doors=("p1", "p1=" + path))
    for at in (room.at("p1"), path):
        with aeron_policyd.connect(at) as one:
            same("who enters", 1, one.principal)


CHANNELS = (
    ("udp", "no scheme aeron:"),
    ("aeron:tcp", "bad media"),
    ("aeron:udp?endpoint=10.0.0.1:99999", "bad value of endpoint"),
    ("aeron:udp?endpoint=some.host:40123", "bad value of endpoint"),
    ("aeron:udp?endpoint=10.0.0.1", "bad value of endpoint"),
    ("aeron:udp?endpoint=10.0.0.1:1|mtu", "key without value"),
    ("aeron:udp?endpoint=10.0.0.1:1|=5", "empty key"),
)


def case_a_word_that_is_no_channel(room):
    """It is refused with its cause, before a driver starts and before one is asked."""
    room.serve(doors=("p1",))
    for channel, cause in CHANNELS:
        wanted = (1, "", "aeron_policyd: %s: invalid channel: %s\n" % (channel, cause))
        for way in (("--policy", room.policy_path), ("--driver", room.at("p1"))):
            for task in ("publish", "subscribe"):
                same("%s %s %s" % (task, way[0], channel), wanted, room.call(task, *way, channel, "10"))
    same("who came in", [], room.clients())
    wanted = (1, "", "aeron_policyd: aeron:<9>: invalid channel: bad media\n")
    same("a byte of control", wanted, room.call("publish", "--policy", room.policy_path, "aeron:\t", "10"))
    need("client " not in said(room.driver.err), said(room.driver.err))
