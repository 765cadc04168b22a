"""The files of a driver that serves: a policy that is read again, and standard error that nobody reads."""

import fcntl
import os
import subprocess
import threading
import time

import aeron_policyd
from harness import ALLOW, DENY, need, own_port, said, same, soon, until
from raw import Peer

# Nobody waits longer at a door while the policy's file is read, in seconds: far longer than a connection takes, and far less
# than reading what is read there.
AT_A_DOOR = 4.0


def comes_in(room, name):
    """How long a client of that principal takes to come in, in seconds."""
    begun = time.monotonic()
    with Peer(room.at(name)) as one:
        one.enter()
    return time.monotonic() - begun


def reloading(room):
    """A reload by the program, which need not have ended."""
    return room.start(room.program, "reload", "--driver", room.at("operator"))


def put_at(path, make):
    """Puts something in the place of a file."""
    if os.path.isdir(path) and not os.path.islink(path):
        os.rmdir(path)
    elif os.path.lexists(path):
        os.remove(path)
    make(path)


def put(room, make):
    """Puts something in the place of the policy's file."""
    put_at(room.policy_path, make)


def of_size(size):
    def make(path):
        with open(path, "wb") as file:
            file.truncate(size)

    return make


def of_keys(count):
    def make(path):
        with open(path, "w", encoding="ascii") as file:
            file.write("".join("k%d=1\n" % number for number in range(count)))

    return make


def case_a_policy_that_is_no_regular_file(room):
    room.serve()
    for what, make, wanted in (
        ("a pipe", os.mkfifo, "cannot read %s: it is no regular file"),
        ("a folder", os.mkdir, "cannot read %s: it is no regular file"),
        ("a device", lambda path: os.symlink("/dev/zero", path), "cannot read %s: it is no regular file"),
        ("a link to nowhere", lambda path: os.symlink(room.path + "/nowhere", path), "cannot read %s: no such file"),
        ("16 MiB and a byte", of_size(16777217), "%s: too long"),
    ):
        put(room, make)
        asked = reloading(room)
        soon(comes_in(room, "p2") < AT_A_DOOR, "a door waits for", what)
        room.clients()
        same(what, 1, room.ended(asked))
        same(what, "aeron_policyd: %s\n" % (wanted % room.policy_path), said(asked.err))
        need("policy refused: " + wanted % room.policy_path in said(room.driver.err).splitlines(), what, "is not said")
    # a driver does not start with one
    room.asked("stop")
    same("status of the driver", 0, room.ended(room.driver))
    put(room, os.mkfifo)
    status, out, err = room.call("serve", "--policy", room.policy_path, "--folder", room.folder, "--door", "p1")
    wanted = "aeron_policyd: cannot read %s: it is no regular file\n" % room.policy_path
    same("a driver of a pipe", (1, "", wanted), (status, out, err))


def case_a_policy_of_many_keys(room):
    """What is wrong with it takes no time that grows with their square, and nobody at a door waits for it."""
    room.serve()
    put(room, of_keys(60000))
    asked = reloading(room)
    while asked.poll() is None:
        soon(comes_in(room, "p2") < AT_A_DOOR, "a door waits")
        room.clients()
        time.sleep(0.2)
    same("the reload", 1, room.ended(asked))
    need(":1:1: k0 = 1: no such key" in said(asked.err) or "version" in said(asked.err), said(asked.err))
    # an operator may stop the driver meanwhile
    asked = reloading(room)
    time.sleep(0.2)
    begun = time.monotonic()
    room.asked("stop")
    same("status of the driver", 0, room.ended(room.driver))
    soon(time.monotonic() - begun < AT_A_DOOR, "the end waits for the file")


def case_a_policy_that_is_half_written(room):
    """It is read once it stood still for a second; until then each front of it is a policy that allows what the whole denies."""
    rule = '[[rule]]\nname = "r%d"\nprincipal = "p2"\nact = "*"\nchannel = "*"\nstream = [%d, %d]\nallow = false\n'
    parts = [ALLOW.replace("version = 1", "version = 1")] + [rule % (stream, stream, stream) for stream in range(10, 20)]
    driver = room.serve("--reload-every", "1", policy=DENY)
    with open(room.policy_path, "w", encoding="ascii") as file:
        for part in parts:
            file.write(part)
            file.flush()
            time.sleep(0.4)
        written = said(driver.err)
    soon("in force" not in written and "refused" not in written, "a front of it was taken:", written)
    until("the whole", lambda: "policy 2 in force" in said(driver.err))
    lines = said(driver.err).splitlines()
    same("how often it was taken", 1, sum("in force" in line for line in lines))
    need(any("allow by default" in line or "allow" in line for line in lines), "what it changes is not said:", lines)
    need(lines[-1].endswith("differ") or lines[-1].endswith("differs"), lines)
    # what is moved into its place is whole at once
    with open(room.path + "/next", "w", encoding="ascii") as file:
        file.write(ALLOW)
    os.rename(room.path + "/next", room.policy_path)
    until("the next", lambda: "policy 3 in force" in said(driver.err))


def case_names_are_read_again(room):
    names = room.path + "/names"
    policy = DENY + '[[rule]]\nname = "who reads"\nprincipal = "%s"\nact = "*"\nchannel = "*"\nallow = true\n'
    with open(names, "w", encoding="ascii") as file:
        file.write("principal desk 1\nprincipal screen 2\n")
    room.serve("--names", names, policy=policy % "desk", doors=("desk", "screen"))
    room.policy(policy % "audit")
    status, _, err = room.order("reload")
    need(status == 1 and "no such principal" in err, status, err)
    with open(names, "a", encoding="ascii") as file:
        file.write("principal audit 3\n")
    status, out, err = room.order("reload")
    same("with its name", (0, "policy 2 in force", ""), (status, out.split("\n")[0], err))
    with open(names, "a", encoding="ascii") as file:
        file.write("principal ../x 4\n")
    status, _, err = room.order("reload")
    same("a name that is none", 1, status)
    need("%s:4: ../x: wanted a name" % names in err, err)
    with aeron_policyd.connect(room.at("desk")) as one:
        one.keepalive()


class Pipe:
    """A pipe that is full, as standard error of a driver."""

    def __init__(self):
        self.reads, self.writes = os.pipe()
        fcntl.fcntl(self.writes, 1031, 4096)
        os.set_blocking(self.writes, False)
        try:
            while True:
                os.write(self.writes, b"x" * 4095 + b"\n")
        except BlockingIOError:
            pass
        os.set_blocking(self.writes, True)
        self.text = b""

    def drain(self):
        """Reads on from now on, until the other end is closed."""
        os.close(self.writes)

        def read():
            while True:
                some = os.read(self.reads, 65536)
                if not some:
                    return
                self.text += some

        thread = threading.Thread(target=read, daemon=True)
        thread.start()

    def lines(self):
        return self.text.decode("ascii", "replace").splitlines()


def case_standard_error_that_nobody_reads(room):
    """It holds up nothing. What could not be written is counted, and said once it can be."""
    pipe = Pipe()
    room.policy(ALLOW)
    words = (room.program, "serve", "--policy", room.policy_path, "--folder", room.folder, "--door", "p1", "--door", "p2", *own_port())
    driver = subprocess.Popen(words, stdin=subprocess.DEVNULL, stdout=subprocess.DEVNULL, stderr=pipe.writes, start_new_session=True)
    room.processes.append(driver)
    until("a driver", lambda: os.path.exists(room.at("p2")))
    for _ in range(200):
        with Peer(room.at("p1")) as one:
            one.enter()
    soon(comes_in(room, "p2") < AT_A_DOOR, "a door waits")
    # more is said than may wait
    for _ in range(300):
        room.asked("reload")
    room.clients()
    pipe.drain()
    until("a line that says so", lambda: any(line.endswith(" lines were dropped") for line in pipe.lines()))
    room.asked("stop")
    same("status of the driver", 0, driver.wait(60))
    until("the last line", lambda: any(line.startswith("stopped after") for line in pipe.lines()))
    # what was dropped is said after what was not
    numbers = [int(line.split()[1]) for line in pipe.lines() if line.startswith("policy ")]
    dropped = sum(int(line.split()[0]) for line in pipe.lines() if line.endswith(" lines were dropped"))
    same("the policies of which something was said", sorted(set(numbers)), numbers)
    need(dropped > 0 and len(numbers) + dropped >= 300, len(numbers), dropped)


def case_a_driver_stops_though_nobody_reads(room):
    pipe = Pipe()
    room.policy(ALLOW)
    words = (room.program, "serve", "--policy", room.policy_path, "--folder", room.folder, "--door", "p1", *own_port())
    driver = subprocess.Popen(words, stdin=subprocess.DEVNULL, stdout=subprocess.DEVNULL, stderr=pipe.writes, start_new_session=True)
    room.processes.append(driver)
    until("a driver", lambda: os.path.exists(room.at("p1")))
    comes_in(room, "p1")
    room.asked("stop")
    same("status of the driver", 0, driver.wait(60))
    same("what is left", [], os.listdir(room.folder))


def case_connections_are_said_ten_times_a_second(room):
    driver = room.serve()
    begun = time.monotonic()
    for _ in range(150):
        with Peer(room.at("p1")) as one:
            one.enter()
    seconds = time.monotonic() - begun
    comes_in(room, "p2")
    until("what was not said", lambda: "more lines of p1 in a second" in said(driver.err))
    time.sleep(1.5)
    lines = said(driver.err).splitlines()
    of_p1 = [line for line in lines if line.startswith("client ") and (line.endswith(" of p1") or " left" in line)]
    need(len(of_p1) <= 10 * (int(seconds) + 3), len(of_p1), "lines in", seconds, "s")
    unsaid = sum(int(line.split()[0]) for line in lines if line.endswith(" more lines of p1 in a second"))
    # each came and went, and the two lines of p2's one may be among these
    need(300 <= len(of_p1) + unsaid <= 302, len(of_p1), unsaid)
    need(any(line.endswith(" of p2") for line in lines), "p2 was not said")
