"""The sockets: who may connect, and where a driver does not start."""

import os
import shutil
import socket
import stat
import sys

import aeron_policyd
from harness import ALLOW, HERE, LeftOut, need, said, same, until
from raw import Peer

ENTER = """
import socket, sys
peer = socket.socket(socket.AF_UNIX, socket.SOCK_STREAM)
peer.settimeout(60)
try:
    peer.connect(sys.argv[1])
    print("in" if peer.recv(64)[4:6] == b"\\x01\\x01" else "refused")
except PermissionError:
    print("denied by the system")
"""


def acting_as(user, group):
    return ("setpriv", "--reuid=%d" % user, "--regid=%d" % group, "--clear-groups")


def python_of_all(room):
    """A Python that other users may run."""
    if os.getuid() != 0:
        raise LeftOut("only root can act as other users")
    if not shutil.which("setpriv"):
        raise LeftOut("setpriv is not there")
    for python in (sys.executable, "/usr/bin/python3"):
        if os.path.exists(python) and room.run(*acting_as(61001, 61001), python, "-c", "import socket")[0] == 0:
            return python
    raise LeftOut("other users can't run Python here")


def enters(room, python, user, group, path):
    """What another user meets at a socket."""
    status, out, err = room.run(*acting_as(user, group), python, "-c", ENTER, path)
    need(status == 0, err)
    return out.strip()


def case_the_system_says_who_may_connect(room):
    python = python_of_all(room)
    os.chmod(room.path, 0o755)
    room.serve(doors=("p1=61001", "p2=61002:62002", "p3"))
    inside, outside = "in", "denied by the system"
    for user, group, name, wanted in (
        (61001, 61001, "p1", inside),
        (61002, 61002, "p1", outside),
        (61003, 62002, "p1", outside),
        (61002, 61002, "p2", inside),
        (61003, 62002, "p2", inside),
        (61001, 61001, "p2", outside),
        (61003, 61003, "p2", outside),
        (61001, 61001, "p3", outside),
        (61001, 61001, "operator", outside),
        (61002, 62002, "operator", outside),
    ):
        same("user %d of group %d at %s" % (user, group, name), wanted, enters(room, python, user, group, room.at(name)))
    for name, wanted in (("p1", (0o600, 61001, 0)), ("p2", (0o660, 61002, 62002)), ("operator", (0o600, 0, 0))):
        found = os.stat(room.at(name))
        need(stat.S_ISSOCK(found.st_mode), name, "is no socket")
        same("mode and owner of " + name, wanted, (stat.S_IMODE(found.st_mode), found.st_uid, found.st_gid))
    # the program, as a user who may and as one who may not
    os.chmod(os.path.dirname(room.policy_path), 0o755)
    for user, wanted in ((61001, 0), (61002, 1)):
        status, _, err = room.run(*acting_as(user, user), room.program, "stat", "--driver", room.at("p1"))
        if "setpriv" in err:
            room.leave_out("the program can't be run by another user where it lies: " + err.strip())
            break
        same("status of user %d" % user, wanted, status)


def case_the_mode_does_not_depend_on_the_umask(room):
    for mask in (0o000, 0o077):
        before = os.umask(mask)
        try:
            folder = "%s/%o" % (room.path, mask)
            room.serve(folder=folder)
        finally:
            os.umask(before)
        for name in ("p1", "p2", "operator"):
            found = os.stat("%s/%s.sock" % (folder, name))
            same("mode of %s" % name, 0o600, stat.S_IMODE(found.st_mode))


def refused(room, folder, *doors, more=()):
    """A driver that does not start: what it says."""
    room.policy(ALLOW)
    words = [word for door in doors or ("p1",) for word in ("--door", door)]
    status, out, err = room.call("serve", "--policy", room.policy_path, "--folder", folder, *words, *more)
    same("status", (1, ""), (status, out))
    return err.strip().splitlines()[-1]


def case_a_folder_where_others_may_write(room):
    for mode in (0o777, 0o1777, 0o757, 0o775):
        folder = "%s/%o" % (room.path, mode)
        os.mkdir(folder)
        os.chmod(folder, mode)
        same("a folder of mode %o" % mode, "aeron_policyd: others may write in " + folder, refused(room, folder))
        same("what is left there", [], os.listdir(folder))
        # the folder above it: what is in a sticky one is moved by its owner alone
        inner = folder + "/s"
        if mode & 0o1000:
            room.serve(folder=inner)
            room.asked("stop", inner + "/operator.sock")
            room.ended(room.driver)
            same("what is left in a sticky folder's", [], os.listdir(inner))
        else:
            same("one in it", "aeron_policyd: others may write in " + folder, refused(room, inner))
            same("what is left there", [], os.listdir(folder))
        # a door there
        words = refused(room, room.folder, "p1=%s/bus" % folder)
        same("a door in it", "aeron_policyd: others may write in " + folder, words)
        same("what is left there", ["s"] if mode & 0o1000 else [], os.listdir(folder))
    same("what is left of the other doors", [], os.listdir(room.folder))
    with open(room.path + "/file", "w", encoding="ascii"):
        pass
    same("a file", "aeron_policyd: no folder %s/file" % room.path, refused(room, room.path + "/file"))
    same("no folder above", "aeron_policyd: no folder %s/none" % room.path, refused(room, room.path + "/none/none"))


def case_a_folder_of_another_user(room):
    if os.getuid() != 0:
        raise LeftOut("only root can give folders away")
    theirs = room.path + "/theirs"
    os.mkdir(theirs, 0o755)
    os.chown(theirs, 61002, 61002)
    wanted = "aeron_policyd: folder %s belongs to user 61002" % theirs
    same("it", wanted, refused(room, theirs))
    same("one that would be made in it", wanted, refused(room, theirs + "/s"))
    os.mkdir(theirs + "/mine", 0o755)
    same("one of root's in it", wanted, refused(room, theirs + "/mine"))
    same("a door in it", wanted, refused(room, room.folder, "p2", "p1=%s/bus" % theirs))
    # a link to it, and one in it to a folder that is the driver's own
    link = room.path + "/link"
    os.symlink(theirs, link)
    same("a link to it", wanted, refused(room, link))
    same("a door behind a link to it", wanted, refused(room, room.folder, "p1=%s/bus" % link))
    same("what is left there", ["mine"], os.listdir(theirs))
    same("what is left of the other doors", [], os.listdir(room.folder))
    same("who has it", 61002, os.stat(theirs).st_uid)


def case_a_link_in_the_place_of_a_socket(room):
    """No call follows one: what it leads to stays as it is."""
    secret = room.path + "/secret"
    with open(secret, "w", encoding="ascii") as file:
        file.write("kept\n")
    os.chmod(secret, 0o600)
    before = os.stat(secret)
    for name in ("p1.sock", "operator.sock"):
        os.makedirs(room.folder, 0o755, exist_ok=True)
        os.symlink(secret, "%s/%s" % (room.folder, name))
        words = refused(room, room.folder, "p1=%d" % os.getuid())
        same(name, "aeron_policyd: %s/%s is there, and is no socket" % (room.folder, name), words)
        same("what is there", [name], os.listdir(room.folder))
        os.remove("%s/%s" % (room.folder, name))
    # a link where sockets are made
    os.mkdir(room.path + "/elsewhere", 0o700)
    with open(room.path + "/elsewhere/s", "w", encoding="ascii"):
        pass
    os.symlink(room.path + "/elsewhere", room.folder + "/.new")
    words = refused(room, room.folder)
    same("a link where they are made", "aeron_policyd: no folder %s/.new" % room.folder, words)
    same("what it leads to", ["s"], os.listdir(room.path + "/elsewhere"))
    after = os.stat(secret)
    same("owner and mode", (before.st_uid, before.st_mode), (after.st_uid, after.st_mode))
    os.remove(room.folder + "/.new")
    # what a driver left that was killed as it made one is taken away
    os.mkdir(room.folder + "/.new", 0o700)
    left = socket.socket(socket.AF_UNIX, socket.SOCK_STREAM)
    left.bind(room.folder + "/.new/s")
    left.close()
    room.serve(doors=("p1",))
    same("what is there then", ["operator.sock", "p1.sock"], sorted(os.listdir(room.folder)))


def case_a_folder_behind_a_link(room):
    """Its sockets are where the link led when the driver started."""
    os.mkdir(room.path + "/real", 0o755)
    os.symlink(room.path + "/real", room.path + "/link")
    room.serve(doors=("p1", "p2=%s/link/bus" % room.path), folder=room.path + "/link")
    os.remove(room.path + "/link")
    same("what is there", ["bus", "operator.sock", "p1.sock"], sorted(os.listdir(room.path + "/real")))
    room.asked("stop", room.path + "/real/operator.sock")
    room.ended(room.driver)
    same("what is left", [], os.listdir(room.path + "/real"))


def case_a_second_driver_on_the_same_folder(room):
    first = room.serve()
    with aeron_policyd.connect(room.at("p1")) as one:
        for doors in (("p1", "p2"), ("p3",)):
            same("a second driver", "aeron_policyd: another driver serves there", refused(room, room.folder, *doors))
        need(first.poll() is None, "the first one ended:", said(first.err))
        one.keepalive()
    with aeron_policyd.connect(room.at("p2")) as two:
        two.keepalive()
    same("what is in the folder", ["operator.sock", "p1.sock", "p2.sock"], sorted(os.listdir(room.folder)))


def case_a_send_address_that_is_taken(room):
    """One that was chosen is a fault; without one that was not, IPC is served, and it is said."""
    with socket.socket(socket.AF_INET, socket.SOCK_DGRAM) as taken:
        taken.bind(("127.0.0.1", 0))
        address = "127.0.0.1:%d" % taken.getsockname()[1]
        words = refused(room, room.folder, more=("--setting", "send-address=" + address))
        same("one that was chosen", "aeron_policyd: cannot open %s" % address, words)
    with socket.socket(socket.AF_INET, socket.SOCK_DGRAM) as taken:
        try:
            taken.bind(("127.0.0.1", 40000))
        except OSError:
            # somebody else has it
            pass
        driver = room.serve(has_port=False)
        wanted = "cannot open 127.0.0.1:40000: nothing is sent over UDP, unless --setting send-address names a free address"
        # its sender then says once that nothing is read there
        wanted = [wanted, "serving", "cannot read at 127.0.0.1:40000"]
        until("what is said", lambda: said(driver.err).splitlines() == wanted)
        with aeron_policyd.connect(room.at("p1")) as one, aeron_policyd.connect(room.at("p2")) as two:
            one.keepalive()
            two.keepalive()


def case_a_path_of_two_hundred_bytes(room):
    folder = room.path + "/" + "f" * (190 - len(room.path))
    os.mkdir(folder)
    words = refused(room, folder)
    need(words.startswith("aeron_policyd: cannot make a socket"), words)
    same("what is left in the folder", [], os.listdir(folder))
    same("a client", 1, room.call("stat", "--driver", folder + "/p1.sock")[0])
    try:
        aeron_policyd.connect(folder + "/p1.sock")
    except OSError as error:
        need("too long" in str(error), error)
    # the longest path that there may be
    folder = room.path + "/" + "g" * (107 - len("/operator.sock") - len(room.path) - 1)
    room.serve(doors=("p1",), folder=folder)
    same("how long the path is", 107, len(folder + "/operator.sock"))
    same("its clients", [], room.asked("clients", folder + "/operator.sock"))


def case_doors_that_are_none(room):
    for door in ("p64", "p1=", "p1=x", "p1=1:", "p1=-1", "nobody=1:2:3"):
        words = refused(room, room.path + "/t", "p2", door)
        need(words.startswith("aeron_policyd: "), words)
    # paths that lead out of a folder, hide there, or move a cursor
    os.mkdir(room.path + "/of_p1", 0o755)
    for path in ("../of_p1/bus", "/../bus", "/.bus", "/of_p1/../bus", "/of_p1/.bus", "/of_p1/bus/", "/of_p1//bus", "/of_p1/b\x1b[2J", "/of_p1/b..us"):
        if path.startswith("/"):
            path = room.path + path
        words = refused(room, room.path + "/t", "p2", "p1=" + path)
        need("\x1b" not in words, words)
        need(words.startswith("aeron_policyd: --door p1=") and "wanted PRINCIPAL" in words, words)
    same("what is left there", [], os.listdir(room.path + "/of_p1"))
    same("what serves there", 1, room.call("stat", "--driver", room.path + "/t/p2.sock")[0])


def case_a_socket_that_was_left_behind(room):
    """A name that nobody serves is replaced."""
    os.mkdir(room.folder, 0o755)
    left = socket.socket(socket.AF_UNIX, socket.SOCK_STREAM)
    left.bind(room.at("p1"))
    left.close()
    same("a client", (1, "aeron_policyd: no driver serves there\n"), room.call("stat", "--driver", room.at("p1"))[::2])
    room.serve()
    with Peer(room.at("p1")) as one:
        one.enter()


def case_a_door_that_is_named_by_its_path(room):
    os.mkdir(room.path + "/of_p1", 0o750)
    path = room.path + "/of_p1/bus"
    room.serve("--mode", "640", doors=("p1=" + path, "p2"))
    found = os.stat(path)
    same("its mode", (True, 0o640), (stat.S_ISSOCK(found.st_mode), stat.S_IMODE(found.st_mode)))
    with aeron_policyd.connect(path) as one, aeron_policyd.connect(room.at("p2")) as two:
        same("who they are", (1, 2), (one.principal, two.principal))
        reads = two.subscription("aeron:ipc", 10)
        one.publication("aeron:ipc", 10).offer(b"by the path", wait=10.0)
        same("what is read", [b"by the path"], [message.data for message in reads.poll(wait=10.0)])
    same("a socket of p1 in the folder", False, os.path.exists(room.at("p1")))
    room.asked("stop")
    same("status of the driver", 0, room.ended(room.driver))
    same("what is left", (False, True), (os.path.exists(path), os.path.isdir(room.path + "/of_p1")))


def case_names_that_are_none_of_a_file(room):
    """A name makes a socket's: it leads out of no folder, hides nowhere, and moves no cursor."""
    names = room.path + "/names"
    for name, shown in (
        (b"../other/x", "../other/x"),
        (b"a/b", "a/b"),
        (b".", "."),
        (b"..", ".."),
        (b".new/s", ".new/s"),
        (b".hidden", ".hidden"),
        (b"a..b", "a..b"),
        (b"\x1b[2J", "<27>[2J"),
        (b"a\x7f", "a<127>"),
    ):
        with open(names, "wb") as file:
            file.write(b"principal desk 2\nprincipal " + name + b" 1\n")
        words = refused(room, room.folder, "desk", more=("--names", names))
        wanted = "%s:2: %s: wanted a name that has no `/`, no `..` and no control byte, and does not begin with `.`" % (names, shown)
        same(repr(name), "aeron_policyd: " + wanted, words)
    same("what is there", False, os.path.exists(room.folder))


def case_doors_by_the_names_of_principals(room):
    names = room.path + "/names"
    with open(names, "w", encoding="ascii") as file:
        file.write("principal gateway 1\nprincipal desk 2\n")
    policy = """version = 1
default = "deny"

[[rule]]
name = "the gateway publishes"
principal = "gateway"
act = ["publish", "offer"]
channel = "*"
allow = true
"""
    room.serve("--names", names, policy=policy, doors=("gateway", "desk"))
    with aeron_policyd.connect(room.at("gateway")) as one, aeron_policyd.connect(room.at("desk")) as two:
        same("who they are", (1, 2), (one.principal, two.principal))
        one.publication("aeron:ipc", 10)
        try:
            two.publication("aeron:ipc", 10)
            need(False, "the desk publishes")
        except aeron_policyd.Denied as denied:
            same("the denial", "denied by default in policy 1", denied.text)
