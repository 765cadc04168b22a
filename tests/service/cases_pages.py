"""The steps of docs/RUNNING.md and docs/STREAMS.md that need a driver, in folders and at addresses of the case's own."""

import os
import re
import shutil

from harness import TOP, free_ports, need, said, same, until

# The hosts of a network of this machine's own, which no other run of the cases has.
HOSTS = "127.%d.%d." % (1 + os.getpid() // 250 % 250, 1 + os.getpid() % 250)


def examples(room, name, changes):
    """A copy of a folder of examples, each text of which is changed: where it is, and the words of its files."""
    where = room.path + "/" + name
    shutil.copytree(os.path.join(TOP, "examples", name), where)
    for file in os.listdir(where):
        with open(os.path.join(where, file), encoding="ascii") as words:
            text = words.read()
        for old, new in changes:
            text = text.replace(old, new)
        with open(os.path.join(where, file), "w", encoding="ascii") as words:
            words.write(text)
    return where


def paths(room, stand_ins={}):
    """An environment in which the program is found, and these scripts in place of the system's own."""
    os.mkdir(room.path + "/bin")
    os.symlink(room.program, room.path + "/bin/aeron_policyd")
    for name, words in stand_ins.items():
        with open(room.path + "/bin/" + name, "w", encoding="ascii") as script:
            script.write("#!/bin/sh\n" + words + "\n")
        os.chmod(room.path + "/bin/" + name, 0o755)
    return dict(os.environ, PATH=room.path + "/bin:" + os.environ["PATH"])


def words_of(where, file):
    """What a file of the page says."""
    with open(os.path.join(where, file), encoding="ascii") as words:
        return words.read()


def case_the_page_on_running(room):
    where = examples(room, "service", (("/run/aeron_policyd", room.folder), ("/etc/", room.path + "/etc/")))
    noted = room.path + "/noted"
    note = 'echo "${0##*/} $*" >>' + noted
    folders = note + "\nmkdir -p " + room.path + "/etc/aeron_policyd"
    stand_ins = {"systemd-sysusers": note, "systemd-tmpfiles": folders, "systemctl": note, "id": "echo %d" % os.getuid()}
    env = paths(room, stand_ins)

    def run(script):
        return room.run("sh", script, cwd=where, env=env)

    def begin(script, **more):
        return room.start("sh", script, cwd=where, env=env, **more)

    same("the installation", (0, "", ""), run("install.sh"))
    asked = ["systemd-sysusers ", "systemd-tmpfiles --create", "systemctl daemon-reload", "systemctl enable --now aeron_policyd"]
    same("what it asks of the system", asked, said(noted).splitlines())
    driver = begin("start.sh")
    room.served(driver)
    reader = begin("read.sh")
    until("the reader", lambda: [line for line in room.clients() if "1 subscriptions" in line])
    # a publisher that stays, until its input ends
    given, gives = os.pipe()
    stays = room.start(room.program, "publish", "--driver", room.at("trading"), "aeron:ipc", "1001", stdin=given)
    os.close(given)
    until("the publisher", lambda: [line for line in room.clients() if "1 publications" in line])
    looked = run("look.sh")
    same("a look", (0, words_of(where, "look.out"), ""), (looked[0], re.sub(r"for [0-9]+ s", "for 12 s", looked[1]), looked[2]))
    same("what is denied", (1, "", words_of(where, "denied.err")), run("denied.sh"))
    decided = re.sub("[^ ]*", "", words_of(where, "decided.out"), count=1)
    until("what was decided", lambda: re.sub("[^ ]*", "", run("decided.sh")[1], count=1) == decided)
    os.write(gives, b"bid 98\n")
    os.close(gives)
    same("status of the publisher that stayed", 0, room.ended(stays))
    same("status of the publisher", 0, run("send.sh")[0])
    until("the messages", lambda: said(reader.out) == "bid 98\nbid 99\n")
    same("the reload", (0, words_of(where, "reload.out"), ""), run("reload.sh"))
    again = "publish", "--driver", room.at("trading"), "--wait", "1", "aeron:ipc", "1001"
    status, _, err = room.call(*again, given=b"bid 97\n")
    need(status == 1 and "aeron_policyd: no subscriber" in err.splitlines(), "the reader is not cut off:", err)
    same("the stop", (0, "", ""), run("stop.sh"))
    same("status of the driver", 0, room.ended(driver))
    same("what was read", "bid 98\nbid 99\n", said(reader.out))
    lines = said(driver.err).splitlines()
    told = "serving", "client 1 of telemetry", "client 2 of trading", "client 2 left: Closed", "policy 2 in force"
    for line in (*told, "stopped after 2 messages"):
        need(line in lines, "the driver does not say", line)


def case_two_hosts(room):
    """Two addresses of this host in place of the addresses of two."""
    where = examples(room, "two_hosts", (("10.1.0.", HOSTS), ("/run/aeron_policyd", "$FOLDER")))
    env = paths(room)
    here = {}
    for host in "ab":
        folder = room.path + "/" + host
        here[host] = dict(env, FOLDER=folder)
        driver = room.start("sh", host + ".sh", cwd=where, env=here[host])
        room.served(driver)
    reader = room.start("sh", "read.sh", cwd=where, env=here["b"])
    status, _, err = room.run("sh", "send.sh", cwd=where, env=here["a"])
    same("status of the publisher", (0, "sent 1 messages 6 bytes position 64 refusals 0\n"), (status, err))
    same("status of the reader", 0, room.ended(reader))
    same("what is read", "bid 99\n", said(reader.out))


def case_addresses_by_name(room):
    """The publisher of two addresses, at one of which somebody reads."""
    (port,) = free_ports(1)
    more = "--policy two_addresses.toml --setting send-address=127.0.0.1:%d" % port
    where = examples(room, "talking", (("10.1.0.", HOSTS), ("--policy two_addresses.toml", more)))
    env = paths(room)
    room.policy('version = 1\ndefault = "allow"\n')
    words = "subscribe", "--policy", room.policy_path, "--count", "2", "aeron:udp?endpoint=%s5:40123" % HOSTS, "2010"
    reader = room.start(room.program, *words)
    until("the socket", lambda: is_open(HOSTS + "5"))
    status, _, err = room.run("sh", "two_addresses.sh", cwd=where, env=env)
    need(status == 0, "the publisher ends with", status, err)
    same("status of the reader", 0, room.ended(reader))
    same("what is read", "bid 99\nask 101\n", said(reader.out))


def is_open(host):
    """Whether somebody reads at port 40123 of a host."""
    place = "%02X%02X%02X%02X:%04X" % (*reversed([int(number) for number in host.split(".")]), 40123)
    with open("/proc/net/udp", encoding="ascii") as sockets:
        return any(line.split()[1] == place for line in sockets.readlines()[1:])
