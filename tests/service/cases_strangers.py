"""What strangers on the network cost where they are dropped, and what a forged address of a peer still costs."""

import os
import re
import signal
import socket
import struct
import subprocess
import threading
import time

from harness import ALLOW, free_ports, need, said, same, until


def setup_frame(session, stream, term=65536, mtu=1408):
    return struct.pack("<iBBHiiiiiiii", 40, 0, 0, 5, 0, session, stream, 0, 0, term, mtu, 0)


def nak_frame(session, stream, term, offset, length):
    return struct.pack("<iBBHiiiii", 28, 0, 0, 2, session, stream, term, offset, length)


def status_frame(session, stream, term, offset, window):
    return struct.pack("<iBBHiiiiiQ", 36, 0, 0, 3, session, stream, term, offset, window, 9)


def data_frame(session, stream, offset, payload):
    frame = struct.pack("<iBBHiiiiQ", 32 + len(payload), 0, 0xC0, 1, offset, session, stream, 0, 0) + payload
    return frame + b"\0" * (-len(frame) % 32)


def at(address, port=0):
    """A socket that is bound there."""
    opened = socket.socket(socket.AF_INET, socket.SOCK_DGRAM)
    opened.bind((address, port))
    return opened


def heard(victim, seconds):
    """How many datagrams and bytes come in so many seconds."""
    datagrams = count = 0
    end = time.monotonic() + seconds
    victim.settimeout(0.1)
    while time.monotonic() < end:
        try:
            count += len(victim.recv(65536))
            datagrams += 1
        except socket.timeout:
            pass
    return datagrams, count


def dropped(process):
    """The numbers of the last line that says what was dropped: setups, data, status, naks, others, too much, too often."""
    lines = re.findall(r"^dropped setups (\d+) data (\d+) status (\d+) naks (\d+) others (\d+) too-much (\d+) too-often (\d+)$",
                       said(process.err), re.MULTILINE)
    return [int(number) for number in lines[-1]] if lines else None


def publisher(room, port, *words, channel=None, **more):
    """A process that publishes to 127.0.0.1:`port`, from the port after it."""
    room.policy(ALLOW)
    return room.start(room.program, "publish", "--policy", room.policy_path, "--setting", "first-session=77",
                      "--setting", "initial-term=0", "--setting", "send-address=127.0.0.1:%d" % (port + 1), *words,
                      channel or "aeron:udp?endpoint=127.0.0.1:%d" % port, "10", **more)


def subscriber(room, port, *words):
    room.policy(ALLOW)
    process = room.start(room.program, "subscribe", "--policy", room.policy_path, "--as", "p2", *words,
                         "aeron:udp?endpoint=127.0.0.1:%d" % port, "10")
    until("it reads there", lambda: is_taken(port) or process.poll() is not None)
    return process


def is_taken(port):
    """Whether somebody reads there. It opens nothing itself, so that nobody finds the port taken by it."""
    with open("/proc/net/udp", encoding="ascii") as sockets:
        return any(line.split()[1].endswith(":%04X" % port) for line in list(sockets)[1:])


def pair_of_ports():
    """One whose next one is free, too."""
    while True:
        (port,) = free_ports(1)
        if not is_taken(port + 1):
            return port


def case_nobody_answers_a_stranger(room):
    """A SETUP, a frame behind a gap and a message, from an address that nobody bound: nothing goes there, and nothing is printed."""
    port = pair_of_ports()
    reader = subscriber(room, port, "--strangers", "drop", "--peer", "127.0.0.1:%d=p1" % (port + 1), "--until", "6", "--stats")
    with at("127.0.0.66") as victim:
        for frame in (setup_frame(501, 10), data_frame(501, 10, 4096, b"x"), setup_frame(503, 10), data_frame(503, 10, 0, b"mallory"),
                      nak_frame(501, 10, 0, 0, 32), b"junk"):
            victim.sendto(frame, ("127.0.0.1", port))
        same("what the stranger gets", (0, 0), heard(victim, 3))
    same("its status", 0, room.ended(reader))
    same("what it prints", "", said(reader.out))
    same("what it dropped", [2, 2, 0, 1, 1, 0, 0], dropped(reader))
    need("images 0 " in said(reader.err), "a stranger's stream is read:", said(reader.err))


def case_strangers_are_let_in_if_nothing_is_said(room):
    """The same without a word: it is a stream like any other."""
    port = pair_of_ports()
    for words in ((), ("--strangers", "allow", "--peer", "127.0.0.1:%d=p1" % (port + 1))):
        reader = subscriber(room, port, *words, "--count", "1", "--until", "60")
        with at("127.0.0.66") as stranger:
            stranger.sendto(setup_frame(503, 10), ("127.0.0.1", port))
            need(heard(stranger, 1)[0] > 0, "no status message for a stranger")
            stranger.sendto(data_frame(503, 10, 0, b"mallory"), ("127.0.0.1", port))
            same("its status", 0, room.ended(reader))
        same("what it prints", "mallory\n", said(reader.out))
        same("what it dropped", None, dropped(reader))


def case_forged_status_messages_of_strangers_lose_nothing(room):
    """They are swept over all positions while the one subscriber is held up: it gets all that is sent."""
    count = 3000
    port = pair_of_ports()
    reader = subscriber(room, port, "--count", str(count))
    writer = publisher(room, port, "--strangers", "drop", "--peer", "127.0.0.1:%d=p2" % port, "--wait", "60", "--linger", "60",
                       stdin=subprocess.PIPE)
    lines = [b"%06d " % number + b"x" * 993 + b"\n" for number in range(count)]
    stop = threading.Event()

    def feed():
        for first in range(0, count, 100):
            writer.stdin.write(b"".join(lines[first:first + 100]))
            writer.stdin.flush()
            time.sleep(0.03)
        writer.stdin.close()

    def forge():
        with at("127.0.0.9") as forger:
            while not stop.is_set():
                for position in range(0, count * 1056 + 65536, 16384):
                    forger.sendto(status_frame(77, 10, position >> 16, position & 65535, 32768), ("127.0.0.1", port + 1))
                time.sleep(0.002)

    threads = [threading.Thread(target=work, daemon=True) for work in (feed, forge)]
    for thread in threads:
        thread.start()
    until("something is read", lambda: os.path.getsize(reader.out) > 0)
    reader.send_signal(signal.SIGSTOP)
    time.sleep(2)
    reader.send_signal(signal.SIGCONT)
    try:
        same("status of the publisher", 0, room.ended(writer, 120))
    finally:
        stop.set()
        threads[1].join()
    same("status of the subscriber", 0, room.ended(reader, 120))
    need(said(reader.out).encode() == b"".join(lines), "the subscriber lacks messages")
    gone = dropped(writer)
    need(gone and gone[2] > 1000 and gone[:2] + gone[3:] == [0] * 6, "what was dropped:", gone)


def sent_for_naks(room, term, total, asked, *words):
    """A publisher of which a peer asks for so many bytes again, from the address that is bound to it: how many bytes of NAKs it
    was sent, how many bytes of data it sent for them, and the publisher. A socket stands for the peer, and for who forges its address."""
    port = pair_of_ports()
    with at("127.0.0.1", port) as peer:
        peer.setsockopt(socket.SOL_SOCKET, socket.SO_RCVBUF, 8 << 20)
        peer.settimeout(0.05)
        writer = publisher(room, port, "--bytes", "1300", "--linger", "5", "--wait", "60", "--setting", "arena-pages=16384", "--strangers", "drop",
                           "--peer", "127.0.0.1:%d=p2" % port, *words, channel="aeron:udp?endpoint=127.0.0.1:%d|term-length=%s" % (port, term),
                           stdin=subprocess.PIPE)
        feeder = threading.Thread(target=lambda: (writer.stdin.write(b"x" * total), writer.stdin.flush()), daemon=True)
        feeder.start()
        position = got = 0
        end = time.monotonic() + 60
        while position < total and time.monotonic() < end:
            try:
                frame = peer.recv(65536)
            except socket.timeout:
                frame = b""
            if len(frame) > 32 and frame[6] == 1:
                position = max(position, struct.unpack_from("<i", frame, 8)[0] + (len(frame) + 31) // 32 * 32)
                got += 1
            if got % 16 == 0:
                peer.sendto(status_frame(77, 10, 0, position, 1 << 24), ("127.0.0.1", port + 1))
        need(position >= total, "the publisher sent", position, "of", total)
        heard(peer, 0.5)
        came = count = 0
        for _ in range(30):
            peer.sendto(nak_frame(77, 10, 0, 0, asked(position)), ("127.0.0.1", port + 1))
            came += 28
            end = time.monotonic() + 0.065
            while time.monotonic() < end:
                peer.settimeout(0.005)
                try:
                    frame = peer.recv(65536)
                    # a heartbeat has no data
                    count += len(frame) if len(frame) > 64 else 0
                except socket.timeout:
                    pass
        writer.stdin.close()
    room.ended(writer, 60)
    return came, count, writer


def case_naks_for_too_much_are_dropped(room):
    """A whole term is not sent for a NAK, and no more than the greatest window is."""
    came, count, writer = sent_for_naks(room, "16m", 4 << 20, lambda position: position)
    same("bytes that a NAK for all made go", 0, count)
    same("what was dropped", [0, 0, 0, 0, 0, 30, 0], dropped(writer))
    came, count, writer = sent_for_naks(room, "16m", 4 << 20, lambda position: 131_072)
    need(count > 131_072, "a NAK for the greatest window is not answered:", count)
    need(count <= came // 28 * 140_000, "bytes for each NAK:", count / (came // 28))
    same("what was dropped", None, dropped(writer))
    # the window is half a term where that is less
    came, count, writer = sent_for_naks(room, "64k", 40 << 10, lambda position: 32_800)
    same("bytes that a NAK for more than half a term made go", 0, count)
    same("what was dropped", [0, 0, 0, 0, 0, 30, 0], dropped(writer))
    came, count, writer = sent_for_naks(room, "64k", 40 << 10, lambda position: 32_768)
    need(0 < count <= came // 28 * 36_000, "bytes for each NAK:", count / (came // 28))
    same("what was dropped", None, dropped(writer))


def case_who_asks_too_often_is_dropped(room):
    """Of more NAKs and status messages than one address may send in the time the rest is dropped; others go on."""
    port = pair_of_ports()
    reader = subscriber(room, port, "--count", "300")
    writer = publisher(room, port, "--strangers", "drop", "--asks", "20", "--peer", "127.0.0.1:%d=p2" % port, "--peer",
                       "127.0.0.9=nobody", "--wait", "60", "--linger", "60", stdin=subprocess.PIPE)
    with at("127.0.0.9") as asker:
        for number in range(300):
            writer.stdin.write(b"line %d\n" % number)
            writer.stdin.flush()
            for _ in range(40):
                asker.sendto(nak_frame(77, 10, 0, 0, 32), ("127.0.0.1", port + 1))
            time.sleep(0.005)
    writer.stdin.close()
    same("status of the publisher", 0, room.ended(writer, 120))
    same("status of the subscriber", 0, room.ended(reader, 120))
    same("what is printed", "".join("line %d\n" % number for number in range(300)), said(reader.out))
    gone = dropped(writer)
    need(gone and gone[6] > 100 and gone[:6] == [0] * 6, "what was dropped:", gone)


def case_a_host_without_a_port(room):
    """All ports of a host that is named so are let in, and those of another host are not."""
    port = pair_of_ports()
    reader = subscriber(room, port, "--strangers", "drop", "--peer", "127.0.0.66=nobody", "--count", "1", "--until", "60")
    with at("127.0.0.67") as stranger, at("127.0.0.66") as known:
        stranger.sendto(setup_frame(502, 10), ("127.0.0.1", port))
        stranger.sendto(data_frame(502, 10, 0, b"mallory"), ("127.0.0.1", port))
        known.sendto(setup_frame(503, 10), ("127.0.0.1", port))
        need(heard(known, 1)[0] > 0, "no status message for who is known")
        known.sendto(data_frame(503, 10, 0, b"bob"), ("127.0.0.1", port))
        same("its status", 0, room.ended(reader))
    same("what it prints", "bob\n", said(reader.out))
    same("what it dropped", [1, 1, 0, 0, 0, 0, 0], dropped(reader))


def case_words_about_strangers(room):
    """What is no such word, and a host without a port that is not nobody's."""
    room.policy(ALLOW)
    calls = (
        (("--strangers", "deny"), "--strangers deny: wanted allow or drop"),
        (("--peer", "127.0.0.1=p2"), "--peer 127.0.0.1=p2: wanted an IPv4 address and a port, as 127.0.0.1:40000"),
        (("--peer", "127.0.0=nobody"), "--peer 127.0.0=nobody: wanted an IPv4 address and a port, as 127.0.0.1:40000"),
    )
    (port,) = free_ports(1)
    for words, fault in calls:
        called = room.call("subscribe", "--policy", room.policy_path, *words, "aeron:udp?endpoint=127.0.0.1:%d" % port, "10")
        same("%s %s" % words, (1, "", "aeron_policyd: %s\n" % fault), called)


def case_a_driver_that_serves_drops_strangers(room):
    """Its clients hear who is bound alone. It says at its end what it dropped."""
    send, receive, other = free_ports(3)
    room.serve("--setting", "send-address=127.0.0.1:%d" % send, "--strangers", "drop", "--peer", "127.0.0.1:%d=p1" % other)
    reader = room.start(room.program, "subscribe", "--driver", room.at("p2"), "--count", "1", "aeron:udp?endpoint=127.0.0.1:%d" % receive, "10")
    until("it reads there", lambda: is_taken(receive))
    with at("127.0.0.66") as stranger, at("127.0.0.1", other) as known:
        stranger.sendto(setup_frame(502, 10), ("127.0.0.1", receive))
        stranger.sendto(status_frame(502, 10, 0, 0, 0), ("127.0.0.1", send))
        known.sendto(setup_frame(503, 10), ("127.0.0.1", receive))
        need(heard(known, 1)[0] > 0, "no status message for who is known")
        known.sendto(data_frame(503, 10, 0, b"bob"), ("127.0.0.1", receive))
        same("its status", 0, room.ended(reader))
    same("what it prints", "bob\n", said(reader.out))
    same("the end", 0, room.order("stop")[0])
    same("status of the driver", 0, room.ended(room.driver))
    same("what it dropped", [1, 0, 1, 0, 0, 0, 0], dropped(room.driver))
