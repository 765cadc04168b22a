"""The client in Python, and pyzmq beside it, timed as `client.c` and `zmq.c` do:

    python_client.py client|zmq TASK AT COUNT SIZE

AT is the folder of the driver's sockets, or an endpoint of ZeroMQ. `pub` sends COUNT messages of SIZE bytes many ahead, `each` the
next one once the last was taken, `sub` reads them and prints how many came in a second; `ping` sends so many one after the other to
`pong`, which sends back, and prints microseconds at 50, 99 and 99.9 of 100; `idle` of the client waits COUNT seconds for messages of a
publication to which nothing is sent.
"""

import os
import sys
import time

AHEAD = 8192
CHANNEL = "aeron:ipc?term-length=1m"


def rate(count, begun):
    print("%.0f" % ((count - 1) / (time.perf_counter() - begun)), flush=True)


def rounds(count, send, receive):
    took = []
    for _ in range(count):
        begun = time.perf_counter()
        send()
        receive()
        took.append(time.perf_counter() - begun)
    took.sort()
    print(" ".join("%.1f" % (took[count * part // 1000] * 1e6) for part in (500, 990, 999)))


def one_of(reads):
    """Waits for a message."""
    return next(iter(reads))


def by_client(task, folder, count, size):
    sys.path.insert(0, os.path.join(os.path.dirname(os.path.abspath(__file__)), "..", "..", "clients", "python"))
    import aeron_policyd

    message = bytes(size)
    first = task in ("pub", "each", "ping")
    with aeron_policyd.connect("%s/%s.sock" % (folder, "p1" if first else "p2")) as driver:
        if task == "sub":
            reads = driver.subscription(CHANNEL, 20)
            print("ready", file=sys.stderr, flush=True)
            # the clock begins with the first message, as it does beside
            got = len(reads.poll(limit=1, wait=None))
            begun = time.perf_counter()
            while got < count:
                got += len(reads.poll(limit=1024, wait=None))
            rate(count, begun)
        elif task == "pub":
            publication = driver.publication(CHANNEL, 20)
            while count > 0:
                offered = publication.offer_all([message] * min(count, AHEAD), wait=10.0)
                if offered.refusal is not None:
                    raise offered.refusal
                count -= AHEAD
        elif task == "each":
            publication = driver.publication(CHANNEL, 20)
            for _ in range(count):
                publication.send(message)
        elif task == "idle":
            reads = driver.subscription("aeron:ipc", 23)
            driver.publication("aeron:ipc", 23)
            reads.poll(wait=count)
        else:
            reads = driver.subscription(CHANNEL, 22 if first else 21)
            publication = driver.publication(CHANNEL, 21 if first else 22)
            if first:
                rounds(count, lambda: publication.send(message), lambda: one_of(reads))
            else:
                for _ in range(count):
                    publication.send(one_of(reads).data)


def by_zmq(task, endpoint, count, size):
    import zmq

    message = bytes(size)
    kinds = {"pub": zmq.PUSH, "sub": zmq.PULL, "each": zmq.REQ, "answer": zmq.REP, "ping": zmq.PAIR, "pong": zmq.PAIR}
    socket = zmq.Context().socket(kinds[task])
    if task in ("sub", "answer", "pong"):
        socket.bind(endpoint)
        print("ready", file=sys.stderr, flush=True)
    else:
        socket.connect(endpoint)
    if task in ("sub", "answer"):
        begun = None
        for _ in range(count):
            socket.recv()
            if begun is None:
                begun = time.perf_counter()
            if task == "answer":
                socket.send(b"")
        rate(count, begun)
    elif task == "pub":
        for _ in range(count):
            socket.send(message)
    elif task == "each":
        for _ in range(count):
            socket.send(message)
            socket.recv()
    elif task == "ping":
        rounds(count, lambda: socket.send(message), socket.recv)
    else:
        for _ in range(count):
            socket.send(socket.recv())


if __name__ == "__main__":
    {"client": by_client, "zmq": by_zmq}[sys.argv[1]](sys.argv[2], sys.argv[3], int(sys.argv[4]), int(sys.argv[5]))
