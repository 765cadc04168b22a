"""A server that greets clients and answers with bytes of all kinds, the same ones each time."""

import os
import random
import socket
import struct
import threading

from raw import (
    BYE,
    DONE,
    FRAGMENT,
    IMAGE_IS,
    LINE,
    PART,
    PART_REFUSED,
    PUBLICATION_IS,
    REFUSED,
    REPLY,
    ROW,
    TAKEN,
    VALUE_IS,
    WELCOME,
    record,
)

_REPLIES = (
    lambda chance: struct.pack("<IQQ", 0x0F07, chance.randrange(3), 1),
    lambda chance: struct.pack("<IQQii", 0x0F03, chance.randrange(3), 2, 7, 10),
    lambda chance: struct.pack("<IQQiiQI", 0x0F02, chance.randrange(4), 1, 7, 10, 0, 9) + b"aeron:ipc",
    lambda chance: struct.pack("<IQQi", 0x0F05, chance.randrange(4), 1, 10),
    lambda chance: struct.pack("<IQ", 0x0F04, chance.randrange(3)),
    lambda chance: struct.pack("<IQiI", 0x0F01, chance.randrange(3), 1001, 6) + b"denied",
    lambda chance: struct.pack("<IQ", 0x0F0A, 1),
)

_ANSWERS = (
    lambda chance: record(REPLY, struct.pack("<Q", 0) + chance.choice(_REPLIES)(chance)),
    lambda chance: record(TAKEN, struct.pack("<Q", 64)),
    lambda chance: record(REFUSED, struct.pack("<i", chance.choice((-1, -4, -6, 8, 1001, 1007))) + b"refused"),
    lambda chance: record(FRAGMENT, struct.pack("<QI", 64, chance.choice((0, 0x40, 0x80, 0xC0))) + b"x" * chance.randrange(99)),
    lambda chance: record(DONE, struct.pack("<I", 1)),
    lambda chance: record(ROW, struct.pack("<Qiq", 1, 2, 3) + b"label"),
    lambda chance: record(VALUE_IS, struct.pack("<q", -1)),
    lambda chance: record(BYE, struct.pack("<i", 1010) + b"stopped"),
    lambda chance: record(LINE, b"line"),
    lambda chance: record(PART, struct.pack("<I", chance.randrange(3))),
    lambda chance: record(PART_REFUSED, struct.pack("<i", chance.choice((-4, 1001, 1007))) + b"refused"),
    lambda chance: record(PUBLICATION_IS, struct.pack("<QQQQI", 64, 128, 64, 32, chance.randrange(4))),
    lambda chance: record(IMAGE_IS, struct.pack("<QQQ", 0, 64, 128)),
    lambda chance: record(chance.randrange(1 << 32), chance.randbytes(chance.randrange(40))),
    lambda chance: struct.pack("<I", chance.choice((0, 3, 65_533, 0x7FFFFFFF, 0xFFFFFFFF))) + b"xxxx",
)

# What a driver would answer to each kind of request, with a reply or a fragment that fits.
_FITTING = {
    1: lambda chance: _ANSWERS[4](chance),
    2: lambda chance: _ANSWERS[1](chance),
    3: lambda chance: _ANSWERS[3](chance) + _ANSWERS[4](chance),
    4: lambda chance: _ANSWERS[0](chance) + _ANSWERS[4](chance),
    5: lambda chance: _ANSWERS[5](chance) + _ANSWERS[4](chance),
    6: lambda chance: _ANSWERS[6](chance),
    10: lambda chance: record(PART, b"\0\0\0\0") + _ANSWERS[3](chance) + _ANSWERS[4](chance),
    11: lambda chance: _ANSWERS[11](chance),
    12: lambda chance: _ANSWERS[12](chance),
}


def _changed(chance, data):
    """Those bytes, often as they are, else with some of them changed, cut off or added."""
    if chance.random() < 0.8:
        return data
    data = bytearray(data)
    for _ in range(chance.randrange(4)):
        data[chance.randrange(len(data))] = chance.randrange(256)
    return bytes(data[: chance.randrange(len(data) + 1)]) if chance.random() < 0.2 else bytes(data)


class Forger:
    """Serves at a path, each connection by a thread, until it is closed."""

    def __init__(self, path, seed):
        self._chance = random.Random(seed)
        self._listener = socket.socket(socket.AF_UNIX, socket.SOCK_STREAM)
        self._listener.bind(path)
        self._listener.listen(16)
        self._path = path
        threading.Thread(target=self._serve, daemon=True).start()

    def close(self):
        self._listener.close()
        os.unlink(self._path)

    def _serve(self):
        while True:
            try:
                stream, _ = self._listener.accept()
            except OSError:
                return
            stream.settimeout(2)
            self._talk(stream, random.Random(self._chance.random()))
            stream.close()

    def _talk(self, stream, chance):
        given = b""
        try:
            right = record(WELCOME, struct.pack("<IIQQ", 1, 2, 1, 10**10))
            fits = True
            for _ in range(60):
                answer = _changed(chance, right)
                stream.sendall(answer)
                if answer != right or not fits:
                    # the client may wait for what does not come: the end comes soon
                    stream.settimeout(0.02)
                while len(given) < 8 or len(given) < 4 + struct.unpack_from("<I", given)[0]:
                    more = stream.recv(1 << 16)
                    if not more:
                        return
                    given += more
                size, kind = struct.unpack_from("<II", given)
                given = given[4 + size :]
                fits = chance.random() < 0.85
                right = (_FITTING.get(kind, _ANSWERS[4]) if fits else chance.choice(_ANSWERS))(chance)
        except OSError:
            pass
