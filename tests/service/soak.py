"""A soak: what goes through the clients in Python and C, while policies change, connections are cut and drivers end.

`soak(room, count)` sends messages from Python to C and from C to Python, until each reader has come to COUNT and each disturbance
was there once at least. It gives figures, or raises what does not hold: no message comes twice, none overtakes another of its
source, and none is missing but where the reader's client said that something is lost there, or where the sender's connection
ended while it was under way. `tests/service/soak` runs it alone.
"""

import os
import signal
import sys
import time
from typing import NamedTuple

from harness import ALLOW, HERE, TOP, Failed, Room, need, said, same, until

CHANNEL = "aeron:ipc?term-length=1m"

# A log of 1 MiB terms is 768 pages, and some linger. A client may be held up for long where the machine does much else.
WORDS = ("--setting", "arena-pages=32768", "--setting", "linger=3000000000", "--setting", "client-liveness=60000000000")

DENY = '\n[[rule]]\nname = "for a while"\nprincipal = "%s"\nact = "%s"\nchannel = "*"\nallow = false\n'

LAST = 2**64 - 1

# A sender that is cut off leaves half a term at most. Its reader reads that in turns with what is sent next, and has read all of it
# once it is so many messages further. A reader that is cut off before would be told of a gap in both at once.
LEFT = 20_000


class Flow:
    """A sender and its reader, in processes of their own."""

    def __init__(self, room, program, stream, sender, reader):
        self.name = "%s to %s" % (sender, reader)
        words = {"Python": (sys.executable, HERE + "/soak_client.py"), "C": (program,)}
        self.reader = room.start(*words[reader], "read", room.at("p2"), CHANNEL, str(stream))
        self.sender = room.start(*words[sender], "send", room.at("p1"), CHANNEL, str(stream))

    def at(self):
        """How far the reader has come."""
        for process in (self.reader, self.sender):
            words = said(process.out) + said(process.err)
            need("wrong" not in words and not said(process.err) and process.poll() is None, self.name, words[-300:])
        found = [line for line in said(self.reader.out).splitlines() if line.startswith("at ")]
        return int(found[-1].split()[1]) if found else 0

    def end(self, room):
        """Has both end, once what was sent is read, and looks at what they say."""
        self.sender.send_signal(signal.SIGTERM)
        same(self.name + ": the reader's end", 0, room.ended(self.reader, 300))
        self.sender.send_signal(signal.SIGTERM)
        same(self.name + ": the sender's end", 0, room.ended(self.sender, 300))
        for process in (self.reader, self.sender):
            need("wrong" not in said(process.out) and not said(process.err), self.name, said(process.out)[-300:], said(process.err))
        return look(self.name, said(self.sender.out).splitlines(), said(self.reader.out).splitlines())


class Figures(NamedTuple):
    """Of one flow."""

    name: str
    sent: int
    read: int
    lost: int  # where the reader was told of it
    unsure: int  # missing where the sender's connection ended
    gaps: int


def look(name, sender, reader):
    """Looks whether what is missing is named."""
    (sent,) = [int(line.split()[1]) for line in sender if line.startswith("sent ")]
    doubts = sorted(tuple(map(int, line.split()[1:])) for line in sender if line.startswith("doubt "))
    runs = sorted((int(first), int(after), why) for _, first, after, why in
                  (line.split() for line in reader if line.startswith("run ")))
    wanted = read = lost = unsure = 0
    for first, after, why in runs:
        first = min(first, sent)
        need(first >= wanted or after == LAST, name, "comes twice:", first, "after", wanted)
        if first > wanted and why == "gap":
            lost += first - wanted
        elif first > wanted:
            need(is_within(wanted, first, doubts), name, "lost without a word:", wanted, first, doubts)
            unsure += first - wanted
        if after != LAST:
            read += after - first
            wanted = after
        else:
            wanted = sent
    same(name + ": what was sent last", sent, wanted)
    counts = [line.split() for line in reader if line.startswith("read ")]
    same(name + ": what was read", read, int(counts[-1][1]))
    same(name + ": all", sent, read + lost + unsure)
    return Figures(name, sent, read, lost, unsure, int(counts[-1][3]))


def is_within(first, after, stretches):
    """Whether all from the first on, up to before the other one, are in these stretches, which stand in their order."""
    for begins, ends in stretches:
        if begins <= first < ends:
            first = ends
    return first >= after


class Disturbances:
    """What happens meanwhile, one after another."""

    def __init__(self, room, flows, tell):
        self._room = room
        self._flows = flows
        self._tell = tell
        self._begun = time.monotonic()
        self.counts = {}

    def round(self):
        """Each of them once."""
        room = self._room
        for principal, act in (("p2", "receive"), ("p1", "offer"), ("p2", "image")):
            self._reload("%s denied" % act, ALLOW + DENY % (principal, act))
            self._reload("%s allowed" % act, ALLOW)
            self._goes_on()
        for flow in self._flows:
            for what, process in (("sender", flow.sender), ("reader", flow.reader)):
                self._count("a %s is cut off" % what)
                process.send_signal(signal.SIGUSR1)
                self._goes_on(LEFT if what == "sender" else 0)
        for what, end in (("killed", self._kill), ("stopped", self._stop)):
            self._count("a driver is %s" % what)
            end()
            room.driver.wait()
            room.serve(*WORDS)
            self._goes_on()

    def _kill(self):
        os.killpg(self._room.driver.pid, signal.SIGKILL)

    def _stop(self):
        self._room.asked("stop")

    def _reload(self, what, policy):
        self._count(what)
        self._room.policy(policy)
        need("in force" in self._room.asked("reload"), "no reload")

    def _count(self, what):
        self.counts[what] = self.counts.get(what, 0) + 1
        self._tell("%6.1f s, %s: %s" % (time.monotonic() - self._begun, [flow.at() for flow in self._flows], what))

    def _goes_on(self, further=0):
        """Waits until each reader reads what was sent after that, and so many messages more."""
        for flow in self._flows:
            before = flow.at()
            until("%s goes on after %r" % (flow.name, self.counts), lambda: flow.at() > before + further, seconds=120)


def soak(room, program, count, tell=lambda words: None):
    """Sends at least so many messages each way, by the program of soak.c: the figures, how often what happened, and seconds.

    `tell` gets a line for each disturbance.
    """
    room.serve(*WORDS)
    flows = [Flow(room, program, 10, "Python", "C"), Flow(room, program, 11, "C", "Python")]
    disturbances = Disturbances(room, flows, tell)
    begun = time.monotonic()
    for flow in flows:
        until("the first messages", lambda: flow.at() > 0)
    while True:
        disturbances.round()
        if all(flow.at() >= count for flow in flows):
            break
    return [flow.end(room) for flow in flows], disturbances.counts, time.monotonic() - begun


def main(program, count):
    import cases_c

    room = Room(os.path.abspath(program))
    try:
        built = cases_c.build(room, cases_c.compilers()[0], HERE + "/soak.c", "-O2")
        figures, counts, seconds = soak(room, built, count, lambda words: print(words, flush=True))
        for one in figures:
            print("%s: %d sent, %d read, %d lost where a gap is named, %d where the sender's connection ended; %d gaps"
                  % (one.name, one.sent, one.read, one.lost, one.unsure, one.gaps))
        print(", ".join("%s: %d" % pair for pair in counts.items()))
        print("%.0f s, %s" % (seconds, open("/proc/loadavg").read().split()[0]))
        return 0
    except Failed as failed:
        print("FAILED", failed)
        return 1
    finally:
        room.close()


if __name__ == "__main__":
    sys.exit(main(sys.argv[1], int(sys.argv[2])))
