"""Runs the cases of tests/service, each in a folder of its own, and ends all that it started."""

import importlib
import os
import random
import re
import shutil
import signal
import socket
import subprocess
import sys
import tempfile
import time
import traceback

HERE = os.path.dirname(os.path.abspath(__file__))
TOP = os.path.dirname(os.path.dirname(HERE))
sys.path.insert(0, HERE)
sys.path.insert(0, os.path.join(TOP, "clients", "python"))

# No run of a case takes longer, in seconds, whatever the machine does beside.
LONGEST = 400

# How often a case is run at most where the machine held it up.
TRIES = 5

# The files that have cases, in their order.
FILES = ("cases_talk", "cases_pages", "cases_terminal", "cases_python", "cases_c", "cases_records", "cases_ends", "cases_bounds", "cases_many", "cases_waits", "cases_doors", "cases_files", "cases_denials", "cases_vetting", "cases_decisions", "cases_words", "cases_revoked", "cases_gaps", "cases_calls", "cases_strangers", "cases_soak")

# The code and the text of what an operator is told who asks for nothing in time.
NOTHING_ASKED = (6, "unknown request")

ALLOW = 'version = 1\ndefault = "allow"\n'
DENY = 'version = 1\ndefault = "deny"\n'


# Words of `serve`: clients may be silent, and leave what there is to read, for longer than a busy machine takes for all of a case.
PATIENT = ("--setting", "client-liveness=300000000000", "--poll-within", "0")


class LeftOut(Exception):
    """A case, or a part of one, that can't be run here."""


class Failed(Exception):
    """What does not hold."""


class Late(Failed):
    """What does not hold in time. The machine may have held the case up, so it is run again; it fails where each run is late."""


def need(holds, *words):
    """Ends the case where that does not hold."""
    if not holds:
        raise Failed(" ".join(str(word) for word in words))


def soon(holds, *words):
    """Ends this run of the case where that, which is about time, does not hold."""
    if not holds:
        raise Late(" ".join(str(word) for word in words))


def same(what, wanted, got):
    """Ends the case where the two differ."""
    if wanted != got:
        raise Failed("%s: wanted %.300r, got %.300r" % (what, wanted, got))


def until(what, holds, seconds=60.0):
    """Waits until that holds, for longer than a busy machine needs: what it gave, and how long it took."""
    begun = time.monotonic()
    while True:
        got = holds()
        if got:
            return got, time.monotonic() - begun
        if time.monotonic() - begun > seconds:
            raise Failed("%s: not within %g s" % (what, seconds))
        time.sleep(0.005)


def free_ports(count):
    """So many ports that nobody receives by, below those that the system gives to whoever asks for any."""
    found = []
    for port in random.sample(range(10_000, 20_000), 1_000):
        with socket.socket(socket.AF_INET, socket.SOCK_DGRAM) as probe:
            try:
                probe.bind(("127.0.0.1", port))
                found.append(port)
            except OSError:
                pass
        if len(found) == count:
            return found
    raise Failed("no port is free")


def own_port():
    """Words of `serve`: it sends from a port of its own."""
    return "--setting", "send-address=127.0.0.1:%d" % free_ports(1)[0]


class Room:
    """A folder of a case, with a driver that serves there, and the processes that it started."""

    def __init__(self, program):
        self.program = program
        self.top = TOP
        # the path of a socket is short
        above = tempfile.gettempdir()
        self.path = tempfile.mkdtemp(prefix="aeron_policyd-service.", dir=above if len(above) < 40 else "/tmp")
        self.folder = self.path + "/s"
        self.policy_path = self.path + "/policy.toml"
        self.processes = []
        self.driver = None
        self.left_out = []
        self.names = 0

    # ---- processes

    def start(self, *words, **more):
        """Starts a process, whose output goes to files: the process, with the paths `out` and `err`."""
        self.names += 1
        out, err = ("%s/%d.%s" % (self.path, self.names, kind) for kind in ("out", "err"))
        more.setdefault("stdin", subprocess.DEVNULL)
        with open(out, "wb") as out_file, open(err, "wb") as err_file:
            process = subprocess.Popen(words, stdout=out_file, stderr=err_file, start_new_session=True, **more)
        process.out, process.err = out, err
        self.processes.append(process)
        return process

    def call(self, *words, seconds=60, **more):
        """Runs the program with these words to its end: status, output, errors."""
        return self.run(self.program, *words, seconds=seconds, **more)

    def run(self, *words, seconds=60, given=None, **more):
        """Runs a process to its end: status, output, errors."""
        if given is not None:
            with open(self.path + "/given", "wb") as file:
                file.write(given)
            more["stdin"] = open(self.path + "/given", "rb")
        process = self.start(*words, **more)
        if given is not None:
            more["stdin"].close()
        status = self.ended(process, seconds)
        return status, said(process.out), said(process.err)

    def ended(self, process, seconds=60):
        """Waits for the end of a process: its status."""
        try:
            return process.wait(seconds)
        except subprocess.TimeoutExpired:
            raise Failed("%s does not end: %s" % (" ".join(process.args[:4]), said(process.err)[-200:])) from None

    def close(self):
        """Ends what still runs, and takes the folder away."""
        for process in reversed(self.processes):
            if process.poll() is None:
                # with what it started itself
                os.killpg(process.pid, signal.SIGKILL)
            process.wait()
        shutil.rmtree(self.path, ignore_errors=True)

    # ---- a driver

    def policy(self, words):
        """Writes the policy; words of a file of the repository where they end in .toml."""
        if words.endswith(".toml"):
            with open(os.path.join(TOP, words), encoding="ascii") as file:
                words = file.read()
        # readers of the file see it whole
        with open(self.policy_path + ".new", "w", encoding="ascii") as file:
            file.write(words)
        os.rename(self.policy_path + ".new", self.policy_path)

    def serve(self, *words, policy=ALLOW, doors=("p1", "p2"), folder=None, has_port=True):
        """Starts a driver, and waits until it serves. It sends from a port of its own, unless words or the program say from which."""
        self.policy(policy)
        if has_port and not any(word.startswith("send-address=") for word in words):
            words = (*words, *own_port())
        folder = folder or self.folder
        doors = [word for door in doors for word in ("--door", door)]
        self.driver = self.start(self.program, "serve", "--policy", self.policy_path, "--folder", folder, *doors, *words)
        self.served(self.driver)
        return self.driver

    def served(self, driver):
        """Waits until a driver serves, or ends the case."""
        end = time.monotonic() + 60
        while "serving" not in said(driver.err):
            if driver.poll() is not None or time.monotonic() > end:
                raise Failed("no driver: %s" % said(driver.err).strip())
            time.sleep(0.01)

    def at(self, name):
        """The path of a socket."""
        return "%s/%s.sock" % (self.folder, name)

    # ---- operators

    def clients(self):
        """The lines of STATUS."""
        return self.asked("clients")

    def asked(self, word, path=None):
        """What an operator is answered by the client in Python, whose function has that name.

        The driver gives an operator 200 ms to ask. One that the machine holds up for so long is told what one is told who asks
        for nothing, and nothing is done: it asks again.
        """
        import aeron_policyd

        for _ in range(TRIES):
            try:
                return getattr(aeron_policyd, word)(path or self.at("operator"))
            except aeron_policyd.Ended as end:
                # a driver that is held up for 200 ms where it answers says nothing
                soon(end.code is not None, "an operator is told nothing:", end)
                if end.code != NOTHING_ASKED[0]:
                    raise
        raise Failed("an operator is late each time")

    def order(self, word):
        """The same by the program, with that word: status, output, errors."""
        for _ in range(TRIES):
            answered = self.call(word, "--driver", self.at("operator"))
            if answered != (1, "", "aeron_policyd: %s\n" % NOTHING_ASKED[1]):
                break
        return answered

    def leave_out(self, words):
        """Says that a part of the case is not run."""
        self.left_out.append(words)


def said(path):
    """What a process wrote."""
    try:
        with open(path, "rb") as file:
            return file.read().decode("utf-8", "replace")
    except FileNotFoundError:
        return ""


def kilobytes(pid, what="VmRSS"):
    """How much memory a process has resident."""
    with open("/proc/%d/status" % pid, encoding="ascii") as lines:
        for line in lines:
            if line.startswith(what + ":"):
                return int(line.split()[1])
    raise Failed("no " + what)


def highest(pid):
    """How much it had resident at most, in kilobytes."""
    return kilobytes(pid, "VmHWM")


def seconds_of(pid):
    """How much processor time a process took so far."""
    with open("/proc/%d/stat" % pid, encoding="ascii") as line:
        words = line.read().rpartition(")")[2].split()
    return (int(words[11]) + int(words[12])) / os.sysconf("SC_CLK_TCK")


def threads(pid):
    return len(os.listdir("/proc/%d/task" % pid))


def descriptors(pid):
    return len(os.listdir("/proc/%d/fd" % pid))


def _too_long(_signal, _frame):
    raise Failed("longer than %d s" % LONGEST)


def run_case(case, program):
    """Runs a case, and again where it was late: whether all of it was left out, what went wrong, and which parts were left out."""
    for number in range(TRIES):
        try:
            return run_once(case, program, number + 1 < TRIES)
        except Late as late:
            if os.environ.get("TIMES"):
                print("late: %s: %s" % (case.__name__[5:], late), flush=True)


def run_once(case, program, may_be_late):
    """Runs a case once."""
    room = Room(program)
    signal.alarm(LONGEST)
    try:
        case(room)
        return False, None, room.left_out
    except LeftOut as why:
        return True, None, room.left_out + [str(why)]
    except Exception as error:
        if may_be_late and isinstance(error, Late):
            raise
        place = traceback.extract_tb(error.__traceback__)
        line = [step.lineno for step in place if os.path.basename(step.filename).startswith("cases")]
        words = str(error) or type(error).__name__
        if not isinstance(error, Failed):
            words = "%s: %s" % (type(error).__name__, words)
        return False, "line %s: %s" % (line[-1] if line else "?", words.replace("\n", " ")), room.left_out
    finally:
        signal.alarm(0)
        room.close()


def cases_of(names):
    """The cases, in the order in which they stand in their files."""
    cases = []
    for file in FILES:
        module = importlib.import_module(file)
        with open(os.path.join(HERE, file + ".py"), encoding="ascii") as lines:
            order = re.findall(r"^def (case_[a-z0-9_]+)\(", lines.read(), re.MULTILINE)
        cases += [getattr(module, name) for name in order]
    if not names:
        return cases
    return [case for case in cases if case.__name__[5:] in names]


def main(program, names):
    signal.signal(signal.SIGALRM, _too_long)
    signal.signal(signal.SIGTERM, lambda *_: sys.exit(2))
    passed = failed = 0
    wanted = cases_of(names)
    if not wanted:
        print("FAILED tests/service: there is no case of that name")
        failed += 1
    for case in wanted:
        begun = time.monotonic()
        skipped, wrong, left_out = run_case(case, program)
        name = case.__name__[5:]
        for words in left_out:
            print("left out%s %s: %s" % (":" if skipped else " of", name, words), flush=True)
        if skipped:
            continue
        if wrong:
            failed += 1
            print("FAILED tests/service %s: %s" % (name, wrong), flush=True)
        else:
            passed += 1
        if os.environ.get("TIMES"):
            print("%6.2f s %s" % (time.monotonic() - begun, name), flush=True)
    print("%d passed, %d failed" % (passed, failed))
    return 1 if failed else 0


if __name__ == "__main__":
    # the cases import this file by its name
    sys.modules["harness"] = sys.modules["__main__"]
    sys.exit(main(sys.argv[1], sys.argv[2:]))
