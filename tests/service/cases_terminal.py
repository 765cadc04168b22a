"""What a person at a terminal is told of a fault, beside its own words."""

import os
import pty
import subprocess

from harness import same

SWAPPED = """version = 1
default = "deny"

[[rule]]
name = "one"
principal = "*"
act = "*"
channel = "*"
stream = [5, 4]
allow = true
"""

OPEN = 'version = 1\ndefault = "allow"\n'

PLACE = "swapped.toml:9:1: rule 1 (one): stream = [5, 4]: the range is reversed: wanted [LOW, HIGH]"


def shown_at(terminal):
    """What was written to a terminal that nobody writes to any more, as lines."""
    shown = b""
    while True:
        try:
            part = os.read(terminal, 4096)
        except OSError:
            part = b""
        if not part:
            os.close(terminal)
            return shown.decode("ascii").replace("\r\n", "\n")
        shown += part


def told(room, *words):
    """Runs the program with its standard error at a terminal: status, output, and what the terminal shows."""
    ours, its = pty.openpty()
    process = subprocess.Popen(
        (room.program,) + words,
        stdin=subprocess.DEVNULL,
        stdout=subprocess.PIPE,
        stderr=its,
        cwd=room.path,
        start_new_session=True,
    )
    room.processes.append(process)
    os.close(its)
    output, _ = process.communicate(timeout=60)
    return process.returncode, output.decode("ascii"), shown_at(ours)


def write(room, name, text):
    with open(room.path + "/" + name, "w", encoding="ascii") as file:
        file.write(text)


def case_a_terminal_shows_places(room):
    """`check`, `decide` and `run` say where a fault is, behind its own words; where all is well they say nothing."""
    write(room, "swapped.toml", SWAPPED)
    write(room, "open.toml", OPEN)
    both = "aeron_policyd: rule 1: bad range\n%s\n" % PLACE
    same("check", (1, "", both), told(room, "check", "swapped.toml"))
    same("check --places", (1, "", both), told(room, "check", "--places", "swapped.toml"))
    same("decide", (1, "", both), told(room, "decide", "swapped.toml", "p1", "spy", "aeron:ipc", "1"))
    same("run", (1, "", both), told(room, "run", "--policy", "swapped.toml", "--turns", "1"))
    unread = "aeron_policyd: cannot read file\ncannot read no.toml: no such file\n"
    same("no file", (1, "", unread), told(room, "check", "no.toml"))
    unknown = "aeron_policyd: unknown principal\np64: unknown principal\n"
    same("no principal", (1, "", unknown), told(room, "decide", "open.toml", "p64", "spy", "aeron:ipc", "1"))
    invalid = "aeron_policyd: invalid channel\nudp: invalid channel: no scheme aeron:\n"
    same("no channel", (1, "", invalid), told(room, "decide", "open.toml", "p1", "spy", "udp", "1"))
    same("a policy", (0, "ok: 0 rules\n", ""), told(room, "check", "open.toml"))


def case_a_script_writes_its_answers_alone(room):
    """At a terminal, too, nothing is said of policies that a script refuses, nor of a bad line."""
    later = "policy\n%s.\npolicy\n%s.\nattach 0 1\n" % (OPEN, SWAPPED)
    write(room, "later", later)
    write(room, "first", "policy\n%s.\n" % SWAPPED)
    same("a later policy", (0, "policy refused: rule 1: bad range\nattached 1\n", ""), told(room, "script", "later"))
    same("the first policy", (1, "line 1: bad line\n", ""), told(room, "script", "first"))
    same("no file", (1, "", "aeron_policyd: cannot read file\n"), told(room, "script", "no"))
