"""Cases that each policy of a driver has to keep, at its start and at each reload."""

import os

import aeron_policyd
from cases_denials import denied, rule
from cases_files import AT_A_DOOR, comes_in, put_at, reloading
from harness import ALLOW, DENY, need, own_port, said, same, soon, until

# p1 publishes on stream 10, and p2 does not.
CASES = "# who publishes\np1 publish aeron:ipc 10 allow\np2 publish aeron:ipc 10..11 deny\n"

# A policy that keeps them, and one more of which nothing is wanted.
KEEPS = ALLOW + rule("p1 alone", "p2", "publish offer", 10) + rule("p1 alone too", "p2", "publish offer", 11)
OTHER = KEEPS + rule("no others", "p2", "publish", 12)


def cases(room, words):
    """Writes the file of cases, which readers see whole: its path."""
    path = room.path + "/wanted.cases"
    with open(path + ".new", "w", encoding="ascii") as file:
        file.write(words)
    os.rename(path + ".new", path)
    return path


def starting(room, policy, path):
    """A start that comes to nothing: status, output, errors."""
    room.policy(policy)
    return room.call("serve", "--policy", room.policy_path, "--folder", room.folder, "--door", "p1", "--cases", path, *own_port())


def tested(room, path):
    """The first line that `test` prints of the policy in the file."""
    status, out, _ = room.call("test", room.policy_path, path)
    same("status of test", 1, status)
    return out.splitlines()[0]


def case_a_driver_starts_under_a_policy_that_keeps_its_cases(room):
    path = cases(room, CASES)
    failing = starting(room, ALLOW, path)
    wanted = "aeron_policyd: %s: %s\n" % (path, tested(room, path))
    same("a case that fails", (1, "", wanted), failing)
    same("its words", "line 3: p2 publish aeron:ipc 10..11 deny: p2 publish 10: allowed by default in policy 1", tested(room, path))
    same("what is left", False, os.path.exists(room.folder))
    for what, words, why in (
        ("no act", "p1 fly aeron:ipc 10 allow\n", "%s:1:4: unknown act"),
        ("no principal", "\np1 publish aeron:ipc 10 allow\np99 publish aeron:ipc 10 deny\n", "%s:3:1: unknown principal"),
        ("no channel", "p1 publish aeron:tcp 10 allow\n", "%s:1:12: invalid channel"),
        ("no case", "# nothing is wanted\n", "%s:1:1: no case in the file"),
    ):
        status, out, err = starting(room, KEEPS, cases(room, words))
        same(what, (1, ""), (status, out))
        need(err.startswith("aeron_policyd: " + why % path), what, err)
        same(what + " of test", err, room.call("test", room.policy_path, path)[2])
    os.remove(path)
    same("no file", (1, "", "aeron_policyd: cannot read %s: no such file\n" % path), starting(room, KEEPS, path))
    os.mkfifo(path)
    wanted = "aeron_policyd: cannot read %s: it is no regular file\n" % path
    same("a pipe", (1, "", wanted), starting(room, KEEPS, path))
    os.remove(path)
    room.serve("--cases", cases(room, CASES), policy=KEEPS)
    comes_in(room, "p2")


def case_a_reload_keeps_the_cases(room):
    """One that does not changes nothing: neither what is decided, nor the policy's number, nor with what the next one is compared."""
    path = cases(room, CASES)
    driver = room.serve("--cases", path, policy=KEEPS)
    with aeron_policyd.connect(room.at("p2")) as two:
        same("before", 1, denied(two.publication, "aeron:ipc", 10).rule)
        room.policy(ALLOW)
        wanted = "%s: %s" % (path, tested(room, path))
        same("a case that fails", (1, "", "aeron_policyd: %s\n" % wanted), room.order("reload"))
        need("policy refused: " + wanted in said(driver.err).splitlines(), "it is not said")
        denial = denied(two.publication, "aeron:ipc", 10)
        same("after", (1, 1), (denial.rule, denial.policy))
        # the cases are read again, and what is no case changes nothing either
        cases(room, "p2 publish aeron:ipc 10 allowed\n")
        wanted = "aeron_policyd: %s:1:25: no allow or deny\n" % path
        same("a file that is none", (1, "", wanted), room.order("reload"))
        same("still", 1, denied(two.publication, "aeron:ipc", 10).rule)
        # others are wanted, which the same policy keeps
        cases(room, "p2 publish aeron:ipc 10..11 allow by default\n")
        status, out, err = room.order("reload")
        same("a reload", (0, "policy 2 in force", ""), (status, out.splitlines()[0], err))
        need(any("deny by rule 1 (p1 alone) -> allow by default" in line for line in out.splitlines()), out)
        two.publication("aeron:ipc", 10)
        # the policy of the start keeps them no more
        room.policy(KEEPS)
        need(": p2 publish 10: denied by rule 1 in policy 1" in room.order("reload")[2], "the first policy comes back")
        two.publication("aeron:ipc", 11)


def case_no_file_of_cases_holds_up_a_door(room):
    path = cases(room, CASES)
    driver = room.serve("--cases", path, policy=KEEPS)
    for what, make, why in (
        ("a pipe", os.mkfifo, "cannot read %s: it is no regular file"),
        ("a folder", os.mkdir, "cannot read %s: it is no regular file"),
        ("a device", lambda path: os.symlink("/dev/zero", path), "cannot read %s: it is no regular file"),
        ("a link to nowhere", lambda path: os.symlink(room.path + "/nowhere", path), "cannot read %s: no such file"),
    ):
        put_at(path, make)
        room.policy(OTHER)
        asked = reloading(room)
        soon(comes_in(room, "p2") < AT_A_DOOR, "a door waits for", what)
        same(what, 1, room.ended(asked))
        same(what, "aeron_policyd: %s\n" % (why % path), said(asked.err))
        need("policy refused: " + why % path in said(driver.err).splitlines(), what, "is not said")
    put_at(path, lambda path: cases(room, CASES))
    same("the next", (0, "policy 2 in force", ""), taken(room.order("reload")))


def taken(answered):
    """Status, first line and errors of a reload."""
    status, out, err = answered
    return status, out.split("\n")[0], err


def case_a_policy_that_is_read_by_itself_keeps_the_cases(room):
    path = cases(room, CASES)
    driver = room.serve("--cases", path, "--reload-every", "1", policy=KEEPS)
    room.policy(DENY)
    until("a refusal", lambda: "policy refused: %s: line 2: " % path in said(driver.err))
    with aeron_policyd.connect(room.at("p1")) as one:
        one.publication("aeron:ipc", 10)
    room.policy(OTHER)
    until("the next", lambda: "policy 2 in force" in said(driver.err))
    lines = said(driver.err).splitlines()
    same("how often it was refused", 1, sum(line.startswith("policy refused") for line in lines))
