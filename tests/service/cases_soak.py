"""A soak of some seconds. `tests/service/soak PROGRAM COUNT` has a longer one."""

from cases_c import compilers, sanitized
from harness import HERE, need, same
from soak import look, soak


def case_reloads_restarts_and_cuts_under_load(room):
    """No message is lost without a word, comes twice, or overtakes another, from Python to C and from C to Python."""
    figures, counts, _ = soak(room, sanitized(room, compilers()[0], HERE + "/soak.c"), 20_000)
    same("what happened", {1, 2}, set(counts.values()))
    for flow in figures:
        need(flow.read >= 20_000 and flow.gaps >= 4, "too little to show anything:", flow)


def case_the_soak_sees_what_is_lost(room):
    """Each of these would be a loss without a word, or a message that comes twice."""
    sender = ["doubt 10 20", "sent 40"]
    good = ["run 0 12 source", "run 20 30 source", "run 35 40 gap", "read 27 gaps 1"]
    same("what is named", (40, 27, 5, 8), look("good", sender, good)[1:5])
    for bad in (
        ["run 0 12 source", "run 21 40 source", "read 31 gaps 0"],
        ["run 0 9 source", "run 20 40 source", "read 29 gaps 0"],
        ["run 0 12 source", "run 11 40 gap", "read 41 gaps 1"],
        ["run 0 39 source", "read 39 gaps 0"],
        ["run 0 40 source", "read 39 gaps 0"],
    ):
        try:
            look("bad", sender, bad)
        except Exception:
            continue
        need(False, "it is taken for whole:", bad)
