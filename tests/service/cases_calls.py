"""The pages of the clients: what is said of calls and errors is so, sentence by sentence. A sentence without a check fails."""

import importlib
import os
import pickle
import re
import shutil
import socket
import struct
import threading
import time

import aeron_policyd
from cases_c import SOURCE as IN_C
from cases_c import build, compilers, sanitized
from cases_waits import free_port
from harness import FILES, PATIENT, TOP, Failed, LeftOut, need, said, same, soon, until
from raw import WELCOME, record
from scripted import HOLES, Codes, Late, Reader, Scripted, published

POLICY = """version = 1
default = "allow"

[[rule]]
name = "p2 reads and does no more"
principal = "p2"
act = ["publish", "publish-exclusive", "list", "terminate"]
channel = "*"
allow = false
"""

WORDS = (*PATIENT, "--setting", "linger=100000000")


def serve(room, words=(), **more):
    """Starts a driver that sends from a port of its own."""
    return room.serve(*WORDS, *words, "--setting", "send-address=127.0.0.1:%d" % free_port(), policy=POLICY, **more)


def part_of(client, title):
    """A part of a page, by its title."""
    with open("%s/clients/%s/README.md" % (TOP, client), encoding="ascii") as file:
        return re.search(r"\n## %s\n(.*?)(?=\n## |\Z)" % title, file.read(), re.DOTALL)[1]


def sentences(text):
    """The last cells of the rows of its tables, but for their heads."""
    rows = re.findall(r"^\| .* \| (.*) \|$", text, re.MULTILINE)
    return [row for row in rows if row not in ("What it does", "Where", "What it shows")]


def points(text):
    """The titles of its points."""
    return re.findall(r"^- \*\*(\w[\w ]*)\.?\*\*", text, re.MULTILINE)


def exists(case):
    """Ends the case where there is no case of that name."""
    modules = [importlib.import_module(file) for file in FILES]
    need(any(hasattr(module, "case_" + case) for module in modules), "there is no case", case)


def check(what, found, checks, room):
    """Makes each check, a function or the name of a case, and looks that there is one for each sentence."""
    same(what, sorted(found), sorted(checks))
    for sentence, made in checks.items():
        if isinstance(made, str):
            exists(made)
            continue
        try:
            made(room)
        except Failed as failed:
            raise type(failed)("%s: %s" % (sentence, failed)) from None


def raised(kind, call, *words, **more):
    """What a call raises, which has to be of that kind."""
    try:
        got = call(*words, **more)
    except kind as error:
        return error
    raise Failed("%s is not raised: %r" % (kind.__name__, got))


def one_and_two(room):
    return aeron_policyd.connect(room.at("p1")), aeron_policyd.connect(room.at("p2"))


def has(room, words):
    """Waits until a line of the clients has these words."""
    until(words, lambda: any(words in line for line in room.clients()))


# ---- calls in Python


def a_connection(room):
    with aeron_policyd.connect(room.at("p1")) as driver:
        same("what it gives", aeron_policyd.Driver, type(driver))
        same("clients", 1, len(room.clients()))
    same("closed", -1, driver.fileno())
    until("no client", lambda: room.clients() == [])


def is_taken_back(room):
    with aeron_policyd.connect(room.at("p1")) as driver:
        with driver.publication("aeron:ipc", 10), driver.subscription("aeron:ipc", 10), driver.counter(1, "label", key=b"k"):
            has(room, ": 1 publications, 1 subscriptions, 1 counters")
        has(room, ": 0 publications, 0 subscriptions, 0 counters")


def sending_waits(room):
    one, two = one_and_two(room)
    with one, two:
        publication = one.publication("aeron:ipc", 11)
        added = []
        later = threading.Timer(0.3, lambda: added.append(two.subscription("aeron:ipc", 11)))
        later.start()
        same("for a reader: the position", 64, publication.send(b"bid 99", timeout=60.0))
        later.join()
        while publication.offer_all([bytes(1000)] * 10).refusal is None:
            pass
        later = threading.Timer(0.3, added[0].poll, (1000,))
        later.start()
        before = publication.positions().position
        same("for room: the position", before + 64, publication.send(b"x", timeout=60.0))
        later.join()


def offering_does_not_wait(room):
    one, two = one_and_two(room)
    with one, two:
        publication = one.publication("aeron:ipc", 12)
        begun = time.monotonic()
        raised(aeron_policyd.NoSubscriber, publication.offer, b"x")
        soon(time.monotonic() - begun < 1, "it took", time.monotonic() - begun)
        two.subscription("aeron:ipc", 12)
        until("a reader", lambda: publication.positions().connected)
        same("the position", 64, publication.offer(b"bid 99"))


def offering_many(room):
    one, two = one_and_two(room)
    with one, two:
        reads, publication = two.subscription("aeron:ipc", 13), one.publication("aeron:ipc", 13)
        until("a reader", lambda: publication.positions().connected)
        messages = [b"%03d" % number + bytes(1000) for number in range(200)]
        offered = publication.offer_all(messages)
        need(0 < offered.taken < 200 and offered.position == offered.taken * 1056, "taken", offered)
        same("why", aeron_policyd.BackPressure, type(offered.refusal))
        got = []
        while len(got) < offered.taken:
            got += [message.data for message in reads.poll(wait=60.0)]
        same("what was taken", messages[: offered.taken], got + [message.data for message in reads.poll()])


def iterating(room):
    one, two = one_and_two(room)
    with one, two:
        reads, publication = two.subscription("aeron:ipc", 14), one.publication("aeron:ipc", 14)
        later = threading.Timer(0.3, publication.send, (b"bid 99", 60.0))
        later.start()
        message = next(iter(reads))
        later.join()
        same("a message", (b"bid 99", 64, publication.registration), (message.data, message.position, message.source))
        same("its kind", aeron_policyd.Message, type(message))
    with Scripted(room.path + "/holes.sock", Reader(*HOLES)), aeron_policyd.connect(room.path + "/holes.sock") as driver:
        events = driver.subscription("aeron:ipc", 10).messages(timeout=60.0)
        kinds = {type(next(events)) for _ in range(4)}
        same("where something was lost", {aeron_policyd.Message, aeron_policyd.Gap}, kinds)


def iterating_for_a_while(room):
    one, two = one_and_two(room)
    with one, two:
        reads, publication = two.subscription("aeron:ipc", 15), one.publication("aeron:ipc", 15)
        until("its source", lambda: reads.poll() == [] and reads.images)
        publication.send(b"one"), publication.send(b"two")
        begun = time.monotonic()
        same("messages", [b"one", b"two"], [message.data for message in reads.messages(timeout=0.3)])
        need(time.monotonic() - begun >= 0.3, "it ends before nothing came for so long")


def polling(room):
    one, two = one_and_two(room)
    with one, two:
        reads, publication = two.subscription("aeron:ipc", 16), one.publication("aeron:ipc", 16)
        same("nothing", [], reads.poll())
        publication.send(b"one"), publication.send(b"two")
        got = reads.poll(wait=60.0)
        while len(got) < 2:
            got += reads.poll(wait=60.0)
        same("messages", [b"one", b"two"], [message.data for message in got])


def how_far(room):
    one, two = one_and_two(room)
    with one, two:
        reads, publication = two.subscription("aeron:ipc", 17), one.publication("aeron:ipc", 17)
        publication.send(b"one")
        same("one message", 1, len(reads.poll(wait=60.0)))
        publication.send(b"two")
        (image,) = reads.images
        same("sources", (publication.registration, publication.session, 17), (image.source, image.session, image.stream))
        same("how far", (128, 64), (publication.positions().position, reads.positions(image.source).position))


def destinations(room):
    with aeron_policyd.connect(room.at("p1")) as one:
        publication = one.publication("aeron:udp?control-mode=manual", 18)
        publication.add_destination("aeron:udp?endpoint=127.0.0.1:9")
        same("twice", 1005, raised(aeron_policyd.Conflict, publication.add_destination, "aeron:udp?endpoint=127.0.0.1:9").code)
        publication.remove_destination("aeron:udp?endpoint=127.0.0.1:9")
        publication.add_destination("aeron:udp?endpoint=127.0.0.1:9")


def what_is_shown(room):
    one, two = one_and_two(room)
    with one, two:
        # images have rows where they are received
        channel = "aeron:udp?endpoint=127.0.0.1:%d" % free_port()
        one.subscription(channel, 19)
        publication, counter = one.publication(channel, 19), one.counter(7, "orders")
        counter.set(-3)

        def shown():
            rows = {(row.type_id, row.label): row for row in one.counters()}
            return rows if (10002, channel) in rows else None

        rows, _ = until("the image", shown)
        same("the counter", (counter.registration, -3), (rows[7, "orders"].number, rows[7, "orders"].value))
        need((10001, channel) in rows, "rows", rows)
        same("its value", -3, one.value(counter.registration))
        same("a publication's", 1, one.value(publication.registration))
        same("what p2 is shown", [], two.counters())
        same("why", 1, raised(aeron_policyd.Denied, two.value, publication.registration).rule)


def ends(room):
    one, two = one_and_two(room)
    need(one.fileno() > 2, "a descriptor", one.fileno())
    same("who may not", 1, raised(aeron_policyd.Denied, two.terminate).rule)
    two.close()
    until("its end", lambda: len(room.clients()) == 1)
    one.terminate()
    same("the driver's end", 0, room.ended(room.driver))
    same("closed", -1, one.fileno())
    serve(room)


def operators(room):
    one, two = one_and_two(room)
    with one, two:
        lines = room.clients()
        need(re.match(r"client \d+ of p1 for \d+ s: ", lines[0]) and len(lines) == 2, lines)
        need("in force" in room.asked("reload"), "no reload")
        one.publication("aeron:ipc", 77)
        found = lambda: [it for it in aeron_policyd.decisions(room.at("operator"))[0] if it.get("stream") == 77]
        until("a decision", found)
        same("what was decided", ("p1", "publish", True), tuple(found()[0][name] for name in ("principal", "act", "allow")))
        taken, after = aeron_policyd.decisions(room.at("operator"))
        same("how many", after, len(taken))
        same("later ones", ([], after), aeron_policyd.decisions(room.at("operator"), after))
    room.asked("stop")
    same("the driver's end", 0, room.ended(room.driver))
    serve(room)


CALLS_IN_PYTHON = {
    "gives a `Driver`; leaving its `with` block closes the connection": a_connection,
    "adds one; leaving its `with` block takes it back": is_taken_back,
    "sends, and waits for room or a reader: the position after the message": sending_waits,
    "the same without waiting": offering_does_not_wait,
    "sends many ahead: how many were taken, and why the next one was not. None is taken after one that was not": offering_many,
    "gives each `Message`, with `data`, `position` and `source`, and waits for the next; where something was lost it gives a"
    " `Gap`": iterating,
    "the same, until nothing came for so long": iterating_for_a_while,
    "gives a list of what came": polling,
    "the sources that it reads, and how far each has come": how_far,
    "of one with `control-mode=manual`": destinations,
    "counters, publications and images, as far as the policy shows them": what_is_shown,
    "a sign of life, which a thread gives by itself unless `keepalive=False`": "signs_of_life_in_python",
    "the descriptor; the end of the connection; the end of the driver, where the policy allows it": ends,
    "what an operator asks, by `operator.sock`": operators,
}

POINTS_IN_PYTHON = {
    "Messages": "messages_are_counted_in_bytes",
    "Threads": "several_threads_in_python",
    "Forks": "a_connection_does_not_follow_a_fork",
    "Waiting": "an_idle_wait_in_python",
    "Connecting anew": "connecting_anew_in_python",
    "asyncio": "asyncio",
    "Logging": "what_is_logged_in_python",
}


def case_each_sentence_of_calls_in_python(room):
    serve(room)
    check("the table", sentences(part_of("python", "Calls")), CALLS_IN_PYTHON, room)
    check("the points", points(part_of("python", "Calls")), POINTS_IN_PYTHON, room)


# ---- errors in Python


def nobody_serves(room):
    raised(FileNotFoundError, aeron_policyd.connect, room.path + "/none.sock")
    with open(room.path + "/file", "w", encoding="ascii"):
        pass
    raised(ConnectionRefusedError, aeron_policyd.connect, room.path + "/file")
    if os.getuid() != 0:
        os.chmod(room.at("p1"), 0)
        raised(PermissionError, aeron_policyd.connect, room.at("p1"))
        os.chmod(room.at("p1"), 0o600)
        return
    # root may connect to all: another user tries
    child = os.fork()
    if child == 0:
        try:
            os.setuid(65534)
            raised(PermissionError, aeron_policyd.connect, room.at("p1"))
            os._exit(0)
        finally:
            os._exit(1)
    same("another user", 0, os.waitpid(child, 0)[1])


def no_arguments(room):
    with Scripted(room.path + "/none.sock", Codes()) as server, aeron_policyd.connect(room.path + "/none.sock") as driver:
        publication = driver.publication("aeron:ipc", 10)
        before = len(server.asked)
        raised(ValueError, driver.publication, "aeron:ipc", 2**31)
        raised(TypeError, driver.publication, 7, 10)
        raised(TypeError, publication.offer_all, [b"x", 7])
        raised(ValueError, publication.offer, b"x", wait=-1)
        same("what was sent", before, len(server.asked))


def denials(room):
    with aeron_policyd.connect(room.at("p2")) as two:
        denied = raised(aeron_policyd.Denied, two.publication, "aeron:ipc", 10)
        same("its numbers and text", (1, 1, "denied by rule 1 in policy 1"), (denied.rule, denied.policy, str(denied)))


PASSING = {
    "NoSubscriber": -1,
    "BackPressure": -2,
    "OfferAgain": -3,
    "NoLook": 1007,
    "QueueFull": 1008,
}

REFUSALS = {
    "InvalidChannel": (1,),
    "Conflict": (1005,),
    "Full": (1003,),
    "NoRoom": (1006,),
    "NoMemory": (1002,),
    "Bound": (1011, 1012, 1013, 1014),
    "Unknown": (2, 3, 5),
    "Refused": (77,),
}


def refusals_pass(room):
    """The same call is granted by a server that refuses it first."""
    with Scripted(room.path + "/pass.sock", Codes(*PASSING.values())), aeron_policyd.connect(room.path + "/pass.sock") as driver:
        publication = driver.publication("aeron:ipc", 10)
        for name, code in PASSING.items():
            refused = raised(getattr(aeron_policyd, name), publication.offer, b"x")
            same(name, (code, True), (refused.code, refused.may_pass))
        same("granted", 64, publication.offer(b"x"))
    with Scripted(room.path + "/wait.sock", Codes(*PASSING.values())), aeron_policyd.connect(room.path + "/wait.sock") as driver:
        same("and by one call that waits", 64, driver.publication("aeron:ipc", 10).send(b"x", timeout=60.0))


def messages_that_are_not_taken(room):
    one, two = one_and_two(room)
    with one, two:
        publication = one.publication("aeron:ipc", 20)
        reads = two.subscription("aeron:ipc", 20)
        until("a reader", lambda: publication.positions().connected)
        same("an eighth of a term", 8192, publication.offer(bytes(8192)) and 8192)
        raised(aeron_policyd.TooLong, publication.offer, bytes(8193))
        raised(aeron_policyd.TooLong, publication.offer, bytes(2**24 + 45))
        need(len(reads.poll(wait=60.0)) == 1, "what was taken")
        publication.close()
        same("gone", -4, raised(aeron_policyd.Closed, publication.offer, b"x").code)
    with Scripted(room.path + "/full.sock", Codes(-5)), aeron_policyd.connect(room.path + "/full.sock") as driver:
        refused = raised(aeron_policyd.MaxPosition, driver.publication("aeron:ipc", 10).offer, b"x", wait=60.0)
        same("full for good", (-5, False), (refused.code, refused.may_pass))


def refusals(room):
    codes = [(name, code) for name, listed in REFUSALS.items() for code in listed]
    with Scripted(room.path + "/codes.sock", Codes(*(code for _, code in codes))):
        with aeron_policyd.connect(room.path + "/codes.sock") as driver:
            for place, (name, code) in enumerate(codes):
                refused = raised(aeron_policyd.Refused, driver.value, place)
                same(name, (getattr(aeron_policyd, name), code, "in the driver's words", False),
                     (type(refused), refused.code, refused.text, refused.may_pass))
                same("a code", code != 77, isinstance(refused.code, aeron_policyd.Code))
                driver.keepalive()


def no_reply(room):
    with Scripted(room.path + "/late.sock", Late(published)), aeron_policyd.connect(room.path + "/late.sock") as driver:
        error = raised(aeron_policyd.NoReply, driver.publication, "aeron:ipc", 10, wait=0.05)
        need(isinstance(error, TimeoutError), "no TimeoutError")
    exists("what_is_granted_too_late_is_taken_back_in_python")


def over(room):
    driver = serve(room, folder=room.path + "/t")
    stopped, killed = (aeron_policyd.connect(room.path + "/t/p%d.sock" % number) for number in (1, 2))
    reads = killed.subscription("aeron:ipc", 10)
    room.asked("stop", room.path + "/t/operator.sock")
    end = raised(aeron_policyd.Ended, until, "the end", lambda: stopped.keepalive())
    soon(end.code is not None, "the driver had no time to say it")
    same("with a word", (aeron_policyd.Code.STOPPED, "stopped"), (end.code, str(end)))
    raised(aeron_policyd.Ended, until, "the other's end", lambda: reads.poll(wait=0.01))
    same("the driver's end", 0, room.ended(driver))
    driver = serve(room, folder=room.path + "/t")
    with aeron_policyd.connect(room.path + "/t/p1.sock") as killed:
        driver.kill()
        driver.wait()
        end = raised(aeron_policyd.Ended, until, "the end", lambda: killed.keepalive())
        need(end.code is None and str(end), "without a word", end)
    with Scripted(room.path + "/other.sock", lambda kind, fields: b"\4\0\0\0xxxx"):
        with aeron_policyd.connect(room.path + "/other.sock") as driver:
            raised(aeron_policyd.ProtocolError, driver.keepalive)
            raised(aeron_policyd.Ended, driver.keepalive)


ERRORS_IN_PYTHON = {
    "`connect`: nobody serves there, or this user may not (`PermissionError`)": nobody_serves,
    "an argument is none; nothing was sent": no_arguments,
    "the policy denies it; `rule` and `policy` are the numbers, and the text is the driver's": denials,
    "may pass: the same call may be granted later, and `may_pass` is true": refusals_pass,
    "the message is longer than an eighth of a term, and was not sent if it is longer than any; the publication is gone; it is"
    " full for good": messages_that_are_not_taken,
    "the driver refuses it; `code` is a `Code`, and the connection goes on": refusals,
    "a command was not answered in time. What it adds is taken back where it is granted all the same": no_reply,
    "the connection is over, with the driver's reason and `code` if it gave one": over,
}


def case_each_sentence_of_errors_in_python(room):
    serve(room)
    text = part_of("python", "Errors")
    check("the table", sentences(text), ERRORS_IN_PYTHON, room)
    # which are named in which row
    rows = [set(re.findall(r"`(\w+)`", row)) for row in re.findall(r"^\| (`.*) \| ", text, re.MULTILINE)]
    same("may pass", set(PASSING), rows[3])
    same("refusals", set(REFUSALS), rows[5])
    names = set().union(*rows[2:])
    for name in names:
        need(issubclass(getattr(aeron_policyd, name), aeron_policyd.ServiceError), name, "is no ServiceError")
    error = pickle.loads(pickle.dumps(aeron_policyd.NoReply("no reply within 1 s")))
    same("pickled", "no reply within 1 s", str(error))
    exists("errors_can_be_pickled")


# ---- the page of C: parts and tasks of check.c


def parts(*names):
    """Runs these parts of check.c."""

    def run(room):
        for name in names:
            room.policy(POLICY)
            words = (room.check, room.folder, "500", name)
            same(name, (0, name + "\n", ""), room.run(*words, seconds=300))

    return run


def task(room, answer, name, number=1):
    """Runs a task of check.c at a server that answers so: what it prints."""
    with Scripted(room.path + "/task.sock", answer):
        status, out, err = room.run(room.check, room.path + "/task.sock", name, str(number), seconds=300)
    same(name, (0, ""), (status, err))
    return out


def the_end_in_c(room):
    parts("faults")(room)
    room.policy(POLICY)
    same("terminate", (0, "", ""), room.run(room.check, room.at("p1"), "terminate", "1"))
    same("the driver's end", 0, room.ended(room.driver))
    serve_for_c(room)


def refused_in_c(room):
    codes = sorted(set(codes_listed()) - {0})
    wanted = "".join("%d in the driver's words\n" % code for code in codes)
    same("codes", wanted, task(room, Codes(*codes), "refusals", len(codes)))


def codes_listed():
    import codes

    return [row.code for row in codes.listed()]


def over_in_c(room):
    """By a word, and without one; and no signal ends a program that sends meanwhile."""
    for number, (ends, code) in enumerate(((lambda driver: room.asked("stop"), 1010), (lambda driver: driver.kill(), 0))):
        for offers in (0, 1):
            process = room.start(room.check, room.at("p1"), "over", str(offers))
            until("a connection", lambda: said(process.out) == "connected\n")
            driver = room.driver
            ends(driver)
            same("its end", (0, ""), (room.ended(process), said(process.err)))
            got = said(process.out)
            soon(got != "connected\n0\n" or code == 0, "the driver had no time to say it")
            same("the code", "connected\n%d\n" % code, got)
            room.ended(driver)
            serve_for_c(room)


def other_protocol_in_c(room):
    task(room, lambda kind, fields: b"\4\0\0\0xxxx", "other", 0)
    with socket.socket(socket.AF_UNIX, socket.SOCK_STREAM) as listener:
        listener.bind(room.path + "/version.sock")
        listener.listen(1)
        process = room.start(room.check, room.path + "/version.sock", "other", "1")
        stream, _ = listener.accept()
        with stream:
            stream.sendall(record(WELCOME, struct.pack("<IIQQ", 2, 1, 1, 10**10)))
            same("another version", (0, ""), (room.ended(process), said(process.err)))


CALLS_IN_C = {
    "begins and ends a connection, for the principal of the socket": parts("faults"),
    "adds one, and takes it back": parts("messages", "sources"),
    "offers a message; offers many, sent ahead, in their order through refusals": parts("ahead", "waits"),
    "hands fragments to a function, and waits while there are none": parts("waits", "messages"),
    "puts the fragments of one source together, and says where something was lost": parts("gaps", "large"),
    "for loops that wait for several things at once; `apd_work` gives signs of life too, where they are due": parts("events"),
    "a sign of life": "signs_of_life_in_c",
    "a moment, and what is left until then: the wait of several calls, one after the other": parts("waits"),
    "of a publication with `control-mode=manual`": parts("destinations"),
    "counters, publications and images, as far as the policy shows them": parts("counters"),
    "how far a log of the client's own has come": parts("positions"),
    "ends the driver, where the policy allows it": the_end_in_c,
    "a status and a code in words; the version of the library": parts("texts"),
}

POINTS_IN_C = {
    "Memory": "no_memory_is_taken_in_c",
    "Threads": "each_function_in_c",
    "Signals": "no_program_inherits_a_connection_of_c",
}

ERRORS_IN_C = {
    "done": parts("counters"),
    "the driver refused it, and the connection goes on. `code` is of `enum apd_code`, such as `APD_CODE_DENIED`,"
    " `APD_CODE_BACK_PRESSURE`, `APD_CODE_NO_SUBSCRIBER`": refused_in_c,
    "a command was not answered in time. What it adds is taken back where it is granted all the same":
        "what_is_granted_too_late_is_taken_back_in_c",
    "an argument is too large, and nothing was sent": parts("large arguments"),
    "the struct is a subscription already, or the answer to `apd_begin` is still to come; nothing was sent":
        parts("messages", "events"),
    "of `apd_join`: something was lost. Call again with the same fragment": parts("gaps"),
    "the connection is over; whether to connect anew is the caller's decision": over_in_c,
    "the system failed: `code` is its errno, and the connection is over. Of `apd_connect`: nobody serves there, or this user may"
    " not": parts("faults"),
    "the other end speaks another protocol": other_protocol_in_c,
}


def serve_for_c(room):
    serve(room, words=("--setting", "arena-pages=32768"))


def case_each_sentence_of_the_page_of_c(room):
    room.check = sanitized(room, compilers()[0], TOP + "/tests/service/check.c")
    serve_for_c(room)
    calls = part_of("c", "Calls")
    # the examples are cases of their own
    examples = re.findall(r"^\| `(\w+\.c)` \| (.*) \|$", calls, re.MULTILINE)
    same("examples", ["example.c", "reader.c", "loop.c"], [name for name, _ in examples])
    for case in ("the_example_in_c", "other_examples_in_c"):
        exists(case)
    check("the table", set(sentences(calls)) - {words for _, words in examples}, CALLS_IN_C, room)
    check("the points", points(calls), POINTS_IN_C, room)
    check("the errors", sentences(part_of("c", "Errors")), ERRORS_IN_C, room)


def case_no_memory_is_taken_in_c(room):
    """The client calls nothing that takes or gives back memory, and a struct is as long in each version."""
    if not shutil.which("nm"):
        raise LeftOut("nm is not there")
    status, _, err = room.run(compilers()[0], "-std=c99", "-O2", "-c", "-o", room.path + "/client.o", IN_C + "/aeron_policyd.c")
    same("the compiler", (0, ""), (status, err))
    status, out, _ = room.run("nm", "-u", room.path + "/client.o")
    calls = set(re.findall(r"U (\w+)", out))
    need({"sendmsg", "recv"} <= calls, "calls", calls)
    same("what takes memory", set(), {call for call in calls if re.match(r"(m|c|re)alloc|free|strn?dup|mmap|sbrk|asprintf|fopen", call)})
    with open(room.path + "/sizes.c", "w", encoding="ascii") as file:
        file.write(SIZES)
    program = build(room, compilers()[0], room.path + "/sizes.c")
    # programs that were linked with an earlier library of the same major number run with this one
    same("sizes", (0, "driver 1192 subscription 72 image 56 joiner 128\n", ""), room.run(program))


SIZES = """
#include "aeron_policyd.h"
#include <stdio.h>
int main(void)
{
    printf("driver %d subscription %d image %d joiner %d\\n", (int)sizeof(struct apd_driver), (int)sizeof(struct apd_subscription),
           (int)sizeof(struct apd_image), (int)sizeof(struct apd_joiner));
    return 0;
}
"""
