"""The client in Python."""

import array
import ast
import asyncio
import glob
import inspect
import logging
import os
import pickle
import re
import shutil
import struct
import subprocess
import sys
import threading
import time

import aeron_policyd
import aeron_policyd.aio
import codes
from forger import Forger
from harness import ALLOW, PATIENT, TOP, Failed, LeftOut, need, same, soon, until
from raw import OFFER
from scripted import HOLES, Late, Reader, Refusing, Scripted, counted, published, subscribed

SOURCE = os.path.join(TOP, "clients", "python")
PRICES = "examples/serving/policy.toml"


def raised(kind, call, *words, **more):
    """What a call raises; it has to be of that kind and no other."""
    try:
        got = call(*words, **more)
    except Exception as error:
        if type(error) is not kind:
            raise
        return error
    raise Failed("%s is not raised: %r" % (kind.__name__, got))


def case_the_example_in_python(room):
    room.serve(policy=PRICES)
    paths = dict(os.environ, PYTHONPATH=SOURCE)
    status, out, err = room.run(sys.executable, "-W", "error", SOURCE + "/example.py", room.folder, env=paths)
    wanted = """the desk reads: bid 99
the desk reads: ask 101
the desk may not publish: denied by default in policy 1
rule: None policy: 1
"""
    same("the example", (0, wanted, ""), (status, out, err))


def case_the_page_of_python(room):
    """The lines to the first message run as they stand, and each name of the tables is there."""
    room.serve(policy=PRICES)
    with open(SOURCE + "/README.md", encoding="ascii") as file:
        page = file.read()
    (code,) = re.findall("```python\n(.*?)```", page, re.DOTALL)
    code = code.replace("/run/aeron_policyd", room.folder)
    status, out, err = room.run(sys.executable, "-W", "error", "-c", code, env=dict(os.environ, PYTHONPATH=SOURCE))
    same("the first message", (0, "Message(data=b'bid 99', position=64, source=2)\n", ""), (status, out, err))
    kinds = {"driver": aeron_policyd.Driver, "publication": aeron_policyd.Publication,
             "subscription": aeron_policyd.Subscription, "counter": aeron_policyd.Counter}
    calls, errors = page.split("## Calls")[1].split("## Errors")
    named = set()
    for kind, name, words in re.findall(r"`(?:(\w+)\.)?(\w+)(?:\(([^`]*)\))?`[^`|]*(?=[`|])", calls.split("\n- ")[0]):
        if kind and kind not in kinds:
            continue
        if kind:
            call = getattr(kinds[kind], name)
            named.add((kind, name))
        elif words:
            call = getattr(aeron_policyd, name)
        if words:
            wanted = [(word.split("=")[0], word.partition("=")[2] or None) for word in words.split(", ")]
            got = inspect.signature(call).parameters
            for word, value in wanted:
                default = got[word].default
                same(name, value, None if default is inspect.Parameter.empty else repr(default).replace("'", '"'))
    for kind, kept in kinds.items():
        public = {(kind, name) for name, value in vars(kept).items() if not name.startswith("_") and callable(value)}
        same(kind, set(), public - named - {(kind, "close"), ("driver", "principal")})
    raised_there = {name for name, value in vars(aeron_policyd.errors).items()
                    if isinstance(value, type) and issubclass(value, aeron_policyd.ServiceError)}
    listed = set(re.findall(r"`(\w+)`", errors))
    # these are refusals that no call of this package can bring about
    same("errors", {"Skipped", "Malformed", "ClientGone", "NotOperator", "UsedCorrelation"}, raised_there - listed)


def case_pip_installs_it_with_no_network(room):
    if subprocess.run((sys.executable, "-m", "pip", "--version"), capture_output=True, check=False).returncode != 0:
        raise LeftOut("pip is not there")
    shutil.copytree(SOURCE, room.path + "/source")
    place = room.path + "/place"
    words = ("-m", "pip", "install", "-q", "--no-index", "--disable-pip-version-check", "--target", place, room.path + "/source")
    status, _, err = room.run(sys.executable, *words, seconds=300)
    need(status == 0, "pip says", err)
    same("what is installed", ["aeron_policyd", "aeron_policyd-1.1.0.dist-info"], sorted(os.listdir(place)))
    code = "import aeron_policyd; print(aeron_policyd.__file__)"
    status, out, _ = room.run(sys.executable, "-c", code, env=dict(os.environ, PYTHONPATH=place), cwd=room.path)
    same("where it is found", (0, place + "/aeron_policyd/__init__.py\n"), (status, out))


def case_the_codes_are_those_of_the_list(room):
    """Of the driver's sources, of the documents, and of the client in Python."""
    rows = codes.listed()
    same("one line for each", len(rows), len({row.code for row in rows}))
    reasons = codes.reasons()
    same("the driver's refusals", {(row.code, row.refusal, row.again) for row in rows if row.refusal}, set(reasons.values()))
    same("the driver's errors", {(row.code, row.error) for row in rows if row.error} | {(codes.denied(), "")}, codes.errors())
    same("those of its own client", codes.faults(), {name: reasons[name][0] for name in codes.faults()})
    need(len(codes.faults()) == 5, "too few:", codes.faults())
    same("SERVICE", {(row.code, row.refusal) for row in rows if row.refusal}, codes.in_service())
    same("COMMANDS", codes.errors(), codes.in_commands())
    same("Python", [(row.code, row.name, row.refusal or row.error or "denied") for row in rows],
         [(int(code), code.name, code.text) for code in aeron_policyd.Code])
    for row in rows:
        made = aeron_policyd.errors.refusal(row.code, "text")
        wanted = aeron_policyd.Refused if row.raised == "Ended" else getattr(aeron_policyd, row.raised)
        same(row.name, (wanted, row.again), (type(made), made.may_pass))


def case_errors_can_be_pickled(room):
    texts = ("denied by rule 3 in policy 2", "denied by default in policy 4")
    errors = [aeron_policyd.errors.refusal(code, texts[code % 2]) for code in aeron_policyd.Code]
    errors += [aeron_policyd.Ended("full", 1003), aeron_policyd.Ended("closed"), aeron_policyd.ProtocolError("no mail"),
               aeron_policyd.NoReply("no reply within 1 s")]
    for error in errors:
        copy = pickle.loads(pickle.dumps(error))
        same("a copy", (type(error), str(error), vars(error)), (type(copy), str(copy), vars(copy)))
    same("a denial", [(3, 2), (None, 4)], [(e.rule, e.policy) for e in (aeron_policyd.Denied(1001, t) for t in texts)])


def case_what_calls_raise(room):
    room.serve("--each", "2", policy=PRICES)
    raised(FileNotFoundError, aeron_policyd.connect, room.path + "/none.sock")
    raised(OSError, aeron_policyd.connect, room.path + "/" + "x" * 200)
    with aeron_policyd.connect(room.at("p1")) as one, aeron_policyd.connect(room.at("p2")) as two:
        same("who they are", (1, 2, 10.0), (one.principal, two.principal, two.liveness))
        denied = raised(aeron_policyd.Denied, two.publication, "aeron:ipc", 10)
        same("the denial", (1001, "denied by default in policy 1", None, 1),
             (denied.code, str(denied), denied.rule, denied.policy))
        raised(aeron_policyd.Denied, one.terminate)
        refused = raised(aeron_policyd.InvalidChannel, one.publication, "no channel", 10)
        same("no channel", (1, "invalid channel"), (refused.code, refused.text))
        same("no counter", 5, raised(aeron_policyd.Unknown, one.value, 99).code)
        publication = one.publication("aeron:ipc", 10)
        same("nobody reads", "no subscriber", str(raised(aeron_policyd.NoSubscriber, publication.offer, b"x")))
        reads = two.subscription("aeron:ipc", 10)
        same("too long", 8, raised(aeron_policyd.TooLong, publication.offer, b"x" * 8193).code)
        begun = time.monotonic()
        while True:
            try:
                publication.offer(b"x" * 1000)
            except aeron_policyd.BackPressure as refused:
                need(refused.may_pass, "back pressure may pass")
                break
        raised(aeron_policyd.BackPressure, publication.offer, b"x", wait=0.3)
        took = time.monotonic() - begun
        need(took > 0.3, "the wait took", took)
        soon(took < 10, "the wait took", took)
        need(len(reads.poll(limit=1000, wait=60.0)) > 20, "what was taken is there")
        publication.close()
        raised(aeron_policyd.Closed, publication.offer, b"x")
        same("an id", True, one.client != two.client)
        third = aeron_policyd.connect(room.at("p1"))
        full = raised(aeron_policyd.Ended, aeron_policyd.connect, room.at("p1"))
        same("one more", (1003, "full"), (full.code, full.text))
        third.close()
        third.close()
        raised(aeron_policyd.Ended, third.keepalive)
        reads.close()
        reads.close()
        raised(aeron_policyd.Closed, reads.poll)


def case_sources_come_and_go(room):
    room.serve(*PATIENT, "--setting", "linger=200000000")
    with aeron_policyd.connect(room.at("p1")) as one, aeron_policyd.connect(room.at("p2")) as two:
        reads = two.subscription("aeron:ipc", 10)
        same("messages of nobody", [], reads.poll(wait=0.1))
        publications = [one.publication("aeron:ipc", 10, exclusive=True) for _ in range(5)]
        need(len({publication.session for publication in publications}) == 5, "five sessions")
        for number, publication in enumerate(publications):
            for place in range(20):
                publication.offer(b"%d %d" % (number, place), wait=60.0)
        got = {}
        while sum(map(len, got.values())) < 100:
            messages = reads.poll(limit=3, wait=60.0)
            need(messages, "after", sum(map(len, got.values())), "messages nothing comes")
            for message in messages:
                got.setdefault(message.source, []).append(message.data)
        same("messages of each", sorted([b"%d %d" % (number, place) for place in range(20)] for number in range(5)),
             sorted(got.values()))
        same("the images", {(p.registration, p.session) for p in publications},
             {(image.source, image.session) for image in reads.images})
        for publication in publications[1:]:
            publication.close()
        until("one image is left", lambda: reads.poll() == [] and len(reads.images) == 1)
        publications[0].offer(b"still", wait=60.0)
        same("the one that is left", [b"still"], [message.data for message in reads.poll(wait=60.0)])
        begun = time.monotonic()
        same("nothing", [], reads.poll(wait=0.3))
        took = time.monotonic() - begun
        need(took > 0.25, "a wait of 0.3 s took", took)
        soon(took < 2, "a wait of 0.3 s took", took)


def case_many_messages_with_a_slow_reader(room):
    room.serve(*PATIENT)
    messages = [b"%06d" % number + b"y" * (number * 31 % 3000) for number in range(4000)]
    got = []

    def read():
        with aeron_policyd.connect(room.at("p2")) as two:
            reads = two.subscription("aeron:ipc", 10)
            ready.set()
            while len(got) < len(messages):
                got.extend(message.data for message in reads.poll(limit=20, wait=1.0))
                time.sleep(0.0005)

    ready = threading.Event()
    thread = threading.Thread(target=read)
    thread.start()
    need(ready.wait(60), "no reader")
    with aeron_policyd.connect(room.at("p1")) as one:
        publication = one.publication("aeron:ipc", 10)
        offered = publication.offer_all(messages, wait=60.0)
        same("what was taken", (len(messages), None), (offered.taken, offered.refusal))
        thread.join(60)
    need(got == messages, "the messages differ:", len(got), "came")


def case_positions_in_python(room):
    """A term has 65,536 bytes, and a log takes half a term past its slowest reader."""
    room.serve(*PATIENT)
    with aeron_policyd.connect(room.at("p1")) as one, aeron_policyd.connect(room.at("p2")) as two:
        reads, publication = two.subscription("aeron:ipc", 10), one.publication("aeron:ipc", 10)
        for words in (b"bid 99", b"ask 101", b"ask 102"):
            publication.offer(words, wait=60.0)
        same("the first", [b"bid 99"], [message.data for message in reads.poll(limit=1, wait=60.0)])
        (image,) = reads.images
        written = publication.positions()
        same("the publication", aeron_policyd.PublicationPositions(192, 64 + 32_768, 0, None, True), written)
        seen = reads.positions(image.source)
        same("the image", aeron_policyd.ImagePositions(0, 64, 192), seen)
        same("by name", (192, 32_832, 64, 192), (written.position, written.limit, seen.position, seen.received))
        raised(aeron_policyd.Closed, reads.positions, 99)
        publication.close()
        raised(aeron_policyd.Closed, publication.positions)


def case_a_reload_in_python(room):
    room.serve(*PATIENT)
    with aeron_policyd.connect(room.at("p1")) as one, aeron_policyd.connect(room.at("p2")) as two:
        reads, publication = two.subscription("aeron:ipc", 10), one.publication("aeron:ipc", 10)
        publication.offer(b"one", wait=60.0)
        same("before", [b"one"], [message.data for message in reads.poll(wait=60.0)])
        deny = '\n[[rule]]\nname = "p2 may not"\nprincipal = "p2"\nact = "%s"\nchannel = "*"\nallow = false\n'
        room.policy(ALLOW + deny % "receive")
        need("in force" in room.asked("reload"), "no reload")
        publication.offer(b"two", wait=60.0)
        same("the denial", (1, 2), (lambda d: (d.rule, d.policy))(raised(aeron_policyd.Denied, reads.poll, wait=60.0)))
        room.policy(ALLOW)
        room.asked("reload")
        same("the place was kept", [b"two"], [message.data for message in reads.poll(wait=60.0)])
        room.policy(ALLOW + deny % "image")
        room.asked("reload")
        until("no image", lambda: reads.poll() == [] and reads.images == [])
        raised(aeron_policyd.NoSubscriber, publication.offer, b"three")
        room.policy(ALLOW)
        room.asked("reload")
        publication.offer(b"four", wait=60.0)
        same("from then on", [b"four"], [message.data for message in reads.poll(wait=60.0)])
        same("the clients", 2, len(room.clients()))


def case_messages_are_counted_in_bytes(room):
    room.serve(*PATIENT)
    with aeron_policyd.connect(room.at("p1")) as one, aeron_policyd.connect(room.at("p2")) as two:
        reads, publication = two.subscription("aeron:ipc", 10), one.publication("aeron:ipc", 10)
        numbers = array.array("I", [0x11223344, 0x55667788])
        wanted = [numbers.tobytes(), numbers.tobytes()[2:6], b"bytes", b"", b"abc"]
        for message in (numbers, memoryview(numbers).cast("B")[2:6], bytearray(b"bytes"), array.array("d"), b"abc"):
            publication.offer(message, wait=60.0)
        got = []
        while len(got) < len(wanted):
            got += [message.data for message in reads.poll(wait=60.0)]
        same("the messages", wanted, got)
        for none in ("text", 7, None, [1, 2], memoryview(b"abcdef")[::2]):
            raised(TypeError, publication.offer, none)
            raised(TypeError, publication.offer_all, [b"not sent", none])
        long = bytes(2**24 + 100)
        same("too long", 8, raised(aeron_policyd.TooLong, publication.offer, long).code)
        raised(aeron_policyd.TooLong, publication.offer_all, [b"not sent", long])
        same("longer than a term takes", 8, raised(aeron_policyd.TooLong, publication.offer, long[: 2**24 - 100]).code)
        publication.offer(b"goes on", wait=60.0)
        same("what was sent", [b"goes on"], [message.data for message in reads.poll(wait=60.0)])


def case_what_was_lost_is_said_in_python(room):
    """A message with a hole in it is not handed over."""
    wanted = [
        aeron_policyd.Gap(5, None, "no memory"),
        b"whole",
        aeron_policyd.Gap(5, 384, "lost from 320 to 384"),
        b"more",
        aeron_policyd.Gap(5, 576, "lost from 512 to 576"),
        b"later",
        b"of the next term",
        aeron_policyd.Gap(5, None, "no memory"),
        b"last",
    ]
    with Scripted(room.path + "/holes.sock", Reader(*HOLES)), aeron_policyd.connect(room.path + "/holes.sock") as driver:
        reads = driver.subscription("aeron:ipc", 10)
        got = []
        for _ in HOLES:
            got += [event.data if isinstance(event, aeron_policyd.Message) else event for event in reads.poll()]
    same("what comes", wanted, got)


def case_what_is_granted_too_late_is_taken_back_in_python(room):
    for add, words, reply, removal in (
        ("subscription", ("aeron:ipc", 10), subscribed, 5),
        ("publication", ("aeron:ipc", 10), published, 2),
        ("counter", (1, "label"), counted, 10),
    ):
        answers = Late(reply)
        with Scripted(room.path + "/late.sock", answers) as server:
            with aeron_policyd.connect(room.path + "/late.sock") as driver:
                raised(aeron_policyd.NoReply, getattr(driver, add), *words, wait=0.05)
                driver.keepalive()
                same("before its reply", 1, len(server.commands))
                answers.late.set()
                driver.keepalive()
                same("what is taken back", [(removal, struct.pack("<Q", 77))], [(c[0], c[2]) for c in server.commands[1:]])
                need(server.commands[1][1] > server.commands[0][1], "its correlation id is no greater one")
                driver.keepalive()
                same("once", 2, len(server.commands))


def case_too_long_is_not_sent(room):
    """Nothing goes to the driver where a message of several is too long or none."""
    with Scripted(room.path + "/long.sock", Refusing(1, 10**9)) as server:
        with aeron_policyd.connect(room.path + "/long.sock") as driver:
            publication = driver.publication("aeron:ipc", 10)
            raised(aeron_policyd.TooLong, publication.offer_all, [b"x", bytes(2**24 + 45)])
            raised(aeron_policyd.TooLong, publication.offer_all, [b"x", bytearray(2**24 + 45)])
            raised(TypeError, publication.offer_all, [b"x", "x"])
            same("offers", [], [kind for kind, _ in server.asked if kind == OFFER])
            publication.offer_all([bytes(2**24 + 44)], wait=None)
            same("the longest one", 16 + 2**24 + 44, len(server.asked[-1][1]))


def case_offers_ahead_of_refusals_in_python(room):
    """Whichever offers are refused: each message is taken once, in its order."""
    for one_of, count in ((3, 300), (50, 1000), (700, 5000), (1500, 8000)):
        answers = Refusing(one_of, one_of)
        messages = [struct.pack("<Q", number) for number in range(count)]
        with Scripted(room.path + "/offers.sock", answers), aeron_policyd.connect(room.path + "/offers.sock") as driver:
            publication = driver.publication("aeron:ipc", 10)
            taken = 0
            while taken < count // 2:
                offered = publication.offer_all(messages[taken : count // 2])
                same("either", offered.refusal is None, taken + offered.taken == count // 2)
                taken += offered.taken
                need(offered.taken == 0 or offered.position == 64 * taken, "position", offered)
            offered = publication.offer_all(messages[taken:], wait=None)
            same("the rest", (count - taken, 64 * count, None), offered)
        same("what was taken", list(range(count)), answers.numbers)
        need(answers.refusals > 0 and answers.skipped > 0, "refused", answers.refusals, answers.skipped)


def case_iterating_in_python(room):
    room.serve(*PATIENT)
    with aeron_policyd.connect(room.at("p1")) as one, aeron_policyd.connect(room.at("p2")) as two:
        reads, publication = two.subscription("aeron:ipc", 10), one.publication("aeron:ipc", 10)
        same("none", [], list(reads.messages(timeout=0.1)))
        for number in range(10):
            publication.send(b"%d" % number)
        got = []
        for message in reads:
            got.append(message.data)
            if len(got) == 4:
                break
        # what was not given stays there
        for message in reads.messages(timeout=60.0):
            got.append(message.data)
            if len(got) == 8:
                break
        got += [message.data for message in reads.poll(wait=60.0)]
        same("all", [b"%d" % number for number in range(10)], got)
        later = threading.Timer(0.5, publication.send, (b"later",))
        later.start()
        same("one that is waited for without end", b"later", next(iter(reads)).data)
        later.join()
        later = threading.Timer(0.5, publication.send, (b"later",))
        later.start()
        same("a poll without end", [b"later"], [message.data for message in reads.poll(wait=None)])
        later.join()
        # the wait of one who sends ends once there is room
        while publication.offer_all([bytes(1000)] * 20).refusal is None:
            pass
        refused = raised(aeron_policyd.BackPressure, publication.send, bytes(1000), timeout=0.2)
        need(refused.may_pass, "back pressure may pass")
        later = threading.Timer(0.3, reads.poll, (10,))
        later.start()
        need(publication.send(b"at last", timeout=None) > 0, "no position")
        later.join()
        room.policy(ALLOW + '\n[[rule]]\nname = "p2 may not"\nprincipal = "p2"\nact = "receive"\nchannel = "*"\nallow = false\n')
        room.asked("reload")
        messages = reads.messages(timeout=60.0)
        raised(aeron_policyd.Denied, next, messages)
        room.policy(ALLOW)
        room.asked("reload")
        data = next(messages).data
        while data == bytes(1000):
            data = next(messages).data
        same("it goes on", b"at last", data)


def case_arguments_in_python(room):
    room.serve(*PATIENT)
    with aeron_policyd.connect(room.at("p1")) as driver:
        publication = driver.publication("aeron:ipc", 10)
        reads = driver.subscription("aeron:ipc", 10)
        counter = driver.counter(1, "label")
        for kind, call, *words in (
            (ValueError, driver.publication, "aeron:ipc", 2**31),
            (ValueError, driver.subscription, "aeron:ipc", -(2**31) - 1),
            (TypeError, driver.publication, "aeron:ipc", "10"),
            (TypeError, driver.publication, b"aeron:ipc", 10),
            (ValueError, driver.publication, "aeron:ipc?alias=\u00e4", 10),
            (ValueError, driver.counter, 2**31, "label"),
            (ValueError, driver.counter, 1, "l" * 381),
            (ValueError, driver.value, -1),
            (ValueError, counter.set, 2**63),
            (ValueError, reads.poll, -1),
            (ValueError, reads.poll, 0),
            (ValueError, reads.poll, 2**32),
            (ValueError, reads.poll, 1, -0.5),
            (ValueError, reads.poll, 1, float("nan")),
            (TypeError, reads.poll, 1, "1"),
            (TypeError, reads.messages, "1"),
            (ValueError, publication.offer, b"x", -1),
            (TypeError, publication.offer, 7),
            (ValueError, publication.add_destination, "\u00e4"),
        ):
            raised(kind, call, *words)
        raised(ValueError, driver.counter, 1, "label", key=bytes(113))
        same("it goes on", 0, counter.registration and driver.value(counter.registration))
        same("reprs", ["<Publication aeron:ipc stream 10>", "<Subscription aeron:ipc stream 10>", "<Counter 'label'>"],
             [repr(publication), repr(reads), repr(counter)])
        same("the driver", "<Driver %s client 1 principal 1 open>" % room.at("p1"), repr(driver))
        need(driver.fileno() > 2, "no descriptor")
        counter.close()
        same("a closed one", "<Counter 'label' closed>", repr(counter))
    same("once it is closed", -1, driver.fileno())
    code = "import aeron_policyd, sys; aeron_policyd.connect(sys.argv[1])"
    status, _, err = room.run(sys.executable, "-W", "always", "-c", code, room.at("p1"), env=dict(os.environ, PYTHONPATH=SOURCE))
    need(status == 0 and "ResourceWarning: unclosed <Driver" in err, "no warning:", err)


def case_signs_of_life_in_python(room):
    """A client that does something else for long stays, by its thread; without that it goes."""
    room.serve("--setting", "client-liveness=2000000000")
    kept = aeron_policyd.connect(room.at("p1"))
    gone = aeron_policyd.connect(room.at("p2"), keepalive=False)
    counter = kept.counter(1, "label")
    time.sleep(5)
    end = raised(aeron_policyd.Ended, gone.keepalive)
    same("who gives no sign", (1004, "client gone"), (end.code, end.text))
    try:
        counter.set(7)
    except aeron_policyd.Ended as end:
        soon(False, "who gives signs has gone: ", end)
    kept.close()
    gone.close()


def case_several_threads_in_python(room):
    """On one connection: each of them has its own answers."""
    room.serve(*PATIENT)
    with aeron_policyd.connect(room.at("p1")) as driver:
        reads = driver.subscription("aeron:ipc", 10)
        got, wrong = [], []

        def send(number):
            try:
                with driver.publication("aeron:ipc", 10) as publication, driver.counter(1, "c%d" % number) as counter:
                    for place in range(200):
                        publication.send(b"%d %d" % (number, place), timeout=60.0)
                    counter.set(number)
                    same("its value", number, driver.value(counter.registration))
            except Exception as error:
                wrong.append(error)

        def read():
            try:
                for message in reads:
                    got.append(message.data)
                    if len(got) == 800:
                        return
            except Exception as error:
                wrong.append(error)

        threads = [threading.Thread(target=send, args=(number,)) for number in range(4)] + [threading.Thread(target=read)]
        for thread in threads:
            thread.start()
        for thread in threads:
            thread.join(120)
        same("what went wrong", [], wrong)
        for number in range(4):
            mine = [data for data in got if data.startswith(b"%d " % number)]
            same("messages of one", [b"%d %d" % (number, place) for place in range(200)], mine)


def case_images_are_told_in_python(room):
    room.serve(*PATIENT, "--setting", "linger=100000000")
    told = []
    with aeron_policyd.connect(room.at("p1")) as one, aeron_policyd.connect(room.at("p2")) as two:
        reads = two.subscription("aeron:ipc", 10, on_image=lambda image: told.append(image.session),
                                 on_image_gone=lambda image, why: told.append((image.session, why)))
        publication = one.publication("aeron:ipc", 10)
        until("it came", lambda: reads.poll(wait=0.1) == [] and told)
        same("what came", [publication.session], told)
        publication.close()
        until("it went", lambda: reads.poll(wait=0.1) == [] and len(told) == 2)
        need(told[1][0] == publication.session and told[1][1] in ("gone", "closed"), told)


def case_connecting_anew_in_python(room):
    """Publications, subscriptions and counters are there again, and what may be lost is said."""
    first = room.serve(*PATIENT, "--setting", "linger=100000000")
    log = []
    handler = logging.Handler()
    handler.emit = lambda record: log.append(record.getMessage())
    logging.getLogger("aeron_policyd").addHandler(handler)
    logging.getLogger("aeron_policyd").setLevel(logging.INFO)
    told = []
    one = aeron_policyd.connect(room.at("p1"), reconnect=True)
    two = aeron_policyd.connect(room.at("p2"), reconnect=True)
    plain = aeron_policyd.connect(room.at("p2"))
    reads = two.subscription("aeron:ipc", 10, on_image_gone=lambda image, why: told.append(why))
    publication, counter = one.publication("aeron:ipc", 10), one.counter(1, "label")
    counter.set(7)
    publication.send(b"before")
    same("before", [b"before"], [message.data for message in reads.poll(wait=60.0)])
    os.killpg(first.pid, 9)
    first.wait()
    same("while nobody serves", [], [event for event in reads.poll(wait=0.3) if isinstance(event, aeron_policyd.Message)])
    raised(aeron_policyd.Ended, publication.offer, b"lost")
    raised(aeron_policyd.Ended, plain.keepalive)
    room.serve(*PATIENT, "--setting", "linger=100000000")
    got = []
    sender = threading.Thread(target=publication.send, args=(b"after", 60.0))
    sender.start()
    for event in reads.messages(timeout=60.0):
        got.append(event)
        if isinstance(event, aeron_policyd.Message):
            break
    sender.join()
    need(isinstance(got[0], aeron_policyd.Gap) and got[0].why.startswith("connected anew: "), got)
    same("after", (2, b"after"), (len(got), got[1].data))
    same("the counter", 7, one.value(counter.registration))
    need(len(told) == 1, "the image of the driver that went:", told)
    need(any("connected anew" in line for line in log), log)
    raised(aeron_policyd.Ended, plain.keepalive)
    # one that may not be added again
    room.policy(ALLOW + '\n[[rule]]\nname = "p2 may not"\nprincipal = "p2"\nact = "subscribe"\nchannel = "*"\nallow = false\n')
    room.driver.kill()
    room.driver.wait()
    with open(room.policy_path, encoding="ascii") as file:
        policy = file.read()
    room.serve(policy=policy)
    raised(aeron_policyd.Denied, reads.poll, wait=60.0)
    room.policy(ALLOW)
    room.asked("reload")
    need(isinstance(reads.poll(wait=60.0)[0], aeron_policyd.Gap), "no gap")
    publication.send(b"at last", timeout=60.0)
    same("again", [b"at last"], [message.data for message in reads.poll(wait=60.0)])
    for driver in (one, two, plain):
        driver.close()
    raised(aeron_policyd.Ended, reads.poll)


def case_an_idle_wait_in_python(room):
    """One request a second, less than 0.05 of 100 of a core, and a source that comes meanwhile is heard."""
    room.serve(*PATIENT)
    with aeron_policyd.connect(room.at("p1"), keepalive=False) as one, aeron_policyd.connect(room.at("p2")) as two:
        reads, publication = two.subscription("aeron:ipc", 10), one.publication("aeron:ipc", 10)
        publication.send(b"first")
        same("the first", [b"first"], [message.data for message in reads.poll(wait=60.0)])
        sent = []
        send = two._wire.send
        two._wire.send = lambda data: (sent.append(time.monotonic()), send(data))
        same("nothing", [], reads.poll(wait=6.0))
        need(len(sent) <= 12, "requests in 6 s:", len(sent))
        two._wire.send = send
        begun, before = time.monotonic(), time.process_time()
        same("nothing", [], reads.poll(wait=12.0))
        took = (time.process_time() - before) / (time.monotonic() - begun)
        soon(took < 0.0005, "of a core:", took)
        other = one.publication("aeron:ipc", 10, exclusive=True)
        later = threading.Timer(1.5, other.send, (b"another", 60.0))
        later.start()
        begun = time.monotonic()
        same("of another source", [b"another"], [message.data for message in reads.poll(wait=60.0)])
        took = time.monotonic() - begun
        later.join()
        soon(took < 4, "it took", took)


def case_asyncio(room):
    room.serve(*PATIENT)
    told = []

    async def send(publication, messages):
        for message in messages:
            await publication.send(message, timeout=60.0)

    async def main():
        async with aeron_policyd.aio.connect(room.at("p1")) as one, aeron_policyd.aio.connect(room.at("p2")) as two:
            same("who they are", (1, 2), (one.principal, two.principal))
            made = [one, await two.subscription("aeron:ipc", 99), await one.publication("aeron:ipc", 99), await one.counter(1, "n")]
            for each in made:
                # `sync` is the one that it stands for
                names, wanted = ({name for name in dir(of) if not name.startswith("_")} for of in (each, each.sync))
                same("names", wanted | {"sync"}, names)
            same("operators", 2, len(await aeron_policyd.aio.clients(room.at("operator"))))
            for each in made[1:]:
                await each.close()
            async with two.subscription("aeron:ipc", 10, on_image=told.append) as reads:
                publication = await one.publication("aeron:ipc", 10)
                sender = asyncio.create_task(send(publication, [b"%d" % number for number in range(100)]))
                got = []
                async for message in reads:
                    got.append(message.data)
                    if len(got) == 100:
                        break
                await sender
                same("messages", [b"%d" % number for number in range(100)], got)
                same("the image", [publication.session], [image.session for image in told])
                # a poll that is cancelled loses nothing
                got = []
                for number in range(20):
                    task = asyncio.create_task(reads.poll(wait=60.0))
                    await asyncio.sleep(0.01)
                    task.cancel()
                    await publication.send(b"kept %d" % number)
                    try:
                        got += [message.data for message in await task]
                    except asyncio.CancelledError:
                        pass
                while len(got) < 20:
                    got += [message.data for message in await reads.poll(wait=60.0)]
                same("kept", [b"kept %d" % number for number in range(20)], got)
                same("nothing", [], [message async for message in reads.messages(timeout=0.1)])
                # both directions by one connection
                async with one.subscription("aeron:ipc", 11) as back, two.publication("aeron:ipc", 11) as answers:
                    for number in range(5):
                        await publication.send(b"ping %d" % number)
                        for message in await reads.poll(wait=60.0):
                            await answers.send(b"pong to " + message.data)
                        same("the answer", [b"pong to ping %d" % number], [m.data for m in await back.poll(wait=60.0)])
                offered = await publication.offer_all([b"x"] * 10)
                same("offered", (10, None), (offered.taken, offered.refusal))
                try:
                    await two.value(99)
                    raise Failed("no refusal")
                except aeron_policyd.Unknown:
                    pass
                async with one.counter(1, "label") as counter:
                    await counter.set(7)
                    same("its value", 7, await one.value(counter.registration))
                same("positions", True, (await publication.positions()).connected)
                # what a call that was cancelled adds is taken back
                with one.sync._lock:
                    # so the call is under way, and waits for its turn
                    task = asyncio.create_task(aeron_policyd.aio.Opening._open(one.publication("aeron:ipc", 77)))
                    await asyncio.sleep(0.2)
                    task.cancel()
                    await asyncio.sleep(0.1)
                await asyncio.sleep(1)
                lines = room.clients()
                soon("1 publications" in lines[0], "it is still there:", lines)

    asyncio.run(asyncio.wait_for(main(), 120))


def case_the_least_version_of_python(room):
    """Each file is of Python 3.9; and each that is there runs the example."""
    folder = SOURCE + "/aeron_policyd"
    for path in [SOURCE + "/example.py", SOURCE + "/packing.py"] + ["%s/%s" % (folder, name) for name in os.listdir(folder)]:
        if path.endswith(".py"):
            with open(path, encoding="utf-8") as file:
                ast.parse(file.read(), path, feature_version=(3, 9))
    room.serve(*PATIENT, policy=PRICES)
    found = {os.path.realpath(path) for minor in range(9, 20) for path in
             [shutil.which("python3.%d" % minor)] + glob.glob(os.path.expanduser("~/.pyenv/versions/3.%d.*/bin/python" % minor))
             if path}
    for python in sorted(found):
        words = ("-W", "error", SOURCE + "/example.py", room.folder)
        status, out, err = room.run(python, *words, env=dict(os.environ, PYTHONPATH=SOURCE))
        if "No module named '_socket'" not in err and "command not found" not in err:
            same(python, (0, ""), (status, err))
            need("the desk reads: bid 99\nthe desk reads: ask 101\n" in out, out)


def case_types_of_python(room):
    """The package is typed strictly, and so are the examples."""
    mypy = shutil.which("mypy")
    if mypy is None:
        raise LeftOut("mypy is not there")
    words = ("--strict", "--cache-dir", room.path + "/cache", "aeron_policyd", "example.py")
    status, out, err = room.run(mypy, *words, cwd=SOURCE, seconds=300)
    need(status == 0, "mypy says", out + err)


def case_a_server_that_forges_in_python(room):
    """Whatever comes, a call gives something or raises what it says."""
    forger = Forger(room.path + "/forged.sock", 13)
    ends = {}
    for _ in range(200):
        try:
            with aeron_policyd.connect(room.path + "/forged.sock", timeout=0.0) as driver:
                reads = driver.subscription("aeron:ipc", 10, wait=0.03)
                for _ in range(5):
                    reads.poll(wait=0.002)
                driver.counters()
                for image in reads.images:
                    reads.positions(image.source)
                publication = driver.publication("aeron:ipc", 11, wait=0.03)
                publication.offer(b"x")
                publication.positions()
                driver.value(1)
            ends["none"] = ends.get("none", 0) + 1
        except aeron_policyd.ServiceError as error:
            ends[type(error).__name__] = ends.get(type(error).__name__, 0) + 1
    forger.close()
    need(len(ends) >= 4, "too few kinds of ends to show anything:", ends)
