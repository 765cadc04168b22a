"""The client in C: its example, each of its functions, and a server that answers with bytes of all kinds."""

import os
import re
import shutil
import struct
import subprocess
import tempfile

import codes
from forger import Forger
from harness import PATIENT, TOP, LeftOut, need, said, same, soon, until
from scripted import HOLES, Late, Reader, Refusing, Scripted, counted, published, subscribed

WARNINGS = ("-std=c99", "-Wall", "-Wextra", "-Werror", "-pedantic")
SOURCE = os.path.join(TOP, "clients", "c")

BUT_P2 = """version = 1
default = "allow"

[[rule]]
name = "p2 reads and does no more"
principal = "p2"
act = ["publish", "publish-exclusive", "terminate"]
channel = "*"
allow = false
"""


# Connects, starts another program that stays, prints its process id, and ends without closing anything.
STARTS = """
#define _POSIX_C_SOURCE 200809L
#include "aeron_policyd.h"
#include <stdio.h>
#include <unistd.h>
static unsigned char buffer[APD_BUFFER];
int main(int count, char **words)
{
    struct apd_driver driver;
    if (count != 2 || apd_connect(&driver, words[1], buffer, sizeof buffer, 60000) != APD_OK) return 1;
    pid_t child = fork();
    if (child == 0) {
        execlp("sleep", "sleep", "300", (char *)NULL);
        _exit(127);
    }
    printf("%d\\n", (int)child);
    fflush(stdout);
    /* time to become the other program */
    sleep(1);
    _exit(0);
}
"""


# Programs that were compiled, by what was.
_PROGRAMS = tempfile.TemporaryDirectory(prefix="aeron_policyd-service.")
_BUILT = {}

# Whether a compiler checks each access.
_CHECKED = {}

# A call that is refused, in C++.
PLUS = """
#include "aeron_policyd.h"
#include <stdio.h>
static unsigned char buffer[APD_BUFFER];
int main(int, char **words)
{
    apd_driver driver;
    uint64_t publication = 0;
    if (apd_connect(&driver, words[1], buffer, sizeof buffer, 60000) != APD_OK) return 1;
    if (apd_add_publication(&driver, "aeron:ipc", 10, 60000, &publication) != APD_REFUSED) return 2;
    printf("%s\\n", driver.text);
    apd_close(&driver);
    return 0;
}
"""


def compilers():
    found = [name for name in ("gcc", "clang") if shutil.which(name)]
    if not found and shutil.which("cc"):
        found = ["cc"]
    if not found:
        raise LeftOut("there is no C compiler")
    return found


def build(room, compiler, source, *options):
    """Compiles a program with the client, once for all cases: its path."""
    with open(source, encoding="ascii") as file:
        key = (compiler, file.read(), options)
    if key in _BUILT:
        return _BUILT[key]
    program = _BUILT[key] = "%s/%d.%s" % (_PROGRAMS.name, len(_BUILT), os.path.basename(source))
    words = [compiler, *WARNINGS, *options, "-I" + SOURCE, "-o", program, source, SOURCE + "/aeron_policyd.c"]
    status, out, err = room.run(*words, seconds=300)
    need(status == 0, "the compiler says", out + err)
    return program


def sanitized(room, compiler, source):
    """The same with checks of each access, where the compiler has them; else without."""
    checks = ("-g", "-O1", "-fsanitize=address,undefined", "-fno-sanitize-recover=all")
    if compiler not in _CHECKED:
        with open(room.path + "/empty.c", "w", encoding="ascii") as file:
            file.write("int main(void)\n{\n    return 0;\n}\n")
        status, _, _ = room.run(compiler, *checks, "-o", room.path + "/empty", room.path + "/empty.c", seconds=300)
        _CHECKED[compiler] = status == 0 and room.run(room.path + "/empty")[0] == 0
    if _CHECKED[compiler]:
        return build(room, compiler, source, *checks)
    room.leave_out("%s has no address and undefined behaviour checks here" % compiler)
    return build(room, compiler, source)


# Words of `serve` for check.c: what its parts published lingers, and counts until then.
ROOMY = (*PATIENT, "--setting", "arena-pages=32768")

EXAMPLE = "the desk reads: bid 99\nthe desk reads: ask 101\nthe desk may not publish: denied by default in policy 1\n"


def case_the_example_in_c(room):
    room.serve(policy="examples/serving/policy.toml")
    for compiler in compilers():
        program = build(room, compiler, SOURCE + "/example.c", "-O2")
        same(compiler, (0, EXAMPLE, ""), room.run(program, room.folder))
    program = sanitized(room, compilers()[0], SOURCE + "/example.c")
    same("with checks", (0, EXAMPLE, ""), room.run(program, room.folder))
    status, out, err = room.run(program, room.path)
    same("where nobody serves", (1, ""), (status, out))
    need("No such file" in err, err)


def case_each_function_in_c(room):
    room.serve(*ROOMY, policy=BUT_P2)
    program = sanitized(room, compilers()[0], TOP + "/tests/service/check.c")
    same("check", (0, "all holds\n", ""), room.run(program, room.folder, "5000", seconds=300))


VALGRIND = ("valgrind", "-q", "--error-exitcode=9", "--leak-check=full", "--errors-for-leak-kinds=all")


def under_valgrind(room, source, *words):
    """Builds a program, and runs it under valgrind: status, output, errors."""
    if not shutil.which("valgrind"):
        raise LeftOut("valgrind is not there")
    return room.run(*VALGRIND, build(room, compilers()[0], source, "-g", "-O1"), *words, seconds=300)


def case_each_function_in_c_under_valgrind(room):
    room.serve(*ROOMY, policy=BUT_P2)
    same("check", (0, "all holds\n", ""), under_valgrind(room, TOP + "/tests/service/check.c", room.folder, "500"))


def case_the_example_in_c_under_valgrind(room):
    # a driver of its own: what others published lingers, and counts until then
    room.serve(*PATIENT, policy="examples/serving/policy.toml")
    same("the example", (0, EXAMPLE, ""), under_valgrind(room, SOURCE + "/example.c", room.folder))


def case_the_codes_of_c_are_those_of_the_list(room):
    rows = codes.listed()
    with open(SOURCE + "/aeron_policyd.h", encoding="ascii") as file:
        header = file.read()
    names = re.findall(r"^    APD_CODE_(\w+) = (-?\d+)", header, re.MULTILINE)
    same("the header", [(row.name, row.code) for row in rows], [(name, int(code)) for name, code in names])
    lines = "".join('    printf("%%s\\n", apd_code_text(APD_CODE_%s));\n' % row.name for row in rows)
    with open(room.path + "/codes.c", "w", encoding="ascii") as file:
        file.write('#include "aeron_policyd.h"\n#include <stdio.h>\nint main(void)\n{\n%s    return 0;\n}\n' % lines)
    texts = "".join((row.refusal or row.error or "denied") + "\n" for row in rows)
    same("the texts", (0, texts, ""), room.run(build(room, compilers()[0], room.path + "/codes.c")))


def case_other_examples_in_c(room):
    room.serve(policy="examples/serving/policy.toml")
    reader = sanitized(room, compilers()[0], SOURCE + "/reader.c")
    loop = sanitized(room, compilers()[0], SOURCE + "/loop.c")
    reads = room.start(reader, room.at("p2"), "aeron:ipc", "10", "3")
    process = room.start(loop, room.at("p1"), room.at("p2"), "aeron:ipc", "10", stdin=subprocess.PIPE)
    until("two readers", lambda: len([line for line in room.clients() if " 1 subscriptions" in line]) == 2)
    until("the publication", lambda: any(": 1 publications" in line for line in room.clients()))
    # what counts is asked for, and is there once a later command was answered
    status, out, err = room.run(reader, room.at("p1"), "aeron:ipc", "10", "1")
    same("who may not", (1, "", "reader: the driver refused it: denied by default in policy 1\n"), (status, out, err))
    process.stdin.write(b"bid 99\nask")
    process.stdin.flush()
    until("what comes back", lambda: said(process.out) == "bid 99\n" or process.poll() is not None)
    process.communicate(b" 101\nask 102\n")
    lines = "bid 99\nask 101\nask 102\n"
    same("the loop", (0, lines, ""), (room.ended(process), said(process.out), said(process.err)))
    same("the reader", (0, lines, ""), (room.ended(reads), said(reads.out), said(reads.err)))


def case_the_page_of_c(room):
    """The lines to the first message run as they stand, and each call of the header is in the table."""
    room.serve(policy="examples/serving/policy.toml")
    with open(SOURCE + "/README.md", encoding="ascii") as file:
        page = file.read()
    with open(SOURCE + "/aeron_policyd.h", encoding="ascii") as file:
        header = file.read()
    (code,) = re.findall("```c\n(.*?)```", page, re.DOTALL)
    with open(room.path + "/first.c", "w", encoding="ascii") as file:
        file.write(code.replace("/run/aeron_policyd", room.folder))
    program = build(room, compilers()[0], room.path + "/first.c")
    same("the first message", (0, "bid 99\n", ""), room.run(program))
    calls = set(re.findall(r"^(?:int|void|const char \*|uint\d+_t) ?\*?(apd_\w+)\(", header, re.MULTILINE))
    need(len(calls) > 30, "too few:", calls)
    same("the table", calls, set(re.findall(r"`(apd_\w+)`", page.split("## Calls")[1].split("\n- ")[0])))
    statuses = set(re.findall(r"^    (APD_(?!CODE)[A-Z_]+) = -?\d,?$", header, re.MULTILINE))
    same("the statuses", set(), statuses - set(re.findall(r"`(APD_\w+)`", page.split("## Errors")[1])))


def case_a_library_in_c(room):
    """Static and shared, found by pkg-config; and a program in C++."""
    if not shutil.which("make"):
        raise LeftOut("make is not there")
    room.serve(*PATIENT, policy="examples/serving/policy.toml")
    compiler = compilers()[0]
    place = room.path + "/place"
    status, out, err = room.run("make", "-C", SOURCE, "install", "OUT=" + room.path + "/out", "PREFIX=" + place,
                                "CC=" + compiler, seconds=300)
    same("make", (0, ""), (status, err))
    status, _, err = room.run("make", "-C", SOURCE, "examples", "OUT=" + room.path + "/out", "CC=" + compiler, seconds=300)
    same("make examples", (0, ""), (status, err))
    same("one of them", (0, EXAMPLE, ""), room.run(room.path + "/out/example", room.folder))
    with open(SOURCE + "/aeron_policyd.h", encoding="ascii") as file:
        numbers = dict(re.findall(r"^#define APD_VERSION(_\w+)? (\S+)$", file.read(), re.MULTILINE))
    same("the numbers", numbers[""], '"%s.%s.%s"' % tuple(numbers[part] for part in ("_MAJOR", "_MINOR", "_PATCH")))
    words = ["-I" + place + "/include", "-L" + place + "/lib", "-laeron_policyd"]
    if shutil.which("pkg-config"):
        paths = dict(os.environ, PKG_CONFIG_PATH=place + "/lib/pkgconfig")
        status, out, err = room.run("pkg-config", "--cflags", "--libs", "aeron_policyd", env=paths)
        same("pkg-config", (0, words, ""), (status, out.split(), err))
        same("its version", (0, "1.1.0\n", ""), room.run("pkg-config", "--modversion", "aeron_policyd", env=paths))
    else:
        room.leave_out("pkg-config is not there")
    shared = room.path + "/shared"
    status, out, err = room.run(compiler, *WARNINGS, "-o", shared, SOURCE + "/example.c", *words, seconds=300)
    same("the compiler", (0, "", ""), (status, out, err))
    same("shared", (0, EXAMPLE, ""), room.run(shared, room.folder, env=dict(os.environ, LD_LIBRARY_PATH=place + "/lib")))
    for plus in ("g++", "clang++"):
        if not shutil.which(plus):
            room.leave_out(plus + " is not there")
            continue
        with open(room.path + "/plus.cpp", "w", encoding="ascii") as file:
            file.write(PLUS)
        program = "%s/%s.out" % (room.path, plus)
        options = ("-std=c++11", "-Wall", "-Wextra", "-Werror", "-pedantic", "-I" + place + "/include")
        status, out, err = room.run(plus, *options, "-o", program, room.path + "/plus.cpp", place + "/lib/libaeron_policyd.a",
                                    seconds=300)
        if status != 0 and plus == "clang++" and "not found" in err:
            room.leave_out("clang++ has no library of C++ here")
            continue
        same(plus, (0, "", ""), (status, out, err))
        same("in C++", (0, "denied by default in policy 1\n", ""), room.run(program, room.at("p2")))


def case_signs_of_life_in_c(room):
    """A client with nothing to do stays for as long as it calls apd_work, and one that calls nothing goes."""
    program = build(room, compilers()[0], TOP + "/tests/service/check.c", "-O1")
    room.serve("--setting", "client-liveness=2000000000")
    status, out, err = room.run(program, room.at("p1"), "alive", "5000")
    soon(status == 0, "it ends: ", out, err)


def case_offers_ahead_of_refusals_in_c(room):
    """Whichever offers are refused: each message is taken once, in its order."""
    program = sanitized(room, compilers()[0], TOP + "/tests/service/check.c")
    for one_of, count in ((3, 300), (50, 1000), (700, 5000), (1500, 8000)):
        answers = Refusing(one_of, one_of)
        with Scripted(room.path + "/offers.sock", answers):
            status = room.run(program, room.path + "/offers.sock", "offers", str(count), seconds=300)
        same("check", (0, "", ""), status)
        same("what was taken", list(range(count)), answers.numbers)
        need(answers.refusals > 0 and answers.skipped > answers.refusals, "refused", answers.refusals, answers.skipped)


def case_what_was_lost_is_said_in_c(room):
    program = sanitized(room, compilers()[0], TOP + "/tests/service/check.c")
    wanted = """no memory
gap
whole
gap
more
gap
later
of the next term
no memory
gap
last
"""
    with Scripted(room.path + "/holes.sock", Reader(*HOLES)):
        same("what comes", (0, wanted, ""), room.run(program, room.path + "/holes.sock", "holes", str(len(HOLES))))


def case_what_is_granted_too_late_is_taken_back_in_c(room):
    program = sanitized(room, compilers()[0], TOP + "/tests/service/check.c")
    for kind, (reply, removal) in enumerate(((subscribed, 5), (published, 2), (counted, 10))):
        answers = Late(reply)
        with Scripted(room.path + "/late.sock", answers) as server:
            process = room.start(program, room.path + "/late.sock", "late", str(kind), stdin=subprocess.PIPE)
            until("the time-out", lambda: said(process.out) == "late\n" or process.poll() is not None)
            same("before its reply", 1, len(server.commands))
            answers.late.set()
            process.communicate(b"\n")
            same("check", (0, ""), (room.ended(process), said(process.err)))
        same("what is taken back", [(removal, struct.pack("<Q", 77))], [(c[0], c[2]) for c in server.commands[1:]])
        need(server.commands[1][1] > server.commands[0][1], "its correlation id is no greater one")


def case_no_program_inherits_a_connection_of_c(room):
    """A process that ends is seen to end, whatever it has started, and long before its liveness is over."""
    room.serve(*PATIENT)
    source = room.path + "/starts.c"
    with open(source, "w", encoding="ascii") as file:
        file.write(STARTS)
    program = build(room, compilers()[0], source)
    process = room.start(program, room.at("p1"))
    try:
        same("it ends", 0, room.ended(process))
        same("what it says", "", said(process.err))
        until("its place is free", lambda: room.clients() == [], seconds=20)
        need(os.path.exists("/proc/" + said(process.out).strip()), "what it started runs no more")
    finally:
        os.kill(int(said(process.out)), 9)


def case_a_server_that_forges_in_c(room):
    program = sanitized(room, compilers()[0], TOP + "/tests/service/check.c")
    forger = Forger(room.path + "/forged.sock", 11)
    try:
        same("check", (0, "", ""), room.run(program, room.path + "/forged.sock", "forged", "300", seconds=300))
    finally:
        forger.close()
