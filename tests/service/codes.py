"""The list of codes, and those that the driver's sources and the documents have."""

import os
import re
from typing import NamedTuple

from harness import TOP


class Listed(NamedTuple):
    """A line of docs/codes.txt."""

    code: int
    name: str
    raised: str
    again: bool
    refusal: str  # empty where there is none
    error: str


def _read(path):
    with open(os.path.join(TOP, path), encoding="utf-8") as file:
        return file.read()


def listed():
    """The lines of the list."""
    rows = []
    for line in _read("docs/codes.txt").splitlines():
        if line.startswith("#"):
            continue
        code, name, raised, again, refusal, error = re.split(" {2,}", line.strip())
        refusal = refusal.replace("-", "")
        error = refusal if error == "=" else error.replace("-", "")
        rows.append(Listed(int(code), name, raised, {"yes": True, "no": False}[again], refusal, error))
    return rows


def _arms(text, function):
    """What the arms of a function that matches give, by their variants."""
    body = re.search(r"fn %s\(self\).*?\n    \}\n" % function, text, re.DOTALL)[0]
    return {name: some or other for name, some, other in re.findall(r'::(\w+) => (?:Some\()?(?:"([^"]*)"|(-?\d+|None))', body)}


def reasons():
    """The driver's reasons of refusals: the code, the text and whether it may pass, by their names."""
    text = _read("crates/driver_service/src/reason.rt")
    codes, texts = _arms(text, "code"), _arms(text, "text")
    passing = re.search(r"fn may_pass\(self\).*?\n    \}\n", text, re.DOTALL)[0]
    return {name: (int(code), texts[name], "Reason::%s\n" % name in passing) for name, code in codes.items()}


def errors():
    """The codes and texts of ON_ERROR."""
    text = _read("crates/command_codec/src/error_code.rt")
    codes, texts = _arms(text, "number"), _arms(text, "text")
    return {(int(code), "" if texts[name] == "None" else texts[name]) for name, code in codes.items()}


def faults():
    """The codes that the driver's own client names beside a variant of its faults, by the variant."""
    return {name: int(code) for code, name in re.findall(r"\((-\d+)\)\.\n +(\w+),", _read("crates/media_driver/src/faults.rt"))}


def denied():
    """The code of denials."""
    return int(re.search(r"const DENIED: i32 = (\d+);", _read("crates/driver_service/src/reason.rt"))[1])


def in_service():
    """The codes and texts of the tables of docs/SERVICE.md, without those of denials."""
    rows = set()
    for codes, texts in re.findall(r"^\| ([-0-9, ]+) \| (`[^|]*`) \|", _read("docs/SERVICE.md"), re.MULTILINE):
        rows.update(zip((int(code) for code in codes.split(",")), re.findall("`([^`]*)`", texts)))
    return {row for row in rows if row[0] != denied()}


def in_commands():
    """The codes and texts of the table of docs/internals/COMMANDS.md."""
    table = _read("docs/internals/COMMANDS.md").partition("\n## Error codes\n")[2].partition("\n## ")[0]
    rows = re.findall(r"^\| (\d+) \| [A-Z_]+ \| (?:`([^`]*)`|[^|]*) \|$", table, re.MULTILINE)
    return {(int(code), text) for code, text in rows}
