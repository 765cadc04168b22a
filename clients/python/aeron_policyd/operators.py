"""What an operator asks of a driver, by ``operator.sock``."""

from __future__ import annotations

import json
import os
from typing import Any, Union

from aeron_policyd import records
from aeron_policyd.codes import Code
from aeron_policyd.errors import ProtocolError, Refused, refusal
from aeron_policyd.wire import Wire

_Path = Union[str, "os.PathLike[str]"]


def _ask(path: _Path, request: bytes, timeout: float) -> tuple[list[str], int]:
    """Asks once, and gives the lines of the answer, and the number that it has; 0 if it has none."""
    wire = Wire(path, timeout)
    lines: list[str] = []
    number = 0
    try:
        wire.send(request)
        while True:
            answer, body = wire.receive()
            if answer == records.DONE:
                return lines, number
            if answer == records.VALUE_IS and len(body) == 8:
                number = int.from_bytes(body, "little")
                continue
            if answer == records.REFUSED and len(body) >= 4:
                (code,) = records.CODE.unpack_from(body)
                text = body[4:].decode("ascii", "replace")
                # 1 is a fault of the policy here
                raise Refused(code, text) if code == Code.INVALID_CHANNEL else refusal(code, text)
            if answer != records.LINE:
                raise ProtocolError("no line")
            lines.append(body.decode("ascii", "replace"))
    finally:
        wire.close()


def _order(path: _Path, kind: int, timeout: float) -> list[str]:
    """Asks once by a request without fields, and gives the lines of the answer."""
    return _ask(path, records.bare(kind), timeout)[0]


def stop(path: _Path, *, timeout: float = 30.0) -> None:
    """Tells the driver to stop."""
    _order(path, records.STOP, timeout)


def reload(path: _Path, *, timeout: float = 30.0) -> str:
    """Has the policy's file read again: ``policy 2 in force``. It raises `Refused` with the fault of a policy that has one."""
    return "\n".join(_order(path, records.RELOAD, timeout))


def clients(path: _Path, *, timeout: float = 30.0) -> list[str]:
    """A line for each client, which begins as ``client 7 of p1 for 12 s``."""
    return _order(path, records.STATUS, timeout)


def decisions(
    path: _Path, start: int = 0, *, denied: bool = False, timeout: float = 30.0
) -> tuple[list[dict[str, Any]], int]:
    """What the driver decided from the number `start` on: at most 256 decisions, and the number of the next one, from which on to
    ask again. There is none yet where the list is empty.

    Each is a `dict` with ``moment``, ``principal``, ``act``, ``stream``, ``subject``, ``allow``, ``policy``, ``rule`` and ``name``. One
    with ``passed_over`` alone says how many are not kept any more. With `denied` they are denials, which have numbers of their own.
    """
    lines, after = _ask(path, records.decisions(start, 2 + denied), timeout)
    return [json.loads(line) for line in lines], after
