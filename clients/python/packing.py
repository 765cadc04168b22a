"""Puts the wheel and the source archive together, as pip asks for them (PEP 517), by the standard library alone."""

from __future__ import annotations

import base64
import hashlib
import os
import re
import tarfile
import zipfile
from typing import Optional

_HERE = os.path.dirname(os.path.abspath(__file__))
_NAME = "aeron_policyd"
_OF_SOURCES = ("README.md", "example.py", "packing.py", "pyproject.toml")


def _version() -> str:
    with open(os.path.join(_HERE, _NAME, "__init__.py"), encoding="utf-8") as file:
        found = re.search(r'^__version__ = "([^"]+)"$', file.read(), re.MULTILINE)
    if not found:
        raise RuntimeError("no version")
    return found[1]


def _files() -> list[str]:
    """The files of the package, relative to this folder."""
    kept = []
    for name in sorted(os.listdir(os.path.join(_HERE, _NAME))):
        if name.endswith(".py") or name == "py.typed":
            kept.append("%s/%s" % (_NAME, name))
    return kept


def _read(path: str) -> bytes:
    with open(os.path.join(_HERE, path), "rb") as file:
        return file.read()


def _metadata() -> bytes:
    lines = (
        "Metadata-Version: 2.1",
        "Name: " + _NAME,
        "Version: " + _version(),
        "Summary: A client of aeron_policyd serve, an Aeron media driver under a channel policy",
        "License: Apache-2.0",
        "Requires-Python: >=3.9",
        "Description-Content-Type: text/markdown",
        "",
    )
    return "\n".join(lines).encode() + b"\n" + _read("README.md")


def _record(path: str, data: bytes) -> str:
    digest = base64.urlsafe_b64encode(hashlib.sha256(data).digest()).rstrip(b"=").decode()
    return "%s,sha256=%s,%d\n" % (path, digest, len(data))


def build_wheel(
    wheel_directory: str, config_settings: Optional[dict[str, str]] = None, metadata_directory: Optional[str] = None
) -> str:
    """Leaves the wheel in a folder; its name."""
    info = "%s-%s.dist-info" % (_NAME, _version())
    of_wheel = b"Wheel-Version: 1.0\nGenerator: aeron_policyd packing\nRoot-Is-Purelib: true\nTag: py3-none-any\n"
    contents = [(path, _read(path)) for path in _files()]
    contents += [(info + "/METADATA", _metadata()), (info + "/WHEEL", of_wheel)]
    records = "".join(_record(path, data) for path, data in contents) + info + "/RECORD,,\n"
    contents.append((info + "/RECORD", records.encode()))
    name = "%s-%s-py3-none-any.whl" % (_NAME, _version())
    with zipfile.ZipFile(os.path.join(wheel_directory, name), "w", zipfile.ZIP_DEFLATED) as wheel:
        for path, data in contents:
            wheel.writestr(zipfile.ZipInfo(path, (2020, 1, 1, 0, 0, 0)), data, zipfile.ZIP_DEFLATED)
    return name


def build_sdist(sdist_directory: str, config_settings: Optional[dict[str, str]] = None) -> str:
    """Leaves the source archive in a folder; its name."""
    base = "%s-%s" % (_NAME, _version())
    name = base + ".tar.gz"
    with tarfile.open(os.path.join(sdist_directory, name), "w:gz") as archive:
        for path in _files() + list(_OF_SOURCES):
            archive.add(os.path.join(_HERE, path), "%s/%s" % (base, path))
        head = os.path.join(sdist_directory, "PKG-INFO")
        with open(head, "wb") as file:
            file.write(_metadata())
        archive.add(head, base + "/PKG-INFO")
        os.remove(head)
    return name
