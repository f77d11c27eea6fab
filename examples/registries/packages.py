"""The data of the Debian packages python3-stdnum and iso-codes, read where the packages put it."""

from __future__ import annotations

import json
import re
import subprocess
from collections.abc import Iterator
from dataclasses import dataclass
from pathlib import Path

NAMES = ("python3-stdnum", "iso-codes")

_STDNUM = Path("/usr/lib/python3/dist-packages/stdnum")
_ISO_CODES = Path("/usr/share/iso-codes/json")

_LINE = re.compile(r"(?P<indent> *)(?P<part>\S+) *(?P<properties>.*)\n?")
_PROPERTY = re.compile(r'([\w-]+)="([^"]*)"')


@dataclass(frozen=True)
class Number:
    """A number of a stdnum file: its parts from the left, and what the file says of it."""

    parts: tuple[str, ...]
    properties: dict[str, str]


def numbers(name: str) -> Iterator[Number]:
    """The numbers of a stdnum file.

    A line is a part of a number and its properties. One that is indented by a space more than the line above it goes
    on from the part there.
    """
    parts: list[str] = []
    with (_STDNUM / f"{name}.dat").open(encoding="utf-8") as lines:
        for line in lines:
            if line.isspace() or line.startswith("#"):
                continue
            match = _LINE.fullmatch(line)
            if match is None:
                raise ValueError(f"{name}.dat has a line of another form: {line!r}")
            parts[len(match["indent"]):] = [match["part"]]
            yield Number(tuple(parts), dict(_PROPERTY.findall(match["properties"])))


def entries(standard: str) -> list[dict[str, str]]:
    """The entries of an ISO standard, such as 3166-1."""
    text = (_ISO_CODES / f"iso_{standard}.json").read_text(encoding="utf-8")
    listed: list[dict[str, str]] = json.loads(text)[standard]
    return listed


def missing() -> list[str]:
    """The packages of which no data is there."""
    return [name for name, folder in zip(NAMES, (_STDNUM, _ISO_CODES)) if not folder.is_dir()]


def versions() -> list[str]:
    """The name and the version of each package."""
    listed = subprocess.run(
        ["dpkg-query", "--show", "--showformat", "${Package} ${Version}\n", *NAMES],
        check=True, capture_output=True, text=True,
    )
    return listed.stdout.splitlines()
