"""The first lines of an export, as rows of cells under one separator."""

from __future__ import annotations

import codecs
import csv
import re
from dataclasses import dataclass
from pathlib import Path

from monitor_companion.dialects import (
    HEAD_READ,
    Dialect,
    Encoding,
    find_encoding,
    plain_ends,
    whole_lines,
)
from monitor_companion.refusals import Place, Refusal
from monitor_companion.times import find_clock

UNIT = re.compile(r"\s*[\[(][^\])]*[\])]\s*$")
LIKE_NUMBER = re.compile(rb"\s*[+-]?(\d+[.,]?\d*|[.,]\d+)([eE][+-]?\d+)?\s*")
MOST_JOINED = 8
"""How many lines a row of names may have, by line ends inside quotes."""


@dataclass(frozen=True)
class HeadText:
    """The whole lines at the front of an export, without their ends."""

    file: str
    encoding: Encoding
    lines: tuple[bytes, ...]
    crlf: bool


@dataclass(frozen=True)
class Row:
    """A row of the head: its cells, and the places of its first line and the one behind it."""

    cells: tuple[bytes, ...]
    place: int
    after: int


def read_head_text(path: Path, said: str) -> HeadText:
    """Reads the first lines of an export, in the encoding that was said or is found."""
    with path.open("rb") as file:
        data = file.read(HEAD_READ)
        ended = not file.read(1)
    encoding = find_encoding(data, said, str(path))
    if data.startswith(encoding.mark):
        data = data[len(encoding.mark) :]
    if encoding.wide:
        try:
            data = codecs.getincrementaldecoder(encoding.value)().decode(data).encode("utf-8")
        except UnicodeError as error:
            raise Refusal(Place(str(path)), f"is no {encoding.value}: {error}") from error
    crlf = b"\r\n" in data
    text = plain_ends(data[: whole_lines(data, ended and not crlf)])
    lines = tuple(text.split(b"\n")[:-1])
    if not lines:
        raise Refusal(Place(str(path)), "has no whole line at its front")
    return HeadText(str(path), encoding, lines, crlf)


def row_at(head: HeadText, dialect: Dialect, place: int) -> Row | None:
    """The row that begins at a place; None where its quotes don't fit."""
    line = head.lines[place]
    for after in range(place + 1, min(place + 1 + MOST_JOINED, len(head.lines) + 1)):
        try:
            return Row(tuple(dialect.split(line)), place, after)
        except csv.Error:
            if after < len(head.lines):
                line += b" " + head.lines[after]
    return None


def find_names(names: list[str], wanted: str) -> list[int]:
    """The places of a name: those that are it, else those that are it but for a unit behind."""
    exact = [place for place, name in enumerate(names) if name.strip() == wanted]
    if exact:
        return exact
    return [place for place, name in enumerate(names) if UNIT.sub("", name).strip() == wanted]


def is_reading_like(cell: bytes, missing: frozenset[bytes]) -> bool:
    """Whether a cell may be a reading or none, with a point or a comma, or a time."""
    text = cell.strip(b" \t")
    return bool(
        LIKE_NUMBER.fullmatch(text) or text.lower() in missing or find_clock(text) is not None
    )


def unit_of(name: str) -> str:
    """The unit in brackets behind a name, or nothing."""
    found = UNIT.search(name)
    return found.group().strip(" \t[]()") if found else ""
