"""Reads a TOML file with the line of each key, as the program reads it: TOML 1.1, UTF-8."""

from __future__ import annotations

import re
import tomllib
from dataclasses import dataclass, field
from decimal import Decimal

from monitor_companion.check_scanner import DEPTH_LIMIT, Mark, Scanner, Unscannable

_PLACE = re.compile(r" \(at (?:line (\d+), column (\d+)|end of document)\)$")
_SMALLEST, _GREATEST = -(2**63), 2**63 - 1
# From here on a number of 64 bits would be rounded to infinity.
_FLOATS_END = Decimal(2**1024 - 2**970)


@dataclass
class Node:
    """A value, and the line of its key, or None where that isn't known."""

    value: object
    line: int | None = None
    members: dict[str, Node] = field(default_factory=dict)
    items: list[Node] = field(default_factory=list)


class NotToml(Exception):
    """The bytes are no TOML; line and column are counted from 1."""

    def __init__(self, why: str, line: int, column: int | None = None) -> None:
        super().__init__(why)
        self.why = why
        self.line = line
        self.column = column


def read_toml(content: bytes) -> Node:
    """Returns the table that the bytes spell. Raises `NotToml`."""
    text = _decoded(content)
    scanner = Scanner(text)
    mark: Mark | None
    try:
        mark = scanner.document()
    except (Unscannable, RecursionError):
        mark = None
    table = _loaded(text, scanner.older_text() if mark is not None else text)
    if mark is None:
        _refuse_depth(table, 0)
    node = joined(table, mark) if mark is not None else None
    node = node if node is not None else _without_lines(table)
    _refuse_great_numbers(node)
    return node


def _decoded(content: bytes) -> str:
    """Returns the text without a byte order mark."""
    try:
        return content.decode("utf-8").removeprefix("\ufeff")
    except UnicodeDecodeError as error:
        line = content.count(b"\n", 0, error.start) + 1
        byte = content[error.start]
        why = f"byte {byte:02x} is no UTF-8"
        if content[:2] in (b"\xff\xfe", b"\xfe\xff"):
            why += "; the file is probably UTF-16: save it as UTF-8"
        else:
            why += "; the file is probably Latin-1: save it as UTF-8"
        raise NotToml(why, line) from error


def _loaded(text: str, older: str) -> dict[str, object]:
    """Returns what `tomllib` reads, of the text or of its spelling in TOML 1.0."""
    try:
        return tomllib.loads(text, parse_float=Decimal)
    except (tomllib.TOMLDecodeError, RecursionError) as first:
        if older != text:
            try:
                return tomllib.loads(older, parse_float=Decimal)
            except (tomllib.TOMLDecodeError, RecursionError):
                pass
        raise _explained(str(first), text) from first


def _explained(message: str, text: str) -> NotToml:
    """Returns what `tomllib` told, with its place and what was probably meant."""
    place = _PLACE.search(message)
    lines = text.split("\n")
    if place is None or place[1] is None:
        line, column = max(1, len(text.rstrip("\n").split("\n"))), None
    else:
        line, column = int(place[1]), int(place[2])
    what = _PLACE.sub("", message)
    what = what[:1].lower() + what[1:]
    meant = probable(what, lines, min(line, len(lines)))
    return NotToml(f"{what}{'; ' + meant if meant else ''}", line, column)


_PAIR = re.compile(r"\s*([\w-]+)\s*=\s*(.*?)\s*(?:#.*)?$")
_COLON = re.compile(r"\s*([\w-]+)\s*:\s*(\S.*)$")
_VALUE_HINTS = (
    (re.compile(r"[-+]?\d+,\d+"), "a decimal comma is no TOML, and monitor takes whole numbers"),
    (re.compile(r"[-+]?0\d+"), "a number has no leading zeros"),
    (re.compile(r"([-+]?\d{1,3})(?:[ '.]\d{3})+"), "a number has no separators"),
    (re.compile(r"[-+]?\d+\s*[A-Za-z/%²µ].*"), "a number stands without its unit"),
    (re.compile(r"[\"'][^\"']*"), "the closing quote is missing"),
    (re.compile(r""), "the value is missing"),
)


def probable(what: str, lines: list[str], line: int) -> str:
    """Returns what was probably meant in a line that is no TOML, or nothing."""
    text = lines[line - 1]
    if "\r" in text.rstrip("\r"):
        return "its lines end in a carriage return alone: save the file with line feeds"
    if re.search("[“”„‘’«»]", text):
        return 'texts stand in straight quotes: "'
    if "overwrite a value" in what or "twice" in what:
        return _probable_double(text, lines, line)
    if text.lstrip().startswith((";", "//")):
        return "a comment begins with #"
    pair = _PAIR.match(text)
    if pair is not None:
        return _probable_value(pair[1], pair[2])
    colon = _COLON.match(text)
    if colon is not None:
        return f"{colon[1]} = {colon[2].strip()} was probably meant"
    header = re.match(r"\s*(\[\[?)\s*([\w-]+)", text)
    if header is not None:
        return f"{header[1]}{header[2]}{header[1].replace('[', ']')} was probably meant"
    return ""


def _probable_value(key: str, value: str) -> str:
    if value.startswith('"') and "\\" in value:
        fixed = value.replace("\\", "/")
        return f"a path has slashes: {key} = {fixed} was probably meant"
    for pattern, hint in _VALUE_HINTS:
        if pattern.fullmatch(value):
            return hint
    if re.fullmatch(r"[A-Za-z_][\w./-]*", value):
        return f'a text stands in quotes: {key} = "{value}" was probably meant'
    return ""


def _probable_double(text: str, lines: list[str], line: int) -> str:
    header = re.match(r"\s*\[+\s*(gauge|detail)\s*\]", text)
    if header is not None:
        single = re.compile(rf"\s*\[\s*{header[1]}\s*\]")
        places = [number for number, line in enumerate(lines, start=1) if single.match(line)]
        return f"[[{header[1]}]] was probably meant in line {places[0]}" if places else ""
    pair = _PAIR.match(text)
    for earlier in range(line - 1, 0, -1):
        if pair is None or lines[earlier - 1].lstrip().startswith("["):
            break
        before = _PAIR.match(lines[earlier - 1])
        if before is not None and before[1] == pair[1]:
            return f"{pair[1]} stands in line {earlier} already"
    return ""


def joined(value: object, mark: Mark) -> Node | None:
    """Returns the value with the lines of the marks, or None where keys or items differ."""
    node = Node(value, mark.line)
    if isinstance(value, dict):
        if set(value) != set(mark.members) or mark.items:
            return None
        for key, inner in value.items():
            below = joined(inner, mark.members[key])
            if below is None:
                return None
            node.members[key] = below
    elif isinstance(value, list):
        if len(value) != len(mark.items) or mark.members:
            return None
        for inner, inner_mark in zip(value, mark.items, strict=True):
            below = joined(inner, inner_mark)
            if below is None:
                return None
            node.items.append(below)
    elif mark.members or mark.items:
        return None
    return node


def _without_lines(value: object) -> Node:
    node = Node(value)
    if isinstance(value, dict):
        node.members = {key: _without_lines(inner) for key, inner in value.items()}
    elif isinstance(value, list):
        node.items = [_without_lines(inner) for inner in value]
    return node


def _refuse_depth(value: object, depth: int) -> None:
    """Refuses what is nested deeper than the program reads."""
    if depth > DEPTH_LIMIT:
        raise NotToml(f"values are nested deeper than {DEPTH_LIMIT}", 1)
    if isinstance(value, dict):
        for inner in value.values():
            _refuse_depth(inner, depth + 1)
    elif isinstance(value, list):
        for inner in value:
            _refuse_depth(inner, depth + 1)


def _refuse_great_numbers(node: Node) -> None:
    """Refuses numbers that 64 bits don't hold, which `tomllib` takes and the program doesn't."""
    if isinstance(node.value, int) and not _SMALLEST <= node.value <= _GREATEST:
        raise NotToml(f"{node.value} is no whole number of 64 bits", node.line or 1)
    if isinstance(node.value, Decimal) and node.value.is_finite():
        if abs(node.value) >= _FLOATS_END:
            raise NotToml(f"{node.value} is greater than any number of 64 bits", node.line or 1)
    for below in (*node.members.values(), *node.items):
        _refuse_great_numbers(below)
