"""Finds the lines of the keys of a TOML text, which `tomllib` doesn't tell.

The scanner knows only where keys and values begin and end. What they mean is `tomllib`'s matter,
and `check_toml` compares the keys that both found. On its way the scanner notes how the few forms
that TOML 1.1 has and `tomllib` doesn't know are written in TOML 1.0.
"""

from __future__ import annotations

import bisect
import re
import tomllib
from collections.abc import Callable
from dataclasses import dataclass, field

# The program reads values and keys at most this deep.
DEPTH_LIMIT = 80

_BLANK = re.compile(r"(?:[ \t\r\n]|#[^\n]*)*")
_SPACE = re.compile(r"[ \t]*")
_LINE_END = re.compile(r"[ \t]*(?:#[^\n]*)?(?:\r?\n|\Z)")
_BARE_KEY = re.compile(r"[A-Za-z0-9_-]+")
_TOKEN = re.compile(r"[^,\]}#\r\n]+")
_STRINGS = (
    ('"""', re.compile(r'"""(?:[^\\"]|\\.|"(?!""))*"{3,5}', re.DOTALL)),
    ("'''", re.compile(r"'''(?:[^']|'(?!''))*'{3,5}", re.DOTALL)),
    ('"', re.compile(r'"(?:[^"\\\n]|\\.)*"')),
    ("'", re.compile(r"'[^'\n]*'")),
)
_ESCAPE = re.compile(r"\\(?:x([0-9A-Fa-f]{2})|(.))", re.DOTALL)
_NO_SECONDS = re.compile(r"((?:\d{4}-\d\d-\d\d[Tt ])?\d\d:\d\d)((?:[Zz]|[+-]\d\d:\d\d)?)")
_DATE_OR_TIME = re.compile(r"\d{4}-\d\d-\d\d.*|\d\d:\d\d.*")


class Unscannable(Exception):
    """The text isn't what the scanner knows."""


@dataclass
class Mark:
    """Where a key or an item stands, and what stands in it."""

    line: int
    members: dict[str, Mark] = field(default_factory=dict)
    items: list[Mark] = field(default_factory=list)


@dataclass(frozen=True)
class _Edit:
    """A piece of the text, and how TOML 1.0 writes it."""

    start: int
    end: int
    text: str


def _older_escape(match: re.Match[str]) -> str:
    """Returns an escape of a string as TOML 1.0 has it."""
    if match[1] is not None:
        return f"\\u00{match[1]}"
    return "\\u001B" if match[2] == "e" else match[0]


def _older_time(token: str) -> str:
    """Returns a date or time with seconds, and without the year 0 and leap seconds."""
    token = _NO_SECONDS.sub(r"\1:00\2", token) if _NO_SECONDS.fullmatch(token) else token
    return re.sub(r"^0000-", "2000-", re.sub(r"(:\d\d):60", r"\1:59", token))


class Scanner:
    """Reads a text once, from its front. Raises `Unscannable` where it isn't TOML."""

    def __init__(self, text: str) -> None:
        self._text = text
        self._at = 0
        self._depth = 0
        self._starts = [0, *(match.end() for match in re.finditer("\n", text))]
        self._edits: list[_Edit] = []

    def line_of(self, place: int) -> int:
        """Returns the number of the line, from 1, of a place in the text."""
        return bisect.bisect_right(self._starts, place)

    def older_text(self) -> str:
        """Returns the text as TOML 1.0 writes it, once the document was read."""
        parts, at = [], 0
        for edit in sorted(self._edits, key=lambda edit: edit.start):
            parts += [self._text[at : edit.start], edit.text]
            at = edit.end
        return "".join([*parts, self._text[at:]])

    def document(self) -> Mark:
        """Reads the whole text, and returns its keys."""
        root = here = Mark(1)
        while True:
            self._skip(_BLANK)
            if self._at == len(self._text):
                return root
            if self._takes("[["):
                here = self._element(root)
            elif self._takes("["):
                here = self._table(root)
            else:
                self._pair(here)
            if self._skip(_LINE_END) is None:
                raise Unscannable

    def _skip(self, pattern: re.Pattern[str]) -> str | None:
        match = pattern.match(self._text, self._at)
        if match is None:
            return None
        self._at = match.end()
        return match[0]

    def _takes(self, word: str) -> bool:
        if not self._text.startswith(word, self._at):
            return False
        self._at += len(word)
        return True

    def _expect(self, word: str) -> None:
        if not self._takes(word):
            raise Unscannable

    def _key_part(self) -> str:
        start = self._at
        if self._text[start : start + 1] not in ('"', "'"):
            bare = self._skip(_BARE_KEY)
            if bare is None:
                raise Unscannable
            return bare
        quoted = self._string()
        try:
            return str(tomllib.loads("key = " + _ESCAPE.sub(_older_escape, quoted))["key"])
        except tomllib.TOMLDecodeError as error:
            raise Unscannable from error

    def _key(self) -> tuple[list[str], int]:
        """Reads a dotted key, and returns its parts and its line."""
        self._skip(_SPACE)
        line, parts = self.line_of(self._at), []
        while True:
            parts.append(self._key_part())
            self._skip(_SPACE)
            if not self._takes("."):
                break
            self._skip(_SPACE)
        if len(parts) > DEPTH_LIMIT:
            raise Unscannable
        return parts, line

    def _table(self, root: Mark) -> Mark:
        parts, line = self._key()
        self._expect("]")
        above = _above(root, parts, line)
        mark = above.members.setdefault(parts[-1], Mark(line))
        mark.line = line
        return mark

    def _element(self, root: Mark) -> Mark:
        parts, line = self._key()
        self._expect("]]")
        whole = _above(root, parts, line).members.setdefault(parts[-1], Mark(line))
        whole.items.append(Mark(line))
        return whole.items[-1]

    def _pair(self, table: Mark) -> None:
        parts, line = self._key()
        self._expect("=")
        self._skip(_SPACE)
        value = self._value(line)
        for part in parts[:-1]:
            table = table.members.setdefault(part, Mark(line))
        if table.members.setdefault(parts[-1], value) is not value:
            raise Unscannable

    def _value(self, line: int) -> Mark:
        if self._takes("["):
            return self._nested(self._array, line)
        if self._takes("{"):
            return self._nested(self._inline_table, line)
        if self._text[self._at : self._at + 1] in ('"', "'"):
            self._string()
        else:
            self._token()
        return Mark(line)

    def _nested(self, read: Callable[[Mark], None], line: int) -> Mark:
        self._depth += 1
        if self._depth > DEPTH_LIMIT:
            raise Unscannable
        mark = Mark(line)
        read(mark)
        self._depth -= 1
        return mark

    def _string(self) -> str:
        start = self._at
        for front, pattern in _STRINGS:
            if self._text.startswith(front, start):
                found = self._skip(pattern)
                if found is None:
                    raise Unscannable
                older = _ESCAPE.sub(_older_escape, found) if '"' in front else found
                if older != found:
                    self._edits.append(_Edit(start, self._at, older))
                return found
        raise Unscannable

    def _token(self) -> None:
        start = self._at
        token = self._skip(_TOKEN)
        if token is None:
            raise Unscannable
        token = token.rstrip()
        if _DATE_OR_TIME.fullmatch(token) and _older_time(token) != token:
            self._edits.append(_Edit(start, start + len(token), _older_time(token)))

    def _array(self, mark: Mark) -> None:
        while True:
            self._skip(_BLANK)
            if self._takes("]"):
                return
            mark.items.append(self._value(self.line_of(self._at)))
            self._skip(_BLANK)
            if not self._takes(","):
                self._expect("]")
                return

    def _inline_blank(self) -> None:
        start = self._at
        blank = self._skip(_BLANK)
        if blank is not None and "\n" in blank:
            self._edits.append(_Edit(start, self._at, " "))

    def _inline_table(self, mark: Mark) -> None:
        comma = None
        while True:
            self._inline_blank()
            if self._takes("}"):
                if comma is not None:
                    self._edits.append(_Edit(comma, comma + 1, ""))
                return
            self._pair(mark)
            self._inline_blank()
            comma = self._at
            if not self._takes(","):
                self._expect("}")
                return


def _above(root: Mark, parts: list[str], line: int) -> Mark:
    """Returns the table in which the last part of a header's key stands."""
    table = root
    for part in parts[:-1]:
        table = table.members.setdefault(part, Mark(line))
        if table.items:
            table = table.items[-1]
    return table
