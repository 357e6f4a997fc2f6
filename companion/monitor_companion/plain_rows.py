"""Pieces whose rows are plain numbers of one form: checked by one pattern, and cut at once."""

from __future__ import annotations

import re
from collections.abc import Sequence
from dataclasses import dataclass

from monitor_companion.dialects import Dialect

MOST_DECIMALS = 18
MOST_PASSED = 16
"""After pieces that aren't plain, at most so many are passed before one is tried again."""


@dataclass(frozen=True)
class PlainColumn:
    """Cells that are whole numbers, each to be divided by 10 to the power of `decimals`."""

    cells: list[bytes]
    decimals: int


class PlainRows:
    """Finds pieces of which each row has the form of the first, as loggers mostly write them."""

    def __init__(self, dialect: Dialect, widths: frozenset[int], places: Sequence[int]) -> None:
        """`places` are those of the cells that are read; in the others anything may stand."""
        self._dialect = dialect
        self._widths = widths
        self._places = places
        self._patterns: dict[tuple[int, ...], re.Pattern[bytes]] = {}
        self._failed = 0
        self._wait = 0

    def columns(self, piece: bytes) -> list[PlainColumn] | None:
        """The cells at the places without their decimal marks; None where a row isn't plain."""
        dialect = self._dialect
        if dialect.decimal == dialect.separator:
            return None
        plain: bytes | None = piece
        if dialect.quote and dialect.quote in piece:
            plain = dialect.unquoted(piece)
        return None if plain is None else self._cut(plain)

    def due(self) -> bool:
        """Whether the next piece is to be tried: fewer are where pieces mostly aren't plain."""
        if self._wait:
            self._wait -= 1
            return False
        return True

    def tried(self, taken: bool) -> None:
        """Tells whether the piece that was due could be taken."""
        self._failed = 0 if taken else min(self._failed + 1, MOST_PASSED)
        self._wait = self._failed

    def _cut(self, piece: bytes) -> list[PlainColumn] | None:
        """Cuts a piece without quotes."""
        separator, decimal = self._dialect.separator, self._dialect.decimal
        first = piece[: piece.index(b"\n")].split(separator)
        width = len(first)
        if width not in self._widths or max(self._places) >= width:
            return None
        decimals = [len(first[place].partition(decimal)[2]) for place in self._places]
        if max(decimals) > MOST_DECIMALS or not self._pattern(width, decimals).fullmatch(piece):
            return None
        text = piece.replace(decimal, b"") if any(decimals) else piece
        cells = text.replace(b"\n", separator).split(separator)
        cells.pop()
        return [
            PlainColumn(cells[place::width], count)
            for place, count in zip(self._places, decimals, strict=True)
        ]

    def _pattern(self, width: int, decimals: list[int]) -> re.Pattern[bytes]:
        """The pattern of rows with so many cells, and so many decimals at the places."""
        key = (width, *decimals)
        found = self._patterns.get(key)
        if found is None:
            separator = re.escape(self._dialect.separator)
            mark = re.escape(self._dialect.decimal)
            forms = [rb"[^\n" + separator + rb"]*+"] * width
            for place, count in zip(self._places, decimals, strict=True):
                part = mark + rb"\d{%d}" % count if count else b""
                forms[place] = rb" *+[+-]?\d{1,18}+" + part
            found = re.compile(rb"(?:" + separator.join(forms) + rb"\n)*+")
            self._patterns[key] = found
        return found
