"""How an export is written: its encoding, what parts its cells, its decimal mark, its quotes."""

from __future__ import annotations

import codecs
import csv
from dataclasses import dataclass
from enum import Enum

from monitor_companion.refusals import Place, Refusal

HEAD_READ = 262_144
"""Bytes of an export in which its names and its first rows have to stand."""


class Encoding(Enum):
    """The encodings of exports, by Python's names."""

    UTF_8 = "utf-8"
    UTF_16_LE = "utf-16-le"
    UTF_16_BE = "utf-16-be"
    LATIN_1 = "latin-1"

    @property
    def wide(self) -> bool:
        """Whether a character has two bytes, so that the text is read as UTF-8 in its stead."""
        return self in (Encoding.UTF_16_LE, Encoding.UTF_16_BE)

    @property
    def inner(self) -> str:
        """The encoding of the bytes that rows are cut from: one that has ASCII in it."""
        return "latin-1" if self is Encoding.LATIN_1 else "utf-8"

    @property
    def mark(self) -> bytes:
        """The byte order mark that may stand before a text."""
        return b"" if self is Encoding.LATIN_1 else "\ufeff".encode(self.value)


ENCODING_NAMES = {
    "utf-8": Encoding.UTF_8,
    "utf-16": None,
    "utf-16-le": Encoding.UTF_16_LE,
    "utf-16-be": Encoding.UTF_16_BE,
    "latin-1": Encoding.LATIN_1,
}
"""What can be said; the order of the bytes of UTF-16 is found where it isn't said."""

SEPARATORS = {"tab": b"\t", "semicolon": b";", "comma": b","}
DECIMALS = {"point": b".", "comma": b","}


def find_encoding(data: bytes, said: str, file: str) -> Encoding:
    """The encoding of an export by its first bytes, or the one that was said.

    Bytes that aren't UTF-8 are taken as Latin-1, which has a character for each: cells of numbers
    are the same in both, and the names have to be those that are looked for.
    """
    known = ENCODING_NAMES.get(said)
    if known is not None:
        return known
    marked = (each for each in Encoding if each.mark and data.startswith(each.mark))
    found = next(marked, None) or find_unmarked(data)
    if said == "utf-16" and not found.wide:
        raise Refusal(
            Place(file), "is no UTF-16: it has no mark and no zero bytes between characters"
        )
    return found


def find_unmarked(data: bytes) -> Encoding:
    """The encoding of a text without mark: in UTF-16 each other byte of a number is zero."""
    front = data[:4096]
    for encoding, zeros in ((Encoding.UTF_16_LE, front[1::2]), (Encoding.UTF_16_BE, front[::2])):
        if len(front) > 1 and zeros.count(0) * 10 > len(zeros) * 7:
            return encoding
    try:
        codecs.getincrementaldecoder("utf-8")().decode(data)
    except UnicodeDecodeError:
        return Encoding.LATIN_1
    return Encoding.UTF_8


def plain_ends(data: bytes) -> bytes:
    """The same lines, each ended by a line feed alone."""
    if b"\r" not in data:
        return data
    return data.replace(b"\r\n", b"\n").replace(b"\r", b"\n")


def whole_lines(data: bytes, ended: bool) -> int:
    """How many bytes the whole lines at the front of `data` have.

    A CR at the end may be half of a line end; it ends a line where the text has `ended`.
    """
    size = len(data)
    if not ended and data.endswith(b"\r"):
        size -= 1
    return max(data.rfind(b"\n", 0, size), data.rfind(b"\r", 0, size)) + 1


@dataclass(frozen=True)
class Dialect:
    """How rows are cut into cells, and numbers written. All bytes are single ones."""

    encoding: Encoding
    separator: bytes
    decimal: bytes
    quote: bytes

    def split(self, line: bytes) -> list[bytes]:
        """The cells of a line, without their quotes; csv.Error where the quotes don't fit."""
        if not self.quote or self.quote not in line:
            return line.split(self.separator)
        reader = csv.reader(
            [line.decode("latin-1")],
            delimiter=self.separator.decode(),
            quotechar=self.quote.decode(),
            skipinitialspace=True,
            strict=True,
        )
        return [cell.encode("latin-1") for cell in next(reader)]

    def is_blank(self, line: bytes) -> bool:
        """Whether a line has nothing; a tab that parts cells is something."""
        return not line.strip(b" " if self.separator == b"\t" else b" \t")

    def text(self, cell: bytes) -> str:
        """A cell as text, for names and refusals."""
        return cell.decode(self.encoding.inner, "backslashreplace")

    def split_piece(self, piece: bytes, width: int) -> list[bytes] | None:
        """The cells of all lines of a piece, one after the other, with a mark behind each line.

        Every line has `width` cells then: cell `c` of all lines is `[c :: width + 1]`. None says
        that a line has another number of cells, or something that is unusual.
        """
        if b"\0" in piece or (width == 1 and (b"\n\n" in piece or piece.startswith(b"\n"))):
            return None
        if self.quote and self.quote in piece:
            unquoted = self.unquoted(piece)
            if unquoted is None:
                return None
            piece = unquoted
        lines = piece.count(b"\n")
        parts = piece.replace(b"\n", self.separator + b"\0" + self.separator)
        cells = parts.split(self.separator)
        cells.pop()
        if len(cells) != lines * (width + 1) or cells[width :: width + 1].count(b"\0") != lines:
            return None
        return cells

    def unquoted(self, piece: bytes) -> bytes | None:
        """The piece without its quotes, where each stands at an end of a cell and parts nothing."""
        parts = piece.split(self.quote)
        inside = b"\0".join(parts[1::2])
        if len(parts) % 2 == 0 or self.separator in inside or b"\n" in inside:
            return None
        # What is outside is parted from each quoted cell by a separator or a line end.
        outside = b"\0".join(parts[::2])
        quoted = len(parts) // 2
        behind = outside.count(b"\0" + self.separator) + outside.count(b"\0\n")
        before = outside.count(self.separator + b"\0") + outside.count(b"\n\0")
        if behind != quoted or before + outside.startswith(b"\0") != quoted:
            return None
        return b"".join(parts)

    def __str__(self) -> str:
        separators = {mark: name for name, mark in SEPARATORS.items()}
        decimals = {mark: name for name, mark in DECIMALS.items()}
        return (
            f"{self.encoding.value}, cells parted by {separators[self.separator]},"
            f" decimal {decimals[self.decimal]}"
        )
