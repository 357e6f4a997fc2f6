"""The whole lines of an export, in pieces of about a megabyte, with the digest of what was read."""

from __future__ import annotations

import codecs
import hashlib
import os
from collections.abc import Callable, Iterator
from dataclasses import dataclass
from pathlib import Path
from typing import TYPE_CHECKING

from monitor_companion.dialects import Encoding, plain_ends, whole_lines
from monitor_companion.refusals import Place, Refusal

if TYPE_CHECKING:
    from hashlib import _Hash

BLOCK = 262_144
LONGEST_LINE = 16 * BLOCK


@dataclass(frozen=True)
class Mark:
    """A place between two lines of an export: the bytes and the lines before it."""

    bytes: int
    lines: int


START = Mark(0, 0)


@dataclass(frozen=True)
class Piece:
    """Lines that each end in a line feed, and the number of the first, from 1."""

    data: bytes
    line: int


class Pieces:
    """Reads the whole lines of an export from a mark on.

    When all are read, `end` is the mark behind them, `digest` has the digest of all bytes before
    it, and `left` is what stands behind the last line end.
    """

    def __init__(
        self,
        path: Path,
        encoding: Encoding,
        start: Mark = START,
        stop: int | None = None,
        crlf: bool = False,
        reach: Callable[[int], None] = lambda done: None,
    ) -> None:
        """`stop` is the size at which the export ends for this reading.

        `crlf` says that its lines end in two bytes: a CR alone at its end is half of a line end.
        """
        self.path = path
        self.end = start
        self.left = b""
        self.digest: _Hash = hashlib.sha256()
        self._encoding = encoding
        self._stop = stop
        self._crlf = crlf
        self._reach = reach
        self._raw = b""
        self._text = b""
        self._decoder = codecs.getincrementaldecoder(encoding.value)() if encoding.wide else None

    def __iter__(self) -> Iterator[Piece]:
        with self.path.open("rb") as file:
            self._pass(file.fileno(), self.end.bytes)
            done = self.end.bytes
            ended = False
            while not ended:
                size = BLOCK if self._stop is None else min(BLOCK, self._stop - done)
                block = file.read(size)
                ended = len(block) < BLOCK
                done += len(block)
                self._reach(done)
                self._add(block, first=done == len(block))
                piece = self._cut(ended)
                if piece is not None:
                    yield piece
        self.left = self._text

    def _pass(self, descriptor: int, size: int) -> None:
        """Reads past the bytes before the start, for the digest alone."""
        while size:
            block = os.read(descriptor, min(size, BLOCK))
            if not block:
                raise Refusal(Place(str(self.path)), "has become shorter while it was read")
            self.digest.update(block)
            size -= len(block)

    def _add(self, block: bytes, first: bool) -> None:
        """Puts a block behind what is left; the mark at the start of the text is left out."""
        self._raw += block
        if self._decoder is None:
            self._text += block
        else:
            try:
                self._text += self._decoder.decode(block).encode("utf-8")
            except UnicodeError as error:
                place = Place(str(self.path), self.end.lines + 1)
                raise Refusal(place, f"near this line it is no {self._encoding.value}") from error
        if (
            first
            and self._text.startswith(b"\xef\xbb\xbf")
            and self._encoding is not Encoding.LATIN_1
        ):
            self._text = self._text[3:]

    def _cut(self, ended: bool) -> Piece | None:
        """Takes the whole lines at the front."""
        size = whole_lines(self._text, ended and not self._crlf)
        if size == 0:
            if len(self._text) > LONGEST_LINE:
                place = Place(str(self.path), self.end.lines + 1)
                raise Refusal(place, f"is longer than {LONGEST_LINE} bytes")
            return None
        piece, self._text = plain_ends(self._text[:size]), self._text[size:]
        line = self.end.lines + 1
        used = len(self._raw) - self._raw_left()
        self.digest.update(self._raw[:used])
        self._raw = self._raw[used:]
        self.end = Mark(self.end.bytes + used, self.end.lines + piece.count(b"\n"))
        return Piece(piece, line)

    def _raw_left(self) -> int:
        """How many bytes of the export what is left has."""
        if self._decoder is None:
            return len(self._text)
        pending = len(self._decoder.getstate()[0])
        return len(self._text.decode("utf-8").encode(self._encoding.value)) + pending
