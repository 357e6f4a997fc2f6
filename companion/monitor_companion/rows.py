"""The rows of an export become the samples of its columns, in one pass."""

from __future__ import annotations

import csv
import hashlib
from array import array
from collections.abc import Callable, Sequence
from dataclasses import dataclass, field, replace
from fractions import Fraction
from pathlib import Path
from typing import IO, TYPE_CHECKING

from monitor_companion.layout import Layout
from monitor_companion.pieces import Mark, Piece, Pieces
from monitor_companion.plain_rows import PlainColumn, PlainRows
from monitor_companion.readings import CellFault, Missing, SampleCells
from monitor_companion.recording import sample_bytes
from monitor_companion.refusals import Place, Refusal
from monitor_companion.time_check import MICROSECOND, TimeCheck
from monitor_companion.time_layout import TimePlan
from monitor_companion.times import ElapsedTimes

if TYPE_CHECKING:
    from hashlib import _Hash


@dataclass
class ColumnRead:
    """What was read of one column; its samples are in `sink`."""

    cells: SampleCells
    sink: IO[bytes]
    hash: _Hash = field(default_factory=hashlib.sha256)
    digest: str = ""

    def take(self, samples: array[int]) -> None:
        """Writes samples to the sink."""
        data = sample_bytes(samples)
        self.hash.update(data)
        self.sink.write(data)


@dataclass
class RowsRead:
    """What was read of an export."""

    end: Mark
    sha256: str
    left: bytes
    rows: int
    times: TimeCheck | None
    columns: list[ColumnRead] = field(default_factory=list)


@dataclass
class Cells:
    """The cells of a piece: of each part of the time, and of each column; and their lines."""

    times: list[list[bytes]]
    columns: list[list[bytes]]
    lines: Sequence[int]


class RowReader:
    """Reads the rows of one export by its layout."""

    def __init__(
        self,
        path: Path,
        layout: Layout,
        missing: Missing,
        rounding: bool,
        period: int | None,
        reach: Callable[[int], None] = lambda done: None,
    ) -> None:
        """`period` is what the rows' times have to fit, in microseconds; None: it is found."""
        self._path = path
        self._layout = layout
        self._missing = missing
        self._rounding = rounding
        self._period = period
        self._reach = reach
        self._blank: int | None = None
        self._plain = plain_rows(layout)

    def read(self, start: Mark, stop: int | None, sinks: Sequence[IO[bytes]]) -> RowsRead:
        """Reads all rows from a mark on, and writes the samples of each column to its sink.

        Raises Refusal for the first cell that can't be taken.
        """
        layout = self._layout
        columns = [
            ColumnRead(self._cells(plan.wanted.step), sink)
            for plan, sink in zip(layout.columns, sinks, strict=True)
        ]
        times = self._time_check()
        pieces = Pieces(self._path, layout.dialect.encoding, start, stop, layout.crlf, self._reach)
        rows = 0
        for whole in pieces:
            piece = behind_head(whole, layout.first_line)
            if piece.data:
                rows += self._take(piece, columns, times)
        for column in columns:
            column.digest = column.hash.hexdigest()
        return RowsRead(pieces.end, pieces.digest.hexdigest(), pieces.left, rows, times, columns)

    def _take(self, piece: Piece, columns: list[ColumnRead], times: TimeCheck | None) -> int:
        """Takes the rows of a piece; a refusal is that of its first faulty row."""
        before = None if times is None else replace(times)
        blank = self._blank
        try:
            return self._take_rows(piece, columns, times)
        except Refusal:
            self._blank = blank
            for number, line in enumerate(piece.data.splitlines(keepends=True), piece.line):
                self._take_rows(Piece(line, number), columns, before)
            raise

    def _take_rows(self, piece: Piece, columns: list[ColumnRead], times: TimeCheck | None) -> int:
        """Takes the rows of a piece, and answers how many there are."""
        plain = None if self._blank is not None else self._plain_rows(piece, columns, times)
        if plain is not None:
            return plain
        cells = self._split(piece)
        if self._layout.time is not None and times is not None:
            times.take(self._times(self._layout.time, cells), cells.lines)
        for place, column in enumerate(columns):
            column.take(self._samples(place, column.cells, cells))
        return len(cells.lines)

    def _plain_rows(
        self, piece: Piece, columns: list[ColumnRead], times: TimeCheck | None
    ) -> int | None:
        """Takes the rows of a piece where all are plain; else None, and nothing is taken."""
        if self._plain is None or not self._plain.due():
            return None
        found = self._plain.columns(piece.data)
        taken = found is not None and self._take_plain(found, piece.line, columns, times)
        self._plain.tried(taken)
        return len(found[0].cells) if taken and found is not None else None

    def _take_plain(
        self,
        found: list[PlainColumn],
        line: int,
        columns: list[ColumnRead],
        times: TimeCheck | None,
    ) -> bool:
        """Takes plain columns, where all are exact readings and times."""
        plan = self._layout.time
        read = None
        if plan is not None and isinstance(plan.reader, ElapsedTimes):
            first = found.pop(0)
            read = plan.reader.of_numbers(map(int, first.cells), first.decimals)
            if read is None:
                return False
        taken = []
        for column, plain in zip(columns, found, strict=True):
            raws = column.cells.of_numbers(map(int, plain.cells), plain.decimals)
            if raws is None:
                return False
            taken.append(raws)
        if read is not None and times is not None:
            times.take(read, range(line, line + len(read)))
        for column, raws in zip(columns, taken, strict=True):
            column.cells.account_suspects(raws)
            column.take(raws)
        return True

    def _cells(self, step: Fraction) -> SampleCells:
        return SampleCells(step, self._layout.dialect.decimal, self._missing, self._rounding)

    def _time_check(self) -> TimeCheck | None:
        plan = self._layout.time
        if plan is None:
            return None
        period = None if self._period is None else self._period * MICROSECOND
        return TimeCheck(str(self._path), plan.title, plan.reader.kind, period)

    def _split(self, piece: Piece) -> Cells:
        """The cells of a piece: at once where each row is plain, else row by row."""
        layout = self._layout
        first = piece.data[: piece.data.index(b"\n")]
        width = first.count(layout.dialect.separator) + 1
        time_places = layout.time.places if layout.time is not None else ()
        places = [plan.place for plan in layout.columns]
        cells = None
        if width in layout.widths and max(*places, *time_places, 0) < width:
            cells = layout.dialect.split_piece(piece.data, width)
        if cells is None or self._blank is not None:
            return self._split_rows(piece)
        each = width + 1
        lines = range(piece.line, piece.line + len(cells) // each)
        return Cells(
            [cells[place::each] for place in time_places],
            [cells[place::each] for place in places],
            lines,
        )

    def _split_rows(self, piece: Piece) -> Cells:
        """The cells of a piece, row by row; blank lines are no rows."""
        layout = self._layout
        time_places = layout.time.places if layout.time is not None else ()
        places = [*time_places, *(plan.place for plan in layout.columns)]
        lines: list[int] = []
        found: list[list[bytes]] = [[] for _ in places]
        for number, line in enumerate(piece.data.split(b"\n")[:-1], piece.line):
            if layout.dialect.is_blank(line):
                # (In one column a blank line may be a row without a reading.)
                self._blank = number if layout.width == 1 else None
                continue
            row = self._row(line, number)
            lines.append(number)
            for cells, place in zip(found, places, strict=True):
                if place >= len(row):
                    raise self._refusal(number, f"has {len(row)} cells, and no column #{place + 1}")
                cells.append(row[place])
        count = len(time_places)
        return Cells(found[:count], found[count:], lines)

    def _row(self, line: bytes, number: int) -> list[bytes]:
        """The cells of one row, as many as the names."""
        layout = self._layout
        if self._blank is not None:
            why = "is blank, and it can't be told whether that is a row without a reading"
            raise self._refusal(self._blank, why)
        try:
            row = layout.dialect.split(line)
        except csv.Error as error:
            raise self._refusal(number, f"the quotes don't fit: {error}") from error
        if len(row) not in layout.widths:
            raise self._refusal(number, f"has {len(row)} cells, and {layout.width} are expected")
        return row

    def _refusal(self, line: int, why: str) -> Refusal:
        return Refusal(Place(str(self._path), line), why)

    def _times(self, plan: TimePlan, cells: Cells) -> array[int]:
        """The times of a piece's rows."""
        joined = cells.times[0]
        if len(cells.times) > 1:
            joined = [b" ".join(parts) for parts in zip(*cells.times, strict=True)]
        try:
            return plan.reader.many(joined)
        except CellFault as fault:
            raise self._located(fault, joined, cells.lines, plan.title, plan.reader.read) from fault

    def _samples(self, place: int, reader: SampleCells, cells: Cells) -> array[int]:
        """The samples of a piece's column."""
        column = cells.columns[place]
        if not column:
            return array("i")
        try:
            return reader.samples(column)
        except CellFault as fault:
            title = self._layout.columns[place].title
            raise self._located(fault, column, cells.lines, title, reader.read) from fault

    def _located(
        self,
        fault: CellFault,
        cells: list[bytes],
        lines: Sequence[int],
        title: str,
        read: Callable[[bytes], int],
    ) -> Refusal:
        """The refusal of the first cell that can't be taken, with its place."""
        for line, cell in zip(lines, cells, strict=True):
            try:
                read(cell)
            except CellFault as first:
                text = self._layout.dialect.text(cell)
                return Refusal(Place(str(self._path), line, title, text), str(first))
        return Refusal(Place(str(self._path), lines[0], title), str(fault))


def plain_rows(layout: Layout) -> PlainRows | None:
    """What finds plain rows; None where the times aren't numbers in one column."""
    places = [plan.place for plan in layout.columns]
    if layout.time is not None:
        if not isinstance(layout.time.reader, ElapsedTimes) or len(layout.time.places) != 1:
            return None
        places.insert(0, layout.time.places[0])
    # A column may go to two gauges, or be the times too: the pattern has each place once.
    if len(set(places)) != len(places):
        return None
    return PlainRows(layout.dialect, layout.widths, places)


def behind_head(piece: Piece, first_line: int) -> Piece:
    """The piece without the lines before the first row."""
    data, line = piece.data, piece.line
    begin = 0
    while line < first_line:
        end = data.find(b"\n", begin)
        if end < 0:
            return Piece(b"", line)
        begin, line = end + 1, line + 1
    return Piece(data[begin:], line)
