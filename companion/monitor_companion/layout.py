"""Where an export has its names, its rows and its columns: found, or as the profile says."""

from __future__ import annotations

import difflib
from dataclasses import dataclass, replace
from fractions import Fraction
from pathlib import Path

from monitor_companion.dialects import DECIMALS, SEPARATORS, Dialect
from monitor_companion.head_rows import (
    LIKE_NUMBER,
    HeadText,
    Row,
    find_names,
    is_reading_like,
    read_head_text,
    row_at,
)
from monitor_companion.profiles import FIND, Profile
from monitor_companion.readings import missing_spellings
from monitor_companion.refusals import Place, Refusal
from monitor_companion.time_layout import TimedRows, TimePlan, find_times

LOOKED_AT = 50
"""How many rows tell the decimal mark."""
MOST_UNITS = 3
NAMES_WITHIN = 500
"""In how many lines names are looked for."""


@dataclass(frozen=True)
class Wanted:
    """A column that is asked for: a name or a place such as `#2`, and its step."""

    gauge: str
    column: str
    step: Fraction


@dataclass(frozen=True)
class ColumnPlan:
    """A column that goes to a gauge; places count from 0."""

    place: int
    title: str
    wanted: Wanted


@dataclass(frozen=True)
class Layout:
    """All that is needed to read the rows of an export. Lines count from 1."""

    dialect: Dialect
    crlf: bool
    width: int
    widths: frozenset[int]
    names_line: int
    first_line: int
    units: tuple[str, ...]
    columns: tuple[ColumnPlan, ...]
    time: TimePlan | None

    def column_of(self, gauge: str) -> ColumnPlan:
        """The column that goes to a gauge, which has one."""
        return next(column for column in self.columns if column.wanted.gauge == gauge)


@dataclass(frozen=True)
class Candidate:
    """A row of names under a separator, and the rows behind it."""

    dialect: Dialect
    names: Row | None
    first: int
    units: tuple[str, ...]
    rows: tuple[Row, ...]
    columns: tuple[ColumnPlan, ...]

    @property
    def width(self) -> int:
        """How many cells the names have, or the first row where there are none."""
        return len(self.names.cells if self.names is not None else self.rows[0].cells)


def find_layout(path: Path, profile: Profile, wanted: list[Wanted]) -> Layout:
    """Finds how an export is laid out; refused where that isn't sure."""
    head = read_head_text(path, profile.encoding)
    return LayoutFinder(head, profile, wanted).layout()


class LayoutFinder:
    """Looks for the layout of one export."""

    def __init__(self, head: HeadText, profile: Profile, wanted: list[Wanted]) -> None:
        self._head = head
        self._profile = profile
        self._wanted = wanted
        self._named = [want.column for want in wanted if not want.column.startswith("#")]
        self._missing = missing_spellings(profile.missing, head.encoding.inner).texts

    def _refusal(self, why: str, line: int | None = None) -> Refusal:
        return Refusal(Place(self._head.file, line), why)

    def layout(self) -> Layout:
        """The layout by the one candidate that fits."""
        candidate = self._choose([self._candidate(mark) for mark in self._separators()])
        decimal = self._decimal(candidate)
        dialect = replace(candidate.dialect, decimal=decimal)
        width = candidate.width
        return Layout(
            dialect=dialect,
            crlf=self._head.crlf,
            width=width,
            widths=frozenset({width, width - 1} if self._profile.last_may_lack else {width}),
            names_line=0 if candidate.names is None else candidate.names.place + 1,
            first_line=candidate.first + 1,
            units=candidate.units,
            columns=candidate.columns,
            time=self._time(candidate, dialect),
        )

    def _separators(self) -> list[bytes]:
        """The separators that come into question."""
        if self._profile.separator != FIND:
            return [SEPARATORS[self._profile.separator]]
        return list(SEPARATORS.values())

    def _dialect(self, separator: bytes) -> Dialect:
        """The dialect of a separator, before its decimal mark is known."""
        return Dialect(self._head.encoding, separator, b".", self._profile.quote.encode())

    def _candidate(self, separator: bytes) -> Candidate | Refusal:
        """The candidate of a separator, or why there is none."""
        dialect = self._dialect(separator)
        try:
            names = self._names_row(dialect)
            behind = 0 if names is None else names.after
            first, units = self._first_row(dialect, behind, names)
            rows = self._rows(dialect, first)
            if names is None and not rows:
                raise self._refusal("has no row of readings")
            texts = self._titles(names, rows)
            columns = tuple(self._column(want, texts, names) for want in self._wanted)
            return Candidate(dialect, names, first, units, rows, columns)
        except Refusal as refusal:
            return refusal

    def _choose(self, found: list[Candidate | Refusal]) -> Candidate:
        """The candidate whose rows have as many cells as its names, each a reading where wanted."""
        candidates = [one for one in found if isinstance(one, Candidate)]
        if not candidates:
            refusals = [one for one in found if isinstance(one, Refusal)]
            # A refusal of one line says more than that nothing was found.
            raise next((one for one in refusals if one.place.line is not None), refusals[-1])
        fitting = [one for one in candidates if self._fits(one)] or candidates
        wide = [one for one in fitting if one.width > 1] or fitting[-1:]
        if len(wide) > 1:
            if not any(self._fits(one) for one in wide):
                return wide[0]
            fitting_marks = {one.dialect.separator for one in wide}
            marks = [name for name, mark in SEPARATORS.items() if mark in fitting_marks]
            raise self._refusal(f"its cells may be parted by {' or '.join(marks)}: say --separator")
        return wide[0]

    def _fits(self, candidate: Candidate) -> bool:
        """Whether the first rows look like rows of this candidate."""
        width = candidate.width
        widths = {width, width - 1} if self._profile.last_may_lack else {width}
        return all(
            len(row.cells) in widths
            and all(
                is_reading_like(row.cells[column.place], self._missing)
                for column in candidate.columns
                if column.place < len(row.cells)
            )
            for row in candidate.rows[:3]
        )

    def _names_row(self, dialect: Dialect) -> Row | None:
        """The row of the names."""
        if self._profile.names is not None:
            return self._said_names(dialect, self._profile.names)
        if self._profile.names_after:
            return self._names_behind(dialect)
        if not self._named:
            return self._names_by_rows(dialect)
        found = []
        for place in range(min(NAMES_WITHIN, len(self._head.lines))):
            row = row_at(self._head, dialect, place)
            if row is None:
                continue
            if all(find_names(self._texts(row), name) for name in self._named):
                found.append(row)
        if not found:
            raise self._no_names()
        if len(found) > 1:
            lines = " and ".join(str(row.place + 1) for row in found[:2])
            raise self._refusal(
                f"the names stand in lines {lines}: say --names LINE", found[1].place + 1
            )
        return found[0]

    def _said_names(self, dialect: Dialect, line: int) -> Row | None:
        """The row that the profile or an option names."""
        if line == 0:
            return None
        if line > len(self._head.lines):
            raise self._refusal(
                "the names were said to stand here, and there is no such line", line
            )
        row = row_at(self._head, dialect, line - 1)
        if row is None:
            raise self._refusal("the quotes of the names don't fit", line)
        return row

    def _names_behind(self, dialect: Dialect) -> Row | None:
        """The row behind the last line that begins as the profile says."""
        begin = self._profile.names_after.encode(self._head.encoding.inner)
        places = [
            place
            for place, line in enumerate(self._head.lines)
            if line.lstrip(b' "').startswith(begin)
        ]
        if not places:
            raise self._refusal(f"no line of its head begins with {self._profile.names_after!r}")
        place = places[-1] + 1
        while place < len(self._head.lines) and not self._head.lines[place].strip():
            place += 1
        if place == len(self._head.lines):
            raise self._refusal(f"there are no names behind {self._profile.names_after!r}")
        return self._said_names(dialect, place + 1)

    def _names_by_rows(self, dialect: Dialect) -> Row | None:
        """Where columns are asked for by their places alone: the row before the first readings."""
        places = [int(want.column[1:]) - 1 for want in self._wanted]
        before: Row | None = None
        for place in range(len(self._head.lines)):
            row = row_at(self._head, dialect, place)
            if row is None or len(row.cells) <= max(places):
                before = None
            elif all(is_reading_like(row.cells[at], self._missing) for at in places):
                return before
            elif before is None or len(before.cells) != len(row.cells):
                before = row
        raise self._refusal("has no row with readings at these places")

    def _no_names(self) -> Refusal:
        """Says which names weren't found, and which ones look alike."""
        for name in self._named:
            cells: list[str] = []
            for separator in self._separators():
                dialect = self._dialect(separator)
                for place in range(min(100, len(self._head.lines))):
                    row = row_at(self._head, dialect, place)
                    cells += [] if row is None else self._texts(row)
            if not find_names(cells, name):
                near = difflib.get_close_matches(name, cells, 1)
                hint = f"; there is {near[0]!r}" if near else ""
                return self._refusal(f"no row of its head has the column {name!r}{hint}")
        return self._refusal(f"no row of its head has all of the columns {', '.join(self._named)}")

    def _titles(self, names: Row | None, rows: tuple[Row, ...]) -> list[str]:
        """What the columns are called: their names, or their places where there are none."""
        if names is not None:
            return self._texts(names)
        return [f"#{place + 1}" for place in range(len(rows[0].cells))]

    def _texts(self, row: Row) -> list[str]:
        """The cells of a row of names, as texts."""
        return [cell.decode(self._head.encoding.inner, "replace").strip() for cell in row.cells]

    def _first_row(
        self, dialect: Dialect, behind: int, names: Row | None
    ) -> tuple[int, tuple[str, ...]]:
        """The place of the first row of readings, and the rows of units before it."""
        said = 0 if names is None else self._profile.units
        units: list[str] = []
        place = behind
        while place < len(self._head.lines):
            line = self._head.lines[place]
            row = row_at(self._head, dialect, place)
            if dialect.is_blank(line):
                place += 1
            elif said is not None and len(units) < said:
                units.append(dialect.text(line))
                place += 1
            elif said is None and len(units) < MOST_UNITS and self._is_units(row, names):
                units.append(dialect.text(line))
                place += 1
            else:
                break
        return place, tuple(units)

    def _is_units(self, row: Row | None, names: Row | None) -> bool:
        """Whether a row has no reading in any column that is asked for."""
        if row is None or names is None or len(row.cells) != len(names.cells):
            return False
        texts = self._texts(names)
        cells = [
            row.cells[place]
            for want in self._wanted
            for place in self._places(want, texts)
            if place < len(row.cells)
        ]
        return bool(cells) and not any(is_reading_like(cell, self._missing) for cell in cells)

    def _rows(self, dialect: Dialect, first: int) -> tuple[Row, ...]:
        """The first rows of readings."""
        found = []
        for place in range(first, min(first + LOOKED_AT, len(self._head.lines))):
            row = row_at(self._head, dialect, place)
            if row is not None and not dialect.is_blank(self._head.lines[place]):
                found.append(row)
        return tuple(found)

    def _places(self, want: Wanted, texts: list[str]) -> list[int]:
        """The places of a column among the names, from 0."""
        if want.column.startswith("#"):
            return [int(want.column[1:]) - 1]
        return find_names(texts, want.column)

    def _column(self, want: Wanted, texts: list[str], names: Row | None) -> ColumnPlan:
        """The plan of a column; a name that stands twice is refused."""
        places = self._places(want, texts)
        line = None if names is None else names.place + 1
        if not places:
            raise self._refusal(f"has no column {want.column!r} for the gauge {want.gauge}", line)
        if len(places) > 1:
            where = " and ".join(f"#{place + 1}" for place in places)
            raise self._refusal(
                f"the column {want.column!r} stands at {where}: say"
                f" --column '#{places[0] + 1}={want.gauge}' or another place",
                line,
            )
        if places[0] >= len(texts):
            raise self._refusal(f"has {len(texts)} columns, and no {want.column}", line)
        return ColumnPlan(places[0], texts[places[0]], want)

    def _decimal(self, candidate: Candidate) -> bytes:
        """The decimal mark that was said, or that the first rows have."""
        if self._profile.decimal != FIND:
            return DECIMALS[self._profile.decimal]
        seen: dict[bytes, int] = {}
        for row in candidate.rows:
            for cell in row.cells:
                for mark in DECIMALS.values():
                    if mark in cell and LIKE_NUMBER.fullmatch(cell):
                        seen.setdefault(mark, row.place + 1)
        if len(seen) > 1:
            line = max(seen.values())
            raise self._refusal("its numbers have points and commas: say --decimal", line)
        return next(iter(seen), b".")

    def _time(self, candidate: Candidate, dialect: Dialect) -> TimePlan | None:
        """The plan of the times, or None where there are none."""
        units: list[bytes] = []
        if candidate.units:
            line = candidate.units[0].encode(self._head.encoding.inner, "replace")
            units = dialect.split(line)
        row = candidate.rows[0] if candidate.rows else None
        titles = self._titles(candidate.names, candidate.rows)
        rows = TimedRows(self._head.file, dialect, titles, units, row)
        return find_times(rows, self._profile.time)
