"""A report of `monitor count` or `monitor report`, read exactly as docs/FORMATS.md states it.

Ranges are kept in halves of a N/mm² and cycles in half units, so every number is a whole one.
"""

from __future__ import annotations

import re
from collections.abc import Callable, Iterator
from dataclasses import dataclass
from fractions import Fraction
from typing import Generic, NamedTuple, TypeVar

from monitor_companion.refusals import Place, Refusal
from monitor_companion.wording import shortened

BILLION = 10**9
MAX_FIGURE = 2**41
MAX_GAUGES = 32
MAX_DETAILS = 64
MAX_CLASSES = 1024

_NATURAL = r"(0|[1-9][0-9]{0,59})"
_HALVED = r"(0|[1-9][0-9]{0,15})\.([05])"
_NAME = r"([A-Za-z0-9_-]{1,32})"
_GAUGE = re.compile(f"gauge {_NAME}")
_SAMPLES = re.compile(f"samples {_NATURAL} used {_NATURAL} missing {_NATURAL} refused {_NATURAL}")
_RANGE = re.compile(f"{_HALVED} {_HALVED}")
_PAIR = re.compile(f"{_NATURAL} {_NATURAL} {_HALVED}")
_LEVEL = re.compile(f"{_NATURAL} {_NATURAL}")
_DETAIL = re.compile(
    f"detail {_NAME} {_NAME} {_NATURAL} {_NATURAL}/{_NATURAL} {_NATURAL}\\.([0-9]{{9}})"
)
# What other texts of the program begin with, and what they are.
_OTHER_TEXTS = {
    "held ": "a line that `count` or `watch` tells on standard error:"
    " give its standard output alone",
    "seen ": "a line that `watch` tells on standard error: give its standard output alone",
    "init ": "a line that `init` tells on standard error, and no report",
    "samples ": "the table of one recording by `table`, and no report",
    "repeat ": "the text of `repeat`, and no report",
    "window ": "the text of `window`: without its lines that begin with `window ` it is a report",
    "audit ": "the text of `audit`, and no report",
    "demo ": "the text of `demo`, and no report",
    "usage: ": "a refusal of the program, and no report",
    "config: ": "a refusal of the program, and no report",
    "store: ": "a refusal of the program, and no report",
    "recording ": "a refusal of the program, and no report",
}


class RangeCount(NamedTuple):
    """A range in halves of a N/mm², and its half units."""

    half_stress: int
    half_units: int


class PairCount(NamedTuple):
    """Two levels, and the half units between them."""

    lower: int
    upper: int
    half_units: int


class LevelCount(NamedTuple):
    """A level, or the boundary below it, and its count."""

    level: int
    times: int


RowT = TypeVar("RowT", RangeCount, PairCount, LevelCount)


@dataclass(frozen=True)
class Section(Generic[RowT]):
    """The rows below a heading, which stands in `line`."""

    line: int
    rows: tuple[RowT, ...]

    def line_of(self, number: int) -> int:
        """The line of a row, which is numbered from 0."""
        return self.line + 1 + number


@dataclass(frozen=True)
class GaugeReport:
    """What a report says of a gauge; `line` has its name."""

    name: str
    line: int
    samples: int
    used: int
    missing: int
    refused: int
    rainflow: Section[RangeCount]
    matrix: Section[PairCount]
    crossings: Section[LevelCount]
    peaks: Section[LevelCount]
    valleys: Section[LevelCount]
    ranges: Section[RangeCount]


@dataclass(frozen=True)
class DetailReport:
    """What a report says of a detail: its damage exactly, and rounded up to billionths."""

    name: str
    gauge: str
    line: int
    whole: int
    numerator: int
    denominator: int
    billionths: int

    @property
    def damage(self) -> Fraction:
        """The damage as the program printed it; 1 is the whole life."""
        return self.whole + Fraction(self.numerator, self.denominator)


@dataclass(frozen=True)
class Report:
    """A whole report, and the file that it was read from."""

    file: str
    gauges: tuple[GaugeReport, ...]
    details: tuple[DetailReport, ...]

    def gauge(self, name: str) -> GaugeReport:
        """The gauge of that name, which has to be there."""
        return next(gauge for gauge in self.gauges if gauge.name == name)


class _Lines:
    """The lines of a report, from the first on."""

    def __init__(self, file: str, lines: list[str]) -> None:
        self.file = file
        self._lines = lines
        self._at = 0

    @property
    def number(self) -> int:
        """The number of the next line, from 1."""
        return self._at + 1

    def peek(self) -> str | None:
        return self._lines[self._at] if self._at < len(self._lines) else None

    def skip(self) -> None:
        self._at += 1

    def refusal(self, why: str) -> Refusal:
        """The refusal of the next line."""
        line = self.peek()
        if line is None:
            return Refusal(Place(self.file, self.number), f"the report ends here, {why}")
        return Refusal(Place(self.file, self.number, cell=shortened(line)), why)

    def match(self, pattern: re.Pattern[str], wanted: str) -> re.Match[str]:
        """The next line by a pattern; it is taken."""
        found = pattern.fullmatch(self.peek() or "")
        if found is None:
            raise self.refusal(f"{wanted} is wanted")
        self.skip()
        return found


def billionths_of(damage: Fraction) -> int:
    """A damage in billionths, rounded up, as the program rounds it."""
    return -(-damage * BILLION // 1)


def parse_report(content: bytes, file: str) -> Report:
    """Reads a report; raises a `Refusal` with the line of the first thing that is none of one."""
    lines = _Lines(file, _lines_of(content, file))
    if lines.peek() is None:
        raise Refusal(Place(file), "the report is empty")
    gauges: list[GaugeReport] = []
    while (lines.peek() or "").startswith("gauge ") or not gauges:
        _refuse_other_text(lines)
        gauge = _gauge(lines)
        if any(gauge.name == before.name for before in gauges):
            raise Refusal(Place(file, gauge.line), f"gauge {gauge.name} stands here again")
        gauges.append(gauge)
    if len(gauges) > MAX_GAUGES:
        raise Refusal(Place(file, gauges[MAX_GAUGES].line), f"more than {MAX_GAUGES} gauges")
    details = _details(lines, {gauge.name for gauge in gauges})
    return Report(file, tuple(gauges), details)


def _lines_of(content: bytes, file: str) -> list[str]:
    """The lines, each of which has to end with one newline byte and have ASCII alone."""
    for number, line in enumerate(content.split(b"\n"), start=1):
        if not line.isascii() or b"\r" in line or b"\0" in line:
            raise Refusal(Place(file, number), "a byte that no report has")
    lines = content.decode("ascii").split("\n")
    last = lines.pop()
    if last:
        place = Place(file, len(lines) + 1, cell=shortened(last))
        raise Refusal(place, "the last line has no end: the report is cut off")
    return lines


def _refuse_other_text(lines: _Lines) -> None:
    line = lines.peek() or ""
    for front, what in _OTHER_TEXTS.items():
        if line.startswith(front):
            raise lines.refusal(f"this is {what}")


def _gauge(lines: _Lines) -> GaugeReport:
    line = lines.number
    name = lines.match(_GAUGE, "`gauge NAME`")[1]
    found = lines.match(_SAMPLES, "`samples N used N missing N refused N`")
    samples, used, missing, refused = (int(number) for number in found.groups())
    if samples != used + missing + refused:
        raise Refusal(
            Place(lines.file, line + 1),
            f"{samples} samples are not {used} used, {missing} missing and {refused} refused",
        )
    return GaugeReport(
        name, line, samples, used, missing, refused,
        rainflow=_section(lines, "rainflow", "matrix", _range_row, _descends),
        matrix=_section(lines, "matrix", "crossings", _pair_row, _ascends),
        crossings=_section(lines, "crossings", "peaks", _level_row, _ascends),
        peaks=_section(lines, "peaks", "valleys", _level_row, _ascends),
        valleys=_section(lines, "valleys", "ranges", _level_row, _ascends),
        ranges=_section(lines, "ranges", None, _range_row, _descends),
    )  # fmt: skip


def _section(
    lines: _Lines,
    heading: str,
    next_heading: str | None,
    row_of: Callable[[_Lines], RowT],
    follows: Callable[[tuple[int, ...], tuple[int, ...]], bool],
) -> Section[RowT]:
    """The rows from a heading to the next one, or to the end of the gauge."""
    line = lines.number
    lines.match(re.compile(heading), f"the heading `{heading}`")
    rows: list[RowT] = []
    while not _is_end(lines.peek(), next_heading):
        row = row_of(lines)
        if rows and not follows(rows[-1][:-1], row[:-1]):
            raise Refusal(Place(lines.file, lines.number - 1), "this row is out of order")
        if not 0 < row[-1] <= MAX_FIGURE:
            raise Refusal(Place(lines.file, lines.number - 1), "a count from 1 on is wanted")
        rows.append(row)
    return Section(line, tuple(rows))


def _is_end(line: str | None, next_heading: str | None) -> bool:
    if next_heading is None:
        return line is None or line.startswith(("gauge ", "detail "))
    return line == next_heading


def _descends(before: tuple[int, ...], now: tuple[int, ...]) -> bool:
    return now < before


def _ascends(before: tuple[int, ...], now: tuple[int, ...]) -> bool:
    return before < now


def _halves(whole: str, tenth: str) -> int:
    return 2 * int(whole) + (tenth == "5")


def _range_row(lines: _Lines) -> RangeCount:
    found = lines.match(_RANGE, "`RANGE CYCLES`, each with one decimal 0 or 5, or a heading")
    row = RangeCount(_halves(found[1], found[2]), _halves(found[3], found[4]))
    if row.half_stress == 0:
        raise Refusal(Place(lines.file, lines.number - 1), "a range above 0 is wanted")
    return row


def _pair_row(lines: _Lines) -> PairCount:
    found = lines.match(_PAIR, "`LOWER UPPER CYCLES`, or a heading")
    row = PairCount(int(found[1]), int(found[2]), _halves(found[3], found[4]))
    if not row.lower < row.upper < MAX_CLASSES:
        raise Refusal(Place(lines.file, lines.number - 1), "a lower and an upper level are wanted")
    return row


def _level_row(lines: _Lines) -> LevelCount:
    found = lines.match(_LEVEL, "`LEVEL COUNT`, or a heading")
    row = LevelCount(int(found[1]), int(found[2]))
    if row.level >= MAX_CLASSES:
        raise Refusal(Place(lines.file, lines.number - 1), f"there is no level {row.level}")
    return row


def _details(lines: _Lines, gauges: set[str]) -> tuple[DetailReport, ...]:
    details: list[DetailReport] = []
    for detail in _detail_lines(lines):
        place = Place(lines.file, detail.line)
        if detail.gauge not in gauges:
            raise Refusal(place, f"the report has no gauge {detail.gauge}")
        if any(detail.name == before.name for before in details):
            raise Refusal(place, f"detail {detail.name} stands here again")
        if len(details) == MAX_DETAILS:
            raise Refusal(place, f"more than {MAX_DETAILS} details")
        details.append(detail)
    return tuple(details)


def _detail_lines(lines: _Lines) -> Iterator[DetailReport]:
    while lines.peek() is not None:
        line = lines.number
        found = lines.match(_DETAIL, "`detail NAME GAUGE WHOLE NUM/DEN DECIMALS`")
        whole, numerator, denominator = int(found[3]), int(found[4]), int(found[5])
        billionths = int(found[6]) * BILLION + int(found[7])
        place = Place(lines.file, line)
        if numerator >= denominator:
            raise Refusal(place, "the fraction isn't below 1")
        if billionths != billionths_of(whole + Fraction(numerator, denominator)):
            raise Refusal(place, "the decimals are not the fraction, rounded up")
        yield DetailReport(found[1], found[2], line, whole, numerator, denominator, billionths)
