"""Cells of a time column become whole nanoseconds."""

from __future__ import annotations

import re
from array import array
from collections.abc import Iterable
from datetime import date
from enum import Enum
from fractions import Fraction
from typing import Protocol

from monitor_companion.readings import CellFault, decimal_number, whole_numbers

SECOND = 10**9
EPOCH = date(1970, 1, 1).toordinal()
UNITS = {
    "ns": Fraction(1, 10**9),
    "us": Fraction(1, 10**6),
    "µs": Fraction(1, 10**6),
    "ms": Fraction(1, 1000),
    "s": Fraction(1),
    "sec": Fraction(1),
    "min": Fraction(60),
    "h": Fraction(3600),
    "d": Fraction(86400),
}
"""The units of a time column that counts, in seconds."""
CLOCK_FORMATS = (
    "%Y-%m-%d %H:%M:%S",
    "%Y-%m-%dT%H:%M:%S",
    "%Y-%m-%dT%H:%M:%S%z",
    "%Y-%m-%d %H:%M:%S%z",
    "%Y/%m/%d %H:%M:%S",
    "%d.%m.%Y %H:%M:%S",
)
"""The formats that are found. A date with slashes may begin with day or month: that is said."""


class TimeKind(Enum):
    """Whether times of two exports can be compared."""

    CLOCK = "clock"
    ELAPSED = "elapsed"


class TimeReader(Protocol):
    """Reads times of one form, in nanoseconds."""

    kind: TimeKind

    def read(self, cell: bytes) -> int:
        """The time of a cell; raises CellFault where it has none."""

    def many(self, cells: list[bytes]) -> array[int]:
        """The times of many cells; raises CellFault where one has none."""


class ElapsedTimes:
    """Times that count from the start of the measurement, such as 12.05 seconds."""

    kind = TimeKind.ELAPSED

    def __init__(self, unit: Fraction, decimal: bytes) -> None:
        """`unit` is what 1 means, in seconds."""
        self._unit = unit * SECOND
        self._decimal = decimal

    def read(self, cell: bytes) -> int:
        number = decimal_number(cell.strip(b" \t"), self._decimal)
        # A fraction of a nanosecond is left out: times are compared by half periods.
        time = int(number.fraction() * self._unit // 1)
        return checked(time)

    def many(self, cells: list[bytes]) -> array[int]:
        found = whole_numbers(cells, self._decimal) if cells else None
        times = None if found is None else self.of_numbers(*found)
        return array("q", map(self.read, cells)) if times is None else times

    def of_numbers(self, numbers: Iterable[int], decimals: int) -> array[int] | None:
        """The times of numbers with so many decimals; None where they have to be looked at."""
        factor = self._unit / 10**decimals
        if factor.denominator != 1:
            return None
        try:
            return array("q", map(factor.numerator.__mul__, numbers))
        except OverflowError:
            return None


def checked(time: int) -> int:
    """A time in nanoseconds that has room in 64 bits (292 years)."""
    if not -(2**63) <= time < 2**63:
        raise CellFault("is a time too far away")
    return time


TOKENS = {
    "%Y": r"(?P<year>\d{4})",
    "%m": r"(?P<month>\d{1,2})",
    "%d": r"(?P<day>\d{1,2})",
    "%H": r"(?P<hour>\d{1,2})",
    "%I": r"(?P<hour12>\d{1,2})",
    "%M": r"(?P<minute>\d{1,2})",
    "%S": r"(?P<second>\d{1,2})(?:[.,](?P<part>\d{0,18}))?",
    "%p": r"(?P<half>[AaPp][Mm])",
    "%z": r"(?P<zone>Z|[+-]\d{2}:?\d{2})",
}


def pattern_of(form: str) -> re.Pattern[bytes]:
    """The pattern of a time format; seconds may have a fraction behind a point or a comma.

    Raises ValueError for a format that isn't known.
    """
    parts = re.split(r"(%.)", form)
    if any(part.startswith("%") and part not in TOKENS for part in parts):
        raise ValueError(f"the time format {form!r} has other parts than {' '.join(TOKENS)}")
    text = "".join(TOKENS.get(part, re.escape(part)) for part in parts)
    try:
        return re.compile(text.encode())
    except re.error as error:
        raise ValueError(f"the time format {form!r} names a part twice") from error


class ClockTimes:
    """Dates with times of day, by a format such as `%d.%m.%Y %H:%M:%S`."""

    def __init__(self, form: str) -> None:
        """Raises ValueError for a format that isn't known."""
        self._pattern = pattern_of(form)
        groups = set(self._pattern.groupindex)
        dated = {"year", "month", "day"} & groups
        if dated and len(dated) < 3:
            raise ValueError(f"the time format {form!r} has a part of a date alone")
        if not {"hour", "hour12"} & groups or "minute" not in groups:
            raise ValueError(f"the time format {form!r} needs hours and minutes")
        if "hour12" in groups and "half" not in groups:
            raise ValueError(f"the time format {form!r} has hours by %I, and no %p")
        self.kind = TimeKind.CLOCK if dated else TimeKind.ELAPSED
        # What is before the seconds repeats from row to row, and the seconds do by minutes.
        self._split = form.endswith(":%S")
        self._fronts = Memory(pattern_of(form[: -len(":%S")])) if self._split else None
        self._seconds = Memory(pattern_of("%S"))

    def read(self, cell: bytes) -> int:
        return time_of(self._pattern, cell.strip(b" \t"))

    def many(self, cells: list[bytes]) -> array[int]:
        if self._fronts is None:
            return array("q", map(self.read, cells))
        fronts, seconds = self._fronts, self._seconds
        fronts.forget()
        seconds.forget()
        parts = [cell.rpartition(b":") for cell in cells]
        return array("q", [fronts[front] + seconds[second] for front, _, second in parts])


class Memory(dict[bytes, int]):
    """Times of parts of cells, remembered."""

    def __init__(self, pattern: re.Pattern[bytes]) -> None:
        super().__init__()
        self._pattern = pattern

    def __missing__(self, cell: bytes) -> int:
        time = self[cell] = time_of(self._pattern, cell.strip(b" \t"))
        return time

    def forget(self) -> None:
        """Begins anew where there is too much."""
        if len(self) > 200_000:
            self.clear()


def time_of(pattern: re.Pattern[bytes], text: bytes) -> int:
    """The nanoseconds that a text tells by a pattern; parts that it doesn't have are 0."""
    found = pattern.fullmatch(text)
    if found is None:
        raise CellFault("is no time of the export's form")
    parts = found.groupdict(b"")
    try:
        days = 0
        if "year" in parts:
            year, month, day = int(parts["year"]), int(parts["month"]), int(parts["day"])
            days = date(year, month, day).toordinal() - EPOCH
        minutes = (days * 24 + hour_of(parts)) * 60 + int(parts.get("minute") or 0)
    except ValueError as error:
        raise CellFault("is no time: there is no such day or hour") from error
    second = int(parts.get("second") or 0)
    if int(parts.get("minute") or 0) > 59 or second > 59:
        raise CellFault("is no time: minutes and seconds go to 59")
    part = (parts.get("part") or b"")[:9].ljust(9, b"0")
    time = (minutes * 60 + second) * SECOND + int(part) - zone_of(parts.get("zone") or b"Z")
    return checked(time)


def hour_of(parts: dict[str, bytes]) -> int:
    """The hour of a day, of 24 or of 12 with AM or PM."""
    if parts.get("hour12"):
        hour = int(parts["hour12"])
        if not 1 <= hour <= 12:
            raise ValueError("hour")
        return hour % 12 + (12 if parts["half"].upper() == b"PM" else 0)
    hour = int(parts.get("hour") or 0)
    if hour > 23:
        raise ValueError("hour")
    return hour


def zone_of(text: bytes) -> int:
    """How far a zone is ahead of UTC, in nanoseconds."""
    if text == b"Z":
        return 0
    digits = text[1:].replace(b":", b"")
    minutes = int(digits[:2]) * 60 + int(digits[2:])
    return (-minutes if text.startswith(b"-") else minutes) * 60 * SECOND


def time_text(time: int, kind: TimeKind) -> str:
    """A time as a text: ISO 8601 without zone, or seconds."""
    seconds, part = divmod(time, SECOND)
    fraction = f".{part:09}".rstrip("0").rstrip(".")
    if kind is TimeKind.ELAPSED:
        if time < 0 and part:
            return "-" + time_text(-time, kind)
        return f"{seconds}{fraction}"
    days, second = divmod(seconds, 86400)
    day = date.fromordinal(days + EPOCH).isoformat()
    return f"{day}T{second // 3600:02}:{second // 60 % 60:02}:{second % 60:02}{fraction}"


def time_from_text(text: str, kind: TimeKind) -> int:
    """The time that `time_text` wrote; raises CellFault for another text."""
    if kind is TimeKind.ELAPSED:
        return ElapsedTimes(Fraction(1), b".").read(text.encode())
    return ClockTimes("%Y-%m-%dT%H:%M:%S").read(text.encode())


def find_clock(cell: bytes) -> str | None:
    """The format of a cell that has a date and a time of day, or a time of day alone."""
    for form in (*CLOCK_FORMATS, "%H:%M:%S"):
        if pattern_of(form).fullmatch(cell.strip(b" \t")):
            return form
    return None
