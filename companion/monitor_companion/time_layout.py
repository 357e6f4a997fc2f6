"""Where an export has its times, and how they are written."""

from __future__ import annotations

from dataclasses import dataclass

from monitor_companion.dialects import Dialect
from monitor_companion.head_rows import LIKE_NUMBER, Row, find_names, unit_of
from monitor_companion.profiles import FIND, TimeProfile
from monitor_companion.refusals import Place, Refusal
from monitor_companion.times import UNITS, ClockTimes, ElapsedTimes, TimeReader, find_clock


@dataclass(frozen=True)
class TimePlan:
    """The columns of the times, read as one, and how; places count from 0."""

    places: tuple[int, ...]
    title: str
    form: str
    reader: TimeReader


@dataclass(frozen=True)
class TimedRows:
    """What the times are found by: names, the row of units below them, the first row."""

    file: str
    dialect: Dialect
    names: list[str]
    units: list[bytes]
    first: Row | None

    def refusal(self, why: str) -> Refusal:
        """A refusal of the export's first row."""
        return Refusal(Place(self.file, None if self.first is None else self.first.place + 1), why)


def find_times(rows: TimedRows, profile: TimeProfile) -> TimePlan | None:
    """The plan of the times; None where the export has none, and may have none."""
    folded = [name.casefold() for name in rows.names]
    for names in profile.columns:
        places = [time_places(name, folded) for name in names]
        if not all(places):
            continue
        for name, found in zip(names, places, strict=True):
            if len(found) > 1:
                raise rows.refusal(
                    f"the column of times {name!r} stands twice: say --time '#PLACE'"
                )
        return time_plan(rows, profile, tuple(found[0] for found in places))
    if profile.required:
        known = ", ".join(" and ".join(column) for column in profile.columns)
        raise rows.refusal(f"has no column of times ({known}): say --time or --no-time")
    return None


def time_places(name: str, folded: list[str]) -> list[int]:
    """The places of a column of times, by its name in any case, or by its place."""
    if name.startswith("#") and name[1:].isdecimal():
        return [int(name[1:]) - 1] if 0 < int(name[1:]) <= len(folded) else []
    return find_names(folded, name.casefold())


def time_plan(rows: TimedRows, profile: TimeProfile, places: tuple[int, ...]) -> TimePlan:
    """How the times of these columns are read."""
    title = " ".join(rows.names[place] for place in places)
    form = profile.format if profile.format != FIND else found_form(rows, places, title)
    if form in UNITS:
        return TimePlan(places, title, form, ElapsedTimes(UNITS[form], rows.dialect.decimal))
    return TimePlan(places, title, form, ClockTimes(form))


def found_form(rows: TimedRows, places: tuple[int, ...], title: str) -> str:
    """The unit of the times, or the format of the first one."""
    row = rows.first
    if row is None:
        return "s"
    if max(places) >= len(row.cells):
        raise rows.refusal(f"the row ends before the column {title}")
    cell = b" ".join(row.cells[place] for place in places)
    if not LIKE_NUMBER.fullmatch(cell):
        clock = find_clock(cell)
        if clock is None:
            place = Place(rows.file, row.place + 1, title, rows.dialect.text(cell))
            raise Refusal(place, "is no time of a known form: say --time-format or --no-time")
        return clock
    unit = unit_of(title)
    if not unit and places[0] < len(rows.units):
        unit = rows.dialect.text(rows.units[places[0]]).strip(" \t[]()")
    if unit and unit not in UNITS:
        raise rows.refusal(f"the column {title} counts in {unit!r}: say --time-format")
    return unit or "s"
