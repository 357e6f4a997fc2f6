"""Profiles: how the exports of a logger are written, as TOML files."""

from __future__ import annotations

import tomllib
from dataclasses import dataclass, field
from decimal import Decimal, InvalidOperation
from fractions import Fraction
from pathlib import Path
from typing import Any

from monitor_companion.dialects import DECIMALS, ENCODING_NAMES, SEPARATORS
from monitor_companion.refusals import Place, Refusal
from monitor_companion.times import UNITS, ClockTimes

FOLDER = Path(__file__).parent / "profiles"
PLAIN = "csv"
FIND = "find"


@dataclass(frozen=True)
class ColumnChoice:
    """Which column goes to a gauge: a name, or a place such as `#2`."""

    column: str
    gauge: str
    step: Fraction | None = None


@dataclass(frozen=True)
class TimeProfile:
    """Where the times stand, and how they are written."""

    columns: tuple[tuple[str, ...], ...] = ()
    format: str = FIND
    required: bool = False
    begins_again: bool = False


@dataclass(frozen=True)
class Profile:
    """How the exports of a logger are written; `find` means by the export itself."""

    name: str
    encoding: str
    separator: str
    decimal: str
    quote: str
    names: int | None
    names_after: str
    units: int | None
    last_may_lack: bool
    missing: tuple[str, ...]
    time: TimeProfile
    columns: tuple[ColumnChoice, ...] = field(default=())


def built_in() -> list[str]:
    """The names of the profiles that the package has."""
    return sorted(path.stem for path in FOLDER.glob("*.toml"))


def load_profile(name: str) -> Profile:
    """Reads a profile of the package by its name, or a file by its path."""
    path = Path(name)
    if name in built_in():
        path = FOLDER / f"{name}.toml"
    elif not path.is_file():
        raise Refusal(
            Place(name), f"is no profile and no file; profiles are {', '.join(built_in())}"
        )
    plain = read_toml(FOLDER / f"{PLAIN}.toml")
    return ProfileReader(path, {**plain, **read_toml(path)}, plain).profile(name)


def read_toml(path: Path) -> dict[str, Any]:
    """Reads a TOML file, numbers with a point as decimals."""
    try:
        return tomllib.loads(path.read_text("utf-8"), parse_float=Decimal)
    except (tomllib.TOMLDecodeError, UnicodeDecodeError) as error:
        raise Refusal(Place(str(path)), f"is no TOML: {error}") from error


def read_step(text: object, place: Place) -> Fraction:
    """A step: a decimal number above 0, as a text or a number."""
    try:
        step = Fraction(Decimal(str(text)))
    except (InvalidOperation, ValueError, OverflowError) as error:
        raise Refusal(place, f"the step {text!r} is no decimal number") from error
    if step <= 0 or max(step.numerator, step.denominator) > 10**18:
        raise Refusal(place, f"the step {text!r} isn't above 0, or needs more than 18 digits")
    return step


class ProfileReader:
    """Reads the keys of a profile; what is unknown or of another kind is refused."""

    def __init__(self, path: Path, table: dict[str, Any], plain: dict[str, Any]) -> None:
        self._path = path
        self._table = table
        self._plain = plain
        unknown = set(table) - {*plain, "columns"}
        if unknown:
            raise self._refusal(f"unknown key {sorted(unknown)[0]}")

    def _refusal(self, why: str) -> Refusal:
        return Refusal(Place(str(self._path)), why)

    def _one_of(self, key: str, allowed: list[str]) -> str:
        value = self._table[key]
        if value not in allowed:
            raise self._refusal(f"{key} is {value!r}; allowed are {', '.join(allowed)}")
        return str(value)

    def _count(self, key: str) -> int | None:
        value = self._table[key]
        if value == FIND:
            return None
        if type(value) is not int or not 0 <= value <= 1000:
            raise self._refusal(f"{key} is {value!r}; allowed are {FIND!r} and 0 to 1000")
        return value

    def _of_kind(self, table: dict[str, Any], key: str, kind: type) -> Any:
        value = table[key]
        if type(value) is not kind:
            raise self._refusal(f"{key} is {value!r}, and has to be of the kind {kind.__name__}")
        return value

    def _texts(self, table: dict[str, Any], key: str) -> tuple[str, ...]:
        values = self._of_kind(table, key, list)
        if not all(isinstance(value, str) for value in values):
            raise self._refusal(
                f"{key} has something that is no text; numbers stand in quotes"
            )
        return tuple(values)

    def profile(self, name: str) -> Profile:
        """The whole profile."""
        quote = self._of_kind(self._table, "quote", str)
        if len(quote) > 1 or not quote.isascii():
            raise self._refusal(f"quote is {quote!r}; it is one ASCII character, or empty")
        return Profile(
            name=name,
            encoding=self._one_of("encoding", [FIND, *ENCODING_NAMES]),
            separator=self._one_of("separator", [FIND, *SEPARATORS]),
            decimal=self._one_of("decimal", [FIND, *DECIMALS]),
            quote=quote,
            names=self._count("names"),
            names_after=self._of_kind(self._table, "names_after", str),
            units=self._count("units"),
            last_may_lack=self._of_kind(self._table, "last_may_lack", bool),
            missing=self._texts(self._table, "missing"),
            time=self._time(),
            columns=self._columns(),
        )

    def _time(self) -> TimeProfile:
        given = self._of_kind(self._table, "time", dict)
        unknown = set(given) - set(self._plain["time"])
        if unknown:
            raise self._refusal(f"unknown key time.{sorted(unknown)[0]}")
        table = {**self._plain["time"], **given}
        columns = []
        for column in self._of_kind(table, "columns", list):
            names = column if isinstance(column, list) else [column]
            if not names or not all(isinstance(name, str) for name in names):
                raise self._refusal("time.columns has something that is no name")
            columns.append(tuple(names))
        form = self._of_kind(table, "format", str)
        try:
            check_time_format(form)
        except ValueError as error:
            raise self._refusal(str(error)) from error
        return TimeProfile(
            columns=tuple(columns),
            format=form,
            required=self._of_kind(table, "required", bool),
            begins_again=self._of_kind(table, "begins_again", bool),
        )

    def _columns(self) -> tuple[ColumnChoice, ...]:
        columns = self._table.get("columns", {})
        if not isinstance(columns, dict):
            raise self._refusal("columns is no table")
        choices = []
        for column, table in columns.items():
            if (
                not isinstance(table, dict)
                or set(table) - {"gauge", "step"}
                or "gauge" not in table
            ):
                raise self._refusal(
                    f"columns.{column} has to have gauge, may have step, no more"
                )
            step = read_step(table["step"], Place(str(self._path))) if "step" in table else None
            choices.append(ColumnChoice(column, self._of_kind(table, "gauge", str), step))
        return tuple(choices)


def check_time_format(form: str) -> None:
    """Raises ValueError for what is no unit and no format of times."""
    if form == FIND or form in UNITS:
        return
    if "%" not in form:
        raise ValueError(f"the time format {form!r} is no unit ({', '.join(UNITS)}) and has no %")
    ClockTimes(form)
