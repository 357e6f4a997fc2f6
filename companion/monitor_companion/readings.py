"""Cells of an export become raw values, exactly: a reading is a whole number of steps."""

from __future__ import annotations

import re
from array import array
from collections import Counter
from collections.abc import Iterable
from dataclasses import dataclass
from fractions import Fraction
from operator import itemgetter

from monitor_companion.recording import GREATEST, LEAST, MISSING
from monitor_companion.wording import decimal_text

NUMBER = re.compile(rb"([+-]?)(\d*)(?:\.(\d*))?(?:[eE]([+-]?\d{1,3}))?")
LONGEST_CELL = 60
MOST_MEMORIES = 200_000
SUSPECTS = (-9999, 9999, -99999, 99999)
"""Readings that loggers often write for none; they are told, and taken as readings."""


class CellFault(Exception):
    """Why a cell can't be taken; the caller knows its place."""


@dataclass(frozen=True)
class Decimal10:
    """The number `digits * 10 ** exponent`."""

    digits: int
    exponent: int

    def fraction(self) -> Fraction:
        """The number as a fraction."""
        return Fraction(self.digits) * Fraction(10) ** self.exponent


def decimal_number(text: bytes, decimal: bytes) -> Decimal10:
    """Reads a decimal number, with `decimal` (a point or a comma) before its fraction.

    Raises CellFault where it is none.
    """
    if decimal != b".":
        if b"." in text:
            raise CellFault("is no number with a decimal comma")
        text = text.replace(decimal, b".")
    found = NUMBER.fullmatch(text)
    if found is None or len(text) > LONGEST_CELL:
        raise CellFault("is no number" if len(text) <= LONGEST_CELL else "is too long for a number")
    sign, whole, part, exponent = found.groups()
    digits = whole + (part or b"")
    if not digits:
        raise CellFault("is no number")
    return Decimal10(int(sign + digits), int(exponent or 0) - len(part or b""))


def whole_numbers(cells: list[bytes], decimal: bytes) -> tuple[array[int], int] | None:
    """Reads cells that all have the same number of decimals, in bulk.

    Answers the numbers without their point, and how many decimals they have. None says that
    something is unusual, and that the cells have to be read one by one; a cell that isn't a number
    is never answered. There is at least one cell.
    """
    joined = b"\n".join(cells) + b"\n"
    if joined.translate(None, b"0123456789+- \n" + decimal) or b" \n" in joined:
        return None
    decimals = len(cells[0].partition(decimal)[2])
    points = joined.count(decimal)
    if decimals == 0:
        if points:
            return None
    else:
        # Without its point, ".-5" or ". 5" would be taken for a number.
        if points != len(cells) or any(decimal + after in joined for after in (b"-", b"+", b" ")):
            return None
        if set(map(itemgetter(slice(-decimals - 1, -decimals)), cells)) != {decimal}:
            return None
        joined = joined.replace(decimal, b"")
    try:
        return array("q", map(int, joined[:-1].split(b"\n"))), decimals
    except (ValueError, OverflowError):
        return None


@dataclass(frozen=True)
class Missing:
    """The spellings of "no reading": texts in any case, and numbers by their value."""

    texts: frozenset[bytes]
    numbers: frozenset[Fraction]


def missing_spellings(spellings: tuple[str, ...], encoding: str) -> Missing:
    """Sorts spellings into texts, in the bytes of an export, and numbers."""
    texts, numbers = set(), set()
    for spelling in spellings:
        try:
            numbers.add(decimal_number(spelling.strip().encode(), b".").fraction())
        except CellFault:
            texts.add(spelling.strip().encode(encoding, "replace").lower())
    return Missing(frozenset(texts), frozenset(numbers))


class SampleCells(dict[bytes, int]):
    """What the cells of one column come to: a memory from cells to raw values.

    Readings of a converter repeat, so most cells are looked up. A cell that isn't remembered is
    read, checked and remembered; `samples` reads many.
    """

    def __init__(self, step: Fraction, decimal: bytes, missing: Missing, rounding: bool) -> None:
        """`step` is what 1 in the recording means, in the column's unit; it is above 0."""
        super().__init__()
        self._step = step
        self._decimal = decimal
        self._missing = missing
        self._rounding = rounding
        self._plain = re.compile(rb"([+-]?\d{1,20})(?:" + re.escape(decimal) + rb"(\d{1,18}))?")
        self._scales: list[tuple[int, int]] = [
            (step.denominator, step.numerator * 10**places) for places in range(19)
        ]
        self._inexact: set[bytes] = set()
        self._spelled: dict[bytes, str] = {}
        self._many = False
        self._misses = 0
        self._suspects = suspects_of(step)
        self.spellings: Counter[str] = Counter()
        self.suspected: Counter[int] = Counter()
        self.missing = 0
        self.rounded = 0
        self.furthest = Fraction(0)

    def __missing__(self, cell: bytes) -> int:
        self._misses += 1
        plain = self._plain.fullmatch(cell)
        value = MISSING if plain is None else self._plain_value(*plain.groups(b""))
        if value == MISSING:
            value = self.read(cell)
        self[cell] = value
        return value

    def _plain_value(self, whole: bytes, part: bytes) -> int:
        """The raw value of a plain number, or MISSING for what has to be looked at."""
        above, below = self._scales[len(part)]
        raw, rest = divmod(int(whole + part) * above, below)
        return MISSING if rest or not LEAST <= raw <= GREATEST or self._missing.numbers else raw

    def read(self, cell: bytes) -> int:
        """The raw value of a cell; raises CellFault where it has none."""
        text = cell.strip(b" \t")
        if text.lower() in self._missing.texts:
            self._spelled[cell] = text.decode("latin-1")
            return MISSING
        number = decimal_number(text, self._decimal)
        if self._missing.numbers and number.fraction() in self._missing.numbers:
            self._spelled[cell] = text.decode("latin-1")
            return MISSING
        above: int = number.digits * self._step.denominator * 10 ** max(number.exponent, 0)
        below: int = self._step.numerator * 10 ** max(-number.exponent, 0)
        raw, rest = divmod(above, below)
        if rest:
            raw = self._round(cell, above, below)
        if not LEAST <= raw <= GREATEST:
            raise CellFault(f"is {raw} steps of {decimal_text(self._step)}, too many for a recording")
        return raw

    def _round(self, cell: bytes, above: int, below: int) -> int:
        """The nearest whole number of steps, the even one of two; refused unless rounding is on."""
        if not self._rounding:
            raise CellFault(f"is no whole number of steps of {decimal_text(self._step)}")
        exact = Fraction(above, below)
        nearest: int = round(exact)
        self._inexact.add(cell)
        self.furthest = max(self.furthest, abs(exact - nearest) * self._step)
        return nearest

    def samples(self, cells: list[bytes]) -> array[int]:
        """The raw values of many cells; raises CellFault where one has none."""
        found = self._bulk(cells) if self._many else None
        if found is None:
            if len(self) >= MOST_MEMORIES:
                self.clear()
                self._inexact.clear()
            before = self._misses
            found = array("i", map(self.__getitem__, cells))
            # Where cells hardly repeat from piece to piece, the next ones are tried in bulk first.
            self._many = before > 0 and self._misses - before > len(cells) // 4
            if self._inexact:
                self.rounded += sum(map(self._inexact.__contains__, cells))
        self._account(cells, found)
        return found

    def _account(self, cells: list[bytes], found: array[int]) -> None:
        """Counts the spellings of no reading, and readings that may mean none."""
        if holds(found, MISSING):
            self.missing += found.count(MISSING)
            for cell, spelling in self._spelled.items():
                self.spellings[spelling] += cells.count(cell)
        self.account_suspects(found)

    def account_suspects(self, found: array[int]) -> None:
        """Counts the readings that may mean none."""
        for reading, raw in self._suspects:
            if holds(found, raw):
                self.suspected[reading] += found.count(raw)

    def _bulk(self, cells: list[bytes]) -> array[int] | None:
        """The raw values of cells that are all exact readings of one form, or None."""
        found = whole_numbers(cells, self._decimal)
        return None if found is None else self.of_numbers(*found)

    def of_numbers(self, numbers: Iterable[int], decimals: int) -> array[int] | None:
        """The raw values of numbers with so many decimals.

        None says that a reading isn't a whole number of steps, means none, or has no room: then
        they have to be looked at one by one. Nothing is counted here.
        """
        if self._missing.numbers:
            return None
        factor = Fraction(self._step.denominator, self._step.numerator * 10**decimals)
        above, below = factor.numerator, factor.denominator
        try:
            if above != 1:
                numbers = [number * above for number in numbers]
            if below != 1:
                numbers = list(numbers)
                if any(number % below for number in numbers):
                    return None
                numbers = [number // below for number in numbers]
            raws = array("i", numbers)
        except OverflowError:
            return None
        return None if holds(raws, MISSING) else raws


def holds(samples: array[int], raw: int) -> bool:
    """Whether a raw value is among samples; bytes are searched faster than numbers."""
    # (The bytes may also stand across two samples.)
    return array("i", (raw,)).tobytes() in samples.tobytes() and raw in samples


def suspects_of(step: Fraction) -> tuple[tuple[int, int], ...]:
    """The suspect readings that are whole numbers of steps, with their raw values."""
    found = [(reading, Fraction(reading) / step) for reading in SUSPECTS]
    return tuple(
        (reading, raw.numerator)
        for reading, raw in found
        if raw.denominator == 1 and LEAST <= raw <= GREATEST
    )
