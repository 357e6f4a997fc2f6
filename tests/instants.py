"""Instants as words: what RFC 3339 writes of a whole number of nanoseconds since 1970, in the forms that docs/FORMATS.md allows."""

from __future__ import annotations

import random

# The earliest and the latest, in nanoseconds.
EARLIEST = -377_705_023_201_000_000_000
LATEST = 253_402_207_200_999_999_999
SECOND = 10**9
DAY = 86400
CYCLE_DAYS = 146097  # of 400 years


def date(day: int) -> tuple[int, int, int]:
    """The year, month and day of a number of days since 1970: year by year and month by month within a cycle of 400 years."""
    cycles, left = divmod(day, CYCLE_DAYS)
    year = 1970 + 400 * cycles
    while left >= days_of(year):
        left -= days_of(year)
        year += 1
    month = 1
    for length in (31, 28 + is_leap(year), 31, 30, 31, 30, 31, 31, 30, 31, 30, 31):
        if left < length:
            break
        left -= length
        month += 1
    return year, month, left + 1


def is_leap(year: int) -> int:
    return int(year % 4 == 0 and (year % 100 != 0 or year % 400 == 0))


def days_of(year: int) -> int:
    return 365 + is_leap(year)


def written(instant: int, offset: int = 0) -> str:
    """An instant, with a clock that is so many minutes ahead of UTC."""
    seconds, fraction = divmod(instant, SECOND)
    day, second = divmod(seconds + 60 * offset, DAY)
    year, month, day_of_month = date(day)
    years = "%04d" % year if 0 <= year <= 9999 else "%+07d" % year
    text = "%s-%02d-%02dT%02d:%02d:%02d" % (years, month, day_of_month, second // 3600, second // 60 % 60, second % 60)
    if fraction:
        text += ("." + "%09d" % fraction).rstrip("0")
    return text + ("Z" if offset == 0 else "%s%02d:%02d" % ("-" if offset < 0 else "+", *divmod(abs(offset), 60)))


def spelled(rng: random.Random, instant: int) -> str:
    """An instant in one of its spellings."""
    offset = rng.choice((0, 0, 0, 60, -300, 345, 1439, -1439))
    # (the year of the clock may have four digits, with a sign six)
    if not EARLIEST + 2 * DAY * SECOND <= instant <= LATEST - 2 * DAY * SECOND:
        offset = 0
    text = written(instant, offset)
    way = rng.randrange(6)
    if way == 0:
        return text.replace("T", "t").replace("Z", "z")
    if way == 1:
        return text.replace("T", " ").replace(".", ",")
    if way == 2:
        return text.replace("Z", "+00:00")
    return text


def words(rng: random.Random, *instants: int) -> list[str]:
    """The words behind `window`; one that begins with a dash stands behind `--`."""
    spellings = [spelled(rng, it) for it in instants]
    return ["--", *spellings] if any(it.startswith("-") for it in spellings) or rng.random() < 0.05 else spellings
