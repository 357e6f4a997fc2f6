"""Reads the samples of a recording in pieces, and counts what a check has to know of them.

Only `array` and built-in functions over whole pieces look at each sample, so some tens of megabytes
are read a second. With a limit, pieces are taken evenly from the whole recording.
"""

from __future__ import annotations

import bisect
import io
import sys
from array import array
from dataclasses import dataclass, field
from typing import TypeAlias

from monitor_companion.check_ends import look_at_end
from monitor_companion.check_heads import Recording
from monitor_companion.recording import GREATEST, HEAD_BYTES, LEAST, MISSING, SAMPLE_BYTES
from monitor_companion.site import Gauge, Grid

Values: TypeAlias = "array[int] | list[int]"

PIECE_SAMPLES = 1 << 18
# how many readings the resting value is taken from, at most
REST_SAMPLES = 200_000
# a zero is far from readings that are more classes away than these
FAR_CLASSES = 5
# a reading at an end is clipped where so many stand there, and so many times as many as beside it
CLIPPED_SAMPLES, CLIPPED_TIMES, LEAST_WIDTH = 20, 3, 100


@dataclass
class Readings:
    """What stands in a recording, as far as it was read; raw values throughout."""

    samples: int
    read: int = 0
    missing: int = 0
    lowest: int | None = None
    highest: int | None = None
    # readings below the classes and above them
    below: int = 0
    above: int = 0
    # how often the lowest and the highest reading stand there
    lowest_count: int = 0
    highest_count: int = 0
    # the middle one of the readings, of some taken evenly
    rest: int | None = None
    # the lowest and the highest but for one in a thousand at each end, likewise
    common: tuple[int, int] | None = None
    # the lowest above the lowest of all, and the highest below the highest of all, likewise
    inner: tuple[int, int] | None = None
    # the lowest and the highest stand there often, and those beside them hardly, likewise
    clipped: tuple[bool, bool] = (False, False)
    # zeros between readings that are far from 0
    lone_zeros: int = 0
    # as many samples at the end are one value
    still_end: int = 0
    # as many samples at the end are the same as those before
    repeated_end: int = 0
    _picked: list[int] = field(default_factory=list)

    @property
    def valid(self) -> int:
        """The readings that aren't missing."""
        return self.read - self.missing

    @property
    def refused(self) -> int:
        """The readings without a class."""
        return self.below + self.above

    @property
    def used(self) -> int:
        """The readings that have a class."""
        return self.valid - self.refused


def raw_limits(grid: Grid, gauge: Gauge) -> tuple[int, int]:
    """Returns the least and the greatest raw value that has a class; every other one is refused."""
    low, top = (grid.low - gauge.offset) * gauge.den, (grid.top - gauge.offset) * gauge.den
    if gauge.num == 0:
        least, greatest = (LEAST, GREATEST) if low <= 0 < top else (GREATEST + 1, GREATEST)
    elif gauge.num > 0:
        least, greatest = -(-low // gauge.num), -(-top // gauge.num) - 1
    else:
        least, greatest = -top // -gauge.num + 1, -low // -gauge.num
    return max(least, LEAST), min(greatest, GREATEST)


def scan(recording: Recording, grid: Grid | None, limit: int | None) -> Readings:
    """Reads the samples, at most so many bytes of them. Raises `OSError`."""
    readings = Readings(recording.samples)
    limits = raw_limits(grid, recording.gauge) if grid is not None else (LEAST, GREATEST)
    far = _far(grid, recording.gauge)
    places, length = _places(recording.samples, limit)
    stride = max(1, len(places) * length // REST_SAMPLES)
    with recording.path.open("rb", buffering=0) as file:
        for place in places:
            samples = _piece(file, place, min(length, recording.samples - place))
            values = _count(readings, samples, limits)
            readings._picked.extend(values[::stride])
            readings.lone_zeros += _lone_zeros(values, far)
    _settle(readings)
    if readings.valid and recording.samples:
        readings.still_end, readings.repeated_end = look_at_end(
            recording.path, recording.samples, limit
        )
    return readings


def _places(samples: int, limit: int | None) -> tuple[list[int], int]:
    """Returns the first sample of each piece that is read, and a piece's length in samples."""
    length = PIECE_SAMPLES
    pieces = -(-samples // length)
    if limit is None or samples * SAMPLE_BYTES <= limit:
        return [piece * length for piece in range(pieces)], length
    length = min(length, max(1, limit // (16 * SAMPLE_BYTES)))
    wanted = max(2, limit // (length * SAMPLE_BYTES))
    last = samples - length
    return [last * number // (wanted - 1) for number in range(wanted)], length


def _piece(file: io.FileIO, place: int, samples: int) -> array[int]:
    """Returns so many samples from a place on, or those that are there."""
    file.seek(HEAD_BYTES + place * SAMPLE_BYTES)
    content = file.read(samples * SAMPLE_BYTES)
    values = array("i")
    assert values.itemsize == SAMPLE_BYTES
    values.frombytes(content[: len(content) // SAMPLE_BYTES * SAMPLE_BYTES])
    if sys.byteorder == "big":
        values.byteswap()
    return values


def _far(grid: Grid | None, gauge: Gauge) -> int:
    """Returns the distance of raw values from which on they are far from each other."""
    if grid is None or gauge.num == 0:
        return GREATEST
    return FAR_CLASSES * grid.step * gauge.den // abs(gauge.num)


def _lone_zeros(values: Values, far: int) -> int:
    """Counts zeros whose neighbours are further away than that, where nearly all readings are."""
    if not values.count(0):
        return 0
    some = sorted(value for value in values[:: len(values) // 1000 + 1] if value)
    cut = len(some) // 100
    if not some or (some[cut] <= far and some[-1 - cut] >= -far):
        return 0
    lone, at = 0, -1
    while True:
        try:
            at = values.index(0, at + 1)
        except ValueError:
            return lone
        end = at + 1
        while end < len(values) and values[end] == 0:
            end += 1
        if 0 < at and end < len(values) and min(abs(values[at - 1]), abs(values[end])) > far:
            lone += end - at
        at = end - 1


def _count(readings: Readings, samples: array[int], limits: tuple[int, int]) -> Values:
    """Counts the samples of a piece, and returns its readings."""
    readings.read += len(samples)
    values: Values = samples
    missing = samples.count(MISSING)
    if missing:
        readings.missing += missing
        values = [value for value in samples if value != MISSING]
    if not values:
        return values
    lowest, highest = min(values), max(values)
    low, high = limits
    if lowest < low:
        readings.below += sum(1 for value in values if value < low)
    if highest > high:
        readings.above += sum(1 for value in values if value > high)
    _keep_ends(readings, values, lowest, highest)
    return values


def _keep_ends(readings: Readings, values: Values, lowest: int, highest: int) -> None:
    if readings.lowest is None or lowest < readings.lowest:
        readings.lowest, readings.lowest_count = lowest, 0
    if lowest == readings.lowest:
        readings.lowest_count += values.count(lowest)
    if readings.highest is None or highest > readings.highest:
        readings.highest, readings.highest_count = highest, 0
    if highest == readings.highest:
        readings.highest_count += values.count(highest)


def _settle(readings: Readings) -> None:
    """Takes the resting value and the common ends from the readings that were picked."""
    picked = sorted(readings._picked)
    readings._picked = []
    if picked:
        readings.rest = picked[(len(picked) - 1) // 2]
        cut = len(picked) // 1000
        readings.common = picked[cut], picked[len(picked) - 1 - cut]
        readings.clipped = _clipped(picked)
        readings.inner = _inner(picked, readings.lowest, readings.highest)


def _inner(picked: list[int], lowest: int | None, highest: int | None) -> tuple[int, int] | None:
    """Returns the ends of the sorted readings without the lowest and the highest value."""
    assert lowest is not None and highest is not None
    first, end = bisect.bisect_right(picked, lowest), bisect.bisect_left(picked, highest)
    return (picked[first], picked[end - 1]) if first < end else None


def _clipped(picked: list[int]) -> tuple[bool, bool]:
    """Returns whether the sorted readings end abruptly, below and above."""
    lowest, highest, rest = picked[0], picked[-1], picked[(len(picked) - 1) // 2]
    width = highest - lowest
    if width < LEAST_WIDTH:
        return False, False
    beside = width // 50
    first, last = bisect.bisect_right(picked, lowest), bisect.bisect_left(picked, highest)
    near_first = bisect.bisect_right(picked, lowest + beside) - first
    near_last = last - bisect.bisect_left(picked, highest - beside)
    # A gauge that rests at an end, as one that is only pressed, isn't clipped there.
    return (
        (rest - lowest) * 4 > width and _abrupt(first, near_first),
        (highest - rest) * 4 > width and _abrupt(len(picked) - last, near_last),
    )


def _abrupt(at_end: int, beside: int) -> bool:
    return at_end >= CLIPPED_SAMPLES and at_end >= CLIPPED_TIMES * beside
