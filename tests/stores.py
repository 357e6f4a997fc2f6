"""The bytes of stores, from docs/FORMATS.md and docs/RULES.md alone: those of a store that holds given samples, and what stands in one.

A body is counted from all its samples at once, by the four-point method over the whole list. Nothing is joined.
"""

from __future__ import annotations

import dataclasses
import hashlib
import struct
from collections.abc import Iterator, Sequence

from model import Count, Grid, turning_points

OPEN, CLOSED = b"\x01", b"\x00"
MAGIC = b"SGST"
FRONT, GAUGE, DIGEST = 22, 40, 32
BODY_FRONT = struct.Struct(">HQQQQQQ")
Gain = tuple[int, int, int]


@dataclasses.dataclass(frozen=True)
class Head:
    """What a store is made for: the classes, and of each gauge the gain, the id and the period of its recording."""

    grid: Grid
    gains: Sequence[Gain]
    ids: Sequence[bytes]
    periods: Sequence[int]
    version: int = 2

    def data(self) -> bytes:
        """Its bytes, up to the first gate."""
        grid = self.grid
        data = OPEN + MAGIC + struct.pack(">BHHHqH", self.version, len(self.gains), grid.classes, grid.width, grid.low, grid.reference)
        for (num, den, offset), identity, period in zip(self.gains, self.ids, self.periods, strict=True):
            data += identity + struct.pack(">IqIq", period, num, den, offset)
        return data


@dataclasses.dataclass(frozen=True)
class Name:
    """Which samples of a gauge a body stands for: from the first one to the end."""

    gauge: int
    first: int
    end: int


def four_point(points: Sequence[int]) -> tuple[list[int], dict[tuple[int, int], int]]:
    """The residue of a list of points, and the cycles by pair: of four points one after another of which the middle range is not
    greater than either of its neighbours the two in the middle are a cycle, until there are none such."""
    left = list(points)
    cycles: dict[tuple[int, int], int] = {}
    i = 0
    while i + 3 < len(left):
        a, b, c, d = left[i : i + 4]
        if abs(b - c) <= abs(a - b) and abs(b - c) <= abs(c - d):
            pair = (min(b, c), max(b, c))
            cycles[pair] = cycles.get(pair, 0) + 1
            del left[i + 1 : i + 3]
            # Only fours that have a new neighbour may be such now.
            i = max(0, i - 2)
        else:
            i += 1
    return left, cycles


def ends(points: Sequence[int]) -> tuple[int, int, int, int]:
    """The first two points and the last two; a place without a point has 0."""
    if len(points) < 2:
        only = points[0] if points else 0
        return only, 0, 0, only
    return points[0], points[1], points[-2], points[-1]


def entries(counts: dict[int, int]) -> bytes:
    """A list of keys and counts."""
    return struct.pack(">H", len(counts)) + b"".join(struct.pack(">HQ", key, counts[key]) for key in sorted(counts))


def cells(cycles: dict[tuple[int, int], int], layout: int) -> bytes:
    """The list of the full cycles: cell by cell, or row by row."""
    if layout == 1:
        return struct.pack(">I", len(cycles)) + b"".join(struct.pack(">HHQ", lo, hi, n) for (lo, hi), n in sorted(cycles.items()))
    rows = sorted({lo for lo, _ in cycles})
    data = struct.pack(">H", len(rows))
    for row in rows:
        part = sorted((hi, n) for (lo, hi), n in cycles.items() if lo == row)
        data += struct.pack(">HH", row, len(part)) + b"".join(struct.pack(">HQ", hi, n) for hi, n in part)
    return data


def body(name: Name, count: Count, layout: int = 2) -> bytes:
    """The body of these samples."""
    points = turning_points(count.levels)
    residue, cycles = four_point(points)
    used = len(count.levels)
    data = BODY_FRONT.pack(name.gauge, name.first, name.end, used, count.missing, count.samples - used - count.missing, len(points))
    data += struct.pack(">4HH", *ends(points), len(residue)) + struct.pack(f">{len(residue)}H", *residue)
    data += cells(cycles, layout)
    for counts in (count.crossings(), count.extremes(True), count.extremes(False), count.simple_ranges()):
        data += entries(counts)
    return data


def framed(data: bytes) -> bytes:
    """A body behind its open gate, with its length before it and its digest behind it."""
    data = struct.pack(">I", len(data)) + data
    return OPEN + data + hashlib.sha256(data).digest()


def store(head: Head, bodies: Sequence[bytes]) -> bytes:
    """A store that has these bodies, and ends with its closed gate."""
    return b"".join((head.data(), *map(framed, bodies), CLOSED))


def copy(head: Head, counts: Sequence[Count]) -> bytes:
    """The compact copy of a store that holds what was counted here of each gauge."""
    named = ((Name(gauge, 0, count.samples), count) for gauge, count in enumerate(counts) if count.samples)
    return store(dataclasses.replace(head, version=2), [body(name, count) for name, count in named])


def names(image: bytes) -> Iterator[Name]:
    """The names of the bodies of a sound store, in order."""
    place = FRONT + GAUGE * int(struct.unpack(">H", image[6:8])[0])
    while image[place : place + 1] == OPEN:
        length = struct.unpack(">I", image[place + 1 : place + 5])[0]
        yield Name(*BODY_FRONT.unpack(image[place + 5 : place + 5 + BODY_FRONT.size])[:3])
        place += 5 + length + DIGEST


def names_of(image: bytes, gauge: int) -> list[tuple[int, int]]:
    """From where to where each body of a gauge goes."""
    return [(name.first, name.end) for name in names(image) if name.gauge == gauge]
