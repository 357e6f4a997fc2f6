"""What a rainflow matrix tells of the history that it was counted of.

A cycle has two half units and a range of the residue one, so a pair of levels with an odd number is
a range of the residue. The ranges of a residue grow strictly and then shrink strictly
(docs/RULES.md), so from the greatest outwards each goes on at one of two ends, and a pair stands
there once, or at both ends. The greatest is the pair of the lowest and the highest level. What is
left open is which end comes first: a history backwards has the same matrix.
"""

from __future__ import annotations

from collections import Counter
from collections.abc import Iterable, Sequence
from dataclasses import dataclass
from typing import NamedTuple

from monitor_companion.report import PairCount


class End(NamedTuple):
    """An end of a residue: its level, and whether it is the upper end of its range."""

    level: int
    is_top: bool


Ends = tuple[End, End]


@dataclass(frozen=True)
class Counts:
    """The numbers by boundary and by level that a report prints of a history."""

    crossings: dict[int, int]
    peaks: dict[int, int]
    valleys: dict[int, int]


def possible_counts(matrix: Sequence[PairCount], reference: int) -> list[Counts]:
    """All counts that a history with this matrix may have; none where there is no such history."""
    if not matrix:
        return [Counts({}, {}, {})]
    tops: Counter[int] = Counter()
    bottoms: Counter[int] = Counter()
    for pair in matrix:
        tops[pair.upper] += pair.half_units
        bottoms[pair.lower] += pair.half_units
    crossings = [_crossings(tops, bottoms, is_rising, reference) for is_rising in (True, False)]
    return [
        Counts(each, *_extremes(tops, bottoms, ends, reference))
        for ends in _possible_ends(matrix)
        for each in crossings
    ]


def _possible_ends(matrix: Sequence[PairCount]) -> set[Ends]:
    """Where the residue of a history with this matrix may begin and end, in either order."""
    lowest, highest = min(pair.lower for pair in matrix), max(pair.upper for pair in matrix)
    greatest, *others = sorted(matrix, key=lambda pair: pair.lower - pair.upper)
    if (greatest.lower, greatest.upper) != (lowest, highest):
        return set()
    bottom, top = End(lowest, False), End(highest, True)
    # Two equal greatest ranges are neighbours.
    is_once = greatest.half_units % 2 == 1
    ends: set[Ends] = {(bottom, top)} if is_once else {(bottom, bottom), (top, top)}
    # The others shrink; two of one size at one end would be the same pair.
    for pair in others:
        if pair.half_units % 2:
            ends = {each for before in ends for each in _at_one_end(before, pair)}
        else:
            ends |= {each for before in ends for each in _at_both_ends(before, pair)}
    return ends


def _at_one_end(ends: Ends, pair: PairCount) -> Iterable[Ends]:
    """The ends behind one more range, at one of them or at the other."""
    for end, other in (ends, ends[::-1]):
        behind = _behind(end, pair)
        if behind is not None:
            yield _ordered(behind, other)


def _at_both_ends(ends: Ends, pair: PairCount) -> Iterable[Ends]:
    """The ends behind one more range at each of them."""
    first, second = (_behind(end, pair) for end in ends)
    if first is not None and second is not None:
        yield _ordered(first, second)


def _behind(end: End, pair: PairCount) -> End | None:
    """The end behind a range that begins at an end, or None where it doesn't go on there."""
    if end.level != (pair.upper if end.is_top else pair.lower):
        return None
    return End(pair.lower if end.is_top else pair.upper, not end.is_top)


def _ordered(one: End, other: End) -> Ends:
    return (one, other) if one <= other else (other, one)


def _crossings(
    tops: Counter[int], bottoms: Counter[int], is_rising: bool, reference: int
) -> dict[int, int]:
    """The crossings of a history whose last point lies above its first one, or doesn't.

    Each half unit crosses the boundaries between its levels. Up and down differ by one where the
    history ends on the other side of a boundary.
    """
    counts: dict[int, int] = {}
    crossed = 0
    for boundary in range(min(bottoms) + 1, max(tops) + 1):
        crossed += bottoms[boundary - 1] - tops[boundary - 1]
        is_more = is_rising == (boundary >= reference)
        counts[boundary] = (crossed + (crossed % 2 if is_more else -(crossed % 2))) // 2
    return {boundary: times for boundary, times in counts.items() if times}


def _extremes(
    tops: Counter[int], bottoms: Counter[int], ends: Ends, reference: int
) -> tuple[dict[int, int], dict[int, int]]:
    """The peaks and valleys: two half units end at each, and one at an end of the history."""
    tops, bottoms = tops.copy(), bottoms.copy()
    for end in ends:
        (tops if end.is_top else bottoms)[end.level] -= 1
    return (
        {level: units // 2 for level, units in tops.items() if level >= reference and units > 0},
        {level: units // 2 for level, units in bottoms.items() if level < reference and units > 0},
    )
