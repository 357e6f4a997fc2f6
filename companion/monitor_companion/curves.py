"""Damage by EN 1993-1-9:2005, section 7 and Annex A, exactly, by the rules in docs/RULES.md.

A range is a stress range in N/mm² before the partial factor. All numbers are fractions.
"""

from __future__ import annotations

from collections.abc import Iterable
from dataclasses import dataclass
from enum import Enum
from fractions import Fraction
from functools import cached_property

from monitor_companion.report import RangeCount

REFERENCE_CYCLES = 2_000_000
KNEE_CYCLES = 5_000_000
KNEE = Fraction(737, 1000)
NORMAL_CUT_OFF = Fraction(549, 1000)
SHEAR_CUT_OFF = Fraction(457, 1000)
# The partial factors of table 3.1, in hundredths.
PARTIAL_FACTORS = (100, 115, 135)


class Kind(Enum):
    """The kind of stress whose ranges damage a detail."""

    NORMAL = "normal"
    SHEAR = "shear"


CATEGORIES = {
    Kind.NORMAL: (160, 140, 125, 112, 100, 90, 80, 71, 63, 56, 50, 45, 40, 36),
    Kind.SHEAR: (100, 80),
}


@dataclass(frozen=True)
class Curve:
    """The fatigue strength curve of a detail: category in N/mm², partial factor in hundredths."""

    kind: Kind
    category: int
    gamma: int

    @cached_property
    def factor(self) -> Fraction:
        """The partial factor."""
        return Fraction(self.gamma, 100)

    @property
    def words(self) -> str:
        """The curve in words, such as `normal 80, factor 1.15`."""
        factor = f"{self.gamma // 100}.{self.gamma % 100:02}"
        return f"{self.kind.value} {self.category}, factor {factor}"

    @cached_property
    def knee(self) -> Fraction | None:
        """The range in N/mm² from which the slope is 3; shear stress has none."""
        return KNEE * self.category / self.factor if self.kind is Kind.NORMAL else None

    @cached_property
    def cut_off(self) -> Fraction:
        """The range in N/mm² below which there is no damage."""
        if self.kind is Kind.SHEAR:
            return SHEAR_CUT_OFF * self.category / self.factor
        return NORMAL_CUT_OFF * KNEE * self.category / self.factor

    @property
    def denominator(self) -> int:
        """The denominator of every damage that the program prints of such a detail."""
        forty: int = 40 * self.category
        if self.kind is Kind.SHEAR:
            return int(4_000_000 * forty**5)
        return int(2500 * (737 * forty) ** 5)

    def slope(self, stress_range: Fraction) -> int | None:
        """The slope that holds at a range, or None below the cut-off limit."""
        if stress_range < self.cut_off:
            return None
        return 3 if self.knee is not None and stress_range >= self.knee else 5

    def endurance(self, stress_range: Fraction) -> Fraction | None:
        """The cycles of a range that use up the whole life; None where no number does."""
        slope = self.slope(stress_range)
        factored = stress_range * self.factor
        if slope is None:
            return None
        if self.kind is Kind.NORMAL and slope == 5:
            return KNEE_CYCLES * (KNEE * self.category / factored) ** 5
        return REFERENCE_CYCLES * (self.category / factored) ** slope


@dataclass(frozen=True)
class RangeDamage:
    """The damage that the cycles of one range do: range in N/mm², cycles, and their damage."""

    stress_range: Fraction
    cycles: Fraction
    endurance: Fraction | None
    damage: Fraction


def damage_by_range(curve: Curve, rainflow: Iterable[RangeCount]) -> tuple[RangeDamage, ...]:
    """The damage of each row of a rainflow table, in the order of the table."""
    return tuple(_range_damage(curve, row) for row in rainflow)


def _range_damage(curve: Curve, row: RangeCount) -> RangeDamage:
    stress_range, cycles = Fraction(row.half_stress, 2), Fraction(row.half_units, 2)
    endurance = curve.endurance(stress_range)
    damage = Fraction(0) if endurance is None else cycles / endurance
    return RangeDamage(stress_range, cycles, endurance, damage)


def total_damage(rows: Iterable[RangeDamage]) -> Fraction:
    """The sum of the damage of all ranges (Annex A)."""
    return sum((row.damage for row in rows), Fraction(0))
