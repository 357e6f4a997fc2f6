"""Whether a report agrees with itself and with its configuration.

A report says most of its numbers more than once: the rainflow table is the matrix by range; the
matrix tells crossings, peaks and valleys, but for the direction of the history; and the simple
ranges have its number of half units and its sum of ranges. The damage of each detail is that of
the table. What differs is refused with its line.
"""

from __future__ import annotations

from collections import Counter
from dataclasses import dataclass

from monitor_companion.curves import RangeDamage, damage_by_range, total_damage
from monitor_companion.refusals import Place, Refusal
from monitor_companion.report import (
    DetailReport,
    GaugeReport,
    LevelCount,
    RangeCount,
    Report,
    Section,
)
from monitor_companion.report_history import Counts, possible_counts
from monitor_companion.report_site import ReportSite
from monitor_companion.site import Detail, Grid


@dataclass(frozen=True)
class DetailDamage:
    """A detail of the configuration, what the report prints of it, and its damage by range."""

    detail: Detail
    printed: DetailReport
    ranges: tuple[RangeDamage, ...]


def check_report(report: Report, site: ReportSite) -> tuple[DetailDamage, ...]:
    """Returns the damage by range of each detail, which adds up to what the report prints.

    Raises a `Refusal` where the configuration doesn't fit the report, or where the report doesn't
    agree with itself.
    """
    _check_names(report, site)
    for gauge in report.gauges:
        _check_gauge(report.file, gauge, site.grid)
    return tuple(
        _check_damage(report, printed, detail, site)
        for printed, detail in zip(report.details, site.details, strict=True)
    )


def _check_names(report: Report, site: ReportSite) -> None:
    """Gauges and details have to be those of the configuration, in its order."""
    found = [(gauge.line, f"gauge {gauge.name}") for gauge in report.gauges]
    found += [(each.line, f"detail {each.name} on {each.gauge}") for each in report.details]
    wanted = [f"gauge {gauge.name}" for gauge in site.gauges]
    wanted += [f"detail {each.name} on {each.gauge}" for each in site.details]
    for (line, is_there), belongs in zip(found, wanted, strict=False):
        if is_there != belongs:
            why = f"{is_there} stands where {site.file} has {belongs}"
            raise Refusal(Place(report.file, line), why)
    if len(found) < len(wanted):
        why = f"the report ends before the {wanted[len(found)]} of {site.file}"
        raise Refusal(Place(report.file), why)
    if len(found) > len(wanted):
        line, is_there = found[len(wanted)]
        raise Refusal(Place(report.file, line), f"{site.file} has no {is_there}")


class _GaugeCheck:
    """One gauge of a report beside its grid."""

    def __init__(self, file: str, gauge: GaugeReport, grid: Grid) -> None:
        self.file = file
        self.gauge = gauge
        self.grid = grid
        self.by_range: Counter[int] = Counter()
        for row in gauge.matrix.rows:
            self.by_range[(row.upper - row.lower) * grid.width] += row.half_units

    def refusal(self, line: int, why: str) -> Refusal:
        return Refusal(Place(self.file, line), f"gauge {self.gauge.name}: {why}")

    def check_grid(self) -> None:
        """Each range, level and boundary has to be one of the grid."""
        most = (self.grid.classes - 1) * self.grid.width
        for section in (self.gauge.rainflow, self.gauge.ranges):
            for number, row in enumerate(section.rows):
                if row.half_stress % self.grid.width or row.half_stress > most:
                    why = "the grid of the configuration has no such range"
                    raise self.refusal(section.line_of(number), why)
        for number, pair in enumerate(self.gauge.matrix.rows):
            if pair.upper >= self.grid.classes:
                why = f"the grid of the configuration has no level {pair.upper}"
                raise self.refusal(self.gauge.matrix.line_of(number), why)
        reference = self.grid.reference
        self._check_levels(self.gauge.crossings, 1, self.grid.classes, "boundary")
        self._check_levels(self.gauge.peaks, reference, self.grid.classes, "peak at a level")
        self._check_levels(self.gauge.valleys, 0, reference, "valley at a level")

    def _check_levels(
        self, section: Section[LevelCount], first: int, end: int, what: str
    ) -> None:
        for number, row in enumerate(section.rows):
            if not first <= row.level < end:
                why = f"by the configuration there is no {what} {row.level}"
                raise self.refusal(section.line_of(number), why)

    def check_ranges(self) -> None:
        """The rainflow table is the matrix by range; the simple ranges have the same sums."""
        rainflow = self.gauge.rainflow
        for number, row in enumerate(rainflow.rows):
            of_matrix = self.by_range.pop(row.half_stress, 0)
            if row.half_units != of_matrix:
                why = f"{row.half_units} half cycles of this range, and {of_matrix} in the matrix"
                raise self.refusal(rainflow.line_of(number), why)
        for half_stress, half_units in self.by_range.items():
            stress = f"{half_stress // 2}.{5 * (half_stress % 2)}"
            why = f"the range {stress} has no row here, and {half_units} half cycles in the matrix"
            raise self.refusal(rainflow.line, why)
        simple = self.gauge.ranges
        if _sums(simple) != _sums(rainflow):
            why = "number and sum of the simple ranges are not those of the rainflow table"
            raise self.refusal(simple.line, why)
        half_units, _ = _sums(rainflow)
        # Each point is a used reading, and there is a half unit for each two neighbouring points.
        if half_units >= max(self.gauge.used, 1):
            why = f"{half_units} half cycles can't be of {self.gauge.used} used readings"
            raise self.refusal(rainflow.line, why)

    def check_counts(self) -> None:
        """Crossings, peaks and valleys have to be those of a history with this matrix."""
        gauge = self.gauge
        possible = possible_counts(gauge.matrix.rows, self.grid.reference)
        if not possible:
            raise self.refusal(gauge.matrix.line, "no history has such a matrix")
        found = [_differences(gauge, counts) for counts in possible]
        fewest = min(found, key=len)
        if fewest:
            line, why = fewest[0]
            raise self.refusal(line, why)


def _differences(gauge: GaugeReport, counts: Counts) -> list[tuple[int, str]]:
    """The lines at which a gauge has other counts, and what is wrong there."""
    sections = (
        (gauge.crossings, counts.crossings, "boundary", "crossings"),
        (gauge.peaks, counts.peaks, "level", "peaks"),
        (gauge.valleys, counts.valleys, "level", "valleys"),
    )
    differences: list[tuple[int, str]] = []
    for section, wanted, place, what in sections:
        found = {row.level: row.times for row in section.rows}
        for level in sorted(wanted.keys() | found.keys()):
            if wanted.get(level, 0) != found.get(level, 0):
                why = f"{place} {level} has {wanted.get(level, 0)} {what} by the matrix"
                differences.append((_line_near(section, level), why))
    return differences


def _check_gauge(file: str, gauge: GaugeReport, grid: Grid) -> None:
    check = _GaugeCheck(file, gauge, grid)
    check.check_grid()
    check.check_ranges()
    check.check_counts()


def _sums(section: Section[RangeCount]) -> tuple[int, int]:
    """The half units of a section, and the sum of their ranges."""
    half_units = sum(row.half_units for row in section.rows)
    return half_units, sum(row.half_units * row.half_stress for row in section.rows)


def _line_near(section: Section[LevelCount], level: int) -> int:
    """The line of a level, or of the last row before it where it has none."""
    before = [number for number, row in enumerate(section.rows) if row.level <= level]
    return section.line_of(before[-1]) if before else section.line


def _check_damage(
    report: Report, printed: DetailReport, detail: Detail, site: ReportSite
) -> DetailDamage:
    """Compares the damage of a detail with the printed fraction, which is in the detail's terms."""
    place = Place(report.file, printed.line)
    curve = detail.curve
    if printed.denominator != curve.denominator:
        why = f"the denominator isn't that of {curve.words}, by {site.file} for {detail.name}"
        raise Refusal(place, why)
    ranges = damage_by_range(curve, report.gauge(detail.gauge).rainflow.rows)
    recomputed = total_damage(ranges)
    if recomputed != printed.damage:
        whole, numerator = divmod(recomputed * curve.denominator, curve.denominator)
        why = (
            f"the damage of {detail.name} ({curve.words} in {site.file}) by the rainflow table is "
            f"{whole} {numerator}/{curve.denominator}, and the report has another"
        )
        raise Refusal(place, why)
    return DetailDamage(detail, printed, ranges)
