"""Reports that were read, checked beside their site, and put in order of time."""

from __future__ import annotations

import hashlib
import sys
from collections import Counter
from collections.abc import Iterable, Sequence
from dataclasses import dataclass, replace
from fractions import Fraction
from pathlib import Path

from monitor_companion.curves import damage_by_range
from monitor_companion.refusals import Place, Refusal
from monitor_companion.report import (
    DetailReport,
    GaugeReport,
    LevelCount,
    PairCount,
    RangeCount,
    Report,
    Section,
    billionths_of,
    parse_report,
)
from monitor_companion.report_agreement import DetailDamage, check_report
from monitor_companion.report_site import ReportSite

STANDARD_INPUT = "-"


@dataclass(frozen=True)
class Reading:
    """A report that agrees with its site: a label, the report, its damages, and its SHA-256."""

    label: str
    report: Report
    damages: tuple[DetailDamage, ...]
    digest: str


@dataclass(frozen=True)
class Series:
    """Readings in order of time: of one growing history, or of windows that follow each other.

    `whole` is the last of a growing history, or the sum of the windows.
    """

    site: ReportSite
    readings: tuple[Reading, ...]
    are_windows: bool
    whole: Reading

    @property
    def worst_first(self) -> list[DetailDamage]:
        """Details by their damage; equal ones stay in the order of the configuration."""
        return sorted(self.whole.damages, key=lambda each: -each.printed.damage)


def read_reading(name: str, site: ReportSite) -> Reading:
    """Reads a report from a file, or from standard input where the name is `-`, and checks it."""
    if name == STANDARD_INPUT:
        label, file, content = "standard input", "standard input", sys.stdin.buffer.read()
    else:
        label, file = Path(name).stem, name
        try:
            content = Path(name).read_bytes()
        except OSError as error:
            raise Refusal(Place(name), f"can't be read: {error.strerror}") from error
    report = parse_report(content, file)
    digest = hashlib.sha256(content).hexdigest()
    return Reading(label, report, check_report(report, site), digest)


def read_series(names: Sequence[str], site: ReportSite, are_windows: bool) -> Series:
    """Reads reports, the oldest first; raises a `Refusal` where one that should grow has less."""
    readings = tuple(read_reading(name, site) for name in names)
    _check_different(readings)
    labels = Counter(reading.label for reading in readings)
    readings = tuple(
        replace(reading, label=reading.report.file) if labels[reading.label] > 1 else reading
        for reading in readings
    )
    if are_windows:
        return Series(site, readings, True, _sum(readings))
    for before, now in zip(readings, readings[1:], strict=False):
        _check_growth(before.report, now.report)
    return Series(site, readings, False, readings[-1])


def refused_words(reading: Reading) -> list[str]:
    """A warning for each gauge that has refused readings."""
    return [
        f"gauge {gauge.name}: {gauge.refused} of {gauge.samples} readings lay outside the classes "
        "and were left out, so its table is not that of the whole history"
        for gauge in reading.report.gauges
        if gauge.refused
    ]


def _check_different(readings: tuple[Reading, ...]) -> None:
    """No report may stand twice, but for one of no samples at all."""
    files: dict[str, str] = {}
    for reading in readings:
        report = reading.report
        if reading.digest in files and any(gauge.samples for gauge in report.gauges):
            why = f"is the same report as {files[reading.digest]}, byte for byte"
            raise Refusal(Place(report.file), why)
        files[reading.digest] = report.file


def _check_growth(before: Report, now: Report) -> None:
    for old, new in zip(before.gauges, now.gauges, strict=True):
        for what in ("samples", "used", "missing", "refused"):
            was, has = getattr(old, what), getattr(new, what)
            if has < was:
                why = (
                    f"gauge {new.name} has {has} {what}, and {was} in {before.file} before it: "
                    "give the oldest report first, or say --windows where each has its own time"
                )
                raise Refusal(Place(now.file, new.line + 1), why)


def _sum(readings: tuple[Reading, ...]) -> Reading:
    """The counts of windows, added; the damage is the sum of those that were printed."""
    if len(readings) == 1:
        return readings[0]
    gauges = tuple(
        _sum_of_gauges(each)
        for each in zip(*(reading.report.gauges for reading in readings), strict=True)
    )
    tables = {gauge.name: gauge.rainflow.rows for gauge in gauges}
    damages = tuple(
        DetailDamage(
            detail=each[0].detail,
            printed=_sum_of_details([one.printed for one in each]),
            ranges=damage_by_range(each[0].detail.curve, tables[each[0].detail.gauge]),
        )
        for each in zip(*(reading.damages for reading in readings), strict=True)
    )
    report = Report("windows", gauges, tuple(each.printed for each in damages))
    return Reading(f"{len(readings)} windows", report, damages, "")


def _sum_of_gauges(gauges: Sequence[GaugeReport]) -> GaugeReport:
    return GaugeReport(
        gauges[0].name,
        gauges[0].line,
        samples=sum(gauge.samples for gauge in gauges),
        used=sum(gauge.used for gauge in gauges),
        missing=sum(gauge.missing for gauge in gauges),
        refused=sum(gauge.refused for gauge in gauges),
        rainflow=_sum_of_ranges(gauge.rainflow for gauge in gauges),
        matrix=_sum_of_pairs(gauge.matrix for gauge in gauges),
        crossings=_sum_of_levels(gauge.crossings for gauge in gauges),
        peaks=_sum_of_levels(gauge.peaks for gauge in gauges),
        valleys=_sum_of_levels(gauge.valleys for gauge in gauges),
        ranges=_sum_of_ranges(gauge.ranges for gauge in gauges),
    )


def _sum_of_ranges(sections: Iterable[Section[RangeCount]]) -> Section[RangeCount]:
    counts: Counter[int] = Counter()
    for section in sections:
        for row in section.rows:
            counts[row.half_stress] += row.half_units
    return Section(0, tuple(RangeCount(key, counts[key]) for key in sorted(counts, reverse=True)))


def _sum_of_pairs(sections: Iterable[Section[PairCount]]) -> Section[PairCount]:
    counts: Counter[tuple[int, int]] = Counter()
    for section in sections:
        for row in section.rows:
            counts[row.lower, row.upper] += row.half_units
    return Section(0, tuple(PairCount(*key, counts[key]) for key in sorted(counts)))


def _sum_of_levels(sections: Iterable[Section[LevelCount]]) -> Section[LevelCount]:
    counts: Counter[int] = Counter()
    for section in sections:
        for row in section.rows:
            counts[row.level] += row.times
    return Section(0, tuple(LevelCount(key, counts[key]) for key in sorted(counts)))


def _sum_of_details(printed: Sequence[DetailReport]) -> DetailReport:
    total = sum((each.damage for each in printed), Fraction(0))
    first = printed[0]
    whole, rest = divmod(total, 1)
    return DetailReport(
        first.name,
        first.gauge,
        first.line,
        whole=whole,
        numerator=int(rest * first.denominator),
        denominator=first.denominator,
        billionths=billionths_of(total),
    )
