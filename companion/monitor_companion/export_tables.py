"""The sections of a report as tables in stresses, for CSV files and for JSON.

Stresses and ranges are in N/mm². Numbers are whole ones or decimals; what is no decimal, such as a
damage, is rounded to twelve digits and stands beside it exactly, as a text `NUMERATOR/DENOMINATOR`.
"""

from __future__ import annotations

from dataclasses import dataclass
from decimal import Context, Decimal
from fractions import Fraction

from monitor_companion.curves import Curve
from monitor_companion.report import BILLION, GaugeReport, LevelCount, RangeCount, Section
from monitor_companion.report_agreement import DetailDamage
from monitor_companion.report_reading import Reading
from monitor_companion.report_site import ReportSite
from monitor_companion.site import Grid

Value = int | Decimal | str | bool | None
Row = dict[str, Value]
SIGNIFICANT = Context(prec=12)


@dataclass(frozen=True)
class Table:
    """A table: the name of its file, its columns, and its rows."""

    name: str
    columns: tuple[str, ...]
    rows: list[Row]


# The sections of a gauge, each with its columns and how its rows are made.
RANGE_COLUMNS = ("range_n_mm2", "cycles")
MATRIX_COLUMNS = (
    "lower_level", "upper_level", "lower_from_n_mm2", "lower_to_n_mm2", "upper_from_n_mm2",
    "upper_to_n_mm2", "range_n_mm2", "cycles",
)  # fmt: skip
CROSSING_COLUMNS = ("boundary", "stress_n_mm2", "direction", "count")
LEVEL_COLUMNS = ("level", "from_n_mm2", "to_n_mm2", "count")
GAUGE_COLUMNS = (
    "gauge", "samples", "used", "missing", "refused", "complete", "period_us", "recorded_s",
)  # fmt: skip
DETAIL_COLUMNS = (
    "detail", "gauge", "kind", "category_n_mm2", "factor", "knee_n_mm2", "cut_off_n_mm2",
    "damage", "percent_of_life", "damage_exact",
)  # fmt: skip
DAMAGE_COLUMNS = (
    "range_n_mm2", "cycles", "slope", "endurance", "damage", "share", "damage_exact",
)  # fmt: skip


def halved(number: int) -> Decimal:
    """Halves as a decimal with one digit behind the point."""
    return Decimal(5 * number).scaleb(-1)


def rounded(value: Fraction) -> Decimal:
    """A fraction as a decimal of twelve digits, rounded to the nearest one."""
    if not value:
        return Decimal(0)
    return SIGNIFICANT.divide(Decimal(value.numerator), Decimal(value.denominator))


def exact(value: Fraction) -> str:
    """A fraction in lowest terms, as a text."""
    return f"{value.numerator}/{value.denominator}"


def grid_row(grid: Grid) -> Row:
    """The grid, in stresses."""
    return {
        "classes": grid.classes,
        "class_width_n_mm2": halved(grid.width),
        "lowest_n_mm2": grid.stress(0),
        "highest_n_mm2": grid.stress(grid.classes),
        "reference_n_mm2": grid.stress(grid.reference),
    }


def gauge_row(gauge: GaugeReport, period: int | None) -> Row:
    """The readings of a gauge; a table with refused readings isn't complete."""
    recorded = None if period is None else Decimal(gauge.samples * period).scaleb(-6)
    return {
        "gauge": gauge.name,
        "samples": gauge.samples,
        "used": gauge.used,
        "missing": gauge.missing,
        "refused": gauge.refused,
        "complete": gauge.refused == 0,
        "period_us": period,
        "recorded_s": recorded,
    }


def section_rows(gauge: GaugeReport, grid: Grid) -> dict[str, list[Row]]:
    """The rows of each section of a gauge, by the section's name."""
    return {
        "rainflow": _range_rows(gauge.rainflow),
        "matrix": _matrix_rows(gauge, grid),
        "crossings": _crossing_rows(gauge, grid),
        "peaks": _level_rows(gauge.peaks, grid),
        "valleys": _level_rows(gauge.valleys, grid),
        "ranges": _range_rows(gauge.ranges),
    }


SECTION_COLUMNS = {
    "rainflow": RANGE_COLUMNS,
    "matrix": MATRIX_COLUMNS,
    "crossings": CROSSING_COLUMNS,
    "peaks": LEVEL_COLUMNS,
    "valleys": LEVEL_COLUMNS,
    "ranges": RANGE_COLUMNS,
}


def _range_rows(section: Section[RangeCount]) -> list[Row]:
    return [
        {"range_n_mm2": halved(row.half_stress), "cycles": halved(row.half_units)}
        for row in section.rows
    ]


def _matrix_rows(gauge: GaugeReport, grid: Grid) -> list[Row]:
    return [
        {
            "lower_level": row.lower,
            "upper_level": row.upper,
            "lower_from_n_mm2": grid.stress(row.lower),
            "lower_to_n_mm2": grid.stress(row.lower + 1),
            "upper_from_n_mm2": grid.stress(row.upper),
            "upper_to_n_mm2": grid.stress(row.upper + 1),
            "range_n_mm2": halved((row.upper - row.lower) * grid.width),
            "cycles": halved(row.half_units),
        }
        for row in gauge.matrix.rows
    ]


def _crossing_rows(gauge: GaugeReport, grid: Grid) -> list[Row]:
    return [
        {
            "boundary": row.level,
            "stress_n_mm2": grid.stress(row.level),
            "direction": "up" if row.level >= grid.reference else "down",
            "count": row.times,
        }
        for row in gauge.crossings.rows
    ]


def _level_rows(section: Section[LevelCount], grid: Grid) -> list[Row]:
    return [
        {
            "level": row.level,
            "from_n_mm2": grid.stress(row.level),
            "to_n_mm2": grid.stress(row.level + 1),
            "count": row.times,
        }
        for row in section.rows
    ]


def detail_row(damage: DetailDamage) -> Row:
    """A detail; the limits hold for a range times the partial factor."""
    curve, printed = damage.detail.curve, damage.printed
    unfactored = Curve(curve.kind, curve.category, gamma=100)
    return {
        "detail": damage.detail.name,
        "gauge": damage.detail.gauge,
        "kind": curve.kind.value,
        "category_n_mm2": curve.category,
        "factor": Decimal(curve.gamma).scaleb(-2),
        "knee_n_mm2": None if unfactored.knee is None else _decimal(unfactored.knee),
        "cut_off_n_mm2": _decimal(unfactored.cut_off),
        "damage": Decimal(printed.billionths).scaleb(-9),
        "percent_of_life": Decimal(printed.billionths).scaleb(-7),
        "damage_exact": exact(printed.damage),
    }


def _decimal(value: Fraction) -> Decimal:
    """A fraction over a power of ten as the decimal that it is."""
    billionths = value * BILLION
    return (Decimal(billionths.numerator).scaleb(-9)).normalize()


def damage_rows(damage: DetailDamage) -> list[Row]:
    """The damage of each range of a detail, with its share of the detail's whole damage."""
    total = damage.printed.damage
    return [
        {
            "range_n_mm2": halved(int(2 * row.stress_range)),
            "cycles": halved(int(2 * row.cycles)),
            "slope": damage.detail.curve.slope(row.stress_range),
            "endurance": None if row.endurance is None else rounded(row.endurance),
            "damage": rounded(row.damage),
            "share": rounded(row.damage / total) if total else Decimal(0),
            "damage_exact": exact(row.damage),
        }
        for row in damage.ranges
    ]


def tables(reading: Reading, site: ReportSite) -> list[Table]:
    """All tables of a report; those of gauges and details have these names first in each row."""
    report, grid = reading.report, site.grid
    gauges = [gauge_row(*each) for each in zip(report.gauges, site.periods, strict=True)]
    grid_values = grid_row(grid)
    found = [
        Table("grid", tuple(grid_values), [grid_values]),
        Table("gauges", GAUGE_COLUMNS, gauges),
    ]
    sections = {gauge.name: section_rows(gauge, grid) for gauge in report.gauges}
    for name, columns in SECTION_COLUMNS.items():
        rows: list[Row] = [
            {"gauge": gauge, **row} for gauge, each in sections.items() for row in each[name]
        ]
        found.append(Table(name, ("gauge", *columns), rows))
    details = [detail_row(damage) for damage in reading.damages]
    ranges: list[Row] = [
        {"detail": damage.detail.name, **row}
        for damage in reading.damages
        for row in damage_rows(damage)
    ]
    found.append(Table("details", DETAIL_COLUMNS, details))
    found.append(Table("damage", ("detail", *DAMAGE_COLUMNS), ranges))
    return found
