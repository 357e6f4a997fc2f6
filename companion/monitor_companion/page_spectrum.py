"""The rainflow spectrum of a gauge with the fatigue strength curves of its details."""

from __future__ import annotations

import math
from dataclasses import dataclass
from itertools import cycle

from monitor_companion.curves import KNEE_CYCLES, Curve
from monitor_companion.page_svg import (
    LEFT,
    RIGHT,
    TOP,
    Chart,
    Scale,
    bars_to_right,
    decade_ticks,
    figure,
    one_two_five_ticks,
)
from monitor_companion.page_text import escaped
from monitor_companion.report import GaugeReport, RangeCount
from monitor_companion.report_site import ReportSite
from monitor_companion.site import Detail

LEAST_CYCLES = 0.2
# The curves are drawn from 10^4 cycles on, as the standard draws them.
FIRST_CYCLES = 1e4
BOTTOM = 262
LETTERS = "ABCDEFGHIJKLMNOPQRSTUVWXYZabcdefghijklmnopqrstuvwxyz"
# Dashes that tell curves apart without colour, and come again where there are more curves.
DASHES = ("none", "7 3", "2 3", "9 3 2 3", "4 2", "1 2")
LETTER_GAP = 12.0
FARTHEST_LETTER = 20.0


@dataclass(frozen=True)
class DrawnCurve:
    """A curve, its letter and dashes, and the names of its details."""

    curve: Curve
    letter: str
    dashes: str
    names: tuple[str, ...]

    @property
    def dash_attribute(self) -> str:
        """What gives a line these dashes."""
        return "" if self.dashes == "none" else f' stroke-dasharray="{self.dashes}"'


def drawn_curves(details: list[Detail]) -> list[DrawnCurve]:
    """The different curves of a gauge's details, the one that bears least first."""
    names: dict[Curve, list[str]] = {}
    for detail in details:
        names.setdefault(detail.curve, []).append(detail.name)
    ordered = sorted(names, key=lambda curve: curve.cut_off)
    return [
        DrawnCurve(curve, letter, dashes, tuple(names[curve]))
        for curve, letter, dashes in zip(ordered, cycle(LETTERS), cycle(DASHES), strict=False)
    ]


def spectrum_figure(gauge: GaugeReport, site: ReportSite) -> str:
    """The spectrum's figure."""
    curves = drawn_curves(site.details_of(gauge.name))
    rows = gauge.rainflow.rows
    half_class = site.grid.width / 4
    chart = Chart(
        f"spectrum-{gauge.name}",
        f"Rainflow spectrum of {gauge.name}",
        _description(rows, curves),
        x=Scale(LEAST_CYCLES, _most_cycles(rows, curves), LEFT, RIGHT, is_log=True),
        y=_stress_scale(rows, curves, half_class),
    )
    chart.axes(
        decade_ticks(chart.x.low, chart.x.high),
        one_two_five_ticks(chart.y.low, chart.y.high),
        "Cycles",
        "Stress range, N/mm²",
    )
    bars = [(row.half_stress / 2, row.half_units / 2) for row in rows]
    shown = [(stress - half_class, stress + half_class, cycles) for stress, cycles in bars]
    bars_to_right(chart, shown, "bar")
    _draw_cumulated(chart, bars, half_class)
    for drawn in curves:
        _draw_curve(chart, drawn)
    _draw_letters(chart, curves)
    chart.baseline()
    return figure("Rainflow spectrum and fatigue strength", chart.text(), _note(curves))


def _most_cycles(rows: tuple[RangeCount, ...], curves: list[DrawnCurve]) -> float:
    most = sum(row.half_units for row in rows) / 2
    least_end = 1e9 if curves else 1e2
    return float(max(least_end, 10.0 ** math.ceil(math.log10(max(most, 1.0)))))


def _stress_scale(
    rows: tuple[RangeCount, ...], curves: list[DrawnCurve], half_class: float
) -> Scale:
    """From the least class, though not far below 1 N/mm², to the top of the highest curve."""
    least = min([row.half_stress / 2 for row in rows], default=1.0)
    lowest = min([least] + [float(each.curve.cut_off) for each in curves])
    highest = max([row.half_stress / 2 for row in rows], default=10.0) + half_class
    highest = max([highest] + [_range_at(each.curve, FIRST_CYCLES) for each in curves])
    low = max((at for at, _ in one_two_five_ticks(0.1, 1000) if at <= lowest), default=0.5)
    high = min((at for at, _ in one_two_five_ticks(1, 10_000) if at >= highest), default=highest)
    return Scale(low, high, BOTTOM, TOP, is_log=True)


def _range_at(curve: Curve, cycles: float) -> float:
    """The range in N/mm² that a curve bears so many cycles."""
    least = float(curve.cut_off)
    endurance = curve.endurance(curve.cut_off)
    if endurance is None or cycles >= endurance:
        return least
    knee = curve.knee
    if knee is None or cycles > KNEE_CYCLES:
        return least * math.pow(float(endurance) / cycles, 0.2)
    return float(knee) * math.pow(KNEE_CYCLES / cycles, 1 / 3)


def _draw_cumulated(chart: Chart, bars: list[tuple[float, float]], half_class: float) -> None:
    """The cycles of a range or more, as a line of steps from the greatest range down."""
    points: list[tuple[float, float]] = []
    total = 0.0
    for stress, cycles in bars:
        y = chart.y.within(stress + half_class)
        points.append((chart.x.within(max(total, LEAST_CYCLES)), y))
        total += cycles
        points.append((chart.x.within(total), y))
    if points:
        points.append((points[-1][0], chart.y.within(bars[-1][0] - half_class)))
        chart.line(points, "cumulated")


def _draw_curve(chart: Chart, drawn: DrawnCurve) -> None:
    curve = drawn.curve
    ends = [FIRST_CYCLES, float(curve.endurance(curve.cut_off) or 0), chart.x.high]
    if curve.knee is not None:
        ends.insert(1, float(KNEE_CYCLES))
    points = [
        (chart.x.within(cycles), chart.y.within(_range_at(curve, cycles)))
        for cycles in ends
        if cycles <= chart.x.high
    ]
    chart.line(points, "curve", drawn.dash_attribute)


def _draw_letters(chart: Chart, curves: list[DrawnCurve]) -> None:
    """The letters of the curves at their left ends, moved apart where they would meet.

    Of very many curves some have no letter, which would stand too far from its curve.
    """
    before = math.inf
    for drawn in curves:
        place = chart.y.within(_range_at(drawn.curve, FIRST_CYCLES)) + 4
        moved = min(place, before - LETTER_GAP)
        if place - moved <= FARTHEST_LETTER:
            chart.words(chart.x(FIRST_CYCLES) - 6, moved, drawn.letter, "end strong")
            before = moved


def _note(curves: list[DrawnCurve]) -> str:
    """What bars and lines mean, and the legend of the curves."""
    text = (
        '<span class="key key-bar"></span>cycles of a range, '
        '<span class="key key-line"></span>of this range or a greater one.'
    )
    if curves:
        text += " Lines with a letter: cycles that a detail bears, with its partial factor."
    for drawn in curves:
        text += (
            '<br><svg class="swatch" viewBox="0 0 34 8" aria-hidden="true">'
            f'<path class="curve" d="M0 4H34"{drawn.dash_attribute}/></svg> <b>{drawn.letter}</b> '
            f"{escaped(', '.join(drawn.names))}: {escaped(drawn.curve.words)}"
        )
    return text


def _description(rows: tuple[RangeCount, ...], curves: list[DrawnCurve]) -> str:
    if not rows:
        return "Nothing was counted."
    cycles = sum(row.half_units for row in rows) / 2
    text = (
        f"{cycles:.1f} cycles in {len(rows)} ranges up to {rows[0].half_stress / 2:.1f} N/mm², "
        "over logarithmic axes of cycles and stress range"
    )
    lines = "; ".join(f"{each.curve.words} of {', '.join(each.names)}" for each in curves)
    return f"{text}, with the fatigue strength curves {lines}." if lines else f"{text}."
