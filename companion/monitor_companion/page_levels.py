"""Charts over the levels of a gauge: the matrix, the crossings, the peaks and valleys."""

from __future__ import annotations

import math
from collections import Counter

from monitor_companion.page_svg import (
    HEIGHT,
    LEFT,
    RIGHT,
    TOP,
    Chart,
    Scale,
    bars_to_right,
    decade_ticks,
    figure,
    number,
    round_ticks,
)
from monitor_companion.page_text import cycles_text, plain
from monitor_companion.report import GaugeReport, LevelCount, Section
from monitor_companion.site import Grid

BOTTOM = 262
MATRIX_BOTTOM = 322
MATRIX_HEIGHT = 360
LEAST_COUNT = 0.5
SHADES = 5
# More blocks than these on an axis would be smaller than a pixel of a page.
MOST_BLOCKS = 96


def level_figures(gauge: GaugeReport, grid: Grid) -> list[str]:
    """The three figures of a gauge."""
    return [
        _matrix_figure(gauge, grid),
        _crossings_figure(gauge, grid),
        _extremes_figure(gauge, grid),
    ]


def _span(gauge: GaugeReport, grid: Grid) -> tuple[int, int]:
    """The first level that has a count, and the one behind the last; all without a count."""
    levels = [pair.lower for pair in gauge.matrix.rows] + [pair.upper for pair in gauge.matrix.rows]
    return (min(levels), max(levels) + 1) if levels else (0, grid.classes)


def _stress_axis(gauge: GaugeReport, grid: Grid, start: float, end: float) -> Scale:
    first, behind = _span(gauge, grid)
    return Scale(float(grid.stress(first)), float(grid.stress(behind)), start, end)


def _matrix_figure(gauge: GaugeReport, grid: Grid) -> str:
    first, behind = _span(gauge, grid)
    block = math.ceil((behind - first) / MOST_BLOCKS)
    cells: Counter[tuple[int, int]] = Counter()
    for pair in gauge.matrix.rows:
        cells[(pair.lower - first) // block, (pair.upper - first) // block] += pair.half_units
    steps = _shade_steps(max(cells.values(), default=1))
    side = MATRIX_BOTTOM - TOP
    chart = Chart(
        f"matrix-{gauge.name}",
        f"Rainflow matrix of {gauge.name}",
        f"Cycles by lower and upper stress: {len(gauge.matrix.rows)} pairs of levels, "
        f"at most {cycles_text(max(cells.values(), default=0))} cycles in a cell.",
        x=_stress_axis(gauge, grid, LEFT, LEFT + side),
        y=_stress_axis(gauge, grid, MATRIX_BOTTOM, TOP),
        height=MATRIX_HEIGHT,
    )
    ticks = round_ticks(chart.x.low, chart.x.high)
    chart.axes(ticks, ticks, "Lower stress, N/mm²", "Upper stress, N/mm²")
    corner = number(LEFT + side)
    chart.line([(LEFT, MATRIX_BOTTOM), (LEFT + side, TOP)], "diagonal")
    _draw_cells(chart, cells, steps, side * block / (behind - first))
    _draw_shades(chart, steps)
    chart.add(f'<path class="axis" d="M{LEFT} {TOP}V{MATRIX_BOTTOM}H{corner}"/>')
    note = "Each cell: the cycles between a lower and an upper stress class."
    if block > 1:
        note = f"Each cell: the cycles between {block} lower and {block} upper stress classes."
    return figure("Rainflow matrix", chart.text(), note)


def _shade_steps(most: int) -> list[int]:
    """The half units from which each shade on counts, in equal ratios from half a cycle on."""
    ratios = (2, 3, 4, 6, 10, 20, 40, 100)
    ratio = next((ratio for ratio in ratios if ratio**SHADES > most), 1000)
    return [ratio**shade for shade in range(SHADES)]


def _draw_cells(
    chart: Chart, cells: Counter[tuple[int, int]], steps: list[int], size: float
) -> None:
    """All cells of a shade as one path, with what they mean as its title."""
    paths: list[list[str]] = [[] for _ in steps]
    edge = number(size)
    for (lower, upper), half_units in sorted(cells.items()):
        shade = max(place for place, step in enumerate(steps) if step <= half_units)
        x, y = LEFT + lower * size, MATRIX_BOTTOM - (upper + 1) * size
        paths[shade].append(f"M{x:.2f} {y:.2f}h{edge}v{edge}h-{edge}z")
    for shade, path in enumerate(paths):
        if path:
            title = f"<title>{len(path)} cells with {_shade_words(steps, shade)} cycles</title>"
            chart.add(f'<path class="shade{shade}" d="{"".join(path)}">{title}</path>')


def _shade_words(steps: list[int], shade: int) -> str:
    if shade + 1 == len(steps):
        return f"{cycles_text(steps[shade])} and more"
    return f"{cycles_text(steps[shade])} to {cycles_text(steps[shade + 1] - 1)}"


def _draw_shades(chart: Chart, steps: list[int]) -> None:
    """The legend, in the corner below the diagonal, which no cell can reach."""
    right = chart.x.end
    top = MATRIX_BOTTOM - 22 - 17 * len(steps)
    chart.words(right - 72, top - 4, "Cycles, from", "strong")
    for shade in range(len(steps)):
        y = top + 17 * shade + 3
        chart.add(
            f'<rect class="shade{shade}" x="{number(right - 72)}" y="{number(y)}" '
            f'width="16" height="12"/>'
        )
        least = cycles_text(steps[shade]).removesuffix(".0")
        chart.words(right - 50, y + 10, least)


def _count_scale(*sections: Section[LevelCount]) -> Scale:
    most = max((row.times for section in sections for row in section.rows), default=1)
    high = 10.0 ** math.ceil(math.log10(most + 1))
    return Scale(LEAST_COUNT, high, LEFT, RIGHT, is_log=True)


def _level_axes(chart: Chart, x_label: str) -> None:
    chart.axes(
        decade_ticks(chart.x.low, chart.x.high),
        round_ticks(chart.y.low, chart.y.high),
        x_label,
        "Stress, N/mm²",
    )


def _draw_reference(chart: Chart, grid: Grid) -> None:
    """The boundary of reference, where it lies within the picture."""
    stress = grid.stress(grid.reference)
    if chart.y.low <= stress <= chart.y.high:
        y = chart.y(float(stress))
        chart.line([(LEFT, y), (RIGHT, y)], "reference")
        chart.words(RIGHT - 2, y - 4, f"reference {plain(float(stress))}", "end small halo")


def _crossings_figure(gauge: GaugeReport, grid: Grid) -> str:
    rows = gauge.crossings.rows
    most = max(rows, key=lambda row: row.times, default=LevelCount(0, 0))
    chart = Chart(
        f"crossings-{gauge.name}",
        f"Level crossings of {gauge.name}",
        f"{len(rows)} boundaries are crossed; most often, {most.times} times, "
        f"{grid.stress(most.level)} N/mm²."
        if rows
        else "No boundary is crossed.",
        x=_count_scale(gauge.crossings),
        y=_stress_axis(gauge, grid, BOTTOM, TOP),
        height=HEIGHT,
    )
    _level_axes(chart, "Crossings")
    half = grid.width / 4
    stresses = [(float(grid.stress(row.level)), row.times) for row in rows]
    bars_to_right(chart, [(at - half, at + half, times) for at, times in stresses], "bar")
    _draw_reference(chart, grid)
    chart.baseline()
    note = (
        "Upward crossings from the reference on, downward ones below it "
        "(ASTM E1049\u201185, 5.1)."
    )
    return figure("Level crossings", chart.text(), note)


def _extremes_figure(gauge: GaugeReport, grid: Grid) -> str:
    chart = Chart(
        f"extremes-{gauge.name}",
        f"Peaks and valleys of {gauge.name}",
        f"{sum(row.times for row in gauge.peaks.rows)} peaks from the reference on and "
        f"{sum(row.times for row in gauge.valleys.rows)} valleys below it, by stress class.",
        x=_count_scale(gauge.peaks, gauge.valleys),
        y=_stress_axis(gauge, grid, BOTTOM, TOP),
        height=HEIGHT,
    )
    _level_axes(chart, "Number")
    for section, kind in ((gauge.peaks, "bar"), (gauge.valleys, "bar valley")):
        bars = [
            (float(grid.stress(row.level)), float(grid.stress(row.level + 1)), row.times)
            for row in section.rows
        ]
        bars_to_right(chart, bars, kind)
    _draw_reference(chart, grid)
    chart.baseline()
    note = (
        '<span class="key key-bar"></span>peaks from the reference on, '
        '<span class="key key-valley"></span>valleys below it (ASTM E1049\u201185, 5.2).'
    )
    return figure("Peaks and valleys", chart.text(), note)
