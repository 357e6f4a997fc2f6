"""Damage over time: of reports of one growing history, or of windows that follow each other."""

from __future__ import annotations

from fractions import Fraction

from monitor_companion.page_svg import (
    RIGHT,
    TOP,
    Chart,
    Scale,
    Ticks,
    bars_upwards,
    figure,
    number,
    round_ticks,
)
from monitor_companion.page_text import (
    DAY,
    HOUR,
    MINUTE,
    duration,
    escaped,
    grouped,
    percent_of_life,
)
from monitor_companion.report import DetailReport, billionths_of
from monitor_companion.report_reading import Reading, Series

BOTTOM = 192
HEIGHT = 230
LEFT_WIDE = 66
MOST_LABELS = 8
# Characters of all labels of windows that fit below a chart.
MOST_CHARACTERS = 48


def time_section(series: Series) -> str:
    """The section on damage over time, or nothing where there is one report alone."""
    if len(series.readings) < 2:
        return ""
    draw = _windows_figure if series.are_windows else _growth_figure
    charts = "".join(draw(series, each.detail.name) for each in series.worst_first)
    what = (
        "Each bar is the damage of one window by itself. A cycle that is open where a window ends "
        "counts there as the half cycle that was seen; the sum of windows may differ from the "
        "count of the whole history."
        if series.are_windows
        else "Each point is a report of the same growing history."
    )
    return (
        f'<section id="time"><h2>Damage over time</h2><p>{what}</p>'
        f'<div class="charts">{charts}</div>{_tables(series)}</section>'
    )


def _printed(reading: Reading, name: str) -> DetailReport:
    return next(each.printed for each in reading.damages if each.detail.name == name)


def recorded(series: Series, reading: Reading, gauge: str) -> int | None:
    """The recorded time of a gauge in microseconds, or None where its period isn't known."""
    names = [each.name for each in series.site.gauges]
    period = series.site.periods[names.index(gauge)]
    return reading.report.gauge(gauge).samples * period if period else None


def _life_scale(values: list[Fraction]) -> Scale:
    highest = float(max(values)) * 100
    return Scale(0.0, highest * 1.1 if highest else 1.0, BOTTOM, TOP)


def _time_chart(
    series: Series, name: str, x: Scale, values: list[Fraction], x_ticks: Ticks, x_label: str
) -> Chart:
    first, last = (
        percent_of_life(_printed(series.readings[place], name).billionths) for place in (0, -1)
    )
    what = "each window" if series.are_windows else "all that was recorded until then"
    chart = Chart(
        f"time-{name}",
        f"Damage of {name} over time",
        f"Damage of {what} in {len(values)} reports: {first} per cent of the life in the first, "
        f"{last} in the last.",
        x=x,
        y=_life_scale(values),
        height=HEIGHT,
    )
    chart.axes(x_ticks, round_ticks(0, chart.y.high, 5), x_label, "% of life")
    return chart


def _growth_figure(series: Series, name: str) -> str:
    """The damage at the end of each report, over the recorded time."""
    gauge = _printed(series.whole, name).gauge
    times = [recorded(series, reading, gauge) for reading in series.readings]
    last = times[-1]
    if last:
        unit, unit_name = _unit(last)
        places = [(time or 0) / unit for time in times]
        x_label = f"Recorded, {unit_name}"
    else:
        places = [float(reading.report.gauge(gauge).samples) for reading in series.readings]
        x_label = "Samples"
    x = Scale(0.0, max(places[-1], 1e-9) * 1.02, LEFT_WIDE, RIGHT)
    values = [_printed(reading, name).damage for reading in series.readings]
    chart = _time_chart(series, name, x, values, round_ticks(0, x.high, 6), x_label)
    points = [
        (chart.x(at), chart.y(float(value) * 100))
        for at, value in zip(places, values, strict=True)
    ]
    chart.line([(chart.x(0), chart.y(0)), points[0]], "guess")
    chart.line(points, "cumulated")
    for at, value in points:
        chart.add(f'<circle class="point" cx="{number(at)}" cy="{number(value)}" r="2.8"/>')
    chart.baseline()
    return figure(f"{name}, on {gauge}", chart.text(), "")


def _unit(microseconds: int) -> tuple[int, str]:
    for unit, name in ((2 * DAY, "days"), (2 * HOUR, "h"), (2 * MINUTE, "min")):
        if microseconds >= unit:
            return unit // 2, name
    return 1_000_000, "s"


def _windows_figure(series: Series, name: str) -> str:
    """The damage of each window as a bar."""
    values = [_printed(reading, name).damage for reading in series.readings]
    labels = [reading.label for reading in series.readings]
    x = Scale(-0.5, len(values) - 0.5, LEFT_WIDE, RIGHT)
    fitting = min(MOST_LABELS, max(1, MOST_CHARACTERS // max(len(label) for label in labels)))
    step = -(-len(labels) // fitting)
    ticks = [(float(at), labels[at]) for at in range(0, len(labels), step)]
    chart = _time_chart(series, name, x, values, ticks, "Window")
    bars = [(at - 0.36, at + 0.36, float(value) * 100) for at, value in enumerate(values)]
    bars_upwards(chart, bars, "bar")
    chart.baseline()
    return figure(f"{name}, on {_printed(series.whole, name).gauge}", chart.text(), "")


def _tables(series: Series) -> str:
    """The numbers behind the charts: a table for each detail, closed at first."""
    tables = "".join(_table(series, each.detail.name) for each in series.whole.damages)
    return f'<details class="more"><summary>The numbers</summary>{tables}</details>'


def _table(series: Series, name: str) -> str:
    gauge = _printed(series.whole, name).gauge
    rows, total = "", Fraction(0)
    for reading in series.readings:
        time = recorded(series, reading, gauge)
        printed = _printed(reading, name)
        total += printed.damage
        together = f"<td>{percent_of_life(billionths_of(total))}</td>"
        rows += (
            f'<tr><th scope="row">{escaped(reading.label)}</th>'
            f"<td>{grouped(reading.report.gauge(gauge).samples)}</td>"
            f"<td>{'' if time is None else duration(time)}</td>"
            f"<td>{percent_of_life(printed.billionths)}</td>"
            f"{together if series.are_windows else ''}</tr>"
        )
    together = '<th scope="col">Sum<br><small>% of life</small></th>'
    return (
        f'<table class="numbers"><caption>{escaped(name)}</caption><thead><tr>'
        '<th scope="col">Report</th><th scope="col">Samples</th><th scope="col">Recorded</th>'
        '<th scope="col">Damage<br><small>% of life</small></th>'
        f"{together if series.are_windows else ''}</tr></thead><tbody>{rows}</tbody></table>"
    )
