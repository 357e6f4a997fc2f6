"""The head of a page: each detail with its damage, the worst first, and each gauge."""

from __future__ import annotations

from decimal import Decimal
from fractions import Fraction

from monitor_companion.page_text import (
    THIN_SPACE,
    days,
    duration,
    escaped,
    fixed,
    grouped,
    percent_of_life,
    small_percent,
)
from monitor_companion.page_time import recorded
from monitor_companion.report import GaugeReport
from monitor_companion.report_agreement import DetailDamage
from monitor_companion.report_reading import Series


def summary_section(series: Series) -> str:
    """The summary."""
    of_windows = f", {len(series.readings)} windows together" if series.are_windows else ""
    return (
        f'<section id="summary"><h2>Summary{of_windows}</h2>{_warnings(series)}'
        f"{_details_table(series)}{_gauges_table(series)}</section>"
    )


def _warnings(series: Series) -> str:
    lines = "".join(
        f"<li><b>{escaped(gauge.name)}</b>: {grouped(gauge.refused)} of {grouped(gauge.samples)} "
        f"readings ({_percent(gauge.refused, gauge.samples)})</li>"
        for gauge in series.whole.report.gauges
        if gauge.refused
    )
    if not lines:
        return ""
    grid = series.site.grid
    span = f"{_stress(grid.stress(0))} to {_stress(grid.stress(grid.classes))} N/mm²"
    return (
        '<div class="warning" role="note"><p><strong>Warning: the tables are incomplete.</strong> '
        f"Readings outside the stress classes, {span}, were refused and left out. The damage of "
        f"these gauges’ details may be too small:</p><ul>{lines}</ul></div>"
    )


def _stress(stress: Decimal) -> str:
    value = Fraction(stress)
    return fixed(value, 0 if value.denominator == 1 else 3)


def _details_table(series: Series) -> str:
    damages = series.worst_first
    if not damages:
        return '<p class="note">The configuration has no weld detail.</p>'
    most = damages[0].printed.damage
    rows = "".join(_detail_row(each, most) for each in damages)
    printed = "the sum of what the program printed" if series.are_windows else "as it was printed"
    return (
        '<table class="details"><caption>Weld details, the worst first</caption><thead><tr>'
        '<th scope="col">Detail</th><th scope="col">Gauge</th><th scope="col">Category</th>'
        '<th scope="col" class="number">Factor</th><th scope="col" class="number">Damage<br>'
        '<small>% of life</small></th><th scope="col" class="share" aria-hidden="true"></th>'
        f"</tr></thead><tbody>{rows}</tbody></table>"
        f'<p class="note">Damage by EN 1993-1-9:2005, Annex A, {printed}: rounded '
        "up at the last digit; 100\u00a0% is the whole life. Bars compare with the worst.</p>"
    )


def _detail_row(damage: DetailDamage, most: Fraction) -> str:
    detail, printed = damage.detail, damage.printed
    curve = detail.curve
    share = float(printed.damage / most) * 100 if most else 0.0
    percent = percent_of_life(printed.billionths)
    factor = fixed(curve.factor, 2)
    past = ' <span class="past">past its life</span>' if printed.damage >= 1 else ""
    return (
        f'<tr><th scope="row"><a href="#detail-{detail.name}">{escaped(detail.name)}</a>{past}</th>'
        f"<td>{escaped(detail.gauge)}</td>"
        f'<td>{curve.kind.value} <data value="{curve.category}">{curve.category}</data></td>'
        f'<td class="number"><span class="word">factor </span>'
        f'<data value="{factor}">{factor}</data></td>'
        f'<td class="number strong"><data value="{printed.billionths}">{percent}</data>'
        '<span class="word"> %</span></td>'
        f'<td class="share" aria-hidden="true"><i style="width:{share:.1f}%"></i></td></tr>'
    )


def _gauges_table(series: Series) -> str:
    rows = "".join(_gauge_row(series, gauge) for gauge in series.whole.report.gauges)
    unknown = any(not period for period in series.site.periods)
    note = (
        '<p class="note">– : the period of the samples isn’t known. The site’s folder has neither '
        "a store nor a recording of the gauge, or these say 0.</p>"
        if unknown
        else ""
    )
    return (
        '<table class="gauges"><caption>Gauges</caption><thead><tr><th scope="col">Gauge</th>'
        '<th scope="col" class="number">Samples</th><th scope="col" class="number">Recorded<br>'
        '<small>days</small></th><th scope="col" class="number">Missing</th>'
        '<th scope="col" class="number">Refused</th></tr></thead>'
        f"<tbody>{rows}</tbody></table>{note}"
    )


def _gauge_row(series: Series, gauge: GaugeReport) -> str:
    time = recorded(series, series.whole, gauge.name)
    shown = "–" if time is None else f'{days(time)} <small class="under">{duration(time)}</small>'
    return (
        f'<tr><th scope="row"><a href="#gauge-{gauge.name}">{escaped(gauge.name)}</a></th>'
        f"{_count_cell('samples', gauge.samples, '')}"
        f'<td class="number" data-word="days">{shown}</td>'
        f"{_count_cell('missing', gauge.missing, _share(gauge.missing, gauge.samples))}"
        f"{_count_cell('refused', gauge.refused, _share(gauge.refused, gauge.samples))}</tr>"
    )


def _count_cell(word: str, count: int, under: str) -> str:
    flagged = " flagged" if word == "refused" and count else ""
    return (
        f'<td class="number{flagged}" data-word="{word}"><data value="{count}">{grouped(count)}'
        f'</data>{under}</td>'
    )


def _percent(count: int, samples: int) -> str:
    return f"{small_percent(Fraction(count, samples), 2)}{THIN_SPACE}%"


def _share(count: int, samples: int) -> str:
    if not count:
        return ""
    return f' <small class="under">{_percent(count, samples)}</small>'
