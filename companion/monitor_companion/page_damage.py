"""Which ranges do the damage of a detail: a chart, and a table of those that do most."""

from __future__ import annotations

from fractions import Fraction

from monitor_companion.curves import Curve, RangeDamage
from monitor_companion.page_svg import (
    HEIGHT,
    LEFT,
    RIGHT,
    TOP,
    Chart,
    Scale,
    bars_upwards,
    figure,
    round_ticks,
)
from monitor_companion.page_text import fixed, grouped, percent_of_life, small_percent
from monitor_companion.report_agreement import DetailDamage
from monitor_companion.site import Grid
from monitor_companion.wording import counted

BOTTOM = 262
# Rows of the table; those that do less are added up in one row.
MOST_ROWS = 8
LIFE_DECIMALS = 7


def damage_parts(damage: DetailDamage, grid: Grid) -> str:
    """The chart and the table of a detail that has a damage, or a sentence where it has none."""
    total = damage.printed.damage
    if not total:
        return f'<p class="note">{_no_damage_words(damage)}</p>'
    return (
        f'<div class="pair">{_damage_figure(damage, grid)}'
        f'<div class="side">{_damage_table(damage, total)}</div></div>'
    )


def limits_words(curve: Curve) -> str:
    """The limits of a curve, with its partial factor, as a sentence."""
    cut_off = f"With the partial factor: cut-off limit {fixed(curve.cut_off, 2)} N/mm²"
    if curve.knee is None:
        return f"{cut_off}, slope 5 above it."
    return f"{cut_off}, knee {fixed(curve.knee, 2)} N/mm²; slope 5 between them, 3 above."


def _no_damage_words(damage: DetailDamage) -> str:
    if not damage.ranges:
        return "No cycle was counted, so there is no damage."
    greatest = fixed(damage.ranges[0].stress_range, 1)
    limit = fixed(damage.detail.curve.cut_off, 2)
    return (
        f"The greatest range, {greatest} N/mm², lies below the cut-off limit with the partial "
        f"factor, {limit} N/mm²: no damage."
    )


def _damage_figure(damage: DetailDamage, grid: Grid) -> str:
    total = damage.printed.damage
    name, curve = damage.detail.name, damage.detail.curve
    shares = [(row.stress_range, row.damage / total) for row in damage.ranges if row.damage]
    worst = max(share for _, share in shares)
    chart = Chart(
        f"damage-{name}",
        f"Damage of {name} by stress range",
        f"{len(shares)} ranges do damage, from {fixed(shares[-1][0], 1)} to "
        f"{fixed(shares[0][0], 1)} N/mm²; the worst does {small_percent(worst, 1)} per cent of it.",
        x=Scale(0.0, float(damage.ranges[0].stress_range) * 1.04, LEFT, RIGHT),
        y=Scale(0.0, float(worst) * 112, BOTTOM, TOP),
        height=HEIGHT,
    )
    chart.axes(
        round_ticks(0, chart.x.high),
        round_ticks(0, chart.y.high, 5),
        "Stress range, N/mm²",
        "Share of the damage, %",
    )
    half = grid.width / 4
    bars = [(float(at) - half, float(at) + half, float(share) * 100) for at, share in shares]
    bars_upwards(chart, bars, "bar")
    _draw_limit(chart, float(curve.cut_off), "cut-off limit")
    if curve.knee is not None:
        _draw_limit(chart, float(curve.knee), "knee")
    chart.baseline()
    return figure("Damage by stress range", chart.text(), limits_words(curve))


def _draw_limit(chart: Chart, stress: float, words: str) -> None:
    if stress > chart.x.high:
        return
    x = chart.x(stress)
    chart.line([(x, BOTTOM), (x, TOP)], "reference")
    turn = f' transform="rotate(-90 {x - 4:.1f} {TOP + 2})"'
    chart.words(x - 4, TOP + 2, words, "end small halo", turn)


def _damage_table(damage: DetailDamage, total: Fraction) -> str:
    worst = sorted((row for row in damage.ranges if row.damage), key=lambda row: -row.damage)
    shown, others = worst[:MOST_ROWS], worst[MOST_ROWS:]
    rows = [_row(row, total) for row in shown]
    if others:
        rest = sum((row.damage for row in others), Fraction(0))
        cycles = sum((row.cycles for row in others), Fraction(0))
        rows.append(_other_row(counted(len(others), "other"), cycles, rest, total))
    below = [row for row in damage.ranges if not row.damage]
    if below:
        cycles = sum((row.cycles for row in below), Fraction(0))
        rows.append(_other_row(f"{len(below)} below the limit", cycles, Fraction(0), total))
    return (
        '<table class="numbers"><thead><tr><th scope="col">Range<br><small>N/mm²</small></th>'
        '<th scope="col">Cycles</th><th scope="col">Endurance<br><small>cycles</small></th>'
        '<th scope="col">Damage<br><small>% of life</small></th>'
        '<th scope="col">Share<br><small>%</small></th></tr></thead>'
        f"<tbody>{''.join(rows)}</tbody>"
        '<tfoot><tr><th scope="row">all</th><td colspan="2"></td>'
        f"<td>{percent_of_life(damage.printed.billionths)}</td><td>100.0</td></tr></tfoot></table>"
    )


def _row(row: RangeDamage, total: Fraction) -> str:
    endurance = grouped(int(row.endurance)) if row.endurance is not None else ""
    return (
        f'<tr><th scope="row">{fixed(row.stress_range, 1)}</th><td>{fixed(row.cycles, 1)}</td>'
        f"<td>{endurance}</td><td>{small_percent(row.damage, LIFE_DECIMALS)}</td>"
        f"<td>{small_percent(row.damage / total, 1)}</td></tr>"
    )


def _other_row(words: str, cycles: Fraction, damage: Fraction, total: Fraction) -> str:
    return (
        f'<tr><th scope="row">{words}</th><td>{fixed(cycles, 1)}</td><td></td>'
        f"<td>{small_percent(damage, LIFE_DECIMALS)}</td>"
        f"<td>{small_percent(damage / total, 1)}</td></tr>"
    )
