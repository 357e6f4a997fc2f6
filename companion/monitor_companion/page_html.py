"""A page from checked reports: one HTML text that asks for nothing else, and has no script."""

from __future__ import annotations

from monitor_companion import __version__
from monitor_companion.page_damage import damage_parts
from monitor_companion.page_levels import level_figures
from monitor_companion.page_spectrum import spectrum_figure
from monitor_companion.page_style import STYLE
from monitor_companion.page_summary import summary_section
from monitor_companion.page_text import cycles_text, escaped, grouped, percent_of_life, stress_text
from monitor_companion.page_time import time_section
from monitor_companion.report import GaugeReport
from monitor_companion.report_agreement import DetailDamage
from monitor_companion.report_reading import Series
from monitor_companion.wording import counted

# Nothing may be fetched, whatever stands in the page.
POLICY = "default-src 'none'; style-src 'unsafe-inline'; img-src data:"


def page_text(series: Series, title: str) -> str:
    """The whole page."""
    return (
        '<!doctype html>\n<html lang="en"><head><meta charset="utf-8">'
        f'<meta http-equiv="Content-Security-Policy" content="{POLICY}">'
        '<meta name="viewport" content="width=device-width,initial-scale=1">'
        f'<title>{escaped(title)}</title><link rel="icon" href="data:,">'
        f"<style>{STYLE}</style></head>\n<body>\n{_header(series, title)}\n<main>\n"
        f"{summary_section(series)}\n{time_section(series)}\n"
        + "\n".join(_gauge_section(series, gauge) for gauge in series.whole.report.gauges)
        + f"\n</main>\n{_footer(series)}\n</body></html>\n"
    )


def _header(series: Series, title: str) -> str:
    report = series.whole.report
    what = (
        f"{counted(len(report.gauges), 'gauge')}, {counted(len(report.details), 'weld detail')}: "
        "rainflow counting by ASTM E1049\u201185, damage by EN 1993-1-9:2005"
    )
    links = '<a href="#summary">Summary</a>'
    if len(series.readings) > 1:
        links += '<a href="#time">Damage over time</a>'
    links += "".join(
        f'<a href="#gauge-{gauge.name}">{escaped(gauge.name)}</a>' for gauge in report.gauges
    )
    return (
        f'<header><h1>{escaped(title)}</h1><p class="what">{what}</p>'
        f'<nav aria-label="Parts of the page">{links}</nav></header>'
    )


def _gauge_section(series: Series, gauge: GaugeReport) -> str:
    grid = series.site.grid
    cycles = cycles_text(sum(row.half_units for row in gauge.rainflow.rows))
    facts = f"{cycles} cycles from {grouped(gauge.used)} readings of {grouped(gauge.samples)}"
    if gauge.rainflow.rows:
        facts += f"; the greatest range is {stress_text(gauge.rainflow.rows[0].half_stress)} N/mm²"
    charts = "".join([spectrum_figure(gauge, series.site), *level_figures(gauge, grid)])
    details = [each for each in series.worst_first if each.detail.gauge == gauge.name]
    parts = "".join(_detail_part(series, each) for each in details)
    return (
        f'<section class="gauge" id="gauge-{gauge.name}"><h2>Gauge {escaped(gauge.name)}</h2>'
        f'<p class="facts">{facts}.</p><div class="charts">{charts}</div>{parts}</section>'
    )


def _detail_part(series: Series, damage: DetailDamage) -> str:
    name = damage.detail.name
    percent = percent_of_life(damage.printed.billionths)
    return (
        f'<div class="detail" id="detail-{name}"><h3>{escaped(name)}: which ranges do the damage'
        f'</h3><p class="facts">{escaped(damage.detail.curve.words)}. Damage {percent} % of the '
        f"life.</p>{damage_parts(damage, series.site.grid)}</div>"
    )


def _footer(series: Series) -> str:
    files = "".join(
        f"<li>{escaped(reading.report.file)}, SHA-256 <code>{reading.digest}</code></li>"
        for reading in series.readings
    )
    grid = (
        ""
        if series.site.has_store
        else "<p>The site’s folder has no store, and a report doesn’t tell where its classes "
        "begin: stresses (not ranges) are as the configuration says.</p>"
    )
    return (
        '<footer><div class="inner"><h2>Made from</h2>'
        f"<ul>{files}<li>configuration {escaped(series.site.file)}</li></ul>{grid}"
        "<p>The damage of each detail was computed again, exactly, from the rainflow table and "
        "the configuration, and equals the fraction that the program printed. Damage by range "
        "is shown rounded to the nearest digit. "
        f"Drawn by monitor-companion {__version__}.</p></div></footer>"
    )
