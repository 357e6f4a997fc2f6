"""Warns of what a sound configuration probably doesn't mean, without a look at the readings."""

from __future__ import annotations

import pathlib
from fractions import Fraction

from monitor_companion.check_findings import Findings
from monitor_companion.check_hints import KPA_PER_STEP
from monitor_companion.curves import Curve
from monitor_companion.site import MAX_SPAN, Detail, Gauge, Grid, Site, line_of
from monitor_companion.wording import thousandths_text

# a step of the logger over so many classes leaves most of them empty
MANY_CLASSES = 4
# the program stores after each round of 16 blocks
SMALL_BLOCK, ROUND_BLOCKS = 64, 16
KPA_PER_N_MM2 = 1000


def n_mm2(kpa: int | Fraction) -> str:
    """Returns a stress in N/mm², exactly where three decimals hold it."""
    return thousandths_text(Fraction(kpa, KPA_PER_N_MM2))


def span_text(grid: Grid) -> str:
    """Returns from where to where the classes reach."""
    return f"the classes reach from {n_mm2(grid.low)} to {n_mm2(grid.top)} N/mm²"


def warn_meaning(site: Site, findings: Findings) -> None:
    """Warns of the grid, the gains, the details and the count."""
    if site.grid is not None:
        _warn_grid(site, site.grid, findings)
        _warn_reference(site, site.grid, findings)
        for gauge in site.gauges:
            _warn_gain(site, site.grid, gauge, findings)
        for detail in site.details:
            _warn_detail(site, site.grid, detail, findings)
    for gauge in site.gauges:
        _warn_file(site, gauge, findings)
    _warn_kinds(site, findings)
    _note_same_details(site, findings)
    _warn_block(site, findings)
    _note_details(site, findings)


def _warn_grid(site: Site, grid: Grid, findings: Findings) -> None:
    low, place = grid.low, site.place(line_of(grid.lines, "low"))
    text = f"[grid]: low = {low}: {span_text(grid)}"
    middle = f"low = {-grid.classes * grid.step // 2} puts 0 N/mm² in the middle"
    if 0 < abs(low) < KPA_PER_N_MM2:
        text = f"[grid]: low = {low} is {n_mm2(low)} N/mm², since it is in kPa"
        findings.warn_setup(place, f"{text}; low = {low * KPA_PER_N_MM2} was probably meant")
    elif low >= grid.step or grid.top <= -grid.step:
        findings.warn_setup(place, f"{text}, and 0 N/mm² has no class")
    elif low > -grid.step:
        findings.warn_setup(place, f"{text}; stresses below are refused; {middle}")
    elif grid.top < 2 * grid.step:
        findings.warn_setup(place, f"{text}; stresses above are refused; {middle}")
    if grid.classes < 8:
        text = f"[grid]: classes = {grid.classes} are very few; {span_text(grid)}"
        findings.warn_setup(site.place(line_of(grid.lines, "classes")), text)


def _warn_reference(site: Site, grid: Grid, findings: Findings) -> None:
    """The boundary of reference is that of the resting bridge, where the grid has one."""
    zero = -grid.low // grid.step
    if not 1 <= zero <= grid.classes - 1:
        return
    if abs(grid.reference - zero) * 10 <= grid.classes:
        return
    at = n_mm2(grid.low + grid.reference * grid.step)
    text = f"[grid]: reference = {grid.reference} is the boundary at {at} N/mm²"
    place = site.place(line_of(grid.lines, "reference"))
    findings.warn_setup(
        place, f"{text}; reference = {zero} (the boundary at 0 N/mm²) was probably meant"
    )


def _warn_gain(site: Site, grid: Grid, gauge: Gauge, findings: Findings) -> None:
    """A step of the logger is a part of a class."""
    place = site.place(line_of(gauge.lines, "num"))
    if gauge.num == 0:
        text = f"{gauge.title}: num = 0 makes every reading {n_mm2(gauge.offset)} N/mm²"
        findings.warn_setup(place, f"{text}; on steel a microstrain is num = 210")
        return
    step = Fraction(abs(gauge.num), gauge.den)
    text = f"{gauge.title}: num = {gauge.num}" + (f", den = {gauge.den}" if gauge.den != 1 else "")
    if step > MANY_CLASSES * grid.step:
        text += f": a step of the logger is {n_mm2(step)} N/mm², {_times(step / grid.step)} classes"
        if gauge.num % 1000 == 0 and step > 50 * KPA_PER_N_MM2:
            text += f"; num = {gauge.num // 1000} was probably meant (kPa)"
        findings.warn_setup(place, text)
    elif step * 2**31 < grid.step:
        findings.warn_setup(place, f"{text}: no reading is as much as a class")
    if gauge.offset <= grid.low - 2**31 * step or gauge.offset >= grid.top + 2**31 * step:
        text = f"{gauge.title}: offset = {gauge.offset} leaves no reading in the classes"
        findings.warn_setup(
            site.place(line_of(gauge.lines, "offset")), f"{text}; {span_text(grid)}"
        )


def _times(ratio: Fraction) -> str:
    return str(ratio) if ratio.denominator == 1 else f"about {round(ratio)}"


def _warn_file(site: Site, gauge: Gauge, findings: Findings) -> None:
    file, place = gauge.file, site.place(line_of(gauge.lines, "file"))
    front = f'{gauge.title}: file = "{file}"'
    if file != file.strip():
        findings.warn(place, f"{front} has a blank at its end")
    elif pathlib.PurePath(file).is_absolute():
        findings.warn(place, f"{front} is no path from the site's folder; the site can't be moved")
    elif pathlib.PurePath(file).name in ("monitor.toml", "monitor.store"):
        findings.warn(place, f"{front} is the site's own")


def _warn_detail(site: Site, grid: Grid, detail: Detail, findings: Findings) -> None:
    """The ranges of the grid have to reach what damages a detail, and to tell it apart."""
    limit = KPA_PER_N_MM2 * detail.curve.cut_off
    place = site.place(line_of(detail.lines, ""))
    widest = (grid.classes - 1) * grid.step
    if widest < limit:
        text = f"{detail.title}: the widest range of the classes is {n_mm2(widest)} N/mm²"
        findings.warn_setup(
            place, f"{text}, below its cut-off limit of {n_mm2(limit)}: its damage is always 0"
        )
    elif grid.step * 4 > limit:
        text = (
            f"{detail.title}: a class of {n_mm2(grid.step)} N/mm² is wide beside its cut-off limit"
        )
        findings.warn_setup(
            place, f"{text} of {n_mm2(limit)}; width = {_finer(limit)} tells ranges apart"
        )


def _finer(limit: Fraction) -> int:
    """Returns a width in steps of 500 kPa that parts the range up to a limit in ten."""
    return max(1, min(MAX_SPAN, int(limit / 10 / KPA_PER_STEP)))


def _warn_kinds(site: Site, findings: Findings) -> None:
    """A gauge measures normal or shear stress, and its details are of that kind."""
    first: dict[str, Detail] = {}
    for detail in site.details:
        other = first.setdefault(detail.gauge, detail)
        kind, other_kind = detail.curve.kind.value, other.curve.kind.value
        if other_kind != kind:
            text = f'{detail.title}: kind = "{kind}", but {other.title} on the same gauge'
            place = site.place(line_of(detail.lines, "kind"))
            findings.warn(place, f'{text} has "{other_kind}"')


def _note_same_details(site: Site, findings: Findings) -> None:
    """Two details that differ in their names alone have one damage."""
    first: dict[tuple[str, Curve], Detail] = {}
    for detail in site.details:
        other = first.setdefault((detail.gauge, detail.curve), detail)
        if other is not detail:
            text = f"{detail.title} has the gauge, kind, category and gamma of {other.title}"
            findings.note(site.place(line_of(detail.lines, "")), text)


def _warn_block(site: Site, findings: Findings) -> None:
    if site.block < SMALL_BLOCK:
        samples = site.block * ROUND_BLOCKS
        text = f"[count]: block = {site.block} has the store written after each {samples} samples"
        findings.warn(site.place(line_of(site.lines, "block")), f"{text}; 1024 is the usual block")


def _note_details(site: Site, findings: Findings) -> None:
    if site.gauges and not site.detail_tables:
        findings.note(site.place(), "there is no [[detail]], so no damage is told")
