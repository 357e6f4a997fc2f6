"""Warns of what the readings of a gauge say about its gain, its classes and its logger."""

from __future__ import annotations

from collections.abc import Mapping
from dataclasses import dataclass
from decimal import Decimal
from fractions import Fraction

from monitor_companion.check_findings import Findings
from monitor_companion.check_hints import KPA_PER_STEP
from monitor_companion.check_meaning import KPA_PER_N_MM2, n_mm2, span_text
from monitor_companion.check_scan import Readings
from monitor_companion.refusals import Place
from monitor_companion.report import MAX_CLASSES
from monitor_companion.site import MAX_KPA, MAX_SPAN, Gauge, Grid, Site, line_of

# spellings of "no reading" that loggers write as numbers
MARKERS = frozenset(
    sign * value
    for sign in (1, -1)
    for value in (
        999,
        6999,
        7999,
        9999,
        99999,
        999999,
        9999999,
        32767,
        32768,
        8388607,
        8388608,
        2**31 - 1,
    )
)
# so many equal readings far from all others are no spikes
MANY = 3
# a gauge that rests nearer to an end than this part of the classes is at the edge
EDGE_PART = 20
# a gauge that rests so many classes from 0 N/mm² needs another offset, where one was given
FAR_CLASSES = 4
STILL_SAMPLES, STILL_PART = 10_000, 10


@dataclass(frozen=True)
class Limits:
    """Shares in per cent above which readings are told."""

    refused: Decimal = Decimal("0.1")
    missing: Decimal = Decimal(5)


def percent(part: int, whole: int) -> str:
    """Returns a share in per cent with two digits that count, rounded down."""
    if not part:
        return "0 %"
    share = Decimal(100 * part) / Decimal(whole)
    places = 0 if share >= 10 else 1 if share >= 1 else 1 - share.adjusted()
    cut = share.quantize(Decimal(1).scaleb(-places), rounding="ROUND_DOWN")
    text = f"{cut:f}"
    return (text.rstrip("0").rstrip(".") if "." in text else text) + " %"


def _exceeds(part: int, whole: int, limit: Decimal) -> bool:
    return whole > 0 and Decimal(100 * part) > limit * whole


def classes_for(low: int, high: int, width: int) -> tuple[int, int, int] | None:
    """Returns low, width and classes that hold the stresses from low to high in kPa, or None.

    The width is the given one, or the least greater one that the limits of a grid allow.
    """
    for wider in range(width, MAX_SPAN + 1):
        step = KPA_PER_STEP * wider
        start = low // step * step
        classes = max(2, (high - start) // step + 1)
        if classes <= MAX_CLASSES and (classes - 1) * wider <= MAX_SPAN and abs(start) <= MAX_KPA:
            return start, wider, classes
    return None


def wide_classes(low: int, high: int, grid: Grid) -> tuple[int, int, int] | None:
    """Returns such classes with room at both ends: as many as there are, or a tenth more."""
    tight = classes_for(low, high, grid.width)
    if tight is None:
        return None
    start, width, classes = tight
    wanted = max(classes + classes // 10, grid.classes if width == grid.width else 0)
    most = min(MAX_CLASSES, MAX_SPAN // width + 1)
    wanted = max(classes, min(wanted, most))
    start -= (wanted - classes) // 2 * KPA_PER_STEP * width
    return (start, width, wanted) if abs(start) <= MAX_KPA else tight


def warn_readings(
    site: Site, readings: Mapping[int, Readings], limits: Limits, findings: Findings
) -> None:
    """Warns gauge by gauge, and then of details whose gauges have no readings."""
    for gauge in site.gauges:
        if gauge.number in readings:
            _warn_gauge(site, gauge, readings, limits, findings)
    without = {
        gauge.name: gauge.title
        for gauge in site.gauges
        if gauge.number in readings and not readings[gauge.number].used
    }
    for detail in site.details:
        if detail.gauge in without:
            text = f"{detail.title}: its {without[detail.gauge]} has no reading in the classes"
            findings.warn(site.place(line_of(detail.lines, "gauge")), f"{text}: its damage is 0")


def _warn_gauge(
    site: Site, gauge: Gauge, readings: Mapping[int, Readings], limits: Limits, findings: Findings
) -> None:
    facts = readings[gauge.number]
    place = site.place(line_of(gauge.lines, "file"))
    front = gauge.front
    if not facts.samples:
        findings.warn(place, f"{front} has no samples")
        return
    if not facts.valid:
        findings.warn(place, f"{front}: all {facts.read} readings are missing")
        return
    if _exceeds(facts.missing, facts.read, limits.missing):
        share = percent(facts.missing, facts.read)
        findings.warn(
            place, f"{front}: {facts.missing} of {facts.read} readings are missing ({share})"
        )
    if facts.lowest == facts.highest:
        findings.warn(
            place, f"{front}: all {facts.valid} readings are {facts.lowest}: the gauge is dead"
        )
        return
    _warn_markers(facts, place, front, findings)
    _warn_end(facts, place, front, findings)
    if site.grid is not None and gauge.num:
        _warn_refused(site, gauge, readings, limits, findings)
        _warn_rest(site, site.grid, gauge, facts, findings)
        _warn_span(site, site.grid, gauge, facts, findings)


def _warn_markers(facts: Readings, place: Place, front: str, findings: Findings) -> None:
    """Readings at an end that are far from all others, or stop abruptly, and zeros far from all."""
    if facts.inner is None:
        return
    (low, high), (clipped_low, clipped_high) = facts.inner, facts.clipped
    for value, count, near, clipped in (
        (facts.lowest, facts.lowest_count, low, clipped_low),
        (facts.highest, facts.highest_count, high, clipped_high),
    ):
        assert value is not None
        if value == 0 and facts.lone_zeros:
            continue
        text = f"{front}: {value} stands there {_times(count)}"
        if abs(value - near) > high - low and (value in MARKERS or count >= MANY):
            advice = "is it the logger's mark for no reading?"
            findings.warn(place, f"{text}, far from all others: {advice}")
        elif clipped and abs(value - near) <= (high - low) // 10:
            findings.warn(place, f"{text}, and hardly any reading near it: does the logger clip?")
    if facts.lone_zeros:
        text = f"{front}: 0 stands there {_times(facts.lone_zeros)} between readings far from it"
        findings.warn(place, f"{text}: are these dropouts? They count as cycles")


def _times(count: int) -> str:
    return "once" if count == 1 else f"{count} times"


def _warn_end(facts: Readings, place: Place, front: str, findings: Findings) -> None:
    still = facts.still_end
    if still >= STILL_SAMPLES and still * STILL_PART >= facts.samples:
        share = percent(still, facts.samples)
        findings.warn(
            place, f"{front}: the last {still} samples ({share}) are one value: did the gauge fail?"
        )
    elif facts.repeated_end:
        count = facts.repeated_end
        text = f"{front}: the last {count} samples are the same as the {count} before them"
        findings.warn(place, f"{text}: were they appended twice?")


def _stresses(gauge: Gauge, facts: Readings) -> tuple[int, int]:
    """Returns the lowest and the highest stress in kPa."""
    assert facts.lowest is not None and facts.highest is not None
    low, high = sorted((gauge.kpa(facts.lowest), gauge.kpa(facts.highest)))
    return low, high


def _warn_refused(
    site: Site, gauge: Gauge, readings: Mapping[int, Readings], limits: Limits, findings: Findings
) -> None:
    facts, grid = readings[gauge.number], site.grid
    assert grid is not None
    if not _exceeds(facts.refused, facts.read, limits.refused):
        return
    low, high = _stresses(gauge, facts)
    text = (
        f"{gauge.title}: {facts.refused} of {facts.read} readings are refused"
        f" ({percent(facts.refused, facts.read)}), so its table isn't that of the whole history;"
        f" its stresses reach from {n_mm2(low)} to {n_mm2(high)} N/mm²; {span_text(grid)}"
    )
    findings.warn_setup(site.place(line_of(gauge.lines, "num")), text + _holding(site, readings))


def _holding(site: Site, readings: Mapping[int, Readings]) -> str:
    """Returns which classes would hold the readings of all gauges."""
    assert site.grid is not None
    ends = [0]
    for gauge in site.gauges:
        facts = readings.get(gauge.number)
        if facts is not None and facts.valid:
            ends += _stresses(gauge, facts)
    held = wide_classes(min(ends), max(ends), site.grid)
    if held is None:
        return "; no classes hold them all: look at what the logger wrote"
    low, width, classes = held
    return f"; low = {low}, width = {width} and classes = {classes} hold all readings of all gauges"


def _warn_rest(site: Site, grid: Grid, gauge: Gauge, facts: Readings, findings: Findings) -> None:
    """The resting value lies well inside the classes."""
    assert facts.rest is not None
    rest = gauge.kpa(facts.rest)
    level = grid.level(rest)
    edge = min(max(1, grid.classes // EDGE_PART), (grid.classes - 1) // 2)
    place = site.place(line_of(gauge.lines, "offset" if "offset" in gauge.lines else "num"))
    meant = _meant_offset(gauge, facts.rest, grid.step)
    text = f"{gauge.title} rests at {n_mm2(rest)} N/mm²"
    if edge <= level < grid.classes - edge:
        if meant and abs(rest) >= FAR_CLASSES * grid.step:
            findings.warn_setup(place, text + meant)
        return
    where = "outside the classes" if not 0 <= level < grid.classes else "at the edge of the classes"
    text += f", {where}; {span_text(grid)}{meant}"
    zero = -(facts.rest * gauge.num // gauge.den)
    # Where 0 N/mm² itself is at the edge, the classes are to be moved, and not the gauge.
    if not meant and abs(zero) <= MAX_KPA and edge <= grid.level(0) < grid.classes - edge:
        text += f"; offset = {zero} rests at 0 N/mm²"
    findings.warn_setup(place, text)


def _meant_offset(gauge: Gauge, rest: int, step: int) -> str:
    """Returns the offset that was probably meant, where one rests near to 0 N/mm²."""
    zero = -(rest * gauge.num // gauge.den)
    candidates = {
        gauge.offset * KPA_PER_N_MM2: "N/mm² in kPa",
        gauge.offset * gauge.num // gauge.den: "steps of the logger in kPa",
        -gauge.offset: "with its sign turned",
    }
    for offset, why in candidates.items():
        if gauge.offset and abs(offset - zero) <= abs(zero) // 20 + step:
            return f"; offset = {offset} was probably meant ({why})"
    return ""


def _warn_span(site: Site, grid: Grid, gauge: Gauge, facts: Readings, findings: Findings) -> None:
    """The common readings reach over some classes."""
    if facts.common is None:
        return
    low, high = sorted(gauge.kpa(raw) for raw in facts.common)
    lowest, highest = _stresses(gauge, facts)
    if highest - lowest >= 2 * grid.step:
        return
    text = (
        f"{gauge.title}: all its readings lie within {n_mm2(highest - lowest)} N/mm²,"
        f" and a class is {n_mm2(grid.step)} N/mm² wide"
    )
    gain = Fraction(gauge.num * KPA_PER_N_MM2, gauge.den)
    if 2 * grid.step <= (high - low) * KPA_PER_N_MM2 < grid.top - grid.low:
        text += f"; a gain of {gain} kPa a step was perhaps meant (N/mm² in kPa)"
    findings.warn_setup(site.place(line_of(gauge.lines, "num")), text)
