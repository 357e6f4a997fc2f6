"""What an import tells: how the export was read, and what each recording got."""

from __future__ import annotations

from fractions import Fraction
from pathlib import Path

from monitor_companion.delivery import Pass, Staged
from monitor_companion.time_check import MICROSECOND
from monitor_companion.times import time_text
from monitor_companion.wording import counted, decimal_text, thousandths_text


def pass_lines(export: Path, found: Pass) -> list[str]:
    """The lines on one reading of an export."""
    layout, read = found.layout, found.read
    names = f"names in line {layout.names_line}" if layout.names_line else "no names"
    lines = [
        f"{export}: profile {found.profile.name}, {layout.dialect}, {names},"
        f" rows from line {layout.first_line}"
    ]
    lines += [f"  taken as a row of units: {unit}" for unit in layout.units]
    lines.append(f"  {times_text(found)}")
    lines += [f"  {told}" for told in found.told]
    for staged in found.staged:
        lines.append(f"  {staged_text(found, staged)}")
    if read.left.strip():
        lines.append(f"  {left_text(found)}")
    return lines


def times_text(found: Pass) -> str:
    """What the times say."""
    times = found.read.times
    rows = counted(found.read.rows, "row")
    if times is None or times.first is None or times.last is None:
        return (
            f"{rows} without times: gaps and repeated rows can't be seen; period {found.period} µs"
        )
    first, last = (time_text(time, times.kind) for time in (times.first, times.last))
    text = f"{rows} from {first} to {last} by {times.column}, period {found.period} µs"
    if times.jitter:
        most = thousandths_text(Fraction(times.jitter, MICROSECOND))
        text += f" (steps differ by up to {most} µs)"
    return f"{text}, {times.fault_text() if times.faults else 'no gaps, no repeated rows'}"


def staged_text(found: Pass, staged: Staged) -> str:
    """What a recording got."""
    entry, cells = staged.entry, staged.column.cells
    plan = found.layout.column_of(staged.target.gauge.name)
    text = (
        f"{staged.target.gauge.name}: column {plan.title!r} in steps of {entry.step}:"
        f" {counted(entry.rows, 'sample')}"
    )
    if cells.missing:
        parts = [f"{spelling!r} {count}" for spelling, count in sorted(cells.spellings.items())]
        text += f", {cells.missing} without reading ({', '.join(parts)})"
    if cells.rounded:
        text += f", {cells.rounded} rounded by up to {decimal_text(cells.furthest)}"
    return f"{text}; {staged.target.gauge.recording.name} has {entry.end}"


def left_text(found: Pass) -> str:
    """What is told of a last row without its line end."""
    text = found.layout.dialect.text(found.read.left[:60])
    line = found.read.end.lines + 1
    return f"line {line} has no line end, and is left for the next import: {text!r}"


def warnings(found: Pass) -> list[str]:
    """What may be wrong, though it can be read."""
    lines = []
    for staged in found.staged:
        name = staged.target.gauge.name
        for reading, count in sorted(staged.column.cells.suspected.items()):
            lines.append(
                f"{name}: {reading} stands {counted(count, 'time')}, and was taken"
                f" as a reading; --missing={reading} says that it is none"
            )
    return lines
