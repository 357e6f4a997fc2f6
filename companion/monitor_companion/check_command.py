"""`check`: explains what the program would refuse of a site, and what it would take in silence."""

from __future__ import annotations

import argparse
import pathlib
from collections.abc import Sequence
from dataclasses import dataclass, field
from decimal import Decimal, InvalidOperation

from monitor_companion.check_findings import Findings, Severity
from monitor_companion.check_heads import READ_FAULT, Recording, read_heads
from monitor_companion.check_meaning import n_mm2, warn_meaning
from monitor_companion.check_readings import Limits, percent, warn_readings
from monitor_companion.check_recordings import check_recordings, warn_recordings
from monitor_companion.check_scan import Readings, scan
from monitor_companion.check_store import check_store, load_store, note_fixed
from monitor_companion.recording import HEAD_BYTES, SAMPLE_BYTES
from monitor_companion.refusals import Place, Refusal, Status
from monitor_companion.site import Site, add_site_option, check_site
from monitor_companion.store_head import Store
from monitor_companion.wording import counted

SUMMARY = "explain what monitor would refuse of a site, or take in silence"
MEGABYTE = 1_000_000


@dataclass
class Checked:
    """All that a check found out."""

    findings: Findings = field(default_factory=Findings)
    site: Site | None = None
    store: Store | None = None
    recordings: Sequence[Recording] = ()
    # by the number of the gauge
    readings: dict[int, Readings] = field(default_factory=dict)


def add_arguments(parser: argparse.ArgumentParser) -> None:
    """Adds the words of the command."""
    add_site_option(parser)
    parser.add_argument(
        "--limit",
        type=_megabytes,
        metavar="MB",
        help="read at most so many megabytes of each recording, evenly (all)",
    )
    parser.add_argument(
        "--refused",
        type=_share,
        default=Limits().refused,
        metavar="PERCENT",
        help="warn where more readings than this are refused (0.1)",
    )
    parser.add_argument(
        "--missing",
        type=_share,
        default=Limits().missing,
        metavar="PERCENT",
        help="warn where more readings than this are missing (5)",
    )


def _megabytes(word: str) -> int:
    """Returns so many megabytes in bytes."""
    try:
        size = int(Decimal(word) * MEGABYTE)
    except (InvalidOperation, ValueError, OverflowError):
        size = 0
    if size < 1:
        raise argparse.ArgumentTypeError(f"{word!r} is no number of megabytes above 0")
    return size


def _share(word: str) -> Decimal:
    """Returns a share in per cent."""
    try:
        share = Decimal(word.removesuffix("%"))
    except InvalidOperation:
        share = Decimal(-1)
    if not share.is_finite() or not 0 <= share <= 100:
        raise argparse.ArgumentTypeError(f"{word!r} is no share from 0 to 100 per cent")
    return share


def run(arguments: argparse.Namespace) -> Status:
    """Checks the site, and prints each finding as a line."""
    folder: pathlib.Path = arguments.site
    if not folder.is_dir():
        raise Refusal(Place(str(folder)), "is no folder")
    limits = Limits(arguments.refused, arguments.missing)
    checked = check_folder(folder, limits, arguments.limit)
    for finding in checked.findings:
        print(finding)
    for line in summary(checked):
        print(line)
    return checked.findings.status


def check_folder(
    folder: pathlib.Path, limits: Limits | None = None, limit: int | None = None
) -> Checked:
    """Checks a folder; at most `limit` bytes of each recording are read."""
    checked = Checked()
    findings = checked.findings
    site = checked.site = check_site(folder, findings)
    if site is None:
        return checked
    checked.recordings = read_heads(site)
    checked.store = load_store(folder, findings)
    if checked.store is not None:
        check_store(checked.store, site, checked.recordings, findings)
    check_recordings(site, checked.recordings, checked.store, findings)
    _scan_all(checked, site, limit)
    warn_meaning(site, findings)
    warn_recordings(folder, site, checked.recordings, findings)
    warn_readings(site, checked.readings, limits or Limits(), findings)
    if checked.store is not None:
        note_fixed(checked.store, findings)
    return checked


def _scan_all(checked: Checked, site: Site, limit: int | None) -> None:
    """Reads the samples of the recordings whose heads are sound."""
    for recording in checked.recordings:
        if recording.fault is not None:
            continue
        try:
            checked.readings[recording.gauge.number] = scan(recording, site.grid, limit)
        except OSError as error:
            place = site.place(recording.gauge.lines.get("file"))
            text = f"{recording.gauge.front} can't be read: {error.strerror}"
            checked.findings.fault(place, text, 6, READ_FAULT)


def summary(checked: Checked) -> list[str]:
    """Returns what was read, what the program would tell first, and how much was found."""
    lines = []
    if checked.site is not None and checked.site.grid is not None:
        grid = checked.site.grid
        reference = grid.low + grid.reference * grid.step
        lines.append(
            f"grid: {grid.classes} classes of {n_mm2(grid.step)} N/mm² from {n_mm2(grid.low)}"
            f" to {n_mm2(grid.top)} N/mm², reference at {n_mm2(reference)} N/mm²"
        )
    lines += [
        _read_line(checked, recording)
        for recording in checked.recordings
        if recording.gauge.number in checked.readings
    ]
    findings = checked.findings
    verdict = findings.verdict
    if verdict is not None:
        lines.append(f"monitor would end with status {verdict.status}: {verdict.line}")
    counts = [counted(findings.count(severity), severity.value) for severity in Severity]
    lines.append("check: " + ", ".join(counts))
    return lines


def _read_line(checked: Checked, recording: Recording) -> str:
    gauge, facts = recording.gauge, checked.readings[recording.gauge.number]
    size = SAMPLE_BYTES * facts.read + HEAD_BYTES
    line = f"read {gauge.name}: {facts.read} of {facts.samples} samples ({size} bytes)"
    if not facts.valid:
        return f"{line}, none a reading"
    line += f", missing {facts.missing} ({percent(facts.missing, facts.read)})"
    grid = checked.site.grid if checked.site is not None else None
    if grid is not None:
        line += f", refused {facts.refused} ({percent(facts.refused, facts.read)})"
    if checked.store is not None and gauge.number < len(checked.store.held):
        line += f", held {checked.store.held[gauge.number].samples}"
    if facts.common is not None and facts.rest is not None:
        low, high = sorted(gauge.kpa(raw) for raw in facts.common)
        line += f", rests at {n_mm2(gauge.kpa(facts.rest))} N/mm²"
        line += f", mostly {n_mm2(low)} to {n_mm2(high)}"
    return line
