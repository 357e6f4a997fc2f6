"""What is wrong with the recordings of a site as files: their heads, lengths and names."""

from __future__ import annotations

import pathlib
from collections.abc import Sequence

from monitor_companion import check_words as words
from monitor_companion.check_findings import Finding, Findings, Severity
from monitor_companion.check_heads import NOT_TOLD, READ_FAULT, Recording
from monitor_companion.check_store import NEW_STORE, order_of
from monitor_companion.recording import MOST_SAMPLES
from monitor_companion.refusals import Place
from monitor_companion.site import Site
from monitor_companion.store_head import Store, StoredGauge

RECORDING_STATUS, TORN_STATUS, TOO_LONG_STATUS = 4, 5, 10
SECOND = 1_000_000


def check_recordings(
    site: Site, recordings: Sequence[Recording], store: Store | None, findings: Findings
) -> None:
    """Tells in the order of the program what is wrong with the recordings."""
    order = (
        order_of(store.head, site, recordings)
        if store is not None and store.head is not None
        else ""
    )
    for recording in recordings:
        number = recording.gauge.number
        if recording.fault is not None:
            _tell_head(site, recording, recordings, findings)
        elif store is not None and store.head is not None and number < len(store.head.gauges):
            _tell_other(site, recording, store.head.gauges[number], order, findings)
            held = store.held[number].samples
            if store.damage is None and recording.samples < held:
                _tell_fewer(site, recording, held, findings)
    for recording in recordings:
        if recording.fault is None:
            _tell_end(site, recording, findings)


def _place(site: Site, recording: Recording) -> Place:
    return site.place(recording.gauge.lines.get("file"))


def _tell_head(
    site: Site, recording: Recording, recordings: Sequence[Recording], findings: Findings
) -> None:
    fault = recording.fault
    assert fault is not None
    text = f"{recording.gauge.front} {fault.text}"
    if fault.told == READ_FAULT:
        text += _meant_file(recording, recordings)
        findings.fault(_place(site, recording), text, fault.status, READ_FAULT)
        return
    if fault.told == NOT_TOLD:
        findings.found.append(Finding(Severity.FAULT, _place(site, recording), text))
        return
    told = f"recording {recording.gauge.name}: {fault.told}"
    findings.fault(_place(site, recording), text, fault.status, told)


def _meant_file(recording: Recording, recordings: Sequence[Recording]) -> str:
    """Returns which file was probably meant by one that isn't there."""
    file = recording.gauge.file
    if "\\" in file:
        return f'; a path has slashes: file = "{file.replace(chr(92), "/")}" was probably meant'
    folder = recording.path.parent
    try:
        there = sorted(path.name for path in folder.iterdir() if path.is_file())
    except OSError:
        return f"; there is no folder {folder}"
    stem = pathlib.PurePath(file).stem
    export = next(
        (name for name in there if name.lower() in (f"{stem}.csv", f"{stem}.txt", f"{stem}.dat")),
        None,
    )
    if export is not None:
        return f"; {export} is there: import it"
    used = {other.path for other in recordings if other.fault is None}
    free = [name for name in there if name.lower().endswith(".sgrc") and folder / name not in used]
    near = words.nearest(stem, [pathlib.PurePath(name).stem for name in free])
    meant = next((name for name in free if pathlib.PurePath(name).stem == near), None)
    if meant is None:
        return ""
    return f'; file = "{pathlib.PurePath(file).with_name(meant)}" was probably meant'


def _tell_other(
    site: Site, recording: Recording, kept: StoredGauge, order: str, findings: Findings
) -> None:
    """Tells where the recording is not the one that the store was made for."""
    name = recording.gauge.name
    if recording.id != kept.id:
        text = f"{recording.gauge.front} has the id {recording.id.hex()}"
        text += f", but monitor.store was made for {kept.id.hex()}"
        if order:
            text += f"; {order}"
        else:
            text += f"; put the recording of that id in its place, or {NEW_STORE}"
        told = f"recording {name}: id was {kept.id.hex()}, is {recording.id.hex()}"
        findings.fault(_place(site, recording), text, RECORDING_STATUS, told)
    if recording.period != kept.period:
        text = (
            f"{recording.gauge.front} has a period of {recording.period} µs,"
            f" but monitor.store was made for {kept.period} µs;"
            f" put that recording in its place, or {NEW_STORE}"
        )
        told = f"recording {name}: period was {kept.period}, is {recording.period}"
        findings.fault(_place(site, recording), text, RECORDING_STATUS, told)


def _tell_fewer(site: Site, recording: Recording, held: int, findings: Findings) -> None:
    text = (
        f"{recording.gauge.front} has {recording.samples} samples,"
        f" but {held} are held in monitor.store; a recording may only grow: put the longer one back"
    )
    told = f"recording {recording.gauge.name}: {held} held, {recording.samples} there"
    findings.fault(_place(site, recording), text, RECORDING_STATUS, told)


def _tell_end(site: Site, recording: Recording, findings: Findings) -> None:
    name = recording.gauge.name
    if recording.samples > MOST_SAMPLES:
        text = f"{recording.gauge.front} has {recording.samples} samples"
        text += f"; allowed are {MOST_SAMPLES}: begin a new one"
        findings.fault(
            _place(site, recording), text, TOO_LONG_STATUS, f"recording {name}: too long"
        )
    elif recording.odd_bytes:
        odd = recording.odd_bytes
        text = f"{recording.gauge.front} ends with {odd} of the 4 bytes of a sample"
        text += "; wait until the rest is written"
        told = f"recording {name}: ends in {odd} odd bytes"
        findings.fault(_place(site, recording), text, TORN_STATUS, told)


def warn_recordings(
    folder: pathlib.Path, site: Site, recordings: Sequence[Recording], findings: Findings
) -> None:
    """Warns of one file or id for two gauges, odd periods, and files that no gauge counts."""
    sound = [recording for recording in recordings if recording.fault is None]
    _warn_shared(site, sound, findings)
    for recording in sound:
        _warn_period(site, recording, findings)
    periods = {recording.period for recording in sound}
    if len(periods) > 1:
        shown = ", ".join(f"{period} µs" for period in sorted(periods))
        findings.note(site.place(), f"the recordings have several periods: {shown}")
    _note_shorter(site, sound, findings)
    _note_unused(folder, site, recordings, findings)


def _note_shorter(site: Site, recordings: Sequence[Recording], findings: Findings) -> None:
    """Notes recordings that have a tenth fewer samples than the longest of the same period."""
    for recording in recordings:
        alike = [other for other in recordings if other.period == recording.period]
        longest = max(alike, key=lambda other: other.samples)
        if 0 < recording.samples * 10 <= longest.samples * 9:
            text = f"{recording.gauge.front} has {recording.samples} samples"
            other = f"{longest.gauge.file} {longest.samples}"
            findings.note(_place(site, recording), f"{text}, {other}")


def _warn_shared(site: Site, recordings: Sequence[Recording], findings: Findings) -> None:
    files: dict[tuple[int, int], Recording] = {}
    ids: dict[bytes, Recording] = {}
    for recording in recordings:
        if recording.identity is not None:
            first = files.setdefault(recording.identity, recording)
            if first is not recording:
                text = f"{recording.gauge.front} is the recording of {first.gauge.title} too"
                findings.warn(_place(site, recording), text)
                continue
        other = ids.setdefault(recording.id, recording)
        if other is not recording:
            text = (
                f"{recording.gauge.front} has the id {recording.id.hex()} of {other.gauge.title}"
                f" ({other.gauge.file}); each recording has an id of its own"
            )
            findings.warn(_place(site, recording), text)


def _warn_period(site: Site, recording: Recording, findings: Findings) -> None:
    period = recording.period
    text = f"{recording.gauge.front} has a period of {period} µs"
    if period == 0:
        findings.warn(_place(site, recording), f"{text}; 50000 µs are 20 samples a second")
    elif period < 100:
        hertz = f"{SECOND // period} µs ({period} samples a second) was probably meant"
        findings.warn(
            _place(site, recording), f"{text}, {SECOND // period} samples a second; {hertz}"
        )
    elif period > SECOND:
        text += "; between samples more than a second apart vehicles pass unseen"
        findings.warn(_place(site, recording), text)


def _note_unused(
    folder: pathlib.Path, site: Site, recordings: Sequence[Recording], findings: Findings
) -> None:
    """Notes recordings in the folder that no gauge counts."""
    if len(recordings) < site.gauge_tables:
        return
    used = {recording.identity for recording in recordings}
    for path in sorted(folder.glob("*.sgrc")):
        try:
            state = path.stat()
        except OSError:
            continue
        if (state.st_dev, state.st_ino) not in used:
            findings.note(site.place(), f"no gauge counts {path.name}")
