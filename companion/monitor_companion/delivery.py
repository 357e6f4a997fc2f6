"""Brings the rows of an export behind recordings, so that a stop at any moment loses nothing.

For each recording the journal's entry is written and synced before the first of its samples; for
all of them before the first sample of any. What was cut off is finished by the same export, sample
for sample, before anything else is appended.
"""

from __future__ import annotations

import os
import secrets
import tempfile
from contextlib import ExitStack
from dataclasses import dataclass
from fractions import Fraction
from pathlib import Path
from typing import IO

from monitor_companion.journal import (
    Entry,
    Journal,
    Owner,
    add_entry,
    begin_journal,
    journal_path,
    sync_folder,
    write_beside,
)
from monitor_companion.layout import Layout, find_layout
from monitor_companion.pieces import Mark
from monitor_companion.profiles import Profile
from monitor_companion.progress import Progress
from monitor_companion.readings import missing_spellings
from monitor_companion.recording import HEAD_BYTES, MOST_SAMPLES, SAMPLE_BYTES, Head
from monitor_companion.refusals import Place, Refusal
from monitor_companion.request import Request
from monitor_companion.rows import ColumnRead, RowReader, RowsRead
from monitor_companion.targets import Target
from monitor_companion.time_check import MICROSECOND
from monitor_companion.times import TimeKind, time_from_text, time_text
from monitor_companion.wording import decimal_text

COPY = 1_048_576


@dataclass
class Staged:
    """Samples that were read whole, and wait in a file without a name."""

    target: Target
    entry: Entry
    spool: IO[bytes]
    column: ColumnRead


@dataclass
class Pass:
    """One reading of the rows of an export, for some recordings."""

    layout: Layout
    profile: Profile
    read: RowsRead
    staged: list[Staged]
    period: int
    told: list[str]


class Delivery:
    """Reads an export for recordings of a site, and writes behind them."""

    def __init__(self, request: Request, profile: Profile) -> None:
        self._request = request
        self._profile = profile

    def read(self, targets: list[Target], start: Mark, stop: int | None, stack: ExitStack) -> Pass:
        """Reads the rows from a mark on for these recordings; nothing is written to them."""
        request = self._request
        wanted = [request.wanted(one.gauge.name, self._profile, one.last) for one in targets]
        layout = find_layout(request.export, self._profile, wanted)
        period = self._period(targets)
        if layout.time is None and period is None:
            place = Place(str(request.export), layout.names_line or None)
            raise Refusal(place, "has no column of times that is known: say --time or --period")
        missing = missing_spellings(self._profile.missing, layout.dialect.encoding.inner)
        spools = [stack.enter_context(spool_beside(one.gauge.recording)) for one in targets]
        size = request.export.stat().st_size if stop is None else stop
        with Progress(size) as progress:
            reader = RowReader(
                request.export, layout, missing, request.rounding, period, progress.reach
            )
            read = reader.read(start, stop, spools)
        found = Pass(layout, self._profile, read, [], self._settled(read, period), [])
        for target, spool, column in zip(targets, spools, read.columns, strict=True):
            if read.rows and target.pending is None:
                self._check_order(target, found)
            entry = self._entry(target, found, start, column)
            found.staged.append(Staged(target, entry, spool, column))
        return found

    def _settled(self, read: RowsRead, period: int | None) -> int:
        """The period, where the times fit it; refused where rows lack or stand twice."""
        times = read.times
        if times is None or not read.rows:
            return period or 0
        if period is None:
            period = times.microseconds()
        else:
            times.check_period(period)
        if times.faults and not self._request.allow_gaps:
            place = Place(str(self._request.export), None, times.column)
            raise Refusal(place, f"{times.fault_text()}; --allow-gaps takes the rows as they stand")
        return period

    def _period(self, targets: list[Target]) -> int | None:
        """The period of the recordings so far, or the one that is said, in microseconds."""
        known = {one.journal.owner.period: one for one in targets if one.journal is not None}
        if len(known) > 1:
            parts = ", ".join(f"{one.gauge.name} {period} µs" for period, one in known.items())
            raise Refusal(Place(str(self._request.site)), f"periods differ ({parts}): say --gauge")
        said = self._request.period
        for period, one in known.items():
            if said is not None and said != period:
                place = Place(str(one.gauge.recording))
                raise Refusal(place, f"has the period {period} µs, and {said} was said")
            return period
        return said

    def _check_order(self, target: Target, found: Pass) -> None:
        """Refuses rows that don't follow on the last ones that the recording has."""
        entries = target.journal.entries if target.journal is not None else ()
        before = next((entry for entry in reversed(entries) if entry.times), None)
        if before is None:
            return
        request, times = self._request, found.read.times
        place = Place(str(request.export), found.layout.first_line)
        text = f"the last time of {target.gauge.name} is {before.last} ({before.export})"
        if times is None or times.first is None:
            if not request.allow_gaps:
                raise Refusal(place, f"{text}, and this export has no times")
            return
        if before.times != times.kind.value:
            raise Refusal(place, f"{text}, and the times of this export are of another kind")
        first = time_text(times.first, times.kind)
        step = times.first - time_from_text(before.last, times.kind)
        if step <= 0:
            if times.kind is TimeKind.ELAPSED and self._profile.time.begins_again:
                told = f"times begin again at {first}: the order of the exports can't be checked"
                found.told += [] if told in found.told else [told]
                return
            hint = (
                ""
                if times.kind is TimeKind.CLOCK
                else "; --times-begin-again where each export does"
            )
            raise Refusal(place, f"{text}, and this export begins at {first}, not after it{hint}")
        period = Fraction(found.period * MICROSECOND)
        if step >= period * 3 / 2 or step <= period / 2:
            lacking = max(round(step / period) - 1, 0)
            gap = f"{text}, and this export begins at {first}: about {lacking} rows lack between"
            if not request.allow_gaps:
                raise Refusal(place, f"{gap}; --allow-gaps takes them as they are")
            found.told.append(gap)

    def _entry(self, target: Target, found: Pass, start: Mark, column: ColumnRead) -> Entry:
        """The journal's entry of what was read."""
        read, times = found.read, found.read.times
        timed = times is not None and times.first is not None and times.last is not None
        plan = found.layout.column_of(target.gauge.name)
        begin = target.journal.end if target.journal is not None else 0
        if begin + read.rows > MOST_SAMPLES:
            raise Refusal(Place(str(target.gauge.recording)), "would have too many samples")
        return Entry(
            export=self._request.export.name,
            sha256=read.sha256,
            start=start.bytes,
            start_lines=start.lines,
            bytes=read.end.bytes,
            lines=read.end.lines,
            rows=read.rows,
            begin=begin,
            end=begin + read.rows,
            samples_sha256=column.digest,
            times=times.kind.value if times is not None and timed else "",
            first=time_text(times.first, times.kind) if times and times.first is not None else "",
            last=time_text(times.last, times.kind) if times and times.last is not None else "",
            column=plan.wanted.column,
            step=decimal_text(plan.wanted.step),
            profile=self._profile.name,
        )

    def write(self, passes: list[Pass]) -> None:
        """Writes what was read: all entries of the journals first, then the samples."""
        ids = dict(self._request.ids)
        every = [(found, staged) for found in passes for staged in found.staged]
        for found, staged in every:
            target = staged.target
            if target.journal is None or not target.journal.entries:
                identity = ids.get(target.gauge.name) or secrets.token_hex(16)
                owner = Owner(target.gauge.name, identity, found.period)
                path = journal_path(target.gauge.recording)
                target.journal = begin_journal(path, owner, (staged.entry,))
            else:
                target.journal = add_entry(target.journal, staged.entry)
        for _, staged in every:
            assert staged.target.journal is not None
            write_samples(staged.target.gauge.recording, staged.target.journal, staged.spool)

    def finish(self, found: Pass) -> None:
        """Writes the rest of entries that were cut off, where the samples are the same."""
        for staged in found.staged:
            target = staged.target
            pending = target.pending
            assert pending is not None and target.journal is not None
            if (found.read.rows, staged.column.digest) != (pending.rows, pending.samples_sha256):
                raise Refusal(
                    Place(str(self._request.export)),
                    f"gives other samples of {target.gauge.name} than the append that was cut off:"
                    " say the same options again",
                )
        for staged in found.staged:
            assert staged.target.journal is not None
            write_samples(staged.target.gauge.recording, staged.target.journal, staged.spool)


def spool_beside(recording: Path) -> IO[bytes]:
    """A file without a name in the recording's folder, which goes with the process."""
    if not recording.parent.is_dir():
        raise Refusal(Place(str(recording.parent)), "there is no such folder")
    return tempfile.TemporaryFile(dir=recording.parent)


def make_recording(path: Path, owner: Owner) -> None:
    """Makes a recording without samples, whole or not at all; one that is there stays."""
    making = write_beside(path, Head(bytes.fromhex(owner.id), owner.period).to_bytes())
    try:
        os.link(making, path)
        making.unlink()
    except FileExistsError as error:
        making.unlink()
        raise Refusal(Place(str(path)), "was made by something else meanwhile") from error
    except OSError:
        # Some file systems have no links.
        making.rename(path)
    sync_folder(path.parent)


def write_samples(path: Path, journal: Journal, spool: IO[bytes]) -> None:
    """Writes the samples of the last entry behind a recording, and syncs them.

    What is there of them already has to be the same, and stays: `count` may have read it.
    """
    if not path.exists():
        make_recording(path, journal.owner)
    entry = journal.entries[-1]
    spool.seek(0)
    with path.open("r+b", buffering=0) as file:
        begin = HEAD_BYTES + SAMPLE_BYTES * entry.begin
        have = os.fstat(file.fileno()).st_size - begin
        if not 0 <= have <= SAMPLE_BYTES * entry.rows:
            raise Refusal(Place(str(path)), "was changed by something else meanwhile")
        file.seek(begin)
        while have:
            size = min(have, COPY)
            if file.read(size) != spool.read(size):
                raise Refusal(
                    Place(str(path)), f"doesn't hold the samples of {entry.export} at its end"
                )
            have -= size
        while block := spool.read(COPY):
            view = memoryview(block)
            while view:
                view = view[file.write(view) :]
        os.fsync(file.fileno())
