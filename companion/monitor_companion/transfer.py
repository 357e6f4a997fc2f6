"""From an export to the recordings of a site: what `import` and `append` have in common."""

from __future__ import annotations

import sys
from collections.abc import Callable, Iterable, Sequence
from contextlib import ExitStack
from enum import Enum
from pathlib import Path
from typing import TypeVar

from monitor_companion.delivery import Delivery, Pass
from monitor_companion.journal import Entry, Owner, SiteLock, begin_journal, journal_path
from monitor_companion.pieces import Mark
from monitor_companion.recording import HEAD_BYTES, SAMPLE_BYTES, read_head
from monitor_companion.refusals import Place, Refusal, Status
from monitor_companion.request import Request
from monitor_companion.site import FILE_NAME, Gauge, line_of, read_gauges
from monitor_companion.targets import State, Target, held, look, mark_behind, prefix_digests
from monitor_companion.telling import pass_lines, warnings

Key = TypeVar("Key")
EMPTY_SHA256 = "e3b0c44298fc1c149afbf4c8996fb92427ae41e4649b934ca495991b7852b855"


class Command(Enum):
    """What is done."""

    IMPORT = "import"
    APPEND = "append"


def transfer(request: Request, command: Command) -> Status:
    """Does an import or an append, and tells what was done on standard output."""
    try:
        return Transfer(request, command).run()
    except OSError as error:
        place = Place(str(error.filename or request.export))
        raise Refusal(place, error.strerror or str(error)) from error


class Transfer:
    """One import or append."""

    def __init__(self, request: Request, command: Command) -> None:
        self._request = request
        self._command = command
        gauges = read_gauges(request.site)
        _refuse_shared_files(request.site / FILE_NAME, gauges)
        self._profile = request.loaded(request.profile_name(gauges))
        self._gauges = request.chosen(gauges, self._profile)
        self._delivery = Delivery(request, self._profile)

    def run(self) -> Status:
        """Finishes what was cut off, then brings what is new."""
        if not self._request.export.is_file():
            raise Refusal(Place(str(self._request.export)), "there is no such file")
        with SiteLock(self._request.site), ExitStack() as stack:
            targets = self._targets()
            digests = self._digests(targets)
            finished = self._finish(targets, digests, stack)
            if finished:
                targets = [look(target.gauge) for target in targets]
                if self._command is Command.IMPORT:
                    targets = [target for target in targets if target.state is State.FRESH]
            passes = self._read_new(targets, digests, stack)
            if not passes and not finished:
                raise self._nothing_new(targets, digests)
            self._delivery.write(passes)
        return self._tell(passes)

    def _targets(self) -> list[Target]:
        """The recordings that take part, each in a state that the command allows."""
        targets = [self._adopted(look(gauge)) for gauge in self._gauges]
        if self._command is Command.APPEND:
            for target in targets:
                if target.state is State.FRESH:
                    raise Refusal(
                        Place(str(target.gauge.recording)),
                        f"isn't there: `import` makes the recording of {target.gauge.name}",
                    )
            return targets
        digests = self._digests(targets)
        open_ones = [one for one in targets if one.state in (State.FRESH, State.UNFINISHED)]
        for target in targets:
            if target not in open_ones and (not open_ones or held(target, digests) is None):
                again = held(target, digests)
                what = f", made from {again.export}, which is this export" if again else ""
                raise Refusal(
                    Place(str(target.gauge.recording)),
                    f"is there already{what}: `append` brings what is new behind a recording",
                )
        return open_ones

    def _adopted(self, target: Target) -> Target:
        """The recording with a journal, where one without is to get one."""
        if target.state is not State.UNKNOWN:
            return target
        path = target.gauge.recording
        if self._command is Command.IMPORT:
            return target
        if not self._request.adopt:
            raise Refusal(
                Place(str(path)),
                "has no journal, so it can't be told which exports it has; --adopt begins one with"
                " the samples that are there",
            )
        head = read_head(path)
        rows, odd = divmod(path.stat().st_size - HEAD_BYTES, SAMPLE_BYTES)
        if odd:
            raise Refusal(Place(str(path)), f"ends in {odd} odd bytes, and can't be appended to")
        owner = Owner(target.gauge.name, head.identity.hex(), head.period)
        begin_journal(journal_path(path), owner, (adopted_entry(rows),))
        return look(target.gauge)

    def _digests(self, targets: list[Target]) -> dict[int, str]:
        """The digests of the front of the export, at each size that a journal tells."""
        entries = [entry for one in targets if one.journal for entry in one.journal.entries]
        return prefix_digests(self._request.export, (entry.bytes for entry in entries))

    def _finish(self, targets: list[Target], digests: dict[int, str], stack: ExitStack) -> bool:
        """Finishes what was cut off; refused where that was another export."""
        pending = [target for target in targets if target.pending is not None]
        for target in pending:
            entry = target.pending
            assert entry is not None
            if digests.get(entry.bytes) != entry.sha256:
                raise Refusal(
                    Place(str(self._request.export)),
                    f"is another export than {entry.export}, whose import into"
                    f" {target.gauge.recording.name} was cut off: call it with that one first",
                )
        for (start, stop), group in grouped(pending, range_of):
            found = self._delivery.read(group, start, stop, stack)
            self._delivery.finish(found)
            for target in group:
                entry = target.pending
                assert entry is not None
                name = target.gauge.recording.name
                print(
                    f"{name}: what was cut off of {entry.export} is finished, {entry.end} samples"
                )
        return bool(pending)

    def _read_new(
        self, targets: list[Target], digests: dict[int, str], stack: ExitStack
    ) -> list[Pass]:
        """Reads the rows that the recordings don't have yet; nothing is written."""
        passes = []
        for mark, group in grouped(targets, lambda one: mark_behind(held(one, digests))):
            found = self._delivery.read(group, mark, None, stack)
            if found.read.rows:
                passes.append(found)
            elif any(one.state is State.FRESH for one in group):
                raise Refusal(Place(str(self._request.export)), "has no whole row")
        return passes

    def _nothing_new(self, targets: list[Target], digests: dict[int, str]) -> Refusal:
        """Says that all of the export is in the recordings already."""
        place = Place(str(self._request.export))
        for target in targets:
            entry = held(target, digests)
            if entry is not None and target.journal is not None:
                number = target.journal.entries.index(entry) + 1
                return Refusal(
                    place,
                    f"is in {target.gauge.recording.name} already, as import {number}"
                    f" ({entry.export}, samples {entry.begin} to {entry.end}): nothing is appended",
                )
        return Refusal(place, "has no whole row: nothing is appended")

    def _tell(self, passes: list[Pass]) -> Status:
        """Tells what was done, and what may be wrong with it."""
        warned = []
        for found in passes:
            print("\n".join(pass_lines(self._request.export, found)))
            warned += warnings(found)
        for line in warned:
            print(f"monitor-companion: warning: {line}", file=sys.stderr)
        return Status.WARNED if warned else Status.DONE


def _refuse_shared_files(configuration: Path, gauges: Sequence[Gauge]) -> None:
    """Two gauges may count one recording, but it can't get two columns."""
    first: dict[Path, Gauge] = {}
    for gauge in gauges:
        other = first.setdefault(gauge.recording.resolve(), gauge)
        if other is not gauge:
            raise Refusal(
                Place(str(configuration), line_of(gauge.lines, "file")),
                f'{gauge.title}: file = "{gauge.file}" is that of {other.title} already;'
                " an import needs a recording for each gauge",
            )


def range_of(target: Target) -> tuple[Mark, int]:
    """The bytes of an export that an entry which was cut off is of."""
    entry = target.pending
    assert entry is not None
    return Mark(entry.start, entry.start_lines), entry.bytes


def grouped(
    targets: Iterable[Target], key: Callable[[Target], Key]
) -> list[tuple[Key, list[Target]]]:
    """The recordings by a key, in the order of the first of each."""
    groups: dict[Key, list[Target]] = {}
    for target in targets:
        groups.setdefault(key(target), []).append(target)
    return list(groups.items())


def adopted_entry(rows: int) -> Entry:
    """The first entry of a recording that was there before its journal."""
    return Entry(
        export="(there before the journal)",
        sha256=EMPTY_SHA256,
        start=0,
        start_lines=0,
        bytes=0,
        lines=0,
        rows=rows,
        begin=0,
        end=rows,
        samples_sha256="",
        times="",
        first="",
        last="",
        column="",
        step="",
        profile="",
    )
