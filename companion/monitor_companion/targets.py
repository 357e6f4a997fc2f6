"""The recordings that an export goes to, and whether their journals explain them."""

from __future__ import annotations

import hashlib
from collections.abc import Iterable
from dataclasses import dataclass
from enum import Enum
from pathlib import Path

from monitor_companion.journal import Entry, Journal, journal_path, read_journal
from monitor_companion.pieces import BLOCK, START, Mark
from monitor_companion.recording import HEAD_BYTES, SAMPLE_BYTES, read_head
from monitor_companion.refusals import Place, Refusal
from monitor_companion.site import Gauge


class State(Enum):
    """How a recording stands to its journal."""

    FRESH = "there is neither"
    UNKNOWN = "there is a recording without a journal"
    UNFINISHED = "the samples of the last entry are not all there"
    WHOLE = "all samples of all entries are there"


@dataclass
class Target:
    """A gauge's recording with its journal, as they were when they were looked at."""

    gauge: Gauge
    journal: Journal | None
    state: State

    @property
    def last(self) -> Entry | None:
        """The last entry of the journal."""
        return self.journal.entries[-1] if self.journal and self.journal.entries else None

    @property
    def pending(self) -> Entry | None:
        """The entry whose samples are not all there."""
        return self.last if self.state is State.UNFINISHED else None


def look(gauge: Gauge) -> Target:
    """Looks at a recording; a length that its journal doesn't explain is refused."""
    path = gauge.recording
    journal = read_journal(journal_path(path))
    if not path.is_file():
        return Target(gauge, journal, state_without(path, journal))
    if journal is None:
        read_head(path)
        return Target(gauge, None, State.UNKNOWN)
    head = read_head(path)
    owner = journal.owner
    if (head.identity.hex(), head.period) != (owner.id, owner.period):
        raise Refusal(
            Place(str(path)),
            f"has the id {head.identity.hex()} and the period {head.period}, and its journal is of"
            f" a recording with {owner.id} and {owner.period}",
        )
    return Target(gauge, journal, state_of(path, journal))


def state_without(path: Path, journal: Journal | None) -> State:
    """The state where there is no recording."""
    if journal is None or not journal.entries:
        return State.FRESH
    if len(journal.entries) == 1:
        # The first entry was written, and the machine stopped before the recording was.
        return State.UNFINISHED
    raise Refusal(
        Place(str(path)),
        f"isn't there, and its journal tells of {journal.end} samples: put the recording back, or"
        f" remove {journal.path.name} too to begin again",
    )


def state_of(path: Path, journal: Journal) -> State:
    """The state by the length of the recording."""
    size = path.stat().st_size - HEAD_BYTES
    if size == journal.end * SAMPLE_BYTES:
        return State.WHOLE
    begin = journal.entries[-1].begin if journal.entries else 0
    if begin * SAMPLE_BYTES <= size < journal.end * SAMPLE_BYTES:
        return State.UNFINISHED
    samples, odd = divmod(size, SAMPLE_BYTES)
    more = f" and {odd} odd bytes" if odd else ""
    raise Refusal(
        Place(str(path)),
        f"has {samples} samples{more}, and its journal explains {journal.end}: something else wrote"
        " to it, or it was cut. Nothing is appended until it is the recording of the journal again",
    )


def prefix_digests(path: Path, sizes: Iterable[int]) -> dict[int, str]:
    """The SHA-256 digests of the first bytes of a file, for each size that it has."""
    whole = path.stat().st_size
    found: dict[int, str] = {}
    digest = hashlib.sha256()
    done = 0
    with path.open("rb") as file:
        for size in sorted({size for size in sizes if 0 < size <= whole}):
            while done < size:
                block = file.read(min(BLOCK, size - done))
                if not block:
                    return found
                digest.update(block)
                done += len(block)
            found[size] = digest.copy().hexdigest()
    return found


def held(target: Target, digests: dict[int, str]) -> Entry | None:
    """The last entry of whose export the bytes are the front of this one."""
    if target.journal is None:
        return None
    for entry in reversed(target.journal.entries):
        if entry.bytes and digests.get(entry.bytes) == entry.sha256:
            return entry
    return None


def mark_behind(entry: Entry | None) -> Mark:
    """Where the rows that an entry doesn't have begin."""
    return START if entry is None else Mark(entry.bytes, entry.lines)
