"""The journal of a recording, `NAME.imports` beside it: which exports its samples come from.

It is a text of lines, each a JSON object: first the recording, then an entry for each import. An
entry is written and synced before the first of its samples is. A last line without its end was cut
off, and means nothing: none of its samples was written.
"""

from __future__ import annotations

import fcntl
import json
import os
from dataclasses import asdict, dataclass, fields
from pathlib import Path
from typing import Any

from monitor_companion.refusals import Place, Refusal

VERSION = 1
SUFFIX = ".imports"


@dataclass(frozen=True)
class Owner:
    """The recording that a journal is of: its gauge, its id as hexadecimal digits, its period."""

    gauge: str
    id: str
    period: int


@dataclass(frozen=True)
class Entry:
    """One import.

    The samples `begin` to `end` of the recording are those of the rows of `export` from its byte
    `start` to its byte `bytes`, whose first `bytes` bytes have the digest `sha256`.
    """

    export: str
    sha256: str
    start: int
    start_lines: int
    bytes: int
    lines: int
    rows: int
    begin: int
    end: int
    samples_sha256: str
    times: str
    first: str
    last: str
    column: str
    step: str
    profile: str


@dataclass(frozen=True)
class Journal:
    """What a journal says, and how many bytes of it are whole lines."""

    path: Path
    owner: Owner
    entries: tuple[Entry, ...]
    size: int

    @property
    def end(self) -> int:
        """How many samples the recording has when all entries are done."""
        return self.entries[-1].end if self.entries else 0


def journal_path(recording: Path) -> Path:
    """Where the journal of a recording stands."""
    return recording.with_name(recording.name + SUFFIX)


def line_of(content: dict[str, Any]) -> bytes:
    """A line of a journal."""
    return json.dumps(content, ensure_ascii=False).encode() + b"\n"


def read_journal(path: Path) -> Journal | None:
    """Reads a journal; None where there is none. A line that can't be read is refused."""
    try:
        data = path.read_bytes()
    except FileNotFoundError:
        return None
    size = data.rfind(b"\n") + 1
    lines = data[:size].split(b"\n")[:-1]
    if not lines:
        return None
    owner = read_owner(Place(str(path), 1), lines[0])
    entries: list[Entry] = []
    for number, line in enumerate(lines[1:], 2):
        place = Place(str(path), number)
        entry = read_entry(place, line)
        begin = entries[-1].end if entries else 0
        if entry.begin != begin or entry.end != begin + entry.rows or entry.rows < 0:
            raise Refusal(place, f"the journal is damaged: samples {begin} on are expected here")
        entries.append(entry)
    return Journal(path, owner, tuple(entries), size)


def read_object(place: Place, line: bytes) -> dict[str, Any]:
    """The JSON object of a line."""
    try:
        content = json.loads(line)
    except ValueError as error:
        raise Refusal(place, f"the journal is damaged: {error}") from error
    if not isinstance(content, dict):
        raise Refusal(place, "the journal is damaged: this line is no object")
    return content


def read_owner(place: Place, line: bytes) -> Owner:
    """The first line of a journal."""
    content = read_object(place, line)
    if content.pop("journal", None) != VERSION:
        raise Refusal(place, f"is no journal of version {VERSION}")
    return Owner(**of_kind(place, content, Owner))


def read_entry(place: Place, line: bytes) -> Entry:
    """A further line of a journal."""
    return Entry(**of_kind(place, read_object(place, line), Entry))


def of_kind(
    place: Place, content: dict[str, Any], kind: type[Owner] | type[Entry]
) -> dict[str, Any]:
    """The content, where it has the fields of a kind, and no other."""
    for field in fields(kind):
        wanted = int if str(field.type) == "int" else str
        if type(content.get(field.name)) is not wanted:
            raise Refusal(
                place, f"the journal is damaged: {field.name} is lacking or of another kind"
            )
    if len(content) != len(fields(kind)):
        raise Refusal(place, "the journal is damaged: it has fields that aren't known")
    return content


def sync_folder(path: Path) -> None:
    """Makes sure that the names in a folder are on the disk."""
    descriptor = os.open(path, os.O_RDONLY | os.O_DIRECTORY)
    try:
        os.fsync(descriptor)
    finally:
        os.close(descriptor)


def write_beside(path: Path, data: bytes) -> Path:
    """Writes and syncs a new file beside a place, where it can be put whole. Returns its name."""
    making = path.with_name(path.name + ".new")
    # One that a stop left may be a second name of a file that was put elsewhere meanwhile.
    making.unlink(missing_ok=True)
    with making.open("xb") as file:
        file.write(data)
        file.flush()
        os.fsync(file.fileno())
    return making


def begin_journal(path: Path, owner: Owner, entries: tuple[Entry, ...]) -> Journal:
    """Makes a journal, whole or not at all; one that has no whole line gives its place."""
    data = line_of({"journal": VERSION, **asdict(owner)})
    data += b"".join(line_of(asdict(entry)) for entry in entries)
    write_beside(path, data).replace(path)
    sync_folder(path.parent)
    return Journal(path, owner, entries, len(data))


def add_entry(journal: Journal, entry: Entry) -> Journal:
    """Writes a further entry and syncs it; what a cut left behind the last line is dropped."""
    data = line_of(asdict(entry))
    with journal.path.open("r+b") as file:
        file.truncate(journal.size)
        file.seek(journal.size)
        file.write(data)
        file.flush()
        os.fsync(file.fileno())
    return Journal(journal.path, journal.owner, (*journal.entries, entry), journal.size + len(data))


class SiteLock:
    """Keeps two imports from one site: they would write behind the same recordings."""

    def __init__(self, site: Path) -> None:
        self._site = site
        self._descriptor = -1

    def __enter__(self) -> SiteLock:
        self._descriptor = os.open(self._site, os.O_RDONLY | os.O_DIRECTORY)
        try:
            fcntl.flock(self._descriptor, fcntl.LOCK_EX | fcntl.LOCK_NB)
        except BlockingIOError as error:
            os.close(self._descriptor)
            raise Refusal(
                Place(str(self._site)), "another import is at work in this site"
            ) from error
        return self

    def __exit__(self, *_: object) -> None:
        os.close(self._descriptor)
