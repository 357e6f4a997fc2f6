"""The store of a site: its head, and how many samples its bodies hold.

Bodies are walked by their lengths, and their digests are compared. What stands in the lists of a
body isn't read: a body whose digest is right was written by the program.
"""

from __future__ import annotations

import hashlib
import pathlib
import struct
from dataclasses import dataclass, field
from typing import BinaryIO

FILE_NAME = "monitor.store"
MAGIC = b"SGST"
FRONT_LENGTH, GAUGE_LENGTH = 22, 40
DIGEST_LENGTH = 32
MAX_CLASSES_ONE = 128
_BODY_FRONT = struct.Struct(">HQQQQQQ")


@dataclass(frozen=True)
class StoredGauge:
    """What a store was made for: the recording's id and period in µs, and the gain."""

    id: bytes
    period: int
    num: int
    den: int
    offset: int


@dataclass(frozen=True)
class StoreHead:
    """The head of a store: the grid as in the configuration, and the gauges in their order."""

    version: int
    classes: int
    width: int
    low: int
    reference: int
    gauges: tuple[StoredGauge, ...]


@dataclass
class Held:
    """What is held of a gauge, in samples."""

    samples: int = 0
    used: int = 0
    missing: int = 0
    refused: int = 0


@dataclass(frozen=True)
class Damage:
    """The first body that is damaged: its number, what is wrong, and what the program adds."""

    body: int
    why: str
    told: str = ""


@dataclass
class Store:
    """A store as far as it can be read."""

    path: pathlib.Path
    size: int
    # why it is none, or its version where that is unknown
    not_a_store: str = ""
    unknown_version: int | None = None
    gauge_count: int = 0
    head: StoreHead | None = None
    held: list[Held] = field(default_factory=list)
    bodies: int = 0
    damage: Damage | None = None


def read_store(path: pathlib.Path, *, with_bodies: bool = True) -> Store | None:
    """Returns what the file is, or None where there is none or an empty one. Raises `OSError`."""
    if not path.exists():
        return None
    with path.open("rb") as file:
        size = path.stat().st_size
        if size == 0:
            return None
        store = Store(path, size)
        if _read_head(store, file) and with_bodies:
            _walk(store, file)
    return store


def _read_head(store: Store, file: BinaryIO) -> bool:
    """Reads the head in the order of the program, and returns whether it is whole."""
    front = file.read(FRONT_LENGTH)
    if len(front) < FRONT_LENGTH:
        store.not_a_store = f"has {store.size} bytes, fewer than a store's head"
    elif front[1:5] != MAGIC:
        store.not_a_store = "doesn't begin as a store"
    elif front[0] != 1:
        store.not_a_store = "was not finished by init"
    if store.not_a_store:
        return False
    version, gauges, classes, width, low, reference = struct.unpack(">BHHHqH", front[5:])
    if version not in (1, 2):
        store.unknown_version = version
        return False
    store.gauge_count = gauges
    if store.size < FRONT_LENGTH + 1 + GAUGE_LENGTH * gauges:
        store.not_a_store = f"has {store.size} bytes, fewer than the head of {gauges} gauges"
        return False
    if version == 1 and classes > MAX_CLASSES_ONE:
        store.not_a_store = f"is of version 1 with {classes} classes"
        return False
    stored = [_gauge(file.read(GAUGE_LENGTH)) for _ in range(gauges)]
    store.head = StoreHead(version, classes, width, low, reference, tuple(stored))
    store.held = [Held() for _ in stored]
    return True


def _gauge(content: bytes) -> StoredGauge:
    period, num, den, offset = struct.unpack(">IqIq", content[16:])
    return StoredGauge(content[:16], period, num, den, offset)


def max_body(head: StoreHead) -> int:
    """Returns the length in bytes of the longest body that a store of this head has."""
    square = head.classes * head.classes
    if head.version == 1:
        return 6 * square + 28 * head.classes + 50
    return 5 * square + 33 * head.classes + 44


def _walk(store: Store, file: BinaryIO) -> None:
    """Reads the bodies behind open gates, up to the first that is damaged."""
    assert store.head is not None
    limit = max_body(store.head)
    while file.read(1) == b"\x01":
        store.damage = _body(store, file, limit)
        if store.damage is not None:
            return
        store.bodies += 1


def _body(store: Store, file: BinaryIO, limit: int) -> Damage | None:
    """Reads one body behind its gate, and adds what it holds."""
    at = store.bodies
    front = file.read(4)
    if len(front) < 4:
        return Damage(at, "the store ends in its length")
    length = int.from_bytes(front, "big")
    if length > limit:
        return Damage(at, f"its {length} bytes are more than a body has ({limit})")
    if store.size < file.tell() + length + DIGEST_LENGTH + 1:
        return Damage(at, "the store ends in it")
    body, kept = file.read(length), file.read(DIGEST_LENGTH)
    found = hashlib.sha256(front + body).digest()
    if found != kept:
        return Damage(at, "its digest is another", f", kept {kept.hex()}, found {found.hex()}")
    return _add(store, body)


def _add(store: Store, body: bytes) -> Damage | None:
    """Adds what a body says to what is held of its gauge."""
    at = store.bodies
    if len(body) < _BODY_FRONT.size:
        return Damage(at, "it is shorter than a body")
    gauge, start, end, used, missing, refused, _ = _BODY_FRONT.unpack_from(body)
    if start <= end and used + missing + refused != end - start:
        return Damage(at, "its numbers of samples don't add up")
    if gauge >= len(store.held):
        return Damage(at, f"there is no gauge {gauge}")
    if end <= start:
        return Damage(at, "it has no samples")
    held = store.held[gauge]
    if start != held.samples:
        return Damage(
            at, f"it begins at sample {start} of gauge {gauge}, of which {held.samples} are held"
        )
    held.samples = end
    held.used += used
    held.missing += missing
    held.refused += refused
    return None
