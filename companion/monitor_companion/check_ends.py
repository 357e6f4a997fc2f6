"""Looks at the end of a recording: does it stand still, and was it there before?"""

from __future__ import annotations

import itertools
import pathlib
from collections.abc import Callable, Iterator

from monitor_companion.recording import HEAD_BYTES, SAMPLE_BYTES

# a repeated end is looked for by this many samples, which have at least so many values
NEEDLE_SAMPLES, NEEDLE_VALUES = 256, 4
NEEDLE_TRIES = 8
# fewer samples than these may be the same as those before by chance, or by a test signal
LEAST_REPEAT = 600
WINDOW = 1 << 22

# the bytes from a place up to another
Slice = Callable[[int, int], bytes]


def look_at_end(path: pathlib.Path, samples: int, limit: int | None) -> tuple[int, int]:
    """Returns how many samples at the end are one value, and how many are the same as those before.

    Both are looked for in the last `limit` bytes. Raises `OSError`.
    """
    end = HEAD_BYTES + samples * SAMPLE_BYTES
    most = samples if limit is None else min(samples, limit // SAMPLE_BYTES)
    first = end - most * SAMPLE_BYTES
    with path.open("rb") as file:

        def content(start: int, stop: int) -> bytes:
            file.seek(start)
            return file.read(stop - start)

        return _still_end(content, first, end), _repeated_end(content, first, end)


def _still_end(content: Slice, first: int, end: int) -> int:
    """Returns how many samples at the end are one value."""
    value = content(end - SAMPLE_BYTES, end)
    at, step = end, 1 << 16
    while at - step >= first and content(at - step, at) == value * (step // SAMPLE_BYTES):
        at -= step
    rest = content(max(first, at - step), at)
    while rest.endswith(value) and value:
        rest = rest[:-SAMPLE_BYTES]
        at -= SAMPLE_BYTES
    return (end - at) // SAMPLE_BYTES


def _repeated_end(content: Slice, first: int, end: int) -> int:
    """Returns how many samples at the end are the same as those before them, or 0."""
    start = end - NEEDLE_SAMPLES * SAMPLE_BYTES
    if start < first:
        return 0
    needle = content(start, end)
    values = {needle[at : at + SAMPLE_BYTES] for at in range(0, len(needle), SAMPLE_BYTES)}
    if len(values) < NEEDLE_VALUES:
        return 0
    for at in itertools.islice(_earlier(content, needle, first, start), NEEDLE_TRIES):
        length = start - at
        if length >= LEAST_REPEAT * SAMPLE_BYTES and end - 2 * length >= first:
            if _same(content, end - length, length):
                return length // SAMPLE_BYTES
    return 0


def _earlier(content: Slice, needle: bytes, first: int, start: int) -> Iterator[int]:
    """Yields the places before a start where the bytes stand at whole samples, the last first."""
    end = start + len(needle) - SAMPLE_BYTES
    while end - first >= len(needle):
        window = max(first, end - WINDOW)
        block = content(window, end)
        at = block.rfind(needle)
        while at >= 0:
            if (window + at - HEAD_BYTES) % SAMPLE_BYTES == 0:
                yield window + at
            at = block.rfind(needle, 0, at + len(needle) - 1)
        # The next window reaches over this one's front, so that nothing is missed between them.
        end = window + len(needle) - 1 if window > first else first


def _same(content: Slice, at: int, length: int) -> bool:
    """Returns whether the bytes from there on are the same as those before."""
    for done in range(0, length, WINDOW):
        size = min(WINDOW, length - done)
        place = at + done
        if content(place, place + size) != content(place - length, place - length + size):
            return False
    return True
