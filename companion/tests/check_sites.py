"""A sound site that the tests of `check` spoil: two gauges with a detail each."""

from __future__ import annotations

import hashlib
import pathlib
import struct
import tempfile
import unittest
from collections.abc import Sequence

from monitor_companion.check_command import check_folder

MISSING = -(2**31)

CONFIGURATION = """\
[grid]
classes = 128
width = 2
low = -64000
reference = 64

[count]
block = 1024
workers = 2

[[gauge]]
name = "span-2"
file = "span2.sgrc"
num = 210

[[gauge]]
name = "pier-3"
file = "pier3.sgrc"
num = 21
den = 1
offset = 0

[[detail]]
name = "stiffener"
gauge = "span-2"
kind = "normal"
category = 71
gamma = 115

[[detail]]
name = "web"
gauge = "pier-3"
kind = "shear"
category = 80
gamma = 100
"""


def noise(seed: int, count: int = 500, low: int = -60, high: int = 60) -> list[int]:
    """Whole numbers from low to high that don't repeat."""
    values = []
    for _ in range(count):
        seed = (seed * 6364136223846793005 + 1442695040888963407) % 2**64
        values.append(low + (seed >> 33) % (high - low + 1))
    return values


def recording(values: Sequence[int], number: int, period: int = 50000) -> bytes:
    """A recording with an id of sixteen equal bytes."""
    head = b"SGRC" + bytes([1, 0, 0, 0]) + bytes([number] * 16) + struct.pack("<II", period, 0)
    return head + struct.pack(f"<{len(values)}i", *values)


SPAN = recording(noise(1), 1)
PIER = recording(noise(2, low=-600, high=600), 2)


def body(gauge: int, start: int, end: int, missing: int = 0, refused: int = 0) -> bytes:
    """A body's front with its numbers of samples; its lists are left empty."""
    used = end - start - missing - refused
    return struct.pack(">HQQQQQQ", gauge, start, end, used, missing, refused, 0) + bytes(20)


def store(bodies: Sequence[bytes] = (), version: int = 2, ids: Sequence[int] = (1, 2)) -> bytes:
    """The store of the sound site, with bodies."""
    content = b"\x01SGST" + struct.pack(">BHHHqH", version, len(ids), 128, 2, -64000, 64)
    for number, num in zip(ids, (210, 21, 210), strict=False):
        content += bytes([number] * 16) + struct.pack(">IqIq", 50000, num, 1, 0)
    for one in bodies:
        framed = struct.pack(">I", len(one)) + one
        content += b"\x01" + framed + hashlib.sha256(framed).digest()
    return content + b"\x00"


def make(folder: pathlib.Path, configuration: str | bytes = CONFIGURATION) -> None:
    """Writes the sound site, or one with another configuration."""
    content = configuration.encode() if isinstance(configuration, str) else configuration
    (folder / "monitor.toml").write_bytes(content)
    (folder / "span2.sgrc").write_bytes(SPAN)
    (folder / "pier3.sgrc").write_bytes(PIER)


def lines(folder: pathlib.Path) -> list[str]:
    """What a check finds in a folder, without the folder's name."""
    return [str(found).replace(f"{folder}/", "") for found in check_folder(folder).findings]


class SiteCase(unittest.TestCase):
    """A sound site in a folder of its own."""

    def setUp(self) -> None:
        room = tempfile.TemporaryDirectory()
        self.addCleanup(room.cleanup)
        self.folder = pathlib.Path(room.name)
        make(self.folder)
        self.span = self.folder / "span2.sgrc"
        self.store = self.folder / "monitor.store"

    def put(self, values: Sequence[int]) -> None:
        """Puts these readings in the first recording, and as many sound ones in the second."""
        self.span.write_bytes(recording(values, 1))
        pier = recording(noise(2, len(values), -600, 600), 2)
        (self.folder / "pier3.sgrc").write_bytes(pier)

    def change(self, *edits: tuple[str, str]) -> None:
        text = CONFIGURATION
        for old, new in edits:
            self.assertIn(old, text)
            text = text.replace(old, new, 1)
        (self.folder / "monitor.toml").write_text(text)

    def finds(self, *due: str) -> None:
        self.assertEqual(lines(self.folder), list(due))

    def verdict(self, status: int, line: str) -> None:
        told = check_folder(self.folder).findings.verdict
        assert told is not None
        self.assertEqual((told.status, told.line), (status, line))
