"""Recordings (SGRC): a head of 32 bytes, then samples of 4 bytes each, all little-endian."""

from __future__ import annotations

import sys
from array import array
from dataclasses import dataclass
from pathlib import Path

from monitor_companion.refusals import Place, Refusal

MAGIC = b"SGRC"
VERSION = 1
HEAD_BYTES = 32
SAMPLE_BYTES = 4
MISSING = -(2**31)
"""The raw value that says that there is no reading."""
LEAST = -(2**31) + 1
GREATEST = 2**31 - 1
MOST_SAMPLES = 2**40 - 1
GREATEST_PERIOD = 2**32 - 1
"""In microseconds."""


@dataclass(frozen=True)
class Head:
    """What stands before the samples: an id of 16 bytes, and the period in microseconds."""

    identity: bytes
    period: int

    def to_bytes(self) -> bytes:
        """The 32 bytes of this head."""
        return b"".join(
            (
                MAGIC,
                bytes((VERSION, 0, 0, 0)),
                self.identity,
                self.period.to_bytes(4, "little"),
                bytes(4),
            )
        )


@dataclass(frozen=True)
class HeadFault:
    """Why bytes are no head: a text for people, and what the program tells, with its status."""

    text: str
    told: str
    status: int = 4


def head_of(data: bytes) -> Head | HeadFault:
    """Reads a head, or tells the first thing that is wrong with it, in the program's order."""
    if len(data) < HEAD_BYTES:
        what = f"has {len(data)} bytes" if data else "is empty"
        return HeadFault(f"{what}; the head of a recording has {HEAD_BYTES} bytes", "short")
    if not data.startswith(MAGIC):
        return HeadFault(f"doesn't begin with SGRC{_meant(data)}", "no SGRC")
    if data[4] != VERSION:
        return HeadFault(f"is of version {data[4]}; allowed is {VERSION}", f"version {data[4]}")
    for place in (5, 6, 7, 28, 29, 30, 31):
        if data[place]:
            text = f"has {data[place]:02x} in byte {place}, which is 0 in a recording"
            return HeadFault(text, "not zero")
    return Head(data[8:24], int.from_bytes(data[24:28], "little"))


def _meant(data: bytes) -> str:
    """Returns what a file that is no recording probably is."""
    if data.startswith((b"\xff\xfe", b"\xfe\xff", b"\xef\xbb\xbf")) or all(
        byte in b"\t\r\n" or 32 <= byte < 127 for byte in data
    ):
        return "; it is a text, probably a logger's export: import it"
    if data.startswith((b"\x1f\x8b", b"PK\x03\x04")):
        return "; it is packed: unpack it"
    if data.startswith(b"CRGS"):
        return "; its bytes stand in the other order"
    if data.startswith(b"\x01SGST"):
        return "; it is a store"
    return ""


def read_head(path: Path) -> Head:
    """Reads the head of a recording. Raises a `Refusal` where it has none."""
    with path.open("rb") as file:
        head = head_of(file.read(HEAD_BYTES))
    if isinstance(head, HeadFault):
        raise Refusal(Place(str(path)), head.text)
    return head


def sample_bytes(samples: array[int]) -> bytes:
    """The bytes of samples, which stand in an array of 32-bit numbers."""
    if sys.byteorder == "big":
        samples = samples[:]
        samples.byteswap()
    return samples.tobytes()
