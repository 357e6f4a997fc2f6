"""The heads and lengths of a site's recordings, as far as they can be read."""

from __future__ import annotations

import os
import pathlib
import stat
from dataclasses import dataclass

from monitor_companion.recording import HEAD_BYTES, SAMPLE_BYTES, HeadFault, head_of
from monitor_companion.site import Gauge, Site

READ_FAULT = "read fault"
NOT_TOLD = ""


@dataclass(frozen=True)
class Recording:
    """A gauge's recording: `size` in bytes, `period` in µs; `fault` where the head is none."""

    gauge: Gauge
    path: pathlib.Path
    size: int = 0
    id: bytes = b""
    period: int = 0
    fault: HeadFault | None = None
    # which file it is, whatever its name
    identity: tuple[int, int] | None = None

    @property
    def samples(self) -> int:
        """The whole samples behind the head."""
        return max(0, self.size - HEAD_BYTES) // SAMPLE_BYTES

    @property
    def odd_bytes(self) -> int:
        """The bytes behind the last whole sample."""
        return max(0, self.size - HEAD_BYTES) % SAMPLE_BYTES


def read_heads(site: Site) -> list[Recording]:
    """Returns the recording of each sound gauge, in their order."""
    return [_read(gauge) for gauge in site.gauges]


def _read(gauge: Gauge) -> Recording:
    path = gauge.recording
    try:
        state = path.stat()
        if stat.S_ISDIR(state.st_mode):
            return Recording(gauge, path, fault=HeadFault("is a folder", READ_FAULT, 6))
        if not stat.S_ISREG(state.st_mode):
            # The program may wait for it, or refuse it; it isn't read here.
            return Recording(gauge, path, fault=HeadFault("is no plain file", NOT_TOLD))
        with path.open("rb") as file:
            head = head_of(file.read(HEAD_BYTES))
    except (OSError, ValueError) as error:
        why = os.strerror(error.errno) if isinstance(error, OSError) and error.errno else str(error)
        return Recording(gauge, path, fault=HeadFault(f"can't be read: {why}", READ_FAULT, 6))
    identity = (state.st_dev, state.st_ino)
    if isinstance(head, HeadFault):
        return Recording(gauge, path, state.st_size, fault=head, identity=identity)
    return Recording(gauge, path, state.st_size, head.identity, head.period, identity=identity)
