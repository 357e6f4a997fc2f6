"""A bar of how far a long reading is, on a terminal alone."""

from __future__ import annotations

import sys
import time
from types import TracebackType
from typing import TextIO

WIDTH = 30
EVERY = 0.1
"""Seconds between two drawings."""


class Progress:
    """Draws a bar on a terminal, and nothing where the stream is none."""

    def __init__(self, total: int, stream: TextIO | None = None) -> None:
        """`total` is what is to be done, in bytes."""
        self._total = max(total, 1)
        self._stream = sys.stderr if stream is None else stream
        self._shown = self._stream.isatty()
        self._drawn = 0.0

    def __enter__(self) -> Progress:
        return self

    def __exit__(
        self,
        kind: type[BaseException] | None,
        error: BaseException | None,
        trace: TracebackType | None,
    ) -> None:
        if self._drawn:
            self._stream.write("\r\x1b[K")
            self._stream.flush()

    def reach(self, done: int) -> None:
        """Tells that `done` bytes are read."""
        if not self._shown:
            return
        now = time.monotonic()
        if now - self._drawn < EVERY:
            return
        self._drawn = now
        part = min(done, self._total)
        bar = "#" * (WIDTH * part // self._total)
        percent = 100 * part // self._total
        megabytes = f"{part // 10**6} of {self._total // 10**6} MB"
        self._stream.write(f"\r[{bar:<{WIDTH}}] {percent:3} %  {megabytes}")
        self._stream.flush()
