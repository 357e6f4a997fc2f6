"""How the companion refuses: with the place of what it can't read surely."""

from __future__ import annotations

from dataclasses import dataclass
from enum import IntEnum


class Status(IntEnum):
    """What the process ends with."""

    DONE = 0
    WARNED = 1
    REFUSED = 2


@dataclass(frozen=True)
class Place:
    """A place in a file: lines and columns of a table are counted from 1."""

    file: str
    line: int | None = None
    column: str | None = None
    cell: str | None = None

    def __str__(self) -> str:
        text = self.file if self.line is None else f"{self.file}:{self.line}"
        if self.column is not None:
            text += f", column {self.column}"
        if self.cell is not None:
            text += f", cell {self.cell!r}"
        return text


class Refusal(Exception):
    """Something that can't be read or done surely; nothing was changed by it."""

    def __init__(self, place: Place, why: str) -> None:
        super().__init__(f"{place}: {why}")
        self.place = place
        self.why = why
