"""What the test scripts have in common: a count of what held, the program, a small site, and what the program tells."""

from __future__ import annotations

import os
import pathlib
import re

from model import Grid

TOP = pathlib.Path(__file__).resolve().parent.parent
PROGRAM = os.environ.get("MONITOR_PROGRAM", TOP / "crates/monitor_main/out/monitor_main")
MOST_SHOWN = 1000

GRID = Grid(16, 2, -8000, 8)
GAIN = (1000, 1, 0)
# Raw values are in N/mm², and a store is written after every few samples.
ONE_GAUGE = """[grid]
classes = 16
width = 2
low = -8000
reference = 8
[count]
block = 4
workers = 2
[[gauge]]
name = "G1"
file = "g1.sgrc"
num = 1000
"""
# The words of a window that every body of a recording lies in.
ALL_TIME = ("window", "2024-01-01T00:00:00Z", "2024-01-01T00:00:00Z", "9999-01-01T00:00:00Z")


class Trial:
    """Counts what held, and tells under a script's name what didn't."""

    def __init__(self, script: str) -> None:
        self.script = script
        self.passed = self.failed = 0

    def check(self, what: str, got: object, due: object) -> None:
        if got == due:
            self.passed += 1
            return
        self.failed += 1
        print(f"{self.script}: {what}: {_shown(got)}, due {_shown(due)}")

    def end(self) -> int:
        """Tells how much held, and returns the exit status."""
        print(f"{self.script}: {self.passed} passed, {self.failed} failed")
        return 1 if self.failed else 0


def _shown(value: object) -> str:
    return repr(value)[:MOST_SHOWN]


def held(told: str) -> dict[str, int]:
    """The last number that was acknowledged for each name. A line that was cut off acknowledges nothing."""
    whole = told[: told.rfind("\n") + 1]
    return {name: int(number) for name, number in re.findall(r"^held (\S+) (\d+)$", whole, re.M)}


def other_lines(told: str) -> str:
    """What was told besides what is acknowledged."""
    return "".join(line + "\n" for line in told.splitlines() if not line.startswith("held "))


def without_seen(told: str) -> str:
    """What was told besides what a watcher saw."""
    return "".join(line + "\n" for line in told.splitlines() if not line.startswith("seen "))


def parts(text: str) -> list[tuple[int, int]]:
    """The samples that the lines of a window name, from where to where."""
    return [(int(first), int(end)) for first, end in re.findall(r"^window \S+ (\d+) (\d+)$", text, re.M)]


def as_text(data: bytes) -> str:
    """What was printed or told, byte for byte: also a text that is none."""
    return data.decode("utf-8", "surrogateescape")


def samples(text: str) -> list[int]:
    """How many samples each gauge of a report has."""
    return [int(number) for number in re.findall(r"^samples (\d+) used", text, re.M)]


def write(name: str | pathlib.Path, data: bytes) -> None:
    """Makes a file of these bytes."""
    pathlib.Path(name).write_bytes(data)


def read(name: str | pathlib.Path) -> bytes:
    """The bytes of a file."""
    return pathlib.Path(name).read_bytes()
