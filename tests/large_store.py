#!/usr/bin/env python3
"""Makes a store of many bodies, and measures `window` and `compact` over it beside the SHA-256 of its bytes.

large_store.py PROGRAM [--bodies N] [--gauges N] [--samples N] [--runs N] [--sha256 NS]

The store has N bodies (50,000) of N samples (300) each, dealt to N gauges (4) over 128 classes: bodies of some dozen walks, counted once
and put at their places with digests of their own. Each command runs N times (5) over it, and its least processor time and its greatest
memory are told, with the ratio of that time to the SHA-256 of the store's bytes: by the command `sha256sum`, or by so many nanoseconds to the
byte, where another one is meant. (The program's own is written without instructions for it, as that of most `sha256sum` is; `bench_times time
text_times` tells what it takes. Python's hashlib, which is told too, may be several times faster.) A window of all bodies, one of half of
them and one of none are tried. Nothing else may run meanwhile. What is checked:
- the window of all bodies prints the report of the store, and the window of half of them has so many samples;
- of the copy `report` prints the same as of the store, and `compact` the same bytes;
- the time of `window` and `compact` is at most 1.5 times that of the SHA-256, and their memory below 200 MB.
Last line: large_store: N passed, M failed
"""

from __future__ import annotations

import argparse
import hashlib
import os
import pathlib
import random
import resource
import shutil
import struct
import sys
import tempfile
import time
from collections.abc import Sequence
from typing import NamedTuple

# No folder is made in the checkout.
sys.dont_write_bytecode = True

import instants
import stores
from model import Count, Grid
from trial import ALL_TIME, Trial, as_text, parts, samples

GRID = Grid(128, 2, -64000, 64)
GAIN = (1000, 1, 0)
PERIOD = 10_000
KINDS = 12
MOST_RATIO = 1.5
MOST_MEMORY = 200_000_000
# of the store, its copy and what is printed
NEEDED = 1_000_000_000


class Ended(NamedTuple):
    """How a command ended: its status, what it printed, its seconds of a processor, and its greatest memory in bytes."""

    status: int
    printed: bytes
    seconds: float
    memory: int


def walk(seed: int, length: int) -> list[int]:
    """Raw values that go up and down within the classes."""
    rng = random.Random(seed)
    level, raws = rng.randint(-60, 60), []
    for _ in range(length):
        level = min(63, max(-64, level + rng.randint(-25, 25)))
        raws.append(level)
    return raws


def write_store(folder: pathlib.Path, bodies: int, gauges: int, length: int) -> None:
    """A site with a store of so many bodies of so many samples."""
    names = [f"gauge-{number}" for number in range(gauges)]
    lines = ["[grid]", "classes = 128", "width = 2", "low = -64000", "reference = 64"]
    for name in names:
        lines += ["[[gauge]]", f'name = "{name}"', f'file = "{name}.sgrc"', "num = 1000"]
    (folder / "monitor.toml").write_text("\n".join(lines) + "\n")
    counts = [Count(GRID, GAIN, walk(kind, length)) for kind in range(KINDS)]
    made = [stores.body(stores.Name(0, 0, length), count) for count in counts]
    head = stores.Head(GRID, [GAIN] * gauges, [bytes([number + 1]) * 16 for number in range(gauges)], [PERIOD] * gauges)
    with open(folder / "monitor.store", "wb") as out:
        out.write(head.data())
        for number in range(bodies):
            turn, gauge = divmod(number, gauges)
            place = struct.pack(">HQQ", gauge, turn * length, (turn + 1) * length)
            out.write(stores.framed(place + made[number % KINDS][len(place) :]))
        out.write(stores.CLOSED)


def run(program: pathlib.Path, folder: pathlib.Path, words: Sequence[str]) -> Ended:
    """A command in this folder. What it tells goes to our own standard error."""
    with tempfile.TemporaryFile() as out:
        child = os.fork()
        if child == 0:
            try:
                os.chdir(folder)
                os.dup2(out.fileno(), 1)
                resource.setrlimit(resource.RLIMIT_CORE, (0, 0))
                os.execv(program, [str(program), *words])
            finally:
                os._exit(127)
        _, status, usage = os.wait4(child, 0)
        out.seek(0)
        return Ended(os.waitstatus_to_exitcode(status), out.read(), usage.ru_utime + usage.ru_stime, usage.ru_maxrss * 1024)


def digest_time(folder: pathlib.Path, runs: int, given: float | None) -> float:
    """The seconds of a processor that the SHA-256 of the store takes; those of several kinds are told."""
    store = folder / "monitor.store"
    size = store.stat().st_size
    kinds = {"hashlib": min(hashing(store) for _ in range(runs))}
    command = shutil.which("sha256sum")
    if command:
        kinds["sha256sum"] = min(run(pathlib.Path(command), folder, ["monitor.store"]).seconds for _ in range(runs))
    if given is not None:
        kinds["the one that was named"] = given * size / 1e9
    for kind, seconds in kinds.items():
        print(f"large_store: the SHA-256 by {kind}: {seconds:.3f} s, {seconds / size * 1e9:.2f} ns to the byte")
    return list(kinds.values())[-1]


def hashing(store: pathlib.Path) -> float:
    """The time of the SHA-256 by Python, in pieces, so that our own memory stays small."""
    begun = time.process_time()
    with open(store, "rb") as data:
        hashlib.file_digest(data, "sha256")
    return time.process_time() - begun


class Measured:
    """What is measured of the commands over one store."""

    def __init__(self, program: pathlib.Path, folder: pathlib.Path, runs: int, digest: float) -> None:
        self.program, self.folder, self.runs, self.digest = program, folder, runs, digest
        self.trial = Trial("large_store")

    def tell(self, what: str, words: Sequence[str], *, is_bound: bool = True) -> bytes:
        """Runs a command, tells what it took, and returns what it printed."""
        ends = [run(self.program, self.folder, words) for _ in range(self.runs)]
        seconds, memory = min(end.seconds for end in ends), max(end.memory for end in ends)
        ratio = seconds / self.digest
        print(f"large_store: {what}: {seconds:.3f} s, {ratio:.2f} times the SHA-256, {memory / 1e6:.0f} MB")
        self.trial.check(f"status of {what}", {end.status for end in ends}, {0})
        if is_bound:
            self.trial.check(f"{what} is at most {MOST_RATIO} times the SHA-256", ratio <= MOST_RATIO, True)
            self.trial.check(f"memory of {what}", memory < MOST_MEMORY, True)
        return ends[0].printed

    def commands(self, bodies: int, gauges: int, length: int) -> None:
        report = as_text(self.tell("report", ["report"], is_bound=False))
        due = [len(range(gauge, bodies, gauges)) * length for gauge in range(gauges)]
        self.trial.check("the samples of the report", samples(report), due)
        text = as_text(self.tell("window of all bodies", ALL_TIME))
        lines = [line for line in text.splitlines(keepends=True) if not line.startswith("window ")]
        self.trial.check("a window of all bodies is the report", "".join(lines) == report, True)
        self.trial.check("it names all samples", parts(text), [(0, count) for count in samples(report)])
        half = bodies // gauges // 2 * length
        border = instants.written(1704067200 * instants.SECOND + half * PERIOD * 1000)
        text = as_text(self.tell("window of half of them", (*ALL_TIME[:3], border)))
        self.trial.check("it names half of the samples", parts(text), [(0, half)] * gauges)
        text = as_text(self.tell("window of none", (ALL_TIME[0], ALL_TIME[3], *ALL_TIME[1:3])))
        self.trial.check("it names none", parts(text), [(0, 0)] * gauges)
        copy = self.tell("compact", ["compact"])
        store = self.folder / "monitor.store"
        print(f"large_store: the copy has {len(copy)} bytes, the store {store.stat().st_size}")
        store.write_bytes(copy)
        self.trial.check("report of the copy", as_text(run(self.program, self.folder, ["report"]).printed) == report, True)
        self.trial.check("copy of the copy", run(self.program, self.folder, ["compact"]).printed == copy, True)


def main() -> int:
    words = argparse.ArgumentParser(usage=__doc__)
    words.add_argument("program", type=pathlib.Path)
    words.add_argument("--bodies", type=int, default=50_000)
    words.add_argument("--gauges", type=int, default=4)
    words.add_argument("--samples", type=int, default=300)
    words.add_argument("--runs", type=int, default=5)
    words.add_argument("--sha256", type=float, metavar="NS")
    given = words.parse_args()
    program = given.program.resolve()
    # In memory, where there is such a place, so that the disk's time isn't measured.
    shared = "/dev/shm" if os.path.isdir("/dev/shm") and shutil.disk_usage("/dev/shm").free > NEEDED else None
    with tempfile.TemporaryDirectory(dir=shared) as name:
        folder = pathlib.Path(name)
        write_store(folder, given.bodies, given.gauges, given.samples)
        print(f"large_store: {given.bodies} bodies, {(folder / 'monitor.store').stat().st_size} bytes")
        measured = Measured(program, folder, given.runs, digest_time(folder, given.runs, given.sha256))
        measured.commands(given.bodies, given.gauges, given.samples)
    return measured.trial.end()


if __name__ == "__main__":
    sys.exit(main())
