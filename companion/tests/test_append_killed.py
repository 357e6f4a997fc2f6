"""Appends that are killed at random moments, with `count` running beside.

MONITOR_KILLS says how many exports are appended and killed; MONITOR_KILLS_SEED where the moments
begin. A few are tried by default, since each costs a second.
"""

from __future__ import annotations

import json
import os
import random
import shutil
import subprocess
import sys
import threading
import time
from pathlib import Path

from monitor_companion.journal import read_journal
from monitor_companion.refusals import Status

from tests import program
from tests.importing import SiteTest
from tests.program import COMPANION

KILLS = int(os.environ.get("MONITOR_KILLS", "6"))
SEED = int(os.environ.get("MONITOR_KILLS_SEED", "1"))
ROWS = 1500


def export(day: int) -> str:
    """The rows of a day; a column that goes up and down by days, and one by rows."""
    rows = range(day * ROWS, (day + 1) * ROWS)
    return "time,span,pier\n" + "".join(
        f"{n},{n * 7919 % 601 - 300},{(n + day) % 250 - 125}\n" for n in rows
    )


def expected(gauge: str, days: int) -> list[int]:
    """The samples of all days, by the formulas above."""
    rows = range(days * ROWS)
    if gauge == "span":
        return [n * 7919 % 601 - 300 for n in rows]
    return [(n + n // ROWS) % 250 - 125 for n in rows]


class Counting(threading.Thread):
    """Runs `count` of the program again and again."""

    def __init__(self, site: Path) -> None:
        super().__init__()
        self._site = site
        self.ended = threading.Event()
        self.statuses: set[int] = set()
        self.held: dict[str, list[int]] = {}
        self.runs = 0

    def run(self) -> None:
        while not self.ended.is_set():
            done = program.run(self._site, "count")
            self.statuses.add(done.returncode)
            self.runs += 1
            for line in done.stderr.decode().splitlines():
                words = line.split()
                if words[:1] == ["held"]:
                    self.held.setdefault(words[1], []).append(int(words[2]))


class Killed(SiteTest):
    """The recordings only grow, end as those of one run, and have no export twice."""

    def setUp(self) -> None:
        super().setUp()
        self.random = random.Random(SEED)
        self.longest = 0.5
        self.moments: dict[str, int] = {}

    def killed(self, command: str, name: str) -> None:
        """Runs a command, and kills it at a random moment, or soon after its journal grew."""
        words = [sys.executable, "-m", "monitor_companion", command, str(self.site / name)]
        journal = self.site / "span.sgrc.imports"
        size = journal.stat().st_size if journal.exists() else 0
        begin = time.monotonic()
        pipe = subprocess.DEVNULL
        process = subprocess.Popen(
            [*words, "--site", str(self.site)], cwd=COMPANION, stdout=pipe, stderr=pipe
        )
        if self.random.random() < 0.5:
            time.sleep(self.random.uniform(0, self.longest * 1.1))
        else:
            while (
                process.poll() is None
                and (journal.stat().st_size if journal.exists() else 0) == size
            ):
                time.sleep(0.0002)
            time.sleep(self.random.uniform(0, 0.02))
        process.kill()
        if process.wait() >= 0:
            self.longest = min(self.longest, time.monotonic() - begin)

    def look(self) -> dict[str, bytes]:
        """The bytes of both recordings."""
        return {
            g: p.read_bytes() if (p := self.site / f"{g}.sgrc").exists() else b""
            for g in self.gauges
        }

    def note(self, days: int) -> None:
        """Counts where the kill came."""
        journals = [read_journal(self.site / f"{gauge}.sgrc.imports") for gauge in self.gauges]
        entries = sum(len(journal.entries) - (days - 1) if journal else 0 for journal in journals)
        have = sum(max(len(data) - 32, 0) // 4 - (days - 1) * ROWS for data in self.look().values())
        place = {0: "before the journals", 1: "between the journals"}.get(entries, "in the samples")
        if have == len(self.gauges) * ROWS:
            place = "behind the samples"
        elif entries == 2 and have == 0:
            place = "before the samples"
        self.moments[place] = self.moments.get(place, 0) + 1

    def day(self, day: int) -> None:
        """Appends a day: killed once or twice, then finished."""
        name = self.write(f"day{day}.csv", export(day))
        command = "append" if day else "import"
        for _ in range(self.random.choice((1, 1, 2))):
            before = self.look()
            self.killed(command, name)
            self.note(day + 1)
            for gauge, data in self.look().items():
                self.assertTrue(data.startswith(before[gauge]), gauge)
        before = self.look()
        status = self.call(command, name)
        if status is Status.REFUSED:
            self.assertIn("already", self.err)
        else:
            self.assertEqual(status, Status.DONE, self.err)
        for gauge, data in self.look().items():
            self.assertTrue(data.startswith(before[gauge]))
            self.assertEqual(len(data), 32 + 4 * ROWS * (day + 1))

    def check_whole(self, days: int) -> None:
        """Each recording is that of one run, and its journal has each export once."""
        for gauge in self.gauges:
            self.assertEqual(self.samples(gauge), expected(gauge, days))
            lines = (self.site / f"{gauge}.sgrc.imports").read_text().splitlines()[1:]
            names = [json.loads(line)["export"] for line in lines]
            self.assertEqual(names, [f"day{day}.csv" for day in range(days)])

    def test_killed_alone(self) -> None:
        for day in range(KILLS):
            self.day(day)
        self.check_whole(KILLS)
        print(f"[{KILLS} exports; killed {self.moments}]", file=sys.stderr, flush=True, end=" ")

    def test_killed_beside_count(self) -> None:
        program.program()
        self.day(0)
        self.assertEqual(program.run(self.site, "init").returncode, 0)
        counting = Counting(self.site)
        counting.start()
        try:
            for day in range(1, KILLS):
                self.day(day)
        finally:
            counting.ended.set()
            counting.join()
        self.check_whole(KILLS)
        self.assertLessEqual(counting.statuses, {0, 5})
        for gauge, held in counting.held.items():
            self.assertEqual(held, sorted(held), gauge)
        report = program.run(self.site, "count").stdout
        audit = program.run(self.site, "audit")
        self.assertEqual(
            (audit.returncode, audit.stdout), (0, b"audit span same\naudit pier same\n")
        )
        alone = self.site / "alone"
        alone.mkdir()
        for name in ("monitor.toml", "span.sgrc", "pier.sgrc"):
            shutil.copy(self.site / name, alone / name)
        program.run(alone, "init")
        self.assertEqual(program.run(alone, "count").stdout, report)
        print(f"[count ran {counting.runs} times; killed {self.moments}]", file=sys.stderr, end=" ")
