"""How long a long export takes, and how much memory; the bar on a terminal.

MONITOR_BIG=1 tries 200 MB of 6 million rows, as the others do a fiftieth of it.
"""

from __future__ import annotations

import io
import os
import pty
import random
import resource
import subprocess
import sys
import time
from unittest import mock

from monitor_companion.progress import Progress

from tests.importing import SiteTest, read_samples
from tests.make_exports import BIG_ROWS, write_big
from tests.program import COMPANION

MOST_SECONDS = 30
MOST_MEGABYTES = 300


class Terminal(io.StringIO):
    """A stream that says that it is a terminal."""

    def isatty(self) -> bool:
        return True


class Size(SiteTest):
    """Long exports."""

    gauges = ("span", "pier", "web")

    def words(self) -> list[str]:
        """The command that imports big.csv."""
        command = [sys.executable, "-m", "monitor_companion", "import", str(self.site / "big.csv")]
        return [*command, "--site", str(self.site), "--step", "0.1"]

    def check(self, rows: int) -> None:
        """Compares the recordings with the numbers that the export was made from."""
        maker = random.Random(7)
        drawn = [maker.randrange(-30_000, 30_000) for _ in range(3 * rows)]
        for place, gauge in enumerate(self.gauges):
            self.assertEqual(read_samples(self.site / f"{gauge}.sgrc"), drawn[place::3])

    def test_many_rows(self) -> None:
        """A fiftieth of the rows, with the memory that all may take; a process of its own."""
        rows = BIG_ROWS // 50
        write_big(self.site / "big.csv", rows)
        done = subprocess.run(self.words(), cwd=COMPANION, capture_output=True, check=False)
        self.assertEqual((done.returncode, done.stderr), (0, b""))
        self.check(rows)

    def test_all_rows(self) -> None:
        if not os.environ.get("MONITOR_BIG"):
            self.skipTest("MONITOR_BIG=1 tries an export of 200 MB")
        write_big(self.site / "big.csv")
        begin = time.monotonic()
        subprocess.run(self.words(), cwd=COMPANION, check=True)
        seconds = time.monotonic() - begin
        megabytes = resource.getrusage(resource.RUSAGE_CHILDREN).ru_maxrss / 1024
        size = (self.site / "big.csv").stat().st_size / 10**6
        print(f"[{size:.0f} MB in {seconds:.1f} s, {megabytes:.0f} MB]", file=sys.stderr, end=" ")
        self.check(BIG_ROWS)
        self.assertLess(seconds, MOST_SECONDS)
        self.assertLess(megabytes, MOST_MEGABYTES)

    def test_a_bar_on_a_terminal(self) -> None:
        write_big(self.site / "big.csv", 60_000)
        main, other = pty.openpty()
        with open(main, "rb", buffering=0) as terminal:
            process = subprocess.Popen(
                self.words(), cwd=COMPANION, stdout=subprocess.PIPE, stderr=other
            )
            os.close(other)
            shown = b""
            try:
                while block := terminal.read(4096):
                    shown += block
            except OSError:
                pass  # the other end of the terminal is closed
            told, _ = process.communicate()
        self.assertEqual(process.returncode, 0)
        self.assertRegex(shown, rb"\r\[#* *\] +\d+ %  \d+ of 2 MB")
        self.assertTrue(shown.endswith(b"\r\x1b[K"))
        self.assertNotIn(b"%", told)

    def test_the_bar(self) -> None:
        terminal, pipe = Terminal(), io.StringIO()
        for stream in (terminal, pipe):
            with Progress(200_000_000, stream) as progress, mock.patch(
                "time.monotonic", side_effect=[1, 2, 2.05]
            ):
                progress.reach(50_000_000)
                if stream is terminal:
                    progress.reach(200_000_000)
                    progress.reach(200_000_000)
        self.assertEqual(pipe.getvalue(), "")
        quarter = f"\r[{'#' * 7}{' ' * 23}]  25 %  50 of 200 MB"
        whole = f"\r[{'#' * 30}] 100 %  200 of 200 MB"
        self.assertEqual(terminal.getvalue(), quarter + whole + "\r\x1b[K")
