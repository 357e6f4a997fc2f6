"""What a check counts of the samples, against plain loops over whole lists."""

from __future__ import annotations

import pathlib
import random
import statistics
import tempfile
import time
import unittest
from array import array
from collections.abc import Sequence
from fractions import Fraction
from unittest import mock

from monitor_companion import check_ends, check_scan
from monitor_companion.check_heads import Recording
from monitor_companion.check_meaning import n_mm2
from monitor_companion.check_readings import classes_for, percent, wide_classes
from monitor_companion.check_scan import Readings, raw_limits, scan
from monitor_companion.recording import GREATEST, MISSING
from monitor_companion.site import Gauge, Grid
from tests.check_sites import noise, recording

GRID = Grid(128, 2, -64000, 64)
GAUGE = Gauge(0, "g", "g.sgrc", 210, 1, 0)


def has_class(grid: Grid, gauge: Gauge, raw: int) -> bool:
    """By docs/RULES.md, with fractions."""
    stress = Fraction(raw * gauge.num, gauge.den).__floor__() + gauge.offset
    return 0 <= Fraction(stress - grid.low, 500 * grid.width).__floor__() < grid.classes


class Limits(unittest.TestCase):
    """Which raw values have a class."""

    def test_against_the_rule(self) -> None:
        rng = random.Random(4)
        for _ in range(3000):
            classes = rng.choice((2, 3, 16, 128))
            grid = Grid(classes, rng.randint(1, 15), rng.randint(-100000, 100000), 1)
            num = rng.choice(
                (0, 1, -1, 7, -7, 210, -1000, 1000000, rng.randint(-(10**9), 10**9))
            )
            gauge = Gauge(
                0, "g", "f", num, rng.choice((1, 7, 1000, 10**6)), rng.randint(-100000, 100000)
            )
            least, greatest = raw_limits(grid, gauge)
            tried = {
                least - 1,
                least,
                least + 1,
                greatest - 1,
                greatest,
                greatest + 1,
                0,
                GREATEST,
                MISSING + 1,
            }
            tried |= {rng.randint(MISSING + 1, GREATEST) for _ in range(3)}
            for raw in tried:
                if MISSING < raw <= GREATEST:
                    self.assertEqual(
                        least <= raw <= greatest, has_class(grid, gauge, raw), (grid, gauge, raw)
                    )


class Scans(unittest.TestCase):
    """The readings of a recording."""

    def scanned(
        self, values: Sequence[int], limit: int | None = None, grid: Grid | None = GRID
    ) -> Readings:
        with tempfile.TemporaryDirectory() as name:
            path = pathlib.Path(name) / "g.sgrc"
            path.write_bytes(recording(values, 1))
            return scan(Recording(GAUGE, path, path.stat().st_size), grid, limit)

    def test_against_plain_loops(self) -> None:
        rng = random.Random(5)
        for _ in range(60):
            count = rng.choice((1, 2, 50, 1000, 5000))
            values = [
                rng.choice((rng.randint(-400, 400), rng.randint(-400, 400), MISSING))
                for _ in range(count)
            ]
            with mock.patch.object(check_scan, "PIECE_SAMPLES", rng.choice((1, 7, 1000, 100000))):
                found = self.scanned(values)
            valid = [value for value in values if value != MISSING]
            self.assertEqual(
                (found.samples, found.read, found.missing), (count, count, count - len(valid))
            )
            if not valid:
                self.assertEqual((found.lowest, found.highest, found.rest), (None, None, None))
                continue
            self.assertEqual((found.lowest, found.highest), (min(valid), max(valid)))
            self.assertEqual(found.lowest_count, valid.count(min(valid)))
            self.assertEqual(found.highest_count, valid.count(max(valid)))
            self.assertEqual(
                found.refused, sum(not has_class(GRID, GAUGE, value) for value in valid)
            )
            self.assertEqual(found.below, sum(value * 210 < -64000 for value in valid))
            self.assertEqual(found.rest, statistics.median_low(valid))

    def test_a_limit(self) -> None:
        values = noise(1, 100_000)
        found = self.scanned(values, 40_000)
        self.assertEqual(found.samples, 100_000)
        self.assertLessEqual(4 * found.read, 40_000)
        self.assertGreaterEqual(4 * found.read, 30_000)
        self.assertEqual(self.scanned(values, 400_000).read, 100_000)
        # the pieces come from the whole recording: its first and its last sample are read
        ends = self.scanned([1000, *values, -1000], 40_000)
        self.assertEqual((ends.lowest, ends.highest), (-1000, 1000))

    def test_still_ends(self) -> None:
        self.assertEqual(self.scanned([1, 2, 3]).still_end, 1)
        self.assertEqual(self.scanned([3] * 40_000).still_end, 40_000)
        self.assertEqual(self.scanned([3, 4] + [3] * 40_001).still_end, 40_001)

    def test_repeated_ends(self) -> None:
        day, other = noise(7, 700), noise(8, 900)
        self.assertEqual(self.scanned(other + day + day).repeated_end, 700)
        self.assertEqual(self.scanned(day + day).repeated_end, 700)
        self.assertEqual(self.scanned(other + day + other + day).repeated_end, 1600)
        self.assertEqual(self.scanned(day + other + day).repeated_end, 0)
        for window in (1024, 1025, 3000, 4000):
            with mock.patch.object(check_ends, "WINDOW", window):
                self.assertEqual(self.scanned(other + day + day).repeated_end, 700)
                self.assertEqual(self.scanned(other + day + other + day).repeated_end, 1600)
        self.assertEqual(self.scanned(day[:-1] + [day[-1] + 1] + day).repeated_end, 0)
        self.assertEqual(self.scanned([1, 2] * 2000).repeated_end, 0)

    def test_several_megabytes_a_second(self) -> None:
        with tempfile.TemporaryDirectory() as name:
            path = pathlib.Path(name) / "g.sgrc"
            samples = array("i", noise(1, 50_000)) * 40
            path.write_bytes(recording([], 1) + samples.tobytes())
            begin = time.process_time()
            found = scan(Recording(GAUGE, path, path.stat().st_size), GRID, None)
            seconds = time.process_time() - begin
        self.assertEqual(found.read, 2_000_000)
        self.assertLess(seconds, 8_000_000 / 2_000_000, "slower than 2 MB/s")


class Numbers(unittest.TestCase):
    """Shares, stresses and classes as they are told."""

    def test_percent(self) -> None:
        for part, whole, due in (
            (0, 9, "0 %"),
            (1, 12000, "0.0083 %"),
            (7, 12000, "0.058 %"),
            (1, 1, "100 %"),
            (1, 3, "33 %"),
            (1, 40, "2.5 %"),
            (999, 1000, "99 %"),
            (1, 10**9, "0.0000001 %"),
        ):
            self.assertEqual(percent(part, whole), due)

    def test_stresses(self) -> None:
        for kpa, due in (
            (0, "0"),
            (-64000, "-64"),
            (-64, "-0.064"),
            (1, "0.001"),
            (350, "0.35"),
            (-1500, "-1.5"),
        ):
            self.assertEqual(n_mm2(kpa), due)

    def test_classes_that_hold(self) -> None:
        rng = random.Random(6)
        for _ in range(2000):
            low = rng.randint(-600_000, 600_000)
            high = low + rng.randint(0, 1_100_000)
            grid = Grid(rng.choice((2, 128, 1024)), rng.choice((1, 1, 2, 15)), 0, 1)
            if (grid.classes - 1) * grid.width > 2000:
                continue
            for found in (classes_for(low, high, grid.width), wide_classes(low, high, grid)):
                if found is None:
                    # 2000 steps of 500 kPa between the first class and the last are the most
                    self.assertGreater(high - low, 999_000)
                    continue
                start, width, classes = found
                self.assertTrue(
                    2 <= classes <= 1024 and width >= grid.width and (classes - 1) * width <= 2000
                )
                self.assertLessEqual(start, low)
                self.assertLess(high, start + classes * 500 * width)


if __name__ == "__main__":
    unittest.main()
