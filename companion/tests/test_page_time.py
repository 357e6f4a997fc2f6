"""A page of several reports: of a growing history, and of windows."""

from __future__ import annotations

import pathlib
import re
import unittest
from decimal import Decimal
from fractions import Fraction

from tests.page_reading import (
    GROUPS,
    PIXELS,
    Picture,
    details_of,
    draw,
    gauges_of,
    page_of,
    shown_details,
    shown_gauges,
)
from tests.report_cases import bridge_case


class Times(unittest.TestCase):
    """Several reports."""

    def _folder(self, *samples: int) -> pathlib.Path:
        folder = bridge_case(samples[0]).folder(self)
        for number in samples:
            (folder / f"{number}.txt").write_text(bridge_case(number).report)
        return folder

    def test_a_growing_history(self) -> None:
        folder = self._folder(2000, 4000, 6000)
        self.assertEqual(draw(folder, reports=("2000.txt", "4000.txt", "6000.txt"))[0], "1")
        page = page_of(folder)
        self.assertEqual(shown_details(page), details_of(bridge_case(6000)))
        pictures = [name for name in page.values("id") if name.startswith("time-")]
        worst_first = [row[0] for row in details_of(bridge_case(6000))]
        self.assertEqual(pictures[::2], [f"time-{name}-t" for name in worst_first])
        rows = [row for row in page.tables["numbers"] if row[0].isdigit() and len(row) == 4]
        wanted = []
        for detail in range(4):
            for number in (2000, 4000, 6000):
                case = bridge_case(number)
                name = case.details[detail].name
                percent = next(row[4] for row in details_of(case) if row[0] == name)
                wanted.append([str(number), number, percent])
        found = [[row[0], int(row[1].replace(GROUPS, "")), row[3]] for row in rows]
        self.assertEqual(found, wanted)

    def test_points_over_samples(self) -> None:
        """Without store and recordings the axis has samples."""
        folder = self._folder(2000, 4000, 6000)
        draw(folder, reports=("2000.txt", "4000.txt", "6000.txt"))
        text = (folder / "page.html").read_text(encoding="utf-8")
        for detail in range(4):
            name = bridge_case(2000).details[detail].name
            picture = Picture(text, f"time-{name}", x_log=False, y_log=False)
            found = re.findall(r'<circle class="point" cx="([\d.]+)" cy="([\d.]+)"', picture.text)
            self.assertEqual(len(found), 3)
            for (x, y), number in zip(found, (2000, 4000, 6000), strict=True):
                rows = {row[0]: row[4] for row in details_of(bridge_case(number))}
                self.assertAlmostEqual(float(x), picture.x(number), delta=PIXELS)
                self.assertAlmostEqual(float(y), picture.y(float(rows[name])), delta=0.5)

    def test_windows_add_up(self) -> None:
        folder = self._folder(2000, 4000)
        reports = ("4000.txt", "2000.txt")
        self.assertEqual(draw(folder, "--windows", reports=reports)[0], "1")
        page = page_of(folder)
        damages: dict[str, Fraction] = {}
        for number in (2000, 4000):
            case = bridge_case(number)
            for detail in case.details:
                words = detail.line("g", case.counts[detail.gauge]).split()
                damage = int(words[3]) + Fraction(words[4])
                damages[detail.name] = damages.get(detail.name, Fraction(0)) + damage
        percents = {
            name: f"{Decimal(-(-damage * 10**9 // 1)).scaleb(-7):.7f}"
            for name, damage in damages.items()
        }
        self.assertEqual({row[0]: row[4] for row in shown_details(page)}, percents)
        sums = [row[4] for row in page.tables["numbers"] if row[0] == "2000" and len(row) == 5]
        self.assertEqual(sums, [percents[detail.name] for detail in bridge_case(600).details])
        text = (folder / "page.html").read_text(encoding="utf-8").replace(GROUPS, "")
        for counts in zip(bridge_case(2000).counts, bridge_case(4000).counts, strict=True):
            cycles = sum(n for count in counts for n in count.pairs.values()) / 2
            used = sum(len(count.levels) for count in counts)
            self.assertIn(f">{cycles} cycles from {used} readings of 6000;", text)
        both = zip(gauges_of(bridge_case(2000)), gauges_of(bridge_case(4000)), strict=True)
        wanted = [[a[0], *(int(x) + int(y) for x, y in zip(a[1:], b[1:], strict=True))]
                  for a, b in both]
        self.assertEqual(shown_gauges(page), wanted)

    def test_a_history_that_shrinks(self) -> None:
        folder = self._folder(2000, 4000)
        told = draw(folder, reports=("4000.txt", "2000.txt"))
        self.assertIn("gauge span2-flange has 2000 samples, and 4000 in", told)
        self.assertEqual(told[0], "2")
        self.assertFalse((folder / "page.html").exists())

    def test_a_report_that_stands_twice(self) -> None:
        folder = self._folder(2000)
        for words in ((), ("--windows",)):
            told = draw(folder, *words, reports=("2000.txt", "report.txt"))
            self.assertIn("report.txt: is the same report as", told)
            self.assertEqual(told[0], "2")


if __name__ == "__main__":
    unittest.main()
