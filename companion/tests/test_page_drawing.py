"""What is drawn is read off by the axes' own ticks, and compared with the independent count."""

from __future__ import annotations

import pathlib
import re
import tempfile
import unittest
from typing import Any

from tests.page_reading import PIXELS, Picture, draw
from tests.report_cases import BRIDGE, bridge_case, model

CELL = re.compile(r"M([\d.]+) ([\d.]+)h([\d.]+)v")


class Drawn(unittest.TestCase):
    """The bridge's page; its classes are 1 N/mm² wide, from -64 N/mm² on."""

    text: str
    counts: dict[str, Any]
    details: dict[str, Any]

    @classmethod
    def setUpClass(cls) -> None:
        case = bridge_case()
        with tempfile.TemporaryDirectory() as place:
            folder = case.written(pathlib.Path(place))
            draw(folder)
            cls.text = (folder / "page.html").read_text(encoding="utf-8")
        cls.counts = dict(zip(case.names, case.counts, strict=True))
        cls.details = {detail.name: detail for detail in case.details}

    def _same(self, found: list[Any], wanted: list[Any]) -> None:
        self.assertEqual(len(found), len(wanted))
        for one, other in zip(sorted(found), sorted(wanted), strict=True):
            for a, b in zip(one, other, strict=True):
                self.assertAlmostEqual(a, b, delta=PIXELS)

    def test_spectrum(self) -> None:
        for name, count in self.counts.items():
            picture = Picture(self.text, f"spectrum-{name}", x_log=True, y_log=True)
            wanted = [
                (picture.x(0.2), picture.y(max(k - 0.5, 1)), picture.y(k + 0.5), picture.x(n / 2))
                for k, n in model.by_range(count.pairs).items()
            ]
            self._same(picture.bars("bar"), wanted)

    def test_curves(self) -> None:
        """docs/RULES.md: a category is borne two million times; the limits divide by the factor."""
        picture = Picture(self.text, "spectrum-span2-flange", x_log=True, y_log=True)
        wanted = []
        for category, factor in ((50, 1.35), (80, 1.15)):
            knee, cut_off = 0.737 * category / factor, 0.549 * 0.737 * category / factor
            first = category / factor * (2e6 / 1e4) ** (1 / 3)
            ends = [(1e4, first), (5e6, knee), (5e6 / 0.549**5, cut_off), (1e9, cut_off)]
            wanted.append([(picture.x(n), picture.y(stress)) for n, stress in ends])
        found = picture.line("curve")
        self.assertEqual(len(found), 2)
        for one, other in zip(found, wanted, strict=True):
            # At the knee both slopes meet but for a part in a thousand.
            self._same(one, other)

    def test_matrix(self) -> None:
        for name, count in self.counts.items():
            picture = Picture(self.text, f"matrix-{name}", x_log=False, y_log=False)
            cells = [
                (float(x), float(y))
                for path in re.findall(r'<path class="shade\d" d="([^"]*)"', picture.text)
                for x, y, _ in CELL.findall(path)
            ]
            # The upper left corner of a cell: the lower level's lower end, the upper one's upper.
            wanted = [(picture.x(lo - 64), picture.y(hi - 63)) for lo, hi in count.pairs]
            self._same(cells, wanted)

    def test_shades(self) -> None:
        """Each shade begins at the number in the legend."""
        for name, count in self.counts.items():
            picture = Picture(self.text, f"matrix-{name}", x_log=False, y_log=False)
            paths = re.findall(r'<path class="shade(\d)" d="([^"]*)"', picture.text)
            drawn = {int(shade): len(CELL.findall(path)) for shade, path in paths}
            steps = [float(t) for t in re.findall(r'<text x="[\d.]+" y="[\d.]+">([\d.]+)</text>',
                                                  picture.text)]  # fmt: skip
            wanted: dict[int, int] = {}
            for half_units in count.pairs.values():
                shade = max(n for n, step in enumerate(steps) if step <= half_units / 2)
                wanted[shade] = wanted.get(shade, 0) + 1
            self.assertEqual(drawn, wanted)

    def test_crossings(self) -> None:
        for name, count in self.counts.items():
            picture = Picture(self.text, f"crossings-{name}", x_log=True, y_log=False)
            wanted = [
                (picture.x(0.5), picture.y(boundary - 64.5), picture.y(boundary - 63.5),
                 picture.x(times))
                for boundary, times in count.crossings().items()
            ]  # fmt: skip
            self._same(picture.bars("bar"), wanted)

    def test_peaks_and_valleys(self) -> None:
        for name, count in self.counts.items():
            picture = Picture(self.text, f"extremes-{name}", x_log=True, y_log=False)
            for kind, is_peak in (("bar", True), ("bar valley", False)):
                wanted = [
                    (picture.x(0.5), picture.y(level - 64), picture.y(level - 63), picture.x(times))
                    for level, times in count.extremes(is_peak).items()
                ]
                self._same(picture.bars(kind), wanted)

    def test_damage_by_range(self) -> None:
        for detail in self.details.values():
            gauge = list(self.counts)[detail.gauge]
            ranges = model.by_range(self.counts[gauge].pairs)
            damages = {k: n * detail.share(k) for k, n in ranges.items() if detail.share(k)}
            total = sum(damages.values())
            picture = Picture(self.text, f"damage-{detail.name}", x_log=False, y_log=False)
            wanted = [
                (picture.x(k - 0.5), picture.y(0), picture.y(float(100 * damage / total)),
                 picture.x(k + 0.5))
                for k, damage in damages.items()
            ]  # fmt: skip
            self._same(picture.bars("bar"), wanted)

    def test_configuration(self) -> None:
        """The grid that these tests speak of."""
        text = (BRIDGE / "monitor.toml").read_text()
        self.assertRegex(text, r"classes = 128\nwidth = 2 .*\nlow = -64000 ")


if __name__ == "__main__":
    unittest.main()
