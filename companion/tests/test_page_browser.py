"""The page of what the built program prints, and pages in a browser."""

from __future__ import annotations

import contextlib
import io
import pathlib
import random
import shutil
import sys
import tempfile
import unittest

from tests.page_browser import Browser
from tests.page_reading import (
    GROUPS,
    details_of,
    draw,
    gauges_of,
    page_of,
    shown_details,
    shown_gauges,
)
from tests.program import run
from tests.report_cases import BRIDGE, bridge_case, case_of, run_command


class Program(unittest.TestCase):
    """What the built program prints."""

    def test_the_bridge(self) -> None:
        with tempfile.TemporaryDirectory() as place:
            folder = pathlib.Path(place) / "bridge"
            shutil.copytree(BRIDGE, folder, ignore=shutil.ignore_patterns("monitor.store"))
            self.assertEqual(run(folder, "init").returncode, 0)
            printed = run(folder, "count").stdout
            given, sys.stdin = sys.stdin, io.TextIOWrapper(io.BytesIO(printed))
            try:
                with contextlib.redirect_stderr(io.StringIO()):
                    words = ("page", "-", "--site", folder, "-o", folder / "page.html")
                    status = run_command(*words)
            finally:
                sys.stdin = given
            self.assertEqual(status, 1)
            page = page_of(folder)
            self.assertEqual(shown_details(page), details_of(bridge_case()))
            self.assertEqual(shown_gauges(page), gauges_of(bridge_case()))
            # 12,000 samples of 50 ms.
            self.assertEqual(page.tables["gauges"][1][2], "0.0069 10.0 min")


class InABrowser(unittest.TestCase):
    """The page in headless Chromium, at 1280 and at 400 pixels."""

    browser: Browser

    @classmethod
    def setUpClass(cls) -> None:
        cls.browser = Browser()
        cls.addClassCleanup(cls.browser.close)

    def setUp(self) -> None:
        self.browser.told.clear()
        self.browser.asked.clear()

    def _look(self, folder: pathlib.Path, width: int) -> None:
        """Opens the page; nothing is told or asked for, and nothing passes the width."""
        self.browser.show(width, 900)
        self.browser.open(folder / "page.html")
        self.assertEqual(self.browser.value("document.documentElement.scrollWidth"), width)
        self.assertEqual(self.browser.told, [])
        self.assertEqual(set(self.browser.asked), {(folder / "page.html").resolve().as_uri()})
        wide = (
            "[...document.querySelectorAll('main *')].filter(e => {const b = "
            "e.getBoundingClientRect(); return b.width && (b.left < -1 || b.right > innerWidth + 1)"
            "}).filter(e => !e.closest('thead')).map(e => e.outerHTML.slice(0, 80))"
        )
        self.assertEqual(self.browser.value(wide), [])

    def _shown(self, selector: str) -> list[list[str]]:
        """The texts that a reader sees in the cells of a table."""
        rows = (
            f"[...document.querySelectorAll('{selector} tbody tr')].map(r => "
            "[...r.children].map(c => c.innerText.trim()))"
        )
        found: list[list[str]] = self.browser.value(rows)
        return [[cell.replace(GROUPS, "") for cell in row] for row in found]

    def test_each_number_of_the_summary(self) -> None:
        case = bridge_case()
        folder = case.folder(self)
        draw(folder)
        for width in (1280, 400):
            self._look(folder, width)
            details = [
                [*row[:3], row[3].removeprefix("factor "), row[4].removesuffix(" %")]
                for row in self._shown("table.details")
            ]
            self.assertEqual(details, details_of(case))
            gauges = [
                [row[0], *(int(row[place].split()[0]) for place in (1, 3, 4))]
                for row in self._shown("table.gauges")
            ]
            self.assertEqual(gauges, gauges_of(case))
            self.assertEqual(self.browser.picture()[:8], b"\x89PNG\r\n\x1a\n")

    def test_a_large_site(self) -> None:
        """The longest names, all details on one gauge, and as many classes as there may be."""
        chance = random.Random(1)
        raws = [[chance.randint(0, 1_000_000) for _ in range(n)] for n in [600] + [20] * 31]
        folder = case_of(_large_configuration(), raws).folder(self)
        self.assertEqual(draw(folder), "0 ")
        for width in (1280, 400):
            self._look(folder, width)

    def test_several_reports(self) -> None:
        folder = bridge_case(1000).folder(self)
        names = []
        for number in range(1000, 5000, 500):
            names.append(f"2026-09-{number // 100:02}.txt")
            (folder / names[-1]).write_text(bridge_case(number).report)
        for words in ((), ("--windows",)):
            draw(folder, *words, reports=tuple(names))
            for width in (1280, 400):
                self._look(folder, width)

    def test_a_request_would_be_seen(self) -> None:
        """The browser does notice what a page asks for and what goes wrong in it."""
        with tempfile.TemporaryDirectory() as place:
            page = pathlib.Path(place) / "other.html"
            page.write_text('<img src="http://127.0.0.1:9/x.png"><script>nothing()</script>')
            self.browser.open(page)
            self.assertIn("http://127.0.0.1:9/x.png", self.browser.asked)
            self.assertTrue(any("nothing is not defined" in told for told in self.browser.told))


def _large_configuration() -> str:
    lines = ["[grid]\nclasses = 1001\nwidth = 2\nlow = 0\nreference = 400"]
    for gauge in range(32):
        lines.append(f'[[gauge]]\nname = "{f"gauge-{gauge}-":W<32}"\nfile = "{gauge}"\nnum = 1')
    kinds = [("normal", category) for category in (160, 125, 100, 80, 71, 56, 45, 36)]
    for detail in range(64):
        kind, category = [*kinds, ("shear", 100), ("shear", 80)][detail % 10]
        lines.append(f'[[detail]]\nname = "{f"detail-{detail}-":M<32}"')
        lines.append(f'gauge = "{"gauge-0-":W<32}"\nkind = "{kind}"\ncategory = {category}')
        lines.append(f"gamma = {(100, 115, 135)[detail % 3]}")
    return "\n".join(lines) + "\n"


if __name__ == "__main__":
    unittest.main()
