"""A page says what its reports say, and is drawn only where all agrees."""

from __future__ import annotations

import contextlib
import errno
import io
import os
import random
import subprocess
import unittest
import unittest.mock
from collections import Counter
from decimal import Decimal
from fractions import Fraction
from typing import Any

from tests.page_reading import (
    GROUPS,
    Page,
    details_of,
    draw,
    gauges_of,
    page_of,
    shown_details,
    shown_gauges,
)
from tests.report_cases import BRIDGE, bridge_case, case_of, random_case, run_command


class Pages(unittest.TestCase):
    """The text of a page."""

    def test_summary_of_random_sites(self) -> None:
        chance = random.Random(11)
        for _ in range(25):
            case = random_case(chance)
            folder = case.folder(self)
            refused = any(row[3] for row in gauges_of(case))
            self.assertEqual(draw(folder)[0], "1" if refused else "0")
            page = page_of(folder)
            self._check_form(page)
            self.assertEqual(shown_gauges(page), gauges_of(case))
            if case.details:
                self.assertEqual(shown_details(page), details_of(case))
            self.assertEqual("warning" in page.values("class"), refused)

    def _check_form(self, page: Page) -> None:
        """All elements are closed; pictures have texts; nothing lies outside."""
        self.assertEqual((page.faults, page.open), ([], []))
        for element in ("script", "img", "iframe", "object", "image", "use"):
            self.assertEqual(page.elements[element], 0)
        names = {name for _, name, _ in page.attributes}
        self.assertEqual([name for name in names if name.startswith("on")], [])
        targets = page.values("href") + page.values("src") + page.values("srcset")
        identities = page.values("id")
        self.assertEqual(len(identities), len(set(identities)))
        for target in targets:
            self.assertTrue(target == "data:," or target[1:] in identities, target)
        for both in page.values("aria-labelledby"):
            for name in both.split():
                self.assertTrue(page.texts[name].strip())
        self.assertEqual(page.values("role").count("img"), len(page.values("aria-labelledby")))

    def test_text_asks_for_nothing(self) -> None:
        folder = bridge_case(2000).folder(self)
        draw(folder)
        text = (folder / "page.html").read_text(encoding="utf-8")
        for word in ("http:", "https:", "//", "url(", "@import", "<script", "javascript"):
            self.assertNotIn(word, text)
        self.assertIn("default-src 'none'", text)

    def test_an_empty_gauge_and_no_detail(self) -> None:
        configuration = (BRIDGE / "monitor.toml").read_text().split("[[detail]]")[0]
        case = case_of(configuration, [[], [5], [-(2**31)] * 3])
        folder = case.folder(self)
        self.assertEqual(draw(folder), "0 ")
        self._check_form(page_of(folder))
        self.assertEqual([row[1:] for row in shown_gauges(page_of(folder))],
                         [[0, 0, 0], [1, 0, 0], [3, 3, 0]])

    def test_a_detail_past_its_life(self) -> None:
        """docs/RULES.md's example is 2,000,000 cycles; here N/mm² are hundreds, so a few do it."""
        case = case_of(
            "[grid]\nclasses = 500\nwidth = 4\nlow = 0\nreference = 250\n"
            '[[gauge]]\nname = "g"\nfile = "g"\nnum = 1000\n'
            '[[detail]]\nname = "weld"\ngauge = "g"\nkind = "normal"\ncategory = 36\ngamma = 135\n',
            [[0, 999] * 60],
        )
        folder = case.folder(self)
        self.assertEqual(draw(folder), "0 ")
        page = page_of(folder)
        # 59.5 cycles of the range 998, slope 3: 59.5 (998 * 1.35 / 36)^3 / 2000000.
        damage = Fraction(119, 2) * Fraction(998 * 135, 3600) ** 3 / 2_000_000
        percent = -(-damage * 10**9 // 1)
        self.assertEqual(shown_details(page)[0][4], f"{Decimal(percent).scaleb(-7):.7f}")
        self.assertIn("past", page.values("class"))

    def test_names_of_files_are_no_markup(self) -> None:
        folder = bridge_case(800).folder(self)
        name = "<b>&\"'.txt"
        (folder / "report.txt").rename(folder / name)
        (folder / "second.txt").write_text(bridge_case(1200).report)
        draw(folder, "--title", "<i>&", reports=(name, "second.txt"))
        self._check_form(page_of(folder))
        self.assertEqual(page_of(folder).elements["i"], 4)  # the bars of the details

    def test_shares_of_the_damage(self) -> None:
        """The table of a detail adds up; its rows are the ranges that do most."""
        case = bridge_case()
        folder = case.folder(self)
        draw(folder)
        tables = [row for row in page_of(folder).tables["numbers"] if len(row) == 5]
        worst = case.details[1]
        self.assertEqual(worst.name, "cover-plate")
        count = case.counts[worst.gauge]
        shares: dict[int, Fraction] = {
            k: n * worst.share(Fraction(k)) for k, n in _ranges(count).items()
        }
        total = sum(shares.values())
        ordered = sorted(shares, key=lambda k: -shares[k])
        for row, k in zip(tables[1:9], ordered, strict=False):
            self.assertEqual(row[0], f"{k}.0")
            self.assertEqual(Decimal(row[1]), Decimal(_ranges(count)[k]) / 2)
            self.assertLessEqual(abs(Fraction(row[4]) - 100 * shares[k] / total), Fraction(1, 20))
            endurance = Fraction(1, 2) / worst.share(Fraction(k))
            self.assertEqual(int(row[2].replace(GROUPS, "")), int(endurance))


def _ranges(count: Any) -> dict[int, int]:
    """Half units by range in N/mm², with classes of 1 N/mm²."""
    ranges: Counter[int] = Counter()
    for (low, high), half_units in count.pairs.items():
        ranges[high - low] += half_units
    return ranges


class Refusals(unittest.TestCase):
    """Nothing is drawn, and a page that was there stays."""

    def test_a_changed_digit(self) -> None:
        case = bridge_case(3000)
        folder = case.folder(self)
        text = case.report
        places = [place for place, digit in enumerate(text) if digit.isdigit()]
        chance = random.Random(3)
        detail_digits = [place for place in places if place > text.index("detail ")]
        for place in chance.sample(places, 25) + chance.sample(detail_digits, 25):
            other = chance.choice("0123456789".replace(text[place], ""))
            (folder / "report.txt").write_text(text[:place] + other + text[place + 1 :])
            self.assertRegex(draw(folder), r"^2 monitor-companion: .*report\.txt:\d+")
            self.assertEqual(len(list(folder.iterdir())), 2)
        (folder / "page.html").write_text("an older page")
        self.assertEqual(draw(folder)[0], "2")
        self.assertEqual((folder / "page.html").read_text(), "an older page")

    def test_a_configuration_that_does_not_fit(self) -> None:
        case = bridge_case(3000)
        folder = case.folder(self)
        changes = (
            ("category = 50", "category = 56"),
            ("width = 2  ", "width = 4  "),
            ('name = "web-shear"', 'name = "web"'),
        )
        for was, now in changes:
            (folder / "monitor.toml").write_text(case.configuration.replace(was, now, 1))
            self.assertEqual(draw(folder)[0], "2")
            self.assertFalse((folder / "page.html").exists())

    def test_a_place_that_cannot_be_written(self) -> None:
        folder = bridge_case(600).folder(self)
        told = io.StringIO()
        with contextlib.redirect_stderr(told):
            status = run_command(
                "page", folder / "report.txt", "--site", folder, "-o", folder / "no" / "page.html"
            )
        self.assertEqual(status, 2)
        self.assertIn("page.html: can't be written: No such file", told.getvalue())

    def test_standard_input_stands_once(self) -> None:
        folder = bridge_case(600).folder(self)
        told = io.StringIO()
        with contextlib.redirect_stderr(told):
            status = run_command("page", "-", "-", "--site", folder, "-o", folder / "page.html")
        self.assertEqual(status, 2)
        self.assertIn("standard input: can be read only once", told.getvalue())

    def test_a_disk_that_is_full(self) -> None:
        folder = bridge_case(600).folder(self)
        (folder / "page.html").write_text("an older page")
        full = OSError(errno.ENOSPC, "No space left on device")
        with unittest.mock.patch("os.replace", side_effect=full):
            self.assertRegex(draw(folder), "^2 .*page.html: can't be written: No space left")
        self.assertEqual((folder / "page.html").read_text(), "an older page")
        self.assertEqual(len(list(folder.iterdir())), 3)

    def test_a_folder_in_the_place_of_the_page(self) -> None:
        folder = bridge_case(600).folder(self)
        (folder / "page.html").mkdir()
        self.assertRegex(draw(folder), "^2 .*page.html: can't be written: Is a directory")
        self.assertEqual(len(list(folder.iterdir())), 3)

    def test_places_that_are_no_file(self) -> None:
        """A link stays a link, and a pipe is written into."""
        folder = bridge_case(600).folder(self)
        (folder / "page.html").symlink_to("other.html")
        draw(folder)
        self.assertTrue((folder / "page.html").is_symlink())
        text = (folder / "other.html").read_text(encoding="utf-8")
        (folder / "page.html").unlink()
        os.mkfifo(folder / "page.html")
        with subprocess.Popen(["cat", folder / "page.html"], stdout=subprocess.PIPE) as reader:
            draw(folder)
            self.assertEqual(reader.communicate()[0].decode(), text)


if __name__ == "__main__":
    unittest.main()
