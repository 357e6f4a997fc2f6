"""Reports are read exactly, and refused where they don't agree with themselves or their site."""

from __future__ import annotations

import itertools
import os
import random
import unittest
from fractions import Fraction

from monitor_companion.curves import Curve, Kind, damage_by_range, total_damage
from monitor_companion.refusals import Refusal
from monitor_companion.report import PairCount, RangeCount, Report, parse_report
from monitor_companion.report_agreement import DetailDamage, check_report
from monitor_companion.report_history import possible_counts
from monitor_companion.report_site import read_site
from tests.program import ROOT
from tests.report_cases import (
    BRIDGE,
    STANDARD_STRESSES,
    Case,
    bridge_case,
    case_of,
    model,
    random_case,
    standard_case,
)

# docs/RULES.md: category, knee and cut-off limit, in N/mm².
NORMAL_LIMITS = """
    160 117.92 64.73808   140 103.18 56.64582   125 92.125 50.576625  112 82.544 45.316656
    100 73.7 40.4613      90 66.33 36.41517     80 58.96 32.36904     71 52.327 28.727523
    63 46.431 25.490619   56 41.272 22.658328   50 36.85 20.23065     45 33.165 18.207585
    40 29.48 16.18452     36 26.532 14.566068
""".split()
SHEAR_LIMITS = ((100, "45.7"), (80, "36.56"))


def _counts_text(*counts: dict[int, int]) -> str:
    return str([sorted(each.items()) for each in counts])


def _checked(case: Case, test: unittest.TestCase, text: str | None = None) -> list[DetailDamage]:
    site = read_site(case.folder(test))
    report = parse_report((case.report if text is None else text).encode(), "report.txt")
    return list(check_report(report, site))


class Curves(unittest.TestCase):
    """docs/RULES.md, section on fatigue strength curves."""

    def test_limits(self) -> None:
        rows = zip(NORMAL_LIMITS[0::3], NORMAL_LIMITS[1::3], NORMAL_LIMITS[2::3], strict=True)
        for category, knee, cut_off in rows:
            for gamma in (100, 115, 135):
                curve = Curve(Kind.NORMAL, int(category), gamma)
                assert curve.knee is not None
                self.assertEqual(curve.knee * gamma / 100, Fraction(knee))
                self.assertEqual(curve.cut_off * gamma / 100, Fraction(cut_off))
        for shear, limit in SHEAR_LIMITS:
            curve = Curve(Kind.SHEAR, shear, 100)
            self.assertIsNone(curve.knee)
            self.assertEqual(curve.cut_off, Fraction(limit))

    def test_the_example_by_hand(self) -> None:
        curve = Curve(Kind.NORMAL, 50, 100)
        rows = (
            (74, 4_000_000, Fraction(50653, 125000)),
            (73, 10_000_000, Fraction(207307159300000, 217438998607457)),
            (41, 10_000_000, Fraction(11585620100000, 217438998607457)),
            (40, 10_000_000, Fraction(0)),
        )
        for half_stress, half_units, damage in rows:
            (row,) = damage_by_range(curve, [RangeCount(half_stress, half_units)])
            self.assertEqual(row.damage, damage)
        self.assertEqual(curve.endurance(Fraction(37)), 2_000_000 * Fraction(50, 37) ** 3)
        self.assertIsNone(curve.endurance(Fraction(20)))


class Parsing(unittest.TestCase):
    """What is read equals the independent count."""

    def test_text_of_the_documentation(self) -> None:
        text = standard_case().report
        begin, end = (ROOT / "docs" / "FORMATS.md").read_text().split("gauge north\n")[1].split(
            "...\nranges\n"
        )
        self.assertTrue(text.startswith("gauge north\n" + begin.split("...")[0]))
        self.assertIn("ranges\n" + end.split("```")[0], text)
        report = parse_report(text.encode(), "report.txt")
        (north,) = report.gauges
        # By hand, docs/RULES.md: 9 half a cycle, 8 one, 6 a half, 4 one and a half, 3 a half.
        self.assertEqual([tuple(row) for row in north.rainflow.rows],
                         [(18, 1), (16, 2), (12, 1), (8, 3), (6, 1)])
        self.assertEqual([tuple(row) for row in north.peaks.rows],
                         [(9, 1), (11, 1), (12, 1), (13, 1)])
        self.assertEqual([tuple(row) for row in north.valleys.rows], [(4, 1), (5, 1), (7, 1)])
        self.assertEqual((north.line, north.rainflow.line, north.matrix.line), (1, 3, 9))
        self.assertEqual(report.details[0].damage, 0)

    def test_random_sites(self) -> None:
        chance = random.Random(42)
        for _ in range(60):
            case = random_case(chance)
            report = parse_report(case.report.encode(), "report.txt")
            self._compare(report, case)
            for found, detail in zip(_checked(case, self), case.details, strict=True):
                self._compare_damage(found, detail, case)

    def _compare(self, report: Report, case: Case) -> None:
        width = case.grid.width
        for gauge, name, count in zip(report.gauges, case.names, case.counts, strict=True):
            self.assertEqual(gauge.name, name)
            self.assertEqual((gauge.samples, gauge.missing), (count.samples, count.missing))
            self.assertEqual(gauge.used, len(count.levels))
            ranges = {row.half_stress: row.half_units for row in gauge.rainflow.rows}
            by_range = model.by_range(count.pairs)
            self.assertEqual(ranges, {k * width: n for k, n in by_range.items()})
            pairs = {(row.lower, row.upper): row.half_units for row in gauge.matrix.rows}
            self.assertEqual(pairs, count.pairs)
            self.assertEqual(dict(gauge.crossings.rows), count.crossings())
            self.assertEqual(dict(gauge.peaks.rows), count.extremes(True))
            self.assertEqual(dict(gauge.valleys.rows), count.extremes(False))
            simple = {k * width: n for k, n in count.simple_ranges().items()}
            self.assertEqual(dict(gauge.ranges.rows), simple)

    def _compare_damage(self, found: DetailDamage, detail: object, case: Case) -> None:
        pairs = case.counts[case.names.index(found.detail.gauge)].pairs
        width = Fraction(case.grid.width, 2)
        shares = {
            k * width: halves * detail.share(k * width)  # type: ignore[attr-defined]
            for k, halves in model.by_range(pairs).items()
        }
        self.assertEqual({row.stress_range: row.damage for row in found.ranges}, shares)
        self.assertEqual(total_damage(found.ranges), found.printed.damage)


# What is changed in the report of the standard's example (the first place), and what is told.
REFUSED_TEXTS = (
    ("gauge north", "gauge", ":1, cell 'gauge': `gauge NAME` is wanted"),
    ("gauge north", "gauge no rth", "`gauge NAME` is wanted"),
    ("gauge north\n", "held north 9\ngauge north\n", ":1, cell 'held north 9': this is a line"),
    ("gauge north\n", "", "this is the table of one recording by `table`"),
    ("samples 9", "samples 09", ":2, cell 'samples 09 used"),
    ("samples 9", "samples 8", ":2: 8 samples are not 9 used, 0 missing and 0 refused"),
    ("samples 9 used 9", "samples 8 used 8", "8 half cycles can't be of 8 used readings"),
    ("rainflow", "Rainflow", ":3, cell 'Rainflow': the heading `rainflow` is wanted"),
    ("9.0 0.5", "9 0.5", ":4, cell '9 0.5': `RANGE CYCLES`"),
    ("9.0 0.5", "9.0 0.50", ":4, cell '9.0 0.50'"),
    ("9.0 0.5", "9.0  0.5", ":4, cell '9.0  0.5'"),
    ("9.0 0.5", "9.0 0.5 ", ":4, cell '9.0 0.5 '"),
    ("9.0 0.5", "9.0 0.0", ":4: a count from 1 on"),
    ("9.0 0.5", "9.0 0.3", ":4, cell '9.0 0.3'"),
    ("9.0 0.5\n", "9.0 0.5\n9.0 0.5\n", ":5: this row is out of order"),
    ("9.0 0.5\n8.0 1.0\n", "8.0 1.0\n9.0 0.5\n", ":5: this row is out of order"),
    ("9.0 0.5\n", "", ":3: gauge north: the range 9.0 has no row here, and 1 half cycles"),
    ("8.0 1.0", "8,0 1,0", ":5, cell '8,0 1,0'"),
    ("matrix\n", "", "`RANGE CYCLES`, each with one decimal 0 or 5, or a heading is wanted"),
    ("crossings\n", "crossings\ncrossings\n", "`LEVEL COUNT`, or a heading is wanted"),
    ("4 12 0.5", "12 4 0.5", "a lower and an upper level are wanted"),
    ("4 12 0.5", "4 1024 0.5", "a lower and an upper level are wanted"),
    ("4 12 0.5", "4 12 9000000000000.5", "a count from 1 on"),
    ("north 0 0/", "south 0 0/", "the report has no gauge south"),
    ("north 0 0/", "north 0 1/0", "`detail NAME GAUGE WHOLE NUM/DEN DECIMALS` is wanted"),
    ("north 0 0/", "north 0 1/", "the decimals are not the fraction, rounded up"),
    (" 0.000000000", " 0.00000000", "`detail NAME GAUGE WHOLE NUM/DEN DECIMALS` is wanted"),
    ("detail weld", "\ndetail weld", "`RANGE CYCLES`"),
    ("valleys\n", "valleys\r\n", "a byte that no report has"),
    ("weld-1", "wéld-1", "a byte that no report has"),
)


class Refused(unittest.TestCase):
    """Texts that are no report, or the report of something else."""

    def test_texts(self) -> None:
        case = standard_case()
        for was, now, told in REFUSED_TEXTS:
            with self.subTest(was=was, now=now):
                text = case.report.replace(was, now, 1)
                self.assertNotEqual(text, case.report)
                self._refused(case, text, told)

    def test_other_ends(self) -> None:
        case = standard_case()
        self._refused(case, "", "report.txt: the report is empty")
        self._refused(case, case.report[:-1], "the last line has no end: the report is cut off")
        self._refused(case, case.report + "\n", ":43, cell '': `detail NAME")
        lines = case.report.splitlines(keepends=True)
        self._refused(case, "".join(lines[:-1]), "the report ends before the detail weld-1")
        self._refused(case, "".join(lines[:12]), "the report ends here")
        self._refused(case, case.report + lines[-1], "detail weld-1 stands here again")
        denominator = lines[-1].split("/")[1].split()[0]
        whole = lines[-1].replace("0/", f"{denominator}/").replace(" 0.0", " 1.0")
        self._refused(case, "".join([*lines[:-1], whole]), "the fraction isn't below 1")
        again = "".join(lines[:-1] + lines)
        self._refused(case, again, "gauge north stands here again")

    def test_each_digit_of_the_standard_s_example(self) -> None:
        case = standard_case()
        site = read_site(case.folder(self))
        text = case.report
        for place, digit in enumerate(text):
            for other in "0123456789" if digit.isdigit() else "":
                if other != digit:
                    changed = text[:place] + other + text[place + 1 :]
                    with self.assertRaises(Refusal, msg=changed):
                        check_report(parse_report(changed.encode(), "report.txt"), site)

    def test_digits_of_the_bridge(self) -> None:
        case = bridge_case()
        site = read_site(case.folder(self))
        text = case.report
        places = [place for place, digit in enumerate(text) if digit.isdigit()]
        chance = random.Random(7)
        for place in chance.sample(places, 120):
            other = chance.choice("0123456789".replace(text[place], ""))
            changed = text[:place] + other + text[place + 1 :]
            with self.assertRaises(Refusal, msg=f"{text[place - 20 : place + 9]!r} {other}"):
                check_report(parse_report(changed.encode(), "report.txt"), site)

    def test_rows_that_are_left_out(self) -> None:
        case = standard_case()
        lines = case.report.splitlines(keepends=True)
        for number in range(len(lines)):
            self._refused(case, "".join(lines[:number] + lines[number + 1 :]), "report.txt")

    def test_every_short_history(self) -> None:
        """What a matrix may go with is what it goes with in the histories of six points or less."""
        classes, reference = 4, 2
        grid = model.Grid(classes, 2, 0, reference)
        histories = (
            list(levels)
            for length in range(1, 7)
            for levels in itertools.product(range(classes), repeat=length)
            if model.turning_points(levels) == list(levels)
        )
        counted: dict[tuple[PairCount, ...], set[str]] = {}
        for levels in histories:
            count = model.Count(grid, (1000, 1, 0), levels)
            matrix = tuple(PairCount(lo, hi, n) for (lo, hi), n in sorted(count.pairs.items()))
            counts = (count.crossings(), count.extremes(True), count.extremes(False))
            counted.setdefault(matrix, set()).add(_counts_text(*counts))
        self.assertGreater(len(counted), 100)
        for matrix, texts in counted.items():
            possible = possible_counts(matrix, reference)
            found = {_counts_text(each.crossings, each.peaks, each.valleys) for each in possible}
            self.assertEqual(found, texts, matrix)

    def test_a_history_backwards_is_another_report(self) -> None:
        """A difference that only the first and the last reading know can't be found."""
        stresses = [*STANDARD_STRESSES[:-1], -1]
        texts = [
            case_of(standard_case().configuration, [raws]).report
            for raws in (stresses, stresses[::-1])
        ]
        different = [a != b for a, b in zip(*(text.splitlines() for text in texts), strict=True)]
        self.assertEqual(sum(different), 1)
        for text in texts:
            self.assertEqual(len(_checked(standard_case(), self, text)), 1)

    def _refused(self, case: Case, text: str, told: str) -> None:
        with self.assertRaises(Refusal) as caught:
            _checked(case, self, text)
        self.assertIn(told, str(caught.exception))


# What is changed in the bridge's configuration, and what is told.
MISFITS = (
    ("classes = 128", "classes = 100", "no level 108"),
    ("width = 2  ", "width = 1  ", "half cycles of this range"),
    ("width = 2  ", "width = 4  ", "no such range"),
    ("reference = 64 ", "reference = 65 ", "there is no peak at a level 64"),
    ("reference = 64 ", "reference = 63 ", "there is no valley at a level 63"),
    (
        'name = "span2-flange"',
        'name = "span3-flange"',
        'detail 0 "stiffener": gauge = "span2-flange" is no gauge; allowed is one of'
        ' "span3-flange" "pier-flange" "web-shear"',
    ),
    ('name = "stiffener"', 'name = "stiffner"', "detail stiffener on span2-flange stands where"),
    ('"normal"\ncategory = 80', '"normal"\ncategory = 90', "isn't that of normal 90, factor 1.15"),
    ('"normal"\ncategory = 80', '"shear"\ncategory = 80', "isn't that of shear 80, factor 1.15"),
    ("gamma = 135", "gamma = 115", "normal 50, factor 1.15"),
    ('gauge = "web-shear"', 'gauge = "pier-flange"', "detail web-fillet on web-shear stands where"),
    (
        "gamma = 135",
        "gamma = 130",
        'detail 1 "cover-plate": gamma = 130 is none of them; allowed is one of 100 115 135',
    ),
    ('kind = "shear"', 'kind = "normal"', "isn't that of normal 80"),
    (
        "category = 112",
        "category = 111",
        'detail 2 "flange-butt": category = 111 is none of them; allowed is one of 160 140 125 112'
        " 100 90 80 71 63 56 50 45 40 36 for normal stress",
    ),
    (
        "num = 210",
        "num = 1_000_000_001",
        'gauge 0 "span2-flange": num = 1000000001 is out of range; allowed is a whole number from'
        " -1000000000 to 1000000000",
    ),
    ("num = 210", 'num = "210"', 'gauge 0 "span2-flange": num = "210" is a text; allowed is'),
    ("num = 210", "num = true", 'gauge 0 "span2-flange": num = true is true or false; allowed is'),
    ("low = -64000", "", "monitor.toml:5: [grid]: low is missing"),
    ("[grid]", "[grid", "monitor.toml:5: no TOML in column 6: "),
)


class Site(unittest.TestCase):
    """A configuration that doesn't fit the report."""

    def test_misfits(self) -> None:
        case = bridge_case()
        report = parse_report(case.report.encode(), "report.txt")
        for was, now, told in MISFITS:
            with self.subTest(now=now):
                folder = case.folder(self)
                changed = case.configuration.replace(was, now, 1)
                self.assertNotEqual(changed, case.configuration)
                (folder / "monitor.toml").write_text(changed)
                with self.assertRaises(Refusal) as caught:
                    check_report(report, read_site(folder))
                self.assertIn(told, str(caught.exception))

    def test_gauges_in_another_order(self) -> None:
        case = bridge_case()
        parts = case.configuration.split("[[gauge]]")
        tail, details = parts[3].split("[[detail]]", 1)
        swapped = "[[gauge]]".join([parts[0], parts[2], parts[1], tail]) + "[[detail]]" + details
        folder = case.folder(self)
        (folder / "monitor.toml").write_text(swapped)
        with self.assertRaises(Refusal) as caught:
            check_report(parse_report(case.report.encode(), "report.txt"), read_site(folder))
        told = "report.txt:1: gauge span2-flange stands where"
        self.assertIn(told, str(caught.exception))
        self.assertIn("has gauge pier-flange", str(caught.exception))

    def test_no_configuration(self) -> None:
        folder = standard_case().folder(self)
        (folder / "monitor.toml").unlink()
        with self.assertRaises(Refusal) as caught:
            read_site(folder)
        told = "monitor.toml: isn't there: --site names the folder that has it"
        self.assertIn(told, str(caught.exception))

    def test_period(self) -> None:
        folder = standard_case().folder(self)
        self.assertEqual(read_site(folder).periods, (None,))
        (folder / "north.sgrc").write_bytes(model.recording([1, 2], period=10_000))
        self.assertEqual(read_site(folder).periods, (10_000,))
        (folder / "north.sgrc").write_bytes(b"SGRX" + model.recording([1])[4:])
        self.assertEqual(read_site(folder).periods, (None,))
        (folder / "north.sgrc").unlink()
        os.mkfifo(folder / "north.sgrc")
        self.assertEqual(read_site(folder).periods, (None,))
        (folder / "monitor.store").touch()
        self.assertFalse(read_site(folder).has_store)
        self.assertEqual(read_site(BRIDGE).periods, (50_000,) * 3)

    def test_store_of_another_configuration(self) -> None:
        """The store in docs/FORMATS.md is one of the standard's grid, period 10000, gain 1000."""
        folder = standard_case().folder(self)
        store = folder / "monitor.store"
        head = "01534753540200010010000 2ffffffffffffe0c00008" + "11" * 16 + "00002710"
        gain = "00000000000003e8" + "00000001" + "0000000000000000" + "00"
        content = bytes.fromhex(head.replace(" ", "") + gain)
        store.write_bytes(content)
        self.assertEqual(read_site(folder).periods, (10_000,))
        another_gauge = bytes(40)
        changes = (
            (9, 0x20, "toml:2: [grid]: classes = 16, but monitor.store was made with 32"),
            (11, 1, "toml:3: [grid]: width = 2, but monitor.store was made with 1"),
            (19, 0xC1, "toml:4: [grid]: low = -8000, but monitor.store was made with -7999"),
            (21, 7, "toml:5: [grid]: reference = 8, but monitor.store was made with 7"),
            (7, 2, "monitor.toml: 1 gauge, but monitor.store was made for 2"),
            (0, 0, "monitor.store: was not finished by init"),
            (1, 0, "monitor.store: doesn't begin as a store"),
            (5, 3, "monitor.store: is of version 3; allowed are 1 and 2"),
            (49, 0xE9, 'toml:9: gauge 0 "north": num = 1000, but monitor.store was made with 1001'),
            (53, 2, 'toml:6: gauge 0 "north": den = 1, but monitor.store was made with 2'),
        )
        for place, byte, told in changes:
            with self.subTest(told=told):
                changed = content[:place] + bytes([byte]) + content[place + 1 :]
                store.write_bytes(changed + another_gauge)
                with self.assertRaises(Refusal) as caught:
                    read_site(folder)
                self.assertIn(told, str(caught.exception))


if __name__ == "__main__":
    unittest.main()
