"""The times of an export: its period, gaps, repeated rows, and times that go back."""

from __future__ import annotations

import unittest
from fractions import Fraction

from monitor_companion.recording import read_head
from monitor_companion.refusals import Status
from monitor_companion.times import ClockTimes, ElapsedTimes, TimeKind, time_from_text, time_text

from tests.importing import SiteTest


class Times(SiteTest):
    """Times in columns of an export."""

    gauges = ("span",)

    def export(self, *times: str, name: str = "time") -> str:
        """An export with these times, and the readings 0, 1, 2 .."""
        rows = "".join(f"{time};{n}\n" for n, time in enumerate(times))
        return self.write("export.csv", f"{name};span\n{rows}")

    def period(self, *words: str) -> int:
        """The period of the recording that is made."""
        for file in self.site.glob("*.sgrc*"):
            file.unlink()
        self.assertEqual(self.call("import", "export.csv", *words), Status.DONE, self.err)
        return read_head(self.site / "span.sgrc").period

    def test_periods(self) -> None:
        cases: list[tuple[list[str], str, tuple[str, ...], int]] = [
            (["0", "0.05", "0.10"], "time", (), 50_000),
            (["0,000", "0,005", "0,010"], "Zeit", (), 5_000),
            (["0", "50", "100"], "time [ms]", (), 50_000),
            (["0", "50", "100"], "time", ("--time-format", "ms"), 50_000),
            (["1e-2", "2e-2", "3e-2"], "time", (), 10_000),
            (["0.3333", "0.6667", "1.0000"], "time", (), 333_350),
            (["2026-09-01 06:00:00", "2026-09-01 06:00:00.02"], "timestamp", (), 20_000),
            (["2026-09-01T23:59:59.5Z", "2026-09-02T00:00:00Z"], "time", (), 500_000),
            (["31.08.2026 23:59:59,9", "01.09.2026 00:00:00,0"], "time", (), 100_000),
            (["28.02.2028 23:59:59", "29.02.2028 00:00:00"], "time", (), 1_000_000),
            (["06:00:00.00", "06:00:00.25", "06:00:00.50"], "time", (), 250_000),
            (
                ["9/1/2026 11:59:59 AM", "9/1/2026 12:00:00 PM", "9/1/2026 12:00:01 PM"],
                "time",
                ("--time-format", "%m/%d/%Y %I:%M:%S %p"),
                1_000_000,
            ),
            (
                ["46266.25", "46266.250011574"],
                "when",
                ("--time", "when", "--time-format", "d"),
                999_994,
            ),
        ]
        for times, name, words, period in cases:
            with self.subTest(times):
                self.export(*times, name=name)
                self.assertEqual(self.period(*words), period)

    def test_date_and_time_in_two_columns(self) -> None:
        self.write("export.csv", "Date,Time,span\n2026-09-01,23:59:59,1\n2026-09-02,00:00:00,2\n")
        self.assertEqual(self.period(), 1_000_000)

    def test_jitter_is_no_gap(self) -> None:
        self.export("0", "0.051", "0.1", "0.149", "0.2", "0.25")
        self.assertEqual(self.period(), 50_000)
        self.assertIn("no gaps", self.out)

    def test_a_gap_is_refused_and_told(self) -> None:
        self.export("0", "1", "2", "5", "6", "7", "8")
        self.refused(
            "export.csv, column time: 1 gaps (2 rows lack); line 5, 5: about 2 rows lack before it;"
            " --allow-gaps takes the rows as they stand",
            "import",
            "export.csv",
        )
        self.assertEqual(self.period("--allow-gaps"), 1_000_000)
        self.assertEqual(self.samples("span"), list(range(7)))
        self.assertIn("1 gaps (2 rows lack); line 5, 5", self.out)

    def test_a_repeated_time_is_refused_and_told(self) -> None:
        self.export("0", "1", "2", "2", "3", "4")
        self.refused(
            "export.csv, column time: 1 repeated times; line 5, 2: the time stands again;"
            " --allow-gaps takes the rows as they stand",
            "import",
            "export.csv",
        )
        self.period("--allow-gaps")
        self.assertEqual(self.samples("span"), list(range(6)))

    def test_a_time_that_goes_back_is_always_refused(self) -> None:
        self.export("0", "1", "2", "1", "2", "3")
        why = "the time goes back, from 2: rows stand twice or in disorder"
        for words in ((), ("--allow-gaps",)):
            self.refused(
                f"export.csv:5, column time, cell '1': {why}", "import", "export.csv", *words
            )

    def test_what_is_no_time(self) -> None:
        cases = {
            (
                "2026-09-01 06:00:00",
                "2026-09-31 06:00:01",
            ): "is no time: there is no such day or hour",
            (
                "2026-09-01 06:00:00",
                "2026-09-01 06:60:01",
            ): "is no time: minutes and seconds go to 59",
            (
                "2026-09-01 06:00:00",
                "2026-09-01 24:00:01",
            ): "is no time: there is no such day or hour",
            ("2026-09-01 06:00:00", "01.09.2026 06:00:01"): "is no time of the export's form",
            ("2026-09-01 06:00:00", ""): "is no time of the export's form",
            ("0", "NaN"): "is no number",
            ("0", ""): "is no number",
        }
        for times, why in cases.items():
            with self.subTest(times):
                self.export(*times)
                self.refused(
                    f"export.csv:3, column time, cell {times[1]!r}: {why}", "import", "export.csv"
                )

    def test_a_form_that_has_to_be_said(self) -> None:
        self.export("9/1/2026 06:00:00", "9/1/2026 06:00:01")
        self.refused(
            "export.csv:2, column time, cell '9/1/2026 06:00:00': is no time of a known form: say"
            " --time-format or --no-time",
            "import",
            "export.csv",
        )

    def test_a_unit_that_is_not_known(self) -> None:
        self.export("0", "1", name="time [weeks]")
        self.refused(
            "export.csv:2: the column time [weeks] counts in 'weeks': say --time-format",
            "import",
            "export.csv",
        )

    def test_no_times(self) -> None:
        self.export("x", "x", name="remark")
        self.refused(
            "export.csv:1: has no column of times that is known: say --time or --period",
            "import",
            "export.csv",
        )
        self.assertEqual(self.period("--period", "20000"), 20_000)
        self.assertIn("2 rows without times: gaps and repeated rows can't be seen", self.out)

    def test_a_period_that_the_times_do_not_have(self) -> None:
        self.export("0", "0.05", "0.1", "0.15")
        self.refused(
            "export.csv, column time: its rows come every 50000 µs, and not every 40000",
            "import",
            "export.csv",
            "--period",
            "40000",
        )

    def test_most_times_stand_again(self) -> None:
        """Times by the second, of a logger that is faster."""
        self.export("0", "0", "0", "1", "1", "1", "2", "2")
        self.refused(
            "export.csv, column time: most times stand again, so there is no period: say --no-time",
            "import",
            "export.csv",
            "--allow-gaps",
        )
        self.assertEqual(self.period("--no-time", "--period", "333333"), 333_333)


class Texts(unittest.TestCase):
    """Times as the journal writes them."""

    def test_there_and_back(self) -> None:
        for text in (
            "2026-09-01T06:00:00",
            "1969-12-31T23:59:59.000000001",
            "2000-02-29T12:30:00.05",
        ):
            time = time_from_text(text, TimeKind.CLOCK)
            self.assertEqual(time_text(time, TimeKind.CLOCK), text)
        for text in ("0", "59.95", "-0.5", "-3", "123456789.123456789"):
            time = time_from_text(text, TimeKind.ELAPSED)
            self.assertEqual(time_text(time, TimeKind.ELAPSED), text)

    def test_epoch_and_zone(self) -> None:
        zone = ClockTimes("%Y-%m-%d %H:%M:%S%z")
        self.assertEqual(zone.read(b"1970-01-01 02:00:00+02:00"), 0)
        self.assertEqual(
            zone.many([b"1970-01-01 00:00:01Z", b"1969-12-31 23:00:00-0100"]),
            zone.many([b"1970-01-01 00:00:01Z"] + [b"1970-01-01 00:00:00Z"]),
        )
        self.assertEqual(
            ClockTimes("%Y-%m-%d %H:%M:%S").read(b"2026-09-01 00:00:00"), 1_788_220_800 * 10**9
        )

    def test_units(self) -> None:
        self.assertEqual(ElapsedTimes(Fraction(1, 1000), b",").read(b"1,5"), 1_500_000)
        self.assertEqual(
            list(ElapsedTimes(Fraction(60), b".").many([b"1.5", b"2.0"])),
            [90 * 10**9, 120 * 10**9],
        )
