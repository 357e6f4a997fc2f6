"""Exports become recordings exactly, or are refused with the place of what is wrong."""

from __future__ import annotations

import random
import re
from decimal import Decimal
from unittest import mock

from monitor_companion.dialects import Dialect
from monitor_companion.plain_rows import PlainRows
from monitor_companion.readings import SampleCells, whole_numbers
from monitor_companion.recording import read_head
from monitor_companion.refusals import Status

from tests.importing import SiteTest
from tests.make_exports import Export, exports, independent


class Exact(SiteTest):
    """Made exports, beside a reading that has nothing of the companion."""

    def check(self, export: Export) -> None:
        """Imports an export, and compares the recordings with the independent reading."""
        self.write(export.name, export.data)
        status = self.call("import", export.name, *export.words)
        self.assertEqual(status, Status.DONE, self.err)
        for gauge, step in export.steps.items():
            expected = independent(export, gauge)
            found = [None if s is None else Decimal(s) * step for s in self.samples(gauge)]
            self.assertEqual(len(found), len(expected))
            self.assertEqual(found, expected)
            self.assertEqual(read_head(self.site / f"{gauge}.sgrc").period, export.period)

    def test_each_export(self) -> None:
        for export in exports():
            with self.subTest(export.name):
                self.check(export)
                for file in self.site.glob("*.sgrc*"):
                    file.unlink()

    def test_each_export_row_by_row(self) -> None:
        """What is read cell by cell is what is read in bulk."""
        for export in exports():
            with (
                self.subTest(export.name),
                mock.patch.object(Dialect, "split_piece", return_value=None),
                mock.patch.object(SampleCells, "_bulk", return_value=None),
                mock.patch.object(PlainRows, "columns", return_value=None),
                mock.patch("monitor_companion.times.whole_numbers", return_value=None),
                mock.patch("monitor_companion.pieces.BLOCK", 97),
            ):
                self.check(export)
                for file in self.site.glob("*.sgrc*"):
                    file.unlink()

    def test_random_numbers(self) -> None:
        """Columns whose cells hardly repeat, in blocks of all sizes."""
        maker = random.Random(5)
        for run in range(12):
            places = run % 4
            values = [Decimal(maker.randrange(-9999, 9999)).scaleb(-places) for _ in range(700)]
            cells = [f"{'+' if v > 5 and run % 2 else ''}{v:.{places}f}" for v in values]
            self.write("random.csv", "span,pier\n" + "".join(f"{c},{c}\n" for c in cells))
            step = f"--step={Decimal(1).scaleb(-places)}"
            with mock.patch("monitor_companion.pieces.BLOCK", maker.randrange(40, 900)):
                status = self.call("import", "random.csv", step, "--period", "1000")
            self.assertEqual(status, Status.DONE, self.err)
            expected = [int(value.scaleb(places)) for value in values]
            self.assertEqual(self.samples("span"), expected)
            self.assertEqual(self.samples("pier"), expected)
            for file in self.site.glob("*.sgrc*"):
                file.unlink()


class Cells(SiteTest):
    """Cells, steps and spellings."""

    gauges = ("span",)

    def column(self, *cells: str) -> str:
        """An export of one column beside its times."""
        rows = "".join(f"{n}\t{cell}\n" for n, cell in enumerate(cells))
        return self.write("export.csv", "time\tspan\n" + rows)

    def test_a_part_of_a_step_is_refused(self) -> None:
        self.column("1.2", "1.25")
        self.refused(
            "export.csv:3, column span, cell '1.25': is no whole number of steps of 0.1",
            "import",
            "export.csv",
            "--step",
            "0.1",
        )

    def test_rounding_tells_how_many_and_how_far(self) -> None:
        self.column("1.2", "1.25", "1.35", "1.36", "1.25", "-0.07")
        self.assertEqual(self.call("import", "export.csv", "--step", "0.1", "--round"), Status.DONE)
        self.assertEqual(self.samples("span"), [12, 12, 14, 14, 12, -1])
        self.assertIn("5 rounded by up to 0.05", self.out)

    def test_steps_that_are_no_tenths(self) -> None:
        self.column("0.25", "0.5", "-1.75", "30")
        self.assertEqual(self.call("import", "export.csv", "--step", "0.25"), Status.DONE)
        self.assertEqual(self.samples("span"), [1, 2, -7, 120])

    def test_what_is_no_number_is_refused(self) -> None:
        bad = [
            "x",
            "1.2.3",
            "1,5",
            "0x10",
            "1_0",
            "--5",
            "5-",
            "1e",
            "e5",
            ".",
            "+",
            "1 2",
            "١",
            "1e1234",
        ]
        for cell in bad:
            with self.subTest(cell):
                self.column("1", "2", cell)
                self.refused(
                    f"export.csv:4, column span, cell {cell!r}: is no number",
                    "import",
                    "export.csv",
                    "--decimal",
                    "point",
                )

    def test_the_bulk_refuses_what_is_no_number(self) -> None:
        """Bad cells among many that are read in bulk, where only their characters look right."""
        for bad in (".-5", "-.-5", "5-.5", "+-1.5", "1..5", ". 5", "1 .5", "1.5.", "+", "1.5 5"):
            self.assertIsNone(whole_numbers([b"1.5", bad.encode()], b"."), bad)
            with self.subTest(bad), mock.patch("monitor_companion.pieces.BLOCK", 300):
                cells = [f"{n * 7919 % 9973}.{n % 10}" for n in range(300)]
                cells[250] = bad
                self.column(*cells)
                self.refused(
                    f"export.csv:252, column span, cell {bad!r}: is no number",
                    "import",
                    "export.csv",
                    "--step",
                    "0.1",
                )

    def test_the_range_of_a_recording(self) -> None:
        self.column("2147483647", "-2147483647")
        self.assertEqual(self.call("import", "export.csv"), Status.DONE)
        self.assertEqual(self.samples("span"), [2**31 - 1, -(2**31) + 1])
        for file in self.site.glob("*.sgrc*"):
            file.unlink()
        for cell in ("2147483648", "-2147483648", "1e200"):
            self.column("1", cell)
            self.assertEqual(self.call("import", "export.csv"), Status.REFUSED)
            self.assertIn(f"export.csv:3, column span, cell '{cell}': is ", self.err)
            self.assertIn("too many for a recording", self.err)

    def test_spellings_of_no_reading(self) -> None:
        self.column("1", "NaN", "", "overflow", "---", "nan", "2")
        self.assertEqual(self.call("import", "export.csv"), Status.DONE)
        self.assertEqual(self.samples("span"), [1, None, None, None, None, None, 2])
        self.assertIn("5 without reading ('' 1, '---' 1, 'NaN' 1, 'nan' 1, 'overflow' 1)", self.out)

    def test_a_spelling_that_is_asked_for(self) -> None:
        self.column("1", "-9999", "-9999.0", "fault", "-9998")
        words = ("--missing=-9999", "--missing", "fault")
        self.assertEqual(self.call("import", "export.csv", *words), Status.DONE)
        self.assertEqual(self.samples("span"), [1, None, None, None, -9998])

    def test_a_number_for_no_reading_is_told(self) -> None:
        self.column("1", "-9999", "-9999", "2")
        self.assertEqual(self.call("import", "export.csv"), Status.WARNED)
        self.assertEqual(self.samples("span"), [1, -9999, -9999, 2])
        self.assertIn("span: -9999 stands 2 times, and was taken as a reading", self.err)

    def test_spellings_can_be_taken_away(self) -> None:
        self.column("1", "OVERFLOW", "NaN")
        self.refused(
            "export.csv:3, column span, cell 'OVERFLOW': is no number",
            "import",
            "export.csv",
            "--only-missing",
            "NaN",
        )


class Forms(SiteTest):
    """Names, quotes, lines and separators."""

    def imported(self, data: str | bytes, *words: str) -> None:
        """Imports an export that is to be taken."""
        for file in self.site.glob("*.sgrc*"):
            file.unlink()
        self.write("export.csv", data)
        self.assertEqual(self.call("import", "export.csv", *words), Status.DONE, self.err)

    def test_quotes(self) -> None:
        data = 'time,"a, ""b""",span,pier\n0,"x,y",1,"2"\n1,"say ""no""","3",4\n2, "z" ,5,6\n'
        self.write("export.csv", data)
        self.assertEqual(self.call("import", "export.csv"), Status.REFUSED)
        self.assertIn("export.csv:4: the quotes don't fit", self.err)
        self.imported(data.replace(', "z" ,', ', "z",'))
        self.assertEqual((self.samples("span"), self.samples("pier")), ([1, 3, 5], [2, 4, 6]))

    def test_quoted_decimal_commas(self) -> None:
        self.imported('time,span,pier\n"0,0","1,5","2,5"\n"0,5","1,6","-2,6"\n', "--step", "0.1")
        self.assertEqual((self.samples("span"), self.samples("pier")), ([15, 16], [25, -26]))

    def test_a_quote_without_its_end(self) -> None:
        self.write("export.csv", 'time,span,pier\n0,1,2\n1,"3,4\n2,5,6\n')
        self.refused(
            "export.csv:3: the quotes don't fit: unexpected end of data", "import", "export.csv"
        )

    def test_names_over_two_lines(self) -> None:
        self.imported('time,"span\n[um]",pier\n0,1,2\n1,3,4\n')
        self.assertEqual(self.samples("span"), [1, 3])

    def test_names_that_stand_twice(self) -> None:
        self.write("export.csv", "time,span,pier,span\n0,1,2,3\n1,4,5,6\n")
        self.refused(
            "export.csv:1: the column 'span' stands at #2 and #4: say --column '#2=span' or another"
            " place",
            "import",
            "export.csv",
        )
        self.imported("time,span,pier,span\n0,1,2,3\n1,4,5,6\n", "--column", "#4=span")
        self.assertEqual(self.samples("span"), [3, 6])

    def test_a_name_that_is_not_there(self) -> None:
        self.write("export.csv", "time,spam,pier\n0,1,2\n1,4,5\n")
        self.refused(
            "export.csv: no row of its head has the column 'span'; there is 'spam'",
            "import",
            "export.csv",
        )

    def test_no_names(self) -> None:
        self.imported(
            "0;1;2\n1;3;4\n",
            "--names",
            "0",
            "--time",
            "#1",
            "--column",
            "#2=span",
            "--column",
            "#3=pier",
        )
        self.assertEqual((self.samples("span"), self.samples("pier")), ([1, 3], [2, 4]))

    def test_a_row_of_units_is_told(self) -> None:
        self.imported("about\ntime,span,pier\nms,um,um\n0,1,2\n50,3,4\n")
        self.assertIn("taken as a row of units: ms,um,um", self.out)
        self.assertIn("period 50000 µs", self.out)
        self.assertEqual(self.samples("span"), [1, 3])

    def test_a_first_row_with_a_fault_is_no_row_of_units(self) -> None:
        self.write("export.csv", "time,span,pier\n0,broken,2\n1,3,4\n")
        self.refused(
            "export.csv:2, column span, cell 'broken': is no number", "import", "export.csv"
        )

    def test_rows_of_another_width(self) -> None:
        for row in ("2,3", "2,3,4,5"):
            self.write("export.csv", f"time,span,pier\n0,1,2\n1,3,4\n{row}\n3,1,1\n")
            cells = row.count(",") + 1
            self.refused(
                f"export.csv:4: has {cells} cells, and 3 are expected", "import", "export.csv"
            )

    def test_two_wrong_rows_that_even_out(self) -> None:
        self.write("export.csv", "time,span,pier\n0,1,2\n1,3,4,5\n2,3\n3,1,1\n")
        self.refused("export.csv:3: has 4 cells, and 3 are expected", "import", "export.csv")

    def test_a_cut_last_row_is_left(self) -> None:
        for end in ("2,12", "2,12,3", "2,", '2,"'):
            self.imported(f"time,span,pier\n0,1,2\n1,3,4\n{end}")
            self.assertEqual(self.samples("span"), [1, 3])
            self.assertIn(
                f"line 4 has no line end, and is left for the next import: {end!r}", self.out
            )

    def test_the_half_of_a_line_end(self) -> None:
        self.imported("time,span,pier\r\n0,1,2\r\n1,3,4\r\n2,5,6\r")
        self.assertEqual(self.samples("span"), [1, 3])

    def test_blank_lines(self) -> None:
        self.imported("time,span,pier\n\n0,1,2\n\n1,3,4\n\n\n")
        self.assertEqual(self.samples("span"), [1, 3])

    def test_blank_lines_of_one_column(self) -> None:
        words = ("--gauge", "span", "--period", "1000")
        self.imported("span\n1\n2\n\n", *words)
        self.assertEqual(self.samples("span"), [1, 2])
        (self.site / "span.sgrc").unlink()
        (self.site / "span.sgrc.imports").unlink()
        self.write("export.csv", "span\n1\n\n2\n")
        self.refused(
            "export.csv:3: is blank, and it can't be told whether that is a row without a reading",
            "import",
            "export.csv",
            *words,
        )

    def test_zeros_behind_a_stop_are_refused(self) -> None:
        self.write("export.csv", b"time,span,pier\n0,1,2\n\0\0\0\0,\0\0,\0\n2,3,4\n")
        self.assertEqual(self.call("import", "export.csv"), Status.REFUSED)
        self.assertIn("export.csv:3, column time, cell '\\x00", self.err)

    def test_points_and_commas(self) -> None:
        self.write("export.csv", "time;span;pier\n0;1,5;2\n1;1.5;2\n")
        self.refused(
            "export.csv:3: its numbers have points and commas: say --decimal",
            "import",
            "export.csv",
        )

    def test_separators_that_both_fit(self) -> None:
        self.write("export.csv", "time;span;pier\n0;1,5;2\n1;1,6;3\n")
        self.assertEqual(self.call("import", "export.csv", "--step", "0.1"), Status.DONE)
        self.assertEqual(self.samples("span"), [15, 16])

    def test_an_encoding_that_is_not_so(self) -> None:
        self.write("export.csv", "time,span,pier\n0,1,2\n")
        self.assertEqual(self.call("import", "export.csv", "--encoding", "utf-16"), Status.REFUSED)
        self.assertIn("export.csv: is no UTF-16", self.err)

    def test_nothing_to_read(self) -> None:
        for data in ("", "time,span,pier", "time,span,pier\n", "time,span,pier\nms,um,um\n0,1,2"):
            with self.subTest(data):
                self.write("export.csv", data)
                self.assertEqual(self.call("import", "export.csv"), Status.REFUSED)
                self.assertTrue(re.search(r"has no|can't be found|no whole", self.err), self.err)
                self.assertEqual(list(self.site.glob("*.sgrc*")), [])


class Profiles(SiteTest):
    """Profiles of one's own."""

    def test_columns_and_steps(self) -> None:
        profile = (
            'separator = "semicolon"\n[columns."DMS 1"]\ngauge = "span"\nstep = "0.1"\n'
            '[columns."#3"]\ngauge = "pier"\nstep = 0.01\n'
        )
        path = self.site / self.write("mine.toml", profile)
        self.write("export.csv", "time;DMS 1;DMS 2\n0;1.5;0.25\n1;1.6;0.26\n")
        self.assertEqual(
            self.call("import", "export.csv", "--profile", str(path)), Status.DONE, self.err
        )
        self.assertEqual((self.samples("span"), self.samples("pier")), ([15, 16], [25, 26]))

    def test_what_a_profile_may_not_say(self) -> None:
        cases = {
            'seperator = "tab"\n': "unknown key seperator",
            'separator = "pipe"\n': "separator is 'pipe'; allowed are find, tab, semicolon, comma",
            "names = -1\n": "names is -1; allowed are 'find' and 0 to 1000",
            "missing = [-9999]\n": "missing has something that is no text; numbers stand in quotes",
            '[time]\nformat = "fortnight"\n': "the time format 'fortnight' is no unit",
            '[time]\nzone = "UTC"\n': "unknown key time.zone",
            '[columns.a]\nstep = "0.1"\n': "columns.a has to have gauge, may have step, no more",
            '[columns.a]\ngauge = "span"\nstep = "0"\n': "the step '0' isn't above 0",
        }
        self.write("export.csv", "time,span,pier\n0,1,2\n1,3,4\n")
        for text, why in cases.items():
            with self.subTest(text):
                path = self.site / self.write("mine.toml", text)
                self.assertEqual(
                    self.call("import", "export.csv", "--profile", str(path)), Status.REFUSED
                )
                self.assertIn(f"mine.toml: {why}", self.err)
