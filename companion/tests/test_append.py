"""Exports behind recordings: each once, in order, where the journal explains what is there."""

from __future__ import annotations

import hashlib
import json

from monitor_companion.recording import HEAD_BYTES, Head, read_head
from monitor_companion.refusals import Status

from tests.importing import SiteTest

DAY_1 = "timestamp,span,pier\n" + "".join(f"2026-09-01 00:00:{n:02},{n},{-n}\n" for n in range(10))
DAY_2 = "timestamp,span,pier\n" + "".join(
    f"2026-09-01 00:00:{n:02},{n},{-n}\n" for n in range(10, 25)
)
DAY_3 = "timestamp,span,pier\n" + "".join(
    f"2026-09-01 00:00:{n:02},{n},{-n}\n" for n in range(25, 31)
)


class AppendTest(SiteTest):
    """A site that has its first day."""

    def setUp(self) -> None:
        super().setUp()
        for name, data in (("day1.csv", DAY_1), ("day2.csv", DAY_2), ("day3.csv", DAY_3)):
            self.write(name, data)
        self.assertEqual(self.call("import", "day1.csv"), Status.DONE, self.err)

    def has(self, rows: int) -> None:
        """Expects that both recordings have the first rows."""
        self.assertEqual(self.samples("span"), list(range(rows)))
        self.assertEqual(self.samples("pier"), [-n for n in range(rows)])

    def journal(self, gauge: str = "span") -> list[dict[str, object]]:
        """The lines of a journal."""
        text = (self.site / f"{gauge}.sgrc.imports").read_text()
        return [json.loads(line) for line in text.splitlines()]

    def append(self, name: str, *words: str) -> None:
        """Appends an export that is to be taken."""
        self.assertEqual(self.call("append", name, *words), Status.DONE, self.err)


class Append(AppendTest):
    """What is appended, and what is told."""

    def test_days(self) -> None:
        self.append("day2.csv")
        self.append("day3.csv")
        self.has(31)
        head, *entries = self.journal()
        identity = read_head(self.site / "span.sgrc").identity.hex()
        self.assertEqual(head, {"journal": 1, "gauge": "span", "id": identity, "period": 1_000_000})
        self.assertEqual(
            [(e["export"], e["begin"], e["end"], e["rows"]) for e in entries],
            [("day1.csv", 0, 10, 10), ("day2.csv", 10, 25, 15), ("day3.csv", 25, 31, 6)],
        )
        self.assertEqual(entries[1]["sha256"], hashlib.sha256(DAY_2.encode()).hexdigest())
        self.assertEqual(
            (entries[1]["first"], entries[1]["last"]),
            ("2026-09-01T00:00:10", "2026-09-01T00:00:24"),
        )

    def test_the_same_export_twice(self) -> None:
        self.append("day2.csv")
        for name, number in (("day1.csv", 1), ("day2.csv", 2)):
            begin, end = ((0, 10), (10, 25))[number - 1]
            self.refused(
                f"{name}: is in span.sgrc already, as import {number} ({name}, samples {begin} to"
                f" {end}): nothing is appended",
                "append",
                name,
            )

    def test_the_same_rows_under_another_head(self) -> None:
        self.write("copy.csv", "exported again\n" + DAY_1)
        self.refused(
            "copy.csv:3: the last time of span is 2026-09-01T00:00:09 (day1.csv), and this export"
            " begins at 2026-09-01T00:00:00, not after it",
            "append",
            "copy.csv",
            "--allow-gaps",
        )

    def test_an_export_that_grows(self) -> None:
        grown = DAY_1 + DAY_2.partition("\n")[2]
        self.write("day1.csv", grown[:-4])
        self.append("day1.csv")
        self.has(24)
        self.assertIn("is left for the next import: '2026-09-01 00:00:24,24,'", self.out)
        self.write("day1.csv", grown)
        self.append("day1.csv")
        self.has(25)
        self.assertEqual(self.journal()[-1]["sha256"], hashlib.sha256(grown.encode()).hexdigest())
        self.assertEqual([e["rows"] for e in self.journal()[1:]], [10, 14, 1])

    def test_a_gap_between_exports(self) -> None:
        gap = (
            "day3.csv:2: the last time of span is 2026-09-01T00:00:09 (day1.csv), and this export"
            " begins at 2026-09-01T00:00:25: about 15 rows lack between; --allow-gaps takes them as"
            " they are"
        )
        self.refused(gap, "append", "day3.csv")
        self.append("day3.csv", "--allow-gaps")
        self.assertEqual(self.samples("span"), [*range(10), *range(25, 31)])
        self.assertIn("about 15 rows lack between", self.out)

    def test_another_period(self) -> None:
        rows = "".join(
            f"2026-09-01 00:00:{10 + n}.5,1,1\n2026-09-01 00:00:{11 + n},1,1\n" for n in range(9)
        )
        self.write("fast.csv", "timestamp,span,pier\n" + rows)
        self.refused(
            "fast.csv, column timestamp: its rows come every 500000 µs, and not every 1000000",
            "append",
            "fast.csv",
        )

    def test_another_step(self) -> None:
        self.refused(
            "day2.csv, column span: its step was 1 so far, and can't be another now",
            "append",
            "day2.csv",
            "--step",
            "0.1",
        )

    def test_the_step_and_the_column_are_kept(self) -> None:
        for file in self.site.glob("*.sgrc*"):
            file.unlink()
        day = "time;a;b\n0;1,5;0,25\n1;1,6;0,26\n"
        self.write("a.csv", day)
        words = (
            "--column",
            "a=span",
            "--column",
            "#3=pier",
            "--step",
            "span=0.1",
            "--step",
            "pier=0.01",
        )
        self.assertEqual(self.call("import", "a.csv", *words), Status.DONE, self.err)
        self.write("b.csv", day.replace("\n0;", "\n2;").replace("\n1;", "\n3;"))
        self.append("b.csv")
        self.assertEqual(self.samples("span"), [15, 16, 15, 16])
        self.assertEqual(self.samples("pier"), [25, 26, 25, 26])

    def test_times_that_begin_again(self) -> None:
        for file in self.site.glob("*.sgrc*"):
            file.unlink()
        for number in (1, 2):
            self.write(f"{number}.csv", f"time,span,pier\n0,{number},0\n1,{number},0\n")
        self.assertEqual(self.call("import", "1.csv"), Status.DONE)
        self.refused(
            "2.csv:2: the last time of span is 1 (1.csv), and this export begins at 0, not after"
            " it; --times-begin-again where each export does",
            "append",
            "2.csv",
        )
        self.append("2.csv", "--times-begin-again")
        self.assertEqual(self.samples("span"), [1, 1, 2, 2])

    def test_a_fault_in_one_column_leaves_all(self) -> None:
        self.write("day2.csv", DAY_2.replace("24,24,-24", "24,24,broken"))
        self.refused("day2.csv:16, column pier, cell 'broken': is no number", "append", "day2.csv")


class Unexplained(AppendTest):
    """Recordings that the journal doesn't explain."""

    def test_a_recording_of_another_length(self) -> None:
        path = self.site / "pier.sgrc"
        data = path.read_bytes()
        for change, has in (
            (data + bytes(4), "11 samples"),
            (data + b"\0", "10 samples and 1 odd bytes"),
        ):
            path.write_bytes(change)
            self.refused(
                f"pier.sgrc: has {has}, and its journal explains 10: something else wrote to it,"
                " or it was cut. Nothing is appended until it is the recording of the journal"
                " again",
                "append",
                "day2.csv",
            )

    def test_a_recording_that_was_cut_before_its_last_import(self) -> None:
        self.append("day2.csv")
        path = self.site / "pier.sgrc"
        path.write_bytes(path.read_bytes()[: HEAD_BYTES + 4 * 9])
        self.assertEqual(self.call("append", "day3.csv"), Status.REFUSED)
        self.assertIn("pier.sgrc: has 9 samples, and its journal explains 25", self.err)

    def test_recordings_that_were_swapped(self) -> None:
        span, pier = self.site / "span.sgrc", self.site / "pier.sgrc"
        span_data, pier_data = span.read_bytes(), pier.read_bytes()
        span.write_bytes(pier_data)
        pier.write_bytes(span_data)
        self.assertEqual(self.call("append", "day2.csv"), Status.REFUSED)
        self.assertIn("span.sgrc: has the id ", self.err)

    def test_no_recording(self) -> None:
        for file in self.site.glob("pier.sgrc*"):
            file.unlink()
        self.refused(
            "pier.sgrc: isn't there: `import` makes the recording of pier", "append", "day2.csv"
        )
        self.assertEqual(self.call("import", "day1.csv"), Status.DONE, self.err)
        self.has(10)

    def test_import_over_a_recording(self) -> None:
        self.refused(
            "span.sgrc: is there already, made from day1.csv, which is this export: `append` brings"
            " what is new behind a recording",
            "import",
            "day1.csv",
        )
        self.refused(
            "span.sgrc: is there already: `append` brings what is new behind a recording",
            "import",
            "day2.csv",
        )

    def test_a_recording_that_is_gone(self) -> None:
        self.append("day2.csv")
        (self.site / "span.sgrc").unlink()
        self.assertEqual(self.call("append", "day3.csv"), Status.REFUSED)
        self.assertIn("span.sgrc: isn't there, and its journal tells of 25 samples", self.err)

    def test_adopting(self) -> None:
        for file in self.site.glob("*.imports"):
            file.unlink()
        self.assertEqual(self.call("append", "day2.csv"), Status.REFUSED)
        self.assertIn("span.sgrc: has no journal", self.err)
        self.append("day2.csv", "--adopt")
        self.has(25)

    def test_a_damaged_journal(self) -> None:
        path = self.site / "span.sgrc.imports"
        good = path.read_text()
        for bad, why in (
            (
                good.replace('"end": 10', '"end": 11'),
                ":2: the journal is damaged: samples 0 on are",
            ),
            (
                good.replace('"rows": 10', '"rows": "x"'),
                ":2: the journal is damaged: rows is lacking",
            ),
            (good.replace("{", "", 1), ":1: the journal is damaged: "),
            (good.replace('"journal": 1', '"journal": 2'), ":1: is no journal of version 1"),
        ):
            path.write_text(bad)
            self.assertEqual(self.call("append", "day2.csv"), Status.REFUSED)
            self.assertIn(f"span.sgrc.imports{why}", self.err)

    def test_an_export_of_the_program(self) -> None:
        """A recording whose head is as the formats say."""
        data = (self.site / "span.sgrc").read_bytes()
        self.assertEqual(data[:8], b"SGRC\x01\0\0\0")
        self.assertEqual(data[24:32], (1_000_000).to_bytes(4, "little") + bytes(4))
        self.assertEqual(data[32:], b"".join(n.to_bytes(4, "little") for n in range(10)))
        self.assertEqual(Head(data[8:24], 1_000_000).to_bytes(), data[:32])
