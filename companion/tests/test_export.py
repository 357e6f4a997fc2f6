"""A report as JSON and as CSV files: what is written equals the independent count."""

from __future__ import annotations

import contextlib
import csv
import io
import json
import pathlib
import random
import sys
import unittest
from decimal import Decimal
from fractions import Fraction
from typing import Any

from tests.report_cases import Case, bridge_case, model, random_case, run_command, standard_case

# The schema of version 1, in docs/COMPANION.md.
TOP = ["format", "version", "report", "grid", "gauges", "details"]
GAUGE = ["gauge", "samples", "used", "missing", "refused", "complete", "period_us", "recorded_s"]
SECTIONS = ["rainflow", "matrix", "crossings", "peaks", "valleys", "ranges"]
FILES = ["grid", "gauges", *SECTIONS, "details", "damage"]


def _export(folder: pathlib.Path, *words: object) -> tuple[int, str]:
    """The status and what is told."""
    told = io.StringIO()
    with contextlib.redirect_stderr(told):
        status = run_command("export", folder / "report.txt", "--site", folder, *words)
    return status, told.getvalue()


class Exports(unittest.TestCase):
    """Numbers are read back as decimals, and compared exactly."""

    def test_random_sites(self) -> None:
        chance = random.Random(5)
        for _ in range(25):
            case = random_case(chance)
            folder = case.folder(self)
            files = ("-o", folder / "report.json", "--csv", folder / "tables")
            status, _ = _export(folder, *files)
            refused = any(len(c.levels) + c.missing < c.samples for c in case.counts)
            self.assertEqual(status, 1 if refused else 0)
            text = (folder / "report.json").read_text()
            document = json.loads(text, parse_float=Decimal)
            self._compare_document(document, case)
            self._compare_tables(folder / "tables", document)

    def _compare_document(self, document: dict[str, Any], case: Case) -> None:
        self.assertEqual(list(document), TOP)
        self.assertEqual((document["format"], document["version"]), ("monitor-report", 1))
        low, width = Fraction(case.grid.low, 1000), Fraction(case.grid.width, 2)
        grid = document["grid"]
        self.assertEqual(Fraction(grid["lowest_n_mm2"]), low)
        self.assertEqual(Fraction(grid["highest_n_mm2"]), low + width * case.grid.classes)
        self.assertEqual(Fraction(grid["reference_n_mm2"]), low + width * case.grid.reference)
        for gauge, name, count in zip(document["gauges"], case.names, case.counts, strict=True):
            self.assertEqual(list(gauge), GAUGE + SECTIONS)
            self.assertEqual((gauge["gauge"], gauge["samples"]), (name, count.samples))
            self.assertEqual(gauge["complete"], gauge["refused"] == 0)
            self._compare_gauge(gauge, count, low, width)
        details = zip(document["details"], case.details, strict=True)
        for found, detail in details:
            self._compare_detail(found, detail, case)

    def _compare_gauge(
        self, gauge: dict[str, Any], count: Any, low: Fraction, width: Fraction
    ) -> None:
        rainflow = {Fraction(r["range_n_mm2"]): r["cycles"] for r in gauge["rainflow"]}
        ranges = model.by_range(count.pairs)
        self.assertEqual(rainflow, {k * width: Fraction(n, 2) for k, n in ranges.items()})
        matrix = {
            tuple(
                Fraction(row[f"{end}_n_mm2"])
                for end in ("lower_from", "lower_to", "upper_from", "upper_to")
            ): row["cycles"]
            for row in gauge["matrix"]
        }
        wanted = {
            tuple(low + width * level for level in (lo, lo + 1, hi, hi + 1)): Fraction(n, 2)
            for (lo, hi), n in count.pairs.items()
        }
        self.assertEqual(matrix, wanted)
        crossings = {Fraction(r["stress_n_mm2"]): r["count"] for r in gauge["crossings"]}
        at = {low + width * level: times for level, times in count.crossings().items()}
        self.assertEqual(crossings, at)
        for row in gauge["crossings"]:
            is_up = row["boundary"] >= count.grid.reference
            self.assertEqual(row["direction"], "up" if is_up else "down")
        for section, is_peak in (("peaks", True), ("valleys", False)):
            found = {Fraction(r["from_n_mm2"]): r["count"] for r in gauge[section]}
            extremes = count.extremes(is_peak)
            self.assertEqual(found, {low + width * k: times for k, times in extremes.items()})

    def _compare_detail(self, found: dict[str, Any], detail: Any, case: Case) -> None:
        count = case.counts[detail.gauge]
        line = detail.line(case.names[detail.gauge], count).split()
        self.assertEqual(str(found["damage"]), str(Decimal(line[5])))
        self.assertEqual(found["percent_of_life"], 100 * Decimal(line[5]))
        self.assertEqual([found[key] for key in ("detail", "gauge", "kind")],
                         [detail.name, case.names[detail.gauge], detail.kind])
        self.assertEqual(found["category_n_mm2"], detail.category)
        self.assertEqual(found["factor"], Decimal(detail.gamma) / 100)
        # docs/RULES.md: 0.737 C and 0.549 of that, or 0.457 C.
        category, knee = Decimal(detail.category), found["knee_n_mm2"]
        if detail.kind == "normal":
            self.assertEqual(knee, Decimal("0.737") * category)
            self.assertEqual(found["cut_off_n_mm2"], Decimal("0.549") * knee)
        else:
            self.assertEqual((knee, found["cut_off_n_mm2"]), (None, Decimal("0.457") * category))
        exactly = int(line[3]) + Fraction(line[4])
        self.assertEqual(Fraction(found["damage_exact"]), exactly)
        by_range = {
            Fraction(row["range_n_mm2"]): Fraction(row["damage_exact"]) for row in found["by_range"]
        }
        width = Fraction(case.grid.width, 2)
        shares = {
            k * width: halves * detail.share(k * width)
            for k, halves in model.by_range(count.pairs).items()
        }
        self.assertEqual(by_range, shares)
        for row in found["by_range"]:
            share = detail.share(Fraction(row["range_n_mm2"]))
            self.assertEqual(row["endurance"] is None, share == 0)
            if share:
                factored = Fraction(row["range_n_mm2"]) * detail.gamma / 100
                is_above = knee is not None and factored >= Fraction(knee)
                self.assertEqual(row["slope"], 3 if is_above else 5)
                self.assertAlmostEqual(float(Fraction(row["endurance"]) * 2 * share), 1, places=9)
            part = Fraction(row["share"]) * exactly - Fraction(row["damage_exact"])
            self.assertLessEqual(abs(part), exactly / 10**11)
            difference = abs(Fraction(row["damage"]) - Fraction(row["damage_exact"]))
            self.assertLessEqual(difference, Fraction(row["damage_exact"]) / 10**11)

    def _compare_tables(self, folder: pathlib.Path, document: dict[str, Any]) -> None:
        """Each CSV file has the rows of the JSON file, behind the name of gauge or detail."""
        found = {
            path.stem: list(csv.DictReader(io.StringIO(path.read_text())))
            for path in folder.iterdir()
        }
        self.assertEqual(sorted(found), sorted(FILES))
        rows = {"grid": [document["grid"]], "details": document["details"]}
        rows["gauges"] = [{key: each[key] for key in GAUGE} for each in document["gauges"]]
        for section in SECTIONS:
            rows[section] = [
                {"gauge": gauge["gauge"], **row}
                for gauge in document["gauges"]
                for row in gauge[section]
            ]
        rows["damage"] = [
            {"detail": each["detail"], **row}
            for each in document["details"]
            for row in each.pop("by_range")
        ]
        for name, wanted in rows.items():
            texts = [{key: _cell(value) for key, value in row.items()} for row in wanted]
            self.assertEqual(found[name], texts, name)

    def test_standard_output_and_input(self) -> None:
        case = standard_case()
        folder = case.folder(self)
        written = io.TextIOWrapper(io.BytesIO())
        given = io.TextIOWrapper(io.BytesIO(case.report.encode()))
        streams = sys.stdin, sys.stdout
        try:
            sys.stdin, sys.stdout = given, written
            status = run_command("export", "-", "--site", folder)
        finally:
            sys.stdin, sys.stdout = streams
        self.assertEqual(status, 0)
        document = json.loads(written.buffer.getvalue())  # type: ignore[attr-defined]
        self.assertEqual(document["report"]["file"], "standard input")
        self.assertEqual(document["gauges"][0]["rainflow"][0], {"range_n_mm2": 9.0, "cycles": 0.5})

    def test_nothing_is_written_of_a_changed_report(self) -> None:
        case = bridge_case(600)
        folder = case.folder(self)
        text = case.report
        changed = text.replace("refused 0", "refused 1", 1)
        self.assertNotEqual(text, changed)
        (folder / "report.txt").write_text(changed)
        status, told = _export(folder, "-o", folder / "x.json", "--csv", folder / "tables")
        self.assertEqual(status, 2)
        self.assertIn("report.txt:2: 600 samples are not", told)
        self.assertEqual(sorted(p.name for p in folder.iterdir()), ["monitor.toml", "report.txt"])

    def test_no_file(self) -> None:
        folder = standard_case().folder(self)
        (folder / "report.txt").unlink()
        status, told = _export(folder)
        self.assertEqual(status, 2)
        self.assertIn("report.txt: can't be read: No such file or directory", told)

    def test_a_folder_that_cannot_be_made(self) -> None:
        folder = standard_case().folder(self)
        status, told = _export(folder, "--csv", folder / "report.txt" / "tables")
        self.assertEqual(status, 2)
        self.assertIn("tables: can't be made", told)

    def test_recorded_time(self) -> None:
        case = standard_case()
        folder = case.folder(self)
        (folder / "north.sgrc").write_bytes(model.recording([0] * 9, period=12_500))
        _export(folder, "-o", folder / "x.json")
        gauge = json.loads((folder / "x.json").read_text(), parse_float=Decimal)["gauges"][0]
        self.assertEqual(gauge["period_us"], 12_500)
        # Nine samples, each 12.5 ms.
        self.assertEqual(gauge["recorded_s"], Decimal("0.1125"))


def _cell(value: object) -> str:
    if value is None:
        return ""
    return str(value).lower() if isinstance(value, bool) else str(value)


if __name__ == "__main__":
    unittest.main()
