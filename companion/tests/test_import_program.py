"""Imports beside the program: its `column` reads the same numbers, and it counts what was made."""

from __future__ import annotations

from pathlib import Path

from monitor_companion.refusals import Status

from tests import program
from tests.importing import SiteTest

LOGGER = Path(__file__).resolve().parents[2] / "examples" / "logger"
IDS = {"span2-flange": "00000000000000000000000000000001", "pier-flange": "2" * 32}


class Program(SiteTest):
    """The example of a logger's export."""

    def setUp(self) -> None:
        super().setUp()
        program.program()
        for name in ("export.csv", "monitor.toml"):
            (self.site / name).write_bytes((LOGGER / name).read_bytes())

    def test_the_example(self) -> None:
        ids = [word for gauge, digits in IDS.items() for word in ("--id", f"{gauge}={digits}")]
        self.assertEqual(self.call("import", "export.csv", *ids), Status.DONE, self.err)
        rows = (self.site / "export.csv").read_text().splitlines(keepends=True)[3:]
        (self.site / "column.csv").write_text("".join(rows))
        for gauge, digits in IDS.items():
            column = program.run(self.site, "column", "column.csv", gauge, digits, "50000")
            self.assertEqual(column.returncode, 0, column.stderr)
            self.assertEqual((self.site / f"{gauge}.sgrc").read_bytes(), column.stdout)
        self.assertEqual(program.run(self.site, "init").returncode, 0)
        self.assertEqual(program.run(self.site, "count").returncode, 0)

    def test_a_sheet_is_imported(self) -> None:
        self.assertEqual(self.call("import", "export.csv"), Status.DONE, self.err)
        sheet = program.run(self.site, "sheet")
        self.assertEqual(sheet.returncode, 0, sheet.stderr)
        before = {gauge: self.samples(gauge) for gauge in IDS}
        for file in self.site.glob("*.sgrc*"):
            file.unlink()
        self.write("sheet.csv", sheet.stdout)
        self.assertEqual(
            self.call("import", "sheet.csv", "--period", "50000"), Status.DONE, self.err
        )
        self.assertEqual({gauge: self.samples(gauge) for gauge in IDS}, before)
