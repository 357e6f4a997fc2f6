"""`export`: a report as JSON, and its sections as CSV files."""

from __future__ import annotations

import argparse
import csv
import io
from pathlib import Path

from monitor_companion.export_json import json_text
from monitor_companion.export_tables import Table, Value, tables
from monitor_companion.refusals import Place, Refusal, Status
from monitor_companion.report_output import STANDARD_OUTPUT, told_warnings, write_text
from monitor_companion.report_reading import read_reading
from monitor_companion.report_site import read_site
from monitor_companion.site import add_site_option

SUMMARY = "write a report as JSON, and its sections as CSV files"


def add_arguments(parser: argparse.ArgumentParser) -> None:
    """Adds the words of the command."""
    parser.description = (
        "Writes a report of `monitor report` as JSON, and its sections as CSV files, in N/mm². "
        "Nothing is written where it doesn't agree with itself or with the site's configuration."
    )
    parser.add_argument("report", metavar="REPORT", help="a report, or - for standard input")
    add_site_option(parser)
    parser.add_argument(
        "-o",
        dest="output",
        metavar="FILE.json",
        help="the JSON file, or - for standard output (which it is without -o and --csv)",
    )
    parser.add_argument("--csv", type=Path, metavar="FOLDER", help="a folder for the CSV files")


def run(arguments: argparse.Namespace) -> Status:
    """Writes the files; the status is `WARNED` where refused readings make a table incomplete."""
    site = read_site(arguments.site)
    reading = read_reading(arguments.report, site)
    output = arguments.output
    if output is None and arguments.csv is None:
        output = STANDARD_OUTPUT
    if output is not None:
        write_text(json_text(reading, site), output)
    if arguments.csv is not None:
        _write_tables(tables(reading, site), arguments.csv)
    return told_warnings(reading)


def _write_tables(found: list[Table], folder: Path) -> None:
    texts = {table.name: csv_text(table) for table in found}
    try:
        folder.mkdir(parents=True, exist_ok=True)
    except OSError as error:
        raise Refusal(Place(str(folder)), f"can't be made: {error.strerror}") from error
    for name, text in texts.items():
        write_text(text, str(folder / f"{name}.csv"))


def csv_text(table: Table) -> str:
    """A table as CSV: commas, names in the first record, a line feed behind each record."""
    text = io.StringIO()
    writer = csv.writer(text, lineterminator="\n")
    writer.writerow(table.columns)
    for row in table.rows:
        writer.writerow([_cell(row[column]) for column in table.columns])
    return text.getvalue()


def _cell(value: Value) -> str:
    if value is None:
        return ""
    return str(value).lower() if isinstance(value, bool) else str(value)
