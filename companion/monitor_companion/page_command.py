"""`page`: reports as one self-contained HTML page."""

from __future__ import annotations

import argparse

from monitor_companion.page_html import page_text
from monitor_companion.refusals import Place, Refusal, Status
from monitor_companion.report_output import STANDARD_OUTPUT, told_warnings, write_text
from monitor_companion.report_reading import STANDARD_INPUT, read_series
from monitor_companion.report_site import read_site
from monitor_companion.site import add_site_option

SUMMARY = "draw reports as one HTML page"


def add_arguments(parser: argparse.ArgumentParser) -> None:
    """Adds the words of the command."""
    parser.description = (
        "Draws a report of `monitor report` as an HTML page. Nothing is drawn where a report "
        "doesn't agree with itself or with the site's configuration."
    )
    parser.add_argument(
        "reports",
        nargs="+",
        metavar="REPORT",
        help="a report, or - for standard input; several, the oldest first, for damage over time",
    )
    add_site_option(parser)
    parser.add_argument(
        "-o",
        dest="output",
        metavar="FILE.html",
        default=STANDARD_OUTPUT,
        help="the page (standard output where it is left out)",
    )
    parser.add_argument(
        "--title", help="the heading of the page (it names the site's folder where it is left out)"
    )
    parser.add_argument(
        "--windows",
        action="store_true",
        help="each report is of a time of its own, one behind the other; their damage adds up",
    )


def run(arguments: argparse.Namespace) -> Status:
    """Draws the page; the status is `WARNED` where refused readings make a table incomplete."""
    if arguments.reports.count(STANDARD_INPUT) > 1:
        raise Refusal(Place("standard input"), "can be read only once")
    series = read_series(arguments.reports, read_site(arguments.site), arguments.windows)
    title = arguments.title
    if title is None:
        title = f"Fatigue report: {arguments.site.resolve().name}"
    write_text(page_text(series, title), arguments.output)
    return told_warnings(series.whole)
