"""`import`: a logger's export becomes the recordings of a site, all columns in one pass."""

from __future__ import annotations

from argparse import ArgumentParser, Namespace

from monitor_companion.import_options import add_common, id_choice, request_of
from monitor_companion.refusals import Status
from monitor_companion.transfer import Command, transfer

SUMMARY = "make the recordings of a site from a logger's export"


def add_arguments(parser: ArgumentParser) -> None:
    """The words behind `import`."""
    parser.description = "Makes the recordings of a site from a logger's export."
    add_common(parser)
    parser.add_argument(
        "--id",
        action="append",
        default=[],
        type=id_choice,
        metavar="GAUGE=ID",
        help="the id of a recording, 32 digits from 0 to 9 and a to f (one by chance)",
    )


def run(arguments: Namespace) -> Status:
    """Imports an export; refused where a recording is there already."""
    return transfer(request_of(arguments), Command.IMPORT)
