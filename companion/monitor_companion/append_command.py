"""`append`: what is new in a logger's export is put behind the recordings of a site."""

from __future__ import annotations

from argparse import ArgumentParser, Namespace

from monitor_companion.import_options import add_common, request_of
from monitor_companion.refusals import Status
from monitor_companion.transfer import Command, transfer

SUMMARY = "put an export behind the recordings of a site"


def add_arguments(parser: ArgumentParser) -> None:
    """The words behind `append`."""
    parser.description = "Puts what is new in a logger's export behind the recordings of a site."
    add_common(parser)
    parser.add_argument(
        "--adopt",
        action="store_true",
        help="begin a journal for a recording that has none, with the samples that are there",
    )


def run(arguments: Namespace) -> Status:
    """Appends an export; refused where it is there already, or doesn't follow."""
    return transfer(request_of(arguments), Command.APPEND)
