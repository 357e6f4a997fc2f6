"""A report as JSON, by the schema that docs/COMPANION.md describes.

Numbers are written digit by digit from decimals, so a reader that keeps decimals loses nothing.
"""

from __future__ import annotations

import json
from collections.abc import Mapping
from decimal import Decimal

from monitor_companion.export_tables import (
    damage_rows,
    detail_row,
    gauge_row,
    grid_row,
    section_rows,
)
from monitor_companion.report_reading import Reading
from monitor_companion.report_site import ReportSite

FORMAT = "monitor-report"
VERSION = 1


def json_text(reading: Reading, site: ReportSite) -> str:
    """The JSON text of a report."""
    report = reading.report
    gauges: list[Mapping[str, object]] = [
        dict(gauge_row(gauge, period)) | dict(section_rows(gauge, site.grid))
        for gauge, period in zip(report.gauges, site.periods, strict=True)
    ]
    details: list[Mapping[str, object]] = [
        dict(detail_row(damage)) | {"by_range": damage_rows(damage)} for damage in reading.damages
    ]
    document = {
        "format": FORMAT,
        "version": VERSION,
        "report": {"file": report.file, "sha256": reading.digest},
        "grid": grid_row(site.grid),
        "gauges": gauges,
        "details": details,
    }
    return _encoded(document, 0) + "\n"


def _encoded(value: object, depth: int) -> str:
    """A value as JSON; the rows of a table take a line each."""
    if isinstance(value, Decimal):
        return str(value)
    if isinstance(value, Mapping):
        items = [f"{json.dumps(key)}: {_encoded(each, depth + 1)}" for key, each in value.items()]
        if any(isinstance(each, Mapping | list) for each in value.values()):
            return _block("{", items, "}", depth)
        return "{" + ", ".join(items) + "}"
    if isinstance(value, list):
        return _block("[", [_encoded(each, depth + 1) for each in value], "]", depth)
    return json.dumps(value)


def _block(start: str, items: list[str], end: str, depth: int) -> str:
    if not items:
        return start + end
    indent = "\n" + " " * (depth + 1)
    return start + indent + ("," + indent).join(items) + "\n" + " " * depth + end
