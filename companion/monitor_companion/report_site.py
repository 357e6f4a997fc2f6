"""The site that a report is of: its configuration, and the period of its samples."""

from __future__ import annotations

from dataclasses import dataclass
from pathlib import Path

from monitor_companion.check_findings import Findings
from monitor_companion.check_heads import read_heads
from monitor_companion.check_store import check_store, load_store
from monitor_companion.site import Detail, Gauge, Grid, check_site


@dataclass(frozen=True)
class ReportSite:
    """A sound configuration, and the period in microseconds of each gauge where it is known.

    With a store, the grid is known to be that of the store.
    """

    file: str
    grid: Grid
    gauges: tuple[Gauge, ...]
    details: tuple[Detail, ...]
    periods: tuple[int | None, ...]
    has_store: bool

    def details_of(self, gauge: str) -> list[Detail]:
        """The details on a gauge, in the order of the configuration."""
        return [detail for detail in self.details if detail.gauge == gauge]


def read_site(folder: Path) -> ReportSite:
    """Reads the configuration of a site's folder, and the periods of its store or its recordings.

    Raises a `Refusal` where the configuration is faulty, or where the folder's store was made for
    another one.
    """
    findings = Findings()
    site = check_site(folder, findings)
    findings.refuse()
    assert site is not None and site.grid is not None
    recordings = read_heads(site)
    store = load_store(folder, findings, with_bodies=False)
    if store is not None:
        check_store(store, site, recordings, findings)
    findings.refuse()
    periods: tuple[int | None, ...]
    if store is not None and store.head is not None:
        periods = tuple(gauge.period for gauge in store.head.gauges)
    else:
        periods = tuple(None if each.fault else each.period for each in recordings)
    file = str(site.path)
    return ReportSite(file, site.grid, site.gauges, site.details, periods, store is not None)
