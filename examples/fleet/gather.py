#!/usr/bin/env python3
"""Gathers the damages of all sites in one table and one page: gather.py [FOLDER]

Reads the report, `report.txt`, of each site below FOLDER (`sites`), and writes damages.csv and damages.html to the current folder, the
greatest damage first. A site without a report, or whose last run failed (its file `fault` says how), is named at the end; the
status is then 1. A report that can't be read as docs/FORMATS.md has it is such a site too.
"""

from __future__ import annotations

import csv
import dataclasses
import html
import os
import pathlib
import re
import sys
from fractions import Fraction

DETAIL = re.compile(r"detail (\S+) (\S+) (\d+) (\d+)/(\d+) (\d+\.\d{9})")
SAMPLES = re.compile(r"samples (\d+) used (\d+) missing (\d+) refused (\d+)")
COLUMNS = ["site", "detail", "gauge", "damage", "damage_exact", "samples", "missing", "refused", "state"]

PAGE = """<!DOCTYPE html>
<html lang="en"><head><meta charset="utf-8"><meta name="viewport" content="width=device-width">
<title>Damages of {sites} sites</title>
<style>
body {{ font: 16px/1.4 sans-serif; margin: 1.5em auto; max-width: 60em; padding: 0 1em; color: #222; }}
table {{ border-collapse: collapse; width: 100%; }}
th, td {{ text-align: left; padding: .25em .6em; border-bottom: 1px solid #ccc; }}
td.number {{ text-align: right; font-variant-numeric: tabular-nums; }}
.fault {{ background: #fbe3e0; padding: .6em 1em; }}
.wide {{ overflow-x: auto; }}
</style></head><body>
<h1>Damages of {sites} sites</h1>
<p>{counted} weld details. A damage of 100 % is the whole life by EN 1993-1-9. The greatest stands first.</p>
{faults}<div class="wide"><table><thead><tr><th>site<th>detail<th>gauge<th>damage, %<th>samples<th>missing<th>refused</tr></thead>
<tbody>
{rows}</tbody></table></div>
</body></html>
"""


class NoReport(Exception):
    """A text that is no report of the program."""


@dataclasses.dataclass(frozen=True)
class Weld:
    """A line `detail` of a site's report, with its gauge's numbers of samples."""

    site: str
    detail: str
    gauge: str
    damage: str
    exact: Fraction
    samples: int
    missing: int
    refused: int

    def cells(self, state: str) -> list[str]:
        numbers = [str(it) for it in (self.samples, self.missing, self.refused)]
        return [self.site, self.detail, self.gauge, self.damage, str(self.exact), *numbers, state]


def rounded_up(exact: Fraction) -> str:
    """The damage rounded up at the ninth decimal, as a report prints it."""
    billionths = -(-exact.numerator * 10**9 // exact.denominator)
    return f"{billionths // 10**9}.{billionths % 10**9:09}"


def welds_of(site: str, text: str) -> list[Weld]:
    """The welds of a report; raises NoReport where a line is none of it or its two spellings of a damage differ."""
    if not text.startswith("gauge ") or not text.endswith("\n"):
        raise NoReport("no report, or a part of one")
    samples: dict[str, tuple[int, int, int]] = {}
    welds = []
    gauge = ""
    for number, line in enumerate(text.splitlines(), start=1):
        if line.startswith("gauge "):
            gauge = line[6:]
        elif found := SAMPLES.fullmatch(line):
            samples[gauge] = (int(found[1]), int(found[3]), int(found[4]))
        elif line.startswith("detail "):
            found = DETAIL.fullmatch(line)
            if not found or found[2] not in samples or int(found[5]) == 0:
                raise NoReport(f"line {number} is no detail of this report")
            exact = int(found[3]) + Fraction(int(found[4]), int(found[5]))
            if rounded_up(exact) != found[6]:
                raise NoReport(f"line {number}: the decimals aren't the fraction's")
            welds.append(Weld(site, found[1], found[2], found[6], exact, *samples[found[2]]))
    return welds


def fault_of(folder: pathlib.Path) -> str | None:
    """What the site's last run told, in one line, or None where it ended well."""
    fault = folder / "fault"
    return "; ".join(fault.read_text(errors="replace").split("\n")).strip("; ") if fault.exists() else None


def gather(sites: list[pathlib.Path]) -> tuple[list[tuple[Weld, str]], dict[str, str]]:
    """All welds, each with the state of its site, the greatest damage first; and of each site that failed the reason."""
    found: list[tuple[Weld, str]] = []
    faults: dict[str, str] = {}
    for folder in sites:
        report, fault = folder / "report.txt", fault_of(folder)
        if fault is not None:
            faults[folder.name] = fault
        if not report.exists():
            faults.setdefault(folder.name, "no report")
            continue
        try:
            welds = welds_of(folder.name, report.read_text(encoding="ascii"))
        except (NoReport, UnicodeDecodeError) as why:
            faults[folder.name] = f"report.txt: {why}"
            continue
        found += [(it, "counted" if fault is None else "last good report") for it in welds]
    found.sort(key=lambda it: (-it[0].exact, it[0].site, it[0].detail))
    return found, faults


def write_whole(name: str, text: str) -> None:
    """Writes a file and puts it in place when it is whole."""
    new = pathlib.Path(name + ".new")
    new.write_text(text, encoding="utf-8")
    os.replace(new, name)


def page(sites: int, found: list[tuple[Weld, str]], faults: dict[str, str]) -> str:
    """The page's text."""
    rows = ""
    for weld, state in found:
        note = "" if state == "counted" else f" ({state})"
        percent = f"{weld.damage[:-10]}{weld.damage[-9:-7]}.{weld.damage[-7:]}".lstrip("0")
        percent = "0" + percent if percent.startswith(".") else percent
        words = "".join(f"<td>{html.escape(it)}" for it in (weld.site + note, weld.detail, weld.gauge))
        numbers = "".join(f'<td class="number">{it}' for it in (percent, weld.samples, weld.missing, weld.refused))
        rows += f"<tr>{words}{numbers}</tr>\n"
    lines = "".join(f"<li>{html.escape(site)}: {html.escape(why)}</li>" for site, why in sorted(faults.items()))
    told = f'<div class="fault"><p>{len(faults)} sites failed:</p><ul>{lines}</ul></div>\n' if faults else ""
    return PAGE.format(sites=sites, counted=len(found), faults=told, rows=rows)


def main() -> int:
    folder = pathlib.Path(sys.argv[1] if len(sys.argv) > 1 else "sites")
    sites = sorted(it.parent for it in folder.glob("*/monitor.toml"))
    found, faults = gather(sites)
    with open("damages.csv.new", "w", newline="", encoding="utf-8") as out:
        csv.writer(out, lineterminator="\n").writerows([COLUMNS, *(weld.cells(state) for weld, state in found)])
    os.replace("damages.csv.new", "damages.csv")
    write_whole("damages.html", page(len(sites), found, faults))
    print(f"{len(sites)} sites, {len(found)} details: damages.csv, damages.html")
    if found:
        worst = found[0][0]
        print(f"the greatest damage: {worst.site} {worst.detail} {worst.damage}")
    for site, why in sorted(faults.items()):
        print(f"failed: {site}: {why}")
    return 1 if faults or not sites else 0


if __name__ == "__main__":
    sys.exit(main())
