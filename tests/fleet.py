#!/usr/bin/env python3
"""Runs the fleet of examples/fleet over sites that fail, grow and are killed on the way: fleet.py [PROGRAM [SITES]]

SITES (64) sites are made, counted by `make -j2` and gathered. What is checked:
- the reports are those of single runs, byte for byte, and each fourth that of an independent count; the damages of all are in the table and the page;
- a site that fails is named, the others are counted, and its last good report stays;
- a second run counts nothing, and after a site has grown that site alone;
- a `make` that is killed by signal 9, with all that it started, goes on where it was;
- the same by GNU parallel, and by the tasks of the Slurm array one by one, where these have something to do.
MONITOR_PROGRAM names another program. Last line: fleet: N passed, M failed
"""

from __future__ import annotations

import csv
import os
import pathlib
import random
import re
import shutil
import signal
import subprocess
import sys
import tempfile
import time
from fractions import Fraction

# No folder is made in the checkout.
sys.dont_write_bytecode = True

from model import Count, Detail, Grid, report
from trial import PROGRAM, TOP
from trial import Trial as Counted

sys.path.insert(0, str(TOP / "examples" / "fleet"))

import make_sites

SAMPLES = 3000
GROWN = 4000
GRID = Grid(128, 2, -64000, 64)
# of how many sites one is counted by itself too, and one by the independent count
EACH = 4


class Trial(Counted):
    """The fleet in a folder, and what held."""

    def __init__(self, program: pathlib.Path, room: pathlib.Path, number: int) -> None:
        super().__init__("fleet")
        self.program, self.number = program, number
        self.fleet, self.sites = room / "fleet", room / "sites"
        shutil.copytree(TOP / "examples" / "fleet", self.fleet, ignore=shutil.ignore_patterns("sites", "damages.*", "__pycache__"))
        self.run_site = TOP / "systemd" / "monitor-site"
        self.environment = {**os.environ, "MONITOR": str(program), "SITE_RUN": str(self.run_site), "PYTHONDONTWRITEBYTECODE": "1"}

    def make_sites(self, samples: int, sites: int) -> None:
        for site in range(1, sites + 1):
            make_sites.write_site(self.sites / f"bridge-{site:04}", site, samples)

    def words(self) -> list[str]:
        return ["make", "-C", str(self.fleet), "--no-print-directory", "-j2", f"SITES={self.sites}", f"SITE_RUN={self.run_site}"]

    def make(self) -> tuple[int, list[str], list[str]]:
        """The status of `make`, the sites that were counted, and what was told at the end."""
        done = subprocess.run(self.words(), env=self.environment, capture_output=True, text=True)
        lines = done.stdout.splitlines()
        counted = sorted(it.split()[1] for it in lines if it.startswith("counted "))
        return done.returncode, counted, [it for it in lines if not it.startswith("counted ")]

    def names(self) -> list[str]:
        return [f"bridge-{site:04}" for site in range(1, self.number + 1)]

    def due(self, number: int, samples: int) -> str:
        """The report of a site by the independent count."""
        gauges = make_sites.gauges_of(number)
        name = f"bridge-{number:04}"
        counts = [Count(GRID, (make_sites.MICROSTRAIN_KPA, 1, 0), make_sites.history(f"{name} {it}", samples)) for it in gauges]
        categories = [make_sites.CATEGORIES[(number + place) % len(make_sites.CATEGORIES)] for place in range(len(gauges))]
        details = [Detail(f"{it}-weld", place, "normal", categories[place], 115) for place, it in enumerate(gauges)]
        return report(gauges, counts, details)

    def reports(self) -> int:
        """How many sites have a report."""
        return sum((self.sites / name / "report.txt").exists() for name in self.names())

    def text(self, name: str) -> str:
        return (self.sites / name / "report.txt").read_text()


def single(trial: Trial, name: str, room: pathlib.Path) -> str:
    """The report of a site that is counted by itself, in a folder of its own."""
    alone = room / f"alone-{name}"
    alone.mkdir()
    for file in ("monitor.toml", *(it.name for it in (trial.sites / name).glob("*.sgrc"))):
        shutil.copy(trial.sites / name / file, alone)
    subprocess.run([trial.program, "init"], cwd=alone, check=True, stderr=subprocess.DEVNULL)
    return subprocess.run([trial.program, "count"], cwd=alone, capture_output=True, text=True).stdout


def try_reports(trial: Trial, room: pathlib.Path) -> None:
    """The first run, and the second that has nothing to do."""
    trial.make_sites(SAMPLES, trial.number)
    status, counted, told = trial.make()
    trial.check("the first run", (status, counted), (0, trial.names()))
    for number in range(1, trial.number + 1, EACH):
        name = f"bridge-{number:04}"
        trial.check(f"{name} by itself", trial.text(name), single(trial, name, room))
        trial.check(f"{name} by the independent count", trial.text(name), trial.due(number, SAMPLES))
    try_gathered(trial, told)
    status, counted, again = trial.make()
    trial.check("a second run", (status, counted, again), (0, [], told))


def try_gathered(trial: Trial, told: list[str]) -> None:
    """The table and the page have each detail of each report, the greatest damage first."""
    due = []
    for name in trial.names():
        for detail, gauge, whole, numerator, denominator, decimals in re.findall(r"^detail (\S+) (\S+) (\d+) (\d+)/(\d+) (\S+)$", trial.text(name), re.M):
            due.append((-(int(whole) + Fraction(int(numerator), int(denominator))), name, detail, gauge, decimals))
    due.sort()
    with open(trial.fleet / "damages.csv", newline="", encoding="utf-8") as file:
        rows = list(csv.DictReader(file))
    got = [(-Fraction(it["damage_exact"]), it["site"], it["detail"], it["gauge"], it["damage"]) for it in rows]
    trial.check("the table", got, due)
    trial.check("what is told", told[:2], [
        f"{trial.number} sites, {len(due)} details: damages.csv, damages.html",
        f"the greatest damage: {due[0][1]} {due[0][2]} {due[0][4]}",
    ])
    page = (trial.fleet / "damages.html").read_text(encoding="utf-8")
    found = re.findall(r'<tr><td>(\S+)<td>(\S+)<td>(\S+)<td class="number">([\d.]+)', page)
    trial.check("the page", [(it[0], it[1], Fraction(it[3])) for it in found], [(it[1], it[2], 100 * Fraction(it[4])) for it in due])


def try_failing(trial: Trial) -> None:
    """A site that fails is named, and the others are counted."""
    broken, kept = trial.sites / "bridge-0002", trial.text("bridge-0002")
    trial.make_sites(GROWN, 3)
    whole = (broken / "span.sgrc").read_bytes()
    (broken / "span.sgrc").write_bytes(b"other" + whole[5:])
    status, counted, told = trial.make()
    trial.check("a site that fails", (status != 0, counted), (True, ["bridge-0001", "bridge-0003"]))
    trial.check("that it is named", [re.sub("monitor: [^;]*; ", "", it) for it in told[2:]], ["failed: bridge-0002: status 4; recording span: no SGRC"])
    trial.check("its last good report", trial.text("bridge-0002"), kept)
    trial.check("that the table says so", "last good report" in (trial.fleet / "damages.csv").read_text(), True)
    (broken / "span.sgrc").write_bytes(whole)
    status, counted, told = trial.make()
    trial.check("the site that was mended", (status, counted, len(told)), (0, ["bridge-0002"], 2))
    trial.check("its report", trial.text("bridge-0002"), trial.due(2, GROWN))


def wait_for_end(group: int) -> None:
    """Waits until all that was killed is gone: a program that isn't yet still holds its store."""
    until = time.monotonic() + 10
    while time.monotonic() < until:
        try:
            os.killpg(group, 0)
        except ProcessLookupError:
            return
        time.sleep(0.002)


def remove_unmade(trial: Trial) -> None:
    """Removes what an `init` left that was killed before its store was whole. It holds no sample, and is refused with status 3."""
    for name in trial.names():
        site = trial.sites / name
        if (site / "monitor.store").exists() and not (site / "report.txt").exists():
            done = subprocess.run([trial.program, "report"], cwd=site, capture_output=True)
            if done.returncode == 3:
                (site / "monitor.store").unlink()


def try_killed(trial: Trial, rng: random.Random) -> None:
    """A `make` that is killed goes on where it was."""
    for name in trial.names():
        for file in ("monitor.store", "report.txt"):
            (trial.sites / name / file).unlink()
    child = subprocess.Popen(trial.words(), env=trial.environment, stdout=subprocess.DEVNULL, stderr=subprocess.DEVNULL, start_new_session=True)
    until = time.monotonic() + 120
    while trial.reports() < trial.number // 4 and time.monotonic() < until:
        time.sleep(0.002)
    time.sleep(rng.random() * 0.01)
    os.killpg(child.pid, signal.SIGKILL)
    child.wait()
    wait_for_end(child.pid)
    remove_unmade(trial)
    done = trial.reports()
    trial.check("that it was killed on the way", 0 < done < trial.number, True)
    status, counted, _ = trial.make()
    trial.check("what it goes on with", (status, len(counted)), (0, trial.number - done))
    for number in range(2, trial.number + 1, EACH):
        trial.check(f"report {number} behind it", trial.text(f"bridge-{number:04}"), trial.due(number, GROWN if number <= 3 else SAMPLES))


def try_engines(trial: Trial) -> None:
    """GNU parallel, and the tasks of a Slurm array."""
    for name in trial.names()[:2]:
        (trial.sites / name / "report.txt").unlink()
    if shutil.which("parallel"):
        done = subprocess.run(["sh", trial.fleet / "fleet.parallel", trial.sites, "2"], env=trial.environment, capture_output=True, text=True)
        trial.check("GNU parallel", (done.returncode, done.stdout.splitlines()[0].split()[0]), (0, str(trial.number)))
        trial.check("its report", trial.text("bridge-0001"), trial.due(1, GROWN))
    else:
        print("fleet: skipped: there is no GNU parallel")
    (trial.sites / "bridge-0002" / "report.txt").unlink(missing_ok=True)
    (trial.fleet / "sites.txt").write_text("".join(f"{trial.sites / name}/\n" for name in trial.names()))
    for task, due in ((2, 0), (trial.number + 1, 64)):
        done = subprocess.run(["sh", "fleet.slurm"], cwd=trial.fleet, env={**trial.environment, "SLURM_ARRAY_TASK_ID": str(task)}, capture_output=True)
        trial.check(f"task {task} of an array", done.returncode, due)
    trial.check("its report", trial.text("bridge-0002"), trial.due(2, GROWN))


def main() -> int:
    program = pathlib.Path(sys.argv[1] if len(sys.argv) > 1 else PROGRAM).resolve()
    if not program.is_file() or not shutil.which("make"):
        print("fleet: skipped, since " + ("there is no make" if program.is_file() else "the program isn't built (./monitor builds it)"))
        return 0
    with tempfile.TemporaryDirectory() as name:
        room = pathlib.Path(name).resolve()
        trial = Trial(program, room, int(sys.argv[2]) if len(sys.argv) > 2 else 64)
        try_reports(trial, room)
        try_failing(trial)
        try_killed(trial, random.Random(1))
        try_engines(trial)
    return trial.end()


if __name__ == "__main__":
    sys.exit(main())
