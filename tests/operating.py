#!/usr/bin/env python3
"""Runs each command of docs/OPERATING.md, and compares what it prints with what the document shows.

operating.py [PROGRAM] [--show] [--only WORDS]

A block marked `console` is a session: behind `$ ` stands a command, below it what it prints, to both streams; a line `...` stands for any
lines. Each section (`##`, `###`) has a room of its own, in which `/var/lib/monitor`, `/run/monitor`, `/etc/monitor`, `/srv` and `/usr/lib/monitor` are
folders. A comment `<!-- room: WORDS -->` says what is there when a section begins. Stand-ins take the place of `sudo`, `apt` and `systemctl`;
that of `systemctl` runs the command lines of the units. Lines `monitor: NAME: REASON` are left out where the program tells none.
--show prints what was printed, and compares nothing; --only takes the sections whose title has these words. MONITOR_PROGRAM names another
program, MONITOR_COMPANION another start script of the companion.
Last line: operating: N passed, M failed
"""

from __future__ import annotations

import argparse
import dataclasses
import os
import pathlib
import re
import shutil
import subprocess
import sys
import tempfile
from collections.abc import Iterator

# No folder is made in the checkout.
sys.dont_write_bytecode = True

import units
from rooms import ROOMS
from trial import PROGRAM, TOP

DOCUMENT = TOP / "docs" / "OPERATING.md"
PLACES = ["/var/lib/monitor", "/run/monitor", "/etc/monitor", "/usr/lib/monitor", "/srv"]
MARK = "\x1e"
SECONDS = 600

SUDO = """#!/bin/sh
# without another user: what follows is run as it is, and no owner is set
[ "$1" != -u ] || shift 2
case "$1 $2 $3" in 'install -d -o') shift 6; mkdir -p "$@"; exit ;; esac
exec "$@"
"""
APT = """#!/bin/sh
# (tests/package.py installs the package)
[ "$1" = install ]
"""


@dataclasses.dataclass
class Step:
    """A command of the document, and the lines below it."""

    line: int
    command: str
    due: list[str]


@dataclasses.dataclass
class Section:
    """A section with commands, and what its room has at the beginning."""

    title: str
    rooms: list[str]
    steps: list[Step]


def sections(text: str) -> list[Section]:
    """The sections of the document that have commands."""
    found: list[Section] = []
    inside = False
    for number, line in enumerate(text.splitlines(), start=1):
        if inside and line == "```":
            inside = False
        elif inside and line.startswith("$ "):
            found[-1].steps.append(Step(number, line[2:], []))
        elif inside and line.startswith("> ") and found[-1].steps and not found[-1].steps[-1].due:
            found[-1].steps[-1].command += "\n" + line[2:]
        elif inside:
            found[-1].steps[-1].due.append(line)
        elif line == "```console":
            inside = True
        elif line.startswith(("## ", "### ")):
            found.append(Section(line.lstrip("# "), [], []))
        elif room := re.fullmatch(r"<!-- room: (.*) -->", line):
            found[-1].rooms += room[1].split()
    return [it for it in found if it.steps]


def fits(due: list[str], got: list[str]) -> bool:
    """Whether the lines are those of the document, where `...` stands for any number of lines."""
    if not due:
        return not got
    if due[0] == "...":
        return any(fits(due[1:], got[n:]) for n in range(len(got) + 1))
    return bool(got) and due[0] == got[0] and fits(due[1:], got[1:])


class Tools:
    """The program and the companion, and what they can do."""

    def __init__(self, program: pathlib.Path) -> None:
        self.program = program
        self.companion = pathlib.Path(os.environ.get("MONITOR_COMPANION", TOP / "companion" / "monitor-companion")).resolve()
        with tempfile.TemporaryDirectory() as empty:
            told = subprocess.run([program, "report"], cwd=empty, capture_output=True, text=True).stderr
        self.tells_reasons = told.startswith("monitor: ")
        helped = subprocess.run([self.companion, "page", "-h"], capture_output=True)
        self.has_companion = helped.returncode == 0


class Run:
    """One section in a room of its own."""

    def __init__(self, section: Section, tools: Tools, room: pathlib.Path) -> None:
        self.section, self.tools, self.room = section, tools, room
        for place in PLACES:
            (room / place[1:]).mkdir(parents=True)
        library = room / "usr/lib/monitor"
        for script in ("monitor-site", "monitor-fault"):
            shutil.copy2(TOP / "systemd" / script, library / script)
        self.make_path()
        for name in section.rooms:
            ROOMS[name](room, tools.program)

    def make_path(self) -> None:
        folder = self.room / "bin"
        folder.mkdir()
        (folder / "monitor").symlink_to(self.tools.program)
        (folder / "monitor-companion").symlink_to(self.tools.companion)
        systemctl = f'#!/bin/sh\nexec {sys.executable} {TOP}/tests/units.py {self.room} "$@"\n'
        for name, text in (("sudo", SUDO), ("apt", APT), ("systemctl", systemctl), ("journalctl", units.JOURNALCTL)):
            (folder / name).write_text(text.replace("ROOM", str(self.room)))
            (folder / name).chmod(0o755)

    def here(self, text: str) -> str:
        """A command with the room's folders in place of the system's."""
        text = text.replace("/usr/share/doc/monitor/", f"{TOP}/")
        for place in PLACES:
            text = re.sub(rf"(?<![\w.]){place}\b", f"{self.room}{place}", text)
        return text

    def lines(self, text: str) -> list[str]:
        """What was printed, in the document's words."""
        return text.replace(str(self.room), "").splitlines()

    def outputs(self) -> Iterator[tuple[Step, list[str]]]:
        """Runs the section's commands in one shell, and gives for each what it printed."""
        script = "".join(f"{self.here(step.command)}\nstatus=$?; printf '{MARK}'; (exit $status)\n" for step in self.section.steps)
        environment = {**os.environ, "PATH": f"{self.room}/bin:{os.environ['PATH']}", "LC_ALL": "C.UTF-8"}
        environment["MONITOR"] = str(self.tools.program)
        environment["MONITOR_FAULTS"] = str(self.room / "run/monitor")
        environment["MONITOR_ON_FAULT"] = str(self.room / "etc/monitor/on-fault")
        ran = subprocess.run(
            ["bash", "-c", f"exec 2>&1\n{script}"], cwd=self.room / "var/lib/monitor", env=environment,
            stdin=subprocess.DEVNULL, capture_output=True, timeout=SECONDS,
        )
        parts = ran.stdout.decode(errors="replace").split(MARK)
        for step, part in zip(self.section.steps, parts, strict=False):
            yield step, self.lines(part)

    def due(self, step: Step) -> list[str]:
        """What the document shows, as this program tells it."""
        if self.tools.tells_reasons:
            return step.due
        return [it for it in step.due if not re.match(r"(monitor@[a-z]+: )?monitor: [^:]+: ", it)]


def try_section(section: Section, tools: Tools, show: bool) -> tuple[int, int]:
    """How many commands printed what is documented, and how many didn't."""
    passed = failed = 0
    with tempfile.TemporaryDirectory() as folder:
        room = pathlib.Path(folder).resolve()
        try:
            run = Run(section, tools, room)
            for step, got in run.outputs():
                if show:
                    print(f"{step.line}: $ {step.command}", *got, sep="\n")
                elif fits(run.due(step), got):
                    passed += 1
                else:
                    failed += 1
                    print(f"operating: line {step.line}: $ {step.command}", *(f"  got  {it}" for it in got), sep="\n")
        finally:
            for mounted in room.glob("**/.mounted"):
                subprocess.run(["umount", mounted.parent])
    return passed, failed


def main() -> int:
    words = argparse.ArgumentParser(usage=__doc__)
    words.add_argument("program", nargs="?", default=PROGRAM)
    words.add_argument("--show", action="store_true")
    words.add_argument("--only", default="")
    given = words.parse_args()
    program = pathlib.Path(given.program).resolve()
    if not program.is_file():
        print("operating: skipped, since the program isn't built (./monitor builds it)")
        return 0
    tools = Tools(program)
    passed = failed = 0
    for section in sections(DOCUMENT.read_text(encoding="utf-8")):
        if given.only not in section.title:
            continue
        if any("monitor-companion" in it.command for it in section.steps) and not tools.has_companion:
            print(f"operating: '{section.title}' is skipped, since the companion has no such commands here")
            continue
        if "small-disk" in section.rooms and not units.can_mount():
            print(f"operating: '{section.title}' is skipped, since nothing can be mounted here")
            continue
        more, less = try_section(section, tools, given.show)
        passed, failed = passed + more, failed + less
    print(f"operating: {passed} passed, {failed} failed")
    return 1 if failed else 0


if __name__ == "__main__":
    sys.exit(main())
