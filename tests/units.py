#!/usr/bin/env python3
"""A stand-in for `systemctl` in tests: runs the command lines of the units in `systemd` without systemd.

units.py ROOM [--quiet] enable|start|stop|daemon-reload .. [UNIT]

A service is run in its WorkingDirectory below ROOM, with RUNTIME_DIRECTORY set as RuntimeDirectory says; SuccessExitStatus, OnFailure and
ConditionPathExists count as systemd.service(5) has it. Errors that are told go to the file ROOM/journal.
"""

from __future__ import annotations

import os
import pathlib
import re
import shlex
import subprocess
import sys
import tempfile

TOP = pathlib.Path(__file__).resolve().parent.parent
JOURNALCTL = """#!/bin/sh
cat ROOM/journal
"""


def can_mount() -> bool:
    """Whether a small disk can be mounted here."""
    with tempfile.TemporaryDirectory() as folder:
        if subprocess.run(["mount", "-t", "tmpfs", "-o", "size=64k", "none", folder], capture_output=True).returncode:
            return False
        return subprocess.run(["umount", folder]).returncode == 0


def settings(name: str) -> tuple[dict[str, str], str]:
    """What a unit of a template says, the last word for each key, and its instance."""
    found = re.fullmatch(r"(monitor[a-z-]*@)([\w-]+)(\.\w+)?", name)
    if not found:
        sys.exit(f"Unit {name} not found.")
    file = TOP / "systemd" / f"{found[1]}{found[3] or '.service'}"
    if not file.exists():
        sys.exit(f"Unit {name} not found.")
    lines = [line.partition("=") for line in file.read_text().splitlines() if re.match(r"\w+=", line)]
    return {key: text.replace("%i", found[2]) for key, _, text in lines}, found[2]


def start(room: pathlib.Path, name: str) -> int:
    """Runs a service, and what stands in for it where it fails. Returns the status of `systemctl start`."""
    unit, _ = settings(name)
    condition = unit.get("ConditionPathExists")
    if condition and not (room / condition[1:]).exists():
        return 0
    environment = dict(os.environ)
    if "RuntimeDirectory" in unit:
        runtime = room / "run" / unit["RuntimeDirectory"]
        runtime.mkdir(parents=True, exist_ok=True)
        environment["RUNTIME_DIRECTORY"] = str(runtime)
    program, *words = shlex.split(unit["ExecStart"])
    folder = room / unit.get("WorkingDirectory", "/")[1:]
    with open(room / "journal", "ab") as journal:
        errors = journal if "SyslogLevel" in unit else subprocess.DEVNULL
        ran = subprocess.run([room / program[1:], *words], cwd=folder, env=environment, stderr=errors)
    if ran.returncode == 0 or str(ran.returncode) in unit.get("SuccessExitStatus", "").split():
        return 0
    print(f"Job for {name}.service failed because the control process exited with error code.")
    if "OnFailure" in unit:
        start(room, unit["OnFailure"])
    return 1


def main() -> int:
    room = pathlib.Path(sys.argv[1])
    words = [it for it in sys.argv[2:] if not it.startswith("-")]
    if words[0] in ("enable", "stop"):
        for name in words[1:]:
            settings(name)
        return 0
    if words[0] == "start":
        return max(start(room, name) for name in words[1:])
    return 0 if words[0] == "daemon-reload" else 1


if __name__ == "__main__":
    sys.exit(main())
