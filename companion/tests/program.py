"""The built program `monitor`, which some tests run."""

from __future__ import annotations

import os
import pathlib
import subprocess
import unittest

ROOT = pathlib.Path(__file__).resolve().parents[2]
COMPANION = ROOT / "companion"
BUILT = ROOT / "crates" / "monitor_main" / "out" / "monitor_main"


def program() -> pathlib.Path:
    """Returns the built program, or the one of MONITOR_PROGRAM; skips the test without one."""
    path = pathlib.Path(os.environ.get("MONITOR_PROGRAM", BUILT))
    if not path.is_file():
        why = f"the program isn't built: there is no {path.name} (./monitor builds it)"
        raise unittest.SkipTest(why)
    return path


def run(folder: pathlib.Path, *words: str) -> subprocess.CompletedProcess[bytes]:
    """Runs the program in a folder, and returns its status and what it wrote."""
    return subprocess.run([program(), *words], cwd=folder, capture_output=True, check=False)
