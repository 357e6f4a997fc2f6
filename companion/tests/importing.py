"""What the tests of import and append have in common."""

from __future__ import annotations

import contextlib
import io
import struct
import tempfile
import unittest
from argparse import ArgumentParser
from collections.abc import Sequence
from pathlib import Path

from monitor_companion import append_command, import_command
from monitor_companion.recording import HEAD_BYTES, MISSING
from monitor_companion.refusals import Refusal, Status

GRID = "[grid]\nclasses = 128\nwidth = 2\nlow = -64000\nreference = 64\n"
COMMANDS = {"import": import_command, "append": append_command}


def configuration(gauges: Sequence[str]) -> str:
    """A monitor.toml with these gauges."""
    return GRID + "".join(f'[[gauge]]\nname = "{g}"\nfile = "{g}.sgrc"\nnum = 21\n' for g in gauges)


def read_samples(path: Path) -> list[int]:
    """The samples of a recording."""
    data = path.read_bytes()[HEAD_BYTES:]
    return list(struct.unpack(f"<{len(data) // 4}i", data))


class SiteTest(unittest.TestCase):
    """A test with a site in a folder of its own."""

    gauges: tuple[str, ...] = ("span", "pier")

    def setUp(self) -> None:
        folder = tempfile.TemporaryDirectory()
        self.addCleanup(folder.cleanup)
        self.site = Path(folder.name)
        (self.site / "monitor.toml").write_text(configuration(self.gauges))
        self.out = ""
        self.err = ""

    def call(self, command: str, export: str | Path, *words: str) -> Status:
        """Runs a command; what it told is in `out` and `err`, a refusal in `err`."""
        parser = ArgumentParser()
        COMMANDS[command].add_arguments(parser)
        out, err = io.StringIO(), io.StringIO()
        with contextlib.redirect_stdout(out), contextlib.redirect_stderr(err):
            arguments = parser.parse_args(
                [str(self.site / export), "--site", str(self.site), *words]
            )
            try:
                status = Status(COMMANDS[command].run(arguments))
            except Refusal as refusal:
                status = Status.REFUSED
                err.write(f"{refusal}\n")
        self.out, self.err = out.getvalue(), err.getvalue().replace(f"{self.site}/", "")
        return status

    def write(self, name: str, data: str | bytes) -> str:
        """Writes an export into the site."""
        (self.site / name).write_bytes(data.encode() if isinstance(data, str) else data)
        return name

    def samples(self, gauge: str) -> list[int | None]:
        """The samples of a gauge's recording, None where there is no reading."""
        return [None if s == MISSING else s for s in read_samples(self.site / f"{gauge}.sgrc")]

    def files(self) -> dict[str, bytes]:
        """All files of the site."""
        return {path.name: path.read_bytes() for path in self.site.iterdir()}

    def refused(self, message: str, command: str, export: str, *words: str) -> None:
        """Expects a refusal with this text, and that no file was changed."""
        before = self.files()
        self.assertEqual(self.call(command, export, *words), Status.REFUSED, self.out)
        self.assertEqual(self.err, message + "\n")
        self.assertEqual(self.files(), before)
