"""How the package is written: types that `mypy --strict` accepts, and short modules."""

from __future__ import annotations

import shutil
import subprocess
import unittest

from tests.program import COMPANION

PACKAGE = COMPANION / "monitor_companion"
MODULE_LINES = 400


class Style(unittest.TestCase):
    """The whole package, not only the modules of one command."""

    def test_types(self) -> None:
        mypy = shutil.which("mypy")
        if mypy is None:
            self.skipTest("mypy isn't there, so the types aren't checked")
        words = [
            mypy,
            "--strict",
            "--python-version",
            "3.11",
            "--cache-dir=/dev/null",
            PACKAGE.name,
        ]
        done = subprocess.run(words, cwd=COMPANION, capture_output=True, text=True, check=False)
        self.assertEqual(done.returncode, 0, done.stdout + done.stderr)

    def test_modules_are_short(self) -> None:
        modules = sorted([*PACKAGE.rglob("*.py"), *(COMPANION / "tests").glob("*.py")])
        self.assertGreater(len(modules), 2)
        for module in modules:
            with self.subTest(module.name):
                lines = len(module.read_text(encoding="utf-8").splitlines())
                self.assertLessEqual(lines, MODULE_LINES)


if __name__ == "__main__":
    unittest.main()
