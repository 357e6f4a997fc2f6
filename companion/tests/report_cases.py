"""Sites whose reports are made by the independent count, `tests/model.py` at the top."""

from __future__ import annotations

import importlib.util
import pathlib
import random
import struct
import tempfile
import tomllib
import unittest
from dataclasses import dataclass
from functools import cached_property, lru_cache
from typing import Any

from monitor_companion.__main__ import main
from tests.program import ROOT

BRIDGE = ROOT / "examples" / "bridge"
CATEGORIES = {
    "normal": (160, 140, 125, 112, 100, 90, 80, 71, 63, 56, 50, 45, 40, 36),
    "shear": (100, 80),
}
# The standard's example, -2 1 -3 5 -1 3 -4 4 -2, over 16 classes of 1 N/mm² from -8 N/mm² on.
STANDARD_STRESSES = (-2, 1, -3, 5, -1, 3, -4, 4, -2)


def _model() -> Any:
    spec = importlib.util.spec_from_file_location("monitor_model", ROOT / "tests" / "model.py")
    assert spec is not None and spec.loader is not None
    module = importlib.util.module_from_spec(spec)
    spec.loader.exec_module(module)
    return module


model = _model()


@dataclass
class Case:
    """A configuration, and what the independent count says of its recordings."""

    configuration: str
    grid: Any
    names: list[str]
    counts: list[Any]
    details: list[Any]

    @cached_property
    def report(self) -> str:
        """What the program prints by the independent count."""
        text: str = model.report(self.names, self.counts, self.details)
        return text

    def folder(self, test: unittest.TestCase) -> pathlib.Path:
        """A folder with the configuration and the report, `report.txt`, for one test."""
        place = tempfile.TemporaryDirectory()
        test.addCleanup(place.cleanup)
        return self.written(pathlib.Path(place.name))

    def written(self, folder: pathlib.Path) -> pathlib.Path:
        """A folder, with the configuration and the report."""
        (folder / "monitor.toml").write_text(self.configuration)
        (folder / "report.txt").write_text(self.report)
        return folder


def case_of(configuration: str, raws: list[list[int]]) -> Case:
    """The case of a configuration, with the raw values of each gauge."""
    document = tomllib.loads(configuration)
    part = document["grid"]
    grid = model.Grid(part["classes"], part["width"], part["low"], part["reference"])
    gauges = document["gauge"]
    gains = [(each["num"], each.get("den", 1), each.get("offset", 0)) for each in gauges]
    counts = [model.Count(grid, gain, raw) for gain, raw in zip(gains, raws, strict=True)]
    names = [each["name"] for each in gauges]
    details = [
        model.Detail(
            each["name"], names.index(each["gauge"]), each["kind"], each["category"], each["gamma"]
        )
        for each in document.get("detail", [])
    ]
    return Case(configuration, grid, names, counts, details)


def standard_case() -> Case:
    """The standard's example with a detail, which has no damage."""
    configuration = (
        '[grid]\nclasses = 16\nwidth = 2\nlow = -8000\nreference = 8\n'
        '[[gauge]]\nname = "north"\nfile = "north.sgrc"\nnum = 1000\n'
        '[[detail]]\nname = "weld-1"\ngauge = "north"\nkind = "normal"\ncategory = 71\n'
        "gamma = 115\n"
    )
    return case_of(configuration, [list(STANDARD_STRESSES)])


@lru_cache
def bridge_case(samples: int = 12_000) -> Case:
    """The bridge in the examples, or the front of its recordings."""
    configuration = (BRIDGE / "monitor.toml").read_text()
    files = [each["file"] for each in tomllib.loads(configuration)["gauge"]]
    raws = []
    for file in files:
        body = (BRIDGE / file).read_bytes()[32:][: 4 * samples]
        raws.append(list(struct.unpack(f"<{len(body) // 4}i", body)))
    return case_of(configuration, raws)


def random_case(chance: random.Random, samples: int = 200) -> Case:
    """Any grid, up to three gauges and five details; many readings, so that there is damage."""
    classes = chance.choice([2, 3, 16, 64, 128, 300])
    width = chance.randint(1, min(2000 // (classes - 1), 6))
    low = chance.randint(-100_000, 20_000)
    lines = [f"[grid]\nclasses = {classes}\nwidth = {width}\nlow = {low}"]
    lines.append(f"reference = {chance.randint(1, classes - 1)}")
    gauges = chance.randint(1, 3)
    for gauge in range(gauges):
        lines.append(f'[[gauge]]\nname = "g{gauge}"\nfile = "g{gauge}.sgrc"\nnum = 1')
    for detail in range(chance.randint(0, 5)):
        kind = chance.choice(["normal", "shear"])
        lines.append(f'[[detail]]\nname = "d{detail}"\ngauge = "g{chance.randrange(gauges)}"')
        lines.append(f'kind = "{kind}"\ncategory = {chance.choice(CATEGORIES[kind])}')
        lines.append(f"gamma = {chance.choice([100, 115, 135])}")
    span = classes * width * 500
    raws = []
    for _ in range(gauges):
        length = chance.randint(0, samples)
        raw = [low + chance.randint(-span // 50, span + span // 50) for _ in range(length)]
        raws.append(raw + [model.MISSING] * chance.randint(0, 2))
    return case_of("\n".join(lines) + "\n", raws)


def run_command(command: str, *words: object) -> int:
    """The status of a command line in this process."""
    return main([command, *map(str, words)])
