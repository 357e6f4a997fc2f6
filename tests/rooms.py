"""What the folders of a room hold when a section of docs/OPERATING.md begins: each takes the room and the program."""

from __future__ import annotations

import pathlib
import random
import shutil
import struct
import subprocess
import sys
from collections.abc import Callable

TOP = pathlib.Path(__file__).resolve().parent.parent
BRIDGE = TOP / "examples" / "bridge"
RECORDINGS = ["span2-flange", "pier-flange", "web-shear"]


def north(room: pathlib.Path) -> pathlib.Path:
    """The folder of the site that the document speaks of."""
    return room / "var/lib/monitor/north"


def site(room: pathlib.Path, program: pathlib.Path) -> None:
    """The bridge of the examples, all of whose samples are held, and its report."""
    folder = north(room)
    folder.mkdir()
    for name in ("monitor.toml", *(f"{it}.sgrc" for it in RECORDINGS)):
        shutil.copy(BRIDGE / name, folder)
    subprocess.run([program, "init"], cwd=folder, check=True, stderr=subprocess.DEVNULL)
    with open(folder / "report.txt", "wb") as report:
        subprocess.run([program, "count"], cwd=folder, check=True, stdout=report, stderr=subprocess.DEVNULL)


def grown(room: pathlib.Path, program: pathlib.Path) -> None:
    """The same, where the store holds the first half and the recordings have grown since."""
    folder = north(room)
    folder.mkdir()
    shutil.copy(BRIDGE / "monitor.toml", folder)
    for name in RECORDINGS:
        whole = (BRIDGE / f"{name}.sgrc").read_bytes()
        (folder / f"{name}.sgrc").write_bytes(whole[: 32 + 4 * 6000])
    subprocess.run([program, "init"], cwd=folder, check=True, stderr=subprocess.DEVNULL)
    subprocess.run([program, "count"], cwd=folder, check=True, stdout=subprocess.DEVNULL, stderr=subprocess.DEVNULL)
    for name in RECORDINGS:
        shutil.copy(BRIDGE / f"{name}.sgrc", folder)


def small_disk(room: pathlib.Path, program: pathlib.Path) -> None:
    """The site's folder is a disk of its own that has no room left for what is new."""
    kept = room / "kept"
    shutil.move(north(room), kept)
    folder = north(room)
    folder.mkdir()
    subprocess.run(["mount", "-t", "tmpfs", "-o", "size=256k", "none", folder], check=True)
    (folder / ".mounted").touch()
    shutil.copytree(kept, folder, dirs_exist_ok=True)
    free = shutil.disk_usage(folder).free
    (folder / "old.log").write_bytes(bytes(free))


def recording(path: pathlib.Path, identity: int, period_us: int, seed: int, samples: int = 6000) -> None:
    """A recording of traffic in microstrain."""
    rng = random.Random(seed)
    raws = [rng.choice((0, 0, 0, 60, 140, 210)) + rng.randint(-3, 3) for _ in range(samples)]
    head = b"SGRC\x01\0\0\0" + bytes([identity] * 16) + struct.pack("<II", period_us, 0)
    path.write_bytes(head + struct.pack(f"<{samples}i", *raws))


def new_recordings(room: pathlib.Path, program: pathlib.Path) -> None:
    """In /srv/new: a gauge that was added, one that was replaced, and a logger of 100 samples a second where there were 20."""
    folder = room / "srv/new"
    folder.mkdir()
    recording(folder / "bearing.sgrc", 4, 50_000, 4)
    recording(folder / "span2-flange.sgrc", 5, 50_000, 5)
    recording(folder / "fast.sgrc", 6, 10_000, 6)


def exports(room: pathlib.Path, program: pathlib.Path) -> None:
    """In /srv/logger: two days of a logger's exports, with the configuration of examples/logger in the site."""
    folder = room / "srv/logger"
    folder.mkdir()
    names, *rows = (TOP / "examples/logger/export.csv").read_text().splitlines(keepends=True)[3:]
    for day, part in (("monday", rows[:600]), ("tuesday", rows[600:])):
        (folder / f"{day}.csv").write_text(names + "".join(part))
    north(room).mkdir()
    shutil.copy(TOP / "examples/logger/monitor.toml", north(room))


ROOMS: dict[str, Callable[[pathlib.Path, pathlib.Path], None]] = {
    "site": site,
    "grown": grown,
    "small-disk": small_disk,
    "new-recordings": new_recordings,
    "exports": exports,
}

if __name__ == "__main__":
    sys.exit(__doc__)
