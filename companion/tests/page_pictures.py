"""Makes the pictures of the bridge's page in docs: `python3 -m tests.page_pictures`.

They are made smaller by `pngquant` where it is there.
"""

from __future__ import annotations

import pathlib
import shutil
import subprocess
import tempfile
import unittest

from tests.page_browser import Browser
from tests.program import ROOT
from tests.report_cases import BRIDGE, bridge_case, run_command

# Name and width in pixels, and the elements from whose top and to whose bottom the picture goes.
PICTURES = (
    ("page.png", 1280, "body", "#gauge-span2-flange figure:nth-child(2)"),
    ("page-damage.png", 1280, "#detail-cover-plate", "#detail-stiffener"),
    ("page-narrow.png", 400, "body", "#gauge-span2-flange figure"),
)
MARGIN = 24


def main() -> None:
    """Draws the page of the bridge's report, and takes the pictures."""
    with tempfile.TemporaryDirectory() as place:
        folder = pathlib.Path(place)
        (folder / "report.txt").write_text(bridge_case().report)
        page = folder / "page.html"
        run_command("page", folder / "report.txt", "--site", BRIDGE, "-o", page)
        browser = Browser()
        try:
            for name, width, first, last in PICTURES:
                browser.show(width, 900)
                browser.open(page)
                top = max(0, browser.value(_place(first, "top")) - MARGIN)
                bottom = browser.value(_place(last, "bottom")) + MARGIN
                taken = browser.picture((0, top, width, bottom - top))
                (ROOT / "docs" / name).write_bytes(taken)
        finally:
            browser.close()
    if shutil.which("pngquant"):
        for name, *_ in PICTURES:
            words = ["pngquant", "--force", "--speed", "1", "--output", name, "32", name]
            subprocess.run(words, cwd=ROOT / "docs", check=True)


def _place(element: str, edge: str) -> str:
    return f"document.querySelector('{element}').getBoundingClientRect().{edge} + scrollY"


if __name__ == "__main__":
    try:
        main()
    except unittest.SkipTest as why:
        print(why)
