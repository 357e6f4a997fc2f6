#!/usr/bin/env python3
"""The edits that the gate has no time for: crates/NAME/further-edits/*.edit.

  further_edits.py            says whether each can be applied: its old text stands in its file exactly once
  further_edits.py NAME ..    has the check try those of these crates, which must be refused (minutes for a crate)
  further_edits.py --all      has it try each (hours)

An edit has a line 'file: PATH', and then pairs of lines 'old: TEXT' and 'new: TEXT', as those in must-fail/ have.
"""
import pathlib
import shutil
import subprocess
import sys

ROOT = pathlib.Path(__file__).resolve().parent.parent


def edits_of(crate):
    return sorted((crate / "further-edits").glob("*.edit"))


def fault_of(edit, crate):
    """Returns why the edit cannot be applied, or None."""
    text, old, pairs = None, None, 0
    for line in edit.read_text(encoding="utf-8").split("\n"):
        word, _, rest = line.partition(": ")
        if word == "file":
            file = crate / rest.strip()
            if not file.is_file():
                return f"there is no {rest.strip()}"
            text = file.read_text(encoding="utf-8")
        elif word == "old":
            old = rest
        elif line.startswith("new:"):
            if text is None or not old:
                return "a new text stands before its file or its old text"
            found = text.count(old)
            if found != 1:
                return f"an old text stands in its file {found} times"
            text, old, pairs = text.replace(old, line[len("new:") :].removeprefix(" ")), None, pairs + 1
    return None if pairs else "it changes nothing"


def apply_all():
    """Looks whether each edit of each crate can be applied. Returns the exit status."""
    count, faults = 0, 0
    for crate in sorted((ROOT / "crates").iterdir()):
        for edit in edits_of(crate):
            why = fault_of(edit, crate)
            if not why and (crate / "must-fail" / edit.name).exists():
                why = "must-fail/ has an edit of this name"
            if why:
                print(f"further edits: {edit.relative_to(ROOT)}: {why}")
            count, faults = count + 1, faults + bool(why)
    print(f"further edits: {count} read, {faults} cannot be applied")
    return 1 if faults or not count else 0


def lend(crates, lent):
    """Puts the further edits of these crates beside those of the gate, and notes what it made. Returns whether it could."""
    for crate in crates:
        folder = crate / "must-fail"
        if not folder.exists():
            folder.mkdir()
            lent.append(folder)
        for edit in edits_of(crate):
            beside = folder / edit.name
            if beside.exists():
                print(f"further edits: must-fail/ of {crate.name} has {edit.name} too")
                return False
            lent.append(beside)
            shutil.copyfile(edit, beside)
    return True


def try_those_of(names):
    """Has the check try the further edits of these crates, beside those of the gate. Returns the exit status."""
    crates = [ROOT / "crates" / it for it in names]
    bare = [it.name for it in crates if not edits_of(it)]
    if bare:
        print(f"further edits: {bare[0]} has none")
        return 1
    lent = []
    try:
        return subprocess.run(["rt", "must-fail", *names], cwd=ROOT, check=False).returncode if lend(crates, lent) else 1
    finally:
        # (a folder stands before what was put into it)
        for beside in reversed(lent):
            if beside.is_dir():
                beside.rmdir()
            else:
                beside.unlink(missing_ok=True)


def main(words):
    if not words:
        return apply_all()
    if words == ["--all"]:
        words = [it.name for it in sorted((ROOT / "crates").iterdir()) if edits_of(it)]
    return try_those_of(words)


if __name__ == "__main__":
    sys.exit(main(sys.argv[1:]))
