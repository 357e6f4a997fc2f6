"""What is made of a report: files that are whole or not there, and warnings that are told."""

from __future__ import annotations

import os
import sys
import tempfile
from pathlib import Path

from monitor_companion.refusals import Place, Refusal, Status
from monitor_companion.report_reading import Reading, refused_words

STANDARD_OUTPUT = "-"


def told_warnings(reading: Reading) -> Status:
    """Tells on standard error which tables refused readings make incomplete."""
    warnings = refused_words(reading)
    for warning in warnings:
        print(f"monitor-companion: {warning}", file=sys.stderr)
    return Status.WARNED if warnings else Status.DONE


def write_text(text: str, name: str) -> None:
    """Writes a whole file at once, or to standard output where the name is `-`.

    A file that was there stays as it was until the new one is whole. Raises a `Refusal` where it
    can't be written.
    """
    content = text.encode("utf-8")
    if name == STANDARD_OUTPUT:
        _write_to_standard_output(content)
        return
    # A link stays a link, and what is no file, such as /dev/null, is written into.
    path = Path(name).resolve()
    try:
        if path.exists() and not path.is_file():
            path.write_bytes(content)
        else:
            _replace(path, content)
    except OSError as error:
        raise Refusal(Place(name), f"can't be written: {error.strerror}") from error


def _replace(path: Path, content: bytes) -> None:
    """Puts a new file in the place of an old one, once it is written and synced."""
    front = f".{path.name}."
    with tempfile.NamedTemporaryFile(dir=path.parent, prefix=front, delete=False) as file:
        beside = Path(file.name)
        try:
            file.write(content)
            file.flush()
            os.fsync(file.fileno())
            beside.chmod(0o666 & ~_umask())
            os.replace(beside, path)
        except OSError:
            beside.unlink(missing_ok=True)
            raise


def _umask() -> int:
    """The bits that new files don't get."""
    mask = os.umask(0)
    os.umask(mask)
    return mask


def _write_to_standard_output(content: bytes) -> None:
    try:
        sys.stdout.buffer.write(content)
        sys.stdout.buffer.flush()
    except OSError as error:
        # Python writes what is left when it ends, which must not fail again.
        os.dup2(os.open(os.devnull, os.O_WRONLY), sys.stdout.fileno())
        why = f"can't be written: {error.strerror}"
        raise Refusal(Place("standard output"), why) from error
