"""The command line: `python3 -m monitor_companion COMMAND`."""

from __future__ import annotations

import argparse
import os
import sys
from collections.abc import Sequence

from monitor_companion import (
    __version__,
    append_command,
    check_command,
    export_command,
    import_command,
    page_command,
)
from monitor_companion.refusals import Refusal, Status

# Each command's module has `SUMMARY`, `add_arguments(parser)` and `run(arguments) -> Status`.
COMMANDS = {
    "import": import_command,
    "append": append_command,
    "check": check_command,
    "export": export_command,
    "page": page_command,
}


def main(words: Sequence[str] | None = None) -> int:
    """Does what the words say, and returns the exit status."""
    summary = "Imports, checks, exports and pages beside the program monitor."
    parser = argparse.ArgumentParser(prog="monitor-companion", description=summary)
    parser.add_argument("--version", action="version", version=__version__)
    commands = parser.add_subparsers(dest="command", required=True, metavar="COMMAND")
    for name, module in COMMANDS.items():
        module.add_arguments(commands.add_parser(name, help=module.SUMMARY))
    arguments = parser.parse_args(words)
    try:
        status = int(COMMANDS[arguments.command].run(arguments))
        sys.stdout.flush()
        return status
    except Refusal as refusal:
        print(f"monitor-companion: {refusal}", file=sys.stderr)
        return int(Status.REFUSED)
    except BrokenPipeError:
        # Python would try to write the rest once more when it ends.
        os.dup2(os.open(os.devnull, os.O_WRONLY), sys.stdout.fileno())
        print("monitor-companion: the output was closed before its end", file=sys.stderr)
        return int(Status.REFUSED)


if __name__ == "__main__":
    sys.exit(main())
