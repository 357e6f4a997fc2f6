"""What a check finds: faults, warnings and notes, each at a place, as one line."""

from __future__ import annotations

from collections.abc import Iterator
from dataclasses import dataclass, field
from enum import Enum

from monitor_companion.refusals import Place, Refusal, Status
from monitor_companion.wording import one_line


class Severity(Enum):
    """How much a finding matters; a note doesn't change the status."""

    FAULT = "fault"
    WARNING = "warning"
    NOTE = "note"


@dataclass(frozen=True)
class Told:
    """What the program itself tells of a fault: its exit status, and its line on standard error."""

    status: int
    line: str


@dataclass(frozen=True)
class Finding:
    """One thing that was found. `told` is set where the program refuses the site for it.

    `needs_store` says that mending it changes what a store is made for.
    """

    severity: Severity
    place: Place
    text: str
    told: Told | None = None
    needs_store: bool = False

    def __str__(self) -> str:
        return one_line(f"{self.place}: {self.severity.value}: {self.text}")


@dataclass
class Findings:
    """All findings; those that the program would tell stand in its order."""

    found: list[Finding] = field(default_factory=list)

    def fault(self, place: Place, text: str, status: int, line: str) -> None:
        """Adds what the program refuses with this status and this line."""
        self.found.append(Finding(Severity.FAULT, place, text, Told(status, line)))

    def warn(self, place: Place, text: str) -> None:
        """Adds what the program takes in silence, and what is probably a mistake."""
        self.found.append(Finding(Severity.WARNING, place, text))

    def warn_setup(self, place: Place, text: str) -> None:
        """Adds a warning of classes or a gain, which are fixed once there is a store."""
        self.found.append(Finding(Severity.WARNING, place, text, needs_store=True))

    def note(self, place: Place, text: str) -> None:
        """Adds what is good to know."""
        self.found.append(Finding(Severity.NOTE, place, text))

    def __iter__(self) -> Iterator[Finding]:
        return iter(self.found)

    def count(self, severity: Severity) -> int:
        """Returns how many findings of this severity there are."""
        return sum(finding.severity is severity for finding in self.found)

    @property
    def status(self) -> Status:
        """The exit status: 2 with a fault, 1 with a warning, 0 otherwise."""
        if self.count(Severity.FAULT):
            return Status.REFUSED
        return Status.WARNED if self.count(Severity.WARNING) else Status.DONE

    @property
    def verdict(self) -> Told | None:
        """What the program would tell: the first fault in its order."""
        return next((finding.told for finding in self.found if finding.told is not None), None)

    def refuse(self) -> None:
        """Raises a `Refusal` with the first fault, where there is one."""
        for finding in self.found:
            if finding.severity is Severity.FAULT:
                raise Refusal(finding.place, one_line(finding.text))
