"""What fixdesk_clean is given and what it writes, and the run of the built program."""

from __future__ import annotations

import shutil
import subprocess
from collections.abc import Sequence
from dataclasses import dataclass
from pathlib import Path
from typing import Protocol

from registries import Registry
from sheets import Sheet

CRATE = Path(__file__).resolve().parents[2] / "crates/fixdesk_clean"
BUILT = CRATE / "out/fixdesk_clean"

CLEAN = "clean.csv"
CHANGES = "changes.csv"
CONFLICTS = f"{CHANGES}.conflicts"
DISSENTS = f"{CHANGES}.dissents"

_DIRTY = "dirty.csv"
_VERDICT = "verdict"


class ProgramFailed(Exception):
    """fixdesk_clean, or what runs it, ended with another status than 0."""


@dataclass(frozen=True)
class Job:
    """Records that are to be cleaned by a registry, and the folder for all files that are read and written."""

    registry: Registry
    dirty: Sheet
    folder: Path

    def prepare(self) -> None:
        """Puts what is read into the folder."""
        self.folder.mkdir(parents=True, exist_ok=True)
        shutil.copy(self.registry.schema, self.folder)
        shutil.copy(self.registry.rules, self.folder)
        for name, master in self.registry.masters.items():
            master.write(self.folder / f"{name}.csv")
        self.dirty.write(self.folder / _DIRTY)

    def words(self, changes: Path) -> list[str]:
        """The words after the program's name, where the sheets of changes go to this path."""
        words = ["--known", ",".join(self.registry.known), "--verdict", _VERDICT, "--changes", str(changes)]
        if self.registry.folded:
            words += ["--folded", ",".join(self.registry.folded)]
        words += [str(self.folder / path.name) for path in (self.registry.schema, self.registry.rules)]
        return [*words, *(f"{name}={self.folder / name}.csv" for name in self.registry.masters)]


@dataclass(frozen=True)
class Cleaned:
    """What fixdesk_clean wrote: the records, the verdict on each, and the sheets of changes and of conflicts."""

    records: Sheet
    verdicts: list[str]
    changes: Sheet
    conflicts: Sheet

    @classmethod
    def read(cls, folder: Path) -> Cleaned:
        """Reads the sheets in the folder of a job."""
        clean = Sheet.read(folder / CLEAN)
        return cls(
            records=Sheet(clean.columns[:-1], [row[:-1] for row in clean.rows]),
            verdicts=[row[-1] for row in clean.rows],
            changes=Sheet.read(folder / CHANGES),
            conflicts=Sheet.read(folder / CONFLICTS),
        )


class Runner(Protocol):
    """A way to run fixdesk_clean."""

    def clean(self, jobs: Sequence[Job]) -> str:
        """Writes the sheets of all jobs, which are prepared, and tells the line by which fixdesk_clean names itself."""


@dataclass(frozen=True)
class Built:
    """The built program."""

    program: Path

    def clean(self, jobs: Sequence[Job]) -> str:
        """Runs it once for each job."""
        for job in jobs:
            self._clean(job)
        shown = subprocess.run([self.program, "--version"], check=True, capture_output=True, text=True)
        return shown.stdout.strip()

    def _clean(self, job: Job) -> None:
        words = [str(self.program), *job.words(job.folder / CHANGES)]
        with (job.folder / _DIRTY).open("rb") as typed, (job.folder / CLEAN).open("wb") as clean:
            run = subprocess.run(words, stdin=typed, stdout=clean, stderr=subprocess.PIPE, text=True)
        if run.returncode:
            raise ProgramFailed(f"{' '.join(words)} ended with status {run.returncode}: {run.stderr.strip()}")
