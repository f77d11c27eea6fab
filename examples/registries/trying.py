"""The run of fixdesk_clean by `rt try`, which compiles it in a minute or so and needs no proof.

One `rt try` compiles the program once, and runs it on each file of a folder. It shows at most 1 MiB of what a run
writes to standard output, so a sheet goes in as pieces. Since each record is cleaned by itself, the pieces of the
cleaned sheet make up the whole one, and so do those of the sheets of changes, with their rows counted on from piece to
piece.
"""

from __future__ import annotations

import re
import subprocess
import tempfile
from collections.abc import Iterable, Iterator, Sequence
from dataclasses import dataclass
from io import StringIO
from pathlib import Path

from running import CHANGES, CLEAN, CONFLICTS, CRATE, DISSENTS, Job, ProgramFailed
from sheets import Sheet

_RECORDS = 5_000  # of a piece; cleaned they have about a third of 1 MiB
_SECONDS = 600  # that a run on a piece may take; one on 5,000 records takes some seconds

_VERSION = "version"


@dataclass(frozen=True)
class Tried:
    """`rt try`, with so many records in a piece."""

    records: int = _RECORDS

    def clean(self, jobs: Sequence[Job]) -> str:
        """Runs the program once for each piece of each job."""
        with tempfile.TemporaryDirectory() as temporary:
            folder = Path(temporary)
            pieces_of_jobs = [list(self._pieces(number, job, folder)) for number, job in enumerate(jobs)]
            shown = _run(folder, [piece for pieces in pieces_of_jobs for piece in pieces])
            for job, pieces in zip(jobs, pieces_of_jobs):
                _put_together(job, pieces, shown)
        return shown[_VERSION].strip()

    def _pieces(self, number: int, job: Job, folder: Path) -> Iterator[_Piece]:
        """The pieces of a job; where it has no records, one that has none."""
        for start in range(0, len(job.dirty.rows) or 1, self.records):
            name = f"{number}-{start}"
            rows = job.dirty.rows[start:start + self.records]
            yield _Piece(name, job, Sheet(job.dirty.columns, rows), start, folder / name)


@dataclass(frozen=True)
class _Piece:
    """Records of a job, how many of the job come before them, and the folder for the sheets of changes."""

    name: str
    job: Job
    records: Sheet
    start: int
    folder: Path

    def sheet(self, name: str) -> Sheet:
        """A sheet of changes, with its rows counted as in the whole one."""
        sheet = Sheet.read(self.folder / name)
        return Sheet(sheet.columns, [(str(int(row) + self.start), *cells) for row, *cells in sheet.rows])


def _run(folder: Path, pieces: Sequence[_Piece]) -> dict[str, str]:
    """What the program writes to standard output for each piece, by its name, and for `--version`.

    The sheets of changes have full paths, since `rt try` takes away the folder in which the program runs.
    """
    cases = folder / "cases"
    cases.mkdir()
    _write_case(cases / _VERSION, Sheet((), []), ["--version"])
    for piece in pieces:
        piece.folder.mkdir()
        _write_case(cases / piece.name, piece.records, piece.job.words(piece.folder / CHANGES))
    words = ["rt", "try", "--seconds", str(_SECONDS), "--cases", str(cases)]
    run = subprocess.run(words, cwd=CRATE, capture_output=True)
    names = {_VERSION, *(piece.name for piece in pieces)}
    told = run.stderr.decode(errors="replace")
    if run.returncode or set(re.findall(r"^case=(\S+) run=ended status=0 ", told, re.MULTILINE)) != names:
        raise ProgramFailed(f"{' '.join(words)} in {CRATE} ended with status {run.returncode}:\n{told.strip()}")
    _, *parts = re.split(rf"^== ({'|'.join(names)})\n", run.stdout.decode(), flags=re.MULTILINE)
    return dict(zip(parts[::2], parts[1::2]))


def _write_case(path: Path, records: Sheet, words: Iterable[str]) -> None:
    """Writes a case as `rt try` reads it: standard input, and the words, one a line."""
    records.write(path)
    path.with_name(f"{path.name}.args").write_text("".join(f"{word}\n" for word in words), encoding="utf-8")


def _put_together(job: Job, pieces: Sequence[_Piece], shown: dict[str, str]) -> None:
    """Writes the sheets of a job, as one run over all its records writes them."""
    _joined(Sheet.parse(StringIO(shown[piece.name], newline="")) for piece in pieces).write(job.folder / CLEAN)
    for name in (CHANGES, CONFLICTS, DISSENTS):
        _joined(piece.sheet(name) for piece in pieces).write(job.folder / name)


def _joined(sheets: Iterable[Sheet]) -> Sheet:
    """The rows of all sheets, which have the same columns, in one."""
    first, *others = sheets
    return Sheet(first.columns, [row for sheet in (first, *others) for row in sheet.rows])
