"""Cleans records of three real registries by fixdesk_clean, by a look-up join, and by the most frequent text.

It needs the Debian packages python3-stdnum and iso-codes, and a Rattle kit on the path: `rt try` compiles fixdesk_clean
and runs it, with no proof. Where `rt run` has built the program in crates/fixdesk_clean, that one runs in its place.
What was counted is printed as tables in Markdown. The status is 1 where fixdesk_clean does not do what is claimed: in a
record whose known cells are true it changes no cell wrongly.
"""

from __future__ import annotations

import argparse
import platform
import shutil
import sqlite3
import sys
import tempfile
from collections.abc import Iterator
from dataclasses import dataclass
from pathlib import Path
from random import Random

import packages
from cleaning import by_join, by_vote
from picture import draw
from registries import all_registries
from reporting import report
from running import BUILT, Built, Cleaned, Job, ProgramFailed, Runner
from scoring import Trial
from sheets import Sheet
from spoiling import spoil
from trying import Tried

_SLIPS_IN_OTHER_CELLS = 0.1
_SLIPS_IN_KNOWN_CELLS = (0.0, 0.01, 0.05)


@dataclass(frozen=True)
class Drawn:
    """What a trial begins with: the true records, and the typed ones that are to be cleaned."""

    rate: float
    truth: Sheet
    job: Job


def main() -> int:
    """Runs all trials, and prints what was counted."""
    options = _options()
    try:
        with tempfile.TemporaryDirectory() as temporary:
            drawn = list(_drawn(options, (options.keep or Path(temporary)).resolve()))
            version = _runner(options).clean([one.job for one in drawn])
            trials = [_trial(one) for one in drawn]
    except ProgramFailed as failure:
        print(failure, file=sys.stderr)
        return 2
    print(_versions(version), report(trials), sep="\n\n")
    if options.picture:
        options.picture.write_text(draw(trials), encoding="utf-8")
    faults = [f"{trial.registry.name}, {trial.rate}: {fault}" for trial in trials for fault in trial.faults()]
    for fault in faults:
        print(fault, file=sys.stderr)
    return 1 if faults else 0


def _drawn(options: argparse.Namespace, folder: Path) -> Iterator[Drawn]:
    """For each registry the same records, with the same slips but for those in known cells, ready to be cleaned."""
    for registry in all_registries():
        random = Random(f"{options.seed} {registry.name}")
        truth = Sheet(registry.truth.columns, random.choices(registry.truth.rows, k=options.records))
        typed = spoil(truth, registry.open, _SLIPS_IN_OTHER_CELLS, random)
        for rate in _SLIPS_IN_KNOWN_CELLS:
            dirty = spoil(typed, registry.known, rate, random)
            job = Job(registry, dirty, folder / registry.name / f"{rate:.2f}")
            job.prepare()
            yield Drawn(rate, truth, job)


def _runner(options: argparse.Namespace) -> Runner:
    """The built program where there is one, and else `rt try`."""
    if options.program:
        return Built(options.program.resolve())
    if BUILT.is_file():
        return Built(BUILT)
    print("rt try compiles fixdesk_clean and runs it, which takes some minutes", file=sys.stderr)
    return Tried()


def _trial(drawn: Drawn) -> Trial:
    """Cleans the records by the other methods too, and leaves all sheets in the folder."""
    job = drawn.job
    trial = Trial(
        job.registry, drawn.rate, drawn.truth, job.dirty,
        fixdesk=Cleaned.read(job.folder),
        join=by_join(job.registry, job.dirty),
        vote=by_vote(job.registry, job.dirty),
    )
    for name, sheet in {"true": drawn.truth, "join": trial.join, "vote": trial.vote}.items():
        sheet.write(job.folder / f"{name}.csv")
    return trial


def _versions(program: str) -> str:
    """What the trials ran with."""
    return ", ".join([
        program,
        *packages.versions(),
        f"Python {platform.python_version()}",
        f"SQLite {sqlite3.sqlite_version}",
    ])


def _options() -> argparse.Namespace:
    """The words of the command line."""
    parser = argparse.ArgumentParser(description=__doc__, formatter_class=argparse.RawDescriptionHelpFormatter)
    parser.add_argument("--program", type=Path, help="a built fixdesk_clean")
    parser.add_argument("--records", type=int, default=20_000, help="how many records of each registry")
    parser.add_argument("--seed", type=int, default=1, help="what the records and the slips are drawn from")
    parser.add_argument("--keep", type=Path, help="a folder for the sheets of all trials, which else are taken away")
    parser.add_argument("--picture", type=Path, help="a file for the picture")
    options = parser.parse_args()
    if missing := packages.missing():
        parser.error(f"a package is missing: apt-get install {' '.join(missing)}")
    if options.program and not options.program.is_file():
        parser.error(f"there is no {options.program}")
    if not (options.program or BUILT.is_file() or shutil.which("rt")):
        parser.error("there is no Rattle kit on the path")
    return options


if __name__ == "__main__":
    sys.exit(main())
