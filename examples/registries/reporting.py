"""The tables of an evaluation, in Markdown."""

from __future__ import annotations

from collections.abc import Iterable, Sequence
from itertools import groupby
from math import floor

from scoring import Reason, Trial

Line = Iterable[str | int]


def report(trials: Sequence[Trial]) -> str:
    """All tables, each after a line that says what it has."""
    parts = ["The registries:", _registries([trial for trial in trials if not trial.rate])]
    for title, of_registry in groupby(trials, key=lambda trial: trial.registry.title):
        parts += [f"{title}, what became of the cells that are not known:", _outcomes(of_registry)]
    parts += ["The records, by the verdict of Fixdesk:", _verdicts(trials)]
    parts += ["Why Fixdesk left cells wrong:", _reasons(trials)]
    return "\n\n".join(parts)


def told(rate: float) -> str:
    """A share of the known cells, in words."""
    return f"{rate * 100:.0f} in 100" if rate else "none"


def _table(header: Sequence[str], lines: Iterable[Line]) -> str:
    """A table, with commas in its numbers."""
    rows = [[f"{cell:,}" if isinstance(cell, int) else cell for cell in line] for line in lines]
    texts = [f"| {' | '.join(row)} |" for row in [header, *rows]]
    texts.insert(1, "|" + "---|" * len(header))
    return "\n".join(texts)


def _registries(trials: Iterable[Trial]) -> str:
    header = (
        "Registry", "Rows of its masters", "Known", "Keys", "Keys of several rows", "Keys whose rows differ", "Records",
        "Cells that are not known", "Lines of a plain join",
    )
    return _table(header, (
        (
            trial.registry.title,
            ", ".join(f"{name} {len(master.rows):,}" for name, master in trial.registry.masters.items()),
            ", ".join(trial.registry.known),
            len(trial.registry.rows_by_key),
            sum(len(rows) > 1 for rows in trial.registry.rows_by_key.values()),
            sum(len(set(rows)) > 1 for rows in trial.registry.rows_by_key.values()),
            len(trial.truth.rows),
            len(trial.truth.rows) * len(trial.registry.open),
            trial.plain_join_lines,
        )
        for trial in trials
    ))


def _outcomes(trials: Iterable[Trial]) -> str:
    header = (
        "Known cells not true", "Method", "Wrong before", "Mended", "Left wrong", "Another wrong text",
        "True cells broken", "Recall", "Precision",
    )
    return _table(header, (
        (
            told(trial.rate), method, score.wrong, score.mended, score.left, score.replaced, score.broken,
            _ratio(score.recall), _ratio(score.precision),
        )
        for trial in trials
        for method, score in trial.scores.items()
    ))


def _ratio(ratio: float) -> str:
    """A ratio, rounded down, so that 1.000 is said of all alone."""
    return f"{floor(ratio * 1000) / 1000:.3f}"


def _verdicts(trials: Iterable[Trial]) -> str:
    header = (
        "Registry", "Known cells not true", "Certain", "Partial", "Conflict", "Lines of conflicts",
        "Lines with the true text", "Records with an untrue known cell", "Records with a cell changed wrongly",
        "Cells changed wrongly",
    )
    return _table(header, (
        (
            trial.registry.title, told(trial.rate),
            *(trial.verdicts[verdict] for verdict in ("certain", "partial", "conflict")),
            trial.shown.total(), trial.shown[True],
            trial.is_key_true.count(False), len(trial.astray), trial.astray.total(),
        )
        for trial in trials
    ))


def _reasons(trials: Iterable[Trial]) -> str:
    reasons = (Reason.KEY, Reason.CONFLICT, Reason.BLANK)
    return _table(("Registry", "Known cells not true", *(reason.value for reason in reasons)), (
        (trial.registry.title, told(trial.rate), *(trial.reasons[reason] for reason in reasons)) for trial in trials
    ))
