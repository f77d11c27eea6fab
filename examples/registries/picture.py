"""The picture of an evaluation: bars, in SVG."""

from __future__ import annotations

from collections.abc import Iterator, Sequence
from itertools import groupby

from reporting import told
from scoring import Score, Trial

_WIDTH = 820  # of the picture
_TOP = 84  # where the first registry begins
_ROW = 22  # from a bar to the next; a registry takes five
_MARGIN = 12  # left of the names
_LEFT = 140  # where the bars of the first rate begin
_COLUMN = 345  # from there to the bars of the second
_LONGEST = 270  # of the bars

_RED = "#c4312b"
_COLORS = {"mended": "#0b5fa5", "left wrong": "#c8c8c8", "changed wrongly, and how many cells": _RED}


def draw(trials: Sequence[Trial]) -> str:
    """Bars of the wrong cells by registry and method, at the least and at the greatest rate of the trials."""
    rates = (min(trial.rate for trial in trials), max(trial.rate for trial in trials))
    shown = [trial for trial in trials if trial.rate in rates]
    scale = _LONGEST / max(1, *(sum(_lengths(score)) for trial in shown for score in trial.scores.values()))
    registries = [list(group) for _, group in groupby(shown, key=lambda trial: trial.registry.title)]
    lines = list(_head(_TOP + len(registries) * 5 * _ROW, rates))
    for place, of_registry in enumerate(registries):
        lines += _bars(_TOP + place * 5 * _ROW, of_registry, scale)
    return "\n".join([*lines, "</svg>\n"])


def _lengths(score: Score) -> tuple[int, int, int]:
    """The lengths of the parts of a bar, in cells."""
    return score.mended, score.left, score.changed_wrongly


def _head(height: int, rates: Sequence[float]) -> Iterator[str]:
    """What stands above the bars: what they are, the colors, and how many known cells are not true."""
    yield (
        f'<svg xmlns="http://www.w3.org/2000/svg" viewBox="0 0 {_WIDTH} {height}" width="{_WIDTH}" height="{height}" '
        'role="img" aria-labelledby="title text" font-family="sans-serif" font-size="14" fill="#111111">'
    )
    yield '<title id="title">Wrong cells, by registry and method</title>'
    yield (
        '<desc id="text">For each registry and method a bar shows how many wrong cells were mended, how many were left '
        "as they were typed, and how many cells were changed wrongly. The number after it is that of cells changed "
        "wrongly.</desc>"
    )
    yield f'<rect width="{_WIDTH}" height="{height}" fill="#ffffff"/>'
    for place, (words, color) in enumerate(_COLORS.items()):
        x = _LEFT + place * 120
        yield f'<rect x="{x}" y="16" width="14" height="14" fill="{color}"/><text x="{x + 22}" y="28">{words}</text>'
    for place, rate in enumerate(rates):
        yield f'<text x="{_LEFT + place * _COLUMN}" y="62" font-weight="bold">Known cells not true: {told(rate)}</text>'


def _bars(y: int, trials: Sequence[Trial], scale: float) -> Iterator[str]:
    """The bars of a registry, a column for each trial."""
    yield f'<text x="{_MARGIN}" y="{y + 15}" font-weight="bold">{trials[0].registry.title}</text>'
    for row, method in enumerate(trials[0].scores, 1):
        yield f'<text x="{_MARGIN}" y="{y + row * _ROW + 13}">{method}</text>'
        for column, trial in enumerate(trials):
            yield from _bar(_LEFT + column * _COLUMN, y + row * _ROW, trial.scores[method], scale)


def _bar(x: float, y: int, score: Score, scale: float) -> Iterator[str]:
    """The parts of a bar from the left, and how many cells were changed wrongly."""
    for length, color in zip(_lengths(score), _COLORS.values()):
        if length:
            yield f'<rect x="{x:.1f}" y="{y}" width="{length * scale:.1f}" height="16" fill="{color}"/>'
        x += length * scale
    yield f'<text x="{x + 6:.1f}" y="{y + 13}" fill="{_RED}">{score.changed_wrongly:,}</text>'
