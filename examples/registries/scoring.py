"""Trials of the methods, and what became of the cells in them."""

from __future__ import annotations

from collections import Counter
from collections.abc import Iterator
from dataclasses import dataclass
from enum import Enum
from functools import cached_property

from registries import Registry
from running import Cleaned
from sheets import Sheet

Change = tuple[str, str, str, str]
"""The number of a record from 1, the attribute, the text that was typed, and the text now."""


@dataclass(frozen=True, slots=True)
class Cell:
    """An open cell of a record: what is true, what was typed, and what it is after a method."""

    record: int
    true: str
    typed: str
    cleaned: str

    @property
    def is_changed_wrongly(self) -> bool:
        """It was changed, and is not true."""
        return self.cleaned not in (self.true, self.typed)

    @property
    def is_left_wrong(self) -> bool:
        """It was wrong, and was not changed."""
        return self.cleaned == self.typed != self.true


@dataclass(frozen=True)
class Score:
    """How many cells came to what."""

    wrong: int
    mended: int
    left: int
    replaced: int
    broken: int

    @classmethod
    def of(cls, cells: list[Cell]) -> Score:
        """Counts the cells, by their bytes."""
        return cls(
            wrong=sum(cell.typed != cell.true for cell in cells),
            mended=sum(cell.typed != cell.true == cell.cleaned for cell in cells),
            left=sum(cell.is_left_wrong for cell in cells),
            replaced=sum(cell.is_changed_wrongly and cell.typed != cell.true for cell in cells),
            broken=sum(cell.is_changed_wrongly and cell.typed == cell.true for cell in cells),
        )

    @property
    def changed_wrongly(self) -> int:
        """The cells that were changed and are not true."""
        return self.replaced + self.broken

    @property
    def recall(self) -> float:
        """The share of the wrong cells that were mended."""
        return self.mended / self.wrong if self.wrong else 1.0

    @property
    def precision(self) -> float:
        """The share of the changed cells that were mended."""
        changed = self.mended + self.changed_wrongly
        return self.mended / changed if changed else 1.0


class Reason(Enum):
    """Why fixdesk_clean left a wrong cell as it was typed."""

    KEY = "A known cell is not true"
    CONFLICT = "Conflict"
    BLANK = "The true text is blank"
    NONE = "None of these"


@dataclass(frozen=True)
class Trial:
    """Records of a registry with slips in a share of their known cells, and how each method cleaned them."""

    registry: Registry
    rate: float
    truth: Sheet
    dirty: Sheet
    fixdesk: Cleaned
    join: Sheet
    vote: Sheet

    @property
    def methods(self) -> dict[str, Sheet]:
        """What each method made of the records, by its name in tables."""
        return {"Fixdesk": self.fixdesk.records, "look-up join": self.join, "most frequent": self.vote}

    @cached_property
    def scores(self) -> dict[str, Score]:
        """The score of each method."""
        return {method: Score.of(list(self.cells(cleaned))) for method, cleaned in self.methods.items()}

    @cached_property
    def is_key_true(self) -> list[bool]:
        """Of each record whether its known cells are true."""
        places = self.truth.places(self.registry.known)
        return [
            all(typed[place] == true[place] for place in places)
            for true, typed in zip(self.truth.rows, self.dirty.rows)
        ]

    @cached_property
    def plain_join_lines(self) -> int:
        """How many lines a join has that takes every row of the first master with the key of a record."""
        rows_by_key = self.registry.rows_by_key
        return sum(len(rows_by_key.get(key, ())) or 1 for key in self.registry.keys(self.dirty))

    @cached_property
    def verdicts(self) -> Counter[str]:
        """How many records have each verdict of fixdesk_clean."""
        return Counter(self.fixdesk.verdicts)

    @cached_property
    def astray(self) -> Counter[int]:
        """How many cells fixdesk_clean changed wrongly in each record in which it did."""
        return Counter(cell.record for cell in self.cells(self.fixdesk.records) if cell.is_changed_wrongly)

    @cached_property
    def reasons(self) -> Counter[Reason]:
        """Why fixdesk_clean left how many wrong cells."""
        return Counter(self._reason(cell) for cell in self.cells(self.fixdesk.records) if cell.is_left_wrong)

    @cached_property
    def shown(self) -> Counter[bool]:
        """On how many lines of the sheet of conflicts one of the two texts is true, and on how many neither is."""
        true = self.truth.records()
        return Counter(
            true[int(line["row"]) - 1][line["attribute"]] in (line["first"], line["second"])
            for line in self.fixdesk.conflicts.records()
        )

    def _reason(self, cell: Cell) -> Reason:
        if not self.is_key_true[cell.record]:
            return Reason.KEY
        if self.fixdesk.verdicts[cell.record] == "conflict":
            return Reason.CONFLICT
        return Reason.NONE if cell.true else Reason.BLANK

    def cells(self, cleaned: Sheet) -> Iterator[Cell]:
        """The open cells after a method."""
        places = self.truth.places(self.registry.open)
        rows = zip(self.truth.rows, self.dirty.rows, cleaned.rows, strict=True)
        for record, (true, typed, now) in enumerate(rows):
            for place in places:
                yield Cell(record, true[place], typed[place], now[place])

    def faults(self) -> Iterator[str]:
        """Where fixdesk_clean did not do what is claimed of it."""
        broken = sum(cells for record, cells in self.astray.items() if self.is_key_true[record])
        if broken:
            yield f"{broken} cells were changed wrongly in records whose known cells are true"
        if self.reasons[Reason.NONE]:
            yield f"{self.reasons[Reason.NONE]} wrong cells were left for no reason"
        done = self._done()
        if self._told() != done:
            yield "the sheet of changes does not tell what was changed"
        if any(attribute in self.registry.known for _, attribute, _, _ in done):
            yield "a known cell was changed"
        for record, verdict in enumerate(self.fixdesk.verdicts):
            if verdict == "conflict" and self.fixdesk.records.rows[record] != self.dirty.rows[record]:
                yield f"record {record + 1} has a conflict, and was changed"

    def _told(self) -> list[Change]:
        """What the sheet of changes tells."""
        lines = self.fixdesk.changes.records()
        return [(line["row"], line["attribute"], line["typed"], line["fixed"]) for line in lines]

    def _done(self) -> list[Change]:
        """What differs between the records as typed and as cleaned."""
        return [
            (str(record), attribute, typed, cleaned)
            for record, rows in enumerate(zip(self.dirty.rows, self.fixdesk.records.rows), 1)
            for attribute, typed, cleaned in zip(self.dirty.columns, *rows)
            if typed != cleaned
        ]
