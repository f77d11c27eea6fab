"""Rows of texts under named columns, and their CSV files."""

from __future__ import annotations

import csv
from collections.abc import Iterable, Mapping
from dataclasses import dataclass
from pathlib import Path

Row = tuple[str, ...]


@dataclass(frozen=True)
class Sheet:
    """Rows of texts under named columns."""

    columns: tuple[str, ...]
    rows: list[Row]

    @classmethod
    def of(cls, columns: Iterable[str], records: Iterable[Mapping[str, str]]) -> Sheet:
        """The texts of each record under these columns; what a record lacks is blank."""
        columns = tuple(columns)
        return cls(columns, [tuple(record.get(column, "") for column in columns) for record in records])

    @classmethod
    def parse(cls, text: Iterable[str]) -> Sheet:
        """The sheet in the lines of a CSV text that has a header."""
        lines = csv.reader(text)
        return cls(tuple(next(lines)), [tuple(line) for line in lines])

    @classmethod
    def read(cls, path: Path) -> Sheet:
        """The sheet in a CSV file that has a header."""
        with path.open(encoding="utf-8", newline="") as file:
            return cls.parse(file)

    def write(self, path: Path) -> None:
        """Writes the sheet to a CSV file that has a header."""
        with path.open("w", encoding="utf-8", newline="") as file:
            writer = csv.writer(file, lineterminator="\n")
            writer.writerow(self.columns)
            writer.writerows(self.rows)

    def places(self, columns: Iterable[str]) -> list[int]:
        """Where these columns stand, from 0."""
        return [self.columns.index(column) for column in columns]

    def records(self) -> list[dict[str, str]]:
        """Each row as its texts by column."""
        return [dict(zip(self.columns, row, strict=True)) for row in self.rows]

    def by(self, column: str) -> dict[str, dict[str, str]]:
        """The records by their text in a column in which no text stands twice."""
        return {record[column]: record for record in self.records()}
