"""The two methods that fixdesk_clean is compared with: each takes typed records, and gives them back cleaned."""

from __future__ import annotations

import sqlite3
from collections import Counter, defaultdict
from contextlib import closing

from registries import Registry
from sheets import Row, Sheet


def by_join(registry: Registry, dirty: Sheet) -> Sheet:
    """Runs the registry's look-up join in SQLite, where a blank is NULL."""
    with closing(sqlite3.connect(":memory:")) as database:
        for name, sheet in {"dirty": dirty, **registry.masters}.items():
            _load(database, name, sheet)
        rows = database.execute(registry.join).fetchall()
    return Sheet(dirty.columns, [tuple(text or "" for text in row) for row in rows])


def _load(database: sqlite3.Connection, name: str, sheet: Sheet) -> None:
    """Makes a table of the sheet."""
    columns = ", ".join(f'"{column}" TEXT' for column in sheet.columns)
    marks = ", ".join("?" for _ in sheet.columns)
    database.execute(f'CREATE TABLE "{name}" ({columns})')
    database.executemany(
        f'INSERT INTO "{name}" VALUES ({marks})', ([text or None for text in row] for row in sheet.rows)
    )


def by_vote(registry: Registry, dirty: Sheet) -> Sheet:
    """Gives each cell the most frequent text of the records with its key, without any master.

    A blank is a text as any other, but no key. A cell stays as it was typed where no text is more frequent.
    """
    places = dirty.places(registry.open)
    keys = registry.keys(dirty)
    votes: defaultdict[tuple[Row, int], Counter[str]] = defaultdict(Counter)
    for key, row in zip(keys, dirty.rows):
        if all(key):
            for place in places:
                votes[key, place][row[place]] += 1

    def voted(key: Row, place: int, text: str) -> str:
        counts = votes[key, place]
        return max((text, *counts), key=counts.__getitem__)

    return Sheet(
        dirty.columns,
        [tuple(voted(key, place, text) for place, text in enumerate(row)) for key, row in zip(keys, dirty.rows)],
    )
