"""Slips of the kinds that people make as they key a record."""

from __future__ import annotations

import string
from collections.abc import Iterable, Sequence
from dataclasses import dataclass
from random import Random

from sheets import Sheet

_ALPHABETS = (string.digits, string.ascii_uppercase, string.ascii_lowercase)


def spoil(records: Sheet, attributes: Iterable[str], rate: float, random: Random) -> Sheet:
    """The records with slips in this share of the cells of these attributes."""
    typists = {
        place: Typist(random, [row[place] for row in records.rows]) for place in records.places(attributes)
    }

    def typed(place: int, text: str) -> str:
        if place in typists and random.random() < rate:
            return typists[place].slip(text)
        return text

    return Sheet(
        records.columns, [tuple(typed(place, text) for place, text in enumerate(row)) for row in records.rows]
    )


@dataclass(frozen=True)
class Typist:
    """Someone who keys the texts of a column, and makes slips."""

    random: Random
    texts: Sequence[str]

    def slip(self, text: str) -> str:
        """Another text than this one, by a slip of any kind.

        In place of a blank the text of another record is keyed, which may be blank too.
        """
        if not text:
            return self._from_another(text)
        kinds = (
            self._substituted, self._dropped, self._doubled, self._swapped, self._recased, self._blanked,
            self._from_another,
        )
        while (slipped := self.random.choice(kinds)(text)) == text:
            pass
        return slipped

    def _substituted(self, text: str) -> str:
        """A character is another one of its alphabet; one of no alphabet is a small letter."""
        place = self.random.randrange(len(text))
        alphabet = next((letters for letters in _ALPHABETS if text[place] in letters), string.ascii_lowercase)
        return text[:place] + self.random.choice(alphabet) + text[place + 1:]

    def _dropped(self, text: str) -> str:
        """A character is left out."""
        place = self.random.randrange(len(text))
        return text[:place] + text[place + 1:]

    def _doubled(self, text: str) -> str:
        """A character stands twice."""
        place = self.random.randrange(len(text))
        return text[:place] + text[place] + text[place:]

    def _swapped(self, text: str) -> str:
        """A character and the one before it have changed places."""
        place = self.random.randrange(len(text))
        before = text[:place]
        return before[:-1] + text[place] + before[-1:] + text[place + 1:]

    def _recased(self, text: str) -> str:
        """All letters are small, or all are capitals."""
        return self.random.choice((text.lower(), text.upper()))

    def _blanked(self, _text: str) -> str:
        """The cell is left blank."""
        return ""

    def _from_another(self, _text: str) -> str:
        """The cell of another record."""
        return self.random.choice(self.texts)
