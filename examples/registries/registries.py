"""Three registries from the data of packages: their masters, true records, and what cleans records by the masters."""

from __future__ import annotations

import string
import tomllib
from collections import defaultdict
from collections.abc import Iterable, Mapping
from dataclasses import dataclass
from functools import cached_property
from pathlib import Path

from packages import entries, numbers
from sheets import Row, Sheet

_HERE = Path(__file__).parent
_SMALL_LETTERS = str.maketrans(string.ascii_uppercase, string.ascii_lowercase)


@dataclass(frozen=True)
class Registry:
    """Masters, and a true record for each row of the first of them.

    `known` has the attributes that are called right, each with the column of the first master that it is looked up in;
    `folded` those that are compared without regard to ASCII case.
    """

    name: str
    title: str
    known: Mapping[str, str]
    folded: tuple[str, ...]
    masters: Mapping[str, Sheet]
    truth: Sheet

    @property
    def schema(self) -> Path:
        """The file of the schema."""
        return _HERE / self.name / "schema.toml"

    @property
    def rules(self) -> Path:
        """The file of the rules."""
        return _HERE / self.name / "rules.txt"

    @property
    def join(self) -> str:
        """The look-up join in SQL that copies what the rules copy."""
        return (_HERE / self.name / "join.sql").read_text(encoding="utf-8")

    @property
    def open(self) -> list[str]:
        """The attributes that are not called right."""
        return [attribute for attribute in self.truth.columns if attribute not in self.known]

    @property
    def first_master(self) -> Sheet:
        """The master that the known attributes are looked up in."""
        return next(iter(self.masters.values()))

    @cached_property
    def rows_by_key(self) -> Mapping[Row, list[Row]]:
        """The rows of the first master that have each key."""
        places = self.first_master.places(self.known.values())
        rows_by_key: defaultdict[Row, list[Row]] = defaultdict(list)
        for row in self.first_master.rows:
            rows_by_key[self._key(row, places)].append(row)
        return dict(rows_by_key)

    def keys(self, records: Sheet) -> list[Row]:
        """The known cells of each record, in small letters where they are folded."""
        places = records.places(self.known)
        return [self._key(row, places) for row in records.rows]

    def _key(self, row: Row, places: Iterable[int]) -> Row:
        return tuple(
            row[place].translate(_SMALL_LETTERS) if attribute in self.folded else row[place]
            for attribute, place in zip(self.known, places)
        )


def all_registries() -> list[Registry]:
    """The registries in the order in which they are reported."""
    countries = Sheet.of(("alpha_2", "alpha_3", "numeric", "name"), entries("3166-1"))
    subdivisions = Sheet.of(("code", "name", "type", "parent", "country"), map(_subdivision, entries("3166-2")))
    return [
        _postcodes(subdivisions, countries),
        _networks(countries),
        _subdivisions(subdivisions, countries),
    ]


def _subdivision(entry: dict[str, str]) -> dict[str, str]:
    """An entry with the code of its country, and with the whole code of what it is a part of."""
    country = entry["code"].partition("-")[0]
    parent = entry.get("parent", "")
    if parent and "-" not in parent:
        parent = f"{country}-{parent}"
    return {**entry, "country": country, "parent": parent}


def _truth(name: str, records: Iterable[Mapping[str, str]]) -> Sheet:
    """The records under the attributes of the registry's schema."""
    schema = tomllib.loads((_HERE / name / "schema.toml").read_text(encoding="utf-8"))
    return Sheet.of(schema["attributes"], records)


def _postcodes(subdivisions: Sheet, countries: Sheet) -> Registry:
    """Addresses of Austria, by postcode."""
    post = Sheet.of(
        ("code", "place", "region"),
        (
            {"code": number.parts[0], "place": number.properties["location"], "region": number.properties["region"]}
            for number in numbers("at/postleitzahl")
        ),
    )
    country_of = countries.by("alpha_2")
    states = Sheet.of(
        ("code", "name", "country"), (row for row in subdivisions.records() if row["country"] == "AT")
    )
    state_of = states.by("name")

    def address(row: Mapping[str, str]) -> dict[str, str]:
        state = state_of[row["region"]]
        return {
            "postcode": row["code"],
            "place": row["place"],
            "region": row["region"],
            "region_code": state["code"],
            "country_code": state["country"],
            "country": country_of[state["country"]]["name"],
        }

    return Registry(
        name="postcodes",
        title="Postcodes of Austria",
        known={"postcode": "code"},
        folded=(),
        masters={"post": post, "states": states, "countries": countries},
        truth=_truth("postcodes", map(address, post.records())),
    )


def _networks(countries: Sheet) -> Registry:
    """Mobile networks that have an operator, by the codes of country and network."""
    networks = Sheet.of(
        ("mcc", "mnc", "operator", "brand", "status", "cc"),
        (
            {"mcc": number.parts[0], "mnc": number.parts[1], **number.properties}
            for number in numbers("imsi")
            if "operator" in number.properties
        ),
    )
    country_of = countries.by("alpha_2")

    def network(row: Mapping[str, str]) -> dict[str, str]:
        country = country_of.get(row["cc"].upper(), {})
        return {
            **row,
            "country_code": row["cc"],
            "country": country.get("name", ""),
            "alpha_3": country.get("alpha_3", ""),
        }

    return Registry(
        name="networks",
        title="Mobile networks",
        known={"mcc": "mcc", "mnc": "mnc"},
        folded=("country_code",),
        masters={"networks": networks, "countries": countries},
        truth=_truth("networks", map(network, networks.records())),
    )


def _subdivisions(subdivisions: Sheet, countries: Sheet) -> Registry:
    """Subdivisions of countries, by country and name."""
    country_of = countries.by("alpha_2")
    parent_of = subdivisions.by("code")

    def subdivision(row: Mapping[str, str]) -> dict[str, str]:
        country = country_of[row["country"]]
        return {
            **row,
            "country_code": row["country"],
            "parent_name": parent_of[row["parent"]]["name"] if row["parent"] else "",
            "country": country["name"],
            "alpha_3": country["alpha_3"],
            "numeric": country["numeric"],
        }

    return Registry(
        name="subdivisions",
        title="Subdivisions of countries",
        known={"country_code": "country", "name": "name"},
        folded=("country_code", "name"),
        masters={"subdivisions": subdivisions, "countries": countries},
        truth=_truth("subdivisions", map(subdivision, subdivisions.records())),
    )
