"""The tables of docs/reference, read and checked: the refusals and the limits of the server. Not run by itself."""
import re
import tomllib
from collections import Counter
from dataclasses import dataclass, field
from pathlib import Path
from typing import Any

ROOT = Path(__file__).resolve().parents[2]
FOLDER = ROOT / "docs/reference"
NAMED = re.compile(r"<(\w+)>")
# what a row of a table has, and what it may have
REQUIRED = {"number", "name", "variant", "status", "when", "words", "german"}
OPTIONAL = {"ends"}


class BadTable(Exception):
    """A table isn't in its form; the words say where."""


@dataclass(frozen=True)
class Refusal:
    """A row of the refusals; numbers of limits are filled in."""

    number: int
    name: str
    variant: str
    status: int
    when: str
    words: str
    german: str
    ends: bool = False

    @property
    def told(self) -> str:
        """When the server refuses so, and that the connection ends, if it does."""
        return f"{self.when}; the connection ends" if self.ends else self.when


@dataclass(frozen=True)
class Limits:
    """The numbers by their names, the rows of the page, and the places in the OpenAPI description."""

    numbers: dict[str, int]
    rows: list[tuple[str, str]]
    openapi: dict[str, str]

    def fill(self, text: str, mark: str = ",") -> str:
        """A text with the numbers in place of their names, with a mark between their thousands."""
        return NAMED.sub(lambda it: f"{self.number(it[1]):,}".replace(",", mark), text)

    def number(self, name: str) -> int:
        if name not in self.numbers:
            raise BadTable(f"there is no limit {name}")
        return self.numbers[name]


@dataclass(frozen=True)
class Reference:
    refusals: list[Refusal]
    reasons: dict[int, str]
    limits: Limits
    # the words of HAProxy's own refusals, in German by the English ones
    proxy: dict[str, str] = field(default_factory=dict)


def read_limits(text: str) -> Limits:
    table = tomllib.loads(text)
    numbers = table["limits"]
    for name, number in numbers.items():
        if type(number) is not int or number < 1:
            raise BadTable(f"the limit {name} is {number!r}, and no number from 1 on")
    rows = [(it["of"], it["limit"]) for it in table.get("row", ())]
    limits = Limits(numbers, rows, table.get("openapi", {}))
    return Limits(numbers, [(of, limits.fill(it)) for of, it in rows], limits.openapi)


def read_refusals(text: str, limits: Limits) -> tuple[list[Refusal], dict[int, str]]:
    """The rows in the order of their numbers, and the reason phrase of each status."""
    table = tomllib.loads(text)
    reasons = {int(status): reason for status, reason in table["reasons"].items()}
    refusals = [read_row(row, limits) for row in table["refusal"]]
    for at, it in enumerate(refusals, 1):
        if it.number != at:
            raise BadTable(f"refusal {it.name} has the number {it.number}, and is row {at}")
        if it.status not in reasons:
            raise BadTable(f"refusal {it.name}: status {it.status} has no reason phrase")
    for key in ("name", "variant"):
        twice = [it for it, n in Counter(getattr(it, key) for it in refusals).items() if n > 1]
        if twice:
            raise BadTable(f"two refusals have the {key} {twice[0]}")
    return refusals, reasons


def read_row(row: dict[str, Any], limits: Limits) -> Refusal:
    name = row.get("name", "without a name")
    if missing := REQUIRED - row.keys():
        raise BadTable(f"refusal {name} has no {', '.join(sorted(missing))}")
    if more := row.keys() - REQUIRED - OPTIONAL:
        raise BadTable(f"refusal {name}: {', '.join(sorted(more))} isn't known")
    filled = dict(row)
    for key in ("when", "words"):
        filled[key] = limits.fill(row[key])
    filled["german"] = limits.fill(row["german"], ".")
    if NAMED.findall(row["words"]) != NAMED.findall(row["german"]):
        raise BadTable(f"refusal {name}: words and german name other limits")
    return Refusal(**filled)


def read_reference(folder: Path = FOLDER) -> Reference:
    limits = read_limits((folder / "limits.toml").read_text(encoding="utf-8"))
    text = (folder / "refusals.toml").read_text(encoding="utf-8")
    refusals, reasons = read_refusals(text, limits)
    return Reference(refusals, reasons, limits, tomllib.loads(text).get("proxy", {}))
