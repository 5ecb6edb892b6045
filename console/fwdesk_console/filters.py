"""Filters over devices, in the language of the desk's `q`: what a text means, told of devices as the console keeps them.

    any = all ("," all)*     all = atom (";" atom)*     atom = "(" any ")"  or  field op value

The desk alone decides what a filter is, and which devices a rollout gets. This only spares it the orders that it doesn't
have: tests/unit/console/test_filters.py compares it with the reference model, tests/e2e/console/test_filters.py with the desk."""
import re
from collections.abc import Callable
from dataclasses import dataclass
from typing import Any

Json = dict[str, Any]
LONGEST = 512  # bytes of UTF-8
DEEPEST = 16  # parentheses
WORD = r"[A-Za-z0-9._-]{1,64}"
COMPARISON = re.compile(
    rf"(?:(controllerid|name|tag)|attribute\.({WORD}))(==|!=)"
    r'(?:([A-Za-z0-9._*-]+)|"([^"\x00-\x1f\x7f]*)")'
)


class NoFilter(Exception):
    """The text is no filter; the words say why."""


@dataclass(frozen=True)
class Pattern:
    """Pieces between stars: a text is these in order, with some text, perhaps empty, in the place of each star."""

    pieces: tuple[str, ...]

    def matches(self, text: str) -> bool:
        first, *middle = self.pieces
        if not middle:
            return text == first
        last = middle.pop()
        end = len(text) - len(last)
        if len(first) > end or not text.startswith(first) or not text.endswith(last):
            return False
        at = len(first)
        for piece in middle:
            found = text.find(piece, at, end)
            if found < 0:
                return False
            at = found + len(piece)
        return True


@dataclass(frozen=True)
class OfText:
    """A comparison of the id or the name; `key` is the console's."""

    key: str
    pattern: Pattern
    is_equal: bool

    def matches(self, device: Json) -> bool:
        return self.pattern.matches(device[self.key]) == self.is_equal


@dataclass(frozen=True)
class OfTag:
    """Whether some tag matches, or none does."""

    pattern: Pattern
    is_equal: bool

    def matches(self, device: Json) -> bool:
        return any(map(self.pattern.matches, device["tags"])) == self.is_equal


@dataclass(frozen=True)
class OfAttribute:
    """An attribute that isn't there equals nothing."""

    key: str
    pattern: Pattern
    is_equal: bool

    def matches(self, device: Json) -> bool:
        value = device["attributes"].get(self.key)
        return (value is not None and self.pattern.matches(value)) == self.is_equal


@dataclass(frozen=True)
class AllOf:
    parts: tuple["Filter", ...]

    def matches(self, device: Json) -> bool:
        return all(it.matches(device) for it in self.parts)


@dataclass(frozen=True)
class AnyOf:
    parts: tuple["Filter", ...]

    def matches(self, device: Json) -> bool:
        return any(it.matches(device) for it in self.parts)


Filter = OfText | OfTag | OfAttribute | AllOf | AnyOf


class Reader:
    """Reads a text from its beginning; each method takes what it is named after."""

    def __init__(self, text: str):
        self.text, self.at = text, 0

    def takes(self, mark: str) -> bool:
        is_there = self.text.startswith(mark, self.at)
        self.at += is_there
        return is_there

    def several(self, mark: str, one: Callable[[], Filter]) -> tuple[Filter, ...]:
        found = [one()]
        while self.takes(mark):
            found.append(one())
        return tuple(found)

    def any_of(self, depth: int) -> Filter:
        parts = self.several(",", lambda: self.all_of(depth))
        return AnyOf(parts) if len(parts) > 1 else parts[0]

    def all_of(self, depth: int) -> Filter:
        parts = self.several(";", lambda: self.atom(depth))
        return AllOf(parts) if len(parts) > 1 else parts[0]

    def atom(self, depth: int) -> Filter:
        if not self.takes("("):
            return self.comparison()
        if depth == DEEPEST:
            raise NoFilter(f"its parentheses nest more than {DEEPEST} deep")
        inner = self.any_of(depth + 1)
        if not self.takes(")"):
            raise NoFilter(f"a parenthesis isn't closed at character {self.at}")
        return inner

    def comparison(self) -> Filter:
        found = COMPARISON.match(self.text, self.at)
        if not found:
            raise NoFilter(f"no comparison begins at character {self.at}")
        self.at = found.end()
        field, key, operator, bare, quoted = found.groups()
        pattern = Pattern(tuple((bare or quoted or "").split("*")))
        is_equal = operator == "=="
        if field is None:
            return OfAttribute(key, pattern, is_equal)
        if field == "tag":
            return OfTag(pattern, is_equal)
        return OfText("controllerId" if field == "controllerid" else field, pattern, is_equal)


def parse(text: str) -> Filter:
    """The filter that a text is, or NoFilter."""
    if len(text.encode(errors="surrogatepass")) > LONGEST:
        raise NoFilter(f"it has more than {LONGEST} bytes")
    reader = Reader(text)
    found = reader.any_of(0)
    if reader.at < len(text):
        raise NoFilter(f"it goes wrong at character {reader.at}")
    return found
