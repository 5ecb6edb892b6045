"""Filters: what a text of the grammar means, and how far a text is a beginning of one.

    or = and ("," and)*     and = atom (";" atom)*     atom = "(" or ")"  or  field op value
"""
import re

from .refusals import Refused
from .texts import CONTROL, DEPTH, FILTER, LETTERS

FIELDS = ("controllerid", "name", "tag", "attribute.")
LETTER = re.compile(r"[A-Za-z0-9._-]")
BARE = re.compile(r"[A-Za-z0-9._*-]")


class Scan:
    """Reads a text letter by letter: each letter has one thing to do or none, so it goes wrong as early as can be."""

    def __init__(self):
        self.state, self.field, self.op, self.value = self.atom, "", "", ""
        # of each open parenthesis, outermost first: what stands in it so far, as alternatives of conjunctions
        self.open, self.deepest = [[[]]], 0

    def atom(self, letter):
        if letter == "(":
            self.open.append([[]])
            self.deepest = max(self.deepest, len(self.open) - 1)
            return True
        self.field, self.op, self.value, self.state = "", "", "", self.name
        return self.name(letter)

    def name(self, letter):
        if self.field in FIELDS[:3]:
            return self.operator(letter)
        self.field += letter
        if self.field == FIELDS[3]:
            self.state = self.key
        return any(it.startswith(self.field) for it in FIELDS)

    def key(self, letter):
        """The key of an attribute, a word."""
        length = len(self.field) - len(FIELDS[3])
        if LETTER.fullmatch(letter) and length < LETTERS:
            self.field += letter
            return True
        return length > 0 and self.operator(letter)

    def operator(self, letter):
        self.op, self.state = self.op + letter, self.operator
        if self.op in ("==", "!="):
            self.state = self.begin
        return self.op in ("=", "!", "==", "!=")

    def begin(self, letter):
        """The first letter of a value."""
        self.state = self.quoted if letter == '"' else self.bare
        return letter == '"' or self.bare(letter)

    def bare(self, letter):
        if BARE.fullmatch(letter):
            self.value += letter
            return True
        return bool(self.value) and self.after(letter)

    def quoted(self, letter):
        if letter == '"':
            self.state = self.after
        elif not CONTROL.fullmatch(letter):
            self.value += letter
        return letter == '"' or not CONTROL.fullmatch(letter)

    def close(self):
        """Takes the comparison that has been read, if there is one."""
        if self.op:
            self.open[-1][-1].append((self.field, self.op, self.value))
            self.op = ""

    def after(self, letter):
        self.close()
        if letter == ")" and len(self.open) > 1:
            inner = self.open.pop()
            self.open[-1][-1].append(inner)
            self.state = self.after
            return True
        if letter == ",":
            self.open[-1].append([])
        self.state = self.atom
        return letter in (",", ";")

    def is_whole(self):
        ends = self.state == self.after or self.state == self.bare and self.value
        return bool(ends) and len(self.open) == 1


def read(text):
    """The tree of a filter: alternatives of conjunctions of comparisons and of further trees."""
    if len(text.encode()) > FILTER:
        raise Refused(11, f"the filter has {len(text.encode())} bytes")
    scan, at = Scan(), 0
    for letter in text:
        if not scan.state(letter):
            raise Refused(11, f"the filter goes wrong at byte {at}")
        at += len(letter.encode())
    if not scan.is_whole():
        raise Refused(11, f"the filter isn't whole: it ends at byte {at}")
    if scan.deepest > DEPTH:
        raise Refused(11, f"parentheses nest {scan.deepest} deep")
    scan.close()
    return scan.open[0]


def matches_pattern(pattern, text):
    """Whether a text is the pieces between the `*` in order, with some text, perhaps empty, in each place of a `*`."""
    first, *rest = pattern.split("*")
    if not rest:
        return text == first
    if not text.startswith(first):
        return False
    text, last = text[len(first) :], rest.pop()
    for piece in rest:
        before, found, text = text.partition(piece) if piece else ("", "*", text)
        if not found:
            return False
    return text.endswith(last)


def holds(comparison, target):
    field, op, value = comparison
    if field == "tag":
        is_so = any(matches_pattern(value, it) for it in target["tags"])
    elif field.startswith(FIELDS[3]):
        key = field[len(FIELDS[3]) :]
        is_so = key in target["attributes"] and matches_pattern(value, target["attributes"][key])
    else:
        is_so = matches_pattern(value, target["id" if field == "controllerid" else "name"])
    return is_so == (op == "==")


def matches(tree, target):
    """What a filter means at a target."""
    return any(
        all(holds(it, target) if isinstance(it, tuple) else matches(it, target) for it in each)
        for each in tree
    )
