"""Reads JSON as serde_json does: strictly, 127 values deep, and of equal names the last counts."""
import re

from .refusals import Refused

SPACE = re.compile(r"[ \t\n\r]*")
NUMBER = re.compile(r"(-?)(0|[1-9][0-9]*)(?:\.([0-9]+))?(?:[eE]([+-]?)([0-9]+))?")
PLAIN = re.compile(r'[^"\\\x00-\x1f]*')
HEX = re.compile(r"[0-9A-Fa-f]{4}")
ESCAPES = {'"': '"', "\\": "\\", "/": "/", "b": "\b", "f": "\f", "n": "\n", "r": "\r", "t": "\t"}
WORDS = {"null": None, "true": True, "false": False}
DEPTH = 127
U64, I64 = 2**64 - 1, 2**63


class Bad(ValueError):
    """A text that is no JSON."""


def is_too_large(whole, fraction, exponent):
    """Whether a number is past the largest double. Digits are taken while 64 bits hold them."""
    significand = 0
    for at, digit in enumerate(whole):
        if significand * 10 + int(digit) > U64:
            exponent += len(whole) - at
            break
        significand = significand * 10 + int(digit)
    for digit in fraction:
        if significand * 10 + int(digit) > U64:
            break
        significand, exponent = significand * 10 + int(digit), exponent - 1
    if exponent < 0 or not significand:
        return False
    return exponent > 308 or float(significand) * float(f"1e{exponent}") == float("inf")


def number(found):
    """A whole number as an int; as a float what has a fraction or an exponent, or is past 64 bits, or is -0."""
    sign, whole, fraction, minus, exponent = found.groups()
    fraction = fraction or ""
    power = int((exponent or "").lstrip("0")[:10] or "0")
    if is_too_large(whole, fraction, -power if minus == "-" else power):
        raise Bad("a number is out of range")
    value = int(whole[:20])
    small = len(whole) <= 20 and (value <= I64 and value if sign else value <= U64)
    if fraction or exponent or not small:
        return 0.5
    return -value if sign else value


class Reader:
    def __init__(self, text):
        self.text, self.at = text, 0

    def space(self):
        self.at = SPACE.match(self.text, self.at).end()

    def next(self):
        """The next letter that is no space, or an empty text at the end."""
        self.space()
        return self.text[self.at : self.at + 1]

    def takes(self, letter):
        if self.next() != letter:
            return False
        self.at += 1
        return True

    def must(self, letter):
        if not self.takes(letter):
            raise Bad(f"there is no {letter} at letter {self.at}")

    def string(self):
        self.must('"')
        parts = []
        while True:
            plain = PLAIN.match(self.text, self.at)
            parts.append(plain[0])
            self.at = plain.end() + 1
            ended = self.text[plain.end() : self.at]
            if ended == '"':
                return "".join(parts)
            if ended != "\\":
                raise Bad(f"a string isn't closed at letter {plain.end()}")
            parts.append(self.escape())

    def escape(self):
        letter = self.text[self.at : self.at + 1]
        self.at += 1
        if letter in ESCAPES:
            return ESCAPES[letter]
        if letter != "u":
            raise Bad(f"no escape: {letter!r}")
        first = self.code_unit()
        if not 0xD800 <= first <= 0xDFFF:
            return chr(first)
        if first >= 0xDC00 or self.text[self.at : self.at + 2] != "\\u":
            raise Bad("a surrogate by itself")
        self.at += 2
        second = self.code_unit()
        if not 0xDC00 <= second <= 0xDFFF:
            raise Bad("a surrogate by itself")
        return chr(0x10000 + (first - 0xD800) * 0x400 + second - 0xDC00)

    def code_unit(self):
        digits = HEX.match(self.text, self.at)
        if not digits:
            raise Bad("an escape without four digits")
        self.at = digits.end()
        return int(digits[0], 16)

    def array(self, depth):
        self.must("[")
        found = []
        if self.takes("]"):
            return found
        while True:
            found.append(self.value(depth))
            if self.takes("]"):
                return found
            self.must(",")

    def object(self, depth):
        self.must("{")
        found = {}
        if self.takes("}"):
            return found
        while True:
            name = self.string()
            self.must(":")
            found[name] = self.value(depth)
            if self.takes("}"):
                return found
            self.must(",")

    def value(self, depth=0):
        letter = self.next()
        if letter in ("[", "{"):
            if depth == DEPTH:
                raise Bad("values nest too deep")
            return self.array(depth + 1) if letter == "[" else self.object(depth + 1)
        if letter == '"':
            return self.string()
        for word, meant in WORDS.items():
            if self.text.startswith(word, self.at):
                self.at += len(word)
                return meant
        found = NUMBER.match(self.text, self.at)
        if not found:
            raise Bad(f"no value at letter {self.at}")
        self.at = found.end()
        return number(found)


def read(body):
    """The value that bytes are: dict, list, str, bool, None, int, or 0.5 for whatever number isn't whole."""
    try:
        reader = Reader(body.decode("utf-8"))
        value = reader.value()
        if reader.next():
            raise Bad(f"something follows at letter {reader.at}")
        return value
    except (Bad, UnicodeDecodeError) as error:
        raise Refused(1, f"the body is no JSON: {error}") from None
