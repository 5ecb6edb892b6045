"""Reads the query of a request target as a form: pairs by `&`, `+` for a space, `%` and two digits for a byte."""
import re

from .refusals import must

BYTE = re.compile(rb"%([0-9A-Fa-f]{2})")
UNKNOWN = "\ufffd"


def decoded(text):
    plain = text.replace("+", " ").encode()
    return BYTE.sub(lambda it: bytes([int(it[1], 16)]), plain).decode("utf-8", errors="replace")


def read(query, keys):
    """The values of a query by their keys, of which the call names these."""
    found = {}
    for pair in filter(None, query.split("&")):
        key, value = map(decoded, pair.partition("=")[::2])
        must(UNKNOWN not in key + value, 1, f"the query isn't UTF-8: {pair[:40]}")
        must(key in keys, 1, f"the call takes no {key!r} in its query")
        must(key not in found, 1, f"{key!r} is given twice")
        found[key] = value
    return found
