"""The messages of a stream: a head, and as many bytes of a body as it says. What is at fault ends the connection."""
import re
from dataclasses import dataclass, field

from . import reference
from .reference import CLOSING, REFUSALS
from .refusals import Refused, must
from .texts import BODY, FIELDS, HEAD

TOKEN = rb"[!#$%&'*+.^_`|~0-9A-Za-z-]+"
REQUEST_LINE = re.compile(rb"(%s) (/[A-Za-z0-9/?:@._~!$&'()*+,;=%%-]*) HTTP/1\.1" % TOKEN)
FIELD = re.compile(rb"(%s):([\t \x21-\x7e\x80-\xff]*)" % TOKEN)
DIGITS = re.compile(rb"[0-9]+")

# the reason phrase of each status
REASONS = {200: "OK", 201: "Created"} | reference.REASONS


@dataclass
class Message:
    method: str
    path: str
    query: str
    # the values of the fields `authorization`
    credentials: list = field(default_factory=list)
    body: bytes = b""


def values(fields, name):
    return [value for given, value in fields if given.lower() == name]


def length_of(fields):
    """How long the body is."""
    must(not values(fields, b"transfer-encoding"), 21, "there is a Transfer-Encoding")
    lengths = values(fields, b"content-length")
    must(len(lengths) < 2, 19, "there are two Content-Length")
    must(all(DIGITS.fullmatch(it) for it in lengths), 19, "the Content-Length is no number")
    digits = (lengths or [b"0"])[0].lstrip(b"0") or b"0"
    must(
        len(digits) <= 7 and int(digits) <= BODY,
        9,
        f"a body of {digits[:20].decode()} bytes is over the limit",
    )
    return int(digits)


def fields_of(lines):
    """The request line and the fields of a head's lines."""
    must(len(lines) - 1 <= FIELDS, 20, f"the head has {len(lines) - 1} fields")
    must(
        not any(b"\r" in it or b"\n" in it for it in lines), 18, "the head has a CR or LF by itself"
    )
    asked = REQUEST_LINE.fullmatch(lines[0])
    must(asked, 18, f"no request line: {lines[0][:60]!r}")
    fields = [FIELD.fullmatch(it) for it in lines[1:]]
    wrong = [line for line, it in zip(lines[1:], fields) if not it]
    must(not wrong, 18, f"no field: {wrong and wrong[0][:60]!r}")
    return asked, [(it[1], it[2].strip(b" \t")) for it in fields]


def take(stream, at):
    """The message that begins at this place of a stream and where it ends, or None where it isn't whole."""
    end = stream.find(b"\r\n\r\n", at, at + HEAD)
    if end < 0:
        must(len(stream) - at < HEAD, 20, f"the head doesn't end within {HEAD} bytes")
        return None
    # (a head of nothing is an empty request line: its one CR LF is the end of the region, too)
    asked, fields = fields_of(stream[at:end].split(b"\r\n"))
    length, begin = length_of(fields), end + 4
    if len(stream) - begin < length:
        return None
    path, _, query = asked[2].decode().partition("?")
    body = bytes(stream[begin : begin + length])
    return (
        Message(asked[1].decode(), path, query, values(fields, b"authorization"), body),
        begin + length,
    )


def messages(stream):
    """The messages of a stream, one after the other, and at last how it ends: `input`, `cut`, or a refusal."""
    at = 0
    while at < len(stream):
        try:
            taken = take(stream, at)
        except Refused as fault:
            yield fault
            return
        if taken is None:
            yield "cut"
            return
        message, at = taken
        yield message
    yield "input"


def reply_bytes(status, body, kind="application/json", close=False):
    """The bytes of a reply."""
    lines = [
        f"HTTP/1.1 {status} {REASONS[status]}",
        f"Content-Type: {kind}",
        f"Content-Length: {len(body)}",
    ]
    lines += ["Connection: close"] if close else []
    return "".join(f"{it}\r\n" for it in [*lines, ""]).encode() + body


def refusal_bytes(refused):
    """The bytes of a refusal's reply."""
    name, status = REFUSALS[refused.number]
    line = f'"line":{refused.line},' if refused.number == 14 else ""
    body = f'{{"error":"{name}",{line}"number":{refused.number}}}'.encode()
    return reply_bytes(status, body, close=refused.number in CLOSING)
