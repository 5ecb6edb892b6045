"""Random texts for tests/differential/fuzz: values in their rules and just outside; JSON, queries, filters, CSV, heads."""
import json
import string
from urllib.parse import quote

LETTERS = string.ascii_letters + string.digits + "._-"
# what may stand in a request target as it is
PLAIN = LETTERS + "/?:@~!$'()*,;"
NAMES = (
    "app",
    "os",
    "1.0",
    "Pump 7",
    "Ünï 🚀",
    'a"b',
    "back\\slash",
    " x ",
    "name==*",
    "0",
    "é" * 64,
    "n" * 128,
)
TAGS = ("lab", "outdoor", "beta", "x", "a.b", "T-1")
KEYS = ("os", "rev", "site", "k", "a.b-c")
FILES = ("abc.bin", "empty.bin", "x.bin", "fw_1.img", "A-b.c")


class Raw(str):
    """A piece of JSON as it is."""


def word(rng, length):
    return "".join(rng.choices(LETTERS, k=length))


def words(rng, most=64):
    """A word in its rule, or just outside."""
    return rng.choice(
        (
            word(rng, 1),
            word(rng, most),
            word(rng, most + 1),
            "",
            word(rng, 3) + "/",
            "ä",
            word(rng, 2) + " ",
            "%41",
            "a\tb",
        )
    )


def text(rng):
    return rng.choice(NAMES) if rng.random() < 0.7 else word(rng, rng.choice((1, 2, 127, 128)))


def wrong_text(rng):
    return rng.choice(("", "n" * 129, "é" * 65, "a\x00", "a\nb", "\x7f", "\x1f", "🚀" * 33))


# --- JSON

ODD = (
    "null",
    "true",
    "false",
    "0",
    "-1",
    "-0",
    "1.0",
    "1e0",
    "1E1",
    "2147483647",
    "2147483648",
    "4294967295",
    "4294967296",
    "51",
    "101",
    "18446744073709551615",
    "18446744073709551616",
    "1e400",
    "1e308",
    "0e999",
    "1e-400",
    "9" * 310,
    "01",
    "+1",
    ".5",
    "1.",
    "NaN",
    "'a'",
    '""',
    '"1"',
    '"100"',
    '"101"',
    '"01"',
    '"0"',
    "[]",
    "{}",
    "[[]]",
    '[""]',
    '{"a":1}',
    "[" * 126 + "]" * 126,
    "[" * 128 + "]" * 128,
    '"\\ud800"',
    '"\\ud83d\\ude80"',
    '"\\udc00"',
    '"\\u0000"',
    '"\\u007f"',
    '"\\x"',
    '"\\/"',
    '"a\tb"',
    '"\x7f"',
    '"NEXTGROUP"',
    '"PAUSE"',
    '"merge"',
    '"THRESHOLD"',
    "tru",
    "nulL",
    "//",
    '"é"',
    "[1,]",
    '{"a":1,}',
    "1 2",
    '"\\u12"',
    "12345678901234567890.5e-3",
    "-5",
    '"' + "x" * 129 + '"',
)


def escaped(rng, found):
    """A string of JSON, some letters written as escapes."""
    if rng.random() < 0.85:
        return json.dumps(found, ensure_ascii=rng.random() < 0.3)
    units = found.encode("utf-16-be", errors="surrogatepass")
    return (
        '"'
        + "".join(f"\\u{units[at]:02x}{units[at + 1]:02X}" for at in range(0, len(units), 2))
        + '"'
    )


def as_json(rng, value, noisy=True):
    """A value as JSON, with random spaces and order, ignored members and names that come twice."""
    space = (
        (lambda: rng.choice(("", "", "", "", " ", "\n", "\t", "\r\n  "))) if noisy else lambda: ""
    )
    if isinstance(value, Raw):
        return str(value)
    if isinstance(value, dict):
        members = [(name, as_json(rng, it, noisy)) for name, it in value.items()]
        if noisy:
            rng.shuffle(members)
            if members and rng.random() < 0.08:
                members.insert(0, (rng.choice(members)[0], rng.choice(ODD[:20])))
            if rng.random() < 0.1:
                members.insert(
                    rng.randrange(len(members) + 1),
                    (rng.choice(("more", "id", "Name", "")), rng.choice(ODD)),
                )
        return (
            "{"
            + ",".join(
                f"{space()}{escaped(rng, name)}{space()}:{space()}{it}{space()}"
                for name, it in members
            )
            + "}"
        )
    if isinstance(value, list):
        return "[" + ",".join(space() + as_json(rng, it, noisy) + space() for it in value) + "]"
    return escaped(rng, value) if isinstance(value, str) else json.dumps(value)


def places(value, path=()):
    """The paths to each part of a value."""
    yield path
    parts = (
        value.items()
        if isinstance(value, dict)
        else enumerate(value)
        if isinstance(value, list)
        else ()
    )
    for key, it in parts:
        yield from places(it, (*path, key))


def mutated_value(rng, value):
    """A value with one part gone, or another one in its place: often an inner one, and often by `null`."""
    path = max(rng.choices(list(places(value)), k=2), key=len)
    odd = Raw(rng.choice(("null", *rng.choices(ODD, k=4))))
    if not path:
        return odd if rng.random() < 0.5 else [value] if rng.random() < 0.5 else [value, value]
    if isinstance(value, list):
        here = list(value)
        if len(path) > 1:
            here[path[0]] = mutated_value(rng, here[path[0]])
        elif rng.random() < 0.3:
            here += here[path[0] : path[0] + 1] * rng.choice((1, 8, 16, 100))
        else:
            here[path[0]] = odd
        return here
    here = dict(value)
    if len(path) > 1:
        here[path[0]] = mutated_value(rng, here[path[0]])
    elif rng.random() < 0.4:
        del here[path[0]]
    elif rng.random() < 0.3 and isinstance(here[path[0]], str):
        here[path[0]] = wrong_text(rng) if rng.random() < 0.7 else words(rng)
    else:
        here[path[0]] = odd
    return here


def mutated_bytes(rng, found):
    """Bytes with one gone, doubled or another one in its place, or cut."""
    if not found:
        return bytes([rng.randrange(256)])
    at, way = rng.randrange(len(found)), rng.randrange(5)
    other = bytes([rng.choice((rng.randrange(256), *b' \t\r\n",:;{}[]()\\%&=?*\x00\x7f\xff'))])
    return (
        found[:at] + found[at + 1 :],
        found[:at] + other + found[at:],
        found[:at] + other + found[at + 1 :],
        found[:at],
        found[:at] + found[at : at + 3] * 2 + found[at + 3 :],
    )[way]


# --- queries


def query(rng, pairs):
    """A query, some letters as bytes by `%`."""
    if not pairs and rng.random() < 0.9:
        return ""
    safe = PLAIN if rng.random() < 0.7 else ""
    parts = [f"{quote(key)}={quote(value, safe=safe)}" for key, value in pairs]
    if rng.random() < 0.05:
        parts.insert(rng.randrange(len(parts) + 1), "")
    return "?" + "&".join(parts)


def mutated_query(rng, found):
    odd = (
        "=",
        "a",
        "a=1",
        "offset=0",
        "limit=0",
        "limit=501",
        "limit=500",
        "offset=01",
        "offset=-1",
        "limit=",
        "offset=2147483648",
        "q=%FF",
        "%FF=1",
        "q=%EF%BF%BD",
        "limit=+5",
        "offset=%30",
        "%6Fffset=1",
        "offset=1;limit=2",
        "force=TRUE",
        "force=",
        "force=%74rue",
        "q",
        "limit=%zz",
        "filename=a/b",
        "sha256=00",
        "filename=",
        "offset=2147483647",
        "q=%F0%9F%9A%80",
        "?",
        "&",
        "force=true&force=true",
    )
    parts = [*found[1:].split("&"), *rng.choices(odd, k=rng.choice((1, 1, 2)))]
    if rng.random() < 0.2:
        parts.append(rng.choice(parts))
    rng.shuffle(parts)
    return "?" + "&".join(parts)


# --- filters


def pattern(rng, known):
    found = rng.choice((*known, "*", rng.choice(TAGS), "dev-*", word(rng, 2)))
    at = rng.randrange(len(found) + 1)
    return rng.choice(
        (
            found,
            found,
            found[:at] + "*",
            "*" + found[at:],
            found[:at] + "*" + found[at + 1 :],
            found[:at] + "**" + found[at:],
            found.swapcase(),
        )
    )


def comparison(rng, known):
    field = rng.choice(("controllerid", "name", "name", "tag", f"attribute.{rng.choice(KEYS)}"))
    value = pattern(rng, known)
    if rng.random() < 0.25 or set(value) - set(LETTERS + "*"):
        value = '"' + value.replace('"', "") + '"'
    return f"{field}{rng.choice(('==', '==', '!='))}{value}"


def a_filter(rng, known, depth=0):
    """A filter of the grammar, which often holds."""
    if depth == 0 and rng.random() < 0.5:
        return rng.choice(("name==*", "controllerid==*", "tag!=zz", "name!=zz"))
    parts = []
    for _ in range(rng.choice((1, 1, 2, 3))):
        inner = depth < 3 and rng.random() < 0.3
        parts.append(f"({a_filter(rng, known, depth + 1)})" if inner else comparison(rng, known))
    return "".join(it + rng.choice((";", ",")) for it in parts)[:-1]


def mutated_filter(rng, found):
    at = rng.randrange(len(found) + 1)
    deep = rng.choice((1, 15, 16, 17))
    if rng.random() < 0.15:
        return "(" * deep + found + ")" * deep
    return rng.choice(
        (
            found[:at],
            found[:at] + rng.choice(" ()=!;,\"*'é\x7f<") + found[at:],
            found[:at] + found[at + 1 :],
            "(" * deep + found + ")" * (deep - 1),
            "",
            'name==""',
            "tag==",
            "attribute.==x",
            f"attribute.{'k' * 65}==x",
            f"attribute.{'k' * 64}!=x",
            f"name=={'x' * 507}",
            f"name=={'*' * 506}",
            f'name=="{"é" * 252}"',
            "Name==x",
            "name=x",
            "name===x",
            "name==*;",
            ",name==*",
            "name!==x",
            "tag==a)(tag==b",
        )
    )


# --- files of targets


def csv_line(rng, row):
    """A record, some fields in quotes."""
    quoted = [
        '"' + it.replace('"', '""') + '"' if rng.random() < 0.2 or set(it) & set('",\r\n') else it
        for it in row
    ]
    return ",".join(quoted) + rng.choice(("\n", "\n", "\n", "\r\n", "\r", "\n\n"))


def csv_file(rng, rows):
    lines = [
        csv_line(rng, ("controllerid", "name", "token", "tags")),
        *(csv_line(rng, it) for it in rows),
    ]
    mark = "\ufeff" if rng.random() < 0.1 else ""
    return (mark + "".join(lines)).encode().rstrip(b"\r\n") + b"\n"


def mutated_rows(rng, rows):
    if not rows:
        return [("a", "b", "c")]
    at = rng.randrange(len(rows))
    name, title, token, tags = rows[at]
    other = rng.choice(
        (
            (name, title, token),
            (name, title, token, tags, ""),
            (words(rng), title, token, tags),
            (name, wrong_text(rng), token, tags),
            (name, title, token[:7], tags),
            (name, title, token + "x" * 60, tags),
            (name, title, token, " lab"),
            (name, title, token, "a  b"),
            (name, title, token, "lab lab"),
            (name, title, token, " ".join(f"t{it}" for it in range(rng.choice((16, 17))))),
            ("",),
            (rows[0][0], title, token, tags),
            (name, title, token, "lab "),
        )
    )
    return [*rows[:at], other, *rows[at + 1 :]]


# --- heads

FORMS = (
    b" folded: x",
    b"no colon",
    b": x",
    b"a b: c",
    b"a : c",
    b"x: \x00",
    b"x: \x7f",
    b"x: \xc3\xa9\t\x80",
    b"x:\t a \t",
    b"x(y): z",
    b"x: a\nb",
    b"x: a\rb",
    b"Expect: 100-continue",
    b"Connection: close",
    b"~!#$%&'*+.^_`|: x",
    b"authorization: x",
)
CODINGS = (b"Transfer-Encoding: chunked", b"transfer-encoding:", b"TRANSFER-ENCODING: identity")
LENGTHS = (
    b"+3",
    b"+0",
    b"-3",
    b"\t3 ",
    b"",
    b"1 2",
    b"3,3",
    b"3\r\ncontent-length: 3",
    b"3\r\nContent-Length: 99999999",
    b"0x3",
    b"1_0",
    b"3.0",
    b"0" * 20,
    b"0" * 20 + b"3",
    b"4194304",
    b"4194305",
    b"9999999",
    b"9" * 20,
)
VERSIONS = (b" HTTP/1.0", b" HTTP/1.1 ", b"", b" http/1.1", b" HTTP/2", b"\tHTTP/1.1")
METHODS = (b"", b"G(ET", b" GET", b"get", b"GE\tT", b"~")
HEAD = 8_192


def with_field(rng, head, field):
    """A head with one more field somewhere."""
    line, *fields = head[:-4].split(b"\r\n")
    fields.insert(rng.randrange(len(fields) + 1), field)
    return b"\r\n".join([line, *fields, b"", b""])


def mutated_line(rng, head):
    line, rest = head.split(b"\r\n", 1)
    method, target, _ = line.split(b" ", 2)
    targets = (
        b"http://a" + target,
        b"*",
        target + b"#x",
        target + b"[x]",
        target + b"\xc3\xa9",
        target + b'"',
        b"",
        target + b"^",
        target + b"//",
    )
    return rng.choice(
        (
            method + b"  " + target + b" HTTP/1.1\r\n" + rest,
            method + b" " + target + rng.choice(VERSIONS) + b"\r\n" + rest,
            method + b" " + rng.choice(targets) + b" HTTP/1.1\r\n" + rest,
            rng.choice(METHODS) + b" " + target + b" HTTP/1.1\r\n" + rest,
            b"\r\n" + head,
            head.replace(b"\r\n", b"\n", 1),
        )
    )


def mutated_form(rng, head):
    return with_field(rng, head, rng.choice(FORMS))


def mutated_coding(rng, head):
    return with_field(rng, head, rng.choice(CODINGS))


def mutated_length(rng, head):
    """Another length, mostly in place of the one that is there."""
    if rng.random() < 0.8:
        lines = head.split(b"\r\n")
        head = b"\r\n".join(it for it in lines if not it.lower().startswith(b"content-length"))
    name = rng.choice((b"Content-Length", b"content-length", b"CONTENT-length"))
    return with_field(rng, head, name + b": " + rng.choice(LENGTHS))


def mutated_size(rng, head):
    """As many fields as there may be, or as many bytes, and some more."""
    if rng.random() < 0.5:
        return with_field(rng, head, b"\r\n".join([b"x: y"] * rng.choice((29, 30, 31, 32, 33))))
    left = HEAD - len(head) - len(b"x: \r\n") + rng.choice((-1, 0, 1, 2, 900))
    return with_field(rng, head, b"x: " + b"y" * max(0, left))


# (what mutates the line comes first, since the others look for it)
FAULTS = (mutated_line, mutated_form, mutated_length, mutated_coding, mutated_size, mutated_bytes)


def mutated_head(rng, head):
    """The bytes of a head against its form or just within, sometimes in two places."""
    for fault in sorted(rng.sample(FAULTS, rng.choice((1, 1, 2))), key=FAULTS.index):
        head = fault(rng, head)
    return head


def ignored_fields(rng):
    """Fields that nobody looks at."""
    return rng.choices(
        (
            "Host: localhost",
            "User-Agent: x",
            "Accept: */*",
            "Connection: close",
            "X-Y:",
            "expect: 100-continue",
            "Range: bytes=0-0",
            "a: \t b \t",
            "Content-Type: text/plain",
        ),
        k=rng.choice((0, 0, 0, 1, 2)),
    )
