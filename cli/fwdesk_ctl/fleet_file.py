"""A file of targets, read by the server's own rules: which of its records the server would refuse, and why each."""
import csv
import io
import re
from collections import Counter
from dataclasses import dataclass, field

from fwdesk_ctl.bulk import WORD

HEADER = ["controllerid", "name", "token", "tags"]
TOKEN = re.compile(r"[A-Za-z0-9._-]{8,64}", re.ASCII)
LARGEST = 4_194_304  # bytes of a file that the desk takes at once
MOST_TAGS, LONGEST_NAME = 16, 128  # tags of a target; bytes of its name


@dataclass
class Row:
    """A target as a file has it, and the line where its record begins."""

    line: int
    controller_id: str
    name: str
    token: str
    tags: list[str]


@dataclass
class FleetFile:
    """What a file has: its targets, and its faults as a line (0 of the file as a whole) and words for each."""

    rows: list[Row] = field(default_factory=list)
    faults: list[tuple[int, str]] = field(default_factory=list)


def name_faults(name: str) -> list[str]:
    """What is wrong with a target's name."""
    if not name:
        return ["the name is empty"]
    size = len(name.encode())
    long = [f"the name has {size} bytes, more than {LONGEST_NAME}"] * (size > LONGEST_NAME)
    control = any(it < " " or it == "\x7f" for it in name)
    return long + ["the name has a control character"] * control


def token_faults(token: str) -> list[str]:
    """What is wrong with a token, which isn't told itself."""
    if TOKEN.fullmatch(token):
        return []
    if not 8 <= len(token) <= 64:
        return [f"the token has {len(token)} characters: 8 to 64 are needed"]
    return ["the token has another character than A-Z a-z 0-9 . _ -"]


def tags_faults(text: str) -> list[str]:
    """What is wrong with the field of tags."""
    tags = text.split(" ") if text else []
    told = []
    if "" in tags:
        told.append("one space stands between two tags, and none before or after them")
    told += [
        f"{it!r} is no tag: 1 to 64 of A-Z a-z 0-9 . _ -"
        for it in tags
        if it and not WORD.fullmatch(it)
    ]
    told += [
        f"the tag {it} comes {count} times"
        for it, count in Counter(tags).items()
        if it and count > 1
    ]
    return told + [f"{len(tags)} tags, more than {MOST_TAGS}"] * (len(tags) > MOST_TAGS)


def fields_faults(fields: list[str]) -> list[str]:
    """What is wrong with the number of a record's fields."""
    if any("\n" in it for it in fields):
        return ["a quote is opened in this line and isn't closed in it"]
    if len(fields) == len(HEADER):
        return []
    if len(fields) == 1 and ";" in fields[0]:
        return ["semicolons stand between its values: commas are needed"]
    return [f"it has {len(fields)} values in place of 4 (a value with a comma stands in quotes)"]


def row_faults(row: Row, before: dict[str, int]) -> list[str]:
    """What is wrong with a target, where the ids of lines before it are known."""
    told = []
    if not WORD.fullmatch(row.controller_id):
        told.append(f"{row.controller_id!r} is no id: 1 to 64 of A-Z a-z 0-9 . _ -")
    elif row.controller_id in before:
        told.append(f"{row.controller_id} is in line {before[row.controller_id]} already")
    return told + name_faults(row.name) + token_faults(row.token)


def text_of(contents: bytes) -> tuple[str, list[tuple[int, str]]]:
    """The text of a file and the faults of its bytes. A letter that isn't UTF-8 is told by its line."""
    text, faults = contents.removeprefix(b"\xef\xbb\xbf"), []
    for number, line in enumerate(text.split(b"\n"), 1):
        try:
            line.decode()
        except UnicodeDecodeError as error:
            faults.append((number, f"byte {error.start + 1} isn't UTF-8: save the file as UTF-8"))
    return text.decode(errors="replace"), faults


def whole_faults(contents: bytes) -> list[str]:
    """What is wrong with a file as a whole; nothing else is looked at then."""
    if not contents:
        return ["it is empty"]
    if contents.startswith((b"\xff\xfe", b"\xfe\xff")):
        return ["it is UTF-16: save it as UTF-8"]
    if len(contents) > LARGEST:
        return [
            f"it has {len(contents):,} bytes, and a desk takes {LARGEST:,} at once: import it in parts"
        ]
    return ["its last line doesn't end with a line feed"] * (not contents.endswith(b"\n"))


def records_of(text: str) -> list[tuple[int, list[str]]]:
    """The records with the lines where they begin; empty lines are none."""
    csv.field_size_limit(LARGEST)
    reader, found, line = csv.reader(io.StringIO(text, newline="")), [], 1
    for fields in reader:
        if fields:
            found.append((line, fields))
        line = reader.line_num + 1
    return found


def check_record(file: FleetFile, line: int, fields: list[str], before: dict[str, int]) -> None:
    """Puts a record among the rows, or its faults among the faults."""
    told = fields_faults(fields)
    if not told:
        row = Row(line, fields[0], fields[1], fields[2], [])
        told = row_faults(row, before) + tags_faults(fields[3])
        before.setdefault(row.controller_id, line)
        row.tags = fields[3].split()
        file.rows += [row] * (not told)
    file.faults += [(line, it) for it in told]


def read(contents: bytes) -> FleetFile:
    """What a file of targets has, with every fault of it."""
    file = FleetFile(faults=[(0, it) for it in whole_faults(contents)])
    if file.faults and (not contents or "UTF-16" in file.faults[0][1]):
        return file
    text, told = text_of(contents)
    file.faults += told
    records = records_of(text)
    if not records or records[0][1] != HEADER:
        given = ",".join(records[0][1]) if records else ""
        file.faults.append((1, f"the first line is {given!r} in place of {','.join(HEADER)}"))
    before: dict[str, int] = {}
    for line, fields in records[1:]:
        check_record(file, line, fields, before)
    file.faults.sort(key=lambda it: it[0])
    return file
