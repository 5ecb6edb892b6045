"""Scenarios with the program: reads a case (tests/wire/README.md has the form) and runs its processes."""
import base64
import os
import re
import select
import shlex
import shutil
import sqlite3
import subprocess
import sys
import threading
import tomllib
import zlib
from dataclasses import dataclass, field
from pathlib import Path

ROOT = Path(__file__).resolve().parents[2]
PROGRAM = ROOT / "crates/fwdesk/out/fwdesk"
DEFAULT = "run --db {db} --interface mgmt".split()
SECONDS = 120
# how long a reply may take in step before it counts as missing
PATIENCE = 10
WAYS = ("whole", "byte", "step")

TABLE = tomllib.loads((ROOT / "docs/reference/refusals.toml").read_text(encoding="utf-8"))
REASONS = {200: "OK", 201: "Created"} | {int(it): of for it, of in TABLE["reasons"].items()}
REFUSALS = {it["name"]: (it["number"], it["status"]) for it in TABLE["refusal"]}
CLOSING = {it["name"] for it in TABLE["refusal"] if it.get("ends")}


class BadCase(Exception):
    """A line of a case that can't be read."""


@dataclass
class Exchange:
    """What goes in, and what comes out before the next is asked;
    and whether it is a command that is accepted and changes nothing."""

    request: bytes
    reply: bytes = b""
    repeats: bool = False


@dataclass
class Process:
    """One process of a case: what is done to the file before it, its command line, its exchanges,
    how it ends and what its file then holds."""

    words: list
    before: list = field(default_factory=list)
    exchanges: list = field(default_factory=list)
    status: int = 0
    error: str = ""
    error_part: bool = False
    rows: list = field(default_factory=list)

    def input(self):
        return b"".join(it.request for it in self.exchanges)

    def output(self):
        return b"".join(it.reply for it in self.exchanges)


@dataclass
class Case:
    path: Path
    title: str = ""
    ways: tuple = WAYS
    processes: list = field(default_factory=list)


@dataclass
class Outcome:
    """What a process did."""

    status: int
    output: bytes
    error: str


def reply(status, body, kind="application/json", more=""):
    head = f"HTTP/1.1 {status} {REASONS[status]}\r\nContent-Type: {kind}\r\nContent-Length: {len(body)}\r\n{more}\r\n"
    return head.encode() + body


def refusal(name, line=None):
    number, status = REFUSALS[name]
    place = f'"line":{line},' if line else ""
    body = f'{{"error":"{name}",{place}"number":{number}}}'.encode()
    return reply(status, body, more="Connection: close\r\n" if name in CLOSING else "")


def escaped(text):
    """The bytes that a text with escapes stands for."""
    plain = {"r": b"\r", "n": b"\n", "t": b"\t", "\\": b"\\"}
    found, at = b"", 0
    for it in re.finditer(r"\\(x[0-9a-fA-F]{2}|.)", text, re.S):
        found += text[at : it.start()].encode()
        if it[1][0] == "x":
            found += bytes([int(it[1][1:], 16)])
        elif it[1] in plain:
            found += plain[it[1]]
        else:
            raise BadCase(f"no escape: {it[0]}")
        at = it.end()
    return found + text[at:].encode()


def with_number(text, name, number):
    """The text with each {name}, {name:04} and {name+3} written out."""

    def written(it):
        return str(number + int(it[2] or 0)).zfill(int(it[1] or 0))

    return re.sub(rf"\{{{name}(?::0?(\d+))?([+-]\d+)?\}}", written, text)


def numbers_of(text):
    first, last = text.split("..")
    return range(int(first), int(last) + 1)


def pattern(length):
    return (bytes(range(251)) * (length // 251 + 1))[:length]


def body_line(line):
    """The bytes that a line of a body stands for."""
    if line.startswith("|"):
        return line[1:].encode() + b"\n"
    if it := re.fullmatch(r"%each ([a-z]) (\d+\.\.\d+) (.*)", line):
        return ",".join(with_number(it[3], it[1], number) for number in numbers_of(it[2])).encode()
    if it := re.fullmatch(r"%bytes (\d+)", line):
        return pattern(int(it[1]))
    if it := re.fullmatch(r"%escaped (.*)", line):
        return escaped(it[1])
    if it := re.fullmatch(r"%packed (.*)", line):
        return zlib.decompress(base64.b64decode(it[1]))
    return line.encode()


def request_bytes(text, body):
    line, *fields = [it.strip() for it in text.split(" | ")]
    fields += [f"Content-Length: {len(body)}"] if body else []
    return "".join(f"{it}\r\n" for it in [f"{line} HTTP/1.1", *fields, ""]).encode() + body


def reply_bytes(text, body):
    word, _, rest = text.partition(" ")
    if word.isdigit():
        return reply(int(word), body, rest or "application/json")
    if word not in REFUSALS or body:
        raise BadCase(f"no reply: {text}")
    return refusal(word, rest or None)


def unrolled(lines):
    """The lines with each `for` written out."""
    found, at = [], 0
    while at < len(lines):
        number, line = lines[at]
        if it := re.fullmatch(r"for ([a-z]) in (\d+\.\.\d+)", line):
            end = next((k for k in range(at, len(lines)) if lines[k][1] == "done"), None)
            if end is None:
                raise BadCase(f"line {number}: `for` without `done`")
            inner = lines[at + 1 : end]
            found += [
                (no, with_number(text, it[1], value))
                for value in numbers_of(it[2])
                for no, text in inner
            ]
            at = end
        else:
            found.append((number, line))
        at += 1
    return found


class Reader:
    """Reads the lines of a case, one after the other."""

    ITEMS = (
        ">",
        ">>",
        "<",
        "<<",
        "repeats",
        "program",
        "again",
        "exit",
        "err",
        "sql",
        "database",
        "file",
        "rows",
        "pieces",
    )

    def __init__(self, path):
        self.case, self.item, self.body, self.before = Case(path), None, [], []

    def process(self):
        if not self.case.processes:
            self.begin(DEFAULT)
        return self.case.processes[-1]

    def begin(self, words):
        self.case.processes.append(Process(list(words), before=self.before))
        self.before = []

    def end_item(self):
        """Takes the item whose lines have all come."""
        if not self.item:
            return
        (key, text), body = self.item, b"".join(map(body_line, self.body))
        self.item, self.body = None, []
        if key in ("file", "database"):
            self.before.append((key, escaped(text) + body))
        elif key == ">":
            self.process().exchanges.append(Exchange(request_bytes(text, body)))
        elif key == ">>":
            self.process().exchanges.append(Exchange(escaped(text) + body))
        elif key == "<":
            self.last_exchange().reply += reply_bytes(text, body)
        elif key == "<<":
            self.last_exchange().reply += escaped(text) + body

    def last_exchange(self):
        if not self.process().exchanges:
            raise BadCase("nothing is asked above")
        return self.process().exchanges[-1]

    def take(self, key, text):
        self.end_item()
        if key in (">", ">>", "<", "<<", "file", "database"):
            self.item = key, text
        elif key == "repeats":
            self.last_exchange().repeats = True
        elif key == "program":
            self.begin(shlex.split(text))
        elif key == "again":
            self.begin(
                shlex.split(text)
                or (self.case.processes[-1].words if self.case.processes else DEFAULT)
            )
        elif key == "exit":
            self.process().status = int(text)
        elif key == "err":
            process = self.process()
            process.error_part = text.startswith("has ")
            process.error = text.removeprefix("has ")
        elif key == "sql":
            self.before.append((key, text))
        elif key == "rows":
            self.process().rows.append((text, []))
        elif key == "pieces":
            self.case.ways = tuple(text.split())

    def line(self, line):
        key, _, text = line.partition(" ")
        if key in self.ITEMS:
            self.take(key, text)
        elif self.item and line and not line.startswith("# "):
            self.body.append(line)
        elif not line:
            self.end_item()
        elif line.startswith("#"):
            self.end_item()
            self.case.title = self.case.title or line[1:].strip()
        elif self.case.processes and self.process().rows:
            self.process().rows[-1][1].append(line)
        else:
            raise BadCase(f"what is this: {line[:80]}")


def read(path):
    """Reads a case."""
    reader = Reader(Path(path))
    number = 0
    try:
        for number, line in unrolled(
            list(enumerate(Path(path).read_text(encoding="utf-8").split("\n"), 1))
        ):
            reader.line(line)
        reader.end_item()
        reader.process()
    except (BadCase, ValueError, KeyError) as error:
        raise BadCase(f"{path}:{number}: {error}") from None
    if not reader.case.title:
        raise BadCase(f"{path}: no title")
    if set(reader.case.ways) - set(WAYS):
        raise BadCase(f"{path}: pieces are {', '.join(WAYS)}")
    return reader.case


def cases_below(places):
    """The files of cases at or below these places."""
    for place in map(Path, places):
        yield from sorted(place.rglob("*.case")) if place.is_dir() else [place]


def file_beside(database):
    """The file of a case, beside its database."""
    return Path(f"{database}.csv")


def prepare(process, database):
    """Does by hand what the case has done to the file before the process."""
    for key, what in process.before:
        if key == "database":
            Path(database).write_bytes(what)
        elif key == "file":
            file_beside(database).write_bytes(what)
        else:
            connection = sqlite3.connect(database, isolation_level=None)
            try:
                connection.executescript(what)
            finally:
                connection.close()


def text_of(value):
    if isinstance(value, bytes):
        return f"x'{value.hex()}'"
    return "NULL" if value is None else str(value)


def rows_of(database, query):
    connection = sqlite3.connect(database)
    try:
        return ["|".join(map(text_of, row)) for row in connection.execute(query)]
    except sqlite3.Error as error:
        return [f"error: {error}"]
    finally:
        connection.close()


def started(words, database, program, **how):
    # under its own name, whatever its file is called: clap's texts tell it
    words = [
        "fwdesk",
        *(
            it.replace("{db}", str(database)).replace("{file}", str(file_beside(database)))
            for it in words
        ),
    ]
    pipes = dict.fromkeys(("stdin", "stdout", "stderr"), subprocess.PIPE)
    return subprocess.Popen(words, executable=str(program), **pipes, **how)


def fed(child, pieces):
    """Writes pieces to the process for as long as it reads."""
    try:
        for it in pieces:
            os.write(child.stdin.fileno(), it)
    except BrokenPipeError:
        pass
    child.stdin.close()


def in_step(child, exchanges):
    """Writes each request once the reply to the one before is there, and gives what came."""
    output = b""
    for it in exchanges:
        try:
            child.stdin.write(it.request)
            child.stdin.flush()
        except BrokenPipeError:
            break
        wanted = len(it.reply)
        while wanted:
            if not select.select([child.stdout], [], [], PATIENCE)[0]:
                return output
            part = os.read(child.stdout.fileno(), wanted)
            if not part:
                return output
            output, wanted = output + part, wanted - len(part)
    return output


def run(process, database, way="whole", program=PROGRAM, **how):
    """Runs a process and gives what it did."""
    child = started(process.words, database, program, **how)
    if way == "whole":
        output, error = child.communicate(process.input(), timeout=SECONDS)
        return Outcome(child.returncode, output, error.decode(errors="replace"))
    timer = threading.Timer(SECONDS, child.kill)
    timer.start()
    errors, output = [], b""
    reader = threading.Thread(target=lambda: errors.append(child.stderr.read()))
    reader.start()
    if way == "step":
        output = in_step(child, process.exchanges)
        try:
            child.stdin.close()
        except BrokenPipeError:
            pass
        output += child.stdout.read()
    else:
        writer = threading.Thread(target=fed, args=(child, (bytes([it]) for it in process.input())))
        writer.start()
        output = child.stdout.read()
        writer.join()
    reader.join()
    status = child.wait()
    timer.cancel()
    return Outcome(status, output, b"".join(errors).decode(errors="replace"))


def failing_calls(workdir):
    """The library that lets calls fail, made by the system's C compiler or else the kit's."""
    made = f"{workdir}/failing_calls.so"
    words = [
        "-O2",
        "-fPIC",
        "-shared",
        "-nostdlib",
        "-fno-builtin",
        "-o",
        made,
        f"{ROOT}/tests/fault/libfault.c",
    ]
    compiler = shutil.which("cc")
    if not compiler:
        rt = shutil.which("rt") or sys.exit("there is neither a C compiler (cc) nor the kit (rt)")
        kit = Path(os.path.realpath(rt)).parent.parent / "toolchain/bin"
        compiler, words = f"{kit}/clang", [f"--ld-path={kit}/ld.lld", *words]
    subprocess.run([compiler, *words], check=True)
    return made
