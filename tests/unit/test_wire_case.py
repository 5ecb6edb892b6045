"""Tests of scenario.py: what tests/wire/README.md says of the form of a case."""
import base64
import zlib

from harness import wire_case
from harness.wire_case import BadCase
from harness.asserting import refused, same, written


def read(text):
    with written(one_case=text) as workdir:
        return wire_case.read(workdir / "one.case")


def exchanges(text):
    return [(it.request, it.reply) for it in read(text).processes[0].exchanges]


def test_the_example_of_the_page():
    case = read(
        '# A module is added once.\n> POST /rest/v1/softwaremodules\n[{}]\n< 201\n[{"id":1}]\n\n'
        "# another process over the same file\nagain\n> POST /rest/v1/softwaremodules\n[{}]\n< exists\n"
    )
    same(
        (case.title, case.ways, len(case.processes)),
        ("A module is added once.", ("whole", "byte", "step"), 2),
    )
    request = b"POST /rest/v1/softwaremodules HTTP/1.1\r\nContent-Length: 4\r\n\r\n[{}]"
    head = b"HTTP/1.1 201 Created\r\nContent-Type: application/json\r\nContent-Length: 10\r\n\r\n"
    first, second = case.processes
    same(first.words, ["run", "--db", "{db}", "--interface", "mgmt"])
    same(
        (first.input(), first.output(), second.words), (request, head + b'[{"id":1}]', first.words)
    )
    refusal = b'{"error":"exists","number":5}'
    same(
        second.output(),
        b"HTTP/1.1 409 Conflict\r\nContent-Type: application/json\r\nContent-Length: 29\r\n\r\n"
        + refusal,
    )


def test_fields_and_kinds():
    ((request, reply),) = exchanges("# t\n> GET /x | Host: a | A: b c\n< 200 text/plain\nhello\n")
    same(request, b"GET /x HTTP/1.1\r\nHost: a\r\nA: b c\r\n\r\n")
    same(reply, b"HTTP/1.1 200 OK\r\nContent-Type: text/plain\r\nContent-Length: 5\r\n\r\nhello")


def test_refusals_that_close_and_that_name_a_line():
    (_, closes), (_, line) = exchanges("# t\n> GET /x\n< too_large\n> GET /y\n< import_line 4\n")
    assert closes.endswith(b'Connection: close\r\n\r\n{"error":"too_large","number":9}'), closes
    assert b"Connection" not in line and line.endswith(
        b'{"error":"import_line","line":4,"number":14}'
    ), line


def test_bytes_as_they_are():
    same(exchanges("# t\n>> a\\r\\n\\t\\\\\\x00\\xff\n<< b\\n\n"), [(b"a\r\n\t\\\x00\xff", b"b\n")])
    with refused(BadCase, "no escape"):
        read("# t\n>> \\q\n")


def test_lines_of_a_body():
    packed = base64.b64encode(zlib.compress(b"zz")).decode()
    lines = (
        "|one\n|two\n%each j 9..11 {j}:{j:04}:{j+3}\n%bytes 252\n%escaped \\x41\n%packed "
        + packed
        + "\nas it is\n"
    )
    wanted = (
        b"one\ntwo\n"
        + b"9:0009:12,10:0010:13,11:0011:14"
        + bytes(range(251))
        + b"\0"
        + b"A"
        + b"zz"
        + b"as it is"
    )
    same(exchanges(f"# t\n>> \n{lines}"), [(wanted, b"")])


def test_loops():
    same(
        [it for it, _ in exchanges("# t\nfor i in 2..3\n>> {i}-{i:03}-{i+1}\ndone\n>> {i}\n")],
        [b"2-002-3", b"3-003-4", b"{i}"],
    )
    with refused(BadCase, "without `done`"):
        read("# t\nfor i in 1..2\n>> x\n")


def test_processes_files_and_rows():
    case = read(
        "# t\nsql CREATE TABLE t (x)\nfile\n|a,b\nprogram import --db {db} --file {file}\nexit 1\nerr has line 2\n"
        "rows SELECT x FROM t\n1|x'00'\ndatabase \\x01\nagain run --db 'a b'\nexit 2\nerr whole\n"
    )
    first, second = case.processes
    same(first.before, [("sql", "CREATE TABLE t (x)"), ("file", b"a,b\n")])
    same(
        (first.words, first.status, first.error, first.error_part),
        ("import --db {db} --file {file}".split(), 1, "line 2", True),
    )
    same(first.rows, [("SELECT x FROM t", ["1|x'00'"])])
    same(
        (second.before, second.words, second.status, second.error_part),
        ([("database", b"\x01")], ["run", "--db", "a b"], 2, False),
    )


def test_ways_and_repeats():
    same(read("# t\npieces whole step\n> GET /x\nrepeats\n").ways, ("whole", "step"))
    assert read("# t\n> GET /x\nrepeats\n").processes[0].exchanges[0].repeats


def test_what_cannot_be_read():
    for text, words in (
        ("> GET /x\n", "no title"),
        ("# t\nwhat\n", "what is this"),
        ("# t\nawaits /new\n> GET /new\n", "what is this"),
        ("# t\n< 200\n", "nothing is asked above"),
        ("# t\n> GET /x\n< nonesuch\n", "no reply"),
        ("# t\n> GET /x\n< exists\nbody\n", "no reply"),
        ("# t\npieces two\n> GET /x\n", "pieces are"),
        ("# t\nexit one\n", "invalid literal"),
    ):
        with refused(BadCase, words):
            read(text)
