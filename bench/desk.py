"""What the scripts share: requests, replies, and where the programs are.
A program may be named with a word behind it, as `twin --at-once`."""
import hashlib
import json
import os
import random
import subprocess

HERE = os.path.dirname(os.path.abspath(__file__))
PROGRAM = os.path.join(HERE, "..", "crates", "fwdesk", "out", "fwdesk")
TWIN = os.path.join(HERE, "..", "out", "twin")


def words(program, path, interface="mgmt"):
    """The command line that serves standard input."""
    return [*program.split(), "run", "--db", path, "--interface", interface]


def port_words(program, path, port):
    """The command line that serves one connection to a port."""
    return [
        *program.split(),
        "serve",
        "--db",
        path,
        "--port",
        str(port),
        "--connections",
        "1",
        "--interface",
        "both",
    ]


def label(number):
    """Name, type and version of the module that is added in this place."""
    return f"app-{number:06d}", "os", f"1.{number}"


def adding(number):
    """The request that adds it."""
    name, kind, version = label(number)
    body = f'[{{"name":"{name}","type":"{kind}","version":"{version}"}}]'
    return f"POST /rest/v1/softwaremodules HTTP/1.1\r\nContent-Length: {len(body)}\r\n\r\n{body}".encode()


def showing(number):
    """The request that shows a module."""
    return f"GET /rest/v1/softwaremodules/{number} HTTP/1.1\r\n\r\n".encode()


def module(number):
    """The object of the module."""
    name, kind, version = label(number)
    return f'{{"id":{number},"locked":false,"name":"{name}","type":"{kind}","version":"{version}"}}'


def reply(status, body, kind="application/json"):
    """The bytes of a reply."""
    return f"HTTP/1.1 {status}\r\nContent-Type: {kind}\r\nContent-Length: {len(body)}\r\n\r\n{body}".encode()


def added(number):
    """The reply to the request that added the module."""
    return reply("201 Created", f"[{module(number)}]")


MIB = 1 << 20


def contents(number, size=MIB):
    """The bytes of the artifact that is added in this place: 1 MiB where nothing is said."""
    return random.Random(number).randbytes(size)


def holder(number):
    """The module that takes the artifact."""
    return (number - 1) // 8 + 1


def uploading(number, size=MIB):
    """The request that adds the artifact."""
    head = (
        f"POST /rest/v1/softwaremodules/{holder(number)}/artifacts?filename=f{number}.bin HTTP/1.1"
    )
    return f"{head}\r\nContent-Length: {size}\r\n\r\n".encode() + contents(number, size)


def uploaded(number, size=MIB):
    """The reply to it."""
    digest = hashlib.sha256(contents(number, size)).hexdigest()
    return reply(
        "201 Created",
        f'{{"hashes":{{"sha256":"{digest}"}},"id":{number},"providedFilename":"f{number}.bin","size":{size}}}',
    )


def downloading(number):
    """The request for the artifact's bytes."""
    return f"GET /rest/v1/softwaremodules/{holder(number)}/artifacts/{number}/download HTTP/1.1\r\n\r\n".encode()


def downloaded(number, size=MIB):
    """The reply to it."""
    head = f"HTTP/1.1 200 OK\r\nContent-Type: application/octet-stream\r\nContent-Length: {size}\r\n\r\n"
    return head.encode() + contents(number, size)


def target(number):
    """Id, name, token and tags of the target that is put in this place."""
    return (
        f"dev-{number:06d}",
        f"Valve {number}",
        f"token-of-{number:06d}",
        [f"site-{number % 100}", "lab"],
    )


BATCH = 100


def putting(batch):
    """The request that puts a hundred targets."""
    numbers = range((batch - 1) * BATCH + 1, batch * BATCH + 1)
    rows = [
        {"controllerId": id, "name": name, "securityToken": token, "tags": tags}
        for id, name, token, tags in map(target, numbers)
    ]
    body = json.dumps(rows, separators=(",", ":"))
    return f"POST /rest/v1/targets HTTP/1.1\r\nContent-Length: {len(body)}\r\n\r\n{body}".encode()


def put(_batch):
    """The reply to it."""
    return reply("201 Created", f'{{"accepted":{BATCH}}}')


def importing(count):
    """The request that imports so many targets from a file."""
    lines = [
        ",".join([id, name, token, " ".join(tags)])
        for id, name, token, tags in map(target, range(1, count + 1))
    ]
    body = "".join(line + "\n" for line in ["controllerid,name,token,tags", *lines])
    return f"POST /desk/v1/import HTTP/1.1\r\nContent-Length: {len(body)}\r\n\r\n{body}".encode()


def imported(count):
    """The reply to it."""
    return reply("200 OK", f'{{"accepted":{count}}}')


def target_object(number, word="unknown"):
    """The object of the target."""
    id, name, _token, tags = target(number)
    return {
        "attributes": {},
        "controllerId": id,
        "name": name,
        "tags": sorted(tags),
        "updateStatus": word,
    }


def page_of(numbers, total, word="unknown"):
    """The reply that shows these targets, of which each has the word."""
    content = [target_object(number, word) for number in numbers]
    return reply(
        "200 OK",
        json.dumps(
            {"content": content, "size": len(content), "total": total}, separators=(",", ":")
        ),
    )


def asking_page(_turn):
    """The request for a page in the middle."""
    return b"GET /rest/v1/targets?offset=5000&limit=50 HTTP/1.1\r\n\r\n"


def shown_page(_turn):
    """The reply to it, where there are ten thousand targets."""
    return page_of(range(5001, 5051), 10_000)


def filtering(_turn):
    """The request for the targets with a tag."""
    return b"GET /rest/v1/targets?q=tag==site-7&limit=50 HTTP/1.1\r\n\r\n"


def filtered(_turn):
    """The reply to it, where there are ten thousand targets."""
    return page_of(range(7, 5000, 100), 100)


EXISTS = reply("409 Conflict", '{"error":"exists","number":5}')

FULL = reply("403 Forbidden", '{"error":"quota","number":10}')

NOT_FOUND = reply("404 Not Found", '{"error":"not_found","number":3}')


def build_twin():
    """Compiles the C program over the system's SQLite."""
    os.makedirs(os.path.dirname(TWIN), exist_ok=True)
    names = ("twin.c", "twin_targets.c", "twin_import.c", "twin_rollouts.c", "twin_devices.c")
    sources = [os.path.join(HERE, "baseline", name) for name in names]
    subprocess.run(
        ["cc", "-O2", "-Wall", "-Wextra", "-D_GNU_SOURCE", "-o", TWIN, *sources, "-lsqlite3"],
        check=True,
    )


def remove(path):
    """Removes a database and its log."""
    for end in ("", "-wal", "-shm", "-journal"):
        if os.path.exists(path + end):
            os.remove(path + end)
