"""Cases of fwdesk-ctl: a program at the desk's address that isn't the desk, texts that aren't printable, answers that are lost."""
import contextlib
import json
import socket
import threading
import time

from harness.fwdesk_ctl import HOST, Proxy, Relay

ESCAPE = "\x1b]0;owned\x07"
# a control character of the upper half, a mark that turns the direction of writing, a mark without a width
UNPRINTABLE = "\x9b2J", "\u202egnp", "\ufeff"
ENTRY = {"id": 1, "status": "running", "name": "x", "totalTargets": 1, "distributionSetId": 1}
TARGET = {"controllerId": "d", "updateStatus": "error", "tags": [], "name": "x", "attributes": {}}
VERBS = (
    ("rollouts",),
    ("targets",),
    ("failed", "1"),
    ("held",),
    ("start", "1"),
    ("cancel-open", "1"),
    ("wait", "1", "--patience", "0"),
)


def page(*entries, total=None):
    return json.dumps(
        {
            "content": entries,
            "size": len(entries),
            "total": len(entries) if total is None else total,
        }
    ).encode()


def head_of(body, status=200, length=None):
    return f"HTTP/1.1 {status} x\r\nContent-Length: {len(body) if length is None else length}\r\n\r\n".encode()


class Foreign:
    """A server that answers each request with the same bytes, and counts what it sends."""

    def __init__(self, answer):
        self.answer, self.sent, self.asked = answer, 0, 0
        self.listener = socket.create_server((HOST, 0))
        self.url = f"http://{HOST}:{self.listener.getsockname()[1]}"
        threading.Thread(target=self.accept, daemon=True).start()

    def accept(self):
        with contextlib.suppress(OSError):
            while True:
                link = self.listener.accept()[0]
                threading.Thread(target=self.serve, args=(link,), daemon=True).start()

    def serve(self, link):
        with contextlib.suppress(OSError), link:
            while link.recv(65536):
                self.asked += 1
                for piece in self.answer:
                    link.sendall(piece)
                    self.sent += len(piece)


def endless():
    """A reply without an end: a thousand MiB are announced."""
    yield head_of(b"", length=10**12)
    for _ in range(1000):
        yield b" " * (1 << 20)


class Endless:
    def __iter__(self):
        return endless()


def rejects_replies_of_other_servers(env):
    """a reply that no desk gives is told as such with status 6, whatever it is; nothing of it counts as an answer"""
    bodies = {
        "text": b"<html>It works!</html>",
        "null": b"null",
        "list": b'["a"]',
        "deep": b"[" * 200_000,
        "empty entries": page({}),
        "other types": page(ENTRY | {"id": "x"} | TARGET | {"tags": None}),
        "not UTF-8": b'{"content":[],"size":0,"total":0,"x":"\xff"}',
    }
    for name, body in bodies.items():
        server = Foreign([head_of(body) + body])
        for verb in VERBS:
            env.refuses(6, "isn't a fwdesk server's", *verb, FWDESK_URL=server.url)
        server.listener.close()
    for name, answer in (
        ("no HTTP", b"220 mail\r\n"),
        ("a long head", b"HTTP/1.1 200 x\r\nX: " + b"y" * 70_000),
    ):
        server = Foreign([answer])
        env.refuses(6, "isn't a fwdesk server's", "rollouts", FWDESK_URL=server.url)
        server.listener.close()


def bounds_replies(env):
    """a reply without an end, a list without an end: no more is read than a reply or a list can have"""
    server = Foreign(Endless())
    began = time.monotonic()
    env.refuses(6, "more than 8,388,608 bytes", "rollouts", FWDESK_URL=server.url)
    assert server.sent < 64 << 20 and time.monotonic() - began < 30, server.sent
    for total in (99_999_999_999, 3, 0):
        body = page(ENTRY | TARGET, total=total)
        server = Foreign([head_of(body) + body])
        env.refuses(6, "a page of 1 entries after 0 of", "targets", FWDESK_URL=server.url)
        assert server.asked == 1, server.asked


def prints_printable_characters_alone(env):
    """names, details, tables and refusals: what isn't printable is U+FFFD, and a name makes no line of its own"""
    for text in (ESCAPE, *UNPRINTABLE):
        name = f"a{text}\nb"
        bodies = {
            ("rollouts",): page(ENTRY | {"name": name, "status": text}),
            ("targets",): page(TARGET | {"name": name, "tags": [text], "controllerId": name}),
            ("held",): json.dumps(
                {"brake": {"who": name, "since": text, "reason": name}, "quiet": None}
            ).encode(),
        }
        for verb, body in bodies.items():
            status, out, said = env.ctl(*verb, FWDESK_URL=Foreign([head_of(body) + body]).url)
            assert status == 0 and "\N{REPLACEMENT CHARACTER}" in out, (verb, out, said)
            assert out.count("\n") == 1 and out.replace("\n", "").isprintable(), (verb, out)
        body = json.dumps({"error": name, "words": name, f"x{text}": name, "number": 0}).encode()
        server = Foreign([head_of(body, 403) + body])
        status, out, said = env.ctl("rollouts", FWDESK_URL=server.url)
        assert status == 1 and said.count("\n") == 1 and said.strip().isprintable(), said
        assert "proxy doesn't let this user" in said, said


def prints_details_of_devices(env):
    """what a device reports, of characters that the desk takes: in no line as it is, and in --json exactly"""
    (name,) = env.fleet(1)
    number, words = env.rollout(), "".join(UNPRINTABLE)
    env.report(name, "failure", words)
    lines = env.gives("failed", number)
    assert "\N{REPLACEMENT CHARACTER}" in lines and lines.replace("\n", "").isprintable(), lines
    (told,) = json.loads(env.gives("failed", number, "--json"))
    assert told["failed"] == [{"controllerId": name, "words": words}], told


def tells_what_to_look_at(env):
    """an order whose answer is lost: sent once, status 6, and told with what to look at before anybody presses again"""
    env.fleet(4)
    number, proxy = env.rollout(groups=4), Proxy(env)

    def lose(piece):
        """The desk has it, and its answer doesn't come."""
        assert env.call("POST", piece.split(b" ")[1].decode(), port=proxy.near)[0] == 200
        raise OSError("the line breaks")

    # the rollout's groups are read first
    relay = Relay(proxy.near, 2, lose)
    status, out, said = env.ctl("trigger", number, FWDESK_URL=relay.url)
    assert (status, out) == (6, "") and "no reply of" in said, said
    assert "next is group 2 of 4" in said, said
    assert f"Look before you press again: fwdesk-ctl wait {number} --timeout 0" in said, said
    states = [it["status"] for it in env.get(f"rollouts/{number}/deploygroups?limit=50")["content"]]
    assert states == ["running", "running", "scheduled", "scheduled"], states
    assert "group 2 running" in env.ctl("wait", number, "--timeout", 0)[2]
    # the proxy says itself that nobody answered it
    for status in (502, 504):
        server = Foreign([head_of(b"", status)])
        for words, look in (
            (("pause", number), f"fwdesk-ctl wait {number} --timeout 0"),
            (("hold",), "fwdesk-ctl held"),
            (("import", "fleet.csv"), "fwdesk-ctl targets --count"),
        ):
            (env.folder / "fleet.csv").write_text("controllerid,name,token,tags\n")
            ended, _, said = env.ctl(*words, FWDESK_URL=server.url)
            assert ended == 1 and f"Look before you press again: {look}" in said, said
    # what was never sent isn't in doubt
    status, _, said = env.ctl("pause", number, FWDESK_URL=f"http://{HOST}:1")
    assert status == 6 and "cannot reach" in said and "again" not in said, said


def tells_which_group(env):
    """trigger: which group it means before, and which was started afterwards; two that were started in one moment"""
    env.fleet(5)
    number, proxy = env.rollout(groups=5), Proxy(env)
    status, out, said = env.ctl("trigger", number)
    assert (status, out) == (0, ""), said
    assert f"rollout {number}: next is group 2 of 5, 1 devices\n" in said, said
    assert said.endswith(f"rollout {number}: started group 2 of 5\n"), said

    def another(piece):
        """Another operator is quicker."""
        path = f"/rest/v1/rollouts/{number}/triggerNextGroup"
        assert env.call("POST", path, port=proxy.near)[0] == 200
        return piece

    status, _, said = env.ctl("trigger", number, FWDESK_URL=Relay(proxy.near, 2, another).url)
    assert status == 0 and "next is group 3 of 5" in said, said
    assert "started group 3 of 5" in said and "started group 4 of 5" in said, said
    assert "2 groups were started in one moment" in said, said


def takes_no_dots_for_a_name(env):
    """upload: names . and .. are refused before anything is asked"""
    (env.folder / "f").write_text("x")
    (module,) = env.ask(
        "POST", "/rest/v1/softwaremodules", [{"name": "os", "type": "os", "version": "1"}]
    )
    for name in (".", ".."):
        env.refuses(
            2,
            "invalid name of an artifact",
            "upload",
            "f",
            "--module",
            module["id"],
            "--name",
            name,
        )
    assert env.get(f"softwaremodules/{module['id']}/artifacts")["total"] == 0


CASES = [
    rejects_replies_of_other_servers,
    bounds_replies,
    prints_printable_characters_alone,
    prints_details_of_devices,
    tells_what_to_look_at,
    tells_which_group,
    takes_no_dots_for_a_name,
]
