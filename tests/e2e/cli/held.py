"""Cases of fwdesk-ctl: the brake, pressed and released, what passes under it, and how it fails."""
import contextlib
import fcntl
import json
import re
import resource
import socket
import stat
import subprocess
import time

from harness import http_client
from harness.fwdesk_ctl import CLI, HOST, PASSWORD, Proxy
from harness.fwdesk_ctl import eventually, needs, packages, status

BASE = "/DEFAULT/controller/v1"


class Topology:
    """A test's desk behind the brake: what is asked goes through the proxy."""

    def __init__(self, env):
        self.env, self.proxy = env, Proxy(env)
        self.own = self.proxy.brake(env)
        self.near = {"FWDESK_URL": f"http://{HOST}:{self.proxy.near}"}

    def device(self, name, rest="", method="GET", body=None, token=None):
        return self.env.call(
            method, f"{BASE}/{name}{rest}", body, token or f"tok-{name}", self.proxy.near
        )

    def links(self, name):
        answer = self.device(name)
        assert answer[0] == 200 and answer[1]["config"] == {
            "polling": {"sleep": "00:05:00"}
        }, answer
        return [*answer[1]["_links"]]

    def reply(self, path, name):
        return http_client.ask("GET", path, fields=http_client.token(name), port=self.proxy.near)

    def seconds(self):
        """How long fwdesk-brake takes here to begin and end, which is much on a busy machine."""
        began = time.monotonic()
        self.by_itself("show")
        return time.monotonic() - began

    def by_itself(self, *words, full=False, **more):
        """fwdesk-brake on the machine, perhaps with a disk that takes a byte: its status, what it prints,
        and what it says."""
        how = (
            {"preexec_fn": lambda: resource.setrlimit(resource.RLIMIT_FSIZE, (1, 1))}
            if full
            else {}
        )
        own = self.env.environment | self.own | more
        ran = subprocess.run(
            [CLI / "fwdesk-brake", *words], env=own, capture_output=True, text=True, **how
        )
        assert "Traceback" not in ran.stderr, ran.stderr
        return ran.returncode, ran.stdout, ran.stderr


def holds(env):
    """hold and release: while it is held nobody is told of a deployment; tokens, cancels, reports and downloads pass"""
    names, topology = env.fleet(4), Topology(env)
    env.rollout("older", text=f"controllerid=={names[0]},controllerid=={names[1]}")
    env.rollout("newer", text=f"controllerid=={names[0]},controllerid=={names[2]}")
    idle = topology.device(names[3])
    link = topology.device(names[1])[1]["_links"]["deploymentBase"]["href"]
    assert env.ctl("held", **topology.near)[:2] == (0, "") and topology.links(names[0]) == [
        "deploymentBase"
    ]
    told = env.gives("hold", "--reason", 'it "burns" \\ ä; 100%', **topology.near)
    assert re.fullmatch(
        r'brake: by -, since 20\d\d-\d\d-\d\dT\d\d:\d\d:\d\dZ: it "burns" \\ ä; 100%', told
    ), told
    for name in names:
        assert topology.device(name) == idle, name
    assert topology.device(names[1], token="tok-other-1")[0] == 401
    for spelt in (names[1], names[1].replace("-", "%2D"), f"{names[1]}?x=1"):
        assert "deploymentBase" not in topology.reply(f"{BASE}/{spelt}", names[1]).text, spelt
    refused = topology.reply(link, names[1])
    assert refused.status == 503 and refused.fields["retry-after"] == "300", refused
    assert "chunks" not in refused.text, refused
    for spelt in (f"{link}?x=1", link.replace(names[1], names[1].replace("-", "%2D"))):
        assert "chunks" not in topology.reply(spelt, names[1]).text, spelt
    rest = link.removeprefix(f"{BASE}/{names[1]}")
    assert (
        topology.device(names[1], rest, token="tok-other-1")[0] == 401
        and topology.device(names[1], "/deploymentBase/99")[0] == 404
    )
    # what is under way goes on
    got = topology.device(names[1], "/softwaremodules/1/artifacts/firmware.bin")
    assert got == (200, "firmware older"), got
    assert (
        topology.device(names[1], f"{rest}/feedback", "POST", status("closed", "success"))[0] == 200
    )
    assert env.states(1) == ["running", "finished"], env.states(1)
    # a cancel goes out, and what would be offered behind it doesn't
    (row,) = [it for it in env.rows(1) if it["id"] == names[0]]
    env.ask("DELETE", f"/rest/v1/targets/{names[0]}/actions/{row['action']}")
    assert topology.links(names[0]) == ["cancelAction"]
    assert topology.device(names[0], f"/cancelAction/{row['action']}")[0] == 200
    assert (
        topology.device(
            names[0],
            f"/cancelAction/{row['action']}/feedback",
            "POST",
            status("canceled", "success"),
        )[0]
        == 200
    )
    assert topology.links(names[0]) == []
    # who held first stays
    env.gives("hold", "--reason", "another", **topology.near)
    assert "burns" in env.gives("held", **topology.near)
    assert env.ctl("release", **topology.near)[:2] == (0, "") and json.loads(
        env.gives("held", "--json", **topology.near)
    ) == {"brake": None, "quiet": None}
    assert (
        topology.links(names[0]) == topology.links(names[2]) == ["deploymentBase"]
        and topology.links(names[1]) == []
    )


def holds_in_two_kinds(env):
    """hold --kind quiet: neither kind releases the other; both stand in the file and in what is shown"""
    (name,), topology = env.fleet(1), Topology(env)
    env.rollout()
    for first, second in (("brake", "quiet"), ("quiet", "brake")):
        env.gives("hold", "--kind", first, **topology.near)
        env.gives("hold", "--kind", second, **topology.near)
        env.ctl("release", "--kind", first, **topology.near)
        assert topology.links(name) == [] and env.gives("held", **topology.near).startswith(
            f"{second}: by -"
        )
        env.ctl("release", "--kind", second, **topology.near)
        assert topology.links(name) == ["deploymentBase"]


def knows_who_holds(env):
    """hold through TLS and a login: the login's name is told, whatever a field says; the audit has who and why;
    another site is refused"""
    env.fleet(1)
    topology = Topology(env)
    safe = {"FWDESK_URL": topology.proxy.url, "FWDESK_CA": str(env.folder / "server.crt")}
    anna = {"FWDESK_USER": "anna", "FWDESK_PASSWORD": PASSWORD}
    env.refuses(1, "the login isn't taken", "hold", **safe)
    env.refuses(1, "the login isn't taken", "held", **safe)
    assert env.gives("hold", "--reason", "it burns", **safe, **anna).startswith(
        "brake: by anna, since "
    )
    line = 'audit 200 127.0.0.1 "anna" POST /fwdesk/brake?kind=brake&reason=it+burns'
    assert line in (env.folder / "haproxy.log").read_text()
    curl = [
        "curl",
        "-s",
        "-o",
        "/dev/null",
        "-w",
        "%{http_code}",
        "--cacert",
        f"{env.folder}/server.crt",
        "-u",
        f"anna:{PASSWORD}",
    ]
    packages.said([*curl, "-X", "DELETE", "-H", "X-Who: ben", f"{topology.proxy.url}/fwdesk/brake"])
    assert (
        packages.said(
            [
                *curl,
                "-X",
                "POST",
                "-H",
                "X-Who: ben",
                "-H",
                "X-Fleet: acme",
                f"{topology.proxy.url}/fwdesk/brake",
            ]
        )
        == "200"
    )
    assert env.gives("held", **topology.near).startswith("brake: by anna"), "a field is believed"
    for field in ("Origin: https://elsewhere.example", "Sec-Fetch-Site: cross-site"):
        assert (
            packages.said(
                [*curl, "-X", "DELETE", "-H", field, f"{topology.proxy.url}/fwdesk/brake"]
            )
            == "403"
        )
    assert env.gives("held", **topology.near).startswith("brake: by anna")


def holds_without_the_proxy(env):
    """fwdesk-brake on the machine: written before it is told, and not confirmed where HAProxy doesn't run,
    which then starts held"""
    (name,), topology = env.fleet(1), Topology(env)
    env.rollout()
    file = env.folder / "held.map"
    assert (
        topology.by_itself("hold", "--who", "ben", "--reason", "by hand")[0] == 0
        and topology.links(name) == []
    )
    assert stat.S_IMODE(file.stat().st_mode) == 0o644 and '"who":"ben"' in file.read_text()
    assert (
        topology.by_itself("release")[0] == 0
        and topology.links(name) == ["deploymentBase"]
        and file.read_text() == ""
    )
    env.processes.end(topology.proxy.child)
    code, out, said = topology.by_itself("hold", "--who", "ben")
    assert (code, out) == (1, "") and "HAProxy doesn't confirm it" in said, said
    env.processes.start("haproxy", topology.proxy.words)
    eventually("HAProxy", lambda: topology.device(name)[0] == 200)
    assert topology.links(name) == [] and env.gives("held", **topology.near).startswith(
        "brake: by ben"
    )
    assert topology.by_itself("release")[0] == 0 and topology.links(name) == ["deploymentBase"]
    # two at the same time
    how = {"env": env.environment | topology.own, "stdout": subprocess.DEVNULL}
    both = [
        subprocess.Popen([CLI / "fwdesk-brake", "hold", "--kind", it], **how)
        for it in ("brake", "quiet")
    ]
    assert [it.wait() for it in both] == [0, 0]
    assert [it.split(" ")[0] for it in sorted(file.read_text().splitlines())] == ["brake", "quiet"]
    assert topology.by_itself("release", "--kind", "quiet")[0] == 0 and topology.links(name) == []
    # a disk that takes nothing: a hold is told all the same, and isn't confirmed; a release changes nothing
    assert topology.by_itself("release")[0] == 0
    code, _, said = topology.by_itself("hold", full=True)
    assert (
        code == 1
        and "cannot write" in said
        and "it holds until HAProxy is restarted or reloaded" in said
        and topology.links(name) == []
        and file.read_text() == ""
    ), said
    for kind in ("brake", "quiet"):
        assert topology.by_itself("hold", "--kind", kind)[0] == 0
    before = file.read_text()
    assert (
        topology.by_itself("release", full=True)[0] == 1
        and file.read_text() == before
        and env.gives("held", **topology.near).count("by root") == 2
    )


def refuses_to_hold(env):
    """hold: no brake at the desk itself; reasons that are too long or several lines;
    a proxy behind which nobody answers"""
    env.fleet(1)
    for verb in ("hold", "release", "held"):
        env.refuses(1, "the proxy has no brake", verb)
    topology = Topology(env)
    for reason in ("x" * 201, "two\nlines"):
        env.refuses(
            1,
            "a reason or a name has at most 200 characters",
            "hold",
            "--reason",
            reason,
            **topology.near,
        )
        assert topology.by_itself("hold", "--reason", reason)[0] == 2
    assert (
        topology.by_itself("hold", "--fleet", "a b")[0]
        == 2
        == topology.by_itself("hold", "--kind", "other")[0]
    )
    assert topology.by_itself("show", FWDESK_BRAKE_FILE=f"{env.folder}/none/held.map")[0] == 2
    assert env.call("POST", "/fwdesk/brake?kind=other", port=topology.proxy.near)[0] == 400
    assert env.call("PUT", "/fwdesk/brake", port=topology.proxy.near)[0] == 501
    assert env.ctl("held", **topology.near)[:2] == (0, "")
    topology.proxy.brake_socket.unlink()
    env.refuses(1, "nobody answers at fwdesk-brake.socket", "hold", **topology.near)


def holds_under_foreign_locks(env):
    """a user of the machine locks the folder and the file of the holds for good: who holds is answered all the same"""
    needs("flock", "setpriv")
    (name,), topology = env.fleet(1), Topology(env)
    env.rollout()
    env.folder.chmod(0o755)
    for place in (env.folder, env.folder / "held.map"):
        words = ["flock", str(place), "sleep", "600"]
        env.processes.start("lock", ["setpriv", "--reuid=65534", "--clear-groups", *words])
    time.sleep(1)
    slow, began = topology.seconds(), time.monotonic()
    assert topology.by_itself("hold", "--who", "ben")[0] == 0
    assert time.monotonic() - began < 10 + 6 * slow
    assert topology.links(name) == []
    env.gives("hold", "--kind", "quiet", **topology.near)
    assert (
        topology.by_itself("release")[0] == topology.by_itself("release", "--kind", "quiet")[0] == 0
    )
    lock = env.folder / ".lock"
    assert stat.S_IMODE(lock.stat().st_mode) == 0o600, "others may lock it"


def says_within_ten_seconds(env):
    """a hold that isn't confirmed says so within 10 seconds: another one that hangs, a HAProxy that doesn't answer, none"""
    topology = Topology(env)
    deaf = socket.socket(socket.AF_UNIX)
    deaf.bind(str(env.folder / "deaf.sock"))
    deaf.listen()

    def late(words, **more):
        slow = topology.seconds()
        began = time.monotonic()
        code, out, said = topology.by_itself("hold", **more)
        assert (code, out) == (1, "") and words in said, said
        assert time.monotonic() - began < 10 + 6 * slow, (time.monotonic() - began, slow)

    late("HAProxy doesn't confirm it", FWDESK_BRAKE_SOCKETS=str(env.folder / "deaf.sock"))
    late("HAProxy doesn't confirm it", FWDESK_BRAKE_SOCKETS=str(env.folder / "none.sock"))
    # one that hangs, as root
    with open(env.folder / ".lock") as lock:
        fcntl.flock(lock, fcntl.LOCK_EX)
        late("another program is changing")
        answer = env.ctl("hold", **topology.near)
        assert answer[0] == 1 and "another program is changing" in answer[2], answer
    assert topology.by_itself("hold")[0] == 0


def holds_by_a_broken_map(env):
    """lines of the map that a hand broke hold, and are told as broken; the next order leaves a whole file"""
    (name,), topology = env.fleet(1), Topology(env)
    env.rollout()
    file = env.folder / "held.map"
    for broken in ('brake {"who":"anna","sin', "brake", "brake 7", "brake %ff", "brake \xe9"):
        file.write_bytes(f"# a hand\n{broken}\n\n".encode("latin-1"))
        env.processes.end(topology.proxy.child)
        topology.proxy.child = env.processes.start("haproxy", topology.proxy.words)
        eventually("HAProxy", lambda: topology.device(name)[0] == 200)
        code, out, said = topology.by_itself("show")
        assert code == 0 and "has a broken line" in json.loads(out)["brake"]["reason"], said
        # the order of the other kind mends what the running HAProxy tells
        env.gives("hold", "--kind", "quiet", **topology.near)
        told = json.loads(env.gives("held", "--json", **topology.near))
        assert told["brake"]["who"] == "-" and told["quiet"]["who"] == "-", told
        assert topology.links(name) == []
        env.ctl("release", "--kind", "quiet", **topology.near)
        assert topology.links(name) == [], "a release of the other kind releases"
        assert env.ctl("release", **topology.near)[0] == 0 and topology.links(name) == [
            "deploymentBase"
        ]
        assert file.read_bytes() == b""
    file.unlink()
    env.gives("hold", **topology.near)
    assert file.read_text().startswith("brake ") and topology.links(name) == []


def holds_beside_idle_connections(env):
    """connections to the brake's socket over which nothing comes, or a byte now and then: each is ended within 4 seconds"""
    topology = Topology(env)
    links = [socket.socket(socket.AF_UNIX) for _ in range(20)]
    for number, link in enumerate(links):
        link.connect(str(topology.proxy.brake_socket))
        if number % 2:
            link.sendall(b"POST /fwdesk/brake HT")
    # (on a busy machine twenty programs that start keep one press for too long, which is told; the next one is done)
    eventually("the hold", lambda: env.ctl("hold", **topology.near)[0] == 0)
    # (of twenty programs that start at once each takes as long as all together)
    until = time.monotonic() + 4 + 8 + 30 * topology.seconds()
    for number, link in enumerate(links):
        link.settimeout(0.5)
        with contextlib.suppress(BrokenPipeError, ConnectionResetError):
            while time.monotonic() < until:
                with contextlib.suppress(TimeoutError):
                    if not link.recv(1):
                        break
                    link.sendall(b"x" if number % 2 else b"")
        assert time.monotonic() < until, number


CASES = [
    holds_under_foreign_locks,
    says_within_ten_seconds,
    holds_by_a_broken_map,
    holds_beside_idle_connections,
    holds,
    holds_in_two_kinds,
    knows_who_holds,
    holds_without_the_proxy,
    refuses_to_hold,
]
