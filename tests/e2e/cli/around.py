"""Cases of fwdesk-ctl: tokens, logins, other ways to a desk, silence, and what the pages tell."""
import csv
import json
import os
import re
import time
import tomllib

from harness import packages

from harness.fwdesk_ctl import CLI, HOST, PASSWORD, ROOT, Proxy, Relay


def makes_tokens(env):
    """tokens: a file for its owner alone, by which devices are known once it is imported; faults by their lines"""
    (env.folder / "ids").write_text('dev-1\ndev-2,"Pump, two"\n\ndev-3,Pump 3,yard\n')
    env.gives("tokens", "ids", "--out", "fleet.csv", "--tags", "lab new")
    made = env.folder / "fleet.csv"
    assert made.stat().st_mode & 0o777 == 0o600
    rows = list(csv.DictReader(made.read_text().splitlines()))
    told = [(it["controllerid"], it["name"], it["tags"]) for it in rows]
    assert told == [
        ("dev-1", "dev-1", "lab new"),
        ("dev-2", "Pump, two", "lab new"),
        ("dev-3", "Pump 3", "yard"),
    ]
    tokens = {it["controllerid"]: it["token"] for it in rows}
    assert len(set(tokens.values())) == 3
    assert all(re.fullmatch(r"[A-Za-z0-9._-]{32}", it) for it in tokens.values()), tokens
    assert env.gives("import", "fleet.csv") == "3"
    for name, token in tokens.items():
        assert env.call("GET", f"/DEFAULT/controller/v1/{name}", token=token)[0] == 200
    before = made.read_bytes()
    env.refuses(2, "File exists", "tokens", "ids", "--out", "fleet.csv")
    assert made.read_bytes() == before
    for text, words in (
        ("dev-1\n\ndev-1\n", "line 3"),
        ("dev-1\ndev 2\n", "line 2"),
        ("", "0 devices"),
    ):
        status, _, said = env.ctl("tokens", "-", "--out", "other.csv", given=text)
        assert status == 2 and words in said and not (env.folder / "other.csv").exists(), said
    head = "controllerid,name,token,tags\n"
    for text, words in (
        (f"{head}\n\na,A,tok-a-12,\nb,B,short,\n", "line 5: 400 import_line, line 3"),
        (f"{head}a,A,tok-a-12,", "its last line doesn't end"),
        ("", "it is empty"),
    ):
        (env.folder / "wrong.csv").write_text(text)
        env.refuses(1, words, "import", "wrong.csv")
    assert env.get("targets")["total"] == 3


def logs_in(env):
    """through HAProxy and TLS: a login of the environment or of its owner's file; wrong ones: refused, or not sent"""
    proxy = Proxy(env)
    env.fleet(2)
    safe = {"FWDESK_URL": proxy.url, "FWDESK_CA": str(env.folder / "server.crt")}
    anna = {"FWDESK_USER": "anna", "FWDESK_PASSWORD": PASSWORD}
    both = ["dev-00001", "dev-00002"]
    assert env.gives("targets", "--ids", **safe, **anna).split() == both
    assert (
        env.gives("--url", proxy.url, "targets", "--ca", "server.crt", "--ids", **anna).split()
        == both
    )
    for login in ({}, {"FWDESK_USER": "anna", "FWDESK_PASSWORD": "wrong"}):
        env.refuses(1, "the login isn't taken", "targets", **safe, **login)
    env.refuses(6, "cannot trust", "targets", FWDESK_URL=proxy.url, **anna)
    file = env.folder / ".netrc"
    file.write_text(f'machine localhost login anna password "{PASSWORD}"\n')
    file.chmod(0o640)
    env.refuses(2, "chmod 600", "targets", **safe)
    file.chmod(0o600)
    assert env.gives("targets", "--ids", **safe).split() == both
    for url, words in (
        ("https://anna:x@localhost:1", "the URL contains a login"),
        ("http://desk.example:1", "without TLS"),
        ("desk.example", "invalid URL 'desk.example': expected"),
    ):
        env.refuses(2, words, "targets", **{**anna, "FWDESK_URL": url})
    env.refuses(2, "missing", "targets", FWDESK_NETRC=str(env.folder / "missing"), **safe)
    env.refuses(
        2, "missing", "targets", **{**safe, **anna, "FWDESK_CA": str(env.folder / "missing")}
    )


def goes_other_ways(env):
    """by a socket of this machine, and with a path before /rest"""
    env.fleet(1)
    Relay(env.port, path=env.folder / "desk.sock")
    address = "http+unix://" + str(env.folder / "desk.sock").replace("/", "%2F")
    assert env.gives("targets", "--ids", FWDESK_URL=address) == "dev-00001"
    asked, relay = [], Relay(env.port)

    def led(piece):
        asked.append(piece.split(b" ")[1].decode())
        return piece.replace(b"/fleets/acme/", b"/", 1)

    relay.watched = led
    assert env.gives("targets", "--ids", FWDESK_URL=f"{relay.url}/fleets/acme/") == "dev-00001"
    assert asked[0].startswith("/fleets/acme/rest/v1/targets?"), asked


def tells_silence(env):
    """silent: by HAProxy's table, with those that it never saw; a text for Prometheus"""
    proxy = Proxy(env)
    names = env.fleet(4)
    near = {"FWDESK_URL": f"http://{HOST}:{proxy.near}"}
    asked = ("silent", "--socket", proxy.socket)

    def polls(name):
        assert (
            env.call("GET", f"/DEFAULT/controller/v1/{name}", token=f"tok-{name}", port=proxy.near)[
                0
            ]
            == 200
        )

    def silent(hours, *more):
        return env.gives(*asked, "--hours", hours, *more, **near)

    polls(names[0])
    polls(names[1])
    time.sleep(2)
    polls(names[1])
    hours = {it["controllerId"]: it["hours"] for it in json.loads(silent(1 / 3600, "--json"))}
    assert names[0] in hours and 1 < hours[names[0]] * 3600 < 60, hours
    assert {it for it in hours if hours[it] is None} == set(names[2:]), hours
    assert hours.get(names[1], 0) < hours[names[0]], "who polled later is silent for longer"
    status, out, said = env.ctl(*asked, "--hours", 5, "--ids", **near)
    assert (status, out.split()) == (0, names[2:]) and "HAProxy was started" in said, (out, said)
    # it hasn't run for five hours: who wasn't seen may have been there before
    assert silent(5, "--metrics").splitlines()[-1] == 'fwdesk_silent_targets{hours="5"} 0'
    assert silent(0, "--metrics").splitlines()[-1] == 'fwdesk_silent_targets{hours="0"} 4'
    assert silent(0, "--filter", f"controllerid=={names[3]}").split() == ["never", names[3]]
    env.refuses(2, "no table none", *asked, "--hours", 5, "--table", "none", **near)
    env.refuses(
        2, "HAProxy's socket", "silent", "--hours", 5, "--socket", env.folder / "none", **near
    )


def is_told(env):
    """each verb has its help; the man page has each verb and option, the completion too; each refusal has its words"""
    from fwdesk_ctl import commands, refusals

    page = (ROOT / "cli/fwdesk-ctl.1").read_text().replace("\\-", "-")
    table = tomllib.loads((ROOT / "docs/reference/refusals.toml").read_text())
    assert {it["name"] for it in table["refusal"]} == refusals.REFUSALS.keys()
    for verb in commands.VERBS:
        options = set(re.findall(r"--[a-z][a-z-]+", env.gives(verb, "--help")))
        missing = {it for it in options if it not in page}
        assert (
            f"\n\\fB{verb}\\fP " in page and not missing
        ), f"{verb}: the page lacks {missing or 'it'}"
    file = ROOT / "cli/fwdesk-ctl.bash-completion"
    for line, wanted in (("cancel", "cancel-open"), ("plan --dry", "--dry-run"), ("up", "upload")):
        words = f"COMP_WORDS=(fwdesk-ctl {line}); COMP_CWORD={len(line.split())}"
        script = f"source {file}; {words}; _fwdesk_ctl; echo ${{COMPREPLY[*]}}"
        own = {**os.environ, "PATH": f"{CLI}:{os.environ['PATH']}"}
        assert (
            said := packages.said(["bash", "-c", script], env=own).strip()
        ) == wanted, f"{line}: {said}"
    for line in ((), ("dance",), ("wait",), ("wait", "x")):
        env.refuses(2, "usage: fwdesk-ctl", *line)
    assert all(it in env.gives("--help") for it in commands.VERBS)


CASES = [makes_tokens, logs_in, goes_other_ways, tells_silence, is_told]
