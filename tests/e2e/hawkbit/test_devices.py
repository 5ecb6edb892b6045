"""The device half: nginx, fwdesk-hawkbit and HAProxy before the program, with the files of deploy/."""

import concurrent.futures
import hashlib
import json
import re
import threading

import pytest

from . import stage
from .stage import B, Between, Gateway, HAProxy, ask, payload, start_nginx, stub, sums_of

KEY, TOKEN = b"k" * 40, "gateway-token-of-32-letters-or-more"
KINDS = "soft downloadonly"


class Environment:
    """What the tests of this file share."""

    def __init__(self, folder, processes, desk):
        self.folder, self.processes, self.desk = folder, processes, desk
        self.images = folder / "images"
        self.haproxy = HAProxy(folder, desk.port, {"FWDESK_HAWKBIT_REGISTERS": "1"})
        desk.way = self.haproxy.port
        # by the ways that the package's unit has
        self.between = Between(self.haproxy.edge.devices, self.haproxy.reads)
        (folder / "key").write_bytes(KEY)
        (folder / "token").write_text(TOKEN)
        self.plain = self.gateway("plain")
        self.open = self.gateway("open", *self.words("key", "gateway-token"), "--register")
        self.known = self.gateway("known", *self.words("key", "gateway-token"))

    def words(self, *names):
        return [
            word for it in names for word in (f"--{it}", str(self.folder / it.rpartition("-")[2]))
        ]

    def gateway(self, name, *more):
        return Gateway(
            self.processes,
            self.folder / name,
            "devices",
            self.between.port,
            *("--firmware", str(self.images), "--kept", str(self.folder / name)),
            *more,
        )

    def deployment(self, who, action, gateway=None, **fields):
        told = (gateway or self.plain).device(who, "GET", f"/deploymentBase/{action}", **fields)
        assert told.status == 200, told.body
        return told.json()


def artifact_of(told, name):
    return next(
        it
        for chunk in told["deployment"]["chunks"]
        for it in chunk["artifacts"]
        if it["filename"] == name
    )


def path_of(href):
    return href[href.index("/DEFAULT/") :]


def test_links_are_whole_and_sums_are_all_there(env):
    env.desk.target("links")
    data = payload("links", 5000)
    action = env.desk.offer("links", "links", ("links.swu", data))
    fields = {"X-Forwarded-Proto": "https", "Host": "desk.example:8444"}
    poll = env.plain.device("links", "GET", "", **fields).json()
    base = f"https://desk.example:8444{B}/links"
    assert poll["_links"]["deploymentBase"]["href"] == f"{base}/deploymentBase/{action}"
    it = artifact_of(env.deployment("links", action, **fields), "links.swu")
    assert it["hashes"] == sums_of(data) and it["size"] == 5000
    names = {"download", "md5sum", "download-http", "md5sum-http"}
    assert set(it["_links"]) == names
    assert all(one["href"].startswith(f"{base}/softwaremodules/") for one in it["_links"].values())
    plain = artifact_of(env.deployment("links", action), "links.swu")["_links"]
    assert set(plain) == {"download-http", "md5sum-http"}
    got = env.plain.device(
        "links", "GET", path_of(it["_links"]["md5sum"]["href"]).removeprefix(f"{B}/links")
    )
    assert got.body.decode() == f"{sums_of(data)['md5']}  links.swu"


def test_ranges_and_head(env):
    env.desk.target("ranges")
    data = payload("ranges", 1000)
    action = env.desk.offer("ranges", "ranges", ("ranges.raucb", data))
    it = artifact_of(env.deployment("ranges", action), "ranges.raucb")
    place = path_of(it["_links"]["download-http"]["href"]).removeprefix(f"{B}/ranges")

    def get(method="GET", **fields):
        return env.plain.device("ranges", method, place, **fields)

    whole = get()
    assert (whole.status, whole.body) == (200, data)
    assert whole.fields["accept-ranges"] == "bytes"
    head = get("HEAD")
    assert (head.status, head.body, head.fields["content-length"]) == (200, b"", "1000")
    for asked, first, last in (
        ("bytes=0-9", 0, 9),
        ("bytes=990-", 990, 999),
        ("bytes=990-5000", 990, 999),
        ("bytes=-10", 990, 999),
        ("bytes=-5000", 0, 999),
        ("bytes=999-999", 999, 999),
    ):
        part = get(Range=asked)
        assert (part.status, part.body) == (206, data[first : last + 1]), asked
        assert part.fields["content-range"] == f"bytes {first}-{last}/1000"
    for asked in ("bytes=1000-", "bytes=-0"):
        part = get(Range=asked)
        assert (part.status, part.fields["content-range"]) == (416, "bytes */1000"), asked
    huge = f"bytes={'9' * 5000}-"
    for asked in ("bytes=9-0", "bytes=0-1,5-6", "lines=1-2", "bytes=-", "bytes=x-", huge):
        part = get(Range=asked)
        assert (part.status, part.body) == (200, data), asked
    tag = whole.fields["etag"]
    assert get(Range="bytes=5-", If_Range=tag).status == 206
    assert get(Range="bytes=5-", If_Range='"another"').body == data


def test_a_large_image_by_nginx(env, folder, processes):
    """Through nginx, with its ranges: before the start, without a token, while it is offered, and when it is done."""
    door = folder / "devices.sock"
    edge = env.haproxy.edge
    words = [
        str(stage.GATEWAY),
        "--devices",
        "--desk",
        str(edge.devices),
        "--reads",
        str(env.haproxy.reads),
    ]
    words += ["--firmware", str(env.images), "--listen", str(door)]
    child = processes.start("door", words)
    stage.eventually("the door", door.exists, child=child)
    port = start_nginx(folder, processes, door, edge.devices, env.images)
    data = payload("large", 6_000_000)
    (env.images / "large.raucb").write_bytes(data)
    token = {"Authorization": f"TargetToken {env.desk.target('large')}"}
    bundle, module = env.desk.firmware("large", ("large.raucb", stub(data)))
    place = f"{B}/large/softwaremodules/{module}/artifacts/large.raucb"

    def get(method="GET", path=place, fields=token, **more):
        return ask(port, method, path, fields=fields | more, tls=True)

    assert get().status == 404
    number = env.desk.plan("large", bundle, "controllerid==large")
    env.desk.ask("POST", f"/rollouts/{number}/start")
    action = env.desk.actions("large")[-1]["id"]
    poll = get(path=f"{B}/large").json()
    href = poll["_links"]["deploymentBase"]["href"]
    assert href == f"https://{stage.HOST}:{port}{B}/large/deploymentBase/{action}"
    it = artifact_of(get(path=path_of(href)).json(), "large.raucb")
    assert it["hashes"] == sums_of(data) and it["size"] == len(data)
    assert it["_links"]["download"]["href"] == f"https://{stage.HOST}:{port}{place}"
    assert get().body == data
    assert get("HEAD").fields["content-length"] == str(len(data))
    part = get(Range="bytes=5999990-")
    assert (part.status, part.body) == (206, data[-10:])
    assert get(fields={}).status == 401
    assert get(fields={"Authorization": "TargetToken tok-wrong-one"}).status == 401
    assert get(path="/images/large.raucb").status == 404
    assert get(path=f"{place}.MD5SUM").body.decode() == f"{sums_of(data)['md5']}  large.raucb"
    ended = {"status": {"execution": "closed", "result": {"finished": "success"}}}
    path = f"{B}/large/deploymentBase/{action}/feedback"
    assert ask(port, "POST", path, ended, token, tls=True).status == 200
    assert get().status == 404
    rauc = get(path=f"{B}/large", **{"User-Agent": "rauc-hawkbit-updater/1.4"}).json()
    assert rauc["_links"] == {
        "configData": {"href": f"https://{stage.HOST}:{port}{B}/large/configData"}
    }
    assert get(path=f"{B}/large").json()["_links"] == {}


def test_a_large_image_without_nginx(env):
    data = payload("alone", 5_000_000)
    (env.images / "alone.swu").write_bytes(data)
    env.desk.target("alone")
    action = env.desk.offer("alone", "alone", ("alone.swu", stub(data)))
    it = artifact_of(env.deployment("alone", action), "alone.swu")
    place = path_of(it["_links"]["download-http"]["href"]).removeprefix(f"{B}/alone")
    assert env.plain.device("alone", "GET", place).body == data
    part = env.plain.device("alone", "GET", place, Range="bytes=4999999-")
    assert (part.status, part.body) == (206, data[-1:])
    head = env.plain.device("alone", "HEAD", place)
    assert (head.fields["content-length"], head.body) == (str(len(data)), b"")


def test_an_image_that_comes_late_fails_nobody(env):
    data = payload("late", 5_000_000)
    env.desk.target("late")
    action = env.desk.offer("late", "late", ("late.swu", stub(data)))
    told = env.plain.device("late", "GET", f"/deploymentBase/{action}")
    assert told.status == 503 and told.fields["retry-after"]
    assert env.desk.actions("late")[-1]["status"] == "running"
    (env.images / "late.swu").write_bytes(data[:-1] + b"?")
    assert env.plain.device("late", "GET", f"/deploymentBase/{action}").status == 503
    (env.images / "late.swu").write_bytes(data)
    assert artifact_of(env.deployment("late", action), "late.swu")["hashes"] == sums_of(data)


def test_thirty_devices_have_an_artifact_counted_once(env):
    data = payload("thirty", 2_000_000)
    names = [f"thirty-{it}" for it in range(30)]
    for it in names:
        env.desk.target(it, ("thirty",))
    env.desk.offer(names[0], "thirty", ("thirty.swu", data), text="tag==thirty")
    actions = {it: env.desk.actions(it)[-1]["id"] for it in names}
    env.between.seen.clear()
    told = {}

    def get(who):
        told[who] = artifact_of(env.deployment(who, actions[who]), "thirty.swu")["hashes"]

    threads = [threading.Thread(target=get, args=(it,)) for it in names]
    for it in threads:
        it.start()
    for it in threads:
        it.join()
    assert len(told) == 30 and all(it == sums_of(data) for it in told.values())
    assert sum("/artifacts/" in it for it in env.between.seen) == 1


def test_what_a_device_says_is_in_the_history(env):
    env.desk.target("says")
    action = env.desk.offer("says", "says", ("says.swu", b"says"))

    def say(execution, finished, *details, **more):
        status = {"execution": execution, "result": {"finished": finished}, "details": details}
        body = {"id": str(action), "time": "20261129T120000", "status": status | more}
        return env.plain.device("says", "POST", f"/deploymentBase/{action}/feedback", body)

    for it in (
        "proceeding",
        "scheduled",
        "resumed",
        "rejected",
        "download",
        "downloaded",
        "canceled",
    ):
        assert say(it, "none", f"it is {it}").status == 200, it
    assert say("flying", "none").status == 400
    assert say("closed", "success", "x" * 300, "two\nlines", code=7).status == 200
    last = ["x" * 256, "x" * 44, "two", "lines", "Device reported status code: 7"]
    assert env.desk.history("says", action) == [
        ("deployment", "proceeding", "none", ["it is proceeding"]),
        ("deployment", "scheduled", "none", ["it is scheduled"]),
        ("deployment", "resumed", "none", ["it is resumed"]),
        ("deployment", "rejected", "none", ["it is rejected"]),
        ("deployment", "proceeding", "none", ["download, none", "it is download"]),
        ("deployment", "proceeding", "none", ["downloaded, none", "it is downloaded"]),
        ("deployment", "proceeding", "none", ["canceled, none", "it is canceled"]),
        ("deployment", "closed", "success", last),
    ]
    assert say("closed", "failure").status == 410
    assert env.desk.actions("says")[-1]["status"] == "finished"


@pytest.mark.parametrize(
    "execution, finished, wanted",
    [
        ("canceled", "success", "canceled"),
        ("closed", "success", "canceled"),
        ("rejected", "none", "running"),
        ("closed", "failure", "running"),
    ],
)
def test_a_cancel(env, execution, finished, wanted):
    who = f"cancel-{execution}-{finished}"
    env.desk.target(who)
    action = env.desk.offer(who, who, ("a.swu", who.encode()))
    env.desk.ask("DELETE", f"/targets/{who}/actions/{action}")
    links = env.plain.device(who, "GET").json()["_links"]
    assert path_of(links["cancelAction"]["href"]) == f"{B}/{who}/cancelAction/{action}"
    told = env.plain.device(who, "GET", f"/cancelAction/{action}").json()
    assert told == {"id": str(action), "cancelAction": {"stopId": str(action)}}
    body = {"status": {"execution": execution, "result": {"finished": finished}}}
    assert env.plain.device(who, "POST", f"/cancelAction/{action}/feedback", body).status == 200
    assert env.desk.actions(who)[-1]["status"] == wanted


def test_attributes(env):
    env.desk.target("self")
    put = lambda **told: env.plain.device("self", "PUT", "/configData", told).status
    asked = lambda: env.plain.device("self", "GET").json()["_links"]
    assert path_of(asked()["configData"]["href"]) == f"{B}/self/configData"
    assert put(data={"HW Version": "2", "os": "linux"}, mode="merge") == 200
    assert asked() == {}
    own = {"hawkbit.kinds": KINDS}
    held = lambda: env.desk.attributes("self")
    assert held() == {"HW_Version": "2", "os": "linux"} | own
    env.between.seen.clear()
    assert put(data={"os": "linux", "HW Version": "2"}, mode="merge") == 200
    assert env.between.seen == [f"GET {B}/self"], "what it said already is written again"
    assert put(data={"HW Version": "3"}, mode="replace") == 200
    assert held() == {"HW_Version": "3", "os": ""} | own
    assert put(data={"HW Version": "", "never": "there"}, mode="remove") == 200
    assert held() == {"HW_Version": "", "os": ""} | own
    assert put(data={"hawkbit.kinds": "mine"}) == 200 and held()["hawkbit.kinds"] == KINDS
    assert put(data={"a": "b"}, mode="swap") == 400 and put(data=5) == 400


def test_32_attributes_of_a_device_are_its_own(env):
    env.desk.target("many")
    data = {f"a{it}": str(it) for it in range(32)}
    assert env.plain.device("many", "PUT", "/configData", {"data": data}).status == 200
    assert env.desk.attributes("many") == data
    told = env.plain.device("many", "PUT", "/configData", {"data": data | {"one": "more"}})
    assert told.status == 400 and env.desk.attributes("many") == data
    told = env.plain.device("many", "PUT", "/configData", {"data": {"one": "more"}})
    assert (told.status, told.json()["error"]) == (403, "quota")


def test_what_is_installed(env):
    env.desk.target("base")
    data = payload("base", 700)
    action = env.desk.offer("base", "base", ("base.swu", data))
    assert env.plain.device("base", "GET", f"/installedBase/{action}").status == 404
    ended = {"status": {"execution": "closed", "result": {"finished": "success"}}}
    env.plain.device("base", "POST", f"/deploymentBase/{action}/feedback", ended)
    told = env.plain.device("base", "GET", f"/installedBase/{action}").json()
    assert told["id"] == str(action) and artifact_of(told, "base.swu")["hashes"] == sums_of(data)
    (chunk,) = told["deployment"]["chunks"]
    assert (chunk["part"], chunk["name"], chunk["version"]) == ("os", "base", "1")
    env.desk.target("base-2")
    other = env.plain.device("base-2", "GET", f"/installedBase/{action}")
    assert other.status == 404


def test_the_artifacts_of_a_module(env):
    env.desk.target("list")
    files = [(f"{it}.swu", payload(it, 100)) for it in ("one", "two")]
    action = env.desk.offer("list", "list", *files)
    (chunk,) = env.deployment("list", action)["deployment"]["chunks"]
    module = re.search(r"softwaremodules/(\d+)/", json.dumps(chunk))[1]
    told = env.plain.device("list", "GET", f"/softwaremodules/{module}/artifacts").json()
    assert told == chunk["artifacts"]
    assert [(it["filename"], it["hashes"]) for it in told] == [(n, sums_of(d)) for n, d in files]
    assert env.plain.device("list", "GET", "/softwaremodules/1/artifacts").status == 404
    env.desk.target("list-2")
    assert env.plain.device("list-2", "GET", f"/softwaremodules/{module}/artifacts").status == 404


def come(env, *names):
    """Targets whose attributes came through the gateway."""
    for it in names:
        env.desk.target(it, ("kinds",))
        told = env.plain.device(it, "PUT", "/configData", {"data": {"os": it}})
        assert told.status == 200


@pytest.mark.parametrize(
    "kind, ways", [("soft", ("attempt", "attempt")), ("downloadonly", ("forced", "skip"))]
)
def test_soft_and_download_only_are_for_those_alone_who_come_this_way(env, kind, ways):
    who, other = f"{kind}-1", f"{kind}-2"
    come(env, who)
    env.desk.target(other, ("kinds",))
    text = f"(controllerid=={who},controllerid=={other});attribute.hawkbit.kinds==*{kind}*"
    action = env.desk.offer(who, kind, (f"{kind}.swu", kind.encode()), text=text)
    told = env.deployment(who, action)["deployment"]
    assert (told["download"], told["update"]) == ways
    assert env.desk.actions(other) == [] and "deploymentBase" not in (
        env.plain.device(other, "GET").json()["_links"]
    )
    body = {"status": {"execution": "downloaded", "result": {"finished": "none"}}}
    assert env.plain.device(who, "POST", f"/deploymentBase/{action}/feedback", body).status == 200
    wanted = "finished" if kind == "downloadonly" else "running"
    assert env.desk.actions(who)[-1]["status"] == wanted
    # what is sent again, since its answer was lost, changes nothing
    assert env.plain.device(who, "POST", f"/deploymentBase/{action}/feedback", body).status == 200


def test_the_gateway_token_is_off_at_first(env):
    env.desk.target("gate")
    fields = {"Authorization": f"GatewayToken {TOKEN}"}
    assert env.plain.device("gate", "GET", **fields).status == 401
    assert env.plain.device("nobody", "GET", **fields).status == 401
    assert not any(" 200 " in it for it in env.desk.ask("GET", "/targets?q=controllerid==nobody"))


def test_the_gateway_token_alone_registers_nobody(env):
    fields = {"Authorization": f"GatewayToken {TOKEN}"}
    assert env.known.device("stranger", "GET", **fields).status == 401
    assert env.desk.ask("GET", "/targets?q=controllerid==stranger")["total"] == 0
    # a target with the token that the gateway makes for it, as `--tokens` prints it
    row = {"controllerId": "made", "name": "made", "tags": [], "securityToken": token_for("made")}
    env.desk.ask("POST", "/targets", [row])
    assert env.known.device("made", "GET", **fields).status == 200
    assert env.known.device("made", "GET", Authorization="GatewayToken wrong-token").status == 401
    assert env.known.device("made", "GET", Authorization="GatewayToken \xff").status == 401
    # one that has a token of its own
    env.desk.target("gate-own")
    assert env.known.device("gate-own", "GET", **fields).status == 401


def token_for(who):
    import subprocess

    folder = next(iter(Gateways.folder))
    words = [str(stage.GATEWAY), "--tokens", who, "--key", str(folder / "key")]
    told = subprocess.run(words, check=True, capture_output=True, text=True).stdout.split()
    assert told[0] == "controllerid,name,token,tags"
    return told[1].split(",")[2]


class Gateways:
    folder: set = set()


@pytest.fixture(autouse=True, scope="module")
def keys(env):
    Gateways.folder.add(env.folder)
    yield
    Gateways.folder.clear()


def test_registration(env):
    fields = {"Authorization": f"GatewayToken {TOKEN}"}
    assert env.open.device("new-one", "GET", Authorization="GatewayToken wrong").status == 401
    assert env.desk.ask("GET", "/targets?q=controllerid==new-one")["total"] == 0
    assert env.open.device("new-one", "GET", **fields).status == 200
    assert env.desk.ask("GET", "/targets/new-one")["name"] == "new-one"
    assert env.open.device("no%20word", "GET", **fields).status == 401
    env.desk.target("its-own", ("mine",))
    assert env.open.device("its-own", "GET", **fields).status == 401
    it = env.desk.ask("GET", "/targets/its-own")
    assert it["tags"] == ["mine"] and env.plain.device("its-own", "GET").status == 200
    action = env.desk.offer("new-one", "new-one", ("new.swu", b"new"))
    told = env.open.device("new-one", "GET", f"/deploymentBase/{action}", **fields)
    assert artifact_of(told.json(), "new.swu")["hashes"] == sums_of(b"new")


def test_eight_registrations_at_once_make_one_target(env):
    fields = {"Authorization": f"GatewayToken {TOKEN}"}
    got = []
    ask_it = lambda: got.append(env.open.device("at-once", "GET", **fields).status)
    threads = [threading.Thread(target=ask_it) for _ in range(8)]
    env.between.seen.clear()
    for it in threads:
        it.start()
    for it in threads:
        it.join()
    assert got == [200] * 8
    assert [it for it in env.between.seen if it.startswith("POST")] == ["POST /rest/v1/targets"]


@pytest.mark.parametrize("when", ["before", "after"])
def test_a_registration_whose_reply_is_lost(env, when):
    """The device asks again, and is that one target."""
    fields, who = {"Authorization": f"GatewayToken {TOKEN}"}, f"lost-{when}"
    env.between.rule = lambda call: when if call.startswith("POST /rest/") else None
    assert env.open.device(who, "GET", **fields).status == 503
    env.between.rule = None
    held = env.desk.ask("GET", f"/targets?q=controllerid=={who}")["total"]
    assert held == (when == "after")
    env.between.seen.clear()
    assert env.open.device(who, "GET", **fields).status == 200
    assert env.desk.ask("GET", f"/targets?q=controllerid=={who}")["total"] == 1
    wrote = [it for it in env.between.seen if it.startswith("POST")]
    assert len(wrote) == (when == "before"), "what is there is written again"


def test_two_gateways_register_one_device_at_once(env):
    """Whichever comes second writes what is there already: both make the same token of the id."""
    second = env.gateway("beside", *env.words("key", "gateway-token"), "--register")
    fields, doors = {"Authorization": f"GatewayToken {TOKEN}"}, (env.open, second)
    env.between.rule = lambda call: 0.5 if call.startswith("POST /rest/") else None
    with concurrent.futures.ThreadPoolExecutor(8) as pool:
        jobs = [pool.submit(doors[it % 2].device, "beside", "GET", **fields) for it in range(8)]
        assert [it.result().status for it in jobs] == [200] * 8
    assert env.desk.ask("GET", "/targets?q=controllerid==beside")["total"] == 1
    assert [it.device("beside", "GET", **fields).status for it in doors] == [200, 200]


def imports(env, *names):
    """A file of these targets, each with a token of its own, as `device` shows it."""
    rows = "".join(f"{it},Of the file,tok-{it},file\n" for it in names)
    text = f"controllerid,name,token,tags\n{rows}".encode()
    told = ask(env.desk.way, "POST", "/desk/v1/import", text)
    assert told.status == 200, told


def is_of_the_file(env, who):
    it = env.desk.ask("GET", f"/targets/{who}")
    assert (it["name"], it["tags"]) == ("Of the file", ["file"])
    assert env.plain.device(who, "GET").status == 200, "its token is another one"


def test_a_registration_writes_over_no_target_that_is_imported_meanwhile(env):
    """Behind the look that found none, and before the write."""
    fields, who = {"Authorization": f"GatewayToken {TOKEN}"}, "raced"

    def rule(call):
        if call == "POST /rest/v1/targets":
            env.between.rule = None
            imports(env, who)

    env.between.rule = rule
    assert env.open.device(who, "GET", **fields).status == 401, "it has a token of its own"
    is_of_the_file(env, who)


def test_a_target_that_registered_takes_the_token_of_a_later_import(env):
    fields, who = {"Authorization": f"GatewayToken {TOKEN}"}, "registered-first"
    assert env.open.device(who, "GET", **fields).status == 200
    imports(env, who)
    assert env.open.device(who, "GET", **fields).status == 401
    is_of_the_file(env, who)


def test_imports_beside_registrations_by_two_services(env):
    """Past the test's own look, so that all come at the same time. In the end each target is the one of the file."""
    fields = {"Authorization": f"GatewayToken {TOKEN}"}
    words = ["--firmware", str(env.images), "--reads", str(env.haproxy.reads), "--register"]
    words += env.words("key", "gateway-token")
    door = str(env.haproxy.edge.devices)
    doors = [
        Gateway(env.processes, env.folder / f"register-{it}", "devices", door, *words)
        for it in range(2)
    ]
    names = [f"crowd-{it}" for it in range(60)]
    with concurrent.futures.ThreadPoolExecutor(8) as pool:
        jobs = [
            pool.submit(doors[it % 2].device, who, "GET", **fields)
            for it in range(4)
            for who in names
        ]
        for at in range(0, len(names), 5):
            imports(env, *names[at : at + 5])
        told = {it.result().status for it in jobs}
    assert told <= {200, 401, 503}, told
    for it in names:
        is_of_the_file(env, it)
    for it in doors:
        it.kill()


CALLS = [
    ("GET", "", None),
    ("GET", "/deploymentBase/{action}", None),
    ("GET", "/installedBase/{action}", None),
    ("GET", "/cancelAction/{action}", None),
    ("POST", "/deploymentBase/{action}/feedback", {"status": {"execution": "downloaded"}}),
    ("POST", "/deploymentBase/{action}/feedback", {"status": {"execution": "closed"}}),
    ("POST", "/cancelAction/{action}/feedback", {"status": {"execution": "closed"}}),
    ("PUT", "/configData", {"data": {"a": "b"}}),
    ("PUT", "/configData", {"data": {"a": "b"}, "mode": "replace"}),
    ("PUT", "/configData", {"data": {"a": "b"}, "mode": "remove"}),
    ("GET", "/softwaremodules/1/artifacts", None),
    ("GET", "/softwaremodules/1/artifacts/links.swu", None),
    ("HEAD", "/softwaremodules/1/artifacts/links.swu", None),
    ("GET", "/softwaremodules/1/artifacts/links.swu.MD5SUM", None),
]


@pytest.mark.parametrize("method, rest, body", CALLS)
def test_the_desk_judges_a_token_before_anything_is_looked_up(env, method, rest, body):
    who = "judged"
    if not any(
        it["name"] == who for it in env.desk.ask("GET", f"/targets?q=name=={who}")["content"]
    ):
        env.desk.target(who)
        env.desk.offer(who, who, ("judged.swu", b"judged"))
    place = rest.format(action=env.desk.actions(who)[-1]["id"])
    env.between.seen.clear()
    for told in (
        "TargetToken tok-another",
        "TargetToken x",
        "Basic abc",
        "",
        "TargetToken \xe9" * 3,
    ):
        assert env.plain.device(who, method, place, body, Authorization=told).status == 401, told
    assert not any("/rest/" in it for it in env.between.seen), env.between.seen
    assert all(it.split(" ")[1].startswith(f"{B}/{who}") for it in env.between.seen)


def test_paths_that_are_none(env):
    env.desk.target("paths")
    device = env.plain.device
    for rest in (
        "/deploymentBase/0",
        "/deploymentBase/x",
        "/softwaremodules/1/artifacts/..%2Fkey",
        "/nothing",
    ):
        assert device("paths", "GET", rest).status == 404, rest
    assert device("paths", "GET", "/softwaremodules/1/artifacts/%2E%2E").status in (401, 404)
    assert (
        env.plain("GET", "/OTHER/controller/v1/paths", Authorization="TargetToken tok-paths").status
        == 401
    )
    assert device("paths", "GET", "", Host="a b").status == 400
    assert device("paths", "DELETE").status == 404
    assert env.plain("GET", "/rest/v1/targets").status in (404, 501)
    big = b'{"data":{"a":"' + b"x" * 70_000 + b'"}}'
    assert device("paths", "PUT", "/configData", big).status == 413


def test_the_brake_holds(env):
    env.desk.target("brake")
    action = env.desk.offer("brake", "brake", ("brake.swu", b"brake"))
    env.deployment("brake", action)
    env.haproxy.brake("hold")
    try:
        assert "deploymentBase" not in env.plain.device("brake", "GET").json()["_links"]
        told = env.plain.device("brake", "GET", f"/deploymentBase/{action}")
        assert (told.status, told.json()) == (503, {"error": "held"})
        assert told.fields["retry-after"] == "300"
        assert env.plain.device("brake", "GET", "/softwaremodules/1/artifacts").status == 404
    finally:
        env.haproxy.brake("release")
    assert env.deployment("brake", action)["id"] == str(action)


HOW = {
    "dies before": "before",
    "dies after": "after",
    "answers no JSON": (200, "application/json", b"{"),
    "answers another object": (200, "application/json", b"[]"),
    "answers an empty object": (200, "application/json", b"{}"),
    "is stopped": (503, "application/json", b'{"error":"stopped","number":17}'),
    "has lost its database": (500, "application/json", b'{"error":"store","number":16}'),
    "sends a page": (502, "text/html", b"<html>"),
}


@pytest.mark.parametrize("how", HOW)
def test_a_desk_that_dies_or_answers_wrongly(env, how):
    who = f"wrong-{hashlib.md5(how.encode()).hexdigest()[:8]}"
    env.desk.target(who)
    action = env.desk.offer(who, who, (f"{who}.swu", payload(who, 100)))
    place = f"/deploymentBase/{action}"
    for calls in ("/DEFAULT/", "/rest/"):
        env.between.rule = lambda call: HOW[how] if calls in call else None
        told = env.plain.device(who, "GET", place)
        assert told.status >= 500, (calls, told)
        assert b"Traceback" not in told.body
    env.between.rule = None
    it = artifact_of(env.deployment(who, action), f"{who}.swu")
    assert it["hashes"] == sums_of(payload(who, 100))


def test_a_desk_that_sends_other_bytes_than_it_tells(env):
    env.desk.target("corrupt")
    action = env.desk.offer("corrupt", "corrupt", ("corrupt.swu", b"right"))
    octets = (200, "application/octet-stream", b"wrong")
    env.between.rule = lambda call: octets if "/artifacts/" in call else None
    assert env.plain.device("corrupt", "GET", f"/deploymentBase/{action}").status == 503
    env.between.rule = None
    assert artifact_of(env.deployment("corrupt", action), "corrupt.swu")["hashes"] == sums_of(
        b"right"
    )


def test_a_desk_that_answers_late(env):
    env.desk.target("slow")
    env.between.rule = lambda _: 2
    assert env.plain.device("slow", "GET").status == 200


def test_a_desk_that_is_started_anew(env):
    env.desk.target("anew")
    action = env.desk.offer("anew", "anew", ("anew.swu", b"anew"))
    env.processes.end(env.desk.child)
    env.desk.start()
    assert artifact_of(env.deployment("anew", action), "anew.swu")["hashes"] == sums_of(b"anew")


def test_a_report_by_a_number_may_be_sent_again(env):
    env.desk.target("number")
    action = env.desk.offer("number", "number", ("number.swu", b"number"))
    body = {"number": 1, "status": {"execution": "proceeding", "details": ["once"]}}
    path = f"/deploymentBase/{action}/feedback"
    for rule in ("after", "before", None):
        env.between.rule = lambda _, rule=rule: rule
        told = env.plain.device("number", "POST", path, body)
        assert told.status == (503 if rule else 200)
    assert env.desk.history("number", action) == [("deployment", "proceeding", "none", ["once"])]


@pytest.mark.parametrize(
    "body", [b"", b"{", b"[]", b"5", b"\xff\xfe", b"[" * 60_000, b'{"status":[]}']
)
def test_hostile_bodies(env, body):
    env.desk.target("hostile")
    if not env.desk.actions("hostile"):
        env.desk.offer("hostile", "hostile", ("hostile.swu", b"hostile"))
    action = env.desk.actions("hostile")[-1]["id"]
    for method, rest in (("POST", f"/deploymentBase/{action}/feedback"), ("PUT", "/configData")):
        told = env.plain.device("hostile", method, rest, body)
        assert told.status == 400 and told.json()["errorCode"].startswith(
            "hawkbit.server.error."
        ), told
    assert env.desk.history("hostile", action) == []


def test_two_gateways_before_one_desk(env):
    second = env.gateway("second", *env.words("key", "gateway-token"), "--register")
    fields = {"Authorization": f"GatewayToken {TOKEN}"}
    assert [it.device("both", "GET", **fields).status for it in (env.open, second)] == [200, 200]
    action = env.desk.offer("both", "both", ("both.swu", b"both"))
    told = [env.deployment("both", action, it, **fields) for it in (env.open, second)]
    hashes = [artifact_of(it, "both.swu")["hashes"] for it in told]
    assert hashes == [sums_of(b"both")] * 2
    body = {"status": {"execution": "closed", "result": {"finished": "success"}}}
    path = f"/deploymentBase/{action}/feedback"
    assert [
        it.device("both", "POST", path, body, **fields).status for it in (second, env.open)
    ] == [200, 200]
    assert len(env.desk.history("both", action)) == 1
