"""The gateway dies before and after each of its calls of the desk; another one begins, the client asks the same again, and
what the desk then has is what one undisturbed try makes.

Each call of each course, of pipelines and of devices: the gateway is within the test, and after its death nothing of it
reaches the desk. Some courses once more by a process that is killed. FWDESK_DEATHS=N: of the assignment of thirty each N-th call (default: 9)."""

import asyncio
import json
import os
import re

import aiohttp
import pytest
from aiohttp.test_utils import TestClient, TestServer
from fwdesk_hawkbit import calls, devices, kinds, manage, serve
from fwdesk_hawkbit.desk import Desk
from fwdesk_hawkbit.devices import token_of
from fwdesk_hawkbit.kept import Kept
from fwdesk_hawkbit.sums import Artifacts

from . import stage
from .stage import B, R, Between, Gateway, ask, payload, stub, sums_of
from .test_manage import KIND, form

EACH = int(os.environ.get("FWDESK_DEATHS", "9"))
# more calls than any course has
BOUND = 400
KEY, TOKEN = b"k" * 40, "t" * 40


class Died(BaseException):
    """It is over, for whatever would go on."""


class Mortal(Desk):
    """Dies at a call: before the desk has it, or when the desk has answered. From then on nothing reaches the desk."""

    left, late, dead = None, False, False

    async def raw(self, *words, **how):
        if self.dead:
            raise Died
        if self.left is not None:
            self.left -= 1
            if self.left == 0 and not self.late:
                self.dead = True
                raise Died
        told = await super().raw(*words, **how)
        if self.left == 0:
            self.dead = True
            raise Died
        return told


class Environment:
    """The program, what an operator does there, and how often somebody died."""

    def __init__(self, folder, processes, desk):
        self.folder, self.processes, self.desk, self.serial = folder, processes, desk, 0
        self.images, self.deaths = folder / "images", 0
        (folder / "key").write_bytes(KEY)

    def name(self):
        self.serial += 1
        return f"n{self.serial}"

    def module(self):
        row = {"name": self.name(), "type": "os", "version": "1"}
        return self.desk.ask("POST", "/softwaremodules", [row])[0]["id"]

    def bundle(self):
        return self.desk.firmware(self.name())[0]

    def targets(self, count=1, name=None):
        name = name or self.name()
        ids = [f"{name}-{it}" for it in range(count)]
        rows = [
            {"controllerId": it, "name": it, "securityToken": token_of(KEY, it), "tags": []}
            for it in ids
        ]
        self.desk.ask("POST", "/targets", rows)
        return ids

    def gives(self, bundle, who):
        """An open action of a set, and its number."""
        number = self.desk.plan(self.name(), bundle, f"controllerid=={who}")
        self.desk.ask("POST", f"/rollouts/{number}/start")
        return self.desk.actions(who)[-1]["id"]

    def rollouts_of(self, bundle):
        held = self.desk.ask("GET", "/rollouts?limit=500")["content"]
        return [it for it in held if it["distributionSetId"] == bundle]

    def no_tags(self):
        """Nothing is left of what was there for a moment."""
        assert self.desk.ask("GET", "/targets?q=tag==hb.*;tag!=hb.gone")["total"] == 0

    def management(self, desk):
        kept = Kept(self.folder / "deaths")
        return manage.make(calls.Gateway(desk, Artifacts(self.images, None), kept, KEY, hides=True))

    def devices(self, desk):
        service = devices.Service(desk, desk, Artifacts(self.images, None), key=KEY)
        service.gateway_token, service.registers = TOKEN, True
        return serve.make_devices(service)

    def offer(self, kind=kinds.FORCED, size=100):
        """A target that an artifact is offered to: its id, its action, and the path of the artifact."""
        (who,), name, data = self.targets(), f"{self.name()}.swu", payload("offered", size)
        if size > 4_194_304:
            (self.images / name).write_bytes(data)
            data = stub(data)
        own = {"data": {kinds.KEY: kinds.VALUE}}
        fields = {"Authorization": f"TargetToken {token_of(KEY, who)}"}
        assert ask(self.desk.port, "PUT", f"{B}/{who}/configData", own, fields).status == 200
        text = kinds.with_kind(f"controllerid=={who}", kind)
        action = self.desk.offer(who, self.name(), (name, data), text=text)
        told = ask(self.desk.port, "GET", f"{B}/{who}/deploymentBase/{action}", fields=fields)
        (chunk,) = told.json()["deployment"]["chunks"]
        return who, action, chunk["artifacts"][0]["_links"]["download-http"]["href"]

    async def life(self, how, at=None, late=False):
        """One gateway from its start to its end, and one request: the status, or None where it died."""
        desk = Mortal(f"http://{stage.HOST}:{self.desk.port}", 1)
        method, path, body, fields = how
        is_device = path.startswith(B)
        app = self.devices(desk) if is_device else self.management(desk)
        client = TestClient(TestServer(app))
        await client.start_server()
        if not is_device:
            await app["tidies"]
            path, fields = f"{R}/{path}", fields | {"X-Fwdesk-May": "look,steer"}
        desk.left, desk.late = at, late
        data = body if body is None or isinstance(body, bytes) else json.dumps(body).encode()
        try:
            async with client.request(method, path, data=data, headers=fields) as told:
                status = told.status
        except aiohttp.ClientError:
            status = None
        dead = desk.dead
        desk.dead = False
        await client.close()
        return None if dead else status

    def dies(self, course, at, late):
        """One death, and the second try; False where the course has fewer calls."""
        how, wanted, right = course(self)
        first = asyncio.run(self.life(how, at, late))
        if first is not None:
            assert first in wanted, first
            right()
            return False
        self.deaths += 1
        second = asyncio.run(self.life(how))
        assert second in wanted, (at, late, second)
        right()
        return True


@pytest.fixture
def env(tmp_path):
    """A desk for each course, since each life of a gateway looks through all targets."""
    (tmp_path / "images").mkdir()
    processes = stage.Processes(tmp_path)
    yield Environment(tmp_path, processes, stage.Desk(tmp_path, processes))
    processes.end_all()


def assign_one(env):
    """A target with an open action of another set."""
    old, new, (who,) = env.bundle(), env.bundle(), env.targets()
    env.gives(old, who)

    def right():
        told = [(it["status"], plan_of(env, it)) for it in env.desk.actions(who)]
        assert told == [("canceling", old), ("running", new)], told

    return ("POST", f"distributionsets/{new}/assignedTargets", [{"id": who}], {}), {200}, right


def plan_of(env, action):
    return env.desk.ask("GET", f"/rollouts/{action['rollout']}")["distributionSetId"]


def assign_thirty(env):
    new, ids = env.bundle(), env.targets(30)

    def right():
        (plan,) = env.rollouts_of(new)
        assert (plan["totalTargets"], plan["status"]) == (30, "running")
        assert all([it["status"] for it in env.desk.actions(who)] == ["running"] for who in ids)
        env.no_tags()

    rows = [{"id": it} for it in ids]
    return ("POST", f"distributionsets/{new}/assignedTargets", rows, {}), {200}, right


def plan_by_tag(env):
    """A filter whose letters count otherwise at the desk."""
    new, name = env.bundle(), env.name()
    env.targets(3, name)
    plan = {"name": name, "distributionSetId": new, "amountGroups": 1}

    def right():
        (made,) = env.rollouts_of(new)
        assert made["totalTargets"] == 3
        env.no_tags()

    body = plan | {"targetFilterQuery": f"id=={name.upper()}-*"}
    return ("POST", "rollouts", body, {}), {201, 409}, right


def plan_plainly(env):
    new, name = env.bundle(), env.name()
    env.targets(2, name)
    plan = {"name": name, "distributionSetId": new, "amountGroups": 1}

    def right():
        (made,) = env.rollouts_of(new)
        assert made["totalTargets"] == 2

    return (
        ("POST", "rollouts", plan | {"targetFilterQuery": f"id=={name}-*"}, {}),
        {201, 409},
        right,
    )


def start_rollout(env):
    new, name = env.bundle(), env.name()
    env.targets(2, name)
    number = env.desk.plan(name, new, f"controllerid=={name}-*")

    def right():
        assert env.desk.ask("GET", f"/rollouts/{number}")["status"] == "running"

    return ("POST", f"rollouts/{number}/start", None, {}), {200, 400}, right


def upload(size):
    def course(env):
        module, name, data = env.module(), f"{env.name()}.swu", payload(f"d{size}", size)

        def right():
            (held,) = env.desk.ask("GET", f"/softwaremodules/{module}/artifacts")["content"]
            is_large = size > 4_194_304
            kept = stub(data) if is_large else data
            assert held["hashes"]["sha256"] == sums_of(kept)["sha256"]
            assert (env.images / name).exists() == is_large
            assert not is_large or (env.images / name).read_bytes() == data

        body = form(("file", name, data))
        place = f"softwaremodules/{module}/artifacts"
        return ("POST", place, body, KIND), {201, 409}, right

    course.__name__ = f"upload_{size}"
    return course


def new_targets(env):
    name = env.name()

    def right():
        assert env.desk.ask("GET", f"/targets?q=controllerid=={name}-*")["total"] == 110

    rows = [{"controllerId": f"{name}-{it}"} for it in range(110)]
    return ("POST", "targets", rows, {}), {201, 409}, right


def new_modules(env):
    rows = [{"name": env.name(), "type": "os", "version": "1"} for _ in range(3)]

    def right():
        held = [it["name"] for it in env.desk.ask("GET", "/softwaremodules?limit=500")["content"]]
        assert all(held.count(it["name"]) == 1 for it in rows)

    return ("POST", "softwaremodules", rows, {}), {201, 409}, right


def new_set(env):
    module, name = env.module(), env.name()

    def right():
        held = env.desk.ask("GET", "/distributionsets?limit=500")["content"]
        assert [it["name"] for it in held].count(name) == 1

    rows = [{"name": name, "version": "1", "modules": [{"id": module}]}]
    return ("POST", "distributionsets", rows, {}), {201, 409}, right


def tag_two(env):
    name, ids = env.name(), env.targets(2)
    Kept(env.folder / "deaths").add_tags({name})
    tag = {"id": calls.number_of(name)}

    def right():
        assert env.desk.ask("GET", f"/targets?q=tag=={name}")["total"] == 2

    return ("POST", f"targettags/{tag['id']}/assigned", ids, {}), {200}, right


def delete_tag(env):
    name, (who,) = env.name(), env.targets()
    env.desk.ask("POST", f"/targets/{who}/tags/{name}")
    number = calls.number_of(name)

    def right():
        assert env.desk.ask("GET", f"/targets?q=tag=={name}")["total"] == 0

    return ("DELETE", f"targettags/{number}", None, {}), {200, 404}, right


def cancel(env):
    new, (who,) = env.bundle(), env.targets()
    action = env.gives(new, who)

    def right():
        assert env.desk.actions(who)[-1]["status"] == "canceling"

    return ("DELETE", f"targets/{who}/actions/{action}", None, {}), {204, 405}, right


def rename(env):
    (who,) = env.targets()

    def right():
        assert env.desk.ask("GET", f"/targets/{who}")["name"] == "Named"
        path = f"{stage.B}/{who}"
        fields = {"Authorization": f"TargetToken {token_of(KEY, who)}"}
        assert ask(env.desk.port, "GET", path, fields=fields).status == 200

    return ("PUT", f"targets/{who}", {"name": "Named"}, {}), {200}, right


def delete_target(env):
    new, (who,) = env.bundle(), env.targets()
    env.gives(new, who)

    def right():
        assert env.desk.actions(who)[-1]["status"] == "canceled"
        assert env.desk.ask("GET", f"/targets/{who}")["tags"] == ["hb.gone"]

    return ("DELETE", f"targets/{who}", None, {}), {200, 404}, right


def own(who):
    """The fields of a device that shows its own token."""
    return {"Authorization": f"TargetToken {token_of(KEY, who)}"}


def device_registers(env):
    who = env.name()

    def right():
        assert env.desk.ask("GET", f"/targets?q=controllerid=={who}")["total"] == 1
        assert ask(env.desk.port, "GET", f"{B}/{who}", fields=own(who)).status == 200

    return ("GET", f"{B}/{who}", None, {"Authorization": f"GatewayToken {TOKEN}"}), {200}, right


def device_looks(rest, size=100):
    """What changes nothing: the deployment, its artifact, and what is installed."""

    def course(env):
        who, action, place = env.offer(size=size)
        path = place if rest == "artifact" else f"{B}/{who}{rest}".format(action=action)
        before = env.desk.actions(who), env.desk.attributes(who)

        def right():
            assert (env.desk.actions(who), env.desk.attributes(who)) == before
            assert env.desk.history(who, action) == []

        return ("GET", path, None, own(who)), {200}, right

    course.__name__ = f"device_looks_at_{re.sub('[^a-zA-Z]+', '_', rest)}_{size}"
    return course


def device_looks_at_what_is_installed(env):
    who, action, _ = env.offer()
    body = {"status": {"execution": "closed", "result": {"finished": "success"}}}
    path = f"{B}/{who}/deploymentBase/{action}/feedback"
    assert ask(env.desk.port, "POST", path, body, own(who)).status == 200

    def right():
        assert len(env.desk.history(who, action)) == 1

    return ("GET", f"{B}/{who}/installedBase/{action}", None, own(who)), {200}, right


def device_reports(execution, finished, kind=kinds.FORCED, ends="running", **more):
    """A report is there once, also where it is sent again: by its number, or since it ends the action."""

    def course(env):
        who, action, _ = env.offer(kind)
        status = {"execution": execution, "result": {"finished": finished}, "details": ["it is"]}

        def right():
            assert env.desk.actions(who)[-1]["status"] == ends
            assert len(env.desk.history(who, action)) == 1

        path = f"{B}/{who}/deploymentBase/{action}/feedback"
        return ("POST", path, {"status": status} | more, own(who)), {200}, right

    course.__name__ = f"device_reports_{execution}_{finished}_{kind}"
    return course


def device_gives_up(env):
    who, action, _ = env.offer()
    env.desk.ask("DELETE", f"/targets/{who}/actions/{action}")

    def right():
        assert env.desk.actions(who)[-1]["status"] == "canceled"
        assert len(env.desk.history(who, action)) == 1

    body = {"status": {"execution": "canceled", "result": {"finished": "success"}}}
    return ("POST", f"{B}/{who}/cancelAction/{action}/feedback", body, own(who)), {200}, right


def device_says(mode, wanted):
    """What a device says of itself, and what of two attributes is there then."""

    def course(env):
        (who,) = env.targets()
        held = {"data": {"a": "1", "b": "2"}}
        assert ask(env.desk.port, "PUT", f"{B}/{who}/configData", held, own(who)).status == 200

        def right():
            assert env.desk.attributes(who) == wanted | {kinds.KEY: kinds.VALUE}

        body = {"mode": mode, "data": {"a": "3"}}
        return ("PUT", f"{B}/{who}/configData", body, own(who)), {200}, right

    course.__name__ = f"device_says_{mode}"
    return course


COURSES = [
    device_registers,
    device_looks(""),
    device_looks("/deploymentBase/{action}"),
    device_looks("/deploymentBase/{action}", 5_000_000),
    device_looks("artifact"),
    device_looks("artifact", 5_000_000),
    device_looks_at_what_is_installed,
    device_reports("closed", "success", ends="finished"),
    device_reports("closed", "failure", ends="error"),
    device_reports("downloaded", "none", "downloadonly", "finished"),
    device_reports("downloaded", "none", "soft", number=1),
    device_reports("proceeding", "none", number=1),
    device_gives_up,
    device_says("merge", {"a": "3", "b": "2"}),
    device_says("replace", {"a": "3", "b": ""}),
    device_says("remove", {"a": "", "b": "2"}),
    upload(10),
    upload(5_000_000),
    new_modules,
    new_set,
    rename,
    tag_two,
    delete_tag,
    assign_one,
    cancel,
    plan_plainly,
    start_rollout,
    plan_by_tag,
    delete_target,
    assign_thirty,
    new_targets,
]


@pytest.mark.parametrize("late", [False, True], ids=["before", "after"])
@pytest.mark.parametrize("course", COURSES, ids=lambda it: it.__name__)
def test_deaths(env, course, late):
    step = EACH if course is assign_thirty else 1
    before = env.deaths
    for at in range(1, BOUND, step):
        if not env.dies(course, at, late):
            break
    else:
        pytest.fail("it has more calls than were tried")
    died = env.deaths - before
    print(f"{course.__name__}: {died} deaths {'after' if late else 'before'} a call")
    assert died >= 1


class Killer(Between):
    """Kills a process at a call, before the desk has it or when the desk has answered."""

    victim, left, late = None, None, False

    def pass_on(self, it):
        dies = False
        if self.left is not None:
            self.left -= 1
            dies = self.left == 0
        if dies:
            self.left = None
        self.rule = (lambda _: "after" if self.late else "before") if dies else None
        if dies and not self.late:
            self.victim.kill()
        super().pass_on(it)
        if dies and self.late:
            self.victim.kill()


@pytest.mark.parametrize("late", [False, True], ids=["before", "after"])
@pytest.mark.parametrize("course", [upload(4_194_305), assign_one], ids=lambda it: it.__name__)
def test_a_process_that_is_killed(env, course, late):
    killer = Killer(env.desk.port)
    words = [
        "--firmware",
        str(env.images),
        "--key",
        str(env.folder / "key"),
        "--connections",
        "1",
    ]
    victim = Gateway(env.processes, env.folder / "victim", "manage", killer.port, *words)
    killer.victim, killer.late = victim, late
    for at in range(1, BOUND, 2):
        (method, path, body, fields), wanted, right = course(env)
        killer.left = at
        try:
            first = ask(victim.port, method, f"{R}/{path}", body, fields).status
        except OSError:
            first = None
        if killer.left is not None:
            assert first in wanted
            killer.left = None
            right()
            break
        assert first is None, first
        # until it is gone the next one can't have its port
        victim.child.wait(30)
        victim.start()
        assert ask(victim.port, method, f"{R}/{path}", body, fields).status in wanted
        right()
    assert at > 1
    victim.kill()
    killer.close()
