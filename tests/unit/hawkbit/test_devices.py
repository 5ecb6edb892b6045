"""What the device half knows without asking, of a desk and of many fleets; and how a device registers."""

import asyncio
import hashlib
import hmac

import pytest
from aiohttp import web
from aiohttp.test_utils import make_mocked_request

from fwdesk_hawkbit import devices, kinds
from fwdesk_hawkbit.desk import CHANGED, Calls, Reply
from fwdesk_hawkbit.faults import Fault
from fwdesk_hawkbit.sums import Artifacts


class Fleets(Calls):
    """Two fleets, each with an action 1 of a rollout 7: the one of `a` is soft, the one of `b` forced."""

    def __init__(self):
        self.asked = []

    async def raw(self, method, path, body=None, token=None, query=None, fields=None):
        fleet = fields["X-Fwdesk-Device"][0]
        self.asked.append((fleet, path))
        told = b'{"rollout":7}'
        if path.endswith("/rollouts/7"):
            text = kinds.with_kind("name==*", "soft" if fleet == "a" else "forced")
            told = b'{"targetFilterQuery":"%s"}' % text.encode()
        return Reply(200, "application/json", told, None, fleet)


@pytest.fixture
def service(tmp_path):
    return devices.Service(None, Fleets(), Artifacts(tmp_path, None))


async def kind_for(service, who):
    app = web.Application()
    app[devices.SERVICE] = service
    request = make_mocked_request("GET", "/", app=app, match_info={"tenant": "DEFAULT", "who": who})
    return await devices.Device(request).kind("1")


def test_the_kind_of_a_rollout_is_that_of_its_own_fleet(service):
    async def work():
        return [await kind_for(service, it) for it in ("a-1", "b-1", "a-2", "b-2")]

    assert asyncio.run(work()) == ["soft", "forced", "soft", "forced"]
    rollouts = [it for it in service.reads.asked if "rollouts" in it[1]]
    assert rollouts == [("a", "/rest/v1/rollouts/7"), ("b", "/rest/v1/rollouts/7")]


class Desk(Calls):
    """A desk that remembers with which fields it was asked."""

    def __init__(self):
        self.fields = []

    async def raw(self, method, path, body=None, token=None, query=None, fields=None):
        self.fields.append((token, fields))
        return Reply(200, "application/json", b"{}", None)


@pytest.mark.parametrize("told", [{}, {"X-Real-IP": "192.0.2.7"}])
def test_the_desk_is_told_the_address_of_a_device(tmp_path, told):
    async def work():
        desk, app = Desk(), web.Application()
        app[devices.SERVICE] = devices.Service(desk, desk, Artifacts(tmp_path, None))
        own = told | {"Authorization": f"TargetToken {TOKEN}"}
        match = {"tenant": "DEFAULT", "who": "dev-1"}
        request = make_mocked_request("GET", "/", own, app=app, match_info=match)
        await (await devices.Device(request).identify()).raw("GET")
        return desk.fields

    assert asyncio.run(work()) == [(TOKEN, told)]


KEY, TOKEN = b"k" * 40, "t" * 40


class Targets(Calls):
    """Targets of fleets, by what an id begins with. `busy` says how many writes come behind another one's."""

    def __init__(self, fleet=True, busy=0, status=404):
        self.made, self.asked, self.fleet, self.busy, self.status = {}, [], fleet, busy, status

    async def raw(self, method, path, body=None, token=None, query=None, fields=None):
        who = fields["X-Fwdesk-Device"]
        fleet = who[0] if self.fleet else ""
        self.asked.append((method, fields.get("X-Fwdesk-Targets")))
        status = 200 if who in self.made else self.status
        if method == "POST":
            status, self.busy = (CHANGED, self.busy - 1) if self.busy else (201, 0)
            if status == 201:
                self.made |= {it["controllerId"]: it["securityToken"] for it in body}
        return Reply(status, "application/json", b"{}", None, fleet, str(len(self.asked)))


def comes(tmp_path, targets, who, registers=False, times=1):
    """The token by which the desk is asked for a device that shows the gateway's."""

    async def work():
        service = devices.Service(None, targets, Artifacts(tmp_path, None), key=KEY)
        service.gateway_token, service.registers = TOKEN, registers
        app = web.Application()
        app[devices.SERVICE] = service
        fields = {"Authorization": f"GatewayToken {TOKEN}"}
        of = {"tenant": "DEFAULT", "who": who}
        for _ in range(times):
            request = make_mocked_request("GET", "/", app=app, match_info=of, headers=fields)
            device = await devices.Device(request).identify()
        return device.token

    return asyncio.run(work())


def made_of(key, text):
    """A sum that is made by a key, as RFC 2104 has it."""
    return hmac.new(key, text.encode(), hashlib.sha256)


def test_a_token_is_made_of_the_key_the_fleet_and_the_id(tmp_path):
    alone = comes(tmp_path, Targets(fleet=False), "a-1")
    assert alone == made_of(KEY, "a-1").hexdigest()[:32]
    of_a = comes(tmp_path, Targets(), "a-1")
    assert of_a == made_of(made_of(KEY, "fleet a").digest(), "a-1").hexdigest()[:32]
    assert len({alone, of_a, comes(tmp_path, Targets(), "b-1")}) == 3


@pytest.mark.parametrize("registers", [False, True])
def test_the_fleet_of_a_device_is_asked_for_once_in_a_while(tmp_path, registers):
    targets = Targets()
    comes(tmp_path, targets, "a-1", registers, times=3)
    # who registers is looked for each time
    assert [it[0] for it in targets.asked] == (
        ["GET", "POST", "GET", "GET"] if registers else ["GET"]
    )


def test_a_registration_is_of_the_fleet(tmp_path):
    targets = Targets()
    assert comes(tmp_path, targets, "a-1", True) == targets.made["a-1"]


def test_a_registration_begins_anew_where_others_wrote_meanwhile(tmp_path):
    targets = Targets(busy=2)
    comes(tmp_path, targets, "a-1", True)
    # each write has the number that the look before it was told
    wanted = [it for at in (1, 3, 5) for it in (("GET", "asked"), ("POST", str(at)))]
    assert targets.asked == wanted and set(targets.made) == {"a-1"}


def test_a_registration_is_given_up_where_others_write_all_the_time(tmp_path):
    targets = Targets(busy=99)
    with pytest.raises(Fault) as why:
        comes(tmp_path, targets, "a-1", True)
    assert why.value.kind == "desk" and targets.made == {}


@pytest.mark.parametrize("status", [401, 403, 500, 503])
def test_who_can_not_be_looked_for_is_not_registered(tmp_path, status):
    targets = Targets(status=status)
    with pytest.raises(Fault) as why:
        comes(tmp_path, targets, "a-1", True)
    assert why.value.kind == "desk" and [it[0] for it in targets.asked] == ["GET"]
