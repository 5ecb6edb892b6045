"""The application of hawkBit's Management API, cut to what pipelines call; all else is told as not served, with the reason."""

import asyncio
import base64
import contextlib
import re
import time
from typing import Any

from aiohttp import web

from fwdesk_hawkbit import actions, calls, modules, rollouts, targets
from fwdesk_hawkbit.calls import BODY, GATEWAY, Call, Gateway, Json, on
from fwdesk_hawkbit.desk import R
from fwdesk_hawkbit.faults import Fault
from fwdesk_hawkbit.serve import in_its_form

# why a call of hawkBit's isn't served: the first that fits its method and path
REASONS = [
    (r"\S+ \S*/(softwaremodule|distributionset|target)types?\b", "fwdesk has no types"),
    (r"\S+ \S*/metadata", "fwdesk keeps no metadata: a tag, or an attribute that the device sends"),
    (r"\S+ \S*/targetfilters", "fwdesk-ctl follow gives sets to devices that join, by rules"),
    (r"\S+ \S*/distributionsettags", "fwdesk has tags of targets alone"),
    (
        r"\S+ \S*/system/",
        "settings are the command lines of fwdesk, of this service and of the proxy",
    ),
    (r"\S+ \S*/autoConfirm", "fwdesk asks nobody: the device decides when it installs"),
    (
        r"\S+ \S*/statistics",
        "GET rollouts/ID has its counts; fwdesk-console tells them to Prometheus",
    ),
    (
        r"\S+ \S*/(assignedTargets|installedTargets|autoAssignTargetFilters)",
        "GET targets?q= and GET actions tell it",
    ),
    (
        r"POST \S*/rollouts/\d+/(retry|stop)",
        "cancel what is open, tag those that failed, and plan a rollout over the tag",
    ),
    (r"PUT ", "fwdesk changes no module, set, tag or rollout that is there"),
    (r"DELETE ", "fwdesk deletes nothing"),
]
# a file that an upload left behind when its process died is taken away after a day
LEFT = 86_400


def reason_of(method: str, path: str) -> str:
    asked = f"{method} {path}"
    return next((why for form, why in REASONS if re.match(form, asked)), "it isn't served here")


async def refuse_rest(request: web.Request) -> web.StreamResponse:
    """What no handler takes."""
    why = reason_of(request.method, request.path)
    raise Fault("unsupported", f"{request.method} {request.path}: {why}")


@on("GET", "userinfo")
async def get_user(c: Call) -> Json:
    """Who has logged in at the proxy."""
    kind, _, said = c.request.headers.get("Authorization", "").partition(" ")
    name = ""
    if kind.lower() == "basic":
        with contextlib.suppress(ValueError):
            name = (
                base64.b64decode(said, validate=True).decode("utf-8", "replace").partition(":")[0]
            )
    return {"tenant": "DEFAULT", "username": name}


# --- settings of a lab, which a client's own tests change


@on("GET PUT DELETE", "system/configs/{word:[A-Za-z.]{1,64}}")
async def one_setting(c: Call, key: str) -> Any:
    gateway = c.gateway
    if not gateway.is_lab:
        await refuse_rest(c.request)
    if key not in USUAL:
        raise Fault("constraint", f"no setting {key}")
    if c.request.method == "PUT":
        value = (await c.object()).get("value")
        if type(value) is not type(USUAL[key]):
            raise Fault("constraint", f"{key} can't be {value!r}")
        gateway.settings[key] = value
    if c.request.method == "DELETE":
        gateway.settings.pop(key, None)
        return 204, None
    return {"value": setting(gateway, key), "global": key not in gateway.settings} | c.links(
        f"system/configs/{key}"
    )


@on("GET", "system/configs")
async def all_settings(c: Call) -> Json:
    if not c.gateway.is_lab:
        await refuse_rest(c.request)
    told = c.gateway.settings
    return {it: {"value": setting(c.gateway, it), "global": it not in told} for it in USUAL}


USUAL = {
    "pollingTime": "00:05:00",
    "pollingOverdueTime": "00:10:00",
    "authentication.targettoken.enabled": True,
    "authentication.gatewaytoken.enabled": False,
    "authentication.gatewaytoken.key": "",
}


def setting(gateway: Gateway, key: str) -> Any:
    return gateway.settings.get(key, USUAL[key])


# --- the application


def tidy_images(gateway: Gateway) -> None:
    """Takes away what uploads left behind long ago."""
    for it in gateway.images.glob(".upload-*"):
        with contextlib.suppress(OSError):
            if it.stat().st_mtime < time.time() - LEFT:
                it.unlink()


async def tidy(app: web.Application) -> None:
    """The files that a process that died left behind. What it left at targets goes with the first order."""
    await asyncio.to_thread(tidy_images, app[GATEWAY])


def add_to(app: web.Application, gateway: Gateway) -> None:
    """Adds the management to an application."""
    app[GATEWAY] = gateway
    gateway.tidies = rollouts.tidy
    assert actions and modules and targets  # their routes
    app.add_routes([web.route(*it) for it in calls.routes])
    app.router.add_route("*", R + "/{rest:.*}", refuse_rest)

    async def begin(it: web.Application) -> None:
        it["tidies"] = asyncio.create_task(tidy(it))

    async def close(it: web.Application) -> None:
        it["tidies"].cancel()
        await gateway.desk.close()
        if gateway.door:
            await gateway.door.close()

    app.on_startup.append(begin)
    app.on_cleanup.append(close)


def make(gateway: Gateway) -> web.Application:
    app = web.Application(middlewares=[in_its_form], client_max_size=BODY)
    add_to(app, gateway)
    return app
