"""The applications, and the socket that they are served on."""

import logging
import os
import socket
from collections.abc import Awaitable, Callable
from typing import Any

from aiohttp import web

from fwdesk_hawkbit import devices, journal
from fwdesk_hawkbit.faults import Fault

Handler = Callable[[web.Request], Awaitable[web.StreamResponse]]

# the first of the sockets that systemd hands over
FIRST = 3


@web.middleware
async def in_its_form(request: web.Request, handler: Handler) -> web.StreamResponse:
    """Errors in hawkBit's form. What nobody foresaw is 503 and in the journal: who asked may ask again."""
    try:
        return await handler(request)
    except Fault as why:
        if why.kind == "desk":
            logging.warning("%s %s: %s", request.method, request.path, why)
        return why.answer()
    except (web.HTTPNotFound, web.HTTPMethodNotAllowed):
        return Fault("not found", f"{request.method} {request.path} isn't served here").answer()
    except web.HTTPException:
        raise
    except ConnectionError:
        raise
    except Exception as why:  # pylint: disable=broad-except
        logging.exception("%s %s", request.method, request.path)
        return Fault("desk", f"a fault of the gateway: {type(why).__name__}").answer()


def make_devices(service: devices.Service) -> web.Application:
    """The interface of devices."""
    app = web.Application(middlewares=[in_its_form], client_max_size=devices.BODY)
    app[devices.SERVICE] = service
    app.add_routes(devices.routes())

    async def close(_: web.Application) -> None:
        await service.desk.close()
        await service.reads.close()

    app.on_cleanup.append(close)
    return app


def place_of(listen: str) -> dict[str, Any]:
    """Where to listen: systemd's socket if there is one, a path, or HOST:PORT."""
    if os.environ.get("LISTEN_PID") == str(os.getpid()):
        return {"sock": socket.socket(fileno=FIRST)}
    if listen.startswith("/"):
        return {"path": listen}
    host, _, port = listen.rpartition(":")
    return {"host": host or "127.0.0.1", "port": int(port)}


async def made(build: Callable[[], web.Application]) -> web.Application:
    """An application that is made within the loop that serves it."""
    return build()


def run(build: Callable[[], web.Application], listen: str) -> None:
    """Serves until a signal."""
    journal.begin()
    web.run_app(made(build), print=lambda *_: None, access_log=None, **place_of(listen))
