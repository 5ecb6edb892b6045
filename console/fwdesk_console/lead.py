"""Of many fleets on one machine: leads HAProxy's lines, and the questions that it hands on, to the console of their fleet.

HAProxy has one socket for each, whose names it can't choose by the fleet. What is led is read for the name of its fleet
alone, which HAProxy has set; a fleet whose console isn't there is told so."""
import asyncio
import json
import logging
import re
import signal
import socket
from pathlib import Path
from typing import Any

import aiohttp
from aiohttp import web
from yarl import URL

from .answers import without_version
from .settings import FLEET, Settings
from .sockets import bind_socket, given_sockets

OF_FLEET = re.compile(rb" fleet=([a-z0-9]{1,24})\n?")
PATIENCE = 2.5  # seconds; HAProxy waits for three
HANDED = ("Content-Type", "Content-Disposition", "ETag", "Age", "Allow")
LARGEST = 32 * 2**20


def fleet_of(line: bytes) -> str | None:
    """The fleet that a line ends with: whatever a stranger wrote stands before it."""
    _, mark, end = line.rpartition(b" fleet=")
    found = OF_FLEET.fullmatch(mark + end)
    return found[1].decode() if found else None


class Lines(asyncio.DatagramProtocol):
    """HAProxy's lines, a datagram each. What a console doesn't take at once is dropped: the journal has it too."""

    def __init__(self, folder: Path):
        self.folder = folder
        self.out = socket.socket(socket.AF_UNIX, socket.SOCK_DGRAM)
        self.out.setblocking(False)

    def datagram_received(self, data: bytes, addr: Any) -> None:
        if fleet := fleet_of(data):
            try:
                self.out.sendto(data, str(self.folder / fleet / "audit.sock"))
            except OSError:
                pass

    def error_received(self, exc: Exception) -> None:
        logging.error("audit: %s", exc)


def refuse(status: int, words: str) -> web.Response:
    return web.Response(
        status=status,
        text=json.dumps({"error": "console", "words": words}),
        content_type="application/json",
    )


class Questions:
    def __init__(self, folder: Path):
        self.folder = folder

    async def answer(self, request: web.Request) -> web.Response:
        fleet = request.headers.get("x-fleet", "")
        if not FLEET.fullmatch(fleet):
            return refuse(404, "no fleet is named")
        path = str(self.folder / fleet / "http.sock")
        fields = {it: request.headers[it] for it in ("If-None-Match",) if it in request.headers}
        limits = aiohttp.ClientTimeout(total=PATIENCE)
        way = aiohttp.UnixConnector(path, force_close=True)
        try:
            async with aiohttp.ClientSession(connector=way, timeout=limits) as it:
                url = URL(f"http://console{request.raw_path}", encoded=True)
                async with it.get(url, headers=fields, allow_redirects=False) as reply:
                    body = await reply.read()
                    handed = {it: reply.headers[it] for it in HANDED if it in reply.headers}
        except asyncio.TimeoutError:
            return refuse(504, "the console does not answer")
        except (aiohttp.ClientError, OSError):
            return refuse(503, "the console is away")
        return web.Response(status=reply.status, body=body, headers=handed)

    def app(self) -> web.Application:
        app = web.Application(client_max_size=1024)
        app.on_response_prepare.append(without_version)
        app.router.add_get("/{path:.*}", self.answer, allow_head=False)
        return app


async def serve(settings: Settings) -> None:
    """Until it is to end. The consoles' sockets lie in folders beside its own, each by the name of its fleet."""
    loop, given = asyncio.get_running_loop(), given_sockets()
    heard = given.get(socket.SOCK_DGRAM) or bind_socket(settings.audit, socket.SOCK_DGRAM)
    asked = given.get(socket.SOCK_STREAM) or bind_socket(settings.listen, socket.SOCK_STREAM)
    folder = Path(settings.listen).parent
    heard.setblocking(False)
    await loop.create_datagram_endpoint(lambda: Lines(folder), sock=heard)
    runner = web.AppRunner(Questions(folder).app(), access_log=None, handle_signals=False)
    await runner.setup()
    await web.SockSite(runner, asked, shutdown_timeout=1).start()
    stop = asyncio.Event()
    for it in (signal.SIGTERM, signal.SIGINT):
        loop.add_signal_handler(it, stop.set)
    await stop.wait()
    await runner.cleanup()
