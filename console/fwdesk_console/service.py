"""Puts the parts together, and runs them until they are to end."""
import asyncio
import contextlib
import logging
import signal
import socket

from aiohttp import web

from .answers import Console
from .clock import Clock
from .desk import Desk
from .ear import Ear
from .fleet import Fleet
from .history import History
from .machine import Machine
from .polls import Polls
from .rollouts import Rollouts
from .settings import Settings
from .sockets import bind_socket, given_sockets
from .stock import Stock
from .store import Store
from .tell import Teller, ways_of
from .versions import Versions
from .watch import Watch, tell_of_records


class Service:
    def __init__(self, settings: Settings, clock: Clock | None = None):
        self.settings, self.clock = settings, clock or Clock()
        self.store = Store(settings.records, settings.rows)
        fleet = settings.fleet
        self.desk = Desk(settings.looks, f"/fleets/{fleet}" if fleet else "")
        self.ear = Ear(self.store, self.clock, fleet)
        self.history = History(self.store, self.clock, ways_of(settings), settings.tell)
        self.teller = Teller(settings, self.store, self.clock, self.history)
        self.polls = Polls(settings.table, self.clock, fleet)
        self.fleet = Fleet(self.clock, self.desk, self.polls, settings.silent_after)
        self.rollouts = Rollouts(
            self.store, self.clock, self.desk, self.ear, self.history, settings.stands_after
        )
        self.versions = Versions(
            self.store, self.clock, self.desk, self.ear, self.rollouts, settings.table_every
        )
        self.machine = Machine(self.clock, settings.tls, fleet)
        self.stock = Stock(self.clock, self.desk, self.fleet, self.rollouts)
        self.ear.on_change = self._note_change
        self.watch = Watch(
            settings,
            self.store,
            self.clock,
            self.desk,
            self.ear,
            self.history,
            self.rollouts,
            self.fleet,
        )
        self.console = Console(
            self.store,
            self.clock,
            self.desk,
            self.ear,
            self.history,
            self.rollouts,
            self.versions,
            self.fleet,
            self.polls,
            self.watch,
            self.teller,
            self.stock,
            self.machine,
        )
        self._look_at_records = tell_of_records(self.store, self.history)

    def _note_change(self, path: str) -> None:
        self.stock.note_change(path)
        self.fleet.note_change(path)

    async def _keep_records(self) -> None:
        while True:
            self._look_at_records()
            await asyncio.sleep(5)

    async def serve(self) -> None:
        loop, given = asyncio.get_running_loop(), given_sockets()
        await self.desk.open()
        heard = given.get(socket.SOCK_DGRAM) or bind_socket(self.settings.audit, socket.SOCK_DGRAM)
        asked = given.get(socket.SOCK_STREAM) or bind_socket(
            self.settings.listen, socket.SOCK_STREAM
        )
        heard.setblocking(False)
        await loop.create_datagram_endpoint(lambda: self.ear, sock=heard)
        runner = web.AppRunner(self.console.app(), access_log=None, handle_signals=False)
        await runner.setup()
        await web.SockSite(runner, asked, shutdown_timeout=1).start()
        stop = asyncio.Event()
        for it in (signal.SIGTERM, signal.SIGINT):
            loop.add_signal_handler(it, stop.set)
        parts = (
            self.ear.keep,
            self.watch.keep,
            self.versions.keep,
            self.fleet.keep,
            self.teller.keep,
            self.stock.keep,
            self.machine.keep,
            self._keep_records,
        )
        works: list[asyncio.Task[None]] = [asyncio.create_task(it()) for it in parts]
        end = asyncio.create_task(stop.wait())
        try:
            await self._until_one_ends(works, end)
        finally:
            for work in works:
                work.cancel()
            self.ear.flush()
            with contextlib.suppress(asyncio.TimeoutError):
                await asyncio.wait_for(runner.cleanup(), 2)
            await self.desk.close()
            self.store.close()

    @staticmethod
    async def _until_one_ends(works: list["asyncio.Task[None]"], end: "asyncio.Task[bool]") -> None:
        """A part that ends by a fault ends the service: systemd starts it anew."""
        left: set["asyncio.Task[None] | asyncio.Task[bool]"] = {*works, end}
        while not end.done():
            done, left = await asyncio.wait(left, return_when=asyncio.FIRST_COMPLETED)
            for it in done - {end}:
                if error := it.exception():
                    logging.error("a part ended", exc_info=error)
                    raise SystemExit(1)
