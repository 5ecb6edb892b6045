"""A stand-in for the desk and for HAProxy's table, and the console before them with a clock that is driven."""
import asyncio
import json
from collections.abc import Awaitable, Callable
from pathlib import Path
from typing import Any

from aiohttp import web
from aiohttp.test_utils import TestClient, TestServer

from fwdesk_console.clock import Clock
from fwdesk_console.service import Service
from fwdesk_console.settings import Settings

START = 1_800_000_000.0


class DrivenClock(Clock):
    """Both clocks stand until they are moved."""

    def __init__(self) -> None:
        self.at, self.since = START, 1000.0
        super().__init__(lambda: self.at, lambda: self.since)

    def go(self, seconds: float) -> None:
        """Time passes."""
        self.at += seconds
        self.since += seconds

    def set_wall(self, seconds: float) -> None:
        """Somebody sets the wall's clock by so many seconds."""
        self.at += seconds


class FakeDesk:
    """One rollout of a group of ten devices, as the calls of the desk tell it."""

    def __init__(self) -> None:
        self.base = ""
        self.targets: list[dict[str, Any]] = [
            {"controllerId": f"dev-{k:02}", "name": f"Device {k}", "updateStatus": "pending"}
            for k in range(1, 11)
        ]
        self.rollouts: list[dict[str, Any]] = []
        self.groups: dict[int, list[dict[str, Any]]] = {}
        self.actions: dict[int, dict[int, list[str]]] = {}
        self.words: dict[int, list[str]] = {}
        self.held: Any = {"brake": None, "quiet": None}
        self.modules = [{"id": 1, "locked": True}, {"id": 2, "locked": False}]
        self.asked: list[str] = []
        self.fails = False
        self.add_rollout("spring")

    def add_rollout(self, name: str, status: str = "running", size: int = 10, set_: int = 1) -> int:
        number = len(self.rollouts) + 1
        self.rollouts.append(
            {
                "id": number,
                "name": name,
                "status": status,
                "distributionSetId": set_,
                "targetFilterQuery": "name==*",
                "totalGroups": 1,
                "totalTargets": size,
            }
        )
        group = {"id": 1, "size": size, "ok": 0, "bad": 0, "gone": 0, "success": 90, "error": 20}
        self.groups[number] = [{**group, "status": "running"}]
        first = 100 * number
        self.actions[number] = {
            first + k: [f"dev-{k:02}", "1", "running"] for k in range(1, size + 1)
        }
        return number

    def finish(self, rollout: int, device: int, state: str = "finished", words: str = "") -> None:
        """A device's action ends."""
        self.actions[rollout][100 * rollout + device][2] = state
        self.words[100 * rollout + device] = [words] if words else []
        self.groups[rollout][0][{"finished": "ok", "error": "bad"}[state]] += 1

    async def answer(self, request: web.Request) -> web.StreamResponse:
        path = request.path.removeprefix(self.base)
        assert request.path.startswith(self.base)
        self.asked.append(path)
        if self.fails:
            return web.Response(status=503, text="<html>no server</html>")
        parts = path.strip("/").split("/")
        if path == "/fwdesk/brake":
            return web.json_response(self.held)
        if parts[-1] == "actions":
            rows = self.actions[int(parts[-2])].items()
            lines = [f"{n},{','.join(it)}\n" for n, it in rows]
            return web.Response(text="action,controllerid,group,state\n" + "".join(lines))
        if parts[-1] == "status":
            return self.page([{"details": self.words.get(int(parts[-2]), [])}], request)
        if parts[-1] == "deploygroups":
            return self.page(self.groups[int(parts[-2])], request)
        if parts[-1] == "softwaremodules":
            return self.page(self.modules, request)
        if parts[-1] == "artifacts":
            return self.page([{}] * 3, request)
        if parts[-1] == "distributionsets":
            sets = [{"id": n, "name": "pump", "version": f"{n}.0", "modules": []} for n in (1, 2)]
            return self.page(sets, request)
        if parts[-1] == "targets":
            return self.page(self.targets, request)
        assert path == "/rest/v1/rollouts", path
        return self.page(self.rollouts, request)

    @staticmethod
    def page(content: list[Any], request: web.Request) -> web.Response:
        begin = int(request.query.get("offset", 0))
        shown = content[begin : begin + int(request.query.get("limit", 50))]
        return web.json_response({"content": shown, "total": len(content)})


class FakeTable:
    """HAProxy's socket of level operator."""

    def __init__(self) -> None:
        self.text, self.asked = "# table: seen, type: string, size:20480, used:0\n", 0

    async def answer(self, reader: asyncio.StreamReader, writer: asyncio.StreamWriter) -> None:
        assert await reader.readline() == b"show table seen\n"
        self.asked += 1
        writer.write(self.text.encode())
        writer.close()


class Stand:
    """The whole console, its parts driven by hand."""

    def __init__(self, folder: Path, **settings: Any):
        self.folder = folder
        self.settings = Settings(
            **{
                "looks": str(folder / "looks.sock"),
                "table": str(folder / "table.sock"),
                "records": str(folder / "console.db"),
                "table_every": 0.0,
                "tls": "",
                **settings,
            }
        )
        self.clock, self.desk, self.table = DrivenClock(), FakeDesk(), FakeTable()
        self.service = Service(self.settings, self.clock)
        self.client: TestClient = None  # type: ignore[assignment]

    def hear(self, line: str | bytes) -> None:
        data = line.encode() if isinstance(line, str) else line
        self.service.ear.datagram_received(data, None)

    def order(self, verb: str, who: str = "anna", rollout: int = 1, status: int = 200) -> None:
        path = f"/rest/v1/rollouts/{rollout}/{verb}"
        self.hear(f'audit {status} 192.0.2.7 "{who}" POST {path}\n')

    async def look(self, seconds: float = 1.0) -> None:
        """So much later the console looks."""
        self.clock.go(seconds)
        await self.service.watch.turn()

    def last(self, kind: str) -> dict[str, Any]:
        found = [it for it in self.service.history.recent if it["kind"] == kind]
        assert found, [it["kind"] for it in self.service.history.recent]
        return found[-1]

    def words(self, kind: str) -> str:
        from fwdesk_console.texts import as_text

        return as_text(self.last(kind)["parts"])

    async def get(self, path: str, **fields: Any) -> tuple[int, Any, Any]:
        reply = await self.client.get(path, **fields)
        text = await reply.text()
        return reply.status, reply.headers, json.loads(text) if text[:1] in "{[" and text else text

    async def start(self) -> None:
        Path(self.settings.looks).unlink(missing_ok=True)
        Path(self.settings.table).unlink(missing_ok=True)
        app = web.Application()
        app.router.add_get("/{path:.*}", self.desk.answer)
        self.runner = web.AppRunner(app)
        await self.runner.setup()
        await web.UnixSite(self.runner, self.settings.looks).start()
        self.server = await asyncio.start_unix_server(self.table.answer, self.settings.table)
        await self.service.desk.open()
        self.client = TestClient(TestServer(self.service.console.app()))
        await self.client.start_server()

    async def anew(self) -> None:
        """The console is killed, and starts anew with the records that it has."""
        await self.service.desk.close()
        await self.client.close()
        self.service.store.close()
        self.service = Service(self.settings, self.clock)
        await self.service.desk.open()
        self.client = TestClient(TestServer(self.service.console.app()))
        await self.client.start_server()

    async def stop(self) -> None:
        await self.client.close()
        await self.service.desk.close()
        await self.runner.cleanup()
        self.server.close()
        self.service.store.close()


def play(folder: Path, course: Callable[[Stand], Awaitable[None]], **settings: Any) -> None:
    """Plays a course before a new console."""

    async def whole() -> None:
        stand = Stand(folder, **settings)
        await stand.start()
        try:
            await course(stand)
        finally:
            await stand.stop()

    asyncio.run(whole())
