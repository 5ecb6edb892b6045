"""The desk's calls, over a bounded number of connections."""

import asyncio
import json
import logging
import re
from dataclasses import dataclass
from typing import Any
from urllib.parse import unquote

import aiohttp

from fwdesk_hawkbit.faults import OF_NUMBER, Fault

R = "/rest/v1"
# the field of how often targets were written: HAProxy before the desk tells it of a read that has the field, and refuses a
# write that has another number (deploy/haproxy/desks). Without HAProxy nobody tells it
TARGETS, CHANGED = "X-Fwdesk-Targets", 412
# a name of one of many fleets
FLEET = re.compile(r"[a-z0-9]{1,24}", re.ASCII)
# the number of seconds until a desk that says nothing is given up
PATIENCE = 60
# the number of things that the desk tells in one page at most
PAGE = 500


@dataclass(frozen=True)
class Reply:
    """What the desk answered."""

    status: int
    kind: str
    body: bytes
    later: str | None = None
    # where one HAProxy leads to many fleets, the fleet whose desk it was
    fleet: str = ""
    # how often targets had been written when it was asked, where that was asked too
    targets: str | None = None

    def read(self) -> Any:
        """The object of it; a Fault where it has another form than the desk's answers have."""
        try:
            return json.loads(self.body)
        except ValueError:
            raise Fault("desk", f"the desk's answer of {self.status} isn't JSON") from None


class Calls:
    """What is asked of a desk, by `raw`."""

    # what a refusal of the edge is to hawkBit, by its status: it has no number. Any other one is a fault of the desk
    refusals: dict[int, str] = {}

    async def close(self) -> None:
        """Ends its connections, where it has some of its own."""

    async def raw(
        self,
        method: str,
        path: str,
        body: Any = None,
        token: str | None = None,
        query: dict[str, str] | None = None,
        fields: dict[str, str] | None = None,
    ) -> Reply:
        """What the desk answers, whatever it is; a Fault where it gives no answer."""
        raise NotImplementedError

    async def success(self, method: str, path: str, body: Any = None, **query: Any) -> Reply:
        """A success; a Fault in hawkBit's words of anything else."""
        told = await self.raw(
            method, path, body, query={key: str(it) for key, it in query.items()} or None
        )
        return self.need_success(told, path)

    def need_success(self, told: Reply, path: str) -> Reply:
        """An answer that is a success; a Fault in hawkBit's words of anything else."""
        if told.status < 300:
            return told
        said = told.read() if told.kind == "application/json" else {}
        number = said.get("number", 0) if isinstance(said, dict) else 0
        word = said.get("error", told.status) if isinstance(said, dict) else told.status
        kind = OF_NUMBER.get(number, "") or self.refusals.get(told.status, "desk")
        raise Fault(kind, f"the desk: {word} ({number}) at {path}", number)

    async def bytes_of(self, method: str, path: str, body: Any = None, **query: Any) -> bytes:
        """The bytes of a success."""
        return (await self.success(method, path, body, **query)).body

    async def ask(self, method: str, path: str, body: Any = None, **query: Any) -> Any:
        """The object of a success."""
        told = await self.bytes_of(method, path, body, **query)
        try:
            return json.loads(told)
        except ValueError:
            raise Fault("desk", f"the desk's answer at {path} isn't JSON") from None

    async def maybe(self, path: str) -> Any:
        """What is there, or None."""
        try:
            return await self.ask("GET", path)
        except Fault as why:
            if why.number == 3:
                return None
            raise

    async def writes_targets(self, rows: Any, seen: str | None) -> bool:
        """Writes targets, or tells that others did since `seen` was told. A file of them is an import."""
        path = "/desk/v1/import" if isinstance(rows, bytes) else f"{R}/targets"
        told = await self.raw("POST", path, rows, fields={TARGETS: seen} if seen else None)
        if told.status == CHANGED:
            return False
        self.need_success(told, path)
        return True

    async def every(self, path: str, **query: Any) -> list[Any]:
        """All things of a list, by its pages."""
        content: list[Any] = []
        total = 1
        while len(content) < total:
            told = await self.ask("GET", path, offset=len(content), limit=PAGE, **query)
            try:
                content += told["content"]
                total = told["total"] if told["content"] else 0
            except (KeyError, TypeError):
                raise Fault("desk", f"the desk's answer at {path} is no page") from None
        return content


class Desk(Calls):
    """A desk by its URL, or by the path of a socket; behind the socket a colon and what stands before each path, as
    /run/fwdesk/edge.sock:/fleets/acme.

    With one connection it is closed after each call, since others ask the desk too and it serves one connection after
    the other. With more there is HAProxy between, and they are kept for less long than HAProxy keeps them.
    """

    def __init__(self, url: str, connections: int, patience: float = PATIENCE) -> None:
        keeps: dict[str, Any] = {"limit": connections}
        if connections == 1:
            keeps["force_close"] = True
        else:
            keeps["keepalive_timeout"] = 20
        path, _, base = unquote(url.removeprefix("http+unix://")).partition(":")
        self.url, self.turn = url.rstrip("/"), asyncio.Semaphore(connections)
        connector: aiohttp.BaseConnector
        if path.startswith("/"):
            self.url, connector = f"http://localhost{base}", aiohttp.UnixConnector(path, **keeps)
        else:
            connector = aiohttp.TCPConnector(**keeps)
        timeout = aiohttp.ClientTimeout(total=patience)
        self.session = aiohttp.ClientSession(connector=connector, timeout=timeout)

    async def close(self) -> None:
        await self.session.close()

    async def raw(
        self,
        method: str,
        path: str,
        body: Any = None,
        token: str | None = None,
        query: dict[str, str] | None = None,
        fields: dict[str, str] | None = None,
    ) -> Reply:
        """What the desk answers, whatever it is; a Fault where it gives no answer.

        What only asks is asked once more where a kept connection had ended. Nothing else is, since it may have been
        done."""
        told = (fields or {}) | ({"Authorization": f"TargetToken {token}"} if token else {})
        data = body if body is None or isinstance(body, bytes) else json.dumps(body).encode()
        for again in (method == "GET", False):
            try:
                async with self.turn, self.session.request(
                    method, self.url + path, data=data, headers=told, params=query
                ) as it:
                    later, fleet = it.headers.get("Retry-After"), it.headers.get("X-Fleet", "")
                    targets = it.headers.get(TARGETS)
                    return Reply(it.status, it.content_type, await it.read(), later, fleet, targets)
            except (aiohttp.ClientError, asyncio.TimeoutError, ValueError) as error:
                if not again or isinstance(error, asyncio.TimeoutError):
                    logging.warning("%s %s: %r", method, path, error)
                    raise Fault("desk", "the desk gives no answer") from None
        raise AssertionError("unreachable")


class OnBehalf(Calls):
    """A desk that is asked for somebody, whom fields of each request name: a device's id, or an operator's login."""

    def __init__(self, desk: Calls, fields: dict[str, str]) -> None:
        self.desk, self.fields = desk, fields

    async def raw(
        self,
        method: str,
        path: str,
        body: Any = None,
        token: str | None = None,
        query: dict[str, str] | None = None,
        fields: dict[str, str] | None = None,
    ) -> Reply:
        return await self.desk.raw(method, path, body, token, query, self.fields | (fields or {}))


class OfFleet(Calls):
    """The desk of one of many fleets: its name stands before each path, and HAProxy leads by that."""

    def __init__(self, desk: Calls, fleet: str) -> None:
        if not FLEET.fullmatch(fleet):
            raise Fault("body", "X-Fleet is no fleet")
        self.desk, self.base = desk, f"/fleets/{fleet}"

    async def raw(
        self,
        method: str,
        path: str,
        body: Any = None,
        token: str | None = None,
        query: dict[str, str] | None = None,
        fields: dict[str, str] | None = None,
    ) -> Reply:
        return await self.desk.raw(method, self.base + path, body, token, query, fields)


class AsOperator(OnBehalf):
    """A desk that is asked with an operator's login: the edge says what he may."""

    refusals = {401: "login", 403: "permission"}
