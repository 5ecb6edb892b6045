"""Looks at the desk through HAProxy, GET alone. Each part has one request under way, so that none waits behind another
one's patience; HAProxy hands them to the desk in turn."""
import asyncio
import csv
import json
import time
from typing import Any

import aiohttp
from yarl import URL

Json = dict[str, Any]
LARGEST = 16 * 2**20
PATIENCE = 10.0  # seconds; HAProxy waits longer for the desk


class Away(Exception):
    """The desk, or HAProxy before it, doesn't answer; the words say how."""


class Desk:
    def __init__(self, socket: str, base: str = ""):
        """`base` stands before each path: of many fleets it names one."""
        self.socket, self.base, self.asked = socket, base, 0
        self._session: aiohttp.ClientSession | None = None
        self._turn = asyncio.Semaphore(4)

    async def open(self) -> None:
        """No connection is kept: after a reload it would lead to HAProxy's old process, which would live as long."""
        self._session = aiohttp.ClientSession(
            connector=aiohttp.UnixConnector(self.socket, limit=4, force_close=True),
            timeout=aiohttp.ClientTimeout(total=PATIENCE),
            cookie_jar=aiohttp.DummyCookieJar(),
        )

    async def close(self) -> None:
        if self._session:
            await self._session.close()

    async def text(self, path: str) -> str:
        """What the desk answers with 200; Away otherwise."""
        assert self._session
        async with self._turn:
            self.asked += path.startswith(("/rest/", "/desk/"))
            try:
                url = URL(f"http://desk{self.base}{path}", encoded=True)
                async with self._session.get(url, allow_redirects=False) as reply:
                    told = await reply.content.read(LARGEST + 1)
                    while not reply.content.at_eof() and len(told) <= LARGEST:
                        told += await reply.content.read(LARGEST + 1)
            except TimeoutError:
                raise Away(f"no answer within {PATIENCE:g} s") from None
            except (aiohttp.ClientError, OSError) as error:
                raise Away(f"{type(error).__name__}: {error}") from None
            if reply.status != 200 or len(told) > LARGEST:
                raise Away(f"it answers {reply.status}")
            return told.decode("utf-8", "replace")

    async def get(self, path: str) -> Json:
        try:
            told = json.loads(await self.text(path))
        except ValueError:
            raise Away("its answer can't be read") from None
        if not isinstance(told, dict):
            raise Away("its answer can't be read")
        return told

    async def every(self, path: str) -> list[Json]:
        """A whole list, 500 at a time."""
        return (await self.rest(path, 0))[0]

    async def rest(self, path: str, begin: int) -> tuple[list[Json], int]:
        """A list from a place on, and how long it is as a whole."""
        found: list[Json] = []
        while True:
            mark = "&" if "?" in path else "?"
            page = await self.get(f"{path}{mark}offset={begin + len(found)}&limit=500")
            found += page["content"]
            if not page["content"] or begin + len(found) >= page["total"]:
                return found, int(page["total"])

    async def table(self, rollout: int) -> tuple[list[Json], float]:
        """The actions of a rollout, and how many seconds that took."""
        began = time.monotonic()
        text = await self.text(f"/desk/v1/rollouts/{rollout}/actions")
        return list(csv.DictReader(text.splitlines())), time.monotonic() - began
