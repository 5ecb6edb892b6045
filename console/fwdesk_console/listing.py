"""The devices of one count: in the orders of people, and by filters. It goes with the next count, and what it keeps with it."""
import asyncio
import re
import time
from collections.abc import Callable, Container, Iterator
from typing import Any

from .desk import Json
from .filters import Filter, parse

WORST = ("error", "pending", "in_sync", "unknown")
ORDERS = ("id", "name", "state")
FILTERS = 16  # of which is kept which devices match
AT_ONCE = 20  # devices, before others have a turn
LONGEST = 0.5  # seconds of the processor for one filter


class TakesTooLong(Exception):
    """A filter takes longer than the console has for it: the desk is to be asked."""


def natural(text: str) -> list[tuple[int, int, str]]:
    """By which texts are ordered as people do: dev-9 before dev-10, small letters as capital ones."""
    parts = re.split(r"([0-9]+)", text.casefold())
    return [(0, int(it), "") if n % 2 else (1, 0, it) for n, it in enumerate(parts)]


KEYS: dict[str, Callable[[Json], Any]] = {
    "id": lambda it: natural(it["controllerId"]),
    "name": lambda it: natural(it["name"]),
    "state": lambda it: WORST.index(it["updateStatus"]),
}


class Listing:
    def __init__(self, at: float, devices: list[Json]):
        self.at, self.devices = at, devices
        self._ordered: dict[tuple[str, str], list[Json]] = {}
        self._matching: dict[str, frozenset[str] | None] = {}
        self._turn = asyncio.Lock()

    def ordered(self, state: str, order: str) -> list[Json]:
        """Those of a state, or all, in an order: `id`, `name`, `state`, or with a `-` before it the other way round."""
        if (state, order) not in self._ordered:
            of_state = [it for it in self.devices if not state or it["updateStatus"] == state]
            found = sorted(of_state, key=KEYS[order.lstrip("-")]) if order else of_state
            self._ordered[state, order] = found[::-1] if order.startswith("-") else found
        return self._ordered[state, order]

    async def matching(self, text: str) -> Container[str]:
        """The ids of the devices that match a filter; NoFilter, or TakesTooLong. One filter at a time: the rest wait."""
        wanted = parse(text)
        async with self._turn:
            if text not in self._matching:
                if len(self._matching) == FILTERS:
                    del self._matching[next(iter(self._matching))]
                self._matching[text] = await self._match(wanted)
            found = self._matching[text]
        if found is None:
            raise TakesTooLong(
                f"the filter takes the console longer than {LONGEST} s; ask the desk"
            )
        return found

    async def _match(self, wanted: Filter) -> frozenset[str] | None:
        """None where it takes too long."""
        found: list[str] = []
        spent = 0.0
        for some in self._pieces():
            began = time.thread_time()
            found += [it["controllerId"] for it in some if wanted.matches(it)]
            spent += time.thread_time() - began
            if spent > LONGEST:
                return None
            await asyncio.sleep(0)
        return frozenset(found)

    def _pieces(self) -> Iterator[list[Json]]:
        for at in range(0, len(self.devices), AT_ONCE):
            yield self.devices[at : at + AT_ONCE]
