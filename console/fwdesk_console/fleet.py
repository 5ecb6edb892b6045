"""Which devices there are, by their state, and how many are silent. Asked only where something was heard since, or somebody looks."""
import asyncio
import logging
from collections import Counter

from .clock import Clock
from .desk import Away, Desk, Json
from .listing import Listing
from .polls import Polls, Unknown

EVERY = 10.0  # seconds between two countings
GENTLE = 60.0  # or so many times what one took
ANYWAY = 3600.0  # where nothing was heard
CHANGES = ("/desk/v1/import", "/rest/v1/targets")
KEPT = ("controllerId", "name", "updateStatus", "tags", "attributes")  # of each device


class Fleet:
    def __init__(self, clock: Clock, desk: Desk, polls: Polls, silent_after: float):
        self.clock, self.desk, self.polls, self.silent_after = clock, desk, polls, silent_after
        self.listing: Listing | None = None
        self.states: dict[str, int] = {}
        self.total = 0
        self.silent: int | None = None
        self.never: int | None = None
        self.polls_away = ""
        self.version = 0
        self.has_news = True
        self._next = 0.0
        self._counted_at = -1e9

    def note_change(self, path: str) -> None:
        """An operator changed what is at a path: devices that came or have another name are counted soon."""
        if path.startswith(CHANGES):
            self._next = min(self._next, self._counted_at + EVERY)

    def look(self) -> Listing | None:
        """The newest count. No line of HAProxy tells of attributes, so what is looked at is counted again soon."""
        self.has_news = True
        return self.listing

    async def count(self) -> None:
        """Reads the whole list of devices, 500 at a time."""
        self.has_news = False
        began = self.clock.steady()
        devices = await self.desk.every("/rest/v1/targets")
        took = self.clock.steady() - began
        self._next = self.clock.steady() + max(EVERY, GENTLE * took)
        states = dict(Counter(str(it["updateStatus"]) for it in devices))
        if (states, len(devices)) != (self.states, self.total):
            self.version += 1
        self.states, self.total = states, len(devices)
        kept = [{key: it[key] for key in KEPT if key in it} for it in devices]
        self.listing, self._counted_at = Listing(self.clock.wall(), kept), self.clock.steady()

    async def look_for_silent(self) -> None:
        """Of those that were seen since HAProxy keeps its table; the rest never polled, or not since then."""
        found: tuple[int | None, int | None]
        try:
            known = await self.polls.all()
        except Unknown as error:
            found, self.polls_away = (None, None), str(error)
        else:
            now = self.clock.wall()
            silent = sum(now - at >= self.silent_after for at in known.values())
            never = max(0, self.total - len(known)) if self.listing else None
            found, self.polls_away = (silent, never), ""
        if found != (self.silent, self.never):
            self.silent, self.never = found
            self.version += 1

    def shown(self) -> Json | None:
        if self.listing is None:
            return None
        return {
            "devices": self.total,
            "states": self.states,
            "silent": self.silent,
            "neverSeen": self.never,
            "silentAfter": self.silent_after,
            "pollsAway": self.polls_away,
        }

    async def keep(self) -> None:
        while True:
            now = self.clock.steady()
            try:
                if self.has_news and now >= self._next or now - self._counted_at > ANYWAY:
                    await self.count()
                await self.look_for_silent()
            except Away:
                self.has_news = True
            except (KeyError, ValueError):
                logging.exception("the devices can't be counted")
            await asyncio.sleep(5)
