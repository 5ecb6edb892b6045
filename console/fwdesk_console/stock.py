"""What counts towards the desk's limits. Asked where an operator changed modules, files or sets, and once an hour."""
import asyncio
import logging

from .clock import Clock
from .desk import Away, Desk
from .fleet import Fleet
from .rollouts import Rollouts

ANYWAY = 3600.0
EVERY = 60.0
# docs/API.md has them
LIMITS = {
    "modules": 1000,
    "artifacts": 256,
    "sets": 1000,
    "targets": 10_000,
    "rollouts": 1000,
    "module_artifacts": 8,
    "rollout_groups": 50,
}
CHANGES = ("/rest/v1/softwaremodules", "/rest/v1/distributionsets")


class Stock:
    def __init__(self, clock: Clock, desk: Desk, fleet: Fleet, rollouts: Rollouts):
        self.clock, self.desk, self.fleet, self.rollouts = clock, desk, fleet, rollouts
        self.modules: dict[int, int] = {}
        self.sets: int | None = None
        self.has_news = True
        self._locked: set[int] = set()
        self._counted = -1e9

    def note_change(self, path: str) -> None:
        """An operator changed what is at a path."""
        self.has_news = self.has_news or path.startswith(CHANGES)

    async def count(self) -> None:
        """A module that a set names takes no more files, so those of one are asked for once."""
        self.has_news = False
        self._counted = self.clock.steady()
        for it in await self.desk.every("/rest/v1/softwaremodules"):
            number = int(it["id"])
            if number in self._locked:
                continue
            page = await self.desk.get(f"/rest/v1/softwaremodules/{number}/artifacts?limit=1")
            self.modules[number] = int(page["total"])
            if it["locked"]:
                self._locked.add(number)
        self.sets = int((await self.desk.get("/rest/v1/distributionsets?limit=1"))["total"])

    def used(self) -> dict[str, int]:
        """How much there is of each; nothing before the first count."""
        if self.sets is None or self.fleet.listing is None:
            return {}
        groups = [int(it.about["totalGroups"]) for it in self.rollouts.known.values()]
        return {
            "modules": len(self.modules),
            "artifacts": sum(self.modules.values()),
            "sets": self.sets,
            "targets": self.fleet.total,
            "rollouts": len(self.rollouts.known),
            "module_artifacts": max(self.modules.values(), default=0),
            "rollout_groups": max(groups, default=0),
        }

    async def keep(self) -> None:
        while True:
            age = self.clock.steady() - self._counted
            if self.has_news and age > EVERY or age > ANYWAY:
                try:
                    await self.count()
                except Away:
                    self.has_news = True
                except (KeyError, ValueError):
                    logging.exception("the stock can't be counted")
            await asyncio.sleep(5)
