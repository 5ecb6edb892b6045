"""Which device has which set: that of the action which it finished last, from the tables of actions."""
import asyncio
import json
import logging
from collections import OrderedDict

from .clock import Clock
from .desk import Away, Desk, Json
from .ear import Ear
from .rollouts import GOING, Known, Rollouts
from .store import Row, Store

REMEMBERED = 50  # rollouts of which it is known in memory which actions are finished
GENTLE = 10.0  # a table is followed by a pause of so many times what it took

# an action that was seen to finish is newer than whatever was seen before. What finished before the console looked has
# no time, and is ordered by the number of its action: that is wrong where an older action finished after a newer one
KEEP = """insert into device values(?,?,?,?,?) on conflict(id) do update set
  dset=excluded.dset, rollout=excluded.rollout, action=excluded.action, at=excluded.at
  where excluded.at >= coalesce(device.at, 0)
    or (excluded.at is null and device.at is null and excluded.action > device.action)"""


class Versions:
    def __init__(
        self,
        store: Store,
        clock: Clock,
        desk: Desk,
        ear: Ear,
        rollouts: Rollouts,
        table_every: float,
    ):
        self.store, self.clock, self.desk, self.ear = store, clock, desk, ear
        self.rollouts, self.table_every = rollouts, table_every
        self.version = 0
        self.sets: dict[int, Json] = {}
        self._finished: OrderedDict[int, set[int]] = OrderedDict()
        self._next: dict[int, float] = {}
        self._counts: tuple[int, list[Row]] = (-1, [])
        rollouts.on_other_desk = self.forget

    def forget(self) -> None:
        """All rollouts and sets are others; the records have no device any more."""
        self.sets.clear()
        self._finished.clear()
        self._next.clear()
        self.version += 1

    @staticmethod
    def _mark(it: Known) -> str:
        return f"{it.status} {it.sums if it.status in GOING else ''}"

    def due(self) -> list[int]:
        """The rollouts whose table may tell something new, the oldest first."""
        now = self.clock.steady()
        return [
            number
            for number, it in self.rollouts.known.items()
            if it.status in (*GOING, "finished")
            and it.tabled != self._mark(it)
            and now >= self._next.get(number, 0.0)
        ]

    async def read(self, number: int) -> float:
        """Reads one table; answers how many seconds the desk took."""
        it = self.rollouts.known[number]
        mark, is_cold = self._mark(it), number not in self._finished
        rows, took = await self.desk.table(number)
        self._next[number] = self.clock.steady() + max(self.table_every, 2 * GENTLE * took)
        finished = {int(row["action"]): row for row in rows if row["state"] == "finished"}
        new = finished.keys() - self._finished.get(number, set())
        self.ear.flush()
        dset = int(it.about["distributionSetId"])
        now = None if is_cold else self.clock.wall()
        kept = [
            (finished[n]["controllerid"], dset, number, n, self._reported(finished[n], n) or now)
            for n in sorted(new)
        ]
        before, it.tabled = it.tabled, mark
        if not self.store.write([(KEEP, kept), *self.rollouts.writes(number)]):
            it.tabled = before  # the disk is full: it is tried again with the next table
            return took
        self._finished[number] = set(finished)
        self._finished.move_to_end(number)
        if it.status == "finished" or len(self._finished) > REMEMBERED:
            self._finished.pop(number if it.status == "finished" else next(iter(self._finished)))
        self.version += bool(kept)
        return took

    def _reported(self, row: Json, action: int) -> float | None:
        """When the device's report was heard."""
        device = str(row["controllerid"])
        found = self.store.all("select at from report where device=? and action=?", device, action)
        return float(found[0]["at"]) if found else None

    async def name_sets(self) -> None:
        """The names of the sets that are asked for; a set never changes."""
        wanted = {int(it.about["distributionSetId"]) for it in self.rollouts.known.values()}
        if wanted - self.sets.keys():
            for it in await self.desk.every("/rest/v1/distributionsets"):
                self.sets[int(it["id"])] = {key: it[key] for key in ("id", "name", "version")}
            self.version += 1

    def set_of(self, number: int) -> Json:
        return self.sets.get(number, {"id": number, "name": f"set {number}", "version": ""})

    def counts(self) -> list[Row]:
        """How many devices have each set, the newest set first."""
        if self._counts[0] != self.version:
            sql = "select dset, count(*) devices, max(at) last from device group by dset order by dset desc"
            found = [
                {"set": self.set_of(it["dset"]), "devices": it["devices"], "last": it["last"]}
                for it in self.store.all(sql)
            ]
            self._counts = self.version, found
        return self._counts[1]

    async def keep(self) -> None:
        while True:
            try:
                await self.name_sets()
                for number in self.due():
                    await asyncio.sleep(GENTLE * await self.read(number))
            except Away:
                pass  # the watch tells it
            except (KeyError, ValueError, json.JSONDecodeError):
                logging.exception("a table can't be read")
            await asyncio.sleep(1)
