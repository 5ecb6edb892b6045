"""Looks at the desk once for all who look: soon after something was heard of, else now and again."""
import asyncio
import logging
import os
from collections.abc import Callable
from pathlib import Path

from .clock import Clock
from .desk import Away, Desk, Json
from .ear import Ear
from .fleet import Fleet
from .history import History
from .rollouts import Rollouts
from .sentences import say
from .settings import Settings
from .store import Store

SOON = (
    0.1  # seconds from what is heard to the look, so that what is heard together is looked at once
)
GENTLE = 4.0  # a look is followed by a pause of so many times what it took,
LONGEST = (
    3.0  # and of so many seconds at most: a busy desk has others waiting, and a pause must be told
)
AWAY_EVERY = 2.0
DISK_LEAST = 200 * 2**20
KINDS = ("brake", "quiet")


class Watch:
    def __init__(
        self,
        settings: Settings,
        store: Store,
        clock: Clock,
        desk: Desk,
        ear: Ear,
        history: History,
        rollouts: Rollouts,
        fleet: Fleet,
    ):
        self.settings, self.store, self.clock, self.desk = settings, store, clock, desk
        self.history, self.rollouts, self.fleet = history, rollouts, fleet
        self.away, self.away_since = "", 0.0
        self.held: Json | None = None
        self.looked_steady: float | None = None
        kept = store.all("select value from meta where key='looked'")
        self.looked: float | None = float(kept[0]["value"]) if kept else None
        self._written = -1e9
        self._heard = False
        self._wake = asyncio.Event()
        ear.on_news, ear.on_brake = self.hear, self.hear_brake

    def hear(self) -> None:
        self._heard = self.fleet.has_news = True
        self._wake.set()

    def hear_brake(self, kind: str, who: str, which: str, reason: str) -> None:
        key = {"held": "quietHeld", "released": "quietReleased"}[kind] if which == "quiet" else kind
        said = [say(key, who=who), *([say("why", reason=reason)] if reason else [])]
        self.history.tell(kind, said, who=who, more={"which": which[:20]})

    def age(self) -> float | None:
        """Seconds since the last look that was answered."""
        return None if self.looked_steady is None else self.clock.steady() - self.looked_steady

    async def look(self) -> None:
        heard, self._heard = self._heard, False
        self._wake.clear()
        if moved := self.clock.jumped():
            said = [say("clock", seconds=f"{moved:+.0f}")]
            self.history.tell("clock", said, more={"seconds": round(moved)})
        await self.rollouts.look(self.looked, heard)
        await self._look_at_brake()
        self.looked, self.looked_steady = self.clock.wall(), self.clock.steady()
        if self.clock.steady() - self._written > 5:
            self._written = self.clock.steady()
            self.store.do("insert or replace into meta values('looked', ?)", str(self.looked))

    async def _look_at_brake(self) -> None:
        """HAProxy itself tells it; where there is no brake nothing is known of it."""
        try:
            told = await self.desk.get("/fwdesk/brake")
            self.held = {it: told.get(it) for it in KINDS}
        except Away:
            self.held = None

    async def turn(self) -> None:
        """One look, and what it says of the desk itself."""
        try:
            await self.look()
        except Away as error:
            if not self.away:
                self.away, self.away_since = str(error), self.clock.wall()
                self.history.tell("desk", [say("desk", words=self.away)])
            return
        except (KeyError, TypeError, ValueError):  # a fault of ours mustn't end the watch
            logging.exception("a look failed")
            return
        if self.away:
            seconds = max(0.0, self.clock.wall() - self.away_since)
            self.away = ""
            self.history.tell("desk", [say("deskAgain", seconds=round(seconds))])

    async def keep(self) -> None:
        pruned = -1e9
        while True:
            began = self.clock.steady()
            await self.turn()
            if self.clock.steady() - pruned > 600 or self.store.is_to_prune():
                pruned = self.clock.steady()
                self.store.prune()
            took = self.clock.steady() - began
            rest = max(self.settings.pause, min(LONGEST, GENTLE * took))
            await asyncio.sleep(AWAY_EVERY if self.away else rest)
            if not self.away:
                left = self.settings.every - (self.clock.steady() - began)
                try:
                    await asyncio.wait_for(self._wake.wait(), max(0.01, left))
                    await asyncio.sleep(SOON)
                except TimeoutError:
                    pass


def tell_of_records(store: Store, history: History) -> Callable[[], None]:
    """Tells once where the records were begun anew, each time when the disk refuses them and takes them again, and where
    it has less than 200 MB left."""
    state = {"problem": "", "disk": ""}
    folder = str(Path(store.path).parent)
    if store.put_aside:
        history.tell("console", [say("putAside", path=store.put_aside)])

    def look() -> None:
        if bool(store.problem) != bool(state["problem"]):
            state["problem"] = store.problem
            said = say("notKept", words=store.problem) if store.problem else say("keptAgain")
            history.tell("console", [said])

        found = os.statvfs(folder)
        left = found.f_bavail * found.f_frsize
        # told again once there was twice as much
        if left < DISK_LEAST and not state["disk"]:
            state["disk"] = "told"
            history.tell("console", [say("disk", path=folder, left=left // 2**20)])
        elif left > 2 * DISK_LEAST:
            state["disk"] = ""

    return look
