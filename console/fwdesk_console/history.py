"""What happened, told once: an event is written together with the change that it tells of, and with who is to be told."""
import asyncio
import json
import logging
from collections import deque
from collections.abc import Sequence
from typing import Any

from .clock import Clock
from .sentences import Saying, as_parts, cleaned
from .store import Row, Store, Writes
from .texts import as_text, clean

RECENT = 200


class History:
    def __init__(self, store: Store, clock: Clock, ways: Sequence[str], kinds: Sequence[str]):
        """`ways` are those of the messages, `kinds` the kinds of event that are told by them."""
        self.store, self.clock, self.ways, self.kinds = store, clock, ways, kinds
        self.recent: deque[Row] = deque(reversed(store.events("order by id desc limit ?", RECENT)))
        self.recent = deque(self.recent, maxlen=RECENT)
        self.waiting: list[tuple[str, Row]] = []
        self.news = 0
        self._told = asyncio.Event()

    def tell(
        self,
        kind: str,
        said: Sequence[Saying],
        *,
        at: float | None = None,
        rollout: int | None = None,
        group: int | None = None,
        who: str = "",
        more: dict[str, Any] | None = None,
        also: Writes = (),
    ) -> Row:
        """Keeps it in one go with `also`. Where the disk refuses it is told all the same, out of memory."""
        say = cleaned(said)
        shown = as_parts([(key, values) for key, values in say])
        event: Row = {
            "id": self.store.next_event(),
            "at": self.clock.wall() if at is None else at,
            "kind": kind,
            "rollout": rollout,
            "group": group,
            "who": clean(who, 100),
            "parts": shown,
            "more": {**(more or {}), "say": say},
        }
        row = (
            event["id"],
            event["at"],
            kind,
            rollout,
            group,
            event["who"],
            json.dumps(shown),
            json.dumps(event["more"]),
        )
        ways = self.ways if kind in self.kinds else ()
        self.store.write(
            [
                ("insert into event values(?,?,?,?,?,?,?,?)", [row]),
                (
                    "insert into outbox(way,event,tries,due) values(?,?,0,0)",
                    [(way, event["id"]) for way in ways],
                ),
                *also,
            ]
        )
        self.recent.append(event)
        self.waiting += [(way, event) for way in ways]
        self.news += 1
        self._told.set()
        self._told = asyncio.Event()
        logging.info("%s: %s", kind, as_text(shown))
        return event

    async def wait_for_news(self, seconds: float) -> None:
        """Until something is told, and for so long at most."""
        try:
            await asyncio.wait_for(self._told.wait(), seconds)
        except TimeoutError:
            pass

    def of(self, rollout: int, limit: int = 20) -> list[Row]:
        """The newest events of a rollout, the newest first."""
        kept = self.store.events("where rollout=? order by id desc limit ?", rollout, limit)
        there = {it["id"] for it in kept}
        unkept = [it for it in self.recent if it["rollout"] == rollout and it["id"] not in there]
        return sorted(kept + unkept, key=lambda it: -int(it["id"]))[:limit]
