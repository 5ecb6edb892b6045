"""HAProxy's lines, a datagram each: who changed what, and which device reported."""
import asyncio
import logging
import re
from collections import deque
from collections.abc import Callable
from dataclasses import dataclass
from typing import Any
from urllib.parse import parse_qs, unquote, urlsplit

from .clock import Clock
from .store import Store
from .texts import clean

# HAProxy quotes a name (`%{+Q,+E}`), and has `unix` or `-` for the address of who asks by a socket of the machine. One datagram is one
# record, so a line feed in a name makes no second one
LINE = re.compile(
    r'audit (\d{3}|-1) ([0-9a-fA-F.:]{2,45}|unix|-) (?:"((?:[^"\\]|\\.){0,400})"|(-)) ([A-Z]{1,10}) (\S{1,4000})(?: fleet=(\S{0,64}))?\n?',
    re.S,
)
REPORT = re.compile(
    r"/DEFAULT/controller/v1/([A-Za-z0-9._-]{1,64})/(?:deploymentBase|cancelAction)/(\d{1,10})/feedback"
)
ORDER = re.compile(
    r"/rest/v1/rollouts/(\d{1,10})/(start|pause|resume|approve|deny|triggerNextGroup)"
)
WINDOW = 90.0  # seconds in which an order explains a change
WAITING = 5000  # records that wait to be written; more are counted as dropped


@dataclass(frozen=True)
class Order:
    """Who ordered it, when by the wall's clock, and when by the steady one."""

    who: str
    at: float
    heard: float


class Ear(asyncio.DatagramProtocol):
    """What is heard is gathered, and written once a second in one go."""

    def __init__(self, store: Store, clock: Clock, fleet: str = ""):
        """Of many fleets it hears one."""
        self.store, self.clock, self.fleet = store, clock, fleet
        self.counts = {"audit": 0, "report": 0, "unread": 0, "dropped": 0}
        self.on_news: Callable[[], None] = lambda: None
        self.on_change: Callable[[str], None] = lambda _: None
        self.on_brake: Callable[[str, str, str, str], None] = lambda *_: None
        self._audits: list[tuple[Any, ...]] = []
        self._reports: dict[tuple[str, int], float] = {}
        self._orders: dict[tuple[int, str], Order] = {}
        self._made: deque[Order] = deque(maxlen=100)

    def datagram_received(self, data: bytes, addr: Any) -> None:
        found = LINE.fullmatch(data.decode("utf-8", "replace")) if len(data) <= 8192 else None
        if not found:
            self.counts["unread"] += 1
            return
        status, address, name, _, method, path, fleet = found.groups()
        if self.fleet:
            if fleet != self.fleet:
                return
            path = path.removeprefix(f"/fleets/{fleet}") or "/"
        if path.startswith("/DEFAULT/"):
            self._hear_device(status, path)
            if status != "403":
                return
        # without a login, as on the machine itself, HAProxy writes "" or -
        who = clean(re.sub(r"\\(.)", r"\1", name or ""), 100) or "-"
        self._hear_change(int(status), address, who, method, clean(path, 500))

    def _hear_device(self, status: str, path: str) -> None:
        if status == "200" and (it := REPORT.fullmatch(path)):
            self.counts["report"] += 1
            if len(self._reports) < WAITING:
                self._reports[it[1], int(it[2])] = self.clock.wall()
            self.on_news()

    def _hear_change(self, status: int, address: str, who: str, method: str, path: str) -> None:
        self.counts["audit"] += 1
        if len(self._audits) < WAITING:
            self._audits.append((self.clock.wall(), status, address, who, method, path))
        else:
            self.counts["dropped"] += 1
        if method == "GET" or status not in (200, 201):
            return
        order = Order(who, self.clock.wall(), self.clock.steady())
        where, query = urlsplit(path).path, urlsplit(path).query
        self.on_change(where)
        if it := ORDER.fullmatch(where):
            if len(self._orders) > 1000:
                self._orders.clear()
            self._orders[int(it[1]), it[2]] = order
        elif where == "/rest/v1/rollouts" and status == 201:
            self._made.append(order)
        elif where == "/fwdesk/brake":
            told = parse_qs(query)
            kind, reason = told.get("kind", ["brake"])[0], told.get("reason", [""])[0]
            self.on_brake("held" if method == "POST" else "released", who, kind, clean(reason))
        self.on_news()

    def _is_fresh(self, order: Order) -> bool:
        return self.clock.steady() - order.heard < WINDOW

    def take_order(self, rollout: int, *verbs: str) -> tuple[str, Order] | None:
        """Who ordered one of these just now; it is taken, so that it explains one change."""
        for verb in verbs:
            it = self._orders.pop((rollout, verb), None)
            if it and self._is_fresh(it):
                return verb, it
        return None

    def take_maker(self) -> Order | None:
        """Who made the rollout that is new; of several the one that was heard first."""
        while self._made:
            if self._is_fresh(it := self._made.popleft()):
                return it
        return None

    def flush(self) -> None:
        """Writes what was gathered. What the disk refuses is dropped: the journal has the audit too."""
        audits, self._audits = self._audits, []
        reports, self._reports = self._reports, {}
        if not audits and not reports:
            return
        done = self.store.write(
            [
                (
                    "insert into audit(at,status,address,who,method,path) values(?,?,?,?,?,?)",
                    audits,
                ),
                (
                    "insert into report values(?,?,?) on conflict do update set at=excluded.at",
                    [(*key, at) for key, at in reports.items()],
                ),
            ]
        )
        if not done:
            self.counts["dropped"] += len(audits) + len(reports)

    async def keep(self) -> None:
        while True:
            await asyncio.sleep(1)
            self.flush()

    def error_received(self, exc: Exception) -> None:
        logging.error("audit: %s", exc)


def unquoted(path: str) -> str:
    """A path as its client meant it, for who reads it."""
    return clean(unquote(path, errors="replace"), 500)
