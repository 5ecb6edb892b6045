"""What HAProxy leads here, by GET alone: states, history, last polls, versions, metrics."""
import csv
import hashlib
import io
import json
import logging
import re
from collections.abc import Awaitable, Callable, Container
from typing import Any

from aiohttp import web

from . import metrics
from .clock import Clock
from .desk import Desk
from .ear import Ear, unquoted
from .filters import NoFilter
from .fleet import Fleet
from .history import History
from .listing import ORDERS, WORST, TakesTooLong
from .machine import Machine
from .polls import Polls, Unknown
from .rollouts import Rollouts
from .stock import Stock
from .store import Row, Store
from .tell import Teller
from .texts import as_text
from .versions import Versions
from .watch import Watch

FIELDS = {
    "Cache-Control": "no-store",
    "Content-Security-Policy": "default-src 'none'; sandbox",
    "X-Content-Type-Options": "nosniff",
}
SHOWN = 200  # rollouts that aren't over, in one answer; more are counted
NUMBER = re.compile(r"[1-9][0-9]{0,9}")
DEVICE = re.compile(r"[A-Za-z0-9._-]{1,64}")
HOURS = re.compile(r"[0-9]{1,4}(\.[0-9]{1,4})?")
PATH = re.compile(r"/[\x21-\x7e]{0,400}")
WHO = re.compile(r"[^\x00-\x1f]{1,100}")
CSV = re.compile(r"csv")
KIND = re.compile(r"[a-z]{1,20}")
STATE = re.compile("|".join(WORST))
ORDER = re.compile(f"-?(?:{'|'.join(ORDERS)})")
LACKS = re.compile("version|poll")
FILTER = re.compile(r"[^\x00-\x1f\x7f]{1,512}")
OFFSET = re.compile(r"[0-9]{1,10}")


class Refused(Exception):
    """A parameter that isn't taken; the words say which."""


def read_query(request: web.Request, **taken: re.Pattern[str]) -> dict[str, str]:
    """The parameters of a request: each at most once, each of its form, no others."""
    found: dict[str, str] = {}
    for key, value in request.query.items():
        if key not in taken or key in found or not taken[key].fullmatch(value):
            names = ", ".join(taken) or "no parameter"
            raise Refused(
                f"a parameter isn't taken; there may be {names}, each once and of its form"
            )
        found[key] = value
    return found


def tells(thing: Any, status: int = 200) -> web.Response:
    text = json.dumps(thing, ensure_ascii=False, separators=(",", ":"))
    return web.Response(text=text, status=status, content_type="application/json", headers=FIELDS)


def as_csv(rows: list[Row], heads: tuple[str, ...], name: str) -> web.Response:
    """A file for a table calculator: what begins as a formula gets a mark before it, so that none is one."""

    def safe(value: Any) -> str:
        text = "" if value is None else str(value)
        return f"'{text}" if text[:1] in ("=", "+", "-", "@") and text != "-" else text

    out = io.StringIO()
    writer = csv.writer(out, lineterminator="\n")
    writer.writerow(heads)
    writer.writerows([safe(row[it]) for it in heads] for row in rows)
    fields = FIELDS | {"Content-Disposition": f'attachment; filename="{name}.csv"'}
    return web.Response(text=out.getvalue(), content_type="text/csv", headers=fields)


class Console:
    def __init__(
        self,
        store: Store,
        clock: Clock,
        desk: Desk,
        ear: Ear,
        history: History,
        rollouts: Rollouts,
        versions: Versions,
        fleet: Fleet,
        polls: Polls,
        watch: Watch,
        teller: Teller,
        stock: Stock,
        machine: Machine,
    ):
        self.store, self.clock, self.desk, self.ear, self.history = store, clock, desk, ear, history
        self.rollouts, self.versions, self.fleet, self.polls = rollouts, versions, fleet, polls
        self.watch, self.teller, self.stock, self.machine = watch, teller, stock, machine
        self._made: dict[int, tuple[Any, str, str]] = {}

    def app(self) -> web.Application:
        app = web.Application(client_max_size=1024, middlewares=[in_words])
        app.on_response_prepare.append(without_version)
        get = web.get
        app.add_routes(
            [
                get("/fwdesk/state", self.state, allow_head=False),
                get("/fwdesk/history", self.events, allow_head=False),
                get("/fwdesk/audit", self.audit, allow_head=False),
                get("/fwdesk/seen", self.seen, allow_head=False),
                get("/fwdesk/versions", self.which, allow_head=False),
                get("/fwdesk/devices", self.devices, allow_head=False),
                get("/fwdesk/coming", self.coming, allow_head=False),
                get("/metrics", self.numbers, allow_head=False),
            ]
        )
        return app

    # the state

    def whole(self) -> Row:
        """What every view shows; the newest rollouts first."""
        live = sorted(self.rollouts.live(), reverse=True)
        shown = [self.rollout(it, False) for it in live[:SHOWN]]
        return self.common() | {
            "rollouts": shown,
            "more": max(0, len(live) - SHOWN),
            "fleet": self.fleet.shown(),
            "versions": self.versions.counts(),
            "events": [show_event(it) for it in list(self.history.recent)[:-21:-1]],
        }

    def common(self) -> Row:
        watch = self.watch
        begun = self.store.all("select value from meta where key='begun'")
        return {
            "away": watch.away,
            "awaySince": watch.away_since if watch.away else None,
            "held": watch.held,
            "kept": self.store.problem or None,
            "begun": float(begun[0]["value"]) if begun else None,
        }

    def rollout(self, number: int, with_groups: bool) -> Row:
        shown = self.rollouts.shown(number, with_groups)
        return shown | {"set": self.versions.set_of(int(shown["distributionSetId"]))}

    def one(self, number: int) -> Row:
        events = [show_event(it) for it in self.history.of(number)]
        return self.common() | {"rollout": self.rollout(number, True), "events": events}

    def mark(self) -> Any:
        """Two answers are alike as long as this is."""
        watch = self.watch
        held = json.dumps(watch.held)
        return (
            self.rollouts.version,
            self.versions.version,
            self.fleet.version,
            self.history.news,
            watch.away,
            held,
            self.store.problem,
        )

    async def state(self, request: web.Request) -> web.Response:
        """Made once for however many ask, and sent to who doesn't have it yet. `Age` is that of the last look."""
        number = int(read_query(request, rollout=NUMBER).get("rollout", 0))
        if number and number not in self.rollouts.known:
            return tells({"error": "not_found", "words": "the console knows no such rollout"}, 404)
        mark = self.mark()
        made = self._made.get(number)
        if not made or made[0] != mark:
            text = json.dumps(
                self.one(number) if number else self.whole(),
                ensure_ascii=False,
                separators=(",", ":"),
            )
            tag = f'"{hashlib.sha256(text.encode()).hexdigest()[:24]}"'
            if len(self._made) > 100:
                self._made.clear()
            made = self._made[number] = mark, text, tag
        age = self.watch.age()
        fields = FIELDS | {
            "ETag": made[2],
            "Age": str(round(min(age, 10**6)) if age is not None else 10**6),
        }
        if request.headers.get("If-None-Match", "").removeprefix("W/") == made[2]:
            return web.Response(status=304, headers=fields)
        return web.Response(text=made[1], content_type="application/json", headers=fields)

    # history

    async def events(self, request: web.Request) -> web.Response:
        taken = read_query(
            request, before=NUMBER, limit=NUMBER, rollout=NUMBER, kind=KIND, format=CSV
        )
        rows = self.store.events(
            "where id < ?1 and (?2 = 0 or rollout = ?2) and (?3 = '' or kind = ?3) order by id desc limit ?4",
            int(taken.get("before", 2**53)),
            int(taken.get("rollout", 0)),
            taken.get("kind", ""),
            min(10_000 if "format" in taken else 500, int(taken.get("limit", 50))),
        )
        shown = [show_event(it) for it in rows]
        if "format" in taken:
            return as_csv(
                shown, ("id", "at", "kind", "rollout", "group", "who", "words"), "history"
            )
        return tells(shown)

    async def audit(self, request: web.Request) -> web.Response:
        taken = read_query(
            request,
            before=NUMBER,
            limit=NUMBER,
            path=PATH,
            who=WHO,
            rollout=NUMBER,
            refused=re.compile("[01]"),
            format=CSV,
        )
        self.ear.flush()
        path = taken.get("path") or (
            f"/rest/v1/rollouts/{taken['rollout']}" if "rollout" in taken else ""
        )
        rows = self.store.all(
            "select id, at, status, address, who, method, path from audit where id < ?1 "
            "and (?2 = '' or path = ?2 or substr(path, 1, length(?2) + 1) in (?2 || '/', ?2 || '?')) "
            "and (?3 = '' or who = ?3) and (?4 = '' or (status >= 400) = (?4 = '1')) order by id desc limit ?5",
            int(taken.get("before", 2**53)),
            path,
            taken.get("who", ""),
            taken.get("refused", ""),
            min(10_000 if "format" in taken else 500, int(taken.get("limit", 50))),
        )
        shown = [{**it, "path": unquoted(it["path"])} for it in rows]
        if "format" in taken:
            return as_csv(
                shown, ("id", "at", "status", "address", "who", "method", "path"), "audit"
            )
        return tells(shown)

    # devices

    async def seen(self, request: web.Request) -> web.Response:
        taken = read_query(request, device=DEVICE, silent=HOURS)
        try:
            known = await self.polls.all()
        except Unknown as error:
            return tells({"error": "seen", "words": str(error)}, 503)
        if "device" in taken:
            return tells({"device": taken["device"], "at": known.get(taken["device"])})
        least = 3600 * float(taken.get("silent", 0))
        now = self.clock.wall()
        rows = sorted(known.items(), key=lambda it: it[1])
        return tells({it: round(at, 1) for it, at in rows if now - at >= least})

    async def devices(self, request: web.Request) -> web.Response:
        """A page of the devices as they were counted last, by a filter and in an order that no call of the desk has."""
        taken = read_query(
            request, state=STATE, lacks=LACKS, q=FILTER, sort=ORDER, offset=OFFSET, limit=NUMBER
        )
        listing = self.fleet.look()
        if listing is None:
            return tells({"error": "devices", "words": "the devices aren't counted yet"}, 503)
        found = listing.ordered(taken.get("state", ""), taken.get("sort", ""))
        if "q" in taken:
            try:
                matching = await listing.matching(taken["q"])
            except NoFilter as error:
                raise Refused(f"q is no filter: {error}") from None
            except TakesTooLong as error:
                return tells({"error": "filter", "words": str(error)}, 503)
            found = [it for it in found if it["controllerId"] in matching]
        if "lacks" in taken:
            try:
                known = await self._known_by(taken["lacks"])
            except Unknown as error:
                return tells({"error": "seen", "words": str(error)}, 503)
            found = [it for it in found if it["controllerId"] not in known]
        begin, most = int(taken.get("offset", 0)), min(500, int(taken.get("limit", 50)))
        page = found[begin : begin + most]
        return tells({"at": listing.at, "total": len(found), "content": page})

    async def _known_by(self, what: str) -> Container[str]:
        """The devices that have a version that is known, or that HAProxy has answered."""
        if what == "poll":
            return await self.polls.all()
        return {it["id"] for it in self.store.all("select id from device")}

    async def which(self, request: web.Request) -> web.Response:
        taken = read_query(request, device=DEVICE, set=NUMBER)
        if "device" in taken:
            found = self.store.all("select * from device where id=?", taken["device"])
            return tells(
                {
                    "device": taken["device"],
                    "has": show_version(found[0], self.versions) if found else None,
                }
            )
        if "set" in taken:
            rows = self.store.all(
                "select id, action, at from device where dset=? order by id", int(taken["set"])
            )
            return tells(rows)
        return tells({"versions": self.versions.counts()})

    async def coming(self, request: web.Request) -> web.Response:
        read_query(request)
        return tells(await self.machine.coming())

    async def numbers(self, request: web.Request) -> web.Response:
        read_query(request)
        text = metrics.text(self, await self.machine.orders())
        return web.Response(text=text, content_type="text/plain", headers=FIELDS)


def show_event(event: Row) -> Row:
    return {**event, "words": as_text(event["parts"])}


def show_version(row: Row, versions: Versions) -> Row:
    return {
        "set": versions.set_of(int(row["dset"])),
        "rollout": row["rollout"],
        "action": row["action"],
        "at": row["at"],
    }


Handler = Callable[[web.Request], Awaitable[web.StreamResponse]]


@web.middleware
async def in_words(request: web.Request, handler: Handler) -> web.StreamResponse:
    """Each refusal and each fault is JSON with words; a fault of ours tells nothing of itself."""
    try:
        return await handler(request)
    except Refused as error:
        return tells({"error": "bad_request", "words": str(error)}, 400)
    except web.HTTPNotFound:
        return tells({"error": "not_found", "words": "the console has no such path"}, 404)
    except web.HTTPMethodNotAllowed:
        reply = tells({"error": "method", "words": "the console answers GET alone"}, 405)
        reply.headers["Allow"] = "GET"
        return reply
    except web.HTTPException as error:
        return tells({"error": "bad_request", "words": "the request can't be read"}, error.status)
    except Exception:
        logging.exception("%s isn't answered", request.path[:200])
        return tells({"error": "console", "words": "the console failed; its journal says why"}, 500)


async def without_version(_: web.Request, reply: web.StreamResponse) -> None:
    """No version of aiohttp and Python is told."""
    reply.headers["Server"] = "fwdesk-console"
