"""What is known of each rollout: its state and since when, who did what to it, why it paused, whether it stands still."""
import asyncio
import json
from collections import Counter
from collections.abc import Callable
from dataclasses import dataclass, field
from typing import Any

from .clock import Clock
from .desk import Desk, Json
from .ear import Ear
from .history import History
from .sentences import Saying, say
from .store import Row, Store, Writes
from .texts import clean

FINAL = ("finished", "approval_denied")
GOING = ("running", "paused")
PLANNED = ("ready", "waiting_for_approval")
OUTCOMES = ("ok", "bad", "gone")
UNBEGUN = ("ready", "scheduled")  # groups
READ = 20  # histories of failed members that are read for their last words
NEAR = 15.0  # seconds: a change that was seen within so many is told with one time
LATER = 0.1  # seconds that HAProxy's line may come after the desk's answer
PAUSED_EVERY = (
    30.0  # seconds between looks at the groups of a paused rollout of which nothing is heard
)

# the state that an order leads to, by the orders that do; and what is said of it
ORDERS = {
    "running": ("start", "resume"),
    "paused": ("pause",),
    "ready": ("approve",),
    "approval_denied": ("deny",),
}
# the state that each leads to
DONE = {verb: state for state, verbs in ORDERS.items() for verb in verbs}


def limit_of(group: Json) -> int:
    """So many failed ones pause its rollout."""
    return max(1, -(-int(group["size"]) * int(group["error"]) // 100))


def needed_of(group: Json) -> int:
    """So many have to succeed for the next group to start."""
    return -(-int(group["size"]) * int(group["success"]) // 100)


def silent_of(group: Json) -> int:
    """So many have reported no outcome."""
    return int(group["size"]) - sum(int(group[it]) for it in OUTCOMES)


@dataclass
class Known:
    """`since` and `seen_from` are of the wall's clock: it came into its state between the two. `changed` is of the
    steady clock: when its counts changed last."""

    about: Json
    status: str
    since: float | None = None
    seen_from: float | None = None
    groups: dict[int, Json] = field(default_factory=dict)
    sums: str = ""
    changed: float = 0.0
    still: bool = False
    tabled: str = ""
    acts: Json = field(default_factory=dict)
    asked: float = -1e9
    rose: set[int] = field(default_factory=set)


class Rollouts:
    def __init__(
        self,
        store: Store,
        clock: Clock,
        desk: Desk,
        ear: Ear,
        history: History,
        stands_after: float,
    ):
        self.store, self.clock, self.desk, self.ear, self.history = store, clock, desk, ear, history
        self.stands_after = stands_after
        self.known: dict[int, Known] = {}
        self.low = 0  # all rollouts up to this number are final
        self.version = 0
        self.on_other_desk: Callable[[], None] = lambda: None
        self._kept = {int(it["id"]): it for it in store.all("select * from rollout")}

    # what is kept

    def _restored(self, about: Json, row: Row) -> Known:
        age = max(0.0, self.clock.wall() - (row["changed"] or 0))
        return Known(
            about,
            row["status"],
            row["since"],
            row["seen_from"],
            sums=row["sums"] or "",
            changed=self.clock.steady() - age,
            still=bool(row["still"]),
            tabled=row["tabled"] or "",
            acts=json.loads(row["acts"] or "{}"),
        )

    def writes(self, number: int) -> Writes:
        """What keeps a rollout as it is known."""
        it = self.known[number]
        row = (
            number,
            it.status,
            it.since,
            it.seen_from,
            it.sums,
            self.changed_at(it),
            int(it.still),
            it.tabled,
            json.dumps(it.acts),
        )
        return [("insert or replace into rollout values(?,?,?,?,?,?,?,?,?)", [row])]

    def changed_at(self, it: Known) -> float:
        """When its counts changed last, by the wall's clock as it is now."""
        return self.clock.wall() - (self.clock.steady() - it.changed)

    # looking

    async def look(self, looked: float | None, heard: bool) -> None:
        """`looked` is when the last look was, by the wall's clock, or None where there was none ever."""
        found, total = await self.desk.rest("/rest/v1/rollouts", self.low)
        if total < max([0, *self.known, *self._kept]):
            self._forget()
            looked, (found, _) = None, await self.desk.rest("/rest/v1/rollouts", 0)
        for about in found:
            await self._note(about, looked, heard)
        while (it := self.known.get(self.low + 1)) and it.status in FINAL:
            self.low += 1

    def _forget(self) -> None:
        """No desk loses a rollout: this one is of before, from a backup, or another one. What was known of devices goes too."""
        self.known.clear()
        self._kept.clear()
        self.low = 0
        self.version += 1
        gone: Writes = [(f"delete from {it}", [()]) for it in ("rollout", "device", "report")]
        self.history.tell("desk", [say("otherDesk")], also=gone)
        self.on_other_desk()

    async def _note(self, about: Json, looked: float | None, heard: bool) -> None:
        number, status = int(about["id"]), str(about["status"])
        it = self.known.get(number)
        if it is None and number in self._kept:
            it = self._restored(about, self._kept.pop(number))
        is_new = it is None
        if it is None:
            it = Known(about, status, changed=self.clock.steady())
        it.about = about
        self.known[number] = it
        has_turned = it.status != status
        if has_turned or status == "running" or not it.groups and status not in FINAL:
            await self._look_at_groups(number, it)
        elif status == "paused" and (heard or self.clock.steady() - it.asked > PAUSED_EVERY):
            await self._look_at_groups(number, it)
        if is_new:
            has_turned = await self._appear(number, it, looked)
        if has_turned:
            await self._turn(number, it, status, looked)
        if status in GOING:
            self._progress(number, it)

    async def _look_at_groups(self, number: int, it: Known) -> None:
        told = await self.desk.get(f"/rest/v1/rollouts/{number}/deploygroups?limit=500")
        groups = {int(g["id"]): g for g in told["content"]}
        now = self.clock.steady()
        apart, it.asked = now - it.asked, now
        before, it.groups = it.groups, groups
        it.rose = {key for key, g in groups.items() if before and g["bad"] > before[key]["bad"]}
        if groups != before:
            self.version += 1
        for key, group in groups.items():
            if before and before[key]["status"] != group["status"]:
                self._tell_group(number, it, group, apart)

    def _tell_group(self, number: int, it: Known, group: Json, apart: float) -> None:
        """A group began, or each of its devices has its outcome; it was looked at so many seconds ago, before that."""
        key = int(group["id"])
        done = {"running": "began", "finished": "ended"}.get(group["status"])
        if not done:
            return
        order = self.ear.take_order(number, "triggerNextGroup") if done == "began" else None
        who = order[1].who if order else ""
        at, apart = (order[1].at, 0.0) if order else (self.clock.wall(), apart)
        acts = it.acts.setdefault("groups", {}).setdefault(str(key), {})
        acts[done] = {"at": at, "from": at - apart, "who": who}
        said = [say(done, name=it.about["name"], group=key)]
        said += [say("order", who=who)] if order else []
        said += [say("counts", ok=group["ok"], size=group["size"], failed=group["bad"])]
        kept = self.writes(number)
        self.history.tell("group", said, rollout=number, group=key, who=who, also=kept)

    async def _appear(self, number: int, it: Known, looked: float | None) -> bool:
        """A rollout that wasn't there before. Where the console itself is new nobody knows since when it is. Answers
        whether it has turned since it was planned."""
        self.version += 1
        if looked is None:
            self.store.write(self.writes(number))
            return False
        it.rose = {key for key, g in it.groups.items() if g["bad"]}  # all of it since the last look
        order = await self._explained(self.ear.take_maker)
        it.since, it.seen_from = (order.at, order.at) if order else (self.clock.wall(), looked)
        it.acts["made"] = {"at": it.since, "from": it.seen_from, "who": order.who if order else ""}
        name, who = it.about["name"], order.who if order else ""
        said = say("made", name=name, who=who) if order else say("madeUnseen", name=name)
        now, it.status = it.status, it.status if it.status in PLANNED else "ready"
        self.history.tell("made", [said], rollout=number, who=who, also=self.writes(number))
        return now != it.status

    async def _explained(self, take: Any) -> Any:
        """What was ordered; HAProxy's line may come a moment after the desk's answer."""
        if (found := take()) is None:
            await asyncio.sleep(LATER)
            found = take()
        return found

    async def _turn(self, number: int, it: Known, status: str, looked: float | None) -> None:
        """It is in another state: by whose order, or by itself, and why."""
        self.version += 1
        now, verbs = self.clock.wall(), ORDERS.get(status, ())
        taken = (
            await self._explained(lambda: self.ear.take_order(number, *verbs)) if verbs else None
        )
        it.status, it.sums, it.still, it.changed = status, "", False, self.clock.steady()
        self._note_passed(number, it)
        name = it.about["name"]
        if taken:
            verb, order = taken
            it.since = it.seen_from = order.at
            act = {"at": order.at, "from": order.at, "who": order.who, "by": "order"}
            it.acts[verb if verb != "pause" else "paused"] = act
            self._tell(number, status, [say(verb, name=name, who=order.who)], who=order.who)
            return
        it.since, it.seen_from = now, looked if looked is not None else now
        if status == "paused":
            await self._tell_pause(number, it)
            return
        act = {"at": now, "from": it.seen_from, "who": "", "by": "itself"}
        if status != "finished":
            act["by"] = "unknown"
        it.acts[
            {"running": "start" if "start" not in it.acts else "resume"}.get(status, status)
        ] = act
        self._tell(
            number, status, [say({"approval_denied": "denied"}.get(status, status), name=name)]
        )

    def _note_passed(self, number: int, it: Known) -> None:
        """Orders whose state was over before it was looked at: who started what paused at once."""
        for verb in DONE:
            if found := self.ear.take_order(number, verb):
                at, who = found[1].at, found[1].who
                act = {"at": at, "from": at, "who": who, "by": "order"}
                it.acts[verb if verb != "pause" else "paused"] = act
                said = say(verb, name=it.about["name"], who=who)
                self._tell(number, DONE[verb], [said], who=who, at=at)

    def _tell(self, number: int, kind: str, said: list[Saying], **more: Any) -> None:
        kind = "denied" if kind == "approval_denied" else kind
        self.history.tell(kind, said, rollout=number, also=self.writes(number), **more)

    async def _tell_pause(self, number: int, it: Known) -> None:
        """Nobody's order was heard. A guess is told as one: where the console didn't look for a while, or where no
        group's failures rose since it looked last."""
        assert it.since is not None and it.seen_from is not None
        full = [g for g in it.groups.values() if g["bad"] >= limit_of(g)]
        risen = [g for g in full if g["id"] in it.rose]
        group = (risen or full)[-1] if full else None
        is_guess = not risen or it.since - it.seen_from > NEAR
        act: Json = {"at": it.since, "from": it.seen_from, "who": "", "guess": is_guess}
        said = [say("paused", name=it.about["name"])]
        if it.since - it.seen_from > NEAR:
            said.append(say("between", from_=it.seen_from, to=it.since))
        if group is None:
            act |= {"by": "unknown"}
            said.append(say("unseen"))
        else:
            words, read = await self._last_words(number, int(group["id"]))
            act |= {
                "by": "itself",
                "group": group["id"],
                "failed": group["bad"],
                "size": group["size"],
                "limit": limit_of(group),
                "words": words,
                "read": read,
            }
            counts = {key: act[key] for key in ("group", "failed", "size", "limit")}
            said += [say("guess" if is_guess else "itself"), say("failed", **counts)]
            said += self._say_words(words, read, int(group["bad"]))
        it.acts["paused"] = act
        self._tell(number, "paused", said, group=group and group["id"], more=act)

    @staticmethod
    def _say_words(words: list[list[Any]], read: int, failed: int) -> list[Saying]:
        if not words:
            return []
        keys = ["times", *["next"] * 4]
        counted = [say(key, count=n, words=it) for key, (it, n) in zip(keys, words)]
        return [say("lastOf", read=read) if read < failed else say("last"), *counted]

    async def _last_words(self, number: int, group: int) -> tuple[list[list[Any]], int]:
        """The last words of failed members, counted, the most frequent first; and of how many they were read."""
        rows, _ = await self.desk.table(number)
        failed = [it for it in rows if it["group"] == str(group) and it["state"] == "error"][:READ]
        counts: Counter[str] = Counter()
        for it in failed:
            path = f"/rest/v1/targets/{it['controllerid']}/actions/{it['action']}/status?limit=500"
            entries = (await self.desk.get(path))["content"]
            said = next((" · ".join(e["details"]) for e in reversed(entries) if e["details"]), "")
            counts[clean(said, 120)] += 1
        found: list[list[Any]] = [[it, n] for it, n in counts.most_common() if it]
        return found, len(failed)

    # whether it moves

    def _progress(self, number: int, it: Known) -> None:
        sums = json.dumps([[g[key] for key in OUTCOMES] for g in it.groups.values()])
        now = self.clock.steady()
        if it.sums != sums:
            it.sums, it.changed, it.still = sums, now, False
            self.store.write(self.writes(number))
        elif not it.still and it.status == "running" and now - it.changed > self.stands_after:
            it.still = True
            self._tell_stands(number, it)

    def stands(self, it: Known) -> Json | None:
        """The group that it waits for, where it stands still."""
        begun = [g for g in it.groups.values() if g["status"] not in UNBEGUN]
        if not it.still or not begun:
            return None
        last = max(begun, key=lambda g: int(g["id"]))
        return {
            "group": last["id"],
            "silent": silent_of(last),
            "size": last["size"],
            "ok": last["ok"],
            "needed": needed_of(last),
        }

    def _tell_stands(self, number: int, it: Known) -> None:
        self.version += 1
        found = self.stands(it)
        hours = (self.clock.steady() - it.changed) / 3600
        said = [say("stands", name=it.about["name"], hours=round(hours, 1))]
        said += [say("silent", **found)] if found else []
        group = found["group"] if found else None
        self._tell(number, "stands", said, group=group, more=found or {})

    # what is shown

    def live(self) -> list[int]:
        return [n for n, it in self.known.items() if it.status not in FINAL]

    def shown(self, number: int, with_groups: bool) -> Json:
        """A rollout as pages show it."""
        it = self.known[number]
        keys = ("size", *OUTCOMES)
        counts = {key: sum(int(g[key]) for g in it.groups.values()) for key in keys}
        waiting = sum(silent_of(g) for g in it.groups.values() if g["status"] in UNBEGUN)
        paused = it.groups.get(it.acts.get("paused", {}).get("group"))
        return {
            **it.about,
            "since": it.since,
            "seenFrom": it.seen_from,
            "changed": round(self.changed_at(it)),
            "stands": self.stands(it),
            "acts": {key: act for key, act in it.acts.items() if key != "groups"},
            "counts": counts | {"waiting": waiting},
            "pausedBad": paused and paused["bad"],
            "groupsDone": sum(g["status"] == "finished" for g in it.groups.values()),
            **(self._shown_groups(it) if with_groups else {}),
        }

    @staticmethod
    def _shown_groups(it: Known) -> Json:
        return {"groups": list(it.groups.values()), "groupActs": it.acts.get("groups", {})}
