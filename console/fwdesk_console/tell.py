"""Tells others of an event: by webhook, chat or mail. What isn't taken is tried again for a day, over restarts too; it may
come twice where the console is killed between, and carries a number by which a receiver knows."""
import asyncio
import contextlib
import email.message
import email.utils
import logging
import smtplib

import aiohttp

from .clock import Clock
from .history import History
from .settings import Settings
from .store import Row, Store
from .texts import as_chat, as_text

PATIENCE = 10.0
SLOWEST = 600.0
GIVEN_UP = 86400.0


def ways_of(settings: Settings) -> list[str]:
    """Each way by a name that tells no secret: the address of a webhook is one."""
    named = (("webhook", settings.webhooks), ("chat", settings.chats))
    ways = [f"{kind} {n}" for kind, urls in named for n in range(1, len(urls) + 1)]
    return ways + (["mail"] if settings.mail_to else [])


class Teller:
    def __init__(self, settings: Settings, store: Store, clock: Clock, history: History):
        self.settings, self.store, self.clock, self.history = settings, store, clock, history
        self.told, self.refused = 0, 0
        self._due: dict[tuple[str, int], tuple[float, int]] = {}
        self._restore()

    def _restore(self) -> None:
        """What waited when the console ended; ways that are no longer there are forgotten."""
        ways = ways_of(self.settings)
        for it in self.store.all("select way,event from outbox order by id"):
            found = self.store.events("where id=?", it["event"])
            if found and it["way"] in ways:
                self.history.waiting.append((it["way"], found[0]))
            else:
                self._forget(it["way"], it["event"])

    def _forget(self, way: str, number: int) -> None:
        self.store.do("delete from outbox where way=? and event=?", way, number)

    def waiting(self) -> int:
        return len(self.history.waiting)

    @property
    def named(self) -> str:
        """What a message begins with: of many fleets the one that it is of."""
        return f"fwdesk {self.settings.fleet}".strip()

    def link(self, event: Row) -> str:
        if not self.settings.link:
            return ""
        place = f"#/rollouts/{event['rollout']}" if event["rollout"] else ""
        if event["kind"] == "paused" and event["more"].get("group"):
            place += f"/groups/{event['more']['group']}?state=error"
        return self.settings.link.split("#")[0] + place

    def as_json(self, event: Row) -> Row:
        """The form of a webhook."""
        return {
            "id": f"{self.store.name}-{event['id']}",
            "at": email.utils.formatdate(event["at"]),
            "fleet": self.settings.fleet,
            "kind": event["kind"],
            "rollout": event["rollout"],
            "group": event["group"],
            "who": event["who"],
            "words": as_text(event["parts"]),
            "link": self.link(event),
            "more": event["more"],
        }

    def as_chat_json(self, event: Row) -> Row:
        """The form of a chat: one member `text`, in which strangers' words stand as code."""
        fleet = f"{self.named}: " if self.settings.fleet else ""
        return {"text": f"{fleet}{as_chat(event['parts'])} {self.link(event)}".strip()}

    def as_mail(self, event: Row) -> email.message.EmailMessage:
        message = email.message.EmailMessage()
        message["From"] = self.settings.mail_from
        message["To"] = ", ".join(self.settings.mail_to)
        words = as_text(event["parts"])
        message["Subject"] = f"{self.named}: {words}"[:150]
        message["Date"] = email.utils.formatdate(event["at"])
        message["Message-ID"] = f"<{self.store.name}-{event['id']}@fwdesk-console>"
        message["Auto-Submitted"] = "auto-generated"
        message.set_content(f"{words}\n\n{self.link(event)}\n")
        return message

    async def _post(self, url: str, body: Row) -> None:
        limits = aiohttp.ClientTimeout(total=PATIENCE)
        async with aiohttp.ClientSession(timeout=limits, cookie_jar=aiohttp.DummyCookieJar()) as it:
            async with it.post(url, json=body, allow_redirects=False) as reply:
                if not 200 <= reply.status < 300:
                    raise OSError(f"it answers {reply.status}")

    def _send_mail(self, message: email.message.EmailMessage) -> None:
        host, _, port = self.settings.smtp.rpartition(":")
        with contextlib.closing(smtplib.SMTP(host, int(port), timeout=PATIENCE)) as it:
            it.send_message(message)
            # it is taken: whatever the relay says at the end, it isn't sent again
            with contextlib.suppress(smtplib.SMTPException, OSError):
                it.quit()

    async def _send(self, way: str, event: Row) -> None:
        kind, _, n = way.partition(" ")
        if kind == "webhook":
            await self._post(self.settings.webhooks[int(n) - 1], self.as_json(event))
        elif kind == "chat":
            await self._post(self.settings.chats[int(n) - 1], self.as_chat_json(event))
        else:
            await asyncio.to_thread(self._send_mail, self.as_mail(event))

    async def _try(self, way: str, event: Row) -> bool:
        """Whether it is done with: taken, or given up."""
        key = (way, int(event["id"]))
        _, tries = self._due.get(key, (0.0, 0))
        try:
            await self._send(way, event)
            self.told += 1
        except (
            Exception
        ) as error:  # of whatever library: the address may be in its words, so the kind alone is said
            self.refused += 1
            words = str(error) if type(error) is OSError else type(error).__name__
            age = self.clock.wall() - float(event["at"])
            logging.warning("%s of event %s isn't taken: %s", way, event["id"], words)
            if tries < 8 or age < GIVEN_UP:
                later = self.clock.steady() + min(SLOWEST, 2.0**tries)
                self._due[key] = (later, tries + 1)
                return False
            logging.error("%s of event %s is given up", way, event["id"])
        self._due.pop(key, None)
        self._forget(way, int(event["id"]))
        return True

    async def send_due(self, way: str) -> None:
        """Of one way, in order of the events, up to the first that isn't taken."""
        for event in [it for its_way, it in self.history.waiting if its_way == way]:
            due, _ = self._due.get((way, int(event["id"])), (0.0, 0))
            if due > self.clock.steady() or not await self._try(way, event):
                return
            self.history.waiting.remove((way, event))

    async def _keep_way(self, way: str) -> None:
        while True:
            await self.send_due(way)
            await self.history.wait_for_news(0.5)

    async def keep(self) -> None:
        """The ways side by side, so that one that hangs holds up none of the others."""
        await asyncio.gather(*(self._keep_way(it) for it in self.history.ways))
