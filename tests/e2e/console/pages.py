"""Windows of the web UI without a browser: each asks for the state every two seconds, by one connection for as long as the edge lets it."""
import threading
from typing import Any

from harness import http_client

from .environment import Environment

EVERY = 2.0  # seconds, as web/live.js has it


class Pages:
    """So many windows while it is entered: the statuses that they were answered, and how often one was sent what it had."""

    def __init__(self, env: Environment, count: int, path: str = "/fwdesk/state"):
        self.env, self.path = env, path
        self.statuses: list[int] = []
        self.sent_twice = 0
        self._over = threading.Event()
        self._threads = [threading.Thread(target=self._run) for _ in range(count)]

    def _run(self) -> None:
        link = http_client.connect(self.env.port, trusted=http_client.trust_all(), seconds=60)
        tag = ""
        while not self._over.wait(EVERY):
            reply = self._ask(link, tag)
            told = reply.fields.get("etag", "")
            self.statuses.append(reply.status)
            self.sent_twice += reply.status == 200 and told == tag
            tag = told
        link.close()

    def _ask(self, link: Any, tag: str) -> http_client.Reply:
        """As a browser does it: one whose kept connection has ended is made anew, once."""
        sent = http_client.login("anna", "secret") | {"If-None-Match": tag}
        for _ in range(2):
            try:
                return http_client.exchange(link, "GET", self.path, fields=sent)
            except http_client.BROKEN:
                link.close()
        return http_client.Reply(0, b"")

    def __enter__(self) -> "Pages":
        for it in self._threads:
            it.start()
        return self

    def __exit__(self, *_: object) -> None:
        self._over.set()
        for it in self._threads:
            it.join()
