"""Asks the server, one thing after the other over one kept connection."""
import base64
import contextlib
import http.client
import json
import socket
import ssl
import threading
import time
from collections.abc import Callable, Iterator
from functools import partial
from typing import Any
from urllib.parse import unquote, urlencode

from fwdesk_ctl.connection import address, connection, login
from fwdesk_ctl.errors import ForeignReply, LostReply, Refused, Unreached
from fwdesk_ctl.replies import MOST_BYTES, MOST_ENTRIES, Record, read_json, read_table

IDLE = 5  # seconds: a connection that was kept for longer may be gone by now, so another is opened
PAGE = 500  # the most that the desk tells of a list at once
LONGEST = 300  # seconds for a request and its whole reply, an artifact over a slow line too


@contextlib.contextmanager
def limit_time(link: http.client.HTTPConnection, seconds: float) -> Iterator[None]:
    """Ends the connection if the block takes longer, which raises TimeoutError then. The connection is open before."""
    # (a reply that ends the connection takes its socket from it)
    sock, is_late = link.sock, threading.Event()

    def end() -> None:
        is_late.set()
        with contextlib.suppress(OSError):
            sock.shutdown(socket.SHUT_RDWR)

    timer = threading.Timer(seconds, end)
    timer.daemon = True
    timer.start()
    try:
        yield
    finally:
        timer.cancel()
    if is_late.is_set():
        raise TimeoutError(f"over {seconds} s")


def read_body(reply: http.client.HTTPResponse) -> bytes:
    """The bytes of a whole reply, of which no more than MOST_BYTES are taken. IncompleteRead where it broke off."""
    body = reply.read(MOST_BYTES + 1)
    if len(body) > MOST_BYTES:
        raise ForeignReply(f"it has more than {MOST_BYTES:,} bytes")
    if reply.length:
        raise http.client.IncompleteRead(body, reply.length)
    return body


class Desk:
    """The desk at an address. `get` and `post` take a path as docs/API.md has it, and give the object of the answer."""

    def __init__(self, url: str, ca: str | None = None, timeout: float = 60) -> None:
        self.at, self.ca, self.timeout = address(url), ca, timeout
        self.name = unquote(self.at.netloc)
        self.link: http.client.HTTPConnection | None = None
        self.since = 0.0
        self.is_sent = False
        self.fields: dict[str, str] = {}
        # what is done right before a command is sent that isn't sent twice
        self.before_command: Callable[[], None] = lambda: None
        if known := login(self.at):
            self.fields["Authorization"] = (
                "Basic " + base64.b64encode(":".join(known).encode()).decode()
            )

    def close(self) -> None:
        """Ends the connection, so that nobody waits for it."""
        if self.link:
            self.link.close()
        self.link = None

    def send(self, method: str, path: str, body: Any) -> tuple[int, bytes]:
        """Sends a request over the connection, which is open, and answers the status and the bytes of its reply."""
        assert self.link
        with limit_time(self.link, LONGEST):
            self.link.request(method, path, body, self.fields)
            reply = self.link.getresponse()
            told = read_body(reply)
        self.since = time.monotonic()
        if reply.will_close:
            self.close()
        return reply.status, told

    def open(self) -> None:
        """Opens a connection, if there is none. Nothing is sent yet, but what TLS needs."""
        if self.link is None:
            self.link = connection(self.at, self.ca, self.timeout)
            if self.link.sock is None:
                self.link.connect()

    def exchange(self, method: str, path: str, body: Any) -> tuple[int, bytes]:
        """The status and the bytes of a reply. A request that does no harm is sent again where a kept connection
        turns out to be ended. Any other is the first of its connection, where a proxy says that no reply came.
        """
        may_repeat = method != "POST" or "/tags/" in path
        if not may_repeat or time.monotonic() - self.since > IDLE:
            self.close()
        is_kept = self.link is not None
        self.open()
        if not may_repeat:
            self.before_command()
        self.is_sent = True
        try:
            return self.send(method, path, body)
        except (http.client.RemoteDisconnected, ConnectionError):
            self.close()
            if not (is_kept and may_repeat):
                raise
        self.open()
        return self.send(method, path, body)

    def ask(self, method: str, path: str, body: Any = None, **query: Any) -> bytes:
        """The bytes of a reply.

        Raises Refused for a status of 300 or more, ForeignReply for more bytes than a reply has, LostReply where a
        command was sent and no reply came, and Unreached where nothing was sent, or what was asked changes nothing.
        """
        path = self.at.path.rstrip("/") + path + (f"?{urlencode(query)}" if query else "")
        began, self.is_sent = time.monotonic(), False
        try:
            status, told = self.exchange(method, path, body)
        except ssl.SSLCertVerificationError as error:
            raise Unreached(
                f"cannot trust {self.name} ({error.verify_message}): see --ca"
            ) from None
        except ForeignReply as error:
            self.close()
            raise self.foreign(method, path, error) from None
        except (OSError, http.client.HTTPException) as error:
            self.close()
            if not isinstance(error, (OSError, http.client.IncompleteRead)):
                raise self.foreign(method, path, error) from None
            is_late = time.monotonic() - began >= LONGEST
            why = f"it took over {LONGEST} s" if is_late else str(error) or type(error).__name__
            if method != "GET" and self.is_sent:
                raise LostReply(f"no reply of {self.name} to {method} {path} ({why})") from None
            raise Unreached(f"cannot reach {self.name} ({why})") from None
        if status >= 300:
            raise Refused(status, told)
        return told

    def foreign(self, method: str, path: str, why: object) -> ForeignReply:
        """What is raised where a reply isn't the desk's, with the place that it came from."""
        foreign = ForeignReply(
            f"the reply of {self.name} to {method} {path} isn't a fwdesk server's: {why}"
        )
        foreign.is_uncertain = method != "GET"
        return foreign

    def read(
        self, method: str, path: str, body: Any = None, wanted: type = dict, **query: Any
    ) -> Any:
        """The object of a reply, or the list of objects."""
        reply = self.ask(method, path, body, **query)
        return read_json(reply, wanted, partial(self.foreign, method, path))

    def get(self, path: str, **query: Any) -> Record:
        return self.read("GET", path, **query)

    def post(self, path: str, thing: Any = None, **query: Any) -> Any:
        """Sends an object, or a list of objects, which is answered by a list then."""
        body = None if thing is None else json.dumps(thing)
        return self.read("POST", path, body, list if isinstance(thing, list) else dict, **query)

    def table(self, path: str, *columns: str) -> list[dict[str, str]]:
        """The rows of a table, each of which has these columns."""
        return read_table(self.ask("GET", path), columns, partial(self.foreign, "GET", path))

    def every(self, path: str, **query: Any) -> list[Record]:
        """A whole list, by as few requests as there can be."""
        seen: list[Record] = []
        while True:
            page = self.get(path, **query, offset=len(seen), limit=PAGE)
            left = page["total"] - len(seen)
            if page["total"] > MOST_ENTRIES or len(page["content"]) != max(0, min(left, PAGE)):
                count = len(page["content"])
                why = f"a page of {count} entries after {len(seen)} of {page['total']}"
                raise self.foreign("GET", path, why)
            seen += page["content"]
            if len(seen) >= page["total"]:
                return seen
