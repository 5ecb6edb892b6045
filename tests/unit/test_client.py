"""Tests of how fwdesk-ctl reads replies: one that breaks off, or doesn't end in time, is none."""
import contextlib
import socket
import threading
import time

from fwdesk_ctl import client
from fwdesk_ctl.errors import LostReply, Unreached
from harness.processes import HOST

HEAD = b"HTTP/1.1 200 OK\r\n"
LENGTH = b"Content-Length: 40\r\n\r\n"
# how a reply may say where it ends, and that the connection ends with it
HEADS = {
    "kept": HEAD + LENGTH,
    "ended": HEAD + b"Connection: close\r\n" + LENGTH,
    "without a length": HEAD + b"Connection: close\r\n\r\n",
    "in the head": HEAD + b"X: ",
}
TABLE = b"action,state\r\n1,open\r\n"


@contextlib.contextmanager
def answering(*pieces, pause=0.0):
    """A desk at an address where each request is answered by these pieces, and then by the end of the connection."""
    listener = socket.create_server((HOST, 0))

    def serve():
        with contextlib.suppress(OSError):
            while True:
                link = listener.accept()[0]
                with contextlib.suppress(OSError), link:
                    link.recv(65536)
                    for it in pieces:
                        link.sendall(it)
                        time.sleep(pause)

    threading.Thread(target=serve, daemon=True).start()
    desk = client.Desk(f"http://{HOST}:{listener.getsockname()[1]}")
    try:
        yield desk
    finally:
        desk.close()
        listener.close()


def failure(desk, method):
    """What is raised where a reply isn't whole."""
    try:
        told = desk.ask(method, "/rest/v1/rollouts")
    except Unreached as error:
        return error
    raise AssertionError(f"it is taken for a reply: {told}")


def test_a_reply_that_does_not_end_in_time_is_none():
    kept, client.LONGEST = client.LONGEST, 0.3
    try:
        for name, head in HEADS.items():
            with answering(head, *[b"1"] * 40, pause=0.1) as desk:
                began = time.monotonic()
                error = failure(desk, "POST")
                assert isinstance(error, LostReply) and "over 0.3 s" in str(error), (name, error)
                assert time.monotonic() - began < 3, name
    finally:
        client.LONGEST = kept


def test_a_reply_that_breaks_off_is_none():
    for name in ("kept", "ended"):
        for method, kind in (("GET", Unreached), ("POST", LostReply)):
            # (a table that ends behind a row would be a shorter one)
            with answering(HEADS[name] + TABLE) as desk:
                assert type(failure(desk, method)) is kind, (name, method)


def test_a_whole_reply_is_read():
    whole = HEAD + b"Content-Length: %d\r\n\r\n" % len(TABLE) + TABLE
    for text in (whole, HEADS["without a length"] + TABLE):
        with answering(text) as desk:
            assert desk.ask("GET", "/rest/v1/rollouts") == TABLE
            assert desk.table("/rest/v1/rollouts", "action") == [{"action": "1", "state": "open"}]
