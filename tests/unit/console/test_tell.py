"""Messages: tried again until they are taken, over restarts too, no way held up by another, no secret in the journal."""
import asyncio
import dataclasses
import logging

import pytest

from aiohttp import web
from aiohttp.test_utils import TestServer
from fakes import play


class Receiver:
    def __init__(self):
        self.got, self.status = [], 204

    async def take(self, request):
        self.got.append(await request.json())
        return web.Response(status=self.status)

    async def start(self):
        app = web.Application()
        app.router.add_post("/{secret}", self.take)
        self.server = TestServer(app)
        await self.server.start_server()
        return str(self.server.make_url("/s3cret"))


def test_what_is_refused_is_tried_again_over_a_restart_and_told_once_taken(tmp_path, caplog):
    caplog.set_level(logging.INFO)
    receiver = Receiver()

    async def course(stand):
        url = await receiver.start()
        stand.settings = stand.settings.__class__(
            **{**stand.settings.__dict__, "webhooks": (url,), "link": "https://desk.example/page/"}
        )
        await stand.anew()
        await stand.look()
        receiver.status = 500
        stand.desk.rollouts[0]["status"] = "paused"
        await stand.look()
        await stand.service.teller.send_due("webhook 1")
        await stand.service.teller.send_due("webhook 1")  # not due yet
        assert len(receiver.got) == 1
        await stand.anew()
        receiver.status = 204
        await stand.service.teller.send_due("webhook 1")
        await stand.service.teller.send_due("webhook 1")
        assert len(receiver.got) == 2 and receiver.got[0] == receiver.got[1]
        assert receiver.got[0]["link"] == "https://desk.example/page/#/rollouts/1"
        assert stand.service.store.all("select * from outbox") == []
        assert not [
            it for it in caplog.records if it.name == "root" and "s3cret" in it.getMessage()
        ]
        await receiver.server.close()

    play(tmp_path, course)


def test_the_pause_between_tries_doubles_and_it_is_given_up_after_a_day(tmp_path):
    async def course(stand):
        await stand.look()
        stand.desk.rollouts[0]["status"] = "paused"
        await stand.look()
        times = []
        for _ in range(90000):
            before = stand.service.teller.refused
            await stand.service.teller.send_due("webhook 1") if stand.service.teller._due.get(
                ("webhook 1", 1), (0, 0)
            )[0] <= stand.clock.steady() else None
            if stand.service.teller.refused > before:
                times.append(stand.clock.steady())
            if not stand.service.history.waiting:
                break
            stand.clock.go(1)
        pauses = [b - a for a, b in zip(times, times[1:])]
        assert pauses[:5] == [1, 2, 4, 8, 16] and max(pauses) == 600
        assert 86400 <= times[-1] - times[0] < 87100

    # a port at which nobody listens
    play(tmp_path, course, webhooks=("http://127.0.0.1:1/",))


class Relay:
    """An SMTP server that takes mails, and ends a connection as it is told to."""

    def __init__(self, at_quit):
        self.at_quit, self.mails = at_quit, []

    async def serve(self, reader, writer):
        writer.write(b"220 relay\r\n")
        is_mail, text = False, b""
        while line := await reader.readline():
            if is_mail and line != b".\r\n":
                text += line
                continue
            if is_mail:
                self.mails.append(text.decode())
            is_mail = line.upper() == b"DATA\r\n"
            if line.upper() == b"QUIT\r\n":
                writer.write(self.at_quit)
                break
            writer.write(b"354 go on\r\n" if is_mail else b"250 yes\r\n")
        writer.close()


@pytest.mark.parametrize("at_quit", [b"221 bye\r\n", b"250 yes\r\n", b""])
def test_a_mail_that_is_taken_is_sent_once_whatever_is_said_at_the_end(tmp_path, at_quit):
    relay = Relay(at_quit)

    async def course(stand):
        server = await asyncio.start_server(relay.serve, "127.0.0.1", 0)
        port = server.sockets[0].getsockname()[1]
        told = {"mail_to": ("ops@example.org",), "smtp": f"127.0.0.1:{port}"}
        stand.settings = dataclasses.replace(stand.settings, **told)
        await stand.anew()
        await stand.look()
        stand.order("pause", "ben")
        stand.desk.rollouts[0]["status"] = "paused"
        await stand.look()
        for _ in range(3):
            await stand.service.teller.send_due("mail")
            stand.clock.go(700)
        assert len(relay.mails) == 1 and "was paused by" in relay.mails[0]
        assert stand.service.teller.waiting() == 0
        server.close()

    play(tmp_path, course)
