"""Devices that poll, as many as are asked for, in one loop: for the load, the fleets and the bench. Not run by itself."""
import os
import re
import resource
import select
import socket
import time
from collections import Counter
from pathlib import Path

from harness.processes import HOST

FILES = resource.getrlimit(resource.RLIMIT_NOFILE)[1]
# devices behind one router: the proxies let a thousand connections of one address in
BEHIND_ONE = 500
# how long all devices are waited for, in seconds
ALL_SERVED = 90


class Client:
    """One of a crowd: its connection, the requests that it has yet to send, and what has come of a reply."""

    def __init__(self, source, requests):
        self.source, self.requests, self.request = source, requests, next(requests)

    def connect(self, port):
        self.stream, self.got, self.since = socket.socket(), b"", time.monotonic()
        self.stream.setblocking(False)
        self.stream.bind((self.source, 0))
        self.stream.connect_ex((HOST, port))

    def send(self):
        self.got, self.since = b"", time.monotonic()
        self.stream.sendall(self.request)

    def whole(self, ended):
        """Whether a whole reply is there."""
        head, found, body = self.got.partition(b"\r\n\r\n")
        length = re.search(rb"\ncontent-length: (\d+)", head.lower())
        return bool(found) and (len(body) >= int(length[1]) if length else ended)


class Crowd:
    """Clients in one loop, of which each sends its next request once the reply to the one before is there.
    Counts what they are told."""

    def __init__(self, port, clients):
        self.port, self.epoll, self.clients = port, select.epoll(), {}
        self.told, self.waits, self.began, self.last = Counter(), [], time.monotonic(), 0.0
        # when each poll was sent that was told of a deployment
        self.offered = []
        for it in clients:
            self.enter(it)

    def enter(self, client):
        client.connect(self.port)
        self.clients[client.stream.fileno()] = client
        self.epoll.register(client.stream, select.EPOLLOUT)

    def leave(self, client):
        del self.clients[client.stream.fileno()]
        client.stream.close()

    def go_on(self, client):
        """After a reply: the next request, if there is one, over this connection if it still serves."""
        if b"\nconnection: close" in client.got.lower():
            self.start_anew(client)
        elif request := next(client.requests, None):
            client.request = request
            self.say(client)
        else:
            self.leave(client)

    def start_anew(self, client):
        """The next request, if there is one, over another connection."""
        self.leave(client)
        client.request = next(client.requests, None)
        if client.request:
            self.enter(client)

    def lose(self, client, why):
        self.told[why] += 1
        self.start_anew(client)

    def say(self, client):
        try:
            client.send()
        except ConnectionError as error:
            self.lose(client, type(error).__name__)

    def take(self, client):
        """Something has come for a client, if only an end."""
        try:
            part = client.stream.recv(65536)
        except ConnectionError as error:
            self.lose(client, type(error).__name__)
            return
        client.got += part
        if client.whole(ended=not part):
            self.count(client)
            self.go_on(client)
        elif not part:
            self.lose(client, "cut short")

    def count(self, client):
        status, now = client.got[9:12].decode(), time.monotonic()
        self.told[status] += 1
        if status == "200":
            self.waits.append(now - client.since)
            self.offered += [client.since] if b'"deploymentBase"' in client.got else []
            self.last = now - self.began

    def run(self, seconds):
        """Runs until all are served or the time is over, and tells how many still wait then."""
        while self.clients and time.monotonic() < self.began + seconds:
            for number, event in self.epoll.poll(0.1):
                client = self.clients[number]
                if event & select.EPOLLOUT and not client.stream.getsockopt(
                    socket.SOL_SOCKET, socket.SO_ERROR
                ):
                    self.epoll.modify(number, select.EPOLLIN)
                    self.say(client)
                else:
                    self.take(client)
        waiting = list(self.clients.values())
        for it in waiting:
            self.leave(it)
        self.epoll.close()
        return len(waiting)

    def late(self):
        """What 99 of 100 waited at most, in milliseconds."""
        return sorted(self.waits)[len(self.waits) * 99 // 100] * 1000 if self.waits else 0.0


def processor_time(process):
    """The seconds of the processor that a process and its children have had."""
    children = Path(f"/proc/{process}/task/{process}/children").read_text().split()
    words = Path(f"/proc/{process}/stat").read_text().rpartition(")")[2].split()
    return (int(words[11]) + int(words[12])) / os.sysconf("SC_CLK_TCK") + sum(
        map(processor_time, children)
    )
