"""What becomes of a look, and of a command, under which a kept connection between the two HAProxys ends. Without the program:
a stand-in answers in its place, or in that of the second HAProxy."""
import signal
import socket
import time
from collections import Counter

import pytest

from harness import http_client
from harness.edge import Edge
from harness.processes import HOST, PATIENCE, eventually
from harness.stand_in import StandIn, send_reply


class Mortal(StandIn):
    """Answers so many requests of each connection, and ends it under the next one, which it has read. `asked` counts what was
    read, by method and path."""

    def __init__(self, listener, most):
        self.most, self.asked, self.answered = most, Counter(), Counter()
        super().__init__(listener)

    def answer(self, link, request):
        method, path, _ = request.decode().split(" ", 2)
        self.asked[method, path] += 1
        if self.answered[link] == self.most:
            return False
        self.answered[link] += 1
        send_reply(link)
        return True


def ask(path, socket_path, method="GET"):
    return http_client.ask(method, path, port=socket_path).status


@pytest.fixture
def edge(tmp_path):
    tmp_path.chmod(0o755)
    desk = Mortal(socket.create_server((HOST, 0)), 10**9)
    made = Edge(tmp_path, desk.listener.getsockname()[1], more={"FWDESK_CONSOLE": "1"})
    yield made
    made.end()
    desk.end()


def test_a_look_whose_connection_ends_is_asked_again_and_a_command_is_not(edge):
    path = edge.run / "haproxy-desks/desks.sock"
    listener = socket.socket(socket.AF_UNIX)
    listener.bind(str(path))
    listener.listen()
    second = Mortal(listener, 1)
    edge.edge = edge.begin("edge", edge.edge_words(), edge.local)
    looks = edge.run / "haproxy/fwdesk-looks.sock"
    assert [ask("/rest/v1/rollouts", looks) for _ in range(4)] == [200] * 4
    # each of the connections ended under one of them, so some were read twice
    assert second.asked["GET", "/rest/v1/rollouts"] > 4
    # a command is read once for each time that it is given, whatever is answered
    start = "/rest/v1/rollouts/1/start"
    statuses = [ask(start, edge.local, "POST") for _ in range(4)]
    assert set(statuses) == {200, 502} and second.asked["POST", start] == 4, statuses
    listener.close()


def test_a_kept_connection_ends_behind_a_reply_where_the_second_haproxy_is_reloaded(edge):
    edge.start()
    with socket.socket(socket.AF_UNIX) as kept:
        kept.settimeout(PATIENCE)
        kept.connect(str(edge.run / "haproxy-desks/desks.sock"))
        request = b"GET /rest/v1/rollouts HTTP/1.1\r\nHost: localhost\r\n\r\n"
        kept.sendall(request)
        assert kept.recv(65536).startswith(b"HTTP/1.1 200 ")
        before = edge.workers(edge.desks)
        edge.desks.send_signal(signal.SIGUSR2)
        eventually("a reload", lambda: set(edge.workers(edge.desks)) - set(before))
        time.sleep(0.5)
        kept.sendall(request)
        told = kept.recv(65536)
        assert told.startswith(b"HTTP/1.1 200 ") and b"\r\nconnection: close\r\n" in told.lower()
