"""What a browser is told by a console that an intruder has: nothing of it runs, leads elsewhere, or sets something. And what the
intruder is told of whoever asks. A stand-in answers in the console's place."""
import socket

import pytest
from harness import http_client
from harness.edge import Edge
from harness.processes import free_port
from harness.stand_in import StandIn

HOSTILE = """Content-Type: text/html
Content-Security-Policy: default-src * 'unsafe-inline'
X-Content-Type-Options: sniff
X-Frame-Options: ALLOWALL
Referrer-Policy: unsafe-url
Cache-Control: public, max-age=31536000
Server: evil/1.0
Set-Cookie: session=x
Location: https://evil.example/
Refresh: 0; url=https://evil.example/
Link: <https://evil.example/x.css>; rel=stylesheet
Clear-Site-Data: "*"
Access-Control-Allow-Origin: https://evil.example
Access-Control-Allow-Credentials: true"""
BODY = b"<script>parent.steer()</script>"
LEFT = {"content-type": "text/html", "content-length": str(len(BODY)), "connection": "close"}
POLICY = {
    "content-security-policy": "default-src 'none'; sandbox",
    "x-content-type-options": "nosniff",
    "x-frame-options": "DENY",
    "referrer-policy": "no-referrer",
    "cache-control": "no-store",
}


class Intruder(StandIn):
    """Answers each request alike, and keeps it."""

    def __init__(self, path):
        self.status, self.asked = 200, []
        listener = socket.socket(socket.AF_UNIX)
        listener.bind(str(path))
        listener.listen()
        super().__init__(listener)

    def answer(self, link, request):
        self.asked.append(request.decode().lower())
        fields = "\r\n".join([*HOSTILE.split("\n"), f"Content-Length: {len(BODY)}"])
        link.sendall(f"HTTP/1.1 {self.status} X\r\n{fields}\r\n\r\n".encode() + BODY)
        return True


@pytest.fixture
def edge(tmp_path):
    tmp_path.chmod(0o755)
    made = Edge(tmp_path, free_port(), password="secret", more={"FWDESK_CONSOLE": "1"})
    (made.run / "fwdesk-console").mkdir()
    made.intruder = Intruder(made.run / "fwdesk-console/http.sock")
    made.edge = made.begin("edge", made.edge_words(), made.local)
    yield made
    made.end()
    made.intruder.end()


@pytest.mark.parametrize("status", [200, 302, 401, 404, 500])
def test_nothing_that_it_answers_acts_in_a_browser(edge, status):
    edge.intruder.status = status
    fields = http_client.login("anna", "secret") | {"Cookie": "own=secret"}
    for path in ("/fwdesk/state", "/fwdesk/history?format=csv", "/fwdesk/coming"):
        reply = http_client.ask(
            "GET", path, fields=fields, port=edge.port, trusted=http_client.trust_all()
        )
        assert reply.status == status and reply.body == BODY
        assert reply.fields == LEFT | POLICY, reply.fields
    # it is told neither the password nor a cookie
    assert len(edge.intruder.asked) == 3
    assert not any("authorization" in it or "cookie" in it for it in edge.intruder.asked)
