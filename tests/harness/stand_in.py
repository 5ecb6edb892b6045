"""A server in the program's place, for tests of what stands before it. Not run by itself."""
import re
import socket
import threading

from harness.processes import HOST


class StandIn:
    """Takes each request whole, of any number of connections to a port, or to a socket that listens. `answer` says what comes of one."""

    def __init__(self, at: int | socket.socket) -> None:
        self.listener = socket.create_server((HOST, at)) if isinstance(at, int) else at
        threading.Thread(target=self.accept, daemon=True).start()

    def accept(self) -> None:
        while True:
            try:
                link = self.listener.accept()[0]
            except OSError:
                return
            threading.Thread(target=self.serve, args=(link,), daemon=True).start()

    def serve(self, link: socket.socket) -> None:
        rest = b""
        try:
            with link:
                while piece := link.recv(1 << 20):
                    rest += piece
                    while request := whole_request(rest):
                        rest = rest[len(request) :]
                        if not self.answer(link, request):
                            return
        except OSError:
            pass

    def answer(self, link: socket.socket, request: bytes) -> bool:
        """Answers a request, or not; whether the connection goes on."""
        raise NotImplementedError

    def end(self) -> None:
        self.listener.shutdown(socket.SHUT_RDWR)
        self.listener.close()


def whole_request(text: bytes) -> bytes:
    """The first request of what came, or nothing where it isn't whole yet."""
    head, end, _ = text.partition(b"\r\n\r\n")
    length = re.search(rb"content-length: (\d+)", head, re.I)
    whole = len(head) + len(end) + int(length[1] if length else 0)
    return text[:whole] if end and len(text) >= whole else b""


def send_reply(link: socket.socket, body: bytes = b"{}") -> None:
    head = (
        f"HTTP/1.1 200 OK\r\nContent-Type: application/json\r\nContent-Length: {len(body)}\r\n\r\n"
    )
    link.sendall(head.encode() + body)
