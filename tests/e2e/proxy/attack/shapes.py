"""Requests that a proxy and a server might read otherwise, as texts. Not run by itself."""

LENGTHS = (
    "5, 5",
    "+5",
    "-1",
    "0x5",
    " 5 ",
    "00005",
    "5\r\nContent-Length: 6",
    "5\r\ncontent-length: 5",
    "4294967301",
    "18446744073709551621",
    "5;",
    "",
    "5 5",
    "9" * 40,
)
CODINGS = (
    "chunked",
    " chunked",
    "\tchunked",
    "chunked, identity",
    "identity, chunked",
    "xchunked",
    "chunked;q=1",
    "Chunked",
    '"chunked"',
    "chunked\r\nTransfer-Encoding: identity",
    "\r\n chunked",
    "identity",
    "gzip",
    "\x0bchunked",
    "chunked\x00",
    "chunk",
    "",
)
CHUNKS = (
    ("2", ""),
    ("2;a=b", "X: y\r\n"),
    ("2;\n", ""),
    ("00002", ""),
    ("fffffffffffffff2", ""),
    ("2 ", ""),
    ("0x2", ""),
)


def make_shapes(base: str) -> list[str]:
    """Some three hundred; `base` stands before /DEFAULT. Most hide the poll of device 9, whose reply nobody may be told but
    who asked for it."""
    other = f"GET {base}/DEFAULT/controller/v1/dev-09 HTTP/1.1\r\nHost: a\r\nAuthorization: TargetToken tok-dev-09\r\n\r\n"
    path = f"{base}/DEFAULT/controller/v1/dev-02"
    own = "Host: a\r\nAuthorization: TargetToken tok-dev-02\r\n"
    poll, long, chunk = f"GET {path} HTTP/1.1\r\n{own}", len(other), f"0\r\n\r\n{other}"
    report = f"POST {path}/deploymentBase/2/feedback HTTP/1."
    made = [f"{report}1\r\n{own}Content-Length: {it}\r\n\r\nhello{other}" for it in LENGTHS]
    made += [
        f"{report}1\r\n{own}Content-Length: {len(chunk)}\r\nTransfer-Encoding: {it}\r\n\r\n{chunk}"
        for it in CODINGS
    ]
    made += [
        f"{report}{minor}\r\n{own}Transfer-Encoding: {it}\r\n\r\n{size}\r\n{{}}\r\n0\r\n{tail}\r\n{other}"
        for it in CODINGS
        for minor in (0, 1)
        for size, tail in CHUNKS
    ]
    verbs = "GET HEAD head DELETE PUT TRACE CONNECT OPTIONS PRI get".split()
    made += [f"{it} {path} HTTP/1.1\r\n{own}Content-Length: {long}\r\n\r\n{other}" for it in verbs]
    made += [
        f"GET {path} HTTP/1.1\n{own}\n{other}",
        f"GET {path} HTTP/1.1\r{own}\r\r{other}",
        f"\r\n\r\n{poll}\r\n",
        f"{poll}X: a\r\n b: c\r\n\r\n",
        f"{poll}X : y\r\n\r\n",
        f"{poll}Content-Length : {long}\r\n\r\n{other}",
        f"{poll}X: a\x00b\r\n\r\n",
        f"{poll}\x00: b\r\n\r\n",
        f"GET {path}#x HTTP/1.1\r\n{own}\r\n",
        f"GET {path} HTTP/1.0\r\n{own}Connection: keep-alive\r\n\r\n{other}",
        f"GET {path}  HTTP/1.1\r\n{own}\r\n",
        f"GET {path} HTTP/1.1 \r\n{own}\r\n",
        f"GET {path} HTTP/2.0\r\n{own}\r\n",
        f"GET {path}\r\n",
        f"GET http://b{path} HTTP/1.1\r\n{own}\r\n",
        f"OPTIONS * HTTP/1.1\r\n{own}\r\n",
        f"CONNECT a:80 HTTP/1.1\r\n{own}\r\n{other}",
        f"POST {path}/configData HTTP/1.1\r\n{own}Expect: 100-continue\r\nContent-Length: 9\r\n\r\n",
        f"POST {path} HTTP/1.1\r\n{own}Expect: 100-continue\r\nContent-Length: 2\r\n\r\n{{}}{other}",
        f"{poll}Upgrade: websocket\r\nConnection: Upgrade\r\n\r\n{other}",
        "PRI * HTTP/2.0\r\n\r\nSM\r\n\r\n\x00\x00\x00\x04\x00\x00\x00\x00\x00",
        poll + "X: y\r\n" * 40 + "\r\n",
        f"{poll}X: {'y' * 9000}\r\n\r\n",
        f"{poll}\r\n" * 30,
        f"POST {path}/configData HTTP/1.1\r\n{own}Content-Length: 16000\r\n\r\n" + "x" * 300,
        f"POST {path}/x HTTP/1.1\r\n{own}Content-Length: 5000000\r\n\r\n" + "x" * 70000,
        f"GET {path}/softwaremodules/1/artifacts/abc.bin HTTP/1.1\r\n{own}\r\n",
        f"{poll}Connection: close, Host, Content-Length\r\nContent-Length: {long}\r\n\r\n{other}",
        f"{poll}Trailer: Content-Length\r\nTE: trailers\r\n\r\n",
        f"{poll}Keep-Alive: timeout=0\r\nRange: bytes=0-0\r\n\r\n",
    ]
    return made
