"""A stand-in for hawkBit: what its devices ask, and the lists that from-hawkbit reads, in the form of its public
documentation. For tests/e2e/devices/run, and not run by itself.

    HawkBit(workdir, {ID: (token, tags)})    over TLS, with the folder's server.crt and server.key; `assign` offers a device
                                          an image"""
import base64
import hashlib
import json
import re
import ssl
import threading
import time
from dataclasses import dataclass, field
from http.server import BaseHTTPRequestHandler, ThreadingHTTPServer
from urllib.parse import parse_qs, urlsplit

HOST = "127.0.0.1"
LOGIN = "Basic " + base64.b64encode(b"admin:admin").decode()
DEVICE = re.compile(r"/DEFAULT/controller/v1/([^/]+)(?:/(.+))?")


@dataclass
class Action:
    """One image for one device."""

    filename: str
    image: bytes
    status: str = "running"
    told: list = field(default_factory=list)


@dataclass
class Target:
    token: str
    tags: list
    attributes: dict = field(default_factory=dict)
    actions: list = field(default_factory=list)
    polls: list = field(default_factory=list)

    def open(self):
        """The number of the action that is offered, or 0: hawkBit offers the newest."""
        return next(
            (k for k in range(len(self.actions), 0, -1) if self.actions[k - 1].status == "running"),
            0,
        )


class Asked(BaseHTTPRequestHandler):
    """One request."""

    protocol_version = "HTTP/1.1"

    def log_message(self, *_):
        pass

    def answers(self, status, body=b"", kind="application/json", **fields):
        body = body if isinstance(body, bytes) else json.dumps(body).encode()
        self.send_response(status)
        for name, value in {
            "Content-Type": kind,
            "Content-Length": str(len(body)),
            **fields,
        }.items():
            self.send_header(name.replace("_", "-"), value)
        self.end_headers()
        self.wfile.write(b"" if self.command == "HEAD" else body)

    def serve(self):
        body = self.rfile.read(int(self.headers.get("Content-Length", 0)))
        place = urlsplit(self.path)
        if found := DEVICE.fullmatch(place.path):
            return self.device(*found.groups(""), body)
        return self.lists(place.path, parse_qs(place.query))

    do_GET = do_HEAD = do_POST = do_PUT = serve

    def device(self, ident, rest, body):
        """Its device interface."""
        target = self.server.targets.get(ident)
        if not target or self.headers.get("Authorization") != f"TargetToken {target.token}":
            return self.answers(401)
        base = f"https://{self.headers['Host']}/DEFAULT/controller/v1/{ident}"
        kind, _, number = rest.partition("/")
        if not rest:
            return self.answers(200, self.poll(target, base))
        if kind == "configData":
            target.attributes |= json.loads(body)["data"]
            return self.answers(200)
        if kind == "softwaremodules":
            return self.download(target.actions[int(number.split("/")[0]) - 1])
        if number.endswith("/feedback"):
            return self.answers(
                200
                if self.feedback(target, kind, int(number.split("/")[0]), json.loads(body))
                else 404
            )
        if kind == "deploymentBase" and int(number) == target.open():
            return self.answers(200, self.deployment(target, base, int(number)))
        return self.answers(404)

    @staticmethod
    def poll(target, base):
        target.polls.append(time.monotonic())
        links = {} if target.attributes else {"configData": {"href": f"{base}/configData"}}
        if number := target.open():
            links["deploymentBase"] = {"href": f"{base}/deploymentBase/{number}?c=-2129030598"}
        return {"config": {"polling": {"sleep": "00:00:02"}}, "_links": links}

    @staticmethod
    def deployment(target, base, number):
        it = target.actions[number - 1]
        hashes = {
            kind: hashlib.new(kind, it.image).hexdigest() for kind in ("sha1", "md5", "sha256")
        }
        file = f"{base}/softwaremodules/{number}/artifacts/{it.filename}"
        links = {
            "download": {"href": file},
            "md5sum": {"href": f"{file}.MD5SUM"},
            "download-http": {"href": file},
            "md5sum-http": {"href": f"{file}.MD5SUM"},
        }
        artifact = {
            "filename": it.filename,
            "hashes": hashes,
            "size": len(it.image),
            "_links": links,
        }
        chunk = {"part": "os", "version": str(number), "name": "os", "artifacts": [artifact]}
        deployment = {"download": "forced", "update": "forced", "chunks": [chunk]}
        return {
            "id": str(number),
            "deployment": deployment,
            "actionHistory": {"status": "RUNNING", "messages": []},
        }

    def download(self, action):
        found = re.fullmatch(r"bytes=(\d+)-", self.headers.get("Range", ""))
        begin, size = int(found[1]) if found else 0, len(action.image)
        fields = {"Content_Range": f"bytes {begin}-{size - 1}/{size}"} if found else {}
        return self.answers(
            206 if found else 200,
            action.image[begin:],
            "application/octet-stream",
            Accept_Ranges="bytes",
            **fields,
        )

    @staticmethod
    def feedback(target, kind, number, told):
        if not 0 < number <= len(target.actions):
            return False
        action, status = target.actions[number - 1], told["status"]
        finished = status["result"]["finished"]
        action.told.append(
            (
                kind.replace("Base", "").replace("Action", ""),
                status["execution"],
                finished,
                *status.get("details", []),
            )
        )
        if status["execution"] == "closed":
            action.status = "finished" if finished == "success" else "error"
        return True

    def lists(self, path, query):
        """Its targets and tags, for who logs in."""
        if self.headers.get("Authorization") != LOGIN:
            return self.answers(401)
        targets, tags = self.server.targets, sorted(
            {tag for it in self.server.targets.values() for tag in it.tags}
        )
        always = {"createdBy": "admin", "updateStatus": "registered"}
        as_target = lambda ident: always | {
            "controllerId": ident,
            "name": f"Pump {ident}",
            "securityToken": targets[ident].token,
        }
        if path == "/rest/v1/targets":
            return self.page([as_target(it) for it in targets], query)
        if path == "/rest/v1/targettags":
            return self.page(
                [{"id": k, "name": it, "colour": "#000000"} for k, it in enumerate(tags, 1)], query
            )
        if found := re.fullmatch(r"/rest/v1/targettags/(\d+)/assigned", path):
            return self.page(
                [
                    as_target(ident)
                    for ident, it in targets.items()
                    if tags[int(found[1]) - 1] in it.tags
                ],
                query,
            )
        return self.answers(404)

    def page(self, things, query):
        offset, limit = (
            int(query.get(key, [usual])[0]) for key, usual in (("offset", "0"), ("limit", "50"))
        )
        content = things[offset : offset + limit]
        self.answers(200, {"content": content, "total": len(things), "size": len(content)})


class HawkBit:
    """The server, and what is asked of it as of a Desk of tests/e2e/devices/run."""

    def __init__(self, workdir, targets):
        self.targets = {ident: Target(token, tags) for ident, (token, tags) in targets.items()}
        self.server = ThreadingHTTPServer((HOST, 0), Asked)
        self.server.targets, self.server.daemon_threads = self.targets, True
        # a device is ended at any moment, within a request too
        self.server.handle_error = lambda *_: None
        safe = ssl.SSLContext(ssl.PROTOCOL_TLS_SERVER)
        safe.load_cert_chain(workdir / "server.crt", workdir / "server.key")
        self.server.socket = safe.wrap_socket(
            self.server.socket, server_side=True, do_handshake_on_connect=False
        )
        self.port = self.server.server_address[1]

    def __enter__(self):
        threading.Thread(target=self.server.serve_forever, daemon=True).start()
        return self

    def __exit__(self, *_):
        self.server.shutdown()
        self.server.server_close()

    def assign(self, ident, filename, image):
        """Offers a device an image, as its newest action."""
        self.targets[ident].actions.append(Action(filename, image))

    def polls(self, ident):
        return len(self.targets[ident].polls)

    def actions(self, ident):
        return [
            {"id": k, "status": it.status} for k, it in enumerate(self.targets[ident].actions, 1)
        ]

    def history(self, ident, number):
        return list(self.targets[ident].actions[number - 1].told)

    def attributes(self, ident):
        return self.targets[ident].attributes
