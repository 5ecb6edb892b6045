"""Makes random requests for tests/differential/fuzz. The model goes along, so that what is asked is often likely."""
from harness import wire_case
from differential import malformed
from model import machine, refusals, routes, run, wire

# what a device may say, first what ends an action or a cancel
SAID = (
    ("closed", "success"),
    ("closed", "failure"),
    ("canceled", "success"),
    ("rejected", "none"),
    ("proceeding", "none"),
    ("scheduled", "none"),
    ("resumed", "none"),
)
STEPS = ("start", "pause", "resume", "approve", "deny", "triggerNextGroup")
QUERIES = [it for it in routes.CALLS if it.startswith("GET") and not routes.is_device(it)]
DEVICES = [it for it in routes.CALLS if routes.is_device(it)]
FEEDBACK, CANCEL_FEEDBACK = (
    f"POST {routes.DEVICES}/{it}/{{action}}/feedback" for it in ("deploymentBase", "cancelAction")
)
# the calls whose bodies tell something
TELLING = {
    FEEDBACK,
    CANCEL_FEEDBACK,
    f"PUT {routes.DEVICES}/configData",
    f"POST {routes.DESK}/import",
    *(
        f"POST {routes.REST}/{it}"
        for it in ("targets", "softwaremodules", "distributionsets", "rollouts")
    ),
}
IDS = tuple(f"dev-{it:02}" for it in range(1, 13)) + ("A", "z.9_-", "i" * 64)


class Listener:
    """Takes bytes as they come, and answers by the model."""

    def __init__(self, h, interface):
        self.h, self.interface, self.rest, self.ended = h, interface, b"", False
        # each turn so far, and the list after it
        self.turns, self.lists = [], []

    def feed(self, part):
        self.rest += part
        at = 0
        while not self.ended and at < len(self.rest):
            try:
                taken = wire.take(self.rest, at)
                if taken is None:
                    break
                message, at = taken
                self.h, it = run.turn(self.h, message, self.interface)
            except refusals.Refused as fault:
                it, self.ended = run.Turn(refused=fault, reply=wire.refusal_bytes(fault)), True
            self.turns.append(it)
            self.lists.append(self.h)
        self.rest = self.rest[at:]

    def output(self):
        return b"".join(it.reply for it in self.turns)


class Talker:
    """Thinks of one request after the other. It remembers the tokens that it gave out by their digests."""

    # the words that it knows; and how many of its feedback end an action
    ids, tags, keys, files, ending = IDS, malformed.TAGS, malformed.KEYS, malformed.FILES, 1

    def __init__(self, rng, h, tokens, interface="both", hostile=0.1):
        self.rng, self.tokens, self.hostile, self.interface = rng, tokens, hostile, interface
        self.listener = Listener(h, interface)
        self.sent, self.mutates = {}, ()

    @property
    def h(self):
        return self.listener.h

    def chance(self, part):
        return self.rng.random() < part

    def some(self, found, otherwise):
        """One of these, mostly."""
        found = list(found)
        return self.rng.choice(found) if found and not self.chance(0.04) else otherwise

    def known(self):
        return self.some(
            machine.targets(self.h)[:40], self.rng.choice((*self.ids, *["nobody"] * len(self.ids)))
        )

    def number(self, most, recent=False):
        """A number of something that is there, mostly; of the newest, where recent."""
        if most and not self.chance(0.05):
            return most if recent and self.chance(0.5) else self.rng.randint(1, most)
        return self.rng.choice((most + 1, most + 1, 1, 2, 2147483647))

    def action(self):
        """An action, mostly one that is open and started."""
        numbers = range(1, len(machine.actions(self.h)) + 1)
        if len(numbers) > 20:
            numbers = self.rng.sample(numbers, 20)
        live = [
            a
            for a in numbers
            if machine.outcome(self.h, a) == machine.OPEN and machine.action_started(self.h, a)
        ]
        return (
            self.rng.choice(live)
            if live and self.chance(0.75)
            else self.number(len(machine.actions(self.h)))
        )

    def parameters(self, call):
        """What stands in the places of a call's parameters."""
        h, rng = self.h, self.rng
        a = self.action()
        its = (
            machine.target_of(h, a)
            if a <= len(machine.actions(h)) and not self.chance(0.04)
            else self.known()
        )
        r = self.number(len(machine.rollouts(h)), recent=True)
        groups = len(machine.plan(h, r)) if r <= len(machine.rollouts(h)) else 3
        m = self.number(len(machine.modules(h)))
        files = machine.artifacts_of(h, m)
        device = its if "action" in call or self.chance(0.5) else self.known()
        filename = rng.choice(self.files)
        if files and self.chance(0.9):
            filename = machine.artifacts(h)[rng.choice(files) - 1].filename
        found = {
            "target": device,
            "device": device,
            "tag": rng.choice(self.tags),
            "action": a,
            "rollout": r,
            "group": self.number(groups),
            "module": m,
            "artifact": rng.choice(files)
            if files and self.chance(0.9)
            else self.number(len(machine.artifacts(h))),
            "set": self.number(len(machine.sets(h))),
            "filename": filename,
        }
        offered = machine.offer(h, device) if device in machine.targets(h) else None
        if routes.is_device(call) and offered and self.chance(0.6):
            found["action"] = offered[0]
            names = machine.sets(h)[
                machine.rollouts(h)[machine.rollout_of(h, offered[0]) - 1].set - 1
            ].modules
            found["module"] = rng.choice(names)
            files = machine.artifacts_of(h, found["module"])
            if files and self.chance(0.8):
                found["filename"] = machine.artifacts(h)[rng.choice(files) - 1].filename
        return found

    # --- bodies

    def row(self, name):
        rng = self.rng
        token = (
            f"tok-{name}"[:64].ljust(8, "x")
            if self.chance(0.8)
            else malformed.word(rng, rng.choice((8, 64)))
        )
        self.tokens[run.bodies.sha256(token.encode())] = token
        tags = rng.sample(self.tags, rng.choice((0, 0, 1, 2)))
        return {
            "controllerId": name,
            "name": name if self.chance(0.7) else malformed.text(rng),
            "securityToken": token,
            "tags": tags,
        }

    def rows(self, most):
        return [
            self.row(it)
            for it in self.rng.sample(self.ids, self.rng.randint(1, min(most, len(self.ids))))
        ]

    def threshold(self):
        percent = self.rng.choice(
            (1, 10, 25, 33, 34, 40, 50, 51, 66, 67, 75, 99, 100, 100, self.rng.randint(1, 100))
        )
        return {"condition": "THRESHOLD", "expression": str(percent)}

    def rollout(self):
        rng, h = self.rng, self.h
        found = {
            "name": f"r{rng.randint(1, 99)}" if self.chance(0.9) else malformed.text(rng),
            "distributionSetId": self.number(len(machine.sets(h)), True),
            "targetFilterQuery": malformed.a_filter(rng, machine.targets(h)[:40] or self.ids),
            "successCondition": self.threshold(),
            "errorCondition": self.threshold(),
        }
        if self.chance(0.2):
            found["targetFilterQuery"] = malformed.mutated_filter(rng, found["targetFilterQuery"])
        if self.chance(0.5):
            found["amountGroups"] = rng.choice((1, 2, 2, 3, 3, 4, 5, 7, 12, 50))
        else:
            found["groups"] = [
                {"targetPercentage": rng.choice((1, 10, 25, 33, 50, 67, 99, 100))}
                for _ in range(rng.choice((0, 1, 1, 2, 3)))
            ]
            found["groups"].append({"targetPercentage": 100})
            for it in found["groups"]:
                it |= {
                    name: self.threshold()
                    for name in ("successCondition", "errorCondition")
                    if self.chance(0.3)
                }
        if self.chance(0.1):
            found |= {"successAction": {"action": "NEXTGROUP"}, "errorAction": {"action": "PAUSE"}}
        return found

    def feedback(self, call, action):
        """What a device says: mostly what goes on, sometimes what it said before, often by a number."""
        rng = self.rng
        if (call, action) in self.sent and self.chance(0.25):
            return self.once_more(self.sent[call, action])
        weights = (8, 5, 1, 2, 5, 2, 2) if call == FEEDBACK else (3, 1, 3, 8, 4, 2, 2)
        said = rng.choices(
            SAID, weights=[it if at > 3 else it * self.ending for at, it in enumerate(weights)]
        )[0]
        found = {"status": {"execution": said[0], "result": {"finished": said[1]}}}
        if self.chance(0.4):
            most = rng.choice((0, 1, 2, 8, 9))
            found["status"]["details"] = [
                rng.choice(("", "done", "x" * 256, "é" * 128, malformed.text(rng)))
                for _ in range(most)
            ]
        if self.chance(0.45):
            there = action <= len(machine.actions(self.h))
            last = machine.greatest(self.h, action) if there else 0
            found["number"] = max(
                1,
                rng.choice(
                    (
                        last + 1,
                        last + 1,
                        last + 1,
                        last + 3,
                        last,
                        last,
                        last - 1,
                        4294967295 if self.chance(0.02) else last + 2,
                    )
                ),
            )
            if self.chance(0.03):
                found["number"] = malformed.Raw(
                    rng.choice(("null", "0", "-1", "1.0", '"1"', "4294967296"))
                )
        self.sent[call, action] = found
        return found

    def once_more(self, found):
        """What was said before, sometimes with other details."""
        if self.chance(0.8):
            return found
        return found | {
            "status": found["status"] | {"details": self.rng.choice(([], ["again"], ["done"]))}
        }

    def attributes(self):
        rng = self.rng
        count = rng.choice((0, 1, 1, 2, 3, 31, 32, 33)) if self.chance(0.1) else rng.choice((1, 2))
        keys = rng.sample(self.keys, count) if count < 4 else [f"k{it}" for it in range(count)]
        found = {"data": {it: rng.choice(("", "linux", "1.0", malformed.text(rng))) for it in keys}}
        return found | ({"mode": "merge"} if self.chance(0.3) else {})

    def body(self, call, given):
        """The body of a call as a value, or as bytes."""
        rng, h = self.rng, self.h
        if call == f"POST {routes.REST}/targets":
            return self.rows(6)
        if call == f"POST {routes.REST}/softwaremodules":
            return [
                {
                    "name": malformed.text(rng),
                    "type": rng.choice(("os", "app")),
                    "version": f"{rng.randint(1, 5)}.0",
                }
            ]
        if call == f"POST {routes.REST}/distributionsets":
            count = len(machine.modules(h))
            numbers = [count + 1]
            if count and self.chance(0.95):
                numbers = rng.sample(range(1, count + 1), min(count, rng.choice((1, 1, 2, 3))))
            return [
                {
                    "name": f"s{rng.randint(1, 9)}",
                    "version": malformed.text(rng),
                    "modules": [{"id": it} for it in numbers],
                }
            ]
        if call == f"POST {routes.REST}/rollouts":
            return self.rollout()
        if call.endswith("/feedback"):
            return self.feedback(call, given["action"])
        if call.endswith("/configData"):
            return self.attributes()
        if call.endswith("/import"):
            rows = [
                tuple(it[key] if key != "tags" else " ".join(it[key]) for key in it)
                for it in (self.rows(8) if self.chance(0.95) else [])
            ]
            return malformed.csv_file(
                rng, rows if not self.wrong("body") else malformed.mutated_rows(rng, rows)
            )
        if call == f"POST {routes.MODULE}/artifacts":
            return rng.choice(
                (
                    b"abc",
                    b"",
                    rng.randbytes(rng.choice((1, 100, 65_536, 65_537, 70_000)))
                    if self.chance(0.1)
                    else rng.randbytes(5),
                )
            )
        return b"ignored" if self.chance(0.03) else b""

    # --- requests

    def wrong(self, what):
        """Whether this part of the request is to be wrong."""
        return what in self.mutates

    def mutated_parts(self, call):
        """Which parts of a request are to be wrong: none, mostly; seldom two, of which the first is told."""
        parts = ["path", "method", "query", "query"] + ["body"] * (3 * (call in TELLING))
        parts += ["credential"] * (2 * routes.is_device(call))
        count = (2 if self.chance(0.3) else 1) if self.chance(self.hostile) else 0
        return self.rng.choices(parts, k=count)

    def pairs(self, call, body):
        """The pairs of a query."""
        rng, keys, found = self.rng, routes.CALLS[call], []
        if "offset" in keys:
            found += [("offset", str(rng.choice((0, 1, 2, 5))))] * self.chance(0.3) + [
                ("limit", str(rng.choice((1, 2, 5, 50, 500))))
            ] * self.chance(0.3)
        if "q" in keys and self.chance(0.7):
            text = malformed.a_filter(rng, machine.targets(self.h)[:40] or self.ids)
            found.append(("q", malformed.mutated_filter(rng, text) if self.chance(0.2) else text))
        if "force" in keys and self.chance(0.6):
            found.append(("force", rng.choice(("true", "true", "false"))))
        if "filename" in keys:
            found.append(
                (
                    "filename",
                    rng.choice(self.files) if self.chance(0.9) else malformed.words(rng, 128),
                )
            )
            if self.chance(0.4):
                digest = run.bodies.sha256(body)
                found.append(
                    (
                        "sha256",
                        rng.choice((digest, digest, digest.upper(), "0" * 64, digest[:63] + "g")),
                    )
                )
        rng.shuffle(found)
        return found

    def credential(self, device):
        rng = self.rng
        row = machine.rows(self.h).get(device)
        token = self.tokens.get(row and row.digest, "tok-unknown")
        if self.wrong("credential"):
            other = rng.choice(list(self.tokens.values()) or ["tok-other"])
            shown = rng.choice(
                (
                    "TargetToken tok-other",
                    f"TargetToken  {token}",
                    f"targettoken {token}",
                    token,
                    "TargetToken short",
                    f"TargetToken {token} x",
                    "",
                    f"TargetToken {token}/",
                    f"TargetToken {other}",
                )
            )
            return rng.choice(
                ([f"Authorization: {shown}"],) * 6
                + ([], [f"Authorization: TargetToken {token}"] * 2)
            )
        return [
            rng.choice(
                (
                    f"Authorization: TargetToken {token}",
                    f"authorization:TargetToken {token}",
                    f"AUTHORIZATION: \t TargetToken {token} \t",
                )
            )
        ]

    def path(self, call, given):
        text = call.partition(" ")[2].format_map({key: str(it) for key, it in given.items()})
        if self.wrong("path"):
            parts = text.split("/")
            at = self.rng.randrange(1, len(parts))
            parts[at] = self.rng.choice(
                (
                    "",
                    "x",
                    "0",
                    "01",
                    "2147483648",
                    "%31",
                    parts[at] + "x",
                    "+1",
                    "1" * 65,
                    parts[at] + "/",
                    "99999999999",
                )
            )
            return "/".join(parts)
        return text

    def request(self, call):
        """The bytes of a request that makes a call."""
        rng = self.rng
        self.mutates = self.mutated_parts(call)
        given = self.parameters(call)
        body = self.body(call, given)
        if not isinstance(body, bytes):
            value = (
                malformed.mutated_value(rng, body)
                if self.wrong("body") and self.chance(0.85)
                else body
            )
            body = malformed.as_json(rng, value, noisy=self.chance(0.3)).encode(
                "utf-8", errors="surrogatepass"
            )
        if self.wrong("body") and self.chance(0.2):
            body = malformed.mutated_bytes(rng, body)
        query = malformed.query(rng, self.pairs(call, body))
        query = malformed.mutated_query(rng, query) if self.wrong("query") else query
        method = call.partition(" ")[0]
        if self.wrong("method"):
            method = rng.choice(("GET", "POST", "PUT", "DELETE", "HEAD", "PATCH", "get"))
        fields = [
            *malformed.ignored_fields(rng),
            *(self.credential(given["device"]) if routes.is_device(call) else []),
        ]
        if body or self.chance(0.05):
            zeros = "000" if self.chance(0.05) else ""
            fields.append(f"{rng.choice(('Content-Length', 'content-length'))}: {zeros}{len(body)}")
        rng.shuffle(fields)
        line = f"{method} {self.path(call, given)}{query} HTTP/1.1"
        return "".join(f"{it}\r\n" for it in [line, *fields, ""]).encode() + body

    def call(self):
        """A call that is likely now."""
        h, rng = self.h, self.rng
        if self.interface == "ddi":
            return rng.choice(DEVICES)
        if self.chance(0.12 if self.hostile < 0.3 else 0.6):
            return rng.choice(list(routes.CALLS))
        if len(machine.modules(h)) < 2 or self.chance(0.03):
            return f"POST {routes.REST}/softwaremodules"
        if len(machine.artifacts(h)) < 2 or self.chance(0.04):
            return f"POST {routes.MODULE}/artifacts"
        if len(machine.targets(h)) < 6 or self.chance(0.04):
            return rng.choice((f"POST {routes.REST}/targets", f"POST {routes.DESK}/import"))
        if not machine.sets(h) or self.chance(0.02):
            return f"POST {routes.REST}/distributionsets"
        if not machine.rollouts(h) or self.chance(0.05):
            return f"POST {routes.REST}/rollouts"
        if not machine.actions(h) or self.chance(0.1):
            words = {
                "ready": "start",
                "waiting_for_approval": rng.choice(("approve", "approve", "deny")),
                "paused": "resume",
            }
            step = words.get(machine.rollout_word(h, len(machine.rollouts(h))), rng.choice(STEPS))
            return f"POST {routes.ROLLOUT}/{step if self.chance(0.7) else rng.choice(STEPS)}"
        return rng.choices(
            (
                FEEDBACK,
                CANCEL_FEEDBACK,
                f"DELETE {routes.ACTION}",
                rng.choice(DEVICES),
                rng.choice(QUERIES),
                f"PUT {routes.DEVICES}/configData",
                f"POST {routes.TARGET}/tags/{{tag}}",
            ),
            weights=(35, 15, 9, 18, 18, 3, 3),
        )[0]

    def messages(self, count):
        """So many requests, or as many as there are until a fault, each as the model takes it."""
        return self.said(self.call for _ in range(count))

    def said(self, calls):
        """Requests that make these calls, each thought of once those before were answered."""
        found = []
        for call in calls:
            if self.listener.ended:
                break
            found.append(self.request(call()))
            self.listener.feed(found[-1])
        return found

    def ask(self, line, value=b"", device=None):
        """Sends a request with a body, bytes or a value, and gives it."""
        body = (
            value
            if isinstance(value, bytes)
            else malformed.as_json(self.rng, value, noisy=False).encode()
        )
        self.mutates = ()
        fields = self.credential(device) if device else []
        found = wire_case.request_bytes(" | ".join([line, *fields]), body)
        self.listener.feed(found)
        return found
