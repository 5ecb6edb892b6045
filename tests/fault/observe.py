"""What is asked of a database to see all that a case may have left in it: for inject and truncate,
and not run by itself."""
import functools
import re
import subprocess

from harness import wire_case

# how looks are asked: by operators and devices alike
WORDS = "run --db {db} --interface both".split()
# how long the program may take to verify a database, and what it says of one that agrees
SECONDS, AGREES = 60, (0, "ok\n", "")


def words(pattern, text):
    """What a pattern with one group finds in some bytes, each once."""
    return list(dict.fromkeys(it.decode() for it in re.findall(pattern, text)))


def pairs(pattern, text):
    return [(one.decode(), other.decode()) for one, other in re.findall(pattern, text)]


class Asked:
    """What the requests of a case name and add: numbers go one past what may be there."""

    def __init__(self, requests):
        self.requests, self.text = requests, b"\n".join(requests)
        rows = b"\n".join(
            it.partition(b",tags\n")[2] for it in requests if it.startswith(b"POST /desk/v1/import")
        )
        self.modules, self.sets, self.rollouts = (
            self.added(it)
            for it in (b"softwaremodules HTTP", b"distributionsets HTTP", b"rollouts HTTP")
        )
        self.artifacts = self.added(rb"softwaremodules/\d+/artifacts\?")
        even = map(int, words(rb'"amountGroups":(\d+)', self.text))
        self.groups = range(
            1, 2 + max([*even, *(it.count(b'"targetPercentage":') for it in requests)], default=0)
        )
        # each device with each token that it is given
        given = pairs(
            rb'"controllerId":"([^"]*)"[^{}]*"securityToken":"([^"]*)"', self.text
        ) + pairs(rb"(?m)^([^,\n]+),[^,\n]+,([^,\n]+),", rows)
        self.tokens = list(dict.fromkeys(given))
        self.devices = list(dict.fromkeys(device for device, _ in given))
        # a rollout gives each of its members an action
        self.actions = range(1, 1 + (len(self.rollouts) - 1) * len(self.devices))
        lists = (
            words(rb'"tags":\[([^\]]*)\]', self.text)
            + words(rb"/tags/([^/ ]+)", self.text)
            + words(rb"(?m),([^,\n]*)$", rows)
        )
        self.tags = dict.fromkeys(tag for it in lists for tag in re.findall(r"[\w.-]+", it))
        self.attributes = words(
            rb'"([\w.-]+)":', b"\n".join(re.findall(rb'"data":(\{[^}]*\})', self.text))
        )

    def added(self, path):
        return range(
            1, 2 + sum(bool(re.match(b"POST /rest/v1/" + path, it)) for it in self.requests)
        )

    def paths_of_stock(self):
        """Of modules, artifacts and sets."""
        yield from (
            "softwaremodules",
            "softwaremodules?offset=1&limit=1",
            "distributionsets",
            *(f"distributionsets/{it}" for it in self.sets),
        )
        for module in self.modules:
            yield from (f"softwaremodules/{module}", f"softwaremodules/{module}/artifacts")
            for artifact in self.artifacts:
                yield from (
                    f"softwaremodules/{module}/artifacts/{artifact}{more}"
                    for more in ("", "/download")
                )

    def paths_of_targets(self):
        yield from ("targets", "targets?offset=1&limit=1", "targets?q=name==*", "targets?q=name!=*")
        yield from (
            *(f"targets?q=tag=={it}" for it in self.tags),
            *(f"targets?q=attribute.{it}==*" for it in self.attributes),
        )
        for device in self.devices:
            yield from (f"targets/{device}", f"targets/{device}/actions")
            yield from (
                f"targets/{device}/actions/{action}{more}"
                for action in self.actions
                for more in ("", "/status")
            )

    def paths_of_rollouts(self):
        yield "rollouts"
        for rollout in self.rollouts:
            yield from (f"rollouts/{rollout}{more}" for more in ("", "/deploygroups"))
            yield from (
                f"rollouts/{rollout}/deploygroups/{group}{more}"
                for group in self.groups
                for more in ("", "/targets")
            )

    def calls(self):
        """The calls of operators, and those of each device with each of its tokens."""
        for path in (*self.paths_of_stock(), *self.paths_of_targets(), *self.paths_of_rollouts()):
            yield f"GET /rest/v1/{path}"
        yield from (
            f"GET /desk/v1/rollouts/{rollout}/{what}"
            for rollout in self.rollouts
            for what in ("report", "actions")
        )
        files = words(rb"artifacts\?filename=([^& ]+)", self.text)
        for device, token in self.tokens:
            paths = [
                "",
                *(
                    f"/{what}/{action}"
                    for action in self.actions
                    for what in ("deploymentBase", "cancelAction")
                ),
            ]
            paths += [
                f"/softwaremodules/{module}/artifacts/{it}"
                for module in self.modules
                for it in files
            ]
            yield from (
                f"GET /DEFAULT/controller/v1/{device}{it} | Authorization: TargetToken {token}"
                for it in paths
            )


def looks_of(case):
    """Requests that show all that a case may leave: its own queries,
    and each kind of query of all that its commands name and add."""
    asked = [it.request for process in case.processes for it in process.exchanges]
    queries = [it for it in asked if it.startswith(b"GET ")]
    return list(
        dict.fromkeys(
            [*queries, *(wire_case.request_bytes(it, b"") for it in Asked(asked).calls())]
        )
    )


@functools.cache
def knows_verify(program):
    """Whether the program has the order that recomputes what it keeps."""
    told = subprocess.run(
        [program, "--help"], stdout=subprocess.PIPE, stderr=subprocess.STDOUT, timeout=SECONDS
    )
    return re.search(rb"(?m)^ +verify\b", told.stdout) is not None


def verified(program, database):
    """What the program says of a database: its status, its output and its line on standard error."""
    try:
        ended = subprocess.run(
            [program, "verify", "--db", database], capture_output=True, timeout=SECONDS, text=True
        )
    except subprocess.TimeoutExpired:
        return None, "", f"nothing in {SECONDS} seconds"
    return ended.returncode, ended.stdout, ended.stderr
