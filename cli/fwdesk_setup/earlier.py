"""What was here before: nothing, the configuration of fwdesk 1.0.0 that was copied by hand, or somebody else's."""
import difflib
import hashlib
import re
from dataclasses import dataclass
from pathlib import Path

from fwdesk_setup import places
from fwdesk_setup.errors import Refused
from fwdesk_setup.run import run

# the one that 1.0.0 had among its examples
OF_1_0_0 = Path(__file__).resolve().parent / "haproxy-1.0.0.cfg"
USER = re.compile(r"^\s*user\s+(\S+)\s+password\s+(\S+)\s*$")
MAY = re.compile(
    r"^\s*http-request set-var-fmt\(txn\.may\) (\S+) if \{ http_auth_user (\S+) \}\s*$"
)
BIND = re.compile(r"^\s*bind\s+(\S+)\s+ssl\s+crt\s+(\S+)\s*$")


@dataclass
class Copied:
    """What an operator put into his copy of the configuration of 1.0.0."""

    users: dict[str, str]
    roles: dict[str, str]
    port: int
    certificate: Path
    # lines that neither the delivered one has nor are his own by its page
    changes: list[str]


def is_copy(text: str) -> bool:
    return "HAProxy in front of fwdesk" in text and "userlist operators" in text


def is_of_package(path: Path) -> bool:
    """Whether a file is as HAProxy's own package brought it."""
    said = run("dpkg-query", "-W", "-f", "${Conffiles}\n", "haproxy")[1]
    digests = [line.split()[1] for line in said.splitlines() if line.split()[:1] == [str(path)]]
    return digests == [hashlib.md5(path.read_bytes()).hexdigest()]


def rest_of(text: str) -> list[str]:
    """The lines that every copy has, without those that are each operator's own, and without comments: the page of then
    had a password put into one."""
    lines = [it.rstrip() for it in text.splitlines()]
    lines = [it for it in lines if it and not it.lstrip().startswith("#")]
    return [it for it in lines if not any(p.match(it) for p in (USER, MAY, BIND))]


def read_copy(text: str) -> Copied:
    """What is an operator's own in a copy."""
    users = {it[1]: it[2] for line in text.splitlines() if (it := USER.match(line))}
    roles = {it[2]: it[1] for line in text.splitlines() if (it := MAY.match(line))}
    bound = next((it for line in text.splitlines() if (it := BIND.match(line))), None)
    mine, delivered = rest_of(text), rest_of(OF_1_0_0.read_text(encoding="utf-8"))
    differing = difflib.unified_diff(delivered, mine, n=0, lineterm="")
    changes = [it for it in differing if it[:1] in "+-" and it[:3] not in ("+++", "---")]
    if bound is None or not bound[1].rpartition(":")[2].isdecimal():
        changes.append("its line `bind .. ssl crt ..` isn't in the delivered form")
    port = int(bound[1].rpartition(":")[2]) if bound and not changes else 8443
    certificate = Path(bound[2]) if bound else places.ETC / "server.pem"
    return Copied(users, roles, port, certificate, changes)


def copied() -> Copied | None:
    """The copy that this machine's HAProxy runs from; None where there is none."""
    if not places.HAPROXY_CFG.is_file():
        return None
    text = places.HAPROXY_CFG.read_text(encoding="utf-8", errors="replace")
    return read_copy(text) if is_copy(text) else None


def refuse_others() -> None:
    """Refuses a HAProxy that somebody set up for something else."""
    defaults = places.HAPROXY_DEFAULTS
    if defaults.is_file():
        text = defaults.read_text(encoding="utf-8", errors="replace")
        if re.search(r"(?m)^\s*(CONFIG|EXTRAOPTS)\s*=", text):
            raise Refused(f"{defaults} tells HAProxy what to read: it serves something else here")
    folder = places.UNITS / "haproxy.service.d"
    others = [it.name for it in folder.glob("*.conf") if not it.name.startswith("fwdesk")]
    if others and re.search(
        r"(?m)^\s*(Environment|ExecStart)\s*=",
        "\n".join((folder / it).read_text(encoding="utf-8", errors="replace") for it in others),
    ):
        raise Refused(f"{folder} has {', '.join(others)}: HAProxy serves something else here")
    path = places.HAPROXY_CFG
    if path.is_file() and not is_of_package(path):
        text = path.read_text(encoding="utf-8", errors="replace")
        if not is_copy(text):
            raise Refused(
                f"{path} isn't the one of HAProxy's package: it serves something else here, which would be cut off. "
                "Put it aside first, or set fwdesk up on another machine"
            )
