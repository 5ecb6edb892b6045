"""The operators of the proxy: the userlist with their passwords, and the map of what each may. Both are files of
/etc/fwdesk/haproxy.d; each is replaced atomically, after HAProxy has checked the whole configuration with it."""
import contextlib
import os
import re
import shutil
import subprocess
import tempfile
from dataclasses import dataclass
from pathlib import Path

from fwdesk_ctl.atomic import alone, synced
from fwdesk_ctl.errors import NotDone, Wrong

CONF = Path("/etc/fwdesk/haproxy.d")
# the proxy's parts: the checked copy that HAProxy reads, and those of the package, where it reads these themselves
IN_USE = Path("/var/lib/fwdesk-proxy/current")
PACKAGED = Path("/usr/share/fwdesk/haproxy")
# of many fleets, and of a node of a cluster: the servers, which fwdesk-fleet writes
SERVERS = Path("/etc/haproxy/fleets/servers.cfg")
USERS, ROLES = "20-operators.cfg", "operators.map"
MAY = ("look", "steer", "approve", "hold")
NAME = re.compile(r"[A-Za-z0-9._@+-]{1,64}", re.ASCII)
SECTION = re.compile(r"^userlist[ \t]+operators[ \t]*$", re.M)
TRIES = 60  # seconds for a check, a reload, or another change


@dataclass
class Operators:
    """The two files' texts, and the folders that they belong to."""

    conf: Path
    parts: Path
    users: str
    roles: str

    @classmethod
    def read(cls, conf: Path, parts: Path) -> "Operators":
        """The files as they are; raises Wrong where they aren't those of fwdesk-setup."""
        file = conf / USERS
        if not file.exists():
            raise Wrong(f"{file} isn't there: fwdesk-setup makes it, on HAProxy's machine")
        users = file.read_text(encoding="utf-8")
        if len(SECTION.findall(users)) != 1:
            raise Wrong(f"{file} has no section `userlist operators`, or more than one")
        roles = conf / ROLES
        return cls(conf, parts, users, roles.read_text(encoding="utf-8") if roles.exists() else "")

    @property
    def is_of_many_fleets(self) -> bool:
        """Whether roles are those of fleets, which fwdesk-fleet keeps."""
        own = (it.read_text(encoding="utf-8") for it in sorted(self.conf.glob("*.cfg")))
        return any(re.search(r"^\s*(preset|set)env\s+FWDESK_MANY\b", it, re.M) for it in own)

    def names(self) -> list[str]:
        """Those who may log in, in the order of the file."""
        return re.findall(r"^\s*user\s+(\S+)\s", self.users, re.M)

    def may(self) -> dict[str, str]:
        """What each may, of those that have a line."""
        lines = (it.split() for it in self.roles.splitlines() if not it.lstrip().startswith("#"))
        return {it[0]: it[1] for it in lines if len(it) == 2}

    def with_password(self, name: str, digest: str) -> "Operators":
        """The same with a user's line replaced, or put last into the section."""
        line, kept = f"    user {name} password {digest}", self.users
        if name in self.names():
            text = re.sub(rf"(?m)^[ \t]*user[ \t]+{re.escape(name)}[ \t].*$", lambda _: line, kept)
            return Operators(self.conf, self.parts, text, self.roles)
        section = SECTION.search(kept)
        assert section
        after = re.search(r"^(?!\s|#|$)", kept[section.end() + 1 :], re.M)
        end = section.end() + 1 + after.start() if after else len(kept)
        body = kept[section.end() + 1 : end].rstrip("\n")
        text = (
            kept[: section.end()] + "\n" + (body + "\n" if body else "") + line + "\n" + kept[end:]
        )
        return Operators(self.conf, self.parts, text, self.roles)

    def without_user(self, name: str) -> "Operators":
        text = re.sub(rf"(?m)^[ \t]*user[ \t]+{re.escape(name)}[ \t].*\n?", "", self.users)
        return Operators(self.conf, self.parts, text, self.roles)

    def with_roles(self, name: str, roles: str) -> "Operators":
        """The same with what an operator may; with no roles his line goes."""
        text = re.sub(rf"(?m)^[ \t]*{re.escape(name)}(?:[ \t].*)?(?:\n|\Z)", "", self.roles)
        if roles:
            text = text.rstrip("\n") + ("\n" if text.strip() else "") + f"{name} {roles}\n"
        return Operators(self.conf, self.parts, self.users, text)


def parts_in_use() -> Path:
    """The proxy's parts that HAProxy reads on this machine."""
    return IN_USE if IN_USE.is_dir() else PACKAGED


def check_name(name: str) -> str:
    if not NAME.fullmatch(name):
        raise Wrong(f"{name!r} is no operator's name: 1 to 64 of A-Z a-z 0-9 . _ @ + -")
    return name


def read_roles(text: str) -> str:
    """A list as look,steer in the order of all roles. Whoever may do something may look."""
    found = [it.strip() for it in text.split(",")]
    if wrong := [it for it in found if it not in MAY]:
        raise Wrong(f"{wrong[0]!r} is no role: {', '.join(MAY)}")
    return ",".join(it for it in MAY if it in found or it == "look")


def check_words(conf: Path, part: Path) -> list[str]:
    """How HAProxy is asked whether it takes a stage: with the servers of many fleets where it starts with them."""
    servers = ["-f", str(SERVERS)] if part.name == "desks" and SERVERS.is_file() else []
    return ["haproxy", "-c", "-f", str(conf), "-f", str(part), *servers]


def complaint(conf: Path, parts: Path, **places: str) -> str:
    """What HAProxy says against a configuration, as the edge and as the queue; nothing where it is valid. `places` are
    variables that lead it elsewhere."""
    own = {**os.environ, "FWDESK_OPERATORS": str(conf / ROLES), **places}
    for part in (it for it in (parts / "edge", parts / "desks") if it.is_dir()):
        try:
            ran = subprocess.run(
                check_words(conf, part), capture_output=True, text=True, timeout=TRIES, env=own
            )
        except OSError as error:
            raise NotDone(
                f"haproxy: {error.strerror}: operators are of HAProxy's machine"
            ) from None
        lines = ran.stderr.splitlines()
        told = [it for it in lines if "[ALERT]" in it or "duplicated user" in it]
        if ran.returncode or told:
            return told[0] if told else ran.stderr.strip() or "it says nothing of why"
    return ""


def check(wanted: Operators) -> None:
    """Raises NotDone where HAProxy refuses the whole configuration with these operators; nothing is replaced yet."""
    with tempfile.TemporaryDirectory(prefix="fwdesk-operators-") as folder:
        beside = Path(folder) / "haproxy.d"
        shutil.copytree(wanted.conf, beside)
        (beside / USERS).write_text(wanted.users, encoding="utf-8")
        (beside / ROLES).write_text(wanted.roles, encoding="utf-8")
        told = complaint(beside, wanted.parts)
    if told and (before := complaint(wanted.conf, wanted.parts)):
        raise NotDone(f"HAProxy's configuration isn't valid as it is: {before}; nothing is changed")
    if told:
        raise NotDone(f"HAProxy refuses it: {told}; nothing is changed")


def place(file: Path, text: str) -> None:
    """A file's new text, whole or not at all, with the owner and mode that it had; a new one is for root and for the
    group of its folder alone."""
    beside = file.with_name(f".{file.name}.new")
    beside.unlink(missing_ok=True)
    about = file.stat() if file.exists() else None
    try:
        made = os.open(beside, os.O_WRONLY | os.O_CREAT | os.O_EXCL, 0o600)
        with open(made, "w", encoding="utf-8") as out:
            out.write(text)
            out.flush()
            os.fchown(
                made,
                about.st_uid if about else -1,
                about.st_gid if about else file.parent.stat().st_gid,
            )
            os.fchmod(made, about.st_mode & 0o777 if about else 0o640)
            os.fsync(made)
        os.replace(beside, file)
    except OSError as error:
        beside.unlink(missing_ok=True)
        raise NotDone(f"{file} can't be written: {error.strerror}") from None
    synced(file.parent)


def reload() -> None:
    """Has HAProxy load it, where it runs; raises NotDone where it doesn't."""
    try:
        runs = (
            subprocess.run(
                ["systemctl", "is-active", "--quiet", "haproxy"], timeout=TRIES
            ).returncode
            == 0
        )
        if not runs:
            raise Wrong("haproxy doesn't run: it is loaded when that starts")
        ran = subprocess.run(
            ["systemctl", "reload", "haproxy"], capture_output=True, text=True, timeout=TRIES
        )
    except (OSError, subprocess.TimeoutExpired) as error:
        raise NotDone(f"systemctl reload haproxy: {error}") from None
    if ran.returncode:
        raise NotDone(f"systemctl reload haproxy: {(ran.stderr or ran.stdout).strip()}")


def replace(before: Operators, wanted: Operators, first: str) -> None:
    """Puts both files, the one of this name first: between the two nobody may more than before or after."""
    texts = {USERS: wanted.users, ROLES: wanted.roles}
    for name in sorted(texts, key=lambda it: it != first):
        if texts[name] != {USERS: before.users, ROLES: before.roles}[name]:
            place(wanted.conf / name, texts[name])


def change(before: Operators, wanted: Operators, first: str) -> str:
    """Checks the whole configuration, replaces the files, and reloads HAProxy; gives a warning, or nothing. What HAProxy
    doesn't load is put back."""
    check(wanted)
    replace(before, wanted, first)
    try:
        reload()
    except Wrong as warning:
        return str(warning)
    except NotDone:
        replace(wanted, before, first)
        with contextlib.suppress(NotDone, Wrong):
            reload()
        raise
    return ""


def locked(conf: Path) -> contextlib.AbstractContextManager:
    """One change at a time."""
    if not conf.is_dir():
        raise Wrong(f"{conf} isn't there: fwdesk-setup makes it, on HAProxy's machine")
    return alone(conf, seconds=TRIES)
