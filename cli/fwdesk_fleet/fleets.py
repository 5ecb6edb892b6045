"""A fleet, as its file /etc/fwdesk/fleets/NAME.conf has it, and the program that serves it."""
import hashlib
import re
import shutil
from dataclasses import dataclass, field
from pathlib import Path

from fwdesk_ctl import atomic
from fwdesk_ctl.errors import Wrong
from fwdesk_fleet import places

# of a user and of a slice, where `-` would put one fleet's slice below another's
NAME = re.compile(r"[a-z0-9]{1,24}")
HOST = re.compile(r"[a-z0-9.-]{1,253}")
PREFIX = re.compile(r"[A-Za-z0-9._-]{1,64}")
USER = re.compile(r"[A-Za-z0-9._@+-]{1,64}")
GROUPS = ("look", "steer", "approve", "hold")
OPERATOR = re.compile("{0}(:{1}(,{1})*)?".format(USER.pattern, f"({'|'.join(GROUPS)})"))
# below the ports that the ends of clients get
FIRST_PORT, LAST_PORT = 20001, 29999


def put(path: Path, text: str, mode: int = 0o600) -> None:
    """Gives a file a new text, whole or not at all; one that has it already is left alone."""
    if path.is_file() and path.read_text() == text:
        return
    atomic.placed(path, [text.encode()], mode)


def open_folder(folder: Path) -> None:
    """Makes a folder that all may enter, as the fleets' users have to."""
    folder.mkdir(parents=True, exist_ok=True)
    folder.chmod(0o755)


@dataclass
class Fleet:
    """A fleet, as its file has it."""

    name: str
    port: int
    hosts: list[str] = field(default_factory=list)
    prefixes: list[str] = field(default_factory=list)
    operators: list[str] = field(default_factory=list)

    @classmethod
    def read(cls, file: Path) -> "Fleet":
        values = dict(re.findall(r'^([A-Z]+)="?([^"\n]*)"?$', file.read_text(), re.M))
        lists = [values.get(it, "").split() for it in ("HOSTS", "PREFIXES", "OPERATORS")]
        return cls(file.stem, int(values["PORT"]), *lists)

    @property
    def file(self) -> Path:
        return places.FLEETS / f"{self.name}.conf"

    @property
    def unit(self) -> str:
        return f"fwdesk@{self.name}.service"

    @property
    def folder(self) -> Path:
        """Where its records are: its own user may write there."""
        return places.RECORDS / self.name

    @property
    def program(self) -> Path:
        """The link to the program that serves it."""
        return places.FLEETS / f"{self.name}.program"

    def write(self) -> None:
        lists = {"HOSTS": self.hosts, "PREFIXES": self.prefixes, "OPERATORS": self.operators}
        lines = [f'{key}="{" ".join(words)}"\n' for key, words in lists.items()]
        put(self.file, f"PORT={self.port}\n" + "".join(lines))

    def keep_program(self, program: Path | str) -> None:
        """Keeps a copy of the program under its digest, so that an upgrade of the package changes no fleet."""
        digest = hashlib.sha256(Path(program).read_bytes()).hexdigest()[:12]
        kept = places.PROGRAMS / f"fwdesk-{digest}"
        if not kept.exists():
            open_folder(places.PROGRAMS)
            new = kept.with_suffix(".new")
            shutil.copyfile(program, new)
            new.chmod(0o755)
            new.rename(kept)
        link = self.program.with_suffix(".new")
        link.unlink(missing_ok=True)
        link.symlink_to(kept)
        link.rename(self.program)


def read_fleets() -> list[Fleet]:
    return [Fleet.read(it) for it in sorted(places.FLEETS.glob("*.conf"))]


def find_fleet(name: str) -> Fleet:
    """The fleet of a name; Wrong where there is none."""
    file = places.FLEETS / f"{name}.conf"
    if not NAME.fullmatch(name) or not file.is_file():
        raise Wrong(f"there is no fleet {name}: fwdesk-fleet list")
    return Fleet.read(file)


def choose_port(wanted: int | None = None) -> int:
    """A port that no fleet has: the wanted one, or the first."""
    taken = {it.port for it in read_fleets()}
    if wanted and wanted not in taken:
        return wanted
    free = (it for it in range(FIRST_PORT, LAST_PORT + 1) if it not in taken)
    if port := next(free, None):
        return port
    raise Wrong(f"no port from {FIRST_PORT} to {LAST_PORT} is free")


def check(words: list[str], form: re.Pattern[str], what: str) -> None:
    for word in words:
        if not form.fullmatch(word):
            raise Wrong(f"invalid {what}: {word!r}")


def split_operator(operator: str) -> tuple[str, str]:
    """An operator's name, and what he may: all, where nothing is said."""
    user, _, groups = operator.partition(":")
    return user, groups or ",".join(GROUPS)


def add_routes(fleet: Fleet, hosts: list[str], prefixes: list[str]) -> None:
    """Hosts and prefixes more, which no other fleet has."""
    check(hosts, HOST, "host name (small letters, digits, . and -)")
    check(prefixes, PREFIX, "beginning of a controllerId")
    for other in read_fleets():
        both = set(other.hosts) & set(hosts) | set(other.prefixes) & set(prefixes)
        if other.name != fleet.name and both:
            raise Wrong(f"{min(both)} leads to {other.name}")
    fleet.hosts = sorted({*fleet.hosts, *hosts})
    fleet.prefixes = sorted({*fleet.prefixes, *prefixes})
