"""What the console is told: one TOML file. Each value has a default and a range; a wrong one ends the start in words."""
import dataclasses
import os
import re
import tomllib
from pathlib import Path
from typing import Any
from urllib.parse import urlsplit

KINDS = ("paused", "stands", "desk", "console", "held", "released", "running", "finished", "denied")


FLEET = re.compile(r"[a-z0-9]{1,24}")


class Wrong(Exception):
    """The settings can't be used; the words say which and why."""


@dataclasses.dataclass(frozen=True)
class Settings:
    """Seconds where a time is meant."""

    listen: str = "/run/fwdesk-console/http.sock"  # HAProxy asks here
    audit: str = "/run/fwdesk-console/audit.sock"  # HAProxy's log target, a datagram a line
    looks: str = "/run/haproxy/fwdesk-looks.sock"  # HAProxy's frontend that lets looks alone by
    table: str = "/run/haproxy/fwdesk-table.sock"  # HAProxy's table of last polls
    records: str = "/var/lib/fwdesk-console/console.db"
    tls: str = "127.0.0.1:8443"  # where HAProxy listens, whose certificate is looked at
    link: str = ""  # where the web UI is; what messages lead to
    webhooks: tuple[str, ...] = ()
    chats: tuple[str, ...] = ()
    mail_to: tuple[str, ...] = ()
    mail_from: str = "fwdesk@localhost"
    smtp: str = "127.0.0.1:25"
    tell: tuple[str, ...] = ("paused", "stands", "desk", "console")
    every: float = 10.0  # between looks at a desk of which nothing is heard
    pause: float = 1.0  # between two looks, however much is heard
    table_every: float = 15.0  # between two tables of one rollout's actions
    stands_after: float = 86400.0  # a rollout that didn't move for so long stands still
    silent_after: float = 86400.0  # a device that didn't poll for so long is silent
    rows: int = 100_000  # of each kind of record
    fleet: str = ""  # of many fleets on one machine: whose console this is


RANGES: dict[str, tuple[float, float]] = {
    "every": (1, 60),
    "pause": (0.05, 10),
    "table_every": (0, 3600),
    "stands_after": (1, 31 * 86400),
    "silent_after": (60, 24 * 86400),
    "rows": (1000, 5_000_000),
}


def check(name: str, value: Any, default: Any) -> Any:
    """The value as the settings have it, or Wrong."""
    if isinstance(default, tuple):
        items = [value] if isinstance(value, str) else value
        if not isinstance(items, list) or not all(isinstance(it, str) for it in items):
            raise Wrong(f"{name} is a text or a list of texts")
        return tuple(items)
    if isinstance(default, str):
        if not isinstance(value, str) or not value.isprintable():
            raise Wrong(f"{name} is a text on one line")
        return value
    if isinstance(value, bool) or not isinstance(value, (int, float)):
        raise Wrong(f"{name} is a number")
    least, most = RANGES[name]
    if not least <= value <= most:
        raise Wrong(f"{name} is a number from {least:g} to {most:g}")
    return int(value) if isinstance(default, int) else float(value)


def check_all(told: dict[str, Any]) -> Settings:
    """The settings of a file that was read, or Wrong."""
    defaults = {it.name: it.default for it in dataclasses.fields(Settings)}
    if unknown := sorted(told.keys() - defaults.keys()):
        raise Wrong(f"unknown: {', '.join(unknown)}")
    made = Settings(**{name: check(name, it, defaults[name]) for name, it in told.items()})
    for url in (*made.webhooks, *made.chats, *([made.link] if made.link else [])):
        if urlsplit(url).scheme not in ("http", "https") or not urlsplit(url).hostname:
            raise Wrong(
                "webhooks, chats and link are addresses that begin with https:// or http://"
            )
    if made.fleet and not FLEET.fullmatch(made.fleet):
        raise Wrong("fleet is the name of a fleet, of 1 to 24 small letters and digits")
    for kind in made.tell:
        if kind not in KINDS:
            raise Wrong(f"tell has some of {', '.join(KINDS)}")
    for address in (*made.mail_to, made.mail_from):
        if not address.isprintable() or address.count("@") != 1 or " " in address:
            raise Wrong("mail_to and mail_from are addresses as ops@example.org")
    for name, value, like in (("smtp", made.smtp, ":25"), ("tls", made.tls, ":8443, or nothing")):
        host, colon, port = value.rpartition(":")
        is_place = host and colon and port.isdigit() and 0 < int(port) < 65536
        if not is_place and (value or name == "smtp"):
            raise Wrong(f"{name} is a host and a port, as 127.0.0.1{like}")
    return made


def of_fleet(told: Settings, fleet: str) -> Settings:
    """The settings that one fleet of many has: its records, and the address of its own web UI."""
    if not FLEET.fullmatch(fleet):
        raise Wrong(f"{fleet!r} is no name of a fleet")
    own: dict[str, str] = {"fleet": fleet}
    if told.records == Settings.records:
        own["records"] = f"/var/lib/fwdesk-consoles/{fleet}/console.db"
    if told.link.endswith("/page/") and "/fleets/" not in told.link:
        own["link"] = f"{told.link.removesuffix('page/')}fleets/{fleet}/page/"
    return dataclasses.replace(told, **own)


def read(path: str | None) -> Settings:
    """Of the file; without one all defaults. A file without a link has that of FWDESK_LINK, which fwdesk-setup sets."""
    if path is None:
        return Settings()
    try:
        told = tomllib.loads(Path(path).read_text(encoding="utf-8"))
        return check_all({"link": os.environ.get("FWDESK_LINK", ""), **told})
    except (OSError, UnicodeDecodeError, tomllib.TOMLDecodeError, Wrong) as error:
        raise Wrong(f"{path}: {error}") from None
