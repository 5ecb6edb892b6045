"""What is held: lines of a file that HAProxy starts with, and of the map that its processes have of it."""
import contextlib
import datetime
import json
import os
import re
import time
from pathlib import Path
from urllib.parse import quote, unquote

from fwdesk_ctl.atomic import alone, open_lock, placed
from fwdesk_ctl.haproxy import tell
from fwdesk_ctl.errors import NotDone, Wrong

KINDS = ("brake", "quiet")
FILE = Path(os.environ.get("FWDESK_BRAKE_FILE") or "/var/lib/fwdesk-brake/held.map")
# of the HAProxy before the server or the servers; a single HAProxy has the map itself
OF_FLEETS = ("/run/haproxy-desks/master.sock", "/run/haproxy-desks/admin.sock")
ALONE = (*OF_FLEETS, "/run/haproxy-master.sock", "/run/haproxy/admin.sock")
LONGEST = 200  # characters of a reason or a name
WAITS = 3  # seconds for another hold or release, which takes a part of a second
KEY = re.compile(f"([a-z0-9]{{1,24}}/)?({'|'.join(KINDS)})")
MEMBERS = {"who", "since", "reason"}


def check_words(words: str) -> str:
    """Words that may be a reason or a name."""
    if len(words) > LONGEST or not words.isprintable():
        raise Wrong(f"a reason or a name has at most {LONGEST} characters, and is one line")
    return words


def key_of(kind: str, fleet: str | None) -> str:
    """The key of a hold: of many fleets each has its name before it."""
    if kind not in KINDS:
        raise Wrong(f"invalid kind of hold {kind!r}: expected {' or '.join(KINDS)}")
    key = f"{fleet}/{kind}" if fleet else kind
    if not KEY.fullmatch(key):
        raise Wrong(f"invalid name of a fleet {fleet!r}: expected 1 to 24 small letters and digits")
    return key


def encode(who: str, since: str, reason: str) -> str:
    """A hold as one word, which HAProxy's lines and orders take."""
    told = {"who": who, "since": since, "reason": reason}
    return quote(json.dumps(told, separators=(",", ":")), safe='{":,}')


def value_of(who: str, reason: str) -> str:
    """The hold that somebody orders now."""
    return encode(check_words(who), format_time(time.time()), check_words(reason))


def format_time(seconds: float) -> str:
    return time.strftime("%Y-%m-%dT%H:%M:%SZ", time.gmtime(seconds))


def decode(value: str) -> dict[str, str]:
    """Who holds, since when and why; ValueError where it isn't the word of a hold."""
    told = json.loads(unquote(value, errors="strict"))
    is_whole = isinstance(told, dict) and set(told) == MEMBERS
    if not is_whole or not all(isinstance(it, str) and it.isprintable() for it in told.values()):
        raise ValueError("no hold")
    datetime.datetime.strptime(told["since"], "%Y-%m-%dT%H:%M:%SZ")
    return told


def read_lines() -> dict[str, str]:
    """The holds of the file, each with its key. A line that a hand broke holds too, and so it is read as a hold whose
    reason says that; what has no key of a hold is nothing. Without the file nothing is held."""
    try:
        text, written = FILE.read_text("utf-8", errors="replace"), FILE.stat().st_mtime
    except FileNotFoundError:
        FILE.parent.stat()
        return {}
    lines = {}
    for line in text.splitlines():
        key, _, value = line.strip().partition(" ")
        if KEY.fullmatch(key):
            lines[key] = mend(value.strip(), written)
    return lines


def mend(value: str, written: float) -> str:
    """The word of a hold as it is, or of one in its place."""
    try:
        decode(value)
    except (ValueError, UnicodeError):
        return encode("-", format_time(written), f"{FILE} has a broken line")
    return value


def state(fleet: str | None = None) -> dict[str, dict[str, str] | None]:
    """Each kind with who holds it, since when and why, or None."""
    there = read_lines()
    found = {kind: there.get(key_of(kind, fleet)) for kind in KINDS}
    return {kind: decode(value) if value else None for kind, value in found.items()}


def lock_holds(value: str | None) -> contextlib.AbstractContextManager[None]:
    """Nobody else holds or releases meanwhile. A hold goes on without that where the disk has no room for a lock."""
    try:
        os.close(open_lock(FILE.parent))
    except OSError:
        if value and FILE.parent.is_dir():
            return contextlib.nullcontext()
        raise
    return alone(FILE.parent, WAITS)


def change(kind: str, fleet: str | None, value: str | None) -> None:
    """Holds, or releases where there is no value; returns once the file and each process have it. Who held first stays.
    A hold that can't be written is told to the processes all the same, and NotDone says until when it holds.
    NotDone too, within 10 seconds, where the processes don't confirm it."""
    key = key_of(kind, fleet)
    sockets = os.environ.get("FWDESK_BRAKE_SOCKETS", "").split() or (OF_FLEETS if fleet else ALONE)
    with lock_holds(value):
        lines = read_lines()
        if value:
            lines.setdefault(key, value)
        else:
            lines.pop(key, None)
        text = "".join(f"{key} {value}\n" for key, value in lines.items()).encode()
        try:
            placed(FILE, [text])
        except NotDone as error:
            if value:
                tell(sockets, FILE, lines)
                raise NotDone(f"{error}; it holds until HAProxy is restarted or reloaded") from None
            raise
        tell(sockets, FILE, lines)
