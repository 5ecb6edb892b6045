"""What the console says of events, each sentence once: in English here, and by the web UI in its languages (`event.KEY`).

An event is said by some of these in a row, each with its values. `{name}`, `{who}`, `{words}`, `{reason}` and `{path}` are
strangers' words, `{from}` and `{to}` moments in seconds; all others are our own."""
import time
from collections.abc import Mapping, Sequence
from typing import Any

from .texts import Part, clean

SENTENCES = {
    "made": "rollout {name} was planned by {who}",
    "madeUnseen": "rollout {name} was planned (who did isn't known)",
    "start": "rollout {name} was started by {who}",
    "resume": "rollout {name} was resumed by {who}",
    "pause": "rollout {name} was paused by {who}",
    "approve": "rollout {name} was approved by {who}",
    "deny": "rollout {name} was denied by {who}",
    "finished": "rollout {name} is finished",
    "running": "rollout {name} is running (who did it isn't known)",
    "ready": "rollout {name} is approved (who did it isn't known)",
    "denied": "rollout {name} is denied (who did it isn't known)",
    "paused": "rollout {name} paused",
    "between": " between {from} and {to}",
    "unseen": ", cause not seen: no group is at its error threshold",
    "guess": ", cause not seen; perhaps by itself",
    "itself": ", by itself",
    "failed": ": group {group}: {failed} of {size} failed, {limit} are too many",
    "last": ". Last words:",
    "lastOf": ". Last words of {read} of them:",
    "times": " {count} × {words}",
    "next": ", {count} × {words}",
    "began": "rollout {name}: group {group} began",
    "ended": "rollout {name}: group {group} is finished",
    "order": " by the order of {who}",
    "counts": ": {ok} of {size} succeeded, {failed} failed",
    "stands": "rollout {name} stands still: no outcome for {hours} h",
    "silent": ": group {group}: {silent} of {size} have reported no outcome; {ok} succeeded, {needed} are needed",
    "held": "everything is held by {who}",
    "released": "everything is released by {who}",
    "quietHeld": "quiet hours are begun by {who}",
    "quietReleased": "quiet hours are ended by {who}",
    "why": ": {reason}",
    "clock": "the clock of this machine was set by {seconds} s",
    "desk": "the desk doesn't answer: {words}",
    "otherDesk": "the desk has fewer rollouts than before: it was restored, or is another one. What was known of them is forgotten",
    "deskAgain": "the desk answers again, after {seconds} s",
    "putAside": "the records of before can't be used; they are kept as {path}",
    "notKept": "what is seen isn't kept: {words}",
    "keptAgain": "what is seen is kept again",
    "disk": "the disk of {path} has {left} MB left",
}
STRANGERS = ("name", "who", "words", "reason", "path")
MOMENTS = ("from", "to")
MACHINE = "somebody on the machine"  # what HAProxy's line has no name for

Saying = tuple[str, Mapping[str, Any]]


def say(key: str, **values: Any) -> Saying:
    """One sentence with its values; `from` is written as `from_`."""
    return key, {it.rstrip("_"): value for it, value in values.items()}


def cleaned(said: Sequence[Saying]) -> list[list[Any]]:
    """As it is kept and handed on: strangers' words as one line of text."""

    def value(name: str, it: Any) -> Any:
        return clean(str(it)) if name in STRANGERS else it

    return [[key, {name: value(name, it) for name, it in values.items()}] for key, values in said]


def time_of(at: float) -> str:
    return time.strftime("%Y-%m-%d %H:%M:%S UTC", time.gmtime(at))


def part_of(name: str, value: Any) -> Part:
    if name in MOMENTS:
        return time_of(value)
    if name == "who" and value == "-":
        return MACHINE
    return [str(value)] if name in STRANGERS else str(value)


def as_parts(said: Sequence[Saying]) -> list[Part]:
    """The sentences in English."""
    parts: list[Part] = []
    for key, values in said:
        for n, piece in enumerate(SENTENCES[key].replace("}", "{").split("{")):
            if n % 2:
                parts.append(part_of(piece, values[piece]))
            elif piece:
                parts.append(piece)
    return parts
