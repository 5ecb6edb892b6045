"""Soft and download-only: how a rollout says so in a way that the desk keeps.

The gateway notes at each device whose attributes pass through it that it comes this way, by an attribute of its own.
A rollout is soft, or of the download alone, if its filter asks for that: as its only part, or as one that has to hold
beside all others. So nobody is a member of it who never came this way, and would be told of it as forced."""

from typing import Any

from fwdesk_hawkbit import rsql
from fwdesk_hawkbit.faults import Fault

KEY = "hawkbit.kinds"
KINDS = ("soft", "downloadonly")
# what the gateway writes at a device
VALUE = " ".join(KINDS)
# what begins as this is the gateway's own, and is shown to no client
OWN = "hawkbit."
FORCED = "forced"
# how a device is told: what to do of the download, and of the installation
HANDLING = {
    FORCED: ("forced", "forced"),
    "soft": ("attempt", "attempt"),
    "downloadonly": ("forced", "skip"),
}


def mark(kind: str) -> str:
    """The part of a filter that says it."""
    return f"attribute.{KEY}==*{kind}*"


def with_kind(text: str, kind: str) -> str:
    """A filter that says it too."""
    return text if kind == FORCED else f"({text});{mark(kind)}"


def asked_kind(it: dict[str, Any]) -> str:
    """The kind that a body asks for, or a Fault."""
    kind = it.get("type") or FORCED
    if not isinstance(kind, str) or kind not in HANDLING:
        raise Fault("unsupported", f"type {kind}: fwdesk has no clock")
    return kind


def kind_of(text: str) -> str:
    """What a rollout's filter says of its kind. What is no filter says nothing."""
    try:
        found = rsql.read(text)
    except rsql.Wrong:
        return FORCED
    parts = list(found.parts) if isinstance(found, rsql.Joined) and found.joint == ";" else [found]
    said = [it for it in KINDS for one in parts if one == rsql.read(mark(it))]
    return said[-1] if said else FORCED
