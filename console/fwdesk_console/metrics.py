"""What Prometheus is told, out of memory: no desk is asked for it. The names are those of the rules in alerts.yml."""
from datetime import datetime
from collections.abc import Iterable, Mapping
from typing import TYPE_CHECKING

from .desk import Json
from .rollouts import GOING, UNBEGUN, needed_of, silent_of
from .stock import LIMITS
from .texts import clean

if TYPE_CHECKING:
    from .answers import Console

Line = tuple[Mapping[str, object], float | int]


def label(value: object) -> str:
    """As a label's value: a stranger's name ends neither the quotes nor the line."""
    return clean(str(value)).replace("\\", "\\\\").replace('"', '\\"')


def metric(name: str, words: str, lines: Iterable[Line], kind: str = "gauge") -> list[str]:
    def line(labels: Mapping[str, object], value: float | int) -> str:
        inner = ",".join(f'{key}="{label(it)}"' for key, it in labels.items())
        return f"{name}{{{inner}}} {value}" if inner else f"{name} {value}"

    return [f"# HELP {name} {words}", f"# TYPE {name} {kind}", *(line(*it) for it in lines)]


def begun_of(held: object) -> int | None:
    """When a hold began, in seconds; None where that can't be read."""
    try:
        told = held["since"] if isinstance(held, dict) else ""
        return round(datetime.fromisoformat(told).timestamp())
    except (KeyError, TypeError, ValueError):
        return None


def has_begun(group: Json) -> bool:
    return group["status"] not in UNBEGUN


def text(console: "Console", orders: tuple[int, dict[str, int]] | None = None) -> str:
    watch, rollouts, fleet = console.watch, console.rollouts.known, console.fleet
    going = {n: it for n, it in rollouts.items() if it.status in GOING}
    age = watch.age()
    lines = [
        *metric(
            "fwdesk_up",
            "Whether the desk answered at the last look.",
            [({}, int(not watch.away and age is not None))],
        ),
        *metric(
            "fwdesk_looked_seconds",
            "When the desk was looked at last.",
            [({}, round(watch.looked, 1))] if watch.looked else [],
        ),
        *metric(
            "fwdesk_targets",
            "Devices that the desk knows.",
            [({}, fleet.total)] if fleet.listing else [],
        ),
        *metric(
            "fwdesk_targets_by_state",
            "Devices by their state.",
            [({"state": it}, n) for it, n in fleet.states.items()],
        ),
        *metric(
            "fwdesk_rollout",
            "Rollouts by their state.",
            [
                ({"rollout": n, "name": it.about["name"], "status": it.status}, 1)
                for n, it in rollouts.items()
            ],
        ),
        *metric(
            "fwdesk_rollout_changed_seconds",
            "When a rollout's counts changed last.",
            [({"rollout": n}, round(console.rollouts.changed_at(it))) for n, it in going.items()],
        ),
        *metric(
            "fwdesk_rollout_stands",
            "Whether a rollout that runs stands still.",
            [({"rollout": n}, int(it.still)) for n, it in going.items()],
        ),
        *metric(
            "fwdesk_group_targets",
            "Members of a group by outcome, of rollouts that run or are paused.",
            [
                ({"rollout": n, "group": key, "outcome": it}, group[it])
                for n, known in going.items()
                for key, group in known.groups.items()
                for it in ("size", "ok", "bad", "gone")
            ]
            + [
                ({"rollout": n, "group": key, "outcome": "open"}, silent_of(group))
                for n, known in going.items()
                for key, group in known.groups.items()
                if has_begun(group)
            ],
        ),
        *metric(
            "fwdesk_group_needed",
            "Members of a group that have to succeed until the next one starts.",
            [
                ({"rollout": n, "group": key}, needed_of(group))
                for n, known in going.items()
                for key, group in known.groups.items()
                if has_begun(group)
            ],
        ),
        *metric(
            "fwdesk_silent_targets",
            "Devices that haven't polled for so many hours.",
            [({"hours": f"{fleet.silent_after / 3600:g}"}, fleet.silent + (fleet.never or 0))]
            if fleet.silent is not None
            else [],
        ),
        *metric(
            "fwdesk_version_targets",
            "Devices by the set that they finished last.",
            [
                (
                    {
                        "set": it["set"]["id"],
                        "name": it["set"]["name"],
                        "version": it["set"]["version"],
                    },
                    it["devices"],
                )
                for it in console.versions.counts()
            ],
        ),
    ]
    if used := console.stock.used():
        lines += metric(
            "fwdesk_used",
            "How much counts towards each limit of the desk.",
            [({"of": it}, n) for it, n in used.items()],
        )
        lines += metric(
            "fwdesk_limit", "The limits of the desk.", [({"of": it}, n) for it, n in LIMITS.items()]
        )
    if watch.held is not None:
        lines += metric(
            "fwdesk_held",
            "Whether no device is told of a deployment.",
            [({"kind": it}, int(bool(told))) for it, told in watch.held.items()],
        )
        lines += metric(
            "fwdesk_held_since",
            "When a hold began.",
            [({"kind": it}, begun) for it, told in watch.held.items() if (begun := begun_of(told))],
        )
    if orders is not None:
        waiting, ended = orders
        words = "Scheduled commands that wait for their time."
        lines += metric("fwdesk_orders_waiting", words, [({}, waiting)])
        words = "Scheduled commands that ended, by what became of them."
        counts = [({"outcome": it}, n) for it, n in ended.items()]
        lines += metric("fwdesk_orders_total", words, counts, "counter")
    if (ends := console.machine.certificate_ends) is not None:
        words = "When the certificate of the proxy ends."
        lines += metric(
            "fwdesk_certificate_ends", words, [({"at": console.machine.tls}, round(ends))]
        )
    lines += metric(
        "fwdesk_console_kept",
        "Whether what is seen is kept.",
        [({}, int(not console.store.problem))],
    )
    lines += metric(
        "fwdesk_console_asked_total", "Requests to the desk.", [({}, console.desk.asked)], "counter"
    )
    lines += metric(
        "fwdesk_console_heard_total",
        "Lines of HAProxy.",
        [({"kind": it}, n) for it, n in console.ear.counts.items()],
        "counter",
    )
    lines += metric(
        "fwdesk_console_messages_waiting", "Messages that wait.", [({}, console.teller.waiting())]
    )
    lines += metric(
        "fwdesk_console_messages_total",
        "Messages that were taken.",
        [({}, console.teller.told)],
        "counter",
    )
    return "\n".join(lines) + "\n"
