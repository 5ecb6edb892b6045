"""Cases of fwdesk-ctl: orders for later and quiet hours, with stand-ins for systemd and for the brake.
tests/e2e/systemd/timers has systemd itself."""
import datetime
import json
import os
import re
import signal
import time

from harness.fwdesk_ctl import PASSWORD, Proxy, Relay

UTC = datetime.timezone.utc
# it writes down what it is told, and knows which timers were started
SYSTEMCTL = """#!/bin/sh
cd "$FWDESK_UNITS" && echo "$*" >> calls
for name; do :; done
case $1 in
  restart) touch "active-$name" ;;
  disable) rm -f "active-$name" ;;
  is-active) test -e "active-$name" && echo active || echo inactive ;;
esac
"""
# it takes the times that it knows
ANALYZE = """#!/bin/sh
case $3 in *Nowhere*) exit 1 ;; esac
"""
# holds are files; a file `deaf` keeps it from confirming
BRAKE = """#!/bin/sh
cd "$FWDESK_UNITS" || exit 2
verb=$1 kind=brake fleet= reason=
shift
while [ $# -gt 0 ]; do
  case $1 in --kind) kind=$2 ;; --fleet) fleet=$2 ;; --reason) reason=$2 ;; --who) ;; esac
  shift 2
done
case $verb in
  hold) echo "$reason" > "held-$kind-$fleet" ;;
  release) rm -f "held-$kind-$fleet" ;;
esac
echo "$verb $kind $fleet" >> braked
if [ -e deaf ]; then echo "HAProxy doesn't confirm it" >&2; exit 1; fi
"""


def clock(env):
    """A folder for timers, with the stand-ins before all else."""
    units, programs = env.folder / "units", env.folder / "programs"
    for it in (units, programs):
        it.mkdir()
    for name, text in (
        ("systemctl", SYSTEMCTL),
        ("systemd-analyze", ANALYZE),
        ("fwdesk-brake", BRAKE),
    ):
        (programs / name).write_text(text)
        (programs / name).chmod(0o755)
    env.environment |= {"FWDESK_UNITS": str(units), "FWDESK_CLOCK": str(env.folder / "book")}
    env.environment["PATH"] = f"{programs}:{env.environment['PATH']}"
    return units


def later(seconds):
    return (datetime.datetime.now(UTC) + datetime.timedelta(seconds=seconds)).isoformat(
        timespec="seconds"
    )


def ordered(env, *words, **more):
    """An order's number."""
    return int(env.gives("at", *words, **more).split()[0])


def set_back(units, number, seconds):
    """As if the time of an order had come so many seconds ago."""
    file = units / f"fwdesk-at-{number}.timer"
    file.write_text(re.sub(r'"at": "[^"]*"', f'"at": "{later(-seconds)}"', file.read_text()))


def due(env, number, **more):
    """What systemd starts for an order: its status and its lines for the journal."""
    return env.ctl("at", "--do", number, **more)[:2]


def counts(env):
    lines = env.gives("at", "--metrics").splitlines()
    return {
        it.split('"')[1]: int(it.split()[-1])
        for it in lines
        if it.startswith("fwdesk_orders_total{")
    }


def ended(env):
    return json.loads(env.gives("at", "--list", "--json"))["ended"]


def orders_for_later(env):
    """at: a timer with its moment in UTC, without a login; it is listed, canceled,
    and refused where it can't be taken"""
    units = clock(env)
    env.fleet(2)
    rollout = env.rollout(started=False)
    berlin = ("--zone", "Europe/Berlin")
    assert env.gives("at", "2027-01-02", "03:04", "start", rollout, *berlin, "--dry-run").endswith(
        "Sat 2027-01-02 03:04 CET  start 1"
    )
    assert not list(units.iterdir()), "--dry-run leaves nothing"
    assert (
        ordered(
            env, "2027-01-02 03:04", "start", rollout, "--unless-open", "--if-missed", "do", *berlin
        )
        == 1
    )
    text = (units / "fwdesk-at-1.timer").read_text()
    assert (
        "\nOnCalendar=2027-01-02 02:04:00 UTC\n" in text
        and "\nPersistent=true\n" in text
        and "\nUnit=fwdesk-at@1.service\n" in text
    )
    assert "\nDescription=order 1 of fwdesk: start 1 --unless-open\n" in text
    assert ordered(env, "--zone", "UTC", "2027-01-01T00:00:00+02:00", "pause", rollout) == 2
    lines = env.gives("at", "--list").splitlines()
    assert (
        [it.split()[0] for it in lines] == ["2", "1"]
        and "Thu 2026-12-31 22:00 UTC  pause 1" in lines[0]
        and "missed: tell" in lines[0]
    ), lines
    assert "missed: do)" in lines[1], lines
    (units / "active-fwdesk-at-1.timer").unlink()
    assert "its timer is stopped" in env.gives("at", "--list").splitlines()[1]
    env.gives("at", "--cancel", 2)
    env.refuses(1, "no order 2 waits", "at", "--cancel", 2)
    assert [it["order"] for it in json.loads(env.gives("at", "--list", "--json"))["orders"]] == [1]
    for status, why, words in (
        (1, "404 not_found", ("2027-01-01 00:00", "start", 9)),
        (2, "is over", ("2026-01-01 00:00", "start", 1)),
        (2, "can't be ordered for later", ("2027-01-01 00:00", "upload", "x")),
        (2, "invalid int value", ("2027-01-01 00:00", "start", "seven")),
        (2, "is no time,", ("tomorrow", "start", 1)),
        (2, "is no time zone", ("03:00", "start", 1, "--zone", "Europe/Atlantis")),
        (2, "a time and what is to be done", ("03:00",)),
    ):
        env.refuses(status, why, "at", *words)
    env.refuses(
        6, "cannot reach 127.0.0.1:1 (", "at", "03:00", "start", 1, FWDESK_URL="http://127.0.0.1:1"
    )
    assert ordered(env, "2027-01-03 00:00", "resume", rollout) == 3, "a number comes once"


def carries_out(env):
    """at its time an order is done, once; before it, and when it is canceled, nothing is;
    a refused one has the desk's words"""
    units = clock(env)
    env.fleet(4)
    rollout = env.rollout(started=False, groups=2)
    number = ordered(env, later(300), "start", rollout)
    assert due(env, number) == (0, "") and env.get("rollouts/1")["status"] == "ready"
    set_back(units, number, -5)
    began = time.time()
    status, told = due(env, number)
    assert time.time() >= began + 4, "it isn't waited for"
    assert (
        status == 0
        and told.startswith(f"<5>order {number}, start 1 (of ")
        and told.endswith(": done\n")
    ), told
    assert env.get("rollouts/1")["status"] == "running" and not list(
        units.glob("fwdesk-at-*")
    ), list(units.iterdir())
    assert due(env, number) == (0, ""), "there is no such order any more"
    number = ordered(env, later(60), "start", rollout)
    set_back(units, number, 1)
    status, told = due(env, number)
    assert (
        status == 1
        and told.startswith("<3>order 2, ")
        and ": refused: 409 wrong_state: the state doesn't allow it (any more)" in told
    ), told
    assert counts(env) == {"done": 1, "refused": 1, "missed": 0, "unreached": 0, "unsure": 0}
    assert "409 wrong_state" in env.gives("at", "--list", "--ended").splitlines()[1]
    number = ordered(env, later(60), "pause", rollout)
    env.gives("at", "--cancel", number)
    assert due(env, number) == (0, "") and env.get("rollouts/1")["status"] == "running"
    assert {"disable --quiet --now fwdesk-at-3.timer", "restart fwdesk-at-3.timer"} <= set(
        (units / "calls").read_text().splitlines()
    )


def misses(env):
    """what was missed is done at the next start or told alone, as it was ordered;
    who comes a few seconds late hasn't missed it"""
    units = clock(env)
    env.fleet(2)
    one, other = env.rollout("one", started=False), env.rollout("other", started=False)
    for verb, rollout, how, seconds, status, outcome in (
        ("start", one, ("--if-missed", "do"), 9000, 0, "done"),
        ("start", other, ("--if-missed", "tell"), 9000, 1, "missed"),
        ("start", other, (), 90, 1, "missed"),
        ("start", other, (), 30, 0, "done"),
    ):
        number = ordered(env, later(60), verb, rollout, *how)
        set_back(units, number, seconds)
        got, told = due(env, number)
        assert (
            got == status
            and f": {outcome}" in told
            and told.startswith("<5>" if outcome == "done" else "<3>")
        ), told
        assert ended(env)[-1]["outcome"] == outcome
        state = "ready" if outcome == "missed" else "running"
        assert env.get(f"rollouts/{rollout}")["status"] == state
    assert counts(env)["missed"] == 2


def tries_again(env):
    """a desk that isn't reached is tried again, and then told; one that comes back is asked;
    a login of the environment isn't taken"""
    units = clock(env)
    env.fleet(2)
    rollout = env.rollout(started=False)
    numbers = [
        ordered(env, later(60), "start", rollout, "--if-missed", it) for it in ("tell", "do")
    ]
    for it in numbers:
        set_back(units, it, 10)
    env.server.kill()
    env.server.wait()
    for it in numbers:
        status, told = due(env, it)
        assert (
            status == 6
            and told.startswith("<4>")
            and "cannot reach" in told
            and "tried again" in told
        ), told
    book = env.folder / "book/orders.json"
    known = json.loads(book.read_text())
    known["begun"]["1"]["at"], known["begun"]["2"]["at"] = later(-295), later(-901)
    book.write_text(json.dumps(known))
    status, told = due(env, 2)
    assert status == 1 and ": unreached: " in told and counts(env)["unreached"] == 1, told
    env.serve()
    set_back(units, 1, 300)
    assert (
        due(env, 1)[0] == 0 and env.get("rollouts/1")["status"] == "running"
    ), "it was begun in time, so it isn't missed"
    proxy = Proxy(env)
    anna = {
        "FWDESK_URL": proxy.url,
        "FWDESK_CA": str(env.folder / "server.crt"),
        "FWDESK_USER": "anna",
        "FWDESK_PASSWORD": PASSWORD,
    }
    env.refuses(
        2, "a login of the environment is gone by then", "at", later(60), "pause", rollout, **anna
    )
    file = env.folder / ".netrc"
    file.write_text(f'machine localhost login anna password "{PASSWORD}"\n')
    file.chmod(0o600)
    number = ordered(env, later(60), "pause", rollout, **anna)
    kept = "".join(
        it.read_text() for folder in (units, env.folder / "book") for it in folder.iterdir()
    )
    assert PASSWORD not in kept and "anna" not in re.sub(r'"who": "[^"]*"', "", kept), kept
    set_back(units, number, 10)
    assert due(env, number, HOME="/nowhere")[0] == 0 and env.get("rollouts/1")["status"] == "paused"


def is_sent_once(env):
    """trigger, killed before each of its requests and started again: no group is started twice,
    and what isn't known is told"""
    units = clock(env)
    env.fleet(60)
    rollout = env.rollout(groups=30)
    child, outcomes = None, []

    def begun():
        return sum(
            it["status"] in ("running", "finished")
            for it in env.get(f"rollouts/{rollout}/deploygroups?limit=50")["content"]
        )

    def kill(_):
        child.kill()
        child.wait()
        return b""

    for at in range(1, 10):
        relay = Relay(env.port)
        number = ordered(env, later(60), "trigger", rollout, FWDESK_URL=relay.url)
        relay.at, relay.then, relay.requests = at, kill, 0
        set_back(units, number, 1)
        before = begun()
        child = env.started("at", "--do", number)
        child.communicate(timeout=120)
        due(env, number)
        relay.end()
        outcomes.append(ended(env)[-1]["outcome"])
        assert begun() - before == (1 if outcomes[-1] == "done" else 0), (at, outcomes)
        if child.returncode != -signal.SIGKILL:
            assert outcomes == ["done", "done", "unsure", "done"], outcomes
            return
    raise AssertionError("it asks without end")


def answer_is_lost(env):
    """an order whose answer is lost was done, and is told as unsure, never as done or refused"""
    units = clock(env)
    env.fleet(2)
    rollout = env.rollout(started=False)
    relay = Relay(env.port)
    number = ordered(env, later(60), "start", rollout, FWDESK_URL=relay.url)

    def sent_and_lost(piece):
        env.ask("POST", f"/rest/v1/rollouts/{rollout}/start")
        raise OSError("the line breaks")

    relay.at, relay.then, relay.requests = 3, sent_and_lost, 0
    set_back(units, number, 1)
    status, told = due(env, number)
    assert status == 1 and ": unsure: " in told and told.startswith("<3>"), told
    assert env.get("rollouts/1")["status"] == "running" and due(env, number) == (0, "")


def clocks_change(env):
    """the two nights at which clocks change in Berlin: what doesn't come or comes twice is refused;
    quiet hours keep to their clock"""
    clock(env)
    berlin = ("--zone", "Europe/Berlin", "--dry-run")
    dry = lambda text: env.gives("at", text, "start", 1, *berlin)[3:]
    for text, what in (
        ("2027-03-28 01:59", "Sun 2027-03-28 01:59 CET"),
        ("2027-03-28 03:00", "Sun 2027-03-28 03:00 CEST"),
        ("2027-10-31 01:59", "Sun 2027-10-31 01:59 CEST"),
        ("2027-10-31 03:00", "Sun 2027-10-31 03:00 CET"),
        ("2027-10-31T02:30+02:00", "Sun 2027-10-31 02:30 CEST"),
        ("2027-10-31T02:30+01:00", "Sun 2027-10-31 02:30 CET"),
    ):
        assert dry(text) == f"{what}  start 1", dry(text)
    env.refuses(
        2,
        "no clock shows 02:30 on 2027-03-28, since they jump to Sun 2027-03-28 03:00 CEST",
        "at",
        "2027-03-28 02:30",
        "start",
        1,
        *berlin,
    )
    env.refuses(
        2,
        "say 2027-10-31T02:30+02:00 or 2027-10-31T02:30+01:00",
        "at",
        "2027-10-31 02:30",
        "start",
        1,
        *berlin,
    )

    def first(hours, since):
        told = env.gives("quiet", *hours.split(), *berlin, "--from", since).splitlines()[0]
        return re.fullmatch(r"quiet from (.*) until (.*)", told).groups()

    assert first("22:00-06:00", "2027-03-27T12:00") == (
        "Sat 2027-03-27 22:00 CET",
        "Sun 2027-03-28 06:00 CEST",
    )
    assert first("22:00-02:30", "2027-03-27T12:00") == (
        "Sat 2027-03-27 22:00 CET",
        "Sun 2027-03-28 03:00 CEST",
    )
    assert first("02:30-06:00", "2027-03-27T12:00") == (
        "Sun 2027-03-28 03:00 CEST",
        "Sun 2027-03-28 06:00 CEST",
    )
    assert first("22:00-02:30", "2027-10-30T12:00") == (
        "Sat 2027-10-30 22:00 CEST",
        "Sun 2027-10-31 02:30 CET",
    )
    assert first("02:30-06:00", "2027-10-30T12:00") == (
        "Sun 2027-10-31 02:30 CEST",
        "Sun 2027-10-31 06:00 CET",
    )
    assert first("22:00-06:00 Fri", "2027-03-24T12:00") == (
        "Fri 2027-03-26 22:00 CET",
        "Sat 2027-03-27 06:00 CET",
    )
    assert first("22:00-06:00 Fri 00:00-24:00 Sat,Sun", "2027-03-24T12:00") == (
        "Fri 2027-03-26 22:00 CET",
        "Mon 2027-03-29 00:00 CEST",
    )
    assert first("06:00-22:00 Mon-Fri", "2027-03-27T12:00") == (
        "Mon 2027-03-29 06:00 CEST",
        "Mon 2027-03-29 22:00 CEST",
    )
    for words, why in (
        ("06:00", "is no hours"),
        ("06:00-06:00", "hours are as"),
        ("06:00-25:00", "is no hours"),
        ("06:00-24:30", "hours are as"),
        ("06:00-22:00 Mo", "is no list of days"),
        ("00:00-24:00", "this would never allow updates"),
        ("Mon 06:00-22:00", "is no hours"),
    ):
        env.refuses(2, why, "quiet", *words.split())


def is_quiet(env):
    """quiet: holds of the second kind that follow the clock; a brake stays; what isn't confirmed is tried again;
    off ends them"""
    units = clock(env)
    there = lambda: sorted(it.name for it in units.glob("held-*"))
    at = lambda hours: (datetime.datetime.now(UTC) + datetime.timedelta(hours=hours)).strftime(
        "%H:%M"
    )
    utc = ("--zone", "UTC")
    (units / "held-brake-").touch()
    told = env.gives("quiet", f"{at(-1)}-{at(2)}", *utc)
    assert (
        told.startswith("quiet, so that no firmware is handed out: ")
        and ". Now it is quiet, until " in told
    ), told
    assert (
        there() == ["held-brake-", "held-quiet-"]
        and (units / "held-quiet-").read_text() == f"{at(-1)}-{at(2)} (UTC)\n"
    )
    text = (units / "fwdesk-quiet.timer").read_text()
    assert (
        f"OnCalendar=Mon,Tue,Wed,Thu,Fri,Sat,Sun *-*-* {at(-1)}:00 UTC\n" in text
        and "Unit=fwdesk-quiet.service\n" in text
    ), text
    for _ in "once more", "and again":
        env.gives("quiet", "--settle")
    assert (units / "braked").read_text() == "hold quiet \n", "it is told once"
    told = env.gives("quiet", f"{at(1)}-{at(3)}", *utc)
    assert ". Now firmware is handed out, until " in told and there() == ["held-brake-"], told
    env.gives("quiet", f"{at(-1)}-{at(3)}", *utc, "--fleet", "acme")
    assert (
        there() == ["held-brake-", "held-quiet-acme"]
        and json.loads(env.gives("quiet", "--json"))["isQuiet"] is False
    )
    assert json.loads(env.gives("quiet", "--json", "--fleet", "acme"))["isQuiet"] is True
    (units / "held-quiet-acme").unlink()
    env.gives("quiet", "--settle")
    assert there() == ["held-brake-"], "who releases it for this time is overruled"
    env.gives("quiet", f"{at(-1)}-{at(3)}", *utc, "--fleet", "acme")
    assert there() == ["held-brake-", "held-quiet-acme"]
    (units / "deaf").touch()
    env.refuses(1, "doesn't confirm it", "quiet", "off", "--fleet", "acme")
    (units / "deaf").unlink()
    env.gives("quiet", "off", "--fleet", "acme")
    assert there() == ["held-brake-"]
    env.gives("quiet", "off")
    assert there() == ["held-brake-"] and not (units / "fwdesk-quiet.timer").exists()
    assert env.gives("quiet") == "no quiet hours: firmware is handed out at any time"
    (units / "deaf").touch()
    env.refuses(1, "doesn't confirm it", "quiet", f"{at(-1)}-{at(2)}", *utc)
    (units / "deaf").unlink()
    before = (units / "braked").read_text()
    env.gives("quiet", "--settle")
    assert (
        units / "braked"
    ).read_text() == before + "hold quiet \n", "what wasn't confirmed is told again"
    os.remove(units.parent / "programs/fwdesk-brake")
    env.refuses(1, "it is of HAProxy's machine", "quiet", "off")


CASES = (
    orders_for_later,
    carries_out,
    misses,
    tries_again,
    is_sent_once,
    answer_is_lost,
    clocks_change,
    is_quiet,
)
