"""The rollouts part of `run`: fleets of devices, what each program takes for a request of them,
and the bounds that hold.

A fleet's file is made once, by the C program. Each program then opens a copy of it, is asked some things that aren't
timed, and then one request after the other, each once the reply to the one before is there; so no figure has the
opening of the file in it. All programs stand open at the same time and take turns every ten requests, so that a busy
machine slows each alike; they and the script run on one processor, but for the streams, so that no figure has the
waking of another one in it.
"""
import os
import shutil
import socket
import sqlite3
import statistics
import subprocess
import sys
import tempfile
import time
from dataclasses import dataclass
from pathlib import Path

import desk

sys.path.append(str(Path(__file__).resolve().parent.parent / "tests"))
from harness.processes import HOST, free_port

DONE = desk.reply("200 OK", "{}")
WARM = 200  # polls before the clock runs
POLLS = 1000
NOTES = 100
FINALS = 200
STREAM = 20_000
PAGE = 50
BLOCK = 10  # requests after which the next program is asked
ALL = sorted(os.sched_getaffinity(0))  # processors


# ---- requests and replies


def device(number):
    """The path of a device."""
    return f"/DEFAULT/controller/v1/{desk.target(number)[0]}"


def polling(number):
    """The request by which a device asks what it is offered."""
    return f"GET {device(number)} HTTP/1.1\r\nAuthorization: TargetToken {desk.target(number)[2]}\r\n\r\n".encode()


def polled(number, action):
    """The reply to it: the action, or nothing where there is none."""
    base = (
        f'"deploymentBase":{{"href":"{device(number)}/deploymentBase/{action}"}}' if action else ""
    )
    return desk.reply(
        "200 OK", f'{{"_links":{{{base}}},"config":{{"polling":{{"sleep":"00:05:00"}}}}}}'
    )


def reporting(number, action, execution, finished, given=None):
    """The request by which a device reports of an action, with a number where one is given."""
    numbered = f'"number":{given},' if given else ""
    body = (
        f'{{{numbered}"status":{{"execution":"{execution}","result":{{"finished":"{finished}"}},'
        '"details":["at work"]}}'
    )
    head = (
        f"POST {device(number)}/deploymentBase/{action}/feedback HTTP/1.1\r\n"
        f"Authorization: TargetToken {desk.target(number)[2]}"
    )
    return f"{head}\r\nContent-Length: {len(body)}\r\n\r\n{body}".encode()


def noting(number, action, given=None):
    """A report that ends nothing."""
    return reporting(number, action, "proceeding", "none", given)


def ending(number, action, given=None):
    """A report that an action succeeded."""
    return reporting(number, action, "closed", "success", given)


def conditions(success, error):
    """The members of a rollout or a group that say its thresholds."""
    said = (
        f'"{name}Condition":{{"condition":"THRESHOLD","expression":"{percent}"}}'
        for name, percent in (("success", success), ("error", error))
    )
    return ",".join(said)


@dataclass(frozen=True)
class Plan:
    """A rollout of all targets, or of those that a filter matches, in so many groups of one size or in groups of
    these percentages, each of which has thresholds of its own."""

    number: int
    groups: int
    success: int = 100
    percentages: tuple = ()
    filter: str = "name==*"

    def grouping(self):
        """The member of the body that says the groups."""
        if not self.percentages:
            return f'"amountGroups":{self.groups}'
        defined = (
            f'{{"targetPercentage":{percent},{conditions(50 + k, 100 - k)}}}'
            for k, percent in enumerate(self.percentages)
        )
        return f'"groups":[{",".join(defined)}]'

    def creating(self):
        """The request that creates it."""
        body = (
            f'{{"name":"r{self.number}","distributionSetId":1,"targetFilterQuery":"{self.filter}",'
            f"{self.grouping()},{conditions(self.success, 100)}}}"
        )
        return (
            f"POST /rest/v1/rollouts HTTP/1.1\r\nContent-Length: {len(body)}\r\n\r\n{body}".encode()
        )

    def created(self, targets):
        """The reply to it."""
        return desk.reply(
            "201 Created",
            f'{{"distributionSetId":1,"id":{self.number},"name":"r{self.number}","status":"ready",'
            f'"targetFilterQuery":"name==*","totalGroups":{self.groups},"totalTargets":{targets}}}',
        )

    def starting(self):
        """The request that starts it."""
        return f"POST /rest/v1/rollouts/{self.number}/start HTTP/1.1\r\n\r\n".encode()


def asking_members(rollout, group, offset):
    """The request for a page of the targets of a group."""
    return (
        f"GET /rest/v1/rollouts/{rollout}/deploygroups/{group}/targets?offset={offset}&limit={PAGE} "
        "HTTP/1.1\r\n\r\n".encode()
    )


def shown_members(first, total, word):
    """The reply to it, where the page's first target is this one and each has the word."""
    return desk.page_of(range(first, first + min(PAGE, total)), total, word)


def shown_groups(targets, groups):
    """The page of the groups of one size of the first rollout, of which the first one is started."""
    size = targets // groups
    content = [
        f'{{"bad":0,"error":100,"gone":0,"id":{group},"ok":0,"size":{size},'
        f'"status":"{"scheduled" if group > 1 else "running"}","success":100}}'
        for group in range(1, groups + 1)
    ]
    return desk.reply(
        "200 OK", f'{{"content":[{",".join(content)}],"size":{groups},"total":{groups}}}'
    )


def reported(targets):
    """The report of the first rollout, of two groups, whose first one is started."""
    half = targets // 2

    def line(size, word):
        return f"{size:6}{0:6}{0:6}{0:6}{size:6} {word}\n"

    text = "rollout 1 r1\nstate running\ngroup  size    ok   bad  gone  open state\n"
    text += f"{1:5}{line(half, 'running')}{2:5}{line(targets - half, 'scheduled')}total{line(targets, 'running')}"
    return desk.reply("200 OK", text, "text/plain; charset=utf-8")


def listed(targets):
    """The table of its actions."""
    lines = ["action,controllerid,group,state"]
    for number in range(1, targets + 1):
        state = "1,running" if number <= targets // 2 else "2,scheduled"
        lines.append(f"{number},{desk.target(number)[0]},{state}")
    return desk.reply("200 OK", "".join(line + "\n" for line in lines), "text/csv; charset=utf-8")


# ---- scenarios


class Scenario:
    """A program that is asked one request at a time over its standard input, or over a connection."""

    def __init__(self, program, path, port=None):
        self.program = program
        self.socket = None
        words = desk.port_words(program, path, port) if port else desk.words(program, path, "both")
        self.child = subprocess.Popen(
            words, stdin=subprocess.PIPE, stdout=subprocess.PIPE, bufsize=0
        )
        self.write, self.read = self.child.stdin.fileno(), self.child.stdout.fileno()
        if port:
            self.socket = connected(port)
            self.write = self.read = self.socket.fileno()

    def ask(self, request, wanted):
        """Seconds from the writing of the request to the whole reply, which has to be the one that is wanted."""
        start = time.perf_counter()
        os.write(self.write, request)
        got = os.read(self.read, 1 << 20)
        while got != wanted and not is_whole(got):
            got += os.read(self.read, 1 << 20)
        seconds = time.perf_counter() - start
        if got != wanted:
            raise SystemExit(
                f"{self.program}: {request[:300]} {got[:300]} instead of {wanted[:300]}"
            )
        return seconds

    def stream(self, pairs):
        """Requests a second, where all are written as fast as they are taken."""
        requests, wanted = (b"".join(part) for part in zip(*pairs))
        if os.fork() == 0:
            try:
                sent = 0
                while sent < len(requests):
                    sent += os.write(self.write, requests[sent : sent + (1 << 16)])
            finally:
                os._exit(0)
        got, start = bytearray(), None
        while len(got) < len(wanted):
            piece = os.read(self.read, 1 << 20)
            if not piece:
                break
            start = start or time.perf_counter()
            got += piece
        seconds = time.perf_counter() - start
        os.wait()
        if bytes(got) != wanted:
            raise SystemExit(f"{self.program}: a reply differs")
        return len(pairs) / seconds

    def peak(self):
        """The peak of memory in MiB."""
        with open(f"/proc/{self.child.pid}/status", encoding="ascii") as lines:
            return next(int(line.split()[1]) for line in lines if line.startswith("VmHWM")) / 1024

    def finish(self):
        """Ends the program's input and waits for its end."""
        if self.socket:
            self.socket.close()
        self.child.stdin.close()
        self.child.stdout.close()
        if self.child.wait() != 0:
            raise SystemExit(f"{self.program}: status {self.child.returncode}")


def is_whole(got):
    """Whether these bytes are a whole reply, or the end."""
    if not got:
        return True
    head = got.find(b"\r\n\r\n")
    if head < 0:
        return False
    return len(got) >= head + 4 + int(
        got[:head].rsplit(b"Content-Length: ", 1)[1].split(b"\r\n", 1)[0]
    )


def connected(port):
    """A connection to the port, once something listens there: a bare socket, since an HTTP client's time would be measured too."""
    for _ in range(6000):
        try:
            made = socket.create_connection((HOST, port))
            made.setsockopt(socket.IPPROTO_TCP, socket.TCP_NODELAY, 1)
            return made
        except ConnectionRefusedError:
            time.sleep(0.01)
    raise SystemExit("nobody listens")


# ---- fleets


@dataclass(frozen=True)
class Fleet:
    """So many targets, and rollouts of all of them, the first group of each started: the first rollout is of two groups
    where nothing is said, the others of fifty."""

    name: str
    targets: int
    rollouts: int = 1
    groups: int = 2  # of the first rollout
    success: int = 100  # of the first rollout
    ended: int = 0  # how many of its actions succeeded

    def plan(self, number):
        """The rollout of a number."""
        return (
            Plan(number, self.groups, self.success)
            if number == 1
            else Plan(number, min(50, self.targets))
        )

    def make(self, path):
        """Makes its file by the C program."""
        made = Scenario(desk.TWIN + " --at-once", path)
        made.ask(desk.adding(1), desk.added(1))
        made.finish()
        base = sqlite3.connect(path)
        base.execute("INSERT INTO dset (number, name, version) VALUES (1, 'spring', '1')")
        base.execute("INSERT INTO set_module (dset, place, module) VALUES (1, 1, 1)")
        base.commit()
        base.close()
        made = Scenario(desk.TWIN + " --at-once", path)
        made.ask(desk.importing(self.targets), desk.imported(self.targets))
        for plan in map(self.plan, range(1, self.rollouts + 1)):
            made.ask(plan.creating(), plan.created(self.targets))
            made.ask(plan.starting(), DONE)
        for number in range(1, self.ended + 1):
            made.ask(ending(number, number), DONE)
        made.finish()


TEN, THOUSAND, WHOLE = Fleet("ten", 10, groups=1), Fleet("thousand", 1000), Fleet("whole", 10_000)
FIFTY = Fleet("fifty", 10_000, groups=50)
HUNDRED = Fleet("hundred", 1000, rollouts=100)
READY = Fleet("ready", 10_000, rollouts=0)
NEARLY = Fleet("nearly", 10_000, success=1, ended=49)
TWENTY = Fleet("twenty", 10_000, rollouts=20)
FLEETS = [TEN, THOUSAND, WHOLE, FIFTY, HUNDRED, READY, NEARLY, TWENTY]


# ---- the figures


@dataclass(frozen=True)
class Bound:
    """At most so many times the C program's figure, and under so many milliseconds, where these are given."""

    ratio: float | None = None
    milliseconds: float | None = None


BOUNDS = {
    "poll, 10 targets": Bound(ratio=1.5),
    "poll, 1,000 targets": Bound(ratio=1.5),
    "poll, 10,000 targets": Bound(ratio=1.5),
    "final feedback, 10 targets": Bound(ratio=1.75),
    "final feedback, 1,000 targets": Bound(ratio=1.75),
    "final feedback, 10,000 targets": Bound(ratio=1.75),
    "feedback that starts 5,000": Bound(ratio=12, milliseconds=110),
    "CreateRollout of 10,000": Bound(milliseconds=450),
    "Start of 10,000": Bound(milliseconds=250),
}


@dataclass(frozen=True)
class Spread:
    """The largest of these figures of the program over the smallest has to be under the limit; each is the least of its
    turns, since a disk's syncs come in bursts."""

    what: str
    rows: tuple
    limit: float


SPREADS = [
    Spread(
        "poll is flat", ("poll, 10 targets", "poll, 1,000 targets", "poll, 10,000 targets"), 1.3
    ),
    Spread(
        "final feedback is flat",
        (
            "final feedback, 10 targets",
            "final feedback, 1,000 targets",
            "final feedback, 10,000 targets",
        ),
        1.3,
    ),
    Spread(
        "final feedback, 100 rollouts beside 1",
        ("final feedback, 1,000 targets", "final feedback, 100 rollouts"),
        5,
    ),
]


def polls(targets, count, action):
    """So many polls of the first targets in turn; the action of each is told by a function of its number."""
    numbers = [(place * 7919) % targets + 1 for place in range(count)]
    return [(polling(number), polled(number, action(number))) for number in numbers]


def first_action(fleet):
    """The action that a target of the fleet is offered: its first one in a started group."""
    size = fleet.targets // min(50, fleet.targets)

    def action(number):
        if number <= fleet.targets // fleet.groups:
            return number
        return fleet.targets + number if fleet.rollouts > 1 and number <= size else 0

    return action


class Sides:
    """The programs over their copies of one fleet's file, which are asked the same."""

    def __init__(self, folder, master, programs, note, ports=False, pinned=True):
        self.note_of = note
        os.sched_setaffinity(0, ALL[-1:] if pinned else ALL)
        self.asked = {}
        self.paths = []
        for name, program in programs.items():
            path = os.path.join(folder, name + ".db")
            desk.remove(path)
            shutil.copy(master, path)
            self.paths.append(path)
            self.asked[name] = Scenario(program, path, free_port() if ports else None)

    def __enter__(self):
        return self

    def __exit__(self, *_):
        os.sched_setaffinity(0, ALL)
        for asked in self.asked.values():
            asked.finish()
        for path in self.paths:
            desk.remove(path)

    def ask_all(self, pairs):
        """The median of the seconds of these requests with their replies, by the program's name."""
        return self.ask_each(dict.fromkeys(self.asked, list(pairs)))

    def ask_each(self, pairs):
        """The same of each program's own requests, by its name; each has as many, and one without any isn't asked."""
        names = [it for it in self.asked if it in pairs]
        seconds = {name: [] for name in names}
        for first in range(0, len(pairs[names[0]]), BLOCK):
            for name in names:
                seconds[name].extend(
                    self.asked[name].ask(*pair) for pair in pairs[name][first : first + BLOCK]
                )
            names.append(names.pop(0))
        return {name: statistics.median(values) for name, values in seconds.items()}

    def note(self, row, pairs):
        """Takes the figure of these requests."""
        self.note_of(row, self.ask_all(pairs))

    def note_each(self, row, figure):
        """Takes a figure of each program's scenario."""
        self.asked = dict([*list(self.asked.items())[1:], *list(self.asked.items())[:1]])
        self.note_of(row, {name: figure(asked) for name, asked in self.asked.items()})


def measure_fleet(sides, fleet, called):
    """Polls, notes and final feedbacks of the first rollout."""
    first = fleet.targets // fleet.groups
    sides.ask_all(polls(fleet.targets, WARM, first_action(fleet)))
    sides.note(f"poll, {called}", polls(fleet.targets, POLLS, first_action(fleet)))
    sides.note(
        f"note, {called}",
        [(noting(number, number), DONE) for number in (1, 2) for _ in range(NOTES // 2)],
    )
    sides.ask_all([(ending(1, 1), DONE)])
    last = min(first - 1, FINALS + 1)
    sides.note(
        f"final feedback, {called}",
        [(ending(number, number), DONE) for number in range(2, last + 1)],
    )


def measure_fifty(sides, fleet, called):
    """The page of the groups too, where there are many."""
    sides.note(
        "page of 50 groups",
        [
            (
                b"GET /rest/v1/rollouts/1/deploygroups HTTP/1.1\r\n\r\n",
                shown_groups(fleet.targets, fleet.groups),
            )
        ]
        * 20,
    )
    measure_fleet(sides, fleet, called)


def measure_hundred(sides, fleet):
    """Final feedbacks where a target has 99 further actions: of groups that aren't started, or of ones that are."""
    sides.ask_all(polls(fleet.targets, WARM, first_action(fleet)))
    sides.ask_all([(ending(21, 21), DONE)])
    sides.note("final feedback, 100 rollouts", [(ending(n, n), DONE) for n in range(22, 122)])
    sides.note(
        "final feedback, 100 rollouts, the next one offered",
        [(ending(n, n), DONE) for n in range(1, 21)],
    )


def members(fleet, group, offset, word):
    """The request for a page of the targets of a group of the first rollout, and its reply,
    where each target has the word."""
    size = fleet.targets // fleet.groups
    first = (group - 1) * size + offset + 1
    return asking_members(1, group, offset), shown_members(first, size, word)


def measure_start(sides, fleet):
    """Creating and starting a rollout of all targets, and what is shown of it."""
    plan = fleet.plan(1)
    sides.ask_all(polls(fleet.targets, WARM, lambda _: 0))
    sides.note("CreateRollout of 10,000", [(plan.creating(), plan.created(fleet.targets))])
    sides.note("Start of 10,000", [(plan.starting(), DONE)])
    sides.note("page of 50 targets, of a started group", [members(fleet, 1, 0, "pending")] * 20)
    sides.note("page of 50 targets, of a waiting group", [members(fleet, 2, 0, "unknown")] * 20)
    sides.note(
        "page of 50 targets, the last of that group",
        [members(fleet, 2, fleet.targets // 2 - PAGE, "unknown")] * 20,
    )
    sides.note(
        "report of 10,000",
        [(b"GET /desk/v1/rollouts/1/report HTTP/1.1\r\n\r\n", reported(fleet.targets))] * 20,
    )
    sides.note(
        "table of 10,000 actions",
        [(b"GET /desk/v1/rollouts/1/actions HTTP/1.1\r\n\r\n", listed(fleet.targets))] * 3,
    )


def measure_nearly(sides, fleet):
    """The one feedback that starts a group of 5,000."""
    sides.ask_all(
        polls(
            fleet.targets,
            WARM,
            lambda number: number if fleet.ended < number <= fleet.targets // 2 else 0,
        )
    )
    sides.note("feedback that starts 5,000", [(ending(fleet.ended + 1, fleet.ended + 1), DONE)])


def measure_twenty(sides, fleet):
    """What a page and a final feedback take on a desk of twenty rollouts, and its peak of memory then."""
    sides.ask_all(polls(fleet.targets, WARM, first_action(fleet)))
    sides.note(
        "page of 50 targets, of a waiting group, 20 rollouts", [members(fleet, 2, 0, "unknown")] * 5
    )
    sides.note(
        "final feedback, 20 rollouts of 10,000",
        [(ending(number, number), DONE) for number in range(201, 250)],
    )
    sides.note_each("peak memory, 20 rollouts of 10,000 (MiB)", Scenario.peak)


def measure_stream(sides, fleet, called):
    """Polls a second where all are sent as fast as they are taken, and polls one at a time."""
    pairs = polls(fleet.targets, STREAM, first_action(fleet))
    sides.ask_all(pairs[:WARM])
    for _ in range(3):
        sides.note_each(f"polls a second, {called}", lambda asked: asked.stream(pairs))
    sides.note(f"poll, one at a time, {called}", pairs[:POLLS])


def measure(folder, masters, programs, turns):
    """The figures of each program: a dictionary of lists by the row's name."""
    figures = {name: {} for name in programs}

    def note(row, values):
        for name, value in values.items():
            figures[name].setdefault(row, []).append(value)

    def over(fleet, measured, *words, **how):
        with Sides(folder, masters[fleet], programs, note, **how) as sides:
            measured(sides, fleet, *words)

    for _ in range(turns):
        for fleet, called in [
            (TEN, "10 targets"),
            (THOUSAND, "1,000 targets"),
            (WHOLE, "10,000 targets"),
        ]:
            over(fleet, measure_fleet, called)
        over(FIFTY, measure_fifty, "10,000 targets, 50 groups")
        over(HUNDRED, measure_hundred)
        over(READY, measure_start)
        over(NEARLY, measure_nearly)
        over(WHOLE, measure_stream, "standard input", pinned=False)
        over(WHOLE, measure_stream, "one connection", ports=True, pinned=False)
        over(TWENTY, measure_twenty)
    return figures


def make_masters(folder):
    """The files of the fleets."""
    masters = {}
    for fleet in FLEETS:
        masters[fleet] = os.path.join(folder, fleet.name + ".db")
        fleet.make(masters[fleet])
    return masters


# ---- the table


def is_time(row):
    """Whether the row is a time, and not memory or a rate."""
    return "(MiB)" not in row and "a second" not in row


def spread(row, values):
    """Median, least and most, in a unit that suits."""
    values = [1000 * value for value in values] if is_time(row) else values
    middle = statistics.median(values)
    if not is_time(row):
        return f"{middle:.0f} ({min(values):.0f}..{max(values):.0f})"
    if middle < 1:
        return f"{1000 * middle:.0f} us ({1000 * min(values):.0f}..{1000 * max(values):.0f})"
    return f"{middle:.1f} ms ({min(values):.1f}..{max(values):.1f})"


def verdict(bound, milliseconds, ratio):
    """What the bound asks, and whether it is met."""
    if bound is None:
        return ""
    asks, met = [], True
    if bound.ratio:
        asks.append(f"{bound.ratio} of C")
        met = met and ratio <= bound.ratio
    if bound.milliseconds:
        asks.append(f"{bound.milliseconds:g} ms")
        met = met and milliseconds < bound.milliseconds
    return f"{', '.join(asks)}: {'met' if met else 'NOT MET'}"


def print_table(title, figures):
    """The table of one place."""
    print(f"\n{title}\n")
    print(
        "| | fwdesk | C, the same statements | ratio | C, whole sets | ratio | "
        "bound |\n|---|---|---|---|---|---|---|"
    )
    middle = {
        name: {row: statistics.median(values) for row, values in rows.items()}
        for name, rows in figures.items()
    }
    ours, same, sets = (middle[name] for name in ("fwdesk", "same", "sets"))
    for row in ours:
        shown = [spread(row, figures[name][row]) for name in ("fwdesk", "same", "sets")]
        ratio, other = ours[row] / same[row], ours[row] / sets[row]
        said = verdict(BOUNDS.get(row), 1000 * ours[row], ratio)
        print(
            f"| {row} | {shown[0]} | {shown[1]} | {ratio:.2f} | {shown[2]} | {other:.2f} | {said} |"
        )
    for spread_of in SPREADS:
        values, theirs = (
            [min(figures[name][row]) for row in spread_of.rows] for name in ("fwdesk", "same")
        )
        ratio = max(values) / min(values)
        said = "met" if ratio < spread_of.limit else "NOT MET"
        print(
            f"| {spread_of.what} | {ratio:.2f} | {max(theirs) / min(theirs):.2f} | | | | {spread_of.limit}: {said} |"
        )


def run(program, folders, turns):
    """Measures and prints, in each of the folders."""
    programs = {"fwdesk": program, "same": desk.TWIN, "sets": desk.TWIN + " --at-once"}
    for folder in folders:
        with tempfile.TemporaryDirectory(dir=folder) as place:
            masters = make_masters(place)
            before = os.getloadavg()[0]
            figures = measure(place, masters, programs, turns)
        print_table(
            f"Rollouts, in {folder}: medians of {turns} turns; load {before:.1f} to {os.getloadavg()[0]:.1f}",
            figures,
        )
