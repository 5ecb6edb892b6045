"""Honest devices beside an attack: how many polls a second they are told, and the slowest. Not run by itself."""

import contextlib
import itertools
import multiprocessing
import os
import select
import socket
import time
from dataclasses import dataclass
from pathlib import Path
from typing import Callable, Iterator, TypeVar

from harness.processes import HOST, PATIENCE
from .stage import DEVICES, Link, Stage

T = TypeVar("T")
# of <linux/in6.h>
IPV6_FREEBIND = 78


def run_beside(work: list[Callable[[], T]]) -> list[T]:
    """Runs each in a process of its own, all at the same time: what each returned. One that raises fails the test."""
    context, those = multiprocessing.get_context("fork"), []
    for it in work:
        ours, theirs = context.Pipe(duplex=False)
        child = context.Process(target=lambda it=it, out=theirs: out.send(it()))
        child.start()
        # so that the end of the child is the end of the pipe
        theirs.close()
        those.append((child, ours))
    try:
        return [ours.recv() for _, ours in those]
    except EOFError:
        raise AssertionError("a process of the test has ended without a result") from None
    finally:
        for child, _ in those:
            child.join()


@dataclass
class Polls:
    """What came of a time of polls: those that were answered, a second; the slowest, in seconds; others than 200."""

    rate: float
    slowest: float
    refused: int


def poll_all_the_time(stage: Stage, device: int, until: float) -> tuple[int, float, int]:
    """A device that polls all the time over a kept connection, from an address of its own."""
    told, worst, refused, link = 0, 0.0, 0, None
    while time.monotonic() < until:
        began = time.monotonic()
        try:
            link = link or stage.open(f"127.1.0.{device}", 60)
            status = stage.poll(link, device)[0]
        except OSError:
            status = 0
        worst = max(worst, time.monotonic() - began)
        told, refused = told + (status == 200), refused + (status not in (0, 200))
        if status != 200 and link:
            link.close()
            link = None
    return told, worst, refused


def polled(stage: Stage, seconds: float) -> Polls:
    """All honest devices poll for so long, each in a process of its own."""
    until = time.monotonic() + seconds
    told = run_beside(
        [
            lambda device=device: poll_all_the_time(stage, device, until)
            for device in range(1, DEVICES + 1)
        ]
    )
    return Polls(
        sum(it[0] for it in told) / seconds, max(it[1] for it in told), sum(it[2] for it in told)
    )


def keep_to(stage: Stage, processors: set[int]) -> None:
    """Has each thread of this process and of all that a stage has started run on these processors."""
    for process in (os.getpid(), *stage.processes()):
        # a thread may end meanwhile, as may a HAProxy of before a reload; and a machine may not let itself be divided
        with contextlib.suppress(OSError):
            for thread in list(Path(f"/proc/{process}/task").iterdir()):
                with contextlib.suppress(OSError):
                    os.sched_setaffinity(int(thread.name), processors)


@contextlib.contextmanager
def set_apart(stage: Stage) -> Iterator[set[int]]:
    """Half of the processors, for an attack. The edge, what is behind it and honest devices, which are children of this
    process, have the other half as long: an attacker's own machine takes nothing of theirs."""
    every = sorted(os.sched_getaffinity(0))
    own = len(every) - len(every) // 2
    keep_to(stage, {*every[:own]})
    try:
        yield {*every[own:]} or {*every}
    finally:
        keep_to(stage, {*every})


@contextlib.contextmanager
def attacked(attack: Callable[[float], None], count: int) -> Iterator[None]:
    """An attack in so many processes, which ends with what is done meanwhile."""
    until = time.monotonic() + PATIENCE
    context = multiprocessing.get_context("fork")
    those = [context.Process(target=attack, args=(until,), daemon=True) for _ in range(count)]
    for it in those:
        it.start()
    time.sleep(1)
    try:
        yield
    finally:
        for it in those:
            it.kill()
            it.join()


def beside(
    stage: Stage,
    seconds: float,
    attack: Callable[[float], None],
    count: int,
    processors: set[int],
) -> Polls:
    """The polls of honest devices while an attack, which is told until when, runs in so many processes on processors of its
    own."""
    context = multiprocessing.get_context("fork")
    until = time.monotonic() + seconds + 1

    def run() -> None:
        with contextlib.suppress(OSError):
            os.sched_setaffinity(0, processors)
        attack(until)

    those = [context.Process(target=run, daemon=True) for _ in range(count)]
    for it in those:
        it.start()
    time.sleep(0.5)
    try:
        return polled(stage, seconds)
    finally:
        # one that is kept waiting doesn't end by itself
        for it in those:
            it.join(max(0.0, until + 1 - time.monotonic()))
            if it.is_alive():
                it.kill()


def compare(
    stage: Stage, seconds: float, attack: Callable[[float], None], count: int
) -> tuple[Polls, Polls]:
    """The polls of honest devices alone, and beside an attack. Alone they are measured before and after, of which the lower
    rate counts: a machine that other work shares isn't as quick all the time."""
    with set_apart(stage) as theirs:
        before = polled(stage, seconds / 2)
        made, spent = stage.accepted(), stage.processor()
        under = beside(stage, seconds, attack, count, theirs)
        made, spent = stage.accepted() - made, stage.processor() - spent
        stage.forget()
        alone = min(before, polled(stage, seconds / 2), key=lambda it: it.rate)
    took = f"{made / (seconds + 1):.0f} connections and {spent / (seconds + 1):.2f} s of a processor a second"
    print(
        f"{stage.form}: {alone.rate:.0f} alone, {under.rate:.0f} beside,"
        f" {under.rate / max(alone.rate, 1):.2f}; {under}; {took}; {load()}"
    )
    return alone, under


def hold(links: list[socket.socket | Link], made: Callable[[], Link], count: int) -> None:
    """Opens so many connections; one that is refused is left out."""
    for _ in range(count):
        try:
            links.append(made())
        except OSError:
            pass


def make_sources(count: int) -> Iterator[str]:
    """So many addresses, one after the other and again, that no other process of an attack has."""
    own = os.getpid()
    return itertools.cycle(
        f"127.{64 + own // 250 % 64}.{own % 250}.{it}" for it in range(1, count + 1)
    )


def silent(port: int, source: str) -> socket.socket:
    """A connection that says nothing."""
    kind = socket.AF_INET6 if ":" in source else socket.AF_INET
    it = socket.socket(kind)
    it.settimeout(PATIENCE)
    if kind == socket.AF_INET6:
        # this machine has a route to the address, and not the address
        it.setsockopt(socket.IPPROTO_IPV6, IPV6_FREEBIND, 1)
    it.bind((source, 0))
    it.connect(("::1" if kind == socket.AF_INET6 else HOST, port))
    return it


def ended(links: list[socket.socket]) -> int:
    """How many of these connections, to which nobody says anything, were ended. The edge's threads take new ones in any order,
    so where there is one too many it may be another than the last."""
    poll = select.poll()
    for it in links:
        poll.register(it, select.POLLIN)
    return len(poll.poll(0))


def lost(links: list[socket.socket], asked: int) -> int:
    """How many of so many connections that were asked for were ended, those too that `hold` left out, since they were ended
    while they were opened."""
    return asked - len(links) + ended(links)


def load() -> str:
    """The machine's load, for what is printed."""
    return f"load {os.getloadavg()[0]:.0f}"
