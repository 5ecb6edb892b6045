"""All replies of a desk come over few connections: hostile messages move none of them to another's client."""

import collections
import multiprocessing
import random
import socket
import struct
import time
from typing import Callable

import pytest
from .crowd import load, run_beside
from harness.processes import PATIENCE
from .shapes import make_shapes
from .stage import Stage

pytestmark = [pytest.mark.e2e]
# never polled by a victim: a reply that names it is another's
HIDDEN = b"dev-09"


def attack(
    stage: Stage, seed: int, until: float, least: int, given_up: float
) -> collections.Counter[str]:
    """Sends shapes, a fifth of them cut at random, and ends its connections in several ways: until then, and so many at least."""
    chance, sent = random.Random(seed), 0
    shapes = [it.encode("latin-1") for it in make_shapes(stage.base)]
    while (now := time.monotonic()) < until or sent < least and now < given_up:
        text, way = chance.choice(shapes), chance.randrange(4)
        link = None
        try:
            link = stage.open(f"127.5.0.{seed + 1}", 12).it
            if way == 0:
                link.setsockopt(socket.SOL_SOCKET, socket.SO_LINGER, struct.pack("ii", 1, 0))
            link.settimeout(chance.choice((0.002, 0.01, 0.05, 0.3)) if way else 0.002)
            cut = chance.randrange(len(text)) if chance.random() < 0.2 else len(text)
            link.sendall(text[:cut])
            sent += 1
            link.recv(65536)
        except (OSError, ValueError):
            pass
        if link:
            link.close()
    return collections.Counter(sent=sent)


def look(stage: Stage, device: int, is_over: Callable[[], bool]) -> collections.Counter[str]:
    """A device, and every other time an operator, who looks whether each reply is his own."""
    counts, link = collections.Counter(), None
    own, is_operator = f"dev-{device:02}".encode(), device % 2 == 0
    while not is_over() or not counts:
        kind = "ended"
        try:
            link = link or (
                stage.open_near(60) if is_operator else stage.open(f"127.6.0.{device}", 60)
            )
            if is_operator:
                status, fields, told = link.ask(
                    "GET", f"{stage.near_base}/rest/v1/targets/{own.decode()}"
                )
            else:
                status, fields, told = stage.poll(link, device)
            if status == 200 and own in told and HIDDEN not in told:
                kind = "own"
            elif HIDDEN in told or status == 200:
                kind = "another's"
            elif status:
                kind = str(status)
        except OSError as why:
            kind, fields = type(why).__name__, {}
        counts[kind] += 1
        if link and (kind != "own" or fields.get("connection", "").lower() == "close"):
            link.close()
            link = None
    return counts


@pytest.mark.gate
def test_every_reply_is_its_own(quiet: Stage, request: pytest.FixtureRequest) -> None:
    """Hostile messages from eight connections at once; eight others are told their own, and nobody 5xx. At full size they are
    a hundred thousand, from twenty-five."""
    is_full = request.config.getoption("--full", None)
    attackers, least, seconds, patience = (25, 4000, 0, 3600) if is_full else (8, 4, 5, PATIENCE)
    over = multiprocessing.get_context("fork").Value("i", 0)
    until = time.monotonic() + seconds

    def attack_once(seed: int) -> collections.Counter[str]:
        try:
            return attack(quiet, seed, until, least, until + patience)
        finally:
            with over.get_lock():
                over.value += 1

    victims = [it for it in range(3, 12) if it != 9]
    work = [lambda seed=seed: attack_once(seed) for seed in range(attackers)]
    work += [
        lambda device=device: look(quiet, device, lambda: over.value == attackers)
        for device in victims
    ]
    told = sum(run_beside(work), collections.Counter())
    sent = told.pop("sent")
    print(f"{quiet.form}: {sent} hostile messages beside {dict(told)}; {load()}")
    assert sent >= attackers * least
    # a program without its proofs tells some few a second
    assert told["own"] >= (sent / 10 if is_full else 1)
    assert told["another's"] == 0 and not [it for it in told if it.startswith("5")], told
