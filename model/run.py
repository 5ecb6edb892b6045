"""A run: each message of a stream in order is read and answered at the list so far; an accepted command goes on it."""
from dataclasses import dataclass

from . import answers, bodies, machine, routes, verdicts, wire
from .commands import Command
from .refusals import Refused


@dataclass
class Turn:
    """What a message came to: its call, what it asked if it could be read, why it was refused, and the reply."""

    line: str = ""
    call: str = ""
    asked: object = None
    refused: Refused = None
    reply: bytes = b""

    @property
    def accepted(self):
        return isinstance(self.asked, Command) and not self.refused


def turn(h, message, interface):
    """Answers one message, and gives the list afterwards."""
    it = Turn(f"{message.method} {message.path}")
    try:
        it.call, given = routes.find(message, interface)
        it.asked = bodies.read(message, it.call, given)
        if isinstance(it.asked, Command):
            verdicts.verdict(h, it.asked)
            h = machine.followed_by(h, it.asked)
            shown = answers.done(h, it.asked)
        else:
            shown = answers.answer(h, it.asked)
        it.reply = bodies.answered(it.call, shown)
    except Refused as refused:
        it.refused, it.reply = refused, wire.refusal_bytes(refused)
    return h, it


def run(h, stream, interface):
    """Answers a stream: the list afterwards, a turn for each message and for a fault, and how the stream ends."""
    turns = []
    for it in wire.messages(stream):
        if isinstance(it, Refused):
            turns.append(Turn(refused=it, reply=wire.refusal_bytes(it)))
            return h, turns, "fault"
        if isinstance(it, str):
            return h, turns, it
        h, one = turn(h, it, interface)
        turns.append(one)
