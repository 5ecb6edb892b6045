"""The program's orders but `serve`, as far as the rules go: what they write, and the status with which they end."""
from . import answers, files, machine, run, texts, verdicts
from .commands import PutTargets, ShowReport
from .refusals import Refused


def option(words, name):
    return words[words.index(name) + 1]


def new_desk(words):
    return machine.made("--approval" in words)


def imported(h, text):
    """A file of targets goes in as one command."""
    if len(text) > texts.BODY:
        raise Refused(9, f"the file has {len(text)} bytes")
    command = PutTargets(files.read_targets(text))
    verdicts.verdict(h, command)
    return machine.followed_by(h, command), f"imported {len(command.rows)}\n".encode()


def carry_out(h, words, stream, file):
    """Carries out an order: the list afterwards, the status, what is written, and the line of an error."""
    h = h or new_desk(words)
    order = words[0]
    if order == "run":
        h, turns, _ = run.run(h, stream, option(words, "--interface"))
        return h, 0, b"".join(it.reply for it in turns), ""
    if order == "verify":
        return h, 0, b"ok\n", ""
    try:
        if order == "import":
            h, told = imported(h, file)
            return h, 0, told, ""
        return h, 0, answers.answer(h, ShowReport(int(option(words, "--rollout")))), ""
    except Refused as refused:
        line = f" line {refused.line}" if refused.line is not None else ""
        return h, 1, b"", f"error {refused.number} {refused.name}{line}"
