"""What a device says in hawkBit's words, written in the desk's."""

import json
import re
from typing import Any

from fwdesk_hawkbit.faults import Fault

# of the desk: lines of a report, bytes of a line, letters of a key, bytes of a value
LINES, LINE, KEY, VALUE = 8, 256, 64, 128
NUMBER = 4_294_967_295
# hawkBit's words, and what the desk takes without a result
EXECUTIONS = (
    "closed proceeding canceled scheduled rejected resumed downloaded download confirmed denied"
).split()
NOTES = ("proceeding", "scheduled", "resumed", "rejected")
FINISHED = ("success", "failure", "none")
CONTROL = re.compile(r"[\x00-\x1f\x7f-\x9f\u2028\u2029]+")


def read_object(body: bytes) -> dict[str, Any]:
    """The object of a body, or a Fault."""
    try:
        told = json.loads(body)
    except (ValueError, RecursionError):
        raise Fault("body", "The given request body is not well formed") from None
    if not isinstance(told, dict):
        raise Fault("body", "The request body is no object")
    return told


def cut(text: str, size: int) -> list[str]:
    """A text in pieces of so many bytes at most; no letter is cut."""
    pieces, held, room = [], "", size
    for letter in text:
        if (width := len(letter.encode())) > room:
            pieces.append(held)
            held, room = "", size
        held, room = held + letter, room - width
    return [*pieces, held]


def plain(text: str) -> str:
    """A text without what can't be kept: control characters are a space, half letters a question mark."""
    return CONTROL.sub(" ", text.encode(errors="replace").decode())


def lines_of(said: list[Any]) -> list[str]:
    """The details in the desk's form. Where they are more than it keeps, the first line says how many are left out."""
    texts = [line for it in said for line in re.split(r"[\r\n]+", str(it))]
    pieces = [piece for it in texts for piece in cut(plain(it), LINE)]
    if len(pieces) <= LINES:
        return pieces
    left = len(pieces) - LINES + 1
    return [f"({left} lines before these are left out)", *pieces[left:]]


def outcome(which: str, execution: str, finished: str, is_download: bool) -> tuple[str, str]:
    """What ends an action ends it, and all else is a note. `is_download`: it was for the download alone."""
    if which == "cancelAction":
        if execution in ("closed", "canceled"):
            return ("rejected", "none") if finished == "failure" else (execution, "success")
    elif execution == "closed":
        return "closed", "failure" if finished == "failure" else "success"
    elif execution == "downloaded" and is_download:
        return "closed", "success"
    return (execution, "none") if execution in NOTES else ("proceeding", "none")


def feedback(which: str, told: dict[str, Any], is_download: bool = False) -> dict[str, Any]:
    """A report in the desk's form, or a Fault. `which` is deploymentBase or cancelAction."""
    said = told.get("status")
    said = said if isinstance(said, dict) else {}
    execution, result = said.get("execution"), said.get("result")
    finished = result.get("finished", "none") if isinstance(result, dict) else "none"
    if execution not in EXECUTIONS or finished not in FINISHED:
        raise Fault("body", f"execution {execution!r} or finished {finished!r} is no word of it")
    details = said.get("details") or []
    lines = list(details) if isinstance(details, list) else [details]
    ends, result = outcome(which, execution, finished, is_download)
    if ends != execution:
        lines = [f"{execution}, {finished}", *lines]
    if said.get("code") is not None:
        lines.append(f"Device reported status code: {said['code']}")
    made = {"execution": ends, "result": {"finished": result}, "details": lines_of(lines)}
    number = told.get("number")
    if number is None:
        return {"status": made}
    if type(number) is not int or not 1 <= number <= NUMBER:
        raise Fault("body", f"number is a whole number from 1 to {NUMBER}")
    return {"number": number, "status": made}


def key_of(name: str) -> str:
    """An attribute's name as the word that the desk takes: `HW Version` is HW_Version."""
    return re.sub(r"[^A-Za-z0-9._-]", "_", name)[:KEY] or "_"


def value_of(value: Any) -> str:
    """A value as the desk takes it."""
    text = "" if value is None else value if isinstance(value, str) else json.dumps(value)
    return cut(plain(text), VALUE)[0]


def attributes(told: dict[str, Any]) -> tuple[str, dict[str, str]]:
    """What is to be done (merge, replace, remove), and the attributes; or a Fault."""
    data, mode = told.get("data"), told.get("mode") or "merge"
    if not isinstance(data, dict) or not isinstance(mode, str):
        raise Fault("body", "data is an object")
    if (mode := mode.lower()) not in ("merge", "replace", "remove"):
        raise Fault("body", f"mode {mode!r}: merge, replace or remove")
    return mode, {key_of(key): value_of(it) for key, it in data.items()}
