"""What the proxy's refusals mean, the errors of fwdesk-ctl, and the statuses that it ends with."""
import json

from fwdesk_ctl.refusals import REFUSALS
from fwdesk_ctl.terminal import make_printable

DONE, REFUSED, WRONG, PAUSED, LATE, DENIED, UNREACHED, INTERRUPTED = 0, 1, 2, 3, 4, 5, 6, 130
OF_PROXY = {
    401: "the login isn't taken: FWDESK_USER and FWDESK_PASSWORD, or the line of this host in ~/.netrc",
    403: "the proxy doesn't let this user do that",
    413: "it is larger than the proxy lets by",
    429: "too many wrong logins came from here: try again in a moment",
    500: "the brake isn't confirmed, though it may be written: order it again",
    502: "the proxy got no answer; what was asked may or may not be done",
    503: "the proxy doesn't reach the desk",
    504: "the proxy waited too long for the desk; what was asked may or may not be done",
}


class Wrong(Exception):
    """The command line, the environment or a file isn't as it has to be: nothing was asked of the desk."""


class NotDone(Exception):
    """Something speaks against it that the desk itself would let by, or that was seen afterwards."""


class Locked(NotDone):
    """Another program has the lock for longer than it is waited for."""


class Unreached(Exception):
    """The server can't be reached, or its reply broke off."""

    is_uncertain = False


class LostReply(Unreached):
    """A command was sent, and its reply didn't come: it may be done or not, and isn't sent again."""

    is_uncertain = True


class ForeignReply(Unreached):
    """A reply that the server doesn't give: another program answers at its address, or somebody in between."""


# of a reply that says itself that nobody knows: of the proxy by its status, of the server by its name
UNCERTAIN = (502, 504, "store")


class Refused(Exception):
    """The server, or the proxy before it, refuses. Of what it says no more than `LONGEST` characters are told."""

    LONGEST = 500

    def __init__(self, status: int, body: bytes | str) -> None:
        told = read_refusal(body)
        self.status, self.name, self.number = status, told.pop("error", ""), told.pop("number", 0)
        self.line = told.get("line")
        more = "".join(f", {key} {value}" for key, value in told.items())
        if self.number:
            known = REFUSALS.get(self.name)
        else:
            known = OF_PROXY.get(status, "the proxy refuses")
        head = " ".join(map(str, filter(None, (status, self.name))))
        words = make_printable(f"{head}{more}")[: self.LONGEST]
        super().__init__(f"{words}: {known or 'refused'}")

    @property
    def is_uncertain(self) -> bool:
        """Whether the command may be done all the same."""
        return self.status in UNCERTAIN or self.name in UNCERTAIN


def read_refusal(body: bytes | str) -> dict:
    """The object of a refusal, with its name as `error` and its number; empty where it is of another form."""
    try:
        told = json.loads(body)
    except (ValueError, RecursionError):
        return {}
    if not isinstance(told, dict) or not isinstance(told.get("error"), str):
        return {}
    if type(told.setdefault("number", 0)) is not int or type(told.get("line", 0)) is not int:
        return {}
    return told
