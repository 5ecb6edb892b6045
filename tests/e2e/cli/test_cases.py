"""fwdesk-ctl against the real program: each verb, and how it fails.

What is expected comes of docs/API.md and of the verbs' own help; what became of it is asked of the program. Lines
that break or lose a byte, a program that is killed, commands that are killed at each of their calls: harness/fwdesk_ctl.py has
the environment of all that, and the other files the cases, one a subject. A case that needs haproxy, nginx, openssl,
curl or jq is left out where one is missing."""
import importlib
from pathlib import Path

import pytest

from harness.fwdesk_ctl import Environment, Left

SUBJECTS = (
    "making",
    "bad_day",
    "newcomers",
    "held",
    "clock",
    "around",
    "firmware",
    "hostile",
    "shipping",
    "fleet_files",
    "one_device",
    "operating",
    "backing_up",
    "stands_still",
)
CASES = [case for it in SUBJECTS for case in importlib.import_module(f".{it}", __package__).CASES]


@pytest.fixture
def env(request, program: Path, folder: Path):
    """A desk of its own, served as its case wants it, and fwdesk-ctl asking it."""
    case = request.getfixturevalue("case")
    with Environment(program, folder, *getattr(case, "more", ())) as made:
        yield made


@pytest.mark.parametrize("case", CASES, ids=lambda it: it.__name__)
def test_case(env, case) -> None:
    try:
        case(env)
    except Left as why:
        pytest.skip(str(why))
