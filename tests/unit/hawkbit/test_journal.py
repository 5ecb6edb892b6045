"""What the services write to the journal, whatever a request has in its path."""

import io
import logging

import pytest

from fwdesk_hawkbit import journal

HOSTILE = "/x\nERROR forged\r\x1b[31m\x9b\u202e\u2028"


@pytest.fixture
def log():
    """A logger that writes as the services do, and what it has written."""
    handler = logging.StreamHandler(io.StringIO())
    handler.setFormatter(journal.Lines())
    made = logging.Logger("one of a test")
    made.addHandler(handler)
    return made, handler.stream


def test_a_record_is_one_printable_line(log):
    made, written = log
    made.warning("%s %s: %s", "GET", HOSTILE, "the desk gives no answer")
    (line,) = written.getvalue().removesuffix("\n").split("\n")
    assert line.startswith("WARNING GET /x\N{REPLACEMENT CHARACTER}ERROR forged")
    assert line.endswith(": the desk gives no answer") and line.isprintable()


def test_no_line_of_a_trace_looks_like_a_record(log):
    made, written = log
    try:
        raise ValueError(HOSTILE)
    except ValueError:
        made.exception("%s %s", "GET", HOSTILE)
    first, *trace = written.getvalue().removesuffix("\n").split("\n")
    assert first.startswith("ERROR GET /x") and len(trace) > 3
    assert all(it.isprintable() for it in (first, *trace))
    assert all(it.startswith("    ") for it in trace)
