"""Tests of the list that tools/proof/margin keeps, and of what it reads of a check."""
from as_module import as_module
from harness.asserting import same
from crate_graph import ROOT

margin = as_module(ROOT / "tools/proof/margin")
SAID = """fn desk::is_full: proved
fn desk::Desk::open: not proved: 2 goals are open
fn desk::close: no proof
fn desk::end: no proof: it calls `desk::close`, which is not proved
note: src/desk.rt:3:1: it is not proved that what the function ensures holds when it returns (`returns`)
logic=not-proved functions=3 proved=1
"""


def test_what_is_read_of_a_check():
    same(margin.open_in(SAID), {"desk::Desk::open", "desk::close"})
    same(margin.open_in("fn desk::is_full: proved\nlogic=proved functions=1 sum=1\n"), set())
    same(margin.UNJUDGED.findall(SAID), ["desk::end"])
    same(margin.open_in("fn desk::is_full: proved\nrattle: out of memory\n"), None)


def test_the_list():
    listed = {
        "desk": ("2026-11-29", "0123456789ab", {"desk::close", "desk::Desk::open"}),
        "store": ("2026-11-28", "ba9876543210", set()),
    }
    same(margin.read_list(margin.write_list(listed)), listed)
    same(margin.read_list(""), {})


def test_what_is_wrong_with_it():
    same(list(margin.compare("desk", {"a", "b"}, {"a", "b"})), [])
    one, other = margin.compare("desk", {"a"}, {"b"})
    assert one.startswith("a stays open") and other.startswith("b is proved")
