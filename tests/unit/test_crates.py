"""Tests of crates.py: what `rt --help` says of the lines of crates.txt."""
import crate_graph as crates
from harness.asserting import same


def test_lines():
    text = "# lowest first\nlow:\n\nffi staticlib: low std_x # why\napp backend=rattle status=3: low ffi sqlite\n"
    same(crates.listed(text), {"low": [], "ffi": ["low", "std_x"], "app": ["low", "ffi", "sqlite"]})
    same(list(crates.listed(text)), ["low", "ffi", "app"])


def test_those_of_the_repository():
    below = crates.uses()
    assert all(it in below for its in below.values() for it in its)
    assert "rollout_desk" in below["desk_server"] and "clap" not in below["desk_server"]
