"""Tests of what tools/release tells of the gate: out/gate has the commit in its first line, and what was left out in the
next ones."""

from harness.asserting import same, written
from as_module import as_module
from crate_graph import ROOT

release = as_module(ROOT / "tools/release")
PASSED = f"{'a' * 40} {'b' * 64} 90013 passed\n"


def test_all_that_the_gate_left_out_is_told():
    skipped = "attacks on the edge: left out: 3 of 90"
    with written(gate_txt=f"{PASSED}{skipped}\nlint: left out: black\n") as workdir:
        same(release.left_out(workdir / "gate.txt"), f"- {skipped}\n- lint: left out: black")


def test_a_gate_that_left_out_nothing():
    with written(gate_txt=PASSED) as workdir:
        same(release.left_out(workdir / "gate.txt"), "Nothing.")


def test_a_gate_that_did_not_pass_left_out_all():
    with written() as workdir:
        same(release.left_out(workdir / "gate.txt"), "- all of it")


def test_the_page_of_a_release_tells_it():
    names = "version commit date architecture libraries device hawkbit program package page kit digest trial"
    words = {it: "" for it in names.split()}
    same("- one part" in release.RELEASE.format(**words, left_out="- one part"), True)
