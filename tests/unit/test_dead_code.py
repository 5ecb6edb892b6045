"""Tests of what tools/lint/dead-code reads of the names that an attribute gives."""
from as_module import as_module
from crate_graph import ROOT
from harness.asserting import same

unused = as_module(ROOT / "tools/lint/dead-code")
LEMMAS = ROOT / "crates/low/proofs/Lists/Few.antt"
MADE = """-- Of lists.
module _ (p : ℕ → Bool) where
  abbrev pub few : ℕ → ℕ

  kept : ℕ → ℕ
pub ruleset found = (few, kept)
"""


def lacking(attribute, crate="high"):
    return list(unused.lacking(crate, f"#[tactic(auto, {attribute})]", {LEMMAS: MADE}))


def test_a_name_that_is_public_is_there():
    same(lacking("using(low::proofs::Lists::Few::few, low::proofs::Lists::Few::found)"), [])
    same(lacking("unfolding(crate::proofs::Lists::Few::few)", "low"), [])


def test_one_that_is_private_or_gone_is_not():
    same(lacking("using(low::proofs::Lists::Few::kept)"), ["low::proofs::Lists::Few::kept"])
    same(lacking("using(low::proofs::Lists::Many::few)"), ["low::proofs::Lists::Many::few"])


def test_the_kit_is_not_looked_at():
    same(lacking("using(std::proofs::Lists::few)"), [])
