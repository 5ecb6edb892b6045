"""Tests of tools/gen/reading-list: which definitions its head says that a contract rests on."""
from pathlib import Path

from as_module import as_module
from harness.asserting import same, written

LIST = as_module(Path(__file__).resolve().parents[2] / "tools/gen/reading-list")
CONTRACT = """ghost use Rattle.high.specs.Rows.{shown};

pub fn show(n: u32) -> u32
    ensures shown n
{
    n
}
"""
LABELS = """use Rattle.std.specs.Prelude.{ℕ}

pub label : ℕ → ℕ
label n = n

pub unnamed : ℕ
unnamed = 0
"""


def rests(rows):
    """What a contract rests on that names `shown` of Rows, with the lines of each."""
    with written(
        high_src_lib_rt=CONTRACT, high_specs_Rows_antt=rows, low_specs_Labels_antt=LABELS
    ) as crates:
        found = LIST.Definitions(crates)
        below = found.below("high/src/lib.rt", "show(")
        return {name: len(found.modules[path].definitions[name]) for path, name in below}


def test_a_definition_is_followed_through_imports():
    rows = "use Rattle.low.specs.Labels.{label}\n\npub shown : ℕ → ℕ\nshown n = label n\n"
    same(rests(rows), {"shown": 2, "label": 2})


def test_a_name_that_begins_like_a_keyword_keeps_its_equations():
    rows = """use Rattle.low.specs.Labels.{label, unnamed}

pub shown : ℕ → ℕ
shown n = module_row (used n)

pub module_row : ℕ → ℕ
module_row n = label n

used : ℕ → ℕ
used n = unnamed
"""
    same(rests(rows), {"shown": 2, "module_row": 2, "used": 2, "label": 2, "unnamed": 2})


def test_a_field_that_begins_like_a_keyword_belongs_to_its_record():
    rows = """use Rattle.low.specs.Labels.{label}

pub shown : ℕ → Row
shown n = record {
  module_number = label n;
}

pub record Row : Type 0 where
  pub module_number : ℕ
"""
    same(rests(rows), {"shown": 4, "Row": 2, "label": 2})


def test_the_head_of_an_inner_module_ends_what_stands_above_it():
    rows = """use Rattle.low.specs.Labels.{label}

pub record Row : Type 0 where
  pub number : ℕ

module _ (row : Row) where
  inner : ℕ
  inner = label row.number

  pub shown : ℕ → ℕ
  shown n = inner
"""
    same(rests(rows), {"shown": 2, "inner": 2, "label": 2})


SOURCE = """ghost use Rattle.one.specs.Shown.{IsShown};
ghost use Rattle.one.specs.{folder}Steps.{{IsStep}};

pub fn show(n: u32) -> u32
    ensures {{ IsShown n result }}
{{
    step(n)
}}

{visible}fn step(n: u32) -> u32
    ensures {{ IsStep n result }}
{{
    n
}}
"""


def misplaced(visible, folder):
    """What is said of Shown and Steps, where a function of this visibility names Steps, which lies in this folder of specs/."""
    step = "pub IsStep : ℕ → ℕ → Type 0\nIsStep n m = n ≡ m\n"
    shown = "pub IsShown : ℕ → ℕ → Type 0\nIsShown n m = n ≡ m\n"
    files = {
        "one_src_lib_rt": SOURCE.replace("{IsShown}", "{{IsShown}}").format(
            visible=visible, folder="private." if folder else ""
        ),
        "one_specs_Lib_antt": "pub mod Shown\n",
        "one_specs_Shown_antt": shown,
        f"one_specs_{'private_' if folder else ''}Steps_antt": step,
    }
    with written(**files) as crates:
        return list(LIST.Definitions(crates).misplaced())


def test_what_a_private_clause_alone_reaches_stands_apart():
    same(misplaced("", folder=True), [])
    same(misplaced("pub(crate) ", folder=True), [])
    same(
        misplaced("", folder=False),
        [("one/specs/Steps.antt", "no public clause reaches it: it belongs in specs/private")],
    )


def test_what_a_public_clause_reaches_does_not():
    same(misplaced("pub ", folder=False), [])
    same(
        misplaced("pub ", folder=True),
        [("one/specs/private/Steps.antt", "a public clause reaches IsStep")],
    )
