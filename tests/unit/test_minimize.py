"""Tests of what tools/proof/minimize reads of a file of proofs, and of what it tries in place of a proof."""
from collections import Counter
from pathlib import Path
from tempfile import TemporaryDirectory

from as_module import as_module
from crate_graph import ROOT
from harness.asserting import same

shorten = as_module(ROOT / "tools/proof/minimize")
PROOFS = """-- Of lists.
use Rattle.std.proofs.Common.{ℕ, arith}

abbrev kept : {X : Type 0} → (X → Bool) → List X → List X
kept p [] = []
kept p (x ∷ xs) = cond (p x) (x ∷ kept p xs) (kept p xs)

few : {X : Type 0} (p : X → Bool) (xs : List X) → length (kept p xs) ≤ length xs
few p [] = omega arith
few p (x ∷ xs) = go (p x) (few p xs)
  where
    go : (b : Bool) → length (kept p xs) ≤ length xs
        → length (cond b (x ∷ kept p xs) (kept p xs)) ≤ suc (length xs)
    go true rest = omega (arith, rest)
    go false rest = omega (arith, rest)

module _ (p : ℕ → Bool) where
  pub none : (o : Option ℕ) (n : ℕ) → None ≡ o → n ≡ 0
      → is_some o ≡ false
  none None n is zero_is = refl
  none (Some m) n is zero_is = absurd (apart m is)

  one : (n : ℕ) → 1 ≤ n → p n ≡ true
  one n least = elim (cases n) [
    | inl it ↦ it
  ]
"""
LINES = PROOFS.split("\n")


def lemmas():
    return {it.name: it for it in shorten.lemmas_of(Path("Lists.antt"), LINES)}


def test_a_definition_is_no_lemma():
    same(list(lemmas()), ["few", "none", "one"])


def test_what_hangs_below_an_equation_is_its_own():
    found = lemmas()
    same([it.size for it in found["few"].equations], [1, 6])
    same([it.size for it in found["one"].equations], [3])
    same(LINES[found["few"].stop], "")


def test_an_induction_keeps_its_cases_and_lists_its_call():
    same(list(shorten.wholes(lemmas()["few"], set())), [])
    (piece,) = shorten.singles(lemmas()["few"], set())
    same(piece.attempts[0], ["few p (x ∷ xs) = grind (arith, few p xs)"])
    same(LINES[piece.start], "few p (x ∷ xs) = go (p x) (few p xs)")


def test_cases_of_one_that_calls_itself_nowhere_are_one_call():
    (piece,) = shorten.wholes(lemmas()["none"], {"apart"})
    same(piece.text(LINES)[-1], "  none o n is zero_is = grind arith")
    same(piece.gain(LINES), 1)


def test_a_call_is_cut_where_its_arguments_are_no_longer_known():
    it = shorten.Equation(
        ["few p (x ∷ xs) all =", "    let both = parts all in go (p x) both.0 (few p xs both.1)"]
    )
    same(it.calls("few"), ["few p xs"])


def test_a_fact_is_no_constructor_and_no_type():
    names = {"false", "Sorted", "Sorted-append", "apart"}
    same(
        shorten.cited("absurd (apart m false) Sorted (Sorted-append x)", names, "few"),
        ["apart", "Sorted-append"],
    )


def test_a_lemma_is_told_by_what_it_ends_in():
    at = next(n for n, line in enumerate(LINES) if line.startswith("  pub none"))
    same(shorten.says(LINES, at), "is_some o ≡ false")


def in_place(pieces, lines):
    """What a file says with these pieces in it."""
    with TemporaryDirectory() as folder:
        file = Path(folder) / "Lists.antt"
        for it in pieces:
            it.file = file
            for one in it.fallen():
                one.file = file
        shorten.written({file: lines}, pieces)
        return file.read_text(encoding="utf-8").split("\n")


ONCE = """use Rattle.std.proofs.Common.{ℕ, arith, least_of}

-- what a list has at least
low : (n : ℕ) → 1 ≤ n + 1
low n = omega (arith, least_of n)

pub high : (n : ℕ) (h : 0 ≤ n) → n < n + 2
high n h = omega (arith, low n)
""".split(
    "\n"
)


def test_a_lemma_that_is_called_once_falls_with_its_comment():
    file = Path("Lists.antt")
    own = list(shorten.lemmas_of(file, ONCE))
    once = shorten.called_once(
        own, Counter(word for line in ONCE for word in shorten.WORD.findall(line))
    )
    same(list(once), ["low"])
    pieces = [
        it
        for lemma in own
        for it in shorten.inlined(lemma, {"low", "high", "least_of"}, once, {file: ONCE})
    ]
    same(pieces[0].gain(ONCE), 2)
    same(
        in_place(pieces, ONCE),
        [
            "use Rattle.std.proofs.Common.{ℕ, arith, least_of}",
            "",
            "pub high : (n : ℕ) (h : 0 ≤ n) → n < n + 2",
            "high n h = grind (arith, least_of)",
            "",
        ],
    )


def test_what_is_refused_stays_as_it_was():
    file = Path("Lists.antt")
    own = list(shorten.lemmas_of(file, ONCE))
    (piece,) = shorten.inlined(own[1], {"low", "high", "least_of"}, {"low": own[0]}, {file: ONCE})
    shorten.judge(piece, None, 0)
    same(in_place([piece], ONCE), ONCE)


def test_no_lemma_falls_that_another_piece_stands_in():
    def piece(start, falls):
        return shorten.Piece(Path("Lists.antt"), start, start + 1, [], [[]], [falls])

    own = {it.name: it for it in shorten.lemmas_of(Path("Lists.antt"), ONCE)}
    first, second = piece(7, [own["low"]]), piece(4, [own["high"]])
    same(shorten.apart([first, second]), [first])
    same(shorten.apart([piece(4, [own["low"]])]), [])


def test_an_import_goes_with_its_last_name():
    line = "use Rattle.std.proofs.Common.{ℕ, arith}"
    same(shorten.without(line, {"arith"}), ["use Rattle.std.proofs.Common.{ℕ}"])
    same(shorten.without(line, {"ℕ", "arith"}), [])
    same(shorten.without("low n = arith", {"arith"}), ["low n = arith"])


def test_an_answer_falls_until_it_is_asked_for():
    lines = [
        "use Lib.goal",
        "",
        "pub ends : goal.ends",
        "ends c =",
        "    refl",
        "",
        "pub begins : goal.begins",
        "begins c = refl",
    ]
    folder = Path("proofs")
    file = folder / "lists/few/Answers.antt"
    ends, begins = shorten.answers({file: lines}, set())
    same((ends.start, ends.stop, begins.stop), (2, 6, 8))
    said = "fn few: no proof: expected answers in ./proofs/lists/few/Answers.antt; `search` did not prove `begins`"
    same(list(shorten.asked([ends, begins], folder, said)), [begins])
    same(
        list(shorten.asked([ends, begins], folder, said.replace("begins", "ends-clause-last"))),
        [ends],
    )


def test_a_call_with_no_fact_is_tried_first():
    none = lemmas()["none"]
    same(
        [it[0].split(" = ")[1] for it in shorten.closed(none, ["o"], [], ["apart"])],
        ["grind arith", "grind (arith, apart)", "grind (arith, nat_tests, apart)"],
    )
    same(len(shorten.closed(none, ["o"], ["none o"], [])), 2)


def test_a_crate_is_proved_by_its_own_verdict():
    below = "logic=proved functions=68 sum=dac8\n"
    same(shorten.is_proved(below + "fn a::b: not proved\nlogic=not-proved\n"), False)
    same(shorten.is_proved(below + "logic=proved functions=3 sum=dac8\n"), True)
