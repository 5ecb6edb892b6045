"""Tests of what tests/mutation/run reads: an edit, the functions and lemmas of a crate as the prover names them,
and where an edit applies."""
from as_module import as_module
from crate_graph import ROOT
from harness.asserting import refused, same, written

bodies = as_module(ROOT / "tests/mutation/run")
DESK = """//! A desk.
pub struct Desk<S> {
    store: S,
}

const MOST: u32 = 5;

impl<S: Alter> Desk<S> {
    /// Whether it is full.
    pub fn is_full(&self) -> bool
        ensures { result ≡ is_full self.now }
    {
        self.count() >= MOST
    }

    fn count(&self) -> u32 { 0 }
}

impl Iterator for Desk<Memory> {
    fn next(&mut self) -> Option<u32> {
        None
    }
}

pub(crate) fn open() -> Desk<Memory> {
    todo()
}
"""
LEMMAS = "-- a lemma\npub no_more : A → B\nno_more a = b\n\nother : B\nother = c\n"
EDIT = (
    "is_never_full (gate) in desk::Desk::is_full\n# takes one more\n"
    "-self.count() >= MOST\n+self.count() > MOST"
)


def edit_of(text):
    return bodies.read_one("desk", text, "src/desk.rt")


def settled(text):
    """An edit, and why it can't be judged."""
    edit = edit_of(text)
    with written(
        src_desk_rt=DESK, proofs_Lemmas_antt=LEMMAS, specs_Desk_antt="most : ℕ\nmost = 5\n"
    ) as workdir:
        return edit, bodies.settle(edit, workdir, bodies.functions(workdir))


def test_an_edit():
    edit = edit_of(EDIT.replace("is_full\n", "is_full, desk::open\n") + "\n@ src/other.rt\n-a\n+")
    same((str(edit), edit.kind, edit.what), ("desk/is_never_full", "gate", "takes one more"))
    same(edit.refused_in, ["desk::Desk::is_full", "desk::open"])
    same(
        edit.changes,
        [("src/desk.rt", "self.count() >= MOST", "self.count() > MOST"), ("src/other.rt", "a", "")],
    )
    with refused(ValueError, "says nothing here"):
        edit_of(EDIT + "\nand so on")
    with refused(ValueError, "doesn't begin with a name"):
        edit_of("# takes one more\n" + EDIT)


def test_the_edits_of_a_crate():
    hand = EDIT.replace(" (gate)", "").replace("is_never_full", "takes_one_more")
    with written(
        mutants_edits=f"Mutants.\n\n@ src/desk.rt\n\n{EDIT}\n\n{hand}\n\n{EDIT}\n"
    ) as workdir:
        found, wrong = bodies.read("desk", workdir / "mutants.edits")
    same(
        [(it.name, it.kind, it.changes[0][0]) for it in found],
        [("is_never_full", "gate", "src/desk.rt"), ("takes_one_more", "hand", "src/desk.rt")],
    )
    same(wrong, ["desk/mutants.edits: BAD EDIT: another is called desk/is_never_full"])


def test_names_of_functions():
    with written(src_desk_rt=DESK) as workdir:
        found = bodies.functions(workdir)
    same(
        sorted(found),
        [
            "desk::Desk+Memory" + "Iterator::next",
            "desk::Desk::count",
            "desk::Desk::is_full",
            "desk::open",
        ],
    )
    place = found["desk::Desk::is_full"]
    same((place.file, place.first, place.last), ("src/desk.rt", 9, 14))


def test_names_of_types():
    for words, name in (
        (" Desk {", "Desk"),
        ("<S: Alter> Desk<S> {", "Desk"),
        (" Desk<MemStore> {", "Desk+MemStore"),
        ("<'a> Iterator for Pieces<'a> {", "PiecesIterator"),
        ("<S: Alter> contents::Handler for Desk<S> where S: Copy {", "DeskHandler"),
    ):
        same(bodies.type_of(words), name)


def test_lemmas():
    with written(proofs_Lemmas_antt=LEMMAS) as workdir:
        it = bodies.lemma(workdir, "proofs/Lemmas.antt::no_more")
        same((it.first, it.last, it.is_lemma()), (2, 3, True))
        same(bodies.lemma(workdir, "proofs/Lemmas.antt::none"), None)
        same(bodies.lemma(workdir, "proofs/None.antt::no_more"), None)


def test_where_an_edit_applies():
    edit, why = settled(EDIT)
    same(
        (why, [it.name for it in edit.places], edit.constants, edit.is_within),
        (None, ["desk::Desk::is_full"], set(), True),
    )
    edit, why = settled(
        EDIT.replace("self.count() >= MOST", "const MOST: u32 = 5;").replace(
            "self.count() > MOST", "const MOST: u32 = 6;"
        )
    )
    same((why, edit.constants, edit.is_within), (None, {"MOST"}, True))


def test_why_an_edit_cannot_be_judged():
    for text, words in (
        (EDIT.replace("# takes one more\n", ""), "no line '# what it does wrong'"),
        (EDIT.replace("-self.count() >= MOST", "-MOST"), "stands in src/desk.rt 2 times"),
        (EDIT.replace("-self.count() >= MOST", "-none of it"), "stands in src/desk.rt 0 times"),
        (
            EDIT.replace("desk::Desk::is_full", "desk::Desk::is_empty"),
            "there is no desk::Desk::is_empty",
        ),
        (EDIT.replace("more\n", "more\n@ src/desks.rt\n"), "there is no file src/desks.rt"),
        (EDIT.replace("(gate)", "(definition)"), "is marked (definition)"),
        (EDIT.replace("more\n", "more\n@ specs/Desk.antt\n"), "is marked (definition)"),
    ):
        _, why = settled(text)
        assert why and words in why, f"{words}: {why}"


def test_which_bodies_share_a_copy():
    one, _ = settled(EDIT)
    same_place, _ = settled(EDIT)
    elsewhere, _ = settled(
        EDIT.replace("desk::Desk::is_full", "desk::open").replace("self.count() >= MOST", "todo()")
    )
    constant, _ = settled(
        EDIT.replace("desk::Desk::is_full", "desk::open").replace(
            "self.count() >= MOST", "const MOST: u32 = 5;"
        )
    )
    same(
        [bodies.may_share(one, it) for it in (same_place, elsewhere, constant)],
        [False, True, False],
    )
    same([len(it) for it in bodies.copies([one, same_place, elsewhere])], [2, 1])


def test_which_bodies_are_asked_for():
    gate, hand, other = (
        bodies.Edit(crate, "one" + kind, kind)
        for crate, kind in (("desk", "gate"), ("desk", "hand"), ("other", "gate"))
    )
    asked = lambda crates, kinds, named: [
        bodies.is_asked(it, crates, kinds, named) for it in (gate, hand, other)
    ]
    same(asked([], ["gate"], []), [True, False, True])
    same(asked(["desk"], ["gate", "hand"], []), [True, True, False])
    same(asked([], ["gate"], ["desk/onehand"]), [False, True, False])
    same(asked(["other"], ["gate"], ["desk/onehand"]), [False, True, True])


def test_words_of_a_name_that_is_gone():
    for words in (
        "error: `returns`: record `Lts.After-self` has no field `run-reply` (nearest: .run)",
        "error: `returns`: record `Rattle.desk.proofs.migrating.migrate.Lts.After-from` (nearest: .in_ok-run)",
        "error: `returns`: `Lts.After-new` is not in scope",
    ):
        assert bodies.NAMES.search(words), words
    assert not bodies.NAMES.search("error: `returns`: as printed, the two types first differ")
    text = "pub returns : goal.returns\nreturns c = grind (c.in_ok-run.kept)\n"
    for words in ("record `After` has no field `in_ok-run`", "record `After` (nearest: .in_ok)"):
        same(
            bodies.carried(text, [(2, 24, words)]),
            "pub returns : goal.returns\nreturns c = grind ((search))\n",
        )


def test_the_record_of_whole_crates():
    with written(judged_txt="") as workdir:
        bodies.JUDGED, before = workdir / "judged.txt", bodies.JUDGED
        try:
            same(bodies.judged_before(), {})
            bodies.record({"rollout_model": [True, True], "sql_front": [True, False]})
            found = bodies.judged_before()
            same(sorted(found), ["rollout_model", "sql_front"])
            same(found["sql_front"][2:], ("1", "2"))
            same(found["rollout_model"][1], bodies.sum_of("rollout_model"))
            # one crate more leaves the others' lines as they are
            bodies.record({"http_wire": [True]})
            same(sorted(bodies.judged_before()), ["http_wire", "rollout_model", "sql_front"])
            same(bodies.judged_before()["sql_front"], found["sql_front"])
        finally:
            bodies.JUDGED = before


def test_at_most_four_of_a_crate_are_in_the_gate():
    edits, wrong = bodies.all_edits([], ["gate"])
    same(wrong, [])
    same({name: len(found) for name, found in edits.items() if len(found) > 4}, {})


def test_a_check_is_run_and_its_processors_are_counted():
    status, said, used = bodies.run(["sh", "-c", "echo told; echo why >&2; exit 3"], ROOT)
    same((status, said), (3, "told\nwhy\n"))
    assert 0 <= used < 5, used


def test_a_check_that_takes_too_long_is_killed():
    own, bodies.SECONDS = bodies.SECONDS, 0.2
    try:
        status, said, _ = bodies.run(["sleep", "60"], ROOT)
    finally:
        bodies.SECONDS = own
    same(status, -9)
    assert "it was killed" in said, said
