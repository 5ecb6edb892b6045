"""Tests of tools/lint/promises: what its head says of the rows of docs/PROVED.md and docs/proved/*.md."""
from pathlib import Path

from as_module import as_module
from harness.asserting import same

PROMISES = as_module(Path(__file__).resolve().parents[2] / "tools/lint/promises")
SOURCES = PROMISES.Sources()
GAPS = {"disk"}


def wrong(clause, mutant="none", gaps="", crate="stream_server"):
    return list(PROMISES.wrong_in(crate, ["a promise", clause, mutant, gaps], SOURCES, GAPS))


def test_a_row_that_is_so():
    same(wrong("`serve.headline` (`Headline.crash`)", "`serves_twice`", "disk"), [])


def test_a_clause_that_the_function_lacks():
    same(wrong("`serve.footline`"), ["serve of stream_server has no clause footline"])


def test_a_function_that_isnt_there():
    same(wrong("`serve_all.headline`"), ["stream_server has 0 functions serve_all with clauses"])


def test_a_clause_without_a_name():
    same(wrong("`carry_out`", crate="desk_server"), [])
    same(wrong("`serve`"), ["serve of stream_server has no clause without a name"])


def test_a_clause_behind_a_borrow():
    same(wrong("`http_wire::Inbox::next.after_borrow`"), [])


def test_a_later_clause_is_of_the_crate_before_it():
    same(wrong("`http_wire::Inbox::feed.ok`, `Inbox::new`"), [])


def test_a_definition_or_a_field_that_isnt_there():
    same(wrong("`serve.headline` (`Footline`)"), ["no specs define Footline"])
    same(wrong("`serve.headline` (`Headline.foot`)"), ["Headline has no field foot"])


def test_a_mutant_that_isnt_there():
    same(
        wrong("`serve.headline`", "`serves_thrice`"),
        ["no mutant is called stream_server/serves_thrice"],
    )


def test_a_mutant_that_aims_elsewhere():
    same(
        wrong("`serve.headline`", "`asks_a_stopped_desk`"),
        ["stream_server/asks_a_stopped_desk aims at answer::ask, and at no function of the row"],
    )
    same(wrong("`serve.headline`, `ask.stopped`", "`asks_a_stopped_desk`"), [])


def test_a_mutant_of_what_implements_a_trait():
    clause = "`request_handler::Handler::handle.bound`"
    same(wrong(clause, "`rollout_desk/handle_runs_more`"), [])
    same(len(wrong(clause, "`rollout_desk/answer_runs_more`")), 1)


def test_an_edit_of_a_definition_stands_beside_a_law_that_rests_on_it():
    mutant = "`rollout_machine/download_while_canceling`"
    same(wrong("`rollout_machine::offers.downloads_are_offered`", mutant), [])
    same(len(wrong("`rollout_machine::lists.lists_rise_in_order`", mutant)), 1)


def test_a_law_may_have_a_body():
    edit = "`rollout_desk/over_any_file`"
    same(wrong("`rollout_desk::goes_on_after_crash.before`", edit), [])
    same(len(wrong("`rollout_desk::Desk::apply.counts`", edit)), 1)


def test_no_mutant_has_to_be_said():
    same(wrong("`serve.headline`", ""), ["it names no mutant, and doesn't say none"])


def test_a_gap_that_isnt_there():
    same(wrong("`serve.headline`", gaps="disk, tape"), ["no gap is called tape"])


def test_only_tables_of_promises_have_rows():
    page = "| A | B |\n|---|---|\n| a | b |\n\n| Promise | Clause of `c` | Mutant | Gaps |\n|---|---|---|---|\n| a | `f` | none | |\n"
    same(list(PROMISES.rows(page)), [(7, "c", ["a", "`f`", "none", ""])])


def test_the_pages_of_the_parts_are_read_too():
    same({it.name for it in PROMISES.PAGES} >= {"PROVED.md", "DESK.md", "STORE.md"}, True)
    same({it for it, *_ in PROMISES.all_rows(PROMISES.PAGES)}, set(PROMISES.PAGES))
