"""Tests of tools/lint/headless: what its head says of sentences that begin without their actor."""
from pathlib import Path

from as_module import as_module
from harness.asserting import same

HEADLESS = as_module(Path(__file__).resolve().parents[2] / "tools/lint/headless")


def found(text):
    return [sentence for _, sentence in HEADLESS.headless(text)]


def test_a_sentence_that_waits_for_its_actor_is_found():
    same(
        found(
            "The server stops. What comes on top is dropped.\n\n- Where a part is\n  missing, ask.\n"
        ),
        ["What comes on top is dropped.", "Where a part is missing, ask."],
    )


def test_an_opening_sign_doesnt_hide_it():
    same(
        found('"Of these two are left." **Whoever asks** is told.\n'),
        ['"Of these two are left."', "**Whoever asks** is told."],
    )


def test_code_in_backticks_is_no_sentence():
    same(found("The page of `a. What b` is long. `Where. It` is code.\n"), [])


def test_questions_headings_and_bold_passages_begin_as_they_like():
    same(
        found("# What is proved\n\nWhat is a desk? **Who does what.** The actor comes first.\n"), []
    )


def test_the_first_row_of_a_table_begins_as_it_likes_and_no_other():
    same(
        found("| What | Where |\n|---|---|\n| what it is | Of both one |\n| Whatever | b |\n"),
        ["Of both one", "Whatever"],
    )


def test_blocks_of_code_arent_read():
    same(found("It prints:\n\n    What is this\n\n```\nWhere is it\n```\n"), [])


def test_texts_of_programs_and_manual_pages_are_read_and_labels_arent():
    """A label ends without a stop, and what a module says of itself is for its developers."""
    of = lambda name, text: [it for _, it in HEADLESS.headless_of(name, text)]
    same(of("fwdesk.8", ".TP\n.I held.map\nWhat is held.\n.B Where\n"), ["What is held."])
    shown = 'const A = { a: "What to do", b: "It is done. Who asks is told." };\n'
    same(of("en.js", shown), ["Who asks is told."])
    same(
        of("a.py", '"""What it is."""\nprint(f"Of {1} this.", "Who", "What is new goes.")\n'),
        ["What is new goes."],
    )
