"""Tests of rows.txt as rows.py reads it, and of what it writes of a row."""
import contextlib

import sql_rows as rows
from as_module import as_module
from crate_graph import ROOT
from harness.asserting import refused, same, written

meanings = as_module(ROOT / "tools/gen/sql-proofs")
PUMPS = (
    "CREATE TABLE pump (number INTEGER PRIMARY KEY, name TEXT NOT NULL, workdir INTEGER NOT NULL, works INTEGER NOT NULL,"
    " UNIQUE (name)) STRICT"
)
CODE = """pub struct Pump {
    pub name: Text,
    pub place: Spot,
}

pub struct Spot {
    pub workdir: u32,
}

pub struct WholePump {
    pub works: bool,
    pub pump: Pump,
}
"""
SHOWS = {
    "GET_PUMP": ["name", "workdir"],
    "LIST_PUMPS": ["name", "workdir", "works"],
    "GET_ALL": ["number", "name"],
}
KINDS = """pump Pump
    number  size    -
    name    text
    workdir    size    PumpPlace
    works   flag
"""
PUMP = "    read Pump GET_PUMP workdir=place.workdir with=works\n"


@contextlib.contextmanager
def read(text):
    table = meanings.Table("CREATE_PUMP", PUMPS, {}, "the pumps")
    with written(desk__records_src_pump_rt="") as workdir:
        crate = workdir / "desk_records"
        (crate / "src").mkdir(parents=True)
        (crate / "specs").mkdir()
        (crate / "src/pump.rt").write_text(CODE, encoding="utf-8")
        yield rows.Rows(text, {"pump": table}, SHOWS, rows.Sources(workdir, ["desk_records"]))


def test_a_row_is_called_as_its_type():
    with read(KINDS + PUMP) as found:
        it = found.readings["pump"]
        same(
            (it.read, it.says, it.broken, it.shown, it.told),
            ("read_pump", "IsPumpRow", "broken_pump_column", "columns_of_pump", "shown_pump"),
        )
        same(found.variants, ["PumpName", "PumpPlace", "PumpWorks"])
        same(it.shown_columns(), ["name", "workdir", "works"])
    with read(KINDS + "    read Pump GET_PUMP workdir=place.workdir as=old_pump\n") as found:
        same(found.readings["old_pump"].says, "IsOldPumpRow")


def test_what_is_written_of_a_row():
    with read(KINDS + PUMP) as found:
        it = found.readings["pump"]
        same(
            found.fault_of(it),
            "(e ≡ RowFault.Memory) ⊎ ((c : _) × (e ≡ RowFault.Broken c)"
            " × (broken_pump_column row.now ≡ Some c))",
        )
        same(
            found.literal("Pump", ["name", "place.workdir"], 1),
            (["    let place = Spot { workdir };"], ("Pump", ["name", "place"])),
        )
        same(
            found.breaks_of(found.tables["pump"]),
            ["HasNoKey row", "BreaksRule (broken_pump_column (columns_of_pump row))"],
        )
        lines = found.specs().splitlines()
        for line in (
            "  pub name : column row 0 ≡ Text x.name",
            "  pub workdir : column row 1 ≡ Int (pos x.place.workdir)",
            "columns_of_pump row = column row 2 ∷ column row 3 ∷ column row 4 ∷ []",
        ):
            assert line in lines, line
        written = "shown_pump x = Text x.name ∷ Int (pos x.place.workdir) ∷ []"
        assert written in found.written().splitlines()


def test_own_columns_are_told_before_those_of_another_row():
    with read(KINDS + PUMP + "    read WholePump LIST_PUMPS behind=pump\n") as found:
        it = found.readings["whole_pump"]
        same((it.inner, it.first, [p.name for p in it.parts]), ("pump", 2, ["works"]))
        assert (
            "broken_whole_pump_column row = option_or (first_broken ((is_some (flag_in (column row 2)), rule.PumpWorks)"
            " ∷ [])) (broken_pump_column row)"
        ) in found.specs().splitlines()


def test_lemmas_are_written_where_they_are_asked_for():
    for words, wanted in (
        ("", ["one_pump"]),
        (" same", ["one_pump", "same_pump"]),
        (" whole", ["one_pump", "whole_pump"]),
    ):
        with read(KINDS + PUMP.rstrip("\n") + words + "\n") as found:
            lemmas = [
                line.split()[1] for line in found.proofs().splitlines() if line.startswith("pub ")
            ]
            same(lemmas, wanted)


def test_what_has_no_row():
    for text, words in (
        (
            KINDS.replace("    workdir    size    PumpPlace\n", ""),
            "doesn't say the columns of pump",
        ),
        (
            KINDS.replace("flag", "lever") + "    read WholePump LIST_PUMPS\n",
            "no kind is said of pump.works",
        ),
        (KINDS + "    read Pump GET_PUMP works=place\n", "shows no column works"),
        (KINDS + "    read Pump GET_PIPE\n", "there is no SELECT GET_PIPE"),
        (KINDS + "    read Pipe GET_PUMP behind=tank\n", "there is no row tank"),
        (
            KINDS + PUMP + "    read WholePump GET_ALL behind=pump\n",
            "doesn't show the columns of pump first",
        ),
        ("tank Tank\n", "there is no table tank"),
    ):
        with refused(rows.BadRows, words), read(text):
            pass
    with read(KINDS + "    read Pump GET_PUMP\n") as found, refused(
        rows.BadRows, "has other fields than"
    ):
        found.source()
