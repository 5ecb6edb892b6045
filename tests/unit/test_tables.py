"""Tests of the tables that tools/gen/sql-proofs reads of CREATE texts, and of what tables.py writes of them."""
import sql_tables as tables
from as_module import as_module
from crate_graph import ROOT
from harness.asserting import refused, same

meanings = as_module(ROOT / "tools/gen/sql-proofs")
TEXT = (
    "CREATE TABLE pump (number INTEGER PRIMARY KEY, name TEXT NOT NULL, digest BLOB, workdir INTEGER NOT NULL,"
    " UNIQUE (name, workdir), UNIQUE (number, digest)) STRICT"
)


def table(text, **names):
    return meanings.Table("CREATE_PUMP", text, names, "the pumps")


def test_columns_and_keys():
    it = table(TEXT)
    same((it.name, it.word, it.at, it.key), ("pump", "pump_table", "Pumps", "number"))
    same(
        it.described,
        [
            ("number", "INTEGER", False),
            ("name", "TEXT", True),
            ("digest", "BLOB", False),
            ("workdir", "INTEGER", True),
        ],
    )
    # the columns of keys count from 1, and the row's own key is 0
    same((it.primary, it.uniques), ([0], [[2, 4], [0, 3]]))


def test_keys_of_a_column_and_of_several():
    it = table(
        "CREATE TABLE pump (id TEXT NOT NULL UNIQUE, part INTEGER NOT NULL, PRIMARY KEY (id, part)) STRICT"
    )
    same((it.key, it.primary, it.uniques), (None, [1, 2], [[1], [1, 2]]))
    same(table("CREATE TABLE pump (id TEXT NOT NULL PRIMARY KEY) STRICT").primary, [1])


def test_names_that_are_given():
    it = table(
        "CREATE TABLE set_pump (id TEXT NOT NULL) STRICT", table="set_pump_table", place="SetPumps"
    )
    same((it.word, it.at), ("set_pump_table", "SetPumps"))
    same(
        table("CREATE TABLE pump (id TEXT NOT NULL) STRICT", table="set_pump_table").at, "SetPumps"
    )


def test_what_has_no_form():
    for text, words in (
        ("CREATE TABLE pump (id TEXT NOT NULL)", "no table is read"),
        ("CREATE TABLE pump (id REAL NOT NULL) STRICT", "no form for the column id"),
        ("CREATE TABLE pump (id TEXT NOT NULL DEFAULT 'a') STRICT", "no form for the column id"),
        ("CREATE TABLE pump (id TEXT NOT NULL, UNIQUE (other)) STRICT", "no column other in pump"),
    ):
        with refused(meanings.NoForm, words):
            table(text)


def test_what_is_written_of_a_table():
    written = tables.definition(
        table(
            "CREATE TABLE pump (number INTEGER PRIMARY KEY, name TEXT NOT NULL, "
            "UNIQUE (name)) STRICT"
        )
    )
    same(
        written,
        [
            "-- the pumps",
            "abbrev pub pump_table : ℕ → Table",
            'pump_table tree = table_of (codes "pump") tree',
            '    (strict (codes "number") Integer false',
            '    ∷ strict (codes "name") Text true',
            "    ∷ []) (Some 0) (0 ∷ []) ((2 ∷ []) ∷ []) (plain ∷ [])",
            "",
        ],
    )


def test_lists_on_as_many_lines_as_they_need():
    same(tables.listed(["1", "2"]), "1 ∷ 2 ∷ []")
    same(tables.cons("places =", ["One", "Two"]), ["places = One ∷ Two ∷ []"])
    same(tables.filled("a", ["bb", "cc"], 5), ["a bb", "    cc"])
    lines = tables.used("Rattle.x", [f"word{it}" for it in range(40)]).split("\n")
    assert len(lines) > 1 and all(
        len(it) <= 150 and it.startswith("use Rattle.x.{") and it.endswith("}") for it in lines
    ), lines
    same(
        [word for it in lines for word in it.removeprefix("use Rattle.x.{")[:-1].split(", ")],
        [f"word{it}" for it in range(40)],
    )


def test_each_table_stands_in_each_list():
    both = [
        table("CREATE TABLE pump (id TEXT NOT NULL) STRICT"),
        meanings.Table("CREATE_FAN", "CREATE TABLE fan (id TEXT NOT NULL) STRICT", {}, "the fans"),
    ]
    for path, text in tables.files(ROOT, both).items():
        assert text.index("Pumps") < text.rindex("Fans"), path
