"""What tools/gen/sql-proofs writes of the tables of a desk: that they are tables, one after the other,
and what each text makes.

Each function takes the tables in the order in which they are made, and gives the text of a file. What is written is
judged by the prover: a table that isn't what SQLite's compiler makes of its text is refused, and so is a list that
leaves one out.
"""
import re

WRITTEN = (
    "Written by tools/gen/sql-proofs from src/table_texts.rt of desk_records. What it makes is proved; "
    "the tool is not trusted."
)
DESK = "Rattle.desk_records"
OPENING = "Rattle.desk_opening"
KINDS = {"INTEGER": "Integer", "TEXT": "Text", "BLOB": "Blob"}


def snake(name):
    return re.sub(r"(?<!^)(?=[A-Z])", "_", name).lower()


def listed(items):
    return " ∷ ".join([*items, "[]"])


def filled(head, items, width, indent="    ", between=" "):
    """The items behind the head, on as many lines as they need."""
    lines = [head]
    for item in items:
        if len(lines[-1]) + len(between) + len(item) > width:
            lines.append(indent + item)
        else:
            lines[-1] += (between if lines[-1].strip() else "") + item
    return lines


def cons(head, items, width=140):
    """A list behind the head, where a line that is left over begins with ∷."""
    first, *more = [*items, "[]"]
    return filled(f"{head} {first}", [f"∷ {item}" for item in more], width)


def used(place, words):
    """An import, on as many lines as it needs."""
    lines = [[]]
    for word in words:
        if lines[-1] and len(f"use {place}.{{{', '.join([*lines[-1], word])}}}") > 150:
            lines.append([])
        lines[-1].append(word)
    return "\n".join(f"use {place}.{{{', '.join(line)}}}" for line in lines)


def columns_of(table):
    return [
        f'strict (codes "{c.name}") {KINDS[c.kind]} {"true" if c.is_given else "false"}'
        for c in table.described
    ]


def definition(table):
    """A column to a line, and then the key."""
    columns = [*columns_of(table), "[]"]
    key = f"(Some {table.columns.index(table.key)})" if table.key else "None"
    uniques = [f"({listed(map(str, u))})" for u in table.uniques]

    def bracketed(items):
        return f"({listed(items)})" if items else "[]"

    return [
        f"-- {table.comment}",
        f"abbrev pub {table.word} : ℕ → Table",
        f'{table.word} tree = table_of (codes "{table.name}") tree',
        f"    ({columns[0]}",
        *(f"    ∷ {c}" for c in columns[1:-1]),
        f"    ∷ []) {key} {bracketed(map(str, table.primary)) if table.primary else '[]'} {bracketed(uniques)} "
        f"{bracketed(['plain'] * len(uniques))}",
        "",
    ]


def schema(tables):
    places = [t.at for t in tables]
    return "\n".join(
        [
            f"-- {WRITTEN}",
            "-- The tables of a desk, and their places in the order in which they are made.",
            used(
                "Rattle.std.specs.Prelude", "true false [] ◌∷◌ Some None codes List ℕ map".split()
            ),
            used("Rattle.sqlite_value.specs.Keys", ["plain"]),
            used("Rattle.sqlite.specs.Table", ["Table"]),
            used("Rattle.sqlite.specs.Kind.TheVariants", KINDS.values()),
            used("Rattle.sql_calls.specs.Tables", ["strict", "table_of"]),
            "",
            *(line for t in tables for line in definition(t)),
            "pub data Place : Type 0 where",
            *(f"  {p} : Place" for p in places),
            "",
            "-- all of them, in the order in which they are made",
            "abbrev pub places : List Place",
            *cons("places =", places),
            "",
            "abbrev pub table_by : Place → Table",
            *(f"table_by {t.at} = {t.word} 0" for t in tables),
            "",
            "-- the table, with its rows in a tree",
            "abbrev pub table_at : Place → ℕ → Table",
            "table_at t tree = record (table_by t) { tree = tree }",
            "",
            "abbrev pub name_of : Place → List ℕ",
            "name_of t = (table_by t).name",
            "",
            "-- the names of the schema",
            "abbrev pub desk_names : List (List ℕ)",
            "desk_names = map name_of places",
            "",
        ]
    )


def table_texts(tables):
    return "\n".join(
        [
            f"-- {WRITTEN}",
            "-- The text that makes each table.",
            used("Rattle.std.specs.Prelude", ["ℕ", "List"]),
            used(f"{DESK}.specs.Schema", ["Place", *(t.at for t in tables)]),
            used(f"{DESK}.specs.declared.table_texts.TheConstants", [t.constant for t in tables]),
            "",
            "abbrev pub create_text_of : Place → List ℕ",
            *(f"create_text_of {t.at} = {t.constant}.now" for t in tables),
            "",
        ]
    )


def table_meaning(tables):
    made = (
        "record { parsed = _; made = _; read = refl; statement = refl; named = refl; unreserved = refl; "
        "defined = refl; whole = refl }"
    )
    return "\n".join(
        [
            f"-- {WRITTEN}",
            "-- Each text makes its table.",
            used("Rattle.std.proofs.Common", ["refl"]),
            used("Rattle.sqlite_tied.specs.Compute", ["everything"]),
            used("Rattle.sqlite_resolve.specs.Compile", ["first", "is_reserved"]),
            used("Rattle.sql_front.proofs.Write", ["Makes"]),
            used(f"{DESK}.specs.Schema", ["Place", *(t.at for t in tables), "name_of", "table_at"]),
            used(f"{DESK}.specs.TableTexts", ["create_text_of"]),
            "",
            "pub creates : (t : Place) → Makes (create_text_of t) (name_of t) (table_at t 0)",
            "unfolding first is_reserved everything",
            *(f"creates {t.at} = {made}" for t in tables),
            "",
        ]
    )


def each_place(tables):
    return "\n".join(
        [
            f"-- {WRITTEN}",
            "-- The places of the schema, one by one.",
            used("Rattle.std.specs.List", ["AllByRecursion"]),
            used(f"{DESK}.specs.Schema", ["Place", *(t.at for t in tables), "places"]),
            "",
            "-- what holds of all places in the list holds of each place",
            "abbrev pub each_place : (P : Place → Type 0) → AllByRecursion P places → (t : Place) → P t",
            *(f"each_place P all {t.at} = all.{'1.' * k}0" for k, t in enumerate(tables)),
            "",
            "-- .. where it is said of one after the other",
            *by_place([t.at for t in tables]),
            "",
        ]
    )


def by_place(places):
    """What is said of each place, as arguments in their order."""
    given = [f"({snake(at)} : P {at})" for at in places]
    said = "".join(f"({snake(at)}, " for at in places)
    return [
        *filled("module _ (P : Place → Type 0)", [*given, "where"], 150),
        "  abbrev pub by_place : (t : Place) → P t",
        f"  by_place = each_place P {said}tt{')' * len(places)}",
    ]


def desk_table(tables):
    imports = [f"{t.constant}," for t in sorted(tables, key=lambda t: t.constant)]
    first, *more = imports
    return "\n".join(
        [
            f"//! {WRITTEN}",
            "//! The tables of a desk.",
            "",
            "ghost use Rattle.std.specs.Prelude.{◌≡◌};",
            f"ghost use {DESK}.specs.Schema.{{name_of}};",
            f"ghost use {DESK}.specs.TableTexts.{{create_text_of}};",
            f"ghost use {OPENING}.specs.Places.{{place_of}};",
            "",
            "use desk_records::{",
            *filled(f"    {first}", more, 99),
            "};",
            "",
            "/// A table of a desk.",
            "#[derive(Clone, Copy)]",
            "pub(crate) enum DeskTable {",
            *(f"    {t.at}," for t in tables),
            "}",
            "",
            "/// All of them, in the order in which they are made.",
            f"pub(crate) const TABLES: [DeskTable; {len(tables)}] = [",
            *(f"    DeskTable::{t.at}," for t in tables),
            "];",
            "",
            "impl DeskTable {",
            "    /// Its name in the schema.",
            "    pub(crate) fn name(self) -> &'static str",
            "        ensures { result.now ≡ name_of (place_of self) }",
            "    {",
            "        match self {",
            *(f'            DeskTable::{t.at} => "{t.name}",' for t in tables),
            "        }",
            "    }",
            "",
            "    /// The text that makes it.",
            "    pub(crate) fn create_text(self) -> &'static str",
            "        ensures { result.now ≡ create_text_of (place_of self) }",
            "    {",
            "        match self {",
            *(f"            DeskTable::{t.at} => {t.constant}," for t in tables),
            "        }",
            "    }",
            "}",
            "",
        ]
    )


def opening_places(tables):
    return "\n".join(
        [
            f"-- {WRITTEN}",
            "-- The tables of a desk as the code names them.",
            used(f"{DESK}.specs.Schema", ["Place", *(t.at for t in tables)]),
            used(f"{OPENING}.specs.declared.desk_table.DeskTable", ["DeskTable"]),
            f"use {OPENING}.specs.declared.desk_table.DeskTable.TheVariants as table",
            "",
            "abbrev pub place_of : DeskTable → Place",
            *(f"place_of table.{t.at} = {t.at}" for t in tables),
            "",
        ]
    )


def each_text(tables):
    def nulls(count):
        return f"(refl, {nulls(count - 1)})" if count else "tt"

    def is_place(t):
        given = (
            f"makes = creates {t.at}; whole = refl; defined = refl; "
            f"bare = bare_of {nulls(len(t.columns))}"
        )
        return (
            f"is_place {t.at} = record {{ {given}; unindexed = λ rest. refl; unsequenced = refl }}"
        )

    return "\n".join(
        [
            f"-- {WRITTEN}",
            "-- What is known of each table by computing its text.",
            used("Rattle.std.proofs.Common", ["refl"]),
            used("Rattle.sqlite_tied.specs.Compute", ["everything"]),
            used("Rattle.sqlite_schema.specs.Names", ["same_name"]),
            used("Rattle.sqlite_resolve.specs.Compile", ["table_defined_by", "first", "table_in"]),
            used(f"{DESK}.specs.Schema", ["Place", *(t.at for t in tables)]),
            used(f"{DESK}.proofs.TableMeaning", ["creates"]),
            used(f"{OPENING}.proofs.IsPlace", ["IsPlace", "bare_of"]),
            "",
            "pub is_place : (t : Place) → IsPlace t",
            "unfolding first table_defined_by table_in same_name everything",
            *map(is_place, tables),
            "",
        ]
    )


def files(crates, tables):
    """Each file that is a list of the tables, by its path."""
    records, opening = crates / "desk_records", crates / "desk_opening"
    return {
        records / "specs" / "Schema.antt": schema(tables),
        records / "specs" / "TableTexts.antt": table_texts(tables),
        records / "proofs" / "EachPlace.antt": each_place(tables),
        records / "proofs" / "TableMeaning.antt": table_meaning(tables),
        opening / "src" / "desk_table.rt": desk_table(tables),
        opening / "specs" / "Places.antt": opening_places(tables),
        opening / "proofs" / "EachText.antt": each_text(tables),
    }
