"""What tools/gen/sql-proofs writes of the rows of a desk: how each is read, what it says, which column breaks its rule, and
that it says one thing alone.

rows.txt of desk_records says the kind of each column and which rows are read; the texts say which columns a row shows,
and the structs of the code where a field stands. What is written is judged by the prover, as all that tools/gen/sql-proofs
makes.
"""
import collections
import re

from sql_tables import DESK, cons, filled, snake, used

WRITTEN = "Written by tools/gen/sql-proofs from rows.txt of desk_records. What it makes is proved; the tool is not trusted."
STORE = "Rattle.desk_store"

# How a column is read (of the row, at a place, and told as this variant of `Column`), what it says of a field, that it
# keeps its rule, what breaks it, what is written of a field, the lemma that both are one where it stands for something,
# and whether a read takes memory.
Kind = collections.namedtuple("Kind", "reads says keeps breaks tells same memory")


def coded(reads, meant, same, code="pos %s"):
    """A number that stands for something."""
    return Kind(
        f"{reads}(row, %d).ok_or(RowFault::Broken(Column::%s))?",
        f"{meant} (%s) ≡ Some %s",
        f"is_some ({meant} (%s))",
        f"{meant} (%s) ≡ None",
        f"Int ({code})",
        same,
        False,
    )


def kept(reads, made, keeps, memory=False):
    """A value that is there as it is written."""
    alloc = "alloc, " if memory else ""
    return Kind(
        f"{reads}({alloc}row, %d, Column::%s)?",
        f"%s ≡ {made}",
        f"{keeps} (%s)",
        f"{keeps} (%s) ≡ false",
        made,
        "",
        memory,
    )


KINDS = {
    "number": coded("numbered_at", "number_in", "kept_number"),
    "place": coded("place_at", "place_in", "kept_place"),
    "feedback_number": coded("feedback_number_at", "feedback_number_in", "kept_number"),
    "group_count": coded("group_count_at", "group_count_in", "kept_number"),
    "percentage": coded("percentage_at", "percentage_in", "kept_number"),
    "percentage_or_none": coded(
        "percentage_or_none_at", "percentage_or_none_in", "kept_percentage_or_none"
    )._replace(tells="or_null (λ n. Int (pos n)) %s"),
    "flag": coded("flag_at", "flag_in", "kept_flag", "pos (flag %s)"),
    "approval": coded("approval_at", "approval_in", "kept_approval", "pos (approval_code %s)"),
    "outcome": coded("outcome_at", "outcome_in", "kept_outcome", "pos (outcome_code %s)"),
    "size": kept("size_at", "Int (pos %s)", "has_size"),
    "own_number": kept("own_number_at", "Int (pos %s)", "has_number"),
    "text": kept("text_at", "Text %s", "has_text", True),
    "value": kept("value_at", "Text %s", "has_value", True),
    "filter": kept("filter_at", "Text %s", "has_filter", True),
    "id": kept("id_at", "Text %s", "has_word"),
    "word": kept("word_at", "Text %s", "has_word"),
    "filename": kept("filename_at", "Text %s", "has_filename"),
    "digest": kept("digest_at", "Blob %s", "has_digest"),
    # no row is read of such a column: what breaks it is all that is asked
    "bytes": kept("", "Blob %s", "has_bytes"),
}

# a column of a reading; its name is the last of the field's
Part = collections.namedtuple("Part", "name kind variant field")
# what is proved of a row where rows.txt asks for it
LEMMAS = {"same", "whole"}


def wrapped(line, width=160):
    """The line on as many as it needs: broken before arrows, else once before a sum or behind an equals sign."""
    if len(line) <= width:
        return [line]
    if " → " in line:
        first, *more = line.split(" → ")
        return filled(first, [f"→ {it}" for it in more], width)
    first, mark, rest = line.partition(" ⊎ " if " ⊎ " in line else " = ")
    return [first, f"    ⊎ {rest}"] if mark == " ⊎ " else [f"{first} =", f"    {rest}"]


class BadRows(Exception):
    """What rows.txt can't say."""


def camel(name):
    return name.title().replace("_", "")


def found(what, name, known):
    """The one of this name among those that are known."""
    if name not in known:
        raise BadRows(f"there is no {what} {name}")
    return known[name]


class Sources:
    """Where the crates below and this one have their types, functions and definitions."""

    def __init__(self, crates, below):
        self.types, self.functions, self.words = {}, {}, {}
        for crate in below:
            for path in sorted((crates / crate / "src").rglob("*.rt")):
                text, module = path.read_text(), ".".join(
                    path.relative_to(crates / crate / "src").with_suffix("").parts
                )
                for name, body in re.findall(r"pub struct (\w+) \{\n(.*?)\n\}", text, re.S):
                    self.types[name] = (
                        crate,
                        module,
                        dict(re.findall(r"^    pub (\w+): (\w+)", body, re.M)),
                    )
                if crate == "desk_records":
                    self.functions |= {name: module for name in re.findall(r"fn (\w+)[(<]", text)}
        for crate in ("rollout_model", "desk_records"):
            specs = crates / crate / "specs"
            for path in sorted(specs.rglob("*.antt")):
                if path.stem == "ReadRows":
                    continue
                module = ".".join(path.relative_to(specs).with_suffix("").parts)
                for name in re.findall(
                    r"^(?:abbrev pub|pub record|pub data) ([\w']+)", path.read_text(), re.M
                ):
                    self.words[name] = f"Rattle.{crate}.specs.{module}"

    def type_of(self, name):
        return found("struct", name, self.types)

    def declared(self, name):
        crate, module, _ = self.type_of(name)
        return f"Rattle.{crate}.specs.declared.{module}.{name}"


class Reading:
    def __init__(self, made, text, table, lemmas, options):
        self.made, self.text, self.table, self.lemmas = made, text, table, lemmas
        self.word = word = options.pop("as", None) or snake(made)
        self.read, self.says, self.broken = (
            f"read_{word}",
            f"Is{camel(word)}Row",
            f"broken_{word}_column",
        )
        self.shown, self.told, self.one = f"columns_of_{word}", f"shown_{word}", f"one_{word}"
        self.also = [it for it in [options.pop("with", None)] if it]
        self.behind = options.pop("behind", None)
        self.fields = options
        self.parts = []

    def settle(self, columns, readings, sources):
        """Its columns, as the text shows them, and those that another reading reads."""
        for name in self.fields:
            if name not in columns:
                raise BadRows(f"{self.word}: {self.text} shows no column {name}")
        self.columns = columns
        if self.behind:
            self.behind = found("row", self.behind, readings)
            if columns[: len(self.behind.columns)] != self.behind.columns:
                raise BadRows(
                    f"{self.word}: {self.text} doesn't show the columns of {self.behind.word} first"
                )
            fields = sources.type_of(self.made)[2]
            self.inner = next((f for f, t in fields.items() if t == self.behind.made), None)
            if not self.inner:
                raise BadRows(f"{self.made} has no field of the type {self.behind.made}")
        first = len(self.behind.columns) if self.behind else 0
        for column in columns[first:]:
            kind, variant = self.table.kinds.get(column, (None, None))
            if kind not in KINDS:
                raise BadRows(f"{self.word}: no kind is said of {self.table.name}.{column}")
            field = self.fields.get(column, column)
            self.parts.append(Part(field.split(".")[-1], KINDS[kind], variant, field))
        self.first = first
        self.memory = any(p.kind.memory for p in self.parts) or bool(
            self.behind and self.behind.memory
        )

    def shown_columns(self):
        """The columns of the table's row that are shown, in their order, with those that another text shows behind."""
        return [*self.columns, *self.also]

    def all_parts(self, before="", said=""):
        """Each part, its field and what the row says of it, those of the reading behind too."""
        inner = (
            self.behind.all_parts(f"{before}{self.inner}.", f"{said}{self.inner}.")
            if self.behind
            else []
        )
        return inner + [(p, before + p.field, said + p.name) for p in self.parts]


class Rows:
    def __init__(self, text, tables, shows, sources):
        self.sources, self.readings, self.variants, self.breaks = sources, {}, [], {}
        self.tables = tables
        table = None
        for line in text.splitlines():
            if not line or line.startswith("#"):
                continue
            first, *rest = line.split()
            if not line.startswith(" "):
                table = found("table", first, tables)
                table.kinds, table.title = {}, rest[0]
            elif first == "read":
                made, constant, *options = rest
                lemmas = LEMMAS.intersection(options)
                named = dict(o.split("=") for o in options if o not in lemmas)
                reading = Reading(made, constant, table, lemmas, named)
                self.readings[reading.word] = reading
            elif first == "breaks":
                self.breaks[table.name] = line.split(None, 1)[1]
            else:
                kind, variant = rest[0], rest[1] if rest[1:] else table.title + camel(first)
                variant = None if variant == "-" or kind == "-" and not rest[1:] else variant
                table.kinds[first] = kind, variant
                if variant and variant not in self.variants:
                    self.variants.append(variant)
        for table in tables.values():
            if list(getattr(table, "kinds", ())) != table.columns:
                raise BadRows(f"rows.txt doesn't say the columns of {table.name} in their order")
        for reading in self.readings.values():
            reading.settle(found("SELECT", reading.text, shows), self.readings, sources)
            sources.words |= dict.fromkeys(
                (reading.says, reading.broken, reading.shown), f"{DESK}.specs.ReadRows"
            )
            sources.words[reading.told] = f"{DESK}.proofs.WrittenRows"

    # ---- what is written

    def imports(self, body, given):
        """The imports of the words that the text has."""
        places = collections.defaultdict(list)
        for place, words in given:
            for word in words.split():
                bare = word.strip("◌")
                if (
                    re.search(rf"(?<![\w.]){re.escape(bare)}(?![\w])", body)
                    if bare[0].isalpha()
                    else bare in body
                ):
                    places[place].append(word)
        return [used(place, words) for place, words in places.items()]

    def known(self, body, without=(), also=()):
        """The definitions of this crate and the one of rules that the text names, and of ReadRows also these."""
        of = collections.defaultdict(list)
        words = self.sources.words | dict.fromkeys(also, f"{DESK}.specs.ReadRows")
        for word in sorted(
            set(re.findall(r"(?<![\w.])[A-Za-z]\w*", re.sub(r"(?m)^--.*", "", body)))
        ):
            place = words.get(word)
            if place and place.split(".")[-1] not in without:
                of[place].append(word)
        return [used(place, words) for place, words in sorted(of.items())]

    def types_in(self):
        return [
            used(self.sources.declared(t), [t])
            for t in dict.fromkeys(r.made for r in self.readings.values())
        ]

    def columns_file(self):
        return "\n".join(
            [
                f"//! {WRITTEN}",
                "//! The columns of the tables.",
                "",
                "/// A column that has a rule.",
                "#[derive(Clone, Copy)]",
                "pub enum Column {",
                *(f"    {v}," for v in self.variants),
                "}",
                "",
            ]
        )

    def specs(self):
        says, breaks, shows = [], [], []
        for r in self.readings.values():
            fields = [f"  pub {r.inner} : {r.behind.says} row x.{r.inner}"] if r.behind else []
            fields += [
                f"  pub {p.name} : {p.kind.says % (f'column row {k}', f'x.{p.field}')}"
                for k, p in enumerate(r.parts, r.first)
            ]
            says += [
                f"-- the row of {', '.join(r.columns)} of {r.table.name}",
                f"pub record {r.says} (row : Row) (x : {r.made}) : Type 0 where",
                *fields,
                "",
            ]
            tests = [
                f"({p.kind.keeps % f'column row {k}'}, rule.{p.variant})"
                for k, p in enumerate(r.parts, r.first)
            ]
            opens, shuts = (
                ("option_or (first_broken (", f")) ({r.behind.broken} row)")
                if r.behind
                else ("first_broken (", ")")
            )
            first, *more = tests
            broken = filled(
                f"{r.broken} row = {opens}{first}", [f"∷ {t}" for t in [*more, "[]"]], 145
            )
            breaks += [
                f"abbrev pub {r.broken} : Row → Option Column",
                *broken[:-1],
                broken[-1] + shuts,
                "",
            ]
            at = [f"column row {r.table.place(c)}" for c in r.shown_columns()]
            shows += [f"abbrev pub {r.shown} : Row → Row", *cons(f"{r.shown} row =", at, 150), ""]
        body = "\n".join(
            [
                *says,
                "-- ---- the first column of each that breaks its rule",
                "",
                *breaks,
                "-- ---- what each tells of the table's row",
                "",
                *shows,
            ]
        )
        given = [
            ("Rattle.std.specs.Prelude", "◌≡◌ List [] ◌∷◌ Option Some None pos"),
            ("Rattle.std.specs.Option", "is_some option_or"),
            ("Rattle.sqlite_value.specs.declared.value.Value.TheVariants", "Int Text Blob"),
            ("Rattle.sqlite_value.specs.Order", "Row column"),
            ("Rattle.sqlite.specs.Values", "or_null"),
        ]
        head = [
            f"-- {WRITTEN}",
            "-- The rows that are read: what each says, and which column breaks its rule.",
            *self.imports(body, given),
            *self.known(body, without=("ReadRows",)),
            *(f"pub {it}" for it in self.types_in()),
            used(f"{DESK}.specs.declared.table_columns.Column", ["Column"]),
            f"use {DESK}.specs.declared.table_columns.Column.TheVariants as rule",
            "",
        ]
        return "\n".join(head) + "\n" + body

    def written(self):
        lines = []
        for r in self.readings.values():
            told = [p.kind.tells % f"x.{f}" for p, f, _ in r.all_parts()]
            lines += [
                f"abbrev pub {r.told} : {r.made} → Row",
                *cons(f"{r.told} x =", told, 150),
                "",
            ]
        body = "\n".join(lines)
        given = [
            ("Rattle.std.specs.Prelude", "[] ◌∷◌ pos"),
            ("Rattle.sqlite_value.specs.declared.value.Value.TheVariants", "Int Text Blob"),
            ("Rattle.sqlite_value.specs.Order", "Row"),
            ("Rattle.sqlite.specs.Values", "or_null"),
        ]
        return "\n".join(
            [
                f"-- {WRITTEN}",
                "-- The rows that are read, as they are written.",
                *self.imports(body, given),
                *self.known(
                    body, without=("WrittenRows",), also=[r.made for r in self.readings.values()]
                ),
                "",
                body,
            ]
        )

    def literal(self, made, fields, indent):
        """A struct of fields that stand in variables of their names, with the structs in it made before."""
        own, inner = [], {}
        for path in fields:
            first, _, rest = path.partition(".")
            if rest:
                inner.setdefault(first, []).append(rest)
            if first not in own:
                own.append(first)
        before = []
        for name, paths in inner.items():
            nested, text = self.literal(self.sources.type_of(made)[2][name], paths, indent)
            before += [*nested, *self.bound(f"let {name} = ", text, ";", indent)]
        order = [f for f in self.sources.type_of(made)[2] if f in own]
        if len(order) != len(self.sources.type_of(made)[2]):
            raise BadRows(f"{made} has other fields than {', '.join(own)}")
        return before, (made, order)

    @staticmethod
    def bound(head, text, tail, indent):
        made, order = text
        pad = "    " * indent
        if len(", ".join(order)) <= 18:
            return [f"{pad}{head}{made} {{ {', '.join(order)} }}{tail}"]
        return [f"{pad}{head}{made} {{", *(f"{pad}    {f}," for f in order), f"{pad}}}{tail}"]

    def nested_types(self, made, fields):
        types = []
        for path in fields:
            while "." in path:
                first, _, path = path.partition(".")
                inner = self.sources.type_of(made)[2][first]
                types += [inner, *self.nested_types(inner, [path])]
        return types

    @staticmethod
    def fault_of(r):
        """What a failed read tells: a broken column, or out of memory where it takes some."""
        broken = f"(c : _) × (e ≡ RowFault.Broken c) × ({r.broken} row.now ≡ Some c)"
        return f"(e ≡ RowFault.Memory) ⊎ ({broken})" if r.memory else broken

    def source(self):
        lines, types = [], set()
        for r in self.readings.values():
            fields = ([r.inner] if r.behind else []) + [p.field for p in r.parts]
            types |= {r.made, *self.nested_types(r.made, fields)}
            before, text = self.literal(r.made, fields, 1)
            take = "" if r.memory else " Takes no memory."
            lines += [
                f"/// What a row of {', '.join(r.columns)} says.{take}",
                f"pub fn {r.read}({'alloc: Global, ' if r.memory else ''}row: &Row) -> Result<{r.made}, RowFault>",
                f"    ensures ok {{ IfOk result ({r.says} row.now) }}",
                f"    ensures kept {{ IfOk result (λ it. {r.broken} row.now ≡ None) }}",
                f"    ensures err {{ IfErr result (λ e. {self.fault_of(r)}) }}",
                "{",
            ]
            for k, p in enumerate(r.parts, r.first):
                line = f"    let {p.name} = {p.kind.reads % (k, p.variant)};"
                if len(line) > 100:
                    call, _, rest = line.partition(".ok_or")
                    lines += [call, f"        .ok_or{rest}"]
                else:
                    lines.append(line)
            if r.behind:
                lines.append(
                    f"    let {r.inner} = {r.behind.read}({'alloc, ' if r.behind.memory else ''}row)?;"
                )
            lines += [*before, *self.bound("Ok(", text, ")", 1), "}", ""]
        body = "\n".join(lines)
        own = collections.defaultdict(set)
        own["module_row"].add("RowFault")
        own["table_columns"].add("Column")
        for name in set(re.findall(r"\b(\w+_at)\(", body)):
            own[self.sources.functions[name]].add(name)
        uses = collections.defaultdict(set)
        for name in types:
            crate, module, _ = self.sources.type_of(name)
            (own[module] if crate == "desk_records" else uses[crate]).add(name)
        imports = self.rust_uses(
            sorted(
                [
                    *((f"crate::{m}", n) for m, n in own.items()),
                    *uses.items(),
                    ("sqlite", {"Row"}),
                    ("std::alloc", {"Global"}),
                ]
            )
        )
        words = sorted(w for r in self.readings.values() for w in (r.says, r.broken))
        prelude = self.imports(body, [("Rattle.std.specs.Prelude", "◌≡◌ ◌⊎◌ IfOk IfErr None Some")])
        ghosts = [
            f"ghost {line};"
            for it in [*prelude, used(f"{DESK}.specs.ReadRows", words)]
            for line in it.splitlines()
        ]
        return "\n".join(
            [
                f"//! {WRITTEN}",
                "//! How rows are read.",
                "",
                *ghosts,
                "",
                *imports,
                "",
                body.rstrip("\n"),
                "",
            ]
        )

    @staticmethod
    def closed(head, lemmas=()):
        """What grind finds of the fields by itself, with lemmas on what stands for something."""
        return [
            f"{head} = grind ({', '.join(['arith', *sorted(lemmas)])})"
            if lemmas
            else f"{head} = grind arith",
            "",
        ]

    def told_of(self, r):
        """What is written in a row is what is read of it."""
        return [
            f"pub {r.one} : (a b : {r.made}) → {r.says} ({r.told} b) a → a ≡ b",
            *self.closed(
                f"{r.one} a b h", {p.kind.same for p, _, _ in r.all_parts() if p.kind.same}
            ),
        ]

    def said_of(self, r):
        """A row says one thing."""
        name = f"same_{r.word}"
        return [
            f"pub {name} : (row : Row) (a b : {r.made}) → {r.says} row a → {r.says} row b → a ≡ b",
            *self.closed(f"{name} row a b is other", {"one_in"}),
        ]

    def whole_of(self, r):
        """A row that says something breaks no column, where those keep their rules that say nothing of them."""
        name, own = f"whole_{r.word}", [(k, p) for k, p in enumerate(r.parts) if not p.kind.same]
        given, said = f"{r.says} row x", ["says", *(p.name for _, p in own)]
        if r.behind:
            part = r.parts[0]
            says = part.kind.says % (f"column row {r.first}", f"x.{part.field}")
            given = f"({r.behind.broken} row ≡ None) → {says}"
            own, said = [], ["whole", part.name]
        premises = "".join(f" → {p.kind.keeps % f'column row {k}'} ≡ true" for k, p in own)
        return [
            f"pub {name} : (row : Row) (x : {r.made}) → {given}{premises} → {r.broken} row ≡ None",
            *self.closed(f"{name} row x {' '.join(said)}"),
        ]

    def proofs(self):
        all_of = self.readings.values()
        lines = [
            *(it for r in all_of for it in self.told_of(r)),
            "-- ---- a row says one thing",
            "",
            *(it for r in all_of if "same" in r.lemmas for it in self.said_of(r)),
            "-- ---- .. and breaks no column",
            "",
            *(it for r in all_of if "whole" in r.lemmas for it in self.whole_of(r)),
        ]
        body = "\n".join(it for line in lines for it in wrapped(line))
        lemmas = {
            "one_in",
            *(p.kind.same for r in self.readings.values() for p in r.parts if p.kind.same),
        }
        kept = sorted(w for w in lemmas if re.search(rf"\b{w}\b", body))
        given = [
            ("Rattle.std.proofs.Common", "◌≡◌ true Some None arith"),
            ("Rattle.sqlite_value.specs.Order", "Row column"),
        ]
        return "\n".join(
            [
                f"-- {WRITTEN}",
                "-- What is written in a row is what is read of it, a row says one thing, and it breaks no column.",
                *self.imports(body, given),
                *self.known(body, also=[r.made for r in all_of]),
                used(f"{DESK}.proofs.KeptColumns", kept),
                "",
                body,
            ]
        )

    def store_source(self):
        lines = []
        for r in self.readings.values():
            alloc = "alloc" if r.memory else "_alloc"
            lines += [
                f"/// Of {', '.join(r.columns)}.",
                f"impl FromRow for {r.made} {{",
                f"    ghost is_row = {{ {r.says} }};",
                "",
                f"    ghost is_broken = {{ λ row. BreaksRule ({r.broken} row) }};",
                "",
                f"    fn from_row({alloc}: Global, row: &Row) -> Result<Self, RowFault> {{",
                f"        {r.read}({'alloc, ' if r.memory else ''}row)",
                "    }",
                "}",
                "",
            ]
        uses = collections.defaultdict(set)
        uses["desk_records"] |= {"RowFault", *(r.read for r in self.readings.values())}
        for r in self.readings.values():
            uses[self.sources.type_of(r.made)[0]].add(r.made)
        words = sorted(w for r in self.readings.values() for w in (r.says, r.broken))
        ghosts = [
            f"ghost {line};"
            for it in [
                used(f"{DESK}.specs.ReadRows", words),
                used(f"{STORE}.specs.private.Rows", ["BreaksRule"]),
            ]
            for line in it.splitlines()
        ]
        imports = [
            ("crate::from_row", {"FromRow"}),
            *sorted(uses.items()),
            ("sqlite", {"Row"}),
            ("std::alloc", {"Global"}),
        ]
        return "\n".join(
            [
                f"//! {WRITTEN}",
                "//! What rows are read as.",
                "",
                *ghosts,
                "",
                *self.rust_uses(imports),
                "",
                "\n".join(lines).rstrip("\n"),
                "",
            ]
        )

    @staticmethod
    def rust_uses(paths):
        """Imports of the code, as rt fmt lays them out."""
        lines = []
        for path, names in paths:
            names = sorted(names)
            line = (
                f"use {path}::{{{', '.join(names)}}};"
                if len(names) > 1
                else f"use {path}::{names[0]};"
            )
            lines += (
                [line]
                if len(line) <= 100
                else [
                    f"use {path}::{{",
                    *filled(f"    {names[0]},", [f"{n}," for n in names[1:]], 99),
                    "};",
                ]
            )
        return lines

    def breaks_of(self, table):
        if table.name in self.breaks:
            return [self.breaks[table.name]]
        parts = ["HasNoKey row"] if table.key and table.kinds[table.key][0] != "-" else []
        own = [r for r in self.readings.values() if r.table is table]
        parts += [f"BreaksRule ({r.broken} ({r.shown} row))" for r in own]
        if not own:
            parts += [
                KINDS[k].breaks % f"column row {table.place(c)}"
                for c, (k, v) in table.kinds.items()
                if v
            ]
        return parts

    def broken(self):
        def either(parts):
            first, *more = parts
            if not more:
                return first
            rest = either(more)
            return f"{first} ⊎ {f'({rest})' if len(more) > 1 else rest}"

        said = [
            f"BreaksColumn {t.at} row = {either(self.breaks_of(t))}" for t in self.tables.values()
        ]
        body = [part for line in said for part in wrapped(line)]
        text = "\n".join(body)
        given = [
            ("Rattle.std.specs.Prelude", "◌≡◌ ◌⊎◌ false None"),
            ("Rattle.sqlite_value.specs.Order", "Row column"),
        ]
        return "\n".join(
            [
                f"-- {WRITTEN}",
                "-- Rows of the tables that can't be read.",
                *self.imports(text + " ≡ false Row", given),
                *self.known(text.replace("Place", "") + " has_size"),
                used(
                    f"{DESK}.specs.Schema", ["Place", *sorted(t.at for t in self.tables.values())]
                ),
                used(f"{DESK}.specs.declared.table_columns.Column", ["Column"]),
                "",
                "-- the row's own number isn't one of 32 bits",
                "abbrev pub HasNoKey : Row → Type 0",
                "HasNoKey row = has_size (column row 0) ≡ false",
                "",
                "-- a row of the table breaks the rule of a column that is read",
                "abbrev pub BreaksColumn : Place → Row → Type 0",
                *body,
                "",
            ]
        )


def files(crates, text, tables, shows):
    """Each file that is made of the kinds of columns, by its path."""
    below = ["rollout_model", "rollout_machine", "artifact_pieces", "desk_records"]
    rows = Rows(text, tables, shows, Sources(crates, below))
    records = crates / "desk_records"
    return {
        records / "src" / "table_columns.rt": rows.columns_file(),
        records / "src" / "read_rows.rt": rows.source(),
        records / "specs" / "ReadRows.antt": rows.specs(),
        records / "proofs" / "WrittenRows.antt": rows.written(),
        records / "proofs" / "RowsTold.antt": rows.proofs(),
        crates / "desk_store" / "specs" / "BrokenRows.antt": rows.broken(),
        crates / "desk_store" / "src" / "row_reads.rt": rows.store_source(),
    }
