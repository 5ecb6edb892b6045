"""Tests of the tables of refusals and limits, of what tools/gen/reference writes of them, and of what tools/lint/literals
reads of sources. The forms are those that docs/reference and the heads of the scripts say."""
import copy

import reference
from as_module import as_module
from harness.asserting import refused, same
from crate_graph import ROOT

made = as_module(ROOT / "tools/gen/reference")
literals = as_module(ROOT / "tools/lint/literals")

LIMITS = """
[limits]
lamp_limit = 1_200
bulb_limit = 7
[[row]]
of = "lamps"
limit = "<lamp_limit>, of 1 to <bulb_limit> bulbs"
[openapi]
"/components/schemas/Lamp/properties/bulbs/maxItems" = "bulb_limit"
"/components/schemas/*/pattern" = "^x{1,<bulb_limit>}$"
"""
REFUSALS = """
[reasons]
404 = "Not Found"
413 = "Payload Too Large"
[[refusal]]
number = 1
name = "dark"
variant = "Dark"
status = 404
when = "no lamp is lit"
words = "it's dark"
german = "es ist dunkel"
[[refusal]]
number = 2
name = "bright"
variant = "TooBright"
status = 413
ends = true
when = "over <lamp_limit> lamps"
words = "too bright for <lamp_limit>"
german = "zu hell für <lamp_limit>"
[proxy]
"no plug" = "kein Stecker"
"""


def limits(text=LIMITS):
    return reference.read_limits(text)


def tables():
    proxy = {"no plug": "kein Stecker"}
    return reference.Reference(*reference.read_refusals(REFUSALS, limits()), limits(), proxy)


def document():
    """A description of one response of each kind, with what the tables say of before."""
    refers = [{"$ref": "#/components/schemas/dark"}, {"$ref": "#/components/schemas/bright"}]
    dark = {
        "type": "object",
        "properties": {
            "error": {"const": "dark"},
            "lamp": {"type": "string"},
            "number": {"const": 9},
        },
        "examples": [{"error": "dark", "lamp": "left", "number": 9}],
    }
    return {
        "components": {
            "responses": {
                "Done": held({"$ref": "#/components/schemas/Lamp"}),
                "Dark": held(refers[0]),
                "Other": held({"oneOf": refers}),
            },
            "schemas": {
                "Lamp": {
                    "properties": {"bulbs": {"maxItems": 6}, "key": {"maxItems": 1}},
                    "pattern": "^x{1,6}$",
                },
                "dark": dark,
            },
        }
    }


def held(schema):
    return {"description": "of before", "content": {"application/json": {"schema": schema}}}


def test_a_number_of_a_limit_is_filled_in():
    same(limits().rows, [("lamps", "1,200, of 1 to 7 bulbs")])
    same(
        [(it.told, it.words) for it in tables().refusals],
        [
            ("no lamp is lit", "it's dark"),
            ("over 1,200 lamps; the connection ends", "too bright for 1,200"),
        ],
    )


def test_faulty_tables_are_refused():
    for old, new, words in (
        ("number = 2", "number = 3", "refusal bright has the number 3, and is row 2"),
        ('"bright"', '"dark"', "two refusals have the name dark"),
        ('"TooBright"', '"Dark"', "two refusals have the variant Dark"),
        ("status = 413", "status = 418", "status 418 has no reason phrase"),
        ('words = "too bright for <lamp_limit>"', "", "refusal bright has no words"),
        ('german = "es ist dunkel"', "", "refusal dark has no german"),
        ("hell für <lamp_limit>", "hell", "refusal bright: words and german name other limits"),
        ("ends = true", "end = true", "refusal bright: end isn't known"),
        ("<lamp_limit>", "<lump_limit>", "there is no limit lump_limit"),
    ):
        with refused(reference.BadTable, words):
            reference.read_refusals(REFUSALS.replace(old, new), limits())
    for number in ("0", "-1", '"7"', "true"):
        with refused(reference.BadTable, "the limit bulb_limit is"):
            limits(LIMITS.replace("= 7", f"= {number}"))


def test_the_tables_of_the_page_are_written():
    page = "a\n\n| Of | Limit |\n|---|---|\n| x | 1 |\n\nb\n| Number | Name | Status | When |\n|---|---|---|---|\n\nc\n"
    page = page.replace("|---|---|---|---|\n", "|---|---|---|---|\n| 7 | `x` | 1 | y |\n")
    same(
        made.api_page(page, tables()),
        "a\n\n| Of | Limit |\n|---|---|\n| lamps | 1,200, of 1 to 7 bulbs |\n\nb\n"
        "| Number | Name | Status | When |\n|---|---|---|---|\n"
        "| 1 | `dark` | 404 | no lamp is lit |\n"
        "| 2 | `bright` | 413 | over 1,200 lamps; the connection ends |\n\nc\n",
    )
    with refused(reference.BadTable, "docs/API.md has 0 tables"):
        made.api_page("no table\n", tables())


def test_the_rows_of_the_tests_of_crates_are_written():
    before = "use a;\n\nconst ROWS: [(Refusal, u8, &str, u16, bool); 1] = [\n    (Refusal::TooBright(3), 9, {}),\n];\n\nb\n"
    same(
        made.tests_of_crates(before.replace("{}", '"dim", 400, false'), tables()),
        "use a;\n\nconst ROWS: [(Refusal, u8, &str, u16, bool); 2] = [\n"
        '    (Refusal::Dark, 1, "dark", 404, false),\n'
        '    (Refusal::TooBright(3), 2, "bright", 413, true),\n];\n\nb\n',
    )
    with refused(reference.BadTable, "has no table ROWS"):
        made.tests_of_crates("const LINES: u8 = 1;\n", tables())


def test_the_description_has_the_refusals():
    found = document()
    made.describe_refusals(found, tables().refusals)
    responses, schemas = found["components"]["responses"], found["components"]["schemas"]
    same(responses["Done"]["description"], "of before")
    same(responses["Dark"]["description"], "`dark` (1)")
    assert responses["Other"]["description"].startswith("404, 413: ")
    same(list(schemas), ["Lamp", "dark", "bright"])
    # a member that the table doesn't have stays
    same(
        schemas["dark"],
        {
            "type": "object",
            "properties": {
                "error": {"const": "dark"},
                "lamp": {"type": "string"},
                "number": {"const": 1},
            },
            "required": ["error", "lamp", "number"],
            "additionalProperties": False,
            "description": "404: no lamp is lit",
            "examples": [{"error": "dark", "lamp": "left", "number": 1}],
        },
    )
    found["components"]["responses"]["Dark"] = held({"$ref": "#/components/schemas/dusk"})
    with refused(reference.BadTable, "a refusal dusk, which no table has"):
        made.describe_refusals(found, tables().refusals)


def test_a_response_that_a_call_names_by_a_variant_is_made():
    found = document()
    found["paths"] = {
        "/lamps": {"get": {"responses": {"413": {"$ref": "#/components/responses/TooBright"}}}}
    }
    made.add_responses(found, tables().refusals)
    made.describe_refusals(found, tables().refusals)
    response = found["components"]["responses"]["TooBright"]
    same(response["description"], "`bright` (2)")
    schema = response["content"]["application/json"]["schema"]
    same(schema, {"$ref": "#/components/schemas/bright"})
    same(found["components"]["schemas"]["bright"]["properties"]["number"], {"const": 2})


def test_the_description_has_the_limits_and_no_others():
    found = document()
    made.put_limits(found, limits())
    lamp = found["components"]["schemas"]["Lamp"]
    same(
        lamp,
        {"properties": {"bulbs": {"maxItems": 7}, "key": {"maxItems": 1}}, "pattern": "^x{1,7}$"},
    )
    for place, value in (("key", {"maxItems": 9}), ("key", {"description": "12 bytes"})):
        other = copy.deepcopy(found)
        other["components"]["schemas"]["Lamp"]["properties"][place] = value
        with refused(reference.BadTable, "no pattern of limits.toml names this place"):
            made.put_limits(other, limits())
    del found["components"]["schemas"]["Lamp"]["properties"]["bulbs"]
    with refused(reference.BadTable, "has no place /components/schemas/Lamp/properties/bulbs"):
        made.put_limits(found, limits())


def test_the_model_reads_the_tables():
    from model import reference as model

    found = reference.read_reference()
    same(model.REFUSALS, {it.number: (it.name, it.status) for it in found.refusals})
    same(model.CLOSING, {it.number for it in found.refusals if it.ends})
    same(model.REASONS, found.reasons)
    same(
        {it.lower(): getattr(model, it.upper()) for it in found.limits.numbers},
        found.limits.numbers,
    )


def test_the_code_that_is_written_has_the_tables():
    cli = {}
    exec(made.cli_module(tables()), cli)
    same(cli["REFUSALS"], {"dark": "it's dark", "bright": "too bright for 1,200"})
    web = made.web_module(tables())
    assert '\n  en: {\n    1: "it\'s dark",\n    2: "too bright for 1,200",\n  },\n' in web
    assert '\n  de: {\n    1: "es ist dunkel",\n    2: "zu hell für 1.200",\n  },\n};\n' in web
    assert '{\n  "no plug": "kein Stecker",\n};\n' in web


def test_rows_of_sources_are_read():
    rows = [
        literals.Row("Dark", 1, "dark", 404, False),
        literals.Row("TooBright", 2, "bright", 413, True),
    ]
    definitions = (
        'refusal_row Dark = record { number = 1; name = codes "dark"; status = 404; ends = false }\n'
        "refusal_row (TooBright lamp) = record"
        ' { number = 2; name = codes "bright"; status = 413; ends = true }\n'
    )
    same(literals.rows_of_definitions(definitions), rows)
    code = (
        "pub enum Refusal {\n    /// No lamp.\n    Dark,\n    /// Too many.\n    TooBright(u64),\n}\n"
        "    pub fn number(&self) -> u8\n    {\n        match self {\n"
        "            Refusal::Dark => 1,\n            Refusal::TooBright(_) => 2,\n        }\n    }\n"
        "    pub fn name(&self) -> &str\n    {\n        match self {\n"
        '            Refusal::Dark => "dark",\n            Refusal::TooBright(_) => "bright",\n        }\n    }\n'
        "    pub fn status(&self) -> u16\n    {\n        match self {\n"
        "            Refusal::Dark => 404,\n            Refusal::TooBright(_) => 413,\n        }\n    }\n"
        "    pub fn ends(&self) -> bool\n    {\n        matches!(self, Refusal::TooBright(_))\n    }\n"
    )
    same(literals.rows_of_code(code), rows)
    shared = code.replace("Refusal::Dark => 404,\n            Refusal::TooBright(_) => 413", "\0")
    shared = shared.replace("\0", "Refusal::Dark\n            | Refusal::TooBright(_) => 404")
    same([it.status for it in literals.rows_of_code(shared)], [404, 404])


def test_differing_rows_are_told():
    dark = literals.Row("Dark", 1, "dark", 404, False)
    bright = literals.Row("TooBright", 2, "bright", 413, True)
    same(list(literals.differences([dark, bright], tables())), [])
    same(
        list(literals.differences([bright, dark], tables())),
        ["its order isn't that of the numbers"],
    )
    same(len(list(literals.differences([dark], tables()))), 1)
    other = literals.Row("TooBright", 2, "bright", 413, False)
    same(len(list(literals.differences([dark, other], tables()))), 2)


def test_differing_limits_are_told():
    definitions = "limits = record {\n  lamps = 1200;\n  bulb = 7; -- of a lamp\n}\n"
    code = "pub const LAMP_LIMIT: u32 = 1_200;\npub const BULB_LIMIT: usize = 7;\n"
    code += "pub const SHADE_LIMIT: usize = LAMP_LIMIT;\n"
    for text, read, others in (
        (definitions, lambda it: literals.limits_of_definitions(it, tables()), {}),
        (code, literals.limits_of_code, {"shade_limit": "lamp_limit"}),
    ):
        same(read(text), {"lamp_limit": 1200, "bulb_limit": 7} | others)
        same(list(literals.differing_limits(read(text), tables(), set())), [])
        other = read(text.replace("7", "8"))
        same(
            list(literals.differing_limits(other, tables(), set())),
            ["bulb_limit is 8 there, and 7 in the table"],
        )
    same(
        list(literals.differing_limits({"lamp_limit": 1200}, tables(), set())),
        ["it lacks bulb_limit"],
    )
    same(list(literals.differing_limits({"lamp_limit": 1200}, tables(), {"bulb_limit"})), [])
    more = {"lamp_limit": 1200, "bulb_limit": 7, "wick_limit": 5}
    same(len(list(literals.differing_limits(more, tables(), set()))), 1)


def test_copies_are_read():
    same(literals.copied("x = 1\nMOST = 10_000  # all\n", "^MOST ="), 10_000)
    same(literals.copied("modules: 1000, sets: 5", "[{ ]sets:"), 5)
    # one that stands twice, or isn't there, is no number
    same(literals.copied("MOST = 1\nMOST = 2\n", "^MOST ="), None)
    same(literals.copied("LEAST = 1\n", "^MOST ="), None)
    page = "# A\n\n| Limit | Value |\n|---|---|\n| lamps | 1,200, with 7 bulbs |\n\n| A |\n|---|\n| 9 |\n"
    same(literals.numbers_of_first_table(page), {1200, 7})
