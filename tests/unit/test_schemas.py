"""Tests of schemas.py: each keyword with a value that keeps it and one that doesn't, as JSON Schema has it."""
from openapi import json_schema as schemas
from harness.asserting import refused, same

# a keyword with its rule, a value that keeps it, and one that doesn't
RULES = (
    ({"type": "integer"}, 1, True),
    ({"type": "boolean"}, True, 1),
    ({"type": "string"}, "1", 1),
    ({"type": "object"}, {}, []),
    ({"type": "array"}, [], {}),
    ({"required": ["a"]}, {"a": None}, {"b": 1}),
    ({"properties": {"a": {"type": "integer"}}}, {"a": 1, "b": ""}, {"a": ""}),
    ({"properties": {"a": {}}, "additionalProperties": False}, {"a": 1}, {"a": 1, "b": 1}),
    ({"additionalProperties": {"type": "string"}}, {"a": ""}, {"a": 1}),
    ({"propertyNames": {"pattern": "^a"}}, {"ab": 1}, {"ba": 1}),
    ({"items": {"type": "integer"}}, [1, 2], [1, ""]),
    ({"uniqueItems": True}, [1, 2], [1, 1]),
    ({"x-unique": "id"}, [{"id": 1}, {"id": 2}], [{"id": 1}, {"id": 1}]),
    ({"x-last": {"const": 100}}, [1, 100], [100, 1]),
    ({"oneOf": [{"type": "integer"}, {"minimum": 5}]}, 3, 7),
    ({"enum": ["a", "b"]}, "b", "c"),
    ({"const": "a"}, "a", "b"),
    ({"pattern": "^[a-z]+$"}, "ab", "ab\n"),
    ({"minimum": 1}, 1, 0),
    ({"maximum": 3}, 3, 4),
    ({"minLength": 2}, "é", "a"),
    ({"maxLength": 2}, "é", "éé"),
    ({"minItems": 1}, [1], []),
    ({"maxItems": 1}, [1], [1, 2]),
    ({"minProperties": 1}, {"a": 1}, {}),
    ({"maxProperties": 1}, {"a": 1}, {"a": 1, "b": 2}),
)
PAGE = {"components": {"schemas": {"Id": {"type": "integer", "minimum": 1}}}}
ID = {"$ref": "#/components/schemas/Id"}


def test_each_keyword():
    for schema, keeps, breaks in RULES:
        assert schemas.Schemas(PAGE).fits(keeps, schema), f"{keeps} keeps {schema}"
        judge = schemas.Schemas(PAGE)
        assert not judge.fits(breaks, schema), f"{breaks} breaks {schema}"
        assert judge.why, f"why {breaks} breaks {schema}"
    same({it for schema, _, _ in RULES for it in schema}, set(schemas.RULES))


def test_references_notes_and_what_was_seen():
    judge = schemas.Schemas(PAGE)
    schema = {"description": "said", "properties": {"id": ID, "name": {}}}
    assert judge.fits({"id": 1}, schema) and not judge.fits({"id": 0}, schema)
    same({(name, there) for _, name, there in judge.seen}, {("id", True), ("name", False)})


def test_an_unknown_keyword_is_no_rule():
    with refused(KeyError):
        schemas.Schemas(PAGE).fits(1, {"multipleOf": 2})


def test_bodies():
    judge = schemas.Schemas(PAGE)
    content = {"application/json": {"schema": ID}, "text/plain": {"schema": {"const": "ok"}}}
    assert judge.holds(content, "application/json", b"1") and judge.holds(
        content, "text/plain", b"ok"
    )
    for kind, body in (
        ("application/json", b"0"),
        ("application/json", b"{"),
        ("application/json", b"\xff"),
        ("text/csv", b"ok"),
    ):
        assert not judge.holds(content, kind, body), (kind, body)
    assert not judge.holds(
        {"application/json": {"schema": {}}}, "application/json", b"NaN"
    ), "no number of JSON's"


def test_how_deep_the_server_reads():
    for depth, fits in ((127, True), (128, False)):
        same(
            schemas.Schemas(PAGE).holds(
                {"application/json": {"schema": {}}},
                "application/json",
                b"[" * depth + b"]" * depth,
            ),
            fits,
        )


def test_parameters():
    judge = schemas.Schemas(PAGE)
    described = [
        {"name": "limit", "required": True, "schema": ID},
        {"name": "q", "schema": {"type": "string"}},
    ]
    for given, fits in (
        ({"limit": "5"}, True),
        ({"limit": "5", "q": "5"}, True),
        ({"limit": "05"}, False),
        ({"limit": "0"}, False),
        ({"q": "a"}, False),
        ({"limit": "5", "other": ""}, False),
    ):
        same(judge.takes(described, given), fits)


def test_parts_and_what_is_put():
    page = {"a": [1, {"b": 2}]}
    same([where for where, _ in schemas.parts(page)], ["", "/a", "/a/0", "/a/1", "/a/1/b"])
    kept = schemas.put(page["a"], [3])
    same((kept, page), ([1, {"b": 2}], {"a": [3]}))
