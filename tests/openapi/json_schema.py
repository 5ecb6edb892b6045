"""Judges values by schemas: the keywords of JSON Schema that docs/openapi.json has, without a package.
Lengths are those of UTF-8."""
import json
import re
from functools import lru_cache

# how deep the server reads a body
DEEPEST = 127
# keywords that say nothing of a value
NOTES = ("description", "default", "examples")
KINDS = {"object": dict, "array": list, "string": str, "integer": int, "boolean": bool}


def has_type(value, rule):
    """Whether a value is of a type; a boolean is no integer."""
    return isinstance(value, KINDS[rule]) and isinstance(value, bool) == (rule == "boolean")


def count_bytes(value):
    """The length of a string, as the server counts it: in bytes of UTF-8. A body that isn't JSON is bytes already."""
    return len(value.encode() if isinstance(value, str) else value)


def are_different(values):
    return len({json.dumps(it) for it in values}) == len(values)


def matches_pattern(value, rule):
    """A `$` of JSON Schema is the very end; Python's also comes before a last line feed."""
    return re.search(re.sub(r"\$$", r"\\Z", rule), value) is not None


def additional_fit(fits, value, rule, schema):
    """Whether each property that `properties` doesn't name fits the rule; with `false` there may be none."""
    others = [name for name in value if name not in schema.get("properties", ())]
    return not others or bool(rule) and all(fits(value[name], rule) for name in others)


# Whether a value keeps the rule of a schema's keyword. `fits` judges an inner value by an inner schema.
RULES = {
    "type": lambda fits, value, rule, schema: has_type(value, rule),
    "properties": lambda fits, value, rule, schema: all(
        fits(value[name], inner) for name, inner in rule.items() if name in value
    ),
    "required": lambda fits, value, rule, schema: all(name in value for name in rule),
    "additionalProperties": additional_fit,
    "propertyNames": lambda fits, value, rule, schema: all(fits(name, rule) for name in value),
    "items": lambda fits, value, rule, schema: all(fits(it, rule) for it in value),
    "uniqueItems": lambda fits, value, rule, schema: are_different(value),
    "x-unique": lambda fits, value, rule, schema: are_different([it[rule] for it in value]),
    "x-last": lambda fits, value, rule, schema: fits(value[-1], rule),
    "oneOf": lambda fits, value, rule, schema: sum(fits(value, it) for it in rule) == 1,
    "enum": lambda fits, value, rule, schema: value in rule,
    "const": lambda fits, value, rule, schema: value == rule,
    "pattern": lambda fits, value, rule, schema: matches_pattern(value, rule),
    "minimum": lambda fits, value, rule, schema: value >= rule,
    "maximum": lambda fits, value, rule, schema: value <= rule,
    "minLength": lambda fits, value, rule, schema: count_bytes(value) >= rule,
    "maxLength": lambda fits, value, rule, schema: count_bytes(value) <= rule,
    "minItems": lambda fits, value, rule, schema: len(value) >= rule,
    "maxItems": lambda fits, value, rule, schema: len(value) <= rule,
    "minProperties": lambda fits, value, rule, schema: len(value) >= rule,
    "maxProperties": lambda fits, value, rule, schema: len(value) <= rule,
}


def depth(value):
    """How deep lists and maps lie within one another."""
    if not isinstance(value, (dict, list)):
        return 0
    return 1 + max(map(depth, value.values() if isinstance(value, dict) else value), default=0)


@lru_cache(maxsize=None)
def value_of(body, kind):
    """What a body of a kind holds."""
    if kind != "application/json":
        return body.decode() if kind.startswith("text/") else body
    value = json.loads(body.decode())
    json.dumps(value, ensure_ascii=False, allow_nan=False).encode()
    if depth(value) > DEEPEST:
        raise ValueError("deeper than the server reads")
    return value


def parts(node, where=""):
    """Each part of a document, and its place."""
    yield where, node
    inner_nodes = ()
    if isinstance(node, dict):
        inner_nodes = node.items()
    elif isinstance(node, list):
        inner_nodes = enumerate(node)
    for key, inner in inner_nodes:
        yield from parts(inner, f"{where}/{key}")


def put(part, other):
    """Puts other entries into a list or map, and gives those that were there."""
    kept = part.copy()
    part.clear()
    part.update(other) if isinstance(part, dict) else part.extend(other)
    return kept


class Schemas:
    """The schemas of a document, what was seen of them, and why the last value that didn't fit doesn't."""

    def __init__(self, page):
        self.page, self.seen, self.why = page, set(), ""

    def of(self, part):
        """A part of the document, or the one that it refers to."""
        while "$ref" in part:
            names, part = part["$ref"][2:].split("/"), self.page
            for name in names:
                part = part[name]
        return part

    def fits(self, value, schema):
        """Whether a value is as a schema has it; keeps what was seen of the schema, or why not."""
        schema = self.of(schema)
        for keyword, rule in schema.items():
            if keyword not in NOTES and not RULES[keyword](self.fits, value, rule, schema):
                self.why = self.why or f"{str(value)[:80]} breaks {keyword} {str(rule)[:80]}"
                return False
        if "properties" in schema:
            self.seen.update([(id(schema), name, name in value) for name in schema["properties"]])
        if "enum" in schema:
            self.seen.add((id(schema), value))
        return True

    def holds(self, content, kind, body):
        """Whether a body is of a kind that is described, and as it is."""
        try:
            return kind in content and self.fits(value_of(body, kind), content[kind]["schema"])
        except (ValueError, RecursionError):
            return False

    def takes(self, parameters, given):
        """Whether parameters are given as they are described."""
        wanted = {it["name"]: self.of(it["schema"]) for it in parameters}
        whole = {
            it
            for it in given
            if wanted.get(it, {}).get("type") == "integer"
            and re.fullmatch("0|[1-9][0-9]*", given[it])
        }
        lacking = {it["name"] for it in parameters if it.get("required")} - set(given)
        return not lacking and all(
            it in wanted and self.fits(int(text) if it in whole else text, wanted[it])
            for it, text in given.items()
        )
