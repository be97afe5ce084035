"""For tests: breaks each rule of a JSON schema in documents that follow it."""
from typing import Any, Iterator, Set, Tuple

KEYWORDS = ("additionalProperties", "enum", "minimum")
# the keyword that each schema of this type has
NEEDED = {"object": "additionalProperties", "integer": "minimum", "number": "minimum"}
# a place in a schema, and a keyword there
Rule = Tuple[int, str]


def rules_in(schema: Any) -> Set[Rule]:
    """Returns each rule of a schema that has one of KEYWORDS."""
    found = {(id(schema), name) for name in KEYWORDS if is_rule(schema, name)}
    parts = schema.values() if isinstance(schema, dict) else schema
    return found.union(*(rules_in(part) for part in parts if isinstance(part, (dict, list))))


def lacking(schema: Any, place: str = "") -> Iterator[str]:
    """Yields each place in a schema where an object may have any names, or a number any value: the
    rule for it was left out."""
    kinds = schema.get("type", ()) if isinstance(schema, dict) else ()
    for kind in [kinds] if isinstance(kinds, str) else kinds:
        if kind in NEEDED and NEEDED[kind] not in schema:
            yield f"{place} lacks {NEEDED[kind]}"
    for name, part in schema.items() if isinstance(schema, dict) else enumerate(schema):
        if isinstance(part, (dict, list)):
            yield from lacking(part, f"{place}/{name}")


def is_rule(schema: Any, name: str) -> bool:
    return isinstance(schema, dict) and name in schema and not isinstance(schema[name], dict)


def broken(value: Any, schema: Any, root: Any) -> Iterator[Tuple[Rule, Any]]:
    """Yields each rule that a value can break, with a copy of the value that breaks only this."""
    if "$ref" in schema:
        schema = root["definitions"][schema["$ref"].rpartition("/")[2]]
    if "oneOf" in schema:
        yield from broken(value, schema["oneOf"][0], root) if value is not None else ()
        return
    if is_rule(schema, "enum"):
        yield (id(schema), "enum"), "x"
    if is_rule(schema, "minimum") and isinstance(value, (int, float)):
        yield (id(schema), "minimum"), schema["minimum"] - 1
    if isinstance(value, dict):
        if is_rule(schema, "additionalProperties"):
            yield (id(schema), "additionalProperties"), {**value, "x": "x"}
        for name, part in value.items():
            inner = schema.get("properties", {}).get(name) or schema["additionalProperties"]
            for rule, one in broken(part, inner, root):
                yield rule, {**value, name: one}
    elif isinstance(value, list):
        for at, part in enumerate(value):
            for rule, one in broken(part, schema["items"], root):
                yield rule, [*value[:at], one, *value[at + 1:]]
