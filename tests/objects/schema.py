"""docs/schema.json, and lines of JSON that are held to it."""
import json
import os
import re

TOP = os.path.dirname(os.path.dirname(os.path.dirname(os.path.realpath(__file__))))


class Wrong(Exception):
    pass


def holds(is_so, said):
    if not is_so:
        raise Wrong(said)


def read_schema():
    with open(f"{TOP}/docs/schema.json") as it:
        return json.load(it)


TYPES = {"object": dict, "array": list, "string": str, "boolean": bool, "null": type(None)}


def is_type(value, name):
    return type(value) is int if name == "integer" else isinstance(value, TYPES[name])


def fits(value, rule, root):
    """Whether a value is as the rule says, by the words of JSON Schema that stand in docs/schema.json."""
    return all(RULES[word](value, of, rule, root) for word, of in rule.items())


def follow(reference, root):
    for part in reference.removeprefix("#/").split("/"):
        root = root[part]
    return root


def fits_type(value, of, rule, root):
    return any(is_type(value, it) for it in (of if isinstance(of, list) else [of]))


def fits_fields(value, of, rule, root):
    return not isinstance(value, dict) or all(fits(value[it], of[it], root) for it in value if it in of)


RULES = {
    **{it: lambda value, of, rule, root: True for it in ("$schema", "$defs", "title", "description")},
    "$ref": lambda value, of, rule, root: fits(value, follow(of, root), root),
    "oneOf": lambda value, of, rule, root: sum(fits(value, it, root) for it in of) == 1,
    "enum": lambda value, of, rule, root: value in of,
    "type": fits_type,
    "properties": fits_fields,
    "required": lambda value, of, rule, root: not isinstance(value, dict) or {*of} <= {*value},
    "additionalProperties": lambda value, of, rule, root: of or not isinstance(value, dict) or {*value} <= {*rule["properties"]},
    "items": lambda value, of, rule, root: not isinstance(value, list) or all(fits(it, of, root) for it in value),
    "minItems": lambda value, of, rule, root: not isinstance(value, list) or len(value) >= of,
    "uniqueItems": lambda value, of, rule, root: not isinstance(value, list) or len({*value}) == len(value),
    "minimum": lambda value, of, rule, root: type(value) is not int or value >= of,
    "maximum": lambda value, of, rule, root: type(value) is not int or value <= of,
    "pattern": lambda value, of, rule, root: not isinstance(value, str) or re.search(of, value) is not None,
}


def fields_once(pairs):
    holds(len({name for name, _ in pairs}) == len(pairs), f"a field stands twice: {pairs!r}")
    return dict(pairs)


def objects_of(out, schema):
    """The objects of the lines, each as the schema says and as Python writes it."""
    holds(out.endswith(b"\n"), "the last line has no newline")
    objects = []
    for line in out[:-1].split(b"\n"):
        try:
            it = json.loads(line, object_pairs_hook=fields_once)
        except ValueError as fault:
            raise Wrong(f"no JSON, {fault}: {line!r}") from fault
        holds(fits(it, schema, schema), f"not as the schema says: {line!r}")
        holds(json.dumps(it, ensure_ascii=False, separators=(",", ":")).encode() == line, f"not as Python writes it: {line!r}")
        objects.append(it)
    return objects
