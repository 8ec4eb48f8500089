"""The keywords of JSON Schema, draft 2020-12, that docs/use/tree.schema.json uses; a schema with another keyword is rejected."""

TYPES = {
    "null": lambda v: v is None,
    "boolean": lambda v: isinstance(v, bool),
    "string": lambda v: isinstance(v, str),
    "integer": lambda v: isinstance(v, int) and not isinstance(v, bool) or isinstance(v, float) and v.is_integer(),
    "array": lambda v: isinstance(v, list),
    "object": lambda v: isinstance(v, dict),
}
SAID = {"$schema", "title", "description"}
DRAFT = "https://json-schema.org/draft/2020-12/schema"
HERE = "#/$defs/"


class Unknown(Exception):
    """The schema has a keyword that is not known here, or one of another form."""


def pointer(path):
    return "#" + "".join("/" + str(key).replace("~", "~0").replace("/", "~1") for key in path)


# ---- the schema itself

def is_count(value):
    return isinstance(value, int) and not isinstance(value, bool) and value >= 0


def are_texts(value):
    return isinstance(value, list) and value and all(isinstance(v, str) for v in value) and len(set(value)) == len(value)


FORMS = {
    "$schema": lambda v: v == DRAFT,
    "title": lambda v: isinstance(v, str),
    "description": lambda v: isinstance(v, str),
    "$ref": lambda v: isinstance(v, str) and v.startswith(HERE),
    "$defs": lambda v: isinstance(v, dict),
    "type": lambda v: isinstance(v, str) and v in TYPES,
    "enum": are_texts,
    "anyOf": lambda v: isinstance(v, list) and v,
    "properties": lambda v: isinstance(v, dict),
    "required": are_texts,
    "additionalProperties": lambda v: v is False,
    "minProperties": is_count,
    "maxProperties": is_count,
    "items": lambda v: v is False or isinstance(v, dict),
    "prefixItems": lambda v: isinstance(v, list) and v,
    "minItems": is_count,
    "minimum": is_count,
    "maximum": is_count,
}


def parts(node):
    """The schemas in a schema, each with its path."""
    for word in ("$defs", "properties"):
        for name, part in node.get(word, {}).items():
            yield (word, name), part
    for word in ("anyOf", "prefixItems"):
        for i, part in enumerate(node.get(word, [])):
            yield (word, i), part
    if node.get("items", False):
        yield ("items",), node["items"]


def check(schema):
    """Raises Unknown where the schema has a word, or a form of one, that is not known here."""
    def walk(node, path):
        if not isinstance(node, dict):
            raise Unknown("%s: no schema that is known here" % pointer(path))
        for word, value in node.items():
            if word not in FORMS:
                raise Unknown("%s: the word `%s` is not known" % (pointer(path), word))
            if not FORMS[word](value):
                raise Unknown("%s: the word `%s` is not known in this form" % (pointer(path), word))
            if word in ("$schema", "$defs") and path:
                raise Unknown("%s: the word `%s` is known at the top alone" % (pointer(path), word))
        if "$ref" in node and node["$ref"][len(HERE):] not in schema.get("$defs", {}):
            raise Unknown("%s: %s is not there" % (pointer(path), node["$ref"]))
        for step, part in parts(node):
            walk(part, path + step)
    walk(schema, ())


# ---- values

def best(tried):
    """Of what several schemas find wrong, what lies deepest: the one that was meant."""
    return max(tried, key=lambda found: max(len(path) for path, _ in found))


def faults(schema, value):
    """What is wrong with a value: a list of paths and texts."""
    defs = schema.get("$defs", {})

    def walk(node, value, path):
        found = []
        if "$ref" in node:
            found += walk(defs[node["$ref"][len(HERE):]], value, path)
        if "type" in node and not TYPES[node["type"]](value):
            return found + [(path, "is no " + node["type"])]
        if "enum" in node and not (isinstance(value, str) and value in node["enum"]):
            found.append((path, "is none of " + ", ".join('"%s"' % name for name in node["enum"])))
        if "anyOf" in node:
            tried = [walk(part, value, path) for part in node["anyOf"]]
            if all(tried):
                deepest = best(tried)
                at_top = all(where == path for found_ones in tried for where, _ in found_ones)
                found += [(path, " and ".join(what for ones in tried for _, what in ones))] if at_top else deepest
        if isinstance(value, dict):
            found += walk_object(node, value, path)
        elif isinstance(value, list):
            found += walk_array(node, value, path)
        elif isinstance(value, (int, float)) and not isinstance(value, bool):
            if "minimum" in node and value < node["minimum"]:
                found.append((path, "is below %d" % node["minimum"]))
            if "maximum" in node and value > node["maximum"]:
                found.append((path, "is past %d" % node["maximum"]))
        return found

    def walk_object(node, value, path):
        known = node.get("properties", {})
        found = [(path, 'has no key "%s"' % key) for key in node.get("required", []) if key not in value]
        if "additionalProperties" in node:
            found += [(path, 'has a further key "%s"' % key) for key in value if key not in known]
        if len(value) < node.get("minProperties", 0):
            found.append((path, "has fewer keys than %d" % node["minProperties"]))
        if len(value) > node.get("maxProperties", len(value)):
            found.append((path, "has more keys than %d" % node["maxProperties"]))
        for key, part in known.items():
            if key in value:
                found += walk(part, value[key], path + (key,))
        return found

    def walk_array(node, value, path):
        first = node.get("prefixItems", [])
        found = [(path, "has fewer items than %d" % node["minItems"])] if len(value) < node.get("minItems", 0) else []
        for i, part in enumerate(value):
            if i < len(first):
                found += walk(first[i], part, path + (i,))
            elif node.get("items") is False:
                return found + [(path, "has more items than %d" % len(first))]
            elif "items" in node:
                found += walk(node["items"], part, path + (i,))
        return found

    return walk(schema, value, ())
