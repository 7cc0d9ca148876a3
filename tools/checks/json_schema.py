"""A validator for what docs/*.schema.json use of JSON Schema (draft 2020-12), so that the gate needs no package."""

import re

TYPES = {
    "array": lambda it: isinstance(it, list),
    "boolean": lambda it: isinstance(it, bool),
    "integer": lambda it: isinstance(it, int) and not isinstance(it, bool),
    "null": lambda it: it is None,
    "object": lambda it: isinstance(it, dict),
    "string": lambda it: isinstance(it, str),
}
KNOWN = {"$defs", "$id", "$ref", "$schema", "additionalProperties", "anyOf", "const", "enum", "items", "minimum", "oneOf",
         "pattern", "properties", "propertyNames", "required", "type"}


class Schema:
    """A schema document; a definition with an `$id` is a document of its own, and `$ref` finds it by that."""

    def __init__(self, document):
        self.document = document
        self.others = {it["$id"]: Schema(it) for it in document.get("$defs", {}).values() if "$id" in it}

    def faults(self, value):
        """What is wrong with a value, as texts."""
        return list(self._faults(self.document, value, "$"))

    def _referred(self, reference):
        """The document and the schema that a reference names."""
        if reference in self.others:
            return self.others[reference], self.others[reference].document
        _, folder, name = reference.removeprefix("#").split("/")
        return self, self.document[folder][name]

    def _faults(self, schema, value, place):
        unknown = schema.keys() - KNOWN if isinstance(schema, dict) else ()
        if unknown:
            raise ValueError("a keyword that this validator does not know: %s" % ", ".join(sorted(unknown)))
        if schema is False:
            yield "%s may not be there" % place
        if not isinstance(schema, dict):
            return
        if "$ref" in schema:
            other, referred = self._referred(schema["$ref"])
            yield from other._faults(referred, value, place)
        types = schema.get("type", [])
        types = types if isinstance(types, list) else [types]
        if types and not any(TYPES[it](value) for it in types):
            yield "%s is not of type %s" % (place, "|".join(types))
        if "const" in schema and (type(value), value) != (type(schema["const"]), schema["const"]):
            yield "%s is not %r" % (place, schema["const"])
        if "enum" in schema and value not in schema["enum"]:
            yield "%s is none of %r" % (place, schema["enum"])
        for word, wanted in (("oneOf", (1,)), ("anyOf", range(1, 1000))):
            if word in schema and sum(not list(self._faults(it, value, place)) for it in schema[word]) not in wanted:
                yield "%s fits not %s" % (place, word)
        if isinstance(value, str) and not re.search(schema.get("pattern", ""), value):
            yield "%s does not fit %s" % (place, schema["pattern"])
        if TYPES["integer"](value) and value < schema.get("minimum", value):
            yield "%s is too small" % place
        if isinstance(value, list):
            for number, item in enumerate(value):
                yield from self._faults(schema.get("items", True), item, "%s[%d]" % (place, number))
        if isinstance(value, dict):
            yield from self._object_faults(schema, value, place)

    def _object_faults(self, schema, value, place):
        properties = schema.get("properties", {})
        for name in schema.get("required", []):
            if name not in value:
                yield "%s lacks %s" % (place, name)
        for name, member in value.items():
            yield from self._faults(schema.get("propertyNames", True), name, "%s: the name %s" % (place, name))
            inner = properties.get(name, schema.get("additionalProperties", True))
            yield from self._faults(inner, member, "%s.%s" % (place, name))
