#!/usr/bin/env python3
"""Says where a listing has no form: what `./wcv explain FILE ..` runs.

    tools/explain.py [FILE ..]     standard input where no file is named

Of each file it writes one line: that the file is a listing, or the place of the first part without a form
by line, column and path, with what is expected there. The path begins at the item that the program names in
`bad listing at N`. What has a form is read from docs/listing.schema.json; Python 3.8 or later is enough.
Ends with 0 where each is a listing, 3 where one is none, 4 where one cannot be read.
"""
import difflib
import json
import os
import re
import sys

import json_places

ROOT = os.path.dirname(os.path.dirname(os.path.abspath(__file__)))
MOST = 67_108_864  # bytes that the program reads
TYPES = {"object": dict, "array": list, "string": str, "integer": int, "boolean": bool, "null": type(None)}
TYPE_NAMES = {"object": "an object", "array": "a list", "string": "a text", "boolean": "true or false", "null": "null"}
NAMES = {dict: "an object", list: "a list", float: "a number that is not written as a whole one"}
LONGEST = 40  # signs of a value that are shown


class Fault:
    """A part without a form: its place in the text, the keys and positions that lead to it, and why."""

    def __init__(self, at, path, why):
        self.at = at
        self.path = path
        self.why = why


# What is said.


def say(value):
    """A short text of a value."""
    if type(value.it) in NAMES:
        return NAMES[type(value.it)]
    text = json.dumps(value.it, ensure_ascii=False)
    return text if len(text) <= LONGEST else f"{text[:LONGEST]}.."


def words(names):
    return ", ".join(f"`{name}`" for name in names)


def unknown(key, known):
    """That a key is unknown, with the one that may be meant, or all that are known."""
    near = difflib.get_close_matches(key, known, 1)
    return f"an unknown key; `{near[0]}` is near it" if near else f"an unknown key; known are {words(known)}"


def step_text(step):
    if isinstance(step, int):
        return f"[{step}]"
    return f".{step}" if re.fullmatch(r"[\w-]+", step) else f"[{json.dumps(step)}]"


def path_text(path):
    return "$" + "".join(map(step_text, path))


# What has a form.


class Schema:
    """The schema of listings, of which it knows the keywords that are used there."""

    def __init__(self, whole):
        self.whole = whole

    def parts(self, schema):
        """The schema, and those that it refers to."""
        yield schema
        while "$ref" in schema:
            schema = self.whole["$defs"][schema["$ref"].rsplit("/", 1)[1]]
            yield schema

    def expected(self, schema):
        """What stands there, in the schema's words."""
        for part in self.parts(schema):
            if "enum" in part:
                return f"one of {words(part['enum'])}"
            if "const" in part:
                return words([part["const"]])
            if part.get("type") in TYPE_NAMES:
                return TYPE_NAMES[part["type"]]
            if "maximum" in part:
                return f"a whole number below 2^{(part['maximum'] + 1).bit_length() - 1}"
            if "oneOf" in part:
                return ", or ".join(self.expected(one) for one in part["oneOf"])
        return "something else"

    def fault(self, schema, value, path):
        """The first fault of a value, or None."""
        for part in self.parts(schema):
            if not self.is_of(part, value):
                return Fault(value.at, path, f"expected {self.expected(part)}, found {say(value)}")
            found = self.choice(part, value, path)
            if found is None and isinstance(value.it, dict):
                found = self.object_fault(part, value, path)
            if found is None and isinstance(value.it, list):
                found = self.list_fault(part, value, path)
            if found is not None:
                return found
        return None

    def is_of(self, schema, value):
        """Whether a value is of the type, and one of the values, that a schema asks for."""
        it = value.it
        if "type" in schema and type(it) is not TYPES[schema["type"]]:
            return False
        if "enum" in schema and not (isinstance(it, str) and it in schema["enum"]):
            return False
        if "const" in schema and (type(it), it) != (type(schema["const"]), schema["const"]):
            return False
        return not isinstance(it, int) or schema.get("minimum", it) <= it <= schema.get("maximum", it)

    def choice(self, schema, value, path):
        """The fault of a value that is to have exactly one of several forms: that of the form which is nearest."""
        ways = schema.get("oneOf", [])
        faults = [self.fault(way, value, path) for way in ways]
        if not ways or faults.count(None) == 1:
            return None
        if isinstance(value.it, dict):
            return self.choice_of_keys(ways, faults, value, path)
        inner = [fault for fault in faults if fault is not None and len(fault.path) > len(path)]
        return inner[0] if inner else Fault(value.at, path, f"expected {self.expected(schema)}, found {say(value)}")

    def choice_of_keys(self, ways, faults, value, path):
        """So of an object: the fault by the form with which it has the most keys in common."""
        keys = [next((self.keys(part) for part in self.parts(way) if self.keys(part)), []) for way in ways]
        common = [len(set(value.it) & set(those)) for those in keys]
        if max(common) > 0 and common.count(max(common)) == 1:
            return faults[common.index(max(common))]
        first = [those[0] for those in keys if those]
        if len(first) == 1:
            return faults[keys.index([*filter(None, keys)][0])]
        if first:
            return Fault(value.at, path, f"exactly one key of {words(first)} is due")
        return Fault(value.at, path, f"expected {' or '.join(map(self.expected, ways))}, found an object")

    def keys(self, schema):
        """The keys that a schema of an object speaks of."""
        return list(schema.get("properties", schema.get("required", [])))

    def object_fault(self, schema, value, path):
        """The first fault of the members, in the order of the text, or else one of the object."""
        known = schema.get("properties", {})
        for key, it in sorted(value.it.items(), key=lambda member: value.keys[member[0]]):
            if key not in known and "additionalProperties" in schema:
                return Fault(value.keys[key], [*path, key], unknown(key, known))
            if key in known:
                found = self.fault(known[key], it, [*path, key])
                if found is not None:
                    return found
            for other, asked in schema.get("dependentSchemas", {}).items():
                if other in value.it and key in asked["properties"] and self.fault(asked["properties"][key], it, path):
                    return Fault(value.keys[other], [*path, other], f"an unknown key beside an index under `{key}`")
        return self.number_of_keys(schema, value, path)

    def number_of_keys(self, schema, value, path):
        """The fault of an object whose members all have a form: a key that is missing, or one too many."""
        known = schema.get("properties", {})
        for key in schema.get("required", []):
            if key not in value.it:
                return Fault(value.at, path, f"no key `{key}`")
        others = [key for key in known if key not in schema.get("required", [])]
        if len(value.it) < schema.get("minProperties", 0):
            return Fault(value.at, path, f"no key that names a form; known are {words(others)}")
        if len(value.it) > schema.get("maxProperties", len(value.it)):
            there = [key for key in value.it if key in others]
            return Fault(value.keys[there[1]], [*path, there[1]], f"a second key that names a form, beside `{there[0]}`")
        return None

    def list_fault(self, schema, value, path):
        """The first fault of the elements, or else of how many they are."""
        front = schema.get("prefixItems", [])
        for k, it in enumerate(value.it):
            asked = front[k] if k < len(front) else schema.get("items", True)
            if asked is False:
                return Fault(it.at, [*path, k], f"one element too many: {len(front)} are due")
            found = self.fault(asked, it, [*path, k]) if asked is not True else None
            if found is not None:
                return found
        if len(value.it) < schema.get("minItems", 0):
            return Fault(value.at, path, f"too few elements: expected {self.expected(front[len(value.it)])} at [{len(value.it)}]")
        return None


def listing_fault(schema, root):
    """The fault that decides of a listing: of the root before its items, then of the first item that has one."""
    if not isinstance(root.it, dict):
        return schema.fault(schema.whole, root, [])
    front = {key: it for key, it in root.it.items() if key != "items" or not isinstance(it.it, list)}
    bare = dict(front)
    if len(front) < len(root.it):
        bare["items"] = json_places.Value(root.it["items"].at, [])
    found = schema.fault(schema.whole, json_places.Value(root.at, bare, root.keys), [])
    return found or schema.fault(schema.whole, root, [])


# Files.


def place(text, at):
    """The line and the column of a place, both counted from 1."""
    return text.count("\n", 0, at) + 1, at - text.rfind("\n", 0, at)


def explain(schema, data):
    """The line for the bytes of a file, and the status."""
    if data.startswith(b"\0asm"):
        return "a WebAssembly binary: the word for a component binary is validate-binary", 3
    if len(data) > MOST:
        return f"longer than {MOST} bytes", 7
    try:
        text, root = json_places.read(data)
    except json_places.NotJson as error:
        line, column = place(data.decode("utf-8", "replace"), error.at)
        return f"bad listing: not JSON: line {line}, column {column}: {error.why}", 3
    found = listing_fault(schema, root)
    if found is None:
        return "a listing: each item has a form", 0
    line, column = place(text, found.at)
    item = found.path[1] if len(found.path) > 1 and found.path[0] == "items" else 0
    return f"bad listing at {item}: line {line}, column {column}: {path_text(found.path)}: {found.why}", 3


def read_file(name):
    if name is None:
        return sys.stdin.buffer.read(MOST + 1)
    with open(name, "rb") as file:
        return file.read(MOST + 1)


def main():
    with open(f"{ROOT}/docs/listing.schema.json", encoding="utf-8") as file:
        schema = Schema(json.load(file))
    names = sys.argv[1:] or [None]
    worst = 0
    for name in names:
        try:
            line, status = explain(schema, read_file(name))
        except OSError as error:
            print(f"wcv: cannot read {name or 'standard input'}: {error.strerror}", file=sys.stderr)
            worst = max(worst, 4)
            continue
        print(line if len(names) == 1 else f"{name}: {line}")
        worst = max(worst, status)
    return worst


if __name__ == "__main__":
    sys.exit(main())
