#!/usr/bin/env python3
"""Compares docs/listing.schema.json with what the program answers, on listings that are made by changes.

    bench/check_schema.py [--program './wcv validate'] [--count 3000] [--seed 1] [FOLDER ...]

The listings that are changed are those in examples/, one for each example of a form in the schema, one for
each canonical function, and the .json files below each FOLDER; each second change is one of a listing whose
items all have a form. In eight of examples/ (functions, defined, resources, modules, linked, component-type, values and
mismatch) each place is also changed in each way. The same seed makes the same listings. What disagrees is printed, and the last line has
counts. Needs Python 3.10 and its package `jsonschema`, 4.0, or later versions of both.

What must hold of each text:

- Where it is no JSON, or is JSON that the schema refuses, the status is 3, with 0 where it refuses the root,
  and else with the position of the first item of the root in which something is refused.
- Else the listing is accepted, or refused with one of the kinds that are known.
- tools/explain.py says the same: no JSON, the same position, or that each item has a form.

Of numbers the schema says less than the format: see docs/LISTING.md. Here a number with a point, an exponent
or the sign of `-0` counts as one that is not whole.
"""
import argparse
import collections
import concurrent.futures
import itertools
import json
import os
import random
import re
import shlex
import subprocess
import sys

from jsonschema import Draft202012Validator

ROOT = os.path.dirname(os.path.dirname(os.path.abspath(__file__)))
sys.path.insert(0, f"{ROOT}/tools")
import explain

SCHEMA = json.load(open(f"{ROOT}/docs/listing.schema.json", encoding="utf-8"))
PARTS = SCHEMA["$defs"]
FORMS = [key for key in PARTS["item"]["properties"] if key != "at"]
WHOLE = Draft202012Validator(SCHEMA)
FORMS_TOLD = explain.Schema(SCHEMA)
LONGEST = 8_000  # bytes of a listing of a folder that is changed
DEEPEST = 127  # levels of nesting that are JSON
KINDS = (
    "OutOfBounds WrongSort UnknownExport Feature Limit CoreType Name Conflict MethodName Options Signature Shape Borrow "
    "Mismatch Unnamed ResourceScope AliasKind Value StartTwice Context"
).split()
REFUSALS = tuple(f"refused {kind} at " for kind in KINDS)
WHOLLY_CHANGED = ("functions.json", "defined.json", "resources.json", "modules.json", "linked.json", "component-type.json", "values.json", "mismatch.json")


class NotJson(Exception):
    """The bytes are no JSON for the program."""


class Raw:
    """What stands in a listing as it is written here."""

    def __init__(self, text):
        self.text = text


# Texts and values.


def write(value):
    """The text of a value. A key is written up to a character 0, so that one may stand twice."""
    if isinstance(value, Raw):
        return value.text
    if isinstance(value, dict):
        return "{" + ", ".join(f"{json.dumps(key.split(chr(0))[0])}: {write(it)}" for key, it in value.items()) + "}"
    if isinstance(value, list):
        return "[" + ", ".join(write(it) for it in value) + "]"
    return json.dumps(value)


def read_float(text):
    if float(text) in (float("inf"), float("-inf")):
        raise NotJson
    return 0.5


def read_whole(text):
    read_float(text)
    return 0.5 if text == "-0" else int(text)


def refuse_word(text):
    raise NotJson


def read_object(pairs):
    """An object. Of a key that stands twice the last counts, but what stands under the others must be JSON."""
    json.dumps(pairs, ensure_ascii=False).encode()
    return dict(pairs)


def depth(text):
    """How many levels of lists and objects a text has."""
    level = deepest = 0
    for sign in re.sub(r'"(?:[^"\\]|\\.)*"', "", text):
        level += (sign in "[{") - (sign in "]}")
        deepest = max(deepest, level)
    return deepest


def read(text):
    """The value of a text, with 0.5 in place of each number that is not written as a whole one."""
    if depth(text) > DEEPEST:
        raise NotJson
    numbers = {"parse_float": read_float, "parse_int": read_whole, "parse_constant": refuse_word}
    try:
        value = json.loads(text, object_pairs_hook=read_object, **numbers)
        json.dumps(value, ensure_ascii=False).encode()
        return value
    except ValueError:
        raise NotJson from None


# What the schema says of a listing.


def first_bad(value):
    """The position of the first item of the root that has no form, 0 where the root has none, or None."""
    paths = [list(error.absolute_path) for error in WHOLE.iter_errors(value)]
    if any(len(path) < 2 or path[0] != "items" for path in paths):
        return 0
    return min((path[1] for path in paths), default=None)


def is_number(value):
    return isinstance(value, int) and not isinstance(value, bool)


def has_forms(value):
    """Whether the root and each item has a form, so that a change shows in the program's answer."""
    return first_bad(value) is None


# The program.


class Program:
    def __init__(self, command):
        self.words = shlex.split(command)
        self.known = {}

    def answer(self, text):
        """The status and the first line for a listing."""
        if text not in self.known:
            ran = subprocess.run(self.words, input=text.encode("utf-8"), capture_output=True, timeout=60, cwd=ROOT)
            self.known[text] = ran.returncode, ran.stdout.decode("utf-8").split("\n")[0]
        return self.known[text]


def wanted(program, text):
    """What is wanted of a listing, in words, and a test of a status and a first line."""

    def exactly(status, line):
        return f"{status} {line}", lambda *answer: answer == (status, line)

    try:
        value = read(text)
    except NotJson:
        return "no JSON", *exactly(3, "bad listing: not JSON")
    bad = first_bad(value)
    if bad is not None:
        return "bad listing", *exactly(3, f"bad listing at {bad}")
    return "good shape", "accepted, or refused with a kind", lambda status, line: (
        (status, line) == (0, "accepted") or status == 1 and line.startswith(REFUSALS)
    )


def is_explained(text, status, line):
    """Whether tools/explain.py says of a text what the program's status and first line say of its form."""
    told, end = explain.explain(FORMS_TOLD, text.encode("utf-8"))
    return told.startswith(f"{line}:") if status == 3 else end == 0


# Listings that are changed.


def listing(body):
    """A listing of one item of a form after a function type and its import."""
    front = [{"type": {"func": PARTS["function-type"]["examples"][0]}}, {"import": {"name": "f", "type": {"func": 0}}}]
    return {"version": 1, "items": [{"at": k, **item} for k, item in enumerate([*front, body])], "end": 9}


def example_of(part):
    return PARTS[part["$ref"].split("/")[-1]]["examples"][0]


def read_example(name):
    return json.load(open(f"{ROOT}/examples/{name}", encoding="utf-8"))


def own_listings():
    """The examples of the repository and of the schema."""
    yield from (read_example(name) for name in sorted(os.listdir(f"{ROOT}/examples")) if name.endswith(".json"))
    yield from SCHEMA["examples"]
    for form in FORMS:
        for body in PARTS[form]["examples"]:
            yield listing({form: body})
    for body in PARTS["defined-type"]["examples"]:
        yield listing({"type": {"defined": body}})
    for body in PARTS["type-reference"]["examples"]:
        yield listing({"import": {"name": "x", "type": body}})
    for body in PARTS["extern-name"]["examples"]:
        yield listing({"export": {"name": body, "sort": "func", "index": 0}})
    for body in PARTS["sub-type"]["examples"]:
        yield listing({"core-type": {"rec": [body]}})
    for body in PARTS["core-entity"]["examples"]:
        yield listing({"core-module": [{"import": ["m", "f", body]}]})
    for name, operands in PARTS["canon"]["properties"].items():
        yield listing({"canon": {name: example_of(operands)}})
    for feature in PARTS["feature"]["enum"][:2]:
        yield {**SCHEMA["examples"][0], "features": [feature]}


def folder_listings(folder):
    """The JSON files below a folder that are not too long, in the order of their names."""
    for place, folders, names in os.walk(folder):
        folders.sort()
        for name in sorted(names):
            file = f"{place}/{name}"
            if name.endswith(".json") and os.path.getsize(file) <= LONGEST:
                try:
                    yield json.load(open(file, encoding="utf-8"))
                except ValueError:
                    continue


# Changes.


def under(key, schema):
    """Each list under `enum`, or object under `properties`, wherever it stands in the schema."""
    if isinstance(schema, dict):
        if isinstance(schema.get(key), {"enum": list, "properties": dict}[key]):
            yield list(schema[key])
        for part in schema.values():
            yield from under(key, part)
    elif isinstance(schema, list):
        for part in schema:
            yield from under(key, part)


NAMES = sorted({name for names in under("enum", SCHEMA) for name in names} | {"sub-resource"})
OBJECTS = list(under("properties", SCHEMA))
KEYS = sorted({key for keys in OBJECTS for key in keys})
TEXTS = ["", "f", "F", "Foo", "a-1", "a--b", "1a", "[get]x", "a:b/c", "a:b/c@1.0.0", "é", "x\n", "$name", "u32 "]
NUMBERS = [-1, 2**32 - 1, 2**32, 2**64 - 1, 2**64, 10**30, 7, 0] + [
    Raw(text) for text in ("-0", "1.0", "0.5", "1e2", "1E0", "1e-2", "1e400", "1" + "0" * 400)
]
OTHERS = [None, True, False, 0, 1, "", "x", [], {}, [0], {"a": 0}, Raw("1.0"), Raw('"\\ud800"')]


def slots(value):
    """Each list or object in a value with each of its places."""
    found = []
    for key, it in list(value.items() if isinstance(value, dict) else enumerate(value)):
        found.append((value, key))
        if isinstance(it, (dict, list)):
            found += slots(it)
    return found


def copy(value):
    if isinstance(value, dict):
        return {key: copy(it) for key, it in value.items()}
    return [copy(it) for it in value] if isinstance(value, list) else value


def replace_key(target, old, new):
    """The object with another key in the place of one of its own."""
    pairs = list(target.items())
    target.clear()
    target.update((new if key == old else key, it) for key, it in pairs)


def every_change(seed):
    """The listing without what stands in each of its places, and with each other value there."""
    for k in range(len(slots(seed))):
        for other in [(), *((it,) for it in OTHERS + NUMBERS)]:
            changed = copy(seed)
            target, key = slots(changed)[k]
            if other:
                target[key] = copy(other[0])
            else:
                del target[key]
            yield write(changed)


class Changes:
    """Changes of a listing, by the numbers of one generator."""

    def __init__(self, numbers, seeds):
        self.numbers = numbers
        self.seeds = seeds
        self.kinds = [
            self.drop_key, self.add_key, self.rename_key, self.repeat_key, self.change_type, self.change_number,
            self.swap_form, self.duplicate, self.shorten, self.change_name, self.change_text, self.splice,
            self.add_level,
        ]

    def pick(self, root, is_wanted):
        """A place in the listing that is wanted, or None."""
        found = [(target, key) for target, key in slots(root) if is_wanted(target, key)]
        return self.numbers.choice(found) if found else None

    def drop_key(self, root):
        if place := self.pick(root, lambda target, key: isinstance(target, dict)):
            del place[0][place[1]]

    def add_key(self, root):
        """A key that may stand beside the others in some object, or any."""
        if place := self.pick(root, lambda target, key: isinstance(target[key], dict)):
            within = place[0][place[1]]
            likely = [key for keys in OBJECTS if set(within) <= set(keys) for key in keys if key not in within]
            others = likely if likely and self.numbers.random() < 0.5 else [*KEYS, "$schema", "x"]
            within[self.numbers.choice(others)] = copy(self.numbers.choice(OTHERS))

    def rename_key(self, root):
        if place := self.pick(root, lambda target, key: isinstance(target, dict)):
            target, key = place
            replace_key(target, key, self.numbers.choice([*KEYS, *(name for name in target if name != key)]))

    def repeat_key(self, root):
        if place := self.pick(root, lambda target, key: isinstance(target, dict)):
            target, key = place
            old, new = target[key], copy(self.numbers.choice(OTHERS))
            target[key], target[key + chr(0)] = self.numbers.choice([(old, new), (new, old)])

    def change_type(self, root):
        if place := self.pick(root, lambda target, key: True):
            place[0][place[1]] = copy(self.numbers.choice(OTHERS))

    def change_number(self, root):
        if place := self.pick(root, lambda target, key: is_number(target[key])):
            place[0][place[1]] = self.numbers.choice(NUMBERS)

    def swap_form(self, root):
        one_key = lambda target, key: isinstance(target, dict) and (len(target) == 1 or key in FORMS)
        if place := self.pick(root, one_key):
            replace_key(*place, self.numbers.choice(FORMS + KEYS))

    def duplicate(self, root):
        if place := self.pick(root, lambda target, key: isinstance(target, list)):
            place[0].insert(place[1], copy(place[0][place[1]]))

    def shorten(self, root):
        if place := self.pick(root, lambda target, key: isinstance(target[key], list) and target[key]):
            within = place[0][place[1]]
            del within[self.numbers.randrange(len(within)) :]

    def change_name(self, root):
        if place := self.pick(root, lambda target, key: isinstance(target[key], str)):
            place[0][place[1]] = self.numbers.choice(NAMES)

    def change_text(self, root):
        if place := self.pick(root, lambda target, key: isinstance(target[key], str)):
            place[0][place[1]] = self.numbers.choice(TEXTS)

    def splice(self, root):
        """Something of another listing that stands there under the same key, or in a list as well."""
        if place := self.pick(root, lambda target, key: True):
            target, key = place
            alike = lambda other, name: name == key if isinstance(key, str) else isinstance(other, list)
            if source := self.pick(self.numbers.choice(self.seeds), alike):
                target[key] = copy(source[0][source[1]])

    def add_level(self, root):
        """Lists around something, at times as many as are JSON, or one more."""
        if place := self.pick(root, lambda target, key: True):
            target, key = place
            self.numbers.random() < 0.5 and self.nest(root, target, key)
            target[key] = [target[key]]

    def nest(self, root, target, key):
        target[key] = []
        wanted = DEEPEST - self.numbers.randrange(2) - depth(write(root[0]))
        for _ in range(wanted):
            target[key] = [target[key]]

    def make(self, seed):
        """The text of a listing with one to three changes."""
        value = [copy(seed)]
        for _ in range(self.numbers.choice((1, 1, 1, 1, 2, 2, 3))):
            self.numbers.choice(self.kinds)(value)
        return write(value[0]) if value else "[]"


def check_parts():
    """What is wrong in the schema itself."""
    Draft202012Validator.check_schema(SCHEMA)
    for name, part in [("root", SCHEMA), *PARTS.items()]:
        judge = WHOLE if part is SCHEMA else Draft202012Validator({"$ref": f"#/$defs/{name}", "$defs": PARTS})
        if not part.get("title") or "\n" in part.get("description", "\n") or not part.get("examples"):
            yield f"schema: {name} lacks a title, a description of one line or an example"
        for example in part.get("examples", []):
            yield from (f"schema: example of {name}: {error.message}" for error in judge.iter_errors(example))


def main():
    words = argparse.ArgumentParser(description=__doc__.split("\n")[0])
    words.add_argument("--program", default="./wcv validate", help="the command, run at the top of the repository")
    words.add_argument("--count", type=int, default=3000, help="how many listings are made by changes")
    words.add_argument("--seed", type=int, default=1)
    words.add_argument("folders", nargs="*", metavar="FOLDER", help="more listings that are changed")
    given = words.parse_args()
    program = Program(given.program)
    seeds = [*own_listings(), *(it for folder in given.folders for it in folder_listings(folder))]
    in_turn = zip(itertools.cycle(seeds), itertools.cycle(filter(has_forms, seeds)))
    changes = Changes(random.Random(given.seed), seeds)
    changed = itertools.islice(itertools.chain.from_iterable(in_turn), given.count)
    whole = [text for name in WHOLLY_CHANGED for text in every_change(read_example(name))]
    texts = [*map(write, seeds), *whole, *map(changes.make, changed)]
    wrong, said, statuses = list(check_parts()), collections.Counter(), collections.Counter()

    def check(text):
        kind, words, is_right = wanted(program, text)
        answer = program.answer(text)
        return text, kind, words, answer, is_right(*answer) and is_explained(text, *answer)

    with concurrent.futures.ThreadPoolExecutor(2) as pool:
        for text, kind, words, answer, is_right in pool.map(check, texts):
            said[kind] += 1
            statuses[answer[0]] += 1
            if not is_right:
                wrong.append(f"wanted: {words}\n   got: {answer[0]} {answer[1]}\n{text}")
    print(*wrong, sep="\n", end="\n" if wrong else "")
    kinds = ", ".join(f"{kind} {count}" for kind, count in sorted(said.items()))
    ends = ", ".join(f"{status}: {count}" for status, count in sorted(statuses.items()))
    print(f"{len(texts)} listings ({len(set(texts))} differ): {kinds}; statuses {ends}; {len(wrong)} disagree")
    sys.exit(1 if wrong else 0)


main()
