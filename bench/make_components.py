"""Makes listings of whole components that are measured: components in components, and what is handed on between them."""
import json

from make_canonicals import canon
from make_listings import (
    DOUBLINGS, PRIMITIVES, WORDS, bounded, component, defined, export_decl, export_of, func_type, import_of, instance, ordinary,
    words_name,
)

MOST = 1_000  # components that may stand in one
DEEP = 40  # components in one another: JSON lets 127 arrays and objects nest, and the rules would let 100 be open


def import_instance(name, index):
    return {"import": {"name": name, "type": {"instance": index}}}


def instance_of(index, args=()):
    return {"instance": {"component": index, "args": list(args)}}


def export_item(name, sort, index):
    return {"export": {"name": name, "sort": sort, "index": index}}


def alias_of(index, sort, name):
    return {"alias": {"export": [index, sort, name]}}


def outer_type(count, index):
    return {"alias": {"outer": ["type", count, index]}}


def in_thousands(limit, inner, first=()):
    """Components that hold the first items and then the inner component, up to 1,000 times each, for no more may stand
    in one, until the inner ones have so many bytes."""
    count = max(limit // (len(json.dumps({"at": 1_000, **inner})) + 2), 1)
    for done in range(0, count, MOST):
        yield component([*first, *[inner] * min(MOST, count - done)])


def side_by_side(limit):
    """Components in thousands with seven items each: a function and a resource, both exported. In the largest listing
    there are some 122,000."""
    items = [func_type([["number", "u32"]], "string"), import_of("to-text", 0)]
    items += [{"type": {"resource": {"rep": "i32"}}}, export_item("buffer", "type", 1)]
    items += [defined({"own": 2}), export_item("owned-buffer", "type", 3), export_of("number-to-text", 0)]
    yield from in_thousands(limit, component(items))


def in_one_another(limit):
    """Components 40 deep, each with function types, imports and exports and behind them the next: some 260 items in each
    at 1 MB, and 15,000 at 64 MB."""
    items = list(ordinary(limit // DEEP))
    inner = component(items)
    for _ in range(DEEP - 1):
        inner = component([*items, inner])
    yield inner


def aliased_functions(count):
    """An instance type that exports so many functions, its import, and an alias of each by its name. There may be
    100,000 declarations, and one of them is the type."""
    exports = [export_decl(words_name("function", n), {"func": 0}) for n in range(count)]
    yield {"type": instance(func_type([["x", "u32"]], None), *exports)}
    yield import_instance("all", 0)
    for n in range(count):
        yield alias_of(0, "func", words_name("function", n))


def outer_through(limit):
    """Components 40 deep, over and over: each has a type, and aliases of the first type of each context that is open,
    from itself to the root."""
    inner = []
    for level in reversed(range(1, DEEP + 1)):
        aliases = [outer_type(count, 0) for count in range(level + 1)]
        inner = [component([defined({"record": [["x", "u32"]]}), *aliases, *inner])]
    yield from bounded(limit, lambda k: inner[0] if k else defined({"record": [["x", "u32"]]}))


def interface_name(k):
    return f"example-{WORDS[k // 31 % 31]}:{WORDS[k * 7 % 31]}/{WORDS[k % 31]}-n{k}@0.2.1"


def interface(seed, functions):
    """The type of an instance with an error, a record, and a resource with a constructor and so many methods, each of
    which gives the record or the error."""
    error = {"variant": [["closed"], ["failed", "string"]]}
    entry = {"record": [["id", "u64"], ["name", "string"], ["size", PRIMITIVES[seed % 13]]]}
    decls = [defined(error), export_decl("error", {"eq": 0}), defined(entry), export_decl("entry", {"eq": 2})]
    decls += [export_decl("session", "sub-resource"), defined({"own": 4}), defined({"borrow": 4})]
    decls += [defined({"result": {"ok": 3, "err": 1}}), func_type([["name", "string"]], 5)]
    decls.append(export_decl("[constructor]session", {"func": 8}))
    for n in range(functions):
        decls.append(func_type([["self", 6], [words_name("key", n), PRIMITIVES[(seed + n) % 13]]], 7))
        decls.append(export_decl(f"[method]session.{words_name('get', n)}", {"func": 9 + n}))
    return instance(*decls)


def user(wanted, given):
    """A component that imports instances, each by its name and its type. Core code takes the constructor of each, lowered,
    and has a function that is lifted and exported. So is the first instance, under the name that is given."""
    count = len(wanted)
    items = [{"core-module": [{"export": ["memory", {"memory": {"min": 1}}]}]}, {"core-instance": {"module": 0, "args": []}}]
    items.append({"alias": {"core-export": [0, "memory", "memory"]}})
    for n, (name, ty) in enumerate(wanted):
        items += [{"type": ty}, import_instance(name, n), alias_of(n, "func", "[constructor]session")]
        items.append(canon("lower", {"func": n, "options": [{"memory": 0}, "utf8"]}))
    items.append({"core-instance": {"exports": [[name, "func", n] for n, (name, _) in enumerate(wanted)]}})
    decls = [{"type": [{"func": [["i32", "i32"], ["i32"]]}]}]
    decls += [{"import": ["env", name, {"func": 0}]} for name, _ in wanted]
    items += [{"core-module": [*decls, {"export": ["run", {"func": 0}]}]}, {"core-instance": {"module": 1, "args": [["env", 1]]}}]
    items += [{"alias": {"core-export": [2, "func", "run"]}}, func_type([["from", "u32"], ["to", "u32"]], "u32")]
    items.append(canon("lift", {"core": count, "type": count, "options": []}))
    items += [export_of("run", count), export_item(given, "instance", 0)]
    return component(items)


def composition(count, functions, width=20):
    """So many interfaces with so many functions, and an instance of each. Each 20 in turn are handed on to a component
    that imports them, and besides what the component before exports. 900 interfaces, the instances that are made and
    those that are aliased are nearly the 1,000 that may stand in one component."""
    handed = [(interface_name(k), interface(k, functions), k) for k in range(count)]
    for name, ty, index in handed:
        yield {"type": ty}
        yield import_instance(name, index)
    before, made = [], count
    for part in range(count // width):
        wanted = [*handed[part * width : (part + 1) * width], *before]
        given = f"example:parts/part-n{part}@0.2.1"
        yield user([(name, ty) for name, ty, _ in wanted], given)
        yield instance_of(part, [[name, "instance", index] for name, _, index in wanted])
        yield alias_of(made, "instance", given)
        before = [(given, wanted[0][1], made + 1)]
        made += 2
    yield alias_of(made - 2, "func", "run")
    yield export_of("run", 0)
    yield export_item("example:parts/whole@0.2.1", "instance", made - 1)


def charged(limit):
    """Components in thousands that alias types of the component around them, until what crosses into each has the size
    1,000,000, and import a function over the largest. The types are tuples that name the type before twice."""
    types = [defined({"tuple": [k - 1, k - 1]} if k else "u8") for k in range(DOUBLINGS + 1)]
    items, left = [], 1_000_000
    for k in reversed(range(DOUBLINGS + 1)):
        size = 2 ** (k + 1) - 1
        if size <= left:
            items.append(outer_type(1, k))
            left -= size
    items += [func_type([["x", 0]], None), import_of("taking-the-largest", len(items))]
    yield from in_thousands(limit, component(items), types)


def handles(k):
    """Of items that define a resource and export handles of it, two items for each, the one at a position."""
    if k == 0:
        return {"type": {"resource": {"rep": "i32"}}}
    if k == 1:
        return export_item("resource", "type", 0)
    return defined({"own": 1}) if k % 2 == 0 else export_item(words_name("exported-handle", k), "type", k - 1)


def instances_in_one_another(limit):
    """Components 40 deep, each of which makes an instance of the next and exports it. The innermost exports handles, each
    of which is made again at each level."""
    inner = component(bounded(limit, handles))
    for _ in range(DEEP - 1):
        inner = component([inner, instance_of(0), export_item("inner", "instance", 0)])
    yield inner
    yield instance_of(0)
    yield export_item("inner", "instance", 0)


def instances_of_one(count):
    """A component that exports so many handles, and as many instances of it, each of which has handles of its own."""
    yield component(handles(k) for k in range(2 + 2 * count))
    for _ in range(count):
        yield instance_of(0)


def made(count):
    """The listing that the program makes for a number."""

    def function_over_resource():
        yield {"import": {"name": "r", "type": "sub-resource"}}
        yield defined({"own": 0})
        yield func_type([["x", 1]], None)
        yield import_of("f", 2)

    yield from function_over_resource()
    yield component([*function_over_resource(), export_of("g", 0)])
    for _ in range(count):
        yield instance_of(0, [["r", "type", 0], ["f", "func", 0]])
    for k in range(count):
        yield alias_of(k, "func", "g")
    for k in range(count):
        yield export_of(f"g{k}", k + 1)
