"""Makes listings of canonical functions that are measured."""
import itertools

from make_listings import PRIMITIVES, bounded, core_group, defined, func_type, words_name

FEATURES = (
    "threads function-references memory64 shared-everything-threads cm-async cm-async-stackful cm-more-async-builtins "
    "cm-forward cm-threading cm64 cm-error-context"
).split()  # those that some canonical function needs

MOST = 900_000  # functions and core functions: of both 1,000,000 are allowed


def canon(name, operands=None):
    return {"canon": {name: operands}}


def core_export(name, params, results, index):
    """Declarations of a core function with its type, the type at that index of the module."""
    return [{"type": [{"func": [params, results]}]}, {"export": [name, {"func": index}]}]


def aliases(sort, names):
    return [{"alias": {"core-export": [0, sort, name]}} for name in names]


def core_items():
    """A core module, its instance, and aliases: memory 0, and the core functions 0 for `realloc`, 1 for `callback`, 2
    that takes an `i32`, 3 that gives one, and 4 that takes two and gives one."""
    types = (
        ("realloc", ["i32"] * 4, ["i32"]),
        ("callback", ["i32"] * 3, ["i32"]),
        ("taking", ["i32"], []),
        ("giving", [], ["i32"]),
        ("both", ["i32"] * 2, ["i32"]),
    )
    decls = [{"export": ["memory", {"memory": {"min": 1}}]}]
    for k, (name, params, results) in enumerate(types):
        decls += core_export(name, params, results, k)
    yield {"core-module": decls}
    yield {"core-instance": {"module": 0, "args": []}}
    yield from aliases("memory", ["memory"])
    yield from aliases("func", [name for name, _, _ in types])


LIFTING = [{"memory": 0}, {"realloc": 0}]


def after(first, limit, make):
    """The first items, and then what `make` gives for 0, 1, .. until the lines have so many bytes."""
    first = list(first)
    end = len(first) + MOST
    items = bounded(limit, lambda k: first[k] if k < len(first) else make(k - len(first)))
    yield from itertools.islice(items, end)


def lowered_again(types, functions):
    """What makes the types, a function over each of those at these indices, which is lifted from a core function that
    takes a pointer, and then lowerings of these functions in turn."""
    first = [*core_items(), *types]
    for k, params in enumerate(functions):
        first.append(func_type(params, None))
        first.append(canon("lift", {"core": 2, "type": len(types) + k, "options": LIFTING}))
    lowering = lambda k: canon("lower", {"func": k % len(functions), "options": [{"memory": 0}, "utf16"]})
    return lambda limit: after(first, limit, lowering)


def wide(count):
    """Functions that are lowered, each with so many parameters."""
    params = lambda seed: [[f"p{k}", PRIMITIVES[(k + seed) % 13]] for k in range(count)]
    return lowered_again([], [params(seed) for seed in range(13)])


def wide_values(count):
    """The same with one parameter, a tuple of so many parts."""
    types = [defined({"tuple": [PRIMITIVES[(k + seed) % 13] for k in range(count)]}) for seed in range(13)]
    return lowered_again(types, [[["x", k]] for k in range(13)])


def deep(depth):
    """The same with tuples of options, each of the one before twice or, where that would be too large, once, so many
    one in the other."""
    types = [defined("u32")]
    for k in range(depth):
        types.append(defined({"option": k} if k % 2 else {"tuple": [k, k] if k < 30 else [k]}))
    return lowered_again(types, [[["x", k]] for k in range(depth - 20, depth + 1)])


def lifted(limit):
    """A function type, and a function of that type that is lifted with each option that it may have, in turn."""

    def make(k):
        index, place = divmod(k, 2)
        if place == 0:
            return func_type([[words_name("parameter", index), "string"]], "string")
        options = [*LIFTING, {"post-return": 2}, ("utf8", "utf16", "latin1-utf16")[index % 3]]
        return canon("lift", {"core": 4, "type": index, "options": options})

    yield from after(core_items(), limit, make)


def lifted_async(limit):
    """The same, async and with a callback."""

    def make(k):
        index, place = divmod(k, 2)
        if place == 0:
            return {"type": {"func": {"params": [[words_name("parameter", index), "string"]], "result": "string", "async": True}}}
        options = [*LIFTING, "async", {"callback": 1}, ("utf8", "utf16", "latin1-utf16")[index % 3]]
        return canon("lift", {"core": 4, "type": index, "options": options})

    yield from after(core_items(), limit, make)


def all_items():
    """What the canonical functions below name: types of a resource, of a stream, of a future and of two functions, the
    second async; core types of what is spawned and of what starts a thread; a table for each; the functions 0 and 1."""
    yield from core_items()
    function = lambda shared: {"ref": "func", "null": True, **({"shared": True} if shared else {})}
    tables = [{"table": {"elem": function(it), "min": 1, **({"shared": True} if it else {})}} for it in (False, True)]
    yield {"core-module": [{"export": [f"table{k}", table]} for k, table in enumerate(tables)]}
    yield {"core-instance": {"module": 1, "args": []}}
    for k in range(2):
        yield {"alias": {"core-export": [1, "table", f"table{k}"]}}
    yield core_group({"shared": True, "func": [["i32"], []]})
    yield core_group({"func": [["i32"], []]})
    yield {"type": {"resource": {"rep": "i32"}}}
    yield defined({"stream": "string"})
    yield defined({"future": "string"})
    yield func_type([["x", "u32"]], None)
    yield {"type": {"func": {"params": [["x", "string"]], "result": "string", "async": True}}}
    yield canon("lift", {"core": 2, "type": 3, "options": []})
    yield canon("lift", {"core": 4, "type": 4, "options": LIFTING})


PLAIN = (
    "backpressure.inc backpressure.dec task.cancel subtask.drop error-context.drop waitable-set.new waitable-set.drop "
    "waitable.join thread.index thread.suspend thread.resume-later thread.yield thread.suspend-then-resume "
    "thread.yield-then-resume thread.suspend-then-promote thread.yield-then-promote thread.available-parallelism"
).split()


def each_canonical():
    """Each canonical function once, over what `all_items` has."""
    yield canon("lift", {"core": 4, "type": 4, "options": [*LIFTING, "async", {"callback": 1}]})
    yield canon("lower", {"func": 1, "options": [*LIFTING, "async"]})
    for name in PLAIN:
        yield canon(name)
    for name in ("new", "drop", "rep"):
        yield canon(f"resource.{name}", 0)
    yield canon("thread.spawn-ref", {"type": 0})
    yield canon("thread.spawn-indirect", {"type": 0, "table": 1})
    yield canon("thread.new-indirect", {"type": 1, "table": 0})
    yield canon("task.return", {"result": "string", "options": [{"memory": 0}]})
    yield canon("context.get", {"type": "i32", "slot": 0})
    yield canon("context.set", {"type": "i32", "slot": 1})
    yield canon("subtask.cancel", {"async": True})
    for index, end in ((1, "stream"), (2, "future")):
        for name in ("new", "forward", "drop-readable", "drop-writable"):
            yield canon(f"{end}.{name}", index)
        yield canon(f"{end}.read", {"type": index, "options": [*LIFTING, "async"]})
        yield canon(f"{end}.write", {"type": index, "options": [{"memory": 0}]})
        for name in ("cancel-read", "cancel-write"):
            yield canon(f"{end}.{name}", {"type": index, "async": False})
    yield canon("error-context.new", {"options": [{"memory": 0}]})
    yield canon("error-context.debug-message", {"options": LIFTING})
    for name in ("wait", "poll"):
        yield canon(f"waitable-set.{name}", 0)


def in_turn(limit):
    """Each canonical function in turn."""
    each = list(each_canonical())
    yield from after(all_items(), limit, lambda k: each[k % len(each)])
