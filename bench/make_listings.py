"""Makes the listings that are measured: those that a user's tool would write, and some of long texts."""
import json

PRIMITIVES = "bool s8 u8 s16 u16 s32 u32 s64 u64 f32 f64 char string".split()


def write_listing(file, items, separators=None, features=()):
    """Writes the items, one a line, until there are no more, and returns how many there were. Where no features
    are given none are named."""
    count = 0
    with open(file, "w", encoding="ascii") as out:
        out.write('{"version": 1, "items": [\n')
        for count, item in enumerate(items, 1):
            out.write((",\n" if count > 1 else "") + json.dumps({"at": 8 + 23 * count, **item}, separators=separators))
        named = f', "features": {json.dumps(features)}' if features else ""
        out.write(f'\n], "end": {31 + 23 * count}{named}}}\n')
    return count


def func_type(params, result):
    func = {"params": params, "result": result} if result else {"params": params}
    return {"type": {"func": func}}


def import_of(name, index):
    return {"import": {"name": name, "type": {"func": index}}}


def export_of(name, index):
    return {"export": {"name": name, "sort": "func", "index": index}}


def component(items):
    """A component with these items."""
    items = [{"at": 100 + n, **item} for n, item in enumerate(items)]
    return {"component": {"items": items, "end": 100 + len(items)}}


WORDS = (
    "account balance channel document element frame gateway handle index journal kernel ledger message node object "
    "packet queue record session table update vector window yield archive buffer client driver engine filter graph"
).split()


def words_name(kind, k):
    """A name of three words, its kind and a number: names that differ at their beginning."""
    return "-".join((WORDS[k * 7 % 31], WORDS[k * 11 // 31 % 31], WORDS[k % 31], kind, f"n{k}"))


def front_name(kind, k):
    """A name with the same 36 bytes before its number as each other of its kind."""
    return f"{kind}-function-with-the-long-number-n{k}"


def ordinary(limit, name=words_name):
    """A function type, its import and an export of that in turn, some 110 bytes an item, until their
    lines have so many bytes. Each third item makes a type, and the other two make functions. With one
    parameter a function has the size 2, so the largest listing keeps below the limit on a component's size."""
    size, k = 60, 0
    while size < limit - 120:
        group = k // 3
        item = (
            func_type([[name("parameter", k), PRIMITIVES[group % 13]]], None),
            import_of(name("imported", k), group),
            export_of(name("exported", k), 2 * group),
        )[k % 3]
        yield item
        size += len(json.dumps({"at": 31 + 23 * k, **item})) + 2
        k += 1


def long_names():
    """1,000 items: 334 types, and 333 imports and 333 exports whose names of 99,900 bytes differ at the
    end alone."""
    front = "a" * 99_895 + "n"
    for k in range(334):
        yield func_type([["x", PRIMITIVES[k % 13]]], "bool")
    for k in range(333):
        yield import_of(f"{front}{k:04}", k)
    for k in range(333):
        yield export_of(f"{front}{k:04}", k)


def many_params():
    """1,000 items: 500 types of 100 parameters with names of 1,290 bytes, each of them imported."""
    front = "a" * 1_286 + "n"
    for k in range(500):
        yield func_type([[f"{front}{n:03}", PRIMITIVES[(k + n) % 13]] for n in range(100)], "bool")
    for k in range(500):
        yield import_of(f"f{k}", k)


def nested(limit, around):
    """Bodies without a form, of 124 parts one in the other: with the root, its items and the item they
    are as deep as a listing may nest."""
    body = 0
    for _ in range(124):
        body = around(body)
    for _ in range(limit // (len(json.dumps(body, separators=(",", ":"))) + 26)):
        yield {"component": body}


def defined(body):
    return {"type": {"defined": body}}


def bounded(limit, make):
    """What `make` gives for 0, 1, .., one item a line, until the lines have so many bytes."""
    size, k = 60, 0
    while True:
        item = make(k)
        size += len(json.dumps({"at": 31 + 23 * k, **item})) + 2
        if size > limit:
            return
        yield item
        k += 1


DOUBLINGS = 18  # of a primitive: the type then has the size 524,287, and one more would pass the limit


def twice(limit):
    """Tuples that name the type before twice, from a primitive on, and again from one where the next tuple
    would pass the limit on a type's size."""
    run = DOUBLINGS + 1
    yield from bounded(limit, lambda k: defined({"tuple": [k - 1, k - 1]} if k % run else PRIMITIVES[k // run % 13]))


def largest(limit):
    """Types that name the largest so far: tuples that name it twice, then records of it, until both limits on
    a type are near, and then records that all name the same one."""
    deepest = 510

    def make(k):
        if k == 0:
            return defined("u8")
        before = min(k - 1, deepest)
        return defined({"tuple": [before, before]} if k <= DOUBLINGS else {"record": [["inner", before]]})

    yield from bounded(limit, make)


def fields(count, seed):
    """Fields with names of words that differ, over primitives."""
    return [[f"{WORDS[k * 7 % 31]}-{WORDS[(k + seed) % 31]}-n{k}", PRIMITIVES[(k + seed) % 13]] for k in range(count)]


def records(limit, count):
    """Records with so many fields."""
    yield from bounded(limit, lambda k: defined({"record": fields(count, k)}))


def functions_over(limit):
    """Groups of ten items: eight types, a function over three of them, and its import, so that the report has
    them. The largest listing keeps below the limits on types and on a component's size."""

    def make(k):
        first, place = k // 10 * 9, k % 10
        if place == 9:
            return import_of(words_name("imported", k), first + 8)
        if place == 8:
            return func_type([["x", first + 4], ["y", first + 5]], first + 6)
        return defined(
            (
                PRIMITIVES[k // 10 % 13],
                {"tuple": [first, "u32"]},
                {"result": {"err": "u32"}},
                {"stream": "u8"},
                {"list": "string"},
                {"option": "u32"},
                {"result": {"ok": "u8"}},
                {"future": None},
            )[place]
        )

    yield from bounded(limit, make)


def long_list(count):
    """One enum with so many cases."""
    yield defined({"enum": [f"{WORDS[k * 7 % 31]}-{WORDS[k % 31]}-n{k}" for k in range(count)]})


def resources(limit):
    """Groups of six items: the import of a resource, both handles of it, a function over them, its import, and
    an export of the resource. The largest listing keeps below the limits on types and on a component's size."""

    def make(k):
        first, place = k // 6 * 5, k % 6
        return (
            {"import": {"name": words_name("resource", k), "type": "sub-resource"}},
            defined({"own": first}),
            defined({"borrow": first}),
            func_type([["self", first + 2], ["other", first + 1]], None),
            import_of(words_name("function", k), first + 3),
            {"export": {"name": words_name("exported", k), "sort": "type", "index": first}},
        )[place]

    yield from bounded(limit, make)


FRONT = "example-company-of-the-long-name:package-of-many-interfaces/interface-with-a-long-front-"


def interfaces(limit):
    """A function type, and imports of it under names of interfaces that share a front of 88 bytes."""
    first = func_type([], None)

    def make(k):
        return import_of(f"{FRONT}n{k}@1.{k % 10}.0", 0) if k else first

    yield from bounded(limit, make)


def methods(limit, front="function-of-one-resource-with-a-very-long-common-front-"):
    """A resource, a borrow of it, a function over that, and imports of it under names of methods of it."""
    first = (
        {"import": {"name": "r", "type": "sub-resource"}},
        defined({"borrow": 0}),
        func_type([["self", 1]], None),
    )

    def make(k):
        return first[k] if k < 3 else import_of(f"[method]r.{front}n{k}", 2)

    yield from bounded(limit, make)


def long_methods(limit):
    """The same, where a name has some 1,300 bytes."""
    return methods(limit, "function-of-one-resource-with-a-very-long-common-front-" * 24)


def core_group(*types):
    return {"core-type": {"rec": list(types)}}


CORE = ("i32", "i64", "f32", "f64")


def core_digits(k):
    """Value types that no other number gives: the digits of the number to the base 4."""
    digits = [CORE[k % 4]]
    while k >= 4:
        k //= 4
        digits.append(CORE[k % 4])
    return digits


def core_different(limit):
    """Groups of a struct and a function that name each other, all different. With the groups of the largest
    listing there are fewer than 1,000,000 core types."""

    def make(k):
        struct = {"struct": [{"type": {"ref": 2 * k + 1, "null": True}, "mut": True}]}
        return core_group(struct, {"func": [[*core_digits(k), {"ref": 2 * k, "null": True}], ["i32"]]})

    yield from bounded(limit, make)


def core_equal(limit):
    """The same groups, where all are equal: each names its own types alone, by its own indices."""

    def make(k):
        struct = {"struct": [{"type": {"ref": 2 * k + 1, "null": True}, "mut": True}, {"type": "i8"}]}
        return core_group(struct, {"func": [["i32", "i64", {"ref": 2 * k, "null": True}], ["i32"]]})

    yield from bounded(limit, make)


def core_chains(limit):
    """Chains of open structs, each with the one before as its supertype and at most eight fields more than the
    first, until there are 63 above one. The first of a chain has fields that no other chain begins with."""

    def make(k):
        chain, above = divmod(k, 64)
        types = [{"ref": k - above, "null": True}, *core_digits(chain), *["i32"] * min(above, 8)]
        struct = {"struct": [{"type": ty} for ty in types]}
        return core_group({"final": False, "super": k - 1, **struct} if above else {"final": False, **struct})

    yield from bounded(limit, make)


def core_long_group(count):
    """One group of so many types: structs that each name the one before and the one behind."""
    near = lambda n: {"type": {"ref": n % count, "null": True}, "mut": True}
    yield core_group(*({"struct": [near(k - 1), near(k + 1), {"type": "i8"}]} for k in range(count)))


def core_modules(limit):
    """Module types with a group, an import and two exports each, and then the import of each of the first 900."""

    def make(k):
        decls = [
            {"type": [{"func": [core_digits(k), ["i32"]]}]},
            {"import": ["env", words_name("imported", k), {"func": 0}]},
            {"export": [words_name("exported", k), {"func": 0}]},
            {"export": ["memory", {"memory": {"min": 1, "max": 65_536}}]},
        ]
        return {"core-type": {"module": decls}}

    count = 0
    for count, item in enumerate(bounded(limit, make), 1):
        yield item
    for k in range(min(count, 900)):
        yield {"import": {"name": words_name("module", k), "type": {"module": k}}}


CHAIN = 400  # core modules, and as many core instances: of each 1,000 are allowed


def linked(limit):
    """Core modules in a chain, each instantiated with the one before: what a module imports has the names of what
    the module before it exports."""
    count = max(limit // (CHAIN * 145), 1)
    for k in range(CHAIN):
        decls = [{"type": [{"func": [["i32", "i64"], ["i32"]]}]}]
        if k > 0:
            decls += [{"import": ["before", words_name("function", n), {"func": 0}]} for n in range(count)]
        decls += [{"export": [words_name("function", n), {"func": 0}]} for n in range(count)]
        yield {"core-module": decls}
        yield {"core-instance": {"module": k, "args": [["before", k - 1]] if k > 0 else []}}


def aliased(limit):
    """A core module that exports functions, an alias of each, and core instances that list 1,000 of them each."""
    count = max(limit // 220, 1)
    decls = [{"type": [{"func": [["i32"], []]}]}]
    decls += [{"export": [words_name("function", n), {"func": 0}]} for n in range(min(count, 90_000))]
    yield {"core-module": decls}
    yield {"core-instance": {"module": 0, "args": []}}
    for n in range(min(count, 90_000)):
        yield {"alias": {"core-export": [0, "func", words_name("function", n)]}}
    for first in range(0, min(count, 90_000) - 1_000, 1_000):
        yield {"core-instance": {"exports": [[words_name("function", n), "func", n] for n in range(first, first + 1_000)]}}


def aliased_exports(count):
    """An instance type that exports resources and functions over them, its import, and an alias of each export, which
    is exported again."""
    yield {"type": {"instance": list(resources_and_functions(count // 2))}}
    yield {"import": {"name": "all", "type": {"instance": 0}}}
    for n in range(count // 2):
        yield {"alias": {"export": [0, "type", words_name("resource", n)]}}
        yield {"alias": {"export": [0, "func", words_name("function", n)]}}
    for n in range(count // 2):
        yield {"export": {"name": words_name("function", n), "sort": "func", "index": n}}


def resources_and_functions(count):
    """Declarations: resources, and of each a function that takes it."""
    for n in range(count):
        yield {"export": {"name": words_name("resource", n), "type": "sub-resource"}}
        yield {"type": {"defined": {"borrow": 3 * n}}}
        yield {"type": {"func": {"params": [["it", 3 * n + 1]]}}}
        yield {"export": {"name": words_name("function", n), "type": {"func": 3 * n + 2}}}


DEEP = 40  # instance types in one another: JSON lets 127 arrays and objects nest


def outer_aliased(limit):
    """Instance types 40 deep, the innermost of which aliases types of the component around all, over and over."""
    yield {"type": {"defined": {"record": [["x", "u32"]]}}}
    made = 0
    while made < limit:
        body = [{"alias": {"outer": ["type", DEEP, 0]}} for _ in range(1_000)]
        for _ in range(DEEP - 1):
            body = [{"type": {"instance": body}}]
        yield {"type": {"instance": body}}
        made += 35_000


def exported_resources(limit):
    """Resources that are defined, each with its export behind it: at the end of the component each of them is
    looked for among the exports. The largest listing keeps below the limits on types."""

    def make(k):
        index = k // 2 * 2
        if k % 2 == 0:
            return {"type": {"resource": {"rep": "i32"}}}
        return {"export": {"name": words_name("exported", index), "sort": "type", "index": index}}

    yield from bounded(limit, make)


ACCESSORS = ["cm-accessors"]  # the feature that getters and setters need


def setters(cases):
    """What makes a variant of so many cases, a getter that gives it and a setter that takes it under another
    identity, and then both in turn, each pair under a name of its own: each setter is compared with its getter.
    The largest listing keeps below the limit on a component's size."""
    first = (
        defined({"variant": [[f"c{k}"] for k in range(cases)]}),
        {"import": {"name": "one", "type": {"eq": 0}}},
        {"import": {"name": "other", "type": {"eq": 0}}},
        func_type([], 1),
        func_type([["value", 2]], None),
    )

    def make(k):
        if k < len(first):
            return first[k]
        pair, is_setter = divmod(k - len(first), 2)
        return import_of(f"[set]m{pair}", 4) if is_setter else import_of(f"[get]m{pair}", 3)

    return lambda limit: bounded(limit, make)


def imported_again(limit):
    """A record with a name of half of the bytes, and imports of it under further names, each of which is one more
    type: the report has each of them with all of its name."""
    name = "a" * min(limit // 2, 100_000)
    yield from bounded(limit, lambda k: {"import": {"name": f"t{k}", "type": {"eq": 0}}} if k else defined({"record": [[name, "u8"]]}))


def instance(*decls):
    return {"instance": list(decls)}


def export_decl(name, ty):
    return {"export": {"name": name, "type": ty}}


def different_instances(limit):
    """Instance types with 20 exports, all different, and then imports of the first 400. The largest listing keeps
    below the limits on types and on a component's size."""

    def make(k):
        decls = []
        for n in range(10):
            decls.append(func_type([[words_name("parameter", 10 * k + n), PRIMITIVES[(k + n) % 13]]], None))
            decls.append(export_decl(words_name("first", n), {"func": n}))
            decls.append(export_decl(words_name("second", n), {"func": n}))
        return {"type": instance(*decls)}

    count = 0
    for count, item in enumerate(bounded(limit, make), 1):
        yield item
    for k in range(min(count, 400)):
        yield {"import": {"name": words_name("instance", k), "type": {"instance": k}}}


def nested_instances(limit, depth=30):
    """Instance types that each declare and export another, so many one in the other."""
    inner = instance(func_type([["x", "u32"]], "bool"), export_decl("f", {"func": 0}))
    for _ in range(depth):
        inner = instance({"type": inner}, export_decl("inner", {"instance": 0}))
    yield from bounded(limit, lambda k: {"type": inner})


def doubling_instances(limit, depth=15):
    """The same, where each exports the one inside it twice: as a tree, the outermost has some 100,000 parts."""
    inner = instance(func_type([["x", "u32"]], "bool"), export_decl("f", {"func": 0}))
    for _ in range(depth):
        inner = instance({"type": inner}, export_decl("a", {"instance": 0}), export_decl("b", {"instance": 0}))
    yield from bounded(limit, lambda k: {"type": inner})


def component_types(limit):
    """Component types with 1,000 imports."""

    def make(k):
        imports = [import_of(words_name("imported", n), n % 13) for n in range(1_000)]
        return {"type": {"component": [*(func_type([["x", it]], None) for it in PRIMITIVES), *imports]}}

    yield from bounded(limit, make)


def one_interface(count, resources):
    """An instance type with so many resources, a method on each and a function over a record, imported so many
    times."""
    decls = [{"type": {"defined": {"record": [["x", "u32"], ["y", "string"]]}}}, export_decl("pair", {"eq": 0})]
    for n in range(resources):
        first = 2 + 3 * n
        decls.append(export_decl(f"r{n}", "sub-resource"))
        decls.append(defined({"borrow": first}))
        decls.append(func_type([["self", first + 1], ["pair", 1]], None))
        decls.append(export_decl(f"[method]r{n}.get", {"func": first + 2}))
    yield {"type": instance(*decls)}
    for k in range(count):
        yield {"import": {"name": words_name("instance", k), "type": {"instance": 0}}}


def over_resource(name, index, kind="own"):
    """Declarations of a handle of the type at the index, of a function over it, and what exports the function. They
    add two types."""
    return [defined({kind: index}), func_type([["x", index + 1]], "u32"), export_decl(name, {"func": index + 2})]


def instantiated(count, width=50):
    """A component type that imports so many resources and a function over each, and exports another resource and a
    function over it for each: as many instances, each over all arguments. All functions are over other handles."""
    decls, items = imported_handles(width)
    for n in range(width):
        decls += [export_decl(f"s{n}", "sub-resource"), *over_resource(f"g{n}", 3 * (width + n))]
    yield from instances_of_type(count, decls, items, handle_args(width))


def imported_handles(width):
    """Declarations and items that import so many resources and a function over each."""
    decls, items = [], []
    for n in range(width):
        decls += [{"import": {"name": f"r{n}", "type": "sub-resource"}}, defined({"own": 3 * n})]
        decls += [func_type([["x", 3 * n + 1]], "u32"), {"import": {"name": f"f{n}", "type": {"func": 3 * n + 2}}}]
        items += [{"import": {"name": f"r{n}", "type": "sub-resource"}}, defined({"own": 3 * n + 1})]
        items += [func_type([["x", 3 * n + 2]], "u32"), import_of(f"f{n}", 3 * n + 3)]
    return decls, items


def handle_args(width):
    """The arguments for the imports of so many handles."""
    return [it for n in range(width) for it in ([f"r{n}", "type", 3 * n + 1], [f"f{n}", "func", n])]


def instances_of_type(count, decls, items, args):
    """So many instances of the component type with these declarations, over all arguments."""
    yield {"type": {"component": decls}}
    yield {"import": {"name": "component", "type": {"component": 0}}}
    yield from items
    for _ in range(count):
        yield {"instance": {"component": 0, "args": args}}


def instantiated_over_imports(count, width=50):
    """The same imports, with two exports of a function over each imported resource: what the instances export names the
    resources that they are given, and none of their own."""
    decls, items = imported_handles(width)
    decls += [export_decl(f"{side}{n}", {"func": 3 * n + 2}) for side in "gh" for n in range(width)]
    yield from instances_of_type(count, decls, items, handle_args(width))


def instantiated_plainly(count, width=100):
    """A component type that imports so many functions and exports as many, each of a type of its own in which no resource
    stands."""
    decls, items = [], []
    for n in range(width):
        func = func_type([[f"x{n}", "u32"]], "string")
        decls += [func, {"import": {"name": f"f{n}", "type": {"func": n}}}]
        items += [func, import_of(f"f{n}", n + 1)]
    decls += [export_decl(f"g{n}", {"func": n}) for n in range(width)]
    yield from instances_of_type(count, decls, items, [[f"f{n}", "func", n] for n in range(width)])


def listed(limit, width=10_000):
    """Instances that list one function under so many names, and at the end an export of the first."""
    yield func_type([["x", "u32"]], None)
    yield import_of("function", 0)
    exports = [{"name": words_name("listed", n), "sort": "func", "index": 0} for n in range(width)]
    yield from bounded(limit, lambda k: {"instance": {"exports": exports}})
    yield {"export": {"name": "first", "sort": "instance", "index": 0}}


def in_types(inner, depth, *names):
    """An instance type in so many others, each of which exports the one inside as a type under each name."""
    for _ in range(depth):
        inner = instance({"type": inner}, *(export_decl(name, {"eq": 0}) for name in names))
    return inner


def compared(count, depth=36, names=("inner",), times=1):
    """So many pairs of instance types that differ in the order of two exports at the bottom, so many types further
    in. Each pair is compared both ways, so many times: a component imports the one as a type, and the other is its
    argument."""
    function = func_type([["x", "u32"]], None)

    def pair(k):
        one, other = (instance(function, *(export_decl(it, {"func": 0}) for it in order)) for order in ("fg", "gf"))
        wanted = {"component": [{"type": in_types(one, depth, *names)}, {"import": {"name": "t", "type": {"eq": 0}}}]}
        yield {"type": in_types(other, depth, *names)}
        yield {"type": wanted}
        yield {"import": {"name": f"component{k}", "type": {"component": 2 * k + 1}}}
        for _ in range(times):
            yield {"instance": {"component": k, "args": [["t", "type", 2 * k]]}}

    for k in range(count):
        yield from pair(k)


def opposite_orders(count):
    """Two instance types with the same exports, so many, in opposite order: an instance of the one is exported by the
    other, and the types themselves are, which compares them both ways."""
    function = func_type([["x", "u32"]], None)
    exports = [export_decl(words_name("function", n), {"func": 0}) for n in range(count)]
    yield {"type": instance(function, *exports)}
    yield {"type": instance(function, *reversed(exports))}
    yield {"import": {"name": "instance", "type": {"instance": 0}}}
    yield {"export": {"name": "other", "sort": "instance", "index": 0, "type": {"instance": 1}}}
    yield {"export": {"name": "type", "sort": "type", "index": 0, "type": {"eq": 1}}}


def one_resource(count, width=1_000):
    """A component that imports instances with so many instances inside, all of one type with a resource, and one
    resource in the place of each."""
    resource = instance(export_decl("r", "sub-resource"), *over_resource("f", 0, "borrow"))
    many = instance({"type": resource}, *(export_decl(f"i{n}", {"instance": 0}) for n in range(width)))
    imports = [{"import": {"name": f"many{n}", "type": {"instance": 0}}} for n in range(count // width)]
    yield {"type": {"component": [{"type": many}, *imports]}}
    yield {"import": {"name": "component", "type": {"component": 0}}}
    yield {"type": resource}
    yield {"import": {"name": "one", "type": {"instance": 1}}}
    yield {"instance": {"exports": [{"name": f"i{n}", "sort": "instance", "index": 0} for n in range(width)]}}
    yield {"instance": {"component": 0, "args": [[f"many{n}", "instance", 1] for n in range(count // width)]}}


VALUES = ["cm-values"]  # the feature that values and start items need


def component_of_values(width):
    """A component that imports so many values, of a record and of `u32` in turn: a start function takes the first
    half, the others are exported, and an instance lists what the function gives."""
    half = width // 2
    kinds = [1 if n % 2 == 0 else "u32" for n in range(width)]
    items = [defined({"record": [["x", "u32"], ["y", "string"]]}), {"import": {"name": "pair", "type": {"eq": 0}}}]
    items += [{"import": {"name": words_name("value", n), "type": {"value": kind}}} for n, kind in enumerate(kinds)]
    items += [func_type([[f"p{n}", kinds[n]] for n in range(half)], "string"), import_of("started", 2)]
    items.append({"start": {"func": 0, "args": list(range(half)), "results": 1}})
    items += [{"export": {"name": words_name("exported", n), "sort": "value", "index": n}} for n in range(half, width)]
    items.append({"instance": {"exports": [{"name": "given", "sort": "value", "index": width}]}})
    return component(items)


def values(limit, width=600):
    """Components with values: of these there may be 1,000 in each, and of components as many."""
    item = component_of_values(width)
    yield from bounded(limit, lambda k: item)


def aliased_values(count):
    """Components that make so many values in all, 1,000 in each: an instance type that exports them, its import, an
    alias of each and an instance that lists them all."""
    names = [words_name("value", n) for n in range(1_000)]
    items = [{"type": instance(*(export_decl(name, {"value": "u32"}) for name in names))}]
    items.append({"import": {"name": "all", "type": {"instance": 0}}})
    items += [{"alias": {"export": [0, "value", name]}} for name in names]
    items.append({"instance": {"exports": [{"name": name, "sort": "value", "index": n} for n, name in enumerate(names)]}})
    for _ in range(count // 1_000):
        yield component(items)
