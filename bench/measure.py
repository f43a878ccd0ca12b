#!/usr/bin/env python3
"""Measures the programs that are built and prints the figures as tables in Markdown.

    bench/measure.py [RUNS] [TABLE ..]

The tables are `overview`, `small`, `front`, `long`, `nested`, `types`, `resources`, `names`, `core`, `ends`,
`setters`, `reports`, `declared`, `instances`, `aliases`, `components`, `values`, `canonical` and `whole`, all of them if
none is named. Times are the smallest of RUNS runs, 5 if not given, in which the programs that are compared take turns:
what else the machine does can only add to them. Peak memory is the largest resident size of one more run, in which the
bytes that it writes are counted too. Where valgrind is there, the instructions of one run are counted: they do not
depend on what else the machine does. Memory and instructions are told for each byte of the listing as well.

`overview` is one row for each kind of items, "Kinds of items" of docs/PERFORMANCE.md.

`whole` has components that hold 1,000 others each, since no more may stand in one, and components 40 deep, since JSON
lets no more nest, where the rules would let 100 be open; aliases of up to 99,999 functions of one instance, since an
instance type has 100,000 declarations and one is the type; interfaces that are handed on to components, 900 of them,
since of instances 1,000 may stand in one; 1,000 values in each component; and at the end what the program makes
itself, `make 1000`, beside the same as a listing. Three of its kinds are what hostile input could ask for.
"""
import os
import re
import shutil
import subprocess
import sys
import tempfile
import time

import make_canonicals
import make_components
import make_listings

ROOT = os.path.dirname(os.path.dirname(os.path.abspath(__file__)))
READ = [f"{ROOT}/crates/bench_read/out/bench_read"]
PARSE = [*READ, "parse"]
VALIDATE = [f"{ROOT}/crates/wcv/out/wcv", "validate"]
MAKE = [f"{ROOT}/crates/wcv/out/wcv", "make", "1000"]


def run_once(words, file):
    """The wall time, the user time and the whole time of the processor of one run, in seconds."""
    started = time.perf_counter()
    child = os.fork()
    if child == 0:
        os.dup2(os.open(file, os.O_RDONLY), 0)
        os.dup2(os.open(os.devnull, os.O_WRONLY), 1)
        os.execv(words[0], words)
    _, status, used = os.wait4(child, 0)
    if status:
        sys.exit(f"{' '.join(words)} ended with {os.waitstatus_to_exitcode(status)} on {file}")
    return time.perf_counter() - started, used.ru_utime, used.ru_utime + used.ru_stime


def peak_memory(words, file):
    """The peak memory of one run and what it writes, in bytes. A child of this program would begin with the
    memory of this one, so a small program starts it: GNU time."""
    timed = ["/usr/bin/time", "-f", "%M", *words]
    with open(file, "rb") as given, subprocess.Popen(timed, stdin=given, stdout=subprocess.PIPE, stderr=subprocess.PIPE) as ran:
        written = sum(map(len, iter(lambda: ran.stdout.read(1 << 20), b"")))
        peak = int(ran.stderr.read()) * 1024
    if ran.returncode:
        sys.exit(f"{' '.join(words)} ended with {ran.returncode} on {file}")
    return peak, written


def count_instructions(words, file, room):
    """The instructions of one run, or None without valgrind."""
    if not shutil.which("valgrind"):
        return None
    how = ["valgrind", "--tool=callgrind", f"--callgrind-out-file={room}/out"]
    with open(file, "rb") as given:
        ran = subprocess.run([*how, *words], stdin=given, stdout=subprocess.DEVNULL, stderr=subprocess.PIPE, text=True, check=True)
    return int(re.search(r"Collected : (\d+)", ran.stderr)[1])


def measure(programs, file, runs):
    """The least times that each of the programs takes on the file, its peak memory, and what it writes."""
    taken = [[] for _ in programs]
    for _ in range(runs):
        for program, rows in zip(programs, taken):
            rows.append(run_once(program, file))
    return [[*map(min, zip(*rows)), *peak_memory(program, file)] for program, rows in zip(programs, taken)]


def cells(row, counted, size):
    """The figures of one program on a listing of so many bytes, as texts."""
    peak = f"{row[3] / 1e6:.0f} MB, {row[3] / size:.1f} a byte"
    instructions = f"{counted / 1e6:.0f} million, {counted / size:.0f} a byte" if counted else ""
    return [f"{row[0]:.3f} s", f"{row[1]:.3f} s", f"{row[2]:.3f} s", peak, instructions]


def print_table(first, programs, listings, runs, separators=None, features=()):
    """One row for each listing and program, with the ratios to the first program."""
    print(f"\n| {first} | Program | Wall | User | User and system | Peak | Instructions | Written |")
    print("|---|---|---|---|---|---|---|---|")
    with tempfile.TemporaryDirectory() as room:
        file = f"{room}/listing.json"
        for name, items, is_counted in listings:
            count = make_listings.write_listing(file, items, separators, features)
            size = os.path.getsize(file)
            base = None
            for (program, words), row in zip(programs, measure([it[1] for it in programs], file, runs)):
                *row, written = row
                counted = count_instructions(words, file, room) if is_counted else None
                base = base or (*row, counted)
                units = cells(row, counted, size)
                if words != programs[0][1]:
                    ratios = [a and b and f" ({a / b:.2f})" or "" for a, b in zip((*row, counted), base)]
                    units = [unit + ratio for unit, ratio in zip(units, ratios)]
                what = f"{name}: {size:,} bytes, {count:,} items" if words == programs[0][1] else ""
                print(f"| {what} | {program} | {' | '.join(units)} | {written:,} bytes |", flush=True)


SIZES = (1, 8, 64)
ALL = [("bare parse", PARSE), ("reading", READ), ("validation", VALIDATE)]


def by_size(make, counted=(1, 8), sizes=SIZES):
    return [(f"{n} MB", make(n * 1_000_000), n in counted) for n in sizes]


def small(runs):
    print_table("Listing", ALL, by_size(make_listings.ordinary), runs)


def front(runs):
    name = make_listings.front_name
    print_table("Listing of names with one front", ALL, by_size(lambda n: make_listings.ordinary(n, name)), runs)


def long(runs):
    makers = ("long names", make_listings.long_names()), ("many parameters", make_listings.many_params())
    print_table("Listing of long texts", ALL, [(*maker, False) for maker in makers], runs)


def nested(runs):
    shapes = [("arrays of one", lambda x: [x]), ("arrays of two", lambda x: [0, x]), ("objects of one", lambda x: {"": x})]
    deep = [(f"{name}, {n} MB", make_listings.nested(n * 1_000_000, around), n < 8) for name, around in shapes for n in (1, 8)]
    print_table("Listing of nested parts", ALL[:2], deep, runs, (",", ":"))


def types(runs):
    makers = (
        ("types that name the one before twice", make_listings.twice),
        ("types that name the largest so far", make_listings.largest),
        ("records of 3 fields", lambda n: make_listings.records(n, 3)),
        ("records of 10,000 fields", lambda n: make_listings.records(n, 10_000)),
        ("types, functions over them and imports", make_listings.functions_over),
    )
    rows = [(f"{name}, {size}", items, is_counted) for name, make in makers for size, items, is_counted in by_size(make, (1,))]
    rows.append(("an enum of 100,000 cases", make_listings.long_list(100_000), True))
    print_table("Listing of types", ALL, rows, runs)


def resources(runs):
    print_table("Listing of imported resources", ALL, by_size(make_listings.resources), runs)


def names(runs):
    makers = (
        ("names of interfaces", make_listings.interfaces),
        ("names of methods", make_listings.methods),
        ("names of methods of 1,300 bytes", make_listings.long_methods),
    )
    rows = [(f"{name}, {size}", items, is_counted) for name, make in makers for size, items, is_counted in by_size(make, (1,))]
    print_table("Listing of names", ALL, rows, runs)


def core(runs):
    makers = (
        ("groups of two core types, all different", make_listings.core_different),
        ("groups of two core types, all equal", make_listings.core_equal),
        ("chains of 63 supertypes", make_listings.core_chains),
        ("module types, and imports of 900", make_listings.core_modules),
    )
    rows = [(f"{name}, {n} MB", make(n * 1_000_000), n < 8) for name, make in makers for n in SIZES]
    rows.append(("one group of 100,000 core types", make_listings.core_long_group(100_000), True))
    print_table("Listing of core types", ALL, rows, runs)


MIDDLE = (1, 4, 16)  # megabytes, where a time that grows with the square of the bytes would still end


def by_middle(make):
    return [(f"{n} MB", make(n * 1_000_000), n == 1) for n in MIDDLE]


def ends(runs):
    print_table("Listing of resources that are defined and exported", ALL, by_middle(make_listings.exported_resources), runs)


def setters(runs):
    first = "Listing of setters and getters of a variant of 20,000 cases"
    print_table(first, ALL, by_middle(make_listings.setters(20_000)), runs, features=make_listings.ACCESSORS)


def reports(runs):
    sizes = [(f"{n} KB", make_listings.imported_again(n * 1_000), True) for n in (20, 50, 100)]
    print_table("Listing of a long type that is imported again", ALL, sizes, runs)


def declared(runs):
    makers = (
        ("instance types with 20 exports", make_listings.different_instances),
        ("instance types 31 deep", make_listings.nested_instances),
        ("instance types that export the one inside twice", make_listings.doubling_instances),
        ("component types with 1,000 imports", make_listings.component_types),
    )
    rows = [(f"{name}, {size}", items, is_counted) for name, make in makers for size, items, is_counted in by_size(make, (1,))]
    print_table("Listing of declared types", ALL, rows, runs)
    rows = [(f"{n} imports", make_listings.one_interface(n, 100), True) for n in (250, 500, 1_000)]
    print_table("Listing of an instance type with 100 resources, imported again", ALL, rows, runs)


def instances(runs):
    print_table("Listing of core modules linked in a chain", ALL, by_size(make_listings.linked, (1,)), runs)
    sizes = [(f"{n} KB", make_listings.aliased(n * 1_000), True) for n in (250, 500, 1_000)]
    print_table("Listing of aliases of each export of one core instance, and of core instances that list them", ALL, sizes, runs)


def aliases(runs):
    make = make_listings
    rows = [(f"{n:,} exports", make.aliased_exports(n), n < 2_000) for n in (1_000, 2_000, 4_000, 50_000)]
    print_table("Listing of aliases of each export of one instance", ALL, rows, runs)
    print_table("Listing of outer aliases through 40 instance types", ALL, by_size(make.outer_aliased, (1,)), runs)


def components(runs):
    make = make_listings
    makers = (
        ("exports over resources of each instance", make.instantiated),
        ("exports over imported resources", make.instantiated_over_imports),
        ("exports over no resource", make.instantiated_plainly),
    )
    counts = [(f"{n} instances, {what}", it(n), n < 1_000) for what, it in makers for n in (250, 1_000)]
    print_table("Listing of instances of a component type with 100 imports and 100 exports", ALL, counts, runs)
    print_table("Listing of instances that list 10,000 exports each", ALL, by_size(make.listed, (1,)), runs)
    rows = [(f"{n} pairs, 36 deep", make.compared(n), n < 1_000) for n in (250, 500, 1_000)]
    rows += [(f"10 pairs, {n} deep, each with the one inside twice", make.compared(10, n, "ab"), True) for n in (7, 14)]
    rows += [(f"one pair {n} times, 15 deep, each with the one inside twice", make.compared(1, 15, "ab", n), n < 1_000) for n in (250, 1_000)]
    print_table("Listing of instance types in instance types, compared both ways", ALL, rows, runs)
    rows = [(f"{n:,} exports", make.opposite_orders(n), True) for n in (25_000, 50_000, 99_999)]
    print_table("Listing of two instance types with their exports in opposite order", ALL, rows, runs)
    rows = [(f"{n:,} instances", make.one_resource(n), True) for n in (2_000, 5_000, 10_000)]
    print_table("Listing of a component that imports instances, all over one resource", ALL, rows, runs)


def values(runs):
    make = make_listings
    first = "Listing of components that import, start with and export values"
    print_table(first, ALL, by_size(make.values, (1,)), runs, features=make.VALUES)
    rows = [(f"{n:,} values", make.aliased_values(n), n < 20_000) for n in (5_000, 25_000, 250_000)]
    print_table("Listing of components that alias and list 1,000 values each", ALL, rows, runs, features=make.VALUES)


def canonical(runs):
    make = make_canonicals
    makers = (
        ("functions of 16 parameters, lowered", make.wide(16)),
        ("functions of 1,000 parameters, lowered", make.wide(1_000)),
        ("functions of a tuple of 10,000 parts, lowered", make.wide_values(10_000)),
        ("functions of types 500 deep, lowered", make.deep(500)),
        ("functions that are lifted with all options", make.lifted),
        ("async functions that are lifted with a callback", make.lifted_async),
        ("each canonical function in turn", make.in_turn),
    )
    rows = [(f"{name}, {size}", items, is_counted) for name, it in makers for size, items, is_counted in by_size(it, (1,))]
    print_table("Listing of canonical functions", ALL, rows, runs, features=make.FEATURES)


def whole(runs):
    """Components in components, what is handed on between them, and what hostile input could ask for."""
    make = make_components
    makers = (
        ("components in thousands", make.side_by_side, SIZES),
        ("components 40 deep", make.in_one_another, SIZES),
        ("outer aliases through 40 components", make.outer_through, SIZES[:2]),
        ("hostile: an instance that 40 components export in turn", make.instances_in_one_another, SIZES[:2]),
    )
    rows = [(f"{name}, {size}", *row) for name, it, sizes in makers for size, *row in by_size(it, (1,), sizes)]
    first = "hostile: types of the size 1,000,000 aliased into each component"
    rows += [(f"{first}, {n:,} KB", make.charged(n * 1_000), n < 1_000) for n in (100, 1_000)]
    print_table("Listing of whole components", ALL, rows, runs)
    rows = [(f"{n:,} handles", make.instances_of_one(n), n < 1_000) for n in (250, 500, 1_000)]
    print_table("Listing of a component that exports handles, and of as many instances of it (hostile)", ALL, rows, runs)
    rows = [(f"{n:,} functions", make.aliased_functions(n), n < 16_000) for n in (1_000, 4_000, 16_000, 99_999)]
    print_table("Listing of aliases of each function of one instance, by name", ALL, rows, runs)
    counts = ((100, 17), (900, 17), (900, 100))
    rows = [(f"{n} interfaces of {of} functions", make.composition(n, of), n < 900) for n, of in counts]
    print_table("Listing of interfaces that are handed on to components", ALL, rows, runs)
    rows = by_size(lambda n: make_listings.values(n, 666), (1,))
    rows.append(("250,000 aliases of values", make_listings.aliased_values(250_000), False))
    print_table("Listing of components with 1,000 values each", ALL, rows, runs, features=make_listings.VALUES)
    programs = [*ALL, ("`make 1000`", MAKE)]
    print_table("The listing that is made for 1,000", programs, [("1,000 instances", make.made(1_000), True)], runs)


KINDS = (
    ("functions", make_listings.ordinary),
    ("tuples that name the type before twice", make_listings.twice),
    ("records of 3 fields", lambda n: make_listings.records(n, 3)),
    ("records of 10,000 fields", lambda n: make_listings.records(n, 10_000)),
    ("resources", make_listings.resources),
    ("names of interfaces", make_listings.interfaces),
    ("module types", make_listings.core_modules),
    ("groups of core types, all different", make_listings.core_different),
)


def overview(runs):
    """One row for each kind of items: the instructions at 1 MB for each byte, and at 8 MB the time of the
    processor times that of the bare parse, and the peak memory in bytes for each byte."""
    programs = [words for _, words in ALL]
    heads = ["Items", *(f"Instructions, {it}" for it, _ in ALL)]
    heads += [f"{what}, {it}" for what in ("Time", "Memory") for it, _ in ALL[1:]]
    print(f"\n| {' | '.join(heads)} |")
    print("|---" * len(heads) + "|")
    with tempfile.TemporaryDirectory() as room:
        file = f"{room}/listing.json"
        for name, make in KINDS:
            make_listings.write_listing(file, make(1_000_000))
            counts = [count_instructions(words, file, room) for words in programs]
            told = [f"{count / os.path.getsize(file):.0f}" if count else "" for count in counts]
            make_listings.write_listing(file, make(8_000_000))
            rows = measure(programs, file, runs)
            told += [f"{row[2] / rows[0][2]:.2f}" for row in rows[1:]]
            told += [f"{row[3] / os.path.getsize(file):.1f}" for row in rows[1:]]
            print(f"| {name} | {' | '.join(told)} |", flush=True)


TABLES = {
    "overview": overview,
    "small": small,
    "front": front,
    "long": long,
    "nested": nested,
    "types": types,
    "resources": resources,
    "names": names,
    "core": core,
    "ends": ends,
    "setters": setters,
    "reports": reports,
    "declared": declared,
    "instances": instances,
    "aliases": aliases,
    "components": components,
    "values": values,
    "canonical": canonical,
    "whole": whole,
}


def main(runs, names):
    load = os.getloadavg()[0]
    print(f"{os.cpu_count()} processors, load {load:.1f} at the start, the least of {runs} runs. In brackets: times the bare parse.")
    for name in names or TABLES:
        TABLES[name](runs)
    print(f"\nLoad {os.getloadavg()[0]:.1f} at the end.")


main(int(sys.argv[1]) if len(sys.argv) > 1 else 5, sys.argv[2:])
