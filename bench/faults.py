#!/usr/bin/env python3
"""Refuses each growth in turn to the program on some components, and says what came of each.

    bench/faults.py                       # by `rt try --fail-alloc N`, which builds the program for each N
    bench/faults.py --program PROGRAM     # one that is built, as crates/wcv/out/wcv, which `rt run` proves and builds

--first N and --last N say which growths (all, until one is met no more), --rows A,B which components of those in ROWS.
With --program a `malloc` stands before the C library's, which needs `cc`; a growth takes milliseconds then, and
minutes where the program is built for each.

The answer that is due is that of a run in which none is refused. Where the N-th growth is refused, the status is to be
6 with a beginning of the text that is due, or all is to be as is due, where the program makes up for it. With --program no
more memory may be left at the end than in the run that is due. Each run of numbers that end alike has a line, with the fewest
and the most bytes that were written. The status is 0 where nothing else came.
"""
import argparse
import itertools
import os
import re
import subprocess
import sys
import tempfile

ROOT = os.path.dirname(os.path.dirname(os.path.realpath(__file__)))
DATA = os.path.join(ROOT, "crates", "wcv_rows", "data")
OUT_OF_MEMORY = 6

# So many answers in a row as is due mean that no growth was met, where a run does not say.
ENOUGH = 3

# Words, and a component by its file of rows and the beginning of its row's title.
ROWS = {
    "handles": ("validate", "nested_reports", "Of two."),
    "command": ("validate", "nested_reports", "A command: "),
    "composition": ("validate", "nested_reports", "The command in a root, "),
    "binary": ("validate-binary", "binary_forms", "A command of eighteen items, "),
    "list": ("list", "binary_forms", "A command of eighteen items, "),
}

SHIM = r"""
#include <errno.h>
#include <stddef.h>
#include <stdio.h>
#include <stdlib.h>
extern void *__libc_malloc(size_t);
extern void *__libc_realloc(void *, size_t);
extern void __libc_free(void *);
static unsigned long met, refused;
static long left;
static int is_refused(void) {
    if (++met != refused) return 0;
    errno = ENOMEM;
    return 1;
}
void *malloc(size_t size) {
    void *at = is_refused() ? NULL : __libc_malloc(size);
    left += at != NULL;
    return at;
}
void *realloc(void *old, size_t size) {
    void *at = is_refused() ? NULL : __libc_realloc(old, size);
    left += old == NULL && at != NULL;
    return at;
}
void free(void *at) {
    left -= at != NULL;
    __libc_free(at);
}
__attribute__((constructor)) static void begin(void) {
    const char *word = getenv("REFUSED");
    refused = word ? strtoul(word, NULL, 10) : 0;
    met = 0;
}
__attribute__((destructor)) static void end(void) {
    dprintf(2, "met %lu, left %ld\n", met, left);
}
"""


def lines_of(name):
    """The lines of the row that is named so, without its title and what is due."""
    _, file, title = ROWS[name]
    with open(os.path.join(DATA, file + ".rows"), encoding="utf-8") as opened:
        blocks = opened.read().split("\n\n")
    found = [block for block in blocks if block.startswith("row " + title)]
    if len(found) != 1:
        sys.exit(f"{file}.rows has {len(found)} rows whose titles begin with `{title}`")
    return found[0].partition("\n=> ")[0].splitlines()[1:]


def number(value):
    """A number as LEB128."""
    parts = []
    while value > 127:
        parts.append(value % 128 + 128)
        value //= 128
    return bytes([*parts, value])


def binary(parts):
    """The bytes of sections by their parts (crates/wcv_rows/README.md), of which these take all or those up to `]`."""
    made = b""
    for part in parts:
        if part == "]":
            break
        if part == "[":
            inside = binary(parts)
            made += number(len(inside)) + inside
        elif part[0] in "uUisS":
            made += number(int(part[1:], 16))
        elif part != ".":
            made += bytes.fromhex(part)
    return made


def component(name):
    """The listing or the binary of a row."""
    lines = lines_of(name)
    sections = [line.partition(" ")[2] for line in lines if line.startswith("sections ")]
    if sections:
        return bytes.fromhex("0061736d0d000100") + binary(iter(" ".join(sections).split()))
    items = []
    for at, line in enumerate(lines):
        form, _, body = line.partition(" ")
        items.append(f'{{"at":{at},"{form}":{body}}}')
    return ('{"version":1,"items":[' + ",\n".join(items) + '],"end":99}').encode()


def tried(word, text, growth):
    """The status and the output of a run by `rt try`, which says neither whether the growth was met nor what is left."""
    words = ["rt", "try", "--seconds", "300"]
    if growth:
        words += ["--fail-alloc", str(growth)]
    ran = subprocess.run([*words, "--", word], cwd=os.path.join(ROOT, "crates", "wcv"), input=text, capture_output=True)
    if not re.search(rb"^run=ended status=%d " % ran.returncode, ran.stderr, re.M):
        sys.stderr.buffer.write(ran.stderr)
        return None, ran.stdout, None, None
    return ran.returncode, ran.stdout, None, None


def shim(folder):
    """Builds the `malloc` that refuses, and gives its file."""
    with open(os.path.join(folder, "shim.c"), "w", encoding="utf-8") as file:
        file.write(SHIM)
    library = os.path.join(folder, "shim.so")
    subprocess.run(["cc", "-O1", "-fPIC", "-shared", "-fno-builtin", "-o", library, file.name], check=True)
    return library


def run_under(library, program):
    """What runs the built program, and says whether the growth was met, and how many pieces of memory are left."""

    def run(word, text, growth):
        env = {"LD_PRELOAD": library, "REFUSED": str(growth)}
        ran = subprocess.run([program, word], input=text, capture_output=True, env=env, timeout=300)
        told = re.fullmatch(rb"met (\d+), left (-?\d+)\n", ran.stderr)
        if not told:
            return ran.returncode, ran.stdout, None, None
        return ran.returncode, ran.stdout, int(told.group(1)) >= max(growth, 1), int(told.group(2))

    return run


def came_of(due, answer):
    """What came of a run, in words, and whether it may."""
    status, text, _, left = answer
    more = left is not None and left > due[3]
    memory = ", MEMORY LEFT" if more else ""
    if (status, text) == due[:2]:
        return "as is due" + memory, not more
    if status == OUT_OF_MEMORY and due[1].startswith(text):
        return "status 6, and a beginning of the text" + memory, not more
    if status is None:
        return "no answer", False
    return f"status {status}, and {'a beginning of the' if due[1].startswith(text) else 'ANOTHER'} text", False


def sweep(run, name, first, last):
    """Refuses one growth after another, tells what came, and says whether all of it may."""
    word, text = ROWS[name][0], component(name)
    due = run(word, text, 0)
    if due[0] is None or due[2] is False:
        sys.exit(f"{name}: no answer where nothing is refused, or no growth was seen")
    print(f"{name}: status {due[0]}, {len(due[1])} bytes, where nothing is refused", flush=True)
    alike, good, same = None, True, 0

    def tell():
        if alike:
            what, low, high, sizes = alike
            print(f"{name}: {low} to {high}: {what}; {min(sizes)} to {max(sizes)} bytes", flush=True)

    for growth in itertools.count(first):
        if last and growth > last:
            break
        answer = run(word, text, growth)
        what, may = came_of(due, answer)
        good = good and may
        same = same + 1 if what == "as is due" else 0
        if answer[2] is False or (answer[2] is None and same == ENOUGH):
            tell()
            print(f"{name}: {growth} is met no more: {what}", flush=True)
            return good
        if alike and alike[0] == what:
            alike = what, alike[1], growth, alike[3] | {len(answer[1])}
        else:
            tell()
            alike = what, growth, growth, {len(answer[1])}
    tell()
    return good


def main():
    given = argparse.ArgumentParser(description=__doc__, formatter_class=argparse.RawDescriptionHelpFormatter)
    given.add_argument("--program")
    given.add_argument("--first", type=int, default=1)
    given.add_argument("--last", type=int)
    given.add_argument("--rows", default=",".join(ROWS))
    given = given.parse_args()
    with tempfile.TemporaryDirectory() as folder:
        run = run_under(shim(folder), os.path.abspath(given.program)) if given.program else tried
        # (all are run, whatever came of one)
        ends = [sweep(run, name, given.first, given.last) for name in given.rows.split(",")]
    return 0 if all(ends) else 1


if __name__ == "__main__":
    sys.exit(main())
