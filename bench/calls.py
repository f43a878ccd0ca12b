#!/usr/bin/env python3
"""Writes docs/CALLS.md: the public calls of each crate, and what a call asks of its caller.

    bench/calls.py            # writes the page
    bench/calls.py --check    # says whether the page is as the sources are; the status is 0 where it is

Public is what lib.rt of a crate names behind `pub use`, or has itself: functions, methods of types, and functions of
traits. What is asked stands in the clauses `requires`, as they are written. Of a trait that another crate gives,
and of what is derived or written by a macro, nothing is listed: conditions of such calls are the trait's.
"""
import os
import re
import sys

ROOT = os.path.dirname(os.path.dirname(os.path.realpath(__file__)))
PAGE = os.path.join(ROOT, "docs", "CALLS.md")
# (programs and tests, which no crate calls)
LEFT_OUT = {"bench_read", "wcv", "wcv_call_tests", "wcv_rows"}

HEAD = """# Public calls

What a caller has to show before it makes a public call: each call returns where that holds. `bench/calls.py` makes this page from the sources, and `bench/calls.py --check` says whether it is as they are. Conditions are those of the clauses `requires`, in their words (`specs/` of the crates defines them): `.old` is a value before the call, `.now` one that the call leaves as it is. Calls with the same conditions share a row. `Trait::call` of a trait is for all types that have it.
"""


def read(path):
    with open(path, encoding="utf-8") as file:
        return file.read()


def crates():
    """The crates of crates.txt, the lowest first."""
    found = []
    for line in read(os.path.join(ROOT, "crates.txt")).splitlines():
        name = line.partition("#")[0].partition(":")[0].split()
        if name and name[0] not in LEFT_OUT:
            found.append(name[0])
    return found


def bare(text):
    """The text with blanks in place of remarks and of what stands in quotes, each character at its place."""
    blank = lambda found: re.sub(r"[^\n]", " ", found.group())
    # (a lifetime has no second quote near by, a character has)
    return re.sub(r"//[^\n]*|\"(?:[^\"\\]|\\.)*\"|'(?:[^'\\\n]|\\[^\n]{1,8})'", blank, text, flags=re.S)


def closing(text, start):
    """The place behind the bracket that closes the one at `start`."""
    depth = 0
    for k in range(start, len(text)):
        if text[k] in "{([":
            depth += 1
        elif text[k] in "})]":
            depth -= 1
            if depth == 0:
                return k + 1
    return len(text)


def signature(text, start):
    """What a function asks, and the place of its body or of the `;` in its stead, from the place behind its name."""
    asked, k = [], start
    while k < len(text):
        clause = re.compile(r"\b(requires|ensures|decreases|invariant)\b([^{;]*)").match(text, k)
        if clause:
            end = closing(text, clause.end())
            if clause.group(1) == "requires":
                asked.append(" ".join(text[clause.end() + 1 : end - 1].split()))
            k = end
        elif text[k] in "([":
            k = closing(text, k)
        elif text[k] in "{;":
            return asked, k
        else:
            k += 1
    return asked, k


BLOCK = re.compile(
    r"(?P<impl>\bimpl\b)|(?P<trait>\bpub\s+trait\s+(?P<tname>\w+))"
    r"|(?P<pub>\bpub\s+)?(?:const\s+)?\bfn\s+(?P<fname>\w+)|(?P<open>\{)"
)


def owner(head):
    """The type of an inherent `impl`, and none where a trait is implemented."""
    head = head.strip()
    if head.startswith("<"):
        depth = 0
        for k, c in enumerate(head):
            depth += (c == "<") - (c == ">" and head[k - 1] != "-")
            if depth == 0:
                head = head[k + 1 :]
                break
    if re.search(r"\bfor\b", head.split("where")[0]):
        return None
    found = re.match(r"\s*(?:\w+::)*(\w+)", head)
    return found and found.group(1)


def calls(text, start=0, end=None, inside=None):
    """The functions of a source, each with the type or trait that it is of, and what it asks."""
    end = len(text) if end is None else end
    k = start
    while True:
        found = BLOCK.search(text, k, end)
        if not found:
            return
        if found.group("impl") or found.group("trait"):
            body = text.find("{", found.end())
            name = owner(text[found.end() : body]) if found.group("impl") else found.group("tname")
            k = closing(text, body)
            if name:
                yield from calls(text, body + 1, k - 1, (name, bool(found.group("trait"))))
        elif found.group("fname"):
            asked, k = signature(text, found.end())
            if found.group("pub") or (inside and inside[1]):
                yield inside and inside[0], found.group("fname"), asked
            k = closing(text, k) if text[k : k + 1] == "{" else k + 1
        else:
            k = closing(text, found.start())


def exported(lib):
    """The modules that lib.rt takes names from, and under which names."""
    names, whole = {}, set(re.findall(r"\bpub mod (\w+);", lib))
    for path, group, alone in re.findall(r"\bpub use (?:crate::|self::)?((?:\w+::)+)(?:\{([^}]*)\}|(\w+|\*))", lib):
        module = path.split("::")[0]
        for part in (group or alone).split(","):
            words = part.split()
            if words:
                names.setdefault(module, {})[words[0]] = words[-1]
    return names, whole


def public(crate):
    """The public calls of a crate by name, each with what it asks."""
    folder = os.path.join(ROOT, "crates", crate, "src")
    lib = bare(read(os.path.join(folder, "lib.rt")))
    names, whole = exported(lib)
    shown = {old: new for part in names.values() for old, new in part.items()}
    sources = []
    for base, _, files in sorted(os.walk(folder)):
        for file in sorted(file for file in files if file.endswith(".rt")):
            module = os.path.relpath(os.path.join(base, file), folder)[: -len(".rt")].split(os.sep)[0]
            text = bare(read(os.path.join(base, file)))
            sources.append((module, text))
            if module == "lib" or module in whole:
                shown.update((name, name) for name in re.findall(r"\bpub (?:struct|enum|trait) (\w+)", text))
    found = {}
    for module, text in sources:
        for of, name, asked in calls(text):
            if of in shown:
                found[f"{shown[of]}::{name}"] = asked
            elif of is None and (module == "lib" or module in whole or name in names.get(module, {})):
                found[names.get(module, {}).get(name, name)] = asked
    return found


def page():
    """The page, from the sources."""
    parts = [HEAD]
    for crate in crates():
        rows, free = {}, []
        for name, asked in sorted(public(crate).items()):
            if asked:
                rows.setdefault(tuple(asked), []).append(name)
            else:
                free.append(name)
        if not rows and not free:
            continue
        part = [f"## {crate}", ""]
        if rows:
            part += ["| Call | Asked |", "|---|---|"]
            for asked, named in sorted(rows.items(), key=lambda row: row[1]):
                cells = ", ".join(f"`{name}`" for name in named), "; ".join(f"`{one}`" for one in asked)
                part.append("| " + " | ".join(cell.replace("|", "\\|") for cell in cells) + " |")
            part.append("")
        if free:
            part += ["Nothing is asked by " + ", ".join(f"`{name}`" for name in free) + ".", ""]
        parts.append("\n".join(part))
    return "\n".join(parts).rstrip("\n") + "\n"


def main():
    made = page()
    if sys.argv[1:] == ["--check"]:
        same = os.path.exists(PAGE) and read(PAGE) == made
        print("docs/CALLS.md is as the sources are" if same else "docs/CALLS.md is not as the sources are: bench/calls.py makes it anew")
        return 0 if same else 1
    if sys.argv[1:]:
        print(__doc__, file=sys.stderr)
        return 2
    with open(PAGE, "w", encoding="utf-8") as file:
        file.write(made)
    return 0


if __name__ == "__main__":
    sys.exit(main())
