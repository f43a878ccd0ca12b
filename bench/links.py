#!/usr/bin/env python3
"""Finds dead links in the pages, and pages that comments name and are not there.

    bench/links.py

It looks at each .md file of the repository, outside tables of code and blocks:

- a link in brackets: its file is there, from the page's folder, and its anchor is a heading of that file;
- a page with a chapter in quotes, as docs/RULES.md, "Limits": it has that heading;
- a file or a folder that a text names: it is there, from the page's folder, the top, crates/ or the crate of the
  page; a bare file name also in a crate that the same line names, or behind a folder in a list, and one that three
  folders have stands for a kind of file;
- a crate's name: the crate is there.

In all other files it looks at names of pages and at their chapters. What is dead is printed, one a line, and the
status is 1. A name in capitals, as NAME, stands for any.
"""
import collections
import os
import re
import subprocess
import sys

ROOT = os.path.dirname(os.path.dirname(os.path.abspath(__file__)))
ENDS = "md|antt|rt|py|json|rows|txt|wasm|sh|edit"
LINK = re.compile(r"\[[^\]]*\]\(([^)\s]+)\)")
CHAPTER = re.compile(r'([\w./-]+\.md)\)?(?:\]\([^)]*\))?,? "([^"]+)"((?:(?:,| and) "[^"]+")*)')
FILE = rf"(?<![\w/.<*-])((?:[\w.-]+/)*\w[\w.-]*\.(?:{ENDS}))(?![\w/])"
FOLDER = r"(?<![\w/.<-])((?:[\w-]+/)+[\w-]*)(?![\w/<*]|\.\w)"
PATH = re.compile(f"{FILE}|{FOLDER}")
CRATE = re.compile(r"\bwcv_[a-z_]*[a-z]\b")
TOPS = ("crates/", "docs/", "examples/", "bench/", "edits/", "tools/", "wcv_", "specs/", "src/", "proofs/", "data/")
COUNTS = collections.Counter()  # in how many folders a file name stands
IN_A_CRATE = ("specs/", "src/", "proofs/", "data/")  # alone they stand for those of any crate


def tracked():
    """The files of the repository: those of the git index, and those that are new."""
    words = ["git", "-C", ROOT, "ls-files", "-co", "--exclude-standard"]
    listed = subprocess.run(words, stdout=subprocess.PIPE, check=True).stdout.decode("utf-8")
    return [name for name in listed.split("\n") if name and os.path.isfile(f"{ROOT}/{name}")]


def read(name):
    with open(f"{ROOT}/{name}", encoding="utf-8", errors="replace") as file:
        return file.read()


def is_there(path):
    return os.path.exists(os.path.normpath(f"{ROOT}/{path}"))


def headings(page):
    """The headings of a page without their numbers, and their anchors as GitHub makes them."""
    found = re.findall(r"^#+ (.*)$", read(page), re.M)
    slugs = {re.sub(r"[^\w\- ]", "", text.replace("`", "").lower()).replace(" ", "-") for text in found}
    return {re.sub(r"^\d+\. ", "", text.replace("`", "")) for text in found}, slugs


def resolve(page, target):
    """The file that a page names, from its own folder or from the top, or None."""
    for base in (os.path.dirname(page), "", "docs"):
        path = os.path.normpath(os.path.join(base, target))
        if is_there(path):
            return path
    return None


def dead_links(page, line):
    for target in LINK.findall(line):
        if re.match(r"[a-z]+:", target):
            continue
        path, _, anchor = target.partition("#")
        there = os.path.normpath(os.path.join(os.path.dirname(page), path)) if path else page
        if not is_there(there):
            yield f"link {target}"
        elif anchor and anchor not in headings(there)[1]:
            yield f"anchor {target}"


def dead_chapters(page, line):
    for target, first, more in CHAPTER.findall(line):
        there = resolve(page, target)
        for name in [first, *re.findall('"([^"]+)"', more)]:
            if there and name.rstrip(".,").replace("`", "") not in headings(there)[0]:
                yield f'chapter {target}, "{name}"'


def folders_of(crate):
    return [f"crates/{crate}/{part}" for part in ("specs", "src", "proofs", "data", "")]


def is_known(page, line, folder, name):
    """Whether a name that stands in a line is a file or a folder."""
    own = page.split("/")[1:2] if page.startswith("crates/") else []
    bases = [os.path.dirname(page), "", "crates", "docs", "examples", folder]
    if "/" in name:
        bases += [f"crates/{crate}" for crate in own + CRATE.findall(line)]
        bases += [f"crates/{crate}/proofs" for crate in own]
    else:
        if COUNTS[name] >= 3 and not folder:
            return True
        bases += [it for crate in own + CRATE.findall(line) for it in folders_of(crate)]
    return any(is_there(os.path.join(base, name)) for base in bases)


def dead_paths(page, line):
    folder = ""
    for file, place in PATH.findall(LINK.sub("", line)):
        name = file or place
        if re.search(r"\b[A-Z]{2,}\b", os.path.basename(name).split(".")[0]) and not name.endswith(".md"):
            continue
        if re.search(r"(^|/)([A-Z]+|out)(/|$)", os.path.dirname(name)) or name in IN_A_CRATE:
            continue
        if place and not place.startswith(TOPS):
            continue
        if not is_known(page, line, folder, name):
            yield f"path {name}"
        if "/" in name:
            folder = os.path.dirname(name)
            folder = folder if is_there(folder) else f"crates/{folder}"


def dead_crates(line):
    for name in CRATE.findall(line):
        if not is_there(f"crates/{name}"):
            yield f"crate {name}"


def lines_of(page):
    """The lines of a page outside blocks of code, with their numbers."""
    inside = False
    for number, line in enumerate(read(page).split("\n"), 1):
        inside ^= line.startswith("```")
        if not inside and not line.startswith("    "):
            yield number, line


def dead_in_page(page):
    for number, line in lines_of(page):
        for find in (dead_links, dead_chapters, dead_paths):
            yield from (f"{page}:{number}: {it}" for it in find(page, line))
        yield from (f"{page}:{number}: {it}" for it in dead_crates(line))


def dead_in_code(name):
    for number, line in enumerate(read(name).split("\n"), 1):
        for target in re.findall(r"\b(?:docs|crates|examples|edits)/[\w/-]+\.md\b", line):
            if not is_there(target):
                yield f"{name}:{number}: page {target}"
        yield from (f"{name}:{number}: {it}" for it in dead_chapters(name, line))


def main():
    found = []
    names = tracked()
    COUNTS.update(os.path.basename(name) for name in names)
    for name in names:
        if name.endswith(".md"):
            found += dead_in_page(name)
        elif not name.endswith((".wasm", ".rows", ".png")):
            found += dead_in_code(name)
    print(*found, sep="\n", end="\n" if found else "")
    print(f"{len(found)} dead", file=sys.stderr)
    return 1 if found else 0


if __name__ == "__main__":
    sys.exit(main())
