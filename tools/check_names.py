#!/usr/bin/env python3
"""Looks up the names of README.md and docs/PROMISES.md.

    tools/check_names.py

A name is said to be in a file by the words `name`, `name` in `crates/...`. Each such name must be declared in that file, each file that is named
must be there, and each edit that is named as `crate/edit` must be there. Of the table of wrong definitions each definition must be declared in its
crate's specs/, and each case or theorem in the file of proofs/ that is named before it. To be run from the top of the repository. It prints what is
missing and ends with 1 if anything is."""
import functools
import os
import re
import sys

PAGES = ["README.md", "docs/PROMISES.md"]
NAMES = re.compile(r"((?:`[^`]+`(?:, | and | to )?)+) in `(crates/[^`]+)`")
FILES = re.compile(r"`(crates/[^`]+\.(?:antt|rt|md))`")
EDITS = re.compile(r"`([a-z_0-9]+/[a-z_0-9]+)`")
TABLE = "## Wrong definitions"
CRATE = re.compile(r"\| \*\*(\w+)\*\* \|")
REFUSED_BY = re.compile(r"(\w+)(?: of `(\w+)`)?: ((?:`[^`]+`(?:, )?)+)")


@functools.cache
def source(path):
    """The text of a file, or None if there is none."""
    if not os.path.isfile(path):
        return None
    with open(path, encoding="utf-8") as file:
        return file.read()


def is_declared(name, path):
    word = re.escape(name)
    forms = [
        rf"(?m)^\s*(?:pub |abbrev |unfoldable |record |data )*{word}(?=[\s:({{])",
        rf"(?m)^\s*(?:pub )?(?:fn|struct|enum|const) {word}\b",
    ]
    return source(path) is not None and any(re.search(form, source(path)) for form in forms)


def quoted(text):
    return re.findall(r"`([^`]+)`", text)


def in_table(text):
    """Each definition of the table of wrong definitions, and each name that refuses one."""
    crate = None
    for line in text.partition(TABLE)[2].partition("\n## ")[0].splitlines():
        crate = CRATE.match(line)[1] if CRATE.match(line) else crate
        if crate is None or not line.startswith("| `"):
            continue
        wrong, _, by = line.strip("| ").split(" | ")
        specs = [f"crates/{crate}/specs/{name}" for name in os.listdir(f"crates/{crate}/specs")]
        for name in quoted(wrong):
            yield f"{name} in crates/{crate}/specs", any(is_declared(name, path) for path in specs)
        for file, other, names in REFUSED_BY.findall(by):
            for name in quoted(names):
                path = f"crates/{other or crate}/proofs/{file}.antt"
                yield f"{name} in {path}", is_declared(name, path)


def looked_up(text):
    """Each thing that a page names, and whether it is there."""
    yield from in_table(text)
    for path in FILES.findall(text):
        yield f"the file {path}", source(path) is not None
    for names, path in NAMES.findall(text):
        for name in quoted(names):
            yield f"{name} in {path}", is_declared(name, path)
    for crate, name in (edit.split("/") for edit in EDITS.findall(text)):
        if os.path.isdir(f"crates/{crate}"):
            yield f"the edit {crate}/{name}", source(f"crates/{crate}/must-fail/{name}.edit") is not None


def main():
    found = [(page, what, is_there) for page in PAGES for what, is_there in looked_up(source(page) or sys.exit(f"no page {page}"))]
    missing = [f"{page}: {what} is missing" for page, what, is_there in found if not is_there]
    print("\n".join(missing + [f"{len(found)} names looked up, {len(missing)} missing"]))
    return 1 if missing else 0


if __name__ == "__main__":
    sys.exit(main())
