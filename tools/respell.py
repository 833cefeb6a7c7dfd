#!/usr/bin/env python3
"""Brings the repository's own definitions and lemmas to today's spelling: words in snake case, a prime as an apostrophe.

usage: python3 tools/respell.py        at the top, once, behind port.py

Of each .antt and .rt file below crates/ it turns every word that begins with a small letter and has a capital in it, in names,
clauses and comments alike: `recordMost` is `record_most`, `leOf-append` is `le_of-append`. Types, facts and modules begin with a
capital and stay; names of Rust begin with a capital or have none. `getD` is std's `get_or`, whatever port.py made of it.
"""
import os
import re

WORD = re.compile(r"(?<![A-Za-z0-9_'])[a-z][a-z0-9]*(?:[A-Z][a-z0-9]*)+(?![A-Za-z0-9])")
STRING = re.compile(r'"(?:[^"\\\n]|\\.)*"')
# lemmas that would fall together with the function that they are about; and std's `get_or`, which port.py left half turned
FIRST = [
    (r"(?<![\w'-])calls_seen(?![\w'-])", "calls_seen_lem", ("pieces", "promises")),
    (r"(?<![\w'-])entry_in(?![\w'-])", "entry_in_lem", ("write",)),
    (r"(?<![\w'-])in_order(?![\w'-])", "in_order_lem", ("refusal",)),
    (r"(?<![\w'-])out_of_range(?![\w'-])", "out-of-range", ("pieces",)),
    (r"(?<![\w'-])form_in(?![\w'-])", "form-in", ("contents",)),
    (r"(?<![\w'-])(?:get_d_|getD-)(?=part|units|pairs)", "get_or-", None),
]


def snake(word):
    return re.sub("[A-Z]", lambda m: "_" + m.group().lower(), word)


def turned(text, crate):
    for old, new, crates in FIRST:
        if crates is None or crate in crates:
            text = re.sub(old, new, text)
    text = text.replace("\u2032", "'")
    return WORD.sub(lambda m: snake(m.group()), text)


def main():
    for folder, dirs, files in os.walk("crates"):
        dirs[:] = sorted(d for d in dirs if d != "out")
        for name in sorted(files):
            if not name.endswith((".antt", ".rt")):
                continue
            path = os.path.join(folder, name)
            crate = path.split(os.sep)[1]
            with open(path, encoding="utf-8") as f:
                text = f.read()
            if path.endswith(".rt"):
                parts, at = [], 0
                for m in STRING.finditer(text):
                    parts += [turned(text[at:m.start()], crate), m.group()]
                    at = m.end()
                new = "".join(parts) + turned(text[at:], crate)
            else:
                new = turned(text, crate)
            if new != text:
                with open(path, "w", encoding="utf-8") as f:
                    f.write(new)


main()
