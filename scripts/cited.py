#!/usr/bin/env python3
"""Which names and files the pages cite that aren't there: of README.md, docs/ and each crate's README.

A name is a word in back quotes; it is there where the code, the definitions, the proofs, the edits or the scripts have it, or its beginning.
A file is a path that ends in .rt or .antt. In docs/DEFINITIONS.md a row's names must stand in one of the files that the row has. Prints what
isn't there, and ends with 1 then.
"""

import glob
import os
import re
import sys

os.chdir(os.path.dirname(os.path.dirname(os.path.abspath(__file__))))
FILES = [it for end in ("antt", "rt", "edit") for it in glob.glob(f"crates/*/**/*.{end}", recursive=True) if "/out/" not in it]
TEXTS = {}
for file in FILES + glob.glob("scripts/*"):
    with open(file, encoding="utf-8") as text:
        TEXTS[file] = text.read()
WORDS = {word for text in TEXTS.values() for word in re.findall(r"\w+", text)} | {os.path.splitext(os.path.basename(it))[0] for it in FILES}
WORDS.update(os.listdir("crates"))


def is_there(path):
    return any(it.endswith("/" + path) for it in FILES)


def missing(page, text):
    """What a page cites that isn't there."""
    for name in re.findall(r"`([A-Za-z_]\w*)`", text):
        if not WORDS & {name, name.rpartition("_")[0] + "_" if "_" in name else name}:
            yield f"{page}: `{name}`"
    for path in re.findall(r"(?:\w+/)?(?:specs|src|proofs)/[\w/]+\.(?:antt|rt)", text):
        if not is_there(path):
            yield f"{page}: {path}"


def misplaced(text):
    """Names of the definitions that stand in none of their row's files."""
    for names, places in re.findall(r"^\| ([^|]*`[^|]*) \| (\w+/specs/[^|]*) \|", text, re.MULTILINE):
        folder = "crates/" + places.split("/")[0] + "/specs/"
        files = [it for it in FILES if it.startswith(folder) and any(it.endswith("/" + f) for f in re.findall(r"\w+\.antt", places))]
        for name in re.findall(r"`(\w+)`", names):
            if files and not any(re.search(rf"\b{name}\b", TEXTS[it]) for it in files):
                yield f"docs/DEFINITIONS.md: `{name}` isn't in {places}"


found = []
for page in ["README.md", *sorted(glob.glob("docs/*.md")), *sorted(glob.glob("crates/*/README.md"))]:
    with open(page, encoding="utf-8") as it:
        text = it.read()
    found += missing(page, text)
    if page == "docs/DEFINITIONS.md":
        found += misplaced(text)
print("\n".join(sorted(set(found))) or "cited: all there")
sys.exit(1 if found else 0)
