#!/usr/bin/env python3
"""Brings the repository's own definitions, lemmas and record fields to snake case.

usage: python3 tools/snake_names.py [ROOT]

It renames what specs/ and proofs/ declare: `illMade` becomes `ill_made`, `map-after` becomes `map_after`. Names that the
checker makes (goals, as `loop-k-preserved`) and names of the library stay. A lemma whose name would fall together with
that of its definition gets the ending `_lem`. Run once, after the library's own script.
"""

import glob
import os
import re
import sys

# Lemmas that would fall together with the definition that they speak of.
LEMMAS = [
    "buffer-ended",
    "first-end",
    "grown-by",
    "in-time",
    "is-okay",
    "is-replying",
    "no-event",
    "none-held",
    "request-ended",
    "requests-at",
    "response-begun",
    "responses-at",
    "used-at",
]

# Lemmas whose definition takes the name that they have; no file outside these folders uses them.
MOVED = {"crates/protocol/proofs": ["is_free", "same_kind"]}

DECLARED = re.compile(r"^\s*(?:(?:abbrev|unfoldable|opaque|pub)\s+)*([a-z][A-Za-z0-9_'-]*)(?:\s+\{[^}]*\})*\s+:\s(?!\s*goal\.)")
TOKEN = re.compile(r"[A-Za-z_][A-Za-z0-9_'-]*")


def snake(name):
    if name in LEMMAS:
        return name.replace("-", "_") + "_lem"
    return re.sub(r"(?<=[a-z0-9'])([A-Z])", lambda m: "_" + m.group(1).lower(), name.replace("-", "_"))


def files(root, *patterns):
    return sorted(p for pattern in patterns for p in glob.glob(os.path.join(root, pattern), recursive=True) if "/out/" not in p)


def declared(root):
    names = set()
    for path in files(root, "crates/*/specs/**/*.antt", "crates/*/proofs/**/*.antt"):
        with open(path, encoding="utf-8") as f:
            for line in f:
                m = DECLARED.match(line)
                if m and snake(m.group(1)) != m.group(1):
                    names.add(m.group(1))
    return {name: snake(name) for name in names}


def turned(text, names):
    """A name behind a point is a field or a goal, and never a lemma."""

    def one(m):
        name = m.group(0)
        if name in LEMMAS and m.start() and text[m.start() - 1] == ".":
            return name.replace("-", "_")
        return names.get(name, name)

    return TOKEN.sub(one, text)


def main(argv):
    root = argv[0] if argv else "."
    names = declared(root)
    for folder, lemmas in MOVED.items():
        for path in files(root, folder + "/**/*.antt"):
            with open(path, encoding="utf-8") as f:
                text = f.read()
            with open(path, "w", encoding="utf-8") as f:
                f.write(turned(text, {name: name + "_lem" for name in lemmas}))
    for path in files(root, "crates/*/specs/**/*.antt", "crates/*/proofs/**/*.antt", "crates/*/src/**/*.rt"):
        with open(path, encoding="utf-8") as f:
            text = f.read()
        new = turned(text, names)
        if new != text:
            with open(path, "w", encoding="utf-8") as f:
                f.write(new)
    # In docs also the names that the library's script turned.
    now = set()
    for path in files(root, "crates/*/specs/**/*.antt", "crates/*/proofs/**/*.antt"):
        with open(path, encoding="utf-8") as f:
            now.update(m.group(1) for m in map(DECLARED.match, f) if m)
    for path in files(root, "README.md", "docs/*.md"):
        with open(path, encoding="utf-8") as f:
            text = f.read()
        said = {t: snake(t) for t in TOKEN.findall(text) if snake(t) != t and snake(t) in now}
        new = re.sub(r"`[^`\n]*`", lambda m: turned(m.group(0), said), text)
        if new != text:
            with open(path, "w", encoding="utf-8") as f:
                f.write(new)
    print(f"{len(names)} names")


if __name__ == "__main__":
    main(sys.argv[1:])
