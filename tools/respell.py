#!/usr/bin/env python3
"""Spells this repository's own definitions and lemmas as today's Rattle spells names, once, after the kit's port.py.

usage: tools/respell.py            at the top of the repository

What is declared in specs/ and proofs/ of a crate in camel case (`sectionAt`) gets snake case (`section_at`), where port.py did not
already; three lemmas that port.py named like a definition get their dash back; a lemma on `getD`, which is `get_or` today, says so; the two library names that port.py took apart are joined again. Types,
modules and facts keep their capital; names of src/ stay. The names are turned wherever they stand: in crates/*/src, specs, proofs and
must-fail, and in docs/ and README.md, where the names that port.py turned are turned too. It stops where two
names would fall together.
"""
import os
import re
import sys

DECLARED = re.compile(
    r"^ *(?:(?:unfoldable|abbrev|pub|record|data|ruleset) )*([^\s:{}()]+)(?: \{[^{}\n]*\})*(?: \([^()\n]*\))* :(?= |$)", re.M
)
TOKEN = re.compile(r"[^\s(){}.;,@\"«»`/]+")
# What port.py spelled in snake case by itself, for the pages and the edits, which it does not turn.
BY_PORT = """allBytes blockAt byKind byOrder bytesOf countOf fieldsAt fieldsOf imageOf inTurn lastOf layoutOf nextOf numberAt orElse
pageOf partOf pieceAt piecesOf sliceOf sourceOf stateOf turnOf upTo wordAt wordsOf""".split()
JOINED = {"get_d_sets_before": "get_or-sets_before", "getD": "get_or"}
# Lemmas whose dash port.py took, and that would now be called as the definition that they are about. They get their dash back, where
# they stand by themselves or behind the module `size`, and not as a step of a function's proof.
DASHED = re.compile(r"(?<![.\w-])(size\.)?(laid|list|first)_(out|length|block)(?![\w-])")
DASHED_NAMES = {"laid_out", "list_length", "first_block"}
# A field of a record in one crate and a local definition in another.
APART = {"by_place"}


def snake(name):
    name = re.sub(r"^getD(?=-)|(?<=-)getD(?=-)", "get_or", name)
    name = re.sub(r"(?<=[a-z0-9])[A-Z](?=[a-z])", lambda m: "_" + m[0].lower(), name)
    return name.replace("′", "'")


def read(path):
    with open(path, encoding="utf-8") as f:
        return f.read()


def files(root, ends):
    for folder, folders, names in os.walk(root):
        folders[:] = sorted(it for it in folders if it not in ("out", ".git", "target"))
        for name in sorted(names):
            if name.endswith(ends):
                yield os.path.join(folder, name)


def main():
    declared = set()
    for path in files("crates", (".antt",)):
        old = read(path)
        new = DASHED.sub(lambda m: m[0].replace("_", "-") if f"{m[2]}_{m[3]}" in DASHED_NAMES else m[0], old)
        if new != old:
            with open(path, "w", encoding="utf-8") as f:
                f.write(new)
        declared.update(DECLARED.findall(new))
    turned = {}
    for name in declared:
        if name[:1].islower() and snake(name) != name:
            turned[name] = snake(name)
    meet = [(a, b) for a, b in turned.items() if b in declared and b not in APART]
    if meet or len(set(turned.values())) != len(turned):
        sys.exit(f"respell: names would fall together: {meet}")
    outside = dict(turned)
    outside.update((name, snake(name)) for name in BY_PORT)
    changed = 0
    for root, ends, names in (
        ("crates", (".antt", ".rt"), {**turned, **JOINED}),
        ("crates", (".edit",), {**outside, **JOINED}),
        ("docs", (".md",), {**outside, **JOINED}),
        (".", ("README.md",), {**outside, **JOINED}),
    ):
        for path in files(root, ends):
            old = read(path)
            new = TOKEN.sub(lambda m: names.get(m[0], m[0]), old)
            if new != old:
                with open(path, "w", encoding="utf-8") as f:
                    f.write(new)
                changed += 1
    print(f"respell: {len(turned)} names, {changed} files")


if __name__ == "__main__":
    main()
