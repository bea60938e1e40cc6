#!/usr/bin/env python3
"""Brings this repository's own definitions, lemmas and variables to the spelling of today's Rattle: words in snake case, types and modules in camel case.

usage: tools/spell.py            run once, at the top, after port.py: rewrites the files in place
       tools/spell.py --names    only prints what would be renamed, and which names would fall together

A name of several parts joined by '-' is turned part by part; a part that begins with a capital is a fact or a type, and stays. `getD`, a word of the older
library in names of our own lemmas, is today's `get_or`. It goes over the crates, the wrong bodies, the tests, the pages and the Rust beside them; a word of
capitals and small letters that is declared in no .antt file of the crates (a Rust type, a word of another library) is left alone.
"""

import os
import re
import sys

WORD = re.compile(r"[^\s(){}.;,@\"«»`\[\]/|:]+")
INNER = re.compile(r"(?<=[a-z0-9'])[A-Z]")
# Lemmas whose name is the new spelling of a definition that they speak of: they get the ending that a lemma gets in such a case.
MADE_ROOM = {
    "crates/promises/proofs/EdgesHold.antt": {"same_code": "same_code_lem", "same_number": "same_number_lem"},
    "crates/card/proofs/PageLoops.antt": {"spot_in": "spot_in_lem"},
}
# Where the words stand: folders, and the kinds of file in them.
PLACES = [("crates", (".antt", ".rt", ".edit")), ("tests", ("", ".py", ".sh", ".edit", ".md", ".txt")), ("docs", (".md",))]


def turned(name):
    """The name in today's spelling."""
    parts = []
    for part in name.split("-"):
        if part == "getD":
            part = "get_or"
        if re.match("[a-z]", part):
            part = INNER.sub(lambda m: "_" + m[0].lower(), part)
        parts.append(part)
    return "-".join(parts)


def files():
    for top, kinds in PLACES:
        for folder, dirs, names in os.walk(top):
            dirs[:] = sorted(d for d in dirs if d not in ("out", "target", ".git"))
            for name in sorted(names):
                path = os.path.join(folder, name)
                if os.path.splitext(name)[1] in kinds and not os.path.islink(path):
                    yield path


def read(path):
    with open(path, encoding="utf-8") as f:
        return f.read()


def own_names():
    """Every word of an .antt file of ours that turns, and every other word that is there."""
    words = set()
    for path in files():
        if path.startswith("crates/") and path.endswith(".antt"):
            words |= set(WORD.findall(read(path)))
    return {w: turned(w) for w in words if turned(w) != w}, words


def main(only_names):
    table, words = own_names()
    met = {}
    for old, new in sorted(table.items()):
        met.setdefault(new, []).append(old)
    together = [(new, olds) for new, olds in sorted(met.items()) if new in words or len(olds) > 1]
    for new, olds in together:
        print(f"together: {', '.join(olds)} -> {new}" + (" (a name that is there)" if new in words else ""))
    if only_names:
        for old, new in sorted(table.items()):
            print(f"{old} -> {new}")
        return
    changed = 0
    for path in files():
        text = read(path)
        here = {**table, **MADE_ROOM.get(path, {})}
        new = WORD.sub(lambda m: here.get(m[0], m[0]), text)
        if new != text:
            changed += 1
            with open(path, "w", encoding="utf-8") as f:
                f.write(new)
    print(f"{len(table)} words turned in {changed} files")


if __name__ == "__main__":
    main("--names" in sys.argv[1:])
