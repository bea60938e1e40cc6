#!/usr/bin/env python3
"""The places of docs/DESIGN-PASS.md, counted in src/: tools/forms.py [POINT] [ROOT] prints a line for each place, and how many of each point there are.

1 enums with a case for none or for no fault, structs with a flag or a code beside a value, numbers for kinds (a match on numbers, a table of words),
  a number that stands for none
2 functions that are the same but for names, types and numbers
3 loops by `while` and `loop`
4 functions that only say which cases of an enum give true, a flag as a number, fields of a tuple struct compared one by one
5 functions that take three or more of the buffers that travel together
6 functions that take a buffer and where to write in it, structs that keep a length or a count beside an array
7 matches that call another function for each number
8 answers and invariants: files, and lines"""
import glob
import os
import re
import sys
from collections import defaultdict

POINTS = [int(a) for a in sys.argv[1:] if a.isdigit()] or range(1, 9)
ROOT = ([a for a in sys.argv[1:] if not a.isdigit()] or [os.path.dirname(os.path.abspath(__file__)) + "/.."])[0]
FILES = sorted(glob.glob(os.path.join(ROOT, "crates/*/src/*.rt")))


def text(path):
    with open(path, encoding="utf-8") as f:
        return f.read()


def name(path):
    return os.path.relpath(path, os.path.join(ROOT, "crates")).replace("/src/", "/")


def functions(path):
    """Each function: its name, what it takes, its body, the comment above it."""
    t = text(path)
    for m in re.finditer(r'(?ms)((?:^ *//[^\n]*\n)*)^( *)(?:#\[[^\n]*\n *)*(?:pub(?:\(crate\))? )?(?:extern "C" )?fn (\w+)(.*?)\{\n(.*?)^\2\}', t):
        takes = re.split(r"\n *(?:requires|ensures)\b", m[4])[0]
        yield m[3], takes, m[5], m[1]


def enums(path):
    for m in re.finditer(r"(?ms)^(?:pub(?:\(crate\))? )?enum (\w+)[^\n]*\{\n(.*?)^\}", text(path)):
        yield m[1], re.findall(r"(?m)^    (\w+)", m[2])


def structs(path):
    for m in re.finditer(r"(?ms)((?:^//[^\n]*\n)*)(?:^#\[[^\n]*\n)*^(?:pub(?:\(crate\))? )?struct (\w+)[^\n]*\{\n(.*?)^\}", text(path)):
        yield m[2], re.findall(r"(?m)^    (?:pub(?:\(crate\))? )?(\w+): ([^\n,]+)", m[3]), m[1]


def point_1():
    for p in FILES:
        for e, cases in enums(p):
            none = [c for c in cases if c in ("Not", "Nothing", "Fine", "Nowhere", "Wrong", "Bad", "Broken")]
            if none and e != "Spoiled":
                yield f"{name(p)}: enum {e}: {', '.join(none)}"
        for s, fields, _ in structs(p):
            flags = [f for f, t in fields if t in ("Code", "Fault") or f in ("good", "whole", "last", "ended")]
            if flags and len(fields) > 1:
                yield f"{name(p)}: struct {s}: {', '.join(flags)} beside a value"
        for f, takes, body, above in functions(p):
            if "which(" in body:
                yield f"{name(p)}: {f}: a table of words, by number"
            if len(re.findall(r"(?m)^\s+\d+ =>", body)) > 1:
                yield f"{name(p)}: {f}: a match on numbers"
            if re.search(r"0 where (?:there is|it is|the line|a line|they write|they)|where there is none|where it has none|where it is none", above) and re.search(r"-> (?:u64|usize|Spot)", takes):
                yield f"{name(p)}: {f}: a number that stands for none"


def shape(body):
    """A body without its names, types and numbers."""
    b = re.sub(r"//[^\n]*", "", body)
    b = re.sub(r'b?"[^"]*"', "S", b)
    words = {}

    def one(m):
        w = m[0]
        if w in ("if", "else", "match", "while", "loop", "for", "in", "let", "mut", "return", "true", "false", "as", "self", "fn"):
            return w
        if w[0].isdigit() or w in ("u8", "u16", "u32", "u64", "usize", "i64"):
            return "N"
        return words.setdefault(w, f"w{len(words)}")
    return re.sub(r"\s+", " ", re.sub(r"[A-Za-z_]\w*|\d[\w.]*", one, b)).strip()


def point_2():
    alike = defaultdict(list)
    for p in FILES:
        for f, takes, body, _ in functions(p):
            s = shape(body)
            if len(s) > 40:
                alike[s].append(f"{name(p)}: {f}")
    for s in sorted(alike, key=lambda s: alike[s]):
        if len(alike[s]) > 1:
            yield " = ".join(alike[s])


def point_3():
    for p in FILES:
        for f, takes, body, _ in functions(p):
            for m in re.finditer(r"(?m)^\s*(while|loop)\b([^\n]*)", body):
                yield f"{name(p)}: {f}: {m[1]}{m[2]}"


def point_4():
    for p in FILES:
        for f, takes, body, _ in functions(p):
            arms = re.findall(r"=> (\w+),?", body)
            if len(arms) > 2 and set(arms) <= {"true", "false"} and "match" in body:
                yield f"{name(p)}: {f}: cases that give true"
            if re.search(r"if \w+ \{\s*(?:return )?1;?\s*\}(?: else \{)?\s*0", body):
                yield f"{name(p)}: {f}: a flag as a number"
            if len(re.findall(r"\w+\.(\w+) == \w+\.\1", body)) > 1:
                yield f"{name(p)}: {f}: fields compared"
            for m in re.finditer(r"\b\w+\.0 (?:<|<=|==) \w+\.0\b", body):
                yield f"{name(p)}: {f}: {m[0]}"


TOGETHER = ("memory", "staging", "card", "manifest", "text", "index", "table", "places", "notes", "out")


def point_5():
    for p in FILES:
        for f, takes, body, _ in functions(p):
            have = [n for n in TOGETHER if re.search(rf"\b{n}: &", takes)]
            if len(have) > 2:
                yield f"{name(p)}: {f}: {', '.join(have)}"


def point_6():
    for p in FILES:
        for f, takes, body, _ in functions(p):
            if re.search(r"&mut (?:\[u8\]|Buffer)", takes) and re.search(r"\b(?:at|from|held): usize", takes):
                yield f"{name(p)}: {f}: a buffer and where to write in it"
        for s, fields, _ in structs(p):
            if any("[" in t for _, t in fields) and any(f in ("size", "count", "len", "held") for f, _ in fields):
                yield f"{name(p)}: struct {s}: a length beside an array"


def point_7():
    for p in FILES:
        for f, takes, body, _ in functions(p):
            if len(re.findall(r"(?m)^\s+\d+ => (?:return )?[\w:.]+\(", body)) > 1:
                yield f"{name(p)}: {f}"


def point_8():
    for c in sorted(os.listdir(os.path.join(ROOT, "crates"))):
        files = [q for d, _, fs in os.walk(os.path.join(ROOT, "crates", c, "proofs")) for q in (os.path.join(d, f) for f in fs) if q.endswith(("Answers.antt", "Invariants.antt"))]
        if files:
            yield f"{c}: {len(files)} files, {sum(text(q).count(chr(10)) for q in files)} lines"


for k in POINTS:
    places = list(globals()[f"point_{k}"]())
    for place in places:
        print(f"{k}  {place}")
    if k == 8:
        numbers = [[int(n) for n in re.findall(r": (\d+) files, (\d+) lines", p)[0]] for p in places]
        print(f"8: {sum(n[0] for n in numbers)} files, {sum(n[1] for n in numbers)} lines")
    else:
        print(f"{k}: {len(places)}")
