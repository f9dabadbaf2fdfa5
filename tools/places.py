#!/usr/bin/env python3
"""Lists the places of crates/*/src that docs/DESIGN-PASS.md counts, point by point: usage: tools/places.py [FOLDER] [POINT]
FOLDER is a checkout (this one if not given); POINT is 1 to 7. It goes by text: a reader judges each place."""

import collections
import glob
import os
import re
import sys

FUNCTION = re.compile(r"^([ ]*)((?:pub(?:\([a-z]+\))? )?(?:extern \"C\" )?)fn (\w+)(<[^>(]*>)?\(", re.M)
TOKEN = re.compile(r"[A-Za-z_]\w*|\d[\w.]*|\"[^\"]*\"|'[^']*'|\S")
# words that make the shape of a body: all others are names, which twins may have different
SHAPE = set("if else match for while loop in return let mut as break continue true false Some None Ok Err Self self".split())


class Function:
    """A function of src/: its place, parameters, result, clauses and body."""

    def __init__(self, path, text, m):
        self.path, self.line, self.name = path, text.count("\n", 0, m.start()) + 1, m[3]
        end = closing(text, m.end() - 1, "(", ")")
        self.parameters = [p for p in split(text[m.end() : end]) if p]
        rest = text[end + 1 :]
        head = re.match(r"\s*(?:->\s*([^\n{]+?))?\s*(?=\n|\{|;)", rest)
        self.result = (head[1] or "()").strip() if head else "()"
        self.requires, at = [], end + 1 + (head.end() if head else 0)
        while clause := re.match(r"\s*(where[^\n]*\n|(?:requires|ensures)\*?[^{;]*)", text[at:]):
            at += clause.end()
            if clause[1].startswith("where"):
                continue
            close = closing(text, at, "{", "}")
            if clause[1].startswith("requires"):
                self.requires += [f for f in split(text[at + 1 : close], "×") if f]
            at = close + 1
        open_ = re.match(r"\s*\{", text[at:])
        self.body = text[at : closing(text, at + open_.end() - 1, "{", "}") + 1] if open_ else ""

    @property
    def place(self):
        return f"{self.path}:{self.line} {self.name}"

    def shape(self):
        """The body with each name, number and text replaced by the order in which it first came."""
        seen, out = {}, []
        for t in TOKEN.findall(self.body):
            if t in SHAPE or not re.match(r"[\w\"']", t):
                out.append(t)
            elif re.match(r"[\d\"']", t):
                out.append("0")
            else:
                out.append(f"n{seen.setdefault(t, len(seen))}")
        return " ".join(out)


def closing(text, at, a, b):
    deep = 0
    for k in range(at, len(text)):
        deep += (text[k] == a) - (text[k] == b)
        if not deep:
            return k
    return len(text) - 1


def split(text, by=","):
    out, deep, last = [], 0, 0
    for k, c in enumerate(text + by):
        deep += (c in "([{<") - (c in ")]}") - (c == ">" and text[k - 1 : k] != "-")
        if c == by and deep <= 0:
            out.append(re.sub(r"\s+", " ", text[last:k]).strip())
            last = k + 1
    return out


def read(folder):
    files = {}
    for path in sorted(glob.glob(os.path.join(folder, "crates/*/src/**/*.rt"), recursive=True)):
        text = re.sub(r"//[^\n]*", lambda m: " " * len(m[0]), open(path, encoding="utf8").read())
        files[os.path.relpath(path, os.path.join(folder, "crates"))] = text
    return files


def lines(files, pattern):
    for path, text in files.items():
        for m in re.finditer(pattern, text, re.M):
            yield f"{path}:{text.count(chr(10), 0, m.start()) + 1} {m[0].strip()}"


def point1(files, functions):
    for path, text in files.items():
        for m in re.finditer(r"enum (\w+)(?:<[^>]*>)? \{", text):
            variants = [re.match(r"(\w+)(.*)", v, re.S) for v in split(text[m.end() : closing(text, m.end() - 1, "{", "}")]) if v]
            lone = [v[1] for v in variants if not v[2] or v[1] in ("Refused", "Failed")]
            if len(variants) <= 5 and lone and any(v[2] for v in variants):
                yield f"{path}:{text.count(chr(10), 0, m.start()) + 1} enum {m[1]}: {', '.join(lone)} beside a value"
    for f in functions:
        if f.result in ("u32", "i32") and re.search(r"check|number", f.name):
            yield f"{f.place}: a number for a refusal"
        if f.result == "bool" and any("&mut" in p for p in f.parameters):
            yield f"{f.place}: a bool for whether it was done"
        if any(re.match(r"(kind|kinds|number|channel|ch)\w*: (u8|u32|&\[u8\])", p) for p in f.parameters) and "match" in f.body + "if ":
            yield f"{f.place}: a number or letter for a kind"
    yield from lines(files, r"^ +pub \w+: bool,$")


def point2(files, functions):
    shapes = collections.defaultdict(list)
    for f in functions:
        if len(f.shape().split()) >= 12:
            shapes[f.shape()].append(f.place)
    for places in shapes.values():
        if len(places) > 1:
            yield "the same but for names and numbers: " + ", ".join(places)


def point3(files, functions):
    yield from lines(files, r"^ +while (?!let).*\{$")
    yield from lines(files, r"^ +for \w+ in [^{]*\.\.[^{]*\{$")


def point4(files, functions):
    for f in functions:
        takes = [p for p in f.parameters if p != "self"]
        if re.search(r"^(of_\w+|\w+_of|add|mul|channel|eq|cmp|black)$", f.name) and len(takes) <= 1:
            yield f"{f.place}({', '.join(takes)}) -> {f.result}"
    yield from lines(files, r"\[(\w+)\.r, \1\.g, \1\.b\]")


def point5(files, functions):
    facts, runs = collections.defaultdict(list), collections.defaultdict(list)
    for f in functions:
        for fact in {re.sub(r"[()]", "", x) for x in f.requires}:
            facts[fact].append(f.place)
        names = [re.sub(r"&(mut )?", "&", p) for p in f.parameters if not p.endswith("self")]
        for k in range(len(names) - 2):
            runs[tuple(names[k : k + 3])].append(f.place)
    for fact, places in sorted(facts.items(), key=lambda x: -len(x[1])):
        if len(places) >= 3:
            yield f"required in {len(places)}: {fact}: " + ", ".join(places)
    for run, places in sorted(runs.items(), key=lambda x: -len(x[1])):
        if len(places) >= 3:
            yield f"together in {len(places)}: {', '.join(run)}: " + ", ".join(places)


def point6(files, functions):
    for path, text in files.items():
        for m in re.finditer(r"struct (\w+)(?:<[^{]*>)? \{", text):
            body = text[m.end() : closing(text, m.end() - 1, "{", "}")]
            if re.search(r": \[", body) and re.search(r"\b(len|count)\b: (usize|u32)", body):
                yield f"{path}:{text.count(chr(10), 0, m.start()) + 1} struct {m[1]}: an array and a length"
    for f in functions:
        arrays = [p for p in f.parameters if re.search(r": \[", p)]
        if len(arrays) >= 2:
            yield f"{f.place}: parallel arrays {', '.join(arrays)}"
        elif arrays and any(re.match(r"(n|len|count): usize", p) for p in f.parameters):
            yield f"{f.place}: an array and a count"


def point7(files, functions):
    yield from lines(files, r"^ +.*\bmatch (ask|call|kind|q)\b.*\{$")
    yield from lines(files, r"^static .*\[Form.*$")


def main():
    arguments = sys.argv[1:]
    points = [a for a in arguments if a.isdigit()]
    folder = next((a for a in arguments if not a.isdigit()), os.path.join(os.path.dirname(__file__), ".."))
    files = read(folder)
    functions = [Function(path, text, m) for path, text in files.items() for m in FUNCTION.finditer(text)]
    for n in points or "1234567":
        found = list(globals()[f"point{n}"](files, functions))
        print(f"point {n}: {len(found)}")
        for place in found:
            print(f"  {place}")


main()
