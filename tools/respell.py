#!/usr/bin/env python3
"""Turns the repository's own definitions and lemmas to the language's spelling: functions, lemmas and
fields of specs/ and proofs/ in snake case. Usage: respell.py [FOLDER], with crates/ below it.

Turned are the names that the crates' .antt files declare, names with capitals inside that they bind, and
names with dashes that a file binds: in all .antt and .rt files, must-fail edits, and the pages of docs/ and
README.md. A lemma that would have the name of a function gets `_lem`. Names that Rattle makes (goals and
what stands before them), those of src/ and those of its library stay, as do types, modules, constructors
and strings. Where two names would become one, that is printed. Run again, it changes nothing."""

import collections
import os
import re
import sys

# As the source spells them, or the library.
AS_THE_SOURCE = {"sampleCatmullRom2d": "sample_catmull_rom_2d", "inv4Pi": "inv_4_pi"}
OF_THE_LIBRARY = {"is_nan"}

STOP = r"\s(){}\[\],;.:@\"`|λ→⟦⟧"
TOKEN = re.compile(f"[^{STOP}]+")
DECLARED = re.compile(
    rf"^[ ]*((?:pub |abbrev |unfoldable |private |opaque )*)([^{STOP}]+)(?: [^\s:=]+)*? : *(\S+)", re.M
)
WORD = r"A-Za-z0-9_'₀-₉½²"


def files(root):
    for top in ("crates", "docs"):
        for folder, below, names in os.walk(os.path.join(root, top)):
            below[:] = [b for b in below if b != "out"]
            for name in names:
                if name.rsplit(".", 1)[-1] in ("antt", "rt", "edit", "md"):
                    yield os.path.join(folder, name)
    yield os.path.join(root, "README.md")


def is_camel(name):
    return name[0].islower() and re.search("[a-z0-9][A-Z]", name)


def is_kebab(name):
    return "-" in name and re.match("[A-Za-z]", name)


def snake(name):
    name = name.replace("getD", "get_or").replace("-", "_")
    return re.sub("([a-z0-9])([A-Z])", lambda m: m[1] + "_" + m[2].lower(), name)


def without_comments(text):
    return re.sub("--[^\n]*", "", text)


def renamings(root):
    declared = collections.defaultdict(set)
    locals_ = set()
    for path in files(root):
        if path.endswith(".antt"):
            text = without_comments(open(path).read())
            for m in DECLARED.finditer(text):
                declared[m[2]].add("goal" if m[3].startswith("goal.") else path)
            locals_.update(t for t in TOKEN.findall(text) if is_camel(t))
    own = {name for name, places in declared.items() if places != {"goal"}}
    turned = {}
    for name in sorted(locals_ | own):
        if is_camel(name) and "-" not in name:
            turned[name] = AS_THE_SOURCE.get(name, snake(name))
    functions = set(turned.values()) | OF_THE_LIBRARY
    functions |= {n for n in own if n not in turned and any("/specs/" in place for place in declared[n])}
    # a lemma that already has the name that its function gets
    for name in sorted(own & set(turned.values())):
        if any(turned.get(n) == name and n in own for n in turned) and all("/proofs/" in p for p in declared[name]):
            turned[name] = name + "_lem"
    for name in sorted(own):
        if is_kebab(name):
            plain = snake(name)
            turned[name] = plain + "_lem" if plain in functions else plain
    together = collections.defaultdict(list)
    for name, to in turned.items():
        together[to].append(name)
    for to, names in sorted(together.items()):
        if len(names) > 1:
            print(f"falls together: {to}: {', '.join(names)}")
    return turned


def of_the_library(text, crates):
    """The names that a file takes from a library: another's of the same spelling stays here."""
    names = set()
    for m in re.finditer(r"\buse ([^\s{};]+?)\.?\{([^}]*)\}", text):
        parts = re.split(r"[.:]+", m[1])
        if not (parts[0] == "Rattle" and len(parts) > 1 and parts[1] in crates):
            names.update(n.split(" as ")[-1].strip() for n in m[2].split(","))
    return names


def bound(text):
    """Names with a dash that a proof binds, by `let`, in a pattern of λ, or before a colon in parentheses."""
    names = set()
    for pattern in (rf"\blet ([^{STOP}=]+)", r"λ ([^.]+?)\.", r"[({]([^(){}:]+?) :"):
        for m in re.finditer(pattern, without_comments(text)):
            names.update(n for n in m[1].replace("(", " ").split() if is_kebab(n))
    return {n: n.replace("-", "_") for n in names if n.replace("-", "_") not in TOKEN.findall(text)}


def respell(text, turned, kind):
    camel = {n for n in turned if "-" not in n}
    kebab = {n for n in turned if "-" in n}

    def by_tokens(part, names):
        return TOKEN.sub(lambda m: turned[m[0]] if m[0] in names else m[0], part)

    def words(part):
        return re.sub(rf"(?<![{WORD}-])[a-z_][{WORD}]*(?![{WORD}-])", lambda m: turned[m[0]] if m[0] in camel else m[0], part)

    def quoted(part):
        return re.sub("`[^`\n]*`", lambda m: by_tokens(m[0], turned), part)

    if kind == "md":
        return quoted(text)
    mark = "--" if kind == "antt" else "//"
    lines = []
    for line in text.split("\n"):
        # A comment begins a line or follows a blank; strings of src/ hold no such mark.
        m = re.search(rf"(^|\s){mark}", line)
        code, comment = (line[: m.start()], line[m.start() :]) if m and kind != "edit" else (line, "")
        pieces = re.split(r'("(?:[^"\\]|\\.)*")', code)
        code = "".join(p if i % 2 else by_tokens(p, turned) for i, p in enumerate(pieces))
        lines.append(code + words(quoted(comment)))
    return "\n".join(lines)


def main():
    root = sys.argv[1] if len(sys.argv) > 1 else "."
    turned = renamings(root)
    crates = set(os.listdir(os.path.join(root, "crates")))
    changed = 0
    for path in files(root):
        text = open(path).read()
        kept = of_the_library(text, crates)
        here = {**(bound(text) if path.endswith(".antt") else {}), **turned}
        here = {name: to for name, to in here.items() if name not in kept}
        new = respell(text, here, path.rsplit(".", 1)[-1])
        if new != text:
            open(path, "w").write(new)
            changed += 1
    print(f"{len(turned)} names, {changed} files")


main()
