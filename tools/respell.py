#!/usr/bin/env python3
"""Brings this repository's own definitions and lemmas to Rattle's spelling: words in snake case, types and modules in camel case, a dash
only between two names.

usage: python3 tools/respell.py [--list] ROOT      after the kit's port.py, once; --list prints the names and writes nothing

A name that is declared in specs/ or proofs/ (a definition, a lemma, a field, a constructor) goes to snake case part by part. A dash stays
where both sides are names (of a definition or function here or of the library), and is an underscore elsewhere. Names of source
functions, of types and of modules stay. It goes by whole words, in .antt and .rt files, in edits, and in back quotes in pages.
"""
import os
import re
import sys

WORD = r"[A-Za-z_\u0370-\u03ff\u2100-\u214f\u207a-\u209c][\w'\u0370-\u03ff\u2100-\u214f\u2080-\u209c]*(?:-[\w'\u2080-\u209c]+)*"
TOKEN = re.compile(r"(?<![\w'\-\u25cc])" + WORD)
DECL = re.compile(r"^\s*(?:(?:abbrev|unfoldable|opaque|pub|data|record|\|)\s+)*(" + WORD + r"(?: " + WORD + r")*)\s+(?::|[({].*:)")
# functions of the standard keep their capitals
SYMBOLS = {"P0", "P1", "FF", "GG", "SS1", "SS2", "TT1", "TT2"}
LIBRARY = {"length", "set", "sets", "take", "drop", "get_or", "map", "append", "reverse", "cond", "add", "sub", "mul", "div", "mod", "suc",
           "zero", "pow", "min", "max", "eqb", "ltb", "leb", "nat_lt", "nat_le", "slice_index", "bit_xor", "bit_and", "bit_or"}
SAME = {"getD": "get_or"}
# where port.py gave a lemma or a field the name that a definition gets here: the crate's proof files and specs that have it
LEMMAS = {"is_digit": ("text", "passage"), "most_bytes": ("claim",), "read_off": ("record", "axles"), "row_count": ("circuit",)}
# what a proof that walks the code declares for its goals is named by the toolchain
WALKS = re.compile(r"(add|cast)-(out|result)(-\d)?|slice-write-out(-\d)?|(returns|same-length)-\d")


def files(root, ends):
    for top in ("crates", "docs", "README.md", "tests", "bench", "fuzz", "examples"):
        path = os.path.join(root, top)
        if os.path.isfile(path) and path.endswith(ends):
            yield path
        for folder, dirs, names in os.walk(path):
            dirs[:] = sorted(d for d in dirs if d not in ("out", "target"))
            for n in sorted(names):
                if n.endswith(ends):
                    yield os.path.join(folder, n)


def read(path):
    with open(path, encoding="utf-8") as f:
        return f.read()


def snake(part):
    if part in SYMBOLS:
        return part
    if part in SAME:
        return SAME[part]
    if not re.search(r"[a-z_0-9'][A-Z]", part) or part[0].isupper():
        return part
    part = re.sub(r"([a-z0-9])([A-Z])", r"\1_\2", part)
    return part.lower()


def declared(root):
    names, defs = set(), set()
    for path in files(root, ".antt"):
        text = re.sub(r"(?m)^\S+ :\s+(?:\([^)]*\)\s*|→\s*)*tie\..*$", "", read(path)) if path.endswith("Proof.antt") else read(path)
        for line in text.splitlines():
            m = DECL.match(line)
            if not m or line.lstrip().startswith("--"):
                continue
            for name in m.group(1).split():
                names.add(name)
            if re.match(r"^\s*(pub )?(abbrev|unfoldable)", line):
                defs.update(m.group(1).split())
    functions = set()
    for path in files(root, ".rt"):
        functions.update(re.findall(r"\bfn (\w+)", read(path)))
    return names, defs, functions


def respelled(name, known):
    if "-" not in name:
        return snake(name)
    if name.endswith("-spec"):
        return name.replace("-", "_")
    parts = [snake(p) for p in name.split("-")]
    out = parts[0]
    for k in range(1, len(parts)):
        left = re.split(r"-", out)[-1]
        rest = ["_".join(parts[k:j]) for j in range(k + 1, len(parts) + 1)]
        named = left in known and any(r in known for r in rest)
        out += ("-" if named else "_") + parts[k]
    return out


def main(argv):
    listing = "--list" in argv
    root = [a for a in argv if not a.startswith("--")][0]
    names, defs, functions = declared(root)
    known = {snake(d) for d in defs if "-" not in d} | functions | LIBRARY
    taken = {snake(n) for n in names if "-" not in n} | {"bit_and", "bit_or", "bit_xor"}
    turn = {}
    for name in names:
        new = respelled(name, known)
        # a lemma that would have its function's name
        if "-" in name and new in taken:
            new += "_lem"
        if new != name and name not in functions and not WALKS.fullmatch(name):
            turn[name] = new
    tokens = set()
    for path in files(root, (".antt", ".rt")):
        tokens.update(TOKEN.findall(read(path)))
    back = {}
    for old, new in sorted(turn.items()):
        back.setdefault(new, []).append(old)
    if listing:
        for old, new in sorted(turn.items()):
            mark = " TOGETHER" if len(back[new]) > 1 else (" THERE" if new in tokens else "")
            print(f"{old} {new}{mark}")
        return 0

    def word(m):
        return turn.get(m.group(0), m.group(0))

    changed = 0
    for path in files(root, (".antt", ".rt", ".edit", ".md")):
        text = read(path)
        if path.endswith(".md"):
            new = re.sub(r"`[^`\n]*`", lambda m: TOKEN.sub(word, m.group(0)), text)
        elif path.endswith(".rt") or path.endswith(".edit"):
            new = "".join(p if k % 2 else TOKEN.sub(word, p) for k, p in enumerate(re.split(r'(b?"(?:[^"\\\n]|\\.)*")', text)))
        else:
            new = text
            for name, crates in LEMMAS.items():
                if path.split(os.sep + "crates" + os.sep)[-1].split(os.sep)[0] in crates:
                    new = re.sub(r"(?<![\w'\-.\u25cc])" + name + r"(?![\w'\-])", name + "_lem", new)
            new = TOKEN.sub(word, new)
        if new != text:
            with open(path, "w", encoding="utf-8") as f:
                f.write(new)
            changed += 1
    print(f"{len(turn)} names, {changed} files")
    return 0


if __name__ == "__main__":
    raise SystemExit(main(sys.argv[1:]))
