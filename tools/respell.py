#!/usr/bin/env python3
"""Spells the repository's own definitions and lemmas as today's Rattle does.

usage: python3 tools/respell.py [--list]     at the top, once, on what port.py wrote

A name in camel case that begins low is written in snake case, and a dash stays only where it joins two names of definitions.
Types, modules, functions of src/, exported names and strings keep their names. --list prints the names and writes nothing.
"""

import os
import re
import sys

W = r"[^\s(){}\[\].;,@\"«»\\`]+"
TOKEN = re.compile(r"«[^»]*»|" + W)
SIGNATURE = re.compile(r"^[ \t]*((?:(?:pub|abbrev|unfoldable) )*)(%s)(?: \([^)]*\))* :(?:\s|$)" % W, re.M)
DATA = re.compile(r"^[ \t]*(?:pub )?(?:data|record|ruleset) (%s)" % W, re.M)
CAMEL = re.compile(r"(?<=[a-z0-9])(?=[A-Z])")
# A function's proof files, whose names Rattle gives.
OF_A_FUNCTION = re.compile(r"/proofs/.+/(Proof|Answers|Invariants)\.antt$")
STD = set(
    "any all length append take drop map set replicate reverse get_or getD eqb leb ltb cond max min not and or add mul sub"
    " zero suc div mod concat find filter sum count insert".split()
)
# Where two would fall together: a lemma beside the definition that it is about.
FIXED = {"inOrder": "is_in_order", "or-false": "or-false"}
# Lemmas that port.py spelled like a definition of their crate: the crate and the name.
BESIDE = {
    "agreement": {"same_route"},
    "comparison": {"answers_of"},
    "delegation": {"header_of", "word_good", "within_of"},
    "model": {"within_of"},
    "records": {"read_number"},
    "transcript": {"last_line"},
}


def texts(root, endings):
    for folder, dirs, files in os.walk(root):
        dirs[:] = sorted(d for d in dirs if d not in ("out", ".git", "target"))
        for f in sorted(files):
            if f.endswith(endings):
                yield os.path.join(folder, f)


def read(path):
    with open(path, encoding="utf-8", newline="") as f:
        return f.read()


def code(text):
    return re.sub(r"--[^\n]*", "", text)


def snake(word):
    word = word.replace("getD", "get_or")
    if not re.match(r"[a-zμ_]", word) or not CAMEL.search(word):
        return word
    return CAMEL.sub("_", word).lower()


def respelled(name, known):
    parts = [snake(p) for p in name.split("-")]
    if any(p == "" for p in parts) or not re.fullmatch(r"[\w'-]+", name):
        return name
    # The longest names of definitions first.
    whole, i = [], 0
    while i < len(parts):
        for j in range(len(parts), i, -1):
            if j == i + 1 or "_".join(parts[i:j]) in known:
                whole.append("_".join(parts[i:j]))
                i = j
                break
    out = whole[0]
    for before, after in zip(whole, whole[1:]):
        out += ("-" if before in known and after in known else "_") + after
    return out


def main(argv):
    root = os.getcwd()
    defined, lemmas, functions = set(), {}, set()
    for p in texts(os.path.join(root, "crates"), (".antt",)):
        if OF_A_FUNCTION.search(p):
            continue
        text = code(read(p))
        for m in SIGNATURE.finditer(text):
            lemmas.setdefault(m[2], set()).add(os.path.relpath(p, root))
            if "/specs/" in p:
                defined.add(m[2])
        for m in DATA.finditer(text):
            lemmas.setdefault(m[1], set()).add(os.path.relpath(p, root))
    for p in texts(os.path.join(root, "crates"), (".rt",)):
        functions |= set(re.findall(r"\bfn (\w+)", read(p)))
    known = {snake(n) for n in defined} | STD
    new = {}
    for n in sorted(lemmas):
        to = FIXED.get(n) or respelled(n, known)
        if to != n:
            new[n] = to
    taken = {}
    for n in lemmas:
        taken.setdefault(new.get(n, n), set()).add(n)
    for to, names in sorted(taken.items()):
        if len(names) < 2:
            continue
        # The definition has the name; a lemma beside it gets _lem, and a dash that was there stays where that is no use.
        for n in sorted(names, key=lambda n: (n not in defined, "-" in n, n != to))[1:]:
            if "-" in n and to + "_lem" not in taken:
                new[n] = to + "_lem"
            print(f"respell: {' and '.join(sorted(names))} fall together: {n} is {new.get(n, n)}", file=sys.stderr)
    if "--list" in argv:
        for n, to in sorted(new.items()):
            print(n, to)
        return 0
    swap = lambda m: new.get(m[0], m[0])
    for p in texts(os.path.join(root, "crates"), (".antt", ".rt", ".edit")):
        text = read(p)
        if p.endswith(".rt"):
            # strings keep what they hold
            parts = re.split(r'(b?"(?:[^"\\]|\\.)*")', text)
            text2 = "".join(t if i % 2 else TOKEN.sub(swap, t) for i, t in enumerate(parts))
        else:
            beside = BESIDE.get(os.path.relpath(p, root).split(os.sep)[1], ()) if "/proofs/" in p else ()
            text2 = re.sub(
                TOKEN.pattern,
                lambda m: m[0] + "_lem" if m[0] in beside and text[m.start() - 1 : m.start()] != "." else swap(m),
                text,
            )
        if text2 != text:
            with open(p, "w", encoding="utf-8", newline="") as f:
                f.write(text2)
    for p in [os.path.join(root, "README.md"), *texts(os.path.join(root, "docs"), (".md",))]:
        if os.path.basename(p).startswith("PORT"):
            continue
        text = read(p)
        text2 = re.sub(r"`[^`\n]+`", lambda m: TOKEN.sub(swap, m[0]), text)
        if text2 != text:
            with open(p, "w", encoding="utf-8", newline="") as f:
                f.write(text2)
    print(f"respell: {len(new)} names")
    return 0


if __name__ == "__main__":
    raise SystemExit(main(sys.argv[1:]))
