#!/usr/bin/env python3
"""Brings the names of definitions and lemmas in specs/ and proofs/ to one spelling.

Words are in snake case and facts in upper camel case: after-sent becomes after_sent, noneLast becomes none_last, and
Sends-settle becomes SendsSettle. Names that Rattle makes for goals and steps, and names of src/, stay as they are.

usage: python3 tools/respell.py [FOLDER]     rewrites crates/ below FOLDER (here, if none is given) in place
       python3 tools/respell.py --list [FOLDER]     only prints the old and the new names
"""

import collections
import os
import re
import sys

IDENT = r"[A-Za-zÀ-῿⊎⟨][\w'′]*(?:-[\w'′ℕ]+)*"
HEAD = re.compile(r"(?m)^[ ]*(?:(?:abbrev|unfoldable|pub|where)\s+)*(?:(?P<fact>" + IDENT + r")\s+:\s|(?:record|data)\s+(?P<kind>" + IDENT + r")[\s(:])")
ALIAS = re.compile(r"\bas (" + IDENT + ")")
GOAL = re.compile(r"\b(?:goal|given)\.(" + IDENT + ")")
# the parts of a generated step, which keep their names: what follows c., w. or l. in an answer or an invariant
STEP = re.compile(r"(?<![\w'-])(?:[clw]|ghost-[\w-]+)\.$")
# a lemma that would get the name of a function
LEMMAS = {"lowest-one": "lowest_one_lem"}


def files(root, kinds):
    for folder, dirs, names in os.walk(os.path.join(root, "crates")):
        dirs[:] = sorted(d for d in dirs if d != "out")
        for name in sorted(names):
            if name.endswith(kinds):
                yield os.path.join(folder, name)


def spelled(name):
    """The name in today's spelling."""
    if name in LEMMAS:
        return LEMMAS[name]
    name = name.replace("getD", "get_or")
    parts = re.split(r"[-]", name)
    if name[0].isupper():
        return "".join(p[:1].upper() + p[1:] for p in parts)
    words = []
    for p in parts:
        words += re.sub(r"(?<=[a-z0-9])([A-Z])", r"_\1", p).split("_")
    return "_".join(w if len(w) == 0 else w[0].lower() + w[1:] if not w.isupper() else w.lower() for w in words)


def own_names(root):
    """What the files of specs/ and proofs/ define, each with the first file that does."""
    found, goals = {}, set()
    for path in files(root, (".antt",)):
        with open(path, encoding="utf-8") as f:
            text = re.sub(r"(?m)--.*$", "", f.read())
        goals |= set(GOAL.findall(text))
        for m in HEAD.finditer(text):
            found.setdefault(m["fact"] or m["kind"], path)
    for path in files(root, (".antt", ".rt")):
        with open(path, encoding="utf-8") as f:
            for m in ALIAS.finditer("\n".join(re.findall(r"(?m)^\s*(?:ghost )?(?:pub )?use [^;\n]*\{[^}]*\}", f.read()))):
                found.setdefault(m[1], path)
    return {n: p for n, p in found.items() if n not in goals and spelled(n) != n}


def main(argv):
    only = argv[:1] == ["--list"]
    root = (argv[1:] if only else argv) or ["."]
    root = root[0]
    names = own_names(root)
    turned = {n: spelled(n) for n in names}
    back = collections.defaultdict(set)
    for n, m in turned.items():
        back[m].add(n)
    token = re.compile(r"(?<![\w'′-])(" + "|".join(re.escape(n) for n in sorted(turned, key=lambda n: (-len(n), n))) + r")(?![\w'′]|-[\w'])")
    used = set()
    word = re.compile(r"(?<![\w'′-])" + IDENT)
    for path in files(root, (".antt", ".rt", ".edit")):
        with open(path, encoding="utf-8") as f:
            used |= set(word.findall(f.read()))
    for m, ns in sorted(back.items()):
        if len(ns) > 1 or m in used:
            print("fall together:", m, "<-", *sorted(ns), "(also used as it is)" if m in used else "")
    if only:
        for n in sorted(turned):
            print(n, turned[n], os.path.relpath(names[n], root))
        return 0
    for path in files(root, (".antt", ".rt", ".edit")):
        with open(path, encoding="utf-8") as f:
            text = f.read()

        def turn(m):
            before = text[max(0, m.start() - 40):m.start()]
            return m[1] if STEP.search(before) else turned[m[1]]

        new = token.sub(turn, text)
        if new != text:
            with open(path, "w", encoding="utf-8") as f:
                f.write(new)
    print(len(turned), "names respelled")
    return 0


if __name__ == "__main__":
    raise SystemExit(main(sys.argv[1:]))
