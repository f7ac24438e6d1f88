#!/usr/bin/env python3
"""Brings the repository's own definitions and lemmas to snake case. Run once, at the top, after the kit's port.py.

usage: python3 tools/respell.py          rewrites crates/*/{src,specs,proofs} and must-fail/*.edit in place
       python3 tools/respell.py --list   prints old and new names, and the names that stay since they would fall together

- A definition in camel case (`limitOf`) gets snake case (`limit_of`).
- A dash in a lemma's name stays where it joins two names (`length-absorb`), and is an underscore before or behind a plain word.
- A proof of the function f is `f_spec`.
- Types and modules keep their capitals; names from src/ keep their spelling; strings are not touched.
"""
import collections
import os
import re
import sys

DECL = re.compile(r"^(?:(?:abbrev|unfoldable|opaque|ruleset|macro|pub|record|data) )*([^\s:(){}]+)(?: [({].*)?(?: ?\{ℓ\})? ?:(?: |$)")
FIELD = re.compile(r"^  pub ([^\s:(){}]+) :")
CAMEL = re.compile(r"^[a-z][a-z0-9]*(?:[A-Z][a-z0-9]*)+$")
TOKEN = re.compile(r"[A-Za-z0-9_'₀₁₂₃-]+")
# Words of the library that this repository's lemmas are named after.
STD = set("append length take drop reverse map set replicate get_or suc zero add mul min max sum filter and or not".split())
KEPT = {"getD": "get_or"}


def texts(ends):
    for root, dirs, files in os.walk("crates"):
        dirs[:] = sorted(d for d in dirs if d != "out")
        for f in sorted(files):
            if f.endswith(ends):
                yield os.path.join(root, f)


def read(p):
    with open(p, encoding="utf-8") as f:
        return f.read()


def snake(w):
    if w in KEPT:
        return KEPT[w]
    if not CAMEL.match(w):
        return w
    return re.sub(r"(?<=[a-z0-9])([A-Z])", lambda m: "_" + m.group(1).lower(), w).lower()


def declared():
    """The names that specs/ and proofs/ declare at their top, apart from the proofs of functions, and those of functions' proofs."""
    own, walks = set(), set()
    for p in texts(".antt"):
        to = walks if os.path.basename(p) == "Proof.antt" else own
        for line in read(p).split("\n"):
            if line.startswith(("use ", "--", " ", "mod ", "pub mod ", "unfolding ")):
                m = FIELD.match(line)
                if m:
                    to.add(m.group(1))
                continue
            m = DECL.match(line)
            if m:
                to.add(m.group(1))
    return own, walks


def sources():
    """The functions of src/."""
    names = set()
    for p in texts(".rt"):
        names |= set(re.findall(r"\bfn ([a-z_0-9]+)", read(p)))
    return names


def undashed(w, words, functions):
    if w.endswith("-spec"):
        return w[:-5].replace("-", "_") + "_spec"
    parts = [snake(x) for x in w.split("-")]
    # a run of parts that is one of the repository's names is one name
    chunks, i = [], 0
    while i < len(parts):
        for j in range(len(parts), i, -1):
            c = "_".join(parts[i:j])
            if c in words or j == i + 1:
                chunks.append(c)
                i = j
                break
    to = chunks[0]
    for a, b in zip(chunks, chunks[1:]):
        to += ("-" if a in words and b in words else "_") + b
    return to


def renames():
    own, walks = declared()
    functions = sources()
    lower = {d for d in own if re.match(r"[a-z]", d)}
    words = {snake(d) for d in lower if "-" not in d} | STD
    to = {}
    for d in sorted(lower | {w for w in walks if re.match(r"[a-z]", w)}):
        if "-" not in d:
            n = snake(d)
        elif d in own or d.endswith("-spec"):
            n = undashed(d, words, functions)
        else:
            continue
        if n != d:
            to[d] = n
    # names that would fall together stay as they are: a lemma's before a definition's
    taken = collections.defaultdict(set)
    for d in lower | walks:
        taken[to.get(d, d)].add(d)
    stay = {}
    for n, ds in taken.items():
        moved = [d for d in ds if d in to]
        if len(ds) > 1 and moved:
            for d in moved:
                if "-" in d:
                    stay[d] = to.pop(d)
    left = collections.defaultdict(set)
    for d in lower:
        left[to.get(d, d)].add(d)
    clash = {n: ds for n, ds in left.items() if len(ds) > 1}
    return to, stay, clash, functions


# Lemmas that the kit's script had brought to the snake case that a definition takes here: they get their dash back.
DASHED = {"crates/planning/": {"one_more": "one-more"}, "crates/resizing/": {"one_more": "one-more"}, "crates/holding/": {"held_back": "held-back"}, "crates/event_cores/": {"ended_by": "ended-by"}}


def redash():
    for p in texts((".antt", ".edit")):
        for folder, names in DASHED.items():
            if p.startswith(folder):
                old = read(p)
                new = TOKEN.sub(lambda m: names.get(m.group(0), m.group(0)), old)
                if new != old:
                    with open(p, "w", encoding="utf-8") as f:
                        f.write(new)


def turn(text, to):
    def one(m):
        w = m.group(0)
        if w in to:
            return to[w]
        if "-" in w:
            return "-".join(snake(x) for x in w.split("-"))
        return snake(w)

    return TOKEN.sub(one, text)


def turn_source(text, to):
    """As turn, but leaves what stands in a string."""
    parts = re.split(r'("(?:[^"\\\n]|\\.)*")', text)
    return "".join(p if i % 2 else turn(p, to) for i, p in enumerate(parts))


def main():
    if "--list" not in sys.argv:
        redash()
    to, stay, clash, functions = renames()
    if "--list" in sys.argv:
        for d in sorted(to):
            print(d, to[d], "(a function's name too)" if to[d] in functions else "")
        for d in sorted(stay):
            print("stays:", d, "since", stay[d], "is taken")
        for n in sorted(clash):
            print("clash:", n, clash[n])
        return
    if clash:
        raise SystemExit("respell: names fall together: " + ", ".join(sorted(clash)))
    for p in texts((".antt", ".rt", ".edit")):
        old = read(p)
        camel = {d: n for d, n in to.items() if "-" not in d}
        new = turn(old, to) if p.endswith(".antt") else turn_source(old, camel if p.endswith(".rt") else to)
        if new != old:
            with open(p, "w", encoding="utf-8") as f:
                f.write(new)


main()
