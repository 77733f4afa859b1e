#!/usr/bin/env python3
"""Brings the repository's own definitions and lemmas to snake case, and its types to camel case.

usage: python3 tools/respell.py [--check]      at the top of a tree that port.py has turned

A name with a dash that a file of specs/ or proofs/ declares (a definition, a lemma, a field, a constructor) is
written with `_` in place of the dash, or, where it begins with a capital, in camel case: `find-run` is `find_run`,
`Run-of` is `RunOf` (and so is a `Run_of` that port.py left). Names that Rattle makes (goals, invariants, measures, steps) and names of the library stay.
With --check nothing is written: the names that would fall together are printed.
"""
import glob
import re
import sys

WORD = r"[^\s(){}\[\];.,@`\"«»]+"
DECLARED = re.compile(r"^\s*(?:(?:abbrev|unfoldable)\s+)?(?:pub\s+)?(?:(?:data|record)\s+)?(" + WORD + r")\s+(?:\([^:]*:[^)]*\)\s*|\{[^:]*:[^}]*\}\s*)*:\s")
TYPE = re.compile(r"^\s*(?:pub\s+)?(?:data|record)\s+(" + WORD + r")\s")
LIBRARY = re.compile(r"use (?:Rattle\.std|borrow|denote|mathlib|lib|logic|Prim|native)\.[^{;]*\{([^}]*)\}")
# goals, invariants, measures and ghost choices are named by Rattle
MADE = re.compile(r"^(returns|loop|invariant|decreases|overflow|bounds|slice-bounds|offset-bounds|nonzero|ghost)-|-(requires|init|preserved|smaller)$|-requires-")


def files():
    found = glob.glob("crates/*/specs/**/*.antt", recursive=True) + glob.glob("crates/*/proofs/**/*.antt", recursive=True)
    return sorted(f for f in found if "/out/" not in f)


def declared(text):
    for line in text.split("\n"):
        m = DECLARED.match(line) or TYPE.match(line)
        if m and ("-" in m.group(1).strip("-") or re.match(r"[A-Z]\w*_", m.group(1))):
            rest = line[m.end():]
            if re.match(r"(goal|need|given)\.", rest.strip()):
                continue
            yield m.group(1)


def turned(name):
    if name[0].isupper():
        head, *rest = re.split("[-_]", name)
        return head + "".join(w[0].upper() + w[1:] for w in rest)
    return name.replace("-", "_")


def main():
    check = "--check" in sys.argv
    texts = {f: open(f, encoding="utf-8").read() for f in files()}
    library = set()
    for t in texts.values():
        for m in LIBRARY.finditer(t):
            for n in m.group(1).split(","):
                library.update(n.split())
    own = {n for t in texts.values() for n in declared(t)}
    own = {n for n in own if n not in library and not MADE.search(n) and all(c.isalnum() or c in "-_'" for c in n)}
    table = {n: turned(n) for n in own}
    if not table:
        print("0 names")
        return
    every = dict(texts)
    for f in sorted(glob.glob("crates/*/src/**/*.rt", recursive=True)):
        every[f] = open(f, encoding="utf-8").read()
    token = re.compile(r"(?<![\w\-'◌])(" + "|".join(sorted(map(re.escape, table), key=len, reverse=True)) + r")(?![\w\-'◌])")
    fallen = 0
    for f, t in every.items():
        words = set(re.findall(r"[\w\-']+", t))
        for n in sorted(set(token.findall(t))):
            if table[n] in words and (check or f.endswith(".antt")):
                print(f"{f}: {n} and {table[n]}")
                fallen += 1
        if check:
            for m in re.finditer(r"\bc(?:\.[\w\-']+)*\.([\w\-']+)", t):
                if m.group(1) in table and not m.group(0).endswith("ensures." + m.group(1)):
                    print(f"{f}: step {m.group(0)}")
        # in a source only clauses speak of these names, since a dash in code stands between spaces
        new = token.sub(lambda m: table[m.group(1)], t)
        if new != t and not check:
            open(f, "w", encoding="utf-8").write(new)
    print(f"{len(table)} names, {fallen} places to look at")


main()
