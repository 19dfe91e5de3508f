#!/usr/bin/env python3
"""Brings this repository's own definitions and lemmas to the spelling of today's Rattle: words in snake case.

usage: tools/port/spell.py [--dry]      at the top, once, on what port.py left

What a file of specs/ or proofs/ declares is renamed (emptySlot to empty_slot, walking-none to walking_none), wherever it is cited: in specs/,
proofs/, src/, must-fail/ and the pages. Types, facts and constructors, which begin with a capital, keep their names, and so does what Rattle
generates (the names of goals and steps) and what a file imports from a library. It stops where two names would fall together.
"""
import collections
import os
import re
import sys

# where the plain rule would meet another name, a tactic or a word of std
SPECIAL = {"onLine": "is_on_line", "firstOf": "first_number", "first_of": "first_number", "K-wide": "K_wide"}
# fields of records: the plain rule, though a definition that no file sees beside them has the word
FIELDS = {"page-in": "page_in", "places-fit": "places_fit", "parent-space": "parent_space", "parent-page": "parent_page"}
# lemmas that port.py had respelled already, and whose word is now the definition's that they speak of: the file, and the lemma's new name
LEMMAS = {
    "crates/listing_laws/proofs/OneListing.antt": {"by_number": "by_number_law"},
    "crates/lend_code/proofs/Fits.antt": {"lent_fits": "lent_fits_law", "link_fits": "link_fits_law"},
    "crates/lend_code/proofs/SoundCode.antt": {"link_fits": "link_fits_law", "place_ok": "place_ok_law"},
    "crates/lend_code/proofs/Summary.antt": {"one_more": "one_more_counted"},
}
WORD = re.compile(r"(?<![\w'₀-₉-])([A-Za-z_][\w'₀-₉]*(?:-[\w'₀-₉]+)*)")
DECLARED = re.compile(r"^(\s*)(?:(?:pub|abbrev|unfoldable|private) )*([A-Za-z_][^\s:(){}.,;]*)\s+:\s+(.*)$")
OWN_GOAL = re.compile(r"^(tie\.|goal\.|statement\b|own\.\S+\.(Tie|Goals)|\{M : Type)")


def snake(name):
    if name in SPECIAL:
        return SPECIAL[name]
    if not name[0].islower() and name[0] != "_":
        return name
    t = re.sub(r"(?<=[a-z0-9'])([A-Z])", lambda m: "_" + m.group(1).lower(), name)
    return t.replace("-", "_")


def files(*ends):
    for folder, dirs, names in os.walk("crates"):
        dirs[:] = sorted(d for d in dirs if d != "out")
        for n in sorted(names):
            if n.endswith(ends):
                yield os.path.join(folder, n)


def imported(text):
    """What the file brings in from the libraries."""
    out = set()
    for m in re.finditer(r"(?m)^\s*(?:ghost )?use (?:Rattle\.std\b|borrow\b|lib\b|mathlib\b|native\b|Prim\b|denote\b|sep\b)[^{;\n]*\{([^}]*)\}", text):
        for item in m.group(1).split(","):
            out.add(item.split(" as ")[0].strip())
            if " as " in item:
                out.add(item.split(" as ")[1].strip())
    return out


def main():
    top, fields, goals = collections.defaultdict(set), collections.defaultdict(set), collections.defaultdict(set)
    tokens = collections.Counter()
    texts = {p: open(p, encoding="utf-8").read() for p in files(".antt", ".rt", ".edit")}
    for p, t in texts.items():
        for m in WORD.finditer(t):
            tokens[m.group(1)] += 1
        if not p.endswith(".antt"):
            continue
        for line in t.splitlines():
            if line.lstrip().startswith("--"):
                continue
            m = DECLARED.match(line)
            if not m:
                continue
            indent, name, kind = m.groups()
            if OWN_GOAL.match(kind) and re.search(r"/proofs/.+/", p):
                goals[p].add(name)
            elif indent:
                fields[name].add(p)
            else:
                top[name].add(p)
    # aliases of ghost use lines in src
    for p, t in texts.items():
        for m in re.finditer(r"\bas ([a-z]\w*[A-Z]\w*|[a-z]\w*-[\w-]+)", t):
            top[m.group(1)].add(p)
    move = {n: snake(n) for n in list(top) + list(fields) if snake(n) != n}
    clash = collections.defaultdict(list)
    for n, to in move.items():
        clash[to].append(n)
    bad = []
    for to, ns in sorted(clash.items()):
        # a definition and the lemma about it: the lemma says so
        if len(ns) == 2 and sorted("-" in n for n in ns) == [False, True]:
            lemma = next(n for n in ns if "-" in n)
            move[lemma] = FIELDS.get(lemma, to + "_law")
            ns = [n for n in ns if n != lemma]
            if tokens[to + "_law"]:
                bad.append((to + "_law", [lemma], tokens[to + "_law"]))
        if len(ns) > 1 or (to != "not_live" and tokens[to] and (to in top or to in fields) and not any(to in of for of in LEMMAS.values())):
            bad.append((to, ns, tokens[to]))
    if "--dry" in sys.argv:
        for to, ns, k in bad:
            print(to, ns, k, sorted(top.get(to, []))[:2], [sorted(top.get(n, fields.get(n)))[:2] for n in ns])
        print(len(move), "names move,", len(bad), "fall together with something")
        return
    if bad:
        sys.exit(f"these fall together: {bad}")
    changed = 0
    new_names = set(move.values()) | set(top) | set(fields)
    for p in [q for q in ["README.md"] + ["docs/" + n for n in sorted(os.listdir("docs"))] if q.endswith(".md")]:
        t = open(p, encoding="utf-8").read()
        new = re.sub(r"`[^`\n]+`", lambda m: WORD.sub(lambda w: snake(w.group(1)) if snake(w.group(1)) in new_names else w.group(1), m.group(0)), t)
        if new != t:
            with open(p, "w", encoding="utf-8") as f:
                f.write(new)
    for p, t in texts.items():
        kept = imported(t) | goals[p]
        laws = LEMMAS.get(p, {})
        # modules that the file has under a short name
        aliases = [a for a in re.findall(r"(?m)^use \S+ as ([\w-]+)$", t) if a != "tie"]

        def turn(m):
            name = m.group(1)
            if name in laws:
                return laws[name]
            if p.endswith(".edit") and snake(name) in new_names:
                return snake(name)
            if name not in move or name in kept:
                return name
            before = t[m.start() - 1] if m.start() else " "
            if before == "." and name not in fields and not re.search(r"(?<![\w.])(" + "|".join(["Rattle"] + aliases) + r")[\w.-]*$", t[max(0, m.start() - 80):m.start() - 1]):
                return name
            return move[name]

        new = WORD.sub(turn, t)
        if new != t:
            with open(p, "w", encoding="utf-8") as f:
                f.write(new)
            changed += 1
    print(f"{len(move)} names, {changed} files")


main()
