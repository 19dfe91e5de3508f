#!/usr/bin/env python3
"""Compares the laws of two checkouts: each `pub NAME : TYPE` of the shared files of proofs/, and of a proof's own folder, types laid out alike.

usage: tools/port/laws.py OLD NEW      two folders; OLD as port.py and spell.py left it
"""
import os
import re
import sys

GOAL = re.compile(r"^(tie\.|goal\.|statement\b|\{M : Type)")


def laws(root):
    out = {}
    for folder, dirs, names in os.walk(os.path.join(root, "crates")):
        dirs[:] = sorted(d for d in dirs if d != "out")
        if "/proofs" not in folder:
            continue
        for n in sorted(names):
            if not n.endswith(".antt") or n in ("Proof.antt", "Answers.antt", "Invariants.antt"):
                continue
            p = os.path.join(folder, n)
            lines = open(p).read().split("\n")
            module = ""
            i = 0
            while i < len(lines):
                m = re.match(r"^(\s*)(?:(?:pub|abbrev|unfoldable) )+([^\s:(){}]+) : (.*)$", lines[i]) or re.match(r"^(\s*)((?:pub )?module) (.*)$", lines[i])
                if m:
                    text, j = m.group(3), i + 1
                    deep = len(m.group(1))
                    while j < len(lines) and lines[j].strip() and len(lines[j]) - len(lines[j].lstrip()) > deep and not lines[j].lstrip().startswith("--"):
                        if m.group(2).endswith("module") and text.rstrip().endswith("where"):
                            break
                        text += " " + lines[j].strip()
                        j += 1
                    key = (os.path.relpath(p, root), m.group(2))
                    out.setdefault(key, []).append(re.sub(r"\s+", " ", text))
                i += 1
    return out


old, new = laws(sys.argv[1]), laws(sys.argv[2])
gone = [k for k in old if k not in new]
changed = [k for k in old if k in new and old[k] != new[k]]
print(f"laws {len(old)} -> {len(new)}: the same {len(old) - len(gone) - len(changed)}, changed {len(changed)}, gone {len(gone)}, new {len([k for k in new if k not in old])}")
for k in gone:
    print("gone:", *k)
for k in changed:
    print("changed:", *k)
    for a, b in zip(old[k], new[k]):
        if a != b:
            print("  -", a)
            print("  +", b)
