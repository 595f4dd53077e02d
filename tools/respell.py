#!/usr/bin/env python3
"""Brings this repository's own definitions and lemmas to one spelling: types in upper camel case, all else in snake case.

    python3 tools/respell.py [--list]

Run once at the top, after the toolchain's own upgrade script. It renames what specs/ and proofs/ declare under a name
with a dash, wherever it is cited: in specs/, proofs/ and the ghost parts of src/. Names that the prover makes (goals,
steps, loops) and names of the library stay as they are. --list prints the renamings and what falls together, and changes nothing."""
import collections
import glob
import re
import sys

SPLIT = re.compile(r"([\s(){}\[\];,.«»]+)")
SIGNATURE = re.compile(r"^\s*(?:(?:pub|abbrev|unfoldable|record|data|module)\s+)*([^\s(){}\[\];,.«»]+)\s*(?=[:({])")
LET = re.compile(r"\blet ([^\s(){}\[\];,.«»]+) (?=[:=])")
BINDERS = re.compile(r"[({]((?:[^\s(){}\[\];,.«»:]+ )+): ")
LAMBDA = re.compile(r"λ ((?:[^\s(){}\[\];,.«»:]+ ?)+)\.")
IMPORT = re.compile(r"use ([A-Za-z_.·\d+-]+)\.\{([^}]*)\}")

antt = sorted(f for d in ("specs", "proofs") for f in glob.glob(f"crates/*/{d}/**/*.antt", recursive=True))
rust = sorted(glob.glob("crates/*/src/**/*.rt", recursive=True))


def text(f):
    return open(f, encoding="utf-8").read()


declared = collections.defaultdict(set)
for f in antt:
    for line in text(f).split("\n"):
        code = line.split("-- ")[0] if line.lstrip().startswith("--") else line
        if re.search(r":\s*goal\.", code):
            continue
        m = SIGNATURE.match(code)
        if m and "-" in m[1]:
            declared[m[1]].add(f)
        for m in LET.finditer(code):
            if "-" in m[1]:
                declared[m[1]].add(f)
        for pattern in (BINDERS, LAMBDA):
            for m in pattern.finditer(code):
                for word in m[1].split():
                    if "-" in word:
                        declared[word].add(f)

library = collections.defaultdict(set)
own = {c.split("/")[1] for c in glob.glob("crates/*/")} | {c.split("/")[1] for c in glob.glob("crates/*/src")}
for f in antt + rust:
    for m in IMPORT.finditer(text(f)):
        parts = m[1].split(".")
        if parts[0] == "Rattle" and len(parts) > 1 and parts[1] in own:
            continue
        for word in m[2].split(","):
            if "-" in word.strip():
                library[word.strip()].add(f)

made = set()
for f in antt:
    for m in re.finditer(r"\b(?:goal|c|l|w)\.([^\s(){}\[\];,«»]+)", text(f)):
        for part in m[1].split("."):
            if "-" in part:
                made.add(part)

clash = sorted(set(declared) & set(library))
names = {n for n in declared if n not in library and re.match(r"[A-Za-z]", n)}


def respelled(name):
    if name[0].isupper():
        return "".join(p[:1].upper() + p[1:] for p in name.split("-"))
    return name.replace("-", "_")


turned = {n: respelled(n) for n in names}
if "--list" in sys.argv:
    for n in sorted(turned):
        print(n, turned[n], "MADE" if n in made else "")
    print("library and own:", clash)
    every = collections.Counter()
    for f in antt + rust:
        for word in SPLIT.split(text(f)):
            every[word] += 1
    print("fall together:", [(n, t, every[t]) for n, t in sorted(turned.items()) if every[t]])
    sys.exit()

changed = 0
for f in antt + rust:
    t = text(f)
    lines = []
    for line in t.split("\n"):
        ghost = f.endswith(".antt") or re.match(r"\s*(ghost|requires|ensures)\b", line)
        if ghost:
            line = "".join(turned.get(w, w) for w in SPLIT.split(line))
        lines.append(line)
    new = "\n".join(lines)
    if new != t:
        open(f, "w", encoding="utf-8").write(new)
        changed += 1
print(len(turned), "names,", changed, "files")
