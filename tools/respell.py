#!/usr/bin/env python3
"""Brings the definitions and lemmas of this repository to one spelling: words in snake case, types in camel case.

usage: python3 tools/respell.py            at the top of the repository, once, after the kit's own script
       python3 tools/respell.py --list     only says what would be renamed, and what would fall together

Functions of src/, goals and steps that the prover names, and names of the library keep their spelling.
"""

import os
import re
import sys

IDENT = r"[A-Za-zΑ-Ωα-ω_][A-Za-z0-9_'₀-₉α-ωΑ-Ω]*(?:-[A-Za-z0-9_'₀-₉α-ωΑ-Ω]+)*"
TOKEN = re.compile(r"(?<![A-Za-z0-9_'₀-₉\-])" + IDENT + r"(?![A-Za-z0-9_'₀-₉\-])")
MARKS = r"(?:(?:pub|abbrev|unfoldable|opaque)\s+)*"
SIGNATURE = re.compile(r"\s*(?:let\s+)?" + MARKS + r"((?:" + IDENT + r"\s+)*" + IDENT + r")\s*:(?:\s|$)")
NOMINAL = re.compile(r"\s*" + MARKS + r"(?:record|data|module)\s+(" + IDENT + r")")
LIBRARY = re.compile(r"use (?:Rattle\.std|mathlib|Prim|native|borrow|lib|mir)\b[\w.+\-]*\.\{([^}]*)\}")

# A fact with a name in small letters, a constant whose name is one capital letter, names that would fall together with a function
# of src/ or of the library, and names that only a binder has.
ODD = {
    "first-fit": "first_fit_of",
    "bit-or": "bit_of_or",
    "bit-xor": "bit_of_xor",
    "first-lt": "FirstLt",
    "N-hits": "N_hits",
    "T-is": "T_is",
    "free-A": "free_A",
    "move-one": "move_one",
    "no-arr": "no_arr",
    "yes-arr": "yes_arr",
    "no-fit": "no_fit",
    "some-levels": "some_levels",
}

# The same, in one file alone.
THERE = {"crates/layout/proofs/Unique.antt": {"both": "Both"}}


def spelled(name):
    if name in ODD:
        return ODD[name]
    if name[0].isupper():
        return "".join(p[0].upper() + p[1:] for p in name.split("-"))
    return name.replace("-", "_")


def files(*endings):
    for folder, dirs, names in os.walk("crates"):
        dirs[:] = sorted(d for d in dirs if d != "out")
        for f in sorted(names):
            if f.endswith(endings):
                yield os.path.join(folder, f)


def read(path):
    with open(path, encoding="utf-8") as f:
        return f.read()


def bare(text):
    return re.sub(r"--.*", "", text)


def own():
    """The names with a dash that this repository defines."""
    found = set(ODD)
    for p in files(".antt"):
        for line in bare(read(p)).split("\n"):
            m = NOMINAL.match(line) or SIGNATURE.match(line)
            if m and not re.search(r":\s*goal\.", line):
                found |= {n for n in m.group(1).split() if "-" in n}
    return found


def imported(text):
    """What a file takes from the library."""
    names = set()
    for m in LIBRARY.finditer(text):
        names |= {n.strip() for n in m.group(1).split(",")}
    return names


def calls():
    """The functions of src/, as older steps of a proof were named after their calls."""
    return {n.replace("_", "-") for p in files(".rt") for n in re.findall(r"\bfn (\w+)", read(p)) if "_" in n}


def turned(text, names, kept, steps):
    def turn(m):
        if m[0] not in names or m[0] in kept:
            return m[0]
        if m[0] in steps and text[: m.start()].endswith("."):
            return m[0].replace("-", "_")
        return spelled(m[0])

    return TOKEN.sub(turn, text)


def clashes(names):
    """Where a new spelling is a name that the file already has."""
    for p in files(".antt", ".rt"):
        text = bare(read(p)) if p.endswith(".antt") else read(p)
        have = set(TOKEN.findall(text))
        for n in sorted(names & have - imported(text)):
            if spelled(n) in have:
                yield f"{p}: {n} would be {spelled(n)}, which stands there"


def main(argv):
    names = own()
    if "--list" in argv:
        print("\n".join(f"{n} {spelled(n)}" for n in sorted(names)))
        print("\n".join(clashes(names)))
        return 0
    changed, steps = 0, calls()
    for p in files(".antt", ".rt", ".edit"):
        text = read(p)
        new = turned(text, names, imported(text), steps)
        for name, there in THERE.get(p, {}).items():
            new = TOKEN.sub(lambda m: there if m[0] == name else m[0], new)
        if new != text:
            changed += 1
            with open(p, "w", encoding="utf-8") as f:
                f.write(new)
    pages = ["README.md"] + sorted(os.path.join("docs", f) for f in os.listdir("docs") if f.endswith(".md"))
    for p in pages:
        text = read(p)
        new = re.sub(r"`[^`\n]*`", lambda m: turned(m[0], names, set(), set()), text)
        if new != text:
            changed += 1
            with open(p, "w", encoding="utf-8") as f:
                f.write(new)
    print(f"respell: {len(names)} names, {changed} files")
    return 0


if __name__ == "__main__":
    sys.exit(main(sys.argv[1:]))
