#!/usr/bin/env python3
"""Brings the names of the repository's own definitions, lemmas, fields and variables to snake case: `row-of` becomes `row_of`.

usage: python3 tools/snake_names.py [--check] [ROOT]

Run once, right after the kit's own script for older repositories. It reads the .antt and .rt files below ROOT/crates. A name turns where the
repository declares it: on the left of a `:` in specs/ or proofs/, as a field, a constructor or a variable. What Rattle names itself (goals, steps,
labels of a function's proof) is not declared here and stays, and so do names of the library, strings and comments. --check writes nothing.
Two names that would become one, and a name that would meet one of the library, are reported, and nothing is written.
"""

import os
import re
import sys

WORD = r"[A-Za-z_][\w'₀-₉]*(?:-[\w'₀-₉]+)+"
NAME = re.compile(r"(?<![\w'₀-₉◌-])(" + WORD + r")(?![\w'₀-₉-])")
ANY = re.compile(r"(?<![\w'₀-₉◌-])([A-Za-z_][\w'₀-₉]*)(?![\w'₀-₉-])")
# what is no code: strings, and comments of either language
QUIET = re.compile(r'"(?:\\.|[^"\\\n])*"|(?<![^\s(){}.;,])--[^\n]*|//[^\n]*')
# names on the left of a colon; a list of variables in brackets declares each
DECLARED = re.compile(r"(?m)^[ ]*(?:(?:pub|abbrev|unfoldable|data|record|mod) )*(" + WORD + r") :(?!:)(.*)$")
BRACKETED = re.compile(r"[({]((?:[\w'₀-₉-]+ )+): ")
BOUND = re.compile(r"λ ((?:[\w'₀-₉-]+ )*[\w'₀-₉-]+)\.")
LET = re.compile(r"\blet (" + WORD + r") (?::|=)")
FIELD = re.compile(r"[{;] *(" + WORD + r") = ")
RULES = re.compile(r"\b(?:record|data|ruleset) (" + WORD + r")\b")
IMPORTED = re.compile(r"\buse (Rattle\.std|Prim|mathlib)[\w.]*\.\{([^}]*)\}", re.S)


def texts(root):
    for folder, dirs, files in os.walk(os.path.join(root, "crates")):
        dirs[:] = sorted(d for d in dirs if d != "out")
        for f in sorted(files):
            if f.endswith((".antt", ".rt")):
                yield os.path.join(folder, f)


def code(text):
    return QUIET.sub(lambda m: " " * len(m.group(0)), text)


def declared(text):
    """The dashed names that one .antt file declares, but for answers to what Rattle asks."""
    found = set()
    for m in DECLARED.finditer(text):
        if not m.group(2).lstrip().startswith("goal."):
            found.add(m.group(1))
    for m in BRACKETED.finditer(text):
        found.update(m.group(1).split())
    for m in BOUND.finditer(text):
        found.update(m.group(1).split())
    for pattern in (LET, FIELD, RULES):
        found.update(m.group(1) for m in pattern.finditer(text))
    return {n for n in found if "-" in n and re.fullmatch(WORD, n)}


def turned(text, names):
    out, last = [], 0
    for m in QUIET.finditer(text):
        out.append(NAME.sub(lambda w: names.get(w.group(1), w.group(1)), text[last : m.start()]))
        out.append(m.group(0))
        last = m.end()
    out.append(NAME.sub(lambda w: names.get(w.group(1), w.group(1)), text[last:]))
    return "".join(out)


def main(argv):
    check = "--check" in argv
    rest = [a for a in argv if a != "--check"]
    root = rest[0] if rest else "."
    files = {p: open(p, encoding="utf-8").read() for p in texts(root)}
    own, library, plain, answered = set(), set(), {}, set()
    for p, text in files.items():
        bare = code(text)
        for m in IMPORTED.finditer(bare):
            library.update(m.group(2).replace("\n", " ").replace(",", " ").split())
        if p.endswith(".antt"):
            own |= declared(bare)
            answered.update(m.group(1) for m in DECLARED.finditer(bare) if m.group(2).lstrip().startswith("goal."))
        for m in ANY.finditer(bare):
            plain.setdefault(m.group(1), set()).add(os.path.relpath(p, root))
    own -= library
    bad = 0
    for n in sorted(own & answered):
        print(f"answer: {n} is declared, and names an answer too")
    names = {}
    for n in sorted(own):
        to = n.replace("-", "_")
        meets = [o for o in names if names[o] == to]
        if meets:
            print(f"meets: {n} and {meets[0]} would both be {to}")
            bad += 1
        elif to in library:
            print(f"library: {n} would be {to}, which is imported")
            bad += 1
        elif to in plain:
            print(f"look: {n} becomes {to}, which stands already in {sorted(plain[to])[:4]}")
        names[n] = to
    print(f"{len(names)} names")
    if bad:
        return 1
    for p, text in files.items():
        new = turned(text, names)
        if new != text and not check:
            with open(p, "w", encoding="utf-8") as f:
                f.write(new)
    return 0


if __name__ == "__main__":
    raise SystemExit(main(sys.argv[1:]))
