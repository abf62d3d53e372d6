#!/usr/bin/env python3
"""In answers and invariants, spells names that come from the source as the source does: `sift-up-requires` becomes `sift_up-requires`.

usage: python3 tools/keep_source_names.py FOLDER..     each FOLDER a crate

The names are the identifiers with an underscore in the crates' src/. A longer one goes first.
"""

import os
import re
import sys

WORD = re.compile(r"[A-Za-z_+][\w'₀-₉+]*(?:-[\w'₀-₉+]+)+")


# words of Rattle's own in such names
MADE = "from_residual overflow_add overflow_sub overflow_mul overflow_shl overflow_shr overflow_cast overflow_step nonzero_div nonzero_rem slice_bounds offset_bounds invariant_of in_ok in_err in_default".split()


def files(root, ends):
    for folder, dirs, names in os.walk(root):
        dirs[:] = [d for d in dirs if d != "out"]
        yield from (os.path.join(folder, f) for f in names if f.endswith(ends))


def main(folders):
    names = set()
    for crate in folders:
        for other in os.listdir(os.path.join(crate, "..")):
            for p in files(os.path.join(crate, "..", other, "src"), ".rt"):
                text = open(p, encoding="utf-8").read()
                names |= {w for w in re.findall(r"[A-Za-z][A-Za-z0-9]*(?:_[A-Za-z0-9]+)+", re.sub(r"//.*", "", text))}
    names |= set(MADE)
    pairs = sorted(((n.replace("_", "-"), n) for n in names), key=lambda p: -len(p[0]))
    by = [(re.compile(r"(?<![^-+])" + re.escape(old) + r"(?![^-+])"), new) for old, new in pairs]
    seen = {}

    def turn(m):
        w = m.group(0)
        if w not in seen:
            t = w
            for pattern, new in by:
                t = pattern.sub(new, t)
            seen[w] = t
        return seen[w]

    for crate in folders:
        for p in files(os.path.join(crate, "proofs"), ("Answers.antt", "Invariants.antt", "Proof.antt")):
            text = open(p, encoding="utf-8").read()
            new = WORD.sub(turn, text)
            if new != text:
                open(p, "w", encoding="utf-8").write(new)
    for w, t in sorted(seen.items()):
        if w != t:
            print(w, t)


if __name__ == "__main__":
    main(sys.argv[1:])
