#!/usr/bin/env python3
"""Names that the check makes keep the source's spelling: in proofs of functions, `c.enter-key` becomes `c.enter_key` where src/ has enter_key.

Usage, at the top: python3 tools/generated_names.py [CRATE ..]. A name that the file imports from the kit's library stays.
"""
import os
import re
import sys

WORD = re.compile(r"[A-Za-z_◌][A-Za-z0-9_'\-◌]*")
MADE = "offset_bounds slice_bounds invariant_of overflow_add overflow_sub overflow_mul overflow_cast overflow_shl overflow_shr overflow_step nonzero_div nonzero_rem in_ok in_err in_default well_formed type_inv range_from".split()


def read(p):
    with open(p, encoding="utf-8") as f:
        return f.read()


def turned(word, dashed):
    for d, name in dashed:
        word = re.sub(r"(?<![A-Za-z0-9_'])" + re.escape(d) + r"(?![A-Za-z0-9_'])", name, word)
    return word


def crate(name):
    src = set(MADE)
    for f in sorted(os.listdir(f"crates/{name}/src")):
        src.update(re.findall(r"\b[a-z]\w*_\w+\b", read(f"crates/{name}/src/{f}")))
    dashed = sorted(((n.strip("_").replace("_", "-"), n) for n in src), key=lambda p: -len(p[0]))
    changed = 0
    for folder, _, names in os.walk(f"crates/{name}/proofs"):
        for f in sorted(names):
            if f not in ("Answers.antt", "Invariants.antt", "Proof.antt"):
                continue
            p = os.path.join(folder, f)
            old = read(p)
            imported = set()
            for line in re.findall(r"^use Rattle\.(?:\w+)\.(?:proofs|specs)\.[^{\n]*\{([^}]*)\}", old, re.M):
                imported.update(x.strip() for x in line.split(","))
            new = "\n".join(l if re.match(r"use (?!.*\.Goals)", l) else WORD.sub(lambda m: m[0] if m[0] in imported or "-" not in m[0] else turned(m[0], dashed), l) for l in old.split("\n"))
            if new != old:
                changed += 1
                with open(p, "w", encoding="utf-8") as out:
                    out.write(new)
    return changed


if __name__ == "__main__":
    for c in sys.argv[1:] or sorted(os.listdir("crates")):
        if os.path.isdir(f"crates/{c}/proofs"):
            print(c, crate(c))
