#!/usr/bin/env python3
"""Spells the steps and goals that answers cite as the source spells its names, once, after tools/respell.py.

usage: python3 tools/respell_steps.py          at the top of the repository

Rattle names a goal after the names of the source, which keep their spelling: what an older proof calls `returns-then-not-row-in-order`
is `returns-then-not-row_in_order`, after the function `row_in_order`. So are the words of Rattle's own that have two parts (MADE). It changes Answers.antt, Invariants.antt and Proof.antt alone.
"""
import os
import re

IDENTIFIER = re.compile(r"[A-Za-z0-9]*[a-z0-9]+(?:_[a-z0-9]+)+")
MADE = ("in_ok", "in_err", "from_residual", "into_iter", "in_default", "invariant_of", "type_inv", "overflow_add", "overflow_sub", "overflow_mul", "overflow_shl", "overflow_shr", "overflow_cast", "overflow_step", "slice_bounds", "nonzero_div", "nonzero_rem", "offset_bounds")
TOKEN = re.compile(r"[A-Za-z][A-Za-z0-9_']*(?:-[A-Za-z0-9_']+)+")


def source_names(crate):
    names = set()
    for folder, dirs, files in os.walk(os.path.join(crate, "src")):
        for name in files:
            with open(os.path.join(folder, name), encoding="utf-8") as f:
                names.update(IDENTIFIER.findall(f.read()))
    return sorted(names, key=lambda n: (-len(n), n))


def respelt(token, pairs):
    parts = "-" + token + "-"
    for dashed, name in pairs:
        parts = parts.replace("-" + dashed + "-", "-" + name + "-")
    return parts[1:-1]


def main():
    for crate in sorted(os.listdir("crates")):
        pairs = [(n.replace("_", "-"), n) for n in [*source_names(os.path.join("crates", crate)), *MADE]]
        for folder, dirs, files in os.walk(os.path.join("crates", crate, "proofs")):
            for name in files:
                if name not in ("Answers.antt", "Invariants.antt", "Proof.antt"):
                    continue
                path = os.path.join(folder, name)
                with open(path, encoding="utf-8") as f:
                    old = f.read()
                new = "\n".join(l if l.lstrip().startswith(("use ", "--")) and "Goals" not in l else TOKEN.sub(lambda m: respelt(m.group(0), pairs), l) for l in old.split("\n"))
                if new != old:
                    with open(path, "w", encoding="utf-8") as f:
                        f.write(new)


if __name__ == "__main__":
    main()
