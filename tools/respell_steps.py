#!/usr/bin/env python3
"""In answers and invariants: the names that Rattle makes of the code keep the spelling of the source (`is_over`, and not
`is-over`), and its own words have an underscore (`invariant_of-x`). Run at the top; it may be run again."""
import glob
import os
import re

WORDS = {
    "invariant-of": "invariant_of",
    "overflow-add": "overflow_add",
    "overflow-sub": "overflow_sub",
    "overflow-mul": "overflow_mul",
    "overflow-cast": "overflow_cast",
    "overflow-shl": "overflow_shl",
    "overflow-shr": "overflow_shr",
    "overflow-step": "overflow_step",
    "slice-bounds": "slice_bounds",
    "in-default": "in_default",
    "in-ok": "in_ok",
    "in-err": "in_err",
}


def source_names(crate):
    names = set()
    for path in glob.glob(f"crates/{crate}/src/*.rt"):
        text = re.sub(r"//.*", "", open(path).read())
        names.update(n for n in re.findall(r"\b[a-z]\w*_\w+\b", text))
    return names


def main():
    for crate in sorted(os.listdir("crates")):
        turn = {n.replace("_", "-"): n for n in source_names(crate)}
        turn.update(WORDS)
        if not turn:
            continue
        kebab = "|".join(map(re.escape, sorted(turn, key=len, reverse=True)))
        part = re.compile(rf"(?<![\w'])({kebab})(?![\w'])")
        for path in glob.glob(f"crates/{crate}/proofs/**/*.antt", recursive=True):
            if os.path.basename(path) not in ("Answers.antt", "Invariants.antt", "Proof.antt"):
                continue
            lines = open(path).read().split("\n")
            lines = [l if l.startswith("--") else part.sub(lambda m: turn[m.group()], l) for l in lines]
            open(path, "w").write("\n".join(lines))


if __name__ == "__main__":
    main()
