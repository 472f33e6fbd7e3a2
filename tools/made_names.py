#!/usr/bin/env python3
"""Respells, in proof files, the names that the check makes from the code: parts that are names of the source keep their underscores.

usage: python3 tools/made_names.py [CRATE..]     at the top of the repository, after tools/respell.py
"""
import os
import re
import sys

FIXED = ["overflow_add", "overflow_sub", "overflow_mul", "overflow_step", "overflow_cast", "overflow_shl", "overflow_shr", "overflow_neg",
         "in_default", "in_ok", "in_err", "type_inv", "divide_nonzero", "index_in_bounds", "from_residual", "split_at_mut", "split_at"]


def source_names():
    names = set()
    for root, folders, files in os.walk("crates"):
        folders[:] = [d for d in folders if d != "out"]
        for f in files:
            if f.endswith(".rt"):
                text = open(os.path.join(root, f), encoding="utf-8").read()
                text = re.sub(r"//[^\n]*", "", text)
                names |= set(re.findall(r"\b[a-z][a-z0-9]*(?:_[a-z0-9]+)+\b", text))
    return names


def main():
    names = source_names() | set(FIXED)
    hyphened = sorted(((n.replace("_", "-"), n) for n in names), key=lambda p: -len(p[0]))
    table = dict(hyphened)
    pattern = re.compile(r"(?<![A-Za-z0-9_'])(" + "|".join(re.escape(h) for h, _ in hyphened) + r")(?![A-Za-z0-9_'])")
    made = re.compile(r"\b(?:[a-z][\w'-]*\.)+[A-Za-z][\w'-]*|\bgoal\.(?:After|In|At)-[\w'-]+")
    for root, folders, files in os.walk("crates"):
        folders[:] = [d for d in folders if d != "out"]
        if len(sys.argv) > 1 and not any(("/" + c + "/") in root + "/" for c in sys.argv[1:]):
            continue
        for f in files:
            if f not in ("Answers.antt", "Invariants.antt"):
                continue
            path = os.path.join(root, f)
            text = open(path, encoding="utf-8").read()
            own = set(re.findall(r"^pub ([\w'-]+) : goal\.", text, re.M)) | set(re.findall(r"^abbrev pub ([\w'-]+) : goal\.", text, re.M))
            new = made.sub(lambda m: pattern.sub(lambda k: table[k.group(1)], m.group(0)), text)
            for o in sorted(own, key=len, reverse=True):
                n = pattern.sub(lambda k: table[k.group(1)], o)
                if n != o:
                    new = re.sub(r"(?m)^(abbrev pub |pub |)" + re.escape(o) + r"(?=[ :])", lambda m: m.group(1) + n, new)
            if new != text:
                open(path, "w", encoding="utf-8").write(new)
                print(path)


main()
