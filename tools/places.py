#!/usr/bin/env python3
"""Counts the places of docs/DESIGN-PASS.md in crates/*/src, by what stands in the text: tools/places.py [FOLDER] [--show]."""
import collections
import glob
import re
import sys

FOLDER = next((a for a in sys.argv[1:] if not a.startswith("--")), ".")
SHOW = "--show" in sys.argv

CODE = {}
for path in sorted(glob.glob(f"{FOLDER}/crates/*/src/**/*.rt", recursive=True)):
    CODE[path[len(FOLDER) + 1:]] = open(path, encoding="utf-8").read()


def found(pattern, flags=re.M, less=None):
    places = []
    for path, text in CODE.items():
        for hit in re.finditer(pattern, text, flags):
            line = text.count("\n", 0, hit.start()) + 1
            shown = text.splitlines()[line - 1].strip()
            if shown.startswith("//") or (less and re.search(less, shown)):
                continue
            places.append(f"{path}:{line}: {shown}")
    return places


def clauses(kind):
    """Clauses of one text that stand on three functions or more, one place for each such text."""
    many = collections.Counter()
    for text in CODE.values():
        for hit in re.finditer(rf"^\s*{kind}(?: \w+)? (\{{.*\}})\s*$", text, re.M):
            many[hit.group(1)] += 1
    return [f"{n} times: {text}" for text, n in many.most_common() if n >= 3]


def together():
    """Two parameters, by name and type, that stand side by side on three functions or more."""
    many = collections.Counter()
    for text in CODE.values():
        for hit in re.finditer(r"\bfn \w+(?:<[^>]*>)?\(([^)]*)\)", text, re.S):
            parts = [re.sub(r"\s+", " ", p).strip() for p in hit.group(1).split(",")]
            parts = [p for p in parts if ":" in p and "self" not in p and not p.startswith(("rt:", "heap:"))]
            for pair in zip(parts, parts[1:]):
                many[", ".join(pair)] += 1
    return [f"{n} times: {pair}" for pair, n in many.most_common() if n >= 3]


POINTS = {
    "1 enums": found(r"^\s*(?:pub(?:\(crate\))? )?enum \w+"),
    "1 numbers that stand for none": found(r"(?:==|!=) 0\b", less=r"\bensures\b|\brequires\b|ghost"),
    "1 Ok and Err matched to Ok and Err": found(r"Ok\(\w*(?:\(\))?\) => Ok\(|Err\(\w+\) => (?:return )?Err\(|Some\(\w+\) => Some\(|None => (?:return )?None\b"),
    "3 while": found(r"^\s*while "),
    "3 for over numbers": found(r"^\s*for \w+ in [^{]*\.\."),
    "3 counters": found(r"^\s*\w+ \+= 1;|^\s*\w+ = \w+ \+ 1;|^\s*\w+ -= 1;"),
    "4 impls of conversion, equality, order, copying, printing": found(r"^impl.*\b(?:From|TryFrom|Display|Debug|PartialEq|Eq|PartialOrd|Ord|Clone|Copy|Default|Hash)\b(?:<[^{]*>)? for "),
    "4 numbers and letters of faults": found(r"^\s*pub fn (?:number|letter|place)\(self\)"),
    "5 requires on three functions or more": clauses("requires"),
    "5 ensures on three functions or more": clauses("ensures"),
    "5 parameters side by side on three functions or more": together(),
    "6 arrays in structs": found(r"^\s*(?:pub(?:\(crate\))? )?\w+: \[[^;\]]+; \w+\],"),
    "6 lengths told of a lent buffer": found(r"buffer: &mut \[u8\][^{]*?-> (?:Result<)?usize", re.M | re.S),
    "6 vectors side by side": found(r"^\s*(?:pub )?\w+: Vec<[^\n]*>,\n\s*(?:pub )?\w+: Vec<"),
    "7 dyn, function pointers": found(r"\bdyn \w|: fn\("),
}

for name, places in POINTS.items():
    print(f"{len(places):4} {name}")
    if SHOW:
        for place in places:
            print(f"       {place}")
