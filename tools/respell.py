#!/usr/bin/env python3
"""Brings the repository's own definitions to today's spelling: words in snake case, types in camel case.

usage: python3 tools/respell.py [--dry]      at the top of the repository, once, right after the kit's port.py

The names are those that specs/ and proofs/ declare. Comments, strings, inputs, outputs and names of functions stay.
It prints each renaming, and the names that fall together with one that a file already has.
"""
import collections
import os
import re
import sys

DRY = "--dry" in sys.argv
# Names that would fall together with a word of the same module get another one.
CHOSEN = {
    # fields of a record beside the words inLabels, inHolders, outLabels, outHolders
    ("crates/theory/specs/Changes.antt", "in-labels"): "in_labels_same",
    ("crates/theory/specs/Changes.antt", "out-labels"): "out_labels_same",
    ("crates/theory/specs/Changes.antt", "in-holders"): "in_holders_same",
    ("crates/theory/specs/Changes.antt", "out-holders"): "out_holders_same",
    # words beside functions of the same name
    ("crates/plain/specs/Pages.antt", "unit-of"): "unit_in",
    ("crates/plain/specs/Pages.antt", "listener-of"): "listener_in",
}
NAME = r"[^\s(){}\[\].,;:∷⌜⌝]+"
DECLARED = re.compile(r"\s*(?P<how>(?:abbrev |unfoldable )?(?:pub )?(?:data |record )?)(?P<name>" + NAME + r")\s*(?P<next>[:({]) ?(?P<rest>.*)")


def files():
    for root, folders, names in os.walk("crates"):
        folders[:] = sorted(d for d in folders if d != "out")
        for name in sorted(names):
            if name.endswith((".antt", ".rt")):
                yield os.path.join(root, name)


def snake(name):
    name = re.sub(r"(?<=[a-z0-9])([A-Z])", lambda m: "_" + m.group(1).lower(), name)
    return name.replace("-", "_")


def camel(name):
    parts = re.split(r"[-_]", name)
    return "".join(p[:1].upper() + p[1:] for p in parts)


def declared():
    """name -> list of (file, new name) for the words and types that specs/ and proofs/ declare."""
    found = collections.defaultdict(set)
    for path in files():
        in_specs = "/specs/" in path
        if not path.endswith(".antt") or (not in_specs and os.path.basename(path) in ("Answers.antt", "Invariants.antt")):
            continue
        inside = None
        for line in open(path, encoding="utf-8"):
            text = line.split("--")[0] if line.lstrip().startswith("--") else line
            depth = len(text) - len(text.lstrip())
            if re.match(r"\s*(pub )?record ", text):
                inside = depth
            elif text.strip() and inside is not None and depth <= inside:
                inside = None
            m = DECLARED.match(text)
            if not m:
                continue
            how, name = m.group("how"), m.group("name")
            word = how.startswith(("abbrev", "unfoldable")) or "record" in how or "data" in how
            field = in_specs and inside is not None and how.startswith("pub") and depth > inside
            if not (word or field):
                continue
            if name[:1].isupper():
                new = camel(name) if re.search(r"[-_]", name) else name
            else:
                new = snake(name)
            new = CHOSEN.get((path, name), new)
            if new != name:
                found[name].add((path, new))
    return found


def split_code(path, text):
    """The text as pieces (is code, piece); comments and strings are no code."""
    if path.endswith(".antt"):
        pattern = re.compile(r'(?m)^\s*--.*$|\s--\s.*$')
    else:
        pattern = re.compile(r'//[^\n]*|b?"(?:[^"\\]|\\.)*"')
    at = 0
    for m in pattern.finditer(text):
        yield True, text[at:m.start()]
        yield False, m.group(0)
        at = m.end()
    yield True, text[at:]


# A name after `c.`, `l.`, `g.` or `goal.` is one that the check makes from the code.
TOKEN = re.compile(r"(?<![\w'◌-])(?<!\bc\.)(?<!\bl\.)(?<!\bg\.)(?<!\bgoal\.)[A-Za-z_][\w']*(?:-[\w']+)*(?![\w'◌])")


def main():
    found = declared()
    texts = {p: open(p, encoding="utf-8").read() for p in files()}
    names = {}
    for name, places in sorted(found.items()):
        news = {new for _, new in places}
        names[name] = news
        print(f"{name} -> {' '.join(sorted(news))}    ({', '.join(sorted(p for p, _ in places))})")
    tokens = {p: set(t for code, piece in split_code(p, s) if code for t in TOKEN.findall(piece)) for p, s in texts.items()}
    for p, own in tokens.items():
        made = collections.Counter()
        for t in own:
            for new in names.get(t, ()):
                if new in own:
                    print(f"together: {p}: {t} -> {new}, which stands there")
    if DRY:
        return
    for p, s in texts.items():
        out = []
        for code, piece in split_code(p, s):
            if code:
                piece = TOKEN.sub(lambda m: pick(p, m.group(0), found), piece)
            out.append(piece)
        new = "".join(out)
        if new != s:
            open(p, "w", encoding="utf-8").write(new)


def pick(path, token, found):
    places = found.get(token)
    if not places:
        return token
    news = {new for _, new in places}
    if len(news) == 1:
        return next(iter(news))
    for where, new in places:
        if where == path:
            return new
    return SECOND.get((path, token), snake(token))


SECOND = {}

if __name__ == "__main__":
    main()
