#!/usr/bin/env python3
"""Brings the repository's own names to snake case: run once, at the top, after /opt/rattle/port/port.py.

A word of antt or of a clause whose part begins with a small letter and holds a capital after it, as `allB` or
`allB-true`, becomes `all_b` and `all_b-true`; modules, types and facts, which begin with a capital, stay.
It turns crates/*/specs, proofs and src (clauses and comments) and the texts of must-fail edits, and prints the names.
It stops where a new name stands in a file of antt beside the old one, so that no two names fall together. A definition may have
the name of the function that it is the answer of.
"""
import os
import re
import sys

WORD = re.compile(r"(?<![\w'./\"-])[^\W\d]['\w]*(?:[-][^\W]['\w]*)*|(?<=\.)[^\W\d]['\w]*(?:[-][^\W]['\w]*)*")
# Lemmas that would fall together with a definition, by the file or folder in which they stand: port.py had turned their dash.
APART = [("", "tail_of", "tail-of"), ("", "held_by", "held-by"), ("outcome/proofs/Claims.antt", "has_room", "has-room"), ("elections/proofs/Run.antt", "step_words", "step-words")]
CAMEL = re.compile(r"(?:^|(?<=[-_]))[a-z][a-z0-9]*[A-Z][A-Za-z0-9']*")


def snake(part):
    return re.sub(r"(?<=[a-z0-9])([A-Z])", lambda m: "_" + m.group(1).lower(), part)


def turned(word):
    if word.startswith("getD-"):
        return "get_or-" + word[5:]
    return CAMEL.sub(lambda m: snake(m.group(0)), word)


def texts(root):
    for folder, dirs, files in os.walk(os.path.join(root, "crates")):
        dirs[:] = sorted(d for d in dirs if d not in ("out", "data"))
        for f in sorted(files):
            if f.endswith((".antt", ".rt", ".edit")):
                yield os.path.join(folder, f)


def words(root):
    seen = set()
    for p in texts(root):
        if not p.endswith(".edit"):
            with open(p, encoding="utf-8") as f:
                seen |= {m.group(0) for m in WORD.finditer(f.read())}
    return seen


def bare(text):
    """The text without comments and imports, whose paths may end in a function's name."""
    return re.sub(r"(?m)--.*$|^use .*\.(Statement|Tie|Met|Goals|Given|Reads)\b.*$|^use .*\.proofs\.\w+\..*$", "", text)


def beside(root, names):
    for p in texts(root):
        if p.endswith(".antt"):
            with open(p, encoding="utf-8") as f:
                here = {m.group(0) for m in re.finditer(r"(?<![\w.'-])[^\W\d][\w'-]*", bare(f.read()))}
            yield from (f"{p}: {w} -> {names[w]}" for w in sorted(here) if w in names and names[w] in here)


def part(root):
    for where, old, new in APART:
        for p in texts(root):
            if p.endswith(".antt") and where in p:
                with open(p, encoding="utf-8") as f:
                    was = f.read()
                now = re.sub(rf"(?<![\w'-]){old}(?![\w'-])", new, was)
                if now != was:
                    with open(p, "w", encoding="utf-8") as f:
                        f.write(now)


def respell(text, names):
    return WORD.sub(lambda m: names.get(m.group(0), m.group(0)), text)


def main():
    root = sys.argv[1] if len(sys.argv) > 1 else "."
    if any(turned(w) != w for w in words(root)):  # a second run finds nothing to turn, and leaves the definitions alone
        part(root)
    names = {w: turned(w) for w in words(root) if turned(w) != w}
    together = list(beside(root, names))
    back = {}
    for w, n in names.items():
        back.setdefault(n, []).append(w)
    together += [" and ".join(ws) + f" -> {n}" for n, ws in back.items() if len(ws) > 1]
    if together:
        print("names that fall together:\n" + "\n".join(sorted(together)))
        return 1
    for p in texts(root):
        with open(p, encoding="utf-8") as f:
            old = f.read()
        new = respell(old, names)
        if new != old:
            with open(p, "w", encoding="utf-8") as f:
                f.write(new)
    for w in sorted(names):
        print(w, names[w])
    return 0


if __name__ == "__main__":
    sys.exit(main())
