#!/usr/bin/env python3
"""Brings the names of definitions, constructors, fields and lemmas that specs/ and proofs/ declare to snake case, in every crate: usage: respell.py ROOT

A name with a capital inside or with a dash becomes words joined by '_': `hasBare` becomes `has_bare`, `lawful-text` becomes `lawful_text`. Types, facts and modules keep their
capitals. Where a lemma would fall together with another name, it gets `_lem`. Names that the toolchain makes, and names of src/, stay. `--list` shows the new names only."""

import os
import re
import sys

WRITTEN = ("Answers.antt", "Invariants.antt", "Choices.antt", "Proof.antt")
DECLARED = re.compile(r"( *)((?:(?:abbrev|opaque|unfoldable|pub|instance|record|data)\s+)*)([^\s:(){},.=|]+)(?:\s+[^=]*?)?\s*:(?:\s|$)")
TOKEN = re.compile(r"[^\s(){};,.\"λ∷:≡×→←|@=\[\]⟨⟩&!<>#*/?+]+")


def files(root):
    for folder, dirs, names in os.walk(os.path.join(root, "crates")):
        dirs[:] = sorted(d for d in dirs if d not in ("out", "target"))
        for f in sorted(names):
            if f.endswith((".rt", ".antt")):
                yield os.path.join(folder, f)


def text(path):
    with open(path, encoding="utf-8") as f:
        return f.read()


def declared(root):
    names = set()
    for p in files(root):
        if not p.endswith(".antt") or (os.path.basename(p) in WRITTEN and "/specs/" not in p):
            continue
        for line in text(p).split("\n"):
            m = DECLARED.match(re.sub(r"\s*--(\s.*)?$", "", line))
            if m and m[3] not in ("use", "mod", "let", "λ"):
                names.add(m[3])
    return names


def snake(name):
    name = name.replace("-", "_")
    return re.sub(r"(?<=[a-z0-9])([A-Z])", lambda m: "_" + m[1].lower(), name)


def turned(names):
    new, taken = {}, {n for n in names if snake(n) == n}
    for n in sorted(n for n in names if n[0].islower() and snake(n) != n and "-" not in n):
        new[n] = snake(n)
        if new[n] in taken:
            raise SystemExit(f"{n} would fall together with {new[n]}")
        taken.add(new[n])
    for n in sorted(n for n in names if n[0].islower() and "-" in n):
        s = snake(n)
        new[n] = s + "_lem" if s in taken else s
        if new[n] in taken:
            raise SystemExit(f"{n} would fall together with {new[n]}")
        taken.add(new[n])
    return new


# What begins a comment, and what a text looks like, in each sort of file. Code of .rt has no name with a capital inside or a dash of its
# own, so those found there are words of clauses.
COMMENT = {".antt": re.compile(r"(^|\s)--(\s|$)"), ".rt": re.compile(r"(^|\s)//")}
TEXT = {".antt": re.compile(r'("[^"]*")'), ".rt": re.compile(r'(b?"(?:[^"\\]|\\.)*")')}


def respelled(t, new, sort):
    name = lambda m: new.get(m[0], m[0])  # noqa: E731
    out = []
    for line in t.split("\n"):
        m = COMMENT[sort].search(line)
        code, note = (line[: m.start()], line[m.start() :]) if m else (line, "")
        parts = TEXT[sort].split(code)
        code = "".join(TOKEN.sub(name, it) if i % 2 == 0 else it for i, it in enumerate(parts))
        out.append(code + re.sub(r"`([^`]+)`", lambda k: "`" + new.get(k[1], k[1]) + "`", note))
    return "\n".join(out)


def main(argv):
    root = argv[0]
    new = turned(declared(root))
    if "--list" in argv:
        print("\n".join(f"{a} {b}" for a, b in sorted(new.items())))
        return 0
    n = 0
    for p in files(root):
        old = text(p)
        t = respelled(old, new, os.path.splitext(p)[1])
        if t != old:
            n += 1
            with open(p, "w", encoding="utf-8") as f:
                f.write(t)
    print(f"{len(new)} names, {n} files")
    return 0


if __name__ == "__main__":
    sys.exit(main(sys.argv[1:]))
