#!/usr/bin/env python3
"""Brings the repository's own names to today's spelling, after port.py has turned the text.

usage: python3 tools/respell.py [--check]      at the top of the repository, once, with port.py's work in the tree

A definition, a lemma, a record's field and a name that a proof binds are written in snake case ('first-failing' is
'first_failing'); a type, and a fact, in camel case ('Values-hold' is 'ValuesHold'). What stays as it is: names that a
file imports from the library, the names of goals and of steps, which the check makes, functions of src/, strings and
comments in code. Names of two items that fall together are told and nothing is written. --check only tells.
The crate 'bytes', whose name is one of the library's, is 'recordbytes'.
"""

import collections
import os
import re
import sys

# How the library's names differ from those of the repository: what a file imports from elsewhere keeps its spelling.
OWN = sorted(os.listdir("crates")) if os.path.isdir("crates") else []
WORD = r"[^\s(){}.;,@\"«»]+"
DECLARED = re.compile(rf"^[ \t]*((?:(?:abbrev|unfoldable|pub|data|record|mutual)[ \t]+)*)((?:{WORD}[ \t]+)+):(?=[ \t\n])", re.M)
IMPORT = re.compile(r"^[ \t]*(?:ghost[ \t]+)?(?:pub[ \t]+)?use[ \t]+([^\s{;]+?)\.?\{([^}]*)\}", re.M)
ALIAS = re.compile(r"^\s*(\S+)\s+as\s+(\S+)\s*$")
# Crates that are called as one of the library's, with their new names.
CRATES = {"bytes": "recordbytes"}
# Aliases that port.py wrote in capitals, though they stand for values.
VALUES = {"Span-of": "span_of", "Signed-of": "signed_of", "Added-of": "added_of"}
KEYWORDS = {"let", "in", "λ", "where", "module", "use", "pub", "abbrev", "unfoldable", "elim", "as"}
LETTERS = re.compile(r"^[A-Za-z][A-Za-z0-9_]*(?:-[A-Za-z0-9_]+)+'*$")
# The parts of a .rt file that are antt.
CLAUSE = re.compile(r"(?:requires|ensures)\s*\*?\s*(?:\w+\s*)?\{|ghost\s*(?:\w+\s*(?::\s*(?:(?:owns|lends)\s*)?|=\s*))?\{")
GHOST_USE = re.compile(r"ghost\s+use\b[^;]*;")
# Texts and comments.
QUIET = re.compile(r'"(?:[^"\\\n]|\\.)*"|(?<![^\s(){}.;,])--[^\n]*')


def respelled(name):
    if name in VALUES:
        return VALUES[name]
    parts = name.split("-")
    if name[0].isupper():
        return "".join(p[:1].upper() + p[1:] for p in parts)
    return "_".join(parts)


def files():
    for crate in OWN:
        for folder, dirs, names in os.walk(os.path.join("crates", crate)):
            dirs[:] = sorted(d for d in dirs if d not in ("out", "must-fail", "data"))
            for n in sorted(names):
                if n.endswith((".antt", ".rt")):
                    yield os.path.join(folder, n)


def made(path):
    """Whether the file answers goals, whose names the check makes."""
    return os.path.basename(path) in ("Answers.antt", "Invariants.antt", "Choices.antt", "Proof.antt") and "/proofs/" in path


def own_path(path):
    m = re.match(r"Rattle\.(\w+)\.", path + ".")
    return bool(m) and m.group(1) in OWN


def foreign(text):
    """The names that a file has from the library, by the spelling that it uses."""
    names = set()
    for m in IMPORT.finditer(text):
        if own_path(m.group(1)):
            continue
        for item in m.group(2).split(","):
            a = ALIAS.match(item)
            names.add(a.group(1) if a else item.strip())
            if a:
                names.add(a.group(2))
    return names


def imported(text):
    """How often a file has each name, from all of its imports."""
    names = collections.Counter()
    for m in IMPORT.finditer(text):
        for item in m.group(2).split(","):
            a = ALIAS.match(item)
            names[a.group(2) if a else item.strip()] += 1
    return names


def declared(path, text):
    for m in DECLARED.finditer(text):
        if re.match(r"\s*goal\.", text[m.end():]):
            continue
        words = m.group(2).split()
        if words and words[0] in KEYWORDS:
            continue
        for w in words:
            if LETTERS.match(w):
                yield w


def aliases(text):
    for m in IMPORT.finditer(text):
        if own_path(m.group(1)):
            for item in m.group(2).split(","):
                a = ALIAS.match(item)
                if a and LETTERS.match(a.group(2)):
                    yield a.group(2)


def segments(path, text):
    """The parts of the text that are antt, as (from, to)."""
    if path.endswith(".antt"):
        return [(0, len(text))]
    parts = [m.span() for m in GHOST_USE.finditer(text)]
    for m in CLAUSE.finditer(text):
        depth, at = 1, m.end()
        while at < len(text) and depth:
            depth += {"{": 1, "}": -1}.get(text[at], 0)
            at += 1
        parts.append((m.end(), at))
    return sorted(parts)


def turn(path, text, own):
    answers = made(path)
    keep = foreign(text) | (set(re.findall(rf"goal\.({WORD})", text)) if answers else set())

    def one(m):
        w = m.group(0)
        if not LETTERS.match(w) or w in keep:
            return w
        if w in own or not (answers or path.endswith(".rt")):
            return respelled(w)
        return w

    def told(m):
        w = m.group(0)
        return respelled(w) if LETTERS.match(w) and w in own and w not in keep else w

    out, at = [], 0
    for a, b in segments(path, text):
        if a < at:
            continue
        out.append(text[at:a])
        part, last = text[a:b], 0
        for q in QUIET.finditer(part):
            out.append(re.sub(WORD, one, part[last:q.start()]))
            # in a comment only names that are declared turn, since prose has dashes of its own
            out.append(re.sub(WORD, told, q.group(0)) if q.group(0).startswith("--") else q.group(0))
            last = q.end()
        out.append(re.sub(WORD, one, part[last:]))
        at = b
    out.append(text[at:])
    return "".join(out)


def rename_crates():
    """Gives crates their new names: the folder, the lists of crates, and paths in the text."""
    for old, new in CRATES.items():
        if not os.path.isdir(os.path.join("crates", old)):
            continue
        os.rename(os.path.join("crates", old), os.path.join("crates", new))
        lines = []
        for line in open("crates.txt", encoding="utf-8"):
            code, mark, rest = line.partition("#")
            lines.append(re.sub(rf"(?<![\w]){old}(?![\w])", new, code) + mark + rest)
        with open("crates.txt", "w", encoding="utf-8") as f:
            f.write("".join(lines))
        for folder, dirs, names in os.walk("crates"):
            dirs[:] = sorted(d for d in dirs if d not in ("out", "data"))
            for n in names:
                if n.endswith((".antt", ".rt", ".edit")):
                    p = os.path.join(folder, n)
                    t = open(p, encoding="utf-8").read()
                    u = re.sub(rf"(?<![\w.])Rattle\.{old}\.", f"Rattle.{new}.", t)
                    u = re.sub(rf"(?<![\w:.]){old}::", f"{new}::", u)
                    if u != t:
                        with open(p, "w", encoding="utf-8") as f:
                            f.write(u)


def main(argv):
    if not OWN:
        print("respell: run it at the top of the repository", file=sys.stderr)
        return 2
    texts = {p: open(p, encoding="utf-8").read() for p in files()}
    own = set()
    for p, t in texts.items():
        if p.endswith(".antt"):
            own |= set(declared(p, t))
        own |= set(aliases(t))
    together = []
    for p, t in texts.items():
        if not p.endswith(".antt"):
            continue
        seen = collections.defaultdict(set)
        for m in DECLARED.finditer(t):
            if m.group(2).split()[0] in KEYWORDS or re.match(r"\s*goal\.", t[m.end():]):
                continue
            for w in m.group(2).split():
                seen[respelled(w) if LETTERS.match(w) else w].add(w)
        for new, olds in seen.items():
            if len(olds) > 1:
                together.append(f"{p}: {', '.join(sorted(olds))} fall together in {new}")
        for new in seen:
            for w in foreign(t):
                if w == new and any(o != new for o in seen[new]):
                    together.append(f"{p}: {', '.join(seen[new])} falls together with the library's {w}")
    if together:
        print("\n".join(together))
        return 1
    changed = 0
    for p, t in texts.items():
        new = turn(p, t, own)
        twice = [w for w, n in imported(new).items() if n > 1]
        if twice:
            print(f"look: {p} has {', '.join(twice)} from two places")
        if new != t:
            changed += 1
            if "--check" not in argv:
                with open(p, "w", encoding="utf-8") as f:
                    f.write(new)
    if "--check" not in argv:
        rename_crates()
    print(f"respell: {len(own)} names of the repository in {changed} files")
    return 0


if __name__ == "__main__":
    raise SystemExit(main(sys.argv[1:]))
