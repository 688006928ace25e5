#!/usr/bin/env python3
"""Brings the names of definitions and lemmas to today's spelling, once, after port.py.

usage: python3 tools/spelling.py            at the top of the repository

Words are in snake case, types and modules keep their capitals, constants have underscores, and a dash stays only where it joins two
names that are defined somewhere. Functions, types and constants of src/ keep theirs. What it renamed stands in tools/spelling.txt.
"""

import os
import re
import subprocess

KIT = os.path.dirname(os.path.realpath(subprocess.run(["rt", "doc"], capture_output=True, text=True).stdout.strip()))
TOKEN = re.compile(r"[^\s(){}\[\];,:`\"|\\]+")
PREPOSITIONS = ("as", "in", "of", "to", "at", "by", "is", "no", "end", "one", "told", "read", "marked", "found", "at_end")
# functions of std that lemmas speak of
PLAIN = {"length", "drop", "take", "get_or", "set", "sets", "slice", "append", "map", "cond", "leb", "ltb", "eqb", "sum", "replicate"}
CAMEL = re.compile(r"[a-z][a-z0-9]*(?:[A-Z][a-z0-9]*)+")
DEFINED = re.compile(r"^( *)((?:(?:abbrev|unfoldable|pub|data|record) )*)([^\s:(){}.,;λ=]+)((?: *[({][^)}]*[)}])* *):(?!:)", re.M)


def read(p):
    with open(p, encoding="utf-8") as f:
        return f.read()


def files(ends):
    for folder, dirs, names in os.walk("crates"):
        dirs[:] = sorted(d for d in dirs if d != "out")
        for n in sorted(names):
            if n.endswith(ends):
                yield os.path.join(folder, n)


def is_lemma_file(p):
    """Whether a file holds definitions or lemmas, and is no proof of a function."""
    parts = p.split(os.sep)
    return p.endswith(".antt") and (parts[2] == "specs" or parts[2] == "proofs" and len(parts) == 4)


def defined(text, deep=4):
    """The names that a file of definitions defines: at its margin, and deeper in a module, in a record and as constructors."""
    code = re.sub(r"--[^\n]*", "", text)
    found = set()
    for m in DEFINED.finditer(code):
        indent, words, name, _ = m.groups()
        if len(indent) <= deep and name not in ("let", "in", "where", "module", "use", "_"):
            found.add((name, bool({"data", "record"} & set(words.split()))))
    return found


def std_names():
    names = set()
    for sub in ("std", "core", "std_alloc", "logic"):
        for folder, _, fs in os.walk(os.path.join(KIT, "rattle", sub)):
            if "specs" in folder.split(os.sep) or "Lib" in folder.split(os.sep):
                for f in fs:
                    if f.endswith(".antt"):
                        names |= {n for n, _ in defined(read(os.path.join(folder, f)), 0)}
    return {n for n in names if "-" not in n and not n.islower() or n in PLAIN}


def snake(word):
    """camelCase as camel_case; a word with no small letter stays."""
    if not re.search(r"[a-z]", word) or not re.search(r"[a-z0-9][A-Z]", word):
        return word
    return re.sub(r"(?<=[a-z0-9])([A-Z])", lambda m: "_" + m.group(1).lower(), word)


def joined(name, known):
    """The parts of a name with dashes, joined by a dash only where both sides are known names."""
    parts = [snake(p) if p[:1].islower() else p for p in name.split("-")]
    groups = [parts[0]]
    for i, p in enumerate(parts[1:], 1):
        rest = "_".join(parts[i:])
        if groups[-1] in known and (p in known or rest in known) and p not in PREPOSITIONS:
            groups.append(p)
        else:
            groups[-1] += "_" + p
    return "-".join(groups)


def main():
    own, types, holds = set(), set(), {}
    for p in files(".antt"):
        if is_lemma_file(p):
            holds[p] = set()
            for n, is_type in defined(read(p)):
                own.add(n)
                holds[p].add(n)
                if is_type:
                    types.add(n)
    known = std_names()
    for p in holds:
        if p.split(os.sep)[2] == "specs":
            known |= {snake(n) for n, _ in defined(read(p), 0) if "-" not in n}
    known |= types
    taken, to = set(own), {}
    for n in sorted(own):
        if n.startswith("+") or n in types and "-" not in n:
            continue
        if "-" not in n:
            new = n if n[:1].isupper() else snake(n)
        elif not re.search(r"[a-z]", n):
            new = n.replace("-", "_")
        else:
            new = joined(n, known)
        if new == n:
            continue
        if new in taken or os.path.isdir(os.path.join("crates", new)):
            new += "_lem"
        if new in taken:
            raise SystemExit(f"two names fall together: {n} and {new}")
        taken.add(new)
        to[n] = new
    for p in list(files((".antt", ".rt"))):
        text = read(p)
        new = turned(text, to, holds.get(p))
        if new != text:
            with open(p, "w", encoding="utf-8") as f:
                f.write(new)
    with open("tools/spelling.txt", "w", encoding="utf-8") as f:
        f.writelines(f"{a} {b}\n" for a, b in sorted(to.items()))


def turned(text, to, holds):
    """A file with its own names, those that it imports and those behind a dot of a known module or value turned."""
    scope = set(holds or ())
    modules = set()
    for m in re.finditer(r"(?:ghost )?use (Rattle\.\w+\.(?:specs|proofs)[^\s;{]*?)(?:\.\{([^}]*)\}|( as (\S+?))?)(?=[;\s])", text):
        path, items, _, alias = m.groups()
        if path.startswith(("Rattle.std.", "Rattle.core.")):
            continue
        if items is None:
            modules.add(alias or path.split(".")[-1])
        else:
            for it in items.split(","):
                w = it.split()
                if w:
                    scope.add(w[0])

    def word(m):
        t = m.group(0)
        if t in to and (t in scope or CAMEL.fullmatch(t)):
            return to[t]
        if CAMEL.fullmatch(t) and t not in ("nZ", "xNN"):
            return snake(t)
        if "." not in t:
            return t
        parts = t.split(".")
        out = [to[parts[0]] if parts[0] in scope and parts[0] in to else snake(parts[0])]
        for i, x in enumerate(parts[1:], 1):
            out.append(to[x] if x in to and is_member(parts, i, modules) else snake(x) if CAMEL.fullmatch(x) else x)
        return ".".join(out)

    return TOKEN.sub(word, text)


def is_member(parts, i, modules):
    """Whether the i-th part of a path is a name of this repository's: not one that a check made for a function's proof."""
    return parts[0] in modules or parts[0] == "Rattle" or CAMEL.fullmatch(parts[i]) is not None


if __name__ == "__main__":
    main()
