#!/usr/bin/env python3
"""Brings the repository's own definitions and lemmas to the spelling of today's Rattle, after port.py has run.

usage: tools/respell.py [ROOT]      once, at the top of the repository

Words in snake case; types and modules keep their capitals. A dash stays between the names of two definitions, as in
`length-laid`; any other is `_`. Names of functions, types, fields and constants of src/ and of std keep their spelling. A
name that would fall together with another keeps its dash, or gets `_lem`. Files: specs/, proofs/, the clauses of src/ and
the must-fail edits. What was renamed is printed.
"""
import os
import re
import sys

ROOT = sys.argv[1] if len(sys.argv) > 1 else "."
TOKEN = re.compile(r"[\w'-]+")
DECLARED = re.compile(r"\s*((?:(?:abbrev|unfoldable|pub|data|record)\s+)*)([^\s:(){}\[\],;=]+)\s*(?:[({][^=]*)?:\s")
LISTS = "length get_or set take drop map append replicate sum zero suc add sub mul pow div mod min max not eqb ltb leb nat_abs neg".split()


def files(*ends):
    for folder, dirs, names in os.walk(os.path.join(ROOT, "crates")):
        dirs[:] = sorted(d for d in dirs if d != "out")
        for name in sorted(names):
            if name.endswith(ends):
                yield os.path.join(folder, name)


def read(path):
    with open(path, encoding="utf-8") as f:
        return f.read()


def declared():
    """Names of specs/ and of the lemma files of proofs/: name -> whether it is a definition of specs/."""
    found = {}
    for path in files(".antt"):
        if path.endswith(("/Proof.antt", "/Lib.antt")):
            continue
        for line in read(path).splitlines():
            m = DECLARED.match(line)
            if m and not re.match(r"\s*(use|--|let|unfolding|module|open|mod|λ|elim|rw|data|record)\b", line):
                found[m[2]] = found.get(m[2], False) or "/specs/" in path
    return found


def aliases():
    found = set()
    for path in files(".antt", ".rt"):
        for line in read(path).splitlines():
            if re.match(r"\s*(ghost )?use ", line):
                found |= set(re.findall(r" as ([\w'-]+)", line))
    return found


def snake(word):
    return re.sub(r"(?<=[a-z0-9])(?=[A-Z])", "_", word).lower() if word[:1].islower() else word


def main():
    names = declared()
    camel = re.compile(r"[a-z0-9][A-Z]")
    for alias in aliases():
        names.setdefault(alias, True)
    # A definition may have its function's name. A parameter or a field of its name would hide it.
    tokens = set()
    for path in files(".antt", ".rt"):
        if path.endswith("/Proof.antt"):
            continue
        text = re.sub(r"\bRattle\.[\w.'+-]+\.(?=[A-Z{])|(?m:(?:--|//) .*$)", "", read(path))
        if path.endswith(".rt"):
            tokens |= set(re.findall(r"(?:let (?:mut )?)?\b([a-z][\w']*)\s*:(?!:)", text)) | set(re.findall(r"\bconst (\w+)", text))
        else:
            tokens |= set(TOKEN.findall(text))
    words = {snake(n) for n, is_definition in names.items() if is_definition and "-" not in n} | set(LISTS)

    def joined(name):
        parts = [snake(p) for p in name.split("-")]
        for k in range(1, len(parts)):
            left, right = "_".join(parts[:k]), "_".join(parts[k:])
            if left in words and right in words:
                return left + "-" + right
        return "_".join(parts)

    wanted = {}
    for name in sorted(names):
        if not re.match(r"[a-z]", name) or not (camel.search(name) or "-" in name):
            continue
        new = joined(name)
        if new != name:
            wanted[name] = new
    taken = {}
    for name, new in wanted.items():
        if "-" not in name or new not in {n for k, n in wanted.items() if "-" not in k}:
            taken.setdefault(new, []).append(name)
    turned = {}
    for name, new in sorted(wanted.items()):
        alone = new not in tokens and taken[new] == [name]
        if not alone and "-" in name:
            new = "-".join(snake(p) for p in name.split("-"))
            alone = new not in tokens and new not in taken
        elif not alone:
            new += "_lem"
            alone = new not in tokens and new not in taken
        if alone:
            turned[name] = new
        elif name != new:
            print(f"left: {name}")
    for path in files(".antt", ".rt", ".edit"):
        old = read(path)
        new = TOKEN.sub(lambda m: turned.get(m[0], m[0]), old)
        if new != old:
            with open(path, "w", encoding="utf-8") as f:
                f.write(new)
    for name, new in sorted(turned.items()):
        print(f"{name} {new}")


if __name__ == "__main__":
    main()
