#!/usr/bin/env python3
"""Respells the names of this repository's definitions and lemmas: words in snake case.

usage: python3 tools/respell.py           writes the files
       python3 tools/respell.py --list    prints the names, old and new, and those that fall together

A name is respelled where specs/ or proofs/ declares it: a definition, a lemma, a constructor, a field. Types and modules keep
their capitals, functions of src/ their names. It goes over crates/ (with the edits of must-fail/), and over what stands
between backquotes in README.md and docs/.
"""
import os
import re
import sys

NAMES = r"[^\s(){}\[\],;.:«»⟦⟧`\"]+"
DECLARES = re.compile(r"^\s*(?:(?:pub|abbrev|unfoldable|record|data|private)\s+)*(?P<name>" + NAMES + r")\s+:(?:\s|$)")
FIELD = re.compile(r"^\s*pub\s+(?P<name>" + NAMES + r")\s+:(?:\s|$)")
TOKEN = re.compile(NAMES)
GENERATED = re.compile(r"^(invariant|decreases|loop|returns|overflow|bounds)-")


def walk(root, endings):
    for folder, dirs, files in os.walk(root):
        dirs[:] = sorted(d for d in dirs if d not in ("out", ".git", "target"))
        for f in sorted(files):
            if f.endswith(endings):
                yield os.path.join(folder, f)


def read(path):
    with open(path, encoding="utf-8") as f:
        return f.read()


def snake(name):
    """A name in snake case; one that begins with a capital is a type's, or a fact's, and keeps it."""
    if not re.search(r"[a-zA-Z]", name) or re.search(r"[^A-Za-z0-9_'₀₁₂₃₄₅₆₇₈₉-]", name):
        return name
    parts = []
    for part in name.split("-"):
        if part[:1].isupper():
            parts.append(part)
            continue
        parts.append(re.sub(r"(?<=[a-z0-9])([A-Z])(?=[a-z0-9]|$)", lambda m: "_" + m.group(1).lower(), part))
    if any(p == "" for p in parts):
        return name
    if parts[0][:1].isupper():
        return name
    return "_".join(parts)


def declared():
    """Each declared name, and whether a declaration of it stands inside another's block."""
    names = {}
    for path in walk("crates", (".antt",)):
        if os.path.basename(path) == "Proof.antt":
            continue
        for line in read(path).splitlines():
            m = DECLARES.match(line)
            if m and not GENERATED.match(m.group("name")) and " : goal." not in line:
                names[m.group("name")] = names.get(m.group("name"), False) or line[0] == " "
    return names


def of_libraries():
    """The names that files take from libraries: one of the same name here keeps it too."""
    names = set()
    for path in walk("crates", (".antt", ".rt")):
        for module, items in re.findall(r"use ([\w.+-]+)\.\{([^}]*)\}", read(path)):
            parts = module.split(".")
            if parts[0] != "Rattle" or not os.path.isdir(os.path.join("crates", parts[1])):
                names |= {n.strip().split(" as ")[0] for n in items.split(",")}
    return names


def table():
    """The names, old and new. Where two fall together, the definition has the name: a lemma of that name ends with `_lem`, and what stands inside a
    block keeps its dash."""
    names = declared()
    for n in of_libraries():
        names.pop(n, None)
    renamed = {n: snake(n) for n in names if snake(n) != n}
    together = []
    groups = {}
    for n in names:
        groups.setdefault(renamed.get(n, n), []).append(n)
    for new, olds in groups.items():
        if len(olds) == 1:
            continue
        camels = [n for n in olds if "-" not in n and n != new]
        first = camels[0] if camels else new
        for n in olds:
            if n == first:
                continue
            renamed[n] = new.replace("_", "-") if names[n] else new + "_lem"
            if renamed[n] == n:
                del renamed[n]
            together.append((n, first, renamed.get(n, n)))
    return renamed, together


def functions():
    """The names of the functions of src/."""
    return {n for path in walk("crates", (".rt",)) for n in re.findall(r"\bfn (\w+)", read(path))}


def of_crate(path, renamed, kept):
    """The names to respell in a file: one that a function of src/ has too, only in the crate that declares it."""
    own = set()
    for other in walk(os.path.join(*path.split(os.sep)[:2]), (".antt",)):
        own |= {m.group("name") for m in map(DECLARES.match, read(other).splitlines()) if m}
    return {old: new for old, new in renamed.items() if old not in kept or (old in own and not path.endswith(".rt"))}


def respell(text, renamed):
    return TOKEN.sub(lambda m: renamed.get(m.group(0), m.group(0)), text)


def main():
    renamed, together = table()
    if "--list" in sys.argv:
        for old, new in sorted(renamed.items()):
            print(old, new)
        for t in together:
            print("together:", *t)
        return
    kept = functions()
    changed = {}
    for path in walk("crates", (".antt", ".rt", ".edit")):
        text = read(path)
        new = respell(text, of_crate(path, renamed, kept))
        if new != text:
            changed[path] = new
    for path in ["README.md", *walk("docs", (".md",))]:
        text = read(path)
        changed[path] = re.sub(r"`[^`\n]*`", lambda m: respell(m.group(0), renamed), text)
    for path, text in changed.items():
        with open(path, "w", encoding="utf-8") as f:
            f.write(text)


main()
