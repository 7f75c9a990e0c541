#!/usr/bin/env python3
"""Respells the repository's own definitions, lemmas and fields of specs/ and proofs/: words in snake case, types and modules in camel case.

usage: python3 tools/respell.py      at the top of the repository, once, after the kit's port/port.py

A hump becomes '_' and a small letter. A dash stays after a name that is a definition of this repository, as in free_words-length, and
becomes '_' elsewhere; a definition of one plain word is no such name, but length, get_or, replicate and reverse of the library are. A lemma that would then have the name of a definition gets '_lem'. It writes the .antt and .rt files of crates/, the
must-fail edits, and the names that README.md and docs/ (PORT.md aside) give in backticks. It prints the names, old and new.
"""

import collections
import os
import re

WORD = re.compile(r"[^\s(){}\[\].,;:@\"`|λ→×≡≤<>=+*/%^&∷∙⊎¬,]+")
HEAD = re.compile(r"^((?:(?:pub|abbrev|unfoldable|data|record)\s+)*)([^\s:(){}.,;]+)\s*(:|\(|$)")
NESTED = re.compile(r"^ +((?:(?:pub|abbrev|unfoldable)\s+)*)([^\s:(){}.,;]+) :(?:\s|$)")
HUMP = re.compile(r"^[a-z].*[a-z0-9][A-Z]")
LIBRARY = {"length", "get_or", "replicate", "reverse"}


def files(*ends):
    for folder, dirs, names in os.walk("crates"):
        dirs[:] = sorted(d for d in dirs if d != "out")
        for name in sorted(names):
            if name.endswith(ends):
                yield os.path.join(folder, name)


def snake(word):
    if not word[:1].islower():
        return word
    return re.sub(r"(?<!_)([A-Z])", lambda m: "_" + m.group(1).lower(), word)


def is_of_a_function(path):
    """Whether a file is the proof of a function, whose names rattle makes, and no file of lemmas."""
    folder = os.path.basename(os.path.dirname(path))
    return path.endswith(("/Proof.antt", "/Answers.antt", "/Invariants.antt")) and folder not in ("proofs", "specs")


def declared():
    defs, lemmas, fields = set(), set(), set()
    for path in files(".antt"):
        if is_of_a_function(path):
            continue
        inside = module = False
        for line in open(path, encoding="utf-8"):
            if line.startswith("module "):
                module = True
            if not line.strip():
                inside = False
            elif line[0] == " ":
                if module:
                    m = NESTED.match(line)
                    if m and not m.group(2).startswith("--"):
                        is_def = "abbrev" in m.group(1) or "unfoldable" in m.group(1)
                        (defs if is_def else lemmas).add(m.group(2))
                    continue
                m = inside and re.match(r"^  (?:pub )?([^\s:(){}.,;]+) :", line)
                if m:
                    fields.add(m.group(1))
            elif not line.startswith("--"):
                m = HEAD.match(line)
                inside = False
                module = line.startswith("module ")
                if m and m.group(2) not in ("use", "mod"):
                    inside = "record" in m.group(1) or "data" in m.group(1)
                    is_def = inside or "abbrev" in m.group(1) or "unfoldable" in m.group(1) or "/specs/" in path
                    if is_def:
                        defs.add(m.group(2))
                    elif m.group(3) == ":":
                        lemmas.add(m.group(2))
    return defs, lemmas - defs, fields


def spelled(name, defs):
    parts = name.split("-")
    for n in range(len(parts) - 1, 0, -1):
        front = "-".join(parts[:n])
        if front in LIBRARY or ((front in defs or snake(front) in defs) and "_" in snake(front)):
            return snake(front) + "-" + "_".join(snake(p) for p in parts[n:])
    return "_".join(snake(p) for p in parts)


def names_of(defs, lemmas):
    new = {n: spelled(n, defs) for n in defs if n[0].isalpha()}
    taken = set(new.values())
    # A name with a hump was a definition's in the older spelling, also in proofs/.
    for n in sorted(lemmas, key=lambda n: (not HUMP.search(n), n)):
        if n[0].isalpha():
            to = spelled(n, defs)
            new[n] = to + "_lem" if to in taken else to
            taken.add(new[n])
    by = collections.defaultdict(list)
    for a, b in new.items():
        by[b].append(a)
    for b, olds in by.items():
        if len(olds) > 1:
            print("fall together:", b, olds)
    return {a: b for a, b in new.items() if a != b}


def turned(text, names, fields, path):
    code = path.endswith((".rt", ".edit"))

    def one(m):
        word, at, end = m.group(0), m.start(), m.end()
        if code and not (HUMP.search(word) or "-" in word):
            return word
        if at > 1 and text[at - 1] == "." and text[at - 2] not in " (":
            before = re.search(r"[^\s(){}\[\].,]*$", text[: at - 1][-80:]).group(0)
            if before[:1].isupper() and text[end : end + 1] != ".":
                return names.get(word, word)
            return fields.get(word, word)
        if word in fields and word in names and re.match(r" = |: | : ", text[end : end + 3]) and (text[at - 2 : at] in ("  ", "{ ", "; ") or text[at - 4 : at] == "pub "):
            return fields[word]
        return names.get(word) or fields.get(word) or word

    return WORD.sub(one, text)


def main():
    defs, lemmas, fields = declared()
    names = names_of(defs, lemmas)
    to_fields = {f: "_".join(snake(p) for p in f.split("-")) for f in fields if f[0].islower()}
    to_fields = {a: b for a, b in to_fields.items() if a != b}
    for f in sorted(set(to_fields) & set(names)):
        print("field and name:", f, to_fields[f], names[f])
    for path in files(".antt", ".rt", ".edit"):
        text = open(path, encoding="utf-8").read()
        new = turned(text, names, to_fields, path)
        if new != text:
            open(path, "w", encoding="utf-8").write(new)
    pages = ["README.md"] + [os.path.join("docs", f) for f in sorted(os.listdir("docs")) if f.endswith(".md") and f != "PORT.md"]
    for path in pages:
        text = open(path, encoding="utf-8").read()
        new = re.sub(r"`[^`\n]+`", lambda m: turned(m.group(0), names, to_fields, path), text)
        if new != text:
            open(path, "w", encoding="utf-8").write(new)
    for a in sorted(names):
        print(a, names[a])
    for a in sorted(to_fields):
        print("field", a, to_fields[a])


if __name__ == "__main__":
    main()
