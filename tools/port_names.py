#!/usr/bin/env python3
"""Spells the repository's own words in specs/ and proofs/ as today's Rattle does: functions, lemmas, fields and constructors in snake case.

usage: python3 tools/port_names.py [ROOT]     once, right after port.py
       python3 tools/port_names.py --list [ROOT]   prints old and new, and what would fall together

By text: each word that a file of specs/ or a lemma file of proofs/ declares, and that has a capital inside or a dash, is spelled anew wherever it stands
in an .antt file, in the clauses, ghost items and comments of an .rt file, and in a must-fail edit. Functions of src/, strings, goals of Rattle's own (in
proofs/F/Proof.antt) and words of the kit's library keep their names."""

import glob
import os
import re
import sys

TOKEN = re.compile(r"(?<![\w'′₀-₉◌])[A-Za-zμ_][\w'′₀-₉]*(?:-[A-Za-z0-9_][\w'′₀-₉]*)*")
DECLARED = re.compile(r"^\s*(?:(?:abbrev|unfoldable|opaque|pub|cases) )*([A-Za-zμ][\w'′₀-₉]*(?:-[\w'′₀-₉]+)*)(?: [a-zμ][\w'′₀-₉-]*)* :(?=\s|$)", re.M)
IMPORT = re.compile(r"^\s*(?:pub |ghost )?use ([^\s{]+)\.\{([^}]*)\}", re.M)
# Two words that would fall together with another one.
OTHER = {"sameHash": "same_hash_of", "storedLeaf": "stored_leaf_of"}


def snake(word):
    """rootUnless -> root_unless, length-part -> length_part, getD-part -> get_or_part."""
    if word in OTHER:
        return OTHER[word]
    word = re.sub(r"getD(?![a-z])", "get_or", word)
    word = word.replace("-", "_")
    if word[0].islower() or word[0] == "μ":
        word = re.sub(r"([a-z0-9])([A-Z])", lambda m: m[1] + "_" + m[2], word)
        word = re.sub(r"([A-Z])([A-Z][a-z])", lambda m: m[1] + "_" + m[2], word).lower()
    return word


def files(root, *kinds):
    for kind in kinds:
        yield from sorted(p for p in glob.glob(os.path.join(root, "crates", "*", "**", "*" + kind), recursive=True) if "/out/" not in p)


def is_lemma_file(path):
    return path.endswith(".antt") and not path.endswith("/Proof.antt")


def table(root):
    """Old word -> new word. A lemma that would have a definition's or another word's name gets _lem."""
    defined, lemmas, foreign, said = {}, {}, set(), {}
    for p in files(root, ".antt"):
        with open(p, encoding="utf-8") as f:
            text = f.read()
        for m in IMPORT.finditer(text):
            if not m[1].startswith("Rattle.") or m[1].startswith(("Rattle.std", "Rattle.core")):
                foreign |= {n.split(" as ")[0].strip() for n in m[2].split(",")}
        for w in TOKEN.findall(re.sub(r"(?m)^\s*--.*$", "", text)):
            said[w] = said.get(w, 0) + 1
        if is_lemma_file(p):
            for m in DECLARED.finditer(text):
                (defined if "/specs/" in p else lemmas).setdefault(m[1], p)
    def wants(word):
        return word not in foreign and not re.match(r"x[0-9A-F]{2}$", word) and snake(word) != word and not (word[0].isupper() and "-" not in word)

    local = {w for w in said if w not in defined and w not in lemmas and re.match(r"[a-z]+[A-Z]", w)}
    turned, taken, clashes = {}, {}, []
    for word in sorted(defined) + sorted(local):
        if wants(word):
            new = snake(word)
            if new in taken or new in foreign or new in defined and new != word:
                clashes.append((word, new, taken.get(new, "stands already")))
            turned[word] = new
            taken[new] = word
    for word in sorted(lemmas):
        if word in defined or word in foreign or word in turned:
            continue
        new = snake(word) if wants(word) else word
        if new == word and word not in taken:
            continue
        if new in taken or new in defined or new in foreign or new != word and new in said:
            new += "_lem"
        if new in taken or new in said:
            clashes.append((word, new, taken.get(new, "stands already")))
        turned[word] = new
        taken[new] = word
    return turned, clashes


def functions(root):
    """The functions of src/: a lemma of the same name is turned only where it stands alone, never in a path or behind a dot."""
    found = set()
    for p in files(root, ".rt"):
        with open(p, encoding="utf-8") as f:
            found |= set(re.findall(r"\bfn (\w+)", f.read()))
    return found


def turn(text, turned, code=frozenset(), source=False):
    def one(m):
        if m[0] in code and (source or m.string[max(0, m.start() - 1):m.start()] == "."):
            return m[0]
        return turned.get(m[0], m[0])
    return TOKEN.sub(one, text)


def turn_rt(text, turned, code):
    """An .rt file: its strings stay, all else is turned (no word of its code has a capital behind a small letter or a dash without blanks)."""
    parts = re.split(r'(b?"(?:[^"\\]|\\.)*")', text)
    return "".join(p if i % 2 else turn(p, turned, code, True) for i, p in enumerate(parts))


def main(argv):
    only_list = "--list" in argv
    root = ([a for a in argv if not a.startswith("--")] or ["."])[0]
    turned, clashes = table(root)
    if only_list:
        for old, new in sorted(turned.items()):
            print(old, new)
        for c in clashes:
            print("clash:", *c)
        return
    code = functions(root)
    for p in files(root, ".antt", ".rt", ".edit"):
        with open(p, encoding="utf-8") as f:
            text = f.read()
        new = turn_rt(text, turned, code) if p.endswith(".rt") else turn(text, turned, code, "file: src/" in text)
        if new != text:
            with open(p, "w", encoding="utf-8") as f:
                f.write(new)


if __name__ == "__main__":
    main(sys.argv[1:])
