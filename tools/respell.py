#!/usr/bin/env python3
"""Spells the repository's own definitions and lemmas as today's Rattle does: in snake case, with plain underscores.

usage: tools/respell.py [FOLDER] [--look]     FOLDER (default: .) has crates/; run once, right after port.py

Names that a .antt file of crates/ declares (definitions and lemmas, in a module too, fields of records, constructors, names given by `as`)
change wherever they stand as a whole word: in .antt and .rt files and in must-fail edits, and in the pages between backticks. A name stays
where a file imports it from a library. A lemma that would get the name of what it speaks of gets `_lem`; a word of specs/ does not. With
--look the words that meet are printed and nothing is written. Types, modules and names of src/ stay.
"""

import os
import re
import sys

WORD = re.compile(r"[^\s(){}\[\].;:,@\"«»`|]+")
DECLARED = re.compile(r"^ *(?:(?:pub|abbrev|unfoldable|opaque) )*([^\s(){}.;,@\"«»]+)(?: [({][^\n]*?)? :(?=\s)", re.M)
USE = re.compile(r"\buse ([^\s;{]+)\{([^}]*)\}")
ALIAS = re.compile(r"\bas ([^\s,]+)")
# what port.py took for a library's word of the same letters, by crate
BACK = {"syntax": {"Si": "SI"}, "asm": {"Si": "SI"}}
# lemmas that port.py gave the name of what they speak of, and where they stand
LEMMAS = {
    "digits_value": "crates/expr/proofs/",
    "first_off": "crates/asm/proofs/",
    "goes_on": "crates/promises/proofs/Reaches.antt",
    "listed_answer": "crates/abi_asm/proofs/",
    "target_code": "crates/asm/proofs/",
}


def snake(name):
    return re.sub(r"(?<=[a-z0-9'])[A-Z]+", lambda m: "_" + m[0].lower(), name).replace("-", "_")


def files(root):
    for folder, dirs, names in os.walk(root):
        dirs[:] = sorted(d for d in dirs if d not in ("out", "target", ".git", "tools", ".ci"))
        for n in sorted(names):
            if n.endswith((".antt", ".rt", ".edit", ".md")):
                yield os.path.relpath(os.path.join(folder, n), root)


def imported(text, own):
    """The names that a text imports from a library."""
    found = set()
    for path, names in USE.findall(text):
        steps = path.split(".")
        if not (steps[0] == "Rattle" and len(steps) > 1 and steps[1] in own):
            found |= {w.strip().split(" as ")[0] for w in names.split(",")}
    return found


def spellings(texts, own):
    """What each name becomes, and every name that is declared."""
    declared, stated = set(), set()
    for p, t in texts.items():
        if p.endswith(".antt"):
            here = set(DECLARED.findall(t)) | {a for _, names in USE.findall(t) for a in ALIAS.findall(names)}
            declared |= here
            stated |= here if "/specs/" in p else set()
    new = {n: snake(n) for n in declared if n[:1].islower() and snake(n) != n}
    taken = {new[n] for n in new if "-" not in n} | declared | set().union(*(imported(t, own) for t in texts.values()))
    new |= {n: new[n] + "_lem" for n in new if "-" in n and new[n] in taken and n not in stated}
    return new, declared


def look(texts, new, own):
    met = {}
    for p, t in texts.items():
        there = set(WORD.findall(t))
        turned = {}
        for n in (there & set(new)) - imported(t, own):
            turned.setdefault(new[n], set()).add(n)
        for to, olds in turned.items():
            if p.endswith(".antt") and (to in there or len(olds) > 1):
                for n in olds:
                    met.setdefault(n, set()).add(p)
    for n in sorted(met):
        print(f"met: {n} -> {new[n]}: {' '.join(sorted(met[n]))}")


def code(p, t, new, own):
    """A text of crates/ in today's spelling."""
    lent = imported(t, own)
    back = BACK.get(p.split(os.sep)[1], {})

    def turn(m):
        w = m[0]
        if p.startswith(LEMMAS.get(w, "?")) and t[m.start() - 1] != ".":
            return w + "_lem"
        if w in new and w not in lent and not (p.endswith(".rt") and "-" in w):
            return new[w]
        return back.get(w, w)

    return WORD.sub(turn, t)


def page(t, new, declared):
    """A page: port.py turns none, so a word is ours where its new spelling is declared."""
    turn = lambda m: new.get(m[0]) or (snake(m[0]) if snake(m[0]) in declared else m[0])
    return re.sub(r"`[^`\n]+`", lambda span: WORD.sub(turn, span[0]), t)


def main(root, looks):
    own = set(os.listdir(os.path.join(root, "crates")))
    texts = {p: open(os.path.join(root, p), encoding="utf-8").read() for p in files(root)}
    new, declared = spellings(texts, own)
    if looks:
        return look(texts, new, own)
    for p, t in texts.items():
        to = page(t, new, declared) if p.endswith(".md") else code(p, t, new, own)
        if to != t:
            with open(os.path.join(root, p), "w", encoding="utf-8") as f:
                f.write(to)


if __name__ == "__main__":
    words = [a for a in sys.argv[1:] if a != "--look"]
    main(words[0] if words else ".", "--look" in sys.argv)
