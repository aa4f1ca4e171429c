#!/usr/bin/env python3
"""Spells this repository's own definitions and lemmas as today's Rattle does. Run once, at the top, right after the kit's port.py:

    python3 tools/respell.py            writes the files
    python3 tools/respell.py --list     prints 'OLD NEW' for each name, and writes nothing

It reads what specs/ and proofs/ declare (but not Proof.antt, whose names are mostly Rattle's own) and gives each name in camel case or with a dash its
new spelling, in every .antt and .rt file: words in snake case; a dash only where it joins the name of a definition to one of the
library's words, as in `length-glyphs_of`, or a type to a word, as in `Puts-unique`; else `_`. A lemma that would get the name of a definition gets `_lem`. Types and facts keep their capital, and the three facts that began with a small letter get one.
Names of src/, strings, inputs and outputs stay: in an .rt file only words in camel case are looked at, which no Rust name here is.
A name that would fall together with another, or with a word of a file that uses it, is said, and nothing is written.
"""

import os
import re
import sys

WORD = re.compile(r'[^\s(){}.;,@"«»]+')
DECLARED = re.compile(r"^(\s*)(abbrev pub |unfoldable pub |pub |abbrev |unfoldable )?([^\s:(){}=,;.]+)(?: \{[^{}]*\}| \([^()]*\))* :(?: .*)?$")
TYPE = re.compile(r"^(\s*)(?:pub )?(record|data) (\S+)")
# Words of the library that lemmas are named after.
LIBRARY = "length take drop append map get_or set replicate reverse cons nil zero suc min max cond fold sum".split()
RESERVED = """data record deriving module where use mod pub package open as unfoldable abbrev axiom unfold unfolding ruleset mutual infix infixl infixr elim let in
do Type coe fcoe tcoe hcom com search omega grind simp rw cc hlevel assumption ground refl first_of""".split()
# Facts that had a small letter, and names whose parts a reader would not find.
BY_HAND = {
    "fitting": "IsFitting",
    "metBy": "MetBy",
    "repliesAs": "RepliesAs",
    "lT": "length_of_front",
    "lTF": "length_of_both",
}
# Variables that no signature declares.
LOCALS = ["atNone", "leftIn", "lookupMask", "lookupProps", "m-is"]
# `first_of` is a tactic now.
TACTICS = {"first_of": "first_lookup_of"}


def files(ending):
    for folder, dirs, names in os.walk("crates"):
        dirs[:] = sorted(d for d in dirs if d != "out")
        for name in sorted(names):
            if name.endswith(ending):
                yield os.path.join(folder, name)


def read(path):
    with open(path, encoding="utf-8") as f:
        return f.read()


def declared():
    """name -> the kinds that it is declared as: 'type', 'field', 'con', 'word' (a definition) or 'lemma'."""
    out = {}
    for path in files(".antt"):
        if path.endswith("/Proof.antt"):
            continue
        inside = None
        for line in read(path).split("\n"):
            m = TYPE.match(line)
            if m:
                inside = (m[2], len(m[1]))
                out.setdefault(m[3], set()).add("type")
                continue
            m = DECLARED.match(line)
            if m:
                if inside and len(m[1]) > inside[1]:
                    kind = "field" if inside[0] == "record" else "con"
                else:
                    inside = None
                    kind = "word" if m[2] and ("abbrev" in m[2] or "unfoldable" in m[2]) else "lemma"
                out.setdefault(m[3], set()).add(kind)
            elif line.strip() and not line.startswith(" "):
                inside = None
    return out


def snake(part):
    if part == "getD":
        return "get_or"  # the library's new name for it
    return re.sub(r"(?<=[a-z0-9])([A-Z])", lambda m: "_" + m[1].lower(), part)


def spelled(name, kinds, names):
    if name in BY_HAND:
        return BY_HAND[name]
    if name in TACTICS:
        return TACTICS[name]
    parts = [p if p[:1].isupper() else snake(p) for p in name.split("-")]
    if kinds & {"word", "field", "con", "local"}:
        return "_".join(parts)
    out = parts[0]
    for left, right in zip(parts, parts[1:]):
        joins = left[:1].isupper() or (left in names and right in names and (left in LIBRARY or right in LIBRARY))
        out += ("-" if joins else "_") + right
    return out


def table():
    kinds = declared()
    for name in LOCALS:
        kinds.setdefault(name, set()).add("local")
    names = set(LIBRARY) | {snake(n) for n, k in kinds.items() if k & {"word", "type", "con"}}
    new = {}
    for name, k in sorted(kinds.items()):
        if not re.search(r"\w-\w|[a-z0-9][A-Z]", name) and name not in BY_HAND and name not in TACTICS:
            continue
        if name[:1].isupper() and "-" not in name:
            continue
        to = spelled(name, k, names)
        if to != name:
            new[name] = to
    # A lemma that would have a definition's name gets `_lem`.
    for to in sorted(set(new.values())):
        olds = [n for n in kinds if new.get(n, n) == to]
        if len(olds) > 1:
            for old in olds:
                if kinds[old] == {"lemma"}:
                    new[old] = to + "_lem"
    return kinds, new


def turned(path, text, kinds, new):
    """In a comment a word with a dash is English. In a Proof.antt what stands behind a dot is mostly a step of the code, named by Rattle, and so is what the file itself declares."""
    walk = path.endswith("/Proof.antt")
    stay = {m[3] for m in map(DECLARED.match, text.split("\n")) if m and not m[1]} if walk else set()

    def word(m):
        w = m[0]
        said = "-" in w and (path.endswith(".rt") or "--" in text[text.rfind("\n", 0, m.start()) + 1 : m.start()].split())
        if w not in new or w in stay or said:
            return w
        if walk and text[m.start() - 1 : m.start()] == "." and "field" not in kinds[w]:
            return w
        return new[w]

    return WORD.sub(word, text)


def clashes(kinds, new):
    bad = []
    by = {}
    for old, to in new.items():
        by.setdefault(to, []).append(old)
        if to in kinds and to not in new:
            by[to].append(to)
    for to, olds in sorted(by.items()):
        if len(olds) > 1:
            bad.append((to, olds))
    return bad


def main(argv):
    kinds, new = table()
    if argv == ["--list"]:
        for old, to in new.items():
            print(old, to)
        return 0
    bad = [f"{to}: {', '.join(olds)} fall together" for to, olds in clashes(kinds, new)]
    bad += [f"{to} is a word of antt's ({old})" for old, to in new.items() if to in RESERVED]
    for path in files(".antt"):
        if path.endswith("/Proof.antt"):
            continue
        words = set(WORD.findall(read(path)))
        for w in words & set(new):
            if new[w] in words and new[w] not in new:
                bad.append(f"{path}: {w} becomes {new[w]}, which stands there already")
    if bad:
        print("\n".join(bad))
        return 1
    for ending in (".antt", ".rt"):
        for path in files(ending):
            text = read(path)
            after = turned(path, text, kinds, new)
            if after != text:
                with open(path, "w", encoding="utf-8") as f:
                    f.write(after)
    return 0


if __name__ == "__main__":
    raise SystemExit(main(sys.argv[1:]))
