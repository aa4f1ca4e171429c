#!/usr/bin/env python3
"""The places of docs/DESIGN-PASS.md's points in crates/*/src, by the text alone.

    tools/design_places.py           how many, by point and kind; an impl of From is a conversion as it should be, and isn't counted
    tools/design_places.py --list    each place too
"""
import re
import sys
from collections import defaultdict
from pathlib import Path

CRATES = Path(__file__).resolve().parent.parent / "crates"
ABSENT = {"Refused", "Missing", "Not", "Fits", "Accepted", "NoFrame", "Neither", "Exhausted"}
NUMBERS = r"\b(number|op|kind|test|matched)\s*:\s*u(?:8|16|32)\b"
WORDS = {
    "as", "break", "const", "continue", "crate", "else", "enum", "extern", "false", "fn", "for", "if", "impl", "in", "let", "loop", "match",
    "mod", "move", "mut", "pub", "ref", "return", "self", "Self", "static", "struct", "true", "type", "use", "where", "while",
}


def source():
    """Each file of src/, without its comments."""
    for path in sorted(CRATES.glob("*/src/*.rt")):
        yield path.parts[-3], path.name, re.sub(r"//.*", "", path.read_text(encoding="utf-8"))


def closed(text, start):
    """What stands between the bracket at start and the one that closes it."""
    depth = 0
    for at in range(start, len(text)):
        depth += {"{": 1, "}": -1, "(": 1, ")": -1}.get(text[at], 0)
        if depth == 0:
            return text[start + 1 : at], at + 1
    raise ValueError("a bracket that isn't closed")


def types(text):
    """Enums and structs: derives and other attributes, which of the two, the name, what stands in it."""
    for found in re.finditer(r"((?:#\[[^\n]*\]\s*)*)(?:pub )?(enum|struct) (\w+)(?:<[^>]*>)? *([{;(])", text):
        inner = "" if found[4] == ";" else closed(text, found.end() - 1)[0]
        yield found[1], found[2], found[3], inner


def functions(text):
    """Name, parameters, result, clauses, body."""
    for found in re.finditer(r"\bfn (\w+)(?:<[^>]*>)?\(", text):
        parameters, at = closed(text, found.end() - 1)
        result = re.match(r"\s*->\s*([^{\n]*)", text[at:])
        at += result.end() if result else 0
        clauses = []
        while clause := re.match(r"\s*(requires|ensures)( \w+)? (?=\{)", text[at:]):
            inner, end = closed(text, at + clause.end())
            clauses.append((clause[1], inner.strip()))
            at = end
        body = re.match(r"\s*(?=\{)", text[at:])
        if body:
            inner, _ = closed(text, at + body.end())
            yield found[1], parameters, result[1].strip() if result else "", clauses, inner.strip()


def conjuncts(clause):
    """The facts of a clause, without brackets round the whole and without the words for before and after."""
    depth, start = 0, 0
    for at, sign in enumerate(clause + "×"):
        depth += {"(": 1, ")": -1, "{": 1, "}": -1}.get(sign, 0)
        if sign == "×" and depth == 0 or at == len(clause):
            fact = re.sub(r"\s+", " ", clause[start:at].strip())
            fact = re.sub(r"\.(old|now|new|entry)\b", "", fact)
            yield fact[1:-1] if re.fullmatch(r"\([^()]*\)", fact) else fact
            start = at + 1


def shape(body):
    """A body in which each name is told by where it first stands."""
    names = {}
    out = []
    for word in re.findall(r"\w+|[^\w\s]", body):
        if word in WORDS or not re.match(r"\w", word):
            out.append(word)
        elif word[0].isdigit():
            out.append("0")
        else:
            out.append(names.setdefault(word, f"n{len(names)}"))
    return out


def split(parameters):
    depth, start = 0, 0
    for at, sign in enumerate(parameters + ","):
        depth += {"(": 1, ")": -1, "<": 1, ">": -1, "[": 1, "]": -1}.get(sign, 0)
        if sign == "," and depth == 0:
            part = re.sub(r"\s+", " ", parameters[start:at].strip())
            start = at + 1
            if ":" in part:
                yield part


def places():
    found = defaultdict(list)
    shapes, variants = defaultdict(list), defaultdict(list)
    for crate, file, text in source():
        where = f"{crate}/{file}"
        facts, groups = defaultdict(set), defaultdict(set)
        for attributes, kind, name, inner in types(text):
            cases = re.findall(r"(?:^|,)\s*(\w+)\s*([({]?)", re.sub(r"[({][^)}]*[)}]", "(", inner))
            if kind == "enum":
                words = {case for case, _ in cases}
                mixed = any(more for _, more in cases) and not all(more for _, more in cases)
                if words & ABSENT or mixed:
                    found["1 enums of the shape of Option or Result"].append(f"{where} {name}")
                variants[tuple(sorted(words))].append(f"{where} {name}")
            elif "repr(C)" not in attributes:
                fields = re.findall(r"(\w+)\s*:\s*([^,]+)", inner)
                flags = [field for field, of in fields if of.strip() == "bool"]
                if 0 < len(flags) < 3 and len(flags) < len(fields):  # three and more are a lookup's switches
                    for flag in flags:
                        found["1 flags beside other values"].append(f"{where} {name}.{flag}")
                if {"from", "to"} <= {field for field, _ in fields}:
                    found["6 two places for a part"].append(f"{where} {name}")
                if any(of.strip().startswith("[") for _, of in fields) and any(field in ("count", "n", "kept") for field, _ in fields):
                    found["6 a buffer with a length beside"].append(f"{where} {name}")
            if "derive" in attributes and "PartialEq" not in attributes:
                found["4 types that derive no equality"].append(f"{where} {name}")
        for name, parameters, result, clauses, body in functions(text):
            place = f"{where} {name}"
            if name != "from" and (re.search(NUMBERS, parameters) or (result == "u8" and re.search("number", name))):
                found["1 numbers for kinds or refusals"].append(place)
            for loop in re.finditer(r"\b(while|loop)\b", body):
                found["3 loops by hand"].append(place)
            if name != "from" and re.fullmatch(r"\w+ as \w+", body):
                found["4 conversions by hand"].append(place)
            arms = re.fullmatch(r"match \w+ \{(.*)\}", body, re.S)
            if arms and re.fullmatch(r"(\s*[^=]+=>\s*(true|false),)+\s*", arms[1]):
                found["4 tests of a case by hand"].append(place)
            if re.fullmatch(r"if (\w+) <=? (\w+) \{\s*(?:return )?\w+;?\s*\}\s*(?:else \{)?\s*\w+\s*\}?", body):
                found["4 the lesser of two by hand"].append(place)
            if len(re.findall(r"\w+|[^\w\s]", body)) >= 30:
                shapes[tuple(shape(body))].append(place)
            for kind, clause in clauses:
                if kind == "requires":
                    for fact in conjuncts(clause):
                        facts[fact].add(name)
            of = sorted(split(parameters))
            groups[name] = set(of)
            if re.search(r"\b(back|context): bool", parameters):
                found["7 a flag says which step"].append(place)
            if name != "from" and re.search(r"\bmatch (op|number|kind)\b", body):
                found["7 a number says which step"].append(place)
        for fact, names in facts.items():
            if len(names) >= 3:
                found["5 facts in three contracts or more"].append(f"{where} {fact} ({len(names)})")
        sets = list(groups.values())
        closed_sets = {frozenset(a & b) for a in sets for b in sets if a is not b and len(a & b) >= 3}
        for group in closed_sets:
            users = sum(group <= of for of in sets)
            if users >= 3 and not any(group < other and sum(other <= of for of in sets) >= users for other in closed_sets):
                found["5 parameters that travel together"].append(f"{where} {', '.join(sorted(group))} ({users})")
    for names in shapes.values():
        if len(names) > 1:
            found["2 bodies of one shape"].append(" = ".join(names))
    for names in variants.values():
        if len(names) > 1:
            found["2 enums with the same cases"].append(" = ".join(names))
    for path in sorted(CRATES.glob("*/proofs/**/*.antt")):
        text = path.read_text(encoding="utf-8")
        crate = path.relative_to(CRATES).parts[0]
        if path.name == "Answers.antt":
            for name in re.findall(r"^ *pub ([\w'-]+) :", text, re.M):
                found["8 answers"].append(f"{crate}/{path.parent.name} {name}")
            for name in re.findall(r"\w+_known-[\d-]+", text):
                found["8 names of rattle's own in answers"].append(f"{crate}/{path.parent.name} {name}")
    return found


def main():
    for kind, names in sorted(places().items()):
        print(f"{kind}: {len(names)}")
        if "--list" in sys.argv:
            for name in names:
                print(f"    {name}")


main()
