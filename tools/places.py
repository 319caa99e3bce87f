#!/usr/bin/env python3
"""places.py: counts the places of src/ that docs/DESIGN-PASS.md is about, point by point.

usage: tools/places.py [-v] [TREE]

TREE is a checkout (default: this one). -v lists each place. What counts as a place of each point is written at its function; comments are
left out. It counts shapes of text, so it finds too much rather than too little: the page says of each place that stays why it does.
"""
import collections
import glob
import os
import re
import sys


def sources(tree):
    """Each source file's name and its text without comments."""
    for path in sorted(glob.glob(f"{tree}/crates/*/src/**/*.rt", recursive=True)):
        with open(path, encoding="utf-8") as f:
            text = re.sub(r"//[^\n]*", "", f.read())
        yield os.path.relpath(path, f"{tree}/crates").replace("/src/", "/"), text


def functions(text):
    """Each function: name, parameter list, clauses, body."""
    for m in re.finditer(r"\bfn (\w+)(?:<[^>]*>)?\(", text):
        at, depth = m.end(), 1
        while depth:
            depth += {"(": 1, ")": -1}.get(text[at], 0)
            at += 1
        params = text[m.end() : at - 1]
        end = at
        clauses = []
        rest = re.compile(r"\s*(->\s*[^{};]*?(?=\s*(?:\{|requires|ensures|where|$)))?", re.S).match(text, at)
        end = rest.end()
        while True:
            c = re.compile(r"\s*(requires|ensures)\b[^{]*\{", re.S).match(text, end)
            if not c:
                break
            depth, end = 1, c.end()
            start = end
            while depth:
                depth += {"{": 1, "}": -1}.get(text[end], 0)
                end += 1
            clauses.append((c.group(1), " ".join(text[start : end - 1].split())))
        b = re.compile(r"\s*\{", re.S).match(text, end)
        if not b:
            continue
        depth, stop = 1, b.end()
        while depth and stop < len(text):
            depth += {"{": 1, "}": -1}.get(text[stop], 0)
            stop += 1
        yield m.group(1), split(params), clauses, text[b.end() : stop - 1]


def split(words):
    """Parts between the commas that stand in no bracket."""
    parts, depth, part = [], 0, ""
    for ch in words:
        depth += {"(": 1, "[": 1, "<": 1, "{": 1, ")": -1, "]": -1, ">": -1, "}": -1}.get(ch, 0)
        if ch == "," and depth == 0:
            parts.append(" ".join(part.split()))
            part = ""
        else:
            part += ch
    if part.strip():
        parts.append(" ".join(part.split()))
    return [p for p in parts if p]


def enums(text):
    for m in re.finditer(r"\benum (\w+)(?:<[^>]*>)?\s*\{(.*?)\n\s*\}\n", text + "\n", re.S):
        yield m.group(1), split(m.group(2))


def point_1(files):
    """1. An enum of two variants of which one is empty, or one that has a variant of a Refusal alone or more variants than two with an empty one
    that ends or fails; a named constant of a number that stands for a kind or a refusal; a bool, or a number that is 0 or 1, in a struct or variant
    beside values, or as a parameter beside them."""
    for name, text in files:
        for enum, variants in enums(text):
            empty = [v for v in variants if re.fullmatch(r"\w+", v)]
            refusals = [v for v in variants if re.fullmatch(r"\w+\(Refusal\)", v)]
            if refusals or (len(variants) == 2 and len(empty) == 1):
                yield name, f"enum {enum}"
            elif any(re.fullmatch(r"(Nothing|Nowhere|End|Complete|None|Damaged|Unjoinable|No\w+)", v) for v in empty):
                yield name, f"enum {enum} (three or more)"
        if name.endswith("refusals.rt"):
            for m in re.finditer(r"pub const (\w+): usize", text):
                yield name, f"number for a refusal: {m.group(1)}"
        for m in re.finditer(r"const (NONE|LIVE|FREE|OTHER|MINUS_ONE)\b", text):
            yield name, f"number for a kind or for nothing: {m.group(1)}"
        for m in re.finditer(r"\b(\w+): bool\b", text):
            yield name, f"flag {m.group(1)}"
        for m in re.finditer(r"\b(end|what): (usize|u64)\b(?=[^}]*\{)", text):
            if m.group(1) == "what" or "write_end" in text:
                yield name, f"number for a kind: {m.group(1)}"


TYPES = r"u8|u16|u32|u64|usize|i32|i64|bool"


def skeleton(body):
    """A body with names and literals taken out: what functions that differ only in a type, a name or a constant share."""
    s = re.sub(r"b?'(?:\\.|[^'])'|b?\"[^\"]*\"|\b\d[\w.]*", "#", body)
    s = re.sub(r"\b(?!let|mut|if|else|match|while|for|in|loop|return|break|true|false|as|self\b)[A-Za-z_]\w*(?:::\w+)*", "@", s)
    return " ".join(s.split())


def point_2(files):
    """2. Functions of 40 signs or more whose bodies are the same but for names, types and constants; enums and structs of the same shape."""
    bodies = collections.defaultdict(list)
    types = collections.defaultdict(list)
    for name, text in files:
        for fn, params, clauses, body in functions(text):
            s = skeleton(body)
            if len(s) >= 40:
                bodies[s].append((name, fn))
        for enum, variants in enums(text):
            types["; ".join(re.sub(r"^\w+", "@", v) for v in variants)].append((name, f"enum {enum}"))
        for m in re.finditer(r"\bstruct (\w+)(?:<[^>]*>)? \{(.*?)\n\}", text, re.S):
            fields = "; ".join(sorted(re.sub(r"^pub(?:\(crate\))? ", "", f) for f in split(m.group(2))))
            types["struct " + fields].append((name, f"struct {m.group(1)}"))
    for group in [*bodies.values(), *types.values()]:
        if len(group) > 1:
            for name, what in group:
                others = ", ".join(f"{n}:{w}" for n, w in group if (n, w) != (name, what))
                yield name, f"{what} ~ {others}"


def point_3(files):
    """3. Each while and loop."""
    for name, text in files:
        for m in re.finditer(r"^\s*(while|loop)\b[^\n]*", text, re.M):
            yield name, m.group(0).strip()


def point_4(files):
    """4. A comparison of two newtypes' insides, own tests and conversions of the language's (both, smaller, larger, same_..), chains of returned
    tests, and functions that print one type."""
    for name, text in files:
        for m in re.finditer(r"\b\w+(?:\.\w+)*\.0 [=!]= \w+(?:\.\w+)*\.0\b", text):
            yield name, f"equality: {m.group(0)}"
        for m in re.finditer(r"\bfn (both|smaller|larger|same_\w+|saturated|fit|size_of|is_place|is_found|starts_with)\b", text):
            yield name, f"by hand: {m.group(1)}"
        for m in re.finditer(r"\bfn (from_\w+|numbered|\w*_of_number|size_of|code_of|as_\w+)\(", text):
            yield name, f"conversion: {m.group(1)}"
        for fn, params, clauses, body in functions(text):
            if len(re.findall(r"return (?:true|false);", body)) >= 1 and re.search(r"\bif\b", body) and not re.search(r"\b(while|loop|for|match)\b", body):
                yield name, f"chain of tests: {fn}"
            if any("impl Print" in p for p in params) and re.match(r"(show|given|smushing|layout|says|required|optional|refused|counted|signed|named|quoted|heading|text|number|entry|entries|tell|put)", fn):
                yield name, f"printing: {fn}"


def point_5(files):
    """5. A requires clause, told apart by its words without names of variables, that stands in three functions or more; and functions of more than
    ten parameters, or of three or more that go together through three functions or more (named here: lists of a font, lists of commands, a
    slice with its starts and view, a slice with its place)."""
    clauses = collections.defaultdict(list)
    files = list(files)
    for name, text in files:
        for fn, params, found, body in functions(text):
            for kind, c in found:
                if kind == "requires":
                    head = re.sub(r"\b[a-z_]\w*(?:\.(?:old|now|new|\w+))+|\b[a-z]\b", "@", c)
                    clauses[head].append((name, fn))
    for head, places in clauses.items():
        if len(places) >= 3:
            for name, fn in places:
                yield name, f"{fn}: {head[:90]}"
    together = [("codes", "starts", "widths"), ("stages", "firsts", "lasts", "news"), ("a_starts", "a"), ("upper", "u"), ("s", "starts"), ("left", "n"), ("mode", "height", "font")]
    for name, text in files:
        for fn, params, found, body in functions(text):
            names = [p.split(":")[0].replace("mut ", "").strip() for p in params]
            if len(names) > 10:
                yield name, f"{fn}: {len(names)} parameters"
            for group in together:
                if all(g in names for g in group):
                    yield name, f"{fn}: {' '.join(group)} together"


def point_6(files):
    """6. A function or struct that takes parallel lists or a list with its count, an array with a count beside it, a list searched by hand."""
    for name, text in files:
        for fn, params, found, body in functions(text):
            names = [p.split(":")[0].replace("mut ", "").strip() for p in params]
            lists = [p for p in params if re.search(r": &(?:'\w+ )?(?:mut )?\[(?:i32|usize)\]", p)]
            if len(lists) >= 2:
                yield name, f"{fn}: {len(lists)} parallel lists"
            if re.search(r"\bfind|look_up|\bhas_", fn) and re.search(r"\b(while|loop)\b", body):
                yield name, f"{fn}: searches by hand"
            arrays = re.findall(r"let mut (\w+) = \[0(?:usize|i32)?; [^\]]+\];", body)
            if len(arrays) >= 2:
                yield name, f"{fn}: {len(arrays)} parallel arrays"
        for m in re.finditer(r"\bstruct (\w+)[^{;]*\{(.*?)\n\}", text, re.S):
            if re.search(r"\[\w+; ", m.group(2)) and re.search(r"\b(count|len|length|size): usize", m.group(2)):
                yield name, f"struct {m.group(1)}: an array with its length"


def point_7(files):
    """7. An enum that says which test or step to run, and the functions that switch on it."""
    for name, text in files:
        for m in re.finditer(r"\benum (PairTest|Class|Form|Wanted|Origin|Step)\b", text):
            yield name, f"enum {m.group(1)}"
        for fn, params, found, body in functions(text):
            if any(re.search(r": (PairTest|Class|Form|Wanted|Origin)$", p) for p in params):
                yield name, f"{fn} takes one"


def point_8(tree):
    """8. Answers that stand in proofs/, and lemma files beside them."""
    for path in sorted(glob.glob(f"{tree}/crates/*/proofs/**/*.antt", recursive=True)):
        name = os.path.relpath(path, f"{tree}/crates").replace("/proofs/", "/")
        with open(path, encoding="utf-8") as f:
            text = f.read()
        if path.endswith("/Answers.antt"):
            for m in re.finditer(r"^pub ([^ \n]+) : goal\.", text, re.M):
                yield name, f"answer {m.group(1)}"


def main():
    words = [w for w in sys.argv[1:] if w != "-v"]
    tree = words[0] if words else os.path.dirname(os.path.dirname(os.path.abspath(__file__)))
    files = list(sources(tree))
    for number, point in enumerate((point_1, point_2, point_3, point_4, point_5, point_6, point_7, point_8), 1):
        found = list(point(tree if number == 8 else files))
        crates = collections.Counter(name.split("/")[0] for name, _ in found)
        print(f"point {number}: {len(found)} places in {len(crates)} crates")
        if "-v" in sys.argv:
            for name, what in found:
                print(f"  {name}: {what}")


main()
