#!/usr/bin/env python3
"""Spells the repository's own definitions and lemmas as today's Rattle does: words in snake case.

usage: python3 tools/respell.py [--check]      at the top of the repository, once, after port.py

A name with capitals inside, as maxText, and a name with a dash, as row-only, become max_text and row_only.
A dash stays where it joins the names of two definitions, as in length-values. Types, facts and modules keep
their capitals, and so do functions of src/, exported C names, strings, inputs and outputs.
A lemma that would get a definition's name gets _lem behind it. --check writes nothing and lists what would
change. A second run changes nothing.
"""

import os
import re
import sys

ROOT = os.path.dirname(os.path.dirname(os.path.abspath(__file__)))
TOKEN = re.compile(r"[^\s(){}\[\].;,@\"«»`|]+")
DECLARED = re.compile(r"(?m)^ *(?:(?:abbrev|unfoldable|pub) )*([^\s(){}\[\].;,@\"«»:]+)(?: \{[^{}\n]*\})* : ?(.*)$")
# Lemmas that have the new name of a definition already, and stand with it in a file: where each is spoken of.
MET = {
    "after_first": "checking",
    "has_width": "rows request font",
    "no_room": "pack",
    "not_end": "lines header rows chars commands font",
    "not_negative": "header",
    "place_in": "heads pack letters source capi packdrawing",
    "says_so": "commands",
}
# Names of the library that lemmas here have too: they stay where they are imported.
IMPORTED = {"not-true": "borrow.Author.Tests", "and-false": "mathlib.Core.Bool"}
# Definitions whose new spelling would be the name of a field of src/.
FIELDS = {
    "fullLayout": "full_layout_of",
    "oldLayout": "old_layout_of",
    "printDirection": "print_direction_of",
    "maxLength": "max_length_limit",
    "subCharacter": "sub_character_of",
}
# Definitions of the library that lemmas here speak of.
LIBRARY = set("length take drop map append replicate set get_or zero suc add sub mul pow min max filter nil cons".split())


def antt_files():
    for folder, dirs, files in os.walk(os.path.join(ROOT, "crates")):
        dirs[:] = sorted(d for d in dirs if d != "out")
        for f in sorted(files):
            if f.endswith(".antt"):
                yield os.path.join(folder, f)


def other_files():
    for top in ("crates", "docs", "README.md"):
        path = os.path.join(ROOT, top)
        if os.path.isfile(path):
            yield path
        for folder, dirs, files in os.walk(path):
            dirs[:] = sorted(d for d in dirs if d not in ("out", "unlanded", "landings"))
            for f in sorted(files):
                if f.endswith((".rt", ".edit", ".md")):
                    yield os.path.join(folder, f)


def read(path):
    with open(path, encoding="utf-8") as f:
        return f.read()


def camel(name):
    return re.fullmatch(r"[a-z][a-z0-9]*(?:[A-Z][A-Za-z0-9]*)+[₀-₉']*", name) is not None


def snake(word):
    word = re.sub(r"(?<=[a-z0-9])([A-Z]+)(?=$|[^a-z])", lambda m: "_" + m[1].lower(), word)
    return re.sub(r"(?<=[a-z0-9])([A-Z])", lambda m: "_" + m[1].lower(), word)


def declared():
    """The names that the texts declare: those of specs/ and of lemma files, and the types of each."""
    names, words = {}, set()
    for path in antt_files():
        proof = path.endswith("Proof.antt")
        for name, kind in DECLARED.findall(read(path)):
            words.add(name)
            if proof and (kind.startswith("tie.") or name.endswith("-spec")):
                continue
            names.setdefault(name, set()).add(path)
    return names, words


def spelled(name, definitions):
    """The new spelling of one name."""
    if not re.search(r"[-A-Z]", name) or not re.match(r"[a-z]", name):
        return name
    parts = [snake(p) if camel(p) else p for p in name.split("-")]
    out = parts[0]
    for i, p in enumerate(parts[1:], 1):
        left, right = "-".join(name.split("-")[:i]), "-".join(name.split("-")[i:])
        joins = left in definitions and right in definitions or p[:1].isupper() or parts[i - 1][:1].isupper()
        out += ("-" if joins else "_") + p
    return out


def main():
    names, words = declared()
    specs = {n for n, ps in names.items() if any("/specs/" in p for p in ps)}
    definitions = specs | LIBRARY
    table = {}
    for name in sorted(names):
        new = FIELDS.get(name) or spelled(name, definitions)
        if new != name:
            table[name] = new
    taken = {}
    for name in sorted(words | set(names)):
        taken.setdefault(table.get(name, name), []).append(name)
    for new, olds in taken.items():
        if len(olds) > 1:
            # The definition gets the plain name, and each lemma _lem.
            olds.sort(key=lambda o: (o not in specs, o not in table, o))
            for o in olds[1:]:
                if o in table:
                    table[o] = new + "_lem"
                print(f"together: {olds[0]} and {o}: {o} becomes {table.get(o, o)}")
    if "--check" in sys.argv:
        for o, n in sorted(table.items()):
            print(o, "->", n)
        return
    for path in list(antt_files()):
        text = read(path)
        crate = os.path.relpath(path, os.path.join(ROOT, "crates")).split(os.sep)[0]
        here = [n for n, crates in MET.items() if crate in crates.split()]
        new = re.sub("outcomes[.]no_room", "outcomes.no_room_lem", text)
        for n in here:
            new = re.sub(rf"(?<![\w.-]){n}(?![\w-])", n + "_lem", new)
        stays = [n for n, m in IMPORTED.items() if re.search(rf"{m}[.][{{][^}}]*(?<![\w-]){n}(?![\w-])", text)]
        new = TOKEN.sub(lambda m: m[0] if m[0] in stays else turned(m[0], table), new)
        if new != text:
            with open(path, "w", encoding="utf-8") as f:
                f.write(new)
    plain = re.compile(r'"(?:[^"\\]|\\.)*"|' + TOKEN.pattern)
    for path in other_files():
        text = read(path)
        if path.endswith(".md"):
            new = re.sub(r"`[^`\n]*`", lambda m: TOKEN.sub(lambda t: turned(t[0], table), m[0]), text)
        else:
            new = plain.sub(lambda m: m[0] if m[0][0] == '"' else turned(m[0], table), text)
        if new != text:
            with open(path, "w", encoding="utf-8") as f:
                f.write(new)


def turned(token, table):
    if token in table:
        return table[token]
    end = re.fullmatch(r"(.*?)([₀-₉'?!:]+)", token)
    if end and end[1] in table:
        return table[end[1]] + end[2]
    return token


main()
