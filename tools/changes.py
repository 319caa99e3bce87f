#!/usr/bin/env python3
"""changes.py: what a caller and a reader of specs/ finds changed since a commit, old and new side by side, for docs/DESIGN-PASS.md.

usage: tools/changes.py COMMIT > FILE

It lists, crate by crate: public functions of src/ whose parameters, result or clauses changed, came or went; public structs, enums and constants; definitions
of specs/; and of the theorems in proofs/ those that README.md or docs/ name. Comments, imports and line breaks are left out.
"""
import glob
import os
import re
import subprocess
import sys
import tempfile

TOP = os.path.dirname(os.path.dirname(os.path.abspath(__file__)))


def read(path):
    with open(path, encoding="utf-8") as f:
        return f.read()


def line(text):
    return " ".join(text.split())


def bracket(text, at, ends):
    depth = 1
    while depth:
        depth += {ends[0]: 1, ends[1]: -1}.get(text[at], 0)
        at += 1
    return at


def of_source(text):
    """Each public function, struct, enum and constant of a source file: its name, and its text without body."""
    text = re.sub(r"//[^\n]*", "", text)
    kind = ""
    for m in re.finditer(r"^impl(?:<[^>\n]*>)? ([^{\n]+?) \{|^pub (?:struct|enum) (\w+)[^;{]*(?:;|\{)|^\s*pub (?:unsafe )?(?:extern \"C\" )?fn (\w+)|^\s*pub const (\w+): [^;]*;|^\}", text, re.M):
        if m.group(1):
            kind = m.group(1).split(" for ")[-1] + "::"
        elif m.group(2):
            end = m.end() if text[m.end() - 1] == ";" else bracket(text, m.end(), "{}")
            yield m.group(2), line(text[m.start() : end])
        elif m.group(3):
            end = bracket(text, text.index("(", m.end()) + 1, "()")
            end = re.compile(r".*?(?=\s*(?:\{|requires\b|ensures\b|where\b))", re.S).match(text, end).end()
            while re.compile(r"\s*(requires|ensures)\b").match(text, end):
                end = bracket(text, text.index("{", end) + 1, "{}")
            yield kind + m.group(3), line(text[m.start() : end])
        elif m.group(4):
            yield kind + m.group(4), line(m.group(0))
        elif m.group(0) == "}":
            kind = ""


def of_specs(text):
    """Each definition of a file of specs/: its name, and its text."""
    text = re.sub(r"^\s*--[^\n]*", "", text, flags=re.M)
    for part in re.split(r"\n(?=(?:abbrev|unfoldable|opaque|pub|data|record)\b)", text):
        m = re.match(r"(?:abbrev |unfoldable |opaque )*(?:pub )?(?:data |record )?([^\s(:]+)", part)
        if m and not part.startswith(("use ", "pub use", "pub mod")) and ":" in part:
            yield m.group(1), line(part)


def of_proofs(text):
    """Each theorem of a file of proofs/: its name, and its statement."""
    for m in re.finditer(r"^(\s*)pub ([^\s:]+) : ([^\n]*(?:\n\1\s+[^\n]*)*)", text, re.M):
        yield m.group(2), line(m.group(3).split("\n" + m.group(1) + m.group(2) + " ")[0])


def found(top, pattern, reader):
    """All of one kind, by crate and name."""
    them = {}
    for path in sorted(glob.glob(f"{top}/crates/*/{pattern}", recursive=True)):
        if os.path.basename(path) in ("Answers.antt", "Invariants.antt") and os.path.basename(os.path.dirname(path)) != "proofs":
            continue  # the proof of one function
        crate = os.path.relpath(path, f"{top}/crates").split("/")[0]
        for name, text in reader(read(path)):
            them.setdefault((crate, name), []).append(text)
    return them


def told(title, old, new, wanted=lambda name: True):
    print(f"\n### {title}\n\n```text")
    for key in sorted({*old, *new}):
        a, b = old.get(key, []), new.get(key, [])
        if a == b or not wanted(key[1]):
            continue
        print(f"{key[0]} {key[1]}")
        for text in a:
            if text not in b:
                print(f"  - {text}")
        for text in b:
            if text not in a:
                print(f"  + {text}")
    print("```")


def main():
    with tempfile.TemporaryDirectory() as base:
        tree = subprocess.run(["git", "-C", TOP, "archive", sys.argv[1]], stdout=subprocess.PIPE, check=True).stdout
        subprocess.run(["tar", "x", "-C", base], input=tree, check=True)
        papers = " ".join(read(p) for p in [f"{base}/README.md", *glob.glob(f"{base}/docs/**/*.md", recursive=True)])
        named = set(re.split(r"[^\w'′-]+", " ".join(re.findall(r"`([^`\n]+)`", papers))))
        told("Public functions, structs, enums and constants", found(base, "src/**/*.rt", of_source), found(TOP, "src/**/*.rt", of_source))
        told("Definitions", found(base, "specs/**/*.antt", of_specs), found(TOP, "specs/**/*.antt", of_specs))
        told("Theorems that README or docs name", found(base, "proofs/**/*.antt", of_proofs), found(TOP, "proofs/**/*.antt", of_proofs), named.__contains__)


main()
