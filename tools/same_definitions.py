#!/usr/bin/env python3
"""Compares the definitions of two trees word by word, but for what the port respelled.

usage: tools/same_definitions.py OLD [NEW]     OLD is a folder with the tree before the port; NEW is the tree after it, this one if left out

Each file of OLD's specs/ is set beside that of NEW without its imports and comments. Names are compared in snake case; parentheses, guillemets
and the place of a dash or a `_lem` in a name are left out. What still differs is printed, with the three words before and behind it, the
spelling of some operators too. Not seen: parentheses, imports, clauses and proofs. Files of crate slices are left out: docs/PORT.md has them.
"""

import difflib
import glob
import importlib.util
import os
import re
import sys

HERE = os.path.dirname(os.path.realpath(__file__))
WORD = re.compile(r'"(?:[^"\\\n]|\\.)*"|[A-Za-zℕℤα-ωΑ-Ω_][\w\'′₀-₉ˢ-]*|[0-9][0-9_a-fA-FxX]*|[^\sA-Za-z0-9]')
SAME = {"get_d": "get_or", "slice_index_or": "get_or", "eqb": "==", "ltb": "nat_lt", "leb": "nat_le"}


def snake():
    at = importlib.util.spec_from_file_location("snake_names", os.path.join(HERE, "snake_names.py"))
    module = importlib.util.module_from_spec(at)
    at.loader.exec_module(module)
    return module.in_snake_case


def words(text, in_snake_case, is_old):
    text = "\n".join(l for l in text.split("\n") if not re.match(r"\s*(--|use |pub use |//)", l))
    text = re.sub(r"\s--\s.*", "", text)
    if is_old:
        text = text.replace("′", "'").replace("·specs.specs", ".specs")
        text = re.sub(r"\s+\.(?=[A-Za-z0-9])", ".", text)
    for _ in range(3):
        text = re.sub(r"(?<![\w.])\(([A-Za-z_][\w'₀-₉-]*(?:\.[A-Za-z0-9_][\w'-]*)+)\)", r"\1", text)
    found = []
    for m in WORD.finditer(text):
        w = m[0]
        if re.match(r"[A-Za-z_]", w):
            w = w if re.match(r"[A-Z]", w) else in_snake_case(w)
            w = re.sub(r"_lem$", "", w.replace("-", "_"))
        found.append(w)
    return [SAME.get(w, w) for w in found if w not in "()«»◌"]


def read(path):
    with open(path, encoding="utf-8") as f:
        return f.read()


def main(argv):
    if not argv or argv[0] in ("-h", "--help"):
        print(__doc__)
        return 2
    old, new = argv[0], argv[1] if len(argv) > 1 else os.path.dirname(HERE)
    turn = snake()
    count = 0
    for path in sorted(glob.glob(old + "/crates/*/specs/**/*.antt", recursive=True)):
        name = os.path.relpath(path, old)
        if "/slices/" in name:
            continue
        other = os.path.join(new, name.replace("crates/hex/", "crates/hexadecimal/"))
        if not os.path.exists(other):
            print("gone:", name)
            count += 1
            continue
        a, b = words(read(path), turn, True), words(read(other), turn, False)
        for what, i1, i2, j1, j2 in difflib.SequenceMatcher(None, a, b, autojunk=False).get_opcodes():
            if what != "equal":
                print(f"{name}: {' '.join(a[max(0, i1 - 3):i2 + 3])}  ==>  {' '.join(b[max(0, j1 - 3):j2 + 3])}")
                count += 1
    print(count, "places differ")
    return 0


if __name__ == "__main__":
    raise SystemExit(main(sys.argv[1:]))
