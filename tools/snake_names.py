#!/usr/bin/env python3
"""Spells the definitions and lemmas of this repository in snake case: 'phonesFor' as 'phones_for', 'take-map' as 'take_map'.

usage: tools/snake_names.py [--check]      at the top, once, behind the script that turned the rest of the spelling

What turns: every name that a file of specs/, or one right in proofs/, declares (definitions, lemmas, constructors, fields), wherever these
files, the files of proofs/F/, the clauses and ghost items of src/, and the must-fail edits have it. Names of Rust, of the library, of types
and of modules stay; so do the names that the check makes for the goals of a function. The crates of CRATES get another name. OTHER has the names that need another word, since the
plain one would meet a second name. --check writes nothing and shows the names that would fall together.
"""

import collections
import glob
import os
import re
import sys

NAME = r"[^\s(){}.;,@\"«»\[\]`|:]+"
TOKEN = re.compile(rf"{NAME}")
DECLARED = re.compile(r"(?m)^ *(?:(?:pub|abbrev|unfoldable|opaque|rec|infix\S*) )*([a-zℕ]\S*(?: [a-z]\S*)*)(?: \{[^{}\n]*\})*(?: \([^()\n]*\))* :(?=\s)")
STRING = re.compile(r'"(?:[^"\\\n]|\\.)*"')
# names that get another word than the plain spelling; a lemma that would meet the name of a definition gets '_lem'
OTHER = {"carHasValidated": "car_has_some_validated"}
CRATES = {"hex": "hexadecimal"}
# lemmas that have the plain spelling of a definition already, with the crates in which they stand
LEMMAS = {
    "at_places": ["range"],
    "by_code": ["only_validated"],
    "fields_read": ["phone_fields", "decode_record", "saved_record"],
    "has_one": ["waiting_list"],
    "no_code": ["draw", "two_runs"],
    "out_of_range": ["fair_turns"],
    "owner_of": ["fair_turns"],
    "too_long": ["stays_in_range"],
}


def in_snake_case(name):
    if name in OTHER:
        return OTHER[name]
    words = re.sub(r"(?<=[a-z0-9])[A-Z]+(?![a-z])", lambda m: "_" + m[0].lower(), name)
    words = re.sub(r"(?<=[a-z0-9])[A-Z]", lambda m: "_" + m[0].lower(), words)
    words = re.sub(r"(?<=[\w'])-(?=[\w])", "_", words)
    return words


def read(path):
    with open(path, encoding="utf-8") as f:
        return f.read()


def code(text):
    return "\n".join(re.sub(r"(?:^|(?<=\s))--.*$", "", l) for l in text.split("\n"))


def lemma_files():
    return sorted(glob.glob("crates/*/specs/**/*.antt", recursive=True)) + sorted(glob.glob("crates/*/proofs/*.antt"))


def proof_files():
    return [p for p in sorted(glob.glob("crates/*/proofs/*/**/*.antt", recursive=True)) + sorted(glob.glob("crates/*/proofs/*/*.antt"))]


def table():
    names = set()
    for p in lemma_files():
        for m in DECLARED.finditer(code(read(p))):
            names.update(n for n in m[1].split(" ") if n != in_snake_case(n))
    rows = {n: in_snake_case(n) for n in names}
    declared = {n for p in lemma_files() for m in DECLARED.finditer(code(read(p))) for n in m[1].split(" ")}
    camel = {s for n, s in rows.items() if "-" not in n}
    for n, s in rows.items():
        if "-" in n and (s in camel or s in declared):
            rows[n] = s + "_lem"
    return rows


CAMEL = re.compile(r"[a-z][a-z0-9]*(?:[A-Z][a-z0-9]*)+'*")
FIELD = re.compile(r"(?m)^ +pub (\S+)(?: \{[^{}\n]*\})* :(?=\s)")
USE = re.compile(r"\buse ([^\s;{]+?)(?:\.\{([^}]*)\}|(?: as ([^\s;]+)))?(?=[;\s])")


def of_libraries(text, own):
    """The names that a file has from libraries: those that it imports, and the heads of modules that it names."""
    names, heads = set(), set()
    for m in USE.finditer(text):
        steps = m[1].split(".")
        if steps[0] == "Rattle" and len(steps) > 1 and steps[1] in own and "declared" not in steps:
            continue
        if m[2] is not None:
            for it in m[2].split(","):
                names.add(it.split(" as ")[-1].strip())
        heads.add(m[3] if m[3] else steps[-1])
    return names, heads


# heads behind which a name is one that the check makes
MADE = re.compile(r"(?:^|[^\w])(?:tie|goal|goals|rules)\.$")


def turn(text, rows, fields, kept=((), ())):
    out, at = [], 0
    quoted = [m.span() for m in STRING.finditer(text)]
    for m in TOKEN.finditer(text):
        t = m[0]
        if t in rows and not any(a < m.start() < b for a, b in quoted):
            before = text[max(0, m.start() - 12):m.start()]
            head = re.search(r"([\w'-]+)\.$", text[max(0, m.start() - 60):m.start()])
            if MADE.search(before) or t in kept[0] or head and head[1] in kept[1]:
                continue
            if "-" in t and before.endswith(".") and not re.search(r"(?:[A-Z][\w']*|specs|proofs)\.$", before) and t not in fields:
                continue
            out.append(text[at:m.start()])
            out.append(rows[t])
            at = m.end()
    out.append(text[at:])
    return "".join(out)


def rename_crates():
    """A crate that has the name of a library of the kit gets another."""
    for old, new in CRATES.items():
        if not os.path.isdir(f"crates/{old}"):
            continue
        for p in sorted(glob.glob("crates/*/src/**/*.rt", recursive=True)) + sorted(glob.glob("crates/*/**/*.antt", recursive=True)) + sorted(glob.glob("crates/*/must-fail/*.edit")) + ["crates.txt"]:
            was = read(p)
            now = re.sub(rf"(?<![\w:.]){old}::", f"{new}::", was)
            now = re.sub(rf"\bRattle\.{old}\.", f"Rattle.{new}.", now)
            if p == "crates.txt":
                now = "\n".join(l if l.startswith("#") else re.sub(rf"(?<!\S){old}(?=[\s:]|$)", new, l) for l in was.split("\n"))
            if now != was:
                with open(p, "w", encoding="utf-8") as f:
                    f.write(now)
        os.rename(f"crates/{old}", f"crates/{new}")


def main(argv):
    rows = table()
    # what may fall together
    fields = {m[1] for p in glob.glob("crates/*/src/**/*.rt", recursive=True) for m in re.finditer(r"(?m)^    pub (\w+):", read(p))}
    declared = {n for p in lemma_files() for m in DECLARED.finditer(code(read(p))) for n in m[1].split(" ")}
    met = collections.defaultdict(set)
    for n, s in rows.items():
        met[s].add(n)
    words = collections.defaultdict(set)
    for p in lemma_files() + proof_files():
        for m in TOKEN.finditer(code(read(p))):
            words[m[0]].add(p)
    for p in glob.glob("crates/*/src/**/*.rt", recursive=True):
        for l in read(p).split("\n"):
            if re.search(r"\b(?:requires|ensures|ghost)\b", l):
                for m in TOKEN.finditer(l):
                    words[m[0]].add(p)
    shown = 0
    for s in sorted(met):
        if len(met[s]) > 1:
            print("meet:", s, sorted(met[s]))
            shown += 1
        here = {q for n in met[s] for q in words.get(n, ())}
        if s in fields:
            print("field:", s, sorted(met[s]))
            shown += 1
        if s in declared:
            print("declared:", s, sorted(met[s]))
            shown += 1
    print(len(rows), "names turn;", shown, "to look at")
    if "--check" in argv:
        return 0
    rename_crates()
    own = {c for c in os.listdir("crates")}
    turned = {n for n in rows}
    names_of_fields = {m[1] for p in lemma_files() for m in FIELD.finditer(code(read(p)))}
    for p in lemma_files() + sorted(set(proof_files())) + sorted(glob.glob("crates/*/src/**/*.rt", recursive=True)) + sorted(glob.glob("crates/*/must-fail/*.edit")):
        old = read(p)
        lemmas = {n: n + "_lem" for n, where in LEMMAS.items() if p.split("/")[1] in where and "/proofs/" in p}
        if lemmas:
            here = turn(old, lemmas, names_of_fields)
            if here != old:
                with open(p, "w", encoding="utf-8") as f:
                    f.write(here)
                old = here
        kept = of_libraries(old, own)
        r = dict(rows)
        if p.endswith(".antt"):
            # names of variables
            here = set(TOKEN.findall(old))
            r.update({t: in_snake_case(t) for t in here if CAMEL.fullmatch(t) and t not in rows and in_snake_case(t) not in here})
        if p.endswith(".rt"):
            new = "\n".join(turn(l, r if re.search(r"^ *(?:ghost use|requires|ensures)\b|^ *(?:[^/].*)?[≡∷×→]", l) else {n: s for n, s in r.items() if "-" not in n}, names_of_fields, kept) for l in old.split("\n"))
        else:
            new = turn(old, r, names_of_fields, kept)
        if new != old:
            with open(p, "w", encoding="utf-8") as f:
                f.write(new)
    return 0


if __name__ == "__main__":
    raise SystemExit(main(sys.argv[1:]))
