#!/usr/bin/env python3
"""tools/respell.py: brings the repository's own definitions, lemmas and fields to the spelling of today's Rattle, words in snake case.

Run once at the top, straight after the toolchain's own script for an older repository (docs/PORT.md says where). It turns files of specs/ and
proofs/, and clauses and imports in src/; functions of src/, exported names, strings, inputs and outputs stay. A crate that has the name of one
of the toolchain's libraries gets another. What it turned is printed, old name and new.
"""
import collections
import glob
import os
import re
import sys

# A library of the toolchain has this name.
CRATES = {"md5": "rfc1321"}
# Names that would fall together with another in their new spelling.
APART = {
    "answer-in": "answer_in_lem",
    "answer-of": "answer_of_lem",
    "groupAt": "group_id_at",
    "in-range": "in_range_lem",
    "noPlace": "no_place_of",
    "size-at": "size_at_lem",
}
# What a proof file of a function has by the toolchain's wish.
MADE = re.compile(r"^(invariant|decreases)-")

SIGNATURE = re.compile(r"^ *(?:\| *)?(?:(?:abbrev|unfoldable|pub|data|record) )*([^\s:{}()\[\];,.|↦λ∷=]+)(?: *[({][^\n]*?[)}])* : ", re.M)
WORD = re.compile(r"[^\s.(){}\[\];,|«»`\"]+")
IMPORT = re.compile(r"\buse ([^\s{};]+)\.\{([^}]*)\}")


def snake(name):
    return re.sub(r"(?<=[a-z0-9])([A-Z])", lambda m: "_" + m.group(1).lower(), name).replace("-", "_")


def files(pattern):
    return [p for p in sorted(glob.glob(pattern, recursive=True)) if "/out/" not in p]


def read(path):
    with open(path, encoding="utf-8") as f:
        return f.read()


def own_names():
    found = collections.defaultdict(set)
    for p in files("crates/*/specs/**/*.antt") + files("crates/*/proofs/**/*.antt"):
        if os.path.basename(p) != "Proof.antt":
            for m in SIGNATURE.finditer(read(p)):
                found[m.group(1)].add(p)
    return found


def of_libraries(text, crates):
    """The imports from the toolchain's libraries, and the names that a file has by them."""
    lines, taken = [], set()
    for m in IMPORT.finditer(text):
        parts = m.group(1).split(".")
        if parts[0] != "Rattle" or parts[1] not in crates:
            lines.append(m.span())
            taken.update(item.split()[-1] for item in m.group(2).split(",") if item.split())
    return lines, taken


def main():
    if not os.path.isdir("crates"):
        sys.exit("tools/respell.py: run it at the top of the repository")
    crates = {c for c in os.listdir("crates")}
    found = own_names()
    turned = {}
    for name in sorted(found):
        odd = "-" in name.strip("-") or re.search(r"[a-z0-9][A-Z]", name)
        if odd and not name[0].isupper() and not MADE.match(name):
            turned[name] = APART.get(name, snake(name))
    for name, new in turned.items():
        if new in found:
            print(f"look: {name} and {new}: {sorted(found[name])[0]}, {sorted(found[new])[0]}")
    # A lemma that would have its definition's name gets _lem.
    counted = collections.Counter(turned.values())
    for name, new in list(turned.items()):
        if counted[new] > 1 and "-" in name:
            turned[name] = new + "_lem"
    counted = collections.Counter(turned.values())
    for name, new in turned.items():
        if counted[new] > 1 or (new.endswith("_lem") and new in found):
            print(f"look: {name} is not alone in becoming {new}: {sorted(found[name])[0]}")

    def respelled(text, is_code):
        lines, kept = of_libraries(text, crates)

        def of_word(m):
            word = m.group(0)
            if word in turned and word not in kept and not any(a <= m.start() < b for a, b in lines):
                return turned[word]
            return word

        text = WORD.sub(of_word, text)
        for old, new in CRATES.items():
            text = re.sub(rf"\bRattle\.{old}\.", f"Rattle.{new}.", text)
            if is_code:
                text = re.sub(rf"\buse {old}::", f"use {new}::", text)
                text = re.sub(rf"(?<![\w:.]){old}::", f"{new}::", text)
            else:
                text = re.sub(rf"#{old}·", f"#{new}·", text)
                text = re.sub(rf"(?<![\w:.]){old}::", f"{new}::", text)
        return text

    for p in files("crates/**/*.antt") + files("crates/**/*.rt"):
        old = read(p)
        new = respelled(old, p.endswith(".rt"))
        # the proof of a function f is f_spec
        if os.path.basename(p) == "Proof.antt":
            new = re.sub(r"(?<![\w.-])([a-z0-9]+(?:-[a-z0-9]+)*)-spec(?![\w-])", lambda m: m.group(0).replace("-", "_"), new)
        if new != old:
            with open(p, "w", encoding="utf-8") as f:
                f.write(new)
    lines = read("crates.txt")
    for old, new in CRATES.items():
        if os.path.isdir(f"crates/{old}"):
            os.rename(f"crates/{old}", f"crates/{new}")
        lines = "".join(l if l.startswith("#") else re.sub(rf"(?<!\w){old}(?!\w)", new, l) for l in lines.splitlines(keepends=True))
    with open("crates.txt", "w", encoding="utf-8") as f:
        f.write(lines)
    for name in sorted(turned):
        print(f"{name}\t{turned[name]}")


main()
