#!/usr/bin/env python3
"""Brings the names of definitions, lemmas, fields and constructors to snake case: run once, at the top, right after the kit's port.py.

A name that starts with a small letter has its humps and dashes turned to underscores: labelFault and label-fault become
label_fault. Types, facts and modules keep their capitals. Only names that this repository's specs/ and proofs/*.antt define are
turned; a name that a file brings in from a library keeps its spelling in that file, and so do the functions of src/ and the steps of a proof.
It stops where two names would fall together.
"""
import collections
import glob
import re
import sys

NAME = r"[^\s(){}\[\],;.]+"
DEFINES = re.compile(r"^\s*(?:(?:pub|abbrev|unfoldable)\s+)*(" + NAME + r")\s+:(?=\s)")
IMPORTS = re.compile(r"^\s*(?:pub |ghost )*use (\S+?)\.\{(.*)\}")
# Lemmas that the kit's script left with the name that their function gets here, and names of calls that the functions of rules have.
CHOSEN = {n: n + "_lem" for n in ("part_bytes", "held_one", "renamed_rows")} | {
    "to-table": "call_to_table",
    "from-table": "call_from_table",
    "clade-table": "call_clade_table",
}
OWN = re.compile(r"^Rattle\.(\w+)\.")


def snake(name):
    if not re.match(r"[a-z]", name) and not re.match(r"[A-Z]-", name):
        return name
    name = name.replace("-", "_")
    return re.sub(r"(?<=[a-z0-9])([A-Z])(?=[a-z])", lambda m: "_" + m[1].lower(), name)


def main():
    crates = {p.split("/")[1] for p in glob.glob("crates/*/src")}
    files = sorted(glob.glob("crates/*/specs/**/*.antt", recursive=True) + glob.glob("crates/*/proofs/**/*.antt", recursive=True) + glob.glob("crates/*/src/**/*.rt", recursive=True))
    homes = collections.defaultdict(set)
    fields = set()
    for path in files:
        parts = path.split("/")
        if path.endswith(".rt") or (parts[2] == "proofs" and len(parts) > 4):
            continue
        inside = False
        for line in open(path):
            inside = bool(re.match(r"(pub )?record ", line)) or (inside and (line[:1].isspace() or not line.strip()))
            if m := DEFINES.match(line):
                homes[m[1]].add(path)
                if inside:
                    fields.add(m[1])
    turned = {n: snake(n) for n in homes if snake(n) != n and "·" not in n} | CHOSEN
    split = re.compile(r"(" + NAME + r")")
    words = {p: set(split.findall(open(p).read())) for p in files}
    together = collections.defaultdict(set)
    bad = 0
    for name in homes:
        together[turned.get(name, name)].add(name)
    for new, names in together.items():
        for a in names:
            for b in names:
                if a < b and any(a in w and b in w for w in words.values()):
                    lemma = [n for n in (a, b) if "-" in n]
                    print(f"falls together: {a} and {b}: the lemma is {lemma}")
                    for n in lemma[:1]:
                        turned[n] = new + "_lem"
                    bad |= len(lemma) != 1

    def turn(text, kept, walk):
        def one(m):
            word = m[1]
            if word not in turned or word in kept or (walk and word not in fields and text[m.start() - 1 : m.start()] == "." and not text.startswith("use ")):
                return word
            return turned[word]

        return split.sub(one, text)

    for path in files + sorted(glob.glob("crates/*/must-fail/*.edit")):
        lines = open(path).read().split("\n")
        kept = set()
        for line in lines:
            m = IMPORTS.match(line.rstrip(";"))
            if m and not ((o := OWN.match(m[1] + ".")) and o[1] in crates):
                for item in m[2].split(","):
                    kept.add(item.strip().split(" as ")[-1])
        before = {w for line in lines for w in split.findall(line)}
        out = []
        for line in lines:
            if path.endswith(".edit") and not re.match(r"(old|new|file):", line):
                out.append(line)
            elif line.startswith("use ") and not ((m := re.match(r"use Rattle\.(\w+)", line)) and m[1] in crates):
                out.append(line)
            else:
                out.append(turn(line, kept, bool(re.match(r"crates/\w+/proofs/[^/]+/", path))))
        for old in before:
            if old in turned and old not in kept and turned[old] in before and turned[old] not in homes:
                print(f"look: {path}: {old} becomes {turned[old]}, which stands there already")
        if not bad and "--dry" not in sys.argv:
            open(path, "w").write("\n".join(out))
    print(f"{len(turned)} names")
    return bad


if __name__ == "__main__":
    sys.exit(main())
