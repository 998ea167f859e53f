#!/usr/bin/env python3
"""Brings the names that this repository's specs/ and proofs/ define to one spelling, in every .antt and .rt file.

usage: python3 tools/spell_names.py [--dry]      at the top of the repository

Facts and types (first letter upper case) become upper camel case; every other definition, lemma, field, constructor and
local name becomes snake case. A prime stays. Names of goals, which the check makes, and names that a library owns stay.
Says which new names stand already as words of the same tree, and refuses to go on if two old names fall together.
"""

import os
import re
import sys

# New names where the rule would make two names of one.
CHOSEN = {
    "cell-of": "arc_cell",  # theory's cell of an arc, beside net's cell_of
}

WORD = r"[^\s(){}\[\].,;:=λ→×∷«»\"|]+"
SIGNATURE = re.compile(r"^\s*(?:(?:abbrev|pub|unfoldable)\s+)*(" + WORD + r")\s+:\s+(.*)$")
DECLARED = re.compile(r"^\s*(?:(?:abbrev|pub|unfoldable)\s+)*(?:record|data|ruleset)\s+(" + WORD + r")")
LOCAL = re.compile(r"(?:\blet\s+|λ\s+|\()(" + WORD + r")\s*(?=[:=.])")
IMPORT = re.compile(r"\buse\s+((?:Rattle\.)?[A-Za-z_]+)[^\s{;]*\.\{([^}]*)\}")
ALIAS = re.compile(r"\bas\s+(" + WORD + r")")
TOKEN = re.compile(r"(?<![^\s(){}\[\].,;:=λ→×∷«»\"|])(" + WORD + r")")


def files(root):
    for folder, dirs, names in os.walk(os.path.join(root, "crates")):
        dirs[:] = sorted(d for d in dirs if d != "out")
        for name in sorted(names):
            if name.endswith((".antt", ".rt")):
                yield os.path.join(folder, name)


def spelled(name):
    """The new spelling of a name."""
    if name in CHOSEN:
        return CHOSEN[name]
    parts = name.split("-")
    if name[0].isupper():
        return "".join(p[:1].upper() + p[1:] for p in parts)
    joined = "_".join(parts)
    return re.sub(r"(?<=[a-z])([A-Z])", lambda m: "_" + m.group(1).lower(), joined)


def wants(name):
    if not re.match(r"^[A-Za-z][A-Za-z0-9_'-]*$", name):
        return False
    return "-" in name or (name[0].islower() and re.search(r"[a-z][A-Z]", name) is not None)


def main(argv):
    root = os.getcwd()
    texts = {p: open(p, encoding="utf-8").read() for p in files(root)}
    crates = {d for d in os.listdir(os.path.join(root, "crates"))}
    own, foreign, goals = set(), set(), set()
    for path, text in texts.items():
        own |= set(ALIAS.findall(text))
        for top, names in IMPORT.findall(text):
            if not (top.startswith("Rattle.") and top[len("Rattle."):] in crates):
                foreign |= {n.split(" as ")[0].strip() for n in names.split(",")}
        if not path.endswith(".antt"):
            continue
        for line in text.splitlines():
            if line.lstrip().startswith("--"):
                continue
            signature = SIGNATURE.match(line)
            if signature:
                (goals if signature.group(2).startswith("goal.") else own).add(signature.group(1))
            declared = DECLARED.match(line)
            if declared:
                own.add(declared.group(1))
            own |= set(LOCAL.findall(line))
    own = {n for n in own if wants(n)}
    clash = sorted(n for n in own if n in foreign or n in goals)
    own -= set(clash)
    table = {n: spelled(n) for n in sorted(own)}
    for n in clash:
        print("kept, a library's or the check's name too:", n)
    words = set()
    for text in texts.values():
        words |= set(TOKEN.findall(text))
    back = {}
    for old, new in table.items():
        back.setdefault(new, []).append(old)
        if new in words:
            print(f"stands already: {old} -> {new}")
    together = {new: olds for new, olds in back.items() if len(olds) > 1}
    for new, olds in together.items():
        print("fall together:", olds, "->", new)
    if together:
        return 1
    print(len(table), "names")
    if "--dry" in argv:
        return 0
    for path, text in texts.items():
        turned = TOKEN.sub(lambda m: table.get(m.group(1), m.group(1)), text)
        if turned != text:
            with open(path, "w", encoding="utf-8") as f:
                f.write(turned)
    return 0


if __name__ == "__main__":
    raise SystemExit(main(sys.argv[1:]))
