#!/usr/bin/env python3
"""Prints groups of functions of a commit whose bodies are equal once types, numbers and field names are blanked.

    python3 tools/twins.py COMMIT
"""
import re
import subprocess
import sys


def git(*args):
    return subprocess.run(["git", *args], capture_output=True, text=True, check=True).stdout


def functions(text):
    """The name and the body of each function, in the layout of rt fmt."""
    lines = text.split("\n")
    for at, line in enumerate(lines):
        head = re.match(r"(\s*)(?:pub(?:\(\w+\))? )?fn (\w+)", line)
        if not head:
            continue
        opening = next(i for i in range(at, len(lines)) if lines[i].endswith(";") or lines[i].endswith("{") or lines[i].endswith("{}"))
        if not lines[opening].endswith("{"):
            continue
        end = next(i for i in range(opening, len(lines)) if lines[i] == head[1] + "}")
        body = " ".join(x.strip() for x in lines[opening + 1 : end])
        if body:
            yield head[2], body


def blank(body):
    body = re.sub(r"\b[A-Z]\w*\b", "T", body)
    body = re.sub(r"\b\d+(?:u8|u16|u32|usize)?\b", "0", body)
    return re.sub(r"\.\w+\b(?!\()", ".f", body)


def main():
    commit = sys.argv[1]
    groups = {}
    for path in git("ls-tree", "-r", "--name-only", commit).split("\n"):
        if re.match(r"crates/\w+/src/.*\.rt$", path):
            for name, body in functions(git("show", f"{commit}:{path}")):
                groups.setdefault(blank(body), []).append(f"{path}: {name}")
    for body, names in groups.items():
        if len(names) > 1:
            print(f"{len(names)} x {body}")
            for name in names:
                print("   ", name)


main()
