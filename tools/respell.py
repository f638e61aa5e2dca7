#!/usr/bin/env python3
"""Brings the names of this repository's definitions and lemmas to one spelling.

usage: python3 tools/respell.py [--list]      at the top of the repository

A name that begins with a small letter gets underscores for its dashes, a fact or a type, which begins with a capital, is written
in one piece: `template-lawful` becomes `template_lawful`, `Face-laid` becomes `FaceLaid`. Functions of src/, strings and names that the
library declares stay as they are. Names of goals, which are made from the code, are no names of ours and stay too.
--list only prints the names, old and new.
"""

import os
import re
import sys

TOKEN = re.compile(r"[^\s(){}\[\];,.⌜⌝\"`]+")
DECLARED = re.compile(r"^\s*(?:abbrev |unfoldable )?(?:pub )?(?:data |record )?(?:pub )?([^\s:(){}.,;]+)(?:\s+[({][^:]*:[^:]*[)}])*\s*:(?:\s|$)")
BOUND = re.compile(r"(?:λ|let)\s+([^\s:(){}.,;]+)")


def files(root):
    for folder, dirs, names in os.walk(os.path.join(root, "crates")):
        dirs[:] = sorted(d for d in dirs if d != "out")
        for name in sorted(names):
            yield os.path.join(folder, name)


def of_a_function(path):
    """Whether the file lies in the folder of one function's proof."""
    parts = path.split(os.sep)
    return "proofs" in parts and len(parts) - parts.index("proofs") > 2


def respelled(name):
    small = re.sub(r"([a-z0-9])([A-Z])", lambda m: m.group(1) + "_" + m.group(2).lower(), name)
    if name[0].isupper():
        return "".join(part[:1].upper() + part[1:] for part in name.split("-"))
    return small.replace("-", "_")


def declared(root):
    found = set()
    for path in files(root):
        if path.endswith(".antt") and not of_a_function(path):
            for line in open(path, encoding="utf-8"):
                m = DECLARED.match(line)
                if m and not line.lstrip().startswith("--"):
                    found.add(m.group(1))
    return {n for n in found if re.fullmatch(r"[A-Za-z][\w']*(?:-[\w']+)*", n) and n != respelled(n)}


def of_the_library(root):
    """Names that are imported from a library: they stay, unless a file of ours declares them."""
    found = set()
    for path in files(root):
        if path.endswith((".antt", ".rt")):
            for line in open(path, encoding="utf-8"):
                m = re.match(r"^\s*(?:ghost )?(?:pub )?use (?:Rattle\.std|borrow|Prim|mathlib|lib)\b[^{]*\{(.*)\}", line)
                if m:
                    for item in m.group(1).split(","):
                        found.update(item.strip().split(" as "))
    return found


def turned(text, table):
    return TOKEN.sub(lambda m: table.get(m.group(0), m.group(0)), text)


def turned_code(text, table):
    """Code with its clauses: strings and comments stay."""
    out = []
    for piece in re.split(r'("(?:[^"\\]|\\.)*"|//[^\n]*)', text):
        out.append(piece if piece.startswith(('"', "//")) else turned(piece, table))
    return "".join(out)


def main():
    root = "."
    table = {n: respelled(n) for n in sorted(declared(root) - of_the_library(root))}
    news = {}
    for old, new in table.items():
        news.setdefault(new, []).append(old)
    clash = {new: olds for new, olds in news.items() if len(olds) > 1}
    if clash:
        print(f"names that fall together: {clash}", file=sys.stderr)
        return 1
    if sys.argv[1:] == ["--list"]:
        for old, new in table.items():
            print(old, new)
        return 0
    for path in files(root):
        if not path.endswith((".antt", ".rt")):
            continue
        text = open(path, encoding="utf-8").read()
        new = (turned if path.endswith(".antt") else turned_code)(text, table)
        if new != text:
            open(path, "w", encoding="utf-8").write(new)
    return 0


if __name__ == "__main__":
    raise SystemExit(main())
