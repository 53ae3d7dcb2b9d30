#!/usr/bin/env python3
"""Brings the names of definitions and lemmas in the pages to those in the crates.

usage: python3 tools/respell_pages.py OLD NEW     at the top of the repository

OLD and NEW are checkouts: of before the kit's port.py, and of what that and tools/respell.py made of it. A definition's new name is the one at
its place in its file. Only code in backticks is read, and of it only names with a dash or a capital inside.
"""
import glob
import os
import re
import sys

DEFINED = re.compile(r"\s*(?:pub )?(?:unfoldable |abbrev )?(?:pub )?(?:data |record )?([^\s:(){}]+)\s*(?:\([^)]*\)\s*)*:\s")


def defined(path):
    with open(path, encoding="utf-8") as f:
        return [m.group(1) for m in map(DEFINED.match, f) if m and m.group(1) not in ("use", "let")]


def renamed(old, new):
    names = {}
    for path in glob.glob(old + "/crates/*/specs/**/*.antt", recursive=True) + glob.glob(old + "/crates/*/proofs/*.antt"):
        other = new + path[len(old):]
        if os.path.exists(other):
            before, after = defined(path), defined(other)
            if len(before) == len(after):
                names.update((a, b) for a, b in zip(before, after) if a != b and re.search(r"-|[a-z0-9][A-Z]", a))
    return names


def main():
    names = renamed(sys.argv[1].rstrip("/"), sys.argv[2].rstrip("/"))
    word = re.compile(r"[A-Za-z][\w'-]*")
    for path in ["README.md", "CHANGELOG.md"] + sorted(glob.glob("docs/**/*.md", recursive=True)) + sorted(glob.glob("tests/**/*.md", recursive=True)):
        if path.startswith("docs/PORT"):
            continue
        with open(path, encoding="utf-8") as f:
            text = f.read()
        turned = re.sub(r"`[^`\n]+`", lambda m: word.sub(lambda w: names.get(w.group(), w.group()), m.group()), text)
        if turned != text:
            with open(path, "w", encoding="utf-8") as f:
                f.write(turned)


main()
