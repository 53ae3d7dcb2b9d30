#!/usr/bin/env python3
"""Respells this repository's own definitions and lemmas as today's Rattle spells its own: words in snake case, facts in upper camel case.

usage: python3 tools/respell.py [--names]     at the top of the repository, once, right after the kit's port.py

Functions of src/, exported names, strings, inputs and outputs keep their names: in an .rt file only ghost lines, clauses and ghost fields
are read, and no name of Rust has a small letter before a capital. --names writes nothing: it prints the names, old and new, and of which
both stand. Those are functions' names in paths beside definitions, which may be alike, but for one_below and too_long, which are lemmas.
"""
import glob
import re
import sys

# facts, which are types
FACTS = {
    "goodByRfc": "IsGoodByRfc",
    "unsummedByRfc": "IsUnsummedByRfc",
    "fieldsByRfc": "FieldsByRfc",
    "clear": "IsClear",
    "lined": "AllLined",
}
WORD = re.compile(r"[^\s(){}\[\].,;:→×∷≡≢¬◌⇒λ`\"]+")
HUMP = re.compile(r"[a-z][a-z0-9]*[A-Z][A-Za-z0-9]*")
ALIAS = re.compile(r"(?!Rattle·)([A-Za-z]+)·([a-z_-]+)")


def turned(word):
    if word in FACTS:
        return FACTS[word]
    if ALIAS.fullmatch(word):
        return ALIAS.sub(lambda m: m.group(1) + "_" + m.group(2) if m.group(1)[0].islower() else m.group(2), word)
    if HUMP.fullmatch(word.rstrip("'₀₁₂")):
        return re.sub(r"(?<=[a-z0-9])([A-Z])", lambda m: "_" + m.group(1).lower(), word)
    return word


def words(text):
    return WORD.findall(text)


def respell(text):
    """An alias such as `passes as Fold·passes` goes: a definition may have a function's name. Fields named clear, and the module
    paths that name them, stay, and a lemma that the kit's script named as a definition gets another name."""
    text = re.sub(r"(?<=\.)clear\b|(?<=    pub )clear(?= :)|\bclear(?= = )", "clear\0", text)
    text = re.sub(r"(?<![\w.])one_below(?![\w-])", "one_below-is", text)
    return turn(text).replace("clear\0", "clear")


def turn(text):
    return re.sub(r"([^\s{,]+) as \1(?=[,}])", r"\1", WORD.sub(lambda m: turned(m.group()), text))


def ghost_lines(text):
    """The lines of an .rt file that antt reads: each from a ghost word, requires or ensures to the end of its braces."""
    out, depth, inside = [], 0, False
    for line in text.split("\n"):
        code = line.split("//")[0]
        if not inside and re.match(r"\s*(pub )?(ghost|requires|ensures)\b", code):
            inside, depth = True, 0
        if inside:
            out.append(respell(line))
            depth += code.count("{") - code.count("}")
            inside = depth > 0
        else:
            out.append(line)
    return "\n".join(out)


def files():
    for pattern in ("crates/*/specs/**/*.antt", "crates/*/proofs/**/*.antt", "crates/*/src/**/*.rt", "crates/*/must-fail/*.edit"):
        yield from sorted(glob.glob(pattern, recursive=True))


def main():
    old = {}
    for f in files():
        with open(f, encoding="utf-8") as r:
            old[f] = r.read()
    new = {f: ghost_lines(t) if f.endswith(".rt") else respell(t) for f, t in old.items()}
    names = {w: turned(w) for t in old.values() for w in words(t) if turned(w) != w}
    if "--names" in sys.argv:
        for a, b in sorted(names.items()):
            print(a, b)
        seen = {w for f, t in old.items() if f.endswith(".antt") for w in words(re.sub("--.*", "", t))}
        print("both stand: " + ", ".join(sorted(f"{a} {b}" for a, b in names.items() if {a, b} <= seen)))
    if "--names" not in sys.argv:
        for f, t in new.items():
            if t != old[f]:
                with open(f, "w", encoding="utf-8") as w:
                    w.write(t)


main()
