#!/usr/bin/env python3
"""Respells the definitions and lemmas of this repository as today's library spells its own: facts and records in upper camel
case, all else in snake case, where the older spelling joined words by dashes. A dash stays where it joins the names of two
functions, as in `sum_by-map`. It was run once, after port.py, and is kept to show that nothing but the spelling changed. It refuses
a tree that has its spelling already, where it would take such a dash for one between words.

usage: tools/respell_names.py          at the top: rewrites crates/*/specs, crates/*/proofs and the ghost lines of crates/*/src
       tools/respell_names.py --list   prints each name, its new spelling, and the names that fall together
"""
import os
import re
import sys

# Lemmas about two functions: a dash joins the functions' names.
KEPT = {
    "sumBy-below": "sum_by-below",
    "sumBy-both": "sum_by-both",
    "sumBy-map": "sum_by-map",
    "sumBy-same": "sum_by-same",
    "map-map": "map-map",
}
WORD = r"[A-Za-z][A-Za-z0-9_']*(?:-[A-Za-z0-9_']+)+"
TOKEN = re.compile(r"(?<![\w'\-])(" + WORD + r")(?![\w'\-])")
OUTSIDE = re.compile(r"use (?:Rattle\.std\.|Rattle\.core\.|mathlib\.|Prim\.|native\.|lib\.|borrow\.|mir\.|denote\.|logic\.)[^{;\n]*\{([^}]*)\}")
DEFINED = re.compile(r"^\s*(?:(?:pub|abbrev|unfoldable|record|data)\s+)*(" + WORD + r")\s*(?:\([^)]*\)\s*|\{[^}]*\}\s*)*:\s", re.M)
ALIAS = re.compile(r"\bas (" + WORD + r")")
LABEL = re.compile(r"^\s*(?:ensures|requires|ghost) ([a-z]\w*_\w*)\b", re.M)
LOCAL = re.compile(r"(?:\blet |λ \(?|[( ])(" + WORD + r") (?::|=) ")


def whole(name):
    return re.compile(r"(?<![\w'\-])" + re.escape(name) + r"(?![\w'\-])")


def files():
    for top, folders, names in os.walk("crates"):
        folders[:] = sorted(f for f in folders if f not in ("out", "target"))
        for name in sorted(names):
            if name.endswith((".antt", ".rt")):
                yield os.path.join(top, name)


def gather(texts):
    """The names that this repository defines or binds, less those of a library and those that the check makes for goals."""
    found, outside, goals = set(), set(), set()
    for path, text in texts.items():
        for line in OUTSIDE.findall(text):
            outside.update(re.findall(WORD, line))
        found.update(ALIAS.findall(text))
        if path.endswith(".rt"):
            # A clause's name, as a proof file spelled it.
            found.update(label.replace("_", "-") for label in LABEL.findall(text))
        if path.endswith(".antt"):
            goals.update(re.findall(r"goal\.(" + WORD + r")", text))
            found.update(DEFINED.findall(text))
            found.update(LOCAL.findall(text))
    return {n for n in found if n in KEPT or (n not in outside and n not in goals)}


def respelled(name):
    if name in KEPT:
        return KEPT[name]
    if name[0].isupper():
        return "".join(part[0].upper() + part[1:] for part in name.split("-"))
    return name.replace("-", "_")


def turned(path, text, names):
    def one(match):
        return respelled(match.group(1)) if match.group(1) in names else match.group(1)

    if path.endswith(".antt"):
        return "\n".join(line if line.lstrip().startswith("--") else TOKEN.sub(one, line) for line in text.split("\n"))
    lines = []
    for line in text.split("\n"):
        code = not line.lstrip().startswith("//") and '"' not in line
        lines.append(TOKEN.sub(one, line) if code else line)
    return "\n".join(lines)


def main():
    texts = {path: open(path, encoding="utf-8").read() for path in files()}
    if any(new != old and whole(new).search(text) for old, new in KEPT.items() for text in texts.values()):
        sys.exit("respell_names: these files have the new spelling already; nothing was changed")
    names = gather(texts)
    if "--list" in sys.argv[1:]:
        taken = set()
        for path, text in texts.items():
            taken.update(re.findall(r"[A-Za-z_][\w'\-]*", text))
        for name in sorted(names):
            new = respelled(name)
            print(f"{name} -> {new}" + ("   FALLS TOGETHER" if new in taken and new != name else ""))
        return
    for path, text in texts.items():
        new = turned(path, text, names)
        if new != text:
            with open(path, "w", encoding="utf-8") as out:
                out.write(new)


if __name__ == "__main__":
    main()
