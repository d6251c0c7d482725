#!/usr/bin/env python3
"""Brings the repository's own definitions and lemmas to the spelling of today's Rattle.

usage: python3 tools/respell.py      at the top of a repository that port.py has just turned

Types and facts become upper camel case. Every other name becomes snake case, but in a lemma a dash
stays where it joins the names of two functions, as in holds-map. Names that Rattle makes (goals,
steps, invariants), names of src/, strings and comments stay.
"""

import os
import re
import sys

# functions whose names a lemma may join by a dash
FUNCTIONS = set("admits ascends drop first_with get_or goes holds insert length lookup map put remove set strike take".split())
TOKEN = re.compile(r"[^\s(){}\[\].,;:=|«»⌜⌝\"]+")
DEFINED = re.compile(r"^\s*(?:(?:abbrev|unfoldable|pub|data|record)\s+)*([^\s(){}\[\].,;:=|]+-[^\s(){}\[\].,;:=|]+)(?:\s[^:]*)?\s:\s(.*)$")
MADE = re.compile(r"^(goal|need)\.|^_$")
MADE_NAME = re.compile(r"^(invariant|decreases)-")
RESERVED = {"first_of", "search", "grind", "simp", "omega", "rw", "cc", "hlevel", "assumption", "ground"}


def files(root, suffix):
    for folder, dirs, names in os.walk(os.path.join(root, "crates")):
        dirs[:] = sorted(d for d in dirs if d not in ("out", "data"))
        for name in sorted(names):
            if name.endswith(suffix):
                yield os.path.join(folder, name)


def text_of(path):
    with open(path, encoding="utf-8") as f:
        return f.read()


def own_names(root):
    """The names with a dash that the repository defines: those of specs/, and the lemmas of proofs/."""
    specs, lemmas = set(), set()
    for path in files(root, ".antt"):
        to = specs if "/specs/" in path else lemmas
        for line in text_of(path).splitlines():
            m = DEFINED.match(line)
            if m and "--" not in m.group(1) and not MADE_NAME.match(m.group(1)) and not MADE.match(m.group(2).strip()):
                to.add(m.group(1))
    return specs, lemmas


def camel(name):
    return "".join(p[:1].upper() + p[1:] for p in name.split("-"))


def lemma(name):
    parts = name.split("-")
    said = parts[0]
    for a, b in zip(parts, parts[1:]):
        said += ("-" if a in FUNCTIONS and b in FUNCTIONS else "_") + b
    return said


def new_names(root):
    specs, lemmas = own_names(root)
    names = {}
    for name in sorted(specs | lemmas):
        new = camel(name) if name[0].isupper() else name.replace("-", "_") if name in specs else lemma(name)
        names[name] = new + "_lem" if new in RESERVED else new
    return names


def respelled(text, names, is_source):
    """The text with the new names, but for its comments and strings."""
    out = []
    for line in text.split("\n"):
        mark = "//" if is_source else "-- "
        at = line.find(mark)
        head, tail = (line, "") if at < 0 else (line[:at], line[at:])
        parts = re.split(r"(b?\"(?:[^\"\\]|\\.)*\")", head)
        for i in range(0, len(parts), 2):
            parts[i] = TOKEN.sub(lambda m: names.get(m.group(), m.group()), parts[i])
        out.append("".join(parts) + tail)
    return "\n".join(out)


def main():
    root = os.getcwd()
    names = new_names(root)
    taken = {}
    for old, new in names.items():
        taken.setdefault(new, []).append(old)
    for new, olds in sorted(taken.items()):
        if len(olds) > 1:
            print(f"fall together: {', '.join(olds)} as {new}")
    changed = 0
    for suffix, is_source in ((".antt", False), (".rt", True), (".edit", True)):
        for path in files(root, suffix):
            old = text_of(path)
            new = respelled(old, names, is_source)
            if new != old:
                with open(path, "w", encoding="utf-8") as f:
                    f.write(new)
                changed += 1
    print(f"{len(names)} names, {changed} files")
    if "--list" in sys.argv:
        for old, new in sorted(names.items()):
            print(f"{old} {new}")


if __name__ == "__main__":
    main()
