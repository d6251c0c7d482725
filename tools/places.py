#!/usr/bin/env python3
"""Lists the places of src/ and proofs/ that may be written in an older form, by point.

usage: tools/places.py [POINT ..]     (from the top of the repository; without a point: the counts)

1 enums and flags that may be an Option or a Result    5 clauses and parameters that recur
2 functions of the same shape                          6 buffers with a length, parallel lists
3 indices counted by hand                              7 switches on which step to run
4 equality, order, conversion and printing by hand     8 answers and lemmas
A pattern finds candidates, not verdicts: docs/DESIGN-PASS.md says what each one is.
"""
import collections
import difflib
import glob
import re
import sys

SRC = sorted(glob.glob("crates/*/src/**/*.rt", recursive=True))
LINE_PATTERNS = {
    1: [r"^\s*(pub(\(crate\))? )?enum ", r"^\s+(pub )?\w+: bool,$", r"-> (usize|u\d+)$",
        r"(None|Err\(\w+\)) => (return )?(Err|None)\b", r"Ok\(\w+\) => Ok\(\w+\)",
        r"-> Result<bool,"],
    3: [r"\.enumerate\(\)", r"\bfor \w+ in [\w.]+\.\.", r"^\s*while ", r"\bloop \{", r" [+-]= 1;"],
    4: [r"^impl.* (PartialEq|Eq|PartialOrd|Ord|Clone|Copy|From<.*>|fmt::Display|Default) for ",
        r"fn (is|is_before|is_key|is_same_\w+|are_\w+|to_u128|from_u128|digit|positive|negative|stamp_of|text|write_\w+)[<(]",
        r"u128::from|\bas (u|i)\d+"],
    6: [r"^\s+(pub(\(crate\))? )?(len|at|edits): usize,", r"^\s+(pub(\(crate\))? )?\w+: \[\w+; \w+\],",
        r"\.\.self\.len\]"],
    7: [r"\bis\(\w+, b\"", r"\b(FnOnce|FnMut|Fn)\(", r"\bdyn "],
}


def lines_of(point):
    for path in SRC:
        for number, line in enumerate(open(path, encoding="utf-8"), 1):
            code = line.split("//")[0].rstrip()
            if any(re.search(pattern, code) for pattern in LINE_PATTERNS[point]):
                yield f"{path}:{number}: {code.strip()}"


def functions():
    """(name, head, clauses, body) of each function; the body's last brace stands at the fn's own depth."""
    for path in SRC:
        text = re.sub(r"//.*", "", open(path, encoding="utf-8").read())
        for match in re.finditer(r"^( *)(?:pub(?:\(\w+\))? )?fn (\w+)(.*?)^\1\{\n(.*?)^\1\}", text, re.M | re.S):
            head, clauses = (match[3] + "\n").split("ensures", 1) if "ensures" in match[3] else (match[3], "")
            yield f"{path}:{match[2]}", head, "ensures" + clauses if clauses else "", match[4]


def shape(body):
    """The body's tokens, with every name and number made the same, but for words of the language."""
    kept = {"if", "else", "match", "for", "while", "loop", "return", "let", "mut", "Some", "None", "Ok", "Err", "true", "false"}
    return [t if t in kept or not re.match(r"\w", t) else "x" for t in re.findall(r"\w+|[^\w\s]", body)]


def twins():
    shapes = [(name, shape(body)) for name, _, _, body in functions()]
    shapes = [(name, s) for name, s in shapes if len(s) >= 24]
    for i, (one, a) in enumerate(shapes):
        for other, b in shapes[i + 1:]:
            if min(len(a), len(b)) / max(len(a), len(b)) < 0.85:
                continue
            if difflib.SequenceMatcher(None, a, b, autojunk=False).ratio() >= 0.93:
                yield f"{one} ~ {other}"


def recurring():
    clauses, pairs = collections.defaultdict(set), collections.defaultdict(set)
    for name, head, text, _ in functions():
        for clause in re.findall(r"^\s*(?:requires|ensures)(?: \w+)? (\{.*\})$", text, re.M):
            clauses[clause].add(name)
        params = sorted(set(re.findall(r"(\w+): ", head)))
        for i, one in enumerate(params):
            for other in params[i + 1:]:
                pairs[f"{one}, {other}"].add(name)
    for clause, names in clauses.items():
        if len(names) >= 3:
            yield f"clause in {len(names)} functions: {clause}"
    for pair, names in pairs.items():
        if len(names) >= 4:
            yield f"parameters in {len(names)} functions: {pair}"


def answers():
    bodies, lemmas = collections.defaultdict(list), {}
    everything = ""
    for path in sorted(glob.glob("crates/*/[ps]*/**/*.antt", recursive=True)):
        text = open(path, encoding="utf-8").read()
        everything += text
        found = re.findall(r"^(?:pub )?([\w'-]+)((?: [^\n:=]*)?) =((?:\n?[^\n]+)*)", text, re.M)
        for name, _, body in found:
            if path.endswith("Answers.antt"):
                bodies[re.sub(r"\s+", " ", body).strip()].append(f"{path}: {name}")
            elif "/proofs/" in path and not path.endswith("Invariants.antt"):
                lemmas[name] = path
    for body, places in bodies.items():
        for place in places:
            yield f"answer {place}"
        if len(places) >= 3:
            yield f"said {len(places)} times: {body[:90]}"
    for name, path in lemmas.items():
        uses = len(re.findall(rf"(?<![\w'-]){re.escape(name)}(?![\w'-])", everything))
        if uses <= 2:
            yield f"lemma that nothing cites: {path}: {name}"


def places(point):
    return {2: twins, 5: recurring, 8: answers}.get(point, lambda: lines_of(point))()


def main():
    chosen = [int(a) for a in sys.argv[1:]]
    for point in chosen or range(1, 9):
        found = list(places(point))
        for line in found if chosen else []:
            print(line)
        print(f"point {point}: {len(found)} candidates")


main()
