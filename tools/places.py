#!/usr/bin/env python3
"""Counts the places where the code has an older form: python3 tools/places.py [--list] [FOLDER]

FOLDER is a checkout of this repository (default: this one). docs/DESIGN-PASS.md says what the points are.
"""
import collections
import pathlib
import re
import sys

LIST = "--list" in sys.argv
args = [a for a in sys.argv[1:] if not a.startswith("--")]
TOP = pathlib.Path(args[0] if args else pathlib.Path(__file__).resolve().parent.parent)

FILES = {
    f.relative_to(TOP): f.read_text()
    for f in sorted(TOP.glob("crates/*/src/**/*.rt"))
    if "out" not in f.relative_to(TOP).parts
}
PROOFS = {
    f.relative_to(TOP): f.read_text()
    for f in sorted(TOP.glob("crates/*/proofs/**/*.antt"))
    if "out" not in f.relative_to(TOP).parts
}


def code(line):
    """The line without its comment; none of a clause or a ghost item."""
    line = line.split("//")[0]
    return "" if re.match(r"\s*(requires|ensures|ghost)\b", line) else line


def lines_with(pattern):
    found = re.compile(pattern)
    return [
        (path, number, line.strip())
        for path, text in FILES.items()
        for number, line in enumerate(text.splitlines(), 1)
        if found.search(code(line))
    ]


def signatures():
    for path, text in FILES.items():
        for m in re.finditer(r"^( *)(?:pub(?:\([a-z]+\))? )?fn (\w+)[^(\n]*\(([^{]*?)\)(?: ->|\n| \{|$)", text, re.M | re.S):
            number = text.count("\n", 0, m.start()) + 1
            names = re.findall(r"(\w+)\s*:", m.group(3))
            yield path, number, m.group(2), names, "self" in m.group(3)


def together(*names):
    return [
        (path, number, f"fn {name}({', '.join(names)})")
        for path, number, name, params, _ in signatures()
        if set(names) <= set(params)
    ]


def fields_together(*names):
    found = []
    for path, text in FILES.items():
        for m in re.finditer(r"struct (\w+)[^{;]*\{(.*?)\n\}", text, re.S):
            fields = re.findall(r"^\s*(?:pub(?:\([a-z]+\))? )?(\w+):", m.group(2), re.M)
            if set(names) <= set(fields):
                found.append((path, text.count("\n", 0, m.start()) + 1, f"struct {m.group(1)}: {', '.join(names)}"))
    return found


def repeated_clauses():
    """Clauses that stand word for word in three or more functions of one crate."""
    seen = collections.defaultdict(list)
    for path, text in FILES.items():
        for number, line in enumerate(text.splitlines(), 1):
            m = re.match(r"\s*(?:requires|ensures)\s+(?:\w+ )?\{ (.*) \}[;]?$", line)
            if m and "result ≡" not in m.group(1):
                seen[(path.parts[1], m.group(1))].append((path, number, m.group(1)))
    return [place for places in seen.values() if len(places) >= 3 for place in places]


POINTS = {
    "1 own enums of any shape": lines_with(r"^\s*(pub(\([a-z]+\))? )?enum "),
    "1 flags (fields and parameters of type bool)": lines_with(r"\b\w+: bool\b"),
    "1 causes handed out as Option<Refusal>": lines_with(r"-> Option<Refusal>"),
    "1 number codes (matched, or tuples of numbers for an end)": lines_with(r"match self\.number\(\)|\.layer\(\) == \d|type Ending = \(|-> Ending|fn (cause|declared)\b.*-> u8|number\(\),?$"),
    "2 functions whose names differ in a width or a count": lines_with(r"fn \w+?(_u16|_u32|_u64|_two|_four|_group|_net|_nets|_row|6)\b"),
    "2 impls of one trait for several types": lines_with(r"^impl.* for "),
    "3 loops and searches that count by hand": lines_with(r"^\s*for \w+ in .*\.\.|^\s*while .*<|^\s*(\w+\.)?\w+ \+= (1|depth);"),
    "3 cursors asked in a while": lines_with(r"while let Some\(\w+\) = \w+\.next\(\)"),
    "4 comparisons, copies and conversions by hand": lines_with(r"fn (same|before|same_run|eq|cmp|clone)\b|^impl.*\b(Clone|Copy|PartialEq|Ord)\b.* for |fn \w+\(.*-> (&'static \[u8\])"),
    "4 comparisons called by name": lines_with(r"\.(same|before)\("),
    "5 parameters together: out, at": together("out", "at"),
    "5 parameters together: rows, count": together("rows", "count") + fields_together("rows", "count"),
    "5 parameters together: networks, depth": together("networks", "depth") + fields_together("networks", "depth"),
    "5 parameters together: from, to": together("from", "to") + fields_together("from", "to"),
    "5 parameters together: low, high": together("low", "high") + fields_together("low", "high"),
    "5 clauses that stand in three functions of a crate or more": repeated_clauses(),
    "6 arrays with a count beside them": fields_together("bytes", "len") + fields_together("list", "count") + fields_together("bytes", "end") + [p for p in fields_together("rows", "count")],
    "6 lists searched by hand": lines_with(r"let mid = "),
    "7 switches on a step or a kind, tables of functions": lines_with(r"match \w*\.?kind\b|\bdyn\b|: fn\("),
}

for point, places in POINTS.items():
    print(f"{len(places):4}  {point}")
    if LIST:
        for path, number, line in places:
            print(f"        {path}:{number}: {line}")
answers = {p: t for p, t in PROOFS.items() if p.name == "Answers.antt"}
print(f"{len(answers):4}  8 files of answers, of {sum(t.count(chr(10)) for t in answers.values())} lines")
lemmas = {p: t for p, t in PROOFS.items() if p.name not in ("Answers.antt", "Invariants.antt", "Lib.antt")}
print(f"{len(lemmas):4}  8 files of lemmas, of {sum(t.count(chr(10)) for t in lemmas.values())} lines")
