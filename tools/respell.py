#!/usr/bin/env python3
"""Brings the repository's own definitions and lemmas to the spelling of this Rattle, once, after port.py.

usage: python3 tools/respell.py [--list]        at the top of the repository

A definition, lemma, record field or constructor of specs/ and proofs/ whose name has a dash is written in snake case,
and in upper camel case where it is a fact or a type (its name begins with a capital).
Names that Rattle makes (goals, steps of a proof) keep theirs, as do functions of src/, strings and comments.
"""
import glob
import os
import re
import sys

DECLARED = re.compile(r"^(?:pub |abbrev |unfoldable |record |data )*([^\s:(){}.]+)(?: [^:]*)? : (.*)$")
INNER = re.compile(r"^ {2,4}(?:pub |abbrev |unfoldable )*([^\s:(){}.]+) : (.*)$")
TYPE = re.compile(r"^(?:pub )?(?:record|data) ([^\s:(){}]+)")
MADE = re.compile(r"(invariant|decreases|loop|returns|overflow)-")
TOKEN = re.compile(r"[^\s(){}\[\],;]+")


def respelt(name):
    if name[0].isupper():
        return "".join(part[:1].upper() + part[1:] for part in name.split("-"))
    return name.replace("-", "_")


def files(pattern):
    return [p for p in sorted(glob.glob(pattern, recursive=True)) if "/out/" not in p]


def declared():
    """The names with a dash that the repository itself declares: of definitions and lemmas, and of fields and constructors."""
    names, fields = set(), set()
    for p in files("crates/*/specs/**/*.antt") + files("crates/*/proofs/**/*.antt"):
        made = os.path.basename(p) in ("Answers.antt", "Invariants.antt")
        inside = False
        for line in open(p, encoding="utf-8"):
            if line.startswith("--") or not line.strip():
                continue
            if not line[0].isspace():
                inside = bool(TYPE.match(line))
                m = TYPE.match(line) or DECLARED.match(line)
                if m and "-" in m.group(1) and not (made and (MADE.match(m.group(1)) or m.group(m.lastindex).startswith("goal."))):
                    names.add(m.group(1))
                continue
            m = INNER.match(line)
            if m and "-" in m.group(1) and not made:
                (fields if inside else names).add(m.group(1))
    return names, fields


def turn_token(token, names, fields):
    parts = re.split(r"([.])", token)
    for i, part in enumerate(parts):
        if "-" not in part:
            continue
        after_dot = i > 0 and parts[i - 1] == "."
        before = parts[i - 2] if i > 1 else ""
        if part in fields or part in names and (not after_dot or before[:1].isupper()):
            parts[i] = respelt(part)
    return "".join(parts)


def turn(line, comment, names, fields):
    at = line.find(comment)
    while at > 0 and comment == "--" and not line[at - 1].isspace():
        at = line.find(comment, at + 1)
    code, rest = (line, "") if at < 0 else (line[:at], line[at:])
    pieces = code.split('"')
    pieces[::2] = [TOKEN.sub(lambda m: turn_token(m.group(0), names, fields), s) for s in pieces[::2]]
    return '"'.join(pieces) + rest


def main():
    names, fields = declared()
    if "--list" in sys.argv:
        for n in sorted(names | fields):
            print(n, respelt(n), "field" if n in fields else "")
        return
    for p in files("crates/*/src/**/*.rt") + files("crates/*/specs/**/*.antt") + files("crates/*/proofs/**/*.antt"):
        old = open(p, encoding="utf-8").read()
        comment = "//" if p.endswith(".rt") else "--"
        new = "\n".join(turn(line, comment, names, fields) for line in old.split("\n"))
        if new != old:
            open(p, "w", encoding="utf-8").write(new)


main()
