#!/usr/bin/env python3
"""Brings the repository's own definitions and lemmas to the spelling of today's Rattle: words in snake case.

  python3 tools/respell.py        once, at the top, after port.py

A name of specs/ or proofs/ that is written with dashes gets underscores; a type keeps its capitals and loses the dash.
Left as they are: the library's names, and the names that Rattle makes (goals, steps, invariants), which have dashes.
It refuses to write where two names would fall together.
"""
import glob, re, sys

TOKEN = re.compile(r"(?<![\w'])([A-Za-z_][\w']*(?:-[A-Za-z0-9_*'ℕ][\w'*]*)+)")
HEAD = re.compile(r"^\s*(?:(?:abbrev|unfoldable|pub|data|record|ruleset)\s+)*([A-Za-z][\w']*(?:-[\w']+)+)\s*(?=[:({]|$)(.*)$")
LIBRARY = re.compile(r"use (?:Rattle\.std|borrow|logic)[\w.]*\.\{([^}]*)\}")
GOAL = re.compile(r":\s*(goal|need)\.")
ALIAS = re.compile(r"\bas\s+([A-Za-z][\w']*(?:-[\w']+)+)")


def antt_files():
    return sorted(f for d in ("specs", "proofs") for f in glob.glob(f"crates/*/{d}/**/*.antt", recursive=True))


def snake(name):
    if name[0].isupper():
        return "".join(part[0].upper() + part[1:] for part in name.split("-"))
    return name.replace("-", "_")


def own_names():
    """The dashed names that the repository defines, and those of them that are fields of a record."""
    names, fields, made = set(), set(), set()
    for path in antt_files():
        for imported in LIBRARY.findall(open(path, encoding="utf-8").read()):
            made.update(re.findall(r"[^\s,]+", imported))
        in_record = False
        for line in open(path, encoding="utf-8"):
            code = line.split("--")[0].rstrip()
            if not code.strip():
                continue
            names.update(ALIAS.findall(code))
            indented = code[0].isspace()
            if not indented:
                in_record = bool(re.match(r"(pub\s+)?record\b", code)) or bool(re.match(r"(pub\s+)?data\b", code))
            m = HEAD.match(code)
            if not m:
                continue
            name, rest = m.groups()
            if GOAL.search(code):
                made.add(name)
            elif ":" in rest or re.match(r"\s*(?:abbrev|unfoldable|pub|data|record)\b", code):
                names.add(name)
                if in_record and indented:
                    fields.add(name)
    return names - made, fields - made, made


def main():
    names, fields, made = own_names()
    new = {n: snake(n) for n in names}
    taken = {}
    for old, to in new.items():
        if to in taken:
            sys.exit(f"fall together: {old} and {taken[to]}")
        taken[to] = old
    for path in antt_files():
        for m in re.finditer(r"^\s*(?:(?:abbrev|unfoldable|pub|data|record)\s+)*([A-Za-z][\w']*)\s*[:({]", open(path, encoding="utf-8").read(), re.M):
            if m.group(1) in taken and not GOAL.search(m.group(0)):
                sys.exit(f"{path}: {m.group(1)} is there already, and {taken[m.group(1)]} would fall together with it")

    def turn(m):
        name, before = m.group(1), m.string[m.start() - 1:m.start()]
        if name not in new or (before == "." and name not in fields):
            return name
        return new[name]

    changed = 0
    for path in antt_files() + sorted(glob.glob("crates/*/src/**/*.rt", recursive=True)):
        text = open(path, encoding="utf-8").read()
        turned = TOKEN.sub(turn, text)
        if turned != text:
            open(path, "w", encoding="utf-8").write(turned)
            changed += 1
    print(f"{len(new)} names, {changed} files")


main()
