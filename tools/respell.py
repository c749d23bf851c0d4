#!/usr/bin/env python3
"""Brings the names that this repository's own texts declare to one spelling: functions, laws, fields and constructors in snake case.

usage: python3 tools/respell.py        at the top, once, on a tree as port.py left it

It turns every name that a file of specs/ or proofs/ declares: `placeFrom` to `place_from`, `all-step` to `all_step`. Types, modules,
Rust's names, strings and names that a file imports from a library stay. Where two names would fall together, the law's gets `_lem`, or
what OVERRIDE says. The examples' own `◌==◌`, an equation of a model, is `◌≐◌`, since a reader takes `==` for the library's. A must-fail edit is
turned as the text that it edits.
"""
import collections
import glob
import os
import re
import sys

OWN = "functions ast definitions area keeping positions report cases files builder lines replay release area_cases layout_cases".split()
OVERRIDE = {"is-nan": "is_nan_lem", "isRoot": "is_root_name", "time-dependent": "depends_on_time", "getD-held": "get_or_held", "getD-run": "get_or_run"}
# Names of parameters and of modules as a file imports them.
LOCAL = {"rateTable": "rate_table", "declaredDomain": "declared_domain"}
# Laws that port.py spelled as the definition is spelled now: turned where they are declared or imported from a file of laws.
LAWS = "args_fit held_in left_in left_over minus_one no_bits read_name row_fits same_float too_short".split()
TOKEN = re.compile(r'[^\s(){}.;,@"«»]+')
DECLARED = re.compile(r'^\s*(?:(?:pub|abbrev|unfoldable|instance|private)\s+)*([^\s(){}.;,@"«»:]+)(?:\s+\{[^{}]*\})*\s+:(?!:)\s', re.M)
HEADED = re.compile(r'^\s*(?:pub\s+)*(?:record|data|ruleset)\s+([^\s(){}.;,@"«»:]+)', re.M)
USE = re.compile(r"use (\S+?)\.\{([^}]*)\}")
PIECE = re.compile(r'"(?:[^"\\\n]|\\.)*"|(?<![^\s(){}.;,@"«»])--[^\n]*')


def antt(what):
    return sorted(glob.glob(f"crates/*/{what}/**/*.antt", recursive=True))


def bare(text):
    return PIECE.sub(" ", text)


def is_own(path):
    return path.startswith("Rattle.") and path.split(".")[1] in OWN


def snake(name):
    if name in OVERRIDE:
        return OVERRIDE[name]
    if not (name[0].islower() or name[0] == "_"):
        return name
    return re.sub(r"(?<=[a-z0-9'])[A-Z]|(?<=[A-Z])[A-Z](?=[a-z])", lambda m: "_" + m[0].lower(), name).replace("-", "_").lower()


def table():
    specs, laws = set(), set()
    for path in antt("specs") + antt("proofs"):
        if os.path.basename(path) == "Proof.antt":
            continue
        text = bare(open(path, encoding="utf-8").read())
        for m in list(DECLARED.finditer(text)) + list(HEADED.finditer(text)):
            (specs if "/specs/" in path else laws).add(m[1])
    names = specs | laws
    met = collections.defaultdict(set)
    for name in names:
        met[snake(name)].add(name)
    rows = {}
    for new, olds in met.items():
        for old in olds:
            rows[old] = new + "_lem" if len(olds) > 1 and "-" in old and old not in OVERRIDE else new
    return {old: new for old, new in rows.items() if old != new} | LOCAL


def lent(text):
    """The names that a text imports from elsewhere than this repository."""
    return {w.strip() for m in USE.finditer(text) if not is_own(m[1]) for w in m[2].split(",")}


def turn(text, rows):
    stay = lent(text)
    laws = set()
    for m in USE.finditer(text):
        if is_own(m[1]) and ".proofs." in m[1]:
            laws |= {w.strip() for w in m[2].split(",")} & set(LAWS)
    declared = {m[1] for m in DECLARED.finditer(bare(text))} & set(LAWS)

    def word(m, whole):
        w = m[0]
        if w in stay:
            return w
        if w in laws or w in declared:
            return w if m.start() and whole[m.start() - 1] == "." else w + "_lem"
        return rows.get(w, w)

    # the equation sign of the examples: a text that has it has no other ◌==◌
    equation = "infixl 20 ◌==◌" in text or any(is_own(m[1]) and "◌==◌" in m[2] for m in USE.finditer(text))

    def code(piece):
        piece = TOKEN.sub(lambda m: word(m, piece), piece)
        return piece.replace("==", "≐") if equation else piece

    def comment(piece):
        piece = re.sub(r"`[^`\n]*`", lambda m: code(m[0][1:-1]).join("``"), piece)
        return re.sub(r"(?<![\w`-])[a-z]\w*[A-Z]\w*(?![\w-])", lambda m: rows.get(m[0], m[0]), piece)

    out, at = [], 0
    for m in PIECE.finditer(text):
        out.append(code(text[at : m.start()]))
        out.append(comment(m[0]) if m[0].startswith("--") else m[0])
        at = m.end()
    out.append(code(text[at:]))
    return "".join(out)


def turn_rust(text, rows):
    """Clauses and `ghost use` items: Rust's own names are in snake case, so a word of mixed case is one of these texts'."""
    return re.sub(r"(?<![\w.])[a-z][a-z0-9]*[A-Z]\w*(?!\w)|(?<=\.)[a-z][a-z0-9]*[A-Z]\w*(?!\w)", lambda m: rows.get(m[0], m[0]), text)


def main():
    rows = table()
    for path in antt("specs") + antt("proofs"):
        text = open(path, encoding="utf-8").read()
        new = turn(text, rows)
        if new != text:
            open(path, "w", encoding="utf-8").write(new)
    for path in sorted(glob.glob("crates/*/src/**/*.rt", recursive=True)):
        text = open(path, encoding="utf-8").read()
        new = turn_rust(text, rows)
        if new != text:
            open(path, "w", encoding="utf-8").write(new)
    for path in sorted(glob.glob("crates/*/must-fail/*.edit")):
        text = open(path, encoding="utf-8").read()
        lines = []
        for line in text.split("\n"):
            if line.startswith(("old:", "new:")) and "file: specs/" in text:
                line = line[:5] + turn(re.sub(r"\((\w+) \.(\w+)\)", r"\1.\2", line[5:]).replace("′", "'"), rows)
            lines.append(line)
        new = "\n".join(lines)
        if new != text:
            open(path, "w", encoding="utf-8").write(new)
    print(f"respell: {len(rows)} names")


if __name__ == "__main__":
    sys.exit(main())
