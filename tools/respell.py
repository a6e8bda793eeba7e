#!/usr/bin/env python3
"""Spells this repository's definitions and lemmas as today's Rattle does.

usage: python3 tools/respell.py [ROOT]     once, at the top of a repository (or with ROOT, another folder's)

A name that is declared in specs/ or proofs/ and has a dash or a capital inside gets snake case, and one
that begins with a capital gets camel case: all-below -> all_below, bitsOf -> bits_of, Rule-read ->
RuleRead. Names that a check makes, of goals, steps and loops, stay, and so do Rust's own names, strings,
and what a program reads or writes. Names that would fall together stop the script before it writes.
"""
import glob
import os
import re
import sys

WORD = r"[^\s(){}\[\],;.«»\"|]+"
DECLARED = re.compile(r"^(?:abbrev )?(?:pub )?(?:(?:record|data|ruleset|unfoldable) )?(?:pub )?(" + WORD + r")(?= |$)")
INNER = re.compile(r"^\s+(?:abbrev )?(?:pub )?(" + WORD + r") :(?: |$)")
RENAMED = re.compile(r"^use Rattle\b.* as (?!goal$)")
ALIAS = re.compile(r" as (" + WORD + ")")
# A lemma that would get its function's name.
LEMMAS = {
    n: n.replace("-", "_") + "_lem"
    for n in (
        "and-rows by-divider by-quotient byte-sign choice-rows majority-rows node-measure numbered-all "
        "parts-write token-of width-of xor-rows"
    ).split()
}
# Facts that would get the name of a Rust struct beside them.
FACTS = re.compile("[A-Z][a-z]*-read")
NO_NAMES = {"use", "module", "mod", "pub", "where", "unfolding", "open", "record", "data", "abbrev", "in", "--"}
# The file with a lemma that has had its definition's spelling since before: sum_less, which sumLess becomes.
LONE = "crates/cases/proofs/worked_cases_stand/Answers.antt"


def read(path):
    """A file's text, that lemma by its other name."""
    with open(path, encoding="utf-8") as f:
        text = f.read()
    return re.sub(r"\bsum_less\b", "sum_less_lem", text) if path.endswith(LONE) else text


def spelled(name):
    """The name as it is spelled today: a function of the name alone."""
    if name in LEMMAS:
        return LEMMAS[name]
    if FACTS.fullmatch(name):
        name = "Is-" + name
    name = name.replace("getD", "get-or")
    parts = name.split("-")
    if name[0].isupper():
        return "".join(p[:1].upper() + p[1:] for p in parts)
    joined = "_".join(parts)
    return re.sub(r"(?<=[a-z0-9])([A-Z])", lambda m: "_" + m.group(1), joined).lower()


def to_turn(name):
    """Whether a name has another spelling today."""
    if not re.fullmatch(r"[A-Za-z][A-Za-z0-9_'-]*", name):
        return False
    return "-" in name or (name[0].islower() and re.search("[A-Z]", name) is not None)


def declared(path):
    """The names that a file declares at its margin, in a module's parameters or as fields; goals' answers stay."""
    lines = read(path).split("\n")
    names, fields, kind = set(), set(), None
    if path.endswith(("Answers.antt", "Invariants.antt")):
        goals = {m for l in lines for m in re.findall(r"\bgoal\.(" + WORD + r")", l)}
    else:
        goals = set()
    for l in lines:
        if RENAMED.match(l):
            names |= set(ALIAS.findall(l))
        if re.match(r"\S", l):
            kind = l.replace("pub ", "").split(" ")[0]
            m = DECLARED.match(l)
            if m and m.group(1) not in NO_NAMES and m.group(1) not in goals:
                names.add(m.group(1))
        else:
            m = INNER.match(l)
            if m and m.group(1) not in NO_NAMES:
                (fields if kind == "record" else names).add(m.group(1))
    return names, fields


def turn_code(text, names, fields):
    """The text with each of these names as it is spelled today; behind a dot only a field is one."""

    def one(m):
        w = m.group(0)
        known = fields if m.start() and text[m.start() - 1] == "." else names | fields
        return spelled(w) if w in known else w

    return re.sub(r"[A-Za-z][A-Za-z0-9_'-]*", one, text)


def turn(path, names, fields):
    """A file's text, its comments left but for names in camel case or between back quotes."""
    mark = "--" if path.endswith(".antt") else "//"
    out = []
    text = read(path)
    names = names - imported(text)
    plain = {n for n in names | fields if re.search("[a-z][A-Z]", n)}
    for line in text.split("\n"):
        at = line.find(mark)
        while at > 0 and line[at - 1] not in " ":
            at = line.find(mark, at + 1)
        code, said = (line, "") if at < 0 else (line[:at], line[at:])
        if path.endswith(".rt") and '"' in code:
            out.append(line)
            continue
        out.append(turn_code(code, names, fields) + turn_code(said, plain, plain))
    return "\n".join(out)


def imported(text):
    """The names that a file imports from a library."""
    imports = set()
    for m in re.finditer(r"^(?:ghost )?use (?:Rattle\.std|lib|native|mathlib|Prim)[^\n]*\{([^}]*)\}", text, re.M):
        imports |= {w.split(" as ")[-1].strip() for w in m.group(1).split(",")}
    return imports


def hidden(path, turned):
    """Stops where a name that is turned would be one that the file imports from a library."""
    text = read(path)
    imports = imported(text)
    for w in sorted(set(re.findall(r"[A-Za-z][A-Za-z0-9_'-]*", text)) & turned - imports):
        if spelled(w) in imports:
            raise SystemExit(f"{path}: {w} would be the library's {spelled(w)}")


def main(root):
    files = sorted(glob.glob(os.path.join(root, "crates/*/**/*.antt"), recursive=True))
    files = [p for p in files if "/out/" not in p]
    sources = sorted(glob.glob(os.path.join(root, "crates/*/src/**/*.rt"), recursive=True))
    names, fields = set(), set()
    for p in files:
        n, f = declared(p)
        names |= n
        fields |= f
    turned, new = {n for n in names | fields if to_turn(n)}, {}
    for n in sorted(names | fields):
        if n in turned or n in {spelled(t) for t in turned}:
            new.setdefault(spelled(n) if n in turned else n, set()).add(n)
    for now, old in sorted(new.items()):
        if len(old) > 1:
            print(f"fall together: {sorted(old)} -> {now}")
    if any(len(o) > 1 for o in new.values()):
        raise SystemExit(1)
    names, fields = names & turned, fields & turned
    changed = 0
    for p in files + sources:
        hidden(p, names | fields)
    for p in files + sources:
        text = turn(p, names, fields)
        with open(p, encoding="utf-8") as f:
            if f.read() == text:
                continue
        with open(p, "w", encoding="utf-8") as f:
            f.write(text)
        changed += 1
    print(f"{len(names | fields)} names, {changed} files")


if __name__ == "__main__":
    main(sys.argv[1] if len(sys.argv) > 1 else ".")
