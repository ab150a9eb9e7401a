#!/usr/bin/env python3
"""Spells the definitions and lemmas of this repository as the installed Rattle does, once, at the top of the checkout.

usage: respell.py [--check]

A fact or type is in upper camel case (Board-sizes becomes BoardSizes), everything else in snake case (world-of becomes
world_of); in a lemma's name a dash stays between two names (length-drop). Names that proofs get from Rattle, functions of
src/, strings, inputs and outputs stay. Names that would fall together are printed, and then nothing is written.
"""

import collections
import pathlib
import re
import sys

# An identifier of antt.
WORD = re.compile(r'[^\s(){}.;,@"«»]+')
NAME = r'[^\s(){}.;,@"«»:=]+'
SIGNATURE = re.compile(rf"^\s*(?:abbrev |unfoldable |pub )*((?:{NAME} )+): ", re.M)
TYPE = re.compile(rf"^\s*(?:pub )?(?:data|record) ({NAME}) ", re.M)
ALIAS = re.compile(rf" as ({NAME})[,}}]")
KEYWORDS = {"let", "in", "use", "mod", "where", "module", "λ", "open", "elim", "record", "data", "as"}
# What the kit's script left behind, of names that the library shared; and names of imports in sources.
EXTRA = {"get_d_set": "get_or-set", "getD-chunks": "get_or-chunks", "nan-bits": "bits-nan", "notice-of": "notice_of", "written-op": "written_op", "operation-of": "operation_of"}
# Words that are names somewhere and mean none in a lemma's name.
WORDS = set("a all as at by end first fits from here in is last least left may more next no none not of on one onto or other out own part same seen side some there three to turns up whole".split())


def antt_files(kinds=("specs", "proofs")):
    for kind in kinds:
        yield from sorted(pathlib.Path("crates").glob(f"*/{kind}/**/*.antt"))


def code_of(text):
    return re.sub(r"--[^\n]*", "", text)


def declared():
    """Each name that specs/ and the lemma files declare, and whether it is a lemma's."""
    names = {}
    for path in antt_files():
        lemmas = path.parts[2] == "proofs"
        if lemmas and len(path.parts) > 4:
            continue
        text = code_of(path.read_text())
        found = [n for m in SIGNATURE.finditer(text) for n in m[1].split()]
        for name in found + TYPE.findall(text) + ALIAS.findall(text):
            if name not in KEYWORDS and WORD.fullmatch(name):
                names[name] = names.get(name, True) and lemmas
    return names


def labels():
    """What proofs of functions answer: these names are Rattle's."""
    found = set()
    for path in antt_files(("proofs",)):
        if len(path.parts) > 4:
            found |= set(re.findall(r"^\s*(?:abbrev )?(?:pub )?([^\s:]+) : goal\.", path.read_text(), re.M))
    return found


def is_fact(name):
    return name[0].isupper() and "→" not in name


def chunks(parts, names):
    """The longest names that the parts make up, and whether each is one."""
    while parts:
        size = next((n for n in range(len(parts), 0, -1) if "-".join(parts[:n]) in names), 1)
        head = parts[:size]
        yield "_".join(head), size > 1 or (head[0] in names and head[0] not in WORDS)
        parts = parts[size:]


def spelled(name, lemma, names):
    if "-" not in name.strip("-"):
        return name
    if is_fact(name):
        return "".join(p[:1].upper() + p[1:] for p in name.split("-"))
    if not lemma:
        return name.replace("-", "_")
    pieces = list(chunks(name.split("-"), names))
    out, known = pieces[0]
    for piece, is_name in pieces[1:]:
        out += ("-" if known and is_name else "_") + piece
        known = is_name
    return out


def table():
    names, rattles = declared(), labels()
    plain = {n for n in names if not names[n]} | imported()
    rows = {}
    for name, lemma in names.items():
        if name not in rattles:
            new = spelled(name, lemma, plain)
            if new != name:
                rows[name] = new
    rows.update(EXTRA)
    return rows, names


def imported():
    found = set()
    for path in antt_files():
        for items in re.findall(r"use Rattle\.std[^{\n]*\{([^}]*)\}", path.read_text()):
            for item in items.split(","):
                found |= set(item.split(" as "))
    return {f.strip() for f in found}


def collisions(rows, names):
    by_new = collections.defaultdict(set)
    for old, new in rows.items():
        by_new[new].add(old)
    for name in set(names) | imported():
        if name not in rows and name in by_new:
            by_new[name].add(name)
    return {new: olds for new, olds in by_new.items() if len(olds) > 1}


def turned(text, rows):
    return WORD.sub(lambda m: rows.get(m[0], m[0]), text)


def turn_antt(text, rows):
    parts = re.split(r'(--[^\n]*|"(?:[^"\\\n]|\\.)*")', text)
    return "".join(p if i % 2 else turned(p, rows) for i, p in enumerate(parts))


def turn_rattle(text, rows):
    """In a source only imports, clauses and ghost items turn; a dash between words stands nowhere else."""
    parts = re.split(r'(//[^\n]*|b?"(?:[^"\\\n]|\\.)*")', text)
    return "".join(p if i % 2 else turned(p, rows) for i, p in enumerate(parts))


def turn_prose(text, rows):
    return re.sub(r"`[^`\n]+`", lambda m: turned_span(m[0], rows), text)


def turned_span(span, rows):
    inner = span[1:-1]
    return "`" + WORD.sub(lambda m: rows.get(m[0], m[0]), inner) + "`"


def main():
    rows, names = table()
    clashes = collisions(rows, names)
    for new, olds in sorted(clashes.items()):
        print("falls together:", new, "from", ", ".join(sorted(olds)))
    if "--check" in sys.argv:
        for old, new in sorted(rows.items()):
            print(old, new, "lemma" if names.get(old) else "")
        return
    if clashes:
        sys.exit(1)
    files = [(p, turn_antt) for p in antt_files()]
    files += [(p, turn_rattle) for p in sorted(pathlib.Path("crates").glob("*/src/**/*.rt"))]
    files += [(p, turn_prose) for p in [pathlib.Path("README.md"), *sorted(pathlib.Path("docs").glob("*.md"))]]
    for path, turn in files:
        text = path.read_text()
        new = turn(text, rows)
        if new != text:
            path.write_text(new)


main()
