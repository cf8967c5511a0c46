#!/usr/bin/env python3
"""Spells the repository's own definitions and lemmas as today's Rattle does: words in snake case, one underscore between them.

usage: python3 tools/respell.py [--check | --table]      at the top of the repository, once

It turns the names that the crates' .antt files declare (definitions, lemmas, fields, constructors that begin with a small letter), wherever they
stand: in .antt files, in the clauses and comments of .rt files, in must-fail edits. Functions of src/, strings, types and what a file takes from
Rattle's own libraries keep their names. Where a lemma would get a function's name it is called NAME_lem.
"""
import collections
import glob
import re
import sys

CRATES = {line.split(":")[0].split()[0] for line in open("crates.txt") if line.strip() and not line.startswith("#")}
NAME = re.compile(r"[^\s(){}.,;«»\[\]`]+")
DECLARED = re.compile(r"(?m)^[ ]*(?:record \{ )?((?:unfoldable |abbrev |pub |record |data )*)((?:[^\s:(){}.,;]+ )*?[^\s:(){}.,;]+)((?: \([^)]*\)| \{[^}]*\})*) :(?= |\n)")
USE = re.compile(r"(?m)^(?:pub )?use ([^\s{}]+?)(?:\.\{([^}]*)\}| as (\S+))?$")
# a definition whose name in snake case is a lemma's already
CHOSEN = {"oneMore": "has_one_more"}
# names that no file declares: what an import is called, and a bound variable
BOUND = {"countsText": "counts_text", "spelledSo": "spelled_so", "refusedAt": "at_place"}


def spelled(name):
    """NAME in snake case."""
    name = name.replace("getD", "get_or")
    name = re.sub(r"(?<=[a-z0-9₀-₉'])(?=[A-Z])", "_", name)
    name = re.sub(r"(?<=[A-Z])(?=[A-Z][a-z])", "_", name)
    name = name.replace("-", "_")
    return name.lower() if not re.search(r"[◌≡≢≤]", name) else name


def antt_files():
    return sorted(glob.glob("crates/*/specs/**/*.antt", recursive=True) + glob.glob("crates/*/proofs/**/*.antt", recursive=True))


def foreign(text):
    """The names that a file takes from Rattle's own libraries."""
    found = set()
    for module, names, alias in USE.findall(text):
        parts = module.split(".")
        if parts[0] == "Rattle" and parts[1] in CRATES:
            continue
        found |= {it.split(" as ")[-1].strip() for it in names.split(",") if it.strip()} | ({alias} if alias else set())
    return found


def declared():
    """Each name that the .antt files declare, with the kind of its declaration."""
    found = collections.defaultdict(set)
    for path in antt_files():
        for words, names, _ in [m.groups() for m in DECLARED.finditer(open(path).read())]:
            for name in names.split():
                found[name].add("definition" if "abbrev" in words or "unfoldable" in words else "lemma")
    return found


def turned():
    """The old and the new name of each that changes."""
    names = declared()
    library = set().union(*(foreign(open(path).read()) for path in antt_files()))
    result, by_new = dict(BOUND), collections.defaultdict(set)
    for name in sorted(names):
        if not re.match(r"[a-z]", name) or not re.search(r"[A-Z-]", name):
            continue
        by_new[CHOSEN.get(name) or spelled(name)].add(name)
    for new, olds in by_new.items():
        # a definition goes first, and a lemma beside it, or beside a word that is there already, is told apart
        order = sorted(olds, key=lambda it: ("definition" not in names[it], it))
        taken = new in names or new in library
        for old in order:
            result[old] = new + "_lem" if taken else new
            taken = True
    return result


def turn_text(text, table, keep, strings):
    """TEXT with its names turned, but those in KEEP and, where STRINGS, what stands in quotes."""
    def one(match):
        name = match.group(0)
        return name if name in keep else table.get(name, name)

    if not strings:
        return NAME.sub(one, text)
    return "".join(part if part.startswith('"') else NAME.sub(one, part) for part in re.split(r'("(?:[^"\\\n]|\\.)*")', text))


def main():
    table = turned()
    if "--table" in sys.argv:
        print("\n".join(f"{a}\t{b}" for a, b in sorted(table.items())))
        return
    sources = sorted(glob.glob("crates/*/src/**/*.rt", recursive=True)) + sorted(glob.glob("crates/*/must-fail/*.edit"))
    pages = ["README.md"] + sorted(glob.glob("docs/**/*.md", recursive=True))
    for path in antt_files() + sources + pages:
        text = open(path).read()
        if path.endswith(".md"):
            new = re.sub(r"`[^`\n]*`", lambda it: turn_text(it.group(0), table, set(), False), text)
        else:
            new = turn_text(text, table, foreign(text) if path.endswith(".antt") else set(), not path.endswith(".antt"))
        if new != text:
            print(path)
            if "--check" not in sys.argv:
                open(path, "w").write(new)


main()
