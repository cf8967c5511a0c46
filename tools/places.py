#!/usr/bin/env python3
"""Counts the places in src/ that docs/DESIGN-PASS.md speaks of.

tools/places.py [--list] [COMMIT]     of a commit, or of the files as they are
"""
import collections
import pathlib
import re
import subprocess
import sys

ROOT = pathlib.Path(__file__).resolve().parent.parent


def sources(commit):
    if commit is None:
        for path in sorted(ROOT.glob("crates/*/src/**/*.rt")):
            yield str(path.relative_to(ROOT)), path.read_text()
        return
    names = subprocess.run(["git", "ls-tree", "-r", "--name-only", commit, "crates"], cwd=ROOT, capture_output=True, text=True, check=True)
    for name in sorted(names.stdout.split()):
        if re.fullmatch(r"crates/[^/]+/src/.*\.rt", name):
            yield name, subprocess.run(["git", "show", f"{commit}:{name}"], cwd=ROOT, capture_output=True, text=True, check=True).stdout


def code_of(text):
    return [line if not line.lstrip().startswith(("//", "ghost use", "requires", "ensures")) else "" for line in text.split("\n")]


def by_line(pattern):
    compiled = re.compile(pattern)
    return lambda name, text: [f"{name}:{i + 1}: {line.strip()}" for i, line in enumerate(code_of(text)) if compiled.search(line)]


def functions(name, text):
    """Each function: where it stands, its name, its parameters and the tokens of its body."""
    for match in re.finditer(r"\bfn (\w+)(?:<[^(]*>)?\(", text):
        depth, i = 1, match.end()
        while depth:
            depth += {"(": 1, ")": -1}.get(text[i], 0)
            i += 1
        parameters = text[match.end():i - 1]
        lines, body, depth = text[i:].split("\n"), [], 0
        for line in lines:
            if re.match(r"\s*(requires|ensures)\b", line):
                continue
            body.append(line)
            depth += line.count("{") - line.count("}")
            if depth == 0 and ("}" in line or ";" in line):
                break
        tokens = re.findall(r"\w+|[^\s\w]", re.sub(r"b?'(\\\\)?.'", "_", "\n".join(body[1:])))
        yield f"{name}:{text.count(chr(10), 0, match.start()) + 1}: {match.group(1)}", match.group(1), parameters, tokens


WORDS = {"if", "else", "while", "for", "in", "return", "match", "let", "mut", "loop", "as", "self", "true", "false"}


def twins(files):
    """Functions whose bodies differ in names and numbers alone."""
    groups = collections.defaultdict(list)
    for name, text in files:
        for place, _, _, tokens in functions(name, text):
            if len(tokens) > 12:
                groups[tuple(t if not re.match(r"\w", t) or t in WORDS else "_" for t in tokens)].append(place)
    return [" = ".join(g) for g in groups.values() if len(g) > 1]


def together(files, least):
    """Runs of parameters that three functions or more are given alike."""
    seen = collections.defaultdict(list)
    for name, text in files:
        for place, _, parameters, _ in functions(name, text):
            names = [p.strip().split(":")[0].strip() for p in re.split(r",(?![^<\[(]*[>\])])", parameters) if p.strip()]
            for i in range(len(names) - least + 1):
                seen[tuple(names[i:i + least])].append(place)
    return [f"{', '.join(run)}: {len(places)} functions" for run, places in sorted(seen.items()) if len(places) > 2 and "self" not in run[0]]


def each(count):
    return lambda files: [place for name, text in files for place in count(name, text)]


POINTS = [
    ("1 enums (own Option or Result shapes are told apart by reading)", each(by_line(r"^\s*(pub )?enum "))),
    ("1 numbers for kinds or refusals: parameters and fields", each(by_line(r"\b(number|code|op|kind|side|word): (usize|u64|u32|u16|u8)\b"))),
    ("1 numbers for kinds or refusals: constants", each(by_line(r"^\s*(pub )?const (DONE|REFUSED|PASSES|EMPTY|FAILS|HOLDS|VACANT|X|COLLISION|OPERANDS): "))),
    ("1 numbers for refusals written at a call", each(by_line(r"\b(in_block|pack_refused|refusal|broken_in|first_wrong|first_broken)\((number: )?[0-9]|number: [0-9]"))),
    ("2 functions alike but for names and numbers: groups", twins),
    ("3 loops other than for", each(by_line(r"\bwhile\b.*\{$|\bloop \{$"))),
    ("3 indexes counted by hand", each(by_line(r"^\s*\w+ [+-]= [0-9]+;$"))),
    ("4 comparisons byte by byte, texts and numbers written by hand", each(by_line(r"\bfn (same|kept|begins|put_digit|put_number|byte_of|digit_of|least|later|fill|copy|clear|wide|low)\b"))),
    ("5 four parameters that travel together", lambda files: together(files, 4)),
    ("6 a list and how far it is filled, parallel lists", each(by_line(r"\bzeros: &|\bes: &mut|\bcs: &mut|\bheads: &|\bnexts: &|, at: usize\) -> usize"))),
    ("7 switches on which step to run", each(by_line(r"if (number|kind|code|op) == [0-9]|match (number|kind|code|op) \{|visit\([0-9]"))),
]


def main(arguments):
    listing = "--list" in arguments
    commits = [a for a in arguments if a != "--list"]
    files = list(sources(commits[0] if commits else None))
    for title, count in POINTS:
        places = count(files)
        print(f"{len(places):4}  {title}")
        if listing:
            for place in places:
                print(f"        {place}")


main(sys.argv[1:])
