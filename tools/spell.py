#!/usr/bin/env python3
"""Spells this repository's own definitions, lemmas, fields and local facts as today's Rattle does:
words in snake case (`check-byte` is `check_byte`), facts and types in camel case (`Put-down` is `PutDown`).

    python3 tools/spell.py          at the top of the repository, right after port.py; it rewrites files in place
    python3 tools/spell.py --list   says what would be renamed, and changes nothing

A name is ours if a file of specs/, or a lemma file of proofs/, has it and imports it from no library.
Functions, fields and constants of src/, strings, comments, inputs and outputs are left alone. In pages (*.md) only
what stands between backticks is respelled. It stops where two names would fall together."""
import glob
import re
import sys

TOKEN = re.compile(r"(?<![A-Za-z0-9_'\-])([A-Za-z_][A-Za-z0-9_']*(?:-[A-Za-z0-9_']+)+)(?![A-Za-z0-9_'\-])")
ANY = re.compile(r"(?<![A-Za-z0-9_'\-])([A-Za-z_][A-Za-z0-9_']*(?:-[A-Za-z0-9_']+)*)(?![A-Za-z0-9_'\-])")


def read(path):
    with open(path, encoding="utf-8") as f:
        return f.read()


def comment_mark(path):
    return "--" if path.endswith(".antt") else "//"


def code(path):
    mark = comment_mark(path)
    return "\n".join(line.split(mark)[0] for line in read(path).split("\n"))


def spelled(name):
    words = name.split("-")
    if name[0].isupper():
        return words[0] + "".join(w[0].upper() + w[1:] for w in words[1:])
    return "_".join(words)


def crates():
    return sorted(glob.glob("crates/*/"))


def of_library(path):
    """Names that a file imports from outside the repository."""
    own = {c.split("/")[1] for c in crates()}
    out = set()
    for m in re.finditer(r"use ([A-Za-z0-9_.]+)\.\{([^}]*)\}", read(path)):
        parts = m.group(1).split(".")
        if parts[0] == "Rattle" and len(parts) > 1 and parts[1] in own:
            continue
        out |= {n.strip() for n in m.group(2).split(",")}
    return out


def own_names():
    library, names = set(), set()
    files = glob.glob("crates/*/specs/**/*.antt", recursive=True)
    lemmas = glob.glob("crates/*/proofs/*.antt")
    for path in files + lemmas + glob.glob("crates/**/Answers.antt", recursive=True):
        library |= of_library(path)
    for path in files + lemmas:
        names |= set(TOKEN.findall(code(path)))
    # the labels of clauses, which answers name as src/ has them
    labels = set()
    for path in glob.glob("crates/*/src/**/*.rt", recursive=True):
        labels |= set(re.findall(r"(?:ensures|requires) ([a-z_0-9]+) \{", code(path)))
    cited = set()
    for path in glob.glob("crates/**/Answers.antt", recursive=True):
        cited |= {n for n in TOKEN.findall(code(path)) if n.replace("-", "_") in labels}
    return (names - library) | cited


def main():
    listing = "--list" in sys.argv[1:]
    names = own_names()
    table = {n: spelled(n) for n in sorted(names)}
    # two names must not fall together in one file
    bad = False
    for path in glob.glob("crates/*/specs/**/*.antt", recursive=True) + glob.glob("crates/*/proofs/**/*.antt", recursive=True):
        # a module in the path of a `use` line is no name of the file
        have = set(ANY.findall(re.sub(r"use [A-Za-z0-9_.]+", "use ", code(path))))
        for old, new in table.items():
            if old in have and new in have:
                print(f"falls together: {path}: {old} and {new}")
                bad = True
    if listing:
        for old, new in table.items():
            print(f"{old} -> {new}")
    if bad and "--anyhow" not in sys.argv[1:]:
        sys.exit(1)
    if listing:
        return

    def respell(text):
        return TOKEN.sub(lambda m: table.get(m.group(1), m.group(1)), text)

    paths = glob.glob("crates/**/*.antt", recursive=True) + glob.glob("crates/**/*.rt", recursive=True)
    for path in sorted(paths):
        mark = comment_mark(path)
        out = []
        for line in read(path).split("\n"):
            i = line.find(mark)
            head, tail = (line, "") if i < 0 else (line[:i], line[i:])
            pieces = re.split(r'("(?:[^"\\]|\\.)*")', head) if path.endswith(".rt") else [head]
            head = "".join(p if p.startswith('"') else respell(p) for p in pieces)
            out.append(head + tail)
        new = "\n".join(out)
        if new != read(path):
            with open(path, "w", encoding="utf-8") as f:
                f.write(new)
    for path in ["README.md"] + glob.glob("docs/*.md"):
        text = read(path)
        new = re.sub(r"`[^`\n]+`", lambda m: respell(m.group(0)), text)
        if new != text:
            with open(path, "w", encoding="utf-8") as f:
                f.write(new)


main()
