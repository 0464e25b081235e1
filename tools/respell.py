#!/usr/bin/env python3
"""Spells this repository's own definitions and lemmas as today's Rattle does: words in snake case, types in camel case.

usage: tools/respell.py

It was run once, straight after the toolchain's own port.py, at the commit that docs/PORT.md names in its second line. It reads every name
that specs/ and proofs/ declare, and writes each that has a hyphen with underscores, in specs/, proofs/, the contracts of src/, the must-fail
edits and, between backticks, in comments and pages. What src/ declares, exported names, strings, inputs and outputs keep their names. A name
that an own file imports from the toolchain's library keeps its spelling there. It stops where two names would fall together.
"""

import collections
import glob
import os
import re

os.chdir(os.path.join(os.path.dirname(os.path.abspath(__file__)), ".."))

DECLARED = re.compile(
    r"^(\s*)((?:(?:unfoldable|abbrev|pub|private)\s+)*)(record|data|ruleset)?\s*([^\s(){}.;,@\"«»:λ]+)"
    r"((?:\s*(?:\([^()]*(?:\([^()]*\)[^()]*)*\)|\{[^{}]*\}))*)\s*:(?:\s|$)"
)
# A word that stands in a text: a name, cut as antt cuts it.
WORD = re.compile(r"[^\s(){}.;,@\"«»`]+")
# Types, which are in camel case.
TYPES = {"Arg-work": "ArgWork", "Lasts-work": "LastsWork"}
# A parameter of src/ has the name that this definition would get, and would hide it in its own contract.
HIDDEN = {"class-locals": "class_locals_of"}
# The fields of a record that share the name of such a definition: they hide nothing.
FIELDS = {"class-locals": "class_locals"}


def antt_files():
    inside = glob.glob("crates/*/specs/**/*.antt", recursive=True) + glob.glob("crates/*/proofs/**/*.antt", recursive=True)
    return sorted(inside)


def text_of(path):
    with open(path, encoding="utf-8") as file:
        return file.read()


def declared(paths):
    """The names that the files declare."""
    names = set()
    for path in paths:
        for line in text_of(path).split("\n"):
            found = None if line.lstrip().startswith("--") else DECLARED.match(line)
            if found and re.search(r"\w", found.group(4)):
                names.add(found.group(4))
    return names


def spelled(name):
    return TYPES.get(name) or HIDDEN.get(name) or name.replace("-", "_")


def from_libraries(text):
    """The names that a text imports from the toolchain's libraries."""
    names = set()
    for where, what in re.findall(r"use ([^\s;{]+)\.\{([^}]*)\}", text):
        if not where.startswith("Rattle.") or where.startswith("Rattle.std"):
            names |= {it.strip().split(" as ")[0] for it in what.split(",")}
    return names


def turn_words(text, names, fields=False):
    def turn(found):
        word = found.group(0)
        if word not in names:
            return word
        if word in FIELDS and (fields or found.string[found.start() - 1 : found.start()] == "."):
            return FIELDS[word]
        return spelled(word)

    return WORD.sub(turn, text)


def turn_ticks(text, names):
    """Between backticks alone, as in comments and pages."""
    return re.sub(r"`[^`\n]+`", lambda it: turn_words(it.group(0), names), text)


def is_field_line(path, line):
    return path.endswith("agreement/specs/EveryFigure.antt") and (
        re.match(r"\s*(pub )?class-locals( :| = )", line) or line.startswith("lists locals ")
    )


def turn_code(path, text, names, comment):
    kept = names - from_libraries(text)
    lines = []
    for line in text.split("\n"):
        if line.lstrip().startswith(comment):
            lines.append(turn_ticks(line, kept))
        else:
            lines.append(turn_words(line, kept, is_field_line(path, line)))
    return "\n".join(lines)


def turn_edit(text, names):
    return "\n".join(turn_words(it, names) if re.match(r"(old|new):", it) else it for it in text.split("\n"))


def apart(names):
    """Two names that fall together are an error: a word that is there already may not be what another becomes, unless it is a Rust name."""
    new = collections.Counter(spelled(it) for it in names)
    twice = [it for it, many in new.items() if many > 1]
    assert not twice, twice


def turned_before(every):
    """Names that port.py has spelled anew: edits and pages, which it does not read, have them with hyphens still."""
    return {it.replace("_", "-") for it in every if "_" in it and "-" not in it}


def main():
    paths = antt_files()
    every = declared(paths)
    names = {it for it in every if "-" in it}
    apart(names)
    both = names | turned_before(every)
    here = {}
    for path in paths:
        here[path] = turn_code(path, text_of(path), names, "--")
    for path in glob.glob("crates/*/src/**/*.rt", recursive=True):
        here[path] = turn_code(path, text_of(path), names, "//")
    for path in glob.glob("crates/*/must-fail/*.edit"):
        here[path] = turn_edit(text_of(path), both)
    for path in ["README.md", *glob.glob("docs/**/*.md", recursive=True)]:
        here[path] = turn_ticks(text_of(path), both)
    many = 0
    for path, text in here.items():
        if text != text_of(path):
            many += 1
            with open(path, "w", encoding="utf-8") as file:
                file.write(text)
    print(f"{len(names)} names, {many} files")


if __name__ == "__main__":
    main()
