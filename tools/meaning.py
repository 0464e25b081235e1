#!/usr/bin/env python3
"""What docs/TRUST.md lists of the house: the files that a buyer must read, with their lengths, and the theorems, by the file that has them.

    meaning.py          prints the table of files
    meaning.py --check  says whether docs/TRUST.md lists the files and the theorems as they are now

A file of specs/ is meaning unless it is named here as working: what private functions ask of each other. A theorem is a public name of a
file of proofs/ that docs/TRUST.md names at the head of a table, or one that such a file passes on; the fields of a record are none.
"""
import pathlib
import re
import sys

ROOT = pathlib.Path(__file__).resolve().parent.parent
WORKING = {'Lib.antt', 'Steps.antt'}
FILE = re.compile(r'`(crates/\w+/proofs/[\w/]+\.antt)`')
NAME = re.compile(r'`([^`\s]+)`')


# ---- the files of meaning

def rows():
    """The rows of the table of files."""
    files = sorted(p for p in ROOT.glob('crates/*/specs/*.antt') if p.name not in WORKING)
    counts = [(p.relative_to(ROOT).as_posix(), len(p.read_text().splitlines())) for p in files]
    return [f'| {name} | {count} |' for name, count in counts] + [f'| together | {sum(c for _, c in counts)} |']


def wrong_files(text):
    """Rows that docs/TRUST.md lacks, and rows that it still has."""
    listed = [line for line in text.splitlines() if line.startswith(('| crates/', '| together '))]
    for row in sorted(set(rows()) ^ set(listed)):
        yield f"{'lacks' if row in rows() else 'still has'} the row {row}"


# ---- the theorems

def listed_theorems(text):
    """The names in the tables of theorems, by the file that the paragraph above the table names first."""
    found, place, above = {}, None, ''
    for line in text[text.index('\n## 2. '):text.index('\n## 3. ')].splitlines():
        file = FILE.search(line)
        if file and not line.startswith('|') and not above:
            place = file[1]
        if line.startswith('| `'):
            found.setdefault(place, []).extend(NAME.findall(line.split(' | ')[0]))
        above = line
    return found


def without_fields(text):
    """The text less the bodies of its records."""
    kept, inside = [], None
    for line in text.splitlines():
        indent = len(line) - len(line.lstrip())
        if inside is not None and line.strip() and indent <= inside:
            inside = None
        if inside is None:
            kept.append(line)
        if re.match(r'\s*(pub )?record\b', line):
            inside = indent
    return '\n'.join(kept)


def theorems_of(path):
    """The public names of a file of proofs, and those that it passes on."""
    text = path.read_text()
    passed = [name.strip() for names in re.findall(r'^\s*pub use [^{]*\{([^}]*)\}', text, re.M) for name in names.split(',')]
    return {name for name in passed if name} | set(re.findall(r'^\s*pub (?!use\b|record\b)(\S+)\s*:', without_fields(text), re.M))


def wrong_theorems(text):
    """Names that a table has and its file has not, and the other way round."""
    for place, names in listed_theorems(text).items():
        there = theorems_of(ROOT / place) if place and (ROOT / place).exists() else set()
        for name in sorted(set(names) - there):
            yield f'names the theorem {name}, and {place} has none of that name'
        for name in sorted(there - set(names)):
            yield f'lacks the theorem {name} of {place}'
        for name in sorted({name for name in names if names.count(name) > 1}):
            yield f'names the theorem {name} of {place} twice'


# ---- the command line

def check():
    """Ends the run with what docs/TRUST.md has wrong, or says what it lists."""
    text = (ROOT / 'docs' / 'TRUST.md').read_text()
    faults = [*wrong_files(text), *wrong_theorems(text)]
    for fault in faults:
        print(f'meaning: docs/TRUST.md {fault}')
    if faults:
        sys.exit(1)
    theorems = listed_theorems(text)
    print(f'meaning: {len(rows()) - 1} files, and {sum(map(len, theorems.values()))} theorems of {len(theorems)} files, '
          'as docs/TRUST.md lists them')


if __name__ == '__main__':
    if sys.argv[1:] == ['--check']:
        check()
    elif len(sys.argv) == 1:
        print('\n'.join(rows()))
    else:
        sys.exit(__doc__)
