#!/usr/bin/env python3
"""Whether each wrong program is refused because its own fact fails: the logs that tools/edit_logs.py makes against tools/false_facts.txt.

    false_facts.py FOLDER            reads the table, the edits of crates/*/must-fail and their logs FOLDER/CRATE/EDIT.log
    false_facts.py FOLDER CRATE ..   what there is of these crates alone
    false_facts.py --self-test       spoils a table, an edit and a log in turn, and wants each to be found

`rt` asks of an edit that the prover refuses its crate, so that one wrong program could hide behind another of the same edit. Here each is
asked for by itself: the place that the table names must have an error of its own there, about the fact that the table names, and not one
that only shows that the proof no longer fits the code. Every edit must be in the table with all its wrong programs, and every public
function must have two of them at least.
"""
import collections
import pathlib
import re
import sys
import tempfile
from dataclasses import dataclass

ROOT = pathlib.Path(__file__).resolve().parent.parent
ENOUGH = 2  # so many wrong programs a public function must have

FIELDS = ['edit', 'program', 'contract', 'place', 'fact', 'told']
ERROR = re.compile(r'^(?:\./)?(\S+?):\d+:\d+: error: (?:`([^`]+)`: )?(.*)$')
UNPROVED = re.compile(r'^note: (src/\S+\.rt):(\d+):\d+: it is not proved that .*\(`([^`]+)`\)')
PUBLIC = re.compile(r'^\s*pub (?:extern "C" )?fn (\w+)', re.M)
NAMED = re.compile(r'^# (\w+)', re.M)

FUNCTION = re.compile(r'^\s*(?:pub(?:\(\w+\))? )?(?:extern "C" )?fn (\w+)')

# what an error may not say: it follows from another one, or the proof no longer fits the code
FOLLOWS = re.compile(r'^\d+ declarations? that depends? on ')
MISFITS = ('has no `', 'has no field', 'is not in scope')


@dataclass(frozen=True)
class Row:
    """A line of the table: the edit, a wrong program of it, the contracts that it breaks, the place of its error, the fact, in words."""
    edit: str
    program: str
    contract: str
    place: str
    fact: str
    told: str


# ---- what is read

def rows_of(text):
    """The rows of the table; a line of another number of fields ends the run."""
    rows = []
    for number, line in enumerate(text.splitlines(), 1):
        if line and not line.startswith('#'):
            fields = [field.strip() for field in line.split(' | ')]
            if len(fields) != len(FIELDS):
                sys.exit(f'false_facts.txt, line {number}: {len(fields)} fields, and there are {len(FIELDS)}: {", ".join(FIELDS)}')
            rows.append(Row(*fields))
    return rows


def edits_of(root):
    """The wrong programs of each edit: those that it names, or itself where it is but one."""
    paths = sorted(root.glob('crates/*/must-fail/*.edit'))
    return {f'{path.parts[-3]}/{path.stem}': NAMED.findall(path.read_text()) or [path.stem] for path in paths}


def public_of(root):
    """The public functions of each library."""
    found = set()
    for path in sorted(root.glob('crates/*/src/*.rt')):
        if (path.parent / 'lib.rt').exists():
            found |= {f'{path.parts[-3]}::{name}' for name in PUBLIC.findall(path.read_text())}
    return found


def place_of(path):
    """A file of a log's error as the table names it."""
    return re.sub(r'^proofs/|/(?:Answers|Invariants|Proof)\.antt$|\.antt$', '', path)


def function_at(crate, path, line):
    """The function with this line of a file of src/, by its place under proofs/. An edit moves no line."""
    lines = (crate / path).read_text().splitlines()
    at = next((k for k in range(line - 1, len(lines)) if not lines[k].lstrip().startswith('#[')), len(lines) - 1)
    names = [name[1] for name in map(FUNCTION.match, lines[:at + 1]) if name]
    module = re.sub(r'^src/|\.rt$', '', path)
    return '/'.join(([] if module in ('lib', 'main') else [module]) + names[-1:])


def errors_of(log, crate):
    """The errors of a log by place and fact: what each says. An error that follows from another is left out. A fact that no file answers, and
    that the prover does not find by itself, is told by its place in the code."""
    found = collections.defaultdict(list)
    for line in log.splitlines():
        error, unproved = ERROR.match(line), UNPROVED.match(line)
        if error and not FOLLOWS.match(error[3]):
            found[place_of(error[1]), error[2] or '-'].append(error[3])
        if unproved:
            found[function_at(crate, unproved[1], int(unproved[2])), unproved[3]].append('it is not proved')
    return found


# ---- what is asked

def wrong_table(rows, edits):
    """Edits and wrong programs that the table lacks or has twice, or has though they are gone; two of an edit at one place."""
    for edit, programs in edits.items():
        told = [row.program for row in rows if row.edit == edit]
        if sorted(set(told)) != sorted(programs):
            yield f'{edit} has the wrong programs {sorted(programs)}, and the table {sorted(set(told))}'
    for edit in {row.edit for row in rows} - set(edits):
        yield f'{edit} is in the table, and there is no such edit'
    owners = collections.defaultdict(set)
    for row in rows:
        owners[row.edit, row.place].add(row.program)
    for (edit, place), programs in owners.items():
        if len(programs) > 1:
            yield f'{edit}: {sorted(programs)} have one place, {place}, so that none has an error of its own'


def wrong_row(row, errors):
    """What is amiss with a row, by the errors of its log."""
    name = f'{row.edit}: {row.program}'
    misfits = [text for (place, _), texts in errors.items() if place == row.place for text in texts if misfit_of(text)]
    if misfits:
        return [f'{name}: the proof in {row.place} does not fit the code, which shows nothing: {misfits[0][:120]}']
    if not errors.get((row.place, row.fact)):
        facts = sorted(fact for place, fact in errors if place == row.place)
        return [f'{name}: no error of its own in {row.place} about {row.fact}' + (f', only about {facts}' if facts else '')]
    return []


def misfit_of(text):
    """Whether an error only says that the proof does not fit the code."""
    return any(word in text for word in MISFITS)


def wrong_contracts(rows, public):
    """Public functions with too few wrong programs, and contracts that there are not."""
    broken = collections.defaultdict(set)
    for row in rows:
        for contract in row.contract.split(', '):
            broken[contract].add((row.edit, row.program))
    for name in sorted(public):
        if len(broken[name]) < ENOUGH:
            yield f'{name} has {len(broken[name])} wrong programs, and {ENOUGH} at least are asked for'
    for name in sorted(set(broken) - public - {'-'}):
        yield f'{name} is no public function'


def unexplained(edit, rows, errors):
    """Places with an error in a log of wrong programs that no row names: there a proof failed that the edit was not aimed at."""
    named = {row.place for row in rows if row.edit == edit}
    return [f'{edit}: an error in {place} about {fact}, which the table does not name' for place, fact in errors if place not in named]


def faults_of(root, logs, rows, edits, public):
    """All that is amiss, and how many errors were read."""
    faults, read = [*wrong_table(rows, edits), *wrong_contracts(rows, public)], 0
    for edit in edits:
        log = logs / f'{edit}.log'
        if not log.exists():
            faults.append(f'{edit} was not tried: it has no log')
            continue
        errors = errors_of(log.read_text(), root / 'crates' / edit.split('/')[0])
        faults += [fault for row in rows if row.edit == edit for fault in wrong_row(row, errors)]
        faults += unexplained(edit, rows, errors) if of_programs(root, edit) else []
        read += sum(map(len, errors.values()))
    return faults, read


def of_programs(root, edit):
    """Whether an edit changes programs and no meaning, so that each error must lie where a program was changed."""
    crate, name = edit.split('/')
    return 'file: specs/' not in (root / 'crates' / crate / 'must-fail' / f'{name}.edit').read_text()


def check(root, logs, crates):
    """Ends the run with what is amiss, or says what was read."""
    rows = rows_of((root / 'tools' / 'false_facts.txt').read_text())
    edits, public = edits_of(root), public_of(root)
    if crates:
        rows = [row for row in rows if row.edit.split('/')[0] in crates]
        edits = {edit: programs for edit, programs in edits.items() if edit.split('/')[0] in crates}
        public = {name for name in public if name.split('::')[0] in crates}
    faults, read = faults_of(root, logs, rows, edits, public)
    for fault in faults:
        print(f'false_facts: {fault}')
    if faults:
        sys.exit(1)
    programs = {(row.edit, row.program) for row in rows}
    print(f'{len(edits)} edits, {len(programs)} wrong programs, {len(rows)} false facts: each is an error of its own among {read}; '
          f'{len(public)} public functions have two wrong programs at least')


# ---- the test of this tool

EDIT = '# first: of the account\nfile: src/lib.rt\nold: a\nnew: b\n# second\nold: c\nnew: d\n# bare: has no proof file\nold: e\nnew: f\n'
TABLE = ('account/programs_1 | first | account::account | account | good | x\n'
         'account/programs_1 | second | account::account | judging/rank | good | y\n'
         'account/programs_1 | bare | - | judging/spread | returns | z\n')
CODE = 'fn rank(n: usize)\n{\n}\n\n#[inline]\npub(super) fn spread(n: usize)\n{\n}\n'
LOG = ('checked account::account, 1 of 3\n'
       './proofs/account/Answers.antt:7:1: error: `good`: `omega`: the goal does not follow\n  (expected)\n'
       './proofs/account/Answers.antt:9:1: error: 2 declarations that depend on `good`, which was rejected, were not checked: fit, returns\n'
       './proofs/judging/rank/Answers.antt:7:1: error: `good`: the types differ\n'
       './proofs/judging/rank/Answers.antt:6:1: note: the two sides may simply be different (in `good`)\n'
       'note: src/judging.rt:5:1: it is not proved that what the function ensures holds when it returns (`returns`); `search` gave up\n'
       'fn account::judging::rank: not proved\n'
       'fn account::judging::spread: no proof: expected answers in ./proofs/judging/spread/Answers.antt; `search` did not prove `returns`\n'
       'fn account::account: not proved; it calls `account::judging::rank`, which is not proved\n')
SPOILED = [  # what is spoiled, what is put for what, and what must be found
    ('table', '| second |', '| third |', 'has the wrong programs'),
    ('table', 'judging/rank | good', 'account | good', 'so that none has an error of its own'),
    ('table', 'account::account | judging', 'account::rank | judging', 'wrong programs, and 2'),
    ('table', 'rank | good', 'rank | returns', 'no error of its own in judging/rank'),
    ('log', 'judging/rank/Answers', 'judging/tally/Answers', 'no error of its own in judging/rank'),
    ('log', 'judging/rank/Answers', 'judging/tally/Answers', 'an error in judging/tally'),
    ('log', 'judging/rank/Answers', 'Tally', 'an error in Tally'),
    ('log', 'the types differ', '`goal.good`: module `Goals` has no `good` that can be named from here', 'shows nothing'),
    ('log', 'the types differ', 'record `Lts.Else` has no field `if-n-lt2`', 'shows nothing'),
    ('log', '`good`: the types differ', '1 declaration that depends on `fit`, which was not admitted, was not checked: good',
     'no error of its own in judging/rank'),
    ('log', '(`returns`); `search`', '(`fit`); `search`', 'no error of its own in judging/spread'),
    ('log', 'judging.rt:5', 'judging.rt:3', 'no error of its own in judging/spread'),
    ('edit', '# second', '# other', 'has the wrong programs'),
]


def faults_in(files):
    """What is found in a made-up house of one crate."""
    with tempfile.TemporaryDirectory() as place:
        root = pathlib.Path(place)
        for name, text in files.items():
            (root / name).parent.mkdir(parents=True, exist_ok=True)
            (root / name).write_text(text)
        rows = rows_of(files['tools/false_facts.txt'])
        return faults_of(root, root / 'logs', rows, edits_of(root), public_of(root))[0]


def house(**spoiled):
    """The files of the made-up house, some of them spoiled."""
    parts = {'table': TABLE, 'edit': EDIT, 'log': LOG} | spoiled
    return {'tools/false_facts.txt': parts['table'], 'crates/account/must-fail/programs_1.edit': parts['edit'],
            'logs/account/programs_1.log': parts['log'], 'crates/account/src/lib.rt': 'pub fn account(n: usize)\n',
            'crates/account/src/judging.rt': CODE}


def self_test():
    """Nothing is amiss in the made-up house, and each spoiling of it is found."""
    parts = {'table': TABLE, 'edit': EDIT, 'log': LOG}
    if faults_in(house()):
        sys.exit(f'false_facts: found in a house where nothing is amiss: {faults_in(house())}')
    for part, old, new, wanted in SPOILED:
        faults = faults_in(house(**{part: parts[part].replace(old, new)}))
        if not any(wanted in fault for fault in faults):
            sys.exit(f'false_facts: {new} for {old} in the {part} was not found: {faults}')
    gone = {name: text for name, text in house().items() if not name.endswith('.log')}
    if not any('was not tried' in fault for fault in faults_in(gone)):
        sys.exit('false_facts: an edit without a log was not found')
    print(f'false_facts: {len(SPOILED) + 1} spoilings of a made-up house are each found')


if __name__ == '__main__':
    if sys.argv[1:] == ['--self-test']:
        self_test()
    elif len(sys.argv) > 1 and not sys.argv[1].startswith('-'):
        check(ROOT, pathlib.Path(sys.argv[1]), sys.argv[2:])
    else:
        sys.exit(__doc__)
