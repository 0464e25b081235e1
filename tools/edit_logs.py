#!/usr/bin/env python3
"""Tries each edit of crates/*/must-fail and keeps all that the prover says of it, since `rt ci` tells no more than the first error.

    edit_logs.py FOLDER            tries every edit, and puts what is said into FOLDER/CRATE/EDIT.log
    edit_logs.py FOLDER CRATE ..   the edits of these crates alone
    edit_logs.py --self-test       applies edits to a made-up crate, good ones and bad ones, and begins a try where another one was

An edit is made in a copy of the crates, one copy for each processor, and `rt check` is run there. Each begins with what checks of the crate
as it stands keep in its folder, so that it proves little more than what the edit changes: a crate of which nothing is kept there is checked
first, and what another edit has left is never begun with, since it lacks what that edit broke. No verdict rests on these logs: `rt ci` tries
every edit by itself. They are read by tools/false_facts.py.
"""
import os
import pathlib
import queue
import re
import shutil
import subprocess
import sys
import tempfile
import threading

ROOT = pathlib.Path(__file__).resolve().parent.parent
A_CHECK = 4 << 20  # so many kB of memory a check may take
KEPT = 'out/incremental'  # where checks keep what they have proved, in the crate's folder
PROVED = '.oantt'  # the end of the name of a file that a check replaces, and never changes
REFUSED = re.compile('^(logic=not-proved|rattle: no verdict)', re.M)  # what a check says that has come to the prover and refuses the crate


# ---- what an edit changes

def edited(text, read):
    """The files that an edit changes, as it leaves them, by the rules of `rt`: its pairs are applied in turn, and what a pair replaces
    stands in the file exactly once. `read` gives a file as it is."""
    path, old, files = None, None, {}
    for line in text.splitlines():
        if line.startswith('file: '):
            path = line.removeprefix('file: ').strip()
        elif line.startswith('old: '):
            old = line.removeprefix('old: ')
        elif line.startswith('new:'):
            now = files.get(path) or read(path)
            if now.count(old) != 1:
                raise ValueError(f'{path} has {now.count(old)} times, and not once: {old}')
            files[path] = now.replace(old, line.removeprefix('new:').removeprefix(' '))
    return files


# ---- the copies

def copy_crates(place):
    """A copy of the crates that `rt` takes for a repository; what it made of them stays behind."""
    shutil.copytree(ROOT / 'crates', place / 'crates', ignore=shutil.ignore_patterns('out'))
    for name in ('crates.txt', 'HANDLES'):
        if (ROOT / name).exists():
            shutil.copy(ROOT / name, place / name)


def checked(crate, *flags):
    """What a check in the crate's folder says, and its status."""
    return subprocess.run(['rt', 'check', *flags], cwd=crate, stdin=subprocess.DEVNULL, stdout=subprocess.PIPE, stderr=subprocess.STDOUT,
                          text=True, errors='replace')


def keep_something(crates):
    """Has each of the crates checked of which nothing is kept."""
    for crate in crates:
        if not any((crate / KEPT).glob('*')):
            check = checked(crate)
            if check.returncode:
                sys.exit(f'edit_logs: {crate.name} is not proved as it stands: {check.stdout[-300:]}')


def link(old, new):
    """Gives what was proved a second name, where this can be done, and copies what a check may write into."""
    try:
        if old.endswith(PROVED):
            os.link(old, new)
            return
    except OSError:
        pass
    shutil.copy2(old, new)


def begin_afresh(crate, copy):
    """Has the next check of the copy begin with what is kept of the crate, and with nothing else."""
    shutil.rmtree(copy / KEPT, ignore_errors=True)
    shutil.copytree(crate / KEPT, copy / KEPT, copy_function=link)


def tried(place, edit):
    """What the check of an edit says. The text of the copy is afterwards as it was."""
    crate = place / 'crates' / edit.parts[-3]
    begin_afresh(edit.parent.parent, crate)
    files = edited(edit.read_text(), lambda path: (crate / path).read_text())
    before = {path: (crate / path).read_text() for path in files}
    for path, text in files.items():
        (crate / path).write_text(text)
    try:
        return checked(crate, '--jobs', '1').stdout
    finally:
        for path, text in before.items():
            (crate / path).write_text(text)


# ---- all of them, side by side

def at_once():
    """So many checks as there are processors, and memory for."""
    memory = re.search(r'^MemAvailable: *(\d+) kB', pathlib.Path('/proc/meminfo').read_text(), re.M)
    return max(1, min(len(os.sched_getaffinity(0)), int(memory[1]) // A_CHECK))


def try_all(edits, folder):
    """Puts the log of each edit below the folder, and ends the run where one was not refused or could not be tried."""
    waiting, faults = queue.SimpleQueue(), []
    keep_something(sorted({edit.parent.parent for edit in edits}))
    for edit in edits:
        waiting.put(edit)

    def work(place):
        copy_crates(place)
        while True:
            try:
                edit = waiting.get_nowait()
            except queue.Empty:
                return
            name = f'{edit.parts[-3]}/{edit.stem}'
            log = folder / f'{name}.log'
            log.parent.mkdir(parents=True, exist_ok=True)
            try:
                said = tried(place, edit)
                log.write_text(said)
                if not REFUSED.search(said):
                    faults.append(f'{name} is not refused by the prover, and the last that is said is: {said[-300:]}')
            except (OSError, ValueError) as error:
                faults.append(f'{name} cannot be tried: {error}')

    with tempfile.TemporaryDirectory() as room:
        workers = [threading.Thread(target=work, args=[pathlib.Path(room) / str(number)]) for number in range(at_once())]
        for worker in workers:
            worker.start()
        for worker in workers:
            worker.join()
    if faults:
        sys.exit('\n'.join(f'edit_logs: {fault}' for fault in faults))


# ---- the test of this tool

FILES = {'src/lib.rt': 'a\nb\nc\n', 'specs/Lib.antt': 'd\n'}
GOOD = '# one\nfile: src/lib.rt\nold: a\nnew: b b\n# two\nold: c\nnew:\nfile: specs/Lib.antt\nold: d\nnew:  e\n'
MADE = {'src/lib.rt': 'b b\nb\n\n', 'specs/Lib.antt': ' e\n'}
BAD = {'what an earlier pair has doubled': GOOD + 'file: src/lib.rt\nold: b\nnew: a\n', 'what is not there': GOOD.replace('old: a', 'old: x')}


LEFT = {f'a{PROVED}': 'proved', 'list': 'a'}  # what is kept of a made-up crate


def put(crate, files):
    """Puts files, each as a new one, into what is kept of a crate."""
    (crate / KEPT).mkdir(parents=True, exist_ok=True)
    for name, text in files.items():
        (crate / KEPT / name).unlink(missing_ok=True)
        (crate / KEPT / name).write_text(text)


def kept(crate):
    """What is kept of a crate."""
    return {path.name: path.read_text() for path in (crate / KEPT).iterdir()}


def begun_afresh():
    """What a second try begins with, and what is kept of the crate, when the first has replaced, added and written into files."""
    with tempfile.TemporaryDirectory() as room:
        crate, copy = pathlib.Path(room) / 'crate', pathlib.Path(room) / 'copy'
        put(crate, LEFT)
        begin_afresh(crate, copy)
        put(copy, {f'a{PROVED}': 'broken', f'b{PROVED}': 'broken'})
        with (copy / KEPT / 'list').open('a') as file:
            file.write(' b')
        begin_afresh(crate, copy)
        return kept(copy), kept(crate)


def self_test():
    """A good edit makes what it should, and a bad one is told so; a try begins with nothing of another one."""
    if begun_afresh() != (LEFT, LEFT):
        sys.exit(f'edit_logs: after a first try a second begins with, and the crate has: {begun_afresh()}')
    if edited(GOOD, FILES.get) != MADE:
        sys.exit(f'edit_logs: a good edit makes {edited(GOOD, FILES.get)}')
    for name, text in BAD.items():
        try:
            edited(text, FILES.get)
        except ValueError:
            continue
        sys.exit(f'edit_logs: an edit of {name} was applied')
    print(f'edit_logs: a good edit is applied, and {len(BAD)} bad ones are not; a second try begins as the first did')


if __name__ == '__main__':
    if sys.argv[1:] == ['--self-test']:
        self_test()
    elif len(sys.argv) > 1 and not sys.argv[1].startswith('-'):
        crates = sys.argv[2:] or ['*']
        try_all([edit for crate in crates for edit in sorted(ROOT.glob(f'crates/{crate}/must-fail/*.edit'))], pathlib.Path(sys.argv[1]))
    else:
        sys.exit(__doc__)
