#!/usr/bin/env python3
"""Says whether runs of broken models are due: a run that breaks the model on purpose, which must be noticed, shows that the run can fail.

    .ci/noticed.py             at the top of the repository: prints `--broken` where these runs are due, and nothing where they are remembered
    .ci/noticed.py --record    writes that all faults were noticed, of these files
    .ci/noticed.py --run       makes these runs, and writes the same where none failed; the status is 1 where one did

The program takes no part in them, so what they show depends on the files of `compare/` but for its transcripts, of `page/`, of the examples
and of two pages that rows read: a digest of those stands in `.ci/noticed.txt`. A whole gate makes these runs, and an ordinary one where the
digest is another; where nothing fails it is written.
"""
import os
import shlex
import subprocess
import sys
import time

from record import bytes_of, digest_of, files_below

FILE = '.ci/noticed.txt'
FOLDERS = ('compare', 'examples', 'page')
# What is below them and no such run reads: what Python keeps, and what the program alone is compared with.
UNREAD = ('/__pycache__/', '/compare/words/')
PAGES = ('docs/CONSOLE.md', 'docs/FORMATS.md')
HEAD = '# Written by .ci/noticed.py after all of these runs, none of which failed, and never by hand.\n'


def digest(root):
    """A digest of all that the runs of broken models depend on."""
    found = [it for folder in FOLDERS for it in files_below(f'{root}/{folder}') if not any(part in it for part in UNREAD)]
    return digest_of((os.path.relpath(it, root), bytes_of(it)) for it in [*found, *(f'{root}/{page}' for page in PAGES)])


def is_remembered(root):
    """Whether all faults were noticed of these files."""
    try:
        with open(f'{root}/{FILE}', encoding='utf-8') as it:
            return it.read() == f'{HEAD}{digest(root)}\n'
    except FileNotFoundError:
        return False


def record(root):
    """Writes that all faults were noticed."""
    with open(f'{root}/{FILE}', 'w', encoding='utf-8') as it:
        it.write(f'{HEAD}{digest(root)}\n')


def runs(root):
    """What the gate has Python run with broken models: the words of each, without the program."""
    with open(f'{root}/.ci/run', encoding='utf-8') as it:
        lines = [line for line in it if ' python3 compare/runs/' in line and '$broken' in line]
    return [shlex.split(line.partition(' python3 ')[2].replace('"$program"', '').replace('$broken', '--broken')) for line in lines]


def run_all(root):
    """Makes these runs one after another, and writes that all faults were noticed, where that is so and no file has changed."""
    before, failed = digest(root), []
    for words in runs(root):
        began = time.time()
        ran = subprocess.run([sys.executable, *words], cwd=root, stdin=subprocess.DEVNULL, stdout=subprocess.PIPE, stderr=subprocess.STDOUT, text=True)
        print(f'{words[0]}: status {ran.returncode}, {time.time() - began:.0f} s', flush=True)
        if ran.returncode:
            failed.append(words[0])
            print(ran.stdout[-3000:], flush=True)
    if failed or digest(root) != before:
        return f'{len(failed)} runs failed' if failed else 'the files have changed meanwhile'
    record(root)
    return 0


if __name__ == '__main__':
    if sys.argv[1:] == ['--record']:
        record(os.getcwd())
    elif sys.argv[1:] == ['--run']:
        sys.exit(run_all(os.getcwd()))
    elif sys.argv[1:]:
        sys.exit(__doc__)
    elif not is_remembered(os.getcwd()):
        print('--broken')
