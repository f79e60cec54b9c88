"""Drives the debug adapter of a program by Emacs with dap-mode, and compares where Emacs stands with what was worked out by hand.

    python3 compare/runs/in_emacs.py PROGRAM    goes through examples/stolen_message.mpd: a breakpoint, a run, candidates, a deadlock, and back
    python3 compare/runs/in_emacs.py            the model stands in the place of a program

Emacs runs without a window (compare/started/drive_adapter.el), with the files of editors/emacs. Each stop has the thread and the line that
docs/ADAPTER.md tells. Another script must be noticed. And `compile` finds the file and the line of a fault (compare/started/find_fault.el), which a
mode that is broken on purpose must not. What there is no Emacs for on the path, or none with dap-mode, is skipped, which is said. The status is 0 where
nothing differed, or all was skipped.
"""

import argparse
import os
import shutil
import subprocess
import sys
import tempfile

sys.path.insert(0, os.path.dirname(os.path.dirname(os.path.abspath(__file__))))

from places import EXAMPLES, TOP
from runs import in_vim

SCRIPT = 'stolen_message.mpd'
# A script of which something else must be told.
ANOTHER = 'race.mpd'
WAITS = 'rank 0 waits at line 9, 0.1 recv from 1 tag 7; point at line 9'
# By hand, from docs/ADAPTER.md and docs/CONSOLE.md: rank 0 is thread 1. Going back leaves steps ahead, so the stop there is that of the last step, of
# rank 2. The breakpoint of line 10 is hit as rank 0 gets past line 9.
TOLD = (
    'start: thread 1, line 7, rank 0 is at line 7; point at line 7',
    f'continue: thread 1, line 9, {WAITS}',
    '  rank 1 sends 42, tag 7 (line 13), to rank 0 (line 8); match 1.0 0.0',
    '  rank 2 sends 5, tag 1 (line 13), to rank 0 (line 8); match 2.0 0.0',
    f'choose 1: thread 1, line 9, {WAITS}',
    f'continue: thread 1, line 9, {WAITS}',
    'reverse: thread 3, line 13, rank 2 waits at line 13, 2.0 send to 0 tag 1 value 5; point at line 13',
    '  rank 2 sends 5, tag 1 (line 13), to rank 0 (line 8); match 2.0 0.0',
    'choose 2: thread 3, line 13, rank 2 can go on from line 13, 2.0 send to 0 tag 1 value 5; point at line 13',
    'continue: thread 1, line 10, rank 0 is at line 10; point at line 10',
    'step back: thread 1, line 9, rank 0 is at line 9; point at line 9',
    f'next: thread 1, line 9, {WAITS}',
    f'step in: thread 1, line 9, {WAITS}',
    'evaluate: rank 0: result = 0',
    'told: ended: deadlock: rank 0 at line 9, rank 2 at line 13',
)

# Of the script with a fault that in_vim.py has, too.
FAULT = ['mpd-mode; comments # ', f'fault of {in_vim.NAME} at line 4']
# What is put in the place of what in the mode, so that it is noticed.
BROKEN = ('"^script ', '"^file '), ('line \\\\([0-9]', 'at \\\\([0-9]'), ('(shell-quote-argument ', '(identity '), ('"\\\\.mpd', '"\\\\.rank')


def emacs(home, *words):
    """What Emacs prints, run without a window in a home of its own."""
    ran = subprocess.run(['emacs', '-q', '--batch', *words], stdin=subprocess.DEVNULL, capture_output=True, text=True, timeout=300, check=False,
                         env={**os.environ, 'HOME': home, 'PATH': f'{home}/bin:{os.environ["PATH"]}', 'SHELL': '/bin/sh'})
    return ran.stdout.splitlines() + [line for line in ran.stderr.splitlines()[-1:] if ran.returncode]


def driven(program, script, home):
    """What Emacs tells of a script."""
    return emacs(home, '-l', f'{TOP}/compare/started/drive_adapter.el', '--', script, program, f'{TOP}/editors/emacs')


def fault_found(home, editors):
    """What Emacs tells of a script with a fault, with the files of a folder in the place of editors/emacs."""
    return emacs(home, '-l', f'{TOP}/compare/started/find_fault.el', '--', f'{home}/{in_vim.NAME}', editors)


def wrong_faults(program, home):
    """Where Emacs finds a fault otherwise than it must, and which modes that are broken on purpose find it all the same."""
    in_vim.make_files(program, home)
    found = fault_found(home, f'{TOP}/editors/emacs')
    if found != FAULT:
        yield f'told {found}, not {FAULT}'
    with open(f'{TOP}/editors/emacs/mpd-mode.el', encoding='ascii') as file:
        text = file.read()
    for before, after in BROKEN:
        with open(f'{home}/mpd-mode.el', 'w', encoding='ascii') as file:
            file.write(text.replace(before, after))
        if before not in text or fault_found(home, home) == FAULT:
            yield f'not noticed: {after!r} in the place of {before!r}'


def why_skipped(home):
    """Why nothing can be driven; None where it can."""
    has_mode = emacs(home, '--eval', "(progn (package-initialize) (princ (if (locate-library \"dap-mode\") \"there\" \"none\")))")
    return None if has_mode == ['there'] else 'Emacs has no dap-mode'


def started(program, home):
    """The program, or a file that starts the model in its place."""
    if program is not None:
        return os.path.abspath(program)
    path = f'{home}/stand-in'
    with open(path, 'w', encoding='ascii') as file:
        file.write(f'#!/bin/sh\nexec {sys.executable} {TOP}/compare/runs/stand_in_adapter.py "$@"\n')
    os.chmod(path, 0o755)
    return path


def main():
    parser = argparse.ArgumentParser(description=__doc__, formatter_class=argparse.RawDescriptionHelpFormatter)
    parser.add_argument('program', metavar='PROGRAM', nargs='?')
    program = parser.parse_args().program
    if shutil.which('emacs') is None:
        print('skipped: no Emacs on the path')
        return 0
    with tempfile.TemporaryDirectory(prefix='in-emacs-') as home:
        wrong = [*wrong_faults(program, home)]
        why = why_skipped(home)
        if why is not None:
            print('\n'.join([*wrong, f'skipped: {why}', f'{len(FAULT)} lines of Emacs, {len(wrong)} wrong']))
            return 1 if wrong else 0
        program = started(program, home)
        scripts = [shutil.copy(f'{EXAMPLES}/{name}', home) for name in (SCRIPT, ANOTHER)]
        told, other = (driven(program, script, home) for script in scripts)
    wrong += [f'told {line!r}, not {right!r}' for line, right in zip(told, TOLD) if line != right]
    wrong += [f'{len(told)} lines, not {len(TOLD)}'] * (len(told) != len(TOLD))
    wrong += [f'{ANOTHER} is told as {SCRIPT}'] * (other == list(TOLD))
    print('\n'.join([*wrong, f'{len(FAULT) + len(TOLD)} lines of Emacs, {len(wrong)} wrong']))
    return 1 if wrong else 0


if __name__ == '__main__':
    sys.exit(main())
