#!/usr/bin/env python3
"""Says where the proof of a crate goes, module by module (docs/PROVING.md, "What a check costs"). No part of the gate.

    python3 bench/proof_costs.py CRATE [--built FOLDER] [--top N]    at the top of the repository

The crate is checked from nothing, one module behind the other, over libraries that are built here (`rt lib`), or in the copy of the
repository that is named. The check keeps each module's file as it ends with it, so the times between these files tell how long each
took, by the clock. `Lts` is the borrow checker's plan of a function, `Proof` what the search gives of it, `Answers` a file of
proofs/. The last line has the sums, and the processor seconds of the whole check.
"""
import argparse
import os
import resource
import subprocess
import sys
import tempfile
from collections import Counter

TOP = os.path.dirname(os.path.dirname(os.path.abspath(__file__)))
sys.path.insert(0, f'{TOP}/.ci')
sys.dont_write_bytecode = True
from rounds import Repository  # noqa: E402  pylint: disable=wrong-import-position

# What a file of a module that is kept ends with.
KEPT = '.oantt'


def kept_modules(folder):
    """The modules that a check kept there, and when it ended with each."""
    for at, _, files in os.walk(folder):
        for file in files:
            if file.endswith(KEPT):
                yield os.stat(f'{at}/{file}').st_mtime_ns / 1e9, file.removesuffix(KEPT).removesuffix('.decls')


def costs(modules):
    """How long each module took, but for the first: the time since the one before it."""
    ordered = sorted(modules)
    return [(ended - before, module) for (before, _), (ended, module) in zip(ordered, ordered[1:])]


def kind(module):
    """Which part of a function's proof a module is."""
    part = module.rpartition('.')[2].partition('-')[0]
    return part if part in ('Lts', 'Proof', 'Answers') else 'others'


def arguments():
    parser = argparse.ArgumentParser(description=__doc__, formatter_class=argparse.RawDescriptionHelpFormatter)
    parser.add_argument('crate')
    parser.add_argument('--built', metavar='FOLDER', help='a copy of the repository in which the libraries are built')
    parser.add_argument('--top', type=int, default=30, metavar='N', help='how many modules are told')
    return parser.parse_args()


def main():
    given = arguments()
    repository = Repository(TOP, given.built and os.path.abspath(given.built))
    if given.crate not in repository.uses:
        sys.exit(f'{given.crate} is no crate of crates.txt')
    with tempfile.TemporaryDirectory(prefix='costs-') as kept:
        words = [it for it in repository.check(given.crate, kept, ()) if it != '--allow-holes']
        said = subprocess.run(words, cwd=repository.folder(given.crate), stdin=subprocess.DEVNULL, capture_output=True, text=True, check=False)
        found = costs(kept_modules(kept))
    for seconds, module in sorted(found, reverse=True)[: given.top]:
        print(f'{seconds:7.2f} {module}')
    sums = Counter()
    for seconds, module in found:
        sums[kind(module)] += seconds
    used = resource.getrusage(resource.RUSAGE_CHILDREN)
    told = ', '.join(f'{name} {seconds:.0f}' for name, seconds in sums.most_common())
    print(f'{given.crate}: {told}; {used.ru_utime + used.ru_stime:.0f} seconds of a processor in all')
    if said.returncode:
        sys.exit(f'{said.stdout[-2000:]}{said.stderr[-2000:]}\n{given.crate} is not proved')
    return 0


if __name__ == '__main__':
    sys.exit(main())
