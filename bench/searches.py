#!/usr/bin/env python3
"""How far searches come in scripts of many runs: `check`, `check --ends` and `check --sample` beside one another.

    python3 bench/searches.py [PROGRAM] [--times N]    (crates/mpdbg/out/mpdbg, where none is named)

It is no part of the gate. The first table has races that share nothing, and one race: how many leaves a report lists of all runs, 65,536 at
most, and how many with `--ends`, and the best of N whole runs of both by the clock (5, where it isn't said). The second table has hangs
that one run in seven or eleven comes to (compare/cases/rare_cases.py): whether the first 1,000 runs of each piece find one, as `check` lists
them without an option, and with `--ends`; and of how many seeds of 20 a report by 100 runs that are drawn finds one, and how long one takes, the
middle of them. The status is 1 where the ends of races are not as many as they must be, or a hang is not found by each seed.
"""
import argparse
import math
import os
import statistics
import subprocess
import sys
import tempfile
import time
from typing import NamedTuple

TOP = os.path.dirname(os.path.dirname(os.path.abspath(__file__)))
sys.path.insert(0, f'{TOP}/compare')

from cases.rare_cases import Hang, Races  # noqa: E402  pylint: disable=wrong-import-position

MOST_RUNS, SEEDS, DRAWN = 65536, 20, 100
RACES = (*(Races(count) for count in range(1, 6)), *(Races(count, 3, 3) for count in (1, 2, 3)), Races(1, 7, 7))
HANGS = (Hang(), Hang(before=2), Hang(leaders=2), Hang(12, named=11), Hang(12, before=2, leaders=3, named=11))


class Ran(NamedTuple):
    """How a check ended, and how long it took, in seconds by the clock."""
    lines: list
    status: int
    seconds: float

    def leaves(self):
        """How many leaves it lists, and whether there are more."""
        _, count, _, more = self.lines[-1].split()
        return int(count), more == 'yes'


class Checker:
    """A program, on scripts in a file of a folder."""

    def __init__(self, program, folder, times):
        self.program, self.file, self.times = program, f'{folder}/script.mpd', times

    def read(self, case):
        """Has the file hold a script."""
        with open(self.file, 'w', encoding='ascii') as file:
            file.write(case.script())

    def check(self, *words):
        """One run with these options."""
        began = time.perf_counter()
        ended = subprocess.run([self.program, 'check', self.file, *words], stdin=subprocess.DEVNULL, capture_output=True, check=False)
        seconds = time.perf_counter() - began
        if ended.returncode not in (0, 1):
            sys.exit(f'check {" ".join(words)} ended with status {ended.returncode}: {ended.stderr.decode()}')
        return Ran(ended.stdout.decode().splitlines(), ended.returncode, seconds)

    def best(self, *words):
        """The same, of which the best of several runs is told."""
        return min((self.check(*words) for _ in range(self.times)), key=lambda ran: ran.seconds)


def ends_of(races):
    """How many ends races have in which all that is sent is received: each order of the senders of each race."""
    return math.factorial(races.senders) ** races.races


def count_text(ran):
    count, more = ran.leaves()
    return f'{count:,}{"+" if more else ""}'


def race_rows(checker):
    """A line for each script of races, and what is wrong."""
    for races in RACES:
        checker.read(races)
        plain, ends = (checker.best('--split', '0', '--runs', str(MOST_RUNS), *words) for words in ((), ('--ends',)))
        wanted = (min(ends_of(races), MOST_RUNS), ends_of(races) > MOST_RUNS)
        name = f'{races.races} race{"s" * (races.races > 1)} of {races.senders} senders'
        yield (f'{name:<28} {count_text(plain):>9} {plain.seconds * 1e3:>10.1f} {count_text(ends):>9} {ends.seconds * 1e3:>10.1f}',
               None if ends.leaves() == wanted else f'{name}: {count_text(ends)} ends, and not {ends_of(races):,}')


def hang_rows(checker):
    """A line for each script that rarely hangs, and what is wrong."""
    for hang in HANGS:
        checker.read(hang)
        found = ['found' if checker.check(*words).status == 1 else 'missed' for words in ((), ('--ends',))]
        drawn = [checker.check('--sample', str(DRAWN), '--seed', str(seed), '--until', 'deadlock') for seed in range(SEEDS)]
        hit = sum(ran.status == 1 for ran in drawn)
        name = f'{hang.ranks} ranks, {hang.before} before, {hang.leaders} led'
        yield (f'{name:<28} {found[0]:>9} {found[1]:>10} {f"{hit} of {SEEDS}":>9} {statistics.median(ran.seconds for ran in drawn) * 1e3:>10.1f}',
               None if hit == SEEDS else f'{name}: found by {hit} of {SEEDS} seeds')


def main():
    words = argparse.ArgumentParser(description=__doc__, formatter_class=argparse.RawDescriptionHelpFormatter)
    words.add_argument('program', nargs='?', default=f'{TOP}/crates/mpdbg/out/mpdbg', metavar='PROGRAM')
    words.add_argument('--times', type=int, default=5, metavar='N', help='how many runs the best is taken of (5)')
    given = words.parse_args()
    program, wrong = os.path.abspath(given.program), []
    if not os.access(program, os.X_OK):
        sys.exit(f'{program} is no program')
    with tempfile.TemporaryDirectory() as folder:
        checker = Checker(program, folder, given.times)
        for head, rows in ((f'{"":<28} {"all runs":>9} {"ms":>10} {"--ends":>9} {"ms":>10}', race_rows),
                           (f'{"":<28} {"1000 runs":>9} {"--ends":>10} {"drawn":>9} {"ms":>10}', hang_rows)):
            print(head)
            for line, problem in rows(checker):
                print(line, flush=True)
                wrong += [] if problem is None else [problem]
    for problem in wrong:
        print(problem)
    return 1 if wrong else 0


if __name__ == '__main__':
    sys.exit(main())
