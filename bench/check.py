#!/usr/bin/env python3
"""How long `mpdbg check FILE` takes as a whole process, beside a plain explorer in C, as docs/SPEED.md tells it ("Speed").

    python3 bench/check.py [PROGRAM] [--times N] [--instructions]    (crates/mpdbg/out/mpdbg, where none is named)

It is no part of the gate. For each script both must write the same report, byte for byte, with the same status, and both must
have taken the same number of steps, else the status is 1. How many the program took is read off its own reports: with a fuel of
d steps it lists one leaf for each state of depth d on the way to the leaves, so these reports, one for each d, count the steps
(`steps_of`). Where a script has many leaves that is done for the first of them. There the program has one piece (`--split 0`).

The table has, of both, the best of N whole runs by the clock (9, where it isn't said), and what a step takes with its decision
and its undo: the least processor time of a run, less that of a script that has no step, by the number of steps. Every step is
taken back, so there are as many undos. With --instructions it has the instructions of a step too, as valgrind counts them, which
are the same however busy the machine is. The lines below say which of the bounds of docs/SPEED.md are kept.

The second table has the scripts of many leaves once more, cut by two choices, with 1, 2 and 4 workers side by side: whole runs by the
clock, the best of N, and how many times as fast as one worker the others are. The report must be the same for all of them, and that
of the plain explorer where this lists all leaves. Where it doesn't, each piece lists so many that all together are about as many.
"""
import argparse
import bisect
import os
import re
import resource
import shlex
import shutil
import subprocess
import sys
import tempfile
import time
from typing import NamedTuple

HERE = os.path.dirname(os.path.abspath(__file__))
MOST_RUNS, MOST_FUEL = 65536, 1000000
# For how many leaves the steps are counted at most, where a report has more.
COUNTED_LEAVES = 500
# Of how many steps a script must be, for what one of them takes to be told from noise.
MANY = 10_000
# A step with its decision and its undo takes so many times as long as in the plain explorer, at most; the race so many seconds.
MOST_RATIO, RACE_SECONDS = 3, 0.005
# By how many choices scripts are cut for workers, how many of these there are, and of how many leaves a script must be for them.
SPLIT, WORKERS, LEAVES_FOR_WORKERS = 2, (1, 2, 4), 2000

EMPTY = 'mpd 1; ranks 1;'
LOOP = 'mpd 1; ranks 1; var i; while 1 { i = i + 1; }'
PING_PONG = '''mpd 1; ranks 2; var i; var x;
while i < 5000 {
  if rank == 0 { send i to 1 tag 0; recv x from 1 tag 0; } else { recv x from 0 tag 0; send x to 0 tag 0; }
  i = i + 1;
}'''
STUCK = '''mpd 1; ranks 2; var i; var x; req r;
while i < 500 { if rank == 0 { isend r i to 1 tag 1; } else { irecv r x from 0 tag 2; } i = i + 1; }
recv x from rank tag 3;'''


def gather(senders, messages):
    """One receiver of any source, and senders of so many messages each."""
    return f'''mpd 1; ranks {senders + 1}; var i; var x;
if rank == 0 {{ while i < {senders * messages} {{ recv x from any tag any; i = i + 1; }} }}
else {{ while i < {messages} {{ send rank to 0 tag 0; i = i + 1; }} }}'''


class Case(NamedTuple):
    """A script, and how far it is explored."""
    name: str
    script: str
    runs: int = MOST_RUNS
    fuel: int = MOST_FUEL


def cases():
    with open(f'{os.path.dirname(HERE)}/examples/race.mpd', encoding='ascii') as race:
        yield Case('the race', race.read())
    yield Case('100,000 local steps', LOOP, fuel=100000)
    yield Case('ping-pong, 5,000 rounds', PING_PONG)
    yield Case('500 sends and 500 receives, stuck', STUCK)
    for messages in 1, 2, 3:
        for senders in range(4, 9):
            yield Case(f'{senders} senders of {messages}', gather(senders, messages))


class Took(NamedTuple):
    """Seconds by the clock, and of a processor."""
    clock: float
    processor: float


class Ended(NamedTuple):
    """How a process ended."""
    took: Took
    status: int
    output: bytes
    errors: bytes


def used():
    """The processor seconds of all processes that have ended."""
    all_ended = resource.getrusage(resource.RUSAGE_CHILDREN)
    return all_ended.ru_utime + all_ended.ru_stime


def run(words):
    began, before = time.perf_counter(), used()
    ended = subprocess.run(words, stdin=subprocess.DEVNULL, capture_output=True, check=False)
    took = Took(time.perf_counter() - began, used() - before)
    if ended.returncode not in (0, 1):
        sys.exit(f'{shlex.join(words)} ended with status {ended.returncode}: {ended.stderr.decode()}')
    return Ended(took, ended.returncode, ended.stdout, ended.stderr)


def instructions(words):
    """How many instructions a run takes."""
    told = run(['valgrind', '--tool=callgrind', '--callgrind-out-file=/dev/null', *words]).errors
    return int(re.search(rb'Collected : (\d+)', told).group(1))


class Explorers:
    """The program and the plain explorer, on scripts in files of a folder."""

    def __init__(self, program, plain, folder):
        self.program, self.plain, self.folder = program, plain, folder

    def file(self, case):
        path = f'{self.folder}/script.mpd'
        with open(path, 'w', encoding='ascii') as it:
            it.write(case.script)
        return path

    def words(self, case):
        """How the program explores a script, and how the plain explorer does."""
        file, runs, fuel = self.file(case), str(case.runs), str(case.fuel)
        return [self.program, 'check', file, '--split', '0', '--runs', runs, '--fuel', fuel], [self.plain, file, runs, fuel]

    def cut(self, case, *words):
        """How the program explores a script in pieces."""
        return [self.program, 'check', self.file(case), '--split', str(SPLIT), '--fuel', str(case.fuel), *words]

    def pieces(self, case):
        """How many pieces there are."""
        return int(run(self.cut(case, '--pieces')).output.split()[1])

    def by_workers(self, case, is_whole, pieces):
        """How each number of workers explores it: all leaves, or about as many as one piece would list."""
        runs = case.runs if is_whole else max(1, case.runs // pieces)
        return [self.cut(case, '--runs', str(runs), '--workers', str(workers)) for workers in WORKERS]

    def best(self, case, times):
        """The least that so many runs of each took, in turn."""
        both = self.words(case)
        took = zip(*[[run(words).took for words in both] for _ in range(times)])
        return [Took(*map(min, zip(*each))) for each in took]

    def counted(self, case):
        """The instructions of each."""
        return [instructions(words) for words in self.words(case)]


def leaves_of(report):
    """The choices of each leaf of a report, and whether it is cut."""
    lines = re.findall(rb'(?m)^leaf \d+ \[([\d ]*)\] (\w+)', report)
    return [([int(it) for it in choices.split()], word == b'cut') for choices, word in lines]


class Nodes(NamedTuple):
    """What a report with less fuel has of the way to some leaves: how many of its leaves, and how many of those had ended."""
    leaves: int
    ended: int


def nodes_at(explorers, case, fuel, last):
    """Those of the leaves that begin the way to the last one, or stand before such a one."""
    found = leaves_of(run(explorers.words(case._replace(fuel=fuel))[0]).output)
    # The leaves stand in the order of their choices.
    count = bisect.bisect_right(found, last, key=lambda leaf: leaf[0])
    return Nodes(count, sum(not is_cut for _, is_cut in found[:count]))


def deepest(explorers, case, last):
    """The depth of the deepest leaf: the least fuel with which none is cut that isn't cut by the case's own."""
    whole = nodes_at(explorers, case, case.fuel, last)
    low, high = 0, case.fuel
    while high - low > 1:
        middle = (low + high) // 2
        if nodes_at(explorers, case, middle, last) == whole:
            high = middle
        else:
            low = middle
    # What the case's own fuel cuts is that deep.
    return case.fuel if whole.ended < whole.leaves else high


def between(explorers, case, last, low, high):
    """The steps from the states of one depth to those of another, given what a report has there: (fuel, nodes) of each. Both
    numbers only grow with the fuel, so where they are the same at both ends they are so between."""
    (first, begin), (final, end) = low, high
    if final - first == 1 or begin == end:
        return (final - first) * (end.leaves - begin.ended)
    fuel = (first + final) // 2
    middle = fuel, nodes_at(explorers, case, fuel, last)
    return between(explorers, case, last, low, middle) + between(explorers, case, last, middle, high)


def steps_of(explorers, case):
    """How many steps lead to the leaves that the program lists, each counted once where leaves have it in common: the leaves of
    each fuel, less those that had ended with one less."""
    last = leaves_of(run(explorers.words(case)[0]).output)[-1][0]
    depth = deepest(explorers, case, last)
    return between(explorers, case, last, (0, Nodes(1, 0)), (depth, nodes_at(explorers, case, depth, last)))


def plain_steps(errors):
    """What the plain explorer says of its steps, which it must have taken back."""
    steps, undos = map(int, re.fullmatch(rb'steps (\d+) undos (\d+)\n', errors).groups())
    if steps != undos:
        sys.exit(f'the plain explorer took {steps} steps, and took {undos} of them back')
    return steps


def differences(explorers, case):
    """In what the two differ, and how many steps the case takes."""
    program, plain = map(run, explorers.words(case))
    if (program.output, program.status) != (plain.output, plain.status):
        yield f'{case.name}: the reports differ'
        return
    counted = case._replace(runs=min(case.runs, COUNTED_LEAVES))
    own, other = steps_of(explorers, counted), plain_steps(run(explorers.words(counted)[1]).errors)
    if own != other:
        yield f'{case.name}: the program took {own} steps to {counted.runs} leaves at most, the plain explorer {other}'
    yield from differences_of_workers(explorers, case, plain)


def is_for_workers(report):
    """Whether a report of the plain explorer has leaves enough for workers."""
    return len(leaves_of(report)) >= LEAVES_FOR_WORKERS


def is_whole(report):
    return report.endswith(b' more no\n')


def differences_of_workers(explorers, case, plain):
    """In what reports by workers differ from one another, and from that of the plain explorer where this has all leaves."""
    if not is_for_workers(plain.output):
        return
    words = explorers.by_workers(case, is_whole(plain.output), explorers.pieces(case))
    reports = [(ended.output, ended.status) for ended in map(run, words)]
    if len(set(reports)) > 1:
        yield f'{case.name}: the reports by {WORKERS} workers differ'
    if is_whole(plain.output) and reports[0] != (plain.output, plain.status):
        yield f'{case.name}: the report by pieces differs from that of the plain explorer'


def compiler():
    return shlex.split(os.environ.get('CC') or shutil.which('cc') or shutil.which('gcc') or sys.exit('there is no C compiler: name one in CC'))


def compiled(folder):
    plain = f'{folder}/plain_explorer'
    subprocess.run([*compiler(), '-O2', '-o', plain, f'{HERE}/plain_explorer.c'], check=True)
    return plain


class Cost(NamedTuple):
    """What a step takes with its decision and its undo."""
    own: float
    plain: float

    def ratio(self):
        return self.own / self.plain if self.plain else 0

    def columns(self):
        return f' {self.own:>8.1f} {self.plain:>8.1f} {self.ratio():>6.2f}'


def cost(both, idle, steps):
    return Cost(*(max(it - base, 0) / steps for it, base in zip(both, idle)))


class Row(NamedTuple):
    """What was measured of a case."""
    case: Case
    leaves: int
    steps: int
    own: Took
    plain: Took
    each: Cost
    counted: Cost = None

    def line(self):
        return (f'{self.case.name:<34} {self.leaves:>7} {self.steps:>9} {self.own.clock * 1e3:>8.2f} {self.plain.clock * 1e3:>8.2f}'
                f'{self.each.columns()}{self.counted.columns() if self.counted else ""}')


class WorkersRow(NamedTuple):
    """What was measured of a case by workers: the pieces, the leaves that they list, and the seconds of each number of workers."""
    row: Row
    pieces: int
    leaves: int
    seconds: list

    def line(self):
        times = [self.seconds[0] / it for it in self.seconds[1:]]
        return (f'{self.row.case.name:<34} {self.pieces:>7} {self.leaves:>9} {self.row.plain.clock * 1e3:>8.2f} {self.row.own.clock * 1e3:>8.2f}'
                f'{"".join(f" {it * 1e3:>9.2f}" for it in self.seconds)}{"".join(f" {it:>7.2f}" for it in times)}')


OF_WORKERS = [f'{it} worker{"s" * (it > 1)}' for it in WORKERS]
BY_WORKERS = (f'{f"cut by {SPLIT} choices, ms":<34} {"pieces":>7} {"leaves":>9} {"plain":>8} {"uncut":>8}'
              f'{"".join(f" {name:>9}" for name in OF_WORKERS)}{"".join(f" {it:>2} to 1" for it in WORKERS[1:])}')
HEAD = f'{"":<34} {"leaves":>7} {"steps":>9} {"ms":>8} {"plain":>8} {"ns each":>8} {"plain":>8} {"ratio":>6}'
COUNTS = f' {"instr.":>8} {"plain":>8} {"ratio":>6}'


class Bench:
    """Measures cases, each so many times; what a script without a step takes is taken off."""

    def __init__(self, explorers, times, has_counts):
        self.explorers, self.times, self.has_counts = explorers, times, has_counts
        empty = Case('no step', EMPTY)
        self.idle = explorers.best(empty, times)
        self.idle_counted = explorers.counted(empty) if has_counts else None

    def row(self, case):
        own, plain = self.explorers.best(case, self.times)
        ended = run(self.explorers.words(case)[1])
        steps = plain_steps(ended.errors)
        each = cost([it.processor * 1e9 for it in (own, plain)], [it.processor * 1e9 for it in self.idle], steps)
        counted = cost(self.explorers.counted(case), self.idle_counted, steps) if self.has_counts else None
        return Row(case, len(leaves_of(ended.output)), steps, own, plain, each, counted)

    def workers_row(self, row):
        """The row of a case that was measured before, by workers."""
        plain = run(self.explorers.words(row.case)[1]).output
        pieces = self.explorers.pieces(row.case)
        all_words = self.explorers.by_workers(row.case, is_whole(plain), pieces)
        leaves = len(leaves_of(run(all_words[0]).output))
        took = zip(*[[run(words).took.clock for words in all_words] for _ in range(self.times)])
        return WorkersRow(row, pieces, leaves, [min(each) for each in took])

    def head(self):
        own, plain = self.idle
        return (f'a script without a step: {own.clock * 1e3:.2f} ms, {plain.clock * 1e3:.2f} ms the plain explorer\n'
                f'{HEAD}{COUNTS * self.has_counts}')


def summary(rows):
    """Which of the bounds are kept. A script with fewer steps than MANY is too short for a ratio."""
    race = rows[0].own.clock
    yield f'the race: {race * 1e3:.2f} ms, {"within" if race <= RACE_SECONDS else "NOT within"} {RACE_SECONDS * 1e3:.0f} ms'
    long = [row for row in rows if row.steps >= MANY]
    for what, costs in (('time', [row.each for row in long]), ('instructions', [row.counted for row in long])):
        if None in costs:
            continue
        worst = max(range(len(long)), key=lambda it: costs[it].ratio())
        ratio = costs[worst].ratio()
        yield (f'{what}: of the {len(long)} scripts of {MANY:,} steps and more the worst is {long[worst].case.name}, {ratio:.2f} times the plain '
               f'explorer, {"within" if ratio <= MOST_RATIO else "NOT within"} {MOST_RATIO}')


def main():
    words = argparse.ArgumentParser(description=__doc__, formatter_class=argparse.RawDescriptionHelpFormatter)
    words.add_argument('program', nargs='?', default=f'{os.path.dirname(HERE)}/crates/mpdbg/out/mpdbg', metavar='PROGRAM')
    words.add_argument('--times', type=int, default=9, metavar='N', help='how many runs the best is taken of')
    words.add_argument('--instructions', action='store_true', help='count instructions too, with valgrind')
    given = words.parse_args()
    if given.instructions and not shutil.which('valgrind'):
        sys.exit('there is no valgrind')
    program = os.path.abspath(given.program)
    if not os.access(program, os.X_OK):
        sys.exit(f'{program} is no program')
    with tempfile.TemporaryDirectory() as folder:
        explorers = Explorers(program, compiled(folder), folder)
        differ = [line for case in cases() for line in differences(explorers, case)]
        if differ:
            print('\n'.join(differ))
            return 1
        print('the reports and the steps of both are the same on all scripts')
        bench = Bench(explorers, given.times, given.instructions)
        print(bench.head())
        rows = []
        for case in cases():
            rows.append(bench.row(case))
            print(rows[-1].line(), flush=True)
        print('\n'.join(summary(rows)))
        print(f'\n{BY_WORKERS}')
        for row in rows:
            if row.leaves >= LEAVES_FOR_WORKERS:
                print(bench.workers_row(row).line(), flush=True)
    return 0


if __name__ == '__main__':
    sys.exit(main())
