#!/usr/bin/env python3
"""Shows that a step behind long lists takes no longer than one behind short ones (docs/SPEED.md).

    python3 bench/long_lists.py [BENCH [RUNS]]    (3 runs of one that is built for it, where nothing else is named)

Contracts count writes, and whoever reads a few lines sees that a tick stands beside each (docs/CLAIMS.md, "What is trusted"). This run
needs neither: of each kind of step in KINDS it compares the least times of all runs at the shortest lists and at the longest, which
are at least as many times as long as WORTH says. A walk along such a list takes hundreds of times as long, so that it is noticed
in an hour in which the machine is slow, too: FACTOR times are let through. What judges is first tried on times that grow.
Status 1 where one of them takes longer, or isn't told, or a run, which takes some four seconds, doesn't end in so many as LIMIT
says.
"""
import re
import subprocess
import sys
import tempfile

from bench_program import named_or_built

# Kinds of steps that the bench measures, each behind more and more of what it names.
KINDS = (
    'a local step and its undo, on a trail of',
    'a message, 5 steps and their undos, behind',
    'an isend and its undo, behind',
    'a message, 7 steps and their undos, of a row of',
    'a lap of 16 ranks, 129 steps and their undos, behind',
    '2 senders, a match of the last and its undo, messages of each:',
    '7 senders, a match of the last and its undo, messages of each:',
    '15 senders, a match of the last and its undo, messages of each:',
)
FACTOR = 5
WORTH = 100
LIMIT = 120
SAID = re.compile(r'^(.+) (\d+): ([\d.]+) ns$', re.M)


def told(text):
    """What a run says: for each kind the times, by how much stands ahead."""
    found = {kind: {} for kind in KINDS}
    for what, number, took in SAID.findall(text):
        if what in found:
            found[what][int(number)] = float(took)
    return found


def judged(runs):
    """A line for each kind, and whether all is well."""
    lines, well = [], True
    for kind in KINDS:
        numbers = sorted(set.intersection(*(set(run[kind]) for run in runs)))
        if not numbers or numbers[-1] < WORTH * numbers[0]:
            lines.append(f'{kind}: not told of lists that are {WORTH} times as long')
            well = False
            continue
        short, long = (min(run[kind][number] for run in runs) for number in (numbers[0], numbers[-1]))
        fits = long <= FACTOR * short
        well = well and fits
        lines.append(f'{kind} {numbers[0]}: {short} ns, {numbers[-1]}: {long} ns{"" if fits else ", TOO LONG"}')
    return lines, well


def tries_itself():
    """Times that stay are let through; one that grows is noticed, and so is one that isn't told."""
    steady = ''.join(f'{kind} {number}: 90.5 ns\n' for kind in KINDS for number in (10, 100_000))
    assert judged([told(steady)] * 2)[1]
    for kind in KINDS:
        grown = steady.replace(f'{kind} 100000: 90.5', f'{kind} 100000: 9000.5')
        assert grown != steady and not judged([told(grown)] * 2)[1], kind
        assert not judged([told(steady.replace(f'{kind} 100000: 90.5 ns\n', ''))] * 2)[1], kind


def main():
    count = int(sys.argv[2]) if len(sys.argv) > 2 else 3
    tries_itself()
    with tempfile.TemporaryDirectory() as folder:
        bench = named_or_built(sys.argv[1] if len(sys.argv) > 1 else None, folder)
        try:
            runs = [told(subprocess.run([bench], capture_output=True, check=True, text=True, timeout=LIMIT).stderr) for _ in range(count)]
        except subprocess.TimeoutExpired:
            print(f'a run did not end in {LIMIT} seconds')
            return 1
    lines, well = judged(runs)
    print('\n'.join(lines))
    return 0 if well else 1


if __name__ == '__main__':
    sys.exit(main())
