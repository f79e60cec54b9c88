#!/usr/bin/env python3
"""What a local step with its undo takes, beside the same in plain C (docs/SPEED.md).

    python3 bench/local.py [RUNS [BENCH]]   (20 runs of a bench that is built for it, where nothing else is named)

It is no part of the gate. `bench/plain.c` and the program go forward and back through `while 1 { i = i + 1; }` in turn, so that an
hour in which the machine is slow is slow for both; each run tells the mean of ten million steps. For each length of the trail it
tells the least of all runs, the middle one, and how many times as long the program took in these. """
import os
import re
import subprocess
import sys
import tempfile

from bench_program import named_or_built

TOP = os.path.dirname(os.path.dirname(os.path.abspath(__file__)))
PLAIN = re.compile(r'^(\d+) local steps: ([\d.]+) ns', re.M)
OURS = re.compile(r'^a local step and its undo, on a trail of (\d+): ([\d.]+) ns', re.M)


def times(program, line):
    """What a run says, by the length of the trail; it is stopped once it has said it."""
    run = subprocess.Popen([program], stdout=subprocess.PIPE, stderr=subprocess.STDOUT, text=True, errors='replace')
    found = {}
    for said in run.stdout:
        for length, took in line.findall(said):
            found[int(length)] = float(took)
        if len(found) == 3:
            break
    run.kill()
    run.wait()
    return found


def main():
    runs = int(sys.argv[1]) if len(sys.argv) > 1 else 20
    with tempfile.TemporaryDirectory() as folder:
        bench = named_or_built(sys.argv[2] if len(sys.argv) > 2 else None, folder)
        subprocess.run([os.environ.get('CC', 'cc'), '-O2', '-o', f'{folder}/plain', f'{TOP}/bench/plain.c'], check=True)
        told = [(times(f'{folder}/plain', PLAIN), times(bench, OURS)) for _ in range(runs)]
    for length in sorted(told[0][0]):
        plain, ours = (sorted(run[which][length] for run in told) for which in (0, 1))
        for what, place in (('least', 0), ('middle', runs // 2)):
            print(f'trail of {length}, {what} of {runs}: {ours[place]} ns, plain C {plain[place]} ns, {ours[place] / plain[place]:.1f} times')


if __name__ == '__main__':
    main()
