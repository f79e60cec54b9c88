#!/usr/bin/env python3
"""What `mpdbg check FILE --ends` lists and takes beside the same check without it, as docs/SPEED.md tells it ("Each end once").

    python3 bench/ends.py [PROGRAM] [--times N]    (crates/mpdbg/out/mpdbg, where none is named)

It is no part of the gate. It has the scripts of bench/check.py that have a choice, and independent races: 2 to 5 receivers of any source, each
with two senders of its own. For each script it tells how many leaves a report has, and a `+` where there are more; the best of N whole
runs by the clock (5, where it isn't said), and the most memory that a run was seen to have, every millisecond. Where all candidates of a
choice are asleep, the way there is in vain, and has no leaf: that is in the time of `--ends`. Both run in one piece (`--split 0`), by one
worker. The status is 1 where a leaf with `--ends` isn't one of the leaves without it, as far as these are listed whole: no script here has a
waitany, and the mode no slots, so the choices of both are the same.
"""
import argparse
import os
import subprocess
import sys
import tempfile
import time
from typing import NamedTuple

from check import MOST_RUNS, cases

HERE = os.path.dirname(os.path.abspath(__file__))


def races(count):
    """So many receivers of any source, with two senders each."""
    return f'''mpd 1; ranks {3 * count}; var x;
if rank < {count} {{ recv x from any tag any; recv x from any tag any; }} else {{ send rank to rank % {count} tag 0; }}'''


def scripts():
    for case in cases():
        if 'any' in case.script:
            yield case.name, case.script, case.fuel
    for count in range(2, 6):
        yield f'{count} races of two', races(count), 100000


class Ran(NamedTuple):
    """What a report lists, and what the run took: seconds by the clock, and KiB of memory at most."""
    leaves: list
    more: bool
    clock: float
    memory: int

    def text(self):
        return f'{len(self.leaves):,}{"+" if self.more else ""}, {self.clock * 1000:.1f} ms, {self.memory / 1024:.0f} MiB'


def watch_memory(child, seen):
    """Looks every millisecond how much memory a process has had at most, in KiB, until it has ended."""
    while child.poll() is None:
        try:
            with open(f'/proc/{child.pid}/status', encoding='ascii') as it:
                seen.extend(int(line.split()[1]) for line in it if line.startswith('VmHWM'))
        except OSError:
            return
        time.sleep(0.001)


def memory_of(words):
    """The most that a run has, as far as it was seen."""
    seen = [0]
    with subprocess.Popen(words, stdin=subprocess.DEVNULL, stdout=subprocess.DEVNULL) as child:
        watch_memory(child, seen)
    return max(seen)


def run_once(words):
    began = time.perf_counter()
    ended = subprocess.run(words, stdin=subprocess.DEVNULL, capture_output=True, check=False)
    took = time.perf_counter() - began
    if ended.returncode not in (0, 1):
        sys.exit(f'{words} ended with status {ended.returncode}')
    *lines, last = ended.stdout.decode().splitlines()
    return Ran([line.split(' ', 2)[2] for line in lines], last.endswith('yes'), took, memory_of(words))


def run_best(words, times):
    return min((run_once(words) for _ in range(times)), key=lambda ran: ran.clock)


def compared(program, times):
    """For each script its row, and whether the ends are among the leaves."""
    with tempfile.TemporaryDirectory() as folder:
        file = f'{folder}/script.mpd'
        for name, script, fuel in scripts():
            with open(file, 'w', encoding='ascii') as it:
                it.write(script)
            words = [program, 'check', file, '--split', '0', '--workers', '1', '--runs', str(MOST_RUNS), '--fuel', str(fuel)]
            walk, ends = run_best(words, times), run_best([*words, '--ends'], times)
            yield f'| {name} | {walk.text()} | {ends.text()} |', walk.more or set(ends.leaves) <= set(walk.leaves)


def main():
    parser = argparse.ArgumentParser(description=__doc__.split('\n', 1)[0])
    parser.add_argument('program', nargs='?', default=f'{os.path.dirname(HERE)}/crates/mpdbg/out/mpdbg')
    parser.add_argument('--times', type=int, default=5)
    told = parser.parse_args()
    print('| Script | All orders: leaves, time, memory | `--ends`: the same |\n|---|---|---|')
    right = True
    for row, is_right in compared(told.program, told.times):
        print(row, '' if is_right else ' WRONG', flush=True)
        right = right and is_right
    return 0 if right else 1


if __name__ == '__main__':
    sys.exit(main())
