#!/usr/bin/env python3
"""What `mpdbg check FILE --outcomes` takes of scripts with very many runs, as docs/SPEED.md tells it ("Each state once").

    python3 bench/outcomes.py [PROGRAM] [--times N] [--seconds N]    (crates/mpdbg/out/mpdbg, where none is named)

It is no part of the gate. It has gathers, whose messages one rank takes in any order; gathers that keep each message in the place of its
sender; servers that answer each request; farms, whose tasks go to whoever asks; and independent races. For each it tells how many runs
there are in all, the best of N whole runs by the clock (3, where it isn't said), and the most memory that a run was seen to have, every
millisecond; nothing where one took more than so many seconds (60). The status is 1 where the number of runs of a gather or of races isn't
the number of orders in which their messages can be taken.
"""
import argparse
import math
import os
import subprocess
import sys
import tempfile
import time
from typing import NamedTuple, Optional

from ends import memory_of, races

HERE = os.path.dirname(os.path.abspath(__file__))


class Case(NamedTuple):
    """A script, and how many runs it has, where that is told by its messages."""
    name: str
    script: str
    runs: Optional[int] = None


def gather(senders, messages):
    """Messages of all senders, taken in any order."""
    return Case(f'gather of {senders} senders of {messages}', f'''mpd 1; ranks {senders + 1}; var x; var i;
if rank == 0 {{ while i < {senders * messages} {{ recv x from any tag any; i = i + 1; }} }}
else {{ while i < {messages} {{ send i to 0 tag 0; i = i + 1; }} }}''', math.factorial(senders * messages) // math.factorial(messages) ** senders)


def kept_by_sender(senders):
    """One message of each, which is kept in the place of its sender."""
    return Case(f'{senders} messages, kept by sender', f'''mpd 1; ranks {senders + 1}; var x; var a[{senders + 1}]; var s; var t; var i;
if rank == 0 {{ while i < {senders} {{ recv x from any tag any status s t; a[s] = x; i = i + 1; }} }}
else {{ send rank to 0 tag 0; }}''', math.factorial(senders))


def server(clients, requests):
    """Requests of all clients, each of which is answered before the next comes."""
    return Case(f'server of {clients} clients with {requests} requests', f'''mpd 1; ranks {clients + 1}; var x; var s; var t; var i;
if rank == 0 {{ while i < {clients * requests} {{ recv x from any tag 0 status s t; send x + 1 to s tag 1; i = i + 1; }} }}
else {{ while i < {requests} {{ send i to 0 tag 0; recv x from 0 tag 1; i = i + 1; }} }}''')


def farm(workers, tasks):
    """Tasks for whoever asks first, and an end for each worker."""
    return Case(f'farm of {workers} workers and {tasks} tasks', f'''mpd 1; ranks {workers + 1}; var v; var source; var kind; var job; var over;
if rank == 0 {{
  while over < {workers} {{
    recv v from any tag 1 status source kind;
    if job < {tasks} {{ job = job + 1; send job to source tag 2; }} else {{ send 0 to source tag 3; over = over + 1; }}
  }}
}} else {{ while kind != 3 {{ send 0 to 0 tag 1; recv v from 0 tag any status source kind; }} }}''')


def cases():
    """All scripts."""
    yield from (gather(4, 4), gather(6, 3), gather(8, 3), kept_by_sender(8), kept_by_sender(12), server(4, 3), server(5, 3), server(5, 4))
    yield from (farm(3, 5), farm(4, 8), farm(5, 12))
    yield from (Case(f'{count} races of two', races(count), math.factorial(2 * count)) for count in range(3, 6))


def run_once(words, seconds):
    """How many runs are told, and how long that took; nothing where it took too long."""
    began = time.perf_counter()
    try:
        ended = subprocess.run(words, stdin=subprocess.DEVNULL, capture_output=True, check=False, timeout=seconds)
    except subprocess.TimeoutExpired:
        return None
    took = time.perf_counter() - began
    last = ended.stdout.decode().splitlines()[-1].split(' ', 3)
    if ended.returncode not in (0, 1) or last[0] != 'outcomes':
        sys.exit(f'{words} ended with status {ended.returncode}')
    return last[3].removesuffix(' more no'), took


def main():
    """Prints a row for each script."""
    parser = argparse.ArgumentParser(description=__doc__.split('\n', 1)[0])
    parser.add_argument('program', nargs='?', default=f'{os.path.dirname(HERE)}/crates/mpdbg/out/mpdbg')
    parser.add_argument('--times', type=int, default=3)
    parser.add_argument('--seconds', type=float, default=60)
    told = parser.parse_args()
    print('| Script | Runs | Time | Memory |\n|---|---|---|---|')
    right = True
    with tempfile.TemporaryDirectory() as folder:
        file = f'{folder}/script.mpd'
        for case in cases():
            with open(file, 'w', encoding='ascii') as it:
                it.write(case.script)
            words = [told.program, 'check', file, '--outcomes']
            found = [run_once(words, told.seconds)]
            if found[0] is None:
                print(f'| {case.name} | | more than {told.seconds:.0f} s | |', flush=True)
                continue
            found += [run_once(words, told.seconds) for _ in range(told.times - 1)]
            runs, took = min(filter(None, found), key=lambda it: it[1])
            is_right = case.runs in (None, int(runs)) if runs.isdigit() else case.runs is None
            print(f'| {case.name} | {runs} | {took * 1000:.0f} ms | {memory_of(words) / 1024:.0f} MiB |', '' if is_right else ' WRONG', flush=True)
            right = right and is_right
    return 0 if right else 1


if __name__ == '__main__':
    sys.exit(main())
