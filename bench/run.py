#!/usr/bin/env python3
"""How long the built programs take, as docs/SPEED.md tells it.

    python3 bench/run.py [PROGRAM [BENCH]]  (crates/mpdbg/out/mpdbg and a bench that is built for it, where none is named)

It is no part of the gate. Each figure of the first program is the best of 20 runs, less the best of 20 runs of the same
script with no words, or with those before what is measured. The second program measures steps and their undos itself, with no text in what is measured: local ones,
messages and requests behind others, a wait, messages in a row, laps of a ring with a barrier behind others, an outcome, runs that go by themselves, and a decision over many calls; under valgrind, where that is there, its growths
of memory are counted: they come with reading, lowering and the first time that steps are taken, and not with the many times
that are measured. Where a program isn't built, a line says how to build it, and the status is 2.
"""
import os
import re
import shutil
import subprocess
import sys
import tempfile
import time

from bench_program import named_or_built

RUNS = 20
# How often a list of enabled steps is asked for, and a match is taken and undone, in one run.
GATHERED = 2_000
TOP = os.path.dirname(os.path.dirname(os.path.abspath(__file__)))
# How the program is built, at the top of the repository.
HOW = '(cd crates/mpdbg && rt run < ../../examples/first.trace)'


def built():
    """The path of the program: that of the command line, else where it is built."""
    path = sys.argv[1] if len(sys.argv) > 1 else os.path.join(TOP, 'crates', 'mpdbg', 'out', 'mpdbg')
    if os.path.isfile(path) and os.access(path, os.X_OK):
        return os.path.abspath(path)
    print(f'{path} is no program: build it with {HOW}', file=sys.stderr)
    sys.exit(2)


def best(program, data):
    shortest = None
    for _ in range(RUNS):
        began = time.perf_counter()
        ended = subprocess.run([program], input=data, capture_output=True, check=False)
        took = time.perf_counter() - began
        if ended.returncode != 0:
            sys.exit(f'status {ended.returncode}: {ended.stderr.decode()}')
        shortest = took if shortest is None else min(shortest, took)
    return shortest


def script_of(size):
    """A script of so many bytes: prints of a variable, and a comment that fills it up."""
    text = 'mpd 1;\nranks 2;\nvar x;\n'
    piece = 'if x == 0 { print (x == 1); } else { print 1234567; }\n'
    while len(text) + len(piece) < size:
        text += piece
    return (text + '#' + '-' * (size - len(text) - 1)).encode()


def reading(program, empty):
    print('reading a script, less the smallest one')
    for kib in (1, 16, 64):
        took = best(program, script_of(kib * 1024)) - empty
        print(f'  {kib:>3} KiB   {took * 1e3:8.3f} ms')


def local_steps(program, empty):
    script = b'mpd 1;\nranks 2;\n' + b'print rank == 0;\n' * 50 + b'---\n'
    none = best(program, script)
    print('trace words that take a local step and undo it, less none')
    for count in (1_000, 10_000, 100_000):
        took = best(program, script + b'local 0\nback\n' * (count // 2)) - none
        print(f'  {count:>7}   {took * 1e3:8.3f} ms   {took / count * 1e9:7.1f} ns a word')
    loop = b'mpd 1;ranks 1;var i;while 1 { i = i + 1; }\n---\n'
    took = best(program, loop + b'local 0\n' * 1_000_000) - empty
    print(f'a million words, each a step     {took * 1e3:8.1f} ms')
    took = best(program, loop + b'local 0\nback\n' * 500_000) - empty
    print(f'a million words, there and back  {took * 1e3:8.1f} ms')


def message(number):
    """The words from one message in a row to the next: each rank's three local steps, the match, the wakes, and `i`."""
    ranks = b'local 0\n' * 3 + b'local 1\n' * 3
    return ranks + b'match 0.%d 1.%d\n' % (number, number) + b'wake 0\nwake 1\n' + b'local 0\nlocal 1\n'


def messages(program):
    """Messages in a row with their undos: each takes the same, however many come before it."""
    script = (b'mpd 1;\nranks 2;\nvar i;\nvar x;\n'
              b'while 1 { if rank == 0 { send i to 1 tag 0; } else { recv x from 0 tag 0; } i = i + 1; }\n---\n')
    none = best(program, script)
    print('messages in a row and all of them taken back, 22 words each, less none')
    for count in (1, 10, 100, 1_000, 10_000):
        there = b''.join(message(number) for number in range(count))
        rounds = max(1, 2_000 // count)
        data = script + (there + b'back\n' * there.count(b'\n')) * rounds
        if b'refused' in subprocess.run([program], input=data, capture_output=True, check=True).stdout:
            sys.exit('a message was refused')
        took = best(program, data) - none
        each = took / count / rounds
        print(f'  {count:>7}   {each * 1e6:8.2f} us a message   {each / 22 * 1e9:7.1f} ns a word')


def gathered(senders, each):
    """A script, and the words behind which one rank receives of any source while each of the others has sent so much to it."""
    script = (f'mpd 1;\nranks {senders + 1};\nvar x;\nreq r;\n'
              'if rank == 0 { recv x from any tag any; } else { while 1 { isend r rank to 0 tag 0; } }\n---\n')
    sends = ''.join(f'local {rank}\n' * (1 + 2 * each) for rank in range(1, senders + 1))
    return (script + 'local 0\nlocal 0\n' + sends).encode()


def ends_with(program, data, wanted):
    """Stops where the last lines of the answers are others."""
    written = subprocess.run([program], input=data, capture_output=True, check=True).stdout
    if not written.endswith(wanted.encode()):
        sys.exit(f'answered {written[-len(wanted) - 40:]}, and not {wanted}')


def gather(program):
    """What is enabled where many senders race for one receive; a match of the last sender and its undo, in that state."""
    print('a receive of any source, with so many senders and messages of each: `enabled`; a match and its undo, less none')
    for senders in (2, 4, 8, 15):
        for each in (1, 10, 100, 1_000):
            before = gathered(senders, each)
            depth = 2 + senders * (1 + 2 * each)
            listed = ', '.join([*(f'local {rank}' for rank in range(1, senders + 1)),
                                *(f'match {rank}.0 0.0' for rank in range(1, senders + 1))])
            match = f'match {senders}.0 0.0\nback\n'.encode()
            ends_with(program, before + b'enabled\n', f'ok {depth}\nenabled {listed}\n')
            ends_with(program, before + match, f'ok {depth + 1}\nok {depth}\n')
            none = best(program, before)
            took = best(program, before + b'enabled\n' * GATHERED) - none
            there = best(program, before + match * GATHERED) - none
            print(f'  {senders:>2} senders, {each:>5}   {took / GATHERED * 1e6:8.2f} us   {there / GATHERED * 1e6:8.2f} us')


def inside(program):
    """What the second program tells of itself, and how often it asked for memory."""
    for _ in range(3):
        print(subprocess.run([program], capture_output=True, check=True).stderr.decode(), end='')
    if shutil.which('valgrind'):
        told = subprocess.run(['valgrind', '--leak-check=no', program], capture_output=True, check=False).stderr.decode()
        print(re.search(r'total heap usage: .*', told).group())


def main():
    program = built()
    empty = best(program, b'mpd 1;\nranks 1;\n')
    reading(program, empty)
    local_steps(program, empty)
    messages(program)
    gather(program)
    with tempfile.TemporaryDirectory() as folder:
        inside(named_or_built(sys.argv[2] if len(sys.argv) > 2 else None, folder))


if __name__ == '__main__':
    main()
