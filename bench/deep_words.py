#!/usr/bin/env python3
"""Shows that words of the console take no longer far from the start than near to it (docs/SPEED.md).

    python3 bench/deep_words.py PROGRAM

It runs `PROGRAM debug` on a script of a million local steps and more, to 1,000 steps and to 900,000, and there 20 words of a kind, once
with no breakpoint set and once with one that no step hits. What 20 words take is the least of 7 runs with them, less the least of 7 runs
that only go there. It is no part of the gate; the last figure of each line says how many times as long they take at 900,000 steps.
"""
import os
import subprocess
import sys
import tempfile
import time

RUNS = 7
WORDS = 20
NEAR, FAR = 1_000, 900_000
SCRIPT = 'mpd 1;\nranks 1;\nvar x;\nvar y;\nwhile x < 600000 { x = x + 1; }\ny = 1;\n'
BREAKS = {'no breakpoint': '', 'a breakpoint of a line': 'break line 6\n', 'a breakpoint of a variable': 'break change 0 y\n'}
KINDS = {'next': '', 'back': '', 'redo': f'back {WORDS}\n'}


def least(program, path, lines):
    shortest = None
    for _ in range(RUNS):
        began = time.perf_counter()
        said = subprocess.run([program, 'debug', path], input=lines.encode(), capture_output=True, check=True).stdout.decode()
        took = time.perf_counter() - began
        if 'refused' in said or 'no word' in said:
            sys.exit(f'{lines!r} is answered with {said[-400:]!r}')
        shortest = took if shortest is None else min(shortest, took)
    return shortest


def main():
    program = os.path.abspath(sys.argv[1])
    with tempfile.TemporaryDirectory() as folder:
        path = f'{folder}/deep.mpd'
        with open(path, 'w', encoding='utf-8') as it:
            it.write(SCRIPT)
        for told, stop in BREAKS.items():
            for word, before in KINDS.items():
                took = {}
                for depth in (NEAR, FAR):
                    start = f'{stop}run {depth}\n{before}'
                    took[depth] = least(program, path, start + f'{word}\n' * WORDS) - least(program, path, start)
                near, far = (took[depth] * 1000 for depth in (NEAR, FAR))
                print(f'{told}: {WORDS} `{word}` take {near:.2f} ms behind {NEAR} steps and {far:.2f} ms behind {FAR}', flush=True)


if __name__ == '__main__':
    main()
