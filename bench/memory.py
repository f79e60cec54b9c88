#!/usr/bin/env python3
"""Shows that steps and their undos ask for no memory once their room is kept, as docs/SPEED.md tells it ("Memory").

    python3 bench/memory.py [BENCH..]    (one that is built for it, where none is named)

Each program is run under bench/malloc_shim.c, which counts what it asks for between its two marks, 10,000 steps of every kind
and as many undos, and then refuses all of that; it must end the same. It says how many steps of each kind it took: some of every
one. Two more runs show that the shim counts and refuses.
Status 1 where one of them ends otherwise.
"""
import os
import re
import shutil
import subprocess
import sys
import tempfile

from bench_program import named_or_built

# The kinds of steps.
KINDS = 'local', 'match', 'wake', 'wakeany', 'release'
HERE = os.path.dirname(os.path.abspath(__file__))


def compiler():
    """The words that make a library of one C file: of $CC, cc, or the clang of the kit."""
    kit = os.path.dirname(os.path.dirname(os.path.realpath(shutil.which('rt') or '/')))
    clang = f'{kit}/toolchain/bin/clang'
    named = os.environ.get('CC') or shutil.which('cc')
    if named:
        return [*named.split()]
    return [clang, '--target=x86_64-linux-gnu', '-fuse-ld=lld']


def built(folder):
    shim = f'{folder}/malloc_shim.so'
    words = [*compiler(), '-O2', '-shared', '-fPIC', '-nostdlib', '-o', shim, f'{HERE}/malloc_shim.c']
    subprocess.run(words, check=True)
    return shim


def run(program, shim, folder, refuse=None):
    """The status, the output and what the shim counted: inside, outside and refused."""
    report = f'{folder}/report'
    environment = {**os.environ, 'LD_PRELOAD': shim, 'SHIM_REPORT': report}
    if refuse:
        environment['SHIM_REFUSE'] = refuse
    if os.path.exists(report):
        os.remove(report)
    ended = subprocess.run([program], stdin=subprocess.DEVNULL, capture_output=True, env=environment, timeout=120)
    with open(report, encoding='utf-8') as it:
        counts = re.fullmatch(r'inside (\d+) outside (\d+) refused (\d+) elsewhere \d+\n', it.read())
    return ended.returncode, ended.stdout, *map(int, counts.groups())


def has_each_kind(output):
    """Whether the last line of the output tells of steps of each kind."""
    told = dict(re.findall(r'(\w+) (\d+)', output.decode().splitlines()[-1]))
    return all(int(told.get(kind, 0)) > 0 for kind in KINDS)


def is_well(program, shim, folder):
    """Whether the program's four runs end as they must."""
    status, output, inside, outside, refused = run(program, shim, folder)
    print(f'{program}: between the marks {inside} requests, outside {outside}; {output.decode().splitlines()[-1:]}')
    said = [(status == 0 and output.count(b'mark ') == 2, 'it has both marks, and ends well'),
            (has_each_kind(output), 'it took steps of each kind'),
            (inside == 0, 'no request between the marks'),
            (outside > 0, 'the shim counts the requests outside')]
    again = run(program, shim, folder, refuse='inside')
    said.append((again == (status, output, 0, outside, 0), 'the same where all requests between the marks are refused'))
    first = run(program, shim, folder, refuse='1')
    said.append((first[0] == 3 and first[4] > 0, 'status 3 where the first request is refused'))
    for is_so, what in said:
        print(f"  {'yes' if is_so else 'NO '}  {what}")
    return all(is_so for is_so, _ in said)


def main():
    with tempfile.TemporaryDirectory() as folder:
        programs = [named_or_built(it, folder) for it in sys.argv[1:] or [None]]
        shim = built(folder)
        return 0 if all([is_well(it, shim, folder) for it in programs]) else 1


if __name__ == '__main__':
    sys.exit(main())
