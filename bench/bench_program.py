#!/usr/bin/env python3
"""Builds the bench: the program of bench/talk/, which takes steps and their undos over the crates of this repository.

    python3 bench/bench_program.py OUT

It stands in no crate of the repository, and is built in a copy of it, with no proof and no check (bench/unproved.py): what it measures,
times and requests for memory, is of the crates below it, whose sources are the same. Its files end in `.rattle`, since a `.rt` file must
stand in a crate.
"""
import glob
import os
import shutil
import subprocess
import sys
import tempfile

HERE = os.path.dirname(os.path.abspath(__file__))
TOP = os.path.dirname(HERE)
CRATE = 'mpd_bench'
USED = 'mpd_model', 'mpd_script', 'mpd_code', 'mpd_core', 'mpd_trail', 'mpd_policy'


def build(out):
    """Builds it there."""
    with tempfile.TemporaryDirectory(prefix='bench-') as room:
        for folder in ('bench', 'tools'):
            shutil.copytree(f'{TOP}/{folder}', f'{room}/{folder}', ignore=shutil.ignore_patterns('__pycache__'))
        shutil.copytree(f'{TOP}/crates', f'{room}/crates', ignore=shutil.ignore_patterns('out', 'must-fail', 'proofs'))
        for name in ('crates.txt', 'HANDLES'):
            shutil.copy(f'{TOP}/{name}', room)
        os.makedirs(f'{room}/crates/{CRATE}/src')
        for path in glob.glob(f'{HERE}/talk/*.rattle'):
            shutil.copy(path, f'{room}/crates/{CRATE}/src/{os.path.basename(path).removesuffix(".rattle")}.rt')
        with open(f'{room}/crates.txt', 'a', encoding='utf-8') as file:
            file.write(f'{CRATE}: {" ".join(USED)}\n')
        subprocess.run([sys.executable, f'{room}/bench/unproved.py', CRATE, os.path.abspath(out)], check=True)


def named_or_built(named, folder):
    """The program that is named, or else one that is built in this folder."""
    if named:
        return os.path.abspath(named)
    build(f'{folder}/{CRATE}')
    return f'{folder}/{CRATE}'


if __name__ == '__main__':
    if len(sys.argv) != 2:
        sys.exit(__doc__)
    build(sys.argv[1])
