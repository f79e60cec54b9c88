"""Builds the program of calls: a crate of compare/probe/memory/ and direct/, in a copy of the repository, compiled with no proof.

It keeps the checks of `rt try`'s compiled run but for AddressSanitizer, so that a library which refuses memory can be preloaded to it
(bench/unproved.py, `--checked`).
"""

import glob
import os
import shutil
import subprocess
import sys
import tempfile

from places import TOP
from probe.call_rows import DIRECT

sys.path.append(f'{TOP}/.ci')
sys.dont_write_bytecode = True

from edit_files import BadEdit
import planted

CRATE = 'mpd_calls'
SOURCES = f'{TOP}/compare/probe/memory'
# What the calls are of, and what these stand on.
USED = ('atomic_blocks', 'crossbeam_deque', 'mpd_counter', 'mpd_lines', 'mpd_frames', 'mpd_dap', 'mpd_model', 'mpd_queue', 'mpd_match', 'mpd_script', 'mpd_c', 'mpd_code',
        'mpd_rank', 'mpd_core', 'mpd_trail', 'mpd_policy', 'mpd_explore', 'mpd_pool', 'mpd_outcomes', 'mpd_check', 'mpd_session', 'mpd_wire', 'mpd_server', 'mpd_witness',
        'mpd_diagnose', 'mpd_trace', 'mpd_options', 'mpd_laws', 'mpd_meaning', 'mpd_complete', 'mpd_runs', 'mpd_explain', 'mpd_names',
        'mpd_vocabulary', 'mpd_picture', 'mpd_page', 'mpd_console', 'itoa', 'thiserror', 'rand', 'rand_core', 'rand_pcg')


class Body(planted.Body):
    """A wrong body: an edit with its crate, the call that must show it, and what must be said of that call."""

    def __init__(self, path):
        super().__init__('', path)
        self.name = os.path.basename(path).removesuffix('.edit')
        self.row, self.said = None, None
        self.read()
        if not self.row or not self.said:
            raise BadEdit('it names no row, or not what must be said of it')

    def reads(self, key, value):
        if key == 'row':
            self.row = value.strip()
        elif key == 'said':
            self.said = value.strip()
        else:
            return super().reads(key, value)
        return True


def add_crate(room):
    """Adds the crate of calls to a copy of the repository."""
    folder = f'{room}/crates/{CRATE}/src'
    os.makedirs(folder)
    for path in glob.glob(f'{SOURCES}/*.rattle') + glob.glob(f'{DIRECT}/*.rattle'):
        shutil.copy(path, f'{folder}/{os.path.basename(path).removesuffix(".rattle")}.rt')
    with open(f'{room}/crates.txt', 'a', encoding='utf-8') as file:
        file.write(f'{CRATE}: {" ".join(USED)}\n')


def build(out, bodies=()):
    """Builds it there, with these wrong bodies planted. With them it is built for a few short runs."""
    with tempfile.TemporaryDirectory(prefix='calls-') as room:
        here = os.getcwd()
        os.chdir(TOP)
        try:
            left = planted.plant(list(bodies), room)
        finally:
            os.chdir(here)
        if left:
            raise BadEdit(f'{left[0].name} touches another body')
        add_crate(room)
        for folder in ('bench', 'tools'):
            shutil.copytree(f'{TOP}/{folder}', f'{room}/{folder}', ignore=shutil.ignore_patterns('__pycache__'))
        words = ['--checked', '-O0'] if bodies else ['--checked']
        subprocess.run([sys.executable, f'{room}/bench/unproved.py', CRATE, os.path.abspath(out), *words], check=True)
