"""Runs of a program in C under an MPI library: what its ranks wrote, and whether they ended, trapped, or hang; for compare/runs/mpi.py."""

import os
import re
import select
import shutil
import signal
import subprocess
import time
from typing import NamedTuple

from libraries.ends_of_runs import ENDED, HUNG, TRAPPED, End

HERE = os.path.dirname(os.path.abspath(__file__))
# What a teacher would ask of a program: it compiles without a warning.
STRICT = ('-std=c11', '-Wall', '-Wextra', '-pedantic', '-O1')
# How long, in seconds, all ranks may take to begin, and how long nothing more is written in a run that is taken for one that hangs, where
# it may.
BEGINNING, SOON = 60, 1.0
# How long the starter of a run that is over may take to end.
CLEANING = 20
# So often a run is tried again whose trap was not told: a starter that ends all ranks may drop what was written last.
AGAIN = 5

PRINTS = re.compile(r'rank (\d+) prints (-?\d+)')
ENDS = re.compile(r'rank (\d+) ends')
BEGINS = re.compile(r'rank (\d+) begins')
TRAPS = re.compile(r'rank (\d+) traps at line (\d+): ([a-z-]+)')


class Library(NamedTuple):
    """A library, by the endings of its compiler and its starter, and the options of these."""
    name: str
    options: tuple

    @property
    def compiler(self):
        return f'mpicc.{self.name}'

    @property
    def starter(self):
        return f'mpiexec.{self.name}'

    def is_there(self):
        return shutil.which(self.compiler) is not None and shutil.which(self.starter) is not None


LIBRARIES = Library('mpich', ()), Library('openmpi', ('--oversubscribe',))
# What lets Open MPI run as root, as in a container, and leave its processor to others where it waits.
ENVIRONMENT = {'OMPI_ALLOW_RUN_AS_ROOT': '1', 'OMPI_ALLOW_RUN_AS_ROOT_CONFIRM': '1', 'OMPI_MCA_mpi_yield_when_idle': '1', 'UCX_LOG_LEVEL': 'error'}


class NotCompiled(Exception):
    """A text that a compiler refuses, or warns of."""


def compiled(library, folder, text, options=STRICT, more=()):
    """The path of the program that a text in C is compiled to, with the shim; raises what the compiler says."""
    source, program = os.path.join(folder, 'program.c'), os.path.join(folder, f'program.{library.name}')
    with open(source, 'wb') as file:
        file.write(text)
    ran = subprocess.run([library.compiler, *options, *more, source, shim_of(library, os.path.dirname(folder)), '-o', program],
                         capture_output=True, check=False)
    if ran.returncode or ran.stderr:
        raise NotCompiled(ran.stderr.decode(errors='replace'))
    return program


def shim_of(library, folder):
    """The path of the shim as an object of a library, which is compiled once."""
    path = os.path.join(folder, f'shim.{library.name}.o')
    if not os.path.exists(path):
        subprocess.run([library.compiler, *STRICT, '-c', f'{HERE}/mpi_shim.c', '-o', path], check=True)
    return path


# ---- one run

def of_session(session):
    """The processes of a session."""
    found = []
    for name in filter(str.isdecimal, os.listdir('/proc')):
        try:
            with open(f'/proc/{name}/stat', encoding='utf-8', errors='replace') as file:
                fields = file.read().rpartition(')')[2].split()
        except (FileNotFoundError, ProcessLookupError):
            continue
        if int(fields[3]) == session:
            found.append(int(name))
    return found


def end(process):
    """Ends a starter and all that it started, which are those of its session."""
    for number in of_session(process.pid):
        try:
            os.kill(number, signal.SIGKILL)
        except ProcessLookupError:
            pass
    process.wait()


class Watched:
    """What a run writes, read as it comes."""

    def __init__(self, process, ranks):
        self.process, self.ranks = process, ranks
        self.texts = {process.stdout: b'', process.stderr: b''}
        self.open = set(self.texts)
        self.last = time.monotonic()

    def text(self):
        return '\n'.join(text.decode('ascii', 'replace') for text in self.texts.values())

    def have_begun(self):
        return len(set(BEGINS.findall(self.text()))) == self.ranks

    def read(self, patience):
        """Reads until all is written, or nothing is for so long; whether it came to its end."""
        while self.open:
            allowed = patience if self.have_begun() else BEGINNING
            ready, _, _ = select.select(list(self.open), [], [], max(0.0, self.last + allowed - time.monotonic()))
            if not ready:
                return False
            for file in ready:
                piece = os.read(file.fileno(), 65536)
                if piece:
                    self.last = time.monotonic()
                    self.texts[file] += piece
                else:
                    self.open.discard(file)
        return True


class Odd(Exception):
    """A run that came to no end that there is."""


class NotTold(Odd):
    """A run that ended as one does that traps, and told no trap."""


def end_of(text, ranks, is_over, status):
    """How a run ended, by what it wrote."""
    printed = [[] for _ in range(ranks)]
    for rank, value in PRINTS.findall(text):
        printed[int(rank)].append(int(value))
    traps = sorted((int(rank), name, int(line)) for rank, line, name in TRAPS.findall(text))
    ended = sorted(int(rank) for rank in ENDS.findall(text))
    if traps and is_over and status != 3:
        raise Odd(f'a trap with status {status}')
    if not traps and is_over and status == 3:
        raise NotTold('a trap that was not told')
    if not traps and is_over and (status != 0 or ended != list(range(ranks))):
        raise Odd(f'status {status}: {text[-2000:]}')
    kind = TRAPPED if traps else ENDED if is_over else HUNG
    return End(kind, tuple(map(tuple, printed)), tuple(ended), tuple(traps))


def run(library, program, ranks, sends, seed, patience, folder):
    """How a run of a program ended; it hangs where nothing is written for so many seconds once all ranks have begun."""
    for _ in range(AGAIN):
        try:
            return end_of(*run_once(library, program, ranks, sends, seed, patience, folder))
        except NotTold as why:
            not_told = why
    raise not_told


def run_once(library, program, ranks, sends, seed, patience, folder):
    """What a run wrote, how many ranks it had, whether it came to its end, and its status."""
    environment = {**os.environ, **ENVIRONMENT, 'MPI_SENDS': sends, 'MPI_SEED': str(seed), 'TMPDIR': folder,
                   'OMPI_MCA_btl_vader_backing_directory': folder}
    process = subprocess.Popen([library.starter, *library.options, '-n', str(ranks), program], stdin=subprocess.DEVNULL,
                               stdout=subprocess.PIPE, stderr=subprocess.PIPE, start_new_session=True, env=environment)
    try:
        watched = Watched(process, ranks)
        is_over = watched.read(patience)
        return watched.text(), ranks, is_over, process.wait(CLEANING) if is_over else None
    finally:
        end(process)
        process.stdout.close()
        process.stderr.close()
