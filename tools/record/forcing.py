"""Runs of the program itself under the recorder: as it comes, or with some matches forced."""

import os
import re
import shlex
import shutil
import signal
import subprocess
import time
from dataclasses import dataclass
from enum import Enum
from typing import Dict, List, Optional, Tuple

from records import Refused, settle

HERE = os.path.dirname(os.path.abspath(__file__))
# How often the records of a run are looked at, and how long a program that is stopped may take to end, in seconds.
LOOK, CLEANING = 0.05, 10.0
# So many times as patient is who waits where a rank only looks whether something is there: it may do much between looks.
LOOKING = 10
# What lets Open MPI start more ranks than there are processors, and wait without keeping one busy.
ENVIRONMENT = {'OMPI_MCA_rmaps_base_oversubscribe': '1', 'OMPI_MCA_mpi_yield_when_idle': '1'}
# Functions of MPI that are not recorded and need not be: none of them sends, receives or waits.
CALM = re.compile(
    r'MPI_(Comm_(rank|size|free|group|compare|test_inter|remote_\w+|[gs]et_\w+|delete_attr|\w+_keyval|\w+_errhandler|[cf]2[cf])'
    r'|Wtime|Wtick|Get_\w+|Type_\w+|Op_\w+|Error_\w+|Group_\w+|Status_\w+|Initialized|Finalized|Query_thread|Is_thread_main|Info_\w+'
    r'|Cart_(coords|shift|rank|get|map)|Cartdim_get|Topo_test|Dims_create|Buffer_\w+|Pack\w*|Unpack\w*|Alloc_mem|Free_mem|Address'
    r'|Aint_\w+|Errhandler_\w+|Attr_\w+|Keyval_\w+|Request_[cf]2[cf]|Reduce_local|Add_error_\w+|Pcontrol|Mrecv|Imrecv|T_\w+'
    r'|Win_\w+|File_\w+|Put|Get|Accumulate|Fetch_and_op|Compare_and_swap|R?(put|get)\w*)$')


# For each call that is forced, by rank and number, the source and the tag of the message that it must take.
Forced = Dict[Tuple[int, int], Tuple[int, int]]


class Ending(Enum):
    """How a run ended, as it looks from outside."""
    WELL = 'ended well'
    STATUS = 'ended with a status'
    STANDS = 'stood still'
    LATE = 'did not end in time'
    BROKEN = 'was interrupted'


@dataclass
class Ran:
    """A run of the program: its folder, how it ended, and its status."""
    folder: str
    ending: Ending
    status: int
    seconds: float


@dataclass
class Command:
    """What is run: a program with its words, by a starter with so many ranks, and the recorder that is preloaded."""
    words: List[str]
    ranks: int
    starter: List[str]
    recorder: str
    patience: float
    seconds: float
    is_synchronous: bool = False        # standard sends are synchronous ones

    def started(self) -> List[str]:
        """The words that start the program under the recorder."""
        return [*self.starter, '-n', str(self.ranks), 'env', f'LD_PRELOAD={self.recorder}', *self.words]

    def shown(self, folder: str) -> str:
        """The command that runs the program again as in a folder: with its matches forced, or with synchronous sends."""
        setting = 'MPDREC_SYNCHRONOUS=1' if self.is_synchronous else f'MPDREC_FORCE={folder}/force'
        return ' '.join([setting, *map(shlex.quote, self.started())])


# ---- the recorder

def libraries_of(program: str) -> str:
    """The shared libraries of a program, as ldd tells them; of a Python those of its mpi4py too."""
    path = shutil.which(program) or program
    paths = [path]
    if os.path.basename(path).startswith('python'):
        code = 'import glob, importlib.util as u, os; print(*glob.glob(os.path.dirname(u.find_spec("mpi4py").origin) + "/MPI*.so"))'
        paths += subprocess.run([path, '-c', code], capture_output=True, text=True, check=False).stdout.split()
    return ''.join(subprocess.run(['ldd', one], capture_output=True, text=True, check=False).stdout for one in paths)


def is_static(program: str) -> bool:
    """Whether a program is one file of code that loads no library."""
    path = shutil.which(program) or program
    with open(path, 'rb') as file:
        is_code = file.read(4) == b'\x7fELF'
    return is_code and '=>' not in libraries_of(program)


def tools_of(program: str) -> Tuple[List[str], List[str]]:
    """The compiler and the starter of the MPI library that a program is linked with, each with its words: MPICC and MPIEXEC if
    they are set."""
    if is_static(program):
        raise Refused(f'{program} is linked statically: nothing stands between it and its MPI library')
    told = libraries_of(program)
    ending = '.mpich' if 'libmpich' in told else '.openmpi' if 'libmpi.so.40' in told else ''
    found = []
    for variable, name in (('MPICC', 'mpicc'), ('MPIEXEC', 'mpiexec')):
        named = shutil.which(name + ending) or shutil.which(name)
        found.append(shlex.split(os.environ.get(variable, '')) or ([named] if named else []))
        if not found[-1]:
            raise Refused(f'there is no {name} on the path: set {variable}')
    return found[0], found[1]


def built_recorder(compiler: List[str], folder: str) -> str:
    """The recorder, built for the library of a compiler."""
    path = os.path.join(os.path.abspath(folder), 'librecord.so')
    try:
        ran = subprocess.run([*compiler, '-shared', '-fPIC', '-O1', os.path.join(HERE, 'record.c'), '-o', path],
                             capture_output=True, text=True, check=False)
    except OSError as why:
        raise Refused(f'no compiler: {why}') from None
    if ran.returncode:
        raise Refused(f'{" ".join(compiler)} doesn\'t compile the recorder: {ran.stderr.strip()}')
    return path


def not_recorded(program: str, recorder: str) -> List[str]:
    """The functions of MPI that a program names, and that the recorder neither writes down nor may leave out."""
    def names(path: str, which: str) -> set:
        told = subprocess.run(['nm', '-D', which, path], capture_output=True, text=True, check=False).stdout
        fortran = re.findall(r'\bmpi_(?!fortran_)(\w+?)_(?:f08(?:ts)?_)?$', told, re.M)
        return set(re.findall(r'\bMPI_\w+', told)) | {'MPI_' + name.capitalize() for name in fortran}
    wanted = names(shutil.which(program) or program, '--undefined-only')
    return sorted(name for name in wanted - names(recorder, '--defined-only') if not CALM.match(name))


def printed_of(folder: str) -> List[str]:
    """The lines that a run printed."""
    try:
        with open(f'{folder}/printed', encoding='utf-8', errors='replace') as file:
            return file.read().splitlines()
    except FileNotFoundError:
        return []


# ---- runs

class Watch:
    """Where each rank stands, by its record as it grows: its last line, and the last call that it made."""

    def __init__(self, folder: str, ranks: int):
        self.paths = [os.path.join(folder, f'rank.{rank}') for rank in range(ranks)]
        self.early = [os.path.join(folder, f'early.{rank}') for rank in range(ranks)]
        self.read = [0] * ranks
        self.last = [''] * ranks
        self.called = [''] * ranks

    def look(self) -> List[str]:
        for rank, path in enumerate(self.paths):
            try:
                with open(path, 'rb') as file:
                    file.seek(self.read[rank])
                    part = file.read(1 << 20).split(b'\0', 1)[0]
            except OSError:
                continue
            end = part.rfind(b'\n')
            if end < 0:
                continue
            self.read[rank] += end + 1
            self.last[rank] = part[part.rfind(b'\n', 0, end) + 1:end + 1].decode(errors='replace')
            begun = (b'\n' + part[:end + 1]).rfind(b'\n> ')
            self.called[rank] = part[begun:end + 1].split(None, 3)[2].decode() if begun >= 0 else self.called[rank]
        return list(self.last)

    def patience(self, patience: float) -> float:
        """How long the ranks may stand so before the run is ended; for ever if one of them computes, or all end."""
        kinds = [line[:1] for line in self.last]
        if any(os.path.exists(path) and not line for path, line in zip(self.early, self.last)):
            return patience * LOOKING           # a rank has ended before MPI_Init, and others may wait for it there
        if any(kind not in ('>', '?') and name != 'Finalize' for kind, name in zip(kinds, self.called)):
            return float('inf')
        if all(name == 'Finalize' for name in self.called):
            return float('inf')
        return patience * (LOOKING if '?' in kinds else 1)


def end(process: subprocess.Popen) -> None:
    """Ends a starter, and with it the ranks that it started, if it has not ended."""
    if process.poll() is not None:
        return
    for number in (signal.SIGTERM, signal.SIGKILL):
        try:
            os.killpg(process.pid, number)
        except ProcessLookupError:
            return
        try:
            process.wait(CLEANING)
            return
        except subprocess.TimeoutExpired:
            continue


def run(command: Command, folder: str, forced: Optional[Forced] = None) -> Ran:
    """Runs the program once; its record, what it printed and what was forced stand in the folder."""
    shutil.rmtree(folder, ignore_errors=True)
    os.makedirs(folder)
    environment = ENVIRONMENT | dict(os.environ) | {'MPDREC_FOLDER': os.path.abspath(folder)}
    if forced is not None:
        with open(f'{folder}/force', 'w', encoding='ascii') as file:
            file.writelines(f'{rank} {call} {source} {tag}\n' for (rank, call), (source, tag) in sorted(forced.items()))
        environment['MPDREC_FORCE'] = os.path.abspath(f'{folder}/force')
    if command.is_synchronous:
        environment['MPDREC_SYNCHRONOUS'] = '1'
    with open(f'{folder}/printed', 'wb') as printed:
        try:
            process = subprocess.Popen(command.started(), env=environment, stdin=subprocess.DEVNULL, stdout=printed,
                                       stderr=subprocess.STDOUT, start_new_session=True)
        except OSError as why:
            raise Refused(f'no starter: {why}') from None
        began = time.monotonic()
        try:
            ran = watched(process, command, folder)
        except KeyboardInterrupt:
            ran = Ran(folder, Ending.BROKEN, -1, time.monotonic() - began)
        finally:
            end(process)
    settle(folder)
    return ran


def watched(process: subprocess.Popen, command: Command, folder: str) -> Ran:
    """Waits for the end of a run; one in which all ranks stand in the same calls for a while is ended."""
    watch, began = Watch(folder, command.ranks), time.monotonic()
    before, since = None, began
    while process.poll() is None:
        time.sleep(LOOK)
        now, lines = time.monotonic(), watch.look()
        if lines != before:
            before, since = lines, now
        stands = now - since > watch.patience(command.patience)
        if stands or now - began > command.seconds:
            end(process)
            return Ran(folder, Ending.STANDS if stands else Ending.LATE, -1, now - began)
    ending = Ending.WELL if process.returncode == 0 else Ending.STATUS
    return Ran(folder, ending, process.returncode, time.monotonic() - began)
