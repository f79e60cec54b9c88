"""The programs in C of docs/FROM_MPI.md, in examples/: how they may end under a library; for compare/runs/mpi.py."""

import tempfile
from typing import NamedTuple

from libraries.ends_of_runs import ENDED, HUNG
from libraries.library_runs import NotCompiled, compiled, run_once
from places import EXAMPLES
RANKS = 3
# How long, in seconds, nothing is written by a program that hangs, and by one that must not.
SOON, LATE = 2.0, 20.0


class Program(NamedTuple):
    """A program: its source, options of the compiler, what its standard sends are (mpi_shim.c), how it may end, and the lines that it
    writes then, in some order; of a line only the beginning is told."""
    name: str
    options: tuple
    sends: str
    ways: tuple
    lines: tuple

    def __str__(self):
        return ' '.join([self.name, *self.options, self.sends])


# In the sum of gather_results are the harmonic sums of 1,000,000 and of 2,000,000: 14.392727 and 15.085874.
SUM = ('sum 29.478600, ',)
PARTS = tuple(f'rank {rank} has the part of rank {rank}' for rank in range(RANKS))
MENDED, MANY = '-DMENDED', '-DCOUNT=1000000'

PROGRAMS = (
    *(Program('gather_results', (), sends, (ENDED, HUNG), ('sum ',)) for sends in ('plain', 'synchronous')),
    *(Program('gather_results', (MENDED,), sends, (ENDED,), SUM) for sends in ('plain', 'synchronous')),
    Program('shift_ring', (), 'plain', (ENDED,), PARTS), Program('shift_ring', (), 'synchronous', (HUNG,), ()),
    Program('shift_ring', (MANY,), 'plain', (HUNG,), ()),
    *(Program('shift_ring', (MENDED, *options), sends, (ENDED,), PARTS) for options in ((), (MANY,)) for sends in ('plain', 'synchronous')),
)


def wrong_end(program, text, is_over, status):
    """What is wrong with how a program ended; None where nothing is."""
    if not is_over:
        return None if HUNG in program.ways else f'it hangs: {text}'
    said = sorted(line for line in text.splitlines() if line and not line.endswith('begins'))
    if status or ENDED not in program.ways:
        return f'it ended with status {status}: {text}'
    if len(said) != len(program.lines) or not all(map(str.startswith, said, sorted(program.lines))):
        return f'it wrote {said}'
    return None


def problem_of(program, library, folder):
    """What is wrong with a program under a library; None where nothing is."""
    with open(f'{EXAMPLES}/{program.name}.c', 'rb') as file:
        text = file.read()
    with tempfile.TemporaryDirectory(prefix='program-', dir=folder) as place:
        try:
            built = compiled(library, place, text, more=program.options)
        except NotCompiled as why:
            return f'{program}, {library.name}: not compiled: {why}'
        patience = SOON if HUNG in program.ways else LATE
        written, _, is_over, status = run_once(library, built, RANKS, program.sends, 1, patience, place)
        problem = wrong_end(program, written, is_over, status)
        return None if problem is None else f'{program}, {library.name}: {problem}'


def compare_programs(libraries, folder):
    """How many of the programs are not as the page says."""
    problems = [problem_of(program, library, folder) for library in libraries for program in PROGRAMS]
    wrong = [problem for problem in problems if problem is not None]
    for problem in wrong:
        print(problem, flush=True)
    print(f'{len(problems)} programs, {len(wrong)} wrong')
    return len(wrong)
