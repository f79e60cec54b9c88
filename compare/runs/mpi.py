"""Runs scripts as programs in C under MPI libraries, and compares how they end with what `check` lists.

    python3 compare/runs/mpi.py                       rows worked by hand (worked_mpi.py), the examples, and 200 random scripts, by the model
    python3 compare/runs/mpi.py PROGRAM --count 20    fewer of them, whose ends are told by `check`, `words` and `trace` of a program
    python3 compare/runs/mpi.py --short --count 0     one run of each script, under one library, with one kind of sends
    python3 compare/runs/mpi.py --broken --late 3     faults of the text in C (mpi_faults.py), each of which must be noticed, alone

Each script is written in C (c_script.py), compiled without a warning, and run under MPICH and under Open MPI: with the standard sends of the
library, with synchronous ones in their place, and with either by chance (mpi_shim.c, which also has each call wait a moment). A run ends with
what each rank printed, traps with its rank, its trap and its line, or hangs with what was printed and which ranks had ended.

Which sends a library buffers is its own affair, so with its own sends an end may be any that a report has in `rendezvous`, `buffered`,
`slots:1` or `slots:2`; with synchronous ones it must be one of `rendezvous`. A script with a report that isn't whole is left out. Reports don't
tell all ends of a script with a wait for any, and where each send is buffered or not by chance there may be more ends than in any mode: an end
that no report has must then be one of all interleavings (ends_of_runs.py), and such ends are counted apart. The programs of docs/FROM_MPI.md are
run beside (mpi_programs.py). A library that is not on the path, or starts no program here, is skipped, which is said. The status is 0 where no
end was another.
"""

import argparse
import glob
import os
import sys
import tempfile
import time
from collections import Counter
from concurrent.futures import ThreadPoolExecutor
from random import Random
from typing import NamedTuple

sys.path.insert(0, os.path.dirname(os.path.dirname(os.path.abspath(__file__))))

from cases.explore_cases import KINDS, KINDS_OF_2, kind_of, script_of
from faults import mpi_faults
from libraries.ends_of_runs import HUNG, MODES_OF, NotWhole, is_of, is_told, listed, searched
from libraries.library_runs import LIBRARIES, SOON, NotCompiled, Odd, compiled, run
from libraries.mpi_programs import compare_programs
from model.c_script import c_text
from model.language import Fault, Script, read_script
from places import TOP
from rows.worked_mpi import ROWS

MOST_RANKS = 4
# One random script of so many is of version 2.
VERSION_2_EVERY = 3
# Kinds of random scripts that are not drawn: with too many ranks, never ending, and refused ones.
LEFT_OUT = ('wide', 'lasting', 'refused')
# So many random scripts meet all that must be met.
MANY = 40
MUST_MEET = tuple(f'{kind}, {library.name}' for library in LIBRARIES for kind in ('ended', 'trapped', 'hung', 'one of several'))


class Case(NamedTuple):
    """A script with its text, and by how its standard sends are the ends that are listed."""
    name: str
    text: bytes
    script: Script
    ends: dict


def case_of(name, text, program=None):
    """The case that a text is; raises where it is no script or a report isn't whole."""
    script = read_script(text)
    if script.ranks > MOST_RANKS:
        raise NotWhole
    by_mode = {mode: listed(text, script, [mode], program) for mode in MODES_OF['plain']}
    return Case(name, text, script, {sends: list(dict.fromkeys(end for mode in modes for end in by_mode[mode])) for sends, modes in MODES_OF.items()})


def row_case(row):
    """The case of a row, whose ends were worked out by hand."""
    return Case(row.name, row.text, read_script(row.text), dict.fromkeys(MODES_OF, row.ends) | {'synchronous': row.synchronous})


def random_case(seed, number, program=None):
    """A random script whose reports are whole, the same each time."""
    random = Random(f'mpi/{seed}/{number}')
    kinds = KINDS_OF_2 if number % VERSION_2_EVERY == 0 else {name: kind for name, kind in KINDS.items() if name not in LEFT_OUT}
    while True:
        name = kind_of(random, kinds)
        try:
            return case_of(f'{name}-{seed}-{number}', script_of(random, kinds[name]), program)
        except (Fault, NotWhole):
            continue


def examples(program):
    """The cases of the examples whose reports are whole, and how many are left out."""
    found, left = [], 0
    for path in sorted(glob.glob(f'{TOP}/examples/*.mpd')):
        with open(path, 'rb') as file:
            text = file.read()
        try:
            found.append(case_of(os.path.basename(path), text, program))
        except NotWhole:
            left += 1
    return found, left


# ---- runs of a case

def is_allowed(case, sends, seen, met):
    """Whether a run may end so: a report has it, or all interleavings have, where reports don't tell all."""
    if any(is_of(seen, end) for end in case.ends[sends]):
        return True
    if is_told(case.script, sends):
        return False
    try:
        beyond = any(is_of(seen, end) for end in searched(case.script, sends != 'synchronous'))
    except NotWhole:
        met['too many interleavings to tell'] += 1
        return True
    met['ends that no report has'] += beyond
    return beyond


def ran(case, library, program, sends, seed, late, folder, met):
    """How a run ended; where it seems to hang, and may not, it is run again with more patience."""
    seen = run(library, program, case.script.ranks, sends, seed, SOON, folder)
    if seen.kind == HUNG and not is_allowed(case, sends, seen, Counter()):
        met['run again with more patience'] += 1
        seen = run(library, program, case.script.ranks, sends, seed, late, folder)
    return seen


def kinds_of_sends(chosen, seed):
    """The kinds of sends that the runs of a case have."""
    kinds = list(MODES_OF)
    return [kinds[seed // len(LIBRARIES) % len(kinds)]] if chosen.short else kinds


def runs_of(case, library, program, chosen, seed, folder, met):
    """How the runs of a case end, and what is wrong with it, or None; each is begun when it is asked for."""
    for number in range(chosen.runs):
        for sends in kinds_of_sends(chosen, seed):
            try:
                seen = ran(case, library, program, sends, seed * 100 + number, chosen.late, folder, met)
            except Odd as why:
                yield None, f'{sends}: {why}'
                continue
            met.update(['runs', f'{seen.kind}, {library.name}'] + [f'one of several, {library.name}'] * (len(case.ends[sends]) > 1))
            yield seen, None if is_allowed(case, sends, seen, met) else f'{sends}: {seen}'


def compare_case(case, library, chosen, seed, folder):
    """What is wrong with how a case ends under a library, and what was met."""
    met, wrong, seen_ends = Counter(), [], set()
    with tempfile.TemporaryDirectory(prefix='case-', dir=folder) as place:
        try:
            program = compiled(library, place, c_text(case.script))
        except NotCompiled as why:
            return [f'{case.name}, {library.name}: not compiled: {why}'], met
        for seen, problem in runs_of(case, library, program, chosen, seed, place, met):
            wrong += [] if problem is None else [f'{case.name}, {library.name}, {problem}']
            seen_ends |= {end for end in case.ends['plain'] if seen is not None and is_of(seen, end)}
    met[f'ends seen, {library.name}'] += len(seen_ends)
    met[f'ends listed, {library.name}'] += len(case.ends['plain'])
    return wrong, met


def kept(case):
    """The path of a file that keeps the script of a case."""
    with tempfile.NamedTemporaryFile(prefix='mpi-', suffix='.mpd', delete=False) as file:
        file.write(case.text)
    return file.name


def compare(chosen, libraries, folder):
    """How many of the cases ended otherwise than they may."""
    found, left = examples(chosen.program)
    cases = [row_case(row) for row in ROWS] + found
    met, wrong, began = Counter(), 0, time.monotonic()

    def of_number(number):
        case = cases[number] if number < len(cases) else random_case(chosen.seed, number - len(cases), chosen.program)
        under = [libraries[number % len(libraries)]] if chosen.short else libraries
        return case, [compare_case(case, library, chosen, number + 1, folder) for library in under]

    with ThreadPoolExecutor(chosen.jobs) as pool:
        for case, parts in pool.map(of_number, range(len(cases) + chosen.count)):
            for problems, met_there in parts:
                met += met_there
                for problem in problems:
                    wrong += 1
                    print(f'{kept(case)}: {problem}', flush=True)
    print('; '.join(f'{name} {count}' for name, count in sorted(met.items())))
    missed = [name for name in MUST_MEET if chosen.count >= MANY and not met[name] and name.endswith(tuple(one.name for one in libraries))]
    for name in missed:
        print(f'{name} was not met')
    seconds = time.monotonic() - began
    print(f'{len(cases) + chosen.count} scripts, {left} examples left out, {met["runs"]} runs in {seconds:.0f} seconds, {wrong} wrong')
    return wrong + len(missed) + (not met['runs'])


# ---- faults

def is_noticed(fault, library, chosen, folder):
    """Whether a run of its row shows a fault of the text in C."""
    case = row_case(next(row for row in ROWS if row.name == fault.row))
    with tempfile.TemporaryDirectory(prefix='fault-', dir=folder) as place:
        program = compiled(library, place, fault.change(c_text(case.script)), ())
        return any(problem is not None for _, problem in runs_of(case, library, program, chosen, 1, place, Counter()))


def not_noticed(chosen, library, folder):
    """How many faults no row shows."""
    with ThreadPoolExecutor(chosen.jobs) as pool:
        faults = mpi_faults.FAULTS
        noticed = pool.map(lambda fault: is_noticed(fault, library, chosen, folder), faults)
        left = [fault.name for fault, is_seen in zip(faults, noticed) if not is_seen]
    for name in left:
        print(f'not noticed under {library.name}: {name}')
    print(f'{len(faults)} faults under {library.name}, {len(left)} not noticed')
    return len(left) + (not faults)


def why_skipped(library, folder):
    """Why nothing is run under a library; None where it runs a script that prints one number."""
    if not library.is_there():
        return f'there is no {library.compiler} and {library.starter}'
    text = c_text(read_script(b'mpd 1; ranks 1; print 1;'))
    try:
        with tempfile.TemporaryDirectory(prefix='first-', dir=folder) as place:
            run(library, compiled(library, place, text), 1, 'plain', 1, SOON, place)
    except (Odd, NotCompiled) as why:
        return f'{library.name} starts no program here: {why}'
    return None


def main():
    parser = argparse.ArgumentParser(description=__doc__, formatter_class=argparse.RawDescriptionHelpFormatter)
    parser.add_argument('program', nargs='?', type=os.path.abspath)
    parser.add_argument('--count', type=int, default=200, help='how many random scripts (200)')
    parser.add_argument('--runs', type=int, default=1, help='how many runs of each script, with each kind of sends, under each library (1)')
    parser.add_argument('--seed', type=int, default=1)
    parser.add_argument('--jobs', type=int, default=1, help='how many scripts are run at a time, each by as many processes as it has ranks (1)')
    parser.add_argument('--late', type=float, default=15.0, help='how many seconds a run that must not hang may write nothing (15)')
    parser.add_argument('--short', action='store_true', help='one run of each script')
    parser.add_argument('--broken', action='store_true', help='faults of the text in C, each of which its row must show')
    chosen = parser.parse_args()
    with tempfile.TemporaryDirectory(prefix='mpi-') as folder:
        skipped = {library: why_skipped(library, folder) for library in LIBRARIES}
        for why in filter(None, skipped.values()):
            print(f'skipped: {why}')
        libraries = [library for library, why in skipped.items() if why is None]
        if not libraries:
            return 0
        if chosen.broken:
            return 1 if not_noticed(chosen, libraries[0], folder) else 0
        return 1 if compare_programs(libraries[:1] if chosen.short else libraries, folder) + compare(chosen, libraries, folder) else 0


if __name__ == '__main__':
    sys.exit(main())
