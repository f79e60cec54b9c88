"""What comparisons of a program with the model share: the words of their command line, their workers, what of a difference is kept, rows, what
must be met, and faults of the model that must be noticed."""

import argparse
import os
import shlex
import tempfile
import time
from collections import Counter
from concurrent.futures import ProcessPoolExecutor
from os.path import commonprefix
from unittest import mock

from started.programs import limit, run_at_once

CHUNK = 20
# How many processes there may be, and how that is told.
CORES = len(os.sched_getaffinity(0)), 'one for each core'


# ---- the command line

def parser_of(description, scripts, count, answer='check', jobs=2, jobs_told=None, others='scripts', flags=()):
    """What reads the words of a command line. Its help tells how many of what `scripts` are compared, which other ones another seed gives, how
    many processes there are, and one what may take so long; flags of its own are pairs, each with what it does."""
    parser = argparse.ArgumentParser(description=description, formatter_class=argparse.RawDescriptionHelpFormatter)
    parser.add_argument('program', nargs='?', metavar='PROGRAM')
    parser.add_argument('--count', type=int, default=count, help=f'how many {scripts}')
    parser.add_argument('--seed', type=int, default=1, help=f'another seed gives other {others} (1)')
    parser.add_argument('--broken', action='store_true', help='break the model on purpose; each fault must be noticed')
    for flag, does in flags:
        parser.add_argument(flag, action='store_true', help=does)
    parser.add_argument('--jobs', type=int, default=jobs, help=f'how many processes ({jobs_told or jobs})')
    parser.add_argument('--seconds', type=float, default=20, help=f'how long one {answer} may take (20)')
    parser.add_argument('--memory', type=int, default=4096, help='how much memory the program may take, in MiB (4096)')
    parser.add_argument('--output', type=int, default=256, help='how much the program may write, in MiB (256)')
    return parser


def add_versions(parser):
    """What a program may not know yet."""
    parser.add_argument('--version', type=int, choices=[1, 2], default=2, help='the last version that the program knows (2)')
    parser.add_argument('--two-modes', action='store_true', help='the program has no modes `slots:K`')


def chosen_by(parser, *alone):
    """What the words of the command line choose; the program, where one is named, must be one. Where some words are named, it may be left out
    with one of these alone."""
    chosen = parser.parse_args()
    if alone and chosen.program is None and not any(getattr(chosen, word) for word in alone):
        parser.error(f'PROGRAM is left out with {" or ".join(f"--{word}" for word in alone)} alone')
    if chosen.program:
        chosen.program = os.path.abspath(chosen.program)
        if not os.access(chosen.program, os.X_OK) or os.path.isdir(chosen.program):
            parser.error(f'{chosen.program} is no program')
    return chosen


# ---- workers

def prepare(chosen):
    """Readies a process for its part of a run."""
    limit(chosen.memory, chosen.output)


def driven(chosen, compare, compare_broken):
    """The status of a comparison: 1 where anything is wrong. Both parts are given what was chosen and the workers, and give how much is wrong;
    the second is asked for by `--broken`."""
    began = time.monotonic()
    with ProcessPoolExecutor(chosen.jobs, initializer=prepare, initargs=(chosen,)) as pool:
        wrong = compare(chosen, pool)
        wrong += compare_broken(chosen, pool) if chosen.broken else 0
    print(f'{time.monotonic() - began:.1f} seconds')
    return 1 if wrong else 0


def by_chunks(pool, compare_chunk, chosen, size=CHUNK):
    """What some numbers at a time give, from 0 up to as many as were chosen."""
    chunks = [range(first, min(first + size, chosen.count)) for first in range(0, chosen.count, size)]
    return pool.map(compare_chunk, [chosen] * len(chunks), chunks)


# ---- the program, and what is kept of a difference

def all_compared(pool, compare_chunk, each, size, kept):
    """How much was compared, how much of it differs, each of which is told by where it is kept, and what was met: of what was chosen for each
    version, so many at a time."""
    chunks = [(one, range(first, min(first + size, one.count))) for one in each for first in range(0, one.count, size)]
    tasks = [pool.submit(compare_chunk, *chunk) for chunk in chunks]
    compared, differing, met = 0, 0, Counter()
    for count, found, met_there in (task.result() for task in tasks):
        met += met_there
        compared += count
        differing += len(found)
        for case, what in found:
            print(f'{kept(case)}: {what}', flush=True)
    return compared, differing, met


def said_by_program(chosen, prefix, words_in, data=b''):
    """What the program answers to words, which are told by a folder that is there meanwhile, and to an input."""
    with tempfile.TemporaryDirectory(prefix=prefix) as folder:
        return run_at_once(chosen.program, data, chosen.seconds, words=words_in(folder))


class Kept:
    """Folders of what differs, in a temporary one that is made for the first of them and stays."""

    def __init__(self, prefix):
        self.prefix, self.top = prefix, None

    def folder(self, name):
        """The folder of a name."""
        self.top = self.top or tempfile.mkdtemp(prefix=self.prefix)
        path = os.path.join(self.top, str(name))
        os.makedirs(path, exist_ok=True)
        return path

    def case(self, case):
        """Keeps the files of a case; says what words ask the program of it."""
        return shlex.join(case.words(self.folder(case.name)))


# ---- what differs

def piece(line, place):
    """What stands in a line round a place."""
    return line[max(0, place - 40):place + 40]


def first_different(result, wanted):
    """What is the first to differ in the output, else in the errors, with both statuses."""
    for part in ('output', 'errors'):
        said, due = (getattr(one, part).split(b'\n') + [b'(nothing)'] for one in (result, wanted))
        for number, (line, right) in enumerate(zip(said, due), 1):
            if line != right:
                place = len(commonprefix([line, right]))
                return (f'line {number} of {part} has {piece(line, place)!r} at {place}, wanted {piece(right, place)!r} '
                        f'(status {result.status}, wanted {wanted.status})')
    return f'status {result.status}, wanted {wanted.status}'


# ---- rows

def count_wrong(rows, how):
    """How many rows there are, and how many have another result than is wanted, each of which is told by its name and what is wrong."""
    count = wrong = 0
    for name, result, wanted in rows:
        count += 1
        if result != wanted:
            wrong += 1
            print(f'{name}: {how(result, wanted)}', flush=True)
    return count, wrong


def count_wrong_of(parts, rows_of, how):
    """The same of several functions, each of which must have a row."""
    count = wrong = 0
    for part in parts:
        there, wrong_there = count_wrong(rows_of(part), how)
        if not there:
            print(f'{part.__name__}: nothing was run')
        count, wrong = count + there, wrong + wrong_there + (not there)
    return count, wrong


# ---- what must be met, and faults of the model

def met_line(names, met):
    """How often each of some things was met, in one line."""
    return '; '.join(f'{name} {met[name]}' for name in names)


def not_met(names, met, is_enough):
    """A line for each of some things that wasn't met, where enough was compared that it must have been."""
    return [f'{name} was not met' for name in names if not met[name]] if is_enough else []


def tell(lines):
    """Writes lines; gives how many."""
    for line in lines:
        print(line)
    return len(lines)


def unmet(names, met, is_enough):
    """Writes how often each of some things was met, and which weren't that must be; gives how many."""
    print(met_line(names, met))
    return tell(not_met(names, met, is_enough))


def broken(fault):
    """Has the model a fault, as long as that is asked for."""
    return mock.patch.object(fault.owner, fault.attribute, fault.replacement)


class Tried:
    """Tests of a broken model, each of which says whether something is wrong. The one that showed the last fault is tried first: faults of one
    kind stand beside one another, and one row shows several of them."""

    def __init__(self, tests):
        self.tests = list(tests)

    def show(self):
        """Whether one of them shows a fault."""
        for place, is_wrong in enumerate(self.tests):
            if is_wrong():
                self.tests.insert(0, self.tests.pop(place))
                return True
        return False


def tell_not_noticed(names):
    """Writes which faults were not noticed."""
    for name in names:
        print(f'{name}: NOT NOTICED', flush=True)


def count_left(names, count):
    """Writes how many of so many faults were noticed, and which weren't; gives how many weren't, or that there was none."""
    tell_not_noticed(names)
    print(f'{count} broken models, {count - len(names)} noticed')
    return len(names) + (not count)


# ---- what must hold of the model by itself

def rule_parser(description, told, count, seed='another seed gives other scripts (1)'):
    """What reads the words of a command line that names no program."""
    parser = argparse.ArgumentParser(description=description, formatter_class=argparse.RawDescriptionHelpFormatter)
    parser.add_argument('--count', type=int, default=count, help=f'how many {told} ({count})')
    parser.add_argument('--seed', type=int, default=1, help=seed)
    parser.add_argument('--broken', action='store_true', help='break the model on purpose; each fault must be noticed')
    return parser


def tell_wrong(met, wrong, others=()):
    """Writes the first of what is wrong, other lines, and what was met."""
    tell([*wrong[:20], *others])
    print(', '.join(f'{name} {count}' for name, count in sorted(met.items())), f'- {len(wrong)} wrong')


def count_unnoticed(faults, check):
    """How many faults of the model are not noticed: nothing is wrong with any."""
    unnoticed = 0
    for fault in faults:
        with broken(fault):
            _, wrong = check()
        unnoticed += not wrong
        print(f'{fault.name}: {wrong[0] if wrong else "NOT NOTICED"}', flush=True)
    return unnoticed


def holds(chosen, check, must_meet, faults, is_enough=lambda met: True):
    """The status of what checks so many scripts or walks: 1 where something is wrong, or was not met that must be, or a fault is not noticed."""
    met, wrong = check(chosen.seed, chosen.count)
    missed = not_met(must_meet, met, True)
    tell_wrong(met, wrong, missed)
    if wrong or missed or not is_enough(met):
        return 1
    return 1 if chosen.broken and count_unnoticed(faults(), lambda: check(chosen.seed, chosen.count, to_end=False)) else 0
