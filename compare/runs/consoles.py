"""Compares what `debug` of a program answers with the model of the console, byte for byte: the same dialogues for the same seed and count.

    python3 compare/runs/consoles.py PROGRAM               worked dialogues (console_worked.py), and 300 random ones, the same ones for a seed
    python3 compare/runs/consoles.py PROGRAM --count 3000  more of them
    python3 compare/runs/consoles.py PROGRAM --short       without the rows of 100,000 steps and more
    python3 compare/runs/consoles.py --broken              faults of the model (console_faults.py), each of which must be noticed; with PROGRAM,
                                                           beside it

Each dialogue is a script in a file, of either version, in some mode, now and then with a witness or the choices of a run, and lines of words
on standard input (console_cases.py): words that fit the script, and words, names, numbers and bytes that don't. Output, errors and status
must be the model's.
The status is 0 where dialogues were compared, none differed, and all was met that must be, which fewer than 300 needn't do.
"""

import os
import shlex
import sys
import tempfile
from collections import Counter
from functools import cache, partial
from typing import NamedTuple, Optional

sys.path.insert(0, os.path.dirname(os.path.dirname(os.path.abspath(__file__))))

from cases.console_cases import Case, random_case
from cases.console_met import MUST_MEET, met_in
from faults import console_faults
from model.debugger import Result
from model.console import USUAL
from model.files import held
from model.witness import agrees
from rows.console_starts import LONG_STARTS, STARTS, TYPED, start_problem
from rows.console_worked import CUT, DIALOGUES, ENDINGS, LONG, SLOW, dialogue_problem, ending_problem
from rows.worked_console_echo import ECHO, LOOKED, look_problem
from rows.worked_console_scripts import LOOP
from runs import driving
from runs.driving import first_different
from started.console_files import path_in, wrong_with_files, wrong_with_words
from started.console_terminal import wrong_at_terminal

CHUNK = 10
# So many dialogues meet all that must be met; so many are tried of a fault that a worked row has shown.
MANY, FEW = 300, 2


def said(chosen, case):
    """What the program answers, or else the model."""
    return driving.said_by_program(chosen, 'consoles-', case.words, case.data) if chosen.program else case.wanted()


# ---- comparing

def compare_chunk(chosen, numbers):
    """How many lines were answered in some dialogues, which of these differ, each with how, and what was met."""
    found, met, count = [], Counter(), 0
    for case in (random_case(chosen.seed, number) for number in numbers):
        result, wanted = said(chosen, case), case.wanted()
        met.update(met_in(case, wanted))
        count += case.data.count(b'\n')
        if not agrees(result, wanted):
            found.append((case, first_different(result, wanted)))
    return count, found, met


def worked_cases(chosen):
    """The worked dialogues, each as one input, and what is read in one, with what each must be answered; the model isn't asked the long ones."""
    is_long = not chosen.short and chosen.program is not None
    rows = DIALOGUES + SLOW + (() if chosen.short else CUT) + LONG * is_long
    for row in (row for row in rows if row.is_usual and not row.files and not row.words):
        yield Case(row.what, row.text, row.mode, row.data, row.witness_text, run=row.run), Result(row.wanted(), b'', 0)
    for row in ENDINGS:
        yield Case(row.what, LOOP.encode(), None, row.data), Result(row.wanted.encode(), b'', 0)
    for row in LOOKED:
        yield Case(row.what, row.text, None, row.data, look=row.look), Result(row.wanted, b'', 0)
    for row in STARTS + LONG_STARTS * is_long:
        yield Case(row.what, row.text, row.mode, TYPED, row.witness, run=row.run), row.wanted


def terminal_wrong(chosen, row):
    """What is answered otherwise at a terminal than a worked dialogue wants; None where nothing is."""
    with tempfile.TemporaryDirectory(prefix='consoles-') as folder:
        words = Case(row.what, row.text, row.mode, b'', row.witness_text, run=row.run).words(folder)
        how = wrong_at_terminal(chosen.program, words, row, chosen.seconds)
    return None if how is None else f'{row.what}, at a terminal: {how}'


def files_wrong(chosen, row):
    """What is answered otherwise than a worked dialogue wants whose script is written anew meanwhile; None where nothing is."""
    with tempfile.TemporaryDirectory(prefix='consoles-') as folder:
        words = Case(row.what, row.text, row.mode, b'').words(folder)
        how = wrong_with_files(chosen.program, words, path_in(folder), row, chosen.seconds)
    return None if how is None else f'{row.what}, with its files: {how}'


def words_wrong(chosen, row, look):
    """What is answered otherwise than a worked dialogue wants whose lines name files of words, or than the model does if lines are shown; None
    where nothing is."""
    with tempfile.TemporaryDirectory(prefix='consoles-') as folder:
        case = Case(row.what, row.text, row.mode, row.data, look=look)
        how = wrong_with_words(chosen.program, case.words(folder), folder, row, look, chosen.seconds)
    return None if how is None else f'{row.what}, with files of words: {how}'


def row_wrong(chosen, case, wanted):
    """What is answered otherwise than a worked row wants; None where nothing is."""
    result = said(chosen, case)
    return None if result == wanted else f'{case.name}: {first_different(result, wanted)}'


def compare_rows(chosen, pool):
    """How many worked rows are answered otherwise than they must be."""
    cases = list(worked_cases(chosen))
    usual = [row for row in DIALOGUES if row.is_usual] if chosen.program else []
    named = [(row, look) for row in usual for look in (USUAL, ECHO) if row.words]
    typed, written = [row for row in usual if not row.files and not row.words], [row for row in usual if row.files and not row.words]
    found = [*pool.map(row_wrong, [chosen] * len(cases), *zip(*cases)), *pool.map(terminal_wrong, [chosen] * len(typed), typed),
             *pool.map(files_wrong, [chosen] * len(written), written), *pool.map(words_wrong, [chosen] * len(named), [row for row, _ in named], [look for _, look in named])]
    wrong = [how for how in found if how is not None]
    for how in wrong:
        print(how, flush=True)
    print(f'{len(cases)} worked dialogues, {len(typed)} at a terminal, {len(written)} with files, {len(named)} with words of files, {len(wrong)} wrong', flush=True)
    return len(wrong)


def kept(files, case):
    """Keeps the files of a dialogue; says how to ask it again."""
    path = files.folder(case.name)
    return f'{shlex.join(case.words(path))} < {held(path, "typed", case.data)}'


def compare(chosen, pool):
    """Compares so many random dialogues; gives how many differ, and how much was not met that must be."""
    differing, met, compared, files = 0, Counter(), 0, driving.Kept('consoles-')
    for count, found, met_there in driving.by_chunks(pool, compare_chunk, chosen, CHUNK):
        met += met_there
        compared += count
        for case, how in found:
            differing += 1
            print(f'{kept(files, case)}: {how}', flush=True)
    missed = driving.unmet(MUST_MEET, met, chosen.count >= MANY)
    print(f'{compared} lines in {chosen.count} dialogues, {differing} different')
    return differing + missed + (not compared)


# ---- faults of the model

@cache
def heard(chosen, number):
    """A random dialogue, and what the program answers to it, or else the sound model."""
    case = random_case(chosen.seed, number)
    return case, said(chosen, case)


@cache
def row_tests():
    """The tests of the worked rows, without those of 100,000 steps; and those that take the model long."""
    usual = ((dialogue_problem, DIALOGUES), (ending_problem, ENDINGS), (start_problem, STARTS), (look_problem, LOOKED))
    return [driving.Tried(partial(is_shown, problem, row) for problem, rows in part for row in rows) for part in (usual, ((dialogue_problem, SLOW),))]


def is_row_wrong_with(fault):
    """Whether a worked row shows a fault."""
    with driving.broken(fault):
        return any(tried.show() for tried in row_tests())


def is_dialogue_wrong_with(fault, chosen, count):
    """Whether the model with a fault answers otherwise in one of so many random dialogues."""
    for number in range(count):
        case, result = heard(chosen, number)
        with driving.broken(fault):
            if not agrees(result, case.wanted()):
                return True
    return False


def is_shown(test, *given):
    """What a test says of a broken model; one that asks for a state or a call that isn't there, as the sound model never does, is wrong."""
    try:
        return test(*given)
    except (AttributeError, LookupError):
        return True


def noticed(chosen, place):
    """Whether a fault is noticed by a random dialogue, of which few are tried where a worked row shows it, and whether by a row."""
    fault = console_faults.breakages()[place]
    by_row = is_row_wrong_with(fault)
    return is_shown(is_dialogue_wrong_with, fault, chosen, min(FEW, chosen.count) if by_row else chosen.count), by_row


def compare_broken(chosen, pool):
    """How many faults of the model are not noticed by random dialogues or worked rows."""
    faults = console_faults.breakages()
    found = list(pool.map(noticed, [chosen] * len(faults), range(len(faults))))
    left = [fault.name for fault, by in zip(faults, found) if not any(by)]
    driving.tell_not_noticed(left)
    by_dialogues, by_rows = (sum(by) for by in zip(*found))
    print(f'{len(faults)} broken models, {len(faults) - len(left)} noticed, {by_dialogues} by random dialogues and {by_rows} by worked rows')
    return len(left) + (not faults)


def compare_all(chosen, pool):
    return compare_rows(chosen, pool) + compare(chosen, pool)


class Chosen(NamedTuple):
    """What the words of the command line choose."""
    program: Optional[str]
    count: int
    seed: int
    broken: bool
    short: bool
    jobs: int
    seconds: float
    memory: int
    output: int


def main():
    short = '--short', 'leave out the rows of 100,000 steps and more'
    parser = driving.parser_of(__doc__, 'random dialogues (300)', 300, 'dialogue', others='dialogues', flags=(short,))
    return driving.driven(Chosen(**vars(driving.chosen_by(parser))), compare_all, compare_broken)


if __name__ == '__main__':
    sys.exit(main())
