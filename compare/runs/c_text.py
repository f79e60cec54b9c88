"""Compares what `mpdbg c` writes of scripts with the model (c_script.py), byte for byte.

    python3 compare/runs/c_text.py PROGRAM                 worked rows (worked_c_text.py), the examples, and 500 random scripts of both versions, some
                                                           of which are refused; the same ones for the same seed and count
    python3 compare/runs/c_text.py PROGRAM --count 3000    more of them
    python3 compare/runs/c_text.py --broken                faults of the model (c_text_faults.py), each of which must be noticed; with PROGRAM, beside it
    python3 compare/runs/c_text.py --print FILE            the text of a script in C

Without a program the model is compared with the rows alone. The status is 0 where nothing differed, and all was met that must be.
"""

import argparse
import glob
import os
import sys
import tempfile
from collections import Counter
from concurrent.futures import ProcessPoolExecutor
from itertools import chain
from random import Random
from typing import NamedTuple

sys.path.insert(0, os.path.dirname(os.path.dirname(os.path.abspath(__file__))))

from cases.explore_cases import KINDS, KINDS_OF_2, kind_of, script_of
from cases.limit_cases import limits_case
from cases.scripts import Writer, rendered
from faults import c_text_faults
from model import c_script
from model.canonical import now_and_then_canonical
from model.debugger import BAD_FILE, Result, refusal
from model.files import held
from model.language import Fault, read_script
from model.witness import agrees
from places import TOP
from rows.worked_c_text import ROWS
from runs import driving
from runs.driving import first_different

CHUNK = 25
# So many scripts meet all that must be met.
MANY = 200
MUST_MEET = ('rows', 'examples', 'written', 'refused', 'version 2', 'no file', *(f'`{text}`' for text in (
    'MPI_Send(', 'MPI_Ssend(', 'MPI_Isend(', 'MPI_Issend(', 'MPI_Recv(', '&status);', 'MPI_Irecv(', 'call->tag_place = ', 'wait_for(&my',
    'wait_for_any(', 'wait_for_any(&', 'MPI_Barrier(MPI_COMM_WORLD)', 'MPI_ANY_SOURCE', 'MPI_ANY_TAG', 'while (', '} else {', 'must_hold(',
    'print(', 'within(', 'negate(', '!(', ' && ', ' || ', ' == ', 'EQUAL(', 'ADD(', '[1];')))


class Asked(NamedTuple):
    """A text of which C is asked; None where there is no such file."""
    name: str
    text: bytes

    def wanted(self):
        """What must be answered."""
        if self.text is None:
            return BAD_FILE
        try:
            return Result(c_script.c_text(read_script(self.text)), b'', 0)
        except Fault as fault:
            return refusal(self.text, fault)


def asked(seed, number):
    """A random text, the same each time."""
    random = Random(f'c/{seed}/{number}')
    draw = random.random()
    if draw < 0.02:
        return Asked('no file', None)
    if draw < 0.4:
        writer = Writer(random, random.choice([1, 2, 3, 16]), version=random.choice([1, 2]))
        return Asked(f'any-{seed}-{number}', now_and_then_canonical(random, rendered(random, writer.script())))
    if draw < 0.45:
        return Asked(f'limits-{seed}-{number}', limits_case(random).partition(b'\n---\n')[0])
    kinds = KINDS_OF_2 if random.random() < 0.4 else KINDS
    name = kind_of(random, kinds)
    return Asked(f'{name}-{seed}-{number}', script_of(random, kinds[name]))


def examples():
    for path in sorted([*glob.glob(f'{TOP}/examples/*.mpd'), *glob.glob(f'{TOP}/examples/lab/*.mpd')]):
        with open(path, 'rb') as file:
            yield Asked(os.path.basename(path), file.read())


def said(chosen, question):
    """What the program says to a question, or else the model."""
    if not chosen.program:
        return question.wanted()
    return driving.said_by_program(chosen, 'c-text-', lambda folder: ('c', held(folder, 'script.mpd', question.text)))


def met_in(question, wanted):
    """What of a text a program may write wrongly."""
    if wanted.status:
        yield 'no file' if question.text is None else 'refused'
        return
    yield 'written'
    if read_script(question.text).version == 2:
        yield 'version 2'
    before, _, statements = wanted.output.decode().partition('        return 2;\n    }\n')
    declared = before.rpartition('*/')[2]
    yield from (text for text in MUST_MEET if text.startswith('`') and text.strip('`') in (declared if text == '`[1];`' else statements))


def problem_of(chosen, question):
    """How a question is answered otherwise than it must be, or None; and what was met."""
    result, wanted = said(chosen, question), question.wanted()
    return None if agrees(result, wanted) else first_different(result, wanted), Counter(met_in(question, wanted))


def row_problem(chosen, row):
    """What is written of a row otherwise than was worked out; None where nothing is."""
    result = said(chosen, Asked('row', row.text()))
    wanted = Result(row.wanted(), b'', 0)
    return None if result == wanted else f'{row.script!r}: {first_different(result, wanted)}'


def compare_chunk(chosen, numbers):
    """What differs of some random scripts, and what was met."""
    found, met = [], Counter()
    for number in numbers:
        question = asked(chosen.seed, number)
        problem, there = problem_of(chosen, question)
        met += there
        found += [] if problem is None else [(question, problem)]
    return found, met


def kept(question):
    """The path of a file that keeps a text."""
    if question.text is None:
        return question.name
    with tempfile.NamedTemporaryFile(prefix='c-text-', suffix='.mpd', delete=False) as file:
        file.write(question.text)
    return file.name


def compare_rows(chosen):
    """How many of the rows are written otherwise than was worked out."""
    wrong = [problem for problem in (row_problem(chosen, row) for row in ROWS) if problem is not None]
    for problem in wrong:
        print(problem)
    print(f'{len(ROWS)} rows, {len(wrong)} wrong')
    return len(wrong)


def compare(chosen, pool):
    """Compares what is written of the examples and of so many scripts; gives how much differed, or was not met that must be."""
    met, found = Counter(rows=len(ROWS)), []
    for question in examples():
        problem, there = problem_of(chosen, question)
        met += there + Counter(examples=1)
        found += [] if problem is None else [(question, problem)]
    for problems, there in driving.by_chunks(pool, compare_chunk, chosen, CHUNK):
        found += problems
        met += there
    for question, problem in found:
        print(f'{kept(question)}: {question.name}: {problem}')
    missed = driving.unmet(MUST_MEET, met, chosen.count >= MANY)
    print(f'{met["written"] + met["refused"] + met["no file"]} texts, {len(found)} different')
    return len(found) + missed


def shows(fault, question, answer):
    """Whether the model with a fault says otherwise to a question than the program, or else the sound model."""
    with driving.broken(fault):
        return not agrees(answer, question.wanted())


def not_noticed(chosen):
    """The faults that no answer shows."""
    left = c_text_faults.FAULTS
    for question in chain((Asked('row', row.text()) for row in ROWS), (asked(chosen.seed, number) for number in range(chosen.count))):
        if not left:
            break
        answer = said(chosen, question)
        left = [fault for fault in left if not shows(fault, question, answer)]
    return [fault.name for fault in left]


def main():
    parser = argparse.ArgumentParser(description=__doc__, formatter_class=argparse.RawDescriptionHelpFormatter)
    parser.add_argument('program', nargs='?', type=os.path.abspath)
    parser.add_argument('--count', type=int, default=500, help='how many random texts (500)')
    parser.add_argument('--seed', type=int, default=1)
    parser.add_argument('--seconds', type=int, default=60, help='how long one run may take (60)')
    parser.add_argument('--jobs', type=int, default=os.cpu_count())
    parser.add_argument('--broken', action='store_true', help='faults of the model, which must be noticed')
    parser.add_argument('--print', metavar='FILE', help='print the text of a script in C')
    chosen = parser.parse_args()
    if chosen.print:
        with open(chosen.print, 'rb') as file:
            sys.stdout.buffer.write(c_script.c_text(read_script(file.read())))
        return 0
    failed = 0
    if chosen.program or not chosen.broken:
        failed += compare_rows(chosen)
    if chosen.program:
        with ProcessPoolExecutor(chosen.jobs) as pool:
            failed += compare(chosen, pool)
    if chosen.broken:
        left = not_noticed(chosen)
        for name in left:
            print(f'not noticed: {name}')
        print(f'{len(c_text_faults.FAULTS)} faults, {len(left)} not noticed')
        failed += len(left)
    return 1 if failed else 0


if __name__ == '__main__':
    sys.exit(main())
