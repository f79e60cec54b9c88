"""Compares what `dap` of a program answers with the model of the debug adapter, byte for byte: the same dialogues for the same seed and count.

    python3 compare/runs/adapters.py PROGRAM               worked dialogues (worked_adapter.py), and 200 random ones, the same ones for a seed
    python3 compare/runs/adapters.py PROGRAM --count 3000  more of them
    python3 compare/runs/adapters.py                       the model stands in the place of a program
    python3 compare/runs/adapters.py PROGRAM --without evaluate,scopes   a program that doesn't know these commands yet; rows of them are left out
    python3 compare/runs/adapters.py --broken              faults of the model (adapter_faults.py), each of which must be noticed; with PROGRAM,
                                                           beside it

Each dialogue is a script in a file, in some mode, now and then with a witness or the choices of a run, and frames on standard input
(adapter_cases.py): messages that an editor may send where the session stands, and ones that come too early, are spoiled or none at all; and what is
no frame. A third is given at once; a third in pieces, each of which is one read of the program; and of a third each frame is written only when all
that answers those before it has come, so that a program that reads on before it answers never ends. Output, errors and status must be the
model's, and each frame must have its shape in the protocol (dap_schema.py). The status is 0 where dialogues were compared, none differed, and all
was met that must be, which fewer than 200 needn't do.
"""

import json
import os
import shlex
import sys
import tempfile
import time
from collections import Counter
from functools import cache
from os.path import commonprefix
from typing import NamedTuple, Optional

sys.path.insert(0, os.path.dirname(os.path.dirname(os.path.abspath(__file__))))

from cases.adapter_cases import random_case
from cases.adapter_met import MUST_MEET, exchanges, met_in
from faults import adapter_faults
from model.adapter import leave_out
from model.dap_schema import wrong_frame
from model.files import held
from model.frames import WHOLE, frames_of
from model.witness import agrees
from rows.adapter_talks import is_of
from rows.worked_adapter import ROWS
from runs import driving
from started.programs import run_at_once, run_in_packets
from started.turn_by_turn import Silent, Talking

CHUNK = 5
# So many dialogues meet all that must be met; so many are tried of a fault that a worked row has shown.
MANY, FEW = 200, 2
# How much of a body or a frame is told at most, and how many line feeds there are in the header of a frame.
MOST_TOLD, FEEDS = 300, 2


# ---- a program

def run_in_turns(chosen, case, words):
    """The result for an input of which each frame is written when all that answers those before it has come."""
    talking, until = Talking(chosen.program, words), time.monotonic() + chosen.seconds
    try:
        for piece, count in zip(case.pieces, case.counts):
            # (a body has no line feed)
            talking.ask(piece, FEEDS * count, until)
    except (Silent, BrokenPipeError):
        pass
    return talking.result(until)


def run(chosen, case):
    """What the program answers."""
    with tempfile.TemporaryDirectory(prefix='adapters-') as folder:
        words = case.words(folder)
        if case.way == 'at once':
            return run_at_once(chosen.program, case.data, chosen.seconds, words=words)
        if case.way == 'in pieces':
            return run_in_packets(chosen.program, case.pieces, chosen.seconds, words)
        return run_in_turns(chosen, case, words)


def said(chosen, case):
    """What the program answers, or else the model."""
    return run(chosen, case) if chosen.program else case.wanted()


# ---- what differs

def cut(data):
    """Some bytes as they are told."""
    return repr(data[:MOST_TOLD]) + ('..' if len(data) > MOST_TOLD else '')


def asked_before(case, wanted, place):
    """The body that a frame answers, by its place among those that must be written."""
    found = [exchange for exchange in exchanges(case.data, wanted.output) if exchange.frames and exchange.first <= place]
    return cut(found[-1].body) if found else 'no body'


def different_frame(case, result, wanted):
    """What is the first frame that differs, and which body it answers; None where all frames are the same."""
    said_there, due = frames_of(result.output)[0], frames_of(wanted.output)[0]
    for place, (frame, right) in enumerate(zip([*said_there, b'(nothing)'], [*due, b'(nothing)'])):
        if frame != right:
            at = len(commonprefix([frame, right]))
            return (f'frame {place + 1}, after the body {asked_before(case, wanted, place)}: at byte {at} it has {frame[max(0, at - 60):at + 100]!r}, '
                    f'wanted {right[max(0, at - 60):at + 100]!r}; whole: {cut(frame)}, wanted {cut(right)}')
    return None


def difference(case, result, wanted):
    """How a result differs from what must be answered."""
    how = different_frame(case, result, wanted) or driving.first_different(result, wanted)
    return how if (result.errors, result.status) == (wanted.errors, wanted.status) else (
        f'{how} (errors {cut(result.errors)} and status {result.status}, wanted {cut(wanted.errors)} and {wanted.status})')


def misshapen(result):
    """The first thing that is wrong with a frame of a result, by the protocol; None where nothing is."""
    bodies, end = frames_of(result.output)
    if end != WHOLE:
        return f'what is written ends as {end}'
    for number, body in enumerate(bodies, 1):
        try:
            wrong = wrong_frame(json.loads(body))
        except ValueError as error:
            wrong = [str(error)]
        if wrong:
            return f'frame {number}: {wrong[0]}: {cut(body)}'
    return None


def wrong_in(case, result, wanted):
    """What is wrong with a result; None where nothing is."""
    return misshapen(result) if agrees(result, wanted) else difference(case, result, wanted)


# ---- comparing

def compare_chunk(chosen, numbers):
    """How many messages there were in some dialogues, which dialogues differ, each with how, and what was met."""
    leave_out(chosen.without)
    found, met, count = [], Counter(), 0
    for case in (random_case(chosen.seed, number) for number in numbers):
        result, wanted = said(chosen, case), case.wanted()
        met.update({*met_in(case, wanted), case.way})
        count += len(frames_of(case.data)[0])
        wrong = wrong_in(case, result, wanted)
        if wrong is not None:
            found.append((case, wrong))
    return count, found, met


def kept(files, case):
    """Keeps the files of a dialogue; says how to ask it again."""
    path = files.folder(case.name)
    return f'{shlex.join(case.words(path))} < {held(path, "sent", case.data)} ({case.way})'


def compare(chosen, pool):
    """Compares so many random dialogues; gives how many differ, and how much was not met that must be."""
    differing, met, compared, files = 0, Counter(), 0, driving.Kept('adapters-')
    for count, found, met_there in driving.by_chunks(pool, compare_chunk, chosen, CHUNK):
        met += met_there
        compared += count
        for case, how in found:
            differing += 1
            print(f'{kept(files, case)}: {how}', flush=True)
    missed = driving.unmet((*MUST_MEET, *('at once', 'in pieces', 'in turns')), met, chosen.count >= MANY and not chosen.without)
    print(f'{compared} messages in {chosen.count} dialogues, {differing} different')
    return differing + missed + (not compared)


def row_wrong(chosen, place):
    """What is answered otherwise than a worked row wants; None where nothing is."""
    leave_out(chosen.without)
    row = ROWS[place]
    wrong = wrong_in(row.case, said(chosen, row.case), row.wanted)
    return None if wrong is None else f'{row.what}: {wrong}'


def compare_rows(chosen, pool):
    """How many worked rows are answered otherwise than they must be."""
    places = [place for place, row in enumerate(ROWS) if not (chosen.without and is_of(row, chosen.without))]
    wrong = [how for how in pool.map(row_wrong, [chosen] * len(places), places) if how is not None]
    for how in wrong:
        print(how, flush=True)
    left = len(ROWS) - len(places)
    print(f'{len(places)} worked dialogues, {len(wrong)} wrong{f"; {left} left out" if left else ""}', flush=True)
    return len(wrong) + (not places)


def compare_all(chosen, pool):
    return compare_rows(chosen, pool) + compare(chosen, pool)


# ---- faults of the model

@cache
def heard(chosen, number):
    """A random dialogue, and what the program answers to it, or else the sound model."""
    case = random_case(chosen.seed, number)
    return case, said(chosen, case)


def is_row_wrong_with(fault):
    """Whether a worked row shows a fault."""
    with driving.broken(fault):
        return any(row.case.wanted() != row.wanted for row in ROWS)


def is_dialogue_wrong_with(fault, chosen, count):
    """Whether the model with a fault answers otherwise in one of so many random dialogues."""
    for number in range(count):
        case, result = heard(chosen, number)
        with driving.broken(fault):
            if not agrees(result, case.wanted()):
                return True
    return False


def is_shown(test, *given):
    """What a test says of a broken model; one that stumbles where the sound one never does is wrong."""
    try:
        return test(*given)
    except (AttributeError, LookupError, TypeError):
        return True


def noticed(chosen, place):
    """Whether a fault is noticed by a random dialogue, of which few are tried where a worked row shows it, and whether by a row."""
    fault = adapter_faults.breakages()[place]
    by_row = is_shown(is_row_wrong_with, fault)
    return is_shown(is_dialogue_wrong_with, fault, chosen, min(FEW, chosen.count) if by_row else chosen.count), by_row


def compare_broken(chosen, pool):
    """How many faults of the model are not noticed by random dialogues or worked rows."""
    faults = adapter_faults.breakages()
    found = list(pool.map(noticed, [chosen] * len(faults), range(len(faults))))
    driving.tell_not_noticed([fault.name for fault, by in zip(faults, found) if not any(by)])
    by_dialogues, by_rows = (sum(by) for by in zip(*found))
    left = sum(not any(by) for by in found)
    print(f'{len(faults)} broken models, {len(faults) - left} noticed, {by_dialogues} by random dialogues and {by_rows} by worked rows')
    return left + (not faults)


class Chosen(NamedTuple):
    """What the words of the command line choose."""
    program: Optional[str]
    count: int
    seed: int
    broken: bool
    without: tuple
    jobs: int
    seconds: float
    memory: int
    output: int


def main():
    parser = driving.parser_of(__doc__, 'random dialogues (200)', MANY, 'dialogue', others='dialogues')
    parser.add_argument('--without', type=lambda text: tuple(text.split(',')), default=(), metavar='COMMANDS', help='commands that the program does not know yet')
    return driving.driven(Chosen(**vars(driving.chosen_by(parser))), compare_all, compare_broken)


if __name__ == '__main__':
    sys.exit(main())
