"""Compares what `check` and `verify` of a program answer with the model, byte for byte: the same scripts for the same seed and count.

    python3 compare/runs/explore.py PROGRAM                  the worked rows, words that are wrong, 1,000 random scripts of version 1, and 250
                                                             of version 2
    python3 compare/runs/explore.py PROGRAM --two-modes      a program that has no modes `slots:K`
    python3 compare/runs/explore.py PROGRAM --version 1      a program that knows version 1 alone, and two modes
    python3 compare/runs/explore.py PROGRAM --every-split    each script by 0 to 8 choices and by 1 to 16 workers, too
    python3 compare/runs/explore.py PROGRAM --broken         and faults of the model, each of which these scripts must notice

Each script is a file, checked in some mode with limits drawn at random (explore_cases.py), by some number of choices and of
workers, and once more so: one piece, how many there are, up to the first deadlock, or by other workers (piece_cases.py). `verify` is
asked of its witnesses, and of changed ones (witness_cases.py); with `--every-split` it must accept each witness that is written. Standard
output, standard error and status must be the model's. A program that crashes, takes too long, too much memory or writes too much differs.
With `--broken` PROGRAM may be left out: the sound model stands for it then. The status is 0 where scripts were compared, none differed,
and all was met that can be said, which fewer than 500 scripts needn't do.
"""

import argparse
import os
import sys
import tempfile
import time
from collections import Counter
from concurrent.futures import ProcessPoolExecutor

sys.path.insert(0, os.path.dirname(os.path.dirname(os.path.abspath(__file__))))

from cases import piece_cases
from cases.explore_cases import Beside, Case
from cases.kinds import BESIDE
from cases.witness_cases import random_verifications
from faults import piece_faults, slots_faults, waitany_faults
from faults.explore_faults import check_faults, told_faults, verify_faults
from model.debugger import BUFFERED
from model.explorer import MOST_SPLIT, MOST_WORKERS, NOT_WHOLE
from model.files import held
from model.language import read_up_to
from model.modes import SLOTS_DRAWN, SLOTS_EVERY, has_slots, is_turn_of_slots, know_modes, slots_of
from model.remembered import steps_remembered
from model.witness import ACCEPTED, agrees
from rows import worked_pieces, worked_slots, worked_waitany
from rows.worked_explorer import CHECKS, LONG_CHECKS, LONG_TOLD, MISTAKES, MISTAKES_OF_VERIFY, TOLD, wanted_result
from runs import driving
from runs.driving import first_different
from started.programs import run_at_once

CHUNK = 10
# So many scripts meet all that must be met.
MANY = 500
MUST_MEET = (
    'done', 'leftovers', 'deadlock', 'trap', 'cut', 'witness', 'more yes', 'more no', 'number of two digits', 'five choices',
    'leaves of two outcomes', 'status 0', 'status 1', 'status 1 for a later leaf', 'script refused', 'bad mode', 'device',
    'options left out')
MUST_MEET_OF_PIECES = (
    *(f'split {split}' for split in range(MOST_SPLIT + 1)), 'split left out', 'workers left out', 'one worker', 'sixteen workers', 'pieces', 'one piece',
    'one piece of several', 'no piece', 'too many pieces', 'bad workers', 'until: found', 'until: found, and more', 'until: nothing found',
    'until: nothing found, and more')
# What must be met of version 2.
MUST_MEET_OF_2 = ('a wake by a handle in a witness', 'an accepted wake by a handle', 'a refused wake by a handle')
# What must be met of modes of slots.
MUST_MEET_OF_SLOTS = (
    *(f'slots:{slots}' for slots in range(SLOTS_DRAWN)), 'slots:65536', 'bad slots', 'slots and a whole report', 'slots and a deadlock',
    'slots and --complete', 'accepted, slots', 'refused, slots')
# What must be met where each script is checked by every number of choices.
PAIRS = tuple(f'split {split} by {workers}' for split in range(MOST_SPLIT + 1) for workers in range(1, MOST_WORKERS + 1))
MUST_MEET_OF_VERIFY = (
    'accepted', 'accepted, buffered', 'accepted, nothing in front', 'accepted, CR LF', 'accepted, no last line feed',
    'accepted, more line feeds', 'refused 32', 'refused 32 at 0', 'refused 32 at its last step', 'refused 33', 'refused 34',
    'bad witness line 1', 'bad witness line 2', 'bad mode of verify', 'verify of a bad script', 'verify of no script',
    'verify of no witness')


def run(chosen, case):
    """What the program gives for a case."""
    with tempfile.TemporaryDirectory(prefix='explore-') as folder:
        return run_at_once(chosen.program, b'', chosen.seconds, words=case.words(folder))


def met_by_check(asked, wanted):
    """What a program may answer wrongly to `check`."""
    lines = wanted.output.decode().splitlines()
    leaves = [line.split('] ') for line in lines if line.startswith('leaf ')]
    outcomes = [outcome.split()[0] for _, outcome in leaves]
    choices = [front.partition('[')[2].split() for front, _ in leaves]
    yield from outcomes
    yield from [' '.join(line.split()[2:]) for line in lines[-1:] if line.startswith('leaves ')]
    yield from ['witness' for line in lines if line.startswith('witness ')]
    yield from ['a wake by a handle in a witness' for line in lines if line.startswith('witness ') and 'wakeany' in line]
    yield from ['number of two digits' for numbers in choices if any(len(number) > 1 for number in numbers)]
    yield from ['five choices' for numbers in choices if len(numbers) > 4]
    yield from ['leaves of two outcomes'] * (len(set(outcomes)) > 1) + [f'status {wanted.status}']
    yield from ['status 1 for a later leaf'] * (wanted.status == 1 and outcomes[:1] not in ([], ['deadlock'], ['trap']))
    yield from met_by_modes(lines)
    yield from [kind for kind in ('script refused', 'bad mode', 'device') if kind.encode() in wanted.errors]
    yield from ['options left out'] * (not wanted.status and None in asked[:3])
    yield from met_by_slots(asked, wanted)
    yield from met_by_pieces(asked, wanted, outcomes)


def met_by_modes(lines):
    """The same of modes that are tried in turn: which of them is the first without a deadlock or trap."""
    least = lines[-1].removeprefix('least ') if lines and lines[-1].startswith('least ') else None
    yield from [] if least is None else [f'least {"a number of slots" if least.startswith("slots:") else least}']


def met_by_slots(asked, wanted):
    """The same in a mode of slots, or one that is nearly such."""
    if asked.mode is None or not asked.mode.startswith('slots:') or wanted.status == 2:
        yield from ['bad slots'] * (asked.mode is not None and 'slots:' in asked.mode and b'bad mode' in wanted.errors)
        return
    is_whole = wanted.output.endswith(b' more no\n') and b'] cut\n' not in wanted.output and not asked.pieces
    yield asked.mode
    yield from ['slots and a deadlock'] * (b'] deadlock ' in wanted.output) + ['slots and a whole report'] * is_whole
    yield from ['slots and --complete'] * (is_whole and asked.complete and wanted.status == NOT_WHOLE)


def met_by_pieces(asked, wanted, outcomes):
    """What a program may answer wrongly where it cuts a script into pieces."""
    if wanted.status == 2:
        yield from [kind for kind in ('no piece', 'too many pieces', 'bad workers') if kind.replace(' ', '-') in wanted.errors.decode().replace(' ', '-')]
        return
    yield from [f'split {"left out" if asked.split is None else asked.split}']
    yield from {None: ['workers left out'], 1: ['one worker'], MOST_WORKERS: ['sixteen workers']}.get(asked.workers, [])
    yield from [f'split {asked.split} by {asked.workers}'] * (None not in (asked.split, asked.workers))
    yield from ['pieces'] * asked.pieces
    yield from ['one piece'] * (asked.piece is not None) + ['one piece of several'] * bool(asked.piece)
    if asked.until and outcomes:
        found = 'found' if outcomes[-1] in ('deadlock', 'trap') else 'nothing found'
        yield from [f'until: {found}'] + [f'until: {found}, and more'] * wanted.output.endswith(b' more yes\n')


def met_by_verify(case, wanted):
    """What a program may answer wrongly to `verify`."""
    said = (wanted.output + wanted.errors).decode().removeprefix('mpdbg: ').removesuffix('\n')
    if b'wakeany' in (case.text or b'') and wanted.status < 2:
        yield 'an accepted wake by a handle' if said == 'accepted' else 'a refused wake by a handle'
    if case.mode and slots_of(case.mode) is not None and wanted.status < 2:
        yield 'accepted, slots' if said == 'accepted' else 'refused, slots'
    if said == 'accepted':
        yield from ['accepted'] + ['accepted, buffered'] * (case.mode == BUFFERED)
        yield from ['accepted, nothing in front'] * case.text.startswith(b'deadlock')
        yield from ['accepted, CR LF'] * (b'\r\n' in case.text) + ['accepted, no last line feed'] * (not case.text.endswith(b'\n'))
        yield from ['accepted, more line feeds'] * case.text.endswith(b'\n\n')
    elif wanted.status == 1:
        yield ' '.join(said.split()[:2])
        yield from ['refused 32 at 0'] * said.endswith(' at 0')
        yield from ['refused 32 at its last step'] * said.endswith(f' at {case.text.count(b", ")}')
    elif said == 'device':
        yield 'verify of no script' if case.script is None else 'verify of no witness'
    else:
        yield {'bad mode': 'bad mode of verify'}.get(said, said if said.startswith('bad witness') else 'verify of a bad script')


def met_in(case, wanted):
    """What a program may answer wrongly."""
    return met_by_check(case.asked, wanted) if isinstance(case, Case) else met_by_verify(case, wanted)


def checks_of(chosen, number):
    """The checks of a script, and where that is wanted those by every number of choices."""
    found = piece_cases.cases(chosen.seed, number)
    return found + piece_cases.by_every_split(chosen.seed, number) if chosen.every_split else found


def checks_beside(chosen, number):
    """The same of a script of version 2."""
    return checks_of(beside(chosen), number)


def checks_of_slots(chosen, number):
    """The checks of a script in a mode of slots, or in one that such a mode must not be taken for, and in front of the first the worked rows."""
    rows = worked_slots.CHECKS if number == 0 else ()
    return [case_of(row) for row in rows] + (checks_of(chosen, number) if is_turn_of_slots(number) or number % SLOTS_EVERY == 0 else [])


def row_checks_of(chosen, number):
    """The checks of a script, and in front of those of the first one the worked rows of checks by pieces."""
    rows = worked_pieces.CHECKS if number == 0 else ()
    return [case_of(row) for row in rows] + checks_of(chosen, number)


def case_of(row):
    """The case of a worked row of a check."""
    return Case('', None if row.script is None else row.script.encode(), row.asked)


def verifications_of(chosen, number):
    """What `verify` is asked of a script."""
    return random_verifications(chosen.seed, number)


def told_in(witness):
    """What a witness says, without its numbers: the outcome, the steps, and the mode."""
    leaf, steps = witness.text.splitlines()
    return leaf.partition(b'] ')[2], steps.partition(b': ')[2], witness.mode


def refused_witnesses(chosen, written):
    """The witnesses that `verify` doesn't accept, each with what it answers, and how many were asked; `written` has cases and outputs.

    One that stands in several reports is asked once.
    """
    asked = {told_in(witness): witness for case, output in written for witness in piece_cases.witnesses_of(case, output)}
    said = [(witness, run(chosen, witness)) for witness in asked.values()]
    return [(witness, f'the witness is answered {result}') for witness, result in said if result != ACCEPTED], len(said)


def compare_script(chosen, number):
    """Compares the cases of a script: how many there were, those that differ, each with how, and what was met."""
    found, met, written, count = [], Counter(), [], 0
    with steps_remembered():
        for case in checks_of(chosen, number) + verifications_of(chosen, number):
            result, wanted = run(chosen, case), case.wanted()
            met.update(met_in(case, wanted))
            count += 1
            if not agrees(result, wanted):
                found.append((case, first_different(result, wanted)))
            if isinstance(case, Case):
                written.append((case, result.output))
    if chosen.every_split:
        wrong, met['witnesses verified'] = refused_witnesses(chosen, written)
        found += wrong
    return count, found, met


def compare_chunk(chosen, numbers):
    """Compares the cases of some scripts, all together."""
    compared, found, met = 0, [], Counter()
    for number in numbers:
        count, found_there, met_there = compare_script(chosen, number)
        compared += count
        found += found_there
        met += met_there
    return compared, found, met


def beside(chosen):
    """What is chosen, for the scripts of version 2, of which there are fewer."""
    return argparse.Namespace(**{**vars(chosen), 'seed': Beside(chosen.seed), 'count': chosen.count // BESIDE})


def versions(chosen):
    """What is chosen, for the scripts of each version."""
    return [chosen, beside(chosen)][:chosen.version]


def compare_random(chosen, pool):
    """Compares so many random scripts; gives how many cases there were and differed, and how much was not met that must be."""
    compared, differing, met = driving.all_compared(pool, compare_chunk, versions(chosen), CHUNK, driving.Kept('explore-').case)
    must_meet = MUST_MEET + MUST_MEET_OF_PIECES + MUST_MEET_OF_VERIFY + ('witnesses verified',) * chosen.every_split
    must_meet += MUST_MEET_OF_2 * (chosen.version > 1) + MUST_MEET_OF_SLOTS * has_slots(chosen)
    print(driving.met_line(must_meet, met))
    if chosen.every_split:
        print(f'{sum(met[name] for name in PAIRS)} checks by {sum(met[name] > 0 for name in PAIRS)} pairs of choices and workers')
        must_meet += PAIRS
    return compared, differing, driving.tell(driving.not_met(must_meet, met, chosen.count >= MANY))


def row_problem(chosen, case, wanted):
    """What the program answers otherwise than a worked row wants; None where nothing is."""
    result = run(chosen, case)
    return None if agrees(result, wanted) else f'{str(case)[:500]}: {first_different(result, wanted)}'


def mistake_problem(chosen, words):
    """What the program answers to words that are wrong, where it isn't a text of its own on standard error; the mode is wrong too."""
    result = run_at_once(chosen.program, b'', chosen.seconds, words=words.split())
    is_refused = (result.output, result.status) == (b'', 2) and result.errors and b'mpdbg: bad mode' not in result.errors
    return None if is_refused else f'{words}: {result}'


def rows(chosen):
    """The worked rows, each with what is wanted."""
    for row in CHECKS + worked_pieces.CHECKS + (() if chosen.short else LONG_CHECKS):
        yield case_of(row), wanted_result(row)
    for row in TOLD + (() if chosen.short else LONG_TOLD):
        yield row.case(), row.wanted()
    if chosen.version > 1:
        yield from ((case_of(row), wanted_result(row)) for row in worked_waitany.CHECKS)
        yield from ((row.case(), row.wanted()) for row in worked_waitany.TOLD)
    if has_slots(chosen):
        yield from ((case_of(row), wanted_result(row)) for row in worked_slots.CHECKS)
        yield from ((row.case(), row.wanted()) for row in worked_slots.TOLD)


def mistakes(chosen, folder):
    """Words that are wrong, of files that are there."""
    script, witness = held(folder, 'script.mpd', CHECKS[0].script.encode()), held(folder, 'witness.txt', b'deadlock 0.0\nlocal 0\n')
    yield from [f'check {script} --mode fast {mistake}' for mistake in MISTAKES]
    yield from [f'verify --mode fast {mistake.format(FILE=script, WITNESS=witness)}' for mistake in MISTAKES_OF_VERIFY]


def compare_rows(chosen, pool):
    """How many of the worked rows, and of the words that are wrong, are answered otherwise than they must be."""
    with tempfile.TemporaryDirectory(prefix='explore-') as folder:
        tasks = [pool.submit(row_problem, chosen, case, wanted) for case, wanted in rows(chosen)]
        tasks += [pool.submit(mistake_problem, chosen, words) for words in mistakes(chosen, folder)]
        problems = [problem for problem in (task.result() for task in tasks) if problem is not None]
    for problem in problems:
        print(problem)
    print(f'{len(tasks)} rows, {len(problems)} wrong', flush=True)
    return len(problems)


def faults(chosen):
    """The faults that a program's answers show, each with what gives the cases of a script that may notice it."""
    found = [(fault, checks_of) for fault in check_faults()] + [(fault, row_checks_of) for fault in piece_faults.breakages()]
    found += [(fault, verifications_of) for fault in verify_faults() + told_faults()]
    found += [(fault, checks_beside) for fault in waitany_faults.walk_faults()] * (chosen.version > 1)
    return found + [(fault, checks_of_slots) for fault in slots_faults.report_faults() + slots_faults.word_faults()] * has_slots(chosen)


# What is said to cases by the program, or else by the sound model, as far as this process has asked.
SAID = {}


def said_to(chosen, case):
    """What the program, or else the sound model, says to a case."""
    if case not in SAID:
        SAID[case] = run(chosen, case) if chosen.program else case.wanted()
    return SAID[case]


def is_noticed(chosen, place):
    """Whether some case notices a fault of the model: the program, or else the sound model, doesn't say what the broken one does."""
    fault, cases_of = faults(chosen)[place]
    for case in (case for number in range(chosen.count) for case in cases_of(chosen, number)):
        said = said_to(chosen, case)
        with driving.broken(fault):
            if not agrees(said, case.wanted()):
                return True
    return False


def compare_broken(chosen, pool):
    """How many faults of the model are not noticed."""
    tasks = [pool.submit(is_noticed, chosen, place) for place in range(len(faults(chosen)))]
    unnoticed = 0
    for (fault, _), task in zip(faults(chosen), tasks):
        if not task.result():
            unnoticed += 1
            print(f'{fault.name}: NOT NOTICED', flush=True)
    print(f'{len(tasks)} broken models, {len(tasks) - unnoticed} noticed')
    return unnoticed


def prepare(chosen):
    """Readies a process for its part of a run."""
    driving.prepare(chosen)
    read_up_to(chosen.version)
    know_modes(has_slots(chosen))


def arguments():
    flags = (('--every-split', 'check each script by 0 to 8 choices and 1 to 16 workers, too'), ('--short', 'leave out the rows of 100,000 steps and more'))
    parser = driving.parser_of(__doc__, 'scripts of version 1 (1000), and a quarter of these of version 2', 1000, flags=flags)
    driving.add_versions(parser)
    return driving.chosen_by(parser, 'broken')


def main():
    chosen = arguments()
    began, wrong = time.monotonic(), 0
    with ProcessPoolExecutor(chosen.jobs, initializer=prepare, initargs=(chosen,)) as pool:
        if chosen.program:
            compared, differing, missed = compare_random(chosen, pool)
            wrong += compare_rows(chosen, pool) + differing + missed + (compared < 1)
            scripts = sum(one.count for one in versions(chosen))
            print(f'{compared} answers to {scripts} scripts compared, {differing} different, {time.monotonic() - began:.1f} seconds')
        if chosen.broken:
            wrong += compare_broken(chosen, pool)
    return 1 if wrong else 0


if __name__ == '__main__':
    sys.exit(main())
