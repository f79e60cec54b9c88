"""Checks what `check --sample` of a program answers, by what must hold of runs that are drawn at random.

    python3 compare/runs/sampled.py PROGRAM              worked rows (worked_ends.py), 500 random scripts, hangs, how often runs are drawn, and
                                                         words that are wrong
    python3 compare/runs/sampled.py PROGRAM --count 2000 more of the scripts
    python3 compare/runs/sampled.py --broken             the model in the place of a program, and its faults (samples_faults.py), each of which must
                                                         be noticed

A report must list runs of the wide walk, in order, each once, with the right ends and witnesses (samples.py). The same seed must give the same
report, by any number of workers; other options must not change which runs are drawn, and fewer runs must be the first of more. One hang
in seven to eleven runs must be found by a hundred. Over many seeds each run must come as often as where each candidate is as likely as the others.
The status is 0 where scripts were checked, nothing was wrong, and all was met that must be.
"""

import math
import os
import shlex
import sys
import tempfile
from collections import Counter
from random import Random

sys.path.insert(0, os.path.dirname(os.path.dirname(os.path.abspath(__file__))))

from cases.samples_cases import (BITS, CHANGED_SEEDS, DRAWN, LEAST_DIFFERENT, MANY_SEEDS, MOST_DEVIATIONS, MOST_DIFFERENT, SEVERAL_SEEDS, SPREADS,
                                 hang_sampling, random_sampling)
from faults import samples_faults
from model import samples
from model.explorer import is_bad
from model.files import held
from model.remembered import steps_remembered
from model.report_lines import NoReport, read_report
from model.run_words import BadChoices, run_by
from model.samples import MOST_SEED, Sampling, leaves_of, told_in, wrong_of
from model.walks import CUT
from rows.worked_ends import SAMPLES
from runs import driving
from started.programs import run_at_once

# So many scripts meet all that must be met; so many hangs must be found.
MANY, HANGS = 300, 9
# Behind so many scripts it is looked at how runs are drawn that haven't shown a fault.
FEW = 20
MUST_MEET = ('done', 'leftovers', 'deadlock', 'trap', 'cut', 'witness', 'one leaf', 'several leaves', 'fewer leaves than runs', 'more yes', 'more no',
             'another report of another seed', 'until', 'status 4', 'slots', 'version 2', 'choices of the wide walk alone', 'a whole report, waitany',
             'a whole report, slots')
# Words that are wrong: they are tested before the mode, which is wrong too.
MISTAKES = ('--sample 0', '--sample 65537', '--sample', '--sample -1', '--sample x', '--sample 1.5', '--sample 1 --sample 1', '--seed 1',
            '--seed 0 --runs 5', '--sample 5 --ends', '--sample 5 --runs 5', '--sample 5 --split 1', '--sample 5 --split 0', '--sample 5 --piece 0',
            '--sample 5 --pieces',
            '--sample 5 --modes 1', '--ends --sample=5', '--sample 5 --seed', '--sample 5 --seed -1', '--sample 5 --seed 18446744073709551616',
            '--sample 5 --seed x', '--sample 5 --seed 1 --seed 1', '--sample 5 --until trap', '--sample 5 --group --group', '--sample 5 --seed 1.0')
# Words that are right.
RIGHT = ('--sample 1', '--sample 65536', '--sample=+5', '--sample 5 --seed 0', '--sample 5 --seed 18446744073709551615', '--seed=7 --sample 5',
         '--sample 5 --until deadlock', '--sample 5 --group --witness --complete --workers 16 --fuel 1000000')


def asker(chosen):
    """What has the program, or what stands for it, answer a check."""
    if chosen.program is None:
        return samples.answer
    return lambda asked: driving.said_by_program(chosen, 'sampled-', asked.words)


def met_in(asked, told, other):
    """What a program may draw or say wrongly, by a report, and by that of another seed."""
    words = [leaf.outcome.split()[0] for leaf in told.leaves]
    yield from words
    yield from ['witness' for leaf in told.leaves if leaf.steps]
    yield 'one leaf' if len(words) == 1 else 'several leaves'
    yield from ['fewer leaves than runs'] * (1 < len(words) < asked.count) + ['more yes' if told.more else 'more no']
    yield from ['another report of another seed'] * (leaves_of(told) != leaves_of(other)) + ['until'] * (asked.until and is_bad(told.leaves[-1]))
    is_in_slots, has_any, is_whole = bool(asked.mode and asked.mode.startswith('slots:')), b'waitany' in asked.script, not told.more and CUT not in words
    yield from ['slots'] * is_in_slots + ['version 2'] * asked.script.startswith(b'mpd 2')
    yield from ['a whole report, waitany'] * (is_whole and has_any) + ['a whole report, slots'] * (is_whole and is_in_slots)
    yield from ['choices of the wide walk alone'] * any(is_other_along_decisions(asked, leaf) for leaf in told.leaves)


def is_other_along_decisions(asked, leaf):
    """Whether the choices of a leaf tell no run along decisions, or one that ends otherwise."""
    try:
        return run_by(asked.begun(), leaf.choices).outcome != leaf.outcome
    except BadChoices:
        return True


def check_one(said, asked, met):
    """What is wrong with a check, and the same asked otherwise; None where nothing is."""
    wrong = wrong_of(asked, said)
    if wrong is None:
        result, other = said(asked), asked._replace(seed=(asked.seed or 0) ^ (1 << 32) if asked.count % 2 else (asked.seed or 0) ^ 1)
        met.update(met_in(asked, told_in(asked, result), read_report(said(other).output)))
        met.update(['status 4'] * (result.status == 4))
    return wrong


def check_chunk(chosen, numbers):
    """What is wrong with the checks of some scripts, and what was met."""
    found, met, said = [], Counter(), asker(chosen)
    for number in numbers:
        asked = random_sampling(chosen.seed, number)
        if asked is not None:
            with steps_remembered():
                wrong = check_one(said, asked, met)
            met['checks'] += 1
            found += [] if wrong is None else [(asked, wrong)]
    return found, met


# ---- hangs that few runs come to

def hang_wrong(said, asked):
    """What is wrong with a check that must find a hang; None where nothing is."""
    try:
        told = told_in(asked, said(asked))
    except NoReport as why:
        return str(why)
    return None if any(leaf.outcome.startswith('deadlock') for leaf in told.leaves) else 'no hang is found'


def check_hang(chosen, number):
    """A check that must find a hang, and what is wrong with it."""
    asked = hang_sampling(chosen.seed, number)
    with steps_remembered():
        return asked, hang_wrong(asker(chosen), asked)


# ---- how often each run is drawn

def seeds(count):
    """So many seeds, of all sizes."""
    random = Random('seeds')
    return [random.randrange(MOST_SEED + 1) >> random.choice([0, 0, 0, 32, 56]) for _ in range(count)]


def leaves_said(said, spread, count, seed):
    """The choices of the leaves that are listed of a script whose runs are counted."""
    asked = Sampling(spread.name, spread.script.encode(), count, seed, spread.mode, spread.fuel)
    return [leaf.choices for leaf in read_report(said(asked).output).leaves]


def spread_wrong(said, spread):
    """What is wrong with how often each run of a script is drawn; None where nothing is."""
    counts, total = Counter(), MANY_SEEDS
    for seed in seeds(total):
        counts.update(leaves_said(said, spread, 1, seed))
    for choices in {*counts, *spread.shares}:
        share = spread.shares.get(choices, 0)
        if abs(counts[choices] - share * total) > MOST_DEVIATIONS * math.sqrt(total * share * (1 - share)):
            return f'{choices} is drawn {counts[choices]} times of {total}, wanted about {share * total:.0f}'
    return None


def different_wrong(said):
    """What is wrong with how many different runs of two races are listed; None where nothing is."""
    lists = [leaves_said(said, SPREADS[1], DRAWN, seed) for seed in seeds(SEVERAL_SEEDS)]
    mean = sum(map(len, lists)) / len(lists)
    return None if LEAST_DIFFERENT <= mean <= MOST_DIFFERENT else f'{mean:.2f} different runs of {DRAWN} in the mean'


def bits_wrong(said):
    """Which bits of a seed change no report of two races; None where each changes some."""
    unchanged = [bit for bit in BITS if all(leaves_said(said, SPREADS[1], DRAWN, seed) == leaves_said(said, SPREADS[1], DRAWN, seed ^ 1 << bit)
                                            for seed in seeds(CHANGED_SEEDS))]
    return f'no report is changed by the bits {unchanged}' if unchanged else None


def all_listed_wrong(said):
    """What is wrong where so many runs are drawn that all of them come; None where nothing is."""
    for spread in SPREADS:
        asked = Sampling(spread.name, spread.script.encode(), 1000, 5, spread.mode, spread.fuel)
        told = told_in(asked, said(asked))
        if told.more or {leaf.choices for leaf in told.leaves} != set(spread.shares):
            return f'{spread.name}: not all runs are listed of 1000 that are drawn'
    return None


def drawing_wrong(said):
    """What is wrong with how runs are drawn: all of it."""
    try:
        with steps_remembered():
            found = [(spread.name, spread_wrong(said, spread)) for spread in SPREADS]
            found += [('different runs', different_wrong(said)), ('seeds', bits_wrong(said)), ('all runs', all_listed_wrong(said))]
    except NoReport as why:
        found = [('a report', str(why))]
    return [f'{name}: {what}' for name, what in found if what is not None]


# ---- rows

def rows_wrong(said):
    """What is listed otherwise than worked rows want, of scripts of which all runs are drawn."""
    with steps_remembered():
        answers = [(row, said(row.case())) for row in SAMPLES]
    return [f'{row.script} {row.mode}: {result}' for row, result in answers if result != row.wanted()]


# ---- words

def words_wrong(chosen):
    """What is answered otherwise to words that are wrong, and to words that are right."""
    with tempfile.TemporaryDirectory(prefix='sampled-') as folder:
        file, wrong = held(folder, 'script.mpd', BY_FIRST_SCRIPT), []
        for words, is_right in [*((words, False) for words in MISTAKES), *((words, True) for words in RIGHT)]:
            result = run_at_once(chosen.program, b'', chosen.seconds, words=['check', file, '--mode', 'fast', *words.split()])
            is_mode_told = (result.output, result.errors, result.status) == (b'', b'mpdbg: bad mode\n', 2)
            is_refused = (result.output, result.status) == (b'', 2) and result.errors and not is_mode_told
            wrong += [] if (is_mode_told if is_right else is_refused) else [f'{words}: {result}']
    return wrong


BY_FIRST_SCRIPT = SPREADS[0].script.encode()


# ---- all of it

def compare(chosen, pool):
    """Checks all of it; gives how much was wrong, or was not met that must be."""
    met, found, files = Counter(), [], driving.Kept('sampled-')
    for there, met_there in driving.by_chunks(pool, check_chunk, chosen):
        found += there
        met += met_there
    found += [(asked, wrong) for asked, wrong in pool.map(check_hang, [chosen] * HANGS, range(HANGS)) if wrong is not None]
    for asked, wrong in found:
        print(f'{shlex.join(asked.words(files.folder(asked.name)))}: {wrong}', flush=True)
    others = rows_wrong(asker(chosen)) + drawing_wrong(asker(chosen)) + (words_wrong(chosen) if chosen.program else [])
    others += driving.not_met(MUST_MEET, met, chosen.count >= MANY)
    driving.tell(others)
    print(driving.met_line(MUST_MEET, met))
    print(f'{met["checks"]} checks by runs that are drawn, {HANGS} hangs, {len(SAMPLES)} rows, {len(found) + len(others)} wrong')
    return len(found) + len(others) + (not met['checks'])


def shows(fault, wrong):
    """Whether something is wrong where what stands for a program has a fault."""
    with driving.broken(fault):
        return bool(wrong())


def not_noticed(chosen):
    """The faults of what is drawn, and of what is said of it, that nothing shows."""
    left = [fault for fault in samples_faults.breakages() if not shows(fault, lambda: rows_wrong(samples.answer))]
    for number in range(chosen.count):
        asked = random_sampling(chosen.seed, number)
        if asked is not None:
            with steps_remembered():
                left = [fault for fault in left if not shows(fault, lambda asked=asked: check_one(samples.answer, asked, Counter()))]
        if number == FEW:
            left = [fault for fault in left if not shows(fault, lambda: drawing_wrong(samples.answer))]
    return [fault.name for fault in left]


def compare_broken(chosen, pool):
    """How many faults are not noticed."""
    return driving.count_left(pool.submit(not_noticed, chosen).result(), len(samples_faults.breakages()))


def main():
    chosen = driving.chosen_by(driving.parser_of(__doc__, 'scripts (500)', 500))
    return driving.driven(chosen, compare, compare_broken)


if __name__ == '__main__':
    sys.exit(main())
