"""Compares what `check --explain` of a program tells of deadlocks, traps and leftovers with the model, whole and grouped, byte for byte.

    python3 compare/runs/explained.py PROGRAM                 worked rows (worked_explained.py), and two or three checks of each of 1,000 random
                                                              scripts, the same ones for a seed
    python3 compare/runs/explained.py PROGRAM --count 5000    more of them
    python3 compare/runs/explained.py --broken                faults of the model (explained_faults.py), each of which must be noticed; with
                                                              PROGRAM, beside it

The scripts are those of explained_cases.py, of both versions, in all modes, with witnesses and without, grouped and not, by pieces, up to the
first deadlock, by their ends, and by runs that are drawn. The status is 0 where reports were compared, none differed, and all was met that
must be.
"""

import os
import sys
from collections import Counter

sys.path.insert(0, os.path.dirname(os.path.dirname(os.path.abspath(__file__))))

from cases import explained_cases
from cases.explained_met import MUST_MEET, met_in
from faults import explained_faults
from model.remembered import steps_remembered
from rows import worked_explained
from runs import driving
from runs.driving import first_different

# So many scripts meet all that must be met.
MANY = 150


def said(chosen, case):
    """What the program says to a case, or else the model."""
    return driving.said_by_program(chosen, 'explained-', case.words) if chosen.program else case.wanted()


# ---- comparing

def compare_chunk(chosen, numbers):
    """What differs of the reports of some scripts, and what was met."""
    found, met = [], Counter()
    for number in numbers:
        with steps_remembered():
            for case in explained_cases.cases(chosen.seed, number):
                result, wanted = said(chosen, case), case.wanted()
                met['reports'] += 1
                met.update(met_in(case, wanted))
                if result != wanted:
                    found.append((case, first_different(result, wanted)))
    return found, met


def rows_wrong(chosen):
    """What is answered otherwise than the worked rows want."""
    for place, row in enumerate(worked_explained.ROWS):
        result, wanted = said(chosen, row.case()), row.wanted()
        if result != wanted:
            yield row.case()._replace(name=f'row-{place}'), first_different(result, wanted)


def compare(chosen, pool):
    """Compares so many scripts; gives how much differed, or was not met that must be."""
    differing, met, files = 0, Counter(), driving.Kept('explained-')
    for found, there in [(list(rows_wrong(chosen)), Counter()), *driving.by_chunks(pool, compare_chunk, chosen)]:
        met += there
        for case, how in found:
            differing += 1
            print(f'{files.case(case)}: {how}', flush=True)
    missed = driving.unmet(MUST_MEET, met, chosen.count >= MANY)
    print(f'{met["reports"]} reports of {chosen.count} scripts, {len(worked_explained.ROWS)} worked rows, {differing} different')
    return differing + missed + (not met['reports'])


# ---- faults of the model

def shows(fault, case, answer):
    """Whether the model with a fault says otherwise to a case than the program, or else the sound model."""
    with driving.broken(fault):
        return case.wanted() != answer


def answered(chosen, cases):
    """Some cases, each with its answer, where that is the sound model's."""
    for case in cases:
        answer = said(chosen, case)
        if answer == case.wanted():
            yield case, answer


def not_noticed(left, answers):
    """Those of some faults that no answer shows."""
    for case, answer in answers:
        left = [fault for fault in left if not shows(fault, case, answer)]
        if not left:
            break
    return left


def compare_broken(chosen):
    """How many faults of the model are not noticed, by random scripts or by worked rows."""
    faults = explained_faults.breakages()
    drawn = (case for number in range(chosen.count) for case in explained_cases.cases(chosen.seed, number))
    by_scripts = not_noticed(faults, answered(chosen, drawn))
    by_rows = not_noticed(faults, answered(chosen, (row.case() for row in worked_explained.ROWS)))
    left = [fault for fault in by_scripts if fault in by_rows]
    driving.tell_not_noticed(fault.name for fault in left)
    counts = (len(faults) - len(some) for some in (left, by_scripts, by_rows))
    print('{} broken models, {} noticed, {} by random scripts and {} by worked rows'.format(len(faults), *counts))
    return len(left) + (not faults)


def main():
    chosen = driving.chosen_by(driving.parser_of(__doc__, 'scripts (1000)', 1000, jobs=1))
    return driving.driven(chosen, compare, lambda _, pool: pool.submit(compare_broken, chosen).result())


if __name__ == '__main__':
    sys.exit(main())
