"""Compares what `check --ends` and `check --group` of a program answer with the model, and with all interleavings of small scripts.

    python3 compare/runs/ends.py PROGRAM                 worked rows (worked_ends.py), 500 random scripts, and 500 whose
                                                         interleavings are tried, the same ones for a seed
    python3 compare/runs/ends.py PROGRAM --count 5000    more of both
    python3 compare/runs/ends.py --broken                faults of the model (ends_faults.py), each of which must be noticed; with PROGRAM, beside it

A report by the options of ends_cases.py must be the model's, byte for byte. Of a script whose worlds are few enough that all can be tried,
whatever steps are taken in whatever order, the report must have each end, with waits for any and in modes of slots too: its leaves end in all
the worlds that any interleaving ends in, and in no others. Without both no two of them end in worlds that differ in the order of their match
sets alone (every_end.py knows nothing of what sleeps in a walk). Each leaf must be the run of its choices along the wide walk. With
`--explain` a report must be the same, with lines behind each deadlock and trap (explained_lines.py); what these say is compared by
explained.py. The status is 0 where scripts were compared, none differed, and all was met that must be.
"""

import os
import sys
from collections import Counter
from itertools import chain

sys.path.insert(0, os.path.dirname(os.path.dirname(os.path.abspath(__file__))))

from cases import ends_cases, every_end
from cases.explore_cases import Case
from faults import ends_faults
from model import explained_lines, explorer
from model.complete import end_of, key
from model.files import held
from model.modes import slots_of
from model.remembered import steps_remembered
from model.walks import CUT, Run
from rows import worked_ends
from rows.worked_explorer import wanted_result
from runs import driving
from runs.driving import first_different

# So many scripts meet all that must be met.
MANY = 300
# So many runs along decisions are looked at, of a script that may have other ends than these.
FEW_RUNS = 100
MUST_MEET = (
    'done', 'leftovers', 'deadlock', 'trap', 'cut', 'witness', 'more yes', 'more no', 'status 0', 'status 1', 'status 4', 'status 2',
    'fewer ends than runs', 'as many ends as runs', 'a piece without a leaf', 'a report without a leaf', 'more by runs, not by ends', 'groups',
    'groups of several leaves',
    'several groups', 'groups with a witness', 'groups of ends', 'a grouped piece', 'until', 'several modes', 'slots', 'version 2',
    'a whole report of ends', 'a whole report of ends, waitany', 'a whole report of ends, slots', 'more ends than runs', 'more pieces by the wide walk')
MUST_MEET_OF_EVERY_END = ('small scripts', 'rendezvous', 'buffered', 'slots:1', 'slots:2', 'waitany', 'one end', 'several ends', 'fewer ends than runs',
                          'several pieces', 'a piece without a leaf', 'done', 'leftovers', 'deadlock', 'trap', 'ends that runs along decisions lack',
                          'bad ends alone that these lack', 'an end twice')


def run(chosen, words_in):
    """What the program gives, by what has its words in a folder."""
    return driving.said_by_program(chosen, 'ends-', words_in)


def said(chosen, case):
    """What the program says to a case, or else the model."""
    return run(chosen, case.words) if chosen.program else case.wanted()


# ---- reports beside those of the model

def met_by_walks(case, script, wanted):
    """What is met of which runs are listed, where all of them are few."""
    usual = ends_cases.filled(case.asked)
    found, along = ends_cases.cut(script, usual), ends_cases.cut(script, usual._replace(ends=False))
    parts, plain_parts = [explorer.ends_part(piece, usual.runs) for piece in found], [explorer.part(piece, usual.runs) for piece in along]
    plain, ends = (sum(len(part.leaves) for part in some) for some in (plain_parts, parts))
    yield 'fewer ends than runs' if ends < plain else 'as many ends as runs' if ends == plain else 'more ends than runs'
    yield from ['a piece without a leaf'] * any(not part.leaves for part in parts) + ['more pieces by the wide walk'] * (len(found) > len(along))
    yield from ['more by runs, not by ends'] * (any(part.more for part in plain_parts) and not any(part.more for part in parts))
    if usual.complete and wanted.status == 0:
        yield 'a whole report of ends'
        yield from ['a whole report of ends, waitany'] * explorer.has_waitany(script.body)
        yield from ['a whole report of ends, slots'] * (slots_of(usual.mode) is not None)


def met_in(case, wanted):
    """What a program may answer wrongly."""
    lines, asked = wanted.output.decode().splitlines(), case.asked
    yield f'status {wanted.status}'
    if wanted.status == 2:
        return
    words = [line.partition('] ')[2].split()[0] for line in lines if line.startswith('leaf ')]
    groups = [line.split(' ', 6) for line in lines if line.startswith('end ')]
    yield from words + [CUT for group in groups if group[6] == CUT]
    yield from ['witness' for line in lines if line.startswith('witness ')]
    yield from [' '.join(line.split()[2:]) for line in lines[-1:] if line.startswith('leaves ')]
    yield from ['a report without a leaf'] * (lines[-1] == 'leaves 0 more no') + ['groups'] * bool(groups) + ['several groups'] * (len(groups) > 1)
    yield from ['groups of several leaves'] * any(int(group[3]) > 1 for group in groups)
    yield from ['groups with a witness'] * (bool(groups) and asked.witnesses) + ['groups of ends'] * (bool(groups) and asked.ends)
    yield from ['a grouped piece'] * (bool(groups) and asked.piece is not None) + ['until'] * asked.until
    yield from ['several modes'] * (asked.modes is not None)
    yield from ['slots'] * bool(asked.mode and asked.mode.startswith('slots:')) + ['version 2'] * case.script.startswith(b'mpd 2')
    is_report = asked.ends and not asked.pieces and asked.modes is None and asked.piece is None
    if is_report and (script := ends_cases.read_script_of(case)) is not None:
        yield from met_by_walks(case, script, wanted)


def compare_reports(chosen, number):
    """What differs of the reports of a script, and what was met."""
    found, met = [], Counter()
    with steps_remembered():
        for case in ends_cases.cases(chosen.seed, number):
            result, wanted = said(chosen, case), case.wanted()
            met['reports'] += 1
            met.update(met_in(case, wanted))
            if result != wanted:
                found.append((case, first_different(result, wanted)))
            if (how := explained_wrong(chosen, case, result)) is not None:
                found.append((case, how))
    return found, met


def explained_wrong(chosen, case, plain):
    """What is wrong with the same report with explanations; None where nothing is."""
    if chosen.program is None:
        told = explained_lines.made_up(plain)
    else:
        told = run(chosen, lambda folder: (*case.words(folder), '--explain'))
    return explained_lines.wrong_of(plain, told)


# ---- reports beside all interleavings

def case_of(small):
    """The check that lists all ends of a small script."""
    return Case(small.name, small.text, small.asked())


def met_of(small):
    """What is met of a small script."""
    yield from ['small scripts', small.mode, 'several ends' if len(small.ends) > 1 else 'one end']
    yield from [end.split()[0] for end in small.ends.values()] + ['waitany'] * (b'waitany' in small.text)
    asked = small.asked()
    pieces = ends_cases.cut(explorer.read_script(small.text), asked)
    yield from ['several pieces'] * (len(pieces) > 1) + ['a piece without a leaf'] * any(piece.asleep is None for piece in pieces)
    plain = explorer.part(Run(small.start, explorer.USUAL.fuel), len(small.ends))
    yield from ['fewer ends than runs'] * plain.more
    if not small.is_once:
        yield from met_by_order(small)


def met_by_order(small):
    """The same of a script with a wait for any, or in a mode of slots: what hangs on the order of steps."""
    plain = explorer.part(Run(small.start, explorer.USUAL.fuel), FEW_RUNS)
    lacking = small.ends.keys() - {key(end_of(small.start, leaf.steps)) for leaf in plain.leaves}
    yield from ['ends that runs along decisions lack'] * (bool(lacking) and not plain.more)
    is_bad_there = any(small.ends[place].split()[0] in ('deadlock', 'trap') for place in lacking)
    yield from ['bad ends alone that these lack'] * (is_bad_there and not plain.more and not any(map(explorer.is_bad, plain.leaves)))
    yield from ['an end twice'] * explorer.ends_part(Run(small.start, explorer.USUAL.fuel), len(small.ends)).more


def compare_every_end(chosen, number):
    """The same of all interleavings of a script."""
    found, met = [], Counter()
    for small in every_end.smalls(chosen.seed, number):
        case = case_of(small)
        result = said(chosen, case)
        met.update(met_of(small))
        if (wrong := every_end.told_of(small, result)) is not None:
            found.append((case, wrong))
    return found, met


# ---- all of them

def row_wrong(chosen, row):
    """What a program answers otherwise than a worked row wants; None where nothing is."""
    case = Case('', row.script.encode(), row.asked)
    result, wanted = said(chosen, case), wanted_result(row)
    return None if result == wanted else f'{row.script} {row.asked}: {first_different(result, wanted)}'


def mistake_wrong(chosen, words):
    """What a program answers to words that are wrong, where it isn't a text of its own on standard error; the mode is wrong too."""
    result = run(chosen, lambda folder: ('check', held(folder, 'script.mpd', b'mpd 1; ranks 1;'), '--mode', 'fast', *words.split()))
    is_refused = (result.output, result.status) == (b'', 2) and result.errors and b'mpdbg: bad mode' not in result.errors
    return None if is_refused else f'check {words}: {result}'


def rows_wrong(chosen, pool):
    """What is answered otherwise than worked rows want, and to words that are wrong."""
    rows = worked_ends.CHECKS + (worked_ends.LONG_CHECKS if chosen.program else ())
    mistakes = worked_ends.MISTAKES_OF_CHECK if chosen.program else ()
    found = [*pool.map(row_wrong, [chosen] * len(rows), rows), *pool.map(mistake_wrong, [chosen] * len(mistakes), mistakes)]
    wrong = [how for how in found if how is not None]
    print(f'{len(found)} rows, {len(wrong)} wrong', flush=True)
    return wrong


def compare_chunk(chosen, numbers):
    """What differs of some scripts, and what was met of reports and of all interleavings."""
    found, met, met_of_every = [], Counter(), Counter()
    for number in numbers:
        for compare_one, counts in ((compare_reports, met), (compare_every_end, met_of_every)):
            differing, there = compare_one(chosen, number)
            found += differing
            counts.update(there)
    return found, met, met_of_every


def compare(chosen, pool):
    """Compares so many scripts; gives how much differed, or was not met that must be."""
    rows = rows_wrong(chosen, pool)
    differing, met, met_of_every, files = len(rows), Counter(), Counter(), driving.Kept('ends-')
    for how in rows:
        print(how, flush=True)
    for found, there, there_of_every in driving.by_chunks(pool, compare_chunk, chosen):
        met += there
        met_of_every += there_of_every
        for case, how in found:
            differing += 1
            print(f'{files.case(case)}: {how}', flush=True)
    is_enough = chosen.count >= MANY
    missed = driving.unmet(MUST_MEET, met, is_enough) + driving.unmet(MUST_MEET_OF_EVERY_END, met_of_every, is_enough)
    print(f'{met["reports"]} reports of {chosen.count} scripts, {met_of_every["small scripts"]} beside all interleavings, {differing} different')
    return differing + missed + (not met['reports'])


def shows(fault, case, answer):
    """Whether the model with a fault says otherwise to a case than the program, or else the sound model."""
    with driving.broken(fault):
        return case.wanted() != answer


def is_wrong_with(fault, small):
    """Whether all interleavings of a script show a fault of its report."""
    with driving.broken(fault):
        result = case_of(small).wanted()
    return every_end.told_of(small, result) is not None


def not_noticed(chosen):
    """The faults that no report shows."""
    left = ends_faults.breakages()
    rows = (Case('', row.script.encode(), row.asked) for row in worked_ends.CHECKS if row.script != worked_ends.FOUR_RACES)
    for case in chain(rows, (case for number in range(chosen.count) if left for case in ends_cases.cases(chosen.seed, number))):
        answer = said(chosen, case)
        left = [fault for fault in left if not shows(fault, case, answer)]
    return [fault.name for fault in left]


def not_noticed_by_every_end(chosen):
    """The faults that must be shown by all interleavings, and aren't."""
    left = ends_faults.every_end_faults()
    for small in (small for number in range(chosen.count) if left for small in every_end.smalls(chosen.seed, number)):
        left = [fault for fault in left if not is_wrong_with(fault, small)]
    return [f'{fault.name}, by all interleavings' for fault in left]


def not_noticed_explained(chosen):
    """The faults of explanations that no report of the model shows."""
    left = explained_lines.FAULTS
    for case in (case for number in range(chosen.count) if left for case in ends_cases.cases(chosen.seed, number)):
        left = explained_lines.faults_left(left, case.wanted())
    return [f'{name}, explained' for name, _ in left]


def compare_broken(chosen, pool):
    """How many faults of the model are not noticed."""
    tasks = [pool.submit(noticing, chosen) for noticing in (not_noticed, not_noticed_by_every_end, not_noticed_explained)]
    left = [name for task in tasks for name in task.result()]
    return driving.count_left(left, len(ends_faults.breakages()) + len(ends_faults.every_end_faults()) + len(explained_lines.FAULTS))


def main():
    chosen = driving.chosen_by(driving.parser_of(__doc__, 'scripts of each kind (500)', 500))
    return driving.driven(chosen, compare, compare_broken)


if __name__ == '__main__':
    sys.exit(main())
