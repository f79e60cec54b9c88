"""Compares what `check --outcomes` of a program answers with the model, and with all interleavings of small scripts.

    python3 compare/runs/outcomes.py PROGRAM                 worked rows (worked_outcomes.py, worked_decided.py), 500 random scripts, and 500
                                                             whose interleavings are tried, the same ones for a seed
    python3 compare/runs/outcomes.py PROGRAM --count 5000    more of both
    python3 compare/runs/outcomes.py PROGRAM --long          a search that stops, too, which takes the program long
    python3 compare/runs/outcomes.py --broken                faults of the model (outcomes_faults.py), each of which must be noticed; with
                                                             PROGRAM, beside it

What is told must be the model's, byte for byte, whose search keeps what it has told of a state. Where the runs of a script are few, that
must be what they say by definition, one after another, whatever number of states is kept; and where the search may come to fewer states
than there are, what the first of these runs say. Of a script whose worlds are few enough that all can be tried, whatever steps are taken in
whatever order, the outcomes must be those of all interleavings (every_end.py knows nothing of a walk), and the first run of each must be
one that ends so; from the state before the step that is told to decide some interleaving must end well, and from the one behind it none.
The status is 0 where scripts were compared, none differed, and all was met that must be.
"""

import os
import re
import sys
from collections import Counter
from contextlib import contextmanager
from itertools import islice
from os.path import commonprefix
from random import Random
from unittest import mock

sys.path.insert(0, os.path.dirname(os.path.dirname(os.path.abspath(__file__))))

from cases import deciding_cases, every_end, outcomes_cases
from cases.every_end import EndingWell
from faults import outcomes_faults
from model import deciding, explaining, outcomes, states
from model.complete import TooMany
from model.debugger import enabled_steps, next_world
from model.explorer import has_waitany, read_script
from model.files import held
from model.modes import slots_of
from model.outcome_lines import read_decided, read_outcomes
from model.outcomes import BAD, is_bad, text_of, total
from model.remembered import remembering, steps_remembered
from model.policy import Choice
from model.report_lines import NoReport, must_be
from model.run_words import BadChoices, run_by
from model.states import USUAL_STATES, Found, Search, of_leaves, up_to_first
from model.walks import CUT
from model.wide import wide_walk
from rows import worked_decided, worked_outcomes
from runs import driving
from runs.driving import first_different

CHECKS = worked_decided.CHECKS + worked_outcomes.CHECKS
# So many scripts meet all that must be met.
MANY = 300
# So many runs are listed one after another at most.
MOST_LEAVES = 200
# How many states are kept in turn, beside as many as there are; and the interleavings of one script of so many are tried.
FEW_STATES = (1, 2, 4, 16)
EVERY_END_EVERY, DECIDING_EVERY = 2, 4
# What is told of the step that decides: its depth, and the step with what could be done in its place.
DECIDED = re.compile(r'decided at depth ([0-9]+): (.*) it need not hang or trap')
# By what it is told how that was decided.
HOW_DECIDED = (('decided by another message', '; with that of rank '), ('decided by another step', ' instead, it need'),
               ('decided from the start', 'decided from the start: '), ('decided or earlier', ' or earlier: '))
# How long a check may take a program whose table is too small: of all states it takes some 3, and with a part of them up to four times as much. And
# how long one that stops may take it.
FULL_SECONDS = 60
LONG_SECONDS = 1800
MUST_MEET = (
    'done', 'leftovers', 'deadlock', 'trap', 'cut', 'witness', 'explained', 'status 0', 'status 1', 'status 2', 'status 4', 'slots',
    'version 2', 'waitany',
    'one outcome', 'several outcomes', 'several runs of one outcome', 'another order than that of texts', 'few states kept',
    'more states than are kept',
    'same fuel', 'other fuel', 'fuel that it does not serve', 'runs one after another', 'more runs than are listed',
    'more runs than states', 'stopped',
    'stopped with several outcomes', 'cut beside runs that are not',
    'until, more yes', 'until, more no', 'modes, none that is well', 'modes, one that is well', 'decided by another message',
    'decided by another step', 'decided from the start', 'decided or earlier', 'decided by its definition')
MUST_MEET_OF_EVERY_END = ('small scripts', 'rendezvous', 'buffered', 'slots:1', 'slots:2', 'waitany', 'one outcome', 'several outcomes',
                          'done', 'leftovers',
                          'deadlock', 'trap', 'fewer outcomes than ends', 'more runs than ends', 'decided by another message',
                          'decided by another step', 'decided from the start')


@contextmanager
def states_remembered():
    """Has the model take each step of a script once alone, and tell once alone what tells a state of it apart."""
    with steps_remembered(), mock.patch.object(states, 'key', remembering(states.key)):
        yield


def run(chosen, words_in):
    """What the program gives, by what has its words in a folder."""
    return driving.said_by_program(chosen, 'outcomes-', words_in)


def said(chosen, checked):
    """What the program says to a check, or else the model."""
    return run(chosen, checked.words) if chosen.program else checked.wanted()


def how_decided(line):
    """What a line tells of the step that decides."""
    return next(name for name, part in HOW_DECIDED if part in line)


# ---- beside the search of the model

def met_in(checked, wanted, is_searched):
    """What a program may answer wrongly to a check, which is searched, or refused before."""
    yield f'status {wanted.status}'
    lines = wanted.output.decode().splitlines()
    yield from ['witness' for line in lines if line.startswith('witness ')] + ['explained' for line in lines if line.startswith('  ')]
    yield from [how_decided(line) for line in lines if line.startswith('  decided ')]
    if not is_searched:
        return
    if checked.modes is not None:
        yield 'modes, none that is well' if lines[-1].endswith('none') else 'modes, one that is well'
        return
    yield from [f'until, {" ".join(lines[-1].split()[-2:])}'] * checked.until
    search, told = outcomes_cases.search_of(checked)
    outcomes_told, runs = list(told.ways), sum(way.runs for way in told.ways.values())
    yield from [outcome.split()[0] for outcome in outcomes_told] + ['one outcome' if len(outcomes_told) == 1 else 'several outcomes']
    yield from ['several runs of one outcome'] * any(way.runs > 1 for way in told.ways.values())
    yield from ['another order than that of texts'] * (outcomes_told != sorted(outcomes_told))
    yield from ['cut beside runs that are not'] * (CUT in told.ways and len(told.ways) > 1)
    yield from ['few states kept'] * (checked.states is not None and checked.states < 100)
    yield from ['more states than are kept'] * (checked.states is not None and checked.states < search.come_to)
    yield from [what for what, count in search.again.items() if count] + ['more runs than states'] * (runs > search.come_to)
    yield from ['slots'] * (slots_of(checked.mode or '') is not None) + ['version 2'] * checked.script.startswith(b'mpd 2')
    yield from ['waitany'] * has_waitany(read_script(checked.script).body)


def few_leaves(begun):
    """The runs of the wide walk behind one, where they are few."""
    found = list(islice(wide_walk(begun.world, begun.fuel), MOST_LEAVES + 1))
    if len(found) > MOST_LEAVES:
        raise TooMany
    return found


def same_text(checked, found, wanted):
    """Whether two ways to find the outcomes of a script have found the same, as it is written."""
    return text_of(checked, found) == text_of(checked, wanted) and found == wanted


def come_to_by(leaves):
    """How many states a walk has come to at the end of each of its runs."""
    count, before = 1, ()
    for leaf in leaves:
        count += len(leaf.steps) - len(commonprefix([before, leaf.steps]))
        before = leaf.steps
        yield count


def stopped_wrong(checked, leaves, kept, most, met):
    """What is wrong with a search that keeps so many states and comes to so many, by the runs that there are; None where nothing is."""
    found = states.searched(checked.begun(), kept, most)
    runs, least = total(found), sum(count <= most for count in come_to_by(leaves))
    if runs < least or kept == 0 and runs > least:
        return f'a search that keeps {kept} states and comes to {most} tells of {runs} runs, where {least} have ended by then'
    if not same_text(checked, found, of_leaves(leaves[:runs], runs < len(leaves))):
        return f'a search that keeps {kept} states and comes to {most} tells otherwise than the first {runs} runs'
    met.update(['stopped'] * found.more + ['stopped with several outcomes'] * (found.more and len(found.ways) > 1))
    return None


def last_by_leaves(worlds, leaves, bad):
    """The last state that isn't doomed of a run that ends badly, by all runs of the walk: those from one of its states begin as it does."""
    for depth in reversed(range(len(worlds))):
        choices = sum(isinstance(states.decided(before), Choice) for before in worlds[:depth])
        behind = [leaf._replace(choices=leaf.choices[choices:]) for leaf in leaves if leaf.steps[:depth] == bad.steps[:depth]]
        ahead = deciding.by_leaves(behind)
        if not deciding.is_doomed(ahead):
            return deciding.Last(depth, ahead)
    return None


def last_wrong(begun, leaves, met):
    """What is wrong with the last state from which some run ends well of the first run that ends badly, by the runs one after another; None where
    nothing is."""
    bad = next((leaf for leaf in leaves if is_bad(leaf.outcome)), None)
    if bad is None:
        return None
    worlds = deciding.worlds_along(begun.world, bad.steps)
    found, wanted = deciding.last_not_doomed(worlds, begun.fuel, deciding.by_search(Search())), last_by_leaves(worlds, leaves, bad)
    met['decided by its definition'] += wanted is not None
    if found != wanted:
        return f'the last state that is not doomed is {found}, and by the runs one after another {wanted}'
    most = Random(str(bad)).randint(1, 2 * len(worlds))
    if not may_be_last(deciding.last_not_doomed(worlds, begun.fuel, deciding.by_search(Search(most=most))), wanted):
        return f'the last state that is not doomed is told otherwise than {wanted} where a search comes to {most}'
    return None


def may_be_last(found, wanted):
    """Whether a search that may have stopped can have found this last state that isn't doomed, where it is that: another one is behind it, and
    isn't known."""
    if found is None or found.ahead.well is not None:
        return found == wanted or found is not None and wanted is not None and (found.depth, found.ahead.well) == (wanted.depth, wanted.ahead.well)
    return wanted is None or found.depth >= wanted.depth


def definition_wrong(checked, met):
    """What is wrong with the search of a script, by its runs one after another; None where nothing is, or where they are many."""
    begun = checked.begun()
    try:
        leaves = few_leaves(begun)
    except TooMany:
        met['more runs than are listed'] += 1
        return None
    met['runs one after another'] += 1
    plain, random = checked._replace(witnesses=False, explain=False, until=False), Random(checked.name)
    come_to = outcomes_cases.search_of(plain)[0].come_to
    for limits in ((random.choice(FEW_STATES),), (USUAL_STATES, come_to)):
        if not same_text(plain, states.searched(begun, *limits), of_leaves(leaves)):
            return f'a search by {limits} tells otherwise than the runs one after another'
    stops_at = random.choice([BAD, BAD, *((word,) for word in BAD)])
    if not same_text(plain, states.searched(begun, stops_at=stops_at), up_to_first(leaves, stops_at)):
        return f'a search up to {" or ".join(stops_at)} tells otherwise than the runs one after another'
    if (wrong := last_wrong(begun, leaves, met)) is not None:
        return wrong
    most = random.randint(1, come_to), random.randint(1, come_to)
    return stopped_wrong(plain, leaves, 0, most[0], met) or stopped_wrong(plain, leaves, USUAL_STATES, most[1], met)


def compare_searches(chosen, number):
    """What differs of the checks of a script, and what was met."""
    found, met = [], Counter()
    with states_remembered():
        for checked, is_searched in outcomes_cases.cases(chosen.seed, number):
            result, wanted = said(chosen, checked), checked.wanted()
            met['checks'] += 1
            met.update(met_in(checked, wanted, is_searched))
            if result != wanted:
                found.append((checked, first_different(result, wanted)))
            if is_searched and (wrong := definition_wrong(checked, met)) is not None:
                found.append((checked, wrong))
    return found, met


# ---- beside all interleavings

def smalls(chosen, number):
    """A script in some modes, as far as it is small, or one in which a step decides, where it is its turn."""
    if number % DECIDING_EVERY == 1:
        return deciding_cases.small(chosen.seed, number)
    return [] if number % EVERY_END_EVERY else every_end.smalls(chosen.seed, number)


def told_of(small, result):
    """What is wrong with what is told of a small script: the first thing; None where nothing is."""
    plain, decided = read_decided(result.output)
    try:
        must_be(result.errors == b'', f'standard error has {result.errors[:80]!r}')
        read = read_outcomes(plain)
        found = Found(dict(ends_read(small, read)), read.more)
        must_be(len(found.ways) == len(read.outcomes), 'an outcome twice')
        return outcomes_wrong(small, found, result.status) or decided_wrong(small, found, decided)
    except NoReport as why:
        return str(why)
    except BadChoices as bad:
        return f'the first run of an outcome is none, by its choice {bad.place}'


def ends_read(small, read):
    """How the first run of each outcome ends that was read, which must be told so, with its way."""
    for it in read.outcomes:
        leaf = run_by(outcomes_cases.begun_of(small), it.way.first, ends=True)
        must_be(leaf.outcome == it.told, f'{it.way.first} ends {leaf.outcome}, and not {it.told}')
        yield leaf.outcome, it.way


def outcomes_wrong(small, found, status):
    """The same of what is read from its lines."""
    must_be(not found.more, 'there are more')
    firsts = [way.first for way in found.ways.values()]
    must_be(all(one < other for one, other in zip(firsts, firsts[1:])), 'outcomes are not in the order of their first runs')
    there = set(small.ends.values())
    must_be(there <= found.ways.keys(), f'no run ends {sorted(there - found.ways.keys())}')
    must_be(found.ways.keys() <= there, f'no interleaving ends {sorted(found.ways.keys() - there)}')
    must_be(status == any(outcome.split()[0] in ('deadlock', 'trap') for outcome in there), f'status {status}')
    return None


def decided_wrong(small, found, decided):
    """The same of the steps that decided how runs end: each is beside all interleavings from the state before it, and from the one behind it."""
    bad = {number: outcome for number, outcome in enumerate(found.ways) if is_bad(outcome)}
    must_be(decided.keys() == bad.keys(), f'{decided.keys() ^ bad.keys()} is or is not decided')
    can_end_well = EndingWell()
    for number, outcome in bad.items():
        steps = run_by(outcomes_cases.begun_of(small), found.ways[outcome].first, ends=True).steps
        worlds = deciding.worlds_along(small.start, steps)
        wrong = decided_wrongly(small, worlds, steps, decided[number], can_end_well)
        if wrong is not None:
            return f'{outcome}, {decided[number]!r}: {wrong}'
    return None


def decided_wrongly(small, worlds, steps, line, can_end_well):
    """What is wrong with the line of the step that decided how a run ends; None where nothing is."""
    if line == deciding.FROM_START:
        return 'from the start some interleaving ends well' if can_end_well(small.start) else None
    told = DECIDED.fullmatch(line)
    if told is None or int(told[1]) >= len(steps):
        return 'it is no such line'
    depth = int(told[1])
    if not can_end_well(worlds[depth]):
        return 'from the state before it no interleaving ends well'
    if can_end_well(worlds[depth + 1]):
        return 'from the state behind it some interleaving ends well'
    at = explaining.reached(read_script(small.text), small.mode, steps[:depth])
    others = [step for step in enabled_steps(at.world) if can_end_well(next_world(at.world, step))]
    texts = [f'{deciding.told_step(at, steps[depth])}; {deciding.in_its_place(at, steps[depth], other)}' for other in others]
    return None if told[2] in texts else f'it is none of {texts}'


def met_of(small, result):
    """What is met of a small script."""
    plain, decided = read_decided(result.output)
    read = read_outcomes(plain)
    told = [it.told for it in read.outcomes]
    yield from [how_decided(line) for line in decided.values()]
    yield from ['small scripts', small.mode, 'several outcomes' if len(told) > 1
                else 'one outcome'] + ['waitany'] * (b'waitany' in small.text)
    yield from [outcome.split()[0] for outcome in told]
    yield from ['told alike'] * (len(set(told)) < len(told))
    yield from ['fewer outcomes than ends'] * (len(told) < len(small.ends))
    yield from ['more runs than ends'] * (sum(it.way.runs for it in read.outcomes) > len(small.ends))


def compare_every_end(chosen, number):
    """What differs of a script from all of its interleavings, and what was met."""
    found, met = [], Counter()
    for small in smalls(chosen, number):
        checked = outcomes_cases.of_every_end(small)
        with steps_remembered():
            result = said(chosen, checked)
            wrong = told_of(small, result)
        if wrong is not None:
            found.append((checked, wrong))
        else:
            met.update(met_of(small, result))
    return found, met


# ---- rows

def row_wrong(chosen, row, seconds=None):
    """What a program answers otherwise than a worked row wants; None where nothing is."""
    if seconds is not None:
        chosen.seconds = seconds
    result, wanted = worked_decided.as_told(row, said(chosen, row.case())), row.wanted()
    return None if result == wanted else f'{row.script} {row.asked}: {first_different(result, wanted)}'


def words_wrong(chosen, words, is_right):
    """What a program answers otherwise to words that are wrong, or right, beside a mode that is wrong; None where nothing is."""
    result = run(chosen, lambda folder: ('check', held(folder, 'script.mpd', b'mpd 1; ranks 1;'), '--mode', 'fast', *words.split()))
    is_mode_told = result == outcomes.BAD_MODE
    is_refused = (result.output, result.status) == (b'', 2) and result.errors and not is_mode_told
    return None if (is_mode_told if is_right else is_refused) else f'check {words}: {result}'


def rows_wrong(chosen, pool):
    """What is answered otherwise than worked rows want, and to words that are wrong, or right."""
    rows = [(row, None) for row in CHECKS]
    words = []
    if chosen.program:
        rows += [(row, None) for row in worked_outcomes.LONG_CHECKS]
        rows += [(row, FULL_SECONDS) for row in worked_outcomes.FULL_TABLES]
        rows += [(row, LONG_SECONDS) for row in worked_outcomes.STOPPED_CHECKS if chosen.long]
        words = [(one, is_right) for some, is_right in ((worked_outcomes.MISTAKES, False), (worked_outcomes.RIGHT, True)) for one in some]
    tasks = [pool.submit(row_wrong, chosen, *row) for row in rows] + [pool.submit(words_wrong, chosen, *one) for one in words]
    found = [task.result() for task in tasks] + [wrong and f'{name}: {wrong}' for name, wrong in worked_outcomes.key_problems()]
    wrong = [how for how in found if how is not None]
    print(f'{len(found)} rows, {len(wrong)} wrong', flush=True)
    return wrong


# ---- all of them

def compare_chunk(chosen, numbers):
    """What differs of some scripts, and what was met of searches and of all interleavings."""
    found, met, met_of_every = [], Counter(), Counter()
    for number in numbers:
        for compare_one, counts in ((compare_searches, met), (compare_every_end, met_of_every)):
            differing, there = compare_one(chosen, number)
            found += differing
            counts.update(there)
    return found, met, met_of_every


def compare(chosen, pool):
    """Compares so many scripts; gives how much differed, or was not met that must be."""
    rows = rows_wrong(chosen, pool)
    differing, met, met_of_every, files = len(rows), Counter(), Counter(), driving.Kept('outcomes-')
    for how in rows:
        print(how, flush=True)
    for found, there, there_of_every in driving.by_chunks(pool, compare_chunk, chosen):
        met += there
        met_of_every += there_of_every
        for checked, how in found:
            differing += 1
            print(f'{files.case(checked)}: {how}', flush=True)
    is_enough = chosen.count >= MANY
    missed = driving.unmet(MUST_MEET, met, is_enough) + driving.unmet(MUST_MEET_OF_EVERY_END, met_of_every, is_enough)
    print(f'{met["checks"]} checks of {chosen.count} scripts, {met_of_every["small scripts"]} beside all interleavings, '
          f'{differing} different')
    return differing + missed + (not met['checks'])


# ---- faults of the model

def shows(fault, checked, answer):
    """Whether the model with a fault says otherwise to a check than the program, or else the sound model, or tells of a run that there isn't."""
    with driving.broken(fault):
        try:
            return checked.wanted() != answer
        except BadChoices:
            return True


def shows_by_keys(fault):
    """Whether rows of states show a fault."""
    with driving.broken(fault):
        return any(wrong is not None for _, wrong in worked_outcomes.key_problems())


def is_wrong_with(fault, small):
    """Whether all interleavings of a script show a fault of what is told of it, or it tells of a run that there isn't."""
    with driving.broken(fault):
        try:
            result = outcomes_cases.of_every_end(small).wanted()
        except BadChoices:
            return True
    return told_of(small, result) is not None


def is_wrong_by_definition(fault, checked):
    """Whether the runs of a script, one after another, show a fault of its search."""
    with driving.broken(fault):
        return definition_wrong(checked, Counter()) is not None


def searched_cases(chosen):
    """The checks of all scripts that are searched, in the place of those that are refused."""
    for number in range(chosen.count):
        for checked, is_searched in outcomes_cases.cases(chosen.seed, number):
            if is_searched:
                yield checked


def not_noticed(chosen):
    """The faults that no row and no check shows."""
    left = [fault for fault in outcomes_faults.breakages() if not shows_by_keys(fault)]
    for checked in (row.case() for row in CHECKS):
        with steps_remembered():
            answer = said(chosen, checked)
            left = [fault for fault in left if not shows(fault, checked, answer)]
    checks = searched_cases(chosen)
    while left and (checked := next(checks, None)) is not None:
        with steps_remembered():
            answer = said(chosen, checked)
            left = [fault for fault in left if not shows(fault, checked, answer)]
    return [fault.name for fault in left]


def not_noticed_by_definition(chosen):
    """The faults that runs one after another must show, and don't."""
    left, checks = outcomes_faults.definition_faults(), searched_cases(chosen)
    while left and (checked := next(checks, None)) is not None:
        with steps_remembered():
            left = [fault for fault in left if not is_wrong_by_definition(fault, checked)]
    return [f'{fault.name}, by runs one after another' for fault in left]


def not_noticed_by_every_end(chosen):
    """The faults that must be shown by all interleavings, and aren't."""
    left = outcomes_faults.every_end_faults()
    for small in (small for number in range(chosen.count) if left for small in smalls(chosen, number)):
        left = [fault for fault in left if not is_wrong_with(fault, small)]
    return [f'{fault.name}, by all interleavings' for fault in left]


def compare_broken(chosen, pool):
    """How many faults of the model are not noticed."""
    tasks = [pool.submit(noticing, chosen) for noticing in (not_noticed, not_noticed_by_definition, not_noticed_by_every_end)]
    left = [name for task in tasks for name in task.result()]
    faults = (*outcomes_faults.breakages(), *outcomes_faults.definition_faults(), *outcomes_faults.every_end_faults())
    return driving.count_left(left, len(faults))


def main():
    parser = driving.parser_of(__doc__, 'scripts of each kind (500)', 500,
                               flags=(('--long', 'ask the program for a search that stops, too'),))
    return driving.driven(driving.chosen_by(parser), compare, compare_broken)


if __name__ == '__main__':
    sys.exit(main())
