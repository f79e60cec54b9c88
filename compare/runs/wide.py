"""What a wide walk says of all runs, in the model: its leaves have each end, also with waits for any and in modes of slots.

    python3 compare/runs/wide.py                    300 small random scripts, half of them of version 2, half of them in modes of slots
    python3 compare/runs/wide.py --count 5000       more of them
    python3 compare/runs/wide.py --sharper          the sharper rule (wide.py of the model) beside the other, of the same scripts
    python3 compare/runs/wide.py --broken           faults of the model (wide_faults.py), each of which these scripts or worked rows must notice

All interleavings of a script are tried, as complete.py tries them; a script that has too many worlds, or too many leaves with sleep sets, is
counted and left out. It is checked that two enabled steps that don't conflict lead to one world in either order; that the wide walk, with
sleep sets and without, is nowhere cut exactly if no run has more steps than there is fuel, and then has exactly the ends that there are, with
their outcomes; and that each of its runs with sleep sets is one without. Of a script without waits for any, in the modes `rendezvous` and
`buffered`, its leaves must be those of the walk, those with sleep sets the leaves of the walk that sleeps (complete.py), cut or not, and no end
may come twice. The status is 0 if all of that holds, and was seen.
"""

import os
import sys
from collections import Counter
from functools import cache, partial
from itertools import combinations, islice
from random import Random
from typing import NamedTuple

sys.path.insert(0, os.path.dirname(os.path.dirname(os.path.abspath(__file__))))

from cases.explore_cases import kind_of, script_of
from cases.small_cases import SMALL, SMALL_OF_2, SMALL_OF_SLOTS
from faults.wide_faults import breakages, conflict_faults, row_faults
from model import explorer, wide
from model.complete import TooMany, asleep_walk, is_whole, joined_wrong, others_wrong, tried, twice_wrong, walk_wrong, walked
from model.debugger import first_world
from model.explorer import has_choice_of_wakes
from model.language import Fault, read_script
from model.modes import BUFFERED, RENDEZVOUS, slots_of
from rows import worked_wide
from runs import driving
from runs.complete import fuel_for, fuel_name

# The modes of scripts, in turn; of so many that follow one another the first half is of version 1.
IN_TURN = (RENDEZVOUS, 'slots:1', BUFFERED, 'slots:2')
# A walk with sleep sets has so many leaves and dead ways at most.
MOST_WAYS = 600
# What tells a wide walk from a walk along decisions, and that nothing does.
SAME, OTHER = 'neither', ('waitany', 'slots', 'waitany and slots')
MUST_MEET = (
    'scripts', *IN_TURN, SAME, *OTHER, 'over the bound', 'done', 'leftovers', 'deadlock', 'trap', 'whole', 'cut', 'endless',
    'just enough fuel', 'one step too few', 'many steps too few', 'fuel that is left', 'several ends', 'leaves', 'dead ways',
    'an end that the walk lacks (waitany)', 'an end that the walk lacks (slots)', 'an end twice (waitany)', 'leaves of the walk',
    'local beside match in conflict', 'match beside match in conflict', 'wakeany beside wakeany in conflict')


class Told(NamedTuple):
    """A script in a mode: where it begins, all its interleavings, the fuel of its walks, and why these may be others than those along decisions."""
    start: object
    every: object
    fuel: int
    why: str


def why_other(script, mode):
    """Why the wide walk of a script in a mode may be another one than the walk along decisions; a probe of any source counts as a waitany."""
    with_any, with_slots = has_choice_of_wakes(script.body), slots_of(mode) is not None
    return {(False, False): SAME, (True, False): 'waitany', (False, True): 'slots', (True, True): 'waitany and slots'}[with_any, with_slots]


def conflicts_wrong(world, behind, met):
    """What is wrong with the steps that are enabled in a world, two and two: those that don't conflict can be taken in either order."""
    wrong = []
    for one, other in combinations(behind, 2):
        if wide.in_conflict(world, one, other):
            met[f'{one.kind} beside {other.kind} in conflict'] += 1
        else:
            wrong += joined_wrong(one, other, behind)
    return wrong


# ---- a wide walk beside all interleavings

def ways_of(told, sharper, met):
    """The leaves of a wide walk with sleep sets."""
    found = list(islice(wide.wide_ways(told.start, told.fuel, sharper), MOST_WAYS + 1))
    leaves = [leaf for leaf in found if leaf.outcome != wide.ASLEEP]
    if len(found) > MOST_WAYS:
        raise TooMany
    for what, count in (('leaves', len(leaves)), ('dead ways', len(found) - len(leaves))):
        met.update({named(what, sharper): count, named(f'{what} ({told.why})', sharper): count})
    return walked(leaves, told.start)


def named(what, sharper):
    """A name of what is met, or of what is wrong, by a rule."""
    return f'{what}, sharper' if sharper else what


def plain_of(told, sharper, met):
    """The leaves of a wide walk without sleep sets; None if they are too many."""
    try:
        return walked(wide.wide_walk(told.start, told.fuel, sharper), told.start)
    except TooMany:
        met[named('too many leaves without sleep sets', sharper)] += 1
        return None


def decisions_wrong(told, slept, plain):
    """What is wrong with a wide walk that must be the walk, and with sleep sets the walk that sleeps."""
    wrong = twice_wrong(slept)
    if slept.leaves != list(asleep_walk(told.start, told.fuel)):
        wrong.append('the wide walk with sleep sets is not the walk that sleeps')
    if plain is not None and plain.leaves != list(explorer.walk(told.start, told.fuel)):
        wrong.append('the wide walk is not the walk')
    return wrong


def rule_wrong(told, sharper, met):
    """What is wrong with the wide walks of a script by a rule."""
    slept, plain = ways_of(told, sharper, met), plain_of(told, sharper, met)
    wrong = walk_wrong(named('the wide walk with sleep sets', sharper), slept, told.every, told.fuel)
    if plain is not None:
        wrong += walk_wrong(named('the wide walk', sharper), plain, told.every, told.fuel) + others_wrong(slept, plain)
    if told.why == SAME:
        return wrong + decisions_wrong(told, slept, plain)
    met[named(f'an end twice ({told.why})', sharper)] += bool(twice_wrong(slept))
    return wrong


# ---- what is met

def met_of_walk(told):
    """What is met of the walk along decisions of a script that the wide walk is to know more of."""
    try:
        found = walked(explorer.walk(told.start, told.fuel), told.start)
    except TooMany:
        return
    yield from ['leaves of the walk'] * len(found.leaves)
    if is_whole(found.leaves) and told.every.longest is not None and told.every.ends.keys() - set(found.keys):
        yield f'an end that the walk lacks ({told.why})'


def met_in(told, mode):
    """What the leaves may tell wrongly."""
    yield from (mode, told.why, fuel_name(told.every, told.fuel))
    yield from (end.split()[0] for end in told.every.ends.values())
    yield from ['several ends'] * (len(told.every.ends) > 1)
    yield 'cut' if told.every.longest is None or told.fuel < told.every.longest else 'whole'
    if told.why != SAME:
        yield from met_of_walk(told)


# ---- scripts

def drawn(seed, number):
    """A small script and its mode, and what else is drawn for it; the script is None if it is refused."""
    random, mode = Random(f'wide/{seed}/{number}'), IN_TURN[number % len(IN_TURN)]
    of_1 = SMALL if slots_of(mode) is None else SMALL | SMALL_OF_SLOTS
    kinds = SMALL_OF_2 if number // len(IN_TURN) % 2 else of_1
    try:
        return random, mode, read_script(script_of(random, kinds[kind_of(random, kinds)]))
    except Fault:
        return random, mode, None


class Interleaved(NamedTuple):
    """A script in a mode with all its interleavings, what is wrong with steps in either order, and what was met."""
    told: Told
    mode: str
    wrong: list
    met: Counter


@cache
def interleaved(seed, number):
    """The interleavings of a script, which are tried once alone for all faults; None if the script is refused."""
    random, mode, script = drawn(seed, number)
    if script is None:
        return None
    start, met = first_world(script, mode), Counter()
    try:
        every, wrong = tried(start, met, conflicts_wrong)
    except TooMany:
        return TooMany
    return Interleaved(Told(start, every, fuel_for(random, every), why_other(script, mode)), mode, wrong, met)


def checked(seed, number, rules, met):
    """What is wrong with one script; None if it isn't small."""
    script, here = interleaved(seed, number), Counter()
    if script is None:
        return None
    try:
        if script is TooMany:
            raise TooMany
        wrong = script.wrong[:1] or [what for sharper in rules for what in rule_wrong(script.told, sharper, here)]
    except TooMany:
        met['over the bound'] += 1
        return None
    met.update(here + script.met)
    met.update(met_in(script.told, script.mode))
    met['scripts'] += 1
    return [f'script {number} ({script.mode}): {what}' for what in wrong]


def check(rules, seed, count, to_end=True):
    """Checks so many scripts, or those up to the first that is wrong; gives what was met, and what is wrong."""
    met, wrong, number = Counter(), [], 0
    while met['scripts'] < count and number < 10 * count and (to_end or not wrong):
        wrong += checked(seed, number, rules, met) or []
        number += 1
    return met, wrong


def tried_anew(rules, seed, count):
    """The same, where all interleavings are tried once more."""
    interleaved.cache_clear()
    return check(rules, seed, count, to_end=False)


def rows_wrong():
    """What worked rows show that is wrong, in the place of scripts; nothing is met."""
    return Counter(), [f'{name}: {problem}' for name, problem in worked_wide.problems() if problem]


def main():
    parser = driving.rule_parser(__doc__, 'scripts', 300)
    parser.add_argument('--sharper', action='store_true', help='check the wide walk by the sharper rule too')
    chosen = parser.parse_args()
    rules = (False, True) if chosen.sharper else (False,)
    wrong = driving.holds(chosen, partial(check, rules), MUST_MEET, breakages, lambda met: met['scripts'] >= chosen.count)
    if chosen.broken and not wrong:
        wrong = driving.count_unnoticed(conflict_faults(), lambda: tried_anew(rules, chosen.seed, chosen.count))
        wrong += driving.count_unnoticed(row_faults(), rows_wrong)
    return 1 if wrong else 0


if __name__ == '__main__':
    sys.exit(main())
