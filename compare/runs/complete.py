"""What follows from a report that is whole, in the model: where no leaf is cut and there are no more, every way to end is listed.

    python3 compare/runs/complete.py                  200 small random scripts (explore_cases.py)
    python3 compare/runs/complete.py --count 1000     more of them
    python3 compare/runs/complete.py --broken         faults of the model (complete_faults.py), each of which these scripts must notice

All interleavings of a script are tried, from world to world, where worlds that differ in the order of their match sets alone count as
one. It is checked that two enabled steps that are no two matches of one call lead to one world in either order; that a walk that is
nowhere cut has exactly the ends that there are, with their outcomes, and no more fuel than it needs; that it is nowhere cut exactly
where no run has more steps than there is fuel; and all that of the walk that sleeps as well, which has no end twice. The status is 0
where all of that holds, and was seen. All that is of scripts without waits for any: where a rank waits for any of some requests, a walk
that is nowhere cut may lack an end (worked_waitany.py has such a script). And it is of the modes `rendezvous` and `buffered` alone: in a mode of
slots which send is buffered hangs on what was matched before, so that an end may be missing too (worked_slots.py).
"""

import os
import sys
from collections import Counter
from random import Random

sys.path.insert(0, os.path.dirname(os.path.dirname(os.path.abspath(__file__))))

from cases.explore_cases import script_of
from cases.small_cases import SMALL
from faults.complete_faults import breakages
from model import complete, explorer
from model.complete import MOST_STEPS, TooMany, asleep_walk, asleep_wrong, is_whole, report_wrong, tried, walk_wrong, walked
from model.debugger import first_world
from model.language import Fault, read_script
from model.modes import MODES
from runs import driving

MUST_MEET = (
    'scripts', *MODES, 'done', 'leftovers', 'deadlock', 'trap', 'whole', 'cut', 'more', 'no more', 'endless', 'just enough fuel',
    'one step too few', 'many steps too few', 'fuel that is left', 'several ends', 'more leaves than ends',
    'one end of several orders asleep', 'worlds that sets alone tell apart', 'local', 'wake', 'match', 'release', 'matches of one call')


def fuel_for(random, every):
    """How much fuel: just enough, one step too little, some more, or some number."""
    if every.longest is None:
        return random.randint(0, MOST_STEPS)
    return max(0, random.choice([every.longest, every.longest, every.longest - 1, every.longest + 9, random.randint(0, every.longest)]))


def fuel_name(every, fuel):
    """How much fuel there is, in words."""
    if every.longest is None:
        return 'endless'
    if fuel > every.longest:
        return 'fuel that is left'
    return {0: 'just enough fuel', 1: 'one step too few'}.get(every.longest - fuel, 'many steps too few')


def met_in(every, plain, asleep, fuel):
    """What the leaves may tell wrongly."""
    whole = is_whole(plain.leaves)
    yield from ('whole' if whole else 'cut', fuel_name(every, fuel))
    yield from (end.split()[0] for end in every.ends.values())
    yield from ['several ends'] * (len(every.ends) > 1) + ['more leaves than ends'] * (whole and len(plain.leaves) > len(every.ends))
    yield from ['one end of several orders asleep'] * (whole and len(asleep.leaves) < len(plain.leaves))


def wrong_of(random, script, mode, met):
    """What is wrong with the walks and a report of a script."""
    start = first_world(script, mode)
    every, wrong = tried(start, met)
    if wrong:
        return wrong[:1]
    fuel = fuel_for(random, every)
    plain, asleep = walked(explorer.walk(start, fuel), start), walked(asleep_walk(start, fuel), start)
    met.update(met_in(every, plain, asleep, fuel))
    wrong = walk_wrong('the walk', plain, every, fuel) + walk_wrong('the walk that sleeps', asleep, every, fuel)
    wrong += asleep_wrong(asleep, plain)
    if is_whole(plain.leaves) and list(explorer.walk(start, fuel + 7)) != plain.leaves:
        wrong.append('a whole walk is another one with more fuel')
    found = explorer.report(script, mode, random.randint(1, len(plain.leaves) + 1), fuel)
    met['more' if found.more else 'no more'] += 1
    return wrong + report_wrong(found, every, fuel)


def drawn(seed, number):
    """A small script, and what else is drawn for it; None where it is refused."""
    random = Random(f'complete/{seed}/{number}')
    name = random.choices(list(SMALL), [kind.share for kind in SMALL.values()])[0]
    try:
        return random, read_script(script_of(random, SMALL[name]))
    except Fault:
        return random, None


def checked(seed, number, met):
    """What is wrong with one script in both modes; None where it isn't small."""
    random, script = drawn(seed, number)
    if script is None:
        return None
    wrong, here = [], Counter()
    for mode in MODES:
        try:
            wrong += [f'script {number} ({mode}): {what}' for what in wrong_of(random, script, mode, here)]
        except TooMany:
            return None
        here[mode] += 1
    met.update(here)
    met['scripts'] += 1
    return wrong


def check(seed, count, to_end=True):
    """Checks so many scripts, or those up to the first that is wrong; gives what was met, and what is wrong."""
    met, wrong, number = Counter(), [], 0
    while met['scripts'] < count and number < 10 * count and (to_end or not wrong):
        wrong += checked(seed, number, met) or []
        number += 1
    return met, wrong


def faults():
    """All faults of the model that must be noticed."""
    return breakages(complete)


def main():
    chosen = driving.rule_parser(__doc__, 'scripts', 200).parse_args()
    return driving.holds(chosen, check, MUST_MEET, faults, lambda met: met['scripts'] >= chosen.count)


if __name__ == '__main__':
    sys.exit(main())
