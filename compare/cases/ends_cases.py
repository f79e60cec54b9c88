"""Checks that list the ends of a script, each once, and checks whose leaves are grouped by how they end (ends.py).

They are of the scripts of explore_cases.py, and of races that share nothing; in all modes, by pieces, and of both versions. A script has few
leaves, so that the model can follow all of its runs, those behind what is asleep too, along decisions and along the wide walk.
"""

from random import Random

from cases.explore_cases import KINDS, KINDS_OF_2, KINDS_OF_SLOTS, Case, Kind, asked, kind_of, next_to, script_of
from cases.piece_cases import SPLITS, cut, filled, has_few_leaves, made_small, one_piece, workers
from cases.piece_cases import script_of as read_script_of
from cases.rare_cases import races
from cases.small_cases import several
from cases.wildcard_cases import in_branches
from model.explorer import ends_part
from model.modes import is_turn_of_slots

# One script of so many is of version 2.
VERSION_2_EVERY = 6
# Of so many leaves a report of ends has at most.
MOST_LEAVES = 60


def few_races(random, ranks):
    """Races that share nothing, as a whole script."""
    return races(random).script()


def late(random, ranks):
    """Two ranks receive of any source what the others send to one of them and then to the other: a match may come when others are asleep."""
    sends = [random.sample(range(2), random.choice([1, 2, 2])) for _ in range(2, ranks)]
    counts = [max(0, sum(receiver in to for to in sends) + random.choice([0, 0, 0, 0, -1, 1])) for receiver in range(2)]
    receives = [['recv x from any tag any;'] * count for count in counts]
    return in_branches([*receives, *([f'send rank to {receiver} tag 0;' for receiver in to] for to in sends)]) + '\n'


RACES = {'several': Kind(several, 40, (3, 4, 4)), 'late': Kind(late, 40, (4, 4, 5)), 'races': Kind(few_races, 40, (1,), None)}


def kinds(number):
    """The kinds of scripts of which that of a number is drawn."""
    if number % VERSION_2_EVERY == 0:
        return KINDS_OF_2
    return RACES | KINDS | (KINDS_OF_SLOTS if is_turn_of_slots(number) else {})


def with_short_runs(script, options):
    """The options with so little fuel that there are few leaves, asleep or not, along decisions and along the wide walk."""
    options = options._replace(fuel=filled(options).fuel)
    while not has_few_leaves(script, options._replace(ends=True)):
        options = options._replace(fuel=max(1, options.fuel // 2))
    return options


def with_few_ends(random, script, options):
    """The options with as many runs of each piece as one of the pieces has ends, or nearly, now and then."""
    if not options.ends or options.runs is None or random.random() < 0.6:
        return options
    found = cut(script, options)
    most = max(1, MOST_LEAVES // len(found))
    return options._replace(runs=min(most, next_to(random, len(ends_part(random.choice(found), most).leaves))))


def first_case(seed, number):
    """A check of a script that lists ends or groups, the same each time; and its script, None where it is refused before it is explored."""
    random = Random(f'ends/{seed}/{number}')
    of_kinds, draw = kinds(number), random.random()
    name = kind_of(random, of_kinds)
    text = script_of(random, of_kinds[name])
    options = asked(random, of_kinds[name], text, number)._replace(split=random.choice(SPLITS), workers=workers(random), ends=draw < 0.9, group=draw > 0.7)
    case = Case(f'{name}-{seed}-{number}', text, options)
    script = read_script_of(case)
    if script is not None:
        options = made_small(random, script, with_short_runs(script, options), MOST_LEAVES)
        options = with_few_ends(random, script, options)
    return case._replace(asked=options), script


def beside(seed, number, case, script):
    """The same script once more: grouped or not, with all its ends, with its leaves or its ends, one of its pieces, up to its first deadlock, or in
    several modes."""
    random = Random(f'ends-beside/{seed}/{number}')
    options, draw = case.asked, random.random()
    if draw < 0.15:
        other = options._replace(group=not options.group)
    elif draw < 0.25:
        other = options._replace(ends=True, complete=True, runs=None)
    elif draw < 0.35:
        other = options._replace(ends=not options.ends)
    elif draw < 0.65:
        other = options._replace(piece=one_piece(random, script, options), until=random.random() < 0.3)
    elif draw < 0.85:
        other = options._replace(until=True)
    elif draw < 0.9:
        other = options._replace(pieces=True)
    elif draw < 0.95:
        other = options._replace(modes=random.randrange(3))
    else:
        other = options._replace(split=0, runs=None if script and has_few_leaves(script, options._replace(split=0)) else options.runs)
    return case._replace(name=f'{case.name}-other', asked=other)


def cases(seed, number):
    """Two checks of a script."""
    case, script = first_case(seed, number)
    return [case, beside(seed, number, case, script)]
