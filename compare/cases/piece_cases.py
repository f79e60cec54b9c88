"""Checks by pieces of the scripts of explore_cases.py: splits, workers, one piece alone, how many there are, up to the first deadlock.

What a check explores is kept small: where there are many pieces, each lists few runs, or there are fewer choices by which they are cut.
"""

from itertools import islice
from random import Random

from cases.explore_cases import next_to, random_case
from model import explorer
from model.debugger import RENDEZVOUS
from model.explorer import MOST_PIECES, MOST_SPLIT, MOST_WORKERS, USUAL, ends_part, part
from model.language import Fault
from model.modes import is_mode
from model.walks import walk
from model.wide import ways_behind
from model.witness import Verification

SPLITS = (None, None, None, 0, 0, 1, 2, 2, 3, 4, 5, 6, 7, 8)
BAD_WORKERS = (0, 17, 18, 100, 1000)
# So many leaves a report has at most, where a piece has more than one, and by every number of choices.
MOST_LEAVES, MOST_LEAVES_BY_EVERY = 60, 120
# Where there are more pieces than so many, a run has so many steps at most, and so many where that makes not too many of all pieces.
MANY, SHORT_FUEL, LONG_FUEL, MOST_STEPS = 4, 60, 200, 8000
# Of a script of more ranks than so many, whose steps take the model long, many pieces are counted, and not explored.
MANY_RANKS = 8
# A script of more leaves is not cut where as many runs are listed of a piece as there are without an option.
FEW_LEAVES = 300
HIGH_PIECES = (300, 1023)
# Of so many scripts one is checked in several modes, one after another.
MODES_EVERY = 7


def script_of(case):
    """The script of a case that is explored; None where the case is refused before."""
    if case.script is None or case.asked.mode is not None and not is_mode(case.asked.mode):
        return None
    try:
        return explorer.read_script(case.script)
    except Fault:
        return None


def filled(asked):
    """The options, where none that has a usual value is left out."""
    return asked._replace(**{name: usual for name, usual in USUAL._asdict().items() if getattr(asked, name) is None})


def cut(script, asked):
    """The pieces of a script by these options, and one more than there may be at most."""
    usual = filled(asked)
    return explorer.cut_into(script, usual.mode, usual)


def with_less_fuel(asked, count):
    """The options with fuel for few steps, where there are many pieces of long runs."""
    if asked.fuel is None or count <= MANY:
        return asked
    return asked._replace(fuel=min(asked.fuel, LONG_FUEL, max(SHORT_FUEL, MOST_STEPS // count)))


def with_few_choices(script, asked, most):
    """The options with as many choices less that there are so many pieces at most, or too many to be explored."""
    while most < len(cut(script, asked)) <= MOST_PIECES:
        asked = asked._replace(split=filled(asked).split - 1)
    return asked


def with_few_runs(random, script, asked, most):
    """The options with so few runs of each piece that there are so many leaves at most; often as many as a piece has, or nearly."""
    found = cut(script, asked)
    if len(found) > MOST_PIECES:
        return asked
    room = max(1, most // len(found))
    runs = min(filled(asked).runs, room)
    if random.random() < 0.4:
        runs = min(room, next_to(random, len((ends_part if asked.ends else part)(random.choice(found), runs + 1).leaves)))
    return asked._replace(runs=runs)


def are_few(leaves):
    """Whether there are few leaves."""
    return len(list(islice(leaves, FEW_LEAVES + 1))) <= FEW_LEAVES


def has_few_leaves(script, asked):
    """Whether there are few leaves, by whatever number of choices; of ends there must be few with the dead ways between them, too."""
    begun = cut(script, asked._replace(split=0))[0]
    return are_few(walk(begun.world, begun.fuel)) and (not asked.ends or are_few(ways_behind(begun)))


def made_small(random, script, asked, most):
    """The options, so that a check by them explores little."""
    if asked.runs is None:
        return asked if has_few_leaves(script, asked) else asked._replace(split=0)
    asked = with_less_fuel(asked, len(cut(script, asked)))
    return with_few_runs(random, script, with_few_choices(script, asked, most), most)


def workers(random):
    """Mostly a number that there may be, or none."""
    if random.random() < 0.03:
        return random.choice(BAD_WORKERS)
    return random.choice([None, *range(1, MOST_WORKERS + 1)])


def cut_case(seed, number):
    """A case of explore_cases.py by pieces, the same each time; and its script, None where it is refused before it is explored."""
    random = Random(f'pieces/{seed}/{number}')
    case = random_case(seed, number)
    asked, script = case.asked._replace(split=random.choice(SPLITS), workers=workers(random)), script_of(case)
    if script is not None:
        asked = made_small(random, script, asked, MOST_LEAVES)
    return case._replace(asked=asked), script


def one_piece(random, script, asked):
    """A number of a piece: the first, the last, one of them, the first that isn't there, or a high one."""
    count = len(cut(script, asked)) if script is not None else 1
    there = [0, 0, count - 1, random.randrange(count), random.randrange(count)]
    return min(MOST_PIECES - 1, random.choice([*there, count, random.choice(HIGH_PIECES)]))


def beside(seed, number, case, script):
    """The same script once more: in several modes, how many pieces it has, one of them, up to its first deadlock, or with other workers
    and witnesses."""
    random = Random(f'beside/{seed}/{number}')
    asked, draw = case.asked, random.random()
    if number % MODES_EVERY == MODES_EVERY - 1:
        other, name = asked._replace(modes=number // MODES_EVERY % 4), 'modes'
    elif draw < 0.15:
        other, name = asked._replace(pieces=True), 'pieces'
    elif draw < 0.5:
        other, name = asked._replace(piece=one_piece(random, script, asked), until=random.random() < 0.3), 'piece'
    elif draw < 0.85:
        other, name = asked._replace(until=True), 'until'
    else:
        other, name = asked._replace(workers=workers(random), witnesses=not asked.witnesses, traps=not asked.witnesses), 'workers'
    return case._replace(name=f'{case.name}-{name}', asked=other)


def cases(seed, number):
    """A check of a script, and another one of it."""
    case, script = cut_case(seed, number)
    return [case, beside(seed, number, case, script)]


def workers_of(number, split):
    """A number of workers: each of 1 to 16 comes with each split among 16 scripts that stand side by side."""
    return (9 * number + split) % MOST_WORKERS + 1


def by_split(seed, number, split, case, script):
    """Two checks of a script by so many choices: its report, with witnesses or without, and in turn a piece, their number, or until."""
    random = Random(f'split/{seed}/{number}/{split}')
    is_witnessed = (number + split) % 2 == 0
    asked = case.asked._replace(split=split, workers=workers_of(number, split), witnesses=is_witnessed, traps=is_witnessed and case.asked.traps)
    if script is not None:
        count = len(cut(script, asked))
        if script.ranks > MANY_RANKS and count > MOST_LEAVES_BY_EVERY:
            return [case._replace(name=f'{case.name}-{split}', asked=asked._replace(pieces=True))]
        asked = with_few_runs(random, script, with_less_fuel(asked, count), MOST_LEAVES_BY_EVERY)
    other = asked._replace(workers=workers_of(number, split + 5))
    one = other._replace(piece=one_piece(random, script, asked), until=random.random() < 0.3)
    others = other._replace(pieces=True), other._replace(until=True), one
    return [case._replace(name=f'{case.name}-{split}', asked=asked),
            case._replace(name=f'{case.name}-{split}-other', asked=others[(number + split) % 3])]


def by_every_split(seed, number):
    """Checks of a script by each number of choices."""
    case = random_case(seed, number)
    script = script_of(case)
    return [found for split in range(MOST_SPLIT + 1) for found in by_split(seed, number, split, case, script)]


def witnesses_of(case, output):
    """What `verify` must accept by what a check of a case has written: each deadlock with its witness, one behind the other."""
    lines = output.splitlines(keepends=True)
    mode = filled(case.asked).mode
    return [Verification(case.script, leaf + witness, None if mode == RENDEZVOUS else mode, f'{case.name}-{number}')
            for number, (leaf, witness) in enumerate(zip(lines, lines[1:])) if witness.startswith(b'witness ')]
