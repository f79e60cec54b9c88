"""Scripts that are diagnosed, for diagnosed.py: those of outcomes_cases.py, those in which a step decides how a run ends, and some in which several
senders, or several statements, make one bug or more, by runs of several lengths.

All modes are asked, and each script is of few enough states, and ends in each run, so that the model can search it with the steps that a program has.
Of the model alone it is asked too with limits by which the search may stop, and few runs are drawn.
"""

from random import Random

from cases import deciding_cases, outcomes_cases
from cases.explore_cases import DECLARED, Kind, kind_of, script_of
from model import states
from model.diagnosed import Diagnosis, Limits
from model.language import Fault
from model.modes import MODES, RENDEZVOUS, by_turns

# A script comes to so many states at most, each step a state.
MOST_COME_TO = 700
# A search that may stop comes to so many states at most, and so many runs are drawn behind it.
SMALL_COME_TO, SMALL_DRAWN = (1, 2, 2, 3, 3, 4, 5, 8, 12), (1, 2, 4, 8, 16)
# In turn: what decides, several bugs, and the others.
IN_TURN = 3
WRONG_MODES = 'fast', '', 'Buffered', 'slots:', 'slots:65537', 'slots:-1', 'buffered '
FILES = ('script.mpd', 'script.mpd', 'script.mpd', 'a b.mpd', f'{"long" * 20}.mpd', "it's.mpd", '-x.mpd', '-$(x);', "'", 'A_z.9+,:@%-.mpd')
# What rank 0 does that has received a message: it ends badly, or is some steps longer, or leaves something over.
BAD = ('recv y from 0 tag 9;', 'recv y from any tag 40;', 'assert 0;', 'assert y;', 'barrier;', 'y = 1 / 0;', 'y = 1 / 0;')
LONG = 'print x;', 'print x; print x;', 'y = x; y = 0; print y;'
OVER = 'isend r[3] x to 0 tag 7;', 'isend r[3] 1 to 0 tag 7;\nisend r[4] 2 to 0 tag 7;'


def several_bugs(random, ranks):
    """Rank 0 receives of any source, and by whose message comes at a place it goes on in one of some ways, each on lines of its own."""
    parts, word = [], random.choice(['send', 'send', 'isend r[0]', 'ssend'])
    for _ in range(random.choice([1, 1, 2])):
        parts.append('recv x from any tag any;')
        for rank in random.sample(range(1, ranks), random.randint(1, ranks - 1)):
            does = [random.choice(LONG)] * (random.random() < 0.5) + [random.choice(random.choice([BAD, BAD, BAD, OVER, LONG]))]
            parts.append(f'if x == {rank} {{\n{" ".join(does)}\n}}')
    if random.random() < 0.6:
        parts.append(random.choice(BAD))
    at_end = random.choice(['', '', '', f'if rank == {ranks - 1} {{ {random.choice(BAD)} }}\n'])
    body = '\n'.join(parts)
    return f'if rank == 0 {{\n{body}\n}} else {{\n{word} rank to 0 tag 0;\n}}\n{at_end}'


SEVERAL = {'several_bugs': Kind(several_bugs, 1, (2, 3, 3, 4, 4), DECLARED)}


def text_of(random, number):
    """The name of a kind, a script of it, and its mode."""
    turn = number // IN_TURN
    if number % IN_TURN == 0:
        mode = deciding_cases.mode_of(turn)
        return *deciding_cases.script_for(random, mode), mode
    kinds = SEVERAL if number % IN_TURN == 1 else outcomes_cases.kinds(number)
    name = kind_of(random, kinds)
    return name, script_of(random, kinds[name]), by_turns(random.choice(MODES), turn)


def comes_to_few(asked):
    """Whether the runs of a script, all of which end, come to few states; or it is refused."""
    search = states.Search(most=MOST_COME_TO)
    try:
        begun = asked.begun()
    except Fault:
        return True
    states.answered(search.behind(begun.world, begun.fuel))
    return not search.has_stopped


def drawn(seed, number):
    """A diagnosis, the same each time; of some scripts that are drawn the first that comes to few states."""
    random = Random(f'diagnosed/{seed}/{number}')
    while True:
        name, text, mode = text_of(random, number)
        asked = Diagnosis(f'{name}-{seed}-{number}', text, None if mode == RENDEZVOUS and random.random() < 0.3 else mode, file=random.choice(FILES))
        if comes_to_few(asked):
            return asked


def cases(seed, number):
    """A diagnosis with and without `--strict`, and now and then one that is refused: of no file, or in a mode that is none."""
    asked, random = drawn(seed, number), Random(f'diagnosed-beside/{seed}/{number}')
    there = [asked, asked._replace(name=f'{asked.name}-strict', strict=True)]
    if random.random() < 0.05:
        there.append(asked._replace(name=f'{asked.name}-no-file', script=None))
    if random.random() < 0.05:
        there.append(asked._replace(name=f'{asked.name}-no-mode', script=random.choice([None, asked.script]), mode=random.choice(WRONG_MODES)))
    return there


def limited(seed, number):
    """The same diagnosis with small limits, with and without `--strict`, which the model alone is asked; and one that finds nothing and draws few."""
    random, asked = Random(f'diagnosed-limited/{seed}/{number}'), drawn(seed, number)
    small = Limits(come_to=random.choice(SMALL_COME_TO), drawn=random.choice(SMALL_DRAWN))
    least = Limits(come_to=1, drawn=random.choice([1, 1, 2, 3]))
    return [asked._replace(name=f'{asked.name}-{name}', limits=limits, strict=strict)
            for name, limits, strict in (('limited', small, False), ('limited-strict', small, True), ('least', least, random.random() < 0.5))]
