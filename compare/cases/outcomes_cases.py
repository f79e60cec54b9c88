"""Checks that tell how the runs of a script end (`check --outcomes`), for outcomes.py.

They are of the scripts of ends_cases.py, and of some that forget what they have received, so that different runs come to one state, with as
many steps or with others; in all modes, and of both versions. Each has few enough states that the model can search them. Some are asked up to
the first deadlock or trap, and some in several modes.
"""

from random import Random

from cases import deciding_cases, ends_cases
from cases.explore_cases import Case, Kind, asked, going_on, kind_of, next_to, script_of
from cases.piece_cases import script_of as read_script_of
from model.debugger import RENDEZVOUS
from model.modes import MODES
from model.outcomes import Outcomes, modes_tried
from model.states import MOST_STATES, Search, answered, searched
from model.walks import Run

# A script has so many states at most, by any fuel that it is checked with; and a search that keeps few of them comes to no more than so
# many.
MOST_COME_TO, MOST_OF_FEW = 1500, 3000
# How many states are kept: mostly as many as where no number is named.
STATES = (None, None, None, None, 1, 2, 3, 8, 30, 100, MOST_STATES)
# One script of so many stands beside another, in which a step decides how it ends.
DECIDED_EVERY = 2
# What rank 0 does by what it has received, and then what is left of that: nothing, or a request, a message, or a variable.
BY_VALUE = ('y = 0; y = 0;', 'print x;', 'isend r[3] x to rank tag 5;', 'isend r[3] 1 to rank tag x;',
            'irecv r[3] a[x % 4] from any tag 5;', 'a[x % 4] = 1;',
            'assert x < 2;', 'isend r[3] 1 to rank tag 5; recv y from rank tag 5;', 'isend r[x % 2] 1 to rank tag 6;', 'i = i;')
# What it does then that may end otherwise by that.
THEN = ('', '', 'wait r[3];', 'wait r[1];', 'recv y from rank tag 5; assert y != 1;', 'assert a[1] == a[2];', 'recv y from rank tag 1;',
        'assert y < 2;',
        'print 1; print 1; print 1;')


def forgetting(random, ranks):
    """Ranks that send to rank 0 in one round or more; it receives of any source, goes on by what it has received, and mostly forgets
    that."""
    rounds, word = random.choice([1, 1, 2, 3]), random.choice(['send', 'isend r[0]', 'isend r[0]', 'ssend'])
    receives = ['recv x from any tag i;', *['recv y from any tag i;'] * (ranks - 2)]
    if random.random() < 0.3:
        receives = ['irecv r[0] x from any tag i status s t;', *receives[1:], random.choice(['wait r[0];', 'y = 0; wait r[0];'])]
    by_value = f'if x == {random.randint(1, ranks - 1)} {{ {random.choice(BY_VALUE)} }}' if random.random() < 0.8 else going_on(random,
                                                                                                                                ranks)
    forgotten = random.sample(['x = 0;', 'y = 0;', 's = 0; t = 0;'], random.choice([1, 2, 3, 3, 3]))
    body = ' '.join([*receives, by_value, *forgotten])
    return (f'while i < {rounds} {{ if rank == 0 {{ {body} }} else {{ {word} rank to 0 tag i; }}\n'
            f'{random.choice(["", "", "barrier;"])} i = i + 1; }}\n'
            f'if rank == 0 {{ {random.choice(THEN)} {random.choice(THEN)} }}\n')


FORGETTING = {'forgetting': Kind(forgetting, 60, (3, 3, 4, 4, 5))}


def kinds(number):
    """The kinds of scripts of which that of a number is drawn."""
    found = ends_cases.kinds(number)
    return found if found is ends_cases.KINDS_OF_2 else FORGETTING | found


def search_of(checked):
    """A search of all states of a script, where they are few, and what it told."""
    search, begun = Search(most=MOST_COME_TO, stops_at=checked.stops_at), checked.begun()
    return search, answered(search.behind(begun.world, begun.fuel))


def all_of(checked):
    """The checks of all runs, in each mode in which a script is tried."""
    plain = checked._replace(until=False, modes=None)
    return [plain] if checked.modes is None else [plain._replace(mode=mode) for mode in modes_tried(checked.modes)]


def with_few_states(checked):
    """The check with so little fuel that a search comes to few states, and with as many states kept as there are where few would take it
    long."""
    while any(search_of(one)[0].has_stopped for one in all_of(checked)):
        checked = checked._replace(fuel=max(1, checked.begun().fuel // 2))
    is_long = checked.states is not None and any(searched(one.begun(), checked.states, MOST_OF_FEW).more for one in all_of(checked))
    return checked._replace(states=None) if is_long else checked


def first_case(seed, number):
    """A check of a script, the same each time; and whether that is searched, and not refused before."""
    random, of_kinds = Random(f'outcomes/{seed}/{number}'), kinds(number)
    name = kind_of(random, of_kinds)
    text = script_of(random, of_kinds[name])
    options = asked(random, of_kinds[name], text, number)
    checked = Outcomes(f'{name}-{seed}-{number}', text, options.mode, options.fuel, random.choice(STATES), options.witnesses,
                       random.random() < 0.3,
                       options.complete)
    is_searched = read_script_of(Case(name, text, options)) is not None
    if random.random() < 0.01:
        return checked._replace(script=None), False
    return (with_few_states(checked) if is_searched else checked), is_searched


def beside(seed, number, checked):
    """The same script once more: with just so much fuel as one of its runs has steps, or nearly, in another mode, or with other states."""
    random = Random(f'outcomes-beside/{seed}/{number}')
    draw, other = random.random(), checked._replace(name=f'{checked.name}-other')
    if draw < 0.5:
        longest = search_of(checked)[1].longest
        return with_few_states(other._replace(fuel=next_to(random, longest - random.choice([0, 0, 0, 1, 2, 3]))))
    if draw < 0.8:
        return with_few_states(other._replace(mode=random.choice([mode for mode in (*MODES, 'slots:1', 'slots:2')
                                                                  if mode != (checked.mode or RENDEZVOUS)])))
    return with_few_states(other._replace(states=random.choice(STATES)))._replace(complete=not checked.complete,
                                                                                  witnesses=not checked.witnesses)


def asking_more(seed, checked, is_searched):
    """The check, now and then up to the first deadlock or trap, explained, or in several modes."""
    random = Random(f'outcomes-more/{seed}/{checked.name}')
    checked = checked._replace(until=random.random() < 0.25, explain=checked.explain or random.random() < 0.2,
                               modes=random.choice([0, 1, 1, 2, 3]) if random.random() < 0.1 else None)
    return with_few_states(checked) if is_searched and checked.modes is not None else checked


def decided(seed, number):
    """A check that tells by which step each deadlock and each trap was decided, now and then with so little fuel that some runs may be cut."""
    random, mode = Random(f'deciding/{seed}/{number}'), deciding_cases.mode_of(number)
    name, text = deciding_cases.script_for(random, mode)
    checked = with_few_states(Outcomes(f'{name}-{seed}-{number}', text, None if mode == RENDEZVOUS and random.random() < 0.3 else mode, explain=True,
                                       witnesses=random.random() < 0.2, until=random.random() < 0.2, states=random.choice([None, None, 1, 5])))
    longest = search_of(checked)[1].longest
    return checked._replace(fuel=next_to(random, longest - random.choice([0, 1, 2, 4]))) if random.random() < 0.3 else checked


def cases(seed, number):
    """Two checks of a script, or one that is refused, and now and then one by which step its runs are decided; each with whether it is
    searched."""
    checked, is_searched = first_case(seed, number)
    there = [checked, beside(seed, number, checked)] if is_searched else [checked]
    more = [] if number % DECIDED_EVERY else [(decided(seed, number), True)]
    return [(asking_more(seed, one, is_searched), is_searched) for one in there] + more


def of_every_end(small):
    """The check that tells all outcomes of a small script, and by which step each deadlock and each trap was decided."""
    return Outcomes(small.name, small.text, small.mode, complete=True, explain=True)


def begun_of(small):
    """The run at the start of a small script, as it is checked."""
    return Run(small.start, of_every_end(small).begun().fuel)
