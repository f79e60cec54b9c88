"""Rows of compare/runs/refused_calls.py that ask in what ways runs end; and what must be told of each, by the model (model/outcomes.py,
model/states.py).

A table that is refused memory gives up what it keeps, and those states are come to again: the answer is the same, of more states. So how many these
are is told where the table keeps nothing, or where nothing is refused; and a search is stopped before its end only where its table keeps nothing.
"""

from typing import NamedTuple

from model import diagnosed, outcomes, states, wide
from model.debugger import BUFFERED, RENDEZVOUS
from model.explorer import Report, counted, leaf_lines
from model.policy import Forced
from model.run_words import run_by
from model.walks import Run, ending, next_world
from probe.call_given import Row, by_hand, line, no_state, trail_text, unchanged, walked
from probe.call_reports import behind_steps, tally_text
from probe.call_scripts import (BOTH_SEND, BY_THE_FIRST, CHOICE, EARLY_OR_LATE, ENDLESS, MESSAGE, ONE_CAME, RACE, SLOT_HELD, TRAPS, TWO_RACES, WHICHEVER)

# Hundreds of requests, of which so many are refused; and all of them.
FEW, EACH = 40, Row('').most
# More states than any script here has.
ALL = 9999
# 64 times it is forgotten who came first: 2 to the 64 runs, which are one more than are counted.
MANY_RACES = ('mpd 1; ranks 3; var x; var i;\n'
              'while i < 64 { if rank == 0 { recv x from any tag any; recv x from any tag any; } else { send 0 to 0 tag 0; } barrier; i = i + 1; }')
# Messages that are taken in any order, of which it is forgotten whose they were: 26 states with a choice.
GATHER = ('mpd 1; ranks 4; var x; var i;\n'
          'if rank == 0 { while i < 6 { recv x from any tag any; i = i + 1; } } else { while i < 2 { send i to 0 tag 0; i = i + 1; } }')
# A race that hangs where rank 2 comes first, behind one of which it is forgotten who did.
THEN_A_RACE = ('mpd 1; ranks 3; var x;\nif rank == 0 { recv x from any tag 1; recv x from any tag 1; x = 0; recv x from any tag 0; recv x from 2 tag 0; } '
               'else { send rank to 0 tag 1; send rank to 0 tag 0; }')
# By who comes first it goes on well, hangs, traps, and goes on well, and there it leaves messages over.
EACH_ANOTHER = ('mpd 1; ranks 5; var x; req r;\nif rank == 0 { recv x from any tag 0;\nif x == 2 { recv x from 0 tag 9; }\nif x == 3 { assert 0; } } '
                'else { isend r rank to 0 tag 0; }')
# How runs end for which a search stops.
GOALS = {'until-deadlock': ('deadlock',), 'until-trap': ('trap',), 'until-bad': ('deadlock', 'trap'), 'until-well': ('done', 'leftovers')}
# Scripts with few states, and where they stand; the mode is the last.
PLACES = ((MESSAGE, (), RENDEZVOUS), (RACE, (), RENDEZVOUS), (RACE, CHOICE, RENDEZVOUS), (WHICHEVER, (), RENDEZVOUS), (BY_THE_FIRST, (), RENDEZVOUS),
          (BY_THE_FIRST, ONE_CAME, RENDEZVOUS), (EARLY_OR_LATE, (), 'slots:1'), (EARLY_OR_LATE, SLOT_HELD, 'slots:1'), (TRAPS, (), RENDEZVOUS),
          (BOTH_SEND, (), 'slots:1'))


def asks():
    yield from searches()
    yield from checks()
    yield from diagnoses()
    yield from sums()


def searches():
    for script, lines, mode in PLACES:
        for limits in (f'100 {ALL} {ALL}', f'100 0 {ALL} states witnesses'):
            yield Row('explore_outcomes', script, lines, limits, mode)
    # no state may be come to, the first choice, an end behind it, and both ends
    for states in (0, 1, 2, 3):
        yield Row('explore_outcomes', RACE, (), f'100 0 {states} states witnesses', spares=states == 0)
    # runs that are cut, of which each has all of its fuel
    for fuel in (0, 1, 9):
        yield Row('explore_outcomes', ENDLESS, (), f'{fuel} {ALL} {ALL} witnesses')
    yield Row('explore_outcomes', RACE, (), f'7 {ALL} {ALL} witnesses')
    # what was found of a state is told again, by a table of all, of one, and of none; and searches that stop
    for script, most in ((TWO_RACES, FEW), (THEN_A_RACE, EACH)):
        for kept in (ALL, 1, 0):
            yield Row('explore_outcomes', script, (), f'200 {kept} {ALL}', most=most)
            yield Row('explore_outcomes', script, (), f'200 {kept} {ALL} states witnesses', most=0)
        for states in (9, 8, 5):
            yield Row('explore_outcomes', script, (), f'200 0 {states} states witnesses', most=FEW)
        yield Row('explore_outcomes', script, (), f'12 {ALL} {ALL} witnesses', most=most)
    # searches that stop for an end, of some runs or of all, where none ends so
    for script in (MESSAGE, TWO_RACES, TRAPS, THEN_A_RACE):
        for goal in GOALS:
            for kept in (ALL, 0):
                yield Row('explore_outcomes', script, (), f'200 {kept} {ALL} witnesses {goal}', most=FEW)
    # a table that is full drops the half with the shortest runs
    for kept in (ALL, 21, 14, 7, 2):
        yield Row('explore_outcomes', GATHER, (), f'200 {kept} {ALL} states', most=0)
    yield Row('explore_outcomes', MANY_RACES, (), f'9999 {ALL} {ALL}', most=FEW)
    yield Row('explore_outcomes', MANY_RACES, (), f'9999 {ALL} {ALL} states', most=0)


def checks():
    for script, lines, mode in PLACES:
        if not lines:
            yield Row('check_outcomes', script, (), f'100 {ALL} {ALL}', mode)
            yield Row('check_outcomes', script, (), f'100 0 {ALL} states witnesses explain', mode)
    for beside in ('witnesses', 'explain', 'witnesses explain'):
        yield Row('check_outcomes', RACE, (), f'100 {ALL} {ALL} {beside}')
    for states in (0, 1, 2, 3):
        yield Row('check_outcomes', RACE, (), f'100 0 {states} states witnesses explain')
    yield Row('check_outcomes', ENDLESS, (), f'9 {ALL} {ALL} explain')
    for script in (TWO_RACES, THEN_A_RACE):
        for kept in (ALL, 1):
            yield Row('check_outcomes', script, (), f'200 {kept} {ALL} witnesses explain', most=FEW)
            yield Row('check_outcomes', script, (), f'200 {kept} {ALL} states', most=0)
        yield Row('check_outcomes', script, (), '200 0 8 states explain', most=FEW)
    yield Row('check_outcomes', MANY_RACES, (), f'9999 {ALL} {ALL} witnesses', most=FEW)
    for script, lines, mode in PLACES:
        if not lines:
            yield Row('check_mode_outcomes', script, (), f'100 0 {ALL} states', mode)
    for states in (0, 3):
        yield Row('check_mode_outcomes', RACE, (), f'100 0 {states} states')
    yield Row('check_mode_outcomes', ENDLESS, (), f'9 {ALL} {ALL}')
    yield Row('check_mode_outcomes', TWO_RACES, (), f'200 {ALL} {ALL}', most=FEW)


def diagnoses():
    for script, lines, mode in PLACES:
        if not lines:
            yield Row('diagnose', script, (), f'100 0 {ALL} {ALL} 8', mode, most=FEW)
            yield Row('diagnose', script, (), f'100 {ALL} {ALL} {ALL} 8', mode, most=0)
    # searches that stop, and a step that isn't known to decide, since no state may be come to
    for states in (0, 1, 2, 3):
        yield Row('diagnose', RACE, (), f'100 0 {states} {ALL} 8')
    yield Row('diagnose', RACE, (), f'100 0 {ALL} 0 8', most=FEW)
    # with a number of ranks in commands: that debug and draw a run, and that try other runs, or other modes
    yield Row('diagnose', RACE, (), f'100 0 {ALL} {ALL} 8 3', most=FEW)
    yield Row('diagnose', RACE, (), f'100 0 1 {ALL} 1 12', BUFFERED, most=FEW)
    yield Row('diagnose', GATHER, (), f'200 0 9 {ALL} 8 5', most=FEW)
    yield Row('diagnose', MESSAGE, (), f'100 0 {ALL} {ALL} 8 7', BUFFERED, most=FEW)
    for script in (TWO_RACES, THEN_A_RACE):
        for states in (9, 8, 5):
            yield Row('diagnose', script, (), f'200 0 {states} {ALL} 8', most=FEW)
        yield Row('diagnose', script, (), f'200 {ALL} {ALL} {ALL} 8', most=0)
    yield Row('diagnose', ENDLESS, (), f'9 0 {ALL} {ALL} 8')
    yield Row('diagnose', MANY_RACES, (), f'9999 {ALL} {ALL} {ALL} 8', most=0)
    # runs that are drawn behind a search that stops: of all, of some, and of one; by few steps, and with a step that isn't known to decide
    for script, states in ((RACE, 2), (WHICHEVER, 2), (TWO_RACES, 4), (THEN_A_RACE, 3), (GATHER, 9), (EACH_ANOTHER, 2), (EACH_ANOTHER, 1)):
        for drawn in (1, 4, 8):
            yield Row('diagnose', script, (), f'200 0 {states} {ALL} {drawn}', most=EACH if script == RACE else FEW)
    for drawn in (1, 4):
        yield Row('diagnose', RACE, (), f'8 0 2 {ALL} {drawn}', most=FEW)
        yield Row('diagnose', EACH_ANOTHER, (), f'200 0 2 0 {drawn}', most=FEW)
    yield Row('diagnose', EARLY_OR_LATE, (), f'200 0 2 {ALL} 4', 'slots:1', most=FEW)
    yield Row('diagnose', MANY_RACES, (), f'9999 0 5 {ALL} 1', most=0)


def sums():
    """Counts of runs, up to the most that are counted and beyond."""
    most, over = '18446744073709551615', 'at least 18446744073709551615'
    for counts, told in (('2 3', '5'), ('0 0', '0'), (f'{most} 0', most), (f'18446744073709551614 1', most), (f'1 {most}', over), (f'{most} {most}', over),
                         ('more 0', over), ('0 more', over), ('more more', over)):
        yield Row('Count::plus', argument=counts, by_hand=no_state(line(told)), spares=True)


# ---- what must be told

class Limits(NamedTuple):
    """The fuel, how many states are kept, and how many are come to."""
    fuel: int
    kept: int
    states: int


class Visits:
    """How many states are come to, choices and ends, those that come again counted too, by a search with a table."""

    def __init__(self, kept):
        self.most, self.kept, self.count = kept, {}, 0

    def behind(self, world, fuel):
        """How many steps the longest run has that goes on from a world, one more where it is cut."""
        steps = 0
        next_one = wide.wide_decision(world)
        while ending(next_one, fuel - steps) is None and isinstance(next_one, Forced):
            world, steps = next_world(world, next_one.step), steps + 1
            next_one = wide.wide_decision(world)
        self.count += 1
        outcome = ending(next_one, fuel - steps)
        if outcome is not None:
            return steps + states.ended(outcome).longest
        return steps + (yield from self.at_choice(world, fuel - steps, next_one.steps))

    def at_choice(self, world, fuel, steps):
        """The same at a choice, whose runs are not gone along again where they are told by the table."""
        place = states.key(world)
        if place in self.kept and states.serves(self.kept[place], fuel):
            return self.kept[place].told.longest
        longest = 0
        for step in steps:
            longest = max(longest, 1 + (yield self.behind(next_world(world, step), fuel - 1)))
        states.put(self.kept, self.most, place, states.Kept(fuel, states.Told({}, longest)))
        return longest


def visits_of(begun, kept):
    """How many states are come to in all."""
    visits = Visits(kept)
    states.answered(visits.behind(begun.world, begun.fuel))
    return visits.count


def come_to(leaves, most):
    """The first leaves of a walk that a search without a table comes to, which comes to so many choices and ends at most; and whether there are more."""
    choices, found = set(), []
    for leaf in leaves:
        choices.update(leaf.choices[:place] for place in range(len(leaf.choices)))
        if len(choices) + len(found) + 1 > most:
            return found, True
        found.append(leaf)
    return found, False


class Told(NamedTuple):
    """What is found, and how many states are come to."""
    found: states.Found
    states: int


def up_to(leaves, ends):
    """The leaves of a walk up to the first that ends in one of some ways, and whether there are more."""
    found = []
    for leaf in leaves:
        found.append(leaf)
        if leaf.outcome.split()[0] in ends:
            break
    return found, next(leaves, None) is not None


def told_of(begun, limits, row):
    """What must be found behind a run. A search that may leave runs out has no table, but where it stops for an end: then it isn't asked how many
    states it has come to."""
    for goal in filter(row.has, GOALS):
        leaves, more = up_to(iter(wide.wide_walk(begun.world, begun.fuel)), GOALS[goal])
        return Told(states.of_leaves(leaves, more), None)
    if limits.states == ALL:
        return Told(states.searched(begun, limits.kept), visits_of(begun, limits.kept))
    assert not limits.kept
    leaves, more = come_to(wide.wide_walk(begun.world, begun.fuel), limits.states)
    return Told(states.of_leaves(leaves, more), limits.states if more else visits_of(begun, 0))


def states_text(row, told):
    """How many states are come to, where that is asked for."""
    return line(f'states {told.states}') if row.has('states') else ''


def ways_explored(row):
    """The ways that runs end from where a debugger is. Its steps stand in front of a witness."""
    found, limits = walked(row), Limits(*row.numbers())
    begun = Run(found.world, limits.fuel)
    told = told_of(begun, limits, row)
    firsts = behind_steps(found, Report(tuple(run_by(begun, way.first, ends=True) for way in told.found.ways.values()), told.found.more))
    return unchanged(trail_text(found), ways_text(row, told, firsts) + states_text(row, told))


def ways_text(row, told, firsts):
    """A line of each way, and of its witness where there is one and it is asked for; and the last line."""
    text = ''
    for number, (leaf, way) in enumerate(zip(firsts.leaves, told.found.ways.values())):
        head, *behind = leaf_lines(number, leaf, row.has('witnesses'))
        head = head.replace(f'leaf {number} ', f'outcome {number} runs {outcomes.count_text(way.runs)} first ')
        text += ''.join(map(line, [head, *behind]))
    runs, more = outcomes.count_text(outcomes.total(told.found)), 'yes' if told.found.more else 'no'
    return text + line(f'outcomes {len(told.found.ways)} runs {runs} more {more}')


def answered_of(row, limits, text_of):
    """What is answered, and a text of what must be found from the start of a script, and of the first run of each way."""
    begun = Run(walked(row).world, limits.fuel)
    told = told_of(begun, limits, row)
    firsts = Report(tuple(run_by(begun, way.first, ends=True) for way in told.found.ways.values()), told.found.more)
    return no_state(tally_text(row, firsts, is_wide=True) + states_text(row, told), text_of(told.found, firsts))


def ways_written(row):
    """What is written of the ways that a script ends."""
    limits = Limits(*row.numbers())
    asked = outcomes.Outcomes('row', row.script.encode(), row.mode, limits.fuel, limits.kept, row.has('witnesses'), row.has('explain'))
    return answered_of(row, limits, lambda found, _: outcomes.text_of(asked, found))


def mode_ways_written(row):
    """A line of what they tell in the mode of a row."""
    return answered_of(row, Limits(*row.numbers()), lambda _, firsts: line(f'{row.mode} {counted(firsts)[0].replace("leaves", "outcomes")}'))


def told_of_script(row):
    """Whether a script can hang or trap, and the status without and with `--strict`."""
    limits, ranks = diagnosed.Limits(*row.numbers()[:5]), next(iter(row.numbers()[5:]), None)
    asked = diagnosed.Diagnosis('row', row.script.encode(), row.mode, False, 'script.mpd', limits, ranks)
    told, strict = diagnosed.answer(asked), diagnosed.answer(asked._replace(strict=True))
    return no_state(told.output.decode() + line(f'status {told.status}, strict {strict.status}'))


OUTCOMES = {'explore_outcomes': ways_explored, 'check_outcomes': ways_written, 'check_mode_outcomes': mode_ways_written,
            'diagnose': told_of_script, 'Count::plus': by_hand}
