"""Faults of the step that decides, as the console's model goes to it (console_faults.py): which runs it looks at, where it goes, and what it tells."""

from inspect import isfunction
from itertools import islice

from faults.policy_faults import Breakage
from model import console, debugger, deciding, policy, walks, wide
from model.console import Console
from model.deciding import Last
from model.policy import Choice, Forced
from model.walks import CUT

SOUND = {name: value for name, value in vars(Console).items() if isfunction(value)}
BY_WAYS, LINE_OF, WORD_FOR = deciding.by_ways, deciding.line_of, console.word_for
# So many runs are listed at most.
SOME = 200


def moved(steps):
    """What goes so many steps on behind the state that it tells of, as far as there are some."""
    def blame(self):
        told = SOUND['blame'](self)
        depth = self.debugger.depth + steps
        return [*told[:2], *self.goto(depth)] if len(told) > 1 and 0 <= depth <= len(self.debugger.steps) else told
    return blame


def stays(self):
    """What goes nowhere."""
    depth = self.debugger.depth
    told = SOUND['blame'](self)
    if len(told) > 1:
        self.goto(depth)
        return [*told[:2], *self.depth_lines()]
    return told


def dropped(self):
    """What drops the steps ahead."""
    told = SOUND['blame'](self)
    del self.debugger.steps[self.debugger.depth:]
    return told


def taken_alone(self):
    """What looks at the steps that are taken alone."""
    ahead = list(self.ahead)
    del self.debugger.steps[self.debugger.depth:]
    told = SOUND['blame'](self)
    self.debugger.steps += ahead
    return told


def back_alone(self):
    """What goes back alone, as if no step lay ahead of where it stands."""
    depth = self.debugger.depth
    told = SOUND['blame'](self)
    if self.debugger.depth > depth:
        self.goto(depth)
        return told[:2]
    return told


def goes_to_end(self):
    """What goes to the end of the run where it isn't decided."""
    told = SOUND['blame'](self)
    return [told[0], *self.goto(len(self.debugger.steps))] if told[0] == deciding.NOT_DECIDED else told


def goes_to_start(self):
    """What goes to the start where it was decided from there."""
    told = SOUND['blame'](self)
    return [told[0], *self.goto(0)] if told[0] == deciding.FROM_START else told


def by_fuel(fuel_of):
    """What gives the runs other fuel, by the console."""
    def last_not_doomed(self, search):
        worlds = deciding.worlds_along(self.debugger.worlds[0], self.debugger.steps)
        return deciding.last_not_doomed(worlds, fuel_of(self), deciding.by_search(search))
    return last_not_doomed


def from_here(self, search):
    """What looks no further back than to where it stands."""
    found = SOUND['last_not_doomed'](self, search)
    return None if found is not None and found.depth < self.debugger.depth else found


def along_decisions(self, search):
    """What looks at the runs along decisions from each state, as far as these are few."""
    found = SOUND['last_not_doomed'](self, search)
    if search.come_to > SOME:
        return found
    worlds = deciding.worlds_along(self.debugger.worlds[0], self.debugger.steps)
    for depth in reversed(range(len(worlds))):
        ahead = deciding.by_leaves(islice(walks.walk(worlds[depth], self.fuel()), SOME))
        if not deciding.is_doomed(ahead):
            return found if found is not None and found.depth == depth else Last(depth, deciding.Ahead(None, False))
    return None


def state_faults():
    """Those of which runs it looks at."""
    return [Breakage(f'blame: {name}', owner, attribute, replacement) for name, owner, attribute, replacement in (
        ('leftovers end badly', deciding, 'ENDS_WELL', ('done',)), ('traps end well', deciding, 'ENDS_WELL', ('done', 'leftovers', 'trap')),
        ('deadlocks end well', deciding, 'ENDS_WELL', ('done', 'leftovers', 'deadlock')),
        ('runs that are cut end well', deciding, 'ENDS_WELL', ('done', 'leftovers', CUT)),
        ('runs that are cut end badly', deciding, 'by_ways', lambda ways, left_out: BY_WAYS({
            outcome: way for outcome, way in ways.items() if outcome != CUT}, left_out)),
        ('as many steps as the run has', Console, 'last_not_doomed', by_fuel(lambda self: len(self.debugger.steps))),
        ('a step less', Console, 'last_not_doomed', by_fuel(lambda self: min(len(self.debugger.steps) + console.MOST_FUEL, debugger.MOST_STEPS) - 1)),
        ('more steps than are kept', Console, 'last_not_doomed', by_fuel(lambda self: len(self.debugger.steps) + console.MOST_FUEL)),
        ('no further back than here', Console, 'last_not_doomed', from_here), ('along decisions', Console, 'last_not_doomed', along_decisions),
        ('the steps that are taken alone', Console, 'blame', taken_alone))]


def place_faults():
    """Those of where it goes, and of what is told."""
    blames = (('one step behind', moved(1)), ('one step before', moved(-1)), ('stays where it is', stays), ('the steps ahead are dropped', dropped),
              ('back alone', back_alone), ('to the end where it is not decided', goes_to_end), ('to the start where it was decided from there', goes_to_start),
              ('not where it stands', lambda self: SOUND['blame'](self)[:3]), ('no depth', lambda self: (
                  told[:2] + told[3:] if len(told := SOUND['blame'](self)) > 1 else told)),
              ('as an explanation', lambda self: [f'  {line}' if place == 0 else line for place, line in enumerate(SOUND['blame'](self))]),
              ('last of all', lambda self: [*(told := SOUND['blame'](self))[1:], told[0]]))
    return ([Breakage(f'blame: {name}', Console, 'blame', replacement) for name, replacement in blames]
            + [Breakage('blame: what happened on the way before the depth', console, 'LINES_FIRST', {}),
               Breakage('blame: it is not decided where nothing is known', deciding, 'line_of', lambda script, mode, steps, last: (
                   deciding.NOT_DECIDED if last is not None and last.depth == len(steps) else LINE_OF(script, mode, steps, last))),
               Breakage('blame: lines that are not cut', console, 'UNFOLDED', console.UNFOLDED | {'blame'})])


def by_its_word(world, step):
    """What names the trace word, also where candidates are listed."""
    return debugger.step_text(step)


def of_all_listed(world, step):
    """What counts a single candidate as a choice, too, or a step that is forced."""
    decided = policy.decision(world)
    listed = decided.steps if isinstance(decided, Choice) else [decided.step] if isinstance(decided, Forced) else []
    return f'next {list(listed).index(step) + 1}' if step in listed else debugger.step_text(step)


def of_wide_walk(world, step):
    """What numbers the candidates of the wide walk."""
    decided = wide.wide_decision(world)
    listed = decided.steps if isinstance(decided, Choice) else ()
    return f'next {list(listed).index(step) + 1}' if step in listed else debugger.step_text(step)


def from_zero(world, step):
    """What counts candidates from 0."""
    said = WORD_FOR(world, step)
    return f'next {int(said.removeprefix("next ")) - 1}' if said.startswith('next ') else said


def of_the_one_taken(self, last):
    """What names the step that was taken."""
    world = deciding.worlds_along(self.debugger.worlds[0], self.debugger.steps[:last.depth])[-1]
    return f'to try that: {WORD_FOR(world, self.debugger.steps[last.depth])}'


def of_where_it_stood(self, last):
    """What looks for candidates where it stood before."""
    world = deciding.worlds_along(self.debugger.worlds[0], self.debugger.steps[:last.depth])[-1]
    return f'to try that: {WORD_FOR(self.world, deciding.step_towards(world, last.ahead.well))}'


def way_faults():
    """Those of how another way is taken."""
    return ([Breakage(f'blame: {name}', console, 'word_for', replacement) for name, replacement in (
                ('its trace word at a choice', by_its_word), ('a step that comes next by its number', of_all_listed),
                ('the number of the wide walk', of_wide_walk), ('candidates from 0', from_zero))]
            + [Breakage(f'blame: {name}', Console, 'way_line', replacement) for name, replacement in (
                ('how to take what was taken', of_the_one_taken), ('as candidates are listed where it stood', of_where_it_stood))]
            + [Breakage('blame: no other way', Console, 'blame', lambda self: (
                told[:1] + told[2:] if len(told := SOUND['blame'](self)) > 1 else told)),
               Breakage('blame: the other way first', Console, 'blame', lambda self: (
                   [told[1], told[0], *told[2:]] if len(told := SOUND['blame'](self)) > 1 else told)),
               Breakage('blame: the other way where it stands', Console, 'blame', lambda self: (
                   [told[0], *told[2:], told[1]] if len(told := SOUND['blame'](self)) > 1 else told))])


def blame_faults():
    return [*state_faults(), *place_faults(), *way_faults()]
