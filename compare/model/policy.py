"""What a debugger does by itself, in the model: the decision of a world, breakpoints, and runs forward and back along decisions.

No trace word tells of it. compare/runs/worked.py has rows of it, compare/runs/follow.py checks on walks what must hold of it.
"""

import operator
from typing import NamedTuple, Optional

from model import debugger
from model.debugger import Step, enabled_steps, find_call, next_world, outcome

MOST_BREAKS = 64
LEAF, CHOICE, FULL, MAX, BREAK, START = 'leaf', 'choice', 'full', 'max', 'break', 'start'


class Forced(NamedTuple):
    """The one step that a run takes."""
    step: Step


class Choice(NamedTuple):
    """The matches, or the wakes of one rank, that somebody has to choose among, in the order of `enabled`; there may be one alone."""
    steps: tuple


class Leaf(NamedTuple):
    """No step is enabled: how the run ended."""
    outcome: str


def first_of_kind(steps, kind):
    return next((step for step in steps if step.kind == kind), None)


def names_source(world, match):
    """Whether the receive of a match says which rank it takes messages from."""
    return find_call(world, match.second).other is not None


def decision(world):
    """What a run does in a world.

    The first of these that is there: the local step of the lowest rank, the release, the wake of the lowest rank, the match of a
    receive that names its source, first by receiver and number; else a choice among the wakes of the lowest rank that goes on by any of
    some handles, or from a probe of any source, else one among all matches that are left, else a leaf.
    """
    steps = enabled_steps(world)
    for kind in ('local', 'release', 'wake'):
        if (step := first_of_kind(steps, kind)) is not None:
            return Forced(step)
    matches = [step for step in steps if step.kind == 'match']
    named = [step for step in matches if names_source(world, step)]
    if named:
        return Forced(named[0])
    if (lowest := first_of_kind(steps, 'wakeany')) is not None:
        return Choice(tuple(step for step in steps if step.kind == 'wakeany' and step.first == lowest.first))
    return Choice(tuple(steps)) if steps else Leaf(outcome(world))


def settled(decided):
    """A decision where a choice of a single candidate is that step, as a forced one is."""
    return Forced(decided.steps[0]) if isinstance(decided, Choice) and len(decided.steps) == 1 else decided


# What each operator of a condition asks of a value and a number.
COMPARISONS = {
    '==': operator.eq, '!=': operator.ne, '<': operator.lt, '<=': operator.le, '>': operator.gt, '>=': operator.ge}


class Condition(NamedTuple):
    """What a cell of the rank that comes to a line must be beside a number."""
    cell: int
    operator: str
    value: int


class LineBreak(NamedTuple):
    """A rank, or this one, comes to a statement of a line, or all ranks leave a barrier and one of them does; and the condition holds of it."""
    line: int
    rank: Optional[int] = None
    condition: Optional[Condition] = None


class ChangeBreak(NamedTuple):
    """A cell of a rank gets another value."""
    rank: int
    cell: int


class HandleBreak(NamedTuple):
    """A handle of a rank gets another call, or gets one, or has none any more."""
    rank: int
    handle: int


class MatchBreak(NamedTuple):
    """A call that a statement of a line made is matched, or such a call of this rank."""
    line: int
    rank: Optional[int] = None


class RankBreak(NamedTuple):
    """A rank takes a step, or goes on, and isn't blocked then."""
    rank: int


def is_at_line(rank, line):
    """Whether a rank is running, and its next statement begins on a line."""
    return debugger.can_run(rank) and rank.rest[0].line == line


def moved_by(after, step):
    """The numbers of the ranks that a step moves: a match moves none, and a release all."""
    if step.kind == 'match':
        return []
    return range(len(after.ranks)) if step.kind == 'release' else [step.first]


def holds(condition, rank):
    """Whether a condition holds of a rank; of a cell that isn't there none does."""
    if condition is None:
        return True
    return condition.cell < len(rank.cells) and COMPARISONS[condition.operator](rank.cells[condition.cell], condition.value)


def comes_to_line(after, step, stop):
    """Whether a step leads to a world in which a rank that it moved is at the line of a breakpoint, is the one that is meant, and fits."""
    return any(
        is_at_line(after.ranks[number], stop.line) and stop.rank in (None, number) and holds(stop.condition, after.ranks[number])
        for number in moved_by(after, step))


def lets_go_on(after, step, number):
    """Whether a step moves a rank, which isn't blocked then."""
    return number in moved_by(after, step) and after.ranks[number].mode != 'blocked'


def cell_in(world, number, cell):
    """What a cell holds; None where it isn't there."""
    if number >= len(world.ranks) or cell >= len(world.ranks[number].cells):
        return None
    return world.ranks[number].cells[cell]


def handle_in(world, number, handle):
    """What a handle holds; None where it holds nothing, or isn't there."""
    if number >= len(world.ranks) or handle >= len(world.ranks[number].handles):
        return None
    return world.ranks[number].handles[handle]


def matches_line(world, step, stop):
    """Whether a step is a match of a call that a statement of the line of a breakpoint made, on the rank that is meant."""
    if step.kind != 'match':
        return False
    return any(find_call(world, call).line == stop.line and stop.rank in (None, call.rank) for call in (step.first, step.second))


def is_hit(stop, world, step):
    """Whether a step that is enabled in a world hits a breakpoint."""
    after = next_world(world, step)
    if isinstance(stop, LineBreak):
        return comes_to_line(after, step, stop)
    if isinstance(stop, RankBreak):
        return lets_go_on(after, step, stop.rank)
    if isinstance(stop, ChangeBreak):
        return cell_in(world, stop.rank, stop.cell) != cell_in(after, stop.rank, stop.cell)
    if isinstance(stop, HandleBreak):
        return handle_in(world, stop.rank, stop.handle) != handle_in(after, stop.rank, stop.handle)
    return matches_line(world, step, stop)


class Breaks:
    """Breakpoints in numbered places, 64 of them."""

    def __init__(self):
        self.places = [None] * MOST_BREAKS

    def add(self, stop):
        """Puts a breakpoint into the lowest free place; gives its number, or None where no place is free."""
        for number, there in enumerate(self.places):
            if there is None:
                self.places[number] = stop
                return number
        return None

    def remove(self, number):
        """Frees a place; whether there was a breakpoint in it."""
        if self.get(number) is None:
            return False
        self.places[number] = None
        return True

    def get(self, number):
        """The breakpoint of a place, or None."""
        return self.places[number] if number < len(self.places) else None

    def lowest_hit(self, world, step):
        """The lowest number of a breakpoint that a step hits, or None."""
        found = (number for number, stop in enumerate(self.places) if stop is not None and is_hit(stop, world, step))
        return next(found, None)


class Stop(NamedTuple):
    """Where a run stopped: how many steps it made or took back, why, and by which breakpoint where it is one."""
    steps: int
    cause: str
    number: Optional[int] = None


def standstill(walked, decided, made, most):
    """Why a run stops before its next step; None where it goes on."""
    if isinstance(decided, Leaf):
        return LEAF
    if isinstance(decided, Choice):
        return CHOICE
    if walked.depth == debugger.MOST_STEPS:
        return FULL
    return MAX if made == most else None


def run(walked, breaks, most):
    """Follows forced steps up to a breakpoint, a leaf, a choice, the last depth, or so many steps."""
    return follow(walked, breaks, most, decision)


def run_on(walked, breaks, most):
    """The same, but for choices of a single candidate, which it takes as if it were forced."""
    return follow(walked, breaks, most, lambda world: settled(decision(world)))


def follow(walked, breaks, most, decide):
    """Follows what is forced, by what decides in a world."""
    made = 0
    while True:
        decided = decide(walked.world)
        cause = standstill(walked, decided, made, most)
        if cause is not None:
            return Stop(made, cause)
        world = walked.world
        walked.take(decided.step)
        made += 1
        number = breaks.lowest_hit(world, decided.step)
        if number is not None:
            return Stop(made, BREAK, number)


def last_hit(walked, breaks):
    """The lowest number of a breakpoint that the last step hits, or None, also where no step is taken."""
    depth = walked.depth
    return breaks.lowest_hit(walked.worlds[depth - 1], walked.steps[depth - 1]) if depth else None


def run_back(walked, breaks):
    """Takes steps back up to the last one that hits a breakpoint, which it takes back too, or to the start."""
    made = 0
    while walked.depth:
        step = walked.steps[walked.depth - 1]
        walked.back()
        made += 1
        number = breaks.lowest_hit(walked.world, step)
        if number is not None:
            return Stop(made, BREAK, number)
    return Stop(made, START)
