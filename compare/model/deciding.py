"""The step that decides that a run ends in a deadlock or with a trap, in the model: what a line of `check --outcomes --explain` tells, and the word
`blame` of the console.

A run *ends well* if it ends `done`, or with `leftovers`. A state of a run is *doomed* if every leaf of the wide walk from it, with the steps that
are left, is a deadlock or a trap. The step that decides is the one that the run takes from its last state that isn't doomed, if from there some
leaf ends well; what could be done in its place is the first step of the first run that does. If no leaf from there was found that ends well, since
some are cut or were not come to, only that is known: it was decided there or earlier. If each state is doomed, it was decided from the start.

By definition the leaves of a state are listed one after another (`by_leaves`). The search of states.py finds the same (`by_search`).
compare/rows/worked_decided.py has rows of it, and compare/runs/outcomes.py compares it with all interleavings of small scripts.
"""

from typing import NamedTuple, Optional

from model import explaining, walks, wide
from model.console_lines import is_told, request_of
from model.debugger import find_call, last_call
from model.explaining import call_text, next_line
from model.policy import Forced
from model.states import answered, word_of
from model.walks import CUT

ENDS_WELL = 'done', 'leftovers'
NOT_COUNTED = 'not all runs from there were counted'
NOT_KNOWN = f'not known: {NOT_COUNTED}'
FROM_START, NOT_DECIDED = 'decided from the start: every run hangs or traps', 'not decided: not every run hangs or traps'
STILL_WELL = 'it need not hang or trap'


# ---- what is ahead of a state

class Ahead(NamedTuple):
    """What was found of the runs from a state: the choices of the first that ends well, None if none does of those that were found, and whether
    each run was found to its end."""
    well: Optional[tuple]
    is_whole: bool


def ends_well(outcome):
    return word_of(outcome) in ENDS_WELL


def by_leaves(leaves):
    """What is ahead, by definition: by all leaves from a state."""
    leaves = list(leaves)
    return Ahead(next((leaf.choices for leaf in leaves if ends_well(leaf.outcome)), None), all(leaf.outcome != CUT for leaf in leaves))


def by_ways(ways, left_out):
    """What is ahead by the way of each outcome, in the order of the first run of each, and whether runs were left out."""
    return Ahead(next((way.first for outcome, way in ways.items() if ends_well(outcome)), None), not left_out and CUT not in ways)


def is_doomed(ahead):
    """Whether every run ends in a deadlock or with a trap."""
    return ahead.well is None and ahead.is_whole


def by_search(search):
    """What tells what is ahead of each state of a run, by one search for all of them."""
    def look(world, fuel):
        told = answered(search.behind(world, fuel))
        return by_ways(told.ways, search.left_out)
    return look


# ---- what decides

def worlds_along(world, steps):
    """The states of a run from one on, by its steps."""
    found = [world]
    for step in steps:
        found.append(walks.next_world(found[-1], step))
    return found


class Last(NamedTuple):
    """The last state of a run that isn't doomed: how many steps stand before it, and what is ahead."""
    depth: int
    ahead: Ahead


def last_not_doomed(worlds, fuel, look):
    """The last state that isn't doomed of a run, by its states from the start to its end, and how many steps there are from the start; None if
    each is doomed."""
    for depth in reversed(range(len(worlds))):
        ahead = look(worlds[depth], fuel - depth)
        if not is_doomed(ahead):
            return Last(depth, ahead)
    return None


def step_towards(world, choices):
    """The first step of the run with some choices along the wide walk."""
    decided = wide.wide_decision(world)
    return decided.step if isinstance(decided, Forced) else decided.steps[choices[0]]


# ---- in words

def message(at, send_id):
    """The rank of a send, and its line, value and tag."""
    send = find_call(at.world, send_id)
    return f'rank {send_id.rank} (line {at.lines[send_id]}, value {send.value}, tag {send.tag})'


def told_step(at, step):
    """A step in words, on the state before it."""
    if step.kind == 'release':
        return 'all ranks leave the barrier'
    if step.kind == 'match':
        return f'rank {step.second.rank}, line {at.lines[step.second]}, takes the message of {message(at, step.first)}'
    rank = at.world.ranks[step.first]
    line = next_line(rank) if step.kind == 'local' else at.lines[last_call(at.world, step.first)]
    going = f'rank {step.first}, line {line}, goes on'
    if is_told(at.world, step):
        # (reading: a step from a probe is told as what it is told of; nothing is said of it elsewhere)
        return f'rank {step.first}, line {line}, is told of the message of {message(at, request_of(at.world, step))}'
    return f'{going} by {call_text(at, request_of(at.world, step))}' if step.kind == 'wakeany' else going


def in_its_place(at, step, other):
    """What could be done in the place of a step."""
    if step.kind == other.kind == 'match' and step.second == other.second:
        return f'with that of {message(at, other.first)}'
    return f'if {told_step(at, other)} instead,'


def line_of(script, mode, steps, last):
    """What is told of the run that takes some steps from the start, by its last state that isn't doomed, which may be its end."""
    if last is None:
        return FROM_START
    if last.ahead.well is None:
        return NOT_KNOWN if last.depth == len(steps) else f'decided at depth {last.depth} or earlier: {NOT_COUNTED}'
    if last.depth == len(steps):
        return NOT_DECIDED
    at, step = explaining.reached(script, mode, steps[:last.depth]), steps[last.depth]
    return f'decided at depth {last.depth}: {told_step(at, step)}; {in_its_place(at, step, step_towards(at.world, last.ahead.well))} {STILL_WELL}'
