"""The data of a page, in the model: the states of some runs as a tree, each by what changed from the one before, as docs/PAGES.md says.

It was written from that page, over the debugger and the explanations of the model. compare/runs/pages.py compares pages with it.
"""

import json
import re
from typing import NamedTuple

from model import deciding, explaining, marks, order
from model.console_lines import has_ended, lost_lines, requests, source_lines
from model.debugger import (MOST_STEPS, buffer_text, call_word, enabled_steps, find_call, first_world, is_at_barrier, is_done, last_call, next_world,
                            outcome)
from model.diagnosed import Counting, mode_of
from model.explaining import Reached, next_line
from model.policy import Choice, Forced, decision
from model.walks import Leaf
from model.wide import wide_decision
from model.worlds import CallId

FORMAT = 'mpdbg page 2'
DECISIONS, WIDE, WORDS = 'decisions', 'wide', 'words'
CUT, DEADLOCK = 'cut', 'deadlock'
BAD = 'deadlock', 'trap'
# The limits of the searches for the step that decides: steps behind a run, states that each keeps, and states that all of a page come to.
MOST_FUEL, MOST_KEPT, MOST_STATES = 100000, 1000000, 100000


# ---- views

class View(NamedTuple):
    """What is shown of a state: of each rank its place, its cells, its handles, what it has printed, its calls, and why it waits."""
    places: tuple
    values: tuple
    handles: tuple
    printed: tuple
    calls: tuple
    why: tuple


def blank(script):
    """What the first state is told against."""
    count = script.ranks
    return View(((0,),) * count, (('0',) * script.cells,) * count, ((None,) * script.handles,) * count, ((),) * count, ((),) * count, (None,) * count)


def id_of(call_id):
    """A call as its rank and its number there."""
    return list(call_id)


def step_value(step):
    """A step as its word, and the ranks or calls that it is about."""
    return [step.kind, *(id_of(part) if isinstance(part, CallId) else part for part in step[1:] if part is not None)]


def place_of(at, number):
    """The line where a rank stands, and what it is doing where it can't run: of one that is trapped, why."""
    rank = at.world.ranks[number]
    if rank.mode == 'blocked':
        return at.lines[last_call(at.world, number)], 'blocked'
    if rank.mode == 'trapped':
        return next_line(rank), 'trapped', rank.trap
    return (0, 'ended') if has_ended(rank) else (next_line(rank),)


def entry(world, call_id):
    """A send or a receive that is waited for, with what it could be matched with."""
    if is_done(world, call_id):
        return {'call': id_of(call_id), 'complete': True}
    fits = [[id_of(other), *([] if held is None else [id_of(held)])] for other, held in order.why(world, call_id)]
    return {'call': id_of(call_id), **({'fits': fits} if fits else {})}


def why_of(world, number):
    """Why a rank waits; None where it doesn't."""
    rank = world.ranks[number]
    if rank.mode != 'blocked':
        return None
    if is_at_barrier(rank):
        return {'absent': [other for other, one in enumerate(world.ranks) if not is_at_barrier(one)]}
    own = last_call(world, number)
    calls = [own] if find_call(world, own).kind in ('send', 'recv') else requests(world, own)
    return [entry(world, call_id) for call_id in calls]


def fields_of(mode, call):
    """What a call is, by its fields; what is None may be anything, or isn't there."""
    if call.kind == 'send':
        return {'kind': call_word(call), 'to': call.other, 'tag': call.tag, 'value': str(call.value), 'buffered': bool(buffer_text(mode, call)) or None}
    if call.kind == 'recv':
        return {'kind': call_word(call), 'from': call.other, 'tag': call.tag}
    if call.kind == 'wait':
        return {'kind': 'wait', 'for': call.target}
    if call.kind == 'waitany':
        return {'kind': 'waitany', 'first': call.first, 'count': call.count, 'none': None if call.active else True}
    return {'kind': 'barrier'}


def without_none(fields):
    return {key: value for key, value in fields.items() if value is not None}


def call_of(at, call_id):
    """A call: its line, and what it is."""
    return without_none({'line': at.lines[call_id], **fields_of(at.world.mode, find_call(at.world, call_id))})


def view_of(at):
    """What is shown where steps lead."""
    ranks = range(len(at.world.ranks))
    of_each = at.world.ranks
    return View(tuple(place_of(at, number) for number in ranks), tuple(tuple(map(str, rank.cells)) for rank in of_each),
                tuple(tuple(rank.handles) for rank in of_each), tuple(tuple(map(str, rank.printed)) for rank in of_each),
                tuple(tuple(call_of(at, CallId(number, place)) for place in range(len(of_each[number].calls))) for number in ranks),
                tuple(why_of(at.world, number) for number in ranks))


def candidates(world, walk):
    """The candidates, where there is a choice; None elsewhere."""
    decided = wide_decision(world) if walk == WIDE else decision(world)
    return [step_value(step) for step in decided.steps] if isinstance(decided, Choice) else None


# ---- changes

def others(now, before):
    """The cells of each rank that hold something else."""
    return [[rank, cell, value] for rank, cells in enumerate(now) for cell, value in enumerate(cells) if value != before[rank][cell]]


def changes(before, view):
    """What changed from a view to the next one: that of its keys which stands before the candidates, and that behind them."""
    ranks = range(len(view.places))
    issued = [call for rank in ranks for call in view.calls[rank][len(before.calls[rank]):]]
    places = [[rank, *view.places[rank]] for rank in ranks if view.places[rank] != before.places[rank]]
    printed = [[rank, value] for rank in ranks for value in view.printed[rank][len(before.printed[rank]):]]
    first = {'d': places, 'v': others(view.values, before.values), 'h': others(view.handles, before.handles), 'o': printed,
             'c': issued[0] if issued else None}
    return first, {'w': [[rank, view.why[rank]] for rank in ranks if view.why[rank] != before.why[rank]]}


def behind(at, step):
    """Where a step leads."""
    world = next_world(at.world, step)
    has_called = step.kind == 'local' and len(world.ranks[step.first].calls) > len(at.world.ranks[step.first].calls)
    lines = at.lines | {last_call(world, step.first): next_line(at.world.ranks[step.first])} if has_called else at.lines
    return Reached(world, lines)


class Tree:
    """The states of some runs."""

    def __init__(self, script, mode, walk):
        self.script, self.mode, self.walk = script, mode, walk
        self.at, self.nodes, self.below = [Reached(first_world(script, mode), {})], [], {}
        self.add(None, None, {}, blank(script), self.at[0])

    def add(self, parent, step, number, before, at):
        first, last = changes(before, view_of(at))
        parted = {} if parent is None or parent == len(self.nodes) - 1 else {'p': parent}
        self.nodes.append({**parted, 's': step and step_value(step), **number, **first, 'k': None, **last})

    def follow(self, steps):
        """Adds a run; gives the state in which it ends."""
        node = 0
        for step in steps:
            at, value = self.at[node], step_value(step)
            found = self.nodes[node]['k'] = candidates(at.world, self.walk)
            if (node, step) not in self.below:
                number = {'n': found.index(value)} if found and value in found else {}
                reached = behind(at, step)
                self.add(node, step, number, view_of(at), reached)
                self.at.append(reached)
                self.below[node, step] = len(self.nodes) - 1
            node = self.below[node, step]
        return node


# ---- ends

def is_only(world, step):
    """Whether this step is all that can come next along the wide walk."""
    decided = wide_decision(world)
    return (decided.step == step) if isinstance(decided, Forced) else isinstance(decided, Choice) and list(decided.steps) == [step]


def last_not_doomed(script, mode, steps, most):
    """The last state of a run that isn't known to be doomed; None if each is. It goes back along the run, and looks from each state for a run that ends
    well, where another step could be taken; all these searches come to so many states at most."""
    fuel, worlds = min(len(steps) + MOST_FUEL, MOST_STEPS), deciding.worlds_along(first_world(script, mode), steps)
    for depth in reversed(range(len(worlds))):
        if depth == len(steps) or not is_only(worlds[depth], steps[depth]):
            search = Counting(MOST_KEPT, most, deciding.ENDS_WELL)
            ahead = deciding.by_search(search)(worlds[depth], fuel - depth)
            if not deciding.is_doomed(ahead):
                return deciding.Last(depth, ahead)
            most -= search.counted
    return None


def decided_by(script, mode, steps, most):
    """The depth at which a run was decided that hangs or traps, and what is told of it, by searches that come to so many states at most. The depth is
    None if it isn't known."""
    line = deciding.line_of(script, mode, steps, last_not_doomed(script, mode, steps, most))
    found = re.match(r'decided at depth (\d+): ', line)
    return {'depth': int(found[1]) if found else None, 'said': line}


def waits_of(world):
    """Which rank waits for which other, and whether that one has ended."""
    return [{'rank': number, 'for': other, 'ended': has_ended(world.ranks[other])}
            for number, rank in enumerate(world.ranks) if rank.mode == 'blocked' for other in explaining.waited_for(world, number)]


def end_of(tree, node, steps, most):
    """What is told where a run ends; the step that decides is looked for in so many states at most."""
    at = tree.at[node]
    ended = CUT if enabled_steps(at.world) else outcome(at.world)
    told = [] if ended == CUT else list(explaining.explanation(tree.script, tree.mode, Leaf((), steps, ended)))
    lost = [] if ended == CUT else [line for number in range(tree.script.ranks) for line in lost_lines(at, number)]
    decided = decided_by(tree.script, tree.mode, steps, most) if ended.split()[0] in BAD else None
    word = str(ended).split()[0]
    waits = waits_of(at.world) if word == DEADLOCK else None
    return {'node': node, 'ends': word, 'outcome': str(ended), 'told': told or None, 'waits': waits, 'lost': lost or None, 'decided': decided}


def with_places(text, end):
    """What is told where a run ends, with the places of marks beside lines of the script."""
    decided = end['decided'] and {**end['decided'], 'said': marks.all_marked(text, [end['decided']['said']])[0]}
    return {**end, **{key: end[key] and marks.all_marked(text, end[key]) for key in ('told', 'lost')}, 'decided': decided}


# ---- the data

def plain(value):
    """A value as JSON has it: tuples are lists, and an object has no key of which there is nothing to tell."""
    if isinstance(value, (list, tuple)):
        return [plain(one) for one in value]
    return {key: plain(one) for key, one in value.items()} if isinstance(value, dict) else value


def told_alone(node):
    """What a node tells, without what it has nothing of."""
    return {key: plain(value) for key, value in node.items() if value is not None and value != []}


def text_of(value):
    """A value on one line, without blanks; the keys of an object stand in the order of their letters."""
    return json.dumps(value, ensure_ascii=False, separators=(',', ':'), sort_keys=True)


def data_text(data):
    """The data of a page, as text: each state and each end has a line of its own, and no `<` stands in it."""
    lists = [f'"{key}":[' + ','.join('\n' + text_of(one) for one in data[key]) + '\n]' for key in ('nodes', 'ends')]
    return ('{"run":' + text_of(data['run']) + ',\n' + ',\n'.join(lists) + '}').replace('<', '\\u003c').encode()


class Asked(NamedTuple):
    """What a page is made of: a script, a mode, along which walk choices are told, the steps of its runs, and what is told of all."""
    text: bytes
    script: object
    mode: str
    walk: str
    runs: tuple
    name: str
    hide: bool = False
    note: str = ''
    said: tuple = ()
    more: bool = True
    most: int = MOST_STATES


def declared(script, kind):
    return [[name, one.size] for name, one in script.names.items() if one.kind == kind]


def share(asked):
    """How many states the searches for the step that decides one of its runs come to at most: all runs have equal parts."""
    return asked.most // len(asked.runs)


def data_of(asked):
    """The data of a page."""
    tree = Tree(asked.script, asked.mode, asked.walk)
    ends = [with_places(asked.text, end_of(tree, tree.follow(steps), steps, share(asked))) for steps in asked.runs]
    head = {'format': FORMAT, 'name': asked.name, 'mode': mode_of(asked), 'ranks': asked.script.ranks, 'walk': asked.walk, 'hide': asked.hide,
            'note': asked.note, 'said': list(asked.said), 'script': list(source_lines(asked.text)),
            'vars': declared(asked.script, 'var'), 'handles': declared(asked.script, 'req'), 'more': asked.more}
    return {'run': head, 'nodes': [told_alone(node) for node in tree.nodes], 'ends': [told_alone(end) for end in ends]}
