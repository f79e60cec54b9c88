"""Explanations of deadlocks, traps and leftovers, in the model: what `check --explain` tells below the line of a leaf.

compare/rows/worked_explained.py has rows of it, and compare/runs/explained.py compares a program with it.
"""

from typing import NamedTuple

from model import collectives, debugger
from model.debugger import call_word, find_call, first_world, free_calls, is_at_barrier, is_at_collective, last_call, met_text, next_world
from model.language import Binary, Place, Unary, Whole
from model.worlds import CallId, Pair

NEAREST, TAKEN, CYCLE = 'nearest miss', 'the last that fits is taken', 'a cycle, where each waits for the next'
# So many cells of an array are shown in short.
SHOWN = 16
# What may differ of a send and a receive.
DIFFERENCES = TAG, SOURCE, DESTINATION = 'tag', 'source', 'destination'
# The same for each of those that look for the other, that which is nearest first: calls of the rank that it waits for come before others.
NEARER = {'send': (TAG, SOURCE, DESTINATION), 'recv': (TAG, DESTINATION, SOURCE), 'probe': (TAG, DESTINATION, SOURCE)}
# What looks for a message, or for somebody who takes it; a probe does as a receive.
LOOKING = ('send', 'recv', 'probe')


class Reached(NamedTuple):
    """The world where steps lead, and the line of each call that was issued on the way."""
    world: object
    lines: dict


def next_line(rank):
    """The line of the statement that a rank is at."""
    return rank.rest[0].line


def reached(script, mode, steps):
    """Where steps lead from the start; a call has the line of the statement that its rank was at."""
    world, lines = first_world(script, mode), {}
    for step in steps:
        behind = next_world(world, step)
        if step.kind == 'local' and len(behind.ranks[step.first].calls) > len(world.ranks[step.first].calls):
            lines[last_call(behind, step.first)] = next_line(world.ranks[step.first])
        world = behind
    return Reached(world, lines)


# ---- texts of calls

def or_any(part):
    return 'any' if part is None else part


def plain_text(world, call_id):
    """What is shown of a call, without what is shown behind it."""
    call = find_call(world, call_id)
    if call.kind == 'probe' or call.kind in collectives.KINDS:
        return met_text(world, call_id)
    if call.kind == 'send':
        return f'{call_word(call)} to {call.other} tag {call.tag} value {call.value}'
    if call.kind == 'recv':
        return f'{call_word(call)} from {or_any(call.other)} tag {or_any(call.tag)}'
    if call.kind == 'wait':
        return f'wait {"none" if call.target is None else call.target}'
    if call.kind == 'waitany':
        return f'waitany {call.first} {call.count}{"" if call.active else " none"}'
    return 'barrier'


def call_text(at, call_id):
    """A call, with its line and its name."""
    return f'line {at.lines[call_id]}, {call_id} {plain_text(at.world, call_id)}'


def wish_of_collective(world, call_id):
    """What a collective waits for: in the mode `buffered`, where it gets from one other rank, for that."""
    others = [number for number in collectives.waits_for(world, call_id) if number != call_id.rank]
    # (reading: in each other case all ranks are told, also where a scan waits for some of them)
    whom = f'rank {others[0]}' if world.mode == debugger.BUFFERED and len(others) == 1 else 'all ranks'
    return f'for {whom} in round {collectives.round_of(world, call_id)}'


def wish(at, call_id):
    """What a blocked call waits for, or a call that is waited for."""
    call = find_call(at.world, call_id)
    if call.kind == 'send':
        return f'for a receive of rank {call.other} from rank {call_id.rank} with tag {call.tag}'
    if call.kind in collectives.KINDS:
        return wish_of_collective(at.world, call_id)
    if call.kind in ('recv', 'probe'):
        source = 'any rank' if call.other is None else f'rank {call.other}'
        return f'for a send of {source} with {"any tag" if call.tag is None else f"tag {call.tag}"}'
    if call.kind == 'wait':
        return 'for no request' if call.target is None else f'for request {CallId(call_id.rank, call.target)}'
    return {'waitany': 'for one of these requests', 'barrier': 'for all ranks at a barrier'}[call.kind]


def wishing(at, call_id):
    return f'{call_text(at, call_id)}: {wish(at, call_id)}'


# ---- what could have ended a wait

def sorted_pair(world, one, other):
    """A send and a receive in this order, of two calls in any order; None where they are none."""
    kinds = find_call(world, one).kind, find_call(world, other).kind
    return {('send', 'recv'): (one, other), ('recv', 'send'): (other, one), ('probe', 'send'): (other, one)}.get(kinds)


def differences(world, send_id, receive_id):
    """What a receive asks of a send that isn't so, or the send of the receive."""
    send, receive = find_call(world, send_id), find_call(world, receive_id)
    same = {TAG: receive.tag in (None, send.tag), SOURCE: receive.other in (None, send_id.rank), DESTINATION: send.other == receive_id.rank}
    return [part for part in DIFFERENCES if not same[part]]


def all_free(world):
    """The names of all free calls, by rank and number."""
    return [call_id for rank in range(len(world.ranks)) for call_id, _ in free_calls(world, rank)]


def near_misses(world, call_id):
    """The free calls that fit a call but for one thing, each with that, by rank and number."""
    for other in all_free(world):
        if (pair := sorted_pair(world, call_id, other)) is not None and len(differs := differences(world, *pair)) == 1:
            yield other, differs[0]


def is_due(world, call_id):
    """Whether a free call is buffered, or its rank waits for it now: in the call itself, or in a wait that is for it."""
    call = find_call(world, call_id)
    return call.blocks or call.buffered or world.ranks[call_id.rank].mode == 'blocked' and call_id in requests(world, call_id.rank)


def nearest_miss(world, call_id):
    """The near miss that is due where one is, by what differs, by rank and number; None where there is none."""
    nearer = NEARER[find_call(world, call_id).kind]
    return min(near_misses(world, call_id), key=lambda found: (not is_due(world, found[0]), nearer.index(found[1])), default=None)


def pairs_taken(world, call_id):
    """The calls that fit a call and were paired with another, each with that one, in the order of the pairs."""
    is_send = find_call(world, call_id).kind == 'send'
    for pair in (record for record in world.records if isinstance(record, Pair)):
        fitting, other = (pair.receive, pair.send) if is_send else (pair.send, pair.receive)
        if not differences(world, *sorted_pair(world, call_id, fitting)):
            yield fitting, other


def last_taken(world, call_id):
    """The last pair of which a call fits; None where there is none."""
    return next(iter(reversed(list(pairs_taken(world, call_id)))), None)


def chances(at, call_id):
    """The lines of what could have been matched with a send or a receive."""
    if (miss := nearest_miss(at.world, call_id)) is not None:
        yield f'{NEAREST}: {call_text(at, miss[0])}: another {miss[1]}'
    if (taken := last_taken(at.world, call_id)) is not None:
        yield f'{TAKEN}: {call_text(at, taken[0])}, by {call_text(at, taken[1])}'


def requests(world, number):
    """The calls that the wait of a blocked rank is for, in the order of its handles; none where it is no wait."""
    rank = world.ranks[number]
    call = rank.calls[-1]
    if call.kind == 'wait':
        return [CallId(number, call.target)]
    if call.kind == 'waitany':
        held = rank.handles[call.first:call.first + call.count]
        return [CallId(number, handle) for handle in held if handle is not None]
    return []


def has_ended(rank):
    return rank.mode == 'running' and rank.rest is None


def not_there(world):
    """The ranks that are at no barrier."""
    return [number for number, rank in enumerate(world.ranks) if not is_at_barrier(rank)]


def why_not_there(at, number):
    """Where a rank is that is at no barrier: the call that it is blocked in, or the line of its next statement, where it has one."""
    rank = at.world.ranks[number]
    if rank.mode == 'blocked':
        return f'it waits at {call_text(at, last_call(at.world, number))}'
    return 'it has ended' if has_ended(rank) else f'it is at line {next_line(rank)}'


def not_met(at, call_id, number):
    """What is told of a rank that a collective waits for still: that it has no call of this round, or another one."""
    there = collectives.in_round(at.world, number, collectives.round_of(at.world, call_id))
    if there is None:
        return f'rank {number} is not there: {why_not_there(at, number)}'
    return f'rank {number} is at another there: {call_text(at, there)}'


def behind(at, call_id):
    """The lines behind that of a blocked call."""
    kind = find_call(at.world, call_id).kind
    if kind == 'barrier':
        return [f'rank {number} is not there: {why_not_there(at, number)}' for number in not_there(at.world)]
    if kind in collectives.KINDS:
        # (reading: by rank, each with its line, whether it isn't there or is at another)
        return [not_met(at, call_id, number) for number in collectives.missing(at.world, call_id)]
    if kind in LOOKING:
        # (reading: of a probe the last that fits and was taken is told too, as of a receive)
        return list(chances(at, call_id))
    return [line for request in requests(at.world, call_id.rank) for line in (wishing(at, request), *chances(at, request))]


def blocked_lines(at, call_id):
    """What is told of a blocked call."""
    return [f'  rank {call_id.rank} waits at {wishing(at, call_id)}', *(f'    {line}' for line in behind(at, call_id))]


# ---- whom a rank waits for

def partners_of(world, call_id):
    """The ranks that a send or a receive may be matched with."""
    call = find_call(world, call_id)
    if call.other is not None:
        return {call.other}
    return set(range(len(world.ranks))) - {call_id.rank}


def waited_for(world, number):
    """The ranks that a blocked rank waits for, by number."""
    call_id = last_call(world, number)
    kind = find_call(world, call_id).kind
    if kind == 'barrier':
        return not_there(world)
    if kind in collectives.KINDS:
        return collectives.missing(world, call_id)
    calls = [call_id] if kind in LOOKING else requests(world, number)
    return sorted(set().union(*(partners_of(world, call) for call in calls)))


def rank_text(world, number):
    return f'rank {number} (ended)' if has_ended(world.ranks[number]) else f'rank {number}'


def whom_line(world, number):
    ranks = [rank_text(world, other) for other in waited_for(world, number)]
    rank = world.ranks[number]
    wanted = 'all' if is_at_barrier(rank) or is_at_collective(rank) else 'any'
    return f'  rank {number} waits for {f"{wanted} of " * (len(ranks) > 1)}{", ".join(ranks) or "nobody"}'


# ---- cycles

def next_of(world):
    """The one rank that a rank waits for, of each blocked rank that waits for no other."""
    blocked = [number for number, rank in enumerate(world.ranks) if rank.mode == 'blocked']
    waiting = {number: waited_for(world, number) for number in blocked}
    return {number: ranks[0] for number, ranks in waiting.items() if len(ranks) == 1}


def cycle_from(nexts, first):
    """The ranks from one on, up to that one again; None where they don't come to it."""
    ranks = [first]
    while (following := nexts.get(ranks[-1])) is not None:
        if following in ranks:
            return [*ranks, following] if following == first else None
        ranks.append(following)
    return None


def cycles(world):
    """The cycles of ranks that each wait for the next alone, each from its lowest rank to that again, by the lowest ranks."""
    nexts = next_of(world)
    found = [cycle_from(nexts, first) for first in sorted(nexts)]
    return [cycle for cycle in found if cycle is not None and cycle[0] == min(cycle)]


def cycle_line(cycle):
    return f'  {CYCLE}: {", ".join(f"rank {number}" for number in cycle)}'


# ---- what a trapped rank holds

def short_text(at, number, declared, place):
    """What stands at a place of what was declared, of a request its call alone."""
    rank, cell = at.world.ranks[number], declared.first + place
    if declared.kind == 'var':
        return str(rank.cells[cell])
    return '-' if rank.handles[cell] is None else str(CallId(number, rank.handles[cell]))


def short_value(at, number, declared):
    """What was declared, in short: an array in brackets, of which the first cells are shown."""
    if declared.size is None:
        return short_text(at, number, declared, 0)
    values = [short_text(at, number, declared, place) for place in range(min(declared.size, SHOWN))]
    return f'[{", ".join(values + [".."] * (declared.size > SHOWN))}]'


# The expressions of a statement, and the places that it names outside of them. What a collective gives is an expression unless it is an array, and it
# gets into a place unless that is one. (reading: an array that stands for all its cells is in no expression, so it isn't named among what is read)
EXPRESSIONS, PLACES = ('value', 'condition', 'to', 'tag', 'source', 'given', 'root'), ('handle', 'place', 'into')


def places_of(statement):
    """The places of a statement that stand in no expression."""
    places = [getattr(statement, part, None) for part in PLACES]
    return [place for place in (*places, *(getattr(statement, 'status', None) or ())) if place is not None and not isinstance(place, Whole)]


def expressions_of(statement):
    """The expressions of a statement, those of the statements inside it left out: of a place the index alone is one."""
    parts = [getattr(statement, part, None) for part in EXPRESSIONS]
    return [part for part in (*parts, *(place.index for place in places_of(statement))) if part is not None and not isinstance(part, Whole)]


def names_in(expression):
    """The names that stand in an expression."""
    if isinstance(expression, Place):
        return {expression.name} | (names_in(expression.index) if expression.size is not None else set())
    if isinstance(expression, Unary):
        return names_in(expression.operand)
    return names_in(expression.left) | names_in(expression.right) if isinstance(expression, Binary) else set()


def names_read(statement):
    """The names that a statement reads."""
    return set().union(*map(names_in, expressions_of(statement)))


def with_values(at, number, names):
    """What a rank holds in some names, behind the name of its trap; nothing where there is none."""
    values = [f'{name} = {short_value(at, number, declared)}' for name, declared in names.items()]
    return f', with {", ".join(values)}' if values else ''


def values_text(at, names, number):
    """What a rank holds in what the statement reads that it is at, in the order in which it is declared."""
    read = names_read(at.world.ranks[number].rest[0])
    return with_values(at, number, {name: declared for name, declared in names.items() if name in read})


# ---- explanations

def deadlock_lines(at):
    blocked = debugger.blocked_calls(at.world)
    lines = [line for call_id in blocked for line in blocked_lines(at, call_id)]
    lines += [whom_line(at.world, call_id.rank) for call_id in blocked]
    return lines + [cycle_line(cycle) for cycle in cycles(at.world)] + left_lines(at, awaited_calls(at.world, blocked))


def trap_lines(at, names):
    trapped = [(number, rank) for number, rank in enumerate(at.world.ranks) if rank.mode == 'trapped']
    return [f'  rank {number}, line {next_line(rank)}: trap {rank.trap}{values_text(at, names, number)}' for number, rank in trapped]


def awaited_calls(world, blocked):
    """Blocked calls, and those that they are for where they are waits."""
    return {*blocked, *(request for call_id in blocked for request in requests(world, call_id.rank))}


def left_lines(at, awaited=frozenset()):
    """The free calls, but for some of which something is told."""
    return [f'  left over: {call_text(at, call_id)}' for call_id in all_free(at.world) if call_id not in awaited]


def tells(outcome):
    """Whether something is told of a run that ends so."""
    return outcome.split()[0] in ('deadlock', 'trap', 'leftovers')


def told(at, names, outcome):
    """The lines that explain how a run has ended: none where it is done, or cut."""
    word = outcome.split()[0]
    if word == 'trap':
        return tuple(trap_lines(at, names))
    tell = {'deadlock': deadlock_lines, 'leftovers': left_lines}.get(word)
    return () if tell is None else tuple(tell(at))


def explanation(script, mode, leaf):
    """The lines that explain a leaf."""
    return told(reached(script, mode, leaf.steps), script.names, leaf.outcome) if tells(leaf.outcome) else ()
