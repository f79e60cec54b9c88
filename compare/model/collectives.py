"""Collectives, in the model: which calls belong together, whom each waits for, and what it writes as its rank goes on.

The *round* of a collective call is how many its rank had issued before; barriers are counted too. What belongs together is looked up by round,
and nothing is stored. One table tells the kinds apart: from whom a rank gets. In the mode `buffered` a collective waits for these ranks, in
every other mode for all.
"""

from model.language import HIGHEST, LOWEST
from model.modes import BUFFERED
from model.worlds import BarrierCall, CallId, CollectiveCall

KINDS = ('bcast', 'reduce', 'allreduce', 'gather', 'scatter', 'allgather', 'alltoall', 'scan')
# Kinds that give a value for each rank, those to which the root alone gives, and those that write an array.
ONE_FOR_EACH, OF_ROOT, INTO_ARRAY = ('scatter', 'alltoall'), ('bcast', 'scatter'), ('gather', 'allgather', 'alltoall')
BITS = 2 ** 64


def is_collective(call):
    """Whether a call is counted among the rounds: a barrier or a collective."""
    return call.kind == 'barrier' or call.kind in KINDS


# ---- rounds

def collectives(world, number):
    """The collective calls of a rank, in the order of issue."""
    return [CallId(number, place) for place, call in enumerate(world.ranks[number].calls) if is_collective(call)]


def in_round(world, number, turn):
    """The collective call of a rank of a round; None where it hasn't issued it."""
    calls = collectives(world, number)
    return calls[turn] if turn < len(calls) else None


def round_of(world, call_id):
    """How many collective calls its rank had issued before a call."""
    return sum(other.number < call_id.number for other in collectives(world, call_id.rank))


def call_at(world, call_id):
    return world.ranks[call_id.rank].calls[call_id.number]


def is_at_one(rank):
    """Whether a rank is blocked on a collective call."""
    return rank.mode == 'blocked' and isinstance(rank.calls[-1], (BarrierCall, CollectiveCall))


def calls_in_rounds(rank):
    """The collective calls of a rank themselves, in the order of issue."""
    return [call for call in rank.calls if isinstance(call, (BarrierCall, CollectiveCall))]


def calls_of_open_rounds(world):
    """The same of each rank, of those rounds that some rank hasn't left: it has left those before the call that it is at."""
    calls = [calls_in_rounds(rank) for rank in world.ranks]
    left = min(len(found) - is_at_one(rank) for rank, found in zip(world.ranks, calls))
    return [found[left:] for found in calls]


# ---- who waits for whom

def alike(one, other):
    """Whether two calls belong together; a barrier is like no call."""
    return one.kind in KINDS and (one.kind, one.root, one.operation) == (other.kind, getattr(other, 'root', None), getattr(other, 'operation', None))


def gets_from(world, call_id):
    """The ranks that a collective gets a value from."""
    call, ranks = call_at(world, call_id), range(len(world.ranks))
    if call.kind in OF_ROOT:
        return [call.root]
    if call.kind in ('reduce', 'gather'):
        return list(ranks) if call_id.rank == call.root else []
    return [number for number in ranks if number <= call_id.rank] if call.kind == 'scan' else list(ranks)


def waits_for(world, call_id):
    """The ranks that a collective waits for."""
    return gets_from(world, call_id) if world.mode == BUFFERED else list(range(len(world.ranks)))


def is_met_by(world, call_id, number):
    """Whether a rank has issued its call of the round of a collective, and that is alike."""
    other = in_round(world, number, round_of(world, call_id))
    return other is not None and alike(call_at(world, call_id), call_at(world, other))


def missing(world, call_id):
    """The ranks that a collective waits for still: those that aren't there, and those whose call is another."""
    return [number for number in waits_for(world, call_id) if not is_met_by(world, call_id, number)]


def has_met(world, call_id):
    """Whether a collective is complete."""
    return not missing(world, call_id)


# ---- what a rank gets

def wrapped(number):
    """A number of 64 bits that is another one modulo 2^64."""
    return (number + HIGHEST + 1) % BITS - HIGHEST - 1


# Of each operation what it begins with, and what it makes of two values.
JOINS = {
    'sum': (0, lambda one, other: wrapped(one + other)), 'prod': (1, lambda one, other: wrapped(one * other)),
    'min': (HIGHEST, min), 'max': (LOWEST, max),
    'and': (1, lambda one, other: int(one != 0 and other != 0)), 'or': (0, lambda one, other: int(one != 0 or other != 0))}


def joined(operation, values):
    """Values joined from the first to the last."""
    result, join = JOINS[operation]
    for value in values:
        result = join(result, value)
    return result


def given_to(call, number):
    """The value that a call gives to a rank."""
    return call.values[number if call.kind in ONE_FOR_EACH else 0]


def gotten(world, call_id):
    """The values that a complete collective gets: one where they are joined, none where it gets from no rank."""
    call, turn = call_at(world, call_id), round_of(world, call_id)
    values = [given_to(call_at(world, in_round(world, number, turn)), call_id.rank) for number in gets_from(world, call_id)]
    return [joined(call.operation, values)] if call.operation is not None and values else values


def collective_writes(world, call_id):
    """What a complete collective writes as its rank goes on: each cell with its value, by rank from its first cell on."""
    first = call_at(world, call_id).cell
    return [(first + place, value) for place, value in enumerate(gotten(world, call_id))]


# ---- in words

def collective_text(world, call_id):
    """What is shown of a collective."""
    call = call_at(world, call_id)
    parts = [call.kind] + [call.operation] * (call.operation is not None)
    if call.root is not None:
        parts += ['from' if call.kind in OF_ROOT else 'to', call.root]
    parts += ['value', *call.values] if call.values else []
    return ' '.join(map(str, [*parts, 'round', round_of(world, call_id)]))
