"""The debugger: the steps of the ranks and their matches, the texts that show a world, the trace words, the input."""

from typing import NamedTuple

from model import collectives, language
from model.language import (Assert, Assign, Barrier, Branch, Collective, FAULT_NAMES, Fault, Print, Probe, Receive, Send, Trap, View, Wait, WaitAny, While,
                            Whole, cell_of, evaluate, read_script)
from model.modes import BUFFERED, RENDEZVOUS, slots_of
from model.worlds import (BarrierCall, Call, CallId, CollectiveCall, Pair, ProbeCall, Rank, Released, Step, WaitAnyCall, WaitCall, Woken, World)

HIGHEST_TAG = 32767
MOST_STEPS = 1000000
MOST_READS = 1000000
LONGEST_LINE = 4096
LONGEST_NUMBER = 9

# What a wait for any writes where no handle had a request.
NO_HANDLE = -1

REFUSED_FULL = 'refused full'
REFUSED_NOT_ENABLED = 'refused not-enabled'
REFUSED_AT_START = 'refused at-start'
REFUSED_NO_REDO = 'refused no-redo'
REFUSED_NOT_BEFORE = 'refused not-before'
REFUSED_BAD_WORD = 'refused bad-word'


def pushed(statements, rest):
    for statement in reversed(statements):
        rest = (statement, rest)
    return rest


def first_world(script, mode=RENDEZVOUS):
    rank = Rank(pushed(script.body, None), (0,) * script.cells, (None,) * script.handles, (), (), (), 'running', None)
    return World(mode, (rank,) * script.ranks, (), {})


def in_bounds(expression, highest, trap, view):
    value = evaluate(expression, view)
    if not 0 <= value <= highest:
        raise Trap(trap)
    return value


def called(statement, view):
    """The call that a send or receive statement makes; the index of its handle was evaluated before."""
    blocks = statement.handle is None
    if isinstance(statement, Send):
        value = evaluate(statement.value, view)
        other = in_bounds(statement.to, view.ranks - 1, 'bad-rank', view)
        tag = in_bounds(statement.tag, HIGHEST_TAG, 'bad-tag', view)
        return Call('send', blocks, other, tag, value, synchronous=statement.synchronous, line=statement.line)
    return received(statement, blocks, view)


def received(statement, blocks, view):
    """The call that a receive makes: the cell of its value, the source, the tag, and then the cells of its status."""
    cell = cell_of(statement.place, view)
    other, tag, status = looked_for(statement, view)
    return Call('recv', blocks, other, tag, None, cell, status, line=statement.line)


def looked_for(statement, view):
    """The source of a receive or a probe, the tag, and then the cells of its status."""
    other = None if statement.source is None else in_bounds(statement.source, view.ranks - 1, 'bad-rank', view)
    tag = None if statement.tag is None else in_bounds(statement.tag, HIGHEST_TAG, 'bad-tag', view)
    return other, tag, None if statement.status is None else tuple(cell_of(place, view) for place in statement.status)


def probed(statement, view):
    """The call that a probe makes."""
    other, tag, status = looked_for(statement, view)
    return ProbeCall(other, tag, status, statement.line)


def cells_checked(whole, view):
    """The first cell of an array that has one for each rank."""
    if whole.count < view.ranks:
        raise Trap('bad-index')
    return whole.first


def given_values(given, view):
    """What a collective gives that is named: a value, or one for each rank."""
    if not isinstance(given, Whole):
        return (evaluate(given, view),)
    first = cells_checked(given, view)
    return view.cells[first:first + view.ranks]


def root_of(statement, view):
    return None if statement.root is None else in_bounds(statement.root, view.ranks - 1, 'bad-rank', view)


def broadcast(statement, view):
    """The call that a bcast makes: the index of its place stands before its root, and the root gives what stands there."""
    cell = cell_of(statement.into, view)
    root = root_of(statement, view)
    return CollectiveCall('bcast', root, None, (view.cells[cell],) if root == view.rank else (), cell, statement.line)


def collected(statement, view):
    """The call that a collective of any other kind makes: what it gives, the root, and then where it puts what it gets. Each rank evaluates and
    checks all of it, also what counts at the root alone."""
    values, root = given_values(statement.given, view), root_of(statement, view)
    cell = cells_checked(statement.into, view) if isinstance(statement.into, Whole) else cell_of(statement.into, view)
    gives = statement.kind not in collectives.OF_ROOT or root == view.rank
    return CollectiveCall(statement.kind, root, statement.operation, values if gives else (), cell, statement.line)


def met_at(statement, view):
    """The call that a barrier, a collective or a probe makes."""
    if isinstance(statement, Barrier):
        return BarrierCall(line=statement.line)
    if isinstance(statement, Probe):
        return probed(statement, view)
    return broadcast(statement, view) if statement.kind == 'bcast' else collected(statement, view)


def issued(rank, statement, view):
    """The rank behind a statement that makes a call."""
    if isinstance(statement, (Barrier, Collective, Probe)):
        return rank._replace(calls=rank.calls + (met_at(statement, view),), mode='blocked')
    if isinstance(statement, WaitAny):
        return rank._replace(calls=rank.calls + (waited_for_any(statement, rank, view),), mode='blocked')
    handle = None if statement.handle is None else cell_of(statement.handle, view)
    number = len(rank.calls)
    if isinstance(statement, Wait):
        return rank._replace(calls=rank.calls + (WaitCall(handle, rank.handles[handle], statement.line),), mode='blocked')
    rank = rank._replace(calls=rank.calls + (called(statement, view),), free=rank.free + (number,))
    if handle is None:
        return rank._replace(mode='blocked')
    return rank._replace(handles=written(rank.handles, handle, number))


def waited_for_any(statement, rank, view):
    """The call that a wait for any makes."""
    cell = cell_of(statement.place, view)
    handles = rank.handles[statement.first:statement.first + statement.count]
    return WaitAnyCall(statement.first, statement.count, cell, any(handle is not None for handle in handles), statement.line)


def written(cells, cell, value):
    return cells[:cell] + (value,) + cells[cell + 1:]


def executed(rank, view):
    """The rank behind its next statement; raises the trap that stops it there."""
    statement, tail = rank.rest
    if isinstance(statement, Assign):
        cell = cell_of(statement.place, view)
        return rank._replace(rest=tail, cells=written(rank.cells, cell, evaluate(statement.value, view)))
    if isinstance(statement, Branch):
        taken = statement.then if evaluate(statement.condition, view) != 0 else statement.otherwise
        return rank._replace(rest=pushed(taken, tail))
    if isinstance(statement, While):
        again = evaluate(statement.condition, view) != 0
        return rank._replace(rest=pushed(statement.body, rank.rest) if again else tail)
    if isinstance(statement, Print):
        return rank._replace(rest=tail, printed=rank.printed + (evaluate(statement.value, view),))
    if isinstance(statement, Assert):
        if evaluate(statement.condition, view) == 0:
            raise Trap('assert')
        return rank._replace(rest=tail)
    assert isinstance(statement, (Send, Receive, Wait, WaitAny, Barrier, Collective, Probe))
    return issued(rank, statement, view)._replace(rest=tail)


def slots_used(world, number):
    """How many sends of a rank are buffered and not matched."""
    return len(world.ranks[number].slots)


def has_slot(mode, used):
    """Whether a standard send is buffered whose sender has so many buffered sends that are not matched."""
    slots = slots_of(mode)
    return mode == BUFFERED or slots is not None and used < slots


def is_buffered(mode, call, used):
    """Whether a call is buffered as it is made: a standard send may be, and nothing else ever."""
    return call.kind == 'send' and not call.synchronous and has_slot(mode, used)


def with_buffer(world, number):
    """The world in which a rank has made its last call, which is told where it is buffered then, and takes a slot."""
    rank = world.ranks[number]
    *calls, call = rank.calls
    if not is_buffered(world.mode, call, slots_used(world, number)):
        return world
    return world.with_rank(number, rank._replace(calls=(*calls, call._replace(buffered=True)), slots=(*rank.slots, len(calls))))


def can_run(rank):
    return rank.mode == 'running' and rank.rest is not None


def after_local(world, number):
    if number >= len(world.ranks) or not can_run(world.ranks[number]):
        return None
    rank = world.ranks[number]
    try:
        behind = executed(rank, View(rank.cells, number, len(world.ranks)))
    except Trap as trap:
        return world.with_rank(number, rank._replace(mode='trapped', trap=trap.name))
    has_called = len(behind.calls) > len(rank.calls)
    return with_buffer(world.with_rank(number, behind), number) if has_called else world.with_rank(number, behind)


def find_call(world, call_id):
    """The call of that name, or None."""
    if call_id.rank < len(world.ranks) and call_id.number < len(world.ranks[call_id.rank].calls):
        return world.ranks[call_id.rank].calls[call_id.number]
    return None


def partner(world, call_id):
    """The call that one is matched with, or None."""
    return world.partners.get(call_id)


def takes_source(receive, source):
    return receive.other in (None, source)


def tags_agree(send, receive):
    return receive.tag in (None, send.tag)


def fits(world, send_id, receive_id):
    """Whether a receive takes a send: sent to its rank, from its source or where that is any, with its tag or where that is any."""
    send, receive = find_call(world, send_id), find_call(world, receive_id)
    return send.other == receive_id.rank and takes_source(receive, send_id.rank) and tags_agree(send, receive)


def free_calls(world, rank):
    """The calls of a rank that are not matched, each with its name."""
    calls = world.ranks[rank].calls
    return [(CallId(rank, number), calls[number]) for number in world.ranks[rank].free]


def pending(world, source, destination):
    """The sends of one rank to another that are not matched."""
    free = free_calls(world, source)
    return [call_id for call_id, call in free if call.kind == 'send' and call.other == destination]


def posted(world, rank):
    """The receives of a rank that are not matched."""
    return [call_id for call_id, call in free_calls(world, rank) if call.kind == 'recv']


def sends_ahead(world, send_id, receive_id):
    """The earlier free sends of the same sender to that receiver that fit the receive, in the order of issue."""
    free = pending(world, send_id.rank, receive_id.rank)
    return [other for other in free if other.number < send_id.number and fits(world, other, receive_id)]


def receives_ahead(world, send_id, receive_id):
    """The earlier free receives of the receiver that fit the send, in the order of issue."""
    free = posted(world, receive_id.rank)
    return [other for other in free if other.number < receive_id.number and fits(world, send_id, other)]


def eligible(world, send_id, receive_id):
    """Whether a send and a receive may be matched: both free, fitting, and no earlier one fits in place of either."""
    send, receive = find_call(world, send_id), find_call(world, receive_id)
    if send is None or receive is None or send.kind != 'send' or receive.kind != 'recv':
        return False
    if partner(world, send_id) is not None or partner(world, receive_id) is not None:
        return False
    return (fits(world, send_id, receive_id) and not sends_ahead(world, send_id, receive_id)
            and not receives_ahead(world, send_id, receive_id))


def without_free(world, call_id):
    """The world in which a call isn't free any more, and has no slot."""
    rank = world.ranks[call_id.rank]
    free, slots = (tuple(number for number in numbers if number != call_id.number) for numbers in (rank.free, rank.slots))
    return world.with_rank(call_id.rank, rank._replace(free=free, slots=slots))


def after_match(world, send_id, receive_id):
    if not eligible(world, send_id, receive_id):
        return None
    world = without_free(without_free(world, send_id), receive_id)
    return world._replace(records=world.records + (Pair(send_id, receive_id),),
                          partners=world.partners | {send_id: receive_id, receive_id: send_id})


def last_call(world, number):
    return CallId(number, len(world.ranks[number].calls) - 1)


def awaited(world, number):
    """The send or receive that a blocked rank waits for; None where its wait is for nothing."""
    call = world.ranks[number].calls[-1]
    if call.kind != 'wait':
        return last_call(world, number)
    return None if call.target is None else CallId(number, call.target)


def is_done(world, call_id):
    """Whether a send or a receive is complete: it is matched, or was buffered as it was made."""
    return partner(world, call_id) is not None or find_call(world, call_id).buffered


def is_at_barrier(rank):
    return rank.mode == 'blocked' and rank.calls[-1].kind == 'barrier'


def is_at_any(rank):
    """Whether a rank waits for any of some handles."""
    return rank.mode == 'blocked' and rank.calls[-1].kind == 'waitany'


def is_at_probe(rank):
    return rank.mode == 'blocked' and rank.calls[-1].kind == 'probe'


def is_at_collective(rank):
    """Whether a rank is at a collective; a barrier is none here."""
    return rank.mode == 'blocked' and rank.calls[-1].kind in collectives.KINDS


def is_available(world, send_id, probe_id):
    """Whether a free send is there for a probe: a receive in the place of the probe, which is its rank's last call, would be eligible with it."""
    return fits(world, send_id, probe_id) and not sends_ahead(world, send_id, probe_id) and not receives_ahead(world, send_id, probe_id)


def available(world, probe_id):
    """The sends that are there for a probe, at most one of each rank."""
    sends = [send_id for source in range(len(world.ranks)) for send_id in pending(world, source, probe_id.rank)]
    return [send_id for send_id in sends if is_available(world, send_id, probe_id)]


def is_forced(probe):
    """Whether a probe is complete where something is there: it names its source."""
    return probe.other is not None


def can_wake(world, number):
    """Whether a rank is blocked on a complete call; a barrier never is complete, nor is a probe of any source, and a wait for any is where no handle
    had a request."""
    rank = world.ranks[number]
    if rank.mode != 'blocked' or is_at_barrier(rank):
        return False
    if is_at_any(rank):
        return not rank.calls[-1].active
    if is_at_collective(rank):
        return collectives.has_met(world, last_call(world, number))
    if is_at_probe(rank):
        return is_forced(rank.calls[-1]) and bool(available(world, last_call(world, number)))
    call_id = awaited(world, number)
    return call_id is None or is_done(world, call_id)


def cleared(handles, handle):
    return written(handles, handle, None)


def writes_of(receive, send, sender):
    """The cells that a receive writes when its rank goes on, each with its value, in order: the value, the source, the tag."""
    writes = [(receive.cell, send.value)]
    if receive.status is not None:
        writes += zip(receive.status, (sender, send.tag))
    return writes


def received_writes(world, call_id):
    """What is written of a call: nothing where it has received nothing, as a send."""
    call, send_id = find_call(world, call_id), partner(world, call_id)
    if call.kind != 'recv' or send_id is None:
        return []
    return writes_of(call, find_call(world, send_id), send_id.rank)


def woken(world, number, writes, handle):
    """The world in which a rank goes on that writes this, cell by cell, and clears a handle, or none."""
    rank = world.ranks[number]
    for cell, value in writes:
        rank = rank._replace(cells=written(rank.cells, cell, value))
    if handle is not None:
        rank = rank._replace(handles=cleared(rank.handles, handle))
    behind = world.with_rank(number, rank._replace(mode='running'))
    return behind._replace(records=world.records + (Woken(last_call(world, number)),))


def after_wake(world, number):
    if number >= len(world.ranks) or not can_wake(world, number):
        return None
    call = world.ranks[number].calls[-1]
    if call.kind == 'waitany':
        return woken(world, number, [(call.cell, NO_HANDLE)], None)
    if call.kind in collectives.KINDS:
        return woken(world, number, collectives.collective_writes(world, last_call(world, number)), None)
    if call.kind == 'probe':
        return told_of(world, number, available(world, last_call(world, number))[0])
    call_id = awaited(world, number)
    writes = [] if call_id is None else received_writes(world, call_id)
    return woken(world, number, writes, call.handle if call.kind == 'wait' else None)


def chosen_handle(call, place):
    """The handle that stands at a place among those that a wait for any is for; None where there are not so many."""
    return call.first + place if place < call.count else None


def told_of(world, number, send_id):
    """The world in which a rank goes on from a probe that is told of a send: the sender and the tag are written, in this order, and the send stays
    as it is."""
    status = world.ranks[number].calls[-1].status or ()
    return woken(world, number, list(zip(status, (send_id.rank, find_call(world, send_id).tag))), None)


def found_by_probe(world, number, sender):
    """The send of a rank that another is told of by a probe of any source; None where there is none."""
    if not is_at_probe(world.ranks[number]) or is_forced(world.ranks[number].calls[-1]):
        return None
    return next((send_id for send_id in available(world, last_call(world, number)) if send_id.rank == sender), None)


def can_wake_by(world, number, place):
    """Whether a rank waits for any of some handles, and the one at a place among them has a complete call; or it is at a probe of any source, and a
    send of the rank of that number is there."""
    if number >= len(world.ranks):
        return False
    if not is_at_any(world.ranks[number]):
        return found_by_probe(world, number, place) is not None
    rank = world.ranks[number]
    handle = chosen_handle(rank.calls[-1], place)
    if handle is None or rank.handles[handle] is None:
        return False
    return is_done(world, CallId(number, rank.handles[handle]))


def writes_by(world, number, place):
    """What is written as a rank goes on by a handle that it waits for any of: what was received, and then which one it was."""
    rank = world.ranks[number]
    call = rank.calls[-1]
    request = CallId(number, rank.handles[chosen_handle(call, place)])
    return [*received_writes(world, request), (call.cell, place)]


def after_wake_by(world, number, place):
    if not can_wake_by(world, number, place):
        return None
    if is_at_probe(world.ranks[number]):
        return told_of(world, number, found_by_probe(world, number, place))
    handle = chosen_handle(world.ranks[number].calls[-1], place)
    return woken(world, number, writes_by(world, number, place), handle)


def can_release(world):
    """Whether all ranks are at a barrier, not one of them left out."""
    return all(map(is_at_barrier, world.ranks))


def after_release(world):
    if not can_release(world):
        return None
    ranks = tuple(rank._replace(mode='running') for rank in world.ranks)
    return world._replace(ranks=ranks, records=world.records + (Released(),))


def next_world(world, step):
    """The world behind a step; None where the step is not enabled."""
    if step.kind == 'local':
        return after_local(world, step.first)
    if step.kind == 'wake':
        return after_wake(world, step.first)
    if step.kind == 'wakeany':
        return after_wake_by(world, step.first, step.second)
    if step.kind == 'match':
        return after_match(world, step.first, step.second)
    return after_release(world)


def places_of(world, rank):
    """The numbers by which a rank may go on: those of handles that it waits for any of, or of ranks where it is at a probe."""
    if is_at_probe(rank):
        return range(len(world.ranks))
    return range(rank.calls[-1].count) if is_at_any(rank) else ()


def wakes_by_handles(world):
    """The enabled wakes by one of the handles that a rank waits for any of, and those from probes of any source, by rank and place."""
    places = [(number, place) for number, rank in enumerate(world.ranks) for place in places_of(world, rank)]
    return [Step('wakeany', number, place) for number, place in places if can_wake_by(world, number, place)]


def enabled_steps(world):
    """All enabled steps: local ones, the release, wakes, all by rank, then wakes by one of some handles or from a probe, by rank and place, and then
    matches by receiver, number of the receive, sender."""
    ranks = range(len(world.ranks))
    steps = [Step('local', rank) for rank in ranks if can_run(world.ranks[rank])]
    steps += [Step('release')] if can_release(world) else []
    steps += [Step('wake', rank) for rank in ranks if can_wake(world, rank)]
    steps += wakes_by_handles(world)
    sends = [call_id for rank in ranks for call_id, call in free_calls(world, rank) if call.kind == 'send']
    receives = [call_id for rank in ranks for call_id in posted(world, rank)]
    return steps + [Step('match', send_id, receive_id) for receive_id in receives for send_id in sends
                    if eligible(world, send_id, receive_id)]


def step_text(step):
    return ' '.join([step.kind, *(str(part) for part in step[1:] if part is not None)])


def enabled_text(world):
    """The answer to `enabled`: the word alone where no step is enabled."""
    steps = ', '.join(map(step_text, enabled_steps(world)))
    return f'enabled {steps}' if steps else 'enabled'


def joined(title, values):
    return ' '.join([title, *map(str, values)])


def blocked_calls(world):
    """The last call of each rank that is blocked, by rank."""
    return tuple(last_call(world, number) for number, rank in enumerate(world.ranks) if rank.mode == 'blocked')


class Outcome(str):
    """How a run ended, as it is told, and where the statements begin at which trapped ranks stand, or which issued the calls that it tells: an
    outcome is another one where these are others, though it is told alike. A text alone is the same as one that is told so."""

    def __new__(cls, told, places=()):
        it = super().__new__(cls, told)
        it.places = places
        return it

    def __eq__(self, other):
        return super().__eq__(other) and (not isinstance(other, Outcome) or self.places == other.places)

    def __ne__(self, other):
        return not self == other

    __hash__ = str.__hash__


def outcome(world):
    """How a world ended in which no step is enabled."""
    ranks = list(enumerate(world.ranks))
    trapped = [(number, rank) for number, rank in ranks if rank.mode == 'trapped']
    if trapped:
        return Outcome(joined('trap', [f'{number} {rank.trap}' for number, rank in trapped]), tuple(rank.rest[0].line.place for _, rank in trapped))
    if blocked := blocked_calls(world):
        return outcome_of('deadlock', world, blocked)
    free = [CallId(number, place) for number, rank in ranks for place in rank.free]
    return outcome_of('leftovers', world, free) if free else 'done'


def outcome_of(word, world, calls):
    """An outcome that tells calls."""
    return Outcome(joined(word, calls), tuple(find_call(world, call_id).line.place for call_id in calls))


def rank_state(rank):
    if rank.mode == 'trapped':
        return 'trapped ' + rank.trap
    if rank.mode == 'blocked':
        return f'blocked {len(rank.calls) - 1}'
    return 'ended' if rank.rest is None else f'at {rank.rest[0].line}'


def call_word(call):
    """The word of the statement that made a send or a receive."""
    return ('' if call.blocks else 'i') + ('s' if call.synchronous else '') + call.kind


def buffer_text(mode, call):
    """What is shown of whether a send is buffered: nothing but in a mode of slots, since in each other one the mode says it."""
    return ' buffered' if call.buffered and slots_of(mode) is not None else ''


def met_text(world, call_id):
    """What is shown of a collective or a probe."""
    call = find_call(world, call_id)
    if call.kind != 'probe':
        return collectives.collective_text(world, call_id)
    source, tag = ('any' if part is None else part for part in (call.other, call.tag))
    return f'probe from {source} tag {tag}'


def call_line(world, call_id):
    call = find_call(world, call_id)
    if call.kind == 'barrier':
        return f'call {call_id} barrier'
    if call.kind == 'wait':
        return f'call {call_id} wait {"none" if call.target is None else call.target}'
    if call.kind == 'waitany':
        return f'call {call_id} waitany {call.first} {call.count}{"" if call.active else " none"}'
    if call.kind == 'probe' or call.kind in collectives.KINDS:
        return f'call {call_id} {met_text(world, call_id)}'
    other_id = partner(world, call_id)
    state = 'free' if other_id is None else f'with {other_id}'
    word = call_word(call)
    if call.kind == 'send':
        return f'call {call_id} {word} to {call.other} tag {call.tag} value {call.value}{buffer_text(world.mode, call)} {state}'
    if other_id is not None:
        state += f' value {find_call(world, other_id).value}'
    source, tag = ('any' if part is None else part for part in (call.other, call.tag))
    return f'call {call_id} {word} from {source} tag {tag} {state}'


def rank_lines(world, number):
    rank = world.ranks[number]
    handles = ['-' if handle is None else handle for handle in rank.handles]
    lines = [f'rank {number} {rank_state(rank)}', joined('vars', rank.cells), joined('handles', handles),
             joined('out', rank.printed)]
    return lines + [call_line(world, CallId(number, place)) for place in range(len(rank.calls))]


def queue_lines(world):
    """The calls that are not matched: sends of each pair of ranks, receives of each rank."""
    ranks = range(len(world.ranks))
    lines = []
    for source in ranks:
        for destination in ranks:
            if sends := pending(world, source, destination):
                lines.append(joined(f'pending {source} to {destination}:', [send_id.number for send_id in sends]))
    for rank in ranks:
        if receives := posted(world, rank):
            lines.append(joined(f'posted {rank}:', [receive_id.number for receive_id in receives]))
    return lines


def record_line(record):
    if isinstance(record, Pair):
        return f'set pair {record.send} {record.receive}'
    if isinstance(record, Released):
        return 'set barrier'
    return f'set woke {record.call}'


def show(world, depth, kept):
    lines = [f'depth {depth} of {kept}']
    for number in range(len(world.ranks)):
        lines += rank_lines(world, number)
    lines += queue_lines(world)
    lines += [record_line(record) for record in world.records]
    if not enabled_steps(world):
        lines.append('outcome ' + outcome(world))
    return '\n'.join(lines + ['end'])


def number_of(word):
    """The number that a word is, or None; bytes.isdigit knows the ten digits only."""
    return int(word) if len(word) <= LONGEST_NUMBER and word.isdigit() else None


def call_id_of(word):
    """The call that a word names, or None."""
    parts = [number_of(part) for part in word.split(b'.')]
    return CallId(*parts) if len(parts) == 2 and None not in parts else None


def step_of(words):
    """The step that words name, or None."""
    kind, *names = words
    if kind in (b'local', b'wake') and len(names) == 1:
        values = [number_of(names[0])]
    elif kind == b'wakeany' and len(names) == 2 and 2 in language.VERSIONS:
        values = [number_of(name) for name in names]
    elif kind == b'match' and len(names) == 2:
        values = [call_id_of(name) for name in names]
    elif words == [b'release']:
        values = []
    else:
        return None
    return None if None in values else Step(kind.decode(), *values)


def depth_of(words):
    """The depth that `goto` names, or None where the words are none of it."""
    return number_of(words[1]) if len(words) == 2 and words[0] == b'goto' else None


class Debugger:
    """The worlds up to the current one, and the steps, undone ones too."""

    def __init__(self, script, mode=RENDEZVOUS):
        self.worlds = [first_world(script, mode)]
        self.steps = []

    @property
    def depth(self):
        return len(self.worlds) - 1

    @property
    def world(self):
        return self.worlds[-1]

    def is_next_undone(self, step):
        return self.depth < len(self.steps) and self.steps[self.depth] == step

    def take(self, step):
        world = next_world(self.world, step)
        if world is None:
            return REFUSED_NOT_ENABLED
        if self.depth == MOST_STEPS:
            return REFUSED_FULL
        self.note(step)
        self.worlds.append(world)
        return f'ok {self.depth}'

    def note(self, step):
        """Has a step as the one behind those not undone: where it stands there already, all behind it stays, else that is dropped."""
        if not self.is_next_undone(step):
            del self.steps[self.depth:]
            self.steps.append(step)

    def back(self):
        if self.depth == 0:
            return REFUSED_AT_START
        self.worlds.pop()
        return f'ok {self.depth}'

    def redo(self):
        """Takes the next undone step again, which is enabled unless the model is broken on purpose; all steps stay."""
        if self.depth == len(self.steps):
            return REFUSED_NO_REDO
        world = next_world(self.world, self.steps[self.depth])
        if world is None:
            return REFUSED_NOT_ENABLED
        self.worlds.append(world)
        return f'ok {self.depth}'

    def goto(self, depth):
        """Goes back to a depth, the present one too; all steps stay."""
        if depth > self.depth:
            return REFUSED_NOT_BEFORE
        del self.worlds[depth + 1:]
        return f'ok {self.depth}'

    def along(self, words):
        """The answer to the words that go along the steps that are there."""
        if words == [b'redo']:
            return self.redo()
        depth = depth_of(words)
        return REFUSED_BAD_WORD if depth is None else self.goto(depth)

    def answer(self, line):
        """The answer to a line without its end; None where it has no words."""
        if len(line) > LONGEST_LINE:
            return REFUSED_BAD_WORD
        words = [word for word in line.replace(b'\t', b' ').split(b' ') if word]
        if not words:
            return None
        step = step_of(words)
        if step is not None:
            return self.take(step)
        if words == [b'back']:
            return self.back()
        if words == [b'enabled']:
            return enabled_text(self.world)
        if words == [b'show']:
            return show(self.world, self.depth, len(self.steps))
        return self.along(words)


class Result(NamedTuple):
    """What a program gives: standard output, standard error and exit status."""
    output: bytes
    errors: bytes
    status: int


BAD_MODE = Result(b'', b'mpdbg: bad mode\n', 2)
BAD_FILE = Result(b'', b'mpdbg: device\n', 3)


def lines_of(data):
    """The lines of an input, each without its end; the end is LF or CR LF."""
    lines = data.split(b'\n')
    last = lines.pop()
    lines = [line.removesuffix(b'\r') for line in lines]
    return lines + [last] if last else lines


def parted(data):
    """The script of an input, and what stands behind the first line `---`."""
    lines = lines_of(data)
    if b'---' not in lines:
        return data, b''
    before = lines.index(b'---')
    pieces = data.split(b'\n')
    return b''.join(line + b'\n' for line in pieces[:before]), b'\n'.join(pieces[before + 1:])


def divided(data):
    """The script of an input, and the lines of trace words behind the first line `---`."""
    script, words = parted(data)
    return script, lines_of(words)


def answer(data):
    """The result for a whole input, a script and its words, which runs in the mode `rendezvous`."""
    return answer_lines(*divided(data), RENDEZVOUS)


def answer_file(script, data, mode=RENDEZVOUS):
    """The result for a script in a file, and an input that has the words alone."""
    return answer_lines(script, lines_of(data), mode)


def refusal(text, fault):
    """The result for the text of a script that has a fault."""
    line = 1 + text.count(b'\n', 0, fault.place)
    message = f'mpdbg: script refused {fault.number} {FAULT_NAMES[fault.number]} at {fault.place} line {line}\n'
    return Result(b'', message.encode(), 2)


def answer_lines(text, lines, mode):
    """The result for the text of a script and the lines behind it."""
    try:
        debugger = Debugger(read_script(text), mode)
    except Fault as fault:
        return refusal(text, fault)
    answers = [debugger.answer(line) for line in lines]
    return Result(''.join(text + '\n' for text in answers if text is not None).encode(), b'', 0)


def answer_packets(packets):
    """The result for an input of which each read gives one packet; the read of its end counts too."""
    if len(packets) < MOST_READS:
        return answer(b''.join(packets))
    read = b''.join(packets[:MOST_READS])
    whole_lines = read[:read.rfind(b'\n') + 1]
    return Result(answer(whole_lines).output, b'mpdbg: turns\n', 3)


def file_content(path):
    """What a file holds; None where it can't be read."""
    try:
        with open(path, 'rb') as file:
            return file.read()
    except OSError:
        return None
