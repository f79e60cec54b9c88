"""Faults that are put into explanations of the model on purpose: explained.py must notice each.

Lines of other statements, texts of calls with other parts, near misses of the wrong kind, pairs that weren't the last, other ranks that are
waited for, cycles where there are none, and explanations at another place.
"""

import re

from faults.policy_faults import Breakage
from model import explaining, explorer
from model.debugger import find_call, is_at_barrier, last_call, partner
from model.explaining import DESTINATION, SOURCE, TAG
from model.language import Binary, Place, Unary
from model.worlds import CallId

SOUND = {name: getattr(explaining, name) for name in (
    'reached', 'next_line', 'plain_text', 'call_text', 'wish', 'wishing', 'differences', 'all_free', 'near_misses', 'nearest_miss', 'is_due',
    'pairs_taken', 'last_taken', 'chances', 'requests', 'has_ended', 'not_there', 'why_not_there', 'behind', 'blocked_lines', 'partners_of', 'waited_for', 'rank_text', 'whom_line',
    'next_of', 'cycle_from', 'cycles', 'cycle_line', 'deadlock_lines', 'trap_lines', 'awaited_calls', 'left_lines', 'explanation', 'with_values', 'values_text', 'names_in',
    'names_read', 'places_of', 'expressions_of')}
SOUND |= {name: getattr(explorer, name) for name in ('leaf_lines', 'group_text', 'explained', 'checked')}


def after(name, change):
    """What gives something else, by what the sound function gives and what it is given."""
    return lambda *given: change(SOUND[name](*given), *given)


def named(name, owner=explaining):
    """Faults that stand in the place of a function, each by what it is called."""
    return lambda *faults: [Breakage(f'{name}: {what}', owner, name, replacement) for what, replacement in faults]


# ---- lines and texts of calls

def lines_changed(change):
    """What gives calls other lines, by the lines, and the world."""
    return after('reached', lambda at, *_: at._replace(lines=change(at.lines, at.world)))


def of_first_call(lines, world):
    return {call_id: lines[CallId(call_id.rank, 0)] for call_id in lines}


def of_last_call(lines, world):
    return {call_id: lines[last_call(world, call_id.rank)] for call_id in lines}


def of_call_before(lines, world):
    return {call_id: lines[CallId(call_id.rank, max(0, call_id.number - 1))] for call_id in lines}


def where_ranks_are(lines, world):
    """The line that a rank is at, where it is at one."""
    return {call_id: line if world.ranks[call_id.rank].rest is None else SOUND['next_line'](world.ranks[call_id.rank])
            for call_id, line in lines.items()}


def of_target(at, call_id):
    """What tells a wait at the line of what it waits for."""
    call = find_call(at.world, call_id)
    if call.kind == 'wait':
        return SOUND['call_text'](at, call_id).replace(f'line {at.lines[call_id]}', f'line {at.lines[CallId(call_id.rank, call.target)]}')
    return SOUND['call_text'](at, call_id)


def without_word(text, call):
    """A call that blocks as well as one that doesn't."""
    return text[1:] if text.startswith('i') else text


def of_call(change):
    """What changes the text of a call, by the call."""
    return after('plain_text', lambda text, world, call_id: change(text, find_call(world, call_id)))


def line_faults():
    return (named('reached')(
                *((what, lines_changed(change)) for what, change in (
                    ('the line behind', lambda lines, world: {call_id: line + 1 for call_id, line in lines.items()}),
                    ("the line of the rank's first call", of_first_call), ("the line of the rank's last call", of_last_call),
                    ('the line of the call before', of_call_before), ('where the rank is', where_ranks_are))))
            + named('call_text')(
                ('a wait at the line of its request', of_target),
                ('no line', after('call_text', lambda text, *_: text.partition(', ')[2])),
                ('no rank', lambda at, call_id: SOUND['call_text'](at, call_id).replace(f' {call_id} ', f' {call_id.number} ', 1)),
                ('free where it is free', lambda at, call_id: SOUND['call_text'](at, call_id) + (
                    ' free' if find_call(at.world, call_id).kind in ('send', 'recv') and partner(at.world, call_id) is None else '')),
                ('its mark', lambda at, call_id: SOUND['call_text'](at, call_id) + (
                    ' buffered' if getattr(find_call(at.world, call_id), 'buffered', False) else '')),
                ('with its partner', lambda at, call_id: SOUND['call_text'](at, call_id) + (
                    f' with {partner(at.world, call_id)}' if partner(at.world, call_id) is not None else '')))
            + named('plain_text')(
                ('no value', of_call(lambda text, call: text.partition(' value')[0])),
                ('calls that block and others alike', of_call(without_word)),
                ('synchronous sends and others alike', of_call(lambda text, call: text.replace('ssend', 'send'))),
                ('no tag', of_call(lambda text, call: text.partition(' tag')[0])),
                ('a wait without its request', of_call(lambda text, call: text if call.kind != 'wait' else 'wait')),
                ('the handle of a wait', of_call(lambda text, call: text if call.kind != 'wait' else f'wait {call.handle}')),
                ('a wait for any without its handles', of_call(lambda text, call: text if call.kind != 'waitany' else 'waitany'))))


# ---- wishes, and what could have ended a wait

def swapped(text, at, call_id):
    """A wish for a receive from the rank that it goes to."""
    call = find_call(at.world, call_id)
    return text if call.kind != 'send' else f'for a receive of rank {call_id.rank} from rank {call.other} with tag {call.tag}'


def wish_faults():
    return named('wish')(
        ('the ranks of a send swapped', after('wish', swapped)), ('no tag', after('wish', lambda text, *_: text.partition(' with')[0])),
        ('the same of sends and receives', after('wish', lambda text, *_: text.replace('for a receive', 'for a send'))),
        ('rank any', after('wish', lambda text, *_: text.replace('any rank', 'rank any'))),
        ('tag any', after('wish', lambda text, *_: text.replace('any tag', 'tag any'))),
        ('a wait for any as a wait', after('wish', lambda text, *_: text.replace('one of these requests', 'this request'))),
        ('a wait for a request that is not named', after('wish', lambda text, *_: re.sub(r'for request \S+', 'for this request', text))),
        ('the number of a request without its rank', after('wish', lambda text, *_: re.sub(r'for request \d+\.', 'for request ', text))),
        ('the source of a receive as its own rank', lambda at, call_id: SOUND['wish'](at, call_id) if find_call(at.world, call_id).kind != 'recv'
            else f'for a send of rank {call_id.rank} with tag {find_call(at.world, call_id).tag}'))


def misses_changed(change):
    """What gives other near misses, by those that there are, the world and the call."""
    return lambda world, call_id: change(list(SOUND['near_misses'](world, call_id)), world, call_id)


def two_things(world, call_id):
    """What nearly fits where more than one thing differs, the first of which is told."""
    for other in SOUND['all_free'](world):
        if (pair := explaining.sorted_pair(world, call_id, other)) is not None and (differs := SOUND['differences'](world, *pair)):
            yield other, differs[0]


def with_paired(world):
    return [CallId(number, place) for number, rank in enumerate(world.ranks) for place, call in enumerate(rank.calls) if call.kind in ('send', 'recv')]


def waited_alone(world):
    """The free calls that a rank is blocked on, and no requests."""
    return [call_id for call_id in SOUND['all_free'](world) if find_call(world, call_id).blocks]


def by_numbers(world):
    return sorted(SOUND['all_free'](world), key=lambda call_id: (call_id.number, call_id.rank))


def differing_otherwise(change):
    """What says that other things differ, by those that do, the send and the receive."""
    return lambda world, send_id, receive_id: change(SOUND['differences'](world, send_id, receive_id), find_call(world, send_id),
                                                     find_call(world, receive_id), send_id)


def by_number(found, send, receive, send_id):
    """What takes `any` of a tag for no tag at all."""
    return [TAG, *found] if receive.tag is None and TAG not in found else found


def by_name(found, send, receive, send_id):
    """What takes `any` of a source for no source at all."""
    return [part for part in (TAG, SOURCE, DESTINATION) if part in found or part == SOURCE and receive.other is None]


def first_of_all(world, call_id):
    return next(iter(SOUND['near_misses'](world, call_id)), None)


def chosen(world, call_id, key, turned=list):
    """The near miss that a key puts first, by whether it is due and the place of what differs in the order that holds for the call."""
    nearer = explaining.NEARER[find_call(world, call_id).kind]
    return min(turned(SOUND['near_misses'](world, call_id)), key=lambda found: key(SOUND['is_due'](world, found[0]), nearer.index(found[1])), default=None)


def last_of_all(world, call_id):
    return chosen(world, call_id, lambda due, place: (not due, place), lambda found: reversed(list(found)))


def preferring(*kinds):
    """What takes the kinds of near misses in another order, the same for sends and receives."""
    return lambda world, call_id: min(SOUND['near_misses'](world, call_id), default=None,
                                      key=lambda found: (not SOUND['is_due'](world, found[0]), kinds.index(found[1])))


def chosen_by(key):
    return lambda world, call_id: chosen(world, call_id, key)


def due_otherwise(change):
    """What says that other calls are due, by whether they are, the world, the name and the call."""
    return lambda world, call_id: change(SOUND['is_due'](world, call_id), world, call_id, find_call(world, call_id))


def due_faults():
    return (named('is_due')(
                ('all', due_otherwise(lambda *_: True)), ('none', due_otherwise(lambda *_: False)), ('the others', due_otherwise(lambda due, *_: not due)),
                ('no request', due_otherwise(lambda due, world, call_id, call: call.blocks or call.buffered)),
                ('no buffered send', due_otherwise(lambda due, world, call_id, call: due and not call.buffered)),
                ('each request of a blocked rank', due_otherwise(lambda due, world, call_id, call: due or world.ranks[call_id.rank].mode == 'blocked')),
                ('the calls of a rank that has ended', due_otherwise(
                    lambda due, world, call_id, call: due or explaining.has_ended(world.ranks[call_id.rank]))),
                ('sends alone', due_otherwise(lambda due, world, call_id, call: due and call.kind == 'send')),
                ('the first request of a wait for any alone', due_otherwise(
                    lambda due, world, call_id, call: call.blocks or call.buffered or due and call_id in SOUND['requests'](world, call_id.rank)[:1])))
            + named('nearest_miss')(
                ('what differs before whether it is due', chosen_by(lambda due, place: (place, not due))),
                ('one that is due last', chosen_by(lambda due, place: (due, place))),
                ('one of another rank before one of the rank that is waited for', chosen_by(lambda due, place: (not due, (0, 2, 1)[place])))))


def named_otherwise(one, other):
    """What calls a near miss of one kind one of the other."""
    def nearest_miss(world, call_id):
        found = SOUND['nearest_miss'](world, call_id)
        return (found[0], other) if found is not None and found[1] == one else found
    return nearest_miss


def miss_faults():
    return (named('near_misses')(
                ('where two things differ', two_things),
                *((f'none of another {kind}', misses_changed(lambda found, *_, kind=kind: [one for one in found if one[1] != kind]))
                  for kind in (TAG, SOURCE, DESTINATION)),
                ('those of other ranks alone', misses_changed(lambda found, world, call_id: [one for one in found if one[0].rank != call_id.rank])))
            + named('all_free')(('paired calls too', with_paired), ('by number and rank', by_numbers), ('no requests', waited_alone),
                                ('from the last rank on', lambda world: sorted(SOUND['all_free'](world), key=lambda call_id: (-call_id.rank, call_id.number))))
            + named('differences')(('any tag is no tag', differing_otherwise(by_number)), ('any source is no source', differing_otherwise(by_name)))
            + named('nearest_miss')(
                ('the first of all kinds', first_of_all), ('the last of its kind', last_of_all), ('the source first', preferring(SOURCE, TAG, DESTINATION)),
                ('the destination before the source', preferring(TAG, DESTINATION, SOURCE)), ('the source before the destination', preferring(TAG, SOURCE, DESTINATION)), ('the destination first', preferring(DESTINATION, TAG, SOURCE)),
                ('source for destination', named_otherwise(DESTINATION, SOURCE)), ('destination for source', named_otherwise(SOURCE, DESTINATION)),
                ('source for tag', named_otherwise(TAG, SOURCE)), ('none', lambda world, call_id: None)))


def nearly_taken(world, call_id):
    """The last pair of which a call fits, or does so but for its tag."""
    for fitting, other in reversed(all_pairs(world, call_id)):
        if SOUND['differences'](world, *explaining.sorted_pair(world, call_id, fitting)) in ([], [TAG]):
            return fitting, other
    return None


def all_pairs(world, call_id):
    """Each pair, the call of the other kind first."""
    is_send = find_call(world, call_id).kind == 'send'
    pairs = [record for record in world.records if isinstance(record, explaining.Pair)]
    return [(pair.receive, pair.send) if is_send else (pair.send, pair.receive) for pair in pairs]


def of_highest_number(world, call_id):
    """The pair of the call that stands last by rank and number."""
    return max(SOUND['pairs_taken'](world, call_id), default=None)


def taken_faults():
    return (named('last_taken')(
                ('the first pair', lambda world, call_id: next(iter(SOUND['pairs_taken'](world, call_id)), None)),
                ('the pair the other way round', after('last_taken', lambda found, *_: found and found[::-1])),
                ('a pair that nearly fits', nearly_taken), ('the last by rank and number', of_highest_number), ('none', lambda world, call_id: None))
            + named('chances')(
                ('what was taken first', after('chances', lambda found, *_: iter(sorted(found, key=lambda line: not line.startswith(explaining.TAKEN))))),
                ('what was taken where nothing nearly fits alone', after('chances', lambda found, *_: iter(list(found)[:1]))),
                ('what nearly fits where nothing was taken alone', after('chances', lambda found, *_: iter(list(found)[-1:])))))


# ---- requests, barriers, and whom a rank waits for

def all_handles(world, number):
    """All requests of a rank, whatever its wait for any is for."""
    rank = world.ranks[number]
    if rank.calls[-1].kind != 'waitany':
        return SOUND['requests'](world, number)
    return [CallId(number, handle) for handle in rank.handles if handle is not None]


def still_blocked(rank):
    """What takes a rank for ended that has no statement left, though it waits."""
    return rank.rest is None


def of_waits(change):
    """What tells other lines behind a wait."""
    def behind(at, call_id):
        found = SOUND['behind'](at, call_id)
        return change(found) if find_call(at.world, call_id).kind in ('wait', 'waitany') else found
    return behind


def indented(lines):
    """What sets what could have ended a wait for a request below that request."""
    return [line if line.startswith('line ') else f'  {line}' for line in lines]


def waits_at(at, call_id):
    return f'it waits at {explaining.call_text(at, call_id)}'


def absent_where(holds, change):
    """What tells otherwise where a rank is that isn't at a barrier, of ranks of which something holds; by where it is reached, and the rank's number."""
    return lambda at, number: change(at, number) if holds(at.world.ranks[number]) else SOUND['why_not_there'](at, number)


def of_waiting(change):
    return absent_where(lambda rank: rank.mode == 'blocked', change)


def at_next_statement(at, number):
    """What takes a rank for one that goes on behind its call."""
    rank = at.world.ranks[number]
    return 'it has ended' if rank.rest is None else f'it is at line {SOUND["next_line"](rank)}'


def call_at_next_statement(at, number):
    """What tells the call of a rank at the line of the statement behind it."""
    rank, told = at.world.ranks[number], SOUND['why_not_there'](at, number)
    return told if rank.rest is None else re.sub('line [0-9]+', f'line {SOUND["next_line"](rank)}', told)


def request_of(at, number):
    """What tells the request that a rank waits for in the place of its wait."""
    return waits_at(at, next(iter(SOUND['requests'](at.world, number)), last_call(at.world, number)))


def absence_faults():
    return named('why_not_there')(
        ('always ended', lambda at, number: 'it has ended'),
        ('at another call', of_waiting(lambda at, number: 'it is at another call')),
        ('the first call of the rank', of_waiting(lambda at, number: waits_at(at, CallId(number, 0)))),
        ('the call before', of_waiting(lambda at, number: waits_at(at, CallId(number, max(0, last_call(at.world, number).number - 1))))),
        ('the call of the first rank that waits', of_waiting(lambda at, number: waits_at(at, explaining.debugger.blocked_calls(at.world)[0]))),
        ('the call of the last rank that waits', of_waiting(lambda at, number: waits_at(at, explaining.debugger.blocked_calls(at.world)[-1]))),
        ('the next statement of a rank that waits', of_waiting(at_next_statement)),
        ('a call at the line of the next statement', of_waiting(call_at_next_statement)),
        ('the request that is waited for', of_waiting(request_of)),
        ('no line', of_waiting(lambda at, number: re.sub('line [0-9]+, ', '', SOUND['why_not_there'](at, number)))),
        ('the line alone', of_waiting(lambda at, number: SOUND['why_not_there'](at, number).partition(',')[0])),
        ('what it waits for', of_waiting(lambda at, number: f'it waits at {explaining.wishing(at, last_call(at.world, number))}')),
        ('a rank that has ended waits', absent_where(lambda rank: SOUND['has_ended'](rank) and rank.calls,
                                                     lambda at, number: waits_at(at, last_call(at.world, number)))))


def behind_faults():
    return (named('requests')(
                ('by number', after('requests', lambda found, *_: sorted(found))), ('the first alone', after('requests', lambda found, *_: found[:1])),
                ('all handles of the rank', all_handles), ('from the last handle on', after('requests', lambda found, *_: found[::-1])))
            + named('has_ended')(('a rank that waits with nothing behind', still_blocked), ('no rank', lambda rank: False),
                                 ('a rank that waits with nothing behind alone', lambda rank: rank.rest is None and rank.mode == 'blocked'))
            + named('not_there')(
                ('those that are there', lambda world: [number for number, rank in enumerate(world.ranks) if is_at_barrier(rank)]),
                ('those that have ended alone', lambda world: [number for number, rank in enumerate(world.ranks) if SOUND['has_ended'](rank)]),
                ('those that wait alone', lambda world: [number for number in SOUND['not_there'](world) if not SOUND['has_ended'](world.ranks[number])]),
                ('the first alone', lambda world: SOUND['not_there'](world)[:1]))
            + absence_faults()
            + named('behind')(
                ('nothing behind a wait', of_waits(lambda lines: [])), ('six spaces', of_waits(indented)),
                ('requests alone', of_waits(lambda lines: [line for line in lines if line.startswith('line ')])),
                ('no requests', of_waits(lambda lines: [line for line in lines if not line.startswith('line ')])),
                ('requests without what they want', of_waits(lambda lines: [line.partition(': for ')[0] for line in lines]))))


def as_asked(name, change):
    """What gives other ranks for a receive of any source."""
    return lambda world, call_id: change(world, call_id) if find_call(world, call_id).other is None else SOUND[name](world, call_id)


def others_alive(world, call_id):
    return {number for number in SOUND['partners_of'](world, call_id) if not SOUND['has_ended'](world.ranks[number])}


def whom_faults():
    return (named('partners_of')(
                ('itself too, of any source', as_asked('partners_of', lambda world, call_id: set(range(len(world.ranks))))),
                ('nobody, of any source', as_asked('partners_of', lambda world, call_id: set())),
                ('those that have not ended, of any source', as_asked('partners_of', others_alive)), ('those that have not ended', others_alive),
                ('not itself', lambda world, call_id: SOUND['partners_of'](world, call_id) - {call_id.rank}))
            + named('waited_for')(
                ('from the last on', after('waited_for', lambda found, *_: found[::-1])), ('the first alone', after('waited_for', lambda found, *_: found[:1])),
                ('nobody at a barrier', lambda world, number: [] if is_at_barrier(world.ranks[number]) else SOUND['waited_for'](world, number)),
                ('all others at a barrier', lambda world, number: [other for other in range(len(world.ranks)) if other != number]
                    if is_at_barrier(world.ranks[number]) else SOUND['waited_for'](world, number)))
            + named('rank_text')(('never ended', lambda world, number: f'rank {number}'), ('the number alone', lambda world, number: str(number)))
            + named('whom_line')(
                ('nothing in the place of nobody', after('whom_line', lambda line, *_: line.removesuffix(' nobody'))),
                ('and before the last', after('whom_line', lambda line, *_: ' and'.join(line.rsplit(',', 1)))),
                ('any of all at a barrier', after('whom_line', lambda line, *_: line.replace('all of ', 'any of '))),
                ('all of any elsewhere', after('whom_line', lambda line, *_: line.replace('any of ', 'all of '))),
                ('neither any nor all', after('whom_line', lambda line, *_: re.sub('(any|all) of ', '', line))),
                ('any of one', after('whom_line', lambda line, *_: re.sub(r'waits for rank', 'waits for any of rank', line)))))


# ---- cycles

def of_lowest(world):
    """What takes the lowest rank that one waits for as the next one."""
    blocked = [number for number, rank in enumerate(world.ranks) if rank.mode == 'blocked']
    return {number: ranks[0] for number in blocked if (ranks := SOUND['waited_for'](world, number))}


def without_ended(world):
    """What takes the one rank that one waits for beside such as have ended."""
    nexts = {}
    for number in (number for number, rank in enumerate(world.ranks) if rank.mode == 'blocked'):
        waiting = [other for other in SOUND['waited_for'](world, number) if not SOUND['has_ended'](world.ranks[other])]
        nexts |= {number: waiting[0]} if len(waiting) == 1 else {}
    return nexts


def into_a_cycle(nexts, first):
    """What tells a cycle at each rank that comes to one."""
    ranks = [first]
    while (following := nexts.get(ranks[-1])) is not None:
        if following in ranks:
            return [first, *ranks[1:], first]
        ranks.append(following)
    return None


def of_every_rank(world):
    nexts = SOUND['next_of'](world)
    return [cycle for first in sorted(nexts) if (cycle := SOUND['cycle_from'](nexts, first)) is not None]


def from_highest(cycle):
    """A cycle from its highest rank on."""
    ranks = cycle[:-1]
    at = ranks.index(max(ranks))
    return [*ranks[at:], *ranks[:at], ranks[at]]


def changed_cycles(change):
    return after('cycles', lambda found, *_: change(found))


def cycle_faults():
    return (named('next_of')(('the lowest of several', of_lowest), ('the one that has not ended', without_ended))
            + named('cycle_from')(('of ranks that come to a cycle', into_a_cycle))
            + named('cycles')(
                ('at each of its ranks', of_every_rank), *((what, changed_cycles(change)) for what, change in (
                    ('none of one rank', lambda found: [cycle for cycle in found if len(cycle) > 2]),
                    ('none of two ranks', lambda found: [cycle for cycle in found if len(cycle) != 3]),
                    ('none of more ranks', lambda found: [cycle for cycle in found if len(cycle) < 4]),
                    ('the first alone', lambda found: found[:1]), ('the last first', lambda found: found[::-1]), ('none', lambda found: []),
                    ('the other way round', lambda found: [cycle[::-1] for cycle in found]),
                    ('from the highest rank', lambda found: list(map(from_highest, found))),
                    ('the first rank once', lambda found: [cycle[:-1] for cycle in found]))),
                ('one of all ranks where there is none', lambda world: SOUND['cycles'](world) or [[*range(len(world.ranks)), 0]])))


# ---- what a trapped rank holds

def of_another_rank(step):
    """What tells the values of another rank, so many further on."""
    return lambda at, number, names: SOUND['with_values'](at, (number + step) % len(at.world.ranks), names)


def of_some(chosen):
    """What tells some of the names, by the list of all."""
    return lambda at, number, names: SOUND['with_values'](at, number, dict(chosen(list(names.items()))))


def in_turn(expression):
    """The names that stand in an expression, from left to right."""
    if isinstance(expression, Place):
        return [expression.name, *([] if expression.size is None else in_turn(expression.index))]
    parts = {Unary: ('operand',), Binary: ('left', 'right')}.get(type(expression), ())
    return [name for part in parts for name in in_turn(getattr(expression, part))]


def by_statement(at, names, number):
    """What tells the names in the order in which they stand in the statement."""
    expressions = SOUND['expressions_of'](at.world.ranks[number].rest[0])
    return SOUND['with_values'](at, number, {name: names[name] for expression in expressions for name in in_turn(expression)})


def of_statement_behind(at, names, number):
    """What tells what the statement behind reads, where there is one."""
    rest = at.world.ranks[number].rest[1]
    read = set() if rest is None else SOUND['names_read'](rest[0])
    return SOUND['with_values'](at, number, {name: declared for name, declared in names.items() if name in read})


def reads_of(kind, change):
    """What reads other names in an expression of a kind, by the expression."""
    return lambda expression: change(expression) if isinstance(expression, kind) else SOUND['names_in'](expression)


def without(part):
    """What leaves out a part of a statement, where that is an expression of it."""
    return lambda statement: [found for found in SOUND['expressions_of'](statement) if found is not getattr(statement, part, None)]


def no_places(part):
    """What leaves out the places of a part of a statement."""
    left_out = (lambda statement: getattr(statement, part, None) or ()) if part == 'status' else (lambda statement: [getattr(statement, part, None)])
    return lambda statement: [place for place in SOUND['places_of'](statement) if all(place is not other for other in left_out(statement))]


def with_inside(statement):
    """What reads what the statements inside read, too."""
    inside = [*getattr(statement, 'then', ()), *getattr(statement, 'otherwise', ()), *getattr(statement, 'body', ())]
    return SOUND['names_read'](statement).union(*map(with_inside, inside))


def value_faults():
    return (named('with_values')(
                ('of the next rank', of_another_rank(1)), ('of the rank before', of_another_rank(-1)), ('but the last', of_some(lambda found: found[:-1])),
                ('the first alone', of_some(lambda found: found[:1])), ('but the first', of_some(lambda found: found[1:])),
                ('the last first', of_some(lambda found: found[::-1])), ('by their names', of_some(sorted)),
                ('no array', of_some(lambda found: [(name, declared) for name, declared in found if declared.size is None])),
                ('arrays alone', of_some(lambda found: [(name, declared) for name, declared in found if declared.size is not None])),
                ('with nothing', after('with_values', lambda text, *_: text or ', with nothing')),
                ('a colon', after('with_values', lambda text, *_: text.replace(', with ', ': '))),
                ('and before the last', after('with_values', lambda text, *_: ' and'.join(text.rsplit(',', 1)) if text.count(' = ') > 1 else text)))
            + named('values_text')(
                ('all', lambda at, names, number: SOUND['with_values'](at, number, {name: it for name, it in names.items() if it.kind == 'var'})),
                ('by the statement', by_statement), ('of the statement behind', of_statement_behind))
            + named('names_in')(
                ('no index', reads_of(Place, lambda place: {place.name})),
                ('the index alone', reads_of(Place, lambda place: {place.name} if place.size is None else explaining.names_in(place.index))),
                ('the left side alone', reads_of(Binary, lambda binary: explaining.names_in(binary.left))),
                ('the right side alone', reads_of(Binary, lambda binary: explaining.names_in(binary.right))),
                ('nothing behind a sign', reads_of(Unary, lambda unary: set())))
            + named('expressions_of')(*((f'no {part}', without(part)) for part in ('value', 'condition', 'to', 'tag', 'source')),
                                      ('the place itself', lambda statement: [*SOUND['expressions_of'](statement), *(
                                          [statement.place] if getattr(statement, 'place', None) is not None else [])]))
            + named('places_of')(*((f'no {part}', no_places(part)) for part in ('handle', 'place', 'status')),
                                 ('one of a status', lambda statement: SOUND['places_of'](statement)[:3 - (getattr(statement, 'handle', None) is None)]))
            + named('names_read')(('of the statements inside too', with_inside)))


# ---- explanations, and where they stand

def with_blocked(lines, at, *_):
    """What tells the blocked ranks beside a trap as well."""
    return [*lines, *(line for number, rank in enumerate(at.world.ranks) if rank.mode == 'blocked'
                      for line in SOUND['blocked_lines'](at, last_call(at.world, number)))]


def each_with_whom(at):
    """What tells whom a rank waits for behind its own lines."""
    blocked = explaining.debugger.blocked_calls(at.world)
    lines = [line for call_id in blocked for line in (*SOUND['blocked_lines'](at, call_id), SOUND['whom_line'](at.world, call_id.rank))]
    return lines + [SOUND['cycle_line'](cycle) for cycle in SOUND['cycles'](at.world)]


def cycles_first(lines, at):
    return [line for line in lines if ': rank ' in line] + [line for line in lines if ': rank ' not in line]


def of_outcomes(*words):
    """What explains leaves of these outcomes alone."""
    return after('explanation', lambda lines, script, mode, leaf: lines if leaf.outcome.split()[0] in words else ())


def first_of_each(world):
    """The first free call of each rank."""
    return list({call_id.rank: call_id for call_id in reversed(explaining.all_free(world))}.values())[::-1]


def before_witness(number, leaf, witnesses):
    """What explains a leaf before its witness."""
    return iter(sorted(SOUND['leaf_lines'](number, leaf, witnesses), key=lambda line: line.startswith('witness ')))


def as_first(script, mode, found):
    """What explains each leaf as the first one that ends so."""
    found, known = SOUND['explained'](script, mode, found), {}
    return found._replace(leaves=tuple(leaf._replace(explained=known.setdefault(str(leaf.outcome), leaf.explained)) for leaf in found.leaves))


def as_last(found, witnesses):
    """What explains each end as the last leaf that ends so."""
    last = {leaf.outcome: leaf.explained for leaf in found.leaves}
    return SOUND['group_text'](found._replace(leaves=tuple(leaf._replace(explained=last[leaf.outcome]) for leaf in found.leaves)), witnesses)


def as_last_told_alike(found, witnesses):
    """What explains each end as the last leaf that is told alike, whichever statements issued its calls or trap."""
    last = {str(leaf.outcome): leaf.explained for leaf in found.leaves}
    return SOUND['group_text'](found._replace(leaves=tuple(leaf._replace(explained=last[str(leaf.outcome)]) for leaf in found.leaves)), witnesses)


def first_alone(script, mode, found):
    """What explains the first deadlock or trap alone."""
    explained = SOUND['explained'](script, mode, found)
    at = next((place for place, leaf in enumerate(explained.leaves) if leaf.explained), 0)
    return found._replace(leaves=(*found.leaves[:at], *explained.leaves[at:at + 1], *found.leaves[at + 1:]))


def unexplained_groups(found, witnesses):
    return SOUND['group_text'](found._replace(leaves=tuple(leaf._replace(explained=()) for leaf in found.leaves)), witnesses)


def as_another(other):
    """What explains each end as another one, by its number and how many there are."""
    def text(found, witnesses):
        leaves, ends = list(found.leaves), explorer.ends_of(found)
        for number, end in enumerate(ends):
            explained = found.leaves[ends[other(number, len(ends))].first].explained
            leaves[end.first] = leaves[end.first]._replace(explained=explained)
        return SOUND['group_text'](found._replace(leaves=tuple(leaves)), witnesses)
    return text


def checked_otherwise(change):
    """What checks by other options, by those that are asked for."""
    return lambda script, asked: SOUND['checked'](script, asked._replace(**change(asked)))


def is_left(line):
    return line.startswith('  left over: ')


def left_first(lines, _):
    return [line for line in lines if is_left(line)] + [line for line in lines if not is_left(line)]


def left_before_cycles(lines, _):
    """The lines of what is left over stand before those of cycles."""
    return sorted(lines, key=lambda line: 2 if line.startswith(f'  {explaining.CYCLE}') else 1 if is_left(line) else 0)


def without_near_misses(at, awaited=frozenset()):
    """What is left over at a deadlock, but for what is told as a near miss of a blocked call."""
    messages = [call_id for call_id in awaited if find_call(at.world, call_id).kind in ('send', 'recv')]
    missed = {found[0] for call_id in messages if (found := explaining.nearest_miss(at.world, call_id)) is not None}
    return SOUND['left_lines'](at, {*awaited, *missed})


def place_faults():
    return (named('deadlock_lines')(
                ('whom behind each call', each_with_whom), ('cycles first', after('deadlock_lines', cycles_first)),
                ('what is left over first', after('deadlock_lines', left_first)),
                ('what is left over before cycles', after('deadlock_lines', left_before_cycles)),
                ('blocked calls alone', after('deadlock_lines', lambda lines, at: [line for line in lines if ' waits at ' in line or line.startswith('    ')])),
                ('the first blocked call alone', after('deadlock_lines', lambda lines, at: [
                    line for place, line in enumerate(lines) if not place or not line.startswith('  rank') or ' waits at ' not in line])))
            + named('trap_lines')(
                ('the first alone', after('trap_lines', lambda lines, *_: lines[:1])), ('the blocked ranks too', after('trap_lines', with_blocked)),
                ('no line', after('trap_lines', lambda lines, *_: [f'{line.partition(",")[0]}:{line.partition(":")[2]}' for line in lines])))
            + named('left_lines')(
                ('the first alone', after('left_lines', lambda lines, *_: lines[:1])), ('the last first', after('left_lines', lambda lines, *_: lines[::-1])),
                ('sends alone', after('left_lines', lambda lines, *_: [line for line in lines if 'send ' in line])),
                ('of each rank the first', lambda at, awaited=(): [
                    f'  left over: {explaining.call_text(at, call_id)}' for call_id in first_of_each(at.world) if call_id not in awaited]),
                ('no line', after('left_lines', lambda lines, *_: [re.sub('line [0-9]+, ', '', line) for line in lines])),
                ('four spaces', after('left_lines', lambda lines, *_: [f'  {line}' for line in lines])),
                ('what it waits for', lambda at, awaited=(): [
                    f'  left over: {explaining.wishing(at, call_id)}' for call_id in explaining.all_free(at.world) if call_id not in awaited]),
                ('all that are free', lambda at, awaited=(): SOUND['left_lines'](at)),
                ('none of a deadlock', lambda at, awaited=(): [] if awaited else SOUND['left_lines'](at)),
                ('of ranks that are not blocked', lambda at, awaited=(): SOUND['left_lines'](
                    at, {*awaited, *(call_id for call_id in explaining.all_free(at.world) if awaited and at.world.ranks[call_id.rank].mode == 'blocked')})),
                ('those that nearly fit left out', without_near_misses))
            + named('awaited_calls')(
                ('without the requests of waits', lambda world, blocked: set(blocked)),
                ('without the blocked calls', lambda world, blocked: SOUND['awaited_calls'](world, blocked) - set(blocked)),
                ('of waits for several the first alone', lambda world, blocked: {
                    *blocked, *(request for call_id in blocked for request in explaining.requests(world, call_id.rank)[:1])}))
            + named('next_line')(('the line before', lambda rank: SOUND['next_line'](rank) - 1))
            + named('explanation')(
                ('deadlocks alone', of_outcomes('deadlock')), ('traps alone', of_outcomes('trap')), ('no leftovers', of_outcomes('deadlock', 'trap')))
            + named('leaf_lines', explorer)(
                ('before the witness', before_witness), ('four spaces', after('leaf_lines', lambda lines, *_: iter([
                    f'  {line}' if line.startswith('  ') else line for line in lines]))))
            + named('explained', explorer)(('as the first that ends so', as_first), ('the first alone', first_alone))
            + named('group_text', explorer)(
                ('as the last that ends so', as_last), ('as the last that is told alike', as_last_told_alike), ('not explained', unexplained_groups), ('all as the first end', as_another(lambda number, count: 0)),
                ('as the next end', as_another(lambda number, count: (number + 1) % count)))
            + named('checked', explorer)(
                ('explained though it is not asked for', checked_otherwise(lambda asked: {'explain': True})),
                ('a witness where it is explained', checked_otherwise(lambda asked: {'witnesses': asked.witnesses or asked.explain})),
                ('no explanation by several pieces', checked_otherwise(lambda asked: {'explain': asked.explain and asked.split == 0})),
                ('no explanation of a piece', checked_otherwise(lambda asked: {'explain': asked.explain and asked.piece is None}))))


def breakages():
    """All of them."""
    return [*line_faults(), *wish_faults(), *miss_faults(), *due_faults(), *taken_faults(), *behind_faults(), *whom_faults(), *cycle_faults(),
            *value_faults(), *place_faults()]
