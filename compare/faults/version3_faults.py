"""Faults of the rules of version 3 that are put into the model on purpose, each of which version3.py must notice: by worked rows, or by scripts.

Of the reader, of what calls give and get, of whom a collective waits for, of rounds, of probes, of what tells states apart, and of texts. The model
takes no step back by undoing it, so a wake whose undo leaves a cell as it was written has no fault here.
"""

from typing import NamedTuple

from faults.policy_faults import Breakage
from model import canonical, collectives, debugger, explaining, language, states
from model.debugger import find_call, last_call
from model.language import Assign, Binary, Declared, Line, Number, Place, Reader, Tokens, While
from model.worlds import Pair


class Sound(NamedTuple):
    """What is not broken."""
    alike: object
    gets_from: object
    waits_for: object
    is_met_by: object
    round_of: object
    gotten: object
    given_to: object
    collective_writes: object
    collective_text: object
    in_round: object


SOUND = Sound(*(getattr(collectives, name) for name in Sound._fields))


# ---- whom a collective waits for, and what is alike

def everybody(world, _):
    return list(range(len(world.ranks)))


def alike_by(*parts):
    """What takes calls for alike by some of their parts alone."""
    return lambda one, other: one.kind in collectives.KINDS and other.kind in collectives.KINDS and all(
        getattr(one, part) == getattr(other, part) for part in parts)


def alike_or_barrier(one, other):
    return SOUND.alike(one, other) or other.kind == 'barrier'


def there_already(world, call_id):
    """Of a scan those alone that came before."""
    found = SOUND.gets_from(world, call_id)
    if collectives.call_at(world, call_id).kind != 'scan':
        return found
    turn = collectives.round_of(world, call_id)
    return [number for number in found if collectives.in_round(world, number, turn) is not None]


def below_own(world, call_id):
    """Of a scan those below the own rank alone."""
    found = SOUND.gets_from(world, call_id)
    return found[:-1] if collectives.call_at(world, call_id).kind == 'scan' else found


def waiting_faults():
    return [Breakage(name, collectives, attribute, replacement) for name, attribute, replacement in (
        ('all are waited for in buffered', 'waits_for', everybody),
        ('those that it gets from are waited for elsewhere', 'waits_for', SOUND.gets_from),
        ('alike without the root', 'alike', alike_by('kind', 'operation')), ('alike without the operation', 'alike', alike_by('kind', 'root')),
        ('alike without the kind', 'alike', alike_by('root', 'operation')), ('alike though it is a barrier', 'alike', alike_or_barrier),
        ('any call is alike', 'alike', alike_by()),
        ('a scan of those that came first', 'gets_from', there_already), ('a scan without its own', 'gets_from', below_own),
        ('a root that gets nothing', 'gets_from', lambda world, call_id: [] if collectives.call_at(world, call_id).kind in ('reduce', 'gather')
            else SOUND.gets_from(world, call_id)),
        ('all get what the root does', 'gets_from', lambda world, call_id: everybody(world, call_id)
            if collectives.call_at(world, call_id).kind in ('reduce', 'gather') else SOUND.gets_from(world, call_id)))]


# ---- rounds

def one_more(function):
    """What counts a round from 1."""
    return lambda world, call_id: function(world, call_id) + 1


def told_from_1(world, call_id):
    words = SOUND.collective_text(world, call_id).split()
    return ' '.join([*words[:-1], str(int(words[-1]) + 1)])


def met_in_next(world, call_id, number):
    """What looks for the call of another rank one round later, where it isn't its own."""
    if number == call_id.rank:
        return SOUND.is_met_by(world, call_id, number)
    other = collectives.in_round(world, number, collectives.round_of(world, call_id) + 1)
    return other is not None and collectives.alike(collectives.call_at(world, call_id), collectives.call_at(world, other))


def last_of(world, number, turn):
    """The last collective call of a rank, whatever round it is of."""
    calls = collectives.collectives(world, number)
    return calls[-1] if turn < len(calls) else None


def round_faults():
    return [Breakage(name, collectives, attribute, replacement) for name, attribute, replacement in (
        ('a barrier is no round', 'is_collective', lambda call: call.kind in collectives.KINDS),
        ('a round counted from 1 where it is told', 'collective_text', told_from_1),
        ('a round counted from 1 where others are sought', 'is_met_by', met_in_next),
        ('a round counted from 1', 'round_of', one_more(SOUND.round_of)),
        ('the last call in the place of that of the round', 'in_round', last_of),
        ('calls of all kinds are rounds', 'is_collective', lambda call: call.blocks))]


# ---- what is given and gotten

def own_left_out(world, call_id):
    """What joins the values of the others alone."""
    call, turn = collectives.call_at(world, call_id), collectives.round_of(world, call_id)
    if call.operation is None:
        return SOUND.gotten(world, call_id)
    others = [number for number in collectives.gets_from(world, call_id) if number != call_id.rank]
    values = [collectives.given_to(collectives.call_at(world, collectives.in_round(world, number, turn)), call_id.rank) for number in others]
    return [collectives.joined(call.operation, values)] if collectives.gets_from(world, call_id) else []


def now_held(world, call_id):
    """What gives of a bcast what the root holds now."""
    call = collectives.call_at(world, call_id)
    if call.kind != 'bcast':
        return SOUND.gotten(world, call_id)
    given = collectives.call_at(world, collectives.in_round(world, call.root, collectives.round_of(world, call_id)))
    return [world.ranks[call.root].cells[given.cell]]


def roots_own(call, number):
    """What gives of a scatter the root's own value to each."""
    return call.values[call.root] if call.kind == 'scatter' else SOUND.given_to(call, number)


def trapping(number):
    """What traps beyond 64 bits."""
    return language.in_range(number)


def joining(operation, start, join):
    return {**collectives.JOINS, operation: (start, join)}


def given_faults():
    return [Breakage(name, collectives, attribute, replacement) for name, attribute, replacement in (
        ('a reduction without its own', 'gotten', own_left_out), ('a bcast of what the root holds now', 'gotten', now_held),
        ('all cells but the last', 'collective_writes', lambda world, call_id: SOUND.collective_writes(world, call_id)[:-1] or
            SOUND.collective_writes(world, call_id)),
        ('values from the last rank to the first', 'gotten', lambda world, call_id: SOUND.gotten(world, call_id)[::-1]),
        ('a scatter of the root\'s own', 'given_to', roots_own), ('one value for each', 'ONE_FOR_EACH', ()),
        ('a sum that traps', 'wrapped', trapping),
        ('and of bits', 'JOINS', joining('and', -1, lambda one, other: one & other)),
        ('or of bits', 'JOINS', joining('or', 0, lambda one, other: one | other)),
        ('min from 0', 'JOINS', joining('min', 0, min)), ('max from 0', 'JOINS', joining('max', 0, max)),
        ('a product from 0', 'JOINS', joining('prod', 0, lambda one, other: collectives.wrapped(one * other))))]


# ---- probes

def taking(told_of):
    """What takes the send that a probe is told of."""
    def after(world, number, send_id):
        return debugger.without_free(told_of(world, number, send_id), send_id)
    return after


def pairing(told_of):
    """What pairs the send with the probe."""
    def after(world, number, send_id):
        behind = told_of(world, number, send_id)
        probe_id = last_call(world, number)
        return behind._replace(partners=behind.partners | {send_id: probe_id}, records=(*behind.records, Pair(send_id, probe_id)))
    return after


def tag_first(world, number, send_id):
    """What writes the tag before the source."""
    status = world.ranks[number].calls[-1].status or ()
    return debugger.woken(world, number, list(zip(status, (find_call(world, send_id).tag, send_id.rank))), None)


def nothing_told(world, number, _):
    return debugger.woken(world, number, [], None)


def found_by_any(world, number, sender):
    """What goes on by a choice from a probe that names its source, too."""
    if not debugger.is_at_probe(world.ranks[number]):
        return None
    return next((send for send in debugger.available(world, last_call(world, number)) if send.rank == sender), None)


def probe_faults():
    fits, ahead, posted = debugger.fits, debugger.sends_ahead, debugger.receives_ahead
    return [Breakage(name, debugger, attribute, replacement) for name, attribute, replacement in (
        ('told of what a posted receive takes', 'is_available',
            lambda world, send, probe: fits(world, send, probe) and not ahead(world, send, probe)),
        ('told of what is behind another', 'is_available', lambda world, send, probe: fits(world, send, probe) and not posted(world, send, probe)),
        ('told of any tag', 'is_available', lambda world, send, probe: debugger.takes_source(find_call(world, probe), send.rank)
            and not ahead(world, send, probe) and not posted(world, send, probe)),
        ('a probe that takes', 'told_of', taking(debugger.told_of)), ('a probe that is paired', 'told_of', pairing(debugger.told_of)),
        ('the tag is told before the source', 'told_of', tag_first), ('nothing is told', 'told_of', nothing_told),
        ('a probe of any source is forced', 'is_forced', lambda probe: True), ('a probe of a source is a choice', 'is_forced', lambda probe: False),
        ('a probe of a source may be chosen too', 'found_by_probe', found_by_any))]


# ---- what tells states apart

def told_by(told):
    """What tells of the calls of open rounds less than they ask for and give."""
    return lambda world: tuple(tuple(told(call) for call in calls) for calls in collectives.calls_of_open_rounds(world))


def without(part):
    """What a call asks for and gives, but for one part of it."""
    return lambda call: (call.kind, *(getattr(call, other) for other in ('root', 'operation', 'values') if other != part and call.kind != 'barrier'))


def rounds_left(rank):
    """How many rounds a rank has left."""
    return len(collectives.calls_in_rounds(rank)) - collectives.is_at_one(rank)


def of_later(first_of):
    """What tells of those rounds of a rank alone that are behind some."""
    return lambda world: tuple(tuple(map(states.asked_in_round, collectives.calls_in_rounds(rank)[first_of(world, rank):])) for rank in world.ranks)


def key_faults():
    return [Breakage(name, states, 'open_collectives', told) for name, told in (
        ('a key that forgets rounds', lambda world: ()), ('a key without what was given', told_by(without('values'))),
        ('a key without roots', told_by(without('root'))), ('a key without operations', told_by(without('operation'))),
        ('a key that forgets a round that one has left', of_later(lambda world, _: max(map(rounds_left, world.ranks)))),
        ('a key that forgets what its rank has left', of_later(lambda world, rank: rounds_left(rank))))]


# ---- the reader

def asked_once(reader, line):
    """A `for` whose end is asked once, and kept in a cell that nobody declared."""
    first, loop = SOUND_COUNTING(reader, line)
    kept = Place('', reader.taken['var'], None, None)
    reader.taken['var'] += 1
    return [first, Assign(line, kept, loop.condition.right), While(line, Binary('<', loop.condition.left, kept), loop.body)]


def up_to_end(reader, line):
    """A `for` whose last number is its end."""
    first, loop = SOUND_COUNTING(reader, line)
    return [first, While(line, loop.condition._replace(sign='<='), loop.body)]


def stepped_at_for(reader, place):
    """The step to the next number, at the line of nothing but itself: that of the statement before."""
    if reader.more_statements(1):
        raise reader.fault(language.TOO_MANY)
    return Assign(Line(1, 0), place, Binary('+', place, Number(1)))


def sent_first(reader, line, handle):
    """An exchange that sends before it posts what it receives."""
    received, send, wait = SOUND_EXCHANGING(reader, line, handle)
    return [send, received, wait]


def blocking(reader, line, handle):
    """An exchange as a send and a receive one behind the other."""
    received, send, _ = SOUND_EXCHANGING(reader, line, handle)
    return [send, received._replace(handle=None)]


def waited_backwards(reader, line):
    return SOUND_WAITING(reader, line)[::-1]


def declared_each_time(reader):
    """What declares a handle for each exchange."""
    reader.names[language.OWN_HANDLE] = Declared('req', reader.taken['req'], None)
    reader.taken['req'] += 1
    return Place(language.OWN_HANDLE, reader.taken['req'] - 1, None, None)


def no_block(reader):
    """An `if` behind `else` that opens no block."""
    return reader.statement()


def in_each_version(tokens, version):
    """What knows the words of version 3 in each version from 2 on."""
    SOUND_BECOME(tokens, max(version, 3) if version > 1 else version)


SOUND_COUNTING, SOUND_EXCHANGING, SOUND_WAITING, SOUND_BECOME = Reader.counting, Reader.exchanging, Reader.waiting_for_all, Tokens.become


def with_reserved(words):
    """What has more words reserved."""
    return language.RESERVED_IN_3 | frozenset(words)


def reader_faults():
    return [Breakage(name, owner, attribute, replacement) for name, owner, attribute, replacement in (
        ('a for whose end is asked once', Reader, 'counting', asked_once), ('a for up to its end', Reader, 'counting', up_to_end),
        ('the step of a for has another line', Reader, 'next_number', stepped_at_for),
        ('an exchange that sends first', Reader, 'exchanging', sent_first), ('an exchange that blocks', Reader, 'exchanging', blocking),
        ('waits for all from the last to the first', Reader, 'waiting_for_all', waited_backwards),
        ('a handle for each exchange', Reader, 'own_handle', declared_each_time),
        ('an if behind else opens no block', Reader, 'branch_behind_else', no_block),
        ('words of version 3 in version 2', Tokens, 'become', in_each_version),
        ('operations are reserved', language, 'RESERVED_IN_3', with_reserved(language.OPERATIONS)),
        ('for is no word', language, 'RESERVED_IN_3', language.RESERVED_IN_3 - {'for'}),
        ('a for is one statement', language, 'STANDS_FOR', {'sendrecv': 3}), ('an exchange is one statement', language, 'STANDS_FOR', {'for': 2}),
        ('two points are no sign', language, 'SIGN_OF_3', language.SIGN))]


# ---- checks and texts

def root_first(statement, view):
    """What checks the root before it evaluates what is given."""
    debugger.root_of(statement, view)
    return SOUND_COLLECTED(statement, view)


def unchecked(whole, _):
    return whole.first


def all_give(statement, view):
    """What has each rank give, also where the root alone does."""
    call = SOUND_COLLECTED(statement, view)
    return call._replace(values=debugger.given_values(statement.given, view))


def without_round(world, call_id):
    return SOUND.collective_text(world, call_id).rpartition(' round')[0]


def by_cells(statement):
    """The text of a collective that names an operation behind its root."""
    text = SOUND_TEXT(statement)
    return text.replace(f'with {statement.operation} to', 'to', 1) if statement.kind == 'reduce' else text


SOUND_COLLECTED, SOUND_TEXT = debugger.collected, canonical.collective_text


def text_faults():
    return [Breakage(name, owner, attribute, replacement) for name, owner, attribute, replacement in (
        ('the root is checked first', debugger, 'collected', root_first), ('an array is not checked', debugger, 'cells_checked', unchecked),
        ('all give to a scatter', debugger, 'collected', all_give), ('no round is told', collectives, 'collective_text', without_round),
        ('an operation is left out of the text', canonical, 'collective_text', by_cells),
        ('a collective waits for all, by its words', explaining, 'wish_of_collective',
            lambda world, call_id: f'for all ranks in round {collectives.round_of(world, call_id)}'),
        ('who is at another is not there', explaining, 'not_met', lambda at, call_id, number: f'rank {number} is not there: '
            f'{explaining.why_not_there(at, number)}'),
        ('a probe looks for nothing', explaining, 'LOOKING', ('send', 'recv')))]


def breakages():
    """All faults that must be noticed."""
    return (*waiting_faults(), *round_faults(), *given_faults(), *probe_faults(), *key_faults(), *reader_faults(), *text_faults())
