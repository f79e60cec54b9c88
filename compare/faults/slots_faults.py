"""Faults that are put into the model on purpose, of which sends are buffered in a mode of slots, and of what is shown of it.

The inputs of run.py, the walks of order.py, the scripts of explore.py, the sessions of sessions.py and the pairs of modes of slots.py must
notice each of those that are of them.
"""

import re

from faults.breakages import Breakage
from model import debugger, explorer, modes, policy, wide
from model.debugger import CallId, find_call, free_calls, partner
from model.modes import RENDEZVOUS, is_mode, slots_of

WIDE_DECISION = wide.wide_decision


def is_standard(call):
    return call.kind == 'send' and not call.synchronous


# ---- slots that are taken and given up

def without_slot(world, call_id):
    """The world in which a call has no slot, and nothing else is another one."""
    rank = world.ranks[call_id.rank]
    return world.with_rank(call_id.rank, rank._replace(slots=tuple(number for number in rank.slots if number != call_id.number)))


def with_slot(world, call_id):
    """The world in which a call has a slot, whatever it is."""
    rank = world.ranks[call_id.rank]
    return world.with_rank(call_id.rank, rank._replace(slots=(*rank.slots, call_id.number)))


def with_mark(world, call_id, buffered):
    """The world in which a call has this mark."""
    rank = world.ranks[call_id.rank]
    calls = list(rank.calls)
    calls[call_id.number] = calls[call_id.number]._replace(buffered=buffered)
    return world.with_rank(call_id.rank, rank._replace(calls=tuple(calls)))


def undoing(undo, change):
    """What takes steps back, and then changes the world once for each of them, the last one first."""
    def undone(self, *words):
        depth, worlds = self.depth, list(self.worlds)
        answer_of = undo(self, *words)
        for place in reversed(range(self.depth, depth)):
            self.worlds[-1] = change(self.worlds[-1], worlds[place + 1], self.steps[place])
        return answer_of
    return undone


def match_without_slot(world, behind, step):
    """What leaves the slot of a match that was taken back free."""
    return without_slot(world, step.first) if step.kind == 'match' else world


def match_without_buffer(world, behind, step):
    """What leaves the send of a match that was taken back without its mark and its slot."""
    if step.kind != 'match' or find_call(world, step.first) is None:
        return world
    return with_mark(without_slot(world, step.first), step.first, False)


def issue_with_slot(world, behind, step):
    """What keeps the slot of a send whose issue was taken back."""
    issued = step.kind == 'local' and len(behind.ranks[step.first].calls) > len(world.ranks[step.first].calls)
    return with_slot(world, CallId(step.first, -1)) if issued and getattr(behind.ranks[step.first].calls[-1], 'buffered', False) else world


def freed_by_wake(after_wake):
    """What gives up the slot of the send that a rank goes on behind."""
    def after(world, number):
        behind = after_wake(world, number)
        call_id = None if behind is None else debugger.awaited(world, number)
        return behind if call_id is None else without_slot(behind, call_id)
    return after


def kept_by_match(without_free):
    """What keeps the slot of a send that is matched."""
    def without(world, call_id):
        slots = world.ranks[call_id.rank].slots
        behind = without_free(world, call_id)
        return behind.with_rank(call_id.rank, behind.ranks[call_id.rank]._replace(slots=slots))
    return without


def buffered_later(after_match):
    """What buffers the first send that has waited for a slot, as soon as one falls free."""
    def after(world, send_id, receive_id):
        behind = after_match(world, send_id, receive_id)
        if behind is None or not find_call(world, send_id).buffered:
            return behind
        late = [call_id for call_id, call in free_calls(behind, send_id.rank) if is_standard(call) and not call.buffered]
        return with_slot(with_mark(behind, late[0], True), late[0]) if late else behind
    return after


def also_synchronous(with_buffer):
    """What has a synchronous send take a slot, and not buffer it."""
    def entered(world, number):
        behind, call = with_buffer(world, number), world.ranks[number].calls[-1]
        takes = call.kind == 'send' and call.synchronous and debugger.has_slot(world.mode, debugger.slots_used(world, number))
        return with_slot(behind, debugger.last_call(world, number)) if takes else behind
    return entered


def by_slots(test):
    """What says of a standard send whether it is buffered in a mode of slots, by how many there are and how many are used."""
    sound = debugger.has_slot
    return lambda mode, used: sound(mode, used) if slots_of(mode) is None else test(slots_of(mode), used)


def of_sends(test):
    """What says of a send whether it is buffered where it finds a slot."""
    return lambda mode, call, used: call.kind == 'send' and test(call) and debugger.has_slot(mode, used)


def free_standard(world, number):
    """How many standard sends of a rank aren't matched, buffered or not."""
    return sum(is_standard(call) for _, call in free_calls(world, number))


def undo_faults():
    """Those of steps that are taken back, one by one and at once."""
    trail = debugger.Debugger
    changes = (('the undo of a match that leaves the slot free', match_without_slot), ('the undo of a match that drops the buffer', match_without_buffer),
               ('the undo of an issue that keeps the slot', issue_with_slot))
    return [Breakage(f'{name}, by {word}', 'slots', trail, word, undoing(getattr(trail, word), change))
            for name, change in changes for word in ('back', 'goto')]


def taking_faults():
    """Those of which sends take a slot, and when it falls free."""
    return [Breakage(name, 'slots', debugger, attribute, replacement) for name, attribute, replacement in (
        ('a slot freed by a wake', 'after_wake', freed_by_wake(debugger.after_wake)),
        ('a slot kept by a match', 'without_free', kept_by_match(debugger.without_free)),
        ('a send that is buffered when a slot falls free later', 'after_match', buffered_later(debugger.after_match)),
        ('slots counted over all ranks', 'slots_used', lambda world, number: sum(len(rank.slots) for rank in world.ranks)),
        ('slots counted by all standard sends', 'slots_used', free_standard),
        ('slots never used', 'slots_used', lambda world, number: 0),
        ('a slot that a synchronous send takes', 'with_buffer', also_synchronous(debugger.with_buffer)),
        ('a synchronous send that is buffered', 'is_buffered', of_sends(lambda call: True)),
        ('no send buffered that blocks', 'is_buffered', of_sends(lambda call: is_standard(call) and not call.blocks)),
        ('no send buffered that has a handle', 'is_buffered', of_sends(lambda call: is_standard(call) and call.blocks)),
        ('one slot more', 'has_slot', by_slots(lambda slots, used: used <= slots)),
        ('one slot less', 'has_slot', by_slots(lambda slots, used: used < slots - 1)),
        ('one slot for any number', 'has_slot', by_slots(lambda slots, used: used < min(slots, 1))),
        ('each standard send buffered where there are slots', 'has_slot', by_slots(lambda slots, used: slots > 0)))]


# ---- what is shown

def shown(change):
    """What shows a call otherwise, by its text, the world and its name."""
    call_line = debugger.call_line
    return lambda world, call_id: change(call_line(world, call_id), world, call_id)


def dropped_once_matched(text, world, call_id):
    return text.replace(' buffered', '') if partner(world, call_id) else text


def behind_its_state(text, world, call_id):
    """What has the mark at the end."""
    return f'{text.replace(" buffered", "")} buffered' if ' buffered' in text else text


def before_its_value(text, world, call_id):
    """What has the mark in front of the value."""
    return text.replace(' buffered', '').replace(' value', ' buffered value') if ' buffered' in text else text


BUFFER_TEXTS = (
    ('`buffered` shown in other modes', lambda mode, call: ' buffered' if call.buffered else ''),
    ('`buffered` shown in the mode buffered', lambda mode, call: ' buffered' if call.buffered and mode != RENDEZVOUS else ''),
    ('`buffered` not shown', lambda mode, call: ''),
    ('`buffered` shown of each standard send', lambda mode, call: ' buffered' if is_standard(call) and slots_of(mode) is not None else ''))
LINES = (('`buffered` dropped once matched', dropped_once_matched), ('`buffered` behind the state', behind_its_state),
         ('`buffered` before the value', before_its_value))


def text_faults():
    """Those of what `show` prints."""
    return ([Breakage(name, 'slots', debugger, 'buffer_text', told) for name, told in BUFFER_TEXTS]
            + [Breakage(name, 'slots', debugger, 'call_line', shown(change)) for name, change in LINES])


def line_faults(session):
    """Those of what a session tells of a call."""
    return [Breakage(f'{name}, in a session', 'slots', session, 'call_line', shown(change)) for name, change in LINES]


def breakages():
    """Those that inputs notice."""
    return undo_faults() + taking_faults() + text_faults()


def order_faults():
    """Those that are of which sends are buffered, and not of what is shown."""
    return undo_faults() + taking_faults()


def session_faults(session):
    """Those of sessions, as a module has them: what goes back goes to a depth, and a call is shown by its text."""
    return ([fault for fault in undo_faults() if fault.attribute == 'goto'] + taking_faults()
            + [Breakage(name, 'slots', debugger, 'buffer_text', told) for name, told in BUFFER_TEXTS] + line_faults(session))


# ---- modes that must not differ, reports, and the words of modes

def in_slots(test):
    """What says of a send whether it is buffered otherwise in modes of slots alone."""
    sound = debugger.is_buffered
    return lambda mode, call, used: sound(mode, call, used) if slots_of(mode) is None else (
        call.kind == 'send' and test(call) and debugger.has_slot(mode, used))


def of_16_bits(slots_in):
    """What has a number of slots in 16 bits."""
    return lambda mode: None if slots_in(mode) is None else slots_in(mode) % 65536


def pair_faults(session):
    """Those by which `slots:0` isn't like `rendezvous`, or `slots:65536` isn't like `buffered`, in sessions too, as a module has them."""
    taking = (
        ('one slot more', 'has_slot', by_slots(lambda slots, used: used <= slots)),
        ('each standard send buffered in a mode of slots', 'has_slot', by_slots(lambda slots, used: True)),
        ('no send buffered in a mode of slots', 'has_slot', by_slots(lambda slots, used: False)),
        ('one slot for any number', 'has_slot', by_slots(lambda slots, used: used < min(slots, 1))),
        ('slots in 16 bits', 'slots_of', of_16_bits(slots_of)),
        ('synchronous sends buffered in slots', 'is_buffered', in_slots(lambda call: True)),
        ('no send buffered in slots that blocks', 'is_buffered', in_slots(lambda call: is_standard(call) and not call.blocks)),
        ('no send buffered in slots that has a handle', 'is_buffered', in_slots(lambda call: is_standard(call) and call.blocks)))
    dropped = [fault for fault in undo_faults() if 'drops the buffer' in fault.name]
    return ([Breakage(name, 'slots', debugger, attribute, replacement) for name, attribute, replacement in taking] + dropped + text_faults()
            + line_faults(session) + telling_faults() + ends_faults())


def report_faults():
    """Those of reports: by what ends, and by what is said of a report that tells all its runs."""
    return taking_faults() + telling_faults() + [
        Breakage('no whole report in the mode buffered', 'slots', explorer, 'tells_all', told_where(lambda mode: mode == RENDEZVOUS))]


def told_where(test):
    """What takes a report along decisions for one that tells every way to end by its mode, where the script has no wait for any."""
    return lambda script, mode, is_wide: is_wide or not explorer.has_waitany(script.body) and test(mode)


def ends_faults():
    """Those of reports that list ends in a mode of slots."""
    def along_decisions(world, sharper=False):
        return WIDE_DECISION(world, sharper) if slots_of(world.mode) is None else policy.decision(world)

    def never_whole(script, mode, is_wide):
        return slots_of(mode) is None and (is_wide or not explorer.has_waitany(script.body))

    return [Breakage('ends along decisions in a mode of slots', 'slots', wide, 'wide_decision', along_decisions),
            Breakage('no whole report of ends in a mode of slots', 'slots', explorer, 'tells_all', never_whole)]


def telling_faults():
    """Those of whether a report tells every way to end."""
    telling = (('a whole report in a mode of slots', lambda mode: True), ('a whole report without slots', lambda mode: not slots_of(mode)),
               ('a whole report with slots', lambda mode: slots_of(mode) != 0))
    return [Breakage(name, 'slots', explorer, 'tells_all', told_where(test)) for name, test in telling]


def word_faults():
    """Those of the words that name modes."""
    words = (('six digits of slots', 'slots:([0-9]{1,6})'), ('four digits of slots', 'slots:([0-9]{1,4})'),
             ('a sign before slots', 'slots:([+-]?[0-9]{1,5})'), ('a blank behind slots', 'slots:([0-9]{1,5}) *'),
             ('a blank before slots', 'slots: *([0-9]{1,5})'), ('a word behind slots', 'slots:([0-9]{1,5}).*'),
             ('no zeros before slots', 'slots:(0|[1-9][0-9]{0,4})'), ('slots in any letters', '(?i:slots):([0-9]{1,5})'),
             ('slots without a colon', 'slots:?([0-9]{1,5})'))
    return ([Breakage(name, 'slots', modes, 'SLOTS', re.compile(pattern)) for name, pattern in words]
            + [Breakage('one slot more allowed', 'slots', modes, 'MOST_SLOTS', modes.MOST_SLOTS + 1),
               Breakage('one slot less allowed', 'slots', modes, 'MOST_SLOTS', modes.MOST_SLOTS - 1),
               Breakage('no digit of slots', 'slots', explorer, 'is_mode', lambda word: word == 'slots:' or is_mode(word))])
