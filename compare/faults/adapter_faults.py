"""Faults that are put into the debug adapter of the model on purpose, as its page can be misread: adapters.py must notice each.

Numbers of frames and messages, the order of tests, fields and references are broken here; looks, moves, breakpoints and events in
adapter_faults_of_moves.py.
"""

import json
from inspect import isfunction

from faults.adapter_faults_of_moves import move_faults
from faults.policy_faults import Breakage
from model import adapter, frames, json_text
from model.adapter import BAD_FIELD, BAD_NUMBER, FIELDS, LAUNCHED, NOT_LAUNCHED, UNKNOWN_COMMAND, Adapter, fields_of, must_be

SOUND = {name: value for name, value in vars(Adapter).items() if isfunction(value)}
SOUND_MESSAGE_OF, SOUND_FRAMES_OF = adapter.message_of, frames.frames_of
THREAD_COMMANDS = 'pause', 'restart', 'setExceptionBreakpoints', 'configurationDone'


def told_otherwise(change):
    """What tells other frames, by those that are told, and the message."""
    return lambda self, message: change(SOUND['told'](self, message), message)


def with_key(key, change):
    """What has another value of a key in each response."""
    def changed(told, message):
        response, *events = told
        return [{**response, key: change(message)} if key in response else response, *events]
    return told_otherwise(changed)


def numbered(self, told):
    """Frames of which the first has number 0."""
    found = frames.frame_of(adapter.json_bytes({**told, 'seq': self.written}))
    self.written += 1
    return found


def responses_numbered(self, told):
    """Frames of which events have the number of the response before them."""
    self.written += told['type'] == 'response'
    return frames.frame_of(adapter.json_bytes({**told, 'seq': self.written}))


def written_by(**how):
    """What writes JSON otherwise."""
    return lambda value: json.dumps(value, **{'sort_keys': True, 'separators': (',', ':'), 'ensure_ascii': False, **how}).encode()


def done_in(order):
    """What tests a message in another order, by names of tests."""
    def done(self, message):
        fields, known = {}, message.command in FIELDS
        for test in order:
            if test == 'known':
                must_be(known, UNKNOWN_COMMAND)
            elif test == 'phase':
                self.test_phase(message.command)
            elif known:
                fields = fields_of(message.command, message.arguments)
                self.test_numbers(fields)
        return getattr(self, adapter.METHODS[message.command])(**{adapter.KEYWORDS[name]: value for name, value in fields.items()})
    return done


def numbers_first(command, arguments):
    """What refuses a number that isn't there before a field that is wrong."""
    must_be(arguments.get('threadId', 1) != 9, BAD_NUMBER)
    return fields_of(command, arguments)


def strict_fields(command, arguments):
    """What refuses fields that the command doesn't have."""
    must, may = FIELDS[command]
    must_be(set(arguments) <= {*must, *may})
    return fields_of(command, arguments)


def nulls_kept(command, arguments):
    """What takes a field that is null for one that is there."""
    must_be(None not in arguments.values())
    return fields_of(command, arguments)


def nulls_left_out(command, arguments):
    """What takes a field that must be there for one that may be, if it is null."""
    must, _ = FIELDS[command]
    must_be(set(must) <= set(arguments))
    return fields_of(command, {**{name: 1 for name in must}, **{name: value for name, value in arguments.items() if value is not None}})


def answered(self, body):
    """What answers a body that is no message."""
    message = SOUND_MESSAGE_OF(body)
    told = self.told(message) if message else [{'type': 'response', 'request_seq': 0, 'command': '', 'success': False, 'message': BAD_FIELD}]
    return b''.join(map(self.frame, told))


def message_by(change):
    """What reads a message otherwise: by the value of the body."""
    def message_of(body):
        try:
            value = json_text.read_json(body)
        except json_text.NoJson:
            return None
        if not isinstance(value, dict):
            return None
        return SOUND_MESSAGE_OF(adapter.json_bytes(change(value)))
    return message_of


def no_null_arguments(value):
    """A message that is none if its arguments are null."""
    return {} if value.get('arguments', 0) is None else value


def objects_alone(value):
    """A message that is none if its arguments are no object."""
    return value if isinstance(value.get('arguments', {}), dict) else {}


def without(value, name):
    return {other: it for other, it in value.items() if other != name}


def whole_floats(value):
    """An object whose numbers as 1.0 are whole."""
    if isinstance(value, dict):
        return {name: whole_floats(it) for name, it in value.items()}
    return int(value) if isinstance(value, float) and value.is_integer() else value


def phase_by(first, second):
    """What refuses commands by whether a launch came: those before it, and those after it."""
    def test_phase(self, command):
        must_be(self.path is not None or first(command), NOT_LAUNCHED)
        must_be(self.path is None or not second(command), LAUNCHED)
    return test_phase


def references_by(order):
    """What has the scopes in another order, by the places of their references."""
    def variables(self, reference):
        rank, kind = divmod(reference - 1, 4)
        return SOUND['variables'](self, rank * 4 + order[kind] + 1)
    return variables


def zero_based(self, fields):
    """Threads and frames by the number of their rank."""
    ranks = len(self.world.ranks)
    for name, count in ('threadId', ranks), ('frameId', ranks):
        must_be(0 <= fields.get(name, 0) < count, BAD_NUMBER)
    must_be(1 <= fields.get('variablesReference', 1) <= ranks * 4, BAD_NUMBER)


def unless(name):
    """What doesn't test a number."""
    return lambda self, fields: SOUND['test_numbers'](self, without(fields, name))


def with_thread(name):
    """What wants a thread for a command that has none."""
    def fields(command, arguments):
        must_be(command != name or 'threadId' in arguments)
        return fields_of(command, arguments)
    return fields


def any_reference(self, fields):
    """References of ranks that aren't there are those of others."""
    if fields.get('variablesReference', 1) > len(self.world.ranks) * 4:
        fields['variablesReference'] = 1
    SOUND['test_numbers'](self, fields)


def named(name, faults, owner=Adapter):
    return [Breakage(f'{name}: {what}', owner, name, replacement) for what, replacement in faults.items()]


def message_faults():
    """Faults in how messages are read."""
    return [
        *named('message_of', {
            'events are answered': message_by(lambda value: {**value, 'type': 'request'}),
            'null arguments are no message': message_by(no_null_arguments),
            'arguments that are no object are no message': message_by(objects_alone),
            'no arguments are no message': lambda body: SOUND_MESSAGE_OF(body) if b'arguments' in body else None,
            'a message without a number has 0': message_by(lambda value: {'seq': 0, **value}),
            '1.0 is whole': message_by(whole_floats)}, adapter),
        *named('answer', {'what is no message is refused': answered}),
        Breakage('a number of more than 63 bits is none', adapter, 'LARGEST_UNSIGNED', 2 ** 63 - 1),
        Breakage('a body nested deeper', json_text, 'DEEPEST', 128),
        Breakage('a body nested less deep', json_text, 'DEEPEST', 126),
        *named('done', {'the phase before the command': done_in(['phase', 'known', 'fields']),
            'fields before the phase': done_in(['known', 'fields', 'phase'])}),
        *named('fields_of', {'numbers before fields': numbers_first, 'no other field may stand there': strict_fields, 'null is a field': nulls_kept, 'null is any field': nulls_left_out},
            adapter),
        Breakage('lines may start at 0', adapter, 'FIELDS', {**FIELDS, 'initialize': ({}, {'linesStartAt1': lambda value: value})}),
        Breakage('lines must start at 1', adapter, 'FIELDS', {**FIELDS, 'initialize': ({'linesStartAt1': adapter.true_in}, {})}),
        *named('is_number', {'a number below 0 is one': lambda value: type(value) is int}, adapter),
        *named('test_phase', {
            'a second launch': phase_by(lambda command: command in adapter.BEFORE_LAUNCH, lambda command: False),
            'initialize again': phase_by(lambda command: command in adapter.BEFORE_LAUNCH, lambda command: command in ('launch', 'initialize')),
            'breakpoints before launch': phase_by(lambda command: command in (*adapter.BEFORE_LAUNCH, 'setBreakpoints'), lambda command: command == 'launch'),
            'no end before launch': phase_by(lambda command: command in ('initialize', 'launch'), lambda command: command == 'launch'),
            'looks before launch': phase_by(lambda command: command in (*adapter.BEFORE_LAUNCH, 'threads'), lambda command: command == 'launch')}),
        *named('test_numbers', {'threads from 0': zero_based, 'any thread': unless('threadId'), 'any frame': unless('frameId'),
            'any reference': any_reference}),
        *named('fields_of', {f'a thread for {name}': with_thread(name) for name in THREAD_COMMANDS}, adapter),
        Breakage('4,096 bytes of an expression', adapter, 'LONGEST_EXPRESSION', 4096),
        Breakage('4,000 characters of an expression', adapter, 'FIELDS', {**FIELDS, 'evaluate': ({'expression': characters_in}, FIELDS['evaluate'][1])})]


def characters_in(value):
    must_be(len(adapter.text_in(value)) <= adapter.LONGEST_EXPRESSION)
    return value


def frame_faults():
    """Faults in the frames that are written, and in what ends them."""
    return [
        *named('told', {
            'the response last': told_otherwise(lambda told, message: [*told[1:], told[0]]),
            'no body of what is refused': told_otherwise(lambda told, message: [{**told[0], 'body': {}}, *told[1:]]),
            'no empty body': told_otherwise(lambda told, message: [without(it, 'body') if it.get('body') == {} else it for it in told]),
            'no body of events': told_otherwise(lambda told, message: [told[0], *(it if it['body'] else without(it, 'body') for it in told[1:])]),
            'a response without a command': told_otherwise(lambda told, message: [without(told[0], 'command'), *told[1:]]),
            'the number of the message one more': with_key('request_seq', lambda message: message.seq + 1),
            'refused, but a success': with_key('success', lambda message: True),
            'two responses': told_otherwise(lambda told, message: [told[0], *told]),
            'an event of what is refused': told_otherwise(lambda told, message: told if told[0]['success'] else [*told, adapter.output('refused\n')])}),
        *named('frame', {'numbers from 0': numbered, 'events with the number of their response': responses_numbered}),
        *named('json_bytes', {'by numbers what is no ASCII': written_by(ensure_ascii=True), 'blanks': written_by(separators=(', ', ': ')),
            'keys as they come': written_by(sort_keys=False)}, adapter),
        Breakage('what is written ends with a line feed', adapter, 'frame_of', lambda body: frames.frame_of(body + b'\n')),
        Breakage('a cut frame ends well', adapter, 'OF_ERRORS', {'whole': b'', 'cut-off': b'mpdbg: frame\n'}),
        Breakage('what is cut is answered', adapter, 'frames_of', lambda data: SOUND_FRAMES_OF(data + b'}')),
        *named('end', {
            'nothing is terminated': lambda self: ending(self, [], True), 'it goes on': lambda self: ending(self, [adapter.event('terminated')], False),
            'it exits too': lambda self: ending(self, [adapter.event('exited', exitCode=0), adapter.event('terminated')], True)}),
        *named('launch', {'nothing is initialized': lambda self, program: SOUND['launch'](self, program)[:1] + ([],)}),
        Breakage('a capability less', adapter, 'CAPABILITIES', adapter.CAPABILITIES[:-1]),
        Breakage('a capability more', adapter, 'CAPABILITIES', (*adapter.CAPABILITIES, 'supportsSetVariable')),
        *named('initialize', {'it is initialized at once': lambda self, starts_at_one=True: (SOUND['initialize'](self)[0], [adapter.event('initialized')])}),
        *named('variables', {'requests before variables': references_by((1, 0, 2, 3)), 'what is printed before calls': references_by((0, 1, 3, 2))}),
        Breakage('scopes in another order', adapter, 'SCOPES', ('Variables', 'Calls', 'Requests', 'Printed'))]


def ending(self, events, is_over):
    self.is_over = is_over
    return {}, events


def breakages():
    return (*message_faults(), *frame_faults(), *move_faults())
