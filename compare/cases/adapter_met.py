"""What is met in dialogues of the debug adapter: which frames answer which body, and of what kind these are (adapters.py)."""

import json
from typing import NamedTuple, Optional

from model.adapter import AT_BREAKPOINT, FIELDS, OF_LINES, REFUSALS, SCOPES, UNKNOWN_COMMAND, Message, message_of
from model.frames import frames_of

MOVES = 'continue', 'next', 'stepIn', 'stepOut', 'stepBack', 'reverseContinue', 'restart'
REASONS = ('exception', 'end', 'choice', 'entry', 'step', 'goto', AT_BREAKPOINT)
OF_STATES = ('deadlock', 'trap', 'done', 'leftovers')


class Exchange(NamedTuple):
    """A body, the message that it is, None where it is none, and the frames that answer it, as values, from that of a number on."""
    body: bytes
    message: Optional[Message]
    frames: list
    first: int


def exchanges(data, output):
    """Which frames answer which body, by what is asked and what is told."""
    told, found, place = [json.loads(body) for body in frames_of(output)[0]], [], 0
    for body in frames_of(data)[0]:
        message, count = message_of(body), 0
        if message is not None and place < len(told):
            count = 1
            while place + count < len(told) and told[place + count].get('type') == 'event':
                count += 1
        found.append(Exchange(body, message, told[place:place + count], place))
        place += count
    return found


MUST_MEET = (
    *(f'{command} done' for command in FIELDS), *REFUSALS, 'a body that is passed over', 'no frame', 'frames after the end',
    *(f'{command} refused as bad-field' for command in ('launch', 'evaluate', 'setBreakpoints', 'stackTrace', 'variables', 'stepIn')),
    *(f'stopped as {reason}' for reason in REASONS), *(f'at the end: {word}' for word in OF_STATES),
    *(f'{command} stopped as {reason}' for command, reason in (
        ('continue', 'breakpoint'), ('continue', 'choice'), ('continue', 'exception'), ('continue', 'end'), ('next', 'step'), ('next', 'choice'),
        ('stepIn', 'step'),
        ('stepIn', 'choice'), ('stepOut', 'step'), ('stepBack', 'step'), ('stepBack', 'entry'), ('reverseContinue', 'breakpoint'),
        ('reverseContinue', 'entry'),
        ('restart', 'entry'), ('evaluate', 'goto'), ('evaluate', 'choice'), ('configurationDone', 'entry'), ('configurationDone', 'goto'))),
    'another thread than the message names', 'a step into a candidate', 'a step by a target', 'a target that is refused', 'a move that is refused',
    'a step out of no call',
    'targets of a rank', 'no targets', 'several targets', 'another line than the wanted one', 'no such line', 'a bad condition', 'another script',
    '64 breakpoints', 'a condition that is good', 'breakpoints that are left out',
    *(f'{name} of a rank' for name in SCOPES), 'a request that holds no call', 'a value below 0', 'a frame that is a label', 'a name that is no ASCII',
    'a value of all ranks', 'a value of the rank of a frame', 'evaluate refused as no-value', 'an array', 'an expression that traps', 'an answer that is empty', 'a word that moves',
    'a word that changes nothing', 'an empty expression',
    'an explanation', 'nothing that is explained', 'a number of 64 bits', 'steps ahead from the start', 'ended: whole', 'ended: cut-off', 'ended: frame')


def met_in_stop(exchange, body):
    """What is met in an event `stopped`."""
    message, reason = exchange.message, body['reason']
    found = [f'stopped as {reason}', f'{message.command} stopped as {reason}']
    if reason in ('exception', 'end'):
        found.append(f'at the end: {body["description"]}')
    if message.arguments.get('threadId', body['threadId']) != body['threadId']:
        found.append('another thread than the message names')
    return found


def met_in_move(exchange):
    """The same in what is told of a move."""
    told = ''.join(frame['body']['output'] for frame in exchange.frames if frame.get('event') == 'output')
    found = ['a move that is refused'] * told.startswith('refused: ') + ['a step out of no call'] * (' waits for no call' in told)
    if exchange.message.command == 'stepIn':
        has_target, is_match = 'targetId' in exchange.message.arguments, ' match ' in told.partition(':')[0]
        found += ['a step by a target'] * has_target + ['a step into a candidate'] * (is_match and not has_target)
        found += ['a target that is refused'] * ('refused: there is no such candidate' in told)
    return found


def met_in_breakpoints(message, body):
    found = []
    for wanted, told in zip(message.arguments.get('breakpoints') or (), body['breakpoints']):
        if told['verified']:
            has_condition = bool((wanted.get('condition') or '').strip())
            found += ['another line than the wanted one'] * (wanted['line'] != told['line']) + ['a condition that is good'] * has_condition
        else:
            found.append({'no statement begins there or below': 'no such line', 'bad condition': 'a bad condition', 'another script': 'another script'}.get(
                told['message'], '64 breakpoints'))
    return found + ['breakpoints that are left out'] * ('breakpoints' not in message.arguments)


def met_in_variables(message, body):
    kind, found = SCOPES[(message.arguments['variablesReference'] - 1) % len(SCOPES)], body['variables']
    met = [f'{kind} of a rank'] * bool(found)
    values = [it['value'] for it in found]
    return met + ['a request that holds no call'] * ('none' in values) + ['a value below 0'] * any(value.startswith('-') for value in values)


def met_in_value(exchange, body):
    """What is met in what an expression, or a line of the console, is answered."""
    message, result = exchange.message, body['result']
    found = ['an answer that is empty'] * (result == '') + ['an empty expression'] * (message.arguments['expression'].strip() == '')
    if message.arguments.get('context') == OF_LINES:
        return found + ['a word that moves' if len(exchange.frames) > 1 else 'a word that changes nothing']
    found += ['an array'] * ('[' in result) + ['an expression that traps'] * ('traps: ' in result)
    return found + ['a value of all ranks' if message.arguments.get('frameId') is None else 'a value of the rank of a frame']


def met_in_body(exchange, body):
    """What is met in the response to a command that is done."""
    message = exchange.message
    if message.command == 'setBreakpoints':
        return met_in_breakpoints(message, body)
    if message.command == 'variables':
        return met_in_variables(message, body)
    if message.command == 'evaluate':
        return met_in_value(exchange, body)
    if message.command == 'stepInTargets':
        count = len(body['targets'])
        return ['targets of a rank' if count else 'no targets'] + ['several targets'] * (count > 1)
    if message.command == 'stackTrace':
        return ['a frame that is a label'] * ('presentationHint' in body['stackFrames'][0])
    if message.command == 'exceptionInfo':
        return ['an explanation' if body['description'] else 'nothing that is explained']
    return met_in_move(exchange) if message.command in MOVES else []


def met_in_exchange(exchange):
    """What is met in a body, and in the frames that answer it."""
    message = exchange.message
    if message is None:
        return ['a body that is passed over']
    if not exchange.frames:
        return ['frames after the end']
    response, *events = exchange.frames
    found = ['a number of 64 bits'] * (message.seq == 2 ** 64 - 1)
    if not response['success']:
        name = response['message']
        is_plain = name == UNKNOWN_COMMAND and all(ord(character) < 128 for character in message.command)
        return [*found, name, f'{message.command} refused as {name}'] + ['a name that is no ASCII'] * (name == UNKNOWN_COMMAND and not is_plain)
    for event in events:
        found += met_in_stop(exchange, event['body']) if event['event'] == 'stopped' else []
    return [*found, f'{message.command} done', *met_in_body(exchange, response['body'])]


def met_in(case, wanted):
    """What is met in a dialogue, by what must be answered."""
    found = [it for exchange in exchanges(case.data, wanted.output) for it in met_in_exchange(exchange)]
    if wanted.status == 2:
        return found
    end = wanted.errors.decode().removeprefix('mpdbg: ').strip() or 'whole'
    is_ahead = (case.witness is not None or case.run is not None) and bool(found)
    return [*found, f'ended: {end}'] + ['no frame'] * (not frames_of(case.data)[0]) + ['steps ahead from the start'] * is_ahead
