"""The shapes of the frames that the debug adapter writes, by the specification of the Debug Adapter Protocol; whether a frame has its shape.

They were written from memory of the protocol's own specification (version 1.65: the interfaces of responses, events and types), for those messages
alone that docs/ADAPTER.md uses: each field by its type, those that must be there, and of texts that are one of several which. A field that the
protocol doesn't have is wrong here, though a client would pass over it.
"""

from typing import NamedTuple

LARGEST_REFERENCE = 2 ** 31 - 1


class Object(NamedTuple):
    """An object: the fields that must be there, and those that may be."""
    must: dict
    may: dict = {}


class Items(NamedTuple):
    """A list of values of one shape."""
    of: object


class OneOf(NamedTuple):
    """A text that is one of some."""
    texts: tuple


class Within(NamedTuple):
    """A whole number from 0 on, up to one."""
    most: int


TEXT, FLAG, INTEGER, ANYTHING = 'text', 'flag', 'integer', 'anything'
REFERENCE = Within(LARGEST_REFERENCE)

SOURCE = Object({}, {'name': TEXT, 'path': TEXT, 'sourceReference': REFERENCE, 'presentationHint': OneOf(('normal', 'emphasize', 'deemphasize')),
                     'origin': TEXT})
BREAKPOINT = Object({'verified': FLAG}, {'id': INTEGER, 'message': TEXT, 'source': SOURCE, 'line': INTEGER, 'column': INTEGER, 'endLine': INTEGER,
                                         'endColumn': INTEGER, 'reason': OneOf(('pending', 'failed'))})
THREAD = Object({'id': INTEGER, 'name': TEXT})
STACK_FRAME = Object({'id': INTEGER, 'name': TEXT, 'line': INTEGER, 'column': INTEGER},
                     {'source': SOURCE, 'endLine': INTEGER, 'endColumn': INTEGER, 'canRestart': FLAG,
                      'presentationHint': OneOf(('normal', 'label', 'subtle'))})
SCOPE = Object({'name': TEXT, 'variablesReference': REFERENCE, 'expensive': FLAG},
               {'presentationHint': TEXT, 'namedVariables': INTEGER, 'indexedVariables': INTEGER, 'source': SOURCE, 'line': INTEGER})
VARIABLE = Object({'name': TEXT, 'value': TEXT, 'variablesReference': REFERENCE},
                  {'type': TEXT, 'evaluateName': TEXT, 'namedVariables': INTEGER, 'indexedVariables': INTEGER})
TARGET = Object({'id': INTEGER, 'label': TEXT}, {'line': INTEGER, 'column': INTEGER, 'endLine': INTEGER, 'endColumn': INTEGER})
CAPABILITIES = Object({}, dict.fromkeys((
    'supportsConfigurationDoneRequest', 'supportsFunctionBreakpoints', 'supportsConditionalBreakpoints', 'supportsHitConditionalBreakpoints',
    'supportsEvaluateForHovers', 'supportsStepBack', 'supportsSetVariable', 'supportsRestartFrame', 'supportsGotoTargetsRequest',
    'supportsStepInTargetsRequest', 'supportsCompletionsRequest', 'supportsModulesRequest', 'supportsRestartRequest', 'supportsExceptionOptions',
    'supportsValueFormattingOptions', 'supportsExceptionInfoRequest', 'supportTerminateDebuggee', 'supportSuspendDebuggee',
    'supportsDelayedStackTraceLoading', 'supportsLoadedSourcesRequest', 'supportsLogPoints', 'supportsTerminateThreadsRequest', 'supportsSetExpression',
    'supportsTerminateRequest', 'supportsDataBreakpoints', 'supportsReadMemoryRequest', 'supportsWriteMemoryRequest', 'supportsDisassembleRequest',
    'supportsCancelRequest', 'supportsBreakpointLocationsRequest', 'supportsClipboardContext', 'supportsSteppingGranularity',
    'supportsInstructionBreakpoints', 'supportsExceptionFilterOptions', 'supportsSingleThreadExecutionRequests'), FLAG))
# A response that says only that something is done: what it has beside that is anything.
DONE = Object({}, {})
BODIES = {
    'initialize': CAPABILITIES, 'continue': Object({}, {'allThreadsContinued': FLAG}), 'setBreakpoints': Object({'breakpoints': Items(BREAKPOINT)}),
    'setExceptionBreakpoints': Object({}, {'breakpoints': Items(BREAKPOINT)}), 'threads': Object({'threads': Items(THREAD)}),
    'stackTrace': Object({'stackFrames': Items(STACK_FRAME)}, {'totalFrames': INTEGER}), 'scopes': Object({'scopes': Items(SCOPE)}),
    'variables': Object({'variables': Items(VARIABLE)}), 'stepInTargets': Object({'targets': Items(TARGET)}),
    'exceptionInfo': Object({'exceptionId': TEXT, 'breakMode': OneOf(('never', 'always', 'unhandled', 'userUnhandled'))},
        {'description': TEXT, 'details': ANYTHING}),
    'evaluate': Object({'result': TEXT, 'variablesReference': REFERENCE}, {'type': TEXT, 'namedVariables': INTEGER, 'indexedVariables': INTEGER}),
    **dict.fromkeys(('launch', 'configurationDone', 'disconnect', 'terminate', 'pause', 'next', 'stepIn', 'stepOut', 'stepBack', 'reverseContinue',
        'restart'), DONE)}
EVENTS = {
    'initialized': DONE, 'terminated': Object({}, {'restart': ANYTHING}), 'thread': Object({'reason': TEXT, 'threadId': INTEGER}),
    # (the reason is one of some words, or any other text)
    'stopped': Object({'reason': TEXT}, {'description': TEXT, 'threadId': INTEGER, 'preserveFocusHint': FLAG, 'text': TEXT, 'allThreadsStopped': FLAG,
                                         'hitBreakpointIds': Items(INTEGER)}),
    'output': Object({'output': TEXT}, {'category': TEXT, 'group': OneOf(('start', 'startCollapsed', 'end')), 'variablesReference': REFERENCE,
        'source': SOURCE,
                                        'line': INTEGER, 'column': INTEGER, 'data': ANYTHING})}
RESPONSE = {'seq': INTEGER, 'type': OneOf(('response',)), 'request_seq': INTEGER, 'success': FLAG, 'command': TEXT}
DONE_RESPONSE, REFUSED_RESPONSE = Object(RESPONSE, {'message': TEXT, 'body': ANYTHING}), Object({**RESPONSE, 'message': TEXT}, {'body': ANYTHING})
EVENT = Object({'seq': INTEGER, 'type': OneOf(('event',)), 'event': TEXT}, {'body': ANYTHING})


def of_object(value, shape, where):
    """What is wrong with an object."""
    if type(value) is not dict:
        return [f'{where} is no object']
    fields = {**shape.must, **shape.may}
    found = [f'{where}.{name} is not there' for name in shape.must if name not in value]
    for name, held in value.items():
        found += wrong_with(held, fields[name], f'{where}.{name}') if name in fields else [f'{where}.{name} is no field of the protocol']
    return found


def is_simple(value, shape):
    """Whether a value is of a shape that has none in it."""
    if isinstance(shape, OneOf):
        return type(value) is str and value in shape.texts
    if isinstance(shape, Within):
        return type(value) is int and 0 <= value <= shape.most
    return {TEXT: type(value) is str, FLAG: type(value) is bool, INTEGER: type(value) is int, ANYTHING: True}[shape]


def wrong_with(value, shape, where):
    """What is wrong with a value that must have a shape."""
    if isinstance(shape, Object):
        return of_object(value, shape, where)
    if isinstance(shape, Items):
        if type(value) is not list:
            return [f'{where} is no list']
        return [it for place, held in enumerate(value) for it in wrong_with(held, shape.of, f'{where}[{place}]')]
    return [] if is_simple(value, shape) else [f'{where} is {value!r}']


def shapes_of(value):
    """The shape of a frame, and that of its body by the command or the event; None where there is no such message."""
    if value.get('type') == 'event':
        return EVENT, EVENTS.get(value.get('event'))
    if value.get('success') is False:
        return REFUSED_RESPONSE, Object({}, {'error': ANYTHING})
    return DONE_RESPONSE, BODIES.get(value.get('command'))


def wrong_frame(value):
    """What is wrong with a frame of the adapter, by the protocol; nothing where all is well."""
    if type(value) is not dict:
        return ['it is no object']
    whole, body = shapes_of(value)
    name = value.get('event', value.get('command'))
    if body is None:
        return [f'{name} is no message of the protocol that is used']
    return of_object(value, whole, f'{name}') + of_object(value.get('body', {}), body, f'{name}.body')
