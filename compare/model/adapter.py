"""The debug adapter, in the model: the bodies that an editor sends, and the frames that each is answered by.

It was written from docs/ADAPTER.md, over the console of the model, which answers what moves, and over its lines. Frames are those of frames.py.
compare/rows/worked_adapter.py has rows of it, and compare/runs/adapters.py compares a program with it.
"""

import json
from typing import NamedTuple, Optional

from model import console_lines, console_values, explaining, policy, session
from model.console import Console, Look, begun, text_of
from model.console_words import Asked, NotAsked, read_line, words_of
from model.debugger import BAD_FILE, RENDEZVOUS, CallId, Result, call_line
from model.frames import CUT_OFF, WHOLE, frame_of, frames_of
from model.json_text import LARGEST_UNSIGNED, NoJson, read_json
from model.language import Trap, View, evaluate
from model.policy import Choice, LineBreak
from model.session import Session

UNKNOWN_COMMAND, BAD_FIELD, NOT_LAUNCHED, LAUNCHED, BAD_NUMBER, NOT_ENDED, NO_VALUE, NOT_READ = (
    'unknown-command', 'bad-field', 'not-launched', 'launched', 'bad-number', 'not-ended', 'no-value', 'not-read')
REFUSALS = UNKNOWN_COMMAND, NOT_LAUNCHED, LAUNCHED, BAD_FIELD, BAD_NUMBER, NOT_ENDED, NO_VALUE
# How wide lines are before they wrap, and how many bytes an expression has at most.
WIDTH, LONGEST_EXPRESSION = 1000, 4000
# How many cells of an array are told as its value.
CELLS_TOLD = 16
# What the adapter can.
CAPABILITIES = ('supportsConditionalBreakpoints', 'supportsConfigurationDoneRequest', 'supportsEvaluateForHovers', 'supportsExceptionInfoRequest',
                'supportsStepBack', 'supportsStepInTargetsRequest', 'supportsTerminateRequest')
# The scopes of a frame, in their order, and what is told of a request that holds no call.
SCOPES, NO_CALL = ('Variables', 'Requests', 'Calls', 'Printed'), 'none'
# In which context an expression is a line of the console.
OF_LINES = 'repl'
# Commands that are answered before `launch` is.
BEFORE_LAUNCH = 'initialize', 'launch', 'disconnect', 'terminate'
NO_STATEMENT, BAD_CONDITION, BREAKS_FULL, ANOTHER_SCRIPT = (
    'no statement begins there or below', 'bad condition', '64 breakpoints are set', 'another script')
# Why a session stops, where its state doesn't tell.
AT_BREAKPOINT, AFTER_STEP, GONE_TO = 'breakpoint', 'step', 'goto'
OF_ERRORS = {WHOLE: b'', CUT_OFF: b'mpdbg: cut-off\n'}
FRAME_ERROR = b'mpdbg: frame\n'


# What the adapter can by commands that a program may not know yet.
OF_COMMANDS = {
    'setBreakpoints': 'supportsConditionalBreakpoints', 'configurationDone': 'supportsConfigurationDoneRequest', 'evaluate': 'supportsEvaluateForHovers',
    'exceptionInfo': 'supportsExceptionInfoRequest', 'stepBack': 'supportsStepBack',
    'stepInTargets': 'supportsStepInTargetsRequest', 'terminate': 'supportsTerminateRequest'}


class Refused(Exception):
    """A message is refused, by a name."""

    def __init__(self, name, told=None):
        super().__init__(name)
        self.name, self.told = name, told

    @property
    def more(self):
        """What a person is told of it, as a body; nothing where nothing is."""
        return {} if self.told is None else {'body': {'error': {'format': self.told, 'id': 1, 'showUser': True}}}


# ---- messages

class Message(NamedTuple):
    """What an editor asks: the number of the message, the command, and its arguments by their names."""
    seq: int
    command: str
    arguments: dict


def is_number(value):
    """Whether a value is a whole number from 0 that fits 64 bits."""
    return type(value) is int and 0 <= value <= LARGEST_UNSIGNED


def message_of(body):
    """The message that a body is; None where it is none, and is passed over."""
    try:
        value = read_json(body)
    except NoJson:
        return None
    if type(value) is not dict or value.get('type') != 'request':
        return None
    given = value.get('arguments')
    found = Message(value.get('seq'), value.get('command'), given if type(given) is dict else {})
    return found if is_number(found.seq) and type(found.command) is str else None


def must_be(holds, name=BAD_FIELD):
    if not holds:
        raise Refused(name)


def number_in(value):
    must_be(is_number(value))
    return value


def text_in(value):
    must_be(type(value) is str)
    return value


def true_in(value):
    must_be(value is True)
    return value


def expression_in(value):
    must_be(len(text_in(value).encode()) <= LONGEST_EXPRESSION)
    return value


def path_in(value):
    """The path of a source."""
    must_be(type(value) is dict and 'path' in value)
    return text_in(value['path'])


class Wanted(NamedTuple):
    """A breakpoint that an editor wants: its line, and what must hold, as it stands; None where nothing is said."""
    line: int
    condition: Optional[str]


def wanted_in(value):
    must_be(type(value) is dict and 'line' in value)
    condition = value.get('condition')
    return Wanted(number_in(value['line']), None if condition is None else text_in(condition))


def all_wanted_in(value):
    must_be(type(value) is list)
    return list(map(wanted_in, value))


THREAD, FRAME = {'threadId': number_in}, {'frameId': number_in}
# The fields that each command must have, and those that it may have, each with what reads it; others are passed over.
FIELDS = {
    'initialize': ({}, {'linesStartAt1': true_in}), 'launch': ({'program': text_in}, {}), 'configurationDone': ({}, {}),
    'disconnect': ({}, {}), 'terminate': ({}, {}), 'threads': ({}, {}), 'stackTrace': (THREAD, {}), 'scopes': (FRAME, {}),
    'variables': ({'variablesReference': number_in}, {}), 'stepInTargets': (FRAME, {}), 'exceptionInfo': (THREAD, {}),
    'setExceptionBreakpoints': ({}, {}), 'pause': ({}, {}), 'setBreakpoints': ({'source': path_in}, {'breakpoints': all_wanted_in}),
    'continue': (THREAD, {}), 'next': (THREAD, {}), 'stepIn': (THREAD, {'targetId': number_in}), 'stepOut': (THREAD, {}),
    'stepBack': (THREAD, {}), 'reverseContinue': (THREAD, {}), 'restart': ({}, {}),
    'evaluate': ({'expression': expression_in}, {'context': text_in, **FRAME})}


def leave_out(commands):
    """Knows no command of these from here on, nor what is told of them."""
    global CAPABILITIES
    for command in commands:
        FIELDS.pop(command, None)
    CAPABILITIES = tuple(it for it in CAPABILITIES if it not in [OF_COMMANDS.get(command) for command in commands])


def fields_of(command, arguments):
    """The fields of a command, as they are read."""
    must, may = FIELDS[command]
    must_be(set(must) <= set(arguments))
    there = {**{name: arguments[name] for name in must}, **{name: arguments[name] for name in may if arguments.get(name) is not None}}
    return {name: read(there[name]) for name, read in {**must, **may}.items() if name in there}


# ---- frames that are written

def json_bytes(value):
    """A value as it is written: compact, the keys of its objects in ascending order, and what is no ASCII as it is."""
    return json.dumps(value, sort_keys=True, separators=(',', ':'), ensure_ascii=False).encode()


def shown(text):
    """A text as it is told: a question mark for what is no printable ASCII, nor a line feed or a tab."""
    return ''.join(sign if ' ' <= sign <= '~' or sign in '\t\n' else '?' for sign in text)


def event(name, **body):
    return {'type': 'event', 'event': name, 'body': body}


def output(text):
    return event('output', category='stdout', output=text)


# ---- a console that raises the version of its session

class Versioned(Session):
    """A session of which each request of the console that changes something raises the version."""

    def __init__(self, there):
        self.__dict__.update(there.__dict__)

    def take(self, step):
        super().take(step)
        self.raise_version()

    def back(self, count):
        super().back(count)
        self.raise_version()

    def redo(self, count):
        super().redo(count)
        self.raise_version()

    def goto(self, depth):
        super().goto(depth)
        self.raise_version()

    def set_break(self, *given, **named):
        there = super().set_break(*given, **named)
        self.raise_version()
        return there

    def unset_break(self, number):
        super().unset_break(number)
        self.raise_version()


class Asking(Console):
    """A console whose words raise the version of its session: each run does, and each run that is laid ahead."""

    def __init__(self, there):
        self.__dict__.update(there.__dict__)
        self.session, self.look, self.reads_files = Versioned(there.session), Look(WIDTH), False

    def stopped(self, stop, back):
        self.session.raise_version()
        return super().stopped(stop, back)

    def laid_ahead(self, called, leaf):
        self.session.raise_version()
        return super().laid_ahead(called, leaf)


# ---- the desk

def takes_part(rank, step):
    """Whether a rank takes part in a step."""
    if step.kind == 'match':
        return rank in (step.first.rank, step.second.rank)
    return step.kind != 'release' and step.first == rank


class Adapter:
    """A console that is asked by messages, the path of its script as the editor knows it, and how many frames are written."""

    def __init__(self, there):
        self.console = Asking(there)
        self.path, self.written, self.is_over = None, 0, False

    @property
    def session(self):
        return self.console.session

    @property
    def world(self):
        return self.console.world

    @property
    def names(self):
        return self.console.script.names

    @property
    def candidates(self):
        """The candidates of a choice that is open; none where none is."""
        decided = self.console.decided
        return decided.steps if isinstance(decided, Choice) else ()

    # ---- a message

    def answer(self, body):
        """The frames that answer a body."""
        message = message_of(body)
        return b'' if message is None else b''.join(map(self.frame, self.told(message)))

    def frame(self, told):
        """A frame with the next number."""
        self.written += 1
        return frame_of(json_bytes({**told, 'seq': self.written}))

    def told(self, message):
        """The response to a message, and the events after it."""
        head = {'type': 'response', 'request_seq': message.seq, 'command': message.command}
        try:
            body, events = self.done(message)
        except Refused as refused:
            return [{**head, 'success': False, 'message': refused.name, **refused.more}]
        return [{**head, 'success': True, 'body': body}, *events]

    def done(self, message):
        """Does what a message asks; the body of its response, and the events after it."""
        must_be(message.command in FIELDS, UNKNOWN_COMMAND)
        self.test_phase(message.command)
        fields = fields_of(message.command, message.arguments)
        self.test_numbers(fields)
        return getattr(self, METHODS[message.command])(**{KEYWORDS[name]: value for name, value in fields.items()})

    def test_phase(self, command):
        must_be(self.path is not None or command in BEFORE_LAUNCH, NOT_LAUNCHED)
        must_be(self.path is None or command != 'launch', LAUNCHED)

    def test_numbers(self, fields):
        """Tests that the thread, the frame and the reference of a message are there."""
        ranks = len(self.world.ranks)
        for name, count in ('threadId', ranks), ('frameId', ranks), ('variablesReference', ranks * len(SCOPES)):
            must_be(1 <= fields.get(name, 1) <= count, BAD_NUMBER)

    # ---- beginning and end

    def initialize(self, starts_at_one=True):
        return dict.fromkeys(CAPABILITIES, True), []

    def launch(self, program):
        self.path = program
        return {}, [event('initialized')]

    def configured(self):
        started = [event('thread', reason='started', threadId=thread) for thread in self.threads()]
        return {}, [*started, self.stopped(GONE_TO)]

    def end(self):
        self.is_over = True
        return {}, [event('terminated')]

    # ---- where it stands

    def threads(self):
        """The numbers of all threads."""
        return range(1, len(self.world.ranks) + 1)

    def stopped(self, reason, thread=1):
        """The event that tells where the session stands, by what it stands there for if its state doesn't tell."""
        word, description, there = self.standing(reason, thread)
        return event('stopped', allThreadsStopped=True, description=description, reason=word, threadId=there)

    def standing(self, reason, thread):
        """Why the session stands where it does, what is told of it, and the thread that it is told of."""
        decided = self.console.decided
        if isinstance(decided, policy.Leaf):
            return self.ended(decided.outcome.split()[0])
        if self.candidates and not self.console.ahead:
            return 'choice', 'choice', console_lines.chosen_for(self.console.at, self.candidates[0]).rank + 1
        depth = self.console.debugger.depth
        if depth == 0:
            return 'entry', 'start', 1
        return reason, f'depth {depth}', self.thread_of(reason, thread)

    def ended(self, word):
        """The same of a run that has ended so."""
        stuck = {'deadlock': 'blocked', 'trap': 'trapped'}.get(word)
        if stuck is None:
            return 'end', word, 1
        return 'exception', word, 1 + next(number for number, rank in enumerate(self.world.ranks) if rank.mode == stuck)

    def thread_of(self, reason, thread):
        """The thread that is told of: at a breakpoint that of the last step, if it is of a rank."""
        rank = self.console.last_rank() if reason == AT_BREAKPOINT else None
        return thread if rank is None else rank + 1

    # ---- looks

    def list_threads(self):
        return {'threads': [{'id': thread, 'name': self.rank_line(thread)} for thread in self.threads()]}, []

    def rank_line(self, thread):
        """What the rank of a thread is doing."""
        return shown(console_lines.rank_line(self.console.at, thread - 1))

    def stack(self, thread):
        line = console_lines.stands_at(self.console.at, thread - 1)
        where = {'line': 0, 'presentationHint': 'label'} if line is None else {'line': line, 'source': {'path': self.path}}
        return {'stackFrames': [{'column': 1, 'id': thread, 'name': self.rank_line(thread), **where}], 'totalFrames': 1}, []

    def scopes(self, frame):
        first = (frame - 1) * len(SCOPES) + 1
        return {'scopes': [{'expensive': False, 'name': name, 'variablesReference': number} for number, name in enumerate(SCOPES, first)]}, []

    def variables(self, reference):
        rank, kind = divmod(reference - 1, len(SCOPES))
        found = (self.cells, self.requests, self.calls, self.printed)[kind](rank)
        return {'variables': [{'name': name, 'value': value, 'variablesReference': 0} for name, value in found]}, []

    def places(self, kind):
        """What is declared of a kind, each place by its name and its number."""
        return [(console_lines.place_name(name, declared, place), declared.first + place) for name, declared in self.names.items()
                if declared.kind == kind for place in console_lines.all_places(declared)]

    def cells(self, rank):
        return [(name, str(self.world.ranks[rank].cells[cell])) for name, cell in self.places('var')]

    def requests(self, rank):
        held = [(name, self.world.ranks[rank].handles[handle]) for name, handle in self.places('req')]
        return [(name, NO_CALL if call is None else str(CallId(rank, call))) for name, call in held]

    def calls(self, rank):
        calls = [CallId(rank, number) for number in range(len(self.world.ranks[rank].calls))]
        return [(str(call_id), call_line(self.world, call_id).removeprefix(f'call {call_id} ')) for call_id in calls]

    def printed(self, rank):
        return [(f'[{number}]', str(value)) for number, value in enumerate(self.world.ranks[rank].printed)]

    def own_candidates(self, rank):
        """The candidates in which a rank takes part, each by its number."""
        return [(number, step) for number, step in enumerate(self.candidates, 1) if takes_part(rank, step)]

    def targets(self, frame):
        return {'targets': [{'id': number, 'label': console_lines.candidate_words(self.console.at, self.names, step)}
                            for number, step in self.own_candidates(frame - 1)]}, []

    def exception(self, thread):
        decided = self.console.decided
        must_be(isinstance(decided, policy.Leaf), NOT_ENDED)
        told = explaining.told(self.console.at, self.names, decided.outcome)
        return {'breakMode': 'always', 'description': text_of(told), 'exceptionId': decided.outcome.split()[0]}, []

    def nothing(self):
        return {}, []

    # ---- breakpoints

    def set_breakpoints(self, path, wanted=()):
        if path != self.path:
            return {'breakpoints': [unset(it, ANOTHER_SCRIPT) for it in wanted]}, []
        for number, stop in enumerate(self.session.breaks.places):
            if isinstance(stop, LineBreak):
                self.session.unset_break(number)
        return {'breakpoints': [self.set_one(it) for it in wanted]}, []

    def set_one(self, wanted):
        """Sets a breakpoint, if it can be; what is told of it."""
        line = self.line_from(wanted.line)
        if line is None:
            return unset(wanted, NO_STATEMENT)
        given = self.break_given(line, wanted.condition)
        if given is None:
            return unset(wanted, BAD_CONDITION)
        _, line, rank, condition = given
        try:
            there = self.session.set_break('line', line=line, rank=rank, **({} if condition is None else condition._asdict()))
        except session.Refused:
            return unset(wanted, BREAKS_FULL)
        return {'id': there['break'] + 1, 'line': line, 'verified': True}

    def line_from(self, line):
        """The least line from one on at which a statement begins; None where there is none."""
        return min((begun for begun in console_lines.statement_lines(self.console.script.body) if begun >= line), default=None)

    def break_given(self, line, condition):
        """What is given to `break` of a line with a condition, before which the word `if` may be left out; None where it is bad."""
        for behind in [''] if condition is None else [condition, f'if {condition}']:
            try:
                given = self.console.understood(read_line(f'break {line} {behind}'.encode())).given
            except NotAsked:
                continue
            return None if given[2] is not None and given[2] >= len(self.world.ranks) else given
        return None

    # ---- moves

    def say(self, word, *given):
        """What the console answers to a word."""
        return shown(text_of(console_lines.all_folded(self.console.told(Asked(word, given)), WIDTH)))

    def moved(self, text, reason, thread=1):
        """The events after a move."""
        return [output(text), self.stopped(reason, thread)]

    def run(self, thread):
        return {'allThreadsContinued': True}, self.moved(self.say('run'), AT_BREAKPOINT, thread)

    def next(self, thread):
        return {}, self.moved(self.say('until', 'rank', thread - 1), AFTER_STEP, thread)

    def step_in(self, thread, target=None):
        own = self.own_candidates(thread - 1)
        if target is None and len(own) == 1:
            target = own[0][0]
        return {}, self.moved(self.say('next', *() if target is None else (target,)), AFTER_STEP, thread)

    def step_out(self, thread):
        return {}, self.moved(self.say('finish', thread - 1), AFTER_STEP, thread)

    def step_back(self, thread):
        return {}, self.moved(self.say('back', 'rank', thread - 1), AFTER_STEP, thread)

    def run_back(self, thread):
        return {}, self.moved(self.say('goto', self.last_stop()), AT_BREAKPOINT, thread)

    def last_stop(self):
        """The greatest depth below this one at which a run would have stopped; 0 where there is none."""
        walked = self.console.debugger
        return max((depth for depth in range(walked.depth) if self.would_stop(walked.worlds, walked.steps, depth)), default=0)

    def would_stop(self, worlds, steps, depth):
        """Whether a run would stop at a depth: after a step that hits a breakpoint, or before a choice of two or more."""
        if isinstance(policy.settled(policy.decision(worlds[depth])), Choice):
            return True
        return depth > 0 and self.session.breaks.lowest_hit(worlds[depth - 1], steps[depth - 1]) is not None

    def restart(self):
        return {}, self.moved(self.say('goto', 0), GONE_TO)

    # ---- expressions

    def evaluate(self, expression, context=None, frame=None):
        """What the console answers to a line, or what an expression comes to."""
        if context != OF_LINES:
            return {'result': self.value_of(expression.encode(), frame), 'variablesReference': 0}, []
        before = self.session.version
        told = shown(self.console.answer(expression.encode()))
        body = {'result': told.removesuffix('\n'), 'variablesReference': 0}
        return body, [self.stopped(GONE_TO)] if self.session.version != before else []

    def value_of(self, text, frame):
        """What an expression comes to, for the rank of a frame, or for each by a line."""
        if frame is None:
            found = [f'rank {rank}: {value}' for rank, value in self.worths(text, range(len(self.world.ranks)))]
        else:
            found = [value for _, value in self.worths(text, [frame - 1])]
        must_be(found, NO_VALUE)
        return '\n'.join(found)

    def worths(self, text, meant):
        """What an expression comes to for each of the ranks that are meant: a name is what they hold there. Nothing where it is none."""
        try:
            named = self.console.meant(*words_of(text))
        except (NotAsked, TypeError):
            return self.values(text, meant)
        return [(rank, self.held(rank, named)) for rank in meant]

    def held(self, rank, named):
        """What a rank holds in the cells that a name means, in brackets unless that is one."""
        there = self.world.ranks[rank]
        numbers = [named.declared.first + place for place in named.places]
        if named.declared.kind == 'var':
            told = [str(there.cells[number]) for number in numbers]
        else:
            told = [NO_CALL if there.handles[number] is None else str(CallId(rank, there.handles[number])) for number in numbers]
        return told[0] if len(told) == 1 else f'[{", ".join(told[:CELLS_TOLD])}{", .." * (len(told) > CELLS_TOLD)}]'

    def values(self, text, meant):
        """The values that an expression has for the ranks that are meant; a number behind it is a rank that it is of alone."""
        try:
            expression, of = console_values.value_asked(text, self.names)
        except NotAsked:
            return []
        return [(rank, self.value_for(rank, expression)) for rank in meant if of is None or of == rank]

    def value_for(self, rank, expression):
        try:
            return str(evaluate(expression, View(self.world.ranks[rank].cells, rank, len(self.world.ranks))))
        except Trap as trap:
            return f'traps: {trap.name}'


class Unread(Adapter):
    """What answers where the script is refused, or can't be read: a `launch` fails, and a person is told why."""

    def __init__(self, why):
        self.why, self.path, self.written, self.is_over = why, None, 0, False

    def test_numbers(self, fields):
        """There is no rank, and nothing that is answered names one."""

    def launch(self, program):
        raise Refused(NOT_READ, self.why)


def unset(wanted, why):
    """What is told of a breakpoint that isn't set."""
    return {'line': wanted.line, 'message': why, 'verified': False}


KEYWORDS = {'linesStartAt1': 'starts_at_one', 'program': 'program', 'threadId': 'thread', 'frameId': 'frame', 'variablesReference': 'reference',
            'source': 'path', 'breakpoints': 'wanted', 'targetId': 'target', 'expression': 'expression', 'context': 'context'}
METHODS = {
    'initialize': 'initialize', 'launch': 'launch', 'configurationDone': 'configured', 'disconnect': 'end', 'terminate': 'end',
    'threads': 'list_threads', 'stackTrace': 'stack', 'scopes': 'scopes', 'variables': 'variables', 'stepInTargets': 'targets',
    'exceptionInfo': 'exception', 'setExceptionBreakpoints': 'nothing', 'pause': 'nothing', 'setBreakpoints': 'set_breakpoints',
    'continue': 'run', 'next': 'next', 'stepIn': 'step_in', 'stepOut': 'step_out', 'stepBack': 'step_back', 'reverseContinue': 'run_back',
    'restart': 'restart', 'evaluate': 'evaluate'}


# ---- bytes

def error_of(end):
    """What is told on standard error of how an input ends."""
    return OF_ERRORS.get(end, FRAME_ERROR)


def served(adapter, data):
    """The result for an input of frames."""
    bodies, end = frames_of(data)
    told = []
    for body in bodies:
        told.append(adapter.answer(body))
        if adapter.is_over:
            return Result(b''.join(told), b'', 0)
    return Result(b''.join(told), error_of(end), 0 if end == WHOLE else 3)


def unread(text, there):
    """What a person is told of a script that there is no console of, by what the program says at its end; None where another thing is wrong."""
    line = there.errors.decode().removesuffix('\n')
    if text is None and there == BAD_FILE:
        return f'{line}: no such file'
    return line if line.startswith('mpdbg: script refused ') else None


def dap(text, data, mode=RENDEZVOUS, witness=None, run=None):
    """The result for a script and an input of frames."""
    there = begun(text, mode, witness, run)
    if isinstance(there, Console):
        return served(Adapter(there), data)
    why = unread(text, there)
    return there if why is None else Result(served(Unread(why), data).output, there.errors, there.status)
