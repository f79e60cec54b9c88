"""Random dialogues of the debug adapter: a script, a mode, and frames of messages that are drawn with the model's adapter at hand.

Most messages are what an editor may ask where the session stands then: looks, moves, breakpoints, lines of the console and values of expressions.
Others come too early, lack a field, have a wrong one or one that isn't there, name no command, or are none at all; and frames have other headers,
come in pieces, or end the session.
"""

import json
from collections import Counter
from random import Random
from typing import NamedTuple, Optional, Union

from cases.console_cases import (ALL_HABITS, BLAMING, MODES_DRAWN, Talk, ahead_in, is_turn_of_blaming, run_for, script_for, spoiled_run,
                                 spoiled_witness, with_carriage_returns, with_news, witness_for)
from cases.session_cases import in_pieces, is_short
from cases.session_lines import BAD_BYTES, BEYOND, BLANKS, FLOATS, NEGATIVE, NO_JSON, NO_OBJECTS, OTHER_VALUES, TOO_LARGE, quoted
from model import console_lines, debugger, policy
from model.adapter import OF_LINES, SCOPES, Adapter, dap, message_of
from model.console import NO_FILE, NamedRun
from model.debugger import RENDEZVOUS
from model.files import held
from model.frames import HEADER_MAX
from model.language import Fault
from model.modes import by_turns
from model.policy import COMPARISONS, Forced

WAYS = 'at once', 'in pieces', 'in turns'
# What a move by a number may take at most where it isn't known to stop by itself.
LONGEST_RUN = 200
NO_COMMANDS = ('attach', 'Continue', 'step', 'stepback', 'StepBack', 'goto', 'cancel', 'source', 'setVariable', 'modules', 'completions', 'restartFrame',
               'setFunctionBreakpoints', 'setDataBreakpoints', 'dataBreakpointInfo', 'loadedSources', 'breakpointLocations', 'readMemory', '', ' ',
               'run', 'launch ', ' launch', 'thread', 'stacktrace', 'disconnected', 'caf\u00e9', '\U0001f600', 'a"b\\c', 'tab\there', 'nul\x00', '\x7f',
               '\x1f', '/')
PATHS = ('/home/one/race.mpd', 'race.mpd', '', 'C:\\work\\race.mpd', '/tmp/a "b".mpd', '/caf\u00e9/\U0001f600.mpd', '/a\tb\nc\x01\x7f.mpd',
         'file:///x%20y.mpd')
CONDITIONS = ('', ' ', 'if', 'rank', 'rank 0', 'rank 1', 'rank 99', ' rank  0 ', '\trank\t0', 'x', 'x ==', 'rank 0 x == 1', 'if rank 0', 'rank 0 if',
              'size == 3', 'rank == 0', 'x = 1', 'true', '1', '1 == 1', '# x', 'x == 1; x', 'match', 'x == 9223372036854775807', 'x == 9223372036854775808', 'x\n== 1',
              'if if x == 1', 'rank 000000000', 'rank 0000000000', 'x == 1 rank 0', '\u00e9 == 1', 'x == \u0661')
LONG_EXPRESSIONS = tuple('x' * length for length in (3999, 4000, 4001, 5000)) + ('\u00e9' * 2000, '\u00e9' * 2001, ' ' * 4000 + 'x', 'ranks'.ljust(4000))
HEADERS = (b'Content-Length: %d\r\n\r\n', b'content-length:%d\r\n\r\n', b'CONTENT-LENGTH: \t%d \r\n\r\n',
           b'Content-Type: application/vscode-jsonrpc; charset=utf-8\r\nContent-Length: %d\r\n\r\n',
           b'Content-Length: %d\r\nContent-Type: x\r\n\r\n', b'X\r\nContent-Length: %07d\r\n\r\n', b': \nx\rContent-Length: 5\r\nContent-Length: %d\r\n\r\n')
# What ends a session of frames, with the bytes that stand before it.
BAD_FRAMES = (b'\r\n', b'Content-Length\r\n\r\n', b'Content-Length: \r\n\r\n', b'Content-Length: 12345678\r\n\r\n', b'Content-Length: -1\r\n\r\n',
              b'Content-Length: 1.0\r\n\r\n', b'Content-Length: 1\r\nContent-Length: 1\r\n\r\n{', b'Content-Length: 1048577\r\n\r\n', b'Content-Length: 104857600\r\n\r\n',
              b'Content-Length: 9999999\r\n\r\n', b'X: y\r\n\r\n', b'{"seq":1,"type":"request","command":"threads"}\n', b'Content-Length: 2\n\n{}', b'x' * HEADER_MAX,
              b'X: y\r\n' * (HEADER_MAX // 6) + b'\r\n',
              b'Content-Length: 5\r\n\r\n{}', b'Content-Length: 0x5\r\n\r\n{}', b'Content-Length: +2\r\n\r\n{}', b' Content-Length: 2\r\n\r\n{}',
              b'Content-Length : 2\r\n\r\n{}')
LOOKS = 'threads', 'stackTrace', 'scopes', 'variables', 'variables', 'stepInTargets', 'exceptionInfo'
MOVES = 'continue', 'continue', 'next', 'next', 'stepIn', 'stepIn', 'stepOut', 'stepBack', 'reverseContinue'
OTHERS = 'setExceptionBreakpoints', 'pause', 'restart', 'configurationDone', 'initialize', 'launch', 'setBreakpoints', 'setBreakpoints'
EARLY = 'threads', 'continue', 'configurationDone', 'stackTrace', 'evaluate', 'pause', 'setBreakpoints', 'variables', 'next', 'restart', 'attach'


class Raw(str):
    """A value as it is written."""


def json_text(random, value, blank=0.0, escapes=0.0):
    """A value as a text, with blanks between its parts, and with some characters by their numbers; keys stand in any order."""
    def gap():
        return random.choice(BLANKS) if random.random() < blank else ''
    if isinstance(value, Raw):
        return str(value)
    if isinstance(value, str):
        return quoted(random, value, escapes)
    if isinstance(value, (list, tuple)):
        return f'[{",".join(f"{gap()}{json_text(random, it, blank, escapes)}{gap()}" for it in value) or gap()}]'
    if isinstance(value, dict):
        pairs = random.sample(list(value.items()), len(value))
        inner = ','.join(f'{gap()}{quoted(random, name, escapes)}{gap()}:{gap()}{json_text(random, it, blank, escapes)}{gap()}' for name, it in pairs)
        return f'{{{inner or gap()}}}'
    return json.dumps(value)


def with_entry(random, value, change):
    """An object with one of its entries changed, or one in it; as it is where it has none."""
    names = [name for name in value if isinstance(value, dict)]
    if not names:
        return value
    name = random.choice(names)
    if isinstance(value[name], dict) and value[name] and random.random() < 0.6:
        return {**value, name: with_entry(random, value[name], change)}
    if isinstance(value[name], list) and value[name] and isinstance(value[name][0], dict) and random.random() < 0.7:
        place = random.randrange(len(value[name]))
        return {**value, name: [*value[name][:place], with_entry(random, value[name][place], change), *value[name][place + 1:]]}
    return change(value, name)


def without_entry(value, name):
    return {other: it for other, it in value.items() if other != name}


class Editor:
    """Messages for one adapter, each drawn where it stands then."""

    def __init__(self, random, script, mode, ahead, habits):
        self.random = random
        self.talk = Talk(random, script, mode, habits, ahead)
        self.adapter = Adapter(self.talk.console)
        self.talk.console = self.adapter.console
        self.seq, self.path = 0, random.choice(PATHS)
        self.blank, self.escapes = random.choice([0.0, 0.0, 0.3]), random.choice([0.0, 0.0, 0.1])
        self.spoils, self.met = random.choice([0.02, 0.06, 0.3]), Counter()

    def chance(self, share):
        return self.random.random() < share

    # ---- fields

    def number(self, count):
        """A number from 1 up to a count, now and then one that isn't there."""
        if self.chance(0.05):
            return self.random.choice([0, count + 1, count + 2, 4 * count + 1, 2 ** 31, 2 ** 32, 2 ** 63, 2 ** 64 - 1])
        return self.random.randint(1, count)

    def rank_number(self):
        return self.number(len(self.adapter.world.ranks))

    def thread(self):
        return {'threadId': self.rank_number()}

    def frame(self):
        return {'frameId': self.rank_number()}

    def reference(self):
        return {'variablesReference': self.number(len(SCOPES) * len(self.adapter.world.ranks))}

    def first(self):
        client = {'clientID': 'vscode', 'adapterID': 'mpdbg', 'pathFormat': 'path', 'columnsStartAt1': True, 'locale': 'en-us'}
        return {**self.random.choice([{}, client]), **self.random.choice([{}, {'linesStartAt1': True}, {'linesStartAt1': True}])}

    def launch(self):
        if self.chance(0.1):
            return self.random.choice([{}, {'program': None}, {'program': 7}, {'name': 'x'}])
        return {'program': self.path, **self.random.choice([{}, {'noDebug': False, 'stopOnEntry': True, '__restart': None}])}

    def target(self):
        """A thread to step, now and then with a target: mostly a candidate, where a choice is open."""
        candidates = len(self.adapter.candidates)
        if not self.chance(0.5 if candidates else 0.1):
            return self.thread()
        near = [0, 1, 2, 3, candidates, candidates + 1, candidates + 1]
        far = [LONGEST_RUN, debugger.MOST_STEPS, debugger.MOST_STEPS + 1, 2 ** 64 - 1, 999999999, 1000000000]
        target = self.random.randint(1, candidates) if candidates and self.chance(0.7) else self.random.choice(far if self.chance(0.1) else near)
        return {**self.thread(), 'targetId': target}

    def condition(self):
        """A condition that fits the script mostly, behind a rank, behind `if`, or by itself."""
        if self.chance(0.25):
            return self.random.choice(CONDITIONS)
        operator, value = self.random.choice(tuple(COMPARISONS)), self.random.choice([0, 1, 2, 5, -1])
        text = f'{self.talk.name()}{self.random.choice(["", " "])}{operator}{self.random.choice(["", " "])}{value}'
        rank = f'rank {self.talk.rank()}'
        return self.random.choice([text, text, f'if {text}', rank, f'{rank} if {text}', f'{rank} {text}'])

    def wanted(self):
        """A breakpoint, mostly on a line of the script or just before one."""
        lines = sorted(set(console_lines.statement_lines(self.adapter.console.script.body))) or [1]
        near, anywhere = self.random.choice(lines), self.random.randint(0, self.talk.source_lines)
        line = self.random.choice([near, near, max(0, near - 1), anywhere])
        if self.chance(0.06):
            line = self.random.choice([0, lines[-1], lines[-1] + 1, 65537, 2 ** 64 - 1])
        more = {'condition': self.condition()} if self.chance(0.3) else {}
        return {'line': line, **more, **({'column': 1, 'hitCondition': '3', 'logMessage': 'x'} if self.chance(0.1) else {})}

    def breakpoints(self):
        path = self.path if self.chance(0.85) else self.random.choice([*PATHS, self.path + '/', self.path.upper()])
        count = 130 if self.chance(0.04) else self.random.choice([0, 1, 1, 2, 2, 3, 5])
        source = {'path': path, **self.random.choice([{}, {'name': 'race.mpd', 'sourceReference': 0}])}
        wanted = {} if count == 0 and self.chance(0.5) else {'breakpoints': [self.wanted() for _ in range(count)]}
        return {'source': source, **wanted, **self.random.choice([{}, {'lines': [1], 'sourceModified': False}])}

    def evaluate(self):
        """A line of the console, or the value of an expression."""
        frame = self.frame() if self.chance(0.6) else {}
        if self.chance(0.4):
            expression = ' '.join(self.talk.expression()) if self.chance(0.5) else self.talk.name()
            if self.chance(0.05):
                expression = self.random.choice(['', ' ', '0', '1 2', '"', '\u00e9', 'x\ny', '#', 'x; y'])
            context = self.random.choice([{}, *({'context': it} for it in ('hover', 'watch', 'hover', 'watch', 'clipboard', 'variables', '', 'Repl', None))])
            return {'expression': expression, **context, **frame}
        line = self.talk.line()
        line = b'ranks' if self.talk.is_long(line) else line
        if self.chance(0.03):
            return {'expression': self.random.choice(LONG_EXPRESSIONS), **self.random.choice([{}, {'context': OF_LINES}]), **frame}
        if self.chance(0.03):
            line = self.random.choice(['quit', 'q', 'ranks\r', 'ranks\n', '\nranks', 'ranks\nnext', 'help\x00', '# \u00e9'])
            return {'expression': line, 'context': OF_LINES}
        return {'expression': line.decode('latin-1'), 'context': OF_LINES, **frame}

    def arguments(self, command):
        """What a command has beside its name."""
        drawing = {'initialize': self.first, 'launch': self.launch, 'stackTrace': self.thread, 'exceptionInfo': self.thread, 'scopes': self.frame,
                   'stepInTargets': self.frame, 'variables': self.reference, 'setBreakpoints': self.breakpoints, 'evaluate': self.evaluate,
                   'stepIn': self.target,
                   **dict.fromkeys(('continue', 'next', 'stepOut', 'stepBack', 'reverseContinue'), self.thread)}.get(command)
        if drawing is not None:
            return drawing()
        return self.random.choice([{}, {}, {'filters': []}, {'threadId': 99}, {'restart': True}])

    # ---- commands

    def command(self):
        """The next command."""
        if self.adapter.path is None:
            return self.random.choice(['initialize', 'launch', 'launch', 'launch', self.random.choice(EARLY)])
        if self.chance(0.01):
            return self.random.choice(NO_COMMANDS)
        if self.adapter.candidates and self.chance(0.35):
            return self.random.choice(['stepIn', 'stepIn', 'stepInTargets'])
        kind = self.random.choices(['look', 'move', 'evaluate', 'other'], [4, 6, 4, 2])[0]
        return 'evaluate' if kind == 'evaluate' else self.random.choice({'look': LOOKS, 'move': MOVES, 'other': OTHERS}[kind])

    def is_long(self, command, arguments):
        """Whether a move may take the model more steps than it should."""
        walked, breaks = self.talk.walked, self.adapter.session.breaks
        if command == 'stepIn' and arguments.get('targetId') is not None and isinstance(self.adapter.console.decided, Forced):
            return LONGEST_RUN < arguments['targetId'] <= debugger.MOST_STEPS and not is_short(walked, breaks)
        if command in ('next', 'stepOut'):
            return not is_short(walked, policy.Breaks())
        return command == 'continue' and not is_short(walked, breaks)

    def message(self):
        """The next message, as an object."""
        command = self.command()
        arguments = self.arguments(command)
        if self.is_long(command, arguments):
            command, arguments = 'threads', {}
        self.seq = self.random.choice([0, 1, 7, 2 ** 64 - 1, 2 ** 53 + 1]) if self.chance(0.02) else self.seq + 1
        message = {'seq': self.seq, 'type': 'request', 'command': command}
        return message if not arguments and self.chance(0.5) else {**message, 'arguments': arguments}

    def spoiled(self, message):
        """A message with an entry less, or with another value in its place, so that it mostly isn't what it was."""
        kind = self.random.choice(['less', 'value', 'value', 'number', 'text', 'arguments', 'no command'])
        if kind == 'no command':
            return {**message, 'command': self.random.choice(NO_COMMANDS)}
        if kind == 'arguments':
            return {**message, 'arguments': Raw(self.random.choice(['null', '[]', '0', '"x"', '[{}]', 'true']))}
        if message.get('arguments') and self.chance(0.7):
            return {**message, 'arguments': self.changed(message['arguments'], kind)}
        return self.changed(message, kind)

    def changed(self, value, kind):
        """An object with an entry less, or with another value in its place."""
        others = {'value': OTHER_VALUES, 'number': (*FLOATS, *BEYOND, *NEGATIVE, *TOO_LARGE), 'text': ('""', '"\\u0000"', '"caf\u00e9"', '"\\ud83d\\ude00"')}
        if kind == 'less':
            return with_entry(self.random, value, without_entry)
        return with_entry(self.random, value, lambda value, name: {**value, name: Raw(self.random.choice(others[kind]))})

    def no_message(self, body):
        """A body that is none of the protocol's, or no JSON."""
        draw = self.random.random()
        if draw < 0.4:
            return self.random.choice((*NO_JSON, *NO_OBJECTS)).encode()
        if draw < 0.5:
            return b''
        if draw < 0.65:
            return body[:self.random.randint(0, len(body))]
        if draw < 0.8:
            depth = self.random.choice([1, 100, 125, 126, 127, 128, 1000])
            return body[:-1] + b',"x":' + b'[' * depth + b']' * depth + b'}'
        if draw < 0.9:
            place = self.random.randint(0, len(body))
            return body[:place] + self.random.choice(BAD_BYTES) + body[place:]
        return self.random.choice([b'{"seq":1,"type":"response","request_seq":1,"success":true,"command":"threads"}', b'{"seq":1,"type":"event","event":"x"}',
                                   b'{"seq":1,"type":"Request","command":"threads"}', b'{"type":"request","command":"threads"}', b'[' * 1000,
                                   b'\xef\xbb\xbf' + body])

    def body(self):
        """The next body."""
        message = self.message()
        if self.chance(self.spoils * 0.7):
            message = self.spoiled(message)
        body = json_text(self.random, message, self.blank, self.escapes).encode()
        if self.chance(0.02):
            # (of an entry that stands twice the last counts)
            body = self.random.choice([b'{"seq":9,', b'{"type":"event",', b'{"command":"fly",', b'{"arguments":[],', b'{"\\u0073eq":null,']) + body[1:]
        body = self.no_message(body) if self.chance(self.spoils * 0.3) else body
        # What comes twice, or has become another message, must not be long either.
        return body if self.is_within(body) else b'{}'

    def is_within(self, body):
        """Whether a body asks for no more than the model should do."""
        message = message_of(body)
        if message is None or type(message.arguments.get('targetId', 1)) not in (int, type(None)):
            return True
        if message.command == 'evaluate' and type(message.arguments.get('expression')) is str and message.arguments.get('context') == OF_LINES:
            return not self.talk.is_long(message.arguments['expression'].encode())
        return not self.is_long(message.command, message.arguments)

    def end(self):
        """The body that ends a session."""
        message = {'seq': self.seq + 1, 'type': 'request', 'command': self.random.choice(['disconnect', 'terminate']), 'arguments': {'restart': False}}
        return json_text(self.random, message).encode()

    def frames(self, count):
        """So many frames, the first of which begin a session mostly; each is answered before the next is drawn."""
        for number in range(0 if self.chance(0.02) else count):
            body = self.end() if number == count - 1 and self.chance(0.6) else self.body()
            header = self.random.choice(HEADERS) if self.chance(0.1) else HEADERS[0]
            self.adapter.answer(body)
            yield header % len(body) + body, self.adapter.written
            if self.adapter.is_over:
                return


def ended(random, pieces, written):
    """The frames, each with how many are written after it; the last may be cut, or stand before what is no frame, or before frames that nobody reads."""
    draw = random.random()
    if draw < 0.15 and pieces:
        last, count = pieces.pop()
        pieces.append((last[:random.randint(0, len(last) - 1)], pieces[-1][1] if pieces else 0))
    elif draw < 0.35:
        pieces.append((random.choice(BAD_FRAMES), written))
    return pieces


class Case(NamedTuple):
    """A script in a mode (None: not said), what is sent, piece by piece, with how many frames are written after each, in which way, the text of
    a witness, NO_FILE or None, and a run that is named by its choices."""
    name: str
    script: Optional[bytes]
    mode: Optional[str]
    pieces: tuple
    counts: tuple
    way: str
    witness: Union[bytes, str, None] = None
    run: Optional[NamedRun] = None

    @property
    def data(self):
        return b''.join(self.pieces)

    def words(self, folder):
        """The words that have a program answer it, with its files in a folder."""
        mode = () if self.mode is None else ('--mode', self.mode)
        text = None if self.witness == NO_FILE else self.witness
        witness = () if self.witness is None else ('--witness', held(folder, 'witness.txt', text))
        return ('dap', held(folder, 'script.mpd', self.script), *mode, *witness, *(() if self.run is None else self.run.words()))

    def wanted(self):
        """What must be answered."""
        return dap(self.script, self.data, RENDEZVOUS if self.mode is None else self.mode, self.witness, self.run)


LENGTHS = 15, 25, 40, 60


def random_case(seed, number):
    """One dialogue, the same each time."""
    random = Random(f'adapters/{seed}/{number}')
    mode, way = by_turns(random.choice(MODES_DRAWN), number), WAYS[number % len(WAYS)]
    script = with_carriage_returns(random, with_news(random, script_for(seed, random, number, mode)))
    habits = BLAMING if is_turn_of_blaming(number) else random.choice(ALL_HABITS)
    found = run = None
    try:
        found = witness_for(random, script, mode) if random.random() < 0.15 else None
        run = run_for(random, script, mode) if found is None and random.random() < 0.15 else None
        editor = Editor(random, script, mode, ahead_in(script, mode, found, run), habits)
    except Fault:
        return Case(f'adapter-{seed}-{number}', script, mode, (b'Content-Length: 2\r\n\r\n{}',), (0,), 'at once')
    pieces = ended(random, list(editor.frames(random.choice(LENGTHS))), editor.adapter.written)
    counts = tuple(count for _, count in pieces)
    pieces = tuple(piece for piece, _ in pieces)
    if way == 'in pieces':
        pieces = tuple(in_pieces(random, b''.join(pieces)))
    mode = None if mode == RENDEZVOUS and random.random() < 0.3 else mode
    text = None if found is None else spoiled_witness(random, found[1]) if random.random() < 0.2 else found[1]
    run = spoiled_run(random, run) if run is not None and random.random() < 0.2 else run
    return Case(f'adapter-{seed}-{number}', script, mode, pieces, counts, way, text, run)
