"""The script language: its reader with the faults, and the evaluation of expressions with the traps."""

import re
from bisect import bisect_left
from contextlib import contextmanager
from functools import lru_cache, partial
from typing import NamedTuple, Optional

HIGHEST = 2 ** 63 - 1
LOWEST = -2 ** 63

MOST_BYTES = 65536
LONGEST_NAME = 64
MOST_RANKS = 16
MOST_CELLS = 1024
MOST_HANDLES = 256
MOST_STATEMENTS = 4096
MOST_OPEN_BLOCKS = 64
MOST_OPERATORS = 64

# The highest version that is read. The program doesn't read version 3 yet, so `mpd 3;` is refused, but where a run asks for it
# (`reading_up_to`): compare/runs/version3.py, and the rows of version 3 in compare/runs/worked.py.
LANGUAGE_MAX = 2
# The versions that are read: `waitany` is a statement from version 2 on, collectives, probes and what stands for several statements are of
# version 3. A program that knows version 1 alone is compared with a model that reads no other (`--version 1` of the runs that compare a program).
VERSIONS = list(range(1, LANGUAGE_MAX + 1))

TOO_LONG, NOT_TEXT, BAD_TOKEN, EXPECTED, UNKNOWN_NAME = range(1, 6)
TWICE, TOO_DEEP, TOO_MANY, BAD_RANKS, NOT_IN_VERSION = range(6, 11)
FAULT_NAMES = {
    TOO_LONG: 'too-long', NOT_TEXT: 'not-text', BAD_TOKEN: 'bad-token', EXPECTED: 'expected',
    UNKNOWN_NAME: 'unknown-name', TWICE: 'twice', TOO_DEEP: 'too-deep', TOO_MANY: 'too-many',
    BAD_RANKS: 'bad-ranks', NOT_IN_VERSION: 'not-in-version',
}

RESERVED = frozenset('''
    mpd ranks var req if else while print assert send ssend isend issend recv irecv wait waitany barrier
    to from tag any status rank size'''.split())
# In a text of version 3 these are reserved too; in each other one they are names.
RESERVED_IN_3 = frozenset('''
    const for in with into waitall sendrecv bcast reduce allreduce gather scatter allgather alltoall scan probe'''.split())
# The operations of a reduction, which are names in every version.
OPERATIONS = ('sum', 'prod', 'min', 'max', 'and', 'or')
# The handle that the first `sendrecv` declares where it isn't there.
OWN_HANDLE = 'sendrecv_'

OTHER_THAN_TEXT = re.compile(rb'[^\t\n\r\x20-\x7e]')
BLANKS = re.compile(r'(?:[\t\n\r ]+|#[^\n]*)*')
NUMBER = re.compile(r'[0-9]+')
WORD = re.compile(r'[A-Za-z_][A-Za-z0-9_]*')
SIGN = re.compile(r'==|!=|<=|>=|&&|\|\||[;{}()\[\]=<>+\-*/%!]')
SIGN_OF_3 = re.compile(rf'\.\.|{SIGN.pattern}')

COMPARISONS = ('==', '!=', '<', '<=', '>', '>=')
# Operators with two operands, those that bind least first; where a sum stands among them.
LEVELS = (('||',), ('&&',), COMPARISONS, ('+', '-'), ('*', '/', '%'))
SUM = 3


class Fault(Exception):
    """A script refused: the number of the fault and the byte where it stands."""

    def __init__(self, number, place):
        super().__init__(number, place)
        self.number = number
        self.place = place


class Token(NamedTuple):
    """A token; its kind is number, word (a reserved one), name, sign or end."""
    kind: str
    value: object
    place: int


class Number(NamedTuple):
    value: int


class OwnRank(NamedTuple):
    """The word `rank` in an expression."""


class RankCount(NamedTuple):
    """The word `size` in an expression."""


class Place(NamedTuple):
    """Where a value or a request stands: its name, the first cell or handle, and size and index where it is an array."""
    name: str
    first: int
    size: Optional[int]
    index: object


class Unary(NamedTuple):
    sign: str
    operand: object


class Binary(NamedTuple):
    sign: str
    left: object
    right: object


class Line(int):
    """The line at which a statement begins, and the place of its first byte, which tells it from others of that line. (reading: statements that
    stand for one have the place of its word, as they have its line, and the last one of a `for` that of its bracket)"""

    def __new__(cls, line, place=None):
        it = super().__new__(cls, line)
        it.place = place
        return it


class Assign(NamedTuple):
    line: Line
    place: Place
    value: object


class Branch(NamedTuple):
    line: int
    condition: object
    then: list
    otherwise: list


class While(NamedTuple):
    line: int
    condition: object
    body: list


class Print(NamedTuple):
    line: int
    value: object


class Assert(NamedTuple):
    line: int
    condition: object


class Send(NamedTuple):
    """A send; that of an `isend` or an `issend` has a handle, that of an `ssend` or an `issend` is synchronous."""
    line: int
    handle: Optional[Place]
    value: object
    to: object
    tag: object
    synchronous: bool


class Receive(NamedTuple):
    """A receive, which has a handle where it is an `irecv`; source and tag are None where they are `any`.

    `status` has the places for the source and the tag of what is received, where there are such places.
    """
    line: int
    handle: Optional[Place]
    place: Place
    source: object
    tag: object
    status: Optional[tuple]


class Wait(NamedTuple):
    line: int
    handle: Place


class WaitAny(NamedTuple):
    """A wait for any of the handles of a declaration: its name, the first of them and how many they are; `place` takes which one it was."""
    line: int
    name: str
    first: int
    count: int
    place: Place


class Barrier(NamedTuple):
    line: int


class Whole(NamedTuple):
    """A name that stands for all its cells: the first of them, and how many they are."""
    name: str
    first: int
    count: int


class Collective(NamedTuple):
    """A collective, by its word. What it gives is an expression or an array, in a bcast None, as that gives what stands in its place; root and
    operation are None where its kind has none; what it gets goes to a place or an array."""
    line: int
    kind: str
    given: object
    root: object
    operation: Optional[str]
    into: object


class Probe(NamedTuple):
    """A probe: source, tag and status are those of a receive."""
    line: int
    source: object
    tag: object
    status: Optional[tuple]


class Declared(NamedTuple):
    """A declared name: `var` or `req`, its first cell or handle, and its size where it is an array."""
    kind: str
    first: int
    size: Optional[int]


class Script(NamedTuple):
    """A script that was read: its version, how many ranks, cells and handles, its names in the order of declaration, its statements."""
    version: int
    ranks: int
    cells: int
    handles: int
    names: dict
    body: list


def read_up_to(version):
    """Has the model read no later version than this one."""
    VERSIONS[:] = range(1, version + 1)


@contextmanager
def reading_up_to(version):
    """Has the model read no later version than this one meanwhile."""
    before = VERSIONS[:]
    read_up_to(version)
    read_script.cache_clear()
    try:
        yield
    finally:
        VERSIONS[:] = before
        read_script.cache_clear()


def most(kind):
    """How many cells or handles all declarations of a kind may have."""
    return MOST_CELLS if kind == 'var' else MOST_HANDLES


class Form(NamedTuple):
    """How a collective is written: whether it gives an array or a value, whether it has an operation, the word before its root, or None, and
    whether it gets an array or a value."""
    gives_array: bool
    has_operation: bool
    root_word: Optional[str]
    gets_array: bool


# Those of all kinds but `bcast`, which has its place in front.
FORMS = {
    'reduce': Form(False, True, 'to', False), 'allreduce': Form(False, True, None, False), 'scan': Form(False, True, None, False),
    'gather': Form(False, False, 'to', True), 'allgather': Form(False, False, None, True),
    'scatter': Form(True, False, 'from', False), 'alltoall': Form(True, False, None, True)}
# How many statements a word stands for at its own place, where they are several.
STANDS_FOR = {'for': 2, 'sendrecv': 3}


class Tokens:
    """The tokens of a text, one at a time: `current` is the one looked at. What a token is hangs on the version, which is told behind the
    number that names it, before the next token is looked at."""

    def __init__(self, text):
        self.text = text
        self.behind = 0
        self.current = None
        self.reserved, self.sign = RESERVED, SIGN
        self.advance()

    def become(self, version):
        """Has what comes be the tokens of a text of this version."""
        if version > 2:
            self.reserved, self.sign = RESERVED | RESERVED_IN_3, SIGN_OF_3

    def advance(self):
        place = BLANKS.match(self.text, self.behind).end()
        if place == len(self.text):
            self.current = Token('end', None, place)
            self.behind = place
        elif found := NUMBER.match(self.text, place):
            self.take_number(found.group(), place)
        elif found := WORD.match(self.text, place):
            self.take_word(found.group(), place)
        elif found := self.sign.match(self.text, place):
            self.current = Token('sign', found.group(), place)
            self.behind = found.end()
        else:
            raise Fault(BAD_TOKEN, place)

    def take_number(self, digits, place):
        significant = digits.lstrip('0') or '0'
        if len(significant) > len(str(HIGHEST)) or int(significant) > HIGHEST:
            raise Fault(BAD_TOKEN, place)
        self.current = Token('number', int(significant), place)
        self.behind = place + len(digits)

    def take_word(self, word, place):
        if len(word) > LONGEST_NAME:
            raise Fault(BAD_TOKEN, place)
        self.current = Token('word' if word in self.reserved else 'name', word, place)
        self.behind = place + len(word)


class Reader:
    """Reads a script of a text; the first fault met is raised."""

    def __init__(self, text):
        self.text = text
        self.tokens = Tokens(text)
        self.version = None
        self.line_feeds = [found.start() for found in re.finditer('\n', text)]
        self.names, self.constants = {}, {}
        self.ranks = None
        self.taken = {'var': 0, 'req': 0}
        self.statement_count = 0
        self.open_blocks = 0
        self.operators = 0

    def at(self, value):
        token = self.tokens.current
        return token.kind in ('word', 'sign') and token.value == value

    def fault(self, number):
        return Fault(number, self.tokens.current.place)

    def expect(self, value):
        if not self.at(value):
            raise self.fault(EXPECTED)
        self.tokens.advance()

    def expect_kind(self, kind):
        if self.tokens.current.kind != kind:
            raise self.fault(EXPECTED)

    def known(self, kind):
        """What the current name was declared as, where it is of that kind."""
        declared = self.names.get(self.tokens.current.value)
        if declared is None or declared.kind != kind:
            raise self.fault(UNKNOWN_NAME)
        return declared

    def script(self):
        self.expect('mpd')
        self.expect_kind('number')
        self.version = self.tokens.current.value
        if self.version not in VERSIONS:
            raise self.fault(NOT_IN_VERSION)
        self.tokens.become(self.version)
        self.tokens.advance()
        self.expect(';')
        self.expect('ranks')
        self.expect_kind('number')
        self.ranks = self.tokens.current.value
        if not 1 <= self.ranks <= MOST_RANKS:
            raise self.fault(BAD_RANKS)
        self.tokens.advance()
        self.expect(';')
        while self.at('var') or self.at('req') or self.at('const'):
            self.constant() if self.at('const') else self.declaration(self.tokens.current.value)
        body = []
        while self.tokens.current.kind != 'end':
            body += self.statement()
        return Script(self.version, self.ranks, self.taken['var'], self.taken['req'], self.names, body)

    def new_name(self):
        """The name of a declaration, which isn't declared yet, and its place; it is not passed."""
        self.expect_kind('name')
        _, name, place = self.tokens.current
        if name in self.names or name in self.constants:
            raise Fault(TWICE, place)
        return name, place

    def constant(self):
        self.tokens.advance()
        name, _ = self.new_name()
        self.tokens.advance()
        self.expect('=')
        self.expect_kind('number')
        self.constants[name] = self.tokens.current.value
        self.tokens.advance()
        self.expect(';')

    def declaration(self, kind):
        self.tokens.advance()
        name, place = self.new_name()
        if self.bracket_behind(kind, place):
            self.tokens.advance()
            size = self.array_size(kind)
            taken = size
        else:
            if self.taken[kind] == most(kind):
                raise Fault(TOO_MANY, place)
            size = None
            taken = 1
        self.names[name] = Declared(kind, self.taken[kind], size)
        self.taken[kind] += taken
        self.expect(';')

    def bracket_behind(self, kind, place):
        """Advances behind the name at `place`; where nothing is left for it, that fault comes before one of the next token."""
        try:
            self.tokens.advance()
        except Fault:
            if self.taken[kind] == most(kind):
                raise Fault(TOO_MANY, place) from None
            raise
        return self.at('[')

    def array_size(self, kind):
        size = self.size_named()
        if self.taken[kind] + size > most(kind):
            raise self.fault(TOO_MANY)
        self.tokens.advance()
        self.expect(']')
        return size

    def size_named(self):
        """The size that the current token is: a number, and in version 3 also the name of a constant, or the number of ranks."""
        if self.version > 2 and self.tokens.current.kind == 'name':
            if self.tokens.current.value not in self.constants:
                raise self.fault(UNKNOWN_NAME)
            return self.constants[self.tokens.current.value]
        if self.version > 2 and self.at('size'):
            return self.ranks
        self.expect_kind('number')
        return self.tokens.current.value

    def block(self, close=None):
        """The statements of a block; what `close` adds of its `}` stands behind them."""
        if not self.at('{'):
            raise self.fault(EXPECTED)
        if self.open_blocks == MOST_OPEN_BLOCKS:
            raise self.fault(TOO_DEEP)
        self.open_blocks += 1
        self.tokens.advance()
        body = []
        while not self.at('}'):
            body += self.statement()
        body += close() if close else []
        self.open_blocks -= 1
        self.tokens.advance()
        return body

    def more_statements(self, count):
        """Counts statements; whether there are more than may be."""
        self.statement_count += count
        return self.statement_count > MOST_STATEMENTS

    def line_of(self, place):
        return Line(1 + bisect_left(self.line_feeds, place), place)

    def statement(self):
        """The statement that is read next, or those that it stands for."""
        kind, value, place = self.tokens.current
        over = self.more_statements(STANDS_FOR.get(value, 1) if kind == 'word' else 1)
        read_rest = None
        if kind == 'name':
            self.known('var')
        elif kind == 'word' and value == 'waitany' and not self.has_waitany():
            raise Fault(TOO_MANY if over else NOT_IN_VERSION, place)
        else:
            read_rest = self.rest_of(value) if kind == 'word' else None
            if read_rest is None:
                raise Fault(EXPECTED, place)
        own_handle = self.own_handle() if kind == 'word' and value == 'sendrecv' else None
        if over:
            raise Fault(TOO_MANY, place)
        line = self.line_of(place)
        if kind == 'name':
            return [self.assignment(line)]
        self.tokens.advance()
        read = read_rest(line, own_handle) if own_handle else read_rest(line)
        return read if isinstance(read, list) else [read]

    def has_waitany(self):
        return self.version > 1

    def rest_of(self, word):
        """What reads the rest of the statement that begins with `word`; None where none does."""
        return {
            'if': self.branch, 'while': self.loop, 'print': self.printing, 'assert': self.assertion,
            'send': self.sending, 'recv': self.receiving, 'isend': self.with_handle(self.sending),
            'irecv': self.with_handle(self.receiving), 'wait': self.waiting, 'ssend': self.sending_synchronously,
            'issend': self.with_handle(self.sending_synchronously), 'waitany': self.waiting_for_any, 'barrier': self.meeting,
            # (the words that follow are reserved in version 3 alone)
            'for': self.counting, 'waitall': self.waiting_for_all, 'sendrecv': self.exchanging, 'probe': self.probing,
            'bcast': self.broadcasting, **{word: partial(self.collecting, word) for word in FORMS},
        }.get(word)

    def with_handle(self, read_rest):
        """What reads a handle, and then the rest of a statement."""
        return lambda line: read_rest(line, self.named_place('req'))

    def assignment(self, line):
        place = self.named_place('var')
        self.expect('=')
        value = self.expression()
        self.expect(';')
        return Assign(line, place, value)

    def branch(self, line):
        condition = self.expression()
        then = self.block()
        otherwise = []
        if self.at('else'):
            self.tokens.advance()
            otherwise = self.branch_behind_else() if self.version > 2 and self.at('if') else self.block()
        return Branch(line, condition, then, otherwise)

    def branch_behind_else(self):
        """What `else if E {..}` stands for: `else { if E {..} }`, of which the block is open as long as its statement.

        That 64 blocks are open here can't be: the block before the `else` would have been one too many.
        """
        if self.open_blocks == MOST_OPEN_BLOCKS:
            raise self.fault(TOO_DEEP)
        self.open_blocks += 1
        body = self.statement()
        self.open_blocks -= 1
        return body

    def counting(self, line):
        """`for i in A .. B { S }`, which is `i = A; while i < B { S i = i + 1; }`: B is asked before each turn. The `..` counts among the operators
        of B."""
        place = self.counter()
        self.expect('in')
        self.operators = 0
        first = self.binary(SUM)
        self.expect('..')
        self.operators = 1
        bound = self.binary(SUM)
        body = self.block(lambda: [self.next_number(place)])
        return [Assign(line, place, first), While(line, Binary('<', place, bound), body)]

    def counter(self):
        """The variable behind `for`, which has no size."""
        self.expect_kind('name')
        declared = self.known('var')
        if declared.size is not None:
            raise self.fault(UNKNOWN_NAME)
        name = self.tokens.current.value
        self.tokens.advance()
        return Place(name, declared.first, None, None)

    def next_number(self, place):
        """The last statement of a `for`, which stands at its `}`."""
        if self.more_statements(1):
            raise self.fault(TOO_MANY)
        return Assign(self.line_of(self.tokens.current.place), place, Binary('+', place, Number(1)))

    def loop(self, line):
        condition = self.expression()
        return While(line, condition, self.block())

    def printing(self, line):
        value = self.expression()
        self.expect(';')
        return Print(line, value)

    def assertion(self, line):
        condition = self.expression()
        self.expect(';')
        return Assert(line, condition)

    def message_to(self):
        """The value of a send, its destination and its tag."""
        value = self.expression()
        self.expect('to')
        to = self.expression()
        self.expect('tag')
        return value, to, self.expression()

    def sending(self, line, handle=None, synchronous=False):
        value, to, tag = self.message_to()
        self.expect(';')
        return Send(line, handle, value, to, tag, synchronous)

    def sending_synchronously(self, line, handle=None):
        return self.sending(line, handle, True)

    def receiving(self, line, handle=None):
        place = self.named_place('var')
        self.expect('from')
        source, tag, status = self.message_from()
        return Receive(line, handle, place, source, tag, status)

    def message_from(self):
        """The source, the tag and the status of a receive or a probe, to its end."""
        source = self.expression_or_any()
        self.expect('tag')
        tag = self.expression_or_any()
        status = self.status() if self.at('status') else None
        self.expect(';')
        return source, tag, status

    def expression_or_any(self):
        """An expression, or None for the word `any`."""
        if not self.at('any'):
            return self.expression()
        self.tokens.advance()
        return None

    def status(self):
        """The places of a status: for the source, then for the tag."""
        self.tokens.advance()
        return self.named_place('var'), self.named_place('var')

    def waiting(self, line):
        handle = self.named_place('req')
        self.expect(';')
        return Wait(line, handle)

    def waiting_for_all(self, line):
        """`waitall r;`, which is a wait for each handle of r in turn; it was counted as one statement."""
        self.expect_kind('name')
        name = self.tokens.current.value
        _, first, size = self.known('req')
        count = 1 if size is None else size
        if self.more_statements(count - 1):
            raise self.fault(TOO_MANY)
        self.tokens.advance()
        self.expect(';')
        if size is None:
            return [Wait(line, Place(name, first, None, None))]
        return [Wait(line, Place(name, first, size, Number(index))) for index in range(size)]

    def own_handle(self):
        """The handle of the current `sendrecv`, which the first one declares where it isn't there, behind all declarations."""
        if OWN_HANDLE not in self.names and OWN_HANDLE not in self.constants:
            if self.taken['req'] == most('req'):
                raise self.fault(TOO_MANY)
            self.names[OWN_HANDLE] = Declared('req', self.taken['req'], None)
            self.taken['req'] += 1
        declared = self.names.get(OWN_HANDLE)
        if declared is None or declared.kind != 'req' or declared.size is not None:
            raise self.fault(UNKNOWN_NAME)
        return Place(OWN_HANDLE, declared.first, None, None)

    def exchanging(self, line, handle):
        """`sendrecv V to D tag T recv M;`, which is `irecv sendrecv_ M; send V to D tag T; wait sendrecv_;`."""
        value, to, tag = self.message_to()
        self.expect('recv')
        received = self.receiving(line, handle)
        return [received, Send(line, None, value, to, tag, False), Wait(line, handle)]

    def probing(self, line):
        self.expect('from')
        source, tag, status = self.message_from()
        return Probe(line, source, tag, status)

    def broadcasting(self, line):
        place = self.named_place('var')
        self.expect('from')
        root = self.expression()
        self.expect(';')
        return Collective(line, 'bcast', None, root, None, place)

    def collecting(self, kind, line):
        """A collective of any other kind: what it gives, its operation and its root, where its form has them, and where it puts what it gets."""
        form = FORMS[kind]
        given = self.named_cells() if form.gives_array else self.expression()
        operation = self.operation() if form.has_operation else None
        root = None
        if form.root_word is not None:
            self.expect(form.root_word)
            root = self.expression()
        self.expect('into')
        into = self.named_cells() if form.gets_array else self.named_place('var')
        self.expect(';')
        return Collective(line, kind, given, root, operation, into)

    def operation(self):
        self.expect('with')
        if self.tokens.current.kind != 'name' or self.tokens.current.value not in OPERATIONS:
            raise self.fault(EXPECTED)
        operation = self.tokens.current.value
        self.tokens.advance()
        return operation

    def named_cells(self):
        """All cells of a variable, which stands without brackets whether it has a size or not."""
        self.expect_kind('name')
        name = self.tokens.current.value
        _, first, size = self.known('var')
        self.tokens.advance()
        return Whole(name, first, 1 if size is None else size)

    def waiting_for_any(self, line):
        name, first, count = self.named_handles()
        self.expect('to')
        place = self.named_place('var')
        self.expect(';')
        return WaitAny(line, name, first, count, place)

    def named_handles(self):
        """All handles of a declaration, which stands without brackets whether it has a size or not: its name, the first one, how many."""
        self.expect_kind('name')
        name = self.tokens.current.value
        _, first, size = self.known('req')
        self.tokens.advance()
        return name, first, 1 if size is None else size

    def meeting(self, line):
        self.expect(';')
        return Barrier(line)

    def named_place(self, kind):
        """A place that a statement names; its bracket is none of the operators of an expression."""
        self.expect_kind('name')
        name = self.tokens.current.value
        _, first, size = self.known(kind)
        self.tokens.advance()
        if size is None:
            return Place(name, first, None, None)
        self.expect('[')
        index = self.expression()
        self.expect(']')
        return Place(name, first, size, index)

    def expression(self):
        self.operators = 0
        return self.binary()

    def operator(self):
        """Counts the current token among the operators and brackets of its expression."""
        self.operators += 1
        if self.operators > MOST_OPERATORS:
            raise self.fault(TOO_DEEP)
        self.tokens.advance()

    def binary(self, level=0):
        if level == len(LEVELS):
            return self.unary()
        left = self.binary(level + 1)
        while self.tokens.current.kind == 'sign' and self.tokens.current.value in LEVELS[level]:
            sign = self.tokens.current.value
            self.operator()
            left = Binary(sign, left, self.binary(level + 1))
            if sign in COMPARISONS:
                break
        return left

    def unary(self):
        if self.at('-') or self.at('!'):
            sign = self.tokens.current.value
            self.operator()
            return Unary(sign, self.unary())
        return self.atom()

    def atom(self):
        kind, value, place = self.tokens.current
        if kind == 'number':
            self.tokens.advance()
            return Number(value)
        if self.at('rank') or self.at('size'):
            self.tokens.advance()
            return OwnRank() if value == 'rank' else RankCount()
        if kind == 'name' and value in self.constants:
            self.tokens.advance()
            return Number(self.constants[value])
        if kind == 'name':
            return self.variable_value()
        if self.at('('):
            self.operator()
            inner = self.binary()
            self.expect(')')
            return inner
        raise Fault(EXPECTED, place)

    def variable_value(self):
        name = self.tokens.current.value
        _, first, size = self.known('var')
        self.tokens.advance()
        if size is None:
            return Place(name, first, None, None)
        if not self.at('['):
            raise self.fault(EXPECTED)
        self.operator()
        index = self.binary()
        self.expect(']')
        return Place(name, first, size, index)


@lru_cache(maxsize=1)
def read_script(data):
    """The script that the bytes are; raises the fault where they are none. The last one is kept, and not read again."""
    if len(data) > MOST_BYTES:
        raise Fault(TOO_LONG, MOST_BYTES)
    if found := OTHER_THAN_TEXT.search(data):
        raise Fault(NOT_TEXT, found.start())
    return Reader(data.decode('ascii')).script()


class Trap(Exception):
    """The end of a rank by an error at run time."""

    def __init__(self, name):
        super().__init__(name)
        self.name = name


class View(NamedTuple):
    """What an expression sees: the cells and the number of its rank, and how many ranks there are."""
    cells: tuple
    rank: int
    ranks: int


def in_range(number):
    if not LOWEST <= number <= HIGHEST:
        raise Trap('overflow')
    return number


def quotient(left, right):
    """Division towards zero."""
    if right == 0:
        raise Trap('zero-divisor')
    magnitude = abs(left) // abs(right)
    return in_range(magnitude if (left < 0) == (right < 0) else -magnitude)


def remainder(left, right):
    return left - quotient(left, right) * right


def cell_of(place, view):
    """The number of the cell or handle that a place is."""
    if place.size is None:
        return place.first
    index = evaluate(place.index, view)
    if not 0 <= index < place.size:
        raise Trap('bad-index')
    return place.first + index


def evaluate(expression, view):
    if isinstance(expression, Number):
        return expression.value
    if isinstance(expression, OwnRank):
        return view.rank
    if isinstance(expression, RankCount):
        return view.ranks
    if isinstance(expression, Place):
        return view.cells[cell_of(expression, view)]
    if isinstance(expression, Unary):
        operand = evaluate(expression.operand, view)
        return in_range(-operand) if expression.sign == '-' else int(operand == 0)
    if expression.sign in ('&&', '||'):
        return evaluate_logical(expression, view)
    left = evaluate(expression.left, view)
    right = evaluate(expression.right, view)
    return calculate(expression.sign, left, right)


def evaluate_logical(expression, view):
    """`&&` and `||`: the right operand is evaluated only where the left one doesn't decide."""
    left = evaluate(expression.left, view) != 0
    if left == (expression.sign == '||'):
        return int(left)
    return int(evaluate(expression.right, view) != 0)


def calculate(sign, left, right):
    if sign in COMPARISONS:
        return int({'==': left == right, '!=': left != right, '<': left < right,
                    '<=': left <= right, '>': left > right, '>=': left >= right}[sign])
    if sign == '/':
        return quotient(left, right)
    if sign == '%':
        return remainder(left, right)
    return in_range({'+': left + right, '-': left - right, '*': left * right}[sign])
