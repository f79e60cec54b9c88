"""A session, in the model: requests read from lines of JSON, what each is answered, and the bytes of the answers.

It was written from the description of requests and replies (docs/SESSIONS.md, "Requests", "Replies", "Refusals" and "The engine"), over
the debugger, the runs and the explorer of the model. compare/rows/worked_sessions.py has rows of it, and compare/runs/sessions.py compares a program with it.
"""

import json
from typing import NamedTuple, Optional

from model import console_lines, debugger, explaining, explorer, order, policy
from model.debugger import (BAD_FILE, BAD_MODE, MOST_READS, RENDEZVOUS, CallId, Debugger, Result, call_line, enabled_steps, find_call, lines_of,
                            next_world, outcome, partner, rank_state, record_line, refusal, step_of, step_text)
from model.json_text import LARGEST_UNSIGNED, NoJson, read_json
from model.language import Fault, read_script
from model.modes import is_mode, slots_of
from model.policy import BREAK, COMPARISONS, Breaks, ChangeBreak, Choice, Condition, Forced, HandleBreak, LineBreak, MatchBreak, RankBreak

LONGEST_LINE = 4096
HIGHEST_LINE = 65537
MOST_COUNT = 1000000
LAST_VERSION = LARGEST_UNSIGNED

NOT_ENABLED, FULL, AT_START, NO_REDO, NOT_BEFORE = 21, 22, 24, 25, 26
LINE_TOO_LONG, NOT_JSON, BAD_FIELD, UNKNOWN_COMMAND = 41, 42, 43, 44
STALE, NEEDS_CHOICE, NO_SUCH_BREAK, BREAKS_FULL, BAD_NUMBER = 51, 52, 53, 54, 55
NAMES = {
    NOT_ENABLED: 'not-enabled', FULL: 'full', AT_START: 'at-start', NO_REDO: 'no-redo', NOT_BEFORE: 'not-before',
    LINE_TOO_LONG: 'line-too-long', NOT_JSON: 'not-json', BAD_FIELD: 'bad-field', UNKNOWN_COMMAND: 'unknown-command', STALE: 'stale',
    NEEDS_CHOICE: 'needs-choice', NO_SUCH_BREAK: 'no-such-break', BREAKS_FULL: 'breaks-full', BAD_NUMBER: 'bad-number'}


class Refused(Exception):
    """A request is refused, by a number; `told` is what its reply has beside the name."""

    def __init__(self, number, **told):
        super().__init__(number)
        self.number, self.told = number, told

    def reply(self):
        return {'error': NAMES[self.number], 'ok': False, **self.told}


# ---- requests (docs/SESSIONS.md, "Requests")

class Request(NamedTuple):
    """A command, the version that it was meant for (None where it isn't said), and its fields by their names."""
    command: str
    at: Optional[int]
    fields: dict


def number_in(value):
    """A whole number from 0 that fits 64 bits."""
    if type(value) is not int or value < 0:
        raise Refused(BAD_FIELD)
    return value


def step_in(value):
    """The step that a text names, as a line of a trace does."""
    words = [word for word in text_in(value).encode().replace(b'\t', b' ').split(b' ') if word]
    step = step_of(words) if words else None
    if step is None:
        raise Refused(BAD_FIELD)
    return step


def text_in(value):
    if type(value) is not str:
        raise Refused(BAD_FIELD)
    return value


def integer_in(value):
    """A number of 64 bits, which may be below 0."""
    if type(value) is not int or not -2**63 <= value < 2**63:
        raise Refused(BAD_FIELD)
    return value


def operator_in(value):
    if text_in(value) not in COMPARISONS:
        raise Refused(BAD_FIELD)
    return value


NUMBER, STEP, TEXT = number_in, step_in, text_in
# The fields that each command has, but for those of a breakpoint.
FIELDS = {
    'step': {'step': STEP}, 'next': {}, 'run': {'max': NUMBER}, 'run-on': {'max': NUMBER}, 'back': {'count': NUMBER},
    'redo': {'count': NUMBER}, 'goto': {'depth': NUMBER}, 'run-back': {}, 'enabled': {}, 'state': {}, 'vars': {'rank': NUMBER}, 'calls': {'rank': NUMBER},
    'why': {'rank': NUMBER, 'call': NUMBER}, 'break': {'kind': TEXT}, 'unbreak': {'break': NUMBER}, 'breaks': {}, 'hit': {},
    'explore': {'runs': NUMBER, 'fuel': NUMBER}, 'script': {}, 'where': {}, 'all': {}, 'decision': {}, 'steps': {'from': NUMBER, 'count': NUMBER},
    'lines': {'rank': NUMBER}, 'explain': {}}
MAY_HAVE = {'next': {'choice': NUMBER}}
FIELDS_OF_KINDS = {'line': {'line': NUMBER}, 'match': {'line': NUMBER}, 'change': {'rank': NUMBER, 'cell': NUMBER},
                   'handle': {'rank': NUMBER, 'handle': NUMBER}, 'rank': {'rank': NUMBER}}
# All of a condition stand, or none.
CONDITION = {'cell': NUMBER, 'is': operator_in, 'value': integer_in}
KINDS_MAY_HAVE = {'line': {'rank': NUMBER}, 'match': {'rank': NUMBER}}
# What is read with `--wide` alone: commands, kinds of breakpoints, and fields of the other kinds.
WIDE_COMMANDS = frozenset(['run-on', 'hit', 'script', 'where', 'all', 'decision', 'steps', 'lines', 'explain'])
WIDE_KINDS = frozenset(['handle', 'rank'])
WIDE_FIELDS = {'line': frozenset(['rank', *CONDITION]), 'match': frozenset(['rank'])}


def fields_of(command, entries):
    """The fields that a command must have, each with what reads it."""
    fields = FIELDS[command]
    if command != 'break':
        return fields
    kind = entries.get('kind')
    if type(kind) is not str or kind not in FIELDS_OF_KINDS:
        raise Refused(BAD_FIELD)
    is_conditional = kind == 'line' and not set(CONDITION).isdisjoint(entries)
    return fields | FIELDS_OF_KINDS[kind] | (CONDITION if is_conditional else {})


def may_have(command, entries):
    """The fields that a command may have beside those."""
    return KINDS_MAY_HAVE.get(entries['kind'], {}) if command == 'break' else MAY_HAVE.get(command, {})


def is_wide(entries):
    """Whether a breakpoint is of a kind, or has a field, that is read with `--wide` alone."""
    kind = entries.get('kind')
    return type(kind) is str and (kind in WIDE_KINDS or not WIDE_FIELDS.get(kind, frozenset()).isdisjoint(entries))


def read_fields(command, entries, wide):
    """The request of a command that is known, by what its object has beside it."""
    if command == 'break' and not wide and is_wide(entries):
        raise Refused(BAD_FIELD)
    needed = fields_of(command, entries)
    readers = {**needed, **may_have(command, entries), 'at': NUMBER}
    if not set(needed) <= set(entries) <= set(readers):
        raise Refused(BAD_FIELD)
    fields = {name: readers[name](value) for name, value in entries.items()}
    return Request(command, fields.pop('at', None), fields)


def parse(line, wide=False):
    """The request of a line without its end, with `--wide` or without it; the first test that fails refuses it."""
    if len(line) > LONGEST_LINE:
        raise Refused(LINE_TOO_LONG)
    try:
        value = read_json(line)
    except NoJson:
        raise Refused(NOT_JSON) from None
    if type(value) is not dict or type(value.get('cmd')) is not str:
        raise Refused(BAD_FIELD)
    entries = dict(value)
    command = entries.pop('cmd')
    if command not in FIELDS or not wide and command in WIDE_COMMANDS:
        raise Refused(UNKNOWN_COMMAND)
    return read_fields(command, entries, wide)


# ---- answers (docs/SESSIONS.md, "Replies" and "Refusals")

def must_be(is_good, number):
    """Refuses a request by a number where something isn't so."""
    if not is_good:
        raise Refused(number)


def break_text(number, stop):
    if isinstance(stop, ChangeBreak):
        return f'{number} change {stop.rank} {stop.cell}'
    if isinstance(stop, HandleBreak):
        return f'{number} handle {stop.rank} {stop.handle}'
    if isinstance(stop, RankBreak):
        return f'{number} rank {stop.rank}'
    if isinstance(stop, MatchBreak):
        return f'{number} match {stop.line}{meant_text(stop)}'
    return f'{number} line {stop.line}{meant_text(stop)}{condition_text(stop.condition)}'


def meant_text(stop):
    """The rank that is meant by a breakpoint of a line or of a match, where one is."""
    return '' if stop.rank is None else f' rank {stop.rank}'


def condition_text(condition, name=str):
    """What must hold, where something must, with its cell by number or as it is named."""
    return '' if condition is None else f' if {name(condition.cell)} {condition.operator} {condition.value}'


def partner_text(partner):
    other, held = partner
    return f'{other} eligible' if held is None else f'{other} held by {held}'


def leaf_text(leaf):
    return f'[{" ".join(map(str, leaf.choices))}] {leaf.outcome}'


# The steps that a rank takes by itself.
OWN_STEPS = 'local', 'wake', 'wakeany'


def mode_word(mode):
    """A mode as it is told: a number of slots without needless zeros."""
    slots = slots_of(mode)
    return mode if slots is None else f'slots:{slots}'


def text_of_call(world, call_id):
    """What is shown of a call behind the word `call` and its name."""
    return call_line(world, call_id).removeprefix(f'call {call_id} ')


class Session:
    """A debugger, its breakpoints, and the version, which each change that is answered ok raises; and whether `--wide` is given."""

    def __init__(self, script, mode=RENDEZVOUS, wide=False):
        self.script, self.mode, self.wide = script, mode, wide
        self.debugger = Debugger(script, mode)
        self.breaks = Breaks()
        self.version = 0

    @property
    def world(self):
        return self.debugger.world

    def answer(self, request):
        """The reply to a request."""
        try:
            self.test_version(request)
            told = self.told(request)
        except Refused as refused:
            return refused.reply()
        if request.command in CHANGING:
            self.raise_version()
        return {**told, 'ok': True, 'version': self.version}

    def test_version(self, request):
        if request.at is not None and request.at != self.version:
            raise Refused(STALE, now=self.version)

    def raise_version(self):
        self.version = min(self.version + 1, LAST_VERSION)

    def told(self, request):
        """What a request is answered where it is answered ok, beside `ok` and the version; it is done then."""
        return ANSWERS[request.command](self, **{KEYWORDS.get(name, name): value for name, value in request.fields.items()})

    def take(self, step):
        """Takes a step that somebody asks for."""
        must_be(next_world(self.world, step) is not None, NOT_ENABLED)
        must_be(self.debugger.depth < debugger.MOST_STEPS, FULL)
        self.debugger.take(step)

    def step(self, step):
        self.take(step)
        return self.where()

    def where(self):
        return {'depth': self.debugger.depth}

    def next(self, choice=None):
        """The step that is decided, or the candidate of that number."""
        decided = policy.decision(self.world)
        step = decided.step if isinstance(decided, Forced) else self.chosen(decided, choice)
        self.take(step)
        return {**self.where(), 'step': step_text(step)}

    def chosen(self, decided, choice):
        must_be(isinstance(decided, Choice), NOT_ENABLED)
        if choice is None:
            raise Refused(NEEDS_CHOICE, count=len(decided.steps))
        must_be(choice < len(decided.steps), BAD_NUMBER)
        return decided.steps[choice]

    def stopped(self, stop):
        """What is told behind a run."""
        number = {'break': stop.number} if stop.cause == BREAK else {}
        return {**self.where(), 'steps': stop.steps, 'stop': stop.cause, **number}

    def run(self, most):
        must_be(1 <= most <= MOST_COUNT, BAD_NUMBER)
        return self.stopped(policy.run(self.debugger, self.breaks, most))

    def run_on(self, most):
        must_be(1 <= most <= MOST_COUNT, BAD_NUMBER)
        return self.stopped(policy.run_on(self.debugger, self.breaks, most))

    def run_back(self):
        return self.stopped(policy.run_back(self.debugger, self.breaks))

    def back(self, count):
        must_be(1 <= count <= MOST_COUNT, BAD_NUMBER)
        must_be(count <= self.debugger.depth, AT_START)
        self.debugger.goto(self.debugger.depth - count)
        return self.where()

    def redo(self, count):
        must_be(1 <= count <= MOST_COUNT, BAD_NUMBER)
        must_be(count <= self.undone(), NO_REDO)
        for _ in range(count):
            self.debugger.redo()
        return self.where()

    def undone(self):
        return len(self.debugger.steps) - self.debugger.depth

    def goto(self, depth):
        must_be(depth <= self.debugger.depth, NOT_BEFORE)
        self.debugger.goto(depth)
        return self.where()

    def enabled(self):
        return {'steps': [step_text(step) for step in enabled_steps(self.world)]}

    def state(self):
        sets = [record_line(record).removeprefix('set ') for record in self.world.records]
        ended = {} if enabled_steps(self.world) else {'outcome': outcome(self.world)}
        return {**self.where(), 'ranks': [rank_state(rank) for rank in self.world.ranks], 'sets': sets, 'undone': self.undone(), **ended}

    def rank(self, number):
        """The rank of a number."""
        must_be(number < len(self.world.ranks), BAD_NUMBER)
        return self.world.ranks[number]

    def variables(self, rank):
        there = self.rank(rank)
        return {'vars': list(there.cells), 'handles': list(there.handles), 'out': list(there.printed)}

    def calls(self, rank):
        count = len(self.rank(rank).calls)
        return {'calls': [text_of_call(self.world, CallId(rank, number)) for number in range(count)]}

    def why(self, rank, call):
        call_id = CallId(rank, call)
        must_be(find_call(self.world, call_id) is not None, BAD_NUMBER)
        return {'partners': list(map(partner_text, order.why(self.world, call_id)))}

    def set_break(self, kind, line=None, rank=None, cell=None, handle=None, operator=None, value=None):
        if kind == 'change':
            must_be(cell < len(self.rank(rank).cells), BAD_NUMBER)
            stop = ChangeBreak(rank, cell)
        elif kind == 'handle':
            must_be(handle < len(self.rank(rank).handles), BAD_NUMBER)
            stop = HandleBreak(rank, handle)
        elif kind == 'rank':
            self.rank(rank)
            stop = RankBreak(rank)
        else:
            must_be(1 <= line <= HIGHEST_LINE, BAD_NUMBER)
            there = self.rank(rank or 0)
            must_be(cell is None or cell < len(there.cells), BAD_NUMBER)
            condition = None if cell is None else Condition(cell, operator, value)
            stop = LineBreak(line, rank, condition) if kind == 'line' else MatchBreak(line, rank)
        number = self.breaks.add(stop)
        must_be(number is not None, BREAKS_FULL)
        return {'break': number}

    def unset_break(self, number):
        must_be(self.breaks.remove(number), NO_SUCH_BREAK)
        return {}

    def list_breaks(self):
        return {'breaks': [break_text(number, stop) for number, stop in enumerate(self.breaks.places) if stop is not None]}

    def last_hit(self):
        """The breakpoint of the lowest number that the last step hits; nothing where it hits none, or none is taken."""
        number = policy.last_hit(self.debugger, self.breaks)
        return {} if number is None else {'break': number}

    def explore(self, runs, fuel):
        must_be(1 <= runs <= explorer.MOST_RUNS and 1 <= fuel <= debugger.MOST_STEPS - self.debugger.depth, BAD_NUMBER)
        found = explorer.explored(self.debugger, runs, fuel)
        return {'leaves': list(map(leaf_text, found.leaves)), 'more': found.more}

    def declared(self, kind):
        """What is declared of a kind, each as it stands in the script without its first word."""
        return [name if one.size is None else f'{name}[{one.size}]' for name, one in self.script.names.items() if one.kind == kind]

    def tell_script(self):
        return {'ranks': len(self.world.ranks), 'mode': mode_word(self.mode), 'vars': self.declared('var'), 'handles': self.declared('req'),
                'lines': sorted(set(console_lines.statement_lines(self.script.body)))}

    def where_all(self):
        """Where each rank stands, and those that can go on by themselves."""
        at, numbers = console_lines.reached(self.debugger), range(len(self.world.ranks))
        own = {step.first for step in enabled_steps(self.world) if step.kind in OWN_STEPS}
        return {'ranks': list(map(rank_state, self.world.ranks)), 'lines': [console_lines.stands_at(at, number) for number in numbers],
                'ready': [number for number in numbers if number in own]}

    def all(self):
        return {**self.where_all(), 'held': [self.variables(number) for number in range(len(self.world.ranks))]}

    def decide(self):
        """What `next` would take, or among what it would ask to choose; or how the run has ended."""
        decided = policy.decision(self.world)
        if isinstance(decided, policy.Leaf):
            return {'decision': 'leaf', 'outcome': outcome(self.world), 'steps': [], 'told': []}
        steps = [decided.step] if isinstance(decided, Forced) else decided.steps
        at = console_lines.reached(self.debugger)
        return {'decision': 'forced' if isinstance(decided, Forced) else 'choice', 'steps': [step_text(step) for step in steps],
                'told': [console_lines.candidate_words(at, self.script.names, step) for step in steps]}

    def list_steps(self, first, count):
        must_be(1 <= count <= MOST_COUNT and first <= len(self.debugger.steps), BAD_NUMBER)
        return {**self.where(), 'steps': [step_text(step) for step in self.debugger.steps[first:first + count]], 'undone': self.undone()}

    def lines(self, rank):
        at, calls = console_lines.reached(self.debugger), [CallId(rank, number) for number in range(len(self.rank(rank).calls))]
        partners = [partner(self.world, call_id) for call_id in calls]
        return {'lines': [console_lines.line_of(at, call_id) for call_id in calls], 'partners': [None if other is None else str(other) for other in partners]}

    def explain(self):
        if enabled_steps(self.world):
            return {'told': []}
        at = console_lines.reached(self.debugger)
        lost = [call_id for number in range(len(self.world.ranks)) for call_id in console_lines.lost_calls(self.world, number)]
        return {'told': [*explaining.told(at, self.script.names, outcome(self.world)), *console_lines.lost_by_lines(at, lost)]}


# A field whose name is no name of Python's.
KEYWORDS = {'break': 'number', 'max': 'most', 'from': 'first', 'is': 'operator'}
ANSWERS = {
    'step': Session.step, 'next': Session.next, 'run': Session.run, 'run-on': Session.run_on, 'back': Session.back, 'redo': Session.redo, 'goto': Session.goto,
    'run-back': Session.run_back, 'enabled': Session.enabled, 'state': Session.state, 'vars': Session.variables,
    'calls': Session.calls, 'why': Session.why, 'break': Session.set_break, 'unbreak': Session.unset_break,
    'breaks': Session.list_breaks, 'hit': Session.last_hit, 'explore': Session.explore, 'script': Session.tell_script, 'where': Session.where_all, 'all': Session.all,
    'decision': Session.decide, 'steps': Session.list_steps, 'lines': Session.lines, 'explain': Session.explain}
CHANGING = frozenset(['step', 'next', 'run', 'run-on', 'back', 'redo', 'goto', 'run-back', 'break', 'unbreak'])


def copied(session):
    """A session like this one, which goes on by itself."""
    copy = Session.__new__(Session)
    copy.debugger, copy.breaks, copy.version = Debugger.__new__(Debugger), Breaks(), session.version
    copy.script, copy.mode, copy.wide = session.script, session.mode, session.wide
    copy.debugger.worlds, copy.debugger.steps = list(session.debugger.worlds), list(session.debugger.steps)
    copy.breaks.places = list(session.breaks.places)
    return copy


# ---- bytes (docs/SESSIONS.md, "Replies" and "The engine")

def reply_bytes(reply):
    """A reply as it is written: a compact object, its keys in ascending order, and a line feed."""
    return json.dumps(reply, sort_keys=True, separators=(',', ':')).encode('ascii') + b'\n'


def answer_line(session, line):
    """The reply to a line without its end; None where it is empty."""
    if not line:
        return None
    try:
        request = parse(line, session.wide)
    except Refused as refused:
        return refused.reply()
    return session.answer(request)


def replies(session, data):
    """The replies to an input, one for each line that isn't empty."""
    answers = (answer_line(session, line) for line in lines_of(data))
    return b''.join(reply_bytes(reply) for reply in answers if reply is not None)


def serve(text, data, mode=RENDEZVOUS, wide=False):
    """The result for the text of a script, which is None where its file can't be read, and an input of requests."""
    if not is_mode(mode):
        return BAD_MODE
    if text is None:
        return BAD_FILE
    try:
        session = Session(read_script(text), mode, wide)
    except Fault as fault:
        return refusal(text, fault)
    return Result(replies(session, data), b'', 0)


def serve_packets(text, packets, mode=RENDEZVOUS, wide=False):
    """The result where each read of the input gives one packet; the read of its end counts too."""
    if len(packets) < MOST_READS:
        return serve(text, b''.join(packets), mode, wide)
    read = b''.join(packets[:MOST_READS])
    return Result(serve(text, read[:read.rfind(b'\n') + 1], mode, wide).output, b'mpdbg: turns\n', 3)
