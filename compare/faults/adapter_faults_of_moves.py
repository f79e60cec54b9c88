"""Faults of what the debug adapter of the model tells of a state, of breakpoints, moves and events (adapter_faults.py)."""

from inspect import isfunction

from faults.policy_faults import Breakage
from model import adapter, console_lines, explaining, policy, session
from model.adapter import AFTER_STEP, ANOTHER_SCRIPT, AT_BREAKPOINT, BAD_CONDITION, BREAKS_FULL, GONE_TO, Adapter, event, output, unset
from model.console_words import NotAsked, read_line
from model.policy import Choice, LineBreak

SOUND = {name: value for name, value in vars(Adapter).items() if isfunction(value)}
SOUND_SAID = adapter.Asking.laid_ahead


def named(name, faults, owner=Adapter):
    return [Breakage(f'{name}: {what}', owner, name, replacement) for what, replacement in faults.items()]


def body_by(name, change):
    """What has another body, by the sound one, the adapter and what is given."""
    def answered(self, *given, **named):
        body, events = SOUND[name](self, *given, **named)
        return change(body, self, *given, *named.values()), events
    return answered


def events_by(name, change):
    """What tells other events."""
    def answered(self, *given, **named):
        body, events = SOUND[name](self, *given, **named)
        return body, change(events)
    return answered


# ---- looks

def frame_by(**changes):
    """What has other fields of the frame of a stack, by the adapter and the thread."""
    def changed(body, self, thread):
        frame, = body['stackFrames']
        return {**body, 'stackFrames': [{**frame, **{name: change(self, thread, frame) for name, change in changes.items()}}]}
    return body_by('stack', changed)


def next_line(self, thread, frame):
    """The line of the next statement, of a rank that waits too."""
    rank = self.world.ranks[thread - 1]
    return frame['line'] if rank.rest is None else explaining.next_line(rank)


def scopes_by(change):
    """What tells other scopes."""
    return body_by('scopes', lambda body, self, frame: {'scopes': list(map(change, body['scopes']))})


def ended_with_source(body, self, thread):
    frame, = body['stackFrames']
    return {**body, 'stackFrames': [{**{name: it for name, it in frame.items() if name != 'presentationHint'}, 'source': {'path': self.path}}]}


def no_frame_at_end(body, self, thread):
    return {'stackFrames': [], 'totalFrames': 0} if 'presentationHint' in body['stackFrames'][0] else body


def calls_with_lines(self, rank):
    lines = [line.split(', ')[0] for line in console_lines.call_lines(self.console.at, [rank])]
    return [(name, f'{line}, {value}') for (name, value), line in zip(SOUND['calls'](self, rank), lines)]


def values_by(name, change):
    """What tells other values."""
    return lambda self, rank: [(called, change(value)) for called, value in SOUND[name](self, rank)]


def wholes(self, kind):
    """Names as they are declared, each for its first place."""
    found = SOUND['places'](self, kind)
    return [(name.partition('[')[0], place) for name, place in found if not name.endswith(']') or name.endswith('[0]')]


def labels_by(tell):
    """What tells candidates otherwise, by the adapter, where they stand, and the step."""
    def targets(self, frame):
        at = self.console.at
        return {'targets': [{'id': number, 'label': tell(self, at, step)} for number, step in self.own_candidates(frame - 1)]}, []
    return targets


def one_less(self, frame):
    body, events = SOUND['targets'](self, frame)
    return {'targets': [{**it, 'id': it['id'] - 1} for it in body['targets']]}, events


def exception_by(**changes):
    """What tells of an end otherwise, by the adapter and what is told."""
    return body_by('exception', lambda body, self, thread: {**body, **{name: change(self, body) for name, change in changes.items()}})


def with_end(self, body):
    return f'ended: {console_lines.end_words(self.console.at, self.console.decided.outcome)}\n{body["description"]}'


def exception_anyway(self, thread):
    """What tells that nothing has ended."""
    if isinstance(self.console.decided, policy.Leaf):
        return SOUND['exception'](self, thread)
    return {'breakMode': 'never', 'description': '', 'exceptionId': 'none'}, []


# ---- breakpoints

def breakpoints_by(remove=lambda self: None, is_script=lambda self, path: path == self.path, one=SOUND['set_one']):
    """What sets breakpoints otherwise: what is removed before, for which path, and how one is set."""
    def set_breakpoints(self, path, wanted=()):
        if not is_script(self, path):
            return {'breakpoints': [unset(it, ANOTHER_SCRIPT) for it in wanted]}, []
        remove(self)
        return {'breakpoints': [one(self, it) for it in wanted]}, []
    return set_breakpoints


def remove_if(test):
    """What removes breakpoints of which something holds."""
    def remove(self):
        for number, stop in enumerate(self.session.breaks.places):
            if stop is not None and test(stop):
                self.session.unset_break(number)
    return remove


LINES = remove_if(lambda stop: isinstance(stop, LineBreak))


def another_clears(self, path, wanted=()):
    LINES(self)
    return SOUND['set_breakpoints'](self, path, wanted)


def condition_first(self, wanted):
    """A bad condition is told before that there is no line."""
    if self.break_given(1, wanted.condition) is None:
        return unset(wanted, BAD_CONDITION)
    return SOUND['set_one'](self, wanted)


def full_first(self, wanted):
    if None not in self.session.breaks.places:
        return unset(wanted, BREAKS_FULL)
    return SOUND['set_one'](self, wanted)


def line_moved(self, wanted):
    """What isn't set is told of the line that it would be of."""
    told = SOUND['set_one'](self, wanted)
    return told if told['verified'] else {**told, 'line': self.line_from(wanted.line) or wanted.line}


def wanted_line(self, wanted):
    told = SOUND['set_one'](self, wanted)
    return {**told, 'line': wanted.line}


def one_less_number(self, wanted):
    told = SOUND['set_one'](self, wanted)
    return {**told, 'id': told['id'] - 1} if told['verified'] else told


def line_by(choose):
    return lambda self, line: choose(sorted(console_lines.statement_lines(self.console.script.body)), line)


def given_by(tries, tests_rank=True):
    """What reads a condition otherwise: the texts that are tried, and whether its rank must be there."""
    def break_given(self, line, condition):
        for behind in tries(condition):
            try:
                given = self.console.understood(read_line(f'break {line} {behind}'.encode())).given
            except NotAsked:
                continue
            return None if tests_rank and given[2] is not None and given[2] >= len(self.world.ranks) else given
        return None
    return break_given


def after_rank(condition):
    """The condition, and the same with `if` after its rank."""
    if condition is None:
        return ['']
    words = condition.split()
    return [condition, f'if {condition}', ' '.join([*words[:2], 'if', *words[2:]])]


def bad_as_none(self, line, condition):
    return SOUND['break_given'](self, line, condition) or SOUND['break_given'](self, line, None)


def empty_as_bad(self, line, condition):
    return None if condition is not None and not condition.strip() else SOUND['break_given'](self, line, condition)


# ---- moves

def moved_by(word, reason):
    """A move that stands for another word: by the adapter and the thread."""
    def move(self, thread, **more):
        return {}, self.moved(self.say(*word(self, thread)), reason, thread)
    return move


def stepping_in(choose):
    """What chooses a candidate otherwise, by the adapter, the thread and the target."""
    def step_in(self, thread, target=None):
        chosen = choose(self, thread, target)
        return {}, self.moved(self.say('next', *() if chosen is None else (chosen,)), AFTER_STEP, thread)
    return step_in


def first_own(self, thread, target):
    own = self.own_candidates(thread - 1)
    return own[0][0] if target is None and own else target


def only_own(self, thread):
    """The only candidate of a rank, by its number; None where it has another count of them."""
    own = self.own_candidates(thread - 1)
    return own[0][0] if len(own) == 1 else None


def sent_own(self, thread, target):
    """The candidate of a message that the rank sends."""
    own = [number for number, step in self.own_candidates(thread - 1) if step.kind == 'match' and step.first.rank == thread - 1]
    return own[0] if target is None and len(own) == 1 else target


def is_choice(worlds, depth):
    return isinstance(policy.settled(policy.decision(worlds[depth])), Choice)


def is_hit(self, worlds, steps, depth):
    return depth > 0 and self.session.breaks.lowest_hit(worlds[depth - 1], steps[depth - 1]) is not None


def is_any_choice_or_hit(self, worlds, steps, depth):
    return isinstance(policy.decision(worlds[depth]), Choice) or is_hit(self, worlds, steps, depth)


def stop_here_too(self):
    walked = self.console.debugger
    depths = [depth for depth in range(walked.depth + 1) if depth < len(walked.worlds) and self.would_stop(walked.worlds, walked.steps, depth)]
    return max(depths, default=0)


def one_before(self):
    return max(0, SOUND['last_stop'](self) - 1)


def asked_silently(self, word, *given):
    """A move is a line that an empty one repeats."""
    self.console.last = adapter.Asked(word, given)
    return SOUND['say'](self, word, *given)


def stopped_if(test):
    """What tells `stopped` after a move only if something holds, by what is told of the move."""
    return lambda self, text, reason, thread=1: SOUND['moved'](self, text, reason, thread)[:2 if test(text) else 1]


# ---- events

def standing_by(change):
    """What stands otherwise, by the sound standing, the adapter, the reason and the thread."""
    return lambda self, reason, thread: change(SOUND['standing'](self, reason, thread), self, reason, thread)


def choice_anyway(told, self, reason, thread):
    """A choice is told of though steps are ahead."""
    if not self.candidates:
        return told
    return 'choice', 'choice', console_lines.chosen_for(self.console.at, self.candidates[0]).rank + 1


def instead_of(word, change):
    """What tells otherwise of a reason."""
    return standing_by(lambda told, self, reason, thread: change(told, self, thread) if told[0] == word else told)


def of_sender(self, reason, thread):
    """The thread of the last step, of a match that of its send."""
    depth = self.console.debugger.depth
    step = self.console.debugger.steps[depth - 1] if reason == AT_BREAKPOINT and depth else None
    return step.first.rank + 1 if step is not None and step.kind == 'match' else SOUND['thread_of'](self, reason, thread)


def last_always(self, reason, thread):
    rank = self.console.last_rank()
    return thread if rank is None else rank + 1


def release_of_first(self, reason, thread):
    return 1 if reason == AT_BREAKPOINT and self.console.last_rank() is None else SOUND['thread_of'](self, reason, thread)


def evaluated(result=lambda told: told.removesuffix('\n'), moves=lambda self, before, depth: self.session.version != before):
    """What answers a line otherwise, and tells of another stop."""
    def evaluate(self, expression, context=None, frame=None):
        if context != adapter.OF_LINES:
            return SOUND['evaluate'](self, expression, context, frame)
        before, depth = self.session.version, self.console.debugger.depth
        told = adapter.shown(self.console.answer(expression.encode()))
        return {'result': result(told), 'variablesReference': 0}, [self.stopped(GONE_TO)] if moves(self, before, depth) else []
    return evaluate


def as_line(is_line):
    """What takes expressions for lines in other contexts."""
    return lambda self, expression, context=None, frame=None: SOUND['evaluate'](self, expression, adapter.OF_LINES if is_line(context) else 'watch', frame)


def of_frame(change):
    """What tells an expression for another frame."""
    return lambda self, text, frame: SOUND['value_of'](self, text, change(frame))


def worths_by(change):
    """What finds other values of an expression."""
    return lambda self, text, meant: change(SOUND['values'](self, text, meant))


def named_never(self, text, meant):
    """A name is an expression, so that an array and a request have no value."""
    return self.values(text, meant)


def without_rank_behind(self, text, meant):
    """A number that stands behind an expression is passed over."""
    return [(rank, value) for rank in meant for _, value in SOUND['values'](self, text, range(len(self.world.ranks)))[:1]]


def bracketed(self, rank, named):
    """One cell stands in brackets, too."""
    told = SOUND['held'](self, rank, named)
    return told if told.startswith('[') else f'[{told}]'


def quitting(self, expression, context=None, frame=None):
    """`quit` ends the session."""
    told = SOUND['evaluate'](self, expression, context, frame)
    self.is_over = self.console.is_over
    return told


def look_faults():
    return [
        *named('stack', {
            'the next line of a rank that waits': frame_by(line=next_line), 'a source of a rank that has ended': body_by('stack', ended_with_source),
            'no frame of a rank that has ended': body_by('stack', no_frame_at_end),
            'the rank alone as a name': frame_by(name=lambda self, thread, frame: f'rank {thread - 1}'),
            'columns from 0': frame_by(column=lambda self, thread, frame: 0), 'frames by rank': frame_by(id=lambda self, thread, frame: thread - 1)}),
        *named('list_threads', {'threads by rank': body_by('list_threads',
            lambda body, self: {'threads': [{**it, 'id': it['id'] - 1} for it in body['threads']]})}),
        *named('rank_line', {'without what it is doing': lambda self, thread: f'rank {thread - 1}'}),
        *named('scopes', {
            'from 0': scopes_by(lambda it: {**it, 'variablesReference': it['variablesReference'] - 1}),
            'calls are expensive': scopes_by(lambda it: {**it, 'expensive': it['name'] == 'Calls'})}),
        *named('calls', {'with their lines': calls_with_lines,
            'numbers as names': lambda self, rank: [(name.split('.')[1], value) for name, value in SOUND['calls'](self, rank)]}),
        *named('requests', {'a dash of none': values_by('requests', lambda value: '-' if value == 'none' else value),
                            'calls by their number': values_by('requests', lambda value: value.split('.')[-1])}),
        *named('places', {'arrays by their first cell': wholes}),
        *named('printed', {
            'places from 1': lambda self, rank: [(f'[{number + 1}]', value) for number, (_, value) in enumerate(SOUND['printed'](self, rank))]}),
        *named('own_candidates', {
            'all of them': lambda self, rank: list(enumerate(self.candidates, 1)),
            'sends alone': lambda self, rank: [it for it in SOUND['own_candidates'](self, rank) if it[1].kind != 'match' or it[1].first.rank == rank],
            'receives alone': lambda self, rank: [it for it in SOUND['own_candidates'](self, rank) if it[1].kind != 'match' or it[1].second.rank == rank],
            'numbers among its own': lambda self, rank: [(number, step) for number, (_, step) in enumerate(SOUND['own_candidates'](self, rank), 1)],
            'matches alone': lambda self, rank: [it for it in SOUND['own_candidates'](self, rank) if it[1].kind == 'match'],
            'none if steps are ahead': lambda self, rank: [] if self.console.ahead else SOUND['own_candidates'](self, rank)}),
        *named('targets', {
            'numbers from 0': one_less, 'steps alone': labels_by(lambda self, at, step: adapter.console_lines.step_text(step)),
            'without its step': labels_by(lambda self, at, step: console_lines.candidate_words(at, self.names, step).partition(';')[0]),
            'without its receive': labels_by(lambda self, at, step: console_lines.candidate_words(at, self.names, step, True))}),
        *named('exception', {
            'its end first': exception_by(description=with_end),
            'without its last line feed': exception_by(description=lambda self, body: body['description'].removesuffix('\n')),
            'the whole outcome': exception_by(exceptionId=lambda self, body: self.console.decided.outcome),
            'never of what is done': exception_by(breakMode=lambda self, body: 'never'),
            'of what has not ended': exception_anyway})]


def breakpoint_faults():
    sound = breakpoints_by(LINES)
    return [
        *named('set_breakpoints', {
            'old ones stay': breakpoints_by(), 'all kinds are removed': breakpoints_by(remove_if(lambda stop: True)),
            'those of a rank stay': breakpoints_by(remove_if(lambda stop: isinstance(stop, LineBreak) and stop.rank is None)),
            'any script': breakpoints_by(LINES, lambda self, path: True), 'another script clears': another_clears,
            'none that are left out change nothing': (
                lambda self, path, wanted=None: ({'breakpoints': []}, []) if wanted is None else sound(self, path, wanted))}),
        *named('set_one', {
            'the condition before the line': condition_first, 'full before all': full_first, 'the moved line of what is not set': line_moved,
            'the wanted line': wanted_line, 'numbers from 0': one_less_number}),
        *named('line_from', {
            'no other line': line_by(lambda lines, line: line if line in lines else None),
            'the last one at the end': line_by(lambda lines, line: next((it for it in lines if it >= line), lines[-1] if lines else None)),
            'the nearest line': line_by(lambda lines, line: min(lines, key=lambda it: (abs(it - line), -it),
                default=None) if lines and line <= lines[-1] else None),
            'the next line but one': line_by(lambda lines, line: next((it for it in lines if it > line), None))}),
        *named('break_given', {
            '`if` must stand there': given_by(lambda condition: [condition or '']),
            '`if` never stands there': given_by(lambda condition: [f'if {condition}' if condition else '']),
            '`if` may be left out after a rank': given_by(after_rank),
            'any rank': given_by(lambda condition: [''] if condition is None else [condition, f'if {condition}'], False),
            'a bad one is none': bad_as_none, 'an empty one is bad': empty_as_bad})]


def word_faults():
    """Moves that stand for other words."""
    return [
        *named('run', {'without its body': lambda self, thread: ({}, SOUND['run'](self, thread)[1])}),
        *named('next', {
            'a single step': moved_by(lambda self, thread: ('next',), AFTER_STEP),
            'as far as a run': moved_by(lambda self, thread: ('run',), AFTER_STEP)}),
        *named('step_in', {
            'never a candidate': stepping_in(lambda self, thread, target: target), 'the first of several': stepping_in(first_own),
            'what the rank sends': stepping_in(sent_own),
            'targets from 0': stepping_in(lambda self, thread, target: only_own(self, thread) if target is None else target + 1),
            'no target': stepping_in(lambda self, thread, target: only_own(self, thread)),
            'up to the next step of the rank': moved_by(lambda self, thread: ('until', 'rank', thread - 1), AFTER_STEP)}),
        *named('step_out', {
            'of the last rank': moved_by(lambda self, thread: ('finish',), AFTER_STEP),
            'as next': moved_by(lambda self, thread: ('until', 'rank', thread - 1), AFTER_STEP)}),
        *named('step_back', {'a single step': moved_by(lambda self, thread: ('back',), AFTER_STEP)}),
        *named('run_back', {
            'as run-back': moved_by(lambda self, thread: ('run-back',), AT_BREAKPOINT),
            'to the last choice': moved_by(lambda self, thread: ('undo-choice',), AT_BREAKPOINT),
            'everything goes on': body_by('run_back', lambda body, self, thread: {'allThreadsContinued': True}),
            'told as a step': moved_by(lambda self, thread: ('goto', self.last_stop()), AFTER_STEP)}),
        *named('would_stop', {
            'at breakpoints alone': is_hit, 'at choices alone': lambda self, worlds, steps, depth: is_choice(worlds, depth), 'at any choice': is_any_choice_or_hit,
            'before a step that hits': lambda self, worlds, steps, depth: is_choice(worlds, depth) or is_hit(self, worlds, steps, depth + 1)}),
        *named('last_stop', {'here too': stop_here_too, 'one step early': one_before}),
        *named('say', {'an empty line does it again': asked_silently}),
        Breakage('lines wrap at 80', adapter, 'WIDTH', 80), Breakage('each byte is told as it is', adapter, 'shown', lambda text: text),
        Breakage('a tab is a question mark', adapter, 'shown', lambda text: ''.join(sign if ' ' <= sign <= '~' or sign == chr(10) else '?' for sign in text)),
        *named('restart', {
            'no stop': lambda self: ({}, self.moved(self.say('goto', 0), AFTER_STEP)[:1]), 'all undone steps are gone': forgetting})]


def forgetting(self):
    told = SOUND['restart'](self)
    self.console.debugger.steps.clear()
    return told


def event_faults():
    return [
        *named('moved', {
            'stopped first': lambda self, text, reason, thread=1: SOUND['moved'](self, text, reason, thread)[::-1],
            'no stop of what is refused': stopped_if(lambda text: not text.startswith('refused')),
            'no stop of what moves nothing': stopped_if(lambda text: not text.startswith('0 steps')),
            'no output of what is empty': lambda self, text, reason, thread=1: [output(text.removesuffix('\n')), self.stopped(reason, thread)],
            'as of the console': lambda self, text, reason, thread=1: [event('output', category='console', output=text), self.stopped(reason, thread)],
            'it goes on first': lambda self, text, reason, thread=1: [event('continued', threadId=thread), *SOUND['moved'](self, text, reason, thread)]}),
        *named('configured', {
            'no threads': events_by('configured', lambda events: events[-1:]),
            'threads last': events_by('configured', lambda events: [events[-1], *events[:-1]]),
            'no stop': events_by('configured', lambda events: events[:-1]),
            'the first thread alone': events_by('configured', lambda events: [events[0], events[-1]])}),
        *named('standing', {
            'a choice though steps are ahead': standing_by(choice_anyway),
            'a choice of the message': instead_of('choice', lambda told, self, thread: (*told[:2], thread)),
            'entry before all': standing_by(lambda told, self, reason, thread: ('entry', 'start', 1) if self.console.debugger.depth == 0 else told),
            'entry of the message': instead_of('entry', lambda told, self, thread: (*told[:2], thread)),
            'an end of the message': instead_of('end', lambda told, self, thread: (*told[:2], thread)),
            'a deadlock of the first rank': instead_of('exception', lambda told, self, thread: (*told[:2], 1)),
            'leftovers as an exception': instead_of('end', lambda told, self, thread: ('exception', *told[1:]) if told[1] == 'leftovers' else told),
            'the number of steps alone': standing_by(lambda told, self, reason, thread: (told[0], told[1].removeprefix('depth '), told[2])),
            'a breakpoint of any move': standing_by(lambda told, self, reason, thread: ('breakpoint', *told[1:]) if told[0] == 'step' else told),
            'a step of evaluate': standing_by(lambda told, self, reason, thread: ('step', *told[1:]) if told[0] == 'goto' else told)}),
        *named('thread_of', {
            'the last step of any move': last_always, 'the sender of a match': of_sender, 'that of the message': lambda self, reason, thread: thread,
            'a release of the first rank': release_of_first}),
        *named('evaluate', {
            'the whole answer': evaluated(lambda told: told), 'without blanks before it': evaluated(str.strip),
            'stopped always': evaluated(moves=lambda self, before, depth: True),
            'never stopped': evaluated(moves=lambda self, before, depth: False),
            'stopped at another depth': evaluated(moves=lambda self, before, depth: self.console.debugger.depth != depth),
            'quit ends it': quitting}),
        *named('evaluate', {
            'a hover is a line': as_line(lambda context: context in ('repl', 'hover')), 'a watch is a line': as_line(lambda context: context in ('repl', 'watch')),
            'what has no context is a line': as_line(lambda context: context in ('repl', None)), 'all are lines': as_line(lambda context: True),
            'all are values': as_line(lambda context: False)}),
        *named('value_of', {
            'of all ranks': of_frame(lambda frame: None), 'of the rank before': of_frame(lambda frame: None if frame is None else max(1, frame - 1)),
            'of the first rank': of_frame(lambda frame: frame or 1)}),
        *named('worths', {'a name is an expression': named_never}),
        *named('values', {'what is none is empty': worths_by(lambda found: found or [(0, '')]), 'a trap is none': worths_by(lambda found: [it for it in found if ':' not in it[1]]),
            'a rank behind it is passed over': without_rank_behind}),
        *named('held', {'brackets round one cell': bracketed}),
        Breakage('an array of 2 cells at most', adapter, 'CELLS_TOLD', 1),
        Breakage('runs that are laid ahead change nothing', adapter.Asking, 'laid_ahead', adapter.Console.laid_ahead),
        Breakage('a breakpoint changes nothing', adapter.Versioned, 'set_break', session.Session.set_break),
        Breakage('to go where it is changes nothing', adapter.Versioned, 'goto', gone_elsewhere)]


def gone_elsewhere(self, depth):
    before = self.debugger.depth
    session.Session.goto(self, depth)
    if depth != before:
        self.raise_version()


def move_faults():
    return [*look_faults(), *breakpoint_faults(), *word_faults(), *event_faults()]
