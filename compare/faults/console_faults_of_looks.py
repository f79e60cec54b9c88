"""Faults of the looks of the console's model: why calls are not matched, steps that are taken, pictures, states, calls, variables and lists
(console_faults.py)."""

from inspect import isfunction

from faults.policy_faults import Breakage
from model import console, console_lines, console_values, debugger
from model.console import Console
from model.worlds import CallId

SOUND = {name: value for name, value in vars(Console).items() if isfunction(value)}


def named(name, faults):
    """Faults that stand in the place of a method, each by what it is called."""
    return [Breakage(f'{name}: {what}', Console, name, replacement) for what, replacement in faults.items()]


def changed(name, change):
    """What answers otherwise, by the lines of the sound answer, and the console."""
    return lambda self, *given: change(SOUND[name](self, *given), self)


def without(*begins):
    """What leaves out lines that begin so."""
    return lambda lines, self: [line for line in lines if not line.startswith(begins)]


VALUED, TOLD_OF = console_values.expression_in, console_values.told_of


def told_by(change):
    """What tells otherwise of a text that is no expression, by what is told of it."""
    return lambda *given: change(TOLD_OF(*given))


# ---- why, and other looks

def last_call_of(self, asked=None):
    """What tells the last call of a rank that waits for none."""
    if isinstance(asked, int) and asked < len(self.world.ranks) and self.world.ranks[asked].calls:
        asked = debugger.last_call(self.world, asked)
    return SOUND['why'](self, asked)


def why_of(ranks):
    """What tells of other ranks where none is said, by the world."""
    def why(self, *given):
        numbers = ranks(self.world)
        return SOUND['why'](self, *given) if given or not numbers else [line for number in numbers for line in SOUND['why'](self, number)]
    return why


def blocked(world):
    return [number for number, rank in enumerate(world.ranks) if rank.mode == 'blocked']


def all_steps(self, count=console.LISTED):
    """What lists as many of the first steps."""
    return [line for line in SOUND['history'](self, self.debugger.depth or 1)][:count]


def no_call(self, asked=None):
    """What says that there is no call where there is no such one."""
    is_none = isinstance(asked, CallId) and debugger.find_call(self.world, asked) is None
    return ['no call'] if is_none else SOUND['why'](self, asked)


def of_call_too(self, asked=None):
    """What tells of a call by its name, too, that its rank can go on."""
    lines = SOUND['why'](self, asked)
    is_waited = isinstance(asked, CallId) and debugger.find_call(self.world, asked) is not None and console_lines.is_waited_at(self.world, asked)
    return console_lines.waiting_lines(self.at, asked) if is_waited else lines


def of_one_alone(self, asked=None):
    """What tells of no rank that it can go on where all are asked for."""
    return [line for line in SOUND['why'](self, asked) if asked is not None or 'complete' not in line]


def of_all_alone(self, asked=None):
    """What tells of no rank that it can go on where one is asked for."""
    return [line for line in SOUND['why'](self, asked) if asked is None or 'complete' not in line]


def from_0(self, *given):
    """What numbers steps from 0."""
    lines = SOUND['history'](self, *given)
    return [line if line.startswith('no') else f'{int(line.split()[0]) - 1} {line.partition(" ")[2]}' for line in lines]


def whole_where_no_rank(self, number=None):
    """What lists the whole script where there is no such rank."""
    return SOUND['list'](self, None if number is None or number >= len(self.world.ranks) else number)


def look_faults():
    return [
        *named('why', {
            'the last call of a rank that waits for none': last_call_of,
            'no call is told for no such call': no_call,
            'of a call too that its rank can go on': of_call_too,
            'of one rank alone that it can go on': of_one_alone,
            'of all ranks alone that they can go on': of_all_alone,
            'all ranks, those too that wait for none': why_of(lambda world: range(len(world.ranks))),
            'the first rank that waits alone': why_of(lambda world: blocked(world)[:1]),
            'the last rank that waits first': why_of(lambda world: blocked(world)[::-1]),
            'nothing where no rank waits': lambda self, *given: [line for line in SOUND['why'](self, *given) if line != console.NO_WAIT]}),
        *named('history', {
            'of five': lambda self, *given: SOUND['history'](self, *(given or (5,))),
            'the first steps': all_steps,
            'the last step first': changed('history', lambda lines, self: lines[::-1]),
            'none is none': changed('history', without('no step is taken')),
            'no step is taken where none is asked for': changed('history', lambda lines, self: lines or ['no step is taken']),
            'numbers from 0': from_0}),
        *named('picture', {
            'no row at the end': changed('picture', without('at the end')),
            'what the letters are is untold': changed('picture', lambda lines, self: lines[:-2])}),
        *named('words', {
            'those ahead too': lambda self: [debugger.step_text(step) for step in self.debugger.steps],
            'in words': lambda self: [line.partition(' ')[2] for line in SOUND['history'](self, self.debugger.depth or 1)]}),
        *named('show', {
            'no last line': lambda self: SOUND['show'](self)[:-1],
            'what is kept is what is taken': lambda self: [f'depth {self.debugger.depth} of {self.debugger.depth}', *SOUND['show'](self)[1:]]}),
        *named('enabled', {
            'nothing where there is none': changed('enabled', without('no step')),
            'as trace words': changed('enabled', lambda lines, self: [line.rpartition('; ')[2] for line in lines]),
            'matches first': changed('enabled', lambda lines, self: sorted(lines, key=lambda line: '; match ' not in line))}),
        *named('calls', {
            'nothing where there is none': changed('calls', without('no call')),
            'those of all ranks': lambda self, number=None: SOUND['calls'](self)}),
        *named('queues', {
            'nothing where there is none': changed('queues', without('no free'))}),
        *named('print', {
            'all ranks': lambda self, name, number=None: SOUND['print'](self, name),
            'from the last rank on': lambda self, *given: SOUND['print'](self, *given)[::-1]}),
        *named('value', {
            'all ranks': lambda self, expression, number=None: SOUND['value'](self, expression),
            'from the last rank on': lambda self, *given: SOUND['value'](self, *given)[::-1],
            'traps are untold': changed('value', lambda lines, self: [line for line in lines if ' traps: ' not in line]),
            'without its brackets': changed('value', lambda lines, self: [line.replace('(', '').replace(')', '') for line in lines])}),
        *[Breakage(f'value: {what}', console_values, name, replacement) for what, name, replacement in (
            ('what is expected is untold', 'told_of', told_by(lambda told: 'refused: this is no expression' if ' is expected ' in told else told)),
            ('a request is unknown', 'told_of', told_by(lambda told: f"no variable or request is called {told.split()[1]}" if ' is a request' in told else told)),
            ('any name', 'expression_in', lambda line, is_named: VALUED(line, lambda word: True)),
            ('no name', 'expression_in', lambda line, is_named: VALUED(line, lambda word: False)))],
        *named('variables', {
            'no output': changed('variables', lambda lines, self: [line for line in lines if 'has printed' not in line])}),
        *named('list', {
            'no rank is refused': whole_where_no_rank})]
