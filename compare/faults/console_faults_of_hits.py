"""Faults of the console's model about breakpoints that a single step hits, and of whether the runs that were looked at are all ways to end
(console_faults.py)."""

import re
from inspect import isfunction

from faults.policy_faults import Breakage
from model import console, explorer
from model.console import Console
from model.language import WaitAny
from model.modes import BUFFERED, slots_of
from model.policy import ChangeBreak, HandleBreak, LineBreak, MatchBreak, is_hit
from model.walks import CUT

SOUND = {name: value for name, value in vars(Console).items() if isfunction(value)}
# The line of a single step.
STEP = re.compile(r'\d+ (local|match|wake|wakeany|release)\b')


def named(name, faults):
    """Faults that stand in the place of a method, each by what it is called."""
    return [Breakage(f'{name}: {what}', Console, name, replacement) for what, replacement in faults.items()]


# ---- breakpoints that a single step hits

def all_hit(self, world, step):
    """The lines of all breakpoints that a step hits."""
    places = enumerate(self.session.breaks.places)
    return [self.break_line(number) for number, stop in places if stop is not None and is_hit(stop, world, step)]


def but_for(kind):
    """What knows no breakpoint of a kind there."""
    def hit(self, world, step):
        places = enumerate(self.session.breaks.places)
        found = [number for number, stop in places if stop is not None and not isinstance(stop, kind) and is_hit(stop, world, step)]
        return [self.break_line(number) for number in found[:1]]
    return hit


def is_break(line):
    return line.startswith('breakpoint ')


def is_step(lines):
    """Whether an answer tells a single step."""
    return bool(lines) and STEP.match(lines[0]) is not None


def unhit(*words):
    """What tells no breakpoint behind a single step by some words."""
    def told(self, asked):
        lines = SOUND['told'](self, asked)
        return [line for line in lines if not is_break(line)] if asked.word in words and is_step(lines) else lines
    return told


def break_at(place):
    """What tells the breakpoint at another place among the lines, by those of breakpoints and the others."""
    def told(self, asked):
        lines = SOUND['told'](self, asked)
        return place([*filter(is_break, lines)], [line for line in lines if not is_break(line)]) if is_step(lines) else lines
    return told


def next_alone(self, asked):
    """What tells a breakpoint behind `next` where no number stands alone."""
    return unhit('next')(self, asked) if asked.given else SOUND['told'](self, asked)


def hit_at_choices(self, asked):
    """What tells a breakpoint at choices alone."""
    is_choice = isinstance(self.decided, console.Choice)
    return SOUND['told'](self, asked) if is_choice else unhit(asked.word)(self, asked)


def unhit_at_choices(self, asked):
    """What tells none at choices."""
    is_choice = isinstance(self.decided, console.Choice)
    return unhit(asked.word)(self, asked) if is_choice else SOUND['told'](self, asked)


def along(name):
    """What tells the breakpoint that the last step hits, where steps are taken again."""
    def answer(self, *given):
        depth, ahead = self.debugger.depth, len(self.ahead)
        lines = SOUND[name](self, *given)
        taken = self.debugger.depth - depth
        if taken <= (name == 'redo') or not ahead:
            return lines
        return [lines[0], *self.hit(self.debugger.worlds[-2], self.debugger.steps[self.debugger.depth - 1]), *lines[1:]]
    return answer


def before_break(name):
    """What tells the breakpoint that a single step hits which is taken back."""
    def answer(self, *given):
        depth, before = self.debugger.depth, list(self.debugger.steps)
        lines = SOUND[name](self, *given)
        hit = self.hit(self.world, before[depth - 1]) if self.debugger.depth == depth - 1 else []
        return [lines[0], *(f'before {line}' for line in hit), *lines[1:]]
    return answer


def told_faults():
    return [
        *named('hit', {
            'never told': lambda self, world, step: [],
            'the highest number': lambda self, world, step: all_hit(self, world, step)[-1:],
            'all that are hit': all_hit,
            'as by a run back': lambda self, world, step: [f'before {line}' for line in SOUND['hit'](self, world, step)],
            'its number alone': lambda self, world, step: [line.partition(':')[0] for line in SOUND['hit'](self, world, step)],
            'no line': but_for(LineBreak),
            'no match': but_for(MatchBreak),
            'no variable': but_for(ChangeBreak),
            'no request': but_for(HandleBreak)}),
        *named('told', {
            **{f'no breakpoint behind {word}': unhit(word) for word in ('next', 'redo', 'local', 'match', 'wake', 'wakeany', 'release')},
            'a breakpoint before the step': break_at(lambda hit, others: [*hit, *others]),
            'a breakpoint behind where it stands': break_at(lambda hit, others: [*others, *hit]),
            'a breakpoint behind next without a number alone': next_alone,
            'a breakpoint at choices alone': hit_at_choices,
            'no breakpoint at choices': unhit_at_choices}),
        *named('goto', {
            'a breakpoint of the last step': along('goto')}),
        *named('redo', {
            'a breakpoint of the last of several': along('redo')}),
        *named('back', {
            'a breakpoint of the step': before_break('back')}),
        *named('undo_choice', {
            'a breakpoint of the step': before_break('undo_choice')})]


# ---- whether all ways to end were looked at

def was_issued(world):
    """Whether a rank has issued a wait for any."""
    return any(call.kind == 'waitany' for rank in world.ranks for call in rank.calls)


def all_where(is_all):
    """What tells by another rule whether the runs that were looked at are all ways to end, by the console, where all of them are listed whole."""
    return lambda self, ends, more: SOUND['are_all_ways'](self, ends, more) and is_all(self)


def way_count_faults():
    return named('are_all_ways', {
        'where there are no more': lambda self, ends, more: not more,
        'where not all runs are cut': lambda self, ends, more: not more and any(ends[name] for name in ends if name != CUT),
        'there are no more, ever': lambda self, ends, more: SOUND['are_all_ways'](self, ends, False),
        'as a report along decisions': all_where(lambda self: explorer.tells_all(self.script, self.mode, is_wide=False)),
        'not with a wait for any': all_where(lambda self: not explorer.has_waitany(self.script.body)),
        'not in slots': all_where(lambda self: slots_of(self.mode) is None),
        'not without any slot': all_where(lambda self: slots_of(self.mode) != 0),
        'not in more slots than none': all_where(lambda self: not slots_of(self.mode)),
        'not in version 2': all_where(lambda self: self.script.version == 1),
        'not with buffers': all_where(lambda self: self.mode != BUFFERED),
        'not with a wait for any in no block': all_where(lambda self: not any(isinstance(one, WaitAny) for one in self.script.body)),
        'not behind a wait for any': all_where(lambda self: not was_issued(self.world)),
        'not with the word in a comment': all_where(lambda self: b'waitany' not in self.text)})


def hit_faults():
    return [*told_faults(), *way_count_faults()]
