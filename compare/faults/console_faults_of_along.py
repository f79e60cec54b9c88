"""Faults of how words go along steps ahead in the console's model, and of what is told of that (console_faults.py)."""

from inspect import isfunction

from faults.policy_faults import Breakage
from model import console, policy, session
from model.console import Console
from model.debugger import next_world
from model.policy import Choice, Forced

SOUND = {name: value for name, value in vars(Console).items() if isfunction(value)}


def named(name, faults, owner=Console):
    """Faults that stand in the place of a method, each by what it is called."""
    return [Breakage(f'{name}: {what}', owner, name, replacement) for what, replacement in faults.items()]


# ---- how far

def never(*_):
    """What no step does."""
    return False


def late(self, *given):
    """What stops a step late."""
    return min(SOUND['steps_along'](self, *given) + 1, len(self.ahead))


def early(self, *given):
    """What stops a step early."""
    return max(SOUND['steps_along'](self, *given) - 1, 1)


def at_others(self, is_last, stops_at_choices):
    """What stops before a step that a run wouldn't take."""
    world, most = self.world, SOUND['steps_along'](self, is_last, stops_at_choices)
    for count, step in enumerate(self.ahead[:most]):
        decided = policy.settled(policy.decision(world))
        if count and isinstance(decided, Forced) and decided.step != step:
            return count
        world = next_world(world, step)
    return most


def whole_where_run_leaves(self, is_last, stops_at_choices):
    """What takes all steps ahead where a run would take others, past breakpoints and choices."""
    world = self.world
    for step in self.ahead:
        decided = policy.settled(policy.decision(world))
        if not isinstance(decided, Forced):
            break
        if decided.step != step:
            return len(self.ahead)
        world = next_world(world, step)
    return SOUND['steps_along'](self, is_last, stops_at_choices)


def one_at_choice(self, *given):
    """What takes one step from a choice, and no more."""
    return 1 if self.can_choose_again else SOUND['steps_along'](self, *given)


def last_breakpoint(self, world, step):
    """What passes a breakpoint where a later step ahead hits one, too."""
    found, steps = [], iter(self.debugger.steps)
    at = self.debugger.worlds[0]
    for other in steps:
        if self.session.breaks.lowest_hit(at, other) is not None:
            found.append((at, other))
        at = next_world(at, other)
    return bool(found) and found[-1] == (world, step)


# ---- what is told

def run_beyond(self, *given, **how):
    """What runs on where the steps ahead end."""
    lines = SOUND['along'](self, *given, **how)
    if self.ahead or console.AHEAD_ENDS not in lines:
        return lines
    depth = self.debugger.depth
    told = self.stopped(policy.run_on(self.debugger, self.session.breaks, session.MOST_COUNT), '')
    made = self.debugger.depth - depth + int(lines[0].split()[0])
    return [f'{console.plural(made, "step")}, depth {self.debugger.depth}', *told[1:]]


def told_by(change):
    """What tells otherwise of a move along steps ahead, by the lines and the console."""
    return lambda self, *given, **how: change(SOUND['along'](self, *given, **how), self)


def reasonless(lines, self):
    """What tells no reason but a breakpoint."""
    return [lines[0], *self.where()] if len(lines) > 1 and lines[1].startswith('stopped: ') and 'choice' not in lines[1] else lines


def told_at_choices(lines, self):
    """What tells at a choice, too, that the steps ahead end."""
    is_told = isinstance(self.decided, Choice) and not self.ahead and not lines[1].startswith('breakpoint')
    return [lines[0], console.AHEAD_ENDS, *lines[1:]] if is_told else lines


def told_at_ends(lines, self):
    """What tells at an end, too, that the steps ahead end."""
    return [lines[0], console.AHEAD_ENDS, *lines[1:]] if isinstance(self.decided, policy.Leaf) and not lines[1].startswith('breakpoint') else lines


def one_as_taken(self, *given, **how):
    """What tells a single step as it is taken."""
    return self.again() if SOUND['steps_along'](self, given[0], how.get('stops_at_choices', False)) == 1 else SOUND['along'](self, *given, **how)


def highest_number(lines, self):
    """What tells the breakpoint of the highest number that is set."""
    set_there = [number for number, stop in enumerate(self.session.breaks.places) if stop is not None]
    return [lines[0], self.break_line(set_there[-1]), *lines[2:]] if lines[1].startswith('breakpoint') else lines


def both_reasons(self, is_last, why, stops_at_choices=False):
    """What tells beside a breakpoint that what was asked for is reached."""
    lines = SOUND['along'](self, is_last, why, stops_at_choices)
    given = int(lines[0].split()[0]), self.debugger.worlds[-2], self.debugger.steps[self.debugger.depth - 1]
    is_both = lines[1].startswith('breakpoint') and isinstance(self.decided, Forced) and is_last(*given)
    return [*lines[:2], why, *lines[2:]] if is_both else lines


def asked_for_first(self, is_last, why, stops_at_choices=False):
    """What tells this in the place of the breakpoint."""
    lines = both_reasons(self, is_last, why, stops_at_choices)
    return [lines[0], *lines[2:]] if lines[1].startswith('breakpoint') and lines[2] == why else lines


# ---- where a run begins

def at_choice(change):
    """What runs otherwise from a choice where steps are ahead."""
    return lambda self, *given: change(self, *given) if self.can_choose_again else SOUND['run'](self, *given)


def stays(self, *_):
    """What stays at the choice."""
    return self.stopped(policy.run_on(self.debugger, self.session.breaks, 1), '')


def first_candidate(self, *_):
    """What takes the first candidate, and not the step ahead."""
    return self.take(self.decided.steps[0])


def drops(self, *given):
    """What drops the other steps that are ahead."""
    told = SOUND['run'](self, *given)
    del self.debugger.steps[self.debugger.depth:]
    return told


def runs_by_itself(self, most=session.MOST_COUNT):
    """What runs as if no step was ahead, but at a choice."""
    if self.can_choose_again or not 1 <= most <= session.MOST_COUNT:
        return SOUND['run'](self, most)
    return self.stopped(policy.run_on(self.debugger, self.session.breaks, most), '')


def along_faults():
    return [
        *named('steps_along', {
            'a step late': late,
            'a step early': early,
            'all that are ahead': lambda self, *_: len(self.ahead),
            'one of them': lambda self, *_: 1,
            'past what was asked for': lambda self, is_last, stops_at_choices: SOUND['steps_along'](self, never, stops_at_choices),
            'past choices': lambda self, is_last, stops_at_choices: SOUND['steps_along'](self, is_last, False),
            'at choices, whatever was asked for': lambda self, is_last, stops_at_choices: SOUND['steps_along'](self, is_last, True),
            'before a step that a run would not take': at_others,
            'all of them where a run would take others': whole_where_run_leaves,
            'one step from a choice': one_at_choice}),
        *named('stops_behind', {
            'past breakpoints': never,
            'at the last breakpoint': last_breakpoint,
            'at what hits none': lambda self, world, step: SOUND['stops_behind'](self, world, step) or step.kind == 'release'}),
        *named('is_choice', {
            'a single candidate is a choice': lambda self, world: isinstance(policy.decision(world), Choice),
            'two candidates are none': lambda self, world: SOUND['is_choice'](self, world) and len(policy.decision(world).steps) > 2}),
        *named('along', {
            'on beyond the steps ahead': run_beyond,
            'told by the depth': told_by(lambda lines, self: [f'depth {self.debugger.depth}', *lines[1:]]),
            'a single step told as it is taken': one_as_taken,
            'no reason': told_by(reasonless),
            'what was asked for where the steps ahead end': told_by(
                lambda lines, self: [console.STOPS[policy.MAX] if line == console.AHEAD_ENDS else line for line in lines]),
            'the end of the steps ahead at a choice, too': told_by(told_at_choices),
            'the end of the steps ahead at an end, too': told_by(told_at_ends),
            'another breakpoint': told_by(highest_number),
            'a breakpoint, and what was asked for': both_reasons,
            'what was asked for, and no breakpoint': asked_for_first,
            'not where it stands': told_by(lambda lines, self: lines[:1])}),
        *named('run', {
            'it stays at a choice': at_choice(stays),
            'what is ahead is dropped at a choice': at_choice(drops),
            'the first candidate': at_choice(first_candidate),
            'by itself, but at a choice': runs_by_itself})]
