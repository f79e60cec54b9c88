"""Faults that are put into decisions, breakpoints and runs of the model on purpose: the walks of follow.py must notice each."""

from typing import NamedTuple

from model import debugger, policy
from model.debugger import enabled_steps, next_world, outcome
from model.policy import BREAK, CHOICE, FULL, LEAF, MAX, START, Choice, Forced, Leaf, Stop


class Breakage(NamedTuple):
    """A fault put into the model on purpose: what stands in the place of something of a module or a class."""
    name: str
    owner: object
    attribute: str
    replacement: object


def deciding(kinds, of_kind=lambda steps: steps[0], pick=lambda steps: steps[0], choose=tuple):
    """What decides by kinds of steps in another order, or takes another of a kind, another match or other candidates."""
    def decided(world):
        steps = enabled_steps(world)
        groups = {kind: [step for step in steps if step.kind == kind] for kind in ('local', 'release', 'wake')}
        matches = [step for step in steps if step.kind == 'match']
        groups['match'] = [step for step in matches if policy.names_source(world, step)]
        for kind in kinds:
            if groups[kind]:
                return Forced((pick if kind == 'match' else of_kind)(groups[kind]))
        wakes = [step for step in steps if step.kind == 'wakeany']
        if wakes:
            return Choice(tuple(step for step in wakes if step.first == wakes[0].first))
        return Choice(choose(matches)) if matches else Leaf(outcome(world))
    return decided


USUAL = 'local', 'release', 'wake', 'match'


def last(steps):
    return steps[-1]


def without_forced_match(world):
    """What offers a choice where a receive names its source."""
    return deciding(USUAL[:3])(world)


def any_source_first(world):
    """What offers a choice as soon as a receive of any source has a match, those that name theirs left out."""
    steps = [step for step in enabled_steps(world) if step.kind == 'match']
    free = [step for step in steps if not policy.names_source(world, step)]
    decided = deciding(USUAL)(world)
    return Choice(tuple(free)) if free and isinstance(decided, Forced) and decided.step.kind == 'match' else decided


def one_is_forced(world):
    decided = deciding(USUAL)(world)
    return Forced(decided.steps[0]) if isinstance(decided, Choice) and len(decided.steps) == 1 else decided


def no_choice(world):
    decided = deciding(USUAL)(world)
    return Leaf('done') if isinstance(decided, Choice) else decided


def always_done(world):
    decided = deciding(USUAL)(world)
    return Leaf('done') if isinstance(decided, Leaf) else decided


def tested_in(order, more=0):
    """What tests the causes of a stop in another order, or lets a run make more steps."""
    def standstill(walked, decided, made, most):
        there = {LEAF: isinstance(decided, Leaf), CHOICE: isinstance(decided, Choice), FULL: walked.depth >= debugger.MOST_STEPS,
                 MAX: made >= most + more}
        return next((cause for cause in order if there[cause]), None)
    return standstill


def full_early(standstill):
    """What is full one step before the last depth."""
    def tested(walked, decided, made, most):
        cause = standstill(walked, decided, made, most)
        return FULL if cause in (None, MAX) and walked.depth + 1 == debugger.MOST_STEPS else cause
    return tested


def bounded(run):
    """What tells a stop at a breakpoint as one by the number of steps, where that was the last."""
    def ran(walked, breaks, most):
        stop = run(walked, breaks, most)
        return Stop(stop.steps, MAX) if stop.cause == BREAK and stop.steps == most else stop
    return ran


def past_leaf(run):
    """What goes past a breakpoint where a leaf or a choice stands behind it."""
    def ran(walked, breaks, most):
        stop = run(walked, breaks, most)
        decided = policy.decision(walked.world)
        if stop.cause != BREAK or isinstance(decided, Forced):
            return stop
        return Stop(stop.steps, LEAF if isinstance(decided, Leaf) else CHOICE)
    return ran


def in_front(run):
    """What stops before the step that hits."""
    def ran(walked, breaks, most):
        stop = run(walked, breaks, most)
        if stop.cause == BREAK:
            walked.back()
            return stop._replace(steps=stop.steps - 1)
        return stop
    return ran


def forgetful(run):
    """What drops the undone steps first."""
    def ran(walked, breaks, *most):
        del walked.steps[walked.depth:]
        return run(walked, breaks, *most)
    return ran


def forgetting_behind(run_back):
    """What drops what it took back."""
    def ran(walked, breaks):
        stop = run_back(walked, breaks)
        del walked.steps[walked.depth:]
        return stop
    return ran


def keeping_rest(run):
    """What keeps undone steps that a run dropped."""
    def ran(walked, breaks, most):
        rest = walked.steps[walked.depth:]
        stop = run(walked, breaks, most)
        if walked.depth == len(walked.steps) and len(rest) > stop.steps:
            walked.steps += rest[stop.steps:]
        return stop
    return ran


def one_too_far(run_back):
    def ran(walked, breaks):
        stop = run_back(walked, breaks)
        if stop.cause == BREAK and walked.depth:
            walked.back()
            return stop._replace(steps=stop.steps + 1)
        return stop
    return ran


def one_too_short(run_back):
    """What stops behind the step that hits."""
    def ran(walked, breaks):
        stop = run_back(walked, breaks)
        if stop.cause == BREAK:
            walked.redo()
            return stop._replace(steps=stop.steps - 1)
        return stop
    return ran


def past_last(run_back):
    """What passes a step that hits that it begins at."""
    def ran(walked, breaks):
        stop = run_back(walked, breaks)
        if stop != (1, BREAK, stop.number):
            return stop
        behind = run_back(walked, breaks)
        return behind._replace(steps=behind.steps + 1)
    return ran


def start_told(run_back):
    """What tells the start where a step that hits is the first."""
    def ran(walked, breaks):
        stop = run_back(walked, breaks)
        return stop if walked.depth else Stop(stop.steps, START)
    return ran


def moved(world, step):
    """The ranks that a step moves, or all."""
    return world.ranks if step.kind == 'release' else [world.ranks[step.first]]


def of_lines(test):
    """What hits by another test of a line: of the world before, the one behind, and the step."""
    def is_hit(stop, world, step):
        if not isinstance(stop, policy.LineBreak):
            return SOUND.is_hit(stop, world, step)
        return test(world, next_world(world, step), step, stop.line)
    return is_hit


def of_changes(test):
    def is_hit(stop, world, step):
        if not isinstance(stop, policy.ChangeBreak):
            return SOUND.is_hit(stop, world, step)
        return test(world, next_world(world, step), step, stop)
    return is_hit


def of_handles(test):
    """What hits by another test of a handle: of what it holds before and behind the step, the worlds, the step and the breakpoint."""
    def is_hit(stop, world, step):
        if not isinstance(stop, policy.HandleBreak):
            return SOUND.is_hit(stop, world, step)
        after = next_world(world, step)
        return test(*(policy.handle_in(there, stop.rank, stop.handle) for there in (world, after)), world, after, step, stop)
    return is_hit


def of_matches(test):
    def is_hit(stop, world, step):
        if not isinstance(stop, policy.MatchBreak) or step.kind != 'match':
            return SOUND.is_hit(stop, world, step)
        return test(debugger.find_call(world, step.first).line, debugger.find_call(world, step.second).line, stop.line)
    return is_hit


class Sound(NamedTuple):
    """What is not broken."""
    is_hit: object
    add: object
    remove: object


SOUND = Sound(policy.is_hit, policy.Breaks.add, policy.Breaks.remove)


def at(rank, line):
    return rank.rest is not None and rank.rest[0].line == line


def came(world, after, step, line):
    return SOUND.is_hit(policy.LineBreak(line), world, step)


def second_free(breaks, stop):
    """The second free place, where there are two."""
    free = [number for number, there in enumerate(breaks.places) if there is None][:2]
    if free:
        breaks.places[free[-1]] = stop
    return free[-1] if free else None


def behind_all(breaks, stop):
    """The place behind the last one that is taken, where there is one, else the lowest free one."""
    taken = [number for number, there in enumerate(breaks.places) if there is not None]
    place = taken[-1] + 1 if taken else 0
    if place >= len(breaks.places):
        return SOUND.add(breaks, stop)
    breaks.places[place] = stop
    return place


def highest(breaks, world, step):
    found = [number for number, stop in enumerate(breaks.places) if stop is not None and policy.is_hit(stop, world, step)]
    return found[-1] if found else None


def always_removed(breaks, number):
    SOUND.remove(breaks, number)
    return True


def kept_in_place(breaks, number):
    return breaks.get(number) is not None


def decision_faults():
    names = (
        ('a match before a wake', deciding(('local', 'release', 'match', 'wake'))),
        ('a match before a release', deciding(('local', 'wake', 'match', 'release'))),
        ('a wake before a local step', deciding(('wake', 'local', 'release', 'match'))),
        ('a match before a local step', deciding(('match', 'local', 'release', 'wake'))),
        ('the step of the highest rank', deciding(USUAL, of_kind=last)),
        ('the wake of the second of two ranks', lambda world: deciding(USUAL, of_kind=lambda steps: (
            steps[min(1, len(steps) - 1)] if steps[0].kind == 'wake' else steps[0]))(world)),
        ('the last match that names its source', deciding(USUAL, pick=last)),
        ('a choice where the receive names its source', without_forced_match),
        ('a choice before a match that names its source', any_source_first),
        ('a forced step where one candidate is left', one_is_forced),
        ('a leaf in the place of a choice', no_choice),
        ('an outcome that is always done', always_done),
        ('a choice without its last candidate', deciding(USUAL, choose=lambda steps: tuple(steps[:-1] or steps))),
        ('a choice of one receive alone', deciding(USUAL, choose=lambda steps: tuple(
            step for step in steps if step.second == steps[0].second))),
        ('candidates by sender', deciding(USUAL, choose=lambda steps: tuple(sorted(steps, key=lambda step: step.first)))),
        ('candidates of the last receiver first', deciding(USUAL, choose=lambda steps: tuple(reversed(steps)))),
    )
    return [Breakage(name, policy, 'decision', replacement) for name, replacement in names]


def stop_faults():
    standstill, run, run_back = policy.standstill, policy.run, policy.run_back
    return [
        Breakage('the number of steps before a leaf', policy, 'standstill', tested_in((MAX, LEAF, CHOICE, FULL))),
        Breakage('the number of steps before a choice', policy, 'standstill', tested_in((LEAF, MAX, CHOICE, FULL))),
        Breakage('the number of steps before the last depth', policy, 'standstill', tested_in((LEAF, CHOICE, MAX, FULL))),
        Breakage('the last depth before a leaf', policy, 'standstill', tested_in((FULL, LEAF, CHOICE, MAX))),
        Breakage('the last depth before a choice', policy, 'standstill', tested_in((LEAF, FULL, CHOICE, MAX))),
        Breakage('one step more', policy, 'standstill', tested_in((LEAF, CHOICE, FULL, MAX), 1)),
        Breakage('full one step early', policy, 'standstill', full_early(standstill)),
        Breakage('a breakpoint at the last step told as its number', policy, 'run', bounded(run)),
        Breakage('a leaf or a choice before a breakpoint', policy, 'run', past_leaf(run)),
        Breakage('a stop before the step that hits', policy, 'run', in_front(run)),
        Breakage('a run that drops undone steps', policy, 'run', forgetful(run)),
        Breakage('a run that keeps undone steps', policy, 'run', keeping_rest(run)),
        Breakage('a run back that drops undone steps', policy, 'run_back', forgetful(run_back)),
        Breakage('a run back that drops what it took back', policy, 'run_back', forgetting_behind(run_back)),
        Breakage('a run back one step too far', policy, 'run_back', one_too_far(run_back)),
        Breakage('a run back one step too short', policy, 'run_back', one_too_short(run_back)),
        Breakage('a run back past the step that it begins at', policy, 'run_back', past_last(run_back)),
        Breakage('the start told in the place of a breakpoint', policy, 'run_back', start_told(run_back)),
    ]


def hit_faults():
    lines = (
        ('the line before the step', lambda world, after, step, line: step.kind != 'match' and any(
            policy.is_at_line(rank, line) for rank in moved(world, step))),
        ('a line that its rank was on before left out', lambda world, after, step, line: came(world, after, step, line) and not any(
            policy.is_at_line(rank, line) for rank in moved(world, step))),
        ('a line of any rank', lambda world, after, step, line: step.kind != 'match' and any(
            policy.is_at_line(rank, line) for rank in after.ranks)),
        ('a line by a match', lambda world, after, step, line: came(world, after, step, line) or (step.kind == 'match' and any(
            policy.is_at_line(after.ranks[call.rank], line) for call in step[1:]))),
        ('no line by a wake', lambda world, after, step, line: step.kind != 'wake' and came(world, after, step, line)),
        ('no line by a release', lambda world, after, step, line: step.kind != 'release' and came(world, after, step, line)),
        ('a release by which all come to the line', lambda world, after, step, line: came(world, after, step, line) and (
            step.kind != 'release' or all(policy.is_at_line(rank, line) for rank in after.ranks))),
        ('a release by which the first rank comes to the line', lambda world, after, step, line: came(world, after, step, line) and (
            step.kind != 'release' or policy.is_at_line(after.ranks[0], line))),
        ('the line of a rank that is blocked or trapped', lambda world, after, step, line: step.kind != 'match' and any(
            at(rank, line) for rank in moved(after, step))),
        ('the line of the statement that was run', lambda world, after, step, line: step.kind == 'local' and at(
            world.ranks[step.first], line) or step.kind in ('wake', 'release') and came(world, after, step, line)),
    )
    changes = (
        ('a change of any rank', lambda world, after, step, stop: any(
            policy.cell_in(world, rank, stop.cell) != policy.cell_in(after, rank, stop.cell) for rank in range(len(world.ranks)))),
        ('a change of any cell', lambda world, after, step, stop: stop.rank < len(world.ranks)
            and stop.cell < len(world.ranks[stop.rank].cells) and world.ranks[stop.rank].cells != after.ranks[stop.rank].cells),
        ('no change by a wake', lambda world, after, step, stop: step.kind != 'wake' and SOUND.is_hit(stop, world, step)),
        ('a change by an assignment left out', lambda world, after, step, stop: step.kind == 'wake' and SOUND.is_hit(stop, world, step)),
        ('a change from zero alone', lambda world, after, step, stop: SOUND.is_hit(stop, world, step)
            and policy.cell_in(world, stop.rank, stop.cell) == 0),
    )
    matches = (
        ('the line of the send alone', lambda send, receive, line: send == line),
        ('the line of the receive alone', lambda send, receive, line: receive == line),
        ('the lines of both', lambda send, receive, line: send == receive == line),
        ('every match', lambda send, receive, line: True),
    )
    return ([Breakage(name, policy, 'is_hit', of_lines(test)) for name, test in lines]
            + [Breakage(name, policy, 'is_hit', of_changes(test)) for name, test in changes]
            + [Breakage(name, policy, 'is_hit', of_matches(test)) for name, test in matches])


def break_faults():
    breaks = policy.Breaks
    return [
        Breakage('the second free place', breaks, 'add', second_free),
        Breakage('a place behind all others', breaks, 'add', behind_all),
        Breakage('one place less', policy, 'MOST_BREAKS', policy.MOST_BREAKS - 1),
        Breakage('one place more', policy, 'MOST_BREAKS', policy.MOST_BREAKS + 1),
        Breakage('a free place that is removed', breaks, 'remove', always_removed),
        Breakage('a breakpoint that stays', breaks, 'remove', kept_in_place),
        Breakage('the highest number', breaks, 'lowest_hit', highest),
    ]


# ---- runs past choices of a single candidate, and breakpoints of handles: no word of policy_probe.py's copy has them

def by(decide):
    """What runs on by other decisions: of a world, and of what is decided there."""
    return lambda walked, breaks, most: policy.follow(walked, breaks, most, lambda world: decide(world, policy.decision(world)))


def is_single(decided):
    return isinstance(decided, Choice) and len(decided.steps) == 1


def single_of(kind):
    """What goes past a choice of a single candidate where that is no step of a kind."""
    return by(lambda world, decided: decided if is_single(decided) and decided.steps[0].kind == kind else policy.settled(decided))


def first_of_all(world, decided):
    """What takes the first candidate of each choice."""
    return Forced(decided.steps[0]) if isinstance(decided, Choice) else decided


def first_of_one_call(world, decided):
    """What takes the first of the candidates of one receive or rank as if it were forced."""
    calls = {step.second if step.kind == 'match' else step.first for step in decided.steps} if isinstance(decided, Choice) else ()
    return Forced(decided.steps[0]) if len(calls) == 1 else decided


def past_breaks(walked, breaks, most):
    """What passes a breakpoint on a single candidate."""
    made = 0
    while True:
        stop = policy.run(walked, breaks, max(0, most - made))
        made += stop.steps
        decided = policy.decision(walked.world)
        if stop.cause != CHOICE or not is_single(decided) or made >= most or walked.depth >= debugger.MOST_STEPS:
            return stop._replace(steps=made, cause=past(stop, decided, walked, made, most))
        walked.take(decided.steps[0])
        made += 1


def past(stop, decided, walked, made, most):
    """Why such a run stopped."""
    if stop.cause != CHOICE or not is_single(decided):
        return stop.cause
    return FULL if walked.depth >= debugger.MOST_STEPS else MAX


def uncounted(walked, breaks, most):
    """What doesn't count the single candidates among its steps."""
    before = walked.depth
    stop = SOUND_RUN_ON(walked, breaks, most)
    singles = sum(is_single(policy.decision(world)) for world in walked.worlds[before:walked.depth])
    return stop._replace(steps=stop.steps - singles)


def stops_behind(walked, breaks, most):
    """What stops behind a single candidate, as at a choice."""
    stop = policy.run(walked, breaks, most)
    decided = policy.decision(walked.world)
    if stop.cause != CHOICE or not is_single(decided) or stop.steps == most or walked.depth == debugger.MOST_STEPS:
        return stop if stop.cause != CHOICE or not is_single(decided) else SOUND_RUN_ON(walked, breaks, most - stop.steps)._replace(steps=stop.steps)
    walked.take(decided.steps[0])
    return Stop(stop.steps + 1, CHOICE)


def anew_behind(walked, breaks, most):
    """What counts its steps anew behind a single candidate."""
    before = walked.depth
    stop = policy.run(walked, breaks, most)
    while stop.cause == CHOICE and is_single(policy.decision(walked.world)) and walked.depth < debugger.MOST_STEPS and stop.steps < most:
        stop = SOUND_RUN_ON(walked, breaks, 1)
        stop = stop if stop.cause == BREAK else policy.run(walked, breaks, most)
    if stop.cause == CHOICE and is_single(policy.decision(walked.world)):
        stop = SOUND_RUN_ON(walked, breaks, 0)
    return stop._replace(steps=walked.depth - before)


SOUND_RUN_ON = policy.run_on


def run_on_faults():
    run_on = policy.run_on
    names = (
        ('a run on that stops at a single candidate', policy.run),
        ('a run on that takes the first of two', by(first_of_all)),
        ('a run on that takes the first of those of one call', by(first_of_one_call)),
        ('a run on that stops at a single match', single_of('match')),
        ('a run on that passes a breakpoint on a single candidate', past_breaks),
        ('a run on that does not count single candidates', uncounted),
        ('a run on that stops behind a single candidate', stops_behind),
        ('a run on that counts anew behind a single candidate', anew_behind),
        ('a run on that drops undone steps', forgetful(run_on)),
        ('a run on that keeps undone steps', keeping_rest(run_on)),
        ('a leaf or a choice before a breakpoint of a run on', past_leaf(run_on)))
    return [Breakage('a run past single candidates', policy, 'run', run_on), *(Breakage(name, policy, 'run_on', ran) for name, ran in names)]


def handle_faults():
    tests = (
        ('a handle that is cleared left out', lambda was, now, *_: was != now and now is not None),
        ('a handle that is cleared by a wake left out', lambda was, now, world, after, step, stop: was != now and step.kind != 'wake'),
        ('a handle that is set left out', lambda was, now, *_: was != now and was is not None),
        ('a second call of a handle left out', lambda was, now, *_: was != now and None in (was, now)),
        ('a handle that is cleared alone', lambda was, now, *_: was != now and now is None),
        ('a call into any handle of the rank', lambda was, now, world, after, step, stop: stop.rank < len(world.ranks)
            and stop.handle < len(world.ranks[stop.rank].handles) and world.ranks[stop.rank].handles != after.ranks[stop.rank].handles),
        ('a handle of any rank', lambda was, now, world, after, step, stop: any(
            policy.handle_in(world, rank, stop.handle) != policy.handle_in(after, rank, stop.handle) for rank in range(len(world.ranks)))),
        ('the next handle', lambda was, now, world, after, step, stop: SOUND.is_hit(stop._replace(handle=stop.handle + 1), world, step)),
        ('the cell of the number of a handle', lambda was, now, world, after, step, stop: (
            policy.cell_in(world, stop.rank, stop.handle) != policy.cell_in(after, stop.rank, stop.handle))))
    return [Breakage(name, policy, 'is_hit', of_handles(test)) for name, test in tests]


# ---- breakpoints of a rank and with a condition: no word of that copy has them either

def of_kind(kind, told):
    """What hits by another test of one kind of breakpoints: of the breakpoint, the world before, and the step."""
    return lambda stop, world, step: told(stop, world, step) if isinstance(stop, kind) else SOUND.is_hit(stop, world, step)


def as_if(kind, **other):
    """What hits as a breakpoint that has something else."""
    return of_kind(kind, lambda stop, world, step: SOUND.is_hit(stop._replace(**other), world, step))


def compared_as(operator, other):
    """What takes an operator for another."""
    def told(stop, world, step):
        is_this = stop.condition is not None and stop.condition.operator == operator
        return SOUND.is_hit(stop._replace(condition=stop.condition._replace(operator=other)) if is_this else stop, world, step)
    return of_kind(policy.LineBreak, told)


def held_in(worlds):
    """What looks at a condition elsewhere: in one of both worlds, at the rank of a number."""
    def told(stop, world, step):
        after = next_world(world, step)
        return any(
            policy.is_at_line(after.ranks[number], stop.line) and stop.rank in (None, number) and policy.holds(stop.condition, worlds(world, after, number))
            for number in policy.moved_by(after, step))
    return of_kind(policy.LineBreak, told)


def partly(stop, world, step):
    """What takes each match of a call of a line in which a rank takes part."""
    return SOUND.is_hit(stop._replace(rank=None), world, step) and stop.rank in (None, *(call.rank for call in step[1:]))


def narrow_faults():
    rank = policy.RankBreak
    return [Breakage(name, policy, 'is_hit', is_hit) for name, is_hit in (
        ('a line of any rank where one is meant', as_if(policy.LineBreak, rank=None)), ('a match of any rank where one is meant', as_if(policy.MatchBreak, rank=None)),
        ('a match in which the rank that is meant takes part', of_kind(policy.MatchBreak, partly)), ('a line whatever must hold', as_if(policy.LineBreak, condition=None)),
        ('a condition before the step', held_in(lambda world, after, number: world.ranks[number])),
        ('a condition of the first rank', held_in(lambda world, after, number: after.ranks[0])),
        *((f'{operator} taken for {other}', compared_as(operator, other)) for operator, other in (
            ('==', '>='), ('!=', '<'), ('<', '<='), ('<=', '<'), ('>', '>='), ('>=', '>'))),
        ('a rank that is blocked by its step', of_kind(rank, lambda stop, world, step: stop.rank in policy.moved_by(world, step))),
        ('a rank by another\'s step', of_kind(rank, lambda stop, world, step: SOUND.is_hit(stop._replace(rank=step.first), world, step)
            if step.kind in ('local', 'wake') else SOUND.is_hit(stop, world, step))),
        ('a rank by a local step alone', of_kind(rank, lambda stop, world, step: step.kind == 'local' and SOUND.is_hit(stop, world, step))),
        ('no rank by a release', of_kind(rank, lambda stop, world, step: step.kind != 'release' and SOUND.is_hit(stop, world, step))))]


def late_breakages():
    """Those of runs past single candidates, of handles, and of breakpoints of a rank and with a condition."""
    return [*run_on_faults(), *handle_faults(), *narrow_faults()]


def late_breakages_of_2():
    """Those of them that a script with waits for any alone shows."""
    return [Breakage('a run on that stops at a single wake by a handle', policy, 'run_on', single_of('wakeany')),
            Breakage('a handle that is cleared by a wake by a handle left out', policy, 'is_hit', of_handles(
                lambda was, now, world, after, step, stop: was != now and step.kind != 'wakeany'))]


def breakages():
    """All of them but those."""
    return [*decision_faults(), *stop_faults(), *hit_faults(), *break_faults()]
