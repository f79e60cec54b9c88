"""Faults that are put into the wide walk of the model on purpose, each of which wide.py must notice: by random scripts and all interleavings
of them, or, where a walk only does more than it must, by worked rows.

Steps that are quiet and aren't, candidates that are passed by, steps that are taken for independent, and sleepers that sleep too long, too
early, or are lost.
"""

from typing import NamedTuple

from faults.policy_faults import Breakage
from model import policy, wide
from model.debugger import outcome, slots_used
from model.modes import slots_of
from model.policy import Choice, Forced, names_source


class Sound(NamedTuple):
    """What is not broken."""
    lacks_slot: object
    slot_given_back: object
    is_over: object
    requests_left: object
    is_quiet: object
    wide_decision: object
    in_conflict: object
    still_asleep: object
    passed: object
    awake: object
    is_dead: object
    followed: object


SOUND = Sound(*(getattr(wide, name) for name in Sound._fields))


# ---- what is quiet, and what is decided

def quiet_too(test):
    """What takes more steps as quiet."""
    return lambda world, step, sharper=False: test(world, step) or SOUND.is_quiet(world, step, sharper)


def choosing(change):
    """What offers other candidates."""
    def decided(world, sharper=False):
        found = SOUND.wide_decision(world, sharper)
        return Choice(tuple(change(found.steps))) if isinstance(found, Choice) else found
    return decided


def of_one_waitany(steps):
    """The candidates of the lowest rank that waits for any alone, where there are some."""
    found = [step for step in steps if step.kind == 'wakeany']
    return [step for step in found if step.first == found[0].first] or steps


def of_one_kind(kind):
    """What offers the candidates of a kind alone, where there are some."""
    return choosing(lambda steps: [step for step in steps if step.kind == kind] or steps)


def last_quiet(world, sharper=False):
    """What forces the last quiet step in the place of the first."""
    quiet = [step for step in wide.enabled_steps(world) if wide.is_quiet(world, step, sharper)]
    return Forced(quiet[-1]) if quiet else SOUND.wide_decision(world, sharper)


def ended_by_trap(world, sharper=False):
    """What goes no further where a rank is trapped."""
    trapped = any(rank.mode == 'trapped' for rank in world.ranks)
    return policy.Leaf(outcome(world)) if trapped else SOUND.wide_decision(world, sharper)


def decision_faults():
    """Steps that are forced though something else may come before them, and candidates that are passed by."""
    return ([Breakage(name, wide, 'is_quiet', quiet_too(test)) for name, test in (
                ('a local step that lacks a slot is quiet', lambda world, step: step.kind == 'local'),
                ('a named match that gives a slot back is quiet', lambda world, step: step.kind == 'match' and names_source(world, step)),
                ('a match of any source is quiet', lambda world, step: step.kind == 'match' and SOUND.slot_given_back(world, step) is None),
                ('a wake of a waitany is quiet', lambda world, step: step.kind == 'wakeany'))]
            + [Breakage(name, wide, 'wide_decision', decided) for name, decided in (
                ('candidates of one waitany alone', choosing(of_one_waitany)), ('matches alone', of_one_kind('match')),
                ('local steps alone', of_one_kind('local')), ('the last candidate is passed by', choosing(lambda steps: steps[:-1] or steps)),
                ('the first candidate is passed by', choosing(lambda steps: steps[1:] or steps)),
                ('candidates from the last to the first', choosing(lambda steps: steps[::-1])),
                ('the last quiet step is forced', last_quiet), ('nothing after a trap', ended_by_trap))])


# ---- conflicts

def in_no_conflict(test):
    """What takes more steps for independent."""
    return lambda world, one, other: not test(one, other) and SOUND.in_conflict(world, one, other)


def conflict_faults():
    """Steps that are taken for independent. No two matches that are enabled share a send: the earlier receive is in the way of the later one."""
    return [Breakage(name, wide, 'in_conflict', in_no_conflict(test)) for name, test in (
        ('matches of one receive are independent', lambda one, other: one.kind == other.kind == 'match'),
        ('a match takes nothing from a local step', lambda one, other: {one.kind, other.kind} == {'local', 'match'}),
        ('requests of one waitany are independent', lambda one, other: one.kind == other.kind == 'wakeany'))]


# ---- what sleeps

def asleep_after(test):
    """What lets steps sleep on that should wake."""
    return lambda run, step: tuple(other for other in run.asleep if test(step, other) or not SOUND.in_conflict(run.world, step, other))


def forgotten(is_forgotten):
    """What forgets all that sleeps before some steps: forced ones have no choice."""
    def passed(run, step, *choice):
        return SOUND.passed(run._replace(asleep=()) if is_forgotten(choice) else run, step, *choice)
    return passed


def asleep_untried(untried):
    """What has more candidates asleep below one of a number than were tried before it."""
    def awake(run, steps):
        asleep = run.asleep
        for number, step in enumerate(steps):
            if step not in asleep:
                yield SOUND.passed(run._replace(asleep=(*asleep, *untried(steps, number))), step, number)
                asleep = (*asleep, step)
    return awake


def numbered_by_awake(run, steps):
    """What numbers the candidates that are awake alone."""
    for number, chosen in enumerate(SOUND.awake(run, steps)):
        yield chosen._replace(choices=(*run.choices, number))


def sleep_faults():
    """Sleepers that sleep too long, too early, or are lost."""
    return ([Breakage(name, wide, 'still_asleep', asleep) for name, asleep in (
                ('no sleeper wakes', lambda run, step: run.asleep),
                ('a local step sleeps on though it gets a slot', asleep_after(lambda step, other: step.kind == 'match' and other.kind == 'local')),
                ('a request sleeps on though its waitany is answered', asleep_after(lambda step, other: other.kind == 'wakeany')))]
            + [Breakage(name, wide, 'passed', forgotten(is_forgotten)) for name, is_forgotten in (
                ('sleepers are lost below a forced step', lambda choice: not choice), ('sleepers are lost below a candidate', bool))]
            + [Breakage(name, wide, 'awake', asleep_untried(untried)) for name, untried in (
                ('the next candidate sleeps untried', lambda steps, number: steps[number + 1:number + 2]),
                ('all later candidates sleep untried', lambda steps, number: steps[number + 1:]),
                ('the last candidate sleeps untried below the first', lambda steps, number: steps[-1:] if number == 0 < len(steps) - 1 else ()))]
            + [Breakage('candidates numbered among those that are awake', wide, 'awake', numbered_by_awake),
               Breakage('what was tried is awake', wide, 'falling_asleep', lambda asleep, step: asleep)])


def breakages():
    """All that the walks of random scripts must show; those of conflicts are shown by steps that are taken in either order."""
    return [*decision_faults(), *sleep_faults()]


# ---- what rows must show: walks that do more than they must, dead ways, and the sharper rule

def by_slots(change):
    """What says by another number of slots in use whether a local step lacks one."""
    def lacks(world, step):
        return SOUND.lacks_slot(world, step) or step.kind == 'local' and change(world, step)
    return lacks


def uses_all(world, step):
    return slots_of(world.mode) is not None and slots_used(world, step.first) >= slots_of(world.mode)


def dead_though_cut(run, sharper=False):
    """What ends a dead way as that though no fuel is left."""
    run, decided = SOUND.followed(run, sharper)
    return run, policy.Leaf(wide.ASLEEP) if wide.is_dead(run, decided) else decided


def taken_asleep(run, sharper=False):
    """What takes forced steps that sleep."""
    run, decided = SOUND.followed(run, sharper)
    while run.fuel and isinstance(decided, policy.Leaf) and isinstance(forced := wide.wide_decision(run.world, sharper), Forced):
        run, decided = SOUND.followed(wide.passed(run, forced.step), sharper)
    return run, decided


def row_faults():
    """Those that worked rows must show."""
    return [
        Breakage('a send lacks a slot where there are none', wide, 'lacks_slot', by_slots(lambda world, step: slots_of(world.mode) == 0)),
        Breakage('each local step of a rank without a free slot lacks one', wide, 'lacks_slot', by_slots(uses_all)),
        Breakage('a wake of a waitany for nothing is a choice', wide, 'is_quiet', lambda world, step, sharper=False: (
            SOUND.is_quiet(world, step, sharper) and (step.kind != 'wake' or world.ranks[step.first].calls[-1].kind != 'waitany'))),
        Breakage('a match wakes the requests of its receiver', wide, 'still_asleep', lambda run, step: tuple(
            other for other in SOUND.still_asleep(run, step) if step.kind != 'match' or other.first != step.second.rank)),
        Breakage('a step of a rank wakes the matches of its calls', wide, 'still_asleep', lambda run, step: tuple(
            other for other in SOUND.still_asleep(run, step)
            if other.kind != 'match' or step.kind == 'match' or step.first not in (other.first.rank, other.second.rank))),
        Breakage('a choice whose candidates all sleep is no dead way', wide, 'is_dead', lambda run, decided: (
            isinstance(decided, Forced) and SOUND.is_dead(run, decided))),
        Breakage('a way that is cut is dead', wide, 'followed', dead_though_cut),
        Breakage('sharper: a forced step that sleeps is taken', wide, 'followed', taken_asleep),
        Breakage('sharper: a rank that is blocked sends nothing any more', wide, 'is_over', lambda rank: (
            rank.mode == 'blocked' or SOUND.is_over(rank))),
        Breakage('sharper: one request of two is the only one', wide, 'requests_left', lambda world, number: (
            max(1, SOUND.requests_left(world, number) - 1))),
        Breakage('sharper: a rank that is trapped may send on', wide, 'is_over', lambda rank: (
            rank.mode != 'trapped' and SOUND.is_over(rank))),
        Breakage('sharper: a rank that has ended may send on', wide, 'is_over', lambda rank: rank.mode == 'trapped'),
        Breakage('sharper: a request that is left alone is a choice', wide, 'requests_left', lambda world, number: (
            1 + SOUND.requests_left(world, number)))]
