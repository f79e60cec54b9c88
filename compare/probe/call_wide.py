"""Rows of compare/runs/refused_calls.py that ask what comes next along the wide walk, what conflicts there, what is asleep and what sleeps on, or
explore by a walk that they name; and what must be told of each that asks, by the model (model/wide.py).

Reports of walks are told in call_reports.py.
"""

from model import wide
from model.debugger import RENDEZVOUS, step_of, step_text
from model.policy import Forced
from model.walks import Run
from probe.call_given import Row, Wanted, by_hand, decided_text, line, no_state, steps_in, steps_line, trail_text, unchanged, walked, world_of
from probe.call_scripts import (BOTH_CAME, BY_THE_FIRST, CHOICE, EARLY_OR_LATE, ENDED, ENDLESS, MATCHED, MEETING, MESSAGE, ONE_CAME, RACE, SENT, SLOT_HELD,
                                STUCK, TRAPS, TWO_RACES, WHICHEVER)

# Hundreds of requests, of which so many are refused.
FEW = 40

# Both messages have come, and only the waitany is left.
BOTH_WAITED_FOR = (*BOTH_CAME, 'wake 1', 'wake 2')
# Where all ranks of two races have come to their receives and sends.
ALL_AT_THEM = tuple(f'local {rank}' for rank in range(6)) * 2
# Forced: a local step, a release, a wake, and a match that names its source, also before a request of a waitany and where a rank holds all of
# two slots but one; and the end of all, which has no list.
FORCED = ((MESSAGE, (), RENDEZVOUS), (MEETING, ('local 0', 'local 1'), RENDEZVOUS), (MESSAGE, MATCHED, RENDEZVOUS), (MESSAGE, SENT, RENDEZVOUS),
          (WHICHEVER, BOTH_CAME, RENDEZVOUS), (BY_THE_FIRST, ONE_CAME[:-1], RENDEZVOUS), (EARLY_OR_LATE, SLOT_HELD, 'slots:2'), (MESSAGE, ENDED, RENDEZVOUS))
# Choices: of two matches and of four, of requests of a waitany, of a request and a match, of a match that frees a slot alone, and of a local
# step that lacks one and that match; and a deadlock and traps.
LISTED = ((RACE, CHOICE, RENDEZVOUS), (TWO_RACES, ALL_AT_THEM, RENDEZVOUS), (WHICHEVER, BOTH_WAITED_FOR, RENDEZVOUS), (BY_THE_FIRST, ONE_CAME, RENDEZVOUS),
          (MESSAGE, (*SENT, 'wake 0'), 'slots:1'), (EARLY_OR_LATE, SLOT_HELD, 'slots:1'), (RACE, STUCK, RENDEZVOUS),
          (TRAPS, ('local 0', 'local 1'), RENDEZVOUS))


def wides():
    yield from decisions()
    yield from conflicts()
    yield from sleepers()
    yield from explorings()


def decisions():
    for places, spares in ((FORCED, True), (LISTED, False)):
        for script, lines, mode in places:
            yield Row('wide_decide', script, lines, mode=mode, spares=spares)
            yield Row('first_quiet', script, lines, mode=mode, spares=True)


def conflicts():
    # matches of one call, and of two; a request and a match; requests of one rank; a local step and a match, where it lacks a slot and where it
    # doesn't; and local steps of two ranks
    for script, lines, mode, steps in (
            (RACE, CHOICE, RENDEZVOUS, 'match 1.0 0.0, match 2.0 0.0'), (TWO_RACES, ALL_AT_THEM, RENDEZVOUS, 'match 2.0 0.0, match 3.0 1.0'),
            (BY_THE_FIRST, ONE_CAME, RENDEZVOUS, 'wakeany 0 1, match 1.1 0.0'), (WHICHEVER, BOTH_WAITED_FOR, RENDEZVOUS, 'wakeany 0 0, wakeany 0 1'),
            (EARLY_OR_LATE, SLOT_HELD, 'slots:1', 'local 0, match 0.0 1.0'), (EARLY_OR_LATE, SLOT_HELD, 'slots:2', 'local 0, match 0.0 1.0'),
            (MESSAGE, (), RENDEZVOUS, 'local 0, local 1')):
        yield Row('is_quiet, conflict', script, lines, steps, mode, spares=True)
    # what shares no call sleeps on, in order; and what shares one doesn't, nor what the slot that is freed is for, nor what takes it
    for script, lines, mode, steps in (
            (TWO_RACES, ALL_AT_THEM, RENDEZVOUS, 'match 2.0 0.0 asleep match 5.0 1.0, match 4.0 0.0, match 3.0 1.0'),
            (BY_THE_FIRST, ONE_CAME, RENDEZVOUS, 'match 1.1 0.0 asleep wakeany 0 1'), (BY_THE_FIRST, ONE_CAME, RENDEZVOUS, 'wakeany 0 1 asleep match 1.1 0.0'),
            (WHICHEVER, BOTH_WAITED_FOR, RENDEZVOUS, 'wakeany 0 0 asleep wakeany 0 1'), (EARLY_OR_LATE, SLOT_HELD, 'slots:1', 'local 0 asleep match 0.0 1.0'),
            (EARLY_OR_LATE, SLOT_HELD, 'slots:1', 'match 0.0 1.0 asleep local 0'), (EARLY_OR_LATE, SLOT_HELD, 'slots:2', 'match 0.0 1.0 asleep local 0')):
        yield Row('wake', script, lines, steps, mode, spares=True)


def sleepers():
    # along decisions no step is asleep but a match
    for steps, told in (('match 1.0 0.0 asleep match 2.0 0.0, match 1.0 0.0', 'true true'),
                        ('match 1.0 0.0 asleep match 1.0 0.1, match 2.0 0.0', 'false false'),
                        ('wakeany 0 1 asleep wakeany 0 1', 'false true'), ('wakeany 0 1 asleep wakeany 0 0, wakeany 1 1', 'false false')):
        yield Row('is_asleep', argument=steps, by_hand=no_state(f'{told}\n'), spares=True)
    # the candidates before it, the last first, where what was tried falls asleep, and what was asleep
    for asked, told in (('2 ends of local 0, local 1, local 2 asleep wake 3, release', 'local 1, local 0, wake 3, release'),
                        ('1 ends of local 0, local 1', 'local 0'), ('2 of local 0, local 1, local 2 asleep wake 3', 'wake 3')):
        yield Row('asleep_at', argument=asked, by_hand=no_state(f'asleep {told}\n'))
    for asked in ('2 of local 0, local 1, local 2', '0 ends of local 0, local 1'):
        yield Row('asleep_at', argument=asked, by_hand=no_state('asleep\n'), spares=True)


def explorings():
    """Reports by a walk that is named, and by whether what was tried falls asleep."""
    for script, lines, mode in ((BY_THE_FIRST, (), RENDEZVOUS), (BY_THE_FIRST, ONE_CAME, RENDEZVOUS), (EARLY_OR_LATE, (), 'slots:1'),
                                (ENDLESS, (), RENDEZVOUS)):
        for words in ('', 'ends', 'wide', 'wide ends', 'wide ends witnesses', 'wide ends until'):
            yield Row('explore_with', script, lines, f'9 90 {words}'.rstrip(), mode, most=FEW)
    # two races of two senders, of whose four ends two are left where a match of one race is asleep, and one where one of each is
    for limits in ('20 200', '1 200', '20 12', '2 200 until', '0 200'):
        for words in ('ends asleep match 2.0 0.0', 'wide ends asleep match 2.0 0.0', 'wide ends asleep match 5.0 1.0, match 2.0 0.0'):
            yield Row('explore_with', TWO_RACES, (), f'{limits} {words}', most=FEW)
    # a request that wakes with a local step of its rank, and sleeps on after a match; a match that nothing wakes; and a local step and a match of
    # which each wakes the other
    for lines in ((), ONE_CAME):
        for asleep in ('wakeany 0 1', 'match 1.1 0.0'):
            yield Row('explore_with', BY_THE_FIRST, lines, f'9 90 wide ends asleep {asleep}')
    for asleep in ('local 0', 'match 0.0 1.0', 'local 0, match 0.0 1.0'):
        yield Row('explore_with', EARLY_OR_LATE, SLOT_HELD, f'9 90 wide ends asleep {asleep}', 'slots:1')
    # What is asleep is so as well where what was tried doesn't fall asleep: of the three leaves of the wide walk, [0 0] takes it at the first
    # choice, and [1 1] at the second. A step that is forced is taken though it is asleep.
    yield Row('explore_with', BY_THE_FIRST, ONE_CAME, '9 90 wide asleep wakeany 0 1', by_hand='leaf 0 [1 0] deadlock 0.3\nleaves 1 more no\n')
    yield Row('explore_with', MESSAGE, (), '9 90 wide ends asleep match 0.0 1.0', by_hand='leaf 0 [] done\nleaves 1 more no\n')


# ---- what must be told

def decided(row):
    found = walked(row)
    return unchanged(trail_text(found), decided_text(wide.wide_decision(found.world)))


def quiet_found(row):
    found = walked(row)
    next_one = wide.wide_decision(found.world)
    return unchanged(trail_text(found), line(step_text(next_one.step) if isinstance(next_one, Forced) else 'none'))


def compared(row):
    found, (one, other) = walked(row), steps_in(row.argument)
    told = [*(wide.is_quiet(found.world, step) for step in (one, other)), *[wide.in_conflict(found.world, one, other)] * 2]
    return unchanged(trail_text(found), line(' '.join(str(it).lower() for it in told)))


def woken(row):
    """What is asleep before a step and after it; that is all that is told of the state."""
    step, asleep = step_of(row.argument.partition(' asleep ')[0].encode().split()), row.asleep()
    left = wide.still_asleep(Run(world_of(row), 1, asleep=asleep), step)
    return Wanted(steps_line('asleep', asleep), 'done\n', steps_line('asleep', left))


WIDES = {'wide_decide': decided, 'first_quiet': quiet_found, 'is_quiet, conflict': compared, 'wake': woken, 'is_asleep': by_hand, 'asleep_at': by_hand}
