"""Rows of compare/runs/refused_calls.py that draw where a debugger stands, or lead it along a run, and what must be told of each: by the model.

A call that leads a debugger may be refused memory on its way. The program of calls puts the debugger back then, where all its steps are
those of the run, so that the state behind is the one before; where they aren't it stays, which shows.
"""

from model import policy, wide
from model.debugger import BUFFERED, step_of
from model.picture_model import svg_of, text_of
from probe.call_given import Row, Wanted, by_hand, line, no_state, trail_text, unchanged, walked
from probe.call_scripts import (BOTH_CAME, BOTH_SEND, BY_THE_FIRST, CHOICE, EARLY_OR_LATE, ENDED, ENDLESS, HELD, ISSUED, MATCHED, MEETING, MESSAGE,
                                ONE_CAME, RACE, SENT, SLOT_HELD, STUCK, TO_ITSELF, TRAPS, TWO_RACES, WHICHEVER)

# So many of the requests are refused of what makes hundreds, or is much like another row.
FEW = 40

MET = ('local 0', 'local 1', 'release')
# A rank sends to itself, and has its message.
WITH_ITSELF = ('local 0', 'local 0', 'match 0.0 0.1', 'wake 0', 'local 0', 'wake 0', 'local 0')
# Both have sent, and both messages are free, as are their receives.
BOTH_SENT = ('local 0', 'wake 0', 'local 0', 'local 1', 'wake 1', 'local 1')
# Barriers of 16 ranks show 33 glyphs each, 16 calls, a release, and 16 ranks that go on: 606 of them and three calls are 20,001 glyphs.
BARRIERS = 'mpd 1; ranks 16;' + ' barrier;' * 607
LOCALS = tuple(f'local {rank}' for rank in range(16))
TOO_MANY = (*(*LOCALS, 'release') * 606, *LOCALS[:3])


def pictures():
    yield from drawings()
    yield from leadings()
    yield from texts()


def drawings():
    for script, lines, mode in ((MESSAGE, (), 'rendezvous'), (MESSAGE, (*ENDED, 'back', 'back'), 'rendezvous'), (RACE, STUCK, 'rendezvous'),
                                (MEETING, MET, 'rendezvous'), (BOTH_SEND, BOTH_SENT, BUFFERED)):
        yield Row('draw', script, lines, mode=mode)
        yield Row('push_picture', script, lines, mode=mode)
    for script, lines in ((HELD, ISSUED), (WHICHEVER, (*BOTH_CAME, 'wakeany 0 1')), (TRAPS, ('local 0', 'local 1')), (TO_ITSELF, WITH_ITSELF)):
        yield Row('draw', script, lines, most=FEW)
    yield Row('draw', BARRIERS, TOO_MANY[:-1], most=0, what='of 20,000 glyphs')
    yield Row('draw', BARRIERS, TOO_MANY, most=2, what='of 20,001 glyphs')
    yield Row('push_picture', BARRIERS, TOO_MANY, most=2, what='of 20,001 glyphs')


def leadings():
    # an end, a choice, undone steps that are taken again and others that are dropped, and fuel that is too little
    for script, lines, fuel in ((MESSAGE, (), 100), (RACE, CHOICE, 100), (RACE, (*STUCK, 'goto 7'), 100), (RACE, (*STUCK, 'goto 3'), 100),
                                (MESSAGE, SENT, 3), (ENDLESS, (), 9), (TRAPS, ('local 1',), 100)):
        yield Row('lead_first', script, lines, str(fuel))
    yield Row('lead_first', TWO_RACES, (), '200', most=FEW)
    # along the wide walk a candidate of a waitany is taken before a match of any source, and a local step that lacks a slot before what frees one
    for script, lines, mode in ((BY_THE_FIRST, (), 'rendezvous'), (BY_THE_FIRST, ONE_CAME, 'rendezvous'), (EARLY_OR_LATE, (), 'slots:1'),
                                (EARLY_OR_LATE, (*SLOT_HELD, 'match 0.0 1.0', 'back'), 'slots:1'), (TWO_RACES, (), 'rendezvous')):
        yield Row('lead_first', script, lines, '200 ends', mode, most=FEW)
    yield Row('lead_first', MESSAGE, SENT, '0', spares=True)
    # all steps, those behind others, and the first that isn't enabled
    for lines, steps in (((), ENDED), (SENT, ENDED[4:]), ((), (*MATCHED, 'local 0', 'wake 0')), (SENT, ('match 0.0 1.0', 'wake 0', 'wake 0'))):
        yield Row('take_steps', MESSAGE, lines, '\n'.join(steps))
    yield Row('take_steps', MESSAGE, SENT, 'wake 0', steady=True)
    # undone steps that are taken again, and others that are dropped: there is room for these, as for none
    for steps in (SENT[2:], (*MATCHED[2:], 'wake 1')):
        yield Row('take_steps', MESSAGE, (*ENDED, 'goto 2'), '\n'.join(steps), spares=True)
    yield Row('take_steps', MESSAGE, SENT, '', spares=True)


def texts():
    """Each line is a step: blanks stand where they may, a return before a line's end, and the last line may have no end."""
    for text, told in (('local 0\n', 'steps local 0'), (' local\t15 \r\nmatch 1.0 0.1\nrelease', 'steps local 15, match 1.0 0.1, release'),
                       ('wake 2\nwakeany 3 255\nlocal 0\nlocal 0\nlocal 1\n', 'steps wake 2, wakeany 3 255, local 0, local 0, local 1'),
                       ('local 0\nback\nlocal', 'line 2'), ('release\nrelease\n\n', 'line 3')):
        yield Row('steps_of', argument=text, by_hand=no_state(f'{told}\n'))
    for text, told in (('', 'steps'), ('\nlocal 1', 'line 1'), ('local 0 local 0', 'line 1')):
        yield Row('steps_of', argument=text, by_hand=no_state(f'{told}\n'), spares=True)


# ---- what must be told

def drawn(row):
    found = walked(row)
    svg = svg_of(found)
    return unchanged(trail_text(found), line('too long' if svg is None else svg))


def pictured(row):
    """Behind a line that stands there before."""
    found = walked(row)
    return unchanged(trail_text(found), line(f'before\n{text_of(found)}'))


def led(row):
    """So many steps of the run that takes the first candidates, of the wide walk where `ends` is there."""
    found = walked(row)
    before = trail_text(found)
    decision = wide.wide_decision if row.has('ends') else policy.decision
    for _ in range(row.numbers()[0]):
        decided = decision(found.world)
        if isinstance(decided, policy.Leaf):
            break
        found.take(decided.step if isinstance(decided, policy.Forced) else decided.steps[0])
    return Wanted(before, 'done\n', trail_text(found))


def taken(row):
    """Steps up to the first that isn't enabled."""
    found = walked(row)
    before, answer = trail_text(found), 'done'
    for place, words in enumerate(row.argument.splitlines()):
        if not found.take(step_of(words.encode().split())).startswith('ok'):
            answer = f'not enabled at {place}'
            break
    return Wanted(before, line(answer), trail_text(found))


PICTURES = {'draw': drawn, 'push_picture': pictured, 'lead_first': led, 'take_steps': taken, 'steps_of': by_hand}
