"""Rows of compare/runs/refused_calls.py that make pages of runs, and what must be told of each: by the model.

No clause of `make_page` says when it wants memory, so these rows alone show that it does only where it is refused some.
"""

from model.page_model import WORDS, Asked
from probe.call_given import Row, line, no_state, steps_in
from probe.call_scripts import BOTH_CAME, BOTH_SEND, ENDED, HELD, ISSUED, MEETING, MESSAGE, RACE, STUCK, TRAPS, WHICHEVER
from runs.pages import by_model

# So many of the requests are refused of what makes hundreds.
FEW = 60
# The other way of a race, which ends well.
WELL = (*STUCK[:6], 'match 1.0 0.0', 'wake 0', 'local 0', 'match 2.0 0.1', 'wake 0', 'wake 1', 'wake 2')


def page_of(script, runs, states, mode='rendezvous'):
    return Row('make_page', script, (), '\n'.join([str(states), *map(', '.join, runs)]), mode, most=FEW)


def pages():
    # an end that is well, one that hangs and another that shares states with it, and a part of a run; where it was decided, and where not all is looked at
    yield page_of(MESSAGE, [ENDED], 10)
    yield page_of(RACE, [STUCK], 10)
    yield page_of(RACE, [STUCK, WELL], 10)
    yield page_of(RACE, [WELL, STUCK[:7]], 10)
    yield page_of(RACE, [STUCK, WELL], 3)
    yield page_of(RACE, [STUCK], 1)
    # requests, a waitany, a trap, a barrier, and sends that are buffered
    for script, steps in ((HELD, ISSUED), (WHICHEVER, (*BOTH_CAME, 'wakeany 0 1')), (TRAPS, ('local 0', 'local 1')),
                          (MEETING, ('local 0', 'local 1', 'release'))):
        yield page_of(script, [steps], 10)
    yield page_of(BOTH_SEND, [('local 0', 'wake 0', 'local 1')], 10, 'slots:1')


# ---- what must be told

def paged(row):
    states, *runs = row.argument.split('\n')
    of = Asked(row.script.encode(), row.read(), row.mode, WORDS, tuple(map(steps_in, runs)), 'run.mpd', said=('it is said', 'and more'), most=int(states))
    return no_state(line(by_model(of).decode()))


PAGES = {'make_page': paged}
