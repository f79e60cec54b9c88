"""Worked rows of checks that tell how the runs of a script end (`check --outcomes`), and of what tells states apart in their search.

Each was worked out by hand from the rules (docs/DEFINITIONS.md, "The wide walk"; docs/FORMATS.md). compare/runs/worked.py has the model
answer them, and compare/runs/outcomes.py a program those of CHECKS. KEYS are of the model alone.
"""

import re
from itertools import combinations
from math import factorial
from typing import NamedTuple, Optional

from cases.rare_cases import Races
from model import states
from model.debugger import BUFFERED, RENDEZVOUS, Debugger, Result
from model.language import read_script
from model.outcomes import MOST_COUNTED, NOT_TOGETHER, Outcomes
from model.states import MOST_STATES
from rows.examples import open_example
from rows.worked_ends import (FOUR_RACES, FREED_LEFT, FREED_SLOT, FREED_STUCK, ORDER_DECIDES, THREE_SENDERS, TWO_RACES, TWO_REQUESTS,
                              UP_TO_ORDER,
                              WAITANY)
from rows.worked_explorer import BOTH_ANY, BY_VALUE, LOW_WANTED, SIX, STUCK, TO_ITSELF, counting, gathering
from rows.worked_runs import EMPTY, HEAD_TO_HEAD, ON_AND_ON, THREE, UNRECEIVED
from rows.worked_slots import EARLY_OR_LATE
from rows.worked_waitany import BOTH_WAIT, NOTHING, STUCK_NOT_LISTED


# In a line that tells what decided a semicolon stands.
DIVIDED = re.compile(r'; (?!with that of |if rank |if all )')


def lines_of(text):
    """Lines that stand in a row."""
    return DIVIDED.sub('\n', text).encode() + b'\n' if text else b''


class OutcomesRow(NamedTuple):
    """A script (None: no file), what is asked of it, the lines that are written, the status, and the line on standard error."""
    script: Optional[str]
    asked: Outcomes
    lines: str
    status: int
    errors: str = ''

    def case(self):
        return self.asked._replace(script=None if self.script is None else self.script.encode())

    def wanted(self):
        lines, errors = (lines_of(text) for text in (self.lines, self.errors))
        return Result(lines, errors, self.status)


def asked(**options):
    """What is asked of a script."""
    return Outcomes('row', None, **options)


def row(script, lines, status=0, **options):
    """A row of a script that is one."""
    return OutcomesRow(script, asked(**options), lines, status)


def refused(script, errors, status=2, **options):
    """A row of what is refused."""
    return OutcomesRow(script, asked(**options), '', status, f'mpdbg: {errors}')


def one_way(outcome, runs=1, first='', more='no'):
    """The lines where all runs end in one way."""
    return f'outcome 0 runs {runs} first [{first}] {outcome}; outcomes 1 runs {runs} more {more}'


def ways(runs, *told, more='no'):
    """The lines of several outcomes, each told by how many runs end so, the choices of the first, and how they end."""
    lines = [f'outcome {number} runs {count} first [{first}] {outcome}' for number, (count, first, outcome) in enumerate(told)]
    return '; '.join([*lines, f'outcomes {len(told)} runs {runs} more {more}'])


AT_LEAST = f'at least {MOST_COUNTED}'

# ---- few runs

# Both ends of THREE, with the steps to the second.
OF_THREE = 'outcome 0 runs 1 first [0] done; outcome 1 runs 1 first [1] deadlock 0.1 1.0; outcomes 2 runs 2 more no'
WITNESS_OF_THREE = OF_THREE.replace('; outcomes', f'; witness 1: {STUCK}; outcomes')
# Two races of two senders, of which one is received of each: the first choice is among four matches, the second among the two of the other
# race. The runs leave over [0 0] 2.0 5.0, [0 1] 2.0 4.0, [1 0] 1.0 5.0, [1 1] 1.0 4.0, [2 0] 2.0 5.0, [2 1] 1.0 5.0, [3 0] 2.0 4.0 and [3
# 1] 1.0 4.0: each pair is left over twice, and the first of them has the last text.
BY_TWO = ways(8, (2, '0 0', 'deadlock 2.0 5.0'), (2, '0 1', 'deadlock 2.0 4.0'), (2, '1 0', 'deadlock 1.0 5.0'),
              (2, '1 1', 'deadlock 1.0 4.0'))
# The value that comes first may be wrong, and then rank 0 traps; else it ends, and rank 1 waits for ever. So a trap is first, and then a
# deadlock.
HIGH_WANTED = LOW_WANTED.replace('x == 1', 'x == 2')
TRAP_FIRST = 'outcome 0 runs 1 first [0] trap 0 assert; outcome 1 runs 1 first [1] deadlock 1.0; outcomes 2 runs 2 more no'
# Whose message comes first decides which of two statements of a line traps: they are two outcomes, told alike. Where both come to one
# statement, it is one.
TWO_ASSERTS = 'mpd 1; ranks 3; var x;\nif rank == 0 { recv x from any tag 0; if x == 1 { assert 0; } else { assert 0; } } else { send rank to 0 tag 0; }'
ONE_ASSERT = TWO_ASSERTS.replace('if x == 1 { assert 0; } else { assert 0; }', 'assert x == 0;')
TOLD_ALIKE = ways(2, (1, '0', 'trap 0 assert'), (1, '1', 'trap 0 assert'))
# So it is with two statements that issue the same call of a rank: a receive that nobody sends for, and a send that nobody takes. Behind the
# first of both messages the second is a choice of one. Where both orders come to one statement, it is one outcome, whatever the call asks for.
BY_ORDER_OF_TWO = ('mpd 1; ranks 3; var x; req r;\n'
                   'if rank == 0 { recv x from any tag 0; recv x from any tag 0; STATEMENT } else { send rank to 0 tag 0; }')
TWO_HANGS, ONE_HANG, TWO_LEFT, ONE_LEFT = (BY_ORDER_OF_TWO.replace('STATEMENT', statement) for statement in (
    'if x == 1 { recv x from 1 tag 9; } else { recv x from 2 tag 9; }', 'recv x from x tag 9;',
    'if x == 1 { isend r x to 1 tag 9; } else { isend r x to 1 tag 9; }', 'isend r x to 1 tag 9;'))
HANGS_ALIKE = ways(2, (1, '0 0', 'deadlock 0.2'), (1, '1 0', 'deadlock 0.2'))
LEFT_ALIKE = HANGS_ALIKE.replace('deadlock', 'leftovers')
# One of three senders is received: each leaves the two others blocked.
ONE_OF_THREE = Races(1, 3, 1).script()
BY_ONE = ways(3, (1, '0', 'deadlock 2.0 3.0'), (1, '1', 'deadlock 1.0 3.0'), (1, '2', 'deadlock 1.0 2.0'))
# Two of three are received, in either order: of the six runs two leave each sender over, and [0 0], [0 1], [1 1] are the first ones.
TWO_OF_THREE = Races(1, 3, 2).script()
BY_TWO_OF_THREE = ways(6, (2, '0 0', 'deadlock 3.0'), (2, '0 1', 'deadlock 2.0'), (2, '1 1', 'deadlock 1.0'))
FEW = (
    row(EMPTY, one_way('done')), row(EMPTY, one_way('done'), complete=True, mode='slots:1'),
    row(EMPTY, one_way('done'), fuel=1, states=1, witnesses=True, explain=True),
    row(HEAD_TO_HEAD, one_way('deadlock 0.0 1.0'), 1), row(HEAD_TO_HEAD, one_way('done'), mode=BUFFERED),
    row(UNRECEIVED, one_way('leftovers 0.0'), mode=BUFFERED, complete=True),
    row(THREE, OF_THREE, 1), row(THREE, OF_THREE, 1, complete=True), row(THREE, WITNESS_OF_THREE, 1, witnesses=True, mode=RENDEZVOUS),
    # both orders of a race
    row(BOTH_ANY, one_way('done', 2, '0 0')), row(THREE_SENDERS, one_way('done', 6, '0 0 0'), complete=True),
    row(ONE_OF_THREE, BY_ONE, 1), row(ONE_OF_THREE, BY_ONE.replace('deadlock', 'leftovers'), mode=BUFFERED),
    row(TWO_OF_THREE, BY_TWO_OF_THREE, 1), *(row(TWO_OF_THREE, BY_TWO_OF_THREE, 1, states=states) for states in (1, 2, 10, MOST_STATES)),
    # the first runs stand in another order than the texts
    row(HIGH_WANTED, TRAP_FIRST, 1), row(TWO_RACES, BY_TWO, 1), row(TWO_ASSERTS, TOLD_ALIKE, 1), row(ONE_ASSERT, one_way('trap 0 assert', 2, '0'), 1),
    row(TWO_HANGS, HANGS_ALIKE, 1), row(ONE_HANG, one_way('deadlock 0.2', 2, '0 0'), 1), row(TWO_LEFT, LEFT_ALIKE),
    row(ONE_LEFT, one_way('leftovers 0.2', 2, '0 0')), *(row(TWO_HANGS, HANGS_ALIKE, 1, states=states) for states in (1, 5)),
    row(TWO_RACES, BY_TWO.replace('deadlock', 'leftovers'), mode=BUFFERED, complete=True),
    *(row(TWO_RACES, BY_TWO, 1, states=states) for states in (1, 5)),
    row(LOW_WANTED, 'outcome 0 runs 1 first [0] deadlock 2.0; '
        f'witness 0: {SIX}, match 1.0 0.0, wake 0, local 0, wake 1; outcome 1 runs 1 first [1] trap 0 assert; '
        f'witness 1: {SIX}, match 2.0 0.0, wake 0, local 0, wake 2; outcomes 2 runs 2 more no', 1, witnesses=True),
    row(BY_VALUE.replace('STATEMENT', 'if x == 1 { recv x from any tag any; }'),
        'outcome 0 runs 1 first [0 0] done; outcome 1 runs 1 first [1] leftovers 1.0; outcomes 2 runs 2 more no'),
    row(BOTH_ANY, one_way('done', 2, '0 0'), witnesses=True, explain=True))

# ---- waits for any, and slots

# The runs of the wide walk are [0 0] done, [1 0] done and [1 1] trap (worked_ends.py), in rendezvous and with buffers.
BY_ORDER = 'outcome 0 runs 2 first [0 0] done; outcome 1 runs 1 first [1 1] trap 0 assert; outcomes 2 runs 3 more no'
EXPLAINED_ORDER = BY_ORDER.replace('; outcomes', (
    '\n  rank 0, line 11: trap assert, with i = 1\n  decided at depth 12: rank 0, line 10, goes on by line 9, 0.1 irecv from any tag 0; '
    'if rank 0, line 10, goes on by line 8, 0.0 irecv from 1 tag 0 instead, it need not hang or trap; outcomes'))
WITNESSED_ORDER = EXPLAINED_ORDER.replace('trap 0 assert\n', (
    'trap 0 assert; witness 1: local 0, local 0, local 0, local 0, local 1, local 1, local 2, local 2, match 1.0 0.0, wake 1, match 2.0 0.1, '
    'wake 2, wakeany 0 1, local 0\n'))
# In slots:1 both matches are candidates, 0 match 1.0 0.0 and 1 match 2.0 0.1, behind ten steps.
#   0: candidates 0 wakeany 0 0 and 1 match 2.0 0.1.   [0 0]: i is 0; a choice of one: [0 0 0] done.
#      [0 1]: candidates 0 wakeany 0 0, [0 1 0] done, and 1 wakeany 0 1, [0 1 1] a trap.
#   1: candidates 0 wakeany 0 1 and 1 match 1.0 0.0.   [1 0]: a trap, and match 1.0 0.0 is left: a choice of one, [1 0 0].
#      [1 1]: as above, [1 1 0] done and [1 1 1] a trap.
ORDER_IN_SLOTS = 'outcome 0 runs 3 first [0 0 0] done; outcome 1 runs 3 first [0 1 1] trap 0 assert; outcomes 2 runs 6 more no'
FREED = 'outcome 0 runs 1 first [0 0] deadlock 0.2; outcome 1 runs 1 first [1] leftovers 0.1; outcomes 2 runs 2 more no'
# The end of STUCK_NOT_LISTED at a barrier is that of its third run, and the second outcome.
TO_STUCK = f'{UP_TO_ORDER}, match 2.0 0.1, wake 2, wakeany 0 1, local 0, local 0'
BY_BARRIER = ways(3, (2, '0 0', 'done'), (1, '1 1', f'deadlock 0.3; witness 1: {TO_STUCK}'))
# Candidates: 0 wakeany 0 0, 1 wakeany 0 1, 2 wakeany 1 0, 3 wakeany 1 1, and then those of the other rank: a rank traps where it goes on by
# r[1].
BY_EACH = ways(8, (2, '0 0', 'trap 1 assert'), (2, '0 1', 'done'), (2, '1 0', 'trap 0 assert 1 assert'), (2, '1 1', 'trap 0 assert'))
BY_ORDER_OF_STEPS = (
    *(row(ORDER_DECIDES, BY_ORDER, 1, mode=mode, complete=complete) for mode in (None, BUFFERED, 'slots:0') for complete in (False, True)),
    row(ORDER_DECIDES, EXPLAINED_ORDER, 1, explain=True), row(ORDER_DECIDES, WITNESSED_ORDER, 1, explain=True, witnesses=True),
    *(row(ORDER_DECIDES, ORDER_IN_SLOTS, 1, mode='slots:1', states=states) for states in (None, 1)),
    *(row(FREED_SLOT, FREED, 1, mode='slots:1', complete=complete) for complete in (False, True)),
    row(FREED_SLOT, FREED.replace('; outcome 1', f'; witness 0: {FREED_STUCK}; outcome 1'), 1, mode='slots:1', witnesses=True),
    row(FREED_SLOT, one_way('leftovers 0.1', 1, '0'), mode='slots:2', complete=True),
    row(FREED_SLOT, one_way('deadlock 0.2'), 1, complete=True),
    row(FREED_SLOT, one_way('leftovers 0.1'), mode=BUFFERED),
    row(EARLY_OR_LATE, 'outcome 0 runs 1 first [0 0] deadlock 0.1; outcome 1 runs 1 first [1] leftovers 0.1; outcomes 2 runs 2 more no', 1,
        mode='slots:1'),
    row(STUCK_NOT_LISTED, BY_BARRIER, 1, witnesses=True), row(BOTH_WAIT, BY_EACH, 1), row(BOTH_WAIT, BY_EACH, 1, states=3),
    row(WAITANY, one_way('done', 2, '0 0'), complete=True), row(NOTHING, one_way('done'), complete=True),
    row(TWO_REQUESTS, one_way('leftovers 0.0 0.1', 2, '0 0'), mode=BUFFERED), row(TWO_REQUESTS, one_way('deadlock 0.2'), 1))

# ---- runs that are cut

FREED_CUT = 'outcome 0 runs 1 first [0 0] deadlock 0.2; outcome 1 runs 1 first [1] cut; outcomes 2 runs 2 more no'
CUT = (
    row(ON_AND_ON, one_way('cut'), fuel=5), row(ON_AND_ON, one_way('cut'), 4, fuel=5, complete=True),
    row(ON_AND_ON, one_way('cut'), fuel=5, witnesses=True),
    row(EMPTY, one_way('done'), fuel=1, complete=True), row(UNRECEIVED, one_way('cut'), fuel=1, mode=BUFFERED),
    row(UNRECEIVED, one_way('deadlock 0.0'), 1, fuel=1), row(UNRECEIVED, one_way('leftovers 0.0'), fuel=2, mode=BUFFERED, complete=True),
    *(row(TO_ITSELF, one_way('cut', 1, first), fuel=fuel) for fuel, first in ((13, '0 0'), (14, '0 0 0'))),
    # the runs of THREE have 13 and 10 steps, of which the seventh is chosen
    row(THREE, OF_THREE, 1, fuel=13), row(THREE, OF_THREE.replace('done', 'cut'), 1, fuel=12, complete=True),
    row(THREE, one_way('cut', 2, '0'), fuel=9),
    row(THREE, one_way('cut', 2, '0'), 4, fuel=7, complete=True), row(THREE, one_way('cut'), fuel=6),
    # twelve steps are before the first choice, and three are taken by each match and what goes on by it
    row(TWO_RACES, one_way('cut'), fuel=12), row(TWO_RACES, one_way('cut', 4, '0'), fuel=13),
    row(TWO_RACES, one_way('cut', 4, '0'), fuel=15),
    row(TWO_RACES, one_way('cut', 8, '0 0'), 4, fuel=17, complete=True), row(TWO_RACES, BY_TWO, 1, fuel=18),
    *(row(FREED_SLOT, FREED_CUT, 1, mode='slots:1', fuel=8, complete=complete) for complete in (False, True)),
    row(FREED_SLOT, one_way('cut', 2, '0 0'), mode='slots:1', fuel=7))

# ---- what a search must not take for the same

RECEIVED_TWICE = ('mpd 1; ranks RANKS; var x; var y; var a[3]; req r[2];\n'
                  'if rank == 0 { recv x from any tag 0; recv y from any tag 0; STATEMENTS }\n'
                  'else { if rank == 3 { OF_THREE } else { isend r[0] rank to 0 tag 0; } }')


def received_twice(statements, ranks=3, of_three='isend r[0] 9 to 0 tag 1;'):
    """A script in which rank 0 receives of ranks 1 and 2, in either order, and goes on: x has what came first. The run [0 0] takes rank 1
    first, and [1 0] rank 2. Rank 3, where it is there, has sent a message of tag 1, or does something else."""
    return RECEIVED_TWICE.replace('RANKS', str(ranks)).replace('STATEMENTS', statements).replace('OF_THREE', of_three)


def two_ways(one, other):
    """The lines where both runs end so."""
    return f'outcome 0 runs 1 first [0 0] {one}; outcome 1 runs 1 first [1 0] {other}; outcomes 2 runs 2 more no'


def by_first(statements, one, other, *more, **options):
    """A row of that, whose two runs end so."""
    is_bad = {one.split()[0], other.split()[0]} & {'deadlock', 'trap'}
    return row(received_twice(statements, *more), two_ways(one, other), 1 if is_bad else 0, **options)


# Before the choice ranks 1 and 2 take three steps each, two `if` and the isend, and rank 0 two, `if` and recv. Then come a match, a wake,
# the second receive, its match and its wake: so a run whose statements take S steps has BESIDE_THEM + S.
BESIDE_THEM = 2 * 3 + 2 + 5
# By the one that came first two steps more are taken, and then nothing tells it any more.
ONE_LONGER, OTHER_LONGER = (f'if x == {first} {{ x = 0; x = 0; }} x = 0; y = 0; print 1; print 1;' for first in (1, 2))
# In each of two rounds two messages are received, and two steps more are taken where that of rank 1 comes first. Ranks 1 and 2 take 9 steps
# each: two rounds of four, and the last test. Rank 0 takes two rounds of eight, and one; with 4 matches and 4 wakes that makes 43 where
# rank 2 is first twice.
TWO_ROUNDS = ('mpd 1; ranks 3; var i; var x; var y; req r;\n'
              'while i < 2 { if rank == 0 { recv x from any tag i; recv y from any tag i; if x == 1 { x = 0; x = 0; } x = 0; y = 0; }\n'
              'else { isend r rank to 0 tag i; } i = i + 1; }')
ONE_CUT, THREE_CUT = (f'outcome 0 runs {cut} first [0 0 0 0] cut; outcome 1 runs {4 - cut} first [{first}] done; outcomes 2 runs 4 more no'
                      for cut, first in ((1, '0 0 1 0'), (3, '1 0 1 0')))
# The same where the two steps are taken when that of rank 2 comes first: the first run is the shortest one.
LONGER_LATER = TWO_ROUNDS.replace('x == 1', 'x == 2')
LATER_CUT = [f'outcome 0 runs {4 - cut} first [0 0 0 0] done; outcome 1 runs {cut} first [{first}] cut; outcomes 2 runs 4 more no'
             for cut, first in ((3, '0 0 1 0'), (1, '1 0 1 0'))]
# By i the same send has a rank that isn't there, or else its tag is none; all that stands before it is the same, whichever request was
# taken.
SENT_TWICE = 'isend r[0] 1 to 0 tag 0; isend r[1] 1 to 0 tag 0;'
TRAPS = f'mpd 2; ranks 1; var i; req r[2];\n{SENT_TWICE} waitany r to i; {SENT_TWICE}\nsend 1 to 0 - i tag 40000;'
TOLD_APART = (
    # what is left to run
    by_first('if x == 1 { x = 0; y = 0; } else { x = 0; y = 0; assert 0; } x = 0;', 'done', 'trap 0 assert'),
    row(received_twice('x = 0; y = 0; x = 0;'), one_way('done', 2, '0 0')),
    # variables: while another receive is waited for, and while a request is open whose receive will write them
    by_first('y = 0; assert x == 1;', 'done', 'trap 0 assert'),
    by_first('y = 0; recv y from 3 tag 1; assert x == 1;', 'done', 'trap 0 assert', 4),
    by_first('y = 0; irecv r[1] x from 3 tag 1; assert x == 1; wait r[1];', 'done', 'trap 0 assert', 4),
    by_first('y = 0; irecv r[1] y from 3 tag 1; wait r[1]; assert x == 1;', 'done', 'trap 0 assert', 4),
    by_first('x = 0; recv x from 3 tag 1; assert y == 2;', 'done', 'trap 0 assert', 4),
    # what a paired receive will write: that of a request, its source, and the receive that rank 0 is blocked on
    row('mpd 1; ranks 3; var x; var y; req r;\n'
        'if rank == 0 { irecv r x from any tag 0; recv y from any tag 0; y = 0; wait r; assert x == 1; } else { isend r rank to 0 tag 0; }',
        two_ways('done', 'trap 0 assert'), 1),
    row('mpd 1; ranks 3; var x; var y; var s; var t; req r;\n'
        'if rank == 0 { irecv r x from any tag 0 status s t; recv y from any tag 0; y = 0; wait r; assert s == 1; }\n'
        'else { isend r 5 to 0 tag 0; }',
        two_ways('done', 'trap 0 assert'), 1),
    row('mpd 1; ranks 3; var x; var y; req r;\nif rank == 0 { recv x from any tag 0; x = 0; recv y from any tag 0; assert y == 2; }\n'
        'else { isend r rank to 0 tag 0; }',
        two_ways('done', 'trap 0 assert'), 1),
    # what free calls ask for: the tag of a send whose request is lost; its value; the place that a receive will write
    by_first('isend r[0] 1 to 0 tag x; irecv r[0] y from 0 tag 9; x = 0; y = 0; recv y from 0 tag 1;', 'leftovers 0.3', 'deadlock 0.4'),
    by_first('isend r[0] x to 0 tag 5; x = 0; y = 0; recv x from 0 tag 5; assert x == 1;', 'done', 'trap 0 assert'),
    by_first('irecv r[0] a[x] from 3 tag 1; x = 0; y = 0; wait r[0]; assert a[1];', 'done', 'trap 0 assert', 4),
    # requests: which call they are of, which one is waited for, and whether there is one
    by_first('isend r[x - 1] 7 to 0 tag 7; isend r[2 - x] 7 to 0 tag 7; x = 0; y = 0; recv y from 0 tag 7; wait r[0];', 'leftovers 0.3',
             'deadlock 0.5'),
    by_first('isend r[0] 7 to 0 tag 7; isend r[1] 7 to 0 tag 8; recv y from 0 tag 7; wait r[x - 1];', 'leftovers 0.3', 'deadlock 0.5'),
    by_first('isend r[x - 1] 7 to 0 tag 7; x = 0; y = 0; wait r[1];', 'leftovers 0.2', 'deadlock 0.3'),
    # two sends that are alike, of which rank 3 receives the earlier one when either of them is waited for
    by_first('isend r[0] 7 to 3 tag 7; isend r[1] 7 to 3 tag 7; wait r[x - 1];', 'leftovers 0.3', 'deadlock 0.4', 4,
             'recv x from 0 tag 7;'),
    # how many calls there are: three that are over
    by_first('if x == 1 { isend r[0] 1 to 0 tag 5; recv y from 0 tag 5; wait r[0]; } x = 0; y = 0; recv y from 0 tag 9;', 'deadlock 0.5',
             'deadlock 0.2'),
    # one choice more, of one message, that makes no other end
    *(row(received_twice(f'if x == {one} {{ isend r[0] 1 to 0 tag 5; recv y from any tag 5; }}'), one_way('done', 2, first))
      for one, first in ((1, '0 0 0'), (2, '0 0'))),
    # which trap
    row(TRAPS, 'outcome 0 runs 1 first [0] trap 0 bad-tag; outcome 1 runs 1 first [1] trap 0 bad-rank; outcomes 2 runs 2 more no', 1,
        mode=BUFFERED),
    # the fuel: by one run a state is come to with two steps less than by the other, whichever comes first
    by_first(ONE_LONGER, 'cut', 'done', fuel=BESIDE_THEM + 6), by_first(OTHER_LONGER, 'done', 'cut', fuel=BESIDE_THEM + 6),
    by_first(ONE_LONGER, 'cut', 'done', fuel=BESIDE_THEM + 5, states=1), by_first(OTHER_LONGER, 'done', 'cut', fuel=BESIDE_THEM + 5),
    *(row(received_twice(statements), one_way('cut', 2, '0 0'), 4, fuel=BESIDE_THEM + 4, complete=True)
      for statements in (ONE_LONGER, OTHER_LONGER)),
    *(row(received_twice(statements), one_way('done', 2, '0 0'), fuel=BESIDE_THEM + 7, complete=True)
      for statements in (ONE_LONGER, OTHER_LONGER)),
    row(TWO_ROUNDS, one_way('cut', 4, '0 0 0 0'), fuel=42), *(row(TWO_ROUNDS, THREE_CUT, fuel=fuel) for fuel in (43, 44)),
    *(row(TWO_ROUNDS, ONE_CUT, 4, fuel=fuel, complete=True) for fuel in (45, 46)),
    row(TWO_ROUNDS, one_way('done', 4, '0 0 0 0'), fuel=47, complete=True),
    *(row(LONGER_LATER, LATER_CUT[cut], 4, fuel=fuel, complete=True) for fuel, cut in ((43, 0), (44, 0), (45, 1), (46, 1))),
    row(LONGER_LATER, one_way('done', 4, '0 0 0 0'), fuel=47))

# ---- explained

# As docs/FORMATS.md tells of the leaf.
SWAPPED = one_way('deadlock 0.0 1.0').replace('; outcomes', (
    ';   rank 0 waits at line 7, 0.0 send to 1 tag 1 value 640: for a receive of rank 1 from rank 0 with tag 1'
    ';     nearest miss: line 10, 1.0 recv from 0 tag 2: another tag'
    ';   rank 1 waits at line 10, 1.0 recv from 0 tag 2: for a send of rank 0 with tag 2'
    ';     nearest miss: line 7, 0.0 send to 1 tag 1 value 640: another tag'
    ';   rank 0 waits for rank 1;   rank 1 waits for rank 0;   a cycle, where each waits for the next: rank 0, rank 1, rank 0'
    ';   decided from the start: every run hangs or traps; outcomes'))
SWAPPED_TAGS = open_example('swapped_tags.mpd').decode()
EXPLAINED = (
    row(SWAPPED_TAGS, SWAPPED, 1, explain=True),
    row(SWAPPED_TAGS, SWAPPED.replace(';   rank 0 waits at', '; witness 0: local 0, local 0, local 1, local 1;   rank 0 waits at'), 1,
        explain=True, witnesses=True),
    row(EMPTY, one_way('done'), explain=True), row(THREE, one_way('cut', 2, '0'), fuel=9, explain=True, witnesses=True))

# ---- many runs

# Eleven senders of which two are received, in either order: of two runs for each pair that which takes the lower one first is the first.
# Behind it there is one candidate less in front of the other one.
LEFT_BY_ELEVEN = [(one, other, [rank for rank in range(1, 12) if rank not in (one, other)]) for one, other in combinations(range(1, 12), 2)]
OF_ELEVEN = ways(110, *((2, f'{one - 1} {other - 2}', f'leftovers {" ".join(f"{rank}.0" for rank in left)}')
                        for one, other, left in LEFT_BY_ELEVEN))
# In each round all other ranks send one message, and rank 0 receives them in any order.
GATHERED = ('mpd 1; ranks RANKS; var i; var x;\n'
            'while i < ROUNDS { if rank == 0 { RECEIVES } else { send rank to 0 tag 0; } barrier; i = i + 1; }')


def in_rounds(ranks, rounds):
    """A script in which rank 0 receives of all others, in each of some rounds, with a barrier behind each: (ranks - 1)! orders in each of
    them."""
    receives = 'recv x from any tag 0; ' * (ranks - 1)
    return GATHERED.replace('RANKS', str(ranks)).replace('ROUNDS', str(rounds)).replace('RECEIVES', receives)


def gathered(ranks, rounds):
    """The row of that: the first run takes the lowest rank each time, also where one is left."""
    count = factorial(ranks - 1) ** rounds
    return row(in_rounds(ranks, rounds), one_way('done', count if count <= MOST_COUNTED else AT_LEAST,
                                                 ' '.join('0' * rounds * (ranks - 1))), complete=True)


# In each round one of some requests is taken, all of which are complete, and all messages are received then.
TAKEN = ('mpd 2; ranks 1; var i; var x; var go; req r[REQUESTS];\n'
         'go = 1;\nwhile go { SENDS waitany r to x; RECEIVES i = i + 1; go = GO; LAST }')


def taken(requests, go, last='x = 0;'):
    """A script of such rounds, which go on while a condition holds."""
    sends = ''.join(f'isend r[{number}] 1 to 0 tag 0; ' for number in range(requests))
    text = TAKEN.replace('REQUESTS', str(requests)).replace('SENDS', sends).replace('RECEIVES', 'recv go from 0 tag 0; ' * requests)
    return text.replace('GO', go).replace('LAST', last)


def rounds_taken(requests, count, go, rounds):
    """The row of that, with so many runs, of which the first has so many rounds."""
    return row(taken(requests, go), one_way('done', count, ' '.join('0' * rounds)), mode=BUFFERED, complete=True)


# Where the third of three requests is taken it ends, and else it goes on, up to N rounds: F(1) = 3 runs, and F(N) = 2 * F(N - 1) + 1, which
# makes 2^(N+1) - 1. Of two requests, whichever is taken, there are 2^N runs of N rounds.
LAST_OF_ALL = 'if go == 0 { assert x == 0; } x = 0;'
MANY = (
    gathered(5, 10), gathered(3, 3), rounds_taken(2, 2 ** 63, 'i < 63', 63), rounds_taken(2, AT_LEAST, 'i < 64', 64),
    rounds_taken(3, 2 ** 64 - 1, 'x != 2 && i < 63', 63), rounds_taken(3, AT_LEAST, 'x != 2 && i < 64', 64),
    rounds_taken(3, 2 ** 63 - 1, 'x != 2 && i < 62', 62), gathered(6, 10),
    # by the last of 64 rounds it ends in one of two ways, each of 2^63 runs: all of them are one more than are counted
    row(taken(2, 'i < 64', LAST_OF_ALL),
        ways(AT_LEAST, (2 ** 63, ' '.join('0' * 64), 'done'), (2 ** 63, ' '.join('0' * 63 + '1'), 'trap 0 assert')), 1, mode=BUFFERED),
    row(gathering(12, 2), OF_ELEVEN),
    # four races of two senders each: 8 candidates, and then one less each time
    row(FOUR_RACES, one_way('done', factorial(8), '0 0 0 0 0 0 0 0'), complete=True))

# ---- what is refused

# Words of each option that can't stand beside it.
BESIDE = (('--ends',), ('--runs', '5'), ('--split', '1'), ('--piece', '0'), ('--pieces',), ('--sample', '5'), ('--seed', '1'), ('--group',))
# What can, but not with `--states` alone.
TOGETHER = ('--modes', '1'), ('--until', 'deadlock')
BAD_SCRIPT = 'mpd 1;ranks 1;print'
REFUSED = (
    # each by its name, before all else
    *(refused(script, NOT_TOGETHER.format(words[0]), beside=words, mode=mode)
      for words in BESIDE for script, mode in ((EMPTY, None), (None, 'fast'))),
    # then the mode, the file, and the script
    refused(EMPTY, 'bad mode', mode='fast'), refused(None, 'bad mode', mode='slots:65537'),
    refused(BAD_SCRIPT, 'bad mode', mode='Buffered'),
    refused(None, 'device', 3), refused(BAD_SCRIPT, 'script refused 4 expected at 19 line 1', complete=True))

CHECKS = TOLD_APART + FEW + BY_ORDER_OF_STEPS + CUT + EXPLAINED + REFUSED + MANY

# ---- what takes the model long, and is asked of programs alone

# 30 requests, one of which is taken; behind it 380,000 is counted to, with what was taken: 760,004 states of each run, and 30 * 3 + 3
# before them. So a search that has come to 20,000,000 states has told of 26 runs, and has begun with the next one.
MOST_STEPS = 1000000
STOPPING = ('mpd 2; ranks 1; var i; var x; req r[30];\nwhile i < 30 { isend r[i] 1 to 0 tag 0; i = i + 1; }\nwaitany r to x; i = 0;\n'
            'while i < 380000 { i = i + 1; } print x;')
STOPPED = one_way(f'leftovers {" ".join(f"0.{number}" for number in range(30))}', 26, '0', 'yes')
# A run of as many steps as there may be, of one state more than are kept; and the orders of twelve messages.
LONG_CHECKS = (
    *(row(counting(499999, 'print 1;'), one_way('done'), fuel=MOST_STEPS, states=states, complete=True) for states in (None, 1)),
    row(counting(499999, 'print 1; print 1;'), one_way('cut'), 4, fuel=MOST_STEPS, complete=True),
    row(ON_AND_ON, one_way('cut'), fuel=MOST_STEPS),
    row(counting(49999, 'recv i from 0 tag 0;'), one_way('deadlock 0.0'), 1),
    row(counting(49999, 'print 1; recv i from 0 tag 0;'), one_way('cut')),
    row(Races(1, 12, 12).script(), one_way('done', factorial(12), ' '.join('0' * 12)), complete=True))
# The orders of 24 messages of eight senders, by 4 to the 8 states, of which 57 and 85 in a hundred are kept: the table is full, and drops the half
# from which the runs are the shortest. With a table that keeps what it had first, or drops the other half, the first takes many minutes. Each
# message is a choice, also where one sender is left.
ANY_ORDER = ('mpd 1; ranks 9; var x; var i;\nif rank == 0 { while i < 24 { recv x from any tag any; i = i + 1; } } '
            'else { while i < 3 { send i to 0 tag 0; i = i + 1; } }')
FULL_TABLES = tuple(row(ANY_ORDER, one_way('done', factorial(24) // factorial(3) ** 8, ' '.join('0' * 24)), states=states, complete=True)
                    for states in (37355, 55705))
# What takes a program long, too.
STOPPED_CHECKS = (row(STOPPING, STOPPED, mode=BUFFERED, fuel=MOST_STEPS),
                  row(STOPPING, STOPPED, 4, mode=BUFFERED, fuel=MOST_STEPS, states=1000, complete=True))

# Words that are wrong, and words that are right; they stand beside a mode that is wrong, which is tested after them.
MISTAKES = ('--outcomes --outcomes', '--outcomes 1', '--outcomes=yes', '--outcomes=', '--Outcomes', '--outcome', '--outcomes --states',
            '--outcomes --states 0',
            '--outcomes --states 16000001', '--outcomes --states -1', '--outcomes --states x', '--outcomes --states 1.5',
            '--outcomes --states=',
            '--outcomes --states 1 --states 1', '--outcomes --fuel 0', '--outcomes --fuel 1000001', '--outcomes --witness 1', '--states 5',
            '--outcomes --seed 1', *(f'--outcomes {" ".join(words)}' for words in BESIDE),
            *(f'{" ".join(words)} --outcomes' for words in BESIDE),
            *(f'{" ".join(words)} --states 5' for words in BESIDE + TOGETHER), '--outcomes --no-such-option', '--outcomes --until trap',
            '--outcomes --until', '--outcomes --modes 1001', '--outcomes --modes -1')
RIGHT = ('--outcomes', '--outcomes --states 1', '--states 16000000 --outcomes', '--outcomes --states=+5', '--outcomes --fuel 1000000',
         '--outcomes --witness --explain --complete --states 1000000 --fuel 1', '--outcomes --until deadlock', '--until=deadlock --outcomes --states 5',
         '--outcomes --modes 0', '--modes 1000 --outcomes --until deadlock --states 1 --complete')


# ---- what tells states apart

class KeyRow(NamedTuple):
    """A script, the steps to two states of it, and whether nothing tells them apart; the mode of each."""
    script: str
    one: str
    other: str
    is_same: bool
    modes: tuple = (RENDEZVOUS, RENDEZVOUS)


# Two messages are received, of rank 1 first or of rank 2, and rank 0 has gone on behind both.
BOTH = ('mpd 1; ranks 3; var x; req r;\n'
        'if rank == 0 { recv x from any tag 0; recv x from any tag 0; STATEMENT } else { isend r rank to 0 tag 0; }')
BEHIND_BOTH = [f'{SIX}, match {one}.0 0.0, wake 0, local 0, match {other}.0 0.1, wake 0' for one, other in ((1, 2), (2, 1))]
ROUND = 'local 0, local 0, local 0, local 1, local 1, local 1, match 0.0 1.0, wake 0, wake 1'


def both(statement, is_same, behind='', before=''):
    """A row of the states behind both orders of two messages, and more steps behind them; or before their last step."""
    one, other = (f'{steps.removesuffix(before)}{behind}' for steps in BEHIND_BOTH)
    return KeyRow(BOTH.replace('STATEMENT', statement), one, other, is_same)


KEYS = (
    KeyRow(THREE, SIX, SIX, True), KeyRow(EMPTY, '', '', False, (RENDEZVOUS, BUFFERED)),
    KeyRow(EMPTY, '', '', False, ('slots:1', 'slots:2')),
    # who was paired with whom, and the order of that; variables that nobody reads any more, at the end and behind a trap
    both('', True), both('x = 0;', True, ', local 0'), both('assert 0;', True, ', local 0'),
    # a variable that is there, and what a paired receive will write
    both('x = 0;', False), both('assert x == 2;', False), both('x = 0;', False, before=', wake 0'),
    # which message is left
    KeyRow(BOTH.replace('STATEMENT', ''), f'{SIX}, match 1.0 0.0', f'{SIX}, match 2.0 0.0', False),
    # the order of steps of two ranks
    KeyRow(THREE, 'local 0, local 1, local 2', 'local 2, local 1, local 0', True), KeyRow(THREE, 'local 0', 'local 1', False),
    # outputs, and calls that are over but for how many they are
    KeyRow('mpd 1; ranks 1; while 1 { print 1; }', '', 'local 0, local 0', True),
    KeyRow('mpd 1; ranks 2; var x; while 1 { if rank { recv x from 0 tag 0; } else { send 0 to 1 tag 0; } }', '', ROUND, False),
    KeyRow('mpd 1; ranks 1; while 1 { barrier; }', '', 'local 0, local 0, release', False),
    # what is left to run, a variable, whether a rank is trapped, or blocked
    KeyRow('mpd 1; ranks 1; var x; x = 0; x = 0;', '', 'local 0', False),
    KeyRow('mpd 1; ranks 1; var x; while 1 { x = x + 1; }', '', 'local 0, local 0', False),
    KeyRow('mpd 1; ranks 1; assert 0;', '', 'local 0', False), KeyRow('mpd 1; ranks 1; barrier;', 'local 0', 'local 0, release', False),
    # a rank that is blocked on a send, and goes on: with a buffer nothing but that tells the two apart
    KeyRow(UNRECEIVED, 'local 0', 'local 0, wake 0', False, (BUFFERED, BUFFERED)),
    # what the receive will write that rank 0 is blocked on is not told as it is before: x is 1 or 2
    both('recv x from 1 tag 9; print x;', True, ', local 0'), both('recv x from 1 tag 9; print x;', False),
    # where a rank is blocked, and where a free call was issued, which an end tells; not where one was that is paired
    both('if x == 1 { recv x from 1 tag 9; } else { recv x from 1 tag 9; }', False, ', local 0, local 0'), both('recv x from 1 tag 9;', True, ', local 0'),
    both('if x == 1 { isend r 0 to 1 tag 9; } else { isend r 0 to 1 tag 9; }', False, ', local 0, local 0'), both('isend r 0 to 1 tag 9;', True, ', local 0'),
    both('if x == 1 { isend r 0 to 0 tag 9; } else { isend r 0 to 0 tag 9; } recv x from 0 tag 9;', True, ', local 0, local 0, local 0, match 0.2 0.3'),
    both('if x == 1 { barrier; } else { barrier; }', False, ', local 0, local 0'), both('barrier;', True, ', local 0'),
    # a slot that was free when a send was issued, or was not
    KeyRow(FREED_SLOT, 'local 0, local 0, local 1, local 1, local 0, match 0.0 1.0',
           'local 0, local 0, local 1, local 1, match 0.0 1.0, local 0', False,
           ('slots:1', 'slots:1')),
    KeyRow(FREED_SLOT, FREED_STUCK, FREED_LEFT, False, ('slots:1', 'slots:1')))


def key_behind(script, mode, steps):
    """What tells the state apart where steps lead in a script; None where one isn't enabled."""
    walked = Debugger(script, mode)
    refused_steps = [step for step in steps.split(', ') if step and not walked.answer(step.encode()).startswith('ok')]
    return None if refused_steps else states.key(walked.world)


def key_problem(row_of):
    """What is told of two states otherwise than a row wants; None where nothing is."""
    script = read_script(row_of.script.encode())
    one, other = (key_behind(script, mode, steps) for mode, steps in zip(row_of.modes, (row_of.one, row_of.other)))
    if one is None or other is None:
        return 'a step is not enabled'
    return None if (one == other) == row_of.is_same else f'they are {"" if one == other else "not "}the same'


def check_problem(row_of):
    """What a check answers otherwise than a row wants; None where nothing is."""
    said = row_of.case().wanted()
    return None if said == row_of.wanted() else f'{said}'


def key_problems():
    """The name of each row of two states, with what is wrong in it, or None."""
    return [(f'states of {row_of.script} behind {row_of.one}, and {row_of.other}', key_problem(row_of)) for row_of in KEYS]


def problems():
    """The name of each row, with what is wrong in it, or None."""
    return [(f'check {row_of.script} {row_of.asked}', check_problem(row_of)) for row_of in CHECKS] + key_problems()
