"""Worked rows of the step that decides how a run ends (`check --outcomes --explain`), of outcomes up to the first deadlock or trap, and of those in
several modes.

Each was worked out by hand from docs/FORMATS.md ("The step that decides", "Outcomes", "Modes tried in turn"). compare/runs/worked.py has the model
answer them, and compare/runs/outcomes.py a program. Of an explanation a row has the last line alone, which tells what decided, where it doesn't
have it as a whole.
"""

from typing import NamedTuple

from model.debugger import BUFFERED, Result
from model.outcomes import Outcomes
from rows.examples import open_example
from rows.worked_ends import FREED_SLOT, ORDER_DECIDES
from rows.worked_explorer import BOTH_ANY, LOW_WANTED
from rows.worked_outcomes import (BY_ORDER, HIGH_WANTED, OF_THREE, ORDER_IN_SLOTS, SWAPPED, SWAPPED_TAGS, TAKEN, TWO_OF_THREE, OutcomesRow, asked, one_way,
                                  refused, row, ways)
from rows.worked_runs import EMPTY, HEAD_TO_HEAD, ON_AND_ON, THREE


class DecidedRow(NamedTuple):
    """A script, what is asked of it, and the lines that are written, of an explanation the last one alone; and the status."""
    script: str
    asked: Outcomes
    lines: str
    status: int = 1

    def case(self):
        return self.asked._replace(script=self.script.encode())

    def answered(self, result):
        """The result of a program as the row has it."""
        lines = [line for line in result.output.splitlines(keepends=True) if not line.startswith(b'  ') or line.startswith(b'  decided ')]
        return result._replace(output=b''.join(lines))

    def wanted(self):
        return Result(self.lines.encode() + b'\n', b'', self.status)


def decided(script, *lines, status=1, **options):
    """A row of a script whose deadlocks and traps are explained."""
    return DecidedRow(script, asked(explain=True, **options), '\n'.join(lines), status)


def last(outcomes, runs, more='no'):
    return f'outcomes {outcomes} runs {runs} more {more}'


def takes(depth, receive, message, other):
    """The line of a match that decides, with what could be matched in its place."""
    return f'  decided at depth {depth}: {receive} takes the message of {message}; with that of {other} it need not hang or trap'


FROM_START = '  decided from the start: every run hangs or traps'

# ---- the message that decides

# Nine steps are before the choice: `if`, irecv and recv of rank 0, and two `if` and a send of each other rank.
STOLEN = open_example('stolen_message.mpd').decode()
OF_STOLEN = takes(9, 'rank 0, line 8,', 'rank 1 (line 13, value 42, tag 7)', 'rank 2 (line 13, value 5, tag 1)')
# By 1 and then 3 it hangs. Eight steps are before the first choice; behind it a match, wake 0, the second receive, and the wake of the sender.
ONE_THEN_THREE = '''mpd 1; ranks 4; var x; var y; var z;
if rank == 0 {
  recv x from any tag 0;
  recv y from any tag 0;
  if x == 1 && y == 3 { recv z from 0 tag 9; }
  recv z from any tag 0;
} else { send rank to 0 tag 0; }'''
OF_ONE_THEN_THREE = takes(12, 'rank 0, line 4,', 'rank 3 (line 7, value 3, tag 0)', 'rank 2 (line 7, value 2, tag 0)')
# The same where it hangs by 1, whatever comes second: of the two choices the first decides, whichever is told of.
ONE_FIRST = ONE_THEN_THREE.replace('x == 1 && y == 3', 'x == 1')
OF_ONE_FIRST = takes(8, 'rank 0, line 3,', 'rank 1 (line 7, value 1, tag 0)', 'rank 2 (line 7, value 2, tag 0)')
# Of two races both must end well. Behind 22 steps there are candidates 0 match 2.0 0.0, 1 match 3.0 1.0 and 2 match 4.0 1.0; by the message of
# rank 3 rank 1 hangs, and by it rank 3 goes on, whose other message makes rank 0 hang.
#   0: rank 0 ends, behind seven steps more. [0 0] hangs, [0 1] leaves 3.1 over.
#   1: rank 1 hangs, whatever rank 0 takes then: [1 0] as [0 0], and [1 1], where rank 0 hangs, too.
#   2: rank 1 takes the message of rank 3 then, and ends, behind twelve steps. [2 0] leaves 3.1 over, and by [2 1] rank 0 hangs.
OF_ANOTHER = '''mpd 1; ranks 5; var x; req r;
if rank == 0 { recv x from any tag 0; if x == 30 { recv x from 0 tag 9; } }
if rank == 1 {
  recv x from any tag 0;
  if x == 3 { recv x from 0 tag 9; }
  recv x from 3 tag 0;
}
if rank == 2 { isend r 2 to 0 tag 0; }
if rank == 3 { ssend 3 to 1 tag 0; isend r 30 to 0 tag 0; }
if rank == 4 { isend r 4 to 1 tag 0; }'''
OF_OTHERS = (
    'outcome 0 runs 2 first [0 0] deadlock 1.1',
    takes(29, 'rank 1, line 4,', 'rank 3 (line 9, value 3, tag 0)', 'rank 4 (line 10, value 4, tag 0)'),
    'outcome 1 runs 2 first [0 1] leftovers 3.1',
    'outcome 2 runs 1 first [1 1] deadlock 0.1 1.1',
    '  decided at depth 22: rank 1, line 4, takes the message of rank 3 (line 9, value 3, tag 0); '
    'if rank 0, line 2, takes the message of rank 2 (line 8, value 2, tag 0) instead, it need not hang or trap',
    'outcome 3 runs 1 first [2 1] deadlock 0.1',
    takes(34, 'rank 0, line 2,', 'rank 3 (line 9, value 30, tag 0)', 'rank 2 (line 8, value 2, tag 0)'))
# An end with leftovers is no bad one: behind six steps the message of rank 1 or of rank 2 comes first, and the other one is left.
ONE_LEFT = '''mpd 1; ranks 3; var x; req r;
if rank == 0 { recv x from any tag 0; if x == 1 { recv x from 0 tag 9; } } else { isend r rank to 0 tag 0; }'''
# The least value and the highest, and the highest tag.
ODD_VALUES = '''mpd 1; ranks 3; var x; req r;
if rank == 0 {
  recv x from any tag any;
  if x < 0 { recv x from 0 tag 9; }
}
if rank == 1 { isend r -9223372036854775807 - 1 to 0 tag 32767; }
if rank == 2 { isend r 9223372036854775807 to 0 tag 0; }'''
# Two steps of rank 0 (`if`, recv), four of rank 1 (`if`, `if`, isend, `if`), four of rank 2 (`if`, `if`, `if`, isend): ten in all.
OF_ODD_VALUES = takes(10, 'rank 0, line 3,', 'rank 1 (line 6, value -9223372036854775808, tag 32767)', 'rank 2 (line 7, value 9223372036854775807, tag 0)')
BY_MESSAGE = (
    *(decided(STOLEN, 'outcome 0 runs 1 first [0] deadlock 0.1 2.0', OF_STOLEN, 'outcome 1 runs 1 first [1] done', last(2, 2), states=states)
      for states in (None, 1)),
    decided(STOLEN, 'outcome 0 runs 1 first [0] deadlock 0.1 2.0', OF_STOLEN, last(1, 1, 'yes'), until=True),
    decided(ONE_THEN_THREE, 'outcome 0 runs 5 first [0 0 0] done', 'outcome 1 runs 1 first [0 1] deadlock 0.2 2.0', OF_ONE_THEN_THREE, last(2, 6)),
    decided(ONE_FIRST, 'outcome 0 runs 1 first [0 0] deadlock 0.2 3.0', OF_ONE_FIRST, 'outcome 1 runs 1 first [0 1] deadlock 0.2 2.0', OF_ONE_FIRST,
            'outcome 2 runs 4 first [1 0 0] done', last(3, 6)),
    decided(OF_ANOTHER, *OF_OTHERS, last(4, 6)),
    decided(ONE_LEFT, 'outcome 0 runs 1 first [0] deadlock 0.1', takes(6, 'rank 0, line 2,', 'rank 1 (line 2, value 1, tag 0)', 'rank 2 (line 2, value 2, tag 0)'),
            'outcome 1 runs 1 first [1] leftovers 1.0', last(2, 2)),
    decided(ODD_VALUES, 'outcome 0 runs 1 first [0] deadlock 0.1', OF_ODD_VALUES, 'outcome 1 runs 1 first [1] leftovers 1.0', last(2, 2)))

# ---- requests, and slots

BY_OTHER_REQUEST = ('  decided at depth 12: rank 0, line 10, goes on by line 9, 0.1 irecv from any tag 0; '
                    'if rank 0, line 10, goes on by line 8, 0.0 irecv from 1 tag 0 instead, it need not hang or trap')
BY_NAMED_REQUEST = BY_OTHER_REQUEST.replace('0.1 irecv from any', '0.1 irecv from 2')
# Where i must be 1, the match must come before the wait is ended: candidates 0 wakeany 0 0 and 1 match 2.0 0.1, behind ten steps.
OTHER_WANTED = ORDER_DECIDES.replace('assert i == 0', 'assert i == 1')
BY_MATCH = ('  decided at depth 10: rank 0, line 10, goes on by line 8, 0.0 irecv from 1 tag 0; '
            'if rank 0, line 9, takes the message of rank 2 (line 13, value 2, tag 0) instead, it need not hang or trap')
BY_SLOT = ('  decided at depth 4: rank 0, line 8, goes on; '
           'if rank 1, line 11, takes the message of rank 0 (line 7, value 1, tag 0) instead, it need not hang or trap')
TRAPPED = '  rank 0, line 11: trap assert, with i = 1'
WAITED_TWICE = open_example('waited_twice.mpd').decode()
BY_OTHERS = (
    OutcomesRow(ORDER_DECIDES, asked(explain=True), BY_ORDER.replace('; outcomes', f'\n{TRAPPED}\n{BY_OTHER_REQUEST}; outcomes'), 1),
    OutcomesRow(ORDER_DECIDES, asked(explain=True, mode='slots:1'), ORDER_IN_SLOTS.replace('; outcomes', f'\n{TRAPPED}\n{BY_OTHER_REQUEST}; outcomes'), 1),
    *(decided(WAITED_TWICE, 'outcome 0 runs 1 first [0] done', 'outcome 1 runs 1 first [1] trap 0 assert', BY_NAMED_REQUEST, last(2, 2), mode=mode)
      for mode in (None, BUFFERED)),
    decided(OTHER_WANTED, 'outcome 0 runs 2 first [0 0] trap 0 assert', BY_MATCH, 'outcome 1 runs 1 first [1 1] done', last(2, 3)),
    decided(FREED_SLOT, 'outcome 0 runs 1 first [0 0] deadlock 0.2', BY_SLOT, 'outcome 1 runs 1 first [1] leftovers 0.1', last(2, 2), mode='slots:1'),
    decided(FREED_SLOT, 'outcome 0 runs 1 first [] deadlock 0.2', FROM_START, last(1, 1)))

# ---- from the start, and what isn't known

# By the message of rank 2 it ends, behind eleven steps, and by that of rank 1 it hangs, behind ten.
LATER = ONE_LEFT.replace('tag 9; }', 'tag 9; } else { print 1; print 2; }')
OF_LATER = takes(6, 'rank 0, line 2,', 'rank 1 (line 2, value 1, tag 0)', 'rank 2 (line 2, value 2, tag 0)')
OR_EARLIER = '  decided at depth 6 or earlier: not all runs from there were counted'
# By rank 1 it hangs and by rank 3 it ends, each behind twelve steps; by rank 2 it takes three more.
ONE_LONG = '''mpd 1; ranks 4; var x; req r;
if rank == 0 {
  recv x from any tag 0;
  if x == 1 { recv x from 0 tag 9; }
  if x == 2 { print 1; print 1; print 1; }
} else { isend r rank to 0 tag 0; }'''
# By rank 1 the other sender hangs, and by rank 2 rank 0 traps.
HANG_OR_TRAP = (
    'outcome 0 runs 1 first [0] deadlock 2.0', FROM_START, 'outcome 1 runs 1 first [1] trap 0 assert', FROM_START, last(2, 2))
# The loop is cut whatever is left, and by rank 1 rank 0 hangs: nothing tells whether a run could end well.
LOOPS = '''mpd 1; ranks 3; var x; req r;
if rank == 0 { recv x from any tag 0; if x == 1 { recv x from 0 tag 9; } while 1 { } } else { isend r rank to 0 tag 0; }'''
UNKNOWN = (
    row(SWAPPED_TAGS, SWAPPED, 1, explain=True, complete=True),
    decided(HEAD_TO_HEAD, 'outcome 0 runs 1 first [] deadlock 0.0 1.0', FROM_START, last(1, 1), fuel=2),
    decided(LOW_WANTED, *HANG_OR_TRAP),
    decided(LATER, 'outcome 0 runs 1 first [0] deadlock 0.1', OF_LATER, 'outcome 1 runs 1 first [1] leftovers 1.0', last(2, 2), fuel=11),
    decided(LATER, 'outcome 0 runs 1 first [0] deadlock 0.1', OR_EARLIER, 'outcome 1 runs 1 first [1] cut', last(2, 2), fuel=10),
    decided(LATER, 'outcome 0 runs 1 first [0] deadlock 0.1', OR_EARLIER, last(1, 1, 'yes'), fuel=10, until=True),
    decided(ONE_LONG, 'outcome 0 runs 1 first [0] deadlock 0.1', takes(8, 'rank 0, line 3,', 'rank 1 (line 6, value 1, tag 0)', 'rank 3 (line 6, value 3, tag 0)'),
            'outcome 1 runs 1 first [1] cut', 'outcome 2 runs 1 first [2] leftovers 1.0 2.0', last(3, 3), fuel=12),
    # both others end well, the first of them with its last step of fuel
    decided(ONE_LONG, 'outcome 0 runs 1 first [0] deadlock 0.1', takes(8, 'rank 0, line 3,', 'rank 1 (line 6, value 1, tag 0)', 'rank 2 (line 6, value 2, tag 0)'),
            'outcome 1 runs 1 first [1] leftovers 1.0 3.0', 'outcome 2 runs 1 first [2] leftovers 1.0 2.0', last(3, 3), fuel=15),
    *(decided(LOOPS, 'outcome 0 runs 1 first [0] deadlock 0.1', OR_EARLIER, 'outcome 1 runs 1 first [1] cut', last(2, 2), fuel=fuel) for fuel in (10, 300)))

# ---- up to the first that ends badly

UNTIL = {'until': True}
# By 3 and then 1 it hangs: the run [2 0], behind which [2 1 0] is left; and by 3 and then 2 the last one.
THREE_THEN_ONE, THREE_THEN_TWO = (ONE_THEN_THREE.replace('x == 1 && y == 3', f'x == 3 && y == {second}') for second in (1, 2))
# ONE_LONG, where it hangs by rank 2 and takes long by rank 1.
CUT_THEN_HANG = ONE_LONG.replace('x == 2', 'x == 4').replace('x == 1', 'x == 2').replace('x == 4', 'x == 1')
# 64 rounds in which one of two requests is taken: it traps at the end where the second one was taken in the first round. So 2^63 runs are done
# before the first that traps.
FIRST_OF_ALL = TAKEN.replace('var go;', 'var go; var w;').replace('LAST }', 'if i == 1 { w = x; } x = 0; }\nassert w == 0;')


def first_of_all():
    """The script of that."""
    text = FIRST_OF_ALL.replace('REQUESTS', '2').replace('SENDS', 'isend r[0] 1 to 0 tag 0; isend r[1] 1 to 0 tag 0; ')
    return text.replace('RECEIVES', 'recv go from 0 tag 0; recv go from 0 tag 0; ').replace('GO', 'i < 64')


UP_TO = (
    row(HIGH_WANTED, one_way('trap 0 assert', 1, '0', 'yes'), 1, **UNTIL), row(HIGH_WANTED, one_way('trap 0 assert', 1, '0', 'yes'), 1, complete=True, **UNTIL),
    row(THREE, OF_THREE, 1, **UNTIL), row(TWO_OF_THREE, one_way('deadlock 3.0', 1, '0 0', 'yes'), 1, **UNTIL),
    row(TWO_OF_THREE, ways(6, (2, '0 0', 'leftovers 3.0'), (2, '0 1', 'leftovers 2.0'), (2, '1 1', 'leftovers 1.0')), mode=BUFFERED, complete=True, **UNTIL),
    row(BOTH_ANY, one_way('done', 2, '0 0'), complete=True, **UNTIL),
    row(ONE_THEN_THREE, ways(2, (1, '0 0 0', 'done'), (1, '0 1', 'deadlock 0.2 2.0'), more='yes'), 1, **UNTIL),
    row(THREE_THEN_ONE, ways(5, (4, '0 0 0', 'done'), (1, '2 0', 'deadlock 0.2 2.0'), more='yes'), 1, **UNTIL),
    *(row(THREE_THEN_TWO, ways(6, (5, '0 0 0', 'done'), (1, '2 1', 'deadlock 0.2 1.0')), 1, states=states, **UNTIL) for states in (None, 1)),
    row(CUT_THEN_HANG, ways(2, (1, '0', 'cut'), (1, '1', 'deadlock 0.1'), more='yes'), 1, fuel=12, **UNTIL),
    row(ON_AND_ON, one_way('cut'), fuel=5, **UNTIL), row(ON_AND_ON, one_way('cut'), 4, fuel=5, complete=True, **UNTIL),
    row(first_of_all(), ways(2 ** 63 + 1, (2 ** 63, ' '.join('0' * 64), 'done'), (1, ' '.join('1' + '0' * 63), 'trap 0 assert'), more='yes'), 1, mode=BUFFERED,
        **UNTIL))

# ---- in several modes


def tried(*told, least='none'):
    """The lines of modes, each told by how many outcomes there are, and how many are deadlocks, traps, leftovers and cut, and whether there are more."""
    lines = [f'{mode} outcomes {count} deadlocks {deadlocks} traps {traps} leftovers {left} cut {cut} more {more}' for mode, count, deadlocks, traps, left, cut, more in told]
    return '; '.join([*lines, f'least {least}'])


WELL, LEFT = (1, 0, 0, 0, 0, 'no'), (1, 0, 0, 1, 0, 'no')
OF_HEADS = tried(('rendezvous', 1, 1, 0, 0, 0, 'no'), *((mode, *WELL) for mode in ('slots:1', 'slots:2', 'buffered')), least='slots:1')
IN_MODES = (
    row(HEAD_TO_HEAD, OF_HEADS, 1, modes=2), row(HEAD_TO_HEAD, OF_HEADS, 1, modes=2, witnesses=True, explain=True, complete=True, mode='slots:7', states=1),
    row(FREED_SLOT, tried(('rendezvous', 1, 1, 0, 0, 0, 'no'), ('slots:1', 2, 1, 0, 1, 0, 'no'), ('slots:2', *LEFT), ('buffered', *LEFT), least='slots:2'), 1, modes=2),
    row(FREED_SLOT, tried(('rendezvous', 1, 1, 0, 0, 0, 'no'), ('slots:1', 1, 1, 0, 0, 0, 'yes'), ('buffered', *LEFT), least='buffered'), 1, modes=1, **UNTIL),
    # six runs, which end in three ways
    row(TWO_OF_THREE, tried(('rendezvous', 3, 3, 0, 0, 0, 'no'), ('buffered', 3, 0, 0, 3, 0, 'no'), least='buffered'), 1, modes=0),
    row(TWO_OF_THREE, tried(('rendezvous', 1, 1, 0, 0, 0, 'yes'), ('buffered', 3, 0, 0, 3, 0, 'no'), least='buffered'), 1, modes=0, **UNTIL),
    row(ORDER_DECIDES, tried(*((mode, 2, 0, 1, 0, 0, 'no') for mode in ('rendezvous', 'slots:1', 'buffered'))), 1, modes=1),
    row(LOW_WANTED, tried(('rendezvous', 2, 1, 1, 0, 0, 'no'), ('buffered', 2, 0, 1, 1, 0, 'no')), 1, modes=0, complete=True),
    # two steps to the deadlock, and more with a buffer
    row(HEAD_TO_HEAD, tried(('rendezvous', 1, 1, 0, 0, 0, 'no'), ('buffered', 1, 0, 0, 0, 1, 'no'), least='buffered'), 1, modes=0, fuel=3, complete=True),
    *(row(ON_AND_ON, tried(*((mode, 1, 0, 0, 0, 1, 'no') for mode in ('rendezvous', 'slots:1', 'buffered')), least='rendezvous'), 4 * complete, modes=1, fuel=5,
          complete=complete) for complete in (False, True)),
    row(EMPTY, tried(('rendezvous', *WELL), ('buffered', *WELL), least='rendezvous'), modes=0, complete=True),
    refused(EMPTY, 'bad mode', mode='fast', modes=1), refused(None, 'device', 3, modes=0),
    refused(EMPTY, "--outcomes and --ends can't stand together", beside=('--ends',), modes=1, until=True))

CHECKS = BY_MESSAGE + BY_OTHERS + UNKNOWN + UP_TO + IN_MODES


def as_told(row_of, result):
    """A result as a row has it."""
    return row_of.answered(result) if isinstance(row_of, DecidedRow) else result


def check_problem(row_of):
    """What a check answers otherwise than a row wants; None where nothing is."""
    said = as_told(row_of, row_of.case().wanted())
    return None if said == row_of.wanted() else f'{said}'


def problems():
    """The name of each row, with what is wrong in it, or None."""
    return [(f'check {row_of.script} {row_of.asked}', check_problem(row_of)) for row_of in CHECKS]
