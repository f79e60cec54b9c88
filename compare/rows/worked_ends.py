"""Worked rows of checks that list ends or group their leaves, of runs by their choices, and of witnesses in whole reports.

Each was worked out by hand from the rules (docs/DEFINITIONS.md, "The wide walk"; docs/FORMATS.md). compare/runs/worked.py has the model answer
them, compare/runs/ends.py a program those of CHECKS, compare/runs/sampled.py those of SAMPLES, and compare/runs/reread.py those of WORDS and LEAVES.
"""

from itertools import product
from typing import NamedTuple, Optional

from cases.rare_cases import Races
from model import sampler, samples
from model.debugger import BUFFERED, RENDEZVOUS, Debugger, Result
from model.explorer import USUAL, Asked
from model.language import read_script
from model.run_words import WRONG_WORDS, Words
from model.samples import Sampling
from model.witness import LONGEST, Verification
from rows.examples import open_example
from rows.worked_explorer import BOTH_ANY, LOW_WANTED, OF_THREE, SIX, STUCK, TO_ITSELF, WITNESSED, CheckRow, check_problem, counting, gathering
from rows.worked_pieces import TOO_MANY
from rows.worked_runs import EMPTY, HEAD_TO_HEAD, ON_AND_ON, THREE, UNRECEIVED
from rows.worked_slots import EARLY_OR_LATE, FIVE
from rows.worked_waitany import BOTH_WAIT, IN_A_LOOP, NOTHING, ONE_NOT_FOUND, STUCK_NOT_LISTED, TWO_CAME

# Four races of two senders, which share nothing: 2 * 2 * 2 * 2 ends, where the 8 matches have 40,320 orders. A match of a race stands in
# front of those of the later races, so behind each other order what was tried before sleeps, and the last of that race never comes.
FOUR_RACES = Races(4).script()
ORDERS = [' '.join(f'{choice} 0' for choice in choices) for choices in product((0, 1), repeat=4)]
BY_FOUR = '; '.join([*(f'leaf {number} [{choices}] done' for number, choices in enumerate(ORDERS)), 'leaves 16 more no'])
# Two races of two senders, of which one is received: the first choice is among 1.0 and 2.0 for rank 0, and 4.0 and 5.0 for rank 3.
# Where the second race is first, both candidates of the other one sleep.
TWO_RACES = Races(2, 2, 1).script()
STUCK_RACES = ('[0 0] deadlock 2.0 5.0', '[0 1] deadlock 2.0 4.0', '[1 0] deadlock 1.0 5.0', '[1 1] deadlock 1.0 4.0')
BY_TWO = '; '.join([*(f'leaf {number} {leaf}' for number, leaf in enumerate(STUCK_RACES)), 'leaves 4 more no'])
ALL_OF_TWO = BY_TWO.replace('leaves 4 more no', 'leaf 4 [2 0] deadlock 2.0 5.0; leaf 5 [2 1] deadlock 1.0 5.0; leaf 6 [3 0] deadlock 2.0 4.0; '
                            'leaf 7 [3 1] deadlock 1.0 4.0; leaves 8 more no')
# All senders of one race are received: each order is an end of its own.
THREE_SENDERS = Races(1, 3, 3).script()
BY_SENDERS = ('leaf 0 [0 0 0] done; leaf 1 [0 1 0] done; leaf 2 [1 0 0] done; leaf 3 [1 1 0] done; leaf 4 [2 0 0] done; leaf 5 [2 1 0] done; '
              'leaves 6 more no')
# Rank 3 sends to rank 1 before it sends to rank 0, so its second message comes where that of rank 2 sleeps, and is taken beside it.
LATE = ('mpd 1; ranks 4; var x;\nif rank == 0 { recv x from any tag any; recv x from any tag any; }\nif rank == 1 { recv x from any tag any; }\n'
        'if rank == 2 { send 2 to 0 tag 0; }\nif rank == 3 { send 3 to 1 tag 0; send 3 to 0 tag 0; }')
# Both requests are complete, and are taken in either order; the first one wakes when the second is taken, and is taken behind it.
TWO_REQUESTS = ('mpd 2; ranks 1; var i; req r[2];\n'
                'isend r[0] 1 to 0 tag 0; isend r[1] 2 to 0 tag 0; waitany r to i; waitany r to i;')
BY_REQUESTS = 'leaf 0 [0 0] leftovers 0.0 0.1; leaf 1 [1 0] leftovers 0.0 0.1; leaves 2 more no'
# Whose message comes first decides at which of two lines a rank fails: where it is that of rank 2 at line 3, and else at line 4. It traps, or
# waits for a message that nobody sends, in its fourth call, or its fourth call is a send that nobody takes. As of THREE_SENDERS there are six
# runs, of which the first two have the message of rank 1 first, the next two that of rank 2, and the last two that of rank 3.
AT_TWO_LINES = ('mpd 1; ranks 4; var x; var y; req r;\n'
                'if rank == 0 { recv x from any tag 0; recv y from any tag 0; recv y from any tag 0; if x == 2 {\n'
                'FIRST } else {\nSECOND } } else { send rank to 0 tag 0; }')
TRAPS_AT_TWO, HANGS_AT_TWO, LEFT_AT_TWO = (AT_TWO_LINES.replace('FIRST', first).replace('SECOND', second) for first, second in (
    ('assert 0;', 'assert 0;'), ('recv x from 1 tag 9;', 'recv x from 2 tag 9;'), ('isend r x to 1 tag 9;', 'isend r x to 1 tag 9;')))
# Two ends that are told alike, of which each has its own number, count and first leaf.
BY_LINE = 'end 0 leaves 4 first 0 {0}; end 1 leaves 2 first 2 {0}; leaves 6 more no'


def taken_in_order(*ranks):
    """The steps of the run that takes these ranks in this order, and waits."""
    at_start = ', '.join(f'local {rank}, local {rank}' for rank in range(4))
    *before, last = [f'match {rank}.0 0.{number}, wake 0, local 0' for number, rank in enumerate(ranks)]
    return ', '.join([at_start, *(f'{steps}, wake {rank}' for steps, rank in zip(before, ranks)), f'{last}, local 0, wake {ranks[-1]}'])


def cut(*choices):
    """The lines of runs that are all cut, by their choices."""
    return '; '.join([*(f'leaf {number} [{one}] cut' for number, one in enumerate(choices)), f'leaves {len(choices)} more no'])


ENDS = Asked(ends=True)
ENDED = (
    CheckRow(FOUR_RACES, ENDS, BY_FOUR, 0), CheckRow(FOUR_RACES, ENDS._replace(complete=True), BY_FOUR, 0),
    *(CheckRow(FOUR_RACES, ENDS._replace(split=split), BY_FOUR, 0) for split in (0, 2)),
    CheckRow(TWO_RACES, Asked(), ALL_OF_TWO, 1), *(CheckRow(TWO_RACES, ENDS._replace(split=split), BY_TWO, 1) for split in (0, 1, 2, 3)),
    CheckRow(THREE_SENDERS, Asked(), BY_SENDERS, 0), CheckRow(THREE_SENDERS, ENDS, BY_SENDERS, 0),
    CheckRow(LATE, Asked(), 'leaf 0 [0 0 0] done; leaf 1 [1 0 0] done; leaf 2 [1 1 0] done; leaves 3 more no', 0),
    *(CheckRow(LATE, ENDS._replace(split=split), 'leaf 0 [0 0 0] done; leaf 1 [1 1 0] done; leaves 2 more no', 0) for split in (0, 1, 2, 8)),
    # where all runs end otherwise, the report is the same
    CheckRow(THREE, ENDS, OF_THREE, 1), CheckRow(THREE, ENDS._replace(witnesses=True), WITNESSED, 1),
    CheckRow(EMPTY, ENDS, 'leaf 0 [] done; leaves 1 more no', 0), CheckRow(TO_ITSELF, ENDS._replace(fuel=14), cut('0 0 0'), 0),
    CheckRow(BOTH_ANY, ENDS, 'leaf 0 [0 0] done; leaf 1 [1 0] done; leaves 2 more no', 0),
    # so many ends of each piece; a piece is cut by all candidates, and may have no end
    CheckRow(TWO_RACES, ENDS._replace(pieces=True), 'pieces 4', 0), CheckRow(TWO_RACES, ENDS._replace(split=2, pieces=True), 'pieces 8', 0),
    CheckRow(TWO_RACES, ENDS._replace(piece=1), 'leaf 0 [1 0] deadlock 1.0 5.0; leaf 1 [1 1] deadlock 1.0 4.0; leaves 2 more no', 1),
    *(CheckRow(TWO_RACES, ENDS._replace(piece=piece), 'leaves 0 more no', 0) for piece in (2, 3)),
    *(CheckRow(TWO_RACES, ENDS._replace(split=2, piece=piece, runs=1, until=True), 'leaves 0 more no', 0) for piece in (4, 5, 6, 7)),
    CheckRow(TWO_RACES, ENDS._replace(split=2, piece=3), 'leaf 0 [1 1] deadlock 1.0 4.0; leaves 1 more no', 1),
    CheckRow(TWO_RACES, ENDS._replace(piece=4), '', 2, 'mpdbg: no piece 4 of 4'),
    # of four races there are 8 candidates, and then one less each time: 8 * 7 * 6 pieces by three choices, and 1,680 by four
    CheckRow(FOUR_RACES, ENDS._replace(split=3, pieces=True), 'pieces 336', 0), CheckRow(FOUR_RACES, ENDS._replace(split=4), '', 2, TOO_MANY),
    CheckRow(TWO_RACES, ENDS._replace(runs=1), f'leaf 0 {STUCK_RACES[0]}; leaf 1 {STUCK_RACES[2]}; leaves 2 more yes', 1),
    CheckRow(TWO_RACES, ENDS._replace(runs=2), BY_TWO, 1), CheckRow(TWO_RACES, ENDS._replace(runs=1, split=2), BY_TWO, 1),
    CheckRow(TWO_RACES, ENDS._replace(runs=4, split=0), BY_TWO, 1),
    CheckRow(TWO_RACES, ENDS._replace(runs=3, split=0), BY_TWO.replace(f'; leaf 3 {STUCK_RACES[3]}; leaves 4 more no', '; leaves 3 more yes'), 1),
    # up to the first deadlock
    CheckRow(TWO_RACES, ENDS._replace(until=True), f'leaf 0 {STUCK_RACES[0]}; leaves 1 more yes', 1),
    CheckRow(LATE, ENDS._replace(until=True), 'leaf 0 [0 0 0] done; leaf 1 [1 1 0] done; leaves 2 more no', 0),
    # twelve steps are before the first choice, three are taken by a match and what goes on by it; what is cut behind different matches is
    # another end each time, and where all candidates sleep nothing is cut
    CheckRow(TWO_RACES, ENDS._replace(fuel=12), cut(''), 0), CheckRow(TWO_RACES, ENDS._replace(fuel=13), cut('0', '1', '2', '3'), 0),
    CheckRow(TWO_RACES, ENDS._replace(fuel=15, complete=True), cut('0', '1', '2', '3'), 4),
    *(CheckRow(TWO_RACES, ENDS._replace(fuel=fuel), cut('0 0', '0 1', '1 0', '1 1'), 0) for fuel in (16, 17)),
    CheckRow(TWO_RACES, ENDS._replace(fuel=18), BY_TWO, 1),
    # in each mode
    CheckRow(TWO_RACES, ENDS._replace(mode=BUFFERED, complete=True), BY_TWO.replace('deadlock', 'leftovers'), 0),
    CheckRow(TWO_RACES, ENDS._replace(mode='slots:1', complete=True), BY_TWO.replace('deadlock', 'leftovers'), 0),
    CheckRow(TWO_RACES, ENDS._replace(modes=0), 'rendezvous leaves 4 deadlocks 4 traps 0 leftovers 0 cut 0 more no; '
             'buffered leaves 4 deadlocks 0 traps 0 leftovers 4 cut 0 more no; least buffered', 1),
    # a choice among requests
    CheckRow(TWO_REQUESTS, ENDS._replace(mode=BUFFERED), BY_REQUESTS, 0),
    CheckRow(TWO_REQUESTS, ENDS._replace(mode=BUFFERED, complete=True), BY_REQUESTS, 0),
    CheckRow(TWO_REQUESTS, Asked(BUFFERED, complete=True), BY_REQUESTS, 4),
    CheckRow(TWO_REQUESTS, ENDS, 'leaf 0 [] deadlock 0.2; leaves 1 more no', 1))

# Scripts of examples/ of which a report along decisions lacks an end, and one that lacks none.
ORDER_DECIDES, FREED_SLOT, WAITANY = (open_example(f'{name}.mpd').decode() for name in ('order_decides', 'freed_slot', 'waitany'))
# Forced: local 0 four times, local 1 and local 2 twice, match 1.0 0.0, which names its source, and wake 1: ten steps. Candidates:
# 0 wakeany 0 0, 1 match 2.0 0.1.
#   0: i is 0. A choice of one: 0 match 2.0 0.1. Wake 2. All done, behind 14 steps.
#   1: wakeany 0 0 is asleep, and a match doesn't wake it. Wake 2. Candidates: 0 wakeany 0 0, which is asleep, 1 wakeany 0 1.
#      1: i is 1, and the assertion traps, behind 14 steps.   Without sleep sets 0: i is 0, all done.
# With buffers ranks 1 and 2 are woken before, and all else is the same.
BY_ORDER = 'leaf 0 [0 0] done; leaf 1 [1 1] trap 0 assert; leaves 2 more no'
# In slots:1 the sends of ranks 1 and 2 hold their slots, and both are woken: ten steps. Candidates: 0 match 1.0 0.0, 1 match 2.0 0.1.
#   0: as above.   1: match 1.0 0.0 is asleep, and nothing wakes it. Candidates: 0 wakeany 0 1, 1 match 1.0 0.0.
#      0: the assertion traps, and match 1.0 0.0 is all that is left: a dead way.   1: asleep; its waitany has two candidates.
BY_ORDER_IN_SLOTS = 'leaf 0 [0 0 0] done; leaf 1 [0 1 1] trap 0 assert; leaves 2 more no'
# Forced: local 0 twice, since the next one, a standard send, lacks a slot, and local 1 twice. Candidates: 0 local 0, 1 match 0.0 1.0.
#   0: 0.1 isn't buffered. Local 0, the wait. A choice of one: 0 match 0.0 1.0. Wake 1. Deadlock, behind 8 steps.
#   1: local 0 was asleep and wakes, since the match gives a slot back. Local 0 twice, wake 0, wake 1: 0.1 is left, behind 9 steps.
FREED = 'leaf 0 [0 0] deadlock 0.2; leaf 1 [1] leftovers 0.1; leaves 2 more no'
FREED_STUCK = 'local 0, local 0, local 1, local 1, local 0, local 0, match 0.0 1.0, wake 1'
FREED_LEFT = 'local 0, local 0, local 1, local 1, match 0.0 1.0, local 0, local 0, wake 0, wake 1'
# Matches that name their source are forced. Candidates: 0 wakeany 0 0, 1 wakeany 0 1, 2 wakeany 1 0, 3 wakeany 1 1.
#   0, 1: rank 0 goes on, by 1 into a trap. Candidates: 0 wakeany 1 0, a trap, 1 wakeany 1 1.
#   2, 3: both requests of rank 0 are asleep, and a step of rank 1 wakes neither: dead ways.
BY_EACH = 'leaf 0 [0 0] trap 1 assert; leaf 1 [0 1] done; leaf 2 [1 0] trap 0 assert 1 assert; leaf 3 [1 1] trap 0 assert; leaves 4 more no'
# The same forced steps as of ORDER_DECIDES, and the same candidates; by the second request rank 0 comes to a barrier, alone.
BY_BARRIER = ('leaf 0 [0 0] done; leaf 1 [1 1] deadlock 0.3; witness 1: local 0, local 0, local 0, local 0, local 1, local 1, local 2, local 2, '
              'match 1.0 0.0, wake 1, match 2.0 0.1, wake 2, wakeany 0 1, local 0, local 0; leaves 2 more no')
IN_SLOTS = ENDS._replace(mode='slots:1')
OF_EVERY_SCRIPT = (
    # a waitany: what a report along decisions lacks, whatever is asked for beside it
    *(CheckRow(ORDER_DECIDES, ENDS._replace(mode=mode, complete=complete), BY_ORDER, 1) for mode in (None, BUFFERED, 'slots:0') for complete in (False, True)),
    *(CheckRow(ORDER_DECIDES, ENDS._replace(split=split), BY_ORDER, 1) for split in (0, 1, 2, 3, 8)),
    CheckRow(ORDER_DECIDES, Asked(complete=True), 'leaf 0 [0 0] done; leaves 1 more no', 4),
    CheckRow(ORDER_DECIDES, Asked(pieces=True), 'pieces 1', 0), CheckRow(ORDER_DECIDES, ENDS._replace(pieces=True), 'pieces 2', 0),
    *(CheckRow(ORDER_DECIDES, ENDS._replace(pieces=True, split=split), 'pieces 3', 0) for split in (2, 3)),
    CheckRow(ORDER_DECIDES, ENDS._replace(piece=1), 'leaf 0 [1 1] trap 0 assert; leaves 1 more no', 1),
    *(CheckRow(ORDER_DECIDES, ENDS._replace(piece=1, split=split), 'leaves 0 more no', 0) for split in (2, 3)),
    *(CheckRow(ORDER_DECIDES, ENDS._replace(runs=1, split=0, complete=complete), 'leaf 0 [0 0] done; leaves 1 more yes', status)
      for complete, status in ((False, 0), (True, 4))),
    CheckRow(ORDER_DECIDES, ENDS._replace(runs=1), BY_ORDER, 1), CheckRow(ORDER_DECIDES, ENDS._replace(until=True), BY_ORDER, 1),
    CheckRow(ORDER_DECIDES, ENDS._replace(group=True), 'end 0 leaves 1 first 0 done; end 1 leaves 1 first 1 trap 0 assert; leaves 2 more no', 1),
    *(CheckRow(ORDER_DECIDES, ENDS._replace(fuel=fuel), cut(*choices), 0) for fuel, choices in (
        (9, ['']), (10, ['']), (11, ['0', '1']), (12, ['0', '1']), (13, ['0 0', '1 1']))),
    CheckRow(ORDER_DECIDES, ENDS._replace(fuel=12, complete=True), cut('0', '1'), 4), CheckRow(ORDER_DECIDES, ENDS._replace(fuel=14), BY_ORDER, 1),
    CheckRow(ORDER_DECIDES, ENDS._replace(modes=0, complete=True), 'rendezvous leaves 2 deadlocks 0 traps 1 leftovers 0 cut 0 more no; '
             'buffered leaves 2 deadlocks 0 traps 1 leftovers 0 cut 0 more no; least none', 1),
    CheckRow(ORDER_DECIDES, Asked(modes=0, complete=True), 'rendezvous leaves 1 deadlocks 0 traps 0 leftovers 0 cut 0 more no; '
             'buffered leaves 1 deadlocks 0 traps 0 leftovers 0 cut 0 more no; least rendezvous', 0),
    CheckRow(ORDER_DECIDES, IN_SLOTS, BY_ORDER_IN_SLOTS, 1), CheckRow(ORDER_DECIDES, IN_SLOTS._replace(piece=1), 'leaves 0 more no', 0),
    *(CheckRow(ORDER_DECIDES, IN_SLOTS._replace(split=split, pieces=True), f'pieces {count}', 0) for split, count in ((1, 2), (2, 4), (3, 6), (4, 6))),
    *(CheckRow(ORDER_DECIDES, IN_SLOTS._replace(split=split), BY_ORDER_IN_SLOTS, 1) for split in (0, 2, 3, 4)),
    *(CheckRow(ONE_NOT_FOUND, ENDS._replace(mode=mode), BY_ORDER, 1) for mode in (RENDEZVOUS, BUFFERED)),
    CheckRow(STUCK_NOT_LISTED, ENDS._replace(witnesses=True, complete=True), BY_BARRIER, 1),
    # a waitany where none is lacking: all ways to end are listed
    *(CheckRow(WAITANY, ENDS._replace(complete=complete), 'leaf 0 [0 0] done; leaf 1 [1 0] done; leaves 2 more no', 0) for complete in (False, True)),
    CheckRow(WAITANY, Asked(complete=True), 'leaf 0 [0 0] done; leaf 1 [1 0] done; leaves 2 more no', 4),
    CheckRow(NOTHING, ENDS._replace(complete=True), 'leaf 0 [] done; leaves 1 more no', 0),
    CheckRow(IN_A_LOOP, ENDS._replace(complete=True), 'leaf 0 [0 0] done; leaf 1 [1 0] done; leaves 2 more no', 0),
    CheckRow(TWO_CAME, ENDS._replace(complete=True), 'leaf 0 [0] done; leaf 1 [1] trap 0 assert; leaves 2 more no', 1),
    CheckRow(NOTHING, ENDS._replace(modes=0, complete=True), 'rendezvous leaves 1 deadlocks 0 traps 0 leftovers 0 cut 0 more no; '
             'buffered leaves 1 deadlocks 0 traps 0 leftovers 0 cut 0 more no; least rendezvous', 0),
    # of two ranks that wait so, all requests are candidates, and those of the first sleep behind those of the second
    *(CheckRow(BOTH_WAIT, ENDS._replace(split=split), BY_EACH, 1) for split in (0, 1, 2)), CheckRow(BOTH_WAIT, Asked(split=1, pieces=True), 'pieces 2', 0),
    CheckRow(BOTH_WAIT, ENDS._replace(pieces=True), 'pieces 4', 0), CheckRow(BOTH_WAIT, ENDS._replace(split=2, pieces=True), 'pieces 8', 0),
    *(CheckRow(BOTH_WAIT, ENDS._replace(piece=piece), 'leaves 0 more no', 0) for piece in (2, 3)),
    # a slot that a match gives back
    *(CheckRow(FREED_SLOT, IN_SLOTS._replace(split=split, complete=complete), FREED, 1) for split in (0, 1, 2) for complete in (False, True)),
    CheckRow(FREED_SLOT, IN_SLOTS._replace(witnesses=True), FREED.replace('; leaf 1', f'; witness 0: {FREED_STUCK}; leaf 1'), 1),
    *(CheckRow(FREED_SLOT, IN_SLOTS._replace(split=split, pieces=True), 'pieces 2', 0) for split in (1, 2)),
    *(CheckRow(FREED_SLOT, IN_SLOTS._replace(piece=1, complete=complete), *said) for complete, said in (
        (False, ('leaf 0 [1] leftovers 0.1; leaves 1 more no', 0)), (True, ('', 2, "mpdbg: --complete and --piece can't stand together")))),
    CheckRow(FREED_SLOT, IN_SLOTS._replace(until=True), 'leaf 0 [0 0] deadlock 0.2; leaves 1 more yes', 1),
    *(CheckRow(FREED_SLOT, IN_SLOTS._replace(fuel=fuel, complete=True), cut(*choices), 4) for fuel, choices in (
        (3, ['']), (4, ['']), (5, ['0', '1']), (6, ['0', '1']), (7, ['0 0', '1']))),
    CheckRow(FREED_SLOT, IN_SLOTS._replace(fuel=8), 'leaf 0 [0 0] deadlock 0.2; leaf 1 [1] cut; leaves 2 more no', 1),
    CheckRow(FREED_SLOT, IN_SLOTS._replace(fuel=9), FREED, 1),
    *(CheckRow(FREED_SLOT, ENDS._replace(mode=mode, complete=True), 'leaf 0 [] deadlock 0.2; leaves 1 more no', 1) for mode in (None, 'slots:0')),
    *(CheckRow(FREED_SLOT, ENDS._replace(mode=mode, complete=True), 'leaf 0 [0] leftovers 0.1; leaves 1 more no', 0) for mode in ('slots:2', 'slots:65536')),
    CheckRow(FREED_SLOT, Asked('slots:2', complete=True), 'leaf 0 [] leftovers 0.1; leaves 1 more no', 4),
    CheckRow(FREED_SLOT, ENDS._replace(mode=BUFFERED, complete=True), 'leaf 0 [] leftovers 0.1; leaves 1 more no', 0),
    CheckRow(FREED_SLOT, ENDS._replace(modes=2, complete=True), 'rendezvous leaves 1 deadlocks 1 traps 0 leftovers 0 cut 0 more no; '
             'slots:1 leaves 2 deadlocks 1 traps 0 leftovers 1 cut 0 more no; slots:2 leaves 1 deadlocks 0 traps 0 leftovers 1 cut 0 more no; '
             'buffered leaves 1 deadlocks 0 traps 0 leftovers 1 cut 0 more no; least slots:2', 1),
    CheckRow(EARLY_OR_LATE, IN_SLOTS._replace(complete=True), 'leaf 0 [0 0] deadlock 0.1; leaf 1 [1] leftovers 0.1; leaves 2 more no', 1),
    # a send that lacks a slot is a choice of one where nothing else is enabled
    CheckRow(FIVE, ENDS._replace(mode='slots:3'), 'leaf 0 [0] deadlock 0.3; leaves 1 more no', 1),
    CheckRow(FIVE, ENDS._replace(mode='slots:5', complete=True), 'leaf 0 [] leftovers 0.0 0.1 0.2 0.3 0.4; leaves 1 more no', 0),
    # in each mode of slots all ways to end are listed
    *(CheckRow(EMPTY, ENDS._replace(mode=mode, complete=True), 'leaf 0 [] done; leaves 1 more no', 0) for mode in ('slots:0', 'slots:1', 'slots:65536')),
    CheckRow(UNRECEIVED, IN_SLOTS._replace(complete=True), 'leaf 0 [] leftovers 0.0; leaves 1 more no', 0),
    CheckRow(UNRECEIVED, IN_SLOTS._replace(fuel=1, complete=True), 'leaf 0 [] cut; leaves 1 more no', 4))

GROUPED = (
    CheckRow(THREE, Asked(group=True), 'end 0 leaves 1 first 0 done; end 1 leaves 1 first 1 deadlock 0.1 1.0; leaves 2 more no', 1),
    CheckRow(THREE, Asked(group=True, witnesses=True),
             f'end 0 leaves 1 first 0 done; end 1 leaves 1 first 1 deadlock 0.1 1.0; witness 1: {STUCK}; leaves 2 more no', 1),
    CheckRow(TWO_RACES, Asked(group=True), 'end 0 leaves 2 first 0 deadlock 2.0 5.0; end 1 leaves 2 first 1 deadlock 2.0 4.0; '
             'end 2 leaves 2 first 2 deadlock 1.0 5.0; end 3 leaves 2 first 3 deadlock 1.0 4.0; leaves 8 more no', 1),
    CheckRow(TWO_RACES, ENDS._replace(group=True), 'end 0 leaves 1 first 0 deadlock 2.0 5.0; end 1 leaves 1 first 1 deadlock 2.0 4.0; '
             'end 2 leaves 1 first 2 deadlock 1.0 5.0; end 3 leaves 1 first 3 deadlock 1.0 4.0; leaves 4 more no', 1),
    CheckRow(TWO_RACES, Asked(group=True, piece=3),
             'end 0 leaves 1 first 0 deadlock 2.0 4.0; end 1 leaves 1 first 1 deadlock 1.0 4.0; leaves 2 more no', 1),
    CheckRow(TWO_RACES, ENDS._replace(group=True, piece=2, witnesses=True), 'leaves 0 more no', 0),
    CheckRow(TWO_RACES, Asked(group=True, pieces=True), 'pieces 4', 0),
    CheckRow(FOUR_RACES, ENDS._replace(group=True, complete=True), 'end 0 leaves 16 first 0 done; leaves 16 more no', 0),
    CheckRow(THREE, Asked(group=True, fuel=9), 'end 0 leaves 2 first 0 cut; leaves 2 more no', 0),
    CheckRow(FREED_SLOT, IN_SLOTS._replace(group=True, fuel=8), 'end 0 leaves 1 first 0 deadlock 0.2; end 1 leaves 1 first 1 cut; leaves 2 more no', 1),
    CheckRow(THREE, Asked(group=True, fuel=9, complete=True), 'end 0 leaves 2 first 0 cut; leaves 2 more no', 4),
    CheckRow(gathering(12, 2), Asked(group=True, runs=2, split=0), 'end 0 leaves 1 first 0 leftovers 3.0 4.0 5.0 6.0 7.0 8.0 9.0 10.0 11.0; '
             'end 1 leaves 1 first 1 leftovers 2.0 4.0 5.0 6.0 7.0 8.0 9.0 10.0 11.0; leaves 2 more yes', 0),
    CheckRow(LOW_WANTED, Asked(group=True, until=True), 'end 0 leaves 1 first 0 deadlock 2.0; leaves 1 more yes', 1),
    CheckRow(LOW_WANTED, Asked(group=True, witnesses=True),
             f'end 0 leaves 1 first 0 deadlock 2.0; witness 0: {SIX}, match 1.0 0.0, wake 0, local 0, wake 1; '
             f'end 1 leaves 1 first 1 trap 0 assert; witness 1: {SIX}, match 2.0 0.0, wake 0, local 0, wake 2; leaves 2 more no', 1),
    CheckRow(TWO_RACES, Asked(group=True, modes=0), 'rendezvous leaves 8 deadlocks 8 traps 0 leftovers 0 cut 0 more no; '
             'buffered leaves 8 deadlocks 0 traps 0 leftovers 8 cut 0 more no; least buffered', 1),
    # the same calls, or the same trap, at two lines are two ends; in a part of the report they are told apart as well, and with their witnesses
    *(CheckRow(script, Asked(group=True, ends=ends), BY_LINE.format(told), status) for ends in (False, True) for script, told, status in (
        (TRAPS_AT_TWO, 'trap 0 assert', 1), (HANGS_AT_TWO, 'deadlock 0.3', 1), (LEFT_AT_TWO, 'leftovers 0.3', 0))),
    *(CheckRow(TRAPS_AT_TWO, Asked(group=True, split=0, runs=runs), f'{ends}; leaves {runs} more yes', 1) for runs, ends in (
        (2, 'end 0 leaves 2 first 0 trap 0 assert'), (3, 'end 0 leaves 2 first 0 trap 0 assert; end 1 leaves 1 first 2 trap 0 assert'),
        (5, 'end 0 leaves 3 first 0 trap 0 assert; end 1 leaves 2 first 2 trap 0 assert'))),
    CheckRow(HANGS_AT_TWO, Asked(group=True, witnesses=True),
             f'end 0 leaves 4 first 0 deadlock 0.3; witness 0: {taken_in_order(1, 2, 3)}; '
             f'end 1 leaves 2 first 2 deadlock 0.3; witness 2: {taken_in_order(2, 1, 3)}; leaves 6 more no', 1))

CHECKS = ENDED + OF_EVERY_SCRIPT + GROUPED


class SampleRow(NamedTuple):
    """A script, a mode, and the lines of a report of so many runs that are drawn that each run of the wide walk is among them, with its status."""
    script: str
    mode: Optional[str]
    lines: str
    status: int
    complete: bool = False
    group: bool = False
    witnesses: bool = False
    until: bool = False

    def case(self):
        """A check of so many runs that by nearly all seeds each is drawn: one in six or more comes to the rarest."""
        return Sampling('row', self.script.encode(), 60, 7, self.mode, witnesses=self.witnesses, complete=self.complete, group=self.group, until=self.until)

    def wanted(self):
        return Result(''.join(f'{line}\n' for line in self.lines.split('; ')).encode(), b'', self.status)


# The runs of the wide walk without sleep sets, which are told above.
ALL_BY_ORDER = 'leaf 0 [0 0] done; leaf 1 [1 0] done; leaf 2 [1 1] trap 0 assert; leaves 3 more no'
SAMPLES = (
    *(SampleRow(ORDER_DECIDES, mode, ALL_BY_ORDER, 1, complete) for mode in (None, BUFFERED) for complete in (False, True)),
    SampleRow(ORDER_DECIDES, None, 'end 0 leaves 2 first 0 done; end 1 leaves 1 first 2 trap 0 assert; leaves 3 more no', 1, group=True),
    SampleRow(TRAPS_AT_TWO, None, BY_LINE.format('trap 0 assert'), 1, group=True), SampleRow(HANGS_AT_TWO, BUFFERED, BY_LINE.format('deadlock 0.3'), 1, group=True),
    *(SampleRow(FREED_SLOT, 'slots:1', FREED, 1, complete) for complete in (False, True)),
    SampleRow(FREED_SLOT, 'slots:1', FREED.replace('; leaf 1', f'; witness 0: {FREED_STUCK}; leaf 1'), 1, witnesses=True),
    # Whether the other run was drawn before or not, the report ends with the deadlock, which comes first by its choices.
    SampleRow(FREED_SLOT, 'slots:1', 'leaf 0 [0 0] deadlock 0.2; leaves 1 more yes', 1, until=True),
    SampleRow(FREED_SLOT, 'slots:2', 'leaf 0 [0] leftovers 0.1; leaves 1 more no', 0, until=True),
    SampleRow(FREED_SLOT, 'slots:2', 'leaf 0 [0] leftovers 0.1; leaves 1 more no', 0, complete=True),
    *(SampleRow(WAITANY, None, 'leaf 0 [0 0] done; leaf 1 [1 0] done; leaves 2 more no', 0, complete) for complete in (False, True)),
    SampleRow(EMPTY, 'slots:1', 'leaf 0 [] done; leaves 1 more no', 0, complete=True))
# What takes the model long, and is asked of programs alone: all orders of the matches of four races, one more race, and all four in pieces
# of which most have no end.
LONG_CHECKS = (
    CheckRow(FOUR_RACES, Asked(group=True, runs=65536, split=0), 'end 0 leaves 40320 first 0 done; leaves 40320 more no', 0),
    CheckRow(FOUR_RACES, Asked(group=True, runs=40319, split=0, complete=True), 'end 0 leaves 40319 first 0 done; leaves 40319 more yes', 4),
    CheckRow(Races(5).script(), ENDS._replace(group=True, complete=True), 'end 0 leaves 32 first 0 done; leaves 32 more no', 0),
    CheckRow(Races(5).script(), ENDS._replace(group=True, runs=31, split=0, complete=True), 'end 0 leaves 31 first 0 done; leaves 31 more yes', 4),
    *(CheckRow(FOUR_RACES, ENDS._replace(split=split, complete=True), BY_FOUR, 0) for split in (1, 2, 3)))


class WordsRow(NamedTuple):
    """A script (None: no file), choices, the steps of their run, or what is said on standard error, and its status; a mode, fuel, and whether
    the choices are along the wide walk."""
    script: Optional[str]
    choices: str
    steps: str
    errors: str = ''
    mode: Optional[str] = None
    fuel: Optional[int] = None
    status: int = 2
    ends: bool = False

    def case(self):
        return Words(None if self.script is None else self.script.encode(), self.choices, self.mode, self.fuel, ends=self.ends)

    def wanted(self):
        if self.errors:
            return Result(b'', f'mpdbg: {self.errors}\n'.encode(), self.status)
        return Result(''.join(f'{step}\n' for step in self.steps.split(', ') if step).encode(), b'', 0)


def bad(script, choices, place, **more):
    """A row of choices that no run has."""
    return WordsRow(script, choices, '', f'bad choices at {place}', **more)


def along(script, choices, steps, **more):
    """A row of a run along the wide walk."""
    return WordsRow(script, choices, steps, ends=True, **more)


def bad_along(script, choices, place, **more):
    """A row of choices that no run along the wide walk has."""
    return bad(script, choices, place, ends=True, **more)


# The ten steps of ORDER_DECIDES that are forced.
UP_TO_ORDER = 'local 0, local 0, local 0, local 0, local 1, local 1, local 2, local 2, match 1.0 0.0, wake 1'
FIRST_ORDER = f'{UP_TO_ORDER}, wakeany 0 0, local 0, match 2.0 0.1, wake 2'
FIRST_OF_THREE = f'{SIX}, match 1.0 0.0, wake 0, local 0, wake 1, match 2.0 0.1, wake 0, wake 2'
ROUND = 'local 0, local 0, local 0, match 0.{} 0.{}, wake 0'
WORDS = (
    WordsRow(THREE, '1', STUCK), WordsRow(THREE, '0', FIRST_OF_THREE), WordsRow(THREE, '1', STUCK, mode=RENDEZVOUS), WordsRow(EMPTY, '', ''),
    WordsRow(HEAD_TO_HEAD, '', 'local 0, local 1'), WordsRow(THREE, '01', STUCK), WordsRow(THREE, '000000001', STUCK),
    # a run that is cut, to where its fuel is used up
    WordsRow(THREE, '', SIX, fuel=6), WordsRow(THREE, '', 'local 0, local 0, local 1, local 1, local 2', fuel=5),
    WordsRow(THREE, '0', f'{SIX}, match 1.0 0.0', fuel=7),
    WordsRow(THREE, '1', STUCK, fuel=10), WordsRow(THREE, '1', STUCK.removesuffix(', wake 2'), fuel=9),
    WordsRow(TO_ITSELF, '0 0', f'{ROUND.format(0, 1)}, {ROUND.format(2, 3)}, local 0, local 0, local 0', fuel=13),
    WordsRow(TO_ITSELF, '0  0   0', f'{ROUND.format(0, 1)}, {ROUND.format(2, 3)}, {ROUND.format(4, 5).removesuffix(", wake 0")}', fuel=14),
    bad(TO_ITSELF, '0 0', 2, fuel=14), bad(TO_ITSELF, '0 0 0', 2, fuel=13), bad(TO_ITSELF, '0 1 0', 1, fuel=14),
    bad(TO_ITSELF, '0 0 0 0', 3, fuel=14),
    # fewer than the run has, more, and candidates that are not there
    bad(THREE, '', 0), bad(THREE, '2', 0), bad(THREE, '999999999', 0), bad(THREE, '0 0', 1), bad(THREE, '1 0', 1), bad(THREE, '0', 0, fuel=6),
    bad(BOTH_ANY, '0', 1), bad(BOTH_ANY, '1 1', 1), bad(BOTH_ANY, '2 0', 0), bad(BOTH_ANY, '0 0 0', 2), bad(EMPTY, '0', 0),
    bad(HEAD_TO_HEAD, '0 0', 0),
    bad(TWO_REQUESTS, '0 0', 0), WordsRow(TWO_REQUESTS, '', 'local 0, local 0, local 0'),
    WordsRow(TWO_REQUESTS, '1 0', 'local 0, local 0, local 0, wakeany 0 1, local 0, wakeany 0 0', mode=BUFFERED),
    bad(TWO_REQUESTS, '1 1', 1, mode=BUFFERED),
    # runs that sleep are runs, too
    WordsRow(TWO_RACES, '2 0',
             ', '.join([*(f'local {rank}, local {rank}' for rank in range(6)), 'match 4.0 3.0, wake 3, wake 4, match 1.0 0.0, wake 0, wake 1'])),
    # along the wide walk, and the same choices along decisions; where neither a waitany nor a slot is, both are the same
    along(ORDER_DECIDES, '0 0', FIRST_ORDER), WordsRow(ORDER_DECIDES, '0 0', FIRST_ORDER),
    along(ORDER_DECIDES, '1 1', f'{UP_TO_ORDER}, match 2.0 0.1, wake 2, wakeany 0 1, local 0'), bad(ORDER_DECIDES, '1 1', 0),
    along(ORDER_DECIDES, ' 1  01', f'{UP_TO_ORDER}, match 2.0 0.1, wake 2, wakeany 0 1, local 0'),
    along(ORDER_DECIDES, '1 0', f'{UP_TO_ORDER}, match 2.0 0.1, wake 2, wakeany 0 0, local 0'), bad(ORDER_DECIDES, '1 0', 0),
    *(bad_along(ORDER_DECIDES, choices, place) for choices, place in (
        ('', 0), ('0', 1), ('1', 1), ('2', 0), ('0 1', 1), ('1 2', 1), ('0 0 0', 2), ('1 1 0', 2))),
    along(ORDER_DECIDES, '1', f'{UP_TO_ORDER}, match 2.0 0.1', fuel=11), along(ORDER_DECIDES, '1', f'{UP_TO_ORDER}, match 2.0 0.1, wake 2', fuel=12),
    along(ORDER_DECIDES, '', UP_TO_ORDER, fuel=10), bad_along(ORDER_DECIDES, '1', 0, fuel=10), bad_along(ORDER_DECIDES, '1 1', 1, fuel=12),
    along(FREED_SLOT, '0 0', FREED_STUCK, mode='slots:1'), along(FREED_SLOT, '1', FREED_LEFT, mode='slots:1'),
    WordsRow(FREED_SLOT, '', 'local 0, local 0, local 0, local 0, local 1, local 1, match 0.0 1.0, wake 1', mode='slots:1'),
    *(bad(FREED_SLOT, choices, 0, mode='slots:1') for choices in ('1', '0', '0 0')),
    *(bad_along(FREED_SLOT, choices, place, mode='slots:1') for choices, place in (('', 0), ('0', 1), ('0 1', 1), ('1 0', 1), ('2', 0))),
    along(FREED_SLOT, '1', 'local 0, local 0, local 1, local 1, match 0.0 1.0', mode='slots:1', fuel=5),
    along(FREED_SLOT, '0', 'local 0, local 0, local 1, local 1, local 0, local 0', mode='slots:1', fuel=6),
    along(FREED_SLOT, '', 'local 0, local 0, local 0, local 0, local 1, local 1, match 0.0 1.0, wake 1'), bad_along(FREED_SLOT, '1', 0),
    along(FREED_SLOT, '0', 'local 0, local 0, local 0, local 0, local 1, local 1, wake 0, match 0.0 1.0, wake 1', mode='slots:2'),
    along(THREE, '1', STUCK), along(THREE, '0', FIRST_OF_THREE), bad_along(THREE, '2', 0), along(EMPTY, '', ''),
    along(TWO_REQUESTS, '1 0', 'local 0, local 0, local 0, wakeany 0 1, local 0, wakeany 0 0', mode=BUFFERED),
    along(BOTH_WAIT, '2 0', 'local 0, local 0, local 0, local 1, local 1, local 1, match 0.0 0.1, match 1.0 1.1, wakeany 1 0, local 1, wakeany 0 0, local 0'),
    bad(BOTH_WAIT, '2 0', 0), WordsRow(None, '0', '', 'bad mode', mode='fast', ends=True), WordsRow(None, '9', '', 'device', status=3, ends=True),
    # the mode comes before the file, that before the script, and that before the choices
    WordsRow(THREE, '2', '', 'bad mode', mode='fast'), WordsRow(None, '0', '', 'bad mode', mode='fast'), WordsRow(None, '9', '', 'device', status=3),
    WordsRow('mpd 1;ranks 1;print', '9', '', 'script refused 4 expected at 19 line 1'))

# Runs of 100,000 steps, where no fuel is named, and of as many steps as there may be; of programs alone.
LONG_WORDS = (
    WordsRow(counting(49999, 'recv i from 0 tag 0;'), '', ', '.join(['local 0'] * 100000)),
    WordsRow(counting(49999, 'print 1; recv i from 0 tag 0;'), '', ', '.join(['local 0'] * 100000)),
    bad(counting(49999, 'recv i from 0 tag 0;'), '0', 0), WordsRow(ON_AND_ON, '', ', '.join(['local 0'] * 1000000), fuel=1000000))

# Wrong words of `check` and of `verify`, which are tested before the mode, which is wrong too.
MISTAKES_OF_CHECK = ('--ends --ends', '--ends 1', '--ends=yes', '--ends=', '--group --group', '--group 1', '--group=no', '--Ends', '--end')
MISTAKES_OF_VERIFY = ('--leaf', '--leaf -1', '--leaf x', '--leaf 1.0', '--leaf 0 --leaf 0', '--leaf 67108864', '--leaf=', '--leaf 0 1', '--leaves 0')
# Wrong words: choices that are no numbers, and options; they are tested before the mode, which is wrong too.
MISTAKES = (('--choices', '0,1'), ('--choices', 'x'), ('--choices', '-1'), ('--choices=-1',), ('--choices', '+1'), ('--choices', '1000000000'),
            ('--choices', '0 0000000000'), ('--choices', '[0]'), ('--choices', '0.0'), ('--choices', '0\t0'), ('--choices', '0\n'), (),
            ('--choices',), ('--choices', '0', '--choices', '0'), ('--choices', '0', '--fuel', '0'), ('--choices', '0', '--fuel', '1000001'),
            ('--choices', '0', '--fuel', 'x'),
            ('--choices', '0', '--runs', '5'), ('--choices', '0', '--witness'), ('--choices', '0', 'more'), ('--choices', '0', '1'), ('--ends',),
            ('--choices', '0', '--ends', '--ends'), ('--choices', '0', '--ends=1'), ('--choices', '0', '--ends='), ('--choices', '0', '--end'),
            ('--choices', '--ends'))


class LeafRow(NamedTuple):
    """A script, the text of a report, a leaf or None, what `verify` answers (None: it has no such witness), and the mode."""
    script: str
    text: str
    leaf: Optional[int]
    output: Optional[str]
    mode: Optional[str] = None

    def case(self):
        return Verification(self.script.encode(), self.text.encode(), self.mode, leaf=self.leaf)

    def wanted(self):
        if self.output is None:
            return Result(b'', b'mpdbg: bad witness\n', 2)
        return Result(f'{self.output}\n'.encode(), b'', 0 if self.output == 'accepted' else 1)


# One of two messages is received, and the other sender waits for ever.
ONE_OF_TWO = 'mpd 1; ranks 3; var x;\nif rank == 0 { recv x from any tag any; } else { send rank to 0 tag 0; }'
LEAVES_OF_TWO = (('leaf 0 [0] deadlock 2.0', f'witness 0: {SIX}, match 1.0 0.0, wake 0, wake 1'),
                 ('leaf 1 [1] deadlock 1.0', f'witness 1: {SIX}, match 2.0 0.0, wake 0, wake 2'))
LAST = 'leaves 2 more no'


def lines(*parts):
    """The text of these lines."""
    return ''.join(f'{line}\n' for line in parts)


BOTH = lines(*LEAVES_OF_TWO[0], *LEAVES_OF_TWO[1], LAST)
ONE_DONE = lines(*WITNESSED.split('; '))
EXPLAINED = lines(*LEAVES_OF_TWO[0], '  rank 2, line 2, waits in 2.0 send to 0 tag 0 value 2',
                  '  rank 2 waits for nobody who is left: rank 0 has ended', *LEAVES_OF_TWO[1],
                  '  rank 1, line 2, waits in 1.0 send to 0 tag 0 value 1', '  witness 0: local 0', '  leaf 7 [] deadlock 0.0', LAST)
WITH_TEN = lines('leaf 1 [1] done', 'leaf 10 [0] deadlock 2.0', LEAVES_OF_TWO[0][1].replace('witness 0', 'witness 10'), 'leaves 11 more no')
ENDS_OF_TWO = (('end 1 leaves 2 first 3 deadlock 2.0', LEAVES_OF_TWO[0][1].replace('witness 0', 'witness 3')),
               ('end 2 leaves 1 first 5 deadlock 1.0', LEAVES_OF_TWO[1][1].replace('witness 1', 'witness 5')))
GROUPED = lines('end 0 leaves 3 first 0 done', *ENDS_OF_TWO[0], '  said of it', *ENDS_OF_TWO[1], 'leaves 6 more no')
SOLE_END = lines('end 0 leaves 3 first 0 done', *ENDS_OF_TWO[0], '  said of it', 'end 2 leaves 1 first 5 cut', 'leaves 6 more yes')
LEAVES = (
    LeafRow(ONE_OF_TWO, BOTH, 0, 'accepted'), LeafRow(ONE_OF_TWO, BOTH, 1, 'accepted'), LeafRow(ONE_OF_TWO, EXPLAINED, 0, 'accepted'),
    LeafRow(ONE_OF_TWO, EXPLAINED, 1, 'accepted'), LeafRow(THREE, ONE_DONE, 1, 'accepted'), LeafRow(THREE, ONE_DONE, None, 'accepted'),
    LeafRow(ONE_OF_TWO, lines(*LEAVES_OF_TWO[0], LEAVES_OF_TWO[1][0], LAST), None, 'accepted'),
    LeafRow(ONE_OF_TWO, lines(LEAVES_OF_TWO[0][0], '  said of it', *LEAVES_OF_TWO[1], '  said of it', LAST), None, 'accepted'),
    LeafRow(ONE_OF_TWO, lines(*LEAVES_OF_TWO[0]), 0, 'accepted'),
    # a leaf that has none, several and none named, no leaf of that number, none right behind
    LeafRow(THREE, ONE_DONE, 0, None), LeafRow(THREE, ONE_DONE, 2, None), LeafRow(ONE_OF_TWO, BOTH, None, None),
    LeafRow(ONE_OF_TWO, EXPLAINED, None, None),
    LeafRow(ONE_OF_TWO, BOTH, 2, None), LeafRow(ONE_OF_TWO, BOTH, 7, None),
    LeafRow(ONE_OF_TWO, lines(LEAVES_OF_TWO[0][0], LEAVES_OF_TWO[1][0], LAST), None, None),
    LeafRow(ONE_OF_TWO, lines(LEAVES_OF_TWO[0][0], *LEAVES_OF_TWO[1], LAST), 0, None),
    LeafRow(ONE_OF_TWO, lines(LEAVES_OF_TWO[0][0], '  x', LEAVES_OF_TWO[0][1], LAST), 0, None),
    LeafRow(EMPTY, lines('leaf 0 [] done', 'leaves 1 more no'), None, None), LeafRow(EMPTY, lines('leaf 0 [] done', 'leaves 1 more no'), 0, None),
    LeafRow(EMPTY, lines('leaves 0 more no'), None, None),
    LeafRow(ONE_OF_TWO, lines(LEAVES_OF_TWO[0][0], '  x', LEAVES_OF_TWO[0][1], *LEAVES_OF_TWO[1], LAST), None, None),
    *(LeafRow(ONE_OF_TWO, WITH_TEN, leaf, wanted) for leaf, wanted in ((10, 'accepted'), (1, None), (0, None), (100, None))),
    # other steps, other calls, of the leaf that is named alone
    LeafRow(ONE_OF_TWO, BOTH.replace('wake 0, wake 2', 'wake 0'), 0, 'accepted'),
    LeafRow(ONE_OF_TWO, BOTH.replace('wake 0, wake 2', 'wake 0'), 1, 'refused 33 not-stuck'),
    LeafRow(ONE_OF_TWO, BOTH.replace('match 1.0 0.0', 'match 1.0 0.1'), 0, 'refused 32 no-such-step at 6'),
    LeafRow(ONE_OF_TWO, BOTH.replace('match 1.0 0.0', 'match 1.0 0.1'), 1, 'accepted'),
    LeafRow(ONE_OF_TWO, BOTH.replace('deadlock 2.0', 'deadlock 1.0'), 0, 'refused 34 wrong-blocked'),
    LeafRow(ONE_OF_TWO, BOTH.replace('deadlock 2.0', 'deadlock 1.0'), 1, 'accepted'),
    # the mode
    LeafRow(ONE_OF_TWO, BOTH, 0, 'refused 33 not-stuck', BUFFERED), LeafRow(ONE_OF_TWO, BOTH, 0, 'accepted', RENDEZVOUS),
    # leaves that are grouped: that of an end is its first, and its own number is none of a leaf
    *(LeafRow(ONE_OF_TWO, GROUPED, leaf, wanted) for leaf, wanted in ((3, 'accepted'), (5, 'accepted'), (0, None), (1, None), (2, None), (4, None), (None, None))),
    *(LeafRow(ONE_OF_TWO, SOLE_END, leaf, wanted) for leaf, wanted in ((3, 'accepted'), (None, 'accepted'), (1, None), (0, None), (2, None))),
    LeafRow(ONE_OF_TWO, SOLE_END.replace('witness 3', 'witness 1'), 3, None), LeafRow(ONE_OF_TWO, SOLE_END.replace('witness 3', 'witness 1'), 1, None),
    LeafRow(ONE_OF_TWO, SOLE_END.replace('witness 3', 'witness 1'), None, None),
    LeafRow(ONE_OF_TWO, lines(*ENDS_OF_TWO[0]), 3, 'accepted'), LeafRow(ONE_OF_TWO, lines(*ENDS_OF_TWO[0]), 1, None),
    LeafRow(ONE_OF_TWO, lines(*ENDS_OF_TWO[0]), None, 'accepted'), LeafRow(ONE_OF_TWO, GROUPED, 3, 'refused 33 not-stuck', BUFFERED),
    LeafRow(ONE_OF_TWO, GROUPED.replace('deadlock 1.0', 'deadlock 2.0'), 5, 'refused 34 wrong-blocked'),
    LeafRow(ONE_OF_TWO, GROUPED.replace('match 2.0 0.0', 'match 2.0 0.1'), 5, 'refused 32 no-such-step at 6'),
    # a line of an end is wrong where a word or a number of its three is not there, or another blank is
    *(LeafRow(ONE_OF_TWO, SOLE_END.replace('end 1 leaves 2 first 3', other), 3, None) for other in (
        'end leaves 2 first 3', 'end 1 first 3', 'end 1 leaves first 3', 'end 1 leaves 2', 'end 1 leaves 2 3', 'end 1 leaves 2  first 3', 'end x leaves 2 first 3',
        'end 1 leaves x first 3', 'end 1 leaves 2 first x', 'ends 1 leaves 2 first 3', ' end 1 leaves 2 first 3', 'end 1 leaf 2 first 3',
        'end 1 leaves 2 firsts 3', 'end 1 leaves 2 first 0000000003')),
    *(LeafRow(ONE_OF_TWO, SOLE_END.replace('end 1 leaves 2 first 3', other), 3, 'accepted') for other in (
        'end 7 leaves 2 first 3', 'end 1 leaves 999999999 first 3', 'end 0001 leaves 02 first 03')))


# As many bytes as a report may have, and one more; of programs alone.
LONG_LEAVES = (LeafRow(ONE_OF_TWO, BOTH.ljust(LONGEST, '\n'), 1, 'accepted'), LeafRow(ONE_OF_TWO, BOTH.ljust(LONGEST + 1, '\n'), 1, None))


def said_problem(row):
    """What is answered otherwise than a row wants; None where nothing is."""
    said, wanted = row.case().wanted(), row.wanted()
    if getattr(row, 'output', '') is None:
        return None if (said.output, said.status) == (b'', 2) and said.errors.startswith(b'mpdbg: bad witness') else f'{said}'
    return None if said == wanted else f'{said}'


def sample_problem(row):
    """What is listed of runs that are drawn otherwise than a row wants, by either generator; None where nothing is."""
    asked, script = row.case(), read_script(row.script.encode())
    said, drawn = samples.answer(asked), sampler.sampled(Debugger(script, row.mode or RENDEZVOUS), asked.count, USUAL.fuel, asked.seed, asked.until)
    return None if (said, drawn) == (row.wanted(), samples.sampled(asked)) else f'{said}, or {drawn}'


def problems():
    """The name of each row, with what is wrong in it, or None."""
    return ([(f'check {row.script} {row.asked}', check_problem(row)) for row in CHECKS]
            + [(f'sample of {row.script} {row.mode}', sample_problem(row)) for row in SAMPLES]
            + [(f'words {row.script} {row.choices!r} {row.mode} {row.fuel}', said_problem(row)) for row in WORDS]
            + [(f'verify {row.script} --leaf {row.leaf}: {row.text[:300]!r}', said_problem(row)) for row in LEAVES]
            + [(f'choices {words}', None if Words(b'', words[1]).wanted() == WRONG_WORDS else 'they are choices') for words in MISTAKES[:11]
               if len(words) == 2])
