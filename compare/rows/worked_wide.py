"""Worked rows of the wide walk, worked out by hand from its rules (compare/model/wide.py); compare/runs/worked.py compares them.

Of each script the ways with sleep sets are told, a dead way as `asleep`, then the leaves without sleep sets, those of the walk along
decisions, and the ways by the sharper rule, where they are others; and how many different ends the leaves have. Above each group stands
what was written down by hand: which steps are forced, which are candidates, and which of these sleep.
"""

from itertools import chain
from typing import NamedTuple, Optional

from model import explorer, wide
from model.complete import end_of, key
from model.debugger import BUFFERED, RENDEZVOUS, first_world, step_text
from model.language import read_script
from rows.worked_slots import EARLY_OR_LATE

ENOUGH = 1000


class WideRow(NamedTuple):
    """A script in a mode: the ways of its wide walk with sleep sets, how many different ends these have, its leaves without sleep sets, those of
    the walk along decisions, and the ways by the sharper rule; what is None is as the ways are, without those that are dead in leaves."""
    script: str
    mode: str
    ways: str
    ends: int
    plain: Optional[str] = None
    walk: Optional[str] = None
    sharper: Optional[str] = None
    fuel: int = ENOUGH


class StepsRow(NamedTuple):
    """A script in a mode, and the steps of one of its ways, which is told by its choices."""
    script: str
    mode: str
    choices: tuple
    steps: str


# Rank 0 waits for any of a message of any source and one of rank 1; it hangs if it goes on by the first.
HANGS = ('mpd 2; ranks 2; var x; var y; var i; req r[2];\n'
         'if rank == 0 { irecv r[0] x from any tag 0; irecv r[1] y from 1 tag 1; waitany r to i; if i == 0 { recv y from 1 tag 9; } }\n'
         'else { isend r[0] 6 to 0 tag 1; isend r[1] 5 to 0 tag 0; }')
# Two waits for any, which go on by two requests in either order, and come to one end.
EITHER = ('mpd 2; ranks 2; var x; var y; var i; req r[2];\n'
          'if rank == 0 { irecv r[0] x from 1 tag 0; irecv r[1] y from 1 tag 1; waitany r to i; waitany r to i; i = 0; }\n'
          'else { isend r[0] 5 to 0 tag 0; isend r[1] 6 to 0 tag 1; }')
# Each of two ranks waits for any of a single request.
EACH_ONE = 'mpd 2; ranks 2; var i; req r;\nisend r 1 to rank tag 0; waitany r to i;'
# Rank 0 waits for nothing, and rank 1 for a single request.
NOTHING_BESIDE = 'mpd 2; ranks 2; var i; req r;\nif rank { isend r 1 to 1 tag 0; } waitany r to i;'
# Two races that share no call, each of one sender.
TWO_PAIRS = 'mpd 1; ranks 4; var x;\nif rank < 2 { recv x from any tag 0; } else { send rank to rank - 2 tag 0; }'
# A rank that sends, and then does something else.
SENT_AND = 'mpd 1; ranks 2; var x;\nif rank == 0 { send 7 to 1 tag 0; STATEMENT } else { recv x from 0 tag 0; }'
# A rank that has a message to itself on its way, and runs one more statement.
ONE_ON_ITS_WAY = 'mpd 1; ranks 1; var x; req r[3];\nisend r[0] 1 to 0 tag 0; irecv r[1] x from 0 tag 0; STATEMENT'
# Rank 1 has ended only after it has received of any source; its own message may have been received before.
ENDS_LATER = ('mpd 1; ranks 3; var x;\nif rank == 0 { recv x from 1 tag 0; } '
              'else { if rank == 1 { send 7 to 0 tag 0; recv x from any tag 1; } else { send 8 to 1 tag 1; } }')
# The same, and then it sends once more, to nobody who receives that.
SENDS_LATER = ENDS_LATER.replace('recv x from any tag 1;', 'recv x from any tag 1; send 9 to 0 tag 1;')


def with_statement(script, statement):
    return script.replace('STATEMENT', statement)


ROWS = (
    # All local steps are forced: rank 0 is at its waitany, 0.2, and rank 1 has ended. Of match 1.1 0.0 and match 1.0 0.1, which stand in
    # this order, the second names its source, and is forced. Candidates then: 0 wakeany 0 1, 1 match 1.1 0.0.
    #   0: i is 1, the `if` is passed by, rank 0 has ended. A choice of one: 0 match 1.1 0.0. All done.
    #   1: wakeany 0 1 is asleep, and a match doesn't wake it. Candidates: 0 wakeany 0 0, 1 wakeany 0 1.
    #      0: i is 0, and rank 0 waits for tag 9, call 0.3. Deadlock.   1: asleep; without sleep sets: i is 1, all done.
    # The walk along decisions has the waitany as a choice of one, since the match of any source comes last: 0 wakeany 0 1, 0 match.
    WideRow(HANGS, RENDEZVOUS, '[0 0] done; [1 0] deadlock 0.3', 2, plain='[0 0] done; [1 0] deadlock 0.3; [1 1] done', walk='[0 0] done'),
    # Forced: local 0 twice (the `if`, the isend, which gets the slot), local 1 twice, since the next local 0, a standard send, lacks a slot.
    # Candidates: 0 local 0, 1 match 0.0 1.0, which names its source, and whose send holds the slot.
    #   0: 0.1 is not buffered, and rank 0 is blocked on it. A choice of one: 0 match 0.0 1.0. Wake 1. Deadlock 0.1.
    #   1: local 0 was asleep and wakes, since it conflicts with the match. It has a slot now, and is forced; wake 0, wake 1. Left: 0.1.
    WideRow(EARLY_OR_LATE, 'slots:1', '[0 0] deadlock 0.1; [1] leftovers 0.1', 2, walk='[] deadlock 0.1'),
    # The same with one slot more, where no send lacks one: local 0 three times, local 1 twice, wake 0. A choice of one: match 0.0 1.0, whose
    # send holds a slot; by the sharper rule it is forced, since rank 0 has ended.
    WideRow(EARLY_OR_LATE, 'slots:2', '[0] leftovers 0.1', 1, walk='[] leftovers 0.1', sharper='[] leftovers 0.1'),
    # Without buffers, or with a buffer for each send, all is forced.
    WideRow(EARLY_OR_LATE, RENDEZVOUS, '[] deadlock 0.1', 1), WideRow(EARLY_OR_LATE, 'slots:0', '[] deadlock 0.1', 1),
    WideRow(EARLY_OR_LATE, BUFFERED, '[] leftovers 0.1', 1),
    # With fuel for the four forced steps alone it is cut at the choice; with one step more after each candidate.
    WideRow(EARLY_OR_LATE, 'slots:1', '[] cut', 1, walk='[] cut', fuel=4), WideRow(EARLY_OR_LATE, 'slots:1', '[0] cut; [1] cut', 2, walk='[] cut', fuel=5),
    # Both matches name their source and are forced. Candidates: 0 wakeany 0 0, 1 wakeany 0 1.
    #   0: the next waitany is forced; a choice of one: 0 wakeany 0 1; i is 0.
    #   1: wakeany 0 0 was asleep and wakes, since it is of the same rank; so 0 wakeany 0 0 after the next waitany; i is 0. The same end.
    # By the sharper rule the second waitany has one request left, and its wake is forced.
    WideRow(EITHER, RENDEZVOUS, '[0 0] done; [1 0] done', 1, sharper='[0] done; [1] done'),
    # All four local steps are forced. Candidates: 0 wakeany 0 0, 1 wakeany 1 0.
    #   0: rank 0 has ended; a choice of one: 0 wakeany 1 0. Both messages are left.
    #   1: wakeany 0 0 is asleep, and is all that is enabled: a dead way.
    # The walk along decisions answers rank 0 and then rank 1. By the sharper rule both are forced.
    WideRow(EACH_ONE, BUFFERED, '[0 0] leftovers 0.0 1.0; [1] asleep', 1, plain='[0 0] leftovers 0.0 1.0; [1 0] leftovers 0.0 1.0',
            walk='[0 0] leftovers 0.0 1.0', sharper='[] leftovers 0.0 1.0'),
    # Where no fuel is left, it is cut and not dead.
    WideRow(EACH_ONE, BUFFERED, '[0] cut; [1] cut', 2, walk='[0] cut', sharper='[] cut', fuel=5),
    # The waitany of rank 0 is for nothing: its wake is quiet, and forced before wakeany 1 0 is a choice of one.
    WideRow(NOTHING_BESIDE, BUFFERED, '[0] leftovers 1.0', 1, sharper='[] leftovers 1.0'),
    # All local steps are forced. Candidates: 0 match 2.0 0.0, 1 match 3.0 1.0.
    #   0: wake 0, wake 2; a choice of one: 0 match 3.0 1.0; wake 1, wake 3.
    #   1: match 2.0 0.0 is asleep; wake 1 and wake 3 are forced, and wake nothing: a dead way.
    WideRow(TWO_PAIRS, RENDEZVOUS, '[0 0] done; [1] asleep', 1, plain='[0 0] done; [1 0] done', walk='[0 0] done; [1 0] done'),
    # Rank 0 has ended, or traps, once its send is buffered: a choice of one, which the sharper rule forces. If it is blocked it doesn't.
    WideRow(with_statement(SENT_AND, ''), 'slots:1', '[0] done', 1, walk='[] done', sharper='[] done'),
    WideRow(with_statement(SENT_AND, 'assert 0;'), 'slots:1', '[0] trap 0 assert', 1, walk='[] trap 0 assert', sharper='[] trap 0 assert'),
    WideRow(with_statement(SENT_AND, 'recv x from 1 tag 9;'), 'slots:1', '[0] deadlock 0.1', 1, walk='[] deadlock 0.1'),
    WideRow(with_statement(SENT_AND, ''), RENDEZVOUS, '[] done', 1), WideRow(with_statement(SENT_AND, ''), BUFFERED, '[] done', 1),
    # Two local steps are forced. A synchronous send takes no slot, and one that traps is none: both are forced, and then the match is a
    # choice of one, by the sharper rule forced. A standard send is a candidate, 0 local 0, beside 1 match 0.0 0.1.
    #   0: it isn't buffered, and the rank has ended; a choice of one: 0 match 0.0 0.1, by the sharper rule forced.   1: it is buffered, forced.
    # In the end 0.2 is left in both, buffered in one of them.
    WideRow(with_statement(ONE_ON_ITS_WAY, 'issend r[2] 2 to 0 tag 1;'), 'slots:1', '[0] leftovers 0.2', 1, walk='[] leftovers 0.2',
            sharper='[] leftovers 0.2'),
    WideRow(with_statement(ONE_ON_ITS_WAY, 'isend r[2] 2 to size tag 1;'), 'slots:1', '[0] trap 0 bad-rank', 1, walk='[] trap 0 bad-rank',
            sharper='[] trap 0 bad-rank'),
    WideRow(with_statement(ONE_ON_ITS_WAY, 'isend r[2] 2 to 0 tag 1;'), 'slots:1', '[0 0] leftovers 0.2; [1] leftovers 0.2', 2,
            walk='[] leftovers 0.2', sharper='[0] leftovers 0.2; [1] leftovers 0.2'),
    WideRow(with_statement(ONE_ON_ITS_WAY, 'isend r[2] 2 to 0 tag 1;'), 'slots:2', '[0] leftovers 0.2', 1, walk='[] leftovers 0.2',
            sharper='[] leftovers 0.2'),
    *(WideRow(with_statement(ONE_ON_ITS_WAY, 'isend r[2] 2 to 0 tag 1;'), mode, '[] leftovers 0.2', 1) for mode in (RENDEZVOUS, 'slots:0', BUFFERED)),
    # Local steps and the wakes of ranks 1 and 2 are forced: rank 1 waits for any source, call 1.1. Candidates: 0 match 1.0 0.0, whose send
    # holds a slot, 1 match 2.0 1.1.
    #   0: wake 0; a choice of one: 0 match 2.0 1.1; wake 1. All done.
    #   1: match 1.0 0.0 is asleep; wake 1, and rank 1 has ended: a dead way. By the sharper rule match 1.0 0.0 is forced now, and asleep.
    WideRow(ENDS_LATER, 'slots:1', '[0 0] done; [1] asleep', 1, plain='[0 0] done; [1 0] done', walk='[0] done',
            sharper='[0 0] done; [1] asleep'),
    # The same forced steps and candidates: 0 match 1.0 0.0, 1 match 2.0 1.1; rank 1 is blocked, so the sharper rule knows no more.
    #   0: wake 0; a choice of one: 0 match 2.0 1.1; wake 1; call 1.2 has the slot, and is buffered; wake 1. It is left.
    #   1: match 1.0 0.0 is asleep; wake 1. The next local 1 lacks a slot. Candidates: 0 local 1, 1 match 1.0 0.0.
    #      0: match 1.0 0.0 wakes, since it gives a slot back to rank 1, which is blocked on 1.2. A choice of one: 0 match 1.0 0.0; wake 0. Deadlock.
    #      1: asleep; without sleep sets: local 1 has a slot then, and is forced: left, as above.
    WideRow(SENDS_LATER, 'slots:1', '[0 0] leftovers 1.2; [1 0 0] deadlock 1.2', 2, plain='[0 0] leftovers 1.2; [1 0 0] deadlock 1.2; [1 1] leftovers 1.2',
            walk='[0] leftovers 1.2'))

STEPS = (
    StepsRow(EARLY_OR_LATE, 'slots:1', (0, 0), 'local 0, local 0, local 1, local 1, local 0, match 0.0 1.0, wake 1'),
    StepsRow(EARLY_OR_LATE, 'slots:1', (1,), 'local 0, local 0, local 1, local 1, match 0.0 1.0, local 0, wake 0, wake 1'),
    StepsRow(HANGS, RENDEZVOUS, (1, 0), 'local 0, local 0, local 0, local 0, local 1, local 1, local 1, match 1.0 0.1, match 1.1 0.0, '
             'wakeany 0 0, local 0, local 0'),
    StepsRow(ENDS_LATER, 'slots:1', (1,), 'local 0, local 0, local 1, local 1, local 1, local 2, local 2, local 2, wake 1, local 1, wake 2, match 2.0 1.1, '
             'wake 1'))


def told(leaves):
    """The text of leaves: of each its choices, and how it ends."""
    return '; '.join(f'[{" ".join(map(str, leaf.choices))}] {leaf.outcome}' for leaf in leaves)


def leaves_of(ways):
    return [leaf for leaf in ways if leaf.outcome != wide.ASLEEP]


def row_problem(row):
    """What the wide walk of a script is otherwise than a row wants; None where nothing is."""
    start = first_world(read_script(row.script.encode()), row.mode)
    ways = list(wide.wide_ways(start, row.fuel))
    alive = '; '.join(way for way in row.ways.split('; ') if not way.endswith(wide.ASLEEP))
    pairs = (
        ('ways', told(ways), row.ways),
        ('plain', told(wide.wide_walk(start, row.fuel)), alive if row.plain is None else row.plain),
        ('walk', told(explorer.walk(start, row.fuel)), alive if row.walk is None else row.walk),
        ('sharper', told(wide.wide_ways(start, row.fuel, sharper=True)), row.ways if row.sharper is None else row.sharper),
        ('ends', len({key(end_of(start, leaf.steps)) for leaf in leaves_of(ways)}), row.ends))
    return '; '.join(f'{name}: {said}' for name, said, wanted in pairs if said != wanted) or None


def steps_problem(row):
    """What the steps of a way are otherwise than a row wants; None where nothing is."""
    start = first_world(read_script(row.script.encode()), row.mode)
    found = [', '.join(map(step_text, leaf.steps)) for leaf in wide.wide_ways(start, ENOUGH) if leaf.choices == row.choices]
    return None if found == [row.steps] else f'{found}'


def problems():
    """The name of each row, with what is wrong in it, or None."""
    return list(chain(((f'the wide walk of {row.script} ({row.mode}, fuel {row.fuel})', row_problem(row)) for row in ROWS),
                      ((f'the way {row.choices} of {row.script} ({row.mode})', steps_problem(row)) for row in STEPS)))
