"""Worked rows of checks by pieces: splits, the number of pieces, one of them alone, workers, and a check up to its first deadlock.

Each was worked out by hand from the rules (docs/DEFINITIONS.md, "Pieces"; docs/FORMATS.md, "Reports"). compare/runs/worked.py has the model
answer them, and compare/runs/explore.py a program.
"""

from itertools import groupby, islice, permutations

from model.debugger import BUFFERED, RENDEZVOUS
from model.explorer import Asked
from rows.worked_explorer import BOTH_ANY, BY_VALUE, LOW_WANTED, OF_THREE, SIX, STUCK, TO_ITSELF, WITNESSED, CheckRow, check_problem, gathered_by, gathering
from rows.worked_runs import EMPTY, ON_AND_ON, THREE, UNRECEIVED

# Fifteen senders of three messages to one rank, which receives three.
SIXTEEN = ('mpd 1; ranks 16; var x; var i;\n'
           'while i < 3 { if rank == 0 { recv x from any tag any; } else { send i to 0 tag 0; } i = i + 1; }')
# Whether rank 0 has one choice or three hangs on what it receives first.
ONE_OR_THREE = ('mpd 1; ranks 4; var x; req r;\n'
                'if rank == 0 { recv x from any tag any; STATEMENT\n'
                'if x == 1 { recv x from any tag any; recv x from any tag any; } } else { isend r rank to 0 tag 0; }')
BY_FIRST, BY_SECOND, BY_THIRD = (ONE_OR_THREE.replace('STATEMENT', '').replace('x == 1', f'x == {rank}') for rank in (1, 2, 3))
STUCK_BY_2, STUCK_BY_3 = (ONE_OR_THREE.replace('STATEMENT', f'if x == {rank} {{ recv x from 3 tag 9; }}') for rank in (2, 3))
# The second message that rank 0 receives must not be that of rank 2.
NOT_TWO = ('mpd 1; ranks 4; var x; req r;\nif rank == 0 { recv x from any tag any; recv x from any tag any; assert x != 2; }\n'
           'else { isend r rank to 0 tag 0; }')
ALL_BY_FIRST = 'leaf 0 [0 0 0] done; leaf 1 [0 1 0] done; leaf 2 [1] leftovers 1.0 3.0; leaf 3 [2] leftovers 1.0 2.0; leaves 4 more no'
# The first choice is among all senders; behind the message of one of four there are four choices more, each among these four.
FOURS = ('mpd 1; ranks RANKS; var x; var i; req r;\n'
         'if rank == 0 { recv x from any tag 0; if x < 5 { while i < 4 { recv x from any tag 1; i = i + 1; } } }\n'
         'else { isend r rank to 0 tag 0; while i < 4 { if rank < 5 { isend r i to 0 tag 1; } i = i + 1; } }')
# Two senders of eight messages, and eight choices among them.
EIGHT = ('mpd 1; ranks 3; var x; var i;\n'
         'while i < 8 { if rank == 0 { recv x from any tag any; } else { send i to 0 tag 0; } i = i + 1; }')
JUST, ONE_MORE = FOURS.replace('RANKS', '5'), FOURS.replace('RANKS', '6')

BAD_WORKERS, TOO_MANY = 'mpdbg: refused 35 bad-workers', 'mpdbg: refused 31 too-many-pieces'
# What a piece, and how many there are, can't stand beside.
NOT_A_PIECE, NOT_PIECES = (f"mpdbg: --complete and {option} can't stand together" for option in ('--piece', '--pieces'))


def refused(script, asked, line):
    return CheckRow(script, asked, '', 2, line)


def gathered_in_pieces(ranks, receives, split, runs, more):
    """The lines of gathering(ranks, receives) with so many runs of each piece: those of a piece begin with the same senders."""
    pieces = groupby(permutations(range(1, ranks), receives), lambda senders: senders[:split])
    return gathered_by(ranks, (senders for _, piece in pieces for senders in islice(piece, runs)), more)


def of_five(*ranks):
    """All calls of ranks that have issued five."""
    return ' '.join(f'{rank}.{number}' for rank in ranks for number in range(5))


def blocked(**numbers):
    """The calls that the senders of SIXTEEN are blocked on: the first of each, but for those that are named, or ended (None)."""
    calls = {rank: 0 for rank in range(1, 16)} | {int(rank.removeprefix('r')): number for rank, number in numbers.items()}
    return ' '.join(f'{rank}.{number}' for rank, number in calls.items() if number is not None)


# The last two of three choices are among as many as the first, since a sender sends once more when it is received: the part by [14 14].
LAST_OF_SIXTEEN = '; '.join([*(f'leaf {third} [14 14 {third}] deadlock {blocked(**{f"r{third + 1}": 1, "r15": 2})}' for third in range(14)),
                             f'leaf 14 [14 14 14] deadlock {blocked(r15=None)}', 'leaves 15 more no'])

NUMBERS = (
    # two senders, of which one is chosen; where both are received, the second choice has one candidate
    *(CheckRow(THREE, Asked(split=split, pieces=True), f'pieces {count}', 0) for split, count in ((0, 1), (1, 2), (2, 2), (8, 2))),
    *(CheckRow(BOTH_ANY, Asked(split=split, pieces=True), f'pieces {count}', 0) for split, count in ((0, 1), (1, 2), (2, 2))),
    # a run that ends before its last choice of so many is a piece too
    *(CheckRow(BY_FIRST, Asked(split=split, pieces=True), f'pieces {count}', 0) for split, count in ((0, 1), (1, 3), (2, 4), (3, 4), (8, 4))),
    *(CheckRow(script, Asked(mode, split=split, pieces=True), 'pieces 1', 0) for split in (0, 1, 8)
      for script, mode in ((EMPTY, RENDEZVOUS), (UNRECEIVED, RENDEZVOUS), (UNRECEIVED, BUFFERED))),
    # one whose fuel ends before that is one as well: six steps are before the choice of THREE; rounds of five, with a choice in each
    *(CheckRow(THREE, Asked(fuel=fuel, split=2, pieces=True), f'pieces {count}', 0) for fuel, count in ((1, 1), (6, 1), (7, 2), (100, 2))),
    CheckRow(ON_AND_ON, Asked(fuel=5, split=8, pieces=True), 'pieces 1', 0), CheckRow(TO_ITSELF, Asked(fuel=14, split=2, pieces=True), 'pieces 1', 0),
    # without another number of choices, one; limits of runs, witnesses and what is found have no part in it
    CheckRow(BY_FIRST, Asked(pieces=True), 'pieces 3', 0),
    CheckRow(BY_FIRST, Asked(BUFFERED, 1, 100, True, False, 2, 16, True, pieces=True), 'pieces 4', 0),
    CheckRow(THREE, Asked(BUFFERED, runs=1, split=0, pieces=True), 'pieces 1', 0),
    CheckRow(THREE, Asked(pieces=True, piece=1), 'pieces 2', 0), CheckRow(THREE, Asked(pieces=True, piece=9), 'pieces 2', 0),
    # fifteen senders, two choices and three; 4 * 4 * 4 * 4 * 4 pieces, and one more
    CheckRow(SIXTEEN, Asked(pieces=True), 'pieces 15', 0), CheckRow(SIXTEEN, Asked(split=2, pieces=True), 'pieces 225', 0),
    refused(SIXTEEN, Asked(split=3, pieces=True), TOO_MANY), refused(SIXTEEN, Asked(split=3), TOO_MANY),
    *(CheckRow(JUST, Asked(split=split, pieces=True), f'pieces {count}', 0) for split, count in ((4, 256), (5, 1024), (8, 1024))),
    *(CheckRow(EIGHT, Asked(split=split, pieces=True), f'pieces {2 ** split}', 0) for split in range(9)),
    CheckRow(ONE_MORE, Asked(split=4, pieces=True), 'pieces 257', 0), refused(ONE_MORE, Asked(split=5, pieces=True), TOO_MANY),
    refused(ONE_MORE, Asked(split=5, until=True, piece=0), TOO_MANY))

REPORTS = (
    # a race of two senders by no choice, one and two
    *(CheckRow(THREE, Asked(split=split), OF_THREE, 1) for split in (0, 1, 2)),
    *(CheckRow(THREE, Asked(split=split, witnesses=True), WITNESSED, 1) for split in (0, 1, 8)),
    *(CheckRow(BOTH_ANY, Asked(split=split), 'leaf 0 [0 0] done; leaf 1 [1 0] done; leaves 2 more no', 0) for split in (0, 1, 2, 3)),
    *(CheckRow(BY_FIRST, Asked(split=split, runs=runs), ALL_BY_FIRST, 0) for split, runs in ((0, 4), (1, 2), (2, 1), (3, 1), (8, 1000))),
    # so many runs of each piece
    CheckRow(THREE, Asked(runs=1), OF_THREE, 1), CheckRow(THREE, Asked(runs=1, witnesses=True, complete=True), WITNESSED, 1),
    CheckRow(BY_FIRST, Asked(runs=1), 'leaf 0 [0 0 0] done; leaf 1 [1] leftovers 1.0 3.0; leaf 2 [2] leftovers 1.0 2.0; leaves 3 more yes', 0),
    CheckRow(BY_FIRST, Asked(runs=1, complete=True),
             'leaf 0 [0 0 0] done; leaf 1 [1] leftovers 1.0 3.0; leaf 2 [2] leftovers 1.0 2.0; leaves 3 more yes', 4),
    CheckRow(BY_SECOND, Asked(runs=1), 'leaf 0 [0] leftovers 2.0 3.0; leaf 1 [1 0 0] done; leaf 2 [2] leftovers 1.0 2.0; leaves 3 more yes', 0),
    CheckRow(BY_THIRD, Asked(runs=1), 'leaf 0 [0] leftovers 2.0 3.0; leaf 1 [1] leftovers 1.0 3.0; leaf 2 [2 0 0] done; leaves 3 more yes', 0),
    CheckRow(BY_FIRST, Asked(runs=3, split=0), ALL_BY_FIRST.replace('; leaf 3 [2] leftovers 1.0 2.0; leaves 4 more no', '; leaves 3 more yes'), 0),
    CheckRow(BY_FIRST, Asked(runs=1, split=2, complete=True), ALL_BY_FIRST, 0),
    CheckRow(LOW_WANTED, Asked(BUFFERED, runs=1, witnesses=True, traps=True), 'leaf 0 [0] leftovers 2.0; leaf 1 [1] trap 0 assert; '
             f'witness 1: {SIX}, wake 1, wake 2, match 2.0 0.0, wake 0, local 0; leaves 2 more no', 1),
    CheckRow(gathering(12, 1), Asked(runs=1), gathered_in_pieces(12, 1, 1, 1, 'no'), 0),
    CheckRow(gathering(12, 2), Asked(runs=10), gathered_in_pieces(12, 2, 1, 10, 'no'), 0),
    CheckRow(gathering(12, 2), Asked(runs=9), gathered_in_pieces(12, 2, 1, 9, 'yes'), 0),
    CheckRow(gathering(12, 2), Asked(runs=1, split=2), gathered_in_pieces(12, 2, 2, 1, 'no'), 0),
    # fuel is for the whole run, and a piece goes on with what is left of it
    *(CheckRow(THREE, Asked(fuel=fuel, split=split), OF_THREE.replace('done', 'cut'), 1) for fuel in (12, 10) for split in (0, 1, 2)),
    *(CheckRow(THREE, Asked(fuel=fuel), 'leaf 0 [0] cut; leaf 1 [1] cut; leaves 2 more no', 0) for fuel in (9, 7)),
    CheckRow(THREE, Asked(fuel=7, complete=True), 'leaf 0 [0] cut; leaf 1 [1] cut; leaves 2 more no', 4),
    CheckRow(THREE, Asked(runs=1, fuel=6), 'leaf 0 [] cut; leaves 1 more no', 0),
    *(CheckRow(TO_ITSELF, Asked(fuel=14, split=split), 'leaf 0 [0 0 0] cut; leaves 1 more no', 0) for split in (0, 1, 3, 4)),
    # every number of workers
    *(CheckRow(BY_FIRST, Asked(runs=2, workers=workers), ALL_BY_FIRST, 0) for workers in range(1, 17)))

PARTS = (
    # a piece alone has numbers of its own, and a status by its leaves alone
    CheckRow(THREE, Asked(piece=0), 'leaf 0 [0] done; leaves 1 more no', 0),
    CheckRow(THREE, Asked(piece=1, witnesses=True), f'leaf 0 [1] deadlock 0.1 1.0; witness 0: {STUCK}; leaves 1 more no', 1),
    CheckRow(THREE, Asked(piece=0, split=0, witnesses=True), WITNESSED, 1),
    # the part of a piece has witnesses of deadlocks alone, as the plain report has, and of traps where that is asked for
    CheckRow(LOW_WANTED, Asked(BUFFERED, piece=1, witnesses=True), 'leaf 0 [1] trap 0 assert; leaves 1 more no', 1),
    CheckRow(LOW_WANTED, Asked(BUFFERED, piece=1, witnesses=True, traps=True),
             f'leaf 0 [1] trap 0 assert; witness 0: {SIX}, wake 1, wake 2, match 2.0 0.0, wake 0, local 0; leaves 1 more no', 1),
    CheckRow(BY_FIRST, Asked(piece=0), 'leaf 0 [0 0 0] done; leaf 1 [0 1 0] done; leaves 2 more no', 0),
    CheckRow(BY_FIRST, Asked(piece=0, runs=1), 'leaf 0 [0 0 0] done; leaves 1 more yes', 0),
    CheckRow(BY_FIRST, Asked(piece=2, runs=1), 'leaf 0 [2] leftovers 1.0 2.0; leaves 1 more no', 0),
    CheckRow(BY_FIRST, Asked(piece=1, split=2, workers=16), 'leaf 0 [0 1 0] done; leaves 1 more no', 0),
    CheckRow(SIXTEEN, Asked(piece=224, split=2), LAST_OF_SIXTEEN, 1),
    CheckRow(JUST, Asked(piece=1023, split=5), f'leaf 0 [3 3 3 3 3] leftovers {of_five(1, 2, 3)}; leaves 1 more no', 0),
    CheckRow(ONE_MORE, Asked(piece=256, split=4), f'leaf 0 [4] leftovers {of_five(1, 2, 3, 4)}; leaves 1 more no', 0),
    # a piece whose fuel is used up where it begins
    CheckRow(THREE, Asked(piece=1, fuel=7), 'leaf 0 [1] cut; leaves 1 more no', 0),
    # no such piece
    refused(SIXTEEN, Asked(piece=300, split=2), 'mpdbg: no piece 300 of 225'), refused(SIXTEEN, Asked(piece=225, split=2), 'mpdbg: no piece 225 of 225'),
    refused(SIXTEEN, Asked(piece=15), 'mpdbg: no piece 15 of 15'), refused(EMPTY, Asked(piece=1), 'mpdbg: no piece 1 of 1'),
    refused(THREE, Asked(piece=1, split=0), 'mpdbg: no piece 1 of 1'), refused(THREE, Asked(piece=1, fuel=6), 'mpdbg: no piece 1 of 1'))

UNTIL = (
    # up to the first deadlock or trap of all, with that; whether it is the last leaf
    *(CheckRow(THREE, Asked(until=True, split=split), OF_THREE, 1) for split in (0, 1, 2)),
    CheckRow(LOW_WANTED, Asked(until=True), 'leaf 0 [0] deadlock 2.0; leaves 1 more yes', 1),
    CheckRow(LOW_WANTED, Asked(until=True, witnesses=True, complete=True),
             f'leaf 0 [0] deadlock 2.0; witness 0: {SIX}, match 1.0 0.0, wake 0, local 0, wake 1; leaves 1 more yes', 1),
    CheckRow(LOW_WANTED, Asked(BUFFERED, until=True), 'leaf 0 [0] leftovers 2.0; leaf 1 [1] trap 0 assert; leaves 2 more no', 1),
    *(CheckRow(STUCK_BY_2, Asked(until=True, split=split),
               'leaf 0 [0 0 0] done; leaf 1 [0 1 0] done; leaf 2 [1] deadlock 0.1; leaves 3 more yes', 1) for split in (0, 1, 2)),
    # what an earlier piece leaves out is left out too, and so is what a later one has
    CheckRow(STUCK_BY_3, Asked(runs=1, until=True), 'leaf 0 [0 0 0] done; leaf 1 [1] leftovers 1.0 3.0; leaf 2 [2] deadlock 0.1; leaves 3 more yes', 1),
    CheckRow(STUCK_BY_3, Asked(runs=2, until=True), ALL_BY_FIRST.replace('leftovers 1.0 2.0', 'deadlock 0.1'), 1),
    CheckRow(STUCK_BY_2, Asked(runs=1, until=True), 'leaf 0 [0 0 0] done; leaf 1 [1] deadlock 0.1; leaves 2 more yes', 1),
    # of a piece alone it is the first one of that piece, and what the piece leaves out
    CheckRow(NOT_TWO, Asked(until=True), 'leaf 0 [0 0] trap 0 assert; leaves 1 more yes', 1),
    CheckRow(NOT_TWO, Asked(until=True, piece=0), 'leaf 0 [0 0] trap 0 assert; leaves 1 more yes', 1),
    CheckRow(NOT_TWO, Asked(until=True, piece=1), 'leaf 0 [1 0] leftovers 3.0; leaf 1 [1 1] leftovers 1.0; leaves 2 more no', 0),
    CheckRow(NOT_TWO, Asked(until=True, piece=2), 'leaf 0 [2 0] leftovers 2.0; leaf 1 [2 1] trap 0 assert; leaves 2 more no', 1),
    CheckRow(NOT_TWO, Asked(until=True, piece=2, runs=1), 'leaf 0 [2 0] leftovers 2.0; leaves 1 more yes', 0),
    CheckRow(NOT_TWO, Asked(until=True, piece=5, split=2), 'leaf 0 [2 1] trap 0 assert; leaves 1 more no', 1),
    # what is none doesn't end it: leftovers, a run that is cut
    CheckRow(BY_FIRST, Asked(runs=2, until=True, complete=True), ALL_BY_FIRST, 0),
    CheckRow(BY_FIRST, Asked(runs=1, until=True, complete=True),
             'leaf 0 [0 0 0] done; leaf 1 [1] leftovers 1.0 3.0; leaf 2 [2] leftovers 1.0 2.0; leaves 3 more yes', 4),
    CheckRow(BY_VALUE.replace('STATEMENT', 'if x == 1 { while 1 { } }'), Asked(fuel=50, until=True),
             'leaf 0 [0] cut; leaf 1 [1] leftovers 1.0; leaves 2 more no', 0),
    CheckRow(THREE, Asked(fuel=12, until=True), OF_THREE.replace('done', 'cut'), 1),
    CheckRow(EMPTY, Asked(until=True), 'leaf 0 [] done; leaves 1 more no', 0))

ORDER = (
    # what can't stand together comes before all else, of modes that are tried in turn too, and a piece before how many there are
    refused(THREE, Asked(complete=True, piece=0), NOT_A_PIECE), refused(THREE, Asked(complete=True, pieces=True), NOT_PIECES),
    refused(THREE, Asked(complete=True, piece=9, pieces=True), NOT_A_PIECE), refused(None, Asked('fast', workers=0, complete=True, pieces=True), NOT_PIECES),
    refused(SIXTEEN, Asked(complete=True, split=3, piece=300, modes=2), NOT_A_PIECE), refused(EMPTY, Asked(complete=True, pieces=True, modes=0), NOT_PIECES),
    # 1 to 16 workers
    *(refused(THREE, Asked(workers=workers), BAD_WORKERS) for workers in (0, 17, 18, 100, 1000)),
    CheckRow(THREE, Asked(workers=16), OF_THREE, 1), CheckRow(THREE, Asked(workers=1), OF_THREE, 1),
    # the mode comes first, then the file, the script, the workers, how many pieces there are, and which
    refused(None, Asked('fast', workers=0, split=3, piece=300), 'mpdbg: bad mode'), refused(EMPTY, Asked('fast', workers=0), 'mpdbg: bad mode'),
    CheckRow(None, Asked(workers=0, piece=1), '', 3, 'mpdbg: device'), CheckRow(None, Asked(pieces=True), '', 3, 'mpdbg: device'),
    refused('mpd 1;ranks 1;print', Asked(workers=17, piece=9), 'mpdbg: script refused 4 expected at 19 line 1'),
    refused(SIXTEEN, Asked(workers=0, split=3, piece=300), BAD_WORKERS), refused(SIXTEEN, Asked(workers=17, split=3, pieces=True), BAD_WORKERS),
    refused(SIXTEEN, Asked(workers=1000, split=2, piece=300), BAD_WORKERS), refused(SIXTEEN, Asked(split=3, piece=300), TOO_MANY))

CHECKS = NUMBERS + REPORTS + PARTS + UNTIL + ORDER


def problems():
    """The name of each row, with what is wrong in it, or None."""
    return [(f'check {row.script} {row.asked}', check_problem(row)) for row in CHECKS]
