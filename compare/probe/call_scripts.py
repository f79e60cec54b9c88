"""Scripts of the rows of compare/runs/refused_calls.py, and steps that lead to places of theirs.

Two of them, which end otherwise along the wide walk than along decisions, are worked out in rows/worked_wide.py: in BY_THE_FIRST rank 0 waits for any
of a message of any source and one of rank 1, and hangs where it goes on by the first; EARLY_OR_LATE ends otherwise, in the mode slots:1,
where the first message is received before the second is sent.
"""

from rows.worked_slots import EARLY_OR_LATE
from rows.worked_wide import HANGS as BY_THE_FIRST

# A message; two sends for one receive of any source, after which another wants that of rank 2; a status in its value's cell; requests.
MESSAGE = 'mpd 1;\nranks 2;\nvar x;\nif rank == 0 { send 7 to 1 tag 0; } else { recv x from 0 tag 0; print x; }'
RACE = ('mpd 1; ranks 3; var x; var y;\nif rank == 0 { recv x from any tag any; recv y from 2 tag any; } else { send rank to 0 tag 0; }')
CHANGES = 'mpd 1; ranks 2; var x;\nx = 9;\nif rank == 0 { send 7 to 1 tag 3; } else { recv x from any tag any status x x; }'
HELD = ('mpd 1; ranks 2; var x; var y; req r[2];\nif rank == 0 { irecv r[0] x from any tag any; irecv r[1] y from 1 tag any; } '
        'else { send 5 to 0 tag 0; }')
PAIRS = 'mpd 1; ranks 4; var x;\nif rank % 2 == 0 { send 7 to rank + 1 tag 0; } else { recv x from rank - 1 tag 0; }'
MEETING = 'mpd 1; ranks 2;\nbarrier;'
WHICHEVER = ('mpd 2; ranks 3; var x; var i; req r[2];\n'
             'if rank == 0 { irecv r[0] x from 1 tag 0; irecv r[1] x from 2 tag 0; waitany r to i; } else { send rank to 0 tag 0; }')
BOTH_CAME = (*('local 0',) * 4, *('local 1', 'local 2') * 2, 'match 1.0 0.0', 'match 2.0 0.1')
TWO_RACES = ('mpd 1; ranks 6; var x; var y;\nif rank < 2 { recv x from any tag any; recv y from any tag any; assert x < y; } '
             'else { send rank to rank % 2 tag 0; }')
ENDLESS = 'mpd 1; ranks 1;\nwhile 1 { }'
TRAPS = 'mpd 1; ranks 2; var x;\nx = 1 / x;'
BOTH_SEND = 'mpd 1; ranks 2; var x;\nsend rank to 1 - rank tag 5;\nrecv x from 1 - rank tag 5;'
TO_ITSELF = 'mpd 1; ranks 1; var x; req r;\nisend r 1 to 0 tag 0; recv x from 0 tag 0; wait r; print x;'
MANY = ('mpd 1; ranks 16; var x; var i;\n'
        'while i < 3 { if rank == 0 { recv x from any tag any; } else { send i to 0 tag 0; } i = i + 1; }')
WHOLE = ('mpd 1; ranks 3; var x; var a[3]; req r; req q[2];\nwhile x < 2 {\n  if x == 1 && !a[x] { a[x + 1] = -x % 3; } else { print a[0]; }\n'
         '  x = x + 1;\n}\nassert x >= 2;\nsend x to 0 tag 1; ssend 1 to rank tag 2;\nisend r x * 2 to 1 tag 3; issend q[1] 4 to 2 tag 4;\n'
         'recv x from any tag any status x a[1]; irecv q[0] a[2] from 1 - rank tag 5;\nwait q[0]; wait r; barrier;')

# Hangs, each told in call_explained.py: at a waitany, a send and a barrier; at a wait and a barrier; at a barrier that a rank doesn't come to;
# at a send to another rank than the one that receives; and at a receive that nobody can send to.
ALL_HANG = ('mpd 2; ranks 3; var x; var i; req r[2];\n'
            'if rank == 0 { irecv r[0] x from 1 tag 4; irecv r[1] x from 2 tag any; waitany r to i; }\n'
            'if rank == 1 { send 7 to 0 tag 5; }\n'
            'if rank == 2 { barrier; }')
AT_A_WAIT = 'mpd 1; ranks 2; var x; req r;\nif rank == 0 { irecv r x from 1 tag 2; wait r; }\nelse { barrier; }'
SKIPPED = 'mpd 1; ranks 2;\nif rank == 0 { barrier; }'
ASTRAY = 'mpd 1; ranks 3; var x;\nif rank == 0 { send 1 to 2 tag 0; }\nif rank == 1 { recv x from 0 tag 0; }'
ALONE = 'mpd 1; ranks 1; var x;\nrecv x from any tag any;'

# Steps that lead to places of the first scripts: a message behind its match, a race at its choice, one that is stuck, and one at its barrier.
SENT = ('local 0', 'local 0', 'local 1', 'local 1')
MATCHED = (*SENT, 'match 0.0 1.0')
ENDED = (*MATCHED, 'wake 0', 'wake 1', 'local 1')
CHOICE = ('local 0', 'local 0', 'local 1', 'local 1', 'local 2', 'local 2')
STUCK = (*CHOICE, 'match 2.0 0.0', 'wake 0', 'local 0', 'wake 2')
ISSUED = ('local 0', 'local 0', 'local 0', 'local 1', 'local 1')
# choices of the wide walk in these two: of a request of a waitany and a match, and of a local step that lacks a slot and the match that frees one
ONE_CAME = (*('local 0',) * 4, *('local 1',) * 3, 'match 1.0 0.1')
SLOT_HELD = SENT
# behind these there are four match sets, as many as the first room for them takes
FOUR_SETS = (*(f'local {rank}' for rank in range(4) for _ in range(2)), 'match 0.0 1.0', 'match 2.0 3.0', 'wake 0', 'wake 1')

# The lines of a leaf and its witness.
TWO_LINES = 'leaf 1 [1] deadlock 0.1 1.0\nwitness 1: ' + ', '.join(STUCK) + '\n'
