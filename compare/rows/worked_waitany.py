"""Worked rows of version 2: waits for any of some requests, and what they are answered; worked out by hand from the rules.

compare/runs/worked.py compares them with the model; compare/runs/statuses.py, compare/runs/explore.py and compare/runs/sessions.py have a program of version 2
answer them. They are of each kind of rows that version 1 has: words and what `show` prints behind them, decisions, breakpoints and runs,
reports, witnesses, dialogues, texts that are refused; and of the canonical text and the order of calls, for which there is no word.
"""

from model import order
from model.canonical import canonical
from model.debugger import BUFFERED, RENDEZVOUS, CallId, Debugger
from model.explorer import Asked
from model.language import read_script
from rows.worked_explorer import CheckRow, PlaceRow, ToldRow, WitnessRow
from rows.worked_runs import RunRow
from rows.worked_sessions import (ENABLED, NEXT, RUN, RUN_BACK, RUN_ON, STATE, Dialogue, deep, handle_break, needs_choice, no, ran, set_break, step,
                                  stepped)
from rows.worked_texts import Input, trap_input
from rows.worked_traces import Row

HEAD = 'mpd 2;ranks 1;'
TWO_CAME = ('mpd 2; ranks 2; var x; var y; var i; req r[2];\n'
            'if rank == 0 { irecv r[0] x from 1 tag 1; irecv r[1] y from 1 tag 2; waitany r to i; assert i == 0; wait r[1]; } '
            'else { send 5 to 0 tag 1; send 6 to 0 tag 2; }')
ONE_CELL = 'mpd 2; ranks 1; var i; req r[1];\ni = 9;\nirecv r[0] i from 0 tag any status i i;\nsend 7 to 0 tag 3;\nwaitany r to i;'
NOTHING = 'mpd 2; ranks 1; var i; req r[2];\nwaitany r to i;'
ALONE = 'mpd 2; ranks 1; var x; var i; req r;\nirecv r x from 0 tag 0;\nsend 7 to 0 tag 0;\nwaitany r to i;\nprint i;'
SECOND_CAME = ('mpd 2; ranks 2; var x; var y; var i; req r[2];\n'
               'if rank == 0 { irecv r[0] x from 1 tag 1; irecv r[1] y from 1 tag 2; waitany r to i; } '
               'else { send 5 to 0 tag 2; send 6 to 0 tag 1; }')
FOUR_CELLS = ('mpd 2; ranks 2; var i; var a[4]; req r[3];\nif rank == 0 { a[0] = 5; a[1] = 6; a[2] = 7; a[3] = 8; '
              'irecv r[1] a[1] from any tag any status a[3] a[0]; waitany r to a[2]; } else { send 40 to 0 tag 9; }')
TWO_CELLS = ('mpd 2; ranks 6; var x; var y; req r;\n'
             'if rank == 0 { x = 1; y = 2; irecv r x from any tag any status y x; waitany r to y; }\nif rank == 5 { send 4 to 0 tag 6; }')
LATER_HANDLES = ('mpd 2; ranks 1; var x; var i; req p[2]; req h; req q[2];\nisend p[0] 1 to 0 tag 0;\nirecv q[1] x from 0 tag 0;\n'
                 'waitany q to i;\nwaitany h to i;\nwaitany p to i;')
NO_HANDLES = 'mpd 2; ranks 1; var i; req p[2]; req e[0]; req q;\ni = 5;\nwaitany e to i;'
WAITED_BEFORE = ('mpd 2; ranks 1; var x; var y; var i; req r[2];\nisend r[0] 3 to 0 tag 0;\nirecv r[1] x from 0 tag 0;\nwait r[0];\n'
                 'waitany r to i;\nwaitany r to i;')
SEND_AMONG = ('mpd 2; ranks 1; var x; var i; req r[2];\nx = 4; i = 9;\nisend r[1] 3 to 0 tag 5;\nirecv r[0] x from 0 tag 5;\n'
              'waitany r to i;')
ONLY_SENDS = 'mpd 2; ranks 1; var x; var i; req r[2];\nisend r[0] 3 to 0 tag 0;\nirecv r[1] x from 0 tag 1;\nwaitany r to i;'
LOST = ('mpd 2; ranks 1; var x; var i; req r;\nirecv r x from 0 tag 0;\nirecv r x from 0 tag 1;\nsend 3 to 0 tag 0;\nwaitany r to i;')
FOR_EVER = 'mpd 2; ranks 2; var x; var i; req r[2];\nif rank == 0 { irecv r[1] x from 1 tag 3; waitany r to i; }'
BESIDE_BARRIER = 'mpd 2; ranks 2; var x; var i; req r;\nif rank == 0 { irecv r x from any tag any; waitany r to i; }\nbarrier;'
ORDERED = ('mpd 2; ranks 3; var x; var i; req r[3];\nisend r[0] 1 to rank tag 0;\nisend r[1] 2 to rank tag 0;\n'
           'irecv r[2] x from rank tag 0;\nif rank == 2 { send 3 to 2 tag 1; } else { waitany r to i; }\nprint i;')
BAD_PLACE = 'mpd 2; ranks 1; var a[2]; req r;\nisend r 1 to 0 tag 0;\nwaitany r to a[2];'
IN_A_LOOP = ('mpd 2; ranks 1; var n; var i; var a[2]; req r[2];\nisend r[0] 8 to 0 tag 0;\nirecv r[1] a[0] from 0 tag 0;\n'
             'while i != -1 { waitany r to i; n = n + 1; }')
OF_VERSION_1 = 'mpd 1; ranks 1; var x; req r;\nisend r 1 to 0 tag 0;\nwait r;'

FOUR_ISSUED = '; '.join(f'local 0: ok {depth}' for depth in range(1, 8)) + '; local 1: ok 8; local 1: ok 9; match 1.0 0.0: ok 10'
TWO_ISSUED = '; '.join(f'local 0: ok {depth}' for depth in range(1, 6)) + '; local 5: ok 6; local 5: ok 7; local 5: ok 8; match 5.0 0.0: ok 9'
ONE_ISSUED = 'local 0: ok 1; local 0: ok 2; local 0: ok 3; match 0.1 0.0: ok 4; wake 0: ok 5; local 0: ok 6'
ONE_SENT = 'local 0: ok 1; local 0: ok 2; local 0: ok 3; local 0: ok 4; local 1: ok 5; local 1: ok 6'
SENT_AMONG = '; '.join(f'local 0: ok {depth}' for depth in range(1, 6))
ALL_ORDERED = '; '.join(f'local {rank}: ok {depth}' for depth, rank in enumerate([0] * 5 + [2] * 5 + [1] * 4, 1))

ROWS = (
    # value, source, tag and place all go to one cell, and a step back brings what was there before, and the handle
    Row(ONE_CELL, RENDEZVOUS, f'{ONE_ISSUED}; wake 0: refused not-enabled; wakeany 0 1: refused not-enabled; '
        'enabled: enabled wakeany 0 0; wakeany 0 0: ok 7',
        'depth 7 of 7; rank 0 ended; vars 0; handles -; call 0.2 waitany 0 1; set pair 0.1 0.0; set woke 0.1; set woke 0.2; '
        'outcome done; end', 'none'),
    Row(ONE_CELL, RENDEZVOUS, f'{ONE_ISSUED}; wakeany 0 0: ok 7; back: ok 6',
        'depth 6 of 7; rank 0 blocked 2; vars 9; handles 0; call 0.2 waitany 0 1; set woke 0.1; end', 'set woke 0.2'),
    # they go to four cells
    Row(FOUR_CELLS, RENDEZVOUS, f'{FOUR_ISSUED}; enabled: enabled wake 1, wakeany 0 1; wakeany 0 1: ok 11',
        'rank 0 ended; vars 0 9 40 1 1; handles - - -; call 0.1 waitany 0 3; set pair 1.0 0.0; set woke 0.1; end'),
    Row(FOUR_CELLS, RENDEZVOUS, f'{FOUR_ISSUED}; wakeany 0 1: ok 11; back: ok 10',
        'rank 0 blocked 1; vars 0 5 6 7 8; handles - 0 -; set pair 1.0 0.0; end', 'woke'),
    Row(FOUR_CELLS, RENDEZVOUS, f'{FOUR_ISSUED}; wakeany 0 1: ok 11; goto 7: ok 7; redo: ok 8; redo: ok 9; redo: ok 10; redo: ok 11; '
        'redo: refused no-redo', 'depth 11 of 11; vars 0 9 40 1 1; handles - - -; end'),
    # they go to two cells in turn: the tag is behind the value, and the place behind the source
    Row(TWO_CELLS, RENDEZVOUS, f'{TWO_ISSUED}; wakeany 0 0: ok 10', 'rank 0 at 3; vars 6 0; handles -; call 0.1 waitany 0 1; end'),
    Row(TWO_CELLS, RENDEZVOUS, f'{TWO_ISSUED}; wakeany 0 0: ok 10; back: ok 9', 'rank 0 blocked 1; vars 1 2; handles 0; end'),
    # where no handle has a request the wait for any is complete, and writes -1
    Row(NOTHING, RENDEZVOUS, 'local 0: ok 1; enabled: enabled wake 0; wakeany 0 0: refused not-enabled; wake 0: ok 2',
        'rank 0 ended; vars -1; handles - -; call 0.0 waitany 0 2 none; set woke 0.0; outcome done; end'),
    Row(NOTHING, BUFFERED, 'local 0: ok 1; wake 0: ok 2; back: ok 1; back: ok 0', 'depth 0 of 2; rank 0 at 2; vars 0; handles - -; end',
        'call'),
    # so it is of a declaration of size 0, which is told by the handle that its first one would be
    Row(NO_HANDLES, RENDEZVOUS, 'local 0: ok 1; local 0: ok 2; wakeany 0 0: refused not-enabled; wake 0: ok 3',
        'rank 0 ended; vars -1; handles - - -; call 0.0 waitany 2 0 none; outcome done; end'),
    Row('mpd 2; ranks 1; var i; req r[256]; req e[0];\nwaitany e to i;', RENDEZVOUS, 'local 0: ok 1; wake 0: ok 2',
        'vars -1; call 0.0 waitany 256 0 none; outcome done; end'),
    # a request that isn't complete, a place that isn't there, a rank that isn't there or waits for something else
    Row(SECOND_CAME, RENDEZVOUS, f'{ONE_SENT}; wake 0: refused not-enabled; wakeany 0 0: refused not-enabled; '
        'wakeany 0 1: refused not-enabled; enabled: enabled match 1.0 0.1; match 1.0 0.1: ok 7; enabled: enabled wake 1, wakeany 0 1; '
        'wakeany 0 0: refused not-enabled; wakeany 0 2: refused not-enabled; wakeany 1 1: refused not-enabled; '
        'wakeany 1 0: refused not-enabled; wakeany 2 1: refused not-enabled; wakeany 0 999999999: refused not-enabled; '
        'wake 0: refused not-enabled; wakeany 0 1: ok 8; wakeany 0 1: refused not-enabled',
        'rank 0 ended; vars 0 5 1; handles 0 -; call 0.0 irecv from 1 tag 1 free; call 0.1 irecv from 1 tag 2 with 1.0 value 5; '
        'call 0.2 waitany 0 2; set pair 1.0 0.1; set woke 0.2; end'),
    # all wakes stand before, all matches behind; by rank and place
    Row(ORDERED, BUFFERED, f'{ALL_ORDERED}; enabled: enabled local 1, wake 2, wakeany 0 0, wakeany 0 1, match 0.0 0.2, match 1.0 1.2, '
        'match 2.0 2.2; local 1: ok 15; enabled: enabled wake 2, wakeany 0 0, wakeany 0 1, wakeany 1 0, wakeany 1 1, match 0.0 0.2, '
        'match 1.0 1.2, match 2.0 2.2; match 1.0 1.2: ok 16; enabled: enabled wake 2, wakeany 0 0, wakeany 0 1, wakeany 1 0, wakeany 1 1, '
        'wakeany 1 2, match 0.0 0.2, match 2.0 2.2; wakeany 1 2: ok 17; enabled: enabled local 1, wake 2, wakeany 0 0, wakeany 0 1, '
        'match 0.0 0.2, match 2.0 2.2',
        'rank 1 at 6; vars 1 2; handles 0 1 -; call 1.3 waitany 0 3; rank 2 blocked 3; end'),
    # places count from the first handle of the declaration; of one without a size there is one
    Row(LATER_HANDLES, RENDEZVOUS, 'local 0: ok 1; local 0: ok 2; local 0: ok 3; match 0.0 0.1: ok 4; enabled: enabled wakeany 0 1; '
        'wakeany 0 4: refused not-enabled; wakeany 0 1: ok 5; local 0: ok 6; enabled: enabled wake 0; wake 0: ok 7; local 0: ok 8; '
        'enabled: enabled wakeany 0 0; wakeany 0 0: ok 9',
        'rank 0 ended; vars 1 0; handles - - - - -; call 0.2 waitany 3 2; call 0.3 waitany 2 1 none; call 0.4 waitany 0 2; '
        'set pair 0.0 0.1; set woke 0.2; set woke 0.3; set woke 0.4; outcome done; end'),
    # what was waited for before is gone; where that was the last, nothing is left
    Row(WAITED_BEFORE, RENDEZVOUS, 'local 0: ok 1; local 0: ok 2; local 0: ok 3; match 0.0 0.1: ok 4; wake 0: ok 5; local 0: ok 6; '
        'enabled: enabled wakeany 0 1; wakeany 0 0: refused not-enabled; wake 0: refused not-enabled; wakeany 0 1: ok 7; local 0: ok 8; '
        'enabled: enabled wake 0; wakeany 0 1: refused not-enabled; wake 0: ok 9',
        'rank 0 ended; vars 3 0 -1; handles - -; call 0.2 wait 0; call 0.3 waitany 0 2; call 0.4 waitany 0 2 none; set pair 0.0 0.1; '
        'set woke 0.2; set woke 0.3; set woke 0.4; outcome done; end'),
    Row(WAITED_BEFORE, RENDEZVOUS, 'local 0: ok 1; local 0: ok 2; local 0: ok 3; match 0.0 0.1: ok 4; wake 0: ok 5; local 0: ok 6; '
        'wakeany 0 1: ok 7; local 0: ok 8; wake 0: ok 9; back: ok 8', 'rank 0 blocked 4; vars 3 0 1; handles - -; end', 'set woke 0.4'),
    # of a send no value is written; either of two that are complete may be taken, one in the place of the other
    Row(SEND_AMONG, RENDEZVOUS, f'{SENT_AMONG}; enabled: enabled match 0.0 0.1; match 0.0 0.1: ok 6; '
        'enabled: enabled wakeany 0 0, wakeany 0 1; wakeany 0 1: ok 7',
        'rank 0 ended; vars 4 1; handles 1 -; call 0.2 waitany 0 2; outcome done; end'),
    Row(SEND_AMONG, RENDEZVOUS, f'{SENT_AMONG}; match 0.0 0.1: ok 6; wakeany 0 1: ok 7; back: ok 6; wakeany 0 0: ok 7; '
        'redo: refused no-redo', 'depth 7 of 7; vars 3 0; handles - 0; end'),
    Row(SEND_AMONG, RENDEZVOUS, f'{SENT_AMONG}; match 0.0 0.1: ok 6; wakeany 0 1: ok 7; back: ok 6; back: ok 5; match 0.0 0.1: ok 6; '
        'wakeany 0 1: ok 7; back: ok 6; wakeany 0 2: refused not-enabled; redo: ok 7', 'depth 7 of 7; vars 4 1; handles 1 -; end'),
    # a send that is buffered is complete at once, and stays free; a synchronous one isn't
    Row(ONLY_SENDS, BUFFERED, 'local 0: ok 1; local 0: ok 2; local 0: ok 3; enabled: enabled wakeany 0 0; wakeany 0 0: ok 4; '
        'enabled: enabled', 'rank 0 ended; vars 0 0; handles - 1; call 0.2 waitany 0 2; pending 0 to 0: 0; posted 0: 1; set woke 0.2; '
        'outcome leftovers 0.0 0.1; end'),
    Row(ONLY_SENDS, RENDEZVOUS, 'local 0: ok 1; local 0: ok 2; local 0: ok 3; enabled: enabled; wakeany 0 0: refused not-enabled',
        'rank 0 blocked 2; handles 0 1; call 0.2 waitany 0 2; outcome deadlock 0.2; end', 'set'),
    Row(ONLY_SENDS.replace('isend', 'issend'), BUFFERED, 'local 0: ok 1; local 0: ok 2; local 0: ok 3; enabled: enabled',
        'rank 0 blocked 2; handles 0 1; outcome deadlock 0.2; end', 'set'),
    # a request that is lost is waited for no more, though it is complete
    Row(LOST, RENDEZVOUS, 'local 0: ok 1; local 0: ok 2; local 0: ok 3; match 0.2 0.0: ok 4; wake 0: ok 5; local 0: ok 6; '
        'wakeany 0 0: refused not-enabled; enabled: enabled',
        'rank 0 blocked 3; vars 0 0; handles 1; call 0.3 waitany 0 1; posted 0: 1; outcome deadlock 0.3; end'),
    # one that waits for ever is in the deadlock, and a barrier isn't released without it
    Row(FOR_EVER, RENDEZVOUS, 'local 0: ok 1; local 0: ok 2; local 0: ok 3; local 1: ok 4; enabled: enabled; wake 0: refused not-enabled; '
        'wakeany 0 1: refused not-enabled',
        'rank 0 blocked 1; handles - 0; call 0.1 waitany 0 2; rank 1 ended; posted 0: 0; outcome deadlock 0.1; end'),
    Row(BESIDE_BARRIER, RENDEZVOUS, 'local 0: ok 1; local 0: ok 2; local 0: ok 3; local 1: ok 4; local 1: ok 5; '
        'release: refused not-enabled; enabled: enabled',
        'rank 0 blocked 1; rank 1 blocked 0; call 1.0 barrier; outcome deadlock 0.1 1.0; end', 'set'),
    # a trap at the index of its place makes no call
    Row(BAD_PLACE, BUFFERED, 'local 0: ok 1; local 0: ok 2; wakeany 0 0: refused not-enabled; wake 0: refused not-enabled',
        'rank 0 trapped bad-index; vars 0 0; handles 0; outcome trap 0 bad-index; end', 'waitany'),
    # until nothing is left: the receive, the send, and then -1
    Row(IN_A_LOOP, RENDEZVOUS, 'local 0: ok 1; local 0: ok 2; local 0: ok 3; local 0: ok 4; match 0.0 0.1: ok 5; wakeany 0 1: ok 6; '
        'local 0: ok 7; local 0: ok 8; local 0: ok 9; enabled: enabled wakeany 0 0; wakeany 0 0: ok 10; local 0: ok 11; local 0: ok 12; '
        'local 0: ok 13; wakeany 0 0: refused not-enabled; wake 0: ok 14; local 0: ok 15; local 0: ok 16; local 0: refused not-enabled',
        'rank 0 ended; vars 3 -1 8 0; handles - -; call 0.2 waitany 0 2; call 0.3 waitany 0 2; call 0.4 waitany 0 2 none; outcome done; end'),
    # lines of words: which are such a step, and which aren't; they are known whatever the version of the script is
    Row(NOTHING, RENDEZVOUS, 'wakeany: refused bad-word; wakeany 0: refused bad-word; wakeany 0 0 0: refused bad-word; '
        'wakeany 0.0 0: refused bad-word; wakeany 0 0.0: refused bad-word; wakeany 0 -1: refused bad-word; wakeany x 0: refused bad-word; '
        'Wakeany 0 0: refused bad-word; wakeany 0000000000 0: refused bad-word; wakeany 0 0000000000: refused bad-word; '
        'wakeany0 0: refused bad-word; wake 0 0: refused bad-word; waitany 0 0: refused bad-word; wakeany 0 0: refused not-enabled; '
        ' wakeany\t000000000  999999999 : refused not-enabled; local 0: ok 1; wakeany 0 1: refused not-enabled', 'rank 0 blocked 0; end'),
    Row(ONE_CELL, RENDEZVOUS, f'{ONE_ISSUED}; \twakeany  000000000\t00 : ok 7', 'vars 0; outcome done; end'),
    Row(OF_VERSION_1, BUFFERED, 'local 0: ok 1; local 0: ok 2; wakeany 0 0: refused not-enabled; wakeany 0: refused bad-word; wake 0: ok 3',
        'handles -; outcome leftovers 0.0; end'))

ANY_BEHIND = ('mpd 2; ranks 2; var x; var y; var i; req r[2];\n'
              'if rank == 0 { irecv r[0] x from 1 tag 0; irecv r[1] y from any tag 1; waitany r to i; } '
              'else { isend r[0] 5 to 0 tag 0; isend r[1] 6 to 0 tag 1; }')
ON_LINES = ('mpd 2; ranks 2; var x; var i; req r[2];\nif rank == 0 {\nirecv r[0] x from 1 tag 0;\nwaitany r to i;\nprint i; } else {\n'
            'send 7 to 0 tag 0; }')
BESIDE_ANOTHER = ('mpd 2; ranks 1; var x; var i; req r[2]; req h;\nisend r[1] 5 to 0 tag 0;\nirecv h x from 0 tag any;\nwaitany r to i;')
RUNS_ON = (
    # past a single request that is complete; at two of them it stops
    RunRow(BESIDE_ANOTHER, RENDEZVOUS, 'run 99: stop choice steps 4 depth 4; decide: choice wakeany 0 1; run-on 99: stop leaf steps 1 depth 5; '
           'decide: leaf done; goto 0: ok 0; run-on 4: stop max steps 4 depth 4; run-on 1: stop leaf steps 1 depth 5'),
    RunRow(TWO_CAME, RENDEZVOUS, 'run-on 99: stop choice steps 11 depth 11; decide: choice wakeany 0 0, wakeany 0 1'),
    # a handle that is cleared by the step of a wait for any, and the others not
    RunRow(BESIDE_ANOTHER, RENDEZVOUS, 'break handle 0 1: break 0; run-on 99: stop break 0 steps 1 depth 1; run-on 99: stop break 0 steps 4 depth 5; '
           'run-on 99: stop leaf steps 0 depth 5; run-back: stop break 0 steps 1 depth 4; run-back: stop break 0 steps 4 depth 0'),
    RunRow(BESIDE_ANOTHER, RENDEZVOUS, 'break handle 0 0: break 0; break handle 0 2: break 1; run-on 99: stop break 1 steps 2 depth 2; '
           'run-on 99: stop leaf steps 3 depth 5; run-back: stop break 1 steps 4 depth 1'))
RUNS = RUNS_ON + (
    # one candidate is still a choice
    RunRow(ALONE, RENDEZVOUS, 'run 100: stop choice steps 5 depth 5; decide: choice wakeany 0 0; run 0: stop choice steps 0 depth 5; '
           'wakeany 0 0: ok 6; decide: forced local 0; run 9: stop leaf steps 1 depth 7; decide: leaf done'),
    RunRow(TWO_CAME, RENDEZVOUS, 'run 100: stop choice steps 11 depth 11; decide: choice wakeany 0 0, wakeany 0 1; wakeany 0 0: ok 12; '
           'run 100: stop leaf steps 3 depth 15; decide: leaf done; goto 11: ok 11; wakeany 0 1: ok 12; run 100: stop leaf steps 1 depth 13; '
           'decide: leaf trap 0 assert'),
    # where no handle has a request the wake is forced
    RunRow(NOTHING, RENDEZVOUS, 'local 0: ok 1; decide: forced wake 0; run 9: stop leaf steps 1 depth 2; decide: leaf done'),
    # wakes and matches that name their source come before, matches of any source behind; the lowest rank's candidates alone
    RunRow(ORDERED, BUFFERED, 'run 15: stop max steps 15 depth 15; decide: forced wake 2; wake 2: ok 16; decide: forced local 2; '
           'local 2: ok 17; decide: forced match 0.0 0.2; run 99: stop choice steps 3 depth 20; '
           'decide: choice wakeany 0 0, wakeany 0 1, wakeany 0 2; wakeany 0 2: ok 21; decide: forced local 0; '
           'run 99: stop choice steps 1 depth 22; decide: choice wakeany 1 0, wakeany 1 1, wakeany 1 2; wakeany 1 0: ok 23; '
           'run 99: stop leaf steps 1 depth 24; decide: leaf leftovers 0.1 1.1 2.1 2.3'),
    RunRow(ANY_BEHIND, RENDEZVOUS, 'run 100: stop choice steps 8 depth 8; enabled: enabled wakeany 0 0, match 1.1 0.1; '
           'decide: choice wakeany 0 0; wakeany 0 0: ok 9; decide: choice match 1.1 0.1; match 1.1 0.1: ok 10; decide: leaf done; '
           'goto 8: ok 8; match 1.1 0.1: ok 9; decide: choice wakeany 0 0, wakeany 0 1; wakeany 0 1: ok 10; decide: leaf done'),
    # leaves
    RunRow(FOR_EVER, RENDEZVOUS, 'run 9: stop leaf steps 4 depth 4; decide: leaf deadlock 0.1'),
    RunRow(ONLY_SENDS, BUFFERED, 'run 9: stop choice steps 3 depth 3; wakeany 0 0: ok 4; decide: leaf leftovers 0.0 0.1'),
    # behind such a wake its rank comes to the line, as behind any; a run goes over none, since it is a choice, but a run back does
    RunRow(ON_LINES, RENDEZVOUS, 'break line 5: break 0; run 99: stop choice steps 7 depth 7; wakeany 0 0: ok 8; '
           'run-back: stop break 0 steps 1 depth 7; run-back: stop start steps 7 depth 0; redo: ok 1'),
    RunRow(ON_LINES, RENDEZVOUS, 'break line 4: break 0; run 99: stop break 0 steps 2 depth 2; run 99: stop choice steps 5 depth 7; '
           'wakeany 0 0: ok 8; run-back: stop break 0 steps 7 depth 1'),
    RunRow(NOTHING + '\nprint i;', RENDEZVOUS, 'break line 3: break 0; run 9: stop break 0 steps 2 depth 2; run-back: stop break 0 steps 1 depth 1'),
    # not where its rank has ended
    RunRow(SECOND_CAME, RENDEZVOUS, 'break line 2: break 0; run 1: stop break 0 steps 1 depth 1; run 9: stop break 0 steps 1 depth 2; '
           'run 9: stop break 0 steps 1 depth 3; run 99: stop break 0 steps 2 depth 5; run 99: stop break 0 steps 3 depth 8; '
           'run 99: stop choice steps 3 depth 11; wakeany 0 1: ok 12; run-back: stop break 0 steps 5 depth 7'),
    # a cell that gets another value by it: what was received, or the place; not where it is what it was
    RunRow(ON_LINES, RENDEZVOUS, 'break change 0 1: break 0; break change 0 0: break 1; break change 1 0: break 2; '
           'run 99: stop choice steps 7 depth 7; wakeany 0 0: ok 8; run-back: stop break 1 steps 1 depth 7; '
           'run-back: stop start steps 7 depth 0'),
    RunRow(TWO_CAME, RENDEZVOUS, 'break change 0 2: break 0; run 99: stop choice steps 11 depth 11; wakeany 0 1: ok 12; '
           'run-back: stop break 0 steps 1 depth 11; wakeany 0 0: ok 12; run-back: stop start steps 12 depth 0'),
    RunRow(NOTHING, RENDEZVOUS, 'break change 0 0: break 0; run 9: stop break 0 steps 2 depth 2; run-back: stop break 0 steps 1 depth 1'),
    # a wait for any is never matched; the receive that it is for is
    RunRow(ON_LINES, RENDEZVOUS, 'break match 4: break 0; run 99: stop choice steps 7 depth 7; wakeany 0 0: ok 8; '
           'run-back: stop start steps 8 depth 0'),
    RunRow(ON_LINES, RENDEZVOUS, 'break match 3: break 0; run 99: stop break 0 steps 6 depth 6; run 99: stop choice steps 1 depth 7; '
           'wakeany 0 0: ok 8; run-back: stop break 0 steps 3 depth 5'))

STUCK_BEHIND = TWO_CAME.replace('assert i == 0; wait r[1];', 'if i == 1 { recv x from 1 tag 3; }')
UP_TO_CHOICE = 'local 0, local 0, local 0, local 0, local 1, local 1, match 1.0 0.0, wake 1, local 1, match 1.1 0.1, wake 1'
STUCK = f'{UP_TO_CHOICE}, wakeany 0 1, local 0, local 0'
ONE_NOT_FOUND = ANY_BEHIND.replace('waitany r to i;', 'waitany r to i; assert i == 0;')
# The shortest script found of which a report lists all runs to their ends, and one way to end is missing; and the same with a deadlock.
NOT_LISTED = ('mpd 2; ranks 3; var i; req r[2];\nif rank { send 0 to 0 tag 0; } '
              'else { irecv r[0] i from 1 tag 0; irecv r[1] i from any tag 0; waitany r to i; assert !i; }')
STUCK_NOT_LISTED = NOT_LISTED.replace('assert !i;', 'if i { barrier; }')
BOTH_WAIT = ('mpd 2; ranks 2; var x; var i; req r[2];\nisend r[0] 1 to rank tag 0;\nirecv r[1] x from rank tag 0;\nwaitany r to i;\n'
             'assert i == rank;')
CHECKS = (
    CheckRow(TWO_CAME, Asked(), 'leaf 0 [0] done; leaf 1 [1] trap 0 assert; leaves 2 more no', 1),
    CheckRow(TWO_CAME, Asked(pieces=True), 'pieces 2', 0), CheckRow(TWO_CAME, Asked(split=0, pieces=True), 'pieces 1', 0),
    CheckRow(TWO_CAME, Asked(piece=0), 'leaf 0 [0] done; leaves 1 more no', 0),
    CheckRow(TWO_CAME, Asked(piece=1, workers=16), 'leaf 0 [1] trap 0 assert; leaves 1 more no', 1),
    CheckRow(TWO_CAME, Asked(runs=1, split=0), 'leaf 0 [0] done; leaves 1 more yes', 0),
    # fuel for the eleven steps up to the choice, and one more for what is chosen
    CheckRow(TWO_CAME, Asked(fuel=11), 'leaf 0 [] cut; leaves 1 more no', 0),
    CheckRow(TWO_CAME, Asked(fuel=12), 'leaf 0 [0] cut; leaf 1 [1] cut; leaves 2 more no', 0),
    CheckRow(TWO_CAME, Asked(fuel=13), 'leaf 0 [0] cut; leaf 1 [1] trap 0 assert; leaves 2 more no', 1),
    # one candidate is a choice too; none is where no handle has a request
    CheckRow(ONE_CELL, Asked(), 'leaf 0 [0] done; leaves 1 more no', 0), CheckRow(NOTHING, Asked(), 'leaf 0 [] done; leaves 1 more no', 0),
    # each of two ranks in its turn, the lowest one first
    CheckRow(BOTH_WAIT, Asked(), 'leaf 0 [0 0] trap 1 assert; leaf 1 [0 1] done; leaf 2 [1 0] trap 0 assert 1 assert; '
             'leaf 3 [1 1] trap 0 assert; leaves 4 more no', 1),
    CheckRow(BOTH_WAIT, Asked(split=2, pieces=True), 'pieces 4', 0),
    # deadlocks, with wakes by a handle in a witness and without
    CheckRow(FOR_EVER, Asked(witnesses=True), 'leaf 0 [] deadlock 0.1; witness 0: local 0, local 0, local 0, local 1; leaves 1 more no', 1),
    CheckRow(STUCK_BEHIND, Asked(witnesses=True), f'leaf 0 [0] done; leaf 1 [1] deadlock 0.3; witness 1: {STUCK}; leaves 2 more no', 1),
    CheckRow(ONLY_SENDS, Asked(), 'leaf 0 [] deadlock 0.2; leaves 1 more no', 1),
    CheckRow(ONLY_SENDS, Asked(BUFFERED), 'leaf 0 [0] leftovers 0.0 0.1; leaves 1 more no', 0),
    # a wait for any goes on before a message of any source is taken: that the other one comes first is not found (but with --ends: worked_ends.py)
    *(CheckRow(ONE_NOT_FOUND, Asked(mode), 'leaf 0 [0 0] done; leaves 1 more no', 0) for mode in (RENDEZVOUS, BUFFERED)),
    # with such a wait in the script, in a block too, no report along decisions tells every way to end; a text of version 2 may be without
    *(CheckRow(script, Asked(complete=True), 'leaf 0 [0 0] done; leaves 1 more no', 4) for script in (NOT_LISTED, STUCK_NOT_LISTED)),
    CheckRow(NOTHING, Asked(complete=True), 'leaf 0 [] done; leaves 1 more no', 4),
    CheckRow(IN_A_LOOP, Asked(complete=True), 'leaf 0 [0 0] done; leaf 1 [1 0] done; leaves 2 more no', 4),
    CheckRow(TWO_CAME, Asked(complete=True), 'leaf 0 [0] done; leaf 1 [1] trap 0 assert; leaves 2 more no', 1),
    # of modes that are tried in turn it is asked whether each report is whole, and not this
    CheckRow(NOTHING, Asked(modes=0, complete=True), 'rendezvous leaves 1 deadlocks 0 traps 0 leftovers 0 cut 0 more no; '
             'buffered leaves 1 deadlocks 0 traps 0 leftovers 0 cut 0 more no; least rendezvous', 0),
    CheckRow('mpd 2; ranks 1; req r; if rank { wait r; }', Asked(complete=True), 'leaf 0 [] done; leaves 1 more no', 0),
    CheckRow('mpd 1; ranks 1; req r[1]; var i; waitany r to i;', Asked(), '', 2, 'mpdbg: script refused 10 not-in-version at 33 line 1'))

NOT_FOUND = 'local 0, local 0, local 0, local 0, local 1, local 1, local 1, match 1.0 0.0, match 1.1 0.1'
OTHER_FIRST = 'local 0, local 0, local 0, local 0, local 1, local 1, local 2, local 2, match 2.0 0.1'
PLACES = (
    # what a report doesn't find is found from a place along the steps
    PlaceRow(ONE_NOT_FOUND, NOT_FOUND, 10, 9,
             f'leaf 0 [0] done; leaf 1 [1] trap 0 assert; witness 1: {NOT_FOUND}, wakeany 0 1, local 0; leaves 2 more no'),
    PlaceRow(NOT_LISTED, OTHER_FIRST, 10, 99, 'leaf 0 [0] done; leaf 1 [1] trap 0 assert; '
             f'witness 1: {OTHER_FIRST}, wake 2, match 1.0 0.0, wake 1, wakeany 0 1, local 0; leaves 2 more no'),
    PlaceRow(TWO_CAME, f'{UP_TO_CHOICE}, wakeany 0 0, back', 10, 2,
             f'leaf 0 [0] cut; leaf 1 [1] trap 0 assert; witness 1: {UP_TO_CHOICE}, wakeany 0 1, local 0; leaves 2 more no'),
    PlaceRow(TWO_CAME, f'{UP_TO_CHOICE}, wakeany 0 1', 10, 1,
             f'leaf 0 [] trap 0 assert; witness 0: {UP_TO_CHOICE}, wakeany 0 1, local 0; leaves 1 more no'))

LEAF = 'leaf 1 [1] deadlock 0.3'
WITNESSES = (
    WitnessRow(STUCK_BEHIND, RENDEZVOUS, STUCK, '0.3', ''), WitnessRow(STUCK_BEHIND, RENDEZVOUS, STUCK, '0.2', '34'),
    WitnessRow(FOR_EVER, RENDEZVOUS, 'local 1, local 0, local 0, local 0', '0.1', ''),
    WitnessRow(STUCK_BEHIND, RENDEZVOUS, STUCK.removesuffix(', local 0'), '0.3', '33'),
    # the other handle: the rank ends, and has no second local step; one that isn't there, another rank, and one that isn't complete yet
    WitnessRow(STUCK_BEHIND, RENDEZVOUS, STUCK.replace('wakeany 0 1', 'wakeany 0 0'), '0.3', '32 at 13'),
    *(WitnessRow(STUCK_BEHIND, RENDEZVOUS, STUCK.replace('wakeany 0 1', other), '0.3', '32 at 11') for other in (
        'wakeany 0 2', 'wakeany 1 1', 'wakeany 2 1', 'wakeany 0 999999999', 'wake 0')),
    WitnessRow(STUCK_BEHIND, RENDEZVOUS, STUCK.replace('match 1.1 0.1, wake 1, wakeany 0 1', 'wakeany 0 1, match 1.1 0.1, wake 1'), '0.3', '32 at 9'),
    # a deadlock that no report from the start lists
    WitnessRow(STUCK_NOT_LISTED, RENDEZVOUS, f'{OTHER_FIRST}, wakeany 0 1, local 0, local 0, wake 2, match 1.0 0.0, wake 1', '0.3', ''),
    # as soon as it is complete is soon enough
    WitnessRow(STUCK_BEHIND, RENDEZVOUS, STUCK.replace('wake 1, wakeany 0 1', 'wakeany 0 1, wake 1'), '0.3', ''))


def told(steps, output, script=STUCK_BEHIND):
    return ToldRow(script, f'{LEAF}\nwitness 1: {steps}\n', None, output, int(output != 'accepted'))


TOLD = (
    told(STUCK, 'accepted'), told(STUCK.replace('wakeany 0 1', ' wakeany\t000000000  01 '), 'accepted'),
    told(STUCK.replace('wakeany 0 1', 'wakeany 0 2'), 'refused 32 no-such-step at 11'),
    told(STUCK.replace('wakeany 0 1', 'wakeany 0 0'), 'refused 32 no-such-step at 13'), told('wakeany 0 0', 'refused 32 no-such-step at 0'),
    *(ToldRow(STUCK_BEHIND, f'{LEAF}\n{steps}\n', None, '', 2, 'mpdbg: bad witness line 2') for steps in (
        'wakeany', 'wakeany 0', 'wakeany 0 0 0', 'wakeany 0.0 0', 'wakeany 0.1', 'wakeany 0, 1', 'wakeany 0 0000000000', 'wakeany0 0',
        'Wakeany 0 0', 'wakeany 0 x', 'wake any 0 0', 'wake 0 0', 'waitany 0 0', 'wakeany 0 1 local 0')))

CALLED = '"irecv from 1 tag 1 with 1.0 value 5","irecv from 1 tag 2 with 1.1 value 6","waitany 0 2"'
SETS = '"pair 1.0 0.0","woke 1.0","pair 1.1 0.1","woke 1.1"'
ONE_ENDS = ('mpd 2; ranks 2; var i; req r[1];\nif rank == 0 {\nisend r[0] 1 to 0 tag 0;\nwaitany r to i; } else {\nprint 1; }')

DIALOGUES = (
    Dialogue('a run past a single request that is complete, whose handle is a breakpoint', BESIDE_ANOTHER, (
        (RUN, ran(4, 4, 'choice', 1)), (RUN_ON, ran(5, 1, 'leaf', 2)), ('{"cmd":"goto","depth":0}', deep(0, 3)), (RUN_ON, ran(5, 5, 'leaf', 4)),
        (handle_break(0, 1), set_break(0, 5)), (RUN_BACK, ran(4, 1, 'break', 6, 0)), (RUN_BACK, ran(0, 4, 'break', 7, 0)),
        (RUN_ON, ran(1, 1, 'break', 8, 0)), (RUN_ON, ran(5, 4, 'break', 9, 0)))),
    Dialogue('a run up to a choice of two requests', TWO_CAME, (
        (RUN_ON, ran(11, 11, 'choice', 1)), (NEXT, needs_choice(2)))),
    # the step of a wait for any moves one rank, whatever line the other one is at
    Dialogue('a line that another rank is at', ONE_ENDS, (
        *((step(f'local {rank}'), deep(depth, depth)) for depth, rank in enumerate((0, 0, 0, 1), 1)), (step('wakeany 0 0'), deep(5, 5)),
        ('{"cmd":"break","kind":"line","line":5}', set_break(0, 6)), (RUN_BACK, ran(3, 2, 'break', 7, 0))), BUFFERED),
    Dialogue('a run up to two requests that are complete, and the second of them', TWO_CAME, (
        (RUN, ran(11, 11, 'choice', 1)), ('{"choice":1,"cmd":"next"}', stepped(12, 'wakeany 0 1', 2)))),
    Dialogue('a choice of a request, and what is told of it', TWO_CAME, (
        (RUN, ran(11, 11, 'choice', 1)), (NEXT, needs_choice(2)), ('{"choice":2,"cmd":"next"}', no('bad-number')),
        (ENABLED, '{"ok":true,"steps":["wakeany 0 0","wakeany 0 1"],"version":1}'),
        ('{"cmd":"calls","rank":0}', f'{{"calls":[{CALLED}],"ok":true,"version":1}}'),
        ('{"call":2,"cmd":"why","rank":0}', '{"ok":true,"partners":[],"version":1}'),
        (STATE, f'{{"depth":11,"ok":true,"ranks":["blocked 2","ended"],"sets":[{SETS}],"undone":0,"version":1}}'),
        (step('wakeany 0 1'), deep(12, 2)),
        ('{"cmd":"vars","rank":0}', '{"handles":[0,null],"ok":true,"out":[],"vars":[0,6,1],"version":2}'),
        (STATE, f'{{"depth":12,"ok":true,"ranks":["at 2","ended"],"sets":[{SETS},"woke 0.2"],"undone":0,"version":2}}'),
        ('{"cmd":"back","count":1}', deep(11, 3)), (step('wakeany 0 2'), no('not-enabled')), (step('wakeany 1 0'), no('not-enabled')),
        *((step(odd), no('bad-field')) for odd in ('wakeany', 'wakeany 0', 'wakeany 0 0 0', 'wakeany 0.0 0', 'wakeany 0 0000000000', 'Wakeany 0 0')),
        (step(' wakeany  00 0000 '), deep(12, 4)),
        ('{"cmd":"vars","rank":0}', '{"handles":[null,1],"ok":true,"out":[],"vars":[5,0,0],"version":4}'),
        ('{"cmd":"redo","count":1}', no('no-redo')))),
    Dialogue('reports from a choice of a request on', TWO_CAME, (
        ('{"cmd":"explore","fuel":100,"runs":10}', '{"leaves":["[0] done","[1] trap 0 assert"],"more":false,"ok":true,"version":0}'),
        (RUN, ran(11, 11, 'choice', 1)),
        ('{"cmd":"explore","fuel":100,"runs":10}', '{"leaves":["[0] done","[1] trap 0 assert"],"more":false,"ok":true,"version":1}'),
        ('{"cmd":"explore","fuel":1,"runs":1}', '{"leaves":["[0] cut"],"more":true,"ok":true,"version":1}'))),
    Dialogue('one request alone is a choice', ALONE, (
        (RUN, ran(5, 5, 'choice', 1)), (NEXT, needs_choice(1)), ('{"cmd":"next","choice":1}', no('bad-number')),
        ('{"cmd":"next","choice":0}', stepped(6, 'wakeany 0 0', 2)), ('{"cmd":"next","choice":7}', stepped(7, 'local 0', 3)),
        (NEXT, no('not-enabled')))),
    Dialogue('no request to wait for', NOTHING, (
        (NEXT, stepped(1, 'local 0', 1)), ('{"cmd":"calls","rank":0}', '{"calls":["waitany 0 2 none"],"ok":true,"version":1}'),
        (step('wakeany 0 0'), no('not-enabled')), ('{"cmd":"next","choice":0}', stepped(2, 'wake 0', 2)),
        ('{"cmd":"vars","rank":0}', '{"handles":[null,null],"ok":true,"out":[],"vars":[-1],"version":2}'))),
    Dialogue('breakpoints behind a request that is chosen', ON_LINES, (
        ('{"cmd":"break","kind":"line","line":5}', '{"break":0,"ok":true,"version":1}'),
        ('{"cmd":"break","kind":"change","rank":0,"cell":0}', '{"break":1,"ok":true,"version":2}'), (RUN, ran(7, 7, 'choice', 3)),
        ('{"choice":0,"cmd":"next"}', stepped(8, 'wakeany 0 0', 4)), ('{"cmd":"run-back"}', ran(7, 1, 'break', 5, 0)),
        ('{"cmd":"unbreak","break":0}', '{"ok":true,"version":6}'), ('{"cmd":"redo","count":1}', deep(8, 7)),
        ('{"cmd":"run-back"}', ran(7, 1, 'break', 8, 1)), ('{"cmd":"run-back"}', ran(0, 7, 'start', 9)))),
    Dialogue('a breakpoint at the match of a request, which its choice is none of', ON_LINES, (
        ('{"cmd":"break","kind":"match","line":3}', '{"break":0,"ok":true,"version":1}'), (RUN, ran(6, 6, 'break', 2, 0)),
        (RUN, ran(7, 1, 'choice', 3)), ('{"choice":0,"cmd":"next"}', stepped(8, 'wakeany 0 0', 4)),
        ('{"cmd":"run-back"}', ran(5, 3, 'break', 5, 0)))),
    Dialogue('two ranks that wait for any, of which the lower one has the choice', BOTH_WAIT, (
        (RUN, ran(8, 8, 'choice', 1)), (NEXT, needs_choice(2)), ('{"choice":2,"cmd":"next"}', no('bad-number')),
        (ENABLED, '{"ok":true,"steps":["wakeany 0 0","wakeany 0 1","wakeany 1 0","wakeany 1 1"],"version":1}'),
        ('{"choice":1,"cmd":"next"}', stepped(9, 'wakeany 0 1', 2)), (NEXT, stepped(10, 'local 0', 3)), (NEXT, needs_choice(2)),
        ('{"choice":0,"cmd":"next"}', stepped(11, 'wakeany 1 0', 4)), (NEXT, stepped(12, 'local 1', 5)), (NEXT, no('not-enabled')),
        (STATE, '{"depth":12,"ok":true,"outcome":"trap 0 assert 1 assert","ranks":["trapped assert","trapped assert"],'
         '"sets":["pair 0.0 0.1","pair 1.0 1.1","woke 0.2","woke 1.2"],"undone":0,"version":5}'))))

DECLARED = 'var x;req r[2];req h;'
# A text behind `mpd 2;ranks 1;var x;req r[2];req h;`, which has 35 bytes, that is refused: the fault, and the byte where.
FAULTS = (
    ('waitany', 'expected', 42), ('waitany;', 'expected', 42), ('waitany x to x;', 'unknown-name', 43), ('waitany y to x;', 'unknown-name', 43),
    ('waitany r[0] to x;', 'expected', 44), ('waitany h[0] to x;', 'expected', 44), ('waitany y[0] to x;', 'unknown-name', 43),
    ('waitany r x;', 'expected', 45), ('waitany r to;', 'expected', 47), ('waitany r to r;', 'unknown-name', 48), ('waitany r to h;', 'unknown-name', 48),
    ('waitany r to y;', 'unknown-name', 48), ('waitany r to x', 'expected', 49), ('waitany r to x[0];', 'expected', 49), ('waitany r to 1;', 'expected', 48),
    ('waitany $', 'bad-token', 43), ('waitany r $', 'bad-token', 45), ('waitany 1 to x;', 'expected', 43), ('waitany any to x;', 'expected', 43),
    ('waitany r to any;', 'expected', 48), ('waitany r from x;', 'expected', 45), ('waitany r, to x;', 'bad-token', 44), ('waitanys r to x;', 'unknown-name', 35),
    ('wait r to x;', 'expected', 42), ('x = waitany;', 'expected', 39), ('print waitany;', 'expected', 41), ('var waitany;', 'expected', 39),
    ('waitany r to x;x = 1', 'expected', 55), ('waitany r to x x;', 'expected', 50), ('wait h;waitany', 'expected', 49), ('if 1 { waitany r to x; ', 'expected', 58))
# Texts of either version, and of others.
INPUTS = (
    Input('version 2 alone', 'mpd 2;', ('expected', 6, 1)), Input('version 2 with a zero', 'mpd 02;', ('expected', 7, 1)),
    Input('version 3', 'mpd 3;', ('not-in-version', 4, 1)), Input('version 0', 'mpd 0;', ('not-in-version', 4, 1)),
    Input('version 12', 'mpd 12; ranks 1;', ('not-in-version', 4, 1)), Input('no version', 'mpd ; ranks 1;', ('expected', 4, 1)),
    Input('version 2 with words', 'mpd 2;ranks 1;var i;req r;waitany r to i;\n---\nlocal 0\nwake 0\n', None, 'ok 1\nok 2\n'),
    Input('version 2 without such a wait', 'mpd 2;ranks 1;print 7;\n---\nlocal 0\n', None, 'ok 1\n'),
    Input('a wait for any in version 1', 'mpd 1; ranks 1; req r[1]; var i; waitany r to i;', ('not-in-version', 33, 1)),
    Input('a wait for any in version 1, wrongly written', 'mpd 1; ranks 1; if 1 { waitany', ('not-in-version', 23, 1)),
    Input('a wait for any elsewhere in version 1', 'mpd 1; ranks 1; print waitany;', ('expected', 22, 1)),
    Input('a wait for any as statement 4,097 of version 1', 'mpd 1;ranks 1;' + 'print 1;' * 4096 + 'waitany', ('too-many', 32782, 1)),
    Input('4,096 waits for any', f'{HEAD}var x;req r;' + 'waitany r to x;' * 4096),
    Input('4,097 waits for any', f'{HEAD}var x;req r;' + 'waitany r to x;' * 4097, ('too-many', 61466, 1)),
    Input('a wait for any without a name as statement 4,097', f'{HEAD}' + 'print 1;' * 4096 + 'waitany;', ('too-many', 32782, 1)),
    Input('64 signs in the index of a place', f'{HEAD}var a[2];req r;waitany r to a[' + '-' * 64 + '0];'),
    Input('65 signs in the index of a place', f'{HEAD}var a[2];req r;waitany r to a[' + '-' * 65 + '0];', ('too-deep', 108, 1)),
    Input('a wait for any on a later line', 'mpd 2;\nranks 1;\nvar x;\nwaitany x to x;', ('unknown-name', 31, 4)))
TRAPS = (
    ('waitany g to a[2];', 'bad-index'), ('waitany g to a[-1];', 'bad-index'), ('waitany h to a[1 / 0];', 'zero-divisor'),
    ('waitany g to a[9223372036854775807 + 1];', 'overflow'), ('waitany h to a[a[2]];', 'bad-index'))

# A text, and the canonical text of its script.
CANONICAL = (
    ('mpd 002;ranks 01;var a[3];req r[2];req h;waitany r to a[(1)+0];if 1{waitany h to a[0];}else{}',
     'mpd 2;\nranks 1;\nvar a[3];\nreq r[2];\nreq h;\nwaitany r to a[1 + 0];\nif 1 {\n  waitany h to a[0];\n}\n'),
    ('mpd 2;ranks 1;', 'mpd 2;\nranks 1;\n'), ('mpd 1;ranks 1;', 'mpd 1;\nranks 1;\n'),
    ('mpd 2;ranks 2;req e[0];var x;while x{waitany#\ne to\tx;}', 'mpd 2;\nranks 2;\nreq e[0];\nvar x;\nwhile x {\n  waitany e to x;\n}\n'))

# A script in a mode, steps, and the pairs of calls of which the first completes before the second: a wait for any is behind no request
# that it is for, but whatever stands behind it is behind it.
BEFORE = (
    (ONE_CELL, RENDEZVOUS, 'local 0, local 0, local 0, match 0.1 0.0, wake 0, local 0', '0.1 0.2'),
    (WAITED_BEFORE, RENDEZVOUS, 'local 0, local 0, local 0, match 0.0 0.1, wake 0, local 0, wakeany 0 1, local 0',
     '0.0 0.2, 0.2 0.3, 0.2 0.4, 0.3 0.4'),
    (NOTHING + '\nsend 1 to 0 tag 0;', RENDEZVOUS, 'local 0, wake 0, local 0', '0.0 0.1'))


def all_inputs():
    """All rows of texts, each as an input."""
    yield from INPUTS
    yield from [Input(text, HEAD + DECLARED + text, (fault, place, 1)) for text, fault, place in FAULTS]
    yield from [trap_input('var x;var a[2];req h;req g[2];', ' - - -', *row, head=HEAD) for row in TRAPS]


def canonical_problem(text, wanted):
    """What is otherwise in the canonical text of a script; None where nothing is."""
    said = canonical(read_script(text.encode())).decode()
    return None if said == wanted else said


def before_problem(script, mode, steps, wanted):
    """Which calls complete before which otherwise than a row says; None where none do."""
    walked = Debugger(read_script(script.encode()), mode)
    if any(not walked.answer(word.encode()).startswith('ok') for word in steps.split(', ')):
        return 'a step is refused'
    calls = [CallId(number, place) for number, rank in enumerate(walked.world.ranks) for place in range(len(rank.calls))]
    said = ', '.join(f'{one} {two}' for one in calls for two in calls if order.before(walked.world, one, two))
    return None if said == wanted else said


def problems():
    """The name of each row of the last two kinds, with what is wrong in it, or None."""
    yield from ((f'the canonical text of {text}', canonical_problem(text, wanted)) for text, wanted in CANONICAL)
    yield from ((f'the order of {row[0]} behind {row[2]}', before_problem(*row)) for row in BEFORE)
