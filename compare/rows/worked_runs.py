"""Worked rows of decisions, breakpoints and runs, in the words of compare/model/policy_words.py; compare/runs/worked.py compares them.

Each was worked out by hand from the rules (docs/DEFINITIONS.md). A script's first line is line 1.
"""

from typing import NamedTuple, Optional

from model.debugger import BUFFERED, RENDEZVOUS


class RunRow(NamedTuple):
    """A script in a mode, words with what each is answered, and how many steps a trail may have where that isn't 1,000,000."""
    script: str
    mode: str
    words: str
    limit: Optional[int] = None


EMPTY = 'mpd 1; ranks 1;'
FIRST = 'mpd 1; ranks 2; var x;\nif rank == 0 { send 7 to 1 tag 0; } else { recv x from 0 tag 0; print x; }'
TO_BARRIER = 'mpd 1; ranks 2; var x; req r;\nif rank == 0 { isend r 1 to 1 tag 0; } else { irecv r x from 0 tag 0; }\nbarrier;'
HEAD_TO_HEAD = 'mpd 1; ranks 2; var x;\nsend rank to 1 - rank tag 5;\nrecv x from 1 - rank tag 5;'
NAMED_AND_ANY = ('mpd 1; ranks 3; var x; req r;\nif rank == 0 { recv x from any tag 0; }\nif rank == 1 { recv x from 2 tag 0; }\n'
                 'if rank == 2 { isend r 5 to 0 tag 0; send 6 to 1 tag 0; }')
NAMED_TWICE = ('mpd 1; ranks 2; var x; var y; req r[2];\nif rank == 0 { isend r[0] 1 to 1 tag 1; isend r[1] 2 to 1 tag 2; } '
               'else { irecv r[0] x from 0 tag 2; irecv r[1] y from 0 tag 1; }')
ANY_FIRST = NAMED_TWICE.replace('irecv r[0] x from 0 tag 2; irecv r[1] y from 0 tag 1;',
                                'irecv r[0] x from any tag 1; irecv r[1] y from 0 tag 2;')
THREE = ('mpd 1; ranks 3; var x; var y;\n'
         'if rank == 0 { recv x from any tag any; recv y from 2 tag any; } else { send rank to 0 tag 0; }')
TWO_RECEIVERS = ('mpd 1; ranks 3; var x; req r;\n'
                 'if rank == 2 { isend r 1 to 1 tag 0; isend r 2 to 0 tag 0; } else { recv x from any tag any; }')
UNRECEIVED = 'mpd 1; ranks 1;\nsend 1 to 0 tag 0;'
ONE_TRAPPED = 'mpd 1; ranks 2;\nassert rank;\nbarrier;'
STATUS = ('mpd 1; ranks 2; var x;\nx = 9;\n'
          'if rank == 0 { send 7 to 1 tag 3; } else { recv x from any tag any status x x; }')
ON_AND_ON = 'mpd 1; ranks 1; while 1 { }'

DECISIONS = (
    # no step, no statement: a leaf, and not one step is taken to it
    RunRow(EMPTY, RENDEZVOUS, 'decide: leaf done; run 5: stop leaf steps 0 depth 0; run 0: stop leaf steps 0 depth 0'),
    # the local step of the lowest rank that has one, before a match that is enabled; then the release, and the match behind it
    RunRow(TO_BARRIER, RENDEZVOUS, 'decide: forced local 0; local 0: ok 1; decide: forced local 0; local 0: ok 2; local 0: ok 3; '
           'decide: forced local 1; local 1: ok 4; local 1: ok 5; enabled: enabled local 1, match 0.0 1.0; decide: forced local 1; '
           'local 1: ok 6; enabled: enabled release, match 0.0 1.0; decide: forced release; release: ok 7; '
           'decide: forced match 0.0 1.0; match 0.0 1.0: ok 8; decide: leaf done'),
    # a rank that waits, has ended or is trapped is passed by
    RunRow(ONE_TRAPPED, RENDEZVOUS, 'decide: forced local 0; local 0: ok 1; decide: forced local 1; local 1: ok 2; local 1: ok 3; '
           'decide: leaf trap 0 assert'),
    # a local step before a wake, the wake of the lowest rank before that of another, and a wake before a match
    RunRow(HEAD_TO_HEAD, BUFFERED, 'local 0: ok 1; decide: forced local 1; local 1: ok 2; enabled: enabled wake 0, wake 1; '
           'decide: forced wake 0; wake 0: ok 3; enabled: enabled local 0, wake 1; decide: forced local 0; local 0: ok 4; '
           'enabled: enabled wake 1, match 1.0 0.1; decide: forced wake 1; wake 1: ok 5; decide: forced local 1; local 1: ok 6; '
           'enabled: enabled match 1.0 0.1, match 0.0 1.1; decide: forced match 1.0 0.1; match 1.0 0.1: ok 7; '
           'decide: forced wake 0; wake 0: ok 8; decide: forced match 0.0 1.1; match 0.0 1.1: ok 9; decide: forced wake 1; '
           'wake 1: ok 10; decide: leaf done; goto 0: ok 0; run 100: stop leaf steps 10 depth 10'),
    # a receive that names its source, before one of any source, also where that is of a lower rank or has a lower number
    RunRow(NAMED_AND_ANY, RENDEZVOUS, 'run 10: stop max steps 10 depth 10; enabled: enabled match 2.0 0.0, match 2.1 1.0; '
           'decide: forced match 2.1 1.0; run 100: stop choice steps 4 depth 14; decide: choice match 2.0 0.0; '
           'match 2.0 0.0: ok 15; run 100: stop leaf steps 3 depth 18; decide: leaf done'),
    RunRow(ANY_FIRST, RENDEZVOUS, 'run 6: stop max steps 6 depth 6; enabled: enabled match 0.0 1.0, match 0.1 1.1; '
           'decide: forced match 0.1 1.1; run 9: stop choice steps 1 depth 7; decide: choice match 0.0 1.0'),
    # of two such receives, the one of the lowest number
    RunRow(NAMED_TWICE, RENDEZVOUS, 'run 6: stop max steps 6 depth 6; decide: forced match 0.1 1.0; match 0.1 1.0: ok 7; '
           'decide: forced match 0.0 1.1; run 9: stop leaf steps 1 depth 8'),
    # a choice among three ranks, whichever is taken; where one candidate is left it stays a choice
    RunRow(THREE, RENDEZVOUS, 'run 100: stop choice steps 6 depth 6; decide: choice match 1.0 0.0, match 2.0 0.0; '
           'match 1.0 0.0: ok 7; run 100: stop leaf steps 6 depth 13; decide: leaf done; goto 6: ok 6; match 2.0 0.0: ok 7; '
           'run 100: stop leaf steps 3 depth 10; decide: leaf deadlock 0.1 1.0'),
    # candidates of two receivers, by receiver
    RunRow(TWO_RECEIVERS, RENDEZVOUS, 'run 100: stop choice steps 7 depth 7; decide: choice match 2.1 0.0, match 2.0 1.0; '
           'match 2.0 1.0: ok 8; run 100: stop choice steps 1 depth 9; decide: choice match 2.1 0.0'),
    # leaves of each kind
    RunRow(UNRECEIVED, RENDEZVOUS, 'run 9: stop leaf steps 1 depth 1; decide: leaf deadlock 0.0'),
    RunRow(UNRECEIVED, BUFFERED, 'local 0: ok 1; decide: forced wake 0; run 9: stop leaf steps 1 depth 2; decide: leaf leftovers 0.0'),
    RunRow(TO_BARRIER.replace('barrier;', 'if rank { barrier; }'), RENDEZVOUS,
           'run 99: stop leaf steps 8 depth 8; decide: leaf deadlock 1.1'))

LINES = 'mpd 1; ranks 2; var x;\nx = 1;\nprint x;\nbarrier;\nprint 2;'
ON_LINES = 'mpd 1; ranks 2; var x;\nif rank == 0 { send 7 to 1 tag 0; } else {\nrecv x from 0 tag 0;\nprint x; }'
ONE_GOES_ON = 'mpd 1; ranks 2;\nif rank == 1 { barrier;\nprint 1; }\nif rank == 0 { barrier; }'
IN_PLACE = 'mpd 1; ranks 1; var i;\nwhile i < 1 { i = i + 1; }'
SAME_AGAIN = 'mpd 1; ranks 1; var x;\nx = 0; x = 1; x = 1; x = 2;'
LATE_TOKENS = 'mpd 1; ranks 2; var x; req r;\nif rank == 0 {\nisend r 7\nto 1 tag 0; } else {\nirecv r x from 0 tag 0; }'

BREAKPOINTS = (
    # behind a local step its rank comes to the line; that it is blocked on it is not enough
    RunRow(LINES, RENDEZVOUS, 'break line 4: break 0; run 99: stop break 0 steps 2 depth 2; run 99: stop break 0 steps 3 depth 5; '
           'run 99: stop leaf steps 4 depth 9; run-back: stop break 0 steps 5 depth 4; run-back: stop break 0 steps 3 depth 1; '
           'run-back: stop start steps 1 depth 0; run-back: stop start steps 0 depth 0'),
    # behind a release all ranks come to it, or one of them does
    RunRow(LINES, RENDEZVOUS, 'break line 5: break 0; run 99: stop break 0 steps 7 depth 7; run 99: stop leaf steps 2 depth 9; '
           'run-back: stop break 0 steps 3 depth 6; decide: forced release'),
    RunRow(ONE_GOES_ON, RENDEZVOUS, 'break line 3: break 0; run 99: stop break 0 steps 6 depth 6; run 99: stop leaf steps 2 depth 8'),
    # behind a wake; the match of that call moves no rank
    RunRow(ON_LINES, RENDEZVOUS, 'break line 4: break 0; run 99: stop break 0 steps 7 depth 7; run-back: stop break 0 steps 1 depth 6; '
           'run-back: stop start steps 6 depth 0'),
    RunRow(TO_BARRIER, RENDEZVOUS, 'local 0: ok 1; local 0: ok 2; local 0: ok 3; local 1: ok 4; local 1: ok 5; match 0.0 1.0: ok 6; '
           'break line 3: break 0; run-back: stop break 0 steps 2 depth 4'),
    # also where its rank was on that line before; not where it has ended, or is trapped there
    RunRow(IN_PLACE, RENDEZVOUS, 'break line 2: break 0; run 9: stop break 0 steps 1 depth 1; run 9: stop break 0 steps 1 depth 2; '
           'run 9: stop leaf steps 1 depth 3; decide: leaf done'),
    RunRow('mpd 1; ranks 1;\nassert 0;', RENDEZVOUS, 'break line 2: break 0; run 9: stop leaf steps 1 depth 1; '
           'decide: leaf trap 0 assert'),
    # a cell that gets another value: by an assignment, and by a wake that writes it three times
    RunRow(STATUS, RENDEZVOUS, 'break change 1 0: break 0; run 100: stop break 0 steps 4 depth 4; run 100: stop choice steps 2 depth 6; '
           'decide: choice match 0.0 1.0; match 0.0 1.0: ok 7; run 100: stop break 0 steps 2 depth 9; run 100: stop leaf steps 0 depth 9; '
           'run-back: stop break 0 steps 1 depth 8; run-back: stop break 0 steps 5 depth 3; run-back: stop start steps 3 depth 0'),
    # not by a write of what it holds, nor by three of which the last is that
    RunRow(SAME_AGAIN, RENDEZVOUS, 'break change 0 0: break 0; run 9: stop break 0 steps 2 depth 2; run 9: stop break 0 steps 2 depth 4; '
           'run 9: stop leaf steps 0 depth 4'),
    RunRow(STATUS.replace('x = 9', 'x = 3'), RENDEZVOUS, 'break change 1 0: break 0; run 100: stop break 0 steps 4 depth 4; '
           'run 100: stop choice steps 2 depth 6; match 0.0 1.0: ok 7; run 100: stop leaf steps 2 depth 9; '
           'run-back: stop break 0 steps 6 depth 3'),
    # not one of another rank, nor one that isn't there
    RunRow(STATUS, RENDEZVOUS, 'break change 2 0: break 0; break change 1 1: break 1; break change 0 0: break 2; '
           'run 100: stop break 2 steps 1 depth 1; run 100: stop choice steps 5 depth 6'),
    # a match of a call that either line made, by the line of the first word
    *(RunRow(LATE_TOKENS, RENDEZVOUS, f'break match {line}: break 0; run 99: stop break 0 steps 5 depth 5; '
             'run 99: stop leaf steps 0 depth 5; run-back: stop break 0 steps 1 depth 4') for line in (3, 5)),
    *(RunRow(LATE_TOKENS, RENDEZVOUS, f'break match {line}: break 0; run 99: stop leaf steps 5 depth 5; '
             'run-back: stop start steps 5 depth 0') for line in (2, 4, 6)),
    RunRow(LATE_TOKENS, RENDEZVOUS, 'break line 3: break 0; run 99: stop break 0 steps 1 depth 1; run 99: stop leaf steps 4 depth 5'),
    # the lowest number of those that mark a step, whatever came first
    RunRow(LATE_TOKENS, RENDEZVOUS, 'break line 9: break 0; break match 5: break 1; break match 3: break 2; unbreak 0: removed; '
           'run 99: stop break 1 steps 5 depth 5; goto 0: ok 0; break match 3: break 0; run 99: stop break 0 steps 5 depth 5; '
           'run-back: stop break 0 steps 1 depth 4; unbreak 0: removed; unbreak 1: removed; run 99: stop break 2 steps 1 depth 5'),
    # 64 places, of which the lowest free one is taken
    RunRow(EMPTY, RENDEZVOUS, 'breaks: breaks; ' + ''.join(f'break line {number}: break {number}; ' for number in range(64))
           + 'break line 1: refused breaks-full; unbreak 64: refused no-such-break; unbreak 63: removed; unbreak 5: removed; '
           'unbreak 5: refused no-such-break; break match 7: break 5; break change 0 7: break 63; break line 1: refused breaks-full'),
    RunRow(EMPTY, RENDEZVOUS, 'break line 3: break 0; break match 4: break 1; break change 1 2: break 2; unbreak 1: removed; '
           'breaks: breaks 0 line 3, 2 change 1 2'))

STOPS = (
    # a leaf comes before all else, a choice before the last depth and the number of steps, the last depth before that
    RunRow(ONE_TRAPPED, RENDEZVOUS, 'run 3: stop leaf steps 3 depth 3; run 0: stop leaf steps 0 depth 3', 3),
    RunRow(THREE, RENDEZVOUS, 'run 6: stop choice steps 6 depth 6; run 0: stop choice steps 0 depth 6', 6),
    RunRow(ON_AND_ON, RENDEZVOUS, 'run 7: stop full steps 7 depth 7; run 0: stop full steps 0 depth 7; wake 0: refused not-enabled; '
           'local 0: refused full; back: ok 6; run 7: stop full steps 1 depth 7', 7),
    RunRow(ON_AND_ON, RENDEZVOUS, 'run 1000000: stop full steps 1000 depth 1000; wake 0: refused not-enabled; local 0: refused full', 1000),
    RunRow(FIRST, RENDEZVOUS, 'run 0: stop max steps 0 depth 0; run 4: stop max steps 4 depth 4; run 4: stop leaf steps 4 depth 8'),
    # a step that hits stops it behind itself, also where it is the last one, leads to the last depth or to a leaf
    RunRow(STATUS, RENDEZVOUS, 'break change 1 0: break 0; run 4: stop break 0 steps 4 depth 4; run 0: stop max steps 0 depth 4'),
    RunRow(STATUS, RENDEZVOUS, 'break change 1 0: break 0; run 9: stop break 0 steps 4 depth 4; run 9: stop full steps 0 depth 4', 4),
    RunRow('mpd 1; ranks 1; var x;\nx = 1;', RENDEZVOUS, 'break change 0 0: break 0; run 9: stop break 0 steps 1 depth 1; '
           'run 9: stop leaf steps 0 depth 1; run-back: stop break 0 steps 1 depth 0; run-back: stop start steps 0 depth 0'),
    # a run takes undone steps again where it comes to them, and drops them where it decides otherwise; a run back keeps all
    RunRow(FIRST, RENDEZVOUS, 'run 100: stop leaf steps 8 depth 8; goto 0: ok 0; run 3: stop max steps 3 depth 3; redo: ok 4; '
           'break line 2: break 0; run-back: stop break 0 steps 2 depth 2; run-back: stop break 0 steps 2 depth 0; '
           'run-back: stop start steps 0 depth 0; redo: ok 1; redo: ok 2; goto 8: refused not-before'),
    RunRow(STATUS, RENDEZVOUS, 'local 1: ok 1; local 1: ok 2; back: ok 1; back: ok 0; run 1: stop max steps 1 depth 1; '
           'redo: refused no-redo; run 100: stop choice steps 5 depth 6; redo: refused no-redo'),
    RunRow(STATUS, RENDEZVOUS, 'local 1: ok 1; local 1: ok 2; back: ok 1; back: ok 0; run 0: stop max steps 0 depth 0; redo: ok 1; '
           'redo: ok 2; redo: refused no-redo'),
    # undone steps that are forgotten, and those that a copy hasn't
    RunRow(FIRST, RENDEZVOUS, 'run 3: stop max steps 3 depth 3; back: ok 2; forget: ok 2; redo: refused no-redo; goto 1: ok 1; '
           'copy: ok 1; redo: refused no-redo; back: ok 0'),
    RunRow(THREE, RENDEZVOUS, 'run 100: stop choice steps 6 depth 6; match 1.0 0.0: ok 7; back: ok 6; copy: ok 6; redo: refused no-redo; '
           'decide: choice match 1.0 0.0, match 2.0 0.0; run-back: stop start steps 6 depth 0; run 100: stop choice steps 6 depth 6'))

RUNS_ON = (
    # past a choice of a single candidate, which is counted as any other step, to a leaf; one that is at a choice of none makes no step
    RunRow(NAMED_AND_ANY, RENDEZVOUS, 'run-on 100: stop leaf steps 18 depth 18; run-on 100: stop leaf steps 0 depth 18; goto 0: ok 0; '
           'run 100: stop choice steps 14 depth 14; run-on 1: stop max steps 1 depth 15; run-on 100: stop leaf steps 3 depth 18'),
    # it stops before a choice of two, of one receive or of two
    RunRow(THREE, RENDEZVOUS, 'run-on 100: stop choice steps 6 depth 6; run-on 100: stop choice steps 0 depth 6; match 1.0 0.0: ok 7; '
           'run-on 100: stop leaf steps 6 depth 13'),
    RunRow(TWO_RECEIVERS, RENDEZVOUS, 'run-on 100: stop choice steps 7 depth 7; match 2.0 1.0: ok 8; run-on 100: stop leaf steps 3 depth 11; '
           'goto 8: ok 8; run 100: stop choice steps 1 depth 9; run-on 1: stop max steps 1 depth 10'),
    # behind a single candidate that hits a breakpoint
    RunRow(STATUS, RENDEZVOUS, 'break match 3: break 0; run-on 100: stop break 0 steps 7 depth 7; run-on 100: stop leaf steps 2 depth 9; '
           'run-back: stop break 0 steps 3 depth 6; run 100: stop choice steps 0 depth 6; run-on 1: stop break 0 steps 1 depth 7'),
    # by the number of steps, also where a single candidate comes next, and at the last depth before that
    RunRow(STATUS, RENDEZVOUS, 'run-on 6: stop max steps 6 depth 6; run-on 0: stop max steps 0 depth 6; run 0: stop choice steps 0 depth 6; '
           'run-on 1: stop max steps 1 depth 7'),
    RunRow(STATUS, RENDEZVOUS, 'run-on 6: stop full steps 6 depth 6; run-on 9: stop full steps 0 depth 6; run 9: stop choice steps 0 depth 6', 6),
    RunRow(THREE, RENDEZVOUS, 'run-on 6: stop choice steps 6 depth 6', 6),
    # a single candidate that was undone is taken again, and what stands behind it stays; where another step was, that is dropped
    RunRow(STATUS, RENDEZVOUS, 'run-on 100: stop leaf steps 9 depth 9; goto 6: ok 6; run-on 1: stop max steps 1 depth 7; redo: ok 8; '
           'redo: ok 9; goto 0: ok 0; run-on 7: stop max steps 7 depth 7; redo: ok 8'),
    RunRow(STATUS, RENDEZVOUS, 'local 1: ok 1; back: ok 0; run-on 7: stop max steps 7 depth 7; redo: refused no-redo'))

TWICE_INTO = ('mpd 1; ranks 1; var x; req r; req s[2];\nisend r 1 to 0 tag 0;\nisend r 2 to 0 tag 0;\nirecv s[1] x from 0 tag 0;\n'
              'wait s[1];\nwait r;')
HANDLES = (
    # a handle that gets a call, gets another one, and has none behind the wake of its wait
    RunRow(TWICE_INTO, BUFFERED, 'break handle 0 0: break 0; run 99: stop break 0 steps 1 depth 1; run 99: stop break 0 steps 1 depth 2; '
           'run 99: stop break 0 steps 6 depth 8; run 99: stop leaf steps 0 depth 8; decide: leaf leftovers 0.1; '
           'run-back: stop break 0 steps 1 depth 7; run-back: stop break 0 steps 6 depth 1; run-back: stop break 0 steps 1 depth 0; '
           'run-back: stop start steps 0 depth 0'),
    # neither the wait for it nor the match of its call hits it; a rank that stays blocked keeps it
    RunRow(TWICE_INTO, RENDEZVOUS, 'break handle 0 0: break 0; run 99: stop break 0 steps 1 depth 1; run 99: stop break 0 steps 1 depth 2; '
           'run 99: stop leaf steps 5 depth 7; decide: leaf deadlock 0.4'),
    RunRow(TWICE_INTO, RENDEZVOUS, 'break handle 0 2: break 0; run 99: stop break 0 steps 3 depth 3; run 99: stop break 0 steps 3 depth 6; '
           'run 99: stop leaf steps 1 depth 7'),
    # nor a call into another handle, or one that isn't there
    RunRow(TWICE_INTO, RENDEZVOUS, 'break handle 0 1: break 0; break handle 0 3: break 1; break handle 1 0: break 2; '
           'run 99: stop leaf steps 7 depth 7; breaks: breaks 0 handle 0 1, 1 handle 0 3, 2 handle 1 0; run-back: stop start steps 7 depth 0'),
    # of two ranks one
    RunRow(TO_BARRIER, RENDEZVOUS, 'break handle 1 0: break 0; break change 0 0: break 1; run 99: stop break 0 steps 5 depth 5; '
           'run 99: stop leaf steps 3 depth 8; goto 0: ok 0; break handle 0 0: break 2; run 99: stop break 2 steps 2 depth 2'))

RUNS = DECISIONS + BREAKPOINTS + STOPS + RUNS_ON + HANDLES
