"""Worked dialogues of the console that go along steps ahead, from choice to choice, and past single candidates (console_worked.py)."""

from rows.worked_console_scripts import (ANY_CHOICE, BESIDE_ANY, BESIDE_ANY_OF_TWO, BOTH_RACES, OF_THREE, OF_TWO, TAKES_THREE, THREE_SENDERS,
                                         TWO_RACES, Dialogue)

ALONG = (
    Dialogue('choices of several receives, and ends that differ in nothing', TWO_RACES, '''
> run
8 steps, depth 8
stopped at a choice; next N takes one:
  1: rank 2 sends 7, tag 0 (line 5), to rank 0 (line 3); match 2.0 0.0
  2: rank 3 sends 7, tag 0 (line 5), to rank 1 (line 3); match 3.0 1.0
> check
1 choices 1 1: done
1 run, and no more (1 done)
one run for all orders of independent steps; diagnose counts each order
> deadlock
no deadlock from here: 2 runs, and no more (2 done)
> next 2
9 match 3.0 1.0: rank 3, line 5, to rank 1, line 3
next: wake 1: line 3
    3    recv x from any tag 0;
> run 2
2 steps, depth 11
stopped: as many steps as were asked for
next: match 2.0 0.0: rank 2, line 5, to rank 0, line 3
    5    send 7 to rank - 2 tag 0;
    3    recv x from any tag 0;
> next
12 match 2.0 0.0: rank 2, line 5, to rank 0, line 3
next: wake 0: line 3
    3    recv x from any tag 0;
> back
depth 11
1 ahead: match 2.0 0.0: rank 2, line 5, to rank 0, line 3
    5    send 7 to rank - 2 tag 0;
    3    recv x from any tag 0;
> match 2.0 0.0
12 match 2.0 0.0: rank 2, line 5, to rank 0, line 3
next: wake 0: line 3
    3    recv x from any tag 0;
> wake 2
13 wake 2: line 5
next: wake 0: line 3
    3    recv x from any tag 0;
> list
    1  mpd 1; ranks 4; var x;
    2  if rank < 2 {
    3    recv x from any tag 0;  <- rank 0 can go on
    4  } else {
    5    send 7 to rank - 2 tag 0;
    6  }
ended: rank 1, rank 2, rank 3
> list 3
rank 3 has ended
> list 4
refused: there is no such rank
'''),
    Dialogue('along the steps ahead, from choice to choice', TWO_RACES, f'''
> run
8 steps, depth 8
{BOTH_RACES}
> next 2
9 match 3.0 1.0: rank 3, line 5, to rank 1, line 3
next: wake 1: line 3
    3    recv x from any tag 0;
> run
5 steps, depth 14
ended: done
> goto 0
depth 0
14 ahead: local 0: line 2
    2  if rank < 2 {{
> run
8 steps, depth 8
6 ahead: match 3.0 1.0: rank 3, line 5, to rank 1, line 3
    5    send 7 to rank - 2 tag 0;
    3    recv x from any tag 0;
{BOTH_RACES}
> run 0
refused: 1 to 1000000 steps can be asked for
> break match 3
breakpoint 0: match 3
> break line 3
breakpoint 1: line 3
> delete 1
deleted 1
> run
1 step, depth 9
breakpoint 0: match 3
5 ahead: wake 1: line 3
    3    recv x from any tag 0;
>
3 steps, depth 12
breakpoint 0: match 3
2 ahead: wake 0: line 3
    3    recv x from any tag 0;
>
2 steps, depth 14
ended: done
>
0 steps, depth 14
ended: done
> goto 8
depth 8
6 ahead: match 3.0 1.0: rank 3, line 5, to rank 1, line 3
    5    send 7 to rank - 2 tag 0;
    3    recv x from any tag 0;
{BOTH_RACES}
> c 1000001
refused: 1 to 1000000 steps can be asked for
> c 1000000
1 step, depth 9
breakpoint 0: match 3
5 ahead: wake 1: line 3
    3    recv x from any tag 0;
> goto 14
depth 14
ended: done
> g 8
depth 8
6 ahead: match 3.0 1.0: rank 3, line 5, to rank 1, line 3
    5    send 7 to rank - 2 tag 0;
    3    recv x from any tag 0;
{BOTH_RACES}
> run 7
1 step, depth 9
breakpoint 0: match 3
5 ahead: wake 1: line 3
    3    recv x from any tag 0;
> goto 10
depth 10
4 ahead: wake 3: line 5
    5    send 7 to rank - 2 tag 0;
> goto 11
depth 11
3 ahead: match 2.0 0.0: rank 2, line 5, to rank 0, line 3
    5    send 7 to rank - 2 tag 0;
    3    recv x from any tag 0;
> r 1
1 step, depth 12
breakpoint 0: match 3
2 ahead: wake 0: line 3
    3    recv x from any tag 0;
> back 4
depth 8
6 ahead: match 3.0 1.0: rank 3, line 5, to rank 1, line 3
    5    send 7 to rank - 2 tag 0;
    3    recv x from any tag 0;
{BOTH_RACES}
> next 1
9 match 2.0 0.0: rank 2, line 5, to rank 0, line 3
the 6 steps that lay ahead are gone
breakpoint 0: match 3
next: wake 0: line 3
    3    recv x from any tag 0;
> goto 10
refused: so many steps are neither taken nor ahead
> quit
'''),
    Dialogue('a step ahead that is none of the candidates', BESIDE_ANY_OF_TWO, f'''
> run
11 steps, depth 11
{ANY_CHOICE}
> match 1.1 0.2
12 match 1.1 0.2: rank 1, line 10, to rank 0, line 6
{ANY_CHOICE}
> undo-choice
depth 11
1 ahead: match 1.1 0.2: rank 1, line 10, to rank 0, line 6
   10    isend r[1] 6 to 0 tag 2;
    6    irecv h y from any tag 2;
{ANY_CHOICE}
> run
1 step, depth 12
{ANY_CHOICE}
> run
0 steps, depth 12
{ANY_CHOICE}
> next 2
13 wakeany 0 1: line 7, by line 5, 0.1 irecv from 1 tag 3
ended: done
> back 2
depth 11
2 ahead: match 1.1 0.2: rank 1, line 10, to rank 0, line 6
   10    isend r[1] 6 to 0 tag 2;
    6    irecv h y from any tag 2;
{ANY_CHOICE}
> run
1 step, depth 12
1 ahead: wakeany 0 1: line 7, by line 5, 0.1 irecv from 1 tag 3
    7    waitany r to i;
{ANY_CHOICE}
>
1 step, depth 13
ended: done
> goto 12
depth 12
1 ahead: wakeany 0 1: line 7, by line 5, 0.1 irecv from 1 tag 3
    7    waitany r to i;
{ANY_CHOICE}
> redo 2
13 wakeany 0 1: line 7, by line 5, 0.1 irecv from 1 tag 3
ended: done
'''),
    Dialogue('a single request that is complete, and a step ahead that is another', BESIDE_ANY, '''
> run 8
8 steps, depth 8
stopped: as many steps as were asked for
next: wakeany 0 0: line 6, by line 4, 0.0 irecv from 1 tag 1
    6    waitany r to i;
> match 1.1 0.1
9 match 1.1 0.1: rank 1, line 9, to rank 0, line 5
next: wakeany 0 0: line 6, by line 4, 0.0 irecv from 1 tag 1
    6    waitany r to i;
> run
1 step, depth 10
ended: done
> back 2
depth 8
2 ahead: match 1.1 0.1: rank 1, line 9, to rank 0, line 5
    9    isend r[1] 6 to 0 tag 2;
    5    irecv h y from any tag 2;
> run
2 steps, depth 10
ended: done
> history 2
9 match 1.1 0.1: rank 1, line 9, to rank 0, line 5
10 wakeany 0 0: line 6, by line 4, 0.0 irecv from 1 tag 1
> goto 8
depth 8
2 ahead: match 1.1 0.1: rank 1, line 9, to rank 0, line 5
    9    isend r[1] 6 to 0 tag 2;
    5    irecv h y from any tag 2;
> next 3
2 steps, depth 10
ended: done
> goto 0
depth 0
10 ahead: local 0: line 3
    3  if rank == 0 {
> run 2
2 steps, depth 2
stopped: as many steps as were asked for
8 ahead: local 0: line 5
    5    irecv h y from any tag 2;
> goto 0
depth 0
10 ahead: local 0: line 3
    3  if rank == 0 {
> next 9
9 steps, depth 9
stopped: as many steps as were asked for
1 ahead: wakeany 0 0: line 6, by line 4, 0.0 irecv from 1 tag 1
    6    waitany r to i;
>
10 wakeany 0 0: line 6, by line 4, 0.0 irecv from 1 tag 1
ended: done
> undo-choice
refused: no choice was made before
'''),
    Dialogue('choices of three, of two, and of one, which is none', THREE_SENDERS, f'''
> run
9 steps, depth 9
{OF_THREE}
> next 2
10 match 2.0 0.0: rank 2, line 4, to rank 0, line 3
next: wake 0: line 3
{TAKES_THREE}
> run
5 steps, depth 15
{OF_TWO}
> next 1
16 match 1.0 0.1: rank 1, line 4, to rank 0, line 3
next: wake 0: line 3
{TAKES_THREE}
> run
10 steps, depth 26
ended: done
> undo-choice
depth 15
11 ahead: match 1.0 0.1: rank 1, line 4, to rank 0, line 3
    4  }} else {{ send 1 to 0 tag 0; }}
{TAKES_THREE}
{OF_TWO}
>
depth 9
17 ahead: match 2.0 0.0: rank 2, line 4, to rank 0, line 3
    4  }} else {{ send 1 to 0 tag 0; }}
{TAKES_THREE}
{OF_THREE}
>
refused: no choice was made before
> run
6 steps, depth 15
11 ahead: match 1.0 0.1: rank 1, line 4, to rank 0, line 3
    4  }} else {{ send 1 to 0 tag 0; }}
{TAKES_THREE}
{OF_TWO}
>
11 steps, depth 26
ended: done
> goto 9
depth 9
17 ahead: match 2.0 0.0: rank 2, line 4, to rank 0, line 3
    4  }} else {{ send 1 to 0 tag 0; }}
{TAKES_THREE}
{OF_THREE}
> until rank 1
12 steps, depth 21
stopped: rank 1 has gone on
5 ahead: match 3.0 0.2: rank 3, line 4, to rank 0, line 3
    4  }} else {{ send 1 to 0 tag 0; }}
{TAKES_THREE}
> goto 20
depth 20
6 ahead: wake 1: line 4
    4  }} else {{ send 1 to 0 tag 0; }}
> next
21 wake 1: line 4
5 ahead: match 3.0 0.2: rank 3, line 4, to rank 0, line 3
    4  }} else {{ send 1 to 0 tag 0; }}
{TAKES_THREE}
>
22 match 3.0 0.2: rank 3, line 4, to rank 0, line 3
4 ahead: wake 0: line 3
{TAKES_THREE}
> goto 21
depth 21
5 ahead: match 3.0 0.2: rank 3, line 4, to rank 0, line 3
    4  }} else {{ send 1 to 0 tag 0; }}
{TAKES_THREE}
> next 3
3 steps, depth 24
stopped: as many steps as were asked for
2 ahead: local 0: line 3
{TAKES_THREE}
> goto 21
depth 21
5 ahead: match 3.0 0.2: rank 3, line 4, to rank 0, line 3
    4  }} else {{ send 1 to 0 tag 0; }}
{TAKES_THREE}
> next
22 match 3.0 0.2: rank 3, line 4, to rank 0, line 3
4 ahead: wake 0: line 3
{TAKES_THREE}
> back
depth 21
5 ahead: match 3.0 0.2: rank 3, line 4, to rank 0, line 3
    4  }} else {{ send 1 to 0 tag 0; }}
{TAKES_THREE}
> next 0
refused: 1 to 1000000 steps can be asked for
> next 2
2 steps, depth 23
stopped: as many steps as were asked for
3 ahead: local 0: line 3
{TAKES_THREE}
> goto 21
depth 21
5 ahead: match 3.0 0.2: rank 3, line 4, to rank 0, line 3
    4  }} else {{ send 1 to 0 tag 0; }}
{TAKES_THREE}
> break match 4
breakpoint 0: match 4
> run
1 step, depth 22
breakpoint 0: match 4
4 ahead: wake 0: line 3
{TAKES_THREE}
> run-back
1 step back, depth 21
before breakpoint 0: match 4
5 ahead: match 3.0 0.2: rank 3, line 4, to rank 0, line 3
    4  }} else {{ send 1 to 0 tag 0; }}
{TAKES_THREE}
> wake 0
refused: this step is not enabled
> local 3
refused: this step is not enabled
'''),
)
