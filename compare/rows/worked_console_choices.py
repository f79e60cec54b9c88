"""Worked dialogues of the console about runs and choices: runs by number, deadlocks and traps that are sought, choices that are undone, all
ranks that wait, and so many steps at once (console_worked.py)."""

from rows.worked_console_scripts import (AT_A_BARRIER, BESIDE_ANY, BOTH_RACES, HANG_THEN_TRAP, LOOP, STOLEN_CHOICE, THIRD_TRAPS, TRAP_THEN_HANG,
                                         TWO_RACES, WAITS, Dialogue, many_messages)

# The choice of TRAP_THEN_HANG, its trap, its deadlock, and the choice of HANG_THEN_TRAP, whose lines are the same.
TRAP_CHOICE = '''stopped at a choice of rank 0, line 3; next N takes one:
    3    recv x from any tag 0;
  1: rank 1 sends 1, tag 0 (line 6); match 1.0 0.0
  2: rank 2 sends 2, tag 0 (line 6); match 2.0 0.0'''
TRAP_END = '''ended: trap: rank 0 at line 4 (zero-divisor)
  rank 0, line 4: trap zero-divisor, with x = 1'''
HANG_END = '''ended: deadlock: rank 0 at line 5, rank 1 at line 6
  rank 0 waits at line 5, 0.1 recv from 2 tag 0: for a send of rank 2 with tag 0
    nearest miss: line 6, 1.0 send to 0 tag 0 value 1: another source
    the last that fits is taken: line 6, 2.0 send to 0 tag 0 value 2, by line 3,
        0.0 recv from any tag 0
  rank 1 waits at line 6, 1.0 send to 0 tag 0 value 1: for a receive of rank 0
        from rank 1 with tag 0
    nearest miss: line 5, 0.1 recv from 2 tag 0: another source
    the last that fits is taken: line 3, 0.0 recv from any tag 0, by line 6, 2.0
        send to 0 tag 0 value 2
  rank 0 waits for rank 2 (ended)
  rank 1 waits for rank 0'''

# The trap of examples/order_decides.mpd, and the choice before it.
ORDER_TRAPS = '''ended: trap: rank 0 at line 11 (assert)
  rank 0, line 11: trap assert, with i = 1'''
OTHER_REQUEST = 'wakeany 0 1: line 10, by line 9, 0.1 irecv from any tag 0'
REQUESTS_CHOICE = f'''stopped at a choice of rank 0, line 10; next N takes one:
   10    waitany r to i;
  1: request r[0], the receive of line 8 (value 1); wakeany 0 0
  2: request r[1], the receive of line 9 (value 2); wakeany 0 1'''

CHOICES = (
    Dialogue('a first run that traps, and a second one that is a deadlock', TRAP_THEN_HANG, f'''
> check
1 choices 1: trap: rank 0 at line 4 (zero-divisor)
2 choices 2: deadlock: rank 0 at line 5, rank 1 at line 6
2 runs, and no more (1 deadlock, 1 trap)
one run for all orders of independent steps; diagnose counts each order
> deadlock
deadlock is 11 steps ahead: rank 0 at line 5, rank 1 at line 6
11 ahead: local 0: line 2
    2  if rank == 0 {{
> trap
trap is 10 steps ahead: rank 0 at line 4 (zero-divisor)
10 ahead: local 0: line 2
    2  if rank == 0 {{
> run
6 steps, depth 6
4 ahead: match 1.0 0.0: rank 1, line 6, to rank 0, line 3
    6  }} else {{ send rank to 0 tag 0; }}
    3    recv x from any tag 0;
{TRAP_CHOICE}
> words
local 0
local 0
local 1
local 1
local 2
local 2
>
local 0
local 0
local 1
local 1
local 2
local 2
> run
4 steps, depth 10
{TRAP_END}
> deadlock
no deadlock from here: 1 run, and no more (1 trap)
> trap
trap is 0 steps ahead: rank 0 at line 4 (zero-divisor)
{TRAP_END}
> follow 1
run 1, trap, is 0 steps ahead: rank 0 at line 4 (zero-divisor)
{TRAP_END}
> follow 2
refused: there is no such run
> undo-choice
depth 6
4 ahead: match 1.0 0.0: rank 1, line 6, to rank 0, line 3
    6  }} else {{ send rank to 0 tag 0; }}
    3    recv x from any tag 0;
{TRAP_CHOICE}
> follow 2
run 2, deadlock, is 5 steps ahead: rank 0 at line 5, rank 1 at line 6
5 ahead: match 2.0 0.0: rank 2, line 6, to rank 0, line 3
    6  }} else {{ send rank to 0 tag 0; }}
    3    recv x from any tag 0;
{TRAP_CHOICE}
> follow 3
refused: there is no such run
> follow 0
refused: there is no such run
> redo 5
depth 11
rank 0 prints 1
{HANG_END}
> why
line 5, 0.1 recv from 2 tag 0 free
  has no partner yet: for a send of rank 2 with tag 0
    nearest miss: line 6, 1.0 send to 0 tag 0 value 1: another source
    the last that fits is taken: line 6, 2.0 send to 0 tag 0 value 2, by line 3,
        0.0 recv from any tag 0
line 6, 1.0 send to 0 tag 0 value 1 free
  has no partner yet: for a receive of rank 0 from rank 1 with tag 0
    nearest miss: line 5, 0.1 recv from 2 tag 0: another source
    the last that fits is taken: line 3, 0.0 recv from any tag 0, by line 6, 2.0
        send to 0 tag 0 value 2
> trap
no trap from here: 1 run, and no more (1 deadlock)
> goto 10
depth 10
1 ahead: wake 2: line 6
    6  }} else {{ send rank to 0 tag 0; }}
> f 1
run 1, deadlock, is 1 step ahead: rank 0 at line 5, rank 1 at line 6
1 ahead: wake 2: line 6
    6  }} else {{ send rank to 0 tag 0; }}
> trap
no trap from here: 1 run, and no more (1 deadlock)
> f 000000002
refused: there is no such run
> redo
11 wake 2: line 6
{HANG_END}
'''),
    Dialogue('a first run that is a deadlock, and a second one that traps', HANG_THEN_TRAP, f'''
> check 1
1 choices 1: deadlock: rank 0 at line 5, rank 2 at line 6
1 run, and there are more (1 deadlock)
one run for all orders of independent steps; diagnose counts each order
> trap
trap is 10 steps ahead: rank 0 at line 4 (zero-divisor)
10 ahead: local 0: line 2
    2  if rank == 0 {{
> run
6 steps, depth 6
4 ahead: match 2.0 0.0: rank 2, line 6, to rank 0, line 3
    6  }} else {{ send rank to 0 tag 0; }}
    3    recv x from any tag 0;
{TRAP_CHOICE}
> next 1
7 match 1.0 0.0: rank 1, line 6, to rank 0, line 3
the 4 steps that lay ahead are gone
next: wake 0: line 3
    3    recv x from any tag 0;
> trap
no trap from here: 1 run, and no more (1 deadlock)
> u
depth 6
1 ahead: match 1.0 0.0: rank 1, line 6, to rank 0, line 3
    6  }} else {{ send rank to 0 tag 0; }}
    3    recv x from any tag 0;
{TRAP_CHOICE}
> trap
trap is 4 steps ahead: rank 0 at line 4 (zero-divisor)
4 ahead: match 2.0 0.0: rank 2, line 6, to rank 0, line 3
    6  }} else {{ send rank to 0 tag 0; }}
    3    recv x from any tag 0;
{TRAP_CHOICE}
> quit
'''),
    Dialogue('more runs that trap than are done', THIRD_TRAPS, '''
> check
1 choices 1: done
2 choices 2: trap: rank 0 at line 2 (assert)
3 choices 3: trap: rank 0 at line 2 (assert)
3 runs, and no more (1 done, 2 trap)
one run for all orders of independent steps; diagnose counts each order
> deadlock
no deadlock from here: 3 runs, and no more (1 done, 2 trap)
> check 2
1 choices 1: done
2 choices 2: trap: rank 0 at line 2 (assert)
2 runs, and there are more (1 done, 1 trap)
one run for all orders of independent steps; diagnose counts each order
> trap
trap is 12 steps ahead: rank 0 at line 2 (assert)
12 ahead: local 0: line 2
    2  if rank == 0 { recv x from any tag 0; assert x == 1; recv x from 2 tag 0;
        recv x from 3 tag 0; }
'''),
    Dialogue('as many runs as are looked at, and no more', TRAP_THEN_HANG, '''
> deadlock
deadlock is 11 steps ahead: rank 0 at line 5, rank 1 at line 6
11 ahead: local 0: line 2
    2  if rank == 0 {
> goto 6
depth 6
5 ahead: match 2.0 0.0: rank 2, line 6, to rank 0, line 3
    6  } else { send rank to 0 tag 0; }
    3    recv x from any tag 0;
stopped at a choice of rank 0, line 3; next N takes one:
    3    recv x from any tag 0;
  1: rank 1 sends 1, tag 0 (line 6); match 1.0 0.0
  2: rank 2 sends 2, tag 0 (line 6); match 2.0 0.0
> next 1
7 match 1.0 0.0: rank 1, line 6, to rank 0, line 3
the 5 steps that lay ahead are gone
next: wake 0: line 3
    3    recv x from any tag 0;
> deadlock
no deadlock from here: 1 run, and no more (1 trap)
''', runs=2),
    Dialogue('a run that is cut, laid ahead', 'mpd 1; ranks 1; var x;\nwhile x < 4 { x = x + 1; }\nprint 1;\nprint 2;', '''
> follow 1
run 1, cut, is 10 steps ahead
10 ahead: local 0: line 2
    2  while x < 4 { x = x + 1; }
> redo 10
depth 10
rank 0 prints 1
next: local 0: line 4
    4  print 2;
> follow 2
refused: there is no such run
> follow 1
run 1, done, is 1 step ahead
1 ahead: local 0: line 4
    4  print 2;
> trap
no trap from here: 1 run, and no more (1 done)
> goto 0
depth 0
11 ahead: local 0: line 2
    2  while x < 4 { x = x + 1; }
> trap
no trap found from here: 1 run, and no more (1 cut)
> follow 1
run 1, cut, is 10 steps ahead
10 ahead: local 0: line 2
    2  while x < 4 { x = x + 1; }
''', fuel=10),
    Dialogue('a run of as many steps as are kept, laid ahead', LOOP, '''
> next
1 local 0: line 2
next: local 0: line 2
    2  while 1 { }
> follow 1
run 1, cut, is 2 steps ahead
2 ahead: local 0: line 2
    2  while 1 { }
> next 5
2 steps, depth 3
stopped: the steps ahead end here
next: local 0: line 2
    2  while 1 { }
> next 1
0 steps, depth 3
stopped: no more than 1000000 steps are kept
next: local 0: line 2
    2  while 1 { }
> follow 1
run 1, cut, is 0 steps ahead
next: local 0: line 2
    2  while 1 { }
> trap
no trap found from here: 1 run, and no more (1 cut)
> u
refused: no choice was made before
''', limit=3),
    Dialogue('choices that are undone', TWO_RACES, f'''
> undo-choice
refused: no choice was made before
> run
8 steps, depth 8
{BOTH_RACES}
> undo-choice
refused: no choice was made before
> next 2
9 match 3.0 1.0: rank 3, line 5, to rank 1, line 3
next: wake 1: line 3
    3    recv x from any tag 0;
> wake 3
10 wake 3: line 5
next: wake 1: line 3
    3    recv x from any tag 0;
> undo-choice
depth 8
2 ahead: match 3.0 1.0: rank 3, line 5, to rank 1, line 3
    5    send 7 to rank - 2 tag 0;
    3    recv x from any tag 0;
{BOTH_RACES}
>
refused: no choice was made before
> redo 2
depth 10
next: wake 1: line 3
    3    recv x from any tag 0;
> run
4 steps, depth 14
ended: done
> undo-choice
depth 8
6 ahead: match 3.0 1.0: rank 3, line 5, to rank 1, line 3
    5    send 7 to rank - 2 tag 0;
    3    recv x from any tag 0;
{BOTH_RACES}
> run
6 steps, depth 14
ended: done
> u
depth 8
6 ahead: match 3.0 1.0: rank 3, line 5, to rank 1, line 3
    5    send 7 to rank - 2 tag 0;
    3    recv x from any tag 0;
{BOTH_RACES}
> goto 11
depth 11
3 ahead: match 2.0 0.0: rank 2, line 5, to rank 0, line 3
    5    send 7 to rank - 2 tag 0;
    3    recv x from any tag 0;
> next 1
1 step, depth 12
stopped: as many steps as were asked for
2 ahead: wake 0: line 3
    3    recv x from any tag 0;
> back
depth 11
3 ahead: match 2.0 0.0: rank 2, line 5, to rank 0, line 3
    5    send 7 to rank - 2 tag 0;
    3    recv x from any tag 0;
> undo-choice
depth 8
6 ahead: match 3.0 1.0: rank 3, line 5, to rank 1, line 3
    5    send 7 to rank - 2 tag 0;
    3    recv x from any tag 0;
{BOTH_RACES}
> goto 12
depth 12
2 ahead: wake 0: line 3
    3    recv x from any tag 0;
> run
2 steps, depth 14
ended: done
> undo-choice
depth 8
6 ahead: match 3.0 1.0: rank 3, line 5, to rank 1, line 3
    5    send 7 to rank - 2 tag 0;
    3    recv x from any tag 0;
{BOTH_RACES}
>
refused: no choice was made before
> next 1
9 match 2.0 0.0: rank 2, line 5, to rank 0, line 3
the 6 steps that lay ahead are gone
next: wake 0: line 3
    3    recv x from any tag 0;
> quit
'''),
    Dialogue('a step by hand where there was one candidate, which is no choice', BESIDE_ANY, '''
> run 8
8 steps, depth 8
stopped: as many steps as were asked for
next: wakeany 0 0: line 6, by line 4, 0.0 irecv from 1 tag 1
    6    waitany r to i;
> match 1.1 0.1
9 match 1.1 0.1: rank 1, line 9, to rank 0, line 5
next: wakeany 0 0: line 6, by line 4, 0.0 irecv from 1 tag 1
    6    waitany r to i;
> undo-choice
refused: no choice was made before
> back
depth 8
1 ahead: match 1.1 0.1: rank 1, line 9, to rank 0, line 5
    9    isend r[1] 6 to 0 tag 2;
    5    irecv h y from any tag 2;
> next
9 match 1.1 0.1: rank 1, line 9, to rank 0, line 5
next: wakeany 0 0: line 6, by line 4, 0.0 irecv from 1 tag 1
    6    waitany r to i;
> history 1
9 match 1.1 0.1: rank 1, line 9, to rank 0, line 5
> back
depth 8
1 ahead: match 1.1 0.1: rank 1, line 9, to rank 0, line 5
    9    isend r[1] 6 to 0 tag 2;
    5    irecv h y from any tag 2;
> next 2
1 step, depth 9
stopped: the steps ahead end here
next: wakeany 0 0: line 6, by line 4, 0.0 irecv from 1 tag 1
    6    waitany r to i;
'''),
    Dialogue('a match by hand where no choice was open', 'stolen_message.mpd', '''
> run 6
6 steps, depth 6
stopped: as many steps as were asked for
next: local 2: line 7
    7  if rank == 0 {
> match 1.0 0.0
7 match 1.0 0.0: rank 1, line 13, to rank 0, line 8
next: local 2: line 7
    7  if rank == 0 {
> undo-choice
refused: no choice was made before
'''),
    Dialogue('all ranks that wait for a call', WAITS, '''
> why
no rank waits for a call
> next 3
3 steps, depth 3
stopped: as many steps as were asked for
next: local 1: line 3
    3  if rank == 0 {
> why
line 5, 0.1 wait 0
line 4, 0.0 irecv from 1 tag 3 free
  has no partner yet: for a send of rank 1 with tag 3
> next 1000000
3 steps, depth 6
ended: deadlock: rank 0 at line 5, rank 1 at line 8
  rank 0 waits at line 5, 0.1 wait 0: for request 0.0
    line 4, 0.0 irecv from 1 tag 3: for a send of rank 1 with tag 3
    nearest miss: line 7, 1.0 isend to 0 tag 4 value 7: another tag
  rank 1 waits at line 8, 1.1 wait 0: for request 1.0
    line 7, 1.0 isend to 0 tag 4 value 7: for a receive of rank 0 from rank 1
        with tag 4
    nearest miss: line 4, 0.0 irecv from 1 tag 3: another tag
  rank 0 waits for rank 1
  rank 1 waits for rank 0
  a cycle, where each waits for the next: rank 0, rank 1, rank 0
> w
line 5, 0.1 wait 0
line 4, 0.0 irecv from 1 tag 3 free
  has no partner yet: for a send of rank 1 with tag 3
    nearest miss: line 7, 1.0 isend to 0 tag 4 value 7: another tag
line 8, 1.1 wait 0
line 7, 1.0 isend to 0 tag 4 value 7 free
  has no partner yet: for a receive of rank 0 from rank 1 with tag 4
    nearest miss: line 4, 0.0 irecv from 1 tag 3: another tag
'''),
    Dialogue('those that wait alone, and not one that has ended', AT_A_BARRIER, '''
> run
7 steps, depth 7
ended: deadlock: rank 0 at line 2, rank 1 at line 4
  rank 0 waits at line 2, 0.0 barrier: for all ranks at a barrier
    rank 1 is not there: it waits at line 4, 1.0 ssend to 2 tag 0 value 1
    rank 2 is not there: it has ended
  rank 1 waits at line 4, 1.0 ssend to 2 tag 0 value 1: for a receive of rank 2
        from rank 1 with tag 0
  rank 0 waits for all of rank 1, rank 2 (ended)
  rank 1 waits for rank 2 (ended)
> why
line 2, 0.0 barrier
    rank 1 is not there: it waits at line 4, 1.0 ssend to 2 tag 0 value 1
    rank 2 is not there: it has ended
line 4, 1.0 ssend to 2 tag 0 value 1 free
  has no partner yet: for a receive of rank 2 from rank 1 with tag 0
'''),
    Dialogue('none that waits where one has trapped', 'trap.mpd', '''
> trap
trap is 9 steps ahead: rank 1 at line 10 (zero-divisor)
9 ahead: local 0: line 5
    5  if rank == 0 {
> deadlock
no deadlock from here: 1 run, and no more (1 trap)
> redo 9
depth 9
rank 0 prints 5
ended: trap: rank 1 at line 10 (zero-divisor)
  rank 1, line 10: trap zero-divisor, with x = 0
> why
no rank waits for a call
> undo-choice
refused: no choice was made before
'''),
    Dialogue('so many steps at once, and none behind an end', 'first_message.mpd', '''
> next 3
3 steps, depth 3
stopped: as many steps as were asked for
next: local 1: line 8
    8    recv x from 0 tag 0;
>
4 local 1: line 8
next: match 0.0 1.0: rank 0, line 6, to rank 1, line 8
    6    send 7 to 1 tag 0;
    8    recv x from 0 tag 0;
>
5 match 0.0 1.0: rank 0, line 6, to rank 1, line 8
next: wake 0: line 6
    6    send 7 to 1 tag 0;
> step 1
1 step, depth 6
stopped: as many steps as were asked for
next: wake 1: line 8
    8    recv x from 0 tag 0;
> next 0
refused: 1 to 1000000 steps can be asked for
> next 1000001
refused: 1 to 1000000 steps can be asked for
> back 3
depth 3
3 ahead: local 1: line 8
    8    recv x from 0 tag 0;
> next 1
1 step, depth 4
stopped: as many steps as were asked for
2 ahead: match 0.0 1.0: rank 0, line 6, to rank 1, line 8
    6    send 7 to 1 tag 0;
    8    recv x from 0 tag 0;
> break match 8
breakpoint 0: match 8
> n 9
1 step, depth 5
breakpoint 0: match 8
1 ahead: wake 0: line 6
    6    send 7 to 1 tag 0;
> n 1000000
1 step, depth 6
stopped: the steps ahead end here
next: wake 1: line 8
    8    recv x from 0 tag 0;
> n 1000000
2 steps, depth 8
rank 1 prints 7
ended: done
> next 0
ended: done
> next 1000001
ended: done
> run-back
4 steps back, depth 4
before breakpoint 0: match 8
4 ahead: match 0.0 1.0: rank 0, line 6, to rank 1, line 8
    6    send 7 to 1 tag 0;
    8    recv x from 0 tag 0;
'''),
    Dialogue('so many steps up to a choice, and then a candidate', 'stolen_message.mpd', f'''
> next 100
9 steps, depth 9
{STOLEN_CHOICE}
>
{STOLEN_CHOICE}
> next 0
refused: there is no such candidate
{STOLEN_CHOICE}
>
{STOLEN_CHOICE}
> next 000000002
10 match 2.0 0.0: rank 2, line 13, to rank 0, line 8
next: wake 2: line 13
   13    if rank == 1 {{ send 42 to 0 tag 7; }} else {{ send 5 to 0 tag 1; }}
> s 2
2 steps, depth 12
stopped: as many steps as were asked for
next: wake 0: line 9
    9    recv result from 1 tag 7;
> undo-choice
depth 9
3 ahead: match 2.0 0.0: rank 2, line 13, to rank 0, line 8
   13    if rank == 1 {{ send 42 to 0 tag 7; }} else {{ send 5 to 0 tag 1; }}
    8    irecv r note from any tag any;
{STOLEN_CHOICE}
> quit
'''),
    Dialogue('a run of more choices than are told', many_messages(42), f'''
> check
1 choices{" 1" * 35}
        1 1 1 1 1 .. 2 more: done
1 run, and no more (1 done)
one run for all orders of independent steps; diagnose counts each order
'''),
    Dialogue('a run of as many choices as are told', many_messages(40), f'''
> check
1 choices{" 1" * 35}
        1 1 1 1 1: done
1 run, and no more (1 done)
one run for all orders of independent steps; diagnose counts each order
'''),
    # the runs are told in worked_ends.py
    Dialogue('a trap that another order of a match and a wait for any comes to', 'order_decides.mpd', f'''
> check
1 choices 1 1: done
2 choices 2 2: trap: rank 0 at line 11 (assert)
2 runs, and no more (1 done, 1 trap)
one run for all orders of independent steps; diagnose counts each order
> deadlock
no deadlock from here: 3 runs, and no more (2 done, 1 trap)
> trap
trap is 14 steps ahead: rank 0 at line 11 (assert)
14 ahead: local 0: line 7
    7  if rank == 0 {{
> redo all
depth 14
{ORDER_TRAPS}
> deadlock
no deadlock from here: 1 run, and no more (1 trap)
> undo-choice
depth 12
2 ahead: {OTHER_REQUEST}
   10    waitany r to i;
{REQUESTS_CHOICE}
> back 2
depth 10
4 ahead: match 2.0 0.1: rank 2, line 13, to rank 0, line 9
   13    send rank to 0 tag 0;
    9    irecv r[1] x from any tag 0;
> check
1 choices 1 1: done
2 choices 2 2: trap: rank 0 at line 11 (assert)
2 runs, and no more (1 done, 1 trap)
one run for all orders of independent steps; diagnose counts each order
> redo
11 match 2.0 0.1: rank 2, line 13, to rank 0, line 9
3 ahead: wake 2: line 13
   13    send rank to 0 tag 0;
> check
1 choices 1: done
2 choices 2: trap: rank 0 at line 11 (assert)
2 runs, and no more (1 done, 1 trap)
one run for all orders of independent steps; diagnose counts each order
> follow 1
run 1, done, is 3 steps ahead
3 ahead: wake 2: line 13
   13    send rank to 0 tag 0;
> follow 2
run 2, trap, is 3 steps ahead: rank 0 at line 11 (assert)
3 ahead: wake 2: line 13
   13    send rank to 0 tag 0;
> follow 3
refused: there is no such run
> run
1 step, depth 12
2 ahead: {OTHER_REQUEST}
   10    waitany r to i;
{REQUESTS_CHOICE}
> run
2 steps, depth 14
{ORDER_TRAPS}
'''),
    Dialogue('a run, and a step, along those ahead, where a single candidate comes next that is another step', 'order_decides.mpd', f'''
> trap
trap is 14 steps ahead: rank 0 at line 11 (assert)
14 ahead: local 0: line 7
    7  if rank == 0 {{
> run
12 steps, depth 12
2 ahead: {OTHER_REQUEST}
   10    waitany r to i;
{REQUESTS_CHOICE}
> run
2 steps, depth 14
{ORDER_TRAPS}
> goto 10
depth 10
4 ahead: match 2.0 0.1: rank 2, line 13, to rank 0, line 9
   13    send rank to 0 tag 0;
    9    irecv r[1] x from any tag 0;
> next
11 match 2.0 0.1: rank 2, line 13, to rank 0, line 9
3 ahead: wake 2: line 13
   13    send rank to 0 tag 0;
> back
depth 10
4 ahead: match 2.0 0.1: rank 2, line 13, to rank 0, line 9
   13    send rank to 0 tag 0;
    9    irecv r[1] x from any tag 0;
> wakeany 0 0
11 wakeany 0 0: line 10, by line 8, 0.0 irecv from 1 tag 0
the 4 steps that lay ahead are gone
next: local 0: line 11
   11    assert i == 0;
> trap
no trap from here: 1 run, and no more (1 done)
'''),
    Dialogue('a deadlock, and another end where a match gives a slot back', 'freed_slot.mpd', '''
> check
1 choices 1 1: deadlock: rank 0 at line 9
2 choices 2: leftovers: rank 0 at line 8
2 runs, and no more (1 leftovers, 1 deadlock)
one run for all orders of independent steps; diagnose counts each order
> trap
no trap from here: 2 runs, and no more (1 leftovers, 1 deadlock)
> check 1
1 choices 1 1: deadlock: rank 0 at line 9
1 run, and there are more (1 deadlock)
one run for all orders of independent steps; diagnose counts each order
> deadlock
deadlock is 8 steps ahead: rank 0 at line 9
8 ahead: local 0: line 6
    6  if rank == 0 {
> redo all
depth 8
ended: deadlock: rank 0 at line 9
  rank 0 waits at line 9, 0.2 wait 1: for request 0.1
    line 8, 0.1 isend to 1 tag 1 value 2: for a receive of rank 1 from rank 0
        with tag 1
  rank 0 waits for rank 1 (ended)
> words
local 0
local 0
local 1
local 1
local 0
local 0
match 0.0 1.0
wake 1
> undo-choice
refused: no choice was made before
> goto 4
depth 4
4 ahead: local 0: line 8
    8    isend r[1] 2 to 1 tag 1;
> check
1 choices 1 1: deadlock: rank 0 at line 9
2 choices 2: leftovers: rank 0 at line 8
2 runs, and no more (1 leftovers, 1 deadlock)
one run for all orders of independent steps; diagnose counts each order
> follow 2
run 2, leftovers, is 5 steps ahead: rank 0 at line 8
5 ahead: match 0.0 1.0: rank 0, line 7, to rank 1, line 11
    7    isend r[0] 1 to 1 tag 0;
   11    recv x from 0 tag 0;
> redo
5 match 0.0 1.0: rank 0, line 7, to rank 1, line 11
4 ahead: local 0: line 8
    8    isend r[1] 2 to 1 tag 1;
> deadlock
no deadlock from here: 1 run, and no more (1 leftovers)
> check
1 no choice: leftovers: rank 0 at line 8
1 run, and no more (1 leftovers)
one run for all orders of independent steps; diagnose counts each order
> redo all
depth 9
ended: leftovers: rank 0 at line 8
  left over: line 8, 0.1 isend to 1 tag 1 value 2
''', 'slots:1'),
    Dialogue('where no slot is, and where there is one for each send', 'freed_slot.mpd', '''
> check
1 no choice: deadlock: rank 0 at line 9
1 run, and no more (1 deadlock)
one run for all orders of independent steps; diagnose counts each order
> trap
no trap from here: 1 run, and no more (1 deadlock)
''', 'slots:0'),
    Dialogue('a choice of one, which is told with its number', 'freed_slot.mpd', '''
> check
1 choices 1: leftovers: rank 0 at line 8
1 run, and no more (1 leftovers)
one run for all orders of independent steps; diagnose counts each order
> deadlock
no deadlock from here: 1 run, and no more (1 leftovers)
> trap
no trap from here: 1 run, and no more (1 leftovers)
''', 'slots:2'))
