"""Worked dialogues of the console that go along runs: steps, choices, deadlocks, breakpoints, and steps that are undone (console_worked.py)."""

from model.console import NamedRun
from rows.worked_console_scripts import (LOOP, SEVEN_SENDERS, STOLEN_AHEAD, STOLEN_CHOICE, STOLEN_END, STOLEN_STEPS, Dialogue,
                                         first_orders)

# What is told where the deadlock of examples/stolen_message.mpd lies ahead from the start on.
TO_STOLEN = f'''
deadlock is 11 steps ahead: rank 0 at line 9, rank 2 at line 13
11 ahead: local 0: line 7
    7  if rank == 0 {{
> history
no step is taken
> show
depth 0 of 11
rank 0 at 7
vars 0 0
handles -
out
rank 1 at 7
vars 0 0
handles -
out
rank 2 at 7
vars 0 0
handles -
out
end
> back
refused: fewer steps are taken
> goto 12
refused: so many steps are neither taken nor ahead
> goto 9
depth 9
2 ahead: match 1.0 0.0: rank 1, line 13, to rank 0, line 8
   13    if rank == 1 {{ send 42 to 0 tag 7; }} else {{ send 5 to 0 tag 1; }}
    8    irecv r note from any tag any;
{STOLEN_CHOICE}
> redo 3
depth 11
{STOLEN_END}
> words
{STOLEN_STEPS}
> quit
'''

MOVES = (
    Dialogue('the first message, step by step, there and back', 'first_message.mpd', '''
> next
1 local 0: line 5
next: local 0: line 6
    6    send 7 to 1 tag 0;
>
2 local 0: line 6
next: local 1: line 5
    5  if rank == 0 {
> n
3 local 1: line 5
next: local 1: line 8
    8    recv x from 0 tag 0;
> ranks
rank 0 waits at line 6, 0.0 send to 1 tag 0 value 7
rank 1 is at line 8
> next
4 local 1: line 8
next: match 0.0 1.0: rank 0, line 6, to rank 1, line 8
    6    send 7 to 1 tag 0;
    8    recv x from 0 tag 0;
> next 1
1 step, depth 5
stopped: as many steps as were asked for
next: wake 0: line 6
    6    send 7 to 1 tag 0;
> run 1
1 step, depth 6
stopped: as many steps as were asked for
next: wake 1: line 8
    8    recv x from 0 tag 0;
> calls
line 6, 0.0 send to 1 tag 0 value 7 with 1.0
line 8, 1.0 recv from 0 tag 0 with 0.0 value 7
> p x
rank 0: x = 0
rank 1: x = 0
> next
7 wake 1: line 8
next: local 1: line 9
    9    print x;
> p x 1
rank 1: x = 7
> run
1 step, depth 8
rank 1 prints 7
ended: done
> next
ended: done
> next 1
ended: done
> r
0 steps, depth 8
ended: done
> vars
rank 0: x = 0
rank 1: x = 7
rank 1 has printed 7
> vars 0
rank 0: x = 0
> back
depth 7
1 ahead: local 1: line 9
    9    print x;
> redo
8 local 1: line 9
rank 1 prints 7
ended: done
> bk 3
depth 5
3 ahead: wake 0: line 6
    6    send 7 to 1 tag 0;
> redo 2
depth 7
1 ahead: local 1: line 9
    9    print x;
> redo 1
8 local 1: line 9
rank 1 prints 7
ended: done
> goto 0
depth 0
8 ahead: local 0: line 5
    5  if rank == 0 {
> next
1 local 0: line 5
7 ahead: local 0: line 6
    6    send 7 to 1 tag 0;
> g 1
depth 1
7 ahead: local 0: line 6
    6    send 7 to 1 tag 0;
> local 1
2 local 1: line 5
the 7 steps that lay ahead are gone
next: local 0: line 6
    6    send 7 to 1 tag 0;
> history
1 local 0: line 5
2 local 1: line 5
> words
local 0
local 1
> quit
> next
'''),
    Dialogue('all short names', 'first_message.mpd', '''
> r 2
2 steps, depth 2
stopped: as many steps as were asked for
next: local 1: line 5
    5  if rank == 0 {
> continue 1
1 step, depth 3
stopped: as many steps as were asked for
next: local 1: line 8
    8    recv x from 0 tag 0;
> c
5 steps, depth 8
rank 1 prints 7
ended: done
> reverse-next
depth 7
1 ahead: local 1: line 9
    9    print x;
> reverse-continue
7 steps back, depth 0
at the start
8 ahead: local 0: line 5
    5  if rank == 0 {
> rc
0 steps back, depth 0
at the start
8 ahead: local 0: line 5
    5  if rank == 0 {
> break 8
breakpoint 0: line 8
> d 0
deleted 0
> l 1
    1  # The first message: rank 0 sends 7, rank 1 receives it into x and prints it.
    2  mpd 1;
    3  ranks 2;
    4  var x;
    5  if rank == 0 {  <- rank 0, rank 1
    6    send 7 to 1 tag 0;
    7  } else {
    8    recv x from 0 tag 0;
    9    print x;
> w 1
rank 1 waits for no call
> h
no step is taken
> ? q
quit: ends
  short: q, exit
> q
'''),
    Dialogue('a stolen message, and what holds the other one back', 'stolen_message.mpd', f'''
> break match 8
breakpoint 0: match 8
> run
9 steps, depth 9
{STOLEN_CHOICE}
> why 0
line 9, 0.1 recv from 1 tag 7 free
  could be matched with line 13, 1.0 send to 0 tag 7 value 42, but for line 8,
        0.0 irecv from any tag any
> why 0.0
line 8, 0.0 irecv from any tag any free
  can be matched with line 13, 1.0 send to 0 tag 7 value 42
  can be matched with line 13, 2.0 send to 0 tag 1 value 5
> why 1.0
line 13, 1.0 send to 0 tag 7 value 42 free
  can be matched with line 8, 0.0 irecv from any tag any
  could be matched with line 9, 0.1 recv from 1 tag 7, but for line 8, 0.0 irecv
        from any tag any
> enabled
rank 1 sends 42, tag 7 (line 13), to rank 0 (line 8); match 1.0 0.0
rank 2 sends 5, tag 1 (line 13), to rank 0 (line 8); match 2.0 0.0
> queues
pending 1 to 0: line 13, 1.0 send to 0 tag 7 value 42
pending 2 to 0: line 13, 2.0 send to 0 tag 1 value 5
posted 0: line 8, 0.0 irecv from any tag any
posted 0: line 9, 0.1 recv from 1 tag 7
> print r
rank 0: r = line 8, 0.0 irecv from any tag any
rank 1: r = no request
rank 2: r = no request
> list 0
    5  var result;
    6  req r;
    7  if rank == 0 {{
    8    irecv r note from any tag any;
    9    recv result from 1 tag 7;  <- rank 0 waits
   10    wait r;
   11    print result;
   12  }} else {{
   13    if rank == 1 {{ send 42 to 0 tag 7; }} else {{ send 5 to 0 tag 1; }}  <- rank 1 waits, rank 2 waits
> check
1 choices 1: deadlock: rank 0 at line 9, rank 2 at line 13
2 choices 2: done
2 runs, and no more (1 done, 1 deadlock)
one run for all orders of independent steps; diagnose counts each order
> check 1
1 choices 1: deadlock: rank 0 at line 9, rank 2 at line 13
1 run, and there are more (1 deadlock)
one run for all orders of independent steps; diagnose counts each order
>
1 choices 1: deadlock: rank 0 at line 9, rank 2 at line 13
1 run, and there are more (1 deadlock)
one run for all orders of independent steps; diagnose counts each order
> check 2
1 choices 1: deadlock: rank 0 at line 9, rank 2 at line 13
2 choices 2: done
2 runs, and no more (1 done, 1 deadlock)
one run for all orders of independent steps; diagnose counts each order
> next
{STOLEN_CHOICE}
> next 0
refused: there is no such candidate
{STOLEN_CHOICE}
> next 3
refused: there is no such candidate
{STOLEN_CHOICE}
> run
0 steps, depth 9
{STOLEN_CHOICE}
> next 1
10 match 1.0 0.0: rank 1, line 13, to rank 0, line 8
breakpoint 0: match 8
next: wake 1: line 13
   13    if rank == 1 {{ send 42 to 0 tag 7; }} else {{ send 5 to 0 tag 1; }}
> run
1 step, depth 11
{STOLEN_END}
> why 0
line 9, 0.1 recv from 1 tag 7 free
  has no partner yet: for a send of rank 1 with tag 7
    the last that fits is taken: line 13, 1.0 send to 0 tag 7 value 42, by line
        8, 0.0 irecv from any tag any
> why 1.0
line 13, 1.0 send to 0 tag 7 value 42 with 0.0
> enabled
no step is enabled
> check
1 no choice: deadlock: rank 0 at line 9, rank 2 at line 13
1 run, and no more (1 deadlock)
one run for all orders of independent steps; diagnose counts each order
> run-back
2 steps back, depth 9
before breakpoint 0: match 8
2 ahead: match 1.0 0.0: rank 1, line 13, to rank 0, line 8
   13    if rank == 1 {{ send 42 to 0 tag 7; }} else {{ send 5 to 0 tag 1; }}
    8    irecv r note from any tag any;
{STOLEN_CHOICE}
> next 2
10 match 2.0 0.0: rank 2, line 13, to rank 0, line 8
the 2 steps that lay ahead are gone
breakpoint 0: match 8
next: wake 2: line 13
   13    if rank == 1 {{ send 42 to 0 tag 7; }} else {{ send 5 to 0 tag 1; }}
> why 0
line 9, 0.1 recv from 1 tag 7 free
  can be matched with line 13, 1.0 send to 0 tag 7 value 42
> run
7 steps, depth 17
rank 0 prints 42
ended: done
> history 3
15 wake 0: line 10
16 local 0: line 11
17 wake 1: line 13
> history
8 local 2: line 13
9 local 2: line 13
10 match 2.0 0.0: rank 2, line 13, to rank 0, line 8
11 wake 2: line 13
12 match 1.0 0.1: rank 1, line 13, to rank 0, line 9
13 wake 0: line 9
14 local 0: line 10
15 wake 0: line 10
16 local 0: line 11
17 wake 1: line 13
> history 0
> queues
no free call
> print r 0
rank 0: r = no request
> quit
'''),
    Dialogue('a deadlock that is laid ahead, and gone to', 'stolen_message.mpd', f'''
> deadlock
deadlock is 11 steps ahead: rank 0 at line 9, rank 2 at line 13
11 ahead: local 0: line 7
    7  if rank == 0 {{
> run
9 steps, depth 9
2 ahead: match 1.0 0.0: rank 1, line 13, to rank 0, line 8
   13    if rank == 1 {{ send 42 to 0 tag 7; }} else {{ send 5 to 0 tag 1; }}
    8    irecv r note from any tag any;
{STOLEN_CHOICE}
> redo
10 match 1.0 0.0: rank 1, line 13, to rank 0, line 8
1 ahead: wake 1: line 13
   13    if rank == 1 {{ send 42 to 0 tag 7; }} else {{ send 5 to 0 tag 1; }}
> run
1 step, depth 11
{STOLEN_END}
> deadlock
deadlock is 0 steps ahead: rank 0 at line 9, rank 2 at line 13
{STOLEN_END}
> goto 9
depth 9
2 ahead: match 1.0 0.0: rank 1, line 13, to rank 0, line 8
   13    if rank == 1 {{ send 42 to 0 tag 7; }} else {{ send 5 to 0 tag 1; }}
    8    irecv r note from any tag any;
{STOLEN_CHOICE}
> deadlock
deadlock is 2 steps ahead: rank 0 at line 9, rank 2 at line 13
2 ahead: match 1.0 0.0: rank 1, line 13, to rank 0, line 8
   13    if rank == 1 {{ send 42 to 0 tag 7; }} else {{ send 5 to 0 tag 1; }}
    8    irecv r note from any tag any;
{STOLEN_CHOICE}
> redo 2
depth 11
{STOLEN_END}
> goto 10
depth 10
1 ahead: wake 1: line 13
   13    if rank == 1 {{ send 42 to 0 tag 7; }} else {{ send 5 to 0 tag 1; }}
> deadlock
deadlock is 1 step ahead: rank 0 at line 9, rank 2 at line 13
1 ahead: wake 1: line 13
   13    if rank == 1 {{ send 42 to 0 tag 7; }} else {{ send 5 to 0 tag 1; }}
> goto 0
depth 0
11 ahead: local 0: line 7
    7  if rank == 0 {{
> run
9 steps, depth 9
2 ahead: match 1.0 0.0: rank 1, line 13, to rank 0, line 8
   13    if rank == 1 {{ send 42 to 0 tag 7; }} else {{ send 5 to 0 tag 1; }}
    8    irecv r note from any tag any;
{STOLEN_CHOICE}
>
2 steps, depth 11
{STOLEN_END}
>
0 steps, depth 11
{STOLEN_END}
> goto 10
depth 10
1 ahead: wake 1: line 13
   13    if rank == 1 {{ send 42 to 0 tag 7; }} else {{ send 5 to 0 tag 1; }}
> back
depth 9
2 ahead: match 1.0 0.0: rank 1, line 13, to rank 0, line 8
   13    if rank == 1 {{ send 42 to 0 tag 7; }} else {{ send 5 to 0 tag 1; }}
    8    irecv r note from any tag any;
{STOLEN_CHOICE}
> next 2
10 match 2.0 0.0: rank 2, line 13, to rank 0, line 8
the 2 steps that lay ahead are gone
next: wake 2: line 13
   13    if rank == 1 {{ send 42 to 0 tag 7; }} else {{ send 5 to 0 tag 1; }}
> run 2
2 steps, depth 12
stopped: as many steps as were asked for
next: wake 0: line 9
    9    recv result from 1 tag 7;
> back
depth 11
1 ahead: match 1.0 0.1: rank 1, line 13, to rank 0, line 9
   13    if rank == 1 {{ send 42 to 0 tag 7; }} else {{ send 5 to 0 tag 1; }}
    9    recv result from 1 tag 7;
> deadlock
no deadlock from here: 1 run, and no more (1 done)
> redo
12 match 1.0 0.1: rank 1, line 13, to rank 0, line 9
next: wake 0: line 9
    9    recv result from 1 tag 7;
> quit
'''),
    Dialogue('a witness lies ahead from the start on', 'stolen_message.mpd', TO_STOLEN, witness=STOLEN_AHEAD),
    Dialogue('a run lies ahead by its choices from the start on', 'stolen_message.mpd', TO_STOLEN, run=NamedRun('0')),
    Dialogue('the same along the wide walk', 'stolen_message.mpd', TO_STOLEN, run=NamedRun(' 0 ', ends=True)),
    Dialogue('a run that ends well lies ahead', 'stolen_message.mpd', f'''
done is 17 steps ahead
17 ahead: local 0: line 7
    7  if rank == 0 {{
> run
9 steps, depth 9
8 ahead: match 2.0 0.0: rank 2, line 13, to rank 0, line 8
   13    if rank == 1 {{ send 42 to 0 tag 7; }} else {{ send 5 to 0 tag 1; }}
    8    irecv r note from any tag any;
{STOLEN_CHOICE}
> next
10 match 2.0 0.0: rank 2, line 13, to rank 0, line 8
7 ahead: wake 2: line 13
   13    if rank == 1 {{ send 42 to 0 tag 7; }} else {{ send 5 to 0 tag 1; }}
> run
7 steps, depth 17
rank 0 prints 42
ended: done
> redo
refused: no step is ahead
''', run=NamedRun('1')),
    Dialogue('a barrier that all leave', 'skipped_barrier.mpd', '''
> run 6
6 steps, depth 6
stopped: as many steps as were asked for
next: release: all ranks leave the barrier
> enabled
all ranks leave the barrier; release
> why 1
line 6, 1.0 barrier
> next
7 release: all ranks leave the barrier
next: local 0: line 7
    7  if work > 0 {
> why 1.0
line 6, 1.0 barrier
> break 9
breakpoint 0: line 9
> run
2 steps, depth 9
rank 0 prints 2
breakpoint 0: line 9
next: local 0: line 9
    9    barrier;
> run-back
1 step back, depth 8
before breakpoint 0: line 9
1 ahead: local 0: line 8
    8    print work;
> run
1 step, depth 9
rank 0 prints 2
breakpoint 0: line 9
next: local 0: line 9
    9    barrier;
> break change 2 work
breakpoint 1: change 2 work
> breaks
breakpoint 0: line 9
breakpoint 1: change 2 work
> delete 0
deleted 0
> break 7
breakpoint 0: line 7
> run-back
3 steps back, depth 6
before breakpoint 0: line 7
3 ahead: release: all ranks leave the barrier
> delete 0
deleted 0
> run
3 steps, depth 9
rank 0 prints 2
stopped: the steps ahead end here
next: local 0: line 9
    9    barrier;
> run
5 steps, depth 14
rank 1 prints 1
ended: deadlock: rank 0 at line 9, rank 1 at line 9
  rank 0 waits at line 9, 0.1 barrier: for all ranks at a barrier
    rank 2 is not there: it has ended
  rank 1 waits at line 9, 1.1 barrier: for all ranks at a barrier
    rank 2 is not there: it has ended
  rank 0 waits for rank 2 (ended)
  rank 1 waits for rank 2 (ended)
> why 0.0
line 6, 0.0 barrier
> why 0.1
line 9, 0.1 barrier
    rank 2 is not there: it has ended
'''),
    Dialogue('a breakpoint of each kind, and of two the lower', 'first_message.mpd', '''
> break line 9
breakpoint 0: line 9
> break match 6
breakpoint 1: match 6
> break change 1 x
breakpoint 2: change 1 x
> break match 8
breakpoint 3: match 8
> run
5 steps, depth 5
breakpoint 1: match 6
next: wake 0: line 6
    6    send 7 to 1 tag 0;
> run 2
2 steps, depth 7
breakpoint 0: line 9
next: local 1: line 9
    9    print x;
> delete 0
deleted 0
> delete 1
deleted 1
> run-back
1 step back, depth 6
before breakpoint 2: change 1 x
1 ahead: wake 1: line 8
    8    recv x from 0 tag 0;
> run-back
2 steps back, depth 4
before breakpoint 3: match 8
3 ahead: match 0.0 1.0: rank 0, line 6, to rank 1, line 8
    6    send 7 to 1 tag 0;
    8    recv x from 0 tag 0;
> run
1 step, depth 5
breakpoint 3: match 8
2 ahead: wake 0: line 6
    6    send 7 to 1 tag 0;
> run
2 steps, depth 7
breakpoint 2: change 1 x
next: local 1: line 9
    9    print x;
'''),
    Dialogue('as many steps as are kept', LOOP, '''
> run
3 steps, depth 3
stopped: no more than 1000000 steps are kept
next: local 0: line 2
    2  while 1 { }
> next
refused: no more than 1000000 steps are kept
> local 0
refused: no more than 1000000 steps are kept
> local 1
refused: this step is not enabled
> check
1 no choice: cut
1 run, and no more (1 cut)
one run for all orders of independent steps; diagnose counts each order
> deadlock
no deadlock found from here: 1 run, and no more (1 cut)
> run 1
0 steps, depth 3
stopped: no more than 1000000 steps are kept
next: local 0: line 2
    2  while 1 { }
> back 2
depth 1
2 ahead: local 0: line 2
    2  while 1 { }
> run 1
1 step, depth 2
stopped: as many steps as were asked for
1 ahead: local 0: line 2
    2  while 1 { }
> check
1 no choice: cut
1 run, and no more (1 cut)
one run for all orders of independent steps; diagnose counts each order
> run 1
1 step, depth 3
stopped: as many steps as were asked for
next: local 0: line 2
    2  while 1 { }
> run 1
0 steps, depth 3
stopped: no more than 1000000 steps are kept
next: local 0: line 2
    2  while 1 { }
''', limit=3),
    Dialogue('what is left of the steps that are kept', 'loop.mpd', '''
> check
1 no choice: cut
1 run, and no more (1 cut)
one run for all orders of independent steps; diagnose counts each order
> run 4
4 steps, depth 4
stopped: as many steps as were asked for
next: local 0: line 7
    7    i = i + 1;
> check
1 no choice: cut
1 run, and no more (1 cut)
one run for all orders of independent steps; diagnose counts each order
''', limit=10),
    Dialogue('and where all are kept', 'loop.mpd', '''
> run 3
3 steps, depth 3
stopped: as many steps as were asked for
next: local 0: line 6
    6  while i < 3 {
> check
1 no choice: done
1 run, and no more (1 done)
one run for all orders of independent steps; diagnose counts each order
> deadlock
no deadlock from here: 1 run, and no more (1 done)
''', limit=11),
    Dialogue('a run of one step too many, and the same from its second step on, where few may be tried',
             'mpd 1; ranks 1; var x;\nwhile x < 4 { x = x + 1; }\nprint 1;\nprint 2;', '''
> check
1 no choice: cut
1 run, and no more (1 cut)
one run for all orders of independent steps; diagnose counts each order
> deadlock
no deadlock found from here: 1 run, and no more (1 cut)
> next
1 local 0: line 2
next: local 0: line 2
    2  while x < 4 { x = x + 1; }
> check
1 no choice: done
1 run, and no more (1 done)
one run for all orders of independent steps; diagnose counts each order
> deadlock
no deadlock from here: 1 run, and no more (1 done)
''', fuel=10),
    Dialogue('steps ahead that are not those that come next', 'first_message.mpd', '''
> next
1 local 0: line 5
next: local 0: line 6
    6    send 7 to 1 tag 0;
> local 1
2 local 1: line 5
next: local 0: line 6
    6    send 7 to 1 tag 0;
> local 1
3 local 1: line 8
next: local 0: line 6
    6    send 7 to 1 tag 0;
> back 2
depth 1
2 ahead: local 1: line 5
    5  if rank == 0 {
> words
local 0
> enabled
rank 0 runs line 6; local 0
rank 1 runs line 5; local 1
> check
1 no choice: done
1 run, and no more (1 done)
one run for all orders of independent steps; diagnose counts each order
> redo
2 local 1: line 5
1 ahead: local 1: line 8
    8    recv x from 0 tag 0;
> next
3 local 1: line 8
next: local 0: line 6
    6    send 7 to 1 tag 0;
> redo
refused: no step is ahead
'''),
    Dialogue('a match that is enabled behind a local step', 'stolen_message.mpd', '''
> run 6
6 steps, depth 6
stopped: as many steps as were asked for
next: local 2: line 7
    7  if rank == 0 {
> enabled
rank 2 runs line 7; local 2
rank 1 sends 42, tag 7 (line 13), to rank 0 (line 8); match 1.0 0.0
'''),
    Dialogue('the first of two deadlocks', 'missing_sender.mpd', '''
> deadlock
deadlock is 21 steps ahead: rank 0 at line 9
21 ahead: local 0: line 7
    7  if rank == 0 {
> redo 7
depth 7
14 ahead: match 1.0 0.0: rank 1, line 15, to rank 0, line 9
   15    send rank to 0 tag 0;
    9      recv x from any tag 0;
stopped at a choice of rank 0, line 9; next N takes one:
    9      recv x from any tag 0;
  1: rank 1 sends 1, tag 0 (line 15); match 1.0 0.0
  2: rank 2 sends 2, tag 0 (line 15); match 2.0 0.0
'''))
# The last line of `check`.
ORDERS = "one run for all orders of independent steps; diagnose counts each order"
# What takes the model some seconds.
FIRST_RUNS = (
    Dialogue('more runs than are listed where no number is said', SEVEN_SENDERS,
             f'> check\n{first_orders(1000)}\n1000 runs, and there are more (1000 done)\n{ORDERS}\n> check 1001\n{first_orders(1001)}\n'
             f'1001 runs, and there are more (1001 done)\n{ORDERS}\n'),)
