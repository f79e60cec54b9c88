"""Worked dialogues of the console about breakpoints that a single step hits, and about looks that find no deadlock or trap: whether they saw all
ways to end (console_worked.py)."""

from model.debugger import BUFFERED
from rows.worked_console_scripts import OF_THREE, TAKES_THREE, THREE_SENDERS, Dialogue

# Prints, then loses a request, then changes a variable.
NEWS = '''mpd 1; ranks 1; var x; req r;
print 1;
print 2;
isend r 1 to 0 tag 0;
isend r 2 to 0 tag 1;
x = 1;
'''
LOST = 'rank 0 has lost a request: line 4, 0.0 isend to 0 tag 0 value 1'
# A wait for any of two, with a statement behind it.
ANY_THEN_PRINT = '''mpd 2; ranks 2;
var x; var i; req r[2];
if rank == 0 {
  irecv r[0] x from 1 tag 1;
  irecv r[1] x from 1 tag 3;
  waitany r to i;
  print i;
} else {
  isend r[0] 5 to 0 tag 1;
  isend r[1] 7 to 0 tag 3;
}
'''
OF_ANY = '''stopped at a choice of rank 0, line 6; next N takes one:
    6    waitany r to i;
  1: request r[0], the receive of line 4 (value 5); wakeany 0 0
  2: request r[1], the receive of line 5 (value 7); wakeany 0 1'''
SECOND_AHEAD = f'''ahead: wakeany 0 1: line 6, by line 5, 0.1 irecv from 1 tag 3
    6    waitany r to i;
{OF_ANY}'''
FIRST_AHEAD = f'''ahead: wakeany 0 0: line 6, by line 4, 0.0 irecv from 1 tag 1
    6    waitany r to i;
{OF_ANY}'''
THIRD_AHEAD = f'''1 ahead: match 3.0 0.0: rank 3, line 4, to rank 0, line 3
    4  }} else {{ send 1 to 0 tag 0; }}
{TAKES_THREE}
{OF_THREE}'''
# A barrier, which one rank comes to later.
LATER = '''mpd 1; ranks 2;
if rank == 1 { print 1; }
barrier;
print rank;
'''
# Two ranks that count to 3, from 0 and from 1: 9 steps of rank 0, then 7 of rank 1.
COUNTING = '''mpd 1; ranks 2;
var x; var a[2]; req r;
x = rank;
while x < 3 {
  x = x + 1;
}
print x;
'''
LONG_NAME = 'a' * 60

# What stands at a single step.
STEPS_HIT = (
    Dialogue('breakpoints of a rank and with a condition', COUNTING, '''
> break 5 if x==2
breakpoint 0: line 5 if x == 2
> run
6 steps, depth 6
breakpoint 0: line 5 if x == 2
next: local 0: line 5
    5    x = x + 1;
> b line 4 rank 1 if x >=3
breakpoint 1: line 4 rank 1 if x >= 3
> delete 0
deleted 0
> run
8 steps, depth 14
rank 0 prints 3
breakpoint 1: line 4 rank 1 if x >= 3
next: local 1: line 4
    4  while x < 3 {
> break rank 1
breakpoint 0: rank 1
> run
1 step, depth 15
breakpoint 0: rank 1
next: local 1: line 7
    7  print x;
> run-back
1 step back, depth 14
before breakpoint 0: rank 1
1 ahead: local 1: line 4
    4  while x < 3 {
> break match 5 rank 0
breakpoint 2: match 5 rank 0
> break 9 rank 1 if a[1] != -9223372036854775808
breakpoint 3: line 9 rank 1 if a[1] != -9223372036854775808
no statement begins at line 9
> breaks
breakpoint 0: rank 1
breakpoint 1: line 4 rank 1 if x >= 3
breakpoint 2: match 5 rank 0
breakpoint 3: line 9 rank 1 if a[1] != -9223372036854775808
> break 5 rank 2
refused: there is no such rank
> break rank 2
refused: there is no such rank
> break match 0 rank 2
refused: lines are 1 to 65537
> break 5 if y==2
no variable or request is called 'y'
> break 5 rank 1 if y<2
no variable or request is called 'y'
> break 5 if a == 2
refused: an array needs an index here
> break 5 if a[2] == 2
refused: there is no such index
> break 5 if r == 2
refused: a request has no value to compare
'''),
    Dialogue('breakpoints of a line, a match and a change, by next, by hand and by redo', 'first_message.mpd', '''
> break 6
breakpoint 0: line 6
> break 9
breakpoint 1: line 9
> break change 1 x
breakpoint 2: change 1 x
> break match 6
breakpoint 3: match 6
> next
1 local 0: line 5
breakpoint 0: line 6
next: local 0: line 6
    6    send 7 to 1 tag 0;
>
2 local 0: line 6
next: local 1: line 5
    5  if rank == 0 {
> back
depth 1
1 ahead: local 0: line 6
    6    send 7 to 1 tag 0;
>
depth 0
2 ahead: local 0: line 5
    5  if rank == 0 {
> redo
1 local 0: line 5
breakpoint 0: line 6
1 ahead: local 0: line 6
    6    send 7 to 1 tag 0;
> back
depth 0
2 ahead: local 0: line 5
    5  if rank == 0 {
> redo 2
depth 2
next: local 1: line 5
    5  if rank == 0 {
> goto 0
depth 0
2 ahead: local 0: line 5
    5  if rank == 0 {
> local 1
1 local 1: line 5
the 2 steps that lay ahead are gone
next: local 0: line 5
    5  if rank == 0 {
> local 0
2 local 0: line 5
breakpoint 0: line 6
next: local 0: line 6
    6    send 7 to 1 tag 0;
> goto 1
depth 1
1 ahead: local 0: line 5
    5  if rank == 0 {
> goto 2
depth 2
next: local 0: line 6
    6    send 7 to 1 tag 0;
> run
3 steps, depth 5
breakpoint 3: match 6
next: wake 0: line 6
    6    send 7 to 1 tag 0;
> next
6 wake 0: line 6
next: wake 1: line 8
    8    recv x from 0 tag 0;
>
7 wake 1: line 8
breakpoint 1: line 9
next: local 1: line 9
    9    print x;
> delete 1
deleted 1
> back
depth 6
1 ahead: wake 1: line 8
    8    recv x from 0 tag 0;
> wake 1
7 wake 1: line 8
breakpoint 2: change 1 x
next: local 1: line 9
    9    print x;
> back 2
depth 5
2 ahead: wake 0: line 6
    6    send 7 to 1 tag 0;
> redo all
depth 7
next: local 1: line 9
    9    print x;
> back
depth 6
1 ahead: wake 1: line 8
    8    recv x from 0 tag 0;
> redo all
7 wake 1: line 8
breakpoint 2: change 1 x
next: local 1: line 9
    9    print x;
> back
depth 6
1 ahead: wake 1: line 8
    8    recv x from 0 tag 0;
> redo 5
7 wake 1: line 8
breakpoint 2: change 1 x
next: local 1: line 9
    9    print x;
> back 3
depth 4
3 ahead: match 0.0 1.0: rank 0, line 6, to rank 1, line 8
    6    send 7 to 1 tag 0;
    8    recv x from 0 tag 0;
> break match 8
breakpoint 1: match 8
> redo
5 match 0.0 1.0: rank 0, line 6, to rank 1, line 8
breakpoint 1: match 8
2 ahead: wake 0: line 6
    6    send 7 to 1 tag 0;
> back
depth 4
3 ahead: match 0.0 1.0: rank 0, line 6, to rank 1, line 8
    6    send 7 to 1 tag 0;
    8    recv x from 0 tag 0;
> match 0.0 1.0
5 match 0.0 1.0: rank 0, line 6, to rank 1, line 8
breakpoint 1: match 8
2 ahead: wake 0: line 6
    6    send 7 to 1 tag 0;
> back
depth 4
3 ahead: match 0.0 1.0: rank 0, line 6, to rank 1, line 8
    6    send 7 to 1 tag 0;
    8    recv x from 0 tag 0;
> delete 1
deleted 1
> next
5 match 0.0 1.0: rank 0, line 6, to rank 1, line 8
breakpoint 3: match 6
2 ahead: wake 0: line 6
    6    send 7 to 1 tag 0;
> local 1
refused: this step is not enabled
'''),
    Dialogue('a breakpoint behind what is printed and lost on the way, and before an end', NEWS, f'''
> break 3
breakpoint 0: line 3
> break change 0 r
breakpoint 1: change 0 r
> break 6
breakpoint 2: line 6
> next
1 local 0: line 2
rank 0 prints 1
breakpoint 0: line 3
next: local 0: line 3
    3  print 2;
>
2 local 0: line 3
rank 0 prints 2
next: local 0: line 4
    4  isend r 1 to 0 tag 0;
>
3 local 0: line 4
breakpoint 1: change 0 r
next: local 0: line 5
    5  isend r 2 to 0 tag 1;
>
4 local 0: line 5
{LOST}
breakpoint 1: change 0 r
next: local 0: line 6
    6  x = 1;
> delete 1
deleted 1
> back
depth 3
1 ahead: local 0: line 5
    5  isend r 2 to 0 tag 1;
> redo
4 local 0: line 5
{LOST}
breakpoint 2: line 6
next: local 0: line 6
    6  x = 1;
> break change 0 x
breakpoint 1: change 0 x
> local 0
5 local 0: line 6
breakpoint 1: change 0 x
ended: leftovers: rank 0 at line 4, rank 0 at line 5
  left over: line 4, 0.0 isend to 0 tag 0 value 1
  left over: line 5, 0.1 isend to 0 tag 1 value 2
{LOST}
> next
ended: leftovers: rank 0 at line 4, rank 0 at line 5
  left over: line 4, 0.0 isend to 0 tag 0 value 1
  left over: line 5, 0.1 isend to 0 tag 1 value 2
{LOST}
> goto 3
depth 3
2 ahead: local 0: line 5
    5  isend r 2 to 0 tag 1;
> goto 4
depth 4
{LOST}
1 ahead: local 0: line 6
    6  x = 1;
> back 4
depth 0
5 ahead: local 0: line 2
    2  print 1;
'''),
    Dialogue('a barrier that is left, and the lowest of several that are set, be they hit or not', LATER, '''
> break 4
breakpoint 0: line 4
> break 3
breakpoint 1: line 3
> break 2
breakpoint 2: line 2
> break 4
breakpoint 3: line 4
> next
1 local 0: line 2
breakpoint 1: line 3
next: local 0: line 3
    3  barrier;
>
2 local 0: line 3
next: local 1: line 2
    2  if rank == 1 { print 1; }
>
3 local 1: line 2
breakpoint 2: line 2
next: local 1: line 2
    2  if rank == 1 { print 1; }
>
4 local 1: line 2
rank 1 prints 1
breakpoint 1: line 3
next: local 1: line 3
    3  barrier;
>
5 local 1: line 3
next: release: all ranks leave the barrier
>
6 release: all ranks leave the barrier
breakpoint 0: line 4
next: local 0: line 4
    4  print rank;
> undo-choice
refused: no choice was made before
> back
depth 5
1 ahead: release: all ranks leave the barrier
> delete 0
deleted 0
> release
6 release: all ranks leave the barrier
breakpoint 3: line 4
next: local 0: line 4
    4  print rank;
> next 1
1 step, depth 7
rank 0 prints 0
stopped: as many steps as were asked for
next: local 1: line 4
    4  print rank;
'''),
    Dialogue('a breakpoint that is longer than a line, at a step', f'mpd 1; ranks 1; var {LONG_NAME};\n{LONG_NAME} = 1;', f'''
> break change 0 {LONG_NAME}
breakpoint 0: change 0
        {LONG_NAME}
> next
1 local 0: line 2
breakpoint 0: change 0
        {LONG_NAME}
ended: done
'''))

CHOICES_HIT = (
    Dialogue('breakpoints of a change and of a line at a choice: next, next N, run, redo, by hand, and goto', ANY_THEN_PRINT, f'''
> run
9 steps, depth 9
{OF_ANY}
> break change 0 i
breakpoint 0: change 0 i
> break 7
breakpoint 1: line 7
> break change 0 r[0]
breakpoint 2: change 0 r[0]
> next 2
10 wakeany 0 1: line 6, by line 5, 0.1 irecv from 1 tag 3
breakpoint 0: change 0 i
next: local 0: line 7
    7    print i;
> undo-choice
depth 9
1 {SECOND_AHEAD}
> next
10 wakeany 0 1: line 6, by line 5, 0.1 irecv from 1 tag 3
breakpoint 0: change 0 i
next: local 0: line 7
    7    print i;
> back
depth 9
1 {SECOND_AHEAD}
> run
1 step, depth 10
breakpoint 0: change 0 i
next: local 0: line 7
    7    print i;
>
1 step, depth 11
rank 0 prints 1
ended: done
> goto 9
depth 9
2 {SECOND_AHEAD}
> redo
10 wakeany 0 1: line 6, by line 5, 0.1 irecv from 1 tag 3
breakpoint 0: change 0 i
1 ahead: local 0: line 7
    7    print i;
> undo-choice
depth 9
2 {SECOND_AHEAD}
> wakeany 0 1
10 wakeany 0 1: line 6, by line 5, 0.1 irecv from 1 tag 3
breakpoint 0: change 0 i
1 ahead: local 0: line 7
    7    print i;
> goto 9
depth 9
2 {SECOND_AHEAD}
> goto 10
depth 10
1 ahead: local 0: line 7
    7    print i;
> back
depth 9
2 {SECOND_AHEAD}
> redo 2
depth 11
rank 0 prints 1
ended: done
> undo-choice
depth 9
2 {SECOND_AHEAD}
> next 3
refused: there is no such candidate
2 {SECOND_AHEAD}
> next 1
10 wakeany 0 0: line 6, by line 4, 0.0 irecv from 1 tag 1
the 2 steps that lay ahead are gone
breakpoint 1: line 7
next: local 0: line 7
    7    print i;
> back
depth 9
1 {FIRST_AHEAD}
> run
1 step, depth 10
breakpoint 1: line 7
next: local 0: line 7
    7    print i;
> delete 1
deleted 1
> back
depth 9
1 {FIRST_AHEAD}
> run 7
1 step, depth 10
breakpoint 2: change 0 r[0]
next: local 0: line 7
    7    print i;
> delete 2
deleted 2
> back
depth 9
1 {FIRST_AHEAD}
> run
1 step, depth 10
stopped: the steps ahead end here
next: local 0: line 7
    7    print i;
> back
depth 9
1 {FIRST_AHEAD}
> next
10 wakeany 0 0: line 6, by line 4, 0.0 irecv from 1 tag 1
next: local 0: line 7
    7    print i;
'''),
    Dialogue('breakpoints of a match at a choice, two of which are hit', THREE_SENDERS, f'''
> run
9 steps, depth 9
{OF_THREE}
> break match 4
breakpoint 0: match 4
> break match 3
breakpoint 1: match 3
> next 3
10 match 3.0 0.0: rank 3, line 4, to rank 0, line 3
breakpoint 0: match 4
next: wake 0: line 3
{TAKES_THREE}
> delete 0
deleted 0
> undo-choice
depth 9
{THIRD_AHEAD}
> run
1 step, depth 10
breakpoint 1: match 3
next: wake 0: line 3
{TAKES_THREE}
> undo-choice
depth 9
{THIRD_AHEAD}
> next
10 match 3.0 0.0: rank 3, line 4, to rank 0, line 3
breakpoint 1: match 3
next: wake 0: line 3
{TAKES_THREE}
> back
depth 9
{THIRD_AHEAD}
> redo
10 match 3.0 0.0: rank 3, line 4, to rank 0, line 3
breakpoint 1: match 3
next: wake 0: line 3
{TAKES_THREE}
> break match 4
breakpoint 0: match 4
> u
depth 9
{THIRD_AHEAD}
> goto 10
depth 10
next: wake 0: line 3
{TAKES_THREE}
> back
depth 9
{THIRD_AHEAD}
> match 2.0 0.0
10 match 2.0 0.0: rank 2, line 4, to rank 0, line 3
the step that lay ahead is gone
breakpoint 0: match 4
next: wake 0: line 3
{TAKES_THREE}
'''))

# By the message that comes first a run goes on for ever, or is done.
SOMETIMES_ENDLESS = '''mpd 1; ranks 3; var x;
if rank == 0 {
  recv x from any tag 0;
  while x == 2 { }
  recv x from any tag 0;
} else { send rank to 0 tag 0; }
'''
ENDLESS_CHOICE = '''stopped at a choice of rank 0, line 3; next N takes one:
    3    recv x from any tag 0;
  1: rank 1 sends 1, tag 0 (line 6); match 1.0 0.0
  2: rank 2 sends 2, tag 0 (line 6); match 2.0 0.0'''

NONE_FOUND = (
    Dialogue('a wait for any, of which all ways to end are looked at', 'waitany.mpd', '''
> deadlock
no deadlock from here: 2 runs, and no more (2 done)
> trap
no trap from here: 2 runs, and no more (2 done)
> follow 2
run 2, done, is 22 steps ahead
22 ahead: local 0: line 8
    8  if rank == 0 {
> redo all
depth 22
rank 0 prints 20 10
ended: done
> deadlock
no deadlock from here: 1 run, and no more (1 done)
'''),
    Dialogue('a wait for any, of which one run is looked at', 'waitany.mpd', '''
> deadlock
no deadlock found from here: 1 run, and there are more (1 done)
> trap
no trap found from here: 1 run, and there are more (1 done)
''', runs=1, states=1),
    Dialogue('a wait for any, by which runs are cut', 'order_decides.mpd', '''
> deadlock
no deadlock found from here: 3 runs, and no more (3 cut)
> trap
no trap found from here: 3 runs, and no more (3 cut)
> next
1 local 0: line 7
next: local 0: line 8
    8    irecv r[0] x from 1 tag 0;
> deadlock
no deadlock from here: 3 runs, and no more (2 done, 1 trap)
> trap
trap is 13 steps ahead: rank 0 at line 11 (assert)
13 ahead: local 0: line 8
    8    irecv r[0] x from 1 tag 0;
''', fuel=13),
    Dialogue('a wait for any that no rank comes to', 'mpd 2; ranks 1; var i; req r[1];\nif 1 { } else { while 1 { waitany r to i; } }\n', '''
> deadlock
no deadlock from here: 1 run, and no more (1 done)
> trap
no trap from here: 1 run, and no more (1 done)
'''),
    Dialogue('a wait for any of nothing, in no block', 'mpd 2; ranks 1; var i; req r[1];\nwaitany r to i;\n', '''
> deadlock
no deadlock from here: 1 run, and no more (1 done)
> next
1 local 0: line 2
next: wake 0: line 2
    2  waitany r to i;
> trap
no trap from here: 1 run, and no more (1 done)
'''),
    Dialogue('a script of version 2 without one, but for a comment', 'mpd 2; ranks 1; var i; # waitany r to i;\nif 1 { } else { i = 1; }\n', '''
> deadlock
no deadlock from here: 1 run, and no more (1 done)
> trap
no trap from here: 1 run, and no more (1 done)
'''),
    Dialogue('sends with a slot, which two matches give back in either order, to one end', 'head_to_head.mpd', '''
> deadlock
no deadlock from here: 2 runs, and no more (2 done)
> trap
no trap from here: 2 runs, and no more (2 done)
> check
1 choices 1 1: done
1 run, and no more (1 done)
one run for all orders of independent steps; diagnose counts each order
''', 'slots:1'),
    Dialogue('sends without any slot', 'head_to_head.mpd', '''
> deadlock
deadlock is 2 steps ahead: rank 0 at line 5, rank 1 at line 5
2 ahead: local 0: line 5
    5  send rank + 10 to 1 - rank tag 5;
> trap
no trap from here: 1 run, and no more (1 deadlock)
''', 'slots:0'),
    Dialogue('sends with buffers', 'head_to_head.mpd', '''
> deadlock
no deadlock from here: 1 run, and no more (1 done)
> trap
no trap from here: 1 run, and no more (1 done)
''', BUFFERED),
    Dialogue('one run of two that is cut', SOMETIMES_ENDLESS, f'''
> deadlock
no deadlock found from here: 2 runs, and no more (1 done, 1 cut)
> trap
no trap found from here: 2 runs, and no more (1 done, 1 cut)
> run
6 steps, depth 6
{ENDLESS_CHOICE}
> next 1
7 match 1.0 0.0: rank 1, line 6, to rank 0, line 3
next: wake 0: line 3
    3    recv x from any tag 0;
> trap
no trap from here: 1 run, and no more (1 done)
> undo-choice
depth 6
1 ahead: match 1.0 0.0: rank 1, line 6, to rank 0, line 3
    6  }} else {{ send rank to 0 tag 0; }}
    3    recv x from any tag 0;
{ENDLESS_CHOICE}
> next 2
7 match 2.0 0.0: rank 2, line 6, to rank 0, line 3
the step that lay ahead is gone
next: wake 0: line 3
    3    recv x from any tag 0;
> deadlock
no deadlock found from here: 1 run, and no more (1 cut)
''', fuel=50))

HITS = STEPS_HIT + CHOICES_HIT + NONE_FOUND
