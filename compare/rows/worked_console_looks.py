"""Worked dialogues of the console that look: why calls are not matched, where ranks stand, variables and requests (console_worked.py)."""

from model.debugger import BUFFERED
from rows.worked_console_scripts import ANY_OF_TWO, APART, AT_A_BARRIER, BEFORE_A_BARRIER, BEHIND_ANOTHER, CELLS, NEARLY, ONE_CELL, ONE_OF_TWO, WAITS, Dialogue

LOOKS = (
    Dialogue('requests that are waited for, and near misses', WAITS, '''
> run
6 steps, depth 6
ended: deadlock: rank 0 at line 5, rank 1 at line 8
  rank 0 waits at line 5, 0.1 wait 0: for request 0.0
    line 4, 0.0 irecv from 1 tag 3: for a send of rank 1 with tag 3
    nearest miss: line 7, 1.0 isend to 0 tag 4 value 7: another tag
  rank 1 waits at line 8, 1.1 wait 0: for request 1.0
    line 7, 1.0 isend to 0 tag 4 value 7: for a receive of rank 0 from rank 1
        with tag 4
    nearest miss: line 4, 0.0 irecv from 1 tag 3: another tag
  rank 0 waits for rank 1
  rank 1 waits for rank 0
  a cycle, where each waits for the next: rank 0, rank 1, rank 0
> why 0
line 5, 0.1 wait 0
line 4, 0.0 irecv from 1 tag 3 free
  has no partner yet: for a send of rank 1 with tag 3
    nearest miss: line 7, 1.0 isend to 0 tag 4 value 7: another tag
> w 1.0
line 7, 1.0 isend to 0 tag 4 value 7 free
  has no partner yet: for a receive of rank 0 from rank 1 with tag 4
    nearest miss: line 4, 0.0 irecv from 1 tag 3: another tag
> print h
rank 0: h = line 4, 0.0 irecv from 1 tag 3
rank 1: h = no request
> print r 1
rank 1: r[0] = no request, r[1] = line 7, 1.0 isend to 0 tag 4 value 7
> ranks
rank 0 waits at line 5, 0.1 wait 0
rank 1 waits at line 8, 1.1 wait 0
> calls 1
line 7, 1.0 isend to 0 tag 4 value 7 free
line 8, 1.1 wait 0
> why 2
refused: there is no such rank
> why 0.2
refused: there is no such call
> why 2.0
refused: there is no such call
'''),
    Dialogue('a near miss and what was taken, one below the other', NEARLY, '''
> run
9 steps, depth 9
ended: deadlock: rank 1 at line 7
  rank 1 waits at line 7, 1.1 recv from 0 tag 1: for a send of rank 0 with tag 1
    nearest miss: line 4, 0.1 isend to 1 tag 2 value 6: another tag
    the last that fits is taken: line 3, 0.0 send to 1 tag 1 value 5, by line 6,
        1.0 recv from 0 tag any
  rank 1 waits for rank 0 (ended)
  left over: line 4, 0.1 isend to 1 tag 2 value 6
> why 1
line 7, 1.1 recv from 0 tag 1 free
  has no partner yet: for a send of rank 0 with tag 1
    nearest miss: line 4, 0.1 isend to 1 tag 2 value 6: another tag
    the last that fits is taken: line 3, 0.0 send to 1 tag 1 value 5, by line 6,
        1.0 recv from 0 tag any
> why 0
rank 0 waits for no call
'''),
    Dialogue('no near miss where something fits', ONE_OF_TWO, '''
> run 6
6 steps, depth 6
stopped: as many steps as were asked for
next: match 1.0 0.0: rank 1, line 2, to rank 0, line 2
    2  if rank == 0 { recv x from 1 tag 7; } else { send rank to 0 tag 7; }
> why 0
line 2, 0.0 recv from 1 tag 7 free
  can be matched with line 2, 1.0 send to 0 tag 7 value 1
> why 2
line 2, 2.0 send to 0 tag 7 value 2 free
  has no partner yet: for a receive of rank 0 from rank 2 with tag 7
    nearest miss: line 2, 0.0 recv from 1 tag 7: another source
'''),
    Dialogue('a wait for any of two requests', ANY_OF_TWO, '''
> run 9
9 steps, depth 9
ended: deadlock: rank 0 at line 6, rank 1 at line 8
  rank 0 waits at line 6, 0.2 waitany 0 3: for one of these requests
    line 5, 0.1 issend to 2 tag 0 value 5: for a receive of rank 2 from rank 0
        with tag 0
    nearest miss: line 8, 1.0 recv from 0 tag 0: another destination
    line 4, 0.0 irecv from 1 tag 1: for a send of rank 1 with tag 1
  rank 1 waits at line 8, 1.0 recv from 0 tag 0: for a send of rank 0 with tag 0
    nearest miss: line 5, 0.1 issend to 2 tag 0 value 5: another destination
  rank 0 waits for any of rank 1, rank 2 (ended)
  rank 1 waits for rank 0
> why 0
line 6, 0.2 waitany 0 3
line 5, 0.1 issend to 2 tag 0 value 5 free
  has no partner yet: for a receive of rank 2 from rank 0 with tag 0
    nearest miss: line 8, 1.0 recv from 0 tag 0: another destination
line 4, 0.0 irecv from 1 tag 1 free
  has no partner yet: for a send of rank 1 with tag 1
> wakeany 0 0
refused: this step is not enabled
> wakeany 0 3
refused: this step is not enabled
> print r[2] 0
rank 0: r[2] = line 4, 0.0 irecv from 1 tag 1
'''),
    Dialogue('a choice of requests, and waits that are behind', 'waitany.mpd', '''
> run 9
9 steps, depth 9
stopped: as many steps as were asked for
next: match 1.0 0.0: rank 1, line 17, to rank 0, line 9
   17    send rank * 10 to 0 tag 0;
    9    irecv r[0] answers[0] from 1 tag 0;
> run
4 steps, depth 13
stopped at a choice of rank 0, line 12; next N takes one:
   12      waitany r to which;
  1: request r[0], the receive of line 9 (value 10); wakeany 0 0
  2: request r[1], the receive of line 10 (value 20); wakeany 0 1
> enabled
request r[0], the receive of line 9 (value 10), for rank 0; wakeany 0 0
request r[1], the receive of line 10 (value 20), for rank 0; wakeany 0 1
> check
1 choices 1 1: done
2 choices 2 1: done
2 runs, and no more (2 done)
one run for all orders of independent steps; diagnose counts each order
> why 0
line 12, 0.2 waitany 0 2
line 9, 0.0 irecv from 1 tag 0 with 1.0 value 10
line 10, 0.1 irecv from 2 tag 0 with 2.0 value 20
> ranks
rank 0 waits at line 12, 0.2 waitany 0 2
rank 1 has ended
rank 2 has ended
> back
depth 12
1 ahead: wake 2: line 17
   17    send rank * 10 to 0 tag 0;
> ranks
rank 0 waits at line 12, 0.2 waitany 0 2
rank 1 has ended
rank 2 can go on from line 17, 2.0 send to 0 tag 0 value 20
> why
line 12, 0.2 waitany 0 2
line 9, 0.0 irecv from 1 tag 0 with 1.0 value 10
line 10, 0.1 irecv from 2 tag 0 with 2.0 value 20
line 17, 2.0 send to 0 tag 0 value 20 with 0.1
  the call is complete: rank 2 can go on
> wakeany 0 0
13 wakeany 0 0: line 12, by line 9, 0.0 irecv from 1 tag 0
the step that lay ahead is gone
next: local 0: line 13
   13      print answers[which];
> why 0.2
line 12, 0.2 waitany 0 2
> wakeany 0 1
refused: this step is not enabled
> run 5
5 steps, depth 18
rank 0 prints 10
stopped: as many steps as were asked for
next: wakeany 0 1: line 12, by line 10, 0.1 irecv from 2 tag 0
   12      waitany r to which;
> enabled
request r[1], the receive of line 10 (value 20), for rank 0; wakeany 0 1
> next
19 wakeany 0 1: line 12, by line 10, 0.1 irecv from 2 tag 0
next: local 0: line 13
   13      print answers[which];
> run
3 steps, depth 22
rank 0 prints 20
ended: done
> vars 0
rank 0: answers = [10, 20], which = 1, taken = 2, r = [-, -]
rank 0 has printed 10 20
'''),
    Dialogue('a barrier that two ranks are not at, and what is done by hand', AT_A_BARRIER, '''
> calls
no call
> run
7 steps, depth 7
ended: deadlock: rank 0 at line 2, rank 1 at line 4
  rank 0 waits at line 2, 0.0 barrier: for all ranks at a barrier
    rank 1 is not there: it waits at line 4, 1.0 ssend to 2 tag 0 value 1
    rank 2 is not there: it has ended
  rank 1 waits at line 4, 1.0 ssend to 2 tag 0 value 1: for a receive of rank 2
        from rank 1 with tag 0
  rank 0 waits for all of rank 1, rank 2 (ended)
  rank 1 waits for rank 2 (ended)
> why 0
line 2, 0.0 barrier
    rank 1 is not there: it waits at line 4, 1.0 ssend to 2 tag 0 value 1
    rank 2 is not there: it has ended
> release
refused: this step is not enabled
> match 1.0 2.0
refused: this step is not enabled
> wake 1
refused: this step is not enabled
> local 7
refused: this step is not enabled
> queues
pending 1 to 2: line 4, 1.0 ssend to 2 tag 0 value 1
'''),
    Dialogue('where ranks are that are not at a barrier, as they go on', BEFORE_A_BARRIER, '''
> run 2
2 steps, depth 2
stopped: as many steps as were asked for
next: local 1: line 2
    2  if rank == 0 { barrier; }
> why
line 2, 0.0 barrier
    rank 1 is not there: it is at line 2
    rank 2 is not there: it is at line 2
> run 3
3 steps, depth 5
stopped: as many steps as were asked for
next: local 2: line 2
    2  if rank == 0 { barrier; }
> why
line 2, 0.0 barrier
    rank 1 is not there: it waits at line 4, 1.0 recv from 2 tag 0
    rank 2 is not there: it is at line 2
line 4, 1.0 recv from 2 tag 0 free
  has no partner yet: for a send of rank 2 with tag 0
> run 4
4 steps, depth 9
stopped: as many steps as were asked for
next: match 2.0 1.0: rank 2, line 8, to rank 1, line 4
    8    send 0 to 1 tag 0;
    4    recv x from 2 tag 0;
> next
10 match 2.0 1.0: rank 2, line 8, to rank 1, line 4
next: wake 1: line 4
    4    recv x from 2 tag 0;
> why 0
line 2, 0.0 barrier
    rank 1 is not there: it waits at line 4, 1.0 recv from 2 tag 0
    rank 2 is not there: it waits at line 8, 2.0 send to 1 tag 0 value 0
> next
11 wake 1: line 4
next: local 1: line 5
    5    print 1 / x;
> why 0.0
line 2, 0.0 barrier
    rank 1 is not there: it is at line 5
    rank 2 is not there: it waits at line 8, 2.0 send to 1 tag 0 value 0
> next
12 local 1: line 5
next: wake 2: line 8
    8    send 0 to 1 tag 0;
> why 0
line 2, 0.0 barrier
    rank 1 is not there: it is at line 5
    rank 2 is not there: it waits at line 8, 2.0 send to 1 tag 0 value 0
> next
13 wake 2: line 8
next: local 2: line 10
   10  barrier;
> why 0
line 2, 0.0 barrier
    rank 1 is not there: it is at line 5
    rank 2 is not there: it is at line 10
> next
14 local 2: line 10
ended: trap: rank 1 at line 5 (zero-divisor)
  rank 1, line 5: trap zero-divisor, with x = 0
> why
line 2, 0.0 barrier
    rank 1 is not there: it is at line 5
line 10, 2.1 barrier
    rank 1 is not there: it is at line 5
'''),
    Dialogue('a trap, and where ranks stand', 'trap.mpd', '''
> run
9 steps, depth 9
rank 0 prints 5
ended: trap: rank 1 at line 10 (zero-divisor)
  rank 1, line 10: trap zero-divisor, with x = 0
> ranks
rank 0 has ended
rank 1 is trapped at line 10: zero-divisor
> list 1
    6    send 0 to 1 tag 0;
    7    print 5;
    8  } else {
    9    recv x from 0 tag 0;
   10    print 10 / x;  <- rank 1 trapped
   11  }
> list
    1  # A trap: rank 1 divides by the 0 that it has received, and stops there for good; rank 0 goes on to its end.
    2  mpd 1;
    3  ranks 2;
    4  var x;
    5  if rank == 0 {
    6    send 0 to 1 tag 0;
    7    print 5;
    8  } else {
    9    recv x from 0 tag 0;
   10    print 10 / x;  <- rank 1 trapped
   11  }
ended: rank 0
> why 1
rank 1 waits for no call
> show
depth 9 of 9
rank 0 ended
vars 0
handles
out 5
call 0.0 send to 1 tag 0 value 0 with 1.0
rank 1 trapped zero-divisor
vars 0
handles
out
call 1.0 recv from 0 tag 0 with 0.0 value 0
set pair 0.0 1.0
set woke 0.0
set woke 1.0
outcome trap 1 zero-divisor
end
> goto 0
depth 0
9 ahead: local 0: line 5
    5  if rank == 0 {
> deadlock
no deadlock from here: 1 run, and no more (1 trap)
'''),
    Dialogue('arrays and requests, those of no cell among them', CELLS, '''
> vars 0
rank 0: a = [0, 0, 0], none = [], h = -, b = 0, g = [-, -], empty = []
> run 3
3 steps, depth 3
rank 0 prints 0
stopped: as many steps as were asked for
next: local 0: line 6
    6  barrier;
> print a
rank 0: a[0] = 0, a[1] = -5, a[2] = 0
rank 1: a[0] = 0, a[1] = 0, a[2] = 0
> print a[1] 0
rank 0: a[1] = -5
> print g 0
rank 0: g[0] = no request, g[1] = line 4, 0.0 isend to 0 tag 9 value -5
> print g[01]
rank 0: g[1] = line 4, 0.0 isend to 0 tag 9 value -5
rank 1: g[1] = no request
> print empty 1
rank 1: empty has no cell
> print none
rank 0: none has no cell
rank 1: none has no cell
> vars
rank 0: a = [0, -5, 0], none = [], h = -, b = 0, g = [-, 0.0], empty = []
rank 0 has printed 0
rank 1: a = [0, 0, 0], none = [], h = -, b = 0, g = [-, -], empty = []
> print a[3]
refused: there is no such index
> print a[0000000001] 0
refused: there is no such index
> print a[3000000000]
refused: there is no such index
> print none[0]
refused: there is no such index
> print b[0]
refused: there is no such index
> print a 2
refused: there is no such rank
> vars 2
refused: there is no such rank
> calls 2
refused: there is no such rank
> print c
no variable or request is called 'c'
> print c[7] 9
no variable or request is called 'c'
> print a[1 0
refused: an operator or ']' is expected at '0'
> print g[2] 9
refused: there is no such index
> print rank
rank 0: rank = 0
rank 1: rank = 1
> break change 0 a[1]
breakpoint 0: change 0 a[1]
> break change 1 b
breakpoint 1: change 1 b
> break change 0 a
refused: an array needs an index here
> watch a 0
refused: an array needs an index here
> watch a[3] 0
refused: there is no such index
> break change 0 a[3]
refused: there is no such index
> break change 0 b[0]
refused: there is no such index
> break change 2 b
refused: there is no such rank
> break change 0 h
breakpoint 2: change 0 h
> break change 0 h[0]
refused: there is no such index
> break change 0 g
refused: an array needs an index here
> break change 0 g[1]
breakpoint 3: change 0 g[1]
> break change 0 g[9]
refused: there is no such index
> break change 2 g[1]
refused: there is no such rank
> break change 0 empty
refused: an array needs an index here
> break change 0 empty[0]
refused: there is no such index
> break change 0 none
refused: an array needs an index here
> break change 0 none[0]
refused: there is no such index
> break change 0 c
no variable or request is called 'c'
> break change 2 c
no variable or request is called 'c'
> break change 2 a
refused: an array needs an index here
> break 0
refused: lines are 1 to 65537
> break match 0
refused: lines are 1 to 65537
> break 65538
refused: lines are 1 to 65537
> break 65537
breakpoint 4: line 65537
no statement begins at line 65537
> break match 65537
breakpoint 5: match 65537
no statement begins at line 65537
> break 3
breakpoint 6: line 3
> breaks
breakpoint 0: change 0 a[1]
breakpoint 1: change 1 b
breakpoint 2: change 0 h
breakpoint 3: change 0 g[1]
breakpoint 4: line 65537
breakpoint 5: match 65537
breakpoint 6: line 3
> delete 1
deleted 1
> delete 1
refused: no breakpoint has this number
> delete 64
refused: no breakpoint has this number
> break change 1 a[2]
breakpoint 1: change 1 a[2]
> run-back
2 steps back, depth 1
before breakpoint 3: change 0 g[1]
2 ahead: local 0: line 4
    4  isend g[1] a[1] to rank tag 9;
> run-back
1 step back, depth 0
before breakpoint 0: change 0 a[1]
3 ahead: local 0: line 3
    3  a[1] = -5;
> back
refused: fewer steps are taken
> run
1 step, depth 1
breakpoint 0: change 0 a[1]
2 ahead: local 0: line 4
    4  isend g[1] a[1] to rank tag 9;
>
1 step, depth 2
breakpoint 3: change 0 g[1]
1 ahead: local 0: line 5
    5  print b;
'''),
    Dialogue('an array of one cell, which is that cell', ONE_CELL, '''
> print one
rank 0: one[0] = 0
> break change 0 one
breakpoint 0: change 0 one[0]
> break change 0 one[0]
breakpoint 1: change 0 one[0]
> break change 0 one[1]
refused: there is no such index
> break change 1 one
refused: there is no such rank
> run
1 step, depth 1
breakpoint 0: change 0 one[0]
next: local 0: line 3
    3  one[0] = 5;
> print one
rank 0: one[0] = 4
'''),
    Dialogue('sends with a slot', 'head_to_head.mpd', '''
> run 2
2 steps, depth 2
stopped: as many steps as were asked for
next: wake 0: line 5
    5  send rank + 10 to 1 - rank tag 5;
> calls
line 5, 0.0 send to 1 tag 5 value 10 buffered free
line 5, 1.0 send to 0 tag 5 value 11 buffered free
> why 0
line 5, 0.0 send to 1 tag 5 value 10 buffered free
  has no partner yet: for a receive of rank 1 from rank 0 with tag 5
  the call is complete: rank 0 can go on
> why 0.0
line 5, 0.0 send to 1 tag 5 value 10 buffered free
  has no partner yet: for a receive of rank 1 from rank 0 with tag 5
> queues
pending 0 to 1: line 5, 0.0 send to 1 tag 5 value 10
pending 1 to 0: line 5, 1.0 send to 0 tag 5 value 11
> ranks
rank 0 can go on from line 5, 0.0 send to 1 tag 5 value 10
rank 1 can go on from line 5, 1.0 send to 0 tag 5 value 11
> run
10 steps, depth 12
rank 0 prints 11
rank 1 prints 10
ended: done
> history 2
11 wake 1: line 6
12 local 1: line 7
''', 'slots:1'),
    Dialogue('the same without buffers', 'head_to_head.mpd', '''
> run
2 steps, depth 2
ended: deadlock: rank 0 at line 5, rank 1 at line 5
  rank 0 waits at line 5, 0.0 send to 1 tag 5 value 10: for a receive of rank 1
        from rank 0 with tag 5
  rank 1 waits at line 5, 1.0 send to 0 tag 5 value 11: for a receive of rank 0
        from rank 1 with tag 5
  rank 0 waits for rank 1
  rank 1 waits for rank 0
  a cycle, where each waits for the next: rank 0, rank 1, rank 0
'''),
    Dialogue('and where all are buffered', 'head_to_head.mpd', '''
> run 3
3 steps, depth 3
stopped: as many steps as were asked for
next: local 0: line 6
    6  recv x from 1 - rank tag 5;
> calls 0
line 5, 0.0 send to 1 tag 5 value 10 free
> deadlock
no deadlock from here: 1 run, and no more (1 done)
''', BUFFERED),
    Dialogue('pictures of a race, behind steps that are undone too', 'race.mpd', '''
> picture
0 1 2  line: call
V V V  at the end
S send, R receive, W wait, A waitany, B barrier, P print, o-> match, == release
at the end: E ended, V can go on, ~ waits, ! blocked, X trapped
> run
6 steps, depth 6
stopped at a choice of rank 0, line 7; next N takes one:
    7  if rank == 0 { recv x from any tag any status who tag_of; recv x from 1
        tag any; } else { send rank to 0 tag 0; }
  1: rank 1 sends 1, tag 0 (line 7); match 1.0 0.0
  2: rank 2 sends 2, tag 0 (line 7); match 2.0 0.0
> picture
0 1 2  line: call
R | |  7: 0.0 recv from any tag any free
| S |  7: 1.0 send to 0 tag 0 free
| | S  7: 2.0 send to 0 tag 0 free
~ ~ ~  at the end
S send, R receive, W wait, A waitany, B barrier, P print, o-> match, == release
at the end: E ended, V can go on, ~ waits, ! blocked, X trapped
> next 1
7 match 1.0 0.0: rank 1, line 7, to rank 0, line 7
next: wake 0: line 7
    7  if rank == 0 { recv x from any tag any status who tag_of; recv x from 1
        tag any; } else { send rank to 0 tag 0; }
> run 3
3 steps, depth 10
ended: deadlock: rank 0 at line 7, rank 2 at line 7
  rank 0 waits at line 7, 0.1 recv from 1 tag any: for a send of rank 1 with any
        tag
    nearest miss: line 7, 2.0 send to 0 tag 0 value 2: another source
    the last that fits is taken: line 7, 1.0 send to 0 tag 0 value 1, by line 7,
        0.0 recv from any tag any
  rank 2 waits at line 7, 2.0 send to 0 tag 0 value 2: for a receive of rank 0
        from rank 2 with tag 0
    nearest miss: line 7, 0.1 recv from 1 tag any: another source
    the last that fits is taken: line 7, 0.0 recv from any tag any, by line 7,
        1.0 send to 0 tag 0 value 1
  rank 0 waits for rank 1 (ended)
  rank 2 waits for rank 0
> picture
0 1 2  line: call
R | |  7: 0.0 recv from any tag any
| S |  7: 1.0 send to 0 tag 0
| | S  7: 2.0 send to 0 tag 0 free
<-o |  1.0 to 0.0: 1
R | |  7: 0.1 recv from 1 tag any free
! E !  at the end
S send, R receive, W wait, A waitany, B barrier, P print, o-> match, == release
at the end: E ended, V can go on, ~ waits, ! blocked, X trapped
> goto 0
depth 0
10 ahead: local 0: line 7
    7  if rank == 0 { recv x from any tag any status who tag_of; recv x from 1
        tag any; } else { send rank to 0 tag 0; }
> picture
0 1 2  line: call
V V V  at the end
S send, R receive, W wait, A waitany, B barrier, P print, o-> match, == release
at the end: E ended, V can go on, ~ waits, ! blocked, X trapped
> picture 1
usage: picture
> help picture
picture: draws the run so far
'''),
    Dialogue('a choice of requests whose handles stand behind another', BEHIND_ANOTHER, '''
> run
5 steps, depth 5
stopped at a choice of rank 0, line 6; next N takes one:
    6  waitany r to i;
  1: request r[0], the receive of line 4 (value 7); wakeany 0 0
  2: request r[1], the send of line 5 (value 7); wakeany 0 1
> next 2
6 wakeany 0 1: line 6, by line 5, 0.2 isend to 0 tag 1 value 7
ended: leftovers: rank 0 at line 3
  left over: line 3, 0.0 isend to 0 tag 9 value 5
'''),
    Dialogue('a wait for no request, and one for a request that is free', APART, '''
> run 3
3 steps, depth 3
stopped: as many steps as were asked for
next: wake 0: line 5
    5    wait s;
> why 0
line 5, 0.1 wait none
  the call is complete: rank 0 can go on
> why 0.1
line 5, 0.1 wait none
> ranks
rank 0 can go on from line 5, 0.1 wait none
> wake 0
4 wake 0: line 5
next: local 0: line 6
    6    wait r;
> why 0.1
line 5, 0.1 wait none
> run
2 steps, depth 6
ended: leftovers: rank 0 at line 4
  left over: line 4, 0.0 isend to 0 tag 0 value 1
> why 0.2
line 6, 0.2 wait 0
line 4, 0.0 isend to 0 tag 0 value 1 free
  has no partner yet: for a receive of rank 0 from rank 0 with tag 0
> ranks
rank 0 has ended
''', BUFFERED))
