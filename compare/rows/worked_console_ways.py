"""Worked dialogues of the console about what happens on the way, prints and requests that are lost; steps that are ahead, taken by `next` and
`redo all`; and breakpoints of lines where no statement begins (console_worked.py)."""

from rows.worked_console_choices import HANG_END, TRAP_CHOICE
from rows.worked_console_scripts import ANY_CHOICE, BESIDE_ANY_OF_TWO, BOTH_RACES, TRAP_THEN_HANG, TWO_RACES, Dialogue

# Each rank prints two numbers, and the second one a third.
THREE_PRINT = '''mpd 1; ranks 3; var i;
while i < 2 { print 10 * rank + i; i = i + 1; }
if rank == 1 { print -1; }
'''
TURNS_OF_TWO = '    2  while i < 2 { print 10 * rank + i; i = i + 1; }'
# Two sends are lost, one behind the other, and one is waited for; of that each rank prints something.
LOSES_TWO = '''mpd 1; ranks 2; var x; var i; req r;
if rank == 0 {
  while i < 3 { isend r i to 1 tag i; i = i + 1; }
  wait r;
  print i;
} else {
  recv x from 0 tag 2;
  print x;
}
'''
TURNS_OF_THREE = '    3    while i < 3 { isend r i to 1 tag i; i = i + 1; }'
FIRST_LOST = 'rank 0 has lost a request: line 3, 0.0 isend to 1 tag 0 value 0'
BOTH_LOST = 'rank 0 has lost 2 requests of line 3, the first 0.0 isend to 1 tag 0 value 0'
# The last step of all loses one.
LOSES_AT_END = 'mpd 1; ranks 1; req r;\nisend r 1 to 0 tag 0;\nisend r 2 to 0 tag 1;\n'
# Both ranks lose one and print something, each in turns of their own.
BOTH_LOSE = '''mpd 1; ranks 2; req r;
print rank;
isend r 1 to rank tag 0;
isend r 2 to rank tag 1;
print -rank;
barrier;
'''
# Statements begin at lines 6, 9, 10, 14, 15, 16, 17 and 20.
SPREAD = '''# a comment
mpd 1;
ranks 2;
var x;

if rank
  == 0
{
  send
    1 to 1 tag 0; while x < 2 { x = x + 1;
  }
}
else {
  recv x from 0
    tag 0; print x;
  if x { } else {
    assert x; }
  # nothing
}
print
  x
;
'''
SPREAD_STATEMENTS = 6, 9, 10, 14, 15, 16, 17, 20

PRINTED = (
    Dialogue('what is printed in a step, in a run, and in steps that are taken again, and nothing by going back', THREE_PRINT, f'''
> next
1 local 0: line 2
next: local 0: line 2
{TURNS_OF_TWO}
>
2 local 0: line 2
rank 0 prints 0
next: local 0: line 2
{TURNS_OF_TWO}
> run 3
3 steps, depth 5
rank 0 prints 1
stopped: as many steps as were asked for
next: local 0: line 2
{TURNS_OF_TWO}
> local 2
6 local 2: line 2
next: local 0: line 2
{TURNS_OF_TWO}
>
7 local 2: line 2
rank 2 prints 20
next: local 0: line 2
{TURNS_OF_TWO}
>
8 local 2: line 2
next: local 0: line 2
{TURNS_OF_TWO}
> run
17 steps, depth 25
rank 1 prints 10 11 -1
rank 2 prints 21
ended: done
> back 17
depth 8
17 ahead: local 0: line 2
{TURNS_OF_TWO}
> redo all
depth 25
rank 1 prints 10 11 -1
rank 2 prints 21
ended: done
> goto 7
depth 7
18 ahead: local 2: line 2
{TURNS_OF_TWO}
> goto 1
depth 1
24 ahead: local 0: line 2
{TURNS_OF_TWO}
> goto 7
depth 7
rank 0 prints 0 1
rank 2 prints 20
18 ahead: local 2: line 2
{TURNS_OF_TWO}
> redo 2
depth 9
16 ahead: local 0: line 2
{TURNS_OF_TWO}
> run-back
9 steps back, depth 0
at the start
25 ahead: local 0: line 2
{TURNS_OF_TWO}
> redo
1 local 0: line 2
24 ahead: local 0: line 2
{TURNS_OF_TWO}
>
2 local 0: line 2
rank 0 prints 0
23 ahead: local 0: line 2
{TURNS_OF_TWO}
> next 23
23 steps, depth 25
rank 0 prints 1
rank 1 prints 10 11 -1
rank 2 prints 20 21
ended: done
> redo all
refused: no step is ahead
> run
0 steps, depth 25
ended: done
> vars
rank 0: i = 2
rank 0 has printed 0 1
rank 1: i = 2
rank 1 has printed 10 11 -1
rank 2: i = 2
rank 2 has printed 20 21
'''),
    Dialogue('more that is printed than a line has room for', 'mpd 1; ranks 1; var i;\nwhile i < 40 { print 100 + i; i = i + 1; }', f'''
> run
121 steps, depth 121
rank 0 prints {' '.join(map(str, range(100, 116)))}
        {' '.join(map(str, range(116, 134)))}
        {' '.join(map(str, range(134, 140)))}
ended: done
> run-back
121 steps back, depth 0
at the start
121 ahead: local 0: line 2
    2  while i < 40 {{ print 100 + i; i = i + 1; }}
> break change 0 i
breakpoint 0: change 0 i
> run
3 steps, depth 3
rank 0 prints 100
breakpoint 0: change 0 i
118 ahead: local 0: line 2
    2  while i < 40 {{ print 100 + i; i = i + 1; }}
'''),
    Dialogue('what is printed up to the last step that is kept', 'mpd 1; ranks 1; var i;\nwhile 1 { print i; i = i + 1; }', '''
> run
5 steps, depth 5
rank 0 prints 0 1
stopped: no more than 1000000 steps are kept
next: local 0: line 2
    2  while 1 { print i; i = i + 1; }
> run
0 steps, depth 5
stopped: no more than 1000000 steps are kept
next: local 0: line 2
    2  while 1 { print i; i = i + 1; }
''', limit=5))

LOST_ON_THE_WAY = (
    Dialogue('requests of one line that are lost on the way, told once, and at an end with their number', LOSES_TWO, f'''
> run 5
5 steps, depth 5
stopped: as many steps as were asked for
next: local 0: line 3
{TURNS_OF_THREE}
> next
6 local 0: line 3
{FIRST_LOST}
next: local 0: line 3
{TURNS_OF_THREE}
>
7 local 0: line 3
next: local 0: line 3
{TURNS_OF_THREE}
> vars 0
rank 0: x = 0, i = 2, r = 0.1
{FIRST_LOST}
> next 3
3 steps, depth 10
stopped: as many steps as were asked for
next: local 0: line 3
{TURNS_OF_THREE}
> back 5
depth 5
5 ahead: local 0: line 3
{TURNS_OF_THREE}
> redo
6 local 0: line 3
{FIRST_LOST}
4 ahead: local 0: line 3
{TURNS_OF_THREE}
> redo all
depth 10
next: local 0: line 3
{TURNS_OF_THREE}
> back
depth 9
1 ahead: local 0: line 3
{TURNS_OF_THREE}
> goto 2
depth 2
8 ahead: local 0: line 3
{TURNS_OF_THREE}
> goto 9
depth 9
{BOTH_LOST}
1 ahead: local 0: line 3
{TURNS_OF_THREE}
> run 8
1 step, depth 10
stopped: the steps ahead end here
next: local 0: line 3
    3    while i < 3 {{ isend r i to 1 tag i; i = i + 1; }}
> run 7
7 steps, depth 17
rank 0 prints 3
stopped: as many steps as were asked for
next: wake 1: line 7
    7    recv x from 0 tag 2;
> run
2 steps, depth 19
rank 1 prints 2
ended: leftovers: rank 0 at line 3, rank 0 at line 3
  left over: line 3, 0.0 isend to 1 tag 0 value 0
  left over: line 3, 0.1 isend to 1 tag 1 value 1
{BOTH_LOST}
> goto 5
depth 5
14 ahead: local 0: line 3
{TURNS_OF_THREE}
> redo all
depth 19
rank 0 prints 3
rank 1 prints 2
ended: leftovers: rank 0 at line 3, rank 0 at line 3
  left over: line 3, 0.0 isend to 1 tag 0 value 0
  left over: line 3, 0.1 isend to 1 tag 1 value 1
{BOTH_LOST}
> goto 7
depth 7
12 ahead: local 0: line 3
{TURNS_OF_THREE}
> goto 17
depth 17
rank 0 prints 3
2 ahead: wake 1: line 7
    7    recv x from 0 tag 2;
'''),
    Dialogue('one that is lost by the last step', LOSES_AT_END, '''
> next
1 local 0: line 2
next: local 0: line 3
    3  isend r 2 to 0 tag 1;
>
2 local 0: line 3
ended: leftovers: rank 0 at line 2, rank 0 at line 3
  left over: line 2, 0.0 isend to 0 tag 0 value 1
  left over: line 3, 0.1 isend to 0 tag 1 value 2
rank 0 has lost a request: line 2, 0.0 isend to 0 tag 0 value 1
> back
depth 1
1 ahead: local 0: line 3
    3  isend r 2 to 0 tag 1;
> redo
2 local 0: line 3
ended: leftovers: rank 0 at line 2, rank 0 at line 3
  left over: line 2, 0.0 isend to 0 tag 0 value 1
  left over: line 3, 0.1 isend to 0 tag 1 value 2
rank 0 has lost a request: line 2, 0.0 isend to 0 tag 0 value 1
> goto 0
depth 0
2 ahead: local 0: line 2
    2  isend r 1 to 0 tag 0;
> run
2 steps, depth 2
ended: leftovers: rank 0 at line 2, rank 0 at line 3
  left over: line 2, 0.0 isend to 0 tag 0 value 1
  left over: line 3, 0.1 isend to 0 tag 1 value 2
rank 0 has lost a request: line 2, 0.0 isend to 0 tag 0 value 1
'''),
    Dialogue('what all ranks have printed before what any has lost', BOTH_LOSE, '''
> run 10
10 steps, depth 10
rank 0 prints 0 0
rank 1 prints 1 -1
rank 0 has lost a request: line 3, 0.0 isend to 0 tag 0 value 1
rank 1 has lost a request: line 3, 1.0 isend to 1 tag 0 value 1
stopped: as many steps as were asked for
next: release: all ranks leave the barrier
> next
11 release: all ranks leave the barrier
ended: leftovers: rank 0 at line 3, rank 0 at line 4, rank 1 at line 3, rank 1
        at line 4
  left over: line 3, 0.0 isend to 0 tag 0 value 1
  left over: line 4, 0.1 isend to 0 tag 1 value 2
  left over: line 3, 1.0 isend to 1 tag 0 value 1
  left over: line 4, 1.1 isend to 1 tag 1 value 2
rank 0 has lost a request: line 3, 0.0 isend to 0 tag 0 value 1
rank 1 has lost a request: line 3, 1.0 isend to 1 tag 0 value 1
> goto 4
depth 4
7 ahead: local 0: line 6
    6  barrier;
> redo 2
depth 6
rank 1 prints 1
5 ahead: local 1: line 3
    3  isend r 1 to rank tag 0;
> redo 3
depth 9
rank 1 prints -1
rank 1 has lost a request: line 3, 1.0 isend to 1 tag 0 value 1
2 ahead: local 1: line 6
    6  barrier;
'''))

STEPS_AHEAD = (
    Dialogue('next, from step to step of those that are ahead, through a choice', TWO_RACES, f'''
> run
8 steps, depth 8
{BOTH_RACES}
> next
{BOTH_RACES}
> next 2
9 match 3.0 1.0: rank 3, line 5, to rank 1, line 3
next: wake 1: line 3
    3    recv x from any tag 0;
> run
5 steps, depth 14
ended: done
> goto 7
depth 7
7 ahead: local 3: line 5
    5    send 7 to rank - 2 tag 0;
> next
8 local 3: line 5
6 ahead: match 3.0 1.0: rank 3, line 5, to rank 1, line 3
    5    send 7 to rank - 2 tag 0;
    3    recv x from any tag 0;
{BOTH_RACES}
>
9 match 3.0 1.0: rank 3, line 5, to rank 1, line 3
5 ahead: wake 1: line 3
    3    recv x from any tag 0;
>
10 wake 1: line 3
4 ahead: wake 3: line 5
    5    send 7 to rank - 2 tag 0;
> back 2
depth 8
6 ahead: match 3.0 1.0: rank 3, line 5, to rank 1, line 3
    5    send 7 to rank - 2 tag 0;
    3    recv x from any tag 0;
{BOTH_RACES}
> next 3
refused: there is no such candidate
6 ahead: match 3.0 1.0: rank 3, line 5, to rank 1, line 3
    5    send 7 to rank - 2 tag 0;
    3    recv x from any tag 0;
{BOTH_RACES}
> next 2
9 match 3.0 1.0: rank 3, line 5, to rank 1, line 3
5 ahead: wake 1: line 3
    3    recv x from any tag 0;
> back
depth 8
6 ahead: match 3.0 1.0: rank 3, line 5, to rank 1, line 3
    5    send 7 to rank - 2 tag 0;
    3    recv x from any tag 0;
{BOTH_RACES}
> next 0
refused: there is no such candidate
6 ahead: match 3.0 1.0: rank 3, line 5, to rank 1, line 3
    5    send 7 to rank - 2 tag 0;
    3    recv x from any tag 0;
{BOTH_RACES}
> next 1
9 match 2.0 0.0: rank 2, line 5, to rank 0, line 3
the 6 steps that lay ahead are gone
next: wake 0: line 3
    3    recv x from any tag 0;
> back
depth 8
1 ahead: match 2.0 0.0: rank 2, line 5, to rank 0, line 3
    5    send 7 to rank - 2 tag 0;
    3    recv x from any tag 0;
{BOTH_RACES}
> n
9 match 2.0 0.0: rank 2, line 5, to rank 0, line 3
next: wake 0: line 3
    3    recv x from any tag 0;
'''),
    Dialogue('next, where a step ahead is none of the candidates', BESIDE_ANY_OF_TWO, f'''
> run
11 steps, depth 11
{ANY_CHOICE}
> match 1.1 0.2
12 match 1.1 0.2: rank 1, line 10, to rank 0, line 6
{ANY_CHOICE}
> next
{ANY_CHOICE}
> back
depth 11
1 ahead: match 1.1 0.2: rank 1, line 10, to rank 0, line 6
   10    isend r[1] 6 to 0 tag 2;
    6    irecv h y from any tag 2;
{ANY_CHOICE}
> next
12 match 1.1 0.2: rank 1, line 10, to rank 0, line 6
{ANY_CHOICE}
> next 1
13 wakeany 0 0: line 7, by line 4, 0.0 irecv from 1 tag 1
ended: done
> goto 11
depth 11
2 ahead: match 1.1 0.2: rank 1, line 10, to rank 0, line 6
   10    isend r[1] 6 to 0 tag 2;
    6    irecv h y from any tag 2;
{ANY_CHOICE}
> next
12 match 1.1 0.2: rank 1, line 10, to rank 0, line 6
1 ahead: wakeany 0 0: line 7, by line 4, 0.0 irecv from 1 tag 1
    7    waitany r to i;
{ANY_CHOICE}
>
13 wakeany 0 0: line 7, by line 4, 0.0 irecv from 1 tag 1
ended: done
>
ended: done
'''),
    Dialogue('all that are ahead, which may be one, or none', 'first_message.mpd', '''
> redo all
refused: no step is ahead
>
refused: no step is ahead
> run
8 steps, depth 8
rank 1 prints 7
ended: done
> back
depth 7
1 ahead: local 1: line 9
    9    print x;
> redo all
8 local 1: line 9
rank 1 prints 7
ended: done
>
refused: no step is ahead
> goto 0
depth 0
8 ahead: local 0: line 5
    5  if rank == 0 {
> \t redo  all\t
depth 8
rank 1 prints 7
ended: done
> goto 5
depth 5
3 ahead: wake 0: line 6
    6    send 7 to 1 tag 0;
> redo 1000000
depth 8
rank 1 prints 7
ended: done
> quit
'''),
    Dialogue('all that are ahead, through a choice', TRAP_THEN_HANG, f'''
> deadlock
deadlock is 11 steps ahead: rank 0 at line 5, rank 1 at line 6
11 ahead: local 0: line 2
    2  if rank == 0 {{
> redo all
depth 11
rank 0 prints 1
{HANG_END}
> undo-choice
depth 6
5 ahead: match 2.0 0.0: rank 2, line 6, to rank 0, line 3
    6  }} else {{ send rank to 0 tag 0; }}
    3    recv x from any tag 0;
{TRAP_CHOICE}
> next
7 match 2.0 0.0: rank 2, line 6, to rank 0, line 3
4 ahead: wake 0: line 3
    3    recv x from any tag 0;
>
8 wake 0: line 3
3 ahead: local 0: line 4
    4    print 1 / (x - 1);
>
9 local 0: line 4
rank 0 prints 1
2 ahead: local 0: line 5
    5    recv x from 2 tag 0;
> redo all
depth 11
{HANG_END}
> goto 6
depth 6
5 ahead: match 2.0 0.0: rank 2, line 6, to rank 0, line 3
    6  }} else {{ send rank to 0 tag 0; }}
    3    recv x from any tag 0;
{TRAP_CHOICE}
> run
5 steps, depth 11
rank 0 prints 1
{HANG_END}
> goto 0
depth 0
11 ahead: local 0: line 2
    2  if rank == 0 {{
> goto 9
depth 9
rank 0 prints 1
2 ahead: local 0: line 5
    5    recv x from 2 tag 0;
'''))


def set_at(number, kind, line):
    """A breakpoint of SPREAD of a line, by its number and kind, and what it is told."""
    told = '' if line in SPREAD_STATEMENTS else f'no statement begins at line {line}\n'
    return f'> break {"" if kind == "line" else "match "}{line}\nbreakpoint {number}: {kind} {line}\n{told}'


NO_STATEMENTS = (
    Dialogue('breakpoints where a statement begins, and where none does, which are never hit', SPREAD, '''
> break 7
breakpoint 0: line 7
no statement begins at line 7
> break match 8
breakpoint 1: match 8
no statement begins at line 8
> break line 11
breakpoint 2: line 11
no statement begins at line 11
> break match 14
breakpoint 3: match 14
> break 16
breakpoint 4: line 16
> break 22
breakpoint 5: line 22
no statement begins at line 22
> break match 10
breakpoint 6: match 10
> break change 0 x
breakpoint 7: change 0 x
> delete 7
deleted 7
> break 0
refused: lines are 1 to 65537
> break match 65538
refused: lines are 1 to 65537
> breaks
breakpoint 0: line 7
breakpoint 1: match 8
breakpoint 2: line 11
breakpoint 3: match 14
breakpoint 4: line 16
breakpoint 5: line 22
breakpoint 6: match 10
> run
5 steps, depth 5
breakpoint 3: match 14
next: wake 0: line 9
    9    send
>
9 steps, depth 14
rank 0 prints 2
rank 1 prints 1
breakpoint 4: line 16
next: local 1: line 16
   16    if x { } else {
>
2 steps, depth 16
rank 1 prints 1
ended: done
> break 7
breakpoint 7: line 7
no statement begins at line 7
>
breakpoint 8: line 7
no statement begins at line 7
> run-back
3 steps back, depth 13
before breakpoint 4: line 16
3 ahead: local 1: line 15
   15      tag 0; print x;
> delete 4
deleted 4
> break match 14
breakpoint 4: match 14
> run-back
9 steps back, depth 4
before breakpoint 3: match 14
12 ahead: match 0.0 1.0: rank 0, line 9, to rank 1, line 14
    9    send
   14    recv x from 0
'''),
    Dialogue('a breakpoint of each line, by its rank and by its calls', SPREAD,
             ''.join(set_at(line - 1, 'line', line) for line in range(1, 25)) + ''.join(set_at(line + 23, 'match', line) for line in range(1, 25))),
    Dialogue('a script without a statement', 'mpd 1;\nranks 1;\n', '''
> break 1
breakpoint 0: line 1
no statement begins at line 1
> break match 65537
breakpoint 1: match 65537
no statement begins at line 65537
> breaks
breakpoint 0: line 1
breakpoint 1: match 65537
> run
0 steps, depth 0
ended: done
'''))

WAYS = PRINTED + LOST_ON_THE_WAY + STEPS_AHEAD + NO_STATEMENTS
