"""Worked dialogues of the console about the step that decides: the word `blame`, and what is done behind it (console_worked.py)."""

from rows.worked_console_scripts import LOOP, STOLEN_AHEAD, STOLEN_CHOICE, STOLEN_END, Dialogue

STOLEN_LINES = '''   13    if rank == 1 { send 42 to 0 tag 7; } else { send 5 to 0 tag 1; }
    8    irecv r note from any tag any;'''
# The step that decides in examples/stolen_message.mpd, and where it stands then.
STOLEN_BLAME = f'''decided at depth 9: rank 0, line 8, takes the message of rank 1 (line 13, value
        42, tag 7); with that of rank 2 (line 13, value 5, tag 1) it need not
        hang or trap
to try that: next 2
depth 9
2 ahead: match 1.0 0.0: rank 1, line 13, to rank 0, line 8
{STOLEN_LINES}
{STOLEN_CHOICE}'''
NOT_DECIDED = 'not decided: not every run hangs or traps'
FROM_START = 'decided from the start: every run hangs or traps'

# By the message of rank 2 the second receive has no partner; rank 0 prints before the first.
PRINTS_FIRST = '''mpd 1; ranks 3; var x;
if rank == 0 {
  print 5;
  recv x from any tag 0;
  recv x from 2 tag 0;
} else { send rank to 0 tag 0; }
'''
# By 1 and then 3 it hangs.
ONE_THEN_THREE = '''mpd 1; ranks 4; var x; var y; var z;
if rank == 0 {
  recv x from any tag 0;
  recv y from any tag 0;
  if x == 1 && y == 3 { recv z from 0 tag 9; }
  recv z from any tag 0;
} else { send rank to 0 tag 0; }
'''
# By the message of rank 1 it hangs, which may come before all ranks leave the barrier.
BESIDE_BARRIER = '''mpd 1; ranks 3; var x; req h;
if rank == 0 {
  irecv h x from any tag 0;
  barrier;
  wait h;
  if x == 1 { recv x from 0 tag 9; }
} else { isend h rank to 0 tag 0; barrier; }
'''
# By the message of rank 1 it hangs behind ten steps, and by that of rank 2 it ends behind eleven.
LATER = '''mpd 1; ranks 3; var x; req r;
if rank == 0 { recv x from any tag 0; if x == 1 { recv x from 0 tag 9; } else { print 1; print 2; } } else { isend r rank to 0 tag 0; }
'''
LATER_LINE = '''    2  if rank == 0 { recv x from any tag 0; if x == 1 { recv x from 0 tag 9; }
        else { print 1; print 2; } } else { isend r rank to 0 tag 0; }'''
TO_LATER = f'''
> run
6 steps, depth 6
stopped at a choice of rank 0, line 2; next N takes one:
{LATER_LINE}
  1: rank 1 sends 1, tag 0 (line 2); match 1.0 0.0
  2: rank 2 sends 2, tag 0 (line 2); match 2.0 0.0
> next 1
7 match 1.0 0.0: rank 1, line 2, to rank 0, line 2
next: wake 0: line 2
{LATER_LINE}
> run
3 steps, depth 10
ended: deadlock: rank 0 at line 2
  rank 0 waits at line 2, 0.1 recv from 0 tag 9: for a send of rank 0 with tag 9
  rank 0 waits for rank 0
  a cycle, where each waits for the next: rank 0, rank 0
  left over: line 2, 2.0 isend to 0 tag 0 value 2
> blame
'''
OF_LATER = f'''decided at depth 6: rank 0, line 2, takes the message of rank 1 (line 2, value
        1, tag 0); with that of rank 2 (line 2, value 2, tag 0) it need not hang
        or trap
to try that: next 2
depth 6
4 ahead: match 1.0 0.0: rank 1, line 2, to rank 0, line 2
{LATER_LINE}
stopped at a choice of rank 0, line 2; next N takes one:
{LATER_LINE}
  1: rank 1 sends 1, tag 0 (line 2); match 1.0 0.0
  2: rank 2 sends 2, tag 0 (line 2); match 2.0 0.0
'''
# If the waitany goes on by its first request it hangs; the second may be matched before.
TOO_EARLY = '''mpd 2; ranks 3; var x; var i; req r[2];
if rank == 0 {
  irecv r[0] x from 1 tag 0;
  irecv r[1] x from any tag 0;
  waitany r to i;
  if i == 0 { recv x from 0 tag 9; }
} else { isend r[0] rank to 0 tag 0; }
'''
EARLY_BLAME = '''decided at depth 9: rank 0, line 5, goes on by line 3, 0.0 irecv from 1 tag 0;
        if rank 0, line 4, takes the message of rank 2 (line 7, value 2, tag 0)
        instead, it need not hang or trap
to try that: match 2.0 0.1
depth 9
4 ahead: wakeany 0 0: line 5, by line 3, 0.0 irecv from 1 tag 0
    5    waitany r to i;'''
LATER_OR_EARLIER = 'decided at depth 6 or earlier: not all runs from there were counted\n'

BLAME = (
    Dialogue('what decided a deadlock, and another way from there', 'stolen_message.mpd', f'''
> blame
{NOT_DECIDED}
> run
9 steps, depth 9
{STOLEN_CHOICE}
> blame
{NOT_DECIDED}
> next 1
10 match 1.0 0.0: rank 1, line 13, to rank 0, line 8
next: wake 1: line 13
   13    if rank == 1 {{ send 42 to 0 tag 7; }} else {{ send 5 to 0 tag 1; }}
> run
1 step, depth 11
{STOLEN_END}
> blame
{STOLEN_BLAME}
> redo all
depth 11
{STOLEN_END}
> blame
{STOLEN_BLAME}
>
{STOLEN_BLAME}
> back
depth 8
3 ahead: local 2: line 13
   13    if rank == 1 {{ send 42 to 0 tag 7; }} else {{ send 5 to 0 tag 1; }}
> blame
{STOLEN_BLAME}
> next 2
10 match 2.0 0.0: rank 2, line 13, to rank 0, line 8
the 2 steps that lay ahead are gone
next: wake 2: line 13
   13    if rank == 1 {{ send 42 to 0 tag 7; }} else {{ send 5 to 0 tag 1; }}
> blame
{NOT_DECIDED}
> run
7 steps, depth 17
rank 0 prints 42
ended: done
> blame
{NOT_DECIDED}
> history 1
17 wake 1: line 13
'''),
    Dialogue('what decided a deadlock that lies ahead', 'stolen_message.mpd', f'''
> deadlock
deadlock is 11 steps ahead: rank 0 at line 9, rank 2 at line 13
11 ahead: local 0: line 7
    7  if rank == 0 {{
> blame
{STOLEN_BLAME}
> next
10 match 1.0 0.0: rank 1, line 13, to rank 0, line 8
1 ahead: wake 1: line 13
   13    if rank == 1 {{ send 42 to 0 tag 7; }} else {{ send 5 to 0 tag 1; }}
> blame
{STOLEN_BLAME}
> follow 2
run 2, done, is 8 steps ahead
8 ahead: match 2.0 0.0: rank 2, line 13, to rank 0, line 8
{STOLEN_LINES}
{STOLEN_CHOICE}
> blame
{NOT_DECIDED}
> undo-choice
refused: no choice was made before
> blame 9
usage: blame
> blam
unknown word 'blam': perhaps blame
> bl
unknown word 'bl': perhaps blame
> help blame
blame: goes to the step that decided how it ends; after that step every run ends
        badly
'''),
    Dialogue('what decided the deadlock of a witness', 'stolen_message.mpd', f'''
deadlock is 11 steps ahead: rank 0 at line 9, rank 2 at line 13
11 ahead: local 0: line 7
    7  if rank == 0 {{
> blame
{STOLEN_BLAME}
''', witness=STOLEN_AHEAD),
    Dialogue('what is printed on the way to where it was decided', PRINTS_FIRST, '''
> deadlock
deadlock is 11 steps ahead: rank 0 at line 5, rank 1 at line 6
11 ahead: local 0: line 2
    2  if rank == 0 {
> blame
decided at depth 7: rank 0, line 4, takes the message of rank 2 (line 6, value
        2, tag 0); with that of rank 1 (line 6, value 1, tag 0) it need not hang
        or trap
to try that: next 1
depth 7
rank 0 prints 5
4 ahead: match 2.0 0.0: rank 2, line 6, to rank 0, line 4
    6  } else { send rank to 0 tag 0; }
    4    recv x from any tag 0;
stopped at a choice of rank 0, line 4; next N takes one:
    4    recv x from any tag 0;
  1: rank 1 sends 1, tag 0 (line 6); match 1.0 0.0
  2: rank 2 sends 2, tag 0 (line 6); match 2.0 0.0
'''),
    Dialogue('what decided a trap', 'waited_twice.mpd', '''
> trap
trap is 16 steps ahead: rank 0 at line 12 (assert)
16 ahead: local 0: line 7
    7  if rank == 0 {
> redo all
depth 16
ended: trap: rank 0 at line 12 (assert)
  rank 0, line 12: trap assert, with answers = [0, 20]
> blame
decided at depth 12: rank 0, line 10, goes on by line 9, 0.1 irecv from 2 tag 0;
        if rank 0, line 10, goes on by line 8, 0.0 irecv from 1 tag 0 instead,
        it need not hang or trap
to try that: next 1
depth 12
4 ahead: wakeany 0 1: line 10, by line 9, 0.1 irecv from 2 tag 0
   10    waitany r to which;
stopped at a choice of rank 0, line 10; next N takes one:
   10    waitany r to which;
  1: request r[0], the receive of line 8 (value 10); wakeany 0 0
  2: request r[1], the receive of line 9 (value 20); wakeany 0 1
'''),
    Dialogue('where no run ends well', 'swapped_tags.mpd', f'''
> blame
{FROM_START}
> next 2
2 steps, depth 2
stopped: as many steps as were asked for
next: local 1: line 6
    6  if rank == 0 {{
> blame
{FROM_START}
> words
local 0
local 0
> deadlock
deadlock is 2 steps ahead: rank 0 at line 7, rank 1 at line 10
2 ahead: local 1: line 6
    6  if rank == 0 {{
> blame
{FROM_START}
> goto 4
depth 4
ended: deadlock: rank 0 at line 7, rank 1 at line 10
  rank 0 waits at line 7, 0.0 send to 1 tag 1 value 640: for a receive of rank 1
        from rank 0 with tag 1
    nearest miss: line 10, 1.0 recv from 0 tag 2: another tag
  rank 1 waits at line 10, 1.0 recv from 0 tag 2: for a send of rank 0 with tag
        2
    nearest miss: line 7, 0.0 send to 1 tag 1 value 640: another tag
  rank 0 waits for rank 1
  rank 1 waits for rank 0
  a cycle, where each waits for the next: rank 0, rank 1, rank 0
> blame
{FROM_START}
'''),
    Dialogue('a local step that decided, with a slot', 'freed_slot.mpd', f'''
> deadlock
deadlock is 8 steps ahead: rank 0 at line 9
8 ahead: local 0: line 6
    6  if rank == 0 {{
> blame
decided at depth 4: rank 0, line 8, goes on; if rank 1, line 11, takes the
        message of rank 0 (line 7, value 1, tag 0) instead, it need not hang or
        trap
to try that: match 0.0 1.0
depth 4
4 ahead: local 0: line 8
    8    isend r[1] 2 to 1 tag 1;
> match 0.0 1.0
5 match 0.0 1.0: rank 0, line 7, to rank 1, line 11
the 4 steps that lay ahead are gone
next: local 0: line 8
    8    isend r[1] 2 to 1 tag 1;
> blame
{NOT_DECIDED}
''', 'slots:1'),
    # no candidate is listed where it was decided: `next 2` goes on into the hang, and the word that is told goes another way
    Dialogue('a wake by a waitany that decided, where it alone comes next', TOO_EARLY, f'''
> deadlock
deadlock is 13 steps ahead: rank 0 at line 6
13 ahead: local 0: line 2
    2  if rank == 0 {{
> blame
{EARLY_BLAME}
> next 2
2 steps, depth 11
stopped: as many steps as were asked for
2 ahead: local 0: line 6
    6    if i == 0 {{ recv x from 0 tag 9; }}
> blame
{EARLY_BLAME}
> match 2.0 0.1
10 match 2.0 0.1: rank 2, line 7, to rank 0, line 4
the 4 steps that lay ahead are gone
stopped at a choice of rank 0, line 5; next N takes one:
    5    waitany r to i;
  1: request r[0], the receive of line 3 (value 1); wakeany 0 0
  2: request r[1], the receive of line 4 (value 2); wakeany 0 1
> blame
{NOT_DECIDED}
'''),
    # by hand, before rank 2 has sent: what a run does there is its first statement
    Dialogue('a match by hand that decided, where a local step comes next', 'stolen_message.mpd', f'''
> run 6
6 steps, depth 6
stopped: as many steps as were asked for
next: local 2: line 7
    7  if rank == 0 {{
> match 1.0 0.0
7 match 1.0 0.0: rank 1, line 13, to rank 0, line 8
next: local 2: line 7
    7  if rank == 0 {{
> blame
decided at depth 6: rank 0, line 8, takes the message of rank 1 (line 13, value
        42, tag 7); if rank 2, line 7, goes on instead, it need not hang or trap
to try that: local 2
depth 6
1 ahead: match 1.0 0.0: rank 1, line 13, to rank 0, line 8
{STOLEN_LINES}
> redo
7 match 1.0 0.0: rank 1, line 13, to rank 0, line 8
next: local 2: line 7
    7  if rank == 0 {{
> run
4 steps, depth 11
{STOLEN_END}
> blame
decided at depth 6: rank 0, line 8, takes the message of rank 1 (line 13, value
        42, tag 7); if rank 2, line 7, goes on instead, it need not hang or trap
to try that: local 2
depth 6
5 ahead: match 1.0 0.0: rank 1, line 13, to rank 0, line 8
{STOLEN_LINES}
'''),
    Dialogue('a match by hand that decided, where a wake comes next', ONE_THEN_THREE, '''
> run
8 steps, depth 8
stopped at a choice of rank 0, line 3; next N takes one:
    3    recv x from any tag 0;
  1: rank 1 sends 1, tag 0 (line 7); match 1.0 0.0
  2: rank 2 sends 2, tag 0 (line 7); match 2.0 0.0
  3: rank 3 sends 3, tag 0 (line 7); match 3.0 0.0
> next 1
9 match 1.0 0.0: rank 1, line 7, to rank 0, line 3
next: wake 0: line 3
    3    recv x from any tag 0;
> run 2
2 steps, depth 11
stopped: as many steps as were asked for
next: wake 1: line 7
    7  } else { send rank to 0 tag 0; }
> match 3.0 0.1
12 match 3.0 0.1: rank 3, line 7, to rank 0, line 4
next: wake 0: line 4
    4    recv y from any tag 0;
> blame
decided at depth 11: rank 0, line 4, takes the message of rank 3 (line 7, value
        3, tag 0); if rank 1, line 7, goes on instead, it need not hang or trap
to try that: wake 1
depth 11
1 ahead: match 3.0 0.1: rank 3, line 7, to rank 0, line 4
    7  } else { send rank to 0 tag 0; }
    4    recv y from any tag 0;
'''),
    Dialogue('a match by hand that decided, where all ranks leave a barrier next', BESIDE_BARRIER, '''
> run 9
9 steps, depth 9
stopped: as many steps as were asked for
next: release: all ranks leave the barrier
> match 1.0 0.0
10 match 1.0 0.0: rank 1, line 7, to rank 0, line 3
next: release: all ranks leave the barrier
> run
5 steps, depth 15
ended: deadlock: rank 0 at line 6
  rank 0 waits at line 6, 0.3 recv from 0 tag 9: for a send of rank 0 with tag 9
  rank 0 waits for rank 0
  a cycle, where each waits for the next: rank 0, rank 0
  left over: line 7, 2.0 isend to 0 tag 0 value 2
> blame
decided at depth 9: rank 0, line 3, takes the message of rank 1 (line 7, value
        1, tag 0); if all ranks leave the barrier instead, it need not hang or
        trap
to try that: release
depth 9
6 ahead: match 1.0 0.0: rank 1, line 7, to rank 0, line 3
    7  } else { isend h rank to 0 tag 0; barrier; }
    3    irecv h x from any tag 0;
'''),
    Dialogue('an end with leftovers, which is a good one', LATER, f'{TO_LATER}{OF_LATER}'),
    Dialogue('just as many steps as the other run has', LATER, f'{TO_LATER}{OF_LATER}', fuel=1),
    Dialogue('a step less than the other run has', LATER, f'{TO_LATER}{LATER_OR_EARLIER}', fuel=0),
    Dialogue('as many steps as are kept, one less than the other run has', LATER, f'{TO_LATER}{LATER_OR_EARLIER}> back 1000\nrefused: fewer steps are taken\n',
             limit=10),
    Dialogue('as many steps as are kept', LATER, f'{TO_LATER}{OF_LATER}', limit=11),
    # nothing is known of the end itself
    Dialogue('a run that is cut from its end on', LOOP, '''
> run 3
3 steps, depth 3
stopped: as many steps as were asked for
next: local 0: line 2
    2  while 1 { }
> blame
not known: not all runs from there were counted
''', fuel=20))
# The same of as many steps as there usually are, which takes the model long.
CUT_FROM_HERE = (
    Dialogue('a run that is cut from the start on', LOOP, '''
> blame
not known: not all runs from there were counted
> follow 1
run 1, cut, is 100000 steps ahead
100000 ahead: local 0: line 2
    2  while 1 { }
> blame
not known: not all runs from there were counted
'''),)
