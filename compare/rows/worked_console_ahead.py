"""Worked dialogues of the console about moves along steps ahead, and where these stop (console_worked.py)."""

from rows.worked_console_scripts import Dialogue

TWO_PRINTS = 'mpd 1; ranks 2;\nprint 1;\nprint 2;'
FIRST_AHEAD = '''local 0: line 2
    2  print 1;'''
SECOND_AHEAD = '''local 1: line 2
    2  print 1;'''
THIRD_AHEAD = '''local 0: line 3
    3  print 2;'''
LAST_NEXT = '''next: local 1: line 3
    3  print 2;'''
BEGUN = f'''
> local 0
1 local 0: line 2
rank 0 prints 1
next: {THIRD_AHEAD}
> local 1
2 local 1: line 2
rank 1 prints 1
next: {THIRD_AHEAD}
> restart
depth 0
2 ahead: {FIRST_AHEAD}
'''

AHEAD = (
    Dialogue('to where a rank has gone on, along steps by hand, and where they end', TWO_PRINTS, f'''{BEGUN}
> until rank 0
1 step, depth 1
rank 0 prints 1
stopped: rank 0 has gone on
1 ahead: {SECOND_AHEAD}
> until rank 0
1 step, depth 2
rank 1 prints 1
stopped: the steps ahead end here
next: {THIRD_AHEAD}
> until rank 0
1 step, depth 3
rank 0 prints 2
stopped: rank 0 has gone on
{LAST_NEXT}
> restart
depth 0
3 ahead: {FIRST_AHEAD}
> until rank 1
2 steps, depth 2
rank 0 prints 1
rank 1 prints 1
stopped: rank 1 has gone on
1 ahead: {THIRD_AHEAD}
> restart
depth 0
3 ahead: {FIRST_AHEAD}
> until 3
1 step, depth 1
rank 0 prints 1
stopped: a rank is at line 3
2 ahead: {SECOND_AHEAD}
> until 2
2 steps, depth 3
rank 0 prints 2
rank 1 prints 1
stopped: the steps ahead end here
{LAST_NEXT}
> until 4
refused: no statement begins at line 4
'''.replace('\n\n', '\n')),
    Dialogue('at breakpoints along steps by hand, on and back, as far as they are set', TWO_PRINTS, f'''{BEGUN}
> break 3
breakpoint 0: line 3
> run
1 step, depth 1
rank 0 prints 1
breakpoint 0: line 3
1 ahead: {SECOND_AHEAD}
>
1 step, depth 2
rank 1 prints 1
breakpoint 0: line 3
next: {THIRD_AHEAD}
> run-back
1 step back, depth 1
before breakpoint 0: line 3
1 ahead: {SECOND_AHEAD}
> run
1 step, depth 2
rank 1 prints 1
breakpoint 0: line 3
next: {THIRD_AHEAD}
> local 0
3 local 0: line 3
rank 0 prints 2
{LAST_NEXT}
> run-back
2 steps back, depth 1
before breakpoint 0: line 3
2 ahead: {SECOND_AHEAD}
> break rank 0
breakpoint 1: rank 0
> break rank 1
breakpoint 2: rank 1
> restart
depth 0
3 ahead: {FIRST_AHEAD}
> until rank 1
1 step, depth 1
rank 0 prints 1
breakpoint 0: line 3
2 ahead: {SECOND_AHEAD}
> delete 0
deleted 0
> until 3
1 step, depth 2
rank 1 prints 1
breakpoint 2: rank 1
1 ahead: {THIRD_AHEAD}
> run 5
1 step, depth 3
rank 0 prints 2
breakpoint 1: rank 0
{LAST_NEXT}
> restart
depth 0
3 ahead: {FIRST_AHEAD}
> redo all
depth 3
rank 0 prints 1 2
rank 1 prints 1
{LAST_NEXT}
> goto 1
depth 1
2 ahead: {SECOND_AHEAD}
> delete 2
deleted 2
> run 2
2 steps, depth 3
rank 0 prints 2
rank 1 prints 1
breakpoint 1: rank 0
{LAST_NEXT}
> delete 1
deleted 1
> restart
depth 0
3 ahead: {FIRST_AHEAD}
> next 2
2 steps, depth 2
rank 0 prints 1
rank 1 prints 1
stopped: as many steps as were asked for
1 ahead: {THIRD_AHEAD}
> restart
depth 0
3 ahead: {FIRST_AHEAD}
> run 3
3 steps, depth 3
rank 0 prints 1 2
rank 1 prints 1
stopped: as many steps as were asked for
{LAST_NEXT}
> restart
depth 0
3 ahead: {FIRST_AHEAD}
> run 4
3 steps, depth 3
rank 0 prints 1 2
rank 1 prints 1
stopped: the steps ahead end here
{LAST_NEXT}
> run
1 step, depth 4
rank 1 prints 2
ended: done
> restart
depth 0
4 ahead: {FIRST_AHEAD}
> run
4 steps, depth 4
rank 0 prints 1 2
rank 1 prints 1 2
ended: done
'''.replace('\n\n', '\n')),
)
