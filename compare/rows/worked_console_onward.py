"""Worked dialogues of the console about `until` and `finish`, which go on to a line, to where a rank has gone on and to the end of a call, and about
`back rank` (console_worked.py)."""

from rows.worked_console_hits import LATER
from rows.worked_console_scripts import STOLEN_CHOICE, STOLEN_END, Dialogue

# Line 13 of examples/stolen_message.mpd.
SENDS = '   13    if rank == 1 { send 42 to 0 tag 7; } else { send 5 to 0 tag 1; }'
SECOND_AHEAD = f'''4 ahead: match 2.0 0.0: rank 2, line 13, to rank 0, line 8
{SENDS}
    8    irecv r note from any tag any;
{STOLEN_CHOICE}'''

ONWARD = (
    Dialogue('to a line and to the end of a call, of the first message', 'first_message.mpd', '''
> finish
refused: the last step is of no rank; finish P names one
> finish 1
rank 1 waits for no call
> finish 2
refused: there is no such rank
> until 8
3 steps, depth 3
stopped: a rank is at line 8
next: local 1: line 8
    8    recv x from 0 tag 0;
> finish
rank 1 waits for no call
> finish 0
3 steps, depth 6
stopped: that call is over
next: wake 1: line 8
    8    recv x from 0 tag 0;
> finish
rank 0 waits for no call
> finish 1
1 step, depth 7
stopped: that call is over
next: local 1: line 9
    9    print x;
> until 9
1 step, depth 8
rank 1 prints 7
ended: done
>
0 steps, depth 8
ended: done
> until 0
refused: lines are 1 to 65537
> until 65538
refused: lines are 1 to 65537
> until 10
refused: no statement begins at line 10
>
refused: no statement begins at line 10
> restart
depth 0
8 ahead: local 0: line 5
    5  if rank == 0 {
> until 9
7 steps, depth 7
stopped: a rank is at line 9
1 ahead: local 1: line 9
    9    print x;
> restart
depth 0
8 ahead: local 0: line 5
    5  if rank == 0 {
> break match 6
breakpoint 0: match 6
> until 9
5 steps, depth 5
breakpoint 0: match 6
3 ahead: wake 0: line 6
    6    send 7 to 1 tag 0;
> breaks
breakpoint 0: match 6
> finish 1
2 steps, depth 7
stopped: that call is over
1 ahead: local 1: line 9
    9    print x;
> until
usage: until LINE, until rank P
> until x
usage: until LINE, until rank P
> finish 1 2
usage: finish [P]
'''),
    Dialogue('a choice on the way, and one that was made before', 'stolen_message.mpd', f'''
> until 10
9 steps, depth 9
{STOLEN_CHOICE}
> finish 0
0 steps, depth 9
{STOLEN_CHOICE}
> next 2
10 match 2.0 0.0: rank 2, line 13, to rank 0, line 8
next: wake 2: line 13
{SENDS}
> finish
3 steps, depth 13
stopped: that call is over
next: local 0: line 10
   10    wait r;
> undo-choice
depth 9
{SECOND_AHEAD}
> until 10
4 steps, depth 13
stopped: a rank is at line 10
next: local 0: line 10
   10    wait r;
> goto 9
depth 9
{SECOND_AHEAD}
> finish 0
4 steps, depth 13
stopped: that call is over
next: local 0: line 10
   10    wait r;
> goto 9
depth 9
{SECOND_AHEAD}
> next 1
10 match 1.0 0.0: rank 1, line 13, to rank 0, line 8
the 4 steps that lay ahead are gone
next: wake 1: line 13
{SENDS}
> finish 1
1 step, depth 11
{STOLEN_END}
'''),
    Dialogue('a barrier that all leave', LATER, '''
> until 3
1 step, depth 1
stopped: a rank is at line 3
next: local 0: line 3
    3  barrier;
> next
2 local 0: line 3
next: local 1: line 2
    2  if rank == 1 { print 1; }
> finish
4 steps, depth 6
rank 1 prints 1
stopped: that call is over
next: local 0: line 4
    4  print rank;
> finish
refused: the last step is of no rank; finish P names one
> finish 1
rank 1 waits for no call
'''),
    Dialogue('to where a rank has gone on, and back, in the first message', 'first_message.mpd', '''
> back rank 0
depth 0
next: local 0: line 5
    5  if rank == 0 {
> until rank 0
1 step, depth 1
stopped: rank 0 has gone on
next: local 0: line 6
    6    send 7 to 1 tag 0;
> until rank 1
2 steps, depth 3
stopped: rank 1 has gone on
next: local 1: line 8
    8    recv x from 0 tag 0;
> back rank 1
depth 2
1 ahead: local 1: line 5
    5  if rank == 0 {
> until rank 0
1 step, depth 3
stopped: the steps ahead end here
next: local 1: line 8
    8    recv x from 0 tag 0;
>
3 steps, depth 6
stopped: rank 0 has gone on
next: wake 1: line 8
    8    recv x from 0 tag 0;
> back rank 0
depth 1
5 ahead: local 0: line 6
    6    send 7 to 1 tag 0;
> until rank 1
2 steps, depth 3
stopped: rank 1 has gone on
3 ahead: local 1: line 8
    8    recv x from 0 tag 0;
>
3 steps, depth 6
stopped: the steps ahead end here
next: wake 1: line 8
    8    recv x from 0 tag 0;
>
1 step, depth 7
stopped: rank 1 has gone on
next: local 1: line 9
    9    print x;
> back rank 1
depth 3
4 ahead: local 1: line 8
    8    recv x from 0 tag 0;
>
depth 2
5 ahead: local 1: line 5
    5  if rank == 0 {
>
depth 0
7 ahead: local 0: line 5
    5  if rank == 0 {
> redo all
depth 7
next: local 1: line 9
    9    print x;
> until rank 1
1 step, depth 8
rank 1 prints 7
ended: done
> until rank 0
0 steps, depth 8
ended: done
> back rank 0
depth 1
7 ahead: local 0: line 6
    6    send 7 to 1 tag 0;
> break match 6
breakpoint 0: match 6
> until rank 0
4 steps, depth 5
breakpoint 0: match 6
3 ahead: wake 0: line 6
    6    send 7 to 1 tag 0;
> breaks
breakpoint 0: match 6
> until rank 2
refused: there is no such rank
>
refused: there is no such rank
> back rank 2
refused: there is no such rank
> until rank
usage: until LINE, until rank P
> until rank x
usage: until LINE, until rank P
> until rank 0 1
usage: until LINE, until rank P
> bk rank
usage: back [N], back rank P
> back rank 0 1
usage: back [N], back rank P
> back rank -1
usage: back [N], back rank P
> back 1 rank
usage: back [N], back rank P
'''),
    Dialogue('to where a rank has gone on, at a choice', 'stolen_message.mpd', f'''
> until 10
9 steps, depth 9
{STOLEN_CHOICE}
> until rank 0
0 steps, depth 9
{STOLEN_CHOICE}
> next 2
10 match 2.0 0.0: rank 2, line 13, to rank 0, line 8
next: wake 2: line 13
{SENDS}
> until rank 2
1 step, depth 11
stopped: rank 2 has gone on
next: match 1.0 0.1: rank 1, line 13, to rank 0, line 9
{SENDS}
    9    recv result from 1 tag 7;
> undo-choice
depth 9
2 ahead: match 2.0 0.0: rank 2, line 13, to rank 0, line 8
{SENDS}
    8    irecv r note from any tag any;
{STOLEN_CHOICE}
> until rank 2
2 steps, depth 11
stopped: rank 2 has gone on
next: match 1.0 0.1: rank 1, line 13, to rank 0, line 9
{SENDS}
    9    recv result from 1 tag 7;
'''),
    Dialogue('to where a rank has gone on, by a release', LATER, '''
> until rank 0
1 step, depth 1
stopped: rank 0 has gone on
next: local 0: line 3
    3  barrier;
> until rank 0
5 steps, depth 6
rank 1 prints 1
stopped: rank 0 has gone on
next: local 0: line 4
    4  print rank;
> back rank 1
depth 4
2 ahead: local 1: line 3
    3  barrier;
> until rank 1
2 steps, depth 6
stopped: rank 1 has gone on
next: local 0: line 4
    4  print rank;
> back rank 0
depth 1
5 ahead: local 0: line 3
    3  barrier;
'''))
