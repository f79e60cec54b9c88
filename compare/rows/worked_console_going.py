"""Worked dialogues of the console of which ranks can go on, what an empty line does behind `next`, short forms, and looks that don't see all runs
(console_worked.py)."""

from rows.worked_console_scripts import STOLEN_CHOICE, Dialogue

# Behind a barrier rank 0 waits for any of no request, for any of two, and for the other one of these.
IN_TURN = '''mpd 2; ranks 3;
var x; var i; req r[2]; req none[0];
barrier;
if rank == 0 {
  irecv r[0] x from 1 tag 1;
  irecv r[1] x from 2 tag any;
  waitany none to i;
  waitany r to i;
  wait r[1];
} else {
  send rank to 0 tag rank;
}
'''
# What examples/stolen_message.mpd sends.
SENDS = '   13    if rank == 1 { send 42 to 0 tag 7; } else { send 5 to 0 tag 1; }'

GOING = (
    Dialogue('ranks that can go on, and words by their other names', 'first_message.mpd', '''
> s
1 local 0: line 5
next: local 0: line 6
    6    send 7 to 1 tag 0;
> step
2 local 0: line 6
next: local 1: line 5
    5  if rank == 0 {
>
3 local 1: line 5
next: local 1: line 8
    8    recv x from 0 tag 0;
> bt
rank 0 waits at line 6, 0.0 send to 1 tag 0 value 7
rank 1 is at line 8
> s 1
1 step, depth 4
stopped: as many steps as were asked for
next: match 0.0 1.0: rank 0, line 6, to rank 1, line 8
    6    send 7 to 1 tag 0;
    8    recv x from 0 tag 0;
> where
rank 0 waits at line 6, 0.0 send to 1 tag 0 value 7
rank 1 waits at line 8, 1.0 recv from 0 tag 0
> why
line 6, 0.0 send to 1 tag 0 value 7 free
  can be matched with line 8, 1.0 recv from 0 tag 0
line 8, 1.0 recv from 0 tag 0 free
  can be matched with line 6, 0.0 send to 1 tag 0 value 7
> n
5 match 0.0 1.0: rank 0, line 6, to rank 1, line 8
next: wake 0: line 6
    6    send 7 to 1 tag 0;
> bt
rank 0 can go on from line 6, 0.0 send to 1 tag 0 value 7
rank 1 can go on from line 8, 1.0 recv from 0 tag 0
> why
line 6, 0.0 send to 1 tag 0 value 7 with 1.0
  the call is complete: rank 0 can go on
line 8, 1.0 recv from 0 tag 0 with 0.0 value 7
  the call is complete: rank 1 can go on
> w 1
line 8, 1.0 recv from 0 tag 0 with 0.0 value 7
  the call is complete: rank 1 can go on
> why 1.0
line 8, 1.0 recv from 0 tag 0 with 0.0 value 7
> wake 0
6 wake 0: line 6
next: wake 1: line 8
    8    recv x from 0 tag 0;
> ranks
rank 0 has ended
rank 1 can go on from line 8, 1.0 recv from 0 tag 0
> why
line 8, 1.0 recv from 0 tag 0 with 0.0 value 7
  the call is complete: rank 1 can go on
> why 0
rank 0 waits for no call
> why 0.0
line 6, 0.0 send to 1 tag 0 value 7 with 1.0
> s
7 wake 1: line 8
next: local 1: line 9
    9    print x;
> why
no rank waits for a call
> bt 1
usage: ranks
> where is
usage: ranks
> step x
usage: next [N]
> exit now
usage: quit
> exit
'''),
    Dialogue('a barrier, a wait for any, and a wait, as their ranks can go on', IN_TURN, '''
> run 3
3 steps, depth 3
stopped: as many steps as were asked for
next: release: all ranks leave the barrier
> ranks
rank 0 waits at line 3, 0.0 barrier
rank 1 waits at line 3, 1.0 barrier
rank 2 waits at line 3, 2.0 barrier
> why
line 3, 0.0 barrier
line 3, 1.0 barrier
line 3, 2.0 barrier
> next
4 release: all ranks leave the barrier
next: local 0: line 4
    4  if rank == 0 {
> run 8
8 steps, depth 12
stopped: as many steps as were asked for
next: wake 0: line 7
    7    waitany none to i;
> ranks
rank 0 can go on from line 7, 0.3 waitany 2 0 none
rank 1 waits at line 11, 1.1 send to 0 tag 1 value 1
rank 2 waits at line 11, 2.1 send to 0 tag 2 value 2
> why 0.3
line 7, 0.3 waitany 2 0 none
> why
line 7, 0.3 waitany 2 0 none
  the call is complete: rank 0 can go on
line 11, 1.1 send to 0 tag 1 value 1 free
  can be matched with line 5, 0.1 irecv from 1 tag 1
line 11, 2.1 send to 0 tag 2 value 2 free
  can be matched with line 6, 0.2 irecv from 2 tag any
> next
13 wake 0: line 7
next: local 0: line 8
    8    waitany r to i;
> next 1
1 step, depth 14
stopped: as many steps as were asked for
next: match 1.1 0.1: rank 1, line 11, to rank 0, line 5
   11    send rank to 0 tag rank;
    5    irecv r[0] x from 1 tag 1;
>
15 match 1.1 0.1: rank 1, line 11, to rank 0, line 5
next: wake 1: line 11
   11    send rank to 0 tag rank;
> ranks
rank 0 waits at line 8, 0.4 waitany 0 2
rank 1 can go on from line 11, 1.1 send to 0 tag 1 value 1
rank 2 waits at line 11, 2.1 send to 0 tag 2 value 2
> why 0
line 8, 0.4 waitany 0 2
line 5, 0.1 irecv from 1 tag 1 with 1.1 value 1
line 6, 0.2 irecv from 2 tag any free
  can be matched with line 11, 2.1 send to 0 tag 2 value 2
> enabled
rank 1 goes on from line 11; wake 1
request r[0], the receive of line 5 (value 1), for rank 0; wakeany 0 0
rank 2 sends 2, tag 2 (line 11), to rank 0 (line 6); match 2.1 0.2
> wakeany 0 0
16 wakeany 0 0: line 8, by line 5, 0.1 irecv from 1 tag 1
next: local 0: line 9
    9    wait r[1];
> next
17 local 0: line 9
next: wake 1: line 11
   11    send rank to 0 tag rank;
> ranks
rank 0 waits at line 9, 0.5 wait 2
rank 1 can go on from line 11, 1.1 send to 0 tag 1 value 1
rank 2 waits at line 11, 2.1 send to 0 tag 2 value 2
> match 2.1 0.2
18 match 2.1 0.2: rank 2, line 11, to rank 0, line 6
next: wake 0: line 9
    9    wait r[1];
> ranks
rank 0 can go on from line 9, 0.5 wait 2
rank 1 can go on from line 11, 1.1 send to 0 tag 1 value 1
rank 2 can go on from line 11, 2.1 send to 0 tag 2 value 2
> why 0
line 9, 0.5 wait 2
line 6, 0.2 irecv from 2 tag any with 2.1 value 2
  the call is complete: rank 0 can go on
> why 0.5
line 9, 0.5 wait 2
line 6, 0.2 irecv from 2 tag any with 2.1 value 2
> why 0.2
line 6, 0.2 irecv from 2 tag any with 2.1 value 2
> run
3 steps, depth 21
ended: done
> why 0
rank 0 waits for no call
'''),
    Dialogue('an empty line behind next and a number', 'stolen_message.mpd', f'''
> next 0
refused: 1 to 1000000 steps can be asked for
>
1 local 0: line 7
next: local 0: line 8
    8    irecv r note from any tag any;
> n 8
8 steps, depth 9
{STOLEN_CHOICE}
>
{STOLEN_CHOICE}
> s 2
10 match 2.0 0.0: rank 2, line 13, to rank 0, line 8
next: wake 2: line 13
{SENDS}
>
11 wake 2: line 13
next: match 1.0 0.1: rank 1, line 13, to rank 0, line 9
{SENDS}
    9    recv result from 1 tag 7;
> undo-choice
depth 9
2 ahead: match 2.0 0.0: rank 2, line 13, to rank 0, line 8
{SENDS}
    8    irecv r note from any tag any;
{STOLEN_CHOICE}
> next 1
10 match 1.0 0.0: rank 1, line 13, to rank 0, line 8
the 2 steps that lay ahead are gone
next: wake 1: line 13
{SENDS}
> back
depth 9
1 ahead: match 1.0 0.0: rank 1, line 13, to rank 0, line 8
{SENDS}
    8    irecv r note from any tag any;
{STOLEN_CHOICE}
> next 3
refused: there is no such candidate
1 ahead: match 1.0 0.0: rank 1, line 13, to rank 0, line 8
{SENDS}
    8    irecv r note from any tag any;
{STOLEN_CHOICE}
> # a comment, and words that are none
> nexxt 3
unknown word 'nexxt': perhaps next
> next 3 3
usage: next [N]
>
10 match 1.0 0.0: rank 1, line 13, to rank 0, line 8
next: wake 1: line 13
{SENDS}
> back 2
depth 8
2 ahead: local 2: line 13
{SENDS}
>
depth 6
4 ahead: local 2: line 7
    7  if rank == 0 {{
'''),
    Dialogue('as many runs as are looked at', 'race.mpd', '''
> trap
no trap from here: 2 runs, and no more (1 done, 1 deadlock)
''', runs=2),
    Dialogue('a run that is looked at, which is a deadlock, and more', 'race.mpd', '''
> trap
no trap found from here: 1 run, and there are more (1 deadlock)
> run
6 steps, depth 6
stopped at a choice of rank 0, line 7; next N takes one:
    7  if rank == 0 { recv x from any tag any status who tag_of; recv x from 1
        tag any; } else { send rank to 0 tag 0; }
  1: rank 1 sends 1, tag 0 (line 7); match 1.0 0.0
  2: rank 2 sends 2, tag 0 (line 7); match 2.0 0.0
> next 2
7 match 2.0 0.0: rank 2, line 7, to rank 0, line 7
next: wake 0: line 7
    7  if rank == 0 { recv x from any tag any status who tag_of; recv x from 1
        tag any; } else { send rank to 0 tag 0; }
> trap
no trap from here: 1 run, and no more (1 done)
> deadlock
no deadlock from here: 1 run, and no more (1 done)
''', runs=1, states=1))
