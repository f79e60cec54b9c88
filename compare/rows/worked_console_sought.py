"""Worked dialogues of the console about deadlocks and traps that are sought among all runs, each state of which is looked at once, and what is told
where there is none (console_worked.py)."""

from model.debugger import BUFFERED
from rows.worked_console_scripts import MANY_ENDS, RARE, RARE_TRAP, RARER, RARER_OF_THREE, Dialogue

# Ten requests, all of them complete, which are waited for in any order that is remembered.
IN_ANY_ORDER = '''mpd 2; ranks 1; var i; var x; var w; req r[10];
while i < 10 { isend r[i] 1 to 0 tag 0; i = i + 1; }
i = 0;
while i < 10 { waitany r to x; w = w * 10 + x; i = i + 1; }
'''
# One of three messages is received.
ONE_IS_TAKEN = 'mpd 1; ranks 4; var x;\nif rank == 0 { recv x from any tag 0; } else { send rank to 0 tag 0; }'
# Rounds in which one of two requests is taken, and forgotten: 2^63 runs of 63 rounds, and of 64 one more than are counted.
IN_ROUNDS = '''mpd 2; ranks 1; var i; var x; req r[2];
while i < 63 {
  isend r[0] 1 to 0 tag 0;
  isend r[1] 1 to 0 tag 0;
  waitany r to x;
  recv x from 0 tag 0;
  recv x from 0 tag 0;
  i = i + 1;
}
'''

SOUGHT = (
    Dialogue('a deadlock beside messages whose order changes nothing', RARE, '''
> check 7
1 choices 1 1 1 1 1: done
2 choices 2 1 1 1 1: deadlock: rank 0 at line 3, rank 1 at line 3
2 runs, and no more (1 done, 1 deadlock)
one run for all orders of independent steps; diagnose counts each order
> check 1
1 choices 1 1 1 1 1: done
1 run, and there are more (1 done)
one run for all orders of independent steps; diagnose counts each order
> follow 1
run 1, done, is 68 steps ahead
68 ahead: local 0: line 2
    2  if rank < 3 {
> follow 2
run 2, deadlock, is 65 steps ahead: rank 0 at line 3, rank 1 at line 3
65 ahead: local 0: line 2
    2  if rank < 3 {
> follow 3
refused: there is no such run
> deadlock
deadlock is 65 steps ahead: rank 0 at line 3, rank 1 at line 3
65 ahead: local 0: line 2
    2  if rank < 3 {
'''),
    # four messages of the pairs come in 6 orders, and before, between or behind them that of the race
    Dialogue('all orders of messages whose order changes nothing', RARE, '''
> trap
no trap from here: 60 runs, and no more (30 done, 30 deadlock)
> check
1 choices 1 1 1 1 1: done
2 choices 2 1 1 1 1: deadlock: rank 0 at line 3, rank 1 at line 3
2 runs, and no more (1 done, 1 deadlock)
one run for all orders of independent steps; diagnose counts each order
'''),
    Dialogue('no more runs than are looked at, and the way to where a deadlock is decided', RARE, '''
> trap
no trap from here: 2 runs, and no more (1 done, 1 deadlock)
> follow 3
refused: there is no such run
> check 3
refused: 1 to 65536 runs can be asked for
> follow 2
run 2, deadlock, is 65 steps ahead: rank 0 at line 3, rank 1 at line 3
65 ahead: local 0: line 2
    2  if rank < 3 {
> deadlock
deadlock is 65 steps ahead: rank 0 at line 3, rank 1 at line 3
65 ahead: local 0: line 2
    2  if rank < 3 {
> run 25
25 steps, depth 25
40 ahead: match 2.0 0.0: rank 2, line 3, to rank 0, line 3
    3    if rank == 0 { recv x from any tag 0; recv x from 2 tag 0; } else {
        send rank to 0 tag 0; }
stopped at a choice; next N takes one:
  1: rank 1 sends 1, tag 0 (line 3), to rank 0 (line 3); match 1.0 0.0
  2: rank 2 sends 2, tag 0 (line 3), to rank 0 (line 3); match 2.0 0.0
  3: rank 5 sends 5, tag 0 (line 6), to rank 3 (line 6); match 5.0 3.0
  4: rank 6 sends 6, tag 0 (line 6), to rank 4 (line 6); match 6.0 4.0
''', runs=2, states=1),
    Dialogue('a trap beside messages whose order changes nothing', RARE_TRAP, '''
> trap
trap is 65 steps ahead: rank 0 at line 3 (zero-divisor)
65 ahead: local 0: line 2
    2  if rank < 3 {
> deadlock
no deadlock from here: 60 runs, and no more (30 done, 30 trap)
''', runs=2),
    Dialogue('a trap beside them, where each state is not looked at once', RARE_TRAP, '''
> trap
trap is 65 steps ahead: rank 0 at line 3 (zero-divisor)
65 ahead: local 0: line 2
    2  if rank < 3 {
> deadlock
no deadlock from here: 2 runs, and no more (1 done, 1 trap)
''', runs=2, states=1),
    Dialogue('what no run is that is looked at, and there are more', RARE, '''
> deadlock
no deadlock found from here: 1 run, and there are more (1 done)
> trap
no trap found from here: 1 run, and there are more (1 done)
> follow 1
run 1, done, is 68 steps ahead
68 ahead: local 0: line 2
    2  if rank < 3 {
> follow 2
refused: there is no such run
''', runs=1, states=1),
    Dialogue('several outcomes of one way, none of which is sought', ONE_IS_TAKEN, '''
> check
1 choices 1: deadlock: rank 2 at line 2, rank 3 at line 2
2 choices 2: deadlock: rank 1 at line 2, rank 3 at line 2
3 choices 3: deadlock: rank 1 at line 2, rank 2 at line 2
3 runs, and no more (3 deadlock)
one run for all orders of independent steps; diagnose counts each order
> trap
no trap from here: 3 runs, and no more (3 deadlock)
'''),
    Dialogue('a trap that another order comes to, where each state is not looked at once', 'order_decides.mpd', '''
> deadlock
no deadlock from here: 2 runs, and no more (1 done, 1 trap)
> trap
trap is 14 steps ahead: rank 0 at line 11 (assert)
14 ahead: local 0: line 7
    7  if rank == 0 {
''', states=1),
    Dialogue('as many runs as are counted, nearly', IN_ROUNDS, '''
> trap
no trap from here: 9223372036854775808 runs, and no more (9223372036854775808
        done)
''', BUFFERED),
    Dialogue('more runs than are counted', IN_ROUNDS.replace('63', '64'), '''
> deadlock
no deadlock from here: at least 18446744073709551615 runs, and no more (at least
        18446744073709551615 done)
> next 3
3 steps, depth 3
stopped: as many steps as were asked for
next: local 0: line 5
    5    waitany r to x;
''', BUFFERED))
# What takes the model some seconds: six messages come in 90 orders, and before, between or behind them that of the race.
ALL_RUNS = (
    Dialogue('a deadlock beside more messages whose order changes nothing', RARER_OF_THREE, '''
> trap
no trap from here: 1260 runs, and no more (630 done, 630 deadlock)
> deadlock
deadlock is 91 steps ahead: rank 0 at line 3, rank 1 at line 3
91 ahead: local 0: line 2
    2  if rank < 3 {
> follow 2
run 2, deadlock, is 91 steps ahead: rank 0 at line 3, rank 1 at line 3
91 ahead: local 0: line 2
    2  if rank < 3 {
> follow 3
refused: there is no such run
'''),)
# What the model isn't asked: more than 65,536 runs. Ten messages come in 113,400 orders, with that of the race in 1,247,400, and nine in 362,880.
MANY_RUNS = (
    Dialogue('a deadlock beside many messages whose order changes nothing', RARER, '''
> deadlock
deadlock is 143 steps ahead: rank 0 at line 3, rank 1 at line 3
143 ahead: local 0: line 2
    2  if rank < 3 {
> trap
no trap from here: 2494800 runs, and no more (1247400 done, 1247400 deadlock)
> follow 2
run 2, deadlock, is 143 steps ahead: rank 0 at line 3, rank 1 at line 3
143 ahead: local 0: line 2
    2  if rank < 3 {
> follow 3
refused: there is no such run
'''),
    Dialogue('more than 65,536 ends', MANY_ENDS, '''
> deadlock
no deadlock from here: 362880 runs, and no more (362880 done)
> trap
no trap from here: 362880 runs, and no more (362880 done)
> follow 65536
run 65536, done, is 74 steps ahead
74 ahead: local 0: line 2
    2  if rank == 0 {
'''),
    # all orders of ten requests are 3,628,800, and what stands before the last of them is another state each time, so that these are more than 1,000,000
    Dialogue('more states than are come to', IN_ANY_ORDER, '''
> deadlock
no deadlock found from here: 65536 runs, and there are more (65536 leftovers)
''', BUFFERED),)
