"""Scripts with several bugs, of which some are told last, and what `diagnose` tells of them, worked out by hand (worked_diagnosed.py)."""

# Rank 1 is stuck if it takes the message of rank 2, and then rank 0 too if it does. The run of both comes first, and is told after those of each alone.
# Fifteen steps are before the first choice: two of rank 0, three of rank 1, and five of each sender. Where rank 1 goes on eight more are before the second:
# a match and a wake, three of rank 1, the match of its message and a wake, and the receive.
BOTH_STUCK = '''mpd 1; ranks 4; var x; req r;
if rank == 0 {
  recv x from 1 tag 5; recv x from any tag 0;
  if x == 2 { recv x from 0 tag 9; }
}
if rank == 1 {
  recv x from any tag 1; isend r 0 to 0 tag 5;
  if x == 2 { recv x from 1 tag 9; }
}
if rank > 1 { isend r rank to 1 tag 1; isend r rank to 0 tag 0; }'''
OF_BOTH_STUCK = '''\
it can hang in rendezvous: 3 of 4 runs
it can end with calls left over: 1 of 4 runs

deadlock at line 8: 1 of 4 runs
  rank 1 waits at line 8, 1.2 recv from 1 tag 9: for a send of rank 1 with tag 9
  rank 1 waits for rank 1
  a cycle, where each waits for the next: rank 1, rank 1
  left over: line 10, 2.1 isend to 0 tag 0 value 2
  left over: line 10, 3.0 isend to 1 tag 1 value 3
  decided at depth 15: rank 1, line 7, takes the message of rank 2 (line 10,
        value 2, tag 1); with that of rank 3 (line 10, value 3, tag 1) it need
        not hang or trap
  at the prompt of `debug`, `blame` goes to this step and `redo all` to the end
  ./mpdbg debug script.mpd --ends --choices '0 1'
  ./mpdbg picture script.mpd --ends --choices '0 1' > run-1.svg

deadlock at line 4: 1 of 4 runs
  rank 0 waits at line 4, 0.2 recv from 0 tag 9: for a send of rank 0 with tag 9
  rank 0 waits for rank 0
  a cycle, where each waits for the next: rank 0, rank 0
  left over: line 10, 2.0 isend to 1 tag 1 value 2
  left over: line 10, 3.1 isend to 0 tag 0 value 3
  decided at depth 23: rank 0, line 3, takes the message of rank 2 (line 10,
        value 2, tag 0); with that of rank 3 (line 10, value 3, tag 0) it need
        not hang or trap
  at the prompt of `debug`, `blame` goes to this step and `redo all` to the end
  ./mpdbg debug script.mpd --ends --choices '1 0'
  ./mpdbg picture script.mpd --ends --choices '1 0' > run-2.svg

deadlock at lines 4, 8: 1 of 4 runs
  rank 0 waits at line 4, 0.2 recv from 0 tag 9: for a send of rank 0 with tag 9
  rank 1 waits at line 8, 1.2 recv from 1 tag 9: for a send of rank 1 with tag 9
  rank 0 waits for rank 0
  rank 1 waits for rank 1
  a cycle, where each waits for the next: rank 0, rank 0
  a cycle, where each waits for the next: rank 1, rank 1
  left over: line 10, 3.0 isend to 1 tag 1 value 3
  left over: line 10, 3.1 isend to 0 tag 0 value 3
  decided at depth 15: rank 1, line 7, takes the message of rank 2 (line 10,
        value 2, tag 1); with that of rank 3 (line 10, value 3, tag 1) it need
        not hang or trap
  at the prompt of `debug`, `blame` goes to this step and `redo all` to the end
  ./mpdbg debug script.mpd --ends --choices '0 0'
  ./mpdbg picture script.mpd --ends --choices '0 0' > run-3.svg

left over from line 10: 1 of 4 runs
  left over: line 10, 2.0 isend to 1 tag 1 value 2
  left over: line 10, 2.1 isend to 0 tag 0 value 2
  ./mpdbg debug script.mpd --ends --choices '1 1'
  ./mpdbg picture script.mpd --ends --choices '1 1' > run-4.svg
'''

# Of two deadlocks the first stands at more lines than the other, but not at all of that one's. Where rank 0 takes the message of rank 1 both wait for each
# other at lines 4 and 8; where it takes that of rank 2, rank 1 is sent what it waits for, and rank 0 waits at line 5.
MORE_LINES = '''mpd 1; ranks 3; var x; req r;
if rank == 0 {
  recv x from any tag 0;
  if x == 1 { recv x from 1 tag 9; }
  isend r 0 to 1 tag 5; recv x from 2 tag 9;
}
if rank > 0 { isend r rank to 0 tag 0; }
if rank == 1 { recv x from 0 tag 5; }'''
OF_MORE_LINES = '''\
it always hangs in rendezvous (2 runs)
  ./mpdbg diagnose script.mpd --modes 4

deadlock at lines 4, 8: 1 of 2 runs
  rank 0 waits at line 4, 0.1 recv from 1 tag 9: for a send of rank 1 with tag 9
  rank 1 waits at line 8, 1.1 recv from 0 tag 5: for a send of rank 0 with tag 5
  rank 0 waits for rank 1
  rank 1 waits for rank 0
  a cycle, where each waits for the next: rank 0, rank 1, rank 0
  left over: line 7, 2.0 isend to 0 tag 0 value 2
  decided from the start: every run hangs or traps
  ./mpdbg debug script.mpd --ends --choices '0'
  ./mpdbg picture script.mpd --ends --choices '0' > run-1.svg

deadlock at line 5: 1 of 2 runs
  rank 0 waits at line 5, 0.2 recv from 2 tag 9: for a send of rank 2 with tag 9
  rank 0 waits for rank 2 (ended)
  left over: line 7, 1.0 isend to 0 tag 0 value 1
  decided from the start: every run hangs or traps
  ./mpdbg debug script.mpd --ends --choices '1'
  ./mpdbg picture script.mpd --ends --choices '1' > run-2.svg
'''
# A deadlock stands at the line of a trap and at one more, and comes first as its run does: they are of two kinds.
TWO_KINDS = '''mpd 1; ranks 3; var x; req r;
if rank == 0 {
  recv x from any tag 0;
  if x == 1 { recv x from 1 tag 9; } assert 0;
}
if rank > 0 { isend r rank to 0 tag 0; }
if rank == 1 { recv x from 0 tag 5; }'''
OF_TWO_KINDS = '''\
it always fails in rendezvous: it hangs in 1 of 2 runs and traps in 1
  ./mpdbg diagnose script.mpd --modes 4

deadlock at lines 4, 7: 1 of 2 runs
  rank 0 waits at line 4, 0.1 recv from 1 tag 9: for a send of rank 1 with tag 9
  rank 1 waits at line 7, 1.1 recv from 0 tag 5: for a send of rank 0 with tag 5
  rank 0 waits for rank 1
  rank 1 waits for rank 0
  a cycle, where each waits for the next: rank 0, rank 1, rank 0
  left over: line 6, 2.0 isend to 0 tag 0 value 2
  decided from the start: every run hangs or traps
  ./mpdbg debug script.mpd --ends --choices '0'
  ./mpdbg picture script.mpd --ends --choices '0' > run-1.svg

trap at line 4: 1 of 2 runs
  rank 0, line 4: trap assert
  decided from the start: every run hangs or traps
  ./mpdbg debug script.mpd --ends --choices '1'
  ./mpdbg picture script.mpd --ends --choices '1' > run-2.svg
'''
