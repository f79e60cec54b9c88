"""Worked rows of checks that explain deadlocks, traps and leftovers, each worked out by hand from docs/FORMATS.md ("Explanations", "Groups").

compare/runs/worked.py has the model answer them, and compare/runs/explained.py a program. A script is one of examples/, or stands here.
"""

from typing import NamedTuple

from cases.explore_cases import Case
from model.debugger import BUFFERED, RENDEZVOUS, Result
from model.explorer import Asked
from places import EXAMPLES
from rows.worked_console_scripts import ANY_OF_TWO, WAITS
from rows.worked_ends import TRAPS_AT_TWO
from rows.worked_marks import MARKED, MARKED_GROUPS, MARKED_REPORT

# Both ranks wait for any of two requests, and for one rank alone.
ANY_OF_ONE_RANK = '''mpd 2; ranks 2;
var x; var i; req r[2];
irecv r[0] x from 1 - rank tag 0;
irecv r[1] x from 1 - rank tag 1;
waitany r to i;
'''
# A loop sends once more than is received; the last that was taken counts.
ONCE_MORE = '''mpd 1; ranks 2; var x;
if rank == 0 {
  while 1 {
    send 7 to 1 tag 2;
  }
} else { recv x from any tag 2; recv x from 0 tag any; }
'''
# Three ranks wait for each other, and a fourth one for one of them.
OF_THREE = '''mpd 1; ranks 4; var x;
if rank < 3 {
  recv x from (rank + 1) % 3 tag 0;
  send 1 to (rank + 2) % 3 tag 0;
} else { recv x from 1 tag any; }
'''
# Two pairs wait for each other, and a rank for itself.
APART = '''mpd 1; ranks 5; var x;
if rank == 4 { ssend 1 to 4 tag 9; }
recv x from 3 - rank tag rank;
'''
# Two ranks trap, one behind a loop, in a statement of two lines; what a third one waits for isn't told.
TWO_TRAPS = '''mpd 1; ranks 3; var x; var a[2];
if rank == 0 { a[2] = 1; }
if rank == 1 {
  while x < 3 { x = x + 1; }
  send 1
    to 3 tag 0;
}
recv x from 0 tag 0;
'''
# Two ranks trap at a statement, on line 3; a[1] is another one in each of them.
HOLDING = '''mpd 2; ranks 2; var i; var b; var x; var a[3]; req h; req r[2]; var z; var e[0]; var w[17];
i = 3; x = 7; a[1] = rank + 1; a[2] = 0 - 4; w[2] = 9; w[16] = 5;
STATEMENT
'''
A_HELD, W_HELD = 'a = [0, {}, -4]', f'w = [0, 0, 9{", 0" * 13}, ..]'
# A statement, its trap, and what is told of what the ranks hold.
READ = (
    ('assert z;', 'assert', ', with z = 0'), ('print x / z;', 'zero-divisor', ', with x = 7, z = 0'),
    # in the order of declarations, each once
    ('x = x * z / b + x;', 'zero-divisor', ', with b = 0, x = 7, z = 0'),
    # a variable that is written isn't named, and its index is
    ('a[i] = x;', 'bad-index', ', with i = 3, x = 7'), ('b = 9223372036854775807 + x;', 'overflow', ', with x = 7'),
    ('a[x - x] = a[i];', 'bad-index', f', with i = 3, x = 7, {A_HELD}'),
    # a condition, and not the blocks behind it
    ('if a[a[2]] { print b; } else { x = z; }', 'bad-index', f', with {A_HELD}'), ('while i % z { b = b + x; }', 'zero-divisor', ', with i = 3, z = 0'),
    # what isn't evaluated is named too
    ('assert w[x] && z;', 'assert', f', with x = 7, z = 0, {W_HELD}'), ('assert -(i - i) || !x;', 'assert', ', with i = 3, x = 7'),
    # sends and receives: value, destination or source, tag, and the indexes of handles and places
    ('send x to i tag z;', 'bad-rank', ', with i = 3, x = 7, z = 0'), ('ssend b to rank tag 0 - i;', 'bad-tag', ', with i = 3, b = 0'),
    ('isend r[i] x to 0 tag 0;', 'bad-index', ', with i = 3, x = 7'), ('issend r[z] 1 to x + i tag b;', 'bad-rank', ', with i = 3, b = 0, x = 7, z = 0'),
    ('recv x from i tag any;', 'bad-rank', ', with i = 3'), ('recv a[z] from any tag 0 - x status b a[i];', 'bad-tag', ', with i = 3, x = 7, z = 0'),
    ('recv a[1] from any tag any status z w[x + x + i];', 'bad-index', ', with i = 3, x = 7'),
    ('irecv h x from z - 1 tag b status w[i] z;', 'bad-rank', ', with i = 3, b = 0, z = 0'),
    ('irecv r[a[1]] e[0] from rank tag z;', 'bad-index', f', with {A_HELD}, z = 0'),
    ('wait r[i];', 'bad-index', ', with i = 3'), ('waitany r to a[i];', 'bad-index', ', with i = 3'),
    # an array without a cell, and no variable
    ('print e[i];', 'bad-index', ', with i = 3, e = []'), ('assert 0;', 'assert', ''), ('send rank to size tag 0;', 'bad-rank', ''))
# One rank is at a barrier, one at a receive behind which it has no statement left, and one has ended.
ALONE_AT_IT = '''mpd 1; ranks 3; var x;
if rank == 0 { barrier; }
if rank == 1 { recv x from any tag 4; }
'''
# Two ranks are at a barrier, and one waits for a request before it, and has a statement left before that barrier.
WAITS_BEFORE_IT = '''mpd 1; ranks 3; var x; req r;
if rank == 0 {
  irecv r x from 1 tag 3;
  wait r;
  print x;
}
barrier;
if rank == 1 { send 5 to 0 tag 3; }
'''
NOBODY = 'mpd 1; ranks 1; var x;\nrecv x from any tag any;'
# Of what nearly fits the send, another tag counts, though a receive of another source stands before it: no rank waits for any of these.
IN_ORDER = '''mpd 1; ranks 3; var x; req r[4];
if rank == 0 {
  irecv r[0] x from 2 tag 0;
  irecv r[1] x from 1 tag 1;
  irecv r[2] x from any tag 2;
}
if rank == 1 { send 7 to 0 tag 0; }
if rank == 2 { print 7; }
'''
# Here rank 2 waits for the same message, and so its receive counts.
DUE_FIRST = IN_ORDER.replace('print 7;', 'recv x from 1 tag 0;')
# The first message of rank 1 is for a receive that comes later, and nobody waits for it yet; it has the other one with a wrong tag.
LOG_BEFORE_RESULT = '''mpd 1; ranks 2; var x; req r;
if rank == 0 { recv x from 1 tag 2; recv x from 1 tag 1; }
if rank == 1 {
  isend r 5 to 0 tag 1;
  send 6 to 0 tag 3;
  wait r;
}
'''
# Of three sends of one line the last is waited for.
LAST_OF_ITS_LINE = '''mpd 1; ranks 2; var x; var i; req r[3];
if rank == 0 { recv x from 1 tag 7; }
if rank == 1 {
  while i < 3 { isend r[i] 5 to 0 tag i; i = i + 1; }
  wait r[2];
}
'''
# Any of the last two sends is waited for, and the first of these goes to another rank, with another tag.
ONE_OF_ANY = '''mpd 2; ranks 3; var x; var i; req h; req r[2];
if rank == 0 { recv x from 1 tag 7; }
if rank == 1 {
  isend h 5 to 0 tag 0;
  isend r[0] 5 to 2 tag 5;
  isend r[1] 5 to 0 tag 1;
  waitany r to i;
}
'''
# Rank 1 sends to rank 2 what rank 0 waits for, and rank 2 sends what rank 0 takes after that.
ASTRAY = '''mpd 1; ranks 3; var x;
if rank == 0 { recv x from 1 tag 0; recv x from 2 tag 0; }
if rank == 1 { ssend 5 to 2 tag 0; }
if rank == 2 { ssend 6 to 0 tag 0; }
'''
# The receive of the rank that the send goes to counts, though that of another rank stands before it.
OF_ITS_RANK = '''mpd 1; ranks 3; var x;
if rank == 0 { recv x from 2 tag 0; }
if rank == 1 { recv x from 0 tag 0; }
if rank == 2 { send 5 to 1 tag 0; }
'''
# The first by rank, and not by number, of those with another tag.
FIRST_BY_RANK = '''mpd 1; ranks 4; var x; req r[2];
if rank == 0 { recv x from any tag 0; }
if rank == 1 { issend r[0] 5 to 3 tag 0; issend r[1] 6 to 0 tag 1; }
if rank == 2 { issend r[0] 8 to 0 tag 2; }
'''
# Another destination counts, though a send of another rank stands before it.
DESTINATION_FIRST = '''mpd 1; ranks 3; var x; req r;
if rank == 0 { recv x from 2 tag 0; }
if rank == 1 { issend r 5 to 0 tag 0; }
if rank == 2 { issend r 6 to 1 tag 0; }
'''
# Only the rank that is taken last is answered: three ends of two leaves each, of which those of one end are no neighbours.
ANSWERED_LAST = '''mpd 1; ranks 4; var x;
if rank == 0 {
  recv x from any tag 0;
  recv x from any tag 0;
  recv x from any tag 0;
  send 7 to x tag 1;
} else {
  send rank to 0 tag 0;
  recv x from 0 tag 1;
}
'''
OTHER_SOURCE = '''mpd 1; ranks 3; var x;
if rank == 0 { recv x from 2 tag 0; }
if rank == 1 { ssend 7 to 0 tag 0; }
'''

# Rank 2 sends two messages, of which one is received at most, and rank 0 posts a receive that no message fits.
LEFT_BY_TWO = '''mpd 1; ranks 3; var x; req r;
if rank == 0 { irecv r x from 1 tag 7; }
if rank == 1 { recv x from any tag any; }
if rank == 2 {
  isend r 30 to 1 tag 4;
  isend r 31 to 1
    tag 5;
}
'''
# Rank 0 waits for its second request, and of its other calls one is left over; rank 1 waits for nothing, and of its three messages rank 2 takes the
# first.
LEFT_BESIDE_HANG = '''mpd 1; ranks 3; var x; req r[3];
if rank == 0 {
  irecv r[0] x from 1 tag 8;
  irecv r[1] x from 1 tag 9;
  wait r[1];
}
if rank == 1 {
  isend r[0] 5 to 2 tag 1;
  isend r[1] 6 to 2 tag 2;
  issend r[2] 7 to 0 tag 3;
}
if rank == 2 { recv x from any tag 1; }
'''
# The same where rank 2 traps.
LEFT_BESIDE_TRAP = LEFT_BESIDE_HANG.replace('recv x from any tag 1;', 'recv x from any tag 1; assert 0;')
# Which of two messages is left over is decided by a choice.
ONE_IS_LEFT = '''mpd 1; ranks 3; var x; req r;
if rank == 0 { recv x from any tag any; }
if rank == 1 { issend r -1 to 0 tag 0; }
if rank == 2 { issend r 2 to 0 tag 0; }
'''

STOLEN = '''  rank 0 waits at line 9, 0.1 recv from 1 tag 7: for a send of rank 1 with tag 7
    the last that fits is taken: line 13, 1.0 send to 0 tag 7 value 42, by line 8, 0.0 irecv from any tag any
  rank 2 waits at line 13, 2.0 send to 0 tag 1 value 5: for a receive of rank 0 from rank 2 with tag 1
    the last that fits is taken: line 8, 0.0 irecv from any tag any, by line 13, 1.0 send to 0 tag 7 value 42
  rank 0 waits for rank 1 (ended)
  rank 2 waits for rank 0
'''
STOLEN_STEPS = 'witness 0: local 0, local 0, local 0, local 1, local 1, local 1, local 2, local 2, local 2, match 1.0 0.0, wake 1\n'
SWAPPED = '''leaf 0 [] deadlock 0.0 1.0
  rank 0 waits at line 7, 0.0 send to 1 tag 1 value 640: for a receive of rank 1 from rank 0 with tag 1
    nearest miss: line 10, 1.0 recv from 0 tag 2: another tag
  rank 1 waits at line 10, 1.0 recv from 0 tag 2: for a send of rank 0 with tag 2
    nearest miss: line 7, 0.0 send to 1 tag 1 value 640: another tag
  rank 0 waits for rank 1
  rank 1 waits for rank 0
  a cycle, where each waits for the next: rank 0, rank 1, rank 0
leaves 1 more no
'''
MISSING = '''  rank 0 waits at line 9, 0.2 recv from any tag 0: for a send of any rank with tag 0
    the last that fits is taken: line 15, {}.0 send to 0 tag 0 value {}, by line 9, 0.1 recv from any tag 0
  rank 0 waits for any of rank 1 (ended), rank 2 (ended)
'''
LATER, EARLIER = MISSING.format(2, 2), MISSING.format(1, 1)
HEADS = '''  rank 0 waits at line 5, 0.0 send to 1 tag 5 value 10: for a receive of rank 1 from rank 0 with tag 5
  rank 1 waits at line 5, 1.0 send to 0 tag 5 value 11: for a receive of rank 0 from rank 1 with tag 5
  rank 0 waits for rank 1
  rank 1 waits for rank 0
  a cycle, where each waits for the next: rank 0, rank 1, rank 0
'''
SKIPPED = '''leaf 0 [] deadlock 0.1 1.1
  rank 0 waits at line 9, 0.1 barrier: for all ranks at a barrier
    rank 2 is not there: it has ended
  rank 1 waits at line 9, 1.1 barrier: for all ranks at a barrier
    rank 2 is not there: it has ended
  rank 0 waits for rank 2 (ended)
  rank 1 waits for rank 2 (ended)
leaves 1 more no
'''
WAITED = '''leaf 0 [] deadlock 0.1 1.1
  rank 0 waits at line 5, 0.1 wait 0: for request 0.0
    line 4, 0.0 irecv from 1 tag 3: for a send of rank 1 with tag 3
    nearest miss: line 7, 1.0 isend to 0 tag 4 value 7: another tag
  rank 1 waits at line 8, 1.1 wait 0: for request 1.0
    line 7, 1.0 isend to 0 tag 4 value 7: for a receive of rank 0 from rank 1 with tag 4
    nearest miss: line 4, 0.0 irecv from 1 tag 3: another tag
  rank 0 waits for rank 1
  rank 1 waits for rank 0
  a cycle, where each waits for the next: rank 0, rank 1, rank 0
leaves 1 more no
'''
# A send that is buffered blocks nobody; it nearly fits all the same, and its mark isn't told.
WAITED_BUFFERED = '''leaf 0 [] deadlock 0.1
  rank 0 waits at line 5, 0.1 wait 0: for request 0.0
    line 4, 0.0 irecv from 1 tag 3: for a send of rank 1 with tag 3
    nearest miss: line 7, 1.0 isend to 0 tag 4 value 7: another tag
  rank 0 waits for rank 1 (ended)
  left over: line 7, 1.0 isend to 0 tag 4 value 7
leaves 1 more no
'''
WAITED_FOR_ANY = '''leaf 0 [] deadlock 0.2 1.0
  rank 0 waits at line 6, 0.2 waitany 0 3: for one of these requests
    line 5, 0.1 issend to 2 tag 0 value 5: for a receive of rank 2 from rank 0 with tag 0
    nearest miss: line 8, 1.0 recv from 0 tag 0: another destination
    line 4, 0.0 irecv from 1 tag 1: for a send of rank 1 with tag 1
  rank 1 waits at line 8, 1.0 recv from 0 tag 0: for a send of rank 0 with tag 0
    nearest miss: line 5, 0.1 issend to 2 tag 0 value 5: another destination
  rank 0 waits for any of rank 1, rank 2 (ended)
  rank 1 waits for rank 0
leaves 1 more no
'''
WAITED_FOR_ONE_RANK = '''leaf 0 [] deadlock 0.2 1.2
  rank 0 waits at line 5, 0.2 waitany 0 2: for one of these requests
    line 3, 0.0 irecv from 1 tag 0: for a send of rank 1 with tag 0
    line 4, 0.1 irecv from 1 tag 1: for a send of rank 1 with tag 1
  rank 1 waits at line 5, 1.2 waitany 0 2: for one of these requests
    line 3, 1.0 irecv from 0 tag 0: for a send of rank 0 with tag 0
    line 4, 1.1 irecv from 0 tag 1: for a send of rank 0 with tag 1
  rank 0 waits for rank 1
  rank 1 waits for rank 0
  a cycle, where each waits for the next: rank 0, rank 1, rank 0
leaves 1 more no
'''
SENT_ONCE_MORE = '''leaf 0 [0] deadlock 0.2
  rank 0 waits at line 4, 0.2 send to 1 tag 2 value 7: for a receive of rank 1 from rank 0 with tag 2
    the last that fits is taken: line 6, 1.1 recv from 0 tag any, by line 4, 0.1 send to 1 tag 2 value 7
  rank 0 waits for rank 1 (ended)
leaves 1 more no
'''
ROUND_OF_THREE = '''leaf 0 [] deadlock 0.0 1.0 2.0 3.0
  rank 0 waits at line 3, 0.0 recv from 1 tag 0: for a send of rank 1 with tag 0
  rank 1 waits at line 3, 1.0 recv from 2 tag 0: for a send of rank 2 with tag 0
  rank 2 waits at line 3, 2.0 recv from 0 tag 0: for a send of rank 0 with tag 0
  rank 3 waits at line 5, 3.0 recv from 1 tag any: for a send of rank 1 with any tag
  rank 0 waits for rank 1
  rank 1 waits for rank 2
  rank 2 waits for rank 0
  rank 3 waits for rank 1
  a cycle, where each waits for the next: rank 0, rank 1, rank 2, rank 0
leaves 1 more no
'''
ROUNDS_APART = '''leaf 0 [] deadlock 0.0 1.0 2.0 3.0 4.0
  rank 0 waits at line 3, 0.0 recv from 3 tag 0: for a send of rank 3 with tag 0
  rank 1 waits at line 3, 1.0 recv from 2 tag 1: for a send of rank 2 with tag 1
  rank 2 waits at line 3, 2.0 recv from 1 tag 2: for a send of rank 1 with tag 2
  rank 3 waits at line 3, 3.0 recv from 0 tag 3: for a send of rank 0 with tag 3
  rank 4 waits at line 2, 4.0 ssend to 4 tag 9 value 1: for a receive of rank 4 from rank 4 with tag 9
  rank 0 waits for rank 3
  rank 1 waits for rank 2
  rank 2 waits for rank 1
  rank 3 waits for rank 0
  rank 4 waits for rank 4
  a cycle, where each waits for the next: rank 0, rank 3, rank 0
  a cycle, where each waits for the next: rank 1, rank 2, rank 1
  a cycle, where each waits for the next: rank 4, rank 4
leaves 1 more no
'''
TRAPPED_TWICE = '''leaf 0 [] trap 0 bad-index 1 bad-rank
  rank 0, line 2: trap bad-index
  rank 1, line 5: trap bad-rank
leaves 1 more no
'''
NOT_THERE = '''leaf 0 [] deadlock 0.0 1.0
  rank 0 waits at line 2, 0.0 barrier: for all ranks at a barrier
    rank 1 is not there: it waits at line 3, 1.0 recv from any tag 4
    rank 2 is not there: it has ended
  rank 1 waits at line 3, 1.0 recv from any tag 4: for a send of any rank with tag 4
  rank 0 waits for all of rank 1, rank 2 (ended)
  rank 1 waits for any of rank 0, rank 2 (ended)
leaves 1 more no
'''
WAITING_BEFORE_IT = '''leaf 0 [] deadlock 0.1 1.0 2.0
  rank 0 waits at line 4, 0.1 wait 0: for request 0.0
    line 3, 0.0 irecv from 1 tag 3: for a send of rank 1 with tag 3
  rank 1 waits at line 7, 1.0 barrier: for all ranks at a barrier
    rank 0 is not there: it waits at line 4, 0.1 wait 0
  rank 2 waits at line 7, 2.0 barrier: for all ranks at a barrier
    rank 0 is not there: it waits at line 4, 0.1 wait 0
  rank 0 waits for rank 1
  rank 1 waits for rank 0
  rank 2 waits for rank 0
  a cycle, where each waits for the next: rank 0, rank 1, rank 0
leaves 1 more no
'''
FOR_NOBODY = '''leaf 0 [] deadlock 0.0
  rank 0 waits at line 2, 0.0 recv from any tag any: for a send of any rank with any tag
  rank 0 waits for nobody
leaves 1 more no
'''
MISSED_IN_ORDER = '''leaf 0 [] deadlock 1.0
  rank 1 waits at line 7, 1.0 send to 0 tag 0 value 7: for a receive of rank 0 from rank 1 with tag 0
    nearest miss: line 4, 0.1 irecv from 1 tag 1: another tag
  rank 1 waits for rank 0 (ended)
  left over: line 3, 0.0 irecv from 2 tag 0
  left over: line 4, 0.1 irecv from 1 tag 1
  left over: line 5, 0.2 irecv from any tag 2
leaves 1 more no
'''
MISSED_DUE_FIRST = '''leaf 0 [] deadlock 1.0 2.0
  rank 1 waits at line 7, 1.0 send to 0 tag 0 value 7: for a receive of rank 0 from rank 1 with tag 0
    nearest miss: line 8, 2.0 recv from 1 tag 0: another destination
  rank 2 waits at line 8, 2.0 recv from 1 tag 0: for a send of rank 1 with tag 0
    nearest miss: line 7, 1.0 send to 0 tag 0 value 7: another destination
  rank 1 waits for rank 0 (ended)
  rank 2 waits for rank 1
  left over: line 3, 0.0 irecv from 2 tag 0
  left over: line 4, 0.1 irecv from 1 tag 1
  left over: line 5, 0.2 irecv from any tag 2
leaves 1 more no
'''
MISSED_BY_SOURCE = '''leaf 0 [] deadlock 0.0 1.0
  rank 0 waits at line 2, 0.0 recv from 2 tag 0: for a send of rank 2 with tag 0
    nearest miss: line 3, 1.0 ssend to 0 tag 0 value 7: another source
  rank 1 waits at line 3, 1.0 ssend to 0 tag 0 value 7: for a receive of rank 0 from rank 1 with tag 0
    nearest miss: line 2, 0.0 recv from 2 tag 0: another source
  rank 0 waits for rank 2 (ended)
  rank 1 waits for rank 0
leaves 1 more no
'''
MISSED_BY_RANK = '''leaf 0 [] deadlock 0.0
  rank 0 waits at line 2, 0.0 recv from any tag 0: for a send of any rank with tag 0
    nearest miss: line 3, 1.1 issend to 0 tag 1 value 6: another tag
  rank 0 waits for any of rank 1 (ended), rank 2 (ended), rank 3 (ended)
  left over: line 3, 1.0 issend to 3 tag 0 value 5
  left over: line 3, 1.1 issend to 0 tag 1 value 6
  left over: line 4, 2.0 issend to 0 tag 2 value 8
leaves 1 more no
'''
MISSED_BY_DESTINATION_FIRST = '''leaf 0 [] deadlock 0.0
  rank 0 waits at line 2, 0.0 recv from 2 tag 0: for a send of rank 2 with tag 0
    nearest miss: line 4, 2.0 issend to 1 tag 0 value 6: another destination
  rank 0 waits for rank 2 (ended)
  left over: line 3, 1.0 issend to 0 tag 0 value 5
  left over: line 4, 2.0 issend to 1 tag 0 value 6
leaves 1 more no
'''
MISSED_BY_RESULT = '''leaf 0 [] deadlock 0.0 1.1
  rank 0 waits at line 2, 0.0 recv from 1 tag 2: for a send of rank 1 with tag 2
    nearest miss: line 5, 1.1 send to 0 tag 3 value 6: another tag
  rank 1 waits at line 5, 1.1 send to 0 tag 3 value 6: for a receive of rank 0 from rank 1 with tag 3
    nearest miss: line 2, 0.0 recv from 1 tag 2: another tag
  rank 0 waits for rank 1
  rank 1 waits for rank 0
  a cycle, where each waits for the next: rank 0, rank 1, rank 0
  left over: line 4, 1.0 isend to 0 tag 1 value 5
leaves 1 more no
'''
# The first message has the slot, and counts as the one that is waited for.
MISSED_BY_SLOT = MISSED_BY_RESULT.replace('miss: line 5, 1.1 send to 0 tag 3 value 6', 'miss: line 4, 1.0 isend to 0 tag 1 value 5')
# Both messages are buffered, and so rank 1 waits for neither.
MISSED_BY_BUFFERED = '''leaf 0 [] deadlock 0.0
  rank 0 waits at line 2, 0.0 recv from 1 tag 2: for a send of rank 1 with tag 2
    nearest miss: line 4, 1.0 isend to 0 tag 1 value 5: another tag
  rank 0 waits for rank 1 (ended)
  left over: line 4, 1.0 isend to 0 tag 1 value 5
  left over: line 5, 1.1 send to 0 tag 3 value 6
leaves 1 more no
'''
MISSED_BY_LAST = '''leaf 0 [] deadlock 0.0 1.3
  rank 0 waits at line 2, 0.0 recv from 1 tag 7: for a send of rank 1 with tag 7
    nearest miss: line 4, 1.2 isend to 0 tag 2 value 5: another tag
  rank 1 waits at line 5, 1.3 wait 2: for request 1.2
    line 4, 1.2 isend to 0 tag 2 value 5: for a receive of rank 0 from rank 1 with tag 2
    nearest miss: line 2, 0.0 recv from 1 tag 7: another tag
  rank 0 waits for rank 1
  rank 1 waits for rank 0
  a cycle, where each waits for the next: rank 0, rank 1, rank 0
  left over: line 4, 1.0 isend to 0 tag 0 value 5
  left over: line 4, 1.1 isend to 0 tag 1 value 5
leaves 1 more no
'''
MISSED_BY_ONE_OF_ANY = '''leaf 0 [] deadlock 0.0 1.3
  rank 0 waits at line 2, 0.0 recv from 1 tag 7: for a send of rank 1 with tag 7
    nearest miss: line 6, 1.2 isend to 0 tag 1 value 5: another tag
  rank 1 waits at line 7, 1.3 waitany 1 2: for one of these requests
    line 5, 1.1 isend to 2 tag 5 value 5: for a receive of rank 2 from rank 1 with tag 5
    line 6, 1.2 isend to 0 tag 1 value 5: for a receive of rank 0 from rank 1 with tag 1
    nearest miss: line 2, 0.0 recv from 1 tag 7: another tag
  rank 0 waits for rank 1
  rank 1 waits for any of rank 0, rank 2 (ended)
  left over: line 4, 1.0 isend to 0 tag 0 value 5
leaves 1 more no
'''
SENT_ASTRAY = '''leaf 0 [] deadlock 0.0 1.0 2.0
  rank 0 waits at line 2, 0.0 recv from 1 tag 0: for a send of rank 1 with tag 0
    nearest miss: line 3, 1.0 ssend to 2 tag 0 value 5: another destination
  rank 1 waits at line 3, 1.0 ssend to 2 tag 0 value 5: for a receive of rank 2 from rank 1 with tag 0
    nearest miss: line 2, 0.0 recv from 1 tag 0: another destination
  rank 2 waits at line 4, 2.0 ssend to 0 tag 0 value 6: for a receive of rank 0 from rank 2 with tag 0
    nearest miss: line 2, 0.0 recv from 1 tag 0: another source
  rank 0 waits for rank 1
  rank 1 waits for rank 2
  rank 2 waits for rank 0
  a cycle, where each waits for the next: rank 0, rank 1, rank 2, rank 0
leaves 1 more no
'''
MISSED_BY_ITS_RANK = '''leaf 0 [] deadlock 0.0 1.0 2.0
  rank 0 waits at line 2, 0.0 recv from 2 tag 0: for a send of rank 2 with tag 0
    nearest miss: line 4, 2.0 send to 1 tag 0 value 5: another destination
  rank 1 waits at line 3, 1.0 recv from 0 tag 0: for a send of rank 0 with tag 0
    nearest miss: line 4, 2.0 send to 1 tag 0 value 5: another source
  rank 2 waits at line 4, 2.0 send to 1 tag 0 value 5: for a receive of rank 1 from rank 2 with tag 0
    nearest miss: line 3, 1.0 recv from 0 tag 0: another source
  rank 0 waits for rank 2
  rank 1 waits for rank 0
  rank 2 waits for rank 1
  a cycle, where each waits for the next: rank 0, rank 2, rank 1, rank 0
leaves 1 more no
'''
WAITED_TWICE = 'leaf 0 [0] done\nleaf 1 [1] trap 0 assert\n  rank 0, line 12: trap assert, with answers = [0, 20]\nleaves 2 more no\n'
WAITED_TWICE_GROUPED = ('end 0 leaves 1 first 0 done\nend 1 leaves 1 first 1 trap 0 assert\n  rank 0, line 12: trap assert, with answers = [0, 20]\n'
                        'leaves 2 more no\n')
TRAPPED = 'leaf 0 [] trap 1 zero-divisor\n  rank 1, line 10: trap zero-divisor, with x = 0\nleaves 1 more no\n'
TRAPPED_STEPS = 'witness 0: local 0, local 0, local 1, local 1, match 0.0 1.0, wake 0, local 0, wake 1, local 1\n'
ALL_DONE = 'leaf 0 [] done\nleaves 1 more no\n'
TWO_ARE_LEFT = '''leaf 0 [0] leftovers 0.0 2.1
  left over: line 2, 0.0 irecv from 1 tag 7
  left over: line 6, 2.1 isend to 1 tag 5 value 31
leaves 1 more no
'''
# The message that was taken, the request that is waited for, and the wait aren't told; what nearly fits is.
HANGS_AND_LEAVES = '''leaf 0 [0] deadlock 0.2
  rank 0 waits at line 5, 0.2 wait 1: for request 0.1
    line 4, 0.1 irecv from 1 tag 9: for a send of rank 1 with tag 9
    nearest miss: line 10, 1.2 issend to 0 tag 3 value 7: another tag
  rank 0 waits for rank 1 (ended)
  left over: line 3, 0.0 irecv from 1 tag 8
  left over: line 9, 1.1 isend to 2 tag 2 value 6
  left over: line 10, 1.2 issend to 0 tag 3 value 7
leaves 1 more no
'''
TRAPS_AND_LEAVES = 'leaf 0 [0] trap 2 assert\n  rank 2, line 12: trap assert\nleaves 1 more no\n'
LAST_IS_LEFT, FIRST_IS_LEFT = '  left over: line 4, 2.0 issend to 0 tag 0 value 2\n', '  left over: line 3, 1.0 issend to 0 tag 0 value -1\n'
EACH_IS_LEFT = f'leaf 0 [0] leftovers 2.0\n{LAST_IS_LEFT}leaf 1 [1] leftovers 1.0\n{FIRST_IS_LEFT}leaves 2 more no\n'
EACH_END_IS_LEFT = f'end 0 leaves 1 first 0 leftovers 2.0\n{LAST_IS_LEFT}end 1 leaves 1 first 1 leftovers 1.0\n{FIRST_IS_LEFT}leaves 2 more no\n'
FREED = '  left over: line 8, 0.1 isend to 1 tag 1 value 2\n'


def unanswered(one, other):
    """What is told of the two ranks that `ANSWERED_LAST` doesn't answer."""
    return (''.join(f'  rank {rank} waits at line 9, {rank}.1 recv from 0 tag 1: for a send of rank 0 with tag 1\n' for rank in (one, other))
            + ''.join(f'  rank {rank} waits for rank 0 (ended)\n' for rank in (one, other)))


def answered_last(*ranks):
    """The steps of its run that takes these ranks in this order."""
    taken = ''.join(f', match {rank}.0 0.{number}, wake 0, local 0, wake {rank}, local {rank}' for number, rank in enumerate(ranks))
    return f'local 0, local 0, local 1, local 1, local 2, local 2, local 3, local 3{taken}, match 0.3 {ranks[2]}.1, wake 0, wake {ranks[2]}'


def three_ends(witnessed):
    """Its groups, each with the witness and the explanation of its first leaf."""
    ends = ((0, 0, (1, 2), (1, 2, 3)), (1, 1, (1, 3), (1, 3, 2)), (2, 3, (2, 3), (2, 3, 1)))
    return ''.join(f'end {number} leaves 2 first {first} deadlock {one}.1 {other}.1\n'
                   + (f'witness {first}: {answered_last(*ranks)}\n' if witnessed else '') + unanswered(one, other)
                   for number, first, (one, other), ranks in ends) + 'leaves 6 more no\n'


def trapped(trap, told):
    """What is answered of HOLDING with a statement: its trap, and what is told of what the ranks hold."""
    lines = ''.join(f'  rank {rank}, line 3: trap {trap}{told.format(rank + 1)}\n' for rank in (0, 1))
    return f'leaf 0 [] trap 0 {trap} 1 {trap}\n{lines}leaves 1 more no\n'


class Explained(NamedTuple):
    """A script, or the name of an example, the options of its check beside `--explain`, and what is answered, with the status."""
    script: str
    text: str
    asked: Asked = Asked()
    status: int = 1

    def case(self):
        script = self.script.encode()
        if self.script.isidentifier():
            with open(f'{EXAMPLES}/{self.script}.mpd', 'rb') as file:
                script = file.read()
        return Case(f'row-{self.script if self.script.isidentifier() else "script"}', script, self.asked._replace(explain=True))

    def wanted(self):
        return Result(self.text.encode(), b'', self.status)


GROUPED = Asked(group=True)
STOLEN_LEAF = 'leaf 0 [0] deadlock 0.1 2.0\n'
MISSING_REPORT = f'leaf 0 [0 0] deadlock 0.2\n{LATER}leaf 1 [1 0] deadlock 0.2\n{EARLIER}leaves 2 more no\n'
ROWS = (
    # the examples
    Explained('stolen_message', f'{STOLEN_LEAF}{STOLEN}leaf 1 [1] done\nleaves 2 more no\n'),
    Explained('stolen_message', f'{STOLEN_LEAF}{STOLEN_STEPS}{STOLEN}leaf 1 [1] done\nleaves 2 more no\n', Asked(witnesses=True)),
    Explained('stolen_message', f'{STOLEN_LEAF}{STOLEN}leaves 1 more yes\n', Asked(until=True)),
    Explained('stolen_message', f'{STOLEN_LEAF}{STOLEN}leaves 1 more no\n', Asked(piece=0)),
    Explained('stolen_message', 'leaf 0 [1] done\nleaves 1 more no\n', Asked(piece=1), 0),
    Explained('stolen_message', 'pieces 2\n', Asked(pieces=True), 0),
    Explained('stolen_message', f'end 0 leaves 1 first 0 deadlock 0.1 2.0\n{STOLEN}end 1 leaves 1 first 1 done\nleaves 2 more no\n', GROUPED),
    Explained('swapped_tags', SWAPPED),
    *(Explained('missing_sender', MISSING_REPORT, Asked(split=split)) for split in (None, 0, 1, 2, 8)),
    Explained('missing_sender', MISSING_REPORT, Asked(ends=True)),
    Explained('missing_sender', f'end 0 leaves 2 first 0 deadlock 0.2\n{LATER}leaves 2 more no\n', GROUPED),
    Explained('missing_sender', MISSING_REPORT, Asked(mode=BUFFERED)),
    Explained('missing_sender', MISSING_REPORT, Asked(mode='slots:1')),
    *(Explained('head_to_head', f'leaf 0 [] deadlock 0.0 1.0\n{HEADS}leaves 1 more no\n', Asked(mode=mode)) for mode in (None, RENDEZVOUS, 'slots:0')),
    *(Explained('head_to_head', ALL_DONE, Asked(mode=mode), 0) for mode in (BUFFERED, 'slots:1')),
    Explained('head_to_head', f'end 0 leaves 1 first 0 deadlock 0.0 1.0\nwitness 0: local 0, local 1\n{HEADS}leaves 1 more no\n',
              Asked(witnesses=True, group=True)),
    Explained('head_to_head', 'leaf 0 [] cut\nleaves 1 more no\n', Asked(fuel=1), 0),
    Explained('lost_request', ALL_DONE, status=0), Explained('skipped_barrier', SKIPPED), Explained('waited_twice', WAITED_TWICE),
    Explained('waited_twice', WAITED_TWICE_GROUPED, GROUPED),
    Explained('trap', TRAPPED), Explained('trap', TRAPPED.replace('  rank', f'{TRAPPED_STEPS}  rank'), Asked(witnesses=True)),
    # what a statement that traps reads
    *(Explained(HOLDING.replace('STATEMENT', statement), trapped(trap, told)) for statement, trap, told in READ),
    # two ends that are told alike, each by its own line
    Explained(TRAPS_AT_TWO, 'end 0 leaves 4 first 0 trap 0 assert\n  rank 0, line 4: trap assert\n'
                            'end 1 leaves 2 first 2 trap 0 assert\n  rank 0, line 3: trap assert\nleaves 6 more no\n', GROUPED),
    # groups of several leaves
    *(Explained(ANSWERED_LAST, three_ends(witnessed), Asked(group=True, witnesses=witnessed, ends=ends))
      for witnessed in (False, True) for ends in (False, True)),
    # places of marks
    Explained(MARKED, MARKED_REPORT), Explained(MARKED, MARKED_GROUPS, GROUPED),
    # requests
    Explained(WAITS, WAITED), Explained(WAITS, WAITED, Asked(mode='slots:0')),
    *(Explained(WAITS, WAITED_BUFFERED, Asked(mode=mode)) for mode in (BUFFERED, 'slots:1')),
    Explained(ANY_OF_TWO, WAITED_FOR_ANY), Explained(ANY_OF_TWO, WAITED_FOR_ANY, Asked(mode=BUFFERED)),
    Explained(ANY_OF_ONE_RANK, WAITED_FOR_ONE_RANK),
    # what is left over, of sends and receives, the first line of a statement of two; the status is that of a report without it
    *(Explained(LEFT_BY_TWO, TWO_ARE_LEFT, Asked(mode=mode), 0) for mode in (None, BUFFERED, 'slots:1', 'slots:2')),
    *(Explained(ONE_IS_LEFT, EACH_IS_LEFT, Asked(witnesses=witnesses), 0) for witnesses in (False, True)),
    # beside a deadlock they are told too, and beside a trap they aren't
    Explained(LEFT_BESIDE_HANG, HANGS_AND_LEAVES), Explained(LEFT_BESIDE_TRAP, TRAPS_AND_LEAVES),
    Explained(ONE_IS_LEFT, EACH_END_IS_LEFT, GROUPED, 0), Explained(ONE_IS_LEFT, EACH_IS_LEFT, Asked(until=True), 0),
    Explained(ONE_IS_LEFT, f'leaf 0 [1] leftovers 1.0\n{FIRST_IS_LEFT}leaves 1 more no\n', Asked(piece=1), 0),
    Explained('freed_slot', f'leaf 0 [] leftovers 0.1\n{FREED}leaves 1 more no\n', Asked(mode=BUFFERED), 0),
    # what was taken, cycles, barriers, nobody, and what nearly fits
    Explained(ONCE_MORE, SENT_ONCE_MORE), Explained(OF_THREE, ROUND_OF_THREE), Explained(APART, ROUNDS_APART), Explained(TWO_TRAPS, TRAPPED_TWICE),
    Explained(ALONE_AT_IT, NOT_THERE), *(Explained(WAITS_BEFORE_IT, WAITING_BEFORE_IT, Asked(mode=mode)) for mode in (None, BUFFERED)),
    Explained(NOBODY, FOR_NOBODY), Explained(IN_ORDER, MISSED_IN_ORDER), Explained(OTHER_SOURCE, MISSED_BY_SOURCE),
    Explained(FIRST_BY_RANK, MISSED_BY_RANK), Explained(DESTINATION_FIRST, MISSED_BY_DESTINATION_FIRST), Explained(DUE_FIRST, MISSED_DUE_FIRST),
    Explained(LOG_BEFORE_RESULT, MISSED_BY_RESULT), Explained(LOG_BEFORE_RESULT, MISSED_BY_BUFFERED, Asked(mode=BUFFERED)),
    Explained(LOG_BEFORE_RESULT, MISSED_BY_SLOT, Asked(mode='slots:1')),
    Explained(LAST_OF_ITS_LINE, MISSED_BY_LAST), Explained(ONE_OF_ANY, MISSED_BY_ONE_OF_ANY), Explained(ASTRAY, SENT_ASTRAY),
    Explained(OF_ITS_RANK, MISSED_BY_ITS_RANK))


def problems():
    """The name of each row, with what the model says otherwise than it wants, or None."""
    for row in ROWS:
        said = row.case().wanted()
        yield f'check {row.script} {row.asked}', None if said == row.wanted() else f'{said}'
