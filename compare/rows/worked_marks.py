"""A script with marks, and what the console, `check --explain` and `diagnose` tell of it, worked out by hand from docs/FROM_A_RUN.md ("Marks") and
docs/CONSOLE.md ("Answers"); and told lines with places beside lines of a script. compare/runs/worked.py has the model answer them; rows of programs are
in console_worked.py, worked_explained.py and worked_diagnosed.py.
"""

from model import marks
from rows.worked_console_scripts import Dialogue

# Lines 3 and 6 have marks. The comment of line 4 is none.
MARKED = '''mpd 1; ranks 3; var x;
if rank == 0 {
  recv x from any tag any;  #@ a.c:9 MPI_Recv [left of line 6]
  recv x from 2 tag 1;  # @ a.c:10 MPI_Recv
} else {
  send rank to 0 tag 1;  #@ b.c:4 MPI_Send
}
'''
# What is told of the run in which rank 0 takes the message of rank 2 first.
FIRST_HANG = '''  rank 0 waits at line 4, 0.1 recv from 2 tag 1: for a send of rank 2 with tag 1
    nearest miss: line 6 (b.c:4), 1.0 send to 0 tag 1 value 1: another source
'''
TAKEN_FROM_TWO = '    the last that fits is taken: line 6 (b.c:4), 2.0 send to 0 tag 1 value 2, by line 3 (a.c:9), 0.0 recv from any tag any\n'
LAST_HANG = '''  rank 1 waits at line 6 (b.c:4), 1.0 send to 0 tag 1 value 1: for a receive of rank 0 from rank 1 with tag 1
    nearest miss: line 4, 0.1 recv from 2 tag 1: another source
    the last that fits is taken: line 3 (a.c:9), 0.0 recv from any tag any, by line 6 (b.c:4), 2.0 send to 0 tag 1 value 2
  rank 0 waits for rank 2 (ended)
  rank 1 waits for rank 0
'''
MARKED_HANG = FIRST_HANG + TAKEN_FROM_TWO + LAST_HANG
MARKED_REPORT = f'leaf 0 [0] done\nleaf 1 [1] deadlock 0.1 1.0\n{MARKED_HANG}leaves 2 more no\n'
MARKED_GROUPS = f'end 0 leaves 1 first 0 done\nend 1 leaves 1 first 1 deadlock 0.1 1.0\n{MARKED_HANG}leaves 2 more no\n'
# The same in lines of 80 bytes, with the step that decides.
MARKED_DIAGNOSIS = '''it can hang in rendezvous: 1 of 2 runs

deadlock at lines 4, 6 (b.c:4): 1 of 2 runs
  rank 0 waits at line 4, 0.1 recv from 2 tag 1: for a send of rank 2 with tag 1
    nearest miss: line 6 (b.c:4), 1.0 send to 0 tag 1 value 1: another source
    the last that fits is taken: line 6 (b.c:4), 2.0 send to 0 tag 1 value 2, by
        line 3 (a.c:9), 0.0 recv from any tag any
  rank 1 waits at line 6 (b.c:4), 1.0 send to 0 tag 1 value 1: for a receive of
        rank 0 from rank 1 with tag 1
    nearest miss: line 4, 0.1 recv from 2 tag 1: another source
    the last that fits is taken: line 3 (a.c:9), 0.0 recv from any tag any, by
        line 6 (b.c:4), 2.0 send to 0 tag 1 value 2
  rank 0 waits for rank 2 (ended)
  rank 1 waits for rank 0
  decided at depth 6: rank 0, line 3 (a.c:9), takes the message of rank 2 (line
        6, b.c:4, value 2, tag 1); with that of rank 1 (line 6, b.c:4, value 1,
        tag 1) it need not hang or trap
  at the prompt of `debug`, `blame` goes to this step and `redo all` to the end'''
MARKS = (
    Dialogue('places of marks beside lines', MARKED, '''
> run
6 steps, depth 6
stopped at a choice of rank 0, line 3 (a.c:9); next N takes one:
    3    recv x from any tag any;  #@ a.c:9 MPI_Recv [left of line 6]
  1: rank 1 sends 1, tag 1 (line 6, b.c:4); match 1.0 0.0
  2: rank 2 sends 2, tag 1 (line 6, b.c:4); match 2.0 0.0
> enabled
rank 1 sends 1, tag 1 (line 6, b.c:4), to rank 0 (line 3, a.c:9); match 1.0 0.0
rank 2 sends 2, tag 1 (line 6, b.c:4), to rank 0 (line 3, a.c:9); match 2.0 0.0
> next 2
7 match 2.0 0.0: rank 2, line 6 (b.c:4), to rank 0, line 3 (a.c:9)
next: wake 0: line 3 (a.c:9)
    3    recv x from any tag any;  #@ a.c:9 MPI_Recv [left of line 6]
> break 6
breakpoint 0: line 6 (b.c:4)
> break 4 rank 0 if x == 1
breakpoint 1: line 4 rank 0 if x == 1
> break 3 rank 0 if x == 1
breakpoint 2: line 3 (a.c:9) rank 0 if x == 1
> until 5
refused: no statement begins at line 5
> ranks
rank 0 can go on from line 3 (a.c:9), 0.0 recv from any tag any
rank 1 waits at line 6 (b.c:4), 1.0 send to 0 tag 1 value 1
rank 2 can go on from line 6 (b.c:4), 2.0 send to 0 tag 1 value 2
> list 1
    2  if rank == 0 {
    3    recv x from any tag any;  #@ a.c:9 MPI_Recv [left of line 6]  <- rank 0 can go on
    4    recv x from 2 tag 1;  # @ a.c:10 MPI_Recv
    5  } else {
    6    send rank to 0 tag 1;  #@ b.c:4 MPI_Send  <- rank 1 waits, rank 2 can go on
    7  }
> queues
pending 1 to 0: line 6 (b.c:4), 1.0 send to 0 tag 1 value 1
> history 2
6 local 2: line 6 (b.c:4)
7 match 2.0 0.0: rank 2, line 6 (b.c:4), to rank 0, line 3 (a.c:9)
> deadlock
deadlock is 3 steps ahead: rank 0 at line 4, rank 1 at line 6 (b.c:4)
3 ahead: wake 0: line 3 (a.c:9)
    3    recv x from any tag any;  #@ a.c:9 MPI_Recv [left of line 6]
> blame
decided at depth 6: rank 0, line 3 (a.c:9), takes the message of rank 2 (line 6,
        b.c:4, value 2, tag 1); with that of rank 1 (line 6, b.c:4, value 1, tag
        1) it need not hang or trap
to try that: next 1
depth 6
4 ahead: match 2.0 0.0: rank 2, line 6 (b.c:4), to rank 0, line 3 (a.c:9)
    6    send rank to 0 tag 1;  #@ b.c:4 MPI_Send
    3    recv x from any tag any;  #@ a.c:9 MPI_Recv [left of line 6]
stopped at a choice of rank 0, line 3 (a.c:9); next N takes one:
    3    recv x from any tag any;  #@ a.c:9 MPI_Recv [left of line 6]
  1: rank 1 sends 1, tag 1 (line 6, b.c:4); match 1.0 0.0
  2: rank 2 sends 2, tag 1 (line 6, b.c:4); match 2.0 0.0
'''),
)
# Line 1 has a mark, and line 12 none.
FAR_DOWN = 'mpd 1; ranks 1; var x;  #@ x.c:1 MPI_Init\n' + '\n' * 10 + 'recv x from 0 tag 0;\n'
MARKS += (
    Dialogue('a line whose number begins with that of a mark', FAR_DOWN, '''
> run
1 step, depth 1
ended: deadlock: rank 0 at line 12
  rank 0 waits at line 12, 0.0 recv from 0 tag 0: for a send of rank 0 with tag
        0
  rank 0 waits for rank 0
  a cycle, where each waits for the next: rank 0, rank 0
> break 12
breakpoint 0: line 12
> break 1
breakpoint 1: line 1 (x.c:1)
no statement begins at line 1 (x.c:1)
'''),)
# Told lines of a script whose line 4 has the mark `a.c:7`, line 6 `d.c:12` and line 42 `b.c:1`.
PLACES = {4: 'a.c:7', 6: 'd.c:12', 42: 'b.c:1'}
LINES = (
    ('local 0: line 4', 'local 0: line 4 (a.c:7)'), ('(line 4, value 6)', '(line 4, a.c:7, value 6)'), ('line 42, line 44', 'line 42 (b.c:1), line 44'),
    ('lines 4, 5, 6: 4 of 6', 'lines 4 (a.c:7), 5, 6 (d.c:12): 4 of 6'), ('line 4, 6.0 irecv', 'line 4 (a.c:7), 6.0 irecv'),
    ('(a (b) line 4) line 6', '(a (b) line 4, a.c:7) line 6 (d.c:12)'), (') line 4', ') line 4 (a.c:7)'),
    ('line 04, line 000000004, line 0000000004', 'line 04 (a.c:7), line 000000004 (a.c:7), line 0000000004'),
    ('online 4, line4, Line 4, _line 4, line  4', 'online 4, line4, Line 4, _line 4, line  4'),
    ('    4  send 8 to 1 tag 3;  # line 6', '    4  send 8 to 1 tag 3;  # line 6'), ('10000 local 0: line 4', '10000 local 0: line 4 (a.c:7)'))
# A line of a script, and the place of its mark.
COMMENTS = (
    ('barrier;  #@ a.c:7 MPI_Barrier', 'a.c:7'), ('barrier;#@ main+0x1f barrier_ [poll]', 'main+0x1f'), ('#@ a b', 'a'), ('barrier;', None),
    ('barrier;  # @ a.c:7 MPI_Barrier', None), ('barrier;  # see #@ a.c:7 MPI_Barrier', None), ('barrier;  #@a.c:7 MPI_Barrier', None),
    ('barrier;  #@ a.c:7', None), ('barrier;  #@ a.c:7  MPI_Barrier', None), ('barrier;  #@ a.c:7 MPI_Barrier [left', None),
    ('barrier;  #@ the line of the book', None), (f'#@ {80 * "a"} MPI_Send', 80 * 'a'), (f'#@ {81 * "a"} MPI_Send', None))


def problems():
    """The name of each row, with what the model says otherwise than it wants, or None."""
    for line, wanted in LINES:
        said = marks.marked(PLACES, line)
        yield f'marks of {line!r}', None if said == wanted else said
    for line, wanted in COMMENTS:
        said = marks.places_of(line.encode()).get(1)
        yield f'the mark of {line!r}', None if said == wanted else f'{said}'
