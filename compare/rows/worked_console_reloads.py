"""Worked dialogues of the console whose script is read again (console_worked.py): what its file has each time stands in `files`."""

from rows.worked_console_scripts import Dialogue

BEFORE = '''mpd 1; ranks 3;
var x; var y;
if rank == 0 { recv x from any tag any; y = x; recv x from any tag any; }
else { send rank to 0 tag 0; }
'''
# y is the first variable now, there is no x, and one rank less.
AFTER = '''mpd 1; ranks 2;
var y; var z;
if rank == 0 { recv y from any tag any; z = y; }
else { send rank to 0 tag 0; }
'''
# Byte 22 is that of `if`, where a semicolon is wanted.
NO_SEMICOLON = '''mpd 1; ranks 2;
var y
if rank == 0 { }
'''

RELOADS = (
    Dialogue('a script that is read again as it is, as none, with a fault, and with less', BEFORE, '''
> break change 0 y
breakpoint 0: change 0 y
> break 4 rank 2
breakpoint 1: line 4 rank 2
> break rank 1
breakpoint 2: rank 1
> break 4 if x == 3
breakpoint 3: line 4 if x == 3
> break match 3
breakpoint 4: match 3
> delete 2
deleted 2
> run
5 steps, depth 5
breakpoint 1: line 4 rank 2
next: local 2: line 4
    4  else { send rank to 0 tag 0; }
> next
6 local 2: line 4
stopped at a choice of rank 0, line 3; next N takes one:
    3  if rank == 0 { recv x from any tag any; y = x; recv x from any tag any; }
  1: rank 1 sends 1, tag 0 (line 4); match 1.0 0.0
  2: rank 2 sends 2, tag 0 (line 4); match 2.0 0.0
> back
depth 5
1 ahead: local 2: line 4
    4  else { send rank to 0 tag 0; }
> reload
5 of 5 steps taken again
next: local 2: line 4
    4  else { send rank to 0 tag 0; }
>
> breaks
breakpoint 0: change 0 y
breakpoint 1: line 4 rank 2
breakpoint 3: line 4 if x == 3
breakpoint 4: match 3
> reload
refused: the file can't be read
>
breakpoint 0: change 0 y
breakpoint 1: line 4 rank 2
breakpoint 3: line 4 if x == 3
breakpoint 4: match 3
> reload
refused: the script has a fault, expected at 22 line 3
> history
1 local 0: line 3
2 local 0: line 3
3 local 1: line 3
4 local 1: line 4
5 local 2: line 3
> reload
4 of 5 steps taken again
not set again: breakpoint 1: line 4 rank 2
not set again: breakpoint 3: line 4 if x == 3
next: match 1.0 0.0: rank 1, line 4, to rank 0, line 3
    4  else { send rank to 0 tag 0; }
    3  if rank == 0 { recv y from any tag any; z = y; }
> breaks
breakpoint 0: change 0 y
breakpoint 4: match 3
> next
5 match 1.0 0.0: rank 1, line 4, to rank 0, line 3
breakpoint 4: match 3
next: wake 0: line 3
    3  if rank == 0 { recv y from any tag any; z = y; }
> list
    1  mpd 1; ranks 2;
    2  var y; var z;
    3  if rank == 0 { recv y from any tag any; z = y; }  <- rank 0 can go on
    4  else { send rank to 0 tag 0; }  <- rank 1 can go on
> reload
5 of 5 steps taken again
next: wake 0: line 3
    3  if rank == 0 { recv y from any tag any; z = y; }
> next
6 wake 0: line 3
breakpoint 0: change 0 y
next: local 0: line 3
    3  if rank == 0 { recv y from any tag any; z = y; }
> watch z 1
breakpoint 1: change 1 z
''', files=(BEFORE, None, NO_SEMICOLON, AFTER, AFTER)),
    Dialogue('nothing taken, one step, and words after it', 'mpd 1; ranks 1;\nprint 1;\nprint 2;\n', '''
>   reload
0 of 0 steps taken again
next: local 0: line 2
    2  print 1;
> next
1 local 0: line 2
rank 0 prints 1
next: local 0: line 3
    3  print 2;
> reload
1 of 1 step taken again
next: local 0: line 2
    2  while 1 { }
> reload all
usage: reload
> relo
unknown word 'relo': perhaps reload
''', files=('mpd 1; ranks 1;\nprint 1;\nprint 2;\n', 'mpd 1; ranks 1;\nwhile 1 { }\n')),
    # (the step of rank 1 could be taken, but stands after one that can't)
    Dialogue('steps up to the first that is not enabled', 'mpd 1; ranks 2;\nprint 1;\nprint 2;\n', '''
> local 0
1 local 0: line 2
rank 0 prints 1
next: local 0: line 3
    3  print 2;
> local 0
2 local 0: line 3
rank 0 prints 2
next: local 1: line 2
    2  print 1;
> local 1
3 local 1: line 2
rank 1 prints 1
next: local 1: line 3
    3  print 2;
> reload
1 of 3 steps taken again
next: local 1: line 2
    2  print 1;
> history
1 local 0: line 2
''', files=('mpd 1; ranks 2;\nprint 1;\n',)),
    # (a breakpoint that isn't set again has the place that its line had; what is told of the new script has that of the new one)
    Dialogue('marks of the script that was, and of the one that is', '''mpd 1; ranks 2;
print 1;  #@ a.c:1 MPI_Init
print 2;  #@ a.c:2 MPI_Finalize
''', '''
> break 3 rank 1
breakpoint 0: line 3 (a.c:2) rank 1
> break 3
breakpoint 1: line 3 (a.c:2)
> local 0
1 local 0: line 2 (a.c:1)
rank 0 prints 1
breakpoint 1: line 3 (a.c:2)
next: local 0: line 3 (a.c:2)
    3  print 2;  #@ a.c:2 MPI_Finalize
> reload
1 of 1 step taken again
not set again: breakpoint 0: line 3 (a.c:2) rank 1
next: local 0: line 3 (b.c:9)
    3  print 4;  #@ b.c:9 MPI_Finalize
> breaks
breakpoint 1: line 3 (b.c:9)
> reload
refused: the script has a fault, expected at 17 line 3
''', files=('''mpd 1; ranks 1;
print 3;  #@ b.c:8 MPI_Init
print 4;  #@ b.c:9 MPI_Finalize
''', 'mpd 1; ranks 1;\n\n;  #@ c.c:3 MPI_Init\n')))
