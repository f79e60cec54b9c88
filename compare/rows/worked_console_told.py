"""Worked dialogues of the console about how it tells things: long lines that are cut, lines of the script below steps, requests that are lost,
variables in short, and requests as breakpoints (console_worked.py).

Where a line is cut was worked out by counting its bytes.
"""

from model.debugger import BUFFERED
from rows.worked_console_scripts import AT_A_BARRIER, PRINTS, WAITS, Dialogue

# Lines that are 80, 81 and 82 bytes long where they are listed, with blanks at other places, and two that have none in their text.
LONG_TEXTS = (
    'print 1; # ' + 'a' * 62,
    'print 2; # ' + 'b' * 63,
    'print 3; # ' + 'c' * 62 + ' d',
    'print 4; # ' + 'e' * 61 + ' ff',
    'print 5; # ' + 'g' * 63 + ' h',
    'x=' + '+'.join('1' * 40) + ';',
    'print 6; # ' + 'i' * 62 + ' ',
    'print 7; # ' + 'j' * 61 + ' k ' + 'l' * 70 + ' ' + 'm' * 73 + ' n',
    'print 8; # ' + 'o' * 62 + '  ' + 'p' * 73 + ' q')
LONG_LINES = '\n'.join(['mpd 1; ranks 1; var x; var a[24];', *LONG_TEXTS, ''])
# Arrays of no cell, of one, of as many as are shown, and of one more.
ARRAYS = '''mpd 1; ranks 1; var none[0]; var one[1]; var some[16]; var more[17]; req p[17]; req q[1];
some[15] = -3;
more[15] = 8;
more[16] = 9;
isend p[16] 1 to 0 tag 0;
isend q[0] 2 to 0 tag 0;
'''
# Sends and receives whose handles get others, and one that is waited for.
LOST_SENDS = '''mpd 1; ranks 2; var x; req r; req s;
if rank == 0 {
  isend r 1 to 1 tag 0;
  issend r 2 to 1 tag 0;
  isend r 3 to 1 tag 0;
  wait r;
} else {
  irecv s x from 0 tag 0;
  irecv s x from 0 tag 0;
  irecv s x from 0 tag 0;
  recv x from 0 tag 1;
}
'''
# Requests that are lost, which a wait for any may have waited for as soon as they are complete.
LOST_BESIDE_ANY = '''mpd 2; ranks 1; var x; var i; req r[1]; req h;
isend h 5 to 0 tag 0;
irecv h x from 0 tag 0;
irecv h x from 0 tag 1;
isend r[0] 6 to 0 tag 0;
irecv r[0] x from 0 tag 0;
waitany r to i;
'''
# A request that rank 0 has lost and that is complete; the wait for any is of rank 1.
LOST_BESIDE_OTHERS = '''mpd 2; ranks 2; var x; var i; req r[1];
if rank == 0 {
  irecv r[0] x from 1 tag 1;
  irecv r[0] x from 1 tag 2;
  wait r[0];
} else {
  isend r[0] 5 to 0 tag 1;
  waitany r to i;
  send 6 to 0 tag 2;
}
'''
FREE_BESIDE_ANY = '''mpd 2; ranks 1; var x; var i; req r;
irecv r x from 0 tag 3;
isend r 3 to 0 tag 0;
waitany r to i;
'''
LISTED = '\n'.join(f'{number:5}  {line}' for number, line in enumerate(LONG_LINES.split('\n')[:-1], 1))
LOST_RECEIVE = 'rank 0 has lost a request: line 8, 0.0 irecv from 1 tag 1'
# The three that are lost before any is complete, and the one that is free the longest.
LOST_THREE = '''rank 0 has lost a request: line 2, 0.0 isend to 0 tag 0 value 5
rank 0 has lost a request: line 3, 0.1 irecv from 0 tag 0
rank 0 has lost a request: line 5, 0.3 isend to 0 tag 0 value 6'''

LINES = (
    Dialogue('lines of 80 bytes and of more, by their blanks', LONG_LINES, f'''
> goto 0
depth 0
next: local 0: line 2
    2  print 1; # {'a' * 62}
> next
1 local 0: line 2
rank 0 prints 1
next: local 0: line 3
    3  print 2; #
        {'b' * 63}
>
2 local 0: line 3
rank 0 prints 2
next: local 0: line 4
    4  print 3; # {'c' * 62}
        d
>
3 local 0: line 4
rank 0 prints 3
next: local 0: line 5
    5  print 4; # {'e' * 61}
        ff
>
4 local 0: line 5
rank 0 prints 4
next: local 0: line 6
    6  print 5; #
        {'g' * 63} h
>
5 local 0: line 6
rank 0 prints 5
next: local 0: line 7
    7{' '}
        x={'+'.join('1' * 40)};
>
6 local 0: line 7
next: local 0: line 8
    8  print 6; # {'i' * 62}
{' ' * 8}
>
7 local 0: line 8
rank 0 prints 6
next: local 0: line 9
    9  print 7; # {'j' * 61}
        k {'l' * 70}
        {'m' * 73}
        n
>
8 local 0: line 9
rank 0 prints 7
next: local 0: line 10
   10  print 8; # {'o' * 62}
         {'p' * 73}
        q
> list
{LISTED}  <- rank 0
>
{LISTED}  <- rank 0
> print a
rank 0: a[0] = 0, a[1] = 0, a[2] = 0, a[3] = 0, a[4] = 0, a[5] = 0, a[6] = 0,
        a[7] = 0, a[8] = 0, a[9] = 0, a[10] = 0, a[11] = 0, a[12] = 0, a[13] =
        0, a[14] = 0, a[15] = 0, a[16] = 0, a[17] = 0, a[18] = 0, a[19] = 0,
        a[20] = 0, a[21] = 0, a[22] = 0, a[23] = 0
> print {'n' * 45}
no variable or request is called '{'n' * 45}'
> print {'n' * 46}
no variable or request is called
        '{'n' * 46}'
> print {'n' * 80} 9
refused: no expression has
        '{'n' * 72}...'
> {'z' * 100} 1
unknown word
        '{'z' * 100}':
        help all lists all
> run 0
refused: 1 to 1000000 steps can be asked for
> run
1 step, depth 9
rank 0 prints 8
ended: done
> vars
rank 0: x = 40, a = [0, 0, 0, 0, 0, 0, 0, 0, 0, 0, 0, 0, 0, 0, 0, 0, ..]
rank 0 has printed 1 2 3 4 5 6 7 8
'''),
    Dialogue('a state and trace words, as they are', 'mpd 1; ranks 1; var a[39];\na[0] = 1;', f'''
> run
1 step, depth 1
ended: done
> show
depth 1 of 1
rank 0 ended
vars 1{' 0' * 38}
handles
out
outcome done
end
> print a[38]
rank 0: a[38] = 0
> words
local 0
'''),
    Dialogue('a line of the script without its carriage return', PRINTS, '''
> goto 0
depth 0
next: local 0: line 1
    1  mpd 1; ranks 1; print -7;
> next
1 local 0: line 1
rank 0 prints -7
next: local 0: line 3
    3  print 2;\t# 2
> back
depth 0
1 ahead: local 0: line 1
    1  mpd 1; ranks 1; print -7;
'''),
    Dialogue('a match on one line, told once', 'race.mpd', '''
> run
6 steps, depth 6
stopped at a choice of rank 0, line 7; next N takes one:
    7  if rank == 0 { recv x from any tag any status who tag_of; recv x from 1
        tag any; } else { send rank to 0 tag 0; }
  1: rank 1 sends 1, tag 0 (line 7); match 1.0 0.0
  2: rank 2 sends 2, tag 0 (line 7); match 2.0 0.0
> next 2
7 match 2.0 0.0: rank 2, line 7, to rank 0, line 7
next: wake 0: line 7
    7  if rank == 0 { recv x from any tag any status who tag_of; recv x from 1
        tag any; } else { send rank to 0 tag 0; }
> next 2
2 steps, depth 9
stopped: as many steps as were asked for
next: wake 2: line 7
    7  if rank == 0 { recv x from any tag any status who tag_of; recv x from 1
        tag any; } else { send rank to 0 tag 0; }
> next
10 wake 2: line 7
next: match 1.0 0.1: rank 1, line 7, to rank 0, line 7
    7  if rank == 0 { recv x from any tag any status who tag_of; recv x from 1
        tag any; } else { send rank to 0 tag 0; }
> next
11 match 1.0 0.1: rank 1, line 7, to rank 0, line 7
next: wake 0: line 7
    7  if rank == 0 { recv x from any tag any status who tag_of; recv x from 1
        tag any; } else { send rank to 0 tag 0; }
> back
depth 10
1 ahead: match 1.0 0.1: rank 1, line 7, to rank 0, line 7
    7  if rank == 0 { recv x from any tag any status who tag_of; recv x from 1
        tag any; } else { send rank to 0 tag 0; }
'''))

LOST = (
    Dialogue('a request that is lost by a second one, which is a breakpoint', 'lost_request.mpd', f'''
> break change 0 r
breakpoint 0: change 0 r
> run
2 steps, depth 2
breakpoint 0: change 0 r
next: local 0: line 9
    9    irecv r b from 1 tag 2;
> vars 0
rank 0: a = 0, b = 0, r = 0.0
> run
1 step, depth 3
{LOST_RECEIVE}
breakpoint 0: change 0 r
next: local 0: line 10
   10    wait r;
> vars
rank 0: a = 0, b = 0, r = 0.1
{LOST_RECEIVE}
rank 1: a = 0, b = 0, r = -
> print r
rank 0: r = line 9, 0.1 irecv from 1 tag 2
rank 1: r = no request
> run
8 steps, depth 11
breakpoint 0: change 0 r
next: local 0: line 11
   11    print a + b;
> run-back
1 step back, depth 10
before breakpoint 0: change 0 r
1 ahead: wake 0: line 10
   10    wait r;
> run-back
8 steps back, depth 2
before breakpoint 0: change 0 r
9 ahead: local 0: line 9
    9    irecv r b from 1 tag 2;
> break change 1 r
breakpoint 1: change 1 r
> break change 2 r
refused: there is no such rank
> breaks
breakpoint 0: change 0 r
breakpoint 1: change 1 r
> delete 0
deleted 0
> run
9 steps, depth 11
{LOST_RECEIVE}
stopped: the steps ahead end here
next: local 0: line 11
   11    print a + b;
> run
2 steps, depth 13
rank 0 prints 12
ended: done
{LOST_RECEIVE}
> vars 0
rank 0: a = 0, b = 12, r = -
rank 0 has printed 12
{LOST_RECEIVE}
> next
ended: done
{LOST_RECEIVE}
'''),
    Dialogue('sends and receives of two ranks that are lost, behind a deadlock', LOST_SENDS, '''
> run 4
4 steps, depth 4
rank 0 has lost a request: line 3, 0.0 isend to 1 tag 0 value 1
rank 0 has lost a request: line 4, 0.1 issend to 1 tag 0 value 2
stopped: as many steps as were asked for
next: local 0: line 6
    6    wait r;
> vars
rank 0: x = 0, r = 0.2, s = -
rank 0 has lost a request: line 3, 0.0 isend to 1 tag 0 value 1
rank 0 has lost a request: line 4, 0.1 issend to 1 tag 0 value 2
rank 1: x = 0, r = -, s = -
> run
10 steps, depth 14
ended: deadlock: rank 1 at line 11
  rank 1 waits at line 11, 1.3 recv from 0 tag 1: for a send of rank 0 with tag
        1
  rank 1 waits for rank 0 (ended)
rank 1 has lost a request: line 8, 1.0 irecv from 0 tag 0
rank 1 has lost a request: line 9, 1.1 irecv from 0 tag 0
> vars 1
rank 1: x = 0, r = -, s = 1.2
rank 1 has lost a request: line 8, 1.0 irecv from 0 tag 0
rank 1 has lost a request: line 9, 1.1 irecv from 0 tag 0
'''),
    Dialogue('requests that are waited for, of which none is lost', WAITS, '''
> run 3
3 steps, depth 3
stopped: as many steps as were asked for
next: local 1: line 3
    3  if rank == 0 {
> vars
rank 0: x = 0, h = 0.0, r = [-, -]
rank 1: x = 0, h = -, r = [-, -]
> break change 1 r
refused: an array needs an index here
> break change 1 r[0]
breakpoint 0: change 1 r[0]
> break change 1 r[1]
breakpoint 1: change 1 r[1]
> run
2 steps, depth 5
breakpoint 1: change 1 r[1]
next: local 1: line 8
    8    wait r[1];
> vars 1
rank 1: x = 0, h = -, r = [-, 1.0]
'''),
    Dialogue('a request that nobody waits for any more, complete and free, beside a wait for any', LOST_BESIDE_ANY, f'''
> run 5
5 steps, depth 5
{LOST_THREE}
stopped: as many steps as were asked for
next: local 0: line 7
    7  waitany r to i;
> vars
rank 0: x = 0, i = 0, r = [0.4], h = 0.2
{LOST_THREE}
> next
6 local 0: line 7
next: match 0.0 0.1: rank 0, line 2, to rank 0, line 3
    2  isend h 5 to 0 tag 0;
    3  irecv h x from 0 tag 0;
> vars 0
rank 0: x = 0, i = 0, r = [0.4], h = 0.2
{LOST_THREE}
> next
7 match 0.0 0.1: rank 0, line 2, to rank 0, line 3
next: match 0.3 0.4: rank 0, line 5, to rank 0, line 6
    5  isend r[0] 6 to 0 tag 0;
    6  irecv r[0] x from 0 tag 0;
> vars
rank 0: x = 0, i = 0, r = [0.4], h = 0.2
rank 0 has lost a request: line 5, 0.3 isend to 0 tag 0 value 6
> run
2 steps, depth 9
ended: leftovers: rank 0 at line 4
  left over: line 4, 0.2 irecv from 0 tag 1
> vars
rank 0: x = 6, i = 0, r = [-], h = 0.2
> goto 5
depth 5
4 ahead: local 0: line 7
    7  waitany r to i;
> vars
rank 0: x = 0, i = 0, r = [0.4], h = 0.2
{LOST_THREE}
'''),
    Dialogue('the same where sends are buffered', LOST_BESIDE_ANY, '''
> run 5
5 steps, depth 5
rank 0 has lost a request: line 3, 0.1 irecv from 0 tag 0
stopped: as many steps as were asked for
next: local 0: line 7
    7  waitany r to i;
> vars
rank 0: x = 0, i = 0, r = [0.4], h = 0.2
rank 0 has lost a request: line 3, 0.1 irecv from 0 tag 0
> next
6 local 0: line 7
next: match 0.0 0.1: rank 0, line 2, to rank 0, line 3
    2  isend h 5 to 0 tag 0;
    3  irecv h x from 0 tag 0;
> vars
rank 0: x = 0, i = 0, r = [0.4], h = 0.2
rank 0 has lost a request: line 3, 0.1 irecv from 0 tag 0
''', BUFFERED),
    Dialogue('one that is complete, beside a wait for any of another rank', LOST_BESIDE_OTHERS, '''
> run
13 steps, depth 13
ended: done
rank 0 has lost a request: line 3, 0.0 irecv from 1 tag 1
'''),
    Dialogue('one that is free at the end, beside a wait for any', FREE_BESIDE_ANY, '''
> run
4 steps, depth 4
ended: leftovers: rank 0 at line 2, rank 0 at line 3
  left over: line 2, 0.0 irecv from 0 tag 3
  left over: line 3, 0.1 isend to 0 tag 0 value 3
rank 0 has lost a request: line 2, 0.0 irecv from 0 tag 3
> vars
rank 0: x = 0, i = 0, r = -
rank 0 has lost a request: line 2, 0.0 irecv from 0 tag 3
''', BUFFERED),
    Dialogue('an array of one request, which is that request, and the step of a wait for any', LOST_BESIDE_ANY, '''
> break change 0 r
breakpoint 0: change 0 r[0]
> run
4 steps, depth 4
rank 0 has lost a request: line 2, 0.0 isend to 0 tag 0 value 5
rank 0 has lost a request: line 3, 0.1 irecv from 0 tag 0
breakpoint 0: change 0 r[0]
next: local 0: line 6
    6  irecv r[0] x from 0 tag 0;
>
1 step, depth 5
rank 0 has lost a request: line 5, 0.3 isend to 0 tag 0 value 6
breakpoint 0: change 0 r[0]
next: local 0: line 7
    7  waitany r to i;
>
4 steps, depth 9
breakpoint 0: change 0 r[0]
ended: leftovers: rank 0 at line 4
  left over: line 4, 0.2 irecv from 0 tag 1
> break change 0 r[0]
breakpoint 1: change 0 r[0]
> break change 0 r[1]
refused: there is no such index
> break change 0 x
breakpoint 2: change 0 x
> run-back
1 step back, depth 8
before breakpoint 0: change 0 r[0]
1 ahead: wakeany 0 0: line 7, by line 6, 0.4 irecv from 0 tag 0
    7  waitany r to i;
'''))

SHORT = (
    Dialogue('arrays in short', ARRAYS, '''
> vars
rank 0: none = [], one = [0], some = [0, 0, 0, 0, 0, 0, 0, 0, 0, 0, 0, 0, 0, 0,
        0, 0], more = [0, 0, 0, 0, 0, 0, 0, 0, 0, 0, 0, 0, 0, 0, 0, 0, ..], p =
        [-, -, -, -, -, -, -, -, -, -, -, -, -, -, -, -, ..], q = [-]
> run
5 steps, depth 5
ended: leftovers: rank 0 at line 5, rank 0 at line 6
  left over: line 5, 0.0 isend to 0 tag 0 value 1
  left over: line 6, 0.1 isend to 0 tag 0 value 2
> vars 0
rank 0: none = [], one = [0], some = [0, 0, 0, 0, 0, 0, 0, 0, 0, 0, 0, 0, 0, 0,
        0, -3], more = [0, 0, 0, 0, 0, 0, 0, 0, 0, 0, 0, 0, 0, 0, 0, 8, ..], p =
        [-, -, -, -, -, -, -, -, -, -, -, -, -, -, -, -, ..], q = [0.1]
> print more[16]
rank 0: more[16] = 9
> print p[16]
rank 0: p[16] = line 5, 0.0 isend to 0 tag 0 value 1
'''),
    Dialogue('where nothing is declared', AT_A_BARRIER, '''
> vars
rank 0 has no variable
rank 1 has no variable
rank 2 has no variable
> vars 1
rank 1 has no variable
> vars 3
refused: there is no such rank
'''),
    Dialogue('where a request alone is, and where no cell is', 'mpd 1; ranks 1; req r; var none[0];\nisend r 1 to 0 tag 0;\nprint -1;', '''
> vars
rank 0: r = -, none = []
> run
2 steps, depth 2
rank 0 prints -1
ended: leftovers: rank 0 at line 2
  left over: line 2, 0.0 isend to 0 tag 0 value 1
> vars
rank 0: r = 0.0, none = []
rank 0 has printed -1
'''),
    Dialogue('where nothing but a request is', 'mpd 1; ranks 1; req r;\nisend r 1 to 0 tag 0;', '''
> vars
rank 0: r = -
> run
1 step, depth 1
ended: leftovers: rank 0 at line 2
  left over: line 2, 0.0 isend to 0 tag 0 value 1
> vars
rank 0: r = 0.0
'''))

TOLD = LINES + LOST + SHORT
