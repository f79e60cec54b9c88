"""Worked dialogues of the console of words: numbers, words that are none, forms that do not fit, blanks (console_worked.py)."""

from rows.worked_console_scripts import Dialogue

# Where statements begin in examples/loop.mpd.
STATEMENTS = 6, 7, 8, 10


def set_at(line):
    """A breakpoint of a line of that, and what it is told: as many are set before it as lines stand above."""
    told = '' if line in STATEMENTS else f'no statement begins at line {line}\n'
    return f'> break {line}\nbreakpoint {line - 1}: line {line}\n{told}'


TEXTS = (
    Dialogue('numbers, in range and out of it', 'loop.mpd', '''
> breaks
no breakpoint
> run 0
refused: 1 to 1000000 steps can be asked for
> run 1000001
refused: 1 to 1000000 steps can be asked for
> back 0
refused: 1 to 1000000 steps can be asked for
> back 1000001
refused: 1 to 1000000 steps can be asked for
> back 1000000
refused: fewer steps are taken
> redo 0
refused: 1 to 1000000 steps can be asked for
> redo 1000001
refused: 1 to 1000000 steps can be asked for
> redo 1000000
refused: no step is ahead
> redo
refused: no step is ahead
> check 0
refused: 1 to 65536 runs can be asked for
> check 65537
refused: 1 to 65536 runs can be asked for
> check 65536
1 no choice: done
1 run, and no more (1 done)
one run for all orders of independent steps; diagnose counts each order
> follow 0
refused: there is no such run
> follow 65537
refused: there is no such run
> follow 65536
refused: there is no such run
> deadlock
no deadlock from here: 1 run, and no more (1 done)
> trap
no trap from here: 1 run, and no more (1 done)
> undo-choice
refused: no choice was made before
> next 0
refused: 1 to 1000000 steps can be asked for
> next 1000001
refused: 1 to 1000000 steps can be asked for
> goto 1
refused: so many steps are neither taken nor ahead
> goto 0
depth 0
next: local 0: line 6
    6  while i < 3 {
> run 1000000
11 steps, depth 11
rank 0 prints 6
ended: done
> history 999999999
1 local 0: line 6
2 local 0: line 7
3 local 0: line 8
4 local 0: line 6
5 local 0: line 7
6 local 0: line 8
7 local 0: line 6
8 local 0: line 7
9 local 0: line 8
10 local 0: line 6
11 local 0: line 10
> h
2 local 0: line 7
3 local 0: line 8
4 local 0: line 6
5 local 0: line 7
6 local 0: line 8
7 local 0: line 6
8 local 0: line 7
9 local 0: line 8
10 local 0: line 6
11 local 0: line 10
> goto 000000003
depth 3
8 ahead: local 0: line 6
    6  while i < 3 {
> goto 4
depth 4
7 ahead: local 0: line 7
    7    i = i + 1;
> goto 12
refused: so many steps are neither taken nor ahead
> goto 999999999
refused: so many steps are neither taken nor ahead
> back 5
refused: fewer steps are taken
> redo 0
refused: 1 to 1000000 steps can be asked for
> redo 8
depth 11
rank 0 prints 6
ended: done
> goto 11
depth 11
ended: done
> back 2
depth 9
2 ahead: local 0: line 6
    6  while i < 3 {
> redo 3
depth 11
rank 0 prints 6
ended: done
> back
depth 10
1 ahead: local 0: line 10
   10  print sum;
> redo 2
11 local 0: line 10
rank 0 prints 6
ended: done
> redo 2
refused: no step is ahead
> back
depth 10
1 ahead: local 0: line 10
   10  print sum;
> redo 999999999
11 local 0: line 10
rank 0 prints 6
ended: done
> goto 10
depth 10
1 ahead: local 0: line 10
   10  print sum;
> goto 11
depth 11
rank 0 prints 6
ended: done
> goto 0
depth 0
11 ahead: local 0: line 6
    6  while i < 3 {
> redo 1000001
depth 11
rank 0 prints 6
ended: done
> goto 0
depth 0
11 ahead: local 0: line 6
    6  while i < 3 {
> run 1000001
refused: 1 to 1000000 steps can be asked for
> run
11 steps, depth 11
rank 0 prints 6
ended: done
'''),
    Dialogue('words that are none, and the nearest', 'loop.mpd', '''
> brake
unknown word 'brake': perhaps break
> zap
unknown word 'zap': help all lists all
> NEXT
unknown word 'NEXT': help all lists all
> Next
unknown word 'Next': help all lists all
> nn
unknown word 'nn': help all lists all
> ne xt
unknown word 'ne': perhaps next
> rx
unknown word 'rx': help all lists all
> ru
unknown word 'ru': perhaps run
> rcs 1
unknown word 'rcs': perhaps rc
> re
unknown word 're': perhaps reverse-step
> reverse-
unknown word 'reverse-': perhaps reverse-step
> reverse-n
unknown word 'reverse-n': perhaps reverse-next
> rest
unknown word 'rest': perhaps restart
> wa
unknown word 'wa': perhaps wake
> watchpoint
unknown word 'watchpoint': perhaps watch
> information
unknown word 'information': perhaps info
> br1
unknown word 'br1': perhaps break
> bkk
unknown word 'bkk': perhaps bk
> bx
unknown word 'bx': help all lists all
> rs1
unknown word 'rs1': perhaps rs
> reverse-c
unknown word 'reverse-c': perhaps reverse-continue
> red
unknown word 'red': perhaps redo
> breaksome
unknown word 'breaksome': perhaps breaks
> breakpoint
unknown word 'breakpoint': perhaps break
> und
unknown word 'und': perhaps undo
> undochoice
unknown word 'undochoice': perhaps undo
> undo-
unknown word 'undo-': perhaps undo-choice
> f1
unknown word 'f1': help all lists all
> tarp
unknown word 'tarp': help all lists all
> jump
unknown word 'jump': help all lists all
> wakeal
unknown word 'wakeal': perhaps wakeany
> lost
unknown word 'lost': perhaps local
> li
unknown word 'li': perhaps list
> dump
unknown word 'dump': help all lists all
> cont
unknown word 'cont': perhaps continue
> finnish
unknown word 'finnish': perhaps finish
> stop
unknown word 'stop': perhaps step
> steps 2
unknown word 'steps': perhaps step
> sh
unknown word 'sh': perhaps show
> so
unknown word 'so': perhaps source
> S
unknown word 'S': help all lists all
> v
unknown word 'v': help all lists all
> va
unknown word 'va': perhaps vars
> wh
unknown word 'wh': perhaps where
> whence
unknown word 'whence': perhaps where
> whyever
unknown word 'whyever': perhaps why
> bt2
unknown word 'bt2': perhaps bt
> ex
unknown word 'ex': perhaps exit
> exist
unknown word 'exist': perhaps exit
> ?next
unknown word '?next': help all lists all
> ??
unknown word '??': help all lists all
> next\xe9
unknown word 'next?': perhaps next
> \xfe
unknown word '?': help all lists all
> x\x01~\x7f
unknown word 'x?~?': help all lists all
> help brake
unknown word 'brake': perhaps break
> help zap
unknown word 'zap': help all lists all
> help Next
unknown word 'Next': help all lists all
'''),
    Dialogue('forms that a line does not fit', 'loop.mpd', '''
> next x
usage: next [N]
> n 1 2
usage: next [N]
> run -1
usage: run [N]
> c 1.0
usage: run [N]
> reverse-next 1234567890
usage: back [N], back rank P
> run-back 1
usage: run-back
> undo-choice 1
usage: undo-choice
> u 0
usage: undo-choice
> goto
usage: goto N
> goto 0000000000
usage: goto N
> redo +1
usage: redo [N], redo all
> redo All
usage: redo [N], redo all
> redo a
usage: redo [N], redo all
> redo all 1
usage: redo [N], redo all
> redo 1 all
usage: redo [N], redo all
> run all
usage: run [N]
> back all
usage: back [N], back rank P
> local
usage: local P
> match 0.0
usage: match S R
> match 0 1
usage: match S R
> wake 0.0
usage: wake P
> wakeany 0
usage: wakeany P I
> release 0
usage: release
> break
usage: break LINE [rank P] [if NAME OP N], break match LINE [rank P], break rank
        P, break change P NAME
> break line
usage: break LINE [rank P] [if NAME OP N], break match LINE [rank P], break rank
        P, break change P NAME
> break line x
usage: break LINE [rank P] [if NAME OP N], break match LINE [rank P], break rank
        P, break change P NAME
> break line 9 1
usage: break LINE [rank P] [if NAME OP N], break match LINE [rank P], break rank
        P, break change P NAME
> break lines 9
usage: break LINE [rank P] [if NAME OP N], break match LINE [rank P], break rank
        P, break change P NAME
> break 9 rank
usage: break LINE [rank P] [if NAME OP N], break match LINE [rank P], break rank
        P, break change P NAME
> break 9 rank 1 if
usage: break LINE [rank P] [if NAME OP N], break match LINE [rank P], break rank
        P, break change P NAME
> break 9 if x = 2
usage: break LINE [rank P] [if NAME OP N], break match LINE [rank P], break rank
        P, break change P NAME
> break 9 if x == 2 3
usage: break LINE [rank P] [if NAME OP N], break match LINE [rank P], break rank
        P, break change P NAME
> break 9 if x == 9223372036854775808
usage: break LINE [rank P] [if NAME OP N], break match LINE [rank P], break rank
        P, break change P NAME
> break 9 if x == 2 rank 1
usage: break LINE [rank P] [if NAME OP N], break match LINE [rank P], break rank
        P, break change P NAME
> break match 9 if x == 2
usage: break LINE [rank P] [if NAME OP N], break match LINE [rank P], break rank
        P, break change P NAME
> break rank
usage: break LINE [rank P] [if NAME OP N], break match LINE [rank P], break rank
        P, break change P NAME
> break l 9
usage: break LINE [rank P] [if NAME OP N], break match LINE [rank P], break rank
        P, break change P NAME
> line 9
unknown word 'line': perhaps list
> break match
usage: break LINE [rank P] [if NAME OP N], break match LINE [rank P], break rank
        P, break change P NAME
> break change 0
usage: break LINE [rank P] [if NAME OP N], break match LINE [rank P], break rank
        P, break change P NAME
> break change 0 sum 1
usage: break LINE [rank P] [if NAME OP N], break match LINE [rank P], break rank
        P, break change P NAME
> break change sum
usage: break LINE [rank P] [if NAME OP N], break match LINE [rank P], break rank
        P, break change P NAME
> delete
usage: delete N
> breaks 1
usage: breaks
> l 0.0
usage: list [P]
> print
usage: print EXPR [P]
> print sum [0]
refused: an operator or the end of the text is expected at '['
> print sum 0 0
refused: the end of the text is expected at '0'
> vars x
usage: vars [P]
> ranks 0
usage: ranks
> calls x
usage: calls [P]
> queues 0
usage: queues
> why all
usage: why [P], why CALL
> why 0.0 0
usage: why [P], why CALL
> w 0.0.0
usage: why [P], why CALL
> history x
usage: history [N]
> check all
usage: check [N]
> follow
usage: follow N
> f 1.0
usage: follow N
> follow 1 2
usage: follow N
> follow 1234567890
usage: follow N
> deadlock 1
usage: deadlock
> trap 1
usage: trap
> words 1
usage: words
> enabled 1
usage: enabled
> show 1
usage: show
> help next run
usage: help [WORD], help all, help choice
> help zap run
usage: help [WORD], help all, help choice
> help all all
usage: help [WORD], help all, help choice
> restart 0
usage: restart
> watch
usage: watch NAME P
> watch sum
usage: watch NAME P
> watch 0 sum
usage: watch NAME P
> watch nope x
usage: watch NAME P
> watch sum 0 0
usage: watch NAME P
> info
usage: info breakpoints, info ranks
> info breakpoint
usage: info breakpoints, info ranks
> info Ranks
usage: info breakpoints, info ranks
> info b
usage: info breakpoints, info ranks
> info breaks
usage: info breakpoints, info ranks
> info breakpoints 0
usage: info breakpoints, info ranks
> b
usage: break LINE [rank P] [if NAME OP N], break match LINE [rank P], break rank
        P, break change P NAME
> bk x
usage: back [N], back rank P
> quit now
usage: quit
'''),
    Dialogue('names that are none, before ranks that are none', 'loop.mpd', '''
> print 5
rank 0: 5 = 5
> print sum[
refused: an operator or the end of the text is expected at '['
> print sum[]
refused: an operator or the end of the text is expected at '['
> print sum[i] 9
refused: an operator or the end of the text is expected at '['
> print sum[0
refused: an operator or the end of the text is expected at '['
> print sum[0]x
refused: an operator or the end of the text is expected at '['
> print sum[-1]
refused: an operator or the end of the text is expected at '['
> print sum]
refused: an operator or the end of the text is expected at ']'
> print [0]
refused: an operand is expected at '['
> print Sum
no variable or request is called 'Sum'
> print nope[0]
no variable or request is called 'nope'
> print nope 99
no variable or request is called 'nope'
> print su\xb5\x01 99
refused: no expression has '?'
> print nope x
no variable or request is called 'nope'
> print sum 99
refused: there is no such rank
> print sum[0] 0
refused: there is no such index
> break change 9 nope
no variable or request is called 'nope'
> break change 9 sum[1
no variable or request is called 'sum[1'
> break change 9 i
refused: there is no such rank
> watch nope 9
no variable or request is called 'nope'
> watch 5 0
no variable or request is called '5'
> watch i[0] 9
refused: there is no such index
> watch i 9
refused: there is no such rank
>
refused: there is no such rank
> break change x nope
usage: break LINE [rank P] [if NAME OP N], break match LINE [rank P], break rank
        P, break change P NAME
> print i
rank 0: i = 0
'''),
    Dialogue('blanks, comments, and what is done once more', 'loop.mpd', '''
>
> # nothing is answered
>  \t # nor here
> \t next \t
1 local 0: line 6
next: local 0: line 7
    7    i = i + 1;
> # the word before is still the last
>  \t
2 local 0: line 7
next: local 0: line 8
    8    sum = sum + i;
> nxt
unknown word 'nxt': help all lists all
>
3 local 0: line 8
next: local 0: line 6
    6  while i < 3 {
> next x
usage: next [N]
>
4 local 0: line 6
next: local 0: line 7
    7    i = i + 1;
> goto 9
refused: so many steps are neither taken nor ahead
>
refused: so many steps are neither taken nor ahead
> back 2
depth 2
2 ahead: local 0: line 8
    8    sum = sum + i;
>
depth 0
4 ahead: local 0: line 6
    6  while i < 3 {
>
refused: fewer steps are taken
> print y
no variable or request is called 'y'
>
refused: fewer steps are taken
> redo
1 local 0: line 6
3 ahead: local 0: line 7
    7    i = i + 1;
>
2 local 0: line 7
2 ahead: local 0: line 8
    8    sum = sum + i;
> help zap
unknown word 'zap': help all lists all
> print sum[0]
refused: there is no such index
>
3 local 0: line 8
1 ahead: local 0: line 6
    6  while i < 3 {
> break change 0 nope
no variable or request is called 'nope'
>
4 local 0: line 6
next: local 0: line 7
    7    i = i + 1;
> print sum 7
refused: there is no such rank
>
refused: there is no such rank
> break change 7 sum
refused: there is no such rank
> delete 0
refused: no breakpoint has this number
> break 0
refused: lines are 1 to 65537
>
refused: lines are 1 to 65537
> breaks
no breakpoint
> goto 2
depth 2
2 ahead: local 0: line 8
    8    sum = sum + i;
> zap
unknown word 'zap': help all lists all
>
depth 2
2 ahead: local 0: line 8
    8    sum = sum + i;
> next # takes a step
usage: next [N]
> p sum
rank 0: sum = 0
>
rank 0: sum = 0
> quit
'''),
    Dialogue('a line that is too long, and others that say nothing', 'loop.mpd', f'''
> next
1 local 0: line 6
next: local 0: line 7
    7    i = i + 1;
> {"x" * 4097}
refused: this line is too long
> # nothing
>
2 local 0: line 7
next: local 0: line 8
    8    sum = sum + i;
> zap
unknown word 'zap': help all lists all
> q
'''),
    Dialogue('64 breakpoints', 'loop.mpd', ''.join(map(set_at, range(1, 65))) + '''> break 1
refused: 64 breakpoints are set
> break line 1
refused: 64 breakpoints are set
> break line 65538
refused: lines are 1 to 65537
> break match 1
refused: 64 breakpoints are set
> break change 0 i
refused: 64 breakpoints are set
> break 0
refused: lines are 1 to 65537
> break change 0 y
no variable or request is called 'y'
> delete 63
deleted 63
> break change 0 i
breakpoint 63: change 0 i
'''))
