"""Worked dialogues of the console of words: words that other debuggers have, and help (console_worked.py)."""

from rows.worked_console_scripts import PRINTS, Dialogue

HELP = (
    Dialogue('words that other debuggers have', 'loop.mpd', '''
> b 8
breakpoint 0: line 8
> watch i 0
breakpoint 1: change 0 i
> info breakpoints
breakpoint 0: line 8
breakpoint 1: change 0 i
> info ranks
rank 0 is at line 6
> c
2 steps, depth 2
breakpoint 0: line 8
next: local 0: line 8
    8    sum = sum + i;
> d 0
deleted 0
> br match 6
breakpoint 0: match 6
> info breakpoints
breakpoint 0: match 6
breakpoint 1: change 0 i
> run
3 steps, depth 5
breakpoint 1: change 0 i
next: local 0: line 8
    8    sum = sum + i;
> rs
depth 4
1 ahead: local 0: line 7
    7    i = i + 1;
> undo 2
depth 2
3 ahead: local 0: line 8
    8    sum = sum + i;
> reverse-step
depth 1
4 ahead: local 0: line 7
    7    i = i + 1;
> bk
depth 0
5 ahead: local 0: line 6
    6  while i < 3 {
>
refused: fewer steps are taken
> redo all
depth 5
next: local 0: line 8
    8    sum = sum + i;
> restart
depth 0
5 ahead: local 0: line 6
    6  while i < 3 {
>
depth 0
5 ahead: local 0: line 6
    6  while i < 3 {
> reverse-next
refused: fewer steps are taken
> d 1
deleted 1
> info breakpoints
breakpoint 0: match 6
> run
5 steps, depth 5
stopped: the steps ahead end here
next: local 0: line 8
    8    sum = sum + i;
> run
6 steps, depth 11
rank 0 prints 6
ended: done
'''),
    Dialogue('help, of all words and of some', PRINTS, '''
> help
next [N]                            takes the step that comes next
run [N]                             goes on to a breakpoint, a choice or an end
back [N], back rank P               takes a step back, or so many
undo-choice                         goes back to the last choice
restart                             goes back to the start
break LINE [rank P] [if NAME OP N], break match LINE [rank P], break rank P,
        break change P NAME sets a breakpoint
list [P]                            shows the script, and where ranks stand
print EXPR [P]                      shows a variable, a request or an expression
why [P], why CALL                   says why ranks wait
deadlock                            lays the first deadlock's steps ahead
blame                               goes to the step that decided how it ends
quit                                ends
help all lists all words; help WORD tells more of one, and its short forms
help choice tells what a choice is
an empty line does the last word once more
> help all
next [N]                            takes the step that comes next
run [N]                             goes on to a breakpoint, a choice or an end
until LINE, until rank P            goes on until a rank comes to that line
finish [P]                          goes on until a rank's call is over
back [N], back rank P               takes a step back, or so many
run-back                            goes back to a breakpoint, or to the start
undo-choice                         goes back to the last choice
goto N                              goes to where so many steps are taken
restart                             goes back to the start
reload                              reads the file of the script again
source FILE                         answers the words of a file
redo [N], redo all                  takes the first step ahead, or so many
local P, match S R, wake P, wakeany P I, release takes this step
break LINE [rank P] [if NAME OP N], break match LINE [rank P], break rank P,
        break change P NAME sets a breakpoint
watch NAME P                        sets a breakpoint on a variable or a request
delete N                            removes a breakpoint
breaks                              lists the breakpoints
info breakpoints, info ranks        lists breakpoints, or what ranks are doing
list [P]                            shows the script, and where ranks stand
print EXPR [P]                      shows a variable, a request or an expression
vars [P]                            shows all variables in short
ranks                               shows what each rank is doing
calls [P]                           lists the calls of all ranks, or of rank P
queues                              lists the sends and receives that are free
why [P], why CALL                   says why ranks wait
history [N]                         lists the last 10 steps, or the last N
picture                             draws the run so far
check [N]                           tries the choices, and lists how runs end
follow N                            lays the steps of a run ahead
deadlock                            lays the first deadlock's steps ahead
trap                                lays the first trap's steps ahead
blame                               goes to the step that decided how it ends
words                               lists the steps taken as trace words
enabled                             lists the steps that are enabled
show                                shows the whole state, as a trace does
help [WORD], help all, help choice  lists words to begin with, or tells of one
quit                                ends
help WORD tells more of a word, and its short forms
an empty line does the last word once more
> help choice
choice: a state in which one of several steps is to be taken next, as which
        message a receive of any source gets; next lists them, next N takes one,
        from 1 (reports count them from 0, in [..]), undo-choice comes back to
        take another, and check tries all of them
> help next
next [N]: takes the step that comes next; at a choice the one that lies ahead,
        or it lists the candidates, of which next N takes one, from 1 (reports
        count them from 0, in [..]); elsewhere next N is run N
  short: n, step, s
> help w
why [P], why CALL: says why ranks wait; all of them, or rank P; or why a call
        isn't matched, CALL as 0.1
  short: w
> help u
undo-choice: goes back to the last choice; another candidate can be taken there
  short: u
> help f
follow N: lays the steps of a run ahead; N is its number in a check from here
  short: f
> help deadlock
deadlock: lays the first deadlock's steps ahead; the first from here, so that
        run and redo go there; at a deadlock ranks wait, and no step can be
        taken
> help trap
trap: lays the first trap's steps ahead; a trap ends a rank at an error, as a
        failed assert or a division by 0
> help bk
back [N], back rank P: takes a step back, or so many; or goes back to before the
        last local step of rank P
  short: bk, undo, rs, reverse-step, reverse-next
> help undo
back [N], back rank P: takes a step back, or so many; or goes back to before the
        last local step of rank P
  short: bk, undo, rs, reverse-step, reverse-next
> help restart
restart: goes back to the start; redo all goes along the same steps again
> help reload
reload: reads the file of the script again; breakpoints stay, and the steps that
        were taken are taken again, as far as they fit
> help source
source FILE: answers the words of a file; each of its lines is answered as if it
        was typed, and none of them is a source
> help watch
watch NAME P: sets a breakpoint on a variable or a request; the same as break
        change P NAME
> help info
info breakpoints, info ranks: lists breakpoints, or what ranks are doing; the
        same as breaks, and as ranks
> ? wakeany
local P, match S R, wake P, wakeany P I, release: takes this step; P is a rank,
        S and R are a send and a receive as 1.0, and I is the number of a
        request of a waitany, from 0
> help local
local P, match S R, wake P, wakeany P I, release: takes this step; P is a rank,
        S and R are a send and a receive as 1.0, and I is the number of a
        request of a waitany, from 0
> help g
goto N: goes to where so many steps are taken; back, or along the steps ahead
  short: g
> help redo
redo [N], redo all: takes the first step ahead, or so many; as far as there are,
        or all
> help break
break LINE [rank P] [if NAME OP N], break match LINE [rank P], break rank P,
        break change P NAME: sets a breakpoint; after a step by which a rank, or
        rank P, comes to that line, if its variable compares so with N, OP being
        ==, !=, <, <=, > or >=; after a match of a call of that line, or of one
        of rank P; after each step of rank P after which it isn't blocked; after
        a change of that variable or request of rank P
  short: b, br
> help b
break LINE [rank P] [if NAME OP N], break match LINE [rank P], break rank P,
        break change P NAME: sets a breakpoint; after a step by which a rank, or
        rank P, comes to that line, if its variable compares so with N, OP being
        ==, !=, <, <=, > or >=; after a match of a call of that line, or of one
        of rank P; after each step of rank P after which it isn't blocked; after
        a change of that variable or request of rank P
  short: b, br
> help line
unknown word 'line': perhaps list
> help choices
unknown word 'choices': perhaps check
> help All
unknown word 'All': help all lists all
> choice
unknown word 'choice': perhaps check
> all
unknown word 'all': help all lists all
> help l
list [P]: shows the script, and where ranks stand; or the lines about rank P
  short: l
> help c
run [N]: goes on to a breakpoint, a choice or an end; or so many steps at most
  short: r, continue, c
> help reverse-continue
run-back: goes back to a breakpoint, or to the start
  short: rc, reverse-continue
> help where
ranks: shows what each rank is doing
  short: bt, where
> help exit
quit: ends
  short: q, exit
> ? s
next [N]: takes the step that comes next; at a choice the one that lies ahead,
        or it lists the candidates, of which next N takes one, from 1 (reports
        count them from 0, in [..]); elsewhere next N is run N
  short: n, step, s
> help breaks
breaks: lists the breakpoints
> help vars
vars [P]: shows all variables in short; requests, and what was printed, too
> help check
check [N]: tries the choices, and lists how runs end; from here, 1,000 or N of
        them at most
> help show
show: shows the whole state, as a trace does; docs/FORMATS.md, "Text of show"
> help ?
help [WORD], help all, help choice: lists words to begin with, or tells of one;
        help all lists all words; help choice tells what a choice is
  short: ?
> vars
rank 0 has no variable
> words
> next
1 local 0: line 1
rank 0 prints -7
next: local 0: line 3
    3  print 2;\t# 2
> list
    1  mpd 1; ranks 1; print -7;
    2  
    3  print 2;\t# 2  <- rank 0
    4  #\r
    5   
> next
2 local 0: line 3
rank 0 prints 2
ended: done
> vars
rank 0 has no variable
rank 0 has printed -7 2
> list
    1  mpd 1; ranks 1; print -7;
    2  
    3  print 2;\t# 2
    4  #\r
    5   
ended: rank 0
'''))
