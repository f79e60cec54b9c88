"""Worked dialogues of the console about `print` with an expression (console_worked.py). What is wanted was worked out by hand from docs/CONSOLE.md."""

from rows.worked_console_scripts import Dialogue

# What rank 0 and rank 1 have at the end: x is 5 and 6, a is 0, 10, 0 and 0, 12, 0.
NAMED = 'mpd 1;\nranks 2;\nvar x;\nvar a[3];\nreq r;\nx = rank + 5;\na[1] = x * 2;\n'
DEEP = 'refused: an expression has 64 brackets and operators at most'

VALUES = (
    Dialogue('expressions of all ranks and of one, and what is none', NAMED, f'''
> print x + 1
rank 0: x + 1 = 1
rank 1: x + 1 = 1
> run
4 steps, depth 4
ended: done
> print x + 1
rank 0: x + 1 = 6
rank 1: x + 1 = 7
> print x + 1 1
rank 1: x + 1 = 7
>
rank 1: x + 1 = 7
> print x + 1 2
refused: there is no such rank
> print x -1
rank 0: x - 1 = 4
rank 1: x - 1 = 5
> p 3
rank 0: 3 = 3
rank 1: 3 = 3
> print -1 0
rank 0: -1 = -1
> print x 1
rank 1: x = 6
>
rank 1: x = 6
> print ((x)) 0
rank 0: x = 5
> print(x)
unknown word 'print(x)': perhaps print
> print 2*(x+size) 0
rank 0: 2 * (x + size) = 14
> print x / rank
rank 0: x / rank traps: zero-divisor
rank 1: x / rank = 6
> print a[x - 4]
rank 0: a[x - 4] = 10
rank 1: a[x - 4] = 0
> print a[x]
rank 0: a[x] traps: bad-index
rank 1: a[x] traps: bad-index
> print a[7]
refused: there is no such index
> print a[7] + 1 1
rank 1: a[7] + 1 traps: bad-index
> print 9223372036854775807 + x 0
rank 0: 9223372036854775807 + x traps: overflow
> print 1 || 1 / 0 0
rank 0: 1 || 1 / 0 = 1
> print rank == 1 # a comment 0
rank 0: rank == 1 = 0
rank 1: rank == 1 = 1
> print 9223372036854775808 + x
refused: no expression has '9223372036854775808'
> print x @
refused: no expression has '@'
> print x + \xb5
refused: no expression has '?'
> print x y
refused: an operator or the end of the text is expected at 'y'
> print x 1 2
refused: the end of the text is expected at '2'
> print x + * 2
refused: an operand is expected at '*'
> print x +
refused: an operand is expected at the end of the text
> print a + 1
refused: '[' is expected at '+'
> print a[1 * (x + 2] 0
refused: an operator or ')' is expected at ']'
> print a[1 2
refused: an operator or ']' is expected at '2'
> print x < 1 < 2
refused: an operator or the end of the text is expected at '<'
> print x + y
no variable or request is called 'y'
>
rank 0: rank == 1 = 0
rank 1: rank == 1 = 1
> print x + r
refused: 'r' is a request, and no variable
> print r 1
rank 1: r = no request
> print -{'-' * 63}x 0
rank 0: {'-' * 64}x = 5
> print -{'-' * 64}x 0
{DEEP}
> print {'(' * 64}x{')' * 64} 1
rank 1: x = 6
> print {'(' * 65}x{')' * 65} 1
{DEEP}
> print x +
refused: an operand is expected at the end of the text
>
rank 1: x = 6
> ranks
rank 0 has ended
rank 1 has ended
>
rank 0 has ended
rank 1 has ended
> until 3
refused: no statement begins at line 3
> until 99
refused: no statement begins at line 99
'''),)
