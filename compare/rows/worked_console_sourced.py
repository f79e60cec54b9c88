"""Worked dialogues of the console in which words of files are answered (console_worked.py): what each file has stands in `words`."""

from rows.worked_console_scripts import Dialogue

PRINTS = 'mpd 1; ranks 1;\nprint 1;\nprint 2;\nprint 3;\n'
FIRST = '''1 local 0: line 2
rank 0 prints 1
next: local 0: line 3
    3  print 2;
'''
SECOND = '''2 local 0: line 3
rank 0 prints 2
next: local 0: line 4
    4  print 3;
'''
SECOND_HITS = SECOND.replace('next', 'breakpoint 0: line 4\nnext')
# 1,048,576 bytes: comments, and a word.
FULL = ('#' * 4095 + '\n') * 255 + '#' * 4091 + '\nnext'
# (a comment, a carriage return, a last line without an end, and an empty line after it that repeats its last word)
PLAIN = Dialogue('words of a file', PRINTS, f'''
> source moves.txt
breakpoint 0: line 4
{FIRST}>
{SECOND_HITS}> breaks
breakpoint 0: line 4
''', words=(('moves.txt', '# so\nbreak 4\r\n  next'),))
NESTED = Dialogue('a file in a file, files that cannot be read, and words after them', PRINTS, f'''
> next
{FIRST}> source a.txt
refused: source can't stand in a file of words
breakpoint 0: line 4
refused: source can't stand in a file of words
> breaks
breakpoint 0: line 4
> source no.txt
refused: the file 'no.txt' can't be read
>
breakpoint 0: line 4
> source no\xe9\x1b[31m
refused: the file 'no??[31m' can't be read
> source
usage: source FILE
> source a.txt b.txt
usage: source FILE
>   source \t empty.txt \t
> sourc
unknown word 'sourc': perhaps source
> source lines.txt
refused: source can't stand in a file of words
usage: source FILE
unknown word 'zap': help all lists all
refused: this line is too long
> back
depth 0
1 ahead: local 0: line 2
    2  print 1;
''', words=(('a.txt', 'source no.txt\nbreak 4\nsource a.txt\n'), ('empty.txt', ''), ('lines.txt', 'source lines.txt\nsource a b\nzap\n' + 'x' * 4097)))
LONG = Dialogue('as many bytes as a file of words may have, and one more', PRINTS, f'''
> source most.txt
{FIRST}> source more.txt
refused: the file 'more.txt' has more than 1048576 bytes
> next
{SECOND}''', words=(('most.txt', FULL), ('more.txt', FULL + '\n')))
ENDS = Dialogue('a file that ends the dialogue', PRINTS, f'''
> source end.txt
{FIRST}{SECOND}> next
''', words=(('end.txt', 'next\n\n q \t\nnext\n'),))
RELOADED = Dialogue('a file that has the script read again', PRINTS, f'''
> source again.txt
{FIRST}1 of 1 step taken again
next: local 0: line 3
    3  print 2;
{SECOND}> history
1 local 0: line 2
2 local 0: line 3
''', words=(('again.txt', 'next\nreload\nnext\n'),), files=(PRINTS,))
SOURCED = (PLAIN, NESTED, LONG, ENDS, RELOADED)
# What is written where lines are shown, of the first.
SHOWN = f'''(0) source moves.txt
(0) # so
(0) break 4
breakpoint 0: line 4
(0)   next
{FIRST}(1)\x20
{SECOND_HITS}(2) breaks
breakpoint 0: line 4
(2)\x20
'''
