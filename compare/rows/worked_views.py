"""Worked screens of a view, each worked out by hand from docs/CONSOLE.md ("A view"): what is typed, and the screen after it (views.py).

The screen is told without the bytes that clear the terminal, and a bar stands after each of its rows, so that blanks at their ends are seen.
"""

from typing import NamedTuple

from model.console import begun
from model.view import CLEAR, Size, View


class Turn(NamedTuple):
    """A line that is typed, None before the first, and the screen after it."""
    typed: bytes
    screen: str


class Row(NamedTuple):
    """What it is of, a script, the size of the screen, and the turns."""
    what: str
    text: bytes
    size: Size
    turns: tuple


def screen_of(told):
    """The bytes of a screen that is told."""
    return CLEAR + '\n'.join(line.removesuffix('|') for line in told.split('\n')).encode() if told else b''


TWO = b"""mpd 1;
ranks 2;
var x;
if rank == 0 {
\tsend 5 to 1 tag 7;
} else {
  recv x from any tag any;\r
}
# the end
"""
FIVE = b'mpd 1; ranks 5; var x;\nif rank < 3 { x = 1; }\nassert x == 1;\n'
NONE = b'mpd 1; ranks 1;\n'
ENDED = """\
            1  mpd 1;         | rank 0 has ended|
            2  ranks 2;       | rank 1 has ended|
            3  var x;         | |
            4  if rank == 0 { | |
            5   send 5 to 1 t | |
-- depth 7; ended: done ------------------------------------|
"""
# Both are at line 2 in 30 columns, of which 14 are the left pane's; four rows are left for panes, so one rank has none.
AT_TWO = """\
            1  | rank 0 is at |
 5 here >   2  | rank 1 is at |
            3  | rank 2 is at |
               | rank 3 is at |
"""
TRAPPED = """\
            1  | rank 0 has en|
            2  | rank 1 has en|
    3 4 >   3  | rank 2 has en|
               | rank 3 is tra|
-- depth 13; ended: trap: rank|
"""
ALONE = """\
          | rank 0 ha|
          | |
          | |
          | |
-- depth 0; ended: do|
"""
ROWS = (
    Row('a match, an end, a list, a word that is none, a way back, and on along it', TWO, Size(12, 60), (
        Turn(None, """\
            2  ranks 2;       | rank 0 is at line 4|
            3  var x;         | rank 1 is at line 4|
    0 1 >   4  if rank == 0 { | |
            5   send 5 to 1 t | |
            6  } else {       | |
-- depth 0; next: local 0: line 4 --------------------------|
(0) |"""),
        Turn(b'run', ENDED + '7 steps, depth 7|\nended: done|\n(7) |'),
        # ten lines and the prompt, of which six rows have the last five
        Turn(b'list', ENDED + """\
.. 6 lines above|
    7    recv x from any tag any;|
    8  }|
    9  # the end|
ended: rank 0, rank 1|
(7) |"""),
        Turn(b'zap\xff', ENDED + "unknown word 'zap?': help all lists all|\n(7) |"),
        Turn(b'#', ENDED + '(7) |'),
        Turn(b'back 4', """\
      0 >   5   send 5 to 1 t | rank 0 waits at line 5, 0.0 |
            6  } else {       | rank 1 is at line 7|
      1 >   7    recv x from  | |
            8  }              | |
            9  # the end      | |
-- depth 3; 4 ahead: local 1: line 7 -----------------------|
depth 3|
4 ahead: local 1: line 7|
    7    recv x from any tag any;|
(3) |"""),
        Turn(b'until rank 0', """\
            5   send 5 to 1 t | rank 0 has ended|
            6  } else {       | rank 1 can go on from line 7|
      1 >   7    recv x from  | |
            8  }              | |
            9  # the end      | |
-- depth 6; 1 ahead: wake 1: line 7 ------------------------|
3 steps, depth 6|
stopped: rank 0 has gone on|
1 ahead: wake 1: line 7|
    7    recv x from any tag any;|
(6) |"""),
        Turn(b'quit', ''))),
    Row('more ranks than rows, and lines that wrap', FIVE, Size(10, 30), (
        Turn(None, AT_TWO + '-- depth 0; next: local 0: lin|\n(0) |'),
        Turn(b'next', AT_TWO + """\
-- depth 1; next: local 0: lin|
1 local 0: line 2|
next: local 0: line 2|
    2  if rank < 3 { x = 1; }|
(1) |"""),
        Turn(b'run', TRAPPED + """\
.. 5 lines above|
        with x = 0|
  rank 4, line 3: trap assert,|
        with x = 0|
(13) |"""),
        # 48 lines of help, and the prompt
        Turn(b'help', TRAPPED + """\
.. 45 lines above|
        choice is|
an empty line does the last|
        word once more|
(13) |"""))),
    Row('no statement, and an odd number of columns', NONE, Size(10, 21), (
        Turn(None, ALONE + '(0) |'),
        Turn(b'#' * 4097, ALONE + """\
refused: this line is|
(0) |"""),
        Turn(b'run', ALONE + '0 steps, depth 0|\nended: done|\n(0) |'))))


def problem(row):
    """What is wrong with what the model draws; None where nothing is."""
    view = View(begun(row.text, 'rendezvous', None), row.size)
    for typed, told in row.turns:
        screen = view.first() if typed is None else view.answer(typed)
        if screen != screen_of(told):
            return f'{row.what}: {screen} after {typed}'
    return None
