"""Worked rows of how answers of a console look: lines that are shown before their answers, and other widths (console_worked.py).

Each was worked out by hand from docs/CONSOLE.md ("Lines that are shown", "Long lines").
"""

from typing import NamedTuple

from model.console import Look, debug
from model.debugger import Result


class Looked(NamedTuple):
    """What it is of, what is typed on the script, what must be written, and how answers look."""
    what: str
    data: bytes
    wanted: bytes
    look: Look

    @property
    def text(self):
        return SCRIPT


SCRIPT = b'mpd 1; ranks 1; var x;\nx = 1;\nassert x == 2;\n'
ECHO = Look(is_echoing=True)
FIRST = b"""1 local 0: line 2
next: local 0: line 3
    3  assert x == 2;
"""
TRAP = b"""ended: trap: rank 0 at line 3 (assert)
  rank 0 trapped at line 3: assert
"""
LOOKED = (
    Looked('nothing is typed, and shown', b'', b'(0) \n', ECHO),
    Looked('lines that are shown, and the end of the input', b'next\nprint x', b'(0) next\n' + FIRST + b'(1) print x\nrank 0: x = 1\n(1) \n', ECHO),
    Looked('comments, blanks and empty lines that are shown, and quit', b'# so \r\n\n  next \t\nquit\nnext\n',
           b'(0) # so \n(0) \n(0)   next \t\n' + FIRST + b'(1) quit\n', ECHO),
    Looked('an empty line that repeats a word', b'print x\n\n', b'(0) print x\nrank 0: x = 0\n(0) \nrank 0: x = 0\n(0) \n', ECHO),
    Looked('an expression that is shown, and an empty line that repeats it', b'print x + 1\n\n',
           b'(0) print x + 1\nrank 0: x + 1 = 1\n(0) \nrank 0: x + 1 = 1\n(0) \n', ECHO),
    Looked('an expression at 20', b'print x + 10000000\n', b'rank 0: x + 10000000\n        = 10000000\n', Look(20)),
    Looked('bytes that are no text', b'# \xff\x01\nexit', b'(0) # \xff\x01\n(0) exit\n', ECHO),
    Looked('a line that is too long, and one that is just as long as may be', b'#' * 4097 + b'\n' + b'#' * 4096 + b'\n',
           b'(0) ..\nrefused: this line is too long\n(0) ' + b'#' * 4096 + b'\n(0) \n', ECHO),
    Looked('at 20', b'zap\nlist 0\n', b"""unknown word 'zap':
        help all
        lists all
    1  mpd 1; ranks 1; var x;
    2  x = 1;  <- rank 0
    3  assert x == 2;
""", Look(20)),
    Looked('at 33 and 34', b'zap\n', b"""unknown word 'zap': help all
        lists all
""", Look(33)),
    Looked('at one byte less than the line has', b'zap\n', b"""unknown word 'zap': help all lists
        all
""", Look(37)),
    Looked('at as many as the line has', b'zap\n', b"unknown word 'zap': help all lists all\n", Look(38)),
    Looked('at 1,000', b'help choice\n', b'choice: a state in which one of several steps is to be taken next, as which message a receive of any source gets; '
           b'next lists them, next N takes one, from 1 (reports count them from 0, in [..]), undo-choice comes back to take another, and check tries all of them\n',
           Look(1000)),
    Looked('at another width, and shown', b'zap\n', b"(0) zap\nunknown word 'zap': help all\n        lists all\n(0) \n", Look(33, True)))


def look_problem(row):
    """What is wrong with what the model answers; None where nothing is."""
    result = debug(SCRIPT, row.data, look=row.look)
    return None if result == Result(row.wanted, b'', 0) else f'{row.what}: {result}'
