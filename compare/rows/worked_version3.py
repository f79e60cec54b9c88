"""Worked rows of version 3 of the script language: its texts, and what stands for several statements; worked out by hand from the rules.

The program doesn't read version 3 yet. compare/runs/worked.py has the model answer these rows, where it reads up to that version
(`reading_up_to` of compare/model/language.py). Rows of collectives and probes, and of what is told of them, stand in
compare/rows/worked_version3_calls.py.
"""

from typing import NamedTuple, Optional

from model.canonical import canonical
from model.debugger import RENDEZVOUS, answer_file
from model.explorer import Asked, answer
from model.language import read_script
from rows.worked_sessions import Dialogue, dialogue_problem


class Refused(NamedTuple):
    """A text that is refused, with the number and the name of its fault, and the byte."""
    name: str
    script: str
    told: str


class Printed(NamedTuple):
    """A script, and its canonical text."""
    name: str
    script: str
    text: str


class Report(NamedTuple):
    """A script that is checked in a mode: the lines of the report, and the status."""
    name: str
    script: str
    lines: str
    status: int
    mode: str = RENDEZVOUS
    witnesses: bool = False
    explain: bool = False


class Said(NamedTuple):
    """A word, and what it is answered."""
    word: str
    answer: str


class Shown(NamedTuple):
    """Lines that `show` prints, in this order, which may be all, and how none begins."""
    lines: tuple
    is_all: bool
    lacks: Optional[str]


class Walk(NamedTuple):
    """A script in a mode, and words with what they are answered."""
    name: str
    script: str
    turns: tuple
    mode: str = RENDEZVOUS


def ok(words, first=1):
    """Words that are answered by depths, from one on."""
    return tuple(Said(word, f'ok {depth}') for depth, word in enumerate(words.split(', '), first))


def said(word, answer):
    return (Said(word, answer),)


def shown(lines, is_all=False, lacks=None):
    return (Shown(tuple(lines.split('; ')), is_all, lacks),)


# The reader.
READER = (
    # a text that ends behind its version; a version that there isn't
    Refused('A1', 'mpd 3;', '4 expected at 6'),
    Refused('A2', 'mpd 4; ranks 1;', '10 not-in-version at 4'),
    # in a text of version 2 the new words are names, and a point is no token
    Refused('A3', 'mpd 2; ranks 1; var x; bcast x from 0;', '5 unknown-name at 23'),
    Refused('A4', 'mpd 2; ranks 1; print 0..1;', '3 bad-token at 23'),
    # in one of version 3 two points are a sign, which stands in a `for` alone, and the words are reserved
    Refused('A5', 'mpd 3; ranks 1; print 0..1;', '4 expected at 23'),
    Refused('A6', 'mpd 3; ranks 1; var for;', '4 expected at 20'),
    # a variable may be called `for` in version 2, and `sum` and `min` in every version
    Walk('A7',
         'mpd 2; ranks 1; var for; var sum;\nfor = 1; sum = for + 1;',
         (ok('local 0, local 0'), shown('vars 1 2; outcome done'))),
    Walk('A8',
         'mpd 3; ranks 1; const N = 2; var sum; var min[N];\nallreduce N with sum into sum; min[1] = sum;',
         (ok('local 0, wake 0, local 0'), shown('vars 2 0 2; call 0.0 allreduce sum value 2 round 0'))),
    # a constant is no place, has a name of its own, and may be a size; a variable may not
    Refused('A9', 'mpd 3; ranks 1; const N = 2; N = 1;', '5 unknown-name at 29'),
    Refused('A10', 'mpd 3; ranks 1; var x; const x = 2;', '6 twice at 29'),
    Refused('A11', 'mpd 3; ranks 1; var x; var a[x];', '5 unknown-name at 29'),
    # a name that stands for all its cells has no bracket; an operation is one of six
    Refused('A12', 'mpd 3; ranks 2; var a[size]; var x; gather 1 to 0 into a[0];', '4 expected at 56'),
    Refused('A13', 'mpd 3; ranks 1; var x; reduce 1 with x to 0 into x;', '4 expected at 37'),
    # what counts in a `for` has no size
    Refused('A14', 'mpd 3; ranks 1; var a[2]; for a in 0 .. 2 { }', '5 unknown-name at 30'),
    # the handle of a `sendrecv` is one too many
    Refused('A15', 'mpd 3; ranks 1; req r[256]; var x; sendrecv 1 to 0 tag 0 recv x from 0 tag 0;', '8 too-many at 35'),
    # waits for all: where no statement is left, at the word; else at the name
    Refused('A16', 'mpd 3; ranks 1; req r[256];' + 'waitall r;' * 17, '8 too-many at 187'),
    Refused('A17', 'mpd 3; ranks 1; req r[256];print 1;' + 'waitall r;' * 16, '8 too-many at 193'),
    # an `if` behind `else` opens a block, which is open as long as it
    Refused('A18', 'mpd 3;ranks 1;if 1 { }' + 'else if 1 { }' * 64, '7 too-deep at 851'),
    Walk('A19', 'mpd 3;ranks 1;if 1 { }' + 'else if 1 { }' * 63,
         (ok('local 0'),)),
    # the last statement of a `for` is at its `}`; its `..` counts among the operators of the sum behind it
    Refused('A20', 'mpd 3;ranks 1;var i;' + 'print 1;' * 4094 + 'for i in 0 .. 1 { }', '8 too-many at 32790'),
    # all of what stands for other statements, written out
    Printed('A21',
            'mpd 3; ranks 3; const LAST = 2; var x; var i; var a[size]; req r[LAST];\nfor i in 0 .. LAST { isend r[i] i to LAST tag i; }\n'
            'waitall r;\nif rank == 0 { x = 1; } else if rank == LAST { sendrecv x to 0 tag 1 recv x from any tag any status i i; }\n'
            'scatter a from LAST into x; reduce x + 1 with max to 0 into a[i + 1]; probe from any tag 1 status x i;',
            'mpd 3;\nranks 3;\nvar x;\nvar i;\nvar a[3];\nreq r[2];\nreq sendrecv_;\ni = 0;\nwhile i < 2 {\n'
            '  isend r[i] i to 2 tag i;\n  i = i + 1;\n}\nwait r[0];\nwait r[1];\nif rank == 0 {\n  x = 1;\n} else {\n'
            '  if rank == 2 {\n    irecv sendrecv_ x from any tag any status i i;\n    send x to 0 tag 1;\n    wait sendrecv_;\n  }\n'
            '}\nscatter a from 2 into x;\nreduce x + 1 with max to 0 into a[i + 1];\nprobe from any tag 1 status x i;\n'),
    Refused('A22', 'mpd 3;ranks 1;var i;for i in 0 .. ' + '(' * 64, '7 too-deep at 97'),
)

# What stands for several statements.
SEVERAL = (
    # a `for` whose variable is one more at last
    Walk('B1',
         'mpd 3; ranks 1; var i; var x;\nfor i in 1 .. 4 { x = x + i; }\nprint x;',
         (ok('local 0, local 0, local 0, local 0, local 0, local 0, local 0, local 0, local 0, local 0, local 0, local 0'),
          shown('vars 4 6; out 6; outcome done'))),
    # its line is that of the first statement and of its test, the line of its `}` that of the step to the next number
    Dialogue('B2',
             'mpd 3; ranks 1; var i;\nfor i in 0 .. 2 {\n  print i;\n}',
             (('{"cmd":"break","kind":"line","line":4}', '{"break":0,"ok":true,"version":1}'),
              ('{"cmd":"break","kind":"line","line":2}', '{"break":1,"ok":true,"version":2}'),
              ('{"cmd":"run","max":100}', '{"break":1,"depth":1,"ok":true,"steps":1,"stop":"break","version":3}'),
              ('{"cmd":"run","max":100}', '{"break":0,"depth":3,"ok":true,"steps":2,"stop":"break","version":4}'),
              ('{"cmd":"run","max":100}', '{"break":1,"depth":4,"ok":true,"steps":1,"stop":"break","version":5}'),
              ('{"cmd":"run","max":100}', '{"break":0,"depth":6,"ok":true,"steps":2,"stop":"break","version":6}'),
              ('{"cmd":"run","max":100}', '{"break":1,"depth":7,"ok":true,"steps":1,"stop":"break","version":7}'),
              ('{"cmd":"run","max":100}', '{"depth":8,"ok":true,"steps":1,"stop":"leaf","version":8}'))),
    # waits for handles in turn, one of which has no request
    Walk('B3',
         'mpd 3; ranks 1; var x; var y; req r[3];\nirecv r[2] x from 0 tag 1; isend r[0] 5 to 0 tag 1;\nwaitall r;',
         (ok('local 0, local 0, match 0.1 0.0, local 0, wake 0, local 0, wake 0, local 0, wake 0'),
          shown('vars 5 0; handles - - -; call 0.2 wait 1; call 0.3 wait none; call 0.4 wait 0; outcome done'))),
    # a ring of exchanges, and one with itself, whose value is read before it is written over
    Report('B4',
           'mpd 3; ranks 3; var x;\nsendrecv rank to (rank + 1) % size tag 0 recv x from (rank + size - 1) % size tag 0;\n'
           'assert x == (rank + size - 1) % size;', 'leaf 0 [] done; leaves 1 more no', 0),
    Walk('B5',
         'mpd 3; ranks 1; var x; req h;\nx = 4; sendrecv x to 0 tag 7 recv x from 0 tag any;',
         (ok('local 0, local 0, local 0'), shown('rank 0 blocked 1; vars 4; handles - 0; call 0.1 send to 0 tag 7 value 4 free'),
          ok('match 0.1 0.0, wake 0, local 0, wake 0', 4), shown('handles - -; call 0.2 wait 0; outcome done'))),
)

# Small things: what is read, and how far.
SMALL = (
    # a wait for all of no handles is a statement all the same where none is left
    Refused('no handles', 'mpd 3;ranks 1;req e[0];' + 'barrier;' * 4096 + 'waitall e;', '8 too-many at 32791'),
    Walk('no handles, waited for', 'mpd 3;ranks 1;req e[0];waitall e;print 7;', (ok('local 0'),
         shown('rank 0 ended; out 7; outcome done', lacks='call'))),
    Walk('all of one', 'mpd 3;ranks 1;var x;req r;isend r 3 to 0 tag 0;recv x from 0 tag 0;waitall r;',
         (ok('local 0, local 0, match 0.0 0.1, wake 0, local 0, wake 0'), shown('vars 3; handles -; call 0.2 wait 0; outcome done'))),
    # three statements are too many, at their word, and so is the one of a `for` at its bracket alone
    Refused('the last three', 'mpd 3;ranks 1;var x;' + 'print 1;' * 4094 + 'sendrecv 1 to 0 tag 0 recv x from 0 tag 0;', '8 too-many at 32772'),
    Refused('the last two', 'mpd 3;ranks 1;var i;' + 'print 1;' * 4095 + 'for i in 0 .. 1 { }', '8 too-many at 32780'),
    # the handle of an exchange is declared by the first one, as any other, and is one without a size
    Refused('waited for before', 'mpd 3;ranks 1;var x;wait sendrecv_;sendrecv 1 to 0 tag 0 recv x from 0 tag 0;', '5 unknown-name at 25'),
    Printed('waited for behind', 'mpd 3;ranks 1;var x;req r;sendrecv 1 to 0 tag 0 recv x from 0 tag 0;wait sendrecv_;sendrecv 2 to 0 tag 0 '
            'recv x from 0 tag 0;',
            'mpd 3;\nranks 1;\nvar x;\nreq r;\nreq sendrecv_;\nirecv sendrecv_ x from 0 tag 0;\nsend 1 to 0 tag 0;\nwait sendrecv_;\nwait '
            'sendrecv_;\n'
            'irecv sendrecv_ x from 0 tag 0;\nsend 2 to 0 tag 0;\nwait sendrecv_;\n'),
    Refused('a variable of its name', 'mpd 3;ranks 1;var sendrecv_;sendrecv 1 to 0 tag 0 recv sendrecv_ from 0 tag 0;', '5 unknown-name at 28'),
    Refused('handles of its name', 'mpd 3;ranks 1;var x;req sendrecv_[1];sendrecv 1 to 0 tag 0 recv x from 0 tag 0;', '5 unknown-name at 37'),
    Refused('a constant of its name', 'mpd 3;ranks 1;var x;const sendrecv_ = 1;sendrecv 1 to 0 tag 0 recv x from 0 tag 0;', '5 unknown-name at 40'),
    # a name stands once among all declarations, constants too; a size by name is one by number
    Refused('a constant again', 'mpd 3;ranks 1;const N = 1;req N;', '6 twice at 30'),
    Refused('a size by name', 'mpd 3;ranks 1;const N = 1025;var a[N];', '8 too-many at 35'),
    Refused('a size by number of ranks', 'mpd 3;ranks 2;req r[255];req s[size];', '8 too-many at 31'),
    Refused('a size by rank', 'mpd 3;ranks 2;var a[rank];', '4 expected at 20'),
    Refused('a size in version 2', 'mpd 2;ranks 2;var a[size];', '4 expected at 20'),
    Refused('a constant with a bracket', 'mpd 3;ranks 1;const N = 1;print N[0];', '4 expected at 33'),
    Refused('a constant below nothing', 'mpd 3;ranks 1;const N = -1;', '4 expected at 24'),
    Refused('a bracket behind for', 'mpd 3;ranks 1;var i;for i[0] in 0 .. 1 { }', '4 expected at 25'),
    Refused('a constant as a place', 'mpd 3;ranks 1;const N = 1;bcast N from 0;', '5 unknown-name at 32'),
    Refused('a constant that counts', 'mpd 3;ranks 1;const N = 1;for N in 0 .. 1 { }', '5 unknown-name at 30'),
    # in version 2 there is no `else if`, and an operation is no name of its own
    Refused('else if', 'mpd 2;ranks 1;if 1 { } else if 1 { }', '4 expected at 28'),
    Refused('one point', 'mpd 3;ranks 1;var i;for i in 0 . 2 { }', '3 bad-token at 31'),
    Refused('three points', 'mpd 3;ranks 1;var i;for i in 0 ... 2 { }', '3 bad-token at 33'),
    Refused('no such operation', 'mpd 3;ranks 1;var x;scan 1 with max + into x;', '4 expected at 36'),
    Refused('a comparison as an end', 'mpd 3;ranks 1;var i;for i in 0 .. 1 < 2 { }', '4 expected at 36'),
    # the end of a `for` is asked before each turn, and its variable is what the body makes of it
    Walk('an end that moves', 'mpd 3; ranks 1; var i; var n;\nn = 5;\nfor i in 0 .. n { n = 2; print i; }',
         (ok(', '.join(['local 0'] * 11)), shown('vars 2 2; out 0 1; outcome done'))),
    Walk('a body that leaves', 'mpd 3; ranks 1; var i;\nfor i in 0 .. 9 { print i; i = 9; }', (ok(', '.join(['local 0'] * 6)),
         shown('vars 10; out 0; outcome done'))))

ALL = READER + SEVERAL + SMALL


# ---- what is wrong

def refused_problem(row):
    """What is told of a text otherwise than a row wants; None where nothing is."""
    result = answer_file(row.script.encode(), b'')
    is_so = (result.output, result.errors.decode(), result.status) == (b'', f'mpdbg: script refused {row.told} line 1\n', 2)
    return None if is_so else f'{result}'


def printed_problem(row):
    """What the canonical text of a script is otherwise than a row wants, or has otherwise where it is read again."""
    text = canonical(read_script(row.script.encode()))
    again = canonical(read_script(text))
    return None if text == again == row.text.encode() else f'{text}, {again}'


def report_problem(row):
    """What a check answers otherwise than a row wants; None where nothing is."""
    result = answer(row.script.encode(), Asked(row.mode, witnesses=row.witnesses, explain=row.explain))
    is_so = (result.output.decode(), result.errors, result.status) == (row.lines.replace('; ', '\n') + '\n', b'', row.status)
    return None if is_so else f'{result}'


def in_turn(wanted, lines):
    """Whether all of the wanted lines are there, in their order."""
    lines = iter(lines)
    return all(line in lines for line in wanted)


def is_shown(turn, lines):
    """Whether `show` prints what it must."""
    if turn.is_all:
        return list(turn.lines) == lines
    return in_turn(turn.lines, lines) and (turn.lacks is None or not any(line.startswith(turn.lacks) for line in lines))


def taken(lines):
    """The lines that `show` has printed first, which are taken from all."""
    count = lines.index('end') + 1 if 'end' in lines else len(lines)
    shown_lines, lines[:count] = lines[:count], []
    return shown_lines


def walk_problem(row):
    """What words are answered otherwise than a row wants; None where nothing is."""
    turns = [turn for some in row.turns for turn in some]
    words = ['show' if isinstance(turn, Shown) else turn.word for turn in turns]
    result = answer_file(row.script.encode(), ''.join(f'{word}\n' for word in words).encode(), row.mode)
    lines = result.output.decode().splitlines()
    for word, turn in zip(words, turns):
        there = taken(lines) if word == 'show' else [lines.pop(0)] if lines else []
        if not (is_shown(turn, there) if word == 'show' else there == [turn.answer]):
            return f'{word} was answered {there}'
    return None if (lines, result.errors, result.status) == ([], b'', 0) else f'{result}'


PROBLEMS = {Refused: refused_problem, Printed: printed_problem, Report: report_problem, Walk: walk_problem, Dialogue: dialogue_problem}


def name_of(row):
    return row.what if isinstance(row, Dialogue) else row.name


def problem_of(row):
    """What is wrong with a row of any kind; None where nothing is."""
    try:
        return PROBLEMS[type(row)](row)
    except Exception as error:  # pylint: disable=broad-except
        return f'{type(error).__name__}: {error}'


def problems(rows):
    """Each row with what is wrong of it, or None."""
    return [(f'version 3, {name_of(row)}', problem_of(row)) for row in rows]
