"""Worked rows of texts: what they print, where they trap, and where they are refused; worked out by hand from docs/LANGUAGE.md.

compare/runs/worked.py compares them with the model, compare/runs/statuses.py with the built program.
"""

from typing import NamedTuple, Optional

from model.debugger import Result
from model.language import FAULT_NAMES

NUMBERS = {name: number for number, name in FAULT_NAMES.items()}

# An expression, and what it prints.
VALUES = (
    ('7 / 2', '3'), ('-7 / 2', '-3'), ('7 / -2', '-3'), ('-7 / -2', '3'), ('7 % 2', '1'), ('-7 % 2', '-1'), ('7 % -2', '1'),
    ('-7 % -2', '-1'), ('2 + 3 * 4', '14'), ('(2 + 3) * 4', '20'), ('10 - 3 - 2', '5'), ('100 / 5 / 2', '10'),
    ('7 - 2 * 3 % 4', '5'), ('1 < 2', '1'), ('2 < 2', '0'), ('2 <= 2', '1'), ('2 > 1', '1'), ('1 >= 2', '0'), ('-1 < 0', '1'),
    ('3 == 3', '1'), ('3 != 3', '0'), ('!0', '1'), ('!5', '0'), ('- -3', '3'), ('!0 + 1', '2'), ('-2 * 3', '-6'),
    ('0 && 1 / 0', '0'), ('1 || 1 / 0', '1'), ('2 && 3', '1'), ('1 || 0 && 0', '1'),
    ('-9223372036854775807 - 1', '-9223372036854775808'), ('9223372036854775807 + -1', '9223372036854775806'))

# A statement behind `var x;var a[2];var e[0];` that traps, and the trap.
TRAPS = (
    ('print 9223372036854775807 + 1;', 'overflow'), ('print -9223372036854775807 - 2;', 'overflow'),
    ('print 3037000500 * 3037000500;', 'overflow'), ('print -(-9223372036854775807 - 1);', 'overflow'),
    ('print (-9223372036854775807 - 1) / -1;', 'overflow'), ('print (-9223372036854775807 - 1) % -1;', 'overflow'),
    ('print 1 / 0;', 'zero-divisor'), ('x = 1 % 0;', 'zero-divisor'), ('send 1 to 1 tag 0;', 'bad-rank'),
    ('recv x from -1 tag 0;', 'bad-rank'), ('send 1 to 9 tag 1 / 0;', 'bad-rank'), ('send 1 to 0 tag 32768;', 'bad-tag'),
    ('recv x from 0 tag -1;', 'bad-tag'), ('print a[2];', 'bad-index'), ('a[-1] = 1 / 0;', 'bad-index'),
    ('recv a[2] from 9 tag 0;', 'bad-index'), ('recv x from a[5] tag 0;', 'bad-index'), ('print e[0];', 'bad-index'),
    ('assert 1 < 1;', 'assert'), ('while 1 / x { x = 1; }', 'zero-divisor'))

# A statement behind `var x;var a[2];req h;req g[2];req e[0];` that traps, and the trap.
HANDLE_TRAPS = (
    ('isend g[2] 1 / 0 to 9 tag 0;', 'bad-index'), ('isend e[0] 1 to 0 tag 0;', 'bad-index'),
    ('isend g[1 / 0] 1 to 9 tag 0;', 'zero-divisor'), ('isend h 1 / 0 to 9 tag 0;', 'zero-divisor'),
    ('isend h 1 to 1 tag 1 / 0;', 'bad-rank'), ('isend g[1] 1 to 0 tag 32768;', 'bad-tag'),
    ('irecv g[-1] a[1 / 0] from 9 tag 0;', 'bad-index'), ('irecv g[1 / 0] a[2] from 9 tag 0;', 'zero-divisor'),
    ('irecv h a[2] from 1 / 0 tag 0;', 'bad-index'), ('irecv h x from 1 tag 1 / 0;', 'bad-rank'),
    ('irecv g[0] x from 0 tag -1;', 'bad-tag'), ('wait g[2];', 'bad-index'), ('wait e[0];', 'bad-index'),
    ('wait g[1 % 0];', 'zero-divisor'), ('recv x from any tag any status a[2] a[1 / 0];', 'bad-index'),
    ('recv x from any tag any status a[1 / 0] a[2];', 'zero-divisor'), ('recv x from any tag 32768 status a[2] x;', 'bad-tag'),
    ('irecv h x from 1 tag any status a[2] x;', 'bad-rank'), ('irecv g[2] a[1 / 0] from any tag any;', 'bad-index'),
    ('irecv h x from any tag any status x a[-1];', 'bad-index'), ('ssend 1 / 0 to 9 tag 0;', 'zero-divisor'),
    ('ssend 1 to 1 tag 1 / 0;', 'bad-rank'), ('ssend 1 to 0 tag 32768;', 'bad-tag'),
    ('issend g[2] 1 / 0 to 9 tag 0;', 'bad-index'), ('issend h 1 to -1 tag 1 / 0;', 'bad-rank'),
    ('issend g[1] 1 to 0 tag -1;', 'bad-tag'))

# A text behind `mpd 1;ranks 1;` that is refused, the fault, and the byte where, from 0.
FAULTS = (
    ('print 1;\x01', 'not-text', 22), ('#\x7f', 'not-text', 15), ('print 1 & 1;', 'bad-token', 22),
    ('print 1 &&& 1;', 'bad-token', 24), ('print 9223372036854775808;', 'bad-token', 20), ('print 1 < 2 < 3;', 'expected', 26),
    ('print 1 + ;', 'expected', 24), ('print * 1;', 'expected', 20), ('var a[2];a=1;', 'expected', 24),
    ('var x;x[0]=1;', 'expected', 21), ('var a[-1];', 'expected', 20), ('while 1 print 1;', 'expected', 22),
    ('assert;', 'expected', 20), ('x=1;', 'unknown-name', 14), ('var a[1];print a[y];', 'unknown-name', 31),
    ('var a[2];var a;', 'twice', 27), ('var a;var a[2000];', 'twice', 24), ('var a[1025];', 'too-many', 20),
    ('var a[1024];var b;', 'too-many', 30), ('var a[1024];var b[1];', 'too-many', 32), ('waitany', 'not-in-version', 14),
    ('var x;waitany x;', 'not-in-version', 20), ('var x;x=1;waitany = 2;', 'not-in-version', 24),
    ('if 1 { waitany; }', 'not-in-version', 21), ('req r[257];', 'too-many', 20), ('req r[256];req s;', 'too-many', 29),
    ('req r[200];var x[1024];req s[57];', 'too-many', 43), ('var x;req x;', 'twice', 24), ('req r[256];req r;', 'twice', 29),
    ('req r[2;', 'expected', 21), ('var x;wait x;', 'unknown-name', 25), ('req r;r=1;', 'unknown-name', 20),
    ('req r;isend r r to 0 tag 0;', 'unknown-name', 28), ('req r;var x;irecv x x from 0', 'unknown-name', 32),
    ('req r;irecv r r from 0', 'unknown-name', 28), ('req r;wait r[0];', 'expected', 26), ('req r[2];wait r;', 'expected', 29),
    ('req r;isend r to 0 tag 0;', 'expected', 28), ('req r;issend 1 to 0 tag 0;', 'expected', 27),
    ('var x;recv x from any tag any status x;', 'expected', 52), ('var x;recv x from 1 + any tag 0;', 'expected', 36),
    ('var x;var a[1];recv x from any tag 0 status a x;', 'expected', 60),
    ('var x;req r;recv x from any tag any status r x;', 'unknown-name', 57), ('send 1 to any tag 0;', 'expected', 24),
    ('var x;req r;barrier', 'expected', 33), ('var x;req r;barrier 1;', 'expected', 34),
    ('var x;req r;x = barrier;', 'expected', 30), ('var x;req r;barriers;', 'unknown-name', 26),
    ('var x;req r;ssend 1 to 0;', 'expected', 38), ('var x;req r;ssend r 1 to 0 tag 0;', 'unknown-name', 32),
    ('var x;req r;ssend 1 to any tag 0;', 'expected', 37), ('var x;req r;issend x 1 to 0 tag 0;', 'unknown-name', 33),
    ('var x;req r;issend r[0] 1 to 0 tag 0;', 'expected', 34))


class Input(NamedTuple):
    """An input; why its script is refused, at which byte, from 0, and on which line, from 1, where it is; and what is written."""
    what: str
    text: str
    refused: Optional[tuple] = None
    written: str = ''


# Inputs with and without words, and lines that divide and don't.
INPUTS = (
    Input('a second line that divides is a word, and the last line needs no end',
          'mpd 1;ranks 1;print 7;\n---\nlocal 0\nback\n---\nlocal 0', None, 'ok 1\nok 0\nrefused bad-word\nok 1\n'),
    Input('lines that end with CR LF', 'mpd 1;ranks 1;print 7;\r\n---\r\nlocal 0\r\n', None, 'ok 1\n'),
    Input('a script alone', 'mpd 1;ranks 1;print 7;'),
    Input('half a statement', 'mpd 1;ranks 1;print', ('expected', 19, 1)),
    Input('half a statement before a line that divides', 'mpd 1;ranks 1;print\n---', ('expected', 20, 2)),
    Input('no script', '---\nlocal 0\n', ('expected', 0, 1)),
    Input('blanks round what would divide', 'mpd 1;ranks 1;print 7;\n --- \nlocal 0\n', ('expected', 24, 2)))

HEAD = 'mpd 1;ranks 1;'
DECLARED = ''.join(f'var v{number};' for number in range(1024))

# Texts at a limit of the reader, each with one just past it.
LIMITS = (
    Input('4,096 statements', HEAD + 'print 1;' * 4096),
    Input('4,097 statements', HEAD + 'print 1;' * 4097, ('too-many', 32782, 1)),
    Input('4,096 assignments', f'{HEAD}var x;' + 'x=1;' * 4096),
    Input('4,097 assignments', f'{HEAD}var x;' + 'x=1;' * 4097, ('too-many', 16404, 1)),
    Input('64 blocks', HEAD + 'if 1 {' * 64 + '}' * 64),
    Input('64 blocks without an end', HEAD + 'if 1 {' * 64, ('expected', 398, 1)),
    Input('65 blocks without an end', HEAD + 'if 1 {' * 65, ('too-deep', 403, 1)),
    Input('65 loops', f'{HEAD}var a[2];' + 'while 1 {' * 65, ('too-deep', 607, 1)),
    Input('65,536 bytes', HEAD + ' ' * 65522),
    Input('65,537 bytes', HEAD + ' ' * 65523, ('too-long', 65536, 1)),
    Input('65,536 spaces', ' ' * 65536, ('expected', 65536, 1)),
    Input('65,537 spaces', ' ' * 65537, ('too-long', 65536, 1)),
    Input('a script of 65,536 bytes', f'{HEAD}print 7;' + ' ' * 65513 + '\n---\nlocal 0\n', None, 'ok 1\n'),
    Input('64 brackets', f'{HEAD}print ' + '(' * 64 + '1' + ')' * 64 + ';'),
    Input('65 brackets', f'{HEAD}print ' + '(' * 65 + '1' + ')' * 65 + ';', ('too-deep', 84, 1)),
    Input('65 signs', f'{HEAD}print ' + '-' * 65 + '1;', ('too-deep', 84, 1)),
    Input('64 signs in an index', f'{HEAD}var a[2];print a[' + '-' * 64 + '1];', ('too-deep', 94, 1)),
    Input('64 signs in the index of a target, and 64 in the value', f'{HEAD}var a[2];a[' + '-' * 64 + '1]=' + '-' * 64 + '1;'),
    Input('no cell behind 1,024', f'{HEAD}var a[1024];var e[0];'),
    Input('1,024 variables', HEAD + DECLARED),
    # 14 bytes of header; ten declarations of 7 bytes, 90 of 8, 900 of 9, 24 of 10; and `var `
    Input('1,025 variables', f'{HEAD}{DECLARED}var w;', ('too-many', 9148, 1)))

# As many steps as there may be, one more, and one taken back and again.
FULL = Input('1,000,000 steps', 'mpd 1; ranks 1; while 1 { }\n---\n' + 'local 0\n' * 1000001 + 'wake 0\nback\nlocal 0\n', None,
             ''.join(f'ok {depth}\n' for depth in range(1, 1000001))
             + 'refused full\nrefused not-enabled\nok 999999\nok 1000000\n')


def value_input(expression, value):
    """That an expression prints its value."""
    return Input(expression, f'{HEAD}print {expression};\n---\nlocal 0\nshow\n', None,
                 f'ok 1\ndepth 1 of 1\nrank 0 ended\nvars\nhandles\nout {value}\noutcome done\nend\n')


def trap_input(declared, handles, statement, trap, head=HEAD):
    """That a statement behind declarations of three cells and such handles traps, and that this is taken back."""
    empty = f'vars 0 0 0\nhandles{handles}\nout\n'
    return Input(statement, f'{head}{declared}{statement}\n---\nlocal 0\nshow\nback\nshow\n', None,
                 f'ok 1\ndepth 1 of 1\nrank 0 trapped {trap}\n{empty}outcome trap 0 {trap}\nend\n'
                 f'ok 0\ndepth 0 of 1\nrank 0 at 1\n{empty}end\n')


def all_inputs():
    """All rows but the longest, each as an input."""
    yield from INPUTS + LIMITS
    yield from [value_input(*row) for row in VALUES]
    yield from [trap_input('var x;var a[2];var e[0];', '', *row) for row in TRAPS]
    yield from [trap_input('var x;var a[2];req h;req g[2];req e[0];', ' - - -', *row) for row in HANDLE_TRAPS]
    yield from [Input(text, HEAD + text, (fault, place, 1)) for text, fault, place in FAULTS]


def wanted_result(row):
    """What the program must give for an input."""
    if row.refused is None:
        return Result(row.written.encode(), b'', 0)
    fault, place, line = row.refused
    message = f'mpdbg: script refused {NUMBERS[fault]} {fault} at {place} line {line}\n'
    return Result(row.written.encode(), message.encode(), 2)
