"""Rows of scripts in C, worked out by hand from docs/FORMATS.md, "A script in C": the constant parts are read from that page."""

import re
from typing import NamedTuple

from places import TOP

PAGE = f'{TOP}/docs/FORMATS.md'
SECTION = re.compile(r'^## A script in C\n(.*?)^## ', re.M | re.S)
BLOCK = re.compile(r'^```c\n(.*?)^```\n', re.M | re.S)
NAMES = re.compile(r'an empty line and this one:\n`([^`]+)`')


class Page(NamedTuple):
    """The constant parts that the page shows, and its example, which is one of statements."""
    head: str
    requests: str
    main: str
    end: str
    example: str
    names: str


def page():
    with open(PAGE, encoding='utf-8') as file:
        text = SECTION.search(file.read())[1]
    return Page(*BLOCK.findall(text), NAMES.search(text)[1])


class Row(NamedTuple):
    """A script, what its names become, and its statements, both as lines, and whether it has requests."""
    script: str
    names: tuple
    statements: tuple
    requests: bool = False

    def text(self):
        """The bytes of the script."""
        return self.script.encode()

    def wanted(self):
        """What must be written of it."""
        shown = page()
        number = re.search(r'ranks 0*(\d+)', self.script)[1]
        ranks = {'1': '1 process'}.get(number, f'{number} processes')

        def filled(text):
            return text.replace('{number}', number).replace('{ranks}', ranks)

        names = ['', shown.names, *self.names] if self.names else []
        return ''.join([filled(shown.head), shown.requests if self.requests else '', *(f'{line}\n' for line in names), filled(shown.main),
                        *(f'    {line}\n' for line in self.statements), shown.end]).encode()


def printed(expression, text, declared='var x; var y; var a[3]; ', names=('int64_t my_x;', 'int64_t my_y;', 'int64_t my_a[3];')):
    """A row of one expression."""
    return Row(f'mpd 1; ranks 2; {declared}\nprint {expression};', names, ('line = 2;', f'print({text});'))


def block(*lines):
    return ('{', *(f'    {line}' for line in lines), '}')


VALUE, TO, TAG = 'const int64_t value = 7;', 'const int to = as_rank(1);', 'const int tag = as_tag(0);'
SOURCE = 'const int source = as_rank(1);'
HANDLE = 'struct call **const handle = &my_h;'
CALL = 'struct call *const call = new_call();'
OF_CALL = 'tag, MPI_COMM_WORLD, &call->request);'
H_AND_X = ('struct call *my_h;', 'int64_t my_x;')

EXPRESSIONS = (
    printed('7', '7'), printed('007', '7'), printed('9223372036854775807', '9223372036854775807'), printed('rank', 'rank'),
    printed('size', 'size'), printed('x', 'my_x'), printed('a[1]', 'my_a[within(1, 3)]'),
    printed('a[a[x] + 1]', 'my_a[within(ADD(my_a[within(my_x, 3)], 1), 3)]'),
    printed('-1', 'negate(1)'), printed('--x', 'negate(negate(my_x))'), printed('!x', '!my_x'), printed('!!x', '!!my_x'),
    printed('!-x', '!negate(my_x)'), printed('-!x', 'negate(!my_x)'), printed('!(x == 1)', '!(my_x == 1)'), printed('!(x == y)', '!EQUAL(my_x, my_y)'),
    printed('!(x && y)', '!(my_x && my_y)'), printed('!(x + y)', '!ADD(my_x, my_y)'), printed('!a[0]', '!my_a[within(0, 3)]'),
    printed('-(x == 1)', 'negate(my_x == 1)'),
    printed('x + y', 'ADD(my_x, my_y)'), printed('x - y', 'SUBTRACT(my_x, my_y)'), printed('x * y', 'MULTIPLY(my_x, my_y)'),
    printed('x / y', 'DIVIDE(my_x, my_y)'), printed('x % y', 'REMAINDER(my_x, my_y)'), printed('1 + 2', 'ADD(1, 2)'),
    printed('x - y - 1', 'SUBTRACT(SUBTRACT(my_x, my_y), 1)'), printed('x - (y - 1)', 'SUBTRACT(my_x, SUBTRACT(my_y, 1))'),
    printed('x + y * 2', 'ADD(my_x, MULTIPLY(my_y, 2))'),
    printed('x == y', 'EQUAL(my_x, my_y)'), printed('x != y', 'DIFFER(my_x, my_y)'), printed('x < y', 'LESS(my_x, my_y)'),
    printed('x <= y', 'AT_MOST(my_x, my_y)'), printed('x > y', 'GREATER(my_x, my_y)'), printed('x >= y', 'AT_LEAST(my_x, my_y)'),
    printed('x == 1', 'my_x == 1'), printed('x != 1', 'my_x != 1'), printed('x < 1', 'my_x < 1'), printed('x <= 1', 'my_x <= 1'),
    printed('x > 1', 'my_x > 1'), printed('x >= 1', 'my_x >= 1'), printed('rank == 0', 'rank == 0'), printed('size > 007', 'size > 7'),
    printed('(x) == (1)', 'my_x == 1'), printed('1 == x', 'EQUAL(1, my_x)'), printed('1 == 1', 'EQUAL(1, 1)'), printed('rank == size', 'EQUAL(rank, size)'),
    printed('rank == -1', 'EQUAL(rank, negate(1))'), printed('a[0] == 1', 'EQUAL(my_a[within(0, 3)], 1)'), printed('x + 1 == 1', 'EQUAL(ADD(my_x, 1), 1)'),
    printed('x == rank', 'EQUAL(my_x, rank)'), printed('(x == 1) == 1', 'EQUAL(my_x == 1, 1)'), printed('(x == 1) + (y == 2)', 'ADD(my_x == 1, my_y == 2)'),
    printed('x && y', 'my_x && my_y'), printed('x || y', 'my_x || my_y'), printed('x == 1 && y', '(my_x == 1) && my_y'),
    printed('x && y == 1', 'my_x && (my_y == 1)'), printed('x && y && rank', '(my_x && my_y) && rank'), printed('x && (y && rank)', 'my_x && (my_y && rank)'),
    printed('x && y || rank', '(my_x && my_y) || rank'), printed('x && (y || rank)', 'my_x && (my_y || rank)'),
    printed('x == y && !x', 'EQUAL(my_x, my_y) && !my_x'), printed('a[x && y]', 'my_a[within(my_x && my_y, 3)]'), printed('(1 || x) + 1', 'ADD(1 || my_x, 1)'),
)

STATEMENTS = (
    Row('mpd 1; ranks 1;', (), ()),
    Row('mpd 2;\nranks 016;\nbarrier;', (), ('line = 3;', 'MPI_Barrier(MPI_COMM_WORLD);')),
    Row('mpd 1; ranks 1; var int; req r[3]; var a[0]; req h; req n[0];', (
        'int64_t my_int;', 'struct call *my_r[3];', 'int64_t my_a[1];', 'struct call *my_h;', 'struct call *my_n[1];'), (), True),
    Row('mpd 1; ranks 2; var x; var a[2];\nx = 1; a[x] = x;\n\nassert x;', ('int64_t my_x;', 'int64_t my_a[2];'), (
        'line = 2;', 'my_x = 1;', 'line = 2;', *block('int64_t *const place = &my_a[within(my_x, 2)];', '*place = my_x;'),
        'line = 4;', 'must_hold(my_x);')),
    Row('mpd 1; ranks 2;\nif rank == 0 { } else {\nprint 1; }\nif 1 { print 2; } else { }\nif 1 { }', (), (
        'line = 2;', 'if (rank == 0) {', '} else {', '    line = 3;', '    print(1);', '}',
        'line = 4;', 'if (1) {', '    line = 4;', '    print(2);', '}', 'line = 5;', 'if (1) {', '}')),
    Row('mpd 1; ranks 2; var x;\nwhile x < 2 { x = x + 1;\nwhile x { } }', ('int64_t my_x;',), (
        'while (line = 2, my_x < 2) {', '    line = 2;', '    my_x = ADD(my_x, 1);', '    while (line = 3, my_x) {', '    }', '}')),
    Row('mpd 1; ranks 2;\nsend 7 to 1 tag 0;', (), ('line = 2;', *block(VALUE, TO, TAG, 'MPI_Send(&value, 1, MPI_INT64_T, to, tag, MPI_COMM_WORLD);'))),
    Row('mpd 1; ranks 2;\nif 1 {\nssend 7 to 1 tag 0; }', (), ('line = 2;', 'if (1) {', '    line = 3;', *(
        f'    {line}' for line in block(VALUE, TO, TAG, 'MPI_Ssend(&value, 1, MPI_INT64_T, to, tag, MPI_COMM_WORLD);')), '}')),
    Row('mpd 1; ranks 2; req h; var x;\nisend h 7 to 1 tag 0;', H_AND_X, ('line = 2;', *block(
        HANDLE, CALL, 'call->value = 7;', TO, TAG, f'MPI_Isend(&call->value, 1, MPI_INT64_T, to, {OF_CALL}', '*handle = call;')), True),
    Row('mpd 1; ranks 2; req h[2]; var x;\nissend h[x] 7 to 1 tag 0;', ('struct call *my_h[2];', 'int64_t my_x;'), ('line = 2;', *block(
        'struct call **const handle = &my_h[within(my_x, 2)];', CALL, 'call->value = 7;', TO, TAG, f'MPI_Issend(&call->value, 1, MPI_INT64_T, to, {OF_CALL}',
        '*handle = call;')), True),
    Row('mpd 1; ranks 2; var x;\nrecv x from 1 tag 0;', ('int64_t my_x;',), ('line = 2;', *block(
        'int64_t *const place = &my_x;', SOURCE, TAG, 'MPI_Recv(place, 1, MPI_INT64_T, source, tag, MPI_COMM_WORLD, MPI_STATUS_IGNORE);'))),
    Row('mpd 1; ranks 2; var x; var a[2];\nrecv a[1] from any tag 0 status x a[0];', ('int64_t my_x;', 'int64_t my_a[2];'), ('line = 2;', *block(
        'int64_t *const place = &my_a[within(1, 2)];', 'const int source = MPI_ANY_SOURCE;', TAG, 'int64_t *const source_place = &my_x;',
        'int64_t *const tag_place = &my_a[within(0, 2)];', 'MPI_Status status;',
        'MPI_Recv(place, 1, MPI_INT64_T, source, tag, MPI_COMM_WORLD, &status);', '*source_place = status.MPI_SOURCE;',
        '*tag_place = status.MPI_TAG;'))),
    Row('mpd 1; ranks 2; req h; var x;\nirecv h x from 1 tag any;', H_AND_X, ('line = 2;', *block(
        HANDLE, CALL, 'call->place = &my_x;', SOURCE, 'const int tag = MPI_ANY_TAG;', f'MPI_Irecv(&call->value, 1, MPI_INT64_T, source, {OF_CALL}',
        '*handle = call;')), True),
    Row('mpd 1; ranks 2; req h; var x; var s; var t;\nirecv h x from any tag any status s t;', (*H_AND_X, 'int64_t my_s;', 'int64_t my_t;'), (
        'line = 2;', *block(
            HANDLE, CALL, 'call->place = &my_x;', 'const int source = MPI_ANY_SOURCE;', 'const int tag = MPI_ANY_TAG;', 'call->source_place = &my_s;',
            'call->tag_place = &my_t;', f'MPI_Irecv(&call->value, 1, MPI_INT64_T, source, {OF_CALL}', '*handle = call;')), True),
    Row('mpd 1; ranks 2; req h; req r[2];\nwait h; wait r[1];', ('struct call *my_h;', 'struct call *my_r[2];'), (
        'line = 2;', 'wait_for(&my_h);', 'line = 2;', 'wait_for(&my_r[within(1, 2)]);'), True),
    Row('mpd 2; ranks 2; req h; req r[2]; req n[0]; var a[1];\nwaitany h to a[0];\nwaitany r to a[0];\nwaitany n to a[0];', (
        'struct call *my_h;', 'struct call *my_r[2];', 'struct call *my_n[1];', 'int64_t my_a[1];'), tuple(
            line for number, handles in ((2, '&my_h, 1'), (3, 'my_r, 2'), (4, 'my_n, 0')) for line in (f'line = {number};', *block(
                'int64_t *const place = &my_a[within(0, 1)];', f'*place = wait_for_any({handles});'))), True),
    # The example of the page.
    Row('mpd 1;\nranks 3;\nvar x;\nif rank == 0 {\n  send x + 1 to size - 1 tag 0;\n}', ('int64_t my_x;',), tuple(
        line[4:] for line in page().example.splitlines())),
)

ROWS = EXPRESSIONS + STATEMENTS
