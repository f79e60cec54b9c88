"""Scripts for compare/runs/mpi.py whose ends were worked out by hand, from docs/LANGUAGE.md and MPI 4.0."""

from typing import NamedTuple

from libraries.ends_of_runs import ENDED, HUNG, TRAPPED, End


class Row(NamedTuple):
    """A script, its ends under a library whose standard sends are buffered or not, and those where all sends are synchronous."""
    name: str
    text: bytes
    ends: list
    synchronous: list


def row(name, text, *ends, synchronous=None):
    return Row(name, text.encode(), list(ends), list(ends) if synchronous is None else synchronous)


def ended(*printed):
    """All ranks end, and have printed this."""
    return End(ENDED, printed, tuple(range(len(printed))), ())


def hung(ranks, *printed):
    """These ranks end, and the others wait for ever."""
    return End(HUNG, printed, ranks, ())


def trapped(rank, name, line, *printed):
    """One rank traps, and none of the others does."""
    return End(TRAPPED, printed, tuple(other for other in range(len(printed)) if other != rank), ((rank, name, line),))


ROWS = (
    # Rank 1 sends 5 with tag 2, rank 2 sends 6 with tag 3; value, source and tag are the digits.
    row('any source and any tag', '''mpd 1; ranks 3; var x; var s; var t;
        if rank == 0 {
          recv x from any tag any status s t; print x * 100 + s * 10 + t;
          recv x from any tag any status s t; print x * 100 + s * 10 + t;
        } else { send rank + 4 to 0 tag rank + 1; }''', ended((512, 623), (), ()), ended((623, 512), (), ())),
    row('tags tell messages apart', '''mpd 1; ranks 2; var x; req g; req h;
        if rank == 0 { isend g 5 to 1 tag 1; isend h 6 to 1 tag 0; wait g; wait h; }
        else { recv x from 0 tag 0; print x; recv x from 0 tag 1; print x; }''', ended((), (6, 5))),
    row('messages of one tag keep their order', '''mpd 1; ranks 2; var x; req g; req h;
        if rank == 0 { isend g 1 to 1 tag 0; isend h 2 to 1 tag 0; wait h; wait g; }
        else { recv x from any tag any; print x; recv x from 0 tag 0; print x; }''', ended((), (1, 2))),
    row('a barrier that one rank skips', 'mpd 1; ranks 2; if rank == 0 { barrier; } print rank;', hung((1,), (), (1,))),
    row('a wait brings the value', '''mpd 1; ranks 2; var x; req r;
        if rank == 0 { irecv r x from 1 tag 0; wait r; print x; } else { send 7 to 0 tag 0; }''', ended((7,), ())),
    row('no value before the wait', '''mpd 1; ranks 2; var x; req r;
        if rank == 0 { irecv r x from 1 tag 0; barrier; print x; wait r; print x; wait r; print x; } else { send 7 to 0 tag 0; barrier; }''',
        ended((0, 7, 7), ())),
    row('a request that is lost', '''mpd 1; ranks 2; var x; var y; req r;
        if rank == 0 { irecv r x from 1 tag 0; irecv r y from 1 tag 1; wait r; print x; print y; } else { send 30 to 0 tag 0; send 12 to 0 tag 1; }''',
        ended((0, 12), ())),
    row('sends whose handle is lost', '''mpd 1; ranks 2; var x; var i; req r;
        if rank == 0 { while i < 3 { isend r i to 1 tag 0; i = i + 1; } wait r; }
        else { while i < 3 { recv x from 0 tag 0; print x; i = i + 1; } }''', ended((), (0, 1, 2))),
    # The message with tag 1 comes first, so it is the request of index 1 that the first wait goes on by.
    row('a wait for any', '''mpd 2; ranks 1; var x; var i; req h; req r[2]; req none[0];
        irecv r[0] x from 0 tag 0; irecv r[1] x from 0 tag 1;
        isend h 8 to 0 tag 1; waitany r to i; print i; print x; wait h;
        isend h 9 to 0 tag 0; waitany r to i; print i; print x; waitany h to i; print i;
        waitany r to i; print i; i = 5; waitany none to i; print i;''', ended((1, 8, 0, 9, 0, -1, -1))),
    row('the index of a wait for any stays', '''mpd 2; ranks 1; var x; req h; req r[2];
        irecv r[1] x from any tag any; isend h 8 to rank tag 3; waitany r to x; print x;''', ended((1,))),
    row('the tag of a status stays', '''mpd 1; ranks 2; var x; req r;
        if rank { send 8 to 0 tag 3; send 8 to 0 tag 4; }
        else { recv x from any tag any status x x; print x; irecv r x from 1 tag any status x x; wait r; print x; }''', ended((3, 4), ())),
    row('a synchronous send to oneself', 'mpd 1; ranks 1; print 1; ssend 1 to 0 tag 0; print 2;', hung((), (1,))),
    row('a synchronous send that nobody receives', 'mpd 1; ranks 2; if rank == 0 { print 1; ssend 1 to 1 tag 0; print 2; }', hung((1,), (1,), ())),
    row('a wait for a synchronous send that nobody receives', '''mpd 1; ranks 2; req r;
        if rank { issend r 1 to 0 tag 0; print 1; wait r; print 2; }''', hung((0,), (), (1,))),
    row('sends head to head', '''mpd 1; ranks 2; var x;
        send rank + 10 to 1 - rank tag 0; recv x from 1 - rank tag 0; print x;''', ended((11,), (10,)), hung((), (), ()), synchronous=[hung((), (), ())]),
    row('arithmetic', '''mpd 1; ranks 1; var x; var y; x = 7; y = 10;
        print x - y; print x + y * 2; print -x / 2; print -x % 2; print x % -2; print x / y; print -(-9223372036854775807 - 1 + 1);''',
        ended((-3, 27, -3, -1, 1, 0, 9223372036854775807))),
    row('comparisons', '''mpd 1; ranks 1; var x; var y; x = 7; y = 10;
        print x == y; print x != y; print x < y; print x <= 7; print x > y; print x >= y; print (x == 7) + (y == 10); print 7 < x; print x == x;
        print !x; print !!x; print !(x == 8) && y; print 1 || 1 / 0; print 0 && 1 / 0; print rank == 0; print size < 1;''',
        ended((0, 1, 1, 1, 0, 0, 2, 0, 1, 0, 1, 1, 1, 0, 1, 0))),
    row('names that C has', '''mpd 1; ranks 1; var int; var main; var MPI_Send; var a[2]; var printf; var line; var __FILE_; var held; req for;
        int = 1; main = int + 1; MPI_Send = main + 1; a[int] = MPI_Send + 1; printf = a[int] + 1; line = printf + 1; __FILE_ = line + 1;
        isend for __FILE_ + 1 to rank tag 0; recv held from rank tag 0; wait for; print held;''', ended((8,)), synchronous=[ended((8,))]),
    row('blocks', '''mpd 1; ranks 1; var i; var s; var a[3];
        while i < 3 { a[i] = i * i; if i % 2 == 1 { s = s + 10; } else { if i { s = s + 100; } else { s = s + 1; } } i = i + 1; }
        if s { } else { print 0; } print s; print a[a[1] + 1];''', ended((111, 4))),
    row('the left operand is first', 'mpd 1; ranks 1; var a[2];\nprint 5;\nprint 1 / 0 + a[2];', trapped(0, 'zero-divisor', 3, (5,))),
    row('the right operand is second', 'mpd 1; ranks 1; var a[2];\nprint a[2] == 1 % 0;', trapped(0, 'bad-index', 2, ())),
    row('the index comes before the value', 'mpd 1; ranks 1; var a[2];\n\na[0 - 1] = 1 / 0;', trapped(0, 'bad-index', 3, ())),
    row('the sum is too large', 'mpd 1; ranks 1; var x; x = 9223372036854775807;\nx = x + 1;', trapped(0, 'overflow', 2, ())),
    row('the product is too small', 'mpd 1; ranks 1; var x; x = -9223372036854775807;\nx = x * 2;', trapped(0, 'overflow', 2, ())),
    row('the smallest number', 'mpd 1; ranks 1; var x; x = -9223372036854775807 - 1;\nprint x;\nprint x % -1;',
        trapped(0, 'overflow', 3, (-9223372036854775808,))),
    row('its negation', 'mpd 1; ranks 1; var x; x = -9223372036854775807 - 1;\nprint -x;', trapped(0, 'overflow', 2, ())),
    row('the rank comes before the tag', 'mpd 1; ranks 2;\nif rank == 1 {\n send 1 to size tag 32768; }', trapped(1, 'bad-rank', 3, (), ())),
    row('a source that is none', 'mpd 1; ranks 1; var x; recv x from -1 tag 0;', trapped(0, 'bad-rank', 1, ())),
    row('a tag that is too large', 'mpd 1; ranks 1; var x; req r; isend r 1 to 0 tag 32767;\nrecv x from 0 tag 32767; print x; recv x from 0 tag 32768;',
        trapped(0, 'bad-tag', 2, (1,))),
    row('a place of a status that is none', 'mpd 1; ranks 1; var a[2]; req r; irecv r a[0] from any tag any status a[1] a[2];',
        trapped(0, 'bad-index', 1, ())),
    row('an assertion', 'mpd 1; ranks 2; var x;\nassert rank < size;\nwhile 1 { x = x + 1;\nassert rank || x < 3; if rank { barrier; } }',
        End(TRAPPED, ((), ()), (), ((0, 'assert', 4),))),
)
