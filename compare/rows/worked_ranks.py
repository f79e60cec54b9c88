"""Rows of scripts for another number of ranks, worked out by hand from docs/LANGUAGE.md, "Another number of ranks", and docs/FORMATS.md."""

from typing import NamedTuple

# Texts, a number of ranks, and the text with it.
TEXTS = (
    ('mpd 1; ranks 3; barrier;', 4, 'mpd 1; ranks 4; barrier;'),
    ('mpd 1; ranks 3; print 3;', 16, 'mpd 1; ranks 16; print 3;'),
    ('mpd 2; ranks 12; print 12;', 1, 'mpd 2; ranks 1; print 12;'),
    ('mpd 01;ranks 003;', 5, 'mpd 01;ranks 5;'),
    ('# 5 ranks 6\nmpd 1; # 7\nranks # 8;\n2; var x;', 3, '# 5 ranks 6\nmpd 1; # 7\nranks # 8;\n3; var x;'),
    ('mpd\n1\n;\nranks\n2;', 10, 'mpd\n1\n;\nranks\n10;'),
    ('mpd 1;\nranks 2;\nprint size;\n', 3, 'mpd 1;\nranks 3;\nprint size;\n'), ('mpd 1;\nranks 1; # 2 of 4\nprint 1;\nprint 2;', 2, 'mpd 1;\nranks 2; # 2 of 4\nprint 1;\nprint 2;'),
    ('mpd 1; ranks2;', 9, 'mpd 1; ranks2;'), ('mpd 1;ranks 2#3\n;', 9, 'mpd 1;ranks 9#3\n;'),
    # refused as they stand, so nothing is put into them
    ('mpd 1; ranks 17;', 2, 'mpd 1; ranks 17;'), ('mpd 1; ranks 2; print', 3, 'mpd 1; ranks 2; print'), ('mpd 3; ranks 2;', 3, 'mpd 3; ranks 2;'))

# Words of several numbers of ranks, and the first and the last that each names.
WORDS = (('1', (1, 1)), ('16', (16, 16)), ('2-5', (2, 5)), ('1-16', (1, 16)), ('7-7', (7, 7)), ('002-000000016', (2, 16)), ('', None), ('0', None), ('17', None), ('x', None),
         ('+3', None), ('-3', None), ('3-', None), ('-', None), ('5-2', None), ('0-3', None), ('3-17', None), ('1-2-3', None), ('0000000001', None), ('3\n', None))
# What is answered of some numbers, each with its status, and what is said of all.
WELL = b'it never hangs or traps in rendezvous, whatever is taken first (1 run, 1 state)\n  ./mpdbg diagnose FILE --modes 4\n'
FOUR = b'it never hangs or traps in rendezvous, whatever is taken first (4 runs, 13\n        states)\n  ./mpdbg diagnose FILE --modes 4\n'
BOTH = b'it can hang in rendezvous: 4 of 24 runs\nit can trap in rendezvous: 20 of 24 runs\n\ndeadlock at line 3: 4 of 24 runs, one of them:\n\ntrap at line 4: 20 of 24 runs, one of them:\n'
CUT = b'no hang and no trap was found in 2 runs in rendezvous\nnot everything was tried: 1 of 2 runs was cut after 100000 steps\n'
FAILS = b'it always fails in buffered: it hangs in 4 of 24 runs and traps in 20\n  ./mpdbg diagnose FILE --modes 4\n\ndeadlock at line 3: 4 of 24 runs, one of them:\n'
MANY_HANG = (b'it can hang in rendezvous: 5 of more runs than can be counted\nit can trap in rendezvous: more runs than can be counted\n'
             b'it can end with calls left over: 7 of more runs than can be counted\n\ndeadlock at line 5: 5 of more runs than can be counted, one of them:\n')
LEFT = b'it never hangs or traps in rendezvous, whatever is taken first (3 runs, 5\n        states)\nit can end with calls left over: 2 of 3 runs\n\nleft over from line 3: 2 of 3 runs, one of them:\n'
DRAWN = (b'no hang and no trap was found in the first 7 runs in rendezvous\nit can end with calls left over: 2 of the first 7 runs\n'
         b'not everything was tried: there are more runs than these\n\nleft over from line 3: 2 of the first 7 runs, one of them:\n\ndrawn at random: 3 of 4096 runs hang\n'
         b'drawn at random: 1 of 4096 runs end with calls left over\n\ndeadlock at line 5: 3 of 4096 runs, one of them:\n')
NONE_DRAWN = (b'no hang and no trap was found in the first 7 runs in rendezvous\nnot everything was tried: there are more runs than these\n\n'
              b'drawn at random: none of 4096 runs hangs or traps\n  ./mpdbg check FILE --sample 65536 --group --explain\n')
SEVERAL = (
    (((2, WELL, 0), (3, b'it always hangs in rendezvous (1 run)\n  ./mpdbg diagnose FILE --modes 4\n\nmore\n', 1), (4, BOTH, 1), (5, b'it always traps in rendezvous (2 runs)\n', 1)),
     b'2 ranks: 1 run in rendezvous, none hangs or traps\n3 ranks: 1 run in rendezvous, 1 hang\n4 ranks: 24 runs in rendezvous, 4 hang, 20 trap\n'
     b'5 ranks: 2 runs in rendezvous, 2 trap\n\n  see 3\n', 1),
    (((1, FOUR, 0), (2, CUT, 4)), b'1 rank: 4 runs in rendezvous, none hangs or traps\n2 ranks: 2 runs in rendezvous, none hangs or traps, 1 cut\n', 4),
    (((5, LEFT, 0), (6, DRAWN, 1), (7, WELL, 0)),
     b'5 ranks: 3 runs in rendezvous, none hangs or traps, 2 with calls left over\n6 ranks: 7 runs and more in rendezvous, none hangs or traps, 2 with calls left\n'
     b'        over; drawn at random: 4096 runs, 3 hang, 1 with calls left over\n7 ranks: 1 run in rendezvous, none hangs or traps\n\n  see 6\n', 1),
    (((15, NONE_DRAWN, 4), (16, WELL, 0)),
     b'15 ranks: 7 runs and more in rendezvous, none hangs or traps; drawn at random:\n        4096 runs, none hangs or traps\n16 ranks: 1 run in rendezvous, none hangs or traps\n', 4))
# The same of modes.
MODES = (
    ((('rendezvous', WELL, 0), ('slots:1', CUT, 4), ('buffered', FAILS, 1)),
     b'rendezvous: 1 run, none hangs or traps\nslots:1: 2 runs, none hangs or traps, 1 cut\nbuffered: 24 runs, 4 hang, 20 trap\n\n  see buffered\n', 1),
    ((('rendezvous', BOTH, 1), ('slots:1', FAILS, 1), ('buffered', WELL, 0)),
     b'rendezvous: 24 runs, 4 hang, 20 trap\nslots:1: 24 runs, 4 hang, 20 trap\nbuffered: 1 run, none hangs or traps\n\n  see rendezvous\n', 1),
    ((('rendezvous', WELL, 0), ('slots:1', NONE_DRAWN, 4), ('slots:2', LEFT, 0), ('buffered', CUT, 4)),
     b'rendezvous: 1 run, none hangs or traps\nslots:1: 7 runs and more, none hangs or traps; drawn at random: 4096 runs, none\n        hangs or traps\n'
     b'slots:2: 3 runs, none hangs or traps, 2 with calls left over\nbuffered: 2 runs, none hangs or traps, 1 cut\n\n'
     b'no hang and no trap was found, but not everything was tried in slots:1, buffered\n  see slots:1\n', 4),
    ((('rendezvous', WELL, 0), ('slots:1', CUT, 4), ('slots:12', CUT, 4), ('buffered', WELL, 0)),
     b'rendezvous: 1 run, none hangs or traps\nslots:1: 2 runs, none hangs or traps, 1 cut\nslots:12: 2 runs, none hangs or traps, 1 cut\n'
     b'buffered: 1 run, none hangs or traps\n\nno hang and no trap was found, but not everything was tried in slots:1, slots:12\n  see slots:1\n', 4),
    ((('rendezvous', CUT, 4), ('buffered', CUT, 4)),
     b'rendezvous: 2 runs, none hangs or traps, 1 cut\nbuffered: 2 runs, none hangs or traps, 1 cut\n\n'
     b'no hang and no trap was found, but not everything was tried in rendezvous,\n        buffered\n  see rendezvous\n', 4),
    ((('rendezvous', WELL, 0), ('buffered', LEFT, 0)),
     b'rendezvous: 1 run, none hangs or traps\nbuffered: 3 runs, none hangs or traps, 2 with calls left over\n\nno run hangs or traps in any of these modes\ncalls can be left over in buffered\n  see buffered\n', 0),
    ((('rendezvous', MANY_HANG, 1),), b'rendezvous: more runs than can be counted, 5 hang, more than can be counted\n        trap, 7 with calls left over\n\n  see rendezvous\n', 1),
    ((('rendezvous', WELL, 0), ('buffered', LEFT, 1)),
     b'rendezvous: 1 run, none hangs or traps\nbuffered: 3 runs, none hangs or traps, 2 with calls left over\n\n  see buffered\n', 1))
# The modes that are tried up to so many slots.
UP_TO = ((0, ['rendezvous', 'buffered']), (2, ['rendezvous', 'slots:1', 'slots:2', 'buffered']))
HEADINGS = ((1, '1 rank: '), (2, '2 ranks: '), (16, '16 ranks: '))

# Each even rank sends to the next one, each odd rank receives: the last of an odd number of ranks sends to rank 0, which never receives.
RING = 'mpd 1;\nranks {};\nvar x;\nif rank % 2 == 0 {{ send 7 to (rank + 1) % size tag 0; }} else {{ recv x from rank - 1 tag 0; }}\n'
# Rank 0 sends to rank 2, which isn't there where there are two ranks.
TO_RANK_2 = 'mpd 1;\nranks {};\nvar x;\nif rank == 0 { send 1 to 2 tag 0; }\nif rank == 2 { recv x from 0 tag 0; }\n'.replace('{ ', '{{ ').replace(' }', ' }}')
REFUSED = 'mpd 1;\nranks {};\nprint\n'
# A receive that no message comes for, and a run that never ends.
LEFT_OVER = 'mpd 1;\nranks {};\nvar x;\nreq r;\nirecv r x from 0 tag 5;\n'
FOREVER = 'mpd 1;\nranks {};\nwhile 1 {{ }}\n'
# Both ranks send first, and then receive.
TURNED = 'mpd 1;\nranks {};\nvar x;\nsend 1 to 1 - rank tag 0;\nrecv x from 1 - rank tag 0;\n'
# Rank 2 sends behind a message of rank 1, which sends to rank 0 first: only where that send has a buffer both messages are there, and rank 0 hangs if
# it takes that of rank 2 first.
BUFFERED_HANGS = ('mpd 1;\nranks {};\nvar x;\nif rank == 0 {{ recv x from any tag 0; if x == 2 {{ recv x from 0 tag 9; }} recv x from any tag 0; }}\n'
                  'if rank == 1 {{ send 1 to 0 tag 0; send 0 to 2 tag 1; }}\nif rank == 2 {{ recv x from 1 tag 1; send 2 to 0 tag 0; }}\n')
# The number of ranks itself is told.
SIZES = 'mpd 1;\nranks {};\nprint size;\n'


class Row(NamedTuple):
    """A script, whose number is left open, the number that it has, words after `FILE`, standard input, and what is answered: standard output,
    standard error and status."""
    script: str
    own: int
    words: str
    output: str
    status: int = 0
    errors: str = ''
    data: str = ''


ROWS = (
    Row(RING, 2, 'check', 'leaf 0 [] done\nleaves 1 more no\n'),
    Row(RING, 2, 'check --ranks 2', 'leaf 0 [] done\nleaves 1 more no\n'),
    Row(RING, 2, 'check --ranks 3', 'leaf 0 [] deadlock 2.0\nleaves 1 more no\n', 1),
    Row(RING, 3, 'check --ranks=4', 'leaf 0 [] done\nleaves 1 more no\n'),
    Row(RING, 2, 'check --ranks 5 --witness', 'leaf 0 [] deadlock 4.0\nwitness 0: local 0, local 0, local 1, local 1, local 2, local 2, local 3, local 3, local 4, local 4, '
        'match 0.0 1.0, wake 0, wake 1, match 2.0 3.0, wake 2, wake 3\nleaves 1 more no\n', 1),
    Row(RING, 2, 'check --ranks 3 --mode buffered', 'leaf 0 [] leftovers 2.0\nleaves 1 more no\n'),
    Row(TO_RANK_2, 3, 'check', 'leaf 0 [] done\nleaves 1 more no\n'),
    Row(TO_RANK_2, 3, 'check --ranks 2', 'leaf 0 [] trap 0 bad-rank\nleaves 1 more no\n', 1),
    Row(TO_RANK_2, 3, 'check --ranks 1', 'leaf 0 [] trap 0 bad-rank\nleaves 1 more no\n', 1),
    Row(TO_RANK_2, 2, 'check --ranks 16', 'leaf 0 [] done\nleaves 1 more no\n'),
    Row(SIZES, 3, 'trace --ranks 1', 'ok 1\nrefused not-enabled\ndepth 1 of 1\nrank 0 ended\nvars\nhandles\nout 1\noutcome done\nend\n', data='local 0\nlocal 1\nshow\n'),
    Row(SIZES, 1, 'trace --ranks 2', 'ok 1\nok 2\ndepth 2 of 2\nrank 0 ended\nvars\nhandles\nout 2\nrank 1 ended\nvars\nhandles\nout 2\noutcome done\nend\n', data='local 0\nlocal 1\nshow\n'),
    Row(SIZES, 3, 'words --choices 0 --ranks 2', '', 2, 'mpdbg: bad choices at 0\n'),
    Row(SIZES, 3, "words --choices= --ranks 2", 'local 0\nlocal 1\n'),
    Row(REFUSED, 2, 'check --ranks 3', '', 2, 'mpdbg: script refused 4 expected at 22 line 4\n'),
    Row(REFUSED, 2, 'check --ranks 3 --mode fast', '', 2, 'mpdbg: bad mode\n'),
    Row(REFUSED, 17, 'check --ranks 3', '', 2, 'mpdbg: script refused 9 bad-ranks at 13 line 2\n'),
    # several numbers of ranks
    Row(RING, 2, 'diagnose --ranks 2-5', '2 ranks: 1 run in rendezvous, none hangs or traps\n3 ranks: 1 run in rendezvous, 1 hang\n'
        '4 ranks: 1 run in rendezvous, none hangs or traps\n5 ranks: 1 run in rendezvous, 1 hang\n\n  ./mpdbg diagnose FILE --ranks 3\n', 1),
    Row(RING, 7, 'diagnose --ranks 2-3 --mode slots:00000', '2 ranks: 1 run in slots:0, none hangs or traps\n3 ranks: 1 run in slots:0, 1 hang\n\n'
        '  ./mpdbg diagnose FILE --ranks 3 --mode slots:0\n', 1),
    # with three ranks the message to rank 0 is left over, and with four none is
    Row(RING, 7, 'diagnose --ranks 3-4 --mode buffered', '3 ranks: 1 run in buffered, none hangs or traps, 1 with calls left over\n'
        '4 ranks: 1 run in buffered, none hangs or traps\n'),
    Row(RING, 7, 'diagnose --ranks 3-4 --mode buffered --strict', '3 ranks: 1 run in buffered, none hangs or traps, 1 with calls left over\n'
        '4 ranks: 1 run in buffered, none hangs or traps\n\n  ./mpdbg diagnose FILE --ranks 3 --mode buffered --strict\n', 1),
    Row(TO_RANK_2, 3, 'diagnose --ranks=1-3', '1 rank: 1 run in rendezvous, 1 trap\n2 ranks: 1 run in rendezvous, 1 trap\n3 ranks: 1 run in rendezvous, none hangs or traps\n\n'
        '  ./mpdbg diagnose FILE --ranks 1\n', 1),
    Row(RING, 3, 'diagnose --ranks 2-2', 'it never hangs or traps in rendezvous, whatever is taken first (1 run, 1 state)\n  ./mpdbg diagnose FILE --ranks 2 --modes 4\n'),
    Row(RING, 3, 'diagnose --ranks 4 --mode buffered', 'it never hangs or traps in buffered, whatever is taken first (1 run, 1 state)\n  ./mpdbg diagnose FILE --ranks 4 --modes 4\n'),
    # several modes
    Row(TO_RANK_2, 3, 'diagnose --modes 0', 'rendezvous: 1 run, none hangs or traps\nbuffered: 1 run, none hangs or traps\n\nno run hangs or traps in any of these modes\n'),
    Row(TO_RANK_2, 3, 'diagnose --modes 1 --ranks 2', 'rendezvous: 1 run, 1 trap\nslots:1: 1 run, 1 trap\nbuffered: 1 run, 1 trap\n\n  ./mpdbg diagnose FILE --ranks 2\n', 1),
    # with three ranks rank 2 sends to rank 0, which never receives: it hangs but where the message has a buffer
    Row(RING, 2, 'diagnose --ranks 3 --modes 2', 'rendezvous: 1 run, 1 hang\nslots:1: 1 run, none hangs or traps, 1 with calls left over\n'
        'slots:2: 1 run, none hangs or traps, 1 with calls left over\nbuffered: 1 run, none hangs or traps, 1 with calls left over\n\n  ./mpdbg diagnose FILE --ranks 3\n', 1),
    Row(LEFT_OVER, 1, 'diagnose --modes=1', 'rendezvous: 1 run, none hangs or traps, 1 with calls left over\nslots:1: 1 run, none hangs or traps, 1 with calls left over\n'
        'buffered: 1 run, none hangs or traps, 1 with calls left over\n\nno run hangs or traps in any of these modes\n'
        'calls can be left over in rendezvous, slots:1, buffered\n  ./mpdbg diagnose FILE\n'),
    Row(LEFT_OVER, 1, 'diagnose --modes=1 --strict', 'rendezvous: 1 run, none hangs or traps, 1 with calls left over\nslots:1: 1 run, none hangs or traps, 1 with calls left over\n'
        'buffered: 1 run, none hangs or traps, 1 with calls left over\n\n  ./mpdbg diagnose FILE --strict\n', 1),
    # in a mode of slots it is a choice which of the two messages is matched first
    Row(TURNED, 2, 'diagnose --modes 2', 'rendezvous: 1 run, 1 hang\nslots:1: 2 runs, none hangs or traps\nslots:2: 2 runs, none hangs or traps\n'
        'buffered: 1 run, none hangs or traps\n\n  ./mpdbg diagnose FILE\n', 1),
    Row(BUFFERED_HANGS, 3, 'diagnose --modes 0', 'rendezvous: 1 run, none hangs or traps\nbuffered: 2 runs, 1 hang\n\n  ./mpdbg diagnose FILE --mode buffered\n', 1),
    Row(FOREVER, 1, 'diagnose --modes 0', 'rendezvous: 1 run, none hangs or traps, 1 cut\nbuffered: 1 run, none hangs or traps, 1 cut\n\n'
        'no hang and no trap was found, but not everything was tried in rendezvous,\n        buffered\n  ./mpdbg diagnose FILE\n', 4),
    Row(REFUSED, 2, 'diagnose --modes 1', '', 2, 'mpdbg: script refused 4 expected at 22 line 4\n'),
    Row(REFUSED, 2, 'diagnose --modes 1 --mode fast', '', 2, "mpdbg: --modes and --mode can't stand together\n"),
    Row(REFUSED, 2, 'diagnose --modes 1 --mode rendezvous --ranks x', '', 2, "mpdbg: --modes and --mode can't stand together\n"),
    Row(REFUSED, 2, 'diagnose --modes 1 --ranks 2-3', '', 2, "mpdbg: --modes and --ranks N-M can't stand together\n"),
    Row(REFUSED, 2, 'diagnose --modes 1 --ranks 3-2', '', 2, 'mpdbg: bad ranks\n'),
    Row(RING, 5, 'diagnose --modes 0 --ranks 2-2', 'rendezvous: 1 run, none hangs or traps\nbuffered: 1 run, none hangs or traps\n\nno run hangs or traps in any of these modes\n'),
    Row(REFUSED, 2, 'diagnose --ranks 2-3', '', 2, 'mpdbg: script refused 4 expected at 22 line 4\n'),
    Row(REFUSED, 2, 'diagnose --ranks 2-3 --mode fast', '', 2, 'mpdbg: bad mode\n'),
    *(Row(REFUSED, 2, f'diagnose --ranks={word} --mode fast', '', 2, 'mpdbg: bad ranks\n') for word in (
        '', '0', '17', 'x', '+3', '-3', '3-', '-', '5-2', '0-3', '3-17', '1-2-3', '0000000001', '1--2', '2-3x', '1.5')))
