"""Rows of compare/runs/refused_calls.py that are large or deep, and beginnings of scripts.

A body that answers want of memory from some size on is met by these where nothing is refused; of their requests only a few are, spread
over all.
"""

import glob
import itertools
import os

from model.debugger import BUFFERED
from places import EXAMPLES
from probe.call_given import Row, no_state
BYTES = 65_536
MOST_STATEMENTS = 4_096
FEW = 5

# The largest start; a leaf behind 4,003 steps; a choice of six candidates, and each of what is left; 15 candidates, and 16 ranks.
LARGEST = 'mpd 1; ranks 16; var a[1024]; req r[256];\nprint a[0];'
LONG = 'mpd 1; ranks 1; var x;\nwhile x < 2000 { x = x + 1; }\nrecv x from 0 tag 0;'
SIX = ('mpd 1; ranks 6; var x; var i;\n'
       'if rank == 0 { while i < 5 { recv x from any tag any; i = i + 1; } recv x from 1 tag 9; } else { send rank to 0 tag 0; }')
FIFTEEN = ('mpd 1; ranks 16; var x; req r[20];\n'
           'if rank == 0 { irecv r[0] x from any tag any; recv x from any tag 7; } else { isend r[rank] rank to 0 tag 0; }')
ENDLESS = 'mpd 1; ranks 1;\nwhile 1 { }'

HEAD = 'mpd 1; ranks 2; var x; req r;\n'
# A statement of each kind; blocks have one of their own inside.
STATEMENTS = {
    'assignments': ('x = x + 1;', 1), 'prints': ('print -x;', 1), 'assertions': ('assert x;', 1), 'sends': ('send 1 to 0 tag x;', 1),
    'synchronous sends': ('ssend 1 to 0 tag x;', 1), 'sends with handles': ('isend r x to 0 tag 1;', 1),
    'synchronous sends with handles': ('issend r x to 0 tag 1;', 1), 'receives': ('recv x from any tag any status x x;', 1),
    'receives with handles': ('irecv r x from 1 tag any;', 1), 'waits': ('wait r;', 1), 'barriers': ('barrier;', 1),
    'branches': ('if x { x = 1; }', 2),
    'branches with an else': ('if x { } else { x = 1; }', 2), 'loops': ('while x { x = 0; }', 2)}


def filled(statement, count):
    """A script of exactly 65,536 bytes, of as many of these statements as it can have, spread over all of it."""
    room = BYTES - len(HEAD)
    many = min(room // len(statement), MOST_STATEMENTS // count)
    width = room // many
    return (HEAD + statement.ljust(width) * many).ljust(BYTES)


def nested(depth, brackets):
    """A loop in a loop, so deep, with so many brackets in the innermost condition, which is where 100 steps end."""
    heads = 'while 1 { ' * (depth - 1)
    inner = 'while ' + '(' * brackets + '1' + ')' * brackets + ' { x = x + 1; }'
    return f'mpd 1; ranks 1; var x;\n{heads}{inner}{" }" * (depth - 1)}'


def scripts():
    for what, (statement, count) in STATEMENTS.items():
        text = filled(statement, count)
        assert len(text) == BYTES
        for call in ('mpd_script::read', 'mpd_script::print', 'mpd_c::print_c', 'mpd_code::lower', 'mpd_trace::read_script', 'mpd_trace::read_code'):
            yield Row(call, text, most=2, what=f'65,536 bytes of {what}')
    deepest = nested(64, 64)
    for call in ('mpd_script::read', 'mpd_script::print', 'mpd_c::print_c', 'mpd_code::lower'):
        yield Row(call, deepest, what='64 loops and 64 brackets', is_deep=True)
    yield Row('mpd_policy::run', deepest, (), '100', is_deep=True)
    yield Row('read_up_to', ' ' * BYTES, argument=str(BYTES), most=FEW, what='65,536 bytes')
    for path in sorted(glob.glob(f'{EXAMPLES}/*.mpd')):
        with open(path, encoding='ascii') as file:
            yield Row('mpd_script::read of all beginnings', file.read(), most=0, what=os.path.basename(path))


def starts():
    for call in ('Core::start', 'Debugger::start', 'Session::start'):
        yield Row(call, LARGEST, what='16 ranks with all cells and handles')
    yield Row('TraceDesk::start', LARGEST, by_hand=no_state('started\n'), what='16 ranks with all cells and handles')
    blocked = tuple(f'local {rank}' for rank in range(16))
    for call in ('Core::outcome', 'Core::ending', 'print_outcome', 'decide'):
        yield Row(call, 'mpd 1; ranks 16; var x;\nrecv x from 0 tag 0;', blocked, what='16 blocked ranks')
    steps = ('local 0',) * 9000
    for call in ('Debugger::copy', 'Core::copy', 'Core::keep_room', 'Debugger::keep_room'):
        yield Row(call, ENDLESS, steps, most=FEW, what='9,000 steps')
    yield Row('Core::copy', LARGEST, tuple(f'local {rank}' for rank in range(16)), what='16 ranks with all cells and handles')
    yield Row('mpd_trace::show', LARGEST, tuple(f'local {rank}' for rank in range(16)), most=FEW, what='16 ranks with all cells and handles')
    yield Row('mpd_policy::run', ENDLESS, ('local 0', 'back'), '20000', most=FEW)
    for call in ('mpd_trail::follow', 'mpd_trail::replay'):
        yield Row(call, ENDLESS, ('local 0', 'back', 'redo') * 2000, most=FEW, what='6,000 commands')


# One receiver of any source, and seven senders of one message.
SEVEN = ('mpd 1; ranks 8; var x; var i;\n'
         'if rank == 0 { while i < 7 { recv x from any tag any; i = i + 1; } } else { send rank to 0 tag 0; }')


def all_orders():
    """Its report: whoever is left may come next, and each order of the seven is a leaf."""
    orders = itertools.product(*(range(left) for left in range(7, 0, -1)))
    leaves = ''.join(f'leaf {number} [{" ".join(map(str, order))}] done\n' for number, order in enumerate(orders))
    return no_state(leaves + 'leaves 5040 more no\n\n')


def to_the_end():
    """The steps of the long script, to its deadlock."""
    return ('local 0',) * 4002


def reports():
    text = 'leaf 0 [] deadlock 0.0\nwitness 0: ' + ', '.join(to_the_end()) + '\n'
    for call in ('verify', 'verify_end', 'verify_from', 'judge'):
        yield Row(call, LONG, (), text, most=FEW, what='4,002 steps')
    for call in ('read_witness', 'read_report_witness'):
        yield Row(call, argument=text, most=FEW, what='4,002 steps')
    for call, argument in (('explore', '10 10000 witnesses'), ('witness_of', '10 10000 0'), ('print_report', '10 10000 witnesses')):
        yield Row(call, LONG, (), argument, most=FEW, what='4,002 steps')
    for call, argument in (('explore', '200 1000 witnesses'), ('print_report', '200 1000 witnesses'), ('push_leaf_text', '200 1000'),
                           ('explore_by_pieces', '2 200 1000 witnesses'), ('split', '3 1000'), ('explore_at', '4 200 1000'),
                           ('check_piece', '19 2 200 1000'), ('count_pieces', '0 3 200 1000')):
        yield Row(call, SIX, (), argument, most=FEW, what=f'120 leaves {argument}')
    for workers in (1, 2, 16):
        yield Row('mpd_pool::print_report', SEVEN, (), f'{workers} 6000 1000', by_hand=all_orders(), most=20, what=f'5,040 leaves by {workers} workers')
        yield Row('mpd_pool::check_watched', SIX, (), f'{workers} 2 200 1000', most=20, what=f'120 leaves by {workers} workers')
        yield Row('mpd_check::check_search', SIX, (), f'{workers} 2 200 1000 witnesses', most=20, what=f'120 leaves by {workers} workers')


def sessions():
    """Replies with long lists, of 16 ranks and 64 breakpoints."""
    stops = tuple('{"cmd":"break","kind":"line","line":%d}' % line for line in range(1, 65))
    run = ('{"cmd":"run","max":1000}',)
    asked = ((run, '{"cmd":"enabled"}'), (run, '{"cmd":"state"}'), (run, '{"cmd":"why","rank":0,"call":0}'), (run, '{"cmd":"calls","rank":0}'),
             (run, '{"cmd":"vars","rank":0}'), (run, '{"cmd":"all"}'), (run, '{"cmd":"decision"}'), (run, '{"cmd":"steps","from":0,"count":1000}'),
             (run, '{"cmd":"lines","rank":0}'), ((), '{"cmd":"script"}'), (stops, '{"cmd":"breaks"}'), ((), '{"cmd":"explore","runs":15,"fuel":1000}'))
    for lines, request in asked:
        for call in ('Session::answer', 'mpd_wire::print', 'Reply::copy', 'Book::take', 'Shared::call'):
            yield Row(call, FIFTEEN, lines, request, BUFFERED, most=FEW, what=f'of 16 ranks {request}')
    steps = tuple(f'local {rank}' for rank in range(16) for _ in range(2))
    for call, argument in (('Core::enabled', ''), ('mpd_trace::listed', ''), ('decide', ''), ('Board::push_matches', 'all'), ('Board::why', '0.0'),
                           ('Board::copy', '')):
        yield Row(call, FIFTEEN, (*steps, 'local 0'), argument, most=FEW, what=f'of 16 ranks {argument}')
    yield Row('mpd_wire::parse', ENDLESS, (), '{"cmd":' + '[' * 100 + ']' * 100 + ' ' * 3889 + '}', most=FEW, what='4,096 bytes')


def sizes():
    """All of them."""
    for part in (scripts, starts, reports, sessions):
        yield from part()
