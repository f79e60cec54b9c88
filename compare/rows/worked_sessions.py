"""Worked dialogues of a session: requests, a line each, and the reply to each; compare/runs/worked.py compares the model's.

Each was worked out by hand from the rules (docs/SESSIONS.md). A script's first line is line 1. compare/runs/sessions.py asks a program
the same, and what takes a million steps too, which the model isn't asked.
"""

import re
from typing import NamedTuple, Optional
from unittest import mock

from model import debugger
from model.debugger import BUFFERED, RENDEZVOUS, Result
from model.language import read_script
from model.session import NAMES, Refused, Session, parse, replies, serve, serve_packets
from rows.examples import example_names, open_example
from rows.worked_runs import FIRST, HEAD_TO_HEAD, ON_AND_ON, ONE_TRAPPED, STATUS, THREE, TO_BARRIER, TWO_RECEIVERS, UNRECEIVED

HELD_BACK = ('mpd 1; ranks 2; var x; var y; req r[2];\n'
             'if rank == 0 { irecv r[0] x from any tag any; irecv r[1] y from 1 tag any; } else { send 5 to 0 tag 0; }')
ON_LINES = ('mpd 1;\nranks 2;\nvar x;\nif rank == 0 {\n  send 7 to 1 tag 0;\n} else {\n  recv x from 0 tag 0;\n  print x;\n}\n'
            'barrier;\nprint 1;')
CELLS = 'mpd 1; ranks 2; var a[3]; var b; req h; req g[2];\na[1] = -5;\nb = -9223372036854775807 - 1;\nprint b;\nprint 3;\nisend g[1] b to rank tag 9;'
APART = 'mpd 1; ranks 2;\nif rank == 0 { barrier;\nprint 1; } else { barrier;\nprint 2; }'
TRAPPED = 'mpd 1; ranks 2; var x; var a[2]; req r;\nif rank == 0 {\nassert x == 1;\n} else {\nprint 3;\n}'
LOST = ('mpd 1; ranks 2; var a; var b; req r;\nif rank == 0 {\nirecv r a from 1 tag 1;\nirecv r b from 1 tag 2;\nwait r;\n} else {\n'
        'send 30 to 0 tag 1;\nsend 12 to 0 tag 2;\n}')
SENDERS = ('mpd 1; ranks 3; var x; req r;\n'
           'if rank == 0 { irecv r x from any tag 1; irecv r x from any tag 1; } else { isend r 1 to 0 tag 1; isend r 2 to 0 tag 1; }')
ONE_WAIT = 'mpd 1; ranks 2; var x; req r;\nif rank == 0 {\nirecv r x from 1 tag 1;\nwait r;\nprint x;\n} else {\nsend 7 to 0 tag 1;\n}'


class Dialogue(NamedTuple):
    """What it is of, a script in a mode, the lines with the reply to each, how many steps a trail may have where that is less, and whether `--wide` is given."""
    what: str
    script: str
    turns: tuple
    mode: str = RENDEZVOUS
    limit: Optional[int] = None
    wide: bool = True

    def asked(self):
        """The input."""
        return ''.join(f'{line}\n' for line, _ in self.turns).encode('latin-1')

    def wanted(self):
        """The replies."""
        return ''.join(f'{reply}\n' for _, reply in self.turns if reply is not None).encode()

    def is_plain(self):
        """Whether no line of it has what is read with `--wide` alone, so that it is answered the same without."""
        return self.wide and not any(IS_WIDE.search(line) for line, _ in self.turns)


# What is read with `--wide` alone: of a line of a dialogue.
IS_WIDE = re.compile('"cmd":"(run-on|hit|script|where|all|decision|steps|lines|explain)"|"kind":"(handle|rank)"|"(is|value)":|"kind":"(line|match)".*"rank":')
BOTH = (True, False)


def no(name):
    """A refusal that has nothing but its name."""
    return f'{{"error":"{name}","ok":false}}'


def stale(now):
    return f'{{"error":"stale","now":{now},"ok":false}}'


def needs_choice(count):
    return f'{{"count":{count},"error":"needs-choice","ok":false}}'


def ok(version):
    return f'{{"ok":true,"version":{version}}}'


def deep(depth, version):
    """The reply that has a depth alone."""
    return f'{{"depth":{depth},"ok":true,"version":{version}}}'


def stepped(depth, step, version):
    """The reply to `next`."""
    return f'{{"depth":{depth},"ok":true,"step":"{step}","version":{version}}}'


def ran(depth, steps, stop, version, number=None):
    """The reply to a run, forward or back."""
    front = '' if number is None else f'"break":{number},'
    return f'{{{front}"depth":{depth},"ok":true,"steps":{steps},"stop":"{stop}","version":{version}}}'


def set_break(number, version):
    return f'{{"break":{number},"ok":true,"version":{version}}}'


def step(text):
    return f'{{"cmd":"step","step":"{text}"}}'


def explained(version, *lines):
    """The reply to `explain`."""
    return f'{{"ok":true,"told":[{",".join(map(quoted, lines))}],"version":{version}}}'


def quoted(text):
    return f'"{text}"'


def listed(depth, texts, undone, version):
    """The reply to `steps`."""
    return f'{{"depth":{depth},"ok":true,"steps":[{",".join(map(quoted, texts))}],"undone":{undone},"version":{version}}}'


def steps(first, count):
    return f'{{"cmd":"steps","count":{count},"from":{first}}}'


def call_lines(rank):
    return f'{{"cmd":"lines","rank":{rank}}}'


EXPLAIN, WHERE, DECISION = (f'{{"cmd":"{command}"}}' for command in ('explain', 'where', 'decision'))
RUN = '{"cmd":"run","max":100}'
NEXT, STATE, BREAKS, RUN_BACK, ENABLED, HIT = (f'{{"cmd":"{command}"}}' for command in ('next', 'state', 'breaks', 'run-back', 'enabled', 'hit'))

# Two ranks that count to 3, from 0 and from 1: 9 steps of rank 0, then 7 of rank 1.
COUNTING = 'mpd 1; ranks 2;\nvar x; var a[2];\nx = rank;\nwhile x < 3 {\n  x = x + 1;\n}\nprint x;\n'
# Rank 0 sends on line 3 and receives on line 4, rank 1 the other way round.
THERE_AND_BACK = ('mpd 1; ranks 2; var x;\nif rank == 0 {\n  send 1 to 1 tag 0;\n  recv x from 1 tag 0;\n} else {\n'
                  '  recv x from 0 tag 0;\n  send 2 to 0 tag 0;\n}\nbarrier;\nprint x;\n')

RUNS_AND_CHOICES = (
    Dialogue('breakpoints of a rank and with a condition', COUNTING, (
        ('{"cell":0,"cmd":"break","is":"==","kind":"line","line":5,"value":2}', set_break(0, 1)), (RUN, ran(6, 6, 'break', 2, 0)),
        ('{"cell":0,"cmd":"break","is":">=","kind":"line","line":4,"rank":1,"value":3}', set_break(1, 3)),
        ('{"break":0,"cmd":"unbreak"}', ok(4)), (RUN, ran(14, 8, 'break', 5, 1)),
        ('{"cmd":"break","kind":"rank","rank":1}', set_break(0, 6)), (RUN, ran(15, 1, 'break', 7, 0)), (RUN_BACK, ran(14, 1, 'break', 8, 0)),
        (RUN_BACK, ran(13, 1, 'break', 9, 0)),
        ('{"cmd":"break","kind":"line","line":7,"rank":0}', set_break(2, 10)),
        ('{"cell":2,"cmd":"break","is":"!=","kind":"line","line":65537,"value":-9223372036854775808}', set_break(3, 11)),
        ('{"cmd":"break","kind":"match","line":1,"rank":1}', set_break(4, 12)),
        (BREAKS, '{"breaks":["0 rank 1","1 line 4 rank 1 if 0 >= 3","2 line 7 rank 0","3 line 65537 if 2 != -9223372036854775808","4 match 1 rank 1"],'
         '"ok":true,"version":12}'),
        ('{"cell":3,"cmd":"break","is":"==","kind":"line","line":5,"value":2}', no('bad-number')),
        ('{"cell":0,"cmd":"break","is":"==","kind":"line","line":5,"rank":2,"value":2}', no('bad-number')),
        ('{"cmd":"break","kind":"line","line":0,"rank":0}', no('bad-number')), ('{"cmd":"break","kind":"match","line":1,"rank":2}', no('bad-number')),
        ('{"cmd":"break","kind":"rank","rank":2}', no('bad-number')))),
    Dialogue('a condition that holds of one value, and one that holds of all others', COUNTING, (
        ('{"cell":0,"cmd":"break","is":"==","kind":"line","line":4,"value":1}', set_break(0, 1)), (RUN, ran(3, 3, 'break', 2, 0)),
        # rank 0 comes there with 2 and with 3, and then rank 1 with 1
        (RUN, ran(10, 7, 'break', 3, 0)), ('{"break":0,"cmd":"unbreak"}', ok(4)), ('{"cmd":"goto","depth":0}', '{"depth":0,"ok":true,"version":5}'),
        ('{"cell":0,"cmd":"break","is":"!=","kind":"line","line":4,"value":1}', set_break(0, 6)), (RUN, ran(1, 1, 'break', 7, 0)),
        (RUN, ran(5, 4, 'break', 8, 0)), (RUN, ran(7, 2, 'break', 9, 0)))),
    Dialogue('breakpoints of a rank at matches, wakes and a release', THERE_AND_BACK, (
        # line 3 is rank 0's send, and line 6 rank 1's receive of it
        ('{"cmd":"break","kind":"match","line":3,"rank":1}', set_break(0, 1)), ('{"cmd":"break","kind":"match","line":6,"rank":1}', set_break(1, 2)),
        (RUN, ran(5, 5, 'break', 3, 1)),
        # of rank 1: its wake behind rank 0's wake and receive; then no send that blocks, no match, and no step of rank 0, but its next wake
        ('{"cmd":"break","kind":"rank","rank":1}', set_break(2, 4)), (RUN, ran(8, 3, 'break', 5, 2)), (RUN, ran(13, 5, 'break', 6, 2)),
        # no barrier, but the release; no print of rank 0, but its own, after which it has ended
        (RUN, ran(15, 2, 'break', 7, 2)), (RUN, ran(17, 2, 'break', 8, 2)), (RUN, ran(17, 0, 'leaf', 9)))),
    Dialogue('a run up to a choice, and what holds a receive back', HELD_BACK, (
        ('{"cmd":"run","max":5}', ran(5, 5, 'choice', 1)),
        ('{"call":1,"cmd":"why","rank":0}', '{"ok":true,"partners":["1.0 held by 0.0"],"version":1}'),
        ('{"call":0,"cmd":"why","rank":0}', '{"ok":true,"partners":["1.0 eligible"],"version":1}'),
        # of the send both receives are told, by number
        ('{"cmd":"why","rank":1,"call":0}', '{"ok":true,"partners":["0.0 eligible","0.1 held by 0.0"],"version":1}'),
        (NEXT, needs_choice(1)), ('{"cmd":"next","choice":0}', stepped(6, 'match 1.0 0.0', 2)),
        # what is matched has no partners any more, and the other receive none that is free
        ('{"call":0,"cmd":"why","rank":0}', '{"ok":true,"partners":[],"version":2}'),
        ('{"call":1,"cmd":"why","rank":0}', '{"ok":true,"partners":[],"version":2}'),
        ('{"call":2,"cmd":"why","rank":0}', no('bad-number')), ('{"call":0,"cmd":"why","rank":2}', no('bad-number')))),
    Dialogue('partners by rank and number', SENDERS, (
        (RUN, ran(9, 9, 'choice', 1)),
        ('{"call":0,"cmd":"why","rank":0}',
         '{"ok":true,"partners":["1.0 eligible","1.1 held by 1.0","2.0 eligible","2.1 held by 2.0"],"version":1}'),
        # a send holds back before a receive does
        ('{"call":1,"cmd":"why","rank":0}',
         '{"ok":true,"partners":["1.0 held by 0.0","1.1 held by 1.0","2.0 held by 0.0","2.1 held by 2.0"],"version":1}'),
        ('{"call":1,"cmd":"why","rank":2}', '{"ok":true,"partners":["0.0 held by 2.0","0.1 held by 2.0"],"version":1}'),
        (NEXT, needs_choice(2)), ('{"choice":1,"cmd":"next"}', stepped(10, 'match 2.0 0.0', 2)), (NEXT, needs_choice(2)),
        ('{"choice":1,"cmd":"next"}', stepped(11, 'match 2.1 0.1', 3)), (NEXT, no('not-enabled')),
        (STATE, '{"depth":11,"ok":true,"outcome":"leftovers 1.0 1.1","ranks":["ended","ended","ended"],'
         '"sets":["pair 2.0 0.0","pair 2.1 0.1"],"undone":0,"version":3}'))),
    Dialogue('a breakpoint on a cell, there and back', STATUS, (
        ('{"cell":0,"cmd":"break","kind":"change","rank":1}', set_break(0, 1)),
        (RUN, ran(4, 4, 'break', 2, 0)), (RUN, ran(6, 2, 'choice', 3)), ('{"choice":0,"cmd":"next"}', stepped(7, 'match 0.0 1.0', 4)),
        (RUN, ran(9, 2, 'break', 5, 0)), (RUN_BACK, ran(8, 1, 'break', 6, 0)), (RUN_BACK, ran(3, 5, 'break', 7, 0)),
        (RUN_BACK, ran(0, 3, 'start', 8)), (RUN_BACK, ran(0, 0, 'start', 9)),
        (STATE, '{"depth":0,"ok":true,"ranks":["at 2","at 2"],"sets":[],"undone":9,"version":9}'))),
    Dialogue('a choice of two, which is explored', THREE, (
        (RUN, ran(6, 6, 'choice', 1)), (NEXT, needs_choice(2)), ('{"choice":2,"cmd":"next"}', no('bad-number')),
        ('{"choice":18446744073709551615,"cmd":"next"}', no('bad-number')), (RUN, ran(6, 0, 'choice', 2)),
        ('{"cmd":"explore","fuel":100,"runs":10}', '{"leaves":["[0] done","[1] deadlock 0.1 1.0"],"more":false,"ok":true,"version":2}'),
        ('{"cmd":"explore","fuel":100,"runs":1}', '{"leaves":["[0] done"],"more":true,"ok":true,"version":2}'),
        ('{"cmd":"explore","fuel":4,"runs":2}', '{"leaves":["[0] cut","[1] deadlock 0.1 1.0"],"more":false,"ok":true,"version":2}'),
        ('{"cmd":"explore","fuel":3,"runs":2}', '{"leaves":["[0] cut","[1] cut"],"more":false,"ok":true,"version":2}'),
        # the fuel counts from here, and what is explored changes nothing
        ('{"choice":1,"cmd":"next"}', stepped(7, 'match 2.0 0.0', 3)), (NEXT, stepped(8, 'wake 0', 4)),
        ('{"cmd":"back","count":1}', deep(7, 5)),
        ('{"cmd":"explore","fuel":3,"runs":65536}', '{"leaves":["[] deadlock 0.1 1.0"],"more":false,"ok":true,"version":5}'),
        ('{"cmd":"explore","fuel":2,"runs":1}', '{"leaves":["[] cut"],"more":false,"ok":true,"version":5}'),
        (STATE, '{"depth":7,"ok":true,"ranks":["blocked 0","blocked 0","blocked 0"],"sets":["pair 2.0 0.0"],"undone":1,"version":5}'),
        ('{"cmd":"redo","count":1}', deep(8, 6)), (RUN, ran(10, 2, 'leaf', 7)),
        ('{"cmd":"explore","fuel":1,"runs":1}', '{"leaves":["[] deadlock 0.1 1.0"],"more":false,"ok":true,"version":7}'))),
    Dialogue('a step that is forced, and a choice that isn\'t looked at', FIRST, (
        ('{"choice":5,"cmd":"next"}', stepped(1, 'local 0', 1)), ('{"choice":-1,"cmd":"next"}', no('bad-field')),
        ('{"choice":null,"cmd":"next"}', no('bad-field')), (NEXT, stepped(2, 'local 0', 2)), (NEXT, stepped(3, 'local 1', 3)),
        (NEXT, stepped(4, 'local 1', 4)), (NEXT, stepped(5, 'match 0.0 1.0', 5)), (NEXT, stepped(6, 'wake 0', 6)),
        (NEXT, stepped(7, 'wake 1', 7)), (NEXT, stepped(8, 'local 1', 8)), (NEXT, no('not-enabled')),
        ('{"choice":0,"cmd":"next"}', no('not-enabled')), (RUN, ran(8, 0, 'leaf', 9)))),
    Dialogue('lines that ranks come to, and calls of a line', ON_LINES, (
        ('{"cmd":"break","kind":"line","line":10}', set_break(0, 1)), ('{"cmd":"break","kind":"match","line":7}', set_break(1, 2)),
        ('{"cmd":"break","kind":"line","line":11}', set_break(2, 3)), ('{"cmd":"break","kind":"line","line":10}', set_break(3, 4)),
        (BREAKS, '{"breaks":["0 line 10","1 match 7","2 line 11","3 line 10"],"ok":true,"version":4}'),
        # the match; the wake of rank 0 to its barrier, of the two breakpoints there the first; the print of rank 1 to its barrier,
        # behind the step of rank 0 into its own and the wake of rank 1; the release
        (RUN, ran(5, 5, 'break', 5, 1)), (RUN, ran(6, 1, 'break', 6, 0)), ('{"cmd":"unbreak","break":0}', ok(7)),
        ('{"cmd":"run","max":3}', ran(9, 3, 'break', 8, 3)), (RUN, ran(11, 2, 'break', 9, 2)), (RUN, ran(13, 2, 'leaf', 10)),
        (RUN_BACK, ran(10, 3, 'break', 11, 2)), ('{"cmd":"unbreak","break":2}', ok(12)), (RUN_BACK, ran(8, 2, 'break', 13, 3)),
        (BREAKS, '{"breaks":["1 match 7","3 line 10"],"ok":true,"version":13}'),
        # the lowest free number is taken again, and then the next
        ('{"cmd":"break","kind":"change","rank":1,"cell":0}', set_break(0, 14)), ('{"cmd":"break","kind":"line","line":4}', set_break(2, 15)),
        (BREAKS, '{"breaks":["0 change 1 0","1 match 7","2 line 4","3 line 10"],"ok":true,"version":15}'),
        # the wake of rank 1, of rank 0 to its barrier, the match
        (RUN_BACK, ran(7, 1, 'break', 16, 0)), (RUN_BACK, ran(5, 2, 'break', 17, 3)), (RUN_BACK, ran(4, 1, 'break', 18, 1)),
        (RUN_BACK, ran(0, 4, 'start', 19)),
        ('{"cmd":"run","max":1}', ran(1, 1, 'max', 20)), ('{"cmd":"run","max":4}', ran(5, 4, 'break', 21, 1)))),
)

LINES_BEHIND = (
    # a release hits where one rank comes to the line, whichever that is
    Dialogue('a release to two lines', APART, (
        ('{"cmd":"break","kind":"line","line":4}', set_break(0, 1)), (RUN, ran(5, 5, 'break', 2, 0)),
        ('{"cmd":"break","kind":"line","line":3}', set_break(1, 3)), ('{"cmd":"goto","depth":4}', deep(4, 4)), (RUN, ran(5, 1, 'break', 5, 0)),
        ('{"cmd":"unbreak","break":0}', ok(6)), ('{"cmd":"goto","depth":4}', deep(4, 7)), (RUN, ran(5, 1, 'break', 8, 1)),
        (RUN_BACK, ran(4, 1, 'break', 9, 1)), (RUN_BACK, ran(2, 2, 'break', 10, 1)), (RUN_BACK, ran(0, 2, 'start', 11)),
        # the next undone steps are taken, and those behind them stay
        ('{"cmd":"goto","depth":1}', no('not-before')), (NEXT, stepped(1, 'local 0', 12)), ('{"cmd":"redo","count":4}', deep(5, 13)))),
    # candidates by receiver, whatever the sender's order is
    Dialogue('two receivers of one sender', TWO_RECEIVERS, (
        (RUN, ran(7, 7, 'choice', 1)), (ENABLED, '{"ok":true,"steps":["match 2.1 0.0","match 2.0 1.0"],"version":1}'), (NEXT, needs_choice(2)),
        ('{"cmd":"next","choice":1}', stepped(8, 'match 2.0 1.0', 2)), (NEXT, stepped(9, 'wake 1', 3)), (NEXT, needs_choice(1)),
        ('{"cmd":"next","choice":0}', stepped(10, 'match 2.1 0.0', 4)), (RUN, ran(11, 1, 'leaf', 5)))),
    # a match hits no line, though both ranks are on it
    Dialogue('a line that ranks are on already', TO_BARRIER, (
        *((step(f'local {rank}'), deep(depth, depth)) for depth, rank in enumerate((0, 0, 1, 1), 1)), (step('match 0.0 1.0'), deep(5, 5)),
        ('{"cmd":"break","kind":"line","line":3}', set_break(0, 6)), (RUN_BACK, ran(3, 2, 'break', 7, 0)), (RUN_BACK, ran(1, 2, 'break', 8, 0)),
        # rank 0 goes into its barrier first, and then rank 1 comes to it
        (RUN_BACK, ran(0, 1, 'start', 9)), (RUN, ran(2, 2, 'break', 10, 0)), (RUN, ran(5, 3, 'break', 11, 0)), (RUN, ran(8, 3, 'leaf', 12)))),
)

REFUSALS = (
    Dialogue('each refusal of a fresh session', FIRST, (
        ('{"cmd":"back","count":1}', no('at-start')), ('{"cmd":"back"}', no('bad-field')), ('back', no('not-json')),
        ('{"cmd":"fly"}', no('unknown-command')), ('{"cmd":"redo","count":1}', no('no-redo')), ('{"cmd":"goto","depth":2}', no('not-before')),
        ('{"cmd":"unbreak","break":0}', no('no-such-break')), (' ' * 4097, no('line-too-long')),
        ('{"choice":5,"cmd":"next"}', stepped(1, 'local 0', 1)),
        *((f'{{"cmd":"break","kind":"line","line":{number + 1}}}', set_break(number, number + 2)) for number in range(64)),
        ('{"cmd":"break","kind":"line","line":9}', no('breaks-full')),
        # a number that is wrong is told where no place is left too
        ('{"cmd":"break","kind":"line","line":0}', no('bad-number')), ('{"cmd":"break","kind":"change","rank":0,"cell":1}', no('bad-number')),
        ('{"break":64,"cmd":"unbreak"}', no('no-such-break')), ('{"break":40,"cmd":"unbreak"}', ok(66)),
        ('{"break":40,"cmd":"unbreak"}', no('no-such-break')), ('{"cmd":"break","kind":"match","line":65537}', set_break(40, 67)),
        ('{"cmd":"break","kind":"line","line":9}', no('breaks-full')))),
    Dialogue('numbers and fields', FIRST, (
        ('{"cmd":"back","count":0}', no('bad-number')), ('{"cmd":"back","count":1000001}', no('bad-number')),
        ('{"cmd":"back","count":-1}', no('bad-field')), ('{"cmd":"back","count":1.0}', no('bad-field')),
        ('{"cmd":"back","count":18446744073709551615}', no('bad-number')), ('{"cmd":"back","count":18446744073709551616}', no('bad-field')),
        ('{"cmd":"back","count":"1"}', no('bad-field')), ('{"cmd":"back","count":1,"x":1}', no('bad-field')),
        ('{"cmd":"back","count":1000000}', no('at-start')), ('{"cmd":"redo","count":0}', no('bad-number')),
        ('{"cmd":"redo","count":1000001}', no('bad-number')), ('{"cmd":"redo","count":1000000}', no('no-redo')),
        ('{"cmd":"fly","x":1}', no('unknown-command')), ('{"cmd":5}', no('bad-field')), ('["cmd"]', no('bad-field')),
        ('{"cmd":"step","step":"fly"}', no('bad-field')), ('{"cmd":"break","kind":"fly","line":1}', no('bad-field')),
        ('{"cmd":"break","kind":"line","cell":0,"rank":0}', no('bad-field')), ('{"cmd":"break","kind":"line","line":0}', no('bad-number')),
        ('{"cmd":"break","kind":"line","line":65537}', set_break(0, 1)), ('{"cmd":"break","kind":"match","line":65538}', no('bad-number')),
        ('{"cell":1,"cmd":"break","kind":"change","rank":0}', no('bad-number')), ('{"cell":0,"cmd":"break","kind":"change","rank":2}', no('bad-number')),
        ('{"cell":0,"cmd":"break","kind":"change","rank":1}', set_break(1, 2)), ('{"cmd":"break","kind":"match","line":1}', set_break(2, 3)),
        (BREAKS, '{"breaks":["0 line 65537","1 change 1 0","2 match 1"],"ok":true,"version":3}'), ('{"break":1,"cmd":"unbreak"}', ok(4)),
        ('{"at":3,"cmd":"state"}', stale(4)), ('{"at":4,"cmd":"enabled"}', '{"ok":true,"steps":["local 0","local 1"],"version":4}'),
        ('{"cmd":"run","max":0}', no('bad-number')), ('{"cmd":"run","max":1000001}', no('bad-number')),
        ('{"cmd":"explore","fuel":1000001,"runs":1}', no('bad-number')), ('{"cmd":"explore","fuel":0,"runs":1}', no('bad-number')),
        ('{"cmd":"explore","fuel":1000000,"runs":0}', no('bad-number')), ('{"cmd":"explore","fuel":1000000,"runs":65537}', no('bad-number')),
        ('{"cmd":"explore","fuel":1000000,"runs":65536}', '{"leaves":["[] done"],"more":false,"ok":true,"version":4}'),
        ('{"cmd":"vars","rank":2}', no('bad-number')), ('{"cmd":"calls","rank":2}', no('bad-number')),
        ('{"cmd":"vars","rank":1}', '{"handles":[],"ok":true,"out":[],"vars":[0],"version":4}'),
        ('{"cmd":"calls","rank":1}', '{"calls":[],"ok":true,"version":4}'), ('{"call":0,"cmd":"why","rank":0}', no('bad-number')),
        ('{"cmd":"goto","depth":0}', deep(0, 5)))),
    Dialogue('a version that has passed', FIRST, (
        (step('local 0'), deep(1, 1)), (step('local 0'), deep(2, 2)), (step('local 1'), deep(3, 3)),
        ('{"at":2,"cmd":"step","step":"local 1"}', stale(3)),
        (STATE, '{"depth":3,"ok":true,"ranks":["blocked 0","at 2"],"sets":[],"undone":0,"version":3}'),
        # it is tested before all that a session tests, and behind all that is said of the line
        ('{"at":4,"cmd":"step","step":"wake 0"}', stale(3)), ('{"at":0,"cmd":"run","max":0}', stale(3)),
        ('{"at":18446744073709551615,"cmd":"breaks"}', stale(3)), ('{"at":18446744073709551616,"cmd":"breaks"}', no('bad-field')),
        ('{"at":2,"cmd":"fly"}', no('unknown-command')), ('{"at":2,"cmd":"step"}', no('bad-field')), ('{"at":null,"cmd":"state"}', no('bad-field')),
        # a refusal and a question leave the version, and the right one is no hindrance
        ('{"at":3,"cmd":"step","step":"wake 0"}', no('not-enabled')), ('{"at":3,"cmd":"step","step":"local 1"}', deep(4, 4)),
        ('{"at":3,"cmd":"step","step":"local 1"}', stale(4)), ('{"at":4,"cmd":"enabled"}', '{"ok":true,"steps":["match 0.0 1.0"],"version":4}'))),
    Dialogue('the last depth', ON_AND_ON, (
        ('{"cmd":"run","max":1000000}', ran(6, 6, 'full', 1)), (step('wake 0'), no('not-enabled')), (step('local 0'), no('full')),
        (NEXT, no('full')), ('{"cmd":"run","max":1}', ran(6, 0, 'full', 2)), ('{"cmd":"explore","fuel":1,"runs":1}', no('bad-number')),
        ('{"cmd":"back","count":2}', deep(4, 3)), ('{"cmd":"explore","fuel":2,"runs":1}', '{"leaves":["[] cut"],"more":false,"ok":true,"version":3}'),
        ('{"cmd":"explore","fuel":3,"runs":1}', no('bad-number')), ('{"cmd":"redo","count":3}', no('no-redo')),
        ('{"cmd":"redo","count":2}', deep(6, 4)), ('{"cmd":"back","count":7}', no('at-start')), ('{"cmd":"back","count":6}', deep(0, 5)),
        # the last depth is told before the number of steps
        ('{"cmd":"run","max":5}', ran(5, 5, 'max', 6)), ('{"cmd":"run","max":1}', ran(6, 1, 'full', 7))), limit=6),
    Dialogue('a choice at the last depth', HELD_BACK, (
        (RUN, ran(5, 5, 'choice', 1)), (NEXT, needs_choice(1)), ('{"choice":1,"cmd":"next"}', no('bad-number')),
        ('{"choice":0,"cmd":"next"}', no('full')), (step('match 1.0 0.0'), no('full')), (step('match 1.0 0.1'), no('not-enabled'))), limit=5),
    Dialogue('a leaf at the last depth', UNRECEIVED, (
        (RUN, ran(1, 1, 'leaf', 1)), (NEXT, no('not-enabled')), (step('local 0'), no('not-enabled'))), limit=1),
)

STATES = (
    Dialogue('what is told of ranks and calls, and along the steps', FIRST, (
        (RUN, ran(8, 8, 'leaf', 1)),
        (STATE, '{"depth":8,"ok":true,"outcome":"done","ranks":["ended","ended"],"sets":["pair 0.0 1.0","woke 0.0","woke 1.0"],'
         '"undone":0,"version":1}'),
        ('{"cmd":"vars","rank":1}', '{"handles":[],"ok":true,"out":[7],"vars":[7],"version":1}'),
        ('{"cmd":"vars","rank":0}', '{"handles":[],"ok":true,"out":[],"vars":[0],"version":1}'),
        ('{"cmd":"calls","rank":0}', '{"calls":["send to 1 tag 0 value 7 with 1.0"],"ok":true,"version":1}'),
        ('{"cmd":"calls","rank":1}', '{"calls":["recv from 0 tag 0 with 0.0 value 7"],"ok":true,"version":1}'),
        (ENABLED, '{"ok":true,"steps":[],"version":1}'), ('{"cmd":"goto","depth":9}', no('not-before')),
        ('{"cmd":"goto","depth":8}', deep(8, 2)), ('{"cmd":"goto","depth":4}', deep(4, 3)),
        (STATE, '{"depth":4,"ok":true,"ranks":["blocked 0","blocked 0"],"sets":[],"undone":4,"version":3}'),
        ('{"cmd":"calls","rank":1}', '{"calls":["recv from 0 tag 0 free"],"ok":true,"version":3}'),
        ('{"call":0,"cmd":"why","rank":1}', '{"ok":true,"partners":["0.0 eligible"],"version":3}'),
        (ENABLED, '{"ok":true,"steps":["match 0.0 1.0"],"version":3}'), ('{"cmd":"redo","count":5}', no('no-redo')),
        ('{"cmd":"redo","count":3}', deep(7, 4)), ('{"cmd":"back","count":8}', no('at-start')), ('{"cmd":"back","count":5}', deep(2, 5)),
        # a step that is the next undone one keeps those behind it, and another drops them
        (step('local 1'), deep(3, 6)), ('{"cmd":"redo","count":5}', deep(8, 7)), ('{"cmd":"goto","depth":2}', deep(2, 8)),
        (step('wake 0'), no('not-enabled')), (NEXT, stepped(3, 'local 1', 9)),
        (STATE, '{"depth":3,"ok":true,"ranks":["blocked 0","at 2"],"sets":[],"undone":5,"version":9}'),
        ('{"cmd":"goto","depth":0}', deep(0, 10)), (step(' local\\t1 '), deep(1, 11)), ('{"cmd":"redo","count":1}', no('no-redo')),
        (STATE, '{"depth":1,"ok":true,"ranks":["at 2","at 2"],"sets":[],"undone":0,"version":11}'),
        ('{"cmd":"goto","depth":0}', deep(0, 12)), (RUN, ran(8, 8, 'leaf', 13)))),
    Dialogue('cells, handles and what is printed', CELLS, (
        (RUN, ran(10, 10, 'leaf', 1)),
        ('{"cmd":"vars","rank":1}',
         '{"handles":[null,null,0],"ok":true,"out":[-9223372036854775808,3],"vars":[0,-5,0,-9223372036854775808],"version":1}'),
        ('{"cmd":"calls","rank":1}', '{"calls":["isend to 1 tag 9 value -9223372036854775808 free"],"ok":true,"version":1}'),
        ('{"cmd":"break","kind":"change","rank":1,"cell":4}', no('bad-number')), ('{"cmd":"break","kind":"change","rank":1,"cell":3}', set_break(0, 2)),
        (STATE, '{"depth":10,"ok":true,"outcome":"leftovers 0.0 1.0","ranks":["ended","ended"],"sets":[],"undone":0,"version":2}'))),
    Dialogue('a barrier', TO_BARRIER, (
        (RUN, ran(8, 8, 'leaf', 1)),
        (STATE, '{"depth":8,"ok":true,"outcome":"done","ranks":["ended","ended"],"sets":["barrier","pair 0.0 1.0"],"undone":0,"version":1}'),
        ('{"cmd":"calls","rank":0}', '{"calls":["isend to 1 tag 0 value 1 with 1.0","barrier"],"ok":true,"version":1}'),
        ('{"call":1,"cmd":"why","rank":0}', '{"ok":true,"partners":[],"version":1}'), ('{"cmd":"back","count":2}', deep(6, 2)),
        (ENABLED, '{"ok":true,"steps":["release","match 0.0 1.0"],"version":2}'), (step('release'), deep(7, 3)))),
    Dialogue('a rank that is trapped', ONE_TRAPPED, (
        (RUN, ran(3, 3, 'leaf', 1)),
        (STATE, '{"depth":3,"ok":true,"outcome":"trap 0 assert","ranks":["trapped assert","blocked 0"],"sets":[],"undone":0,"version":1}'))),
    Dialogue('without buffers', HEAD_TO_HEAD, (
        (RUN, ran(2, 2, 'leaf', 1)),
        (STATE, '{"depth":2,"ok":true,"outcome":"deadlock 0.0 1.0","ranks":["blocked 0","blocked 0"],"sets":[],"undone":0,"version":1}'))),
    Dialogue('with buffers', HEAD_TO_HEAD, (
        (RUN, ran(10, 10, 'leaf', 1)), ('{"cmd":"goto","depth":2}', deep(2, 2)),
        ('{"cmd":"explore","fuel":8,"runs":1}', '{"leaves":["[] done"],"more":false,"ok":true,"version":2}'),
        ('{"cmd":"explore","fuel":7,"runs":1}', '{"leaves":["[] cut"],"more":false,"ok":true,"version":2}'),
        (ENABLED, '{"ok":true,"steps":["wake 0","wake 1"],"version":2}')), BUFFERED),
)

START_OF_FIRST = '{"depth":0,"ok":true,"ranks":["at 2","at 2"],"sets":[],"undone":0,"version":0}'
LINES = (
    Dialogue('lines', FIRST, (
        ('', None), ('\r', None), (f'{STATE}\r', START_OF_FIRST), (STATE + ' ' * (4096 - len(STATE)), START_OF_FIRST),
        (STATE + ' ' * (4096 - len(STATE)) + '\r', START_OF_FIRST), (STATE + ' ' * (4097 - len(STATE)), no('line-too-long')),
        ('x' * 4096, no('not-json')), ('x' * 4097, no('line-too-long')), ('x' * 20000 + '\r', no('line-too-long')), (' ', no('not-json')),
        ('\t', no('not-json')), ('\r\r', no('not-json')), (f'\t {STATE} \r', START_OF_FIRST), ('---', no('not-json')), (STATE, START_OF_FIRST))),
)

RUN_ON = '{"cmd":"run-on","max":100}'


def handle_break(rank, handle):
    return f'{{"cmd":"break","kind":"handle","rank":{rank},"handle":{handle}}}'


RUNS_ON = (
    # the single match of a receive of any source, and what stands behind it
    Dialogue('a run past a single candidate', HELD_BACK, (
        (RUN, ran(5, 5, 'choice', 1)), ('{"cmd":"run-on","max":1}', ran(6, 1, 'max', 2)), (RUN, ran(7, 1, 'leaf', 3)),
        (STATE, '{"depth":7,"ok":true,"outcome":"leftovers 0.1","ranks":["ended","ended"],"sets":["pair 1.0 0.0","woke 1.0"],"undone":0,"version":3}'),
        ('{"cmd":"goto","depth":0}', deep(0, 4)), (RUN_ON, ran(7, 7, 'leaf', 5)), (RUN_ON, ran(7, 0, 'leaf', 6)),
        # its rank waits behind the match, and the breakpoint stops there
        ('{"cmd":"goto","depth":0}', deep(0, 7)), ('{"cmd":"break","kind":"match","line":2}', set_break(0, 8)), (RUN_ON, ran(6, 6, 'break', 9, 0)))),
    Dialogue('a run up to a choice of two', THREE, (
        (RUN_ON, ran(6, 6, 'choice', 1)), (RUN_ON, ran(6, 0, 'choice', 2)), ('{"choice":1,"cmd":"next"}', stepped(7, 'match 2.0 0.0', 3)),
        (RUN_ON, ran(10, 3, 'leaf', 4)), ('{"cmd":"run-on","max":0}', no('bad-number')), ('{"cmd":"run-on","max":1000001}', no('bad-number')),
        ('{"cmd":"run-on"}', no('bad-field')), ('{"cmd":"run-on","max":1,"choice":0}', no('bad-field')), ('{"at":3,"cmd":"run-on","max":1}', stale(4)))),
    Dialogue('a run past the second of two candidates', TWO_RECEIVERS, (
        (RUN_ON, ran(7, 7, 'choice', 1)), ('{"cmd":"next","choice":1}', stepped(8, 'match 2.0 1.0', 2)), (RUN_ON, ran(11, 3, 'leaf', 3)))),
    # rank 1's steps are undone, and rank 0 goes first: what was undone is gone
    Dialogue('a run past what was undone', FIRST, (
        (step('local 1'), deep(1, 1)), (step('local 1'), deep(2, 2)), ('{"cmd":"back","count":2}', deep(0, 3)),
        ('{"cmd":"run-on","max":1}', ran(1, 1, 'max', 4)), ('{"cmd":"redo","count":1}', no('no-redo')))),
    Dialogue('a single candidate at the last depth', HELD_BACK, (
        ('{"cmd":"run-on","max":5}', ran(5, 5, 'full', 1)), (RUN, ran(5, 0, 'choice', 2)), (RUN_ON, ran(5, 0, 'full', 3))), limit=5),
    Dialogue('handles as breakpoints', CELLS, (
        # the first handle of all, and the last of an array; both ranks issue into that
        (handle_break(0, 2), set_break(0, 1)), (handle_break(1, 2), set_break(1, 2)), (handle_break(1, 0), set_break(2, 3)),
        (handle_break(0, 3), no('bad-number')), (handle_break(2, 0), no('bad-number')), (handle_break(2, 3), no('bad-number')),
        ('{"cmd":"break","kind":"handle","rank":0,"cell":0}', no('bad-field')), ('{"cmd":"break","kind":"handle","handle":0}', no('bad-field')),
        ('{"cmd":"break","kind":"change","rank":0,"handle":0}', no('bad-field')), (handle_break(0, '"0"'), no('bad-field')),
        (BREAKS, '{"breaks":["0 handle 0 2","1 handle 1 2","2 handle 1 0"],"ok":true,"version":3}'),
        (RUN, ran(5, 5, 'break', 4, 0)), (RUN, ran(10, 5, 'break', 5, 1)), (RUN, ran(10, 0, 'leaf', 6)), (RUN_BACK, ran(9, 1, 'break', 7, 1)),
        ('{"cmd":"unbreak","break":1}', ok(8)), (RUN_BACK, ran(4, 5, 'break', 9, 0)), (handle_break(1, 1), set_break(1, 10)))),
    Dialogue('a handle that gets two calls', SENDERS, (
        (handle_break(0, 0), set_break(0, 1)), (handle_break(2, 0), set_break(1, 2)), (RUN_ON, ran(2, 2, 'break', 3, 0)), (RUN_ON, ran(3, 1, 'break', 4, 0)),
        (RUN_ON, ran(8, 5, 'break', 5, 1)), (RUN_ON, ran(9, 1, 'break', 6, 1)), (RUN_ON, ran(9, 0, 'choice', 7)))),
    # rank 0 issues the receive in step 2, and its wait ends in step 7, a wake
    Dialogue('a handle that is cleared by a wake', ONE_WAIT, (
        (handle_break(0, 0), set_break(0, 1)), (RUN, ran(2, 2, 'break', 2, 0)), (RUN, ran(7, 5, 'break', 3, 0)), (RUN, ran(9, 2, 'leaf', 4)))),
    # rank 0 comes to line 5 in step 7, with 7
    Dialogue('a number that is not below, and is not above', ONE_WAIT, (
        ('{"cell":0,"cmd":"break","is":"<","kind":"line","line":5,"value":7}', set_break(0, 1)), (RUN, ran(9, 9, 'leaf', 2)),
        ('{"cmd":"goto","depth":0}', deep(0, 3)), ('{"cmd":"unbreak","break":0}', ok(4)),
        ('{"cell":0,"cmd":"break","is":"<=","kind":"line","line":5,"value":7}', set_break(0, 5)), (RUN, ran(7, 7, 'break', 6, 0)))),
    Dialogue('a script without handles', FIRST, (
        (handle_break(0, 0), no('bad-number')), ('{"cmd":"break","kind":"handles","rank":0,"handle":0}', no('bad-field')))),
)

# What is told of the script, of all ranks, of steps, calls and ends.
TOLD = (
    Dialogue('names, lines and words, up to a trap', TRAPPED, (
        ('{"cmd":"script"}', '{"handles":["r"],"lines":[2,3,5],"mode":"rendezvous","ok":true,"ranks":2,"vars":["x","a[2]"],"version":0}'),
        (EXPLAIN, explained(0)), (step('local 0'), deep(1, 1)),
        (WHERE, '{"lines":[3,2],"ok":true,"ranks":["at 3","at 2"],"ready":[0,1],"version":1}'), (step('local 0'), deep(2, 2)),
        (WHERE, '{"lines":[3,2],"ok":true,"ranks":["trapped assert","at 2"],"ready":[1],"version":2}'),
        (DECISION, '{"decision":"forced","ok":true,"steps":["local 1"],"told":["rank 1 runs line 2; local 1"],"version":2}'), (RUN, ran(4, 2, 'leaf', 3)),
        ('{"cmd":"all"}', '{"held":[{"handles":[null],"out":[],"vars":[0,0,0]},{"handles":[null],"out":[3],"vars":[0,0,0]}],"lines":[3,null],"ok":true,'
         '"ranks":["trapped assert","ended"],"ready":[],"version":3}'),
        (DECISION, '{"decision":"leaf","ok":true,"outcome":"trap 0 assert","steps":[],"told":[],"version":3}'),
        (EXPLAIN, explained(3, '  rank 0, line 3: trap assert, with x = 0')),
        (steps(1, 2), listed(4, ('local 0', 'local 1'), 0, 3)), (steps(4, 1), listed(4, (), 0, 3)), (steps(5, 1), no('bad-number')),
        (steps(0, 0), no('bad-number')), (steps(0, 1000001), no('bad-number')), ('{"cmd":"goto","depth":1}', deep(1, 4)),
        (steps(1, 10), listed(1, ('local 0', 'local 1', 'local 1'), 3, 4)), (call_lines(0), '{"lines":[],"ok":true,"partners":[],"version":4}'),
        (call_lines(2), no('bad-number')), ('{"at":3,"cmd":"where"}', stale(4)), ('{"cmd":"steps","from":0}', no('bad-field')),
        ('{"cmd":"explain","rank":0}', no('bad-field')))),
    Dialogue('lines and partners of calls, and a request that is lost', LOST, (
        (RUN, ran(12, 12, 'leaf', 1)), (call_lines(0), '{"lines":[3,4,5],"ok":true,"partners":["1.0","1.1",null],"version":1}'),
        (call_lines(1), '{"lines":[7,8],"ok":true,"partners":["0.0","0.1"],"version":1}'),
        (EXPLAIN, explained(1, 'rank 0 has lost a request: line 3, 0.0 irecv from 1 tag 1')))),
    Dialogue('a single candidate is a choice', HELD_BACK, (
        ('{"cmd":"run","max":5}', ran(5, 5, 'choice', 1)),
        (DECISION, '{"decision":"choice","ok":true,"steps":["match 1.0 0.0"],"told":["rank 1 sends 5, tag 0 (line 2), to rank 0 (line 2); match 1.0 0.0"],"version":1}'))))


def hits(number, version):
    """The reply to `hit` of a step that hits a breakpoint; of one that hits none it is that of `ok`."""
    return set_break(number, version)


HITS = (
    # rank 0 comes to line 4 by its first step, to line 5 by its second, and to line 4 with x = 1 by its third
    Dialogue('what the last step hits', COUNTING, (
        (HIT, ok(0)), ('{"cmd":"break","kind":"line","line":5}', set_break(0, 1)), (HIT, ok(1)), (step('local 0'), deep(1, 2)), (HIT, ok(2)),
        (NEXT, stepped(2, 'local 0', 3)), (HIT, hits(0, 3)), ('{"cmd":"break","kind":"change","rank":0,"cell":0}', set_break(1, 4)), (HIT, hits(0, 4)),
        # of two that it hits the lowest, and of the one that is left
        ('{"cmd":"break","kind":"line","line":5,"rank":0}', set_break(2, 5)), (HIT, hits(0, 5)), ('{"cmd":"unbreak","break":0}', ok(6)), (HIT, hits(2, 6)),
        # the third step hits what the steps before it don't, also if it lies ahead
        (NEXT, stepped(3, 'local 0', 7)), (HIT, hits(1, 7)), ('{"cmd":"back","count":1}', deep(2, 8)), (HIT, hits(2, 8)),
        ('{"cmd":"goto","depth":1}', deep(1, 9)), (HIT, ok(9)), ('{"cmd":"goto","depth":0}', deep(0, 10)), (HIT, ok(10)),
        ('{"cmd":"redo","count":3}', deep(3, 11)), (HIT, hits(1, 11)), ('{"cmd":"back","count":2}', deep(1, 12)), (HIT, ok(12)),
        (steps(0, 10), listed(1, ('local 0', 'local 0', 'local 0'), 2, 12)),
        ('{"at":11,"cmd":"hit"}', stale(12)), ('{"at":12,"cmd":"hit"}', ok(12)), ('{"break":0,"cmd":"hit"}', no('bad-field')),
        # one that is set behind the step; and what runs say of it, forward and back
        ('{"cmd":"break","kind":"line","line":4}', set_break(0, 13)), (HIT, hits(0, 13)), (RUN, ran(2, 1, 'break', 14, 2)), (HIT, hits(2, 14)),
        (RUN, ran(3, 1, 'break', 15, 0)), (HIT, hits(0, 15)), (RUN_BACK, ran(2, 1, 'break', 16, 0)), (HIT, hits(2, 16)))),
    Dialogue('a match that hits, by a run and by a choice', HELD_BACK, (
        ('{"cmd":"break","kind":"match","line":2}', set_break(0, 1)), (RUN_ON, ran(6, 6, 'break', 2, 0)), (HIT, hits(0, 2)),
        ('{"cmd":"back","count":1}', deep(5, 3)), (HIT, ok(3)), ('{"choice":0,"cmd":"next"}', stepped(6, 'match 1.0 0.0', 4)), (HIT, hits(0, 4)),
        (NEXT, stepped(7, 'wake 1', 5)), (HIT, ok(5)))))

# Without `--wide`: what is refused changes nothing, and the version stays.
PLAIN = (
    Dialogue('each command, kind and field that is read with `--wide` alone', ON_LINES, (
        (RUN_ON, no('unknown-command')), (HIT, no('unknown-command')), ('{"cmd":"script"}', no('unknown-command')), (WHERE, no('unknown-command')),
        ('{"cmd":"all"}', no('unknown-command')), (DECISION, no('unknown-command')), (steps(0, 1), no('unknown-command')),
        (call_lines(0), no('unknown-command')), (EXPLAIN, no('unknown-command')),
        # whatever the fields are, and the version
        ('{"cmd":"run-on"}', no('unknown-command')), ('{"cmd":"hit","at":9}', no('unknown-command')), ('{"cmd":"all","x":null}', no('unknown-command')),
        (handle_break(0, 0), no('bad-field')), ('{"cmd":"break","kind":"rank","rank":0}', no('bad-field')),
        ('{"cmd":"break","kind":"line","line":10,"rank":0}', no('bad-field')), ('{"cmd":"break","kind":"match","line":7,"rank":1}', no('bad-field')),
        ('{"cell":0,"cmd":"break","is":"==","kind":"line","line":10,"value":0}', no('bad-field')),
        ('{"cell":0,"cmd":"break","is":"==","kind":"line","line":10,"rank":0,"value":0}', no('bad-field')),
        ('{"cmd":"break","kind":"line","line":10,"rank":9,"at":7}', no('bad-field')),
        (BREAKS, '{"breaks":[],"ok":true,"version":0}'), ('{"cmd":"break","kind":"line","line":10}', set_break(0, 1)),
        ('{"cmd":"break","kind":"match","line":7}', set_break(1, 2)), ('{"cmd":"break","kind":"change","rank":1,"cell":0}', set_break(2, 3)),
        (RUN, ran(5, 5, 'break', 4, 1)), (RUN_ON, no('unknown-command')), (RUN, ran(6, 1, 'break', 5, 0)), (HIT, no('unknown-command')),
        ('{"at":5,"cmd":"next"}', stepped(7, 'local 0', 6)), (RUN_BACK, ran(5, 2, 'break', 7, 0))), wide=False),
)

DIALOGUES = RUNS_AND_CHOICES + LINES_BEHIND + REFUSALS + STATES + LINES + RUNS_ON + TOLD + HITS + PLAIN

# Inputs that don't end in a line feed, of the script FIRST, with what is answered.
ENDINGS = (
    ('', ''), (STATE, f'{START_OF_FIRST}\n'), (f'{STATE}\n\n', f'{START_OF_FIRST}\n'), ('{"cmd":"sta', no('not-json') + '\n'),
    (f'{STATE}\r', f'{START_OF_FIRST}\n'), ('\r', no('not-json') + '\n'), ('\n\r', no('not-json') + '\n'),
    (STATE + ' ' * (4096 - len(STATE)), f'{START_OF_FIRST}\n'), (STATE + ' ' * (4096 - len(STATE)) + '\r', no('line-too-long') + '\n'),
    ('x' * 4097, no('line-too-long') + '\n'), ('x' * 9000, no('line-too-long') + '\n'))

# Lines that are told apart without a session, of one with `--wide`: each with the number of its refusal, or None where it is a request.
TESTED = (
    # no JSON text
    (b'{', 42), (b'}', 42), (b'{}}', 42), (b'{"cmd":"state"', 42), (b'{"cmd":"state"} x', 42), (b'{"cmd":"state"}{"cmd":"state"}', 42),
    (b'{"cmd":"state",}', 42), (b'{,"cmd":"state"}', 42), (b'{"cmd" "state"}', 42), (b"{'cmd':'state'}", 42), (b'{cmd:"state"}', 42),
    (b'{"cmd":state}', 42), (b'["cmd",]', 42), (b'{"cmd":"state"}\x00', 42), (b'{"cmd":"state"}\x0b', 42), (b'\xef\xbb\xbf{"cmd":"state"}', 42),
    (b'{"cmd":"sta\xffte"}', 42), (b'{"cmd":"sta\xc0\xafte"}', 42), (b'{"cmd":"\xed\xa0\x80"}', 42), (b'{"cmd":"state"}\xff', 42),
    (b'{"cmd":"sta\tte"}', 42), (b'{"cmd":"sta\x00te"}', 42), (b'{"cmd":"\x1f"}', 42), (b'{"cmd":"\\x"}', 42), (b'{"cmd":"\\u12"}', 42),
    (b'{"cmd":"\\u12g4"}', 42), (b'{"cmd":"\\u+123"}', 42), (b'{"cmd":"\\ud800"}', 42), (b'{"cmd":"\\udc00"}', 42),
    (b'{"cmd":"\\ud800\\ud800"}', 42), (b'{"cmd":"\\ud800x"}', 42), (b'{"cmd":"\\udc00\\ud800"}', 42), (b'{"cmd":"\\ud800\\n"}', 42),
    (b'{"cmd":"state","at":01}', 42), (b'{"cmd":"state","at":+0}', 42), (b'{"cmd":"state","at":.5}', 42), (b'{"cmd":"state","at":1.}', 42),
    (b'{"cmd":"state","at":1e}', 42), (b'{"cmd":"state","at":-}', 42), (b'{"cmd":"state","at":0x1}', 42), (b'{"cmd":"state","at":1_0}', 42),
    (b'{"cmd":"state","at":NaN}', 42), (b'{"cmd":"state","at":Infinity}', 42), (b'{"cmd":"state","at":-Infinity}', 42),
    (b'{"cmd":"state","at":1e400}', 42), (b'{"cmd":"state","at":-1e309}', 42), (b'{"cmd":"state","at":1' + b'0' * 400 + b'}', 42),
    (b'{"cmd":"state","at":nul}', 42), (b'{"cmd":"state","at":True}', 42), (b'{"cmd":"state","at":"}', 42), (b'nulls', 42), (b'tru', 42),
    (b'"state', 42), (b'/* */ {"cmd":"state"}', 42), (b'[' * 128 + b']' * 128, 42), (b'{"cmd":' + b'[' * 127 + b']' * 127 + b'}', 42),
    (b'{"a":' * 128 + b'1' + b'}' * 128, 42), (b'[' * 128, 42),
    # JSON, and no object with a text `cmd`
    (b'null', 43), (b'true', 43), (b'1', 43), (b'"state"', 43), (b'[]', 43), (b'{}', 43), (b'[{"cmd":"state"}]', 43), (b'{"cmd":null}', 43),
    (b'{"cmd":["state"]}', 43), (b'{"cmd":{"cmd":"state"}}', 43), (b'{"Cmd":"state"}', 43), (b'{"cmd ":"state"}', 43), (b'{"at":0}', 43),
    (b'[' * 127 + b']' * 127, 43), (b'{"cmd":' + b'[' * 126 + b']' * 126 + b'}', 43), (b'{"a":' * 127 + b'1' + b'}' * 127, 43),
    (b'0e400', 43), (b'1e-400', 43), (b'1e308', 43), (b'-0', 43), (b'"\\ud83d\\ude00"', 43), (b'{"cmd":true,"x":[{}]}', 43),
    # a command that there isn't
    (b'{"cmd":""}', 44), (b'{"cmd":"State"}', 44), (b'{"cmd":" state"}', 44), (b'{"cmd":"state\\n"}', 44), (b'{"cmd":"state\\u0000"}', 44),
    (b'{"cmd":"run_back"}', 44), (b'{"cmd":"runback"}', 44), (b'{"cmd":"show","at":null}', 44), (b'{"cmd":"\xc3\xa9"}', 44),
    (b'{"cmd":"\\ud83d\\ude00"}', 44), (b'{"cmd":"state","cmd":"fly"}', 44), (b'{"cmd":"fly","cmd":"flies"}', 44), (b'{"cmd":"\x7f"}', 44),
    # fields: one that is missing, one too many, or of another kind
    (b'{"cmd":"state","x":0}', 43), (b'{"cmd":"state","":0}', 43), (b'{"cmd":"state","depth":0}', 43), (b'{"cmd":"state","At":0}', 43),
    (b'{"cmd":"state","at":null}', 43), (b'{"cmd":"state","at":"0"}', 43), (b'{"cmd":"state","at":-1}', 43), (b'{"cmd":"state","at":-0}', 43),
    (b'{"cmd":"state","at":0.0}', 43), (b'{"cmd":"state","at":0e0}', 43), (b'{"cmd":"state","at":1e2}', 43), (b'{"cmd":"state","at":[]}', 43),
    (b'{"cmd":"state","at":true}', 43), (b'{"cmd":"state","at":1e308}', 43), (b'{"cmd":"state","at":18446744073709551616}', 43),
    (b'{"cmd":"state","at":-9223372036854775809}', 43), (b'{"cmd":"state","at":0,"at":null}', 43), (b'{"cmd":"state","cmd":5}', 43),
    (b'{"cmd":"step"}', 43), (b'{"cmd":"step","step":0}', 43), (b'{"cmd":"step","step":""}', 43), (b'{"cmd":"step","step":" "}', 43),
    (b'{"cmd":"step","step":"local"}', 43), (b'{"cmd":"step","step":"local 0\\n"}', 43), (b'{"cmd":"step","step":"Local 0"}', 43),
    (b'{"cmd":"step","step":"local 0000000000"}', 43), (b'{"cmd":"step","step":"match 0.0"}', 43), (b'{"cmd":"step","step":"back"}', 43),
    (b'{"cmd":"step","step":"local \xd9\xa0"}', 43), (b'{"cmd":"step","step":["local 0"]}', 43), (b'{"cmd":"step","step":"release 0"}', 43),
    (b'{"cmd":"step","step":"local 0","choice":0}', 43), (b'{"cmd":"next","choice":null}', 43), (b'{"cmd":"next","choice":false}', 43),
    (b'{"cmd":"run"}', 43), (b'{"cmd":"run","max":"1"}', 43), (b'{"cmd":"run","max":1.5}', 43), (b'{"cmd":"back","max":1}', 43),
    (b'{"cmd":"redo","count":1e0}', 43), (b'{"cmd":"goto"}', 43), (b'{"cmd":"goto","depth":-1}', 43), (b'{"cmd":"run-back","max":1}', 43),
    (b'{"cmd":"vars"}', 43), (b'{"cmd":"calls","rank":null}', 43), (b'{"cmd":"why","rank":0}', 43), (b'{"cmd":"why","call":0}', 43),
    (b'{"cmd":"break"}', 43), (b'{"cmd":"break","line":1}', 43), (b'{"cmd":"break","kind":"line"}', 43), (b'{"cmd":"break","kind":5,"line":1}', 43),
    (b'{"cmd":"break","kind":"Line","line":1}', 43), (b'{"cmd":"break","kind":"change","rank":0}', 43),
    (b'{"cmd":"break","kind":"change","rank":0,"cell":0,"line":1}', 43), (b'{"cmd":"break","kind":"match","line":1,"cell":0}', 43),
    # a condition is whole or none, and of a line alone
    (b'{"cmd":"break","kind":"line","line":1,"cell":0}', 43), (b'{"cmd":"break","kind":"line","line":1,"cell":0,"is":"=="}', 43),
    (b'{"cmd":"break","kind":"line","line":1,"cell":0,"value":1}', 43), (b'{"cmd":"break","kind":"line","line":1,"is":"==","value":1}', 43),
    (b'{"cmd":"break","kind":"line","line":1,"cell":0,"is":"=","value":1}', 43), (b'{"cmd":"break","kind":"line","line":1,"cell":0,"is":"== ","value":1}', 43),
    (b'{"cmd":"break","kind":"line","line":1,"cell":0,"is":"==","value":-9223372036854775809}', 43),
    (b'{"cmd":"break","kind":"line","line":1,"cell":0,"is":"==","value":9223372036854775808}', 43),
    (b'{"cmd":"break","kind":"line","line":1,"cell":-1,"is":"==","value":1}', 43), (b'{"cmd":"break","kind":"line","line":1,"cell":0,"is":"==","value":1.0}', 43),
    (b'{"cmd":"break","kind":"line","line":1,"rank":null}', 43), (b'{"cmd":"break","kind":"line","line":1,"rank":-1}', 43),
    (b'{"cmd":"break","kind":"match","line":1,"cell":0,"is":"==","value":1}', 43), (b'{"cmd":"break","kind":"rank"}', 43),
    (b'{"cmd":"break","kind":"rank","rank":0,"line":1}', 43),
    (b'{"cmd":"break","kind":"handle","rank":0}', 43), (b'{"cmd":"break","kind":"handle","rank":0,"handle":0,"cell":0}', 43),
    (b'{"cmd":"break","kind":"handle","rank":0,"cell":0}', 43), (b'{"cmd":"break","kind":"change","rank":0,"handle":0}', 43),
    (b'{"cmd":"break","kind":"handle","handle":null,"rank":0}', 43), (b'{"cmd":"break","kind":"Handle","rank":0,"handle":0}', 43),
    (b'{"cmd":"run-on"}', 43), (b'{"cmd":"run-on","max":1.0}', 43), (b'{"cmd":"run-on","max":1,"count":1}', 43), (b'{"cmd":"run_on","max":1}', 44),
    (b'{"cmd":"break","kind":["line"],"line":1}', 43), (b'{"cmd":"break","kind":null,"line":1}', 43), (b'{"cmd":"unbreak"}', 43),
    (b'{"cmd":"unbreak","break":"0"}', 43), (b'{"cmd":"breaks","break":0}', 43), (b'{"cmd":"hit","break":0}', 43), (b'{"cmd":"hits"}', 44), (b'{"cmd":"explore","runs":1}', 43),
    (b'{"cmd":"explore","fuel":1}', 43), (b'{"cmd":"explore","runs":1,"fuel":1,"split":0}', 43), (b'{"cmd":"explore","runs":1,"fuel":2.0}', 43),
    # requests
    (b'{"cmd":"state"}', None), (b' \t{ "cmd" :\t"state" }\r ', None), (b'{"cmd":"state","at":0}', None), (b'{"at":18446744073709551615,"cmd":"state"}', None),
    (b'{"\\u0063md":"\\u0073tate"}', None), (b'{"cmd":"s\\u0074ep","step":"local\\t0"}', None), (b'{"cmd":"run\\u002dback"}', None),
    (b'{"cmd":"fly","cmd":"state"}', None), (b'{"cmd":5,"cmd":"state"}', None), (b'{"cmd":"state","at":null,"at":0}', None),
    (b'{"cmd":"step","step":"\\u006cocal 0"}', None), (b'{"cmd":"step","step":"  match  0.0\\t1.0 "}', None),
    (b'{"cmd":"step","step":"wake 000000001"}', None), (b'{"cmd":"step","step":"release"}', None), (b'{"cmd":"step","step":"match 9.999999999 0.0"}', None),
    (b'{"cmd":"run-on","max":18446744073709551615}', None), (b'{"cmd":"break","kind":"handle","rank":9,"handle":9}', None),
    (b'{"cmd":"next"}', None), (b'{"choice":0,"cmd":"next","at":0}', None), (b'{"cmd":"run","max":0}', None), (b'{"cmd":"back","count":18446744073709551615}', None),
    (b'{"cmd":"redo","count":0}', None), (b'{"cmd":"goto","depth":18446744073709551615}', None), (b'{"cmd":"run-back"}', None), (b'{"cmd":"enabled"}', None),
    (b'{"cmd":"vars","rank":99}', None), (b'{"cmd":"calls","rank":0}', None), (b'{"cmd":"why","rank":0,"call":0}', None),
    (b'{"cmd":"break","kind":"line","line":0}', None), (b'{"cmd":"break","kind":"match","line":1}', None),
    (b'{"cmd":"break","kind":"change","rank":0,"cell":0}', None), (b'{"kind":"line","cmd":"break","line":1,"kind":"match"}', None),
    (b'{"cmd":"unbreak","break":0}', None), (b'{"cmd":"breaks"}', None), (b'{"cmd":"hit"}', None), (b'{"cmd":"explore","runs":0,"fuel":0}', None),
    (b'{"cmd":"state"}' + b' ' * 4081, None), (b'{"cmd":"state"}' + b' ' * 4082, 41), (b'\xff' * 4097, 41))

# The same of a session without `--wide`: its commands are these sixteen, and its kinds of breakpoints these three, with these fields.
TESTED_PLAIN = (
    (b'{"cmd":"step","step":"local 0"}', None), (b'{"cmd":"next"}', None), (b'{"cmd":"next","choice":0}', None), (b'{"cmd":"run","max":1}', None),
    (b'{"cmd":"back","count":1}', None), (b'{"cmd":"redo","count":1}', None), (b'{"cmd":"goto","depth":0}', None), (b'{"cmd":"run-back"}', None),
    (b'{"cmd":"enabled"}', None), (b'{"cmd":"state"}', None), (b'{"cmd":"vars","rank":0}', None), (b'{"cmd":"calls","rank":0}', None),
    (b'{"cmd":"why","rank":0,"call":0}', None), (b'{"cmd":"break","kind":"line","line":1}', None), (b'{"cmd":"break","kind":"match","line":1}', None),
    (b'{"cmd":"break","kind":"change","rank":0,"cell":0}', None), (b'{"cmd":"unbreak","break":0}', None), (b'{"cmd":"breaks"}', None),
    (b'{"cmd":"explore","runs":1,"fuel":1}', None), (b'{"at":0,"cmd":"state"}', None),
    # the nine others, whatever their fields
    (b'{"cmd":"run-on","max":1}', 44), (b'{"cmd":"run-on"}', 44), (b'{"cmd":"hit"}', 44), (b'{"cmd":"hit","break":0}', 44), (b'{"cmd":"script"}', 44),
    (b'{"cmd":"where"}', 44), (b'{"cmd":"all"}', 44), (b'{"cmd":"decision"}', 44), (b'{"cmd":"steps","from":0,"count":1}', 44), (b'{"cmd":"steps"}', 44),
    (b'{"cmd":"lines","rank":0}', 44), (b'{"cmd":"explain"}', 44), (b'{"at":null,"cmd":"explain"}', 44), (b'{"cmd":"state","cmd":"where"}', 44),
    (b'{"cmd":"wher\\u0065"}', 44), (b'{"cmd":"fly"}', 44),
    # the two other kinds, and the five fields
    (b'{"cmd":"break","kind":"handle","rank":0,"handle":0}', 43), (b'{"cmd":"break","kind":"rank","rank":0}', 43),
    (b'{"cmd":"break","kind":"line","line":1,"rank":0}', 43), (b'{"cmd":"break","kind":"match","line":1,"rank":0}', 43),
    (b'{"cmd":"break","kind":"line","line":1,"cell":0,"is":"==","value":0}', 43), (b'{"cmd":"break","kind":"line","line":1,"cell":0}', 43),
    (b'{"cmd":"break","kind":"line","line":1,"is":"=="}', 43), (b'{"cmd":"break","kind":"line","line":1,"value":0}', 43),
    (b'{"cmd":"break","kind":"line","line":1,"rank":0,"cell":0,"is":"==","value":0}', 43), (b'{"cmd":"break","kind":"rank","kind":"line","line":1}', None),
    (b'{"cmd":"break","kind":"Line","line":1}', 43), (b'{"cmd":"break","kind":"line"}', 43), (b'{"cmd":"break","kind":"change","rank":0}', 43))

# Inputs of the script FIRST in pieces, each of which is one read, with what is answered: lines as long as they may be and longer, whose
# ends come by themselves, and a character and an escape that are cut.
FULL_LINE = STATE + ' ' * (4096 - len(STATE))
IN_PIECES = (
    ((FULL_LINE, '\n'), START_OF_FIRST), ((FULL_LINE, '\r', '\n'), START_OF_FIRST), ((FULL_LINE, '\r\n'), START_OF_FIRST), ((FULL_LINE,), START_OF_FIRST),
    ((FULL_LINE, '\r'), no('line-too-long')), ((FULL_LINE, '\r', '\r\n'), no('line-too-long')), ((FULL_LINE, '\r', ' \n'), no('line-too-long')),
    ((FULL_LINE, '\r', '\r', '\n'), no('line-too-long')), ((FULL_LINE, ' ', '\r', '\n'), no('line-too-long')), ((FULL_LINE, ' '), no('line-too-long')),
    ((FULL_LINE[:-1], '\r', '\r', '\n'), START_OF_FIRST), ((FULL_LINE[:-1], '\r'), START_OF_FIRST),
    ((' ' * 4096, FULL_LINE, '\n' + STATE), f'{no("line-too-long")}\n{START_OF_FIRST}'), (('x' * 4096,) * 3 + (f'\n\n{STATE}\n',), f'{no("line-too-long")}\n{START_OF_FIRST}'),
    (('\n' * 4096, STATE), START_OF_FIRST), (('\r', '\n', '\r', '\n', STATE), START_OF_FIRST), (('\r', '\r', '\n'), no('not-json')),
    (('{"cmd":"\u00c3', '\u00a4"}\n'), no('unknown-command')), (('{"cmd":"\u00c3', '"}\n'), no('not-json')), (('{"cmd":"\\', 'u0073', 'tate"}', '\n'), START_OF_FIRST),
    (('{"cmd":"state"', '}'), START_OF_FIRST), (('{"cmd":"state"',), no('not-json')))

MOST_DEEP = 1_000_000
# What takes a million steps; a program alone is asked. A loop takes two steps for each turn, and one more; a script that sends to itself
# behind it, and receives, is at a choice behind the last step that there may be, and one that receives alone is stuck there.
COUNTED = 'mpd 1; ranks 1; var i; var x; req h;\nwhile i < {} {{ i = i + 1; }}\n{}'
LONG = (
    Dialogue('a choice behind a million steps', COUNTED.format(499_998, 'print i; isend h 1 to 0 tag 0; recv x from any tag any;'), (
        ('{"cmd":"run","max":1000000}', ran(MOST_DEEP, MOST_DEEP, 'choice', 1)), (NEXT, needs_choice(1)), ('{"cmd":"next","choice":1}', no('bad-number')),
        ('{"cmd":"next","choice":0}', no('full')), (step('match 0.0 0.1'), no('full')), (step('match 0.1 0.0'), no('not-enabled')),
        ('{"cmd":"run","max":1}', ran(MOST_DEEP, 0, 'choice', 2)), ('{"cmd":"vars","rank":0}', '{"handles":[0],"ok":true,"out":[499998],"vars":[499998,0],"version":2}'))),
    Dialogue('a leaf behind a million steps', COUNTED.format(499_999, 'recv x from 0 tag 0;'), (
        ('{"cmd":"run","max":1000000}', ran(MOST_DEEP, MOST_DEEP, 'leaf', 1)), (NEXT, no('not-enabled')), (step('local 0'), no('not-enabled')),
        (STATE, '{"depth":1000000,"ok":true,"outcome":"deadlock 0.0","ranks":["blocked 0"],"sets":[],"undone":0,"version":1}'))),
    Dialogue('a million steps', ON_AND_ON, (
        ('{"cmd":"run","max":1000000}', ran(MOST_DEEP, MOST_DEEP, 'full', 1)), (step('wake 0'), no('not-enabled')), (step('local 0'), no('full')),
        (NEXT, no('full')), ('{"cmd":"run","max":1}', ran(MOST_DEEP, 0, 'full', 2)), ('{"cmd":"explore","fuel":1,"runs":1}', no('bad-number')),
        ('{"cmd":"back","count":1}', deep(999_999, 3)), ('{"cmd":"explore","fuel":2,"runs":1}', no('bad-number')),
        ('{"cmd":"explore","fuel":1,"runs":1}', '{"leaves":["[] cut"],"more":false,"ok":true,"version":3}'), (NEXT, stepped(MOST_DEEP, 'local 0', 4)),
        ('{"cmd":"back","count":1000000}', deep(0, 5)), ('{"cmd":"redo","count":1000000}', deep(MOST_DEEP, 6)), (RUN_BACK, ran(0, MOST_DEEP, 'start', 7)),
        (STATE, '{"depth":0,"ok":true,"ranks":["at 1"],"sets":[],"undone":1000000,"version":7}'),
        ('{"cmd":"break","kind":"line","line":1}', set_break(0, 8)), ('{"cmd":"run","max":1000000}', ran(1, 1, 'break', 9, 0)),
        ('{"cmd":"redo","count":999999}', deep(MOST_DEEP, 10)), (RUN_BACK, ran(999_999, 1, 'break', 11, 0)))),
)


def dialogue_problem(row):
    """What the model replies otherwise than a dialogue says; None where nothing is."""
    limit = debugger.MOST_STEPS if row.limit is None else row.limit
    with mock.patch.object(debugger, 'MOST_STEPS', limit):
        said = [replies(Session(read_script(row.script.encode()), row.mode, wide), row.asked()) for wide in (BOTH if row.is_plain() else (row.wide,))]
    wrong = next((one for one in said if one != row.wanted()), None)
    if wrong is None:
        return None
    lines = zip(wrong.split(b'\n'), row.wanted().split(b'\n'))
    return next((f'replied {line.decode()}, and not {due.decode()}' for line, due in lines if line != due), 'another number of replies')


def ending_problem(data, wanted):
    said = serve(FIRST.encode(), data.encode('latin-1'))
    return None if said == Result(wanted.encode(), b'', 0) else f'{said}'


def number_of_refusal(line, wide):
    """The number by which a line is refused before a session is asked; None where it is a request."""
    try:
        parse(line, wide)
    except Refused as refused:
        return refused.number
    return None


def tested_problem(line, number, wide):
    said = number_of_refusal(line, wide)
    return None if said == number else f'refused {said}, and not {number}'


def tested_input(rows=TESTED):
    """All these lines in one input, each with its end."""
    return b''.join(line + b'\n' for line, _ in rows)


def tested_differently(output, rows=TESTED):
    """The lines that are refused otherwise in one session, by its replies; another number of replies is one too."""
    texts = output.decode().split('\n')
    if len(texts) != len(rows) + 1:
        return [f'{len(texts) - 1} replies']
    refusals = {number: no(NAMES[number]) for _, number in rows if number}
    said = [(line, number, next((known for known, text in refusals.items() if text == reply), None)) for (line, number), reply in zip(rows, texts)]
    return [f'{line[:80]!r} was refused {by}, and not {number}' for line, number, by in said if by != number]


def last_version_problem():
    """What becomes of the last version there is."""
    session = Session(read_script(FIRST.encode()))
    session.version = 18446744073709551614
    said = replies(session, b'\n'.join([step('local 0').encode()] * 2 + [b'{"at":18446744073709551615,"cmd":"unbreak","break":0}']))
    wanted = [deep(1, 18446744073709551615), deep(2, 18446744073709551615), no('no-such-break'), '']
    return None if said.decode().split('\n') == wanted else f'{said}'


def turns_problem():
    """What comes of an input that never ends, one line feed in each read; and of one that ends in the last read there is."""
    state = STATE.encode() + b'\n'
    for packets, wanted in (
            ([b'\n'] * 1_000_000, Result(b'', b'mpdbg: turns\n', 3)), ([b'\n'] * 999_999, Result(b'', b'', 0)),
            ([state] + [b'x'] * 999_999, Result(f'{START_OF_FIRST}\n'.encode(), b'mpdbg: turns\n', 3))):
        if (said := serve_packets(FIRST.encode(), packets)) != wanted:
            return f'{said}'
    return None


def example_problem(name):
    """What the model replies otherwise than an example of a session says; None where nothing is."""
    said = serve(open_example(f'{name}.mpd'), open_example(f'{name}.requests'), wide=True)
    return None if said == Result(open_example(f'{name}.replies'), b'', 0) else f'{said}'


def dialogue_problems(dialogues):
    """Each dialogue, with what is wrong of it, or None."""
    return ((f'a dialogue, {row.what}', dialogue_problem(row)) for row in dialogues)


def problems():
    """Each row, with what is wrong of it, or None."""
    yield from ((f'the session {name}', example_problem(name)) for name in example_names('.requests'))
    yield from dialogue_problems(DIALOGUES)
    yield from ((f'an ending, {data[:50]!r}', ending_problem(data, wanted)) for data, wanted in ENDINGS)
    yield from ((f'pieces, {pieces[-1][:50]!r}', ending_problem(''.join(pieces), f'{wanted}\n')) for pieces, wanted in IN_PIECES)
    yield from ((f'a line, {line[:80]!r}', tested_problem(line, number, True)) for line, number in TESTED)
    yield from ((f'a line without --wide, {line[:80]!r}', tested_problem(line, number, False)) for line, number in TESTED_PLAIN)
    yield 'the last version', last_version_problem()
    yield 'reads of a session', turns_problem()
