"""Worked rows of how a console starts with a witness or the choices of a run: what is told first, or why there is no console (console_worked.py).

Each was worked out by hand from docs/CONSOLE.md and docs/FORMATS.md ("Faults and statuses"). The words `history` and `redo` stand behind each.
"""

from typing import NamedTuple, Optional, Union

from model.console import NO_FILE, NamedRun, debug
from model.debugger import BAD_FILE, BAD_MODE, BUFFERED, RENDEZVOUS, Result
from rows.examples import open_example
from rows.worked_console_scripts import LOOP


class Start(NamedTuple):
    """What it is of, a script (None: there is no such file), the text of a witness, and what must be answered; the mode, and a run that is named
    by its choices."""
    what: str
    script: Optional[str]
    witness: Union[bytes, str, None]
    wanted: Result
    mode: str = RENDEZVOUS
    run: Optional[NamedRun] = None

    @property
    def text(self):
        return None if self.script is None else self.script.encode()


TYPED = b'history\nredo\n'
# Each rank waits for the other one, at once, or behind a send that none needs to wait for.
BOTH_RECEIVE = 'mpd 1; ranks 2; var x;\nrecv x from 1 - rank tag 0;\n'
BOTH_SEND = 'mpd 1; ranks 2; var x;\nsend 1 to 1 - rank tag 0;\nrecv x from 1 - rank tag 1;\n'


def ahead(line):
    """What is told where two local steps of a line lie ahead, by the text of that line."""
    return Result(f'''deadlock is 2 steps ahead: rank 0 at line 2, rank 1 at line 2
2 ahead: local 0: line 2
    2  {line}
no step is taken
1 local 0: line 2
1 ahead: local 1: line 2
    2  {line}
'''.encode(), b'', 0)


RECEIVED, SENT = ahead('recv x from 1 - rank tag 0;'), ahead('send 1 to 1 - rank tag 0;')


def refused(text):
    """What is answered where there is no console for the words of the command line."""
    return Result(b'', f'mpdbg: {text}\n'.encode(), 2)


def along(what, script, choices, wanted, mode=RENDEZVOUS, ends=False):
    """A row of a run that is named by its choices."""
    return Start(what, script, None, wanted, mode, NamedRun(choices, ends))


def told(text):
    """What is told, with status 0."""
    return Result(text.encode(), b'', 0)


TOGETHER = refused("--choices and --witness can't stand together")
ENDS_AT_ONCE, EMPTY = 'mpd 1; ranks 1;\nprint 5;\n', 'mpd 1; ranks 1;\n'
AT_ONCE = told('''done is 1 step ahead
1 ahead: local 0: line 2
    2  print 5;
no step is taken
1 local 0: line 2
rank 0 prints 5
ended: done
''')
NO_STEP = told('''done is 0 steps ahead
ended: done
no step is taken
refused: no step is ahead
''')
# The match of rank 2 comes first along the wide walk, where its request is the one that is taken (worked_ends.py).
ORDER_DECIDES = open_example('order_decides.mpd').decode()
TRAPPED = told('''trap is 14 steps ahead: rank 0 at line 11 (assert)
14 ahead: local 0: line 7
    7  if rank == 0 {
no step is taken
1 local 0: line 7
13 ahead: local 0: line 8
    8    irecv r[0] x from 1 tag 0;
''')

STARTS = (
    Start('a witness', BOTH_RECEIVE, b'deadlock 0.0 1.0\nlocal 0, local 1\n', RECEIVED),
    Start('a witness in a report', BOTH_RECEIVE, b'leaf 0 [] deadlock 0.0 1.0\nwitness 0: local 0, local 1\nleaves 1 more no\n', RECEIVED),
    Start('a witness, and a long line', BOTH_RECEIVE.replace(';\n', f'; # {"a" * 60}\n').replace(f' # {"a" * 60}', '', 1),
          b'deadlock 0.0 1.0\nlocal 0, local 1\n', ahead(f'recv x from 1 - rank tag 0; #\n        {"a" * 60}')),
    Start('a step that is not enabled', BOTH_RECEIVE, b'deadlock 0.0 1.0\nlocal 0, local 0\n', refused('witness refused 32 no-such-step at 1')),
    Start('a step of a rank that is not there', BOTH_RECEIVE, b'deadlock 0.0 1.0\nlocal 2\n', refused('witness refused 32 no-such-step at 0')),
    Start('steps that lead to no end', BOTH_RECEIVE, b'deadlock 0.0 1.0\nlocal 0\n', refused('witness refused 33 not-stuck')),
    Start('another call than those that are blocked', BOTH_RECEIVE, b'deadlock 0.0\nlocal 0, local 1\n', refused('witness refused 34 wrong-blocked')),
    Start('calls in another order', BOTH_RECEIVE, b'deadlock 1.0 0.0\nlocal 0, local 1\n', refused('witness refused 34 wrong-blocked')),
    Start('a deadlock of this mode alone', BOTH_SEND, b'deadlock 0.0 1.0\nlocal 0, local 1\n', SENT),
    Start('the same where sends are buffered', BOTH_SEND, b'deadlock 0.0 1.0\nlocal 0, local 1\n', refused('witness refused 33 not-stuck'), BUFFERED),
    Start('no word deadlock', BOTH_RECEIVE, b'deadlok 0.0\nlocal 0\n', refused('bad witness line 1')),
    Start('no second line', BOTH_RECEIVE, b'deadlock 0.0\n', refused('bad witness line 2')),
    Start('no file of a witness', BOTH_RECEIVE, NO_FILE, BAD_FILE),
    Start('the mode before the files', None, NO_FILE, BAD_MODE, 'eager'),
    Start('the script before the witness', None, b'deadlok', BAD_FILE),
    Start('a fault of the script before the witness', 'mpd 1; ranks 2; 5', NO_FILE, refused('script refused 4 expected at 16 line 1')),
    # a run that is named by its choices
    along('a run without a choice', BOTH_RECEIVE, '', RECEIVED), along('the same along the wide walk', BOTH_RECEIVE, '  ', RECEIVED, ends=True),
    along('the same of sends', BOTH_SEND, '', SENT), along('a run of one step', ENDS_AT_ONCE, '', AT_ONCE), along('no step', EMPTY, '', NO_STEP),
    along('choices of the wide walk alone', ORDER_DECIDES, '1 1', TRAPPED, ends=True),
    along('the same, and no choices along decisions', ORDER_DECIDES, '1 1', refused('bad choices at 0')),
    along('blanks, and zeros in front', ORDER_DECIDES, ' 01  1 ', TRAPPED, ends=True),
    along('a choice too many', BOTH_RECEIVE, '0', refused('bad choices at 0')),
    along('a choice too few', ORDER_DECIDES, '1', refused('bad choices at 1'), ends=True),
    *(along('choices that are none', BOTH_RECEIVE, text, refused('bad choices')) for text in ('x', '0,1', '-', '0000000001', '1 x')),
    along('the mode before the choices', BOTH_RECEIVE, 'x', BAD_MODE, mode='eager'), along('the file before the choices', None, 'x', BAD_FILE),
    along('the script before the choices', 'mpd 1; ranks 2; 5', 'x', refused('script refused 4 expected at 16 line 1')),
    *(Start('a witness and choices', script, witness, TOGETHER, mode, NamedRun(choices, ends)) for script, witness, mode, choices, ends in (
        (BOTH_RECEIVE, b'deadlock 0.0 1.0\nlocal 0, local 1\n', RENDEZVOUS, '', False), (None, NO_FILE, 'eager', 'x', True))))
STUCK_NOWHERE = b'deadlock 0.0\n' + b', '.join([b'local 0'] * 1_000_000)
# What the model isn't asked.
LONG_STARTS = (
    Start('a million steps', LOOP, STUCK_NOWHERE + b'\n', refused('witness refused 33 not-stuck')),
    Start('one step more', LOOP, STUCK_NOWHERE + b', local 0\n', refused('witness of more than 1000000 steps')))


def start_problem(row):
    """What the model answers otherwise than a row wants; None where nothing is."""
    result = debug(row.text, TYPED, row.mode, row.witness, row.run)
    return None if result == row.wanted else f'{result}'
