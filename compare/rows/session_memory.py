"""Sessions of `run` in which memory is refused; compare/runs/refused_memory.py refuses each of their allocations in turn.

A session may end with `mpdbg: memory`, status 3, before it has read a request. Behind that a request may be answered by one of two
constant lines: `memory`, and then all goes on as if it had not been made, or `unprinted`, and then as if it had been answered. Which of
the two it was is seen by `state`, and by `breaks` too where it is of breakpoints, which stand behind each request that may change
something. A line that is too long, and an empty one, take no memory at all.
"""

import json
from typing import NamedTuple

from model import policy
from model.debugger import BUFFERED, RENDEZVOUS, enabled_steps, lines_of, step_text
from model.language import read_script
from model.session import CHANGING, LONGEST_LINE, Refused, Session, answer_line, parse, reply_bytes

REFUSED, UNPRINTED = b'{"error":"memory","ok":false}\n', b'{"error":"unprinted","ok":false}\n'
STATE, BREAKS = b'{"cmd":"state"}', b'{"cmd":"breaks"}'

SCRIPT = (b'mpd 1;\nranks 3;\nvar x;\nvar a[2];\nreq r[2];\nx = 9;\nif rank == 0 {\n  irecv r[0] x from any tag any status a[0] a[1];\n'
          b'  irecv r[1] x from any tag any;\n  wait r[0];\n  print x;\n  wait r[1];\n  print -x;\n} else {\n  send rank to 0 tag rank;\n}\nbarrier;\n')
HEAD_TO_HEAD = b'mpd 1; ranks 2; var x;\nsend rank to 1 - rank tag 5;\nrecv x from 1 - rank tag 5;\nbarrier;\nprint x;\n'


class Asked(NamedTuple):
    """A session: its script, the mode, its lines, and whether `--wide` is given."""
    name: str
    script: bytes
    mode: str
    lines: tuple
    wide: bool = True

    @property
    def data(self):
        return b''.join(line + b'\n' for line in self.lines)


def looks_behind(line):
    """What is asked behind a line, so that it is seen what it has changed."""
    try:
        command = parse(line, True).command
    except Refused:
        return ()
    return (STATE,) * (command in CHANGING) + (BREAKS,) * (command in ('break', 'unbreak'))


def with_looks(requests):
    """The lines of requests, with looks behind each that may change something."""
    for request in requests:
        line = request if isinstance(request, bytes) else json.dumps(request).encode()
        yield from (line, *looks_behind(line))


def stop(kind, **fields):
    return {'cmd': 'break', 'kind': kind, **fields}


RUN, RUN_ON, RUN_BACK, NEXT = {'cmd': 'run', 'max': 100}, {'cmd': 'run-on', 'max': 100}, {'cmd': 'run-back'}, {'cmd': 'next'}
TOLD = ({'cmd': 'enabled'}, *({'cmd': command, 'rank': 0} for command in ('vars', 'calls')), {'cmd': 'why', 'rank': 0, 'call': 0},
        *({'cmd': command} for command in ('script', 'where', 'all', 'decision', 'explain', 'hit')), {'cmd': 'steps', 'from': 0, 'count': 100}, {'cmd': 'lines', 'rank': 0})
EXPLORE = {'cmd': 'explore', 'runs': 10, 'fuel': 100}
RUNS = (stop('line', line=17), stop('match', line=9), stop('change', rank=0, cell=0), stop('handle', rank=0, handle=1), RUN, RUN_ON, *TOLD, NEXT, {'cmd': 'next', 'choice': 1}, RUN,
        RUN_BACK, {'cmd': 'redo', 'count': 1}, EXPLORE, {'cmd': 'unbreak', 'break': 1}, {'cmd': 'unbreak', 'break': 1}, RUN, NEXT, RUN,
        {'cmd': 'goto', 'depth': 0}, {'cmd': 'redo', 'count': 100})
LINES = (b'', b' ', b'x', b'{', b'{"cmd":"fly"}', b'{"cmd":"state","at":9}', b'{"cmd":"state","x":[[],{"a":null}]}', b'x' * 4097, b'"\\ud83d\\ude00"',
         b'{"\\u0063md":"\\u0073tate"}', b'["a",1.5,-3,1e2,true,{"b":["c","d"]}]', b'{"cmd":"step","step":"local 0"}', b'{"cmd":"step","step":"fly"}',
         b'{"cmd":"step","step":"wake 0"}', b'{"cmd":"back","count":2}', b'{"cmd":"back","count":1}', b'{"cmd":"vars","rank":9}',
         b'{"cmd":"step","step":"local 1","at":2}', b'{"cmd":"explore","runs":0,"fuel":1}', b' ' * 4097, b'{"cmd":"breaks"}')


def step_by_step(script, mode):
    """Steps to the end, the first that is enabled each time, by `step` and by `next`; and all the way back and forward."""
    session, found = Session(read_script(script), mode), []
    while steps := enabled_steps(session.world):
        decided = policy.decision(session.world)
        is_next = len(found) % 2 and isinstance(decided, policy.Forced)
        found.append(NEXT if is_next else {'cmd': 'step', 'step': step_text(steps[0])})
        session.debugger.take(decided.step if is_next else steps[0])
    count = len(found)
    return [*found, {'cmd': 'back', 'count': count // 2}, {'cmd': 'redo', 'count': 3}, {'cmd': 'goto', 'depth': 1}, NEXT, RUN]


def sessions():
    """All of them."""
    yield Asked('a session of runs', SCRIPT, RENDEZVOUS, tuple(with_looks(RUNS)))
    yield Asked('a session of lines', SCRIPT, RENDEZVOUS, tuple(with_looks(LINES)))
    yield Asked('a session of steps, buffered', HEAD_TO_HEAD, BUFFERED, tuple(with_looks(step_by_step(HEAD_TO_HEAD, BUFFERED))))


def takes_memory(line):
    """Whether memory may be refused for a line: not where it isn't read."""
    return len(line) <= LONGEST_LINE


def problem(asked, result, refused):
    """What is wrong with a session in which memory was refused so often; None where nothing is."""
    if result.status == 3 and result.errors == b'mpdbg: memory\n':
        return f'ended behind {result.output[-80:]}' if result.output else None
    if result.status != 0 or result.errors:
        return f'status {result.status}, {result.errors}'
    session, rest = Session(read_script(asked.script), asked.mode, asked.wide), iter(result.output.splitlines(keepends=True))
    for line in filter(None, lines_of(asked.data)):
        said = next(rest, b'')
        if said == REFUSED and takes_memory(line):
            continue
        wanted = reply_bytes(answer_line(session, line))
        if said != wanted and not (said == UNPRINTED and takes_memory(line)):
            return f'{line[:80]} was answered {said[:120]}, and not {wanted[:120]}'
    if sum(result.output.count(text) for text in (REFUSED, UNPRINTED)) > refused:
        return f'more lines of memory than the {refused} times that it was refused'
    return 'replies behind the last' if next(rest, None) else None


def kind_of(result):
    """How a session went on in which memory was refused."""
    if result.status == 3:
        return 'ended'
    told = [name for name, text in (('memory', REFUSED), ('unprinted', UNPRINTED)) if text in result.output]
    return ' and '.join(told) or 'not seen'
