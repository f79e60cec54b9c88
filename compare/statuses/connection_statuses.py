"""What `serve` of the built program does where the connection of one client fails: each call that receives and each that sends in turn,
after each byte and each call; calls of one byte, and interrupted ones; an accept that fails; and a history that has taken all memory.
compare/runs/statuses.py runs these rows.

The first client sends two requests and hears what it can. Another one comes when it is gone, and asks where the session stands: the
request whose reply was being sent stands as taken, and what had not ended as a line doesn't. In the end the receipts of both agree with
the history, which `served` tells. All was worked out by hand from docs/SESSIONS.md.
"""

import contextlib
import errno
import os
import tempfile
from typing import NamedTuple

from model.debugger import Result
from rows.worked_sessions import STATE, deep, no, ran, step
from served.served_clients import Wrong, must_be
from served.served_leavers import ONE, SCRIPT, state
from served.served_program import DEVICE, Tried
from started.devices import SECONDS
from started.shims import HERE, built

RECEIVED, SENT = 4, 5
LINE = f'{step("local 0")}\n'
ASKED = LINE * 2
REPLIES = [f'{deep(count, count)}\n' for count in (1, 2)]
SAID = ''.join(REPLIES)
# What is told of the state behind so many steps.
STATES = [state(0, 0), state(1, 1), state(2, 2, '["blocked 0","at 4"]')]
MEMORY = b'mpdbg: memory\n'
# A rank that makes many calls, and one that has always a step. A turn of the first one's loop takes three steps, its end one, and the
# `if` one. Each reply to CALLS has a text for each call; so many of them are asked for, which the limit has no memory for.
MANY = 10_000
MANY_CALLS = f'mpd 1; ranks 2; var i; req r;\nif rank == 0 {{ while i < {MANY} {{ isend r i to 0 tag 0; i = i + 1; }} }} else {{\nwhile 1 {{ i = i + 1; }} }}'
STEPS = 3 * MANY + 2
CALLS = '{"cmd":"calls","rank":0}'
LISTED = '{"calls":[' + ','.join(f'"isend to 0 tag 0 value {value} free"' for value in range(MANY)) + '],"ok":true,"version":1}'
ASKED_FOR = 1000
LIMIT_MIB = 256


class Broken(NamedTuple):
    """What fails of the first connection, after how many calls or bytes; how much its client hears, and how many steps are taken."""
    device: int
    limit: str
    most: int
    heard: int
    taken: int

    @property
    def wanted(self):
        return SAID[:self.heard], STATES[self.taken], f'served {self.taken + 1}'


def told(words, asked=ASKED):
    """What the first client hears up to its end, what the second one is told then, and what is said in the end."""
    try:
        with Tried(tuple(words), seconds=SECONDS).serve(SCRIPT, 2) as server:
            first = server.client()
            heard = heard_of(first, asked)
            second = server.client()
            now = second.ask(STATE)
            result = server.result_of_all()
            return heard, now, result.output.decode().partition('\n')[2].strip() + result.errors.decode()
    except (Wrong, OSError) as wrong:
        return repr(wrong)


def heard_of(client, asked):
    """All that a client hears that sends this, and ends what it sends: up to the end, or until its connection is broken off."""
    # (where the other side was faster, there may be no connection any more)
    with contextlib.suppress(OSError):
        client.send(asked)
        client.shut()
    with contextlib.suppress(ConnectionError):
        while client.read():
            pass
    return client.came.decode()


def broken():
    """Each place at which the connection of the first client fails. Both requests may come in one call, and each reply is sent by itself."""
    for most in range(len(ASKED) + 1):
        taken = ASKED[:most].count('\n')
        yield Broken(RECEIVED, 'BYTES', most, len(''.join(REPLIES[:taken])), taken)
    yield Broken(RECEIVED, 'BYTES', len(ASKED) + 1, len(SAID), 2)
    yield Broken(RECEIVED, 'CALLS', 0, 0, 0)
    for most in range(len(SAID)):
        yield Broken(SENT, 'BYTES', most, most, 1 if most < len(REPLIES[0]) else 2)
    yield Broken(SENT, 'BYTES', len(SAID), len(SAID), 2)
    yield from (Broken(SENT, 'CALLS', most, len(''.join(REPLIES[:most])), min(most + 1, 2)) for most in range(3))


def broken_rows(program):
    """A connection that fails at each place in turn ends its client alone."""
    with tempfile.TemporaryDirectory() as folder:
        shim = built(os.path.join(HERE, 'fail_shim.c'), folder)
        for row in broken():
            words = ('env', f'LD_PRELOAD={shim}', f'FAIL_FILE={row.device}', f'FAIL_{row.limit}={row.most}', program)
            yield f'serve, {row}', told(words), row.wanted


def steady_rows(program):
    """Calls of one byte, and calls that are interrupted once: nothing else is seen of it. A client may leave in mid-line."""
    wanted = SAID, STATES[2], 'served 3'
    with tempfile.TemporaryDirectory() as folder:
        for name in ('short', 'interrupt'):
            shim = built(os.path.join(HERE, f'{name}_shim.c'), folder)
            yield f'serve, {name}', told(('env', f'LD_PRELOAD={shim}', program)), wanted
    yield 'serve', told((program,)), wanted
    yield 'serve, left in mid-line', told((program,), '{"cmd":"sta'), (no('not-json') + '\n', STATES[0], 'served 1')


def behind_accept(program, shim, error, which):
    """What is said in the end where one of the accepts of two clients fails so, and the first client asks behind that."""
    words = ('env', f'LD_PRELOAD={shim}', f'ACCEPT_FAILS={which}', f'ACCEPT_ERROR={error}', program)
    try:
        with Tried(words, seconds=SECONDS).serve(SCRIPT, 2) as server:
            first, second = server.ask_for(2)
            first.must(step('local 0'), deep(1, 1))
            if error == errno.ECONNABORTED:
                second.must(STATE, STATES[1])
            return server.result_of_all()._replace(output=server.said.partition(b'\n')[2])
    except (Wrong, OSError) as wrong:
        return repr(wrong)


def accept_rows(program):
    """An accept whose client has left already is made again. Any other that fails ends the server, once those that were accepted have
    left; where it is refused memory, that is told."""
    ends = {errno.ECONNABORTED: Result(b'served 2\n', b'', 0), errno.ENOMEM: Result(b'', MEMORY, 3), errno.EMFILE: Result(b'', DEVICE, 3)}
    with tempfile.TemporaryDirectory() as folder:
        shim = built(os.path.join(HERE, 'accept_shim.c'), folder)
        for error, wanted in ends.items():
            for which in (1, 2) if error == errno.ECONNABORTED else (2,):
                yield f'serve, accept {which} fails: {os.strerror(error)}', behind_accept(program, shim, error, which), wanted


def until_memory(client):
    """Asks for all calls until that is refused memory: how many of these requests were taken."""
    for taken in range(ASKED_FOR):
        reply = client.ask(CALLS)
        if reply == no('memory'):
            return taken
        # (where memory is refused as the reply is written, its request is taken)
        if reply != no('unprinted'):
            must_be(reply, LISTED, f'the calls, {taken} times before')
    raise Wrong(f'memory is never refused in {ASKED_FOR} requests')


def behind_history(program):
    """What is said in the end where the history has taken all memory that there may be, and what must be said: all requests are told that
    were taken. No client is told what isn't so, and each goes on."""
    words = ('sh', '-c', f'ulimit -v {LIMIT_MIB << 10}; exec "$0" "$@"', program)
    try:
        with Tried(words, seconds=SECONDS).serve(MANY_CALLS.encode(), 2) as server:
            greedy, other = server.ask_for(2)
            greedy.must(f'{{"cmd":"run","max":{STEPS}}}', ran(STEPS, STEPS, 'max', 1))
            other.must(STATE, state(STEPS, 1, '["ended","at 2"]'))
            taken = until_memory(greedy)
            if not taken:
                raise Wrong('memory is refused at once')
            other.must(STATE, state(STEPS, 1, '["ended","at 2"]'))
            other.must(ONE, ran(STEPS + 1, 1, 'max', 2))
            greedy.must(STATE, state(STEPS + 1, 2, '["ended","at 3"]'))
            greedy.must(ONE, ran(STEPS + 2, 1, 'max', 3))
            other.must(STATE, state(STEPS + 2, 3, '["ended","at 3"]'))
            return server.result_of_all(), server.served(taken + 7)
    except (Wrong, OSError) as wrong:
        return repr(wrong), None


def memory_rows(program):
    """A client whose replies have filled the memory that there may be is refused more of it, and nothing is lost by that."""
    yield f'serve, a history with {LIMIT_MIB} MiB', *behind_history(program)


ROWS = (broken_rows, steady_rows, accept_rows, memory_rows)
