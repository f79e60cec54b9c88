"""How `serve` starts and ends: its port, its address, its words, how many clients there are, what a terminal is told; and sessions of one
client, which are those of `run`.
"""

import os
import select
import socket
import subprocess
import sys
import tempfile
import time
import tty

from cases.session_cases import random_case
from model.debugger import BAD_MODE, Result
from model.files import held
from model.session import Refused, lines_of, parse
from rows.examples import EXAMPLES
from rows.worked_sessions import STATE, deep, no, ran, step
from served.served_clients import HERE, Wrong, must_be
from served.served_leavers import LOOP, ONE, SCRIPT, go, state
from served.served_program import DEVICE, free_port
from started.devices import refused, rest_told
from started.turn_by_turn import answered

NO_DEVICE = Result(b'', DEVICE, 3)
AGAIN = 4
BAD = b'mpd 1;ranks 1;print'
# Words that are wrong behind FILE, and each of them is told by a text of its own.
WRONG_WORDS = ((), ('--port', '7'), ('--clients', '1'), ('--port', '0', '--clients', '1'), ('--port', '65536', '--clients', '1'),
               ('--port', '7', '--clients', '0'), ('--port', '7', '--clients', '17'), ('--port', 'x', '--clients', '1'),
               ('--port', '-1', '--clients', '1'), ('--port', '7', '--clients', '1.0'), ('--port', '', '--clients', '1'),
               ('--port', '7', '--clients', '1', '--fly'), ('more', '--port', '7', '--clients', '1'))


# ---- the port and the address

def again(tried):
    """It can be started on its port again, as soon as it has ended, whatever became of the clients."""
    port, replies = free_port(), 0
    for turn in range(AGAIN):
        with tried.serve(LOOP, 3, port=port) as server:
            one, other, broken = server.ask_for(3)
            go(one, 0, 2)
            go(other, 2, 1)
            go(broken, 3, 1)
            replies += 4
            broken.break_off()
            if turn % 2:
                one.shut()
                must_be(one.rest(), '', 'behind the last reply')
            server.must_end(4)
    return replies


def taken_port(tried):
    """A port that somebody listens on can't be taken, which is told behind all faults of the words, the mode, the file and the script."""
    with socket.create_server((HERE, 0)) as listener, tempfile.TemporaryDirectory(prefix='serving-') as folder:
        rest = ('--port', listener.getsockname()[1], '--clients', 1)
        good, bad, missing = held(folder, 'good', SCRIPT), held(folder, 'bad', BAD), os.path.join(folder, 'none')
        rows = (
            ((good, *rest), NO_DEVICE), ((missing, *rest), NO_DEVICE), ((folder, *rest), NO_DEVICE),
            ((bad, *rest), refused(b'4 expected at 19 line 1')), ((good, *rest, '--mode', 'none'), BAD_MODE),
            ((bad, *rest, '--mode', 'none'), BAD_MODE), ((missing, *rest, '--mode', 'none'), BAD_MODE))
        for words, wanted in rows:
            must_be(tried.run('serve', *words), wanted, f'a port that is taken, {words[0]}')
    with tried.serve(SCRIPT, 1) as server:
        with tempfile.TemporaryDirectory(prefix='serving-') as folder:
            words = ('serve', held(folder, 'good', SCRIPT), '--port', server.port, '--clients', 1)
            must_be(tried.run(*words), NO_DEVICE, 'a port that another one serves')
        server.client().must(STATE, state(0, 0))
        server.must_end(1)
    return len(rows) + 2


def wrong_words(tried):
    """Wrong words are told on standard error alone, status 2, before a file is opened."""
    file = os.path.join(EXAMPLES, 'none.mpd')
    for words in (*((file, *words) for words in WRONG_WORDS), ('--port', '7', '--clients', '1')):
        result = tried.run('serve', *words)
        must_be((result.output, bool(result.errors), result.status), (b'', True, 2), f'the words {words}')
    return len(WRONG_WORDS) + 1


def is_answered(address, port, family=socket.AF_INET):
    """Whether somebody listens at an address of this machine."""
    try:
        with socket.socket(family) as it:
            it.settimeout(1)
            it.connect((address, port))
    except OSError:
        return False
    return True


def other_addresses():
    """Addresses of this machine but for that of the server; the last is the one that others know it by, where there is a way to them."""
    yield socket.AF_INET, '127.0.0.2'
    yield socket.AF_INET6, '::1'
    with socket.socket(type=socket.SOCK_DGRAM) as it:
        try:
            # this sends nothing
            it.connect(('192.0.2.1', 9))
        except OSError:
            return
        if it.getsockname()[0] != HERE:
            yield socket.AF_INET, it.getsockname()[0]


def one_address(tried):
    """It listens on 127.0.0.1 alone."""
    with tried.serve(SCRIPT, 1) as server:
        for family, address in other_addresses():
            if is_answered(address, server.port, family):
                raise Wrong(f'it listens on {address}')
        server.client().must(STATE, state(0, 0))
        server.must_end(1)
    return 1


def so_many_clients(tried):
    """So many clients are served, and nobody else, also when one has left."""
    for count in (1, 2, 16):
        with tried.serve(LOOP, count) as server:
            clients = server.ask_for(count)
            for number, client in enumerate(clients):
                go(client, number, 1)
            try:
                more = server.client()
                more.send(f'{ONE}\n')
            except OSError:
                more = None
            if count > 1:
                clients[0].leave()
            if more is not None and is_told(more):
                raise Wrong(f'one more than {count} clients is served')
            go(clients[-1], count, 1)
            server.must_end(count + 1)
    return 22


def is_told(client):
    """Whether a client that is not to be served is sent something; it may see an end, or that it is broken off."""
    try:
        return bool(client.read(time.monotonic() + 0.2))
    except OSError:
        return False


def no_thread(tried):
    """Where no thread can be started for a client it is let go, and the others are served. The stand-in isn't tried, and root alone can."""
    if os.geteuid() or tried.words[0] == sys.executable:
        return 1
    with tried.serve(SCRIPT, 3, threads=2) as server:
        one = server.client()
        one.must(step('local 0'), deep(1, 1))
        for other in server.ask_for(2):
            must_be(other.rest(), '', 'a client without a thread')
        one.must(step('local 0'), deep(2, 2))
        server.must_end(2)
    return 2


# ---- outputs

def outputs(tried):
    """What can't be written is a fault; the first line is written before a client is waited for."""
    with open('/dev/full', 'wb') as full, tempfile.TemporaryDirectory(prefix='serving-') as folder:
        words = ('serve', held(folder, 'good', SCRIPT), '--port', free_port(), '--clients', 1)
        must_be(tried.run(*words, output=full), NO_DEVICE, 'no room for its first line')
    with tried.serve(SCRIPT, 1) as server:
        client = server.client()
        client.must(STATE, state(0, 0))
        server.process.stdout.close()
        server.process.stdout = None
        client.leave()
        must_be(server.result(), Result(f'listening {server.port}\n'.encode(), DEVICE, 3), 'nobody reads its last line')
    return 1


def told_of(terminal, text, until):
    """What a terminal is told up to a text, or until then: two threads may tell at the same time, so who leaves next waits for it."""
    said = b''
    while text not in said and select.select([terminal], [], [], max(0, until - time.monotonic()))[0]:
        said += os.read(terminal, 1 << 16)
    return said


def at_terminal(tried):
    """At a terminal each client that comes or leaves is told, on standard error; standard output is as ever."""
    ours, theirs = os.openpty()
    tty.setraw(theirs)
    with tried.serve(SCRIPT, 2, errors=theirs) as server:
        one, other = server.ask_for(2)
        one.must(step('local 0'), deep(1, 1))
        other.must(step('local 0'), deep(2, 2))
        other.must(step('wake 0'), no('not-enabled'))
        one.leave()
        said = told_of(ours, b'request\n', server.until)
        server.must_end(3)
    os.close(theirs)
    said += rest_told(ours)
    came, left = said.decode().splitlines()[:2], said.decode().splitlines()[2:]
    if came != [f'client {number} of 2 is here' for number in (0, 1)] or left != ['client 0 left after 1 request', 'client 1 left after 2 requests']:
        raise Wrong(f'a terminal is told {said!r}')
    return 3


def example_client(tried):
    """What examples/socket_client.py says: alone, and where the session ended before."""
    script, words = os.path.join(EXAMPLES, 'socket_client.py'), ('version 0: local 0\nrank 0: at 4\nrank 1: at 4\n',
                                                                'version 2: not-enabled\nrank 0: ended\nrank 1: ended\n')
    with tried.serve(SCRIPT, 3) as server:
        for wanted in words:
            said = subprocess.run([sys.executable, script, str(server.port)], capture_output=True, text=True, timeout=tried.seconds, check=False)
            must_be((said.stdout, said.stderr), (wanted, ''), 'the example')
            if wanted == words[0]:
                client = server.client()
                client.must('{"cmd":"run","max":100}', ran(8, 7, 'leaf', 2))
        server.must_end(3 + 1 + 3)
    return 7


# ---- as `run` does

def is_request(line, wide):
    try:
        parse(line, wide)
    except Refused:
        return False
    return True


def session_said(client, case):
    """All that a client is replied that sends a session at once, in pieces, or line by line."""
    replies = []
    for piece in [case.data] if case.way == 'at once' else case.pieces:
        replies += client.exchange(piece, answered(piece) if case.way == 'turn by turn' else 0)
    client.shut()
    rest = client.rest().encode()
    return b''.join(line + b'\n' for line, _ in replies) + rest


def as_run(tried):
    """Sessions of one client are answered as `run` answers them, byte for byte, and their requests are counted."""
    replies = 0
    for number in range(tried.sessions):
        case = random_case(tried.seed, number)
        wanted = case.wanted()
        if wanted.status:
            with tempfile.TemporaryDirectory(prefix='serving-') as folder:
                mode = () if case.mode is None else ('--mode', case.mode)
                words = ('serve', held(folder, 'script.mpd', case.script), '--port', free_port(), '--clients', 1, *mode)
                must_be(tried.run(*words), wanted, case.name)
            continue
        with tried.serve(case.script, 1, case.mode, wide=case.wide) as server:
            must_be(session_said(server.client(), case), wanted.output, f'{case.name} ({case.way})')
            server.must_end(sum(is_request(line, case.wide) for line in lines_of(case.data) if line))
        replies += wanted.output.count(b'\n')
    return replies
