"""Clients of a shared session that are silent, leave, break off, send what never ends, or never read: the others are answered, each request
that was taken is counted, and no reply is lost. All replies were worked out by hand from docs/SESSIONS.md.

Of a client that breaks off it is not known how much of what it sent was taken: at least what it was answered, and at least the changes
that the version shows, at most all. In between every count is right.
"""

import json
import time

from rows.examples import open_example, shared_dialogue, shared_dialogues
from rows.worked_sessions import BREAKS, STATE, deep, no, ok, ran, set_break, stale, step
from served.served_clients import MIB, Wrong, must_be

# In SCRIPT a rank sends to another; in LOOP there is always a step.
SCRIPT = open_example('two_clients.mpd')
LOOP = b'mpd 1; ranks 1; var i; while 1 { i = i + 1; }'
ONE = '{"cmd":"run","max":1}'
LONG = 100 * MIB
# Numbers of 19 digits, so that the reply to `vars` is long. A turn of the loop takes three steps, and its end one.
CELLS = 1023
ENDED = 3 * CELLS + 1
MUCH = f'mpd 1; ranks 1; var i; var a[{CELLS}];\nwhile i < {CELLS} {{ a[i] = -1234567890123456789; i = i + 1; }}'.encode()
# How many pairs of a short and a long reply a client asks for that never reads.
PAIRS = 4000
# How much memory a long line may take, in MiB.
MOST_KEPT = 16


def state(depth, version, ranks='["at 4","at 4"]'):
    return f'{{"depth":{depth},"ok":true,"ranks":{ranks},"sets":[],"undone":0,"version":{version}}}'


def version_now(client):
    return json.loads(client.ask(STATE))['version']


def asked_until(client, version):
    """Asks for the state until it has a version: how often."""
    asked = 1
    while version_now(client) < version:
        if time.monotonic() > client.until:
            raise Wrong(f'version {version} does not come')
        time.sleep(0.01)
        asked += 1
    return asked


def go(client, first, count):
    """Has a client take so many steps of the loop, where so many were taken."""
    for depth in range(first + 1, first + count + 1):
        client.must(ONE, ran(depth, 1, 'max', depth))


# ---- dialogues

def dialogue(tried):
    """The shared dialogues of examples/, line by line."""
    replies = 0
    for name in shared_dialogues():
        spoken, last = shared_dialogue(name)
        with tried.serve(open_example(f'{name}.mpd'), 1 + max(turn.client for turn in spoken)) as server:
            clients = server.ask_for(1 + max(turn.client for turn in spoken))
            for turn in spoken:
                if turn.is_sent:
                    clients[turn.client].send(f'{turn.line}\n')
                else:
                    must_be(clients[turn.client].line().decode(), turn.line, name)
            replies += sum(not turn.is_sent for turn in spoken)
            must_be(last.split()[0], 'served', name)
            server.must_end(int(last.split()[1]))
    return replies


def one_by_one(tried):
    """Each client is served from when it comes, whether others are still to come or have left; what they changed stays."""
    with tried.serve(SCRIPT, 3) as server:
        first = server.client()
        first.must(step('local 0'), deep(1, 1))
        first.must('{"cmd":"break","kind":"line","line":4}', set_break(0, 2))
        second = server.client()
        second.must(step('local 0'), deep(2, 3))
        first.must('{"at":2,"cmd":"state"}', stale(3))
        first.must('{"at":3,"cmd":"breaks"}', '{"breaks":["0 line 4"],"ok":true,"version":3}')
        first.leave()
        second.must(STATE, state(2, 3, '["blocked 0","at 4"]'))
        second.leave()
        server.must_go_on()
        third = server.client()
        third.must(BREAKS, '{"breaks":["0 line 4"],"ok":true,"version":3}')
        third.must('{"cmd":"unbreak","break":0}', ok(4))
        server.must_end(8)
    return 8


LOOKS = (
    ('{"cmd":"script"}', '{"handles":[],"lines":[4],"mode":"rendezvous","ok":true,"ranks":2,"vars":["x"],"version":2}'),
    ('{"cmd":"where"}', '{"lines":[4,4],"ok":true,"ranks":["blocked 0","at 4"],"ready":[1],"version":2}'),
    ('{"cmd":"all"}', '{"held":[{"handles":[],"out":[],"vars":[0]},{"handles":[],"out":[],"vars":[0]}],"lines":[4,4],"ok":true,'
     '"ranks":["blocked 0","at 4"],"ready":[1],"version":2}'),
    ('{"cmd":"decision"}', '{"decision":"forced","ok":true,"steps":["local 1"],"told":["rank 1 runs line 4; local 1"],"version":2}'),
    ('{"cmd":"steps","from":0,"count":1}', '{"depth":2,"ok":true,"steps":["local 0"],"undone":0,"version":2}'),
    ('{"cmd":"lines","rank":0}', '{"lines":[4],"ok":true,"partners":[null],"version":2}'), ('{"cmd":"explain"}', '{"ok":true,"told":[],"version":2}'))


def looked(tried):
    """Looks of two clients, whose replies have lists: each is an entry, a refused one too, and nothing changes."""
    with tried.serve(SCRIPT, 2, wide=True) as server:
        one, other = server.ask_for(2)
        one.must(step('local 0'), deep(1, 1))
        one.must(step('local 0'), deep(2, 2))
        for line, reply in LOOKS:
            one.must(line, reply)
            other.must(line, reply)
        other.must('{"at":2,"cmd":"lines","rank":2}', no('bad-number'))
        server.must_end(3 + 2 * len(LOOKS))
    return 3 + 2 * len(LOOKS)


def counted(tried):
    """Each request that was taken is counted, refused or not, and no line that is no request."""
    with tried.serve(SCRIPT, 2) as server:
        one, other = server.ask_for(2)
        for client, version in ((one, 0), (other, 1)):
            client.must('state', no('not-json'))
            client.must('{"cmd":"back"}', no('bad-field'))
            client.must('{"cmd":"fly"}', no('unknown-command'))
            client.must(' ' * 4097, no('line-too-long'))
            client.send('\n\r\n')
            client.must(step('local 0'), deep(version + 1, version + 1))
            client.must('{"at":7,"cmd":"state"}', stale(version + 1))
            client.must('{"cmd":"back","count":9}', no('at-start'))
            client.must('{"cmd":"vars","rank":2}', no('bad-number'))
            client.must(step('wake 0'), no('not-enabled'))
        server.must_end(10)
    return 18


def at_last(tried):
    """It tells what was served when all have left, and not before, in whatever order they leave."""
    for order in ((0, 1, 2), (2, 1, 0)):
        with tried.serve(LOOP, 3) as server:
            clients = server.ask_for(3)
            for depth, client in enumerate(clients):
                go(client, depth, 1)
            for depth, number in enumerate(order, 3):
                go(clients[number], depth, 1)
                server.must_go_on(0.1)
                clients[number].leave()
            server.must_end(6)
    return 12


# ---- silence

def silent(tried):
    """A client that sends nothing, or half a line, keeps nobody waiting."""
    with tried.serve(SCRIPT, 2) as server:
        quiet, other = server.ask_for(2)
        other.must(STATE, state(0, 0))
        quiet.must_be_silent()
        other.must(step('local 1'), deep(1, 1))
        quiet.send('{"cmd":"st')
        quiet.must_be_silent()
        other.must(STATE, state(1, 1))
        other.must(step('local 0'), deep(2, 2))
        quiet.send('ate"}\n{"cmd"')
        must_be(quiet.line().decode(), state(2, 2), 'a line in two parts')
        other.must(STATE, state(2, 2))
        server.must_end(6)
    return 6


# ---- leaving

def in_mid_line(tried):
    """Clients that leave in mid-line: the beginning of a line is a line; who still reads is told its reply."""
    with tried.serve(SCRIPT, 5) as server:
        cut, whole, closed, doing, other = server.ask_for(5)
        cut.must(step('local 0'), deep(1, 1))
        cut.send('{"cmd":"sta')
        cut.shut()
        must_be(cut.rest(), no('not-json') + '\n', 'a request that is cut')
        whole.send(f'{STATE}\n\n{STATE}')
        whole.shut()
        must_be(whole.rest(), f'{state(1, 1)}\n' * 2, 'a request without a line feed')
        closed.must(STATE, state(1, 1))
        closed.send('{"cmd":"sta')
        closed.leave()
        other.must(step('local 1'), deep(2, 2))
        doing.send(step('local 0'))
        doing.leave()
        # nobody reads the reply, but the step was taken
        asked = asked_until(other, 3)
        other.must(STATE, state(3, 3, '["blocked 0","at 4"]'))
        server.must_end(7 + asked)
    return 8


def broken_off(tried):
    """Clients that break off: with nothing sent, in mid-line, with replies not read; the others go on."""
    sent = 400
    with tried.serve(LOOP, 4) as server:
        nothing, half, much, other = server.ask_for(4)
        nothing.break_off()
        go(other, 0, 3)
        half.must(STATE, state(3, 3, '["at 1"]'))
        half.send('{"cmd":"st')
        half.break_off()
        go(other, 3, 3)
        much.send(f'{ONE}\n' * sent)
        heard = [json.loads(much.line())['version'] for _ in range(10)]
        must_be(heard, list(range(7, 17)), 'versions before it breaks off')
        much.break_off()
        states = [json.loads(other.ask(STATE)) for _ in range(20)]
        time.sleep(0.1)
        states.append(json.loads(other.ask(STATE)))
        versions = [told['version'] for told in states]
        # each change is a step
        must_be([told['depth'] for told in states], versions, 'depths')
        if versions != sorted(versions) or not 16 <= versions[-1] <= 6 + sent:
            raise Wrong(f'versions {versions} behind {sent} changes, of which 10 were answered')
        known = 6 + 1 + len(versions)
        server.must_end(known + versions[-1] - 6, known + sent)
    return 38


# ---- what is no line

def no_text(tried):
    """Bytes that are no UTF-8 spoil their line alone, for their client and for others."""
    with tried.serve(SCRIPT, 2) as server:
        odd, other = server.ask_for(2)
        for data in (b'\xff\n', b'{"cmd":"state\xc3"}\n', b'\x80\xbf' * 2000 + b'\n', b'\x00\n', b'{"cmd":"\xed\xa0\x80"}\n'):
            odd.send(data[:-1])
            other.must(STATE, state(0, 0))
            odd.send(data[-1:])
            must_be(odd.line().decode(), no('not-json'), f'{data[:20]!r}')
        odd.send(b'\xff' * 4097 + b'\n')
        must_be(odd.line().decode(), no('line-too-long'), 'too long, and no UTF-8')
        odd.must(step('local 0'), deep(1, 1))
        other.must(STATE, state(1, 1))
        server.must_end(7)
    return 13


def endless(tried):
    """A line of 100 MiB: others are answered meanwhile, it is answered once at its end, and is not kept."""
    with tried.serve(SCRIPT, 3) as server:
        long, unended, other = server.ask_for(3)
        peak = server.peak()
        unended.send(b' ' * 9000)
        for number in range(100):
            long.send(b'x' * (LONG // 100))
            other.must(STATE, state(0, 0))
            if number == 50:
                unended.must_be_silent()
        long.must_be_silent()
        long.send(f'\n{STATE}\n')
        must_be(long.line().decode(), no('line-too-long'), 'a line of 100 MiB')
        must_be(long.line().decode(), state(0, 0), 'the line behind it')
        if server.peak() > peak + MOST_KEPT:
            raise Wrong(f'{peak} MiB became {server.peak()}')
        unended.shut()
        must_be(unended.rest(), no('line-too-long') + '\n', 'a line that is too long and has no end')
        other.must(step('local 0'), deep(1, 1))
        server.must_end(102)
    return 104


def standing_version(client, turns=4, seconds=0.15):
    """Asks for the version until it was the same for so many turns: what it is, and how often it was asked."""
    seen = []
    while len(seen) < turns or len(set(seen[-turns:])) > 1:
        if time.monotonic() > client.until:
            raise Wrong(f'what a client sends that reads nothing is taken on and on: version {seen[-1]}')
        time.sleep(seconds)
        seen.append(version_now(client))
    return seen[-1], len(seen)


def unread(tried):
    """A client that sends, and never reads: it waits alone, and no request of it is taken before its last reply is written."""
    pair = f'{ONE}\n{{"cmd":"vars","rank":0}}\n'.encode()
    with tried.serve(MUCH, 3) as server:
        deaf, other = server.client(receiving=4096), server.client()
        other.must('{"cmd":"run","max":1000000}', ran(ENDED, ENDED, 'leaf', 1))
        # the replies have more bytes than all buffers of both sides
        sent = deaf.send_what_is_taken(pair * PAIRS)
        version, asked = standing_version(other)
        for _ in range(200):
            other.must(BREAKS, f'{{"breaks":[],"ok":true,"version":{version}}}')
        late = server.client()
        late.must(f'{{"at":{version},"cmd":"run","max":1}}', ran(ENDED, 0, 'leaf', version + 1))
        changes = version - 1
        if not 1 <= changes <= min(sent // len(pair) + 1, PAIRS - 1):
            raise Wrong(f'{changes} changes of a client that reads nothing, behind {sent} bytes')
        deaf.leave()
        time.sleep(0.1)
        must_be(version_now(late), version + 1, 'the version when it has left')
        # the last of its requests is a change, or the look behind that
        known = 1 + asked + 200 + 1 + 1
        server.must_end(known + 2 * changes - 1, known + 2 * changes)
    return 204
