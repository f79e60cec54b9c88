"""Sixteen clients of one session at once, with requests of all kinds, one by one or many ahead; and a history that is full.

The lines are drawn as those of a session of one client are (session_cases.py), in one row; each client sends short pieces of that row.
Who sends line by line names the version that it saw last now and then.
"""

import re
import threading
import time
from itertools import cycle, islice
from random import Random
from typing import NamedTuple

from cases.session_cases import ALONG, ASKING, FILLING, FORWARD, MARKING, SPOILED, USUAL, Talk, is_small, script_for
from model.debugger import BUFFERED, RENDEZVOUS, Debugger, lines_of
from model.language import Fault, read_script
from model.session import FIELDS, FULL, NAMES, Refused, parse
from rows.examples import open_example
from rows.worked_sessions import BREAKS, ON_LINES, STATE, THREE, no
from served.served_clients import Wrong, must_be
from served.served_leavers import ONE, SCRIPT
from served.served_order import Misfit, Turn, order_of

CLIENTS = 16
FULL_HISTORY = no('history-full')
VERSION = re.compile(rb'"version":([0-9]+)}$')
LEAST_TURNS = 20
DRAWN = 1200
# What is answered behind a history that is full.
BEHIND = ((STATE, FULL_HISTORY), (ONE, FULL_HISTORY), ('fly', no('not-json')), ('{"at":0,"cmd":"state"}', FULL_HISTORY),
          ('{"cmd":"fly"}', no('unknown-command')))
MUST_MEET = (*(f'{command} ok' for command in FIELDS), *(name for number, name in NAMES.items() if number != FULL))


class Crowd(NamedTuple):
    """A script in a mode (None: one at random), which lines are drawn, how many lines a client sends ahead at most, and which share of all."""
    name: str
    script: object
    mode: str
    habits: tuple
    ahead: tuple = (1,)
    share: float = 1.0


CROWDS = (
    Crowd('one by one', open_example('stolen_message.mpd'), RENDEZVOUS, (USUAL, ALONG, SPOILED)),
    Crowd('many ahead', THREE.encode(), RENDEZVOUS, (USUAL, FORWARD, MARKING), (2, 40, 200)),
    Crowd('one by one, and many ahead', None, BUFFERED, (USUAL, ALONG, ASKING, SPOILED), (1, 1, 30)),
    Crowd('many breakpoints', ON_LINES.encode(), BUFFERED, (FILLING, FILLING, MARKING), (1, 10), 0.25))


def small_script(random, mode):
    """A script of which little is to be explored, so that no request takes long, wherever it comes."""
    while True:
        script = script_for(random, mode)
        try:
            if len(script) < 4000 and is_small(Debugger(read_script(script), mode)):
                return script
        except Fault:
            continue


def drawn(random, script, mode, habits):
    """Pieces of input: each is a line with its end, or such a line and empty ones."""
    share = DRAWN // len(habits)
    return [piece for habit in habits for piece in Talk(random, script, mode, habit).lines(share)]


def pieces_for(random, row, count):
    """So many pieces: short parts of a row."""
    found = []
    while len(found) < count:
        first = random.randrange(len(row))
        found += row[first:first + random.choice([1, 2, 3, 8])]
    return found[:count]


class Speaker:
    """A client on a thread of its own: what it is to send, and its turns."""

    def __init__(self, random, client, pieces, ahead, stays=False):
        self.random, self.client, self.pieces, self.ahead, self.stays = random, client, pieces, ahead, stays
        self.turns, self.seen, self.problem = [], 0, None
        self.thread = threading.Thread(target=self.run)

    def run(self):
        try:
            place = 0
            while place < len(self.pieces):
                count = self.random.randint(1, self.ahead)
                self.speak(self.pieces[place:place + count])
                place += count
            if not self.stays:
                self.client.shut()
                must_be(self.client.rest(), '', 'behind all replies')
        except (Wrong, OSError) as problem:
            self.problem = problem

    def speak(self, pieces):
        """Sends some pieces at once, and reads the replies to them."""
        data = self.with_version(pieces[0]) if self.ahead == 1 else b''.join(pieces)
        lines, sent = [line for line in lines_of(data) if line], time.monotonic()
        replies = self.client.exchange(data, len(lines))
        must_be(len(replies), len(lines), 'the number of replies')
        self.turns += [Turn(line, reply, sent, heard) for line, (reply, heard) in zip(lines, replies)]
        if replies and (version := VERSION.search(replies[-1][0])):
            self.seen = int(version[1])

    def with_version(self, data):
        """The piece; of a line that is a request and names no version, now and then with the one that was seen last."""
        line, end = data.rstrip(b'\r\n'), data[len(data.rstrip(b'\r\n')):]
        if self.random.random() < 0.8 or not line.endswith(b'}'):
            return data
        try:
            is_free = parse(line, True).at is None
        except Refused:
            return data
        return b'%s,"at":%d}%s' % (line[:-1], self.seen, end) if is_free else data


def spoken(speakers):
    """The turns of all clients, when they have all spoken."""
    for speaker in speakers:
        speaker.thread.start()
    for speaker in speakers:
        speaker.thread.join()
    for number, speaker in enumerate(speakers):
        if speaker.problem is not None:
            raise Wrong(f'client {number}: {speaker.problem}')
    return [speaker.turns for speaker in speakers]


def listen_to(tried, crowd):
    """What a crowd was answered: how many replies there were, and what was met."""
    random = Random(f'crowds/{tried.seed}/{crowd.name}')
    script = small_script(random, crowd.mode) if crowd.script is None else crowd.script
    row = drawn(random, script, crowd.mode, crowd.habits)
    with tried.serve(script, CLIENTS, crowd.mode, wide=True) as server:
        count = max(1, round(tried.crowd * crowd.share))
        speakers = [Speaker(Random(f'{tried.seed}/{crowd.name}/{number}'), client, pieces_for(random, row, count),
                            crowd.ahead[number % len(crowd.ahead)]) for number, client in enumerate(server.ask_for(CLIENTS))]
        talks = spoken(speakers)
        result = server.result_of_all()
    try:
        found = order_of(script, crowd.mode, talks)
    except Misfit as misfit:
        raise Wrong(f'no order gives these replies: {misfit}') from None
    must_be(result, server.served(found.entries), 'the end')
    if found.turns < LEAST_TURNS:
        raise Wrong(f'a change of one client came right behind one of another {found.turns} times')
    return sum(map(len, talks)), found.met


def scenario_of(crowd):
    """What tries a crowd."""
    return lambda tried: listen_to(tried, crowd)


# ---- a history that is full

def full_history(tried):
    """So many requests are taken, of whichever clients, and no more; lines that are no requests are answered all the same."""
    each = tried.entries // 4 + 50
    asked = list(islice(cycle([f'{ONE}\n'.encode(), f'{BREAKS}\n'.encode()]), each))
    with tried.serve(SCRIPT, 5) as server:
        clients, late = server.ask_for(4), server.client()
        talks = spoken([Speaker(Random(number), client, asked, each, stays=True) for number, client in enumerate(clients)])
        replies = [[turn.reply.decode() for turn in turns] for turns in talks]
        for number, lines in enumerate(replies):
            must_be(len(lines), each, f'replies to client {number}')
            full = lines.index(FULL_HISTORY) if FULL_HISTORY in lines else each
            must_be(set(lines[full:]) - {FULL_HISTORY}, set(), 'behind the first that was not taken')
        must_be(sum(line != FULL_HISTORY for lines in replies for line in lines), tried.entries, 'requests that were taken')
        versions = sorted(int(VERSION.search(turn.reply)[1]) for turns in talks for turn in turns if b'"steps"' in turn.reply)
        must_be(versions == list(range(1, len(versions) + 1)), True, 'each version once')
        for client in (clients[0], late):
            for line, wanted in BEHIND:
                client.must(line, wanted)
        server.must_end(tried.entries)
    return 4 * each + 10
