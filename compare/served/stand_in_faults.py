"""Faults that are put into the stand-in of `serve` on purpose, each with the scenario of compare/runs/serving.py that must notice it: those of
the lock, of requests and replies, and of entries. stand_in_server_faults.py has the others.

Where a fault shows only if two clients come at one moment, it waits a little there, so that they do.
"""

import itertools
import time
from typing import NamedTuple

from model.policy import Breaks
from model.session import Refused, copied, parse, reply_bytes
from served import stand_in
from served.stand_in import Desk, Lines, Seat, Server

PAUSE = 0.0005


class Sound(NamedTuple):
    """What is not broken."""
    take: object
    ask: object
    desk_answer: object
    ended: object
    last: object
    serve: object
    read: object
    seat_answer: object
    write: object
    failed: object
    accepted: object
    begun: object
    run: object


SOUND = Sound(Desk.take, Desk.ask, Desk.answer, Lines.ended, Lines.last, Seat.serve, Seat.read, Seat.answer, Seat.write, Seat.failed,
              Server.accepted, Server.begun, Server.run)


class Fault(NamedTuple):
    """A part of the stand-in that is replaced by another, and the scenario that must notice it."""
    name: str
    by: str
    owner: object
    attribute: str
    replacement: object


# ---- the lock

def without_lock(self, request):
    """What answers by a copy that becomes the session, so that a change made meanwhile is lost."""
    session = copied(self.session)
    time.sleep(PAUSE)
    self.entries += 1
    reply = session.answer(request)
    self.session = session
    return reply


def version_told_late(self, request):
    """What tells the version when the lock is free again."""
    reply = SOUND.ask(self, request)
    time.sleep(PAUSE)
    return {**reply, 'version': self.session.version} if reply['ok'] else reply


def state_told_late(self, request):
    """What looks when the lock is free again, and tells the version that was there under it."""
    if request.command != 'state' or request.at is not None:
        return SOUND.ask(self, request)
    with self.lock:
        self.entries += 1
        version = self.session.version
    time.sleep(PAUSE)
    return {**self.session.answer(request), 'version': version}


def version_tested_early(self, request):
    """What tests the version before the lock is taken, and not under it."""
    if request.at is None or request.at != self.session.version:
        return SOUND.ask(self, request)
    time.sleep(PAUSE)
    return SOUND.ask(self, request._replace(at=None))


def another_reply(self, request):
    """What tells the last reply that there is, whoever asked."""
    self.last_reply = SOUND.ask(self, request)
    time.sleep(PAUSE)
    return self.last_reply


def from_memory(self, request):
    """What looks at what was there a little earlier."""
    now = time.monotonic()
    if not hasattr(self, 'kept') or self.kept[0] < now - 0.05:
        self.kept = now, copied(self.session)
    if request.command not in ('state', 'enabled', 'vars') or request.at is not None:
        return SOUND.ask(self, request)
    self.entries += 1
    return self.kept[1].answer(request)


def read_under_lock(self):
    with self.desk.lock:
        return SOUND.read(self)


def line_under_lock(self):
    """What holds the lock from the beginning of a line to its end."""
    data = SOUND.read(self)
    while data and not data.endswith(b'\n'):
        with self.desk.lock:
            more = SOUND.read(self)
        if not more:
            break
        data += more
    return data


def write_under_lock(self, reply):
    with self.desk.lock:
        SOUND.write(self, reply)


def looks_uncounted(self, request):
    """What takes looks at all ranks without an entry."""
    if request.command not in ('where', 'all'):
        return SOUND.take(self, request)
    return self.session.answer(request)


def looks_that_raise(self, request):
    """What raises the version for a look at steps."""
    reply = SOUND.take(self, request)
    if request.command == 'steps' and reply['ok']:
        self.session.raise_version()
    return reply


LOOKS = (
    Fault('looks that are no entries', 'looks of two clients', Desk, 'take', looks_uncounted),
    Fault('a look that raises the version', 'looks of two clients', Desk, 'take', looks_that_raise))

LOCK = (
    Fault('changes that are lost', 'a crowd, one by one', Desk, 'ask', without_lock),
    Fault('a version told late', 'a crowd, one by one', Desk, 'ask', version_told_late),
    Fault('a state told late', 'a crowd, one by one', Desk, 'ask', state_told_late),
    Fault('a version tested early', 'a crowd, one by one', Desk, 'ask', version_tested_early),
    Fault('the reply of another client', 'a crowd, one by one', Desk, 'ask', another_reply),
    Fault('what was there earlier', 'a crowd, one by one, and many ahead', Desk, 'ask', from_memory),
    Fault('the lock held over a read', 'a silent client', Seat, 'read', read_under_lock),
    Fault('the lock held over the rest of a line', 'a silent client', Seat, 'read', line_under_lock),
    Fault('the lock held over a write', 'replies that nobody reads', Seat, 'write', write_under_lock))


# ---- requests and replies

def at_each(count, other, sound):
    """What does something else at each call of so many."""
    turns = itertools.count(1)

    def method(self, argument):
        return (other if next(turns) % count == 0 else sound)(self, argument)
    return method


def not_written(self, reply):
    """What doesn't write a reply."""


def not_taken(self, request):
    """What answers a request by a copy that is dropped."""
    self.entries += 1
    return copied(self.session).answer(request)


def taken_twice(self, request):
    reply = SOUND.take(self, request)
    return self.session.answer(request) if reply['ok'] else reply


def counted_twice(self, request):
    self.entries += 1
    return SOUND.take(self, request)


def written_twice(self, reply):
    SOUND.write(self, reply * 2)


def last_first(self, lines):
    """What answers the lines of a read in the other order."""
    SOUND.seat_answer(self, lines[::-1])


def by_reads(self):
    """What takes each read for whole lines."""
    while data := self.read():
        self.answer(data.removesuffix(b'\n').split(b'\n'))


def at_leaving(self):
    """What writes all replies when the client has left."""
    replies, self.write = [], lambda reply: replies.append(reply)
    SOUND.serve(self)
    for reply in replies:
        SOUND.write(self, reply)


def with_own(change):
    """What gives each client a part of its own."""
    def init(self, desk, connection):
        self.desk, self.connection, self.lines = desk, connection, Lines()
        change(self)
    return init


def own_desk(seat):
    """A session of the client's own; the entries are counted together."""
    shared = seat.desk
    seat.desk = Desk(copied(shared.session), shared.most)

    def take(request):
        shared.entries += 1
        return seat.desk.session.answer(request)
    seat.desk.take = take


def own_breaks(seat):
    """Breakpoints of the client's own."""
    shared, own = seat.desk, Breaks()
    seat.desk = Desk(shared.session, shared.most)

    def ask(request):
        with shared.lock:
            others, shared.session.breaks = shared.session.breaks, own
            reply = shared.take(request)
            shared.session.breaks = others
        return reply
    seat.desk.ask = ask


def own_version(seat):
    """A version of the client's own, which its changes alone raise."""
    shared, versions = seat.desk, [0]
    seat.desk = Desk(shared.session, shared.most)

    def ask(request):
        with shared.lock:
            others, shared.session.version = shared.session.version, versions[0]
            reply = shared.take(request)
            versions[0], shared.session.version = shared.session.version, others
        return reply
    seat.desk.ask = ask


def without_breaks(self):
    """What takes away all breakpoints when a client leaves."""
    try:
        SOUND.serve(self)
    finally:
        with self.desk.lock:
            self.desk.session.breaks = Breaks()


def undone(self):
    """What goes back to the start when a client breaks off."""
    with self.desk.lock:
        self.desk.session.debugger.goto(0)


REPLIES = (
    Fault('a reply that is not written', 'what is counted', Seat, 'write', at_each(7, not_written, SOUND.write)),
    Fault('a reply written twice', 'a crowd, many ahead', Seat, 'write', at_each(300, written_twice, SOUND.write)),
    Fault('a request answered and not taken', 'a crowd, many ahead', Desk, 'take', at_each(50, not_taken, SOUND.take)),
    Fault('a request taken twice', 'a dialogue', Desk, 'take', taken_twice),
    Fault('a request counted twice', 'a dialogue', Desk, 'take', at_each(5, counted_twice, SOUND.take)),
    Fault('the lines of a read in another order', 'a crowd, many ahead', Seat, 'answer', last_first),
    Fault('each read taken for lines', 'sessions of one client', Seat, 'serve', by_reads),
    Fault('replies written at the end', 'a dialogue', Seat, 'serve', at_leaving),
    Fault('a session for each client', 'a dialogue', Seat, '__init__', with_own(own_desk)),
    Fault('breakpoints for each client', 'clients one by one', Seat, '__init__', with_own(own_breaks)),
    Fault('a version for each client', 'a dialogue', Seat, '__init__', with_own(own_version)),
    Fault('breakpoints that leave with a client', 'clients one by one', Seat, 'serve', without_breaks),
    Fault('all taken back where a client breaks off', 'broken off', Seat, 'failed', undone))


# ---- entries and a full history

def counting(wanted):
    """What counts those requests alone, by request and reply."""
    def take(self, request):
        entries, reply = self.entries, SOUND.take(self, request)
        self.entries = entries + (self.entries > entries and wanted(request, reply))
        return reply
    return take


def counting_all(self, line):
    """What counts lines that are no requests."""
    try:
        parse(line, self.session.wide)
    except Refused:
        self.entries += 1
    return SOUND.desk_answer(self, line)


def no_request_when_full(self, line):
    """What answers that the history is full before it looks at the line."""
    return reply_bytes(stand_in.HISTORY_FULL) if self.entries == self.most else SOUND.desk_answer(self, line)


def with_room(change):
    """What has room for another number of entries."""
    def take(self, request):
        if self.entries >= change(self.most):
            return stand_in.HISTORY_FULL
        self.entries += 1
        return self.session.answer(request)
    return take


def counted_when_full(self, request):
    reply = SOUND.take(self, request)
    self.extra = getattr(self, 'extra', 0) + (reply is stand_in.HISTORY_FULL)
    return reply


def tell_extra(self):
    """What tells the requests, too, for which there was no room."""
    told = self.tell
    self.tell = lambda text: told(text if text.startswith('listening') else f'served {self.desk.entries + getattr(self.desk, "extra", 0)}')
    self.desk.take = counted_when_full.__get__(self.desk)
    SOUND.run(self)


def left_when_full(self, request):
    """What ends a client for whose request there is no room."""
    reply = SOUND.take(self, request)
    if reply is stand_in.HISTORY_FULL:
        raise ConnectionError
    return reply


def looks_when_full(self, request):
    """What answers looks all the same when the history is full."""
    if self.entries == self.most and request.command == 'state':
        return self.session.answer(request)
    return SOUND.take(self, request)


ENTRIES = (
    Fault('refusals that are not counted', 'what is counted', Desk, 'take', counting(lambda _, reply: reply['ok'])),
    Fault('stale requests that are not counted', 'a dialogue', Desk, 'take', counting(lambda _, reply: 'now' not in reply)),
    Fault('looks that are not counted', 'a dialogue', Desk, 'take', counting(lambda request, _: request.command != 'state')),
    Fault('lines counted that are no requests', 'what is counted', Desk, 'answer', counting_all),
    Fault('no end of the history', 'a full history', Desk, 'take', with_room(lambda most: 2 * most)),
    Fault('a history of one entry less', 'a full history', Desk, 'take', with_room(lambda most: most - 1)),
    Fault('a history of one entry more', 'a full history', Desk, 'take', with_room(lambda most: most + 1)),
    Fault('requests counted that have no room', 'a full history', Server, 'run', tell_extra),
    Fault('a client that ends with the history', 'a full history', Desk, 'take', left_when_full),
    Fault('looks behind a full history', 'a full history', Desk, 'take', looks_when_full),
    Fault('no other refusal behind a full history', 'a full history', Desk, 'answer', no_request_when_full))

FAULTS = (*LOOKS, *LOCK, *REPLIES, *ENTRIES)
