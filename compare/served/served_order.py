"""Whether there is an order of all that clients have asked in which the model gives exactly the replies that they got.

A change that is answered ok tells the version behind it, and each version has one: so the changes stand in the order of their versions,
which is replayed. What asks alone tells the version that it saw. A refusal tells none; all that are left are taken in the order in which
their replies were heard, and each refusal gets the lowest version that it can have: at which it is refused so, not below what its client
knew, and not below what anybody had been told before the line was sent. If any order does, these versions do: so versions never fall,
neither along the replies of one client nor from a reply to what is sent behind it.
"""

import json
from collections import Counter
from functools import cache
from typing import NamedTuple

from model.language import read_script
from model.session import CHANGING, Refused, Session, copied, parse, reply_bytes
from served.served_clients import shortened


class Turn(NamedTuple):
    """A line that isn't empty and its reply, both without their ends; not before `sent` it went, and not behind `heard` its reply came."""
    line: bytes
    reply: bytes
    sent: float
    heard: float


class Told(NamedTuple):
    """A turn whose request was taken: by which client, as which of its turns, and the version of an ok reply."""
    client: int
    place: int
    turn: Turn
    request: object
    version: object

    @property
    def is_change(self):
        return self.version is not None and self.request.command in CHANGING


class Misfit(Exception):
    """No order gives these replies."""


@cache
def request_of(line):
    """The request of a line, and how the line is refused that is none."""
    try:
        return parse(line, True), None
    except Refused as refused:
        return None, reply_bytes(refused.reply())[:-1]


def said(turn):
    return f'{shortened(turn.line)} was answered {shortened(turn.reply)}'


def member_of(turn, name):
    """What a reply has by a name, or None; the other bytes of it are compared as they are."""
    try:
        return json.loads(turn.reply).get(name)
    except (ValueError, AttributeError):
        raise Misfit(said(turn)) from None


def error_of(turn):
    return member_of(turn, 'error')


def version_of(turn):
    version = member_of(turn, 'version')
    if type(version) is not int:
        raise Misfit(said(turn))
    return version


def told_of(client, place, turn):
    """What is told by a turn; None where its line is no request. A history that is full fits nowhere."""
    request, refusal = request_of(turn.line)
    if request is None:
        if turn.reply != refusal:
            raise Misfit(f'{said(turn)}, and not {refusal}')
        return None
    return Told(client, place, turn, request, None if error_of(turn) else version_of(turn))


def all_told(talks):
    """What is told by the turns of all clients, of each in its order."""
    found = (told_of(client, place, turn) for client, turns in enumerate(talks) for place, turn in enumerate(turns))
    return [told for told in found if told is not None]


class History:
    """The session behind each change, in the order of their versions."""

    def __init__(self, script, mode):
        self.sessions, self.known = [Session(read_script(script), mode)], {}

    def add(self, told):
        """Replays the next change."""
        session = copied(self.sessions[-1])
        reply = reply_bytes(session.answer(told.request))[:-1]
        if reply != told.turn.reply:
            raise Misfit(f'behind version {len(self.sessions) - 1} {said(told.turn)}, and not {shortened(reply)}')
        self.sessions.append(session)

    def reply(self, version, line):
        """What a line is answered at a version."""
        if (version, line) not in self.known:
            request, _ = request_of(line)
            session = self.sessions[version]
            session = copied(session) if request.command in CHANGING else session
            self.known[version, line] = reply_bytes(session.answer(request))[:-1]
        return self.known[version, line]


def replayed(script, mode, told):
    """The history of all changes."""
    changes = {}
    for change in (one for one in told if one.is_change):
        if change.version in changes:
            raise Misfit(f'version {change.version} twice: {said(change.turn)}; {said(changes[change.version].turn)}')
        changes[change.version] = change
    history = History(script, mode)
    for version in range(1, len(changes) + 1):
        if version not in changes:
            raise Misfit(f'no change has version {version}, and there are {len(changes)}')
        history.add(changes[version])
    return history


def limits(told, last):
    """For each turn the highest version that it can have seen, by those that its client is told later."""
    highest, found = {}, {}
    for one in reversed(told):
        ahead = highest.get(one.client, last)
        found[one.client, one.place] = ahead
        if one.version is not None:
            highest[one.client] = one.version - one.is_change
    return found


def events(told):
    """When the lines were sent and the replies heard, in the order of time; of one client in its order."""
    sent = [(one.turn.sent, 0, one.client, one.place, one) for one in told]
    heard = [(one.turn.heard, 1, one.client, one.place, one) for one in told]
    return sorted(sent + heard, key=lambda event: event[:4])


class Walk:
    """The lowest versions that all turns can have, found in the order of time."""

    def __init__(self, history, highest):
        self.history, self.highest = history, highest
        self.known, self.of_clients, self.when_sent = 0, Counter(), {}

    def take(self, is_heard, one):
        if not is_heard:
            self.when_sent[one.client, one.place] = self.known
            return
        least = max(self.when_sent[one.client, one.place], self.of_clients[one.client])
        found = self.version_of_refusal(one, least) if one.version is None else self.version_told(one, least)
        self.of_clients[one.client] = found
        self.known = max(self.known, found)

    def version_told(self, one, least):
        """The version of an ok reply."""
        if one.version - one.is_change < least:
            raise Misfit(f'behind version {least} {said(one.turn)}')
        if one.version >= len(self.history.sessions):
            raise Misfit(f'no change has version {one.version}: {said(one.turn)}')
        if not one.is_change:
            self.must_be_answered(one, one.version)
        return one.version

    def must_be_answered(self, one, version):
        reply = self.history.reply(version, one.turn.line)
        if reply != one.turn.reply:
            raise Misfit(f'at version {version} {said(one.turn)}, and not {shortened(reply)}')

    def version_of_refusal(self, one, least):
        """The lowest version at which it is refused so."""
        most = self.highest[one.client, one.place]
        for version in range(least, most + 1):
            if self.history.reply(version, one.turn.line) == one.turn.reply:
                return version
        raise Misfit(f'at no version from {least} to {most} is it so: {said(one.turn)}')


class Found(NamedTuple):
    """How many requests were taken, how often another client made the next change, and what was met."""
    entries: int
    turns: int
    met: Counter


def met_in(talks, told):
    met = Counter(f'{one.request.command} ok' for one in told if one.version is not None)
    met.update(error for turns in talks for turn in turns if (error := error_of(turn)))
    return met


def turns_taken(told):
    """How often a change is by another client than the one before it."""
    clients = [one.client for one in sorted((one for one in told if one.is_change), key=lambda one: one.version)]
    return sum(one != other for one, other in zip(clients, clients[1:]))


def order_of(script, mode, talks):
    """What is found of the turns of some clients; raises Misfit where no order gives these replies."""
    told = all_told(talks)
    history = replayed(script, mode, told)
    walk = Walk(history, limits(told, len(history.sessions) - 1))
    for _, is_heard, *_, one in events(told):
        walk.take(is_heard, one)
    return Found(len(told), turns_taken(told), met_in(talks, told))
