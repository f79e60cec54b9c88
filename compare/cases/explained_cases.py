"""Scripts whose ranks nearly meet, and checks that explain how they end (explained.py).

A few messages are drawn, and each is received with another tag, of another source, by another rank, once more or not at all, now and then;
by calls that block or are waited for, with barriers that one rank leaves out, and with traps. Of other scripts one call is missed by many.
Statements stand on lines of their own, several on one, or one on several. Beside these stand the scripts of ends_cases.py, and runs that
are drawn.
"""

import re
from random import Random
from typing import NamedTuple

from cases import ends_cases
from cases.explore_cases import Case
from cases.piece_cases import filled, one_piece, script_of
from cases.scripts import header, synchronous
from cases.wildcard_cases import in_branches
from model import explorer
from model.debugger import BUFFERED, RENDEZVOUS, Debugger
from model.explorer import Asked, option_words
from model.files import held
from model.sampler import sampled

DECLARED = 'var x; var y; var i; var s; var t; var a[4]; req h; req r[4]; req q[2];'
# One script of so many is of the other kinds, and one of so many of these that are drawn here is of version 2.
OTHERS_EVERY, VERSION_2_EVERY = 4, 3
# Of one script of so many, runs are drawn as well.
DRAWN_EVERY = 8
# How many messages there are: few, so that a script has few leaves.
RANKS, MOST_MESSAGES = (1, 2, 2, 2, 3, 3, 3, 4, 5), 5
TRAPS = ('assert x;', 'print 1 / y;', 'send 1 to size tag 0;', 'recv x from 0 - 1 tag 0;', 'a[x + 4] = 1;', 'send 1 to 0 tag 32768;',
         'y = 9223372036854775807 + 1;', 'wait r[4];', 'if 1 % y { print x; }', 'while 1 / y { }', 'recv x from any tag 0 - 1;',
         'a[i + 4] = x / y;', 'assert y && a[i];', 'isend r[i + 4] y to x tag s;', 'recv a[t] from any tag y - 9 status s a[x];',
         'ssend x + t to y tag i - 9;', 'while a[x % 4] / (i - i) { y = a[t]; }',
         'irecv r[4] a[x] from y tag s;', 'wait q[y + i + 9];', 'recv y from x - 99 tag any status a[i] a[t];', 'if a[s + 4] { y = t; } else { x = i; }',
         't = t - 9223372036854775807 - y - 20;', 'a[0 - 1] = i * 4611686018427387904 + 4611686018427387904 + 4611686018427387904;')
MILD = ('print x;', 'y = x;', 'x = x + 1;', 't = 2;', 'a[i] = 3;', 'a[i + 1] = y + 5;', 'if x { y = 1; } else { y = 2; }', 'while i < 2 { i = i + 1; }')
MODES = (None, None, RENDEZVOUS, BUFFERED, 'slots:0', 'slots:1', 'slots:2')
RUNS, FUELS, SPLITS = (1, 2, 3, 5, 8, 12), (3, 10, 20, 40), (None, None, 0, 0, 1, 2, 2, 3)


class Message(NamedTuple):
    """A message: who sends it, to whom, and with which tag."""
    sender: int
    receiver: int
    tag: int


def any_message(random, ranks):
    receiver = random.randrange(ranks)
    sender = random.choice([number for number in range(ranks) if number != receiver] or [receiver])
    return Message(receiver if random.random() < 0.08 else sender, receiver, random.randrange(3))


def changed(random, message, ranks):
    """The messages that are received in the place of one that is sent."""
    draw = random.random()
    if draw < 0.5:
        return [message]
    if draw < 0.6:
        return [message._replace(tag=(message.tag + 1) % 4)]
    if draw < 0.7:
        return [message._replace(sender=random.randrange(ranks))]
    if draw < 0.8:
        return [message._replace(receiver=random.randrange(ranks))]
    return [] if draw < 0.9 else [message, message]


class Part:
    """What a rank does, as far as it is written; `open` are the requests that it may wait for."""

    def __init__(self, random, version):
        self.random, self.version = random, version
        self.statements, self.open = [], []

    def call(self, word, rest):
        """A call of a word that blocks or doesn't; a request is waited for at once, later, or never."""
        if self.random.random() < 0.55:
            self.statements.append(f'{word} {rest};')
            return
        handle = self.random.choice(['h', 'r[0]', 'r[1]', 'r[2]', 'r[3]', 'q[0]', 'q[1]'])
        self.statements.append(f'i{word} {handle} {rest};')
        self.open.append(handle)
        if self.random.random() < 0.3:
            self.wait()

    def send(self, message):
        self.call(f'{synchronous(self.random, 0.3)}send', f'{self.random.randint(-3, 9)} to {message.receiver} tag {message.tag}')

    def receive(self, message):
        source, tag = (part if self.random.random() < 0.75 else 'any' for part in (message.sender, message.tag))
        self.call('recv', f'{self.random.choice("xy")} from {source} tag {tag}{self.random.choice(["", "", " status s t"])}')

    def wait(self):
        """A wait for one of the requests, or for any of several."""
        if self.version > 1 and self.random.random() < 0.5:
            self.statements.append(f'waitany {self.random.choice("hrrq")} to i;')
        elif self.open:
            self.statements.append(f'wait {self.open.pop(self.random.randrange(len(self.open)))};')

    def ended(self):
        """The statements, with waits behind them for what is still open, most of it."""
        while self.open:
            if self.random.random() < 0.75:
                self.wait()
            self.open = self.open[:-1]
        return self.statements


def spoiled(random, statements):
    """The statements with a trap or something mild among them, or in another order, now and then."""
    if random.random() < 0.25:
        random.shuffle(statements)
    for share, chosen in ((0.2, TRAPS), (0.35, MILD)):
        if random.random() < share:
            statements.insert(random.randint(0, len(statements)), random.choice(chosen))
    return statements


def with_barrier(random, parts):
    """The parts, with a barrier in each of them or in most."""
    place = random.choice(['first', 'last', 'any'])
    for statements in parts:
        if random.random() < 0.85:
            at = {'first': 0, 'last': len(statements), 'any': random.randint(0, len(statements))}[place]
            statements.insert(at, 'barrier;')
    return parts


def around(random, ranks):
    """Ranks that wait in rounds: each receives of the next one of its round, or sends to it."""
    order = random.sample(range(ranks), ranks)
    cuts = sorted(random.sample(range(1, ranks), random.randint(0, min(1, ranks - 1))))
    parts = [[] for _ in range(ranks)]
    for first, last in zip([0, *cuts], [*cuts, ranks]):
        round_of = order[first:last]
        for place, rank in enumerate(round_of):
            other, tag = round_of[(place + 1) % len(round_of)], random.randrange(2)
            parts[rank].append(random.choice([f'recv x from {other} tag {tag};', f'irecv h y from {other} tag {tag}; wait h;',
                                              f'ssend 1 to {other} tag {tag};', f'issend r[1] 2 to {other} tag {tag}; wait r[1];']))
            parts[rank].append(random.choice([f'recv x from any tag {tag};', f'send 3 to {other} tag 0;', 'print x;', '']))
    return parts


def missing(random, message, ranks, *parts):
    """A message of which these parts are others, as far as there are others."""
    other = {'tag': random.choice([number for number in range(4) if number != message.tag])}
    for part in ('sender', 'receiver'):
        other[part] = random.choice([number for number in range(ranks) if number != getattr(message, part)] or [0])
    return message._replace(**{part: other[part] for part in parts})


def missed(random, ranks, version):
    """What each rank does where one call waits, and many others nearly fit it; or a wait for any of several requests."""
    message, parts, is_send = any_message(random, ranks), [[] for _ in range(ranks)], random.random() < 0.5
    for number in range(random.randint(2, 6)):
        near = missing(random, message, ranks, *random.choice([('tag',), ('sender',), ('receiver',), ('tag', 'sender')]))
        source, tag = (part if random.random() < 0.9 else 'any' for part in (near.sender, near.tag))
        handle = random.choice(['h', f'r[{1 + number % 3}]'])
        if is_send:
            parts[near.receiver].append(f'irecv {handle} y from {source} tag {tag};')
        else:
            parts[near.sender].append(f'issend {handle} {number} to {near.receiver} tag {near.tag};')
    word, handle = random.choice([('', ''), ('i', 'r[0] ')])
    rank, source, tag = message.sender if is_send else message.receiver, *(part if random.random() < 0.85 else 'any' for part in message[::2])
    call = f'ssend {handle}7 to {message.receiver} tag {message.tag};' if is_send else f'recv {handle}x from {source} tag {tag};'
    waits = [random.choice(['wait r[0];', 'waitany r to i;'][:version])] if handle else []
    parts[rank] = [*([] if handle else random.choice([parts[rank], []])), f'{word}{call}', *parts[rank] * bool(handle), *waits]
    return parts


def nearly(random, ranks, version):
    """What each rank does of messages that nearly meet."""
    parts = [Part(random, version) for _ in range(ranks)]
    for _ in range(random.randint(1, MOST_MESSAGES)):
        message = any_message(random, ranks)
        calls = [(parts[message.sender].send, message)]
        calls += [(parts[received.receiver].receive, received) for received in changed(random, message, ranks)]
        for call, of in random.sample(calls, len(calls)):
            call(of)
    return [spoiled(random, part.ended()) for part in parts]


def on_lines(random, text):
    """A text on several lines: mostly a statement on each, some with a comment behind them, some on two."""
    def separated(found):
        draw = random.random()
        if found[1]:
            return found[1] + ('\n' if draw < 0.7 else ' ' if draw < 0.85 else random.choice(['\n\n', ' # so\n', '\r\n  ']))
        return '\n' if draw < 0.03 else ' '
    return re.sub('([;{}]?) ', separated, text)


def nearly_script(random, version):
    """A script whose ranks nearly meet."""
    ranks, draw = random.choice(RANKS), random.random()
    if draw < 0.15:
        ranks = random.randint(2, 5)
        parts = around(random, ranks)
    else:
        parts = missed(random, ranks, version) if draw < 0.35 else nearly(random, ranks, version)
    if random.random() < 0.25:
        parts = with_barrier(random, parts)
    text = f'{" ".join(header(ranks, version))} {DECLARED} {in_branches(parts)} {random.choice(["", "", "print y;", "barrier;", "assert x < 8;"])}'
    return on_lines(random, text).encode()


def with_options(random, case):
    """A check that explains, with other options as they may stand beside that."""
    asked = case.asked._replace(explain=random.random() < 0.95, traps=False, witnesses=random.random() < 0.3, group=random.random() < 0.3)
    draw = random.random()
    if draw < 0.12:
        asked = asked._replace(until=True)
    elif draw < 0.24:
        asked = asked._replace(ends=True)
    elif draw < 0.28:
        asked = asked._replace(piece=one_piece(random, script_of(case), asked))
    elif draw < 0.3:
        asked = random.choice([asked._replace(pieces=True), asked._replace(modes=1)])
    return case._replace(asked=asked)


def nearly_case(random, name, version):
    """A check of a script whose ranks nearly meet, with few leaves."""
    script = nearly_script(random, version)
    fuel = random.choice(FUELS) if random.random() < 0.1 else None
    asked = Asked(random.choice(MODES), random.choice(RUNS), fuel, complete=random.random() < 0.1, split=random.choice(SPLITS))
    return with_options(random, Case(name, script, asked))


class Drawn(NamedTuple):
    """A check of runs that are drawn: so many by a seed, with the options that may stand beside that."""
    name: str
    script: bytes
    asked: Asked
    runs: int
    seed: int

    def words(self, folder):
        """The words that have a program check it, with its file in a folder."""
        return ('check', held(folder, 'script.mpd', self.script), *option_words(self.asked), '--sample', str(self.runs), '--seed', str(self.seed))

    def wanted(self):
        """What must be answered."""
        script, asked = explorer.read_script(self.script), filled(self.asked)
        found = sampled(Debugger(script, asked.mode), self.runs, asked.fuel, self.seed, asked.until)
        return explorer.told(script, asked, found, is_wide=True)


def drawn_case(random, case):
    """The same script, of which runs are drawn."""
    asked = Asked(random.choice(MODES), witnesses=random.random() < 0.3, until=random.random() < 0.2, group=random.random() < 0.4, explain=True)
    return Drawn(f'{case.name}-drawn', case.script, asked, random.choice([1, 2, 3, 10]), random.randrange(100))


def cases(seed, number):
    """Checks of the script of a number, the same each time: two, and one of runs that are drawn now and then."""
    random = Random(f'explained/{seed}/{number}')
    if number % OTHERS_EVERY == 0:
        case, _ = ends_cases.first_case(f'{seed}-explained', number)
        return [with_options(random, case._replace(asked=case.asked._replace(ends=False, group=False))), with_options(random, case)]
    case = nearly_case(random, f'nearly-{seed}-{number}', 2 if number % VERSION_2_EVERY == 0 else 1)
    asked = Asked(random.choice(MODES), case.asked.runs, case.asked.fuel, split=case.asked.split)
    other = with_options(random, case._replace(name=f'{case.name}-other', asked=asked))
    return [case, other, *([drawn_case(random, case)] if number % DRAWN_EVERY == 1 else [])]
