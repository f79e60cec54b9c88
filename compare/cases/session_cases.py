"""Random sessions: a script, a mode, and lines of requests that are drawn with the model's session at hand."""

from collections import Counter
from random import Random
from typing import NamedTuple

from cases import session_lines
from cases.explore_cases import KINDS as EXPLORED, KINDS_OF_2, Beside, kind_of, script_of
from cases.kinds import KINDS as TRACED
from cases.slots_cases import script_of as script_of_sends
from cases.walks import random_step, respaced, step_line
from model import debugger, explorer, policy
from model.canonical import canonical
from model.debugger import RENDEZVOUS, Debugger, enabled_steps, find_call, lines_of, parted
from model.language import Fault, read_script
from model.modes import MODES, by_turns, slots_of
from model.policy import COMPARISONS, Choice, Forced
from model.session import Refused, Session, answer_line, parse, serve

CHOSEN_OF_TRACED = ('requests', 'wildcards', 'barriers', 'exchanges', 'trails', 'states', 'traps', 'arrays')
# Runs and explorations that take the model more steps than these are not asked for.
LONGEST_RUN, MOST_FUEL, MOST_LEAVES = 200, 60, 40
# Numbers of conditions: those of 64 bits with a sign, and what is none of these.
VALUES = (0, -1, 1, 2 ** 63 - 1, -2 ** 63, 2 ** 63, -2 ** 63 - 1)
EDGES = (0, 1, 2, 15, 16, 63, 64, 65, 65536, 65537, 65538, 999_999, 1_000_000, 1_000_001, 2 ** 32, 2 ** 63, 2 ** 64 - 1)
ENDS = (b'\n',) * 20 + (b'\r\n', b'\r\n', b'\n\n', b'\n\r\n', b'\r\r\n', b'\n\n\n')
WAYS = ('at once', 'in pieces', 'turn by turn')
# How many sessions are given `--wide`. The others are asked the same, and much of it is refused.
WIDE = 0.8


class Habits(NamedTuple):
    """How often each command is sent, how many lines there are, how often a version is named and a line is spoiled."""
    commands: dict
    lines: tuple
    at: float = 0.1
    spoiled: float = 0.05
    any_step: float = 0.1


def commands(**shares):
    """A share for each command, 2 where none is named."""
    names = ('step', 'next', 'run', 'run_on', 'back', 'redo', 'goto', 'run_back', 'enabled', 'state', 'vars', 'calls', 'why', 'set', 'unset', 'breaks', 'hit', 'explore',
             'look', 'list_steps', 'call_lines')
    return {name: shares.get(name, 2) for name in names}


USUAL = Habits(commands(step=14, next=8, run=6, run_on=3, back=4, redo=4, run_back=3, set=4, state=4), (20, 40, 60, 90))
FORWARD = Habits(commands(step=20, next=20, run=6, explore=3), (30, 60, 120), any_step=0.03)
ALONG = Habits(commands(step=12, next=6, run=6, back=12, redo=12, goto=6, run_back=4, set=3, hit=4), (40, 80, 120))
MARKING = Habits(commands(step=6, next=6, run=10, run_on=10, run_back=12, set=12, unset=5, breaks=4, hit=10, back=4, goto=4, redo=4), (40, 80, 120))
ASKING = Habits(commands(step=10, next=8, run=8, vars=8, calls=8, why=16, state=8, enabled=8, explore=10, look=16, list_steps=6, call_lines=6), (30, 60))
FILLING = Habits(commands(set=120, unset=6, run=6, run_back=4), (110, 140))
SPOILED = Habits(commands(step=10, next=6, run=6, set=6, goto=3, vars=3), (60, 120), at=0.3, spoiled=0.75)
ALL_HABITS = (USUAL, USUAL, FORWARD, FORWARD, ALONG, ALONG, MARKING, MARKING, ASKING, FILLING, SPOILED, SPOILED)


def near(random, number, most=None):
    """A number, or one next to it, now and then any at an edge."""
    if random.random() < 0.06:
        return random.choice(EDGES)
    found = max(0, number + random.choice([-1, 0, 0, 0, 1]))
    return found if most is None else min(found, most)


def is_short(walked, breaks):
    """Whether a run from here stops by itself within some steps, past choices of a single candidate too."""
    ran = Debugger.__new__(Debugger)
    ran.worlds, ran.steps = list(walked.worlds), list(walked.steps)
    return policy.run_on(ran, breaks, LONGEST_RUN).cause != policy.MAX


def is_small(walked):
    """Whether what is explored from here ends within few steps and few leaves."""
    found = explorer.explored(walked, MOST_LEAVES, MOST_FUEL)
    return not found.more and all(leaf.outcome != explorer.CUT for leaf in found.leaves)


class Talk:
    """Requests of one session, each drawn where the session is then; what was drawn is counted in `met`."""

    def __init__(self, random, script, mode, habits, wide=True):
        self.random, self.habits = random, habits
        read = read_script(script)
        self.session, self.version = Session(read, mode, wide), read.version
        self.source_lines = script.count(b'\n') + 1
        self.blank, self.escapes = random.choice([0.0, 0.0, 0.3]), random.choice([0.0, 0.0, 0.0, 0.1, 1.0])
        self.met = Counter()

    @property
    def walked(self):
        return self.session.debugger

    def chance(self, share):
        return self.random.random() < share

    # each gives the fields of a request, beside the version

    def step(self):
        steps, undone = enabled_steps(self.walked.world), self.walked.steps[self.walked.depth:]
        if self.chance(self.habits.any_step) or not steps:
            step = random_step(self.random, self.walked.world, self.version)
        elif undone and self.chance(0.4):
            step = undone[0]
        else:
            step = self.random.choice(steps)
        return {'cmd': 'step', 'step': respaced(self.random, step_line(self.random, step))}

    def next(self):
        decided = policy.decision(self.walked.world)
        if isinstance(decided, Choice):
            count = len(decided.steps)
            choice = self.random.choice([None, None, count, near(self.random, count)]) if self.chance(0.25) else self.random.randrange(count)
        else:
            choice = near(self.random, 0) if self.chance(0.1) else None
        self.met['a choice of wakes by a handle'] += isinstance(decided, Choice) and decided.steps[0].kind == 'wakeany'
        self.met['a choice that is not looked at'] += isinstance(decided, Forced) and choice is not None
        return {'cmd': 'next', **({} if choice is None else {'choice': choice})}

    def run(self, command='run'):
        most = self.random.choice([1, 2, 3, 5, 10, 30, 100, 100])
        if self.chance(0.2):
            most = self.random.choice([*EDGES, 1_000_000])
            if 100 < most <= 1_000_000 and not is_short(self.walked, self.session.breaks):
                most = 100
        return {'cmd': command, 'max': most}

    def run_on(self):
        return self.run('run-on')

    def back(self):
        depth = self.walked.depth
        count = self.random.choice([1, 1, 2, 3, near(self.random, depth), self.random.randint(0, depth)])
        return {'cmd': 'back', 'count': self.random.choice(EDGES) if self.chance(0.03) else count}

    def redo(self):
        undone = self.session.undone()
        count = self.random.choice([1, 1, 2, near(self.random, undone), self.random.randint(0, undone)])
        return {'cmd': 'redo', 'count': self.random.choice(EDGES) if self.chance(0.03) else count}

    def goto(self):
        depth = self.walked.depth
        numbers = [0, near(self.random, depth), near(self.random, len(self.walked.steps)), self.random.randint(0, depth)]
        return {'cmd': 'goto', 'depth': self.random.choice(numbers)}

    def run_back(self):
        return {'cmd': 'run-back'}

    def enabled(self):
        return {'cmd': 'enabled'}

    def state(self):
        return {'cmd': 'state'}

    def rank(self):
        return self.some(len(self.walked.world.ranks))

    def some(self, count):
        """A number that is mostly below a count, now and then the count itself."""
        return near(self.random, count) if count == 0 or self.chance(0.08) else self.random.randrange(count)

    def vars(self):
        return {'cmd': 'vars', 'rank': self.rank()}

    def calls(self):
        return {'cmd': 'calls', 'rank': self.rank()}

    def why(self):
        """Mostly of a call that is free, where there is one."""
        ranks = self.walked.world.ranks
        rank, free = self.rank(), [(number, call) for number, rank in enumerate(ranks) for call in rank.free]
        if free and self.chance(0.7):
            rank, call = self.random.choice(free)
        else:
            call = self.some(len(ranks[rank].calls) if rank < len(ranks) else 0)
        return {'cmd': 'why', 'rank': rank, 'call': call}

    def set(self):
        kind = self.random.choice(['line', 'line', 'match', 'change', 'handle', 'rank'])
        if kind == 'rank':
            return {'cmd': 'break', 'kind': kind, 'rank': self.rank()}
        if kind == 'handle':
            return {'cmd': 'break', 'kind': kind, 'rank': self.rank(), 'handle': self.some(len(self.walked.world.ranks[0].handles))}
        if kind != 'change':
            line = self.random.choice(EDGES) if self.chance(0.1) else self.random.randint(1, self.source_lines)
            meant = {'rank': self.rank()} if self.chance(0.3) else {}
            return {'cmd': 'break', 'kind': kind, 'line': line, **meant, **(self.condition() if kind == 'line' and self.chance(0.4) else {})}
        return {'cmd': 'break', 'kind': kind, 'rank': self.rank(), 'cell': self.some(len(self.walked.world.ranks[0].cells))}

    def condition(self):
        """A condition about a cell, mostly of a value that some rank has there, or one beside it; seldom one that lacks a field."""
        ranks = self.walked.world.ranks
        cell = self.some(len(ranks[0].cells))
        held = [rank.cells[cell] for rank in ranks if cell < len(rank.cells)] or [0]
        value = self.random.choice(held) + self.random.choice([-1, 0, 0, 0, 1]) if self.chance(0.9) else self.random.choice(VALUES)
        condition = {'cell': cell, 'is': self.random.choice(tuple(COMPARISONS)), 'value': value}
        if self.chance(0.05):
            del condition[self.random.choice(tuple(condition))]
        return condition

    def unset(self):
        taken = [number for number, stop in enumerate(self.session.breaks.places) if stop is not None]
        number = self.random.choice(taken) if taken and self.chance(0.8) else near(self.random, self.random.choice([0, 1, 63]))
        return {'cmd': 'unbreak', 'break': number}

    def breaks(self):
        return {'cmd': 'breaks'}

    def hit(self):
        return {'cmd': 'hit'}

    def explore(self):
        left = debugger.MOST_STEPS - self.walked.depth
        runs, fuel = self.random.choice([1, 2, 3, 10, MOST_LEAVES]), self.random.choice([1, 2, 5, 10, 30, MOST_FUEL])
        draw = self.random.random()
        if draw < 0.15:
            runs, fuel = self.random.choice([(0, fuel), (65537, fuel), (runs, 0), (runs, left + 1), (near(self.random, 2 ** 64 - 2), fuel)])
        elif draw < 0.5 and is_small(self.walked):
            runs, fuel = self.random.choice([(runs, left), (65536, left), (65536, fuel), (1000, 1000)])
        return {'cmd': 'explore', 'runs': runs, 'fuel': fuel}

    def look(self):
        """A look without fields."""
        return {'cmd': self.random.choice(['script', 'where', 'all', 'decision', 'explain'])}

    def list_steps(self):
        kept = len(self.walked.steps)
        first = self.random.choice([0, self.walked.depth, near(self.random, kept), self.random.randint(0, kept)])
        count = self.random.choice(EDGES) if self.chance(0.1) else self.random.choice([1, 2, 10, max(1, kept - first), 1_000_000])
        return {'cmd': 'steps', 'from': first, 'count': count}

    def call_lines(self):
        return {'cmd': 'lines', 'rank': self.rank()}

    def usual(self):
        """The fields of a request as these habits have them."""
        shares = self.habits.commands
        return getattr(self, self.random.choices(list(shares), list(shares.values()))[0])()

    def past_one(self):
        """At a choice of one match a breakpoint at the line of its receive; once that is set, a run past it. Elsewhere None."""
        decided = policy.decision(self.walked.world)
        if not isinstance(decided, Choice) or len(decided.steps) > 1 or decided.steps[0].kind != 'match':
            return None
        line = int(find_call(self.walked.world, decided.steps[0].second).line)
        is_set = any(isinstance(it, policy.MatchBreak) and it.line == line for it in self.session.breaks.places)
        return {'cmd': 'run-on', 'max': 100} if is_set else {'cmd': 'break', 'kind': 'match', 'line': line}

    def fields(self):
        """The fields of the next request, in any order."""
        found = (self.past_one() if self.session.wide and self.chance(0.3) else None) or self.usual()
        if self.chance(self.habits.at):
            now = self.session.version
            found['at'] = now if self.chance(0.6) else near(self.random, max(0, now + self.random.choice([-1, 1, -2])))
            self.met['the right version'] += found['at'] == now
        entries = list(found.items())
        if self.chance(0.3):
            self.random.shuffle(entries)
        return dict(entries)

    def line(self):
        """The next line, without its end."""
        pairs = session_lines.pairs_of(self.random, self.fields(), self.escapes)
        if self.chance(self.habits.spoiled):
            kind = self.random.choice(session_lines.kinds_for(pairs))
            found = session_lines.spoiled(self.random, kind, pairs)
            if found is not None and not self.is_long(found):
                self.met[kind] += 1
                return found
        return session_lines.written(self.random, pairs, self.blank)

    def is_long(self, line):
        """Whether a line asks for more steps than the model should take."""
        try:
            request = parse(line, self.session.wide)
        except Refused:
            return False
        if request.command in ('run', 'run-on'):
            return request.fields['max'] > LONGEST_RUN and not is_short(self.walked, self.session.breaks)
        return request.command == 'explore' and max(request.fields.values()) > MOST_FUEL and not is_small(self.walked)

    def lines(self, count):
        """So many lines with their ends; each is answered before the next is drawn."""
        for _ in range(count):
            data = self.line() + self.random.choice(ENDS)
            for line in lines_of(data):
                before = self.walked.depth
                self.note_stop(answer_line(self.session, line), line, before)
            yield data

    def note_stop(self, reply, line, before):
        """Counts by which kind of breakpoint a run stopped, forward or back, and what a run went past, by the depth before it."""
        if reply and reply.get('stop') == policy.BREAK:
            kind = type(self.session.breaks.get(reply['break'])).__name__.removesuffix('Break').lower()
            self.met[f'a stop by {kind}'] += 1
        if reply and reply['ok'] and 'stop' in reply and parse(line, self.session.wide).command == 'run-on':
            singles = [isinstance(policy.decision(world), Choice) for world in self.walked.worlds[before:self.walked.depth]]
            self.met['a run on past a single candidate'] += any(singles)
            self.met['a run on that stops behind a single candidate'] += singles[-1:] == [True] and reply['stop'] == policy.BREAK


def on_lines(random, script):
    """The script, mostly in its canonical text, where each statement has a line of its own."""
    try:
        return canonical(read_script(script)) if random.random() < 0.7 else script
    except Fault:
        return script


def script_by(seed, random, mode):
    """A script of a seed: of any kind of its version; half of those in a mode of slots have many sends."""
    if slots_of(mode) is not None and random.random() < 0.5:
        return on_lines(random, script_of_sends(random))
    if isinstance(seed, Beside):
        return on_lines(random, script_of(random, KINDS_OF_2[kind_of(random, KINDS_OF_2)]))
    return script_for(random, mode)


def script_for(random, mode):
    """A script of version 1 of any kind."""
    if random.random() < 0.75:
        return on_lines(random, script_of(random, EXPLORED[kind_of(random)]))
    kind = TRACED[random.choice(CHOSEN_OF_TRACED)]
    return on_lines(random, parted(kind.draw(random, mode) if len(kind.ways) > 1 else kind.draw(random))[0])


class Case(NamedTuple):
    """A script in a mode (None: not said), what is sent, piece by piece, in which way, what was met as it was drawn, and whether `--wide` is given."""
    name: str
    script: bytes
    mode: str
    pieces: tuple
    way: str
    met: Counter
    wide: bool = True

    @property
    def data(self):
        return b''.join(self.pieces)

    def wanted(self):
        """What must be answered."""
        return serve(self.script, self.data, RENDEZVOUS if self.mode is None else self.mode, self.wide)


def ended(random, pieces):
    """The pieces, of which the last may have no line feed, or be cut anywhere."""
    draw = random.random()
    if draw < 0.2:
        pieces[-1] = pieces[-1].rstrip(b'\n')
    elif draw < 0.25:
        pieces[-1] = pieces[-1][:random.randint(0, len(pieces[-1]))]
    elif draw < 0.3:
        pieces.append(random.choice([b'\r', b' ', b'{', b'x' * 4097, b'{"cmd":"state"}' + b' ' * 4081 + b'\r', b'{"cmd":"state"}' + b' ' * 4082]))
    return pieces


def in_pieces(random, data):
    """The input in pieces, each of which a program reads at once."""
    longest = random.choice([1, 7, 40, 300, 4096] if len(data) < 3000 else [40, 300, 4095, 4096])
    place = 0
    while place < len(data):
        length = random.randint(1, longest)
        yield data[place:place + length]
        place += length


def random_case(seed, number):
    """One session, the same each time."""
    random = Random(f'sessions/{seed}/{number}')
    mode = by_turns(random.choice(MODES), number)
    script, way, habits = script_by(seed, random, mode), WAYS[number % len(WAYS)], random.choice(ALL_HABITS)
    wide = Random(f'wide sessions/{seed}/{number}').random() < WIDE
    try:
        talk = Talk(random, script, mode, habits, wide)
    except Fault:
        return Case(f'session-{seed}-{number}', script, mode, (b'{"cmd":"state"}\n',), 'at once', Counter(), wide)
    pieces = ended(random, list(talk.lines(random.choice(habits.lines))))
    if way == 'in pieces':
        pieces = in_pieces(random, b''.join(pieces))
    mode = None if mode == RENDEZVOUS and random.random() < 0.3 else mode
    return Case(f'session-{seed}-{number}', script, mode, tuple(pieces), way, talk.met, wide)
