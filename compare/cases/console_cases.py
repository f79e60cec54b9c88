"""Random dialogues of the console: a script, a mode, and lines of words that are drawn with the model's console at hand.

Most lines fit the script where the console stands then: its ranks, names, lines, calls and candidates. Others are shortened, have blanks about
them, are no word, don't fit it, have numbers that are out of range, are comments, empty, too long, or have bytes that are no text.
"""

import re
from collections import Counter
from itertools import islice
from random import Random
from typing import NamedTuple, Optional, Union

from cases import deciding_cases, explained_cases, session_cases
from cases.explore_cases import Beside
from cases.session_cases import is_short
from cases.walks import random_step, respaced, step_line
from model import debugger, explorer, policy, walks, wide
from model.console import NO_FILE, USUAL, Console, Look, NamedRun, debug, is_blank, leaf_of
from model.console_words import ALL, STEPS, TABLE, Asked, NotAsked, full_name, names_of
from model.debugger import RENDEZVOUS, Debugger, enabled_steps, last_call, lines_of, next_world, step_text
from model.explorer import leaf_lines
from model.files import held
from model.language import Fault, read_script
from model.modes import MODES, by_turns
from model.policy import COMPARISONS, Choice, Forced
from model.run_words import follower
from model.states import Search, answered
from model.walks import CUT, Run, ending, taken, walk
from model.wide import ASLEEP, wide_ways
from model.worlds import Step

# What takes the model more steps, runs or states than these isn't asked for.
LONGEST_RUN, MOST_RUNS, MOST_FUEL, MOST_STATES = 200, 60, 250, 400
# Words that look for a run that ends so.
SOUGHT = 'deadlock', 'trap'
EDGES = ('0', '1', '2', '15', '16', '63', '64', '65', '65536', '65537', '65538', '1000000', '1000001', '999999999', '000000001')
NO_NUMBERS = ('-1', '+1', '1.0', '1.', '.1', '0x1', '1234567890', '0000000001', 'x', '1e3', '1,0', '\xb2', 'all', '1;', "'1'")
NO_NAMES = ('5', 'x[', 'x]', 'x[]', 'x[i]', 'x[-1]', 'x[0', '[0]', 'x[0]]', 'x.0', 'x+1', '*', 'a[0000000000]', '\xe9', 'x[0][0]', 'a [0]')
# What stands between two operands, and one that stands between none.
OPERATORS = '+', '-', '*', '/', '%', '<', '==', '&&', '||', '='
OTHER_NAMES = ('foo', 'rank', 'size', 'send', '_', 'X', 'x0', 'y_', 'any', 'a' * 65)
NO_WORDS = ('zap', 'stop', 'steps', 'st', 'exi', 'exits', 'bt1', 'wh', 'whence', 'S', 'v', 'nn', 'rx', '?x', 'sx',
            'finish', 'quitt', 'un do', 'undone', 'undo-', 'undo_choice', 'choice', 'followed', 'fo', 'traps', 'tr', 'ux', 'fx',
            'NEXT', 'Next', 'brake', 'reverse', 'reverse-', 'brea', 'breakss', 'loc', 'wakean', 'matches',
            'nexts', '?help', '-', '--', '.', '0', '7', '\xff', '\xc3\xa9', 'next\xe9', 'n\x01', '\x7f', '~', 'run\x0b', '\x0c', 'x\x00y', 'h\xa0',
            'nex\xb2')
BEHIND = ('', '', ' 0', ' 1', ' x', ' 0 0', ' 1.0', ' # why', ' 0.0 1.0', ' \xff')
COMMENTS = ('#', '# so', '#next', '  # next', '\t#', '# \xff', '## run')
# A name for requests, with its size or without, which isn't 0.
REQUEST = re.compile(rb'req (\w+)(\[[1-9]\d*\])?;')
STEPS_AND_QUIT = 'quit', 'q', 'exit', 'release', 'wake', 'wakeany', 'local'
LAST_LINES = b'next\r', b'#', b'\r', b'x' * 4097, b'show' + b' ' * 4093, b'show' + b' ' * 4092
ENDS = session_cases.ENDS
MODES_DRAWN = (*MODES, *MODES, 'slots:1', 'slots:2')


class Habits(NamedTuple):
    """How often each word is drawn, how many lines there are, and how often a line is spoiled or empty, or a breakpoint one that is hit soon."""
    words: dict
    lines: tuple
    spoiled: float = 0.06
    empty: float = 0.05
    hitting: float = 0.1


def shares(usual=2, **named):
    """A share for each word."""
    words = [word for row in TABLE for word in row.words if word not in ('match', 'wake', 'wakeany', 'release', 'quit')]
    return {word: named.get(word.replace('-', '_'), usual) for word in words}


MOVING = Habits(shares(1, watch=0, info=0, next=20, run=12, until=5, finish=7, back=5, run_back=4, undo_choice=6, goto=7, redo=9, local=10, deadlock=3, trap=3, follow=4,
                       history=2, blame=2),
                (25, 40, 60))
STOPPING = Habits(shares(1, next=8, run=16, until=6, finish=6, back=4, run_back=12, redo=5, goto=2, **{'break': 12}, delete=4, breaks=4), (30, 50))
LOOKING = Habits(shares(3, next=12, run=12, restart=1, watch=1, help=6, why=16, print=20, vars=6, list=4, calls=4, queues=4, ranks=4, enabled=4,
                        check=6), (30, 45))
ENDING = Habits(shares(1, restart=0, watch=0, info=0, next=14, run=22, back=4, undo_choice=9, redo=10, deadlock=8, trap=6, follow=8, check=8, why=6,
                       history=3, goto=4, blame=10), (25, 40))
FILLING = Habits(shares(0, until=0, finish=0, reload=2, **{'break': 60}, delete=3, breaks=1, run=2, run_back=2), (90, 110), spoiled=0.01)
SPOILED = Habits(shares(3, next=8, run=4), (40, 60), spoiled=0.6, empty=0.15)
HITTING = Habits(shares(1, next=10, run=20, back=4, undo_choice=9, redo=6, goto=4, local=6, restart=0, info=0, **{'break': 14}, watch=2, delete=4),
                 (30, 50), hitting=0.9)
# Of scripts in which a step decides, of which so many come in turn.
BLAMING = Habits(shares(1, next=12, run=20, back=3, undo_choice=6, redo=8, goto=5, local=8, deadlock=8, trap=8, follow=8, blame=24, why=2, check=6, vars=3), (25, 40))
BLAMING_TURNS, BLAMING_EVERY = (3, 9, 13), 20
ALL_HABITS = (MOVING, MOVING, MOVING, STOPPING, STOPPING, HITTING, HITTING, HITTING, LOOKING, LOOKING, LOOKING, ENDING, ENDING, ENDING, SPOILED,
              SPOILED, FILLING)


def is_tried_soon(walked, is_last):
    """Whether the runs from here, up to the first that is the last one by how many stand before it and by itself, end within few steps, and
    are few, with the dead ways between them."""
    count = 0
    for number, found in enumerate(wide_ways(walked.world, MOST_FUEL)):
        if found.outcome == CUT or number > MOST_RUNS:
            return False
        if found.outcome != ASLEEP and is_last(count, found):
            return True
        count += found.outcome != ASLEEP
    return True


def is_sought_soon(console, sought):
    """Whether few states are come to as a run is sought that ends in a way."""
    search = Search(most=MOST_STATES, stops_at=(sought,))
    answered(search.behind(console.world, console.fuel()))
    return search.come_to < MOST_STATES


def is_blamed_soon(console):
    """Whether few states are come to from those of the run that is kept."""
    search = Search(most=MOST_STATES)
    console.last_not_doomed(search)
    return search.come_to < MOST_STATES


class Talk:
    """Lines for one console, each drawn where it stands then; what was drawn is counted in `met`."""

    def __init__(self, random, script, mode, habits, ahead=None):
        self.random, self.habits = random, habits
        self.console = Console(script, mode, ahead)
        self.source_lines = script.count(b'\n') + 1
        self.was_numbered = False
        # The step that a breakpoint was set for, and the depth that it is taken from.
        self.soon = None
        self.met = Counter()

    @property
    def walked(self):
        return self.console.debugger

    @property
    def world(self):
        return self.console.world

    def chance(self, share):
        return self.random.random() < share

    # ---- what may follow a word

    def edge(self, *numbers):
        """One of some numbers, or one next to it, now and then one at an edge."""
        if self.chance(0.08):
            return self.random.choice(EDGES)
        number = max(0, self.random.choice(numbers) + self.random.choice([0, 0, 0, 0, -1, 1]))
        return str(number).zfill(self.random.choice([0, 0, 0, 0, 0, 0, 0, 9]))

    def rank(self):
        ranks = len(self.world.ranks)
        return str(self.random.randrange(ranks)) if self.chance(0.93) else self.random.choice([str(ranks), *EDGES])

    def maybe(self, drawn, share):
        """What is drawn, or nothing."""
        return [drawn()] if self.chance(share) else []

    def name(self):
        """A name, mostly one that is declared, with an index where it is an array."""
        names = self.console.script.names
        if not names or self.chance(0.08):
            return self.random.choice(OTHER_NAMES) + self.random.choice(['', '', '[0]'])
        name, declared = self.random.choice(list(names.items()))
        is_indexed = self.chance(0.6 if declared.size else 0.04 if declared.size is None else 0.3)
        return f'{name}[{self.edge(0, declared.size or 0, self.random.randint(0, declared.size or 1))}]' if is_indexed else name

    def call(self):
        """A call, mostly one that is there."""
        free = [(number, call) for number, rank in enumerate(self.world.ranks) for call in rank.free]
        if free and self.chance(0.5):
            rank, call = self.random.choice(free)
            return f'{rank}.{call}'
        rank = int(self.rank())
        calls = len(self.world.ranks[rank].calls) if rank < len(self.world.ranks) else 0
        return f'{rank}.{self.random.randrange(calls) if calls and self.chance(0.9) else calls}'

    # ---- each word with what follows it

    def next(self):
        decided = self.console.decided
        if self.console.can_choose_again and self.chance(0.5):
            return ['next']
        if self.is_at_single() and self.chance(0.4):
            return ['next', self.edge(0, 1, 2, 3)]
        if isinstance(decided, Choice):
            count = len(decided.steps)
            if self.chance(0.15):
                return ['next', self.random.choice(['0', str(count + 1), *EDGES])]
            return ['next', *self.maybe(lambda: str(self.random.randint(1, count)), 0.8)]
        return ['next', *self.maybe(lambda: self.edge(0, 1, 2, 3, 5, 10, 30), 0.2)]

    def run(self):
        most = self.edge(1, 2, 3, 5, 10, 30, 100) if self.chance(0.35) else None
        return ['run', *([] if most is None else [most])]

    def until(self):
        if self.chance(0.5):
            return ['until', 'rank', self.rank()]
        return ['until', self.edge(0, *(self.random.randint(1, self.source_lines) for _ in range(5)))]

    def finish(self):
        blocked = [str(number) for number, rank in enumerate(self.world.ranks) if rank.mode == 'blocked']
        return ['finish', *self.maybe(lambda: self.random.choice(blocked) if blocked and self.chance(0.8) else self.rank(), 0.7)]

    def back(self):
        if self.chance(0.3):
            return ['back', 'rank', self.rank()]
        return ['back', *self.maybe(lambda: self.edge(1, 2, self.walked.depth, self.random.randint(0, self.walked.depth)), 0.5)]

    def goto(self):
        depth, kept = self.walked.depth, len(self.walked.steps)
        singles = self.singles()
        if singles and self.chance(0.4):
            return ['goto', str(self.random.choice(singles))]
        return ['goto', self.edge(0, depth, kept, self.random.randint(0, depth), self.random.randint(depth, kept))]

    def redo(self):
        undone = self.console.session.undone()
        if self.chance(0.3):
            return ['redo', ALL]
        return ['redo', *self.maybe(lambda: self.edge(1, 2, undone, undone, undone + 2, self.random.randint(0, undone)), 0.5)]

    def local(self):
        """A step of any kind, by hand."""
        steps, undone = enabled_steps(self.world), self.walked.steps[self.walked.depth:]
        if self.chance(0.15) or not steps:
            step = random_step(self.random, self.world, self.console.script.version)
        elif undone and self.chance(0.4):
            step = undone[0]
        else:
            step = self.random.choice(steps)
        return step_line(self.random, step).split()

    def hit_soon(self):
        """What may follow `break` so that a step which is ahead, or can be taken here, hits it."""
        steps = [step for step in self.console.ahead[:1] or enabled_steps(self.world) if next_world(self.world, step) is not None]
        if not steps:
            return []
        step = self.seldom(steps)
        lines = range(1, self.source_lines + 1)
        found = [([], policy.LineBreak(line)) for line in lines] + [(['match'], policy.MatchBreak(line)) for line in lines]
        for rank, there in enumerate(self.world.ranks):
            found += [(['change', rank, 'var'], policy.ChangeBreak(rank, cell)) for cell in range(len(there.cells))]
            found += [(['change', rank, 'req'], policy.HandleBreak(rank, handle)) for handle in range(len(there.handles))]
        self.soon = step, self.walked.depth
        return [(words, stop) for words, stop in found if policy.is_hit(stop, self.world, step)]

    def seldom(self, steps):
        """One of some steps, mostly one that is a candidate, prints something or is the last one, and as likely of each kind."""
        told = [step for step in steps if self.is_told_of(step)]
        candidates = getattr(self.console.decided, 'steps', ())
        steps = [step for step in steps if step in candidates and self.chance(0.8)] or (told if told and self.chance(0.8) else steps)
        kind = self.random.choice(sorted({step.kind for step in steps}))
        return self.random.choice([step for step in steps if step.kind == kind])

    def is_seldom(self):
        """Whether a rank can go on by one of its requests, or now and then a choice is open, or a step prints something or is the last one."""
        steps = enabled_steps(self.world)
        is_any = any(step.kind == 'wakeany' for step in steps) and self.chance(0.9)
        return is_any or self.chance(0.5) and (isinstance(self.console.decided, Choice) or any(map(self.is_told_of, steps)))

    def is_told_of(self, step):
        """Whether a step prints something, or is the last one."""
        after = next_world(self.world, step)
        return not enabled_steps(after) or any(old.printed != new.printed for old, new in zip(self.world.ranks, after.ranks))

    def towards(self, step):
        """One of the words that take a step here."""
        decided, is_ahead = self.console.decided, self.console.ahead[:1] == [step]
        found = [step_text(step).split()]
        if isinstance(decided, Choice) and step in decided.steps:
            found += [['next', str(decided.steps.index(step) + 1)]] * 2
        if is_ahead and isinstance(decided, Choice) or isinstance(decided, Forced) and decided.step == step:
            found += [['next'], ['next']]
        if is_ahead and isinstance(decided, Choice):
            found += [['run'], ['run'], ['run', '3']]
        return self.random.choice(found + [['redo'], ['redo', ALL], ['goto', str(self.walked.depth + 1)]] * is_ahead)

    def behind_break(self):
        """What is asked behind a breakpoint that was set so that a step hits it: that step, and again, as it lies ahead; None where no more is."""
        if self.soon is None and self.habits is HITTING and self.is_seldom():
            return self.break_()
        if self.soon is None or self.chance(0.2):
            self.soon = None
            return None
        step, depth = self.soon
        if self.walked.depth == depth:
            return self.towards(step)
        return self.random.choice([['back'], ['goto', str(depth)]]) if self.walked.depth == depth + 1 else None

    def break_hit_soon(self):
        """A breakpoint that is hit soon; None where there is none."""
        found = self.hit_soon()
        if not found:
            return None
        words, stop = self.random.choice(found)
        if words[:1] == ['change']:
            _, rank, kind = words
            return ['break', 'change', str(rank), self.console.cell_name(kind, stop[1])]
        return ['break', *words, str(stop.line)]

    def break_(self):
        soon = self.break_hit_soon() if self.chance(self.habits.hitting) else None
        return self.narrowed(self.break_anywhere() if soon is None else soon)

    def narrowed(self, words):
        """A breakpoint of a line or of a match, now and then of one rank, or a line with a condition."""
        if words[1] in ('change', 'rank'):
            return words
        meant = ['rank', self.rank()] if self.chance(0.2) else []
        return [*words, *meant, *(self.condition() if words[1] != 'match' and self.chance(0.25) else [])]

    def condition(self):
        """A condition, mostly one that can be read, with blanks around its operator or without."""
        name, operator = self.name(), self.random.choice([*COMPARISONS, '==', '>='])
        value = str(self.random.choice([0, 1, 2, -1, 5, 9, *session_cases.VALUES]))
        if self.chance(0.08):
            operator, value = self.random.choice([('=', value), ('=>', value), (operator, 'x'), (operator, ''), (operator, '--1'), ('===', value)])
        left, right = self.random.choice(['', ' ']), self.random.choice(['', ' '])
        return ['if', *f'{name}{left}{operator}{right}{value}'.split(), *self.maybe(lambda: '1', 0.03)]

    def break_anywhere(self):
        kind = self.random.choice(['line', 'line', 'match', 'change', 'change', 'rank'])
        if kind == 'rank':
            return ['break', 'rank', self.rank()]
        if kind == 'change':
            return ['break', 'change', self.rank(), self.name()]
        lines = [self.random.randint(1, self.source_lines) for _ in range(2)]
        return ['break', *(['line'] if kind == 'line' and self.chance(0.3) else ['match'] * (kind == 'match')), self.edge(1, *lines)]

    def delete(self):
        taken = [number for number, stop in enumerate(self.console.session.breaks.places) if stop is not None]
        return ['delete', str(self.random.choice(taken)) if taken and self.chance(0.8) else self.edge(0, 63)]

    def of_rank(self, word):
        return [word, *self.maybe(self.rank, 0.5)]

    def print(self):
        if self.chance(0.06):
            return ['print']
        return ['print', *(self.expression() if self.chance(0.25) else [self.name()]), *self.maybe(self.rank, 0.4)]

    def operand(self):
        """An operand of an expression, with brackets or a sign now and then."""
        told = self.name() if self.chance(0.6) else self.random.choice(['rank', 'size', self.edge(0, 1, 5)])
        return self.random.choice(['{}'] * 8 + ['-{}', '!{}', '({})', '- ( {} )', '[{}]']).format(told)

    def expression(self):
        """The words of an expression, now and then without one of them."""
        words = [self.operand()]
        for _ in range(self.random.randint(0, 3)):
            words += [self.random.choice(OPERATORS), self.operand()]
        if self.chance(0.12):
            words.pop(self.random.randrange(len(words)))
        return words

    def why(self):
        blocked = [str(number) for number, rank in enumerate(self.world.ranks) if rank.mode == 'blocked']
        if self.chance(0.2):
            return ['why']
        if blocked and self.chance(0.4):
            return ['why', self.random.choice(blocked)]
        return ['why', self.rank() if self.chance(0.15) else self.call()]

    def going(self):
        """The ranks that can go on, their calls being complete."""
        return [step.first for step in enabled_steps(self.world) if step.kind == 'wake']

    def look_at(self, going):
        """What tells of ranks that they can go on, or of the call of one, which doesn't."""
        rank = self.random.choice(going)
        return self.random.choice([['ranks'], ['why'], ['why', str(rank)], ['why', str(last_call(self.world, rank))]])

    def look_at_release(self):
        """What lists a release, now and then where one is enabled; None elsewhere."""
        return ['enabled'] if any(step.kind == 'release' for step in enabled_steps(self.world)) and self.chance(0.5) else None

    def leave_one(self):
        """A step by hand in the place of the only one that is ahead, now and then where there is another; None elsewhere."""
        others = [step for step in enabled_steps(self.world) if [step] != self.console.ahead]
        is_left = len(self.console.ahead) == 1 and bool(others) and self.chance(0.15)
        return step_text(self.random.choice(others)).split() if is_left else None

    def history(self):
        return ['history', *self.maybe(lambda: self.edge(0, 1, 3, 10, self.walked.depth), 0.6)]

    def check(self):
        return ['check', *self.maybe(lambda: self.edge(1, 1, 2, 3, 10), 0.5)]

    def follow(self):
        return ['follow', self.edge(1, 1, 2, 2, 3, 5)]

    def help(self):
        names = [name for row in TABLE for name in names_of(row)]
        return ['help', *self.maybe(lambda: self.random.choice([*names, *names, *NO_WORDS, *['all', 'choice'] * 9]), 0.8)]

    def watch(self):
        """A breakpoint on a name, mostly as the word `break` would set it."""
        _, kind, *behind = self.break_()
        return ['watch', *reversed(behind)] if kind == 'change' else ['watch', self.name(), self.rank()]

    def info(self):
        return ['info', self.random.choice(['breakpoints', 'breakpoints', 'ranks'])]

    def source(self):
        """A file that can't be read: of others there are worked dialogues."""
        return ['source', self.random.choice(['no_file', '.', './no/file', '\xff', 'a\x1b[31mb', 'none\x00'])]

    def parts(self, word):
        """A word with what follows it."""
        if word in ('list', 'vars', 'calls'):
            return self.of_rank(word)
        drawing = {'break': self.break_, **{name: getattr(self, name) for name in (
            'next', 'run', 'until', 'finish', 'back', 'goto', 'redo', 'local', 'watch', 'delete', 'info', 'print', 'why', 'history', 'check', 'follow',
            'help', 'source')}}.get(word)
        return [word] if drawing is None else drawing()

    # ---- lines

    def shortened(self, word):
        """A word by one of its names."""
        row = next((row for row in TABLE if word == row.words[0]), None)
        return word if row is None or self.chance(0.5) else self.random.choice([word, *row.short])

    def spoiled(self, parts):
        """A line that is no word, or nearly none."""
        kind = self.random.choice(['word', 'word', 'more', 'less', 'number', 'name', 'byte', 'nearly', 'long', 'comment', 'none'])
        if kind == 'none':
            return self.random.choice(STEPS_AND_QUIT) + self.random.choice([' x', ' 0.0', ' 0 0 0', ' #', ' quit'])
        if kind == 'word':
            return self.random.choice(NO_WORDS) + self.random.choice(BEHIND)
        if kind == 'comment':
            return self.random.choice(COMMENTS)
        if kind == 'long':
            return ' '.join(parts).ljust(self.random.choice([4095, 4096, 4097, 4098, 8192]), self.random.choice(' \tx#'))
        if kind == 'nearly':
            word = parts[0]
            place = self.random.randint(0, len(word))
            more = word[:place] + self.random.choice('aelrstx-?') + word[place:]
            changed = self.random.choice([word[:place], word + word[-1:], more, word[1:], word.upper()])
            return ' '.join([changed, *parts[1:]])
        if kind == 'byte':
            text = ' '.join(parts)
            place = self.random.randint(0, len(text))
            return text[:place] + chr(self.random.choice([0, 1, 11, 12, 13, 27, 31, 35, 46, 91, 127, 128, 160, 195, 255])) + text[place:]
        changed = list(parts)
        if kind == 'less' and len(parts) > 1:
            changed.pop(self.random.randrange(1, len(parts)))
        elif kind in ('number', 'name') and len(parts) > 1:
            changed[self.random.randrange(1, len(parts))] = self.random.choice(NO_NUMBERS if kind == 'number' else NO_NAMES)
        else:
            changed.insert(self.random.randint(1, len(parts)), self.random.choice(['0', '1', 'x', '1.0', 'match', 'change', '#']))
        return ' '.join(changed)

    def line(self):
        """The next line, without its end."""
        is_along = self.console.last is not None and self.console.last.word in ('run', 'next') and bool(self.console.ahead)
        is_next_again = self.console.last == Asked('next') and self.console.can_choose_again
        is_next_again = is_next_again or self.was_numbered and isinstance(self.console.decided, Choice)
        if self.chance(0.7 if is_next_again else 0.35 if is_along or self.was_numbered else self.habits.empty):
            return self.random.choice([b'', b'', b' ', b'\t', b' \t '])
        words, going = self.habits.words, self.going()
        is_look = bool(going) and self.chance(0.15)
        parts = self.behind_break() or self.look_at_release() or self.leave_one()
        if parts is None:
            parts = self.look_at(going) if is_look else self.parts(self.random.choices(list(words), list(words.values()))[0])
        parts[0] = self.shortened(parts[0])
        if self.chance(self.habits.spoiled):
            return self.spoiled(parts).encode('latin-1')
        return respaced(self.random, ' '.join(parts)).encode('latin-1')

    def is_long(self, line):
        """Whether a line asks for more than the model should do."""
        try:
            asked = self.console.asked(line)
        except NotAsked:
            return False
        if asked is None or len(line) > debugger.LONGEST_LINE:
            return False
        number = asked.given[0] if asked.given else None
        if asked.word == 'run' or asked.word == 'next' and number is not None and isinstance(self.console.decided, Forced):
            is_within = number is not None and (number <= LONGEST_RUN or number > debugger.MOST_STEPS)
            return not is_within and not is_short(self.walked, self.console.session.breaks)
        if asked.word in ('until', 'finish'):
            return not is_short(self.walked, policy.Breaks())
        if asked.word == 'check' and (number is None or 1 <= number <= explorer.MOST_RUNS):
            return not is_tried_soon(self.walked, lambda count, _: count == (1000 if number is None else number))
        if asked.word == 'follow' and 1 <= number <= explorer.MOST_RUNS:
            return not is_tried_soon(self.walked, lambda count, _: count + 1 == number)
        if asked.word == 'blame':
            return not is_blamed_soon(self.console)
        return asked.word in SOUGHT and not is_sought_soon(self.console, asked.word)

    def lines(self, count):
        """So many lines with their ends; each is answered before the next is drawn."""
        for _ in range(count):
            line = self.line()
            end = self.random.choice(ENDS)
            if self.is_long(line) or end.count(b'\n') > 1 and (self.is_long(b'') or self.is_long_then(line)):
                line, end = b'enabled', b'\n'
            data = line + end
            for part in lines_of(data):
                self.note(part)
                self.console.answer(part)
            yield data

    def is_long_then(self, line):
        """Whether what a line asks is too long the second time, as far as that is known: a run, and what tries runs."""
        try:
            asked = self.console.asked(line)
        except NotAsked:
            return False
        return asked is not None and asked.word in ('next', 'run', 'until', 'finish', 'check', 'follow', 'blame', *SOUGHT)

    def note(self, line):
        """Counts what is asked."""
        is_again = is_blank(line) and self.console.last is not None and len(line) <= debugger.LONGEST_LINE
        self.met['an empty line that does the last word again'] += is_again
        self.note_numbered(line, is_again)
        first = line.split()[:1]
        self.note_ahead(line)
        self.met['a short name'] += any(full_name(word.decode('latin-1')) not in (None, word.decode('latin-1')) for word in first)

    def note_numbered(self, line, is_again):
        """Counts empty lines behind `next` and a number, and words by each of their names."""
        self.met['an empty line behind next and a number'] += is_again and self.was_numbered
        self.met['an empty line at a choice, behind next and a number'] += is_again and self.was_numbered and isinstance(self.console.decided, Choice)
        try:
            asked = self.console.asked(line)
        except NotAsked:
            return
        if asked is not None and len(line) <= debugger.LONGEST_LINE:
            self.was_numbered = asked.word == 'next' and asked.given != () and not is_blank(line)
            self.met.update(f'the name {name.decode("latin-1")}' for name in line.split()[:1])

    def note_ahead(self, line):
        """Counts what goes along the steps ahead, and breakpoints of the word `line`."""
        try:
            asked = self.console.asked(line)
        except NotAsked:
            return
        if asked is None or len(line) > debugger.LONGEST_LINE:
            return
        number, depth, undone = asked.given[0] if asked.given else 1, self.walked.depth, self.console.session.undone()
        self.met['a run that chooses again'] += asked.word == 'run' and self.console.can_choose_again and number != 0
        self.met['a run that chooses again by an empty line'] += asked.word == 'run' and is_blank(line) and self.console.can_choose_again
        self.note_next(line, asked)
        self.note_hits(asked)
        if asked == Asked('redo', (ALL,)):
            self.met['all that are ahead'] += undone > 1
            self.met['all that are ahead, which is one'] += undone == 1
            return
        self.met['all that are ahead, and more were asked for'] += asked.word == 'redo' and 0 < undone < number
        self.met['a depth that is ahead'] += asked.word == 'goto' and depth < number <= depth + undone
        self.met['a breakpoint of the word line'] += asked.word == 'break' and number == 'line'
        self.note_choices(asked)

    def note_next(self, line, asked):
        """Counts where `next` takes the step ahead at a choice."""
        is_again = asked == Asked('next') and self.console.can_choose_again
        self.met['a step ahead at a choice, by next'] += is_again
        self.met['a step ahead at a choice, by next and an empty line'] += is_again and is_blank(line)
        self.met['a step ahead that is no candidate, by next'] += is_again and self.console.ahead[0] not in self.console.decided.steps
        self.met['a candidate, and steps ahead'] += asked.word == 'next' and asked.given > (0,) and self.console.can_choose_again

    def single_step(self, asked):
        """The step that a word takes, and how that is counted; nothing where it takes none, or several."""
        ahead, decided, number = self.console.ahead, self.console.decided, asked.given[0] if asked.given else None
        if asked.word in STEPS:
            return Step(asked.word, *asked.given), 'a step by hand'
        if asked.word == 'redo' and ahead and (number in (None, 1) or len(ahead) == 1 and number != 0):
            return ahead[0], 'redo'
        if asked.word == 'run' and self.console.can_choose_again and number != 0:
            return ahead[0], 'run at a choice'
        if asked.word != 'next':
            return None, ''
        if isinstance(decided, Choice):
            is_there = number is not None and 0 < number <= len(decided.steps)
            if number is None and ahead:
                return ahead[0], 'next at a choice'
            return (decided.steps[number - 1], 'next and a number') if is_there else (None, '')
        return (decided.step, 'next') if isinstance(decided, Forced) and number is None else (None, '')

    def note_hits(self, asked):
        """Counts the breakpoints that a single step hits, and those that `goto` goes past."""
        step, way = self.single_step(asked)
        if step is not None and next_world(self.world, step) is not None:
            hit = [stop for stop in self.console.session.breaks.places if stop is not None and policy.is_hit(stop, self.world, step)]
            self.met[f'a breakpoint hit by {way}'] += bool(hit)
            self.met['several hit by one step'] += len(hit) > 1
        if asked.word == 'goto' and 0 < asked.given[0] - self.walked.depth <= len(self.console.ahead):
            self.met['a breakpoint that goto goes past'] += self.console.session.breaks.lowest_hit(self.world, self.console.ahead[0]) is not None

    def note_choices(self, asked):
        """Counts where a choice is undone, and what goes so many steps or tells of all that wait."""
        worlds = self.walked.worlds[:-1]
        is_undone = asked.word == 'undo-choice' and any(isinstance(policy.settled(policy.decision(world)), Choice) for world in worlds)
        is_left = is_undone and isinstance(policy.settled(policy.decision(worlds[-1])), Forced)
        self.met['a choice undone, and forced steps'] += is_left
        self.met['a choice undone, and steps that were undone'] += is_undone and bool(self.console.ahead)
        self.met['so many steps by next'] += asked.word == 'next' and asked.given > (1,) and isinstance(self.console.decided, Forced)
        self.note_single(asked)
        self.met['why of several ranks'] += asked == Asked('why') and sum(rank.mode == 'blocked' for rank in self.world.ranks) > 1
        self.met['a run laid ahead in the place of others'] += asked.word in ('follow', *SOUGHT) and bool(self.console.ahead)
        self.note_walks(asked)

    def note_walks(self, asked):
        """Counts where the runs from here have other choices than those along decisions, and where a run isn't what lies ahead."""
        if asked.word in ('check', 'follow', *SOUGHT):
            found = [follow(Run(self.world, MOST_FUEL))[1] for follow in (wide.followed, walks.followed)]
            self.met['runs by other candidates than along decisions'] += found[0] != found[1]
        decided = self.console.decided
        is_left = asked.word == 'run' and asked.given != (0,) and bool(self.console.ahead) and isinstance(decided, Forced)
        self.met['a run that leaves the steps ahead'] += is_left and decided.step != self.console.ahead[0]

    def singles(self):
        """The depths up to this one where there is a single candidate."""
        return [depth for depth, world in enumerate(self.walked.worlds)
                if isinstance(policy.decision(world), Choice) and isinstance(policy.settled(policy.decision(world)), Forced)]

    def is_at_single(self):
        """Whether a single candidate comes next."""
        return isinstance(policy.decision(self.world), Choice) and isinstance(self.console.decided, Forced)

    def note_single(self, asked):
        """Counts what is done where a single candidate comes next, and breakpoints of requests."""
        is_single = self.is_at_single()
        self.met['a single candidate by next'] += is_single and asked == Asked('next')
        self.met['a single candidate by next and a number'] += is_single and asked.word == 'next' and asked.given > (0,)
        self.met['a single candidate by run'] += is_single and asked.word == 'run' and asked.given != (0,)
        self.met['a single candidate, and steps ahead'] += is_single and asked.word in ('run', 'next') and bool(self.console.ahead)
        is_past = asked.word == 'undo-choice' and any(depth < self.walked.depth for depth in self.singles())
        self.met['a single candidate that undo-choice goes past'] += is_past
        self.met['a breakpoint of a request'] += asked.word == 'break' and asked.given[0] == 'change' and asked.given[2].declared.kind == 'req'


# ---- scripts, witnesses and runs

def with_carriage_returns(random, script):
    """The script, whose lines now and then end with a carriage return, or whose last one doesn't end."""
    draw = random.random()
    if draw < 0.08:
        return script.replace(b'\n', b'\r\n')
    return script.rstrip(b'\n') if draw < 0.16 else script


def with_news(random, script):
    """The script, whose ranks now and then print more at their ends, and lose a request there, where they have a name for one; or come to a
    barrier."""
    draw, found = random.random(), REQUEST.search(script)
    if draw < 0.2 and found:
        name = found[1] if found[2] is None else found[1] + b'[0]'
        return script + b'print rank;\nisend %b 1 to rank tag 0;\nprint -2;\nissend %b 2 to rank tag 1;\nprint 3;\n' % (name, name)
    if draw < 0.35:
        return script + b'print rank;\nprint -2;\n'
    return script + b'barrier;\n' if draw < 0.5 else script


def is_turn_of_blaming(number):
    return number % BLAMING_EVERY in BLAMING_TURNS


def script_for(seed, random, number, mode):
    """A script of either version: one in which a step decides how it ends, in its turn, one that is explored or traced elsewhere, or one whose
    ranks nearly meet."""
    if is_turn_of_blaming(number):
        return deciding_cases.script_for(random, mode)[1]
    if number % 5 < 2:
        return explained_cases.nearly_script(random, 1 + random.randrange(2))
    script = session_cases.script_by(Beside(seed) if number % 5 == 2 else seed, random, mode)
    return script if len(script) < 2500 else explained_cases.nearly_script(random, 1)


def witness_for(random, script, mode):
    """The witness of a deadlock or a trap, and a text that has it; None where none is found soon."""
    walked = Debugger(read_script(script), mode)
    for leaf in islice(walk(walked.world, MOST_FUEL), MOST_RUNS):
        if explorer.is_bad(leaf):
            first, second = leaf_lines(0, leaf, True)
            short = f'{leaf.outcome}\n{", ".join(map(step_text, leaf.steps))}'
            text = random.choice([f'{first}\n{second}\n', short, f'{first}\n{second}\nleaves 1 more yes\n'])
            return explorer.witness(leaf), text.encode()
    return None


def spoiled_witness(random, text):
    """A witness without its last step, with another call or step, or with what is none, so that mostly it is refused."""
    kind = random.choice(['less', 'call', 'step', 'rank', 'none', 'none'])
    if kind == 'less':
        head, _, tail = text.rpartition(b', ')
        return head + tail[len(tail.splitlines()[0]):] if head else text
    if kind == 'none':
        return random.choice([text.partition(b'\n')[0], text.replace(b'local', b'loca', 1), text.replace(b'deadlock', b'deadlok'), b'', b'\xff'])
    if kind == 'call' and b'deadlock' not in text:
        return text.replace(b'trap ', b'trap 9 assert ', 1)
    old, new = {'call': (b'deadlock ', b'deadlock 0.9 '), 'step': (b'local 0', b'wake 0'), 'rank': (b'local 0', b'local 1')}[kind]
    return text.replace(old, new, 1)


def run_for(random, script, mode):
    """A random run, along decisions or along the wide walk, as it is named by its choices; None where it is too long."""
    ends = random.random() < 0.5
    run, followed = Run(Debugger(read_script(script), mode).world, MOST_FUEL), follower(ends)
    while True:
        run, decided = followed(run)
        ended_so = ending(decided, run.fuel)
        if ended_so is not None:
            return None if ended_so == CUT else NamedRun(' '.join(map(str, run.choices)), ends)
        place = random.randrange(len(decided.steps))
        run = taken(run, decided.steps[place], place)


def spoiled_run(random, run):
    """A run whose choices are one too many or too few, the other way round, or none."""
    kind = random.choice(['more', 'more', 'less', 'walk', 'none'])
    if kind == 'walk':
        return run._replace(ends=not run.ends)
    spoiled = {'more': f'{run.choices} 7', 'less': run.choices.rpartition(' ')[0], 'none': random.choice(['x', '-', '1,0', '0000000001', '1 x'])}
    return run._replace(choices=spoiled[kind])


WIDTHS = 20, 21, 33, 40, 79, 80, 81, 100, 132, 1000


def look_for(random):
    """How answers look: now and then at another width, or with the lines that are read."""
    return Look(random.choice(WIDTHS) if random.random() < 0.2 else USUAL.width, random.random() < 0.15)


class Case(NamedTuple):
    """A script in a mode (None: not said), what is typed, the text of a witness, NO_FILE or None, what was met as it was drawn, a run that is
    named by its choices, and how answers look."""
    name: str
    script: Optional[bytes]
    mode: Optional[str]
    data: bytes
    witness: Union[bytes, str, None] = None
    met: Counter = Counter()
    run: Optional[NamedRun] = None
    look: Look = USUAL

    def words(self, folder):
        """The words that have a program answer it, with its files in a folder."""
        mode = () if self.mode is None else ('--mode', self.mode)
        text = None if self.witness == NO_FILE else self.witness
        witness = () if self.witness is None else ('--witness', held(folder, 'witness.txt', text))
        run = () if self.run is None else self.run.words()
        width = () if self.look.width == USUAL.width else ('--width', str(self.look.width))
        echo = ('--echo',) if self.look.is_echoing else ()
        return ('debug', held(folder, 'script.mpd', self.script), *mode, *witness, *run, *width, *echo)

    def wanted(self):
        """What must be answered."""
        return debug(self.script, self.data, RENDEZVOUS if self.mode is None else self.mode, self.witness, self.run, self.look)


def ended(random, data, talk):
    """What is typed, of which the last line may have no line feed, be cut, or stand behind the end."""
    draw = random.random()
    if draw < 0.2:
        return data.rstrip(b'\n')
    if draw < 0.3:
        return data + random.choice(LAST_LINES if talk.is_long(b' ') else (*LAST_LINES, b' '))
    return data + random.choice([b'quit\n', b'q\nnext\nshow\n', b' q \r\nshow\n', b'exit\nshow\n', b'quit']) if draw < 0.45 else data


def ahead_in(script, mode, found, run):
    """The run that lies ahead: that of a witness, or the one that is named; None where there is none."""
    if found is not None:
        return leaf_of(found[0])
    return None if run is None else run.leaf(read_script(script), mode)


def random_case(seed, number):
    """One dialogue, the same each time."""
    random = Random(f'consoles/{seed}/{number}')
    mode = by_turns(random.choice(MODES_DRAWN), number)
    script = with_news(random, script_for(seed, random, number, mode))
    script, habits = with_carriage_returns(random, script), BLAMING if is_turn_of_blaming(number) else random.choice(ALL_HABITS)
    # (what is drawn of runs changes nothing else that is drawn)
    of_runs = Random(f'consoles/{seed}/{number}/run')
    found = run = None
    try:
        found = witness_for(random, script, mode) if random.random() < 0.25 else None
        run = run_for(of_runs, script, mode) if of_runs.random() < (0.2 if found is None else 0.05) else None
        talk = Talk(random, script, mode, habits, ahead_in(script, mode, found, run))
    except Fault:
        return Case(f'console-{seed}-{number}', script, mode, b'next\n')
    data = ended(random, b''.join(talk.lines(random.choice(habits.lines))), talk)
    mode = None if mode == RENDEZVOUS and random.random() < 0.3 else mode
    text = None if found is None else spoiled_witness(random, found[1]) if random.random() < 0.3 else found[1]
    run = spoiled_run(of_runs, run) if run is not None and of_runs.random() < 0.3 else run
    return Case(f'console-{seed}-{number}', script, mode, data, text, talk.met, run, look_for(Random(f'consoles/{seed}/{number}/look')))
