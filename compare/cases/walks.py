"""Random walks through a script: the trace words of an input, chosen with the model at hand."""

from typing import NamedTuple

from model.debugger import RENDEZVOUS, CallId, Debugger, Step, enabled_steps, free_calls, is_at_any
from model.language import Fault, read_script

# Lines that are no step, or an odd one.
ODD_LINES = (
    '', ' ', '\t', 'foo', 'local', 'wake', 'match', 'local x', 'local 0 0', 'match 0.0', 'match 0.0 1.0 2.0',
    'match 0 1', 'match 0.0.0 1.0', 'match .0 1.0', 'match 0. 1.0', 'match . .', 'match 0.0 1.', 'release 0', 'back 1',
    'back back', 'show 1', 'Show', 'SHOW', 'show;', 'redo', 'goto 0', 'goto', 'enabled', 'enabled 0', 'Enabled',
    'enable', 'enabled enabled', ' enabled\t', 'enabled\r', 'match any any', '---', 'local 0000000000',
    'local 1234567890', 'local 000000000', 'local -1', 'local +1', 'local 0x0', 'local 999999999', 'wakeany 0 0',
    'local 0.0', 'wake 0.0', 'local 0\r', 'show\x0b', '\x0c', '\x00', 'match 0.0000000000 1.0',
    'match 1234567890.0 0.0', 'match 999999999.999999999 0.0', '#', '# show', 'local  0', ' local 0', 'local 0 ',
    '\tlocal\t0\t', 'show ', ' back', 'sho', 'shows', 'locals 0', 'local0', 'matc 0.0 1.0', 'match 0 .0 1.0',
    'match 0.0,1.0', 'call 0.0', '-', '--', '----', ' ---', '--- ', 'release', ' release ', '\xff', 'local \xb2',
    'local 0\x00', 'ok 1', 'wait 0', 'any', 'local 0\xa0', '\xa0show', 'local 1 ', 'wake 1')
# The same of the words that go along the steps that are there.
ODD_LINES_ALONG = (
    'redo 1', 'redo 0', 'redo redo', 'Redo', 'REDO', 'redo\t', ' redo', 'redo\r', 'redo\x0b', 'redo;', 'redos', 're do', 'undo',
    'forward', 'goto x', 'goto -1', 'goto +1', 'goto 1 2', 'goto 0 0', 'goto 0.0', 'goto 1.', 'goto 0x0', 'goto\t0', 'goto  0 ',
    ' goto 1', 'goto 0\r', 'goto 0\x00', 'goto \xb2', 'goto0', 'Goto 0', 'go to 0', 'gotos 0', 'goto goto', 'goto redo',
    'goto back', 'goto start', 'goto 000000000', 'goto 0000000000', 'goto 999999999', 'goto 1000000000', 'goto 1000000',
    'goto 1000001', 'goto 00000000000000000001', 'goto 4294967296', 'goto 18446744073709551616', 'back 0', '0 goto', 'to 0')
# The same of the wakes by one of some handles, for scripts of version 2.
ODD_LINES_BY = (
    'wakeany', 'wakeany 0', 'wakeany 0 0 0', 'wakeany 0.0', 'wakeany 0.0 0', 'wakeany 0 0.0', 'wakeany x 0', 'wakeany 0 x', 'Wakeany 0 0',
    'WAKEANY 0 0', 'wakeanys 0 0', 'wakean 0 0', 'wakeany0 0', 'wakeany 00', 'wake any 0 0', 'wake 0 0', 'waitany 0 0', 'wakeany any 0',
    'wakeany 0 any', 'wakeany 0 -1', 'wakeany -1 0', 'wakeany 0 +1', 'wakeany 0,0', 'wakeany 0, 0', 'wakeany 0 0;', 'wakeany 0 0\r',
    'wakeany\t0\t0', ' wakeany  0  0 ', 'wakeany 000000000 000000000', 'wakeany 0000000000 0', 'wakeany 0 0000000000',
    'wakeany 0 1234567890', 'wakeany 1234567890 0', 'wakeany 0 999999999', 'wakeany 999999999 0', 'wakeany 0 256', 'wakeany 16 0',
    'wakeany 0 0x0', 'wakeany 0 \xb2', 'wakeany 0\x000', 'wakeany 0 1 ', 'wakeany 0 0', 'wakeany 1 0', 'match 0 0', 'wake 0')


def odd_lines(version=1):
    return ODD_LINES + ODD_LINES_ALONG + ODD_LINES_BY * 3 * (version > 1)


def digits(random, number):
    """Now and then with zeros in front, up to one digit more than a number may have."""
    return str(number).zfill(random.choice([2, 3, 8, 9, 9, 10]) if random.random() < 0.02 else 0)


def step_line(random, step):
    if step.kind == 'match':
        ends = ['.'.join(digits(random, part) for part in call_id) for call_id in (step.first, step.second)]
        return ' '.join(['match', *ends])
    if step.kind == 'wakeany':
        return f'wakeany {digits(random, step.first)} {digits(random, step.second)}'
    return 'release' if step.kind == 'release' else f'{step.kind} {digits(random, step.first)}'


def random_call_id(random, world):
    """A call that is mostly there, now and then one past the last."""
    ranks = len(world.ranks)
    if random.random() < 0.15:
        return CallId(random.choice([0, 1, ranks, 999999999]), random.choice([0, 1, 2, 999999999]))
    rank = random.randrange(ranks)
    count = len(world.ranks[rank].calls)
    return CallId(rank, max(0, count - random.randint(0, 2)) if random.random() < 0.5 else random.randint(0, count))


def any_number(random, ranks):
    return random.randint(0, ranks) if random.random() < 0.95 else random.choice([15, 16, 255, 256, 65536, 999999999])


def free_match(random, world):
    """A match of a free send and a free receive, which may not fit, or be held back; None where there are no two."""
    free = [pair for rank in range(len(world.ranks)) for pair in free_calls(world, rank)]
    sends = [call_id for call_id, call in free if call.kind == 'send']
    receives = [call_id for call_id, call in free if call.kind == 'recv']
    return Step('match', random.choice(sends), random.choice(receives)) if sends and receives else None


def random_wake_by(random, world):
    """A wake by one of some handles: mostly of a rank that waits for any, at a place that is there or is the first that isn't."""
    waiting = [number for number, rank in enumerate(world.ranks) if is_at_any(rank)]
    if waiting and random.random() < 0.85:
        number = random.choice(waiting)
        return Step('wakeany', number, any_number(random, world.ranks[number].calls[-1].count))
    return Step('wakeany', any_number(random, len(world.ranks)), any_number(random, 2))


def random_step(random, world, version=1):
    """A step that is often not enabled."""
    if version > 1 and random.random() < 0.3:
        return random_wake_by(random, world)
    if random.random() < 0.35 and (match := free_match(random, world)):
        return match
    draw = random.random()
    if draw < 0.3:
        return Step('local', any_number(random, len(world.ranks)))
    if draw < 0.55:
        return Step('wake', any_number(random, len(world.ranks)))
    if draw < 0.6:
        return Step('release')
    return Step('match', random_call_id(random, world), random_call_id(random, world))


def respaced(random, line):
    """The line, now and then with odd blanks."""
    if random.random() < 0.9:
        return line

    def gap(least):
        return ''.join(random.choice(' \t') for _ in range(random.randint(least, 3)))

    text = gap(0)
    for place, word in enumerate(line.split(' ')):
        text += (gap(1) if place else '') + word
    return text + gap(0)


# The kinds of steps that are put off by who takes them late.
LATE = ('match', 'wakeany')


class Habits(NamedTuple):
    """How often a walk shows the state, goes back, takes any step at all, writes an odd line, takes undone steps again.

    `listed` is how often it lists the enabled steps; `orders` is what it takes of these: any of them, the first, the last, or
    any, but a match, or a wake by one of some handles, only where nothing else is enabled. `other` is how often such a step is taken back
    at once, for another one.
    `along` is how often it goes along the steps that are there, back to a depth or to an undone step, and `redos` how many undone
    steps it takes again then.
    """
    show: tuple = (0.02, 0.1, 0.3, 1.0)
    back: tuple = (0.0, 0.05, 0.15, 0.4)
    any_step: tuple = (0.02, 0.1, 0.3)
    odd: tuple = (0.0, 0.02, 0.1)
    again: tuple = (0.2, 0.7, 0.95)
    backs: tuple = (0, 0, 1, 2, 5, 30)
    listed: tuple = (0.0, 0.02, 0.2)
    orders: tuple = ('any', 'any', 'first', 'last')
    other: tuple = (0.0,)
    along: tuple = (0.0, 0.05, 0.15)
    redos: tuple = (0, 0, 1, 2, 5, 30)


USUAL = Habits()
ODD = Habits(odd=(0.4,))
# Hundreds of steps, and hundreds of them taken back at once and taken again.
LONG = Habits(show=(0.0, 0.002), back=(0.0, 0.002, 0.005), any_step=(0.0, 0.02), odd=(0.0, 0.002), again=(0.98, 0.999),
              backs=(0, 5, 40, 200, 500), listed=(0.0, 0.005), along=(0.0, 0.005), redos=(0, 5, 40, 200, 500))
SHOWING = Habits(show=(1.0,), back=(0.0, 0.05, 0.15), any_step=(0.02, 0.2), odd=(0.0,))
# Matches put off until many are enabled, taken back, and others taken in their place.
RACING = Habits(show=(0.05, 0.2), back=(0.0, 0.02, 0.05), any_step=(0.02, 0.1, 0.2), odd=(0.0,), again=(0.1, 0.3),
                backs=(0, 0, 1, 2, 3, 6, 20), listed=(0.2, 0.5, 1.0), orders=('late', 'late', 'late', 'any', 'last'),
                other=(0.2, 0.5))
# Back and forth along the steps that are there, which others drop now and then.
ALONG = Habits(show=(0.05, 0.2, 0.5), back=(0.02, 0.1), any_step=(0.02, 0.1, 0.3), odd=(0.0, 0.02, 0.1), again=(0.3, 0.7, 0.95),
               listed=(0.0, 0.1), orders=('any', 'any', 'late', 'first'), other=(0.0, 0.2), along=(0.15, 0.3, 0.5))


class Walk:
    """Random trace words for a script that was read, chosen with the model at hand, in a mode."""

    def __init__(self, random, script, habits, mode):
        self.random = random
        self.version = script.version
        self.debugger = Debugger(script, mode)
        self.show, self.back, self.any_step, self.odd, self.again = map(random.choice, habits[:5])
        self.backs = habits.backs
        self.backs_left = 0
        self.listed = random.choice(habits.listed)
        self.order = random.choice(habits.orders)
        self.other = random.choice(habits.other)
        self.along = random.choice(habits.along)
        self.redos = habits.redos
        self.redos_left = 0

    def line(self):
        if self.backs_left:
            self.backs_left -= 1
            return 'back'
        if self.redos_left:
            self.redos_left -= 1
            return 'redo'
        if self.along and self.random.random() < self.along:
            return self.line_along()
        draw = self.random.random()
        if draw < self.odd:
            return self.random.choice(odd_lines(self.version))
        if draw < self.odd + self.any_step:
            return step_line(self.random, random_step(self.random, self.debugger.world, self.version))
        if self.took_one_of_some() and self.random.random() < self.other:
            return 'back'
        if self.random.random() < self.back:
            self.backs_left = self.random.choice(self.backs)
            return 'back'
        undone = self.debugger.steps[self.debugger.depth:]
        if undone and self.random.random() < self.again:
            return step_line(self.random, undone[0])
        return self.forward()

    def took_one_of_some(self):
        """Whether the last step that isn't undone is of a kind of which there may be others in its place."""
        depth = self.debugger.depth
        return depth > 0 and self.debugger.steps[depth - 1].kind in LATE

    def line_along(self):
        """What goes back to a depth, takes an undone step again, or another step in its place."""
        undone = self.debugger.steps[self.debugger.depth:]
        draw = self.random.random()
        if draw < 0.4:
            return f'goto {self.depth_word()}'
        if undone and draw < 0.5:
            return step_line(self.random, undone[0])
        if undone and draw < 0.6:
            return self.other_than(undone[0])
        if draw < 0.8:
            self.redos_left = min(self.random.choice(self.redos), len(undone))
        return 'redo'

    def depth_word(self):
        """A depth that is mostly there, often the present one, the last one kept, or next to one of these."""
        depth, kept = self.debugger.depth, len(self.debugger.steps)
        if self.random.random() < 0.03:
            return self.random.choice(['999999999', '1000000', '1000001', '1000000000', '000000000', '0000000000'])
        numbers = [0, depth, depth - 1, depth + 1, kept, kept + 1, self.random.randint(depth, kept)]
        numbers += [self.random.randint(0, depth) for _ in range(4)]
        return digits(self.random, max(0, self.random.choice(numbers)))

    def other_than(self, undone):
        """A step that drops the undone ones, mostly of the same kind as the next of them; that one itself where there is no other."""
        steps = [step for step in enabled_steps(self.debugger.world) if step != undone]
        alike = [step for step in steps if step.kind == undone.kind]
        return step_line(self.random, self.random.choice(alike or steps or [undone]))

    def forward(self):
        steps = enabled_steps(self.debugger.world)
        if not steps:
            line = 'back'
            if self.random.random() >= 0.3:
                line = step_line(self.random, random_step(self.random, self.debugger.world, self.version))
            if self.random.random() < 0.05:
                self.backs_left = self.random.randint(1, 40)
            return line
        if self.order == 'late':
            steps = [step for step in steps if step.kind not in LATE] or steps
        if self.order in ('any', 'late'):
            return step_line(self.random, self.random.choice(steps))
        return step_line(self.random, steps[0 if self.order == 'first' else -1])

    def lines(self, count):
        lines = []
        for _ in range(count):
            line = respaced(self.random, self.line())
            lines.append(line)
            self.debugger.answer(line.encode('latin-1').rstrip(b'\r'))
            if self.random.random() < self.listed:
                lines.append('enabled')
            if self.random.random() < self.show:
                lines.append('show')
        return lines + ['show']


def trace_lines(random, script, count, habits=USUAL, mode=RENDEZVOUS):
    try:
        read = read_script(script)
    except Fault:
        return [random.choice(odd_lines()) for _ in range(random.randint(0, 3))]
    return Walk(random, read, habits, mode).lines(count)


def assembled(random, script, lines):
    """The input of a script and its lines, now and then without the line between them."""
    line_end = random.choice(['\n', '\n', '\n', '\r\n'])
    data = script
    if random.random() < 0.97:
        if not data.endswith(b'\n'):
            data += b'\n' if random.random() < 0.9 else b'\r\n'
        data += b'---' + (b'\n' if random.random() < 0.9 else b'\r\n')
    body = ''.join(line + (line_end if random.random() < 0.98 else '\n') for line in lines)
    if random.random() < 0.1:
        body = body[:-1]
    return data + body.encode('latin-1')
