"""Texts that `verify` is asked of: witnesses of the model, and changed ones.

They are of the scripts of explore_cases.py. A change is one of the steps, of the calls, of the numbers in front, or of the bytes;
some are asked in the other mode, or in none, of a script that is refused, or of a file that isn't there.
"""

from random import Random
from typing import NamedTuple

from cases.explore_cases import random_case
from model.debugger import RENDEZVOUS, CallId, Step, step_text
from model.explorer import report, witness
from model.language import Fault, read_script
from model.modes import MODES, by_turns
from model.witness import Verification

RUNS, FUEL = 12, 120
# So many leaves of a script are looked at, and so many changed texts of each.
LEAVES, CHANGES = 2, 4
ODD_BYTES = b' ,.:[]0123456789acdehiklmnostwx\t\r\n\x00\xff'
# What stands in the place of a step, or beside it, and is none, or one that is never enabled.
ODD_STEPS = ('back', 'redo', 'goto 1', 'show', 'enabled', 'local', 'local 0 0', 'local -1', 'local 0.0', 'Local 0', 'wake', 'match 0.0', 'match 0 0',
             'match 0.0, 1.0', 'release 0', '', 'local 0000000000', 'local 1000000000', 'local 99', 'wake 999999999', 'match 0.0 0.0',
             'match 1.0 0.999999999', 'local 00', 'release', 'send 0', 'local 0x0', 'local\t0')
# The same of wakes by one of some handles, for scripts of version 2.
ODD_STEPS_BY = ('wakeany', 'wakeany 0', 'wakeany 0 0 0', 'wakeany 0.0', 'wakeany 0.0 0', 'wakeany 0, 0', 'wakeany x 0', 'Wakeany 0 0', 'wakeany0 0',
                'wakeany 0 0000000000', 'wakeany 0 999999999', 'wakeany 99 0', 'wakeany 00 00', 'wakeany\t0\t0', 'wakeany 0  0', 'wake 0 0', 'waitany 0 0',
                'wakeany 0 1', 'wakeany 1 0', 'wakeany 0 0')
ODD_FRONTS = ('', '', 'leaf 0 [] ', 'leaf 7 [0 1 12] ', 'leaf 1000000000 [] ', 'leaf  0 [] ', 'leaf 0 [0]', 'leaf x [] ', ' ', '  ', 'outcome ', 'a ', '\t',
              'a\t', 'deadlock ', 'deadlock 0.0 ', 'deadlocks ', ': ', 'a,b: ', '\xff ', 'witness 0: local 0 ')
ODD_NAMES = ('', '', 'witness 7: ', 'witness 0:', 'witness 0:  ', 'witness: ', 'witness ', 'a:', ':', ': ', '::', ' ', '\t', 'witness 0: witness 0: ', 'leaf 0: ',
             'local 0, : ', '\xff:', 'a: b: ')
ODD_OUTCOMES = ('done', 'leftovers', 'trap', 'traps', 'deadlock', 'trap 0 assert deadlock', 'cut', 'Deadlock', 'deadlocks', 'dead lock', '', 'outcome deadlock')
TRAPS = ('overflow', 'zero-divisor', 'bad-rank', 'bad-tag', 'bad-index', 'assert')
ODD_CALLS = ('', '', '0', '0.', '.0', '0.0.0', '0.-1', '0,0', '1000000000.0', '0.1000000000', '00.00', '0.0,', 'x', '0 assert', '0 asserts', 'assert', 'overflow 0', '0.x', '999999999.999999999', '\t0.0')
ENDS = ('', '', '\n\n', '\n\n\n', '\r\n', '\r', '\n\r\n', '\n\r', '\n\r\r\n', '\n ', ' \n', '\t', '\nlocal 0\n', '\nleaves 1 more no\n', '\n\x00', '\n\nx', '\r\r\n', ',\n',
        ', \n', '\x0b\n', '\x0c')
BETWEEN = (',', ' ,', ',  ', '\t,', ',\t', ' ', ';', ',,', ', ,')
BLANKS = ('  ', '\t', ' \t ', '', '\r')
WHOLE = (b'', b'\n', b'\n\n', b'\r\n\r\n', b' ', b'deadlock', b'deadlock\n', b'deadlock 0.0', b'deadlock 0.0\n', b'deadlock 0.0\n\n', b'deadlock 0.0\nwitness 0:\n',
         b'deadlock 0.0\nwitness 0: \n', b'deadlock 0.0\nlocal 0', b'deadlock 0.0\nlocal 0,', b'deadlock 0.0\nlocal 0, ', b'deadlock 0.0\n, local 0', b'local 0\ndeadlock 0.0\n',
         b'\ndeadlock 0.0\nlocal 0\n', b'leaf 0 [] done\nleaves 1 more no\n', b'\xef\xbb\xbfdeadlock 0.0\nlocal 0\n', b'deadlock 0.0\nlocal 0\n\nlocal 0\n',
         b'deadlock 0.0' + b' 0.0' * 2000 + b'\nlocal 0\n', b'deadlock 0.0\nlocal 0' + b', local 0' * 2000 + b'\n', b'deadlock 0.0\r\nlocal 0\r\n')


class Text(NamedTuple):
    """The parts of a witness's text."""
    front: str
    calls: tuple
    name: str
    steps: tuple
    word: str = 'deadlock'
    end: str = '\n'
    between: str = ', '
    version: int = 1

    def written(self):
        return f'{" ".join([self.front + self.word, *self.calls])}\n{self.name}{self.between.join(self.steps)}{self.end}'.encode('latin-1')


def text_of(number, leaf, version):
    """The text of a leaf; of one that is neither a deadlock nor a trap, a call is taken for blocked."""
    found = witness(leaf)
    calls = found.blocked if found else [CallId(0, 0)]
    return Text(f'leaf {number} [{" ".join(map(str, leaf.choices))}] ', tuple(map(str, calls)), f'witness {number}: ',
                tuple(map(step_text, leaf.steps)), found.word if found else 'deadlock', version=version)


def inserted(parts, place, *others):
    return parts[:place] + others + parts[place:]


def other_step(random, version):
    """A step that may be enabled somewhere."""
    if version > 1 and random.random() < 0.4:
        return step_text(Step('wakeany', random.randint(0, 2), random.randint(0, 2)))
    draw, one, other = random.random(), random.randint(0, 3), random.randint(0, 3)
    if draw < 0.4:
        return step_text(Step(random.choice(['local', 'wake']), one))
    return 'release' if draw < 0.5 else step_text(Step('match', CallId(one, random.randint(0, 2)), CallId(other, random.randint(0, 2))))


def with_other_steps(random, text):
    """A step less, doubled, exchanged with another, in front, behind, between; or the steps up to one."""
    steps, count, version = list(text.steps) or ['local 0'], max(1, len(text.steps)), text.version
    place, other = random.randrange(count), random.randrange(count)
    exchanged = steps[:]
    exchanged[place], exchanged[other] = steps[other], steps[place]
    return text._replace(steps=tuple(random.choice([
        steps[:-1], steps[1:], steps[:place] + steps[place + 1:], steps[:place] + steps[place:place + 1] + steps[place:], exchanged, steps[::-1],
        [*steps, other_step(random, version)], [*steps, steps[-1]], [other_step(random, version), *steps], ['wake 0', *steps], steps[:place],
        steps[place:], [*steps[:place], other_step(random, version), *steps[place:]],
        [*steps[:place], other_step(random, version), *steps[place + 1:]]])))


def with_other_wake(random, text):
    """A wake by another handle in the place of one, or by no handle; the text as it is where there is none."""
    places = [place for place, step in enumerate(text.steps) if step.startswith('wakeany ')]
    if not places:
        return text
    place = random.choice(places)
    _, rank, handle = text.steps[place].split()
    other = random.choice([f'wakeany {rank} {int(handle) + 1}', f'wakeany {rank} {max(0, int(handle) - 1)}', f'wakeany {int(rank) + 1} {handle}',
                           f'wake {rank}', f'wakeany {rank} {"0" * random.choice([1, 7, 8, 9])}{handle}', f'wakeany {rank}  {handle}', f'wakeany {rank}'])
    return text._replace(steps=(*text.steps[:place], other, *text.steps[place + 1:]))


def with_odd_step(random, text):
    """A word that is no step, or a step that is never enabled, beside a step or in its place."""
    place, odd = random.randrange(len(text.steps) + 1), random.choice(ODD_STEPS if text.version == 1 else ODD_STEPS + ODD_STEPS_BY)
    behind = text.steps[place + random.choice([0, 1]):]
    return text._replace(steps=text.steps[:place] + (odd,) + behind)


def with_other_traps(random, text):
    """Trapped ranks left out, added, twice, or in another order; another rank with that trap, or another trap of that rank."""
    ranks, place = list(text.calls), random.randrange(len(text.calls))
    rank, name = ranks[place].split()
    more = f'{random.randint(0, 4)} {random.choice(TRAPS)}'
    return text._replace(calls=tuple(random.choice([
        ranks[:-1], ranks[::-1], [*ranks, ranks[place]], [*ranks, more], [more, *ranks], [], [*ranks[:place], rank, *ranks[place + 1:]],
        [*ranks[:place], name, *ranks[place + 1:]], [*ranks[:place], f'{int(rank) + 1} {name}', *ranks[place + 1:]],
        [*ranks[:place], f'{rank} {random.choice(TRAPS)}', *ranks[place + 1:]]])))


def with_other_calls(random, text):
    """Calls left out, added, twice, or in another order; the next call of a rank in the place of one. Of a trap the same of its ranks."""
    if text.word == 'trap':
        return with_other_traps(random, text)
    calls, place = list(text.calls), random.randrange(len(text.calls))
    rank, number = map(int, calls[place].split('.'))
    more = f'{random.randint(0, 4)}.{random.randint(0, 2)}'
    return text._replace(calls=tuple(random.choice([
        calls[:-1], calls[1:], calls[::-1], [*calls, calls[place]], [*calls, more], [more, *calls], sorted([*calls, more]), [],
        [*calls[:place], f'{rank}.{number + 1}', *calls[place + 1:]], [*calls[:place], f'{rank + 1}.{number}', *calls[place + 1:]]])))


def with_odd_call(random, text):
    place = random.randrange(len(text.calls) + 1)
    return text._replace(calls=inserted(text.calls, place, random.choice(ODD_CALLS)))


def with_odd_front(random, text):
    return text._replace(front=random.choice(ODD_FRONTS))


def with_odd_name(random, text):
    return text._replace(name=random.choice(ODD_NAMES))


def with_nothing_in_front(random, text):
    return text._replace(front='', name=random.choice(['', '', text.name]))


def with_odd_outcome(random, text):
    return text._replace(word=random.choice(ODD_OUTCOMES))


def with_zeros(random, text):
    """Numbers with zeros in front, up to nine digits or more."""
    zeros = '0' * random.choice([1, 1, 7, 8, 9])
    if random.random() < 0.5:
        place = random.randrange(len(text.calls))
        return text._replace(calls=(*text.calls[:place], zeros + text.calls[place], *text.calls[place + 1:]))
    return text._replace(steps=tuple(step.replace(' ', ' ' + zeros, 1) for step in text.steps))


def with_other_blanks(random, text):
    """Other blanks between steps, or in one or in all of them."""
    draw, blank, place = random.random(), random.choice(BLANKS), random.randrange(max(1, len(text.steps)))
    if draw < 0.5:
        return text._replace(between=random.choice(BETWEEN))
    return text._replace(steps=tuple(step.replace(' ', blank) if draw < 0.7 or number == place else step for number, step in enumerate(text.steps)))


def with_other_end(random, text):
    return text._replace(end=random.choice(ENDS))


# Changes of the parts of a text, each with how often it is drawn.
PART_CHANGES = {with_other_steps: 8, with_other_calls: 5, with_odd_step: 3, with_odd_call: 2, with_odd_front: 2, with_odd_name: 2,
                with_nothing_in_front: 2, with_odd_outcome: 1, with_zeros: 2, with_other_blanks: 3, with_other_end: 3}


# Those of scripts of version 2.
PART_CHANGES_OF_2 = {**PART_CHANGES, with_other_wake: 8}


def with_ends(random, data):
    """Carriage returns before all line feeds, or before one, or more of them than one."""
    return random.choice([data.replace(b'\n', b'\r\n'), data.replace(b'\n', b'\r\n', 1), data.replace(b'\n', b'\r\r\n'),
                          data.replace(b'\n', b'\r'), data.replace(b'\n', b'\n\n', 1)])


def with_spaces(random, data):
    """One space more, one less, or a tab in its place; a comma less."""
    sign, end = random.choice([b' ', b' ', b' ', b', ', b',']), random.choice([len(data), data.index(b'\n')])
    places = [place for place in range(end) if data.startswith(sign, place)] or [0]
    place = random.choice(places)
    return data[:place] + random.choice([b'', b'  ', b'\t', b' ', b',', b' , ']) + data[place + len(sign):]


def with_odd_byte(random, data):
    """A byte less, more, or in place of one."""
    place, odd = random.randrange(len(data)), bytes([random.choice(ODD_BYTES)])
    return random.choice([data[:place] + data[place + 1:], data[:place] + odd + data[place:], data[:place] + odd + data[place + 1:]])


def cut_off(random, data):
    """A beginning of the text, or a text with its first bytes left out."""
    place = random.randrange(len(data))
    return data[:place] if random.random() < 0.7 else data[place:]


def other_lines(random, data):
    """One line alone, both in the other order, one twice, or what a report has more."""
    first, second = data.splitlines(keepends=True)[:2]
    return random.choice([first, second, second + first, first + first + second, data + second, data + b'leaves 1 more no\n',
                          b'leaf 0 [0] done\n' + data, b'\n' + data])


BYTE_CHANGES = {with_ends: 4, with_spaces: 4, with_odd_byte: 4, cut_off: 2, other_lines: 3}


def drawn(random, changes):
    return random.choices(list(changes), list(changes.values()))[0]


def changed(random, text):
    """A text that is changed in one way, or in two; or no text of this witness at all."""
    if random.random() < 0.05:
        return random.choice(WHOLE)
    draw = random.random()
    if draw < 0.7:
        text = drawn(random, PART_CHANGES if text.version == 1 else PART_CHANGES_OF_2)(random, text)
    data = text.written()
    return drawn(random, BYTE_CHANGES)(random, data) if draw > 0.6 and data.count(b'\n') else data


def mode_asked(random, mode):
    """A mode for a witness of a mode: mostly that one, which may be left out, now and then another, or none at all."""
    draw = random.random()
    if draw < 0.1:
        return next(other for other in MODES if other != mode)
    if draw < 0.12:
        return random.choice(['fast', '', 'Buffered', 'slots:', 'slots:70000'])
    return None if mode == RENDEZVOUS and draw < 0.5 else mode


def texts_of(random, script, mode):
    """The witnesses of some leaves of a script, deadlocks where there are some; each as it is and changed."""
    leaves = list(enumerate(report(script, mode, RUNS, FUEL).leaves))
    stuck = [(number, leaf) for number, leaf in leaves if witness(leaf)]
    for number, leaf in random.sample(stuck or leaves[:1], min(LEAVES, len(stuck or leaves[:1]))):
        text = text_of(number, leaf, script.version)
        if leaf.steps:
            yield text.written()
        yield from (changed(random, text) for _ in range(CHANGES))


def random_verifications(seed, number):
    """What is asked of one script, the same each time."""
    random = Random(f'verify/{seed}/{number}')
    data, mode = random_case(seed, number).script or b'', by_turns(random.choice(MODES), number)
    try:
        script = read_script(data)
    except Fault:
        text, asked = random.choice([None, b'', b'deadlock 0.0\nlocal 0\n']), random.choice([None, mode, 'fast'])
        return [Verification(data, text, asked, f'verify-{seed}-{number}')]
    texts = texts_of(random, script, mode)
    found = [Verification(data, text, mode_asked(random, mode), f'verify-{seed}-{number}-{place}') for place, text in enumerate(texts)]
    if random.random() < 0.05:
        found.append(found[0]._replace(text=None, name=f'{found[0].name}-no-witness'))
    if random.random() < 0.05:
        found.append(found[0]._replace(script=None, name=f'{found[0].name}-no-script'))
    return found
