"""What is asked of a report that was written: the runs of its leaves, by `words`, and its witnesses, by `verify`; for reread.py.

The scripts are those of ends.py. Of a report some leaves are looked at: the run of their choices, of more or fewer, of others, and with less
fuel; and their witnesses, as they stand in the whole report, and in changed ones.
"""

import re
from random import Random
from typing import NamedTuple

from cases.ends_cases import filled, first_case
from cases.explore_cases import next_to
from model import samples
from model.debugger import RENDEZVOUS, Step, first_world, step_text
from model.modes import MODES
from model.report_lines import read_report
from model.run_words import Words, follower
from model.walks import Run, candidates, ending
from model.witness import Verification

# The largest number of a leaf, where each of as many pieces as there may be lists as many runs.
MOST_LEAF = 67108863
# So many leaves of a report are looked at.
LEAVES = 3
# The name of a question of the very run of a leaf, in the mode and with the fuel of the report.
OF_LEAF = 'leaf'
# What an explanation of a deadlock may look like: its lines begin with two spaces, and are passed over.
EXPLAINED = ('  rank 0, line 9, waits in 0.1 recv from 1 tag 2: for a send of rank 1 with tag 2',
             '    nearest miss: 1.0 send to 0 tag 1 value 5 of rank 1, line 12: its tag is 1',
             '  rank 0 waits for rank 1, rank 1 waits for rank 0: a cycle', '  ', '  witness 0: local 0', '  leaf 0 [] deadlock 0.0',
             '  leaves 1 more no')
# Texts of choices that are no numbers: wrong words.
NO_CHOICES = ('x', '0,1', '-1', '+1', '0 x', '0.1', '0\t1', '1000000000', '0 0000000000', '[0]', '0 1]', '0x0', '0\n', '\u0661', '0;', 'any')


def report_asked(seed, number):
    """A check whose report is read again, as a case; None where its script is refused. All leaves are of the whole."""
    case, script = first_case(seed, number)
    if script is None:
        return None
    usual = filled(case.asked)
    return case._replace(name=f'{case.name}-report', asked=usual._replace(witnesses=True, traps=True, group=False, complete=False, workers=None))


# ---- words

def text_of(random, choices):
    """The choices as a text, now and then with more spaces, also in front or behind, or zeros in front."""
    draw = random.random()
    between = ' ' if draw < 0.9 else random.choice(['  ', '   '])
    front, behind = (' ' * random.choice([0, 1, 2]) if draw > 0.85 else '' for _ in range(2))
    return front + between.join(str(choice).zfill(random.choice([1, 2, 9]) if draw > 0.95 else 0) for choice in choices) + behind


def candidates_at(begun, choices, ends):
    """How many candidates there are where a run has made some of its choices; 0 where it makes no other."""
    run, followed = begun, follower(ends)
    for choice in choices:
        run, decided = followed(run)
        run = list(candidates(run, decided.steps))[choice]
    run, decided = followed(run)
    return 0 if ending(decided, run.fuel) is not None else len(decided.steps)


def other_choices(random, begun, choices, ends):
    """Lists of choices that are mostly none of a run: more, fewer, and others."""
    yield (*choices, random.choice([0, 0, 1, 999999999]))
    if choices:
        yield from [choices[:-1], choices[:random.randrange(len(choices))]]
        place = random.randrange(len(choices))
        count = candidates_at(begun, choices[:place], ends)
        yield from [(*choices[:place], other, *choices[place + 1:]) for other in (count, random.choice([count + 1, 999999999, count - 1]))]
    yield (*choices, *choices)


def words_of(random, case, script, leaf):
    """What `words` is asked of a leaf: the first is the run of its choices."""
    mode, fuel, ends = case.asked.mode, case.asked.fuel, case.asked.ends
    asked = Words(case.script, text_of(random, leaf.choices), None if mode == RENDEZVOUS and random.random() < 0.5 else mode, fuel, ends=ends)
    yield asked._replace(choices=' '.join(map(str, leaf.choices)), name=OF_LEAF)
    yield asked._replace(ends=not ends)
    others = list(dict.fromkeys(other_choices(random, Run(first_world(script, mode), fuel), leaf.choices, ends)))
    yield from [asked._replace(choices=text_of(random, choices)) for choices in random.sample(others, min(3, len(others)))]
    yield asked
    steps = len(leaf.steps or ()) or 20
    yield asked._replace(fuel=random.choice([1, next_to(random, steps), random.randint(1, steps)]))
    yield asked._replace(mode=next(other for other in MODES if other != mode))


def odd_words(random, case):
    """What is refused before there is a run: no mode, no file, and a script that is none."""
    asked = Words(case.script, '0', case.asked.mode)
    return random.choice([asked._replace(mode='fast'), asked._replace(mode='slots:', script=None), asked._replace(script=None),
                          asked._replace(script=case.script[:-1] + b'('), asked._replace(script=b'mpd 1;', choices='0 0 0')])


# ---- verify

class Lines(NamedTuple):
    """The lines of a report, and the number of the leaf whose witness is meant."""
    lines: tuple
    leaf: int

    def place(self):
        """Where the line of that leaf stands."""
        return next(number for number, line in enumerate(self.lines) if line.startswith(b'leaf %d ' % self.leaf) or b' first %d ' % self.leaf in line)

    def text(self, end=b'\n'):
        return b''.join(line + end for line in self.lines)

    def with_line(self, place, *others):
        """The lines with others in the place of one."""
        return self._replace(lines=(*self.lines[:place], *others, *self.lines[place + 1:]))


def with_other_steps(random, found):
    """The report with other steps in a witness: one less, one more, two exchanged, or others in front."""
    place = found.place() + 1
    front, _, behind = found.lines[place].partition(b': ')
    steps = behind.split(b', ')
    where, other = random.randrange(len(steps)), random.randrange(len(steps))
    exchanged = steps[:]
    exchanged[where], exchanged[other] = steps[other], steps[where]
    more = step_text(random.choice([Step('local', random.randrange(3)), Step('wake', random.randrange(3)), Step('release')])).encode()
    changed = random.choice([steps[:-1] or [more], steps[1:] or [more], steps[:where] + steps[where + 1:] or [more], exchanged, [*steps, more],
                             [more, *steps], [*steps[:where], more, *steps[where:]]])
    return found.with_line(place, front + b': ' + b', '.join(changed))


def with_other_calls(random, found):
    """The report with other blocked calls of a leaf."""
    place = found.place()
    front, _, behind = found.lines[place].partition(b' deadlock ')
    calls = behind.split(b' ')
    changed = random.choice([calls[::-1] + calls[:1], [*calls, b'9.0'], [*calls, calls[-1]], calls[1:] or [b'7.7'], calls[:-1] or [b'7.7']])
    return found.with_line(place, front + b' deadlock ' + b' '.join(changed))


def with_explanations(random, found):
    """The report with lines behind its leaves that begin with two spaces."""
    lines = []
    for line, behind in zip(found.lines, (*found.lines[1:], b'')):
        lines.append(line)
        if re.match(rb'witness |(leaf|end) .* trap', line) or re.match(rb'(leaf|end) .* deadlock', line) and not behind.startswith(b'witness '):
            lines += [random.choice(EXPLAINED).encode() for _ in range(random.randint(0, 3))]
    return found._replace(lines=tuple(lines))


def without_witness(random, found):
    return found.with_line(found.place() + 1)


def with_explanation_before(random, found):
    """The report with a line between a leaf and its witness, which is not right behind it then."""
    return found.with_line(found.place(), found.lines[found.place()], random.choice(EXPLAINED).encode())


def with_odd_witness(random, found):
    """The report with a witness that is no list of steps, or has another number."""
    place = found.place() + 1
    line = found.lines[place]
    others = line + b',', line.replace(b': ', b': back, '), line.replace(b'local 0', b'local'), line.replace(b'witness ', b'witness 9')
    return found.with_line(place, random.choice(others))


def with_number_of_end(random, found):
    """The grouped report with a witness by the number of its end, and not of the first leaf."""
    place = found.place() + 1
    end, line = found.lines[place - 1].split()[1], found.lines[place]
    return found.with_line(place, line.replace(b'witness %d:' % found.leaf, b'witness %b:' % end))


def with_odd_end(random, found):
    """The grouped report with a line of an end that is none."""
    place = found.place()
    line = found.lines[place]
    others = (line.replace(b'end ', b'ends '), line.replace(b' leaves ', b' '), re.sub(rb'^end [0-9]+', b'end', line), line.replace(b' first ', b'  first '),
              re.sub(rb' first [0-9]+', b' first', line), line.replace(b' first ', b' first x'), line.replace(b' leaves ', b' leaves -'))
    return found.with_line(place, random.choice(others))


CHANGES = (with_other_steps, with_other_steps, with_other_steps, with_other_calls, with_other_calls, with_explanations, without_witness,
           with_explanation_before, with_odd_witness)


def verifications_of(random, case, report):
    """What `verify` is asked of a report."""
    told, lines = read_report(report), tuple(report.splitlines())
    mode, count = case.asked.mode, len(told.leaves)
    whole = Verification(case.script, report, None if mode == RENDEZVOUS and random.random() < 0.5 else mode)
    stuck = [number for number, leaf in enumerate(told.leaves) if leaf.steps]
    yield whole
    yield whole._replace(leaf=random.choice([count, count + 1, MOST_LEAF]))
    yield from [whole._replace(leaf=number) for number in range(min(2, count)) if number not in stuck]
    yield from [whole._replace(leaf=number // 10) for number in stuck if number > 9 and number // 10 not in stuck][:1]
    for number in random.sample(stuck, min(LEAVES, len(stuck))):
        asked = whole._replace(leaf=number)
        yield asked
        for change in random.sample(CHANGES, 3):
            changed = change(random, Lines(lines, number)).text()
            yield asked._replace(text=changed, leaf=number if random.random() < 0.8 else random.choice([None, *stuck]))
        yield asked._replace(text=with_explanations(random, Lines(lines, number)).text(random.choice([b'\n', b'\r\n'])))
        yield asked._replace(mode=next(other for other in MODES if other != mode))
        alone = tuple(line for line in lines if not line.startswith(b'witness ') or line.startswith(b'witness %d: ' % number))
        yield asked._replace(text=Lines(alone, number).text(), leaf=random.choice([None, None, number]))
        yield asked._replace(text=with_explanations(random, Lines(alone, number)).text(), leaf=None)
    if random.random() < 0.1:
        yield random.choice([whole._replace(script=None, leaf=0), whole._replace(text=None, leaf=0), whole._replace(mode='fast', leaf=0, text=None),
                             whole._replace(script=b'mpd 1;', leaf=0), whole._replace(text=b'', leaf=0)])


def verifications_of_groups(random, case, report):
    """What `verify` is asked of the report whose leaves are grouped by how they end: each by the number of its first leaf, and others."""
    told = read_report(report)
    text = samples.grouped_as_told(told, case.asked.witnesses)
    whole = Verification(case.script, text, case.asked.mode)
    firsts = list({str(leaf.outcome): number for number, leaf in reversed([*enumerate(told.leaves)])}.values())
    stuck = [number for number in firsts if told.leaves[number].steps]
    yield whole
    yield from [whole._replace(leaf=number) for number in range(min(4, len(told.leaves))) if number not in stuck]
    for number in random.sample(stuck, min(LEAVES, len(stuck))):
        found = Lines(tuple(text.splitlines()), number)
        yield whole._replace(leaf=number)
        yield whole._replace(leaf=number, text=random.choice(CHANGES)(random, found).text())
        yield whole._replace(leaf=number, text=with_explanations(random, found).text(random.choice([b'\n', b'\r\n'])))
        yield whole._replace(leaf=number, text=with_number_of_end(random, found).text())
        yield whole._replace(leaf=number, text=with_odd_end(random, found).text())


def questions(seed, number, case, script, report):
    """What is asked of a report: the runs of some of its leaves, and its witnesses, also where it is grouped."""
    random = Random(f'reread/{seed}/{number}')
    told = read_report(report)
    stuck = [leaf for leaf in told.leaves if leaf.steps]
    chosen = random.sample(told.leaves, min(LEAVES, len(told.leaves))) + random.sample(stuck, min(1, len(stuck)))
    asked = [one for leaf in chosen for one in words_of(random, case, script, leaf)] + [odd_words(random, case)] * (random.random() < 0.3)
    asked.append(Words(case.script, NO_CHOICES[number % len(NO_CHOICES)], random.choice([None, 'fast'])))
    return asked + list(verifications_of(random, case, report)) + list(verifications_of_groups(random, case, report))
