"""What is met in reports with explanations: what each line tells, by its form, and of what kind a leaf and a report are (runs/explained.py)."""

import re
from itertools import takewhile

from cases import explained_cases
from model.explaining import CYCLE, DIFFERENCES, NEAREST, TAKEN

CALL = r'line \d+, \d+\.\d+ '
# What a line of an explanation tells, by its form.
TOLD_BY = {
    **{f'a rank at {word}': rf'  rank \d+ waits at {CALL}{word}\b' for word in ('send', 'ssend', 'recv', 'wait', 'waitany', 'barrier')},
    **{f'a wait for {word}': rf'    {CALL}{word}\b' for word in ('isend', 'issend', 'irecv')},
    'any rank': r' +.*: for a send of any rank with ', 'any tag': r' +.*: for a send of .* with any tag',
    **{f'another {part}': rf'    {NEAREST}: {CALL}.*: another {part}' for part in DIFFERENCES},
    'a send nearly fits': rf'    {NEAREST}: {CALL}i?s?send .*', 'a receive nearly fits': rf'    {NEAREST}: {CALL}i?recv .*',
    'a send was taken': rf'    {TAKEN}: {CALL}i?s?send .*', 'a receive was taken': rf'    {TAKEN}: {CALL}i?recv .*',
    'not at a barrier, ended': r'    rank \d+ is not there: it has ended',
    **{f'not at a barrier, at {word}': rf'    rank \d+ is not there: it waits at {CALL}{word}\b' for word in ('send', 'ssend', 'recv', 'wait', 'waitany')},
    'waits for one rank': r'  rank \d+ waits for rank \d+( \(ended\))?$', 'waits for any of several ranks': r'  rank \d+ waits for any of rank .*, rank .*',
    'waits for all of several ranks': r'  rank \d+ waits for all of rank .*, rank .*',
    'waits for one that has ended': r'  rank \d+ waits for .*\(ended\).*', 'waits for nobody': r'  rank \d+ waits for nobody',
    'waits for itself': r'  rank (\d+) waits for rank \1\b',
    **{f'a cycle of {count}': rf'  {CYCLE}: rank \d+(, rank \d+){{{count}}}$' for count in (1, 2, 3, 4)},
    'a send is left over': rf'  left over: {CALL}i?s?send ', 'a receive is left over': rf'  left over: {CALL}irecv ',
    'a trap that reads nothing': r'  rank \d+, line \d+: trap [a-z-]+$',
    'a trap that reads one variable': r'  rank \d+, line \d+: trap [a-z-]+, with \w+ = [^=]*$',
    'a trap that reads several': r'  rank \d+, line \d+: trap [a-z-]+, with \w+ = .*, \w+ = ',
    'a trap that reads an array': r'  rank \d+, line \d+: trap .* = \[',
    **{f'trap {name}': rf'  rank \d+, line \d+: trap {name}' for name in ('assert', 'bad-index', 'bad-rank', 'bad-tag', 'overflow', 'zero-divisor')}}
TOLD_BY = {name: re.compile(form) for name, form in TOLD_BY.items()}
# What the leaf, and the lines below it, tell together.
OF_LEAVES = ('deadlock', 'trap', 'leftovers', 'several left over', 'a trap of several ranks', 'no cycle', 'several cycles', 'both a near miss and one taken', 'neither of them',
             'a wait for any of several requests', 'explained behind a witness', 'explained in a group', 'an end of several leaves explained')
OF_REPORTS = ('runs that are drawn', 'several leaves explained', 'nothing explained', 'until', 'ends', 'a piece', 'several pieces',
              'several modes', 'buffered', 'slots', 'version 2', 'status 0', 'status 1', 'status 2', 'status 4')
MUST_MEET = (*OF_LEAVES, *TOLD_BY, *OF_REPORTS)
BEGINS = re.compile(r'(leaf|end) \d+ (\[.*?\]|leaves (\d+) first \d+) (.*)')


def sections(lines):
    """The line of each leaf or end of a report, each with the lines below it."""
    found = []
    for line in lines:
        if (begins := BEGINS.fullmatch(line)) is not None:
            found.append((begins, []))
        elif found and not line.startswith('leaves '):
            found[-1][1].append(line)
    return found


def lines_behind(lines, place, *begins):
    """The lines behind one that begin with one of these, up to the first that doesn't."""
    return list(takewhile(lambda line: line.startswith(begins), lines[place + 1:]))


def met_of_calls(lines):
    """What is met of the calls of an explanation, by the lines behind each."""
    for place, line in enumerate(lines):
        if ': for a ' in line:
            chances = lines_behind(lines, place, f'    {NEAREST}', f'    {TAKEN}')
            yield from ['both a near miss and one taken'] * (len(chances) == 2) + ['neither of them'] * (not chances)
        if line.endswith(': for one of these requests'):
            requests = [other for other in lines_behind(lines, place, '    ') if other.startswith('    line ')]
            yield from ['a wait for any of several requests'] * (len(requests) > 1)


def met_of_leaf(begins, below):
    """What is met of a leaf or an end, and of the lines below it."""
    word, explained = begins[4].split()[0], [line for line in below if line.startswith('  ')]
    if not explained:
        return
    yield word
    yield from [name for line in explained for name, form in TOLD_BY.items() if form.match(line)]
    yield from met_of_calls(explained)
    count = sum(line.startswith(f'  {CYCLE}') for line in explained)
    yield from ['no cycle'] * (word == 'deadlock' and not count) + ['several cycles'] * (count > 1)
    yield from ['a trap of several ranks'] * (word == 'trap' and len(explained) > 1)
    yield from ['several left over'] * (word == 'leftovers' and len(explained) > 1)
    yield from ['explained behind a witness'] * (explained != below) + ['explained in a group'] * (begins[1] == 'end')
    yield from ['an end of several leaves explained'] * bool(begins[3] and int(begins[3]) > 1)


def met_in(case, wanted):
    """What a program may answer wrongly."""
    asked = case.asked
    yield f'status {wanted.status}'
    if wanted.status == 2:
        return
    found = sections(wanted.output.decode().splitlines())
    for begins, below in found:
        yield from met_of_leaf(begins, below)
    explained = sum(any(line.startswith('  ') for line in below) for _, below in found)
    yield from ['several leaves explained'] * (explained > 1) + ['nothing explained'] * (not explained)
    yield from ['until'] * asked.until + ['ends'] * asked.ends + ['a piece'] * (asked.piece is not None and explained > 0)
    yield from ['several modes'] * (asked.modes is not None) + ['several pieces'] * (explained > 1 and asked.split != 0)
    yield from ['runs that are drawn'] * (isinstance(case, explained_cases.Drawn) and explained > 0)
    yield from ['version 2'] * case.script.startswith(b'mpd 2') + ['buffered'] * (asked.mode == 'buffered')
    yield from ['slots'] * bool(asked.mode and asked.mode.startswith('slots:'))
