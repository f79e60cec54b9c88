"""Faults that are put into what the model makes of a script for another number of ranks, on purpose: ranked.py must notice each."""

import re

from faults.policy_faults import Breakage
from model import ranks

SOUND = {name: getattr(ranks, name) for name in ('with_ranks', 'number_place', 'numbers_in', 'heading', 'brief', 'in_short', 'several', 'modes_up_to', 'mode_in_short', 'leaves_some', 'in_modes')}


def put(name, attribute, replacement):
    return Breakage(name, ranks, attribute, replacement)


def texts(name, change):
    """A fault of the text: what is made of it, and of the number, by what is sound."""
    return put(name, 'with_ranks', lambda data, number: change(SOUND['with_ranks'](data, number), data, number))


def place_of(found):
    return found.start(), found.end()


def first_part_alone(modes, answers, command):
    """What names the first alone of the modes that aren't whole, or where calls can be left over."""
    text, status = SOUND['in_modes'](modes, answers, command)
    return re.sub(rb'(tried in \S+?|left over in \S+?),(?: \S+)*(?:\n {8}.*)?', rb'\1', text), status


FAULTS = (
    texts('the number is kept', lambda made, data, number: data),
    texts('one rank more', lambda made, data, number: SOUND['with_ranks'](data, number % 16 + 1)),
    texts('one rank less', lambda made, data, number: SOUND['with_ranks'](data, max(1, number - 1))),
    texts('the lines are others', lambda made, data, number: b'\n' + made if made != data else made),
    texts('the last line is lost', lambda made, data, number: made.rstrip(b'\n').rpartition(b'\n')[0] if made != data else made),
    texts('the version is the newest', lambda made, data, number: re.sub(rb'\bmpd(\s+)0*1\b', rb'mpd\g<1>2', made, count=1)),
    texts('comments are lost', lambda made, data, number: re.sub(rb'#[^\n]*', b'', made)),
    texts('size stays', lambda made, data, number: re.sub(rb'\bsize\b', b'%d' % int(re.search(rb'ranks\s*(?:#.*\s*)*(\d+)', data)[1]), made) if made != data else made),
    texts('leading zeros stay', lambda made, data, number: re.sub(rb'(\branks(?:\s|#.*\n)*)(\d+)', rb'\g<1>0\g<2>', made, count=1) if made != data else made),
    put('the first number', 'number_place', lambda text: place_of(re.search(r'\d+', text))),
    put('the last number', 'number_place', lambda text: place_of(list(re.finditer(r'\d+', text))[-1])),
    put('the first number after ranks', 'number_place', lambda text: place_of(re.search(r'ranks[^\d]*(\d+)', text))),
    put('one number alone', 'numbers_in', lambda word: None if '-' in word else SOUND['numbers_in'](word)),
    put('the first of several alone', 'numbers_in', lambda word: SOUND['numbers_in'](word) and (SOUND['numbers_in'](word)[0],) * 2),
    put('any order', 'numbers_in', lambda word: SOUND['numbers_in'](word) or SOUND['numbers_in']('-'.join(reversed(word.split('-'))))),
    put('1 ranks', 'heading', '{} ranks: '.format),
    put('rank for all', 'heading', '{} rank: '.format),
    put('no more is told', 'several', lambda numbers, answers, command: (SOUND['several'](numbers, answers, command)[0].partition(b'\n\n')[0] + b'\n', SOUND['several'](numbers, answers, command)[1])),
    put('no others are told of', 'MORE', 'nothing'),
    put('what was drawn is not told', 'in_short', lambda number, text, mode: SOUND['in_short'](number, text.partition('\n\ndrawn')[0], mode)),
    *(put(f'{name} is not told', 'OPENING', {it: forms for it, forms in ranks.OPENING.items() if it != name}) for name in ('left', 'cut')),
    put('hangs and traps turned', 'OPENING', {**ranks.OPENING, 'hang': ranks.OPENING['trap'], 'trap': ranks.OPENING['hang']}),
    put('long lines', 'folded', lambda line: [line]),
    put('the first line alone', 'unfolded', lambda text: text),
    put('the last bad number', 'several', lambda numbers, answers, command: (
        b''.join(ranks.in_short(number, answer.output.decode(), ranks.RENDEZVOUS).encode() for number, answer in zip(numbers, answers))
        + b''.join([f'\n  {command(number)}\n'.encode() for number, answer in zip(numbers, answers) if answer.status == 1][-1:]), SOUND['several'](numbers, answers, command)[1])),
    put('the status of the last', 'several', lambda numbers, answers, command: (SOUND['several'](numbers, answers, command)[0], answers[-1].status)),
    put('no status', 'several', lambda numbers, answers, command: (SOUND['several'](numbers, answers, command)[0], 0)),
    put('the last mode is left out', 'modes_up_to', lambda most: SOUND['modes_up_to'](most)[:-1]),
    put('a slot less', 'modes_up_to', lambda most: SOUND['modes_up_to'](max(0, most - 1))),
    put('slots from 0', 'modes_up_to', lambda most: [mode.replace('slots:1', 'slots:0') for mode in SOUND['modes_up_to'](most)]),
    put('buffered first', 'modes_up_to', lambda most: SOUND['modes_up_to'](most)[::-1]),
    put('the mode twice', 'mode_in_short', lambda mode, text: SOUND['brief'](f'{mode}: ', text, f' in {mode}')),
    put('no mode', 'mode_in_short', lambda mode, text: SOUND['brief']('', text, '')),
    put('another mode', 'mode_in_short', lambda mode, text: SOUND['mode_in_short']('buffered', text)),
    put('the runs of the first mode', 'in_modes', lambda modes, answers, command: SOUND['in_modes'](modes, [answers[0]._replace(status=it.status) for it in answers], command)),
    put('the last bad mode', 'in_modes', lambda modes, answers, command: (
        b''.join(ranks.mode_in_short(mode, it.output.decode()).encode() for mode, it in zip(modes, answers))
        + SOUND['in_modes'](modes[::-1], answers[::-1], command)[0].partition(b'\n\n')[2].join([b'\n', b'']), SOUND['in_modes'](modes, answers, command)[1])),
    put('the first mode that is not whole before a bad one', 'in_modes', lambda modes, answers, command: SOUND['in_modes'](
        modes, [it._replace(status=0) if it.status == 1 and 4 in {other.status for other in answers} else it for it in answers], command)),
    put('the first mode that is not whole alone', 'in_modes', first_part_alone), put('not that calls can be left over', 'leaves_some', lambda answer: False),
    put('calls are left over in each mode', 'leaves_some', lambda answer: True),
    put('other words for calls that are left over', 'LEFT_IN', 'calls are left over in'),
    put('nothing is said of good modes', 'ALL_GOOD', ''), put('nothing is said of modes that are not whole', 'NOT_ALL', ''),
    put('the status of the last mode', 'in_modes', lambda modes, answers, command: (SOUND['in_modes'](modes, answers, command)[0], answers[-1].status)),
    put('a status of 0 with a bad mode', 'in_modes', lambda modes, answers, command: (SOUND['in_modes'](modes, answers, command)[0], 0)),
    put('both in a line is none', 'unfolded', lambda text: re.sub(r'\n {8}(?=\S)', ' ', text)))
