"""The text of a script for another number of ranks (docs/LANGUAGE.md, "Another number of ranks"), and what `diagnose` says of several numbers, and of
several modes (docs/FORMATS.md, "Several numbers of ranks", "Several modes").

compare/runs/ranked.py compares a program with it.
"""

import re

from model import diagnosed
from model.console_lines import folded
from model.debugger import BUFFERED, RENDEZVOUS
from model.diagnosed import can_be_counted, number_of
from model.diagnosed_lines import with_numbers
from model.language import Fault, Tokens, read_script

MOST_RANKS = 16
# A number of ranks, and several, as a word of `diagnose` names them.
ONE, SEVERAL = (re.compile(form, re.ASCII) for form in (r'(\d{1,9})', r'(\d{1,9})-(\d{1,9})'))


def number_place(text):
    """Where the number of ranks begins and ends in the text of a script: it is the fifth token."""
    tokens = Tokens(text)
    for _ in range(4):
        tokens.advance()
    return tokens.current.place, tokens.behind


def with_ranks(data, ranks):
    """The text of a script with this number in the place of the one after `ranks`; one that is refused stays."""
    try:
        read_script(data)
    except Fault:
        return data
    first, behind = number_place(data.decode('ascii'))
    return data[:first] + str(ranks).encode() + data[behind:]


def numbers_in(word):
    """The first and the last of the numbers of ranks that a word of `diagnose` names; None where it names none."""
    found = ONE.fullmatch(word) or SEVERAL.fullmatch(word)
    if found is None:
        return None
    first, last = (int(number) for number in (found.groups() * 2)[:2])
    return (first, last) if 1 <= first <= last <= MOST_RANKS else None


def heading(ranks):
    return f'{ranks} rank: ' if ranks == 1 else f'{ranks} ranks: '


# How a diagnosis tells how many runs do something, and how many there are in all; those of drawn runs begin otherwise.
COUNT = r'(\d+)'
OPENING = {
    'hang': (rf'it always hangs in \S+ \({COUNT} runs?\)', rf'it can hang in \S+: {COUNT} of {COUNT} runs?'),
    'trap': (rf'it always traps in \S+ \({COUNT} runs?\)', rf'it can trap in \S+: {COUNT} of {COUNT} runs?'),
    'none': (rf'it never hangs or traps in \S+, whatever is taken first \({COUNT} runs?, \d+ states?\)', rf'no hang and no trap was found in {COUNT} runs? in \S+'),
    'left': (rf'it can end with calls left over: {COUNT} of {COUNT} runs?',),
    'cut': (rf'not everything was tried: {COUNT} of {COUNT} runs? (?:was|were) cut after \d+ steps',)}
DRAWN = {
    'hang': (rf'drawn at random: {COUNT} of {COUNT} runs? hang',), 'trap': (rf'drawn at random: {COUNT} of {COUNT} runs? trap',),
    'none': (rf'drawn at random: none of {COUNT} runs? hangs or traps',), 'left': (rf'drawn at random: {COUNT} of {COUNT} runs? end with calls left over',)}
MORE = 'not everything was tried: there are more runs than these'
IN_SHORT = {'hang': '{} hang', 'trap': '{} trap', 'none': 'none hangs or traps', 'left': '{} with calls left over', 'cut': '{} cut'}


# Where every run fails one line tells what else two tell.
BOTH = re.compile(rf'it always fails in (\S+): it hangs in ({COUNT} of ({COUNT} runs?)) and traps in {COUNT}')


def unfolded(text):
    """A text whose long lines go on in no further lines, with a line each for how many runs hang and trap, and a number of runs in each, of all."""
    lines = '\n'.join(line if line.startswith(' ') else with_numbers(line).replace(' the first ', ' ') for line in re.sub(r'\n {8}(?=\S)', ' ', text).split('\n'))
    return BOTH.sub(r'it can hang in \1: \2\nit can trap in \1: \6 of \4', lines)


def counts_in(lines, forms):
    """What lines tell by these forms: how many runs do something, and how many there are; all do where one number stands there."""
    found = {name: next((told.groups() for form in each for told in [re.fullmatch(form, line) for line in lines] if told), None) for name, each in forms.items()}
    return {name: (counts * 2)[:2] for name, counts in found.items() if counts}


def ways_in(lines, forms, more=''):
    """How many runs lines tell of, and in short what becomes of them, with what stands between."""
    counts = counts_in(lines, forms)
    total = next((total for _, total in counts.values()), 'no')
    runs = f'{total} run{"" if total == "1" else "s"}' if total == 'no' or can_be_counted(int(total)) else diagnosed.several(int(total), 'run')
    return ', '.join([f'{runs}{more}', *(IN_SHORT[name].format(number_of(int(count))) for name, (count, _) in counts.items())])


def brief(head, text, place):
    """The lines that tell in short what becomes of runs, by what their diagnosis says, with what stands before that and behind how many there are."""
    opening, *others = [part.splitlines() for part in unfolded(text).split('\n\n')]
    drawn = [part for part in others if part[0].startswith('drawn at random: ')]
    told = [ways_in(opening, OPENING, ' and more' * (MORE in opening) + place), *(f'drawn at random: {ways_in(part, DRAWN)}' for part in drawn)]
    return ''.join(f'{line}\n' for line in folded(head + '; '.join(told)))


def in_short(number, text, mode):
    """The lines that tell of a number of ranks what becomes of its runs."""
    return brief(heading(number), text, f' in {mode}')


def several(numbers, answers, command, mode=RENDEZVOUS):
    """What is said of several numbers of ranks, and the status, by what is answered of each; `command` tells how more is seen of one."""
    lines = [in_short(number, answer.output.decode(), mode).encode() for number, answer in zip(numbers, answers)]
    bad = [number for number, answer in zip(numbers, answers) if answer.status == 1]
    statuses = [answer.status for answer in answers]
    more = [f'\n  {command(bad[0])}\n'.encode()] if bad else []
    return b''.join(lines + more), next((status for status in (1, 4) if status in statuses), 0)


# ---- several modes

ALL_GOOD = 'no run hangs or traps in any of these modes'
LEFT_IN = 'calls can be left over in'
NOT_ALL = 'no hang and no trap was found, but not everything was tried in'


def modes_up_to(most):
    """The modes that are tried up to so many slots."""
    return [RENDEZVOUS, *(f'slots:{slots}' for slots in range(1, most + 1)), BUFFERED]


def mode_in_short(mode, text):
    """The lines that tell of a mode what becomes of the runs."""
    return brief(f'{mode}: ', text, '')


def leaves_some(answer):
    """Whether a run ends with calls left over, by what is answered of a mode."""
    return re.search('^(?:it can|drawn at random: .*) end with calls left over', unfolded(answer.output.decode()), re.MULTILINE) is not None


def in_modes(modes, answers, command):
    """What is said of several modes, and the status, by what is answered in each; `command` tells how more is seen of one."""
    lines = [mode_in_short(mode, answer.output.decode()) for mode, answer in zip(modes, answers)]
    bad, part = ([mode for mode, answer in zip(modes, answers) if answer.status == status] for status in (1, 4))
    left = [mode for mode, answer in zip(modes, answers) if leaves_some(answer)]
    if bad:
        said = []
    elif part:
        said = [f'{NOT_ALL} {", ".join(part)}']
    else:
        said = [ALL_GOOD, *[f'{LEFT_IN} {", ".join(left)}'] * bool(left)]
    told = [*(line for part_of in said for line in folded(part_of)), *(f'  {command(mode)}' for mode in (bad or part or left)[:1])]
    return ''.join([*lines, '\n', *(f'{line}\n' for line in told)]).encode(), 1 if bad else 4 if part else 0
