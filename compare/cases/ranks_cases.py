"""Random scripts, other numbers of ranks, and what each command is asked of them."""

import json
from random import Random
from typing import NamedTuple

from cases import diagnosed_cases
from cases.explore_cases import KINDS, KINDS_OF_2, kind_of, script_of
from cases.scripts import Writer, rendered
from model.diagnosed import Diagnosis
from model.modes import BUFFERED, RENDEZVOUS
from model.ranks import with_ranks

NUMBERS = (1, 1, 2, 2, 2, 3, 3, 3, 4, 4, 5, 8, 16)
MODES = (None, None, RENDEZVOUS, BUFFERED, 'slots:1')
# How the head of a script may be written, up to the number of ranks.
HEADS = ('mpd {v};\nranks ', 'mpd {v}; ranks ', 'mpd {v};ranks ', '# 7 ranks\nmpd 0{v};\n\nranks\t# 5\n', 'mpd\n{v}\n;\nranks\n', 'mpd {v}; # ranks 9;\r\nranks 00')
TRACE = ('local 0', 'local 1', 'local 2', 'local 3', 'match 0.0 1.0', 'match 1.0 0.0', 'wake 0', 'wake 1', 'release', 'enabled', 'show', 'back', 'redo', 'goto 1')
TALK = ('next', 'next 3', 'run', 'back', 'list', 'list 1', 'ranks', 'vars 0', 'calls', 'why 0', 'why 1', 'run-back', 'fly')
# What takes long where there are many ranks.
SEARCHES = ('check', 'deadlock')
REQUESTS = ({'cmd': 'state'}, {'cmd': 'enabled'}, {'cmd': 'run', 'max': 20}, {'cmd': 'back'}, {'cmd': 'vars', 'rank': 0}, {'cmd': 'calls', 'rank': 1}, {'cmd': 'why', 'rank': 0},
            {'cmd': 'step', 'step': 'local 1'}, {'cmd': 'redo'}, {'cmd': 'fly'})
CHECKS = ('--runs 3 --fuel 200 --witness --explain', '--ends --group --runs 3 --fuel 100', '--sample 5 --seed 3 --fuel 100', '--modes 1 --runs 2 --fuel 100',
          '--outcomes --states 200 --fuel 100', '--pieces --split 1 --fuel 100', '--piece 0 --runs 2 --fuel 100 --complete', '--until deadlock --runs 4 --fuel 100')
CHOICES = ('', '0', '0 0', '1', '0 1 0')
WITNESSES = (b'deadlock 0.0 1.0\nlocal 0, local 1\n', b'deadlock 0.0\nlocal 0\n', b'deadlock 0.0 1.0 2.0\nlocal 0, local 1, local 2\n')


class Question(NamedTuple):
    """Words of a command after which options follow, with FILE and WITNESS for the names of files, what stands on standard input, and a witness."""
    words: tuple
    data: bytes = b''
    witness: bytes = b''

    @property
    def command(self):
        return self.words[0]


class Case(NamedTuple):
    """A script, how many ranks it is meant for, and what is asked of it."""
    name: str
    script: bytes
    ranks: int
    questions: tuple

    @property
    def other(self):
        """The text with that number in it."""
        return with_ranks(self.script, self.ranks)


def other_head(random, script):
    """The script with its head written otherwise, where it begins as most do."""
    front, sign, rest = script.partition(b';')
    number, again, behind = rest.partition(b';')
    if not (sign and again) or front.split()[:1] != [b'mpd'] or number.split()[:1] != [b'ranks'] or len(number.split()) != 2 or len(front.split()) != 2:
        return script
    return random.choice(HEADS).format(v=front.split()[1].decode()).encode() + number.split()[1] + again + behind


def text_of(random, number):
    """The name of a kind and a script of it: most as reports have them, some of any statements, and some that are refused."""
    if number % 6 == 5:
        writer = Writer(random, random.choice([1, 2, 3, 16]), version=random.choice([1, 2]))
        return 'any', rendered(random, writer.script())
    kinds = KINDS_OF_2 if number % 6 == 4 else KINDS
    name = kind_of(random, kinds)
    return name, other_head(random, script_of(random, kinds[name]))


def lines(random, words, count):
    return ''.join(f'{random.choice(words)}\n' for _ in range(count)).encode()


def asked_of(random, script, ranks):
    """What each command is asked; a diagnosis only where it comes to few states."""
    mode = random.choice(MODES)
    options = () if mode is None else ('--mode', mode)
    yield Question(('trace', 'FILE', *options), lines(random, TRACE, 12) + b'show\n')
    yield Question(('debug', 'FILE', *options), b'list\n' + lines(random, TALK + SEARCHES * (ranks <= 4), 5))
    yield Question(('run', 'FILE', *options), b''.join(json.dumps(random.choice(REQUESTS)).encode() + b'\n' for _ in range(5)))
    yield Question(('check', 'FILE', *options, *random.choice(CHECKS).split()))
    yield Question(('words', 'FILE', *options, '--choices', random.choice(CHOICES), '--fuel', '60', *random.choice([(), ('--ends',)])))
    yield Question(('verify', 'FILE', 'WITNESS', *options), witness=random.choice(WITNESSES))
    yield Question(('c', 'FILE'))
    yield Question(('picture', 'FILE', *options, '--fuel', '40', *random.choice([(), ('--ends',), ('--choices', '0')])))
    if ranks <= 4 and diagnosed_cases.comes_to_few(Diagnosis('few', with_ranks(script, ranks), mode)):
        yield Question(('diagnose', 'FILE', *options, *random.choice([(), ('--strict',)])))


def random_case(seed, number):
    """One case, the same each time."""
    random = Random(f'ranks/{seed}/{number}')
    name, script = text_of(random, number)
    ranks = random.choice(NUMBERS)
    return Case(f'{name}-{seed}-{number}', script, ranks, tuple(asked_of(random, script, ranks)))
