"""Scripts in which one step decides how a run ends, for outcomes.py: by who comes first, or second, a rank hangs, traps, or ends well; by the request
that it goes on by; or by whether it issues a send before another one is matched, in a mode of slots.

Values and tags are negative, or as large as there are.
"""

from cases import every_end
from cases.explore_cases import KINDS_OF_SLOTS, Kind, kind_of, script_of
from model.modes import BUFFERED, RENDEZVOUS

VALUES = ('rank', '-rank', 'rank - 9223372036854775807', '9223372036854775807 - rank', '-9223372036854775807 - 1', '1000000 * rank')
TAGS = ('0', '7', 'rank', '32767 - rank')
# What a rank does that ends badly.
WRONG = ('recv y from any tag 40;', 'assert 0;', 'recv y from 0 tag 9;', 'barrier;', 'y = 1 / 0;', 'ssend 1 to rank tag 40;')
MODES_DRAWN = RENDEZVOUS, RENDEZVOUS, BUFFERED, 'slots:1', 'slots:2'


def by_order(random, ranks):
    """Rank 0 receives of any source, and by whose message comes at a place, or at two, it goes wrong."""
    count = random.choice([1, 1, 2])
    word = random.choice(['send', 'isend r[0]', 'ssend'])
    parts = ['recv x from any tag any status s t;'] * ((ranks - 1) * count)
    for _ in range(random.choice([1, 1, 2, 3])):
        test = random.choice(['s == {}', 's == {}', 's != {}', 's > {}']).format(random.randint(1, ranks - 1))
        parts.insert(random.randint(1, len(parts)), f'if {test} {{ {random.choice(WRONG)} }}')
    sends = ' '.join([f'{word} {random.choice(VALUES)} to 0 tag {random.choice(TAGS)};' for _ in range(count)])
    return f'if rank == 0 {{ {" ".join(parts)} }} else {{ {sends} }}\n'


def by_request(random, ranks):
    """Rank 0 waits for any of two requests, and by which of them it goes on it goes wrong; or by another message that it receives then."""
    sources = [random.choice(['any', 'any', str(ranks - 1), '1']) for _ in range(2)]
    receives = ' '.join(f'irecv r[{place}] a[{place}] from {source} tag any;' for place, source in enumerate(sources))
    behind = random.choice(['', 'recv y from any tag any status s t; if s == 1 { assert 0; }', 'waitany r to s;'])
    wrong = f'if i == {random.randint(0, 1)} {{ {random.choice(WRONG)} }}'
    sends = ' '.join([f'isend r[{place}] {random.choice(VALUES)} to 0 tag {random.choice(TAGS)};' for place in range(random.choice([1, 2]))])
    return f'if rank == 0 {{ {receives} waitany r to i; {wrong} {behind} }} else {{ {sends} }}\n'


DECLARED = 'var x; var y; var i; var s; var t; var a[20]; req h; req r[8];'
DECIDING = {'by_order': Kind(by_order, 60, (3, 3, 3, 4), DECLARED), 'by_request': Kind(by_request, 25, (2, 3), DECLARED, version=2)}
OF_SLOTS = {name: kind._replace(ranks=tuple(ranks for ranks in kind.ranks if ranks <= 3)) for name, kind in KINDS_OF_SLOTS.items()}


def kinds(mode):
    """The kinds of scripts that are asked in a mode."""
    return DECIDING | OF_SLOTS if mode.startswith('slots') else DECIDING


def mode_of(number):
    """The mode of the script of a number."""
    return MODES_DRAWN[number % len(MODES_DRAWN)]


def script_for(random, mode):
    """The name of a kind, and a script of it, to be checked in a mode."""
    of_kinds = kinds(mode)
    name = kind_of(random, of_kinds)
    return name, script_of(random, of_kinds[name])


def small(seed, number):
    """A small script of that kind in a list, as far as it is one."""
    mode = mode_of(number)
    found = every_end.small(f'deciding-{seed}', number, kinds(mode), mode)
    return [] if found is None else [found]
