"""Small random scripts, of which all interleavings can be tried."""

from cases.explore_cases import KINDS, KINDS_OF_2, KINDS_OF_SLOTS, Kind
from cases.wildcard_cases import in_branches

FORWARD = ('', '', 'send x to 0 tag 0;', 'isend h x to 0 tag 0;', 'if x == 3 { recv y from any tag 9; }', 'assert x == 2;')
SOURCES = ('any', 'any', '2', 'size - 1')


def several(random, ranks):
    """Two ranks receive what the others send them, mostly of any source, and one of the two may send on what it received."""
    first = 'recv x from any tag any;' * random.choice([1, 1, 2])
    second = f'recv x from {random.choice(SOURCES)} tag any; {random.choice(FORWARD)}'
    senders = []
    for _ in range(2, ranks):
        receivers = random.sample(range(2), random.choice([1, 1, 2]))
        senders.append(' '.join(f'{random.choice(["send", "isend h"])} rank to {receiver} tag 0;' for receiver in receivers))
    return in_branches([[part] for part in (first, second, *senders)]) + '\n'


def of_few_ranks(kinds):
    """Kinds of scripts with three ranks at most; none of texts that may be refused, and none of any statements."""
    return {name: kind._replace(ranks=tuple(ranks for ranks in kind.ranks if ranks <= 3)) for name, kind in kinds.items()
            if min(kind.ranks) <= 3 and name not in ('any', 'any_script', 'refused')}


SMALL = {'several': Kind(several, 30, (3, 4, 4))} | of_few_ranks(KINDS)
# Those with waits for any, and those that stand beside the others in a mode of slots.
SMALL_OF_2, SMALL_OF_SLOTS = of_few_ranks(KINDS_OF_2), of_few_ranks(KINDS_OF_SLOTS)
