"""Checks by runs that are drawn at random, for sampled.py: random scripts, hangs that few runs come to, and scripts whose runs are counted.

What is counted is how often each run is drawn over many seeds, which says whether each candidate is as likely as the others.
"""

from random import Random
from typing import NamedTuple, Optional

from cases.ends_cases import kinds, with_short_runs
from cases.explore_cases import Case, asked, kind_of, script_of
from cases.piece_cases import script_of as read_script_of
from cases.rare_cases import Hang, Races, hang
from model.modes import is_mode
from model.samples import MOST_SEED, Sampling
from rows.worked_ends import FREED_SLOT, ORDER_DECIDES
from rows.worked_explorer import gathering
from rows.worked_pieces import BY_FIRST
from rows.worked_runs import THREE

COUNTS = (1, 1, 2, 3, 4, 6, 8, 13, 20, 40)
SEEDS = (None, 0, 0, 1, 2, 7, 1 << 32, (1 << 32) + 1, 1 << 63, MOST_SEED - 1, MOST_SEED)


def random_sampling(seed, number):
    """A check of a random script, the same each time; None where the script is none."""
    random = Random(f'samples/{seed}/{number}')
    of_kinds = kinds(number)
    name = kind_of(random, of_kinds)
    text = script_of(random, of_kinds[name])
    options = asked(random, of_kinds[name], text, number)
    if options.mode is not None and not is_mode(options.mode):
        options = options._replace(mode=None)
    script = read_script_of(Case(name, text, options))
    if script is None:
        return None
    options = with_short_runs(script, options)
    drawn = random.choice(SEEDS) if random.random() < 0.7 else random.randrange(MOST_SEED)
    return Sampling(f'{name}-{seed}-{number}', text, random.choice(COUNTS), drawn, options.mode, options.fuel, options.witnesses, options.complete,
                    until=random.random() < 0.1)


def hang_sampling(seed, number):
    """A check that must find a hang: of so many runs that one of them comes to it, by whatever seed."""
    random = Random(f'hangs/{seed}/{number}')
    script = Hang(8) if number == 0 else Hang(12, 2, named=11) if number == 1 else hang(random)
    return Sampling(f'hang-{seed}-{number}', script.script().encode(), 100, random.randrange(MOST_SEED), until=number % 3 == 2)


class Spread(NamedTuple):
    """A script in a mode, and the share of all runs that each list of choices has where each candidate is as likely as the others."""
    name: str
    script: str
    shares: dict
    fuel: Optional[int] = None
    mode: Optional[str] = None


# Rank 0 chooses among three senders, and then once or three times; two races of one receive; four senders of one message; a run that is cut;
# and what the wide walk alone comes to (worked_ends.py).
SPREADS = (
    Spread('a race behind one candidate', BY_FIRST, {(0, 0, 0): 1 / 6, (0, 1, 0): 1 / 6, (1,): 1 / 3, (2,): 1 / 3}),
    Spread('two races', Races(2, 2, 1).script(), {(first, second): 1 / 8 for first in range(4) for second in range(2)}),
    Spread('four senders', gathering(5, 1), {(first,): 1 / 4 for first in range(4)}),
    Spread('a run that is cut', THREE, {(0,): 1 / 2, (1,): 1 / 2}, 12),
    Spread('a waitany', ORDER_DECIDES, {(0, 0): 1 / 2, (1, 0): 1 / 4, (1, 1): 1 / 4}),
    Spread('a slot', FREED_SLOT, {(0, 0): 1 / 2, (1,): 1 / 2}, mode='slots:1'))
# So many seeds are counted, and so far from what it should be a count may be, in times of how far it is mostly.
MANY_SEEDS, MOST_DEVIATIONS = 400, 4.5
# Of two races all eight runs are as likely; of so many that are drawn, so many are different ones, in the mean of so many seeds.
DRAWN, SEVERAL_SEEDS, LEAST_DIFFERENT, MOST_DIFFERENT = 8, 60, 4.8, 5.7
# Each of these bits of a seed changes some report of so many.
BITS, CHANGED_SEEDS = (0, 1, 8, 31, 32, 40, 62, 63), 8
