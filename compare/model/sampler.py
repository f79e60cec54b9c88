"""Samples, in the model: runs of the wide walk whose choices are drawn at random, by a generator that a number seeds.

The generator is PCG (XSL RR, 128 bits of state, 64-bit words), of which the low 32 bits of each word are taken; its seed of 32 bytes is
made of the number by PCG (XSH RR). A number below a range is drawn by Canon's method: a word is read as a fraction of 2^32, and one more
word says whether its further digits carry.
"""

from itertools import islice

from model.explorer import Report, is_bad, up_to_bad
from model.walks import Leaf, Run, ending, listed, taken
from model.wide import followed, wide_walk

LOW_32, LOW_64, LOW_128 = (1 << 32) - 1, (1 << 64) - 1, (1 << 128) - 1
SEED_FACTOR, SEED_STEP = 0x5851F42D4C957F2D, 0xA17654E46FBE17F3
FACTOR = 0x2360ED051FC65DA44385DF649FCCF645


def turned(number, places, width):
    """A number of so many bits, turned to the right."""
    places %= width
    return (number >> places | number << (width - places)) & ((1 << width) - 1)


def seed_bytes(number):
    """The 32 bytes that a number is made to."""
    found = b''
    for _ in range(8):
        number = (number * SEED_FACTOR + SEED_STEP) & LOW_64
        found += turned((number >> 18 ^ number) >> 27 & LOW_32, number >> 59, 32).to_bytes(4, 'little')
    return found


def words(number):
    """The words of 32 bits of a generator that is seeded with a number, without end."""
    seed = seed_bytes(number)
    state, step = (int.from_bytes(seed[at:at + 16], 'little') for at in (0, 16))
    step |= 1
    state = ((state + step) * FACTOR + step) & LOW_128
    while True:
        state = (state * FACTOR + step) & LOW_128
        yield turned(state >> 64 ^ state & LOW_64, state >> 122, 64) & LOW_32


def below(count, numbers):
    """A number below a count, of the words of a generator."""
    high, low = divmod(next(numbers) * count, 1 << 32)
    if low > (1 << 32) - count and low + (next(numbers) * count >> 32) > LOW_32:
        return high + 1
    return high


def drawn(world, fuel, numbers):
    """The leaf of a run that is drawn, with the steps from this world."""
    run, decided = followed(Run(world, fuel))
    while (ended := ending(decided, run.fuel)) is None:
        number = below(len(decided.steps), numbers)
        run, decided = followed(taken(run, decided.steps[number], number))
    return Leaf(run.choices, listed(run.steps), ended)


def sampled(walked, runs, fuel, seed, until_bad=False):
    """The report of so many runs that are drawn from where a debugger is: each different one once, in the order of their choices. Where that
    is asked for, the drawing ends with the first deadlock or trap, and so does the report."""
    numbers = words(seed)
    found = {}
    for _ in range(runs):
        leaf = drawn(walked.world, fuel, numbers)
        found[leaf.choices] = leaf
        if until_bad and is_bad(leaf):
            break
    before = tuple(walked.steps[:walked.depth])
    leaves = tuple(leaf._replace(steps=before + leaf.steps) for _, leaf in sorted(found.items()))
    report = Report(leaves, len(list(islice(wide_walk(walked.world, fuel), len(leaves) + 1))) > len(leaves))
    return up_to_bad(report) if until_bad else report
